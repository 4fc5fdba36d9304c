//! Bytes as hexadecimal digits.

pub fn write(bytes: &[u8]) -> String {
    bytes.iter().map(|b| format!("{b:02x}")).collect()
}

pub fn read(text: &str) -> Option<Vec<u8>> {
    if text.len() % 2 == 1 || !text.bytes().all(|b| b.is_ascii_hexdigit()) {
        return None;
    }
    (0..text.len())
        .step_by(2)
        .map(|i| u8::from_str_radix(&text[i..i + 2], 16).ok())
        .collect()
}

#[cfg(test)]
mod tests {
    #[test]
    fn what_is_written_is_read() {
        assert_eq!(
            super::read(&super::write(&[0, 15, 255])),
            Some(vec![0, 15, 255])
        );
        assert_eq!(super::read("0"), None);
        assert_eq!(super::read("0g"), None);
    }
}
