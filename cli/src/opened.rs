//! What a query record opens of the sealed file: the words of its group on level 0, which the record ties to the root, as bytes at their
//! offsets (SPECIFICATION 15.1). Offsets are counted from 0.

use crate::reading::shown_name;
use dequmlo::QueryRecord;
use std::ffi::OsStr;

/// How many zeros at the end of a text are shown one by one.
const FEW_ZEROS: usize = 3;

/// The bytes of a line of hexadecimal digits.
const LINE: usize = 16;

/// The words that a record has of level 0, from a place on.
pub struct Opened {
    n: usize,
    place: usize,
    words: Vec<[u8; 16]>,
    /// Where the table is that of a part of a larger file, the offset at which the part starts.
    part: Option<usize>,
}

impl Opened {
    /// What a record at a position opens of a table of 2^n words; none where it does not read whole.
    pub fn of(n: usize, position: usize, record: &QueryRecord) -> Option<Opened> {
        let group = record.levels()?.into_iter().next()?.a_group;
        let words = group.iter().map(|word| word.0.to_le_bytes()).collect();
        Opened::of_group(n, position, words)
    }

    /// A pair stands in one group, so that the group of a position is that of its pair. None where the group has no word.
    fn of_group(n: usize, position: usize, words: Vec<[u8; 16]>) -> Option<Opened> {
        let place = position - position.checked_rem(words.len())?;
        Some(Opened {
            n,
            place,
            words,
            part: None,
        })
    }

    /// The same of a part that starts at this offset of its file.
    pub fn in_part(self, start: usize) -> Opened {
        Opened {
            part: Some(start),
            ..self
        }
    }

    /// The words of the table among them: those of block 0.
    fn table(&self) -> &[[u8; 16]] {
        let count = (1usize << self.n).saturating_sub(self.place);
        &self.words[..count.min(self.words.len())]
    }

    /// The file's length, where its word, the table's last, is among them.
    pub fn length(&self) -> Option<u128> {
        let last = ((1usize << self.n) - 1).checked_sub(self.place)?;
        self.words.get(last).map(|word| u128::from_le_bytes(*word))
    }

    /// The offset of the first byte of the file among them, and the bytes, as far as the file goes where its length is known.
    pub fn bytes(&self, length: Option<u128>) -> (usize, Vec<u8>) {
        let own = usize::from(self.length().is_some());
        let table = self.table();
        let mut bytes = table[..table.len().saturating_sub(own)].concat();
        let offset = 16 * self.place;
        let end = length.map_or(usize::MAX, |length| {
            usize::try_from(length).unwrap_or(usize::MAX)
        });
        bytes.truncate(end.saturating_sub(offset));
        (self.part.unwrap_or(0) + offset, bytes)
    }

    /// What is shown, in words.
    pub fn sentence(&self, length: Option<u128>) -> String {
        if self.table().is_empty() {
            return "no byte of the file itself: its words are the code's, which are made from all of the file".into();
        }
        let (offset, bytes) = self.bytes(length);
        let mut parts = Vec::new();
        if let Some(last) = bytes.len().checked_sub(1) {
            let fill = if length.is_none() && self.may_be_behind_the_end() {
                " (zeros where it ends before)"
            } else {
                ""
            };
            parts.push(format!(
                "bytes {offset} to {} of the file{fill}",
                offset + last
            ));
        }
        let whose = match self.part {
            None => "its length",
            Some(_) => "the length of its part",
        };
        parts.extend(
            self.length()
                .map(|length| format!("{whose}, {length} bytes")),
        );
        if parts.is_empty() {
            parts.push("zeros behind the end of the file".into());
        }
        parts.join(", and ")
    }

    /// Whether the file may end before the last of these bytes. A file is longer than all words but one of half the table.
    fn may_be_behind_the_end(&self) -> bool {
        self.place + self.words.len() > (1usize << self.n) / 2 - 1
    }
}

/// Bytes as text on one line: UTF-8 as far as they are that, and nothing that a terminal acts on.
pub fn as_text(bytes: &[u8]) -> String {
    let zeros = bytes.iter().rev().take_while(|b| **b == 0).count();
    if zeros > FEW_ZEROS {
        let (bytes, zeros) = (
            &bytes[..bytes.len() - zeros],
            format!("({zeros} bytes of zero)"),
        );
        return format!("{} {zeros}", as_text(bytes)).trim_start().into();
    }
    let text = String::from_utf8_lossy(bytes);
    let on_one_line = text.replace('\n', "\\n").replace('\t', "\\t");
    shown_name(OsStr::new(&on_one_line))
}

/// Bytes as lines of hexadecimal digits with their offsets, and the graphic characters of ASCII beside them.
pub fn as_digits(offset: usize, bytes: &[u8]) -> Vec<String> {
    let line = |(i, chunk): (usize, &[u8])| {
        let digits: Vec<String> = chunk.iter().map(|b| format!("{b:02x}")).collect();
        let graphic = |b: &u8| {
            if (0x20..0x7f).contains(b) {
                *b as char
            } else {
                '.'
            }
        };
        let text: String = chunk.iter().map(graphic).collect();
        format!(
            "{:>8}  {:<47}  |{text}|",
            offset + LINE * i,
            digits.join(" ")
        )
    };
    bytes.chunks(LINE).enumerate().map(line).collect()
}

#[cfg(test)]
mod tests {
    use super::{as_digits, as_text, Opened};

    /// What a record at a position opens whose group has these words.
    fn opened(n: usize, position: usize, words: &[[u8; 16]]) -> Opened {
        Opened::of_group(n, position, words.to_vec()).unwrap()
    }

    fn number(number: u8) -> [u8; 16] {
        (number as u128).to_le_bytes()
    }

    #[test]
    fn the_group_of_a_position_and_its_bytes() {
        let group = opened(6, 21, &[[b'x'; 16]; 8]);
        assert_eq!(group.bytes(None), (16 * 16, vec![b'x'; 128]));
        assert_eq!(group.sentence(None), "bytes 256 to 383 of the file");
        assert_eq!(group.bytes(Some(300)), (256, vec![b'x'; 44]));
        assert_eq!(group.sentence(Some(300)), "bytes 256 to 299 of the file");
        assert_eq!(
            group.sentence(Some(256)),
            "zeros behind the end of the file"
        );
    }

    #[test]
    fn the_second_half_may_be_behind_the_end() {
        let words = [[0; 16]; 8];
        let said = |position| opened(6, position, &words).sentence(None);
        assert_eq!(said(23), "bytes 256 to 383 of the file");
        assert_eq!(
            said(31),
            "bytes 384 to 511 of the file (zeros where it ends before)"
        );
    }

    #[test]
    fn the_last_word_is_the_length() {
        let mut words = [[7; 16]; 8];
        words[7] = number(200);
        let group = opened(4, 15, &words);
        assert_eq!(group.length(), Some(200));
        assert_eq!(group.bytes(group.length()), (128, vec![7; 72]));
        assert_eq!(
            group.sentence(Some(200)),
            "bytes 128 to 199 of the file, and its length, 200 bytes"
        );
        let group = opened(1, 0, &[number(0), number(0)]);
        assert_eq!(group.sentence(group.length()), "its length, 0 bytes");
        assert_eq!(opened(4, 7, &words).length(), None);
    }

    /// A length that no file has, as another program may seal it.
    #[test]
    fn a_length_beyond_the_table() {
        let mut words = [[7; 16]; 8];
        words[7] = [255; 16];
        let group = opened(4, 15, &words);
        assert_eq!(group.bytes(group.length()), (128, vec![7; 112]));
    }

    #[test]
    fn words_of_the_code_are_no_bytes_of_the_file() {
        let group = opened(6, 64, &[[7; 16]; 8]);
        assert_eq!(group.bytes(None).1, b"");
        assert_eq!(group.length(), None);
        assert!(group
            .sentence(None)
            .starts_with("no byte of the file itself"));
        // A small table: its two words, and six of the code.
        let mut words = [[7; 16]; 8];
        words[1] = number(5);
        let group = opened(1, 3, &words);
        assert_eq!(group.bytes(group.length()), (0, vec![7; 5]));
        assert_eq!(
            group.sentence(group.length()),
            "bytes 0 to 4 of the file, and its length, 5 bytes"
        );
    }

    #[test]
    fn a_record_that_shows_no_word_opens_nothing() {
        let opened = |bytes: &[u8]| Opened::of(6, 7, &bytes.to_vec().into());
        let one_level = [&[1, 0, 0, 0][..], &[0; 48 + 16]].concat();
        for bytes in [&one_level[..], &one_level[1..], &[0; 4], &[]] {
            assert!(opened(bytes).is_none(), "{bytes:?}");
        }
    }

    #[test]
    fn text_and_digits() {
        assert_eq!(
            as_text("план\n\u{202e}\u{1b}".as_bytes()),
            "план\\n\\u{202e}\\u{1b}"
        );
        assert_eq!(as_text(b"\xff"), "\u{fffd}");
        assert_eq!(as_text(&[0; 128]), "(128 bytes of zero)");
        assert_eq!(as_text(b"end.\n\0\0\0\0"), "end.\\n (4 bytes of zero)");
        assert_eq!(as_text(b"a\0"), "a\\u{0}");
        let lines = as_digits(32, b"a ground plan, and\n");
        assert_eq!(
            lines[0],
            "      32  61 20 67 72 6f 75 6e 64 20 70 6c 61 6e 2c 20 61  |a ground plan, a|"
        );
        assert_eq!(lines[1], format!("      48  {:<47}  |nd.|", "6e 64 0a"));
    }
}
