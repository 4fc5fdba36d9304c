//! The key of a keyed seal: the file that it is read from and written into, and the check value by which a seal says under which key it was made
//! (SPECIFICATION 15.10). What passes through this program of a key is overwritten when it is no longer needed; the library's stack is not.

use crate::console::complain;
use crate::json::Json;
use crate::options::Options;
use crate::outcome::{Failure, Outcome};
use crate::reading::{named_file, reason, shown_path, unreadable};
use crate::system::overwrite;
use dequmlo::Key;
use std::ffi::OsStr;
use std::fmt;
use std::fs::{self, File, OpenOptions};
use std::io::{ErrorKind, Read, Write};
use std::os::unix::ffi::OsStrExt;
use std::os::unix::fs::{OpenOptionsExt, PermissionsExt};
use std::path::{Path, PathBuf};

/// The context under which check values are derived, and nothing else.
pub const CHECK_CONTEXT: &str = "dequmlo 2026-11-17 key check value";

/// The most bytes of a key's file: 64 digits and a line end of two bytes.
const MOST_OF_A_KEY: usize = 66;

/// The rights of the group and of others.
const OTHERS: u32 = 0o077;

/// A key's check value: the first half of what is derived from it under a context of its own. It leads to no key but by trying each, as the root does.
#[derive(Clone, Copy, Debug, PartialEq, Eq)]
pub struct CheckValue([u8; 16]);

impl CheckValue {
    pub fn of(key: &Key) -> CheckValue {
        let derived = Key::derive(CHECK_CONTEXT, key.bytes()).expect("both are short");
        CheckValue(derived.bytes()[..16].try_into().expect("16 of 32 bytes"))
    }

    /// The value of 32 hexadecimal digits in lowercase; none of another text.
    pub fn of_text(text: &str) -> Option<CheckValue> {
        let mut value = [0; 16];
        from_digits(text.as_bytes(), &mut value)?;
        let value = CheckValue(value);
        (value.to_string() == text).then_some(value)
    }
}

impl fmt::Display for CheckValue {
    fn fmt(&self, f: &mut fmt::Formatter) -> fmt::Result {
        self.0.iter().try_for_each(|byte| write!(f, "{byte:02x}"))
    }
}

/// Under which key something was made, in words.
pub fn told(value: Option<CheckValue>) -> String {
    value.map_or("without a key".into(), |value| {
        format!("under the key with the check value {value}")
    })
}

/// The same for programs: whether there is a key, and its check value.
pub fn found(outcome: Outcome, value: Option<CheckValue>) -> Outcome {
    outcome
        .found("keyed", Json::Bool(value.is_some()))
        .found("key_check_value", value.map_or(Json::Null, Json::text))
}

/// A key that `--key-file` names, and its file.
pub struct Given {
    pub key: Key,
    path: PathBuf,
}

impl Given {
    /// The key that the options name, if they name one. Fails where its file cannot be read or has no key.
    pub fn by(options: &Options) -> Result<Option<Given>, Failure> {
        let read = |path: PathBuf| {
            Ok(Given {
                key: read(&path)?,
                path,
            })
        };
        options.path("--key-file").map(read).transpose()
    }

    pub fn path(&self) -> &Path {
        &self.path
    }
}

/// The key that a seal is read with, of the one that is given and the check value that the seal says. Fails where one of them is missing or where they do not
/// fit: before anything of an opening is read, and whatever the holder did.
pub fn fitting(
    seal: &Path,
    said: Option<CheckValue>,
    given: Option<Given>,
) -> Result<Option<Key>, Failure> {
    let seal = seal.display();
    let (said, given) = match (said, given) {
        (None, None) => return Ok(None),
        (Some(said), Some(given)) => (said, given),
        (None, Some(given)) => return Err(Failure(format!(
            "the seal in {seal} is not keyed, and --key-file names {}: leave --key-file out, or give the seal that was made under that key",
            shown_path(&given.path)
        ))),
        (Some(said), None) => return Err(Failure(format!(
            "the seal in {seal} is keyed, under the key with the check value {said}: give the file of that key by --key-file. Without it nothing of the seal \
             can be made or checked"
        ))),
    };
    let own = CheckValue::of(&given.key);
    if own != said {
        return Err(Failure(format!(
            "the key in {} is not the one of the seal in {seal}: its check value is {own}, and the seal's is {said}. No record was read; give the file of the \
             seal's key by --key-file",
            shown_path(&given.path)
        )));
    }
    Ok(Some(given.key))
}

/// Bytes of a secret on their way, overwritten when they are dropped.
pub struct Passing(pub Vec<u8>);

impl Drop for Passing {
    fn drop(&mut self) {
        overwrite(&mut self.0);
    }
}

/// The key in a file.
fn read(path: &Path) -> Result<Key, Failure> {
    let bytes = secret_in(path, MOST_OF_A_KEY)?;
    key_of(&bytes.0).ok_or_else(|| {
        Failure(format!(
            "{} has no key: a key's file has 32 bytes, or 64 hexadecimal digits and perhaps a line end",
            shown_path(path)
        ))
    })
}

/// The first bytes of a file that holds a secret, one more than `most` at the most. That others may read it is said on standard error.
pub fn secret_in(path: &Path, most: usize) -> Result<Passing, Failure> {
    let mut file = named_file(path)?;
    let found = file.metadata().map_err(|e| unreadable(path, reason(&e)))?;
    let mode = found.permissions().mode();
    if mode & OTHERS != 0 {
        complain(&format!(
            "seal: {} can be read or changed by others than its owner (its mode is {:03o}); {} to the owner\n",
            shown_path(path),
            mode & 0o777,
            keeping(path)
        ));
    }
    // Room for all of it at once: a buffer that grows leaves copies behind.
    let size = usize::try_from(found.len()).unwrap_or(most).min(most) + 1;
    let mut bytes = Passing(vec![0; size]);
    let count = filled(&mut file, &mut bytes.0).map_err(|e| unreadable(path, reason(&e)))?;
    bytes.0.truncate(count);
    Ok(bytes)
}

/// How a file is kept to its owner: by a command for a shell, or in words where no line can show the file's name.
fn keeping(path: &Path) -> String {
    let name = shown_path(path);
    if path.to_str() != Some(&name) {
        return "the rights 600 keep it".into();
    }
    let is_plain = |c: char| c.is_ascii_alphanumeric() || "/._-".contains(c);
    let here = if name.starts_with('-') { "./" } else { "" };
    match name.chars().all(is_plain) {
        true => format!("`chmod 600 {here}{name}` keeps it"),
        false => format!(
            "`chmod 600 '{here}{}'` keeps it",
            name.replace('\'', "'\\''")
        ),
    }
}

/// Fails where the value of `--key-file` is a key itself and no file's name. It is not said again: what is printed may be kept.
pub fn is_no_key(value: &OsStr) -> Result<(), Failure> {
    let mut room = Passing(vec![0; 32]);
    let is_key = from_digits(value.as_bytes(), &mut room.0).is_some();
    if is_key && fs::symlink_metadata(value).is_err() {
        return Err(Failure(
            "the value of --key-file is no file's name; a key is never given on the command line"
                .into(),
        ));
    }
    Ok(())
}

/// Fills the room from a file as far as the file goes. How many bytes that were.
fn filled(file: &mut File, room: &mut [u8]) -> std::io::Result<usize> {
    let mut count = 0;
    while count < room.len() {
        match file.read(&mut room[count..]) {
            Ok(0) => break,
            Ok(read) => count += read,
            Err(e) if e.kind() == ErrorKind::Interrupted => (),
            Err(e) => return Err(e),
        }
    }
    Ok(count)
}

/// The key of a file's bytes: 32 of them, or 64 hexadecimal digits and perhaps a line end; none of others.
fn key_of(bytes: &[u8]) -> Option<Key> {
    if let Ok(key) = Key::from_bytes(bytes) {
        return Some(key);
    }
    let line = bytes.strip_suffix(b"\n");
    let digits = line.map_or(bytes, |line| line.strip_suffix(b"\r").unwrap_or(line));
    let mut key = Passing(vec![0; 32]);
    from_digits(digits, &mut key.0)?;
    Key::from_bytes(&key.0).ok()
}

/// Fills the room by two hexadecimal digits for each byte; none where there are fewer or more digits, or other characters.
fn from_digits(digits: &[u8], room: &mut [u8]) -> Option<()> {
    if digits.len() != 2 * room.len() {
        return None;
    }
    let value = |digit: u8| char::from(digit).to_digit(16);
    for (byte, pair) in room.iter_mut().zip(digits.chunks_exact(2)) {
        *byte = (value(pair[0])? << 4 | value(pair[1])?) as u8;
    }
    Some(())
}

/// Writes a key into a new file that its owner alone may read, as 64 hexadecimal digits and a line end. Fails where something stands there already, whatever it
/// is: no key is ever written over.
pub fn write_new(path: &Path, key: &Key) -> Result<(), Failure> {
    let shown = shown_path(path);
    let mut file = OpenOptions::new()
        .write(true)
        .create_new(true)
        .mode(0o600)
        .open(path)
        .map_err(|e| match e.kind() {
            ErrorKind::AlreadyExists => Failure(format!(
                "{shown} exists, and a key is written over nothing; name another file"
            )),
            _ => Failure(format!("cannot write {shown}: {}", reason(&e))),
        })?;
    let text = in_digits(key);
    file.write_all(&text.0)
        .and_then(|()| file.sync_all())
        .map_err(|e| {
            let _ = fs::remove_file(path);
            Failure(format!("cannot write {shown}: {}", reason(&e)))
        })
}

fn in_digits(key: &Key) -> Passing {
    let digit = |value: u8| b"0123456789abcdef"[usize::from(value)];
    let mut text = Passing(Vec::with_capacity(MOST_OF_A_KEY));
    for byte in key.bytes() {
        text.0.extend([digit(byte >> 4), digit(byte & 15)]);
    }
    text.0.push(b'\n');
    text
}

#[cfg(test)]
mod tests {
    use super::{in_digits, key_of, CheckValue};
    use dequmlo::Key;

    const DIGITS: &str = "000102030405060708090a0b0c0d0e0f101112131415161718191a1b1c1d1eff";

    fn key() -> Key {
        let mut bytes: [u8; 32] = std::array::from_fn(|i| i as u8);
        bytes[31] = 255;
        Key::new(bytes)
    }

    #[test]
    fn what_is_written_is_read() {
        let text = in_digits(&key());
        assert_eq!(text.0, format!("{DIGITS}\n").as_bytes());
        assert!(key_of(&text.0) == Some(key()));
    }

    #[test]
    fn a_key_is_32_bytes_or_64_digits() {
        let capitals = DIGITS.to_uppercase();
        let line_ends = ["", "\n", "\r\n"];
        for text in line_ends.map(|end| format!("{DIGITS}{end}")) {
            assert!(key_of(text.as_bytes()) == Some(key()), "{text:?}");
        }
        assert!(key_of(capitals.as_bytes()) == Some(key()));
        assert!(key_of(key().bytes()) == Some(key()));
        // 32 bytes are a key as they are, also where they are digits.
        let half = &DIGITS.as_bytes()[..32];
        assert!(key_of(half).unwrap().bytes() == half);
    }

    #[test]
    fn anything_else_is_no_key() {
        for text in [
            String::new(),
            DIGITS[..31].into(),
            DIGITS[..33].into(),
            DIGITS[..63].into(),
            format!("{DIGITS}0"),
            format!("{DIGITS}\n\n"),
            format!("{DIGITS}\r"),
            format!("{DIGITS} \n"),
            format!(" {DIGITS}"),
            format!("\n{DIGITS}"),
            format!("0x{}", &DIGITS[..62]),
            format!("{}g", &DIGITS[..63]),
            format!("{}+1", &DIGITS[..62]),
        ] {
            assert!(key_of(text.as_bytes()).is_none(), "{text:?}");
        }
    }

    /// Worked out by tools/check_seal.py. It is no part of the key, and every bit of the key counts.
    #[test]
    fn the_check_value_of_a_key() {
        let elvish = Key::new(*b"whats the Elvish word for friend");
        let value = CheckValue::of(&elvish);
        assert_eq!(value.to_string(), "d46dee072981d581712fa78bfecb9c0d");
        let zeros = CheckValue::of(&Key::new([0; 32]));
        assert_eq!(zeros.to_string(), "abe3c323dec6f1ee06ac9692f5b9217d");
        for bit in 0..256 {
            let mut bytes = *elvish.bytes();
            bytes[bit / 8] ^= 1 << (bit % 8);
            assert_ne!(CheckValue::of(&Key::new(bytes)), value, "bit {bit}");
        }
    }

    #[test]
    fn a_check_value_is_read_to_the_letter() {
        let text = "d46dee072981d581712fa78bfecb9c0d";
        assert_eq!(CheckValue::of_text(text).unwrap().to_string(), text);
        let others = [
            text.to_uppercase(),
            text[..31].into(),
            format!("{text}0"),
            format!("{text} "),
            String::new(),
            text.replace('d', "g"),
        ];
        for other in others {
            assert_eq!(CheckValue::of_text(&other), None, "{other:?}");
        }
    }
}
