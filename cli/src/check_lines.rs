//! `check.txt`: the BLAKE3 digest of every other file of a seal or an opening, as `b3sum` writes it, so that damage in a folder is known as
//! such. It protects against accidents, not against somebody who writes a new one.

use crate::outcome::Failure;
use crate::reading::{inside, text_inside, Unread};
use dequmlo::Root;
use std::path::Path;

pub const CHECK: &str = "check.txt";

/// The digest of each file, after its name.
pub struct CheckLines(Vec<(String, Root)>);

/// Adds `check.txt` to the files of a folder.
pub fn with_check_lines<B>(mut files: Vec<(String, B)>) -> Vec<(String, B)>
where
    B: AsRef<[u8]> + From<Vec<u8>>,
{
    let text: String = files
        .iter()
        .map(|(name, bytes)| format!("{}  {name}\n", digest(bytes.as_ref())))
        .collect();
    files.push((CHECK.into(), text.into_bytes().into()));
    files
}

impl CheckLines {
    /// The check lines of a folder that has at most so many files; none where it was written before there were any.
    pub fn read(folder: &Path, most_files: usize) -> Result<Option<CheckLines>, Failure> {
        let most = most_files * 128;
        if let Err(Unread::Missing) = inside(folder, CHECK, 0) {
            return Ok(None);
        }
        let text = text_inside(folder, CHECK, most)?;
        let line = |line: &str| {
            let (digits, name) = line.trim_end().split_once("  ")?;
            Some((name.to_string(), digits.parse().ok()?))
        };
        let lines: Option<Vec<_>> = text.trim_end().lines().map(line).collect();
        lines.map(CheckLines).map(Some).ok_or_else(|| {
            Failure(format!(
                "{} is not as this program writes it",
                folder.join(CHECK).display()
            ))
        })
    }

    /// Whether a file has a line and these bytes are the ones that it was written with.
    pub fn agree(&self, name: &str, bytes: &[u8]) -> bool {
        self.0
            .iter()
            .any(|(n, digest_then)| n == name && *digest_then == digest(bytes))
    }

    pub fn names(&self) -> impl Iterator<Item = &str> {
        self.0.iter().map(|(name, _)| name.as_str())
    }
}

/// The digest of a file's bytes. No file of a folder has more than the 2^24 bytes that the library takes; a level of interrupted work is in pieces for that.
fn digest(bytes: &[u8]) -> Root {
    Root(dequmlo::digest(bytes).unwrap_or([0; 32]))
}
