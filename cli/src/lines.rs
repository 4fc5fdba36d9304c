//! Text files of words or roots, one to a line, behind the line with their format. Blanks and carriage returns at the end of a
//! line and empty lines after the last one are passed over.

use crate::format::{marked, Body};
use crate::outcome::Failure;
use std::fmt::Display;
use std::path::Path;
use std::str::FromStr;

/// The bytes that a file of so many lines may have: the digits of each, and room for blanks and line ends.
pub fn most_bytes(lines: usize, digits: usize) -> usize {
    lines * (digits + 16) + 64
}

/// The items of a text, one to a line; the path is for what is said of a line that is none.
pub fn items<T>(path: &Path, text: &str) -> Result<Vec<T>, Failure>
where
    T: FromStr,
    T::Err: Display,
{
    let body = Body::of(path, text)?;
    let first = if body.marked { 2 } else { 1 };
    body.text
        .trim_end()
        .lines()
        .enumerate()
        .map(|(i, line)| {
            line.trim_end()
                .parse()
                .map_err(|e| Failure(format!("{}, line {}: {e}", path.display(), i + first)))
        })
        .collect()
}

/// The one item of a text.
pub fn one<T>(path: &Path, text: &str) -> Result<T, Failure>
where
    T: FromStr,
    T::Err: Display,
{
    let mut items: Vec<T> = items(path, text)?;
    let count = items.len();
    match items.pop() {
        Some(item) if count == 1 => Ok(item),
        _ => Err(Failure(format!(
            "{} has {count} values, and it must have one",
            path.display()
        ))),
    }
}

/// Items, one to a line.
pub fn text<T: Display>(items: &[T]) -> String {
    items.iter().map(|item| format!("{item}\n")).collect()
}

/// Items as the bytes of a file.
pub fn file<T: Display>(items: &[T]) -> Vec<u8> {
    marked(&text(items)).into_bytes()
}
