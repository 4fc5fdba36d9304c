//! The format of the files that this program writes, in the first line of each text that it reads back: `format 1`. A text without that line
//! was written before there was one, and is of format 1. A text of another format is never guessed at: a sentence names its format and the
//! one that this program knows.

use crate::outcome::Failure;
use crate::reading::{inside, shown_name};
use std::ffi::OsStr;
use std::path::Path;

/// The format that this program writes and reads.
pub const FORMAT: &str = "1";

/// The program and its version, as its files and its failures name it.
pub const PROGRAM: &str = concat!("seal ", env!("CARGO_PKG_VERSION"));

/// More than the bytes of a first line with a format.
const FIRST_LINE: usize = 64;

/// The formats of manifests that this program reads; it writes the last.
const OF_MANIFESTS: [&str; 2] = [FORMAT, "2"];

/// The first line of a text of this format.
pub fn first_line(format: &str) -> String {
    format!("format {format}\n")
}

/// A text as it is written into a file.
pub fn marked(text: &str) -> String {
    format!("{}{text}", first_line(FORMAT))
}

/// The last line of a summary.
pub fn signature() -> String {
    format!("Format {FORMAT}, written by {PROGRAM}.\n")
}

/// A file's text behind its first line, and whether that line says the format.
pub struct Body<'a> {
    pub text: &'a str,
    pub marked: bool,
}

impl<'a> Body<'a> {
    /// Fails where the text is of another format.
    pub fn of(path: &Path, text: &'a str) -> Result<Body<'a>, Failure> {
        known(path, text, &[FORMAT])?;
        let marked = stated(text).is_some();
        let end = text.find('\n').map_or(text.len(), |end| end + 1);
        let text = if marked { &text[end..] } else { text };
        Ok(Body { text, marked })
    }

    /// A content in the form in which this file was written.
    pub fn written(&self, content: &str) -> String {
        if self.marked {
            marked(content)
        } else {
            content.into()
        }
    }
}

/// Fails where one of these files of a folder is of another format. No more than the first line is read: what is wrong with the rest is said
/// where it is needed.
pub fn all_known(folder: &Path, names: &[&str]) -> Result<(), Failure> {
    let of_format = |name: &&str| in_format(folder, name, &[FORMAT]);
    names.iter().try_for_each(of_format)
}

/// The same of a manifest, which has formats of its own.
pub fn known_manifest(folder: &Path, name: &str) -> Result<(), Failure> {
    in_format(folder, name, &OF_MANIFESTS)
}

fn in_format(folder: &Path, name: &str, formats: &[&str]) -> Result<(), Failure> {
    match inside(folder, name, FIRST_LINE) {
        Ok(bytes) => known(
            &folder.join(name),
            &String::from_utf8_lossy(&bytes),
            formats,
        ),
        Err(_) => Ok(()),
    }
}

fn known(path: &Path, text: &str, formats: &[&str]) -> Result<(), Failure> {
    match stated(text) {
        Some(format) if !formats.contains(&format) => {
            let format: String = format.chars().take(FIRST_LINE).collect();
            let noun = if formats.len() == 1 {
                "format"
            } else {
                "formats"
            };
            Err(Failure(format!(
                "{} says that it is of format {}, and this program, {PROGRAM}, knows {noun} {} alone; a newer program may know it",
                path.display(),
                shown_name(OsStr::new(&format)),
                formats.join(" and ")
            )))
        }
        _ => Ok(()),
    }
}

/// The format that the first line says, if it says one.
fn stated(text: &str) -> Option<&str> {
    let first = text.lines().next()?;
    first.strip_prefix("format ").map(str::trim_end)
}

#[cfg(test)]
mod tests {
    use super::{marked, Body};
    use std::path::Path;

    #[test]
    fn a_text_with_the_line_and_one_without() {
        let path = Path::new("f");
        for (text, content, has_line) in [
            (marked("a\nb\n"), "a\nb\n", true),
            ("a\nb\n".into(), "a\nb\n", false),
            ("format 1 \r\na\n".into(), "a\n", true),
            ("format 1".into(), "", true),
            ("".into(), "", false),
        ] {
            let body = Body::of(path, &text).unwrap();
            assert_eq!((body.text, body.marked), (content, has_line), "{text:?}");
        }
        assert_eq!(Body::of(path, "a\n").unwrap().written("c"), "c");
        assert_eq!(
            Body::of(path, "format 1\n").unwrap().written("c"),
            "format 1\nc"
        );
    }

    #[test]
    fn another_format_is_named_with_the_one_that_is_known() {
        for format in ["2", "10", "01", "one", ""] {
            let text = format!("format {format}\na\n");
            let said = Body::of(Path::new("f"), &text).err().unwrap().0;
            assert!(
                said.starts_with(&format!("f says that it is of format {format}, ")),
                "{said}"
            );
            assert!(said.contains("knows format 1 alone"), "{said}");
        }
    }
}
