//! Files and folders that others may have prepared: only regular files are opened, no more is read than a file of its kind can have, and no
//! more names are listed than a folder of its kind can hold.

use crate::outcome::Failure;
use crate::steady::{settled, State};
use crate::system::{O_NOFOLLOW, O_NONBLOCK};
use std::ffi::{OsStr, OsString};
use std::fmt;
use std::fs::{self, File, FileType, Metadata, OpenOptions};
use std::io::{self, ErrorKind, Read, Seek, SeekFrom};
use std::os::unix::fs::{FileTypeExt, OpenOptionsExt};
use std::path::Path;

/// Why a file was not read.
#[derive(Debug)]
pub enum Unread {
    Missing,
    /// It is no regular file, but this.
    NotAFile(&'static str),
    /// It has so many bytes, and must have so many.
    Length(u64, usize),
    /// It was not the same before and after.
    Changed,
    Failed(std::io::Error),
}

impl fmt::Display for Unread {
    fn fmt(&self, f: &mut fmt::Formatter) -> fmt::Result {
        match self {
            Unread::Missing => write!(f, "there is no such file"),
            Unread::NotAFile(what) => write!(f, "it is {what}, not a file, and was not opened"),
            Unread::Length(has, must) => {
                write!(f, "it has {has} bytes, and it must have {must}")
            }
            Unread::Changed => write!(
                f,
                "it was changed while it was read. Run the command again when nobody writes to it"
            ),
            Unread::Failed(e) => write!(f, "{}", reason(e)),
        }
    }
}

impl From<std::io::Error> for Unread {
    fn from(e: std::io::Error) -> Unread {
        match e.kind() {
            ErrorKind::NotFound => Unread::Missing,
            _ => Unread::Failed(e),
        }
    }
}

/// The first bytes of a regular file, one more than `most` at the most. A file in a folder that others prepared may not be a link.
pub fn inside(folder: &Path, name: &str, most: usize) -> Result<Vec<u8>, Unread> {
    let path = folder.join(name);
    regular(fs::symlink_metadata(&path)?.file_type())?;
    bytes(&path, O_NOFOLLOW, most)
}

/// Fills the room with a regular file of a folder, no link, that has just as many bytes.
pub fn exactly(folder: &Path, name: &str, room: &mut [u8]) -> Result<(), Unread> {
    let path = folder.join(name);
    regular(fs::symlink_metadata(&path)?.file_type())?;
    let mut file = opened(&path, O_NOFOLLOW)?;
    let length = file.metadata()?.len();
    if length != room.len() as u64 {
        return Err(Unread::Length(length, room.len()));
    }
    file.read_exact(room)?;
    Ok(())
}

/// Which stretch of a file is read: so many bytes from a place on, or fewer where it ends before.
#[derive(Clone, Copy)]
pub struct Stretch {
    pub start: u64,
    pub size: usize,
}

impl Stretch {
    /// Puts it in place of the bytes that are there; fails where the file does, in its middle too.
    pub fn read(self, bytes: &mut Vec<u8>, mut file: impl Read + Seek) -> io::Result<()> {
        bytes.clear();
        bytes.reserve_exact(self.size);
        file.seek(SeekFrom::Start(self.start))?;
        file.take(self.size as u64).read_to_end(bytes)?;
        Ok(())
    }
}

/// A stretch of a regular file, no link, that is the same before and after it is read.
pub fn steady_stretch(path: &Path, stretch: Stretch) -> Result<Vec<u8>, Unread> {
    regular(fs::symlink_metadata(path)?.file_type())?;
    let file = opened(path, O_NOFOLLOW)?;
    let before = settled(|| file.metadata().map(|found| State::of(&found)))?;
    let mut bytes = Vec::new();
    let read = |file: &File| stretch.read(&mut bytes, file);
    steadily(&file, before, read, || fs::symlink_metadata(path))?;
    Ok(bytes)
}

/// The same in place of what is there, of a file that must still be in the state in which it was listed.
pub fn listed_stretch(
    bytes: &mut Vec<u8>,
    path: &Path,
    state: State,
    stretch: Stretch,
) -> Result<(), Unread> {
    regular(fs::symlink_metadata(path)?.file_type())?;
    let file = opened(path, O_NOFOLLOW)?;
    let before = (State::of(&file.metadata()?) == state).then_some(state);
    let read = |file: &File| stretch.read(bytes, file);
    steadily(&file, before, read, || fs::symlink_metadata(path))
}

/// The first bytes of a file that the command line names, which may be a link to one, and is the same before and after it is read.
pub fn steady_named(path: &Path, most: usize) -> Result<Vec<u8>, Unread> {
    regular(fs::metadata(path)?.file_type())?;
    let file = opened(path, 0)?;
    let before = settled(|| file.metadata().map(|found| State::of(&found)))?;
    let mut bytes = Vec::new();
    let read = |file: &File| {
        file.take(most as u64 + 1)
            .read_to_end(&mut bytes)
            .map(|_| ())
    };
    steadily(&file, before, read, || fs::metadata(path))?;
    Ok(bytes)
}

/// Reads of an open file. Fails where it is not in the same state before and after, by the open file and by what its path leads to then; or where there
/// is no state before.
fn steadily(
    file: &File,
    before: Option<State>,
    read: impl FnOnce(&File) -> io::Result<()>,
    at_path: impl Fn() -> io::Result<Metadata>,
) -> Result<(), Unread> {
    let before = before.ok_or(Unread::Changed)?;
    read(file)?;
    let is_same = |found: &Metadata| State::of(found) == before;
    match at_path() {
        Ok(found) if is_same(&found) && is_same(&file.metadata()?) => Ok(()),
        Ok(_) => Err(Unread::Changed),
        Err(e) if e.kind() == ErrorKind::NotFound => Err(Unread::Changed),
        Err(e) => Err(e.into()),
    }
}

/// The first bytes of a file that the command line names, which may be a link to one.
pub fn named(path: &Path, most: usize) -> Result<Vec<u8>, Failure> {
    fs::metadata(path)
        .map_err(Unread::from)
        .and_then(|found| regular(found.file_type()))
        .and_then(|()| bytes(path, 0, most))
        .map_err(|e| unreadable(path, e))
}

/// A file that the command line names, which may be a link to one, opened.
pub fn named_file(path: &Path) -> Result<File, Failure> {
    fs::metadata(path)
        .map_err(Unread::from)
        .and_then(|found| regular(found.file_type()))
        .and_then(|()| opened(path, 0))
        .map_err(|e| unreadable(path, e))
}

/// The text of a file in a folder.
pub fn text_inside(folder: &Path, name: &str, most: usize) -> Result<String, Failure> {
    let path = folder.join(name);
    text(
        &path,
        inside(folder, name, most).map_err(|e| unreadable(&path, e))?,
        most,
    )
}

/// The text of a file that the command line names.
pub fn named_text(path: &Path, most: usize) -> Result<String, Failure> {
    text(path, named(path, most)?, most)
}

/// What the system says of an error, without its number.
pub fn reason(e: &std::io::Error) -> String {
    let text = e.to_string();
    match text.find(" (os error") {
        Some(end) => text[..end].to_string(),
        None => text,
    }
}

/// A name that somebody else chose, on one line and without characters that a terminal acts on.
pub fn shown_name(name: &OsStr) -> String {
    name.to_string_lossy()
        .chars()
        .flat_map(|c| {
            let escaped: Vec<char> = if acts_on_a_terminal(c) {
                c.escape_unicode().collect()
            } else {
                vec![c]
            };
            escaped
        })
        .collect()
}

/// Whether a terminal does something else with a character than show it.
pub fn acts_on_a_terminal(c: char) -> bool {
    c.is_control() || matches!(c, '\u{2028}'..='\u{202e}' | '\u{2066}'..='\u{2069}')
}

/// A path as it is shown, by the same rule.
pub fn shown_path(path: &Path) -> String {
    shown_name(path.as_os_str())
}

/// Whether a file lies in a folder, links followed.
pub fn lies_in(path: &Path, folder: &Path) -> bool {
    match (path.canonicalize(), folder.canonicalize()) {
        (Ok(path), Ok(folder)) => path.starts_with(folder),
        _ => false,
    }
}

/// Whether a path leads into a folder or through it by a name that stands there, as a link in it does that leads out again: who prepared the folder chose then
/// where it leads.
pub fn leads_through(path: &Path, folder: &Path) -> bool {
    let folder = match folder.canonicalize() {
        Ok(folder) => folder,
        Err(_) => return false,
    };
    let stands_there = |step: &Path| {
        let parent = step.parent().filter(|parent| *parent != Path::new(""));
        let parent = parent.unwrap_or(Path::new(".")).canonicalize();
        step.file_name().is_some() && parent.map_or(false, |parent| parent.starts_with(&folder))
    };
    lies_in(path, &folder) || path.ancestors().any(stands_there)
}

pub fn unreadable(path: &Path, why: impl fmt::Display) -> Failure {
    Failure(format!("cannot read {}: {why}", shown_path(path)))
}

/// What a folder holds, each name with whether it is a regular file; none where there are more than `most`.
pub fn listed(folder: &Path, most: usize) -> std::io::Result<Option<Vec<(OsString, bool)>>> {
    let mut found = Vec::new();
    for entry in fs::read_dir(folder)? {
        if found.len() == most {
            return Ok(None);
        }
        let entry = entry?;
        found.push((entry.file_name(), entry.file_type()?.is_file()));
    }
    found.sort();
    Ok(Some(found))
}

fn text(path: &Path, bytes: Vec<u8>, most: usize) -> Result<String, Failure> {
    if bytes.len() > most {
        return Err(unreadable(
            path,
            format!("it has more than the {most} bytes that such a file can have"),
        ));
    }
    String::from_utf8(bytes).map_err(|_| unreadable(path, "it is not text"))
}

fn bytes(path: &Path, flags: i32, most: usize) -> Result<Vec<u8>, Unread> {
    let mut bytes = Vec::new();
    let file = opened(path, flags)?;
    file.take(most as u64 + 1).read_to_end(&mut bytes)?;
    Ok(bytes)
}

fn opened(path: &Path, flags: i32) -> Result<File, Unread> {
    let file = OpenOptions::new()
        .read(true)
        .custom_flags(flags | O_NONBLOCK)
        .open(path)?;
    // What was looked at before may have been changed since.
    regular(file.metadata()?.file_type())?;
    Ok(file)
}

fn regular(found: FileType) -> Result<(), Unread> {
    not_a_file(found).map_or(Ok(()), |what| Err(Unread::NotAFile(what)))
}

/// What something is that is no regular file; none where it is one.
pub fn not_a_file(found: FileType) -> Option<&'static str> {
    match found {
        t if t.is_file() => None,
        t if t.is_symlink() => Some("a link"),
        t if t.is_dir() => Some("a folder"),
        t if t.is_fifo() => Some("a named pipe"),
        t if t.is_socket() => Some("a socket"),
        _ => Some("a device"),
    }
}
