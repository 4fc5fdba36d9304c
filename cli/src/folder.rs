//! The kinds of folder that this program writes, and how it knows one of its own again: by the names in it, and by its check lines; a folder
//! from before there were check lines by its parameters and its summary.

use crate::begun::piece_of;
use crate::check_lines::{CheckLines, CHECK};
use crate::manifest_files::is_of_a_manifest;
use crate::opening::record_position;
use crate::reading::{inside, listed, reason, shown_name};
use std::ffi::OsStr;
use std::path::Path;

/// A file's name in a folder, and its bytes.
pub type Named = (String, Vec<u8>);

/// The file for a person. No check reads it.
pub const SUMMARY: &str = "summary.txt";

/// The most files that a folder is looked through for, and the most bytes that a file of one has.
const MOST_FILES: usize = 100_000;
const MOST_BYTES: usize = 1 << 24;

#[derive(Clone, Copy, Debug, PartialEq, Eq)]
pub enum Kind {
    Seal,
    Opening,
    /// An opening that is folded up to some level.
    Begun,
    /// What a checker asks.
    Request,
    /// Two messages with one digest.
    Collision,
}

impl Kind {
    pub const ALL: [Kind; 5] = [
        Kind::Seal,
        Kind::Opening,
        Kind::Begun,
        Kind::Request,
        Kind::Collision,
    ];

    pub fn name(self) -> &'static str {
        match self {
            Kind::Seal => "a seal",
            Kind::Opening => "an opening",
            Kind::Begun => "interrupted work",
            Kind::Request => "a request",
            Kind::Collision => "a pair of messages",
        }
    }

    /// How a summary of this kind begins.
    pub fn heading(self) -> &'static str {
        match self {
            Kind::Seal => "A deposit seal.",
            Kind::Opening => "An opening of the sealed file",
            Kind::Begun => "Interrupted work on an opening of the sealed file",
            Kind::Request => "A request to the holder of a sealed file.",
            Kind::Collision => "both records are accepted and they differ",
        }
    }

    /// The files that every folder of this kind has.
    fn files(self) -> &'static [&'static str] {
        match self {
            Kind::Seal => &["parameters.txt", "root.txt", SUMMARY],
            Kind::Opening => &[
                "parameters.txt",
                "challenges.txt",
                "roots.txt",
                "claim.txt",
                "tail.record",
                SUMMARY,
            ],
            Kind::Begun => &[
                "parameters.txt",
                "challenges.txt",
                "coordinates.txt",
                "roots.txt",
                "level-0-0.words",
                SUMMARY,
                CHECK,
            ],
            Kind::Request => &[
                "parameters.txt",
                "root.txt",
                "asked.txt",
                "challenges.txt",
                SUMMARY,
            ],
            Kind::Collision => &["first.message", "second.message", SUMMARY],
        }
    }

    /// The files that a folder of this kind may have beside them: check lines came later, a project has its manifest, an opening has records, interrupted
    /// work has the values of its levels, and a request gets the rest with the holder's answer.
    fn may_have(self, name: &str) -> bool {
        match self {
            _ if name == CHECK => true,
            Kind::Seal => is_of_a_manifest(name),
            Kind::Opening => is_of_a_manifest(name) || record_position(name).is_some(),
            Kind::Begun => piece_of(name).is_some(),
            Kind::Request => ["roots.txt", "claim.txt", "positions.txt"].contains(&name),
            _ => false,
        }
    }

    /// Whether this program writes a file of this name into a folder of this kind.
    pub fn has(self, name: &OsStr) -> bool {
        let known = |name: &str| self.files().contains(&name) || self.may_have(name);
        name.to_str().map_or(false, known)
    }
}

/// Why a folder is not one of this kind that this program wrote and nobody changed since; none where it is.
pub fn not_ours(folder: &Path, kind: Kind) -> Option<String> {
    let found = match listed(folder, MOST_FILES) {
        Ok(Some(found)) => found,
        Ok(None) => return Some(format!("it holds more than {MOST_FILES} files")),
        Err(e) => return Some(reason(&e)),
    };
    let stranger = found
        .iter()
        .find(|(name, is_file)| !is_file || !kind.has(name));
    if let Some((name, _)) = stranger {
        return Some(format!(
            "it holds {}, which is no file of {}",
            shown_name(name),
            kind.name()
        ));
    }
    let missing = |name: &&&str| !found.iter().any(|(n, _)| n == **name);
    if let Some(name) = kind.files().iter().find(missing) {
        return Some(format!("it has no {name}, as {} has", kind.name()));
    }
    match CheckLines::read(folder, found.len()) {
        Ok(Some(lines)) => changed(folder, &lines, found.len()),
        Ok(None) if begins_as(folder, kind) => None,
        Ok(None) => Some(format!("its {SUMMARY} is not that of {}", kind.name())),
        Err(failure) => Some(failure.0),
    }
}

/// Which file is not as it was written.
fn changed(folder: &Path, lines: &CheckLines, files: usize) -> Option<String> {
    // check.txt itself has no line.
    if lines.names().count() + 1 != files {
        return Some(format!("{CHECK} does not list the files that are there"));
    }
    let agrees = |name: &str| {
        inside(folder, name, MOST_BYTES).map_or(false, |bytes| lines.agree(name, &bytes))
    };
    lines
        .names()
        .find(|name| !agrees(name))
        .map(|name| format!("{name} was changed after it was written"))
}

fn begins_as(folder: &Path, kind: Kind) -> bool {
    inside(folder, SUMMARY, MOST_BYTES)
        .map_or(false, |bytes| bytes.starts_with(kind.heading().as_bytes()))
}
