//! The part of a project that a command is about: the project's manifest leads from the project's root to the root of a part of one file, and
//! what is opened and checked is that part.

use crate::digest::Digester;
use crate::folder::Named;
use crate::format::known_manifest;
use crate::manifest::{counted, part_place, shown, Entry, Manifest, MANIFEST, PART};
use crate::manifest_files::{part_name, List};
use crate::opened::Opened;
use crate::options::Options;
use crate::outcome::{Failure, Outcome};
use crate::project::root_of;
use crate::questions::offsets;
use crate::reading::{inside, unreadable, Unread};
use crate::seal::{Seal, SEAL_FOLDER};
use crate::shape::Shape;
use crate::statement::another_key_in;
use crate::table::{room_to_commit, variables, MOST_BYTES};
use dequmlo::{Root, Sizes, Threads};
use std::os::unix::ffi::OsStrExt;
use std::path::Path;

/// A part of a file of a project.
pub struct Part {
    /// The file's path below the project's folder.
    pub path: Vec<u8>,
    /// Where the part starts in the file, and its bytes.
    pub start: u64,
    pub bytes: usize,
    index: usize,
    count: usize,
}

impl Part {
    /// A part of a file, counted from 0.
    pub fn of(entry: &Entry, index: usize) -> Part {
        let (start, bytes) = part_place(entry.bytes, index);
        Part {
            path: entry.path.clone(),
            start,
            bytes,
            index,
            count: entry.parts.len(),
        }
    }

    /// Every part of a manifest that has this root, as a table of 2^n words.
    pub fn all_of(manifest: &Manifest, root: Root, n: usize) -> Vec<Part> {
        let mut found = Vec::new();
        for entry in &manifest.files {
            let indices = (0..entry.parts.len()).filter(|index| entry.parts[*index] == root);
            found.extend(indices.map(|index| Part::of(entry, index)));
        }
        found.retain(|part| variables(part.bytes) == n);
        found
    }

    /// What a record of this part opens, at its offset in the whole file.
    pub fn placed(&self, opened: Opened) -> Opened {
        match self.count {
            1 => opened,
            _ => opened.in_part(self.start as usize),
        }
    }

    /// Whether the file ends with this part.
    pub fn is_last(&self) -> bool {
        self.index + 1 == self.count
    }

    /// The file, and which part of it where it has several.
    pub fn name(&self) -> String {
        let path = shown(&self.path);
        let end = self.start + self.bytes as u64;
        match self.count {
            1 => path,
            count => format!(
                "{path}, part {} of {count}, bytes {} to {}",
                self.index + 1,
                self.start,
                end - 1
            ),
        }
    }
}

/// Why a folder's manifest is not that of the seal's project.
pub enum Unfit {
    Missing,
    Another(String),
}

/// The manifest in a folder, committed again and found to have the seal's root, with its files.
pub fn manifest_in(
    folder: &Path,
    seal: &Seal,
) -> Result<Result<(Manifest, Vec<Named>), Unfit>, Failure> {
    known_manifest(folder, MANIFEST)?;
    let another = |what: String| Ok(Err(Unfit::Another(what)));
    let bytes = match inside(folder, MANIFEST, MOST_BYTES) {
        Ok(bytes) => bytes,
        Err(Unread::Missing) => return Ok(Err(Unfit::Missing)),
        Err(e @ Unread::NotAFile(_)) => return another(e.to_string()),
        Err(e) => return Err(unreadable(&folder.join(MANIFEST), e)),
    };
    let Shape {
        n,
        k,
        domain,
        widths,
        ..
    } = &seal.shape;
    if bytes.len() > MOST_BYTES || variables(bytes.len()) != *n {
        return another("it has another size".into());
    }
    room_to_commit(&seal.shape)?;
    match root_of(&bytes, Threads::all(), seal.key(), domain, *widths, *k) {
        Ok(root) if root == seal.root => (),
        Ok(root) => {
            return another(format!(
                "its root is {root}, and the project's root is {}",
                seal.root
            ))
        }
        Err(refusal) => return another(refusal.to_string()),
    }
    let text = std::str::from_utf8(&bytes).unwrap_or_default();
    let manifest = match List::of_text(text) {
        None => Manifest::of_text(text).map(|manifest| (manifest, Vec::new())),
        Some(list) => match parts_in(folder, &list, &Digester::of(seal.key()))? {
            Err(what) => return another(what),
            Ok(parts) => manifest_in_parts(&parts).map(|manifest| (manifest, parts)),
        },
    };
    match manifest {
        Some((manifest, parts)) => {
            let mut files: Vec<Named> = vec![(MANIFEST.into(), bytes)];
            files.extend(parts);
            Ok(Ok((manifest, files)))
        }
        None => another(
            "it has the seal's root, but it is no manifest: the seal stands for another file"
                .into(),
        ),
    }
}

/// The parts of a manifest that a list names; in a sentence, which of them is missing or another. Fails where the disk does.
fn parts_in(
    folder: &Path,
    list: &List,
    digester: &Digester,
) -> Result<Result<Vec<Named>, String>, Failure> {
    let mut parts = Vec::new();
    for (index, digest) in list.digests.iter().enumerate() {
        let (name, size) = (part_name(index), list.size(index));
        match inside(folder, &name, size) {
            Ok(part) if part.len() == size && digester.digest(&part) == *digest => {
                parts.push((name, part));
            }
            Ok(_) => return Ok(Err(format!("{name} is not the part of it that was sealed"))),
            Err(e @ Unread::Failed(_)) => return Err(unreadable(&folder.join(name), e)),
            Err(e) => return Ok(Err(format!("{name}: {e}"))),
        }
    }
    Ok(Ok(parts))
}

/// The manifest that these parts make, if they make one.
fn manifest_in_parts(parts: &[Named]) -> Option<Manifest> {
    let bytes: Vec<&[u8]> = parts.iter().map(|(_, part)| &part[..]).collect();
    Manifest::of_text(&String::from_utf8(bytes.concat()).ok()?)
}

/// The most parts of a manifest that are read before anything of it is checked.
const MOST_PARTS: usize = 64;

/// The manifest that a folder has, of which nothing is checked but its form; none where it has more parts than are read so.
pub fn unchecked_manifest(folder: &Path) -> Option<Manifest> {
    let bytes = inside(folder, MANIFEST, MOST_BYTES).ok()?;
    let text = String::from_utf8(bytes).ok()?;
    let list = match List::of_text(&text) {
        None => return Manifest::of_text(&text),
        Some(list) if list.digests.len() > MOST_PARTS => return None,
        Some(list) => list,
    };
    let part = |index| {
        let (name, size) = (part_name(index), list.size(index));
        let part = inside(folder, &name, size).ok()?;
        (part.len() == size).then_some((name, part))
    };
    let parts: Option<Vec<Named>> = (0..list.digests.len()).map(part).collect();
    manifest_in_parts(&parts?)
}

/// That an opening shows another manifest than the project's, in a sentence; with the project's seal.
pub struct RefusedManifest {
    pub seal: Seal,
    pub sentence: String,
}

impl RefusedManifest {
    pub fn outcome(self) -> Outcome {
        Outcome::declined(format!("manifest: {}", self.sentence)).notes(self.seal.notes)
    }
}

/// The seal that the options name, or, where `--file` names a file of a project, the seal of the part that is asked about. The manifest is
/// the one that an opening shows, or else the seal's own; that an opening shows another one is a refusal.
pub fn asked_seal(
    options: &Options,
    opening: Option<&Path>,
) -> Result<Result<Seal, RefusedManifest>, Failure> {
    let folder = options.needed_path("--seal", SEAL_FOLDER)?;
    let seal = Seal::read(&folder, options.has("--older"))?.with_key(&folder, options)?;
    if options.path("--file").is_none() {
        // What the holder puts into an opening does not decide what is asked about.
        if !folder.join(MANIFEST).exists() {
            return Ok(Ok(seal));
        }
        let own = unchecked_manifest(&folder);
        if own.map_or(true, |manifest| manifest.only_file().is_none()) {
            return Err(Failure(format!(
                "{} is a project's: --file PATH says which file of the project is asked about",
                folder.display()
            )));
        }
    }
    let refused = |mut seal: Seal, sentence| {
        let note = opening.and_then(|opening| another_key_in(&seal, opening));
        seal.notes.extend(note);
        Ok(Err(RefusedManifest { seal, sentence }))
    };
    let known = opening.map(|opening| known_manifest(opening, MANIFEST));
    if let Some(Err(Failure(sentence))) = known {
        return refused(seal, sentence);
    }
    let found = manifest_in(opening.unwrap_or(&folder), &seal)?;
    match (found, opening) {
        (Ok((manifest, files)), _) => part_seal(options, seal, &manifest, files).map(Ok),
        (Err(Unfit::Missing), Some(_)) => refused(seal, format!(
            "the opening shows no {MANIFEST}, so no file of a project can be checked; ask the holder for it"
        )),
        (Err(Unfit::Another(what)), Some(_)) => refused(seal, format!(
            "the {MANIFEST} that the opening shows is not the project's: {what}. No record was checked; ask the holder for the project's manifest"
        )),
        (Err(Unfit::Missing), None) => Err(Failure(format!(
            "{} is no project's seal: it has no {MANIFEST}",
            folder.display()
        ))),
        (Err(Unfit::Another(what)), None) => Err(damaged_manifest(&folder, &seal, &what)),
    }
}

/// A seal whose own manifest is not the one that was sealed; or one that names no parameters and was made under others.
pub fn damaged_manifest(folder: &Path, seal: &Seal, what: &str) -> Failure {
    let folder = folder.display();
    Failure(match &seal.assumed {
        None => format!("the seal in {folder} is damaged: its {MANIFEST} is not the one that was sealed: {what}. Take the seal from a copy of it"),
        Some(assumed) => format!("the seal in {folder} and its {MANIFEST} do not agree: {what}. Note that {assumed}"),
    })
}

fn part_seal(
    options: &Options,
    seal: Seal,
    manifest: &Manifest,
    files: Vec<Named>,
) -> Result<Seal, Failure> {
    let entry = asked_file(options, manifest)?;
    let index = part_asked(options, entry.bytes, entry.parts.len())?;
    let part = Part::of(entry, index);
    let shape = Shape {
        n: variables(part.bytes),
        ..seal.shape
    };
    let about = format!(
        "What is asked about is the file {}. The project's root is {}, and the one below is that of the file, or of its part.",
        part.name(),
        seal.root
    );
    Ok(Seal {
        summary: seal.summary.map(|line| format!("{line} {about}")),
        sizes: Sizes::of(shape.widths, shape.n, shape.k)
            .map_err(|refusal| Failure(refusal.to_string()))?,
        shape,
        root: entry.parts[index],
        part: Some(part),
        manifest: files,
        ..seal
    })
}

/// The file that the options ask about: the one that they name, or the only one.
fn asked_file<'a>(options: &Options, manifest: &'a Manifest) -> Result<&'a Entry, Failure> {
    let named = match options.path("--file") {
        Some(path) => path,
        None => {
            return manifest.only_file().ok_or_else(|| {
                Failure("--file PATH says which file of the project is asked about".into())
            })
        }
    };
    let path = named.as_os_str().as_bytes();
    manifest.named(path).ok_or_else(|| {
        Failure(format!(
            "the project has no file {}; its {MANIFEST} lists {}",
            shown(path),
            counted(manifest.files.len(), "file")
        ))
    })
}

/// The part that the options ask about, from 0: that of the offsets, the one of that number, or the only one.
fn part_asked(options: &Options, bytes: u64, count: usize) -> Result<usize, Failure> {
    let offsets = offsets(options)?;
    match (offsets.as_deref(), options.number("--part")?) {
        (Some(_), Some(_)) => Err(Failure("--offset and --part exclude each other".into())),
        (Some(offsets), None) => {
            if let Some(outside) = offsets.iter().find(|offset| **offset >= bytes) {
                return Err(Failure(format!(
                    "offset {outside} is outside the file, which has {bytes} bytes"
                )));
            }
            let mut parts = offsets.iter().map(|offset| (offset / PART) as usize);
            let first = parts.next().unwrap_or(0);
            if parts.all(|part| part == first) {
                return Ok(first);
            }
            Err(Failure(format!(
                "the offsets are in different parts of the file, each of {PART} bytes; ask for each part by itself"
            )))
        }
        (None, Some(number)) if (1..=count).contains(&number) => Ok(number - 1),
        (None, Some(number)) => Err(Failure(format!(
            "the file has no part {number}; it has {count}"
        ))),
        (None, None) if count == 1 => Ok(0),
        (None, None) => Err(Failure(format!(
            "the file has {count} parts: --offset or --part says which one is asked about"
        ))),
    }
}
