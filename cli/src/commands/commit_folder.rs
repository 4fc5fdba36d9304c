//! `seal commit FOLDER`: one root for a project of many files: that of its manifest. A file that a deposit does not hold is a project of one file.

use crate::commands::commit::told_key;
use crate::digest::Digester;
use crate::folder::Kind;
use crate::json::Json;
use crate::key::{self, CheckValue, Given};
use crate::manifest::{counted, shown, Manifest, MANIFEST};
use crate::manifest_files;
use crate::options::Options;
use crate::outcome::{Failure, Outcome, Verdict};
use crate::project::{file_path, manifest_of, root_of_files, Made, Place, Under};
use crate::reading::{lies_in, reason, shown_path, unreadable};
use crate::seal::Seal;
use crate::shape::Shape;
use crate::shown::some_of;
use crate::steady::State;
use crate::table::variables;
use crate::walk::{between, one_file, walked, Said, Walked};
use crate::writing::{beside, parent, Target, ROOM};
use dequmlo::{Root, Threads, Widths};
use std::os::unix::ffi::OsStrExt;
use std::path::{Path, PathBuf};

pub fn run(
    options: &Options,
    threads: Threads,
    given: Option<Given>,
    domain: Vec<u8>,
    widths: Widths,
    k: usize,
) -> Result<Outcome, Failure> {
    let project = &options.operands[0];
    let folder = match options.path("--out") {
        Some(folder) => folder,
        None => beside(&named(project)?, ".seal"),
    };
    if lies_in(parent(&folder), project) {
        return Err(Failure(format!(
            "{} would lie in the project that it stands for; name a folder outside of it by --out",
            folder.display()
        )));
    }
    let (target, notes) = Target::new(&folder, Kind::Seal, options.has("--force"))?;
    let found = walked(project)?;
    all_read(project, &found.unread)?;
    if let Some(sentence) = not_a_project(project, &found) {
        return Ok(Outcome::declined(sentence));
    }
    let under = Under {
        threads,
        key: given.as_ref().map(|given| &given.key),
        domain: &domain,
        widths,
        k,
        made: Made::Both,
    };
    target.has_room(room_for(&found.files, &found.folders))?;
    let place = Place::Folder(project);
    let manifest = match manifest_of(place, &found.files, &found.folders, under) {
        Ok(manifest) => manifest,
        Err(stop) => return stop.outcome(),
    };
    all_the_same(project, &between(&found, &walked(project)?))?;
    let name = shown_path(project);
    let sealed = format!("the project {name}");
    written(&manifest, under, &name, &sealed, target, notes)
}

/// Seals a file that a deposit does not hold.
pub fn run_file(
    options: &Options,
    threads: Threads,
    given: Option<Given>,
    domain: Vec<u8>,
    widths: Widths,
    k: usize,
) -> Result<Outcome, Failure> {
    let file = &options.operands[0];
    let out = options.path("--out");
    let folder = out.unwrap_or_else(|| beside(file, ".seal"));
    let (target, notes) = Target::new(&folder, Kind::Seal, options.has("--force"))?;
    let (path, state) = one_file(file)?;
    let called = file.file_name().unwrap_or_default().as_bytes().to_vec();
    let files = [(called, state)];
    target.has_room(room_for(&files, &[]))?;
    let under = Under {
        threads,
        key: given.as_ref().map(|given| &given.key),
        domain: &domain,
        widths,
        k,
        made: Made::Both,
    };
    let manifest = match manifest_of(Place::File(&path), &files, &[], under) {
        Ok(manifest) => manifest,
        Err(stop) => return stop.outcome(),
    };
    let name = shown_path(file);
    let sealed = format!("{name} as a project of one file, as it has more bytes than a deposit");
    written(&manifest, under, &name, &sealed, target, notes)
}

/// The most bytes that the seal of these files and empty folders has.
fn room_for(files: &[(Vec<u8>, State)], folders: &[Vec<u8>]) -> u64 {
    let files = files.iter().map(|(path, state)| (&path[..], state.length));
    ROOM + manifest_files::size(files, folders.iter().map(|path| &path[..]))
}

/// Commits the manifest and writes the seal of a project of this name, of which a person reads what was sealed.
fn written(
    manifest: &Manifest,
    under: Under,
    name: &str,
    sealed: &str,
    target: Target,
    mut notes: Vec<String>,
) -> Result<Outcome, Failure> {
    let manifest_files = manifest_files::files(manifest, &Digester::of(under.key));
    let root = match root_of_files(&manifest_files, under) {
        Ok(root) => root,
        Err(refusal) => return Ok(Outcome::refused(&refusal)),
    };
    let shape = Shape {
        n: variables(manifest_files[0].1.len()),
        k: under.k,
        domain: under.domain.to_vec(),
        widths: under.widths,
        key: under.key.map(CheckValue::of),
    };
    let files = Seal::project_files(&shape, &root, name, manifest, manifest_files);
    notes.extend(target.write(&files)?);
    Ok(told(manifest, &shape, &root, sealed, target.folder()).notes(notes))
}

/// A folder's path with its own name at the end, as `.` has none.
fn named(project: &Path) -> Result<PathBuf, Failure> {
    if project.file_name().is_some() {
        return Ok(project.into());
    }
    project
        .canonicalize()
        .map_err(|e| unreadable(project, reason(&e)))
}

/// Fails where something of a project could not be looked at, and names the first.
fn all_read(project: &Path, unread: &[Said]) -> Result<(), Failure> {
    match unread {
        [] => Ok(()),
        [(path, why), ..] => Err(unreadable(&file_path(project, path), why)),
    }
}

/// Fails where something came, went or changed while a project was read, and names the first.
fn all_the_same(project: &Path, said: &[Said]) -> Result<(), Failure> {
    match said {
        [] => Ok(()),
        [(path, why), ..] => Err(Failure(format!(
            "{}: {why}. Nothing was sealed; run the command again when nobody writes into the project",
            shown_path(&file_path(project, path))
        ))),
    }
}

/// Why a folder is no project, by name.
fn not_a_project(project: &Path, found: &Walked) -> Option<String> {
    if found.others.is_empty() && !found.files.is_empty() {
        return None;
    }
    let project = project.display();
    if found.others.is_empty() {
        return Some(format!("there is no file in {project}"));
    }
    let names: Vec<String> = found
        .others
        .iter()
        .map(|(path, what)| format!("{} is {what}", shown(path)))
        .collect();
    Some(format!(
        "{project} holds what is neither a file nor a folder, and a seal stands for files alone: {}. Take it out, or put the file itself in its place",
        some_of(&names)
    ))
}

fn told(manifest: &Manifest, shape: &Shape, root: &Root, sealed: &str, folder: &Path) -> Outcome {
    let widths = shape.widths;
    let (files, bytes, parts) = (manifest.files.len(), manifest.bytes(), manifest.parts());
    let sentence = format!(
        "sealed {sealed}: {}, {bytes} bytes in {}, {widths} widths",
        counted(files, "file"),
        counted(parts, "part")
    );
    let outcome = Outcome::new(Verdict::Done, sentence)
        .say()
        .lines([
            format!("root {root}"),
            format!(
                "the seal is in {0}, with {MANIFEST}, which lists the files; the office keeps it, the holder keeps what was sealed and a copy of {0}",
                folder.display()
            ),
        ])
        .lines(shape.key.map(told_key))
        .found("seal", Json::text(folder.display()))
        .found("root", Json::text(root))
        .found("widths", Json::text(widths))
        .found("files", Json::number(files))
        .found("bytes", Json::number(bytes))
        .found("parts", Json::number(parts));
    key::found(outcome, shape.key)
}
