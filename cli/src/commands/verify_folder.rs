//! `seal verify FOLDER`: whether a project is still the one that was sealed, and which files changed, are missing, are new or were moved. A file that cannot be
//! read is listed, and keeps nothing from the others. Parts are compared by their digests where the seal keeps them, or, with `--full` and under an older seal,
//! committed anew. A project of one file may be that file by itself.

use crate::differences::{Differences, Now};
use crate::json::Json;
use crate::manifest::{counted, Form, Manifest, MANIFEST};
use crate::outcome::{Failure, Outcome, Verdict};
use crate::part::{damaged_manifest, manifest_in, Unfit};
use crate::project::{committed_as_far_as_read, project_root, Committed, Made, Place, Under};
use crate::seal::Seal;
use crate::shape::Shape;
use crate::walk::{between, one_file, walked, Said, Walked};
use dequmlo::Threads;
use std::path::Path;

/// What is verified, and how.
#[derive(Clone, Copy)]
pub struct Verified<'a> {
    /// The folder, or the file, that the command line names.
    pub path: &'a Path,
    pub seal_folder: &'a Path,
    pub threads: Threads,
    /// Whether every part is committed anew.
    pub full: bool,
}

/// The answer for a folder.
pub fn run(verified: Verified, seal: Seal) -> Result<Outcome, Failure> {
    let then = manifest_in(verified.seal_folder, &seal)?.map(|(manifest, _)| manifest);
    let under = verified.under(&seal, then.as_ref().ok());
    let place = Place::Folder(verified.path);
    let found = walked(verified.path)?;
    let files = match committed_as_far_as_read(place, &found.files, under) {
        Ok(files) => files,
        Err(stop) => return stop.outcome(),
    };
    let mut unread = found.unread.clone();
    unread.extend(between(&found, &walked(verified.path)?));
    let now = now(&files, &found, &unread);
    let outcome = match then {
        Ok(then) => compared(&verified, "project", &then, &now),
        Err(unfit) => verified.without_a_manifest(unfit, &now, under, &seal)?,
    };
    Ok(said_by(outcome, under.made).notes(seal.notes))
}

/// The answer for a file, under the seal of a project that has one file and nothing else: that file, whatever it is called now. Under another project's seal it
/// is wrong use.
pub fn run_file(verified: Verified, seal: Seal) -> Result<Outcome, Failure> {
    let (path, folder) = (verified.path, verified.seal_folder);
    let then = match manifest_in(folder, &seal)? {
        Ok((then, _)) => then,
        Err(Unfit::Another(what)) => return Err(damaged_manifest(folder, &seal, &what)),
        Err(Unfit::Missing) => return Err(not_a_file_s(path, folder, "has lost its manifest")),
    };
    let entry = then.only_file().ok_or_else(|| {
        let what = format!("has {}", counted(then.files.len(), "file"));
        not_a_file_s(path, folder, &what)
    })?;
    let under = verified.under(&seal, Some(&then));
    let (target, state) = one_file(path)?;
    let listed = [(entry.path.clone(), state)];
    let files = match committed_as_far_as_read(Place::File(&target), &listed, under) {
        Ok(files) => files,
        Err(stop) => return stop.outcome(),
    };
    let found = Walked::default();
    let outcome = compared(&verified, "file", &then, &now(&files, &found, &[]));
    Ok(said_by(outcome, under.made).notes(seal.notes))
}

fn not_a_file_s(file: &Path, folder: &Path, what: &str) -> Failure {
    Failure(format!(
        "{} is a project's seal, and {} is a file; the project {what}: `seal verify FOLDER` says of the project's folder whether it is still the one that was sealed",
        folder.display(),
        file.display()
    ))
}

fn now<'a>(files: &'a [Committed], found: &'a Walked, unread: &'a [Said]) -> Now<'a> {
    Now {
        files,
        folders: &found.folders,
        others: &found.others,
        unread,
    }
}

/// Says by what the parts were compared.
fn said_by(outcome: Outcome, made: Made) -> Outcome {
    let by_digests = made == Made::Digests;
    let note = by_digests.then(|| {
        "the parts were compared by the BLAKE3 digests that the manifest keeps; --full commits each part anew".into()
    });
    let by = if by_digests { "digests" } else { "roots" };
    outcome.notes(note).found("compared_by", Json::text(by))
}

impl Verified<'_> {
    /// By what the parts are made: by digests, where the manifest has them and nobody asks for more. Where there is no manifest, all that one of either form has.
    fn under<'a>(&self, seal: &'a Seal, then: Option<&Manifest>) -> Under<'a> {
        let Shape {
            k, domain, widths, ..
        } = &seal.shape;
        Under {
            threads: self.threads,
            key: seal.key(),
            domain,
            widths: *widths,
            k: *k,
            made: match then.map(|then| then.form) {
                Some(Form::First) => Made::Roots,
                Some(Form::Second) if !self.full => Made::Digests,
                _ => Made::Both,
            },
        }
    }

    /// The answer under a seal whose manifest is missing or damaged: yes where the folder's own has the seal's root. Else no, where there is none, unless
    /// something could not be read, as it may be what makes the root another.
    fn without_a_manifest(
        &self,
        unfit: Unfit,
        now: &Now,
        under: Under,
        seal: &Seal,
    ) -> Result<Outcome, Failure> {
        for form in Form::ALL {
            if let Some(manifest) = whole(now, form) {
                if project_root(&manifest, under) == Ok(seal.root) {
                    return Ok(is_the_same(self.path, "project", &manifest));
                }
            }
        }
        if let Unfit::Another(what) = unfit {
            return Err(damaged_manifest(self.seal_folder, seal, &what));
        }
        let note = format!("the seal has no {MANIFEST}, so it cannot be said which files differ");
        let found = Differences::between(&Manifest::empty(Form::First), now);
        if found.unreadable.is_empty() || !now.others.is_empty() {
            let no = is_another(self.path, "project");
            return Ok(Outcome::new(Verdict::Refused, no).say().notes([note]));
        }
        let sentence = format!(
            "it cannot be said whether {} is the project that was sealed: {}",
            self.path.display(),
            not_read(found.unreadable.len())
        );
        let unreadable = Differences {
            unreadable: found.unreadable,
            ..Differences::default()
        };
        Ok(unreadable
            .told(Outcome::new(Verdict::CouldNotRun, sentence))
            .notes([note]))
    }
}

/// The manifest of a folder in which there is nothing but files and folders, all of which could be read.
fn whole(now: &Now, form: Form) -> Option<Manifest> {
    let entries = now.files.iter().map(|file| file.entry(form));
    let nothing_else = now.others.is_empty() && now.unread.is_empty();
    Some(Manifest {
        form,
        files: entries.collect::<Option<_>>().filter(|_| nothing_else)?,
        folders: match form {
            Form::First => Vec::new(),
            Form::Second => now.folders.to_vec(),
        },
    })
}

fn is_the_same(path: &Path, noun: &str, then: &Manifest) -> Outcome {
    let sentence = format!(
        "yes: {} is the {noun} that was sealed, {} of {} bytes",
        path.display(),
        counted(then.files.len(), "file"),
        then.bytes()
    );
    Outcome::new(Verdict::Accepted, sentence).say()
}

fn is_another(path: &Path, noun: &str) -> String {
    format!("no: {} is not the {noun} that was sealed", path.display())
}

/// What differs by the seal's own manifest: no where anything is known to differ, and no answer where something cannot be read and nothing else differs.
fn compared(verified: &Verified, noun: &str, then: &Manifest, now: &Now) -> Outcome {
    let found = Differences::between(then, now);
    let count = found.unreadable.len();
    if found.any() {
        let note =
            (count > 0).then(|| format!("{}; nothing is said of the bytes there", not_read(count)));
        let no = is_another(verified.path, noun);
        return found
            .told(Outcome::new(Verdict::Refused, no).say())
            .notes(note);
    }
    if count == 0 {
        return is_the_same(verified.path, noun, then);
    }
    let sentence = format!(
        "it cannot be said whether {} is the {noun} that was sealed: {}. All that could be read is as it was sealed",
        verified.path.display(),
        not_read(count)
    );
    found.told(Outcome::new(Verdict::CouldNotRun, sentence))
}

/// How many could not be read, in words.
fn not_read(count: usize) -> String {
    let noun = if count == 1 {
        "file or folder"
    } else {
        "files or folders"
    };
    format!("{count} {noun} could not be read, or changed meanwhile")
}
