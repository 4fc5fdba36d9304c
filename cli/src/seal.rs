//! A seal: a small folder with the parameters, the root, their check lines, and a summary for a person. The first two begin with the line of
//! their format (format.rs).
//!
//!     parameters.txt   n, k, the base domain, the set of widths and the check value of a key (shape.rs); without k and the base domain where others wrote it so
//!     root.txt         64 hexadecimal digits
//!     summary.txt      what this is, in sentences; no check reads it
//!     check.txt        the digest of each of the three (check_lines.rs); seals of version 0.1.0 have none

use crate::check_lines::{with_check_lines, CheckLines, CHECK};
use crate::folder::{Kind, Named, SUMMARY};
use crate::format::{all_known, signature, Body};
use crate::key::{fitting, Given};
use crate::lines::{self, most_bytes, one};
use crate::manifest::{counted, Manifest, MANIFEST};
use crate::options::Options;
use crate::outcome::Failure;
use crate::part::Part;
use crate::reading::{inside, shown_name, text_inside};
use crate::shape::{Shape, PARAMETERS};
use dequmlo::{Key, Root, Sizes};
use std::ffi::OsStr;
use std::path::Path;

pub const ROOT: &str = "root.txt";

/// More than a summary has whose file's name is as long as a name can be.
const MOST_OF_A_SUMMARY: usize = 16_384;

/// More files than a seal has: its manifest is in parts where a deposit does not hold it.
const MOST_FILES: usize = 10_000;

/// The folder that `--seal` names, for what is said where it is missing.
pub const SEAL_FOLDER: &str = "the folder that `seal commit` wrote";

/// How the summary of a project's seal begins to say what it stands for.
const OF_A_PROJECT: &str = "It stands for the project";

pub struct Seal {
    pub shape: Shape,
    pub sizes: Sizes,
    pub root: Root,
    /// What its summary says of the file, where its check line says that the summary is as it was written.
    pub summary: Option<String>,
    /// Whether its own check lines say that it is as it was written.
    pub vouched: bool,
    /// What is said of its k and base domain where it names neither.
    pub assumed: Option<String>,
    /// What a verdict under this seal has to say of it.
    pub notes: Vec<String>,
    /// Where it is that of a part of a project, which one.
    pub part: Option<Part>,
    /// And the files of the project's manifest, as they were written.
    pub manifest: Vec<Named>,
    /// The key of its trees, where it is keyed and was read with it.
    pub key: Option<Key>,
}

impl Seal {
    /// Reads a seal, as one older than version 0.4.0 or not, which counts where it names neither k nor a base domain. One that is damaged is a
    /// failure and not a refusal: it is the office's own, and no opening is to blame.
    pub fn read(folder: &Path, older: bool) -> Result<Seal, Failure> {
        if !folder.is_dir() {
            return Err(Failure(format!(
                "there is no seal {}: give the folder that `seal commit` wrote",
                folder.display()
            )));
        }
        all_known(folder, &[PARAMETERS, ROOT])?;
        parts(folder, older).map_err(|Failure(what)| {
            Failure(format!(
                "the seal in {} is damaged or cannot be read, so nothing was checked and nothing is said of an opening: {what}. Take the seal from a copy \
                 of it",
                folder.display()
            ))
        })
    }

    /// The same with the key that the options name. Fails where the seal is keyed and they name none or another, and where it is not and they name one.
    pub fn with_key(self, folder: &Path, options: &Options) -> Result<Seal, Failure> {
        let key = fitting(folder, self.shape.key, Given::by(options)?)?;
        Ok(Seal { key, ..self })
    }

    /// The key of its trees; none where it is not keyed.
    pub fn key(&self) -> Option<&Key> {
        self.key.as_ref()
    }

    /// Whether it stands for a project: it has a manifest, or its summary says so.
    pub fn is_a_project_s(&self, folder: &Path) -> bool {
        let said = self.summary.as_ref();
        folder.join(MANIFEST).exists() || said.map_or(false, |line| line.starts_with(OF_A_PROJECT))
    }

    /// The files of a seal, for a file of so many bytes.
    pub fn files(shape: &Shape, root: &Root, file: &str, bytes: usize) -> Vec<Named> {
        let Shape { n, k, widths, .. } = shape;
        let summary = format!(
            "{}\n\nIt stands for the file {file} of {bytes} bytes, as a table of {} words (n = {n}, k = {k}), under the base \
             domain {} and the {widths} set of widths.\n{}Root: {root}\n\nWhoever keeps this root can check that what a holder shows later is what was deposited:\n\
             `seal open` makes what is shown, `seal check` checks it.\n\n{}",
            Kind::Seal.heading(),
            1usize << n,
            shape.shown_domain(),
            shape.key_sentence(),
            signature()
        );
        with_check_lines(vec![
            (PARAMETERS.into(), shape.file()),
            (ROOT.into(), lines::file(&[root])),
            (SUMMARY.into(), summary.into_bytes()),
        ])
    }
}

impl Seal {
    /// The files of a project's seal.
    pub fn project_files(
        shape: &Shape,
        root: &Root,
        project: &str,
        manifest: &Manifest,
        manifest_files: Vec<Named>,
    ) -> Vec<Named> {
        let summary = format!(
            "{}\n\n{OF_A_PROJECT} {project}: {} of {} bytes in all, in {}.\n\
             {MANIFEST} lists them with the root of each part, and the root below is that of {MANIFEST}, as a table of {} words (n = {}, k = {}), under the base domain {} and the {} set of widths.\n{}Root: {root}\n\n\
             Whoever keeps this root can check that what a holder shows later is what was deposited:\n`seal open` makes what is shown of a file, `seal check` \
             checks it, `seal verify` says what has changed.\n\n{}",
            Kind::Seal.heading(),
            counted(manifest.files.len(), "file"),
            manifest.bytes(),
            counted(manifest.parts(), "part"),
            1usize << shape.n,
            shape.n,
            shape.k,
            shape.shown_domain(),
            shape.widths,
            shape.key_sentence(),
            signature()
        );
        let mut files = vec![
            (PARAMETERS.into(), shape.file()),
            (ROOT.into(), lines::file(&[root])),
        ];
        files.extend(manifest_files);
        files.push((SUMMARY.into(), summary.into_bytes()));
        with_check_lines(files)
    }
}

fn parts(folder: &Path, older: bool) -> Result<Seal, Failure> {
    let parameters = Shape::of_seal(folder, older)?;
    let path = folder.join(ROOT);
    let text = text_inside(folder, ROOT, most_bytes(1, 64))?;
    let root: Root = one(&path, &text)?;
    let written = Body::of(&path, &text)?.written(&lines::text(&[root]));
    let mut notes = Vec::new();
    for (name, untidy) in [(PARAMETERS, parameters.untidy), (ROOT, text != written)] {
        if untidy {
            notes.push(format!("the seal's {name} has blanks, line ends or capital digits that `seal commit` does not write; its content counts"));
        }
    }
    let lines = CheckLines::read(folder, MOST_FILES)?;
    match &lines {
        Some(lines) => {
            agreed(lines, PARAMETERS, &parameters.written)?;
            agreed(lines, ROOT, &written)?;
        }
        None => notes.push(format!("the seal has no {CHECK}, as an earlier version wrote it: damage to the seal itself cannot be told from a wrong opening")),
    }
    let assumed = (!parameters.named).then(|| assumed(&parameters.shape, older));
    notes.extend(assumed.clone());
    if parameters.named && older {
        notes.push("the seal names its k and its base domain, and is read under these whenever it was made: --older changes nothing".into());
    }
    Ok(Seal {
        shape: parameters.shape,
        sizes: parameters.sizes,
        root,
        assumed,
        summary: lines.as_ref().and_then(|lines| summary(folder, lines)),
        vouched: lines.is_some(),
        notes,
        part: None,
        manifest: Vec::new(),
        key: None,
    })
}

/// What is said of a seal that names neither k nor a base domain.
fn assumed(shape: &Shape, older: bool) -> String {
    let (k, domain) = (shape.k, shape.shown_domain());
    let why = if older {
        format!("--older says that it was made before version 0.4.0, so it is read under those of that time, k {k} and {domain} (the profile firstdefault)")
    } else {
        format!("it is read under the default's, k {k} and {domain}; if it was made before version 0.4.0, when the default had k 1, give --older")
    };
    format!("the seal names neither k nor a base domain: {why}")
}

/// The line of a summary that says what the seal stands for.
fn summary(folder: &Path, lines: &CheckLines) -> Option<String> {
    let bytes = inside(folder, SUMMARY, MOST_OF_A_SUMMARY).ok()?;
    let text = String::from_utf8_lossy(&bytes);
    let line = text
        .lines()
        .find(|line| line.starts_with("It stands for"))?;
    lines
        .agree(SUMMARY, &bytes)
        .then(|| shown_name(OsStr::new(line)))
}

/// Fails unless the check line of a file is that of its content.
fn agreed(lines: &CheckLines, name: &str, content: &str) -> Result<(), Failure> {
    if lines.agree(name, content.as_bytes()) {
        return Ok(());
    }
    Err(Failure(format!(
        "{name} and its line in {CHECK} do not agree, so one of them was changed after the seal was written"
    )))
}
