//! An opening as a holder sent it, which may be anything: what is read of it is bounded by the seal, and what is not read is named. What is wrong with it is the
//! holder's, and is kept in a sentence; only a disk that fails is a failure.

use crate::check_lines::{CheckLines, CHECK};
use crate::folder::Kind;
use crate::format::all_known;
use crate::lines::{items, most_bytes, one};
use crate::manifest_files::is_of_a_manifest;
use crate::opening::{
    meant_position, record_name, record_position, CHALLENGES, CLAIM, ROOTS, TAIL,
};
use crate::options::Options;
use crate::outcome::Failure;
use crate::reading::{inside, listed, reason, shown_name, text_inside, unreadable, Unread};
use crate::seal::Seal;
use crate::shape::{Shape, PARAMETERS};
use dequmlo::{QueryRecord, Root, Sizes, TailRecord, Widths, Word};
use std::cell::RefCell;
use std::collections::BTreeMap;
use std::ffi::OsString;
use std::path::{Path, PathBuf};

/// The files of an opening that are no records, and how many others are named as not checked before the folder is refused as none.
const OTHER_FILES: usize = 8 + 100;

pub struct Shown {
    folder: PathBuf,
    sizes: Sizes,
    /// The files of the manifest of a project, which were looked at before.
    manifest: Vec<String>,
    /// Every name, and whether it is a regular file.
    names: Vec<(OsString, bool)>,
    lines: Option<CheckLines>,
    /// The files that are not as they were when the opening was made.
    changed: RefCell<Vec<String>>,
    /// The records that are not of the size that the seal's have, and of which nothing says that they were changed; with whether its check line says that they
    /// were not.
    of_another_size: RefCell<Vec<(String, bool)>>,
    pub shape: Result<Shape, Failure>,
    /// What it says of itself, or in a sentence why it says nothing.
    pub challenges: Result<Vec<Word>, String>,
    pub roots: Result<Vec<Root>, String>,
    pub claim: Result<Word, String>,
    pub tail: Result<TailRecord, String>,
}

/// What something that the opening says of itself is good for.
#[derive(Clone, Copy, Debug, PartialEq, Eq)]
pub enum Use {
    /// The check goes by them.
    Decides,
    /// The checker has others, and a note says where these differ.
    Note,
    /// They are not read.
    Nothing,
}

/// What the opening's own challenges, roots and claim are good for.
#[derive(Clone, Copy, Debug, PartialEq, Eq)]
pub struct Own {
    pub challenges: Use,
    pub roots: Use,
    pub claim: Use,
}

impl Own {
    /// Where the checker has all of them.
    pub const NOTHING: Own = Own {
        challenges: Use::Note,
        roots: Use::Nothing,
        claim: Use::Nothing,
    };

    /// By what the command line names in their place.
    pub fn by(options: &Options) -> Own {
        let unless = |names: &[&str], otherwise| {
            if names.iter().any(|name| options.given(name)) {
                otherwise
            } else {
                Use::Decides
            }
        };
        Own {
            challenges: unless(&["--challenges", "--seed"], Use::Note),
            roots: unless(&["--roots"], Use::Note),
            claim: unless(&["--claim"], Use::Nothing),
        }
    }

    /// The texts of the opening that must be of a known format: those that the check goes by, and those that say of what format the records are.
    fn texts(self) -> Vec<&'static str> {
        let mut texts = vec![PARAMETERS, CHALLENGES];
        texts.extend((self.roots == Use::Decides).then_some(ROOTS));
        texts.extend((self.claim == Use::Decides).then_some(CLAIM));
        texts
    }
}

/// What an opening has at a position.
pub enum Record {
    Found(QueryRecord),
    Missing,
    /// Something that is no file, in words.
    NotAFile(String),
}

impl Shown {
    /// Reads all but the records, of which so many are expected; a sentence where the folder is refused unread. Fails where there is none, or the disk fails.
    pub fn read(
        folder: &Path,
        seal: &Seal,
        records: usize,
        own: Own,
    ) -> Result<Result<Shown, String>, Failure> {
        if !folder.is_dir() {
            return Err(Failure(format!(
                "there is no opening {}: give the folder that `seal open` wrote",
                folder.display()
            )));
        }
        let most = OTHER_FILES + records.max(40) + seal.manifest.len();
        let names = match listed(folder, most).map_err(|e| unreadable(folder, reason(&e)))? {
            Some(names) => names,
            None => {
                return Ok(Err(format!(
                    "{} holds more than {most} files, and an opening of {records} positions has fewer; ask the holder for the opening alone",
                    folder.display()
                )))
            }
        };
        if let Err(Failure(sentence)) = all_known(folder, &own.texts()) {
            return Ok(Err(sentence));
        }
        parts(folder, seal, names, most, own).map(Ok)
    }

    /// The record at a position, of which one byte more is taken than a record of this seal has.
    pub fn record(&self, position: usize) -> Result<Record, Failure> {
        let name = record_name(position);
        match inside(&self.folder, &name, longest(&self.sizes, |s| s.query_bytes)) {
            Ok(bytes) => Ok(Record::Found(
                self.taken(&name, bytes, |s| s.query_bytes).into(),
            )),
            Err(Unread::Missing) => Ok(Record::Missing),
            Err(e @ Unread::NotAFile(_)) => Ok(Record::NotAFile(format!("{name}: {e}"))),
            Err(e) => Err(unreadable(&self.folder.join(name), e)),
        }
    }

    /// The positions that the opening has records for, rising.
    pub fn positions(&self) -> Vec<usize> {
        let mut positions: Vec<usize> = self.files().filter_map(record_position).collect();
        positions.sort_unstable();
        positions
    }

    /// The positions that two or more files seem to be for, with their names.
    pub fn doubles(&self) -> Vec<(usize, Vec<String>)> {
        let mut by_position: BTreeMap<usize, Vec<String>> = BTreeMap::new();
        for name in self.files() {
            if let Some(position) = meant_position(name) {
                by_position.entry(position).or_default().push(name.into());
            }
        }
        by_position
            .into_iter()
            .filter(|(_, names)| names.len() > 1)
            .collect()
    }

    /// What is in the folder and was not checked, where these positions were.
    pub fn unchecked(&self, positions: &[usize]) -> Vec<String> {
        let known = |name: &OsString| match name.to_str().and_then(record_position) {
            Some(position) => positions.binary_search(&position).is_ok(),
            None if name.to_str().map_or(false, is_of_a_manifest) => {
                self.manifest.iter().any(|known| name == &known[..])
            }
            None => Kind::Opening.has(name),
        };
        self.names
            .iter()
            .map(|(name, _)| name)
            .filter(|name| !known(name))
            .map(|name| shown_name(name))
            .collect()
    }

    /// The files that its check lines show to be changed since it was made, of those that were read.
    pub fn changed(&self) -> Vec<String> {
        self.changed.borrow().clone()
    }

    /// What is said of records that are longer or shorter than the seal's, of those that were read and of which nothing says that they were changed.
    pub fn size_note(&self) -> Option<String> {
        let found = self.of_another_size.borrow();
        let names: Vec<String> = found.iter().map(|(name, _)| name.clone()).collect();
        let or_damaged = if found.iter().all(|(_, is_known)| *is_known) {
            ""
        } else {
            ", or were cut or added to on the way"
        };
        (!names.is_empty()).then(|| {
            format!(
                "these files are longer or shorter than those of this seal: {}. They are of another seal, or of another set of widths{or_damaged}",
                some_of(&names)
            )
        })
    }

    fn files(&self) -> impl Iterator<Item = &str> {
        self.names.iter().filter_map(|(name, _)| name.to_str())
    }

    fn noticed(&self, name: &str, bytes: &[u8]) {
        if self.is_changed(name, bytes) {
            self.changed.borrow_mut().push(name.into());
        }
    }

    fn is_changed(&self, name: &str, bytes: &[u8]) -> bool {
        matches!(&self.lines, Some(lines) if !lines.agree(name, bytes))
    }

    /// What is checked of the bytes of a record: one more than the seal's have at the most. Notices whether they were changed, if all of them were read, and
    /// else whether they are not as many as the seal's are.
    fn taken(&self, name: &str, mut bytes: Vec<u8>, size: fn(&Sizes) -> usize) -> Vec<u8> {
        let is_whole = bytes.len() <= longest(&self.sizes, size);
        if is_whole && self.is_changed(name, &bytes) {
            self.changed.borrow_mut().push(name.into());
        } else if bytes.len() != size(&self.sizes) {
            let is_known = is_whole && self.lines.is_some();
            self.of_another_size
                .borrow_mut()
                .push((name.into(), is_known));
        }
        bytes.truncate(size(&self.sizes) + 1);
        bytes
    }
}

/// The bytes of the longest record of this n and k in either set of widths.
fn longest(sizes: &Sizes, size: fn(&Sizes) -> usize) -> usize {
    let of = |widths| Sizes::of(widths, sizes.n, sizes.k).map_or(0, |sizes| size(&sizes));
    [Widths::Present, Widths::Wide]
        .map(of)
        .into_iter()
        .fold(0, usize::max)
}

/// A text of an opening; a sentence where it has none that an opening can have. Fails where the disk does.
fn text_of(folder: &Path, name: &str, most: usize) -> Result<Result<String, String>, Failure> {
    match inside(folder, name, 0) {
        Err(e @ Unread::Failed(_)) => Err(unreadable(&folder.join(name), e)),
        _ => Ok(text_inside(folder, name, most).map_err(not_whole)),
    }
}

/// What is said of an opening that lacks something.
fn not_whole(Failure(what): Failure) -> String {
    format!("the opening is not whole: {what}. Ask the holder for it again")
}

fn parts(
    folder: &Path,
    seal: &Seal,
    names: Vec<(OsString, bool)>,
    most: usize,
    own: Own,
) -> Result<Shown, Failure> {
    let n = seal.shape.n;
    let text = |name, lines, digits| text_of(folder, name, most_bytes(lines, digits));
    let own_text = |good_for, name, lines, digits| match good_for {
        Use::Decides => text(name, lines, digits),
        Use::Note => Ok(text(name, lines, digits).unwrap_or_else(|Failure(what)| Err(what))),
        Use::Nothing => Ok(Err(format!("{name} was not read"))),
    };
    let at = |name| folder.join(name);
    let roots = own_text(own.roots, ROOTS, n + 1, 64)?;
    let claim = own_text(own.claim, CLAIM, 1, 32)?;
    let challenges = own_text(own.challenges, CHALLENGES, n, 32)?;
    let tail = match inside(folder, TAIL, longest(&seal.sizes, |s| s.tail_bytes)) {
        Ok(bytes) => Ok(bytes),
        Err(e @ Unread::Failed(_)) => return Err(unreadable(&at(TAIL), e)),
        Err(e) => Err(not_whole(unreadable(&at(TAIL), e))),
    };
    let shown = Shown {
        folder: folder.into(),
        sizes: seal.sizes,
        manifest: seal.manifest.iter().map(|(name, _)| name.clone()).collect(),
        names,
        // Check lines that cannot be read are as good as none; they decide nothing.
        lines: CheckLines::read(folder, most).unwrap_or(None),
        changed: RefCell::default(),
        of_another_size: RefCell::default(),
        shape: Shape::read(folder).map(|read| read.shape),
        roots: match &roots {
            Ok(text) => items(&at(ROOTS), text).map_err(not_whole),
            Err(what) => Err(what.clone()),
        },
        claim: match &claim {
            Ok(text) => one(&at(CLAIM), text).map_err(not_whole),
            Err(what) => Err(what.clone()),
        },
        challenges: challenges.and_then(|text| items(&at(CHALLENGES), &text).map_err(not_whole)),
        tail: Err(String::new()),
    };
    for (name, text) in [(ROOTS, &roots), (CLAIM, &claim)] {
        if let Ok(text) = text {
            shown.noticed(name, text.as_bytes());
        }
    }
    let tail = tail.map(|bytes| shown.taken(TAIL, bytes, |s| s.tail_bytes).into());
    Ok(Shown { tail, ..shown })
}

/// A short list of names: the first few, and how many more there are.
pub fn some_of(names: &[String]) -> String {
    const FEW: usize = 5;
    let few = names[..names.len().min(FEW)].join(", ");
    match names.len().saturating_sub(FEW) {
        0 => few,
        more => format!("{few} and {more} more"),
    }
}

/// What is said of files that changed since an opening was made.
pub fn changed_note(names: &[String]) -> Option<String> {
    (!names.is_empty()).then(|| {
        format!(
            "the opening's {CHECK} says that these files are not as they were when it was made: {}. They were damaged or changed on the \
             holder's side or on the way",
            some_of(names)
        )
    })
}
