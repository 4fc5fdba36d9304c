//! What an opening is checked under: the key, n, k, the base domain, the set of widths and level 0's root are the seal's; the further roots are those that the checker
//! kept, or else the opening's.

use crate::key::told;
use crate::lines::{items, most_bytes};
use crate::options::Options;
use crate::outcome::Failure;
use crate::reading::{leads_through, named_text};
use crate::seal::Seal;
use crate::shape::Shape;
use crate::shown::Shown;
use dequmlo::{Refusal, Root, Statement, Word};
use std::path::Path;

/// The roots of all levels, and whether the checker kept them.
#[derive(Clone)]
pub struct Roots {
    pub all: Vec<Root>,
    pub kept: bool,
}

/// What the checker brings in the place of what an opening says of itself: roots that were kept, and a claim that is expected.
pub struct Brought {
    roots: Option<Roots>,
    claim: Option<Word>,
}

impl Brought {
    /// Fails where the kept roots are not those of this seal, or the claim is no word: that is the checker's own fault, and no refusal, whatever the opening is.
    pub fn read(options: &Options, seal: &Seal) -> Result<Brought, Failure> {
        let roots = options.path("--roots");
        let claim = options
            .text("--claim")?
            .map(|text| text.parse().map_err(|e| Failure(format!("--claim: {e}"))));
        Ok(Brought {
            roots: roots.map(|path| kept_roots(&path, seal)).transpose()?,
            claim: claim.transpose()?,
        })
    }

    /// The roots to check under: those that were kept, or else the opening's; a sentence where it has none.
    pub fn roots(&self, seal: &Seal, shown: &Shown) -> Result<Roots, String> {
        if let Some(roots) = &self.roots {
            return Ok(roots.clone());
        }
        let mut all = shown.roots.clone()?;
        if let Some(first) = all.first_mut() {
            *first = seal.root;
        }
        Ok(Roots { all, kept: false })
    }

    /// The terminal claim: the one that is expected, or else the opening's; a sentence where it has none.
    pub fn claim(&self, shown: &Shown) -> Result<Word, String> {
        self.claim.map_or_else(|| shown.claim.clone(), Ok)
    }
}

/// The roots in a file of the checker's.
fn kept_roots(path: &Path, seal: &Seal) -> Result<Roots, Failure> {
    let levels = seal.shape.n + 1;
    let all: Vec<Root> = items(path, &named_text(path, most_bytes(levels, 64))?)?;
    let wrong = |what: String| {
        Failure(format!(
            "{} is not the list of roots that was kept for this seal: {what}. It is damaged, or belongs to another seal; nothing is said of the \
             opening",
            path.display()
        ))
    };
    if all.len() != levels {
        return Err(wrong(format!(
            "it has {} roots, and this seal has {levels} levels",
            all.len()
        )));
    }
    if all[0] != seal.root {
        return Err(wrong("its first root is not the seal's".into()));
    }
    Ok(Roots { all, kept: true })
}

/// Fails where a file or folder that must be the checker's own is one of the opening's, or where a link of the opening leads to it.
pub fn checker_s_own(options: &Options, opening: &Path) -> Result<(), Failure> {
    none_in(
        options,
        opening,
        &["--asked", "--challenges", "--positions", "--roots"],
    )?;
    checker_s_seal(options, opening)
}

/// The same of the seal and its key alone, where challenges and roots are the opening's own in any case.
pub fn checker_s_seal(options: &Options, opening: &Path) -> Result<(), Failure> {
    none_in(options, opening, &["--key-file", "--seal"])
}

fn none_in(options: &Options, opening: &Path, names: &[&str]) -> Result<(), Failure> {
    for name in names {
        let path = options.path(name);
        if let Some(path) = path.filter(|path| leads_through(path, opening)) {
            return Err(Failure(format!(
                "{} lies in the opening, so it is the holder's; {name} takes the checker's own",
                path.display()
            )));
        }
    }
    Ok(())
}

pub fn statement(seal: &Seal, roots: &Roots, challenges: &[Word]) -> Result<Statement, Refusal> {
    let shape = &seal.shape;
    Statement::new(
        seal.key(),
        &shape.domain,
        shape.widths,
        shape.n,
        shape.k,
        challenges,
        &roots.all,
    )
}

/// Where the opening does not fit the seal and the checker's own files, and which side that speaks against.
pub fn misfits(seal: &Seal, shown: &Shown, roots: &Roots, challenges: &[Word]) -> Vec<String> {
    let mut notes: Vec<String> = another_shape(seal, shown).into_iter().collect();
    notes.extend(another_root(seal, shown));
    if let (true, Ok(shown)) = (roots.kept, &shown.roots) {
        let differs = (1..roots.all.len()).find(|l| shown.get(*l) != roots.all.get(*l));
        notes.extend(differs.map(|l| {
            format!("the root of level {l} in the opening is not the one that was kept: the holder changed it, or the kept file was changed")
        }));
    }
    match &shown.challenges {
        Ok(words) => notes.extend(first_difference(words, challenges).map(|l| {
            format!("the opening was made by other challenges than the checker's; the first that differs is that of level {l}")
        })),
        Err(what) => notes.push(format!(
            "the opening does not say by which challenges it was made: {what}"
        )),
    }
    notes
}

/// Where the opening names another n, k, base domain, set of widths or key than the seal, or none.
pub fn another_shape(seal: &Seal, shown: &Shown) -> Option<String> {
    match &shown.shape {
        Ok(shape) if *shape == seal.shape => None,
        Ok(shape) if another_set(shape, &seal.shape) => Some(format!(
            "the opening says that it was made under the {} set of widths, and the seal is of the {} one: it was made for another seal",
            shape.widths, seal.shape.widths
        )),
        Ok(shape) if another_key(shape, &seal.shape) => key_note(seal, shape),
        Ok(_) if seal.assumed.is_some() => Some(
            "the opening names another n, k or base domain than the seal is read under".into(),
        ),
        Ok(_) => Some("the opening names another n, k or base domain than the seal: it was made for another seal".into()),
        Err(Failure(what)) => Some(format!(
            "the opening does not say for which n, k, base domain and widths it was made: {what}"
        )),
    }
}

/// Where an opening of this shape names another key than the seal, or one of the two none. What that line says decides nothing: it may be all that was changed.
fn key_note(seal: &Seal, shape: &Shape) -> Option<String> {
    (shape.key != seal.shape.key).then(|| {
        format!(
            "the opening says that it was made {}, and the seal was made {}: its key line is not the seal's",
            told(shape.key),
            told(seal.shape.key)
        )
    })
}

/// The same of an opening of which nothing else is said. One that does not name its shape says nothing of a key.
pub fn another_key_in(seal: &Seal, opening: &Path) -> Option<String> {
    key_note(seal, &Shape::read(opening).ok()?.shape)
}

/// Whether two shapes differ in the set of widths and in nothing else.
fn another_set(one: &Shape, other: &Shape) -> bool {
    let widths = one.widths;
    one.widths != other.widths
        && *one
            == Shape {
                widths,
                ..other.clone()
            }
}

/// Whether two shapes differ in the key and in nothing else.
fn another_key(one: &Shape, other: &Shape) -> bool {
    let key = one.key;
    one.key != other.key
        && *one
            == Shape {
                key,
                ..other.clone()
            }
}

/// The level of the first challenge in which two lists differ.
pub fn first_difference(first: &[Word], second: &[Word]) -> Option<usize> {
    let same = first.iter().zip(second).take_while(|(a, b)| a == b).count();
    (first != second).then_some(same)
}

/// An opening that was made for another root: a sound seal speaks against the opening, one without check lines against neither.
fn another_root(seal: &Seal, shown: &Shown) -> Option<String> {
    let shown = shown.roots.as_ref().ok()?;
    let made_for = shown.first().filter(|root| **root != seal.root)?;
    let whose = if seal.vouched {
        "The seal is as it was written, by its own check lines: the opening belongs to another deposit, or its roots.txt was changed"
    } else {
        "The seal has no check lines, so it cannot be told whether its root.txt was changed or the opening is the wrong one: compare the root \
         with the one in the seal's summary.txt, or with a copy of the seal"
    };
    Some(format!(
        "the opening says that it was made for the root {made_for}, and the seal's root is {}. {whose}",
        seal.root
    ))
}
