//! Interrupted work: an opening that is folded up to some level L, kept in a folder of plain files, so that `seal open --resume` goes on from there.
//!
//! Each text of these but the last two begins with the line of its format (format.rs).
//!
//!     parameters.txt     as in an opening
//!     challenges.txt     all n challenges, as in an opening
//!     coordinates.txt    the coordinates that are not folded yet, one to a line: the numbers from L to n - 1
//!     roots.txt          the roots of levels 0 to L, one to a line
//!     level-I-P.words    the values of level I, from 0 to L, 16 bytes a word, lowest first; in pieces of 2^20 words, which P counts from 0
//!     summary.txt        what this is, in sentences; nothing reads it
//!     check.txt          the digest of each of these (check_lines.rs)

use crate::check_lines::with_check_lines;
use crate::folder::{not_ours, Kind, SUMMARY};
use crate::format::{all_known, signature};
use crate::lines::{self, items, most_bytes};
use crate::opening::{CHALLENGES, ROOTS};
use crate::outcome::Failure;
use crate::reading::{exactly, listed, text_inside, unreadable};
use crate::seal::Seal;
use crate::shape::{Shape, PARAMETERS};
use crate::statement::first_difference;
use dequmlo::{HalfFolded, Kept, Key, NotTakenUp, Root, Threads, Word};
use std::borrow::Cow;
use std::io;
use std::path::{Path, PathBuf};

pub const COORDINATES: &str = "coordinates.txt";

/// The most bytes of a piece of a level: as many as the library takes a digest of.
const PIECE: usize = 1 << 24;

/// The most bytes of a line with a coordinate.
const COORDINATE_DIGITS: usize = 2;

/// Interrupted work of which the texts were read.
pub struct Begun {
    folder: PathBuf,
    kept: Kept,
}

impl Begun {
    /// Reads the texts of interrupted work on this seal by these challenges; a sentence where it is damaged, of another seal or by others.
    pub fn read(
        folder: &Path,
        seal: &Seal,
        challenges: &[Word],
    ) -> Result<Result<Begun, String>, Failure> {
        if !folder.is_dir() {
            return Err(Failure(format!(
                "there is no interrupted work {}: give the folder that `seal open` with --until wrote",
                folder.display()
            )));
        }
        all_known(folder, &[PARAMETERS, CHALLENGES, COORDINATES, ROOTS])?;
        Ok(Texts::read(folder)
            .map_err(|what| damaged(folder, &what))
            .and_then(|texts| texts.begun(folder, seal, challenges)))
    }

    /// The level that it has reached.
    pub fn level(&self) -> usize {
        self.kept.challenges.len()
    }

    pub fn folder(&self) -> &Path {
        &self.folder
    }

    /// The deposit as it was left, every level checked under the seal's key; a sentence where one is damaged.
    pub fn take_up(self, threads: Threads, key: Option<&Key>) -> Result<HalfFolded, String> {
        let (folder, level) = (&self.folder, self.level());
        let mut read = Vec::new();
        let half = HalfFolded::take_up(threads, key, self.kept, |level, room| {
            read.extend(fill(folder, level, room)?);
            Ok(())
        });
        let half = half.map_err(|why| damaged(folder, &why))?;
        match another_piece(folder, &read) {
            None => Ok(half),
            Some(name) => Err(damaged(
                folder,
                &format!("it holds {name}, which is no piece of the levels up to {level}"),
            )),
        }
    }
}

/// The texts of interrupted work, as they were read.
struct Texts {
    shape: Shape,
    challenges: Vec<Word>,
    coordinates: Vec<usize>,
    roots: Vec<Root>,
}

impl Texts {
    fn read(folder: &Path) -> Result<Texts, String> {
        match not_ours(folder, Kind::Begun) {
            Some(why) => Err(why),
            None => texts(folder).map_err(|Failure(what)| what),
        }
    }

    fn begun(self, folder: &Path, seal: &Seal, challenges: &[Word]) -> Result<Begun, String> {
        let shown = folder.display();
        if self.shape != seal.shape {
            return Err(format!(
                "the interrupted work in {shown} is of another seal: it names another n, k, base domain, set of widths or key"
            ));
        }
        if let Some(root) = self.roots.first().filter(|root| **root != seal.root) {
            return Err(format!(
                "the interrupted work in {shown} is of another seal: its level 0 has the root {root}, and this seal's is {}",
                seal.root
            ));
        }
        if let Some(level) = first_difference(&self.challenges, challenges) {
            return Err(format!(
                "the interrupted work in {shown} was begun by other challenges than those that are asked now; the first that differs is that of level {level}"
            ));
        }
        let kept = self.kept().map_err(|why| damaged(folder, &why))?;
        Ok(Begun {
            folder: folder.into(),
            kept,
        })
    }

    /// What the library takes up. The list of coordinates says which level was reached.
    fn kept(self) -> Result<Kept, NotTakenUp> {
        let Shape {
            n,
            k,
            domain,
            widths,
            ..
        } = self.shape;
        let level = n.checked_sub(self.coordinates.len());
        let done = self.challenges[..level.ok_or(NotTakenUp::Coordinates)?].to_vec();
        let kept = Kept {
            base: domain,
            widths,
            n,
            k,
            challenges: done,
            coordinates: self.coordinates,
            roots: self.roots,
        };
        kept.check().map(|()| kept)
    }
}

fn texts(folder: &Path) -> Result<Texts, Failure> {
    let shape = Shape::read(folder)?.shape;
    let n = shape.n;
    let text = |name, lines, digits| text_inside(folder, name, most_bytes(lines, digits));
    let at = |name| folder.join(name);
    Ok(Texts {
        challenges: items(&at(CHALLENGES), &text(CHALLENGES, n, 32)?)?,
        coordinates: items(&at(COORDINATES), &text(COORDINATES, n, COORDINATE_DIGITS)?)?,
        roots: items(&at(ROOTS), &text(ROOTS, n + 1, 64)?)?,
        shape,
    })
}

fn damaged(folder: &Path, what: &dyn std::fmt::Display) -> String {
    format!(
        "the interrupted work in {} is damaged or cannot be read, and was not taken up: {what}. Take it from a copy, or begin anew without --resume",
        folder.display()
    )
}

/// Fills the room for a level's values with its pieces. Their names.
fn fill(folder: &Path, level: usize, room: &mut [u8]) -> io::Result<Vec<String>> {
    let pieces = room.chunks_mut(PIECE).enumerate();
    let read = |(piece, room): (usize, &mut [u8])| {
        let name = piece_name(level, piece);
        match exactly(folder, &name, room) {
            Ok(()) => Ok(name),
            Err(why) => {
                let Failure(sentence) = unreadable(&folder.join(name), why);
                Err(io::Error::new(io::ErrorKind::Other, sentence))
            }
        }
    };
    pieces.map(read).collect()
}

/// A piece of a level in the folder that is none of these.
fn another_piece(folder: &Path, pieces: &[String]) -> Option<String> {
    let found = listed(folder, usize::MAX).ok().flatten()?;
    let names = found.iter().filter_map(|(name, _)| name.to_str());
    names
        .filter(|name| piece_of(name).is_some())
        .find(|name| !pieces.iter().any(|piece| piece == name))
        .map(String::from)
}

/// The files of interrupted work on this file, by all of these challenges. Values are not copied.
pub fn files<'a>(
    half: &'a HalfFolded,
    shape: &Shape,
    challenges: &[Word],
    file: &str,
    drawn: &str,
) -> Vec<(String, Cow<'a, [u8]>)> {
    let (level, roots) = (half.level(), half.roots());
    let summary = format!(
        "{} {file}.\n\nFolded up to level {level} of {}.\nThe challenges: {drawn}.\nMade for the root: {}\n{}\n\
         `seal open` goes on from here with --resume.\n\n{}",
        Kind::Begun.heading(),
        shape.n,
        roots[0],
        shape.key_sentence(),
        signature()
    );
    let mut files: Vec<(String, Cow<[u8]>)> = vec![
        (PARAMETERS.into(), shape.file().into()),
        (CHALLENGES.into(), lines::file(challenges).into()),
        (COORDINATES.into(), lines::file(&half.coordinates()).into()),
        (ROOTS.into(), lines::file(&roots).into()),
        (SUMMARY.into(), summary.into_bytes().into()),
    ];
    files.extend((0..=level).flat_map(|level| pieces(level, half.values(level))));
    with_check_lines(files)
}

fn pieces(level: usize, values: &[u8]) -> impl Iterator<Item = (String, Cow<'_, [u8]>)> {
    let named = move |(piece, values)| (piece_name(level, piece), Cow::Borrowed(values));
    values.chunks(PIECE).enumerate().map(named)
}

/// The name of a piece of a level.
fn piece_name(level: usize, piece: usize) -> String {
    format!("level-{level}-{piece}.words")
}

/// The level and the number of the piece of this name, to the letter.
pub fn piece_of(name: &str) -> Option<(usize, usize)> {
    let numbers = name.strip_prefix("level-")?.strip_suffix(".words")?;
    let (level, piece) = numbers.split_once('-')?;
    let (level, piece) = (level.parse().ok()?, piece.parse().ok()?);
    (piece_name(level, piece) == name).then_some((level, piece))
}

#[cfg(test)]
mod tests {
    use super::piece_of;

    #[test]
    fn only_the_exact_name_is_a_piece_s() {
        assert_eq!(piece_of("level-0-0.words"), Some((0, 0)));
        assert_eq!(piece_of("level-12-15.words"), Some((12, 15)));
        for name in [
            "level-0.words",
            "level-00-0.words",
            "level-0-+1.words",
            "level-0-0-0.words",
            "level-0-0.word",
            "Level-0-0.words",
            "level--1-0.words",
            "level-99999999999999999999-0.words",
        ] {
            assert_eq!(piece_of(name), None, "{name}");
        }
    }
}
