//! The levels that stand before `seal open` folds: level 0 of the sealed file, or those of interrupted work.

use crate::begun::Begun;
use crate::manifest::counted;
use crate::outcome::{Ended, Failure};
use crate::part::Part;
use crate::progress::Progress;
use crate::project::file_path;
use crate::reading::{shown_path, steady_stretch, unreadable, Stretch, Unread};
use crate::seal::Seal;
use crate::shape::Shape;
use crate::table::{read_table, room_to_fold, table_of};
use dequmlo::{Deposit, Folded, HalfFolded, Refusal, Threads, Word};
use std::path::{Path, PathBuf};

pub enum Standing {
    Committed(Deposit),
    TakenUp(HalfFolded),
}

impl Standing {
    /// Level 0 of the file, or of the part that is asked about; its root must be the seal's.
    pub fn committed(
        file: &Path,
        threads: Threads,
        seal: &Seal,
        progress: &Progress,
    ) -> Result<Standing, Ended> {
        let (table, path) = read(file, seal)?;
        if table.len() != seal.sizes.table_words {
            return Err(another_file(&path).into());
        }
        room_to_fold(&seal.shape)?;
        let working = counted(threads.number(), "thread");
        progress.say(&format!("committing {} words on {working} ..", table.len()));
        let Shape {
            k, domain, widths, ..
        } = &seal.shape;
        let deposit = Deposit::commit_on(threads, seal.key(), domain, *widths, *k, &table)?;
        if deposit.root() != seal.root {
            return Err(another_file(&path).into());
        }
        Ok(Standing::Committed(deposit))
    }

    /// The levels of interrupted work, which has all that is needed.
    pub fn taken_up(
        begun: Begun,
        threads: Threads,
        seal: &Seal,
        progress: &Progress,
    ) -> Result<Standing, Ended> {
        room_to_fold(&seal.shape)?;
        progress.say(&format!("checking levels 0 to {} ..", begun.level()));
        Ok(Standing::TakenUp(begun.take_up(threads, seal.key())?))
    }

    /// Folded by these challenges, the first ones of the deposit, of which some may be done.
    pub fn fold_until(self, threads: Threads, challenges: &[Word]) -> Result<HalfFolded, Refusal> {
        match self {
            Standing::Committed(deposit) => deposit.fold_until(threads, challenges),
            Standing::TakenUp(half) => {
                let left = &challenges[half.level()..];
                half.fold_further(threads, left)
            }
        }
    }

    /// Folded by all challenges, of which some may be done.
    pub fn fold(self, threads: Threads, challenges: &[Word]) -> Result<Folded, Refusal> {
        match self {
            Standing::Committed(deposit) => deposit.fold_on(threads, challenges),
            Standing::TakenUp(half) => {
                let left = &challenges[half.level()..];
                half.fold_on(threads, left)
            }
        }
    }
}

/// The table of the file, or of the part that is asked about, and the path of what was read.
fn read(file: &Path, seal: &Seal) -> Result<(Vec<Word>, PathBuf), Ended> {
    match &seal.part {
        None if file.is_dir() => Err(Failure(format!(
            "{} is a folder: --file PATH says which file of the project is opened",
            file.display()
        ))
        .into()),
        None => Ok((read_table(file)??.words, file.into())),
        Some(part) => {
            let path = of_project(file, part)?;
            Ok((read_part(&path, part)??, path))
        }
    }
}

/// The path of a part's file: below the project's folder, or what is named itself where that is a file.
fn of_project(named: &Path, part: &Part) -> Result<PathBuf, Failure> {
    if named.is_dir() {
        return Ok(file_path(named, &part.path));
    }
    named
        .canonicalize()
        .map_err(|e| unreadable(named, Unread::from(e)))
}

/// The table of a part of a project's file, as the file is now: with a byte more where it does not end with the part.
fn read_part(path: &Path, part: &Part) -> Result<Result<Vec<Word>, String>, Failure> {
    let stretch = Stretch {
        start: part.start,
        size: part.bytes + usize::from(part.is_last()),
    };
    let bytes = steady_stretch(path, stretch).map_err(|e| unreadable(path, e))?;
    Ok(table_of(&bytes).map_err(|_| another_file(path)))
}

fn another_file(path: &Path) -> String {
    format!(
        "{} is not the file that was sealed: its root is another",
        shown_path(path)
    )
}
