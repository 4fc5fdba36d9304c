//! `seal compare`: two records of one position. That they are the same is the good result; where both are accepted and differ, the hash is
//! broken, and the two messages show it.

use crate::check_lines::with_check_lines;
use crate::folder::{Kind, Named, SUMMARY};
use crate::format::signature;
use crate::json::Json;
use crate::key;
use crate::options::Options;
use crate::outcome::{lines_of, Failure, Outcome, Verdict};
use crate::part::asked_seal;
use crate::questions::challenges;
use crate::reading::named;
use crate::shape::{Shape, PARAMETERS};
use crate::shown::{Own, Shown, Use};
use crate::statement::{checker_s_seal, statement, Brought};
use crate::writing::{beside, Target};
use dequmlo::{Collision, QueryRecord, Refusal, Statement};
use std::path::{Path, PathBuf};

pub const TAKEN: [&str; 12] = [
    "--seal",
    "--older",
    "--key-file",
    "--file",
    "--part",
    "--opening",
    "--at",
    "--challenges",
    "--roots",
    "--out",
    "--force",
    "--json",
];

/// The numbers of the library's last two questions to two records.
const NOT_ACCEPTED: u32 = 32;
const SAME: u32 = 33;

const BROKEN: &str = "two messages with one digest were found, so the hash is broken";

pub fn run(options: &Options) -> Result<Outcome, Failure> {
    options.expect(2, "two records, FIRST and SECOND", &TAKEN)?;
    let opening = options.needed_path(
        "--opening",
        "the folder that names the challenges and the roots",
    )?;
    checker_s_seal(options, &opening)?;
    let seal = match asked_seal(options, Some(&opening))? {
        Ok(seal) => seal,
        Err(refused) => return Ok(refused.outcome()),
    };
    let position = options
        .number("--at")?
        .ok_or_else(|| Failure("`seal compare` needs --at: the position of both records".into()))?;
    let record =
        |i: usize| named(&options.operands[i], seal.sizes.query_bytes).map(QueryRecord::from);
    let (first, second) = (record(0)?, record(1)?);
    let brought = Brought::read(options, &seal)?;
    let shown = match Shown::read(
        &opening,
        &seal,
        seal.shape.queries(),
        Own {
            claim: Use::Nothing,
            ..Own::by(options)
        },
    )? {
        Ok(shown) => shown,
        Err(sentence) => return Ok(Outcome::declined(sentence)),
    };
    of_one_set_and_key(&seal.shape, &options.operands, &opening)?;
    let words = match (challenges(options, seal.shape.n)?, &shown.challenges) {
        (Some((words, _)), _) => words,
        (None, Ok(words)) => words.clone(),
        (None, Err(what)) => return Ok(Outcome::declined(what.clone())),
    };
    let roots = match brought.roots(&seal, &shown) {
        Ok(roots) => roots,
        Err(what) => return Ok(Outcome::declined(what)),
    };
    let statement = match statement(&seal, &roots, &words) {
        Ok(statement) => statement,
        Err(refusal) => return Ok(Outcome::refused(&refusal)),
    };
    let outcome = match statement.compare(position, &first, &second) {
        Ok(collision) => broken(options, &collision),
        Err(refusal) => match refusal.number {
            SAME => same(position),
            NOT_ACCEPTED => not_accepted(&refusal, &statement, position, [&first, &second]),
            _ => Outcome::refused(&refusal),
        },
    };
    Ok(key::found(outcome.notes(seal.notes), seal.shape.key))
}

/// Fails where the opening, or a folder that a record lies in, names another set of widths or another key than the seal: two records are compared under one set
/// and one key. A folder that names no set is of the present one, one that names no key is without one, and one that is no opening says nothing.
fn of_one_set_and_key(seal: &Shape, records: &[PathBuf], opening: &Path) -> Result<(), Failure> {
    let folders = records.iter().filter_map(|record| record.parent());
    for folder in folders.chain([opening]) {
        let named = match Shape::read(folder) {
            Ok(read) => read.shape,
            Err(_) => continue,
        };
        let path = folder.join(PARAMETERS);
        if named.widths != seal.widths {
            return Err(Failure(format!(
                "{} is of the {} set of widths, and the seal is of the {} one: two records are compared under one set",
                path.display(),
                named.widths,
                seal.widths
            )));
        }
        if named.key != seal.key {
            return Err(Failure(format!(
                "{} is of what was made {}, and the seal was made {}: two records are compared under one key",
                path.display(),
                key::told(named.key),
                key::told(seal.key)
            )));
        }
    }
    Ok(())
}

fn same(position: usize) -> Outcome {
    let sentence = format!("the two records at position {position} are accepted and are the same, byte for byte: this is the good result");
    let number = Refusal {
        number: SAME,
        level: None,
    };
    Outcome::new(Verdict::Accepted, sentence)
        .refusal(Some(number))
        .say()
        .found("same", Json::Bool(true))
}

/// 32, and what each record by itself is refused for.
fn not_accepted(
    refusal: &Refusal,
    statement: &Statement,
    position: usize,
    records: [&QueryRecord; 2],
) -> Outcome {
    let mut outcome = Outcome::refused(refusal);
    for (name, record) in ["first", "second"].into_iter().zip(records) {
        let mut lines = match statement.check_query(position, record) {
            Ok(()) => vec!["accepted".to_string()],
            Err(refusal) => lines_of(&refusal),
        };
        lines[0].insert_str(0, &format!("the {name} record: "));
        outcome = outcome.lines(lines);
    }
    outcome.found("same", Json::Null)
}

/// The one bad end: no record is to blame, and no root under this hash shows anything any more. It is said even where the messages cannot be
/// written.
fn broken(options: &Options, collision: &Collision) -> Outcome {
    let sentence = format!("{}: {BROKEN}", Kind::Collision.heading());
    let outcome = Outcome::new(Verdict::Refused, sentence)
        .say()
        .found("same", Json::Bool(false));
    let folder = options
        .path("--out")
        .unwrap_or_else(|| beside(&options.operands[0], ".collision"));
    let written = Target::new(&folder, Kind::Collision, options.has("--force"))
        .and_then(|(target, notes)| Ok([notes, target.write(&messages(collision))?].concat()));
    match written {
        Ok(notes) => outcome
            .lines([format!("the messages are in {}", folder.display())])
            .found("messages", Json::text(folder.display()))
            .notes(notes),
        Err(Failure(what)) => outcome.notes([format!("the messages were not written: {what}")]),
    }
}

fn messages(collision: &Collision) -> Vec<Named> {
    let summary = format!(
        "{}: {BROKEN}.\n\nfirst.message and second.message differ and have the same BLAKE3 digest.\n\n{}",
        Kind::Collision.heading(),
        signature()
    );
    with_check_lines(vec![
        ("first.message".into(), collision.first.clone()),
        ("second.message".into(), collision.second.clone()),
        (SUMMARY.into(), summary.into_bytes()),
    ])
}

#[cfg(test)]
mod tests {
    use super::{broken, same};
    use crate::folder::{not_ours, Kind};
    use crate::options::Options;
    use dequmlo::Collision;
    use std::ffi::OsString;

    /// Nobody has two messages with one digest, so that what is said of them is tried with two that have not.
    #[test]
    fn equal_records_are_the_good_end_and_a_collision_the_bad_one() {
        assert_eq!(same(7).verdict.exit(), 0);
        let folder = std::env::temp_dir().join(format!("seal-collision-{}", std::process::id()));
        let words = ["compare", "a", "b", "--out", folder.to_str().unwrap()].map(OsString::from);
        let options = Options::read(&words).unwrap();
        let collision = Collision {
            first: vec![1],
            second: vec![2],
        };
        for second_line in ["the messages are in", "note: the messages were not written"] {
            let outcome = broken(&options, &collision);
            assert_eq!(outcome.verdict.exit(), 1);
            assert!(outcome.for_a_person()[0].contains("the hash is broken"));
            assert!(outcome.for_a_person()[1].starts_with(second_line));
        }
        assert_eq!(not_ours(&folder, Kind::Collision), None);
        std::fs::remove_dir_all(folder).unwrap();
    }
}
