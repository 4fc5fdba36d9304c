//! `seal verify`: whether a file is still the one that was sealed, and where it first differs as far as an opening shows the old words. A
//! folder is a project (verify_folder.rs).

use crate::commands::verify_folder::{self, Verified};
use crate::folder::SUMMARY;
use crate::json::Json;
use crate::key;
use crate::manifest::counted;
use crate::old_words::shown_words;
use crate::options::Options;
use crate::outcome::{Failure, Outcome, Verdict};
use crate::progress::Progress;
use crate::seal::{Seal, SEAL_FOLDER};
use crate::shape::Shape;
use crate::statement::{another_key_in, checker_s_seal};
use crate::table::{read_table, room_to_commit, Table};
use dequmlo::{Deposit, Threads, Word};
use std::collections::BTreeMap;
use std::path::Path;

pub const TAKEN: [&str; 7] = [
    "--seal",
    "--older",
    "--key-file",
    "--opening",
    "--full",
    "--threads",
    "--json",
];

pub fn run(options: &Options) -> Result<Outcome, Failure> {
    options.expect(1, "one FILE or FOLDER", &TAKEN)?;
    let file = &options.operands[0];
    let folder = options.needed_path("--seal", SEAL_FOLDER)?;
    let threads = options.threads()?;
    if let Some(opening) = options.path("--opening") {
        checker_s_seal(options, &opening)?;
    }
    let seal = Seal::read(&folder, options.has("--older"))?.with_key(&folder, options)?;
    let is_a_project_s = file.is_dir() || seal.is_a_project_s(&folder);
    if is_a_project_s {
        if options.given("--opening") {
            return Err(Failure("--opening goes with a file; of a project, the seal's own manifest says what changed".into()));
        }
        let value = seal.shape.key;
        let verified = Verified {
            path: file,
            seal_folder: &folder,
            threads,
            full: options.has("--full"),
        };
        let answer = match file.is_dir() {
            true => verify_folder::run(verified, seal),
            false => verify_folder::run_file(verified, seal),
        };
        return answer.map(|outcome| key::found(outcome, value));
    }
    // A file that is too large for any seal is not the one that was sealed.
    let table = read_table(file)?.ok();
    let same = match &table {
        Some(table) => has_root(&seal, threads, table)?,
        None => false,
    };
    let outcome = if same {
        let sentence = format!("yes: {} is the file that was sealed", file.display());
        Outcome::new(Verdict::Accepted, sentence).say()
    } else {
        let length = table
            .as_ref()
            .and_then(|table| another_length(&seal, table));
        differs(options, file, &seal, table.as_ref())?.notes(length)
    };
    Ok(key::found(outcome.notes(seal.notes), seal.shape.key))
}

/// Whether a table has the seal's root.
fn has_root(seal: &Seal, threads: Threads, table: &Table) -> Result<bool, Failure> {
    if table.words.len() != seal.sizes.table_words {
        return Ok(false);
    }
    room_to_commit(&seal.shape)?;
    let progress = Progress::start();
    let working = counted(threads.number(), "thread");
    progress.say(&format!(
        "committing {} words on {working} ..",
        table.words.len()
    ));
    let Shape {
        k, domain, widths, ..
    } = &seal.shape;
    let deposit = Deposit::commit_on(threads, seal.key(), domain, *widths, *k, &table.words)
        .map_err(|refusal| Failure(format!("the seal's parameters are no deposit's: {refusal}")))?;
    Ok(deposit.root() == seal.root)
}

fn differs(
    options: &Options,
    file: &Path,
    seal: &Seal,
    table: Option<&Table>,
) -> Result<Outcome, Failure> {
    let sentence = format!(
        "no: {} is not the file that was sealed: its root is another",
        file.display()
    );
    let old = match options.path("--opening") {
        None => None,
        Some(opening) => match shown_words(&opening, seal)? {
            Ok(words) => Some(words),
            Err(sentence) => return Ok(Outcome::declined(sentence)),
        },
    };
    let of_another_key = options
        .path("--opening")
        .and_then(|opening| another_key_in(seal, &opening));
    let (note, at) = match (&old, table) {
        (None, _) => (
            "where it differs can be said as far as an opening shows words of the sealed file: --opening FOLDER".into(),
            None,
        ),
        (Some(_), None) => ("it is larger than any file that a seal stands for".into(), None),
        (Some(old), Some(table)) => compared(old, table, seal.sizes.table_words),
    };
    Ok(Outcome::new(Verdict::Refused, sentence)
        .say()
        .notes([note])
        .notes(of_another_key)
        .found("differs_at", at.map_or(Json::Null, Json::number))
        .found(
            "words_compared",
            Json::number(old.map_or(0, |old| old.len())),
        ))
}

/// What is said where the seal's summary names another length.
fn another_length(seal: &Seal, table: &Table) -> Option<String> {
    let (before, _) = seal
        .summary
        .as_ref()?
        .rsplit_once(" bytes, as a table of ")?;
    let length: usize = before.rsplit(' ').next()?.parse().ok()?;
    let now = table.bytes;
    (length != now).then(|| {
        format!("the seal's {SUMMARY} speaks of a file of {length} bytes, and this one has {now}")
    })
}

/// What the old words say of a table that has another root, and the first byte that differs.
fn compared(
    old: &BTreeMap<usize, Word>,
    table: &Table,
    old_count: usize,
) -> (String, Option<usize>) {
    let length_place = old_count - 1;
    let mut places = old.iter().filter(|(place, _)| **place != length_place);
    let differing = places.find_map(|(place, word)| {
        let now = table.file_word(*place);
        let bytes = word.0.to_le_bytes().into_iter().zip(now.0.to_le_bytes());
        let i = bytes.take_while(|(then, now)| then == now).count();
        (i < 16).then_some(16 * place + i)
    });
    if let Some(at) = differing {
        let note = format!("of the {} words that the opening shows, the first that differs is in byte {at} of the file", old.len());
        return (note, Some(at));
    }
    let length = old.get(&length_place).map(|word| word.0);
    let note = match length {
        Some(length) if length != table.bytes as u128 => format!(
            "the sealed file has {length} bytes, and this one {}; the other words that the opening shows are the same",
            table.bytes
        ),
        _ if old.is_empty() => {
            "no word that the opening shows of the file leads to the seal's root, so that it cannot be said where the file differs".into()
        }
        _ => format!("the {} words that the opening shows are the same in this file; it differs elsewhere", old.len()),
    };
    (note, None)
}
