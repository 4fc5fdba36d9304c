//! `seal demo`: a sample deposit sealed, opened and checked by roots that were kept, and without; then a byte damaged, and the refusal that names the check.

use crate::commands::commit::named_widths;
use crate::json::Json;
use crate::opening::{record_name, ROOTS};
use crate::options::Options;
use crate::outcome::{Failure, Outcome, Verdict};
use crate::reading::{named, reason};
use std::path::{Path, PathBuf};

/// The byte that is damaged: of the first level's a group, whose values stand from byte 56 on.
const DAMAGED: usize = 60;

/// The most bytes of a file that the demonstration reads back.
const MOST_BYTES: usize = 1 << 16;

/// The checker's copy of the roots that the holder answered with.
const KEPT: &str = "kept-roots.txt";

pub const TAKEN: [&str; 2] = ["--widths", "--json"];

pub fn run(options: &Options) -> Result<Outcome, Failure> {
    options.expect(0, "no operand", &TAKEN)?;
    let commit = match named_widths(options)? {
        Some(widths) => format!("commit deposit.txt --widths {widths}"),
        None => "commit deposit.txt".into(),
    };
    let scratch = Scratch::entered()?;
    let (lines, as_expected) = steps(&commit)?;
    // Nothing is printed before the folder is gone: a closed pipe ends the program.
    drop(scratch);
    let (verdict, sentence) = if as_expected {
        (
            Verdict::Done,
            "The sound opening was accepted, the damaged one refused.",
        )
    } else {
        (
            Verdict::Refused,
            "This is not what the demonstration is to show.",
        )
    };
    let outcome = Outcome::new(verdict, sentence).lines(lines).say();
    Ok(outcome.found("as_expected", Json::Bool(as_expected)))
}

/// The lines of all steps, of which the first is this, and whether each ended as it should.
fn steps(commit: &str) -> Result<(Vec<String>, bool), Failure> {
    let mut lines = Vec::new();
    let mut as_expected = true;
    let mut step = |heading: &str, command: &str, expected: Verdict| -> Result<(), Failure> {
        let words: Vec<_> = command.split_whitespace().map(Into::into).collect();
        let outcome = crate::run(&Options::read(&words)?)?;
        lines.extend([heading.to_string(), format!("$ seal {command}")]);
        lines.extend(outcome.for_a_person().iter().cloned());
        lines.push(String::new());
        as_expected &= outcome.verdict == expected;
        Ok(())
    };

    write(Path::new("deposit.txt"), sample().into_bytes())?;
    step(
        "An office seals a deposit and keeps the seal:",
        commit,
        Verdict::Done,
    )?;
    step(
        "Years later a checker sends challenges, and tells no place yet. The holder answers with the roots of all levels, the claim and the tail:",
        "open deposit.txt --seal deposit.txt.seal --seed dice --count 0 --out deposit.txt.answer",
        Verdict::Done,
    )?;
    let answered = Path::new("deposit.txt.answer").join(ROOTS);
    write(Path::new(KEPT), named(&answered, MOST_BYTES)?)?;
    let heading = format!("The checker keeps the roots, as {KEPT}, and only then asks for three places. The holder opens them:");
    step(
        &heading,
        "open deposit.txt --seal deposit.txt.seal --seed dice --at 3,500,1023",
        Verdict::Done,
    )?;
    let check = "check deposit.txt.opening --seal deposit.txt.seal --seed dice --at 3,500,1023";
    let by_roots = format!("{check} --roots {KEPT}");
    step(
        "The checker checks what is shown, by the roots that were kept:",
        &by_roots,
        Verdict::Accepted,
    )?;
    step(
        "Without them the holder could have made up all but level 0, so less is accepted:",
        check,
        Verdict::PartlyAccepted,
    )?;

    let record = Path::new("deposit.txt.opening").join(record_name(500));
    let mut bytes = named(&record, MOST_BYTES)?;
    bytes[DAMAGED] ^= 1;
    write(&record, bytes)?;
    let heading =
        format!("One bit of the record at 500 is changed, in byte {DAMAGED}, and the check names what failed:");
    step(&heading, &by_roots, Verdict::Refused)?;
    Ok((lines, as_expected))
}

/// A deposit of some pages.
fn sample() -> String {
    (1..=60)
        .map(|i| {
            format!(
                "Sheet {i}: ground plan, scale 1:50, drawn and signed; see the list of changes.\n"
            )
        })
        .collect()
}

fn write(path: &Path, bytes: Vec<u8>) -> Result<(), Failure> {
    std::fs::write(path, bytes)
        .map_err(|e| Failure(format!("cannot write {}: {}", path.display(), reason(&e))))
}

/// A folder of its own, entered, and removed at the end.
struct Scratch(PathBuf);

impl Scratch {
    fn entered() -> Result<Scratch, Failure> {
        let folder = std::env::temp_dir().join(format!("seal-demo-{}", std::process::id()));
        let failed = |e: std::io::Error| {
            Failure(format!("cannot make {}: {}", folder.display(), reason(&e)))
        };
        std::fs::create_dir(&folder).map_err(failed)?;
        let scratch = Scratch(folder.clone());
        std::env::set_current_dir(&folder).map_err(failed)?;
        Ok(scratch)
    }
}

impl Drop for Scratch {
    fn drop(&mut self) {
        let _ = std::fs::remove_dir_all(&self.0);
    }
}
