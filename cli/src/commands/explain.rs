//! `seal explain`: what a number means, and what to ask the holder for, or that it is retired; which seals `--older` is for; what the sets of widths
//! are; and what a key gives.

use crate::json::Json;
use crate::options::Options;
use crate::outcome::{texts, Failure, Outcome, Verdict};
use dequmlo::{Explanation, Retired, EXPLANATIONS, RETIRED};

/// Which seals `--older` is for, and why none that was made before stops being accepted.
const OLDER: [&str; 4] = [
    "Before version 0.4.0 a seal whose writer named no profile was made under k 1 and the base domain \"magnetar/pcs/default\"; since then it is made \
     under k 2 and the same base domain. The old numbers live on as the profile firstdefault.",
    "A seal that names its k and its base domain in parameters.txt, as every seal does that this program ever wrote, is read under these whenever it \
     was made, and --older changes nothing.",
    "A seal whose parameters.txt has the line n alone names neither. With --older it is read under firstdefault's, without it under the default's.",
    "So nothing that was sealed before stops being accepted: what names its parameters keeps them, and what names none is accepted with --older. \
     Without --older a record of such a seal is refused with 17 at level 0 (with 16 where the deposit has four words), and its tail with 27; that \
     speaks against nobody: check it again with --older.",
];

/// What the sets of widths are, and when to take which.
const WIDTHS: [&str; 4] = [
    "What is sealed lies in groups of neighbouring words of 16 bytes, and a record shows whole groups. A level's groups have the widths of one of two sets: in \
     the present set 8 words where the level has 16 or more, in the wide set 32 words where it has 64 or more; in both else 2 words, or 1 where there is but one.",
    "The wide set is for archives on slow disks that read long runs cheaply: a group is one run of 512 bytes in place of 128, and the trees are a quarter as \
     large. Its records are longer, by some three fifths where the file is large, and show 32 words of the file at a place in place of 8.",
    "`seal commit --widths wide` takes it; without --widths it is the present set. A seal says its set in parameters.txt, and all other commands go by that. A \
     seal, an opening or a request that does not say is of the present set, as everything is that was made before version 0.6.0.",
    "A record of one set is refused under a seal of the other, with 16 at level 0, or with 14 where it is longer than the seal's; but where the code has fewer \
     than 16 words the two sets are the same. Two records are compared under one set.",
];

/// What a key gives, what it does not, and what is said of keys that do not fit.
const KEYS: [&str; 5] = [
    "A seal may be made under a key of 32 bytes: `seal key new FILE` makes one, and `seal commit --key-file FILE` seals under it. Nobody without the key can make the root \
     of a file, so that the seal alone does not tell whether a guess at the file is right; and nobody without it can check an opening against the root.",
    "The key does not hide what an opening shows: its records have the words themselves, for everybody who has the opening; and its claim and its tail are \
     made from all of the file without the key, so that whoever has an opening can try a guess at the whole file. Nor does a key say who made something: everybody who has \
     it can do all of it.",
    "Whoever opens, checks or verifies gives the key by --key-file. Where it is lost, the seal can no longer be checked, and nobody can make it again, unless it was \
     derived, since its context and key material give it again: keep a copy in a safe place, apart from what is sealed.",
    "A seal says under which key it was made by a check value in parameters.txt, which is derived from the key and does not lead back to it. So a key that is \
     missing, another key, and a key for a seal that has none are told in a sentence, with status 2, before a record is read; that speaks against nobody.",
    "A key's file has 32 bytes, or 64 hexadecimal digits and perhaps a line end. One that others may read is named on standard error: `chmod 600 FILE` mends that.",
];

pub fn run(options: &Options) -> Result<Outcome, Failure> {
    if options.operands.is_empty() {
        options.expect(0, "", &["--json"])?;
        return Ok(all());
    }
    options.expect(1, "one NUMBER, or none for all", &["--json"])?;
    let text = options.operands[0].to_string_lossy();
    match &*text {
        "older" => return Ok(older()),
        "widths" => return Ok(widths()),
        "keys" => return Ok(keys()),
        _ => (),
    }
    let number = text.parse().ok();
    if let Some(e) = number.and_then(Explanation::of) {
        let outcome = Outcome::new(Verdict::Done, e.sentence).lines(explained(e));
        return Ok(found(outcome, &[e], &[]));
    }
    if let Some(r) = number.and_then(Retired::of) {
        let outcome = Outcome::new(Verdict::Done, r.sentence).lines(retired(r));
        return Ok(found(outcome, &[], &[r]));
    }
    Err(Failure(format!(
        "`{text}` is no refusal's number; they are 1 to 33 and 36; `seal explain older` says which seals --older is for, `seal explain widths` what the sets of widths are, and `seal explain keys` what a key gives"
    )))
}

fn older() -> Outcome {
    let sentence = "--older is for seals that name neither k nor a base domain and were made before version 0.4.0.";
    Outcome::new(Verdict::Done, sentence)
        .say()
        .lines(OLDER.map(String::from))
        .found("older", texts(OLDER))
}

fn widths() -> Outcome {
    let sentence = "The sets of widths are present and wide: how many words of the deposit a record shows together.";
    Outcome::new(Verdict::Done, sentence)
        .say()
        .lines(WIDTHS.map(String::from))
        .found("widths", texts(WIDTHS))
}

fn keys() -> Outcome {
    let sentence =
        "Under a key nobody else makes or checks a root; what an opening shows is not hidden.";
    Outcome::new(Verdict::Done, sentence)
        .say()
        .lines(KEYS.map(String::from))
        .found("keys", texts(KEYS))
}

/// Every number: first those that a holder can cause, then those that only a program can, then those that are retired.
fn all() -> Outcome {
    let (programs, holders): (Vec<_>, Vec<_>) =
        EXPLANATIONS.iter().partition(|e| e.no_holder_can_cause());
    let gone: Vec<_> = RETIRED.iter().collect();
    let sentence = "Numbers of refusals, those that no holder can cause and those that are retired at the end:";
    let outcome = Outcome::new(Verdict::Done, sentence)
        .say()
        .lines(holders.iter().copied().flat_map(explained))
        .lines(["Numbers that no holder can cause:".to_string()])
        .lines(programs.iter().copied().flat_map(explained))
        .lines(["Retired numbers:".to_string()])
        .lines(gone.iter().copied().flat_map(retired))
        .lines([
            "`seal explain older` says which seals --older is for.".to_string(),
            "`seal explain widths` says what the sets of widths are.".to_string(),
            "`seal explain keys` says what a key gives and what it does not.".to_string(),
        ]);
    found(outcome, &[holders, programs].concat(), &gone)
}

fn explained(e: &Explanation) -> [String; 2] {
    lines(e.number, e.sentence, e.ask)
}

fn retired(r: &Retired) -> [String; 2] {
    lines(r.number, r.sentence, r.ask)
}

fn lines(number: u32, sentence: &str, ask: &str) -> [String; 2] {
    [format!("{number}: {sentence}"), format!("  {ask}")]
}

/// For programs: both lists, whichever has the number that was asked for.
fn found(outcome: Outcome, explanations: &[&Explanation], retired: &[&Retired]) -> Outcome {
    let explanation = |e: &&Explanation| {
        Json::object([
            ("number", Json::number(e.number)),
            ("sentence", Json::text(e.sentence)),
            ("ask", Json::text(e.ask)),
        ])
    };
    let gone = |r: &&Retired| {
        Json::object([
            ("number", Json::number(r.number)),
            ("since", Json::text(r.since)),
            ("sentence", Json::text(r.sentence)),
            ("ask", Json::text(r.ask)),
        ])
    };
    outcome
        .found(
            "explanations",
            Json::List(explanations.iter().map(explanation).collect()),
        )
        .found("retired", Json::List(retired.iter().map(gone).collect()))
}
