//! `seal tail`: the tail record alone, and the last level that it shows.

use crate::json::Json;
use crate::key;
use crate::options::Options;
use crate::outcome::{texts, Failure, Outcome, Verdict};
use crate::part::asked_seal;
use crate::shown::{changed_note, Own, Shown, Use};
use crate::statement::{another_key_in, checker_s_own, statement, Brought};
use dequmlo::Word;

pub const TAKEN: [&str; 8] = [
    "--seal",
    "--older",
    "--key-file",
    "--file",
    "--part",
    "--roots",
    "--claim",
    "--json",
];

pub fn run(options: &Options) -> Result<Outcome, Failure> {
    options.expect(1, "one OPENING", &TAKEN)?;
    checker_s_own(options, &options.operands[0])?;
    let seal = match asked_seal(options, Some(&options.operands[0]))? {
        Ok(seal) => seal,
        Err(refused) => return Ok(refused.outcome()),
    };
    let brought = Brought::read(options, &seal)?;
    let shown = match Shown::read(
        &options.operands[0],
        &seal,
        seal.shape.queries(),
        Own {
            challenges: Use::Nothing,
            ..Own::by(options)
        },
    )? {
        Ok(shown) => shown,
        Err(sentence) => return Ok(Outcome::declined(sentence)),
    };
    let whole = (
        brought.claim(&shown),
        brought.roots(&seal, &shown),
        &shown.tail,
    );
    let (claim, roots, tail) = match whole {
        (Ok(claim), Ok(roots), Ok(tail)) => (claim, roots, tail),
        (_, _, Err(what)) => return Ok(Outcome::declined(what.clone())),
        (Err(what), ..) | (_, Err(what), _) => return Ok(Outcome::declined(what)),
    };
    // A tail is checked under no challenge; the statement takes a list of the right length.
    let challenges = vec![Word(0); seal.shape.n];
    let checked = statement(&seal, &roots, &challenges)
        .and_then(|statement| statement.check_tail(claim, tail));
    let notes = seal
        .notes
        .iter()
        .cloned()
        .chain(another_key_in(&seal, &options.operands[0]))
        .chain(changed_note(&shown.changed()))
        .chain(shown.size_note());
    let outcome = match checked {
        Ok(()) => {
            let level = tail.words();
            sound(roots.kept, &level.expect("an accepted record reads whole"))
        }
        Err(refusal) => Outcome::refused(&refusal),
    };
    Ok(key::found(outcome.notes(notes), seal.shape.key))
}

/// A tail shows something of the deposit only under a root that the checker had before.
fn sound(kept: bool, level: &[Word]) -> Outcome {
    let what = format!(
        "the last level has {} words, the first being the terminal claim",
        level.len()
    );
    let (verdict, sentence) = if kept {
        (Verdict::Accepted, format!("tail: accepted; {what}"))
    } else {
        (
            Verdict::NotAccepted,
            format!("tail: sound, but under the holder's own roots, so this is no acceptance (--roots FILE names roots that were kept); {what}"),
        )
    };
    Outcome::new(verdict, sentence)
        .say()
        .lines(
            level
                .iter()
                .enumerate()
                .map(|(eps, word)| format!("tail {eps} {word}")),
        )
        .found("tail", texts(level))
        .found("roots_kept", Json::Bool(kept))
}
