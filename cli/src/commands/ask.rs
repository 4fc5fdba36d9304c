//! `seal ask`: what a checker asks, drawn by the system's randomness: the challenges first, and the positions when the holder's roots are there.

use crate::clock;
use crate::drawing::{challenges, positions, worth};
use crate::folder::Kind;
use crate::json::Json;
use crate::key;
use crate::options::Options;
use crate::outcome::{Failure, Outcome, Verdict};
use crate::part::asked_seal;
use crate::request::{name_of_a_checker, Answered, Request};
use crate::seal::{Seal, SEAL_FOLDER};
use crate::shown::{changed_note, Own, Shown};
use crate::statement::{checker_s_own, first_difference, statement, Roots};
use crate::writing::{beside, Target};
use dequmlo::{Root, Word};
use std::path::{Path, PathBuf};

pub const TAKEN: [&str; 12] = [
    "--seal",
    "--older",
    "--key-file",
    "--file",
    "--part",
    "--asked",
    "--answer",
    "--count",
    "--by",
    "--out",
    "--force",
    "--json",
];

pub fn run(options: &Options) -> Result<Outcome, Failure> {
    options.expect(0, "no operand: the seal goes with --seal", &TAKEN)?;
    let folder = options.needed_path("--seal", SEAL_FOLDER)?;
    match (options.path("--asked"), options.path("--answer")) {
        (None, None) => first(options, &folder),
        (Some(asked), Some(answer)) => second(options, &asked, &answer),
        (Some(_), None) => Err(Failure(
            "`seal ask` draws positions only when the holder's roots are there: give the answer to the request with --answer".into(),
        )),
        (None, Some(_)) => Err(Failure(
            "`seal ask` needs the request that was answered: give its folder with --asked".into(),
        )),
    }
}

/// The challenges, for a seal.
fn first(options: &Options, folder: &Path) -> Result<Outcome, Failure> {
    if options.number("--count")?.is_some() {
        return Err(Failure(
            "`seal ask` draws positions only when the holder's roots are there: ask without --count first, and then with --asked, --answer and \
             --count"
                .into(),
        ));
    }
    let out = options.path("--out").unwrap_or_else(|| request_of(folder));
    let (target, mut notes) = Target::new(&out, Kind::Request, options.has("--force"))?;
    let seal = match asked_seal(options, None)? {
        Ok(seal) => seal,
        Err(refused) => return Ok(refused.outcome()),
    };
    let request = Request {
        challenges: challenges(&seal.shape)?,
        root: seal.root,
        by: options.text("--by")?.map(name_of_a_checker).transpose()?,
        when: clock::now(),
        answered: None,
        shape: seal.shape,
    };
    notes.extend(target.write(&request.files())?);
    notes.extend(seal.notes);
    let sentence = format!(
        "drew {} challenges into {}; send that folder to the holder",
        request.challenges.len(),
        out.display()
    );
    let next = "no position is told before the holder has answered with its roots; then `seal ask` with --asked and --answer draws the positions";
    let outcome = Outcome::new(Verdict::Done, sentence)
        .say()
        .lines([next.into()])
        .found("request", Json::text(out.display()))
        .found("positions", Json::List(Vec::new()))
        .notes(notes);
    Ok(key::found(outcome, request.shape.key))
}

/// The positions, for a request that was answered.
fn second(options: &Options, asked: &Path, answer: &Path) -> Result<Outcome, Failure> {
    if options.text("--by")?.is_some() {
        return Err(Failure(
            "--by is said when the challenges are asked; the request has it already".into(),
        ));
    }
    checker_s_own(options, answer)?;
    let seal = match asked_seal(options, None)? {
        Ok(seal) => seal,
        Err(refused) => return Ok(refused.outcome()),
    };
    let request = Request::read(asked, &seal)?;
    if request.answered.is_some() && options.path("--out").is_none() {
        return Err(Failure(format!(
            "the request in {} has its positions already, and the holder may know them; give --out for a request with others",
            asked.display()
        )));
    }
    let out = options.path("--out").unwrap_or_else(|| asked.into());
    let in_place = options.path("--out").is_none();
    let (target, mut notes) = Target::new(&out, Kind::Request, in_place || options.has("--force"))?;
    let shown = match Shown::read(answer, &seal, seal.shape.queries(), Own::by(options))? {
        Ok(shown) => shown,
        Err(sentence) => return Ok(Outcome::declined(sentence)),
    };
    notes.extend(changed_note(&shown.changed()));
    notes.extend(shown.size_note());
    let (roots, claim) = match answered(&seal, &request, &shown) {
        Ok(answered) => answered,
        Err(refused) => return Ok(refused.notes(notes).notes(seal.notes)),
    };
    if !shown.positions().is_empty() {
        notes.push(
            "the answer has records already; nobody asked for them, and they count for nothing"
                .into(),
        );
    }
    let count = options.number("--count")?.unwrap_or(seal.shape.queries());
    if count == 0 {
        return Err(Failure(
            "--count 0 asks for no position, so nothing of the deposit would be checked".into(),
        ));
    }
    let answered = Answered {
        positions: positions(&seal.shape, count)?,
        roots,
        claim,
        when: clock::now(),
    };
    let request = Request {
        answered: Some(answered.clone()),
        ..request
    };
    notes.extend(target.write(&request.files())?);
    notes.extend(seal.notes);
    let outcome = told(&answered, &request, &out).notes(notes);
    Ok(key::found(outcome, request.shape.key))
}

/// The roots and the claim of an answer to this request; why it is none where it is not one. The tail that goes with the roots is checked by the library.
fn answered(seal: &Seal, request: &Request, shown: &Shown) -> Result<(Vec<Root>, Word), Outcome> {
    let no_answer =
        |what: String| Outcome::declined(format!("this is no answer to what was asked: {what}"));
    let part = |what: &String| no_answer(what.clone());
    let words = shown.challenges.as_ref().map_err(part)?;
    if let Some(level) = first_difference(words, &request.challenges) {
        return Err(no_answer(format!(
            "it was made by other challenges than those of the request; the first that differs is that of level {level}"
        )));
    }
    let all = shown.roots.as_ref().map_err(part)?;
    if all.first() != Some(&seal.root) {
        return Err(no_answer(
            "it was made for another root than the seal's".into(),
        ));
    }
    let claim = *shown.claim.as_ref().map_err(part)?;
    let tail = shown.tail.as_ref().map_err(part)?;
    let roots = Roots {
        all: all.clone(),
        kept: true,
    };
    statement(seal, &roots, words)
        .and_then(|statement| statement.check_tail(claim, tail))
        .map_err(|refusal| Outcome::refused(&refusal))?;
    Ok((roots.all, claim))
}

fn told(answered: &Answered, request: &Request, out: &Path) -> Outcome {
    let count = answered.positions.len();
    let noun = if count == 1 { "position" } else { "positions" };
    let sentence = format!(
        "kept the holder's roots and claim, and drew {count} {noun} into {}; send that folder to the holder",
        out.display()
    );
    let list = answered.positions.iter().map(|p| Json::number(*p));
    Outcome::new(Verdict::Done, sentence)
        .say()
        .lines([worth(count, &request.shape)])
        .found("request", Json::text(out.display()))
        .found("positions", Json::List(list.collect()))
}

/// The request beside a seal: plan.asked beside plan.seal.
fn request_of(seal: &Path) -> PathBuf {
    match (seal.extension(), seal.file_stem()) {
        (Some(last), Some(stem)) if last == "seal" => beside(&seal.with_file_name(stem), ".asked"),
        _ => beside(seal, ".asked"),
    }
}
