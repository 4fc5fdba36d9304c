//! `seal open`: the records that a checker asked for, built from the sealed file, in one run or in several.

use crate::begun::{self, Begun};
use crate::folder::Kind;
use crate::json::Json;
use crate::key;
use crate::manifest::counted;
use crate::opening::Opening;
use crate::options::Options;
use crate::outcome::{texts, Ended, Failure, Outcome, Verdict};
use crate::part::asked_seal;
use crate::progress::Progress;
use crate::questions::{asking_and, challenges, positions, requested, SEED_WARNING};
use crate::reading::shown_path;
use crate::request::Request;
use crate::seal::Seal;
use crate::shape::Shape;
use crate::standing::Standing;
use crate::writing::{beside, settled, Target, ROOM};
use dequmlo::{Folded, HalfFolded, Refusal, Root, Sizes, Threads, Word};
use std::path::Path;

pub const TAKEN: [&str; 18] = asking_and([
    "--until",
    "--resume",
    "--out",
    "--force",
    "--threads",
    "--json",
]);

pub fn run(options: &Options) -> Result<Outcome, Failure> {
    options.expect(1, "one FILE", &TAKEN)?;
    let threads = options.threads()?;
    let seal = match asked_seal(options, None)? {
        Ok(seal) => seal,
        Err(refused) => return Ok(refused.outcome()),
    };
    opened(options, threads, &seal).or_else(|ended| ended.outcome(&seal.notes))
}

/// The opening, or the work so far where `--until` stops it.
fn opened(options: &Options, threads: Threads, seal: &Seal) -> Result<Outcome, Ended> {
    let until = level(options, &seal.shape)?;
    let asked = Asked::read(options, seal, until.is_some())?;
    let mut notes = Vec::new();
    let begun = match options.path("--resume") {
        Some(folder) => {
            notes.extend(settled(&folder, Kind::Begun));
            Some(Begun::read(&folder, seal, &asked.challenges)??)
        }
        None => None,
    };
    not_below(until, begun.as_ref())?;
    let (target, found) = target(options, &asked, until, begun.as_ref())?;
    notes.extend(found);
    target.has_room(asked.room(seal, until))?;
    let name = name(options, seal);
    let progress = Progress::start();
    let standing = match begun {
        None => Standing::committed(&options.operands[0], threads, seal, &progress)?,
        Some(begun) => Standing::taken_up(begun, threads, seal, &progress)?,
    };
    let working = counted(threads.number(), "thread");
    let outcome = match until {
        Some(level) => {
            progress.say(&format!("folding up to level {level} on {working} .."));
            let half = standing.fold_until(threads, &asked.challenges[..level])?;
            asked.kept(&half.roots(), None)?;
            let files = begun::files(&half, &seal.shape, &asked.challenges, &name, &asked.drawn);
            notes.extend(target.write(&files)?);
            told_begun(&half, seal, target.folder())
        }
        None => {
            progress.say(&format!("folding {} levels on {working} ..", seal.shape.n));
            let folded = standing.fold(threads, &asked.challenges)?;
            let opening = asked.opening(&seal.shape, &folded)?;
            asked.kept(&opening.roots, Some(opening.claim))?;
            let manifest = &seal.manifest;
            notes.extend(target.write(&opening.files(&name, &asked.drawn, manifest))?);
            told(&opening, target.folder(), asked.first_round().is_some())
        }
    };
    notes.extend(seal.notes.iter().cloned());
    if asked.seeded {
        notes.push(SEED_WARNING.into());
    }
    Ok(outcome.notes(notes))
}

/// The level that `--until` names.
fn level(options: &Options, shape: &Shape) -> Result<Option<usize>, Failure> {
    match options.number("--until")? {
        Some(level) if level > shape.n => Err(Failure(format!(
            "--until takes a level of this seal, from 0 to {}, and {level} is none",
            shape.n
        ))),
        level => Ok(level),
    }
}

/// Fails where interrupted work is to stop before the level that it has reached.
fn not_below(until: Option<usize>, begun: Option<&Begun>) -> Result<(), Failure> {
    match (until, begun) {
        (Some(level), Some(begun)) if level < begun.level() => Err(Failure(format!(
            "the interrupted work in {} has reached level {1} already: --until takes a level from {1} on, and {level} is below it",
            begun.folder().display(),
            begun.level()
        ))),
        _ => Ok(()),
    }
}

/// Where to write: `--out`; else beside the file, and interrupted work that stops again in place of what was taken up.
fn target(
    options: &Options,
    asked: &Asked,
    until: Option<usize>,
    begun: Option<&Begun>,
) -> Result<(Target, Vec<String>), Failure> {
    let (out, force) = (options.path("--out"), options.has("--force"));
    let beside = |ending| beside(&options.operands[0], ending);
    match (until, out, begun) {
        (None, out, _) => {
            let folder = out.unwrap_or_else(|| beside(asked.ending()));
            Target::new(&folder, Kind::Opening, force)
        }
        (Some(_), Some(out), _) => Target::new(&out, Kind::Begun, force),
        (Some(_), None, Some(begun)) => Target::new(begun.folder(), Kind::Begun, true),
        (Some(_), None, None) => Target::new(&beside(".begun"), Kind::Begun, force),
    }
}

/// The file as a summary names it.
fn name(options: &Options, seal: &Seal) -> String {
    match &seal.part {
        None => shown_path(&options.operands[0]),
        Some(part) => part.name(),
    }
}

/// What the checker asked for.
struct Asked {
    challenges: Vec<Word>,
    drawn: String,
    seeded: bool,
    positions: Vec<usize>,
    request: Option<Request>,
}

impl Asked {
    /// Where the work is interrupted, positions may come later.
    fn read(options: &Options, seal: &Seal, is_interrupted: bool) -> Result<Asked, Failure> {
        match requested(options, seal)? {
            Some(request) => Ok(Asked::by_request(request)),
            None => Asked::by_options(options, seal, is_interrupted),
        }
    }

    fn by_request(request: Request) -> Asked {
        let answered = request.answered.as_ref();
        Asked {
            challenges: request.challenges.clone(),
            drawn: "those of the checker's request".into(),
            seeded: false,
            positions: answered.map_or(Vec::new(), |answered| answered.positions.clone()),
            request: Some(request),
        }
    }

    fn by_options(options: &Options, seal: &Seal, is_interrupted: bool) -> Result<Asked, Failure> {
        let shape = &seal.shape;
        let (challenges, drawn) = challenges(options, shape.n)?.ok_or_else(|| {
            Failure(
                "`seal open` needs the checker's request, --asked FOLDER, or the checker's challenges: --challenges FILE, or --seed TEXT for trying it \
                 out"
                    .into(),
            )
        })?;
        let positions =
            match positions(options, shape, seal.part.is_some())? {
                Some(positions) => positions,
                None if is_interrupted => Vec::new(),
                None => return Err(Failure(
                    "`seal open` needs the checker's positions: --at P,P,.. or --positions FILE"
                        .into(),
                )),
            };
        Ok(Asked {
            challenges,
            drawn,
            seeded: options.text("--seed")?.is_some(),
            positions,
            request: None,
        })
    }

    /// The bytes of what is written: the records and the manifest of an opening, or the levels of interrupted work.
    fn room(&self, seal: &Seal, until: Option<usize>) -> u64 {
        let Sizes {
            codeword_words,
            query_bytes,
            tail_bytes,
            ..
        } = seal.sizes;
        let manifest: usize = seal.manifest.iter().map(|(_, bytes)| bytes.len()).sum();
        let level = |level: usize| 16 * (codeword_words >> level);
        let bytes = match until {
            Some(last) => (0..=last).map(level).sum(),
            None => self.positions.len() * query_bytes + tail_bytes + manifest,
        };
        ROOM + bytes as u64
    }

    /// The request, where it has no positions yet.
    fn first_round(&self) -> Option<&Request> {
        self.request
            .as_ref()
            .filter(|request| request.answered.is_none())
    }

    /// How the name of the folder ends that is written beside the file.
    fn ending(&self) -> &'static str {
        self.first_round().map_or(".opening", |_| ".answer")
    }

    /// A sentence where the request keeps other roots than these of the first levels, or another claim.
    fn kept(&self, roots: &[Root], claim: Option<Word>) -> Result<(), String> {
        let answered = self.request.as_ref().and_then(|r| r.answered.as_ref());
        match answered {
            Some(kept) if !kept.roots.starts_with(roots) || claim.map_or(false, |claim| claim != kept.claim) => Err(
                "the request keeps other roots or another claim than this file has by its challenges, so it follows another answer than this file's".into(),
            ),
            _ => Ok(()),
        }
    }

    /// The opening at what was asked.
    fn opening(&self, shape: &Shape, folded: &Folded) -> Result<Opening, Refusal> {
        let query = |position: &usize| Ok((*position, folded.query(*position)?));
        Ok(Opening {
            shape: shape.clone(),
            challenges: self.challenges.clone(),
            roots: folded.roots(),
            claim: folded.claim(),
            tail: folded.tail()?,
            queries: self.positions.iter().map(query).collect::<Result<_, _>>()?,
        })
    }
}

fn told(opening: &Opening, folder: &Path, is_answer: bool) -> Outcome {
    let positions = opening.queries.iter().map(|(p, _)| Json::number(*p));
    let count = opening.queries.len();
    let noun = if count == 1 { "position" } else { "positions" };
    let shown = folder.display();
    let sentence = if is_answer {
        format!("wrote the answer, with roots, claim and tail, into {shown}; send that folder to the checker, who then draws the positions")
    } else {
        format!("opened {count} {noun} into {shown}")
    };
    let outcome = Outcome::new(Verdict::Done, sentence)
        .say()
        .found("opening", Json::text(folder.display()))
        .found("widths", Json::text(opening.shape.widths))
        .found("positions", Json::List(positions.collect()))
        .found("roots", texts(&opening.roots))
        .found("claim", Json::text(opening.claim));
    key::found(outcome, opening.shape.key)
}

fn told_begun(half: &HalfFolded, seal: &Seal, folder: &Path) -> Outcome {
    let (level, shown) = (half.level(), folder.display());
    let sentence = format!(
        "folded up to level {level} of {} and kept the work in {shown}; `seal open` goes on from there with --resume {shown}",
        seal.shape.n
    );
    let coordinates = half.coordinates().into_iter().map(Json::number);
    let outcome = Outcome::new(Verdict::Done, sentence)
        .say()
        .found("begun", Json::text(shown))
        .found("widths", Json::text(seal.shape.widths))
        .found("reached", Json::number(level))
        .found("coordinates", Json::List(coordinates.collect()))
        .found("roots", texts(half.roots()));
    key::found(outcome, seal.shape.key)
}
