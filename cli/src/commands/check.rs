//! `seal check`: the records of an opening at the checker's positions, and its tail, under the office's root and the checker's challenges.

use crate::clock;
use crate::found::{Answer, Extent, Found, Item};
use crate::json::Json;
use crate::opened::{as_text, Opened};
use crate::options::Options;
use crate::outcome::{Failure, Outcome};
use crate::part::{asked_seal, RefusedManifest};
use crate::questions::{asking_and, challenges, positions, requested, SEED_WARNING};
use crate::reading::shown_path;
use crate::report::{page, Subject};
use crate::request::{Answered, Request};
use crate::seal::{Seal, SEAL_FOLDER};
use crate::shape::Shape;
use crate::shown::{changed_note, some_of, Own, Record, Shown};
use crate::statement::{another_shape, checker_s_own, misfits, statement, Brought, Roots};
use crate::writing::{make, may_be_made};
use dequmlo::{QueryRecord, Refusal, Statement, Word};
use std::path::PathBuf;

pub const TAKEN: [&str; 17] = asking_and([
    "--roots",
    "--claim",
    "--own-questions",
    "--report",
    "--json",
]);

pub fn run(options: &Options) -> Result<Outcome, Failure> {
    options.expect(1, "one OPENING", &TAKEN)?;
    let opening = &options.operands[0];
    checker_s_own(options, opening)?;
    let report = options.path("--report");
    if let Some(report) = &report {
        may_be_made(report, opening)?;
    }
    let folder = options.needed_path("--seal", SEAL_FOLDER)?;
    let (seal, asked, examined) = match asked_seal(options, Some(opening))? {
        Ok(seal) => {
            let asked = Asked::read(options, &seal)?;
            let examined = examined(options, &seal, &asked)?;
            (seal, asked, examined)
        }
        Err(RefusedManifest { seal, sentence }) => {
            let examined = Examined::refused(&seal, Item::Manifest, sentence);
            (seal, Asked::default(), examined)
        }
    };
    let Examined {
        found,
        positions,
        unchecked,
        roots,
        challenges,
        claim,
    } = examined;
    let extent = Extent {
        own: asked.left_to_the_holder(),
        kept: roots.kept,
        claim,
        unchecked: &unchecked,
        checked: positions.len(),
        shape: &seal.shape,
    };
    if let Some(report) = &report {
        let subject = Subject {
            seal: &seal,
            seal_name: shown_path(&folder),
            opening_name: shown_path(opening),
            date: clock::now(),
            asked: asked.told(options)?,
            roots: &roots.all,
            challenges: &challenges,
        };
        let page = page(&subject, &found, &extent);
        make(report, page.as_bytes()).map_err(|Failure(what)| {
            let (_, sentence) = found.verdict(&extent);
            Failure(format!("{what}. The check itself ended: {sentence}"))
        })?;
    }
    let report = report.map(|path| path.display().to_string());
    let written = report
        .as_ref()
        .map(|path| format!("the report is in {path}"));
    Ok(found
        .outcome(&extent)
        .lines(written)
        .found("report", report.map_or(Json::Null, Json::text)))
}

/// What was found of an opening, and what it was checked by.
struct Examined {
    found: Found,
    positions: Vec<usize>,
    unchecked: Vec<String>,
    roots: Roots,
    challenges: Vec<Word>,
    claim: Option<Word>,
}

impl Examined {
    /// What is found where nothing of the opening is looked at.
    fn refused(seal: &Seal, item: Item, sentence: String) -> Examined {
        let mut found = Found::default();
        found.declined(item, sentence);
        found.notes.extend(seal.notes.iter().cloned());
        Examined {
            found,
            positions: Vec::new(),
            unchecked: Vec::new(),
            roots: Roots {
                all: vec![seal.root],
                kept: false,
            },
            challenges: Vec::new(),
            claim: None,
        }
    }
}

fn examined(options: &Options, seal: &Seal, asked: &Asked) -> Result<Examined, Failure> {
    let mut found = Found::default();
    let expected = asked
        .positions
        .as_ref()
        .map_or(seal.shape.queries(), Vec::len);
    let brought = Brought::read(options, seal)?;
    let own = asked
        .answered()
        .map_or_else(|| Own::by(options), |_| Own::NOTHING);
    let shown = match Shown::read(&options.operands[0], seal, expected, own)? {
        Ok(shown) => shown,
        Err(sentence) => return Ok(Examined::refused(seal, Item::Opening, sentence)),
    };
    let (roots, claim) = match asked.answered() {
        Some(answered) => (Ok(answered.kept()), Ok(answered.claim)),
        None => (brought.roots(seal, &shown), brought.claim(&shown)),
    };
    let (roots, challenges) = match (roots, asked.challenges_for(&shown)) {
        (Ok(roots), Ok(challenges)) => (roots, challenges),
        (Err(sentence), _) | (_, Err(sentence)) => {
            let mut examined = Examined::refused(seal, Item::Opening, sentence);
            examined.found.notes.extend(another_shape(seal, &shown));
            return Ok(examined);
        }
    };
    let positions = asked.positions.clone().unwrap_or_else(|| shown.positions());
    if let Some(part) = &seal.part {
        found.add(Item::Manifest, Answer::Accepted(None));
        let note = format!("the file that is asked about is {}", part.name());
        found.notes.push(note);
    }
    doubles(&mut found, &shown);
    match statement(seal, &roots, &challenges) {
        Ok(statement) => {
            records(&mut found, seal, &statement, &shown, &positions)?;
            match (&claim, &shown.tail) {
                (Ok(claim), Ok(record)) => {
                    tail(&mut found, statement.check_tail(*claim, record), roots.kept);
                }
                (_, Err(what)) | (Err(what), _) => found.declined(Item::Tail, what),
            }
        }
        Err(refusal) => found.add(Item::Opening, Answer::Refused(refusal)),
    }
    found.notes.extend(seal.notes.iter().cloned());
    found
        .notes
        .extend(misfits(seal, &shown, &roots, &challenges));
    found.notes.extend(changed_note(&shown.changed()));
    found.notes.extend(shown.size_note());
    if options.text("--seed")?.is_some() {
        found.notes.push(SEED_WARNING.into());
    }
    Ok(Examined {
        unchecked: shown.unchecked(&positions),
        found,
        positions,
        roots,
        challenges,
        claim: claim.ok(),
    })
}

/// What the checker asks; what is none is left to the opening, where that was said.
#[derive(Default)]
struct Asked {
    challenges: Option<Vec<Word>>,
    positions: Option<Vec<usize>>,
    request: Option<Request>,
}

impl Asked {
    fn read(options: &Options, seal: &Seal) -> Result<Asked, Failure> {
        match requested(options, seal)? {
            Some(request) => Asked::by_request(request),
            None => Asked::by_options(options, seal),
        }
    }

    fn by_request(request: Request) -> Result<Asked, Failure> {
        let answered = request.answered.as_ref().ok_or_else(|| {
            Failure(
                "the request has no positions yet, so there is nothing to check: draw them with `seal ask --seal FOLDER --asked FOLDER --answer ANSWER` \
                 when the holder has answered with its roots"
                    .into(),
            )
        })?;
        let asked = Asked {
            challenges: Some(request.challenges.clone()),
            positions: Some(answered.positions.clone()),
            request: Some(request.clone()),
        };
        asked.in_range(&request.shape)?;
        Ok(asked)
    }

    fn by_options(options: &Options, seal: &Seal) -> Result<Asked, Failure> {
        let shape = &seal.shape;
        let asked = Asked {
            challenges: challenges(options, shape.n)?.map(|(words, _)| words),
            positions: positions(options, shape, seal.part.is_some())?,
            request: None,
        };
        let own = options.has("--own-questions");
        match asked.left_to_the_holder() {
            Some(what) if !own => {
                return Err(Failure(format!(
                    "`seal check` needs the checker's own {what}: --asked FOLDER, or --challenges FILE, and --at P,P,.. or --positions FILE. \
                     (--own-questions checks by those that the holder chose, and is never an acceptance)"
                )))
            }
            None if own => {
                return Err(Failure(
                    "--own-questions is for an opening whose challenges or positions are the holder's; here both are given".into(),
                ))
            }
            _ => (),
        }
        asked.in_range(shape)?;
        Ok(asked)
    }

    /// The roots and the claim that the request keeps.
    fn answered(&self) -> Option<&Answered> {
        self.request.as_ref()?.answered.as_ref()
    }

    /// Who asked what and when, in words.
    fn told(&self, options: &Options) -> Result<Vec<String>, Failure> {
        if let Some(request) = &self.request {
            return Ok(request.told());
        }
        if let Some(path) = options.path("--asked") {
            let path = shown_path(&path);
            return Ok(vec![format!(
                "the checker's request {path}, which was not looked at"
            )]);
        }
        let from =
            |name: &str, path: PathBuf| format!("the checker's {name}: from {}", shown_path(&path));
        let seed = options.text("--seed")?;
        let drawn = |name: &str| match &seed {
            Some(seed) => format!(
                "the checker's {name}: drawn from the seed text {}",
                as_text(seed.as_bytes())
            ),
            None => format!("the {name}: the holder's own"),
        };
        let challenges = options
            .path("--challenges")
            .map(|path| from("challenges", path));
        let by_name = options.given("--at") || options.given("--offset");
        let positions = match options.path("--positions") {
            Some(path) => Some(from("positions", path)),
            None => by_name.then(|| "the checker's positions: given by name".into()),
        };
        Ok(vec![
            challenges.unwrap_or_else(|| drawn("challenges")),
            positions.unwrap_or_else(|| drawn("positions")),
        ])
    }

    fn in_range(&self, shape: &Shape) -> Result<(), Failure> {
        match self.positions.as_deref() {
            Some([]) => Err(Failure(
                "no position is asked for, so nothing of the deposit would be checked".into(),
            )),
            Some([.., last]) if *last >= shape.positions() => Err(Failure(format!(
                "position {last} is outside this seal, whose positions go from 0 to {}",
                shape.positions() - 1
            ))),
            _ => Ok(()),
        }
    }

    fn left_to_the_holder(&self) -> Option<&'static str> {
        match (&self.challenges, &self.positions) {
            (None, None) => Some("challenges and positions"),
            (None, Some(_)) => Some("challenges"),
            (Some(_), None) => Some("positions"),
            (Some(_), Some(_)) => None,
        }
    }

    /// The challenges to check by; a sentence where they are to be the opening's and it has none.
    fn challenges_for(&self, shown: &Shown) -> Result<Vec<Word>, String> {
        match &self.challenges {
            Some(words) => Ok(words.clone()),
            None => shown.challenges.clone(),
        }
    }
}

/// What comes of a record that the library accepts: what it opens, at its offset in the file. Of a part of a project it may show no other length than the
/// manifest says.
fn accepted(seal: &Seal, position: usize, record: &QueryRecord) -> Answer {
    let opened = Opened::of(seal.shape.n, position, record);
    let part = match &seal.part {
        None => return Answer::Accepted(opened),
        Some(part) => part,
    };
    match opened.as_ref().and_then(Opened::length) {
        Some(length) if length != part.bytes as u128 => Answer::Declined(format!(
            "the record leads to the root that the manifest names, and shows that {} bytes were sealed under it, where the manifest says {}: the project was not \
             sealed as it should be, and the manifest stands for no file",
            length, part.bytes
        )),
        _ => Answer::Accepted(opened.map(|opened| part.placed(opened))),
    }
}

/// Has the library check each record that was asked for.
fn records(
    found: &mut Found,
    seal: &Seal,
    statement: &Statement,
    shown: &Shown,
    positions: &[usize],
) -> Result<(), Failure> {
    for position in positions {
        let answer = match shown.record(*position)? {
            Record::Found(record) => match statement.check_query(*position, &record) {
                Ok(()) => accepted(seal, *position, &record),
                Err(refusal) => Answer::Refused(refusal),
            },
            Record::Missing => Answer::Declined(
                "the opening has no record at this position; ask the holder for it".into(),
            ),
            Record::NotAFile(what) => {
                Answer::Declined(format!("{what}; ask the holder for the file"))
            }
        };
        found.add(Item::Record(*position), answer);
    }
    if positions.is_empty() {
        found.declined(
            Item::Records,
            "the opening shows no place of the deposit; ask the holder for positions",
        );
    }
    Ok(())
}

/// What comes of the library's answer to the tail: a tail under roots that nobody kept before the positions were told is made up as easily as they are.
fn tail(found: &mut Found, checked: Result<(), Refusal>, kept: bool) {
    let answer = match checked {
        Err(refusal) => Answer::Refused(refusal),
        Ok(()) if kept => Answer::Accepted(None),
        Ok(()) => Answer::Unkept,
    };
    found.add(Item::Tail, answer);
}

/// Two files for one position: which of them the holder means is not for the checker to guess.
fn doubles(found: &mut Found, shown: &Shown) {
    for (position, names) in shown.doubles() {
        let sentence = format!(
            "the opening has {} files for it: {}; ask the holder for one",
            names.len(),
            some_of(&names)
        );
        found.declined(Item::Doubles(position), sentence);
    }
}
