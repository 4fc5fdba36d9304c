//! What a command found: lines for a person, one object for a program, and the exit status.

use crate::console::{complain, print};
use crate::json::Json;
use dequmlo::Refusal;
use std::ffi::OsString;

/// What the exit status says. A command that could not run at all is a [`Failure`].
#[derive(Clone, Copy, Debug, PartialEq, Eq)]
pub enum Verdict {
    /// A command that decides nothing did its work.
    Done,
    Accepted,
    Refused,
    /// Everything that was checked is sound, and the holder chose what was asked: no acceptance.
    OwnQuestions,
    /// The words of level 0 are accepted. The tail and the claim are not, because nobody kept the roots that they are under.
    PartlyAccepted,
    /// What was checked is sound under roots that nobody kept, so that nothing is accepted.
    NotAccepted,
    /// Something could not be read, and nothing that could be read decides.
    CouldNotRun,
}

impl Verdict {
    pub fn exit(self) -> u8 {
        match self {
            Verdict::Done | Verdict::Accepted => 0,
            Verdict::Refused => 1,
            Verdict::CouldNotRun => 2,
            Verdict::OwnQuestions | Verdict::PartlyAccepted | Verdict::NotAccepted => 3,
        }
    }

    fn name(self) -> &'static str {
        match self {
            Verdict::Done => "done",
            Verdict::Accepted => "accepted",
            Verdict::Refused => "refused",
            Verdict::OwnQuestions => "own-questions",
            Verdict::PartlyAccepted => "partly-accepted",
            Verdict::NotAccepted => "not-accepted",
            Verdict::CouldNotRun => "could-not-run",
        }
    }
}

/// Exit status 2: the command could not run. What the user has to do otherwise, or what is wrong with a file.
#[derive(Debug)]
pub struct Failure(pub String);

/// Why a command ended before its work was done: by a sentence or a refusal of the library's, which are answers, or because it could not run.
pub enum Ended {
    Declined(String),
    Refused(Refusal),
    Failed(Failure),
}

impl Ended {
    /// The answer, with what a person should know beside it.
    pub fn outcome(self, notes: &[String]) -> Result<Outcome, Failure> {
        match self {
            Ended::Declined(sentence) => Ok(Outcome::declined(sentence).notes(notes.to_vec())),
            Ended::Refused(refusal) => Ok(Outcome::refused(&refusal)),
            Ended::Failed(failure) => Err(failure),
        }
    }
}

impl From<String> for Ended {
    fn from(sentence: String) -> Ended {
        Ended::Declined(sentence)
    }
}

impl From<Refusal> for Ended {
    fn from(refusal: Refusal) -> Ended {
        Ended::Refused(refusal)
    }
}

impl From<Failure> for Ended {
    fn from(failure: Failure) -> Ended {
        Ended::Failed(failure)
    }
}

/// What was found. Refused is an answer, not a failure.
#[must_use]
pub struct Outcome {
    pub verdict: Verdict,
    lines: Vec<String>,
    sentence: String,
    refusal: Option<Refusal>,
    notes: Vec<String>,
    found: Vec<(&'static str, Json)>,
}

impl Outcome {
    /// The sentence is the verdict in words. It is for programs; `say` prints it for a person too.
    pub fn new(verdict: Verdict, sentence: impl Into<String>) -> Outcome {
        Outcome {
            verdict,
            lines: Vec::new(),
            sentence: sentence.into(),
            refusal: None,
            notes: Vec::new(),
            found: Vec::new(),
        }
    }

    /// A refusal by the library, where nothing else was asked.
    pub fn refused(refusal: &Refusal) -> Outcome {
        Outcome::new(Verdict::Refused, refusal.sentence())
            .refusal(Some(*refusal))
            .lines(lines_of(refusal))
    }

    /// A refusal that is no question of the library's, in a sentence.
    pub fn declined(sentence: String) -> Outcome {
        let line = format!("refused: {sentence}");
        Outcome::new(Verdict::Refused, sentence).lines([line])
    }

    /// The sentence as the next line.
    pub fn say(mut self) -> Outcome {
        self.lines.push(self.sentence.clone());
        self
    }

    pub fn lines(mut self, lines: impl IntoIterator<Item = String>) -> Outcome {
        self.lines.extend(lines);
        self
    }

    /// What a person should know beside the verdict.
    pub fn notes(mut self, notes: impl IntoIterator<Item = String>) -> Outcome {
        for note in notes {
            self.lines.push(format!("note: {note}"));
            self.notes.push(note);
        }
        self
    }

    pub fn found(mut self, name: &'static str, value: Json) -> Outcome {
        self.found.push((name, value));
        self
    }

    /// The refusal whose number and level stand for the whole.
    pub fn refusal(mut self, refusal: Option<Refusal>) -> Outcome {
        self.refusal = refusal;
        self
    }

    pub fn for_a_person(&self) -> &[String] {
        &self.lines
    }

    /// Prints what was found; for a person, why a command could not run goes to standard error, as ever. The exit status.
    pub fn print(self, words: &[OsString]) -> u8 {
        let exit = self.verdict.exit();
        let why = (exit == 2 && !wants_json(words)).then(|| self.sentence.clone());
        let text = if wants_json(words) {
            format!("{}\n", self.for_programs(words))
        } else {
            self.lines.iter().map(|line| format!("{line}\n")).collect()
        };
        match print(&text) {
            Ok(()) => {
                if let Some(why) = why {
                    complain(&format!("seal: {why}\n"));
                }
                exit
            }
            Err(Failure(sentence)) => {
                complain(&format!("seal: {sentence}\n"));
                2
            }
        }
    }

    fn for_programs(self, words: &[OsString]) -> Json {
        let accepted = match self.verdict {
            Verdict::Done => Json::Null,
            verdict => Json::Bool(verdict == Verdict::Accepted),
        };
        object(Said {
            words,
            verdict: self.verdict.name(),
            accepted,
            exit: self.verdict.exit(),
            refusal: self.refusal,
            sentence: &self.sentence,
            notes: &self.notes,
            found: self.found,
        })
    }
}

/// Says why a command could not run: on standard error for a person, as the one object for a program. The exit status.
pub fn could_not_run(words: &[OsString], failure: &Failure) -> u8 {
    let sentence = failure.0.as_str();
    if wants_json(words) {
        let json = object(Said {
            words,
            verdict: "could-not-run",
            accepted: Json::Bool(false),
            exit: 2,
            refusal: None,
            sentence,
            notes: &[],
            found: Vec::new(),
        });
        if print(&format!("{json}\n")).is_ok() {
            return 2;
        }
    }
    complain(&format!("seal: {sentence}\n"));
    2
}

/// The fields that every object for programs has.
struct Said<'a> {
    words: &'a [OsString],
    verdict: &'static str,
    accepted: Json,
    exit: u8,
    refusal: Option<Refusal>,
    sentence: &'a str,
    notes: &'a [String],
    found: Vec<(&'static str, Json)>,
}

fn object(said: Said) -> Json {
    let (number, level) = numbers(said.refusal.as_ref());
    Json::object([
        (
            "asked",
            texts(said.words.iter().map(|w| w.to_string_lossy())),
        ),
        ("verdict", Json::text(said.verdict)),
        ("accepted", said.accepted),
        ("exit", Json::number(said.exit)),
        ("number", number),
        ("level", level),
        ("sentence", Json::text(said.sentence)),
        ("notes", texts(said.notes)),
        ("found", Json::Object(said.found)),
    ])
}

fn wants_json(words: &[OsString]) -> bool {
    words.iter().any(|word| word == "--json")
}

/// A refusal as a person reads it: what was found, and what to ask the holder for.
pub fn lines_of(refusal: &Refusal) -> Vec<String> {
    vec![
        format!("refused, {refusal}"),
        format!("  {}", refusal.ask()),
    ]
}

/// The fields of the answer to one record, for programs.
pub fn answer(
    accepted: bool,
    refusal: Option<&Refusal>,
    sentence: &str,
) -> Vec<(&'static str, Json)> {
    let (number, level) = numbers(refusal);
    let ask = refusal.map_or(Json::Null, |refusal| Json::text(refusal.ask()));
    vec![
        ("accepted", Json::Bool(accepted)),
        ("number", number),
        ("level", level),
        ("sentence", Json::text(sentence)),
        ("ask", ask),
    ]
}

pub fn texts<T: std::fmt::Display>(items: impl IntoIterator<Item = T>) -> Json {
    Json::List(items.into_iter().map(Json::text).collect())
}

fn numbers(refusal: Option<&Refusal>) -> (Json, Json) {
    let level = refusal.and_then(|refusal| refusal.level);
    (
        refusal.map_or(Json::Null, |refusal| Json::number(refusal.number)),
        level.map_or(Json::Null, Json::number),
    )
}
