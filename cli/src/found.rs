//! What a check found, record by record: the lines, the object for programs and the verdict that come of it.

use crate::json::Json;
use crate::key;
use crate::opened::Opened;
use crate::outcome::{answer, lines_of, texts, Outcome, Verdict};
use crate::shape::Shape;
use crate::shown::some_of;
use dequmlo::{Refusal, Word};

/// What was looked at.
#[derive(Clone, Copy, Debug, PartialEq, Eq)]
pub enum Item {
    /// The record at a position.
    Record(usize),
    Tail,
    /// Two or more files for one position.
    Doubles(usize),
    /// That there are records at all.
    Records,
    /// The opening as a whole.
    Opening,
    /// The manifest of a project.
    Manifest,
}

impl Item {
    pub fn name(self) -> String {
        match self {
            Item::Record(position) | Item::Doubles(position) => format!("position {position}"),
            Item::Tail => "tail".into(),
            Item::Records => "records".into(),
            Item::Opening => "opening".into(),
            Item::Manifest => "manifest".into(),
        }
    }
}

/// What is said of a tail that is sound under the opening's own roots.
pub const UNKEPT_TAIL: &str = "it fits the opening's own roots, and nobody kept these before the positions were told, so neither it nor the claim is accepted";

/// What a person should know, and do, where no roots were kept.
const UNKEPT: &str = "no roots were kept before the positions were told. Whoever knows challenges and positions beforehand can invent all levels above level 0, the tail and \
                      the claim. To have them checked, ask in two rounds: `seal ask` keeps the holder's roots before it draws positions, and `seal check --asked FOLDER` \
                      goes by them; --roots FILE names roots that were kept in another way";

/// What came of it.
pub enum Answer {
    /// The library accepted it; a record with what it opens. Of a record under roots that nobody kept, that speaks of its words on level 0 alone.
    Accepted(Option<Opened>),
    /// The library accepted it, under roots that nobody kept: no acceptance.
    Unkept,
    /// The library refused it.
    Refused(Refusal),
    /// Refused before the library was asked, in a sentence.
    Declined(String),
}

/// What was found.
#[derive(Default)]
pub struct Found {
    pub items: Vec<(Item, Answer)>,
    pub notes: Vec<String>,
}

/// What the verdict has to say beside what was found.
pub struct Extent<'a> {
    /// What the holder chose, if anything.
    pub own: Option<&'static str>,
    /// Whether the roots of the levels above 0 are the checker's, kept before the positions were told.
    pub kept: bool,
    /// The claim that the tail was checked by, if it was.
    pub claim: Option<Word>,
    /// The files that were not checked.
    pub unchecked: &'a [String],
    /// How many positions were.
    pub checked: usize,
    pub shape: &'a Shape,
}

impl Found {
    pub fn add(&mut self, item: Item, answer: Answer) {
        self.items.push((item, answer));
    }

    pub fn declined(&mut self, item: Item, sentence: impl Into<String>) {
        self.add(item, Answer::Declined(sentence.into()));
    }

    /// The file's length, where an accepted record shows it.
    pub fn length(&self) -> Option<u128> {
        self.items.iter().find_map(|(_, answer)| match answer {
            Answer::Accepted(opened) => opened.as_ref()?.length(),
            _ => None,
        })
    }

    fn accepted(&self) -> usize {
        let accepted = |(_, answer): &&(Item, Answer)| matches!(answer, Answer::Accepted(_));
        self.items.iter().filter(accepted).count()
    }

    fn refused(&self) -> usize {
        let refused = |(_, answer): &&(Item, Answer)| {
            matches!(answer, Answer::Refused(_) | Answer::Declined(_))
        };
        self.items.iter().filter(refused).count()
    }

    /// Whether the tail is accepted, and with it the claim.
    pub fn has_a_tail(&self) -> bool {
        let accepted = |(item, answer): &(Item, Answer)| {
            *item == Item::Tail && matches!(answer, Answer::Accepted(_))
        };
        self.items.iter().any(accepted)
    }

    /// What a person should know beside the verdict.
    pub fn notes_for(&self, extent: &Extent) -> Vec<String> {
        let unkept = (!extent.kept && self.refused() == 0).then(|| UNKEPT.to_string());
        self.notes.iter().cloned().chain(unkept).collect()
    }

    fn first_refusal(&self) -> Option<Refusal> {
        self.items.iter().find_map(|(_, answer)| match answer {
            Answer::Refused(refusal) => Some(*refusal),
            _ => None,
        })
    }

    /// The lines for a person.
    fn lines(&self, kept: bool) -> Vec<String> {
        let length = self.length();
        let lines = |(item, answer): &(Item, Answer)| {
            let accepted = accepted(*item, kept);
            let mut lines = match answer {
                Answer::Accepted(None) => vec![accepted.into()],
                Answer::Accepted(Some(opened)) => {
                    vec![format!("{accepted}; it shows {}", opened.sentence(length))]
                }
                Answer::Unkept => vec![format!("not accepted: {UNKEPT_TAIL}")],
                Answer::Refused(refusal) => lines_of(refusal),
                Answer::Declined(sentence) => vec![format!("refused: {sentence}")],
            };
            lines[0].insert_str(0, &format!("{}: ", item.name()));
            lines
        };
        self.items.iter().flat_map(lines).collect()
    }

    /// The fields for programs of the items that a test picks.
    fn fields(&self, kept: bool, picked: impl Fn(Item) -> bool) -> Vec<Json> {
        let length = self.length();
        let fields = |(item, answered): &(Item, Answer)| {
            let mut fields = match item {
                Item::Record(position) => vec![("position", Json::number(*position))],
                _ => Vec::new(),
            };
            fields.extend(match answered {
                Answer::Accepted(_) => answer(true, None, accepted(*item, kept)),
                Answer::Unkept => answer(false, None, UNKEPT_TAIL),
                Answer::Refused(refusal) => answer(false, Some(refusal), refusal.sentence()),
                Answer::Declined(sentence) => answer(false, None, sentence),
            });
            if let Answer::Accepted(Some(opened)) = answered {
                fields.push(("shows", Json::text(opened.sentence(length))));
            }
            Json::Object(fields)
        };
        let items = self.items.iter();
        items
            .filter(|(item, _)| picked(*item))
            .map(fields)
            .collect()
    }

    pub fn outcome(self, extent: &Extent) -> Outcome {
        let (verdict, sentence) = self.verdict(extent);
        let unchecked = extent.unchecked;
        let not_checked =
            (!unchecked.is_empty()).then(|| format!("not checked: {}", some_of(unchecked)));
        let said = format!("verdict: {sentence}");
        let kept = extent.kept;
        let records = self.fields(kept, |item| matches!(item, Item::Record(_)));
        let tail = self.fields(kept, |item| item == Item::Tail).pop();
        let manifest = self.fields(kept, |item| item == Item::Manifest).pop();
        let claim = extent.claim.map_or(Json::Null, |word| {
            Json::Object(vec![
                ("word", Json::text(word)),
                ("accepted", Json::Bool(self.has_a_tail())),
            ])
        });
        let outcome = Outcome::new(verdict, sentence)
            .refusal(self.first_refusal())
            .lines(self.lines(kept))
            .lines(not_checked)
            .notes(self.notes_for(extent))
            .lines([said])
            .found("records", Json::List(records))
            .found("tail", tail.unwrap_or(Json::Null))
            .found("claim", claim)
            .found("roots_kept", Json::Bool(kept))
            .found("manifest", manifest.unwrap_or(Json::Null))
            .found("not_checked", texts(unchecked))
            .found("own_questions", extent.own.map_or(Json::Null, Json::text))
            .found("widths", Json::text(extent.shape.widths))
            .found("positions_checked", Json::number(extent.checked))
            .found(
                "positions_of_a_full_check",
                Json::number(extent.shape.queries()),
            );
        key::found(outcome, extent.shape.key)
    }

    pub fn verdict(&self, extent: &Extent) -> (Verdict, String) {
        let (records, they_show) = if extent.checked == 1 {
            ("1 record".into(), "it shows")
        } else {
            (format!("{} records", extent.checked), "they show")
        };
        let fewer = fewer(extent.checked, extent.shape);
        let (accepted, refused) = (self.accepted(), self.refused());
        match extent.own {
            _ if refused > 0 => (
                Verdict::Refused,
                format!("refused: {refused} refused, {accepted} accepted"),
            ),
            Some(what) => (
                Verdict::OwnQuestions,
                format!(
                    "sound, but by the holder's own questions: the holder chose the {what}. {records} and the tail were checked{fewer}. This is no \
                     acceptance"
                ),
            ),
            None if !extent.kept => (
                Verdict::PartlyAccepted,
                format!(
                    "partly accepted: {records}{fewer}. What {they_show} of level 0 is what was deposited. The tail and the claim are not accepted: no roots \
                     were kept before the positions were told"
                ),
            ),
            None => (Verdict::Accepted, format!("accepted: {records} and the tail{fewer}")),
        }
    }
}

/// How it is said that something is accepted: a record under roots that nobody kept is so on level 0 alone.
fn accepted(item: Item, kept: bool) -> &'static str {
    match item {
        Item::Record(_) if !kept => "accepted on level 0",
        _ => "accepted",
    }
}

/// What a verdict says where fewer positions were checked than the profile has queries.
fn fewer(checked: usize, shape: &Shape) -> String {
    let full = shape.queries();
    if checked >= full {
        return String::new();
    }
    match shape.profile() {
        Some((name, _)) => format!(", fewer than the {full} positions of the profile {name}"),
        None => format!(", fewer than the {full} positions of a full check"),
    }
}
