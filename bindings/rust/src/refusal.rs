//! Refusals, the one table of sentences that says what each number means, and the numbers that are retired. docs/REFUSALS.md shows the same tables; a
//! test compares them.

use std::fmt;

/// Why a call was refused: the number of the first question whose answer was no, and the level for 16 to 26.
///
/// ```
/// let refusal = dequmlo::Refusal { number: 18, level: Some(3) };
/// assert_eq!(refusal.to_string(), "18 at level 3: the group and the path of a do not lead to this level's root");
/// ```
#[derive(Clone, Copy, Debug, PartialEq, Eq)]
pub struct Refusal {
    /// From 1 to 33, or 36; 20 is retired.
    pub number: u32,
    /// The level of a query record at which 16 to 26 was found.
    pub level: Option<u32>,
}

/// What a number means and what to ask the holder for.
#[derive(Clone, Copy, Debug, PartialEq, Eq)]
pub struct Explanation {
    /// From 1 to 33, or 36; 20 is retired.
    pub number: u32,
    /// What was found.
    pub sentence: &'static str,
    /// What to ask the holder for, or where to look.
    pub ask: &'static str,
}

/// A number whose question is no longer asked. It is given to no other question, so that it never means two things.
///
/// ```
/// use dequmlo::{Explanation, Refusal, Retired};
///
/// assert_eq!(Retired::of(20).unwrap().since, "0.7.0");
/// assert_eq!(Explanation::of(20), None);
/// let named = Refusal { number: 20, level: Some(3) };
/// assert_eq!(named.sentence(), Retired::of(20).unwrap().sentence);
/// ```
#[derive(Clone, Copy, Debug, PartialEq, Eq)]
pub struct Retired {
    /// The number, which no [`Explanation`] has.
    pub number: u32,
    /// The first version of the library, the bindings and the program that does not ask its question.
    pub since: &'static str,
    /// That it is retired and since when, and what it asked.
    pub sentence: &'static str,
    /// What to do where a report names it.
    pub ask: &'static str,
}

impl Refusal {
    /// The refusal of this number, at no level.
    pub(crate) fn of(number: u32) -> Refusal {
        Refusal {
            number,
            level: None,
        }
    }

    /// Done where the number is 0, else the refusal of this number.
    pub(crate) fn unless_done(number: u32) -> Result<(), Refusal> {
        if number == 0 {
            Ok(())
        } else {
            Err(Refusal::of(number))
        }
    }

    /// What was found, as a sentence without its number.
    #[must_use]
    pub fn sentence(&self) -> &'static str {
        self.words()
            .map_or("no question has this number", |(sentence, _)| sentence)
    }

    /// What to ask the holder for.
    #[must_use]
    pub fn ask(&self) -> &'static str {
        self.words().map_or("", |(_, ask)| ask)
    }

    /// The sentence and what to ask for. No call gives a retired number, but a refusal may be made of what some report says.
    fn words(&self) -> Option<(&'static str, &'static str)> {
        let retired = || Retired::of(self.number).map(|r| (r.sentence, r.ask));
        Explanation::of(self.number)
            .map(|e| (e.sentence, e.ask))
            .or_else(retired)
    }
}

impl fmt::Display for Refusal {
    fn fmt(&self, f: &mut fmt::Formatter) -> fmt::Result {
        match self.level {
            Some(level) => write!(f, "{} at level {level}: {}", self.number, self.sentence()),
            None => write!(f, "{}: {}", self.number, self.sentence()),
        }
    }
}

impl std::error::Error for Refusal {}

impl Explanation {
    /// The explanation of a number from 1 to 33, or of 36; none of 20, which is retired, nor of 34 and 35, which are not given yet.
    #[must_use]
    pub fn of(number: u32) -> Option<&'static Explanation> {
        EXPLANATIONS.iter().find(|e| e.number == number)
    }

    /// Whether nothing that a holder sends can lead to this number: it is an answer to a program that calls the library.
    #[must_use]
    pub fn no_holder_can_cause(&self) -> bool {
        matches!(self.number, 1 | 2 | 3 | 6 | 8 | 9 | 10 | 12 | 13 | 36)
    }
}

impl Retired {
    /// What a retired number was; none where the number is not retired.
    #[must_use]
    pub fn of(number: u32) -> Option<&'static Retired> {
        RETIRED.iter().find(|r| r.number == number)
    }
}

const fn explained(number: u32, sentence: &'static str, ask: &'static str) -> Explanation {
    Explanation {
        number,
        sentence,
        ask,
    }
}

const PROGRAM: &str =
    "Nothing from the holder: a program passed the library something that it must not pass.";
const AGAIN: &str = "Ask for the record again: it was changed, or it was made for another seal, another position or other challenges.";
const OTHER_SIZE: &str =
    "Ask for a record of this seal: this one was made for a file of another size.";
const OTHER_WIDTH: &str =
    "Ask for a record of this seal: this one was made for a file of another size, or under the other set of widths.";
const OTHER_TAIL: &str = "Ask for the tail record of this seal: this one was made for another k.";
const OTHER_GROUPS: &str =
    "Ask for the tail record of this seal: this one was made for another k, or under the other set of widths.";
const PARAMETERS: &str =
    "Look at the seal's parameters.txt, or at --k and --domain: no deposit has these parameters.";

/// Every number that a call can give, in order: 1 to 33 but 20, which is retired, and 36; 34 and 35 are not given yet. So a number is no place in this list;
/// [`Explanation::of`] finds it.
pub const EXPLANATIONS: [Explanation; 33] = [
    explained(1, "the word to invert is 0, which has no inverse", PROGRAM),
    explained(2, "the number of bytes to pack is not a multiple of 128", PROGRAM),
    explained(3, "a byte to pack is neither 0 nor 1", PROGRAM),
    explained(
        4,
        "n is above 20, or k is above 4, or n is 0 where there must be a level, or there is no such level, or the set of widths is neither the \
         present nor the wide one",
        PARAMETERS,
    ),
    explained(
        5,
        "a list does not have the length that n, k, the set of widths or a count fixes, or is not whole words or blocks, or a key does not have 32 bytes",
        "Ask for the challenges and the roots again: there is one challenge for each level, and one root more.",
    ),
    explained(6, "the variable to fold at is not below n", PROGRAM),
    explained(7, "the domain is longer than 255 bytes, or the base domain longer than 200", PARAMETERS),
    explained(8, "the number of values is not a power of two up to 2^24", PROGRAM),
    explained(9, "the width is not a power of two up to 512", PROGRAM),
    explained(10, "the width does not divide the number of values", PROGRAM),
    explained(
        11,
        "the position is not below 2^(n+k), a place in a tree is not below its number of values, or a part of some work does not end within the whole",
        "Ask about a position of this seal.",
    ),
    explained(12, "the path does not have log2(values / width) digests", PROGRAM),
    explained(
        13,
        "the input, or a context or its key material, is longer than 2^24 bytes, or the hasher that was passed in is not as it was handed out",
        PROGRAM,
    ),
    explained(
        14,
        "the record cannot be read to its end, or something follows its end",
        "Ask for the file again: it was cut short or added to on the way, or it is no record of this kind.",
    ),
    explained(15, "the record does not have one part for each level of the seal", OTHER_SIZE),
    explained(16, "the group of a does not have the number of words that a group of this level has", OTHER_WIDTH),
    explained(17, "the path of a does not have the length that a path of this level has", OTHER_SIZE),
    explained(
        18,
        "the group and the path of a do not lead to this level's root",
        "Ask for the record at this position again. At level 0 the root is the office's own: the words in the record are not those that were \
         deposited, or the record was made under another key than it is checked under. At another level ask for the roots again too.",
    ),
    explained(19, "the group of a does not have a at its place", AGAIN),
    explained(21, "the group of a does not have b at its place", AGAIN),
    explained(22, "the group of c does not have the number of words that a group of the next level has", OTHER_SIZE),
    explained(23, "the path of c does not have the length that a path of the next level has", OTHER_SIZE),
    explained(
        24,
        "the group and the path of c do not lead to the next level's root",
        "Ask for the record at this position and for the roots again: the words in the record are not those under the next level's root.",
    ),
    explained(25, "the group of c does not have c at its place", AGAIN),
    explained(
        26,
        "a and b do not fold to c: a + r × (a + b) is not c, where r is the checker's challenge",
        "Ask by which challenges the holder made the opening: the next level was not made by the checker's challenge.",
    ),
    explained(27, "the tail record does not have as many groups as the last level", OTHER_GROUPS),
    explained(28, "a group of the tail record does not have the number of words that a group of the last level has", OTHER_TAIL),
    explained(29, "a path of the tail record does not have the length that a path of the last level has", OTHER_TAIL),
    explained(
        30,
        "a group and its path in the tail record do not lead to the last level's root",
        "Ask for the tail record and for the roots again: the words in the tail record are not those under the last root, or it was made under another key than it is checked under.",
    ),
    explained(
        31,
        "the first word of the tail record is not the claim",
        "Ask for the claim again: at these challenges the deposit has another value than the one that is claimed.",
    ),
    explained(
        32,
        "one of the two records is not accepted, or both are not",
        "Check each of the two by itself: the number of its own refusal says what is wrong with it.",
    ),
    explained(33, "the two records are the same", "Nothing: this is the good result."),
    explained(
        36,
        "the list of coordinates does not hold exactly n strictly rising numbers below the original n",
        "Nothing from the holder: a program passed the library a codeword with a list that is not its own. Each codeword is kept with the list that its last \
         fold left.",
    ),
];

/// Every retired number. Each is given to nothing else, in no later version.
pub const RETIRED: [Retired; 1] = [Retired {
    number: 20,
    since: "0.7.0",
    // A level that a record shows a pair of has groups of two words at least, and a pair begins at an even place.
    sentence: "retired since version 0.7.0: it asked whether a and b are in one group, and they always are",
    ask: "Ask which program wrote the report that names this number, and check the record again: no version of the library or of the program seal ever \
          gave it.",
}];
