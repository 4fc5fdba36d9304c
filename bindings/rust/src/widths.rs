//! The sets from which the width of a level's groups is taken.

use std::fmt;
use std::str::FromStr;

/// How many words of a level are hashed together as one group. Both sets have groups of 2 words from length 2 on and of 1 below that; they differ in levels of
/// 16 words or more. A deposit has one set throughout: where its codeword has so many words, a query record of one set is refused with 16 under the
/// other, and so is a tail record with 27 where the last level has them (k is 4).
///
/// ```
/// use dequmlo::{Sizes, Widths};
/// // The trees of the wide set are a quarter as large, its records longer.
/// let sizes = Widths::ALL.map(|widths| Sizes::of(widths, 18, 2).unwrap());
/// assert_eq!(sizes.map(|sizes| sizes.tree_bytes), [8_388_576, 2_097_120]);
/// assert_eq!(sizes.map(|sizes| sizes.query_bytes), [14_884, 24_036]);
/// ```
#[derive(Clone, Copy, Debug, Default, PartialEq, Eq, Hash)]
pub enum Widths {
    /// Groups of 8 words from length 16 on: what there was before version 0.6.0.
    #[default]
    Present,
    /// Groups of 32 words from length 64 on: longer runs for slow disks, and trees a quarter as large.
    Wide,
}

impl Widths {
    /// Both sets.
    pub const ALL: [Widths; 2] = [Widths::Present, Widths::Wide];

    /// The number that the archive knows the set by.
    pub(crate) fn number(self) -> u32 {
        match self {
            Widths::Present => 0,
            Widths::Wide => 1,
        }
    }
}

/// The text is neither `present` nor `wide`.
#[derive(Clone, Copy, Debug, PartialEq, Eq)]
#[non_exhaustive]
pub struct ParseWidthsError;

impl fmt::Display for ParseWidthsError {
    fn fmt(&self, f: &mut fmt::Formatter) -> fmt::Result {
        write!(f, "a set of widths is `present` or `wide`")
    }
}

impl std::error::Error for ParseWidthsError {}

/// `present` or `wide`.
///
/// ```
/// use dequmlo::Widths;
/// assert!(Widths::ALL.iter().all(|set| set.to_string().parse() == Ok(*set)));
/// assert_eq!("wide".parse(), Ok(Widths::Wide));
/// assert!(["Wide", "wide ", "", "1"].iter().all(|text| text.parse::<Widths>().is_err()));
/// ```
impl fmt::Display for Widths {
    fn fmt(&self, f: &mut fmt::Formatter) -> fmt::Result {
        f.pad(match self {
            Widths::Present => "present",
            Widths::Wide => "wide",
        })
    }
}

impl FromStr for Widths {
    type Err = ParseWidthsError;
    fn from_str(text: &str) -> Result<Widths, Self::Err> {
        match text {
            "present" => Ok(Widths::Present),
            "wide" => Ok(Widths::Wide),
            _ => Err(ParseWidthsError),
        }
    }
}

#[cfg(test)]
mod tests {
    use super::Widths;
    use crate::raw;

    /// The archive knows the numbers of the two sets, each for its own, and refuses every other with 4.
    #[test]
    fn the_archive_knows_these_two_numbers() {
        let record = |number| {
            let sizes = unsafe { raw::dequmlo_sizes(number, 6, 0) };
            (sizes.number, sizes.query)
        };
        assert_eq!(Widths::default(), Widths::Present);
        assert_eq!(record(Widths::Present.number()), (0, 1_716));
        assert_eq!(record(Widths::Wide.number()), (0, 1_908));
        for other in [2, 3, u32::MAX] {
            assert_eq!(record(other), (4, 0), "{other}");
        }
    }
}
