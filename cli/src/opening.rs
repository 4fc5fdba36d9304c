//! An opening: what a holder shows of a sealed file, a folder of plain files.
//!
//! Each text of these but the last two begins with the line of its format (format.rs).
//!
//!     parameters.txt     as in the seal
//!     challenges.txt     n words, one to a line, 32 hexadecimal digits, highest first
//!     roots.txt          the roots of levels 0 to n, one to a line; the first is the root of the seal that it was made for
//!     claim.txt          the terminal claim: the value of the table at the challenges
//!     query-P.record     the query record at position P, in the bytes of SPECIFICATION 7.2
//!     tail.record        the tail record
//!     summary.txt        what this is, in sentences; no check reads it
//!     check.txt          the digest of each of these (check_lines.rs); openings of version 0.1.0 have none

use crate::check_lines::with_check_lines;
use crate::folder::{Kind, Named, SUMMARY};
use crate::format::signature;
use crate::lines;
use crate::shape::{Shape, PARAMETERS};
use dequmlo::{QueryRecord, Root, TailRecord, Word};

pub const CHALLENGES: &str = "challenges.txt";
pub const ROOTS: &str = "roots.txt";
pub const CLAIM: &str = "claim.txt";
pub const TAIL: &str = "tail.record";

/// An opening as it is made. What is read of one that a holder sent is `shown.rs`.
pub struct Opening {
    pub shape: Shape,
    pub challenges: Vec<Word>,
    pub roots: Vec<Root>,
    pub claim: Word,
    pub tail: TailRecord,
    /// Each record after its position, rising.
    pub queries: Vec<(usize, QueryRecord)>,
}

impl Opening {
    /// The files of an opening; a project's has those of its manifest too.
    pub fn files(&self, file: &str, drawn: &str, manifest: &[Named]) -> Vec<Named> {
        let positions: Vec<String> = self.queries.iter().map(|(p, _)| p.to_string()).collect();
        let summary = format!(
            "{} {file}.\n\nRecords at {} positions: {}.\nThe challenges: {drawn}.\nMade for the root: {}\nTerminal claim: {}\n{}\n\
             `seal check` checks it against a seal.\n\n{}",
            Kind::Opening.heading(),
            positions.len(),
            positions.join(", "),
            self.roots[0],
            self.claim,
            self.shape.key_sentence(),
            signature()
        );
        let mut files: Vec<Named> = vec![
            (PARAMETERS.into(), self.shape.file()),
            (CHALLENGES.into(), lines::file(&self.challenges)),
            (ROOTS.into(), lines::file(&self.roots)),
            (CLAIM.into(), lines::file(&[self.claim])),
            (TAIL.into(), self.tail.bytes().to_vec()),
            (SUMMARY.into(), summary.into_bytes()),
        ];
        files.extend(manifest.iter().cloned());
        files.extend(
            self.queries
                .iter()
                .map(|(p, record)| (record_name(*p), record.bytes().to_vec())),
        );
        with_check_lines(files)
    }
}

/// The name of the record at a position.
pub fn record_name(position: usize) -> String {
    format!("query-{position}.record")
}

/// The position whose record has this name, to the letter.
pub fn record_position(name: &str) -> Option<usize> {
    meant_position(name).filter(|position| record_name(*position) == name)
}

/// The position that a name seems to mean, as query-003.record means 3.
pub fn meant_position(name: &str) -> Option<usize> {
    name.strip_prefix("query-")?
        .strip_suffix(".record")?
        .parse()
        .ok()
}

#[cfg(test)]
mod tests {
    use super::{meant_position, record_position};

    #[test]
    fn only_the_exact_name_is_a_record_s() {
        assert_eq!(record_position("query-3.record"), Some(3));
        for name in ["query-003.record", "query-+3.record"] {
            assert_eq!(
                (record_position(name), meant_position(name)),
                (None, Some(3)),
                "{name}"
            );
        }
        for name in [
            "query-.record",
            "query-3.records",
            "Query-3.record",
            "query--3.record",
            "query-99999999999999999999.record",
        ] {
            assert_eq!(
                (record_position(name), meant_position(name)),
                (None, None),
                "{name}"
            );
        }
    }
}
