//! The deposit seal, over the proved library `libdequmlo.a`.
//!
//! An office deposits a table of words as one 32-byte root. Later a holder shows records from it, and a checker accepts them or names
//! the check that failed. This crate is a safe layer: it owns the buffers that are written, every length is tested before a byte is touched,
//! and a refusal is a [`Refusal`] that reads as a sentence. The work is done in the archive, every function of which is proved to meet its
//! contract.
//!
//! ```
//! use dequmlo::{Deposit, Parameters, Statement, Widths, Word};
//!
//! // The holder commits a table of 2^n words, under no key, and keeps it; the office keeps the root, with k, the base domain and the set of widths.
//! let (parameters, widths) = (Parameters::balanced(), Widths::Present);
//! let table: Vec<Word> = (0..8u128).map(Word).collect();
//! let deposit = Deposit::commit(None, &parameters.domain, widths, parameters.k, &table)?;
//! let root = deposit.root();
//!
//! // The checker draws one challenge for each variable; the holder folds by them and shows a record.
//! let challenges = [Word(7), Word(11), Word(13)];
//! let folded = deposit.fold(&challenges)?;
//! let record = folded.query(5)?;
//!
//! // The checker puts its own root in front of the roots that the holder states.
//! let mut roots = folded.roots();
//! roots[0] = root;
//! let statement = Statement::new(None, &parameters.domain, widths, 3, parameters.k, &challenges, &roots)?;
//! statement.check_query(5, &record)?;
//!
//! // A damaged record is refused, with the number of the check that failed.
//! let mut bytes = record.bytes().to_vec();
//! bytes[60] ^= 1;
//! let refusal = statement.check_query(5, &bytes.into()).unwrap_err();
//! assert_eq!(refusal.to_string(), "18 at level 0: the group and the path of a do not lead to this level's root");
//! # Ok::<(), dequmlo::Refusal>(())
//! ```

#![warn(missing_docs, missing_debug_implementations)]

pub mod block;
mod buffers;
pub mod code;
mod deposit;
mod half_folded;
mod key;
mod parameters;
mod raw;
mod record;
mod refusal;
pub mod ring;
mod root;
mod sizes;
mod threads;
pub mod tree;
mod widths;
mod word;

pub use block::Block;
pub use buffers::Buffers;
pub use deposit::{Deposit, Folded};
pub use half_folded::{HalfFolded, Kept, NotTakenUp};
pub use key::{keyed_digest, Key};
pub use parameters::Parameters;
pub use record::{Collision, QueryRecord, ShownLevel, Statement, TailRecord};
pub use refusal::{Explanation, Refusal, Retired, EXPLANATIONS, RETIRED};
pub use root::{ParseRootError, Root};
pub use sizes::Sizes;
pub use threads::Threads;
pub use tree::digest;
pub use widths::{ParseWidthsError, Widths};
pub use word::{ParseWordError, Word};
