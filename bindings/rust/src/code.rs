//! A codeword folded one variable at a time, whole or in parts, for a protocol that draws each challenge after the root before it.

use crate::raw;
use crate::refusal::Refusal;
use crate::word::{halves, words, Word};
use std::fmt;
use std::ops::Range;

/// A codeword in use: one that was committed, and perhaps folded since. These five are all that must be kept to go on with it another day. All others have
/// every level from [`crate::Deposit::fold`].
///
/// What its words are is proved (docs/SPECIFICATION.md, 6.5): block eps is block eps of the encoding, under the coordinates that are left, of the table
/// folded at the same variables, each challenge replaced by its sum with the coordinate of L(eps) that it folds away.
///
/// ```
/// use dequmlo::{code::InUse, Word};
/// // The table 5, 9 and the gamma 7. Block 0 is folded by 2, block 1 by 2 + 7.
/// let mut codeword = InUse::committed(1, 1, [5, 9, 33, 45].map(Word).to_vec());
/// assert_eq!(codeword.coordinates, [0]);
/// codeword.fold(0, Word(2))?;
/// assert_eq!(codeword.words, [Word(29), Word(57)]);
/// assert_eq!((codeword.n, codeword.original), (0, 1));
/// assert!(codeword.coordinates.is_empty());
/// assert_eq!(codeword.fold(0, Word(2)).unwrap_err().number, 6);
/// # Ok::<(), dequmlo::Refusal>(())
/// ```
#[derive(Clone, PartialEq, Eq)]
pub struct InUse {
    /// n: how many coordinates are not folded away yet.
    pub n: usize,
    /// k: the codeword has 2^k blocks.
    pub k: usize,
    /// The n of the commitment.
    pub original: usize,
    /// The original coordinates that are not folded away yet: n numbers below the original n, rising.
    pub coordinates: Vec<usize>,
    /// The 2^(n+k) words.
    pub words: Vec<Word>,
}

/// All but the words, which are megabytes.
impl fmt::Debug for InUse {
    fn fmt(&self, f: &mut fmt::Formatter) -> fmt::Result {
        f.debug_struct("InUse")
            .field("n", &self.n)
            .field("k", &self.k)
            .field("original", &self.original)
            .field("coordinates", &self.coordinates)
            .finish_non_exhaustive()
    }
}

impl InUse {
    /// A codeword as it was committed: with all its coordinates, 0 to n - 1.
    #[must_use]
    pub fn committed(n: usize, k: usize, words: Vec<Word>) -> InUse {
        InUse {
            n,
            k,
            original: n,
            coordinates: (0..n).collect(),
            words,
        }
    }

    /// Folds at a variable by r: a + r × (a + b) for each pair of places that differ in bit `var`. The codeword halves, and the entry of the variable is dropped
    /// from the list. Refused with 4 where n, k or the original n is out of range, with 5 where the codeword has another length, with 36 where the list does
    /// not hold exactly n strictly rising numbers below the original n, with 6 where the variable is not below n; nothing is changed then.
    pub fn fold(&mut self, var: usize, r: Word) -> Result<(), Refusal> {
        let codeword = halves(&self.words);
        let mut out = vec![0u64; 2 * (self.words.len() / 2)];
        let answer = unsafe {
            raw::dequmlo_fold(
                self.n,
                self.k,
                self.original,
                var,
                r.raw(),
                self.coordinates.as_mut_ptr(),
                self.coordinates.len(),
                codeword.as_ptr(),
                codeword.len(),
                out.as_mut_ptr(),
                out.len(),
            )
        };
        Refusal::unless_done(answer.number)?;
        self.n = answer.n;
        self.coordinates.truncate(self.n);
        self.words = words(&out);
        Ok(())
    }
}

/// Some entries of the fold of a codeword of 2^(n+k) words at a variable by r. It takes no list: whoever folds in parts drops the variable's entry
/// when all parts are made. Refused with 4 where n or k is out of range, with 5 where the codeword has another length, with 6 where the variable is not
/// below n, with 11 where the entries are not all the fold's.
///
/// ```
/// use dequmlo::{code, Word};
/// let codeword = [5, 9, 33, 45].map(Word);
/// assert_eq!(code::fold_part(1, 1, 0, Word(2), &codeword, 1..2)?, [Word(57)]);
/// assert_eq!(code::fold_part(1, 1, 0, Word(2), &codeword, 1..3).unwrap_err().number, 11);
/// # Ok::<(), dequmlo::Refusal>(())
/// ```
pub fn fold_part(
    n: usize,
    k: usize,
    var: usize,
    r: Word,
    codeword: &[Word],
    entries: Range<usize>,
) -> Result<Vec<Word>, Refusal> {
    let codeword = halves(codeword);
    let mut out = vec![0u64; 2 * entries.len()];
    Refusal::unless_done(unsafe {
        raw::dequmlo_fold_part(
            n,
            k,
            var,
            r.raw(),
            entries.start,
            codeword.as_ptr(),
            codeword.len(),
            out.as_mut_ptr(),
            out.len(),
        )
    })?;
    Ok(words(&out))
}
