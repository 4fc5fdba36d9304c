//! Ring switching: partial evaluations, their fold, and the indicator.
//!
//! Two identities tie these together; both are proved. For the partials s of 2^n words over the equality table of a point z: the sum over b of
//! s_b times row coefficient b of a row point of 7 coordinates is the multilinear extension of the words' 128 × 2^n bits at the row point
//! followed by z; and the fold of s under any row coefficients is the sum over v of word v times entry v of the indicator's table.

use crate::raw;
use crate::refusal::Refusal;
use crate::word::{halves, words, Word};

/// The partial evaluations s_0 to s_127 over 2^n words and a table of 2^n entries: s_b is the sum of the entries of the words whose bit b
/// is set.
///
/// ```
/// use dequmlo::{ring, Word};
/// let s = ring::partial_evals(&[Word(5)], &[Word(1)])?;
/// assert_eq!((s[0], s[1], s[2], s[3]), (Word(1), Word(0), Word(1), Word(0)));
/// # Ok::<(), dequmlo::Refusal>(())
/// ```
pub fn partial_evals(packed: &[Word], eq: &[Word]) -> Result<Vec<Word>, Refusal> {
    let n = variables(packed.len())?;
    let (packed, eq) = (halves(packed), halves(eq));
    let mut out = vec![0u64; 256];
    let number = unsafe {
        raw::dequmlo_partial_evals(
            n,
            packed.as_ptr(),
            packed.len(),
            eq.as_ptr(),
            eq.len(),
            out.as_mut_ptr(),
            out.len(),
        )
    };
    Refusal::unless_done(number)?;
    Ok(words(&out))
}

/// The sum over i of `rb[i]` times the word whose bit j is bit i of s_j.
pub fn fold_partials(s: &[Word], rb: &[Word; 128]) -> Result<Word, Refusal> {
    let s = halves(s);
    answered(unsafe { raw::dequmlo_fold_partials(s.as_ptr(), s.len(), coefficients(rb)) })
}

/// The indicator's table of 2^n words for an equality point of n words under row coefficients.
///
/// ```
/// use dequmlo::{ring, Word};
/// let mut rb = [Word(0); 128];
/// (rb[0], rb[1]) = (Word(1), Word(4));
/// assert_eq!(ring::materialize(&[Word(2)], &rb)?, [Word(5), Word(4)]);
/// assert_eq!(ring::eval_at(&[Word(2)], &rb, &[Word(2)])?, Word(7));
/// # Ok::<(), dequmlo::Refusal>(())
/// ```
pub fn materialize(z: &[Word], rb: &[Word; 128]) -> Result<Vec<Word>, Refusal> {
    let n = z.len();
    if n > 20 {
        return Err(Refusal::of(4));
    }
    let z = halves(z);
    let mut out = vec![0u64; 2 << n];
    let number = unsafe {
        raw::dequmlo_materialize(
            n,
            z.as_ptr(),
            z.len(),
            coefficients(rb),
            out.as_mut_ptr(),
            out.len(),
        )
    };
    Refusal::unless_done(number)?;
    Ok(words(&out))
}

/// The multilinear extension of the indicator's table at a point of as many words.
pub fn eval_at(z: &[Word], rb: &[Word; 128], point: &[Word]) -> Result<Word, Refusal> {
    let n = z.len();
    let (z, point) = (halves(z), halves(point));
    answered(unsafe {
        raw::dequmlo_eval_at(
            n,
            z.as_ptr(),
            z.len(),
            coefficients(rb),
            point.as_ptr(),
            point.len(),
        )
    })
}

/// n of a table of 2^n words; any other length is refused with 5.
pub(crate) fn variables(length: usize) -> Result<usize, Refusal> {
    if !length.is_power_of_two() {
        return Err(Refusal::of(5));
    }
    Ok(length.trailing_zeros() as usize)
}

fn coefficients(rb: &[Word; 128]) -> raw::Coefficients {
    raw::Coefficients {
        words: rb.map(Word::raw),
    }
}

fn answered(answer: raw::Answered) -> Result<Word, Refusal> {
    Refusal::unless_done(answer.number)?;
    Ok(Word::of(answer.word))
}
