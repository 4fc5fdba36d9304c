//! ring.rs: partial evaluations and the row-batched indicator.

use crate::{field, Word};
use magnetar_pcs::ring::{self, RingEqInd};
use magnetar_sumcheck::public::PublicFactor;

pub fn partial_evals(eq: &[Word], packed: &[Word]) -> Vec<Word> {
    ring::oracle_partial_evals(eq, packed)
}

pub fn fold_partials(s: &[Word], rb: &[Word; 128]) -> Word {
    ring::fold_partials(s, rb)
}

pub fn materialize(z: &[Word], rb: &[Word; 128]) -> Vec<Word> {
    indicator(z, rb).materialize()
}

/// `eval_at`, the wrapper of `tensor_eval`.
pub fn eval_at(z: &[Word], rb: &[Word; 128], point: &[Word]) -> Word {
    indicator(z, rb).eval_at(point)
}

/// Both sides of the first identity by the Rust's pieces: its partials summed with its `eq_coefficients`, as its prover
/// asserts of them, and its equality table of the row point and the point, summed over the words' set bits.
pub fn extension_sides(packed: &[Word], point: &[Word], row: &[Word; 7]) -> (Word, Word) {
    let partials = partial_evals(&field::eq_build(point), packed);
    let left = sum_of_products(&field::eq_coefficients(row), &partials);
    let entries = field::eq_build(&[row, point].concat());
    let bits = packed
        .iter()
        .flat_map(|word| (0..128).map(|b| word.0 >> b & 1));
    let set = entries.iter().zip(bits).filter(|(_, bit)| *bit == 1);
    (left, set.fold(Word(0), |sum, (&entry, _)| sum + entry))
}

/// Both sides of the second, on which the Rust's sum-check rests.
pub fn fold_sides(packed: &[Word], point: &[Word], rb: &[Word; 128]) -> (Word, Word) {
    let partials = partial_evals(&field::eq_build(point), packed);
    let right = sum_of_products(packed, &materialize(point, rb));
    (fold_partials(&partials, rb), right)
}

fn sum_of_products(words: &[Word], entries: &[Word]) -> Word {
    let products = words.iter().zip(entries).map(|(&w, &e)| field::mul(w, e));
    products.fold(Word(0), |sum, product| sum + product)
}

fn indicator(z: &[Word], rb: &[Word; 128]) -> RingEqInd {
    RingEqInd {
        z: z.to_vec(),
        rb: *rb,
    }
}
