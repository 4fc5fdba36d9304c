//! Stand-ins for the ring layer.

use super::code::extension;
use super::field::{eq_table, mul, phi_c};
use super::Wrong;
use crate::ring::Ring;
use oracle::Word;

/// Written from the definitions; the indicator at a point is the multilinear
/// extension of its table, so only for points of few coordinates.
pub const RIGHT: Ring = Ring {
    partial_evals: |_, eq, packed| (0, partial_evals(eq, packed)),
    fold_partials: |s, rb| (0, fold_partials(s, rb)),
    materialize: |z, rb| (0, materialize(z, rb)),
    eval_at: |z, rb, point| (0, extension(&materialize(z, rb), point)),
    extension_sides: |packed, point, row| {
        let all = [row, point].concat();
        extension_sides(packed, point, row, &all)
    },
    fold_sides: |packed, point, rb| fold_sides(packed, point, rb, &materialize(point, rb)),
};

pub const WRONG: &[Wrong<Ring>] = &[
    (
        "partial_evals",
        "bit 127 skipped",
        Ring {
            partial_evals: |_, eq, packed| {
                let mut sums = partial_evals(eq, packed);
                sums[127] = Word(0);
                (0, sums)
            },
            ..RIGHT
        },
    ),
    (
        "fold_partials",
        "not transposed",
        Ring {
            fold_partials: |s, rb| {
                let products = s.iter().zip(rb).map(|(&s, &r)| mul(s, r));
                (0, products.fold(Word(0), |sum, product| sum + product))
            },
            ..RIGHT
        },
    ),
    (
        "materialize",
        "the equality table itself",
        Ring {
            materialize: |z, _| (0, eq_table(z)),
            ..RIGHT
        },
    ),
    (
        "eval_at",
        "the point and the equality point exchanged",
        Ring {
            eval_at: |z, rb, point| (0, extension(&materialize(point, rb), z)),
            ..RIGHT
        },
    ),
    (
        "extension_sides",
        "the point's coordinates first",
        Ring {
            extension_sides: |packed, point, row| {
                let all = [point, row].concat();
                extension_sides(packed, point, row, &all)
            },
            ..RIGHT
        },
    ),
    (
        "fold_sides",
        "the words summed with the equality table",
        Ring {
            fold_sides: |packed, point, rb| fold_sides(packed, point, rb, &eq_table(point)),
            ..RIGHT
        },
    ),
];

/// s_b: the sum of the entries of the words whose bit b is set.
fn partial_evals(eq: &[Word], packed: &[Word]) -> Vec<Word> {
    let with_bit = |b: usize| {
        eq.iter()
            .zip(packed)
            .filter(move |(_, w)| w.0 >> b & 1 == 1)
    };
    (0..128)
        .map(|b| with_bit(b).fold(Word(0), |sum, (&e, _)| sum + e))
        .collect()
}

/// The sum over i of rb[i] times the word whose bit j is bit i of s_j.
fn fold_partials(s: &[Word; 128], rb: &[Word; 128]) -> Word {
    let column = |i: usize| {
        let bits = s.iter().enumerate();
        Word(bits.fold(0, |word, (j, s)| word | (s.0 >> i & 1) << j))
    };
    let products = (0..128).map(|i| mul(rb[i], column(i)));
    products.fold(Word(0), |sum, product| sum + product)
}

/// Entry v: phi with the row coefficients of entry v of the equality table.
fn materialize(z: &[Word], rb: &[Word; 128]) -> Vec<Word> {
    eq_table(z).iter().map(|&e| phi_c(e, rb)).collect()
}

/// Both sides of the first identity, the bits extended to the point `all`.
fn extension_sides(
    packed: &[Word],
    point: &[Word],
    row: &[Word; 7],
    all: &[Word],
) -> (u64, Vec<Word>, [Word; 2]) {
    let eq = eq_table(point);
    let left = extension(&partial_evals(&eq, packed), row);
    let bit = |word: &Word, b: usize| Word(word.0 >> b & 1);
    let bits: Vec<Word> = packed
        .iter()
        .flat_map(|word| (0..128).map(move |b| bit(word, b)))
        .collect();
    (0, eq, [left, extension(&bits, all)])
}

/// Both sides of the second, the words summed with `table`.
fn fold_sides(
    packed: &[Word],
    point: &[Word],
    rb: &[Word; 128],
    table: &[Word],
) -> (u64, Vec<Word>, [Word; 2]) {
    let partials = partial_evals(&eq_table(point), packed);
    let left = fold_partials(&partials.try_into().expect("128 partials"), rb);
    let products = packed.iter().zip(table).map(|(&w, &e)| mul(w, e));
    let right = products.fold(Word(0), |sum, product| sum + product);
    (0, materialize(point, rb), [left, right])
}
