//! The ring layer: partial evaluations and the indicator of ring.rs.

use crate::harness::{done, hexes, same_word, same_words, Comparison, Verdict, LARGE};
use crate::random::Random;
use oracle::{field, ring as rust, Word};

/// The functions compared, as one implementation has them. A number other than
/// 0 is a refusal.
#[derive(Clone, Copy)]
pub struct Ring {
    /// n, equality table, packed words.
    pub partial_evals: fn(usize, &[Word], &[Word]) -> (u64, Vec<Word>),
    pub fold_partials: fn(&[Word; 128], &[Word; 128]) -> (u64, Word),
    /// Equality point, row coefficients.
    pub materialize: fn(&[Word], &[Word; 128]) -> (u64, Vec<Word>),
    /// Equality point, row coefficients, point.
    pub eval_at: fn(&[Word], &[Word; 128], &[Word]) -> (u64, Word),
    /// Packed words, point, row point: the equality table, and both sides of the first identity.
    pub extension_sides: fn(&[Word], &[Word], &[Word; 7]) -> (u64, Vec<Word>, [Word; 2]),
    /// Packed words, point, row coefficients: the indicator's table, and both sides of the second.
    pub fold_sides: fn(&[Word], &[Word], &[Word; 128]) -> (u64, Vec<Word>, [Word; 2]),
}

pub const COMPARISONS: &[Comparison<Ring>] = &[
    Comparison::of("partial_evals", 11 * 20, partial_evals).and_large(4),
    Comparison::of("fold_partials", 500, fold_partials),
    Comparison::of("materialize", 11 * 10, materialize).and_large(4),
    Comparison::of("eval_at", 21 * 10, eval_at),
    Comparison::of("extension_sides", 9 * 10, extension_sides).and_large(2),
    Comparison::of("fold_sides", 9 * 10, fold_sides).and_large(2),
];

/// Every n up to 10 in turn, for what has 2^n entries; large cases have 11, 12, 16 and 20.
fn small_n(case: u64) -> usize {
    match case.checked_sub(LARGE) {
        None => (case % 11) as usize,
        Some(large) => [11, 12, 16, 20][large as usize % 4],
    }
}

fn partial_evals(ours: &Ring, case: u64, random: &mut Random) -> Verdict {
    let n = small_n(case);
    let (eq, packed) = (random.words(1 << n), random.words(1 << n));
    let input = || format!("partial_evals {} {}", hexes(&eq), hexes(&packed));
    let (number, sums) = (ours.partial_evals)(n, &eq, &packed);
    done(number, input)?;
    same_words(&rust::partial_evals(&eq, &packed), &sums, input)
}

fn fold_partials(ours: &Ring, _case: u64, random: &mut Random) -> Verdict {
    let (s, rb) = (random.array(), random.array());
    let input = || format!("fold_partials {} {}", hexes(&s), hexes(&rb));
    let (number, sum) = (ours.fold_partials)(&s, &rb);
    done(number, input)?;
    same_word(rust::fold_partials(&s, &rb), sum, input)
}

fn materialize(ours: &Ring, case: u64, random: &mut Random) -> Verdict {
    let (z, rb) = (random.words(small_n(case)), random.array());
    let input = || format!("materialize {} {}", hexes(&z), hexes(&rb));
    let (number, table) = (ours.materialize)(&z, &rb);
    done(number, input)?;
    same_words(&rust::materialize(&z, &rb), &table, input)
}

/// Every n up to 20 in turn.
fn eval_at(ours: &Ring, case: u64, random: &mut Random) -> Verdict {
    let n = (case % 21) as usize;
    let (z, rb, point) = (random.words(n), random.array(), random.words(n));
    let input = || format!("eval_at {} {} {}", hexes(&z), hexes(&rb), hexes(&point));
    let (number, value) = (ours.eval_at)(&z, &rb, &point);
    done(number, input)?;
    same_word(rust::eval_at(&z, &rb, &point), value, input)
}

/// Every n up to 8 in turn; large cases have 12 and 16.
fn sides_n(case: u64) -> usize {
    match case.checked_sub(LARGE) {
        None => (case % 9) as usize,
        Some(large) => [12, 16][large as usize % 2],
    }
}

fn extension_sides(ours: &Ring, case: u64, random: &mut Random) -> Verdict {
    let n = sides_n(case);
    let (packed, point, row) = (random.words(1 << n), random.words(n), random.array());
    let input = || {
        let (packed, point, row) = (hexes(&packed), hexes(&point), hexes(&row));
        format!("extension_sides {packed} {point} {row}")
    };
    let (number, table, sides) = (ours.extension_sides)(&packed, &point, &row);
    done(number, input)?;
    same_words(&field::eq_build(&point), &table, input)?;
    let (left, right) = rust::extension_sides(&packed, &point, &row);
    same_words(&[left, right], &sides, input)
}

fn fold_sides(ours: &Ring, case: u64, random: &mut Random) -> Verdict {
    let n = sides_n(case);
    let (packed, point, rb) = (random.words(1 << n), random.words(n), random.array());
    let input = || {
        let (packed, point, rb) = (hexes(&packed), hexes(&point), hexes(&rb));
        format!("fold_sides {packed} {point} {rb}")
    };
    let (number, table, sides) = (ours.fold_sides)(&packed, &point, &rb);
    done(number, input)?;
    same_words(&rust::materialize(&point, &rb), &table, input)?;
    let (left, right) = rust::fold_sides(&packed, &point, &rb);
    same_words(&[left, right], &sides, input)
}
