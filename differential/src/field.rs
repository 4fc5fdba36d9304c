//! The field layer: gf128.rs, pack.rs, eq.rs, and runs of words by one word.
//! Inputs are those that pass the questions of SPECIFICATION 8.4.

use crate::harness::{digits, done, hex, hexes, same_word, same_words, Comparison, Verdict};
use crate::random::Random;
use oracle::{field as rust, Word};

/// The functions compared, as one implementation has them. A number other than
/// 0 is a refusal.
#[derive(Clone, Copy)]
pub struct Field {
    pub mul: fn(Word, Word) -> Word,
    pub square: fn(Word) -> Word,
    pub square_by_table: fn(Word) -> Word,
    pub inv: fn(Word) -> (u64, Word),
    pub pack_table: fn(&[u8]) -> (u64, Vec<Word>),
    pub phi_c: fn(Word, &[Word; 128]) -> Word,
    pub phi_tab: fn(Word, &[Word; 128]) -> Word,
    pub eq_coefficients: fn(&[Word; 7]) -> [Word; 128],
    pub eq_table: fn(&[Word]) -> (u64, Vec<Word>),
    /// r × src.
    pub mul_run: fn(&[Word], Word) -> Vec<Word>,
    /// dst + r × src.
    pub axpy_run: fn(&[Word], &[Word], Word) -> Vec<Word>,
}

pub const COMPARISONS: &[Comparison<Field>] = &[
    Comparison::of("mul", 128 * 128 + 20_000, mul),
    Comparison::of("square", 128 * 128 + 10_000, square),
    Comparison::of("square_by_table", 16 * 256 + 10_000, square_by_table),
    Comparison::of("inv", 128 + 4_000, inv),
    Comparison::of("pack_table", 128 + 1_000, pack_table),
    Comparison::of("phi_c", 128 + 5_000, phi_c),
    Comparison::of("phi_tab", 128 + 5_000, phi_tab),
    Comparison::of("eq_coefficients", 2_000, eq_coefficients),
    Comparison::of("eq_table", 13 * 20 + 2, eq_table),
    Comparison::of("mul_run", 1_000, mul_run),
    Comparison::of("axpy_run", 1_000, axpy_run),
];

/// x^i.
fn power(i: u64) -> Word {
    Word(1 << i)
}

/// First every product of two powers of x, then any.
fn mul(ours: &Field, case: u64, random: &mut Random) -> Verdict {
    let (a, b) = match case {
        0..16_384 => (power(case / 128), power(case % 128)),
        _ => (random.word(), random.word()),
    };
    let input = || format!("mul {} {}", hex(a), hex(b));
    same_word(rust::mul(a, b), (ours.mul)(a, b), input)
}

/// First every sum of two powers of x (0 where they are equal), then any.
fn square(ours: &Field, case: u64, random: &mut Random) -> Verdict {
    let a = match case {
        0..16_384 => power(case / 128) + power(case % 128),
        _ => random.word(),
    };
    same_word(rust::square(a), (ours.square)(a), || {
        format!("square {}", hex(a))
    })
}

/// First every byte at every place alone, then any.
fn square_by_table(ours: &Field, case: u64, random: &mut Random) -> Verdict {
    let a = match case {
        0..4_096 => Word(u128::from(case % 256) << (8 * (case / 256))),
        _ => random.word(),
    };
    same_word(rust::square(a), (ours.square_by_table)(a), || {
        format!("square_by_table {}", hex(a))
    })
}

/// First every power of x, then any word but 0.
fn inv(ours: &Field, case: u64, random: &mut Random) -> Verdict {
    let a = match case {
        0..128 => power(case),
        _ => Word(random.word().0.max(1)),
    };
    let input = || format!("inv {}", hex(a));
    let (number, inverse) = (ours.inv)(a);
    done(number, input)?;
    same_word(rust::inv(a), inverse, input)
}

/// First a single byte set, at every place, then any bits, 0 to 40 groups.
fn pack_table(ours: &Field, case: u64, random: &mut Random) -> Verdict {
    let bits = match case {
        0..128 => (0..128).map(|place| u8::from(place == case)).collect(),
        _ => {
            let groups = random.pick(&[0, 1, 2, 3, 4, 5, 7, 8, 9, 16, 40]);
            random.bits(128 * groups)
        }
    };
    let input = || format!("pack_table of {} bytes: {}", bits.len(), digits(&bits));
    let (number, words) = (ours.pack_table)(&bits);
    done(number, input)?;
    same_words(&rust::pack_table(&bits), &words, input)
}

/// A power of x, each in turn, then any word, every fourth with few bits set; any coefficients.
fn phi_input(case: u64, random: &mut Random) -> (Word, [Word; 128]) {
    let p = match case {
        0..128 => power(case),
        _ if case % 4 == 0 => {
            Word(random.word().0 & random.word().0 & random.word().0 & random.word().0)
        }
        _ => random.word(),
    };
    (p, random.array())
}

fn phi_c(ours: &Field, case: u64, random: &mut Random) -> Verdict {
    let (p, c) = phi_input(case, random);
    let input = || format!("phi_c {} {}", hex(p), hexes(&c));
    same_word(rust::phi_c(p, &c), (ours.phi_c)(p, &c), input)
}

fn phi_tab(ours: &Field, case: u64, random: &mut Random) -> Verdict {
    let (p, c) = phi_input(case, random);
    let input = || format!("phi_tab {} {}", hex(p), hexes(&c));
    same_word(rust::phi_tab(p, &c), (ours.phi_tab)(p, &c), input)
}

fn eq_coefficients(ours: &Field, _case: u64, random: &mut Random) -> Verdict {
    let r: [Word; 7] = random.array();
    let input = || format!("eq_coefficients {}", hexes(&r));
    same_words(
        &rust::eq_coefficients(&r),
        &(ours.eq_coefficients)(&r),
        input,
    )
}

/// Every n up to 12 in turn; 16 and 20 once, last of the fixed cases.
fn eq_table(ours: &Field, case: u64, random: &mut Random) -> Verdict {
    let n = match case {
        260 => 16,
        261 => 20,
        _ => (case % 13) as usize,
    };
    let point = random.words(n);
    let input = || format!("eq_build {}", hexes(&point));
    let (number, table) = (ours.eq_table)(&point);
    done(number, input)?;
    same_words(&rust::eq_build(&point), &table, input)
}

/// Lengths around every place where a run may change its method: each up to
/// 200, then around powers of two.
fn run_length(case: u64, random: &mut Random) -> usize {
    match case {
        0..200 => case as usize,
        _ => {
            let power = 1usize << random.below(14);
            let offset = random.pick(&[0, 1, 2, 3, 5]);
            random.pick(&[power + offset, power.saturating_sub(offset)])
        }
    }
}

fn mul_run(ours: &Field, case: u64, random: &mut Random) -> Verdict {
    let length = run_length(case, random);
    let (src, r) = (random.words(length), random.word());
    let input = || format!("mul_run {} {}", hexes(&src), hex(r));
    same_words(&rust::mul_run(&src, r), &(ours.mul_run)(&src, r), input)
}

fn axpy_run(ours: &Field, case: u64, random: &mut Random) -> Verdict {
    let length = run_length(case, random);
    let (dst, src, r) = (random.words(length), random.words(length), random.word());
    let mut sums = dst.clone();
    rust::axpy_run(&mut sums, &src, r);
    let input = || format!("axpy_run {} {} {}", hexes(&dst), hexes(&src), hex(r));
    same_words(&sums, &(ours.axpy_run)(&dst, &src, r), input)
}
