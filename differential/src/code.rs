//! The code layer: code.rs. Gammas travel as one list, j outer, as many words a row
//! as the codeword has coordinates before any fold.
//!
//! The list of coordinates that are still unfolded is ours, and so are what a fold
//! leaves of it and its conversion: they are held to their definitions. L is compared
//! in the earlier reading, which is the Rust's.

use crate::harness::{done, hex, hexes, same, same_words, Comparison, Verdict, LARGE};
use crate::random::Random;
use oracle::{code as rust, Word};

/// What a codeword in use has beside its gammas and values.
#[derive(Clone, Debug, PartialEq, Eq)]
pub struct InUse {
    pub n: usize,
    pub k: usize,
    pub original: usize,
    pub coordinates: Vec<usize>,
}

impl InUse {
    pub fn committed(n: usize, k: usize) -> InUse {
        InUse {
            n,
            k,
            original: n,
            coordinates: (0..n).collect(),
        }
    }

    /// Any original n from n on, and any of its coordinates.
    fn random(n: usize, k: usize, random: &mut Random) -> InUse {
        let original = n + random.below(21 - n as u64) as usize;
        let mut coordinates: Vec<usize> = (0..original).collect();
        while coordinates.len() > n {
            let gone = random.below(coordinates.len() as u64) as usize;
            coordinates.remove(gone);
        }
        InUse {
            n,
            k,
            original,
            coordinates,
        }
    }

    /// After a fold.
    pub fn without(&self, var: usize) -> InUse {
        let mut left = self.clone();
        left.n -= 1;
        left.coordinates.remove(var);
        left
    }

    /// As it was read earlier.
    pub fn earlier(&self) -> InUse {
        InUse {
            coordinates: (0..self.n).collect(),
            ..self.clone()
        }
    }

    fn said(&self) -> String {
        let (n, k, original) = (self.n, self.k, self.original);
        format!("n {n} k {k} original {original} {:?}", self.coordinates)
    }
}

/// The functions compared, as one implementation has them. A number other than
/// 0 is a refusal.
#[derive(Clone, Copy)]
pub struct Code {
    pub derive: fn(usize, usize, &str) -> (u64, Vec<Word>),
    /// The codeword in use, gammas, eps.
    pub l_of: fn(&InUse, &[Word], usize) -> (u64, Vec<Word>),
    /// n, k, gammas, table.
    pub encode: fn(usize, usize, &[Word], &[Word]) -> (u64, Vec<Word>),
    /// The codeword in use, which is changed, variable, r, values; the folded values.
    pub fold: fn(&mut InUse, usize, Word, &[Word]) -> (u64, Vec<Word>),
    /// The codeword in use, which is changed.
    pub earlier_reading: fn(&mut InUse) -> u64,
}

pub const COMPARISONS: &[Comparison<Code>] = &[
    Comparison::of("derive", 21 * 5 + 200, derive),
    Comparison::of("l_of", 21 * 5 + 200, l_of),
    Comparison::of("encode", SIZES + 200, encode).and_large(LARGE_SIZES),
    Comparison::of("fold", SIZES + 300, fold).and_large(LARGE_SIZES),
    Comparison::of("earlier_reading", 21 * 5 + 200, earlier_reading),
    Comparison::of("half_folded", SIZES + 200, half_folded),
];

/// Every n up to 20 and k up to 4, each in turn.
fn any_size(case: u64) -> (usize, usize) {
    ((case / 5 % 21) as usize, (case % 5) as usize)
}

/// The sizes whose codewords are small: every n up to 9 and k up to 4, each in turn.
pub const SIZES: u64 = 10 * 5;

/// Those past them: n from 10 to 12 with every k, and five with codewords of 2^20 words.
pub const LARGE_SIZES: u64 = 3 * 5 + 5;

/// The n and k of a case.
pub fn size(case: u64) -> (usize, usize) {
    let (n, k) = match case.checked_sub(LARGE) {
        None => (case / 5 % 10, case % 5),
        Some(large @ 0..15) => (10 + large / 5, large % 5),
        Some(large) => (20 - large % 5, large % 5),
    };
    (n as usize, k as usize)
}

/// A base domain of up to 200 bytes.
fn domain(random: &mut Random) -> String {
    let length = random.pick(&[0, 1, 2, 20, 63, 64, 127, 128, 199, 200]);
    random.text(length)
}

fn derive(ours: &Code, case: u64, random: &mut Random) -> Verdict {
    let (n, k) = any_size(case);
    let domain = domain(random);
    let input = || format!("derive n {n} k {k} domain {domain:?}");
    let (number, gammas) = (ours.derive)(n, k, &domain);
    done(number, input)?;
    same_words(&rust::derive(n, k, &domain), &gammas, input)
}

/// In the earlier reading, of a codeword that is not folded or folded part way.
fn l_of(ours: &Code, case: u64, random: &mut Random) -> Verdict {
    let (n, k) = any_size(case);
    let in_use = match random.below(2) {
        0 => InUse::committed(n, k),
        _ => InUse::random(n, k, random).earlier(),
    };
    let gammas = random.words(in_use.original * k);
    same_shift(ours, &in_use, &gammas, random)
}

/// L(eps) for any eps, in the earlier reading.
fn same_shift(ours: &Code, in_use: &InUse, gammas: &[Word], random: &mut Random) -> Verdict {
    let eps = random.below(1 << in_use.k) as usize;
    let input = || format!("l_of {} eps {eps} {}", in_use.said(), hexes(gammas));
    let (number, shift) = (ours.l_of)(in_use, gammas, eps);
    done(number, input)?;
    let rust = rust::l_of(in_use.n, in_use.k, in_use.original, gammas, eps);
    same_words(&rust, &shift, input)
}

/// The list of any codeword in use; then L is the Rust's.
fn earlier_reading(ours: &Code, case: u64, random: &mut Random) -> Verdict {
    let (n, k) = any_size(case);
    let before = InUse::random(n, k, random);
    let input = || format!("earlier_reading {}", before.said());
    let mut in_use = before.clone();
    done((ours.earlier_reading)(&mut in_use), input)?;
    same(&before.earlier(), &in_use, input)?;
    let gammas = random.words(in_use.original * k);
    same_shift(ours, &in_use, &gammas, random)
}

fn encode(ours: &Code, case: u64, random: &mut Random) -> Verdict {
    let (n, k) = size(case);
    let (gammas, table) = (random.words(n * k), random.words(1 << n));
    let input = || format!("encode n {n} k {k} {} {}", hexes(&gammas), hexes(&table));
    let (number, codeword) = (ours.encode)(n, k, &gammas, &table);
    done(number, input)?;
    same_words(&rust::encode(n, k, &gammas, &table), &codeword, input)
}

/// At every variable in turn, of a large codeword at any; n = 0 has none.
fn fold(ours: &Code, case: u64, random: &mut Random) -> Verdict {
    let (n, k) = size(case);
    let n = n.max(1);
    let var = match case.checked_sub(LARGE) {
        None => (case / SIZES) as usize % n,
        Some(_) => random.below(n as u64) as usize,
    };
    let (r, values) = (random.word(), random.words(1 << (n + k)));
    let before = InUse::random(n, k, random);
    let said = before.said();
    let input = || format!("fold {said} var {var} r {} {}", hex(r), hexes(&values));
    let mut left = before.clone();
    let (number, folded) = (ours.fold)(&mut left, var, r, &values);
    done(number, input)?;
    let (rust, rust_left) = rust::fold(n, k, var, r, &values);
    same_words(&rust, &folded, input)?;
    same(&rust_left, &left.n, input)?;
    same(&before.without(var), &left, input)
}

/// A table folded at any variables, each fold on what the last one left, some way or
/// all: ours is the Rust's, and each block is shifted by our L of what is left. The
/// table of a block is folded by each challenge and the entry of our L at its variable.
fn half_folded(ours: &Code, case: u64, random: &mut Random) -> Verdict {
    let (n, k) = size(case);
    let (gammas, table) = (random.words(n * k), random.words(1 << n));
    let eps = random.below(1 << k) as usize;
    let mut values = rust::encode(n, k, &gammas, &table);
    let (mut in_use, mut block_table) = (InUse::committed(n, k), table.clone());
    let mut variables = Vec::new();
    while in_use.n > 0 && random.below(4) > 0 {
        let (var, r) = (random.below(in_use.n as u64) as usize, random.word());
        variables.push(var);
        let input = || format!("folds at {variables:?} n {n} k {k} {}", hexes(&table));
        let (before, (number, shift)) = (in_use.n, (ours.l_of)(&in_use, &gammas, eps));
        done(number, input)?;
        let (number, folded) = (ours.fold)(&mut in_use, var, r, &values);
        done(number, input)?;
        values = rust::fold(before, k, var, r, &values).0;
        same_words(&values, &folded, input)?;
        block_table = rust::fold(before, 0, var, r + shift[var], &block_table).0;
    }
    let input = || {
        let (table, gammas) = (hexes(&table), hexes(&gammas));
        format!("half_folded n {n} k {k} eps {eps} at {variables:?} table {table} gammas {gammas}")
    };
    let (number, shift) = (ours.l_of)(&in_use, &gammas, eps);
    done(number, input)?;
    let size = 1 << in_use.n;
    let shifted = &rust::encode(in_use.n, 1, &shift, &block_table)[size..];
    same_words(&values[eps * size..(eps + 1) * size], shifted, input)
}
