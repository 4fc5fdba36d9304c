//! Stand-ins for the code layer. The digests of the gammas' messages are taken
//! from the Rust's hash: what is tried here is the code.

use super::field::{eq_table, mul};
use super::Wrong;
use crate::code::{Code, InUse};
use oracle::Word;

/// Written from the definitions.
pub const RIGHT: Code = Code {
    derive: |n, k, domain| (0, derive(n, k, domain)),
    l_of: |in_use, gammas, eps| (0, l_in_use(in_use, gammas, eps)),
    encode: |n, k, gammas, table| (0, encode(n, k, gammas, table)),
    fold: |in_use, var, r, values| {
        drop_entry(in_use, var);
        (0, fold(var, r, values))
    },
    earlier_reading: |in_use| {
        in_use.coordinates = (0..in_use.n).collect();
        0
    },
};

pub const WRONG: &[Wrong<Code>] = &[
    (
        "derive",
        "j and i exchanged in the message",
        Code {
            derive: |n, k, domain| (0, gammas(n, k, |j, i| gamma(n, k, domain, i, j))),
            ..RIGHT
        },
    ),
    (
        "l_of",
        "the gammas read with i outer",
        Code {
            l_of: |in_use, gammas, eps| {
                let set = || (0..in_use.k).filter(|j| eps >> j & 1 == 1);
                let at = |&i: &usize| set().fold(Word(0), |d, j| d + gammas[i * in_use.k + j]);
                (0, in_use.coordinates.iter().map(at).collect())
            },
            ..RIGHT
        },
    ),
    (
        "l_of",
        "rows of n gammas",
        Code {
            l_of: |in_use, gammas, eps| (0, l_of(in_use.n, in_use.k, gammas, eps)),
            ..RIGHT
        },
    ),
    (
        "encode",
        "the table copied into each block",
        Code {
            encode: |_, k, _, table| (0, table.repeat(1 << k)),
            ..RIGHT
        },
    ),
    (
        "fold",
        "b kept",
        Code {
            fold: |in_use, var, r, values| {
                drop_entry(in_use, var);
                (0, folded(values, var, |a, b| a + mul(r, a + b) + b))
            },
            ..RIGHT
        },
    ),
    (
        "fold",
        "n not lowered",
        Code {
            fold: |in_use, var, r, values| {
                in_use.coordinates.remove(var);
                (0, fold(var, r, values))
            },
            ..RIGHT
        },
    ),
    (
        "fold",
        "the list's last entry dropped",
        Code {
            fold: drops_last,
            ..RIGHT
        },
    ),
    (
        "earlier_reading",
        "the list kept",
        Code {
            earlier_reading: |_| 0,
            ..RIGHT
        },
    ),
    (
        "earlier_reading",
        "the original n lowered to n",
        Code {
            earlier_reading: |in_use| {
                *in_use = InUse::committed(in_use.n, in_use.k);
                0
            },
            ..RIGHT
        },
    ),
    (
        "half_folded",
        "the list's last entry dropped",
        Code {
            fold: drops_last,
            ..RIGHT
        },
    ),
    (
        "half_folded",
        "the first n coordinates read",
        Code {
            l_of: |in_use, gammas, eps| (0, l_in_use(&in_use.earlier(), gammas, eps)),
            ..RIGHT
        },
    ),
];

/// k × n words, j outer.
fn gammas(n: usize, k: usize, at: impl Fn(usize, usize) -> Word) -> Vec<Word> {
    let pairs = (0..k).flat_map(|j| (0..n).map(move |i| (j, i)));
    pairs.map(|(j, i)| at(j, i)).collect()
}

pub fn derive(n: usize, k: usize, domain: &str) -> Vec<Word> {
    gammas(n, k, |j, i| gamma(n, k, domain, j, i))
}

/// The first 16 bytes of the digest of six parts, the last four of them numbers.
fn gamma(n: usize, k: usize, domain: &str, j: usize, i: usize) -> Word {
    let numbers = [n, k, j, i].map(|number| (number as u64).to_le_bytes());
    let texts: [&[u8]; 2] = [b"magnetar/pcs/gamma/v1", domain.as_bytes()];
    let parts: Vec<&[u8]> = texts
        .into_iter()
        .chain(numbers.iter().map(|number| &number[..]))
        .collect();
    let digest = oracle::hash::blake3_domain(&parts);
    Word(u128::from_le_bytes(
        digest[..16].try_into().expect("16 bytes"),
    ))
}

/// Coordinate i: the sum of the gammas (j, i) over the set bits j of eps.
fn l_of(n: usize, k: usize, gammas: &[Word], eps: usize) -> Vec<Word> {
    let set = || (0..k).filter(|j| eps >> j & 1 == 1);
    (0..n)
        .map(|i| set().fold(Word(0), |d, j| d + gammas[j * n + i]))
        .collect()
}

/// The entries of L(eps) at the coordinates that are left.
fn l_in_use(in_use: &InUse, gammas: &[Word], eps: usize) -> Vec<Word> {
    let whole = l_of(in_use.original, in_use.k, gammas, eps);
    in_use.coordinates.iter().map(|&i| whole[i]).collect()
}

/// Lowers n, and drops an entry of the list.
fn drop_entry(in_use: &mut InUse, gone: usize) {
    in_use.n -= 1;
    in_use.coordinates.remove(gone);
}

fn drops_last(in_use: &mut InUse, var: usize, r: Word, values: &[Word]) -> (u64, Vec<Word>) {
    drop_entry(in_use, in_use.n - 1);
    (0, fold(var, r, values))
}

/// Entry eps × 2^n + v: P(v + L(eps)), coordinate i of v being its bit i.
pub fn encode(n: usize, k: usize, gammas: &[Word], table: &[Word]) -> Vec<Word> {
    let entry = |eps: usize, v: usize| {
        let shift = l_of(n, k, gammas, eps);
        let point: Vec<Word> = shift
            .iter()
            .enumerate()
            .map(|(i, &d)| d + Word((v >> i & 1) as u128))
            .collect();
        extension(table, &point)
    };
    let places = (0..1 << k).flat_map(|eps| (0..1 << n).map(move |v| (eps, v)));
    places.map(|(eps, v)| entry(eps, v)).collect()
}

/// P: the sum over v of word v times entry v of the point's equality table.
pub fn extension(table: &[Word], point: &[Word]) -> Word {
    let entries = eq_table(point);
    let products = table.iter().zip(&entries).map(|(&w, &e)| mul(w, e));
    products.fold(Word(0), |sum, product| sum + product)
}

fn fold(var: usize, r: Word, values: &[Word]) -> Vec<Word> {
    folded(values, var, |a, b| a + mul(r, a + b))
}

/// One word for each pair of places that differ in bit var, that bit closed up.
fn folded(values: &[Word], var: usize, line: impl Fn(Word, Word) -> Word) -> Vec<Word> {
    let bit = 1 << var;
    let opened = |v: usize| v / bit * 2 * bit + v % bit;
    (0..values.len() / 2)
        .map(|v| line(values[opened(v)], values[opened(v) + bit]))
        .collect()
}
