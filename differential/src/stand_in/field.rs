//! Stand-ins for the field layer.

use super::Wrong;
use crate::field::Field;
use oracle::Word;

/// Written from the definitions: slow, and with nothing of the Rust in it.
pub const RIGHT: Field = Field {
    mul,
    square: |a| mul(a, a),
    square_by_table: |a| mul(a, a),
    inv,
    pack_table,
    phi_c,
    phi_tab: phi_c,
    eq_coefficients,
    eq_table: |point| (0, eq_table(point)),
    mul_run: |src, r| src.iter().map(|&w| mul(w, r)).collect(),
    axpy_run: |dst, src, r| dst.iter().zip(src).map(|(&d, &s)| d + mul(s, r)).collect(),
};

pub const WRONG: &[Wrong<Field>] = &[
    (
        "mul",
        "the upper half of each 64-bit product lost",
        Field {
            mul: oracle::field::mul_portable,
            ..RIGHT
        },
    ),
    (
        "mul",
        "wrong at one product of powers alone, x^127 × x^127",
        Field {
            mul: |a, b| mul(a, b) + Word(u128::from(a.0 == 1 << 127 && b.0 == 1 << 127)),
            ..RIGHT
        },
    ),
    (
        "square",
        "the modulus with 0x85 for 0x87",
        Field {
            square: |a| product(a, a, 0x85),
            ..RIGHT
        },
    ),
    (
        "square_by_table",
        "a digit off where byte 9 is 255",
        Field {
            square_by_table: |a| mul(a, a) + Word(u128::from((a.0 >> 72) as u8 == 255) << 16),
            ..RIGHT
        },
    ),
    (
        "inv",
        "the inverse of 1 refused",
        Field {
            inv: |a| if a == Word(1) { (1, Word(0)) } else { inv(a) },
            ..RIGHT
        },
    ),
    (
        "inv",
        "a itself returned where bit 127 is set",
        Field {
            inv: |a| if a.0 >> 127 == 1 { (0, a) } else { inv(a) },
            ..RIGHT
        },
    ),
    (
        "pack_table",
        "bits reversed within each byte",
        Field {
            pack_table: |bytes| {
                (
                    0,
                    pack_table(bytes)
                        .1
                        .into_iter()
                        .map(reverse_in_bytes)
                        .collect(),
                )
            },
            ..RIGHT
        },
    ),
    (
        "pack_table",
        "the last group left out",
        Field {
            pack_table: |bytes| pack_table(&bytes[..bytes.len().saturating_sub(128)]),
            ..RIGHT
        },
    ),
    (
        "phi_c",
        "bit 127 skipped",
        Field {
            phi_c: |p, c| phi_c(Word(p.0 << 1 >> 1), c),
            ..RIGHT
        },
    ),
    (
        "phi_tab",
        "the two halves exchanged",
        Field {
            phi_tab: |p, c| phi_c(Word(p.0.rotate_left(64)), c),
            ..RIGHT
        },
    ),
    (
        "eq_coefficients",
        "the first coordinate as the highest bit",
        Field {
            eq_coefficients: |r| {
                let mut reversed = *r;
                reversed.reverse();
                eq_coefficients(&reversed)
            },
            ..RIGHT
        },
    ),
    (
        "eq_table",
        "the first coordinate as the highest bit",
        Field {
            eq_table: |point| {
                let reversed: Vec<Word> = point.iter().rev().copied().collect();
                (0, eq_table(&reversed))
            },
            ..RIGHT
        },
    ),
    (
        "eq_table",
        "wrong in the last entry at n = 12 alone",
        Field {
            eq_table: |point| {
                let mut table = eq_table(point);
                table[(1 << point.len()) - 1].0 ^= u128::from(point.len() == 12);
                (0, table)
            },
            ..RIGHT
        },
    ),
    (
        "mul_run",
        "the last word skipped where the length is odd",
        Field {
            mul_run: |src, r| {
                let mut out = (RIGHT.mul_run)(src, r);
                if src.len() % 2 == 1 {
                    out[src.len() - 1] = src[src.len() - 1];
                }
                out
            },
            ..RIGHT
        },
    ),
    (
        "axpy_run",
        "nothing added",
        Field {
            axpy_run: |dst, _, _| dst.to_vec(),
            ..RIGHT
        },
    ),
];

pub fn mul(a: Word, b: Word) -> Word {
    product(a, b, 0x87)
}

/// Shift and add; `modulus` is the low part of the reducing polynomial.
fn product(a: Word, b: Word, modulus: u128) -> Word {
    let (mut power, mut sum) = (a.0, 0);
    for i in 0..128 {
        if b.0 >> i & 1 == 1 {
            sum ^= power;
        }
        power = power << 1 ^ if power >> 127 == 1 { modulus } else { 0 };
    }
    Word(sum)
}

/// a^(2^128 − 2): the product of a^(2^i) for i from 1 to 127.
fn inv(a: Word) -> (u64, Word) {
    if a == Word(0) {
        return (1, Word(0));
    }
    let (mut power, mut result) = (a, Word(1));
    for _ in 1..128 {
        power = mul(power, power);
        result = mul(result, power);
    }
    (0, result)
}

fn pack_table(bytes: &[u8]) -> (u64, Vec<Word>) {
    let pack = |group: &[u8]| {
        let bits = group.iter().enumerate();
        Word(bits.fold(0, |word, (b, &bit)| word | u128::from(bit) << b))
    };
    (0, bytes.chunks_exact(128).map(pack).collect())
}

pub fn phi_c(p: Word, c: &[Word; 128]) -> Word {
    let set = (0..128).filter(|b| p.0 >> b & 1 == 1);
    set.fold(Word(0), |sum, b| sum + c[b])
}

fn eq_coefficients(r: &[Word; 7]) -> [Word; 128] {
    eq_table(r).try_into().expect("128 entries")
}

/// Entry v: the product over j of r[j] where bit j of v is 1, else 1 + r[j].
/// Each coordinate doubles the table: its bit is above those before it.
pub fn eq_table(point: &[Word]) -> Vec<Word> {
    let mut table = vec![Word(1)];
    for &r in point {
        let ones: Vec<Word> = table.iter().map(|&entry| mul(entry, r)).collect();
        for (entry, &one) in table.iter_mut().zip(&ones) {
            *entry += one;
        }
        table.extend(ones);
    }
    table
}

fn reverse_in_bytes(word: Word) -> Word {
    Word(u128::from_le_bytes(
        word.0.to_le_bytes().map(u8::reverse_bits),
    ))
}
