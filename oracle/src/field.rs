//! gf128.rs, pack.rs, eq.rs, and the two runs of avx.rs that other files use.

use crate::Word;
use magnetar_field::{avx, eq, gf128, pack};

pub fn add(a: Word, b: Word) -> Word {
    a + b
}

pub fn mul(a: Word, b: Word) -> Word {
    gf128::mul(a, b)
}

pub fn square(a: Word) -> Word {
    gf128::square(a)
}

/// Panics at 0.
pub fn inv(a: Word) -> Word {
    gf128::inv(a)
}

/// `mul` as it runs without PCLMULQDQ: wrong, for docs/DIFFERENCES.md.
pub fn mul_portable(a: Word, b: Word) -> Word {
    gf128::oracle_mul_portable(a, b)
}

/// dst += r × src, as `encode` has it; by the kind that `machine::start` fixed.
pub fn axpy_run(dst: &mut [Word], src: &[Word], r: Word) -> usize {
    let count = src.len();
    avx::axpy_run(dst, src, r, count)
}

/// r × src, as `eq_build_fused_into` has it: the vector part, then word by word.
pub fn mul_run(src: &[Word], r: Word) -> Vec<Word> {
    let mut dst = vec![gf128::ZERO; src.len()];
    let done = avx::mul_run(&mut dst, src, r, src.len());
    for place in done..src.len() {
        dst[place] = gf128::mul(src[place], r);
    }
    dst
}

pub fn pack_table(bytes: &[u8]) -> Vec<Word> {
    pack::pack_table(bytes)
}

pub fn phi_c(p: Word, c: &[Word; 128]) -> Word {
    pack::phi_c(p, c)
}

/// `PhiTab::build`, then `apply`.
pub fn phi_tab(p: Word, c: &[Word; 128]) -> Word {
    pack::PhiTab::build(c).apply(p)
}

pub fn eq_coefficients(r: &[Word; 7]) -> [Word; 128] {
    pack::eq_coefficients(r)
}

/// `EqBits::build`.
pub fn eq_build(point: &[Word]) -> Vec<Word> {
    eq::EqBits::build(point).values
}

pub fn eq_build_fused(point: &[Word]) -> Vec<Word> {
    eq::eq_build_fused(point)
}

/// `eq_build_fused_into` with buffers of these lengths, zero before the call.
pub fn eq_build_fused_into(point: &[Word], first: usize, second: usize) -> (usize, Vec<Word>) {
    let mut a = vec![gf128::ZERO; first];
    let mut b = vec![gf128::ZERO; second];
    let length = eq::eq_build_fused_into(point, &mut a, &mut b);
    (length, a)
}
