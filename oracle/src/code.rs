//! code.rs: gammas, L, encode, fold.
//!
//! Gammas travel as one list, j outer, as many words a row as the codeword has
//! coordinates before any fold. The Rust keeps no list of the coordinates that are
//! still unfolded: it reads the first n of each row.

use crate::Word;
use magnetar_pcs::code::{CodeParams, Codeword};

pub fn derive(n: usize, k: usize, domain: &str) -> Vec<Word> {
    CodeParams::derive(n, k, domain).gammas.concat()
}

/// L(eps) of a codeword that is folded from its original n down to n.
pub fn l_of(n: usize, k: usize, original: usize, gammas: &[Word], eps: usize) -> Vec<Word> {
    shift(&folded_to(n, k, original, gammas), eps)
}

/// L(eps) of a codeword in use.
pub fn shift(codeword: &Codeword, eps: usize) -> Vec<Word> {
    let bits: Vec<bool> = (0..codeword.params.k)
        .map(|j| (eps >> j) & 1 == 1)
        .collect();
    codeword.params.l_of(&bits)
}

pub fn encode(n: usize, k: usize, gammas: &[Word], table: &[Word]) -> Vec<Word> {
    Codeword::encode(&params(n, k, gammas), table).values
}

/// The folded values, and the n that the folded codeword has.
pub fn fold(n: usize, k: usize, var: usize, r: Word, values: &[Word]) -> (Vec<Word>, usize) {
    let codeword = Codeword {
        params: params(n, k, &vec![Word(0); n * k]),
        values: values.to_vec(),
    };
    let folded = codeword.fold(var, r);
    (folded.values, folded.params.n)
}

/// A codeword as the Rust's own folds leave it, but with no values, so that one of
/// any size can be folded. At which variables makes no difference to L.
fn folded_to(n: usize, k: usize, original: usize, gammas: &[Word]) -> Codeword {
    let mut codeword = Codeword {
        params: params(original, k, gammas),
        values: Vec::new(),
    };
    while codeword.params.n > n {
        codeword = codeword.fold(0, Word(0));
    }
    codeword
}

/// The Rust's parameters with these gammas; k empty rows where n is 0.
fn params(n: usize, k: usize, gammas: &[Word]) -> CodeParams {
    assert_eq!(gammas.len(), n * k, "k rows of n gammas");
    let row = |j: usize| gammas[j * n..(j + 1) * n].to_vec();
    CodeParams {
        n,
        k,
        gammas: (0..k).map(row).collect(),
    }
}
