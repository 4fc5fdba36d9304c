//! Stand-ins for parameters, widths, level domains and committing.

use super::{code, tree, Wrong};
use crate::code::{Code, InUse};
use crate::eval::Eval;
use oracle::query::{Commitment, Params};
use oracle::Word;

/// Written from SPECIFICATION 6.7; the profiles are as eval.rs writes them.
pub const RIGHT: Eval = Eval {
    fold_tree_width: width,
    level_domain,
    parameters,
    commit: |n, k, base, table| {
        let made = commit(n, k, base, &level_domain(base, 0), table);
        (0, made, InUse::committed(n, k))
    },
    code: code::RIGHT,
};

pub const WRONG: &[Wrong<Eval>] = &[
    (
        "fold_tree_width",
        "8 from length 17",
        Eval {
            fold_tree_width: |length| if length == 16 { 2 } else { width(length) },
            ..RIGHT
        },
    ),
    (
        "level_domain",
        "two digits always",
        Eval {
            level_domain: |base, level| format!("{base}/level/{level:02}").into_bytes(),
            ..RIGHT
        },
    ),
    (
        "parameters",
        "k 2 for the Rust's default",
        Eval {
            parameters: |number| {
                let mut made = parameters(number);
                made.k += usize::from(number == 0);
                made
            },
            ..RIGHT
        },
    ),
    (
        "commit",
        "the tree under the base domain",
        Eval {
            commit: |n, k, base, table| {
                let made = commit(n, k, base, base.as_bytes(), table);
                (0, made, InUse::committed(n, k))
            },
            ..RIGHT
        },
    ),
    (
        "commit",
        "the coordinates counted from 1",
        Eval {
            commit: |n, k, base, table| {
                let (number, made, mut in_use) = (RIGHT.commit)(n, k, base, table);
                in_use.coordinates.iter_mut().for_each(|i| *i += 1);
                (number, made, in_use)
            },
            ..RIGHT
        },
    ),
    (
        "resumed",
        "L of the list that is left",
        Eval {
            code: Code {
                earlier_reading: |_| 0,
                ..code::RIGHT
            },
            ..RIGHT
        },
    ),
    (
        "resumed",
        "a fold at variable 0, whichever it is",
        Eval {
            code: Code {
                fold: |in_use, _, r, values| (code::RIGHT.fold)(in_use, 0, r, values),
                ..code::RIGHT
            },
            ..RIGHT
        },
    ),
];

fn width(length: usize) -> usize {
    match length {
        0 | 1 => 1,
        2..16 => 2,
        _ => 8,
    }
}

fn level_domain(base: &str, level: usize) -> Vec<u8> {
    format!("{base}/level/{level}").into_bytes()
}

fn parameters(number: usize) -> Params {
    let (k, queries, name) = match number {
        0 => (1, 40, "default"),
        1 => (1, 40, "fastchunk"),
        2 => (2, 40, "balanced"),
        3 => (3, 20, "compactwrap"),
        _ => (4, 14, "deepwrap"),
    };
    Params {
        k,
        queries,
        domain: format!("magnetar/pcs/{name}"),
    }
}

fn commit(n: usize, k: usize, base: &str, domain: &[u8], table: &[Word]) -> Commitment {
    let gammas = code::derive(n, k, base);
    let codeword = code::encode(n, k, &gammas, table);
    let domain = std::str::from_utf8(domain).expect("the base domain is text");
    let digests = tree::build(domain, width(codeword.len()), &codeword);
    Commitment {
        gammas,
        codeword,
        digests,
    }
}
