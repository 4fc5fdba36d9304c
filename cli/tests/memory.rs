//! Committing takes the memory that it lends to the library, and little else. This file has one test, since the system tells only how large the largest
//! of all programs was that a process has started.

mod desk;

use dequmlo::{Sizes, Widths};
use desk::Desk;
use std::fs::File;
use std::os::raw::{c_int, c_long};

extern "C" {
    fn getrusage(who: c_int, usage: *mut c_long) -> c_int;
}

const RUSAGE_CHILDREN: c_int = -1;

/// The most bytes in memory of a program that this one has started and that has ended.
fn largest() -> usize {
    // Two times of two numbers each, then the size in KiB, and 13 more.
    let mut usage = [0; 18];
    assert_eq!(unsafe { getrusage(RUSAGE_CHILDREN, usage.as_mut_ptr()) }, 0);
    1024 * usize::try_from(usage[4]).unwrap()
}

/// A tenth more than is lent, at n 18 and k 2, beside what sealing a byte takes: a copy of the table would be a seventh.
#[test]
fn a_commitment_takes_what_is_lent() {
    let desk = Desk::new("memory");
    desk.write("small", b"a");
    desk.run("commit small").says(0, &["sealed"]);
    let program = largest();
    // Zeros, of which none is in this program's memory.
    let large = File::create(desk.path("large")).unwrap();
    large.set_len(16 * ((1 << 18) - 1)).unwrap();
    for threads in ["--threads 1", "--threads 2", "--threads 8"] {
        desk.run(&format!(
            "commit large --profile balanced --force {threads}"
        ))
        .says(0, &["(n = 18, k = 2, present widths)"]);
    }
    let sizes = Sizes::of(Widths::Present, 18, 2).unwrap();
    let words = sizes.table_words + sizes.gamma_words + sizes.codeword_words;
    let lent = 16 * words + sizes.tree_bytes;
    let taken = largest() - program;
    assert!(
        10 * taken <= 11 * lent,
        "{taken} bytes, and {lent} are lent"
    );
    // The system counts pages in batches, and a batch that is not counted yet is missing here.
    assert!(
        10 * taken >= 9 * lent,
        "{taken} bytes, and {lent} are lent: the measure is wrong"
    );
}
