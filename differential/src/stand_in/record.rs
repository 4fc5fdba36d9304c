//! Stand-ins for the records. The right checks are the Rust's own: what is tried
//! here is whether the cases tell a wrong check from it.

use super::Wrong;
use crate::record::Record;
use oracle::query::{check_query_bytes, check_tail_bytes, fold_tree_width};
use oracle::record::{Group, Level, Query, Tail};
use oracle::{Digest, Word};

pub const RIGHT: Record = Record {
    check_query: |claim, position, bytes| {
        let answer = check_query_bytes(claim, position, bytes);
        (answer.number, answer.level)
    },
    check_tail: check_tail_bytes,
    build_query: |n, k, words, trees, position| (0, query(n, k, words, trees, position, 0)),
    build_tail: |_, _, level, tree| {
        let width = fold_tree_width(level.len());
        let groups = level.chunks_exact(width).enumerate();
        let group = |(group, values): (usize, &[Word])| Group {
            values: values.to_vec(),
            path: super::tree::open(level.len(), width, group * width, tree),
        };
        let groups = groups.map(group).collect();
        (0, Tail { groups }.to_bytes())
    },
};

pub const WRONG: &[Wrong<Record>] = &[
    (
        "check_query",
        "levels past the first waved through",
        Record {
            check_query: |claim, position, bytes| {
                let answer = (RIGHT.check_query)(claim, position, bytes);
                if answer.1 > 0 {
                    (0, 0)
                } else {
                    answer
                }
            },
            ..RIGHT
        },
    ),
    (
        "check_query",
        "the level left out",
        Record {
            check_query: |claim, position, bytes| {
                ((RIGHT.check_query)(claim, position, bytes).0, 0)
            },
            ..RIGHT
        },
    ),
    (
        "check_tail",
        "bytes after the record allowed",
        Record {
            check_tail: |n, k, domain, root, claim, bytes| {
                let whole = (0..=bytes.len())
                    .rev()
                    .find(|&end| Tail::from_bytes(&bytes[..end]).is_some());
                let bytes = &bytes[..whole.unwrap_or(bytes.len())];
                check_tail_bytes(n, k, domain, root, claim, bytes)
            },
            ..RIGHT
        },
    ),
    (
        "build_query",
        "c's group taken from its own level",
        Record {
            build_query: |n, k, words, trees, position| (0, query(n, k, words, trees, position, 1)),
            ..RIGHT
        },
    ),
    (
        "build_tail",
        "nothing written",
        Record {
            build_tail: |n, k, level, tree| {
                let (number, bytes) = (RIGHT.build_tail)(n, k, level, tree);
                (number, vec![0; bytes.len()])
            },
            ..RIGHT
        },
    ),
];

/// The record at a position, from levels and trees end to end; c's group is read
/// `back` levels before the next.
fn query(
    n: usize,
    k: usize,
    words: &[Word],
    trees: &[Digest],
    position: usize,
    back: usize,
) -> Vec<u8> {
    let (mut levels, mut words, mut trees) = (Vec::new(), words, trees);
    for level in 0..=n {
        let count = 1 << (n + k - level);
        let (values, tree);
        (values, words) = words.split_at(count);
        (tree, trees) = trees.split_at(2 * (count / fold_tree_width(count)) - 1);
        levels.push((values, tree));
    }
    // The group and path of a place of a level; the group's values from another.
    let opened = |level: usize, from: usize, place: usize| {
        let (values, tree) = levels[level];
        let width = fold_tree_width(values.len());
        let group = place / width * width;
        let path = super::tree::open(values.len(), width, place, tree);
        (levels[from].0[group..group + width].to_vec(), path)
    };
    let level = |l: usize| {
        let q = position >> (l + 1);
        let (a_group, a_path) = opened(l, l, 2 * q);
        let (c_group, c_path) = opened(l + 1, l + 1 - back, q);
        Level {
            a: levels[l].0[2 * q],
            b: levels[l].0[2 * q + 1],
            c: levels[l + 1].0[q],
            a_group,
            c_group,
            a_path,
            c_path,
        }
    };
    let levels = (0..n).map(level).collect();
    Query { levels }.to_bytes()
}
