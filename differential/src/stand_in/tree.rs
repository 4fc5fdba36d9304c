//! Stand-ins for the hash and the trees. BLAKE3 itself is the Rust's: what is
//! tried here is how it is called, and the messages and the paths above it.

use super::Wrong;
use crate::tree::Tree;
use oracle::hash::blake3;
use oracle::{Digest, Word};

/// Written from the messages of SPECIFICATION 5.2 and 5.3.
pub const RIGHT: Tree = Tree {
    blake3: |bytes| (0, blake3(bytes)),
    serialize_parts: |parts| (0, serialized(parts.len(), parts)),
    leaf_digest: |domain, count, width, place, values| {
        (0, leaf(domain, count, width, place / width, values))
    },
    node_digest: |domain, level, left, right| (0, node(domain, level, left, right)),
    build: |domain, width, values| (0, build(domain, width, values)),
    open: |count, width, place, tree| (0, open(count, width, place, tree)),
    root_of_path,
};

pub const WRONG: &[Wrong<Tree>] = &[
    (
        "blake3",
        "wrong at one length alone, 1,025",
        Tree {
            blake3: |bytes| {
                let mut digest = blake3(bytes);
                digest[31] ^= u8::from(bytes.len() == 1025);
                (0, digest)
            },
            ..RIGHT
        },
    ),
    (
        "serialize_parts",
        "the count left out where there is one part",
        Tree {
            serialize_parts: |parts| {
                let skipped = if parts.len() == 1 { 8 } else { 0 };
                (0, serialized(parts.len(), parts)[skipped..].to_vec())
            },
            ..RIGHT
        },
    ),
    (
        "leaf_digest",
        "the place for the group",
        Tree {
            leaf_digest: |domain, count, width, place, values| {
                (0, leaf(domain, count, width, place, values))
            },
            ..RIGHT
        },
    ),
    (
        "leaf_digest",
        "8 in place of the width",
        Tree {
            leaf_digest: |domain, count, width, place, values| {
                (0, leaf_with(8, domain, count, width, place / width, values))
            },
            ..RIGHT
        },
    ),
    (
        "node_digest",
        "the children exchanged",
        Tree {
            node_digest: |domain, level, left, right| (0, node(domain, level, right, left)),
            ..RIGHT
        },
    ),
    (
        "build",
        "the level always 0",
        Tree {
            build: |domain, width, values| (0, build_with(domain, width, values, |_| 0)),
            ..RIGHT
        },
    ),
    (
        "open",
        "the node itself for its sibling",
        Tree {
            open: |count, width, place, tree| (0, open_with(count, width, place, tree, 0)),
            ..RIGHT
        },
    ),
    (
        "root_of_path",
        "the leaf always on the left",
        Tree {
            root_of_path: |domain, count, width, place, values, path| {
                let leaf = leaf(domain, count, width, place / width, values);
                (0, climb(domain, leaf, 0, path))
            },
            ..RIGHT
        },
    ),
];

fn number(x: usize) -> Vec<u8> {
    (x as u64).to_le_bytes().to_vec()
}

/// A part: its length, then its bytes.
fn part(bytes: &[u8]) -> Vec<u8> {
    [&number(bytes.len()), bytes].concat()
}

/// A count, then the parts.
fn serialized(count: usize, parts: &[&[u8]]) -> Vec<u8> {
    let parts = parts.iter().flat_map(|bytes| part(bytes));
    number(count).into_iter().chain(parts).collect()
}

fn leaf(domain: &str, count: usize, width: usize, group: usize, values: &[Word]) -> Digest {
    leaf_with(width, domain, count, width, group, values)
}

/// The leaf message; `before` stands before the group number.
fn leaf_with(
    before: usize,
    domain: &str,
    count: usize,
    width: usize,
    group: usize,
    values: &[Word],
) -> Digest {
    let bytes: Vec<u8> = values.iter().flat_map(|w| w.0.to_le_bytes()).collect();
    blake3(
        &[
            number(5),
            part(b"magnetar/leafN/v1"),
            part(domain.as_bytes()),
            part(&number(count)),
            part(&number(width)),
            number(before),
            number(group),
            part(&bytes), // its length is 16 × width
        ]
        .concat(),
    )
}

fn node(domain: &str, level: usize, left: &Digest, right: &Digest) -> Digest {
    blake3(
        &[
            number(5),
            part(b"magnetar/node/v1"),
            part(domain.as_bytes()),
            part(&number(level)),
            part(left),
            part(right),
        ]
        .concat(),
    )
}

pub fn build(domain: &str, width: usize, values: &[Word]) -> Vec<Digest> {
    build_with(domain, width, values, |level| level)
}

/// The digests, leaves first; `level` gives the number that a level's nodes have.
fn build_with(
    domain: &str,
    width: usize,
    values: &[Word],
    level: impl Fn(usize) -> usize,
) -> Vec<Digest> {
    let groups = values.chunks_exact(width).enumerate();
    let mut row: Vec<Digest> = groups
        .map(|(group, run)| leaf(domain, values.len(), width, group, run))
        .collect();
    let mut tree = row.clone();
    for height in 0.. {
        if row.len() == 1 {
            break;
        }
        row = row
            .chunks_exact(2)
            .map(|pair| node(domain, level(height), &pair[0], &pair[1]))
            .collect();
        tree.extend(&row);
    }
    tree
}

pub fn open(count: usize, width: usize, place: usize, tree: &[Digest]) -> Vec<Digest> {
    open_with(count, width, place, tree, 1)
}

/// A digest of each level but the last: the one beside the place's, as `beside` is 1.
fn open_with(
    count: usize,
    width: usize,
    place: usize,
    tree: &[Digest],
    beside: usize,
) -> Vec<Digest> {
    let (mut path, mut start) = (Vec::new(), 0);
    let (mut at, mut length) = (place / width, count / width);
    while length > 1 {
        path.push(tree[start + (at ^ beside)]);
        start += length;
        at /= 2;
        length /= 2;
    }
    path
}

fn root_of_path(
    domain: &str,
    count: usize,
    width: usize,
    place: usize,
    values: &[Word],
    path: &[Digest],
) -> (u64, Digest) {
    let group = place / width;
    let leaf = leaf(domain, count, width, group, values);
    (0, climb(domain, leaf, group, path))
}

fn climb(domain: &str, leaf: Digest, group: usize, path: &[Digest]) -> Digest {
    let levels = path.iter().enumerate();
    levels.fold(leaf, |digest, (level, sibling)| match group >> level & 1 {
        0 => node(domain, level, &digest, sibling),
        _ => node(domain, level, sibling, &digest),
    })
}
