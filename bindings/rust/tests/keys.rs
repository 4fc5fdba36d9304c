//! Deposits under a key: nobody without it makes a root or has a record accepted; what is no digest of a tree is the same under every key; and a key
//! shows nothing of itself.

use dequmlo::tree::{leaves, level_domain, parents, root_of_path, Tree};
use dequmlo::{
    keyed_digest, Buffers, Deposit, Folded, HalfFolded, Key, NotTakenUp, QueryRecord, Refusal,
    Root, Statement, Threads, Widths, Word,
};

const BASE: &[u8] = b"dequmlo/keys";

fn words(count: usize) -> Vec<Word> {
    (0..count as u128)
        .map(|i| Word((i * i + 3).wrapping_mul(0x9e37_79b9_7f4a_7c15_f39c_c060_5ced_c835) | 1))
        .collect()
}

/// A key, the same with its last bit changed, and zeros, which are a key too.
fn keys() -> [Key; 3] {
    let bytes: [u8; 32] = std::array::from_fn(|i| (11 * i + 5) as u8);
    let mut other = bytes;
    other[31] ^= 0x80;
    [bytes, other, [0; 32]].map(Key::new)
}

/// No key, and each of these.
fn or_none(keys: &[Key; 3]) -> [Option<&Key>; 4] {
    [None, Some(&keys[0]), Some(&keys[1]), Some(&keys[2])]
}

fn shapes() -> impl Iterator<Item = (Widths, usize, usize)> {
    let under = |widths| [(1, 0), (1, 4), (3, 1), (6, 2)].map(|(n, k)| (widths, n, k));
    Widths::ALL.into_iter().flat_map(under)
}

fn commit(key: Option<&Key>, widths: Widths, n: usize, k: usize) -> Deposit {
    Deposit::commit(key, BASE, widths, k, &words(1 << n)).unwrap()
}

/// The digest of the input of so many bytes that the published vectors have.
fn published(count: usize) -> Vec<u8> {
    (0..count).map(|i| (i % 251) as u8).collect()
}

/// The vectors that are published with BLAKE3 (test_vectors.json, by its key and its context), as far as SPECIFICATION 12.9 has them.
#[test]
fn the_published_vectors() {
    let page = concat!(env!("CARGO_MANIFEST_DIR"), "/../../docs/SPECIFICATION.md");
    let page = std::fs::read_to_string(page).unwrap();
    let (_, section) = page.split_once("\n### 12.9 ").unwrap();
    let (section, _) = section.split_once("\n#").unwrap();
    let key = Key::new(*b"whats the Elvish word for friend");
    let context = "BLAKE3 2019-12-27 16:29:52 test vectors context";
    for count in [0, 1, 1023, 1024, 1025, 2049, 3073] {
        let input = published(count);
        let keyed = Root(keyed_digest(&key, &input).unwrap());
        let derived = Root(*Key::derive(context, &input).unwrap().bytes());
        let row = format!("| {count} | {keyed} | {derived} |\n");
        assert!(section.contains(&row), "{row}");
    }
}

#[test]
fn every_root_is_another_under_every_key() {
    let keys = keys();
    for (widths, n, k) in shapes() {
        let roots = or_none(&keys).map(|key| {
            let folded = commit(key, widths, n, k).fold(&words(n)).unwrap();
            folded.roots()
        });
        for level in 0..=n {
            for (i, one) in roots.iter().enumerate() {
                for other in &roots[..i] {
                    assert_ne!(
                        one[level], other[level],
                        "{widths} n {n} k {k} level {level}"
                    );
                }
            }
        }
    }
}

/// Gammas, codeword, levels and claim, and the words that a record shows.
#[test]
fn what_is_no_digest_is_the_same_under_every_key() {
    let keys = keys();
    for (widths, n, k) in shapes() {
        let plain = commit(None, widths, n, k);
        let (gammas, codeword) = (plain.gammas(), plain.codeword());
        let plain = plain.fold(&words(n)).unwrap();
        for key in or_none(&keys) {
            let deposit = commit(key, widths, n, k);
            assert_eq!(deposit.gammas(), gammas);
            assert_eq!(deposit.codeword(), codeword);
            let folded = deposit.fold(&words(n)).unwrap();
            assert_eq!(folded.last_level(), plain.last_level());
            assert_eq!(
                folded.tail().unwrap().words(),
                plain.tail().unwrap().words()
            );
            let shown = |folded: &Folded| {
                let levels = folded.query(1).unwrap().levels().unwrap();
                let words = |l: &dequmlo::ShownLevel| (l.a, l.b, l.c, l.a_group.clone());
                levels.iter().map(words).collect::<Vec<_>>()
            };
            assert_eq!(shown(&folded), shown(&plain));
        }
    }
}

/// What a statement answers to a query record at position 1, to a tail and to the record beside itself.
fn answers(statement: &Statement, folded: &Folded) -> [Result<(), Refusal>; 3] {
    let record: QueryRecord = folded.query(1).unwrap();
    [
        statement.check_query(1, &record),
        statement.check_tail(folded.claim(), &folded.tail().unwrap()),
        statement.compare(1, &record, &record).map(|_| ()),
    ]
}

#[test]
fn a_record_is_accepted_under_its_own_key_alone() {
    let keys = keys();
    let refused = |number, level| Err(Refusal { number, level });
    for (widths, n, k) in shapes() {
        for (i, made) in or_none(&keys).into_iter().enumerate() {
            let folded = commit(made, widths, n, k).fold(&words(n)).unwrap();
            for (j, given) in or_none(&keys).into_iter().enumerate() {
                let roots = folded.roots();
                let statement =
                    Statement::new(given, BASE, widths, n, k, &words(n), &roots).unwrap();
                let expected = if i == j {
                    [Ok(()), Ok(()), refused(33, None)]
                } else {
                    [refused(18, Some(0)), refused(30, None), refused(32, None)]
                };
                assert_eq!(
                    answers(&statement, &folded),
                    expected,
                    "{widths} n {n} k {k}: made under {i}, checked under {j}"
                );
            }
        }
    }
}

/// Also in the buffers of a deposit under another key.
#[test]
fn every_number_of_threads_gives_the_same_bytes() {
    let keys = keys();
    for (widths, n, k) in [
        (Widths::Present, 13, 1),
        (Widths::Wide, 13, 1),
        (Widths::Wide, 1, 0),
    ] {
        let mut buffers = Buffers::default();
        for key in or_none(&keys) {
            let one = commit(key, widths, n, k).fold(&words(n)).unwrap();
            for threads in [1, 2, 3, 64].map(Threads::of) {
                let table = words(1 << n);
                let deposit =
                    Deposit::commit_in(buffers, threads, key, BASE, widths, k, &table).unwrap();
                assert_eq!(deposit.root(), one.roots()[0], "{widths} n {n} {threads:?}");
                let folded = deposit.fold_on(threads, &words(n)).unwrap();
                assert_eq!(folded.roots(), one.roots(), "{widths} n {n} {threads:?}");
                assert_eq!(folded.query(1).unwrap(), one.query(1).unwrap());
                assert_eq!(folded.tail().unwrap(), one.tail().unwrap());
                buffers = folded.into_buffers();
            }
        }
    }
}

/// A fold in two runs under a key gives what one run gives. Under another key, or none, what was kept is not taken up.
#[test]
fn interrupted_work_is_taken_up_under_its_own_key_alone() {
    let keys = keys();
    let (widths, n, k, one) = (Widths::Present, 6, 2, Threads::of(1));
    for (i, made) in or_none(&keys).into_iter().enumerate() {
        let whole = commit(made, widths, n, k).fold(&words(n)).unwrap();
        for level in [0, 2, n] {
            let half = commit(made, widths, n, k)
                .fold_until(one, &words(n)[..level])
                .unwrap();
            let values: Vec<Vec<u8>> = (0..=level).map(|l| half.values(l).to_vec()).collect();
            for (j, given) in or_none(&keys).into_iter().enumerate() {
                let read = |l: usize, room: &mut [u8]| {
                    room.copy_from_slice(&values[l]);
                    Ok(())
                };
                let taken_up = HalfFolded::take_up(one, given, half.kept(), read);
                match taken_up {
                    Ok(half) => {
                        assert_eq!(i, j, "level {level}");
                        let folded = half.fold_on(one, &words(n)[level..]).unwrap();
                        assert_eq!(folded.roots(), whole.roots());
                        assert_eq!(folded.query(5).unwrap(), whole.query(5).unwrap());
                    }
                    Err(why) => {
                        assert_ne!(i, j, "level {level}");
                        assert!(matches!(why, NotTakenUp::Root(0)), "{why}");
                    }
                }
            }
        }
    }
}

#[test]
fn trees_of_any_width_and_their_parts() {
    let keys = keys();
    let (values, domain) = (words(32), level_domain(BASE, 0).unwrap());
    let mut roots = Vec::new();
    for key in or_none(&keys) {
        let tree = Tree::build(key, &domain, 4, &values).unwrap();
        let digests = tree.digests().to_vec();
        assert_eq!(
            leaves(key, &domain, 4, &values, 3..5).unwrap(),
            digests[96..160]
        );
        assert_eq!(
            parents(key, &domain, 0, &digests[..64]).unwrap(),
            digests[256..288]
        );
        let path = tree.open(9).unwrap();
        for other in or_none(&keys) {
            let root = root_of_path(other, &domain, 32, 4, 9, &values[8..12], &path).unwrap();
            assert_eq!(root == tree.root(), other == key);
        }
        let level = Tree::of_level(key, BASE, Widths::Present, 4, 1, 0, &values).unwrap();
        let whole = Deposit::commit(key, BASE, Widths::Present, 1, &values[..16]).unwrap();
        assert_ne!(level.root(), whole.root());
        let own = Tree::of_level(key, BASE, Widths::Present, 4, 1, 0, &whole.codeword()).unwrap();
        assert_eq!(own.root(), whole.root());
        roots.push(tree.root());
    }
    roots.dedup();
    assert_eq!(roots.len(), 4);
}

#[test]
fn a_key_is_32_bytes() {
    for count in (0..=64).filter(|count| *count != 32) {
        assert_eq!(Key::from_bytes(&vec![7; count]).unwrap_err().number, 5);
    }
    assert_eq!(Key::from_bytes(&[7; 32]).unwrap().bytes(), &[7; 32]);
}

/// One byte more than 2^24 of the context or of the material.
#[test]
fn a_context_and_its_material_are_bounded() {
    let (most, long) = (vec![b'm'; 1 << 24], vec![b'm'; (1 << 24) + 1]);
    let text = |bytes: &[u8]| String::from_utf8(bytes.to_vec()).unwrap();
    assert!(Key::derive(&text(&most), &most).is_ok());
    assert_eq!(Key::derive(&text(&long), b"").unwrap_err().number, 13);
    assert_eq!(Key::derive("", &long).unwrap_err().number, 13);
    assert_eq!(keyed_digest(&keys()[0], &long).unwrap_err().number, 13);
}

/// Another context or other material gives another key, and a text that moves from one to the other too.
#[test]
fn what_is_derived_depends_on_both() {
    let derived = |context, material: &[u8]| Key::derive(context, material).unwrap();
    let key = derived("context", b"material");
    assert!(key == derived("context", b"material"));
    for (context, material) in [
        ("Context", &b"material"[..]),
        ("context", b"Material"),
        ("contextm", b"aterial"),
        ("", b"contextmaterial"),
        ("material", b"context"),
    ] {
        assert!(key != derived(context, material), "{context}");
    }
}

#[test]
fn keys_are_equal_where_every_byte_is() {
    let key = Key::new([7; 32]);
    assert!(key == Key::new([7; 32]) && key == key.clone());
    for bit in 0..256 {
        let mut bytes = [7; 32];
        bytes[bit / 8] ^= 1 << (bit % 8);
        assert!(key != Key::new(bytes), "bit {bit}");
    }
}

/// Neither a key nor what keeps one is printed with any of its bytes. These are 199, which nothing else here is.
#[test]
fn nothing_that_is_printed_has_the_key() {
    let key = Key::new([199; 32]);
    assert_eq!(format!("{key:?}"), "Key(not shown)");
    let deposit = || commit(Some(&key), Widths::Present, 3, 1);
    let half = deposit().fold_until(Threads::of(1), &words(1)).unwrap();
    let roots = vec![Root([0; 32]); 4];
    let challenges = vec![Word(0); 3];
    let statement =
        Statement::new(Some(&key), BASE, Widths::Present, 3, 1, &challenges, &roots).unwrap();
    for shown in [
        format!("{:#?}", Some(&key)),
        format!("{:?}", deposit()),
        format!("{half:?}"),
        format!("{:?}", half.kept().base),
        format!("{statement:?}"),
    ] {
        for digits in ["199", "c7c7", "C7C7", "0xc7"] {
            assert!(!shown.contains(digits), "{shown}");
        }
    }
}

/// A statement under another key is another statement.
#[test]
fn statements_differ_by_their_keys() {
    let keys = keys();
    let roots = vec![Root([0; 32]); 4];
    let statements = or_none(&keys)
        .map(|key| Statement::new(key, BASE, Widths::Wide, 3, 1, &words(3), &roots).unwrap());
    for (i, one) in statements.iter().enumerate() {
        for (j, other) in statements.iter().enumerate() {
            assert_eq!(one == other, i == j);
        }
    }
}
