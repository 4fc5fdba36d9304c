//! A deposit in the buffers of an earlier one is the deposit in new buffers, whatever widths, n and k the earlier one had.

use dequmlo::{
    Buffers, Deposit, Folded, QueryRecord, Root, Sizes, TailRecord, Threads, Widths, Word,
};

const BASE: &[u8] = b"dequmlo/buffers";

/// Words that differ from seed to seed, none of them zero.
fn words(count: usize, seed: u128) -> Vec<Word> {
    (0..count as u128)
        .map(|i| Word((i * i + seed).wrapping_mul(0x9e37_79b9_7f4a_7c15_f39c_c060_5ced_c835) | 1))
        .collect()
}

/// All that a deposit shows.
#[derive(PartialEq)]
struct Committed {
    root: Root,
    gammas: Vec<Word>,
    codeword: Vec<Word>,
}

impl Committed {
    fn of(deposit: &Deposit) -> Committed {
        Committed {
            root: deposit.root(),
            gammas: deposit.gammas(),
            codeword: deposit.codeword(),
        }
    }
}

/// All that a folded deposit shows, with records at a few positions.
#[derive(PartialEq)]
struct Shown {
    roots: Vec<Root>,
    last_level: Vec<Word>,
    tail: TailRecord,
    queries: Vec<QueryRecord>,
}

impl Shown {
    fn of(folded: &Folded, places: usize) -> Shown {
        let positions = [0, 1, places / 3, places - 1];
        Shown {
            roots: folded.roots(),
            last_level: folded.last_level(),
            tail: folded.tail().unwrap(),
            queries: positions.map(|p| folded.query(p).unwrap()).into(),
        }
    }
}

/// Large, then equal, smaller and larger in one way or all: 11, 4 has as many words as 12, 3 and more gammas, 13, 1 more variables and fewer words.
const SHAPES: [(usize, usize); 9] = [
    (12, 3),
    (12, 3),
    (5, 2),
    (1, 0),
    (11, 4),
    (13, 1),
    (1, 4),
    (13, 4),
    (6, 1),
];

#[test]
fn nothing_of_the_earlier_deposit_shows() {
    for threads in [1, 2, 3].map(Threads::of) {
        let mut buffers = Buffers::default();
        // One set after the other, so that each deposit lies where one of the other set was.
        let sets = Widths::ALL.into_iter().cycle();
        for ((seed, (n, k)), widths) in (1..).zip(SHAPES).zip(sets) {
            let said = format!("{widths} n {n} k {k} {threads:?}, deposit {seed}");
            let (table, challenges) = (words(1 << n, seed), words(n, 100 + seed));
            let new = Deposit::commit(None, BASE, widths, k, &table).unwrap();
            let kept = Deposit::commit_in(buffers, threads, None, BASE, widths, k, &table).unwrap();
            assert!(Committed::of(&kept) == Committed::of(&new), "{said}");
            let new = new.fold(&challenges).unwrap();
            let kept = kept.fold_on(threads, &challenges).unwrap();
            let places = 1 << (n + k);
            assert!(
                Shown::of(&kept, places) == Shown::of(&new, places),
                "{said}"
            );
            // Another deposit, which is not folded, leaves its buffers too.
            let table = words(1 << n, 200 + seed);
            buffers = kept.into_buffers();
            let other =
                Deposit::commit_in(buffers, threads, None, BASE, widths, k, &table).unwrap();
            buffers = other.into_buffers();
        }
    }
}

/// What a smaller deposit has taken over it leaves as large as it was, folded or not.
#[test]
fn larger_buffers_stay() {
    let widths = Widths::Present;
    let sizes = Sizes::of(widths, 6, 2).unwrap();
    let words_there = format!("levels_words: {}", sizes.levels_words);
    for threads in [1, 2, 3].map(Threads::of) {
        let large = Deposit::commit_on(threads, None, BASE, widths, 2, &words(64, 1)).unwrap();
        let buffers = large.into_buffers();
        let there = format!("{buffers:?}");
        assert!(there.contains(&words_there), "{there}");
        let small =
            Deposit::commit_in(buffers, threads, None, BASE, widths, 1, &words(4, 2)).unwrap();
        let buffers = small.into_buffers();
        assert_eq!(format!("{buffers:?}"), there);
        let small =
            Deposit::commit_in(buffers, threads, None, BASE, widths, 1, &words(4, 3)).unwrap();
        let folded = small.fold_on(threads, &words(2, 4)).unwrap();
        assert_eq!(format!("{:?}", folded.into_buffers()), there);
    }
}

/// In kept buffers the same is refused, with the same number.
#[test]
fn the_same_refusals() {
    let (long, widths) = ([b'd'; 201], Widths::Wide);
    for (base, k, count, number) in [
        (BASE, 5, 4, 4),
        (BASE, 1, 3, 5),
        (BASE, 1, 1, 4),
        (&long[..], 1, 4, 7),
    ] {
        for threads in [1, 2, 3].map(Threads::of) {
            let earlier = Deposit::commit(None, BASE, Widths::Present, 2, &words(64, 1)).unwrap();
            let buffers = earlier.into_buffers();
            let refused =
                Deposit::commit_in(buffers, threads, None, base, widths, k, &words(count, 2));
            assert_eq!(refused.err().unwrap().number, number, "k {k} count {count}");
        }
    }
    for threads in [1, 2, 3].map(Threads::of) {
        let buffers = Deposit::commit(None, BASE, widths, 2, &words(64, 1))
            .unwrap()
            .into_buffers();
        let deposit =
            Deposit::commit_in(buffers, threads, None, BASE, widths, 1, &words(8, 2)).unwrap();
        assert_eq!(
            deposit.fold_on(threads, &words(4, 3)).err().unwrap().number,
            5
        );
    }
}
