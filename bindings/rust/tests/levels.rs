//! Levels one at a time, as a protocol takes them that draws each challenge after the root before it, and some now and the rest later, as work that is
//! interrupted has them: they are those that `Deposit::fold` makes.

use dequmlo::code::InUse;
use dequmlo::tree::{fold_tree_width, level_domain, Tree};
use dequmlo::{
    Deposit, Folded, HalfFolded, Kept, NotTakenUp, Refusal, Root, Threads, Widths, Word,
};
use std::io;

const BASE: &[u8] = b"dequmlo/levels";

fn words(count: usize) -> Vec<Word> {
    (0..count as u128)
        .map(|i| Word(i * i * 0x9e37_79b9_7f4a_7c15 + 1))
        .collect()
}

#[test]
fn one_at_a_time_they_are_the_same() {
    for (widths, (n, k)) in Widths::ALL
        .into_iter()
        .flat_map(|widths| [(1, 0), (1, 4), (3, 1), (6, 2), (11, 4)].map(|shape| (widths, shape)))
    {
        let challenges = words(n);
        let deposit = Deposit::commit(None, BASE, widths, k, &words(1 << n)).unwrap();
        let mut codeword = InUse::committed(n, k, deposit.codeword());
        let mut roots = vec![deposit.root()];
        for (l, r) in challenges.iter().enumerate() {
            codeword.fold(0, *r).unwrap();
            assert_eq!(codeword.coordinates, (l + 1..n).collect::<Vec<_>>());
            let level = &codeword.words;
            let tree = Tree::of_level(None, BASE, widths, n, k, l + 1, level).unwrap();
            let domain = level_domain(BASE, l + 1).unwrap();
            let width = fold_tree_width(widths, level.len());
            assert_eq!(tree, Tree::build(None, &domain, width, level).unwrap());
            roots.push(tree.root());
        }
        let level = codeword.words;
        let folded = deposit.fold(&challenges).unwrap();
        assert_eq!(folded.roots(), roots, "{widths} n {n} k {k}");
        assert_eq!(folded.last_level(), level, "{widths} n {n} k {k}");
        assert_eq!(
            folded.tail().unwrap().words(),
            Some(level),
            "{widths} n {n} k {k}"
        );
    }
}

#[test]
fn a_level_s_domain() {
    assert_eq!(level_domain(b"d", 0).unwrap(), b"d/level/0");
    assert_eq!(level_domain(b"d", 20).unwrap(), b"d/level/20");
    assert_eq!(level_domain(b"", 9).unwrap(), b"/level/9");
    assert_eq!(level_domain(&[b'd'; 200], 10).unwrap().len(), 209);
}

fn number<T>(answer: Result<T, Refusal>) -> Option<u32> {
    answer.err().map(|refusal| refusal.number)
}

#[test]
fn what_is_no_level_is_refused() {
    assert_eq!(number(level_domain(b"d", 21)), Some(4));
    assert_eq!(number(level_domain(&[b'd'; 201], 0)), Some(7));
    let tree = |base: &[u8], n, k, l, count| {
        let answers =
            Widths::ALL.map(|set| number(Tree::of_level(None, base, set, n, k, l, &words(count))));
        assert_eq!(answers[0], answers[1], "n {n} k {k} level {l}");
        answers[0]
    };
    assert_eq!(tree(BASE, 3, 1, 3, 2), None);
    assert_eq!(tree(BASE, 0, 1, 0, 2), Some(4));
    assert_eq!(tree(BASE, 21, 1, 21, 2), Some(4));
    assert_eq!(tree(BASE, 3, 5, 3, 2), Some(4));
    assert_eq!(tree(BASE, 3, 1, 4, 1), Some(4));
    assert_eq!(tree(BASE, 3, 1, 2, 2), Some(5));
    assert_eq!(tree(&[b'd'; 201], 3, 1, 3, 2), Some(7));
    for count in [0, 2, 4] {
        let deposit = Deposit::commit(None, BASE, Widths::Wide, 1, &words(8)).unwrap();
        assert_eq!(number(deposit.fold(&words(count))), Some(5), "{count}");
    }
}

/// What is kept of a deposit folded part way: the lists, and the values of each level.
#[derive(Clone)]
struct Stored {
    lists: Kept,
    values: Vec<Vec<u8>>,
}

impl Stored {
    fn of(half: &HalfFolded) -> Stored {
        let values = (0..=half.level()).map(|level| half.values(level).to_vec());
        Stored {
            lists: half.kept(),
            values: values.collect(),
        }
    }

    fn take_up(&self, threads: Threads) -> Result<HalfFolded, NotTakenUp> {
        HalfFolded::take_up(threads, None, self.lists.clone(), |level, room| {
            let values = self.values.get(level).ok_or(io::ErrorKind::NotFound)?;
            room.copy_from_slice(values);
            Ok(())
        })
    }

    /// Puts the root of a level's values where the root of that level is kept, as somebody does who changes both.
    fn vouch(&mut self, level: usize) {
        let words: Vec<Word> = self.values[level]
            .chunks_exact(16)
            .map(|bytes| Word(u128::from_le_bytes(bytes.try_into().unwrap())))
            .collect();
        let Kept { n, k, widths, .. } = self.lists;
        let tree = Tree::of_level(None, &self.lists.base, widths, n, k, level, &words).unwrap();
        self.lists.roots[level] = tree.root();
    }
}

/// Whether two folded deposits show the same: roots, last level, tail and records.
fn same(one: &Folded, other: &Folded, places: usize) -> bool {
    one.roots() == other.roots()
        && one.last_level() == other.last_level()
        && one.tail().unwrap() == other.tail().unwrap()
        && [0, 1, places / 3, places - 1]
            .iter()
            .all(|place| one.query(*place).unwrap() == other.query(*place).unwrap())
}

#[test]
fn interrupted_at_any_level_they_are_the_same() {
    let shapes = [(1, 0), (1, 4), (3, 1), (6, 2), (13, 1)];
    for (widths, (n, k)) in Widths::ALL
        .into_iter()
        .flat_map(|widths| shapes.map(|shape| (widths, shape)))
    {
        let (table, challenges) = (words(1 << n), words(n));
        let commit = || Deposit::commit(None, BASE, widths, k, &table).unwrap();
        let whole = commit().fold(&challenges).unwrap();
        for threads in [1, 2].map(Threads::of) {
            let mut chain = commit().fold_until(threads, &[]).unwrap();
            for level in 0..=n {
                let said = format!("{widths} n {n} k {k} {threads:?} level {level}");
                let half = commit().fold_until(threads, &challenges[..level]).unwrap();
                assert_eq!(half.level(), level, "{said}");
                assert_eq!(half.coordinates(), (level..n).collect::<Vec<_>>(), "{said}");
                assert_eq!(half.roots(), whole.roots()[..=level], "{said}");
                let stored = Stored::of(&half);
                let taken_up = stored.take_up(threads).unwrap();
                assert_eq!(taken_up.codeword(), half.codeword(), "{said}");
                let folded = taken_up.fold_on(threads, &challenges[level..]).unwrap();
                assert!(same(&folded, &whole, 1 << (n + k)), "{said}");
                // The same level, reached by stopping at every one before.
                assert_eq!(chain.kept(), stored.lists, "{said}");
                chain = Stored::of(&chain).take_up(threads).unwrap();
                let next = &challenges[level..n.min(level + 1)];
                chain = chain.fold_further(threads, next).unwrap();
            }
            let folded = chain.fold_on(threads, &[]).unwrap();
            assert!(same(&folded, &whole, 1 << (n + k)), "{widths} n {n} k {k}");
        }
    }
}

/// A deposit of 32 words folded by three of its five challenges, stored. No challenge is 1, by which a pair folds to its second word alone.
fn stored() -> Stored {
    let deposit = Deposit::commit(None, BASE, Widths::Present, 1, &words(32)).unwrap();
    Stored::of(&deposit.fold_until(Threads::of(1), &words(4)[1..]).unwrap())
}

/// Why what was stored is not taken up, on one thread and on two.
fn refused(stored: &Stored) -> NotTakenUp {
    let [one, two] = [1, 2].map(|number| stored.take_up(Threads::of(number)).unwrap_err());
    assert_eq!(one.to_string(), two.to_string());
    one
}

#[test]
fn a_damaged_level_is_found_by_its_root() {
    for level in 0..=3 {
        for byte in [0, 17, stored().values[level].len() - 1] {
            let mut damaged = stored();
            damaged.values[level][byte] ^= 1;
            let why = refused(&damaged);
            assert!(matches!(why, NotTakenUp::Root(l) if l == level), "{why}");
        }
        let mut damaged = stored();
        damaged.lists.roots[level] = Root([7; 32]);
        let why = refused(&damaged);
        assert!(matches!(why, NotTakenUp::Root(l) if l == level), "{why}");
        assert_eq!(
            why.to_string(),
            format!("the values of level {level} do not have the root that was kept of them")
        );
    }
}

/// Values whose root was changed with them, and challenges that are not those that it was folded by.
#[test]
fn a_level_that_does_not_follow_is_found_by_the_fold() {
    for level in 1..=3 {
        let mut forged = stored();
        let last = forged.values[level].len() - 1;
        forged.values[level][last] ^= 1;
        forged.vouch(level);
        let why = refused(&forged);
        assert!(matches!(why, NotTakenUp::Fold(l) if l == level), "{why}");
        let mut other = stored();
        other.lists.challenges[level - 1] = Word(99);
        let why = refused(&other);
        assert!(matches!(why, NotTakenUp::Fold(l) if l == level), "{why}");
        assert_eq!(
            why.to_string(),
            format!("the values of level {level} are not those of the level before, folded by its challenge")
        );
    }
    // Another deposit's level 0 with a root of its own is another deposit: its level 1 does not follow.
    let mut forged = stored();
    forged.values[0][0] ^= 1;
    forged.vouch(0);
    assert!(matches!(refused(&forged), NotTakenUp::Fold(1)));
}

#[test]
fn lists_that_do_not_fit_are_refused() {
    let coordinates: [&[usize]; 6] = [&[4], &[3], &[4, 3], &[2, 3, 4], &[3, 3], &[3, usize::MAX]];
    for list in coordinates {
        let mut other = stored();
        other.lists.coordinates = list.to_vec();
        assert!(
            matches!(refused(&other), NotTakenUp::Coordinates),
            "{list:?}"
        );
    }
    let root = stored().lists.roots[0];
    for roots in [vec![], vec![root], vec![root; 3], vec![root; 5]] {
        let mut other = stored();
        other.lists.roots = roots;
        assert!(matches!(refused(&other), NotTakenUp::Roots));
    }
    type Change = fn(&mut Kept);
    let changes: [(Change, u32); 5] = [
        (|lists| lists.n = 0, 4),
        (|lists| lists.n = 21, 4),
        (|lists| lists.k = 5, 4),
        (|lists| lists.base = vec![b'd'; 201], 7),
        (|lists| lists.challenges = words(6), 5),
    ];
    for (change, number) in changes {
        let mut other = stored();
        change(&mut other.lists);
        let why = refused(&other);
        assert!(
            matches!(why, NotTakenUp::Refused(refusal) if refusal.number == number),
            "{why}"
        );
    }
    let mut missing = stored();
    missing.values.pop();
    assert!(matches!(refused(&missing), NotTakenUp::Unread(_)));
}

#[test]
fn a_fold_goes_on_by_the_challenges_that_are_left() {
    for threads in [1, 2].map(Threads::of) {
        for count in [0, 1, 3] {
            let half = stored().take_up(threads).unwrap();
            assert_eq!(number(half.fold_on(threads, &words(count))), Some(5));
        }
        let half = stored().take_up(threads).unwrap();
        assert_eq!(number(half.fold_further(threads, &words(3))), Some(5));
        let deposit = Deposit::commit(None, BASE, Widths::Wide, 1, &words(8)).unwrap();
        assert_eq!(number(deposit.fold_until(threads, &words(4))), Some(5));
    }
}
