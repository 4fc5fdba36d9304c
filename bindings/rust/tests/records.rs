//! Seals of every small shape, under both sets of widths: built records are accepted, and those of another position, challenge, root, claim or set
//! are refused by the check that this breaks.

use dequmlo::tree::{fold_tree_width, level_domain, root_of_path};
use dequmlo::{Deposit, Folded, QueryRecord, Refusal, Root, Statement, TailRecord, Widths, Word};

const BASE: &[u8] = b"dequmlo/records";

/// Words that look random, the same in every run.
fn words(count: usize, seed: u128) -> Vec<Word> {
    let mut x = seed;
    let mut next = || {
        x = x
            .wrapping_mul(0x2360ed051fc65da44385df649fccf645)
            .wrapping_add(0x5851f42d4c957f2d14057b7ef767814f);
        Word(x ^ x >> 64)
    };
    (0..count).map(|_| next()).collect()
}

struct Sealed {
    challenges: Vec<Word>,
    folded: Folded,
    statement: Statement,
}

fn sealed(widths: Widths, n: usize, k: usize) -> Result<Sealed, Refusal> {
    let challenges = words(n, 7);
    let folded = Deposit::commit(None, BASE, widths, k, &words(1 << n, 3))?.fold(&challenges)?;
    let statement = Statement::new(None, BASE, widths, n, k, &challenges, &folded.roots())?;
    Ok(Sealed {
        challenges,
        folded,
        statement,
    })
}

fn refused(number: u32, level: Option<u32>) -> Result<(), Refusal> {
    Err(Refusal { number, level })
}

/// Each set of widths with each n up to the most, and each k.
fn shapes(most: usize) -> impl Iterator<Item = (Widths, usize, usize)> {
    let under = move |set| (1..=most).flat_map(move |n| (0..=4).map(move |k| (set, n, k)));
    Widths::ALL.into_iter().flat_map(under)
}

#[test]
fn built_records_are_accepted_at_every_position() {
    for (widths, n, k) in shapes(4) {
        let s = sealed(widths, n, k).unwrap();
        for position in 0..1 << (n + k) {
            assert_eq!(
                s.statement
                    .check_query(position, &s.folded.query(position).unwrap()),
                Ok(()),
                "{widths} n {n} k {k} at {position}"
            );
        }
        assert_eq!(
            s.statement
                .check_tail(s.folded.claim(), &s.folded.tail().unwrap()),
            Ok(()),
            "{widths} n {n} k {k}"
        );
    }
}

#[test]
fn a_large_seal_too() {
    for widths in Widths::ALL {
        let s = sealed(widths, 12, 4).unwrap();
        for position in [0, 1, 4095, 4096, 40_000, (1 << 16) - 1] {
            let record = s.folded.query(position).unwrap();
            assert_eq!(record.bytes().len(), s.statement.sizes().query_bytes);
            assert_eq!(s.statement.check_query(position, &record), Ok(()));
        }
        let tail = s.folded.tail().unwrap();
        assert_eq!(tail.bytes().len(), s.statement.sizes().tail_bytes);
        assert_eq!(s.statement.check_tail(s.folded.claim(), &tail), Ok(()));
    }
}

/// The first question that a record of the other set fails is 16, by the width of the first group, and 27 for a tail. Where no level has 16 words, the
/// two sets are one.
#[test]
fn a_record_of_the_other_set_is_refused() {
    let of_the_other = |widths, n, k, position| {
        let (own, other) = match widths {
            Widths::Present => (Widths::Present, Widths::Wide),
            Widths::Wide => (Widths::Wide, Widths::Present),
        };
        let (s, other) = (sealed(own, n, k).unwrap(), sealed(other, n, k).unwrap());
        let query = other.folded.query(position).unwrap();
        let tail = other.folded.tail().unwrap();
        assert_eq!(other.folded.claim(), s.folded.claim());
        (
            s.statement.check_query(position, &query),
            s.statement.check_tail(s.folded.claim(), &tail),
            s.folded.roots()[0] == other.folded.roots()[0],
        )
    };
    for (widths, n, k) in shapes(6) {
        let (query, tail, root) = of_the_other(widths, n, k, (1 << (n + k)) - 1);
        let differs = n + k >= 4;
        let expected = if differs {
            refused(16, Some(0))
        } else {
            Ok(())
        };
        assert_eq!((query, root), (expected, !differs), "{widths} n {n} k {k}");
        let expected = if k == 4 { refused(27, None) } else { Ok(()) };
        assert_eq!(tail, expected, "{widths} n {n} k {k}");
    }
}

/// SPECIFICATION 12.5 and 12.8 have what the library gives.
#[test]
fn the_deposit_of_the_specification() {
    let page = concat!(env!("CARGO_MANIFEST_DIR"), "/../../docs/SPECIFICATION.md");
    let page = std::fs::read_to_string(page).unwrap();
    let table: Vec<Word> = (1..=32u128).map(Word).collect();
    let challenges: Vec<Word> = (2..=6u128).map(Word).collect();
    for (widths, heading) in [
        (Widths::Present, "\n### 12.5 "),
        (Widths::Wide, "\n### 12.8 "),
    ] {
        let (_, section) = page.split_once(heading).unwrap();
        let (section, _) = section.split_once("\n#").unwrap();
        let deposit = Deposit::commit(None, b"magnetar/pcs/balanced", widths, 2, &table).unwrap();
        let folded = deposit.fold(&challenges).unwrap();
        let said = |what: String| assert!(section.contains(&what), "{widths}: no {what}");
        let roots = folded.roots().into_iter().enumerate();
        // The two last levels are the same in both sets, and stand in the first section.
        for (l, root) in roots.filter(|(l, _)| widths == Widths::Present || *l < 4) {
            said(format!("| root of level {l} | {root} |"));
        }
        let record = folded.query(77).unwrap();
        let digest = Root(dequmlo::digest(record.bytes()).unwrap());
        said(format!(" bytes | {digest} |"));
    }
}

/// What a long run on a disk is: a group of the wide set has 512 bytes, one of the present set 128.
#[test]
fn a_group_has_the_width_of_its_set() {
    for (widths, n, k) in shapes(8) {
        let s = sealed(widths, n, k).unwrap();
        let levels = s.folded.query(0).unwrap().levels().unwrap();
        for (l, shown) in levels.iter().enumerate() {
            let width = |l: usize| fold_tree_width(widths, 1 << (n + k - l));
            let groups = (shown.a_group.len(), shown.c_group.len());
            assert_eq!(groups, (width(l), width(l + 1)), "{widths} n {n} k {k}");
        }
    }
}

#[test]
fn what_belongs_elsewhere_is_refused_by_the_check_that_it_breaks() {
    for widths in Widths::ALL {
        broken_by_what_belongs_elsewhere(widths, 6, 1);
    }
}

fn broken_by_what_belongs_elsewhere(widths: Widths, n: usize, k: usize) {
    let s = sealed(widths, n, k).unwrap();
    let roots = s.folded.roots();
    let record = s.folded.query(5).unwrap();
    assert_eq!(s.statement.check_query(69, &record), refused(18, Some(0)));
    assert_eq!(s.statement.check_query(128, &record), refused(11, None));
    for l in 0..n {
        let mut other = s.challenges.clone();
        other[l].0 ^= 1;
        let statement = Statement::new(None, BASE, widths, n, k, &other, &roots).unwrap();
        assert_eq!(
            statement.check_query(5, &record),
            refused(26, Some(l as u32))
        );
        let mut other = roots.clone();
        other[l + 1] = Root([0; 32]);
        let statement = Statement::new(None, BASE, widths, n, k, &s.challenges, &other).unwrap();
        assert_eq!(
            statement.check_query(5, &record),
            refused(24, Some(l as u32))
        );
    }
    let tail = s.folded.tail().unwrap();
    assert_eq!(
        s.statement.check_tail(Word(s.folded.claim().0 ^ 1), &tail),
        refused(31, None)
    );
    assert_eq!(
        s.statement
            .check_tail(s.folded.claim(), &record.bytes().to_vec().into()),
        refused(14, None)
    );
}

#[test]
fn what_a_record_shows() {
    for widths in Widths::ALL {
        shown_under(widths, 5, 2, 77);
    }
}

fn shown_under(widths: Widths, n: usize, k: usize, position: usize) {
    let s = sealed(widths, n, k).unwrap();
    let levels = s.folded.query(position).unwrap().levels().unwrap();
    assert_eq!(levels.len(), n);
    for (l, shown) in levels.iter().enumerate() {
        let (place, count, width) = (position >> l, 1 << (n + k - l), shown.a_group.len());
        let pair = place % width / 2 * 2;
        assert_eq!(
            (shown.a_group[pair], shown.a_group[pair + 1]),
            (shown.a, shown.b)
        );
        assert!(shown.c_group.contains(&shown.c));
        let domain = level_domain(BASE, l).unwrap();
        let root = root_of_path(
            None,
            &domain,
            count,
            width,
            place,
            &shown.a_group,
            &shown.a_path,
        );
        assert_eq!(root.unwrap(), s.folded.roots()[l]);
        if let Some(next) = levels.get(l + 1) {
            assert_eq!(
                (&shown.c_group, &shown.c_path),
                (&next.a_group, &next.a_path)
            );
        }
    }
    assert_eq!(
        s.folded.tail().unwrap().words(),
        Some(s.folded.last_level())
    );
}

#[test]
fn a_record_that_does_not_read_whole_shows_nothing() {
    let s = sealed(Widths::Present, 2, 3).unwrap();
    let (query, tail) = (s.folded.query(9).unwrap(), s.folded.tail().unwrap());
    assert_eq!(tail.words().map(|words| words.len()), Some(8));
    for length in 0..query.bytes().len() {
        let cut = query.bytes()[..length].to_vec();
        assert_eq!(QueryRecord::from(cut).levels(), None, "{length}");
    }
    for length in 0..tail.bytes().len() {
        let cut = tail.bytes()[..length].to_vec();
        assert_eq!(TailRecord::from(cut).words(), None, "{length}");
    }
    let longer = |bytes: &[u8]| [bytes, &[0]].concat();
    assert_eq!(QueryRecord::from(longer(query.bytes())).levels(), None);
    assert_eq!(TailRecord::from(longer(tail.bytes())).words(), None);
    assert_eq!(QueryRecord::from(vec![255; 64]).levels(), None);
    assert_eq!(TailRecord::from(vec![255; 64]).words(), None);
}

#[test]
fn comparing_equal_or_refused_records() {
    let s = sealed(Widths::Wide, 6, 1).unwrap();
    let (five, four) = (s.folded.query(5).unwrap(), s.folded.query(9).unwrap());
    assert_eq!(s.statement.compare(5, &five, &five).unwrap_err().number, 33);
    assert_eq!(s.statement.compare(5, &five, &four).unwrap_err().number, 32);
    assert_eq!(s.statement.compare(5, &four, &five).unwrap_err().number, 32);
}

#[test]
fn what_is_refused_before_a_record_is_read() {
    let roots = vec![Root([0; 32]); 4];
    let new = |n, k, base: &[u8], challenges: usize, roots: &[Root]| {
        Statement::new(None, base, Widths::Wide, n, k, &words(challenges, 1), roots)
            .err()
            .map(|r| r.number)
    };
    assert_eq!(new(3, 1, BASE, 3, &roots), None);
    assert_eq!(new(0, 1, BASE, 0, &roots[..1]), Some(4));
    assert_eq!(new(21, 1, BASE, 21, &roots), Some(4));
    assert_eq!(new(3, 5, BASE, 3, &roots), Some(4));
    assert_eq!(new(3, 1, BASE, 2, &roots), Some(5));
    assert_eq!(new(3, 1, BASE, 3, &roots[..3]), Some(5));
    assert_eq!(new(3, 1, &[b'd'; 200], 3, &roots), None);
    assert_eq!(new(3, 1, &[b'd'; 201], 3, &roots), Some(7));
    assert_eq!(
        Deposit::commit(None, &[b'd'; 201], Widths::Present, 1, &words(8, 1))
            .err()
            .map(|r| r.number),
        Some(7)
    );
    assert_eq!(
        Deposit::commit(None, BASE, Widths::Present, 1, &words(7, 1))
            .err()
            .map(|r| r.number),
        Some(5)
    );
    assert_eq!(
        Deposit::commit(None, BASE, Widths::Present, 1, &words(1, 1))
            .err()
            .map(|r| r.number),
        Some(4)
    );
}

#[test]
fn several_threads_at_once() {
    let s = sealed(Widths::Wide, 6, 2).unwrap();
    std::thread::scope(|scope| {
        for thread in 0..4 {
            let s = &s;
            scope.spawn(move || {
                for position in (thread..256).step_by(4) {
                    let record = s.folded.query(position).unwrap();
                    assert_eq!(s.statement.check_query(position, &record), Ok(()));
                }
            });
        }
    });
}
