//! Records built and checked by the Rust: two ways of building agree, every
//! number is met at the level where the damage is, and the stand-in transcript
//! answers as the published one does.

use crate::support::{start, Random};
use oracle::query::{self, Answer, Claim, Levels};
use oracle::record::{Group, Level, Query, Tail};
use oracle::Word;

struct Case {
    n: usize,
    k: usize,
    table: Vec<Word>,
    challenges: Vec<Word>,
    levels: Levels,
}

const DOMAIN: &str = "test";

impl Case {
    fn new(random: &mut Random, n: usize, k: usize) -> Case {
        let (table, challenges) = (random.words(1 << n), random.words(n));
        let levels = Levels::of(k, DOMAIN, &table, &challenges);
        Case {
            n,
            k,
            table,
            challenges,
            levels,
        }
    }

    fn check(&self, position: usize, record: &Query) -> Answer {
        self.with_claim(|claim| query::check_query_bytes(claim, position, &record.to_bytes()))
    }

    fn with_claim<T>(&self, call: impl Fn(&Claim) -> T) -> T {
        call(&Claim {
            n: self.n,
            k: self.k,
            domain: DOMAIN,
            challenges: &self.challenges,
            roots: &self.levels.roots(),
        })
    }
}

const SHAPES: [(usize, usize); 8] = [
    (1, 0),
    (1, 1),
    (2, 1),
    (3, 0),
    (4, 2),
    (5, 4),
    (7, 1),
    (9, 3),
];

#[test]
fn built_records_are_accepted() {
    start();
    let mut random = Random(5);
    for (n, k) in SHAPES {
        let case = Case::new(&mut random, n, k);
        let positions: Vec<u64> = (0..8).map(|_| random.below(1 << (n + k)) as u64).collect();
        let proof = query::prove(k, DOMAIN, &case.table, &case.challenges, &positions);
        assert_eq!(proof.level_roots, case.levels.roots()[1..]);
        for (&position, record) in positions.iter().zip(&proof.queries) {
            assert_eq!(*record, case.levels.query(position as usize));
            assert_eq!(Query::from_bytes(&record.to_bytes()).as_ref(), Some(record));
            assert_eq!(
                case.check(position as usize, record),
                Answer {
                    number: 0,
                    level: 0
                }
            );
        }
        let root = case.levels.roots()[n];
        let claim = proof.terminal_claim;
        assert_eq!(claim, case.levels.values(n)[0]);
        let bytes = proof.tail.to_bytes();
        assert_eq!(
            query::check_tail_bytes(n, k, DOMAIN, root, claim, &bytes),
            0
        );
        assert_eq!(bytes.len(), [28, 44, 148, 420, 340][k]);
    }
}

#[test]
fn lent_levels_give_the_same_record() {
    start();
    let case = Case::new(&mut Random(6), 6, 2);
    let words: Vec<Word> = (0..=6)
        .flat_map(|l| case.levels.values(l).to_vec())
        .collect();
    let digests: Vec<_> = (0..=6).flat_map(|l| case.levels.digests(l)).collect();
    let lent = Levels::lent(6, 2, &words, &digests);
    for position in 0..256 {
        assert_eq!(lent.query(position), case.levels.query(position));
    }
}

#[test]
fn record_lengths() {
    start();
    for (n, k, length) in [(1, 0, 116), (2, 1, 388)] {
        let case = Case::new(&mut Random(7), n, k);
        assert_eq!(case.levels.query(0).to_bytes().len(), length);
    }
}

/// One way to spoil a level, and the number that it gets.
type Damage = (u32, fn(&mut Level));

const DAMAGES: [Damage; 12] = [
    (16, |l| l.a_group.push(Word(0))),
    (17, |l| l.a_path.push([0; 32])),
    (18, |l| l.a_group[0].0 ^= 1),
    (19, |l| l.a.0 ^= 1),
    (21, |l| l.b.0 ^= 1),
    (22, |l| {
        l.c_group.pop();
    }),
    (23, |l| l.c_path.push([0; 32])),
    (24, |l| l.c_group[0].0 ^= 1 << 127),
    (25, |l| l.c.0 ^= 1),
    (16, |l| l.a_group.clear()),
    (22, |l| l.c_group.clear()),
    (19, |l| l.a.0 ^= 1 << 127),
];

#[test]
fn damage_gets_its_number_and_level() {
    start();
    let mut random = Random(8);
    for (n, k) in SHAPES {
        let case = Case::new(&mut random, n, k);
        for level in 0..n {
            for (number, damage) in DAMAGES {
                let position = random.below(1 << (n + k));
                let mut record = case.levels.query(position);
                damage(&mut record.levels[level]);
                assert_eq!(case.check(position, &record), Answer { number, level });
            }
        }
    }
}

#[test]
fn a_wrong_challenge_gets_26_at_its_level() {
    start();
    let mut case = Case::new(&mut Random(9), 5, 2);
    for level in 0..5 {
        case.challenges[level].0 ^= 2;
        let answer = case.check(77, &case.levels.query(77));
        assert_eq!(answer, Answer { number: 26, level });
        case.challenges[level].0 ^= 2;
    }
}

#[test]
fn level_counts_and_bytes() {
    start();
    let case = Case::new(&mut Random(10), 3, 1);
    let mut record = case.levels.query(5);
    let mut bytes = record.to_bytes();
    record.levels.pop();
    assert_eq!(
        case.check(5, &record),
        Answer {
            number: 15,
            level: 0
        }
    );
    let refused = Answer {
        number: 14,
        level: 0,
    };
    bytes.push(0);
    assert_eq!(
        case.with_claim(|c| query::check_query_bytes(c, 5, &bytes)),
        refused
    );
    bytes.truncate(bytes.len() - 2);
    assert_eq!(
        case.with_claim(|c| query::check_query_bytes(c, 5, &bytes)),
        refused
    );
    assert_eq!(
        case.with_claim(|c| query::check_query_bytes(c, 5, &[255; 4])),
        refused
    );
}

#[test]
fn tails_get_their_numbers() {
    start();
    let mut random = Random(11);
    for (n, k) in [(1, 2), (4, 3), (2, 4)] {
        let case = Case::new(&mut random, n, k);
        let proof = query::prove(k, DOMAIN, &case.table, &case.challenges, &[]);
        let root = case.levels.roots()[n];
        let check = |claim: Word, change: &dyn Fn(&mut Vec<Group>)| {
            let mut tail = proof.tail.clone();
            change(&mut tail.groups);
            assert_eq!(Tail::from_bytes(&tail.to_bytes()).as_ref(), Some(&tail));
            query::check_tail(n, k, DOMAIN, root, claim, &tail)
        };
        let claim = proof.terminal_claim;
        let last = proof.tail.groups.len() - 1;
        assert_eq!(check(claim, &|_| ()), 0);
        assert_eq!(check(claim, &|groups| groups.truncate(last)), 27);
        assert_eq!(
            check(claim, &|groups| groups[last].values.push(Word(0))),
            28
        );
        assert_eq!(check(claim, &|groups| groups[last].path.push([0; 32])), 29);
        assert_eq!(check(claim, &|groups| groups[last].values[1].0 ^= 4), 30);
        assert_eq!(check(claim + Word(1), &|_| ()), 31);
    }
}

/// The position of the published transcript is whatever SHA-3 draws; at that
/// position both transcripts must give the same number, damaged or not.
#[test]
fn preset_positions_agree_with_the_published_transcript() {
    start();
    let mut random = Random(12);
    for (n, k) in SHAPES {
        let case = Case::new(&mut random, n, k);
        for nonce in 0..20 {
            let any = case.levels.query(0);
            let (position, _) = case.with_claim(|c| query::check_query_sha3(c, nonce, &any));
            let good = case.levels.query(position);
            let mut bad = good.clone();
            DAMAGES[random.below(DAMAGES.len())].1(&mut bad.levels[random.below(n)]);
            for record in [&any, &good, &bad] {
                let (_, number) = case.with_claim(|c| query::check_query_sha3(c, nonce, record));
                assert_eq!(number, case.check(position, record).number);
            }
            assert_eq!(case.check(position, &good).number, 0);
            assert_ne!(case.check(position, &bad).number, 0);
        }
    }
}
