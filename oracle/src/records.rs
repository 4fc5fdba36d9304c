//! Requests on records that the Rust built: each intact at its position and at others, then damaged.
//!
//! A line keeps the bytes of a record and of what it is checked against: for a query record the
//! challenges, the roots and the record, for a tail record the claim, the root and the record. The
//! requests after it name parts of them. What a record is made of is drawn from its number.

use crate::protocol;
use crate::stream::Stream;
use oracle::query::{self as rust, Levels};
use oracle::record::{Group, Level, Query, Tail};
use std::collections::BTreeSet;
use std::ops::Range;

/// n, k and the base domain's length of each query record; the last has a level of two digits.
const QUERIES: [(usize, usize, usize); 10] = [
    (1, 0, 0),
    (1, 4, 1),
    (2, 1, 5),
    (3, 0, 20),
    (3, 2, 80),
    (4, 1, 7),
    (5, 3, 12),
    (6, 0, 64),
    (6, 4, 30),
    (11, 2, 16),
];

/// n, k and the base domain's length of each tail record.
const TAILS: [(usize, usize, usize); 6] = [
    (1, 0, 0),
    (2, 1, 1),
    (3, 2, 20),
    (2, 3, 80),
    (4, 4, 9),
    (12, 4, 40),
];

/// The lines.
pub fn lines() -> String {
    let mut file = File::default();
    for (number, &size) in QUERIES.iter().enumerate() {
        QueryBase::of(number, size).write(&mut file);
    }
    for (number, &size) in TAILS.iter().enumerate() {
        TailBase::of(number, size).write(&mut file);
    }
    file.text
}

/// The lines so far, how many bytes they keep, and where the bytes of the record at hand start.
#[derive(Default)]
struct File {
    text: String,
    kept: usize,
    start: usize,
}

impl File {
    fn keep(&mut self, bytes: &[u8]) {
        self.text += &format!("= {}\n", protocol::bytes(bytes));
        self.start = self.kept;
        self.kept += bytes.len();
    }

    fn request(&mut self, line: String) {
        self.text += &(line + "\n");
    }

    /// A part of the bytes after a damage, as an argument.
    fn part(&self, damage: &Damage, damaged: &[u8], part: Range<usize>) -> String {
        let zeros = damage.at..damage.at + damage.inserted;
        let changed = damage.place..damage.place + usize::from(damage.xor != 0);
        let mut ends = vec![part.start, part.end, zeros.start, zeros.end];
        ends.extend([changed.start, changed.end]);
        ends.retain(|end| part.contains(end) || *end == part.end);
        ends.sort();
        ends.dedup();
        let piece = |run: &[usize]| {
            let (from, size) = (run[0], run[1] - run[0]);
            if changed.contains(&from) {
                return protocol::bytes(&damaged[from..from + size]);
            }
            if zeros.contains(&from) {
                return format!("00x{size}");
            }
            let place = if from < damage.at {
                from
            } else {
                from - damage.inserted + damage.removed
            };
            format!("@{}+{size}", self.start + place)
        };
        let pieces: Vec<String> = ends.windows(2).map(piece).collect();
        if pieces.is_empty() {
            return "-".into();
        }
        pieces.join(",")
    }

    /// The same for words: in digits, where they are not as they are kept.
    fn words(&self, damage: &Damage, damaged: &[u8], part: Range<usize>) -> String {
        let named = self.part(damage, damaged, part.clone());
        if named.starts_with('@') && !named.contains(',') {
            return named;
        }
        let word = |run: &[u8]| u128::from_le_bytes(run.try_into().expect("16 bytes"));
        let digits = |run: &[u8]| format!("{:x}", word(run));
        let words: Vec<String> = damaged[part].chunks_exact(16).map(digits).collect();
        words.join(",")
    }
}

/// A base domain that is drawn, as an argument.
fn domain_of(number: usize, length: usize) -> String {
    match length {
        0 => "-".into(),
        _ => format!("~t{}x{length}", 16 * number + 2),
    }
}

/// At a place some bytes taken out and some zeros put there; then a byte changed by exclusive or.
#[derive(Clone, Copy, Default, PartialEq, Eq, PartialOrd, Ord)]
struct Damage {
    at: usize,
    removed: usize,
    inserted: usize,
    place: usize,
    xor: u8,
}

impl Damage {
    fn change(place: usize, xor: u8) -> Damage {
        Damage {
            place,
            xor,
            ..Damage::default()
        }
    }

    /// One item of zeros more in the list whose count is at a place.
    fn longer(bytes: &[u8], place: usize, item: usize) -> Damage {
        Damage {
            at: place + 4,
            removed: 0,
            inserted: item,
            place,
            xor: bytes[place] ^ (bytes[place] + 1),
        }
    }

    /// The list's first item, which is so long, left out.
    fn shorter(bytes: &[u8], place: usize, item: usize) -> Option<Damage> {
        (bytes[place] > 0).then(|| Damage {
            at: place + 4,
            removed: item,
            inserted: 0,
            place,
            xor: bytes[place] ^ (bytes[place] - 1),
        })
    }

    fn cut(bytes: &[u8], at: usize) -> Damage {
        Damage {
            at,
            removed: bytes.len() - at,
            ..Damage::default()
        }
    }

    fn extended(bytes: &[u8], inserted: usize) -> Damage {
        Damage {
            at: bytes.len(),
            inserted,
            ..Damage::default()
        }
    }

    fn apply(&self, bytes: &[u8]) -> Vec<u8> {
        let (front, rest) = (&bytes[..self.at], &bytes[self.at + self.removed..]);
        let mut damaged = [front, &vec![0; self.inserted], rest].concat();
        if self.xor != 0 {
            damaged[self.place] ^= self.xor;
        }
        damaged
    }

    /// Single bytes of the base changed, drawn.
    fn drawn(bytes: &[u8], stream: &Stream, count: u64) -> Vec<Damage> {
        let place = |i| stream.number(2 * i) as usize % bytes.len();
        let bit = |i| 1 << (stream.number(2 * i + 1) % 8);
        (0..count)
            .map(|i| Damage::change(place(i), bit(i)))
            .collect()
    }
}

/// A query record with what it is checked against. Inputs 0 to 3: table, challenges, domain, position.
struct QueryBase {
    number: usize,
    n: usize,
    k: usize,
    domain: String,
    position: usize,
    record: Query,
    bytes: Vec<u8>,
}

impl QueryBase {
    fn of(number: usize, (n, k, length): (usize, usize, usize)) -> QueryBase {
        let input = |input| Stream(16 * number as u64 + input);
        let (table, challenges) = (input(0).words(1 << n), input(1).words(n));
        let domain = input(2).text(length);
        let position = input(3).number(0) as usize % (1 << (n + k));
        let levels = Levels::of(k, &domain, &table, &challenges);
        let record = levels.query(position);
        let bytes = [
            protocol::word_bytes(&challenges),
            levels.roots().concat(),
            record.to_bytes(),
        ]
        .concat();
        QueryBase {
            number,
            n,
            k,
            domain,
            position,
            record,
            bytes,
        }
    }

    /// Where the record starts.
    fn front(&self) -> usize {
        16 * self.n + 32 * (self.n + 1)
    }

    /// The request to check the base's bytes after a damage.
    fn request(&self, file: &mut File, position: usize, damage: &Damage) {
        let damaged = damage.apply(&self.bytes);
        let challenges = file.words(damage, &damaged, 0..16 * self.n);
        let roots = file.part(damage, &damaged, 16 * self.n..self.front());
        let record = file.part(damage, &damaged, self.front()..damaged.len());
        let (domain, n, k) = (domain_of(self.number, self.domain.len()), self.n, self.k);
        file.request(format!(
            "check_query {domain} 0 {n} {k} {position} {challenges} {roots} {record}"
        ));
    }

    /// At its position and at others, intact; then damaged.
    fn write(&self, file: &mut File) {
        file.keep(&self.bytes);
        let last = (1 << (self.n + self.k)) - 1;
        let bits = (0..self.n + self.k).map(|bit| self.position ^ (1 << bit));
        let positions: BTreeSet<usize> = bits.chain([self.position, 0, last]).collect();
        for position in positions {
            self.request(file, position, &Damage::default());
        }
        for damage in self.damages() {
            self.request(file, self.position, &damage);
        }
    }

    fn damages(&self) -> BTreeSet<Damage> {
        let (front, bytes) = (self.front(), &self.bytes);
        let mut damages = vec![
            Damage::cut(bytes, front),
            Damage::cut(bytes, bytes.len() - 1),
            Damage::extended(bytes, 1),
            Damage::change(front, 0x80),
            Damage::change(front + 3, 0x80),
            // A level of zeros: three words and four counts.
            Damage::longer(bytes, front, 64),
        ];
        damages.extend(Damage::shorter(
            bytes,
            front,
            level_size(&self.record.levels[0]),
        ));
        let mut place = front + 4;
        for (l, level) in self.record.levels.iter().enumerate() {
            // Of many levels the first two, one between and the last.
            if l < 2 || l == self.n / 2 || l + 1 == self.n {
                damages.extend(self.level_damages(l, level, place));
            }
            place += level_size(level);
        }
        damages.extend(Damage::drawn(bytes, &Stream(16 * self.number as u64 + 4), 12));
        damages.into_iter().collect()
    }

    /// Each field of the level that stands at a place, its challenge and its root.
    fn level_damages(&self, l: usize, level: &Level, place: usize) -> Vec<Damage> {
        let bytes = &self.bytes;
        let mut damages = vec![
            Damage::change(16 * l, 1),
            Damage::change(16 * self.n + 32 * l + 31, 1),
            Damage::change(place, 1),
            Damage::change(place + 16 + 15, 0x80),
            Damage::change(place + 32 + 8, 0x10),
        ];
        let mut count = place + 48;
        for (items, size) in [
            (level.a_group.len(), 16),
            (level.c_group.len(), 16),
            (level.a_path.len(), 32),
            (level.c_path.len(), 32),
        ] {
            damages.push(Damage::longer(bytes, count, size));
            damages.extend(Damage::shorter(bytes, count, size));
            if items > 0 {
                damages.push(Damage::change(count + 4, 2));
                damages.push(Damage::change(count + 4 + size * items - 1, 0x40));
            }
            count += 4 + size * items;
        }
        damages
    }
}

/// How many bytes a level has.
fn level_size(level: &Level) -> usize {
    let words = level.a_group.len() + level.c_group.len();
    let digests = level.a_path.len() + level.c_path.len();
    64 + 16 * words + 32 * digests
}

/// A tail record with what it is checked against. Inputs 0 to 2: table, challenges, domain.
struct TailBase {
    number: usize,
    n: usize,
    k: usize,
    domain: String,
    record: Tail,
    bytes: Vec<u8>,
}

impl TailBase {
    fn of(number: usize, (n, k, length): (usize, usize, usize)) -> TailBase {
        let input = |input| Stream(16 * number as u64 + input);
        let (table, challenges) = (input(0).words(1 << n), input(1).words(n));
        let domain = input(2).text(length);
        let record = rust::prove(k, &domain, &table, &challenges, &[]).tail;
        let root = Levels::of(k, &domain, &table, &challenges).roots()[n];
        let claim = record.groups[0].values[0];
        let bytes = [protocol::word_bytes(&[claim]), root.to_vec(), record.to_bytes()].concat();
        TailBase {
            number,
            n,
            k,
            domain,
            record,
            bytes,
        }
    }

    fn request(&self, file: &mut File, damage: &Damage) {
        let damaged = damage.apply(&self.bytes);
        let claim = file.words(damage, &damaged, 0..16);
        let root = file.part(damage, &damaged, 16..48);
        let record = file.part(damage, &damaged, 48..damaged.len());
        let (domain, n, k) = (domain_of(self.number, self.domain.len()), self.n, self.k);
        file.request(format!(
            "check_tail {domain} 0 {n} {k} {root} {claim} {record}"
        ));
    }

    fn write(&self, file: &mut File) {
        file.keep(&self.bytes);
        let (front, bytes) = (48, &self.bytes);
        let mut damages = vec![
            Damage::default(),
            Damage::change(0, 1),
            Damage::change(15, 0x80),
            Damage::change(16, 1),
            Damage::change(47, 0x80),
            Damage::cut(bytes, front),
            Damage::cut(bytes, bytes.len() - 1),
            Damage::extended(bytes, 1),
            Damage::change(front + 3, 0x80),
            // A group of nothing: two counts.
            Damage::longer(bytes, front, 8),
        ];
        damages.extend(Damage::shorter(
            bytes,
            front,
            group_size(&self.record.groups[0]),
        ));
        let mut place = front + 4;
        for group in &self.record.groups {
            let path = place + 4 + 16 * group.values.len();
            for (count, size, items) in [
                (place, 16, group.values.len()),
                (path, 32, group.path.len()),
            ] {
                damages.push(Damage::longer(bytes, count, size));
                damages.extend(Damage::shorter(bytes, count, size));
                if items > 0 {
                    damages.push(Damage::change(count + 4, 2));
                    damages.push(Damage::change(count + 4 + size * items - 1, 0x40));
                }
            }
            place += group_size(group);
        }
        damages.extend(Damage::drawn(bytes, &Stream(16 * self.number as u64 + 4), 12));
        let damages: BTreeSet<Damage> = damages.into_iter().collect();
        for damage in &damages {
            self.request(file, damage);
        }
    }
}

/// How many bytes a group has.
fn group_size(group: &Group) -> usize {
    8 + 16 * group.values.len() + 32 * group.path.len()
}
