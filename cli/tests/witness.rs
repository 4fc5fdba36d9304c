//! The program and tools/check_seal.py, which shares no code with the library, give the same answers: the same number at the same level for
//! every damage that a check can name.

mod desk;

use desk::{Desk, Run, KEPT};
use std::collections::BTreeMap;
use std::ffi::OsStr;
use std::fs;
use std::os::unix::ffi::OsStrExt;
use std::os::unix::fs::PermissionsExt;
use std::time::{Duration, Instant};

/// The levels at which records are damaged: the first, one in the middle, and the last. A deposit of 64 words has six.
const LEVELS: [usize; 3] = [0, 3, 5];

/// What both say of each position and of the tail: `yes`, `no`, or the number with its level; without roots that were kept, `level 0` and `not accepted` in place
/// of `yes`.
type Answers = BTreeMap<String, String>;

/// A sealed file of 64 words, k = 2, opened at these positions; the challenges are the checker's own file.
fn opened(name: &str, positions: &[usize]) -> Desk {
    opened_under(name, "present", positions)
}

/// The same under a set of widths.
fn opened_under(name: &str, widths: &str, positions: &[usize]) -> Desk {
    let desk = Desk::new(name);
    desk.write("plan.txt", &desk::plan());
    desk.run(&format!(
        "commit plan.txt --profile balanced --widths {widths}"
    ))
    .says(0, &[]);
    let open = "open plan.txt --seal plan.txt.seal --seed dice --at";
    desk.run(&format!("{open} {}", listed(positions)))
        .says(0, &[]);
    desk.keep("challenges.txt");
    desk.keep_roots("plan.txt.opening");
    desk
}

fn listed(positions: &[usize]) -> String {
    let texts: Vec<String> = positions.iter().map(usize::to_string).collect();
    texts.join(",")
}

/// Runs both with the same words, by roots that were kept, which must end with this status, and compares what they say. By the opening's own roots they
/// must refuse the same, and accept level 0 alone.
fn both(desk: &Desk, status: i32, positions: &[usize], more: &str) -> Answers {
    let said = both_by(desk, status, positions, &format!("{more} --roots {KEPT}"));
    let unkept = both_by(desk, without_roots(status), positions, more);
    let less = |(name, answer): (&String, &String)| {
        let less = match (&**name, &**answer) {
            ("tail", "yes") => "not accepted",
            (_, "yes") => "level 0",
            (_, answer) => answer,
        };
        (name.clone(), less.to_string())
    };
    assert_eq!(unkept, said.iter().map(less).collect::<Answers>(), "{more}");
    said
}

/// How a check ends without roots that were kept, where it ends so with them.
fn without_roots(status: i32) -> i32 {
    match status {
        0 => 3,
        status => status,
    }
}

/// Runs both with just these words.
fn both_by(desk: &Desk, status: i32, positions: &[usize], more: &str) -> Answers {
    let words = format!(
        "plan.txt.opening --seal plan.txt.seal --challenges challenges.txt --at {} {more}",
        listed(positions)
    );
    let program = desk.run(&format!("check {words}"));
    let witness = witness(desk, &words);
    program.says(status, &[]);
    witness.says(status, &[]);
    let said = answers(&program, "accepted", "refused");
    assert_eq!(said, answers(&witness, "yes", "no"), "{more}");
    said
}

/// Runs tools/check_seal.py with the words of a line.
fn witness(desk: &Desk, words: &str) -> Run {
    desk.python("check_seal.py", words.split_whitespace())
}

/// A text of values with another one in the place of the one of this number; its first line is the format.
fn with_value(text: &str, number: usize, value: &str) -> String {
    let mut lines: Vec<&str> = text.lines().collect();
    lines[number + 1] = value;
    lines.join("\n") + "\n"
}

fn answers(run: &Run, yes: &str, no: &str) -> Answers {
    run.out
        .lines()
        .filter_map(|line| line.split_once(": "))
        .filter(|(name, _)| name.starts_with("position ") || *name == "tail")
        .map(|(name, said)| {
            let number = said.strip_prefix(&format!("{no}, "));
            let answer = match number.and_then(|text| text.split_once(": ")) {
                Some((number, _)) => number,
                None if said.split(';').next() == Some(yes) => "yes",
                None if said.split(';').next() == Some(&format!("{yes} on level 0")) => "level 0",
                None if said.starts_with("not accepted: ") => "not accepted",
                None => "no",
            };
            (name.into(), answer.into())
        })
        .collect()
}

/// One level of a query record, in the order of its bytes.
struct Level {
    words: [Vec<u8>; 3],
    a_group: Vec<Vec<u8>>,
    c_group: Vec<Vec<u8>>,
    a_path: Vec<Vec<u8>>,
    c_path: Vec<Vec<u8>>,
}

/// Takes so many bytes off the front.
fn take(bytes: &mut &[u8], size: usize) -> Vec<u8> {
    let (front, rest) = bytes.split_at(size);
    *bytes = rest;
    front.to_vec()
}

fn run(bytes: &mut &[u8], size: usize) -> Vec<Vec<u8>> {
    let count = u32::from_le_bytes(take(bytes, 4).try_into().unwrap());
    (0..count).map(|_| take(bytes, size)).collect()
}

fn levels(mut bytes: &[u8]) -> Vec<Level> {
    let count = u32::from_le_bytes(take(&mut bytes, 4).try_into().unwrap());
    let mut level = || Level {
        words: [0; 3].map(|_| take(&mut bytes, 16)),
        a_group: run(&mut bytes, 16),
        c_group: run(&mut bytes, 16),
        a_path: run(&mut bytes, 32),
        c_path: run(&mut bytes, 32),
    };
    (0..count).map(|_| level()).collect()
}

fn record(levels: &[Level]) -> Vec<u8> {
    let count = |items: usize| (items as u32).to_le_bytes().to_vec();
    let mut bytes = count(levels.len());
    for level in levels {
        bytes.extend(level.words.concat());
        for run in [&level.a_group, &level.c_group, &level.a_path, &level.c_path] {
            bytes.extend(count(run.len()));
            bytes.extend(run.concat());
        }
    }
    bytes
}

type Damage = fn(&mut Level);

/// The damages of a record that a level's questions name, each with its number.
const DAMAGES: [(u32, Damage); 12] = [
    (16, |level| drop(level.a_group.pop())),
    (17, |level| drop(level.a_path.pop())),
    (18, |level| level.a_group[0][15] ^= 128),
    (18, |level| level.a_path[0][31] ^= 1),
    (19, |level| level.words[0][0] ^= 1),
    (21, |level| level.words[1][7] ^= 16),
    (22, |level| drop(level.c_group.pop())),
    (23, |level| drop(level.c_path.pop())),
    (24, |level| level.c_group[1][3] ^= 2),
    (24, |level| level.c_path[0][0] ^= 1),
    (25, |level| level.words[2][15] ^= 1),
    // Both words and their group changed together: what was deposited is not what is shown.
    (18, |level| {
        level.words[0][0] ^= 1;
        level.words[1][0] ^= 1;
        level.a_group.iter_mut().for_each(|word| word[0] ^= 1);
    }),
];

#[test]
fn the_witness_gives_the_values_of_the_specification() {
    let tried = witness(&Desk::new("witness-values"), "--try");
    tried.says(
        0,
        &[
            "12.4, the query record, present widths: yes",
            "12.4, the tail record, present widths: yes",
            "12.4, the query record, wide widths: yes",
            "12.4, the tail record, wide widths: yes",
        ],
    );
}

#[test]
fn the_witness_accepts_an_intact_opening() {
    let desk = opened("witness-intact", &[0, 7, 255]);
    let said = both(&desk, 0, &[0, 7, 255], "");
    assert!(said.values().all(|answer| answer == "yes"), "{said:?}");
    assert_eq!(said.len(), 4);
}

#[test]
fn the_witness_numbers_each_damage_of_a_level() {
    for widths in ["present", "wide"] {
        each_damage_of_a_level(widths);
    }
}

fn each_damage_of_a_level(widths: &str) {
    let positions: Vec<usize> = (0..DAMAGES.len() * LEVELS.len()).map(|i| 7 * i).collect();
    let desk = opened_under(&format!("witness-levels-{widths}"), widths, &positions);
    let cases = LEVELS
        .iter()
        .flat_map(|level| DAMAGES.iter().map(move |damage| (*level, damage)));
    let mut expected = Answers::new();
    for (position, (level, (number, damage))) in positions.iter().zip(cases) {
        let name = format!("plan.txt.opening/query-{position}.record");
        let mut parts = levels(&desk.read(&name));
        assert_eq!(record(&parts), desk.read(&name));
        damage(&mut parts[level]);
        desk.write(&name, &record(&parts));
        expected.insert(
            format!("position {position}"),
            format!("{number} at level {level}"),
        );
    }
    expected.insert("tail".into(), "yes".into());
    assert_eq!(both(&desk, 1, &positions, ""), expected);
}

#[test]
fn the_witness_on_records_that_do_not_read_whole() {
    let positions = [0, 1, 2, 3, 4, 5, 6, 7, 8];
    let desk = opened("witness-reading", &positions);
    let file = |position: usize| format!("plan.txt.opening/query-{position}.record");
    let sound = desk.read(&file(0));
    let cut = |size: usize| sound[..size].to_vec();
    let counted = |count: u32| [&count.to_le_bytes(), &sound[4..]].concat();
    let fewer = record(&levels(&sound)[..5]);
    // Seven levels, of which no more is read than six and a byte.
    let longer = record(
        &[levels(&sound), levels(&sound)]
            .into_iter()
            .flatten()
            .take(7)
            .collect::<Vec<_>>(),
    );
    let damaged = [
        (cut(sound.len() - 1), "14"),
        (cut(0), "14"),
        (cut(3), "14"),
        (counted(u32::MAX), "14"),
        (counted(5), "14"),
        ([&sound[..], &[0]].concat(), "14"),
        (longer, "14"),
        (fewer, "15"),
        (vec![0; 4], "15"),
    ];
    for (position, (bytes, number)) in positions.iter().zip(&damaged) {
        desk.write(&file(*position), bytes);
        let said = both(&desk, 1, &[*position], "");
        assert_eq!(said[&format!("position {position}")], *number);
    }
}

#[test]
fn the_witness_on_another_position_s_record_and_a_missing_one() {
    let desk = opened("witness-positions", &[6, 7, 100]);
    let copied = |from: usize, to: usize| {
        let file = |position| desk.path(&format!("plan.txt.opening/query-{position}.record"));
        fs::copy(file(from), file(to)).unwrap();
    };
    // Position 6 and 7 are one pair, and have one record; 6 and 2 are in one group; 100 is elsewhere.
    copied(6, 7);
    copied(6, 2);
    copied(100, 6);
    let said = both(&desk, 1, &[2, 6, 7, 9], "");
    let numbers = [
        ("position 2", "19 at level 0"),
        ("position 6", "18 at level 0"),
        ("position 7", "yes"),
        ("position 9", "no"),
        ("tail", "yes"),
    ];
    for (name, answer) in numbers {
        assert_eq!(said[name], answer, "{name}");
    }
}

#[test]
fn the_witness_on_other_challenges_than_the_holder_s() {
    let desk = opened("witness-challenges", &[7, 200]);
    let sound = desk.text("challenges.txt");
    for level in LEVELS {
        let changed = with_value(&sound, level, &format!("{:032x}", 5));
        desk.write("challenges.txt", changed.as_bytes());
        let said = both(&desk, 1, &[7, 200], "");
        assert_eq!(said["position 7"], format!("26 at level {level}"));
        assert_eq!(said["tail"], "yes");
    }
    // One challenge less is the checker's own mistake.
    desk.write("challenges.txt", &sound.as_bytes()[..sound.len() - 33]);
    both(&desk, 2, &[7], "");
}

#[test]
fn the_witness_on_other_roots() {
    let desk = opened("witness-roots", &[7, 200]);
    let name = "plan.txt.opening/roots.txt";
    let sound = desk.text(name);
    let changed = |level: usize| with_value(&sound, level, &"ab".repeat(32));
    let kept = format!("--roots {KEPT}");
    // Level 0's root is the office's own, so that what the opening says of it does not count.
    desk.write(name, changed(0).as_bytes());
    both(&desk, 0, &[7], "");
    for (level, number) in [
        (1, "24 at level 0"),
        (3, "24 at level 2"),
        (6, "24 at level 5"),
    ] {
        desk.write(name, changed(level).as_bytes());
        let said = both_by(&desk, 1, &[7, 200], "");
        assert_eq!(said["position 7"], number);
        let tail = if level == 6 { "30" } else { "not accepted" };
        assert_eq!(said["tail"], tail);
        both_by(&desk, 0, &[7], &kept);
        desk.write("other", changed(level).as_bytes());
        let said = both_by(&desk, 1, &[7], "--roots other");
        assert_eq!(said["position 7"], number);
    }
    desk.write("other", changed(0).as_bytes());
    both_by(&desk, 2, &[7], "--roots other");
    // One root less in the opening: the length is refused, by the program before it looks at a position.
    desk.write(name, &sound.as_bytes()[..sound.len() - 65]);
    let words = "plan.txt.opening --seal plan.txt.seal --challenges challenges.txt --at 7";
    desk.run(&format!("check {words}"))
        .says(1, &["opening: refused, 5: "]);
    witness(&desk, words).says(1, &["position 7: no, 5: ", "tail: no, 5: "]);
}

#[test]
fn the_witness_numbers_each_damage_of_the_tail() {
    let desk = opened("witness-tail", &[7]);
    let name = "plan.txt.opening/tail.record";
    let sound = desk.read(name);
    // Two groups of two words and one digest, each after its count: 4 + 2 × (4 + 32 + 4 + 32) bytes.
    assert_eq!(sound.len(), 148);
    let changed = |at: usize, bit: u8| {
        let mut bytes = sound.clone();
        bytes[at] ^= bit;
        bytes
    };
    // The group that starts at a byte, without its last value or without its path.
    let shortened = |group: usize, without_path: bool| {
        let (count, removed) = if without_path {
            (group + 36, 32)
        } else {
            (group, 16)
        };
        let mut bytes = sound.clone();
        bytes[count] -= 1;
        let values = count + 4;
        drop(bytes.drain(values..values + removed));
        bytes
    };
    let damaged = [
        (sound[..147].to_vec(), "14"),
        ([&sound[..], &[0]].concat(), "14"),
        (Vec::new(), "14"),
        (changed(0, 1), "14"),
        ([&[1, 0, 0, 0], &sound[4..76]].concat(), "27"),
        (vec![0; 4], "27"),
        (shortened(4, false), "28"),
        (shortened(76, false), "28"),
        (shortened(4, true), "29"),
        (shortened(76, true), "29"),
        (changed(8, 1), "30"),
        (changed(147, 1), "30"),
    ];
    for (bytes, number) in damaged {
        desk.write(name, &bytes);
        let said = both(&desk, 1, &[7], "");
        assert_eq!((&*said["tail"], &*said["position 7"]), (number, "yes"));
    }
    desk.write(name, &sound);
    let claim = format!("--claim {:032x}", 5);
    assert_eq!(both(&desk, 1, &[7], &claim)["tail"], "31");
    desk.write("plan.txt.opening/claim.txt", &[b'0'; 32]);
    assert_eq!(both(&desk, 1, &[7], "")["tail"], "31");
}

#[test]
fn the_witness_accepts_what_earlier_versions_wrote() {
    let desk = Desk::new("witness-fixtures");
    let fixtures = concat!(env!("CARGO_MANIFEST_DIR"), "/tests/fixtures/v1");
    for version in [
        "0.1.0", "0.2.0", "0.3.0", "0.4.0", "0.5.0", "0.6.0", "0.10.0",
    ] {
        let folder = format!("{fixtures}/{version}");
        fs::copy(
            format!("{folder}/plan.txt.opening/challenges.txt"),
            desk.path("challenges.txt"),
        )
        .unwrap();
        let roots = format!("{folder}/plan.txt.opening/roots.txt");
        fs::copy(roots, desk.path(KEPT)).unwrap();
        let opening = format!("{folder}/plan.txt.opening --seal {folder}/plan.txt.seal");
        let words = format!("{opening} --challenges challenges.txt --at 0,7,127");
        witness(&desk, &format!("{words} --roots {KEPT}"))
            .says(0, &["position 127: yes\ntail: yes\nyes\n"]);
        witness(&desk, &words).says(
            3,
            &[
                "position 127: yes on level 0\ntail: not accepted: ",
                "\nyes on level 0 alone: ",
            ],
        );
    }
}

/// Under a seal that names neither k nor a base domain both go by the same rule.
#[test]
fn the_witness_on_a_seal_that_names_nothing() {
    for (bytes, first) in [(40, "16 at level 0"), (960, "17 at level 0")] {
        let desk = Desk::new(&format!("witness-unnamed-{bytes}"));
        desk.write("plan.txt", &desk::plan()[..bytes]);
        for (profile, accepted, refused, record, tail) in [
            ("firstdefault", "--older", "", first, "27"),
            ("default", "", "--older", "14", "14"),
        ] {
            desk.run(&format!("commit plan.txt --profile {profile} --force"))
                .says(0, &[]);
            desk.run("open plan.txt --seal plan.txt.seal --seed dice --at 0,3 --force")
                .says(0, &[]);
            desk.keep("challenges.txt");
            desk.keep_roots("plan.txt.opening");
            // Both ways where the seal names its own.
            both(&desk, 0, &[0, 3], "");
            both(&desk, 0, &[0, 3], "--older");
            desk.unname("plan.txt.seal");
            both(&desk, 0, &[0, 3], accepted);
            let said = both(&desk, 1, &[0, 3], refused);
            let numbers = ["position 0", "position 3", "tail"].map(|name| &*said[name]);
            assert_eq!(numbers, [record, record, tail], "{profile}");
        }
    }
}

/// A set that the seal names, one that it names by its absence, one that neither knows, and records of the other set.
#[test]
fn the_witness_on_sets_of_widths() {
    let desk = opened_under("witness-widths", "wide", &[0, 7, 255]);
    both(&desk, 0, &[0, 7, 255], "");
    let name = "plan.txt.seal/parameters.txt";
    let sound = desk.text(name);
    for (line, status, record) in [
        ("widths wide\n", 0, "yes"),
        ("", 1, "14"),
        ("widths present\n", 1, "14"),
        ("widths broad\n", 2, ""),
        ("widths\n", 2, ""),
        ("widths wide\nwidths wide\n", 2, ""),
    ] {
        desk.write(name, sound.replace("widths wide\n", line).as_bytes());
        desk.vouch("plan.txt.seal");
        let said = both(&desk, status, &[0, 7, 255], "");
        if status != 2 {
            assert_eq!(
                (&*said["position 7"], &*said["tail"]),
                (record, "yes"),
                "{line:?}"
            );
        }
    }
    // The other way round the record is the shorter one, and reads whole.
    let desk = opened("witness-widths-present", &[0, 7, 255]);
    renamed(&desk, name, "wide");
    assert_eq!(both(&desk, 1, &[7], "")["position 7"], "16 at level 0");
    renamed(&desk, name, "present");
    both(&desk, 0, &[7], "");
}

/// Names another set in a seal's parameters.
fn renamed(desk: &Desk, name: &str, widths: &str) {
    let text = desk.text(name);
    let (before, _) = text.split_once("widths ").unwrap();
    desk.write(name, format!("{before}widths {widths}\n").as_bytes());
    desk.vouch("plan.txt.seal");
}

/// With k 4 the last level has 16 words: two groups in the present set, eight in the wide one.
#[test]
fn the_witness_on_tails_of_both_sets() {
    for (widths, other, number) in [("present", "wide", "27"), ("wide", "present", "14")] {
        let desk = Desk::new(&format!("witness-tail-{widths}"));
        desk.write("plan.txt", b"words");
        let commit = format!("commit plan.txt --profile deepwrap --widths {widths}");
        desk.run(&commit).says(0, &[]);
        desk.run("open plan.txt --seal plan.txt.seal --seed dice --at 3")
            .says(0, &[]);
        desk.keep("challenges.txt");
        desk.keep_roots("plan.txt.opening");
        both(&desk, 0, &[3], "");
        renamed(&desk, "plan.txt.seal/parameters.txt", other);
        assert_eq!(both(&desk, 1, &[3], "")["tail"], number, "{widths}");
    }
}

/// Under a key both accept what is sound, with its key alone, and name the same question where it is damaged.
#[test]
fn the_witness_on_a_keyed_seal() {
    for widths in ["present", "wide"] {
        let desk = Desk::new(&format!("witness-keyed-{widths}"));
        desk.write("plan.txt", &desk::plan());
        for (name, bytes) in [("key", [7; 32]), ("other", [8; 32])] {
            desk.write(name, &bytes);
            fs::set_permissions(desk.path(name), fs::Permissions::from_mode(0o600)).unwrap();
        }
        desk.run(&format!("commit plan.txt --widths {widths} --key-file key"))
            .says(0, &[]);
        desk.run("open plan.txt --seal plan.txt.seal --seed dice --at 7,0,127 --key-file key")
            .says(0, &[]);
        desk.keep("challenges.txt");
        desk.keep("roots.txt");
        let kept = "--roots roots.txt --key-file";
        let said = both_by(&desk, 0, &[0, 7, 127], &format!("{kept} key"));
        assert!(said.values().all(|answer| answer == "yes"), "{said:?}");
        for (key, sentence) in [
            (
                "--roots roots.txt",
                "the seal is keyed, under the key with the check value",
            ),
            (
                "--roots roots.txt --key-file other",
                "the key in other is not the seal's: its check value is",
            ),
            (
                "--roots roots.txt --key-file plan.txt",
                "plan.txt has no key",
            ),
            (
                "--roots roots.txt --key-file nowhere",
                "there is no file nowhere",
            ),
        ] {
            assert!(both_by(&desk, 2, &[0, 7, 127], key).is_empty());
            let words = "plan.txt.opening --seal plan.txt.seal --challenges challenges.txt --at 0";
            witness(&desk, &format!("{words} {key}")).says(2, &[sentence]);
        }
        desk.damage("plan.txt.opening/query-7.record", 60);
        desk.damage("plan.txt.opening/tail.record", 12);
        let said = both_by(&desk, 1, &[0, 7, 127], &format!("{kept} key"));
        assert_eq!(said["position 7"], "18 at level 0");
        assert_eq!((&*said["position 0"], &*said["tail"]), ("yes", "30"));

        // A seal without a key, by a key and by none; and what was made under the key for it.
        desk.run(&format!("commit plan.txt --widths {widths} --force"))
            .says(0, &[]);
        assert!(both_by(&desk, 2, &[0, 127], "--key-file key").is_empty());
        let words = "plan.txt.opening --seal plan.txt.seal --challenges challenges.txt --at 0";
        witness(&desk, &format!("{words} --key-file key"))
            .says(2, &["the seal is not keyed, and --key-file is given"]);
        let said = both_by(&desk, 1, &[0, 127], "");
        assert_eq!(
            (&*said["position 0"], &*said["tail"]),
            ("18 at level 0", "30")
        );
    }
}

/// The forms of a key's file that both read, and those that neither reads.
#[test]
fn the_witness_reads_the_same_files_of_keys() {
    let desk = opened("witness-key-files", &[0]);
    let digits = "0f".repeat(32);
    desk.write("key", digits.as_bytes());
    desk.run("commit plan.txt --force --key-file key")
        .says(0, &[]);
    let forms: [(Vec<u8>, bool); 12] = [
        (vec![15; 32], true),
        (format!("{digits}\n").into(), true),
        (format!("{digits}\r\n").into(), true),
        (digits.to_uppercase().into(), true),
        (vec![15; 31], false),
        (vec![15; 33], false),
        (digits[..63].into(), false),
        (format!("{digits}\r").into(), false),
        (format!("{digits}\n\n").into(), false),
        (format!("{digits} ").into(), false),
        (format!("{}g", &digits[..63]).into(), false),
        (Vec::new(), false),
    ];
    for (form, is_key) in forms {
        desk.write("key", &form);
        // The opening was made without a key: with the right one its records are refused, and without a key nothing is checked.
        let status = if is_key { 1 } else { 2 };
        let said = both_by(&desk, status, &[0], "--key-file key");
        assert_eq!(said.is_empty(), !is_key, "{form:?}");
    }
}

/// The line of the key is read to the letter by both, or the seal is not read.
#[test]
fn the_witness_on_the_line_of_a_key() {
    let desk = opened("witness-key-line", &[0]);
    desk.write("key", &[7; 32]);
    desk.run("commit plan.txt --force --key-file key")
        .says(0, &[]);
    let name = "plan.txt.seal/parameters.txt";
    let sound = desk.text(name);
    let (front, value) = sound.split_once("key ").unwrap();
    let value = value.trim_end();
    for (line, status) in [
        (format!("key {value}"), 1),
        (format!("key {value} "), 1),
        (format!("key {}", value.to_uppercase()), 2),
        (format!("key  {value}"), 2),
        (format!("key {}", &value[1..]), 2),
        (format!("key {value}\nkey {value}"), 2),
        (format!("keys {value}"), 2),
        ("key".into(), 2),
    ] {
        desk.write(name, format!("{front}{}\n", line.trim_end()).as_bytes());
        desk.vouch("plan.txt.seal");
        desk.write(name, format!("{front}{line}\n").as_bytes());
        both_by(&desk, status, &[0], "--key-file key");
    }
}

#[test]
fn the_witness_on_another_format_and_on_two_files_for_a_position() {
    let desk = opened("witness-folder", &[3, 7]);
    let file = |name: &str| desk.path("plan.txt.opening").join(name);
    fs::copy(file("query-3.record"), file("query-003.record")).unwrap();
    both(&desk, 1, &[7], "");
    fs::remove_file(file("query-003.record")).unwrap();
    both(&desk, 0, &[7], "");
    // The seal is the office's own, and the opening the holder's.
    for (name, status) in [
        ("plan.txt.seal/root.txt", 2),
        ("plan.txt.opening/roots.txt", 1),
    ] {
        let sound = desk.text(name);
        desk.write(name, sound.replacen("format 1", "format 2", 1).as_bytes());
        both_by(&desk, status, &[7], "");
        desk.write(name, sound.as_bytes());
    }
}

#[test]
fn the_witness_takes_no_damaged_seal() {
    let desk = opened("witness-seal", &[7]);
    for name in ["parameters.txt", "root.txt"] {
        let name = format!("plan.txt.seal/{name}");
        let sound = desk.text(&name);
        let end = sound.len() - 2;
        let other = if sound.as_bytes()[end] == b'0' {
            "1"
        } else {
            "0"
        };
        desk.write(&name, format!("{}{other}\n", &sound[..end]).as_bytes());
        both(&desk, 2, &[7], "");
        desk.write(&name, sound.replace('\n', " \r\n").as_bytes());
        both(&desk, 0, &[7], "");
        desk.write(&name, sound.as_bytes());
    }
}

/// Command lines that the program does not take: an empty value, an option that is given twice, and one that is not written out.
#[test]
fn the_witness_takes_the_command_lines_that_the_program_takes() {
    let desk = opened("witness-words", &[7]);
    fs::copy(desk.path(KEPT), desk.path("second")).unwrap();
    let claim = desk.value("plan.txt.opening/claim.txt");
    let own = "plan.txt.opening --seal plan.txt.seal --challenges challenges.txt --at 7";
    let own: Vec<&str> = own.split(' ').collect();
    let both = |more: &[&str], status: i32| {
        let words = [&own[..], more].concat();
        desk.seal([&["check"], &words[..]].concat())
            .says(status, &[]);
        desk.python("check_seal.py", &words).says(status, &[]);
        // The words are read before anything else: that there is no project here would be said with 2 as well.
        let of_a_project = words
            .iter()
            .map(|word| if *word == "--at" { "--offset" } else { *word });
        let of_a_project = of_a_project.chain(["--file", "plan.txt"]);
        desk.python("check_project.py", of_a_project)
    };
    both(&["--roots", KEPT, "--claim", &claim], 0);
    both(&["--claim", &claim], 3);
    for (more, sentence) in [
        (&["--key-file", ""][..], "needs a value"),
        (&["--claim", ""], "needs a value"),
        (&["--roots", ""], "needs a value"),
        (
            &["--roots", KEPT, "--roots", "second"],
            "--roots is given twice",
        ),
        (
            &["--roots", KEPT, "--roots", KEPT],
            "--roots is given twice",
        ),
        (
            &["--claim", &claim, "--claim", &claim],
            "--claim is given twice",
        ),
        (&["--seal", "plan.txt.seal"], "--seal is given twice"),
        (
            &["--challenges", "challenges.txt"],
            "--challenges is given twice",
        ),
        (&["--root", KEPT], "unrecognized arguments"),
        (&["--key", "challenges.txt"], "unrecognized arguments"),
        (&["--old"], "unrecognized arguments"),
    ] {
        both(more, 2).says(2, &[sentence]);
    }
    for more in [["--at", "7"], ["--at", "8"]] {
        both(&more, 2);
    }
}

/// SPECIFICATION 15.2: blanks at the end of a line have no meaning, and those before it make it another text.
#[test]
fn a_blank_before_a_value_is_not_passed_over() {
    let desk = opened("witness-blanks", &[7]);
    for (name, status) in [
        ("plan.txt.seal/root.txt", 2),
        ("challenges.txt", 2),
        (KEPT, 2),
        ("plan.txt.opening/claim.txt", 1),
    ] {
        let sound = desk.text(name);
        let (front, last) = sound.trim_end().rsplit_once('\n').unwrap();
        for (blank, status) in [("", 0), (" ", status), ("\t", status)] {
            for is_vouched in [false, true] {
                desk.write(name, format!("{front}\n{blank}{last} \r\n").as_bytes());
                if is_vouched && name.starts_with("plan.txt.seal") {
                    desk.write(name, format!("{front}\n{blank}{last}\n").as_bytes());
                    desk.vouch("plan.txt.seal");
                }
                both_by(&desk, status, &[7], &format!("--roots {KEPT}"));
            }
        }
        desk.write(name, sound.as_bytes());
        desk.vouch("plan.txt.seal");
    }
    // The opening's own roots, where none were kept.
    let name = "plan.txt.opening/roots.txt";
    let sound = desk.text(name);
    let (front, last) = sound.trim_end().rsplit_once('\n').unwrap();
    desk.write(name, format!("{front}\n {last}\n").as_bytes());
    both_by(&desk, 1, &[7], "");
}

/// SPECIFICATION 15.3: a base domain that a line can show stands there as it is, and another one in digits behind a blank.
#[test]
fn the_witness_on_the_line_of_a_base_domain() {
    let desk = Desk::new("witness-domains");
    desk.write("plan.txt", &desk::plan());
    for (domain, sound, others) in [
        (
            "office",
            "domain office",
            &[
                "domain-hex 6f6666696365",
                "domain-hex6f6666696365",
                "domain  office",
            ][..],
        ),
        (
            "an office",
            "domain-hex 616e206f6666696365",
            &[
                "domain an office",
                "domain-hex616e206f6666696365",
                "domain-hex  616e206f6666696365",
                "domain-hex 616E206F6666696365",
            ],
        ),
        ("", "domain-hex", &["domain", "domain "]),
    ] {
        let commit = [
            "commit", "plan.txt", "--force", "--k", "2", "--domain", domain,
        ];
        desk.seal(commit).says(0, &[]);
        desk.run("open plan.txt --seal plan.txt.seal --seed dice --at 7 --force")
            .says(0, &[]);
        desk.keep("challenges.txt");
        desk.keep_roots("plan.txt.opening");
        both(&desk, 0, &[7], "");
        let name = "plan.txt.seal/parameters.txt";
        let text = desk.text(name);
        let lines: Vec<&str> = text.lines().map(str::trim_end).collect();
        assert!(lines.contains(&sound), "{text}");
        for other in others {
            let changed = lines
                .iter()
                .map(|line| if *line == sound { *other } else { *line });
            let changed: Vec<&str> = changed.collect();
            desk.write(name, format!("{}\n", changed.join("\n")).as_bytes());
            desk.vouch("plan.txt.seal");
            both(&desk, 2, &[7], "");
        }
    }
}

/// Runs the program and tools/check_project.py on an opening of a project, by roots that were kept, which must end with this status and say the same of each
/// record; and without such roots.
fn both_on_a_file(desk: &Desk, status: i32, path: &[u8], offset: &str) -> [Run; 2] {
    both_on_a_file_by("", desk, without_roots(status), path, offset);
    both_on_a_file_by("--roots kept-roots.txt", desk, status, path, offset)
}

fn both_on_a_file_by(roots: &str, desk: &Desk, status: i32, path: &[u8], offset: &str) -> [Run; 2] {
    let words = "house.opening --seal house.seal --challenges challenges.txt --offset";
    let words = roots.split_whitespace().chain(words.split_whitespace());
    let words = words.map(OsStr::new);
    let more = [offset.as_bytes(), b"--file", path].map(OsStr::from_bytes);
    let words: Vec<&OsStr> = words.chain(more).collect();
    let program = desk.seal([&[OsStr::new("check")], &words[..]].concat());
    let witness = desk.python("check_project.py", words);
    program.says(status, &[]);
    witness.says(status, &[]);
    assert_eq!(
        answers(&program, "accepted", "refused"),
        answers(&witness, "yes", "no")
    );
    [program, witness]
}

#[test]
fn the_witness_checks_a_file_of_a_project() {
    let desk = Desk::new("witness-project");
    desk.folder("house");
    let paths: [&[u8]; 7] = [
        b"two\nlines",
        b"end ",
        b"\xff\xc3\xa9\xc3",
        b"back\\5c",
        "план 平面図".as_bytes(),
        b"empty",
        b"a b",
    ];
    for (i, path) in paths.iter().enumerate() {
        let file = desk.path("house").join(OsStr::from_bytes(path));
        fs::write(file, &desk::plan()[..(i * 150) % 750]).unwrap();
    }
    for (profile, widths, path, offset) in [
        ("balanced", "present", paths[4], "599,0"),
        ("balanced", "wide", paths[4], "599,0"),
        ("deepwrap", "present", paths[2], "17"),
        ("default", "present", paths[1], "0"),
    ] {
        desk.run(&format!(
            "commit house --profile {profile} --widths {widths} --force"
        ))
        .says(0, &[]);
        let open =
            format!("open house --seal house.seal --seed dice --force --offset {offset} --file");
        let words = open
            .split(' ')
            .map(OsStr::new)
            .chain([OsStr::from_bytes(path)]);
        desk.seal(words).says(0, &[]);
        fs::copy(
            desk.path("house.opening/challenges.txt"),
            desk.path("challenges.txt"),
        )
        .unwrap();
        desk.keep_roots("house.opening");
        let [program, witness] = both_on_a_file(&desk, 0, path, offset);
        program.says(0, &["manifest: accepted"]);
        witness.says(0, &["manifest: yes\n", "tail: yes\nyes\n"]);
    }

    // The last opening, with one thing or another changed.
    let (path, record) = (paths[1], "house.opening/query-0.record");
    desk.damage(record, 60);
    let [_, witness] = both_on_a_file(&desk, 1, path, "0");
    witness.says(1, &["manifest: yes\n", "position 0: no, 18 at level 0: "]);
    desk.damage(record, 60);
    both_on_a_file(&desk, 2, b"end", "0");
    both_on_a_file(&desk, 2, path, "150");
    let sound = desk.text("house.opening/manifest.txt");
    for other in [
        sound.replacen("file 150", "file 151", 1),
        sound.replacen('0', "1", 20),
        sound.replace("end\\20", "end "),
        format!("{sound}\n"),
        sound[..sound.len() - 1].into(),
        String::new(),
    ] {
        desk.write("house.opening/manifest.txt", other.as_bytes());
        let [program, witness] = both_on_a_file(&desk, 1, path, "0");
        program.says(1, &["manifest: refused: "]);
        witness.says(1, &["manifest: no: "]);
    }
    fs::remove_file(desk.path("house.opening/manifest.txt")).unwrap();
    both_on_a_file(&desk, 1, path, "0");

    // Megabytes behind the project's manifest are of another size, and cost neither of the two anything: committing them takes the witness minutes.
    let long = [sound.as_bytes(), &vec![b'x'; 3_000_000]].concat();
    desk.write("house.opening/manifest.txt", &long);
    let begin = Instant::now();
    let [program, witness] = both_on_a_file(&desk, 1, path, "0");
    program.says(1, &["manifest: refused: "]);
    witness.says(1, &["manifest: no: "]);
    assert!(begin.elapsed() < Duration::from_secs(60));
}

#[test]
fn the_witness_on_a_project_whose_seal_names_nothing() {
    let desk = Desk::kept("witness-unnamed-project", "0.3.0");
    fs::copy(
        desk.path("house.opening/challenges.txt"),
        desk.path("challenges.txt"),
    )
    .unwrap();
    desk.keep_roots("house.opening");
    let (path, offset) = (&b"plans/north.txt"[..], "100");
    both_on_a_file(&desk, 0, path, offset);
    desk.unname("house.seal");
    both_on_a_file(&desk, 1, path, offset);
    let words = "house.opening --seal house.seal --older --challenges challenges.txt --file plans/north.txt --offset 100 --roots kept-roots.txt";
    desk.python("check_project.py", words.split_whitespace())
        .says(0, &["manifest: yes\n", "tail: yes\nyes\n"]);
    desk.run(&format!("check {words}"))
        .says(0, &["manifest: accepted", "verdict: accepted: 1 record"]);
}

/// A project under a key: the manifest and the part's records are under it, and both ask for it first.
#[test]
fn the_witness_on_a_keyed_project() {
    let desk = Desk::new("witness-keyed-project");
    fs::create_dir(desk.path("house")).unwrap();
    desk.write("house/b", &desk::plan());
    desk.write("key", &[7; 32]);
    desk.write("other", &[8; 32]);
    desk.run("commit house --key-file key").says(0, &[]);
    desk.run("open house --seal house.seal --file b --offset 50 --seed dice --key-file key")
        .says(0, &[]);
    for name in ["challenges.txt", "roots.txt"] {
        fs::copy(desk.path("house.opening").join(name), desk.path(name)).unwrap();
    }
    let words = "house.opening --seal house.seal --file b --offset 50 --challenges challenges.txt --roots roots.txt";
    for (key, status) in [("--key-file key", 0), ("--key-file other", 2), ("", 2)] {
        let words = format!("{words} {key}");
        desk.run(&format!("check {words}")).says(status, &[]);
        desk.python("check_project.py", words.split_whitespace())
            .says(status, &[]);
    }
    // The manifest of the same project without a key.
    desk.run("commit house --out plain").says(0, &[]);
    fs::copy(
        desk.path("plain/manifest.txt"),
        desk.path("house.opening/manifest.txt"),
    )
    .unwrap();
    let words = format!("{words} --key-file key");
    desk.run(&format!("check {words}"))
        .says(1, &["manifest: refused: "]);
    desk.python("check_project.py", words.split_whitespace())
        .says(1, &["manifest: no: "]);
}

/// A record that shows another length than the manifest says is refused by both, and a path is taken by both as it is shown.
#[test]
fn the_witness_on_lengths_and_on_paths_as_they_are_shown() {
    let desk = Desk::new("witness-lengths");
    desk.folder("house");
    let paths = ["b\n", "b\\0a", "e\u{301}", "é"];
    for path in paths {
        desk.write(&format!("house/{path}"), &desk::plan());
    }
    desk.run("commit house").says(0, &[]);
    let sound = desk.text("house.seal/manifest.txt");
    let open = "open house --seal house.seal --seed dice --file é --at 0,59";
    desk.run(open).says(0, &[]);
    fs::copy(
        desk.path("house.opening/challenges.txt"),
        desk.path("challenges.txt"),
    )
    .unwrap();
    desk.keep_roots("house.opening");
    for shown in ["b\\0a", "b\\5c0a", "e\\cc\\81", "é", "b\n", "e\u{301}"] {
        both_on_a_file(&desk, 0, shown.as_bytes(), "0");
    }
    for none in ["b\\0A", "b\\", "b\\5c\\5c0a", "\\ff"] {
        both_on_a_file(&desk, 2, none.as_bytes(), "0");
    }
    // The last group has the length, and 961 bytes are as many words as 960.
    for (length, status) in [(960, 0), (961, 1), (1000, 1)] {
        let text = sound.replace("file 960 ", &format!("file {length} "));
        let _ = fs::remove_dir_all(desk.path("house.seal"));
        desk.write("manifest.txt", text.as_bytes());
        desk.run("commit manifest.txt --out house.seal")
            .says(0, &[]);
        desk.write("house.opening/manifest.txt", text.as_bytes());
        both_on_a_file(&desk, 0, b"b\n", "0");
        let [_, witness] = both_on_a_file(&desk, status, b"b\n", "944");
        if status > 0 {
            let said = format!(
                "position 59: no, it shows a length of 960 bytes, and the manifest says {length}\n"
            );
            witness.says(1, &["position", &said]);
        }
    }
}

/// Texts that a seal stands for and that are no manifests, or are.
#[test]
fn the_witness_knows_a_manifest_by_its_form() {
    let desk = Desk::new("witness-forms");
    desk.folder("house");
    desk.write("house/b", &desk::plan());
    desk.run("commit house").says(0, &[]);
    let sound = desk.text("house.seal/manifest.txt");
    let part = sound.lines().last().unwrap();
    let twice = format!("file 960 b\n{part}\n");
    for (text, status) in [
        (sound.clone(), 0),
        (
            sound.replace("file 960 b", &format!("file 0 a\\0a\n{part}\nfile 960 b")),
            0,
        ),
        (
            sound.replace("file 960 b", &format!("file 0 c\n{part}\nfile 960 b")),
            1,
        ),
        (sound.replace("960 b", "0960 b"), 1),
        (sound.replace("960 b", "18446744073709551615 b"), 1),
        (sound.replace("960 b", "18446744073692774416 b"), 1),
        (sound.replace("960 b", "18446744073709552576 b"), 1),
        (
            sound.replace("960 b", &format!("{} b", "9".repeat(5000))),
            1,
        ),
        (sound.replace("960 b", "960 \\62"), 1),
        (sound.replace("960 b", "960 ./b"), 1),
        (format!("{sound}{twice}"), 1),
        (format!("{sound}{part}\n"), 1),
        (sound.replace("format 2\n", ""), 1),
        (sound.replace("format 2", "format 1"), 1),
        (desk::in_the_first_form(&sound), 0),
        (
            desk::in_the_first_form(&sound).replace("format 1", "format 2"),
            1,
        ),
        (sound.replace("file 960 b", "folder a\nfile 960 b"), 0),
        (
            sound.replace("file 960 b", "folder a\nfolder a/c\nfile 960 b"),
            1,
        ),
        (format!("{}folder c\n", desk::in_the_first_form(&sound)), 1),
        (format!("{sound} "), 1),
        (sound.replace('\n', "\r\n"), 1),
    ] {
        for folder in ["house.seal", "house.opening"] {
            let _ = fs::remove_dir_all(desk.path(folder));
        }
        desk.write("manifest.txt", text.as_bytes());
        desk.run("commit manifest.txt --out house.seal")
            .says(0, &[]);
        // What is opened is the file by itself, under the root that the text names for it.
        desk.run("commit house/b --out one --force").says(0, &[]);
        desk.run("open house/b --seal one --seed dice --at 3 --out house.opening")
            .says(0, &[]);
        fs::copy(
            desk.path("house.opening/challenges.txt"),
            desk.path("challenges.txt"),
        )
        .unwrap();
        desk.keep_roots("house.opening");
        desk.write("house.opening/manifest.txt", text.as_bytes());
        both_on_a_file(&desk, status, b"b", "50");
    }
}
