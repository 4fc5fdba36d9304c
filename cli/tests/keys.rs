//! Seals under a key: how a key is made and read; that nothing of a keyed seal is made, opened, checked or verified without its key; that a missing, another and
//! a superfluous key are told in a sentence before a record is read; and that no key stands in anything that is written or printed.

mod desk;

use desk::{in_the_first_form, plan, Desk, Run};
use std::fs;
use std::os::unix::fs::{symlink, PermissionsExt};
use std::path::Path;

/// Two keys, as their files have them, and their check values, worked out by tools/check_seal.py.
const KEY: &str = "000102030405060708090a0b0c0d0e0f101112131415161718191a1b1c1d1e1f";
const OTHER: &str = "000102030405060708090a0b0c0d0e0f101112131415161718191a1b1c1d1e20";
const VALUE: &str = "38560d467c774a589281210ef0545f91";
const OTHER_VALUE: &str = "4a2509a6fd3ec4a41242642fb5697e2f";

const OPEN: &str = "open plan.txt --seal plan.txt.seal --seed dice --at 7,0,127";

/// The words of a check by roots that were kept, without a key.
const CHECK: &str =
    "check plan.txt.opening --seal plan.txt.seal --seed dice --at 7,0,127 --roots roots.txt";

/// Writes a file that its owner alone may read.
fn secret(desk: &Desk, name: &str, bytes: &[u8]) {
    desk.write(name, bytes);
    rights(desk, name, 0o600);
}

fn rights(desk: &Desk, name: &str, mode: u32) {
    fs::set_permissions(desk.path(name), fs::Permissions::from_mode(mode)).unwrap();
}

fn mode(path: &Path) -> u32 {
    fs::symlink_metadata(path).unwrap().permissions().mode() & 0o7777
}

/// A desk with the two keys and the plan.
fn begin(name: &str) -> Desk {
    let desk = Desk::new(name);
    secret(&desk, "key", format!("{KEY}\n").as_bytes());
    secret(&desk, "other", format!("{OTHER}\n").as_bytes());
    desk.write("plan.txt", &plan());
    desk
}

/// The same with a seal of the plan under the first key, and its opening.
fn keyed(name: &str) -> Desk {
    let desk = begin(name);
    desk.run("commit plan.txt --key-file key").says(
        0,
        &[&format!("made under the key with the check value {VALUE}")],
    );
    desk.run(&format!("{OPEN} --key-file key"))
        .says(0, &["opened 3 positions"]);
    desk.keep("roots.txt");
    desk
}

/// The root of the plan under these words of `seal commit`.
fn root(desk: &Desk, words: &str) -> String {
    let run = desk.run(&format!("commit plan.txt --out seal --force {words}"));
    run.says(0, &[]);
    desk.value("seal/root.txt")
}

/// Fails where a key, or half of one, stands in a text or in bytes, as digits or as it is.
fn shows_no_key(bytes: &[u8], what: &str) {
    let text = String::from_utf8_lossy(bytes).to_lowercase();
    for key in [KEY, OTHER] {
        for half in [&key[..32], &key[32..]] {
            assert!(!text.contains(half), "{what} has the key: {text}");
            let half: Vec<u8> = (0..16)
                .map(|i| u8::from_str_radix(&half[2 * i..2 * i + 2], 16).unwrap())
                .collect();
            let found = bytes.windows(16).any(|window| window == half);
            assert!(!found, "{what} has the key: {text}");
        }
    }
}

fn shows_no_key_in(desk: &Desk, folder: &str) {
    for name in desk.names(folder) {
        let path = format!("{folder}/{name}");
        shows_no_key(&desk.read(&path), &path);
    }
}

// ---- `seal key`

#[test]
fn a_new_key_is_its_owner_s_alone_and_looks_random() {
    let desk = Desk::new("keys-new");
    let mut found = Vec::new();
    for name in ["a", "b"] {
        // Whatever the rights of new files are otherwise.
        let run = desk.shell(".", &format!("umask 000; seal key new {name}"));
        run.says(0, &[&format!("wrote a new key into {name}, which its owner alone may read: 64 hexadecimal digits and a line end\n")]);
        assert_eq!(mode(&desk.path(name)), 0o600);
        let text = desk.text(name);
        let digits = text.strip_suffix('\n').unwrap();
        assert_eq!(digits.len(), 64);
        let is_digit = |c: char| c.is_ascii_digit() || ('a'..='f').contains(&c);
        assert!(digits.chars().all(is_digit), "{digits}");
        assert!(!run.printed().contains(digits) && !run.printed().contains(&digits[..16]));
        found.push(digits.to_string());
    }
    assert_ne!(found[0], found[1]);
    // Nothing is said of rights, and what is said of the key is its check value.
    let json = desk.run("key new c --json");
    json.says(
        0,
        &[
            "\"keyed\": true, \"key_check_value\": \"",
            "\"key_file\": \"c\"",
        ],
    );
    assert_eq!(json.err, "");
    assert!(!json.out.contains(desk.text("c").trim_end()));
}

#[test]
fn a_key_is_written_over_nothing() {
    let desk = begin("keys-over");
    secret(&desk, "material", b"something that nobody else knows");
    desk.folder("folder");
    symlink("nowhere", desk.path("link")).unwrap();
    symlink("key", desk.path("to-key")).unwrap();
    let before = desk.read("key");
    for name in ["key", "plan.txt", "folder", "link", "to-key"] {
        for words in ["key new", "key derive --context c --from material"] {
            desk.run(&format!("{words} {name}")).says(
                2,
                &[&format!(
                    "{name} exists, and a key is written over nothing; name another file"
                )],
            );
        }
        desk.run(&format!("key new {name} --force"))
            .says(2, &["`seal key` takes no --force"]);
    }
    assert_eq!(desk.read("key"), before);
    assert_eq!(desk.read("plan.txt"), plan());
    assert!(!desk.path("nowhere").exists());
    desk.run("key new nowhere/key")
        .says(2, &["cannot write nowhere/key: "]);
}

/// The vectors that are published with BLAKE3, for key material of 1,025 bytes.
#[test]
fn a_derived_key_is_blake3_s() {
    let desk = Desk::new("keys-derive");
    let material: Vec<u8> = (0..1025).map(|i| (i % 251) as u8).collect();
    secret(&desk, "material", &material);
    let derive = |context: &str, to: &str| {
        desk.seal([
            "key",
            "derive",
            "--context",
            context,
            "--from",
            "material",
            to,
        ])
    };
    let run = derive("BLAKE3 2019-12-27 16:29:52 test vectors context", "key");
    run.says(0, &["wrote a key that is derived into key"]);
    let expected = "effaa245f065fbf82ac186839a249707c3bddf6d3fdda22d1b95a3c970379bcb\n";
    assert_eq!(desk.text("key"), expected);
    assert_eq!(mode(&desk.path("key")), 0o600);
    assert!(!run.printed().contains(&expected[..16]));
    derive("another context", "second").says(0, &[]);
    assert_ne!(desk.text("second"), expected);
}

#[test]
fn what_no_key_is_derived_from() {
    let desk = Desk::new("keys-underived");
    secret(&desk, "material", b"m");
    secret(&desk, "empty", b"");
    secret(&desk, "most", &vec![b'm'; 1 << 24]);
    secret(&desk, "more", &vec![b'm'; (1 << 24) + 1]);
    let refused = |words: &str, what: &str| desk.run(words).says(2, &[what]);
    refused(
        "key derive --from material key",
        "`seal key derive` needs --context",
    );
    refused(
        "key derive --context c key",
        "needs --from: the file with the key material",
    );
    refused(
        "key derive --context c --from empty key",
        "it is empty, so everybody would know the key",
    );
    refused(
        "key derive --context c --from more key",
        "it has more than the 16777216 bytes",
    );
    refused(
        "key derive --context c --from nowhere key",
        "cannot read nowhere: there is no such file",
    );
    refused(
        "key derive --context c --from material",
        "needs one FILE to write",
    );
    refused(
        "key derive --context c --from material a b",
        "needs one FILE to write",
    );
    refused("key new", "needs one FILE to write");
    refused("key new a --context c", "`seal key` takes no --context");
    refused("key", "`seal key` makes a key: `seal key new FILE`");
    refused("key old a", "`seal key` makes a key: `seal key new FILE`");
    let check = "dequmlo 2026-11-17 key check value";
    desk.seal([
        "key",
        "derive",
        "--context",
        check,
        "--from",
        "material",
        "key",
    ])
    .says(2, &["this is the context of check values"]);
    desk.seal([
        "key",
        "derive",
        "--context",
        "",
        "--from",
        "material",
        "key",
    ])
    .says(2, &["needs --context"]);
    assert!(!desk.path("key").exists());
    desk.run("key derive --context c --from most key")
        .says(0, &[]);
}

// ---- the file of a key

#[test]
fn a_key_is_32_bytes_or_64_digits() {
    let desk = begin("keys-forms");
    let bytes: Vec<u8> = (0..32).collect();
    let expected = root(&desk, "--key-file key");
    let forms: [(&str, Vec<u8>); 4] = [
        ("bytes", bytes.clone()),
        ("digits", KEY.into()),
        ("capitals", KEY.to_uppercase().into()),
        ("carriage-return", format!("{KEY}\r\n").into()),
    ];
    for (name, form) in forms {
        secret(&desk, name, &form);
        assert_eq!(
            root(&desk, &format!("--key-file {name}")),
            expected,
            "{name}"
        );
    }
    symlink("key", desk.path("link")).unwrap();
    assert_eq!(root(&desk, "--key-file link"), expected);
    let others: [(&str, Vec<u8>); 9] = [
        ("none", Vec::new()),
        ("short", bytes[..31].into()),
        ("long", [&bytes[..], &[0]].concat()),
        ("few-digits", KEY[..63].into()),
        ("many-digits", format!("{KEY}0").into()),
        ("two-lines", format!("{KEY}\n\n").into()),
        ("blank", format!("{KEY} \n").into()),
        ("format", format!("format 1\n{KEY}\n").into()),
        ("no-digit", KEY.replace('f', "g").into()),
    ];
    for (name, form) in others {
        secret(&desk, name, &form);
        let run = desk.run(&format!("commit plan.txt --key-file {name} --out never"));
        run.says(2, &[&format!("{name} has no key: a key's file has 32 bytes, or 64 hexadecimal digits and perhaps a line end")]);
        shows_no_key(run.printed().as_bytes(), name);
    }
    desk.folder("folder");
    desk.run("commit plan.txt --key-file folder --out never")
        .says(2, &["cannot read folder: it is a folder, not a file"]);
    desk.shell(".", "mkfifo pipe").says(0, &[]);
    desk.limited("commit plan.txt --key-file pipe --out never")
        .says(2, &["cannot read pipe: it is a named pipe, not a file"]);
    desk.run("commit plan.txt --key-file nowhere --out never")
        .says(2, &["cannot read nowhere: there is no such file"]);
    desk.run("commit plan.txt --key-file --out never")
        .says(2, &["--key-file needs a value"]);
    desk.run("commit plan.txt --key-file key --key-file other --out never")
        .says(2, &["--key-file is given twice"]);
    assert!(!desk.path("never").exists());
}

/// On standard error, once, with how to mend it; the work is done all the same.
#[test]
fn a_key_that_others_may_read_is_warned_of() {
    let desk = keyed("keys-rights");
    let check = &format!("{CHECK} --key-file key");
    assert_eq!(desk.run(check).err, "");
    for (given, shown) in [
        (0o640, "640"),
        (0o604, "604"),
        (0o620, "620"),
        (0o601, "601"),
        (0o444, "444"),
    ] {
        rights(&desk, "key", given);
        for words in [
            check.to_string(),
            format!("{check} --json"),
            "verify plan.txt --seal plan.txt.seal --key-file key".into(),
        ] {
            let run = desk.run(&words);
            let warning = format!("seal: key can be read or changed by others than its owner (its mode is {shown}); `chmod 600 key` keeps it to the owner\n");
            assert_eq!((run.status, run.err), (0, warning), "{words}");
        }
    }
    for given in [0o400, 0o600, 0o700] {
        rights(&desk, "key", given);
        assert_eq!(desk.run(check).err, "");
    }
    desk.write("material", b"m");
    rights(&desk, "material", 0o644);
    let derived = desk.run("key derive --context c --from material new");
    derived.says(0, &["seal: material can be read or changed by others"]);
}

// ---- a keyed seal

#[test]
fn a_keyed_seal_says_so_in_one_line() {
    let desk = keyed("keys-line");
    desk.run("commit plan.txt --out plain").says(0, &[]);
    let text = |name: &str| desk.text(&format!("{name}/parameters.txt"));
    assert_eq!(
        text("plan.txt.seal"),
        format!("{}key {VALUE}\n", text("plain"))
    );
    assert_eq!(text("plan.txt.opening"), text("plan.txt.seal"));
    desk.text("plan.txt.seal/summary.txt")
        .find(&format!(
            "\nMade under the key with the check value {VALUE}.\nRoot: "
        ))
        .expect("the summary says it");
    for folder in ["plan.txt.seal", "plan.txt.opening"] {
        shows_no_key_in(&desk, folder);
    }
    // The widths stand before it.
    desk.run("commit plan.txt --out wide --widths wide --key-file key")
        .says(0, &[]);
    assert!(text("wide").ends_with(&format!("\nwidths wide\nkey {VALUE}\n")));
}

/// Under no key, under one and under another: three roots. The same key gives the same root again, on any number of threads.
#[test]
fn the_root_is_another_under_every_key() {
    let desk = begin("keys-roots");
    let roots = ["", "--key-file key", "--key-file other"].map(|words| root(&desk, words));
    assert!(roots[0] != roots[1] && roots[0] != roots[2] && roots[1] != roots[2]);
    for threads in 1..4 {
        let words = format!("--key-file key --threads {threads}");
        assert_eq!(root(&desk, &words), roots[1]);
    }
}

/// Every command on a keyed seal, in the order of two offices.
#[test]
fn two_offices_that_share_a_key() {
    let desk = begin("keys-offices");
    desk.run("commit plan.txt --key-file key").says(0, &[]);
    let (seal, key) = ("--seal plan.txt.seal", "--key-file key");
    let open = format!("open plan.txt {seal} --asked plan.txt.asked {key}");
    desk.run(&format!("ask {seal} {key}"))
        .says(0, &["drew 6 challenges"]);
    desk.run(&open).says(0, &["wrote the answer"]);
    desk.run(&format!(
        "ask {seal} --asked plan.txt.asked --answer plan.txt.answer --count 3 {key}"
    ))
    .says(0, &["drew 3 positions"]);
    desk.run(&format!("{open} --until 2"))
        .says(0, &["folded up to level 2 of 6"]);
    desk.run(&format!("{open} --resume plan.txt.begun --until 4"))
        .says(0, &["folded up to level 4 of 6"]);
    desk.run(&format!("{open} --resume plan.txt.begun --out resumed"))
        .says(0, &["opened 3 positions"]);
    desk.run(&open).says(0, &["opened 3 positions"]);
    desk.same_files("plan.txt.opening", "resumed");
    desk.run(&format!(
        "check plan.txt.opening {seal} --asked plan.txt.asked {key}"
    ))
    .says(0, &["verdict: accepted: 3 records and the tail"]);
    desk.run(&format!(
        "tail plan.txt.opening {seal} --roots plan.txt.asked/roots.txt {key}"
    ))
    .says(0, &["tail: accepted"]);
    desk.run(&format!("verify plan.txt {seal} {key}"))
        .says(0, &["yes: plan.txt is the file"]);
    let record = desk
        .names("plan.txt.opening")
        .into_iter()
        .find(|name| name.starts_with("query-"))
        .unwrap();
    let position = record
        .trim_start_matches("query-")
        .trim_end_matches(".record");
    let record = format!("plan.txt.opening/{record}");
    desk.run(&format!(
        "compare {record} {record} --opening plan.txt.opening {seal} --at {position} {key}"
    ))
    .says(0, &["are accepted and are the same"]);
    for folder in [
        "plan.txt.seal",
        "plan.txt.asked",
        "plan.txt.answer",
        "plan.txt.begun",
        "plan.txt.opening",
    ] {
        shows_no_key_in(&desk, folder);
        assert!(
            desk.text(&format!("{folder}/parameters.txt"))
                .ends_with(&format!("\nkey {VALUE}\n")),
            "{folder}"
        );
    }
}

/// A changed file is found under the key, and its place by the words that an opening shows.
#[test]
fn a_changed_file_is_found_under_its_key() {
    let desk = keyed("keys-changed");
    let mut changed = plan();
    changed[5] ^= 1;
    desk.write("plan.txt", &changed);
    desk.run("verify plan.txt --seal plan.txt.seal --key-file key --opening plan.txt.opening")
        .says(
            1,
            &[
                "no: plan.txt is not the file",
                "the first that differs is in byte 5 of the file",
            ],
        );
    desk.run(&format!("{OPEN} --key-file key --out again"))
        .says(1, &["plan.txt is not the file that was sealed"]);
}

/// The words of every command that reads a seal, without a key. What else they name is not there: the key is looked at before.
const READING: [&str; 8] = [
    "open nothing --seal plan.txt.seal --seed dice --at 1 --out new",
    "open nothing --seal plan.txt.seal --seed dice --at 1 --resume nothing.begun --out new",
    "check nothing.opening --seal plan.txt.seal --seed dice --at 1",
    "tail nothing.opening --seal plan.txt.seal",
    "compare a b --opening nothing.opening --seal plan.txt.seal --at 1",
    "verify nothing --seal plan.txt.seal",
    "ask --seal plan.txt.seal --out new",
    "ask --seal plan.txt.seal --asked nothing.asked --answer nothing.answer --out new",
];

/// Runs every command that reads a seal with these words more. Each ends with 2 and this sentence, and writes nothing.
fn refused_by_all(desk: &Desk, more: &str, sentence: &str) {
    for words in READING {
        let run = desk.run(&format!("{words} {more}"));
        assert_eq!(
            (run.status, run.out.as_str()),
            (2, ""),
            "{words}: {}",
            run.err
        );
        assert_eq!(run.err, format!("seal: {sentence}\n"), "{words}");
        let json = desk.run(&format!("{words} {more} --json"));
        json.says(
            2,
            &["\"verdict\": \"could-not-run\"", "\"accepted\": false"],
        );
    }
    assert!(!desk.path("new").exists());
}

#[test]
fn another_key_is_told_before_anything_is_read() {
    let desk = keyed("keys-wrong");
    let sentence = format!(
        "the key in other is not the one of the seal in plan.txt.seal: its check value is {OTHER_VALUE}, and the seal's is {VALUE}. No record was read; give the \
         file of the seal's key by --key-file"
    );
    refused_by_all(&desk, "--key-file other", &sentence);
    // Also where all else is in order.
    desk.run(
        "check plan.txt.opening --seal plan.txt.seal --seed dice --at 7,0,127 --key-file other",
    )
    .says(2, &[&sentence]);
    desk.run("verify plan.txt --seal plan.txt.seal --key-file other")
        .says(2, &[&sentence]);
}

#[test]
fn a_missing_key_is_told_before_anything_is_read() {
    let desk = keyed("keys-missing");
    let sentence = format!(
        "the seal in plan.txt.seal is keyed, under the key with the check value {VALUE}: give the file of that key by --key-file. Without it nothing of the \
         seal can be made or checked"
    );
    refused_by_all(&desk, "", &sentence);
    desk.check().says(2, &[&sentence]);
    desk.run("verify plan.txt --seal plan.txt.seal")
        .says(2, &[&sentence]);
}

#[test]
fn a_key_for_a_seal_without_one_is_told_before_anything_is_read() {
    let desk = begin("keys-superfluous");
    desk.run("commit plan.txt").says(0, &[]);
    let sentence = "the seal in plan.txt.seal is not keyed, and --key-file names key: leave --key-file out, or give the seal that was made under that key";
    refused_by_all(&desk, "--key-file key", sentence);
    desk.run("verify plan.txt --seal plan.txt.seal")
        .says(0, &["yes"]);
}

/// A seal whose line was changed is damaged; one whose check lines were changed with it accepts nothing that it did not accept.
#[test]
fn a_changed_line_accepts_nothing() {
    let name = "plan.txt.seal/parameters.txt";
    for (label, line) in [
        ("none", String::new()),
        ("other", format!("key {OTHER_VALUE}\n")),
    ] {
        let desk = keyed(&format!("keys-changed-line-{label}"));
        let text = desk.text(name).replace(&format!("key {VALUE}\n"), &line);
        desk.write(name, text.as_bytes());
        for key in ["", "--key-file key", "--key-file other"] {
            desk.run(&format!("{CHECK} {key}"))
                .says(2, &["the seal in plan.txt.seal is damaged"]);
        }
        desk.vouch("plan.txt.seal");
        let statuses = ["", "--key-file key", "--key-file other"]
            .map(|key| desk.run(&format!("{CHECK} {key}")).status);
        assert_eq!(
            statuses,
            if label == "none" {
                [1, 2, 2]
            } else {
                [2, 2, 1]
            }
        );
    }
}

/// A line that is not to the letter is none that this program knows, and is never passed over.
#[test]
fn a_line_that_is_not_to_the_letter_is_not_read() {
    let desk = keyed("keys-letter");
    let name = "plan.txt.seal/parameters.txt";
    let text = desk.text(name);
    let (front, _) = text.split_once("key ").unwrap();
    for line in [
        format!("key {}", VALUE.to_uppercase()),
        format!("key {}", &VALUE[..31]),
        format!("key {VALUE}0"),
        format!("key  {VALUE}"),
        format!("keys {VALUE}"),
        format!("key {VALUE}\nkey {VALUE}"),
        format!("key {VALUE}\nwidths present"),
        "key".into(),
        "key none".into(),
    ] {
        desk.write(name, format!("{front}{line}\n").as_bytes());
        desk.vouch("plan.txt.seal");
        for key in ["", "--key-file key"] {
            desk.run(&format!("verify plan.txt --seal plan.txt.seal {key}"))
                .says(
                    2,
                    &["does not have its lines n, k, domain, widths and perhaps key"],
                );
        }
    }
    // Blanks at the end of the line have no meaning, as in every text.
    desk.write(name, text.as_bytes());
    desk.vouch("plan.txt.seal");
    desk.write(name, format!("{} \r\n", text.trim_end()).as_bytes());
    desk.run("verify plan.txt --seal plan.txt.seal --key-file key")
        .says(0, &["yes", "note: the seal's parameters.txt has blanks"]);
}

/// What was made under another key, or without one, is of another seal: an opening is refused by its records, a request and interrupted work by their line.
#[test]
fn what_belongs_to_another_key_is_refused() {
    let desk = keyed("keys-elsewhere");
    for (seal, key) in [("plain", ""), ("second", "--key-file other")] {
        desk.run(&format!("commit plan.txt --out {seal}.seal {key}"))
            .says(0, &[]);
        let open = format!("open plan.txt --seal {seal}.seal --seed dice --at 7,0,127 {key}");
        desk.run(&format!("{open} --out {seal}.opening"))
            .says(0, &[]);
        desk.run(&format!("{open} --until 2 --out {seal}.begun"))
            .says(0, &[]);
        desk.run(&format!("ask --seal {seal}.seal --out {seal}.asked {key}"))
            .says(0, &[]);
        let made = match key {
            "" => "without a key".to_string(),
            _ => format!("under the key with the check value {OTHER_VALUE}"),
        };
        let note = format!("note: the opening says that it was made {made}, and the seal was made under the key with the check value {VALUE}: its key line is not the seal's\n");
        desk.run(&format!(
            "check {seal}.opening --seal plan.txt.seal --seed dice --at 7,0,127 --key-file key"
        ))
        .says(
            1,
            &[
                "position 0: refused, 18 at level 0: ",
                "position 127: refused, 18 at level 0: ",
                "tail: refused, 30: ",
                &note,
            ],
        );
        // The roots of the other opening are of its own key: under this seal's its tail leads nowhere.
        desk.run(&format!(
            "tail {seal}.opening --seal plan.txt.seal --key-file key"
        ))
        .says(1, &["refused, 30: ", &note]);
        // Nor is it compared: under one seal there is one key.
        for (record, opening) in [(seal, "plan.txt"), (seal, seal)] {
            let record = format!("{record}.opening/query-7.record");
            let sentence = format!("{seal}.opening/parameters.txt is of what was made {made}, and the seal was made under the key with the check value {VALUE}: two records are compared under one key");
            desk.run(&format!("compare {record} {record} --at 7 --opening {opening}.opening --seal plan.txt.seal --key-file key"))
                .says(2, &[&sentence]);
        }
        // What it shows of the file is not known to be of the file.
        desk.damage("plan.txt", 5);
        let run = desk.run(&format!(
            "verify plan.txt --seal plan.txt.seal --opening {seal}.opening --key-file key"
        ));
        run.says(
            1,
            &[
                "no: plan.txt is not the file that was sealed",
                "note: no word that the opening shows of the file leads to the seal's root",
                &note,
            ],
        );
        run.does_not_say(&["0 words", "differs elsewhere"]);
        desk.damage("plan.txt", 5);
        desk.run(&format!(
            "{OPEN} --key-file key --resume {seal}.begun --out new"
        ))
        .says(
            1,
            &["is of another seal: it names another n, k, base domain, set of widths or key"],
        );
        desk.run(&format!(
            "open plan.txt --seal plan.txt.seal --asked {seal}.asked --key-file key --out new"
        ))
        .says(2, &["is about another seal"]);
    }
    desk.run("check plan.txt.opening --seal plain.seal --seed dice --at 7,0,127")
        .says(
            1,
            &[
                "position 0: refused, 18 at level 0: ",
                "note: the opening says that it was made under the key with the check value",
            ],
        );
    assert!(!desk.path("new").exists());
}

/// Interrupted work whose line says the seal's key and whose levels are another deposit's.
#[test]
fn interrupted_work_is_checked_under_the_key() {
    let desk = keyed("keys-begun");
    desk.run(&format!("{OPEN} --key-file key --until 3"))
        .says(0, &[]);
    let resume = format!("{OPEN} --key-file key --resume plan.txt.begun --out again");
    desk.run(&resume).says(0, &["opened 3 positions"]);
    desk.same_files("plan.txt.opening", "again");
    desk.damage("plan.txt.begun/level-2-0.words", 5);
    desk.vouch("plan.txt.begun");
    desk.run(&resume.replace("again", "third")).says(
        1,
        &["the values of level 2 do not have the root that was kept of them"],
    );
}

// ---- projects

fn house(name: &str) -> Desk {
    let desk = begin(name);
    fs::create_dir_all(desk.path("house/plans")).unwrap();
    desk.write("house/plans/north", &plan());
    desk.write("house/list", b"north\n");
    desk
}

#[test]
fn a_project_is_under_one_key() {
    let desk = house("keys-project");
    desk.run("commit house --key-file key").says(
        0,
        &[
            "sealed the project house",
            &format!("made under the key with the check value {VALUE}"),
        ],
    );
    desk.run("commit house --out plain").says(0, &[]);
    assert!(desk
        .text("house.seal/parameters.txt")
        .ends_with(&format!("\nkey {VALUE}\n")));
    shows_no_key_in(&desk, "house.seal");
    // Every part has its root under the key.
    let parts = |seal: &str| -> Vec<String> {
        let text = desk.text(&format!("{seal}/manifest.txt"));
        text.lines()
            .filter(|line| line.starts_with("part "))
            .map(String::from)
            .collect()
    };
    let (keyed, plain) = (parts("house.seal"), parts("plain"));
    assert_eq!((keyed.len(), plain.len()), (2, 2));
    let words = |parts: &[String]| -> Vec<String> {
        let words = parts.iter().flat_map(|part| part.split(' ').skip(1));
        words.map(String::from).collect()
    };
    let (keyed, plain) = (words(&keyed), words(&plain));
    assert_eq!((keyed.len(), plain.len()), (4, 4));
    assert!(keyed.iter().all(|word| !plain.contains(word)));
    // A digest under a key is that of keyed mode under a key that is derived from it.
    let bytes: Vec<u8> = (0..32).collect();
    let key = dequmlo::Key::from_bytes(&bytes).unwrap();
    let own = dequmlo::Key::derive("dequmlo 2026-11-18 part digest", key.bytes()).unwrap();
    let list = dequmlo::keyed_digest(&own, &desk.read("house/list")).unwrap();
    assert!(keyed.contains(&dequmlo::Root(list).to_string()));
    desk.run("commit house/list --key-file key --out list")
        .says(0, &[]);
    assert!(keyed.contains(&desk.value("list/root.txt")));

    let asked = "--file plans/north --offset 100 --seed dice";
    let open = format!("open house --seal house.seal {asked}");
    desk.run(&format!("{open} --key-file key"))
        .says(0, &["opened 1 position"]);
    fs::copy(desk.path("house.opening/roots.txt"), desk.path("roots.txt")).unwrap();
    let check = format!("check house.opening --seal house.seal {asked} --roots roots.txt");
    desk.run(&format!("{check} --key-file key"))
        .says(0, &["manifest: accepted", "verdict: accepted: 1 record"]);
    desk.run(&format!("{open} --key-file key --until 2 --out begun"))
        .says(0, &["folded up to level 2"]);
    desk.run(&format!("{open} --key-file key --resume begun --out again"))
        .says(0, &["opened 1 position"]);
    desk.same_files("house.opening", "again");
    desk.run(&format!("{check} --key-file other")).says(
        2,
        &["the key in other is not the one of the seal in house.seal"],
    );
    desk.run(&check)
        .says(2, &["the seal in house.seal is keyed"]);
    desk.run("verify house --seal house.seal --key-file key")
        .says(0, &["yes: house is the project"]);
    desk.run("verify house --seal house.seal")
        .says(2, &["is keyed"]);
    desk.run("verify house --seal plain --key-file key")
        .says(2, &["is not keyed"]);
    desk.write("house/list", b"south\n");
    desk.run("verify house --seal house.seal --key-file key")
        .says(1, &["changed: list"]);
    // The other project's manifest has another root.
    fs::copy(
        desk.path("plain/manifest.txt"),
        desk.path("house.opening/manifest.txt"),
    )
    .unwrap();
    let run = desk.run(&format!("{check} --key-file key"));
    run.says(1, &["manifest: refused"]);
    run.does_not_say(&["key line"]);
    // Where the opening is of the other project, its key is said.
    desk.run(&format!(
        "{} --out plain.opening",
        open.replace("house.seal", "plain")
    ))
    .says(0, &[]);
    let note = format!("note: the opening says that it was made without a key, and the seal was made under the key with the check value {VALUE}: its key line is not the seal's\n");
    for check in [
        check.clone(),
        "tail house.opening --seal house.seal --file plans/north --roots roots.txt".into(),
    ] {
        let check = check.replace("house.opening", "plain.opening");
        desk.run(&format!("{check} --key-file key"))
            .says(1, &["manifest: ", &note]);
    }
}

/// The line in an opening decides nothing, so that what is said of it beside an acceptance is no more than that it is another.
#[test]
fn a_changed_line_of_an_opening_is_told_and_no_more() {
    let desk = keyed("keys-line-of-the-opening");
    let name = "plan.txt.opening/parameters.txt";
    let changed = desk.text(name).replace(VALUE, OTHER_VALUE);
    desk.write(name, changed.as_bytes());
    desk.vouch("plan.txt.opening");
    let note = format!("note: the opening says that it was made under the key with the check value {OTHER_VALUE}, and the seal was made under the key with the check value {VALUE}: its key line is not the seal's\n");
    for words in [
        CHECK,
        "tail plan.txt.opening --seal plan.txt.seal --roots roots.txt",
    ] {
        let run = desk.run(&format!("{words} --key-file key"));
        run.says(0, &[&note]);
        run.does_not_say(&["another seal"]);
    }
}

/// Only a key from the system's randomness is lost for ever.
#[test]
fn what_is_said_of_the_loss_of_a_key() {
    let desk = Desk::new("keys-lost");
    secret(&desk, "material", b"something that nobody else knows");
    let new = desk.run("key new a");
    new.says(
        0,
        &["can be checked, and where it is lost nobody can make it again\n"],
    );
    let derived = desk.run("key derive --context c --from material b");
    derived.says(
        0,
        &["can be checked, and its context and key material give it again to whoever has both\n"],
    );
    derived.does_not_say(&["nobody can make it again"]);
}

/// Whoever gives the key in place of its file is told so, and the key is not printed.
#[test]
fn a_key_on_the_command_line_is_not_said_again() {
    let desk = keyed("keys-in-words");
    for key in [KEY.to_string(), KEY.to_uppercase()] {
        for words in [
            CHECK,
            OPEN,
            "commit plan.txt --out new",
            "verify plan.txt --seal plan.txt.seal",
            "tail plan.txt.opening --seal plan.txt.seal",
        ] {
            let run = desk.run(&format!("{words} --key-file {key}"));
            run.says(2, &["the value of --key-file is no file's name; a key is never given on the command line\n"]);
            run.does_not_say(&[&key, &key[..16]]);
        }
        let words = format!(
            "plan.txt.opening --seal plan.txt.seal --challenges roots.txt --at 7 --key-file {key}"
        );
        let run = desk.python("check_seal.py", words.split_whitespace());
        run.says(2, &["a key is never given on the command line"]);
        run.does_not_say(&[&key, &key[..16]]);
        // From inside the opening too, where a name would be the holder's.
        let run = desk.shell(
            "plan.txt.opening",
            &format!("seal check . --seal ../plan.txt.seal --seed dice --at 7 --key-file {key}"),
        );
        run.says(2, &["a key is never given on the command line"]);
        run.does_not_say(&[&key]);
    }
    // A file may have such a name.
    fs::copy(desk.path("key"), desk.path(KEY)).unwrap();
    desk.run(&format!("{CHECK} --key-file {KEY}")).says(0, &[]);
}

/// The command that is offered does what it says in a shell.
#[test]
fn the_command_for_a_key_s_rights_is_quoted() {
    let desk = keyed("keys-quoted");
    for (name, command) in [
        ("a-key.txt", "chmod 600 a-key.txt"),
        ("my key", "chmod 600 'my key'"),
        (
            "the office's key; $(id)",
            "chmod 600 'the office'\\''s key; $(id)'",
        ),
        ("-key", "chmod 600 ./-key"),
        ("-a key", "chmod 600 './-a key'"),
        ("ключ", "chmod 600 'ключ'"),
    ] {
        fs::copy(desk.path("key"), desk.path(name)).unwrap();
        rights(&desk, name, 0o644);
        let words = CHECK.split(' ').chain(["--key-file", name]);
        let run = desk.seal(words);
        let offered = format!("`{command}` keeps it to the owner\n");
        run.says(0, &[&offered]);
        desk.shell(".", command).says(0, &[]);
        assert_eq!(mode(&desk.path(name)), 0o600, "{name}");
    }
    // No command leads to a name that a line cannot show.
    fs::copy(desk.path("key"), desk.path("a\nkey")).unwrap();
    rights(&desk, "a\nkey", 0o644);
    let run = desk.seal(CHECK.split(' ').chain(["--key-file", "a\nkey"]));
    run.says(0, &["; the rights 600 keep it to the owner\n"]);
    run.does_not_say(&["chmod"]);
}

/// A key that lies in what is sealed would be shown by an opening.
#[test]
fn a_key_is_not_sealed_with_what_it_is_for() {
    let desk = house("keys-inside");
    secret(&desk, "house/key", format!("{KEY}\n").as_bytes());
    let sentence =
        "lies in what is to be sealed, so that an opening would show it; keep it elsewhere";
    desk.run("commit house --key-file house/key")
        .says(2, &["the key in house/key lies", sentence]);
    desk.run("commit key --key-file key")
        .says(2, &["the key in key lies", sentence]);
    assert!(!desk.path("house.seal").exists() && !desk.path("key.seal").exists());
    let desk = keyed("keys-in-the-opening");
    fs::copy(desk.path("key"), desk.path("plan.txt.opening/key")).unwrap();
    desk.run("check plan.txt.opening --seal plan.txt.seal --seed dice --at 7,0,127 --key-file plan.txt.opening/key")
        .says(2, &["plan.txt.opening/key lies in the opening, so it is the holder's; --key-file takes the checker's own"]);
}

// ---- what is said

/// For people, for programs and on the page: that there is a key, and its check value; never the key.
#[test]
fn what_is_said_of_a_key() {
    let desk = keyed("keys-said");
    let json = format!("\"keyed\": true, \"key_check_value\": \"{VALUE}\"");
    let check = &format!("{CHECK} --key-file key");
    let record = "plan.txt.opening/query-7.record";
    let commands: [&str; 9] = [
        "commit plan.txt --key-file key --out again",
        &format!("{OPEN} --key-file key --out again.opening"),
        &format!("{OPEN} --key-file key --until 2"),
        check,
        "show plan.txt.opening",
        "tail plan.txt.opening --seal plan.txt.seal --roots roots.txt --key-file key",
        "verify plan.txt --seal plan.txt.seal --key-file key",
        "ask --seal plan.txt.seal --key-file key",
        &format!("compare {record} {record} --opening plan.txt.opening --seal plan.txt.seal --at 7 --roots roots.txt --key-file key"),
    ];
    for words in commands {
        let run = desk.run(&format!("{words} --json"));
        run.says(0, &[&json]);
        shows_no_key(run.printed().as_bytes(), words);
    }
    desk.run("show plan.txt.opening").says(
        0,
        &[&format!(
            "the opening says that it was made under the key with the check value {VALUE}\n"
        )],
    );
    desk.run(&format!("{check} --report page.html"))
        .says(0, &[]);
    let page = desk.text("page.html");
    let row = format!("<th scope=\"row\">Key</th><td><bdi>the seal is keyed: it was made and checked under the key with the check value {VALUE}</bdi>");
    assert!(page.contains(&row), "{page}");
    shows_no_key(page.as_bytes(), "the page");
}

/// Without a key nothing is said of one but to programs.
#[test]
fn nothing_is_said_where_there_is_no_key() {
    let desk = Desk::opened("keys-unsaid");
    desk.keep("roots.txt");
    for words in ["show plan.txt.opening", CHECK] {
        let run = desk.run(words);
        assert!(!run.printed().contains("key"), "{}", run.printed());
        desk.run(&format!("{words} --json"))
            .says(0, &["\"keyed\": false, \"key_check_value\": null"]);
    }
    for folder in ["plan.txt.seal", "plan.txt.opening"] {
        for name in desk
            .names(folder)
            .iter()
            .filter(|name| name.ends_with(".txt"))
        {
            let text = desk.text(&format!("{folder}/{name}"));
            assert!(!text.contains("key"), "{folder}/{name}: {text}");
        }
    }
    desk.run(&format!("{CHECK} --report page.html"))
        .says(0, &[]);
    assert!(!desk.text("page.html").contains(">Key<"));
}

#[test]
fn the_help_says_what_a_key_is_for() {
    let desk = Desk::new("keys-help");
    for command in [
        "commit", "ask", "open", "check", "tail", "verify", "compare",
    ] {
        desk.run(&format!("help {command}"))
            .says(0, &["\n    --key-file FILE"]);
    }
    desk.run("help show").does_not_say(&["--key-file"]);
    desk.run("help key").says(
        0,
        &[
            "seal key new FILE",
            "seal key derive --context TEXT --from FILE FILE",
            "never written over",
        ],
    );
    desk.run("explain keys").says(
        0,
        &[
            "does not hide what an opening shows",
            "can no longer be checked",
            "apart from what is sealed",
        ],
    );
}

/// The page for people says the same.
#[test]
fn the_page_says_what_a_key_gives_and_what_not() {
    let page = fs::read_to_string(concat!(env!("CARGO_MANIFEST_DIR"), "/README.md")).unwrap();
    let (_, section) = page.split_once("\n## Keys\n").unwrap();
    let (section, _) = section.split_once("\n## ").unwrap();
    let flat = section.split_whitespace().collect::<Vec<_>>().join(" ");
    for text in [
        "Nobody without it makes the root",
        "does not hide the words that an opening shows",
        "can no longer be checked",
        "apart from the deposit",
    ] {
        assert!(flat.contains(text), "{text}");
    }
}

/// The commands of that page, as they stand there.
#[test]
fn the_page_s_commands_do_what_it_says() {
    let desk = Desk::new("keys-page");
    desk.folder("holder");
    desk.folder("office");
    desk.write("holder/plan.txt", &plan());
    let commands = desk::walk("Keys");
    assert!(commands.len() >= 5, "{commands:?}");
    for (who, command) in commands {
        let run: Run = desk.shell(&who, &command);
        assert_eq!(run.status, 0, "{command}: {}", run.printed());
    }
    assert!(desk.path("office/plan.txt.opening").exists());
}

// ---- kept files

/// What version 0.9.0 sealed under a key is kept: every later version accepts it, takes it up and verifies it, and none without the key.
#[test]
fn what_an_earlier_version_sealed_under_a_key_is_accepted() {
    let fixtures = Path::new(concat!(env!("CARGO_MANIFEST_DIR"), "/tests/fixtures/keyed"));
    let mut versions = 0;
    for entry in fs::read_dir(fixtures).unwrap() {
        let folder = entry.unwrap();
        let version = folder.file_name().into_string().unwrap();
        let desk = Desk::copied(&format!("keys-kept-{version}"), &folder.path());
        versions += 1;
        for name in ["key", "other"] {
            rights(&desk, name, 0o600);
        }
        desk.run(&format!("{CHECK} --key-file key"))
            .says(0, &["verdict: accepted: 3 records and the tail"]);
        desk.run(CHECK)
            .says(2, &["is keyed, under the key with the check value"]);
        desk.run(&format!("{CHECK} --key-file other"))
            .says(2, &["is not the one of the seal"]);
        desk.run("verify plan.txt --seal plan.txt.seal --key-file key")
            .says(0, &["yes"]);
        desk.run("check asked.opening --seal plan.txt.seal --asked plan.txt.asked --key-file key")
            .says(0, &["verdict: accepted: 3 records and the tail"]);
        desk.run(&format!(
            "{OPEN} --key-file key --resume plan.txt.begun --out again"
        ))
        .says(0, &["opened 3 positions"]);
        for folder in ["plan.txt.opening", "again"] {
            fs::remove_file(desk.path(folder).join("summary.txt")).unwrap();
            fs::remove_file(desk.path(folder).join("check.txt")).unwrap();
        }
        desk.same_files("plan.txt.opening", "again");
        desk.run("verify house --seal house.seal --key-file key")
            .says(0, &["yes"]);
        desk.run("check house.opening --seal house.seal --file plans/north --offset 100 --seed dice --roots house-roots.txt --key-file key")
            .says(0, &["manifest: accepted", "verdict: accepted: 1 record"]);
        // Sealing anew gives the same root.
        for sealed in ["plan.txt", "house"] {
            desk.run(&format!(
                "commit {sealed} --key-file key --out anew --force"
            ))
            .says(0, &[]);
            let then = format!("{sealed}.seal");
            if sealed == "house" {
                // But that of a project, whose manifest has more in it now, and the same roots.
                let [anew, then] = ["anew", &then]
                    .map(|seal| in_the_first_form(&desk.text(&format!("{seal}/manifest.txt"))));
                assert_eq!(anew, then);
                continue;
            }
            for name in ["root.txt", "parameters.txt"] {
                let [anew, then] = ["anew", &then].map(|seal| desk.text(&format!("{seal}/{name}")));
                assert_eq!(anew, then);
            }
        }
    }
    assert!(versions >= 1);
}
