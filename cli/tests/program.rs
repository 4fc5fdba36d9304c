//! The program as a user runs it: sealing, opening and checking, what it says, and what it leaves on the disk.

mod desk;

use desk::{Desk, CHECK_UNKEPT, FORMAT, KEPT};

#[test]
fn a_seal_and_an_opening_are_plain_files() {
    let desk = Desk::opened("plain-files");
    assert_eq!(
        desk.names("."),
        [KEPT, "plan.txt", "plan.txt.opening", "plan.txt.seal"]
    );
    assert_eq!(
        desk.names("plan.txt.seal"),
        ["check.txt", "parameters.txt", "root.txt", "summary.txt"]
    );
    assert_eq!(
        desk.text("plan.txt.seal/parameters.txt"),
        "format 1\nn 6\nk 2\ndomain magnetar/pcs/default\nwidths present\n"
    );
    let names = [
        "challenges.txt",
        "check.txt",
        "claim.txt",
        "parameters.txt",
        "query-0.record",
        "query-127.record",
        "query-7.record",
        "roots.txt",
        "summary.txt",
        "tail.record",
    ];
    assert_eq!(desk.names("plan.txt.opening"), names);
    desk.check().says(
        0,
        &[
            "position 0: accepted",
            "position 127: accepted",
            "tail: accepted",
            "verdict: accepted: 3 records and the tail",
        ],
    );
}

/// The form is that of `b3sum`, so that an archive can check a folder without this program.
#[test]
fn check_lines_are_those_of_b3sum() {
    let desk = Desk::opened("check-lines");
    for folder in ["plan.txt.seal", "plan.txt.opening"] {
        let text = desk.text(&format!("{folder}/check.txt"));
        let mut names: Vec<String> = Vec::new();
        for line in text.lines() {
            let (digest, name) = line.split_once("  ").unwrap();
            let bytes = desk.read(&format!("{folder}/{name}"));
            assert_eq!(
                digest,
                dequmlo::Root(dequmlo::digest(&bytes).unwrap()).to_string(),
                "{name}"
            );
            names.push(name.into());
        }
        names.push("check.txt".into());
        names.sort();
        assert_eq!(names, desk.names(folder));
    }
}

#[test]
fn an_opening_says_which_root_it_was_made_for() {
    let desk = Desk::opened("made-for");
    let root = desk.value("plan.txt.seal/root.txt");
    assert_eq!(
        desk.text("plan.txt.opening/roots.txt").lines().nth(1),
        Some(root.as_str())
    );
    assert!(desk
        .text("plan.txt.opening/summary.txt")
        .contains(&format!("Made for the root: {root}")));
}

#[test]
fn a_damaged_record_is_refused_with_the_check_that_failed() {
    let desk = Desk::opened("damaged-record");
    let name = "plan.txt.opening/query-7.record";
    let sound = desk.read(name);
    desk.damage(name, 60);
    let sentence = "position 7: refused, 18 at level 0: the group and the path of a do not lead to this level's root";
    desk.check().says(
        1,
        &[
            "position 0: accepted",
            sentence,
            "verdict: refused: 1 refused, 3 accepted",
        ],
    );
    desk.write(name, &sound[..sound.len() - 1]);
    desk.check().says(1, &["position 7: refused, 14: the record cannot be read to its end, or something follows its end"]);
    desk.write(name, &[&sound[..], b"x"].concat());
    desk.check().says(1, &["position 7: refused, 14:"]);
    desk.write(name, &desk.read("plan.txt.opening/query-127.record"));
    desk.check()
        .says(1, &["position 7: refused, 18 at level 0"]);
    desk.write(name, &sound);
    desk.check().says(0, &[]);
}

#[test]
fn the_seal_s_root_and_the_checker_s_challenges_count() {
    let desk = Desk::old("whose-root");
    desk.write("plan.txt.seal/root.txt", "0".repeat(64).as_bytes());
    desk.run(CHECK_UNKEPT)
        .says(1, &["refused, 18 at level 0", "tail: not accepted: "]);
    let desk = Desk::opened("whose-challenges");
    desk.keep("challenges.txt");
    desk.run("check plan.txt.opening --seal plan.txt.seal --seed another --at 7")
        .says(1, &["refused, 26 at level 0: a and b do not fold to c"]);
    let check =
        "check plan.txt.opening --seal plan.txt.seal --challenges challenges.txt --at 7,0,127";
    desk.run(check)
        .says(3, &["verdict: partly accepted: 3 records"]);
    desk.run(&format!("{check} --roots {KEPT}"))
        .says(0, &["verdict: accepted: 3 records"]);
}

#[test]
fn damaged_files_of_any_kind_are_refused_or_called_unreadable() {
    let desk = Desk::opened("any-damage");
    for folder in ["plan.txt.seal", "plan.txt.opening"] {
        for name in desk.names(folder) {
            let path = format!("{folder}/{name}");
            let sound = desk.read(&path);
            let half = sound[..sound.len() / 2].to_vec();
            for damaged in [
                vec![],
                half,
                b"\xff\xfe\n".to_vec(),
                b"0\n".to_vec(),
                vec![b'f'; 5000],
            ] {
                desk.write(&path, &damaged);
                let run = desk.run(CHECK_UNKEPT);
                // The checker's own parameters and challenges count, not those that the opening names; its check lines decide nothing.
                let unused = folder == "plan.txt.opening"
                    && ["parameters.txt", "challenges.txt", "check.txt"].contains(&name.as_str());
                let harmless = (name == "summary.txt" || unused) && run.status == 3;
                assert!(
                    harmless || [1, 2].contains(&run.status),
                    "{path}: {} {}",
                    run.status,
                    run.printed()
                );
            }
            desk.write(&path, &sound);
        }
    }
    desk.check().says(0, &[]);
}

#[test]
fn a_position_that_was_asked_for_must_be_shown() {
    let desk = Desk::opened("asked-for");
    desk.run("check plan.txt.opening --seal plan.txt.seal --seed dice --at 7,8")
        .says(
            1,
            &[
                "position 7: accepted",
                "position 8: refused: the opening has no record at this position",
            ],
        );
}

#[test]
fn in_rounds_the_roots_come_before_the_positions() {
    let desk = Desk::opened("rounds");
    desk.keep("challenges.txt");
    let words = "challenges.txt";
    desk.run(&format!(
        "open plan.txt --seal plan.txt.seal --challenges {words} --count 0 --out first"
    ))
    .says(0, &["opened 0 positions into first"]);
    desk.run("check first --seal plan.txt.seal --own-questions")
        .says(
            1,
            &[
                "records: refused: the opening shows no place of the deposit",
                "verdict: refused: 1 refused, 0 accepted",
            ],
        );
    desk.write("asked", b"7\n127\n");
    let check = format!("check plan.txt.opening --seal plan.txt.seal --challenges {words} --positions asked --roots first/roots.txt");
    desk.run(&check)
        .says(0, &["accepted: 2 records and the tail"]);
    let mut roots = desk.read("first/roots.txt");
    let third = FORMAT.len() + 2 * 65;
    roots[third] = if roots[third] == b'0' { b'1' } else { b'0' };
    desk.write("first/roots.txt", &roots);
    desk.run(&check)
        .says(1, &["position 7: refused, 24 at level 1"]);
}

#[test]
fn the_tail_by_itself() {
    let desk = Desk::opened("tail");
    let claim = desk.value("plan.txt.opening/claim.txt");
    desk.keep("roots.txt");
    let tail = "tail plan.txt.opening --seal plan.txt.seal --roots roots.txt";
    desk.run(tail).says(
        0,
        &[
            "tail: accepted; the last level has 4 words",
            &format!("tail 0 {claim}"),
            "tail 1 ",
        ],
    );
    desk.run(&format!("{tail} --claim {claim}")).says(0, &[]);
    desk.run(&format!("{tail} --claim 00000000000000000000000000000001"))
        .says(
            1,
            &["refused, 31: the first word of the tail record is not the claim"],
        );
    desk.run(&format!("{tail} --claim 1"))
        .says(2, &["--claim: a word is 32 hexadecimal digits"]);
}

#[test]
fn another_file_cannot_be_opened_under_a_seal() {
    let desk = Desk::opened("another-file");
    let mut bytes = desk.read("plan.txt");
    bytes[3] ^= 1;
    desk.write("other.txt", &bytes);
    desk.write("short.txt", b"short");
    for file in ["other.txt", "short.txt"] {
        desk.run(&format!(
            "open {file} --seal plan.txt.seal --seed dice --at 7"
        ))
        .says(1, &["is not the file that was sealed: its root is another"]);
    }
    desk.run("open plan.txt --seal plan.txt.seal --seed dice --at 256 --force")
        .says(1, &["refused, 11:"]);
    desk.check().says(0, &[]);
}

#[test]
fn files_of_every_small_size() {
    let desk = Desk::new("small-sizes");
    for size in [0usize, 1, 15, 16, 17, 47, 48, 49, 1000] {
        desk.write("f", &vec![7; size]);
        desk.run("commit f --force --profile deepwrap")
            .says(0, &[&format!("sealed f: {size} bytes")]);
        desk.run("open f --seal f.seal --seed s --force")
            .says(0, &["opened 14 positions"]);
        desk.keep_roots("f.opening");
        desk.run("check f.opening --seal f.seal --seed s")
            .says(3, &["verdict: partly accepted: 14 records. What"]);
        desk.run(&format!(
            "check f.opening --seal f.seal --seed s --roots {KEPT}"
        ))
        .says(0, &["verdict: accepted: 14 records and the tail\n"]);
    }
}

#[test]
fn parameters_of_one_s_own() {
    let desk = Desk::new("own-parameters");
    desk.write("f", b"words");
    let parameters = "format 1\nn 1\nk 0\ndomain-hex 616e206f6666696365\nwidths present\n";
    desk.seal(["commit", "f", "--k", "0", "--domain", "an office"])
        .says(0, &["k = 0"]);
    assert_eq!(desk.text("f.seal/parameters.txt"), parameters);
    desk.run("commit f --k 5 --domain d --force")
        .says(1, &["refused, 4:"]);
    let long = "d".repeat(201);
    desk.run(&format!("commit f --k 1 --domain {long} --force"))
        .says(1, &["refused, 7:"]);
    assert_eq!(desk.text("f.seal/parameters.txt"), parameters);
    desk.seal(["commit", "f", "--k", "1", "--domain", "", "--force"])
        .says(0, &[]);
    desk.run("open f --seal f.seal --seed s").says(0, &[]);
    desk.keep_roots("f.opening");
    desk.run(&format!(
        "check f.opening --seal f.seal --seed s --roots {KEPT}"
    ))
    .says(0, &[]);
}

#[test]
fn explaining() {
    let desk = Desk::new("explain");
    desk.run("explain 18").says(
        0,
        &[
            "18: the group and the path of a do not lead to this level's root",
            "Ask for the record",
        ],
    );
    let all = desk.run("explain").out;
    let (explained, retired) = all.split_once("\nRetired numbers:\n").unwrap();
    let numbers = numbers_of(explained);
    assert_eq!(numbers.len(), 33);
    assert_eq!(
        numbers[23..],
        ["1", "2", "3", "6", "8", "9", "10", "12", "13", "36"]
    );
    assert!(!numbers.contains(&"20"));
    assert_eq!(numbers_of(retired), ["20"]);
    for number in ["34", "35", "37"] {
        let said = format!("`{number}` is no refusal's number; they are 1 to 33 and 36");
        desk.run(&format!("explain {number}")).says(2, &[&said]);
    }
    desk.run("explain 36").says(
        0,
        &[
            "36: the list of coordinates does not hold exactly n strictly rising numbers below the original n",
            "Nothing from the holder: ",
        ],
    );
    desk.run("explain 0").says(2, &[]);
    assert!(all.contains("`seal explain older`") && all.contains("`seal explain widths`"));
}

/// The numbers that lines begin with.
fn numbers_of(text: &str) -> Vec<&str> {
    text.lines()
        .filter(|line| line.starts_with(|c: char| c.is_ascii_digit()))
        .map(|line| line.split(':').next().unwrap())
        .collect()
}

/// A retired number is no wrong use: whoever asks is told that it is retired, since when, and what to do.
#[test]
fn explaining_a_retired_number() {
    let desk = Desk::new("explain-retired");
    let sentence = "retired since version 0.7.0: it asked whether a and b are in one group, and they always are";
    let ask = "Ask which program wrote the report that names this number, and check the record again: no version of the library or of the program \
               seal ever gave it.";
    let lines = format!("20: {sentence}\n  {ask}\n");
    let run = desk.run("explain 20");
    assert_eq!((run.status, &*run.out), (0, &*lines));
    let all = desk.run("explain").out;
    assert!(
        all.contains(&format!("\nRetired numbers:\n{lines}")),
        "{all}"
    );
    assert_eq!(all.matches(sentence).count(), 1, "{all}");

    let object = format!(
        "{{\"number\": 20, \"since\": \"0.7.0\", \"sentence\": \"{sentence}\", \"ask\": \"{ask}\"}}"
    );
    desk.run("explain 20 --json").says(
        0,
        &[
            "\"verdict\": \"done\"",
            &format!("\"found\": {{\"explanations\": [], \"retired\": [{object}]}}"),
        ],
    );
    desk.run("explain 18 --json").says(
        0,
        &["\"explanations\": [{\"number\": 18, ", "\"retired\": []"],
    );
    let both = desk.run("explain --json");
    both.says(0, &[&format!("}}], \"retired\": [{object}]}}")]);
    assert_eq!(both.out.matches("{\"number\": ").count(), 34);
}

#[test]
fn wrong_use() {
    let desk = Desk::opened("wrong-use");
    let open = "open plan.txt --out a --seal plan.txt.seal";
    let wrong = [
        ("", "seal commit FILE"),
        ("certify", "there is no command `certify`"),
        ("commit", "`seal commit` needs one FILE"),
        ("commit absent", "cannot read absent: there is no such file"),
        ("commit plan.txt --sign", "there is no option --sign"),
        ("commit plan.txt --out", "--out needs a value"),
        ("commit plan.txt --out --json", "--out needs a value"),
        ("commit plan.txt --out a --out b", "--out is given twice"),
        (
            "commit plan.txt --out a --seed s",
            "`seal commit` takes no --seed",
        ),
        (
            "commit plan.txt --out a --own-questions",
            "`seal commit` takes no --own-questions",
        ),
        (
            "check plan.txt.opening --force",
            "`seal check` takes no --force",
        ),
        (
            "commit plan.txt --out a --k 1",
            "give --profile alone, or --k and --domain together",
        ),
        (
            "commit plan.txt --out a --k one --domain d",
            "--k needs a number, and `one` is none",
        ),
        (
            "commit plan.txt --out a --profile large",
            "there is no profile large; there are default,",
        ),
        (
            open,
            "needs the checker's request, --asked FOLDER, or the checker's challenges",
        ),
        (
            &format!("{open} --challenges plan.txt.opening/challenges.txt"),
            "needs the checker's positions",
        ),
        (
            &format!("{open} --challenges plan.txt.opening/challenges.txt --count 3"),
            "there is no --seed",
        ),
        (
            &format!("{open} --challenges plan.txt.seal/root.txt"),
            "root.txt, line 2: a word is 32 hexadecimal digits",
        ),
        (
            &format!("{open} --challenges plan.txt.opening/claim.txt"),
            "claim.txt has 1 words, and this seal takes 6 challenges",
        ),
        (&format!("{open} --seed s --at one"), "`one` is no position"),
        ("check plan.txt.opening", "`seal check` needs --seal"),
    ];
    for (words, text) in wrong {
        desk.run(words).says(2, &[text]);
    }
    assert_eq!(
        desk.names("."),
        [KEPT, "plan.txt", "plan.txt.opening", "plan.txt.seal"]
    );
    desk.write("plan.txt.seal/parameters.txt", b"n 21\nk 2\ndomain d\n");
    desk.check().says(2, &["parameters.txt: 4: n is above 20"]);
}

#[test]
fn a_file_whose_name_begins_with_dashes() {
    let desk = Desk::new("dashes");
    desk.write("--plan", b"words");
    desk.run("commit -- --plan").says(0, &["sealed --plan"]);
    assert_eq!(desk.names("."), ["--plan", "--plan.seal"]);
}

#[test]
fn the_demonstration() {
    let desk = Desk::new("demo");
    desk.run("demo").says(
        0,
        &[
            "verdict: accepted: 3 records and the tail",
            "verdict: partly accepted: 3 records, fewer than",
            "position 500: refused, 18 at level 0: the group and the path of a do not lead to this level's root",
            "The sound opening was accepted, the damaged one refused.",
        ],
    );
}
