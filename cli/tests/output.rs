//! What the program prints: one object for programs whatever happens, and never a panic's message, on a closed pipe or a full disk.

mod desk;

use desk::{Desk, Run, CHECK, CHECK_UNKEPT};
use std::fs::File;
use std::os::unix::io::OwnedFd;
use std::os::unix::net::UnixStream;
use std::os::unix::process::ExitStatusExt;
use std::process::{Command, Stdio};

const SIGPIPE: i32 = 13;

/// An output whose reader has gone.
fn closed() -> Stdio {
    let (ours, theirs) = UnixStream::pair().unwrap();
    drop(theirs);
    Stdio::from(OwnedFd::from(ours))
}

fn full() -> Stdio {
    Stdio::from(File::create("/dev/full").unwrap())
}

const PRINTING: [&str; 6] = [
    "demo",
    "help",
    "explain",
    "explain 18 --json",
    CHECK,
    "certify --json",
];

#[test]
fn a_closed_pipe_ends_the_program_as_it_ends_others() {
    let desk = Desk::opened("closed-pipe");
    for words in PRINTING {
        let output = desk
            .command(words.split_whitespace())
            .stdout(closed())
            .stderr(Stdio::piped())
            .spawn()
            .unwrap()
            .wait_with_output()
            .unwrap();
        assert_eq!(output.status.signal(), Some(SIGPIPE), "{words}: {output:?}");
        assert_eq!(output.stderr, b"", "{words}");
    }
    let output = desk
        .command(["certify"])
        .stderr(closed())
        .spawn()
        .unwrap()
        .wait_with_output()
        .unwrap();
    assert_eq!(output.status.signal(), Some(SIGPIPE));
}

#[test]
fn a_full_disk_is_said_in_a_sentence() {
    let desk = Desk::opened("full-disk");
    for words in PRINTING {
        let run = Run::of(desk.command(words.split_whitespace()).stdout(full()));
        assert_eq!(run.status, 2, "{words}: {run:?}");
        assert!(run.err.starts_with("seal: "), "{words}: {run:?}");
        run.does_not_say(&["panicked", "RUST_BACKTRACE"]);
    }
    let run = Run::of(desk.command(["help"]).stdout(full()));
    run.says(
        2,
        &["seal: cannot write to standard output: No space left on device"],
    );
    for words in ["certify", "commit absent"] {
        let run = Run::of(
            desk.command(words.split_whitespace())
                .stdout(full())
                .stderr(full()),
        );
        assert_eq!((run.status, run.printed().as_str()), (2, ""), "{words}");
    }
}

#[test]
fn the_demonstration_leaves_nothing_behind_a_closed_pipe() {
    let desk = Desk::new("demo-scratch");
    let output = desk
        .command(["demo"])
        .env("TMPDIR", &desk.0)
        .stdout(closed())
        .output();
    assert_eq!(output.unwrap().status.signal(), Some(SIGPIPE));
    assert_eq!(desk.names("."), [""; 0]);
    let run = Run::of(desk.command(["demo"]).env("TMPDIR", desk.path("absent")));
    run.says(2, &["seal: cannot make"]);
}

#[test]
fn too_little_memory_is_said_in_a_sentence() {
    let desk = Desk::new("little-memory");
    desk.write("large", &vec![7; 4 << 20]);
    let limited = format!(
        "ulimit -v 60000; exec {} commit large --profile deepwrap",
        env!("CARGO_BIN_EXE_seal")
    );
    let run = Run::of(
        Command::new("sh")
            .args(["-c", &limited])
            .current_dir(&desk.0),
    );
    run.says(
        2,
        &["seal: there is not enough memory: this file with k = 4 takes"],
    );
    assert_eq!(desk.names("."), ["large"]);
}

/// The fields of one object, in their order, taken apart without a reader of JSON: no text in it has a brace or a bracket.
fn is_one_object(run: &Run, words: &str) {
    assert_eq!(run.out.lines().count(), 1, "{words}: {run:?}");
    assert_eq!(run.err, "", "{words}");
    assert!(
        run.out.starts_with("{\"asked\": [\"") && run.out.ends_with("}}\n"),
        "{words}: {}",
        run.out
    );
    let mut rest = run.out.as_str();
    for field in [
        "asked", "verdict", "accepted", "exit", "number", "level", "sentence", "notes", "found",
    ] {
        let at = rest
            .find(&format!("\"{field}\": "))
            .unwrap_or_else(|| panic!("{words}: no {field} in {}", run.out));
        rest = &rest[at..];
    }
    assert!(
        run.out.contains(&format!("\"exit\": {}, ", run.status)),
        "{words}: {}",
        run.out
    );
    assert!(
        !run.out.contains("\"sentence\": \"\""),
        "{words}: {}",
        run.out
    );
}

#[test]
fn json_is_one_object_whatever_happens() {
    let desk = Desk::opened("one-object");
    let runs = [
        (0, "help"),
        (0, "version"),
        (0, "explain"),
        (0, "explain 18"),
        (0, "explain 20"),
        (0, "explain widths"),
        (0, "demo --widths wide"),
        (2, "demo --widths broad"),
        (0, "demo"),
        (0, "commit plan.txt --force"),
        (
            0,
            "open plan.txt --seal plan.txt.seal --seed dice --at 7 --out a",
        ),
        (0, "ask --seal plan.txt.seal"),
        (
            0,
            "open plan.txt --seal plan.txt.seal --asked plan.txt.asked",
        ),
        (
            0,
            "ask --seal plan.txt.seal --asked plan.txt.asked --answer plan.txt.answer",
        ),
        (0, CHECK),
        (3, CHECK_UNKEPT),
        (0, "show plan.txt.opening"),
        (2, "show absent"),
        (1, "check a --seal plan.txt.seal --seed dice --at 8"),
        (
            1,
            "open plan.txt.seal/root.txt --seal plan.txt.seal --seed dice --at 8 --out b",
        ),
        (2, ""),
        (2, "certify"),
        (2, "explain 99"),
        (2, "commit"),
        (2, "commit absent"),
        (2, "commit plan.txt --sign"),
        (2, "commit plan.txt --out"),
        (2, "commit plan.txt"),
        (2, "check plan.txt.opening --seal plan.txt.seal"),
        (2, "check plan.txt.opening --seal absent --seed dice"),
        (3, "check a --seal plan.txt.seal --own-questions"),
        (3, "tail a --seal plan.txt.seal"),
    ];
    for (status, words) in runs {
        let run = desk.run(&format!("{words} --json"));
        assert_eq!(run.status, status, "{words}: {run:?}");
        is_one_object(&run, words);
    }
}

#[test]
fn json_has_the_number_the_level_and_the_sentence() {
    let desk = Desk::opened("json-fields");
    desk.damage("plan.txt.opening/query-7.record", 60);
    let run = desk.run(&format!("{CHECK} --json"));
    let first = "{\"asked\": [\"check\", \"plan.txt.opening\", \"--seal\", \"plan.txt.seal\", \"--seed\", \"dice\", \"--at\", \"7,0,127\", \
                 \"--roots\", \"kept-roots.txt\", \"--json\"], \"verdict\": \"refused\", \"accepted\": false, \"exit\": 1, \"number\": 18, \"level\": 0, \"sentence\": \"refused: 1 \
                 refused, 3 accepted\"";
    run.says(
        1,
        &[
            first,
            "{\"position\": 0, \"accepted\": true, \"number\": null, \"level\": null, \"sentence\": \"accepted\", \"ask\": null, \
             \"shows\": \"bytes 0 to 127 of the file\"}",
            "{\"position\": 7, \"accepted\": false, \"number\": 18, \"level\": 0, \"sentence\": \"the group and the path of a do not lead",
        ],
    );
    desk.run("check plan.txt.opening --seal absent --seed dice --json")
        .says(2, &["\"verdict\": \"could-not-run\", \"accepted\": false, \"exit\": 2, \"number\": null, \"level\": null, \"sentence\": \"there is no seal absent"]);
    desk.run("open plan.txt --seal plan.txt.seal --seed dice --at 256 --out b --json")
        .says(1, &["\"number\": 11, \"level\": null"]);
    desk.run("explain 26 --json").says(
        0,
        &["\"explanations\": [{\"number\": 26, \"sentence\": \"a and b do not fold to c"],
    );
}
