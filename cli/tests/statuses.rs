//! The exit status of every command: 0 accepted or done, 1 refused, 2 could not run, 3 sound by the holder's own questions.

mod desk;

use desk::{Desk, Run, CHECK, CHECK_UNKEPT};

#[test]
fn every_command_ends_with_the_status_that_is_documented() {
    let desk = Desk::opened("statuses");
    desk.folder("bare");
    desk.write("other.txt", b"other");
    desk.run("open plan.txt --seal plan.txt.seal --seed dice --at 7 --out damaged")
        .says(0, &[]);
    desk.run("ask --seal plan.txt.seal").says(0, &[]);
    desk.damage("damaged/query-7.record", 60);
    desk.damage("damaged/tail.record", 10);
    let record = "plan.txt.opening/query-7.record";
    let compare = "--opening plan.txt.opening --seal plan.txt.seal --at 7";
    desk.keep("roots.txt");
    let kept = "--roots roots.txt";
    let runs = [
        (0, "commit plan.txt --out a".to_string()),
        (1, "commit bare".into()),
        (1, "commit plan.txt --k 5 --domain d --out b".into()),
        (2, "commit plan.txt".into()),
        (2, "commit absent".into()),
        (
            0,
            "open plan.txt --seal plan.txt.seal --seed dice --at 7 --out c".into(),
        ),
        (
            1,
            "open other.txt --seal plan.txt.seal --seed dice --at 7".into(),
        ),
        (
            1,
            "open plan.txt --seal plan.txt.seal --seed dice --at 256 --out d".into(),
        ),
        (2, "open plan.txt --seal plan.txt.seal --out d".into()),
        (
            0,
            "open plan.txt --seal plan.txt.seal --seed dice --until 3 --out f".into(),
        ),
        (
            0,
            "open plan.txt --seal plan.txt.seal --seed dice --at 7 --resume f --out h".into(),
        ),
        (
            1,
            "open plan.txt --seal plan.txt.seal --seed other --at 7 --resume f --out i".into(),
        ),
        (
            2,
            "open plan.txt --seal plan.txt.seal --seed dice --at 7 --resume f --until 2".into(),
        ),
        (
            2,
            "open plan.txt --seal plan.txt.seal --seed dice --resume absent".into(),
        ),
        (2, "open plan.txt --seal absent --seed dice --out d".into()),
        (0, CHECK.into()),
        (3, CHECK_UNKEPT.into()),
        (
            1,
            "check damaged --seal plan.txt.seal --seed dice --at 7".into(),
        ),
        (
            1,
            "check plan.txt.opening --seal plan.txt.seal --seed dice --at 8".into(),
        ),
        (2, "check plan.txt.opening --seal plan.txt.seal".into()),
        (
            2,
            "check absent --seal plan.txt.seal --seed dice --at 7".into(),
        ),
        (
            3,
            "check plan.txt.opening --seal plan.txt.seal --own-questions".into(),
        ),
        (
            1,
            "check damaged --seal plan.txt.seal --own-questions".into(),
        ),
        (
            0,
            format!("tail plan.txt.opening --seal plan.txt.seal {kept}"),
        ),
        (1, format!("tail damaged --seal plan.txt.seal {kept}")),
        (2, "tail plan.txt.opening".into()),
        (3, "tail plan.txt.opening --seal plan.txt.seal".into()),
        (0, format!("compare {record} {record} {compare}")),
        (
            1,
            format!("compare {record} damaged/query-7.record {compare}"),
        ),
        (2, format!("compare {record} absent {compare}")),
        (0, "ask --seal plan.txt.seal --out e".into()),
        (
            1,
            "ask --seal plan.txt.seal --asked plan.txt.asked --answer plan.txt.opening".into(),
        ),
        (2, "ask --seal plan.txt.seal --count 3".into()),
        (2, "ask --seal absent".into()),
        (
            0,
            "open plan.txt --seal plan.txt.seal --asked plan.txt.asked --out g".into(),
        ),
        (
            2,
            "check plan.txt.opening --seal plan.txt.seal --asked plan.txt.asked".into(),
        ),
        (0, "show plan.txt.opening".into()),
        (0, "show damaged".into()),
        (2, "show plan.txt".into()),
        (0, "explain".into()),
        (0, "explain 18".into()),
        (0, "explain 20".into()),
        (2, "explain 34".into()),
        (0, "demo".into()),
        (2, "demo more".into()),
        (0, "help".into()),
        (0, "--help".into()),
        (0, "check --help".into()),
        (0, "version".into()),
        (0, "--version".into()),
        (2, "certify".into()),
        (2, "".into()),
    ];
    for (status, words) in runs {
        for words in [words.clone(), format!("{words} --json")] {
            // What a run wrote stands in the way of the same run again.
            if words.ends_with("--json") && words.contains("--out") && status == 0 {
                continue;
            }
            let run = desk.run(&words);
            assert_eq!(run.status, status, "seal {words}: {}", run.printed());
            assert!(!run.printed().is_empty(), "seal {words}");
        }
    }
    Run::of(desk.command(["demo"]).env("TMPDIR", desk.path("absent"))).says(2, &[]);
}

#[test]
fn the_help_and_the_page_document_every_status() {
    let desk = Desk::new("status-help");
    let help = desk.run("help").out;
    let page = std::fs::read_to_string(concat!(env!("CARGO_MANIFEST_DIR"), "/README.md")).unwrap();
    let flat = |text: &str| text.split_whitespace().collect::<Vec<_>>().join(" ");
    for text in [
        "0 accepted, or done;",
        "1 refused;",
        "2 could not run: wrong use, a file that cannot be read or changes meanwhile, a damaged seal, a full disk;",
        "3 sound, but not accepted as a whole: by the holder's own questions, or without roots that were kept",
    ] {
        assert!(flat(&help).contains(text), "help: {text}");
    }
    for row in [
        "| 0 | accepted, or done |",
        "| 1 | refused |",
        "| 2 | could not run",
        "| 3 | sound, but not accepted as a whole: by the holder's own questions, or without roots that were kept |",
    ] {
        assert!(page.contains(row), "cli/README.md: {row}");
    }
    for command in desk.commands() {
        assert!(
            help.contains(&format!("seal {command}")) && page.contains(&format!("`seal {command}")),
            "{command}"
        );
    }
}
