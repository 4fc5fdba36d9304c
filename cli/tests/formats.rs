//! The format of the files: every text says it, another format is refused by name, and what earlier versions wrote is accepted for ever.

mod desk;

use desk::{in_the_first_form, kept, Desk, CHECK, CHECK_UNKEPT, FORMAT, KEPT};
use std::fs;
use std::path::Path;

/// The texts that a check reads, and the summaries.
const MARKED: [&str; 6] = [
    "plan.txt.seal/parameters.txt",
    "plan.txt.seal/root.txt",
    "plan.txt.opening/parameters.txt",
    "plan.txt.opening/challenges.txt",
    "plan.txt.opening/roots.txt",
    "plan.txt.opening/claim.txt",
];
const SUMMARIES: [&str; 2] = ["plan.txt.seal/summary.txt", "plan.txt.opening/summary.txt"];

#[test]
fn every_text_says_its_format() {
    let desk = Desk::opened("format-lines");
    for name in MARKED {
        assert!(desk.text(name).starts_with(FORMAT), "{name}");
    }
    for name in SUMMARIES {
        let last = format!("Format 1, written by seal {}.", env!("CARGO_PKG_VERSION"));
        assert_eq!(desk.value(name), last, "{name}");
    }
}

#[test]
fn another_format_is_refused_with_the_one_that_is_known() {
    let desk = Desk::opened("other-format");
    let known = format!(
        "and this program, seal {}, knows format 1 alone; a newer program may know it",
        env!("CARGO_PKG_VERSION")
    );
    for name in MARKED {
        let sound = desk.text(name);
        // What follows the line is the newer format's, and may be anything.
        for (format, rest) in [("2", sound.as_str()), ("17", "{}"), ("2", "\u{0}")] {
            let longer = format!("format {format}\n{}", rest.repeat(1000));
            desk.write(name, longer.as_bytes());
            let run = desk.run(CHECK_UNKEPT);
            // The seal is the office's own, and the opening the holder's.
            let is_the_holder_s = name.starts_with("plan.txt.opening");
            run.says(
                if is_the_holder_s { 1 } else { 2 },
                &[
                    &format!("{name} says that it is of format {format}, "),
                    &known,
                ],
            );
            run.does_not_say(&["damaged", "not whole", "position", ": accepted"]);
        }
        desk.write(name, sound.as_bytes());
    }
    desk.check().says(0, &[]);
    desk.keep("challenges.txt");
    let newer = desk.text("challenges.txt").replace(FORMAT, "format 2\n");
    desk.write("challenges.txt", newer.as_bytes());
    desk.run("check plan.txt.opening --seal plan.txt.seal --challenges challenges.txt --at 7")
        .says(2, &["challenges.txt says that it is of format 2, "]);
    desk.write("asked", b"format 2\n7\n");
    desk.run("check plan.txt.opening --seal plan.txt.seal --seed dice --positions asked")
        .says(2, &["asked says that it is of format 2, "]);
    desk.write("asked", b"format 1\n7\n");
    desk.run("check plan.txt.opening --seal plan.txt.seal --seed dice --positions asked --roots kept-roots.txt")
        .says(0, &["accepted: 1 record"]);
}

/// The line is under the check lines as the rest of the file is.
#[test]
fn a_line_that_is_taken_off_is_damage() {
    let desk = Desk::opened("no-line");
    for name in ["parameters.txt", "root.txt"] {
        let path = format!("plan.txt.seal/{name}");
        let sound = desk.text(&path);
        desk.write(&path, sound.strip_prefix(FORMAT).unwrap().as_bytes());
        desk.check().says(
            2,
            &[&format!("{name} and its line in check.txt do not agree")],
        );
        desk.write(&path, sound.as_bytes());
    }
    desk.check().says(0, &[]);
}

/// The names of the folders in a folder.
fn folders(folder: &Path) -> Vec<String> {
    fs::read_dir(folder)
        .unwrap()
        .map(|entry| entry.unwrap())
        .filter(|entry| entry.file_type().unwrap().is_dir())
        .map(|entry| entry.file_name().into_string().unwrap())
        .collect()
}

#[test]
fn what_earlier_versions_made_is_accepted() {
    let versions = folders(&kept(""));
    for known in [
        "0.1.0", "0.2.0", "0.3.0", "0.4.0", "0.5.0", "0.6.0", "0.10.0",
    ] {
        assert!(versions.iter().any(|v| v == known), "{known} is missing");
    }
    for version in versions {
        let desk = Desk::kept(&format!("kept-{version}"), &version);
        // The default had other numbers before version 0.4.0, and its seals name them. What is kept from 0.6.0 on is of the wide set; before, there was one.
        // A manifest has digests from 0.10.0 on.
        let (profile, widths, compared_by) = match version.as_str() {
            "0.1.0" | "0.2.0" | "0.3.0" => ("firstdefault", "present", "roots"),
            "0.4.0" | "0.5.0" => ("default", "present", "roots"),
            "0.6.0" => ("default", "wide", "roots"),
            _ => ("default", "wide", "digests"),
        };
        let accepted =
            "verdict: accepted: 3 records and the tail, fewer than the 40 positions of the profile";
        desk.check().says(0, &[&format!("{accepted} {profile}")]);
        desk.run(CHECK_UNKEPT).says(
            3,
            &[
                "verdict: partly accepted: 3 records, fewer than",
                ". What they show of level 0 is what was deposited.",
            ],
        );
        let named = desk.text("plan.txt.seal/parameters.txt");
        assert_eq!(named.contains("widths"), widths == "wide", "{version}");
        desk.run(&format!("{CHECK} --json"))
            .says(0, &[&format!("\"widths\": \"{widths}\"")]);
        desk.run("verify plan.txt --seal plan.txt.seal")
            .says(0, &["yes: plan.txt is the file that was sealed"]);
        desk.run("tail plan.txt.opening --seal plan.txt.seal")
            .says(3, &[]);
        desk.run("open plan.txt --seal plan.txt.seal --seed dice --at 7,0,127 --out again")
            .says(0, &[]);
        desk.run(&CHECK.replace("plan.txt.opening", "again"))
            .says(0, &["verdict: accepted"]);
        // A project's file has other roots than the plan.
        let plan_s = desk.read(KEPT);
        // Requests and projects came with version 0.3.0.
        if version != "0.1.0" && version != "0.2.0" {
            requests_are_accepted(&desk);
            projects_are_accepted(&desk, profile, widths, compared_by);
        }
        desk.write(KEPT, &plan_s);
        // A damaged one is still told from a sound one.
        desk.damage("plan.txt.opening/query-7.record", 60);
        desk.check()
            .says(1, &["position 7: refused, 18 at level 0"]);
        desk.run("commit plan.txt --force").says(0, &[]);
    }
}

fn requests_are_accepted(desk: &Desk) {
    desk.run("check asked.opening --seal plan.txt.seal --asked plan.txt.asked")
        .says(0, &["verdict: accepted: 3 records and the tail"]);
    desk.run("open plan.txt --seal plan.txt.seal --asked plan.txt.asked --out asked.again")
        .says(0, &["opened 3 positions"]);
    desk.run("ask --seal plan.txt.seal --asked plan.txt.asked --answer plan.txt.answer --out more")
        .says(0, &["drew 40 positions"]);
}

fn projects_are_accepted(desk: &Desk, profile: &str, widths: &str, compared_by: &str) {
    let of = "--seal house.seal --file plans/north.txt";
    desk.run("verify house --seal house.seal")
        .says(0, &["yes: house is the project that was sealed"]);
    desk.keep_roots("house.opening");
    let check = format!("check house.opening {of} --offset 100 --seed dice");
    desk.run(&check)
        .says(3, &["manifest: accepted", "verdict: partly accepted"]);
    desk.run(&format!("{check} --roots {KEPT}"))
        .says(0, &["manifest: accepted", "verdict: accepted: 1 record"]);
    desk.run(&format!(
        "check house.asked.opening {of} --asked house.asked"
    ))
    .says(0, &["verdict: accepted: 3 records"]);
    desk.run(&format!(
        "ask {of} --asked house.asked --answer house.answer --out house.more"
    ))
    .says(0, &["drew 40 positions"]);
    desk.run(&format!(
        "commit house --profile {profile} --widths {widths} --out house.again"
    ))
    .says(0, &[]);
    let [again, then] =
        ["house.again", "house.seal"].map(|seal| desk.text(&format!("{seal}/manifest.txt")));
    if compared_by == "digests" {
        assert_eq!(again, then);
    } else {
        // The manifest has more in it now, and the same roots.
        assert_eq!(in_the_first_form(&again), then);
    }
    desk.run("verify house --seal house.seal --json")
        .says(0, &[&format!("\"compared_by\": \"{compared_by}\"")]);
    desk.run("verify house --seal house.again --json")
        .says(0, &["\"compared_by\": \"digests\""]);
    desk.write("house/plans/north.txt", b"another");
    for seal in ["house.seal", "house.again"] {
        desk.run(&format!("verify house --seal {seal}"))
            .says(1, &["changed: plans/north.txt, which had "]);
    }
}

#[test]
fn the_version_and_the_help_of_every_command() {
    let desk = Desk::new("help");
    let version = format!("seal {}, file format 1\n", env!("CARGO_PKG_VERSION"));
    for words in ["version", "--version", "-V"] {
        assert_eq!(desk.run(words).out, version);
    }
    let all = desk.run("help");
    for words in ["-h", "--help"] {
        assert_eq!(desk.run(words).out, all.out);
    }
    for command in desk.commands() {
        let help = desk.run(&format!("help {command}"));
        help.says(0, &[&format!("seal {command}"), "--json", "Exit status: 0"]);
        assert_ne!(help.out, all.out, "{command}");
        for flag in ["-h", "--help"].iter().filter(|_| command != "help") {
            assert_eq!(
                desk.run(&format!("{command} {flag}")).out,
                help.out,
                "{command} {flag}"
            );
        }
    }
    desk.run("help certify")
        .says(2, &["there is no command `certify`"]);
    desk.run("certify -h")
        .says(2, &["there is no command `certify`"]);
    desk.run("help open check")
        .says(2, &["takes one COMMAND, or none"]);
    desk.run("open").says(
        2,
        &["`seal open` needs one FILE; `seal help open` says more"],
    );
}
