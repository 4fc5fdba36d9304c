//! Openings as a hostile or careless holder sends them: nothing that was not read counts as accepted, and nothing stalls the check.

mod desk;

use desk::{Desk, CHECK, CHECK_UNKEPT, KEPT};
use std::ffi::CString;
use std::fs::{self, File};
use std::os::raw::{c_char, c_int};
use std::os::unix::ffi::OsStrExt;
use std::os::unix::fs::symlink;
use std::path::Path;

extern "C" {
    fn mkfifo(path: *const c_char, mode: u32) -> c_int;
}

fn named_pipe(path: &Path) {
    let path = CString::new(path.as_os_str().as_bytes()).unwrap();
    assert_eq!(unsafe { mkfifo(path.as_ptr(), 0o600) }, 0);
}

#[test]
fn two_files_for_one_position_are_refused() {
    let desk = Desk::opened("two-files");
    desk.write("plan.txt.opening/query-007.record", b"anything");
    desk.check().says(
        1,
        &["position 7: refused: the opening has 2 files for it: query-007.record, query-7.record"],
    );
    fs::remove_file(desk.path("plan.txt.opening/query-007.record")).unwrap();
    desk.check().says(0, &[]);
}

#[test]
fn only_the_exact_name_is_a_record() {
    let desk = Desk::opened("exact-name");
    fs::rename(
        desk.path("plan.txt.opening/query-7.record"),
        desk.path("plan.txt.opening/query-+7.record"),
    )
    .unwrap();
    let run = desk.check();
    run.says(
        1,
        &[
            "position 7: refused: the opening has no record at this position",
            "not checked: query-+7.record",
        ],
    );
    run.does_not_say(&["position 7: accepted"]);
}

#[test]
fn what_was_not_checked_is_named() {
    let desk = Desk::opened("not-checked");
    desk.write("plan.txt.opening/letter.txt", b"Dear checker");
    desk.folder("plan.txt.opening/more");
    let ask =
        format!("check plan.txt.opening --seal plan.txt.seal --seed dice --at 7 --roots {KEPT}");
    desk.run(&ask).says(
        0,
        &[
            "not checked: letter.txt, more, query-0.record, query-127.record",
            "accepted: 1 record and the tail",
        ],
    );
    let json = desk.run(&format!("{ask} --json"));
    json.says(
        0,
        &["\"not_checked\": [\"letter.txt\", \"more\", \"query-0.record\", \"query-127.record\"]"],
    );
    desk.check().says(0, &["not checked: letter.txt, more\n"]);
    let desk = Desk::opened("all-checked");
    desk.check().does_not_say(&["not checked"]);
}

/// A name may not write a line of its own, nor move a terminal's cursor.
#[test]
fn a_name_cannot_forge_a_verdict() {
    let desk = Desk::opened("forged");
    desk.write("plan.txt.opening/x\nverdict: accepted\x1b[2J\u{202e}", b"");
    let run = desk.run("check plan.txt.opening --seal plan.txt.seal --seed dice --at 7,8");
    run.says(1, &["not checked: query-0.record, query-127.record, x\\u{a}verdict: accepted\\u{1b}[2J\\u{202e}\n"]);
    assert_eq!(
        run.out
            .lines()
            .filter(|line| line.starts_with("verdict: "))
            .count(),
        1
    );
    desk.run("check plan.txt.opening --seal plan.txt.seal --own-questions --json")
        .does_not_say(&["\x1b", "\u{202e}"]);
}

#[test]
fn pipes_links_devices_and_folders_are_not_opened() {
    type Make = fn(&Path);
    let kinds: [(&str, Make); 5] = [
        ("a named pipe", named_pipe),
        ("a link", |path| symlink("/dev/zero", path).unwrap()),
        ("a link", |path| symlink("query-0.record", path).unwrap()),
        ("a link", |path| symlink("absent", path).unwrap()),
        ("a folder", |path| fs::create_dir(path).unwrap()),
    ];
    let desk = Desk::opened("not-regular");
    for (what, make) in kinds {
        for name in [
            "query-7.record",
            "tail.record",
            "roots.txt",
            "claim.txt",
            "challenges.txt",
            "parameters.txt",
            "check.txt",
        ] {
            let path = desk.path("plan.txt.opening").join(name);
            let sound = fs::read(&path).unwrap();
            fs::remove_file(&path).unwrap();
            make(&path);
            let run = desk.limited(CHECK_UNKEPT);
            match name {
                "query-7.record" => run.says(
                    1,
                    &[&format!(
                        "position 7: refused: query-7.record: it is {what}, not a file"
                    )],
                ),
                // The checker's own count, and check lines only help to explain.
                "challenges.txt" | "parameters.txt" | "check.txt" => run.says(3, &[]),
                _ => run.says(
                    1,
                    &[
                        &format!("{name}: it is {what}, not a file"),
                        "Ask the holder for it again",
                    ],
                ),
            }
            // So do roots that were kept.
            if name == "roots.txt" {
                desk.limited(CHECK).says(0, &[]);
            }
            fs::remove_file(&path)
                .or_else(|_| fs::remove_dir(&path))
                .unwrap();
            fs::write(&path, sound).unwrap();
        }
    }
    for name in ["parameters.txt", "root.txt", "check.txt"] {
        let path = desk.path("plan.txt.seal").join(name);
        let sound = fs::read(&path).unwrap();
        fs::remove_file(&path).unwrap();
        named_pipe(&path);
        desk.limited(CHECK).says(
            2,
            &[
                "the seal in plan.txt.seal is damaged",
                &format!("{name}: it is a named pipe"),
            ],
        );
        fs::remove_file(&path).unwrap();
        fs::write(&path, sound).unwrap();
    }
    desk.limited(CHECK).says(0, &[]);
}

#[test]
fn files_that_the_command_line_names_are_regular_too() {
    let desk = Desk::opened("named-pipes");
    named_pipe(&desk.path("pipe"));
    desk.keep("challenges.txt");
    symlink("challenges.txt", desk.path("linked")).unwrap();
    let check = "check plan.txt.opening --seal plan.txt.seal --at 7";
    desk.limited(&format!("{check} --challenges linked --roots {KEPT}"))
        .says(0, &[]);
    for words in [
        &format!("{check} --challenges pipe"),
        &format!("{check} --seed dice --roots pipe"),
        "check plan.txt.opening --seal plan.txt.seal --seed dice --positions pipe",
        "commit pipe",
        "compare pipe pipe --opening plan.txt.opening --seal plan.txt.seal --at 7",
    ] {
        desk.limited(words)
            .says(2, &["it is a named pipe, not a file"]);
    }
    desk.limited(&format!("{check} --challenges plan.txt.seal"))
        .says(2, &["it is a folder, not a file"]);
}

#[test]
fn huge_files_are_read_no_further_than_a_record_goes() {
    let desk = Desk::opened("huge");
    for name in [
        "query-7.record",
        "tail.record",
        "roots.txt",
        "claim.txt",
        "challenges.txt",
        "parameters.txt",
        "check.txt",
    ] {
        let path = desk.path("plan.txt.opening").join(name);
        let sound = fs::read(&path).unwrap();
        let file = fs::OpenOptions::new().write(true).open(&path).unwrap();
        file.set_len(1 << 40).unwrap();
        let run = desk.limited(CHECK_UNKEPT);
        match name {
            "query-7.record" => run.says(1, &["position 7: refused, 14:"]),
            "tail.record" => run.says(1, &["tail: refused, 14:"]),
            "challenges.txt" | "parameters.txt" | "check.txt" => run.says(3, &[]),
            _ => run.says(1, &[&format!("{name}: it has more than the")]),
        }
        drop(file);
        fs::write(&path, sound).unwrap();
    }
    desk.limited(CHECK).says(0, &[]);
}

#[test]
fn a_folder_of_very_many_files_is_refused_at_once() {
    let desk = Desk::opened("many-files");
    for i in 0..20_000 {
        File::create(
            desk.path("plan.txt.opening")
                .join(format!("query-{}.record", 1000 + i)),
        )
        .unwrap();
    }
    for words in [
        CHECK,
        "check plan.txt.opening --seal plan.txt.seal --own-questions",
        "tail plan.txt.opening --seal plan.txt.seal",
    ] {
        desk.limited(words).says(1, &["holds more than 148 files"]);
    }
    fs::remove_dir_all(&desk.0).unwrap();
}

#[test]
fn an_opening_of_every_position_is_no_folder_of_too_many_files() {
    let desk = Desk::opened("every-position");
    let all: Vec<String> = (0..256).map(|p| p.to_string()).collect();
    desk.write("all", all.join("\n").as_bytes());
    desk.run("open plan.txt --seal plan.txt.seal --seed dice --positions all --out whole")
        .says(0, &["opened 256 positions"]);
    desk.run(&format!(
        "check whole --seal plan.txt.seal --seed dice --positions all --roots {KEPT}"
    ))
    .says(0, &["accepted: 256 records and the tail"]);
}
