//! What the program writes and replaces: never what it did not write, one of two runs at once, and nothing of an interrupted run.

mod desk;

use desk::{plan, Desk, Run, KEPT};
use std::fs::{self, File};
use std::os::raw::c_int;
use std::os::unix::io::AsRawFd;
use std::process::{Child, Command, Stdio};
use std::time::Duration;

extern "C" {
    fn flock(file: c_int, operation: c_int) -> c_int;
}

#[test]
fn a_folder_of_drawings_is_never_replaced() {
    let desk = Desk::opened("drawings");
    desk.folder("drawings");
    desk.write("drawings/summary.txt", b"A list of our drawings");
    desk.write("drawings/north.dwg", b"keep");
    for words in [
        "commit plan.txt --out drawings --force",
        "open plan.txt --seal plan.txt.seal --seed dice --at 7 --out drawings --force",
    ] {
        desk.run(words)
            .says(2, &["drawings exists", "It is left alone"]);
    }
    assert_eq!(desk.read("drawings/north.dwg"), b"keep");
    assert_eq!(desk.names("drawings"), ["north.dwg", "summary.txt"]);
}

#[test]
fn a_seal_replaces_a_seal_and_an_opening_an_opening() {
    let desk = Desk::opened("kinds");
    let root = desk.read("plan.txt.seal/root.txt");
    desk.run("open plan.txt --seal plan.txt.seal --seed dice --at 7 --out plan.txt.seal --force")
        .says(
            2,
            &["plan.txt.seal exists, and is not an opening that this program wrote"],
        );
    desk.run("commit plan.txt --out plan.txt.opening --force")
        .says(
            2,
            &["plan.txt.opening exists, and is not a seal that this program wrote"],
        );
    assert_eq!(desk.read("plan.txt.seal/root.txt"), root);
    desk.check().says(0, &[]);
    desk.write("plan.txt", b"another");
    desk.run("commit plan.txt")
        .says(2, &["plan.txt.seal exists", "--force replaces it"]);
    assert_eq!(desk.read("plan.txt.seal/root.txt"), root);
    desk.run("commit plan.txt --force").says(
        0,
        &["sealed plan.txt: 7 bytes as 2 words (n = 1, k = 2, present widths)"],
    );
    assert_ne!(desk.read("plan.txt.seal/root.txt"), root);
    desk.run("open plan.txt --seal plan.txt.seal --seed dice --force")
        .says(0, &["opened 8 positions"]);
    assert_eq!(
        desk.names("."),
        [KEPT, "plan.txt", "plan.txt.opening", "plan.txt.seal"]
    );
}

#[test]
fn a_seal_or_an_opening_that_somebody_changed_is_not_replaced() {
    let desk = Desk::opened("changed");
    let changes: [(&str, &str); 4] = [
        ("plan.txt.seal/notes.txt", "our notes"),
        ("plan.txt.seal/summary.txt", "A deposit seal.\nOur notes"),
        ("plan.txt.opening/query-007.record", "a letter"),
        ("plan.txt.opening/challenges.txt", "our own"),
    ];
    for (name, text) in changes {
        let before = fs::read(desk.path(name)).ok();
        desk.write(name, text.as_bytes());
        let command = if name.contains("seal/") {
            "commit plan.txt --force"
        } else {
            "open plan.txt --seal plan.txt.seal --seed dice --at 7 --force"
        };
        desk.run(command).says(2, &["It is left alone"]);
        assert_eq!(desk.text(name), text);
        match before {
            Some(bytes) => desk.write(name, &bytes),
            None => fs::remove_file(desk.path(name)).unwrap(),
        }
    }
    desk.run("commit plan.txt --force").says(0, &[]);
    // A link to a folder is not the folder.
    std::os::unix::fs::symlink("plan.txt.seal", desk.path("linked")).unwrap();
    desk.run("commit plan.txt --out linked --force")
        .says(2, &["linked exists", "it is no folder"]);
}

#[test]
fn an_old_seal_and_an_old_opening_are_replaced() {
    let desk = Desk::old("old-replaced");
    desk.run("open plan.txt --seal plan.txt.seal --seed dice --at 7 --force")
        .says(0, &[]);
    desk.run("commit plan.txt --force").says(0, &[]);
    assert!(desk.names("plan.txt.seal").contains(&"check.txt".into()));
    desk.folder("letters");
    for name in ["parameters.txt", "root.txt", "summary.txt"] {
        desk.write(&format!("letters/{name}"), b"our own");
    }
    desk.run("commit plan.txt --out letters --force")
        .says(2, &["its summary.txt is not that of a seal"]);
    assert_eq!(desk.read("letters/root.txt"), b"our own");
}

/// Waits until a run waits for the lock: it then has the folder open for longer than a look at it takes.
fn wait_for(child: &Child, desk: &Desk) {
    let parent = desk.0.canonicalize().unwrap();
    let open = || {
        fs::read_dir(format!("/proc/{}/fd", child.id()))
            .unwrap()
            .filter_map(|entry| fs::read_link(entry.ok()?.path()).ok())
            .any(|path| path == parent)
    };
    let mut in_a_row = 0;
    for _ in 0..300 {
        in_a_row = if open() { in_a_row + 1 } else { 0 };
        if in_a_row == 4 {
            return;
        }
        std::thread::sleep(Duration::from_millis(100));
    }
    panic!("the run does not wait for the lock");
}

/// Runs that wait for the parent folder's lock are let go together, so that they overlap for certain.
fn at_once(desk: &Desk, commands: &[&str], meanwhile: impl FnOnce()) -> Vec<Run> {
    let parent = File::open(&desk.0).unwrap();
    assert_eq!(unsafe { flock(parent.as_raw_fd(), 2) }, 0);
    let started: Vec<_> = commands
        .iter()
        .map(|words| {
            desk.command(words.split_whitespace())
                .stdout(Stdio::piped())
                .stderr(Stdio::piped())
                .spawn()
                .unwrap()
        })
        .collect();
    started.iter().for_each(|child| wait_for(child, desk));
    meanwhile();
    drop(parent);
    let text = |bytes| String::from_utf8(bytes).unwrap();
    started
        .into_iter()
        .map(|child| {
            let output = child.wait_with_output().unwrap();
            Run {
                status: output.status.code().unwrap(),
                out: text(output.stdout),
                err: text(output.stderr),
            }
        })
        .collect()
}

#[test]
fn of_two_runs_into_one_folder_one_wins() {
    let desk = Desk::opened("two-runs");
    desk.write("first", b"the first file");
    desk.write("second", &plan());
    for (folder, force) in [("new", ""), ("new", " --force")] {
        let commands =
            ["first", "second"].map(|file| format!("commit {file} --out {folder}{force}"));
        let runs = at_once(&desk, &[&commands[0], &commands[1]], || ());
        let mut statuses: Vec<i32> = runs.iter().map(|run| run.status).collect();
        statuses.sort_unstable();
        assert_eq!(statuses, [0, 2], "{runs:?}");
        let (won, lost) = if runs[0].status == 0 { (0, 1) } else { (1, 0) };
        runs[lost].says(2, &["another run wrote new in the meantime"]);
        let root = desk.value("new/root.txt");
        runs[won].says(0, &[&root]);
        assert_eq!(
            desk.names("new"),
            ["check.txt", "parameters.txt", "root.txt", "summary.txt"]
        );
    }
    assert_eq!(
        desk.names("."),
        [
            "first",
            KEPT,
            "new",
            "plan.txt",
            "plan.txt.opening",
            "plan.txt.seal",
            "second"
        ]
    );
}

#[test]
fn what_somebody_adds_during_a_run_is_kept() {
    let desk = Desk::opened("added");
    let add = || desk.write("plan.txt.seal/letter.txt", b"keep");
    let runs = at_once(&desk, &["commit plan.txt --force"], add);
    runs[0].says(2, &["or somebody changed it; it is left as it is"]);
    assert_eq!(desk.read("plan.txt.seal/letter.txt"), b"keep");
    assert_eq!(
        desk.names("."),
        [KEPT, "plan.txt", "plan.txt.opening", "plan.txt.seal"]
    );
}

#[test]
fn many_runs_at_once_leave_one_whole_folder() {
    let desk = Desk::new("many-runs");
    for i in 0..8 {
        desk.write(&format!("f{i}"), &[i; 100]);
    }
    for round in 0..5 {
        let folder = format!("out{round}");
        let children: Vec<_> = (0..8)
            .map(|i| {
                let words = [
                    String::from("commit"),
                    format!("f{i}"),
                    "--out".into(),
                    folder.clone(),
                ];
                desk.command(words)
                    .stdout(Stdio::null())
                    .stderr(Stdio::null())
                    .spawn()
                    .unwrap()
            })
            .collect();
        let won = children
            .into_iter()
            .map(|mut child| child.wait().unwrap().code().unwrap())
            .filter(|status| *status == 0)
            .count();
        assert_eq!(won, 1);
        assert_eq!(desk.names(&folder).len(), 4);
    }
    assert_eq!(desk.names(".").len(), 8 + 5);
}

#[test]
fn what_an_interrupted_run_left_is_said_and_cleared() {
    let desk = Desk::opened("interrupted");
    desk.folder("plan.txt.seal.unfinished-4242");
    desk.write("plan.txt.seal.unfinished-4242/parameters.txt", b"n 6");
    desk.run("commit plan.txt").says(
        2,
        &[
            "plan.txt.seal exists",
            "an interrupted run had left plan.txt.seal.unfinished-4242; it was removed",
        ],
    );
    // The folder had been set aside, and the new one was not in its place yet.
    let root = desk.read("plan.txt.seal/root.txt");
    fs::rename(
        desk.path("plan.txt.seal"),
        desk.path("plan.txt.seal.replaced-4242"),
    )
    .unwrap();
    desk.run("commit plan.txt").says(2, &["it was put back"]);
    assert_eq!(desk.read("plan.txt.seal/root.txt"), root);
    // The new one was in its place, and the old one not removed yet.
    desk.folder("plan.txt.opening.replaced-7");
    desk.write("plan.txt.opening.replaced-7/query-3.record", b"");
    desk.run("open plan.txt --seal plan.txt.seal --seed dice --at 7 --force")
        .says(
            0,
            &["note: an interrupted run had left plan.txt.opening.replaced-7; it was removed"],
        );
    assert_eq!(
        desk.names("."),
        [KEPT, "plan.txt", "plan.txt.opening", "plan.txt.seal"]
    );
    // What only looks like it is nobody's to remove.
    desk.folder("plan.txt.seal.unfinished-1");
    desk.write("plan.txt.seal.unfinished-1/letter.txt", b"keep");
    desk.run("commit plan.txt --force").says(0, &["note: plan.txt.seal.unfinished-1 stands beside it and holds files that this program did not write; it is left alone"]);
    assert_eq!(desk.read("plan.txt.seal.unfinished-1/letter.txt"), b"keep");
}

/// A limit on the size of files ends the run in the middle of a record.
#[test]
fn a_run_that_ends_in_the_middle_of_a_file_is_cleared_by_the_next() {
    let desk = Desk::opened("middle");
    let open = "open plan.txt --seal plan.txt.seal --seed dice --at 7,0,127 --force";
    let limited = format!(
        "ulimit -c 0; ulimit -f 2; exec {} {open}",
        env!("CARGO_BIN_EXE_seal")
    );
    let ended = Run::of(
        Command::new("sh")
            .args(["-c", &limited])
            .current_dir(&desk.0),
    );
    assert_eq!(ended.status, -1, "{ended:?}");
    let left = desk.names(".");
    assert!(
        left.iter()
            .any(|name| name.starts_with("plan.txt.opening.unfinished-")),
        "{left:?}"
    );
    // What stood there before is whole.
    desk.check().says(0, &[]);
    desk.run(open).says(
        0,
        &[
            "note: an interrupted run had left plan.txt.opening.unfinished-",
            "it was removed",
        ],
    );
    assert_eq!(
        desk.names("."),
        [KEPT, "plan.txt", "plan.txt.opening", "plan.txt.seal"]
    );
}

#[test]
fn a_killed_run_leaves_nothing_that_the_next_one_does_not_clear() {
    let desk = Desk::opened("killed");
    for delay in [0u64, 1, 2, 4, 8] {
        let mut child = desk
            .command("open plan.txt --seal plan.txt.seal --seed dice --force".split_whitespace())
            .stdout(Stdio::null())
            .spawn()
            .unwrap();
        std::thread::sleep(Duration::from_millis(delay));
        let _ = child.kill();
        child.wait().unwrap();
    }
    desk.run("open plan.txt --seal plan.txt.seal --seed dice --at 7,0,127 --force")
        .says(0, &[]);
    assert_eq!(
        desk.names("."),
        [KEPT, "plan.txt", "plan.txt.opening", "plan.txt.seal"]
    );
    desk.check().says(0, &[]);
}

/// A name may not write lines of its own into a summary.
#[test]
fn a_name_cannot_forge_a_summary() {
    let desk = Desk::new("forged-summary");
    let name = "x\nRoot: 0\u{1b}[2J";
    desk.write(name, &plan());
    desk.seal(["commit", name, "--out", "s"]).says(0, &[]);
    let open = [
        "open", name, "--seal", "s", "--seed", "dice", "--at", "7", "--out", "o",
    ];
    desk.seal(open).says(0, &[]);
    for folder in ["s", "o"] {
        let summary = desk.text(&format!("{folder}/summary.txt"));
        assert!(summary.contains("x\\u{a}Root: 0\\u{1b}[2J"), "{summary}");
        assert!(!summary.contains("\nRoot: 0"), "{summary}");
    }
}

#[test]
fn a_folder_that_cannot_be_written_is_said_before_the_work() {
    let desk = Desk::opened("no-parent");
    desk.run("commit plan.txt --out absent/seal")
        .says(2, &["cannot write into the folder absent"]);
    desk.run("commit plan.txt --out ..")
        .says(2, &["is no name for a new folder"]);
}
