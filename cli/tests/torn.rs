//! A file that is written to while it is read, and a folder in which files come and go meanwhile: nothing is sealed, opened or said of a state that never was.

mod desk;

use desk::disk::Disk;
use desk::{Desk, Run};

/// The bytes of a part of a file in a project.
const PART: u64 = 16_777_200;

/// A byte in the middle of `plan.txt`.
const MIDDLE: u64 = 100_000;

const CHANGED: &str = "plan.txt: it was changed while it was read";

/// What is done to `plan.txt` while it is read: a byte near its front and one near its end are written, and its length stays.
const WRITTEN: &str =
    "for at in 3 199990; do printf X | dd of=plan.txt conv=notrunc bs=1 seek=$at status=none; done";

/// Another file with the same bytes and times takes its place.
const REPLACED: &str = "cp -p plan.txt other && mv other plan.txt";

/// It is written as it was.
const TOUCHED: &str = "touch plan.txt";

const REMOVED: &str = "rm plan.txt";

/// A desk with a file of 200,000 bytes.
fn with_a_file(name: &str) -> Desk {
    let desk = Desk::new(name);
    let line = b"a ground plan, and a section through the stairs and the roof";
    let bytes: Vec<u8> = line.iter().copied().cycle().take(200_000).collect();
    desk.write("plan.txt", &bytes);
    desk
}

/// Runs the program while something is done to `plan.txt`.
fn while_read(desk: &Desk, does: &str, line: &str) -> Run {
    desk.on(&Disk::Runs("plan.txt", MIDDLE, does), line)
}

#[test]
fn a_file_that_changes_while_it_is_sealed_is_not_sealed() {
    for (i, does) in [WRITTEN, REPLACED, TOUCHED, REMOVED].iter().enumerate() {
        let desk = with_a_file(&format!("torn-commit-{i}"));
        let before = desk.names(".");
        let run = while_read(&desk, does, "commit plan.txt");
        run.says(
            2,
            &[CHANGED, "Run the command again when nobody writes to it"],
        );
        assert_eq!(run.out, "", "{does}");
        // Nothing is left: no seal, and no part of one.
        let left = desk.names(".");
        assert!(left.iter().all(|name| before.contains(name)), "{left:?}");
    }
    let desk = with_a_file("torn-commit-json");
    while_read(&desk, WRITTEN, "commit plan.txt --json").says(
        2,
        &["\"verdict\": \"could-not-run\"", "\"exit\": 2", CHANGED],
    );
}

/// The file that was opened stays as it is, and its path leads to another one.
#[test]
fn a_path_that_leads_to_another_file_meanwhile() {
    let desk = with_a_file("torn-link");
    std::fs::rename(desk.path("plan.txt"), desk.path("first")).unwrap();
    std::fs::copy(desk.path("first"), desk.path("second")).unwrap();
    std::os::unix::fs::symlink("first", desk.path("plan.txt")).unwrap();
    desk.run("commit plan.txt --out seal").says(0, &[]);
    let before = desk.names(".");
    for line in [
        "commit plan.txt",
        "verify plan.txt --seal seal",
        "open plan.txt --seal seal --seed dice --at 7",
    ] {
        let disk = Disk::Runs("first", MIDDLE, "ln -sfn second plan.txt");
        desk.on(&disk, line).says(2, &[CHANGED]);
        assert_eq!(desk.names("."), before, "{line}");
        std::fs::remove_file(desk.path("plan.txt")).unwrap();
        std::os::unix::fs::symlink("first", desk.path("plan.txt")).unwrap();
    }
}

#[test]
fn what_happens_to_other_files_is_no_matter() {
    let desk = with_a_file("torn-others");
    while_read(&desk, "touch other", "commit plan.txt").says(0, &[]);
    // A file that was written just before is sealed all the same.
    desk.write("plan.txt", b"a ground plan");
    desk.run("commit plan.txt --force").says(0, &[]);
    desk.run("verify plan.txt --seal plan.txt.seal")
        .says(0, &["yes: "]);
}

#[test]
fn nothing_is_said_of_a_file_that_changes_while_it_is_verified_or_opened() {
    for (i, does) in [WRITTEN, REPLACED, TOUCHED].iter().enumerate() {
        for (command, more) in [("verify", ""), ("open", "--seed dice --at 7")] {
            let desk = with_a_file(&format!("torn-{command}-{i}"));
            desk.run("commit plan.txt").says(0, &[]);
            let before = desk.names(".");
            let line = format!("{command} plan.txt --seal plan.txt.seal {more}");
            let run = while_read(&desk, does, &line);
            run.says(2, &[CHANGED]);
            run.does_not_say(&["yes: ", "no: ", "is not the file that was sealed"]);
            assert_eq!(desk.names("."), before, "{command} {does}");
        }
    }
}

/// A project with a file of two parts and some small ones. The large one is read first, part by part on one thread.
fn with_a_project(name: &str) -> Desk {
    let desk = Desk::new(name);
    desk.folder("house");
    desk.folder("house/plans");
    for name in ["a.txt", "plans/b.txt", "plans/c.txt"] {
        desk.write(&format!("house/{name}"), format!("{name}\n").as_bytes());
    }
    let large = std::fs::File::create(desk.path("house/large")).unwrap();
    large.set_len(PART + 1000).unwrap();
    desk
}

const COMMIT: &str = "commit house --k 1 --domain d --threads 1";
const VERIFY: &str = "verify house --seal house.seal --threads 1";

/// What is done in the project while the second part of its large file is read, which file is named for it, and how.
const IN_THE_PROJECT: [(&str, &str, &str); 7] = [
    // One byte near the front and one near the end: no reader that takes the parts one after the other sees both, or neither.
    (
        "for at in 5 16778100; do printf X | dd of=house/large conv=notrunc bs=1 seek=$at status=none; done",
        "large",
        "it was changed while it was read",
    ),
    ("truncate -s +1 house/large", "large", "it was changed while it was read"),
    ("printf a.TXT >house/a.txt", "a.txt", "it was changed while it was read"),
    (
        "cp -p house/a.txt other && mv other house/a.txt",
        "a.txt",
        "it was changed while it was read",
    ),
    ("rm house/plans/b.txt", "plans/b.txt", "it was changed while it was read"),
    (
        "touch house/plans/new",
        "plans/new",
        "it was added while the project was read",
    ),
    (
        "ln -s a.txt house/link",
        "link",
        "it was added while the project was read",
    ),
];

#[test]
fn a_project_that_changes_while_it_is_sealed_is_not_sealed() {
    for (i, (does, file, said)) in IN_THE_PROJECT.iter().enumerate() {
        let desk = with_a_project(&format!("torn-project-{i}"));
        let disk = Disk::Runs("house/large", PART, does);
        let run = desk.on(&disk, COMMIT);
        run.says(2, &[&format!("house/{file}: {said}")]);
        assert_eq!(desk.names("."), ["house"], "{does}");
    }
}

/// A small file is read at the end, so that it has been read when something happens to one that was read before.
#[test]
fn a_file_that_changes_after_it_was_read_and_before_the_others_were() {
    let desk = with_a_project("torn-after");
    let does = "printf X | dd of=house/large conv=notrunc bs=1 seek=5 status=none";
    let run = desk.on(&Disk::Runs("house/plans/c.txt", 0, does), COMMIT);
    run.says(
        2,
        &["house/large: it was changed while the project was read"],
    );
    assert_eq!(desk.names("."), ["house"]);
}

#[test]
fn no_answer_is_given_of_a_project_that_changes_while_it_is_verified() {
    for (i, (does, file, said)) in IN_THE_PROJECT.iter().enumerate() {
        let desk = with_a_project(&format!("torn-verify-project-{i}"));
        desk.run(COMMIT).says(0, &[]);
        let disk = Disk::Runs("house/large", PART, does);
        let run = desk.on(&disk, VERIFY);
        run.says(
            2,
            &[
                &format!("unreadable: {file}: {said}"),
                "seal: it cannot be said whether house is the project that was sealed",
            ],
        );
        run.does_not_say(&["yes: ", "no: ", "missing: ", "\nnew: ", "\nchanged: "]);
    }
    // What is known to differ is said all the same.
    let desk = with_a_project("torn-verify-differs");
    desk.run(COMMIT).says(0, &[]);
    desk.write("house/plans/c.txt", b"plans/C.txt\n");
    let (does, _, said) = IN_THE_PROJECT[0];
    desk.on(&Disk::Runs("house/large", PART, does), VERIFY)
        .says(
            1,
            &[
                "changed: plans/c.txt\n",
                &format!("unreadable: large: {said}"),
            ],
        );
}

#[test]
fn a_file_of_a_project_that_changes_while_it_is_opened() {
    let desk = with_a_project("torn-open-project");
    desk.run(COMMIT).says(0, &[]);
    let before = desk.names(".");
    let open = "open house --seal house.seal --file large --offset 16777700 --seed dice";
    let (does, _, said) = IN_THE_PROJECT[0];
    let run = desk.on(&Disk::Runs("house/large", PART + 500, does), open);
    run.says(2, &[&format!("house/large: {said}")]);
    assert_eq!(desk.names("."), before);
}
