//! A file that cannot be read keeps nothing from the others: `seal verify` of a project goes on and says what it could not read.

mod desk;

use desk::disk::Disk;
use desk::Desk;
use std::fs;

const VERIFY: &str = "verify house --seal house.seal";

/// What is said beside every answer.
const BY: &str = "note: the parts were compared by the BLAKE3 digests that the manifest keeps; --full commits each part anew\n";

const SAID: &str = "seal: it cannot be said whether house is the project that was sealed: 1 file or folder could not be read, or changed meanwhile. All that could be read is as it was sealed\n";

/// A sealed project of a few files.
fn sealed(name: &str) -> Desk {
    let desk = Desk::new(name);
    for folder in ["house", "house/plans", "house/notes"] {
        desk.folder(folder);
    }
    for name in [
        "a.txt",
        "b.txt",
        "plans/c.txt",
        "plans/d.txt",
        "notes/e.txt",
    ] {
        let text = format!("{name}: a ground plan\n").repeat(100);
        desk.write(&format!("house/{name}"), text.as_bytes());
    }
    desk.write("house/empty", b"");
    desk.run("commit house").says(0, &[]);
    desk
}

/// A disk that does not let `b.txt` be opened, and one that fails in its middle.
const BAD: [(Disk, &str); 2] = [
    (
        Disk::Denied("house/b.txt"),
        "unreadable: b.txt: Permission denied\n",
    ),
    (
        Disk::Fails("house/b.txt", 1000),
        "unreadable: b.txt: Input/output error\n",
    ),
];

#[test]
fn a_file_that_cannot_be_read_is_listed_and_the_others_are_verified() {
    let desk = sealed("unreadable");
    for (disk, listed) in &BAD {
        let run = desk.on(disk, VERIFY);
        run.says(2, &[]);
        assert_eq!((&*run.out, &*run.err), (&*format!("{listed}{BY}"), SAID));
    }
    desk.write("house/a.txt", b"another plan\n");
    fs::remove_file(desk.path("house/notes/e.txt")).unwrap();
    desk.write("house/plans/new.txt", b"a new plan\n");
    for (disk, listed) in &BAD {
        let run = desk.on(disk, VERIFY);
        run.says(
            1,
            &[
                "no: house is not the project that was sealed\n",
                "changed: a.txt, which had 2100 bytes and has 13\n",
                "missing: notes/e.txt\n",
                "new: plans/new.txt\n",
                listed,
                "note: 1 file or folder could not be read, or changed meanwhile; nothing is said of the bytes there\n",
            ],
        );
        assert_eq!(run.err, "");
    }
}

#[test]
fn what_could_not_be_read_for_programs() {
    let desk = sealed("unreadable-json");
    let json = format!("{VERIFY} --json");
    desk.on(&BAD[1].0, &json).says(
        2,
        &[
            "\"verdict\": \"could-not-run\", \"accepted\": false, \"exit\": 2",
            "\"sentence\": \"it cannot be said whether house is the project that was sealed: 1 file or folder could not be read, or changed meanwhile.",
            "\"changed\": [], \"missing\": [], \"new\": [], \"moved\": [], \"unreadable\": [{\"path\": \"b.txt\", \"why\": \"Input/output error\", \"kind\": \"file\"}]",
        ],
    );
    desk.write("house/a.txt", b"another plan\n");
    desk.on(&BAD[1].0, &json).says(
        1,
        &[
            "\"verdict\": \"refused\"",
            "\"changed\": [{\"path\": \"a.txt\", \"kind\": \"length\", \"first_differing\": {\"from\": 0, \"to\": 2099}, \"bytes_then\": 2100, \"bytes_now\": 13}]",
            "\"unreadable\": [{\"path\": \"b.txt\", \"why\": \"Input/output error\", \"kind\": \"file\"}]",
        ],
    );
}

#[test]
fn a_folder_that_cannot_be_read_hides_what_is_below_it_and_nothing_else() {
    let desk = sealed("unreadable-folder");
    let disk = Disk::Denied("house/plans");
    let run = desk.on(&disk, VERIFY);
    run.says(2, &["unreadable: plans: Permission denied\n", SAID]);
    run.does_not_say(&["missing"]);
    fs::remove_file(desk.path("house/notes/e.txt")).unwrap();
    let run = desk.on(&disk, VERIFY);
    run.says(
        1,
        &[
            "missing: notes/e.txt\n",
            "unreadable: plans: Permission denied\n",
        ],
    );
    run.does_not_say(&["plans/"]);
    // The project's own folder is the whole of it.
    desk.on(&Disk::Denied("house"), VERIFY)
        .says(2, &["seal: cannot read house: Permission denied"]);
}

#[test]
fn a_file_of_another_length_is_known_to_differ_though_it_cannot_be_read() {
    let desk = sealed("unreadable-length");
    desk.write("house/b.txt", b"another plan\n");
    desk.on(&Disk::Denied("house/b.txt"), VERIFY).says(
        1,
        &[
            "changed: b.txt, which had 2100 bytes and has 13\n",
            "unreadable: b.txt: Permission denied\n",
        ],
    );
    desk.write("house/new", b"another plan\n");
    desk.on(&Disk::Denied("house/new"), VERIFY)
        .says(1, &["new: new\n", "unreadable: new: Permission denied\n"]);
}

#[test]
fn a_moved_file_is_known_by_its_bytes() {
    let desk = sealed("moved");
    let moved = |from: &str, to: &str| {
        let path = |name| desk.path(&format!("house/{name}"));
        fs::rename(path(from), path(to)).unwrap();
    };
    moved("plans/c.txt", "notes/section.txt");
    moved("a.txt", "z.txt");
    moved("empty", "still empty");
    let run = desk.run(VERIFY);
    run.says(
        1,
        &[
            "missing: empty\n",
            "new: still empty\n",
            "moved: a.txt, which is now z.txt\nmoved: plans/c.txt, which is now notes/section.txt\n",
        ],
    );
    run.does_not_say(&["changed", "missing: a", "missing: p", "new: n", "new: z"]);
    desk.run(&format!("{VERIFY} --json"))
        .says(1, &["\"moved\": [{\"from\": \"a.txt\", \"to\": \"z.txt\", \"kind\": \"file\"}, {\"from\": \"plans/c.txt\", \"to\": \"notes/section.txt\", \"kind\": \"file\"}]"]);
}

#[test]
fn a_project_with_a_file_that_cannot_be_read_is_not_sealed() {
    let desk = sealed("unreadable-commit");
    for (disk, why) in [
        (
            Disk::Denied("house/b.txt"),
            "house/b.txt: Permission denied",
        ),
        (
            Disk::Fails("house/b.txt", 1000),
            "house/b.txt: Input/output error",
        ),
        (
            Disk::Denied("house/plans"),
            "house/plans: Permission denied",
        ),
    ] {
        desk.on(&disk, "commit house --out other")
            .says(2, &[&format!("cannot read {why}")]);
        assert!(!desk.path("other").exists());
    }
    desk.on(
        &Disk::Fails("house/b.txt", 1000),
        "commit house/b.txt --out other",
    )
    .says(2, &["cannot read house/b.txt: Input/output error"]);
    assert!(!desk.path("other").exists());
}

#[test]
fn a_seal_that_has_lost_its_manifest_and_a_file_that_cannot_be_read() {
    let desk = sealed("unreadable-manifest");
    fs::remove_file(desk.path("house.seal/manifest.txt")).unwrap();
    desk.run(VERIFY).says(0, &["yes: "]);
    let lost = "note: the seal has no manifest.txt, so it cannot be said which files differ\n";
    let run = desk.on(&BAD[0].0, VERIFY);
    run.says(
        2,
        &[lost, BAD[0].1, "seal: it cannot be said whether house"],
    );
    run.does_not_say(&["new: ", "missing: "]);
    desk.write("house/a.txt", b"another plan\n");
    desk.run(VERIFY).says(1, &["no: ", lost]);
}
