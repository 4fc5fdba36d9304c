//! A file that a deposit does not hold, a manifest that one does not hold, and what is noticed before the work.

mod desk;

use desk::disk::Disk;
use desk::{plan, Desk, KEPT};
use std::ffi::OsStr;
use std::fs;
use std::os::unix::ffi::OsStrExt;
use std::path::PathBuf;

/// The bytes of a part.
const PART: usize = 16_777_200;

/// Bytes of which no two parts are the same.
fn bytes(size: usize) -> Vec<u8> {
    (0..size).map(|i| (i ^ i >> 8 ^ i >> 16) as u8).collect()
}

#[test]
fn a_large_file_is_a_project_of_one_file() {
    let desk = Desk::new("large-file");
    desk.write("big", &bytes(PART + 1000));
    desk.run("commit big").says(
        0,
        &["sealed big as a project of one file, as it has more bytes than a deposit: 1 file, 16778200 bytes in 2 parts, present widths\nroot "],
    );
    assert!(desk
        .text("big.seal/manifest.txt")
        .starts_with("format 2\nfile 16778200 big\npart "));
    // As the same file in a folder.
    desk.folder("house");
    fs::copy(desk.path("big"), desk.path("house/big")).unwrap();
    desk.run("commit house").says(0, &[]);
    assert_eq!(
        desk.value("big.seal/root.txt"),
        desk.value("house.seal/root.txt")
    );
    desk.run("verify house --seal big.seal")
        .says(0, &["yes: house is the project that was sealed"]);

    // It is opened, checked and verified without a name.
    let asked = "--seal big.seal --seed dice --offset 16777999";
    desk.run(&format!("open big {asked}"))
        .says(0, &["opened 1 position into big.opening"]);
    desk.keep_roots("big.opening");
    let check = format!("check big.opening {asked} --roots {KEPT}");
    desk.run(&check).says(
        0,
        &[
            "manifest: accepted\nposition 49: accepted; it shows bytes 16777968 to 16778095 of the file",
            "note: the file that is asked about is big, part 2 of 2, ",
        ],
    );
    desk.run(&format!("{check} --file big")).says(0, &[]);
    desk.run(&format!("{check} --file other"))
        .says(2, &["the project has no file other"]);
    desk.run("verify big --seal big.seal").says(
        0,
        &[
            "yes: big is the file that was sealed, 1 file of 16778200 bytes\n",
            "compared by the BLAKE3 digests",
        ],
    );
    fs::rename(desk.path("big"), desk.path("renamed")).unwrap();
    std::os::unix::fs::symlink("renamed", desk.path("link")).unwrap();
    for name in ["renamed", "link"] {
        desk.run(&format!("verify {name} --seal big.seal"))
            .says(0, &["yes: "]);
    }
    desk.run(&format!("open link {asked} --out again"))
        .says(0, &[]);
    desk.damage("renamed", PART + 5);
    for full in ["", " --full"] {
        desk.run(&format!("verify renamed --seal big.seal{full}")).says(
            1,
            &["no: renamed is not the file that was sealed\nchanged: big, first in bytes 16777200 to 16778199\n"],
        );
    }
    desk.run(&format!("open renamed {asked} --out more"))
        .says(1, &["renamed is not the file that was sealed"]);
    desk.write("renamed", b"small");
    desk.run("verify renamed --seal big.seal")
        .says(1, &["changed: big, which had 16778200 bytes and has 5\n"]);
    desk.run("verify absent --seal big.seal")
        .says(2, &["cannot read absent: there is no such file"]);
}

/// The program and the second witness on an opening, which must end with this status.
fn both(desk: &Desk, status: i32, words: &str) {
    desk.run(&format!("check {words}")).says(status, &[]);
    desk.python("check_project.py", words.split(' '))
        .says(status, &[]);
}

#[test]
fn the_witness_checks_a_large_file() {
    let desk = Desk::new("large-file-witness");
    desk.write("big", &bytes(PART + 1000));
    desk.run("commit big").says(0, &[]);
    desk.run("open big --seal big.seal --seed dice --offset 16777999")
        .says(0, &[]);
    desk.keep_roots("big.opening");
    fs::copy(
        desk.path("big.opening/challenges.txt"),
        desk.path("challenges.txt"),
    )
    .unwrap();
    let words = format!(
        "big.opening --seal big.seal --challenges challenges.txt --roots {KEPT} --offset 16777999"
    );
    for (more, status) in [("", 0), (" --file big", 0), (" --file other", 2)] {
        both(&desk, status, &format!("{words}{more}"));
    }
    desk.damage("big.opening/manifest.txt", 30);
    both(&desk, 1, &words);
}

/// The seal of two files, or of one and an empty folder, is of no file by itself.
#[test]
fn the_witness_too_asks_for_a_name_where_there_is_more_than_one_file() {
    let desk = Desk::new("large-names");
    desk.folder("house");
    desk.write("house/plan.txt", &plan());
    let open = "open house/plan.txt --seal house.seal --seed dice --offset 0 --out opened --force";
    for (more, status) in [("", 0), ("house/empty", 2)] {
        if status > 0 {
            desk.folder(more);
        }
        desk.run("commit house --force").says(0, &[]);
        desk.run(open).says(status, &[]);
        desk.run("verify house/plan.txt --seal house.seal")
            .says(status, &[]);
        desk.run("ask --seal house.seal --out asked --force")
            .says(status, &[]);
        desk.run(&format!("{open} --file plan.txt")).says(0, &[]);
        fs::copy(
            desk.path("opened/challenges.txt"),
            desk.path("challenges.txt"),
        )
        .unwrap();
        let words = "opened --seal house.seal --challenges challenges.txt --offset 0";
        both(&desk, if status == 0 { 3 } else { 2 }, words);
        both(&desk, 3, &format!("{words} --file plan.txt"));
    }
}

/// A folder of files with long names, of which the manifest has more bytes than a deposit: each byte of them takes three.
fn with_long_names(name: &str) -> Desk {
    let desk = Desk::new(name);
    let long = |last: usize| OsStr::from_bytes(&[1; 255][..last]).to_owned();
    let deep: PathBuf = (0..14).map(|_| long(255)).collect();
    let deep = desk.path("house").join(deep);
    fs::create_dir_all(&deep).unwrap();
    for i in 0..1480 {
        let name = [&[1; 250][..], format!("{i:04}").as_bytes()].concat();
        fs::write(deep.join(OsStr::from_bytes(&name)), format!("{i}")).unwrap();
    }
    desk.write("house/plan.txt", &plan());
    desk
}

#[test]
fn a_manifest_that_a_deposit_does_not_hold_is_in_parts() {
    let desk = with_long_names("large-manifest");
    desk.run("commit house").says(0, &["1481 files, "]);
    let list = desk.text("house.seal/manifest.txt");
    let lines: Vec<&str> = list.lines().collect();
    let bytes: usize = lines[1].strip_prefix("manifest ").unwrap().parse().unwrap();
    assert_eq!((lines[0], lines.len()), ("format 2", 4), "{list}");
    let parts = ["manifest-1.part", "manifest-2.part"];
    let mut whole = Vec::new();
    for (part, line) in parts.iter().zip(&lines[2..]) {
        let part = desk.read(&format!("house.seal/{part}"));
        let digest = dequmlo::Root(dequmlo::digest(&part).unwrap());
        assert_eq!(**line, format!("part {digest}"));
        whole.extend(part);
    }
    assert!(bytes > PART && whole.len() == bytes);
    assert!(whole.starts_with(b"format 2\nfile 1 \\01\\01"));
    // The root is that of the list.
    desk.run("commit house.seal/manifest.txt --out one")
        .says(0, &[]);
    assert_eq!(
        desk.value("one/root.txt"),
        desk.value("house.seal/root.txt")
    );

    let verify = "verify house --seal house.seal";
    desk.run(verify).says(
        0,
        &["yes: house is the project that was sealed, 1481 files"],
    );
    desk.damage("house/plan.txt", 5);
    desk.run(verify).says(1, &["changed: plan.txt\n"]);
    desk.damage("house/plan.txt", 5);
    let asked = "--seal house.seal --file plan.txt --seed dice --offset 500";
    desk.run(&format!("open house {asked}")).says(0, &[]);
    desk.keep_roots("house.opening");
    let check = format!("check house.opening {asked} --roots {KEPT}");
    let run = desk.run(&check);
    run.says(
        0,
        &["manifest: accepted\nposition 31: accepted; it shows bytes 384 to 511"],
    );
    run.does_not_say(&["not checked"]);
    desk.run("show house.opening")
        .says(0, &["this is an opening of the file plan.txt, and"]);
    desk.run(&format!("open house {asked} --force"))
        .says(0, &[]);

    // Each part is looked at.
    let [first, second] = parts.map(|part| format!("house.opening/{part}"));
    desk.damage(&first, 100);
    let refused = |part: &str, said: &str| {
        let said =
            format!("the manifest.txt that the opening shows is not the project's: {part}{said}");
        desk.run(&check).says(1, &["manifest: refused", &said]);
    };
    refused(parts[0], " is not the part of it that was sealed");
    desk.damage(&first, 100);
    let sound = desk.read(&second);
    desk.write(&second, &[&sound[..], b"x"].concat());
    refused(parts[1], " is not the part of it that was sealed");
    fs::remove_file(desk.path(&second)).unwrap();
    refused(parts[1], ": there is no such file");
    desk.write(&second, &sound);
    desk.write("house.opening/manifest-3.part", b"");
    desk.run(&check)
        .says(0, &["not checked: manifest-3.part\n"]);
    desk.damage("house.seal/manifest-2.part", 5);
    desk.damage("house/plan.txt", 5);
    desk.run(verify).says(
        2,
        &["the seal in house.seal is damaged: its manifest.txt is not the one that was sealed: manifest-2.part is not"],
    );
}

/// The second witness on such a manifest, under a key and under none. By hand, since it takes minutes: `cargo test --test large -- --ignored`.
#[test]
#[ignore = "takes minutes"]
fn the_witness_on_a_manifest_in_parts() {
    let desk = with_long_names("large-witness");
    desk.write("key", &[7; 32]);
    for key in ["", " --key-file key"] {
        desk.run(&format!("commit house --force{key}")).says(0, &[]);
        let asked = format!("--seal house.seal --file plan.txt --offset 500{key}");
        desk.run(&format!("open house {asked} --seed dice --force"))
            .says(0, &[]);
        desk.keep_roots("house.opening");
        fs::copy(
            desk.path("house.opening/challenges.txt"),
            desk.path("challenges.txt"),
        )
        .unwrap();
        let words = format!("house.opening {asked} --challenges challenges.txt --roots {KEPT}");
        for status in [0, 1] {
            both(&desk, status, &words);
            desk.damage("house.opening/manifest-2.part", 5);
        }
    }
}

/// A disk on which nothing can be written, and one that is full, are noticed before a byte of the file is read.
#[test]
fn what_cannot_be_written_is_noticed_before_the_work() {
    let desk = Desk::new("large-room");
    desk.folder("house");
    desk.write("house/plan.txt", &plan());
    desk.write("plan.txt", &plan());
    desk.write("big", &bytes(PART + 1));
    for (what, file) in [
        ("plan.txt", "plan.txt"),
        ("house", "house/plan.txt"),
        ("big", "big"),
    ] {
        let commit = format!("commit {what} --out sealed");
        desk.on(&Disk::ReadOnly(file), &commit)
            .says(2, &["cannot write sealed: Read-only file system"]);
        desk.on(&Disk::Full(file, 0), &commit)
            .says(2, &["cannot write sealed: No space left on device"]);
        assert_eq!(desk.names("."), ["big", "house", "plan.txt"]);
    }
    desk.run("commit house --out sealed").says(0, &[]);
    let open = "open house --seal sealed --file plan.txt --seed dice --at 0,100 --out opened";
    for line in [open.into(), format!("{open} --until 3")] {
        desk.on(&Disk::ReadOnly("house/plan.txt"), &line)
            .says(2, &["cannot write opened: Read-only file system"]);
        desk.on(&Disk::Full("house/plan.txt", 66_000), &line)
            .says(2, &["cannot write opened: No space left on device"]);
        assert!(!desk.path("was-read").exists());
    }
    // The marker is left where the file is read.
    desk.on(&Disk::Full("house/plan.txt", 1 << 20), open)
        .says(0, &[]);
    assert!(desk.path("was-read").exists());
}

/// Thousands of records are written with a few calls that have them on the disk.
#[test]
fn records_are_not_synced_one_by_one() {
    let desk = Desk::new("large-syncs");
    desk.write("plan.txt", &plan().repeat(40));
    desk.run("commit plan.txt").says(0, &[]);
    let positions: Vec<String> = (0..4096).map(|p| p.to_string()).collect();
    let at = positions.join(",");
    let open = format!("open plan.txt --seal plan.txt.seal --seed dice --at {at}");
    desk.on(&Disk::Counted, &open)
        .says(0, &["opened 4096 positions"]);
    let syncs = desk.read("syncs").len();
    assert!((2..=8).contains(&syncs), "{syncs}");
    // Those of a few files are each had written.
    fs::remove_file(desk.path("syncs")).unwrap();
    desk.on(&Disk::Counted, "commit plan.txt --out again")
        .says(0, &[]);
    assert!(desk.read("syncs").len() >= 4);
}
