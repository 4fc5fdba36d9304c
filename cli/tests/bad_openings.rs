//! Openings that lack something, are of another format, or are another seal's: each is refused with 1 and a sentence that says what is wrong. Only what is the
//! checker's own, or the disk's, is 2.

mod desk;

use desk::disk::Disk;
use desk::{Desk, CHECK, CHECK_ASKED, CHECK_UNKEPT, KEPT};
use std::fs;

const DAMAGED: &str = "They were damaged or changed";
const OF_ANOTHER: &str = "They are of another seal, or of another set of widths";

/// The words of a check that the second witness takes too.
const BOTH: &str = "plan.txt.opening --seal plan.txt.seal --challenges challenges.txt --at 0,7,127";

/// Runs the program and the second witness, which must both end so.
fn both(desk: &Desk, words: &str, status: i32) {
    desk.run(&format!("check {words}")).says(status, &[]);
    let run = desk.python("check_seal.py", words.split_whitespace());
    run.says(status, &[]);
    run.does_not_say(&["Traceback"]);
}

#[test]
fn an_intact_opening_of_the_other_set_is_not_called_damaged() {
    let desk = Desk::opened("bad-other-set");
    let of = "--seal wide --seed dice --at 7,0,127";
    desk.run("commit plan.txt --widths wide --out wide")
        .says(0, &[]);
    desk.run(&format!("open plan.txt {of} --out wide.opening"))
        .says(0, &[]);
    let names = "query-0.record, query-7.record, query-127.record";
    // Records of the wide set are longer, and those of the present set shorter than the wide ones.
    let longer = CHECK_UNKEPT.replace("plan.txt.opening", "wide.opening");
    let shorter = CHECK_UNKEPT.replace("plan.txt.seal", "wide");
    for check in [longer, shorter] {
        let run = desk.run(&check);
        let note = format!("note: these files are longer or shorter than those of this seal: {names}. {OF_ANOTHER}\n");
        run.says(1, &[&note]);
        run.does_not_say(&[DAMAGED]);
    }
    // One that was changed is said to be, also there.
    desk.damage("wide.opening/query-7.record", 60);
    let run = desk.run(&CHECK_UNKEPT.replace("plan.txt.opening", "wide.opening"));
    run.says(
        1,
        &[
            "made: query-7.record. They were damaged or changed",
            "seal: query-0.record, query-127.record. They are",
        ],
    );
}

#[test]
fn a_record_that_was_cut_or_added_to() {
    let desk = Desk::opened("bad-cut");
    let name = "plan.txt.opening/query-7.record";
    let sound = desk.read(name);
    for bytes in [&sound[..100], &[&sound[..], &[0; 7]].concat()] {
        desk.write(name, bytes);
        let run = desk.check();
        run.says(1, &["position 7: refused, 14: ", DAMAGED]);
        run.does_not_say(&[OF_ANOTHER]);
    }
    // Of one that is longer than any of this n and k nobody takes a digest, and without check lines nobody knows.
    let unsure = format!("{OF_ANOTHER}, or were cut or added to on the way");
    desk.write(name, &[&sound[..], &[0; 100_000]].concat());
    let run = desk.check();
    run.says(1, &["position 7: refused, 14: ", &unsure]);
    run.does_not_say(&[DAMAGED]);
    fs::remove_file(desk.path("plan.txt.opening/check.txt")).unwrap();
    desk.write(name, &sound[..100]);
    desk.check()
        .says(1, &["position 7: refused, 14: ", &unsure]);
}

#[test]
fn an_opening_that_lacks_its_tail_its_claim_or_its_roots() {
    let desk = Desk::opened("bad-lacks");
    let lacks = |name: &str| {
        format!("refused: the opening is not whole: cannot read plan.txt.opening/{name}: there is no such file. Ask the holder for it again")
    };
    for (name, place) in [
        ("tail.record", "tail"),
        ("claim.txt", "tail"),
        ("roots.txt", "opening"),
    ] {
        let path = desk.path("plan.txt.opening").join(name);
        let sound = fs::read(&path).unwrap();
        fs::remove_file(&path).unwrap();
        let run = desk.run(CHECK_UNKEPT);
        run.says(
            1,
            &[&format!("{place}: {}", lacks(name)), "verdict: refused"],
        );
        // What can be checked without it is.
        let records = name != "roots.txt";
        assert_eq!(
            run.out.contains("position 7: accepted on level 0"),
            records,
            "{name}"
        );
        desk.run(&format!("{CHECK_UNKEPT} --json")).says(
            1,
            &["\"verdict\": \"refused\", \"accepted\": false, \"exit\": 1"],
        );
        desk.run("tail plan.txt.opening --seal plan.txt.seal")
            .says(1, &[&lacks(name)]);
        fs::write(&path, sound).unwrap();
    }
    // What the checker has in their place is enough.
    let claim = desk.value("plan.txt.opening/claim.txt");
    for name in ["roots.txt", "claim.txt"] {
        fs::remove_file(desk.path("plan.txt.opening").join(name)).unwrap();
    }
    desk.run(&format!("{CHECK} --claim {claim}"))
        .says(0, &["verdict: accepted: 3 records and the tail"]);
}

#[test]
fn what_is_wrong_is_said() {
    let desk = Desk::opened("bad-wrong");
    for (name, text, said) in [
        (
            "roots.txt",
            "format 9\n",
            "roots.txt says that it is of format 9",
        ),
        (
            "claim.txt",
            "format 9\n",
            "claim.txt says that it is of format 9",
        ),
        (
            "parameters.txt",
            "format 9\n",
            "parameters.txt says that it is of format 9",
        ),
        (
            "challenges.txt",
            "format 9\n",
            "challenges.txt says that it is of format 9",
        ),
        (
            "roots.txt",
            "roots\n",
            "roots.txt, line 1: a root is 64 hexadecimal digits",
        ),
        (
            "claim.txt",
            "",
            "claim.txt has 0 values, and it must have one",
        ),
        (
            "claim.txt",
            "0\n",
            "claim.txt, line 1: a word is 32 hexadecimal digits",
        ),
        (
            "roots.txt",
            &"a".repeat(5000),
            "roots.txt: it has more than the",
        ),
    ] {
        let path = format!("plan.txt.opening/{name}");
        let sound = desk.read(&path);
        desk.write(&path, text.as_bytes());
        desk.run(CHECK_UNKEPT).says(1, &[said, "verdict: refused"]);
        desk.write(&path, &sound);
    }
    // An opening of another seal, larger or smaller.
    for (file, bytes) in [("small", 10), ("large", 16_000)] {
        desk.write(file, &vec![7; bytes]);
        desk.run(&format!("commit {file}")).says(0, &[]);
        let run = desk.run(
            &CHECK_UNKEPT
                .replace("plan.txt.seal", &format!("{file}.seal"))
                .replace("7,0,127", "0"),
        );
        run.says(1, &["it was made for another seal", "verdict: refused"]);
    }
}

#[test]
fn a_disk_that_fails_speaks_against_nobody() {
    let desk = Desk::opened("bad-disk");
    for name in ["tail.record", "claim.txt", "roots.txt", "query-7.record"] {
        let file = format!("plan.txt.opening/{name}");
        let run = desk.on(&Disk::Fails(&file, 0), CHECK_UNKEPT);
        run.says(2, &[&format!("cannot read {file}: Input/output error")]);
        run.does_not_say(&["verdict", "holder"]);
    }
    // What serves for a note alone is not needed.
    for (name, line, status) in [
        ("challenges.txt", CHECK_UNKEPT, 3),
        ("roots.txt", CHECK, 0),
        ("check.txt", CHECK, 0),
    ] {
        let file = format!("plan.txt.opening/{name}");
        desk.on(&Disk::Fails(&file, 0), line).says(status, &[]);
    }
    let own = "check plan.txt.opening --seal plan.txt.seal --own-questions";
    desk.on(&Disk::Fails("plan.txt.opening/challenges.txt", 0), own)
        .says(2, &["challenges.txt: Input/output error"]);
}

#[test]
fn by_a_request_the_opening_s_own_roots_and_claim_are_not_read() {
    let desk = Desk::asked("bad-asked");
    for name in ["roots.txt", "claim.txt"] {
        let file = format!("plan.txt.opening/{name}");
        desk.on(&Disk::Fails(&file, 0), CHECK_ASKED)
            .says(0, &["verdict: accepted: 3 records"]);
    }
}

/// The second witness ends in the same way on each of these.
#[test]
fn the_witness_on_bad_openings() {
    let desk = Desk::opened("bad-witness");
    desk.keep("challenges.txt");
    let kept = format!("{BOTH} --roots {KEPT}");
    both(&desk, BOTH, 3);
    both(&desk, &kept, 0);
    for (name, kept_status) in [("tail.record", 1), ("claim.txt", 1), ("roots.txt", 0)] {
        let path = format!("plan.txt.opening/{name}");
        let sound = desk.read(&path);
        for text in ["format 9\n", "", "\u{0}", "\u{e9}", &"f".repeat(5000)] {
            desk.write(&path, text.as_bytes());
            both(&desk, BOTH, 1);
            both(&desk, &kept, kept_status);
        }
        fs::remove_file(desk.path(&path)).unwrap();
        both(&desk, BOTH, 1);
        both(&desk, &kept, kept_status);
        desk.write(&path, &sound);
    }
    for name in ["parameters.txt", "challenges.txt"] {
        let path = format!("plan.txt.opening/{name}");
        let sound = desk.read(&path);
        desk.write(&path, b"format 9\n");
        both(&desk, &kept, 1);
        desk.write(&path, &sound);
    }
    // The checker's own faults come first, whatever the opening is.
    desk.write("plan.txt.opening/challenges.txt", b"format 9\n");
    let roots = desk.text(KEPT);
    desk.write("others", &roots.as_bytes()[..roots.len() - 65]);
    both(&desk, &format!("{BOTH} --roots others"), 2);
    both(&desk, &format!("{BOTH} --claim 5"), 2);
    both(&desk, BOTH, 1);
    both(&desk, &BOTH.replace("plan.txt.opening", "absent"), 2);
    both(&desk, &BOTH.replace("plan.txt.seal", "absent"), 2);
}

/// What the program guards itself against, the second witness does too.
#[test]
fn the_witness_has_the_program_s_guards() {
    let desk = Desk::opened("bad-guards");
    desk.keep("challenges.txt");
    // Questions and roots from inside the opening, by whatever way.
    let inside = "plan.txt.opening/challenges.txt";
    both(
        &desk,
        &BOTH.replace(
            "--challenges challenges.txt",
            &format!("--challenges {inside}"),
        ),
        2,
    );
    std::os::unix::fs::symlink("plan.txt.opening/roots.txt", desk.path("linked")).unwrap();
    both(&desk, &format!("{BOTH} --roots linked"), 2);
    // A linked record.
    let record = desk.path("plan.txt.opening/query-7.record");
    fs::rename(&record, desk.path("aside")).unwrap();
    std::os::unix::fs::symlink("../aside", &record).unwrap();
    both(&desk, &format!("{BOTH} --roots {KEPT}"), 1);
    fs::remove_file(&record).unwrap();
    fs::rename(desk.path("aside"), &record).unwrap();
    both(&desk, &format!("{BOTH} --roots {KEPT}"), 0);
    // Numbers that are none, and some that are.
    for (at, status) in [
        ("-1", 2),
        ("x", 2),
        (",", 2),
        ("0x7", 2),
        ("1_0", 2),
        ("7.0", 2),
        ("99999999999999999999", 2),
        ("18446744073709551615", 2),
        ("256", 2),
        ("7,", 3),
        ("+7,007", 3),
    ] {
        both(&desk, &BOTH.replace("0,7,127", at), status);
    }
    desk.python(
        "check_seal.py",
        BOTH.replace(" 0,7,127", "=-1").split_whitespace(),
    )
    .says(2, &["`-1` is no list of numbers"]);
    // Two roots, none, and one that is a link.
    let name = "plan.txt.seal/root.txt";
    let sound = desk.text(name);
    for text in [
        "",
        "format 1\n",
        &sound.repeat(2),
        &format!("{sound}{}\n", "0".repeat(64)),
    ] {
        desk.write(name, text.as_bytes());
        both(&desk, BOTH, 2);
        desk.vouch("plan.txt.seal");
        both(&desk, BOTH, 2);
    }
    fs::remove_file(desk.path(name)).unwrap();
    desk.write("root", sound.as_bytes());
    std::os::unix::fs::symlink("../root", desk.path(name)).unwrap();
    both(&desk, BOTH, 2);
}

#[test]
fn the_witness_takes_no_project_s_seal_for_a_file_s() {
    let desk = Desk::new("bad-project");
    desk.folder("house");
    desk.write("house/plan.txt", &desk::plan());
    desk.write("house/list", b"");
    desk.run("commit house").says(0, &[]);
    desk.run(
        "open house.seal/manifest.txt --seal house.seal --seed dice --at 0 --out plan.txt.opening",
    )
    .says(2, &["--file PATH says which file"]);
    desk.run("commit house.seal/manifest.txt --out file.seal")
        .says(0, &[]);
    desk.run(
        "open house.seal/manifest.txt --seal file.seal --seed dice --at 0 --out plan.txt.opening",
    )
    .says(0, &[]);
    desk.keep("challenges.txt");
    let words = "plan.txt.opening --seal file.seal --challenges challenges.txt --at 0";
    both(&desk, words, 3);
    both(&desk, &words.replace("file.seal", "house.seal"), 2);
}
