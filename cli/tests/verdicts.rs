//! What a verdict says: whose questions were asked, how many, which side is damaged, and that two equal records are the good result.

mod desk;

use desk::{Desk, CHECK, CHECK_UNKEPT, FORMAT, KEPT};
use std::fs;

const OWN: &str = "check plan.txt.opening --seal plan.txt.seal --own-questions";

#[test]
fn a_check_needs_the_checker_s_own_questions() {
    let desk = Desk::opened("needs-questions");
    desk.keep("challenges.txt");
    let words = "challenges.txt";
    for (options, missing) in [
        ("", "challenges and positions"),
        ("--at 7", "challenges"),
        (&*format!("--challenges {words}"), "positions"),
    ] {
        let run = desk.run(&format!(
            "check plan.txt.opening --seal plan.txt.seal {options}"
        ));
        run.says(
            2,
            &[&format!("`seal check` needs the checker's own {missing}:")],
        );
        run.does_not_say(&["accepted:", "position 7"]);
    }
    let check =
        format!("check plan.txt.opening --seal plan.txt.seal --challenges {words} --at 7,0,127");
    desk.run(&check)
        .says(3, &["verdict: partly accepted: 3 records"]);
    desk.run(&format!("{check} --roots {KEPT}"))
        .says(0, &["verdict: accepted: 3 records and the tail"]);
    desk.run("check plan.txt.opening --seal plan.txt.seal --seed dice --at ,")
        .says(2, &["no position is asked for"]);
    desk.run("check plan.txt.opening --seal plan.txt.seal --seed dice --at 256")
        .says(
            2,
            &["position 256 is outside this seal, whose positions go from 0 to 255"],
        );
}

#[test]
fn a_file_of_the_opening_is_not_the_checker_s_own() {
    let desk = Desk::opened("not-own");
    desk.keep("challenges.txt");
    desk.write("plan.txt.opening/asked", b"7");
    std::os::unix::fs::symlink("plan.txt.opening/roots.txt", desk.path("linked")).unwrap();
    for (name, options) in [
        (
            "--challenges",
            "--challenges plan.txt.opening/challenges.txt --at 7",
        ),
        (
            "--positions",
            "--challenges challenges.txt --positions plan.txt.opening/asked",
        ),
        (
            "--roots",
            "--challenges challenges.txt --at 7 --roots linked",
        ),
    ] {
        desk.run(&format!(
            "check plan.txt.opening --seal plan.txt.seal {options}"
        ))
        .says(
            2,
            &[&format!(
                "lies in the opening, so it is the holder's; {name} takes the checker's own"
            )],
        );
    }
    desk.run("tail plan.txt.opening --seal plan.txt.seal --roots linked")
        .says(2, &["lies in the opening"]);
}

#[test]
fn the_holder_s_own_questions_are_never_an_acceptance() {
    let desk = Desk::opened("own-questions");
    let said = "verdict: sound, but by the holder's own questions: the holder chose the challenges and positions. 3 records and the tail were \
                checked, fewer than the 40 positions of the profile default. This is no acceptance";
    desk.run(OWN).says(
        3,
        &[
            "position 7: accepted on level 0",
            "tail: not accepted: ",
            said,
        ],
    );
    desk.run(&format!("{OWN} --roots {KEPT}"))
        .says(3, &["position 7: accepted; ", "tail: accepted", said]);
    desk.run(&format!("{OWN} --json")).says(
        3,
        &[
            "\"verdict\": \"own-questions\", \"accepted\": false, \"exit\": 3",
            "\"own_questions\": \"challenges and positions\"",
            "This is no acceptance",
        ],
    );
    desk.run(&format!("{OWN} --at 7"))
        .says(3, &["the holder chose the challenges. 1 record"]);
    desk.run(&format!("{OWN} --seed dice --at 7"))
        .says(2, &["here both are given"]);
    desk.damage("plan.txt.opening/query-7.record", 60);
    desk.run(OWN).says(
        1,
        &["position 7: refused, 18 at level 0", "verdict: refused"],
    );
}

#[test]
fn an_opening_without_records_shows_nothing() {
    let desk = Desk::opened("no-records");
    for position in [0, 7, 127] {
        fs::remove_file(desk.path(&format!("plan.txt.opening/query-{position}.record"))).unwrap();
    }
    desk.run(OWN).says(
        1,
        &["records: refused: the opening shows no place of the deposit"],
    );
}

#[test]
fn fewer_positions_than_the_profile_has_are_said() {
    let desk = Desk::opened("fewer");
    desk.check().says(0, &["verdict: accepted: 3 records and the tail, fewer than the 40 positions of the profile default"]);
    desk.run(&format!("{CHECK} --json")).says(
        0,
        &[
            "\"positions_checked\": 3, \"positions_of_a_full_check\": 40",
            "fewer than the 40 positions",
        ],
    );
    desk.run("open plan.txt --seal plan.txt.seal --seed dice --out whole")
        .says(0, &["opened 40 positions"]);
    let check = format!("check whole --seal plan.txt.seal --seed dice --roots {KEPT}");
    let whole = desk.run(&check);
    whole.says(0, &["verdict: accepted: 40 records and the tail\n"]);
    desk.run(&format!("{check} --count 39")).says(
        0,
        &[
            "not checked: query-",
            "39 records and the tail, fewer than the 40 positions",
        ],
    );
    desk.run("check whole --seal plan.txt.seal --seed dice --count 41")
        .says(1, &["the opening has no record at this position"]);
    desk.write("f", b"words");
    desk.run("commit f --k 2 --domain d").says(0, &[]);
    desk.run("open f --seal f.seal --seed dice --at 1")
        .says(0, &[]);
    let check = "check f.opening --seal f.seal --seed dice --at 1";
    desk.run(check).says(
        3,
        &["partly accepted: 1 record, fewer than the 8 positions of a full check. What it shows of level 0 is what was deposited. The tail"],
    );
    desk.keep_roots("f.opening");
    desk.run(&format!("{check} --roots {KEPT}")).says(
        0,
        &["1 record and the tail, fewer than the 8 positions of a full check"],
    );
}

#[test]
fn a_tail_under_the_holder_s_own_roots_is_no_acceptance() {
    let desk = Desk::opened("own-tail");
    let tail = "tail plan.txt.opening --seal plan.txt.seal";
    desk.run(tail).says(
        3,
        &["tail: sound, but under the holder's own roots, so this is no acceptance"],
    );
    desk.run(&format!("{tail} --json")).says(
        3,
        &[
            "\"verdict\": \"not-accepted\", \"accepted\": false",
            "\"roots_kept\": false",
        ],
    );
    fs::copy(desk.path("plan.txt.opening/roots.txt"), desk.path("kept")).unwrap();
    desk.run(&format!("{tail} --roots kept"))
        .says(0, &["tail: accepted"]);
}

#[test]
fn a_damaged_seal_is_not_laid_at_the_holder_s_door() {
    let desk = Desk::opened("damaged-seal");
    let root = desk.read("plan.txt.seal/root.txt");
    let parameters = desk.read("plan.txt.seal/parameters.txt");
    let lines = desk.read("plan.txt.seal/check.txt");
    let text = |bytes: &[u8]| String::from_utf8(bytes.to_vec()).unwrap();
    let digit = FORMAT.len() + 5;
    let other_digit = if root[digit] == b'0' { b'1' } else { b'0' };
    let mut changed_root = root.clone();
    changed_root[digit] = other_digit;
    let mut changed_line = lines.clone();
    changed_line[3] = if lines[3] == b'0' { b'1' } else { b'0' };
    let damages: [(&str, Vec<u8>, &str); 8] = [
        (
            "root.txt",
            changed_root,
            "root.txt and its line in check.txt do not agree",
        ),
        (
            "root.txt",
            [&root[..], &root[FORMAT.len()..]].concat(),
            "root.txt has 2 values, and it must have one",
        ),
        (
            "root.txt",
            b"".to_vec(),
            "root.txt has 0 values, and it must have one",
        ),
        (
            "root.txt",
            vec![0; 65],
            "root.txt, line 1: a root is 64 hexadecimal digits",
        ),
        (
            "parameters.txt",
            text(&parameters).replace("default", "defualt").into_bytes(),
            "parameters.txt and its line in check.txt do not agree",
        ),
        (
            "parameters.txt",
            text(&parameters).replace("n 6", "n 7").into_bytes(),
            "parameters.txt and its line in check.txt do not agree",
        ),
        (
            "check.txt",
            changed_line,
            "parameters.txt and its line in check.txt do not agree",
        ),
        (
            "check.txt",
            b"nothing".to_vec(),
            "check.txt is not as this program writes it",
        ),
    ];
    for (name, bytes, what) in damages {
        let path = format!("plan.txt.seal/{name}");
        let sound = desk.read(&path);
        desk.write(&path, &bytes);
        let run = desk.check();
        run.says(
            2,
            &[
                "the seal in plan.txt.seal is damaged",
                "nothing is said of an opening",
                what,
            ],
        );
        run.does_not_say(&["refused", "sk the holder"]);
        desk.write(&path, &sound);
    }
    desk.check().says(0, &[]);
}

#[test]
fn blanks_and_line_ends_are_taken_and_said() {
    let desk = Desk::opened("blanks");
    for name in [
        "plan.txt.seal/parameters.txt",
        "plan.txt.seal/root.txt",
        "plan.txt.seal/check.txt",
    ] {
        let sound = desk.text(name);
        for changed in [
            sound.replace('\n', "\r\n"),
            sound.replace('\n', "  \n"),
            format!("{sound}\n\n"),
            sound.trim_end().into(),
        ] {
            desk.write(name, changed.as_bytes());
            let run = desk.check();
            run.says(0, &["verdict: accepted"]);
            if !name.ends_with("check.txt") {
                run.says(
                    0,
                    &["has blanks, line ends or capital digits that `seal commit` does not write"],
                );
            }
        }
        desk.write(name, sound.as_bytes());
    }
    for name in ["plan.txt.opening/roots.txt", "plan.txt.opening/claim.txt"] {
        let sound = desk.text(name);
        desk.write(name, sound.replace('\n', " \r\n").as_bytes());
        desk.check().says(0, &["verdict: accepted"]);
    }
}

#[test]
fn an_old_seal_is_read_and_what_it_lacks_is_said() {
    let desk = Desk::old("old-seal");
    let lacks = "note: the seal has no check.txt, as an earlier version wrote it: damage to the seal itself cannot be told from a wrong opening";
    desk.check().says(0, &[lacks, "verdict: accepted"]);
    let parameters = desk.text("plan.txt.seal/parameters.txt");
    desk.write(
        "plan.txt.seal/parameters.txt",
        parameters.replace("default", "default ").as_bytes(),
    );
    desk.check().says(0, &[lacks, "verdict: accepted"]);
    let root = desk.read("plan.txt.seal/root.txt");
    desk.write("plan.txt.seal/root.txt", &root.repeat(2));
    desk.check().says(2, &["root.txt has 2 values"]);
    let mut changed = root.clone();
    changed[5] = if root[5] == b'0' { b'1' } else { b'0' };
    desk.write("plan.txt.seal/root.txt", &changed);
    desk.run(CHECK_UNKEPT).says(
        1,
        &["it cannot be told whether its root.txt was changed or the opening is the wrong one"],
    );
}

#[test]
fn the_verdict_says_where_an_opening_does_not_fit() {
    let desk = Desk::opened("misfits");
    desk.write("other.txt", &vec![b'x'; desk.read("plan.txt").len()]);
    desk.run("commit other.txt").says(0, &[]);
    desk.run("check plan.txt.opening --seal other.txt.seal --seed dice --at 7")
        .says(
            1,
            &[
                "18 at level 0",
                "the opening says that it was made for the root",
                "The seal is as it was written, by its own check lines",
            ],
        );
    desk.run("check plan.txt.opening --seal plan.txt.seal --seed other --at 7").says(
        1,
        &["refused, 26 at level 0", "the opening was made by other challenges than the checker's; the first that differs is that of level 0"],
    );
    desk.write("f", b"short");
    desk.run("commit f").says(0, &[]);
    desk.run("check plan.txt.opening --seal f.seal --seed dice --at 1")
        .says(
            1,
            &[
                "opening: refused: the opening is not whole",
                "the opening names another n, k or base domain than the seal: it was made for another seal",
            ],
        );
    desk.run("commit plan.txt --profile fastchunk --out fast")
        .says(0, &[]);
    desk.run("check plan.txt.opening --seal fast --seed dice --at 7")
        .says(1, &["the opening names another n, k or base domain than the seal: it was made for another seal"]);
    desk.damage("plan.txt.opening/query-7.record", 60);
    desk.check().says(1, &["check.txt says that these files are not as they were when it was made: query-7.record."]);
}

#[test]
fn kept_roots_that_are_damaged_are_the_checker_s_own() {
    let desk = Desk::opened("kept-roots");
    let kept = desk.text("plan.txt.opening/roots.txt");
    let check = format!("{CHECK_UNKEPT} --roots kept");
    let with = |text: &str| {
        desk.write("kept", text.as_bytes());
        desk.run(&check)
    };
    with(&kept).says(0, &["verdict: accepted"]);
    with(&kept.replace('\n', "\r\n")).says(0, &[]);
    let roots = kept.strip_prefix(FORMAT).unwrap();
    let zeroed = format!("{}{}", "0".repeat(64), &roots[64..]);
    let own = [
        "kept is not the list of roots that was kept for this seal",
        "nothing is said of the opening",
    ];
    let run = with(&zeroed);
    run.says(2, &["its first root is not the seal's"]);
    run.says(2, &own);
    let run = with(&roots[65..]);
    run.says(2, &["it has 6 roots, and this seal has 7 levels"]);
    run.says(2, &own);
    with(&format!("\0{}", &kept[1..])).says(2, &["kept, line 1: a root is 64 hexadecimal digits"]);
    with(&format!("{FORMAT}\0{}", &roots[1..])).says(2, &["kept, line 2: a root is 64"]);
    let third = FORMAT.len() + 2 * 65;
    let digit = if &kept[third..=third] == "0" {
        "1"
    } else {
        "0"
    };
    with(&format!("{}{digit}{}", &kept[..third], &kept[third + 1..])).says(
        1,
        &[
            "refused, 24 at level 1",
            "the root of level 2 in the opening is not the one that was kept",
        ],
    );
}

#[test]
fn equal_records_are_the_good_result() {
    let desk = Desk::opened("compare");
    let (a, b) = (
        "plan.txt.opening/query-7.record",
        "plan.txt.opening/query-0.record",
    );
    let with = |a, b, more: &str| {
        desk.run(&format!(
            "compare {a} {b} --opening plan.txt.opening --seal plan.txt.seal --at 7 {more}"
        ))
    };
    with(a, a, "").says(0, &["the two records at position 7 are accepted and are the same, byte for byte: this is the good result"]);
    with(a, a, "--json").says(
        0,
        &[
            "\"verdict\": \"accepted\", \"accepted\": true, \"exit\": 0, \"number\": 33",
            "\"same\": true",
        ],
    );
    with(a, b, "").says(
        1,
        &[
            "refused, 32: one of the two records is not accepted",
            "the first record: accepted",
            "the second record: refused, 19 at level 1",
        ],
    );
    with(b, b, "").says(1, &["refused, 32"]);
    with(
        a,
        a,
        "--challenges plan.txt.opening/challenges.txt --roots plan.txt.opening/roots.txt",
    )
    .says(0, &[]);
    assert_eq!(
        desk.names("."),
        [KEPT, "plan.txt", "plan.txt.opening", "plan.txt.seal"]
    );
}
