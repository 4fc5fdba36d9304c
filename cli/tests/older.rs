//! Seals that name neither k nor a base domain: read under the default's, and with `--older` under those that the default had before version
//! 0.4.0. What names its parameters is read as ever.

mod desk;

use desk::{Desk, CHECK};

/// What is said under a seal that names nothing, without `--older` and with it.
const NOW: &str = "note: the seal names neither k nor a base domain: it is read under the default's, k 2 and \"magnetar/pcs/default\"; if it was made \
                   before version 0.4.0, when the default had k 1, give --older";
const THEN: &str = "note: the seal names neither k nor a base domain: --older says that it was made before version 0.4.0, so it is read under those of \
                    that time, k 1 and \"magnetar/pcs/default\" (the profile firstdefault)";

/// A desk with a file of so many bytes, sealed under a profile and opened at positions 0 and 3, whose seal names nothing.
fn unnamed(name: &str, profile: &str, bytes: usize) -> Desk {
    let desk = Desk::new(name);
    desk.write("plan.txt", &desk::plan()[..bytes]);
    desk.run(&format!("commit plan.txt --profile {profile}"))
        .says(0, &[]);
    desk.run("open plan.txt --seal plan.txt.seal --seed dice --at 0,3")
        .says(0, &[]);
    desk.keep_roots("plan.txt.opening");
    desk.unname("plan.txt.seal");
    desk
}

const CHECK_TWO: &str =
    "check plan.txt.opening --seal plan.txt.seal --seed dice --at 0,3 --roots kept-roots.txt";

#[test]
fn a_seal_of_the_old_default_is_accepted_with_older_and_refused_by_17_without() {
    for version in ["0.1.0", "0.2.0", "0.3.0"] {
        let desk = Desk::kept(&format!("older-{version}"), version);
        desk.check().says(0, &["verdict: accepted: 3 records"]);
        desk.unname("plan.txt.seal");
        let older = desk.run(&format!("{CHECK} --older"));
        older.says(
            0,
            &["verdict: accepted: 3 records and the tail, fewer than the 40 positions of the profile firstdefault", THEN],
        );
        let now = desk.check();
        for position in [0, 7, 127] {
            now.says(
                1,
                &[&format!("position {position}: refused, 17 at level 0: ")],
            );
        }
        now.says(1, &["tail: refused, 27: ", "verdict: refused", NOW]);
        desk.run(&format!("{CHECK} --json"))
            .says(1, &["\"number\": 17, \"level\": 0, "]);
    }
}

/// Which question says no first depends on n: the widths of 8 and of 16 values differ, and else only the paths.
#[test]
fn the_first_no_is_16_for_four_words_and_17_for_others() {
    for (bytes, n, number) in [(1, 1, 17), (40, 2, 16), (100, 3, 17), (960, 6, 17)] {
        let desk = unnamed(&format!("older-n-{n}"), "firstdefault", bytes);
        assert_eq!(
            desk.text("plan.txt.seal/parameters.txt"),
            format!("format 1\nn {n}\n")
        );
        desk.run(&format!("{CHECK_TWO} --older"))
            .says(0, &["verdict: accepted: 2 records"]);
        let no = format!("refused, {number} at level 0: ");
        desk.run(CHECK_TWO).says(
            1,
            &[
                &format!("position 0: {no}"),
                &format!("position 3: {no}"),
                "tail: refused, 27: ",
            ],
        );
    }
}

#[test]
fn a_seal_of_the_default_is_accepted_without_older() {
    let desk = unnamed("older-now", "default", 960);
    desk.run(CHECK_TWO)
        .says(0, &["verdict: accepted: 2 records and the tail, fewer than the 40 positions of the profile default", NOW]);
    // Its records are longer than those of k 1, and a record is read to one byte beyond its size.
    desk.run(&format!("{CHECK_TWO} --older")).says(
        1,
        &["position 0: refused, 14: ", "tail: refused, 14: ", THEN],
    );
}

#[test]
fn commit_takes_the_default_where_no_profile_is_named_and_names_it() {
    let desk = Desk::opened("older-commit");
    let parameters = "format 1\nn 6\nk 2\ndomain magnetar/pcs/default\nwidths present\n";
    assert_eq!(desk.text("plan.txt.seal/parameters.txt"), parameters);
    for (profile, k) in [("default", 2), ("firstdefault", 1)] {
        desk.run(&format!(
            "commit plan.txt --profile {profile} --out {profile}"
        ))
        .says(0, &[&format!("(n = 6, k = {k}, present widths)")]);
    }
    let root = |seal: &str| desk.value(&format!("{seal}/root.txt"));
    assert_eq!(root("plan.txt.seal"), root("default"));
    // What earlier versions sealed is sealed so again under the profile that has their numbers.
    let kept = Desk::kept("older-commit-kept", "0.3.0");
    assert_eq!(root("firstdefault"), kept.value("plan.txt.seal/root.txt"));
    desk.run("commit plan.txt --older --out a")
        .says(2, &["`seal commit` takes no --older"]);
}

#[test]
fn what_a_seal_names_counts_however_old_it_is() {
    let desk = Desk::opened("older-named");
    let note = "note: the seal names its k and its base domain, and is read under these whenever it was made: --older changes nothing";
    desk.check().does_not_say(&["--older"]);
    desk.run(&format!("{CHECK} --older"))
        .says(0, &["verdict: accepted: 3 records", note]);
    let kept = Desk::kept("older-named-kept", "0.1.0");
    kept.run(&format!("{CHECK} --older"))
        .says(0, &["verdict: accepted: 3 records", note]);
}

/// Every command that reads a seal reads it by the same rule.
#[test]
fn other_commands_take_older_as_well() {
    let desk = unnamed("older-commands", "firstdefault", 960);
    let seal = "--seal plan.txt.seal";
    let open = format!("open plan.txt {seal} --seed dice --at 3 --out again");
    desk.run(&open)
        .says(1, &["plan.txt is not the file that was sealed", NOW]);
    desk.run(&format!("{open} --older"))
        .says(0, &["opened 1 position", THEN]);
    let parameters = "format 1\nn 6\nk 1\ndomain magnetar/pcs/default\nwidths present\n";
    assert_eq!(desk.text("again/parameters.txt"), parameters);
    desk.run("show again").says(0, &["position 3: "]);

    let verify = format!("verify plan.txt {seal}");
    desk.run(&verify).says(1, &["no: plan.txt is not", NOW]);
    desk.run(&format!("{verify} --older"))
        .says(0, &["yes: plan.txt is the file that was sealed", THEN]);

    let tail = format!("tail plan.txt.opening {seal}");
    desk.run(&tail).says(1, &["27: ", NOW]);
    desk.run(&format!("{tail} --older"))
        .says(3, &["tail: sound", THEN]);

    let record = "plan.txt.opening/query-3.record";
    let compare = format!("compare {record} {record} --opening plan.txt.opening {seal} --at 3");
    desk.run(&compare)
        .says(1, &["the first record: refused, 17 at level 0", NOW]);
    desk.run(&format!("{compare} --older"))
        .says(0, &["are the same, byte for byte", THEN]);
}

#[test]
fn a_request_names_what_the_seal_does_not() {
    let desk = unnamed("older-request", "firstdefault", 960);
    let of = "--seal plan.txt.seal --asked plan.txt.asked";
    desk.run("ask --seal plan.txt.seal --older")
        .says(0, &[THEN]);
    let parameters = "format 1\nn 6\nk 1\ndomain magnetar/pcs/default\nwidths present\n";
    assert_eq!(desk.text("plan.txt.asked/parameters.txt"), parameters);
    let another = "the request in plan.txt.asked is about another seal: it names another n, k, base domain, set of widths or key. Note that the seal names neither k";
    desk.run(&format!("open plan.txt {of}"))
        .says(2, &[another, "give --older"]);
    desk.run(&format!("open plan.txt {of} --older"))
        .says(0, &["wrote the answer"]);
    let ask = format!("ask {of} --answer plan.txt.answer --count 3");
    desk.run(&ask).says(2, &[another]);
    desk.run(&format!("{ask} --older"))
        .says(0, &["drew 3 positions"]);
    desk.run(&format!("open plan.txt {of} --older --out asked"))
        .says(0, &["opened 3 positions"]);
    desk.run(&format!("check asked {of} --older"))
        .says(0, &["verdict: accepted: 3 records"]);
    desk.run(&format!("check asked {of}")).says(2, &[another]);
    // A request under the default's parameters gets an answer under others: its tail is that of another k.
    desk.run("ask --seal plan.txt.seal --out other")
        .says(0, &[NOW]);
    for name in ["challenges.txt", "asked.txt"] {
        let text = desk.text(&format!("plan.txt.asked/{name}"));
        let first = text.lines().filter(|line| !line.starts_with("positions"));
        let first: String = first.map(|line| format!("{line}\n")).collect();
        desk.write(&format!("other/{name}"), first.as_bytes());
    }
    desk.vouch("other");
    desk.run("ask --seal plan.txt.seal --asked other --answer plan.txt.answer")
        .says(1, &["27: ", NOW]);
}

#[test]
fn a_project_whose_seal_names_nothing() {
    let desk = Desk::kept("older-project", "0.3.0");
    desk.unname("house.seal");
    let of = "--seal house.seal --file plans/north.txt --offset 100 --seed dice";
    desk.keep_roots("house.opening");
    let check = format!("check house.opening {of} --older");
    desk.run(&check).says(
        3,
        &[
            "manifest: accepted",
            "verdict: partly accepted: 1 record, ",
            THEN,
        ],
    );
    desk.run(&format!("{check} --roots kept-roots.txt")).says(
        0,
        &["manifest: accepted", "verdict: accepted: 1 record", THEN],
    );
    desk.run(&format!("check house.opening {of}"))
        .says(1, &["manifest: refused", NOW]);
    desk.run(&format!("open house {of} --older --out again"))
        .says(0, &["opened 1 position"]);
    desk.run(&format!("open house {of} --out no"))
        .says(2, &["and its manifest.txt do not agree", "give --older"]);
    desk.run("verify house --seal house.seal --older")
        .says(0, &["yes: house is the project that was sealed"]);
    desk.run("verify house --seal house.seal")
        .says(2, &["and its manifest.txt do not agree", "give --older"]);
}

#[test]
fn half_named_is_damaged() {
    let desk = unnamed("older-half", "firstdefault", 960);
    let name = "plan.txt.seal/parameters.txt";
    for text in [
        "n 6\nk 1\n",
        "n 6\ndomain magnetar/pcs/default\n",
        "k 1\n",
        "n 06\n",
    ] {
        desk.write(name, format!("format 1\n{text}").as_bytes());
        desk.vouch("plan.txt.seal");
        desk.run(&format!("{CHECK_TWO} --older")).says(
            2,
            &["does not have its lines n, k, domain, widths and perhaps key"],
        );
    }
    // The check line is that of the text as it stands.
    desk.write(name, b"format 1\nn 6\n");
    desk.run(&format!("{CHECK_TWO} --older")).says(
        2,
        &["parameters.txt and its line in check.txt do not agree"],
    );
    desk.vouch("plan.txt.seal");
    desk.run(&format!("{CHECK_TWO} --older")).says(0, &[]);
    // An opening says by which k and base domain it was made; one that does not is noted.
    desk.write("plan.txt.opening/parameters.txt", b"format 1\nn 6\n");
    desk.run(&format!("{CHECK_TWO} --older")).says(
        0,
        &["note: the opening does not say for which n, k, base domain and widths it was made"],
    );
}

#[test]
fn explaining_which_seals_are_meant() {
    let desk = Desk::new("older-explain");
    desk.run("explain older").says(
        0,
        &[
            "names neither",
            "k 1 and the base domain \"magnetar/pcs/default\"",
            "So nothing that was sealed before stops being accepted",
            "17 at level 0",
            "with 27",
        ],
    );
    desk.run("explain older --json")
        .says(0, &["\"older\": [\"Before version 0.4.0 "]);
    desk.run("explain newer")
        .says(2, &["no refusal's number", "`seal explain older`"]);
    for command in ["ask", "open", "check", "tail", "verify", "compare"] {
        desk.run(&format!("help {command}"))
            .says(0, &["    --older "]);
    }
}
