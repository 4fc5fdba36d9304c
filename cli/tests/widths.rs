//! The sets of widths: a seal says its set and every command goes by it, what does not say is of the present set, and what is of two sets is told apart.

mod desk;

use desk::{Desk, CHECK, CHECK_ASKED, CHECK_UNKEPT, OPEN_ASKED};

/// The bytes of a query record at n 6, k 2.
const PRESENT: usize = 2596;
const WIDE: usize = 4068;

/// Takes the line with the widths out of a folder's parameters, as a version before 0.6.0 wrote them.
fn unsaid(desk: &Desk, folder: &str) {
    let name = format!("{folder}/parameters.txt");
    let text = desk.text(&name);
    let (before, widths) = text.split_once("widths ").unwrap();
    assert!(["present\n", "wide\n"].contains(&widths), "{text:?}");
    desk.write(&name, before.as_bytes());
    desk.vouch(folder);
}

/// Names another set in a folder's parameters.
fn renamed(desk: &Desk, folder: &str, name: &str) {
    let path = format!("{folder}/parameters.txt");
    let text = desk.text(&path);
    let (before, _) = text.split_once("widths ").unwrap();
    desk.write(&path, format!("{before}widths {name}\n").as_bytes());
    desk.vouch(folder);
}

#[test]
fn a_seal_says_its_set() {
    let desk = Desk::wide("widths-said");
    let lines = "format 1\nn 6\nk 2\ndomain magnetar/pcs/default\nwidths wide\n";
    for folder in ["plan.txt.seal", "plan.txt.opening"] {
        assert_eq!(desk.text(&format!("{folder}/parameters.txt")), lines);
    }
    let summary = desk.text("plan.txt.seal/summary.txt");
    let said = "under the base domain \"magnetar/pcs/default\" and the wide set of widths.\n";
    assert!(summary.contains(said), "{summary}");
    desk.run("commit plan.txt --widths wide --out again")
        .says(0, &["as 64 words (n = 6, k = 2, wide widths)\n"]);
    desk.run("commit plan.txt --widths wide --out again --force --json")
        .says(0, &["\"k\": 2, \"widths\": \"wide\", "]);
    assert_eq!(
        desk.read("again/root.txt"),
        desk.read("plan.txt.seal/root.txt")
    );
}

#[test]
fn where_none_is_named_it_is_the_present_one() {
    let desk = Desk::opened("widths-default");
    desk.run("commit plan.txt --widths present --out named")
        .says(0, &["(n = 6, k = 2, present widths)"]);
    for name in ["parameters.txt", "root.txt", "check.txt"] {
        let (named, not) = (format!("named/{name}"), format!("plan.txt.seal/{name}"));
        assert_eq!(desk.text(&named), desk.text(&not), "{name}");
    }
    assert_eq!(desk.value("named/parameters.txt"), "widths present");
    desk.run("commit plan.txt --widths wide --out wide")
        .says(0, &[]);
    assert_ne!(desk.read("wide/root.txt"), desk.read("named/root.txt"));
}

#[test]
fn every_command_goes_by_the_seal_s_set() {
    let desk = Desk::wide("widths-commands");
    let of = "--seal plan.txt.seal";
    assert_eq!(desk.read("plan.txt.opening/query-7.record").len(), WIDE);
    desk.check().says(
        0,
        &[
            // 32 words of 16 bytes, as one group.
            "position 0: accepted; it shows bytes 0 to 511 of the file",
            "verdict: accepted: 3 records and the tail",
        ],
    );
    desk.run(&format!("{CHECK} --json"))
        .says(0, &["\"widths\": \"wide\""]);
    desk.run(&format!("{CHECK} --report page.html"))
        .says(0, &[]);
    let page = desk.text("page.html");
    assert!(
        page.contains("Widths</th><td><bdi>the wide set</bdi>"),
        "{page}"
    );
    desk.run("show plan.txt.opening")
        .says(0, &["position 7: bytes 0 to 511 of the file"]);
    desk.run("show plan.txt.opening --json")
        .says(0, &["\"widths\": \"wide\""]);
    desk.run(&format!("tail plan.txt.opening {of}"))
        .says(3, &["tail: sound"]);
    desk.run(&format!("verify plan.txt {of}"))
        .says(0, &["yes: plan.txt is"]);
    desk.write(
        "changed",
        &[&desk::plan()[..200], b"X", &desk::plan()[201..]].concat(),
    );
    desk.run(&format!("verify changed {of} --opening plan.txt.opening"))
        .says(
            1,
            &[
                "no: changed is not",
                "the first that differs is in byte 200",
            ],
        );
    let record = "plan.txt.opening/query-7.record";
    desk.run(&format!(
        "compare {record} {record} --opening plan.txt.opening {of} --at 7"
    ))
    .says(0, &["are the same, byte for byte"]);
    desk.damage(record, 60);
    desk.check()
        .says(1, &["position 7: refused, 18 at level 0: "]);
}

#[test]
fn two_rounds_under_the_wide_set() {
    let desk = Desk::new("widths-rounds");
    desk.write("plan.txt", &desk::plan());
    desk.run("commit plan.txt --widths wide").says(0, &[]);
    let of = "--seal plan.txt.seal --asked plan.txt.asked";
    desk.run("ask --seal plan.txt.seal").says(0, &[]);
    assert_eq!(desk.value("plan.txt.asked/parameters.txt"), "widths wide");
    desk.run(OPEN_ASKED).says(0, &["wrote the answer"]);
    desk.run(&format!("ask {of} --answer plan.txt.answer --count 3"))
        .says(0, &["drew 3 positions"]);
    desk.run(OPEN_ASKED).says(0, &["opened 3 positions"]);
    desk.run(CHECK_ASKED)
        .says(0, &["verdict: accepted: 3 records"]);
    // A request for the other set is one about another seal.
    let another = "is about another seal: it names another n, k, base domain, set of widths or key";
    for set in ["present", "broad"] {
        renamed(&desk, "plan.txt.asked", set);
        let said = match set {
            "broad" => "plan.txt.asked/parameters.txt names the set of widths `broad`, and this program, seal",
            _ => another,
        };
        desk.run(CHECK_ASKED).says(2, &[said]);
        desk.run(&format!("{OPEN_ASKED} --out other"))
            .says(2, &[said]);
    }
    unsaid_is_present(&desk, another);
}

/// A request that does not say is of the present set: not of this seal's, and of a present one's.
fn unsaid_is_present(desk: &Desk, another: &str) {
    renamed(desk, "plan.txt.asked", "wide");
    desk.run(CHECK_ASKED).says(0, &["verdict: accepted"]);
    unsaid(desk, "plan.txt.asked");
    desk.run(CHECK_ASKED).says(2, &[another]);
    let desk = Desk::asked("widths-rounds-present");
    unsaid(&desk, "plan.txt.asked");
    desk.run(CHECK_ASKED)
        .says(0, &["verdict: accepted: 3 records"]);
    let more =
        "ask --seal plan.txt.seal --asked plan.txt.asked --answer plan.txt.answer --out more";
    desk.run(more).says(0, &["drew 40 positions"]);
    assert_eq!(desk.value("more/parameters.txt"), "widths present");
}

#[test]
fn what_does_not_say_is_of_the_present_set() {
    let desk = Desk::opened("widths-unsaid");
    for folder in ["plan.txt.seal", "plan.txt.opening"] {
        unsaid(&desk, folder);
        let run = desk.check();
        run.says(0, &["verdict: accepted: 3 records"]);
        run.does_not_say(&["widths"]);
    }
    desk.run("show plan.txt.opening --json")
        .says(0, &["\"widths\": \"present\""]);
    let desk = Desk::wide("widths-unsaid-wide");
    unsaid(&desk, "plan.txt.seal");
    // Its records are longer than the present set's.
    desk.check().says(
        1,
        &[
            "position 7: refused, 14: ",
            "tail: accepted",
            "note: the opening says that it was made under the wide set of widths, and the seal is of the present one: it was made for another seal",
        ],
    );
    desk.run("verify plan.txt --seal plan.txt.seal")
        .says(1, &["no: plan.txt is not"]);
}

#[test]
fn an_opening_of_the_other_set_is_refused_by_its_widths() {
    let desk = Desk::opened("widths-mixed");
    assert_eq!(desk.read("plan.txt.opening/query-7.record").len(), PRESENT);
    desk.run("commit plan.txt --widths wide --out wide")
        .says(0, &[]);
    let mixed = CHECK_UNKEPT.replace("plan.txt.seal", "wide");
    desk.run(&mixed).says(
        1,
        &[
            "position 0: refused, 16 at level 0: ",
            "position 127: refused, 16 at level 0: ",
            // The last level has 4 words, which both sets have in the same groups.
            "tail: not accepted: it fits the opening's own roots",
            "note: the opening says that it was made under the present set of widths, and the seal is of the wide one: it was made for another seal",
        ],
    );
    desk.run(&format!("{mixed} --json"))
        .says(1, &["\"number\": 16, \"level\": 0"]);
    // An opening that claims the seal's set is refused all the same: the records decide.
    renamed(&desk, "plan.txt.opening", "wide");
    let run = desk.run(&mixed);
    run.says(1, &["position 0: refused, 16 at level 0: "]);
    run.does_not_say(&["the opening says that it was made under"]);
}

/// With k 4 the last level has 16 words, which the two sets have in other groups.
#[test]
fn a_tail_of_the_other_set() {
    let desk = Desk::new("widths-tail");
    desk.write("f", b"words");
    for (set, other) in [("present", "wide"), ("wide", "present")] {
        for name in [set, other] {
            desk.run(&format!(
                "commit f --profile deepwrap --widths {name} --out {name} --force"
            ))
            .says(0, &[]);
        }
        desk.run(&format!(
            "open f --seal {set} --seed dice --at 0 --out opening --force"
        ))
        .says(0, &[]);
        desk.run(&format!("tail opening --seal {set}"))
            .says(3, &["has 16 words"]);
        // What is longer than the seal's is cut, and does not read whole.
        let number = if set == "wide" { "14" } else { "27" };
        desk.run(&format!("tail opening --seal {other}"))
            .says(1, &[&format!("refused, {number}: ")]);
    }
}

/// Where no level has 16 words, the two sets are one.
#[test]
fn small_files_have_one_root_under_both() {
    let desk = Desk::new("widths-small");
    for (bytes, same) in [(0, true), (16, true), (17, false), (100, false)] {
        desk.write("f", &desk::plan()[..bytes]);
        for set in ["present", "wide"] {
            desk.run(&format!("commit f --widths {set} --out {set} --force"))
                .says(0, &[]);
        }
        let roots = ["present", "wide"].map(|set| desk.value(&format!("{set}/root.txt")));
        assert_eq!(roots[0] == roots[1], same, "{bytes} bytes");
    }
}

#[test]
fn two_sets_are_not_compared() {
    let desk = Desk::opened("widths-compare");
    desk.run("commit plan.txt --widths wide --out wide")
        .says(0, &[]);
    desk.run("open plan.txt --seal wide --seed dice --at 7 --out wide.opening")
        .says(0, &[]);
    let (one, other) = (
        "plan.txt.opening/query-7.record",
        "wide.opening/query-7.record",
    );
    let one_set = "two records are compared under one set";
    let of_wide = format!("wide.opening/parameters.txt is of the wide set of widths, and the seal is of the present one: {one_set}");
    let of_present = format!("plan.txt.opening/parameters.txt is of the present set of widths, and the seal is of the wide one: {one_set}");
    for (first, second, opening, seal, said) in [
        (one, other, "plan.txt.opening", "plan.txt.seal", &of_wide),
        (other, one, "plan.txt.opening", "plan.txt.seal", &of_wide),
        (one, one, "wide.opening", "plan.txt.seal", &of_wide),
        (one, other, "wide.opening", "wide", &of_present),
        (other, other, "plan.txt.opening", "wide", &of_present),
    ] {
        let words = format!("compare {first} {second} --opening {opening} --seal {seal} --at 7");
        let run = desk.run(&words);
        run.says(2, &[said]);
        run.does_not_say(&["accepted", "the same"]);
    }
    for (record, opening, seal) in [
        (one, "plan.txt.opening", "plan.txt.seal"),
        (other, "wide.opening", "wide"),
    ] {
        desk.run(&format!(
            "compare {record} {record} --opening {opening} --seal {seal} --at 7"
        ))
        .says(0, &["are the same, byte for byte"]);
    }
    // A record by itself says nothing of its set, and is refused as one of another size.
    std::fs::copy(desk.path(other), desk.path("alone")).unwrap();
    desk.run(&format!(
        "compare {one} alone --opening plan.txt.opening --seal plan.txt.seal --at 7"
    ))
    .says(
        1,
        &[
            "32: ",
            "the first record: accepted",
            "the second record: refused, 14: ",
        ],
    );
}

#[test]
fn a_name_that_is_no_set_s() {
    let desk = Desk::new("widths-unknown");
    desk.write("plan.txt", &desk::plan());
    for name in ["broad", "Wide", "8", "present,wide"] {
        desk.run(&format!("commit plan.txt --widths {name}")).says(
            2,
            &[&format!(
                "there is no set of widths `{name}`; there are present and wide"
            )],
        );
    }
    desk.run("demo --widths broad")
        .says(2, &["there is no set of widths `broad`"]);
    desk.run("commit plan.txt --widths")
        .says(2, &["--widths needs a value"]);
    assert_eq!(desk.names("."), ["plan.txt"]);
    desk.run("commit plan.txt").says(0, &[]);
    let open = "open plan.txt --seal plan.txt.seal --seed dice --at 7,0,127";
    desk.run(&format!("{open} --widths wide"))
        .says(2, &["`seal open` takes no --widths"]);
    desk.run(open).says(0, &[]);
    desk.keep_roots("plan.txt.opening");

    // In a folder: the seal's is not guessed at, and the opening's is a note.
    renamed(&desk, "plan.txt.opening", "broad");
    desk.check().says(
        0,
        &["note: the opening does not say for which n, k, base domain and widths it was made: plan.txt.opening/parameters.txt names the set of widths `broad`"],
    );
    desk.run("show plan.txt.opening")
        .says(2, &["names the set of widths `broad`"]);
    renamed(&desk, "plan.txt.seal", "broad");
    let run = desk.check();
    let version = env!("CARGO_PKG_VERSION");
    run.says(
        2,
        &[
            "nothing was checked and nothing is said of an opening",
            &format!("plan.txt.seal/parameters.txt names the set of widths `broad`, and this program, seal {version}, knows `present` and `wide` alone"),
        ],
    );
    run.does_not_say(&["verdict", "refused"]);
}

/// A line that is taken off, put in or changed without the check line is damage, as any other.
#[test]
fn the_line_is_under_the_check_lines() {
    let desk = Desk::wide("widths-damage");
    let name = "plan.txt.seal/parameters.txt";
    let sound = desk.text(name);
    let without = sound.replace("widths wide\n", "");
    for damaged in [without.clone(), sound.replace("wide\n", "present\n")] {
        desk.write(name, damaged.as_bytes());
        desk.check().says(
            2,
            &["parameters.txt and its line in check.txt do not agree"],
        );
    }
    for other in [
        format!("{sound}widths wide\n"),
        format!("widths wide\n{without}"),
    ] {
        desk.write(name, other.as_bytes());
        desk.check().says(
            2,
            &["does not have its lines n, k, domain, widths and perhaps key"],
        );
    }
    desk.write(name, sound.replace('\n', " \r\n").as_bytes());
    desk.check().says(
        0,
        &[
            "verdict: accepted",
            "has blanks, line ends or capital digits",
        ],
    );
}

/// A seal may name its set and neither k nor a base domain.
#[test]
fn a_seal_that_names_n_and_the_widths() {
    for (profile, older) in [("default", ""), ("firstdefault", "--older")] {
        let desk = Desk::new(&format!("widths-n-{profile}"));
        desk.write("plan.txt", &desk::plan());
        desk.run(&format!(
            "commit plan.txt --profile {profile} --widths wide"
        ))
        .says(0, &[]);
        desk.run("open plan.txt --seal plan.txt.seal --seed dice --at 7,0,127")
            .says(0, &[]);
        desk.keep_roots("plan.txt.opening");
        desk.write(
            "plan.txt.seal/parameters.txt",
            b"format 1\nn 6\nwidths wide\n",
        );
        desk.vouch("plan.txt.seal");
        desk.run(&format!("{CHECK} {older}")).says(
            0,
            &[
                "verdict: accepted: 3 records",
                "note: the seal names neither k nor a base domain",
            ],
        );
        desk.write("plan.txt.seal/parameters.txt", b"format 1\nn 6\n");
        desk.vouch("plan.txt.seal");
        desk.run(&format!("{CHECK} {older}"))
            .says(1, &["position 7: refused, 14: "]);
    }
}

#[test]
fn a_project_under_the_wide_set() {
    let desk = Desk::new("widths-project");
    desk.folder("house");
    desk.write("house/plan.txt", &desk::plan());
    desk.write("house/empty", b"");
    desk.run("commit house --widths wide").says(
        0,
        &["sealed the project house: 2 files, 960 bytes in 2 parts, wide widths\n"],
    );
    desk.run("commit house --out present")
        .says(0, &["present widths"]);
    assert_ne!(
        desk.value("house.seal/root.txt"),
        desk.value("present/root.txt")
    );
    // Each part and the manifest are sealed as files are, under the same set.
    let manifest = desk.text("house.seal/manifest.txt");
    for (file, root) in [
        ("house.seal/manifest.txt", desk.value("house.seal/root.txt")),
        (
            "house/plan.txt",
            manifest
                .lines()
                .last()
                .unwrap()
                .split(' ')
                .nth(1)
                .unwrap()
                .into(),
        ),
    ] {
        desk.run(&format!("commit {file} --widths wide --out one --force"))
            .says(0, &[]);
        assert_eq!(desk.value("one/root.txt"), root, "{file}");
    }
    let of = "--file plan.txt --offset 500 --seed dice";
    desk.run(&format!("open house --seal house.seal {of}"))
        .says(0, &["opened 1 position"]);
    assert_eq!(desk.value("house.opening/parameters.txt"), "widths wide");
    desk.keep_roots("house.opening");
    desk.run(&format!(
        "check house.opening --seal house.seal {of} --roots kept-roots.txt"
    ))
    .says(
        0,
        &[
            "manifest: accepted",
            "it shows bytes 0 to 511 of the file",
            "verdict: accepted: 1 record",
        ],
    );
    desk.run(&format!("check house.opening --seal present {of}"))
        .says(1, &["manifest: refused: "]);
    desk.run("verify house --seal house.seal")
        .says(0, &["yes: house is the project"]);
    desk.write("house/plan.txt", &desk::plan()[1..]);
    desk.run("verify house --seal house.seal")
        .says(1, &["changed: plan.txt, which had 960 bytes and has 959"]);
    unsaid(&desk, "house.seal");
    desk.run("verify house --seal house.seal")
        .says(2, &["its manifest.txt is not the one that was sealed"]);
}

#[test]
fn the_demonstration_and_the_explanation() {
    let desk = Desk::new("widths-explained");
    desk.run("demo --widths wide").says(
        0,
        &[
            "$ seal commit deposit.txt --widths wide\n",
            "wide widths)",
            "verdict: accepted: 3 records and the tail",
            "position 500: refused, 18 at level 0",
            "The sound opening was accepted, the damaged one refused.",
        ],
    );
    desk.run("explain widths").says(
        0,
        &[
            "8 words where the level has 16 or more",
            "32 words where it has 64 or more",
            "slow disks",
            "that does not say is of the present set",
            "with 16 at level 0, or with 14",
        ],
    );
    desk.run("explain widths --json")
        .says(0, &["\"widths\": [\"What is sealed lies in groups"]);
    desk.run("explain broad")
        .says(2, &["`seal explain widths` what the sets of widths are"]);
    for command in ["commit", "demo"] {
        desk.run(&format!("help {command}"))
            .says(0, &["    --widths SET"]);
    }
}
