//! Questions asked in rounds, by files alone: the challenges first, the positions when the roots are there, and nothing out of that order.

mod desk;

use desk::{plan, walk, Desk, CHECK_ASKED, FORMAT, OPEN_ASKED};
use std::fs;

const ASK: &str = "ask --seal plan.txt.seal";
const ASK_AGAIN: &str = "ask --seal plan.txt.seal --asked plan.txt.asked --answer plan.txt.answer";

#[test]
fn the_page_s_walk_is_a_walk() {
    let desk = Desk::new("walk");
    desk.folder("office");
    desk.folder("holder");
    desk.write("holder/plan.txt", &plan());
    let walk = walk("Two offices, by files alone");
    assert_eq!(walk.len(), 11, "{walk:?}");
    let mut last = String::new();
    for (who, command) in &walk {
        let run = desk.shell(who, command);
        assert_eq!(run.status, 0, "{who}$ {command}: {}", run.printed());
        last = run.out;
    }
    assert!(
        last.ends_with("verdict: accepted: 40 records and the tail\n"),
        "{last}"
    );
    assert!(desk
        .text("office/plan.txt.asked/asked.txt")
        .starts_with("format 1\nby City archive\nchallenges 20"));
    // The office never had the file, and the holder never chose a question.
    assert!(!desk.names("office").contains(&"plan.txt".into()));
    assert_eq!(desk.names("holder/plan.txt.opening").len(), 7 + 40);
}

#[test]
fn a_request_is_plain_files_with_their_format() {
    let desk = Desk::answered("request-files");
    let first = [
        "asked.txt",
        "challenges.txt",
        "check.txt",
        "parameters.txt",
        "root.txt",
        "summary.txt",
    ];
    assert_eq!(desk.names("plan.txt.asked"), first);
    assert_eq!(
        desk.read("plan.txt.asked/root.txt"),
        desk.read("plan.txt.seal/root.txt")
    );
    let challenges = desk.read("plan.txt.asked/challenges.txt");
    desk.run(&format!("{ASK_AGAIN} --count 3")).says(
        0,
        &[
            "kept the holder's roots and claim, and drew 3 positions into plan.txt.asked; send that folder to the holder",
            "each position is one place looked at, of 256",
            "at most (1 - f)^3, which is 72.9 % for a tenth of the places and 97.1 % for a hundredth",
        ],
    );
    let mut both: Vec<&str> = first.to_vec();
    both.extend(["claim.txt", "positions.txt", "roots.txt"]);
    both.sort_unstable();
    assert_eq!(desk.names("plan.txt.asked"), both);
    assert_eq!(desk.read("plan.txt.asked/challenges.txt"), challenges);
    for name in ["roots.txt", "claim.txt"] {
        assert_eq!(
            desk.read(&format!("plan.txt.asked/{name}")),
            desk.read(&format!("plan.txt.answer/{name}"))
        );
    }
    for name in both
        .iter()
        .filter(|name| !["check.txt", "summary.txt"].contains(name))
    {
        let path = format!("plan.txt.asked/{name}");
        let sound = desk.text(&path);
        assert!(sound.starts_with(FORMAT), "{name}");
        desk.write(&path, sound.replace(FORMAT, "format 2\n").as_bytes());
        let run = desk.run(OPEN_ASKED);
        run.says(2, &[&format!("{path} says that it is of format 2, ")]);
        run.does_not_say(&["damaged"]);
        desk.write(&path, sound.as_bytes());
    }
    desk.run(OPEN_ASKED)
        .says(0, &["opened 3 positions into plan.txt.opening"]);
    desk.run(CHECK_ASKED)
        .says(0, &["verdict: accepted: 3 records and the tail"]);
}

#[test]
fn what_is_drawn_is_not_drawn_twice() {
    let desk = Desk::answered("drawn");
    desk.run(&format!("{ASK} --out second"))
        .says(0, &["drew 6 challenges into second"]);
    assert_ne!(
        desk.read("plan.txt.asked/challenges.txt"),
        desk.read("second/challenges.txt")
    );
    for out in ["a", "b"] {
        desk.run(&format!("{ASK_AGAIN} --count 40 --out {out}"))
            .says(0, &["drew 40 positions"]);
    }
    assert_ne!(desk.read("a/positions.txt"), desk.read("b/positions.txt"));
    desk.run(&format!("{ASK_AGAIN} --count 1000 --out c")).says(
        0,
        &[
            "drew 256 positions",
            "all 256 places of the deposit are looked at",
        ],
    );
    // Each of them is a request of its own, and the answer is to all of them.
    for asked in ["a", "b", "c"] {
        let out = format!("{asked}.opening");
        desk.run(&format!(
            "open plan.txt --seal plan.txt.seal --asked {asked} --out {out}"
        ))
        .says(0, &[]);
        desk.run(&format!("check {out} --seal plan.txt.seal --asked {asked}"))
            .says(0, &["verdict: accepted"]);
    }
    desk.run("check a.opening --seal plan.txt.seal --asked b")
        .says(1, &["the opening has no record at this position"]);
}

#[test]
fn positions_come_after_the_roots() {
    let desk = Desk::answered("order");
    let too_early = "`seal ask` draws positions only when the holder's roots are there";
    desk.run(&format!("{ASK} --count 3 --out a"))
        .says(2, &[too_early]);
    desk.run(&format!("{ASK} --asked plan.txt.asked --out a"))
        .says(2, &[too_early]);
    desk.run(&format!("{ASK} --answer plan.txt.answer --out a"))
        .says(2, &["needs the request that was answered"]);
    desk.run("check plan.txt.answer --seal plan.txt.seal --asked plan.txt.asked")
        .says(
            2,
            &["the request has no positions yet, so there is nothing to check"],
        );
    desk.run(&format!("{ASK_AGAIN} --count 0"))
        .says(2, &["asks for no position"]);
    desk.run(ASK_AGAIN).says(0, &["drew 40 positions"]);
    desk.run(ASK_AGAIN).says(
        2,
        &["has its positions already, and the holder may know them; give --out"],
    );
    desk.run(OPEN_ASKED).says(0, &[]);
    // Somebody who asks for positions before the roots are there, check lines and all.
    for name in ["roots.txt", "claim.txt"] {
        desk.copy("plan.txt.asked", "early");
        fs::remove_file(desk.path("early").join(name)).unwrap();
        desk.vouch("early");
        for words in ["open plan.txt --out b", "check plan.txt.opening"] {
            desk.run(&format!("{words} --seal plan.txt.seal --asked early"))
                .says(
                    2,
                    &["the request in early is out of order: it asks for positions"],
                );
        }
        fs::remove_dir_all(desk.path("early")).unwrap();
    }
    assert!(!desk.names(".").contains(&"b".into()));
}

#[test]
fn an_answer_to_something_else_is_refused() {
    let desk = Desk::answered("other-answer");
    let asked = desk.read("plan.txt.asked/check.txt");
    let refused = |answer: &str, texts: &[&str]| {
        desk.run(&format!("{ASK} --asked plan.txt.asked --answer {answer}"))
            .says(1, texts);
        // Nothing is drawn, and nothing is kept.
        assert_eq!(desk.read("plan.txt.asked/check.txt"), asked);
    };
    let no_answer = "refused: this is no answer to what was asked: it was made";
    desk.run("open plan.txt --seal plan.txt.seal --seed dice --at 7 --out seeded")
        .says(0, &[]);
    refused("seeded", &[no_answer, "by other challenges than those of the request; the first that differs is that of level 0"]);
    desk.write("other.txt", &vec![b'x'; desk.read("plan.txt").len()]);
    desk.run("commit other.txt").says(0, &[]);
    desk.write("words", &desk.read("plan.txt.asked/challenges.txt"));
    desk.run("open other.txt --seal other.txt.seal --challenges words --count 0")
        .says(0, &[]);
    refused(
        "other.txt.opening",
        &[no_answer, "for another root than the seal's"],
    );
    desk.copy("plan.txt.answer", "damaged");
    desk.damage("damaged/tail.record", 10);
    refused(
        "damaged",
        &[
            "refused, 30:",
            "these files are not as they were when it was made: tail.record",
        ],
    );
    desk.copy("plan.txt.answer", "claims");
    desk.write(
        "claims/claim.txt",
        format!("{FORMAT}{:032x}\n", 1).as_bytes(),
    );
    refused("claims", &["refused, 31:"]);
    desk.copy("plan.txt.seal", "a-seal");
    refused(
        "a-seal",
        &["this is no answer to what was asked: the opening is not whole"],
    );
    // What is given for the holder's cannot be the checker's seal as well.
    desk.run(&format!(
        "{ASK} --asked plan.txt.asked --answer plan.txt.seal"
    ))
    .says(
        2,
        &["plan.txt.seal lies in the opening, so it is the holder's; --seal takes the checker's own"],
    );
    desk.run(ASK_AGAIN).says(0, &[]);
}

#[test]
fn the_check_goes_by_what_was_asked_and_kept() {
    let desk = Desk::asked("kept");
    desk.run(CHECK_ASKED)
        .says(0, &["verdict: accepted: 3 records and the tail"]);
    desk.run("open plan.txt --seal plan.txt.seal --seed dice --at 7,8,9 --out other")
        .says(0, &[]);
    desk.run("check other --seal plan.txt.seal --asked plan.txt.asked")
        .says(
            1,
            &[
                "the opening was made by other challenges than the checker's",
                "verdict: refused",
            ],
        );
    // Roots and a claim that the holder puts into the opening afterwards count for nothing.
    let lines = |name: &str| desk.text(&format!("plan.txt.opening/{name}"));
    let (roots, claim) = (lines("roots.txt"), lines("claim.txt"));
    desk.write(
        "plan.txt.opening/claim.txt",
        format!("{FORMAT}{:032x}\n", 1).as_bytes(),
    );
    desk.run(CHECK_ASKED).says(0, &["verdict: accepted"]);
    desk.write("plan.txt.opening/claim.txt", claim.as_bytes());
    let third = FORMAT.len() + 2 * 65;
    let digit = if &roots[third..=third] == "0" {
        "1"
    } else {
        "0"
    };
    let changed = format!("{}{digit}{}", &roots[..third], &roots[third + 1..]);
    desk.write("plan.txt.opening/roots.txt", changed.as_bytes());
    desk.run(CHECK_ASKED).says(0, &["verdict: accepted"]);
    // They are not read at all: neither what no list of roots can be, nor nothing.
    for name in ["roots.txt", "claim.txt"] {
        let path = format!("plan.txt.opening/{name}");
        for text in ["format 9\n", "", "\u{0}"] {
            desk.write(&path, text.as_bytes());
            desk.run(CHECK_ASKED).says(0, &["verdict: accepted"]);
        }
        fs::remove_file(desk.path(&path)).unwrap();
        desk.run(CHECK_ASKED).says(0, &["verdict: accepted"]);
    }
    desk.write("plan.txt.opening/claim.txt", claim.as_bytes());
    desk.write("plan.txt.opening/roots.txt", roots.as_bytes());
    // Roots that are not this file's: the holder says so, and a check by them refuses.
    desk.copy("plan.txt.asked", "others");
    desk.write("others/roots.txt", changed.as_bytes());
    let open = "open plan.txt --seal plan.txt.seal --out b --asked others";
    let check = "check plan.txt.opening --seal plan.txt.seal --asked others";
    for words in [open, check] {
        desk.run(words).says(
            2,
            &[
                "the request in others is damaged",
                "roots.txt and its line in check.txt do not agree",
            ],
        );
    }
    desk.vouch("others");
    desk.run(open).says(
        1,
        &["the request keeps other roots or another claim than this file has by its challenges"],
    );
    desk.run(check).says(1, &["refused, 24 at level 1"]);
}

#[test]
fn a_request_that_is_not_in_order_is_the_checker_s_own() {
    let desk = Desk::asked("own-request");
    desk.write("other.txt", b"another file");
    desk.run("commit other.txt").says(0, &[]);
    desk.run("open other.txt --seal other.txt.seal --asked plan.txt.asked")
        .says(2, &["the request in plan.txt.asked is about another seal"]);
    desk.run("check plan.txt.opening --seal other.txt.seal --asked plan.txt.asked")
        .says(2, &["the request in plan.txt.asked is about another seal"]);
    desk.run(&format!("{OPEN_ASKED}x --force"))
        .says(2, &["there is no request plan.txt.askedx"]);
    for option in [
        "--seed dice",
        "--at 7",
        "--roots r",
        "--claim 1",
        "--count 2",
        "--own-questions",
        "--challenges c",
        "--positions p",
    ] {
        let name = option.split(' ').next().unwrap();
        desk.run(&format!("{CHECK_ASKED} {option}")).says(
            2,
            &[&format!(
                "--asked names all that is asked, and excludes {name}"
            )],
        );
    }
    desk.copy("plan.txt.asked", "plan.txt.opening/asked");
    desk.run("check plan.txt.opening --seal plan.txt.seal --asked plan.txt.opening/asked")
        .says(2, &["lies in the opening, so it is the holder's"]);
    fs::remove_dir_all(desk.path("plan.txt.opening/asked")).unwrap();
    // Numbers that no `seal ask` writes, check lines and all.
    let changes = [
        (
            "positions.txt",
            "format 1\n7\n7\n",
            "its positions do not rise",
        ),
        (
            "positions.txt",
            "format 1\n7\n256\n",
            "position 256 is outside this seal",
        ),
        (
            "positions.txt",
            "format 1\nseven\n",
            "positions.txt, line 2:",
        ),
        ("positions.txt", "format 1\n", "no position is asked for"),
        (
            "challenges.txt",
            "format 1\n",
            "it does not have one challenge for each level",
        ),
        (
            "roots.txt",
            "format 1\n",
            "its roots are not those of the levels",
        ),
        (
            "asked.txt",
            "format 1\npositions 2026-01-01\n",
            "does not say when the challenges were drawn",
        ),
    ];
    for (name, text, what) in changes {
        desk.copy("plan.txt.asked", "changed");
        desk.write(&format!("changed/{name}"), text.as_bytes());
        desk.vouch("changed");
        desk.run("check plan.txt.opening --seal plan.txt.seal --asked changed")
            .says(2, &[what]);
        fs::remove_dir_all(desk.path("changed")).unwrap();
    }
    fs::remove_file(desk.path("plan.txt.asked/check.txt")).unwrap();
    desk.run(CHECK_ASKED)
        .says(2, &["there is no check.txt in it"]);
}

#[test]
fn who_asks_is_a_name_on_one_line() {
    let desk = Desk::answered("by");
    for by in ["", " ", "a\nb", "x\u{1b}[2J", " City archive"] {
        desk.seal(["ask", "--seal", "plan.txt.seal", "--out", "a", "--by", by])
            .says(2, &["--by takes a name on one line"]);
    }
    let name = "Архив, городской & 市役所 <3>";
    desk.seal(["ask", "--seal", "plan.txt.seal", "--out", "a", "--by", name])
        .says(0, &[]);
    assert!(desk.text("a/asked.txt").contains(&format!("\nby {name}\n")));
    assert!(desk
        .text("a/summary.txt")
        .contains(&format!("Asked by: {name}\n")));
    desk.run(&format!("{ASK_AGAIN} --by me"))
        .says(2, &["--by is said when the challenges are asked"]);
    assert!(!desk.text("plan.txt.asked/asked.txt").contains("by"));
}

/// A request that somebody changed, or a folder that is none, is not replaced by the second round.
#[test]
fn a_request_is_replaced_only_where_it_is_whole() {
    let desk = Desk::answered("replaced-request");
    desk.write("plan.txt.asked/letter.txt", b"keep");
    desk.run(ASK_AGAIN).says(
        2,
        &[
            "plan.txt.asked exists",
            "letter.txt, which is no file of a request",
        ],
    );
    assert_eq!(desk.read("plan.txt.asked/letter.txt"), b"keep");
    fs::remove_file(desk.path("plan.txt.asked/letter.txt")).unwrap();
    desk.run(ASK).says(
        2,
        &["plan.txt.asked exists, and is a request; --force replaces it"],
    );
    desk.run(&format!("{ASK} --out plan.txt.seal --force"))
        .says(
            2,
            &["plan.txt.seal exists, and is not a request that this program wrote"],
        );
    desk.run(ASK_AGAIN).says(0, &[]);
}
