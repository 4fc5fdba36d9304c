//! A fold that is interrupted and taken up again gives the same bytes as one run through, and interrupted work that is damaged or belongs to something else is
//! refused: it is never done anew unasked.

mod desk;

use dequmlo::tree::Tree;
use dequmlo::{Widths, Word};
use desk::{plan, walk, Desk, Run, FORMAT, KEPT, OPEN_ASKED};
use std::fs::{self, File, OpenOptions};
use std::os::unix::fs::symlink;
use std::path::Path;

/// The n and k of the sealed file.
const N: usize = 6;
const K: usize = 2;

/// The words that open, without those that stop or go on.
const OPEN: &str = "open plan.txt --seal plan.txt.seal --seed dice --at 7,0,127";

/// The words that take up what `begun` made.
const RESUME: &str =
    "open plan.txt --seal plan.txt.seal --seed dice --at 7,0,127 --resume plan.txt.begun --out again";

const DAMAGED: &str =
    "refused: the interrupted work in plan.txt.begun is damaged or cannot be read, and was not taken up: ";

/// A desk with a sealed file, its opening in one run, and the same work interrupted at level 3.
fn begun(name: &str) -> Desk {
    let desk = Desk::opened(name);
    desk.run(&format!("{OPEN} --until 3")).says(
        0,
        &["folded up to level 3 of 6 and kept the work in plan.txt.begun; `seal open` goes on from there with --resume plan.txt.begun\n"],
    );
    desk
}

/// Fails unless the work is refused with this sentence behind the front, and nothing was written.
fn refused(desk: &Desk, what: &str) {
    let end = "Take it from a copy, or begin anew without --resume\n";
    let run = desk.run(RESUME);
    run.says(1, &[&format!("{DAMAGED}{what}"), end]);
    // Stopping later is refused as well, in place and elsewhere.
    for out in ["", " --out later"] {
        let words = RESUME.replace(" --out again", out);
        desk.run(&format!("{words} --until 5")).says(1, &[what]);
    }
    assert!(!desk.path("again").exists() && !desk.path("later").exists());
}

/// Interrupted work that version 0.8.0 wrote is kept beside the opening that one run of it gave: every later version takes it up.
#[test]
fn what_an_earlier_version_left_is_taken_up() {
    let fixtures = Path::new(concat!(env!("CARGO_MANIFEST_DIR"), "/tests/fixtures/begun"));
    for entry in fs::read_dir(fixtures).unwrap() {
        let folder = entry.unwrap();
        let version = folder.file_name().into_string().unwrap();
        let desk = Desk::copied(&format!("interrupted-{version}"), &folder.path());
        desk.run(RESUME).says(0, &["opened 3 positions"]);
        // A summary says which version wrote it, and `check.txt` has its digest.
        for folder in ["plan.txt.opening", "again"] {
            fs::remove_file(desk.path(folder).join("summary.txt")).unwrap();
            fs::remove_file(desk.path(folder).join("check.txt")).unwrap();
        }
        desk.same_files("plan.txt.opening", "again");
        desk.damage("plan.txt.begun/level-2-0.words", 5);
        let damaged = desk.run(&RESUME.replace("again", "third"));
        damaged.says(1, &[DAMAGED]);
    }
}

/// Every level in turn, and a chain that stops at every level, on one thread and on two.
#[test]
fn at_every_level_it_gives_the_same_bytes() {
    for (kind, widths) in [("present", ""), ("wide", " --widths wide")] {
        let desk = Desk::new(&format!("interrupted-{kind}"));
        desk.write("plan.txt", &plan());
        desk.run(&format!("commit plan.txt{widths}")).says(0, &[]);
        desk.run(&format!("{OPEN} --threads 1")).says(0, &[]);
        for threads in ["--threads 1", "--threads 2"] {
            let open = format!("{OPEN} --force {threads}");
            for level in 0..=N {
                let at = format!("at{level}");
                desk.run(&format!("{open} --until {level} --out {at}"))
                    .says(0, &[]);
                desk.run(&format!("{open} --resume {at} --out resumed"))
                    .says(0, &["opened 3 positions into resumed"]);
                desk.same_files("plan.txt.opening", "resumed");
            }
            desk.run(&format!("{open} --until 0")).says(0, &[]);
            for level in 0..=N {
                desk.run(&format!(
                    "{OPEN} {threads} --resume plan.txt.begun --until {level}"
                ))
                .says(
                    0,
                    &[&format!(
                        "folded up to level {level} of 6 and kept the work in plan.txt.begun"
                    )],
                );
                desk.same_files(&format!("at{level}"), "plan.txt.begun");
            }
            desk.run(&format!("{open} --resume plan.txt.begun --out resumed"))
                .says(0, &[]);
            desk.same_files("plan.txt.opening", "resumed");
        }
    }
}

#[test]
fn the_page_s_commands_do_what_it_says() {
    let desk = Desk::asked("interrupted-page");
    let commands = walk("A fold in several runs");
    assert_eq!(commands.len(), 3, "{commands:?}");
    fs::rename(desk.path("plan.txt.opening"), desk.path("one-run")).unwrap();
    for (_, command) in commands {
        let run = desk.shell(".", &command);
        assert_eq!(run.status, 0, "{command}: {}", run.printed());
    }
    desk.same_files("one-run", "plan.txt.opening");
    assert_eq!(desk.text("plan.txt.begun/coordinates.txt"), "format 1\n5\n");
}

/// Levels of several parts for the threads.
#[test]
fn a_longer_file_gives_the_same_bytes() {
    let desk = Desk::new("interrupted-long");
    let text: Vec<u8> = (0..1 << 18u32)
        .map(|i| ((i / 3) ^ (i / 1000)) as u8)
        .collect();
    desk.write("plan.txt", &text);
    desk.run("commit plan.txt").says(0, &["(n = 15, k = 2"]);
    desk.run(OPEN).says(0, &[]);
    for (i, threads) in ["--threads 1", "--threads 2"].iter().enumerate() {
        for level in [0, 1, 8, 15] {
            let at = format!("at{i}-{level}");
            desk.run(&format!("{OPEN} {threads} --until {level} --out {at}"))
                .says(0, &[]);
            let resumed = format!("resumed{i}-{level}");
            desk.run(&format!("{OPEN} {threads} --resume {at} --out {resumed}"))
                .says(0, &[]);
            desk.same_files("plan.txt.opening", &resumed);
            desk.same_files(&format!("at0-{level}"), &at);
        }
    }
}

/// A level of 2^21 words is two pieces.
#[test]
fn a_level_of_several_pieces() {
    let desk = Desk::new("interrupted-pieces");
    let large = File::create(desk.path("plan.txt")).unwrap();
    large.set_len(16 * ((1 << 18) - 1)).unwrap();
    desk.run("commit plan.txt --profile compactwrap")
        .says(0, &["(n = 18, k = 3"]);
    desk.run(OPEN).says(0, &[]);
    desk.run(&format!("{OPEN} --until 1")).says(0, &[]);
    let piece = |name: &str| fs::metadata(desk.path("plan.txt.begun").join(name)).unwrap();
    for name in ["level-0-0.words", "level-0-1.words", "level-1-0.words"] {
        assert_eq!(piece(name).len(), 1 << 24, "{name}");
    }
    desk.run(RESUME).says(0, &[]);
    desk.same_files("plan.txt.opening", "again");
    desk.damage("plan.txt.begun/level-0-1.words", 5);
    desk.run(&RESUME.replace("again", "third")).says(
        1,
        &[DAMAGED, "level-0-1.words was changed after it was written"],
    );
    desk.damage("plan.txt.begun/level-0-1.words", 5);
    fs::rename(
        desk.path("plan.txt.begun/level-0-1.words"),
        desk.path("plan.txt.begun/level-0-2.words"),
    )
    .unwrap();
    desk.vouch("plan.txt.begun");
    desk.run(&RESUME.replace("again", "third"))
        .says(1, &[DAMAGED, "level-0-1.words: there is no such file"]);
}

#[test]
fn what_is_kept_is_plain_files() {
    let desk = begun("interrupted-files");
    let names = [
        "challenges.txt",
        "check.txt",
        "coordinates.txt",
        "level-0-0.words",
        "level-1-0.words",
        "level-2-0.words",
        "level-3-0.words",
        "parameters.txt",
        "roots.txt",
        "summary.txt",
    ];
    assert_eq!(desk.names("plan.txt.begun"), names);
    for name in ["parameters.txt", "challenges.txt"] {
        assert_eq!(
            desk.read(&format!("plan.txt.begun/{name}")),
            desk.read(&format!("plan.txt.opening/{name}"))
        );
    }
    assert_eq!(
        desk.text("plan.txt.begun/coordinates.txt"),
        "format 1\n3\n4\n5\n"
    );
    let roots = desk.text("plan.txt.opening/roots.txt");
    let first: Vec<&str> = roots.lines().take(5).collect();
    assert_eq!(
        desk.text("plan.txt.begun/roots.txt").trim_end(),
        first.join("\n")
    );
    let level = |l: usize| desk.read(&format!("plan.txt.begun/level-{l}-0.words"));
    assert!(level(0).starts_with(&plan()));
    for l in 0..=3 {
        assert_eq!(level(l).len(), 16 << (N + K - l), "level {l}");
    }
    let lines = desk.text("plan.txt.begun/check.txt");
    desk.vouch("plan.txt.begun");
    let sorted = |text: &str| {
        let mut lines: Vec<String> = text.lines().map(String::from).collect();
        lines.sort();
        lines
    };
    assert_eq!(
        sorted(&lines),
        sorted(&desk.text("plan.txt.begun/check.txt"))
    );
    let summary = desk.text("plan.txt.begun/summary.txt");
    assert!(
        summary.starts_with("Interrupted work on an opening of the sealed file plan.txt.\n\nFolded up to level 3 of 6.\n"),
        "{summary}"
    );
    desk.run(&format!("{OPEN} --until 6 --out done --json")).says(
        0,
        &["\"found\": {\"begun\": \"done\", \"widths\": \"present\", \"reached\": 6, \"coordinates\": [], \"roots\": [\""],
    );
    assert_eq!(desk.text("done/coordinates.txt"), FORMAT);
    desk.run(&format!("{OPEN} --until 4 --out four --json"))
        .says(0, &["\"reached\": 4, \"coordinates\": [4, 5], "]);
}

/// The file is not needed once level 0 is kept: its root is the seal's.
#[test]
fn the_file_is_not_read_again() {
    let desk = begun("interrupted-gone");
    fs::remove_file(desk.path("plan.txt")).unwrap();
    desk.run(RESUME).says(0, &["opened 3 positions into again"]);
    desk.same_files("plan.txt.opening", "again");
}

/// Work that began before the positions were drawn serves for the answer, and for the opening when they are.
#[test]
fn in_both_rounds() {
    let desk = Desk::answered("interrupted-rounds");
    desk.run(&format!("{OPEN_ASKED} --until 2"))
        .says(0, &["kept the work in plan.txt.begun"]);
    desk.run(&format!(
        "{OPEN_ASKED} --resume plan.txt.begun --out answer"
    ))
    .says(0, &["wrote the answer"]);
    desk.same_files("plan.txt.answer", "answer");
    desk.run("ask --seal plan.txt.seal --asked plan.txt.asked --answer answer --count 3")
        .says(0, &[]);
    desk.run(OPEN_ASKED).says(0, &["opened 3 positions"]);
    desk.run(&format!("{OPEN_ASKED} --resume plan.txt.begun --until 5"))
        .says(0, &["folded up to level 5 of 6"]);
    desk.run(&format!(
        "{OPEN_ASKED} --resume plan.txt.begun --out opening"
    ))
    .says(0, &["opened 3 positions"]);
    desk.same_files("plan.txt.opening", "opening");
    // A request that keeps other roots is noticed where the first of them is reached.
    let roots = desk.text("plan.txt.asked/roots.txt");
    let mut lines: Vec<String> = roots.lines().map(String::from).collect();
    lines[4] = lines[3].clone();
    desk.copy("plan.txt.asked", "others");
    desk.write(
        "others/roots.txt",
        format!("{}\n", lines.join("\n")).as_bytes(),
    );
    desk.vouch("others");
    let open = "open plan.txt --seal plan.txt.seal --asked others";
    desk.run(&format!("{open} --until 2 --out a")).says(0, &[]);
    let other =
        "the request keeps other roots or another claim than this file has by its challenges";
    desk.run(&format!("{open} --until 3 --out b"))
        .says(1, &[other]);
    desk.run(&format!("{open} --resume a --until 3"))
        .says(1, &[other]);
    desk.run(&format!("{open} --resume a --out c"))
        .says(1, &[other]);
}

/// Positions may be named when the work goes on; until then they are not asked for.
#[test]
fn positions_may_come_later() {
    let desk = Desk::opened("interrupted-positions");
    desk.keep("challenges.txt");
    let open = "open plan.txt --seal plan.txt.seal --challenges challenges.txt";
    desk.run(&format!("{open} --until 3")).says(0, &[]);
    desk.run(&format!("{open} --resume plan.txt.begun --until 4"))
        .says(0, &[]);
    desk.run(&format!("{open} --resume plan.txt.begun --out again"))
        .says(2, &["`seal open` needs the checker's positions"]);
    desk.run(&format!(
        "{open} --resume plan.txt.begun --at 7,0,127 --out again"
    ))
    .says(0, &["opened 3 positions"]);
    desk.run(&format!("{open} --at 7,0,127 --out one-run"))
        .says(0, &[]);
    desk.same_files("one-run", "again");
    desk.run("open plan.txt --seal plan.txt.seal --until 3 --out b")
        .says(2, &["needs the checker's request, --asked FOLDER"]);
}

#[test]
fn of_a_project() {
    let desk = Desk::new("interrupted-project");
    desk.folder("house");
    desk.write("house/plan.txt", &plan());
    desk.write("house/other.txt", b"other");
    desk.run("commit house").says(0, &[]);
    let open = "open house --seal house.seal --seed dice --offset 500";
    desk.run(&format!("{open} --file plan.txt")).says(0, &[]);
    desk.run(&format!("{open} --file plan.txt --until 4"))
        .says(0, &["kept the work in house.begun"]);
    desk.run(&format!(
        "{open} --file plan.txt --resume house.begun --out again"
    ))
    .says(0, &[]);
    desk.same_files("house.opening", "again");
    desk.run("open house --seal house.seal --seed dice --offset 1 --file other.txt --resume house.begun --out b")
        .says(1, &["the interrupted work in house.begun is of another seal"]);
}

/// Every file in turn, changed, cut, emptied, added to and gone.
#[test]
fn damage_is_refused_and_never_made_good() {
    let desk = begun("interrupted-damage");
    for name in desk.names("plan.txt.begun") {
        let path = format!("plan.txt.begun/{name}");
        let sound = desk.read(&path);
        let mut changed = sound.clone();
        let last = sound.len() - 2;
        changed[last] = if sound[last] == b'1' { b'2' } else { b'1' };
        let shorter = sound[..sound.len() - 3].to_vec();
        let longer = [&sound[..], &[b'0'; 16]].concat();
        for damaged in [vec![], shorter, changed, longer, b"\xff\xfe\n".to_vec()] {
            desk.write(&path, &damaged);
            refused(&desk, "");
        }
        fs::remove_file(desk.path(&path)).unwrap();
        refused(&desk, "");
        desk.write(&path, &sound);
    }
    desk.write("plan.txt.begun/letter.txt", b"keep");
    refused(
        &desk,
        "it holds letter.txt, which is no file of interrupted work",
    );
    fs::remove_file(desk.path("plan.txt.begun/letter.txt")).unwrap();
    desk.run(RESUME).says(0, &[]);
    desk.same_files("plan.txt.opening", "again");
}

/// Changes a file, has the check lines written anew as somebody does who changes it on purpose, and puts all back afterwards.
fn changed(desk: &Desk, name: &str, bytes: &[u8], meanwhile: impl FnOnce()) {
    let path = format!("plan.txt.begun/{name}");
    let lines = desk.read("plan.txt.begun/check.txt");
    let sound = fs::read(desk.path(&path)).ok();
    desk.write(&path, bytes);
    desk.vouch("plan.txt.begun");
    meanwhile();
    match sound {
        Some(sound) => desk.write(&path, &sound),
        None => fs::remove_file(desk.path(&path)).unwrap(),
    }
    desk.write("plan.txt.begun/check.txt", &lines);
}

#[test]
fn a_list_of_coordinates_that_is_not_that_of_the_level() {
    let desk = begun("interrupted-list");
    let list =
        "the list of coordinates does not hold exactly those that are not folded yet, strictly rising";
    for (text, what) in [
        ("3\n4\n6\n", list),
        ("3\n5\n4\n", list),
        ("3\n4\n4\n", list),
        ("0\n1\n2\n", list),
        ("3\n5\n", list),
        ("2\n3\n4\n5\n6\n7\n8\n", list),
        ("4\n5\n", "there is not one root for each level"),
        ("2\n3\n4\n5\n", "there is not one root for each level"),
        ("", "there is not one root for each level"),
        ("3\nfour\n5\n", "plan.txt.begun/coordinates.txt, line 3: "),
    ] {
        let file = format!("{FORMAT}{text}");
        changed(&desk, "coordinates.txt", file.as_bytes(), || {
            refused(&desk, what)
        });
    }
}

#[test]
fn roots_that_are_not_those_of_the_levels() {
    let desk = begun("interrupted-roots");
    let text = desk.text("plan.txt.begun/roots.txt");
    let roots: Vec<&str> = text.lines().skip(1).collect();
    let file = |roots: &[&str]| format!("{FORMAT}{}\n", roots.join("\n")).into_bytes();
    let each = "there is not one root for each level";
    let more = [&roots[..], &roots[3..]].concat();
    for wrong in [&roots[..3], &more] {
        changed(&desk, "roots.txt", &file(wrong), || refused(&desk, each));
    }
    changed(&desk, "roots.txt", FORMAT.as_bytes(), || {
        refused(&desk, each)
    });
    for level in 1..=3 {
        let mut other = roots.clone();
        other[level] = roots[0];
        let what =
            format!("the values of level {level} do not have the root that was kept of them");
        changed(&desk, "roots.txt", &file(&other), || refused(&desk, &what));
    }
    let other = [roots[1], roots[1], roots[2], roots[3]];
    changed(&desk, "roots.txt", &file(&other), || {
        desk.run(RESUME).says(
            1,
            &[&format!(
                "the interrupted work in plan.txt.begun is of another seal: its level 0 has the root {}, and this seal's is {}",
                roots[1], roots[0]
            )],
        )
    });
}

#[test]
fn levels_that_are_not_those_of_the_roots() {
    let desk = begun("interrupted-levels");
    for level in 0..=3 {
        let name = format!("level-{level}-0.words");
        let sound = desk.read(&format!("plan.txt.begun/{name}"));
        let mut damaged = sound.clone();
        damaged[sound.len() - 1] ^= 128;
        let root =
            format!("the values of level {level} do not have the root that was kept of them");
        changed(&desk, &name, &damaged, || refused(&desk, &root));
        for length in [0, sound.len() - 16, sound.len() + 1, 2 * sound.len()] {
            let mut other = sound.clone();
            other.resize(length, 0);
            let what = format!(
                "cannot read plan.txt.begun/{name}: it has {length} bytes, and it must have {}",
                sound.len()
            );
            changed(&desk, &name, &other, || refused(&desk, &what));
        }
    }
    for name in ["level-4-0.words", "level-0-1.words", "level-20-0.words"] {
        let what = format!("it holds {name}, which is no piece of the levels up to 3");
        changed(&desk, name, &[0; 16], || refused(&desk, &what));
    }
}

/// The root of a level's bytes.
fn root_of(desk: &Desk, level: usize, bytes: &[u8]) -> String {
    let words: Vec<Word> = bytes
        .chunks_exact(16)
        .map(|bytes| Word(u128::from_le_bytes(bytes.try_into().unwrap())))
        .collect();
    let domain = desk.text("plan.txt.seal/parameters.txt");
    let domain = domain.lines().find_map(|line| line.strip_prefix("domain "));
    let base = domain.unwrap().as_bytes();
    let tree = Tree::of_level(None, base, Widths::Present, N, K, level, &words).unwrap();
    tree.root().to_string()
}

/// Values with a root of their own, check lines and all: they are not the level before folded by its challenge.
#[test]
fn a_forged_level_does_not_follow() {
    let desk = begun("interrupted-forged");
    let text = desk.text("plan.txt.begun/roots.txt");
    let sound = desk.read("plan.txt.begun/roots.txt");
    for level in 1..=3 {
        let name = format!("level-{level}-0.words");
        let mut forged = desk.read(&format!("plan.txt.begun/{name}"));
        forged[40] ^= 1;
        let mut lines: Vec<String> = text.lines().map(String::from).collect();
        lines[1 + level] = root_of(&desk, level, &forged);
        desk.write(
            "plan.txt.begun/roots.txt",
            format!("{}\n", lines.join("\n")).as_bytes(),
        );
        let what = format!(
            "the values of level {level} are not those of the level before, folded by its challenge"
        );
        changed(&desk, &name, &forged, || refused(&desk, &what));
        desk.write("plan.txt.begun/roots.txt", &sound);
    }
    desk.run(RESUME).says(0, &[]);
}

#[test]
fn of_another_seal_or_by_other_challenges() {
    let desk = begun("interrupted-another");
    let of_another = "refused: the interrupted work in plan.txt.begun is of another seal: ";
    let resume = |seal: &str, asks: &str| -> Run {
        desk.run(&format!(
            "open plan.txt --seal {seal} {asks} --resume plan.txt.begun --out again"
        ))
    };
    let dice = "--seed dice --at 7,0,127";
    for (seal, option) in [
        ("wide", "--widths wide"),
        ("deep", "--profile deepwrap"),
        ("domain", "--k 2 --domain other"),
    ] {
        desk.run(&format!("commit plan.txt {option} --out {seal}"))
            .says(0, &[]);
        resume(seal, dice).says(
            1,
            &[
                of_another,
                "it names another n, k, base domain, set of widths or key",
            ],
        );
    }
    let mut other = plan();
    other[0] ^= 1;
    desk.write("other.txt", &other);
    desk.run("commit other.txt").says(0, &[]);
    resume("other.txt.seal", dice).says(1, &[of_another, "its level 0 has the root "]);
    desk.write("small.txt", b"small");
    desk.run("commit small.txt").says(0, &[]);
    resume("small.txt.seal", "--seed dice --at 1").says(1, &[of_another]);
    // All challenges count, those of levels to come too.
    desk.keep("challenges.txt");
    let text = desk.text("challenges.txt");
    let words: Vec<&str> = text.lines().skip(1).collect();
    for level in 0..N {
        let mut other = words.clone();
        other[level] = words[(level + 1) % N];
        desk.write("others", format!("{}\n", other.join("\n")).as_bytes());
        resume("plan.txt.seal", "--challenges others --at 7").says(
            1,
            &[&format!(
                "refused: the interrupted work in plan.txt.begun was begun by other challenges than those that are asked now; the first that differs is that of level {level}\n"
            )],
        );
    }
    resume("plan.txt.seal", "--seed other --at 7").says(1, &["that of level 0"]);
    // Challenges in the folder that are too few, too many or changed.
    for other in [&words[..5], &[&words[..], &words[..1]].concat()] {
        let file = format!("{FORMAT}{}\n", other.join("\n"));
        changed(&desk, "challenges.txt", file.as_bytes(), || {
            resume("plan.txt.seal", dice).says(1, &["by other challenges"])
        });
    }
    assert!(!desk.path("again").exists());
}

#[test]
fn wrong_use_is_said() {
    let desk = begun("interrupted-use");
    let resume = format!("{OPEN} --resume plan.txt.begun");
    for level in ["0", "1", "2"] {
        desk.run(&format!("{resume} --until {level}")).says(
            2,
            &[&format!("the interrupted work in plan.txt.begun has reached level 3 already: --until takes a level from 3 on, and {level} is below it")],
        );
    }
    for words in [OPEN, &*resume] {
        desk.run(&format!("{words} --until 7 --out a")).says(
            2,
            &["--until takes a level of this seal, from 0 to 6, and 7 is none"],
        );
        desk.run(&format!("{words} --until last --out a"))
            .says(2, &["--until needs a number, and `last` is none"]);
    }
    desk.run(&format!("{OPEN} --resume absent --out a")).says(
        2,
        &["there is no interrupted work absent: give the folder that `seal open` with --until wrote"],
    );
    desk.run(&format!("{OPEN} --resume plan.txt.opening --out a"))
        .says(
            1,
            &["it holds claim.txt, which is no file of interrupted work"],
        );
    desk.run("check plan.txt.opening --resume plan.txt.begun")
        .says(2, &["`seal check` takes no --resume"]);
    // What stands there is left alone, but for the work that is taken up and stops again.
    desk.run(&format!("{OPEN} --until 2")).says(
        2,
        &["plan.txt.begun exists, and is interrupted work; --force replaces it"],
    );
    desk.run(&resume)
        .says(2, &["plan.txt.opening exists, and is an opening"]);
    desk.run(&format!("{resume} --force --out plan.txt.begun"))
        .says(
            2,
            &["plan.txt.begun exists, and is not an opening that this program wrote"],
        );
    desk.run(&format!("{OPEN} --force --until 2 --out plan.txt.opening"))
        .says(
            2,
            &["plan.txt.opening exists, and is not interrupted work that this program wrote"],
        );
    desk.copy("plan.txt.begun", "copy");
    desk.run(&format!(
        "{OPEN} --resume copy --until 4 --out plan.txt.begun"
    ))
    .says(2, &["--force replaces it"]);
    desk.run(&format!("{OPEN} --until 2 --force"))
        .says(0, &["folded up to level 2"]);
    assert_eq!(
        desk.text("plan.txt.begun/coordinates.txt"),
        "format 1\n2\n3\n4\n5\n"
    );
    assert!(!desk.path("a").exists());
}

/// A run that ended while it put the later level in place of the earlier one leaves both, or the earlier one set aside.
#[test]
fn work_that_a_run_had_set_aside_is_found() {
    let desk = begun("interrupted-aside");
    let (place, aside) = ("plan.txt.begun", "plan.txt.begun.replaced-4242");
    fs::rename(desk.path(place), desk.path(aside)).unwrap();
    desk.copy(aside, "plan.txt.begun.unfinished-4242");
    fs::remove_file(desk.path("plan.txt.begun.unfinished-4242/check.txt")).unwrap();
    desk.run(RESUME).says(
        0,
        &[
            "note: an interrupted run had set plan.txt.begun aside as plan.txt.begun.replaced-4242; it was put back",
            "note: an interrupted run had left plan.txt.begun.unfinished-4242; it was removed",
        ],
    );
    desk.same_files("plan.txt.opening", "again");
    assert_eq!(
        desk.names("."),
        [
            "again",
            KEPT,
            "plan.txt",
            place,
            "plan.txt.opening",
            "plan.txt.seal"
        ]
    );
}

#[test]
fn another_format_is_not_guessed_at() {
    let desk = begun("interrupted-format");
    for name in [
        "parameters.txt",
        "challenges.txt",
        "coordinates.txt",
        "roots.txt",
    ] {
        let path = format!("plan.txt.begun/{name}");
        let text = desk.text(&path);
        assert!(text.starts_with(FORMAT), "{name}");
        let other = text.replace(FORMAT, "format 2\n");
        changed(&desk, name, other.as_bytes(), || {
            let run = desk.run(RESUME);
            run.says(2, &[&format!("{path} says that it is of format 2, ")]);
            run.does_not_say(&["damaged"]);
        });
    }
    desk.run(RESUME).says(0, &[]);
}

/// Only regular files are opened, and no more is read than a file of such a folder can have.
#[test]
fn a_hostile_folder_stalls_nothing() {
    let desk = begun("interrupted-hostile");
    for name in desk.names("plan.txt.begun") {
        let path = desk.path("plan.txt.begun").join(&name);
        let sound = fs::read(&path).unwrap();
        fs::remove_file(&path).unwrap();
        symlink("/dev/zero", &path).unwrap();
        desk.limited(RESUME).says(1, &[DAMAGED]);
        fs::remove_file(&path).unwrap();
        fs::write(&path, &sound).unwrap();
        let file = OpenOptions::new().write(true).open(&path).unwrap();
        file.set_len(1 << 40).unwrap();
        desk.limited(RESUME).says(1, &[DAMAGED]);
        fs::write(&path, &sound).unwrap();
    }
    desk.limited(RESUME).says(0, &[]);
}
