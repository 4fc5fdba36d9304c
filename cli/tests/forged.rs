//! An opening that was made up by somebody who knew the challenges and the positions beforehand: of the deposit it has the groups that were asked for and nothing
//! else, and every level above 0, the tail and the claim are invented. It is not accepted as a whole.

mod desk;

use dequmlo::code::fold_part;
use dequmlo::tree::{fold_tree_width, Tree};
use dequmlo::{QueryRecord, Root, ShownLevel, Widths, Word};
use desk::{plan, Desk, OPEN_ASKED};
use std::os::unix::fs::symlink;
use std::str::FromStr;

/// The deposit of the desk's plan under the default profile.
const N: usize = 6;
const K: usize = 2;
const BASE: &[u8] = b"magnetar/pcs/default";

/// The words of a check by what the checker drew and told at once.
const CHECK: &str =
    "check forged --seal plan.txt.seal --challenges challenges.txt --positions positions.txt";

/// A desk where a checker tells challenges and 40 positions at once, with an honest opening of these.
fn asked_at_once(name: &str) -> Desk {
    let desk = Desk::new(name);
    desk.write("plan.txt", &plan());
    desk.run("commit plan.txt").says(0, &[]);
    desk.run("open plan.txt --seal plan.txt.seal --seed dice")
        .says(0, &["opened 40 positions"]);
    desk.keep("challenges.txt");
    desk.keep_roots("plan.txt.opening");
    let mut positions: Vec<usize> = desk
        .names("plan.txt.opening")
        .iter()
        .filter_map(|name| position(name))
        .collect();
    positions.sort_unstable();
    let lines: String = positions.iter().map(|p| format!("{p}\n")).collect();
    desk.write("positions.txt", lines.as_bytes());
    desk
}

fn position(name: &str) -> Option<usize> {
    name.strip_prefix("query-")?
        .strip_suffix(".record")?
        .parse()
        .ok()
}

/// The values of a text of the desk, behind its format.
fn values<T: FromStr>(desk: &Desk, name: &str) -> Vec<T> {
    let text = desk.text(name);
    let lines = text.lines().filter(|line| !line.starts_with("format"));
    lines.map(|line| line.parse().ok().unwrap()).collect()
}

/// a + r × (a + b).
fn folded(a: Word, b: Word, r: Word) -> Word {
    fold_part(1, 0, 0, r, &[a, b], 0..1).unwrap()[0]
}

/// What a forger has: the challenges, the positions, and of each position what its record shows of level 0.
struct Forger {
    challenges: Vec<Word>,
    asked: Vec<(usize, ShownLevel)>,
}

/// The levels above 0 that a forger invents, with their trees.
struct Invented {
    levels: Vec<(Vec<Word>, Tree)>,
}

impl Forger {
    /// Takes the groups of level 0 out of the records of an opening, and nothing else.
    fn with_groups_of(desk: &Desk, opening: &str, challenges: &str) -> Forger {
        let group = |name: &String| {
            let record = QueryRecord::from(desk.read(&format!("{opening}/{name}")));
            Some((position(name)?, record.levels()?.into_iter().next()?))
        };
        Forger {
            challenges: values(desk, challenges),
            asked: desk.names(opening).iter().filter_map(group).collect(),
        }
    }

    /// Levels 1 to n of any words, but for those to which the words of the level before fold at the positions.
    fn invents(&self) -> Invented {
        let mut levels: Vec<(Vec<Word>, Tree)> = Vec::new();
        for level in 1..=N {
            let count = 1usize << (N + K - level);
            let mut words: Vec<Word> = (0..count).map(|i| Word(0xf0f0 + 31 * i as u128)).collect();
            for (position, shown) in &self.asked {
                let q = position >> level;
                let [a, b] = match levels.last() {
                    None => [shown.a, shown.b],
                    Some((before, _)) => [before[2 * q], before[2 * q + 1]],
                };
                words[q] = folded(a, b, self.challenges[level - 1]);
            }
            let tree = Tree::of_level(None, BASE, Widths::Present, N, K, level, &words).unwrap();
            levels.push((words, tree));
        }
        Invented { levels }
    }

    /// The records at the positions, in the bytes of SPECIFICATION 7.2.
    fn records(&self, invented: &Invented) -> Vec<(usize, Vec<u8>)> {
        let record = |(position, shown): &(usize, ShownLevel)| {
            let mut bytes = count(N);
            for level in 0..N {
                let q = position >> (level + 1);
                let (a_group, a_path) = match level {
                    0 => (shown.a_group.clone(), shown.a_path.clone()),
                    _ => invented.group(level, 2 * q),
                };
                let (c_group, c_path) = invented.group(level + 1, q);
                let width = a_group.len();
                let places = [
                    a_group[2 * q % width],
                    a_group[(2 * q + 1) % width],
                    c_group[q % c_group.len()],
                ];
                bytes.extend(words(&places));
                for group in [&a_group, &c_group] {
                    bytes.extend(count(group.len()));
                    bytes.extend(words(group));
                }
                for path in [&a_path, &c_path] {
                    bytes.extend(count(path.len()));
                    bytes.extend(path.concat());
                }
            }
            (*position, bytes)
        };
        self.asked.iter().map(record).collect()
    }
}

impl Invented {
    /// The group that holds a place of a level, and its path.
    fn group(&self, level: usize, place: usize) -> (Vec<Word>, Vec<[u8; 32]>) {
        let (words, tree) = &self.levels[level - 1];
        let width = fold_tree_width(Widths::Present, words.len());
        let start = place - place % width;
        (
            words[start..start + width].to_vec(),
            tree.open(place).unwrap(),
        )
    }

    fn claim(&self) -> Word {
        self.levels[N - 1].0[0]
    }

    fn tail(&self) -> Vec<u8> {
        let words_of_last = self.levels[N - 1].0.len();
        let width = fold_tree_width(Widths::Present, words_of_last);
        let mut bytes = count(words_of_last / width);
        for place in (0..words_of_last).step_by(width) {
            let (group, path) = self.group(N, place);
            bytes.extend(count(group.len()));
            bytes.extend(words(&group));
            bytes.extend(count(path.len()));
            bytes.extend(path.concat());
        }
        bytes
    }

    /// Writes an opening, or an answer where there are no records.
    fn write(&self, desk: &Desk, folder: &str, challenges: &str, records: &[(usize, Vec<u8>)]) {
        let _ = std::fs::remove_dir_all(desk.path(folder));
        desk.folder(folder);
        let file = |name: &str, bytes: &[u8]| desk.write(&format!("{folder}/{name}"), bytes);
        file("parameters.txt", &desk.read("plan.txt.seal/parameters.txt"));
        file("challenges.txt", &desk.read(challenges));
        let office: Root = desk.value("plan.txt.seal/root.txt").parse().unwrap();
        let roots = self.levels.iter().map(|(_, tree)| tree.root());
        let lines: String = std::iter::once(office)
            .chain(roots)
            .map(|root| format!("{root}\n"))
            .collect();
        file("roots.txt", lines.as_bytes());
        file("claim.txt", format!("{}\n", self.claim()).as_bytes());
        file("tail.record", &self.tail());
        file("summary.txt", b"An opening of the sealed file\n");
        for (position, bytes) in records {
            file(&format!("query-{position}.record"), bytes);
        }
        desk.vouch(folder);
    }
}

fn count(items: usize) -> Vec<u8> {
    (items as u32).to_le_bytes().to_vec()
}

fn words(words: &[Word]) -> Vec<u8> {
    words.iter().flat_map(|word| word.0.to_le_bytes()).collect()
}

/// A desk with an opening that was made up for the checker's challenges and positions, with its claim.
fn forged(name: &str) -> (Desk, Word) {
    let desk = asked_at_once(name);
    let forger = Forger::with_groups_of(&desk, "plan.txt.opening", "challenges.txt");
    let invented = forger.invents();
    invented.write(
        &desk,
        "forged",
        "challenges.txt",
        &forger.records(&invented),
    );
    let honest: Word = desk.value("plan.txt.opening/claim.txt").parse().unwrap();
    assert_ne!(invented.claim(), honest);
    (desk, invented.claim())
}

#[test]
fn a_claim_that_was_never_deposited_is_not_accepted() {
    let (desk, claim) = forged("forged");
    let run = desk.run(CHECK);
    run.says(
        3,
        &[
            "tail: not accepted: it fits the opening's own roots, and nobody kept these before the positions were told",
            "note: no roots were kept before the positions were told. Whoever knows challenges and positions beforehand can invent",
            "ask in two rounds: `seal ask` keeps the holder's roots",
            "verdict: partly accepted: 40 records. What they show of level 0 is what was deposited. The tail and the claim are not accepted: no roots were kept",
        ],
    );
    run.does_not_say(&["verdict: accepted", "tail: accepted"]);
    // A checker who expects the forger's claim is not told that it was deposited either.
    let run = desk.run(&format!("{CHECK} --claim {claim}"));
    run.says(3, &["verdict: partly accepted"]);
    desk.run(&format!("{CHECK} --claim {:032x}", 5))
        .says(1, &["tail: refused, 31"]);
}

#[test]
fn the_object_of_a_forged_opening_says_what_is_accepted() {
    let (desk, claim) = forged("forged-json");
    let run = desk.run(&format!("{CHECK} --json"));
    run.says(
        3,
        &[
            "\"verdict\": \"partly-accepted\", \"accepted\": false, \"exit\": 3",
            "\"notes\": [\"no roots were kept before the positions were told.",
            "\"sentence\": \"accepted on level 0\"",
            "\"tail\": {\"accepted\": false, \"number\": null, \"level\": null, \"sentence\": \"it fits the opening's own roots,",
            &format!("\"claim\": {{\"word\": \"{claim}\", \"accepted\": false}}"),
            "\"roots_kept\": false",
        ],
    );
}

#[test]
fn the_page_of_a_forged_opening_says_what_is_accepted() {
    let (desk, claim) = forged("forged-page");
    desk.run(&format!("{CHECK} --report page.html"))
        .says(3, &[]);
    let page = desk.text("page.html");
    for text in [
        "<b>– PARTLY ACCEPTED</b>",
        "<td class=\"place\">tail</td><td class=\"mark\">– not accepted</td>",
        &format!("{claim}, not accepted: no roots were kept before the positions were told"),
        "that of level 0 alone, the seal&#39;s; nobody kept those of levels 1 to 6",
        "<li><bdi>no roots were kept before the positions were told. Whoever knows",
        "✓ accepted on level 0",
        "<td>0</td><td class=\"place\">the seal&#39;s</td>",
        "<td>6</td><td class=\"place\">the opening&#39;s</td>",
    ] {
        assert!(page.contains(text), "{text}");
    }
    assert!(
        !page.contains("✓ ACCEPTED") && !page.contains("✓ accepted<"),
        "{page}"
    );
    // By roots that were kept, an honest opening's page has the claim as accepted.
    let honest = CHECK.replace("check forged", "check plan.txt.opening");
    desk.run(&format!(
        "{honest} --roots kept-roots.txt --report honest.html"
    ))
    .says(0, &[]);
    let page = desk.text("honest.html");
    let claim = desk.value("plan.txt.opening/claim.txt");
    for text in [
        "<b>✓ ACCEPTED</b>",
        &format!("{claim}, accepted"),
        "those of levels 0 to 6: the seal&#39;s, and those of levels 1 to 6, which the checker kept",
        "<td>6</td><td class=\"place\">kept</td>",
    ] {
        assert!(page.contains(text), "{text}");
    }
}

#[test]
fn roots_that_were_kept_refuse_it() {
    let (desk, _) = forged("forged-kept");
    let run = desk.run(&format!("{CHECK} --roots kept-roots.txt"));
    run.says(
        1,
        &[
            "refused, 24 at level 0",
            "tail: refused, 30",
            "verdict: refused: 41 refused, 0 accepted",
        ],
    );
    // The holder's own list is no list that was kept.
    desk.run(&format!("{CHECK} --roots forged/roots.txt"))
        .says(2, &["lies in the opening, so it is the holder's"]);
}

#[test]
fn what_is_shown_of_level_0_cannot_be_made_up() {
    let (desk, _) = forged("forged-level-0");
    let record = format!(
        "forged/query-{}.record",
        desk.text("positions.txt").lines().next().unwrap()
    );
    // The first word of the first group, behind the count, three words and the group's count.
    desk.damage(&record, 4 + 48 + 4);
    desk.vouch("forged");
    desk.run(CHECK).says(
        1,
        &[
            "refused, 18 at level 0",
            "verdict: refused: 1 refused, 39 accepted",
        ],
    );
}

#[test]
fn two_rounds_refuse_what_was_made_up_before_the_positions_and_after() {
    let desk = Desk::answered("forged-rounds");
    let challenges = "plan.txt.asked/challenges.txt";
    // Level 0 is the holder's own; the forger guesses positions and answers with levels that were made up for these.
    desk.run(&format!(
        "open plan.txt --seal plan.txt.seal --challenges {challenges} --at 1,77,200 --out guessed"
    ))
    .says(0, &[]);
    let forger = Forger::with_groups_of(&desk, "guessed", challenges);
    let before = forger.invents();
    before.write(&desk, "plan.txt.answer", challenges, &[]);
    desk.run("ask --seal plan.txt.seal --asked plan.txt.asked --answer plan.txt.answer")
        .says(0, &["kept the holder's roots"]);
    // Now the positions are there, and the roots are kept.
    desk.run(OPEN_ASKED)
        .says(1, &["the request keeps other roots"]);
    let positions = desk.text("plan.txt.asked/positions.txt");
    let list: Vec<&str> = positions.lines().skip(1).collect();
    desk.run(&format!(
        "open plan.txt --seal plan.txt.seal --challenges {challenges} --at {} --out honest",
        list.join(",")
    ))
    .says(0, &[]);
    let forger = Forger::with_groups_of(&desk, "honest", challenges);
    let after = forger.invents();
    for (invented, number) in [(&before, "26 at level 0"), (&after, "24 at level 0")] {
        invented.write(&desk, "forged", challenges, &forger.records(invented));
        let check = "check forged --seal plan.txt.seal --asked plan.txt.asked";
        desk.run(check).says(1, &[number, "verdict: refused"]);
        // In one round what was made up for the positions would do.
        let once = format!(
            "check forged --seal plan.txt.seal --challenges {challenges} --at {}",
            list.join(",")
        );
        let status = if number.starts_with("24") { 3 } else { 1 };
        desk.run(&once).says(status, &[]);
    }
}

/// The second witness gives the same answers.
#[test]
fn the_witness_does_not_accept_a_forged_claim() {
    let (desk, claim) = forged("forged-witness");
    let at = desk
        .text("positions.txt")
        .lines()
        .collect::<Vec<_>>()
        .join(",");
    let words = format!("forged --seal plan.txt.seal --challenges challenges.txt --at {at}");
    let run = desk.python("check_seal.py", words.split_whitespace());
    run.says(
        3,
        &[
            ": yes on level 0\n",
            "tail: not accepted: it fits the opening's own roots",
            "\nyes on level 0 alone: no roots were kept, so neither the tail nor the claim is accepted\n",
        ],
    );
    run.does_not_say(&["tail: yes", ": no, ", "\nno\n", "\nyes\n"]);
    let claimed = format!("{words} --claim {claim}");
    desk.python("check_seal.py", claimed.split_whitespace())
        .says(3, &[]);
    let kept = format!("{words} --roots kept-roots.txt");
    let run = desk.python("check_seal.py", kept.split_whitespace());
    run.says(1, &["no, 24 at level 0", "tail: no, 30", "\nno\n"]);
}

/// Each option of the checker's, by what a holder has put into an opening, and by nothing else than the names of links that lead out of it.
#[test]
fn a_link_of_the_opening_is_not_the_checker_s_own() {
    let (desk, _) = forged("forged-links");
    let at = desk.text("positions.txt").trim().replace('\n', ",");
    // What the forger sent along, beside the opening: it fits what is invented.
    desk.copy("forged", "sent");
    desk.write("sent/positions.txt", &desk.read("positions.txt"));
    for (to, name) in [
        ("../sent/roots.txt", "kept.txt"),
        ("kept.txt", "chain.txt"),
        ("../sent", "folder"),
        ("../sent/missing", "dangling.txt"),
    ] {
        symlink(to, desk.path("forged").join(name)).unwrap();
    }
    desk.copy("plan.txt.seal", "other.seal");
    symlink("../other.seal", desk.path("forged/seal")).unwrap();
    let given = |seal: &str, challenges: &str, more: &str| {
        format!("forged --seal {seal} --challenges {challenges} --at {at} {more}")
    };
    let own = ("plan.txt.seal", "challenges.txt");
    for (name, words) in [
        ("--roots", given(own.0, own.1, "--roots forged/kept.txt")),
        (
            "--roots",
            given(own.0, own.1, "--roots ./forged/../forged/kept.txt"),
        ),
        ("--roots", given(own.0, own.1, "--roots forged/chain.txt")),
        (
            "--roots",
            given(own.0, own.1, "--roots forged/folder/roots.txt"),
        ),
        (
            "--roots",
            given(own.0, own.1, "--roots forged/dangling.txt"),
        ),
        (
            "--key-file",
            given(own.0, own.1, "--key-file forged/kept.txt"),
        ),
        (
            "--challenges",
            given(own.0, "forged/folder/challenges.txt", ""),
        ),
        ("--seal", given("forged/seal", own.1, "")),
        ("--seal", given("forged", own.1, "")),
    ] {
        let sentence = format!("; {name} takes the checker's own");
        let run = desk.run(&format!("check {words}"));
        run.says(
            2,
            &["lies in the opening, so it is the holder's", &sentence],
        );
        let run = desk.python("check_seal.py", words.split_whitespace());
        run.says(2, &["lies in the opening, so it is the holder's"]);
        let project = words.replace("--at", "--file plan.txt --offset");
        let run = desk.python("check_project.py", project.split_whitespace());
        run.says(2, &["lies in the opening, so it is the holder's"]);
    }
    // What the program has alone: other options, and the other commands that take an opening.
    let record = "plan.txt.opening/query-0.record";
    for words in [
        "check forged --seal plan.txt.seal --asked forged/folder".into(),
        "check forged --seal plan.txt.seal --challenges challenges.txt --positions forged/folder/positions.txt".into(),
        "tail forged --seal plan.txt.seal --roots forged/kept.txt".into(),
        "tail forged --seal forged/seal --roots kept-roots.txt".into(),
        "verify plan.txt --seal forged/seal --opening forged".into(),
        format!("compare {record} {record} --at 0 --seal forged/seal --opening forged"),
        format!("compare {record} {record} --at 0 --seal plan.txt.seal --key-file forged/kept.txt --opening forged"),
        "ask --seal forged/seal --asked plan.txt.asked --answer forged".into(),
        "ask --seal plan.txt.seal --asked forged/folder --answer forged".into(),
    ] {
        desk.run(&words)
            .says(2, &["lies in the opening, so it is the holder's"]);
    }
    // A link elsewhere, and a path that only passes by, are the checker's.
    symlink("kept-roots.txt", desk.path("linked.txt")).unwrap();
    for roots in ["linked.txt", "forged/../kept-roots.txt"] {
        let words = given(
            "forged/../plan.txt.seal",
            own.1,
            &format!("--roots {roots}"),
        );
        let run = desk.run(&format!("check {words}"));
        run.says(1, &["refused, 24 at level 0"]);
        let run = desk.python("check_seal.py", words.split_whitespace());
        run.says(1, &["no, 24 at level 0"]);
    }
}
