//! A project is a folder: one root for many files, opened and checked file by file through the manifest.

mod desk;

use desk::{plan, Desk, Run, KEPT};
use std::ffi::OsStr;
use std::fs;
use std::os::unix::ffi::OsStrExt;
use std::process::Command;

/// The bytes of a part.
const PART: usize = 16_777_200;

/// Names in many scripts, and names that a line of text cannot show as they are: the path's bytes, and how the manifest writes them.
const NAMES: [(&[u8], &str); 14] = [
    (b"b1/two\nlines", "b1/two\\0alines"),
    (b"b1/bl\xffank \xc3", "b1/bl\\ffank \\c3"),
    (b"b1/end ", "b1/end\\20"),
    (b"b1/back\\slash", "b1/back\\5cslash"),
    ("b2/grundriß.dwg".as_bytes(), "b2/grundriß.dwg"),
    ("b2/Κάτοψη".as_bytes(), "b2/Κάτοψη"),
    ("b2/план".as_bytes(), "b2/план"),
    ("b2/مخطط".as_bytes(), "b2/مخطط"),
    ("b2/תוכנית".as_bytes(), "b2/תוכנית"),
    ("b2/योजना".as_bytes(), "b2/योजना"),
    ("b2/แผนผัง".as_bytes(), "b2/แผนผัง"),
    ("b2/平面図".as_bytes(), "b2/平面図"),
    ("b2/평면도 📐".as_bytes(), "b2/평면도 📐"),
    (b"b2/\x01 -- \"<&>' $(x)", "b2/\\01 -- \"<&>' $(x)"),
];

/// Writes a file of a folder, with the folders on its way.
fn put(desk: &Desk, folder: &str, path: &[u8], bytes: &[u8]) {
    let path = desk.path(folder).join(OsStr::from_bytes(path));
    fs::create_dir_all(path.parent().unwrap()).unwrap();
    fs::write(path, bytes).unwrap();
}

/// A project of small files.
fn project(name: &str) -> Desk {
    let desk = Desk::new(name);
    for (i, (path, _)) in NAMES.iter().enumerate() {
        put(&desk, "house", path, &plan()[..i * i]);
    }
    put(&desk, "house", b"plan.txt", &plan());
    put(&desk, "house", b"empty", b"");
    desk
}

fn sealed(name: &str) -> Desk {
    let desk = project(name);
    desk.run("commit house").says(
        0,
        &["sealed the project house: 16 files, 1779 bytes in 16 parts, present widths\nroot "],
    );
    desk
}

const OPEN: &str = "open house --seal house.seal --file plan.txt --seed dice --offset 500,3";
const CHECK: &str =
    "check house.opening --seal house.seal --file plan.txt --seed dice --offset 500,3 --roots kept-roots.txt";
const VERIFY: &str = "verify house --seal house.seal";

#[test]
fn the_manifest_has_every_file_in_one_form_and_its_root_is_the_project_s() {
    let desk = sealed("project-manifest");
    let text = desk.text("house.seal/manifest.txt");
    let written: Vec<&str> = text
        .lines()
        .filter_map(|line| line.strip_prefix("file "))
        .map(|rest| rest.split_once(' ').unwrap().1)
        .collect();
    let mut paths: Vec<(&[u8], &str)> = NAMES.to_vec();
    paths.extend([(&b"plan.txt"[..], "plan.txt"), (b"empty", "empty")]);
    paths.sort();
    let expected: Vec<&str> = paths.iter().map(|(_, text)| *text).collect();
    assert_eq!(written, expected);
    assert!(text.starts_with("format 2\nfile 9 b1/back"));
    // Each part and the manifest are sealed as files are.
    for (file, root) in [
        ("house.seal/manifest.txt", desk.value("house.seal/root.txt")),
        ("house/plan.txt", part_root(&text, "file 960 plan.txt")),
        ("house/empty", part_root(&text, "file 0 empty")),
    ] {
        desk.run(&format!("commit {file} --out one --force"))
            .says(0, &[]);
        assert_eq!(desk.value("one/root.txt"), root, "{file}");
    }
    assert_eq!(
        desk.names("house.seal"),
        [
            "check.txt",
            "manifest.txt",
            "parameters.txt",
            "root.txt",
            "summary.txt"
        ]
    );
}

/// The root in the line behind a file's.
fn part_root(manifest: &str, file: &str) -> String {
    let mut lines = manifest.lines().skip_while(|line| *line != file);
    let part: Vec<&str> = lines.nth(1).unwrap().split(' ').collect();
    assert_eq!((part.len(), part[0]), (3, "part"));
    part[1].into()
}

#[test]
fn the_same_files_have_the_same_root_wherever_and_whenever_they_are_sealed() {
    let desk = sealed("project-same");
    let copied = Command::new("cp")
        .args(["-r", "house", "copy"])
        .current_dir(&desk.0)
        .status();
    assert!(copied.unwrap().success());
    desk.run("commit copy/").says(0, &["root "]);
    assert_eq!(
        desk.read("copy.seal/root.txt"),
        desk.read("house.seal/root.txt")
    );
    let inside = Run::of(
        desk.command(["commit", ".", "--force"])
            .current_dir(desk.path("copy")),
    );
    inside.says(0, &["sealed the project ."]);
    desk.run("verify copy --seal house.seal").says(
        0,
        &["yes: copy is the project that was sealed, 16 files of 1779 bytes\n"],
    );
    desk.run("commit house").says(2, &["house.seal exists"]);
    desk.run("commit house --force --profile balanced")
        .says(0, &[]);
    assert_ne!(
        desk.read("copy.seal/root.txt"),
        desk.read("house.seal/root.txt")
    );
    desk.run(VERIFY).says(0, &["yes: "]);
}

#[test]
fn what_is_no_file_is_refused_by_name() {
    let desk = project("project-others");
    std::os::unix::fs::symlink("plan.txt", desk.path("house/b1/link")).unwrap();
    std::os::unix::fs::symlink("b1", desk.path("house/folder\u{202e}link")).unwrap();
    desk.run("commit house").says(
        1,
        &[
            "refused: house holds what is neither a file nor a folder",
            "b1/link is a link",
            "folder\\e2\\80\\aelink is a link",
        ],
    );
    fs::remove_file(desk.path("house/b1/link")).unwrap();
    fs::remove_file(desk.path("house/folder\u{202e}link")).unwrap();
    let made = Command::new("mkfifo").arg(desk.path("house/pipe")).status();
    assert!(made.unwrap().success());
    desk.limited("commit house")
        .says(1, &["pipe is a named pipe"]);
    fs::remove_file(desk.path("house/pipe")).unwrap();
    assert_eq!(desk.names("."), ["house"]);
    desk.run("commit house --out house/seal")
        .says(2, &["house/seal would lie in the project"]);
    desk.run("commit house --out house/b1/seal")
        .says(2, &["would lie in the project"]);
    desk.folder("bare");
    desk.run("commit bare")
        .says(1, &["there is no file in bare"]);
    desk.run("commit house --k 5 --domain d")
        .says(1, &["refused, 4: "]);
    assert_eq!(desk.names("."), ["bare", "house"]);
}

#[test]
fn a_file_is_opened_and_checked_through_the_manifest() {
    let desk = sealed("project-check");
    desk.run(OPEN)
        .says(0, &["opened 2 positions into house.opening"]);
    desk.keep_roots("house.opening");
    let names = desk.names("house.opening");
    assert!(names.contains(&"manifest.txt".into()) && names.contains(&"query-31.record".into()));
    desk.run(CHECK).says(
        0,
        &[
            "manifest: accepted\nposition 0: accepted; it shows bytes 0 to 127 of the file\nposition 31: accepted; it shows bytes 384 to 511 of the file",
            "note: the file that is asked about is plan.txt\n",
            "verdict: accepted: 2 records and the tail",
        ],
    );
    desk.run("tail house.opening --seal house.seal --file plan.txt")
        .says(3, &["tail: sound"]);
    desk.run("compare house.opening/query-0.record house.opening/query-0.record --opening house.opening --seal house.seal --file plan.txt --at 0")
        .says(0, &["same"]);
    // Every name can be asked about, whatever is in it.
    for (path, _) in NAMES.iter().skip(1) {
        let words = |command: &str, on: &str| {
            let line = format!("{command} {on} --seal house.seal --seed dice --offset 0 --file");
            let mut words: Vec<Vec<u8>> = line.split(' ').map(|word| word.into()).collect();
            words.push(path.to_vec());
            words
        };
        let run = |words: Vec<Vec<u8>>| desk.seal(words.iter().map(|word| OsStr::from_bytes(word)));
        let mut open = words("open", "house");
        open.push(b"--force".to_vec());
        run(open).says(0, &["opened 1 position "]);
        desk.keep_roots("house.opening");
        let mut check = words("check", "house.opening");
        run(check.clone()).says(
            3,
            &[
                "verdict: partly accepted: 1 record, fewer than",
                ". What it shows of level 0 is what was deposited.",
            ],
        );
        check.extend(["--roots", KEPT].map(|word| word.into()));
        run(check).says(0, &["verdict: accepted: 1 record and the tail"]);
    }
}

#[test]
fn a_checker_asks_about_a_file_in_two_rounds() {
    let desk = sealed("project-request");
    let of = "--seal house.seal --file plan.txt";
    desk.run("ask --seal house.seal").says(
        2,
        &["house.seal is a project's: --file PATH says which file"],
    );
    desk.run(&format!("ask {of}"))
        .says(0, &["drew 6 challenges into house.asked"]);
    desk.run(&format!("open house {of} --asked house.asked"))
        .says(0, &["into house.answer"]);
    desk.run(&format!(
        "ask {of} --asked house.asked --answer house.answer"
    ))
    .says(0, &["drew 40 positions"]);
    desk.run(&format!("open house {of} --asked house.asked"))
        .says(0, &["opened 40 positions into house.opening"]);
    let check = format!("check house.opening {of} --asked house.asked");
    desk.run(&check).says(
        0,
        &[
            "manifest: accepted",
            "verdict: accepted: 40 records and the tail\n",
        ],
    );
    desk.run(&format!("{check} --offset 3")).says(
        2,
        &["--asked names all that is asked, and excludes --offset"],
    );
    desk.run(&check.replace("plan.txt", "empty"))
        .says(2, &["house.asked"]);
    let manifest = desk
        .text("house.opening/manifest.txt")
        .replace("file 0", "file 1");
    desk.write("house.opening/manifest.txt", manifest.as_bytes());
    desk.run(&check).says(1, &["manifest: refused: "]);
}

#[test]
fn a_refusal_says_whether_the_manifest_or_a_record_failed() {
    let desk = sealed("project-refusals");
    desk.run(OPEN).says(0, &[]);
    desk.keep_roots("house.opening");
    desk.damage("house.opening/query-0.record", 60);
    desk.run(CHECK).says(
        1,
        &[
            "manifest: accepted",
            "position 0: refused, 18 at level 0",
            "position 31: accepted",
        ],
    );
    desk.damage("house.opening/query-0.record", 60);
    desk.run(CHECK).says(0, &[]);

    let sound = desk.text("house.opening/manifest.txt");
    let of_plan = part_root(&sound, "file 960 plan.txt");
    let of_empty = part_root(&sound, "file 0 empty");
    for other in [
        sound.replace("plan.txt", "plan.TXT"),
        sound.replace(&of_plan, &of_empty),
        sound.replace("file 960 ", "file 961 "),
        sound.replace("file 0 empty", "file 0 empt"),
        format!("{sound}{sound}"),
        String::new(),
        sound.replace('\n', "\r\n"),
    ] {
        desk.write("house.opening/manifest.txt", other.as_bytes());
        let run = desk.run(CHECK);
        run.says(
            1,
            &[
                "manifest: refused: the manifest.txt that the opening shows is not the project's: ",
                "No record was checked",
            ],
        );
        run.does_not_say(&[": accepted", "position"]);
    }
    let newer = sound.replacen("format 2", "format 3", 1);
    desk.write("house.opening/manifest.txt", newer.as_bytes());
    desk.run(CHECK).says(
        1,
        &["manifest: refused: house.opening/manifest.txt says that it is of format 3, and this program, "],
    );
    fs::remove_file(desk.path("house.opening/manifest.txt")).unwrap();
    desk.run(CHECK)
        .says(1, &["manifest: refused: the opening shows no manifest.txt"]);
    std::os::unix::fs::symlink(
        "../house.seal/manifest.txt",
        desk.path("house.opening/manifest.txt"),
    )
    .unwrap();
    desk.run(CHECK)
        .says(1, &["manifest: ", "it is a link, not a file"]);
}

#[test]
fn a_report_names_the_file_and_a_refused_manifest() {
    let desk = sealed("project-report");
    desk.run(OPEN).says(0, &[]);
    desk.keep_roots("house.opening");
    desk.run(&format!("{CHECK} --report page.html --json")).says(
        0,
        &["\"manifest\": {\"accepted\": true, \"number\": null, \"level\": null, \"sentence\": \"accepted\", \"ask\": null}"],
    );
    let page = desk.text("page.html");
    for said in [
        "It stands for the project house: 16 files of 1779 bytes in all, in 16 parts. What is asked about is the file plan.txt. The project's root is",
        "<td class=\"place\">manifest</td>",
        "bytes 384 to 511 of the file",
    ] {
        let escaped = said.replace("project's", "project&#39;s");
        assert!(page.contains(said) || page.contains(&escaped), "{said} is not in {page}");
    }
    let other = desk
        .text("house.opening/manifest.txt")
        .replace("file 0", "file 1");
    desk.write("house.opening/manifest.txt", other.as_bytes());
    desk.run(&format!("{CHECK} --report refused.html --json"))
        .says(
            1,
            &[
                "\"manifest\": {\"accepted\": false, \"number\": null",
                "\"records\": []",
            ],
        );
    assert!(desk
        .text("refused.html")
        .contains("that the opening shows is not the project"));
}

/// A root that stands for a file is not taken for a project's, though a record of the project could be found in it.
#[test]
fn a_seal_of_another_file_is_no_project_s() {
    let desk = sealed("project-another");
    desk.run(OPEN).says(0, &[]);
    desk.keep_roots("house.opening");
    desk.write("list", b"format 1\nfile 960 plan.txt\n");
    desk.run("commit list").says(0, &[]);
    fs::copy(desk.path("list"), desk.path("house.opening/manifest.txt")).unwrap();
    desk.run(&CHECK.replace("house.seal", "list.seal"))
        .says(1, &["it has the seal's root, but it is no manifest"]);
    desk.run(&format!(
        "{} --out other",
        OPEN.replace("house.seal", "list.seal")
    ))
    .says(2, &["list.seal is no project's seal"]);
}

#[test]
fn what_is_asked_about_must_be_there() {
    let desk = sealed("project-asked");
    desk.run(OPEN).says(0, &[]);
    desk.keep_roots("house.opening");
    for (from, to, said) in [
        (
            "plan.txt",
            "plan",
            "the project has no file plan; its manifest.txt lists 16 files",
        ),
        ("plan.txt", "/plan.txt", "the project has no file /plan.txt"),
        (
            "plan.txt",
            "empty",
            "offset 500 is outside the file, which has 0 bytes",
        ),
        (
            "500,3",
            "960",
            "offset 960 is outside the file, which has 960 bytes",
        ),
        ("500,3", "x", "`x` is no offset"),
        ("500,3", "3 --at 3", "--offset excludes --at"),
        (
            "500,3",
            "3 --part 1",
            "--offset and --part exclude each other",
        ),
        (
            "--offset 500,3",
            "--at 3 --part 2",
            "the file has no part 2; it has 1",
        ),
        (" --file plan.txt", "", ": --file PATH says which file"),
    ] {
        for line in [&*format!("{OPEN} --out other"), CHECK] {
            desk.run(&line.replace(from, to)).says(2, &[said]);
        }
    }
    desk.run(&CHECK.replace("--offset 500,3", "--at 31"))
        .says(0, &["position 31: accepted"]);
    // The place is a question of the checker's: another than the opening shows is not in it.
    desk.run(&CHECK.replace("500,3", "20")).says(
        1,
        &["position 1: refused: the opening has no record at this position"],
    );
}

/// What a holder adds to an opening does not turn a verdict into none.
#[test]
fn a_manifest_in_an_opening_of_a_file_is_not_checked() {
    let desk = Desk::opened("stray-manifest");
    desk.write("plan.txt.opening/manifest.txt", b"format 2\nanything");
    desk.check().says(
        0,
        &[
            "not checked: manifest.txt\n",
            "verdict: accepted: 3 records",
        ],
    );
    desk.damage("plan.txt.opening/query-7.record", 60);
    desk.check()
        .says(1, &["position 7: refused, 18 at level 0"]);
}

#[test]
fn offsets_of_a_file_that_is_sealed_by_itself() {
    let desk = Desk::opened("offsets");
    let words = "plan.txt.seal --seed dice --offset";
    let check = format!("check plan.txt.opening --seal {words} 112,127");
    desk.run(&check)
        .says(3, &["position 7: accepted on level 0; it shows "]);
    desk.run(&format!("{check} --roots {KEPT}")).says(
        0,
        &["position 7: accepted; it shows ", "1 record and the tail"],
    );
    // 64 words, of which the last is the length.
    desk.run(&format!("open plan.txt --seal {words} 1007 --force"))
        .says(0, &[]);
    desk.run(&format!("open plan.txt --seal {words} 1008 --force"))
        .says(2, &["offset 1008 is outside the sealed file"]);
    desk.run(&format!(
        "open plan.txt --seal {words} 18446744073709551615 --force"
    ))
    .says(2, &["is outside the sealed file"]);
}

#[test]
fn what_changed_is_missing_or_is_new() {
    let desk = sealed("project-verify");
    desk.run(VERIFY).says(0, &["yes: "]);
    std::os::unix::fs::symlink("plan.txt", desk.path("house/link")).unwrap();
    desk.run(VERIFY).says(
        1,
        &["no: house is not the project that was sealed\nnew: link, which is a link\n"],
    );
    desk.damage("house/plan.txt", 500);
    desk.run(VERIFY).says(
        1,
        &["no: house is not the project that was sealed\nchanged: plan.txt\nnew: link"],
    );
    put(&desk, "house", b"b1/new\none", b"");
    put(
        &desk,
        "house",
        "b2/план".as_bytes(),
        b"longer than before it was",
    );
    fs::remove_file(desk.path("house/b2/평면도 📐")).unwrap();
    fs::remove_file(desk.path("house/empty")).unwrap();
    let run = desk.run(VERIFY);
    run.says(
        1,
        &["changed: b2/план, which had 36 bytes and has 25\nchanged: plan.txt\nmissing: b2/평면도 📐\nmissing: empty\nnew: b1/new\\0aone\nnew: link, which is a link\n"],
    );
    desk.run(&format!("{VERIFY} --json")).says(
        1,
        &[
            "\"changed\": [{\"path\": \"b2/план\", \"kind\": \"length\", \"first_differing\": {\"from\": 0, \"to\": 35}, \"bytes_then\": 36, \"bytes_now\": 25}, \
             {\"path\": \"plan.txt\", \"kind\": \"bytes\", \"first_differing\": {\"from\": 0, \"to\": 959}, \"bytes_then\": 960, \"bytes_now\": 960}], \
             \"missing\": [{\"path\": \"b2/평면도 📐\", \"kind\": \"file\"}, {\"path\": \"empty\", \"kind\": \"file\"}], \
             \"new\": [{\"path\": \"b1/new\\\\0aone\", \"kind\": \"file\"}, {\"path\": \"link\", \"kind\": \"link\"}]",
            "\"verdict\": \"refused\", \"accepted\": false, \"exit\": 1",
        ],
    );
    // A file in the place of a folder, and the other way round.
    fs::remove_dir_all(desk.path("house/b1")).unwrap();
    put(&desk, "house", b"b1", b"");
    desk.run(VERIFY)
        .says(1, &["missing: b1/back\\5cslash", "new: b1\n"]);
    desk.run(&format!("{VERIFY} --opening house.opening"))
        .says(2, &["--opening goes with a file"]);
    desk.damage("house.seal/manifest.txt", 100);
    desk.run(VERIFY)
        .says(2, &["the seal in house.seal is damaged: its manifest.txt"]);
    fs::remove_file(desk.path("house.seal/manifest.txt")).unwrap();
    desk.run(VERIFY).says(
        1,
        &[
            "no: ",
            "the seal has no manifest.txt, so it cannot be said which files differ",
        ],
    );
}

#[test]
fn a_changed_file_is_not_opened() {
    let desk = sealed("project-open");
    for bytes in [
        &plan()[1..],
        &[&plan()[..], b"\0"].concat(),
        b"",
        &plan().repeat(9),
    ] {
        desk.write("house/plan.txt", bytes);
        desk.run(OPEN)
            .says(1, &["plan.txt is not the file that was sealed"]);
    }
    fs::remove_file(desk.path("house/plan.txt")).unwrap();
    desk.run(OPEN)
        .says(2, &["cannot read house/plan.txt: there is no such file"]);
    std::os::unix::fs::symlink("empty", desk.path("house/plan.txt")).unwrap();
    desk.run(OPEN)
        .says(2, &["cannot read house/plan.txt: it is a link"]);
    desk.write("plan.txt", &plan());
    desk.damage("house.seal/manifest.txt", 100);
    desk.run(OPEN)
        .says(2, &["the seal in house.seal is damaged: its manifest.txt"]);
}

/// The commands of cli/README.md, as they stand there.
#[test]
fn the_page_s_commands_do_what_it_says() {
    let desk = Desk::new("project-page");
    put(&desk, "house", b"plans/north.dwg", &noise(5000, 3));
    // 5,000 bytes are 313 words, and so n = 9.
    let challenges: String = (1..10).map(|word| format!("{word:032x}\n")).collect();
    desk.write("FILE", challenges.as_bytes());
    let page = include_str!("../README.md");
    let (_, section) = page.split_once("## A project is a folder\n").unwrap();
    let lines = section
        .lines()
        .map_while(|line| line.strip_prefix("    seal "));
    let said: Vec<String> = lines
        .map(|line| {
            // Where a line ends otherwise than with 0, the page says how.
            let (line, said) = line.split_once('#').unwrap_or((line, ""));
            let run = desk.run(line);
            let status = if said.starts_with(" 3: ") { 3 } else { 0 };
            assert_eq!(run.status, status, "{run:?}");
            run.out
        })
        .collect();
    for (said, expected) in said.iter().zip([
        "sealed the project house: 1 file",
        "yes: house is the project that was sealed, 1 file of 5000 bytes",
        "opened 1 position into house.opening",
        "position 294: accepted on level 0; it shows bytes 4608 to 4735 of the file",
    ]) {
        assert!(said.contains(expected), "{expected} is not in {said}");
    }
    assert_eq!(said.len(), 4);
}

/// Bytes that do not repeat soon, of any number.
fn noise(size: usize, seed: u64) -> Vec<u8> {
    let mut state = seed;
    let mut word = || {
        state = state.wrapping_add(0x9e37_79b9_7f4a_7c15);
        let mixed = (state ^ state >> 30).wrapping_mul(0xbf58_476d_1ce4_e5b9);
        (mixed ^ mixed >> 27).to_le_bytes()
    };
    let mut bytes = Vec::with_capacity(size + 8);
    while bytes.len() < size {
        bytes.extend(word());
    }
    bytes.truncate(size);
    bytes
}

#[test]
fn a_large_file_is_sealed_in_parts() {
    let desk = Desk::new("project-parts");
    let bytes = noise(PART + 1000, 1);
    put(&desk, "house", b"large", &bytes);
    desk.run("commit house")
        .says(0, &["1 file, 16778200 bytes in 2 parts"]);
    let manifest = desk.text("house.seal/manifest.txt");
    desk.write("first", &bytes[..PART]);
    desk.run("commit first").says(0, &[]);
    assert_eq!(
        desk.value("first.seal/root.txt"),
        part_root(&manifest, "file 16778200 large")
    );
    let on = "house --seal house.seal --file large --seed dice";
    let check = format!("check {}", on.replace("house ", "house.opening "));
    desk.run(&format!("open {on}"))
        .says(2, &["the file has 2 parts"]);
    desk.run(&format!("open {on} --offset 16777199,16777200"))
        .says(2, &["the offsets are in different parts"]);
    desk.run(&format!("open {on} --offset 16777999"))
        .says(0, &[]);
    desk.keep_roots("house.opening");
    let check = format!("{check} --roots {KEPT}");
    desk.run(&format!("{check} --offset 16777999")).says(
        0,
        &["position 49: accepted; it shows bytes 16777968 to 16778095 of the file", "note: the file that is asked about is large, part 2 of 2, bytes 16777200 to 16778199\n"],
    );
    desk.run(&format!("{check} --part 2 --at 49")).says(0, &[]);
    let shown = desk.run("show house.opening");
    shown.says(
        0,
        &[
            "position 49: bytes 16777968 to 16778095 of the file",
            "\n  16777968  ",
            "note: by its manifest this is an opening of the file large, part 2 of 2, bytes 16777200 to 16778199, and the offsets are the file's",
        ],
    );
    desk.run("show house.opening --json").says(
        0,
        &[
            "\"file\": \"large\"",
            "{\"position\": 49, \"offset\": 16777968, ",
        ],
    );
    desk.run(VERIFY).says(0, &[]);
    desk.damage("house/large", PART + 5);
    desk.run(VERIFY)
        .says(1, &["changed: large, first in bytes 16777200 to 16778199"]);
    desk.damage("house/large", 5);
    desk.run(VERIFY)
        .says(1, &["changed: large, first in bytes 0 to 16777199"]);
}

/// 2,000 files of 300 MB in all and names in many scripts, and one file of 100 MB: sealed, verified, opened and checked. By hand, since it takes
/// long: `cargo test --test projects -- --ignored --nocapture`, which says how long each step took.
#[test]
#[ignore = "takes long, and 800 MB of disk"]
fn a_project_of_many_files_and_one_of_100_mb() {
    let desk = Desk::new("project-large");
    let timed = |what: &str, line: &str| {
        let start = std::time::Instant::now();
        let run = desk.run(line);
        println!("{what}: {:.1} s", start.elapsed().as_secs_f64());
        run
    };
    for i in 0..2000 {
        let (name, _) = NAMES[i % NAMES.len()];
        let path = [
            format!("{:02}/", i % 37).as_bytes(),
            name,
            format!(" {i}").as_bytes(),
        ]
        .concat();
        // From empty ones to some of 450 KB, 300 MB in all.
        put(&desk, "many", &path, &noise(i * i * 9 / 80, i as u64));
    }
    timed("2,000 files, commit", "commit many")
        .says(0, &["sealed the project many: 2000 files, 2997"]);
    timed("2,000 files, verify", "verify many --seal many.seal").says(0, &["yes: "]);
    put(&desk, "one", b"large", &noise(100_000_000, 7));
    timed("100 MB, commit", "commit one").says(0, &["1 file, 100000000 bytes in 6 parts"]);
    let on = "--seal one.seal --file large --seed dice --offset 99999999";
    timed("100 MB, open", &format!("open one {on}")).says(0, &["opened 1 position"]);
    desk.keep_roots("one.opening");
    timed(
        "100 MB, check",
        &format!("check one.opening {on} --roots {KEPT}"),
    )
    .says(
        0,
        &[
            "part 6 of 6, bytes 83886000 to 99999999\n",
            "verdict: accepted",
        ],
    );
    desk.damage("one/large", 50_000_000);
    timed("100 MB, verify", "verify one --seal one.seal")
        .says(1, &["changed: large, first in bytes 33554400 to 50331599"]);
    fs::remove_dir_all(&desk.0).unwrap();
}

#[test]
fn one_file_in_one_part_is_said_so() {
    let desk = Desk::new("project-of-one");
    desk.folder("house");
    desk.write("house/list", b"north\n");
    desk.run("commit house").says(
        0,
        &["sealed the project house: 1 file, 6 bytes in 1 part, present widths\n"],
    );
    let summary = desk.text("house.seal/summary.txt");
    let line = "It stands for the project house: 1 file of 6 bytes in all, in 1 part.\n";
    assert!(summary.contains(line), "{summary}");
}

/// Of what is shown of a path, `--file` takes back all; two spellings of one name are not shown alike.
#[test]
fn a_path_is_named_as_it_is_shown() {
    let desk = Desk::new("project-named");
    let mut paths: Vec<Vec<u8>> = NAMES.iter().map(|(path, _)| path.to_vec()).collect();
    for path in [
        "é",
        "e\u{301}",
        "a\u{202e}b",
        "한",
        "\u{1112}\u{1161}\u{11ab}",
        "x\\0a",
        "x\n",
    ] {
        paths.push(path.into());
    }
    for path in &paths {
        put(&desk, "house", path, path);
    }
    desk.run("commit house").says(0, &[]);
    fs::rename(desk.path("house"), desk.path("aside")).unwrap();
    desk.folder("house");
    let shown = desk.run(VERIFY).out;
    let shown: Vec<&str> = shown
        .lines()
        .filter_map(|line| line.strip_prefix("missing: "))
        .collect();
    assert_eq!(shown.len(), paths.len());
    for text in ["é", "e\\cc\\81", "a\\e2\\80\\aeb", "한", "x\\5c0a", "x\\0a"] {
        assert!(shown.contains(&text), "{text} is not in {shown:?}");
    }
    fs::remove_dir(desk.path("house")).unwrap();
    fs::rename(desk.path("aside"), desk.path("house")).unwrap();
    let of = "--seal house.seal --seed dice --offset 0 --force --file";
    let open = |path: &OsStr| {
        let words = format!("open house {of}");
        let words: Vec<&OsStr> = words.split(' ').map(OsStr::new).collect();
        desk.seal(words.into_iter().chain([path]))
    };
    for text in &shown {
        open(OsStr::new(text)).says(0, &["opened 1 position"]);
        let summary = desk.text("house.opening/summary.txt");
        let line = format!("An opening of the sealed file {text}.\n");
        assert!(summary.starts_with(&line), "{line} {summary}");
    }
    // The bytes of a path are taken too, unless they are what is shown of another.
    for path in &paths {
        open(OsStr::from_bytes(path)).says(0, &[]);
    }
    open(OsStr::new("x\\0A")).says(2, &["the project has no file x\\5c0A"]);
}

/// A project whose manifest says another length than was sealed under the root that it names.
#[test]
fn a_record_that_shows_another_length_than_the_manifest_is_refused() {
    let desk = sealed("project-length");
    desk.run("open house --seal house.seal --file plan.txt --seed dice --at 0,63")
        .says(0, &[]);
    desk.keep_roots("house.opening");
    let check = "check house.opening --seal house.seal --file plan.txt --seed dice --roots kept-roots.txt --at";
    desk.run(&format!("{check} 0,63"))
        .says(0, &["position 63: accepted; it shows "]);
    let text = desk.text("house.seal/manifest.txt");
    let other = text.replace("file 960 plan.txt", "file 961 plan.txt");
    desk.write("other.txt", other.as_bytes());
    desk.run("commit other.txt").says(0, &[]);
    fs::copy(
        desk.path("other.txt"),
        desk.path("house.opening/manifest.txt"),
    )
    .unwrap();
    let check = check.replace("house.seal", "other.txt.seal");
    desk.run(&format!("{check} 0,63")).says(
        1,
        &[
            "position 0: accepted; ",
            "position 63: refused: the record leads to the root that the manifest names, and shows that 960 bytes were sealed under it, where the manifest says 961",
            "verdict: refused",
        ],
    );
    // What shows no length is what was sealed, whatever the manifest says of it.
    desk.run(&format!("{check} 0"))
        .says(0, &["position 0: accepted"]);
}

/// A project's root is that of its manifest, and the manifest is not what the seal stands for.
#[test]
fn a_file_is_not_verified_by_a_project_s_seal() {
    let desk = sealed("project-file");
    let verify = "verify house.seal/manifest.txt --seal house.seal";
    let said = "house.seal is a project's seal, and house.seal/manifest.txt is a file; the project has 16 files: ";
    desk.run(verify).says(2, &[said]);
    desk.run("verify house/plan.txt --seal house.seal")
        .says(2, &["house.seal is a project's seal"]);
    // The summary says it too.
    fs::rename(
        desk.path("house.seal/manifest.txt"),
        desk.path("manifest.txt"),
    )
    .unwrap();
    desk.run("verify manifest.txt --seal house.seal")
        .says(2, &["house.seal is a project's seal"]);
    // A manifest that was sealed as a file is one.
    desk.run("commit manifest.txt").says(0, &[]);
    desk.run("verify manifest.txt --seal manifest.txt.seal")
        .says(0, &["yes: "]);
}

/// An opening whose manifest has its root twice is of either; the summary says of which.
#[test]
fn an_opening_of_one_of_two_files_with_the_same_bytes_is_shown() {
    let desk = Desk::new("project-twice");
    put(&desk, "house", b"a", &plan());
    put(&desk, "house", b"b", &plan());
    desk.run("commit house").says(0, &[]);
    desk.run("open house --seal house.seal --file b --seed dice --at 3")
        .says(0, &[]);
    desk.run("show house.opening")
        .says(0, &["this is an opening of the file b, and"]);
    fs::remove_file(desk.path("house.opening/summary.txt")).unwrap();
    desk.run("show house.opening")
        .says(0, &["in which 2 parts have the same bytes: a, b. "]);
    let other = desk
        .text("house.seal/manifest.txt")
        .replace("part ", "part 0");
    desk.write("house.opening/manifest.txt", other.as_bytes());
    desk.run("show house.opening").does_not_say(&["note: "]);
}

/// By default the digests that the manifest keeps are compared, which is said; with --full every part is committed anew.
#[test]
fn a_project_is_verified_by_digests_or_in_full() {
    let desk = sealed("project-digests");
    let note = "note: the parts were compared by the BLAKE3 digests that the manifest keeps; --full commits each part anew\n";
    desk.run(VERIFY).says(0, &["yes: ", note]);
    let full = format!("{VERIFY} --full");
    desk.run(&full).does_not_say(&["note: "]);
    for (line, by) in [(VERIFY, "digests"), (&full, "roots")] {
        let run = desk.run(&format!("{line} --json"));
        run.says(0, &[&format!("\"compared_by\": \"{by}\"")]);
    }
    // The digest is that of the part's bytes.
    let text = desk.text("house.seal/manifest.txt");
    let digest = dequmlo::Root(dequmlo::digest(&plan()).unwrap()).to_string();
    let root = part_root(&text, "file 960 plan.txt");
    assert!(text.contains(&format!("file 960 plan.txt\npart {root} {digest}\n")));
    desk.damage("house/plan.txt", 500);
    fs::rename(desk.path("house/b1"), desk.path("house/b3")).unwrap();
    for line in [VERIFY, &full] {
        desk.run(line).says(
            1,
            &[
                "no: house is not the project that was sealed\nchanged: plan.txt\n",
                "moved: b1/end\\20, which is now b3/end\\20\n",
            ],
        );
    }
    // A seal that has lost its manifest, or whose manifest is damaged, is one whose folder is committed anew.
    desk.damage("house/plan.txt", 500);
    fs::rename(desk.path("house/b3"), desk.path("house/b1")).unwrap();
    desk.damage("house.seal/manifest.txt", 100);
    desk.run(&format!("{VERIFY} --json"))
        .says(0, &["yes: ", "\"compared_by\": \"roots\""]);
    fs::remove_file(desk.path("house.seal/manifest.txt")).unwrap();
    desk.run(VERIFY).says(0, &["yes: "]);
    desk.folder("house/more");
    desk.run(VERIFY).says(1, &["no: "]);
}

/// A digest in the manifest is under the project's root: another one is another project's.
#[test]
fn the_root_covers_the_digests() {
    let desk = sealed("project-covered");
    desk.run(OPEN).says(0, &[]);
    desk.keep_roots("house.opening");
    let text = desk.text("house.seal/manifest.txt");
    let digest = dequmlo::Root(dequmlo::digest(&plan()).unwrap()).to_string();
    let other = dequmlo::Root(dequmlo::digest(b"another").unwrap()).to_string();
    let changed = text.replace(&digest, &other);
    assert_ne!(changed, text);
    desk.write("house.opening/manifest.txt", changed.as_bytes());
    desk.run(CHECK).says(1, &["manifest: refused: "]);
    desk.write("house.seal/manifest.txt", changed.as_bytes());
    desk.write("house/plan.txt", b"another");
    desk.run(VERIFY)
        .says(2, &["the seal in house.seal is damaged: its manifest.txt"]);
}

/// A folder in which there is nothing is in the manifest, and is missed, or new.
#[test]
fn empty_folders_are_listed() {
    let desk = sealed("project-folders");
    let without = desk.value("house.seal/root.txt");
    fs::create_dir_all(desk.path("house/nothing/in it\n")).unwrap();
    desk.run(VERIFY)
        .says(1, &["new: nothing/in it\\0a, which is an empty folder\n"]);
    desk.run("commit house --force").says(0, &["16 files, "]);
    assert_ne!(desk.value("house.seal/root.txt"), without);
    let text = desk.text("house.seal/manifest.txt");
    assert!(
        text.contains("\nfolder nothing/in it\\0a\nfile 960 plan.txt\n"),
        "{text}"
    );
    assert_eq!(text.matches("folder ").count(), 1);
    desk.run(VERIFY).says(0, &["yes: "]);
    desk.run(&format!("{VERIFY} --full")).says(0, &["yes: "]);
    fs::remove_dir(desk.path("house/nothing/in it\n")).unwrap();
    desk.run(VERIFY).says(
        1,
        &[
            "missing: nothing/in it\\0a, which is an empty folder\n",
            "no: ",
        ],
    );
    desk.run(&format!("{VERIFY} --json")).says(
        1,
        &["\"missing\": [{\"path\": \"nothing/in it\\\\0a\", \"kind\": \"empty folder\"}], \"new\": []"],
    );
    fs::remove_dir(desk.path("house/nothing")).unwrap();
    desk.run(VERIFY)
        .says(1, &["missing: nothing/in it\\0a, which is an empty folder"]);
    // One that has something in it now is there.
    put(&desk, "house", b"nothing/in it\n/new", b"");
    let run = desk.run(VERIFY);
    run.says(1, &["new: nothing/in it\\0a/new\n"]);
    run.does_not_say(&["missing"]);
}
