//! A folder for one test, and the program run in it as a user runs it. Not every test file uses all of it.
#![allow(dead_code)]

pub mod disk;

use std::ffi::OsStr;
use std::fs;
use std::path::{Path, PathBuf};
use std::process::Command;

/// The words of a check by the checker's own questions and by roots that were kept, for what `Desk::opened` made.
pub const CHECK: &str =
    "check plan.txt.opening --seal plan.txt.seal --seed dice --at 7,0,127 --roots kept-roots.txt";

/// The same by the roots that the opening itself names.
pub const CHECK_UNKEPT: &str =
    "check plan.txt.opening --seal plan.txt.seal --seed dice --at 7,0,127";

/// The file of the roots that the checker kept.
pub const KEPT: &str = "kept-roots.txt";

/// The words that open and check by a request, for what `Desk::asked` made.
pub const OPEN_ASKED: &str = "open plan.txt --seal plan.txt.seal --asked plan.txt.asked";
pub const CHECK_ASKED: &str = "check plan.txt.opening --seal plan.txt.seal --asked plan.txt.asked";

/// The line that a text file begins with.
pub const FORMAT: &str = "format 1\n";

/// A folder for one test, empty at its start.
pub struct Desk(pub PathBuf);

impl Desk {
    pub fn new(name: &str) -> Desk {
        let folder = Path::new(env!("CARGO_TARGET_TMPDIR")).join(name);
        let _ = fs::remove_dir_all(&folder);
        fs::create_dir_all(&folder).unwrap();
        Desk(folder)
    }

    /// A desk with a sealed file and its opening at three positions.
    pub fn opened(name: &str) -> Desk {
        let desk = Desk::new(name);
        desk.write("plan.txt", &plan());
        assert_eq!(desk.run("commit plan.txt").status, 0);
        let open = "open plan.txt --seal plan.txt.seal --seed dice --at 7,0,127";
        assert_eq!(desk.run(open).status, 0);
        desk.keep_roots("plan.txt.opening");
        desk
    }

    /// The same under the wide set of widths.
    pub fn wide(name: &str) -> Desk {
        let desk = Desk::new(name);
        desk.write("plan.txt", &plan());
        assert_eq!(desk.run("commit plan.txt --widths wide").status, 0);
        let open = "open plan.txt --seal plan.txt.seal --seed dice --at 7,0,127";
        assert_eq!(desk.run(open).status, 0);
        desk.keep_roots("plan.txt.opening");
        desk
    }

    /// A desk with a sealed file, a request that was answered and has three positions, and the opening of these.
    pub fn asked(name: &str) -> Desk {
        let desk = Desk::answered(name);
        let ask =
            "ask --seal plan.txt.seal --asked plan.txt.asked --answer plan.txt.answer --count 3";
        assert_eq!(desk.run(ask).status, 0);
        assert_eq!(desk.run(OPEN_ASKED).status, 0);
        desk
    }

    /// A desk with a sealed file, a request without positions, and the answer to it.
    pub fn answered(name: &str) -> Desk {
        let desk = Desk::new(name);
        desk.write("plan.txt", &plan());
        assert_eq!(desk.run("commit plan.txt").status, 0);
        assert_eq!(desk.run("ask --seal plan.txt.seal").status, 0);
        assert_eq!(desk.run(OPEN_ASKED).status, 0);
        desk
    }

    /// The same as version 0.1.0 left it, without check lines and without the line of the format.
    pub fn old(name: &str) -> Desk {
        let desk = Desk::opened(name);
        for folder in ["plan.txt.seal", "plan.txt.opening"] {
            let _ = fs::remove_file(desk.path(folder).join("check.txt"));
            for file in desk.names(folder).iter().filter(|n| n.ends_with(".txt")) {
                let path = format!("{folder}/{file}");
                let text = desk.text(&path);
                desk.write(&path, text.strip_prefix(FORMAT).unwrap_or(&text).as_bytes());
            }
        }
        desk
    }

    /// A desk with the files that a version of this program made.
    pub fn kept(name: &str, version: &str) -> Desk {
        Desk::copied(name, &kept(version))
    }

    /// A desk with a copy of what is in a folder.
    pub fn copied(name: &str, from: &Path) -> Desk {
        let desk = Desk::new(name);
        let mut copy = Command::new("cp");
        copy.arg("-r").arg(from.join(".")).arg(&desk.0);
        assert!(copy.status().unwrap().success());
        if desk.path("plan.txt.opening").exists() {
            desk.keep_roots("plan.txt.opening");
        }
        desk
    }

    /// Takes k, the base domain and the widths out of a seal, as of one that names n alone; check lines are written anew where it has any.
    pub fn unname(&self, seal: &str) {
        let name = format!("{seal}/parameters.txt");
        let text = self.text(&name);
        let lines = text
            .lines()
            .filter(|line| line.starts_with("format ") || line.starts_with("n "));
        let left: String = lines.map(|line| format!("{line}\n")).collect();
        self.write(&name, left.as_bytes());
        if self.path(seal).join("check.txt").exists() {
            self.vouch(seal);
        }
    }

    pub fn path(&self, name: &str) -> PathBuf {
        self.0.join(name)
    }

    pub fn write(&self, name: &str, bytes: &[u8]) {
        fs::write(self.path(name), bytes).unwrap();
    }

    pub fn read(&self, name: &str) -> Vec<u8> {
        fs::read(self.path(name)).unwrap()
    }

    pub fn text(&self, name: &str) -> String {
        String::from_utf8(self.read(name)).unwrap()
    }

    /// The one value of a text file, which stands in its last line.
    pub fn value(&self, name: &str) -> String {
        self.text(name).lines().last().unwrap().into()
    }

    /// Changes one bit of a byte.
    pub fn damage(&self, name: &str, byte: usize) {
        let mut bytes = self.read(name);
        bytes[byte] ^= 1;
        self.write(name, &bytes);
    }

    /// A copy of a file of the opening, as a checker who drew or kept it has it.
    pub fn keep(&self, name: &str) {
        fs::copy(self.path("plan.txt.opening").join(name), self.path(name)).unwrap();
    }

    /// A copy of the roots of an answer or an opening, as a checker has it who kept them before the positions were told.
    pub fn keep_roots(&self, folder: &str) {
        fs::copy(self.path(folder).join("roots.txt"), self.path(KEPT)).unwrap();
    }

    pub fn folder(&self, name: &str) {
        fs::create_dir(self.path(name)).unwrap();
    }

    /// A folder with the files of another.
    pub fn copy(&self, from: &str, to: &str) {
        self.folder(to);
        for name in self.names(from) {
            fs::copy(self.path(from).join(&name), self.path(to).join(&name)).unwrap();
        }
    }

    /// Writes the check lines of a folder anew, as somebody who changes it on purpose does.
    pub fn vouch(&self, folder: &str) {
        let digest = |name: &String| {
            let bytes = self.read(&format!("{folder}/{name}"));
            dequmlo::Root(dequmlo::digest(&bytes).unwrap())
        };
        let lines: String = self
            .names(folder)
            .iter()
            .filter(|name| *name != "check.txt")
            .map(|name| format!("{}  {name}\n", digest(name)))
            .collect();
        self.write(&format!("{folder}/check.txt"), lines.as_bytes());
    }

    pub fn names(&self, folder: &str) -> Vec<String> {
        let mut names: Vec<String> = fs::read_dir(self.path(folder))
            .unwrap()
            .map(|e| e.unwrap().file_name().into_string().unwrap())
            .collect();
        names.sort();
        names
    }

    /// Fails unless two folders have the same files, byte for byte.
    pub fn same_files(&self, one: &str, other: &str) {
        let names = self.names(one);
        assert_eq!(names, self.names(other), "{one} and {other}");
        for name in names {
            let [a, b] = [one, other].map(|folder| self.read(&format!("{folder}/{name}")));
            assert!(a == b, "{one}/{name} and {other}/{name}");
        }
    }

    /// The program, ready to be run in this folder.
    pub fn command<W: AsRef<OsStr>>(&self, words: impl IntoIterator<Item = W>) -> Command {
        let mut command = Command::new(env!("CARGO_BIN_EXE_seal"));
        command.args(words).current_dir(&self.0);
        command
    }

    /// Runs the program with these words.
    pub fn seal<W: AsRef<OsStr>>(&self, words: impl IntoIterator<Item = W>) -> Run {
        Run::of(&mut self.command(words))
    }

    /// Runs the program with the words of a line, none of which has a blank.
    pub fn run(&self, line: &str) -> Run {
        self.seal(line.split_whitespace())
    }

    /// Runs a command in a folder of the desk, as a shell does in which `seal` is the program.
    pub fn shell(&self, folder: &str, command: &str) -> Run {
        let program = Path::new(env!("CARGO_BIN_EXE_seal")).parent().unwrap();
        let path = format!("{}:/usr/bin:/bin", program.display());
        Run::of(
            Command::new("sh")
                .args(["-c", command])
                .env("PATH", path)
                .current_dir(self.path(folder)),
        )
    }

    /// Runs a file of tools/ in this folder.
    pub fn python<W: AsRef<OsStr>>(&self, file: &str, words: impl IntoIterator<Item = W>) -> Run {
        let tools = concat!(env!("CARGO_MANIFEST_DIR"), "/../tools");
        let mut command = Command::new("python3");
        command
            .arg(format!("{tools}/{file}"))
            .args(words)
            .env("PYTHONDONTWRITEBYTECODE", "1")
            .current_dir(&self.0);
        Run::of(&mut command)
    }

    /// Runs the program with the words of a line and at most 10 seconds and 2 GB, for what might stall or fill the machine.
    pub fn limited(&self, line: &str) -> Run {
        let limited = "ulimit -v 2000000; exec timeout 10 \"$0\" \"$@\"";
        let mut command = Command::new("sh");
        command
            .args(["-c", limited, env!("CARGO_BIN_EXE_seal")])
            .args(line.split_whitespace())
            .current_dir(&self.0);
        Run::of(&mut command)
    }

    /// The commands that the help lists.
    pub fn commands(&self) -> Vec<String> {
        let help = self.run("help").out;
        let name = |line: &str| {
            Some(
                line.strip_prefix("seal ")?
                    .split([' ', ','])
                    .next()?
                    .to_string(),
            )
        };
        let mut commands: Vec<String> = help.lines().filter_map(name).collect();
        commands.dedup();
        assert!(commands.len() >= 12, "{commands:?}");
        commands
    }

    pub fn check(&self) -> Run {
        self.run(CHECK)
    }
}

/// The commands that a section of the page shows, each after the one who runs it.
pub fn walk(section: &str) -> Vec<(String, String)> {
    let page = fs::read_to_string(concat!(env!("CARGO_MANIFEST_DIR"), "/README.md")).unwrap();
    let section = page
        .split("\n## ")
        .find(|text| text.starts_with(section))
        .unwrap();
    let command = |line: &str| {
        let (who, command) = line.strip_prefix("    ")?.split_once("$ ")?;
        Some((who.to_string(), command.to_string()))
    };
    section.lines().filter_map(command).collect()
}

/// Where the files are that a version of this program made, of those that are kept for ever.
pub fn kept(version: &str) -> PathBuf {
    Path::new(env!("CARGO_MANIFEST_DIR"))
        .join("tests/fixtures/v1")
        .join(version)
}

/// A manifest as it was before there were digests and folders in it.
pub fn in_the_first_form(manifest: &str) -> String {
    let line = |line: &str| match line.split(' ').collect::<Vec<&str>>()[..] {
        ["format", _] => "format 1\n".into(),
        ["folder", ..] => String::new(),
        ["part", root, ..] => format!("part {root}\n"),
        _ => format!("{line}\n"),
    };
    manifest.lines().map(line).collect()
}

/// The file that is sealed.
pub fn plan() -> Vec<u8> {
    "a ground plan, and a section through the stairs\n"
        .repeat(20)
        .into_bytes()
}

/// What a run printed, and its exit status.
#[derive(Debug)]
pub struct Run {
    pub status: i32,
    pub out: String,
    pub err: String,
}

impl Run {
    pub fn of(command: &mut Command) -> Run {
        let output = command.output().unwrap();
        Run {
            status: output.status.code().unwrap_or(-1),
            out: String::from_utf8(output.stdout).unwrap(),
            err: String::from_utf8(output.stderr).unwrap(),
        }
    }

    pub fn printed(&self) -> String {
        format!("{}{}", self.out, self.err)
    }

    /// Fails unless the status is this one and each text stands in what was printed.
    pub fn says(&self, status: i32, texts: &[&str]) {
        let printed = self.printed();
        assert_eq!(self.status, status, "{printed}");
        for text in texts {
            assert!(printed.contains(text), "{text:?} is not in {printed:?}");
        }
    }

    pub fn does_not_say(&self, texts: &[&str]) {
        let printed = self.printed();
        for text in texts {
            assert!(!printed.contains(text), "{text:?} is in {printed:?}");
        }
    }
}
