//! The words of a command line.

use crate::key::is_no_key;
use crate::outcome::Failure;
use dequmlo::Threads;
use std::ffi::OsString;
use std::path::PathBuf;

/// A command, its operands, and its options; an option that the command does not know is wrong use.
#[derive(Default)]
pub struct Options {
    pub command: String,
    pub operands: Vec<PathBuf>,
    flags: Vec<String>,
    named: Vec<(String, OsString)>,
}

/// An option: its name, its value as the help shows it, and what it means. A flag has no value.
pub struct Known {
    pub name: &'static str,
    pub value: &'static str,
    pub means: &'static str,
}

const fn option(name: &'static str, value: &'static str, means: &'static str) -> Known {
    Known { name, value, means }
}

/// Every option, in the order of the help.
pub const OPTIONS: [Known; 33] = [
    option("--seal", "FOLDER", "the seal, as `seal commit` wrote it"),
    option("--older", "", "the seal names neither k nor a base domain and was made before version 0.4.0; `seal explain older` says more"),
    option("--asked", "FOLDER", "the request that `seal ask` wrote; it has challenges, positions, roots and claim"),
    option("--answer", "FOLDER", "the holder's answer to a request without positions, as `seal open` wrote it"),
    option("--by", "TEXT", "who asks: a name that the request has for people"),
    option("--opening", "FOLDER", "the opening that names the challenges and the roots, or that shows words of the sealed file"),
    option("--full", "", "of a project: commits each part anew, where its digest would be compared"),
    option("--profile", "NAME", "k and the base domain by a name: default, fastchunk, balanced, compactwrap, deepwrap, firstdefault"),
    option("--k", "K", "k by itself, from 0 to 4, together with --domain"),
    option("--domain", "TEXT", "the base domain by itself, at most 200 bytes, together with --k"),
    option("--widths", "SET", "the set of the groups' widths: present, which is taken where none is named, or wide; `seal explain widths` says more"),
    option("--key-file", "FILE", "the file of the key, for a seal under a key: 32 bytes, or 64 hexadecimal digits and a line end; `seal explain keys` says more"),
    option("--challenges", "FILE", "the checker's challenges, n words, one to a line"),
    option("--at", "P,P,..", "the checker's positions"),
    option("--positions", "FILE", "the checker's positions in a file, with blanks or line ends between them"),
    option("--offset", "B,B,..", "bytes of the file, from 0, in place of positions: the words that hold them"),
    option("--file", "PATH", "the file of a project, by its path below the project's folder"),
    option("--part", "I", "the part of a large file of a project, from 1, where no offset says it"),
    option("--seed", "TEXT", "for trying it out: draws challenges and positions from a text, which whoever knows it can do too"),
    option("--count", "N", "how many positions are drawn; where nothing is drawn, 0 for none"),
    option("--roots", "FILE", "the roots of all levels that the checker kept, in place of the opening's"),
    option("--claim", "WORD", "the terminal claim that is expected, in place of the opening's"),
    option("--own-questions", "", "checks by the holder's own challenges and positions, which is never an acceptance"),
    option("--report", "FILE", "writes what was found as a page for the archive's file, FILE.html"),
    option("--context", "TEXT", "what a derived key is for: a text under which no other key is derived"),
    option("--from", "FILE", "the key material, which is secret: any bytes, at most 2^24, as hard to guess as a key"),
    option("--until", "LEVEL", "stops when this level is folded, from 0 to n, and keeps the work so far in FILE.begun"),
    option("--resume", "FOLDER", "goes on from the work that --until kept; FILE itself is not read again"),
    option("--out", "FOLDER", "where to write, in place of the folder beside the file"),
    option("--force", "", "replaces a folder that holds exactly what this program wrote"),
    option("--threads", "N", "how many threads work, from 1; without it one for each core. Every number gives the same bytes"),
    option("--json", "", "prints one object for programs"),
    option("--help", "", "shows a command with its options; -h is the same"),
];

/// The option of this name, if there is one.
fn known(name: &str) -> Option<&'static Known> {
    OPTIONS.iter().find(|option| option.name == name)
}

fn is_flag(name: &str) -> bool {
    known(name).map_or(false, |option| option.value.is_empty())
}

impl Options {
    /// The first word that is no flag is the command. After `--` every word is an operand.
    pub fn read(words: &[OsString]) -> Result<Options, Failure> {
        let mut options = Options::default();
        let mut command = None;
        let mut only_operands = false;
        let mut words = words.iter();
        while let Some(word) = words.next() {
            match word.to_str() {
                Some("--") if !only_operands => only_operands = true,
                Some("-h") if !only_operands => options.flags.push("--help".into()),
                Some(flag) if !only_operands && is_flag(flag) => options.flags.push(flag.into()),
                Some(name) if !only_operands && command.is_some() && is_option(name) => {
                    let value = options.new_value(name, words.next())?;
                    options.named.push((name.into(), value));
                }
                _ if command.is_none() => command = Some(text(word)?),
                _ => options.operands.push(word.into()),
            }
        }
        options.command = match command {
            Some(command) => command,
            None if options.has("--help") => "help".into(),
            None => {
                return Err(Failure(format!(
                    "name a command:\n{}",
                    crate::help::usage()
                )))
            }
        };
        Ok(options)
    }

    fn new_value(&self, name: &str, value: Option<&OsString>) -> Result<OsString, Failure> {
        if known(name).is_none() {
            return Err(Failure(format!(
                "there is no option {name}; `seal help` lists them"
            )));
        }
        if self.value(name).is_some() {
            return Err(Failure(format!("{name} is given twice")));
        }
        match value {
            Some(value) if !value.to_str().map_or(false, is_option) => {
                if name == "--key-file" {
                    is_no_key(value)?;
                }
                Ok(value.clone())
            }
            _ => Err(Failure(format!("{name} needs a value"))),
        }
    }

    /// Fails where an option is given that the command does not take, or where the operands are not so many.
    pub fn expect(&self, operands: usize, what: &str, taken: &[&str]) -> Result<(), Failure> {
        let given = self
            .flags
            .iter()
            .chain(self.named.iter().map(|(name, _)| name));
        for name in given {
            if !taken.contains(&name.as_str()) {
                return Err(Failure(format!(
                    "`seal {0}` takes no {name}; `seal help {0}` lists what it takes",
                    self.command
                )));
            }
        }
        if self.operands.len() != operands {
            return Err(Failure(format!(
                "`seal {0}` needs {what}; `seal help {0}` says more",
                self.command
            )));
        }
        Ok(())
    }

    /// Whether an option without a value is given.
    pub fn has(&self, flag: &str) -> bool {
        self.flags.iter().any(|given| given == flag)
    }

    /// Whether an option is given, with a value or without one.
    pub fn given(&self, name: &str) -> bool {
        self.has(name) || self.value(name).is_some()
    }

    fn value(&self, name: &str) -> Option<&OsString> {
        self.named
            .iter()
            .find(|(n, _)| n == name)
            .map(|(_, value)| value)
    }

    pub fn path(&self, name: &str) -> Option<PathBuf> {
        self.value(name).map(PathBuf::from)
    }

    pub fn needed_path(&self, name: &str, what: &str) -> Result<PathBuf, Failure> {
        self.path(name)
            .ok_or_else(|| Failure(format!("`seal {}` needs {name}: {what}", self.command)))
    }

    pub fn text(&self, name: &str) -> Result<Option<String>, Failure> {
        self.value(name).map(text).transpose()
    }

    pub fn number(&self, name: &str) -> Result<Option<usize>, Failure> {
        let number = |text: String| {
            text.parse()
                .map_err(|_| Failure(format!("{name} needs a number, and `{text}` is none")))
        };
        self.text(name)?.map(number).transpose()
    }

    /// How many threads work: as many as are given, or one for each core.
    pub fn threads(&self) -> Result<Threads, Failure> {
        match self.number("--threads")? {
            None => Ok(Threads::all()),
            Some(0) => Err(Failure("--threads needs a number from 1".into())),
            Some(number) => Ok(Threads::of(number)),
        }
    }
}

fn is_option(word: &str) -> bool {
    word.starts_with("--")
}

fn text(word: &OsString) -> Result<String, Failure> {
    word.clone()
        .into_string()
        .map_err(|word| Failure(format!("{} is not UTF-8", word.to_string_lossy())))
}
