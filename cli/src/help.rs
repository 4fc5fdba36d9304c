//! What `seal help` prints: every command in short, or one command with its options.

use crate::commands;
use crate::format::{FORMAT, PROGRAM};
use crate::json::Json;
use crate::options::{Options, OPTIONS};
use crate::outcome::{Failure, Outcome, Verdict};

/// A command, as the help shows it.
struct Command {
    name: &'static str,
    usage: &'static str,
    does: &'static str,
    takes: &'static [&'static str],
}

const COMMANDS: [Command; 13] = [
    Command {
        name: "commit",
        usage: "seal commit FILE|FOLDER [--profile NAME | --k K --domain TEXT] [--widths SET] [--key-file FILE] [--out FOLDER] [--force] [--threads N]",
        does: "Seals a file, or a project of all files below a folder: its root and parameters go into the folder FILE.seal.\n    \
               With --key-file it is sealed under a key: nobody without the key makes or checks its root.",
        takes: &commands::commit::TAKEN,
    },
    Command {
        name: "ask",
        usage: "seal ask --seal FOLDER [--by TEXT] [--out FOLDER] [--force]\n\
                seal ask --seal FOLDER --asked FOLDER --answer FOLDER [--count N] [--out FOLDER] [--force]",
        does: "Draws what a checker asks, by the system's randomness, into a folder to send. First the challenges; then, when the holder has answered\n    \
               with its roots, the positions: N of them, or as many as the profile has.",
        takes: &commands::ask::TAKEN,
    },
    Command {
        name: "open",
        usage: "seal open FILE --seal FOLDER --asked FOLDER [--out FOLDER] [--force]\n\
                seal open FILE --seal FOLDER (--challenges FILE | --seed TEXT) (--at P,P,.. | --positions FILE | --count N) [--out FOLDER] [--force]",
        does: "Builds what a checker asked for: into FILE.answer while the request has no positions, then into FILE.opening.\n    \
               Of a project: seal open FOLDER --file PATH --offset B,B,.. with the rest as above.\n    \
               In several runs: with --until LEVEL it stops at a level and keeps the work in FILE.begun, positions named or not; with --resume FOLDER, and\n    \
               the rest as above, it goes on from there and does not read FILE again. Every way gives the same files.",
        takes: &commands::open::TAKEN,
    },
    Command {
        name: "check",
        usage: "seal check OPENING --seal FOLDER [--older] --asked FOLDER [--report FILE]\n\
                seal check OPENING --seal FOLDER [--older] --challenges FILE (--at P,P,.. | --positions FILE) [--roots FILE] [--claim WORD] [--report FILE]",
        does: "Checks an opening by the checker's own request, or challenges and positions. For trying it out: --seed TEXT [--count N], which draws both.\n    \
               Without roots that were kept before the positions were told, by --asked or --roots, only what the records show of level 0 is accepted: it ends with 3.\n    \
               Of a project's opening, --file PATH and --offset B,B,.. say what is asked about; its manifest is checked first.\n    \
               --own-questions checks by those that the holder chose instead: that is never an acceptance, and ends with 3.",
        takes: &commands::check::TAKEN,
    },
    Command {
        name: "show",
        usage: "seal show OPENING",
        does: "Shows which bytes of the file an opening has, as text and as hexadecimal digits. It checks nothing.",
        takes: &commands::show::TAKEN,
    },
    Command {
        name: "tail",
        usage: "seal tail OPENING --seal FOLDER [--roots FILE] [--claim WORD]",
        does: "Checks the tail record alone, and lists the last level. Without --roots, roots that were kept, it ends with 3.",
        takes: &commands::tail::TAKEN,
    },
    Command {
        name: "verify",
        usage: "seal verify FILE|FOLDER --seal FOLDER [--opening FOLDER] [--full] [--threads N]",
        does: "Says whether a file is still the one that was sealed. Where it is not and an opening shows old words, says where it first differs.\n    \
               Of a project it lists which files changed, are missing, are new, were moved or cannot be read. It compares the digests that the seal keeps; with\n    \
               --full, and under a seal of before version 0.10.0, it commits every part anew.",
        takes: &commands::verify::TAKEN,
    },
    Command {
        name: "compare",
        usage: "seal compare FIRST SECOND --opening OPENING --seal FOLDER --at P [--challenges FILE] [--roots FILE] [--out FOLDER] [--force]",
        does: "Compares two records of one position. That they are the same is the good result.",
        takes: &commands::compare::TAKEN,
    },
    Command {
        name: "key",
        usage: "seal key new FILE\n\
                seal key derive --context TEXT --from FILE FILE",
        does: "Writes a key into a new file that its owner alone may read, 64 hexadecimal digits and a line end: from the system's randomness, or derived from\n    \
               key material. A file that exists is never written over.",
        takes: &commands::key::TAKEN,
    },
    Command {
        name: "explain",
        usage: "seal explain [NUMBER | older | widths | keys]",
        does: "Says what the number of a refusal means, and what to ask the holder for, or that it is retired; which seals --older is for; what the\n    \
               sets of widths are; or what a key gives and what it does not.",
        takes: &["--json"],
    },
    Command {
        name: "demo",
        usage: "seal demo [--widths SET]",
        does: "Seals a sample, opens places of it, checks them, damages a byte and shows the refusal.",
        takes: &commands::demo::TAKEN,
    },
    Command {
        name: "help",
        usage: "seal help [COMMAND], seal COMMAND --help, seal COMMAND -h",
        does: "Lists the commands, or shows one with its options.",
        takes: &["--json"],
    },
    Command {
        name: "version",
        usage: "seal version, seal --version",
        does: "Says the version of this program and the format of the files that it reads and writes.",
        takes: &["--json"],
    },
];

const FOR_ALL: &str = "\
--json prints one object for programs, whatever happens. A folder that exists is left alone; --force replaces it where it holds exactly what
this program wrote, a seal by a seal and an opening by an opening. Profiles: default, fastchunk, balanced, compactwrap, deepwrap, firstdefault;
`seal commit` takes the default, k 2, and the present set of widths where none is named; every other command goes by what the seal says. Wherever
--seal is given, --older says that a seal which names neither k nor a base domain was made before version 0.4.0, when the default had k 1, and
--key-file names the file of the key of a seal that was made under one: such a seal is not read without it.";

const STATUSES: &str = "\
Exit status: 0 accepted, or done; 1 refused; 2 could not run: wrong use, a file that cannot be read or changes meanwhile, a damaged seal, a full
disk; 3 sound, but not accepted as a whole: by the holder's own questions, or without roots that were kept.";

/// Every command in short.
pub fn usage() -> String {
    let commands: String = COMMANDS.iter().map(Command::short).collect();
    format!("{commands}\n{FOR_ALL}\n\n{STATUSES}")
}

impl Command {
    fn short(&self) -> String {
        format!("{}\n    {}\n", self.usage, self.does)
    }

    /// The command with each option that it takes.
    fn whole(&self) -> String {
        let described = OPTIONS
            .iter()
            .filter(|option| self.takes.contains(&option.name));
        let options: String = described
            .map(|option| {
                let name = format!("{} {}", option.name, option.value);
                format!("    {:<18} {}\n", name.trim_end(), option.means)
            })
            .collect();
        format!("{}\n{options}\n{STATUSES}", self.short())
    }
}

/// `seal help`, `seal help COMMAND`, and any command with `--help` or `-h`.
pub fn run(options: &Options) -> Result<Outcome, Failure> {
    let asked_for = match (options.command.as_str(), options.operands.as_slice()) {
        ("help", [name]) => Some(name.to_string_lossy().into_owned()),
        ("help", []) => None,
        ("help", _) => return Err(Failure("`seal help` takes one COMMAND, or none".into())),
        (name, _) => Some(name.into()),
    };
    let text = match asked_for {
        None => usage(),
        Some(name) => COMMANDS
            .iter()
            .find(|command| command.name == name)
            .map(Command::whole)
            .ok_or_else(|| no_such_command(&name))?,
    };
    Ok(Outcome::new(Verdict::Done, text).say())
}

pub fn no_such_command(name: &str) -> Failure {
    Failure(format!(
        "there is no command `{name}`; `seal help` lists them"
    ))
}

pub fn version(options: &Options) -> Result<Outcome, Failure> {
    options.expect(0, "no operand", &["--json"])?;
    Ok(
        Outcome::new(Verdict::Done, format!("{PROGRAM}, file format {FORMAT}"))
            .say()
            .found("version", Json::text(env!("CARGO_PKG_VERSION")))
            .found("format", Json::text(FORMAT)),
    )
}

#[cfg(test)]
mod tests {
    use super::COMMANDS;
    use crate::options::OPTIONS;

    #[test]
    fn the_help_of_a_command_has_each_option_that_it_takes() {
        for command in &COMMANDS {
            let help = command.whole();
            for name in command.takes {
                assert!(
                    help.contains(&format!("\n    {name} ")),
                    "{} {name}",
                    command.name
                );
            }
            for option in &OPTIONS {
                let used = command
                    .usage
                    .contains(&format!("{} {}", option.name, option.value));
                let taken = command.takes.contains(&option.name) || option.name == "--help";
                assert!(!used || taken, "{} {}", command.name, option.name);
            }
        }
    }
}
