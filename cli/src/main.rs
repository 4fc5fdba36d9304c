//! The program `seal`: commits a file, opens places of it, and checks what a holder shows. The work is the proved library's; this program
//! reads and writes files and says what was found. Exit status: 0 accepted or done, 1 refused, 2 could not run, 3 sound, but not accepted as a whole: by the
//! holder's own questions, or without roots that were kept.

mod begun;
mod check_lines;
mod clock;
mod commands;
mod console;
mod differences;
mod digest;
mod drawing;
mod folder;
mod format;
mod found;
mod help;
mod hex;
mod json;
mod key;
mod lines;
mod manifest;
mod manifest_files;
#[cfg(test)]
mod manifest_mutants;
mod old_words;
mod opened;
mod opening;
mod options;
mod outcome;
mod part;
mod picture;
mod progress;
mod project;
mod questions;
mod reading;
mod report;
mod request;
mod seal;
mod shape;
mod shown;
mod spelling;
mod standing;
mod statement;
mod steady;
mod system;
mod table;
mod walk;
mod writing;

use options::Options;
use outcome::{could_not_run, Failure, Outcome};
use std::ffi::OsString;
use std::process::ExitCode;

fn main() -> ExitCode {
    system::end_at_a_closed_pipe();
    console::report_faults();
    let words: Vec<OsString> = std::env::args_os().skip(1).collect();
    let status = match Options::read(&words).and_then(|options| run(&options)) {
        Ok(outcome) => outcome.print(&words),
        Err(failure) => could_not_run(&words, &failure),
    };
    ExitCode::from(status)
}

fn run(options: &Options) -> Result<Outcome, Failure> {
    if options.has("--help") {
        return help::run(options);
    }
    match options.command.as_str() {
        "commit" => commands::commit::run(options),
        "ask" => commands::ask::run(options),
        "open" => commands::open::run(options),
        "check" => commands::check::run(options),
        "show" => commands::show::run(options),
        "tail" => commands::tail::run(options),
        "verify" => commands::verify::run(options),
        "compare" => commands::compare::run(options),
        "explain" => commands::explain::run(options),
        "demo" => commands::demo::run(options),
        "key" => commands::key::run(options),
        "help" => help::run(options),
        "version" | "--version" | "-V" => help::version(options),
        other => Err(help::no_such_command(other)),
    }
}
