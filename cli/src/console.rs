//! Standard output and standard error, written without ever panicking; and what is said where this program itself has a fault.

use crate::outcome::{could_not_run, Failure};
use crate::reading::reason;
use std::ffi::OsString;
use std::io::Write;

/// Prints to standard output, all of it or a failure.
pub fn print(text: &str) -> Result<(), Failure> {
    let mut out = std::io::stdout();
    out.write_all(text.as_bytes())
        .and_then(|()| out.flush())
        .map_err(|e| Failure(format!("cannot write to standard output: {}", reason(&e))))
}

/// Prints to standard error. Where that fails too, the exit status is all that is left to say it.
pub fn complain(text: &str) {
    let _ = std::io::stderr().write_all(text.as_bytes());
}

/// A fault of this program ends it with a sentence and exit status 2 in place of a panic's message.
pub fn report_faults() {
    std::panic::set_hook(Box::new(|fault| {
        let place = fault.location().map_or(String::new(), |l| {
            format!(" ({}, line {})", l.file(), l.line())
        });
        let words: Vec<OsString> = std::env::args_os().skip(1).collect();
        let sentence = format!(
            "this program has a fault{place}; please report it with the command that was run"
        );
        std::process::exit(could_not_run(&words, &Failure(sentence)).into());
    }));
}
