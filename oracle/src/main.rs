//! The oracle's program: answers requests line by line, writes the requests on
//! records that it builds, prints the Rust's times, or shows its findings.

mod bench;
mod findings;
mod protocol;
mod records;
mod requests;
mod stream;

use std::io::{self, BufRead, Write};
use std::process::ExitCode;

const USAGE: &str = "\
oracle              answer requests, one a line on standard input, one answer line each
oracle help         list the requests
oracle kind         print the vector kind that the Rust runs by
oracle findings     show, by running it, where the Rust differs (docs/DIFFERENCES.md)
oracle records      print requests on records that the Rust built, intact and damaged
oracle bench [--large]
                    print the Rust's times on one thread, `name<TAB>ns`;
                    --large adds n = 20, k = 4
oracle bench --threads N [--large]
                    print its times of what it divides, on N threads";

fn main() -> ExitCode {
    let words: Vec<String> = std::env::args().skip(1).collect();
    let words: Vec<&str> = words.iter().map(String::as_str).collect();
    if let ["help"] = words[..] {
        print!("{USAGE}\n\n{}", requests::help());
        return ExitCode::SUCCESS;
    }
    // Read by the Rust's thread pool when it first starts.
    match words[..] {
        ["bench", "--threads", number, ..] => std::env::set_var("RAYON_NUM_THREADS", number),
        ["bench", ..] => std::env::set_var("RAYON_NUM_THREADS", "1"),
        _ => (),
    }
    if let ["finding-scalar"] = words[..] {
        // Started by `findings`, for the one kind that is refused below.
        findings::scalar_kind();
        return ExitCode::SUCCESS;
    }
    let kind = match oracle::machine::start() {
        Ok(kind) => oracle::machine::name(kind),
        Err(reason) => {
            eprintln!("oracle: refused to run: {reason}");
            return ExitCode::from(2);
        }
    };
    match words[..] {
        [] => answer_all(),
        ["kind"] => println!("{kind}"),
        ["findings"] => return findings::show(kind),
        ["records"] => print!("{}", records::lines()),
        ["bench"] => bench::run(kind, false),
        ["bench", "--large"] => bench::run(kind, true),
        ["bench", "--threads", number] => bench::run_divided(kind, number, false),
        ["bench", "--threads", number, "--large"] => bench::run_divided(kind, number, true),
        _ => {
            eprintln!("{USAGE}");
            return ExitCode::from(2);
        }
    }
    ExitCode::SUCCESS
}

/// Answers until standard input ends. An empty line or one that starts with # is
/// skipped; one that starts with = keeps bytes for later lines, and gets no answer.
fn answer_all() {
    let mut out = io::stdout().lock();
    let mut store = Vec::new();
    for line in io::stdin().lock().lines() {
        let line = line.expect("standard input is text");
        let line = line.trim();
        if line.is_empty() || line.starts_with('#') {
            continue;
        }
        let answer = match line.strip_prefix('=') {
            Some(bytes) => match protocol::keep(bytes, &mut store) {
                Ok(()) => continue,
                Err(reason) => format!("bad {reason}"),
            },
            None => requests::answer(line, &store),
        };
        writeln!(out, "{answer}").expect("standard output is open");
        out.flush().expect("standard output is open");
    }
}
