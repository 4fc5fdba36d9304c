//! The program run on a disk on which something happens while a file is read (disk.c).

use super::{Desk, Run};
use std::path::{Path, PathBuf};
use std::process::Command;
use std::sync::Once;

/// What happens on the disk.
pub enum Disk<'a> {
    /// A command is run before this byte of a file is read.
    Runs(&'a str, u64, &'a str),
    /// From this byte on, reading a file is an input/output error.
    Fails(&'a str, u64),
    /// A file or a folder cannot be opened.
    Denied(&'a str),
    /// No folder can be made; reading this file leaves a file `was-read`.
    ReadOnly(&'a str),
    /// There is room for so many bytes; reading this file leaves a file `was-read`.
    Full(&'a str, u64),
    /// Each call that has something written to the disk adds a byte to the file `syncs`.
    Counted,
    /// Standard error is a terminal.
    Terminal,
}

impl Desk {
    /// Runs the program with the words of a line on such a disk.
    pub fn on(&self, disk: &Disk, line: &str) -> Run {
        let mut command = self.command(line.split_whitespace());
        command.env("LD_PRELOAD", library());
        match disk {
            Disk::Runs(file, at, what) => command
                .env("DISK_FILE", format!("/{file}"))
                .env("DISK_AT", at.to_string())
                .env("DISK_RUNS", what),
            Disk::Fails(file, at) => command
                .env("DISK_FILE", format!("/{file}"))
                .env("DISK_AT", at.to_string())
                .env("DISK_FAILS", "1"),
            Disk::Denied(path) => command.env("DISK_DENIED", path),
            Disk::ReadOnly(file) => noticed(&mut command, file).env("DISK_READ_ONLY", "1"),
            Disk::Full(file, most) => {
                noticed(&mut command, file).env("DISK_FULL", most.to_string())
            }
            Disk::Terminal => command.env("DISK_TERMINAL", "1"),
            Disk::Counted => command.env("DISK_SYNCS", self.path("syncs")),
        };
        Run::of(&mut command)
    }
}

/// Leaves a file where this one is read.
fn noticed<'a>(command: &'a mut Command, file: &str) -> &'a mut Command {
    command
        .env("DISK_FILE", format!("/{file}"))
        .env("DISK_AT", "0")
        .env("DISK_RUNS", "touch was-read")
}

/// The library that stands in for the disk, made once for each file of tests.
fn library() -> PathBuf {
    static MADE: Once = Once::new();
    let name = format!("disk-{}.so", std::process::id());
    let library = Path::new(env!("CARGO_TARGET_TMPDIR")).join(name);
    MADE.call_once(|| {
        let source = concat!(env!("CARGO_MANIFEST_DIR"), "/tests/desk/disk.c");
        let mut compiler = Command::new("cc");
        compiler.args(["-shared", "-fPIC", "-O1", "-Wall", "-o"]);
        let made = compiler.arg(&library).arg(source).arg("-ldl").status();
        assert!(made.unwrap().success());
    });
    library
}
