//! The same files with every number of threads, of a file and of a project.

mod desk;

use desk::disk::Disk;
use desk::{plan, Desk};

/// 64 threads are more than there is work, 1 does everything in single calls; without the option there is one for each core.
const NUMBERS: [&str; 5] = [
    "--threads 1",
    "--threads 2",
    "--threads 3",
    "--threads 64",
    "",
];

/// A text of 2^16 words: levels of several parts.
fn long_text() -> Vec<u8> {
    (0..1 << 20u32)
        .map(|i| b"deposit "[i as usize % 8] ^ (i / 4096) as u8)
        .collect()
}

#[test]
fn a_file_s_seal_and_opening() {
    let desk = Desk::new("threads-file");
    desk.write("long.txt", &long_text());
    let open = "open long.txt --seal seal0 --seed s --at 0,77,131071";
    for (i, threads) in NUMBERS.iter().enumerate() {
        desk.run(&format!(
            "commit long.txt --profile balanced --out seal{i} {threads}"
        ))
        .says(0, &["sealed"]);
        desk.same_files("seal0", &format!("seal{i}"));
        desk.run(&format!("{open} --out opening{i} {threads}"))
            .says(0, &[]);
        desk.same_files("opening0", &format!("opening{i}"));
        desk.run(&format!("verify long.txt --seal seal0 {threads}"))
            .says(0, &["yes"]);
    }
}

#[test]
fn a_project_s_seal() {
    let desk = Desk::new("threads-project");
    desk.folder("project");
    desk.write("project/a", b"one");
    desk.write("project/long", &long_text());
    for (i, threads) in NUMBERS.iter().enumerate() {
        desk.run(&format!("commit project --out seal{i} {threads}"))
            .says(0, &["sealed"]);
        desk.same_files("seal0", &format!("seal{i}"));
        desk.run(&format!("verify project --seal seal0 {threads}"))
            .says(0, &["yes"]);
    }
}

#[test]
fn a_number_from_1() {
    let desk = Desk::opened("threads-wrong");
    desk.run("commit plan.txt --out a --threads 0")
        .says(2, &["--threads needs a number from 1"]);
    desk.run("commit plan.txt --out a --threads all")
        .says(2, &["--threads needs a number, and `all` is none"]);
    desk.run("check plan.txt.opening --threads 2")
        .says(2, &["`seal check` takes no --threads"]);
}

/// On a terminal the line of progress says how many threads work.
#[test]
fn the_line_of_progress_says_how_many_threads_work() {
    let desk = Desk::new("threads-progress");
    desk.write("plan.txt", &plan());
    desk.folder("house");
    for name in ["a", "b", "c"] {
        desk.write(&format!("house/{name}"), &plan());
    }
    for (line, said) in [
        (
            "commit plan.txt --threads 2",
            "committing 64 words on 2 threads ..",
        ),
        (
            "commit house --threads 2",
            "committing on 2 threads: 3 of 3 parts, ",
        ),
        (
            "commit house --threads 8 --force",
            "committing on 3 threads: ",
        ),
        (
            "verify house --seal house.seal --threads 1",
            "comparing digests on 1 thread: 3 of 3 parts, ",
        ),
        (
            "verify plan.txt --seal plan.txt.seal --threads 1",
            "committing 64 words on 1 thread ..",
        ),
        (
            "open plan.txt --seal plan.txt.seal --seed dice --at 0 --threads 2",
            "folding 6 levels on 2 threads ..",
        ),
    ] {
        desk.on(&Disk::Terminal, line).says(0, &[said]);
    }
}
