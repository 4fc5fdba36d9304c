//! Committing asks for the memory that it takes, and not for that of a fold.

mod desk;

use dequmlo::{Sizes, Widths};
use desk::{Desk, Run};
use std::fs::File;
use std::process::Command;

/// Runs the program with the words of a line and so much room for its addresses.
fn within(desk: &Desk, bytes: usize, line: &str) -> Run {
    let limited = format!("ulimit -v {}; exec \"$0\" \"$@\"", bytes / 1024);
    let mut command = Command::new("sh");
    command
        .args(["-c", &limited, env!("CARGO_BIN_EXE_seal")])
        .args(line.split_whitespace())
        .current_dir(&desk.0);
    Run::of(&mut command)
}

/// The least room in which a command ends with 0, to a MiB.
fn least(desk: &Desk, line: &str) -> usize {
    let (mut too_little, mut enough) = (0, 1 << 11);
    while enough - too_little > 1 {
        let between = (too_little + enough) / 2;
        if within(desk, between << 20, line).status == 0 {
            enough = between;
        } else {
            too_little = between;
        }
    }
    enough << 20
}

/// At n 18 and k 4: the table and the deposit's buffers, beside what sealing a byte takes, and a MiB or two. A fold takes half a codeword more.
#[test]
fn committing_asks_for_what_it_takes() {
    let desk = Desk::new("room");
    desk.write("small", b"a");
    let large = File::create(desk.path("large")).unwrap();
    large.set_len(16 * ((1 << 18) - 1)).unwrap();
    desk.run("commit small").says(0, &[]);
    let program = least(&desk, "verify small --seal small.seal --threads 1");
    let sizes = Sizes::of(Widths::Present, 18, 4).unwrap();
    let words = sizes.table_words + sizes.gamma_words + sizes.levels_words;
    let deposit = 16 * words + sizes.trees_bytes;
    let spare = 16 * sizes.half_words / 4;
    let file = 16 * sizes.table_words;
    for line in [
        "commit large --profile deepwrap --threads 1",
        "verify large --seal large.seal --threads 1",
    ] {
        within(&desk, program + deposit + file + spare, line).says(0, &[]);
    }
    let open = "open large --seal large.seal --seed dice --at 0 --threads 1";
    within(&desk, program + deposit + file + spare, open).says(2, &["there is not enough memory"]);
}
