//! What an opening shows of the file: which bytes, at which offsets; said by `seal show`, and by `seal check` for what is accepted.

mod desk;

use desk::{plan, Desk, CHECK, KEPT};

#[test]
fn the_bytes_that_are_shown_are_the_file_s() {
    let desk = Desk::new("shown-bytes");
    // Each byte says where it stands.
    let file: Vec<u8> = (0..3000).map(|i: usize| (i % 251) as u8).collect();
    desk.write("f", &file);
    desk.run("commit f --profile balanced")
        .says(0, &["n = 8, k = 2"]);
    desk.run("open f --seal f.seal --seed dice --at 0,9,100,187,188,250,255,256,1023")
        .says(0, &[]);
    let digits = |bytes: &[u8]| bytes.iter().map(|b| format!("{b:02x}")).collect::<String>();
    let shown = desk.run("show f.opening --json").out;
    for (position, offset) in [
        (0, 0),
        (9, 128),
        (100, 16 * 96),
        (187, 16 * 184),
        (188, 16 * 184),
    ] {
        let bytes = &file[offset..(offset + 128).min(3000)];
        let expected = format!(
            "{{\"position\": {position}, \"offset\": {offset}, \"bytes\": \"{}\", ",
            digits(bytes)
        );
        assert!(shown.contains(&expected), "{expected} is not in {shown}");
    }
    desk.keep_roots("f.opening");
    let check = format!("check f.opening --seal f.seal --roots {KEPT} --seed dice --at");
    desk.run(&format!("{check} 0,9,187,250,255,256")).says(
        0,
        &[
            "position 0: accepted; it shows bytes 0 to 127 of the file\n",
            "position 9: accepted; it shows bytes 128 to 255 of the file\n",
            "position 187: accepted; it shows bytes 2944 to 2999 of the file\n",
            "position 250: accepted; it shows its length, 3000 bytes\n",
            "position 256: accepted; it shows no byte of the file itself",
        ],
    );
    // Without the record that shows the length, nobody knows where the file ends.
    desk.run(&format!("{check} 9,187")).says(
        0,
        &[
            "position 9: accepted; it shows bytes 128 to 255 of the file\n",
            "position 187: accepted; it shows bytes 2944 to 3071 of the file (zeros where it ends before)\n",
        ],
    );
}

#[test]
fn text_and_digits_are_shown_with_their_offsets() {
    let desk = Desk::opened("shown-text");
    let run = desk.run("show plan.txt.opening");
    run.says(
        0,
        &[
            "the holder's summary: An opening of the sealed file plan.txt.\n",
            "plan.txt.opening shows 3 places; nothing here is checked: `seal check` says whether it is what was deposited\n",
            "position 7: bytes 0 to 127 of the file\n  as text: a ground plan, and a section through the stairs\\na ground plan",
            "\n        16  6e 64 20 61 20 73 65 63 74 69 6f 6e 20 74 68 72  |nd a section thr|\n",
            "position 127: no byte of the file itself: its words are the code's, which are made from all of the file\n",
        ],
    );
    assert_eq!(&plan()[16..32], b"nd a section thr");
    run.does_not_say(&["accepted", "verdict"]);
}

/// What is shown may be anything; it is shown as it is, and no terminal acts on it.
#[test]
fn a_damaged_opening_is_shown_as_it_is() {
    let desk = Desk::opened("shown-damaged");
    let mut record = desk.read("plan.txt.opening/query-7.record");
    record[56..64].copy_from_slice(b"\x1b[2Jfake");
    desk.write("plan.txt.opening/query-7.record", &record);
    desk.write("plan.txt.opening/query-0.record", b"short");
    desk.write("plan.txt.opening/summary.txt", b"x\x1b[2J\n");
    let run = desk.run("show plan.txt.opening");
    run.says(
        0,
        &[
            "the holder's summary: x\\u{1b}[2J\n",
            "position 0: its file is no record of this opening's n and k\n",
            "as text: \\u{1b}[2Jfake",
            "|.[2Jfake",
        ],
    );
    run.does_not_say(&["\x1b"]);
    let run = desk.run(CHECK);
    run.says(
        1,
        &[
            "position 7: refused, 18 at level 0",
            "position 0: refused, 14",
        ],
    );
    run.does_not_say(&["it shows bytes"]);
    desk.write("plan.txt.opening/parameters.txt", b"format 2\n");
    desk.run("show plan.txt.opening")
        .says(2, &["says that it is of format 2"]);
}
