//! `seal verify`: whether a file is still the one that was sealed, and where it first differs.

mod desk;

use desk::{plan, Desk};

const VERIFY: &str = "verify plan.txt --seal plan.txt.seal";
const WITH_OPENING: &str = "verify plan.txt --seal plan.txt.seal --opening plan.txt.opening";

#[test]
fn the_sealed_file_is_known_again_and_another_is_not() {
    let desk = Desk::opened("verify");
    desk.run(VERIFY)
        .says(0, &["yes: plan.txt is the file that was sealed\n"]);
    desk.run(&format!("{VERIFY} --json")).says(
        0,
        &["\"verdict\": \"accepted\", \"accepted\": true, \"exit\": 0"],
    );
    for byte in [0, 500, 959] {
        desk.damage("plan.txt", byte);
        desk.run(VERIFY).says(
            1,
            &[
                "no: plan.txt is not the file that was sealed: its root is another\n",
                "note: where it differs can be said as far as an opening shows words",
            ],
        );
        desk.damage("plan.txt", byte);
    }
    desk.run(VERIFY).says(0, &[]);
    // A zero more or less at the end is another file, though its words are the same.
    for bytes in [[plan(), vec![0]].concat(), vec![], plan().repeat(30)] {
        desk.write("plan.txt", &bytes);
        let length = format!(
            "note: the seal's summary.txt speaks of a file of 960 bytes, and this one has {}\n",
            bytes.len()
        );
        desk.run(VERIFY).says(1, &["no: ", &length]);
    }
}

#[test]
fn an_empty_file_and_a_very_small_one() {
    let desk = Desk::new("verify-small");
    for (name, bytes) in [("empty", &b""[..]), ("small", b"a")] {
        desk.write(name, bytes);
        desk.run(&format!("commit {name}")).says(0, &[]);
        let verify = format!("verify {name} --seal {name}.seal");
        desk.run(&verify).says(0, &["yes: "]);
        desk.write(name, b"b");
        desk.run(&verify).says(1, &["no: "]);
    }
}

#[test]
fn the_first_difference_in_the_words_that_an_opening_shows() {
    // Positions 0, 7 and 127 show words 0 to 7 of the table, and words 56 to 63 of block 1.
    let desk = Desk::opened("verify-where");
    for (byte, said) in [
        (0, "the first that differs is in byte 0 of the file"),
        (77, "the first that differs is in byte 77 of the file"),
        (127, "the first that differs is in byte 127 of the file"),
        (
            128,
            "the 8 words that the opening shows are the same in this file; it differs elsewhere",
        ),
    ] {
        desk.damage("plan.txt", byte);
        desk.run(WITH_OPENING).says(1, &["no: ", said]);
        let at = if byte < 128 {
            byte.to_string()
        } else {
            "null".into()
        };
        desk.run(&format!("{WITH_OPENING} --json")).says(
            1,
            &[&format!("\"differs_at\": {at}, \"words_compared\": 8")],
        );
        desk.damage("plan.txt", byte);
    }
    desk.damage("plan.txt", 100);
    desk.damage("plan.txt", 77);
    desk.run(WITH_OPENING).says(1, &["byte 77 of the file"]);
    // A record that was changed shows no old words: its group does not lead to the seal's root.
    desk.damage("plan.txt.opening/query-0.record", 60);
    desk.run(WITH_OPENING).says(1, &["byte 77 of the file"]);
    desk.damage("plan.txt.opening/query-7.record", 60);
    desk.run(WITH_OPENING)
        .says(1, &["note: no word that the opening shows of the file leads to the seal's root, so that it cannot be said where the file differs\n"]);
    desk.run(WITH_OPENING)
        .does_not_say(&["0 words", "are the same", "differs elsewhere"]);
}

#[test]
fn the_length_is_one_of_the_words() {
    let desk = Desk::opened("verify-length");
    // The table has 64 words, and the last one is the length.
    desk.run("open plan.txt --seal plan.txt.seal --seed dice --at 63 --force")
        .says(0, &[]);
    desk.write("plan.txt", &[plan(), vec![0; 5]].concat());
    desk.run(WITH_OPENING).says(
        1,
        &["the sealed file has 960 bytes, and this one 965; the other words that the opening shows are the same"],
    );
    desk.write("plan.txt", &plan()[..900]);
    desk.run(WITH_OPENING).says(1, &["byte 900 of the file"]);
}

#[test]
fn the_length_in_another_place_is_no_word_of_the_file() {
    let desk = Desk::new("verify-place");
    let text = &plan()[..100];
    desk.write("plan.txt", &[text, &[0; 860]].concat());
    desk.run("commit plan.txt").says(0, &[]);
    desk.run("open plan.txt --seal plan.txt.seal --seed dice --at 7")
        .says(0, &[]);
    // The table of 100 bytes has its length in word 7, where the sealed one has zeros.
    desk.write("plan.txt", text);
    desk.run(WITH_OPENING).says(
        1,
        &["the 8 words that the opening shows are the same in this file"],
    );
}

#[test]
fn what_cannot_be_verified_is_no_verdict() {
    let desk = Desk::opened("verify-cannot");
    desk.run("verify plan.txt")
        .says(2, &["`seal verify` needs --seal"]);
    desk.run("verify nothing --seal plan.txt.seal")
        .says(2, &["cannot read nothing: there is no such file"]);
    desk.run(&format!("{VERIFY} --at 3"))
        .says(2, &["`seal verify` takes no --at"]);
    desk.damage("plan.txt", 0);
    desk.run(&format!("{VERIFY} --opening nothing"))
        .says(2, &["there is no opening nothing"]);
    desk.damage("plan.txt.seal/root.txt", 20);
    desk.run(VERIFY)
        .says(2, &["the seal in plan.txt.seal is damaged"]);
}
