//! Two branches of one practice share a key. What one of them seals under it the other checks; who has another key, or none, learns nothing from the root.

use dequmlo::{Deposit, Key, Refusal, Statement, Widths, Word};

fn main() -> Result<(), Refusal> {
    // Both derive the same key from what they share. The context is a constant that no other program has.
    let derive = || {
        Key::derive(
            "example.org 2026-11-17 seals of the practice",
            b"what the two branches share",
        )
    };
    let table: Vec<Word> = (0..16u128).map(Word).collect();
    let challenges: Vec<Word> = (1..=4u128).map(Word).collect();
    let folded = Deposit::commit(Some(&derive()?), b"example", Widths::Present, 1, &table)?
        .fold(&challenges)?;
    let record = folded.query(9)?;

    let other = Key::new([7; 32]);
    for (name, key) in [
        ("the other branch", Some(&derive()?)),
        ("somebody with another key", Some(&other)),
        ("somebody without a key", None),
    ] {
        let statement = Statement::new(
            key,
            b"example",
            Widths::Present,
            4,
            1,
            &challenges,
            &folded.roots(),
        )?;
        match statement.check_query(9, &record) {
            Ok(()) => println!("{name}: accepted"),
            Err(refusal) => println!("{name}: refused, {refusal}"),
        }
    }
    // The words themselves are in the record, for everybody who has it.
    let shown = &record
        .levels()
        .expect("a record that was built reads whole")[0];
    println!("everybody reads word 9 in it: {}", shown.b);
    Ok(())
}
