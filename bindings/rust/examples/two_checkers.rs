//! One record under two checkers: the one whose challenges the holder folded by accepts it, the other learns which check failed and what to ask.

use dequmlo::{Deposit, Refusal, Statement, Widths, Word};

fn main() -> Result<(), Refusal> {
    let table: Vec<Word> = (0..16u128).map(Word).collect();
    let deposit = Deposit::commit(None, b"example", Widths::Present, 1, &table)?;
    let challenges: Vec<Word> = (1..=4u128).map(Word).collect();
    let folded = deposit.fold(&challenges)?;
    let record = folded.query(9)?;

    let asked = |challenges: &[Word]| {
        let roots = folded.roots();
        Statement::new(None, b"example", Widths::Present, 4, 1, challenges, &roots)
    };
    let own = asked(&challenges)?;
    let mut others = challenges;
    others[2] = Word(99);
    let other = asked(&others)?;
    for (name, statement) in [("the first checker", own), ("the second checker", other)] {
        match statement.check_query(9, &record) {
            Ok(()) => println!("{name}: accepted"),
            Err(refusal) => println!("{name}: refused, {refusal}\n  {}", refusal.ask()),
        }
    }
    Ok(())
}
