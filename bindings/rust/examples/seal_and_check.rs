//! An office seals a table and keeps the root; a holder shows one record of it; the office checks the record and the tail.

use dequmlo::{Deposit, Parameters, Refusal, Statement, Widths, Word};

fn main() -> Result<(), Refusal> {
    // The holder's table: 2^10 words.
    let table: Vec<Word> = (0..1024u128).map(|i| Word(i * i)).collect();
    let Parameters { k, domain, .. } = Parameters::balanced();
    let widths = Widths::default();
    let deposit = Deposit::commit(None, &domain, widths, k, &table)?;
    let root = deposit.root();
    println!("the office keeps the root {root}");

    // Later the checker draws challenges and a position; the holder folds, and shows roots, a record and the tail.
    let challenges: Vec<Word> = (1..=10u128).map(|i| Word(i << 64 | 7)).collect();
    let position = 1234;
    let folded = deposit.fold(&challenges)?;
    let (mut roots, record, tail) = (folded.roots(), folded.query(position)?, folded.tail()?);

    // The checker trusts its own root alone.
    roots[0] = root;
    let statement = Statement::new(None, &domain, widths, 10, k, &challenges, &roots)?;
    statement.check_query(position, &record)?;
    statement.check_tail(folded.claim(), &tail)?;
    println!("position {position}: accepted; tail: accepted");
    Ok(())
}
