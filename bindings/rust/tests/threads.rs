//! Every number of threads gives the same bytes: those of one thread, which has each work in a single call.

use dequmlo::{Deposit, Threads, Widths, Word};

const BASE: &[u8] = b"dequmlo/threads";

fn words(count: usize) -> Vec<Word> {
    (0..count as u128)
        .map(|i| Word(i * i * 0x9e37_79b9_7f4a_7c15 + 1))
        .collect()
}

/// From one level of two words to levels of more parts than there are threads, and more threads than there is work.
#[test]
fn the_same_bytes() {
    let present = [(1, 0), (1, 4), (5, 2), (13, 1), (14, 3)].map(|shape| (Widths::Present, shape));
    let wide = [(1, 4), (5, 2), (13, 1)].map(|shape| (Widths::Wide, shape));
    for (widths, (n, k)) in present.into_iter().chain(wide) {
        let (table, challenges) = (words(1 << n), words(n));
        let one = Deposit::commit(None, BASE, widths, k, &table).unwrap();
        let (root, gammas, codeword) = (one.root(), one.gammas(), one.codeword());
        let one = one.fold(&challenges).unwrap();
        for threads in [1, 2, 3, 64].map(Threads::of) {
            let deposit = Deposit::commit_on(threads, None, BASE, widths, k, &table).unwrap();
            assert_eq!(deposit.root(), root, "{widths} n {n} k {k} {threads:?}");
            assert_eq!(deposit.gammas(), gammas, "{widths} n {n} k {k} {threads:?}");
            assert!(
                deposit.codeword() == codeword,
                "{widths} n {n} k {k} {threads:?}"
            );
            let folded = deposit.fold_on(threads, &challenges).unwrap();
            assert_eq!(
                folded.roots(),
                one.roots(),
                "{widths} n {n} k {k} {threads:?}"
            );
            assert_eq!(
                folded.last_level(),
                one.last_level(),
                "{widths} n {n} k {k} {threads:?}"
            );
            assert_eq!(
                folded.tail().unwrap(),
                one.tail().unwrap(),
                "{widths} n {n} k {k} {threads:?}"
            );
            for position in [0, 1, (1 << (n + k)) / 3, (1 << (n + k)) - 1] {
                assert_eq!(
                    folded.query(position).unwrap(),
                    one.query(position).unwrap(),
                    "{widths} n {n} k {k} {threads:?} position {position}"
                );
            }
        }
    }
}

/// What one thread refuses, more refuse with the same number.
#[test]
fn the_same_refusals() {
    let (long, widths) = ([b'd'; 201], Widths::Wide);
    for (base, k, count) in [(BASE, 5, 4), (BASE, 1, 3), (BASE, 1, 1), (&long[..], 1, 4)] {
        let one = Deposit::commit(None, base, widths, k, &words(count))
            .err()
            .unwrap();
        for threads in [2, 3, 64].map(Threads::of) {
            let more = Deposit::commit_on(threads, None, base, widths, k, &words(count)).err();
            assert_eq!(more.unwrap().number, one.number, "k {k} count {count}");
        }
    }
    for challenges in [0, 2, 4] {
        let deposit = Deposit::commit(None, BASE, widths, 1, &words(8)).unwrap();
        let refusal = deposit.fold_on(Threads::of(2), &words(challenges)).err();
        assert_eq!(refusal.unwrap().number, 5, "{challenges} challenges");
    }
}

#[test]
fn how_many() {
    assert_eq!(Threads::of(0), Threads::of(1));
    assert_eq!(Threads::of(7).number(), 7);
    assert!(Threads::all().number() >= 1);
}
