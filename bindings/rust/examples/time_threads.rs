//! Times committing and folding in one run: on one thread and on more in buffers that are kept from round to round, and on more in new ones.
//!
//!     cargo run --release --example time_threads -- THREADS ROUNDS n,k n,k ..
//!
//! All cores, 3 rounds and 18,2 where nothing is said. A line has what was timed, n, k, how many threads, `kept` or `new`, the nanoseconds of the best
//! round, and how many times faster that is than one thread, with tabs between; bench/run reads them.

use dequmlo::{Buffers, Deposit, Root, Threads, Widths, Word};
use std::mem;
use std::time::{Duration, Instant};

/// A base domain of 20 bytes, as the rest of the benchmark has it.
const BASE: &[u8] = b"magnetar/pcs/default";

/// The table of 2^n words, and n challenges.
fn drawn(n: usize) -> (Vec<Word>, Vec<Word>) {
    let word = |i: u128| Word((i + 1).wrapping_mul(0x9e37_79b9_7f4a_7c15_f39c_c060_5ced_c835));
    (
        (0..1 << n).map(word).collect(),
        (0..n as u128).map(word).collect(),
    )
}

fn timed<T>(best: &mut Duration, work: impl FnOnce() -> T) -> T {
    let start = Instant::now();
    let done = work();
    *best = (*best).min(start.elapsed());
    done
}

/// One way to make a deposit, and its best times.
struct Way {
    threads: Threads,
    keeps: bool,
    commit: Duration,
    fold: Duration,
}

impl Way {
    fn new(threads: Threads, keeps: bool) -> Way {
        Way {
            threads,
            keeps,
            commit: Duration::MAX,
            fold: Duration::MAX,
        }
    }

    /// A round: the roots. New buffers are given back to the system when both times are taken.
    fn round(
        &mut self,
        kept: &mut Buffers,
        k: usize,
        table: &[Word],
        challenges: &[Word],
    ) -> Vec<Root> {
        let on = self.threads;
        let buffers = if self.keeps {
            mem::take(kept)
        } else {
            Buffers::default()
        };
        let commit = || Deposit::commit_in(buffers, on, None, BASE, Widths::Present, k, table);
        let deposit = timed(&mut self.commit, commit).expect("it can be committed");
        let fold = || deposit.fold_on(on, challenges);
        let folded = timed(&mut self.fold, fold).expect("it can be folded");
        let roots = folded.roots();
        if self.keeps {
            *kept = folded.into_buffers();
        }
        roots
    }
}

/// One thread, these threads, and these in new buffers. On one thread folding makes level 0's tree again.
fn ways(threads: Threads, rounds: usize, n: usize, k: usize) -> [Way; 3] {
    let (table, challenges) = drawn(n);
    let mut ways = [
        Way::new(Threads::of(1), true),
        Way::new(threads, true),
        Way::new(threads, false),
    ];
    // The first round makes the buffers that are kept, so it does not count.
    let mut kept = Buffers::default();
    let roots = Way::new(threads, true).round(&mut kept, k, &table, &challenges);
    for _ in 0..rounds {
        for way in &mut ways {
            let same = way.round(&mut kept, k, &table, &challenges) == roots;
            assert!(same, "every way gives the same roots");
        }
    }
    ways
}

/// A line for each way of doing this.
fn print(what: &str, n: usize, k: usize, ways: &[Way], took: impl Fn(&Way) -> Duration) {
    for way in ways {
        println!(
            "{what}\t{n}\t{k}\t{}\t{}\t{}\t{:.2}",
            way.threads.number(),
            if way.keeps { "kept" } else { "new" },
            took(way).as_nanos(),
            took(&ways[0]).as_secs_f64() / took(way).as_secs_f64()
        );
    }
}

fn main() {
    let words: Vec<String> = std::env::args().skip(1).collect();
    let number = |i: usize, otherwise: usize| {
        words
            .get(i)
            .map_or(otherwise, |w| w.parse().expect("a number"))
    };
    let threads = Threads::of(number(0, Threads::all().number()));
    let rounds = number(1, 3);
    let sizes: Vec<(usize, usize)> = match words.get(2..) {
        Some(given) if !given.is_empty() => given
            .iter()
            .map(|w| w.split_once(',').expect("n,k"))
            .map(|(n, k)| (n.parse().expect("n"), k.parse().expect("k")))
            .collect(),
        _ => vec![(18, 2)],
    };
    for (n, k) in sizes {
        let ways = ways(threads, rounds, n, k);
        print("commit", n, k, &ways, |way| way.commit);
        print("all folds with trees", n, k, &ways, |way| way.fold);
    }
}
