//! The Rust's own times, best of several: `name<TAB>ns`. On one thread; and what it divides over its threads, on more.

use magnetar_field::{avx, eq, gf128, pack};
use magnetar_hash::MerkleTree;
use magnetar_pcs::code::{CodeParams, Codeword};
use oracle::query::{self, Claim, Levels, Prepared};
use oracle::Word;
use std::hint::black_box;
use std::time::Instant;

/// A domain of 20 bytes: the default's.
const DOMAIN: &str = "magnetar/pcs/default";

/// Prints every time. A line that starts with # says how it was measured.
pub fn run(kind: &str, large: bool) {
    println!("# kind {kind}, one thread, best of several, ns an operation");
    words();
    phi();
    hashes();
    commitment(16, 1, 7);
    commitment(18, 2, 5);
    if large {
        commitment(20, 4, 2);
    }
}

/// Prints the times of what the Rust divides, on this many threads; their names say that it is on threads.
pub fn run_divided(kind: &str, threads: &str, large: bool) {
    println!("# kind {kind}, {threads} threads, best of several, ns an operation");
    divided(18, 2, 15);
    if large {
        divided(20, 4, 5);
    }
}

/// Runs the work `rounds` times; the shortest time, over `items`. What the work hands back is freed outside of its time.
fn best<T>(rounds: usize, items: usize, mut work: impl FnMut() -> T) -> f64 {
    let mut least = f64::INFINITY;
    for _ in 0..rounds {
        let start = Instant::now();
        let made = work();
        least = least.min(start.elapsed().as_nanos() as f64);
        drop(made);
    }
    least / items as f64
}

fn print(name: &str, ns: f64) {
    println!("{name}\t{ns:.1}");
}

/// Words that no shortcut fits: a word times rising powers of x^64 + x^2 + 1.
fn some_words(count: usize) -> Vec<Word> {
    let step = Word((1 << 64) + 5);
    let mut word = Word(0x0123_4567_89ab_cdef_0f1e_2d3c_4b5a_6978);
    let next = |_| {
        word = gf128::mul(word, step);
        word
    };
    (0..count).map(next).collect()
}

fn words() {
    let count = 1 << 16;
    let (src, r) = (some_words(count), some_words(9)[8]);
    print(
        "mul_chain",
        best(20, count, || {
            black_box(src.iter().fold(r, |product, &w| gf128::mul(product, w)));
        }),
    );
    let mut dst = src.clone();
    print(
        "mul_independent",
        best(20, count, || {
            for (d, &w) in dst.iter_mut().zip(&src) {
                *d = gf128::mul(w, r);
            }
            black_box(&mut dst);
        }),
    );
    print(
        "mul_run_65536_a_word",
        best(20, count, || {
            avx::mul_run(black_box(&mut dst), &src, r, count);
        }),
    );
    print(
        "axpy_run_65536_a_word",
        best(20, count, || {
            avx::axpy_run(black_box(&mut dst), &src, r, count);
        }),
    );
    print(
        "square_chain",
        best(20, count, || {
            black_box((0..count).fold(r, |square, _| gf128::square(square)));
        }),
    );
    print(
        "inv",
        best(20, 256, || {
            black_box(src[..256].iter().map(|&w| gf128::inv(w).0).max());
        }),
    );
    let point = &src[..20];
    print(
        "eq_build_20",
        best(5, 1, || {
            black_box(eq::EqBits::build(point));
        }),
    );
    print(
        "eq_build_fused_20",
        best(5, 1, || {
            black_box(eq::eq_build_fused(point));
        }),
    );
    let (mut a, mut b) = (vec![Word(0); 1 << 20], vec![Word(0); 1 << 20]);
    print(
        "eq_build_fused_into_20",
        best(5, 1, || {
            eq::eq_build_fused_into(point, black_box(&mut a), &mut b);
        }),
    );
}

/// Words with 8 bits set, one in each 16 of their bits.
fn eight_bits(words: &[Word]) -> Vec<Word> {
    let place = |w: &Word, i: usize| 16 * i + (w.0 >> (4 * i)) as usize % 16;
    words
        .iter()
        .map(|w| Word((0..8).map(|i| 1 << place(w, i)).sum()))
        .collect()
}

/// The time of a word in the sum of phi over the words.
fn print_phi(name: &str, words: &[Word], phi: impl Fn(Word) -> Word) {
    let sum = || words.iter().fold(gf128::ZERO, |sum, &w| sum + phi(w));
    print(name, best(20, words.len(), || black_box(sum())));
}

fn phi() {
    let (words, others) = (some_words(1 << 12), some_words(256));
    let c: &[Word; 128] = others[128..].try_into().expect("128 words");
    print_phi("phi_c", &words, |w| pack::phi_c(w, c));
    print_phi("phi_c_8_bits", &eight_bits(&words), |w| pack::phi_c(w, c));
    let filled = pack::PhiTab::build(c);
    print_phi("phi_tab_apply", &words, |w| filled.apply(w));
    print_phi("phi_tab_filled", &words, |w| {
        pack::PhiTab::build(black_box(c)).apply(w)
    });
}

fn hashes() {
    let bytes: Vec<u8> = (0..1usize << 24).map(|i| (i % 251) as u8).collect();
    print(
        "blake3_16MiB",
        best(7, 1, || {
            black_box(oracle::hash::blake3(&bytes));
        }),
    );
    let values = some_words(1 << 13);
    let leaves = magnetar_hash::oracle_hash_groups(DOMAIN, &values, 8);
    print(
        "leaf_width8_domain20",
        best(20, leaves.len(), || {
            black_box(magnetar_hash::oracle_hash_groups(DOMAIN, &values, 8));
        }),
    );
    print(
        "node_domain20",
        best(20, leaves.len() / 2, || {
            black_box(magnetar_hash::oracle_hash_nodes(DOMAIN, 0, &leaves));
        }),
    );
    let many = some_words(1 << 20);
    print(
        "tree_2^20_width8_domain20",
        best(3, 1, || {
            black_box(MerkleTree::build_batched(DOMAIN, &many, 8));
        }),
    );
}

/// Committing and all folds with their trees.
fn divided(n: usize, k: usize, rounds: usize) {
    let (table, challenges) = (some_words(1 << n), some_words(n));
    let codeword = Codeword::encode(&CodeParams::derive(n, k, DOMAIN), &table);
    print_commit(&format!("commit_on_threads_n{n}_k{k}"), rounds, k, &table);
    let name = format!("folds_with_trees_on_threads_n{n}_k{k}");
    print_folds_with_trees(&name, rounds, &codeword, &challenges);
}

fn print_commit(name: &str, rounds: usize, k: usize, table: &[Word]) {
    print(
        name,
        best(rounds, 1, || black_box(query::commit(k, DOMAIN, table))),
    );
}

fn print_folds_with_trees(name: &str, rounds: usize, codeword: &Codeword, challenges: &[Word]) {
    print(
        name,
        best(rounds, 1, || {
            black_box(fold_all(codeword, challenges, build_level));
        }),
    );
}

/// Everything at one n and k.
fn commitment(n: usize, k: usize, rounds: usize) {
    let name = |what: &str| format!("{what}_n{n}_k{k}");
    let (table, challenges) = (some_words(1 << n), some_words(n));
    let params = CodeParams::derive(n, k, DOMAIN);
    let codeword = Codeword::encode(&params, &table);
    print(
        &name("encode"),
        best(rounds, 1, || {
            black_box(Codeword::encode(&params, &table));
        }),
    );
    let domain = query::level_domain(DOMAIN, 0);
    let width = query::fold_tree_width(codeword.values.len());
    print(
        &name("tree"),
        best(rounds, 1, || {
            black_box(MerkleTree::build_batched(&domain, &codeword.values, width));
        }),
    );
    print_commit(&name("commit"), rounds, k, &table);
    print(
        &name("folds"),
        best(rounds, 1, || {
            black_box(fold_all(&codeword, &challenges, |_, _| ()));
        }),
    );
    print_folds_with_trees(&name("folds_with_trees"), rounds, &codeword, &challenges);
    if n == 16 {
        ring(n, &table, &challenges);
    }
    records(n, k, &table, &challenges, &name);
}

/// Every fold at variable 0, something done with each level.
fn fold_all(
    codeword: &Codeword,
    challenges: &[Word],
    mut with: impl FnMut(usize, &[Word]),
) -> Word {
    let mut folded = codeword.fold(0, challenges[0]);
    with(1, &folded.values);
    for (i, &r) in challenges.iter().enumerate().skip(1) {
        folded = folded.fold(0, r);
        with(i + 1, &folded.values);
    }
    folded.values[0]
}

fn build_level(level: usize, values: &[Word]) {
    let domain = query::level_domain(DOMAIN, level);
    let width = query::fold_tree_width(values.len());
    black_box(MerkleTree::build_batched(&domain, values, width));
}

fn ring(n: usize, table: &[Word], challenges: &[Word]) {
    let eq = oracle::field::eq_build(challenges);
    print(
        &format!("partial_evals_n{n}"),
        best(7, 1, || {
            black_box(oracle::ring::partial_evals(&eq, table));
        }),
    );
    let rb: [Word; 128] = some_words(128).try_into().expect("128 words");
    print(
        &format!("materialize_n{n}"),
        best(7, 1, || {
            black_box(oracle::ring::materialize(challenges, &rb));
        }),
    );
    let point = some_words(20);
    print(
        "eval_at_n20",
        best(7, 1, || {
            black_box(oracle::ring::eval_at(&point, &rb, &point));
        }),
    );
    let row: [Word; 7] = some_words(7).try_into().expect("7 words");
    print(
        &format!("extension_sides_n{n}"),
        best(7, 1, || {
            black_box(extension_sides(table, challenges, &row));
        }),
    );
    print(
        &format!("fold_sides_n{n}"),
        best(7, 1, || {
            black_box(oracle::ring::fold_sides(table, challenges, &rb));
        }),
    );
}

/// Both sides of the first identity by the Rust's pieces, the extension word by word, as ours has it.
fn extension_sides(table: &[Word], point: &[Word], row: &[Word; 7]) -> (Word, Word) {
    let eq = oracle::field::eq_build(point);
    let partials = oracle::ring::partial_evals(&eq, table);
    let c = pack::eq_coefficients(row);
    let phi = pack::PhiTab::build(&c);
    let left = c.iter().zip(&partials).map(|(&c, &s)| gf128::mul(c, s));
    let right = table.iter().zip(&eq);
    let right = right.map(|(&w, &e)| gf128::mul(phi.apply(w), e));
    let sum = |sum: Word, product: Word| sum + product;
    (left.fold(Word(0), sum), right.fold(Word(0), sum))
}

/// One query record built, and checked by step 5 at a preset position.
fn records(n: usize, k: usize, table: &[Word], challenges: &[Word], name: &dyn Fn(&str) -> String) {
    let levels = Levels::of(k, DOMAIN, table, challenges);
    let roots = levels.roots();
    let count = 1usize << (n + k);
    let positions: Vec<usize> = (0..64).map(|i| i * 0x9e37_79b1 % count).collect();
    print(
        &name("query_built"),
        best(20, positions.len(), || {
            for &position in &positions {
                black_box(levels.query_unrecorded(position));
            }
        }),
    );
    let claim = Claim {
        n,
        k,
        domain: DOMAIN,
        challenges,
        roots: &roots,
    };
    let queries: Vec<_> = positions
        .iter()
        .map(|&position| levels.query(position))
        .collect();
    // One proof with all of them, so that steps 1 to 4 hardly count.
    let prepared = Prepared::of(&claim, &queries);
    let positions: Vec<u64> = positions.iter().map(|&position| position as u64).collect();
    print(
        &name("query_checked"),
        best(10, positions.len(), || {
            assert!(prepared.accepted(&claim, &positions));
        }),
    );
}
