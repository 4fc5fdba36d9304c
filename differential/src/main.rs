//! Compares our functions with the published Rust's, layer by layer.
//!
//! A layer is a module like `field`: a struct of functions, and a list of
//! comparisons on it. Its functions in the archive are declared under `ours`, its
//! right and wrong stand-ins under `stand_in`; it joins by a line in `comparisons`
//! and one in `self_test`.

mod code;
mod eval;
mod field;
mod harness;
#[cfg(archive)]
mod ours;
mod random;
mod record;
mod ring;
mod stand_in;
mod tree;

use harness::{Bound, Comparison, Plan};
use stand_in::Wrong;
use std::process::ExitCode;
use std::time::{Duration, Instant};

const USAGE: &str = "\
differential/run [--seed N] [--seconds N] [--only FUNCTION] [--case N]
    compare; the fixed cases of every function always, more until the seconds are over
differential/run --self-test [--seed N]
    show that the harness finds what is wrong, with stand-ins for our functions";

const DEFAULT_SEED: u64 = 1;
const DEFAULT_SECONDS: u64 = 60;

fn main() -> ExitCode {
    let words: Vec<String> = std::env::args().skip(1).collect();
    let Some(options) = Options::read(&words) else {
        eprintln!("{USAGE}");
        return ExitCode::from(2);
    };
    match oracle::machine::start() {
        Ok(kind) => println!(
            "seed {}, kind {}",
            options.seed,
            oracle::machine::name(kind)
        ),
        Err(reason) => {
            eprintln!("differential: refused to run: {reason}");
            return ExitCode::from(5);
        }
    }
    if options.self_test {
        return self_test(options.seed);
    }
    compare_all(&options.plan())
}

/// The comparisons of every layer that the archive has: a layer joins by a line here.
#[cfg(archive)]
fn comparisons() -> Vec<Bound> {
    let mut all = Vec::new();
    all.extend(harness::bind(ours::field::FIELD, field::COMPARISONS));
    all.extend(harness::bind(ours::tree::TREE, tree::COMPARISONS));
    all.extend(harness::bind(ours::code::CODE, code::COMPARISONS));
    all.extend(harness::bind(ours::ring::RING, ring::COMPARISONS));
    all.extend(harness::bind(ours::eval::EVAL, eval::COMPARISONS));
    all.extend(harness::bind(ours::record::RECORD, record::COMPARISONS));
    all
}

/// There is no archive, and so nothing to compare.
#[cfg(not(archive))]
fn comparisons() -> Vec<Bound> {
    Vec::new()
}

fn compare_all(plan: &Plan) -> ExitCode {
    let comparisons = comparisons();
    if comparisons.is_empty() {
        eprintln!("differential: no target/staticlib/libtest_archive.a: make it by");
        eprintln!("differential: `library/archive test_archive`");
        return ExitCode::from(2);
    }
    let rows = harness::run(&comparisons, plan);
    let different = harness::report(&rows);
    harness::report_numbers();
    // A run that compared nothing has shown nothing.
    let passed = different == 0 && rows.iter().any(|row| row.compared > 0);
    ExitCode::from(u8::from(!passed))
}

/// Tests the harness on every layer: a layer joins by a line here.
fn self_test(seed: u64) -> ExitCode {
    let mut faults = 0;
    macro_rules! layer {
        ($layer:ident) => {
            faults += self_test_layer(
                seed,
                stand_in::$layer::RIGHT,
                stand_in::$layer::WRONG,
                $layer::COMPARISONS,
            );
        };
    }
    layer!(field);
    layer!(tree);
    layer!(code);
    layer!(ring);
    layer!(eval);
    layer!(record);
    println!("{faults} faults of the harness");
    ExitCode::from(u8::from(faults > 0))
}

/// The right stand-in must show no difference; each wrong one, which is right in
/// all but its function, must show some there; each function must have a wrong one.
fn self_test_layer<F: Copy + 'static>(
    seed: u64,
    right: F,
    wrong: &[Wrong<F>],
    comparisons: &[Comparison<F>],
) -> usize {
    let plan = Plan {
        seed,
        until: Instant::now(),
        only: None,
        case: None,
        large: false,
        shown: 0,
    };
    println!("the right stand-in");
    let rows = harness::run(
        &harness::bind(right, comparisons),
        &Plan {
            shown: 1,
            ..plan.clone()
        },
    );
    let mut faults = usize::from(harness::report(&rows) > 0);
    for (function, what, functions) in wrong {
        println!("a wrong {function}: {what}");
        let only = Some(function.to_string());
        let rows = harness::run(
            &harness::bind(*functions, comparisons),
            &Plan {
                only,
                ..plan.clone()
            },
        );
        let found: u64 = rows.iter().map(|row| row.different).sum();
        if found == 0 {
            println!("  NOT FOUND");
            faults += 1;
        }
    }
    for comparison in comparisons {
        if !wrong
            .iter()
            .any(|(function, _, _)| *function == comparison.function)
        {
            println!("no wrong {}", comparison.function);
            faults += 1;
        }
    }
    faults
}

struct Options {
    seed: u64,
    seconds: u64,
    only: Option<String>,
    case: Option<u64>,
    self_test: bool,
}

impl Options {
    fn read(words: &[String]) -> Option<Options> {
        let mut options = Options {
            seed: DEFAULT_SEED,
            seconds: DEFAULT_SECONDS,
            only: None,
            case: None,
            self_test: false,
        };
        let mut words = words.iter();
        while let Some(word) = words.next() {
            match word.as_str() {
                "--seed" => options.seed = words.next()?.parse().ok()?,
                "--seconds" => options.seconds = words.next()?.parse().ok()?,
                "--case" => options.case = Some(words.next()?.parse().ok()?),
                "--only" => options.only = Some(words.next()?.clone()),
                "--self-test" => options.self_test = true,
                _ => return None,
            }
        }
        Some(options)
    }

    fn plan(&self) -> Plan {
        Plan {
            seed: self.seed,
            until: Instant::now() + Duration::from_secs(self.seconds),
            only: self.only.clone(),
            case: self.case,
            large: true,
            shown: 3,
        }
    }
}
