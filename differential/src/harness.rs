//! Runs comparisons case by case, counts them, and prints each difference small
//! enough to replay.

use crate::random::Random;
use oracle::Word;
use std::fmt::Debug;
use std::sync::atomic::{AtomicU64, Ordering};
use std::time::Instant;

/// One function compared: `fixed` cases always, then the large ones, more of the
/// first kind while there is time.
/// A case's number may choose its input (so that the fixed cases can be a full
/// list); what it does not fix comes from the case's random stream.
/// F is a layer's set of functions, as one implementation has them.
pub struct Comparison<F> {
    pub function: &'static str,
    fixed: u64,
    large: u64,
    compare: Compared<F>,
}

/// Compares one case, on one implementation's functions.
pub type Compared<F> = fn(&F, u64, &mut Random) -> Verdict;

/// The number of the first large case: inputs that are slow to make, and that a
/// plan may leave out.
pub const LARGE: u64 = 1 << 32;

impl<F> Comparison<F> {
    pub const fn of(function: &'static str, fixed: u64, compare: Compared<F>) -> Self {
        Comparison {
            function,
            fixed,
            large: 0,
            compare,
        }
    }

    pub const fn and_large(self, large: u64) -> Self {
        Comparison { large, ..self }
    }
}

/// Runs the case with this number, on this stream.
type Compare = dyn Fn(u64, &mut Random) -> Verdict;

/// A comparison with the functions that it is to run on.
pub struct Bound {
    function: &'static str,
    fixed: u64,
    large: u64,
    compare: Box<Compare>,
}

/// A layer's comparisons on one set of functions.
pub fn bind<F: Copy + 'static>(functions: F, comparisons: &[Comparison<F>]) -> Vec<Bound> {
    let bound = |comparison: &Comparison<F>| {
        let compare = comparison.compare;
        Bound {
            function: comparison.function,
            fixed: comparison.fixed,
            large: comparison.large,
            compare: Box::new(move |case, random| compare(&functions, case, random)),
        }
    };
    comparisons.iter().map(bound).collect()
}

/// A case's outcome.
pub type Verdict = Result<(), Difference>;

/// Where the two answers part.
pub struct Difference {
    pub input: String,
    pub rust: String,
    pub ours: String,
}

/// What to run.
#[derive(Clone)]
pub struct Plan {
    pub seed: u64,
    pub until: Instant,
    pub only: Option<String>,
    pub case: Option<u64>,
    /// Whether the large cases are run.
    pub large: bool,
    /// How many differences of one function are printed.
    pub shown: u64,
}

/// What was counted of one function.
pub struct Row {
    pub function: &'static str,
    pub compared: u64,
    pub different: u64,
}

/// Cases of one function run in a row, once its fixed ones are done.
const TURN: u64 = 50;

/// Runs every comparison, or those that the plan names.
pub fn run(comparisons: &[Bound], plan: &Plan) -> Vec<Row> {
    let wanted = |c: &&Bound| plan.only.as_deref().is_none_or(|name| name == c.function);
    let chosen: Vec<&Bound> = comparisons.iter().filter(wanted).collect();
    let mut rows: Vec<Row> = chosen
        .iter()
        .map(|comparison| Row::of(comparison))
        .collect();
    for (comparison, row) in chosen.iter().zip(&mut rows) {
        let large = if plan.large { comparison.large } else { 0 };
        match plan.case {
            Some(case) => row.run(comparison, case, plan),
            None => (0..comparison.fixed)
                .chain(LARGE..LARGE + large)
                .for_each(|case| row.run(comparison, case, plan)),
        }
    }
    if plan.case.is_none() && !chosen.is_empty() {
        go_on(&chosen, &mut rows, plan);
    }
    rows
}

/// Further cases, a turn of each function after the other, until the time is over.
fn go_on(chosen: &[&Bound], rows: &mut [Row], plan: &Plan) {
    for turn in 0.. {
        for (comparison, row) in chosen.iter().zip(&mut *rows) {
            if Instant::now() >= plan.until {
                return;
            }
            let next = comparison.fixed + turn * TURN;
            (next..next + TURN).for_each(|case| row.run(comparison, case, plan));
        }
    }
}

impl Row {
    fn of(comparison: &Bound) -> Row {
        Row {
            function: comparison.function,
            compared: 0,
            different: 0,
        }
    }

    fn run(&mut self, comparison: &Bound, case: u64, plan: &Plan) {
        let mut random = Random::for_case(plan.seed, self.function, case);
        self.compared += 1;
        if let Err(difference) = (comparison.compare)(case, &mut random) {
            self.different += 1;
            if self.different <= plan.shown {
                self.show(&difference, case, plan.seed);
            }
        }
    }

    fn show(&self, difference: &Difference, case: u64, seed: u64) {
        println!("DIFFERENCE in {}", self.function);
        println!("  input  {}", cut(&difference.input));
        println!("  Rust   {}", cut(&difference.rust));
        println!("  ours   {}", cut(&difference.ours));
        println!(
            "  replay differential/run --seed {seed} --only {} --case {case}",
            self.function
        );
    }
}

/// A long text's beginning; the replay has it all.
fn cut(text: &str) -> String {
    const LONGEST: usize = 240;
    match text.char_indices().nth(LONGEST) {
        Some((end, _)) => format!("{}.. ({} characters)", &text[..end], text.len()),
        None => text.to_string(),
    }
}

/// How often the Rust's answer was each number of SPECIFICATION 8.2.
static ANSWERED: [AtomicU64; 34] = [const { AtomicU64::new(0) }; 34];

/// One answer more that is this number.
pub fn answered(number: u32) {
    ANSWERED[number as usize].fetch_add(1, Ordering::Relaxed);
}

/// Prints how often each number was the Rust's answer, in lines of four.
pub fn report_numbers() {
    let counts = ANSWERED.iter().map(|count| count.load(Ordering::Relaxed));
    let seen: Vec<String> = (0..)
        .zip(counts)
        .filter(|(_, count)| *count > 0)
        .map(|(number, count): (u32, u64)| format!("{number:2}: {count:>8}"))
        .collect();
    println!("checks by the number that both answered:");
    for line in seen.chunks(6) {
        println!("    {}", line.join("   "));
    }
}

/// Prints a table of the counts; the differences in all.
pub fn report(rows: &[Row]) -> u64 {
    for row in rows {
        println!(
            "{:24} {:>9} compared {:>6} different",
            row.function, row.compared, row.different
        );
    }
    let compared: u64 = rows.iter().map(|row| row.compared).sum();
    let different: u64 = rows.iter().map(|row| row.different).sum();
    println!("{compared} comparisons, {different} differences");
    different
}

/// Compares two answers of any kind.
pub fn same<T: PartialEq + Debug>(rust: &T, ours: &T, input: impl FnOnce() -> String) -> Verdict {
    if rust == ours {
        return Ok(());
    }
    Err(Difference {
        input: input(),
        rust: format!("{rust:?}"),
        ours: format!("{ours:?}"),
    })
}

/// Compares two words.
pub fn same_word(rust: Word, ours: Word, input: impl FnOnce() -> String) -> Verdict {
    if rust == ours {
        return Ok(());
    }
    Err(Difference {
        input: input(),
        rust: hex(rust),
        ours: hex(ours),
    })
}

/// Compares two lists of words: their lengths, then place by place.
pub fn same_words(rust: &[Word], ours: &[Word], input: impl FnOnce() -> String) -> Verdict {
    let place = rust.iter().zip(ours).position(|(a, b)| a != b);
    let (rust, ours) = match place {
        Some(place) => (entry(rust, place), entry(ours, place)),
        None if rust.len() == ours.len() => return Ok(()),
        None => (
            format!("{} words", rust.len()),
            format!("{} words", ours.len()),
        ),
    };
    Err(Difference {
        input: input(),
        rust,
        ours,
    })
}

/// Where the Rust answers, ours must be done: number 0.
pub fn done(number: u64, input: impl FnOnce() -> String) -> Verdict {
    if number == 0 {
        return Ok(());
    }
    Err(Difference {
        input: input(),
        rust: "answers".into(),
        ours: format!("refused {number}"),
    })
}

fn entry(words: &[Word], place: usize) -> String {
    format!("entry {place} of {}: {}", words.len(), hex(words[place]))
}

/// A word as the oracle's requests have it.
pub fn hex(word: Word) -> String {
    format!("{:032x}", word.0)
}

/// A list of words as the oracle's requests have it.
pub fn hexes(words: &[Word]) -> String {
    if words.is_empty() {
        return "-".into();
    }
    words
        .iter()
        .map(|&word| hex(word))
        .collect::<Vec<_>>()
        .join(",")
}

/// Bytes, two digits each.
pub fn digits(bytes: &[u8]) -> String {
    bytes.iter().map(|byte| format!("{byte:02x}")).collect()
}
