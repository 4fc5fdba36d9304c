//! docs/REFUSALS.md and the tables of sentences and of retired numbers are the same tables, and all are in plain words.

use dequmlo::{Explanation, Refusal, Retired, EXPLANATIONS, RETIRED};

fn page() -> String {
    let page = concat!(env!("CARGO_MANIFEST_DIR"), "/../../docs/REFUSALS.md");
    std::fs::read_to_string(page).expect("docs/REFUSALS.md")
}

/// The page up to the heading over the retired numbers, and from there on.
fn parts(text: &str) -> (&str, &str) {
    text.split_once("\n## Retired numbers\n")
        .expect("the heading over the retired numbers")
}

/// The rows of a text's tables that begin with a number.
fn rows(text: &str) -> Vec<&str> {
    text.lines()
        .filter(|line| line.starts_with("| ") && line.as_bytes()[2].is_ascii_digit())
        .collect()
}

#[test]
fn the_page_has_a_row_for_every_number_and_those_that_no_holder_can_cause_stand_below() {
    let page = page();
    let (text, _) = parts(&page);
    let rows = rows(text);
    let (below, above): (Vec<&Explanation>, Vec<&Explanation>) =
        EXPLANATIONS.iter().partition(|e| e.no_holder_can_cause());
    let table: Vec<String> = above
        .iter()
        .chain(&below)
        .map(|e| format!("| {} | {} | {} |", e.number, e.sentence, e.ask))
        .collect();
    assert_eq!(rows, table);
    for number in [1, 2, 3, 6, 8, 9, 10, 36] {
        assert!(below.iter().any(|e| e.number == number), "{number}");
    }
    let (first, second) = text
        .split_once("## Numbers that no holder can cause")
        .expect("the heading over the rows below");
    assert!(first.contains("| 33 |") && second.contains("| 1 |"));
    for e in &below {
        assert!(e.ask.starts_with("Nothing from the holder"), "{}", e.number);
    }
}

/// A sentence says since when, for whoever sees it alone; the page has that in a column of its own.
#[test]
fn the_page_has_a_row_for_every_retired_number_at_its_end() {
    let page = page();
    let (_, text) = parts(&page);
    let table: Vec<String> = RETIRED
        .iter()
        .map(|r| {
            let begins = format!("retired since version {}: it asked ", r.since);
            let asked = r.sentence.strip_prefix(&begins).expect(r.sentence);
            let (number, since, ask) = (r.number, r.since, r.ask);
            format!("| {number} | version {since} | {asked} | {ask} |")
        })
        .collect();
    assert_eq!(rows(text), table);
}

#[test]
fn numbers_are_1_to_33_in_order_but_20_and_then_36() {
    let numbers: Vec<u32> = EXPLANATIONS.iter().map(|e| e.number).collect();
    let given = (1..=19).chain(21..=33).chain([36]);
    assert_eq!(numbers, given.collect::<Vec<u32>>());
}

/// Once retired, a number is given to nothing else.
#[test]
fn the_retired_number_is_20_and_is_not_explained() {
    let numbers: Vec<(u32, &str)> = RETIRED.iter().map(|r| (r.number, r.since)).collect();
    assert_eq!(numbers, [(20, "0.7.0")]);
    for r in &RETIRED {
        assert_eq!(Explanation::of(r.number), None);
        assert_eq!(Retired::of(r.number), Some(r));
    }
    for e in &EXPLANATIONS {
        assert_eq!(Retired::of(e.number), None);
    }
}

#[test]
fn a_refusal_says_the_sentence_of_its_number() {
    let at = |number, level| Refusal { number, level };
    for e in &EXPLANATIONS {
        let refusal = at(e.number, None);
        assert_eq!((refusal.sentence(), refusal.ask()), (e.sentence, e.ask));
    }
    // As a report may name it, whoever wrote that.
    let (named, retired) = (at(20, Some(3)), Retired::of(20).unwrap());
    assert_eq!(
        (named.sentence(), named.ask()),
        (retired.sentence, retired.ask)
    );
    assert_eq!(
        named.to_string(),
        "20 at level 3: retired since version 0.7.0: it asked whether a and b are in one group, and they always are"
    );
    assert!(named
        .ask()
        .starts_with("Ask which program wrote the report"));
    for number in [0, 34, 35, 37] {
        let none = at(number, None);
        assert_eq!(
            (none.sentence(), none.ask()),
            ("no question has this number", "")
        );
    }
}

/// What a reader at a support desk stumbled over.
#[test]
fn the_words_are_plain() {
    let program = |name: &str| {
        let path = format!("{}/../../cli/{name}", env!("CARGO_MANIFEST_DIR"));
        std::fs::read_to_string(&path).expect(&path)
    };
    let mut texts = vec![page(), program("README.md"), program("src/help.rs")];
    texts.extend(EXPLANATIONS.map(|e| format!("{} {}", e.sentence, e.ask)));
    texts.extend(RETIRED.map(|r| format!("{} {}", r.sentence, r.ask)));
    for text in texts {
        let flat = text.split_whitespace().collect::<Vec<_>>().join(" ");
        for stumble in [
            "shown for a",
            "its yes",
            "deposit takes another",
            "rounds are a program's",
            "lent",
            "lend",
            "put to",
        ] {
            let found = flat
                .split(|c: char| !(c.is_alphanumeric() || c == ' ' || c == '\''))
                .any(|part| format!(" {part} ").contains(&format!(" {stumble} ")));
            assert!(!found, "{stumble:?} in {flat:?}");
        }
    }
}
