//! Codewords in use: folded at any variable, each with the list of the coordinates that are left; kept and taken up again; and what is refused.

use dequmlo::code::{fold_part, InUse};
use dequmlo::{Deposit, Widths, Word};

fn words(count: usize) -> Vec<Word> {
    (1..=count as u128)
        .map(|i| Word(i * i * 0x9e37_79b9_7f4a_7c15_f39c_c060 + i))
        .collect()
}

fn deposit(n: usize, k: usize) -> Deposit {
    Deposit::commit(None, b"dequmlo/in-use", Widths::Present, k, &words(1 << n)).unwrap()
}

fn committed(n: usize, k: usize) -> InUse {
    InUse::committed(n, k, deposit(n, k).codeword())
}

const SHAPES: [(usize, usize); 5] = [(1, 0), (1, 4), (3, 1), (6, 2), (9, 4)];

#[test]
fn a_fold_drops_the_entry_of_its_variable() {
    for (n, k) in SHAPES {
        for var in 0..n {
            let before = committed(n, k);
            let mut after = before.clone();
            after.fold(var, Word(7)).unwrap();
            let left: Vec<usize> = (0..n).filter(|i| *i != var).collect();
            let entries = 0..before.words.len() / 2;
            let expected = InUse {
                n: n - 1,
                k,
                original: n,
                coordinates: left,
                words: fold_part(n, k, var, Word(7), &before.words, entries).unwrap(),
            };
            assert_eq!(after, expected, "n {n} k {k} var {var}");
        }
    }
}

/// The variables of n folds, in three orders: always the first that is left, the last, the one in the middle.
fn orders(n: usize) -> [Vec<usize>; 3] {
    let variables: [fn(usize) -> usize; 3] = [|_| 0, |left| left - 1, |left| left / 2];
    variables.map(|variable| (1..=n).rev().map(variable).collect())
}

/// Whichever is folded first: entry eps of what is left in the end is P(r + L(eps)), each challenge going to the coordinate that it folds away.
#[test]
fn the_last_level_is_the_same_in_any_order() {
    for (n, k) in SHAPES {
        let challenges = words(n);
        let last = deposit(n, k).fold(&challenges).unwrap().last_level();
        for order in orders(n) {
            let mut codeword = committed(n, k);
            for var in &order {
                let coordinate = codeword.coordinates[*var];
                codeword.fold(*var, challenges[coordinate]).unwrap();
            }
            assert_eq!(codeword.words, last, "n {n} k {k} {order:?}");
            assert_eq!((codeword.n, codeword.original), (0, n));
            assert!(codeword.coordinates.is_empty());
        }
    }
}

/// Its five parts are all that must be kept.
#[test]
fn it_goes_on_from_what_was_kept() {
    for order in orders(6) {
        let mut whole = committed(6, 2);
        for var in &order {
            let mut taken_up = InUse {
                n: whole.n,
                k: 2,
                original: 6,
                coordinates: whole.coordinates.clone(),
                words: whole.words.clone(),
            };
            taken_up.fold(*var, Word(11)).unwrap();
            whole.fold(*var, Word(11)).unwrap();
            assert!(taken_up == whole, "{taken_up:?} {whole:?}");
        }
    }
}

/// The number of a fold's refusal, which changes nothing.
fn refused(codeword: &InUse, var: usize) -> Option<u32> {
    let mut after = codeword.clone();
    let number = after.fold(var, Word(7)).err().map(|e| e.number);
    assert!(number.is_none() || after == *codeword, "{after:?}");
    number
}

/// A codeword of three coordinates out of five, with this list.
fn with_list(list: &[usize]) -> InUse {
    let mut codeword = committed(5, 1);
    codeword.fold(1, Word(3)).unwrap();
    codeword.fold(2, Word(4)).unwrap();
    assert_eq!(codeword.coordinates, [0, 2, 4]);
    codeword.coordinates = list.to_vec();
    codeword
}

#[test]
fn a_list_that_is_not_the_codeword_s_is_refused_with_36() {
    let rising: [&[usize]; 3] = [&[0, 2, 4], &[0, 1, 2], &[2, 3, 4]];
    for list in rising {
        assert_eq!(refused(&with_list(list), 0), None, "{list:?}");
    }
    let others: [&[usize]; 13] = [
        &[],
        &[0, 2],
        &[0, 2, 4, 0],
        &[0, 1, 2, 4],
        &[0, 2, 5],
        &[0, 2, usize::MAX],
        &[usize::MAX, 2, 4],
        &[0, 2, 2],
        &[0, 0, 4],
        &[0, 0, 0],
        &[2, 0, 4],
        &[4, 2, 0],
        &[usize::MAX; 3],
    ];
    for list in others {
        for var in [0, 2, 3] {
            assert_eq!(refused(&with_list(list), var), Some(36), "{list:?}");
        }
    }
}

#[test]
fn the_questions_have_an_order() {
    type Change = fn(&mut InUse);
    // Each is asked before those that follow it.
    let changes: [(Change, u32); 5] = [
        (|c| c.n = 21, 4),
        (|c| c.k = 5, 4),
        (|c| c.original = 21, 4),
        (|c| c.words.truncate(15), 5),
        (|c| c.coordinates.truncate(2), 36),
    ];
    let mut codeword = with_list(&[0, 2, 4]);
    assert_eq!(refused(&codeword, 2), None);
    assert_eq!(refused(&codeword, 3), Some(6));
    assert_eq!(refused(&codeword, usize::MAX), Some(6));
    for (change, number) in changes.into_iter().rev() {
        let mut alone = with_list(&[0, 2, 4]);
        change(&mut alone);
        assert_eq!(refused(&alone, 0), Some(number));
        change(&mut codeword);
        assert_eq!(refused(&codeword, 3), Some(number));
    }
    // Nothing is left to fold at.
    for k in 0..=4 {
        let none = InUse::committed(0, k, words(1 << k));
        assert_eq!(refused(&none, 0), Some(6), "k {k}");
    }
}

#[test]
fn it_is_printed_without_its_words() {
    assert_eq!(
        format!("{:?}", with_list(&[0, 2, 4])),
        "InUse { n: 3, k: 1, original: 5, coordinates: [0, 2, 4], .. }"
    );
}
