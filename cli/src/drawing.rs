//! Challenges and positions drawn from the system's source of randomness, and what a number of positions is worth.

use crate::outcome::Failure;
use crate::reading::reason;
use crate::shape::Shape;
use crate::system::random;
use dequmlo::Word;
use std::collections::BTreeSet;

/// One challenge for each level.
pub fn challenges(shape: &Shape) -> Result<Vec<Word>, Failure> {
    (0..shape.n).map(|_| number().map(Word)).collect()
}

/// So many positions, or all if there are fewer, rising. Each position is as likely as another: their number is a power of two.
pub fn positions(shape: &Shape, count: usize) -> Result<Vec<usize>, Failure> {
    let all = shape.positions();
    if count >= all {
        return Ok((0..all).collect());
    }
    let mut drawn = BTreeSet::new();
    while drawn.len() < count {
        drawn.insert(number()? as usize % all);
    }
    Ok(drawn.into_iter().collect())
}

fn number() -> Result<u128, Failure> {
    let mut bytes = [0; 16];
    random(&mut bytes).map_err(|e| {
        Failure(format!(
            "the system has no random numbers for a question: {}",
            reason(&e)
        ))
    })?;
    Ok(u128::from_le_bytes(bytes))
}

/// What so many positions of a deposit are worth, in a sentence.
pub fn worth(count: usize, shape: &Shape) -> String {
    let all = shape.positions();
    if count >= all {
        return format!("all {all} places of the deposit are looked at");
    }
    format!(
        "each position is one place looked at, of {all}: if a part f of the places is wrong, the chance that none of them is among {count} positions \
         is at most (1 - f)^{count}, which is {} for a tenth of the places and {} for a hundredth. A single wrong place is found only if it is asked for",
        percent(0.9, count),
        percent(0.99, count)
    )
}

/// A chance to the power of a count, in percent, rounded up.
fn percent(chance: f64, count: usize) -> String {
    // What the floating point adds to a whole tenth is no reason to round up.
    let tenths = chance.powi(count.min(100_000) as i32) * 1000.0 - 1e-9;
    format!("{:.1} %", tenths.ceil().max(1.0) / 10.0)
}

#[cfg(test)]
mod tests {
    use super::{challenges, percent, positions, worth};
    use crate::shape::Shape;
    use dequmlo::Widths;

    fn shape() -> Shape {
        Shape {
            n: 6,
            k: 2,
            domain: Vec::new(),
            widths: Widths::Present,
            key: None,
        }
    }

    #[test]
    fn positions_are_as_many_as_asked_for_each_once_and_inside() {
        for count in [0, 1, 40, 255, 256, 1000] {
            let drawn = positions(&shape(), count).unwrap();
            assert_eq!(drawn.len(), count.min(256));
            assert!(drawn.windows(2).all(|pair| pair[0] < pair[1]));
            assert!(drawn.iter().all(|position| *position < 256));
        }
    }

    /// Each bit of 64 draws is 0 in one and 1 in another: all but one time in 10^16.
    #[test]
    fn every_bit_is_drawn() {
        let words: Vec<u128> = (0..11)
            .flat_map(|_| challenges(&shape()).unwrap())
            .map(|word| word.0)
            .collect();
        assert_eq!(words.len(), 66);
        assert_eq!(words.iter().fold(0, |all, word| all | word), u128::MAX);
        assert_eq!(words.iter().fold(u128::MAX, |all, word| all & word), 0);
        let drawn = (0..64).map(|_| positions(&shape(), 1).unwrap()[0]);
        let (any, all) = drawn.fold((0, 255), |(any, all), p| (any | p, all & p));
        assert_eq!((any, all), (255, 0));
    }

    #[test]
    fn a_chance_is_never_said_to_be_smaller_than_it_is() {
        assert_eq!(percent(0.9, 40), "1.5 %");
        assert_eq!(percent(0.99, 40), "66.9 %");
        assert_eq!(percent(0.9, 14), "22.9 %");
        assert_eq!(percent(0.9, 3), "72.9 %");
        assert_eq!(percent(0.9, 1_000_000), "0.1 %");
        assert!(worth(40, &shape()).contains("one place looked at, of 256"));
        assert_eq!(
            worth(256, &shape()),
            "all 256 places of the deposit are looked at"
        );
    }
}
