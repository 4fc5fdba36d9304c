//! A picture of the levels of a deposit and of the paths that were opened through them, as SVG: a bar for each level, half as many words as the
//! one above it, and a line for each position from level 0 to the last. It says everything without a colour: a whole line and a dot are
//! accepted, a broken line and a cross are refused, and the cross stands where the check failed. Where no roots were kept there are dots on level 0 alone.

use crate::found::{Answer, Item};
use crate::shape::Shape;
use std::fmt::Write;

const WIDTH: f64 = 720.0;
/// Where the bars are: between the names of the levels and the edge.
const LEFT: f64 = 150.0;
const RIGHT: f64 = 10.0;
const ROW: f64 = 24.0;
const BAR: f64 = 10.0;
/// The last level's bar, as a part of the first one's.
const NARROWEST: f64 = 0.12;

/// The most paths that are drawn; more would hide each other.
const MOST_PATHS: usize = 64;

/// The picture, and a sentence below it; under roots that were kept, or not.
pub fn picture(shape: &Shape, items: &[(Item, Answer)], kept: bool) -> (String, String) {
    let paths: Vec<(usize, &Answer)> = items
        .iter()
        .filter_map(|(item, answer)| match item {
            // A holder can name a record for a position that no level has.
            Item::Record(position) if *position < shape.positions() => Some((*position, answer)),
            _ => None,
        })
        .collect();
    let height = ROW * (shape.n as f64 + 1.0) + 10.0;
    let mut svg = format!(
        "<svg viewBox=\"0 0 {WIDTH} {height}\" role=\"img\" aria-label=\"The levels of the deposit and the paths that were opened\" \
         font-family=\"sans-serif\" font-size=\"11\" fill=\"#000\">\n"
    );
    for level in 0..=shape.n {
        svg.push_str(&bar(shape, level));
    }
    // What was refused is drawn last, above the rest, and none of it is left out for what was accepted.
    let mut drawn: Vec<&(usize, &Answer)> = paths.iter().collect();
    drawn.sort_by_key(|(_, answer)| matches!(answer, Answer::Accepted(_)));
    for (position, answer) in drawn.iter().take(MOST_PATHS).rev() {
        svg.push_str(&path(shape, *position, answer, kept));
    }
    svg.push_str("</svg>\n");
    (svg, caption(paths.len(), kept))
}

fn caption(paths: usize, kept: bool) -> String {
    let dots = if kept {
        "A whole line with dots is accepted"
    } else {
        "No roots were kept, so a whole line is accepted at its dot on level 0 alone"
    };
    let drawn = if paths > MOST_PATHS {
        format!(" {MOST_PATHS} of {paths} positions are drawn, those that were refused first.")
    } else {
        String::new()
    };
    format!(
        "Each bar is a level: level 0 is the deposit, and each further one is half as long, made from the one before by a challenge of the checker. A line \
         is what a record opens, from its position in level 0 to the last level. {dots}; a broken line is refused, and a \
         cross stands at the level where the check failed.{drawn}"
    )
}

fn y(level: usize) -> f64 {
    ROW * level as f64 + 5.0 + BAR / 2.0
}

/// How long a level's bar is: the first fills the room, the last is the narrowest.
fn length(shape: &Shape, level: usize) -> f64 {
    let part = 1.0 - (1.0 - NARROWEST) * level as f64 / shape.n as f64;
    (WIDTH - LEFT - RIGHT) * part
}

/// Where a bar begins; all of them have one middle.
fn start(shape: &Shape, level: usize) -> f64 {
    LEFT + (WIDTH - LEFT - RIGHT - length(shape, level)) / 2.0
}

/// Where the place that a position leads to stands on a level.
fn x(shape: &Shape, level: usize, position: usize) -> f64 {
    let places = 1usize << (shape.n + shape.k - level);
    let part = ((position >> level) as f64 + 0.5) / places as f64;
    start(shape, level) + length(shape, level) * part
}

fn bar(shape: &Shape, level: usize) -> String {
    let top = y(level) - BAR / 2.0;
    let words = 1usize << (shape.n + shape.k - level);
    let noun = if words == 1 { "word" } else { "words" };
    format!(
        "<rect x=\"{:.1}\" y=\"{top:.1}\" width=\"{:.1}\" height=\"{BAR}\" fill=\"#fff\" stroke=\"#000\" stroke-width=\"0.7\"/>\
         <text x=\"0\" y=\"{:.1}\">level {level}: {words} {noun}</text>\n",
        start(shape, level),
        length(shape, level),
        top + BAR - 1.0
    )
}

fn path(shape: &Shape, position: usize, answer: &Answer, kept: bool) -> String {
    let accepted = matches!(answer, Answer::Accepted(_));
    let said = match (accepted, kept) {
        (true, true) => "accepted",
        (true, false) => "accepted on level 0",
        (false, _) => "refused",
    };
    let points: Vec<String> = (0..=shape.n)
        .map(|level| format!("{:.1},{:.1}", x(shape, level, position), y(level)))
        .collect();
    let style = if accepted {
        "stroke-width=\"0.8\""
    } else {
        "stroke-width=\"1.6\" stroke-dasharray=\"5 3\""
    };
    let mut drawn = format!(
        "<g><title>position {position}: {said}</title><polyline points=\"{}\" fill=\"none\" stroke=\"#000\" {style}/>",
        points.join(" ")
    );
    for level in (0..=shape.n).filter(|level| accepted && (kept || *level == 0)) {
        let _ = write!(
            drawn,
            "<circle cx=\"{:.1}\" cy=\"{:.1}\" r=\"2\"/>",
            x(shape, level, position),
            y(level)
        );
    }
    if let Some(level) = failed_at(answer) {
        drawn.push_str(&cross(x(shape, level, position), y(level)));
    }
    drawn.push_str("</g>\n");
    drawn
}

/// A cross, with white around it where lines run through it.
fn cross(x: f64, y: f64) -> String {
    let (left, right, top, bottom) = (x - 5.0, x + 5.0, y - 5.0, y + 5.0);
    let strokes = format!(
        "M{left:.1} {top:.1}L{right:.1} {bottom:.1}M{left:.1} {bottom:.1}L{right:.1} {top:.1}"
    );
    [("#fff", 7), ("#000", 3)]
        .iter()
        .map(|(colour, width)| {
            format!("<path d=\"{strokes}\" stroke=\"{colour}\" stroke-width=\"{width}\"/>")
        })
        .collect()
}

/// The level at which a check failed; level 0 where the record was refused as a whole.
fn failed_at(answer: &Answer) -> Option<usize> {
    match answer {
        Answer::Accepted(_) | Answer::Unkept => None,
        Answer::Refused(refusal) => Some(refusal.level.map_or(0, |level| level as usize)),
        Answer::Declined(_) => Some(0),
    }
}

#[cfg(test)]
mod tests {
    use super::{length, picture, start, x, y};
    use crate::found::{Answer, Item};
    use crate::shape::Shape;
    use dequmlo::{Refusal, Widths};

    fn shape(n: usize, k: usize) -> Shape {
        Shape {
            n,
            k,
            domain: Vec::new(),
            widths: Widths::Present,
            key: None,
        }
    }

    #[test]
    fn every_place_stands_on_its_level_s_bar() {
        for (n, k) in [(1, 0), (6, 1), (20, 4)] {
            let shape = shape(n, k);
            for level in 0..=n {
                let (from, to) = (
                    start(&shape, level),
                    start(&shape, level) + length(&shape, level),
                );
                for position in [0, 1, shape.positions() - 1] {
                    let x = x(&shape, level, position);
                    assert!(from < x && x < to && to <= 720.0 && from >= 150.0);
                }
            }
        }
    }

    #[test]
    fn an_accepted_path_has_dots_and_a_refused_one_a_cross_at_its_level() {
        let shape = shape(6, 1);
        let refusal = Refusal {
            number: 24,
            level: Some(3),
        };
        let items = [
            (Item::Record(7), Answer::Accepted(None)),
            (Item::Record(100), Answer::Refused(refusal)),
            (Item::Tail, Answer::Accepted(None)),
        ];
        let (svg, _) = picture(&shape, &items, true);
        assert_eq!(svg.matches("<rect").count(), 7);
        assert_eq!(svg.matches("<polyline").count(), 2);
        assert_eq!(svg.matches("<circle").count(), 7);
        assert_eq!(svg.matches("stroke-dasharray").count(), 1);
        let cross = format!(
            "<path d=\"M{:.1} {:.1}L",
            x(&shape, 3, 100) - 5.0,
            y(3) - 5.0
        );
        assert!(svg.contains(&cross), "{svg}");
    }

    #[test]
    fn without_roots_that_were_kept_there_are_dots_on_level_0_alone() {
        let items = [7, 100].map(|p| (Item::Record(p), Answer::Accepted(None)));
        let (svg, caption) = picture(&shape(6, 1), &items, false);
        assert_eq!(svg.matches("<circle").count(), 2);
        assert!(svg.contains("<title>position 7: accepted on level 0</title>"));
        assert!(caption.contains("on level 0 alone"), "{caption}");
    }

    #[test]
    fn more_paths_than_can_be_told_apart_are_not_drawn() {
        let answer = |p| match p {
            99 => Answer::Declined(String::new()),
            _ => Answer::Accepted(None),
        };
        let items: Vec<_> = (0..100).map(|p| (Item::Record(p), answer(p))).collect();
        let (svg, caption) = picture(&shape(6, 1), &items, true);
        assert_eq!(svg.matches("<polyline").count(), 64);
        assert!(caption.contains("64 of 100 positions are drawn, those that were refused first"));
        assert!(svg.contains("position 99: refused"));
    }
}
