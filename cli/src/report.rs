//! The report of a check: one page for the archive's file that needs nothing else, no script, no picture, no style from elsewhere. It can be
//! read in grey and printed on A4. Whatever others chose (names, texts, bytes) is escaped.

use crate::format::{FORMAT, PROGRAM};
use crate::found::{Answer, Extent, Found, Item, UNKEPT_TAIL};
use crate::hex;
use crate::key::told;
use crate::opened::as_text;
use crate::outcome::Verdict;
use crate::picture::picture;
use crate::seal::Seal;
use dequmlo::{Root, Word};

/// What the report says beside what was found.
pub struct Subject<'a> {
    pub seal: &'a Seal,
    pub seal_name: String,
    pub opening_name: String,
    pub date: String,
    /// Who asked what and when, a line each.
    pub asked: Vec<String>,
    pub roots: &'a [Root],
    pub challenges: &'a [Word],
}

const STYLE: &str = "\
@page { size: A4; margin: 15mm }
body { font: 11pt/1.4 sans-serif; color: #000; background: #fff; max-width: 52em; margin: 1em auto; padding: 0 1em }
h1 { font-size: 1.5em; margin: 0 0 .5em } h2 { font-size: 1.15em; margin: 1.5em 0 .4em; break-after: avoid }
table { border-collapse: collapse; width: 100% }
th, td { border: 1px solid #666; padding: .25em .5em; text-align: left; vertical-align: top; overflow-wrap: anywhere }
th { background: #eee } tr { break-inside: avoid } thead { display: table-header-group }
code, pre { font-family: monospace; font-size: .92em; overflow-wrap: anywhere; white-space: pre-wrap }
.verdict { border: 2px solid #000; padding: .6em 1em; font-size: 1.1em } .verdict b { font-size: 1.3em; letter-spacing: .05em }
.no { border: 6px double #000 } .refused td { border-width: 2px; font-weight: bold } .ask { font-weight: normal }
svg { width: 100%; height: auto; break-inside: avoid } .place, .mark { white-space: nowrap; overflow-wrap: normal } .mark { font-weight: bold }
@media print { body { margin: 0; padding: 0 1mm; max-width: none; font-size: 9.5pt } }";

/// The page.
pub fn page(subject: &Subject, found: &Found, extent: &Extent) -> String {
    let (verdict, sentence) = found.verdict(extent);
    let title = format!("Check of {}", subject.seal_name);
    let (svg, caption) = picture(&subject.seal.shape, &found.items, extent.kept);
    let mut page = format!(
        "<!DOCTYPE html>\n<html lang=\"en\">\n<head>\n<meta charset=\"utf-8\">\n\
         <meta http-equiv=\"Content-Security-Policy\" content=\"default-src 'none'; style-src 'unsafe-inline'\">\n\
         <meta name=\"viewport\" content=\"width=device-width\">\n<title>{}</title>\n<style>\n{STYLE}\n</style>\n</head>\n<body>\n",
        escaped(&title)
    );
    page.push_str(&format!(
        "<h1>Check of the seal <bdi>{}</bdi></h1>\n",
        escaped(&subject.seal_name)
    ));
    page.push_str(&verdict_box(verdict, &sentence));
    let mut notes = found.notes_for(extent);
    notes.extend(unchecked(extent));
    let sections = [
        ("What was checked", facts(subject, found, extent)),
        ("Who asked what", list(&subject.asked)),
        ("Notes", list(&notes)),
        (
            "The levels, and the paths that were opened",
            format!("{svg}<p>{}</p>\n", escaped(&caption)),
        ),
        (
            "What was found, refused places first",
            places(found, extent.kept),
        ),
        ("Roots and challenges", levels(subject, extent)),
    ];
    for (heading, inside) in sections.iter().filter(|(_, inside)| !inside.is_empty()) {
        page.push_str(&format!("<h2>{heading}</h2>\n{inside}"));
    }
    page.push_str(&format!(
        "<p>Written by {PROGRAM}, file format {FORMAT}. The page shows what a check found; it is no seal and no record, and proves nothing by itself: \
         the check can be run again on the seal, the request and the opening.</p>\n</body>\n</html>\n"
    ));
    page
}

fn verdict_box(verdict: Verdict, sentence: &str) -> String {
    let (class, word) = match verdict {
        Verdict::Accepted => ("verdict", "✓ ACCEPTED"),
        Verdict::Refused => ("verdict no", "✗ REFUSED"),
        Verdict::PartlyAccepted => ("verdict no", "– PARTLY ACCEPTED"),
        Verdict::OwnQuestions | Verdict::NotAccepted | Verdict::Done | Verdict::CouldNotRun => {
            ("verdict no", "– NO ACCEPTANCE")
        }
    };
    format!(
        "<p class=\"{class}\"><b>{word}</b><br>{}</p>\n",
        escaped(sentence)
    )
}

/// What is said of the claim.
fn claim(found: &Found, extent: &Extent) -> String {
    match extent.claim {
        None => "it was not looked at".into(),
        Some(word) if found.has_a_tail() => format!("{word}, accepted"),
        Some(word) if extent.kept => format!("{word}, not accepted"),
        Some(word) => {
            format!("{word}, not accepted: no roots were kept before the positions were told")
        }
    }
}

/// Which roots are not the holder's word alone.
fn kept(subject: &Subject, extent: &Extent) -> String {
    let n = subject.seal.shape.n;
    if extent.kept {
        format!("those of levels 0 to {n}: the seal's, and those of levels 1 to {n}, which the checker kept before the positions were told")
    } else {
        format!("that of level 0 alone, the seal's; nobody kept those of levels 1 to {n} before the positions were told")
    }
}

fn facts(subject: &Subject, found: &Found, extent: &Extent) -> String {
    let shape = &subject.seal.shape;
    let profile = shape
        .profile()
        .map_or("none of the named ones".into(), |(name, _)| {
            name.to_string()
        });
    let summary = subject
        .seal
        .summary
        .clone()
        .unwrap_or_else(|| "the seal has none that is as it was written".into());
    let mut rows = vec![
        ("Seal", subject.seal_name.clone()),
        ("What the seal says", summary),
        ("Root", subject.seal.root.to_string()),
        ("Opening", subject.opening_name.clone()),
        ("Terminal claim", claim(found, extent)),
        ("Roots that were kept", kept(subject, extent)),
        ("Checked on", subject.date.clone()),
        (
            "Size",
            format!(
                "{} words (n = {}), in a code of {} places (k = {})",
                1usize << shape.n,
                shape.n,
                shape.positions(),
                shape.k
            ),
        ),
        (
            "Base domain",
            format!("{}; profile: {profile}", shape.shown_domain()),
        ),
        ("Widths", format!("the {} set", shape.widths)),
    ];
    rows.extend(shape.key.map(|value| {
        let said = format!(
            "the seal is keyed: it was made and checked {}",
            told(Some(value))
        );
        ("Key", said)
    }));
    let rows: String = rows
        .iter()
        .map(|(name, value)| {
            format!(
                "<tr><th scope=\"row\">{name}</th><td><bdi>{}</bdi></td></tr>\n",
                escaped(value)
            )
        })
        .collect();
    format!("<table>\n{rows}</table>\n")
}

/// A list of lines; nothing where there are none.
fn list(lines: &[String]) -> String {
    if lines.is_empty() {
        return String::new();
    }
    let items: String = lines
        .iter()
        .map(|line| format!("<li><bdi>{}</bdi></li>\n", escaped(line)))
        .collect();
    format!("<ul>\n{items}</ul>\n")
}

/// Every place with its verdict and sentence, those that were refused first.
fn places(found: &Found, kept: bool) -> String {
    let length = found.length();
    let (accepted, refused): (Vec<_>, Vec<_>) = found
        .items
        .iter()
        .partition(|(_, answer)| matches!(answer, Answer::Accepted(_)));
    let rows: String = refused
        .iter()
        .chain(&accepted)
        .map(|(item, answer)| row(*item, answer, length, kept))
        .collect();
    format!(
        "<table>\n<thead><tr><th scope=\"col\">place</th><th scope=\"col\">verdict</th><th scope=\"col\">what was found</th></tr></thead>\n\
         <tbody>\n{rows}</tbody>\n</table>\n"
    )
}

fn row(item: Item, answer: &Answer, length: Option<u128>, kept: bool) -> String {
    let accepted = match kept {
        true => "✓ accepted",
        false => "✓ accepted on level 0",
    };
    let (class, mark, said) = match answer {
        Answer::Accepted(Some(opened)) => {
            let (_, bytes) = opened.bytes(length);
            let text = if bytes.is_empty() {
                String::new()
            } else {
                format!("<br>{}", shown(&bytes))
            };
            let said = format!("it shows {}{text}", escaped(&opened.sentence(length)));
            ("accepted", accepted, said)
        }
        Answer::Accepted(None) => ("accepted", "✓ accepted", String::new()),
        Answer::Unkept => ("unkept", "– not accepted", escaped(UNKEPT_TAIL)),
        Answer::Refused(refusal) => {
            let said = format!(
                "{}<br><span class=\"ask\">{}</span>",
                escaped(&refusal.to_string()),
                escaped(refusal.ask())
            );
            ("refused", "✗ refused", said)
        }
        Answer::Declined(sentence) => ("refused", "✗ refused", escaped(sentence)),
    };
    format!(
        "<tr class=\"{class}\"><td class=\"place\">{}</td><td class=\"mark\">{mark}</td><td>{said}</td></tr>\n",
        item.name()
    )
}

/// Bytes as text, or as digits where they are none: one odd character in eight.
fn shown(bytes: &[u8]) -> String {
    let end = bytes
        .iter()
        .rposition(|b| *b != 0)
        .map_or(0, |last| last + 1);
    let text = String::from_utf8_lossy(&bytes[..end]);
    let is_odd = |c: &char| *c == '\u{fffd}' || c.is_control() && !c.is_whitespace();
    if 8 * text.chars().filter(is_odd).count() > text.chars().count() {
        format!("in hexadecimal digits: <code>{}</code>", hex::write(bytes))
    } else {
        format!("as text: <code>{}</code>", escaped(&as_text(bytes)))
    }
}

fn unchecked(extent: &Extent) -> Option<String> {
    let names = extent.unchecked;
    (!names.is_empty()).then(|| format!("Not checked: {}", names.join(", ")))
}

/// The root of each level with whose it is, and the challenge by which the next is made.
fn levels(subject: &Subject, extent: &Extent) -> String {
    let whose = |level: usize| match level {
        0 => "the seal's",
        _ if extent.kept => "kept",
        _ => "the opening's",
    };
    let rows: String = subject
        .roots
        .iter()
        .enumerate()
        .map(|(level, root)| {
            let challenge = subject.challenges.get(level).map_or(String::new(), Word::to_string);
            format!(
                "<tr><td>{level}</td><td class=\"place\">{}</td><td><code>{root}</code></td><td><code>{challenge}</code></td></tr>\n",
                escaped(whose(level))
            )
        })
        .collect();
    format!(
        "<table>\n<thead><tr><th scope=\"col\" class=\"place\">level</th><th scope=\"col\" class=\"place\">whose root</th><th scope=\"col\">root</th>\
         <th scope=\"col\">challenge to the next level</th></tr></thead>\n<tbody>\n{rows}</tbody>\n</table>\n"
    )
}

/// A text in which nothing is markup.
fn escaped(text: &str) -> String {
    let mut out = String::with_capacity(text.len());
    for c in text.chars() {
        match c {
            '&' => out.push_str("&amp;"),
            '<' => out.push_str("&lt;"),
            '>' => out.push_str("&gt;"),
            '"' => out.push_str("&quot;"),
            '\'' => out.push_str("&#39;"),
            c => out.push(c),
        }
    }
    out
}

#[cfg(test)]
mod tests {
    use super::{escaped, shown};

    #[test]
    fn text_is_shown_as_text_and_the_rest_in_digits() {
        assert_eq!(
            shown("план & разрез\n".as_bytes()),
            "as text: <code>план &amp; разрез\\n</code>"
        );
        assert_eq!(shown(&[0; 16]), "as text: <code>(16 bytes of zero)</code>");
        // A cut character at each end is still a text.
        let cut = "ж план и разрез ж".as_bytes();
        assert!(shown(&cut[1..cut.len() - 1]).starts_with("as text: "));
        assert_eq!(
            shown(&[0x89, 0xff, 1, 2]),
            "in hexadecimal digits: <code>89ff0102</code>"
        );
    }

    #[test]
    fn nothing_that_is_escaped_is_markup() {
        assert_eq!(
            escaped("<a href=\"x\">&'план"),
            "&lt;a href=&quot;x&quot;&gt;&amp;&#39;план"
        );
    }
}
