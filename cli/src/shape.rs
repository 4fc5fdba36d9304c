//! n, k, the base domain, the set of the groups' widths and the check value of the key, and `parameters.txt`, which has them in four or five lines behind its
//! format:
//!
//!     format 1
//!     n 12
//!     k 2
//!     domain magnetar/pcs/balanced     (or domain-hex and hexadecimal digits)
//!     widths present                   (or widths wide)
//!     key 0123456789abcdef0123456789abcdef
//!
//! `seal commit` writes all four, and the fifth under a key alone: without it there is no key. Programs before version 0.9.0 do not know it, and do not read
//! a text that has it. Before version 0.6.0 there was no line with the widths: a text without it is of the present set. A seal that others
//! wrote may have neither of the two lines between: it names neither k nor a base domain.

use crate::format::{marked, Body, PROGRAM};
use crate::hex;
use crate::key::{told, CheckValue};
use crate::outcome::Failure;
use crate::reading::{shown_name, text_inside};
use dequmlo::{Parameters, Sizes, Widths};
use std::ffi::OsStr;
use std::path::Path;

pub const PARAMETERS: &str = "parameters.txt";

/// More than five lines with a domain of 200 bytes in hexadecimal digits can have.
const MOST_BYTES: usize = 1024;

#[derive(Clone, Debug, PartialEq, Eq)]
pub struct Shape {
    pub n: usize,
    pub k: usize,
    pub domain: Vec<u8>,
    pub widths: Widths,
    /// The check value of the key that its trees are made under, if they are made under one.
    pub key: Option<CheckValue>,
}

/// What a folder's `parameters.txt` says.
pub struct Read {
    pub shape: Shape,
    /// Whether the text names k and the base domain.
    pub named: bool,
    /// The sizes that it fixes.
    pub sizes: Sizes,
    /// The file's text as it was written.
    pub written: String,
    /// Whether blanks or line ends were passed over.
    pub untidy: bool,
}

impl Read {
    /// Where the text has the line n alone, k and the base domain are those of `unnamed`, if there are any.
    fn of(folder: &Path, unnamed: Option<Parameters>) -> Result<Read, Failure> {
        let path = folder.join(PARAMETERS);
        let text = text_inside(folder, PARAMETERS, MOST_BYTES)?;
        let body = Body::of(&path, &text)?;
        let said = Said::of(body.text).map_err(|name| {
            Failure(format!(
                "{} names the set of widths `{}`, and this program, {PROGRAM}, knows `present` and `wide` alone; a newer program may know it",
                path.display(),
                shown_name(OsStr::new(name))
            ))
        })?;
        let whole = said.shape();
        let named = whole.is_some();
        let (lines, shape) = whole.or_else(|| said.of_n_alone(unnamed?)).ok_or_else(|| {
            Failure(format!(
                "{} does not have its lines n, k, domain, widths and perhaps key as `seal commit` writes them",
                path.display()
            ))
        })?;
        let sizes = Sizes::of(shape.widths, shape.n, shape.k)
            .map_err(|refusal| Failure(format!("{}: {refusal}", path.display())))?;
        let widths = said.widths.map_or(String::new(), widths_line);
        let key = said.key.map_or(String::new(), key_line);
        let written = body.written(&(lines + &widths + &key));
        Ok(Read {
            untidy: text != written,
            shape,
            named,
            sizes,
            written,
        })
    }
}

impl Shape {
    /// The shape that an opening or a request names.
    pub fn read(folder: &Path) -> Result<Read, Failure> {
        Read::of(folder, None)
    }

    /// The shape of a seal. One that names neither k nor a base domain has those of a seal that names no profile, older than version 0.4.0 or not.
    pub fn of_seal(folder: &Path, older: bool) -> Result<Read, Failure> {
        Read::of(folder, Some(Parameters::unnamed(older)))
    }

    /// The bytes of `parameters.txt`.
    pub fn file(&self) -> Vec<u8> {
        marked(&self.text()).into_bytes()
    }

    fn text(&self) -> String {
        let key = self.key.map_or(String::new(), key_line);
        format!("{}{}{key}", self.without_widths(), widths_line(self.widths))
    }

    /// The lines n, k and domain.
    fn without_widths(&self) -> String {
        let domain = if plain(&self.domain) {
            format!("domain {}", String::from_utf8_lossy(&self.domain))
        } else {
            format!("domain-hex {}", hex::write(&self.domain))
        };
        format!("n {}\nk {}\n{domain}\n", self.n, self.k)
    }

    pub fn shown_domain(&self) -> String {
        if plain(&self.domain) {
            format!("\"{}\"", String::from_utf8_lossy(&self.domain))
        } else {
            format!("of the bytes {}", hex::write(&self.domain))
        }
    }

    /// A line for people about the key; nothing where there is none.
    pub fn key_sentence(&self) -> String {
        let line = |value| format!("Made {}.\n", told(Some(value)));
        self.key.map_or(String::new(), line)
    }

    /// The positions of the codeword: those below this number.
    pub fn positions(&self) -> usize {
        1 << (self.n + self.k)
    }

    /// How many positions a full check asks for: the profile's number, or 40 where the parameters are no profile's, and all where there are
    /// fewer.
    pub fn queries(&self) -> usize {
        self.profile()
            .map_or(40, |(_, queries)| queries)
            .min(self.positions())
    }

    /// The profile that has this k and base domain, with its number of queries.
    pub fn profile(&self) -> Option<(&'static str, usize)> {
        Parameters::NAMES.iter().find_map(|name| {
            let p = Parameters::named(name)?;
            (p.k == self.k && p.domain == self.domain).then_some((*name, p.queries))
        })
    }
}

/// The lines of a text, but for blanks and carriage returns at their ends and empty lines after the last.
struct Said<'a> {
    /// Those before the widths.
    lines: Vec<&'a str>,
    /// The set that the line behind these names, where there is such a line.
    widths: Option<Widths>,
    /// The check value in the last line, where there is such a line.
    key: Option<CheckValue>,
}

impl<'a> Said<'a> {
    /// The name of a set of widths where there is none of this name.
    fn of(text: &'a str) -> Result<Said<'a>, &'a str> {
        let mut lines: Vec<&str> = text.trim_end().lines().map(str::trim_end).collect();
        let value = lines.last().and_then(|last| last.strip_prefix("key "));
        let key = value.and_then(CheckValue::of_text);
        if key.is_some() {
            lines.pop();
        }
        let named = lines.last().and_then(|last| last.strip_prefix("widths "));
        let widths = named
            .map(|name| name.parse().map_err(|_| name))
            .transpose()?;
        if widths.is_some() {
            lines.pop();
        }
        Ok(Said { lines, widths, key })
    }

    /// The shape where the text names k and the base domain, and the lines before the widths as they are written.
    fn shape(&self) -> Option<(String, Shape)> {
        let (n, k, last) = match self.lines[..] {
            [n, k, last] => (n, k, last),
            _ => return None,
        };
        let domain = match last.strip_prefix("domain ") {
            Some(text) => text.as_bytes().to_vec(),
            None => hex::read(last.strip_prefix("domain-hex")?.trim_start())?,
        };
        let shape = Shape {
            n: n.strip_prefix("n ")?.parse().ok()?,
            k: k.strip_prefix("k ")?.parse().ok()?,
            domain,
            widths: self.widths.unwrap_or_default(),
            key: self.key,
        };
        self.as_written(shape.without_widths(), shape)
    }

    /// The same where the line n is alone, under these parameters.
    fn of_n_alone(&self, Parameters { k, domain, .. }: Parameters) -> Option<(String, Shape)> {
        let n = self.lines.first()?.strip_prefix("n ")?.parse().ok()?;
        let shape = Shape {
            n,
            k,
            domain,
            widths: self.widths.unwrap_or_default(),
            key: self.key,
        };
        self.as_written(format!("n {n}\n"), shape)
    }

    /// A text and its shape, where the lines before the widths are those of the text.
    fn as_written(&self, text: String, shape: Shape) -> Option<(String, Shape)> {
        let lines = self.lines.iter().copied();
        let same = text.lines().map(str::trim_end).eq(lines);
        same.then_some((text, shape))
    }
}

fn widths_line(widths: Widths) -> String {
    format!("widths {widths}\n")
}

fn key_line(value: CheckValue) -> String {
    format!("key {value}\n")
}

/// A domain that a line of text can show: at least one graphic character, no blank.
fn plain(domain: &[u8]) -> bool {
    !domain.is_empty() && domain.iter().all(u8::is_ascii_graphic)
}

#[cfg(test)]
mod tests {
    use super::{CheckValue, Said, Shape};
    use dequmlo::{Key, Parameters, Widths};

    fn shape(domain: &[u8], widths: Widths) -> Shape {
        Shape {
            n: 12,
            k: 2,
            domain: domain.to_vec(),
            widths,
            key: None,
        }
    }

    fn of_text(text: &str) -> Option<Shape> {
        Said::of(text).ok()?.shape().map(|(_, shape)| shape)
    }

    #[test]
    fn what_is_written_is_read() {
        for domain in [
            &b"magnetar/pcs/balanced"[..],
            &[],
            &[0, 10, 255],
            b"two words",
            b"widths",
        ] {
            for widths in Widths::ALL {
                let shape = shape(domain, widths);
                assert_eq!(of_text(&shape.text()), Some(shape));
            }
        }
        let text = shape(b"d", Widths::Wide).text();
        assert_eq!(text, "n 12\nk 2\ndomain d\nwidths wide\n");
    }

    /// The line of the key is the last, under either set and where no set is named; without it there is no key.
    #[test]
    fn a_key_is_said_in_one_line_more() {
        let key = CheckValue::of(&Key::new([7; 32]));
        for widths in Widths::ALL {
            let without = shape(b"d", widths);
            let shape = Shape {
                key: Some(key),
                ..without.clone()
            };
            let text = shape.text();
            assert_eq!(text, format!("{}key {key}\n", without.text()));
            assert_eq!(of_text(&text), Some(shape.clone()));
            assert_ne!(shape, without);
        }
        let text = format!("n 12\nk 2\ndomain d\nkey {key}\n");
        assert_eq!(of_text(&text).unwrap().key, Some(key));
        for text in [
            format!("n 12\nk 2\ndomain d\nkey {key}\nwidths wide\n"),
            format!("n 12\nk 2\ndomain d\nwidths wide\nkey {key}\nkey {key}\n"),
            format!("n 12\nk 2\ndomain d\nwidths wide\nkey {key}0\n"),
            "n 12\nk 2\ndomain d\nwidths wide\nkey\n".into(),
            format!("key {key}\nn 12\nk 2\ndomain d\nwidths wide\n"),
            format!("n 12\nk 2\nkey {key}\n"),
        ] {
            assert_eq!(of_text(&text), None, "{text:?}");
        }
        // Of a seal that names neither k nor a base domain too.
        let unnamed = format!("n 12\nkey {key}\n");
        let said = Said::of(&unnamed).unwrap();
        let (_, shape) = said.of_n_alone(Parameters::default()).unwrap();
        assert_eq!((shape.n, shape.key), (12, Some(key)));
    }

    /// Before version 0.6.0 no set was named.
    #[test]
    fn a_text_that_names_no_set_is_of_the_present_one() {
        for domain in [&b"d"[..], &[]] {
            let shape = shape(domain, Widths::Present);
            assert_eq!(of_text(&shape.without_widths()), Some(shape));
        }
    }

    #[test]
    fn another_set_is_named() {
        for name in ["broad", "Wide", " wide", "wide present", "1"] {
            let text = format!("n 12\nk 2\ndomain d\nwidths {name}\n");
            assert_eq!(Said::of(&text).err(), Some(name), "{text:?}");
        }
    }

    #[test]
    fn blanks_and_line_ends_are_no_part_of_it() {
        for text in [
            "n 12\r\nk 2\r\ndomain d\r\nwidths wide\r\n",
            "n 12 \nk 2\ndomain d  \nwidths wide \n\n",
            "n 12\nk 2\ndomain d\nwidths wide",
        ] {
            assert_eq!(of_text(text), Some(shape(b"d", Widths::Wide)), "{text:?}");
        }
        for text in [
            "n 12\nk 2\ndomain-hex\n",
            "n 12\nk 2\ndomain-hex\nwidths present\n",
        ] {
            assert_eq!(of_text(text), Some(shape(b"", Widths::Present)));
        }
    }

    #[test]
    fn another_text_is_none() {
        for text in [
            "n 1\nk 2\n",
            "n 1\nk 2\nwidths wide\n",
            "n 1\nk 2\ndomain d\nmore\n",
            "n 1\nk 2\ndomain d\nwidths wide\nmore\n",
            "n 1\nk 2\ndomain d\nwidths wide\nwidths wide\n",
            "n 1\nk 2\ndomain d\nwidths\n",
            "widths wide\nn 1\nk 2\ndomain d\n",
            "n +1\nk 2\ndomain d\n",
            "n 01\nk 2\ndomain d\n",
            "n 1\nk 2\ndomain two words\n",
            "n 1\nk 2\ndomain-hex 64\n",
            " n 1\nk 2\ndomain d\n",
        ] {
            assert_eq!(of_text(text), None, "{text:?}");
        }
    }

    #[test]
    fn n_alone_has_the_parameters_that_are_given() {
        let read = |text, parameters| Said::of(text).ok()?.of_n_alone(parameters);
        for (text, widths) in [
            ("n 12\n", Widths::Present),
            ("n 12", Widths::Present),
            ("n 12 \r\n\n", Widths::Present),
            ("n 12\nwidths wide\n", Widths::Wide),
        ] {
            let (written, shape) = read(text, Parameters::unnamed(true)).unwrap();
            assert_eq!((&*written, shape.n, shape.k), ("n 12\n", 12, 1), "{text:?}");
            assert_eq!(shape.profile().unwrap().0, "firstdefault");
            assert_eq!(shape.widths, widths, "{text:?}");
            assert_eq!(of_text(text), None);
        }
        for text in [
            "",
            "n 012\n",
            "n +1\n",
            "n 1\nk 2\n",
            "n 1\ndomain d\n",
            "k 1\n",
            "n \n",
            "widths wide\n",
        ] {
            assert!(read(text, Parameters::default()).is_none(), "{text:?}");
        }
    }

    /// The numbers of the default before version 0.4.0 are those of a profile, and those of the default now of another; a profile says nothing of widths.
    #[test]
    fn the_profile_is_found_by_k_and_domain() {
        for (k, name) in [(1, Some("firstdefault")), (2, Some("default")), (3, None)] {
            for widths in Widths::ALL {
                let shape = Shape {
                    k,
                    ..shape(b"magnetar/pcs/default", widths)
                };
                assert_eq!(shape.profile().map(|(name, _)| name), name);
            }
        }
    }
}
