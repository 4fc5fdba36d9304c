//! How words, bytes, digests and numbers are written in requests and answers.
//!
//! Numbers are decimal. Bytes, digests and domains are pieces joined by commas:
//! hexadecimal digits, two a byte, and `x` and a count after them for as many times;
//! `~`, a kind, a stream's number, `x` and a count for what is drawn (`stream`);
//! `@`, a place, `+` and a length for bytes that an earlier line keeps; `%` and a
//! length for bytes i modulo 251. A list of words is written alike: digits are a
//! word, the highest first. In a list of numbers `x` and a count has one stand for as
//! many. A lone `-` is nothing.

use crate::stream::Stream;
use oracle::{hash, Digest, Word};
use std::fmt::Write;

/// Why a request cannot be read.
pub type Bad = String;

/// The arguments of a request that are still to be read, and the bytes that earlier lines keep.
pub struct Args<'a> {
    rest: std::str::SplitWhitespace<'a>,
    store: &'a [u8],
}

impl<'a> Args<'a> {
    pub fn new(text: &'a str, store: &'a [u8]) -> Self {
        Args {
            rest: text.split_whitespace(),
            store,
        }
    }

    fn next(&mut self, what: &str) -> Result<&'a str, Bad> {
        self.rest.next().ok_or(format!("{what} is missing"))
    }

    /// Nothing is left over.
    pub fn end(mut self) -> Result<(), Bad> {
        match self.rest.next() {
            Some(extra) => Err(format!("one argument too many: {extra}")),
            None => Ok(()),
        }
    }

    pub fn number(&mut self, what: &str) -> Result<usize, Bad> {
        read_number(self.next(what)?)
    }

    /// How long an output is: the Rust makes its own.
    pub fn output(&mut self) -> Result<usize, Bad> {
        self.number("the output's length")
    }

    /// Numbers joined by commas.
    pub fn numbers(&mut self, what: &str) -> Result<Vec<usize>, Bad> {
        match self.next(what)? {
            "-" => Ok(Vec::new()),
            text => {
                let runs: Result<Vec<_>, Bad> = text.split(',').map(read_run).collect();
                Ok(runs?.concat())
            }
        }
    }

    pub fn word(&mut self, what: &str) -> Result<Word, Bad> {
        match self.words(what)?[..] {
            [word] => Ok(word),
            _ => Err(format!("{what} is not one word")),
        }
    }

    pub fn words(&mut self, what: &str) -> Result<Vec<Word>, Bad> {
        let bytes = self.read(what, read_word)?;
        if bytes.len() % 16 != 0 {
            return Err(format!("{what} ends with half of a word"));
        }
        let word = |chunk: &[u8]| Word(u128::from_le_bytes(chunk.try_into().expect("16 bytes")));
        Ok(bytes.chunks_exact(16).map(word).collect())
    }

    /// A list of just N words.
    pub fn array<const N: usize>(&mut self, what: &str) -> Result<[Word; N], Bad> {
        let words = self.words(what)?;
        let length = words.len();
        words
            .try_into()
            .map_err(|_| format!("{what} has {length} words, not {N}"))
    }

    pub fn bytes(&mut self, what: &str) -> Result<Vec<u8>, Bad> {
        self.read(what, read_pairs)
    }

    /// Every argument that is left, each as bytes.
    pub fn all_bytes(&mut self) -> Result<Vec<Vec<u8>>, Bad> {
        let rest: Vec<&str> = self.rest.by_ref().collect();
        rest.into_iter()
            .map(|text| argument(text, self.store, read_pairs))
            .collect()
    }

    fn read(&mut self, what: &str, digits: Digits) -> Result<Vec<u8>, Bad> {
        argument(self.next(what)?, self.store, digits)
    }

    /// A domain: the Rust takes no bytes that are not UTF-8.
    pub fn domain(&mut self) -> Result<String, Bad> {
        String::from_utf8(self.bytes("domain")?).map_err(|_| "the domain is not UTF-8".into())
    }

    pub fn digests(&mut self, what: &str) -> Result<Vec<Digest>, Bad> {
        let bytes = self.bytes(what)?;
        if bytes.len() % 32 != 0 {
            return Err(format!("{what}: {} bytes are no digests", bytes.len()));
        }
        let digest = |chunk: &[u8]| chunk.try_into().expect("32 bytes");
        Ok(bytes.chunks_exact(32).map(digest).collect())
    }

    pub fn digest(&mut self, what: &str) -> Result<Digest, Bad> {
        match self.digests(what)?[..] {
            [digest] => Ok(digest),
            _ => Err(format!("{what} is not one digest")),
        }
    }
}

/// How digits are read, as bytes.
type Digits = fn(&str) -> Result<Vec<u8>, Bad>;

/// What an argument stands for.
fn argument(text: &str, store: &[u8], digits: Digits) -> Result<Vec<u8>, Bad> {
    if text == "-" {
        return Ok(Vec::new());
    }
    let pieces: Result<Vec<_>, Bad> = text.split(',').map(|p| piece(p, store, digits)).collect();
    Ok(pieces?.concat())
}

fn piece(text: &str, store: &[u8], digits: Digits) -> Result<Vec<u8>, Bad> {
    let pair = |rest: &str, by: char| -> Result<(usize, usize), Bad> {
        let (first, second) = rest.split_once(by).ok_or(format!("no {by} in {text}"))?;
        Ok((read_number(first)?, read_number(second)?))
    };
    if let Some(rest) = text.strip_prefix('~') {
        let kind = rest.get(..1).ok_or("no kind is drawn")?;
        let (stream, count) = pair(&rest[1..], 'x')?;
        return drawn(kind, &Stream(stream as u64), count);
    }
    if let Some(rest) = text.strip_prefix('@') {
        let (start, size) = pair(rest, '+')?;
        let part = store.get(start..start + size);
        return Ok(part.ok_or(format!("{text} is not kept"))?.to_vec());
    }
    if let Some(rest) = text.strip_prefix('%') {
        return Ok((0..read_number(rest)?).map(|i| (i % 251) as u8).collect());
    }
    match text.split_once('x') {
        Some((once, times)) => Ok(digits(once)?.repeat(read_number(times)?)),
        None => digits(text),
    }
}

fn drawn(kind: &str, stream: &Stream, count: usize) -> Result<Vec<u8>, Bad> {
    match kind {
        "w" => Ok(word_bytes(&stream.words(count))),
        "b" => Ok(stream.bytes(count)),
        "i" => Ok(stream.bits(count)),
        "t" => Ok(stream.text(count).into_bytes()),
        _ => Err(format!("no kind {kind} is drawn")),
    }
}

/// The bytes that a line `= ..` has earlier lines' bytes kept with.
pub fn keep(text: &str, store: &mut Vec<u8>) -> Result<(), Bad> {
    let bytes = argument(text.trim(), store, read_pairs)?;
    store.extend(bytes);
    Ok(())
}

fn read_number(text: &str) -> Result<usize, Bad> {
    text.parse().map_err(|_| format!("no number: {text}"))
}

/// A number, once or so many times.
fn read_run(text: &str) -> Result<Vec<usize>, Bad> {
    let (number, times) = text.split_once('x').unwrap_or((text, "1"));
    Ok(vec![read_number(number)?; read_number(times)?])
}

fn read_word(text: &str) -> Result<Vec<u8>, Bad> {
    let number = u128::from_str_radix(text, 16);
    if text.len() > 32 || text.starts_with('+') {
        return Err(format!("a word is at most 32 hexadecimal digits: {text}"));
    }
    number
        .map(|word| word.to_le_bytes().to_vec())
        .map_err(|_| format!("a word is hexadecimal digits: {text}"))
}

fn read_pairs(text: &str) -> Result<Vec<u8>, Bad> {
    let digits: Option<Vec<u8>> = text
        .chars()
        .map(|c| c.to_digit(16).map(|digit| digit as u8))
        .collect();
    match digits {
        Some(digits) if digits.len() % 2 == 0 => Ok(digits
            .chunks_exact(2)
            .map(|pair| 16 * pair[0] + pair[1])
            .collect()),
        _ => Err(format!("bytes are pairs of hexadecimal digits: {text}")),
    }
}

pub fn word_bytes(words: &[Word]) -> Vec<u8> {
    words.iter().flat_map(|word| word.0.to_le_bytes()).collect()
}

// ---- whole

pub fn word(word: Word) -> String {
    format!("{:032x}", word.0)
}

pub fn words(list: &[Word]) -> String {
    if list.is_empty() {
        return "-".into();
    }
    let texts: Vec<String> = list.iter().map(|&w| word(w)).collect();
    texts.join(",")
}

pub fn bytes(bytes: &[u8]) -> String {
    if bytes.is_empty() {
        return "-".into();
    }
    bytes.iter().fold(String::new(), |mut text, byte| {
        write!(text, "{byte:02x}").expect("a string takes all");
        text
    })
}

pub fn digests(list: &[Digest]) -> String {
    bytes(&list.concat())
}

pub fn numbers(list: &[usize]) -> String {
    if list.is_empty() {
        return "-".into();
    }
    let texts: Vec<String> = list.iter().map(usize::to_string).collect();
    texts.join(",")
}

// ---- as an entry's output: past 64 bytes by the first 16 bytes of the digest

pub fn output(list: &[u8]) -> String {
    if list.len() > 64 {
        return format!("#{}", bytes(&hash::blake3(list)[..16]));
    }
    bytes(list)
}

pub fn output_words(list: &[Word]) -> String {
    if list.len() > 4 {
        return output(&word_bytes(list));
    }
    words(list)
}
