//! `seal show`: which bytes of the file an opening has, as text and as hexadecimal digits. It checks nothing.

use crate::folder::{Kind, SUMMARY};
use crate::format::all_known;
use crate::hex;
use crate::json::Json;
use crate::key;
use crate::lines::{items, most_bytes};
use crate::manifest::shown;
use crate::opened::{as_digits, as_text, Opened};
use crate::opening::{record_name, record_position, ROOTS};
use crate::options::Options;
use crate::outcome::{Failure, Outcome, Verdict};
use crate::part::{unchecked_manifest, Part};
use crate::reading::{inside, listed, reason, text_inside, unreadable};
use crate::shape::{Shape, PARAMETERS};
use crate::shown::some_of;
use dequmlo::Root;
use std::path::Path;

pub const TAKEN: [&str; 1] = ["--json"];

/// The most files that a folder is looked through for.
const MOST_FILES: usize = 100_000;

/// The most bytes of a summary that are read for its first line.
const FIRST_LINE: usize = 4096;

const NOT_CHECKED: &str =
    "nothing here is checked: `seal check` says whether it is what was deposited";

pub fn run(options: &Options) -> Result<Outcome, Failure> {
    options.expect(1, "one OPENING", &TAKEN)?;
    let folder = &options.operands[0];
    if !folder.is_dir() {
        return Err(Failure(format!(
            "there is no opening {}: give the folder that `seal open` wrote",
            folder.display()
        )));
    }
    all_known(folder, &[PARAMETERS])?;
    let parameters = Shape::read(folder)?;
    let summary = first_line(folder);
    let parts = parts(folder, parameters.shape.n, summary.as_deref());
    let part = match parts.as_deref() {
        Some([part]) => Some(part),
        _ => None,
    };
    let records: Vec<(usize, Option<Opened>)> = positions(folder)?
        .into_iter()
        .map(|p| {
            let bytes = inside(folder, &record_name(p), parameters.sizes.query_bytes);
            let opened = bytes
                .ok()
                .and_then(|bytes| Opened::of(parameters.shape.n, p, &bytes.into()))
                .map(|opened| match part {
                    Some(part) => part.placed(opened),
                    None => opened,
                });
            (p, opened)
        })
        .collect();
    let length = records
        .iter()
        .find_map(|(_, opened)| opened.as_ref()?.length());
    let sentence = format!(
        "{} shows {} places; {NOT_CHECKED}",
        folder.display(),
        records.len()
    );
    let lines = records
        .iter()
        .flat_map(|(p, opened)| told(*p, opened.as_ref(), length));
    let places = records
        .iter()
        .map(|(p, opened)| json(*p, opened.as_ref(), length));
    let shape = &parameters.shape;
    let made = shape.key.map(|value| {
        format!(
            "the opening says that it was made {}",
            key::told(Some(value))
        )
    });
    let outcome = Outcome::new(Verdict::Done, sentence)
        .lines(summary.map(|line| format!("the holder's summary: {}", as_text(line.as_bytes()))))
        .say()
        .lines(made)
        .lines(lines)
        .notes(parts.as_deref().map(told_parts))
        .found(
            "file",
            part.map_or(Json::Null, |part| Json::text(shown(&part.path))),
        )
        .found("widths", Json::text(shape.widths))
        .found("places", Json::List(places.collect()));
    Ok(key::found(outcome, shape.key))
}

/// The positions that the opening has records for, rising.
fn positions(folder: &Path) -> Result<Vec<usize>, Failure> {
    let names = listed(folder, MOST_FILES)
        .map_err(|e| unreadable(folder, reason(&e)))?
        .ok_or_else(|| unreadable(folder, format!("it holds more than {MOST_FILES} files")))?;
    let mut positions: Vec<usize> = names
        .iter()
        .filter_map(|(name, _)| record_position(name.to_str()?))
        .collect();
    positions.sort_unstable();
    Ok(positions)
}

/// What the opening's summary begins with: it names the file.
fn first_line(folder: &Path) -> Option<String> {
    let bytes = inside(folder, SUMMARY, FIRST_LINE).ok()?;
    let line = bytes.split(|b| *b == b'\n').next()?;
    Some(String::from_utf8_lossy(line).into())
}

/// The parts of a project of which it may be an opening, by the manifest in it and the root that it was made for; where several have the same bytes, the one that
/// the summary names, if it names one. None where there is no manifest.
fn parts(folder: &Path, n: usize, summary: Option<&str>) -> Option<Vec<Part>> {
    let manifest = unchecked_manifest(folder)?;
    let roots = text_inside(folder, ROOTS, most_bytes(n + 1, 64)).ok()?;
    let roots: Vec<Root> = items(&folder.join(ROOTS), &roots).ok()?;
    let mut found = Part::all_of(&manifest, *roots.first()?, n);
    let is_named = |part: &Part| {
        let line = format!("{} {}.", Kind::Opening.heading(), part.name());
        Some(&line[..]) == summary
    };
    if found.iter().any(is_named) {
        found.retain(is_named);
    }
    Some(found)
}

/// What is said of the offsets in an opening of a project.
fn told_parts(parts: &[Part]) -> String {
    let names: Vec<String> = parts.iter().map(Part::name).collect();
    match &names[..] {
        [name] => format!(
            "by its manifest this is an opening of the file {name}, and the offsets are the file's"
        ),
        [] => "this is an opening of a project, but its manifest names no part for which it was made: the offsets are counted from the start of what was opened"
            .into(),
        names => format!(
            "this is an opening of a project, in which {} parts have the same bytes: {}. The offsets are counted from the start of the part",
            names.len(),
            some_of(names)
        ),
    }
}

fn told(position: usize, opened: Option<&Opened>, length: Option<u128>) -> Vec<String> {
    let opened = match opened {
        Some(opened) => opened,
        None => {
            return vec![format!(
                "position {position}: its file is no record of this opening's n and k"
            )]
        }
    };
    let (offset, bytes) = opened.bytes(length);
    let mut lines = vec![format!("position {position}: {}", opened.sentence(length))];
    if !bytes.is_empty() {
        lines.push(format!("  as text: {}", as_text(&bytes)));
        lines.extend(
            as_digits(offset, &bytes)
                .iter()
                .map(|line| format!("  {line}")),
        );
    }
    lines
}

fn json(position: usize, opened: Option<&Opened>, length: Option<u128>) -> Json {
    let mut fields = vec![("position", Json::number(position))];
    if let Some(opened) = opened {
        let (offset, bytes) = opened.bytes(length);
        fields.extend([
            (
                "offset",
                if bytes.is_empty() {
                    Json::Null
                } else {
                    Json::number(offset)
                },
            ),
            ("bytes", Json::text(hex::write(&bytes))),
            ("text", Json::text(as_text(&bytes))),
            ("sentence", Json::text(opened.sentence(length))),
        ]);
    }
    Json::Object(fields)
}
