//! `seal commit`: a file's root and parameters, as a seal. A folder is a project, and a file that a deposit does not hold is one of one file (commit_folder.rs).

use crate::commands::commit_folder;
use crate::folder::Kind;
use crate::json::Json;
use crate::key::{self, CheckValue, Given};
use crate::manifest::counted;
use crate::options::Options;
use crate::outcome::{Failure, Outcome, Verdict};
use crate::progress::Progress;
use crate::reading::{lies_in, shown_path};
use crate::seal::Seal;
use crate::shape::Shape;
use crate::table::{read_table, room_to_commit, MOST_BYTES};
use crate::writing::{beside, Target};
use dequmlo::{Deposit, Parameters, Root, Widths};
use std::fs::{self, Metadata};
use std::path::Path;

pub const TAKEN: [&str; 9] = [
    "--profile",
    "--k",
    "--domain",
    "--widths",
    "--key-file",
    "--out",
    "--force",
    "--threads",
    "--json",
];

pub fn run(options: &Options) -> Result<Outcome, Failure> {
    options.expect(1, "one FILE or FOLDER", &TAKEN)?;
    let file = &options.operands[0];
    let threads = options.threads()?;
    let is_project = file.is_dir() || is_in_parts(file);
    if is_project {
        let ((k, domain), widths) = (parameters(options)?, widths(options)?);
        let given = named_key(options)?;
        return match file.is_dir() {
            true => commit_folder::run(options, threads, given, domain, widths, k),
            false => commit_folder::run_file(options, threads, given, domain, widths, k),
        };
    }
    let folder = options
        .path("--out")
        .unwrap_or_else(|| beside(file, ".seal"));
    let (target, mut notes) = Target::new(&folder, Kind::Seal, options.has("--force"))?;
    let ((k, domain), widths) = (parameters(options)?, widths(options)?);
    let given = named_key(options)?;
    let key = given.as_ref().map(|given| &given.key);
    let table = match read_table(file)? {
        Ok(table) => table,
        Err(sentence) => return Ok(Outcome::declined(sentence)),
    };
    let shape = Shape {
        n: table.words.len().trailing_zeros() as usize,
        k,
        domain,
        widths,
        key: key.map(CheckValue::of),
    };
    room_to_commit(&shape)?;
    let progress = Progress::start();
    let working = counted(threads.number(), "thread");
    progress.say(&format!(
        "committing {} words on {working} ..",
        table.words.len()
    ));
    let root = match Deposit::commit_on(threads, key, &shape.domain, widths, k, &table.words) {
        Ok(deposit) => deposit.root(),
        Err(refusal) => return Ok(Outcome::refused(&refusal)),
    };
    drop(progress);
    let files = Seal::files(&shape, &root, &shown_path(file), table.bytes);
    notes.extend(target.write(&files)?);
    Ok(told(&shape, &root, file, table.bytes, target.folder()).notes(notes))
}

/// Whether a file has more bytes than a deposit: then it is sealed in parts, as a project of one file.
fn is_in_parts(file: &Path) -> bool {
    let is_large = |found: Metadata| found.is_file() && found.len() > MOST_BYTES as u64;
    fs::metadata(file).map_or(false, is_large)
}

fn told(shape: &Shape, root: &Root, file: &Path, bytes: usize, folder: &Path) -> Outcome {
    let Shape { n, k, widths, .. } = shape;
    let sentence = format!(
        "sealed {}: {bytes} bytes as {} words (n = {n}, k = {k}, {widths} widths)",
        file.display(),
        1usize << n
    );
    let outcome = Outcome::new(Verdict::Done, sentence)
        .say()
        .lines([
            format!("root {root}"),
            format!(
                "the seal is in {}; the office keeps it, the holder keeps the file",
                folder.display()
            ),
        ])
        .lines(shape.key.map(told_key))
        .found("seal", Json::text(folder.display()))
        .found("root", Json::text(root))
        .found("n", Json::number(*n))
        .found("k", Json::number(*k))
        .found("widths", Json::text(widths))
        .found("bytes", Json::number(bytes));
    key::found(outcome, shape.key)
}

/// The key that the seal is made under, if one is named. Fails where its file lies in what is sealed, or is it: an opening would show it.
fn named_key(options: &Options) -> Result<Option<Given>, Failure> {
    let sealed = &options.operands[0];
    match Given::by(options)? {
        Some(given) if lies_in(given.path(), sealed) => Err(Failure(format!(
            "the key in {} lies in what is to be sealed, so that an opening would show it; keep it elsewhere",
            shown_path(given.path())
        ))),
        given => Ok(given),
    }
}

/// What is said of a seal under a key.
pub fn told_key(value: CheckValue) -> String {
    format!(
        "made {}: who opens, checks or verifies it needs that key, which nobody can make again where it is lost",
        key::told(Some(value))
    )
}

/// The set of widths that is named, if one is.
pub fn named_widths(options: &Options) -> Result<Option<Widths>, Failure> {
    let read = |name: String| {
        name.parse().map_err(|_| {
            Failure(format!(
                "there is no set of widths `{name}`; there are present and wide, and `seal explain widths` says when to take which"
            ))
        })
    };
    options.text("--widths")?.map(read).transpose()
}

/// The set of widths that a seal is written under: the present one where none is named.
fn widths(options: &Options) -> Result<Widths, Failure> {
    named_widths(options).map(Option::unwrap_or_default)
}

/// k and the base domain: a profile's, or both given; the default where nothing is.
fn parameters(options: &Options) -> Result<(usize, Vec<u8>), Failure> {
    let profile = options.text("--profile")?;
    match (options.number("--k")?, options.text("--domain")?) {
        (None, None) => {
            let names = Parameters::NAMES.join(", ");
            let name = profile.as_deref();
            let p = Parameters::of_seal(name, false).ok_or_else(|| {
                Failure(format!(
                    "there is no profile {}; there are {names}",
                    name.unwrap_or_default()
                ))
            })?;
            Ok((p.k, p.domain))
        }
        (Some(k), Some(domain)) if profile.is_none() => Ok((k, domain.into_bytes())),
        _ => Err(Failure(
            "give --profile alone, or --k and --domain together".into(),
        )),
    }
}
