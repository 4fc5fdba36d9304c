//! What a checker asks: a request, or challenges and positions from the checker's own files or, for trying it out, drawn from a seed text.

use crate::format::Body;
use crate::lines::{items, most_bytes};
use crate::manifest::PART;
use crate::options::Options;
use crate::outcome::Failure;
use crate::reading::named_text;
use crate::request::Request;
use crate::seal::Seal;
use crate::shape::Shape;
use dequmlo::Word;
use std::collections::BTreeSet;

/// What a person must know about questions from a seed.
pub const SEED_WARNING: &str = "the questions come from a seed text: good for trying it out, and no substitute for challenges and positions \
                                that the checker draws after the root is known";

/// The options that name a seal, a place of a project and what a checker asks: `seal open` and `seal check` take them alike.
const ASKING: [&str; 12] = [
    "--seal",
    "--older",
    "--key-file",
    "--file",
    "--part",
    "--offset",
    "--asked",
    "--challenges",
    "--seed",
    "--at",
    "--positions",
    "--count",
];

/// These, and a command's own.
pub const fn asking_and<const OWN: usize, const ALL: usize>(
    own: [&'static str; OWN],
) -> [&'static str; ALL] {
    assert!(ALL == ASKING.len() + OWN);
    let mut all = [""; ALL];
    let mut i = 0;
    while i < ALL {
        all[i] = if i < ASKING.len() {
            ASKING[i]
        } else {
            own[i - ASKING.len()]
        };
        i += 1;
    }
    all
}

/// The most bytes that a file of positions is read for.
const MOST_POSITIONS: usize = 1 << 20;

/// The request that the options name, which has everything that a checker asks; none where they name none.
pub fn requested(options: &Options, seal: &Seal) -> Result<Option<Request>, Failure> {
    let folder = match options.path("--asked") {
        Some(folder) => folder,
        None => return Ok(None),
    };
    match OTHERS.iter().find(|name| options.given(name)) {
        Some(name) => Err(Failure(format!(
            "--asked names all that is asked, and excludes {name}"
        ))),
        None => Request::read(&folder, seal).map(Some),
    }
}

/// What a request has, when it is given by options.
const OTHERS: [&str; 9] = [
    "--challenges",
    "--seed",
    "--at",
    "--positions",
    "--offset",
    "--count",
    "--roots",
    "--claim",
    "--own-questions",
];

/// The challenges that the options name, and where they come from; none where they name none.
pub fn challenges(options: &Options, n: usize) -> Result<Option<(Vec<Word>, String)>, Failure> {
    let seed = options.text("--seed")?;
    match (options.path("--challenges"), seed) {
        (Some(_), Some(_)) => Err(Failure("--challenges and --seed exclude each other".into())),
        (Some(path), None) => {
            let words: Vec<Word> = items(&path, &named_text(&path, most_bytes(n, 32))?)?;
            if words.len() != n {
                return Err(Failure(format!(
                    "{} has {} words, and this seal takes {n} challenges",
                    path.display(),
                    words.len()
                )));
            }
            Ok(Some((words, format!("from {}", path.display()))))
        }
        (None, Some(seed)) => Ok(Some((
            (0..n).map(|l| challenge(&seed, l)).collect(),
            format!("drawn from the seed {seed:?}"),
        ))),
        (None, None) => Ok(None),
    }
}

/// The positions that the options name, or that a seed draws, rising, each once; none where they name none. `--count 0` names the empty list. Offsets are those of
/// a file, of which the shape may be that of a part.
pub fn positions(
    options: &Options,
    shape: &Shape,
    is_part: bool,
) -> Result<Option<Vec<usize>>, Failure> {
    if let Some(offsets) = offsets(options)? {
        return places(options, shape, is_part, &offsets).map(Some);
    }
    let count = options.number("--count")?;
    let given = match (options.text("--at")?, options.path("--positions")) {
        (Some(_), Some(_)) => {
            return Err(Failure("--at and --positions exclude each other".into()))
        }
        (Some(text), None) => text.replace(',', " "),
        (None, Some(path)) => Body::of(&path, &named_text(&path, MOST_POSITIONS)?)?
            .text
            .into(),
        (None, None) => return drawn(options, shape, count),
    };
    if count.is_some() {
        return Err(Failure("--count excludes --at and --positions".into()));
    }
    let read = |word: &str| {
        word.parse()
            .map_err(|_| Failure(format!("`{word}` is no position")))
    };
    let positions: BTreeSet<usize> = given
        .split_whitespace()
        .map(read)
        .collect::<Result<_, _>>()?;
    Ok(Some(positions.into_iter().collect()))
}

/// The offsets in a file that the options name.
pub fn offsets(options: &Options) -> Result<Option<Vec<u64>>, Failure> {
    let offset = |word: &str| {
        word.parse()
            .map_err(|_| Failure(format!("`{word}` is no offset")))
    };
    let text = options.text("--offset")?;
    text.map(|text| text.split(',').map(offset).collect())
        .transpose()
}

/// The positions of the words that hold these bytes of a file, or of a part of one, rising, each once.
fn places(
    options: &Options,
    shape: &Shape,
    is_part: bool,
    offsets: &[u64],
) -> Result<Vec<usize>, Failure> {
    if let Some(name) = ["--at", "--positions", "--count"]
        .iter()
        .find(|name| options.given(name))
    {
        return Err(Failure(format!("--offset excludes {name}")));
    }
    let words = 1u64 << shape.n;
    let mut positions = BTreeSet::new();
    for offset in offsets {
        let within = if is_part { offset % PART } else { *offset };
        // The last word of the table is the length.
        if within / 16 + 1 >= words {
            return Err(Failure(format!(
                "offset {offset} is outside the sealed file"
            )));
        }
        positions.insert((within / 16) as usize);
    }
    Ok(positions.into_iter().collect())
}

fn drawn(
    options: &Options,
    shape: &Shape,
    count: Option<usize>,
) -> Result<Option<Vec<usize>>, Failure> {
    match (options.text("--seed")?, count) {
        (Some(seed), _) => Ok(Some(seeded(&seed, shape, count.unwrap_or(shape.queries())))),
        (None, Some(0)) => Ok(Some(Vec::new())),
        (None, Some(_)) => Err(Failure(
            "--count draws positions from a seed text, and there is no --seed".into(),
        )),
        (None, None) => Ok(None),
    }
}

/// So many positions, or all if there are fewer, drawn from a seed text.
fn seeded(seed: &str, shape: &Shape, count: usize) -> Vec<usize> {
    let all = shape.positions();
    let count = count.min(all);
    let mut drawn = BTreeSet::new();
    let mut i = 0;
    while drawn.len() < count {
        drawn.insert(draw(seed, "position", i) as usize % all);
        i += 1;
    }
    drawn.into_iter().collect()
}

fn challenge(seed: &str, level: usize) -> Word {
    Word(draw(seed, "challenge", level))
}

/// The first 16 bytes of the digest of a name, a number and the seed.
fn draw(seed: &str, name: &str, i: usize) -> u128 {
    let message = format!("seal/seed/{name}/{i}/{seed}");
    let digest =
        dequmlo::digest(message.as_bytes()).expect("a command line is shorter than 2^24 bytes");
    u128::from_le_bytes(digest[..16].try_into().expect("16 of 32 bytes"))
}
