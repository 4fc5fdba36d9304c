//! `seal key new` and `seal key derive`: a key in a file of its own, from the system's randomness or from something that is secret already.

use crate::json::Json;
use crate::key::{found, secret_in, write_new, CheckValue, CHECK_CONTEXT};
use crate::options::Options;
use crate::outcome::{Failure, Outcome, Verdict};
use crate::reading::{reason, shown_path};
use crate::system::{overwrite, random};
use dequmlo::Key;
use std::path::Path;

pub const TAKEN: [&str; 3] = ["--context", "--from", "--json"];

/// The most bytes of key material: as many as the library takes.
const MOST_MATERIAL: usize = 1 << 24;

pub fn run(options: &Options) -> Result<Outcome, Failure> {
    let word = options.operands.first().map(|word| word.to_string_lossy());
    match word.as_deref() {
        Some("new") => new(options),
        Some("derive") => derive(options),
        _ => Err(Failure(
            "`seal key` makes a key: `seal key new FILE`, or `seal key derive --context TEXT --from FILE FILE`; `seal help key` says more".into(),
        )),
    }
}

/// A key from the system's randomness.
fn new(options: &Options) -> Result<Outcome, Failure> {
    options.expect(2, "one FILE to write: `seal key new FILE`", &["--json"])?;
    let mut bytes = [0; 32];
    random(&mut bytes).map_err(|e| {
        Failure(format!(
            "the system has no random numbers for a key: {}",
            reason(&e)
        ))
    })?;
    let key = Key::new(bytes);
    overwrite(&mut bytes);
    written(
        &options.operands[1],
        &key,
        "a new key",
        "and where it is lost nobody can make it again",
    )
}

/// A key from a context and key material.
fn derive(options: &Options) -> Result<Outcome, Failure> {
    let what = "one FILE to write: `seal key derive --context TEXT --from FILE FILE`";
    options.expect(2, what, &TAKEN)?;
    let context = context(options)?;
    let path = options.needed_path("--from", "the file with the key material, which is secret")?;
    let material = secret_in(&path, MOST_MATERIAL)?;
    let unfit = |why: String| {
        Failure(format!(
            "no key is derived from {}: {why}",
            shown_path(&path)
        ))
    };
    match material.0.len() {
        0 => return Err(unfit("it is empty, so everybody would know the key".into())),
        count if count > MOST_MATERIAL => {
            return Err(unfit(format!(
                "it has more than the {MOST_MATERIAL} bytes that key material has"
            )))
        }
        _ => (),
    }
    let key = Key::derive(&context, &material.0).map_err(|refusal| unfit(refusal.to_string()))?;
    written(
        &options.operands[1],
        &key,
        "a key that is derived",
        "and its context and key material give it again to whoever has both",
    )
}

/// The context that the options name: a text that says what the key is for.
fn context(options: &Options) -> Result<String, Failure> {
    match options.text("--context")?.as_deref() {
        None | Some("") => Err(Failure(
            "`seal key derive` needs --context: a text that says what the key is for, as no other key is derived under it".into(),
        )),
        // Half of such a key would stand in every seal that is made under its material.
        Some(CHECK_CONTEXT) => Err(Failure(
            "this is the context of check values, which stand in every keyed seal for all to read: name another".into(),
        )),
        Some(context) => Ok(context.into()),
    }
}

/// Writes a key, and says what it is and what comes of its loss.
fn written(path: &Path, key: &Key, what: &str, lost: &str) -> Result<Outcome, Failure> {
    write_new(path, key)?;
    let (shown, value) = (shown_path(path), CheckValue::of(key));
    let sentence = format!("wrote {what} into {shown}, which its owner alone may read: 64 hexadecimal digits and a line end");
    let keep = format!("keep a copy in a safe place, apart from what is sealed: without the key nothing that is sealed under it can be checked, {lost}");
    let outcome = Outcome::new(Verdict::Done, sentence)
        .say()
        .lines([format!("check value {value}"), keep])
        .found("key_file", Json::text(path.display()));
    Ok(found(outcome, Some(value)))
}
