//! The words of a sealed file that an opening shows: level 0's groups of its records, as far as they lead to the seal's root. No challenge is
//! needed for that.

use crate::outcome::Failure;
use crate::seal::Seal;
use crate::shown::{Own, Record, Shown};
use dequmlo::tree::{level_domain, root_of_path};
use dequmlo::{QueryRecord, Word};
use std::collections::BTreeMap;
use std::path::Path;

/// The words of the sealed table that an opening shows, each at its place; a sentence where the folder is refused unread.
pub fn shown_words(
    opening: &Path,
    seal: &Seal,
) -> Result<Result<BTreeMap<usize, Word>, String>, Failure> {
    let shown = match Shown::read(opening, seal, seal.shape.queries(), Own::NOTHING)? {
        Ok(shown) => shown,
        Err(sentence) => return Ok(Err(sentence)),
    };
    let mut words = BTreeMap::new();
    for position in shown.positions() {
        if let Record::Found(record) = shown.record(position)? {
            words.extend(group(seal, position, &record).unwrap_or_default());
        }
    }
    // Block 0 of the codeword is the table.
    words.retain(|place, _| *place < seal.sizes.table_words);
    Ok(Ok(words))
}

/// The group of a position with its places; none where it does not lead to the seal's root.
fn group(seal: &Seal, position: usize, record: &QueryRecord) -> Option<Vec<(usize, Word)>> {
    let shown = record.levels()?.into_iter().next()?;
    let (count, width) = (seal.sizes.codeword_words, shown.a_group.len());
    let domain = level_domain(&seal.shape.domain, 0).ok()?;
    let root = root_of_path(
        seal.key(),
        &domain,
        count,
        width,
        position,
        &shown.a_group,
        &shown.a_path,
    );
    // By another width than the level's, which the record may state, no path leads to the root; by 0 to none.
    (root.ok()? == seal.root).then(|| (position / width * width..).zip(shown.a_group).collect())
}
