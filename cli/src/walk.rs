//! What is in a project's folder, and whether that stays as it is while the files are read.

use crate::outcome::Failure;
use crate::project::file_path;
use crate::reading::{not_a_file, reason, unreadable, Unread};
use crate::steady::{self, State, LOOKS, TICK};
use std::collections::BTreeMap;
use std::fs::{self, DirEntry};
use std::io;
use std::os::unix::ffi::OsStrExt;
use std::path::{Path, PathBuf};
use std::thread;

/// What is said of a file that was not the same before and after.
pub const CHANGED: &str = "it was changed while the project was read";
const REMOVED: &str = "it was removed while the project was read";
const ADDED: &str = "it was added while the project was read";

/// A path below the folder, and what is said of it.
pub type Said = (Vec<u8>, String);

/// What is in a project's folder.
#[derive(Default)]
pub struct Walked {
    /// Each file's path below the folder and its state, rising by the bytes of the paths.
    pub files: Vec<(Vec<u8>, State)>,
    /// The path of each folder in which there is nothing, rising.
    pub folders: Vec<Vec<u8>>,
    /// What is neither a file nor a folder, with what it is.
    pub others: Vec<(Vec<u8>, &'static str)>,
    /// What could not be looked at, with the reason; of a folder, nothing is known of what is below it.
    pub unread: Vec<Said>,
}

/// Every file below a folder, and every folder there in which there is nothing. No link is followed, and what cannot be looked at is listed as such; fails where that is the folder itself.
pub fn walked(folder: &Path) -> Result<Walked, Failure> {
    let mut found = Walked::default();
    let mut fresh = Vec::new();
    let mut folders: Vec<Vec<u8>> = vec![Vec::new()];
    while let Some(below) = folders.pop() {
        let entries = match fs::read_dir(file_path(folder, &below)) {
            Ok(entries) => entries,
            Err(e) if below.is_empty() => return Err(unreadable(folder, reason(&e))),
            Err(e) => {
                found.unread.push((below, reason(&e)));
                continue;
            }
        };
        let mut is_empty = true;
        for entry in entries {
            is_empty = false;
            let looked = entry
                .map_err(|e| (below.clone(), e))
                .and_then(|entry| look(&entry, &below));
            match looked {
                Ok((name, Kind::Folder)) => folders.push(name),
                Ok((name, Kind::Other(what))) => found.others.push((name, what)),
                Ok((name, Kind::File(state))) if state.is_fresh() => fresh.push(name),
                Ok((name, Kind::File(state))) => found.files.push((name, state)),
                Err((name, e)) if name.is_empty() => return Err(unreadable(folder, reason(&e))),
                Err((name, e)) => found.unread.push((name, reason(&e))),
            }
        }
        if is_empty && !below.is_empty() {
            found.folders.push(below);
        }
    }
    settle(folder, fresh, &mut found);
    found.files.sort_by(|a, b| a.0.cmp(&b.0));
    found.folders.sort();
    found.others.sort();
    found.unread.sort();
    Ok(found)
}

enum Kind {
    File(State),
    Folder,
    Other(&'static str),
}

/// The path and the kind of an entry of a folder; fails, with the path, where the system does not say.
fn look(entry: &DirEntry, below: &[u8]) -> Result<(Vec<u8>, Kind), (Vec<u8>, io::Error)> {
    let mut name = below.to_vec();
    if !name.is_empty() {
        name.push(b'/');
    }
    name.extend_from_slice(entry.file_name().as_bytes());
    let found = match entry.metadata() {
        Ok(found) => found,
        Err(e) => return Err((name, e)),
    };
    let kind = match not_a_file(found.file_type()) {
        None => Kind::File(State::of(&found)),
        Some(_) if found.is_dir() => Kind::Folder,
        Some(what) => Kind::Other(what),
    };
    Ok((name, kind))
}

/// Looks again at the files that were changed just now, until a further change would bear another time. One that is changed again and again is listed
/// as unread.
fn settle(folder: &Path, mut fresh: Vec<Vec<u8>>, found: &mut Walked) {
    for _ in 0..LOOKS {
        if fresh.is_empty() {
            return;
        }
        thread::sleep(TICK);
        for name in std::mem::take(&mut fresh) {
            match fs::symlink_metadata(file_path(folder, &name)) {
                Ok(now) if !now.is_file() => found.unread.push((name, CHANGED.into())),
                Ok(now) if State::of(&now).is_fresh() => fresh.push(name),
                Ok(now) => found.files.push((name, State::of(&now))),
                Err(e) if e.kind() == io::ErrorKind::NotFound => {
                    found.unread.push((name, REMOVED.into()))
                }
                Err(e) => found.unread.push((name, reason(&e))),
            }
        }
    }
    let changing = fresh.into_iter().map(|name| (name, CHANGED.into()));
    found.unread.extend(changing);
}

/// A file that the command line names, a link to one followed: its path, and its state when it is not fresh. Fails where it is none.
pub fn one_file(path: &Path) -> Result<(PathBuf, State), Failure> {
    let failed = |e: io::Error| unreadable(path, Unread::from(e));
    let target = path.canonicalize().map_err(failed)?;
    let state = steady::settled(|| fs::symlink_metadata(&target).map(|found| State::of(&found)));
    let state = state.map_err(failed)?;
    state
        .map(|state| (target, state))
        .ok_or_else(|| unreadable(path, Unread::Changed))
}

/// What is not the same in two looks at a folder, the second of which was taken after its files were read.
pub fn between(before: &Walked, after: &Walked) -> Vec<Said> {
    let [then, now] = [before, after].map(states);
    let mut said = Vec::new();
    for (path, state) in &then {
        match now.get(path) {
            Some(other) if other == state => (),
            Some(_) => said.push((path.to_vec(), CHANGED.into())),
            None => said.push((path.to_vec(), REMOVED.into())),
        }
    }
    let added = now.keys().filter(|path| !then.contains_key(*path));
    said.extend(added.map(|path| (path.to_vec(), ADDED.into())));
    said.sort();
    said
}

/// Everything that a look found, a file with its state and the rest without one.
fn states(walked: &Walked) -> BTreeMap<&[u8], Option<State>> {
    let files = walked.files.iter().map(|(path, s)| (&path[..], Some(*s)));
    let others = walked.others.iter().map(|(path, _)| (&path[..], None));
    let unread = walked.unread.iter().map(|(path, _)| (&path[..], None));
    let folders = walked.folders.iter().map(|path| (&path[..], None));
    files.chain(others).chain(unread).chain(folders).collect()
}

#[cfg(test)]
mod tests {
    use super::{between, walked, ADDED, CHANGED, REMOVED};
    use std::fs;

    #[test]
    fn what_came_went_and_changed_between_two_looks() {
        let folder = std::env::temp_dir().join(format!("seal-walk-{}", std::process::id()));
        fs::create_dir_all(folder.join("sub")).unwrap();
        for name in ["same", "changed", "removed", "sub/replaced"] {
            fs::write(folder.join(name), b"plans").unwrap();
        }
        let before = walked(&folder).unwrap();
        assert_eq!(between(&before, &walked(&folder).unwrap()), []);
        fs::write(folder.join("changed"), b"plank").unwrap();
        fs::remove_file(folder.join("removed")).unwrap();
        fs::write(folder.join("sub/added"), b"plans").unwrap();
        fs::write(folder.join("sub/other"), b"plans").unwrap();
        fs::rename(folder.join("sub/other"), folder.join("sub/replaced")).unwrap();
        std::os::unix::fs::symlink("same", folder.join("link")).unwrap();
        fs::create_dir_all(folder.join("sub/empty/folder")).unwrap();
        let said = between(&before, &walked(&folder).unwrap());
        let expected = [
            ("changed", CHANGED),
            ("link", ADDED),
            ("removed", REMOVED),
            ("sub/added", ADDED),
            ("sub/empty/folder", ADDED),
            ("sub/replaced", CHANGED),
        ];
        assert_eq!(
            said,
            expected.map(|(path, what)| (path.as_bytes().to_vec(), what.to_string()))
        );
        fs::remove_dir_all(folder).unwrap();
    }

    #[test]
    fn a_folder_that_is_not_there_is_a_failure() {
        let folder = std::env::temp_dir().join(format!("seal-no-walk-{}", std::process::id()));
        assert!(walked(&folder).is_err());
    }
}
