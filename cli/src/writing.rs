//! Folders written whole and then renamed, so that nobody sees half of one. Nothing is replaced unless that is asked for, and then only what
//! this program wrote; of two runs into one folder one wins. What an interrupted run left behind is said and cleared.

use crate::folder::{not_ours, Kind, SUMMARY};
use crate::outcome::Failure;
use crate::reading::{leads_through, listed, reason};
use crate::system::{reserve, sync_all_files, try_lock};
use std::ffi::{OsStr, OsString};
use std::fs::{self, File, OpenOptions};
use std::io::{self, Write};
use std::os::unix::ffi::OsStrExt;
use std::os::unix::fs::MetadataExt;
use std::path::{Path, PathBuf};
use std::time::{Duration, Instant};

/// How long a run waits for another that writes beside it.
const PATIENCE: Duration = Duration::from_secs(20);

/// What a folder takes beside the files whose size is known before: its texts, and what the file system keeps of it.
pub const ROOM: u64 = 1 << 16;

/// How many files are each had written to the disk by themselves; more are by one call for the whole file system.
const FEW: usize = 16;

/// A folder that a command is going to write.
pub struct Target {
    folder: PathBuf,
    parent: PathBuf,
    name: OsString,
    kind: Kind,
    /// What stood there when the command began: that alone may be replaced.
    seen: Option<Identity>,
}

/// The path with something added to its last part.
pub fn beside(path: &Path, added: &str) -> PathBuf {
    let mut name = path.file_name().map(OsString::from).unwrap_or_default();
    name.push(added);
    path.with_file_name(name)
}

/// The folder in which something is to stand.
pub fn parent(path: &Path) -> &Path {
    match path.parent() {
        Some(parent) if parent != Path::new("") => parent,
        _ => Path::new("."),
    }
}

impl Target {
    /// Fails where the folder may not be written: it exists and is not to be replaced, or is not this program's. With it, what was found of
    /// interrupted runs.
    pub fn new(folder: &Path, kind: Kind, force: bool) -> Result<(Target, Vec<String>), Failure> {
        let mut target = Target::at(folder, kind)?;
        let notes = target.settle()?;
        target.seen = identity(folder);
        let tried = target.may_write(force).and_then(|()| target.has_room(ROOM));
        tried.map_err(|Failure(sentence)| {
            let said: String = notes.iter().map(|note| format!(" ({note})")).collect();
            Failure(format!("{sentence}{said}"))
        })?;
        Ok((target, notes))
    }

    /// Fails where no folder of so many bytes can be written here: by making one and removing it, before the work and not after it. Where another run is
    /// writing here just now, nothing is tried.
    pub fn has_room(&self, bytes: u64) -> Result<(), Failure> {
        let held = self.open_parent()?;
        if !try_lock(&held) {
            return Ok(());
        }
        let new = self.beside("unfinished");
        let tried = fs::create_dir(&new).and_then(|()| {
            let tried = File::create(new.join(SUMMARY)).and_then(|file| reserve(&file, bytes));
            let removed = remove(&new, self.kind);
            tried.and(removed)
        });
        tried.map_err(|e| self.failed(e))
    }

    fn failed(&self, e: io::Error) -> Failure {
        Failure(format!(
            "cannot write {}: {}",
            self.folder.display(),
            reason(&e)
        ))
    }

    fn at(folder: &Path, kind: Kind) -> Result<Target, Failure> {
        let name = folder
            .file_name()
            .ok_or_else(|| Failure(format!("{} is no name for a new folder", folder.display())))?;
        Ok(Target {
            folder: folder.into(),
            parent: parent(folder).into(),
            name: name.into(),
            kind,
            seen: None,
        })
    }

    /// Clears what interrupted runs left, unless another run is writing here just now: then what stands beside the folder is that run's.
    fn settle(&self) -> Result<Vec<String>, Failure> {
        let held = self.open_parent()?;
        if try_lock(&held) {
            self.clear_leftovers()
        } else {
            Ok(Vec::new())
        }
    }

    pub fn folder(&self) -> &Path {
        &self.folder
    }

    /// Writes the files. What was found of interrupted runs.
    pub fn write<B: AsRef<[u8]>>(&self, files: &[(String, B)]) -> Result<Vec<String>, Failure> {
        let held = self.lock()?;
        let notes = self.clear_leftovers()?;
        if identity(&self.folder) != self.seen {
            return Err(Failure(format!(
                "another run wrote {} in the meantime, or somebody changed it; it is left as it is, and nothing of this run is kept",
                self.folder.display()
            )));
        }
        self.may_write(true)?;
        let new = self.beside("unfinished");
        if let Err(e) = fill(&new, files).and_then(|()| self.put_in_place(&new)) {
            let _ = remove(&new, self.kind);
            return Err(self.failed(e));
        }
        synced(&held);
        Ok(notes)
    }

    fn may_write(&self, force: bool) -> Result<(), Failure> {
        let folder = self.folder.display();
        let found = match fs::symlink_metadata(&self.folder) {
            Ok(found) => found,
            Err(_) => return Ok(()),
        };
        let why = if found.is_dir() {
            not_ours(&self.folder, self.kind)
        } else {
            Some("it is no folder".into())
        };
        match (why, force) {
            (None, true) => Ok(()),
            (None, false) => Err(Failure(format!(
                "{folder} exists, and is {}; --force replaces it",
                self.kind.name()
            ))),
            (Some(why), _) => Err(Failure(format!(
                "{folder} exists, and is not {} that this program wrote: {why}. It is left alone; name another folder by --out",
                self.kind.name()
            ))),
        }
    }

    fn open_parent(&self) -> Result<File, Failure> {
        File::open(&self.parent).map_err(|e| {
            Failure(format!(
                "cannot write into the folder {}: {}",
                self.parent.display(),
                reason(&e)
            ))
        })
    }

    /// Holds the parent folder against other runs until the file is dropped.
    fn lock(&self) -> Result<File, Failure> {
        let parent = self.open_parent()?;
        let start = Instant::now();
        while !try_lock(&parent) {
            if start.elapsed() > PATIENCE {
                return Err(Failure(format!(
                    "another run has been writing beside {} for {} seconds; try again when it has ended",
                    self.folder.display(),
                    PATIENCE.as_secs()
                )));
            }
            std::thread::sleep(Duration::from_millis(20));
        }
        Ok(parent)
    }

    fn beside(&self, what: &str) -> PathBuf {
        beside(&self.folder, &format!(".{what}-{}", std::process::id()))
    }

    /// Renames the new folder into place. One that is replaced is set aside first and removed last.
    fn put_in_place(&self, new: &Path) -> io::Result<()> {
        if self.seen.is_none() {
            return fs::rename(new, &self.folder);
        }
        let aside = self.beside("replaced");
        fs::rename(&self.folder, &aside)?;
        if let Err(e) = fs::rename(new, &self.folder) {
            fs::rename(&aside, &self.folder)?;
            return Err(e);
        }
        // Where that fails, the next run finds it and says so.
        let _ = remove(&aside, self.kind);
        Ok(())
    }

    /// Removes what interrupted runs left beside the folder, and puts back a folder that one had set aside. The parent must be locked: what
    /// stands there is then no living run's.
    fn clear_leftovers(&self) -> Result<Vec<String>, Failure> {
        let failed = |e: io::Error| {
            Failure(format!(
                "cannot look through {}: {}",
                self.parent.display(),
                reason(&e)
            ))
        };
        let mut notes = Vec::new();
        for entry in fs::read_dir(&self.parent).map_err(failed)? {
            let name = entry.map_err(failed)?.file_name();
            if let Some(was_replaced) = leftover(&self.name, &name) {
                notes.push(self.clear(&self.folder.with_file_name(name), was_replaced));
            }
        }
        Ok(notes)
    }

    fn clear(&self, left: &Path, was_replaced: bool) -> String {
        let shown = left.display();
        let kind = match kind_of(left) {
            Some(kind) => kind,
            None => return format!("{shown} stands beside it and holds files that this program did not write; it is left alone"),
        };
        let put_back =
            was_replaced && identity(&self.folder).is_none() && not_ours(left, kind).is_none();
        let cleared = if put_back {
            fs::rename(left, &self.folder)
        } else {
            remove(left, kind)
        };
        match cleared {
            Ok(()) if put_back => format!(
                "an interrupted run had set {} aside as {shown}; it was put back",
                self.folder.display()
            ),
            Ok(()) => format!("an interrupted run had left {shown}; it was removed"),
            Err(e) => format!(
                "an interrupted run left {shown}, which cannot be removed: {}",
                reason(&e)
            ),
        }
    }
}

/// Clears what interrupted runs left beside a folder that is to be read, and puts the folder back where one had set it aside. What was found.
pub fn settled(folder: &Path, kind: Kind) -> Vec<String> {
    Target::at(folder, kind)
        .and_then(|target| target.settle())
        .unwrap_or_default()
}

/// Fails where a file of its own cannot be made at a path: something stands there, or it leads into a folder that others prepared, or through it.
pub fn may_be_made(path: &Path, prepared: &Path) -> Result<(), Failure> {
    let shown = path.display();
    if fs::symlink_metadata(path).is_ok() {
        return Err(Failure(format!(
            "{shown} exists; it is left alone, name another file"
        )));
    }
    let folder = parent(path);
    if leads_through(folder, prepared) {
        return Err(Failure(format!(
            "{shown} would lie in the opening, or leads through it; name a file elsewhere"
        )));
    }
    if !folder.is_dir() {
        return Err(Failure(format!(
            "cannot write {shown}: there is no folder {}",
            folder.display()
        )));
    }
    Ok(())
}

/// Makes a file, whole or not at all, and replaces none.
pub fn make(path: &Path, bytes: &[u8]) -> Result<(), Failure> {
    let failed = |e: io::Error| Failure(format!("cannot write {}: {}", path.display(), reason(&e)));
    let mut file = OpenOptions::new()
        .write(true)
        .create_new(true)
        .open(path)
        .map_err(failed)?;
    file.write_all(bytes)
        .and_then(|()| file.sync_all())
        .map_err(|e| {
            let _ = fs::remove_file(path);
            failed(e)
        })
}

/// Device, number and last change of what stands at a path, a link not followed.
#[derive(Clone, Copy, Debug, PartialEq, Eq)]
struct Identity {
    device: u64,
    number: u64,
    changed: (i64, i64),
}

fn identity(path: &Path) -> Option<Identity> {
    fs::symlink_metadata(path).ok().map(|found| Identity {
        device: found.dev(),
        number: found.ino(),
        changed: (found.mtime(), found.mtime_nsec()),
    })
}

/// Whether a name is that of a run's unfinished (false) or replaced (true) folder beside the folder of this name.
fn leftover(folder: &OsStr, name: &OsStr) -> Option<bool> {
    let rest = name.as_bytes().strip_prefix(folder.as_bytes())?;
    let (was_replaced, digits) = match rest.strip_prefix(b".replaced-".as_slice()) {
        Some(digits) => (true, digits),
        None => (false, rest.strip_prefix(b".unfinished-".as_slice())?),
    };
    (!digits.is_empty() && digits.iter().all(u8::is_ascii_digit)).then_some(was_replaced)
}

/// The kind of folder that holds only files of these names; none where it is no folder, or holds anything else.
fn kind_of(folder: &Path) -> Option<Kind> {
    let is_folder = fs::symlink_metadata(folder).map_or(false, |found| found.is_dir());
    let found = listed(folder, usize::MAX)
        .ok()
        .flatten()
        .filter(|_| is_folder)?;
    let all = |kind: &Kind| {
        found
            .iter()
            .all(|(name, is_file)| *is_file && kind.has(name))
    };
    Kind::ALL.into_iter().find(all)
}

/// Removes a folder and the files in it that this program writes. Where anything else is in it, that and the folder stay.
fn remove(folder: &Path, kind: Kind) -> io::Result<()> {
    for entry in fs::read_dir(folder)? {
        let name = entry?.file_name();
        if kind.has(&name) {
            fs::remove_file(folder.join(name))?;
        }
    }
    fs::remove_dir(folder)
}

/// Writes the files of a new folder, and has all of them on the disk when it returns.
fn fill<B: AsRef<[u8]>>(folder: &Path, files: &[(String, B)]) -> io::Result<()> {
    fs::create_dir(folder)?;
    let is_each = files.len() <= FEW;
    for (name, bytes) in files {
        let mut file = OpenOptions::new()
            .write(true)
            .create_new(true)
            .open(folder.join(name))?;
        file.write_all(bytes.as_ref())?;
        if is_each {
            file.sync_all()?;
        }
    }
    let opened = File::open(folder)?;
    if !is_each && !sync_all_files(&opened)? {
        for (name, _) in files {
            File::open(folder.join(name))?.sync_all()?;
        }
    }
    synced(&opened);
    Ok(())
}

/// Has a folder's entries written to the disk, where the file system can do that.
fn synced(folder: &File) {
    let _ = folder.sync_all();
}

#[cfg(test)]
mod tests {
    use super::leftover;
    use std::ffi::OsStr;

    #[test]
    fn only_this_program_s_names_are_leftovers() {
        let of = |name: &str| leftover(OsStr::new("a.seal"), OsStr::new(name));
        assert_eq!(of("a.seal.unfinished-12"), Some(false));
        assert_eq!(of("a.seal.replaced-7"), Some(true));
        for name in [
            "a.seal",
            "a.seal.unfinished-",
            "a.seal.unfinished-1x",
            "a.seal.replaced-notes",
            "b.seal.unfinished-1",
        ] {
            assert_eq!(of(name), None, "{name}");
        }
    }
}
