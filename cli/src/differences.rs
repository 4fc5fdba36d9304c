//! What differs between a project that was sealed and its folder as it is now, file by file; and what cannot be said because it cannot be read.

use crate::json::Json;
use crate::manifest::{part_count, part_place, shown, Entry, Form, Manifest};
use crate::outcome::Outcome;
use crate::project::{Committed, Mark};
use crate::walk::Said;
use dequmlo::Root;
use std::collections::{BTreeMap, HashMap, HashSet};

/// What differs, each by its path. A file that can be read in part, or whose length alone is known, may be in two lists.
#[derive(Debug, Default, PartialEq, Eq)]
pub struct Differences {
    pub changed: Vec<Changed>,
    pub missing: Vec<Thing>,
    pub new: Vec<Thing>,
    pub moved: Vec<Moved>,
    pub unreadable: Vec<Unreadable>,
}

/// A file that is not as it was sealed, and the bytes among which it first differs, as far as the parts tell.
#[derive(Debug, PartialEq, Eq)]
pub struct Changed {
    pub path: String,
    pub bytes_then: u64,
    pub bytes_now: u64,
    pub first: u64,
    pub last: u64,
}

/// Something that is missing or new, and what it is.
#[derive(Debug, PartialEq, Eq)]
pub struct Thing {
    pub path: String,
    pub kind: &'static str,
}

/// Where a file was, and where it is now.
#[derive(Debug, PartialEq, Eq)]
pub struct Moved {
    pub from: String,
    pub to: String,
}

/// What could not be read, and why; with what it is, where that is known.
#[derive(Debug, PartialEq, Eq)]
pub struct Unreadable {
    pub path: String,
    pub why: String,
    pub kind: Option<&'static str>,
}

/// What a project is made of.
const FILE: &str = "a file";
const FOLDER: &str = "a folder";
const EMPTY_FOLDER: &str = "an empty folder";

/// The folder as it is now.
pub struct Now<'a> {
    /// Rising by the bytes of their paths.
    pub files: &'a [Committed],
    /// The folders in which there is nothing, rising.
    pub folders: &'a [Vec<u8>],
    /// What is neither a file nor a folder, with what it is.
    pub others: &'a [(Vec<u8>, &'static str)],
    /// What could not be looked at or did not stay as it was, with the reason.
    pub unread: &'a [Said],
}

impl Now<'_> {
    fn find(&self, path: &[u8]) -> Option<&Committed> {
        let place = self.files.binary_search_by(|file| file.path[..].cmp(path));
        place.ok().map(|place| &self.files[place])
    }

    /// Whether a folder is there, with something in it or not.
    fn has_folder(&self, path: &[u8]) -> bool {
        let folder = path.to_vec();
        let others = self.others.iter().map(|(path, _)| &path[..]);
        let unread = self.unread.iter().map(|(path, _)| &path[..]);
        self.folders.binary_search(&folder).is_ok()
            || is_above(path, self.files, |file| &file.path)
            || is_above(path, self.folders, |folder| folder)
            || others.chain(unread).any(|other| is_below(other, path))
    }

    /// Whether it cannot be said what is at a path: nobody could look at it, or into a folder above it.
    fn is_hidden(&self, path: &[u8]) -> bool {
        let hides = |(unread, _): &Said| path == unread || is_below(path, unread);
        self.unread.iter().any(hides)
    }
}

/// Whether a path lies below a folder.
fn is_below(path: &[u8], folder: &[u8]) -> bool {
    let rest = path.strip_prefix(folder);
    rest.map_or(false, |rest| rest.first() == Some(&b'/'))
}

/// Whether one of these things, which rise by their paths, lies below a folder.
fn is_above<T>(folder: &[u8], things: &[T], path: fn(&T) -> &Vec<u8>) -> bool {
    let start = [folder, b"/"].concat();
    let first = things.partition_point(|thing| *path(thing) < start);
    let thing = things.get(first);
    thing.map_or(false, |thing| path(thing).starts_with(&start))
}

impl Differences {
    pub fn between(then: &Manifest, now: &Now) -> Differences {
        let mut found = Differences::default();
        let mut missing = Vec::new();
        for entry in &then.files {
            match now.find(&entry.path) {
                Some(file) => found.changed.extend(changed(entry, file)),
                None if now.is_hidden(&entry.path) => (),
                None => missing.push(entry),
            }
        }
        let is_new = |file: &&Committed| then.find(&file.path).is_none();
        let new: Vec<&Committed> = now.files.iter().filter(is_new).collect();
        found.told_apart(missing, new);
        if then.form == Form::Second {
            found.empty_folders(then, now);
        }
        let others = now.others.iter();
        found.new.extend(others.map(|(path, what)| Thing {
            path: shown(path),
            kind: what,
        }));
        found.unreadable = unreadable(then, now);
        found
    }

    /// Missing files whose bytes are those of a new one were moved: each new one is taken once, in the order of the paths. An empty file is like every other
    /// one, and is never said to be moved.
    fn told_apart(&mut self, missing: Vec<&Entry>, new: Vec<&Committed>) {
        let mut by_parts: HashMap<(u64, Vec<Root>), Vec<&[u8]>> = HashMap::new();
        for file in new.iter().rev().filter(|file| file.bytes > 0) {
            let [roots, digests] = [|mark: &Mark| mark.root, |mark: &Mark| mark.digest];
            if let Some(parts) = file.marks(roots).or_else(|| file.marks(digests)) {
                let paths = by_parts.entry((file.bytes, parts)).or_default();
                paths.push(&file.path);
            }
        }
        let mut taken = HashSet::new();
        for entry in missing {
            let mut by = |parts: &Vec<Root>| {
                let paths = by_parts.get_mut(&(entry.bytes, parts.clone()));
                paths.and_then(Vec::pop)
            };
            match by(&entry.parts).or_else(|| by(&entry.digests)) {
                Some(to) => {
                    self.moved.push(Moved {
                        from: shown(&entry.path),
                        to: shown(to),
                    });
                    taken.insert(to);
                }
                None => self.missing.push(a_file(&entry.path)),
            }
        }
        let left = new.iter().filter(|file| !taken.contains(&file.path[..]));
        self.new.extend(left.map(|file| a_file(&file.path)));
    }

    /// Empty folders that are gone, and that came where nothing was sealed. One that has something in it now is there, and what is in it is new.
    fn empty_folders(&mut self, then: &Manifest, now: &Now) {
        let folder = |path: &Vec<u8>| Thing {
            path: shown(path),
            kind: EMPTY_FOLDER,
        };
        let is_gone = |path: &&Vec<u8>| !now.has_folder(path) && !now.is_hidden(path);
        self.missing
            .extend(then.folders.iter().filter(is_gone).map(folder));
        let is_new = |path: &&Vec<u8>| {
            then.folders.binary_search(path).is_err()
                && !is_above(path, &then.files, |file| &file.path)
                && !is_above(path, &then.folders, |folder| folder)
        };
        self.new
            .extend(now.folders.iter().filter(is_new).map(folder));
    }

    /// Whether anything is known to differ.
    pub fn any(&self) -> bool {
        let counts = [
            self.changed.len(),
            self.missing.len(),
            self.new.len(),
            self.moved.len(),
        ];
        counts.iter().any(|count| *count > 0)
    }

    /// Adds the lists to an outcome, for a person and for programs.
    pub fn told(self, outcome: Outcome) -> Outcome {
        let outcome = listed(
            outcome,
            "changed",
            &self.changed,
            Changed::told,
            Changed::json,
        );
        let outcome = listed(outcome, "missing", &self.missing, Thing::told, Thing::json);
        let outcome = listed(outcome, "new", &self.new, Thing::told, Thing::json);
        let outcome = listed(outcome, "moved", &self.moved, Moved::told, Moved::json);
        let (told, json) = (Unreadable::told, Unreadable::json);
        listed(outcome, "unreadable", &self.unreadable, told, json)
    }
}

/// Adds a list to an outcome: a line for each item, and an object.
fn listed<T>(
    outcome: Outcome,
    name: &'static str,
    items: &[T],
    told: fn(&T) -> String,
    json: fn(&T) -> Json,
) -> Outcome {
    outcome
        .lines(items.iter().map(|item| format!("{name}: {}", told(item))))
        .found(name, Json::List(items.iter().map(json).collect()))
}

impl Changed {
    fn told(&self) -> String {
        let path = &self.path;
        let (then, now) = (self.bytes_then, self.bytes_now);
        match part_count(then) {
            _ if then != now => format!("{path}, which had {then} bytes and has {now}"),
            1 => path.clone(),
            _ => format!("{path}, first in bytes {} to {}", self.first, self.last),
        }
    }

    fn json(&self) -> Json {
        let is_longer_or_shorter = self.bytes_then != self.bytes_now;
        let kind = if is_longer_or_shorter {
            "length"
        } else {
            "bytes"
        };
        let among = [("from", self.first), ("to", self.last)];
        Json::object([
            ("path", Json::text(&self.path)),
            ("kind", Json::text(kind)),
            (
                "first_differing",
                Json::object(among.map(|(name, at)| (name, Json::number(at)))),
            ),
            ("bytes_then", Json::number(self.bytes_then)),
            ("bytes_now", Json::number(self.bytes_now)),
        ])
    }
}

impl Thing {
    fn told(&self) -> String {
        match self.kind {
            FILE => self.path.clone(),
            kind => format!("{}, which is {kind}", self.path),
        }
    }

    fn json(&self) -> Json {
        Json::object([
            ("path", Json::text(&self.path)),
            ("kind", Json::text(noun(self.kind))),
        ])
    }
}

impl Moved {
    fn told(&self) -> String {
        format!("{}, which is now {}", self.from, self.to)
    }

    fn json(&self) -> Json {
        Json::object([
            ("from", Json::text(&self.from)),
            ("to", Json::text(&self.to)),
            ("kind", Json::text(noun(FILE))),
        ])
    }
}

impl Unreadable {
    fn told(&self) -> String {
        format!("{}: {}", self.path, self.why)
    }

    fn json(&self) -> Json {
        let kind = self.kind.map(noun);
        Json::object([
            ("path", Json::text(&self.path)),
            ("why", Json::text(&self.why)),
            ("kind", kind.map_or(Json::Null, Json::text)),
        ])
    }
}

/// What something is, without its article.
fn noun(kind: &'static str) -> &'static str {
    kind.split_once(' ').map_or(kind, |(_, noun)| noun)
}

fn a_file(path: &[u8]) -> Thing {
    Thing {
        path: shown(path),
        kind: FILE,
    }
}

/// What could not be read, once each, rising by the paths: a file by the first of its parts.
fn unreadable(then: &Manifest, now: &Now) -> Vec<Unreadable> {
    let mut found: BTreeMap<&[u8], &str> = BTreeMap::new();
    for file in now.files {
        if let Some(why) = file.parts.iter().find_map(|part| part.as_ref().err()) {
            found.insert(&file.path, why);
        }
    }
    for (path, why) in now.unread {
        found.entry(path).or_insert(why);
    }
    let shown = |(path, why): (&[u8], &str)| Unreadable {
        path: shown(path),
        why: why.to_string(),
        kind: kind_of(path, then, now),
    };
    found.into_iter().map(shown).collect()
}

/// What stands at a path that cannot be read, by what is known of it or was when it was sealed.
fn kind_of(path: &[u8], then: &Manifest, now: &Now) -> Option<&'static str> {
    if now.find(path).is_some() || then.find(path).is_some() {
        return Some(FILE);
    }
    is_above(path, &then.files, |file| &file.path).then_some(FOLDER)
}

/// How a file differs from the one of the same path that was sealed, as far as it could be read; none where no difference is known.
fn changed(then: &Entry, now: &Committed) -> Option<Changed> {
    let place = |bytes: u64, part: usize| match part < part_count(bytes) {
        true => part_place(bytes, part),
        false => (bytes, 0),
    };
    let differs = |part: &usize| {
        let is_as_long = place(then.bytes, *part) == place(now.bytes, *part);
        !is_as_long || is_another(then, *part, now.parts.get(*part))
    };
    let most = then.bytes.max(now.bytes);
    let part = (0..part_count(most)).find(differs)?;
    let (start, size) = part_place(most, part);
    Some(Changed {
        path: shown(&then.path),
        bytes_then: then.bytes,
        bytes_now: now.bytes,
        first: start,
        last: start + size as u64 - 1,
    })
}

/// Whether a part is known not to be the one that was sealed.
fn is_another(then: &Entry, part: usize, now: Option<&Result<Mark, String>>) -> bool {
    let now = match now {
        Some(Ok(now)) => now,
        _ => return false,
    };
    let differ = |then: Option<&Root>, now: Option<Root>| matches!((then, now), (Some(then), Some(now)) if *then != now);
    differ(then.parts.get(part), now.root) || differ(then.digests.get(part), now.digest)
}

#[cfg(test)]
mod tests {
    use super::{Changed, Differences, Moved, Now, Thing, Unreadable, FILE, FOLDER};
    use crate::manifest::{part_count, Entry, Form, Manifest, PART};
    use crate::project::{Committed, Mark};
    use dequmlo::Root;

    /// A file of so many bytes, each part of which has a root and a digest of these numbers.
    fn sealed(path: &str, bytes: u64, root: u8) -> Entry {
        let parts = (0..part_count(bytes)).map(|part| root + part as u8);
        Entry {
            path: path.as_bytes().to_vec(),
            bytes,
            parts: parts.clone().map(|number| Root([number; 32])).collect(),
            digests: parts.map(|number| Root([number + 100; 32])).collect(),
        }
    }

    fn now(path: &str, bytes: u64, root: u8) -> Committed {
        let entry = sealed(path, bytes, root);
        let marks = entry.parts.iter().zip(&entry.digests);
        let mark = |(root, digest): (&Root, &Root)| {
            Ok(Mark {
                root: Some(*root),
                digest: Some(*digest),
            })
        };
        Committed {
            path: entry.path.clone(),
            bytes,
            parts: marks.map(mark).collect(),
        }
    }

    /// The same of which the digests alone are known.
    fn digested(path: &str, bytes: u64, root: u8) -> Committed {
        let mut file = now(path, bytes, root);
        for part in file.parts.iter_mut().flatten() {
            part.root = None;
        }
        file
    }

    /// The same with a part that cannot be read.
    fn unread(file: Committed, part: usize) -> Committed {
        let mut parts = file.parts;
        parts[part] = Err("Input/output error".into());
        Committed { parts, ..file }
    }

    fn between(then: &[Entry], files: &[Committed], unread: &[(&str, &str)]) -> Differences {
        let said = |(path, why): &(&str, &str)| (path.as_bytes().to_vec(), why.to_string());
        let unread: Vec<_> = unread.iter().map(said).collect();
        let now = Now {
            files,
            folders: &[],
            others: &[],
            unread: &unread,
        };
        Differences::between(&manifest(then, &[]), &now)
    }

    fn manifest(files: &[Entry], folders: &[&str]) -> Manifest {
        Manifest {
            form: Form::Second,
            files: files.to_vec(),
            folders: folders
                .iter()
                .map(|path| path.as_bytes().to_vec())
                .collect(),
        }
    }

    fn things(paths: &[&str]) -> Vec<Thing> {
        let file = |path: &&str| Thing {
            path: path.to_string(),
            kind: FILE,
        };
        paths.iter().map(file).collect()
    }

    fn changed(path: &str, bytes: [u64; 2], first: u64, last: u64) -> Changed {
        Changed {
            path: path.into(),
            bytes_then: bytes[0],
            bytes_now: bytes[1],
            first,
            last,
        }
    }

    const WHY: &str = "Input/output error";

    #[test]
    fn a_file_that_cannot_be_read_is_beside_the_others() {
        let then = [
            sealed("a", 5, 1),
            sealed("b", 5, 2),
            sealed("c", 5, 3),
            sealed("d", 5, 4),
        ];
        let files = [
            now("a", 5, 1),
            unread(now("b", 5, 2), 0),
            now("c", 5, 9),
            now("e", 7, 7),
        ];
        let found = between(&then, &files, &[]);
        let expected = Differences {
            changed: vec![changed("c", [5, 5], 0, 4)],
            missing: things(&["d"]),
            new: things(&["e"]),
            moved: Vec::new(),
            unreadable: vec![Unreadable {
                path: "b".into(),
                why: WHY.into(),
                kind: Some(FILE),
            }],
        };
        assert_eq!(found, expected);
        assert!(found.any());
        let found = between(&then[..2], &files[..2], &[]);
        assert!(!found.any());
        assert_eq!(found.unreadable.len(), 1);
    }

    #[test]
    fn what_is_known_of_a_file_that_cannot_be_read_whole() {
        let then = [sealed("a", PART + 5, 1)];
        let whole = now("a", PART + 5, 1);
        let found = |file: Committed| between(&then, &[file], &[]).changed;
        assert_eq!(found(whole.clone()), []);
        assert_eq!(found(unread(whole.clone(), 0)), []);
        let longer = unread(now("a", PART + 6, 1), 1);
        let bytes = [PART + 5, PART + 6];
        assert_eq!(found(longer), [changed("a", bytes, PART, PART + 5)]);
        let shorter = now("a", PART - 1, 1);
        let bytes = [PART + 5, PART - 1];
        assert_eq!(found(shorter), [changed("a", bytes, 0, PART - 1)]);
        let mut other = unread(whole, 0);
        other.parts[1] = Ok(Mark {
            root: Some(Root([7; 32])),
            digest: None,
        });
        let bytes = [PART + 5; 2];
        assert_eq!(found(other.clone()), [changed("a", bytes, PART, PART + 4)]);
        assert_eq!(between(&then, &[other], &[]).unreadable.len(), 1);
    }

    /// A file that was added to differs first behind the parts that are as they were.
    #[test]
    fn where_a_longer_file_first_differs() {
        let then = [sealed("a", PART, 1)];
        let found = between(&then, &[now("a", PART + 3, 1)], &[]).changed;
        assert_eq!(found, [changed("a", [PART, PART + 3], PART, PART + 2)]);
        assert_eq!(
            found[0].told(),
            "a, which had 16777200 bytes and has 16777203"
        );
        assert_eq!(
            found[0].json().to_string(),
            "{\"path\": \"a\", \"kind\": \"length\", \"first_differing\": {\"from\": 16777200, \"to\": 16777202}, \"bytes_then\": 16777200, \"bytes_now\": 16777203}"
        );
        let empty = [sealed("a", 0, 1)];
        let found = between(&empty, &[now("a", 3, 1)], &[]).changed;
        assert_eq!(found, [changed("a", [0, 3], 0, 2)]);
    }

    #[test]
    fn nothing_is_said_of_what_is_below_a_folder_that_cannot_be_read() {
        let then = [
            sealed("a", 5, 1),
            sealed("a b", 5, 2),
            sealed("a/b/c", 5, 3),
            sealed("ab", 5, 4),
        ];
        let found = between(&then, &[], &[("a", "Permission denied")]);
        assert_eq!(found.missing, things(&["a b", "ab"]));
        // It is not known as a folder either, where a file of that name was sealed.
        let unreadable = |kind| Unreadable {
            path: "a".into(),
            why: "Permission denied".into(),
            kind: Some(kind),
        };
        assert_eq!(found.unreadable, [unreadable(FILE)]);
        let found = between(&then[1..], &[], &[("a", "Permission denied")]);
        assert_eq!(found.unreadable, [unreadable(FOLDER)]);
        let found = between(&[], &[], &[("a", "Permission denied")]);
        assert_eq!(found.unreadable[0].kind, None);
    }

    #[test]
    fn moved_files_are_known_by_their_bytes() {
        let then = [
            sealed("a", 5, 1),
            sealed("b", 5, 1),
            sealed("c", 5, 2),
            sealed("d", 0, 3),
        ];
        let files = [
            now("x", 5, 1),
            now("y", 0, 3),
            now("z", 5, 2),
            unread(now("zz", 5, 1), 0),
        ];
        let found = between(&then, &files, &[]);
        let moved = [("a", "x"), ("c", "z")].map(|(from, to)| Moved {
            from: from.into(),
            to: to.into(),
        });
        assert_eq!(found.moved, moved);
        // Of two missing files with the same bytes one was moved; an empty file may be any; what cannot be read may be any too.
        assert_eq!(found.missing, things(&["b", "d"]));
        assert_eq!(found.new, things(&["y", "zz"]));
    }

    #[test]
    fn digests_tell_what_roots_do() {
        let then = [
            sealed("a", 5, 1),
            sealed("b", PART + 5, 2),
            sealed("c", 5, 3),
        ];
        let files = [
            digested("b", PART + 5, 2),
            digested("d", 5, 1),
            digested("e", 5, 8),
        ];
        let found = between(&then, &files, &[]);
        assert_eq!(found.changed, []);
        assert_eq!(found.moved[0].to, "d");
        assert_eq!((found.missing, found.new), (things(&["c"]), things(&["e"])));
        let other = digested("b", PART + 5, 9);
        let found = between(&then[1..2], &[other], &[]).changed;
        assert_eq!(found, [changed("b", [PART + 5; 2], 0, PART - 1)]);
        // One of the two is enough.
        for change in [
            |mark: &mut Mark| mark.root = None,
            |mark: &mut Mark| mark.digest = None,
        ] {
            let mut file = now("a", 5, 9);
            file.parts.iter_mut().flatten().for_each(change);
            assert_eq!(between(&then[..1], &[file], &[]).changed.len(), 1);
        }
    }

    /// What differs in empty folders, of which these were sealed and these are there now.
    fn of_folders(form: Form, then: &[&str], files: &[Committed], now: &[&str]) -> Differences {
        let folders: Vec<Vec<u8>> = now.iter().map(|path| path.as_bytes().to_vec()).collect();
        let now = Now {
            files,
            folders: &folders,
            others: &[],
            unread: &[("hidden".into(), "Permission denied".into())],
        };
        let then = manifest(&[sealed("a/b", 5, 1)], then);
        Differences::between(&Manifest { form, ..then }, &now)
    }

    #[test]
    fn empty_folders_that_are_gone_or_came() {
        let here = [now("a/b", 5, 1)];
        let folders = |paths: &[&str]| -> Vec<Thing> {
            let folder = |path: &&str| Thing {
                path: path.to_string(),
                kind: "an empty folder",
            };
            paths.iter().map(folder).collect()
        };
        let found = of_folders(
            Form::Second,
            &["c", "d/e", "hidden/f"],
            &here,
            &["c", "d", "g"],
        );
        assert_eq!(found.missing, folders(&["d/e"]));
        assert_eq!(found.new, folders(&["g"]));
        assert_eq!(found.new[0].told(), "g, which is an empty folder");
        // A folder that was emptied was there before, and one that was filled is there still.
        let found = of_folders(Form::Second, &[], &[], &["a"]);
        assert_eq!((found.missing, found.new), (things(&["a/b"]), Vec::new()));
        let filled = [now("a/b", 5, 1), now("c/d", 5, 2)];
        let found = of_folders(Form::Second, &["c"], &filled, &[]);
        assert_eq!((found.missing, found.new), (Vec::new(), things(&["c/d"])));
        // A seal of the first form says nothing of them.
        assert!(!of_folders(Form::First, &[], &here, &["g"]).any());
    }
}
