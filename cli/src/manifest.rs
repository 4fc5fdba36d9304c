//! A project's manifest: the length of every file, the root and the digest of each of its parts, and the empty folders, in the one form of SPECIFICATION 16.2, so
//! that the same project has the same manifest everywhere. Before version 0.10.0 there were neither digests nor folders in it.

use crate::format::first_line;
use crate::reading::acts_on_a_terminal;
use crate::spelling::has_another_spelling;
use crate::table::MOST_BYTES;
use dequmlo::Root;
use std::collections::HashSet;

pub const MANIFEST: &str = "manifest.txt";

/// The bytes of every part of a file but the last.
pub const PART: u64 = MOST_BYTES as u64;

/// The form of a manifest, by the number in its first line.
#[derive(Clone, Copy, Debug, PartialEq, Eq)]
pub enum Form {
    /// Files and the roots of their parts.
    First,
    /// With the digest of each part, and the empty folders.
    Second,
}

impl Form {
    pub const ALL: [Form; 2] = [Form::First, Form::Second];

    pub fn number(self) -> &'static str {
        match self {
            Form::First => "1",
            Form::Second => "2",
        }
    }
}

/// A file of a project.
#[derive(Clone, Debug, PartialEq, Eq)]
pub struct Entry {
    /// The path below the project's folder, its names with slashes between them.
    pub path: Vec<u8>,
    pub bytes: u64,
    /// The root of each part.
    pub parts: Vec<Root>,
    /// The digest of each part; none in the first form.
    pub digests: Vec<Root>,
}

/// The files and the empty folders, each rising by the bytes of their paths. The first form has no folders.
#[derive(Clone, Debug, PartialEq, Eq)]
pub struct Manifest {
    pub form: Form,
    pub files: Vec<Entry>,
    pub folders: Vec<Vec<u8>>,
}

/// How many parts a file of so many bytes has: an empty file has one. Of any number, also one that no file has and that a text may state.
pub fn part_count(bytes: u64) -> usize {
    let begun = u64::from(bytes % PART > 0);
    (bytes / PART + begun).max(1) as usize
}

/// Where a part of a file starts, and how many bytes it has.
pub fn part_place(bytes: u64, index: usize) -> (u64, usize) {
    let start = index as u64 * PART;
    (start, (bytes - start).min(PART) as usize)
}

/// A number of things by their name.
pub fn counted(number: usize, name: &str) -> String {
    let end = if number == 1 { "" } else { "s" };
    format!("{number} {name}{end}")
}

impl Manifest {
    /// A project without files.
    pub fn empty(form: Form) -> Manifest {
        Manifest {
            form,
            files: Vec::new(),
            folders: Vec::new(),
        }
    }

    pub fn text(&self) -> String {
        let mut text = first_line(self.form.number());
        let mut folders = self.folders.iter().peekable();
        for file in &self.files {
            while let Some(folder) = folders.next_if(|folder| **folder < file.path) {
                text += &folder_line(folder);
            }
            file.write(&mut text);
        }
        for folder in folders {
            text += &folder_line(folder);
        }
        text
    }

    /// The manifest that has this text, to the letter.
    pub fn of_text(text: &str) -> Option<Manifest> {
        let form_of = |form: &Form| text.starts_with(&first_line(form.number()));
        let form = Form::ALL.into_iter().find(form_of)?;
        let mut manifest = Manifest::empty(form);
        for line in text.lines().skip(1) {
            match line.split_once(' ')? {
                ("file", rest) => {
                    let (bytes, path) = rest.split_once(' ')?;
                    manifest.files.push(Entry {
                        path: unescaped(path)?,
                        bytes: bytes.parse().ok()?,
                        parts: Vec::new(),
                        digests: Vec::new(),
                    });
                }
                ("part", rest) => manifest.files.last_mut()?.add(form, rest)?,
                ("folder", path) => manifest.folders.push(unescaped(path)?),
                _ => return None,
            }
        }
        (manifest.in_order() && manifest.text() == text).then_some(manifest)
    }

    pub fn find(&self, path: &[u8]) -> Option<&Entry> {
        let place = self
            .files
            .binary_search_by(|entry| entry.path[..].cmp(path));
        place.ok().map(|place| &self.files[place])
    }

    /// The file that a text names: as it is shown, or by the bytes of its path. Where both are files, the one that is shown so.
    pub fn named(&self, text: &[u8]) -> Option<&Entry> {
        let path = std::str::from_utf8(text).ok().and_then(unescaped);
        path.and_then(|path| self.find(&path))
            .or_else(|| self.find(text))
    }

    /// The one file of a project that has one and nothing else.
    pub fn only_file(&self) -> Option<&Entry> {
        match &self.files[..] {
            [entry] if self.folders.is_empty() => Some(entry),
            _ => None,
        }
    }

    pub fn bytes(&self) -> u64 {
        self.files.iter().map(|entry| entry.bytes).sum()
    }

    pub fn parts(&self) -> usize {
        self.files.iter().map(|entry| entry.parts.len()).sum()
    }

    /// Whether the paths rise and could be those of files and empty folders below a folder, and each file has what its length and the form ask for.
    fn in_order(&self) -> bool {
        let paths: Vec<&Vec<u8>> = self.files.iter().map(|entry| &entry.path).collect();
        let rise = |paths: &[&Vec<u8>]| paths.windows(2).all(|two| two[0] < two[1]);
        let folders: Vec<&Vec<u8>> = self.folders.iter().collect();
        let empty: HashSet<&[u8]> = folders.iter().map(|folder| &folder[..]).collect();
        rise(&paths)
            && rise(&folders)
            && (self.form == Form::Second || folders.is_empty())
            && self.files.iter().all(|entry| entry.is_whole(self.form))
            && paths.iter().all(|path| !empty.contains(&path[..]))
            && paths
                .iter()
                .chain(&folders)
                .all(|path| is_path(path) && above(path).all(|folder| !empty.contains(folder)))
    }
}

impl Entry {
    fn write(&self, text: &mut String) {
        *text += &format!("file {} {}\n", self.bytes, escaped(&self.path));
        for (i, root) in self.parts.iter().enumerate() {
            *text += &match self.digests.get(i) {
                None => format!("part {root}\n"),
                Some(digest) => format!("part {root} {digest}\n"),
            };
        }
    }

    /// Adds a part by the text of its line.
    fn add(&mut self, form: Form, text: &str) -> Option<()> {
        let (root, digest) = match form {
            Form::First => (text, None),
            Form::Second => text
                .split_once(' ')
                .map(|(root, digest)| (root, Some(digest)))?,
        };
        self.parts.push(root.parse().ok()?);
        if let Some(digest) = digest {
            self.digests.push(digest.parse().ok()?);
        }
        Some(())
    }

    /// Whether it has the parts that its length asks for, and the digests that the form does.
    fn is_whole(&self, form: Form) -> bool {
        let digests = match form {
            Form::First => 0,
            Form::Second => self.parts.len(),
        };
        self.parts.len() == part_count(self.bytes) && self.digests.len() == digests
    }
}

fn folder_line(path: &[u8]) -> String {
    format!("folder {}\n", escaped(path))
}

/// Whether a path could be one below a folder.
fn is_path(path: &[u8]) -> bool {
    let mut names = path.split(|byte| *byte == b'/');
    !path.contains(&0) && names.all(|name| ![&b""[..], b".", b".."].contains(&name))
}

/// The folders on the way to a path.
fn above(path: &[u8]) -> impl Iterator<Item = &[u8]> {
    let is_slash = |(_, byte): &(usize, &u8)| **byte == b'/';
    path.iter()
        .enumerate()
        .filter(is_slash)
        .map(|(i, _)| &path[..i])
}

/// A path on one line: each byte below 32, the byte 127, the backslash, a blank at the end, and each byte that is not part of a character in
/// UTF-8 are written as a backslash and two digits.
pub fn escaped(path: &[u8]) -> String {
    on_one_line(path, |_, _| false)
}

/// A path as it is shown to a person, by the same rule; and so are the bytes of each character that a terminal acts on, or that has another spelling which looks
/// the same. It can be read back as a manifest's can, and two paths are shown alike only if they are the same.
pub fn shown(path: &[u8]) -> String {
    on_one_line(path, |before, c| {
        acts_on_a_terminal(c) || has_another_spelling(before, c)
    })
}

/// A path on one line, where the bytes of some more characters, behind the one before them, are written as digits too.
fn on_one_line(path: &[u8], is_hidden: impl Fn(Option<char>, char) -> bool) -> String {
    let mut text = String::new();
    let mut rest = path;
    let mut before = None;
    while !rest.is_empty() {
        let valid = match std::str::from_utf8(rest) {
            Ok(all) => all,
            Err(e) => std::str::from_utf8(&rest[..e.valid_up_to()]).expect("so far it is valid"),
        };
        for (i, c) in valid.char_indices() {
            let last = i + c.len_utf8() == rest.len();
            let is_no_text = c < ' ' || c == '\x7f' || c == '\\' || c == ' ' && last;
            if is_no_text || is_hidden(before, c) {
                escape(&mut text, c.encode_utf8(&mut [0; 4]).as_bytes());
            } else {
                text.push(c);
            }
            before = Some(c);
        }
        rest = &rest[valid.len()..];
        if let [byte, after @ ..] = rest {
            escape(&mut text, &[*byte]);
            rest = after;
            before = None;
        }
    }
    text
}

fn escape(text: &mut String, bytes: &[u8]) {
    for byte in bytes {
        text.push('\\');
        text.push(char::from(DIGITS[usize::from(byte >> 4)]));
        text.push(char::from(DIGITS[usize::from(byte & 15)]));
    }
}

const DIGITS: [u8; 16] = *b"0123456789abcdef";

/// The path of a text; none where a backslash is not followed by two digits in lowercase.
pub fn unescaped(text: &str) -> Option<Vec<u8>> {
    let digit = |byte: u8| match byte {
        b'0'..=b'9' => Some(byte - b'0'),
        b'a'..=b'f' => Some(byte - b'a' + 10),
        _ => None,
    };
    let mut path = Vec::with_capacity(text.len());
    let mut bytes = text.bytes();
    while let Some(byte) = bytes.next() {
        path.push(match byte {
            b'\\' => digit(bytes.next()?)? << 4 | digit(bytes.next()?)?,
            byte => byte,
        });
    }
    Some(path)
}

#[cfg(test)]
mod tests {
    use super::{escaped, part_count, part_place, shown, unescaped, Entry, Form, Manifest, PART};
    use dequmlo::Root;

    fn file(path: &[u8], bytes: u64) -> Entry {
        let parts = 0..part_count(bytes);
        Entry {
            path: path.to_vec(),
            bytes,
            parts: parts.clone().map(|i| Root([i as u8; 32])).collect(),
            digests: parts.map(|i| Root([i as u8 + 7; 32])).collect(),
        }
    }

    /// A manifest of the second form.
    fn of(files: &[Entry], folders: &[&[u8]]) -> Manifest {
        Manifest {
            form: Form::Second,
            files: files.to_vec(),
            folders: folders.iter().map(|path| path.to_vec()).collect(),
        }
    }

    /// The same in the first form.
    fn first(files: &[Entry]) -> Manifest {
        let without = |file: &Entry| Entry {
            digests: Vec::new(),
            ..file.clone()
        };
        Manifest {
            form: Form::First,
            files: files.iter().map(without).collect(),
            folders: Vec::new(),
        }
    }

    #[test]
    fn a_path_on_one_line() {
        for (path, text) in [
            (&b"plans/north.dwg"[..], "plans/north.dwg"),
            ("Πρόσοψη/立面図 ١".as_bytes(), "Πρόσοψη/立面図 ١"),
            (b"two\nlines\\", "two\\0alines\\5c"),
            (b"blank ", "blank\\20"),
            (b" a  b", " a  b"),
            (b"\x7f\x80\xc3\xa9\xc3", "\\7f\\80é\\c3"),
            (b"\xe2\x82A\xf0\x9f\x98", "\\e2\\82A\\f0\\9f\\98"),
            (b"\xc0\xaf\xed\xa0\x80", "\\c0\\af\\ed\\a0\\80"),
        ] {
            assert_eq!(escaped(path), text);
            assert_eq!(unescaped(text).unwrap(), path);
        }
        for text in ["\\", "\\0", "a\\0g", "\\é", "\\+f", "\\0A"] {
            assert_eq!(unescaped(text), None, "{text}");
        }
    }

    /// Two spellings of one name, and what a terminal acts on, are shown by their bytes, and read back.
    #[test]
    fn a_path_as_it_is_shown() {
        for (path, text) in [
            ("plans/grundriß é 立面図", "plans/grundriß é 立面図"),
            ("e\u{301}", "e\\cc\\81"),
            ("a\u{202e}b\u{85}", "a\\e2\\80\\aeb\\c2\\85"),
            ("\u{301}", "\\cc\\81"),
            ("two\nlines\\ ", "two\\0alines\\5c\\20"),
        ] {
            assert_eq!(shown(path.as_bytes()), text);
            assert_eq!(unescaped(text).unwrap(), path.as_bytes());
        }
        assert_eq!(shown(b"\xe0\xa6\xff"), "\\e0\\a6\\ff");
    }

    #[test]
    fn a_file_by_what_is_shown_of_it_or_by_its_bytes() {
        let paths = [&b"a\\0a"[..], b"a\n", b"b\\c", b"c\xff"];
        let mut files = paths.map(|path| file(path, 1)).to_vec();
        files.sort_by(|a, b| a.path.cmp(&b.path));
        let manifest = of(&files, &[]);
        let path = |text: &[u8]| manifest.named(text).map(|entry| &entry.path[..]);
        for file in &manifest.files {
            assert_eq!(path(shown(&file.path).as_bytes()), Some(&file.path[..]));
        }
        assert_eq!(path(b"a\\0a"), Some(&b"a\n"[..]));
        assert_eq!(path(b"a\\5c0a"), Some(&b"a\\0a"[..]));
        for text in [&b"a\n"[..], b"b\\c", b"c\xff"] {
            assert_eq!(path(text), Some(text));
        }
        for text in [&b"a"[..], b"b\\5c", b"\\62\\5cd", b""] {
            assert_eq!(path(text), None);
        }
    }

    #[test]
    fn parts_of_a_file() {
        for (bytes, count) in [
            (0, 1),
            (1, 1),
            (PART, 1),
            (PART + 1, 2),
            (3 * PART, 3),
            (u64::MAX, 1_099_512_676_354),
        ] {
            assert_eq!(part_count(bytes), count, "{bytes}");
        }
        assert_eq!(part_place(PART + 7, 0), (0, PART as usize));
        assert_eq!(part_place(PART + 7, 1), (PART, 7));
        assert_eq!(part_place(0, 0), (0, 0));
    }

    #[test]
    fn what_is_written_is_read() {
        let files = [
            file(b"a b\n", 0),
            file(b"a/\xff", 16),
            file(b"b", 2 * PART + 1),
        ];
        for manifest in [
            of(&files, &[]),
            of(&files, &[b"c/d"]),
            of(&files, &[b"A", b"a ", b"a/b", b"c"]),
            of(&[], &[b"a", b"a b"]),
            first(&files),
        ] {
            assert_eq!(Manifest::of_text(&manifest.text()), Some(manifest));
        }
        let manifest = of(&files, &[]);
        assert_eq!(manifest.find(b"a/\xff"), Some(&files[1]));
        assert_eq!(manifest.find(b"a"), None);
        assert_eq!((manifest.bytes(), manifest.parts()), (2 * PART + 17, 5));
        for form in Form::ALL {
            let empty = Manifest::empty(form);
            assert_eq!(Manifest::of_text(&empty.text()), Some(empty));
        }
        assert_eq!(of(&files, &[]).only_file(), None);
        assert_eq!(of(&files[2..], &[]).only_file(), Some(&files[2]));
        assert_eq!(of(&files[2..], &[b"c"]).only_file(), None);
    }

    #[test]
    fn the_text_of_both_forms() {
        let files = [file(b"a b\n", 0), file(b"c", 1)];
        let [root, digest] = [Root([0; 32]), Root([7; 32])];
        assert_eq!(
            first(&files).text(),
            format!("format 1\nfile 0 a b\\0a\npart {root}\nfile 1 c\npart {root}\n")
        );
        assert_eq!(
            of(&files, &[b"a", b"b\\", b"d"]).text(),
            format!("format 2\nfolder a\nfile 0 a b\\0a\npart {root} {digest}\nfolder b\\5c\nfile 1 c\npart {root} {digest}\nfolder d\n")
        );
    }

    #[test]
    fn another_text_is_none() {
        let both = [file(b"A", 16), file(b"b\n", 17)];
        let turned = [both[1].clone(), both[0].clone()];
        let twice = [both[0].clone(), both[0].clone()];
        let without_parts = Entry {
            parts: Vec::new(),
            digests: Vec::new(),
            ..file(b"A", 0)
        };
        let without_digests = first(&both).text().replace("format 1", "format 2");
        let mut others = vec![
            without_digests,
            of(&both, &[]).text().replace("format 2", "format 1"),
            of(&both, &[]).text().replace("format 2", "format 3"),
            of(&both, &[b"a"]).text().replace("format 2", "format 1"),
        ];
        for (form, text) in [first as fn(&[Entry]) -> Manifest, |files| of(files, &[])]
            .map(|form| (form, form(&both).text()))
        {
            assert!(Manifest::of_text(&text).is_some());
            others.extend([
                form(&turned).text(),
                form(&twice).text(),
                form(std::slice::from_ref(&without_parts)).text(),
                text.replace("file 16", "file 016"),
                text.replace("file 16", "file +16"),
                text.replace("file 16", "file 16777201"),
                text.replace("file 16", "file 18446744073709551615"),
                text.replace("file 16", "file 18446744073692774416"),
                text.replace("file 16", "file 18446744073709551616"),
                text.replace("file 16", "file 99999999999999999999"),
                text.replace("\\0a", "\\0A"),
                text.replace(" A\n", " \\41\n"),
                text.replace("part 00", "part  00"),
                text.replace('\n', "\r\n"),
                format!("{text}\n"),
                format!("{text}part {}\n", Root([0; 32])),
                format!("{text}part {0} {0}\n", Root([0; 32])),
                text[..text.len() - 1].into(),
                text["format 1\n".len()..].into(),
            ]);
            for path in [
                &b"/a"[..],
                b"a/",
                b"a//b",
                b".",
                b"../a",
                b"a/../b",
                b"",
                b"a\0b",
            ] {
                others.push(form(&[file(path, 1)]).text());
            }
        }
        // An empty folder has nothing in it, is no file, and stands once and in its place.
        let files = [file(b"a/b", 1), file(b"c", 1)];
        for folders in [
            &[&b"a"[..]][..],
            &[b"c"],
            &[b"d", b"d/e"],
            &[b"d", b"d"],
            &[b"e", b"d"],
            &[b"a/b/c", b"a/b/c/d/e"],
            &[b""],
            &[b"d/"],
            &[b"d/.."],
        ] {
            others.push(of(&files, folders).text());
        }
        let text = of(&files, &[b"b"]).text();
        others.push(text.replace("folder b\n", "") + "folder b\n");
        for other in others {
            assert_eq!(Manifest::of_text(&other), None, "{other:?}");
        }
    }
}
