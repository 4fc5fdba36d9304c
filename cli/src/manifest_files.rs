//! A manifest as files of a seal or an opening. One that a deposit holds is `manifest.txt`. A larger one is cut into parts as a file is, `manifest-1.part` and so on,
//! and `manifest.txt` has their digests in its place:
//!
//!     format 2
//!     manifest 20000000        how many bytes the manifest has
//!     part DIGEST              of each part
//!
//! The project's root is that of `manifest.txt`, so that it stands for the parts too.

use crate::digest::Digester;
use crate::folder::Named;
use crate::format::first_line;
use crate::manifest::{part_count, part_place, Form, Manifest, MANIFEST, PART};
use dequmlo::Root;

/// The name of a part of a manifest, counted from 0.
pub fn part_name(index: usize) -> String {
    format!("manifest-{}.part", index + 1)
}

/// Whether a file of this name is a manifest, or a part of one.
pub fn is_of_a_manifest(name: &str) -> bool {
    let digits = name.strip_prefix("manifest-");
    let digits = digits.and_then(|rest| rest.strip_suffix(".part"));
    let number = digits.and_then(|digits| digits.parse::<usize>().ok());
    let is_part = |number: usize| number > 0 && part_name(number - 1) == name;
    name == MANIFEST || number.map_or(false, is_part)
}

/// The digests of the parts of a manifest that is larger than a deposit.
#[derive(Debug, PartialEq, Eq)]
pub struct List {
    pub bytes: u64,
    pub digests: Vec<Root>,
}

impl List {
    fn text(&self) -> String {
        let mut text = first_line(Form::Second.number());
        text += &format!("manifest {}\n", self.bytes);
        for digest in &self.digests {
            text += &format!("part {digest}\n");
        }
        text
    }

    /// The list that has this text, to the letter.
    pub fn of_text(text: &str) -> Option<List> {
        let mut lines = text.lines().skip(1);
        let bytes = lines.next()?.strip_prefix("manifest ")?.parse().ok()?;
        let digest = |line: &str| line.strip_prefix("part ")?.parse().ok();
        let digests = lines.map(digest).collect::<Option<Vec<Root>>>()?;
        let list = List { bytes, digests };
        let is_whole = list.bytes > PART && list.digests.len() == part_count(list.bytes);
        (is_whole && list.text() == text).then_some(list)
    }

    /// The bytes of a part of the manifest.
    pub fn size(&self, index: usize) -> usize {
        part_place(self.bytes, index).1
    }
}

/// The files of a manifest: `manifest.txt` first, and then its parts, if it has any.
pub fn files(manifest: &Manifest, digester: &Digester) -> Vec<Named> {
    in_files(manifest.text().into_bytes(), digester)
}

fn in_files(text: Vec<u8>, digester: &Digester) -> Vec<Named> {
    if text.len() as u64 <= PART {
        return vec![(MANIFEST.into(), text)];
    }
    let parts: Vec<&[u8]> = text.chunks(PART as usize).collect();
    let list = List {
        bytes: text.len() as u64,
        digests: parts.iter().map(|part| digester.digest(part)).collect(),
    };
    let mut files: Vec<Named> = vec![(MANIFEST.into(), list.text().into_bytes())];
    let named = |(i, part): (usize, &&[u8])| (part_name(i), part.to_vec());
    files.extend(parts.iter().enumerate().map(named));
    files
}

/// The most bytes of `manifest.txt` and its parts for files of these paths and lengths, and empty folders of these paths: so many are needed for them.
pub fn size<'a>(
    files: impl Iterator<Item = (&'a [u8], u64)>,
    folders: impl Iterator<Item = &'a [u8]>,
) -> u64 {
    // Of a path, no byte takes more than three characters.
    let line = |path: &[u8]| 32 + 3 * path.len() as u64;
    let files = files.map(|(path, bytes)| line(path) + 135 * part_count(bytes) as u64);
    let text = files.sum::<u64>() + folders.map(line).sum::<u64>();
    text + 70 * part_count(text) as u64 + 64
}

#[cfg(test)]
mod tests {
    use super::{in_files, is_of_a_manifest, part_name, Digester, List};
    use crate::manifest::{MANIFEST, PART};
    use dequmlo::{Key, Root};

    #[test]
    fn a_manifest_that_a_deposit_holds_is_one_file() {
        let text = vec![b'a'; PART as usize];
        let files = in_files(text.clone(), &Digester::of(None));
        assert_eq!(files, [(MANIFEST.to_string(), text)]);
    }

    #[test]
    fn a_larger_one_is_in_parts() {
        let text: Vec<u8> = (0..PART as usize + 5).map(|i| i as u8).collect();
        let [plain, keyed] = [None, Some(&Key::new([7; 32]))].map(|key| {
            let files = in_files(text.clone(), &Digester::of(key));
            let names: Vec<&str> = files.iter().map(|(name, _)| &name[..]).collect();
            assert_eq!(names, [MANIFEST, "manifest-1.part", "manifest-2.part"]);
            assert_eq!([&files[1].1[..], &files[2].1].concat(), text);
            let list = List::of_text(std::str::from_utf8(&files[0].1).unwrap()).unwrap();
            assert_eq!(
                (list.bytes, list.size(0), list.size(1)),
                (PART + 5, PART as usize, 5)
            );
            list.digests
        });
        assert_eq!(plain[1].0, dequmlo::digest(&text[PART as usize..]).unwrap());
        assert_ne!(plain, keyed);
    }

    #[test]
    fn a_list_is_read_to_the_letter() {
        let list = List {
            bytes: PART + 1,
            digests: vec![Root([7; 32]), Root([8; 32])],
        };
        let text = list.text();
        assert!(text.starts_with("format 2\nmanifest 16777201\npart 0707"));
        assert_eq!(List::of_text(&text), Some(list));
        for other in [
            text.replace("format 2", "format 1"),
            text.replace("16777201", "16777200"),
            text.replace("16777201", "016777201"),
            text.replace("16777201", "33554401"),
            text.replace("16777201", "99999999999999999999"),
            text.replace("part 08", "part 0808"),
            text.replace('\n', "\r\n"),
            format!("{text}\n"),
            format!("{text}part {}\n", Root([0; 32])),
            text[..text.len() - 1].into(),
            String::new(),
        ] {
            assert_eq!(List::of_text(&other), None, "{other:?}");
        }
    }

    #[test]
    fn names_of_manifests() {
        assert_eq!(part_name(0), "manifest-1.part");
        for name in [MANIFEST, "manifest-1.part", "manifest-10.part"] {
            assert!(is_of_a_manifest(name), "{name}");
        }
        for name in [
            "manifest",
            "manifest-0.part",
            "manifest-01.part",
            "manifest-+1.part",
            "manifest-.part",
            "manifest-1.txt",
        ] {
            assert!(!is_of_a_manifest(name), "{name}");
        }
    }
}
