//! The reader of manifests on texts that were changed at random, beside that of tools/check_project.py: neither ends with a fault, and both take the same texts
//! for manifests, with the same files.

use crate::manifest::{Entry, Form, Manifest, PART};
use dequmlo::Root;
use std::io::{Read, Write};
use std::process::{Child, Command, Stdio};

/// How many texts go to the second witness at a time.
const BATCH: usize = 5_000;

/// What the second witness answers for each text: its length comes first, 4 bytes, and then the text.
const WITNESS: &str = "\
import struct, sys
sys.path.insert(0, sys.argv[1])
from check_project import manifest
while True:
    length = sys.stdin.buffer.read(4)
    if not length: break
    files = manifest(sys.stdin.buffer.read(struct.unpack('<I', length)[0]))
    known = 0
    if files is not None:
        known = 1 + len(files)
        for path, (size, roots) in files.items(): known = (known * 31 + size + len(roots) * 7 + sum(path)) % 2 ** 64
    sys.stdout.buffer.write(struct.pack('<Q', known))
    sys.stdout.buffer.flush()
";

/// The same of what this program reads.
fn known(text: &[u8]) -> u64 {
    let manifest = std::str::from_utf8(text).ok().and_then(Manifest::of_text);
    let files = match manifest {
        Some(manifest) => manifest.files,
        None => return 0,
    };
    let mut known = 1 + files.len() as u64;
    for Entry {
        path, bytes, parts, ..
    } in files
    {
        let sum: u64 = path.iter().map(|byte| u64::from(*byte)).sum();
        known = known
            .wrapping_mul(31)
            .wrapping_add(bytes)
            .wrapping_add(parts.len() as u64 * 7)
            .wrapping_add(sum);
    }
    known
}

/// Numbers that look drawn, the same at every run.
struct Drawn(u64);

impl Drawn {
    fn below(&mut self, end: usize) -> usize {
        self.0 ^= self.0 << 13;
        self.0 ^= self.0 >> 7;
        self.0 ^= self.0 << 17;
        (self.0 >> 11) as usize % end.max(1)
    }
}

/// Pieces that a reader may stumble over.
const PIECES: [&[u8]; 27] = [
    b"\n",
    b"\r\n",
    b" ",
    b"/",
    b"//",
    b"..",
    b"/../",
    b"\\",
    b"\\00",
    b"\\5c",
    b"\\2f",
    b"\\20",
    b"\\ff",
    b"\0",
    b"\xff",
    b"\xc3\xa9",
    b"file ",
    b"part ",
    b"format 1\n",
    b"format 2\n",
    b"folder ",
    b"folder b\n",
    b"18446744073709551615",
    b"18446744073692774416",
    b"16777201",
    b"0",
    b"-1",
];

/// A text with one to four changes.
fn mutant(text: &[u8], drawn: &mut Drawn) -> Vec<u8> {
    let mut text = text.to_vec();
    for _ in 0..=drawn.below(4) {
        let at = drawn.below(text.len() + 1);
        let to = (at + drawn.below(12)).min(text.len());
        match drawn.below(6) {
            0 => drop(text.splice(at..to, PIECES[drawn.below(PIECES.len())].iter().copied())),
            1 => drop(text.splice(at..at, PIECES[drawn.below(PIECES.len())].iter().copied())),
            2 => drop(text.drain(at..to)),
            3 => {
                let taken = text[at..to].to_vec();
                let at = drawn.below(text.len() + 1);
                drop(text.splice(at..at, taken));
            }
            4 => lines_swapped(&mut text, drawn),
            _ => {
                if let Some(byte) = text.get_mut(at) {
                    *byte ^= 1 << drawn.below(8);
                }
            }
        }
    }
    text
}

fn lines_swapped(text: &mut Vec<u8>, drawn: &mut Drawn) {
    let mut lines: Vec<&[u8]> = text.split_inclusive(|byte| *byte == b'\n').collect();
    let (a, b) = (drawn.below(lines.len()), drawn.below(lines.len()));
    if a < lines.len() && b < lines.len() {
        lines.swap(a, b);
    }
    *text = lines.concat();
}

/// Manifests of which the mutants are made.
fn sound() -> Vec<Vec<u8>> {
    let roots = |parts: usize| (0..parts).map(|part| Root([part as u8; 32]));
    let file = |path: &[u8], bytes: u64, parts: usize| Entry {
        path: path.to_vec(),
        bytes,
        parts: roots(parts).collect(),
        digests: roots(parts).collect(),
    };
    let all = [
        vec![],
        vec![file(b"a", 0, 1)],
        vec![file(b"a b/c", 17, 1), file("план".as_bytes(), 5, 1)],
        vec![
            file(b"a\n", 16, 1),
            file(b"b\xff", PART + 1, 2),
            file(b"c ", 9, 1),
        ],
    ];
    let first = |mut files: Vec<Entry>| {
        files.iter_mut().for_each(|file| file.digests.clear());
        let form = Form::First;
        Manifest {
            files,
            ..Manifest::empty(form)
        }
    };
    let second = |files: Vec<Entry>| Manifest {
        form: Form::Second,
        files,
        folders: [&b"A"[..], b"a/b", b"a b/\\", b"b"]
            .map(|path| path.to_vec())
            .to_vec(),
    };
    let mut sound = Vec::new();
    for files in all {
        let mut folders = second(files.clone());
        folders.folders.sort();
        if folders.files.iter().any(|file| file.path == b"a") {
            folders.folders.retain(|path| path != b"a/b");
        }
        let manifests = [first(files.clone()), folders];
        sound.extend(manifests.map(|manifest| manifest.text().into_bytes()));
    }
    sound
}

/// The answers of the second witness to some texts.
fn witnessed(witness: &mut Child, texts: &[Vec<u8>]) -> Vec<u64> {
    let mut stdin = witness.stdin.take().unwrap();
    let stdout = witness.stdout.as_mut().unwrap();
    let mut answers = vec![0; 8 * texts.len()];
    std::thread::scope(|scope| {
        scope.spawn(|| {
            for text in texts {
                stdin.write_all(&(text.len() as u32).to_le_bytes()).unwrap();
                stdin.write_all(text).unwrap();
            }
            stdin.flush().unwrap();
        });
        stdout.read_exact(&mut answers).unwrap();
    });
    witness.stdin = Some(stdin);
    let number = |bytes: &[u8]| u64::from_le_bytes(bytes.try_into().unwrap());
    answers.chunks_exact(8).map(number).collect()
}

/// So many mutants, on each of which both must say the same. How many of them are manifests.
fn compared(mutants: usize) -> usize {
    let tools = concat!(env!("CARGO_MANIFEST_DIR"), "/../tools");
    let mut witness = Command::new("python3")
        .args(["-c", WITNESS, tools])
        .env("PYTHONDONTWRITEBYTECODE", "1")
        .stdin(Stdio::piped())
        .stdout(Stdio::piped())
        .spawn()
        .unwrap();
    let (sound, mut drawn, mut taken) = (sound(), Drawn(0x9e37_79b9_7f4a_7c15), 0);
    for start in (0..mutants).step_by(BATCH) {
        let count = BATCH.min(mutants - start);
        let texts: Vec<Vec<u8>> = (start..start + count)
            .map(|i| mutant(&sound[i % sound.len()], &mut drawn))
            .collect();
        for (text, said) in texts.iter().zip(witnessed(&mut witness, &texts)) {
            let own = known(text);
            assert_eq!(own, said, "{:?}", String::from_utf8_lossy(text));
            taken += usize::from(own > 0);
        }
    }
    drop(witness.stdin.take());
    assert!(witness.wait().unwrap().success());
    taken
}

#[test]
fn the_witness_reads_the_same_manifests() {
    let taken = compared(20_000);
    // Not all are refused at the first look.
    assert!(taken > 100, "{taken}");
}

/// By hand, since it takes minutes: `cargo test --release --bin seal -- --ignored mutants`.
#[test]
#[ignore = "takes minutes"]
fn ten_million_mutants() {
    println!("{} of 10,000,000 are manifests", compared(10_000_000));
}
