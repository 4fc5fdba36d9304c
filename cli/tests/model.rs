//! What the program makes of some files is what a model made (tools/seal_vectors.py), which shares no code with the library.

use std::fs;
use std::path::Path;
use std::process::Command;

/// Runs the program in a folder; it must answer 0.
fn seal(folder: &Path, words: &str) {
    let run = Command::new(env!("CARGO_BIN_EXE_seal"))
        .args(words.split(' '))
        .current_dir(folder)
        .output()
        .unwrap();
    assert!(run.status.success(), "seal {words}: {run:?}");
}

/// The one value of a text file, which stands in its last line.
fn value(path: &Path) -> String {
    let text = fs::read_to_string(path).unwrap();
    text.lines().last().unwrap().into()
}

/// The digest of a file, in hexadecimal digits.
fn digest(path: &Path) -> String {
    dequmlo::Root(dequmlo::digest(&fs::read(path).unwrap()).unwrap()).to_string()
}

#[test]
fn files_are_sealed_and_opened_as_the_model_has_it() {
    let stored = concat!(env!("CARGO_MANIFEST_DIR"), "/tests/model.txt");
    for line in fs::read_to_string(stored).unwrap().lines() {
        let fields: Vec<&str> = line.split(' ').collect();
        let (size, profile, widths, root, claim, tail, records) = match &fields[..] {
            [size, profile, widths, root, claim, tail, records @ ..] => {
                (size, profile, widths, root, claim, tail, records)
            }
            _ => panic!("{line}"),
        };
        let said = format!("{size} {profile} {widths}");
        let folder = Path::new(env!("CARGO_TARGET_TMPDIR"))
            .join(format!("model-{}", said.replace(' ', "-")));
        let _ = fs::remove_dir_all(&folder);
        fs::create_dir(&folder).unwrap();
        let bytes: Vec<u8> = (0..size.parse().unwrap())
            .map(|i: usize| (7 * i + 3) as u8)
            .collect();
        fs::write(folder.join("f"), bytes).unwrap();

        let commit = format!("commit f --profile {profile} --widths {widths}");
        seal(&folder, &commit);
        assert_eq!(value(&folder.join("f.seal/root.txt")), *root, "{said}");
        let records: Vec<(&str, &str)> =
            records.iter().map(|r| r.split_once(':').unwrap()).collect();
        let positions: Vec<&str> = records.iter().map(|(p, _)| *p).collect();
        seal(
            &folder,
            &format!(
                "open f --seal f.seal --seed dice --at {}",
                positions.join(",")
            ),
        );
        let opening = folder.join("f.opening");
        assert_eq!(value(&opening.join("claim.txt")), *claim, "{said}");
        assert_eq!(digest(&opening.join("tail.record")), *tail, "{said}");
        for (position, expected) in records {
            let record = opening.join(format!("query-{position}.record"));
            assert_eq!(digest(&record), expected, "{said} at {position}");
        }
    }
}
