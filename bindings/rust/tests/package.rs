//! What engineers find beside the code: the licence in every manifest, one version everywhere, must_use and Debug on what is public.

use dequmlo::{Sizes, Widths};
use std::fs;
use std::path::{Path, PathBuf};

fn root() -> PathBuf {
    Path::new(env!("CARGO_MANIFEST_DIR")).join("../..")
}

fn read(name: &str) -> String {
    fs::read_to_string(root().join(name)).unwrap_or_else(|e| panic!("{name}: {e}"))
}

/// Every manifest of the repository, from its root.
fn manifests() -> Vec<String> {
    let mut found = Vec::new();
    let mut folders = vec![root()];
    while let Some(folder) = folders.pop() {
        for entry in fs::read_dir(folder).unwrap() {
            let path = entry.unwrap().path();
            let name = path.file_name().unwrap().to_str().unwrap();
            if path.is_dir() && name != "target" && !name.starts_with('.') {
                folders.push(path);
            } else if name == "Cargo.toml" {
                let name = path.strip_prefix(root()).unwrap();
                found.push(name.to_str().unwrap().to_string());
            }
        }
    }
    found
}

/// The value of a field of a manifest.
fn field(manifest: &str, name: &str) -> Option<String> {
    let line = manifest
        .lines()
        .find(|line| line.starts_with(&format!("{name} = ")))?;
    Some(line.split('"').nth(1)?.to_string())
}

#[test]
fn every_manifest_says_what_a_package_needs() {
    let names = manifests();
    for expected in [
        "bindings/rust/Cargo.toml",
        "cli/Cargo.toml",
        "oracle/Cargo.toml",
    ] {
        assert!(names.iter().any(|name| name == expected), "{names:?}");
    }
    for name in names {
        let manifest = read(&name);
        assert_eq!(
            field(&manifest, "license").as_deref(),
            Some("MIT OR Apache-2.0"),
            "{name}"
        );
        for needed in ["description", "rust-version", "readme"] {
            assert!(field(&manifest, needed).is_some(), "{name}: no {needed}");
        }
        let readme = root()
            .join(&name)
            .with_file_name(field(&manifest, "readme").unwrap());
        assert!(readme.exists(), "{name}: there is no {}", readme.display());
    }
    let own = read("bindings/rust/Cargo.toml");
    assert_eq!(field(&own, "links").as_deref(), Some("dequmlo"));
    // Debian 12's.
    for name in ["bindings/rust/Cargo.toml", "cli/Cargo.toml"] {
        assert_eq!(field(&read(name), "rust-version").as_deref(), Some("1.63"));
    }
}

#[test]
fn both_licence_texts_are_there() {
    assert!(read("LICENSE-MIT").starts_with("MIT License\n"));
    let apache = read("LICENSE-APACHE");
    assert!(
        apache.contains("Version 2.0, January 2004")
            && apache.contains("END OF TERMS AND CONDITIONS")
    );
    let notice = read("NOTICE");
    assert!(notice.contains("LICENSE-MIT") && notice.contains("LICENSE-APACHE"));
}

#[test]
fn the_version_is_the_same_everywhere() {
    let version = env!("CARGO_PKG_VERSION");
    assert_eq!(
        field(&read("cli/Cargo.toml"), "version").as_deref(),
        Some(version)
    );
    let header = read("include/dequmlo.h");
    let mut parts = version.split('.');
    for part in ["MAJOR", "MINOR", "PATCH"] {
        let line = format!("#define DEQUMLO_VERSION_{part} {}\n", parts.next().unwrap());
        assert!(header.contains(&line), "{line}");
    }
    assert!(header.contains(&format!("#define DEQUMLO_VERSION \"{version}\"\n")));
}

/// What a C caller must keep to is said on the page for engineers as in the header.
#[test]
fn the_page_says_null_and_overlap_as_the_header_does() {
    let flat = |name: &str| {
        let text = read(name);
        text.split_whitespace().collect::<Vec<_>>().join(" ")
    };
    let (page, header) = (flat("docs/LINKING.md"), flat("include/dequmlo.h"));
    for text in [
        "must be valid for that count and aligned, and may not be null",
        "even where the count is 0",
        "must not overlap, except that two that are only read may.",
        "Nothing is allocated and nothing is kept",
        "DEQUMLO_VERSION",
    ] {
        assert!(header.contains(text), "include/dequmlo.h: {text}");
        assert!(page.contains(text), "docs/LINKING.md: {text}");
    }
}

/// The cells of the rows of a page's tables that begin with a number.
fn rows(text: &str) -> Vec<Vec<&str>> {
    text.lines()
        .filter(|line| line.starts_with("| ") && line.as_bytes()[2].is_ascii_digit())
        .map(|line| line.split('|').map(str::trim).collect())
        .collect()
}

/// The number of bytes in a cell.
fn bytes(cell: &str) -> usize {
    let digits = cell.trim_end_matches(" B").replace(',', "");
    digits.parse().unwrap_or_else(|_| panic!("{cell:?}"))
}

/// The sizes of records on the pages are those that the library answers, under both sets of widths.
#[test]
fn the_pages_have_the_sizes_of_records() {
    let page = read("docs/LINKING.md");
    let (_, sizes) = page.split_once("In the present set:").unwrap();
    let (present, rest) = sizes.split_once("In the wide set").unwrap();
    let (wide, _) = rest.split_once("## ").unwrap();
    for (set, text, least) in [(Widths::Present, present, 8), (Widths::Wide, wide, 6)] {
        let rows = rows(text);
        assert!(rows.len() >= least, "{set}: {rows:?}");
        for row in rows {
            let sizes = Sizes::of(set, bytes(row[1]), bytes(row[2])).unwrap();
            let said = [row[row.len() - 3], row[row.len() - 2]].map(bytes);
            assert_eq!(said, [sizes.query_bytes, sizes.tail_bytes], "{set} {row:?}");
        }
    }
    let page = read("docs/SPECIFICATION.md");
    let (_, text) = page.split_once("\nQuery records, in bytes:\n").unwrap();
    let lines: Vec<Vec<&str>> = text
        .lines()
        .skip_while(|line| line.is_empty())
        .take(4)
        .map(|line| line.trim_matches('|').split('|').map(str::trim).collect())
        .collect();
    for (row, set) in [(2, Widths::Present), (3, Widths::Wide)] {
        assert_eq!(lines[row][0], set.to_string());
        assert_eq!(lines[row].len(), lines[0].len());
        for (shape, said) in lines[0].iter().zip(&lines[row]).skip(1) {
            let (n, k) = shape.split_once(", ").unwrap();
            let sizes = Sizes::of(set, bytes(n), bytes(k)).unwrap();
            assert_eq!(bytes(said), sizes.query_bytes, "{set} {shape}");
        }
    }
}

/// The lines of the public sources, each file's after its name; the raw declarations are not public.
fn sources() -> Vec<(String, Vec<String>)> {
    let folder = root().join("bindings/rust/src");
    fs::read_dir(folder)
        .unwrap()
        .map(|entry| entry.unwrap().path())
        .filter(|path| !path.ends_with("raw.rs"))
        .map(|path| {
            let text = fs::read_to_string(&path).unwrap();
            let lines = text.lines().map(String::from).collect();
            (path.display().to_string(), lines)
        })
        .collect()
}

#[test]
fn what_is_answered_must_be_used() {
    let mut seen = 0;
    for (name, lines) in sources() {
        for (i, line) in lines.iter().enumerate() {
            if !line.trim_start().starts_with("pub fn ") {
                continue;
            }
            let end = (i..).find(|j| lines[*j].contains('{')).unwrap();
            let signature = lines[i..=end].join(" ");
            // A Result must be used as it is.
            if signature.contains("-> ") && !signature.contains("-> Result<") {
                seen += 1;
                assert_eq!(lines[i - 1].trim(), "#[must_use]", "{name}: {signature}");
            }
        }
    }
    assert!(seen >= 20, "{seen}");
}

#[test]
fn what_is_public_can_be_printed() {
    let table: Vec<dequmlo::Word> = (0..4u128).map(dequmlo::Word).collect();
    let deposit =
        dequmlo::Deposit::commit(None, b"d", dequmlo::Widths::Present, 1, &table).unwrap();
    let shown = format!("{deposit:?}");
    assert!(
        shown.starts_with("Deposit { widths: Present, n: 2, k: 1, root: ") && shown.len() < 120,
        "{shown}"
    );
    let folded = deposit.fold(&table[..2]).unwrap();
    assert!(format!("{folded:?}").starts_with("Folded { widths: Present, n: 2, k: 1, root: "));
    assert_eq!(
        format!("{:?}", folded.into_buffers()),
        "Buffers { gamma_words: 2, levels_words: 14, trees_bytes: 352, .. }"
    );
    let errors: [Box<dyn std::error::Error>; 2] = [
        Box::new("x".parse::<dequmlo::Word>().unwrap_err()),
        Box::new("x".parse::<dequmlo::Root>().unwrap_err()),
    ];
    assert!(errors
        .iter()
        .all(|e| e.to_string().contains("hexadecimal digits")));
}
