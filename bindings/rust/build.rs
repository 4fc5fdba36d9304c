//! Links libdequmlo.a, from the folder that DEQUMLO_ARCHIVE_DIR names or from the repository's target/staticlib.

use std::path::PathBuf;

fn main() {
    println!("cargo:rerun-if-env-changed=DEQUMLO_ARCHIVE_DIR");
    let folder = match std::env::var_os("DEQUMLO_ARCHIVE_DIR") {
        Some(named) => PathBuf::from(named),
        None => PathBuf::from(
            std::env::var_os("CARGO_MANIFEST_DIR").expect("cargo names the package's folder"),
        )
        .join("../../target/staticlib"),
    };
    let archive = folder.join("libdequmlo.a");
    println!("cargo:rerun-if-changed={}", archive.display());
    if !archive.exists() {
        eprintln!(
            "there is no {}: make it by `library/archive`",
            archive.display()
        );
        std::process::exit(1);
    }
    println!("cargo:rustc-link-search=native={}", folder.display());
    println!("cargo:rustc-link-lib=static=dequmlo");
}
