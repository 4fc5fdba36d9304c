//! Links the archive of our exported functions, where it has been made.

use std::path::Path;

fn main() {
    println!("cargo:rustc-check-cfg=cfg(archive)");
    println!("cargo:rerun-if-env-changed=DEQUMLO_ARCHIVE_DIR");
    let folder = std::env::var("DEQUMLO_ARCHIVE_DIR").unwrap_or("../target/staticlib".into());
    let archive = Path::new(&folder).join("libtest_archive.a");
    println!("cargo:rerun-if-changed={}", archive.display());
    if archive.exists() {
        let folder = Path::new(&folder)
            .canonicalize()
            .expect("the archive's folder");
        println!("cargo:rustc-cfg=archive");
        println!("cargo:rustc-link-search=native={}", folder.display());
        println!("cargo:rustc-link-lib=static=test_archive");
    }
}
