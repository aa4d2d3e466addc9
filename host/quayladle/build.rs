//! Links the archive that `tools/library` lays into the repository's target folder.

use std::path::Path;

fn main() {
    let folder = Path::new(env!("CARGO_MANIFEST_DIR")).join("../../target/staticlib");
    let archive = folder.join("libquayladle.a");
    assert!(archive.exists(), "{} is missing: run `tools/library`", archive.display());
    println!("cargo:rustc-link-search=native={}", folder.display());
    println!("cargo:rustc-link-lib=static=quayladle");
    println!("cargo:rerun-if-changed={}", archive.display());
}
