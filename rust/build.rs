//! Links the static archive of the proved library.

use std::env;
use std::path::{Path, PathBuf};

const ARCHIVE: &str = "libexports.a";

/// The folder that FONTARELGA_LIB names, else the one that `tools/archive` writes to.
fn archive_folder() -> PathBuf {
    match env::var_os("FONTARELGA_LIB") {
        Some(folder) => PathBuf::from(folder),
        None => Path::new(env!("CARGO_MANIFEST_DIR")).join("../target/staticlib"),
    }
}

fn main() {
    let folder = archive_folder();
    let archive = folder.join(ARCHIVE);
    println!("cargo:rerun-if-env-changed=FONTARELGA_LIB");
    println!("cargo:rerun-if-changed={}", archive.display());
    if !archive.is_file() {
        eprintln!("There is no {ARCHIVE} in {}.", folder.display());
        eprintln!("Run `tools/archive` at the repository's root, or set FONTARELGA_LIB to the folder that holds it.");
        std::process::exit(1);
    }
    println!("cargo:rustc-link-search=native={}", folder.display());
    println!("cargo:rustc-link-lib=static=exports");
}
