//! Links the static library that `tools/archive` makes.

use std::env;
use std::path::PathBuf;
use std::process::exit;

/// Where the static library stands, seen from this package.
const FOLDER: &str = "../target/staticlib";

/// The name of the static library, `libexports.a`.
const LIBRARY: &str = "exports";

/// Tells cargo where the library is, or says how to make it.
fn main() {
    let package = env::var_os("CARGO_MANIFEST_DIR").map_or_else(PathBuf::new, PathBuf::from);
    let folder = package.join(FOLDER);
    let archive = folder.join(format!("lib{LIBRARY}.a"));
    println!("cargo:rerun-if-changed={}", archive.display());
    if !archive.is_file() {
        eprintln!("{} is missing", archive.display());
        eprintln!("run `tools/archive` in the root of the repository");
        exit(1);
    }
    println!("cargo:rustc-link-search=native={}", folder.display());
    println!("cargo:rustc-link-lib=static={LIBRARY}");
}
