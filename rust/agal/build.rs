//! Links the static library of the proved functions.

use std::path::Path;
use std::process::exit;

fn main() {
    let folder = Path::new(env!("CARGO_MANIFEST_DIR")).join("../../target/staticlib");
    let library = folder.join("libagal_c.a");
    println!("cargo:rerun-if-changed={}", library.display());
    if !library.is_file() {
        eprintln!("agal: {} is missing.", library.display());
        eprintln!("Run `tools/build libagal_c.a` in the repository first; it proves the functions and writes the library.");
        exit(1);
    }
    println!("cargo:rustc-link-search=native={}", folder.display());
    println!("cargo:rustc-link-lib=static=agal_c");
}
