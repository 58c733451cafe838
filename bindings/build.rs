//! Links the proved static library, which is built before Cargo runs.

use std::env;
use std::path::Path;
use std::process;

fn main() {
    let package = env::var("CARGO_MANIFEST_DIR").expect("Cargo sets the package directory");
    let directory = Path::new(&package).join("../target/staticlib");
    let library = directory.join("libterminal.a");
    println!("cargo:rerun-if-changed={}", library.display());
    if !library.is_file() {
        eprintln!("target/staticlib/libterminal.a is missing: build the static library first");
        process::exit(1);
    }
    println!("cargo:rustc-link-search=native={}", directory.display());
    println!("cargo:rustc-link-lib=static=terminal");
}
