//! Links the proved static library, and tells the tests where it stands.

use std::path::PathBuf;
use std::{env, process};

fn main() {
    println!("cargo::rerun-if-changed=build.rs");
    println!("cargo::rerun-if-env-changed=CUWELFRA_LIB_DIR");
    let folder = folder();
    let library = folder.join("libcuwelfra.a");
    println!("cargo::rerun-if-changed={}", library.display());
    if !library.is_file() {
        eprintln!(
            "{} is missing: make it with `rt lib` in crates/cuwelfra and copy it from there, out of out/, \
             or name its folder in CUWELFRA_LIB_DIR",
            library.display()
        );
        process::exit(1);
    }
    println!("cargo::rustc-env=CUWELFRA_ARCHIVE={}", library.display());
    println!("cargo::rustc-link-search=native={}", folder.display());
    println!("cargo::rustc-link-lib=static=cuwelfra");
}

/// The folder that CUWELFRA_LIB_DIR names, else target/staticlib of the repository.
fn folder() -> PathBuf {
    let manifest = env::var_os("CARGO_MANIFEST_DIR").expect("cargo sets CARGO_MANIFEST_DIR");
    let root = PathBuf::from(manifest).join("../..");
    match env::var_os("CUWELFRA_LIB_DIR") {
        Some(path) if !path.is_empty() => root.join(path),
        _ => root.join("target/staticlib"),
    }
}
