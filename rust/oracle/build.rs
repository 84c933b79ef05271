//! Copies the original's files, unchanged, beside the module list in `assembled/`.

use std::path::{Path, PathBuf};
use std::{env, fs, process};

/// The files of the original that are used.
const FILES: [&str; 13] = [
    "clock.rs",
    "codec.rs",
    "engine.rs",
    "error.rs",
    "gc.rs",
    "log.rs",
    "merge.rs",
    "peer.rs",
    "sync.rs",
    "transport.rs",
    "stubs/mod.rs",
    "stubs/crypto.rs",
    "stubs/lww.rs",
];
/// Our own files, which stand next to them.
const OWN: [&str; 3] = ["builder.rs", "lib.rs", "open.rs"];

fn main() {
    println!("cargo::rustc-check-cfg=cfg(oracle_present)");
    println!("cargo::rerun-if-changed=build.rs");
    println!("cargo::rerun-if-changed=assembled");
    println!("cargo::rerun-if-env-changed=TPT_REPLICATE_SRC");
    let manifest = PathBuf::from(var("CARGO_MANIFEST_DIR"));
    let (named, folder) = source_folder(&manifest.join("../.."));
    let source = folder.join("src");
    let missing = watch(&source);
    // A folder that is named, or is there, has all of the original; nothing is compared with a part of it.
    let present = named || source.is_dir();
    if let (true, Some(file)) = (present, missing) {
        eprintln!(
            "{} is missing: TPT_REPLICATE_SRC names the folder of the original",
            file.display()
        );
        process::exit(1);
    }
    println!("cargo::metadata=present={}", u8::from(present));
    let target = PathBuf::from(var("OUT_DIR")).join("original");
    if !present {
        // A file that never exists: cargo looks again at the next build.
        println!("cargo::rerun-if-changed={}/absent", target.display());
        return;
    }
    for file in FILES {
        copy(&source.join(file), &target.join(file));
    }
    for file in OWN {
        copy(&manifest.join("assembled").join(file), &target.join(file));
    }
    println!("cargo::rustc-cfg=oracle_present");
}

/// The folder that TPT_REPLICATE_SRC names, and whether it does; else the one beside the repository.
fn source_folder(root: &Path) -> (bool, PathBuf) {
    match env::var_os("TPT_REPLICATE_SRC") {
        Some(path) if !path.is_empty() => (true, root.join(path)),
        _ => (false, root.join("../shared/docs/src")),
    }
}

/// Has cargo look at every file again when it changes, and gives the first that is not there.
fn watch(source: &Path) -> Option<PathBuf> {
    let mut missing = None;
    for file in FILES {
        let path = source.join(file);
        println!("cargo::rerun-if-changed={}", path.display());
        if !path.is_file() {
            missing.get_or_insert(path);
        }
    }
    missing
}

fn copy(from: &Path, to: &Path) {
    let folder = to.parent().expect("a file stands in a folder");
    let copied = fs::create_dir_all(folder)
        .and_then(|()| fs::read(from))
        .and_then(|bytes| fs::write(to, bytes));
    if let Err(error) = copied {
        eprintln!("cannot copy {}: {error}", from.display());
        process::exit(1);
    }
}

fn var(name: &str) -> String {
    env::var(name).unwrap_or_else(|_| panic!("cargo sets {name}"))
}
