//! The repository's files, and the documents beside it.

use std::path::{Path, PathBuf};
use std::{env, fs};

/// The top of the repository.
pub fn root() -> PathBuf {
    Path::new(env!("CARGO_MANIFEST_DIR")).join("../..")
}

/// The whole of a text file.
pub fn read(path: &Path) -> String {
    fs::read_to_string(path).unwrap_or_else(|error| panic!("{}: {error}", path.display()))
}

/// Every file below a folder with this ending, in the order of their paths. What `rt` makes, in folders `out`, is no text.
pub fn below(folder: &Path, ending: &str) -> Vec<PathBuf> {
    let mut found = Vec::new();
    let entries =
        fs::read_dir(folder).unwrap_or_else(|error| panic!("{}: {error}", folder.display()));
    for entry in entries {
        let path = entry.expect("a folder's entry").path();
        if path.is_dir() && path.ends_with("out") {
            continue;
        }
        if path.is_dir() {
            found.extend(below(&path, ending));
        } else if path.to_string_lossy().ends_with(ending) {
            found.push(path);
        }
    }
    found.sort();
    found
}

/// The files of `specs/` and `proofs/` of all crates.
pub fn definitions_and_proofs() -> Vec<PathBuf> {
    below(&root().join("crates"), ".antt")
}

/// The files of `specs/` of all crates.
pub fn specs() -> Vec<PathBuf> {
    definitions_and_proofs()
        .into_iter()
        .filter(|path| path.to_string_lossy().contains("/specs/"))
        .collect()
}

/// The path from the repository's top, for a message.
pub fn short(path: &Path) -> String {
    path.strip_prefix(root())
        .unwrap_or(path)
        .display()
        .to_string()
}

/// The folder with the numbered documents: the one that CUWELFRA_DOCUMENTS names, which must have them, else `../shared`
/// beside the repository; nothing where that has not document 01.
pub fn documents() -> Option<PathBuf> {
    let named = env::var_os("CUWELFRA_DOCUMENTS").filter(|path| !path.is_empty());
    let folder = root().join(named.clone().unwrap_or_else(|| "../shared".into()));
    let present = folder.join("01-scope.md").is_file();
    assert!(
        present || named.is_none(),
        "CUWELFRA_DOCUMENTS names {}, which has no document 01",
        folder.display()
    );
    present.then_some(folder)
}

/// The folder with the original's source, as the comparisons take it.
pub fn original() -> PathBuf {
    match env::var_os("TPT_REPLICATE_SRC") {
        Some(path) if !path.is_empty() => root().join(path).join("src"),
        _ => root().join("../shared/docs/src/src"),
    }
}
