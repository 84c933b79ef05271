//! Paths and names in the pages of `docs/` stand where they are said to stand.

use pages::files::{below, read, root, short};
use pages::names::{has_word, named, Named};

#[test]
fn paths_and_names_are_read() {
    let page = "| x | crates/a/specs/B.antt: `one`, `two` of `C`; rust/d/src/e.rs. |";
    let expected = [
        Named {
            path: "crates/a/specs/B.antt".to_string(),
            names: vec!["one".to_string(), "two".to_string()],
        },
        Named {
            path: "rust/d/src/e.rs".to_string(),
            names: Vec::new(),
        },
    ];
    assert_eq!(named(page), expected);
}

#[test]
fn a_name_is_a_whole_word() {
    assert!(has_word("pub balance : Balance", "balance"));
    assert!(!has_word("pub batch-balance : B", "balance"));
}

#[test]
fn the_pages_name_what_is_there() {
    let mut wrong = Vec::new();
    let mut count = 0;
    let mut pages = below(&root().join("docs"), ".md");
    pages.retain(|path| !path.to_string_lossy().contains("/landings/"));
    pages.push(root().join("README.md"));
    for page in pages {
        for Named { path, names } in named(&read(&page)) {
            count += 1 + names.len();
            let file = root().join(&path);
            if !file.exists() {
                wrong.push(format!("{}: {path} is not there", short(&page)));
            } else if file.is_file() && !names.is_empty() {
                let text = read(&file);
                let missing = names.iter().filter(|name| !has_word(&text, name));
                wrong.extend(missing.map(|name| format!("{}: {path} has no {name}", short(&page))));
            }
        }
    }
    assert!(wrong.is_empty(), "{}", wrong.join("\n"));
    assert!(count >= 500, "only {count} paths and names were found");
}
