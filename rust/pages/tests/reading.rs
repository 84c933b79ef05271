//! docs/READING.md: the first hour is as short as it says, and the two tables name every file that must be believed.

use std::collections::BTreeSet;

use pages::files::{read, root, short, specs};
use pages::names::named;

/// The part of the page below a heading, up to the next.
fn section<'a>(page: &'a str, heading: &str) -> &'a str {
    let start = page.find(heading).expect("the heading");
    let rest = &page[start + heading.len()..];
    &rest[..rest.find("\n## ").unwrap_or(rest.len())]
}

/// The lines of a function from the comment above it to its body.
fn contract(text: &str, function: &str) -> usize {
    let lines: Vec<&str> = text.lines().collect();
    let name = format!("fn {function}(");
    let at = lines
        .iter()
        .position(|line| line.contains(&name))
        .expect("the function");
    let above = lines[..at]
        .iter()
        .rev()
        .take_while(|line| line.starts_with("//") || line.starts_with('#'));
    let below = lines[at..].iter().take_while(|line| **line != "{");
    above.count() + below.count()
}

fn lines_of(part: &str) -> usize {
    let mut seen = BTreeSet::new();
    let mut count = 0;
    for place in named(part) {
        let text = read(&root().join(&place.path));
        if place.path.ends_with(".rt") {
            count += place
                .names
                .iter()
                .map(|name| contract(&text, name))
                .sum::<usize>();
        } else if place.path.contains("/specs/") && seen.insert(place.path.clone()) {
            count += text.lines().count();
        }
    }
    count
}

#[test]
fn a_contract_is_counted() {
    let text = "// One.\nfn f(\n    a: u8,\n) -> u8\n    ensures { A }\n{\n    a\n}\n";
    assert_eq!(contract(text, "f"), 5);
}

#[test]
fn the_first_hour_is_short() {
    let page = read(&root().join("docs/READING.md"));
    let lines = lines_of(section(&page, "## The first hour"));
    println!("the first hour has {lines} lines");
    assert!(
        (1_000..=1_400).contains(&lines),
        "the first hour has {lines} lines"
    );
}

#[test]
fn every_file_is_named() {
    let page = read(&root().join("docs/READING.md"));
    let told: BTreeSet<String> = named(&page).into_iter().map(|place| place.path).collect();
    let missing: Vec<String> = specs()
        .iter()
        .map(|path| short(path))
        .filter(|path| {
            !path.contains("/specs/Inside") && !path.ends_with("/Lib.antt") && !told.contains(path)
        })
        .collect();
    assert!(missing.is_empty(), "{}", missing.join("\n"));
}
