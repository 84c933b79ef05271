//! The refusals of include/cuwelfra.h beside this crate's, which a test of its own holds against document 01's list.

use cuwelfra::Refusal;

/// The entries of the header's list, `X(NUMBER, NAME, "WORD")` a line.
fn listed(header: &str) -> Vec<(u64, &str, &str)> {
    let lines = header.lines().map(str::trim_start);
    let entries = lines.filter_map(|line| line.strip_prefix("X(")?.split_once(')'));
    entries
        .map(|(entry, _)| {
            let parts: Vec<&str> = entry.split(", ").collect();
            let [number, name, word] = parts[..] else {
                panic!("no entry: {entry}");
            };
            (number.parse().expect("a number"), name, word)
        })
        .collect()
}

#[test]
fn the_header_has_every_refusal() {
    let listed = listed(include_str!("../../../include/cuwelfra.h"));
    assert_eq!(listed.len(), Refusal::COUNT);
    for (known, (number, name, word)) in Refusal::all().iter().zip(listed) {
        assert_eq!(number, known.number);
        assert_eq!(name, known.word.to_uppercase().replace(' ', "_"));
        assert_eq!(word, format!("\"{}\"", known.word));
    }
}
