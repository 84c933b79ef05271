//! Paths and names in pages: behind a path of the repository and a colon stand names, in backticks, that the file has.

/// A path with the names that are said to stand in its file.
#[derive(Debug, PartialEq, Eq)]
pub struct Named {
    /// The path from the repository's top.
    pub path: String,
    /// The names behind it.
    pub names: Vec<String>,
}

/// The folders that a path of the repository begins with.
const TOPS: [&str; 6] = ["crates/", "rust/", "docs/", "include/", "examples/", "c/"];

/// The paths of a page, each with the names behind its colon.
pub fn named(page: &str) -> Vec<Named> {
    let mut found = Vec::new();
    for line in page.lines() {
        let mut rest = line;
        while let Some(start) = next_path(rest) {
            let tail = &rest[start..];
            let length = tail
                .find(|c: char| !(c.is_alphanumeric() || "/_.-".contains(c)))
                .unwrap_or(tail.len());
            let path = tail[..length].trim_end_matches('.');
            let behind = &tail[path.len()..];
            let names = match behind.strip_prefix(": `") {
                Some(_) => backticked(&behind[2..]),
                None => Vec::new(),
            };
            found.push(Named {
                path: path.to_string(),
                names,
            });
            rest = &tail[length..];
        }
    }
    found
}

/// Where the next path starts: at the line's start or behind a character that no path has.
fn next_path(text: &str) -> Option<usize> {
    let starts = TOPS
        .iter()
        .flat_map(|top| text.match_indices(top).map(|(at, _)| at));
    starts
        .filter(|&at| {
            let before = text[..at].chars().next_back();
            !before.is_some_and(|c| c.is_alphanumeric() || "/_.-".contains(c))
        })
        .min()
}

/// Names in backticks one behind the other, with commas between them.
fn backticked(text: &str) -> Vec<String> {
    let mut found = Vec::new();
    let mut rest = text;
    while let Some(tail) = rest.strip_prefix('`') {
        let Some(end) = tail.find('`') else { break };
        found.push(tail[..end].to_string());
        rest = tail[end + 1..].trim_start_matches(',').trim_start();
    }
    found
}

/// Whether a file's text has a name as a word of its own.
pub fn has_word(text: &str, name: &str) -> bool {
    let part = |c: char| c.is_alphanumeric() || c == '_' || c == '-' || c == '′';
    text.match_indices(name).any(|(at, _)| {
        let before = text[..at].chars().next_back();
        let after = text[at + name.len()..].chars().next();
        !before.is_some_and(part) && !after.is_some_and(part)
    })
}
