//! The paper's figure of the hybrid clock: its lines stand in the definitions, in the code and in the table of
//! docs/PROOFS.md, in one order, and the table shows what stands there.

use pages::files::{read, root};
use pages::quotations::{code_comments, comments, paper_lines};

const DEFINITIONS: &str = "crates/clock/specs/Hlc.antt";
const CODE: &str = "crates/clock/src/hybrid.rt";

fn text(path: &str) -> String {
    read(&root().join(path))
}

/// The figure, as the definitions quote it.
fn figure() -> String {
    paper_lines(&comments(&text(DEFINITIONS)))
}

/// The rows of the table below a heading, cell by cell.
fn table(page: &str, heading: &str) -> Vec<Vec<String>> {
    let start = page.find(heading).expect("the heading");
    let lines = page[start..]
        .lines()
        .skip_while(|line| !line.starts_with('|'));
    let rows = lines.take_while(|line| line.starts_with('|')).skip(2);
    rows.map(|row| {
        let cells = row.trim_matches('|').split(" | ");
        cells.map(|cell| cell.trim().to_string()).collect()
    })
    .collect()
}

/// The text without comments and with single blanks.
fn bare(text: &str, mark: &str) -> String {
    let lines = text
        .lines()
        .map(|line| line.split(mark).next().unwrap_or(""));
    let words = lines.flat_map(str::split_whitespace);
    words.collect::<Vec<_>>().join(" ")
}

#[test]
fn lines_at_the_end_of_code_are_read() {
    let code = "// Sends. paper: \"Send\"\nlet a = b; // paper: \"a := b;\"\n0 // not quoted\n";
    assert_eq!(paper_lines(&code_comments(code)), "Send a := b;");
}

#[test]
fn a_table_is_read() {
    let page = "## A\n\n| x | y |\n|---|---|\n| 1 | `a  b` |\n\n| z |\n";
    assert_eq!(table(page, "## A"), [["1", "`a  b`"]]);
    assert_eq!(bare("a; // b\n  c\n", "//"), "a; c");
}

#[test]
fn the_code_has_the_lines_of_the_definitions() {
    let figure = figure();
    assert_eq!(paper_lines(&code_comments(&text(CODE))), figure);
    assert_eq!(figure.matches(":=").count(), 12, "{figure}");
}

/// A column of the table, in parts that stand together: each line of a choice goes on where the one before ends.
fn parts(rows: &[Vec<String>], column: usize) -> Vec<String> {
    let mut found: Vec<String> = Vec::new();
    for row in rows {
        let shown = row[column].trim_matches('`');
        match found.last_mut() {
            Some(part) if row[0].starts_with("Else") => *part = format!("{part} {shown}"),
            _ => found.push(shown.to_string()),
        }
    }
    found
}

#[test]
fn a_choice_is_one_part() {
    let page = "|x|y|\n|---|---|\n| If (a) then b | `c` |\n| Else d | `e` |\n| f | `g` |\n";
    assert_eq!(parts(&table(page, "|x"), 1), ["c e", "g"]);
}

#[test]
fn the_table_shows_the_three() {
    let rows = table(&text("docs/PROOFS.md"), "**The figure, line by line.**");
    let lines: Vec<&str> = rows.iter().map(|row| row[0].as_str()).collect();
    assert_eq!(lines.join(" "), figure());
    let texts = [bare(&text(DEFINITIONS), "--"), bare(&text(CODE), "//")];
    for (column, text) in (1..).zip(&texts) {
        for part in parts(&rows, column) {
            assert!(text.contains(&part), "{part} does not stand there");
        }
    }
}
