//! Plain text: tables, counts, lists and paragraphs, whatever they are about.

use std::fmt;

use crate::screen;

/// Columns with titles. A column of numbers stands to the right. On a screen that is not wide enough the widest columns
/// are cut, then every line at the screen's edge, which is marked and said.
pub struct Table {
    pub titles: Vec<&'static str>,
    pub rows: Vec<Vec<String>>,
}

/// The letters between two columns.
const GAP: usize = 2;
/// What a cut column has left at least, so that a time is not cut.
const LEAST: usize = 24;
/// What stands at the end of what is cut.
const CUT: char = '…';

impl fmt::Display for Table {
    fn fmt(&self, f: &mut fmt::Formatter<'_>) -> fmt::Result {
        self.write_within(f, screen::columns())
    }
}

struct Column {
    width: usize,
    numbers: bool,
}

impl Table {
    fn write_within(&self, f: &mut impl fmt::Write, screen: Option<usize>) -> fmt::Result {
        let titles = self.titles.iter().enumerate();
        let mut columns: Vec<Column> = titles.map(|(i, title)| self.column(i, title)).collect();
        let screen = screen.unwrap_or(usize::MAX);
        let too_wide = total(&columns) > screen;
        narrow(&mut columns, screen);
        let rules: Vec<String> = columns
            .iter()
            .map(|column| "-".repeat(column.width))
            .collect();
        let head = [line(&columns, &self.titles), line(&columns, &rules)];
        let rows = self.rows.iter().map(|row| line(&columns, row));
        for line in head.into_iter().chain(rows) {
            writeln!(f, "{}", cut(line.trim_end(), screen))?;
        }
        if too_wide {
            writeln!(
                f,
                "({CUT} marks what a screen of this width has no place for)"
            )?;
        }
        Ok(())
    }

    fn column(&self, i: usize, title: &str) -> Column {
        let cells = self.rows.iter().filter_map(|row| row.get(i));
        let widest = cells.clone().map(|cell| width(cell)).max();
        Column {
            width: width(title).max(widest.unwrap_or(0)),
            numbers: cells
                .clone()
                .all(|cell| cell.bytes().all(|byte| byte.is_ascii_digit())),
        }
    }
}

fn total(columns: &[Column]) -> usize {
    let widths: usize = columns.iter().map(|column| column.width).sum();
    widths + GAP * columns.len().saturating_sub(1)
}

/// Takes letters from the widest column as long as the table is wider than the screen.
fn narrow(columns: &mut [Column], screen: usize) {
    while total(columns) > screen {
        let widest = columns.iter_mut().max_by_key(|column| column.width);
        match widest.filter(|column| column.width > LEAST) {
            Some(column) => column.width -= 1,
            None => return,
        }
    }
}

/// How many places letters take on a screen: none for marks above other letters, two for those of East Asia.
pub fn width(text: &str) -> usize {
    text.chars().map(places).sum()
}

fn places(letter: char) -> usize {
    match letter {
        '\u{300}'..='\u{36f}'
        | '\u{1ab0}'..='\u{1aff}'
        | '\u{20d0}'..='\u{20ff}'
        | '\u{fe00}'..='\u{fe0f}' => 0,
        '\u{1100}'..='\u{115f}'
        | '\u{2e80}'..='\u{303e}'
        | '\u{3041}'..='\u{a4cf}'
        | '\u{ac00}'..='\u{d7a3}'
        | '\u{f900}'..='\u{faff}'
        | '\u{fe30}'..='\u{fe6f}'
        | '\u{ff00}'..='\u{ff60}'
        | '\u{ffe0}'..='\u{ffe6}'
        | '\u{1f300}'..='\u{1faff}'
        | '\u{20000}'..='\u{3fffd}' => 2,
        _ => 1,
    }
}

/// Text that takes no more than so many places.
pub fn cut(text: &str, most: usize) -> String {
    if width(text) <= most {
        return text.to_owned();
    }
    let mut left = most.saturating_sub(1);
    let fits = text.chars().take_while(|letter| {
        let room = left.checked_sub(places(*letter));
        left = room.unwrap_or(0);
        room.is_some()
    });
    let mut cut: String = fits.collect();
    cut.push(CUT);
    cut
}

fn line(columns: &[Column], cells: &[impl AsRef<str>]) -> String {
    let padded = columns.iter().zip(cells).map(|(column, cell)| {
        let cell = cut(cell.as_ref(), column.width);
        let blanks = " ".repeat(column.width.saturating_sub(width(&cell)));
        match column.numbers {
            true => blanks + &cell,
            false => cell + &blanks,
        }
    });
    padded.collect::<Vec<_>>().join(&" ".repeat(GAP))
}

/// So many of something that has a plural in s.
pub fn counted(count: usize, thing: &str) -> String {
    match count {
        1 => format!("1 {thing}"),
        _ => format!("{count} {thing}s"),
    }
}

/// A list, or a dash for none.
pub fn or_dash(list: String) -> String {
    if list.is_empty() {
        return "-".to_owned();
    }
    list
}

/// Lines of at most 120 letters, fewer on a narrow screen.
pub fn paragraph(text: &str) -> String {
    lines("", text)
}

/// A paragraph with four blanks before each line.
pub fn indented(text: &str) -> String {
    lines("    ", text)
}

/// A line that only a narrow screen breaks: names of files may be in it.
pub fn one_line(text: &str) -> String {
    match screen::columns() {
        Some(_) => paragraph(text),
        None => format!("{text}\n"),
    }
}

fn lines(before: &str, text: &str) -> String {
    let most = screen::columns().unwrap_or(usize::MAX).clamp(24, 120) - before.len();
    let mut lines = Vec::new();
    let mut line = String::new();
    // Blanks of a payload stay as many as they are.
    for word in text.split(' ') {
        if !line.is_empty() && width(&line) + width(word) >= most {
            lines.push(std::mem::take(&mut line));
        }
        if !line.is_empty() {
            line.push(' ');
        }
        line += word;
    }
    if !line.is_empty() {
        lines.push(line);
    }
    lines
        .iter()
        .map(|line| format!("{before}{line}\n"))
        .collect()
}

#[cfg(test)]
mod tests {
    use super::*;

    fn within(table: &Table, screen: Option<usize>) -> String {
        let mut text = String::new();
        table.write_within(&mut text, screen).expect("a text");
        text
    }

    fn table() -> Table {
        let cell = |text: &str| text.to_owned();
        Table {
            titles: vec!["row", "payload", "n"],
            rows: vec![
                vec![cell("1:1"), cell("Sattelstütze = seat post"), cell("7")],
                vec![cell("1:12"), cell("鞍 = saddle"), cell("10")],
            ],
        }
    }

    #[test]
    fn columns_stand_below_each_other() {
        let whole = "\
row   payload                    n
----  ------------------------  --
1:1   Sattelstütze = seat post   7
1:12  鞍 = saddle               10
";
        for screen in [None, Some(34), Some(200)] {
            assert_eq!(within(&table(), screen), whole);
        }
    }

    /// No line is wider than the screen, what is cut is marked, and it is said.
    #[test]
    fn a_narrow_screen_cuts_and_says_so() {
        let said = "(… marks what a screen of this width has no place for)\n";
        let cell = |text: &str| text.to_owned();
        let rows = vec![vec![
            cell("Sattelstützenklemmschelle = clamp"),
            cell("鞍鞍"),
        ]];
        let wide = Table {
            titles: vec!["payload", "last"],
            rows,
        };
        // A wide column first, down to a least width, then the edge.
        let narrow = [
            (32, "Sattelstützenklemmschelle…  鞍鞍\n"),
            (30, "Sattelstützenklemmschel…  鞍鞍\n"),
            (29, "Sattelstützenklemmschel…  鞍…\n"),
            (28, "Sattelstützenklemmschel…  …\n"),
            (9, "Sattelst…\n"),
        ];
        for (screen, line) in narrow {
            let text = within(&wide, Some(screen));
            assert!(text.ends_with(&format!("{line}{said}")), "{screen}: {text}");
            let lines = text.lines().filter(|line| !said.starts_with(line));
            assert!(
                lines.into_iter().all(|line| width(line) <= screen),
                "{text}"
            );
        }
    }
}
