//! What a file offers.

use cuwelfra::BatchRow;

/// The rows of a batch call, and its time where the text says one.
#[derive(Clone, Debug, PartialEq, Eq)]
pub struct Offer {
    pub time_ms: Option<u64>,
    pub rows: Vec<BatchRow>,
    /// The line that each row stands in, where the rows are from a text.
    pub lines: Vec<usize>,
}

impl Offer {
    /// Rows that are from no text, and say no time.
    pub fn of(rows: Vec<BatchRow>) -> Self {
        Self {
            time_ms: None,
            rows,
            lines: Vec::new(),
        }
    }

    /// Where a row stands: its line, or its place among the rows, from 0.
    pub fn place(&self, i: usize) -> String {
        match self.lines.get(i) {
            Some(line) => format!("line {line}"),
            None => format!("row {}", i + 1),
        }
    }

    /// Offers of at most so many rows each, which together are this one.
    pub fn cut(self, most: usize) -> impl Iterator<Item = Self> {
        let Self {
            time_ms,
            rows,
            lines,
        } = self;
        let mut lines = lines.into_iter();
        let mut rows = rows.into_iter().peekable();
        std::iter::from_fn(move || {
            rows.peek()?;
            Some(Self {
                time_ms,
                rows: rows.by_ref().take(most).collect(),
                lines: lines.by_ref().take(most).collect(),
            })
        })
    }
}

#[cfg(test)]
impl Offer {
    /// All but where it stands.
    pub fn said(&self) -> (Option<u64>, &[BatchRow]) {
        (self.time_ms, &self.rows)
    }
}
