//! Batches and the lines of an output, by a writer of our own.

use cuwelfra::Limits;
use cuwelfra_sys::{DeltaTold, HybridParts, Told};

use crate::leb128::put;
use crate::port::rows::{Row, Stamp};

/// Bytes of a line.
pub const LINE: usize = 18;

/// A row with what comes with it in a batch.
#[derive(Clone, Debug, PartialEq, Eq)]
pub struct BatchRow {
    pub row: Row,
    pub verdict: u64,
    pub outcome: u64,
    pub detail: u64,
}

impl BatchRow {
    /// A row that verifies, with the outcome of its author and payload.
    pub fn new(row: Row) -> Self {
        let (outcome, detail) = outcome_of(row.author, &row.payload);
        Self {
            row,
            verdict: 1,
            outcome,
            detail,
        }
    }
}

/// A hybrid clock that has issued nothing, with the drift that settings have by default.
pub const FRESH: HybridParts = HybridParts {
    actor: 0,
    last_wall: 0,
    last_counter: 0,
    max_drift_ms: 60_000,
};

/// A batch call: settings, time, rows, and the hybrid clock that it is handed.
#[derive(Clone, Debug)]
pub struct Offer {
    pub limits: Limits,
    pub time: u64,
    pub clock: HybridParts,
    pub rows: Vec<BatchRow>,
}

impl Offer {
    /// The stamps, in batch order.
    pub fn stamps(&self) -> Vec<Stamp> {
        self.rows.iter().map(|lent| lent.row.stamp).collect()
    }
}

/// Outcome and detail of a payload: what policy and state answer wherever rows are compared.
pub fn outcome_of(author: u64, payload: &[u8]) -> (u64, u64) {
    let mix = |mark: u64, byte: &u8| mark.wrapping_mul(31).wrapping_add(u64::from(*byte));
    let mark = payload.iter().fold(author, mix);
    let detail = mark / 8 % 256;
    match mark % 8 {
        1 => (1, 0),
        2 => (2, detail),
        3 => (3, 0),
        4 => (4, detail),
        _ => (0, 0),
    }
}

/// The bytes of a batch of these rows.
pub fn batch(rows: &[BatchRow]) -> Vec<u8> {
    let mut bytes = Vec::new();
    put(&mut bytes, rows.len() as u64);
    for row in rows {
        put_row(&mut bytes, row);
    }
    bytes
}

fn put_row(bytes: &mut Vec<u8>, lent: &BatchRow) {
    let signature = &lent.row.signature;
    bytes.extend(unsigned(&lent.row));
    put(bytes, signature.len() as u64);
    bytes.extend(signature);
    bytes.extend([lent.verdict, lent.outcome, lent.detail].map(|number| number as u8));
}

/// What is signed of a row.
pub fn unsigned(row: &Row) -> Vec<u8> {
    let mut bytes = Vec::new();
    let (wall, counter, stamper) = row.stamp;
    for number in [wall, u64::from(counter), stamper, row.author, row.seq] {
        put(&mut bytes, number);
    }
    put(&mut bytes, row.deps.len() as u64);
    for (author, number) in &row.deps {
        put(&mut bytes, *author);
        put(&mut bytes, *number);
    }
    put(&mut bytes, row.payload.len() as u64);
    bytes.extend(&row.payload);
    bytes
}

/// A logged row in the output.
#[derive(Clone, Copy, Debug, PartialEq, Eq)]
pub struct Line {
    pub author: u64,
    pub seq: u64,
    /// 0 applied, 1 stale, 2 to 5 for outcomes 1 to 4.
    pub fate: u8,
    pub detail: u8,
}

/// What became of the stamps of an accepted batch. A call tells the failed ones as one number.
#[derive(Clone, Copy, Debug, Default, PartialEq, Eq)]
pub struct Folds {
    pub passed: u64,
    /// Failed by 20.
    pub ahead: u64,
    /// Failed by 19.
    pub overflowed: u64,
    /// Whether the same stamps, the last one first, give another clock.
    pub ordered: bool,
}

/// What a batch call tells, the lines that it writes, and what became of the stamps.
#[derive(Clone, Debug, PartialEq, Eq)]
pub struct Answer {
    pub told: DeltaTold,
    pub lines: Vec<Line>,
    pub folds: Folds,
}

impl Answer {
    /// A refusal counts nothing and hands the clock back.
    pub fn refused(told: Told, clock: &HybridParts) -> Self {
        Self {
            told: DeltaTold {
                told,
                last_wall: clock.last_wall,
                last_counter: clock.last_counter.into(),
                ..DeltaTold::default()
            },
            lines: Vec::new(),
            folds: Folds::default(),
        }
    }

    /// The answer to an accepted batch, by its counts, with the wall and the counter that its folds lead to.
    pub fn accepted(counts: DeltaTold, lines: Vec<Line>, last: (u64, u32), folds: Folds) -> Self {
        Self {
            told: DeltaTold {
                failed_folds: folds.ahead + folds.overflowed,
                last_wall: last.0,
                last_counter: last.1.into(),
                ..counts
            },
            lines,
            folds,
        }
    }

    /// The bytes of the lines.
    pub fn output(&self) -> Vec<u8> {
        let mut bytes = Vec::with_capacity(LINE * self.lines.len());
        for line in &self.lines {
            bytes.extend(line.author.to_be_bytes());
            bytes.extend(line.seq.to_be_bytes());
            bytes.extend([line.fate, line.detail]);
        }
        bytes
    }
}
