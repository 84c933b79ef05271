//! A store and its calls in words, for cases that are written by hand.

use cuwelfra::Limits;
use cuwelfra_sys::{self as sys, HybridParts, Told};

use crate::model::folding::same_clock;
use crate::port::area::word;
use crate::port::batches::{BatchRow, Offer, FRESH, LINE};
use crate::port::lending::{call, Answered, Lent};
use crate::port::rows::{Held, Row, Stamp};
use crate::port::store::{self, is_zero, Areas, Content};

/// A row without dependencies, whose wall time is its sequence. It fits.
pub fn row(author: u64, seq: u64) -> BatchRow {
    BatchRow {
        row: Row {
            stamp: (seq, 0, author),
            author,
            seq,
            deps: Vec::new(),
            payload: vec![author as u8, seq as u8],
            signature: Vec::new(),
        },
        verdict: 1,
        outcome: 0,
        detail: 0,
    }
}

impl BatchRow {
    /// With this wall time.
    pub fn at(mut self, wall: u64) -> Self {
        self.row.stamp.0 = wall;
        self
    }

    /// With this counter.
    pub fn counter(mut self, counter: u32) -> Self {
        self.row.stamp.1 = counter;
        self
    }

    /// With one more dependency, on a greater author than before.
    pub fn needs(mut self, author: u64, number: u64) -> Self {
        self.row.deps.push((author, number));
        self
    }

    pub fn payload(mut self, payload: &[u8]) -> Self {
        self.row.payload = payload.to_vec();
        self
    }

    pub fn outcome(mut self, outcome: u64, detail: u64) -> Self {
        (self.outcome, self.detail) = (outcome, detail);
        self
    }

    pub fn unverified(mut self) -> Self {
        self.verdict = 0;
        self
    }
}

/// A store with a hybrid clock, and the settings and the time of its calls.
pub struct Desk {
    pub areas: Areas,
    pub limits: Limits,
    pub time: u64,
    pub clock: HybridParts,
}

impl Desk {
    /// An empty store for so many rows.
    pub fn new(capacity: usize) -> Self {
        Self {
            areas: Areas::new(capacity, 0),
            limits: Limits::default(),
            time: 1_000,
            clock: FRESH,
        }
    }

    /// What a batch call is lent.
    pub fn lent(&self, rows: &[BatchRow]) -> Lent {
        let offer = Offer {
            limits: self.limits,
            time: self.time,
            clock: self.clock,
            rows: rows.to_vec(),
        };
        Lent::new(&offer, word(&self.areas.head, 1) as usize)
    }

    /// Offers a batch, and tells what came of it.
    pub fn offer<const N: usize>(&mut self, rows: [BatchRow; N]) -> String {
        self.offer_all(&rows)
    }

    /// The same for a list of rows.
    pub fn offer_all(&mut self, rows: &[BatchRow]) -> String {
        let lent = self.lent(rows);
        self.call(&lent)
    }

    /// The call's answer; the clock moves on. A refusal must leave store and clock, and count nothing.
    pub fn answer(&mut self, lent: &Lent) -> Answered {
        let before = self.areas.clone();
        let answer = call(&mut self.areas, lent);
        assert!(is_zero(&answer.scratch), "scratch");
        if answer.told.told != Told::default() {
            assert!(self.areas == before, "a refusal changed the store");
        }
        if let Err(difference) = same_clock(lent, &answer.told) {
            panic!("{difference}");
        }
        self.clock.last_wall = answer.told.last_wall;
        self.clock.last_counter = answer.told.last_counter as u32;
        answer
    }

    /// The answer in words.
    pub fn call(&mut self, lent: &Lent) -> String {
        let answer = self.answer(lent);
        let told = answer.told;
        if told.told != Told::default() {
            return refusal(told.told);
        }
        let logged = told.applied + told.stale + told.rejected;
        let lines = answer.output.chunks(LINE).take(logged as usize);
        let lines: Vec<String> = lines.map(line).collect();
        let counts = [
            ("held", told.held),
            ("duplicates", told.duplicates),
            ("expired", told.expired),
            ("dropped", told.dropped),
            ("failed folds", told.failed_folds),
        ];
        let mut parts = Vec::new();
        if !lines.is_empty() {
            parts.push(format!("logged {}", lines.join(", ")));
        }
        for (name, count) in counts.into_iter().filter(|(_, count)| *count > 0) {
            parts.push(format!("{name} {count}"));
        }
        parts.join("; ")
    }

    /// Wall and counter of the hybrid clock.
    pub fn stands(&self) -> String {
        format!("{}/{}", self.clock.last_wall, self.clock.last_counter)
    }

    pub fn set_floor(&mut self, stamp: Stamp) -> String {
        let areas = &mut self.areas;
        let told = sys::set_floor(&areas.log, &areas.held, &mut areas.head, stamp);
        refusal(told)
    }

    pub fn content(&self) -> Content {
        store::read(&self.areas).expect("a store that keeps the rules")
    }

    /// Changes what the store holds.
    pub fn change(&mut self, change: impl FnOnce(&mut Content)) {
        let mut content = self.content();
        change(&mut content);
        self.areas.write(&content);
    }

    /// The log in its order.
    pub fn log(&self) -> String {
        let content = self.content();
        shown(content.rows.iter())
    }

    /// The held rows in their order.
    pub fn held(&self) -> String {
        let content = self.content();
        shown(content.held.iter().map(|held: &Held| &held.row))
    }
}

fn shown<'a>(rows: impl Iterator<Item = &'a Row>) -> String {
    let rows: Vec<String> = rows
        .map(|row| format!("{}:{}", row.author, row.seq))
        .collect();
    rows.join(" ")
}

fn line(line: &[u8]) -> String {
    let id = format!("{}:{}", word(line, 0), word(line, 1));
    match (line[16], line[17]) {
        (0, 0) => id,
        (1, 0) => format!("{id} stale"),
        (fate, detail) => format!("{id} fate {fate}/{detail}"),
    }
}

/// The number and the values, nothing where nothing is refused.
fn refusal(told: Told) -> String {
    match told.number {
        0 => String::new(),
        number => format!("refused {number} {} {}", told.first, told.second),
    }
}
