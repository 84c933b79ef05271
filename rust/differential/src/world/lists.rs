//! Small universes of rows, and what call lists over them are made of. Ties, falling stamps, gaps, zero and own
//! dependencies, repeats and conflicts are common.

use std::collections::BTreeMap;

use cuwelfra::Limits;

use crate::port::batches::{BatchRow, Offer, FRESH};
use crate::port::rows::{Row, Stamp};
use crate::rng::Rng;
use crate::world::clocks::clock;

/// Counters of most universes.
const FIRST: [u32; 3] = [0, 0, 1];
/// The last counters that a row may have, and the one before them.
const LAST: [u32; 3] = [u32::MAX - 1, u32::MAX - 1, u32::MAX - 2];

pub struct Universe {
    pub authors: Vec<u64>,
    /// The clock number that every author starts from.
    pub start: u64,
    now: u64,
    /// The stamps' counters.
    counters: [u32; 3],
    /// Every row, and other contents of some.
    pub rows: Vec<Row>,
}

impl Universe {
    pub fn new(rng: &mut Rng) -> Self {
        let size = rng.pick(&[1, 2, 2, 2, 3, 3, 4]);
        let authors = match rng.below(4) {
            0 => [0, 7, u64::MAX - 1, u64::MAX],
            _ => [1, 2, 3, 4],
        };
        let start = rng.pick(&[0, 0, 0, 0, 0, 0, 5, u64::MAX - 3, u64::MAX - 1]);
        Self::of(rng, &authors[4 - size..], start)
    }

    /// A universe of these authors, with one to four rows each.
    pub fn of(rng: &mut Rng, authors: &[u64], start: u64) -> Self {
        let mut universe = Self {
            authors: authors.to_vec(),
            start,
            now: rng.pick(&[0, 2, 1_000, 1_000, 1_000, 1_000, u64::MAX - 1]),
            counters: rng.pick(&[FIRST, FIRST, FIRST, FIRST, FIRST, LAST]),
            rows: Vec::new(),
        };
        for author in authors {
            for i in 0..1 + rng.next() % 4 {
                let seq = start.saturating_add(1 + i);
                let row = universe.row(rng, *author, seq);
                if rng.once_in(8) {
                    universe.rows.push(universe.other(rng, &row));
                }
                universe.rows.push(row);
            }
        }
        universe
    }

    /// A row with few bytes and dependencies on what may be there.
    pub fn row(&self, rng: &mut Rng, author: u64, seq: u64) -> Row {
        let wall = if rng.once_in(3) {
            self.now
        } else {
            self.near_now(rng)
        };
        let count = rng.pick(&[0, 0, 0, 0, 1, 1, 2, 3]);
        let deps: BTreeMap<u64, u64> = (0..count).map(|_| self.dep(rng, author, seq)).collect();
        let payload: &[u8] = rng.pick(&[&[], &[1], &[2], &[3, 4], &[5, 6, 7]]);
        let signature: &[u8] = rng.pick(&[&[], &[], &[9], &[8, 9]]);
        Row {
            stamp: (wall, rng.pick(&self.counters), author),
            author,
            seq,
            deps: deps.into_iter().collect(),
            payload: payload.to_vec(),
            signature: signature.to_vec(),
        }
    }

    /// A dependency, on an own row below `seq` at most.
    fn dep(&self, rng: &mut Rng, author: u64, seq: u64) -> (u64, u64) {
        let on = if rng.once_in(20) {
            rng.edge()
        } else {
            rng.pick(&self.authors)
        };
        let number = match rng.below(8) {
            0 => 0,
            1 => self.start,
            _ => self.start.saturating_add(rng.next() % 4),
        };
        let number = if on == author {
            number.min(seq.saturating_sub(1))
        } else {
            number
        };
        (on, number)
    }

    /// The same author and sequence with another content.
    fn other(&self, rng: &mut Rng, row: &Row) -> Row {
        let mut other = row.clone();
        match rng.below(5) {
            0 => other.stamp.0 = row.stamp.0 ^ 1,
            1 => other.stamp.1 = row.stamp.1 ^ 1,
            2 => other.payload.push(0),
            3 => other.signature.push(0),
            _ => match other.deps.first_mut() {
                Some(dep) => dep.1 ^= 1,
                None => other.deps.push((self.authors[0], 0)),
            },
        }
        other
    }

    fn near_now(&self, rng: &mut Rng) -> u64 {
        let step = rng.next() % 4;
        if rng.once_in(2) {
            self.now.saturating_add(step)
        } else {
            self.now.saturating_sub(step)
        }
    }

    /// The time of a call.
    pub fn time(&self, rng: &mut Rng) -> u64 {
        match rng.below(30) {
            0 => 0,
            1 => u64::MAX,
            _ => self.soon(rng),
        }
    }

    /// One of eight times.
    pub fn soon(&self, rng: &mut Rng) -> u64 {
        self.now.saturating_add(rng.next() % 8)
    }

    /// A floor or a cutoff: around the stamps of the rows.
    pub fn stamp(&self, rng: &mut Rng) -> Stamp {
        let (wall, counter, author) = self.rows[rng.below(self.rows.len())].stamp;
        match rng.below(6) {
            0 => (wall.saturating_sub(1), counter, author),
            1 => (wall, counter ^ 1, author),
            2 => (wall, counter, rng.near(author)),
            _ => (wall, counter, author),
        }
    }

    /// Leaves one content of each author and sequence.
    pub fn keep_one_content(&mut self) {
        self.rows.dedup_by_key(|row| (row.author, row.seq));
    }

    /// A batch call of any kind; one in eight has faulty rows.
    pub fn offer(&self, rng: &mut Rng) -> Offer {
        let (limits, time) = (limits(rng), self.time(rng));
        let rows = self.batch(rng);
        offer(rng, limits, time, rows)
    }

    /// Some rows in any order, with repeats.
    pub fn batch(&self, rng: &mut Rng) -> Vec<BatchRow> {
        batch(rng, &self.rows)
    }
}

/// Some of these rows in any order, with repeats.
pub fn batch(rng: &mut Rng, rows: &[Row]) -> Vec<BatchRow> {
    let count = rng.pick(&[0, 1, 2, 3, 4, 6, 8]);
    let mut row = || rows[rng.below(rows.len())].clone();
    (0..count).map(|_| BatchRow::new(row())).collect()
}

/// A batch call with any clock; one in eight has faulty rows.
pub fn offer(rng: &mut Rng, limits: Limits, time: u64, rows: Vec<BatchRow>) -> Offer {
    let mut offer = Offer {
        limits,
        time,
        clock: FRESH,
        rows,
    };
    if rng.once_in(8) {
        for _ in 0..1 + rng.below(2) {
            spoil(rng, &mut offer);
        }
    }
    offer.clock = clock(rng, &offer.limits, offer.time, &offer.rows);
    offer
}

/// Two batches of 64: rows of so many authors that all wait for author 1's first, which comes last.
pub fn gated(rng: &mut Rng, authors: u64) -> [Offer; 2] {
    let universe = Universe::of(rng, &[1], 0);
    let mut rows = Vec::new();
    for i in 0..128 {
        let mut row = universe.row(rng, 2 + i % authors, 1 + i / authors);
        row.deps = vec![(1, 1)];
        rows.push(row);
    }
    let gate = rows.last_mut().expect("a row");
    (gate.author, gate.stamp.2, gate.seq) = (1, 1, 1);
    gate.deps.clear();
    let later = rows.split_off(64);
    [rows, later].map(|rows| {
        let (limits, time) = (Limits::default(), u64::MAX);
        let rows: Vec<BatchRow> = rows.into_iter().map(BatchRow::new).collect();
        Offer {
            limits,
            time,
            clock: clock(rng, &limits, time, &rows),
            rows,
        }
    })
}

/// Settings, most of which are wide.
pub fn limits(rng: &mut Rng) -> Limits {
    let mut setting = |wide: &[u64], tight: &[u64]| {
        let from = if rng.once_in(14) { tight } else { wide };
        rng.pick(from)
    };
    Limits::new()
        .with_max_pending(setting(&[64], &[0, 1, 2, 3]))
        .with_max_pending_per_actor(setting(&[64, u64::MAX], &[0, 1, 2]))
        .with_max_pending_bytes(setting(&[16_384, u64::MAX], &[0, 1, 2, 4]))
        .with_max_pending_age_ms(setting(&[3_600_000, u64::MAX, 4, 2], &[0, 1]))
        .with_max_drift_ms(setting(&[60_000, u64::MAX, 3], &[0, 1]))
        .with_max_deps(setting(&[16], &[0, 1, 2]))
        .with_max_payload(setting(&[256], &[0, 1, 2]))
}

/// Gives a row one of the faults 5 to 12.
fn spoil(rng: &mut Rng, offer: &mut Offer) {
    if offer.rows.is_empty() {
        return;
    }
    let at = rng.below(offer.rows.len());
    let lent = &mut offer.rows[at];
    let limits = &mut offer.limits;
    let row = &mut lent.row;
    match rng.below(8) {
        0 => row.seq = 0,
        1 => row.stamp.2 ^= 1,
        2 => row.stamp.1 = u32::MAX,
        3 => {
            row.payload.push(1);
            limits.max_payload = row.payload.len() as u64 - 1;
        }
        4 => limits.max_deps = (row.deps.len() as u64).saturating_sub(1),
        5 => {
            row.deps.retain(|(author, _)| *author != row.author);
            row.deps.push((row.author, rng.near(row.seq)));
            row.deps.sort();
        }
        6 => {
            let last = offer.time.saturating_add(limits.max_drift_ms);
            row.stamp.0 = last.saturating_add(rng.next() % 2);
        }
        _ => lent.verdict = 0,
    }
}
