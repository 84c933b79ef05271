//! Random rows, clocks and stores over few authors and times, so that ties, repeats and gaps are common.

pub mod calls;
pub mod clocks;
pub mod damage;
pub mod lists;
pub mod messages;
pub mod own;
pub mod pieces;
pub mod strange;

use std::collections::{BTreeMap, BTreeSet};

use crate::port::area::AUTHORS;
use crate::port::rows::{Held, Row, Stamp, DEPS, PAYLOAD, SIGNATURE, SLOT};
use crate::port::store::{observe, Areas, Content, Entries, LOGGED};
use crate::rng::Rng;

pub struct World {
    pub authors: Vec<u64>,
    walls: Vec<u64>,
    counters: Vec<u32>,
    seqs: Vec<u64>,
}

impl World {
    pub fn new(rng: &mut Rng) -> Self {
        let size = rng.pick(&[1, 2, 2, 3, 3, 4, 6, 9]);
        Self::of(rng, size)
    }

    /// A world with so many authors.
    pub fn of(rng: &mut Rng, size: usize) -> Self {
        let base = rng.edge();
        let authors: BTreeSet<u64> = match rng.below(3) {
            0 => (0..size as u64).collect(),
            1 => (0..size as u64).map(|i| u64::MAX - i).collect(),
            _ => (0..size as u64).map(|i| base.wrapping_add(i * i)).collect(),
        };
        let wall = rng.edge();
        let walls = (0..1 + rng.below(5)).map(|_| rng.near(wall)).collect();
        let counters = (0..1 + rng.below(3)).map(|_| rng.edge32()).collect();
        let seqs = (0..1 + rng.below(6))
            .map(|_| {
                if rng.once_in(4) {
                    rng.edge()
                } else {
                    rng.next() % 5
                }
            })
            .collect();
        Self {
            authors: authors.into_iter().collect(),
            walls,
            counters,
            seqs,
        }
    }

    pub fn author(&self, rng: &mut Rng) -> u64 {
        if rng.once_in(50) {
            return rng.edge();
        }
        rng.pick(&self.authors)
    }

    pub fn seq(&self, rng: &mut Rng) -> u64 {
        rng.pick(&self.seqs)
    }

    /// A stamp; one in eight is foreign.
    pub fn stamp(&self, rng: &mut Rng, author: u64) -> Stamp {
        let author = if rng.once_in(8) {
            self.author(rng)
        } else {
            author
        };
        (rng.pick(&self.walls), rng.pick(&self.counters), author)
    }

    /// A stamp around those of the rows.
    pub fn near_stamp(&self, rng: &mut Rng, rows: &[Row]) -> Stamp {
        let author = self.author(rng);
        if rows.is_empty() || rng.once_in(4) {
            return self.stamp(rng, author);
        }
        let (wall, counter, author) = rows[rng.below(rows.len())].stamp;
        match rng.below(6) {
            0 => (rng.near(wall), counter, author),
            1 => (wall, rng.near(u64::from(counter)) as u32, author),
            2 => (wall, counter, rng.near(author)),
            _ => (wall, counter, author),
        }
    }

    /// A row with few bytes.
    pub fn row(&self, rng: &mut Rng) -> Row {
        let author = self.author(rng);
        let deps = (0..rng.below(3)).map(|_| (self.author(rng), self.seq(rng)));
        let deps: BTreeMap<u64, u64> = deps.collect();
        let payload = rng.below(6);
        let signature = rng.below(3);
        Row {
            stamp: self.stamp(rng, author),
            author,
            seq: self.seq(rng),
            deps: deps.into_iter().collect(),
            payload: rng.bytes(payload),
            signature: rng.bytes(signature),
        }
    }

    /// A row of each of the first authors, of which some or all have sequence 0.
    pub fn row_of_each(&self, rng: &mut Rng, authors: usize) -> Vec<Row> {
        let zeros = rng.once_in(2);
        let authors = self.authors.iter().take(authors);
        let rows = authors.map(|author| {
            let mut row = self.row(rng);
            row.author = *author;
            if zeros {
                row.seq = 0;
            }
            row
        });
        rows.collect()
    }

    pub fn rows(&self, rng: &mut Rng, count: usize) -> Vec<Row> {
        (0..count).map(|_| self.row(rng)).collect()
    }

    /// A clock, zeros among its numbers, with at most so many authors.
    pub fn clock(&self, rng: &mut Rng, authors: usize) -> Entries {
        let mut clock = Entries::new();
        for _ in 0..rng.below(authors + 1) {
            let seq = self.seq(rng);
            let number = if rng.once_in(3) { rng.near(seq) } else { seq };
            let number = if rng.once_in(5) { 0 } else { number };
            clock.insert(self.author(rng), number);
        }
        clock
    }

    /// A clock that a peer may have: around the numbers of `clock`.
    pub fn near_clock(&self, rng: &mut Rng, clock: &Entries) -> Entries {
        let mut near = self.clock(rng, self.authors.len().min(4));
        for (author, number) in clock {
            match rng.below(4) {
                0 => near.insert(*author, *number),
                1 => near.insert(*author, rng.near(*number)),
                2 => near.insert(*author, u64::MAX),
                _ => None,
            };
        }
        while near.len() > AUTHORS {
            near.pop_first();
        }
        near
    }

    /// Up to so many held rows by stamp, author and sequence, none twice.
    pub fn held(&self, rng: &mut Rng, count: usize) -> Vec<Held> {
        let mut held: Vec<Held> = Vec::new();
        for _ in 0..4 * count {
            if held.len() == count {
                break;
            }
            let row = self.row(rng);
            let outcome = rng.next() % 5;
            let detail = if matches!(outcome, 2 | 4) {
                u64::from(rng.byte())
            } else {
                0
            };
            let twice = |h: &Held| (h.row.author, h.row.seq) == (row.author, row.seq);
            if !held.iter().any(twice) {
                held.push(Held {
                    row,
                    arrival: rng.edge(),
                    outcome,
                    detail,
                });
            }
        }
        held.sort_by_key(|h| h.row.key());
        held
    }

    pub fn floor(&self, rng: &mut Rng) -> Option<Stamp> {
        let author = self.author(rng);
        rng.once_in(2).then(|| self.stamp(rng, author))
    }

    /// A sound store that was compacted or not.
    pub fn content(&self, rng: &mut Rng, logged: usize, held: usize) -> Content {
        let mut rows = self.rows(rng, logged);
        rows.sort_by_key(|row| row.stamp);
        let compacted = self.clock(rng, self.authors.len().min(4));
        let mut content = Content {
            held: self.held(rng, held),
            floor: self.floor(rng),
            clock: compacted.clone(),
            compacted,
            ..Content::default()
        };
        for row in &rows {
            observe(&mut content.clock, row.author, row.seq);
            let mark = content.marks.entry(row.author).or_insert(row.stamp);
            *mark = (*mark).max(row.stamp);
            if rng.once_in(8) {
                mark.0 = mark.0.saturating_add(1);
            }
        }
        if rng.once_in(4) {
            let author = self.author(rng);
            let stamp = self.stamp(rng, author);
            content.marks.entry(author).or_insert(stamp);
        }
        content.rows = rows;
        content
    }
}

/// A row with many sizes: up to 16 dependencies, 256 payload and 64 signature bytes.
pub fn large_row(rng: &mut Rng) -> Row {
    let mut deps = BTreeMap::new();
    let most = rng.pick(&[0, 1, 2, 3, 15, DEPS]);
    for _ in 0..rng.below(most + 1) {
        deps.insert(boundary(rng), boundary(rng));
    }
    let payload = rng.pick(&[0, 1, 2, 7, 126, 127, 128, 129, PAYLOAD - 1, PAYLOAD]);
    let signature = rng.pick(&[0, 1, 8, SIGNATURE - 1, SIGNATURE]);
    Row {
        stamp: (boundary(rng), boundary(rng) as u32, boundary(rng)),
        author: boundary(rng),
        seq: boundary(rng),
        deps: deps.into_iter().collect(),
        payload: rng.bytes(payload),
        signature: rng.bytes(signature),
    }
}

/// A number around a power of 2^7, or another edge.
pub fn boundary(rng: &mut Rng) -> u64 {
    if rng.once_in(2) {
        let power = 1 << (7 * rng.below(10));
        return rng.near(power);
    }
    rng.edge()
}

/// Areas for a store: a few slots more or none, and some bytes behind. Slots past 1,024 are none of the log's.
pub fn areas(rng: &mut Rng, logged: usize) -> Areas {
    let slots = (logged + rng.pick(&[0, 1, 2, 5])).max(1);
    let behind = rng.pick(&[0, 0, 1, 8, SLOT - 1]);
    let beyond = slots.saturating_sub(LOGGED);
    Areas::new(slots - beyond, beyond * SLOT + behind)
}
