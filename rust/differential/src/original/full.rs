//! Stores at and near full size: up to 1,024 logged rows, 32 authors and watermarks, 64 held rows.

use oracle::log::ReplicatedLog;

use crate::original::beside::{log_of, Pair};
use crate::port::area::AUTHORS;
use crate::port::rows::{Held, Row, Stamp, DEPS, PAYLOAD, SIGNATURE, SLOT};
use crate::port::store::{Entries, HELD, LOGGED};
use crate::rng::Rng;
use crate::world::World;

/// Rows of a held area.
pub const HELD_ROWS: usize = HELD / SLOT;

/// What the rows of one store are made of.
pub struct Full {
    pub world: World,
    /// The first wall time, and over how many the log spreads.
    wall: u64,
    walls: usize,
    counters: &'static [u32],
    /// The stamps' author where all have one.
    stamper: Option<u64>,
    /// The number behind which every author's rows come.
    start: u64,
    /// Whether some rows repeat a number or have 0.
    odd: bool,
}

impl Full {
    pub fn new(rng: &mut Rng) -> Self {
        let size = rng.pick(&[1, 2, AUTHORS - 1, AUTHORS, AUTHORS, AUTHORS, AUTHORS]);
        let world = World::of(rng, size);
        Self {
            wall: rng.pick(&[0, 1_000_000, u64::MAX - 2 * LOGGED as u64]),
            walls: rng.pick(&[1, 3, 40, LOGGED, LOGGED, LOGGED]),
            counters: if rng.once_in(3) {
                &[0, 1, u32::MAX]
            } else {
                &[0]
            },
            stamper: rng.once_in(6).then(|| rng.pick(&world.authors)),
            start: rng.pick(&[0, 0, 7, u64::MAX - 4 * LOGGED as u64]),
            odd: rng.once_in(2),
            world,
        }
    }

    /// A store of such rows; most are at the limits, some are compacted.
    pub fn pair(&self, rng: &mut Rng) -> Pair {
        let logged = match rng.below(8) {
            0..=2 => LOGGED,
            3 | 4 => LOGGED - 1,
            5 => LOGGED - 2 - rng.below(8),
            _ => rng.below(LOGGED + 1),
        };
        let original = self.log(rng, logged);
        let held = rng.pick(&[0, 1, HELD_ROWS - 1, HELD_ROWS, HELD_ROWS]);
        let held = self.held(rng, held);
        let floor = rng.once_in(2).then(|| self.any_stamp(rng));
        Pair::with(rng, original, held, floor)
    }

    /// So many rows, behind some or none that are compacted away; with equal stamps at that place there are fewer.
    pub fn log(&self, rng: &mut Rng, logged: usize) -> ReplicatedLog {
        let removed = rng.pick(&[0, 0, 1, 40, 300]);
        let mut rows = self.rows(rng, removed + logged);
        if rng.once_in(3) {
            rng.shuffle(&mut rows);
        }
        let mut compacted = Entries::new();
        for author in &self.world.authors {
            if self.start > 0 || rng.once_in(8) {
                compacted.insert(*author, self.start);
            }
        }
        let mut log = log_of(&rows, &compacted);
        if removed > 0 {
            let cutoff = log.ops()[removed - 1].timestamp;
            log.compact(&cutoff);
        }
        log
    }

    /// Rows by rising stamp. Each author's numbers follow each other, but for the odd ones.
    fn rows(&self, rng: &mut Rng, count: usize) -> Vec<Row> {
        let authors = &self.world.authors;
        let mut numbers = Entries::new();
        let mut rows = Vec::with_capacity(count);
        for n in 0..count {
            let any = rng.pick(authors);
            let author = authors.get(n).copied().unwrap_or(any);
            let number = numbers.entry(author).or_insert(self.start);
            let odd = if self.odd { rng.below(60) } else { 60 };
            *number += u64::from(odd > 1);
            let seq = if odd == 0 { 0 } else { *number };
            let stamp = self.stamp(rng, n * self.walls / count, author);
            rows.push(self.row(rng, author, seq, stamp));
        }
        rows
    }

    /// Held rows of numbers that no logged row has, none twice.
    fn held(&self, rng: &mut Rng, count: usize) -> Vec<Held> {
        let mut held = Vec::with_capacity(count);
        for n in 0..count {
            let author = rng.pick(&self.world.authors);
            let seq = self.start + 2 * LOGGED as u64 + n as u64;
            let stamp = self.any_stamp(rng);
            held.push(Held {
                row: self.row(rng, author, seq, stamp),
                arrival: rng.edge(),
                outcome: rng.pick(&[0, 1, 3]),
                detail: 0,
            });
        }
        held.sort_by_key(|held| held.row.key());
        held
    }

    /// The stamp of a row by this author at one of the wall times, one in sixteen by another author.
    fn stamp(&self, rng: &mut Rng, wall: usize, author: u64) -> Stamp {
        let foreign = rng.once_in(16).then(|| rng.pick(&self.world.authors));
        let author = self.stamper.or(foreign).unwrap_or(author);
        (self.wall + wall as u64, rng.pick(self.counters), author)
    }

    fn any_stamp(&self, rng: &mut Rng) -> Stamp {
        let wall = rng.below(self.walls);
        let author = rng.pick(&self.world.authors);
        self.stamp(rng, wall, author)
    }

    /// Most rows are small, some as large as a row may be.
    fn row(&self, rng: &mut Rng, author: u64, seq: u64, stamp: Stamp) -> Row {
        let (deps, payload, signature) = match rng.below(16) {
            0 => (DEPS, PAYLOAD, SIGNATURE),
            1 => (DEPS - 1, PAYLOAD - 1, SIGNATURE - 1),
            2 => (1, rng.pick(&[126, 127, 128, 129]), 0),
            _ => (rng.below(3), rng.below(6), rng.below(3)),
        };
        let deps = self.world.authors.iter().take(deps);
        Row {
            stamp,
            author,
            seq,
            deps: deps.map(|on| (*on, rng.next() % 300)).collect(),
            payload: rng.bytes(payload),
            signature: rng.bytes(signature),
        }
    }
}

/// A clock beside a log's: the same, none, each author some rows behind, or a few behind, ahead or absent.
pub fn near_clock(rng: &mut Rng, clock: &Entries) -> Entries {
    let mut near = clock.clone();
    match rng.below(8) {
        0 | 1 => {}
        2 => near.clear(),
        3 => {
            let most = rng.pick(&[2, 40, 1_100]);
            for number in near.values_mut() {
                *number = number.saturating_sub(rng.next() % most);
            }
        }
        _ => {
            let authors: Vec<u64> = clock.keys().copied().collect();
            for _ in 0..authors.len().min(1 + rng.below(3)) {
                let author = rng.pick(&authors);
                let number = clock[&author];
                match rng.below(4) {
                    0 => near.remove(&author),
                    1 => near.insert(author, rng.near(number)),
                    2 => near.insert(author, u64::MAX),
                    _ => near.insert(author, number.saturating_sub(rng.next() % 40)),
                };
            }
        }
    }
    near
}
