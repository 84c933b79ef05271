//! Records the original's answers on call lists, for a replay that needs no Rust: `differential record FILE`.
//!
//! Numbers are big-endian words of 64 bits. The file begins with three: the bytes "cuwelfra", how many records follow, and
//! the words of a record's head, 34. A record is its head and two blocks of bytes. The head:
//!
//! | word | new store | floor setting | batch call | local row | lookup |
//! |---|---|---|---|---|---|
//! | 0 | 1 | 2 | 3 | 4 | 5 |
//! | 1: length of the first block | 0, or 520 for a clock area | 0 | that of the batch | 704 for a slot | that of the payload |
//! | 2: length of the second block | 0 | 0 | that of the lines | 0 | 0 |
//! | 3 | slots of the log area | wall time | time in ms | 0 | author |
//! | 4 | 0 | counter | `max_pending` | 0 | sequence |
//! | 5 to 10 | 0 | author, then 0 | the other settings, up to `max_payload` | 0 | 0 |
//! | 11, 12 | 0 | 0 | lengths of scratch and output | 0 | 0 |
//! | 13 to 15 | 0 | 0 | the refusal's number and values, or 0 | 0 | 0 |
//! | 16 to 22 | 0 | 0 | the counts, `applied` to `dropped` | 0 | 0 |
//! | 23 | 0 | 0 | the stamps that could not be folded | 0 | 0 |
//! | 24 to 27 | 0 | 0 | the hybrid clock handed in: actor, wall, counter, drift | 0 | 0 |
//! | 28 to 30 | 0 | 0 | what that clock's `now` answers afterwards, at the time of the call: 0, wall, counter; or 19 and zeros | 0 | 0 |
//! | 31 to 33 | check numbers of log, held and head area after the call | the same | the same | the same | the same |
//!
//! A new store has areas of zeros; a clock area goes to 48 and 568 of the head, as clock and compacted clock. The records up
//! to the next new store are calls on it, one after the other. Before a batch call each byte of scratch and output is 165.
//! After it scratch is zero, and the output begins with the lines; its other bytes are 165 still. A local row is inserted
//! into the log. A lookup gives the payload of the first logged row with that author and sequence, else of the held one, else
//! no byte.
//!
//! A first block has at most 2,048 bytes, a second one and an output 2,304, scratch 90,112, and a log area 128 slots.
//!
//! The check number of an area: 0 at first; then for each word of the area, from the first on, it is rotated left by 5 bits,
//! and the word is added, modulo 2^64.

use std::fs;

use cuwelfra_sys::{DeltaTold, HybridParts, Told};

use crate::census::{Census, FOLDS};
use crate::original::beside::{log_of, operation};
use crate::original::clock_told;
use crate::original::folding::Clock;
use crate::original::merger::Original;
use crate::port::area::{self, word};
use crate::port::batches::{Offer, FRESH};
use crate::port::lending::Lent;
use crate::port::rows::{Row, Stamp};
use crate::port::store::{Areas, Entries};
use crate::rng::Rng;
use crate::world::lists::{gated, Universe};

/// Words of a record's head.
const HEAD: usize = 34;
/// Lists over small universes, over as many authors as a clock has, and with batches of 64 rows.
const SMALL: usize = 1_100;
const CROWDED: usize = 60;
const WIDE: usize = 8;

/// Writes the file, and gives how many records and bytes it has.
pub fn record(rng: &mut Rng, file: &str) -> Result<(u64, usize), String> {
    let mut sample = Sample::default();
    for _ in 0..SMALL {
        small(rng, &mut sample);
    }
    for _ in 0..CROWDED {
        crowded(rng, &mut sample);
    }
    for _ in 0..WIDE {
        wide(rng, &mut sample);
    }
    let moves = ["applied", "stale", "rejected", "held", "expired", "dropped"];
    sample.census.folds("record", &FOLDS)?;
    sample.census.finish("record", 5..=18, &moves)?;
    let mut bytes = b"cuwelfra".to_vec();
    put(&mut bytes, &[sample.records, HEAD as u64]);
    bytes.extend(sample.bytes);
    fs::write(file, &bytes).map_err(|error| format!("{file}: {error}"))?;
    Ok((sample.records, bytes.len()))
}

fn small(rng: &mut Rng, sample: &mut Sample) {
    let universe = Universe::new(rng);
    let start = universe.start;
    let authors = universe.authors.iter().filter(|_| start > 0);
    let compacted: Entries = authors.map(|author| (*author, start)).collect();
    let mut store = sample.begin(rng.pick(&[1, 3, 6, 12]), &compacted);
    for _ in 0..1 + rng.below(5) {
        match rng.below(16) {
            0 | 1 => store.set_floor(universe.stamp(rng)),
            2 => store.insert(&universe.rows[rng.below(universe.rows.len())]),
            _ => store.offer(rng, &universe),
        }
    }
}

fn crowded(rng: &mut Rng, sample: &mut Sample) {
    let universe = Universe::of(rng, &[1, 31, 32, 33, 34], 0);
    let compacted: Entries = (1..=31).map(|author| (author, 0)).collect();
    let mut store = sample.begin(8, &compacted);
    for _ in 0..3 {
        store.offer(rng, &universe);
    }
}

/// 64 held rows, and a batch that releases them.
fn wide(rng: &mut Rng, sample: &mut Sample) {
    let authors = rng.pick(&[9, 31, 32]);
    let mut store = sample.begin(rng.pick(&[127, 128]), &Entries::new());
    for offer in gated(rng, authors) {
        store.batch(&offer);
    }
}

/// What is recorded.
#[derive(Default)]
struct Sample {
    records: u64,
    bytes: Vec<u8>,
    census: Census,
}

/// A store of the sample.
struct Store<'a> {
    sample: &'a mut Sample,
    original: Original,
    areas: Areas,
    /// The hybrid clock as the last batch call left it.
    clock: HybridParts,
}

/// What a batch call tells and what it was told of the clock; nothing for the other kinds.
#[derive(Default)]
struct Recorded {
    told: DeltaTold,
    clock: HybridParts,
    /// The refusal's number, and wall and counter of the stamp that the clock issues next.
    issued: [u64; 3],
}

impl Sample {
    fn begin(&mut self, slots: usize, compacted: &Entries) -> Store<'_> {
        let mut store = Store {
            sample: self,
            original: Original::new(log_of(&[], compacted)),
            areas: Areas::new(slots, 0),
            clock: FRESH,
        };
        let clock = match compacted.is_empty() {
            true => Vec::new(),
            false => area::encode(compacted.clone()).to_vec(),
        };
        store.put(1, &[slots as u64], &Recorded::default(), [&clock, &[]]);
        store
    }
}

impl Store<'_> {
    fn set_floor(&mut self, floor: Stamp) {
        self.original.set_floor(floor);
        let numbers = [floor.0, u64::from(floor.1), floor.2];
        self.put(2, &numbers, &Recorded::default(), [&[], &[]]);
    }

    /// A batch with any clock, or with the clock that the last one left.
    fn offer(&mut self, rng: &mut Rng, universe: &Universe) {
        let mut offer = universe.offer(rng);
        if rng.once_in(2) {
            offer.clock = HybridParts {
                max_drift_ms: offer.clock.max_drift_ms,
                ..self.clock
            };
        }
        self.batch(&offer);
    }

    fn batch(&mut self, offer: &Offer) {
        let lent = Lent::new(offer, self.original.held().len());
        let (answer, after) = self.original.apply(offer, self.areas.capacity());
        self.sample.census.note(&answer.told, &answer.folds);
        if let Some(after) = after {
            self.original = after;
        }
        self.clock = HybridParts {
            last_wall: answer.told.last_wall,
            last_counter: answer.told.last_counter as u32,
            ..offer.clock
        };
        let recorded = Recorded {
            told: answer.told,
            clock: offer.clock,
            issued: issued(offer, answer.told.told == Told::default()),
        };
        let limits = &offer.limits;
        let numbers = [
            offer.time,
            limits.max_pending,
            limits.max_pending_per_actor,
            limits.max_pending_bytes,
            limits.max_pending_age_ms,
            limits.max_drift_ms,
            limits.max_deps,
            limits.max_payload,
            lent.scratch as u64,
            lent.output as u64,
        ];
        self.put(3, &numbers, &recorded, [&lent.batch, &answer.output()]);
        if let Some(row) = self.wanted(offer) {
            self.look_up(row);
        }
    }

    /// The author and sequence to look up next: of a row that was offered, is logged or is held, in turn.
    fn wanted(&self, offer: &Offer) -> Option<(u64, u64)> {
        match self.sample.records % 4 {
            0 => offer.rows.last().map(|row| (row.row.author, row.row.seq)),
            1 => (self.original.log.ops().first()).map(|op| (op.actor.0, op.seq)),
            2 => (self.original.held().last()).map(|held| (held.row.author, held.row.seq)),
            _ => None,
        }
    }

    /// The payload of a row, by a search in the original's rows.
    fn look_up(&mut self, (author, seq): (u64, u64)) {
        let mut logged = self.original.log.ops().iter();
        let logged = logged.find(|op| (op.actor.0, op.seq) == (author, seq));
        let mut held = self.original.held().iter();
        let held = held.find(|held| (held.row.author, held.row.seq) == (author, seq));
        let payload = match (logged, held) {
            (Some(op), _) => op.op.bytes.clone(),
            (None, Some(held)) => held.row.payload.clone(),
            (None, None) => Vec::new(),
        };
        self.put(5, &[author, seq], &Recorded::default(), [&payload, &[]]);
    }

    /// A local row, where there is room.
    fn insert(&mut self, row: &Row) {
        if self.original.log.len() < self.areas.capacity() {
            self.original.log.insert(operation(row));
            self.put(4, &[], &Recorded::default(), [&row.slot(), &[]]);
        }
    }

    /// One record, of what the original holds now.
    fn put(&mut self, kind: u64, numbers: &[u64], recorded: &Recorded, blocks: [&[u8]; 2]) {
        assert!(blocks[0].len() <= 2_048 && blocks[1].len() <= 2_304);
        self.areas.write(&self.original.content());
        let mut head = [0; HEAD];
        head[0] = kind;
        head[1] = blocks[0].len() as u64;
        head[2] = blocks[1].len() as u64;
        head[3..3 + numbers.len()].copy_from_slice(numbers);
        let Recorded { told, clock, .. } = recorded;
        head[13..28].copy_from_slice(&[
            told.told.number,
            told.told.first,
            told.told.second,
            told.applied,
            told.stale,
            told.rejected,
            told.duplicates,
            told.held,
            told.expired,
            told.dropped,
            told.failed_folds,
            clock.actor,
            clock.last_wall,
            clock.last_counter.into(),
            clock.max_drift_ms,
        ]);
        head[28..31].copy_from_slice(&recorded.issued);
        let areas = &self.areas;
        for (number, area) in head[31..]
            .iter_mut()
            .zip([&areas.log, &areas.held, &areas.head])
        {
            *number = check_number(area);
        }
        let sample = &mut self.sample;
        sample.records += 1;
        put(&mut sample.bytes, &head);
        sample.bytes.extend(blocks.concat());
    }
}

/// What the original's clock issues at the time of a call, after it took the stamps of an accepted batch in.
fn issued(offer: &Offer, accepted: bool) -> [u64; 3] {
    let mut clock = Clock::at(&offer.clock);
    if accepted {
        clock.fold(offer.time, offer.stamps().iter());
    }
    match clock.now(offer.time) {
        Ok(stamp) => [0, stamp.wall_time, stamp.logical_counter.into()],
        Err(error) => [clock_told(&error).number, 0, 0],
    }
}

fn put(bytes: &mut Vec<u8>, numbers: &[u64]) {
    for number in numbers {
        bytes.extend(number.to_be_bytes());
    }
}

fn check_number(area: &[u8]) -> u64 {
    let words = (0..area.len() / 8).map(|i| word(area, i));
    words.fold(0, |sum: u64, word| sum.rotate_left(5).wrapping_add(word))
}
