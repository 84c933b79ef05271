//! Lists of a few calls on one store of the port and one merger and hybrid clock of the original, over small universes.

use cuwelfra_sys::HybridParts;
use oracle::log::ReplicatedLog;
use oracle::stubs::ActorId;

use crate::boundaries::Boundaries;
use crate::census::{Census, FOLDS, MOVES};
use crate::model::modelled;
use crate::original::beside::log_of;
use crate::original::joined::Joined;
use crate::port::area::AUTHORS;
use crate::port::batches::{unsigned, Answer, Offer};
use crate::port::own::Sealing;
use crate::port::rows::Row;
use crate::port::store::Entries;
use crate::rng::Rng;
use crate::support::{Check, Outcome};
use crate::world::lists::{gated, Universe};
use crate::world::strange::{damaged, over_capacity, over_limits, short, unreadable};

const LISTS: u64 = 500_000;

#[derive(Default)]
struct Counts {
    census: Census,
    boundaries: Boundaries,
}

impl Counts {
    fn note(&mut self, offer: &Offer, answer: &Answer) {
        self.census.note(&answer.told, &answer.folds);
        self.boundaries.note(offer, answer);
    }
}

pub fn run(rng: &mut Rng) -> Outcome {
    let mut counts = Counts::default();
    for _ in 0..LISTS {
        match rng.below(400) {
            0 => wide(rng, &mut counts)?,
            1..=8 => crowded(rng, &mut counts)?,
            _ => small(rng, &mut counts)?,
        }
    }
    let numbers = [0, 17, 18, 26, 27, 28];
    let Counts { census, boundaries } = counts;
    let own = census.own.finish("call-lists, rows of its own", &numbers)?;
    boundaries.finish("call-lists")?;
    census.folds("call-lists", &FOLDS)?;
    Ok(own + census.finish("call-lists", 1..=18, &MOVES)?)
}

/// Few authors, and a log with few slots.
fn small(rng: &mut Rng, counts: &mut Counts) -> Check {
    let universe = Universe::new(rng);
    let start = universe.start;
    let authors = universe
        .authors
        .iter()
        .filter(|_| start > 0 || rng.once_in(9));
    let compacted: Entries = authors.map(|author| (*author, start)).collect();
    let capacity = rng.pick(&[1, 2, 3, 4, 6, 8, 12]);
    let mut joined = Joined::new(log_of(&[], &compacted), capacity);
    for _ in 0..1 + rng.below(5) {
        step(rng, &universe, &mut joined, counts)?;
    }
    Ok(())
}

/// As many authors as a clock has places, or one or two less.
fn crowded(rng: &mut Rng, counts: &mut Counts) -> Check {
    let present = AUTHORS as u64 - rng.next() % 3;
    let universe = Universe::of(rng, &[1, 2, present, 33, 34, 35], 0);
    let seq = rng.next() % 2;
    let rows: Vec<Row> = (1..=present)
        .map(|author| universe.row(rng, author, seq))
        .collect();
    let log = match rng.below(3) {
        0 => log_of(&[], &(1..=present).map(|author| (author, seq)).collect()),
        _ => log_of(&rows, &Entries::new()),
    };
    let capacity = log.len() + rng.pick(&[1, 3, 20]);
    let mut joined = Joined::new(log, capacity);
    for _ in 0..1 + rng.below(5) {
        step(rng, &universe, &mut joined, counts)?;
    }
    Ok(())
}

/// 64 held rows and as many in a batch that releases them all, of as many authors or of few.
fn wide(rng: &mut Rng, counts: &mut Counts) -> Check {
    let authors = rng.pick(&[10, 31, 32, 64, 128]);
    let capacity = rng.pick(&[127, 128, 140]);
    let mut joined = Joined::new(ReplicatedLog::new(), capacity);
    for offer in gated(rng, authors) {
        let answer = joined.batch(rng, &offer)?;
        counts.note(&offer, &answer);
    }
    Ok(())
}

fn step(rng: &mut Rng, universe: &Universe, joined: &mut Joined, counts: &mut Counts) -> Check {
    match rng.below(22) {
        0 | 1 => {
            let floor = universe.stamp(rng);
            return joined.set_floor(rng, floor);
        }
        2 => return joined.compact(universe.stamp(rng)),
        3 => return joined.insert(&universe.rows[rng.below(universe.rows.len())]),
        4 => {
            joined.replace(snapshot(rng, universe));
            return Ok(());
        }
        5 => {
            let row = &universe.rows[rng.below(universe.rows.len())];
            let issued = row.seq.saturating_sub(rng.next() % 4);
            counts.census.own.note(&joined.own(row, issued)?);
            return Ok(());
        }
        6 => {
            let row = &universe.rows[rng.below(universe.rows.len())];
            counts.census.own.note(&joined.seal(&sealing(row))?);
            return Ok(());
        }
        _ => {}
    }
    let mut offer = universe.offer(rng);
    if rng.once_in(30) {
        return beyond(rng, joined, offer, counts);
    }
    other_outcomes(rng, joined, &mut offer);
    if rng.once_in(2) {
        offer.clock = HybridParts {
            max_drift_ms: offer.clock.max_drift_ms,
            ..joined.clock
        };
    }
    let answer = joined.batch(rng, &offer)?;
    counts.note(&offer, &answer);
    Ok(())
}

/// A row as it is, which mostly depends on something else than the log's clock.
pub fn sealing(row: &Row) -> Sealing {
    Sealing {
        bytes: unsigned(row),
        signature: row.signature.clone(),
    }
}

/// A log that did not come through the merger.
fn snapshot(rng: &mut Rng, universe: &Universe) -> ReplicatedLog {
    let mut compacted = Entries::new();
    for author in &universe.authors {
        if !rng.once_in(3) {
            let number = universe.start.saturating_add(rng.next() % 4);
            compacted.insert(*author, number);
        }
    }
    let count = rng.below(3);
    let rows = (0..count).map(|_| universe.rows[rng.below(universe.rows.len())].clone());
    log_of(&rows.collect::<Vec<_>>(), &compacted)
}

/// Outcomes are not compared: some rows that the call must ignore come with another one.
fn other_outcomes(rng: &mut Rng, joined: &Joined, offer: &mut Offer) {
    let ignored = ignored(joined, offer);
    for (lent, ignored) in offer.rows.iter_mut().zip(ignored) {
        if ignored && rng.once_in(3) {
            lent.outcome = rng.next() % 5;
            lent.detail = if matches!(lent.outcome, 2 | 4) { 77 } else { 0 };
        }
    }
}

/// Which rows the call must ignore: they are logged, held, or earlier in the batch.
pub fn ignored(joined: &Joined, offer: &Offer) -> Vec<bool> {
    let clock = joined.original.log.clock();
    let oldest = offer.time.saturating_sub(offer.limits.max_pending_age_ms);
    let kept = joined.original.held().iter();
    let kept = kept.filter(|held| held.arrival >= oldest);
    let mut seen: Vec<(u64, u64)> = kept.map(|held| (held.row.author, held.row.seq)).collect();
    let mut ignored = Vec::new();
    for lent in &offer.rows {
        let id = (lent.row.author, lent.row.seq);
        ignored.push(id.1 <= clock.get(ActorId(id.0)) || seen.contains(&id));
        seen.push(id);
    }
    ignored
}

/// A call that the original cannot answer: over capacity, short, damaged or unreadable.
fn beyond(rng: &mut Rng, joined: &Joined, mut offer: Offer, counts: &mut Counts) -> Check {
    let mut areas = joined.areas.clone();
    match rng.below(4) {
        0 => over_capacity(rng, &mut offer.rows),
        1 => damaged(rng, &mut areas),
        _ => {}
    }
    let mut lent = joined.lent(&offer);
    match rng.below(4) {
        0 => short(rng, &mut areas, &mut lent),
        1 => unreadable(rng, &mut lent.batch),
        2 => over_limits(rng, &mut lent.limits),
        _ => {}
    }
    modelled(&mut counts.census, &areas, &lent)
}
