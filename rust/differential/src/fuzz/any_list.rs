//! Random lists of calls: those of the suite call-lists, longer, some with large batches.

use crate::fuzz::list::{Call, List, Snapshot};
use crate::port::area::AUTHORS;
use crate::port::batches::{BatchRow, Offer};
use crate::port::rows::Row;
use crate::port::store::Entries;
use crate::rng::Rng;
use crate::world::lists::{gated, Universe};

pub fn any_list(rng: &mut Rng) -> List {
    match rng.below(40) {
        0 => wide(rng),
        1 | 2 => crowded(rng),
        _ => small(rng),
    }
}

/// Few authors, and a log with few slots.
fn small(rng: &mut Rng) -> List {
    let universe = Universe::new(rng);
    let start = universe.start;
    let mut compacted = Entries::new();
    for author in &universe.authors {
        if start > 0 || rng.once_in(9) {
            compacted.insert(*author, start);
        }
    }
    let snapshot = Snapshot {
        rows: Vec::new(),
        compacted,
    };
    let capacity = rng.pick(&[1, 2, 3, 4, 6, 8, 12, 24]);
    over(rng, &universe, snapshot, capacity)
}

/// As many authors as a clock has places, or one or two less.
fn crowded(rng: &mut Rng) -> List {
    let present = AUTHORS as u64 - rng.next() % 3;
    let universe = Universe::of(rng, &[1, 2, present, 33, 34, 35], 0);
    let seq = rng.next() % 2;
    let mut start = Snapshot::default();
    if rng.once_in(3) {
        start.compacted = (1..=present).map(|author| (author, seq)).collect();
    } else {
        let rows = (1..=present).map(|author| universe.row(rng, author, seq));
        start.rows = rows.collect();
    }
    let capacity = start.rows.len() + rng.pick(&[1, 3, 20]);
    over(rng, &universe, start, capacity)
}

/// 64 held rows and as many in a batch that releases them all.
fn wide(rng: &mut Rng) -> List {
    let authors = rng.pick(&[10, 31, 32, 64, 128]);
    let offers = gated(rng, authors);
    List {
        start: Snapshot::default(),
        capacity: rng.pick(&[127, 128, 140]),
        calls: offers.map(|offer| Call::Batch(offer, rng.next())).to_vec(),
    }
}

/// Up to twelve calls over a universe.
fn over(rng: &mut Rng, universe: &Universe, start: Snapshot, capacity: usize) -> List {
    let count = 1 + rng.below(12);
    let calls = (0..count).map(|_| any_call(rng, universe)).collect();
    List {
        start,
        capacity,
        calls,
    }
}

fn any_call(rng: &mut Rng, universe: &Universe) -> Call {
    match rng.below(24) {
        0 | 1 => Call::Floor(universe.stamp(rng), rng.next()),
        2 => Call::Compact(universe.stamp(rng)),
        3 => Call::Insert(any_row(rng, universe)),
        4 => Call::Replace(any_snapshot(rng, universe)),
        5..=7 => any_own(rng, universe),
        8 => Call::Seal(any_row(rng, universe)),
        _ => Call::Batch(any_offer(rng, universe), rng.next()),
    }
}

/// A row of the desk's own, mostly after the number that is last issued.
fn any_own(rng: &mut Rng, universe: &Universe) -> Call {
    let mut row = any_row(rng, universe);
    let issued = match rng.below(8) {
        0 => rng.edge(),
        _ => row.seq.saturating_sub(1 + rng.next() % 4),
    };
    if rng.once_in(4) {
        let len = rng.pick(&[255, 256, 257]);
        row.payload = rng.bytes(len);
    }
    if rng.once_in(4) {
        let len = rng.pick(&[63, 64, 65]);
        row.signature = rng.bytes(len);
    }
    Call::Own(row, issued)
}

fn any_row(rng: &mut Rng, universe: &Universe) -> Row {
    universe.rows[rng.below(universe.rows.len())].clone()
}

fn any_snapshot(rng: &mut Rng, universe: &Universe) -> Snapshot {
    let mut snapshot = Snapshot::default();
    for author in &universe.authors {
        if !rng.once_in(3) {
            let number = universe.start.saturating_add(rng.next() % 4);
            snapshot.compacted.insert(*author, number);
        }
    }
    for _ in 0..rng.below(3) {
        snapshot.rows.push(any_row(rng, universe));
    }
    snapshot
}

/// A batch call, some rows of which have another outcome.
fn any_offer(rng: &mut Rng, universe: &Universe) -> Offer {
    let mut offer = universe.offer(rng);
    if rng.once_in(10) {
        let count = rng.below(65 - offer.rows.len());
        let more = (0..count).map(|_| BatchRow::new(any_row(rng, universe)));
        offer.rows.extend(more.collect::<Vec<_>>());
    }
    for lent in &mut offer.rows {
        if rng.once_in(6) {
            lent.outcome = rng.next() % 5;
            lent.detail = if matches!(lent.outcome, 2 | 4) { 77 } else { 0 };
        }
    }
    offer
}
