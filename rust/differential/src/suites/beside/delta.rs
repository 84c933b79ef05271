//! The delta as log positions.

use cuwelfra_sys as sys;
use oracle::sync;

use crate::original::beside::{clock_area, entries, row, vector, Pair};
use crate::original::listed::listed;
use crate::port::store::Entries;
use crate::rng::Rng;
use crate::support::{agree, Outcome, Reach};
use crate::world::World;

const DELTAS: u64 = 200_000;

pub fn run(rng: &mut Rng) -> Outcome {
    let mut deltas = 0;
    while deltas < DELTAS {
        let world = World::new(rng);
        let logged = rng.below(14);
        let mut pair = Pair::new(rng, &world, logged);
        for _ in 0..4 {
            let clock = entries(pair.original.clock());
            let peer = world.near_clock(rng, &clock);
            delta(rng, &mut pair, &peer)?;
            deltas += 1;
        }
    }
    Ok(deltas)
}

/// The positions of the original's rows, found by going through the log once.
fn positions(pair: &Pair, peer: &Entries) -> Vec<u64> {
    let delta = sync::calculate_delta(&pair.original, &vector(peer));
    let mut rows = delta.iter().peekable();
    let mut positions = Vec::new();
    for (i, op) in pair.original.ops().iter().enumerate() {
        // Of rows with all values equal each is in the delta or none.
        if rows.next_if(|next| *next == op).is_some() {
            positions.push(i as u64);
        }
    }
    assert_eq!(rows.next().map(row), None, "the delta is part of the log");
    positions
}

/// Compares a delta, and gives how many rows it has.
pub fn delta(rng: &mut Rng, pair: &mut Pair, peer: &Entries) -> Reach {
    let wanted = positions(pair, peer);
    let area = clock_area(&vector(peer));
    let inputs = |pair: &Pair| format!("calculate_delta for {peer:?} of {}", pair.shown());
    let rows = if rng.once_in(4) {
        let clock = cuwelfra::VectorClock::from_area(area);
        let answer = pair.wrapped(|store| {
            let delta = store.delta(&clock);
            delta.map(|delta| delta.positions().to_vec())
        });
        let positions = wanted.iter().map(|i| *i as usize).collect();
        agree(&answer, &Ok(positions), || inputs(pair))?;
        Some(wanted.len())
    } else {
        listed(rng, pair, &wanted, inputs, |store, output| {
            sys::calculate_delta(store, &area, output)
        })?
    };
    pair.same(|| inputs(pair))?;
    Ok(rows)
}
