//! Cutoffs of random logs and frontiers, and whether the log can serve a peer.

use cuwelfra_sys as sys;
use oracle::gc;

use crate::original::beside::{
    clock_area, entries, log_of, stamp, told_number, told_stamp, vector, Pair,
};
use crate::port::store::Entries;
use crate::port::wrapped::wrapped_stamp;
use crate::rng::Rng;
use crate::suites::beside::from_parts::{small_clocks, small_lists};
use crate::support::{agree, Outcome, Reach};
use crate::world::World;

const QUESTIONS: u64 = 200_000;

pub fn run(rng: &mut Rng) -> Outcome {
    let mut cases = small(rng)?;
    let mut questions = 0;
    while questions < QUESTIONS {
        let world = World::new(rng);
        let logged = rng.below(14);
        let mut pair = Pair::new(rng, &world, logged);
        for _ in 0..4 {
            let clock = entries(pair.original.clock());
            let frontier = world.near_clock(rng, &clock);
            asked(rng, &mut pair, &frontier)?;
            let clock = entries(pair.original.compacted());
            let peer = world.near_clock(rng, &clock);
            served(rng, &mut pair, &peer)?;
            questions += 1;
        }
        pair.same(|| format!("questions to {}", pair.shown()))?;
    }
    cases += 2 * questions;
    Ok(cases)
}

/// Every small log and every small frontier.
fn small(rng: &mut Rng) -> Outcome {
    let world = World::of(rng, 2);
    let mut cases = 0;
    for list in small_lists(3) {
        let compacted = rng.below(6);
        let compacted = &small_clocks()[compacted];
        let mut pair = Pair::of(rng, &world, log_of(&list, compacted));
        for frontier in small_clocks() {
            asked(rng, &mut pair, &frontier)?;
            cases += 1;
        }
    }
    Ok(cases)
}

/// Compares a cutoff, and gives how many rows are at or below it.
pub fn asked(rng: &mut Rng, pair: &mut Pair, frontier: &Entries) -> Reach {
    let clock = vector(frontier);
    let wanted = gc::cutoff(&pair.original, &clock);
    let area = clock_area(&clock);
    let shown = |pair: &Pair| format!("cutoff at {frontier:?} of {}", pair.shown());
    if rng.once_in(4) {
        let frontier = cuwelfra::VectorClock::from_area(area);
        let answer = pair.wrapped(|store| store.cutoff(&frontier));
        let wanted = wanted.map(|cut| wrapped_stamp(stamp(&cut)));
        agree(&answer, &Ok(wanted), || shown(pair))?;
    } else {
        let answer = sys::cutoff(pair.areas.lent(), &area);
        agree(&answer, &told_stamp(wanted.as_ref()), || shown(pair))?;
    }
    let ops = pair.original.ops();
    let below = |cut| ops.partition_point(|op| op.timestamp <= cut);
    Ok(Some(wanted.map_or(0, below)))
}

/// Compares whether the log can serve a peer, and gives 1 or 0.
pub fn served(rng: &mut Rng, pair: &mut Pair, peer: &Entries) -> Reach {
    let clock = vector(peer);
    let wanted = pair.original.can_serve(&clock);
    let area = clock_area(&clock);
    let shown = |pair: &Pair| format!("can_serve of {peer:?} by {}", pair.shown());
    if rng.once_in(4) {
        let peer = cuwelfra::VectorClock::from_area(area);
        let answer = pair.wrapped(|store| store.can_serve(&peer));
        agree(&answer, &Ok(wanted), || shown(pair))?;
    } else {
        let answer = sys::can_serve(pair.areas.lent(), &area);
        agree(&answer, &told_number(u64::from(wanted)), || shown(pair))?;
    }
    Ok(Some(usize::from(wanted)))
}
