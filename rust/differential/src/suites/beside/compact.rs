//! Compaction to cutoffs around the logged stamps, and the clock derived afterwards.

use cuwelfra_sys::{self as sys, Told};

use crate::original::beside::{clock_area, log_of, timestamp, told_number, Pair};
use crate::port::area::{Area, BYTES};
use crate::port::rows::Stamp;
use crate::port::wrapped::wrapped_stamp;
use crate::rng::Rng;
use crate::suites::beside::from_parts::{small_clocks, small_lists};
use crate::support::{agree, pattern, refused, Outcome, Reach};
use crate::world::World;

const STEPS: u64 = 200_000;

pub fn run(rng: &mut Rng) -> Outcome {
    let mut cases = small(rng)?;
    let mut steps = 0;
    while steps < STEPS {
        let world = World::new(rng);
        let logged = rng.below(16);
        let mut pair = Pair::new(rng, &world, logged);
        loop {
            derived(rng, &mut pair)?;
            let cutoff = match rng.below(8) {
                0 => (0, 0, 0),
                1 => (u64::MAX, u32::MAX, u64::MAX),
                _ => world.near_stamp(rng, &pair.content().rows),
            };
            compacted(rng, &mut pair, cutoff)?;
            steps += 1;
            if pair.original.is_empty() {
                break;
            }
        }
    }
    cases += 2 * steps;
    Ok(cases)
}

/// Every small log and every cutoff around its stamps.
fn small(rng: &mut Rng) -> Outcome {
    let world = World::of(rng, 2);
    let mut cases = 0;
    for list in small_lists(2) {
        for clock in small_clocks() {
            let mut pair = Pair::of(rng, &world, log_of(&list, &clock));
            for wall in 0..3 {
                for author in 0..4 {
                    compacted(rng, &mut pair, (wall, 0, author))?;
                    cases += 1;
                }
            }
        }
    }
    Ok(cases)
}

/// Compares a compaction, and gives how many rows it removes.
pub fn compacted(rng: &mut Rng, pair: &mut Pair, cutoff: Stamp) -> Reach {
    let inputs = |pair: &Pair| format!("compact to {cutoff:?}, the log {}", pair.shown());
    let mut after = pair.original.clone();
    let removed = after.compact(&timestamp(cutoff));
    let answer = if rng.once_in(4) {
        let answer = pair.wrapped(|store| store.compact(&wrapped_stamp(cutoff)));
        told_number(answer.map_err(|r| format!("{}\n  {r}", inputs(pair)))? as u64)
    } else {
        let areas = &mut pair.areas;
        sys::compact(&mut areas.log, &areas.held, &mut areas.head, cutoff)
    };
    agree(&answer, &told_number(removed as u64), || inputs(pair))?;
    pair.now(after);
    pair.same(|| inputs(pair))?;
    Ok(Some(removed))
}

/// Compares the derived clock, and gives how many authors it has.
pub fn derived(rng: &mut Rng, pair: &mut Pair) -> Reach {
    let clock = pair.original.derive_clock();
    let wanted = clock_area(&clock);
    if rng.once_in(4) {
        let answer = pair.wrapped(|store| store.derive_clock());
        let answer = answer.map(|clock| *clock.area());
        agree(&answer, &Ok(wanted), || {
            format!("derive_clock of {}", pair.shown())
        })?;
    } else if !derived_into(rng, pair, &wanted)? {
        return Ok(None);
    }
    Ok(Some(clock.peers.len()))
}

/// Into an area that is exact, longer or short; gives whether it fits.
fn derived_into(rng: &mut Rng, pair: &Pair, wanted: &Area) -> Result<bool, String> {
    let room = rng.pick(&[BYTES, BYTES, BYTES + 1, BYTES + 70, BYTES - 1, 0]);
    let mut area = pattern(room);
    let mut after = area.clone();
    let mut told = refused(2);
    if room >= BYTES {
        after[..BYTES].copy_from_slice(wanted);
        told = Told::default();
    }
    let inputs = || format!("derive_clock into {room} bytes of {}", pair.shown());
    agree(
        &sys::derive_clock(pair.areas.lent(), &mut area),
        &told,
        inputs,
    )?;
    agree(&area, &after, inputs)?;
    pair.same(inputs)?;
    Ok(room >= BYTES)
}
