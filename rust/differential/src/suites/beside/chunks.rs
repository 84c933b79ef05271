//! The delta's chunks as row counts, at limits around the exact sizes.

use cuwelfra_sys as sys;
use oracle::sync;

use crate::original::beside::{clock_area, entries, log_of, vector, Pair};
use crate::original::listed::listed;
use crate::original::sent::byte_limit;
use crate::port::store::Entries;
use crate::rng::Rng;
use crate::support::{agree, Outcome, Reach};
use crate::world::{large_row, World};

const CHUNKINGS: u64 = 200_000;

pub fn run(rng: &mut Rng) -> Outcome {
    let mut chunkings = 0;
    while chunkings < CHUNKINGS {
        let world = World::new(rng);
        let mut pair = small(rng, &world);
        for _ in 0..4 {
            let clock = entries(pair.original.clock());
            let peer = if rng.once_in(2) {
                Entries::new()
            } else {
                world.near_clock(rng, &clock)
            };
            chunks(rng, &mut pair, &peer)?;
            chunkings += 1;
        }
    }
    Ok(chunkings)
}

/// A log of few rows, or of some that are large.
pub fn small(rng: &mut Rng, world: &World) -> Pair {
    if rng.once_in(3) {
        let rows: Vec<_> = (0..rng.below(8)).map(|_| large_row(rng)).collect();
        return Pair::of(rng, world, log_of(&rows, &Entries::new()));
    }
    let logged = rng.below(14);
    Pair::new(rng, world, logged)
}

/// Compares the chunks of a delta, and gives how many there are.
pub fn chunks(rng: &mut Rng, pair: &mut Pair, peer: &Entries) -> Reach {
    let delta = sync::calculate_delta(&pair.original, &vector(peer));
    let most = rng.pick(&[0, 1, 2, 3, 5, 100, u64::MAX - 1, u64::MAX, u64::MAX]);
    let bytes = byte_limit(rng, &delta);
    let chunks = sync::chunk_ops(&delta, most as usize, bytes as usize);
    let wanted: Vec<u64> = chunks.iter().map(|chunk| chunk.len() as u64).collect();
    // The counts say all: the chunks in order are the delta.
    assert_eq!(chunks.concat(), delta, "the chunks in order are the delta");
    let area = clock_area(&vector(peer));
    let inputs = |pair: &Pair| {
        let limits = format!("at most {most} rows and {bytes} bytes");
        format!("chunk_ops for {peer:?}, {limits}, of {}", pair.shown())
    };
    let chunks = if rng.once_in(4) {
        let clock = cuwelfra::VectorClock::from_area(area);
        let answer = pair.wrapped(|store| {
            let delta = store.delta(&clock)?;
            delta.chunk_lens(most, bytes)
        });
        let lens = wanted.iter().map(|rows| *rows as usize).collect();
        agree(&answer, &Ok(lens), || inputs(pair))?;
        Some(wanted.len())
    } else {
        listed(rng, pair, &wanted, inputs, |store, output| {
            sys::chunk_ops(store, &area, most, bytes, output)
        })?
    };
    pair.same(|| inputs(pair))?;
    Ok(chunks)
}
