//! Rows looked up among the logged, first place first, then the held.

use cuwelfra::Place;
use cuwelfra_sys::{self as sys, LookupTold, Told};

use crate::original::beside::Pair;
use crate::port::rows::SLOT;
use crate::rng::Rng;
use crate::support::{agree, Outcome, Reach};
use crate::world::World;

const LOOKUPS: u64 = 200_000;

pub fn run(rng: &mut Rng) -> Outcome {
    let mut lookups = 0;
    while lookups < LOOKUPS {
        let many = rng.once_in(8);
        let world = if many {
            World::of(rng, 30)
        } else {
            World::new(rng)
        };
        let logged = rng.below(10);
        let mut pair = Pair::new(rng, &world, logged);
        if rng.once_in(2) {
            let held = if many { 64 } else { 1 + rng.below(8) };
            pair.hold(world.held(rng, held));
        }
        for _ in 0..6 {
            let (author, seq) = wanted_id(rng, &world, &pair);
            lookup(rng, &mut pair, author, seq)?;
            lookups += 1;
        }
        pair.same(|| format!("lookups in {}", pair.shown()))?;
    }
    Ok(lookups)
}

/// The author and sequence of a logged or held row, or any.
pub fn wanted_id(rng: &mut Rng, world: &World, pair: &Pair) -> (u64, u64) {
    let ops = pair.original.ops();
    match rng.below(3) {
        0 if !ops.is_empty() => {
            let op = &ops[rng.below(ops.len())];
            (op.actor.0, op.seq)
        }
        1 if !pair.held.is_empty() => {
            let row = &pair.held[rng.below(pair.held.len())].row;
            (row.author, row.seq)
        }
        _ => (world.author(rng), world.seq(rng)),
    }
}

/// Place, slot and payload by a search in the original's rows and then in the held ones.
fn search(pair: &Pair, author: u64, seq: u64) -> Option<(u64, usize, Vec<u8>)> {
    let ops = pair.original.ops();
    let logged = ops
        .iter()
        .position(|op| op.actor.0 == author && op.seq == seq);
    if let Some(i) = logged {
        return Some((1, i, ops[i].op.bytes.clone()));
    }
    let held = &pair.held;
    let i = held
        .iter()
        .position(|h| h.row.author == author && h.row.seq == seq)?;
    Some((2, i, held[i].row.payload.clone()))
}

/// Compares a lookup, and gives how many rows it goes through up to the one that it finds, 0 for none.
pub fn lookup(rng: &mut Rng, pair: &mut Pair, author: u64, seq: u64) -> Reach {
    let found = search(pair, author, seq);
    let logged = pair.original.len();
    let passed = found.as_ref().map_or(0, |(place, i, _)| match place {
        1 => i + 1,
        _ => logged + i + 1,
    });
    let inputs = |pair: &Pair| {
        let held = pair.held.iter().map(|h| (h.row.author, h.row.seq));
        let held: Vec<_> = held.collect();
        format!(
            "lookup of {author}:{seq} among held {held:?} and {}",
            pair.shown()
        )
    };
    if rng.once_in(4) {
        let answer = pair.wrapped(|store| {
            let found = store.lookup(cuwelfra::ActorId(author), seq);
            found.map(|found| found.map(|found| (found.place, found.payload.to_vec())))
        });
        let wanted = found.map(|(place, i, payload)| match place {
            1 => (Place::Logged(i), payload),
            _ => (Place::Held(i), payload),
        });
        agree(&answer, &Ok(wanted), || inputs(pair))?;
        return Ok(Some(passed));
    }
    let told = sys::lookup(pair.areas.lent(), author, seq);
    let wanted = found.as_ref().map(|(place, i, payload)| LookupTold {
        told: Told::default(),
        place: *place,
        slot: *i as u64,
        len: payload.len() as u64,
    });
    agree(&told, &wanted.unwrap_or_default(), || inputs(pair))?;
    let Some((place, _, payload)) = found else {
        return Ok(Some(0));
    };
    let area = if place == 1 {
        &pair.areas.log
    } else {
        &pair.areas.held
    };
    let part = &area[told.slot as usize * SLOT + 384..][..told.len as usize];
    agree(&part, &&payload[..], || inputs(pair))?;
    Ok(Some(passed))
}
