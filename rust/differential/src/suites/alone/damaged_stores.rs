//! Stores that break one rule are refused with 1 by every call, short areas with 2, and no byte changes.

use cuwelfra_sys::Told;

use crate::port::area::word;
use crate::port::rows::SLOT;
use crate::port::store::{is_sound, same_areas, Areas, CLOCK, HEAD, HELD, MARKS};
use crate::rng::Rng;
use crate::support::{agree, refused, Check, Outcome};
use crate::world::calls::{shorten, spoil, Others, Takes, CALLS};
use crate::world::damage::{last_held, DAMAGES, HELD_DAMAGES};
use crate::world::{self, World};

/// Stores that are broken in every way and shown to every call.
const STORES: usize = 60;
const FLIPS: usize = 200_000;
/// Flips of one store.
const FLIPS_OF_A_STORE: usize = 50;

pub fn run(rng: &mut Rng) -> Outcome {
    let mut cases = 0;
    let mut broken = [0; DAMAGES.len() + HELD_DAMAGES.len()];
    for _ in 0..STORES {
        let (world, areas) = sound(rng);
        let others = Others::new(rng, &world);
        cases += broken_alone(&areas, &others, &mut broken)?;
        cases += short(rng, &areas, &others)?;
        cases += in_order(&areas, &others)?;
    }
    // Each way found a store to break.
    let unused = broken.iter().position(|times| *times == 0);
    agree(&unused, &None, || "ways to break a rule".into())?;
    for _ in 0..FLIPS / FLIPS_OF_A_STORE {
        let (world, mut areas) = sound(rng);
        let others = Others::new(rng, &world);
        for _ in 0..FLIPS_OF_A_STORE {
            flipped(rng, &mut areas, &others)?;
            cases += 1;
        }
    }
    Ok(cases)
}

pub fn sound(rng: &mut Rng) -> (World, Areas) {
    let world = if rng.once_in(6) {
        World::of(rng, 30)
    } else {
        World::new(rng)
    };
    let logged = rng.pick(&[0, 1, 2, 3, 5, 8]);
    let held = rng.pick(&[0, 1, 2, 3, 5, 64]);
    let content = world.content(rng, logged, held);
    let mut areas = world::areas(rng, logged);
    areas.write(&content);
    assert!(is_sound(&areas), "made by the rules: {content:?}");
    (world, areas)
}

/// Each rule broken alone; every call refuses it, and takes the store before.
fn broken_alone(areas: &Areas, others: &Others, broken: &mut [u64]) -> Outcome {
    let mut cases = taken(areas, others)?;
    for (i, (name, damage)) in DAMAGES.iter().enumerate() {
        let mut lent = areas.clone();
        if damage(&mut lent).is_some() && !is_sound(&lent) {
            broken[i] += 1;
            cases += refused_by_all(&lent, others, 1, name)?;
        }
    }
    for (i, (name, at, value)) in HELD_DAMAGES.iter().enumerate() {
        let mut lent = areas.clone();
        if last_held(&mut lent, *at, *value).is_some() && !is_sound(&lent) {
            broken[DAMAGES.len() + i] += 1;
            cases += refused_by_all(&lent, others, 1, name)?;
        }
    }
    Ok(cases)
}

/// No call refuses a sound store with 1 or 2; one whose other area breaks a rule or is short is refused with 1 or 2.
fn taken(areas: &Areas, others: &Others) -> Outcome {
    for (name, takes, call) in CALLS {
        let told = call(&mut areas.clone(), &mut others.clone());
        let logs = ["insert", "apply_delta", "seal"].contains(&name);
        let passed = told == Told::default() || (logs && told.number >= 17);
        agree(&passed, &true, || format!("{name} of a sound store"))?;
        let mut spoilt = others.clone();
        if spoil(takes, &mut spoilt) {
            one_refused(areas, &spoilt, call, 1, || format!("{name}, other unsound"))?;
        }
        let mut cut = others.clone();
        if shorten(takes, &mut cut) {
            one_refused(areas, &cut, call, 2, || format!("{name}, other short"))?;
        }
    }
    Ok(CALLS.len() as u64)
}

fn refused_by_all(areas: &Areas, others: &Others, number: u64, what: &str) -> Outcome {
    for (name, _, call) in CALLS {
        one_refused(areas, others, call, number, || format!("{name}, {what}"))?;
    }
    Ok(CALLS.len() as u64)
}

fn one_refused(
    areas: &Areas,
    others: &Others,
    call: fn(&mut Areas, &mut Others) -> Told,
    number: u64,
    inputs: impl Fn() -> String,
) -> Check {
    let mut lent = areas.clone();
    let mut lent_others = others.clone();
    let told = call(&mut lent, &mut lent_others);
    agree(&told, &refused(number), &inputs)?;
    agree(&lent_others, others, &inputs)?;
    same_areas(&lent, areas, &inputs)
}

/// Areas one byte short, sound or not, are refused with 2 by every call.
fn short(rng: &mut Rng, areas: &Areas, others: &Others) -> Outcome {
    let mut cases = 0;
    for cut in 0..3 {
        let mut lent = areas.clone();
        if rng.once_in(2) {
            lent.head[8] = 1;
        }
        match cut {
            0 => lent.log.truncate(rng.pick(&[0, SLOT - 1])),
            1 => lent.held.truncate(rng.pick(&[0, HELD - 1])),
            _ => lent.head.truncate(rng.pick(&[0, HEAD - 1])),
        }
        cases += refused_by_all(&lent, others, 2, "a short area")?;
        // Also before the rules of the other area.
        for (name, takes, call) in CALLS {
            let mut spoilt = others.clone();
            if spoil(takes, &mut spoilt) {
                one_refused(&lent, &spoilt, call, 2, || format!("{name}, short area"))?;
                cases += 1;
            }
        }
    }
    Ok(cases)
}

/// A damaged store: an other area that is short is refused first, an output that is short last.
fn in_order(areas: &Areas, others: &Others) -> Outcome {
    let mut lent = areas.clone();
    lent.head[8] = 1;
    let mut cases = 0;
    for (name, takes, call) in CALLS {
        let mut cut = others.clone();
        if shorten(takes, &mut cut) {
            one_refused(&lent, &cut, call, 2, || format!("{name}, other short"))?;
            cases += 1;
        }
        let mut cut = others.clone();
        cut.output.clear();
        one_refused(&lent, &cut, call, 1, || format!("{name}, no output"))?;
        if takes == Takes::Clock {
            spoil(takes, &mut cut);
            one_refused(areas, &cut, call, 1, || format!("{name}, no output"))?;
        }
        cases += 1;
    }
    Ok(cases)
}

/// One flipped bit: refused exactly where our checker of the rules says so.
fn flipped(rng: &mut Rng, areas: &mut Areas, others: &Others) -> Check {
    let logged = word(&areas.head, 0) as usize;
    let held = word(&areas.head, 1) as usize;
    let (which, byte) = match rng.below(10) {
        0..=3 => (0, rng.below(logged * SLOT + 1).min(areas.log.len() - 1)),
        4 => (0, rng.below(areas.log.len())),
        5 | 6 => (1, rng.below(held * SLOT + 1).min(HELD - 1)),
        7 => (1, rng.below(areas.held.len())),
        8 => (2, 8 * rng.pick(&[0, 1, 2, 4, CLOCK, MARKS]) + rng.below(9)),
        _ => (2, rng.below(areas.head.len())),
    };
    let bit = 1 << rng.below(8);
    let flip = |areas: &mut Areas| {
        let area = match which {
            0 => &mut areas.log,
            1 => &mut areas.held,
            _ => &mut areas.head,
        };
        area[byte] ^= bit;
    };
    flip(areas);
    let number = if is_sound(areas) { 0 } else { 1 };
    let inputs = || format!("bit {bit:#x} of byte {byte} of area {which} flipped");
    let judged = judged(rng, areas, others, number, inputs);
    flip(areas);
    judged
}

/// The check and one more call.
pub fn judged(
    rng: &mut Rng,
    areas: &mut Areas,
    others: &Others,
    number: u64,
    inputs: impl Fn() -> String,
) -> Check {
    let (_, _, check) = CALLS[0];
    let told = check(areas, &mut others.clone());
    agree(&told, &refused(number), || {
        format!("store_check, {}", inputs())
    })?;
    if number == 1 {
        let (name, _, call) = CALLS[1 + rng.below(CALLS.len() - 1)];
        return one_refused(areas, others, call, 1, || format!("{name}, {}", inputs()));
    }
    Ok(())
}
