//! Lists of insertions on one store: ties, repeats, gaps, foreign stamps, full logs and full clocks.

use cuwelfra_sys::{self as sys, Told};
use oracle::stubs::ActorId;

use crate::original::beside::{
    authors_fit, clock_area, log_of, operation, stamp, timestamp, told_number, told_stamp, Pair,
};
use crate::port::area::{set_word, AUTHORS, BYTES};
use crate::port::rows::{self, Slot, SLOT};
use crate::port::store::Entries;
use crate::port::wrapped::{refusal, wrapped_stamp};
use crate::rng::Rng;
use crate::support::{agree, pattern, refused, Check, Outcome};
use crate::world::World;

const STEPS: u64 = 200_000;

type ClockCall = fn(sys::Areas, &mut [u8]) -> Told;

pub fn run(rng: &mut Rng) -> Outcome {
    let mut steps = 0;
    while steps < STEPS {
        let (world, mut pair) = if rng.once_in(30) {
            crowded(rng)
        } else {
            let world = World::new(rng);
            let logged = rng.below(8);
            let pair = Pair::new(rng, &world, logged);
            (world, pair)
        };
        for _ in 0..1 + rng.below(16) {
            step(rng, &world, &mut pair)?;
            steps += 1;
        }
        let inputs = || format!("store_check of {}", pair.shown());
        agree(
            &sys::store_check(pair.areas.lent()),
            &Told::default(),
            inputs,
        )?;
    }
    Ok(steps)
}

/// A store whose clock or watermarks are full or almost full.
fn crowded(rng: &mut Rng) -> (World, Pair) {
    let size = rng.pick(&[32, 33, 34, 40]);
    let world = World::of(rng, size);
    let logged = rng.pick(&[1, 30, 31, 32, 32]);
    let rows = world.row_of_each(rng, logged);
    let clock = match rng.below(3) {
        0 => Entries::new(),
        1 => world.clock(rng, AUTHORS),
        _ => {
            let authors = world.authors.iter().take(AUTHORS);
            authors.map(|author| (*author, world.seq(rng))).collect()
        }
    };
    let mut original = log_of(&rows, &clock);
    if !authors_fit(&original) {
        original = log_of(&rows, &Entries::new());
    }
    let mut pair = Pair::of(rng, &world, original);
    pair.enlarge(20);
    (world, pair)
}

fn step(rng: &mut Rng, world: &World, pair: &mut Pair) -> Check {
    match rng.below(24) {
        0 => return compact(rng, world, pair),
        1 => return questions(rng, world, pair),
        2 => return refused_slot(rng, world, pair),
        _ => {}
    }
    let row = world.row(rng);
    let mut after = pair.original.clone();
    after.insert(operation(&row));
    let wanted = if after.len() > pair.areas.capacity() {
        refused(17)
    } else if !authors_fit(&after) {
        refused(18)
    } else {
        Told::default()
    };
    let inputs = |pair: &Pair| format!("insert of {row:02x?}, the log {}", pair.shown());
    let told = insert(rng, pair, &row.slot());
    agree(&told, &wanted, || inputs(pair))?;
    if wanted == Told::default() {
        pair.now(after);
    }
    pair.same(|| inputs(pair))
}

/// Through the call or through the wrapper.
fn insert(rng: &mut Rng, pair: &mut Pair, slot: &Slot) -> Told {
    if rng.once_in(4) {
        let slot = cuwelfra::Slot::from_area(*slot);
        return refusal(pair.wrapped(|store| store.insert(&slot)));
    }
    let mut lent = slot.to_vec();
    lent.extend(pattern(rng.pick(&[0, 0, 5])));
    let areas = &mut pair.areas;
    sys::insert(&mut areas.log, &areas.held, &mut areas.head, &lent)
}

/// Rows of which nothing is left count on.
fn compact(rng: &mut Rng, world: &World, pair: &mut Pair) -> Check {
    let cutoff = world.near_stamp(rng, &pair.content().rows);
    let inputs = format!("compact to {cutoff:?} of {}", pair.shown());
    let mut after = pair.original.clone();
    let removed = after.compact(&timestamp(cutoff)) as u64;
    let areas = &mut pair.areas;
    let answer = sys::compact(&mut areas.log, &areas.held, &mut areas.head, cutoff);
    agree(&answer, &told_number(removed), || inputs.clone())?;
    pair.now(after);
    pair.same(|| inputs)
}

/// Lengths, clocks, floor and watermarks as the calls tell them.
fn questions(rng: &mut Rng, world: &World, pair: &mut Pair) -> Check {
    let inputs = || format!("a question to {}", pair.shown());
    let lent = pair.areas.lent();
    let rows = told_number(pair.original.len() as u64);
    agree(&sys::log_len(lent), &rows, inputs)?;
    let held = told_number(pair.held.len() as u64);
    agree(&sys::pending_len(lent), &held, inputs)?;
    let floor = pair.floor.map(timestamp);
    agree(&sys::floor(lent), &told_stamp(floor.as_ref()), inputs)?;
    let author = world.author(rng);
    let mark = pair.original.watermarks().get(&ActorId(author));
    agree(&sys::watermark(lent, author), &told_stamp(mark), inputs)?;
    let calls = [
        (sys::log_clock as ClockCall, pair.original.clock()),
        (sys::log_compacted, pair.original.compacted()),
    ];
    for (call, clock) in calls {
        let behind = rng.pick(&[0, 9]);
        let mut area = pattern(BYTES + behind);
        agree(&call(lent, &mut area), &Told::default(), inputs)?;
        let mut wanted = pattern(BYTES + behind);
        wanted[..BYTES].copy_from_slice(&clock_area(clock));
        agree(&area, &wanted, inputs)?;
    }
    pair.same(inputs)?;
    wrapped_questions(pair, author)
}

fn wrapped_questions(pair: &mut Pair, author: u64) -> Check {
    let inputs = format!("a question through the wrapper to {}", pair.shown());
    let mark = pair.original.watermarks().get(&ActorId(author));
    let wanted = (
        Ok(pair.original.len()),
        Ok(pair.held.len()),
        Ok(pair.floor.map(wrapped_stamp)),
        Ok(mark.map(|mark| wrapped_stamp(stamp(mark)))),
        Ok(clock_area(pair.original.clock())),
        Ok(clock_area(pair.original.compacted())),
        Ok(pair.original.ops().first().map(|op| op.seq)),
        Ok(pair.held.first().map(|held| held.row.seq)),
    );
    let answers = pair.wrapped(|store| {
        (
            store.logged_len(),
            store.held_len(),
            store.floor(),
            store.watermark(cuwelfra::ActorId(author)),
            store.clock().map(|clock| *clock.area()),
            store.compacted().map(|clock| *clock.area()),
            store.logged_at(0).map(|row| row.map(|row| row.seq)),
            store.held_at(0).map(|row| row.map(|held| held.row.seq)),
        )
    });
    agree(&answers, &wanted, || inputs)
}

/// A slot that is short, or that is no logged row's, is refused before 17 and 18.
fn refused_slot(rng: &mut Rng, world: &World, pair: &mut Pair) -> Check {
    let mut slot = world.row(rng).slot().to_vec();
    let wanted = if rng.once_in(3) {
        slot.truncate(rng.pick(&[0, 8, SLOT - 1]));
        2
    } else {
        let i = rng.pick(&[1, 5, 6, 7, 8, 9, 10, 11, 15, 47, 79, 87]);
        set_word(&mut slot, i, rng.edge());
        if rows::read_logged(&slot).is_some() {
            return Ok(());
        }
        1
    };
    let inputs = || format!("insert of the slot {slot:02x?}");
    let areas = &mut pair.areas;
    let told = sys::insert(&mut areas.log, &areas.held, &mut areas.head, &slot);
    agree(&told, &refused(wanted), inputs)?;
    pair.same(inputs)
}
