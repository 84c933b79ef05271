//! Rows and bytes of a delta's chunks as messages, beside what the original sends: each of its chunks encoded and put into
//! an envelope. Small logs, large rows, logs of up to 1,024 rows; limits around exact sums. Fails unless every kind of case
//! was met.

use cuwelfra::Refusal;
use oracle::sync;

use crate::original::beside::{entries, log_of, Pair};
use crate::original::full::{near_clock, Full};
use crate::original::listed::{listed_in, List};
use crate::original::sent::{Asked, Frame};
use crate::original::sized::{Case, Kinds, Spoilt};
use crate::port::area::{set_word, BYTES};
use crate::port::rows::SLOT;
use crate::port::store::{Entries, LOGGED};
use crate::rng::Rng;
use crate::suites::beside::chunks::small;
use crate::support::{agree, pattern, refused, Check, Outcome, Reach};
use crate::world::messages::largest_row;
use crate::world::World;

/// Logs of few rows, and logs at and near full size; for each some peers.
const SMALL: usize = 25_000;
const FULL: usize = 2_000;

/// A frame of 1,024 rows of the largest numbers and parts, from the largest sender and with the longest signature: the
/// sender, the body's length, the body (tag, count, rows of 689 bytes), the signature's length, the signature.
const LARGEST: usize = 10 + 3 + (1 + 2 + 1_024 * 689) + 2 + 1_024;

pub fn run(rng: &mut Rng) -> Outcome {
    let kinds = &mut Kinds::default();
    for _ in 0..SMALL {
        let world = World::new(rng);
        let mut pair = small(rng, &world);
        let clock = entries(pair.original.clock());
        for _ in 0..4 {
            let near = world.near_clock(rng, &clock);
            asked_of(rng, &mut pair, near, kinds)?;
        }
    }
    for _ in 0..FULL {
        let mut pair = Full::new(rng).pair(rng);
        let clock = entries(pair.original.clock());
        for _ in 0..6 {
            let near = near_clock(rng, &clock);
            asked_of(rng, &mut pair, near, kinds)?;
        }
    }
    largest(rng, kinds)?;
    kinds.finish()
}

/// A peer that has nothing, or this clock.
fn asked_of(rng: &mut Rng, pair: &mut Pair, near: Entries, kinds: &mut Kinds) -> Check {
    let peer = match rng.once_in(3) {
        true => Entries::new(),
        false => near,
    };
    sizes(rng, pair, &peer, kinds).map(|_| ())
}

/// As many rows as a log has, none of which could be larger.
fn largest(rng: &mut Rng, kinds: &mut Kinds) -> Check {
    let log = log_of(&vec![largest_row(); LOGGED], &Entries::new());
    let mut pair = Pair::with(rng, log, Vec::new(), None);
    let peer = Entries::new();
    for _ in 0..20 {
        sizes(rng, &mut pair, &peer, kinds)?;
    }
    let asked = Asked::largest();
    let frame = asked.frame(&asked.delta(&pair)).bytes.len();
    agree(&frame, &LARGEST, || "the original's largest frame".into())?;
    answered(rng, &mut pair, &asked, kinds).map(|_| ())
}

/// Compares the sizes of a delta, and gives how many chunks there are.
pub fn sizes(rng: &mut Rng, pair: &mut Pair, peer: &Entries, kinds: &mut Kinds) -> Reach {
    let asked = Asked::any(rng, pair, peer);
    match asked.fits() {
        true => answered(rng, pair, &asked, kinds),
        false => over_capacity(rng, pair, &asked, kinds),
    }
}

/// The original's chunks are what the port sizes, whatever the output; in some cases through the wrapper too, and in some
/// the port writes the very frames.
fn answered(rng: &mut Rng, pair: &mut Pair, asked: &Asked, kinds: &mut Kinds) -> Reach {
    let delta = asked.delta(pair);
    let chunks = sync::chunk_ops(&delta, asked.most as usize, asked.bytes as usize);
    assert_eq!(chunks.concat(), delta, "the chunks in order are the delta");
    let frames: Vec<Frame> = chunks.iter().map(|chunk| asked.frame(chunk)).collect();
    let area = asked.clock();
    let inputs = |pair: &Pair| format!("{asked:?} of {}", pair.shown());

    let room = room(rng, frames.len(), delta.len(), pair.original.len());
    let numbers = frames.iter().flat_map(|frame| frame.size());
    let list = List {
        entries: frames.len(),
        numbers: &numbers.collect::<Vec<u64>>(),
        size: 16 * frames.len(),
    };
    let reach = listed_in(pair, room, &list, inputs, |store, output| {
        asked.call(store, &area, output)
    })?;
    agree(&area, &asked.clock(), || inputs(pair))?;
    let wrapped = rng.once_in(4);
    if wrapped {
        let wanted = frames.iter().map(Frame::wrapped).collect();
        let sizes = pair.wrapped(|store| asked.sizes(store));
        agree(&sizes, &Ok(wanted), || inputs(pair))?;
    }
    let written = rng.once_in(4);
    if written {
        let wanted = match chunks.iter().any(|chunk| chunk.len() > 64) {
            true => Err(Refusal::OverCapacity),
            false => Ok(frames.iter().map(|frame| frame.bytes.clone()).collect()),
        };
        let frames = pair.wrapped(|store| asked.written(store));
        agree(&frames, &wanted, || format!("frames, {}", inputs(pair)))?;
    }
    pair.same(|| inputs(pair))?;
    kinds.note(&Case {
        log: &pair.original,
        asked,
        delta: &delta,
        chunks: &chunks,
        frames: &frames,
        room,
        refused: if reach.is_none() { 2 } else { 0 },
        wrapped,
        written,
        spoilt: None,
    });
    Ok(reach)
}

/// How long an output is: what the chunks need, about that, or by the rows.
fn room(rng: &mut Rng, chunks: usize, rows: usize, logged: usize) -> usize {
    let size = 16 * chunks;
    match rng.below(10) {
        0 => 0,
        1 | 2 => size.saturating_sub(1),
        3 => size + 1 + rng.below(40),
        4 => 8 * chunks,
        5 => 8 * rows,
        6 => rng.pick(&[16 * rows, 16 * logged, 16 * LOGGED]),
        7 => rng.below(size + 1),
        _ => size,
    }
}

/// Too long a signature is told before all else: whatever the output, the clock and the store are.
fn over_capacity(rng: &mut Rng, pair: &mut Pair, asked: &Asked, kinds: &mut Kinds) -> Reach {
    let (mut store, mut clock) = (pair.areas.clone(), asked.clock().to_vec());
    let spoilt = rng.pick(&Spoilt::ALL);
    match spoilt {
        Spoilt::Nothing => {}
        Spoilt::ShortClock => clock.truncate(rng.pick(&[0, BYTES - 1])),
        Spoilt::UnsoundClock => set_word(&mut clock, 0, 33),
        Spoilt::ShortStore => store.log.truncate(rng.pick(&[0, SLOT - 1])),
        Spoilt::UnsoundStore => store.head[8] = 1,
    }
    let room = rng.pick(&[0, 15, 16, 16 * LOGGED]);
    let inputs = |pair: &Pair| format!("{asked:?}, {spoilt:?}, of {}", pair.shown());
    let mut output = pattern(room);
    let lent = (store.clone(), clock.clone());
    let answer = asked.call(store.lent(), &clock, &mut output);
    agree(&(answer.told, answer.number), &(refused(4), 0), || {
        inputs(pair)
    })?;
    agree(&output, &pattern(room), || inputs(pair))?;
    agree(&(lent == (store, clock)), &true, || inputs(pair))?;
    let wrapped = rng.once_in(4);
    if wrapped {
        let sizes = pair.wrapped(|store| asked.sizes(store));
        agree(&sizes, &Err(Refusal::OverCapacity), || inputs(pair))?;
    }
    kinds.note(&Case {
        log: &pair.original,
        asked,
        delta: &[],
        chunks: &[],
        frames: &[],
        room,
        refused: 4,
        wrapped,
        written: false,
        spoilt: Some(spoilt),
    });
    Ok(None)
}
