//! The order of stamps against the original's derived order.

use std::cmp::Ordering;

use cuwelfra_sys as sys;
use oracle::clock::Timestamp;
use oracle::stubs::ActorId;

use crate::rng::Rng;
use crate::support::{agree, Outcome};

const PAIRS: u64 = 1_000_000;

pub fn run(rng: &mut Rng) -> Outcome {
    for _ in 0..PAIRS {
        let a = stamp(rng);
        let b = beside(rng, a);
        let order = original(a).cmp(&original(b));
        let number = match order {
            Ordering::Less => 0,
            Ordering::Equal => 1,
            Ordering::Greater => 2,
        };
        let inputs = || format!("timestamp_cmp of {a:?} and {b:?}");
        agree(&sys::timestamp_cmp(a, b), &number, inputs)?;
        agree(&wrapped(a).cmp(&wrapped(b)), &order, inputs)?;
    }
    Ok(PAIRS)
}

fn stamp(rng: &mut Rng) -> (u64, u32, u64) {
    (rng.edge(), rng.edge32(), rng.edge())
}

/// A stamp that shares or nearly shares some of the fields.
fn beside(rng: &mut Rng, a: (u64, u32, u64)) -> (u64, u32, u64) {
    let b = stamp(rng);
    let near = (
        rng.near(a.0),
        rng.near(u64::from(a.1)) as u32,
        rng.near(a.2),
    );
    (
        rng.pick(&[a.0, a.0, near.0, b.0]),
        rng.pick(&[a.1, a.1, near.1, b.1]),
        rng.pick(&[a.2, near.2, b.2]),
    )
}

fn original(stamp: (u64, u32, u64)) -> Timestamp {
    Timestamp {
        wall_time: stamp.0,
        logical_counter: stamp.1,
        actor_id: ActorId(stamp.2),
    }
}

fn wrapped(stamp: (u64, u32, u64)) -> cuwelfra::Timestamp {
    cuwelfra::Timestamp {
        wall_time: stamp.0,
        logical_counter: stamp.1,
        actor_id: cuwelfra::ActorId(stamp.2),
    }
}
