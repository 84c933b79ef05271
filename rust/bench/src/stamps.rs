//! Stamps that a hybrid clock issues one after the other.

use cuwelfra_sys as sys;
use oracle::clock::{HybridClock, ManualClock};
use oracle::stubs::ActorId;

use crate::lists::{line, refused};
use crate::rows::NOW;
use crate::timing::time;

const ROUNDS: usize = 100;
/// Stamps that are timed together.
const STAMPS: u64 = 10_000;
const ACTOR: u64 = 7;

/// The physical time of each stamp.
type Times = fn(u64) -> u64;

/// At one time, where the wall stays, and each at a later time.
pub fn stamps() -> Result<(), String> {
    issued("10,000 stamps issued at one time", |_| NOW)?;
    issued("10,000 stamps issued, each at a later time", |i| NOW + i)
}

fn issued(name: &str, at: Times) -> Result<(), String> {
    if Ok(by_port(at)) != by_original(at) {
        return Err(format!("{name}: the clocks differ"));
    }
    line(
        name,
        ROUNDS,
        Box::new(move || time(|| by_port(at))),
        Box::new(move || time(|| by_original(at))),
    );
    Ok(())
}

/// Wall and counter of the last stamp, and the sum of all their counters.
fn by_port(at: Times) -> (u64, u64, u64) {
    let mut clock = sys::hybrid_new(ACTOR);
    let mut sum = 0;
    for i in 0..STAMPS {
        let issued = sys::hybrid_now(
            ACTOR,
            clock.last_wall,
            clock.last_counter as u32,
            clock.max_drift_ms,
            at(i),
        );
        clock.last_wall = issued.last_wall;
        clock.last_counter = issued.last_counter;
        sum += issued.logical_counter;
    }
    (clock.last_wall, clock.last_counter, sum)
}

fn by_original(at: Times) -> Result<(u64, u64, u64), String> {
    let source = ManualClock::new(0);
    let mut clock = HybridClock::new(ActorId(ACTOR), Box::new(source.clone()));
    let mut last = (0, 0, 0);
    for i in 0..STAMPS {
        source.set(at(i));
        let stamp = clock.now().map_err(refused)?;
        let counter = u64::from(stamp.logical_counter);
        last = (stamp.wall_time, counter, last.2 + counter);
    }
    Ok(last)
}
