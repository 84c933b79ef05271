//! Hybrid clocks for a batch call: around its stamps, its time and its drift, at the last counters too.

use cuwelfra::Limits;
use cuwelfra_sys::HybridParts;

use crate::port::batches::BatchRow;
use crate::port::rows::Stamp;
use crate::rng::Rng;

/// The last counters of all.
const LAST: [u32; 4] = [u32::MAX, u32::MAX, u32::MAX - 1, u32::MAX - 2];

pub fn clock(rng: &mut Rng, limits: &Limits, time: u64, rows: &[BatchRow]) -> HybridParts {
    let near = match rows.is_empty() {
        true => (time, 0, 0),
        false => rows[rng.below(rows.len())].row.stamp,
    };
    let walls = rows.iter().map(|lent| lent.row.stamp.0);
    let latest = walls.fold(time, u64::max);
    HybridParts {
        actor: rng.edge(),
        last_wall: wall(rng, time, near, latest),
        last_counter: counter(rng, near),
        max_drift_ms: drift(rng, limits.max_drift_ms, time, near),
    }
}

/// A wall behind the batch, among its stamps or ahead of all.
fn wall(rng: &mut Rng, time: u64, near: Stamp, latest: u64) -> u64 {
    match rng.below(9) {
        0 => 0,
        1 | 2 => time,
        3 => rng.near(time),
        4 | 5 => near.0,
        6 => rng.near(near.0),
        7 => latest.saturating_add(rng.next() % 3),
        _ => rng.edge(),
    }
}

fn counter(rng: &mut Rng, near: Stamp) -> u32 {
    match rng.below(8) {
        0..=2 => rng.pick(&[0, 0, 1]),
        3 => near.1,
        4 => rng.near(near.1.into()) as u32,
        5 | 6 => rng.pick(&LAST),
        _ => rng.edge32(),
    }
}

/// The settings' drift, a smaller or a larger one; or such that a stamp is the last to pass or the first to fail.
fn drift(rng: &mut Rng, settings: u64, time: u64, near: Stamp) -> u64 {
    let lead = near.0.saturating_sub(time);
    match rng.below(9) {
        0..=2 => settings,
        3 => settings.saturating_sub(1 + rng.next() % 3),
        4 => settings.saturating_add(1 + rng.next() % 3),
        5 => lead,
        6 => lead.saturating_sub(1),
        7 => rng.pick(&[0, 1, 60_000, u64::MAX]),
        _ => rng.edge(),
    }
}
