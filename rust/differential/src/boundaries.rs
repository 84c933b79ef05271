//! How often accepted batches met a boundary of the folds.

use cuwelfra_sys::HybridParts;

use crate::port::batches::{Answer, Offer};
use crate::support::{note, Check};

type Meets = fn(&Offer, &Answer) -> bool;

/// Each with a test of the call and its answer.
const BOUNDARIES: [(&str, Meets); 11] = [
    ("a drift below the settings'", |offer, _| {
        offer.clock.max_drift_ms < offer.limits.max_drift_ms
    }),
    ("the settings' drift", |offer, _| {
        offer.clock.max_drift_ms == offer.limits.max_drift_ms
    }),
    ("a drift above the settings'", |offer, _| {
        offer.clock.max_drift_ms > offer.limits.max_drift_ms
    }),
    ("a stamp as far ahead as the drift", |offer, _| {
        let latest = offer.time.checked_add(offer.clock.max_drift_ms);
        latest.is_some_and(|latest| any_wall(offer, latest))
    }),
    ("a stamp one ms farther", |offer, _| {
        let latest = offer.time.checked_add(offer.clock.max_drift_ms);
        let first = latest.and_then(|latest| latest.checked_add(1));
        first.is_some_and(|first| any_wall(offer, first))
    }),
    ("a drift past 2^64 and a stamp at 2^64 - 1", |offer, _| {
        let latest = offer.time.checked_add(offer.clock.max_drift_ms);
        latest.is_none() && any_wall(offer, u64::MAX)
    }),
    ("a stamp's counter at 2^32 - 2", |offer, _| {
        let mut rows = offer.rows.iter();
        rows.any(|lent| lent.row.stamp.1 == u32::MAX - 1)
    }),
    ("the clock's counter at 2^32 - 2", |offer, _| {
        offer.clock.last_counter == u32::MAX - 1
    }),
    ("the clock's counter at 2^32 - 1", |offer, _| {
        offer.clock.last_counter == u32::MAX
    }),
    ("a fold to the counter 2^32 - 1", |offer, answer| {
        let HybridParts { last_counter, .. } = offer.clock;
        last_counter < u32::MAX && answer.told.last_counter == u32::MAX.into()
    }),
    ("a clock ahead of time and stamps", |offer, _| {
        let walls = offer.rows.iter().map(|lent| lent.row.stamp.0);
        offer.clock.last_wall > walls.fold(offer.time, u64::max)
    }),
];

fn any_wall(offer: &Offer, wall: u64) -> bool {
    offer.rows.iter().any(|lent| lent.row.stamp.0 == wall)
}

#[derive(Default)]
pub struct Boundaries([u64; BOUNDARIES.len()]);

impl Boundaries {
    /// Counts an accepted batch that has rows.
    pub fn note(&mut self, offer: &Offer, answer: &Answer) {
        if answer.told.told.number > 0 || offer.rows.is_empty() {
            return;
        }
        for (count, (_, meets)) in self.0.iter_mut().zip(BOUNDARIES) {
            *count += u64::from(meets(offer, answer));
        }
    }

    /// Prints the counts. Requires that each boundary was met.
    pub fn finish(&self, suite: &str) -> Check {
        let counted = BOUNDARIES.iter().zip(self.0);
        let counted = counted.map(|((name, _), count)| (*name, count));
        let listed: Vec<String> = counted.clone().map(|(n, c)| format!("{n} {c}")).collect();
        note(&format!(
            "{suite}: accepted batches by the clock that they were handed: {}",
            listed.join(", ")
        ));
        match counted.clone().find(|(_, count)| *count == 0) {
            Some((name, _)) => Err(format!("  {suite}: no batch with {name}")),
            None => Ok(()),
        }
    }
}
