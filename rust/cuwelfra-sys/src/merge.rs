//! The batch call, and the floor.

use crate::Told;

/// What a batch call answers; all counts are 0 and the clock is as handed in when it is refused.
#[repr(C)]
#[derive(Clone, Copy, Debug, Default, PartialEq, Eq)]
#[must_use]
pub struct DeltaTold {
    /// Whether the call was refused.
    pub told: Told,
    /// Rows logged whose outcome was 0.
    pub applied: u64,
    /// Rows logged with a stamp at or below the floor.
    pub stale: u64,
    /// Rows logged with another outcome.
    pub rejected: u64,
    /// Rows that were there already.
    pub duplicates: u64,
    /// Rows that wait after this batch.
    pub held: u64,
    /// Held rows that waited too long.
    pub expired: u64,
    /// Ready rows that were not their author's next.
    pub dropped: u64,
    /// Stamps of the batch that the hybrid clock refused, by 20 or 19.
    pub failed_folds: u64,
    /// The hybrid clock's wall afterwards.
    pub last_wall: u64,
    /// The hybrid clock's counter afterwards. Fits 32 bits.
    pub last_counter: u64,
}

/// A store that is changed.
#[derive(Debug)]
pub struct AreasMut<'a> {
    /// The logged rows.
    pub log: &'a mut [u8],
    /// The held rows.
    pub held: &'a mut [u8],
    /// Counts, floor, clocks and watermarks.
    pub head: &'a mut [u8],
}

/// The settings of a batch call, under the names of its arguments.
#[derive(Clone, Copy, Debug, Default, PartialEq, Eq)]
pub struct Settings {
    /// Rows held at most.
    pub max_pending: u64,
    /// Rows held of one author at most.
    pub max_pending_per_actor: u64,
    /// Payload bytes held at most.
    pub max_pending_bytes: u64,
    /// How long a held row may wait, in ms.
    pub max_pending_age_ms: u64,
    /// How far ahead of the time a stamp may be, in ms.
    pub max_drift_ms: u64,
    /// Dependencies of a row at most.
    pub max_deps: u64,
    /// Payload bytes of a row at most.
    pub max_payload: u64,
}

/// The hybrid clock that a batch's stamps are folded into, under the names of its arguments.
#[derive(Clone, Copy, Debug, Default, PartialEq, Eq)]
pub struct HybridParts {
    /// Its actor.
    pub actor: u64,
    /// Its wall.
    pub last_wall: u64,
    /// Its counter.
    pub last_counter: u32,
    /// How far ahead of the time a stamp may be that is folded in, in ms.
    pub max_drift_ms: u64,
}

/// Applies a batch, and folds its stamps into the hybrid clock. Writes a line of 18 bytes for each logged row into
/// `output`; `scratch` is zero after every call.
pub fn apply_delta(
    settings: Settings,
    time_ms: u64,
    hybrid: HybridParts,
    s: AreasMut,
    batch: &[u8],
    scratch: &mut [u8],
    output: &mut [u8],
) -> DeltaTold {
    lend!(cuwelfra_apply_delta(
        settings.max_pending,
        settings.max_pending_per_actor,
        settings.max_pending_bytes,
        settings.max_pending_age_ms,
        settings.max_drift_ms,
        settings.max_deps,
        settings.max_payload,
        time_ms,
        hybrid.actor,
        hybrid.last_wall,
        hybrid.last_counter,
        hybrid.max_drift_ms,
        write s.log,
        write s.held,
        write s.head,
        read batch,
        write scratch,
        write output
    ))
}

/// Raises the floor to a stamp (wall, counter, author); it never lowers it.
pub fn set_floor(log: &[u8], held: &[u8], head: &mut [u8], stamp: (u64, u32, u64)) -> Told {
    lend!(cuwelfra_set_floor(
        read log, read held, write head, stamp.0, stamp.1, stamp.2
    ))
}
