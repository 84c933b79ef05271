//! Stamps, the hybrid clock and vector clocks.

use crate::Told;

/// A hybrid clock.
#[repr(C)]
#[derive(Clone, Copy, Debug, Default, PartialEq, Eq)]
#[must_use]
pub struct Hybrid {
    /// The clock's own author.
    pub actor: u64,
    /// The wall time of the last stamp.
    pub last_wall: u64,
    /// The counter of the last stamp.
    pub last_counter: u64,
    /// The accepted lead of remote stamps, in ms.
    pub max_drift_ms: u64,
}

/// A new stamp and the clock moved on. Refused: the stamp is 0, the clock as handed in.
#[repr(C)]
#[derive(Clone, Copy, Debug, Default, PartialEq, Eq)]
#[must_use]
pub struct IssuedStamp {
    /// Whether the call was refused.
    pub told: Told,
    /// The stamp's wall time.
    pub wall_time: u64,
    /// The stamp's counter.
    pub logical_counter: u64,
    /// The stamp's author.
    pub actor_id: u64,
    /// The clock's wall afterwards.
    pub last_wall: u64,
    /// The clock's counter afterwards.
    pub last_counter: u64,
}

/// The clock moved on. Refused: as handed in.
#[repr(C)]
#[derive(Clone, Copy, Debug, Default, PartialEq, Eq)]
#[must_use]
pub struct UpdatedClock {
    /// Whether the call was refused.
    pub told: Told,
    /// The clock's wall afterwards.
    pub last_wall: u64,
    /// The clock's counter afterwards.
    pub last_counter: u64,
}

/// A number that a clock call gives, 0 when refused.
#[repr(C)]
#[derive(Clone, Copy, Debug, Default, PartialEq, Eq)]
#[must_use]
pub struct ClockNumber {
    /// Whether the call was refused.
    pub told: Told,
    /// The number.
    pub number: u64,
}

/// Compares two stamps: 0 less, 1 equal, 2 greater.
#[must_use]
pub fn timestamp_cmp(a: (u64, u32, u64), b: (u64, u32, u64)) -> u64 {
    lend!(cuwelfra_timestamp_cmp(a.0, a.1, a.2, b.0, b.1, b.2))
}

/// A new clock for `actor`.
pub fn hybrid_new(actor: u64) -> Hybrid {
    lend!(cuwelfra_hybrid_new(actor))
}

/// The clock with another drift.
pub fn hybrid_set_max_drift(
    actor: u64,
    last_wall: u64,
    last_counter: u32,
    max_drift_ms: u64,
    new_max_drift_ms: u64,
) -> Hybrid {
    lend!(cuwelfra_hybrid_set_max_drift(
        actor,
        last_wall,
        last_counter,
        max_drift_ms,
        new_max_drift_ms
    ))
}

/// Issues a stamp.
pub fn hybrid_now(
    actor: u64,
    last_wall: u64,
    last_counter: u32,
    max_drift_ms: u64,
    physical: u64,
) -> IssuedStamp {
    lend!(cuwelfra_hybrid_now(
        actor,
        last_wall,
        last_counter,
        max_drift_ms,
        physical
    ))
}

/// Folds a remote stamp (wall, counter, author) in.
pub fn hybrid_update(
    actor: u64,
    last_wall: u64,
    last_counter: u32,
    max_drift_ms: u64,
    remote: (u64, u32, u64),
    physical: u64,
) -> UpdatedClock {
    lend!(cuwelfra_hybrid_update(
        actor,
        last_wall,
        last_counter,
        max_drift_ms,
        remote.0,
        remote.1,
        remote.2,
        physical
    ))
}

/// Makes the area an empty clock.
pub fn clock_new(clock: &mut [u8]) -> Told {
    lend!(cuwelfra_clock_new(write clock))
}

/// The author's number, 0 if absent.
pub fn clock_get(clock: &[u8], actor: u64) -> ClockNumber {
    lend!(cuwelfra_clock_get(read clock, actor))
}

/// Raises the author's number to at least `seq`.
pub fn clock_observe(clock: &mut [u8], actor: u64, seq: u64) -> Told {
    lend!(cuwelfra_clock_observe(write clock, actor, seq))
}

/// Raises the author's number by one and gives it.
pub fn clock_increment(clock: &mut [u8], actor: u64) -> ClockNumber {
    lend!(cuwelfra_clock_increment(write clock, actor))
}

/// Raises each number to the other clock's.
pub fn clock_merge(clock: &mut [u8], other: &[u8]) -> Told {
    lend!(cuwelfra_clock_merge(write clock, read other))
}

/// Whether every number of `other` is covered: 1 or 0.
pub fn clock_dominates(clock: &[u8], other: &[u8]) -> ClockNumber {
    lend!(cuwelfra_clock_dominates(read clock, read other))
}

/// 0 before, 1 after, 2 equal, 3 concurrent.
pub fn clock_compare(clock: &[u8], other: &[u8]) -> ClockNumber {
    lend!(cuwelfra_clock_compare(read clock, read other))
}
