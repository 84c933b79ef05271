//! The store in its three areas, its compaction, and what a peer lacks.

use crate::{ClockNumber, Told};

/// A stamp that may be absent.
#[repr(C)]
#[derive(Clone, Copy, Debug, Default, PartialEq, Eq)]
#[must_use]
pub struct StampTold {
    /// Whether the call was refused.
    pub told: Told,
    /// Whether there is a stamp, 1 or 0; where not, the rest is 0.
    pub present: u64,
    /// Its wall time.
    pub wall_time: u64,
    /// Its counter.
    pub logical_counter: u64,
    /// Its author.
    pub actor_id: u64,
}

/// Where a row and its payload stand. All are 0 when it is absent or the call refused.
#[repr(C)]
#[derive(Clone, Copy, Debug, Default, PartialEq, Eq)]
#[must_use]
pub struct LookupTold {
    /// Whether the call was refused.
    pub told: Told,
    /// 0 absent, 1 logged, 2 held.
    pub place: u64,
    /// Its slot in that area.
    pub slot: u64,
    /// The length of its payload, which stands at 384 in the slot.
    pub len: u64,
}

/// A store that is read.
#[derive(Clone, Copy, Debug)]
pub struct Areas<'a> {
    /// The logged rows.
    pub log: &'a [u8],
    /// The held rows.
    pub held: &'a [u8],
    /// Counts, floor, clocks and watermarks.
    pub head: &'a [u8],
}

/// Whether the store keeps the rules.
pub fn store_check(s: Areas) -> Told {
    lend!(cuwelfra_store_check(store s))
}

/// How many rows are logged.
pub fn log_len(s: Areas) -> ClockNumber {
    lend!(cuwelfra_log_len(store s))
}

/// How many rows are held.
pub fn pending_len(s: Areas) -> ClockNumber {
    lend!(cuwelfra_pending_len(store s))
}

/// The floor.
pub fn floor(s: Areas) -> StampTold {
    lend!(cuwelfra_floor(store s))
}

/// The latest stamp seen of an author.
pub fn watermark(s: Areas, actor: u64) -> StampTold {
    lend!(cuwelfra_watermark(store s, actor))
}

/// Writes the clock into a clock area.
pub fn log_clock(s: Areas, clock: &mut [u8]) -> Told {
    lend!(cuwelfra_log_clock(store s, write clock))
}

/// Writes the compacted clock into a clock area.
pub fn log_compacted(s: Areas, clock: &mut [u8]) -> Told {
    lend!(cuwelfra_log_compacted(store s, write clock))
}

/// Writes the clock that the compacted clock and the logged rows make.
pub fn derive_clock(s: Areas, clock: &mut [u8]) -> Told {
    lend!(cuwelfra_derive_clock(store s, write clock))
}

/// Whether a peer with this clock has all that was compacted: 1 or 0.
pub fn can_serve(s: Areas, peer: &[u8]) -> ClockNumber {
    lend!(cuwelfra_can_serve(store s, read peer))
}

/// Looks a row up among the logged, first place first, then the held.
pub fn lookup(s: Areas, actor: u64, seq: u64) -> LookupTold {
    lend!(cuwelfra_lookup(store s, actor, seq))
}

/// The latest stamp that is safe to compact to.
pub fn cutoff(s: Areas, frontier: &[u8]) -> StampTold {
    lend!(cuwelfra_cutoff(store s, read frontier))
}

/// Writes the log positions of the rows that a peer lacks and gives how many.
pub fn calculate_delta(s: Areas, peer: &[u8], output: &mut [u8]) -> ClockNumber {
    lend!(cuwelfra_calculate_delta(store s, read peer, write output))
}

/// Writes the row counts of that delta's chunks and gives how many.
pub fn chunk_ops(
    s: Areas,
    peer: &[u8],
    max_per_chunk: u64,
    max_bytes: u64,
    output: &mut [u8],
) -> ClockNumber {
    lend!(cuwelfra_chunk_ops(store s, read peer, max_per_chunk, max_bytes, write output))
}

/// Writes the rows and the frame's bytes of each of those chunks, for a sender and so long a signature, and gives how many
/// chunks there are.
pub fn delta_sizes(
    s: Areas,
    peer: &[u8],
    max_per_chunk: u64,
    max_bytes: u64,
    sender: u64,
    sig_len: u64,
    output: &mut [u8],
) -> ClockNumber {
    lend!(cuwelfra_delta_sizes(
        store s, read peer, max_per_chunk, max_bytes, sender, sig_len, write output
    ))
}

/// Inserts the row of a slot in stamp order.
pub fn insert(log: &mut [u8], held: &[u8], head: &mut [u8], slot: &[u8]) -> Told {
    lend!(cuwelfra_insert(write log, read held, write head, read slot))
}

/// Makes the store anew from `count` slots of rows and a compacted clock.
pub fn from_parts(
    log: &mut [u8],
    held: &mut [u8],
    head: &mut [u8],
    parts: &[u8],
    count: usize,
    compacted: &[u8],
) -> Told {
    lend!(cuwelfra_from_parts(
        write log, write held, write head, read parts, count, read compacted
    ))
}

/// Removes the rows whose stamps are at or below the cutoff (wall, counter, author) and gives how many.
pub fn compact(
    log: &mut [u8],
    held: &[u8],
    head: &mut [u8],
    cutoff: (u64, u32, u64),
) -> ClockNumber {
    lend!(cuwelfra_compact(write log, read held, write head, cutoff.0, cutoff.1, cutoff.2))
}
