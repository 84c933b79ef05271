//! The declarations.
//!
//! # Safety
//!
//! The calls take any numbers, any lengths and any bytes, and answer each. What their caller vouches for is the same for
//! all of them, and nothing tests it:
//!
//! 1. A pointer is not null, and good for as many bytes as the length behind it says: all of one allocation, initialised,
//!    and where it is `*mut` to be written too. With length 0 it may dangle.
//! 2. What a `*mut` pointer names overlaps no other area of that call.
//! 3. While the call runs no other thread writes an area, or reads one that the call writes.
//! 4. The linked library has these declarations.
//!
//! Slices that are borrowed for the call are such areas, mutable ones those that it writes: 1 to 3 hold of them. The
//! macro `lend` of this crate makes every call so. There is no other `unsafe` code.

use crate::*;

#[allow(missing_docs)]
extern "C" {
    // The interface.
    pub fn cuwelfra_abi() -> u64;
    pub fn cuwelfra_abi_4() -> u64;
    // Bytes.
    pub fn cuwelfra_varint_len(v: u64) -> usize;
    pub fn cuwelfra_put_varint(out: *mut u8, out_len: usize, at: usize, v: u64) -> Written;
    pub fn cuwelfra_put_u8(out: *mut u8, out_len: usize, at: usize, b: u8) -> Written;
    pub fn cuwelfra_put_bytes(
        out: *mut u8,
        out_len: usize,
        at: usize,
        bytes: *const u8,
        bytes_len: usize,
    ) -> Written;
    pub fn cuwelfra_get_u8(s: *const u8, s_len: usize, at: usize) -> NumberRead;
    pub fn cuwelfra_get_varint(s: *const u8, s_len: usize, at: usize) -> NumberRead;
    pub fn cuwelfra_get_u32(s: *const u8, s_len: usize, at: usize) -> NumberRead;
    pub fn cuwelfra_get_count(s: *const u8, s_len: usize, at: usize, max: u64) -> NumberRead;
    pub fn cuwelfra_get_bytes(s: *const u8, s_len: usize, at: usize, max: u64) -> PartRead;
    pub fn cuwelfra_finish(s: *const u8, s_len: usize, at: usize) -> Told;
    pub fn cuwelfra_remaining(s: *const u8, s_len: usize, at: usize) -> u64;
    pub fn cuwelfra_encode_envelope(
        out: *mut u8,
        out_len: usize,
        sender: u64,
        body: *const u8,
        body_len: usize,
        sig: *const u8,
        sig_len: usize,
    ) -> Written;
    pub fn cuwelfra_decode_envelope(s: *const u8, s_len: usize) -> EnvelopeRead;
    pub fn cuwelfra_read_envelope(s: *const u8, s_len: usize) -> EnvelopeRead;

    // Stamps and the hybrid clock.
    pub fn cuwelfra_timestamp_cmp(
        wall_a: u64,
        counter_a: u32,
        actor_a: u64,
        wall_b: u64,
        counter_b: u32,
        actor_b: u64,
    ) -> u64;
    pub fn cuwelfra_hybrid_new(actor: u64) -> Hybrid;
    pub fn cuwelfra_hybrid_set_max_drift(
        actor: u64,
        last_wall: u64,
        last_counter: u32,
        max_drift_ms: u64,
        new_max_drift_ms: u64,
    ) -> Hybrid;
    pub fn cuwelfra_hybrid_now(
        actor: u64,
        last_wall: u64,
        last_counter: u32,
        max_drift_ms: u64,
        physical: u64,
    ) -> IssuedStamp;
    pub fn cuwelfra_hybrid_update(
        actor: u64,
        last_wall: u64,
        last_counter: u32,
        max_drift_ms: u64,
        remote_wall: u64,
        remote_counter: u32,
        remote_actor: u64,
        physical: u64,
    ) -> UpdatedClock;

    // Vector clocks.
    pub fn cuwelfra_clock_new(clock: *mut u8, clock_len: usize) -> Told;
    pub fn cuwelfra_clock_get(clock: *const u8, clock_len: usize, actor: u64) -> ClockNumber;
    pub fn cuwelfra_clock_observe(clock: *mut u8, clock_len: usize, actor: u64, seq: u64) -> Told;
    pub fn cuwelfra_clock_increment(clock: *mut u8, clock_len: usize, actor: u64) -> ClockNumber;
    pub fn cuwelfra_clock_merge(
        clock: *mut u8,
        clock_len: usize,
        other: *const u8,
        other_len: usize,
    ) -> Told;
    pub fn cuwelfra_clock_dominates(
        clock: *const u8,
        clock_len: usize,
        other: *const u8,
        other_len: usize,
    ) -> ClockNumber;
    pub fn cuwelfra_clock_compare(
        clock: *const u8,
        clock_len: usize,
        other: *const u8,
        other_len: usize,
    ) -> ClockNumber;

    // Rows.
    pub fn cuwelfra_unsigned_op(
        slot: *const u8,
        slot_len: usize,
        out: *mut u8,
        out_len: usize,
    ) -> Written;
    pub fn cuwelfra_signed_op(
        slot: *const u8,
        slot_len: usize,
        out: *mut u8,
        out_len: usize,
    ) -> Written;
    pub fn cuwelfra_read_op(
        batch: *const u8,
        batch_len: usize,
        at: usize,
        slot: *mut u8,
        slot_len: usize,
    ) -> OpTold;

    // The store.
    pub fn cuwelfra_store_check(
        log: *const u8,
        log_len: usize,
        held: *const u8,
        held_len: usize,
        head: *const u8,
        head_len: usize,
    ) -> Told;
    pub fn cuwelfra_log_len(
        log: *const u8,
        log_len: usize,
        held: *const u8,
        held_len: usize,
        head: *const u8,
        head_len: usize,
    ) -> ClockNumber;
    pub fn cuwelfra_pending_len(
        log: *const u8,
        log_len: usize,
        held: *const u8,
        held_len: usize,
        head: *const u8,
        head_len: usize,
    ) -> ClockNumber;
    pub fn cuwelfra_floor(
        log: *const u8,
        log_len: usize,
        held: *const u8,
        held_len: usize,
        head: *const u8,
        head_len: usize,
    ) -> StampTold;
    pub fn cuwelfra_watermark(
        log: *const u8,
        log_len: usize,
        held: *const u8,
        held_len: usize,
        head: *const u8,
        head_len: usize,
        actor: u64,
    ) -> StampTold;
    pub fn cuwelfra_log_clock(
        log: *const u8,
        log_len: usize,
        held: *const u8,
        held_len: usize,
        head: *const u8,
        head_len: usize,
        clock: *mut u8,
        clock_len: usize,
    ) -> Told;
    pub fn cuwelfra_log_compacted(
        log: *const u8,
        log_len: usize,
        held: *const u8,
        held_len: usize,
        head: *const u8,
        head_len: usize,
        clock: *mut u8,
        clock_len: usize,
    ) -> Told;
    pub fn cuwelfra_derive_clock(
        log: *const u8,
        log_len: usize,
        held: *const u8,
        held_len: usize,
        head: *const u8,
        head_len: usize,
        clock: *mut u8,
        clock_len: usize,
    ) -> Told;
    pub fn cuwelfra_can_serve(
        log: *const u8,
        log_len: usize,
        held: *const u8,
        held_len: usize,
        head: *const u8,
        head_len: usize,
        peer: *const u8,
        peer_len: usize,
    ) -> ClockNumber;
    pub fn cuwelfra_lookup(
        log: *const u8,
        log_len: usize,
        held: *const u8,
        held_len: usize,
        head: *const u8,
        head_len: usize,
        actor: u64,
        seq: u64,
    ) -> LookupTold;
    pub fn cuwelfra_cutoff(
        log: *const u8,
        log_len: usize,
        held: *const u8,
        held_len: usize,
        head: *const u8,
        head_len: usize,
        frontier: *const u8,
        frontier_len: usize,
    ) -> StampTold;
    pub fn cuwelfra_calculate_delta(
        log: *const u8,
        log_len: usize,
        held: *const u8,
        held_len: usize,
        head: *const u8,
        head_len: usize,
        peer: *const u8,
        peer_len: usize,
        output: *mut u8,
        output_len: usize,
    ) -> ClockNumber;
    pub fn cuwelfra_chunk_ops(
        log: *const u8,
        log_len: usize,
        held: *const u8,
        held_len: usize,
        head: *const u8,
        head_len: usize,
        peer: *const u8,
        peer_len: usize,
        max_per_chunk: u64,
        max_bytes: u64,
        output: *mut u8,
        output_len: usize,
    ) -> ClockNumber;
    pub fn cuwelfra_delta_sizes(
        log: *const u8,
        log_len: usize,
        held: *const u8,
        held_len: usize,
        head: *const u8,
        head_len: usize,
        peer: *const u8,
        peer_len: usize,
        max_per_chunk: u64,
        max_bytes: u64,
        sender: u64,
        sig_len: u64,
        output: *mut u8,
        output_len: usize,
    ) -> ClockNumber;
    pub fn cuwelfra_insert(
        log: *mut u8,
        log_len: usize,
        held: *const u8,
        held_len: usize,
        head: *mut u8,
        head_len: usize,
        slot: *const u8,
        slot_len: usize,
    ) -> Told;
    pub fn cuwelfra_from_parts(
        log: *mut u8,
        log_len: usize,
        held: *mut u8,
        held_len: usize,
        head: *mut u8,
        head_len: usize,
        parts: *const u8,
        parts_len: usize,
        count: usize,
        compacted: *const u8,
        compacted_len: usize,
    ) -> Told;
    pub fn cuwelfra_compact(
        log: *mut u8,
        log_len: usize,
        held: *const u8,
        held_len: usize,
        head: *mut u8,
        head_len: usize,
        wall_time: u64,
        logical_counter: u32,
        actor_id: u64,
    ) -> ClockNumber;

    // Merging.
    pub fn cuwelfra_apply_delta(
        max_pending: u64,
        max_pending_per_actor: u64,
        max_pending_bytes: u64,
        max_pending_age_ms: u64,
        max_drift_ms: u64,
        max_deps: u64,
        max_payload: u64,
        time_ms: u64,
        actor: u64,
        last_wall: u64,
        last_counter: u32,
        clock_max_drift_ms: u64,
        log: *mut u8,
        log_len: usize,
        held: *mut u8,
        held_len: usize,
        head: *mut u8,
        head_len: usize,
        batch: *const u8,
        batch_len: usize,
        scratch: *mut u8,
        scratch_len: usize,
        output: *mut u8,
        output_len: usize,
    ) -> DeltaTold;
    pub fn cuwelfra_set_floor(
        log: *const u8,
        log_len: usize,
        held: *const u8,
        held_len: usize,
        head: *mut u8,
        head_len: usize,
        wall_time: u64,
        logical_counter: u32,
        actor_id: u64,
    ) -> Told;

    // Rows of the desk's own.
    pub fn cuwelfra_prepare(
        author: u64,
        last_wall: u64,
        last_counter: u32,
        max_drift_ms: u64,
        time_ms: u64,
        issued: u64,
        payload: *const u8,
        payload_len: usize,
        clock: *const u8,
        clock_len: usize,
        output: *mut u8,
        output_len: usize,
    ) -> PreparedTold;
    pub fn cuwelfra_seal(
        log: *mut u8,
        log_len: usize,
        held: *const u8,
        held_len: usize,
        head: *mut u8,
        head_len: usize,
        bytes: *const u8,
        bytes_len: usize,
        signature: *const u8,
        signature_len: usize,
    ) -> Told;

    // Messages.
    pub fn cuwelfra_encode_hello(
        out: *mut u8,
        out_len: usize,
        clock: *const u8,
        clock_len: usize,
    ) -> Written;
    pub fn cuwelfra_encode_ack(
        out: *mut u8,
        out_len: usize,
        clock: *const u8,
        clock_len: usize,
    ) -> Written;
    pub fn cuwelfra_encode_ping(out: *mut u8, out_len: usize, nonce: u64) -> Written;
    pub fn cuwelfra_encode_pong(out: *mut u8, out_len: usize, nonce: u64) -> Written;
    pub fn cuwelfra_encode_delta(
        out: *mut u8,
        out_len: usize,
        rows: *const u8,
        rows_len: usize,
        count: usize,
    ) -> Written;
    pub fn cuwelfra_decode_message(
        body: *const u8,
        body_len: usize,
        clock: *mut u8,
        clock_len: usize,
        rows: *mut u8,
        rows_len: usize,
    ) -> MessageTold;
    pub fn cuwelfra_decode_frame(
        frame: *const u8,
        frame_len: usize,
        clock: *mut u8,
        clock_len: usize,
        rows: *mut u8,
        rows_len: usize,
    ) -> FrameTold;

    // Peers.
    pub fn cuwelfra_peer_new(peer: *mut u8, peer_len: usize, id: u64) -> Told;
    pub fn cuwelfra_peer_connection_started(peer: *mut u8, peer_len: usize, now: u64) -> Told;
    pub fn cuwelfra_peer_connection_lost(peer: *mut u8, peer_len: usize) -> Told;
    pub fn cuwelfra_peer_absorb_clock(
        peer: *mut u8,
        peer_len: usize,
        clock: *const u8,
        clock_len: usize,
    ) -> Told;
    pub fn cuwelfra_peer_replace_clock(
        peer: *mut u8,
        peer_len: usize,
        clock: *const u8,
        clock_len: usize,
    ) -> Told;
    pub fn cuwelfra_peer_record_ping(peer: *mut u8, peer_len: usize, now: u64) -> Told;
    pub fn cuwelfra_peer_take_pong(peer: *mut u8, peer_len: usize, nonce: u64) -> Told;
    pub fn cuwelfra_peer_rebase_timers(peer: *mut u8, peer_len: usize, now: u64) -> Told;
    pub fn cuwelfra_peer_pending_ops(
        peer: *const u8,
        peer_len: usize,
        log: *const u8,
        log_len: usize,
        held: *const u8,
        held_len: usize,
        head: *const u8,
        head_len: usize,
    ) -> ClockNumber;
}
