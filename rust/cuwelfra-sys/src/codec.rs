//! Varints, readers, writers and envelopes.

use crate::Told;

/// A number that was read and the position past it. Both are 0 when refused.
#[repr(C)]
#[derive(Clone, Copy, Debug, Default, PartialEq, Eq)]
#[must_use]
pub struct NumberRead {
    /// Whether the read was refused.
    pub told: Told,
    /// The number.
    pub value: u64,
    /// The position past it.
    pub next: u64,
}

/// A part of the slice that was read. All are 0 when refused.
#[repr(C)]
#[derive(Clone, Copy, Debug, Default, PartialEq, Eq)]
#[must_use]
pub struct PartRead {
    /// Whether the read was refused.
    pub told: Told,
    /// Where the part starts.
    pub start: u64,
    /// Its length.
    pub len: u64,
    /// The position past it.
    pub next: u64,
}

/// The position past what was written, 0 when refused.
#[repr(C)]
#[derive(Clone, Copy, Debug, Default, PartialEq, Eq)]
#[must_use]
pub struct Written {
    /// Whether the write was refused.
    pub told: Told,
    /// The position past what was written.
    pub next: u64,
}

/// The sender of an envelope and where its body and signature stand. All are 0 when refused.
#[repr(C)]
#[derive(Clone, Copy, Debug, Default, PartialEq, Eq)]
#[must_use]
pub struct EnvelopeRead {
    /// Whether the envelope was refused.
    pub told: Told,
    /// The sender.
    pub sender: u64,
    /// Where the body starts.
    pub body_at: u64,
    /// The body's length.
    pub body_len: u64,
    /// Where the signature starts.
    pub sig_at: u64,
    /// The signature's length.
    pub sig_len: u64,
}

/// How many bytes the shortest varint of `v` has.
#[must_use]
pub fn varint_len(v: u64) -> usize {
    lend!(cuwelfra_varint_len(v))
}

/// Writes the shortest varint of `v` at `at`.
pub fn put_varint(out: &mut [u8], at: usize, v: u64) -> Written {
    lend!(cuwelfra_put_varint(write out, at, v))
}

/// Writes one byte at `at`.
pub fn put_u8(out: &mut [u8], at: usize, b: u8) -> Written {
    lend!(cuwelfra_put_u8(write out, at, b))
}

/// Writes `bytes` at `at`, length first.
pub fn put_bytes(out: &mut [u8], at: usize, bytes: &[u8]) -> Written {
    lend!(cuwelfra_put_bytes(write out, at, read bytes))
}

/// Reads the byte at `at`.
pub fn get_u8(s: &[u8], at: usize) -> NumberRead {
    lend!(cuwelfra_get_u8(read s, at))
}

/// Reads the varint at `at`, in its shortest form.
pub fn get_varint(s: &[u8], at: usize) -> NumberRead {
    lend!(cuwelfra_get_varint(read s, at))
}

/// Reads the varint at `at`, of at most 32 bits.
pub fn get_u32(s: &[u8], at: usize) -> NumberRead {
    lend!(cuwelfra_get_u32(read s, at))
}

/// Reads the count at `at`: at most `max`, and at most the bytes that remain.
pub fn get_count(s: &[u8], at: usize, max: u64) -> NumberRead {
    lend!(cuwelfra_get_count(read s, at, max))
}

/// Reads the bytes at `at`, length first: at most `max`.
pub fn get_bytes(s: &[u8], at: usize, max: u64) -> PartRead {
    lend!(cuwelfra_get_bytes(read s, at, max))
}

/// Whether all was read.
pub fn finish(s: &[u8], at: usize) -> Told {
    lend!(cuwelfra_finish(read s, at))
}

/// How many bytes remain; none past the end.
#[must_use]
pub fn remaining(s: &[u8], at: usize) -> u64 {
    lend!(cuwelfra_remaining(read s, at))
}

/// Writes an envelope at the start of `out`.
pub fn encode_envelope(out: &mut [u8], sender: u64, body: &[u8], sig: &[u8]) -> Written {
    lend!(cuwelfra_encode_envelope(write out, sender, read body, read sig))
}

/// Reads the envelope that fills all of `s`.
pub fn decode_envelope(s: &[u8]) -> EnvelopeRead {
    lend!(cuwelfra_decode_envelope(read s))
}

/// The same, read by one reader.
pub fn read_envelope(s: &[u8]) -> EnvelopeRead {
    lend!(cuwelfra_read_envelope(read s))
}
