//! Message bodies, and the frames that carry them.

use crate::{Told, Written};

/// What a message is. All are 0 when refused.
#[repr(C)]
#[derive(Clone, Copy, Debug, Default, PartialEq, Eq)]
#[must_use]
pub struct MessageTold {
    /// Whether the body was refused.
    pub told: Told,
    /// 0 Hello, 1 Delta, 2 Ack, 3 Ping, 4 Pong.
    pub tag: u64,
    /// The rows of a Delta, the nonce of a Ping or Pong, else 0.
    pub number: u64,
}

/// The sender of a frame, where its body and signature stand, and what its message is. All are 0 when refused.
#[repr(C)]
#[derive(Clone, Copy, Debug, Default, PartialEq, Eq)]
#[must_use]
pub struct FrameTold {
    /// Whether the frame was refused.
    pub told: Told,
    /// The sender.
    pub sender: u64,
    /// Where the body starts.
    pub body_at: u64,
    /// The body's length.
    pub body_len: u64,
    /// Where the signature starts.
    pub sig_at: u64,
    /// The signature's length.
    pub sig_len: u64,
    /// 0 Hello, 1 Delta, 2 Ack, 3 Ping, 4 Pong.
    pub tag: u64,
    /// The rows of a Delta, the nonce of a Ping or Pong, else 0.
    pub number: u64,
}

/// Writes the body of a Hello at the start of `out`.
pub fn encode_hello(out: &mut [u8], clock: &[u8]) -> Written {
    lend!(cuwelfra_encode_hello(write out, read clock))
}

/// Writes the body of an Ack at the start of `out`.
pub fn encode_ack(out: &mut [u8], clock: &[u8]) -> Written {
    lend!(cuwelfra_encode_ack(write out, read clock))
}

/// Writes the body of a Ping at the start of `out`.
pub fn encode_ping(out: &mut [u8], nonce: u64) -> Written {
    lend!(cuwelfra_encode_ping(write out, nonce))
}

/// Writes the body of a Pong at the start of `out`.
pub fn encode_pong(out: &mut [u8], nonce: u64) -> Written {
    lend!(cuwelfra_encode_pong(write out, nonce))
}

/// Writes the body of a Delta with the rows of `count` slots at the start of `out`.
pub fn encode_delta(out: &mut [u8], rows: &[u8], count: usize) -> Written {
    lend!(cuwelfra_encode_delta(write out, read rows, count))
}

/// Reads the message that fills all of `body`: a clock into a clock area, rows into slots.
pub fn decode_message(body: &[u8], clock: &mut [u8], rows: &mut [u8]) -> MessageTold {
    lend!(cuwelfra_decode_message(read body, write clock, write rows))
}

/// Reads the envelope that fills all of `frame`, and the message in its body.
pub fn decode_frame(frame: &[u8], clock: &mut [u8], rows: &mut [u8]) -> FrameTold {
    lend!(cuwelfra_decode_frame(read frame, write clock, write rows))
}
