//! 29, and the refusals that messages share with other calls, 30 among them.

use cuwelfra_sys::{self as sys, Told};

use super::Provocation;
use crate::port::area::{self, BYTES};
use crate::port::rows::SLOT;

pub const PROVOCATIONS: &[Provocation] = &[
    ("a snapshot's message", [29, 5, 0], || decoded(&[5])),
    ("its chunk in a frame", [29, 6, 0], || framed(&[6, 0])),
    ("a tag of two bytes", [29, 0x80, 0], || decoded(&[0x80, 0])),
    ("a Hello with falling authors", [1, 0, 0], || {
        let clock = area::encode([(2, 1), (1, 1)]);
        sys::encode_hello(&mut [0; 642], &clock).told
    }),
    ("a Delta of a held row", [1, 0, 0], || {
        let mut slot = [0; SLOT];
        slot[71] = 1;
        sys::encode_delta(&mut [0; 704], &slot, 1).told
    }),
    ("a Ping without room", [2, 0, 0], || {
        sys::encode_ping(&mut [0; 1], 7).told
    }),
    ("a Pong without room", [2, 0, 0], || {
        sys::encode_pong(&mut [0; 2], 300).told
    }),
    ("an Ack of a short clock", [2, 0, 0], || {
        sys::encode_ack(&mut [0; 642], &[0; BYTES - 1]).told
    }),
    ("a row without a slot", [2, 0, 0], || {
        let body = [1, 1, 0, 0, 0, 0, 0, 0, 0, 0];
        sys::decode_message(&body, &mut [0; BYTES], &mut [0; SLOT - 1]).told
    }),
    ("33 entries", [4, 0, 0], || {
        decoded(&[&[0, 33][..], &[1; 66]].concat())
    }),
    ("65 rows", [4, 0, 0], || {
        sys::encode_delta(&mut [], &[0; 65 * SLOT], 65).told
    }),
    ("an empty body", [22, 0, 0], || framed(&[])),
    ("a counter of 33 bits", [23, 0, 0], || {
        decoded(&[1, 1, 0, 0x80, 0x80, 0x80, 0x80, 0x10])
    }),
    ("that in a byte more than it needs", [23, 0, 0], || {
        decoded(&[1, 1, 0, 0x80, 0x80, 0x80, 0x80, 0x90, 0])
    }),
    ("an overlong nonce", [30, 0, 0], || decoded(&[3, 0x80, 0])),
    ("33 entries, counted in two bytes", [30, 0, 0], || {
        framed(&[&[0, 0xa1, 0][..], &[1; 66]].concat())
    }),
    ("33 entries in 32 bytes", [24, 0, 0], || {
        framed(&[&[0, 33][..], &[1; 32]].concat())
    }),
    ("a byte behind a Ping", [25, 0, 0], || decoded(&[3, 0, 0])),
];

fn decoded(body: &[u8]) -> Told {
    sys::decode_message(body, &mut [0; BYTES], &mut []).told
}

/// The body in the envelope of author 7, with a long signature.
fn framed(body: &[u8]) -> Told {
    let frame = [&[7, body.len() as u8][..], body, &[100], &[1; 100]].concat();
    sys::decode_frame(&frame, &mut [0; BYTES], &mut []).told
}
