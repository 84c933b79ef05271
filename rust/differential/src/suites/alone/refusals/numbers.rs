//! 18 to 25 and 30: clocks, peers, varints, readers and envelopes.

use cuwelfra_sys as sys;

use super::Provocation;
use crate::port::area::{self, Area};
use crate::support::accepted;

pub const PROVOCATIONS: &[Provocation] = &[
    ("a 33rd author observed", [18, 0, 0], || {
        sys::clock_observe(&mut full_clock(), 33, 1)
    }),
    ("a 33rd author counted", [18, 0, 0], || {
        sys::clock_increment(&mut full_clock(), 33).told
    }),
    ("a 33rd author merged in", [18, 0, 0], || {
        sys::clock_merge(&mut full_clock(), &area::encode([(33, 1)]))
    }),
    ("a 33rd author absorbed by a peer", [18, 0, 0], || {
        let mut peer = [0; 704];
        accepted(sys::peer_new(&mut peer, 7));
        accepted(sys::peer_absorb_clock(&mut peer, &full_clock()));
        sys::peer_absorb_clock(&mut peer, &area::encode([(33, 1)]))
    }),
    ("a clock at 2^64 - 1", [19, 0, 0], || {
        sys::clock_increment(&mut area::encode([(7, u64::MAX)]), 7).told
    }),
    ("a stamp after counter 2^32 - 1", [19, 0, 0], || {
        sys::hybrid_now(7, 1_000, u32::MAX, 60_000, 1_000).told
    }),
    ("a remote counter of 2^32 - 1", [19, 0, 0], || {
        sys::hybrid_update(7, 1_000, 0, 60_000, (1_000, u32::MAX, 8), 1_000).told
    }),
    ("1,051 at 1,000 with drift 50", [20, 1_051, 1_000], || {
        sys::hybrid_update(7, 1_020, 0, 50, (1_051, 0, 8), 1_000).told
    }),
    ("that with counter 2^32 - 1 too", [20, 1_051, 1_000], || {
        sys::hybrid_update(7, 1_051, u32::MAX, 50, (1_051, u32::MAX, 8), 1_000).told
    }),
    ("a pong without a ping", [21, 0, 0], || {
        let mut peer = [0; 704];
        accepted(sys::peer_new(&mut peer, 7));
        accepted(sys::peer_record_ping(&mut peer, 1));
        sys::peer_take_pong(&mut peer, 2)
    }),
    ("no byte", [22, 0, 0], || sys::get_u8(&[], 0).told),
    ("a varint that goes on", [22, 0, 0], || {
        sys::get_varint(&[0x80], 0).told
    }),
    ("an envelope without a signature", [22, 0, 0], || {
        sys::decode_envelope(&[7, 0]).told
    }),
    ("2^64", [23, 0, 0], || {
        sys::get_varint(&[&[0x80; 9][..], &[2]].concat(), 0).told
    }),
    ("an eleventh byte", [23, 0, 0], || {
        sys::get_varint(&[&[0x80; 10][..], &[0]].concat(), 0).told
    }),
    ("2^32 as a number of 32 bits", [23, 0, 0], || {
        sys::get_u32(&[0x80, 0x80, 0x80, 0x80, 0x10], 0).told
    }),
    ("that in a byte more than it needs", [23, 0, 0], || {
        sys::get_u32(&[0x80, 0x80, 0x80, 0x80, 0x90, 0], 0).told
    }),
    ("80 00", [30, 0, 0], || sys::get_varint(&[0x80, 0], 0).told),
    ("2 in three bytes", [30, 0, 0], || {
        sys::get_varint(&[7, 0x82, 0x80, 0], 1).told
    }),
    ("0 in ten bytes", [30, 0, 0], || {
        sys::get_varint(&[&[0x80; 9][..], &[0]].concat(), 0).told
    }),
    ("1 in two bytes as a number of 32 bits", [30, 0, 0], || {
        sys::get_u32(&[0x81, 0], 0).told
    }),
    ("five in two bytes, above four", [30, 0, 0], || {
        sys::get_count(&[0x85, 0, 5, 5, 5, 5, 5], 0, 4).told
    }),
    (
        "an overlong length above the bytes left",
        [30, 0, 0],
        || sys::get_bytes(&[0x85, 0], 0, 9).told,
    ),
    ("an envelope's sender in two bytes", [30, 0, 0], || {
        sys::decode_envelope(&[0x87, 0, 0, 0]).told
    }),
    ("an envelope's body length in two bytes", [30, 0, 0], || {
        sys::decode_envelope(&[7, 0x80, 0, 0]).told
    }),
    (
        "an envelope's signature length in three bytes",
        [30, 0, 0],
        || sys::read_envelope(&[7, 0, 0x80, 0x80, 0]).told,
    ),
    ("five above four", [24, 0, 0], || {
        sys::get_count(&[5; 9], 0, 4).told
    }),
    ("five above the four bytes left", [24, 0, 0], || {
        sys::get_count(&[5; 5], 0, 9).told
    }),
    ("a part above the bytes left", [24, 0, 0], || {
        sys::get_bytes(&[5; 5], 0, 9).told
    }),
    ("an envelope's signature of 1,025 bytes", [24, 0, 0], || {
        sys::read_envelope(&[&[7, 0, 0x81, 8], &[1; 1_025][..]].concat()).told
    }),
    ("a byte that was not read", [25, 0, 0], || {
        sys::finish(&[0, 0], 1)
    }),
    ("a byte behind an envelope", [25, 0, 0], || {
        sys::decode_envelope(&[7, 0, 0, 0]).told
    }),
];

/// Authors 1 to 32.
fn full_clock() -> Area {
    area::encode((1..=32).map(|author| (author, 1)))
}
