//! Inputs of docs/DIFFERENCES.md that no other suite has, on both sides.

use std::cell::RefCell;
use std::cmp::Ordering;
use std::collections::VecDeque;
use std::rc::Rc;

use cuwelfra_sys::{self as sys, Told};
use oracle::clock::{CausalOrder, ClockSource, VectorClock};
use oracle::codec::{BinaryCodec, Codec};
use oracle::engine::Replica;
use oracle::error::CodecError;
use oracle::open::Reader;
use oracle::peer::Peer;
use oracle::stubs::crypto::Verifier;
use oracle::stubs::{ActorId, UirNode};
use oracle::sync::{Envelope, Message};

use crate::original::beside::operation;
use crate::original::judges::Applied;
use crate::original::replica::Signing;
use crate::original::written;
use crate::port::area::{self, set_word};
use crate::port::desk::{row, Desk};
use crate::rng::Rng;
use crate::suites::beside::peers::{OUTSTANDING, PEER};
use crate::support::{accepted, agree, refused, Check, Outcome};

type Case = fn() -> Check;

const CASES: [(&str, Case); 7] = [
    ("a peer with nine pings", nine_pings),
    ("80 ten times, then 00", eleven_bytes),
    ("80 00", overlong),
    ("{1: 0} beside {}", zero_number),
    ("a count above the bytes left", count_above_rest),
    ("where a refused read leaves the position", refused_read),
    ("a time for each fold", time_of_folds),
];

pub fn run(_: &mut Rng) -> Outcome {
    for (name, case) in CASES {
        case().map_err(|difference| format!("  case:     {name}\n{difference}"))?;
    }
    Ok(CASES.len() as u64)
}

/// The original keeps nine and takes their pongs; here every call on such a peer is 1.
fn nine_pings() -> Check {
    let mut peer = Peer::new(ActorId(7));
    peer.outstanding_pings = (1..=9).collect();
    peer.record_ping(10);
    agree(&peer.outstanding_pings, &(2..=10).collect(), String::new)?;
    agree(&peer.take_pong(2), &true, String::new)?;
    type Call = fn(&mut [u8]) -> Told;
    let calls: [Call; 7] = [
        |peer| sys::peer_record_ping(peer, 10),
        |peer| sys::peer_take_pong(peer, 2),
        |peer| sys::peer_connection_started(peer, 10),
        |peer| sys::peer_connection_lost(peer),
        |peer| sys::peer_absorb_clock(peer, &area::encode([])),
        |peer| sys::peer_replace_clock(peer, &area::encode([])),
        |peer| sys::peer_rebase_timers(peer, 10),
    ];
    for (i, call) in calls.iter().enumerate() {
        let mut area = [0; PEER];
        accepted(sys::peer_new(&mut area, 7));
        set_word(&mut area, OUTSTANDING, 9);
        let before = area;
        agree(&call(&mut area), &refused(1), || format!("call {i}"))?;
        agree(&area, &before, || format!("call {i}"))?;
    }
    Ok(())
}

/// LEB128 gives each byte its seven bits, however many there are; neither the original nor the port reads an eleventh.
fn eleven_bytes() -> Check {
    let bytes = [&[0x80; 10][..], &[0]].concat();
    let weighed = bytes
        .iter()
        .enumerate()
        .map(|(i, byte)| u128::from(byte & 0x7f) << (7 * i));
    agree(&weighed.sum::<u128>(), &0, String::new)?;
    let original = Reader::new(&bytes).varint();
    agree(&original, &Err(CodecError::VarintOverflow), String::new)?;
    agree(&sys::get_varint(&bytes, 0).told, &refused(23), String::new)?;
    agree(&batch(bytes), &refused(3), String::new)
}

/// The original reads it as 0, alone, in an envelope, in a message and in a row; here it is 30, in a batch 3. The original
/// writes 00.
fn overlong() -> Check {
    let bytes = [0x80, 0];
    agree(&Reader::new(&bytes).varint(), &Ok(0), String::new)?;
    agree(&written(|w| w.varint(0)), &vec![0], String::new)?;
    agree(&sys::get_varint(&bytes, 0).told, &refused(30), String::new)?;
    let sender = Envelope::decode(&[0x80, 0, 0, 0]).map(|read| read.sender.0);
    agree(&sender, &Ok(0), String::new)?;
    let told = sys::decode_envelope(&[0x80, 0, 0, 0]).told;
    agree(&told, &refused(30), String::new)?;
    let message = BinaryCodec.decode(&[3, 0x80, 0]);
    agree(&message, &Ok(Message::Ping(0)), String::new)?;
    let told = sys::decode_message(&[3, 0x80, 0], &mut [0; area::BYTES], &mut []).told;
    agree(&told, &refused(30), String::new)?;
    // A row of zeros but for author and sequence, with its wall time in two bytes.
    let row = [0x80, 0, 0, 1, 1, 1, 0, 0, 0];
    let wall = Reader::new(&row)
        .signed_op()
        .map(|op| op.timestamp.wall_time);
    agree(&wall, &Ok(0), String::new)?;
    let whole = [&[1][..], &row, &[1, 0, 0]].concat();
    agree(&batch(whole), &refused(3), String::new)
}

/// Equal in order and unequal in content, in the original by `partial_cmp` and `==`.
fn zero_number() -> Check {
    let (zero, none) = ([(1, 0)], []);
    let zero_clock = VectorClock {
        peers: zero
            .iter()
            .map(|(author, seq)| (ActorId(*author), *seq))
            .collect(),
    };
    let none_clock = VectorClock::new();
    let order = zero_clock.partial_cmp(&none_clock);
    agree(&order, &Some(Ordering::Equal), String::new)?;
    agree(
        &zero_clock.compare(&none_clock),
        &CausalOrder::Equal,
        String::new,
    )?;
    agree(&(zero_clock == none_clock), &false, String::new)?;
    let [zero, none] = [area::encode(zero), area::encode(none)];
    let order = sys::clock_compare(&zero, &none);
    agree(
        &(order.told, order.number),
        &(Told::default(), 2),
        String::new,
    )?;
    agree(&(zero == none), &false, String::new)?;
    let [zero, none] = [zero, none].map(cuwelfra::VectorClock::from_area);
    agree(
        &zero.compare(&none),
        &Ok(cuwelfra::CausalOrder::Equal),
        String::new,
    )?;
    agree(&(zero == none), &false, String::new)?;
    let mut desk = Desk::new(2);
    desk.offer([row(2, 2).needs(1, 0)]);
    agree(
        &desk.offer([row(2, 2)]).as_str(),
        &"refused 13 2 2",
        String::new,
    )
}

/// Five rows are counted and none is there: 05 alone, and behind the tag of a message of rows.
fn count_above_rest() -> Check {
    let original = Reader::new(&[5]).count(64);
    agree(&original, &Err(CodecError::TooLarge), String::new)?;
    let message = BinaryCodec.decode(&[1, 5]);
    agree(&message, &Err(CodecError::TooLarge), String::new)?;
    agree(&batch(vec![5]), &refused(3), String::new)
}

/// A part of five bytes, of which none is there.
fn refused_read() -> Check {
    let mut original = Reader::new(&[5]);
    agree(&original.bytes(9), &Err(CodecError::TooLarge), String::new)?;
    agree(&original.remaining(), &0, String::new)?;
    let mut port = cuwelfra::Reader::new(&[5]);
    let number = port.bytes(9).map_err(|refusal| refusal.number());
    agree(&number, &Err(24), String::new)?;
    agree(&(port.position(), port.remaining()), &(0, 1), String::new)
}

/// The times that are read next, then 0.
#[derive(Clone, Default)]
struct Times(Rc<RefCell<VecDeque<u64>>>);

impl ClockSource for Times {
    fn now_ms(&self) -> u64 {
        self.0.borrow_mut().pop_front().unwrap_or(0)
    }
}

/// A verifier that says yes.
struct Verified;

impl Verifier for Verified {
    fn verify(&self, _: ActorId, _: &[u8], _: &[u8]) -> bool {
        true
    }
}

/// Two stamps, 10/5 and 10/7. The original reads 10 to merge, then 11 and 12 to fold; here the time is 10.
fn time_of_folds() -> Check {
    let rows = [row(2, 1).at(10).counter(5), row(3, 1).at(10).counter(7)];
    let times = Times::default();
    // An empty payload of author 8 fits.
    let mut replica = Replica::new(
        ActorId(8),
        Applied::default(),
        Box::new(Signing(8)),
        Box::new(Verified),
        Box::new(times.clone()),
    );
    times.0.replace([10, 11, 12].into());
    let operations = rows.iter().map(|lent| operation(&lent.row)).collect();
    let report = replica.import_ops(operations);
    agree(&report.is_ok(), &true, String::new)?;
    // At time 0 it adds one to the counter where it stands.
    let own = replica.local_op(UirNode { bytes: Vec::new() });
    let stamp = own.map(|own| (own.timestamp.wall_time, own.timestamp.logical_counter));
    agree(&stamp, &Ok((12, 1)), String::new)?;
    let mut desk = Desk::new(2);
    desk.time = 10;
    desk.offer(rows);
    agree(&desk.stands().as_str(), &"10/8", String::new)
}

/// A batch call with these bytes on an empty store.
fn batch(bytes: Vec<u8>) -> Told {
    let mut desk = Desk::new(1);
    let mut lent = desk.lent(&[]);
    lent.batch = bytes;
    desk.answer(&lent).told.told
}
