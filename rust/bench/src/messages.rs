//! Message bodies, written and read, beside the original's `BinaryCodec`.

use cuwelfra::{ActorId, Message, Row, VectorClock, CLOCK_BYTES, MAX_AUTHORS, MAX_BATCH};
use cuwelfra::{MAX_CLOCK_BODY, MAX_DELTA_BODY, SLOT_BYTES};
use cuwelfra_sys as sys;
use oracle::codec::{BinaryCodec, Codec};
use oracle::sync;

use crate::case::slots;
use crate::lists::{line, refused};
use crate::rows::{chained, operations};
use crate::timing::time;

const ROUNDS: usize = 200;

/// A Hello of as many authors as a clock has, and a Delta of as many rows as a batch.
pub fn messages() -> Result<(), String> {
    hello()?;
    delta()
}

fn hello() -> Result<(), String> {
    let mut clock = VectorClock::new();
    let mut other = oracle::clock::VectorClock::new();
    for author in 1..=MAX_AUTHORS as u64 {
        // Numbers of one to three bytes.
        let number = author * author * author;
        clock.observe(ActorId(author), number).map_err(refused)?;
        other.observe(oracle::stubs::ActorId(author), number);
    }
    let (message, original) = (Message::Hello(clock), sync::Message::Hello(other));
    let body = same_body(&message, &original)?;
    let mut out = [0; MAX_CLOCK_BODY];
    line(
        "Hello of 32 authors written",
        ROUNDS,
        Box::new(|| time(|| sys::encode_hello(&mut out, clock.area()))),
        Box::new(|| time(|| BinaryCodec.encode(&original))),
    );
    read("Hello of 32 authors read", &body);
    Ok(())
}

fn delta() -> Result<(), String> {
    let rows: Vec<Row> = (0..MAX_BATCH as u64).map(chained).collect();
    let slots = slots(&rows).map_err(refused)?;
    let slots: Vec<u8> = slots.iter().flat_map(|slot| *slot.area()).collect();
    let original = sync::Message::Delta(operations(&rows));
    let body = same_body(&Message::Delta(rows), &original)?;
    let mut out = vec![0; MAX_DELTA_BODY];
    line(
        "Delta of 64 rows written",
        ROUNDS,
        Box::new(|| time(|| sys::encode_delta(&mut out, &slots, MAX_BATCH))),
        Box::new(|| time(|| BinaryCodec.encode(&original))),
    );
    read("Delta of 64 rows read", &body);
    Ok(())
}

fn read(name: &str, body: &[u8]) {
    let mut clock = [0; CLOCK_BYTES];
    let mut rows = vec![0; MAX_BATCH * SLOT_BYTES];
    line(
        name,
        ROUNDS,
        Box::new(|| time(|| sys::decode_message(body, &mut clock, &mut rows))),
        Box::new(|| time(|| BinaryCodec.decode(body))),
    );
}

/// The body, which both sides write, and both read as their message.
fn same_body(message: &Message, original: &sync::Message) -> Result<Vec<u8>, String> {
    let body = message.encode().map_err(refused)?;
    let read = Message::decode(&body).map_err(refused)?;
    let other = BinaryCodec.decode(&body).map_err(refused)?;
    if body != BinaryCodec.encode(original) || read != *message || other != *original {
        return Err("the messages differ".into());
    }
    Ok(body)
}
