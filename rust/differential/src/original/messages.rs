//! Messages of the original's `BinaryCodec` in the model's form.

use cuwelfra_sys::Told;
use oracle::clock::VectorClock;
use oracle::codec::{BinaryCodec, Codec};
use oracle::open::Reader;
use oracle::sync;

use crate::model::messages::{Fault, Message, Pairs};
use crate::original::beside::{entries, operation, row, vector};
use crate::original::codec_told;
use crate::support::{agree, Check};

/// The body that the original writes.
pub fn encoded(message: &Message) -> Vec<u8> {
    let clock = |pairs: &Pairs| vector(&pairs.iter().copied().collect());
    BinaryCodec.encode(&match message {
        Message::Hello(pairs) => sync::Message::Hello(clock(pairs)),
        Message::Delta(rows) => sync::Message::Delta(rows.iter().map(operation).collect()),
        Message::Ack(pairs) => sync::Message::Ack(clock(pairs)),
        Message::Ping(nonce) => sync::Message::Ping(*nonce),
        Message::Pong(nonce) => sync::Message::Pong(*nonce),
    })
}

/// What the original reads, `None` for a snapshot's message.
pub fn decoded(body: &[u8]) -> Result<Option<Message>, Told> {
    let clock = |clock: &VectorClock| entries(clock).into_iter().collect();
    let message = BinaryCodec
        .decode(body)
        .map_err(|error| codec_told(&error))?;
    Ok(Some(match message {
        sync::Message::Hello(read) => Message::Hello(clock(&read)),
        sync::Message::Delta(read) => Message::Delta(read.iter().map(row).collect()),
        sync::Message::Ack(read) => Message::Ack(clock(&read)),
        sync::Message::Ping(nonce) => Message::Ping(nonce),
        sync::Message::Pong(nonce) => Message::Pong(nonce),
        sync::Message::SnapshotBegin(_) | sync::Message::SnapshotChunk(_) => return Ok(None),
    }))
}

/// How often the model spoke alone, and what the original said then.
#[derive(Default)]
pub struct Alone {
    /// 4 here, where the original read the body or refused it.
    pub over_capacity: [u64; 2],
    /// 29 here for a snapshot's tag, where the original read the body or refused it.
    pub snapshots: [u64; 2],
    /// 30 here; the original was not asked.
    pub overlong: u64,
    /// Bodies of which both spoke.
    pub both: u64,
    /// Entries of 0 that the original dropped.
    pub dropped: u64,
}

impl Alone {
    /// Requires that the original reads the body as the model does: the same refusal, or the same message but for its
    /// entries of 0. Of 4, of 29 for a snapshot's tag and of 30 the model speaks alone; where it says 4, the original has
    /// taken the count or length; where it says 30, the original is not asked.
    pub fn judge(&mut self, body: &[u8], read: &Result<Message, Fault>) -> Check {
        if read.as_ref().is_err_and(Fault::is_overlong) {
            self.overlong += 1;
            return Ok(());
        }
        let theirs = decoded(body);
        let inputs = || format!("the model beside the original on {body:02x?}");
        let refused = usize::from(theirs.is_err());
        match read {
            Err(fault) if fault.told.number == 4 => {
                self.over_capacity[refused] += 1;
                agree(&taken(body, fault), &true, inputs)?;
            }
            Err(fault) if fault.told.number == 29 && [5, 6].contains(&fault.told.first) => {
                self.snapshots[refused] += 1;
            }
            Err(fault) => {
                self.both += 1;
                agree(&Err(fault.told), &theirs, inputs)?;
            }
            Ok(message) => {
                self.both += 1;
                let kept = without_zeros(message);
                self.dropped += u64::from(kept != *message);
                agree(&Ok(Some(kept)), &theirs, inputs)?;
            }
        }
        Ok(())
    }

    /// The counts in words. Requires that each of them was met.
    pub fn finish(&self) -> Result<String, String> {
        let Self {
            over_capacity: [over_read, over_refused],
            snapshots: [snapshots_read, snapshots_refused],
            overlong,
            both,
            dropped,
        } = self;
        let text = format!(
            "compared with the original {both}, which dropped entries of 0 in {dropped}; overlong, refused with 30 \
             {overlong}; 4 here and read there {over_read}, refused there {over_refused}; a snapshot's tag, read there \
             {snapshots_read}, refused there {snapshots_refused}"
        );
        let counts = [
            both,
            dropped,
            overlong,
            over_read,
            over_refused,
            snapshots_read,
            snapshots_refused,
        ];
        match counts.iter().any(|count| **count == 0) {
            true => Err(format!("  never met: {text}")),
            false => Ok(text),
        }
    }
}

/// Whether the original takes the count or length at which the model refuses.
fn taken(body: &[u8], fault: &Fault) -> bool {
    let (Some(size), Some((limit, _))) = (fault.size, fault.field.limits()) else {
        return false;
    };
    let mut reader = Reader::new(&body[body.len() - size.before..]);
    let read = reader.count(limit as usize);
    read.is_ok_and(|read| read as u64 == size.value)
}

fn without_zeros(message: &Message) -> Message {
    let kept = |pairs: &Pairs| pairs.iter().copied().filter(|pair| pair.1 > 0).collect();
    match message {
        Message::Hello(pairs) => Message::Hello(kept(pairs)),
        Message::Ack(pairs) => Message::Ack(kept(pairs)),
        Message::Delta(rows) => {
            let mut rows = rows.clone();
            for row in &mut rows {
                row.deps.retain(|pair| pair.1 > 0);
            }
            Message::Delta(rows)
        }
        other => other.clone(),
    }
}
