//! Opens the original: its `Reader` and `Writer`, which are visible in its own crate only, rows made of plain numbers,
//! and the text of its files.

use alloc::vec::Vec;

use crate::clock::{Timestamp, VectorClock};
use crate::codec;
use crate::error::CodecError;
use crate::log::StampedOperation;
use crate::stubs::{ActorId, UirNode};

/// The original's form of a row: stamp (wall time, counter, author), author, sequence, dependencies, payload, signature.
pub fn operation(
    stamp: (u64, u32, u64),
    author: u64,
    seq: u64,
    deps: impl Iterator<Item = (u64, u64)>,
    payload: &[u8],
    signature: &[u8],
) -> StampedOperation {
    StampedOperation {
        timestamp: Timestamp {
            wall_time: stamp.0,
            logical_counter: stamp.1,
            actor_id: ActorId(stamp.2),
        },
        actor: ActorId(author),
        seq,
        deps: VectorClock {
            peers: deps.map(|(on, number)| (ActorId(on), number)).collect(),
        },
        op: UirNode {
            bytes: payload.to_vec(),
        },
        signature: signature.to_vec(),
    }
}

/// The original's decoder.
pub struct Reader<'a>(codec::Reader<'a>);

impl<'a> Reader<'a> {
    pub fn new(buf: &'a [u8]) -> Self {
        Self(codec::Reader::new(buf))
    }

    pub fn u8(&mut self) -> Result<u8, CodecError> {
        self.0.u8()
    }

    pub fn varint(&mut self) -> Result<u64, CodecError> {
        self.0.varint()
    }

    pub fn count(&mut self, max: usize) -> Result<usize, CodecError> {
        self.0.count(max)
    }

    pub fn bytes(&mut self, max: usize) -> Result<Vec<u8>, CodecError> {
        self.0.bytes(max)
    }

    pub fn timestamp(&mut self) -> Result<Timestamp, CodecError> {
        self.0.timestamp()
    }

    pub fn signed_op(&mut self) -> Result<StampedOperation, CodecError> {
        self.0.signed_op()
    }

    pub fn remaining(&self) -> usize {
        self.0.remaining()
    }

    pub fn finish(&self) -> Result<(), CodecError> {
        self.0.finish()
    }
}

/// The original's encoder.
pub struct Writer(codec::Writer);

impl Default for Writer {
    fn default() -> Self {
        Self::new()
    }
}

impl Writer {
    pub fn new() -> Self {
        Self(codec::Writer::new())
    }

    pub fn u8(&mut self, value: u8) {
        self.0.u8(value);
    }

    pub fn varint(&mut self, value: u64) {
        self.0.varint(value);
    }

    pub fn bytes(&mut self, bytes: &[u8]) {
        self.0.bytes(bytes);
    }

    pub fn unsigned_op(&mut self, op: &StampedOperation) {
        self.0.unsigned_op(op);
    }

    pub fn signed_op(&mut self, op: &StampedOperation) {
        self.0.signed_op(op);
    }

    pub fn finish(self) -> Vec<u8> {
        self.0.finish()
    }
}

/// The texts of the ported files.
pub const PORTED: [(&str, &str); 10] = [
    ("src/stubs/mod.rs", include_str!("stubs/mod.rs")),
    ("src/error.rs", include_str!("error.rs")),
    ("src/codec.rs", include_str!("codec.rs")),
    ("src/clock.rs", include_str!("clock.rs")),
    ("src/log.rs", include_str!("log.rs")),
    ("src/gc.rs", include_str!("gc.rs")),
    ("src/sync.rs", include_str!("sync.rs")),
    ("src/peer.rs", include_str!("peer.rs")),
    ("src/merge.rs", include_str!("merge.rs")),
    ("src/engine.rs", include_str!("engine.rs")),
];
