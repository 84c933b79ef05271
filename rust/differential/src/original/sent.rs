//! What is asked of a store that sends: limits of chunks, and by them the frames that the original and the port make.

use cuwelfra::{ActorId, ChunkSize, Refusal, Store, VectorClock};
use cuwelfra_sys::{self as sys, ClockNumber};
use oracle::codec::{BinaryCodec, Codec, MAX_SIGNATURE};
use oracle::log::StampedOperation;
use oracle::stubs;
use oracle::sync::{calculate_delta, Envelope, Message};

use crate::original::beside::{clock_area, vector, Pair};
use crate::port::area::Area;
use crate::port::store::Entries;
use crate::rng::Rng;
use crate::world::boundary;

/// A byte limit around the size of some rows in a row, or an end.
pub fn byte_limit(rng: &mut Rng, ops: &[StampedOperation]) -> u64 {
    if ops.is_empty() || rng.once_in(4) {
        return rng.pick(&[0, 1, 40, u64::MAX - 1, u64::MAX]);
    }
    let first = rng.below(ops.len());
    let last = first + rng.below(ops.len() - first);
    let sizes = ops[first..=last].iter().map(size);
    let sum = sizes.sum::<usize>() as u64;
    rng.pick(&[sum - 1, sum, sum, sum + 1])
}

/// What a row counts in a chunk.
pub fn size(op: &StampedOperation) -> usize {
    op.signing_bytes().len() + op.signature.len() + 16
}

/// A question after the sizes of a delta.
#[derive(Debug)]
pub struct Asked {
    /// The clock of the peer.
    peer: Entries,
    /// Rows and bytes of a chunk at most.
    pub most: u64,
    pub bytes: u64,
    pub sender: u64,
    pub sig_len: u64,
}

/// What the original sends of a chunk.
pub struct Frame {
    pub rows: usize,
    /// The bytes of its message.
    pub body: usize,
    pub bytes: Vec<u8>,
}

impl Asked {
    pub fn any(rng: &mut Rng, pair: &Pair, peer: &Entries) -> Self {
        let delta = calculate_delta(&pair.original, &vector(peer));
        let any = rng.next() % (MAX_SIGNATURE as u64 + 2);
        let longer = rng.edge().max(MAX_SIGNATURE as u64 + 1);
        let longer = rng.pick(&[MAX_SIGNATURE as u64 + 1, longer, u64::MAX]);
        Self {
            peer: peer.clone(),
            most: rng.pick(&[0, 1, 2, 3, 5, 63, 64, 65, 100, 1_024, u64::MAX, u64::MAX]),
            bytes: byte_limit(rng, &delta),
            sender: boundary(rng),
            sig_len: rng.pick(&[
                0, 1, 64, 126, 127, 128, 129, 1_023, 1_024, 1_024, any, longer,
            ]),
        }
    }

    /// All rows in one chunk, from the largest sender and with the longest signature.
    pub fn largest() -> Self {
        Self {
            peer: Entries::new(),
            most: u64::MAX,
            bytes: u64::MAX,
            sender: u64::MAX,
            sig_len: MAX_SIGNATURE as u64,
        }
    }

    /// Whether the original reads an envelope with such a signature.
    pub fn fits(&self) -> bool {
        self.sig_len <= MAX_SIGNATURE as u64
    }

    /// What the original finds that the peer lacks.
    pub fn delta(&self, pair: &Pair) -> Vec<StampedOperation> {
        calculate_delta(&pair.original, &vector(&self.peer))
    }

    pub fn clock(&self) -> Area {
        clock_area(&vector(&self.peer))
    }

    fn sig(&self) -> Vec<u8> {
        vec![0; self.sig_len as usize]
    }

    /// The original's frame of a chunk.
    pub fn frame(&self, chunk: &[StampedOperation]) -> Frame {
        let body = BinaryCodec.encode(&Message::Delta(chunk.to_vec()));
        let envelope = Envelope {
            sender: stubs::ActorId(self.sender),
            body,
            sig: self.sig(),
        };
        Frame {
            rows: chunk.len(),
            body: envelope.body.len(),
            bytes: envelope.encode(),
        }
    }

    pub fn call(&self, store: sys::Areas, clock: &[u8], output: &mut [u8]) -> ClockNumber {
        let Self {
            most,
            bytes,
            sender,
            sig_len,
            ..
        } = *self;
        sys::delta_sizes(store, clock, most, bytes, sender, sig_len, output)
    }

    /// The same through the wrapper.
    pub fn sizes(&self, store: &Store) -> Result<Vec<ChunkSize>, Refusal> {
        let delta = store.delta(&VectorClock::from_area(self.clock()))?;
        let (sender, sig_len) = (ActorId(self.sender), self.sig_len as usize);
        delta.sizes(self.most, self.bytes, sender, sig_len)
    }

    /// The frames that the port writes of its own chunks.
    pub fn written(&self, store: &Store) -> Result<Vec<Vec<u8>>, Refusal> {
        let delta = store.delta(&VectorClock::from_area(self.clock()))?;
        let chunks = delta.chunks(self.most, self.bytes)?;
        let frames = chunks.into_iter().map(|rows| {
            let body = cuwelfra::Message::Delta(rows).encode()?;
            let envelope = cuwelfra::Envelope {
                sender: ActorId(self.sender),
                body: &body,
                sig: &self.sig(),
            };
            // More than a frame of 64 rows needs.
            let mut frame = vec![0x5a; 65_536];
            let len = envelope.encode(&mut frame)?;
            frame.truncate(len);
            Ok(frame)
        });
        frames.collect()
    }
}

impl Frame {
    /// What the port lists of it.
    pub fn size(&self) -> [u64; 2] {
        [self.rows as u64, self.bytes.len() as u64]
    }

    pub fn wrapped(&self) -> ChunkSize {
        ChunkSize {
            rows: self.rows,
            bytes: self.bytes.len(),
        }
    }
}
