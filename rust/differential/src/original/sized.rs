//! Questions after the sizes of deltas, and how often each kind of them was met.

use std::collections::BTreeSet;

use oracle::codec::MAX_SIGNATURE;
use oracle::log::{ReplicatedLog, StampedOperation};

use crate::original::sent::{size, Asked, Frame};
use crate::port::area::AUTHORS;
use crate::port::store::LOGGED;
use crate::support::{note, Outcome};

/// A chunk of the original.
type Chunk = Vec<StampedOperation>;

/// A question and what came of it.
pub struct Case<'a> {
    pub log: &'a ReplicatedLog,
    pub asked: &'a Asked,
    pub delta: &'a [StampedOperation],
    pub chunks: &'a [Chunk],
    pub frames: &'a [Frame],
    /// Bytes of output.
    pub room: usize,
    /// The number of the refusal, or 0.
    pub refused: u64,
    /// Whether the wrapper was asked too.
    pub wrapped: bool,
    /// Whether the port wrote the frames.
    pub written: bool,
    /// What was wrong beside too long a signature.
    pub spoilt: Option<Spoilt>,
}

#[derive(Clone, Copy, Debug, PartialEq, Eq)]
pub enum Spoilt {
    Nothing,
    ShortClock,
    UnsoundClock,
    ShortStore,
    UnsoundStore,
}

impl Spoilt {
    pub const ALL: [Self; 5] = [
        Self::Nothing,
        Self::ShortClock,
        Self::UnsoundClock,
        Self::ShortStore,
        Self::UnsoundStore,
    ];
}

/// Rows that a message has at most.
const ROWS: usize = 64;

/// What is counted, and how often a case has it.
type Kind = (&'static str, fn(&Case) -> usize);

const KINDS: [Kind; 32] = [
    ("logs of 1,024 rows and 32 authors", |case| {
        counted(is_full(case.log))
    }),
    ("deltas of 1,024 rows", |case| {
        counted(case.delta.len() == LOGGED)
    }),
    ("empty deltas", |case| counted(is_empty(case))),
    ("empty ones with no output", |case| {
        counted(is_empty(case) && case.room == 0)
    }),
    ("chunks", |case| case.chunks.len()),
    ("chunks of 64 rows", |case| of_rows(case, ROWS)),
    ("chunks of 65 rows", |case| of_rows(case, 65)),
    ("chunks above 64 rows", above),
    ("chunks of 1,024 rows", |case| of_rows(case, LOGGED)),
    ("rows alone above the bytes of a chunk", oversized),
    ("bodies whose length has 1 byte", |case| {
        bodies(case, 0, 1 << 7)
    }),
    ("2 bytes", |case| bodies(case, 1 << 7, 1 << 14)),
    ("3 bytes", |case| bodies(case, 1 << 14, 1 << 21)),
    ("signatures of 0 bytes", |case| signature(case, 0)),
    ("127 bytes", |case| signature(case, 127)),
    ("128 bytes", |case| signature(case, 128)),
    ("1,024 bytes", |case| signature(case, MAX_SIGNATURE as u64)),
    ("outputs of exactly 16 bytes a chunk", |case| {
        output(case, 0, 16 * case.chunks.len())
    }),
    ("longer outputs", |case| {
        counted(case.refused == 0 && case.room > 16 * case.chunks.len())
    }),
    ("2 for the output", |case| counted(case.refused == 2)),
    ("2 a byte short", |case| {
        output(case, 2, (16 * case.chunks.len()).wrapping_sub(1))
    }),
    ("2 with 8 bytes a chunk", |case| {
        output(case, 2, 8 * case.chunks.len())
    }),
    ("4 at 1,025 bytes", |case| {
        signature(case, MAX_SIGNATURE as u64 + 1)
    }),
    ("4 at 2^64 - 1 bytes", |case| signature(case, u64::MAX)),
    ("4 alone", |case| spoilt(case, Spoilt::Nothing)),
    ("4 before a short clock", |case| {
        spoilt(case, Spoilt::ShortClock)
    }),
    ("an unsound clock", |case| {
        spoilt(case, Spoilt::UnsoundClock)
    }),
    ("a short store", |case| spoilt(case, Spoilt::ShortStore)),
    ("an unsound store", |case| {
        spoilt(case, Spoilt::UnsoundStore)
    }),
    ("cases through the wrapper", |case| counted(case.wrapped)),
    ("frames that the port wrote", written),
    ("chunks that it refused to write", |case| {
        counted(case.written) * above(case)
    }),
];

fn counted(met: bool) -> usize {
    usize::from(met)
}

fn is_full(log: &ReplicatedLog) -> bool {
    log.len() == LOGGED && log.clock().peers.len() == AUTHORS
}

fn is_empty(case: &Case) -> bool {
    case.refused == 0 && case.delta.is_empty()
}

fn of_rows(case: &Case, rows: usize) -> usize {
    let chunks = case.chunks.iter();
    chunks.filter(|chunk| chunk.len() == rows).count()
}

fn above(case: &Case) -> usize {
    let chunks = case.chunks.iter();
    chunks.filter(|chunk| chunk.len() > ROWS).count()
}

fn oversized(case: &Case) -> usize {
    let above = |op: &StampedOperation| size(op) as u64 > case.asked.bytes;
    let alone = |chunk: &&Chunk| matches!(&chunk[..], [op] if above(op));
    case.chunks.iter().filter(alone).count()
}

fn bodies(case: &Case, least: usize, end: usize) -> usize {
    let within = |frame: &&Frame| (least..end).contains(&frame.body);
    case.frames.iter().filter(within).count()
}

fn signature(case: &Case, len: u64) -> usize {
    counted(case.asked.sig_len == len)
}

/// Whether chunks were asked for with an output of so many bytes, and this number was told.
fn output(case: &Case, refused: u64, room: usize) -> usize {
    counted(!case.chunks.is_empty() && case.refused == refused && case.room == room)
}

fn spoilt(case: &Case, spoilt: Spoilt) -> usize {
    counted(case.spoilt == Some(spoilt))
}

/// Where one chunk is refused none is counted.
fn written(case: &Case) -> usize {
    counted(case.written && above(case) == 0) * case.frames.len()
}

/// The numbers at which a varint becomes longer, and the last.
fn edges() -> impl Iterator<Item = u64> {
    let powers = (0..10).map(|i| 1 << (7 * i));
    powers
        .flat_map(|power: u64| [power - 1, power])
        .chain([u64::MAX])
}

#[derive(Default)]
pub struct Kinds {
    cases: u64,
    counts: [u64; KINDS.len()],
    senders: BTreeSet<u64>,
}

impl Kinds {
    pub fn note(&mut self, case: &Case) {
        self.cases += 1;
        for (count, (_, times)) in self.counts.iter_mut().zip(KINDS) {
            *count += times(case) as u64;
        }
        if !case.chunks.is_empty() {
            self.senders.insert(case.asked.sender);
        }
    }

    /// Prints the counts. Requires that each kind was met, and each sender at which a varint becomes longer.
    pub fn finish(&self) -> Outcome {
        let counted = KINDS.iter().zip(self.counts);
        let listed = counted.clone().map(|((name, _), n)| format!("{name} {n}"));
        let listed: Vec<String> = listed.collect();
        note(&format!("delta-sizes: {}", listed.join(", ")));
        if let Some(((name, _), _)) = counted.clone().find(|(_, count)| *count == 0) {
            return Err(format!("  delta-sizes: never met: {name}"));
        }
        if let Some(sender) = edges().find(|edge| !self.senders.contains(edge)) {
            return Err(format!("  delta-sizes: no chunk from sender {sender}"));
        }
        Ok(self.cases)
    }
}
