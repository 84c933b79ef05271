//! A store of the port beside a log of the original.

use cuwelfra_sys::{ClockNumber, StampTold, Told};
use oracle::clock::{Timestamp, VectorClock};
use oracle::log::{ReplicatedLog, StampedOperation};
use oracle::open;
use oracle::stubs::ActorId;

use crate::port::area::{self, Area, AUTHORS};
use crate::port::rows::{Held, Row, Stamp};
use crate::port::store::{same_areas, Areas, Content, Entries};
use crate::rng::Rng;
use crate::support::Check;
use crate::world::{self, World};

pub fn timestamp(stamp: Stamp) -> Timestamp {
    Timestamp {
        wall_time: stamp.0,
        logical_counter: stamp.1,
        actor_id: ActorId(stamp.2),
    }
}

pub fn stamp(timestamp: &Timestamp) -> Stamp {
    (
        timestamp.wall_time,
        timestamp.logical_counter,
        timestamp.actor_id.0,
    )
}

pub fn vector(entries: &Entries) -> VectorClock {
    let peers = entries.iter().map(|(author, seq)| (ActorId(*author), *seq));
    VectorClock {
        peers: peers.collect(),
    }
}

pub fn entries(clock: &VectorClock) -> Entries {
    let peers = clock.peers.iter();
    peers.map(|(actor, seq)| (actor.0, *seq)).collect()
}

pub fn clock_area(clock: &VectorClock) -> Area {
    area::encode(clock.peers.iter().map(|(actor, seq)| (actor.0, *seq)))
}

pub fn operation(row: &Row) -> StampedOperation {
    let deps = row.deps.iter().copied();
    let (payload, signature) = (&row.payload, &row.signature);
    open::operation(row.stamp, row.author, row.seq, deps, payload, signature)
}

pub fn row(operation: &StampedOperation) -> Row {
    Row {
        stamp: stamp(&operation.timestamp),
        author: operation.actor.0,
        seq: operation.seq,
        deps: entries(&operation.deps).into_iter().collect(),
        payload: operation.op.bytes.clone(),
        signature: operation.signature.clone(),
    }
}

/// The original's log made of rows, one inserted after the other.
pub fn log_of(rows: &[Row], compacted: &Entries) -> ReplicatedLog {
    ReplicatedLog::from_parts(rows.iter().map(operation).collect(), vector(compacted))
}

/// What a store of that log alone stands for.
pub fn content_of(log: &ReplicatedLog) -> Content {
    let marks = log.watermarks().iter();
    Content {
        rows: log.ops().iter().map(row).collect(),
        clock: entries(log.clock()),
        compacted: entries(log.compacted()),
        marks: marks.map(|(actor, mark)| (actor.0, stamp(mark))).collect(),
        ..Content::default()
    }
}

/// Whether the clocks and watermarks have places for the log's authors.
pub fn authors_fit(log: &ReplicatedLog) -> bool {
    log.clock().peers.len() <= AUTHORS && log.watermarks().len() <= AUTHORS
}

pub fn told_number(number: u64) -> ClockNumber {
    ClockNumber {
        told: Told::default(),
        number,
    }
}

pub fn told_stamp(timestamp: Option<&Timestamp>) -> StampTold {
    timestamp.map_or_else(StampTold::default, |timestamp| StampTold {
        told: Told::default(),
        present: 1,
        wall_time: timestamp.wall_time,
        logical_counter: u64::from(timestamp.logical_counter),
        actor_id: timestamp.actor_id.0,
    })
}

/// A log of the original, and the areas that hold it with held rows and a floor.
pub struct Pair {
    pub original: ReplicatedLog,
    pub held: Vec<Held>,
    pub floor: Option<Stamp>,
    /// Lent to the port.
    pub areas: Areas,
    /// What they must hold.
    wanted: Areas,
}

impl Pair {
    /// A store of rows that came in any order, sometimes compacted.
    pub fn new(rng: &mut Rng, world: &World, logged: usize) -> Self {
        let compacted = world.clock(rng, world.authors.len().min(AUTHORS));
        let rows = world.rows(rng, logged);
        let mut original = log_of(&rows, &compacted);
        if rng.once_in(3) {
            let cutoff = world.near_stamp(rng, &rows);
            original.compact(&timestamp(cutoff));
        }
        if !authors_fit(&original) {
            original = ReplicatedLog::new();
        }
        Self::of(rng, world, original)
    }

    /// The areas of a log, with some held rows and a floor.
    pub fn of(rng: &mut Rng, world: &World, original: ReplicatedLog) -> Self {
        let count = rng.pick(&[0, 0, 1, 3]);
        let held = world.held(rng, count);
        let floor = world.floor(rng);
        Self::with(rng, original, held, floor)
    }

    /// The areas of a log, with these held rows and this floor.
    pub fn with(
        rng: &mut Rng,
        original: ReplicatedLog,
        held: Vec<Held>,
        floor: Option<Stamp>,
    ) -> Self {
        let mut pair = Self {
            areas: Areas::default(),
            wanted: world::areas(rng, original.len()),
            held,
            floor,
            original,
        };
        let content = pair.content();
        pair.wanted.write(&content);
        pair.areas = pair.wanted.clone();
        pair
    }

    pub fn content(&self) -> Content {
        Content {
            held: self.held.clone(),
            floor: self.floor,
            ..content_of(&self.original)
        }
    }

    /// Places these held rows.
    pub fn hold(&mut self, held: Vec<Held>) {
        self.held = held;
        let content = self.content();
        self.wanted.write(&content);
        self.areas = self.wanted.clone();
    }

    /// Gives the log so many slots more.
    pub fn enlarge(&mut self, slots: usize) {
        self.wanted = Areas::new(self.wanted.capacity() + slots, 0);
        let content = self.content();
        self.wanted.write(&content);
        self.areas = self.wanted.clone();
    }

    /// The areas must hold this log from now on.
    pub fn now(&mut self, original: ReplicatedLog) {
        self.original = original;
        let content = self.content();
        self.wanted.write_log(&content);
    }

    /// Requires that every byte is as the original has it.
    pub fn same(&self, inputs: impl FnOnce() -> String) -> Check {
        same_areas(&self.areas, &self.wanted, inputs)
    }

    /// A call through the wrapper.
    pub fn wrapped<T>(&mut self, call: impl FnOnce(&mut cuwelfra::Store) -> T) -> T {
        self.areas.wrapped(call)
    }

    pub fn shown(&self) -> String {
        let rows = self.original.ops().iter().map(|op| {
            let (wall, counter, author) = stamp(&op.timestamp);
            format!("{wall}/{counter}/{author} {}:{}", op.actor.0, op.seq)
        });
        format!(
            "rows {:?}, clock {:?}, compacted {:?}, marks {:?}",
            rows.collect::<Vec<_>>(),
            entries(self.original.clock()),
            entries(self.original.compacted()),
            self.content().marks
        )
    }
}
