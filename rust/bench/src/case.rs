//! A batch call on a store of the port, and on the original's merger and hybrid clock, from the same start.

use cuwelfra::{
    Batch, Limits, Refusal, Report, Request, Row, Slot, Store, VectorClock, LINE_BYTES,
    SCRATCH_BYTES, SLOT_BYTES,
};
use cuwelfra_sys as sys;
use oracle::clock::{HybridClock, ManualClock, Timestamp};
use oracle::error::{ApplyError, MergeError, SnapshotError};
use oracle::log::{ReplicatedLog, StampedOperation};
use oracle::merge::{AllowAll, MergeReport, Merger};
use oracle::stubs::crypto::Verifier;
use oracle::stubs::{ActorId, CrdtCompatible, State, UirNode};

use crate::rows::{operation, operations, NOW};
use crate::timing::{time, Subject};

/// The author of the hybrid clocks, which have seen nothing before a call.
const OWN: u64 = 1;

/// Rows that a store was given before the call.
#[derive(Clone, Default)]
pub struct Before {
    pub logged: Vec<Row>,
    /// Waiting, at most 64.
    pub held: Vec<Row>,
}

/// What a call must come to.
#[derive(Clone, Copy, Debug, Default, PartialEq, Eq)]
pub struct Counts {
    pub applied: usize,
    pub duplicates: usize,
    pub held: usize,
}

pub struct Case {
    rows: Vec<Row>,
    batch: Batch,
    store: Store,
    operations: Vec<StampedOperation>,
    log: ReplicatedLog,
    merger: Merger,
}

impl Case {
    /// Both sides before the call, the log area with so many slots. Fails where they disagree before or after it, or
    /// the call does not come to these counts.
    pub fn new(
        before: &Before,
        slots: usize,
        rows: Vec<Row>,
        counts: Counts,
    ) -> Result<Self, String> {
        let mut case = Self {
            batch: bytes(&before.held).map_err(shown)?,
            store: store_of(&before.logged, slots).map_err(shown)?,
            operations: operations(&before.held),
            log: ReplicatedLog::from_parts(operations(&before.logged), Default::default()),
            merger: Merger::default(),
            rows: Vec::new(),
        };
        case.step(Counts {
            held: before.held.len(),
            ..Counts::default()
        })?;
        case.batch = bytes(&rows).map_err(shown)?;
        case.operations = operations(&rows);
        case.rows = rows;
        let (store, log, merger) = (case.store.clone(), case.log.clone(), case.merger.clone());
        case.step(counts)?;
        Ok(Self {
            store,
            log,
            merger,
            ..case
        })
    }

    /// Makes the call on both sides and compares.
    fn step(&mut self, counts: Counts) -> Result<(), String> {
        let mut clock = clock();
        let report = wrapped(&mut self.store, &mut clock, self.batch.bytes()).map_err(shown)?;
        let mut other_clock = original_clock();
        let operations = self.operations.clone();
        let original = merge(
            &mut self.merger,
            &mut self.log,
            &mut other_clock,
            operations,
        );
        let (original, failed) = original.map_err(shown)?;
        if (report.failed_folds, failed) != (0, 0) || clock.last() != exported_folds(&self.stamps())
        {
            return Err("a fold failed, or the folds differ".into());
        }
        let stamp = clock.now(NOW).map_err(shown)?;
        let other_stamp = other_clock.now().map_err(shown)?;
        if (stamp.wall_time, stamp.logical_counter)
            != (other_stamp.wall_time, other_stamp.logical_counter)
        {
            return Err(format!("the clocks issue {stamp} and {other_stamp:?}"));
        }
        let port = Counts {
            applied: report.applied,
            duplicates: report.duplicates,
            held: report.held,
        };
        let other = Counts {
            applied: original.applied,
            duplicates: original.duplicates,
            held: original.buffered,
        };
        if port != counts || other != counts {
            return Err(format!(
                "port {port:?}, original {other:?}, wanted {counts:?}"
            ));
        }
        same_log(&self.store, &self.log)
    }

    /// The exported call on lent areas.
    pub fn exported(&self) -> Subject<'_> {
        let mut scratch = vec![0; 128 * SCRATCH_BYTES];
        let mut output = vec![0; 128 * LINE_BYTES];
        Box::new(move || {
            let (mut log, mut held, mut head) = self.store.clone().into_areas();
            let areas = sys::AreasMut {
                log: &mut log,
                held: &mut held,
                head: &mut head,
            };
            let batch = self.batch.bytes();
            let limits = Limits::default().settings();
            let clock = parts();
            time(|| sys::apply_delta(limits, NOW, clock, areas, batch, &mut scratch, &mut output))
        })
    }

    /// The wrapper's call, which makes scratch, output and report.
    pub fn wrapped(&self) -> Subject<'_> {
        Box::new(|| {
            let mut store = self.store.clone();
            let mut clock = clock();
            time(|| wrapped(&mut store, &mut clock, self.batch.bytes()))
        })
    }

    /// The original's merging and then its folds, with rows that it may keep.
    pub fn original(&self) -> Subject<'_> {
        Box::new(|| {
            let mut merger = self.merger.clone();
            let mut log = self.log.clone();
            let mut clock = original_clock();
            let operations = self.operations.clone();
            time(|| merge(&mut merger, &mut log, &mut clock, operations))
        })
    }

    /// The original's folds alone.
    pub fn original_folds(&self) -> Subject<'_> {
        let stamps = self.stamps();
        Box::new(move || {
            let mut clock = original_clock();
            time(|| fold(&mut clock, &stamps))
        })
    }

    /// The same folds by the exported call for one stamp.
    pub fn exported_folds(&self) -> Subject<'_> {
        let stamps = self.stamps();
        Box::new(move || time(|| exported_folds(&stamps)))
    }

    /// The batch's stamps, in its order.
    fn stamps(&self) -> Vec<Timestamp> {
        self.operations.iter().map(|op| op.timestamp).collect()
    }

    /// Making the batch's bytes.
    pub fn building(&self) -> Subject<'_> {
        Box::new(|| time(|| bytes(&self.rows)))
    }

    /// The store's rules alone.
    pub fn checking(&self) -> Subject<'_> {
        Box::new(|| time(|| self.store.check()))
    }

    /// Reading the batch's rows alone, each into a slot.
    pub fn reading(&self) -> Subject<'_> {
        let mut slot = [0; SLOT_BYTES];
        Box::new(move || {
            let batch = self.batch.bytes();
            time(|| {
                let mut at = 1;
                for _ in 0..self.batch.len() {
                    at = sys::read_op(batch, at, &mut slot).next as usize;
                }
                at
            })
        })
    }
}

fn shown(error: impl std::fmt::Debug) -> String {
    format!("{error:?}")
}

pub fn bytes(rows: &[Row]) -> Result<Batch, Refusal> {
    let mut batch = Batch::new();
    for row in rows {
        batch.push(row, true, Ok(()))?;
    }
    Ok(batch)
}

pub fn slots(rows: &[Row]) -> Result<Vec<Slot>, Refusal> {
    rows.iter().map(Slot::logged).collect()
}

/// A store of these logged rows.
pub fn store_of(rows: &[Row], capacity: usize) -> Result<Store, Refusal> {
    let mut store = Store::with_capacity(capacity)?;
    store.rebuild(&slots(rows)?, &VectorClock::new())?;
    Ok(store)
}

fn clock() -> cuwelfra::HybridClock {
    cuwelfra::HybridClock::new(cuwelfra::ActorId(OWN))
}

/// The same as the exported call takes it.
fn parts() -> sys::HybridParts {
    let parts = clock().to_parts();
    sys::HybridParts {
        actor: parts.actor.0,
        last_wall: parts.last_wall,
        last_counter: parts.last_counter,
        max_drift_ms: parts.max_drift_ms,
    }
}

/// Its source stands at the time of the calls.
fn original_clock() -> HybridClock {
    HybridClock::new(ActorId(OWN), Box::new(ManualClock::new(NOW)))
}

fn wrapped(
    store: &mut Store,
    clock: &mut cuwelfra::HybridClock,
    batch: &[u8],
) -> Result<Report, Refusal> {
    store.apply_delta(clock, &Request::at(NOW), batch)
}

/// What the original's `Replica::apply_delta` does, but for its events; how many folds failed.
fn merge(
    merger: &mut Merger,
    log: &mut ReplicatedLog,
    clock: &mut HybridClock,
    operations: Vec<StampedOperation>,
) -> Result<(MergeReport, usize), MergeError> {
    let stamps: Vec<Timestamp> = operations.iter().map(|op| op.timestamp).collect();
    let report = merger.apply_remote_ops(&Always, &AllowAll, NOW, &mut Nothing, log, operations)?;
    Ok((report, fold(clock, &stamps)))
}

/// How many folds failed.
fn fold(clock: &mut HybridClock, stamps: &[Timestamp]) -> usize {
    let updates = stamps.iter().map(|stamp| clock.update(stamp));
    updates.filter(Result::is_err).count()
}

/// Wall and counter after the stamps, one call for each.
fn exported_folds(stamps: &[Timestamp]) -> (u64, u32) {
    let mut clock = parts();
    for stamp in stamps {
        let remote = (stamp.wall_time, stamp.logical_counter, stamp.actor_id.0);
        let updated = sys::hybrid_update(
            clock.actor,
            clock.last_wall,
            clock.last_counter,
            clock.max_drift_ms,
            remote,
            NOW,
        );
        clock.last_wall = updated.last_wall;
        clock.last_counter = updated.last_counter as u32;
    }
    (clock.last_wall, clock.last_counter)
}

/// Requires that both logs have the same rows in the same order.
pub fn same_log(store: &Store, log: &ReplicatedLog) -> Result<(), String> {
    let rows = store.logged().map_err(shown)?;
    if rows.iter().map(operation).ne(log.ops().iter().cloned()) {
        return Err(format!("the logs differ: {rows:?}, {:?}", log.ops()));
    }
    Ok(())
}

/// A verifier that costs nothing. The batch brings the answer to the port.
pub struct Always;

impl Verifier for Always {
    fn verify(&self, _: ActorId, _: &[u8], _: &[u8]) -> bool {
        true
    }
}

/// A state that costs nothing.
#[derive(Clone)]
pub struct Nothing;

impl CrdtCompatible for Nothing {
    fn apply(&mut self, _: &Timestamp, _: &UirNode) -> Result<(), ApplyError> {
        Ok(())
    }
}

/// The merger asks a state for `apply` alone.
impl State for Nothing {
    fn state_hash(&self) -> u64 {
        0
    }

    fn compact(&mut self, _: &Timestamp) {}

    fn encode_state(&self) -> Vec<u8> {
        Vec::new()
    }

    fn decode_state(_: &[u8]) -> Result<Self, SnapshotError> {
        Ok(Self)
    }
}
