//! The original's replica: its merger, log, state and clock, driven as a store of the port is.

use std::cell::RefCell;
use std::collections::VecDeque;
use std::rc::Rc;

use cuwelfra_sys::{DeltaTold, Told};
use oracle::clock::ManualClock;
use oracle::engine::{Event, LogImage, Replica, ReplicaConfig};
use oracle::error::{ClockError, EngineError, FrameError};
use oracle::log::ReplicatedLog;
use oracle::merge::MergeReport;
use oracle::stubs::crypto::{Signature, Signer, Verifier};
use oracle::stubs::{ActorId, UirNode};

use crate::original::beside::{operation, row, timestamp};
use crate::original::judges::{merge_told, rejected_fate, reported, Applied, Outcomes};
use crate::port::batches::{Folds, Offer};
use crate::port::rows::{Row, Stamp};

pub struct Driven {
    /// `None` only while settings change.
    replica: Option<Replica<Applied>>,
    time: ManualClock,
    verdicts: Verdicts,
}

/// What the verifier answers, row by row.
#[derive(Clone, Default)]
struct Verdicts(Rc<RefCell<VecDeque<bool>>>);

impl Verifier for Verdicts {
    fn verify(&self, _: ActorId, _: &[u8], _: &[u8]) -> bool {
        let next = self.0.borrow_mut().pop_front();
        next.expect("asked once for each row")
    }
}

/// Signs with so many bytes.
#[derive(Clone, Copy)]
pub struct Signing(pub usize);

impl Signer for Signing {
    fn sign(&self, message: &[u8]) -> Signature {
        let byte = |i: usize| message[i % message.len()] ^ i as u8;
        (0..self.0).map(byte).collect()
    }
}

/// What a replica is restored from beside a log, and the time then.
#[derive(Clone, Copy)]
pub struct Restoring {
    pub author: u64,
    pub floor: Option<Stamp>,
    /// The number last issued.
    pub issued: u64,
    pub time: u64,
    pub signing: Signing,
}

/// What a replica makes of a batch.
#[derive(Debug, PartialEq, Eq)]
pub struct Ran {
    /// The counts without expired and dropped rows, which it does not count, and without its clock, which it does not tell.
    pub told: DeltaTold,
    /// Author, sequence, fate and detail of the rejected rows, which it raises as events.
    pub rejected: Vec<(u64, u64, u8, u8)>,
    /// What became of the stamps: it raises an event for each that could not be folded into its clock.
    pub folds: Folds,
}

impl Driven {
    /// Restored from a log's rows and its compacted clock; `None` where a stamp cannot be folded into the clock.
    pub fn restored(log: &ReplicatedLog, from: Restoring) -> Option<Self> {
        let own = ActorId(from.author);
        let time = ManualClock::new(from.time);
        let verdicts = Verdicts::default();
        // Each goes before its equals, so the last comes first.
        let ops = log.ops().iter().rev().cloned();
        let image = LogImage {
            ops: ops.collect(),
            compacted: log.compacted().clone(),
            floor: from.floor.map(timestamp),
            state_hash: 0,
            issued: from.issued,
        };
        let replica = Replica::restore(
            own,
            Applied::default(),
            image,
            Box::new(from.signing),
            Box::new(verdicts.clone()),
            Box::new(time.clone()),
        );
        let replica = replica.ok()?;
        Some(Self {
            replica: Some(replica.with_policy(Box::new(Outcomes::default()))),
            time,
            verdicts,
        })
    }

    fn replica(&mut self) -> &mut Replica<Applied> {
        self.replica.as_mut().expect("a replica")
    }

    pub fn log(&mut self) -> &ReplicatedLog {
        self.replica().log()
    }

    /// The number last issued.
    pub fn issued(&mut self) -> u64 {
        self.replica().export_log().issued
    }

    /// A row of its own at a time.
    pub fn local_op(&mut self, time: u64, payload: &[u8]) -> Result<Row, EngineError> {
        self.time.set(time);
        let bytes = payload.to_vec();
        let answer = self.replica().local_op(UirNode { bytes });
        assert_eq!(self.replica().drain_events(), [], "without peers");
        answer.map(|operation| row(&operation))
    }

    /// How many rows wait.
    pub fn pending(&mut self) -> usize {
        self.replica().stats().pending
    }

    /// Hands a batch to `apply_delta`, through `import_ops`, which does nothing else.
    pub fn apply(&mut self, offer: &Offer) -> Ran {
        let limits = &offer.limits;
        let config = ReplicaConfig {
            max_pending: limits.max_pending as usize,
            max_pending_per_actor: limits.max_pending_per_actor as usize,
            max_pending_bytes: limits.max_pending_bytes as usize,
            max_pending_age_ms: limits.max_pending_age_ms,
            max_drift_ms: limits.max_drift_ms,
            ..ReplicaConfig::default()
        };
        let replica = self.replica.take();
        self.replica = replica.map(|replica| replica.with_config(config));
        self.time.set(offer.time);
        let verdicts = offer.rows.iter().map(|lent| lent.verdict == 1);
        self.verdicts.0.replace(verdicts.collect());
        let ops = offer.rows.iter().map(|lent| operation(&lent.row));
        let answer = self.replica().import_ops(ops.collect());
        let events = self.replica().drain_events();
        let mut ran = Ran {
            told: told(answer),
            rejected: Vec::new(),
            folds: Folds::default(),
        };
        for event in &events {
            ran.note(event);
        }
        if ran.told.told == Told::default() {
            ran.folds.passed = offer.rows.len() as u64 - ran.told.failed_folds;
        }
        ran
    }
}

impl Ran {
    fn note(&mut self, event: &Event) {
        match event {
            Event::OpRejected { actor, seq, error } => {
                let (fate, detail) = rejected_fate(error);
                self.rejected.push((actor.0, *seq, fate, detail));
            }
            Event::ClockFoldFailed(error) => {
                self.told.failed_folds += 1;
                match error {
                    ClockError::RemoteTooFarAhead { .. } => self.folds.ahead += 1,
                    ClockError::CounterOverflow => self.folds.overflowed += 1,
                }
            }
            other => panic!("a batch raises no such event: {other:?}"),
        }
    }
}

fn told(answer: Result<MergeReport, FrameError>) -> DeltaTold {
    match answer {
        Ok(report) => reported(&report),
        Err(FrameError::Merge(error)) => DeltaTold {
            told: merge_told(&error),
            ..DeltaTold::default()
        },
        Err(error) => panic!("no refusal of a batch: {error:?}"),
    }
}
