//! The original's verifier, policy and state, which answer as a batch's closing bytes say, and its refusals.

use std::cell::{Cell, RefCell};
use std::sync::OnceLock;

use cuwelfra_sys::{DeltaTold, Told};
use oracle::clock::Timestamp;
use oracle::error::{ApplyError, MergeError, SnapshotError};
use oracle::merge::{MergeReport, OpPolicy};
use oracle::stubs::crypto::Verifier;
use oracle::stubs::{ActorId, CrdtCompatible, State, UirNode};

use crate::original::beside::stamp;
use crate::port::batches::{outcome_of, BatchRow};
use crate::port::rows::Stamp;

/// The verdicts of a batch. The original asks once for each row, in their order, up to the first fault.
pub struct Verdicts<'a> {
    rows: &'a [BatchRow],
    asked: Cell<usize>,
}

impl<'a> Verdicts<'a> {
    pub fn of(rows: &'a [BatchRow]) -> Self {
        let asked = Cell::new(0);
        Self { rows, asked }
    }
}

impl Verifier for Verdicts<'_> {
    fn verify(&self, actor: ActorId, _: &[u8], signature: &[u8]) -> bool {
        let lent = &self.rows[self.asked.replace(self.asked.get() + 1)];
        let row = &lent.row;
        assert_eq!((actor.0, signature), (row.author, &row.signature[..]));
        lent.verdict == 1
    }
}

/// Policy and state look the outcome up by author and payload: the policy has outcomes 3 and 4, the state 1 and 2. The
/// policy keeps the authors of the rows that it is asked about: all that are logged and not stale, in logging order.
#[derive(Default)]
pub struct Outcomes {
    pub asked: RefCell<Vec<u64>>,
}

impl OpPolicy for Outcomes {
    fn check(&self, author: ActorId, op: &UirNode) -> Result<(), ApplyError> {
        self.asked.borrow_mut().push(author.0);
        match outcome_of(author.0, &op.bytes) {
            (3, _) => Err(ApplyError::Denied),
            (4, text) => Err(ApplyError::Invalid(texts()[text as usize])),
            _ => Ok(()),
        }
    }
}

/// A state that keeps the stamps of what was applied.
#[derive(Clone, Debug, Default)]
pub struct Applied {
    pub stamps: Vec<Stamp>,
}

impl CrdtCompatible for Applied {
    fn apply(&mut self, at: &Timestamp, op: &UirNode) -> Result<(), ApplyError> {
        match outcome_of(at.actor_id.0, &op.bytes) {
            (1, _) => Err(ApplyError::MalformedOp),
            (2, tag) => Err(ApplyError::UnknownOpTag(tag as u8)),
            _ => {
                self.stamps.push(stamp(at));
                Ok(())
            }
        }
    }
}

/// The merger asks a state for `apply` alone.
impl State for Applied {
    fn state_hash(&self) -> u64 {
        0
    }

    fn compact(&mut self, _: &Timestamp) {}

    fn encode_state(&self) -> Vec<u8> {
        Vec::new()
    }

    fn decode_state(_: &[u8]) -> Result<Self, SnapshotError> {
        Err(SnapshotError::Malformed)
    }
}

/// The reasons of outcome 4: a text for each number.
fn texts() -> &'static [&'static str] {
    static TEXTS: OnceLock<Vec<&'static str>> = OnceLock::new();
    TEXTS.get_or_init(|| (0..256).map(|n| &*n.to_string().leak()).collect())
}

/// Fate and detail of a row that policy or state refused.
pub fn rejected_fate(error: &ApplyError) -> (u8, u8) {
    match error {
        ApplyError::MalformedOp => (2, 0),
        ApplyError::UnknownOpTag(tag) => (3, *tag),
        ApplyError::Denied => (4, 0),
        ApplyError::Invalid(text) => (5, text.parse().expect("a text's number")),
    }
}

/// The counts that the original reports; it has none of expired and dropped rows.
pub fn reported(report: &MergeReport) -> DeltaTold {
    DeltaTold {
        applied: report.applied as u64,
        stale: report.stale as u64,
        rejected: report.rejected.len() as u64,
        duplicates: report.duplicates as u64,
        held: report.buffered as u64,
        ..DeltaTold::default()
    }
}

/// Document 01's number and values of a merge error.
pub fn merge_told(error: &MergeError) -> Told {
    let (number, first, second) = match error {
        MergeError::Malformed { actor, seq, reason } => (malformed(reason), actor.0, *seq),
        MergeError::BadTimestamp { actor, seq } => (11, actor.0, *seq),
        MergeError::BadSignature { actor, seq } => (12, actor.0, *seq),
        MergeError::Conflict { actor, seq } => (13, actor.0, *seq),
        MergeError::PendingOverflow { limit } => (14, *limit as u64, 0),
        MergeError::PendingBytesExceeded { limit } => (15, *limit as u64, 0),
        MergeError::PendingActorOverflow { actor, limit } => (16, *limit as u64, actor.0),
    };
    Told {
        number,
        first,
        second,
    }
}

fn malformed(reason: &str) -> u64 {
    match reason {
        "sequence number is zero" => 5,
        "timestamp actor does not match author" => 6,
        "logical counter at limit" => 7,
        "payload too large" => 8,
        "too many dependencies" => 9,
        "dependency on own future operation" => 10,
        _ => panic!("document 01 has no refusal for: {reason}"),
    }
}
