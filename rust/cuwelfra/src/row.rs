//! Rows, and the slots that they stand in.

use cuwelfra_sys as sys;

use crate::clock::pairs;
use crate::codec::next;
use crate::outcome::{outcome_of, parts_of};
use crate::words::{flag, part, set_bytes, set_word, size, within, word};
use crate::{ActorId, Outcome, Refusal, Timestamp};

/// Bytes of a slot.
pub const SLOT_BYTES: usize = 704;
/// Dependencies of a row at most.
pub const MAX_DEPS: usize = 16;
/// Payload bytes of a row at most.
pub const MAX_PAYLOAD: usize = 256;
/// Signature bytes of a row at most.
pub const MAX_SIGNATURE: usize = 64;
/// Bytes that are signed of a row at most.
pub const MAX_UNSIGNED_BYTES: usize = 624;
/// Bytes that hold any row as [`Slot::signed_op`] writes it.
pub const MAX_OP_BYTES: usize = 704;

const DEPS_LEN: usize = 40;
const PAYLOAD_LEN: usize = 48;
const SIGNATURE_LEN: usize = 56;
const ARRIVAL: usize = 64;
const OUTCOME: usize = 72;
const DETAIL: usize = 80;
const DEPS: usize = 128;
pub(crate) const STAMP_BYTES: usize = 24;
pub(crate) const PAYLOAD: usize = 384;
const SIGNATURE: usize = 640;

/// An operation with its stamp, author, sequence and dependencies.
///
/// ```
/// use cuwelfra::{ActorId, Refusal, Row, Timestamp};
///
/// // Author 1's third row, which needs author 2's first.
/// let row = Row::new(Timestamp::new(1_030, 0, ActorId(1)), 3, "Kette = chain").needs(ActorId(2), 1);
/// assert_eq!(row.actor, ActorId(1));
/// // What its author signs: 1,030 as a varint, counter, authors, sequence, one dependency and the payload.
/// let bytes = row.signing_bytes()?;
/// assert_eq!(bytes[..9], [0x86, 0x08, 0, 1, 1, 3, 1, 2, 1]);
/// assert_eq!(bytes[9..], *b"\x0dKette = chain");
/// # Ok::<(), Refusal>(())
/// ```
#[derive(Clone, Debug, PartialEq, Eq, Hash)]
pub struct Row {
    /// The stamp.
    pub timestamp: Timestamp,
    /// The author, who must be the stamp's.
    pub actor: ActorId,
    /// The author's number for it, from 1.
    pub seq: u64,
    /// Authors, strictly rising, and how far each must be logged before this row.
    pub deps: Vec<(ActorId, u64)>,
    /// The operation.
    pub payload: Vec<u8>,
    /// The author's signature over [`Row::signing_bytes`].
    pub signature: Vec<u8>,
}

impl Row {
    /// A row of the stamp's author, without dependencies and not signed.
    pub fn new(timestamp: Timestamp, seq: u64, payload: impl Into<Vec<u8>>) -> Self {
        Self {
            timestamp,
            actor: timestamp.actor_id,
            seq,
            deps: Vec::new(),
            payload: payload.into(),
            signature: Vec::new(),
        }
    }

    /// The row with one more dependency, on a greater author than those before.
    #[must_use]
    pub fn needs(mut self, actor: ActorId, seq: u64) -> Self {
        self.deps.push((actor, seq));
        self
    }

    /// The row with this signature.
    #[must_use]
    pub fn signed(mut self, signature: impl Into<Vec<u8>>) -> Self {
        self.signature = signature.into();
        self
    }

    /// What its author signs: all of it but the signature; 4 for a size above capacity, 3 for dependencies that do not
    /// rise.
    pub fn signing_bytes(&self) -> Result<Vec<u8>, Refusal> {
        let mut bytes = vec![0; MAX_OP_BYTES];
        let len = Slot::logged(self)?.unsigned_op(&mut bytes)?;
        bytes.truncate(len);
        Ok(bytes)
    }
}

/// A row with its arrival and what came with it in its batch. A logged row has arrival 0 and fits.
#[derive(Clone, Debug, PartialEq, Eq)]
#[non_exhaustive]
pub struct HeldRow {
    /// The row.
    pub row: Row,
    /// When it arrived, in ms.
    pub arrived_ms: u64,
    /// What policy and state said of it.
    pub outcome: Outcome,
}

impl HeldRow {
    /// The row, when it arrived, in ms, and what policy and state said of it.
    pub fn new(row: Row, arrived_ms: u64, outcome: Outcome) -> Self {
        Self {
            row,
            arrived_ms,
            outcome,
        }
    }
}

/// A slot that was read from a batch.
#[derive(Clone, Debug, PartialEq, Eq)]
pub struct SlotRead {
    /// The slot, with arrival 0.
    pub slot: Slot,
    /// The verifier's answer.
    pub verdict: bool,
    /// The position past the row.
    pub next: usize,
}

/// A row in its slot of 704 bytes.
///
/// ```
/// use cuwelfra::{ActorId, Refusal, Row, Slot, Timestamp};
///
/// let row = Row::new(Timestamp::new(10, 0, ActorId(1)), 1, "Kette = chain");
/// let slot = Slot::logged(&row)?;
/// assert_eq!(slot.row()?.row, row);
///
/// // Bytes 88 to 127 of a slot are zero.
/// let mut area = *slot.area();
/// area[90] = 1;
/// assert_eq!(Slot::from_area(area).row(), Err(Refusal::UnsoundStore));
/// # Ok::<(), Refusal>(())
/// ```
#[derive(Clone, Debug, PartialEq, Eq)]
pub struct Slot([u8; SLOT_BYTES]);

impl Slot {
    /// The slot of a logged row; 4 for a size above capacity, 3 for dependencies that do not rise.
    pub fn logged(row: &Row) -> Result<Self, Refusal> {
        if row.deps.len() > MAX_DEPS
            || row.payload.len() > MAX_PAYLOAD
            || row.signature.len() > MAX_SIGNATURE
        {
            return Err(Refusal::OverCapacity);
        }
        if !row.deps.is_sorted_by(|one, next| one.0 < next.0) {
            return Err(Refusal::Unreadable);
        }
        let mut area = [0; SLOT_BYTES];
        let scalars = [
            row.timestamp.wall_time,
            u64::from(row.timestamp.logical_counter),
            row.timestamp.actor_id.0,
            row.actor.0,
            row.seq,
            row.deps.len() as u64,
            row.payload.len() as u64,
            row.signature.len() as u64,
        ];
        for (i, scalar) in scalars.into_iter().enumerate() {
            set_word(&mut area, 8 * i, scalar);
        }
        for (i, (author, number)) in row.deps.iter().enumerate() {
            set_word(&mut area, DEPS + 16 * i, author.0);
            set_word(&mut area, DEPS + 16 * i + 8, *number);
        }
        set_bytes(&mut area, PAYLOAD, &row.payload);
        set_bytes(&mut area, SIGNATURE, &row.signature);
        Ok(Self(area))
    }

    /// The slot of a held row; 4 and 3 as for a logged one.
    pub fn held(held: &HeldRow) -> Result<Self, Refusal> {
        let mut slot = Self::logged(&held.row)?;
        let (outcome, detail) = parts_of(held.outcome);
        set_word(&mut slot.0, ARRIVAL, held.arrived_ms);
        set_word(&mut slot.0, OUTCOME, u64::from(outcome));
        set_word(&mut slot.0, DETAIL, u64::from(detail));
        Ok(slot)
    }

    /// Takes over a slot. The calls refuse one that does not read, with 1.
    pub fn from_area(area: [u8; SLOT_BYTES]) -> Self {
        Self(area)
    }

    /// The area.
    pub fn area(&self) -> &[u8; SLOT_BYTES] {
        &self.0
    }

    /// The row; 1 where the slot does not read.
    pub fn row(&self) -> Result<HeldRow, Refusal> {
        let read = row_in(&self.0)?;
        match Self::held(&read) {
            Ok(slot) if slot == *self => Ok(read),
            _ => Err(Refusal::UnsoundStore),
        }
    }

    /// Writes what is signed at the start of `out` and gives its length; 1, 2.
    pub fn unsigned_op(&self, out: &mut [u8]) -> Result<usize, Refusal> {
        next(sys::unsigned_op(&self.0, out), out.len())
    }

    /// The same with the signature; 1, 2.
    pub fn signed_op(&self, out: &mut [u8]) -> Result<usize, Refusal> {
        next(sys::signed_op(&self.0, out), out.len())
    }

    /// Reads the batch row at `at`; 3, 4.
    pub fn read(batch: &[u8], at: usize) -> Result<SlotRead, Refusal> {
        let mut area = [0; SLOT_BYTES];
        let read = sys::read_op(batch, at, &mut area);
        slot_read(read, area, batch.len())
    }
}

/// What was read of a batch of so many bytes.
fn slot_read(read: sys::OpTold, area: [u8; SLOT_BYTES], batch: usize) -> Result<SlotRead, Refusal> {
    Refusal::check(read.told)?;
    Ok(SlotRead {
        slot: Slot(area),
        verdict: flag(read.verdict)?,
        next: within(read.next, batch)?,
    })
}

/// The row in a slot; 1 where a number has no place in a row. That the slot is that row's is not tested.
pub(crate) fn row_in(area: &[u8; SLOT_BYTES]) -> Result<HeldRow, Refusal> {
    read(area).ok_or(Refusal::UnsoundStore)
}

/// Author and sequence of the row in a slot.
pub(crate) fn number_in(area: &[u8; SLOT_BYTES]) -> (ActorId, u64) {
    (ActorId(word(area, 24)), word(area, 32))
}

/// The bytes of the stamp in a slot. Stamps are in the order of their bytes.
pub(crate) fn stamp_in(area: &[u8; SLOT_BYTES]) -> Option<&[u8; STAMP_BYTES]> {
    area.first_chunk()
}

fn read(area: &[u8; SLOT_BYTES]) -> Option<HeldRow> {
    let bytes = |at: usize, len_at: usize| {
        let bytes = part(area, at as u64, word(area, len_at)).ok()?;
        Some(bytes.to_vec())
    };
    let deps = size(word(area, DEPS_LEN));
    let timestamp = Timestamp::new(
        word(area, 0),
        u32::try_from(word(area, 8)).ok()?,
        ActorId(word(area, 16)),
    );
    let (actor, seq) = number_in(area);
    let row = Row {
        timestamp,
        actor,
        seq,
        deps: (deps <= MAX_DEPS).then(|| pairs(area, DEPS, deps).collect())?,
        payload: bytes(PAYLOAD, PAYLOAD_LEN)?,
        signature: bytes(SIGNATURE, SIGNATURE_LEN)?,
    };
    let outcome = u8::try_from(word(area, OUTCOME)).ok()?;
    let detail = u8::try_from(word(area, DETAIL)).ok()?;
    Some(HeldRow {
        row,
        arrived_ms: word(area, ARRIVAL),
        outcome: outcome_of(outcome, detail)?,
    })
}

#[cfg(test)]
mod tests {
    use super::*;
    use crate::ApplyError;

    /// A row of the largest sizes.
    fn largest() -> Row {
        let row = Row::new(Timestamp::new(u64::MAX, u32::MAX, ActorId(5)), 7, [1; 256]);
        let needs = |row: Row, i| row.needs(ActorId(i), u64::MAX - i);
        (0..16).fold(row, needs).signed([2; 64])
    }

    #[test]
    fn a_slot_gives_its_row_back() -> Result<(), Refusal> {
        let outcomes = [
            Ok(()),
            Err(ApplyError::MalformedOp),
            Err(ApplyError::UnknownOpTag(0)),
            Err(ApplyError::UnknownOpTag(255)),
            Err(ApplyError::Denied),
            Err(ApplyError::Invalid(9)),
        ];
        for row in [Row::new(Timestamp::new(0, 0, ActorId(0)), 0, ""), largest()] {
            for outcome in outcomes {
                let held = HeldRow::new(row.clone(), 3, outcome);
                assert_eq!(Slot::held(&held)?.row(), Ok(held));
            }
        }
        Ok(())
    }

    #[test]
    fn verdicts_and_positions_are_read_strictly() {
        let told = |next, verdict| {
            let told = sys::Told::default();
            let read = sys::OpTold {
                told,
                next,
                verdict,
            };
            slot_read(read, [0; SLOT_BYTES], 9).map(|read| (read.next, read.verdict))
        };
        assert_eq!((told(9, 0), told(3, 1)), (Ok((9, false)), Ok((3, true))));
        for (next, verdict) in [(9, 2), (9, u64::MAX), (10, 1)] {
            assert_eq!(told(next, verdict), Err(Refusal::MisfitAnswer));
        }
    }

    #[test]
    fn what_fits_no_slot_is_refused() {
        let row = largest();
        let mut payload = row.clone();
        payload.payload.push(0);
        let mut signature = row.clone();
        signature.signature.push(0);
        let deps = row.clone().needs(ActorId(16), 0);
        for row in [payload, signature, deps] {
            assert_eq!(Slot::logged(&row), Err(Refusal::OverCapacity));
        }
        let mut twice = row;
        twice.deps.truncate(1);
        let twice = twice.needs(ActorId(0), 0);
        assert_eq!(Slot::logged(&twice), Err(Refusal::Unreadable));
    }

    #[test]
    fn a_slot_that_is_no_rows_does_not_read() -> Result<(), Refusal> {
        let slot = Slot::logged(&Row::new(Timestamp::new(1, 2, ActorId(3)), 4, "abc"))?;
        // A counter of 33 bits, sizes above capacity, outcomes and details, and bytes that are not used.
        let damages = [
            (8, 1 << 32),
            (40, 17),
            (48, 257),
            (48, 2),
            (48, u64::MAX),
            (56, 65),
            (72, 5),
            (72, 1 << 8),
            (80, 1),
            (88, 1),
            (128, 1),
            (696, 1),
        ];
        for (at, value) in damages {
            let mut area = *slot.area();
            set_word(&mut area, at, value);
            let read = Slot::from_area(area).row();
            assert_eq!(read, Err(Refusal::UnsoundStore), "{value} at {at}");
        }
        Ok(())
    }
}
