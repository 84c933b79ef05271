//! Batches in document 01's layout.

use cuwelfra_sys as sys;

use crate::outcome::parts_of;
use crate::words::{part, within};
use crate::{Outcome, Refusal, Row, Slot, MAX_OP_BYTES};

/// Rows of a batch at most.
pub const MAX_BATCH: usize = 64;

/// A row, and what comes with it in a batch.
#[derive(Clone, Debug, PartialEq, Eq)]
pub struct BatchRow {
    /// The row.
    pub row: Row,
    /// The verifier's answer.
    pub verified: bool,
    /// That of policy and state.
    pub outcome: Outcome,
}

/// A batch in document 01's layout, row after row, each number in its shortest form: batches of equal rows, verdicts and
/// outcomes are equal bytes.
///
/// ```
/// use cuwelfra::{ActorId, ApplyError, Batch, Refusal, Row, Timestamp};
///
/// let first = Row::new(Timestamp::new(10, 0, ActorId(1)), 1, "Kette = chain");
/// let second = Row::new(Timestamp::new(20, 0, ActorId(1)), 2, "?");
/// let mut batch = Batch::new();
/// batch.push(&first, true, Ok(()))?;
/// batch.push(&second, true, Err(ApplyError::Denied))?;
/// assert_eq!(batch.len(), 2);
///
/// // A row that does not fit the layout is refused, and the batch stays as it was.
/// let long = Row::new(Timestamp::new(30, 0, ActorId(1)), 3, [0; 257]);
/// assert_eq!(batch.push(&long, true, Ok(())), Err(Refusal::OverCapacity));
///
/// let read = Batch::read(batch.bytes())?;
/// assert_eq!(read[0].row, first);
/// assert_eq!(read[1].outcome, Err(ApplyError::Denied));
///
/// // Bytes that came from elsewhere are a batch where they read as one.
/// assert_eq!(Batch::try_from(batch.as_ref()), Ok(batch));
/// assert_eq!(Batch::try_from(&[1][..]), Err(Refusal::Unreadable));
/// # Ok::<(), Refusal>(())
/// ```
#[derive(Clone, Debug, PartialEq, Eq)]
pub struct Batch(Vec<u8>);

impl Default for Batch {
    fn default() -> Self {
        Self::new()
    }
}

impl Batch {
    /// A batch without rows.
    pub fn new() -> Self {
        Self(vec![0])
    }

    /// Appends a row, with the verifier's answer and that of policy and state; 4 for a 65th row or a size above
    /// capacity, 3 for dependencies that do not rise.
    pub fn push(&mut self, row: &Row, verified: bool, outcome: Outcome) -> Result<(), Refusal> {
        if self.len() >= MAX_BATCH {
            return Err(Refusal::OverCapacity);
        }
        let mut bytes = [0; MAX_OP_BYTES];
        let len = Slot::logged(row)?.signed_op(&mut bytes)?;
        let (outcome, detail) = parts_of(outcome);
        self.0.extend_from_slice(part(&bytes, 0, len as u64)?);
        self.0.extend([u8::from(verified), outcome, detail]);
        // A count of at most 64 is a varint of one byte.
        if let Some(count) = self.0.first_mut() {
            *count += 1;
        }
        Ok(())
    }

    /// How many rows it has.
    pub fn len(&self) -> usize {
        self.0.first().copied().map_or(0, usize::from)
    }

    /// Whether it has no row.
    pub fn is_empty(&self) -> bool {
        self.len() == 0
    }

    /// Its bytes, for [`Store::apply_delta`](crate::Store::apply_delta).
    pub fn bytes(&self) -> &[u8] {
        &self.0
    }

    /// Its bytes, handed over.
    pub fn into_bytes(self) -> Vec<u8> {
        self.0
    }

    /// Reads the rows of a batch's bytes; 3 and 4 by the first fault.
    pub fn read(bytes: &[u8]) -> Result<Vec<BatchRow>, Refusal> {
        let count = sys::get_varint(bytes, 0);
        if Refusal::check(count.told).is_err() {
            return Err(Refusal::Unreadable);
        }
        let Ok(len) = within(count.value, MAX_BATCH) else {
            return Err(Refusal::OverCapacity);
        };
        let mut at = within(count.next, bytes.len())?;
        let mut rows = Vec::with_capacity(len);
        for _ in 0..len {
            let read = Slot::read(bytes, at)?;
            at = read.next;
            let held = read.slot.row()?;
            rows.push(BatchRow {
                row: held.row,
                verified: read.verdict,
                outcome: held.outcome,
            });
        }
        if at != bytes.len() {
            return Err(Refusal::Unreadable);
        }
        Ok(rows)
    }
}

impl AsRef<[u8]> for Batch {
    fn as_ref(&self) -> &[u8] {
        &self.0
    }
}

impl TryFrom<&[u8]> for Batch {
    type Error = Refusal;

    /// Takes a batch's bytes over where they read; 3 and 4 as [`Batch::read`]. They are then the bytes that pushing its
    /// rows makes.
    fn try_from(bytes: &[u8]) -> Result<Self, Refusal> {
        Self::read(bytes)?;
        Ok(Self(bytes.to_vec()))
    }
}

#[cfg(test)]
mod tests {
    use super::*;
    use crate::{ActorId, ApplyError, HybridClock, Request, Store, Timestamp};

    fn rows() -> Vec<BatchRow> {
        let outcomes = [
            Ok(()),
            Err(ApplyError::MalformedOp),
            Err(ApplyError::UnknownOpTag(200)),
            Err(ApplyError::Denied),
            Err(ApplyError::Invalid(3)),
        ];
        let row = |seq: u64| Row::new(Timestamp::new(100 * seq, 1, ActorId(1)), seq, "Kette");
        (1..)
            .zip(outcomes)
            .map(|(seq, outcome)| BatchRow {
                row: row(seq).needs(ActorId(300), seq).signed([7; 3]),
                verified: seq != 2,
                outcome,
            })
            .collect()
    }

    fn batch(rows: &[BatchRow]) -> Result<Batch, Refusal> {
        let mut batch = Batch::new();
        for row in rows {
            batch.push(&row.row, row.verified, row.outcome)?;
        }
        Ok(batch)
    }

    #[test]
    fn a_batch_gives_its_rows_back() -> Result<(), Refusal> {
        let rows = rows();
        let batch = batch(&rows)?;
        assert_eq!(batch.len(), 5);
        assert_eq!(Batch::read(batch.bytes()), Ok(rows));
        assert!(Batch::new().is_empty());
        assert_eq!(Batch::read(Batch::new().bytes()), Ok(vec![]));
        Ok(())
    }

    #[test]
    fn bytes_are_taken_over_as_they_are() -> Result<(), Refusal> {
        let batch = batch(&rows())?;
        let mut taken = Batch::try_from(batch.as_ref())?;
        assert_eq!(taken, batch);
        taken.push(&rows()[0].row, true, Ok(()))?;
        assert_eq!(Batch::read(taken.as_ref()).map(|rows| rows.len()), Ok(6));
        Ok(())
    }

    /// The count 5, the first wall time 100 and its counter 1, each in two bytes.
    #[test]
    fn a_batch_has_one_spelling() -> Result<(), Refusal> {
        let bytes = batch(&rows())?.into_bytes();
        assert_eq!(bytes[..3], [5, 100, 1]);
        for at in 0..3 {
            let longer = [&bytes[..at], &[bytes[at] | 0x80, 0], &bytes[at + 1..]].concat();
            assert_eq!(Batch::read(&longer), Err(Refusal::Unreadable));
            assert_eq!(Batch::try_from(&longer[..]), Err(Refusal::Unreadable));
        }
        Ok(())
    }

    #[test]
    fn the_65th_row_is_refused() -> Result<(), Refusal> {
        let rows = rows();
        let mut batch = batch(&vec![rows[0].clone(); MAX_BATCH])?;
        let full = batch.clone();
        let pushed = batch.push(&rows[0].row, true, Ok(()));
        assert_eq!(pushed, Err(Refusal::OverCapacity));
        assert_eq!(batch, full);
        assert_eq!(Batch::read(batch.bytes()).map(|rows| rows.len()), Ok(64));
        Ok(())
    }

    /// Reading refuses what the batch call refuses with 3 or 4, and nothing else.
    fn agrees_with_the_call(bytes: &[u8]) -> Result<(), Refusal> {
        let mut store = Store::with_capacity(64)?;
        let mut clock = HybridClock::new(ActorId(9));
        let called = store.apply_delta(&mut clock, &Request::at(u64::MAX), bytes);
        let unreadable = called
            .err()
            .filter(|refusal| (3..=4).contains(&refusal.number()));
        let read = Batch::read(bytes);
        assert_eq!(read.as_ref().err(), unreadable.as_ref(), "{bytes:02x?}");
        assert_eq!(Batch::try_from(bytes).err(), unreadable, "{bytes:02x?}");
        if let Ok(rows) = read {
            assert_eq!(batch(&rows)?.bytes(), bytes, "its rows, pushed");
        }
        Ok(())
    }

    #[test]
    fn damaged_batches_are_refused_as_the_call_refuses_them() -> Result<(), Refusal> {
        let bytes = batch(&rows())?.into_bytes();
        for at in 0..bytes.len() {
            agrees_with_the_call(&bytes[..at])?;
            for value in [0, 1, 2, 5, 65, 0x7f, 0x80, 0xff] {
                let mut damaged = bytes.clone();
                damaged[at] = value;
                agrees_with_the_call(&damaged)?;
            }
        }
        for tail in [&[0][..], &[0x80, 0]] {
            agrees_with_the_call(&[&bytes[..], tail].concat())?;
        }
        // Counts: overlong, 65 rows too, above 64 and above 64 bits.
        let counts: [&[u8]; 5] = [&[0x85, 0], &[0xc1, 0], &[65], &[0xff, 1], &[0xff; 11]];
        for count in counts {
            agrees_with_the_call(&[count, &bytes[1..]].concat())?;
        }
        Ok(())
    }
}
