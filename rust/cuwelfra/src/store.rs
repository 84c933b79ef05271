//! The store: logged rows, held rows, clocks, watermarks and floor.

use std::fmt;

use cuwelfra_sys as sys;

use crate::clock::number;
use crate::fates::Fates;
use crate::row::{row_in, stamp_in, PAYLOAD, STAMP_BYTES};
use crate::words::{flag, part, size, small, within, word};
use crate::{ActorId, Fate, HeldRow, Logged, Refusal, Row, Slot, Timestamp, VectorClock};
use crate::{CLOCK_BYTES, MAX_AUTHORS, MAX_PAYLOAD, SLOT_BYTES};

/// Rows of a log at most.
pub const MAX_LOGGED: usize = 1_024;
/// Held rows at most.
pub const MAX_HELD: usize = 64;
/// Bytes of a held area.
pub const HELD_BYTES: usize = MAX_HELD * SLOT_BYTES;
/// Bytes of a head area.
pub const HEAD_BYTES: usize = 2_120;
/// Bytes of scratch that a batch call needs for each held and batch row.
pub const SCRATCH_BYTES: usize = 704;

/// Where the head counts its watermarks, which follow.
const WATERMARKS: usize = 1_088;

/// A store in three areas: logged rows, held rows, and the head with counts, floor, clocks and watermarks.
///
/// Every call refuses short areas, with 2, and all but [`Store::rebuild`] those that break the rules, with 1. A
/// refusal leaves the store. Stores are equal when their areas are; [`Store::fates`], which it keeps beside them, are not
/// compared.
///
/// ```
/// use cuwelfra::{ActorId, Batch, HybridClock, Refusal, Request, Row, Store, Timestamp};
///
/// let mut store = Store::with_capacity(16)?;
/// let mut clock = HybridClock::new(ActorId(3));
///
/// // Author 2's first row needs author 1's first, which is not here yet: it waits.
/// let answer = Row::new(Timestamp::new(20, 0, ActorId(2)), 1, "Kette = chain").needs(ActorId(1), 1);
/// let mut batch = Batch::new();
/// batch.push(&answer, true, Ok(()))?;
/// let report = store.apply_delta(&mut clock, &Request::at(1_000), &batch)?;
/// assert_eq!((report.applied, report.held), (0, 1));
/// assert_eq!(store.held()?[0].row, answer);
///
/// // With it both are logged.
/// let question = Row::new(Timestamp::new(10, 0, ActorId(1)), 1, "Kette = ?");
/// let mut batch = Batch::new();
/// batch.push(&question, true, Ok(()))?;
/// let report = store.apply_delta(&mut clock, &Request::at(1_001), &batch)?;
/// assert_eq!((report.applied, report.held), (2, 0));
/// assert_eq!(report.logged[1].actor, ActorId(2));
/// assert_eq!(store.logged()?, [question, answer]);
/// assert_eq!(store.clock()?.get(ActorId(2)), Ok(1));
/// # Ok::<(), Refusal>(())
/// ```
#[derive(Clone)]
pub struct Store {
    log: Vec<u8>,
    held: Vec<u8>,
    head: Vec<u8>,
    /// Lent to batch calls, which leave it zero.
    scratch: Vec<u8>,
    fates: Fates,
}

impl PartialEq for Store {
    fn eq(&self, other: &Self) -> bool {
        self.areas() == other.areas()
    }
}

impl Eq for Store {}

impl fmt::Debug for Store {
    /// The counts, or why there are none.
    fn fmt(&self, f: &mut fmt::Formatter<'_>) -> fmt::Result {
        f.debug_struct("Store")
            .field("capacity", &self.capacity())
            .field("logged", &self.logged_len())
            .field("held", &self.held_len())
            .finish_non_exhaustive()
    }
}

/// Where a row stands.
#[derive(Clone, Copy, Debug, PartialEq, Eq)]
pub enum Place {
    /// In this slot of the log.
    Logged(usize),
    /// In this slot of the held rows.
    Held(usize),
}

/// A row that was looked up.
#[derive(Clone, Copy, Debug, PartialEq, Eq)]
pub struct Found<'a> {
    /// Where it stands.
    pub place: Place,
    /// Its payload, as part of that area.
    pub payload: &'a [u8],
}

impl Store {
    /// An empty store whose log takes so many rows; 2 for none, 4 for more than 1,024.
    pub fn with_capacity(rows: usize) -> Result<Self, Refusal> {
        match rows {
            0 => Err(Refusal::ShortArea),
            1..=MAX_LOGGED => Ok(Self::from_areas(
                vec![0; rows * SLOT_BYTES],
                vec![0; HELD_BYTES],
                vec![0; HEAD_BYTES],
            )),
            _ => Err(Refusal::OverCapacity),
        }
    }

    /// Takes over three areas, as [`Store::areas`] gave them. [`Store::check`] says whether they keep the rules. What
    /// became of the logged rows is not in them, so that [`Store::fates`] knows none.
    ///
    /// ```
    /// use cuwelfra::{Refusal, Store, HEAD_BYTES, HELD_BYTES, SLOT_BYTES};
    ///
    /// // Areas of zeros are the empty store.
    /// let (log, held, head) = (vec![0; 16 * SLOT_BYTES], vec![0; HELD_BYTES], vec![0; HEAD_BYTES]);
    /// let store = Store::from_areas(log, held, head);
    /// assert_eq!(store, Store::with_capacity(16)?);
    /// assert_eq!(store.check(), Ok(()));
    ///
    /// // One row counted, none there.
    /// let (log, held, mut head) = store.into_areas();
    /// head[7] = 1;
    /// let damaged = Store::from_areas(log, held, head);
    /// assert_eq!(damaged.check(), Err(Refusal::UnsoundStore));
    /// # Ok::<(), Refusal>(())
    /// ```
    pub fn from_areas(log: Vec<u8>, held: Vec<u8>, head: Vec<u8>) -> Self {
        Self {
            log,
            held,
            head,
            scratch: Vec::new(),
            fates: Fates::default(),
        }
    }

    /// The same store, with what became of its logged rows.
    pub(crate) fn with_fates(self, fates: Vec<Option<Fate>>) -> Self {
        Self {
            fates: Fates::new(fates),
            ..self
        }
    }

    /// The three areas: log, held, head.
    pub fn areas(&self) -> (&[u8], &[u8], &[u8]) {
        (&self.log, &self.held, &self.head)
    }

    /// Hands the three areas back: log, held, head. What became of the logged rows is not in them.
    pub fn into_areas(self) -> (Vec<u8>, Vec<u8>, Vec<u8>) {
        (self.log, self.held, self.head)
    }

    pub(crate) fn lent(&self) -> sys::Areas<'_> {
        sys::Areas {
            log: &self.log,
            held: &self.held,
            head: &self.head,
        }
    }

    /// The areas, and scratch for so many rows. It grows and is lent again, so that a call clears no more than it uses.
    pub(crate) fn lent_mut(&mut self, rows: usize) -> (sys::AreasMut<'_>, &mut [u8]) {
        let needed = rows * SCRATCH_BYTES;
        if self.scratch.len() < needed {
            self.scratch.resize(needed, 0);
        }
        let areas = sys::AreasMut {
            log: &mut self.log,
            held: &mut self.held,
            head: &mut self.head,
        };
        let scratch = self.scratch.get_mut(..needed).unwrap_or_default();
        (areas, scratch)
    }

    /// How many rows the log has room for, those that it has included.
    pub fn capacity(&self) -> usize {
        (self.log.len() / SLOT_BYTES).min(MAX_LOGGED)
    }

    /// Makes the store anew, whatever it held: these logged rows, inserted one after the other, above this compacted
    /// clock, with no held row and no floor; 1, 17, 18.
    ///
    /// This is the original's `from_parts`.
    ///
    /// ```
    /// use cuwelfra::{ActorId, Refusal, Row, Slot, Store, Timestamp, VectorClock};
    ///
    /// let row = Row::new(Timestamp::new(10, 0, ActorId(1)), 1, "Kette = chain");
    /// let mut store = Store::with_capacity(16)?;
    /// store.insert(&Slot::logged(&row)?)?;
    /// let kept = store.logged()?;
    ///
    /// // Each row goes before its equals, so the last comes first.
    /// let slots = kept.iter().rev().map(Slot::logged).collect::<Result<Vec<_>, _>>()?;
    /// let mut again = Store::with_capacity(16)?;
    /// again.rebuild(&slots, &store.compacted()?)?;
    /// assert_eq!(again, store);
    /// # Ok::<(), Refusal>(())
    /// ```
    pub fn rebuild(&mut self, rows: &[Slot], compacted: &VectorClock) -> Result<(), Refusal> {
        let parts: Vec<[u8; SLOT_BYTES]> = rows.iter().map(|slot| *slot.area()).collect();
        Refusal::check(sys::from_parts(
            &mut self.log,
            &mut self.held,
            &mut self.head,
            parts.as_flattened(),
            rows.len(),
            compacted.area(),
        ))?;
        self.fates = Fates::default();
        Ok(())
    }

    /// Whether the areas keep the rules; 2, 1.
    pub fn check(&self) -> Result<(), Refusal> {
        Refusal::check(sys::store_check(self.lent()))
    }

    /// How many rows are logged.
    pub fn logged_len(&self) -> Result<usize, Refusal> {
        number(sys::log_len(self.lent())).and_then(small)
    }

    /// How many rows are held.
    pub fn held_len(&self) -> Result<usize, Refusal> {
        number(sys::pending_len(self.lent())).and_then(small)
    }

    /// The logged rows, in log order.
    pub fn logged(&self) -> Result<Vec<Row>, Refusal> {
        self.logged_slots()?.iter().map(logged_row).collect()
    }

    /// The held rows, by stamp, author and sequence.
    pub fn held(&self) -> Result<Vec<HeldRow>, Refusal> {
        self.held_slots()?.iter().map(row_in).collect()
    }

    /// The logged row at a position, `None` past the last. [`Store::logged`] gives all of them after one test of the
    /// store.
    pub fn logged_at(&self, position: usize) -> Result<Option<Row>, Refusal> {
        let slots = self.logged_slots()?;
        slots.get(position).map(logged_row).transpose()
    }

    /// The held row at a position, `None` past the last. [`Store::held`] gives all of them after one test of the store.
    pub fn held_at(&self, position: usize) -> Result<Option<HeldRow>, Refusal> {
        let slots = self.held_slots()?;
        slots.get(position).map(row_in).transpose()
    }

    fn logged_slots(&self) -> Result<&[[u8; SLOT_BYTES]], Refusal> {
        first_slots(&self.log, self.logged_len()?)
    }

    fn held_slots(&self) -> Result<&[[u8; SLOT_BYTES]], Refusal> {
        first_slots(&self.held, self.held_len()?)
    }

    /// What became of each logged row, in log order; `None` where that is not known.
    ///
    /// It is known of the rows that [`Store::apply_delta`] logged, and stays with them, also in a file; a row that
    /// [`Store::seal`] logged is applied. It is not known of rows that came by [`Store::insert`], [`Store::rebuild`] or
    /// [`Store::from_areas`].
    ///
    /// ```
    /// use cuwelfra::{ActorId, ApplyError, Batch, Fate, HybridClock, Refusal, Request, Row, Slot, Store, Timestamp};
    ///
    /// let row = |wall_time, seq, text: &str| Row::new(Timestamp::new(wall_time, 0, ActorId(1)), seq, text);
    /// let mut batch = Batch::new();
    /// batch.push(&row(10, 1, "Kette = chain"), true, Ok(()))?;
    /// batch.push(&row(30, 2, "Kette = necklace"), true, Err(ApplyError::Denied))?;
    /// let mut store = Store::with_capacity(16)?;
    /// store.apply_delta(&mut HybridClock::new(ActorId(2)), &Request::at(1_000), &batch)?;
    /// let denied = Fate::Rejected(ApplyError::Denied);
    /// assert_eq!(store.fates()?, [Some(Fate::Applied), Some(denied)]);
    ///
    /// // A row that is put into the log from elsewhere, between the two.
    /// store.insert(&Slot::logged(&row(20, 3, "Rad = wheel"))?)?;
    /// assert_eq!(store.fates()?, [Some(Fate::Applied), None, Some(denied)]);
    /// # Ok::<(), Refusal>(())
    /// ```
    pub fn fates(&self) -> Result<Vec<Option<Fate>>, Refusal> {
        Ok(self.fates.of_rows(self.logged_len()?))
    }

    /// Notes what became of the rows that an accepted call logged.
    pub(crate) fn note_fates(&mut self, logged: &[Logged]) -> Result<(), Refusal> {
        let slots = counted_slots(&self.log, &self.head)?;
        self.fates.place(slots, logged);
        Ok(())
    }

    /// Notes what became of the row with this stamp that an accepted call put into the log, before its equals.
    pub(crate) fn note_fate(
        &mut self,
        stamp: Option<&[u8; STAMP_BYTES]>,
        fate: Option<Fate>,
    ) -> Result<(), Refusal> {
        let slots = counted_slots(&self.log, &self.head)?;
        let position = slots.partition_point(|slot| stamp_in(slot) < stamp);
        self.fates.insert(position, fate);
        Ok(())
    }

    /// The row in a slot of the log that an answer names.
    pub(crate) fn row_at(&self, position: usize) -> Result<Row, Refusal> {
        let slot = self.log.as_chunks().0.get(position);
        logged_row(slot.ok_or(Refusal::MisfitAnswer)?)
    }

    /// The floor.
    pub fn floor(&self) -> Result<Option<Timestamp>, Refusal> {
        stamp(sys::floor(self.lent()))
    }

    /// Raises the floor: rows with stamps at or below it are logged as stale. It never lowers it.
    ///
    /// ```
    /// use cuwelfra::{ActorId, Refusal, Store, Timestamp};
    ///
    /// let mut store = Store::with_capacity(16)?;
    /// store.set_floor(&Timestamp::new(20, 0, ActorId(1)))?;
    /// store.set_floor(&Timestamp::new(10, 0, ActorId(1)))?;
    /// assert_eq!(store.floor(), Ok(Some(Timestamp::new(20, 0, ActorId(1)))));
    /// # Ok::<(), Refusal>(())
    /// ```
    pub fn set_floor(&mut self, stamp: &Timestamp) -> Result<(), Refusal> {
        let stamp = stamp.parts();
        Refusal::check(sys::set_floor(&self.log, &self.held, &mut self.head, stamp))
    }

    /// The latest stamp seen of an author.
    pub fn watermark(&self, actor: ActorId) -> Result<Option<Timestamp>, Refusal> {
        stamp(sys::watermark(self.lent(), actor.0))
    }

    /// The latest stamp seen of each author, authors rising. Compaction leaves them.
    ///
    /// ```
    /// use cuwelfra::{ActorId, Refusal, Row, Slot, Store, Timestamp};
    ///
    /// let mut store = Store::with_capacity(16)?;
    /// for (wall, author) in [(30, 2), (10, 1), (20, 1)] {
    ///     let stamp = Timestamp::new(wall, 0, ActorId(author));
    ///     store.insert(&Slot::logged(&Row::new(stamp, wall, "Kette"))?)?;
    /// }
    /// store.compact(&Timestamp::new(30, 0, ActorId(2)))?;
    /// let latest = [(1, 20), (2, 30)].map(|(author, wall)| {
    ///     (ActorId(author), Timestamp::new(wall, 0, ActorId(author)))
    /// });
    /// assert_eq!(store.watermarks()?, latest);
    /// # Ok::<(), Refusal>(())
    /// ```
    pub fn watermarks(&self) -> Result<Vec<(ActorId, Timestamp)>, Refusal> {
        self.check()?;
        let count = within(word(&self.head, WATERMARKS), MAX_AUTHORS)?;
        let authors = (0..count).map(|i| ActorId(word(&self.head, WATERMARKS + 8 + 32 * i)));
        let latest = authors.map(|author| {
            let stamp = self.watermark(author)?;
            Ok((author, stamp.ok_or(Refusal::MisfitAnswer)?))
        });
        latest.collect()
    }

    /// The highest logged sequence of each author.
    pub fn clock(&self) -> Result<VectorClock, Refusal> {
        clock(|area| sys::log_clock(self.lent(), area))
    }

    /// The highest sequence of each author that compaction removed.
    pub fn compacted(&self) -> Result<VectorClock, Refusal> {
        clock(|area| sys::log_compacted(self.lent(), area))
    }

    /// The clock that the compacted clock and the logged rows make.
    pub fn derive_clock(&self) -> Result<VectorClock, Refusal> {
        clock(|area| sys::derive_clock(self.lent(), area))
    }

    /// Whether a peer with this clock has all that was compacted.
    pub fn can_serve(&self, peer: &VectorClock) -> Result<bool, Refusal> {
        number(sys::can_serve(self.lent(), peer.area())).and_then(flag)
    }

    /// Looks a row up among the logged, first place first, then the held.
    ///
    /// ```
    /// use cuwelfra::{ActorId, Place, Refusal, Row, Slot, Store, Timestamp};
    ///
    /// let mut store = Store::with_capacity(16)?;
    /// let row = Row::new(Timestamp::new(10, 0, ActorId(1)), 1, "Kette = chain");
    /// store.insert(&Slot::logged(&row)?)?;
    /// let found = store.lookup(ActorId(1), 1)?.map(|found| (found.place, found.payload));
    /// assert_eq!(found, Some((Place::Logged(0), &b"Kette = chain"[..])));
    /// assert_eq!(store.lookup(ActorId(1), 2), Ok(None));
    /// # Ok::<(), Refusal>(())
    /// ```
    pub fn lookup(&self, actor: ActorId, seq: u64) -> Result<Option<Found<'_>>, Refusal> {
        self.found(sys::lookup(self.lent(), actor.0, seq))
    }

    fn found(&self, told: sys::LookupTold) -> Result<Option<Found<'_>>, Refusal> {
        Refusal::check(told.told)?;
        let slot = small(told.slot)?;
        let (area, place) = match told.place {
            0 => return Ok(None),
            1 => (&self.log, Place::Logged(slot)),
            2 => (&self.held, Place::Held(slot)),
            _ => return Err(Refusal::MisfitAnswer),
        };
        let slots: &[[u8; SLOT_BYTES]] = area.as_chunks().0;
        let slot = slots.get(slot).ok_or(Refusal::MisfitAnswer)?;
        let len = within(told.len, MAX_PAYLOAD)? as u64;
        let payload = part(slot, PAYLOAD as u64, len)?;
        Ok(Some(Found { place, payload }))
    }

    /// Inserts a logged row in stamp order, before its equals; 17, 18.
    pub fn insert(&mut self, row: &Slot) -> Result<(), Refusal> {
        Refusal::check(sys::insert(
            &mut self.log,
            &self.held,
            &mut self.head,
            row.area(),
        ))?;
        self.note_fate(stamp_in(row.area()), None)
    }

    /// Removes the rows whose stamps are at or below the cutoff and gives how many.
    ///
    /// ```
    /// use cuwelfra::{ActorId, Refusal, Row, Slot, Store, Timestamp, VectorClock};
    ///
    /// let mut store = Store::with_capacity(16)?;
    /// for seq in 1..=3 {
    ///     let row = Row::new(Timestamp::new(10 * seq, 0, ActorId(1)), seq, "Kette = chain");
    ///     store.insert(&Slot::logged(&row)?)?;
    /// }
    /// // All peers have author 1's first two rows.
    /// let mut frontier = VectorClock::new();
    /// frontier.observe(ActorId(1), 2)?;
    /// let cutoff = store.cutoff(&frontier)?;
    /// assert_eq!(cutoff, Some(Timestamp::new(20, 0, ActorId(1))));
    /// if let Some(cutoff) = cutoff {
    ///     assert_eq!(store.compact(&cutoff), Ok(2));
    /// }
    /// assert_eq!(store.logged_len(), Ok(1));
    /// // A peer that has nothing cannot be served from this log any more.
    /// assert_eq!(store.can_serve(&VectorClock::new()), Ok(false));
    /// # Ok::<(), Refusal>(())
    /// ```
    pub fn compact(&mut self, cutoff: &Timestamp) -> Result<usize, Refusal> {
        let removed = sys::compact(&mut self.log, &self.held, &mut self.head, cutoff.parts());
        let removed = number(removed).and_then(small)?;
        // The log is in stamp order.
        self.fates.remove_first(removed);
        Ok(removed)
    }

    /// The latest stamp that is safe to compact to, where all peers have what `frontier` says.
    pub fn cutoff(&self, frontier: &VectorClock) -> Result<Option<Timestamp>, Refusal> {
        stamp(sys::cutoff(self.lent(), frontier.area()))
    }
}

/// So many slots from the start of an area.
fn first_slots(area: &[u8], count: usize) -> Result<&[[u8; SLOT_BYTES]], Refusal> {
    let slots = area.as_chunks().0.get(..count);
    slots.ok_or(Refusal::MisfitAnswer)
}

/// The used slots of the log, as the head counts them after an accepted call. The store is not tested again.
fn counted_slots<'a>(log: &'a [u8], head: &[u8]) -> Result<&'a [[u8; SLOT_BYTES]], Refusal> {
    first_slots(log, size(word(head, 0)))
}

fn logged_row(slot: &[u8; SLOT_BYTES]) -> Result<Row, Refusal> {
    row_in(slot).map(|held| held.row)
}

fn clock(call: impl FnOnce(&mut [u8]) -> sys::Told) -> Result<VectorClock, Refusal> {
    let mut area = [0; CLOCK_BYTES];
    Refusal::check(call(&mut area))?;
    Ok(VectorClock::from_area(area))
}

fn stamp(told: sys::StampTold) -> Result<Option<Timestamp>, Refusal> {
    Refusal::check(told.told)?;
    let stamp = Timestamp::new(
        told.wall_time,
        small(told.logical_counter)?,
        ActorId(told.actor_id),
    );
    Ok(flag(told.present)?.then_some(stamp))
}

#[cfg(test)]
mod tests {
    use super::*;
    use crate::{Batch, HybridClock, Request};

    /// Rows of author 1 with these sequences.
    fn batch(seqs: impl IntoIterator<Item = u64>) -> Result<Batch, Refusal> {
        let mut batch = Batch::new();
        for seq in seqs {
            let row = Row::new(Timestamp::new(10 * seq, 0, ActorId(1)), seq, "Kette");
            batch.push(&row, true, Ok(()))?;
        }
        Ok(batch)
    }

    fn clock() -> HybridClock {
        HybridClock::new(ActorId(9))
    }

    /// A store with a row logged and one that waits.
    fn store() -> Result<Store, Refusal> {
        let mut store = Store::with_capacity(4)?;
        store.apply_delta(&mut clock(), &Request::at(100), batch([1, 3])?)?;
        Ok(store)
    }

    #[test]
    fn the_largest_call_has_its_scratch() -> Result<(), Refusal> {
        let batch = batch(2..66)?;
        let mut store = Store::with_capacity(1)?;
        for (duplicates, rows) in [(0, 64), (64, 128)] {
            let report = store.apply_delta(&mut clock(), &Request::at(100), &batch)?;
            assert_eq!((report.duplicates, report.held), (duplicates, 64));
            assert_eq!(store.scratch.len(), rows * SCRATCH_BYTES);
        }
        Ok(())
    }

    #[test]
    fn scratch_is_left_zero_and_is_not_compared() -> Result<(), Refusal> {
        let store = store()?;
        assert_eq!(store.scratch, [0; 2 * SCRATCH_BYTES]);
        let (log, held, head) = store.clone().into_areas();
        let taken = Store::from_areas(log, held, head);
        assert_eq!(taken.scratch, []);
        assert_eq!(taken, store);
        Ok(())
    }

    #[test]
    fn each_area_is_compared() -> Result<(), Refusal> {
        let store = store()?;
        for i in 0..3 {
            let (mut log, mut held, mut head) = store.clone().into_areas();
            [&mut log, &mut held, &mut head][i][8] ^= 1;
            assert_ne!(Store::from_areas(log, held, head), store);
        }
        Ok(())
    }

    #[test]
    fn rows_by_position_are_the_rows_in_order() -> Result<(), Refusal> {
        let store = store()?;
        assert_eq!((store.logged_len(), store.held_len()), (Ok(1), Ok(1)));
        assert_eq!(store.logged()?, Vec::from_iter(store.logged_at(0)?));
        assert_eq!(store.held()?, Vec::from_iter(store.held_at(0)?));
        assert_eq!((store.logged()?[0].seq, store.held()?[0].row.seq), (1, 3));
        assert_eq!(store.logged_at(1), Ok(None));
        assert_eq!(store.held_at(1), Ok(None));
        assert_eq!(store.held()?[0].arrived_ms, 100);
        Ok(())
    }

    #[test]
    fn a_store_is_rebuilt_whatever_it_held() -> Result<(), Refusal> {
        let mut store = store()?;
        let row = Row::new(Timestamp::new(7, 0, ActorId(2)), 4, "Rad");
        let mut compacted = VectorClock::new();
        compacted.observe(ActorId(2), 3)?;
        store.rebuild(&[Slot::logged(&row)?], &compacted)?;
        assert_eq!(store.logged()?, [row]);
        assert_eq!((store.held_len(), store.floor()), (Ok(0), Ok(None)));
        assert_eq!(store.compacted()?, compacted);
        Ok(())
    }

    #[test]
    fn there_are_as_many_watermarks_as_authors() -> Result<(), Refusal> {
        let mut store = Store::with_capacity(MAX_AUTHORS)?;
        assert_eq!(store.watermarks(), Ok(Vec::new()));
        for author in (1..=MAX_AUTHORS as u64).rev() {
            // Also that of an author without a number in the clock.
            let stamp = Timestamp::new(author, u32::MAX, ActorId(author + 1));
            let row = Row {
                actor: ActorId(author),
                ..Row::new(stamp, author % 2, "")
            };
            store.insert(&Slot::logged(&row)?)?;
        }
        let latest = store.watermarks()?;
        assert_eq!(latest.len(), MAX_AUTHORS);
        for (author, (of, stamp)) in (1..).zip(&latest) {
            assert_eq!(*of, ActorId(author));
            assert_eq!(
                *stamp,
                Timestamp::new(author, u32::MAX, ActorId(author + 1))
            );
            assert_eq!(store.watermark(*of), Ok(Some(*stamp)));
        }
        let (log, held, mut head) = store.into_areas();
        head[WATERMARKS + 7] = 33;
        let damaged = Store::from_areas(log, held, head);
        assert_eq!(damaged.watermarks(), Err(Refusal::UnsoundStore));
        Ok(())
    }

    /// Places and slots that there are not, and more payload than a slot has.
    #[test]
    fn a_place_that_is_none_is_no_answer() -> Result<(), Refusal> {
        let store = store()?;
        let found = |place, slot, len| {
            let told = sys::Told::default();
            let answer = sys::LookupTold {
                told,
                place,
                slot,
                len,
            };
            let found = store.found(answer);
            found.map(|found| found.map(|found| (found.place, found.payload.len())))
        };
        assert_eq!(found(0, 0, 0), Ok(None));
        assert_eq!(found(1, 3, 5), Ok(Some((Place::Logged(3), 5))));
        assert_eq!(found(2, 63, 256), Ok(Some((Place::Held(63), 256))));
        let misfits = [
            (3, 0, 0),
            (u64::MAX, 0, 0),
            (1, 4, 0),
            (2, 64, 0),
            (2, u64::MAX, 0),
            (1, 0, 257),
        ];
        for (place, slot, len) in misfits {
            assert_eq!(found(place, slot, len), Err(Refusal::MisfitAnswer));
        }
        Ok(())
    }

    #[test]
    fn a_stamp_is_read_strictly() {
        let read = |present, logical_counter| {
            stamp(sys::StampTold {
                told: sys::Told::default(),
                present,
                wall_time: 5,
                logical_counter,
                actor_id: 6,
            })
        };
        let wanted = Timestamp::new(5, u32::MAX, ActorId(6));
        assert_eq!(read(1, 0xffff_ffff), Ok(Some(wanted)));
        assert_eq!(read(0, 0), Ok(None));
        for (present, counter) in [(2, 0), (u64::MAX, 0), (1, 1 << 32)] {
            assert_eq!(read(present, counter), Err(Refusal::MisfitAnswer));
        }
    }

    #[test]
    fn short_areas_are_refused_and_nothing_panics() {
        for log in [0, SLOT_BYTES - 1, SLOT_BYTES] {
            for held in [0, HELD_BYTES - 1, HELD_BYTES] {
                for head in [0, 15, HEAD_BYTES - 1] {
                    let areas = [log, held, head].map(|len| vec![0xff; len]);
                    let [log, held, head] = areas;
                    let mut store = Store::from_areas(log, held, head);
                    let told = store.apply_delta(&mut clock(), &Request::at(0), [0xff]);
                    assert_eq!(told, Err(Refusal::ShortArea));
                    assert_eq!(store.logged(), Err(Refusal::ShortArea));
                }
            }
        }
    }
}
