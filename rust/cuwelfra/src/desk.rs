//! Rows of the desk's own: prepared, signed by the server, sealed.

use cuwelfra_sys as sys;

use crate::row::STAMP_BYTES;
use crate::words::{part, set_word, small, within};
use crate::{ActorId, Fate, HybridClock, Reader, Refusal, Store, Timestamp};
use crate::{MAX_DEPS, MAX_UNSIGNED_BYTES};

/// A row to sign, as [`Store::prepare`] gives it.
#[derive(Clone, Debug, PartialEq, Eq, Hash)]
#[non_exhaustive]
pub struct Prepared {
    /// The new stamp.
    pub timestamp: Timestamp,
    /// The author, whose hybrid clock it was.
    pub actor: ActorId,
    /// The author's number for it.
    pub seq: u64,
    /// What it depends on: the log's clock.
    pub deps: Vec<(ActorId, u64)>,
    /// The bytes to sign, and to seal.
    pub bytes: Vec<u8>,
}

impl Store {
    /// Prepares a row of the hybrid clock's author at a time in ms: its stamp, its sequence, its dependencies, which are
    /// the log's clock, and the bytes to sign; 2, 1, 26, 19, 27.
    ///
    /// `issued` is the number that the author issued last, 0 at first. The sequence is one above it, or above the author's
    /// number in the log's clock where that is greater. Nothing is spent: sealing accepts the row or not, and `issued`
    /// becomes [`Prepared::seq`] once it did.
    ///
    /// The hybrid clock moves on where the row is prepared, whatever comes of it. Never put it back: stamps that were
    /// folded in meanwhile would be forgotten.
    ///
    /// Ask policy and term state before you sign. What was signed and is not sealed must not go out, since its number
    /// comes again with another content.
    ///
    /// ```
    /// use cuwelfra::{ActorId, Fate, HybridClock, Refusal, Store};
    ///
    /// // The server's own.
    /// fn sign(bytes: &[u8]) -> Vec<u8> {
    ///     vec![bytes.len() as u8]
    /// }
    ///
    /// let mut store = Store::with_capacity(16)?;
    /// let mut clock = HybridClock::new(ActorId(1));
    /// let mut issued = store.clock()?.get(ActorId(1))?;
    ///
    /// for (now, term) in [(1_000, "Kette = chain"), (1_000, "Rad = wheel")] {
    ///     let prepared = store.prepare(&mut clock, now, issued, term)?;
    ///     store.seal(&prepared.bytes, sign(&prepared.bytes))?;
    ///     issued = prepared.seq;
    /// }
    ///
    /// let rows = store.logged()?;
    /// assert_eq!((rows[1].seq, &rows[1].payload[..]), (2, &b"Rad = wheel"[..]));
    /// // It depends on all that was logged before it, and is stamped above it.
    /// assert_eq!(rows[1].deps, [(ActorId(1), 1)]);
    /// assert_eq!((rows[1].timestamp.to_string(), clock.last()), ("1000/1/1".to_owned(), (1_000, 1)));
    /// assert_eq!(rows[1].signature, sign(&rows[1].signing_bytes()?));
    /// assert_eq!(store.fates()?, [Some(Fate::Applied); 2]);
    /// # Ok::<(), Refusal>(())
    /// ```
    pub fn prepare(
        &self,
        clock: &mut HybridClock,
        time_ms: u64,
        issued: u64,
        payload: impl AsRef<[u8]>,
    ) -> Result<Prepared, Refusal> {
        let parts = clock.to_parts();
        let of = sys::Preparation {
            author: parts.actor.0,
            last_wall: parts.last_wall,
            last_counter: parts.last_counter,
            max_drift_ms: parts.max_drift_ms,
            time_ms,
            issued,
        };
        let logged = self.clock()?;
        let mut output = [0; MAX_UNSIGNED_BYTES];
        let told = sys::prepare(of, payload.as_ref(), logged.area(), &mut output);
        prepared(clock, &told, &output)
    }

    /// Logs a row of [`Store::prepare`], by its bytes and their signature; 2, 1, 3 to 6, 28, 17, 18.
    ///
    /// Save the store, and `issued` and the clock beside it, before the row goes out: else a crash gives its number to
    /// another content.
    ///
    /// Hand in exactly the bytes of [`Store::prepare`]. The logged row's [`Row::signing_bytes`](crate::Row::signing_bytes)
    /// are the bytes that were sealed, so that their signature holds elsewhere: a number in another spelling is 3.
    ///
    /// 28 says that the log's clock has moved since. Look first ([`Store::lookup`]): where the row is logged with your
    /// payload, it is done. Else prepare it again.
    ///
    /// Neither duplicates nor a held row of this number are looked for. If a held row is this author's, or depends on its
    /// next number, that number is given already: take in what is missing first. Held rows that wait for this one are
    /// logged by the next batch, even an empty one. Its fate is [`Fate::Applied`].
    ///
    /// ```
    /// use cuwelfra::{ActorId, Batch, HybridClock, Place, Refusal, Request, Row, Store, Timestamp};
    ///
    /// // Author 2's row waits for author 1's first.
    /// let mut store = Store::with_capacity(16)?;
    /// let mut batch = Batch::new();
    /// batch.push(&Row::new(Timestamp::new(20, 0, ActorId(2)), 1, "Rad").needs(ActorId(1), 1), true, Ok(()))?;
    /// let mut clock = HybridClock::new(ActorId(1));
    /// store.apply_delta(&mut clock, &Request::at(1_000), &batch)?;
    ///
    /// let prepared = store.prepare(&mut clock, 1_000, 0, "Kette")?;
    /// store.seal(&prepared.bytes, [7])?;
    /// assert_eq!((store.logged_len(), store.held_len()), (Ok(1), Ok(1)));
    /// let report = store.apply_delta(&mut clock, &Request::at(1_000), Batch::new())?;
    /// assert_eq!((report.applied, report.held), (1, 0));
    ///
    /// // Sealed once more, it is refused and nothing changes: it is logged already.
    /// assert_eq!(store.seal(&prepared.bytes, [7]), Err(Refusal::OtherCauses));
    /// let found = store.lookup(prepared.actor, prepared.seq)?.map(|found| (found.place, found.payload));
    /// assert_eq!(found, Some((Place::Logged(1), &b"Kette"[..])));
    /// # Ok::<(), Refusal>(())
    /// ```
    pub fn seal(
        &mut self,
        bytes: impl AsRef<[u8]>,
        signature: impl AsRef<[u8]>,
    ) -> Result<(), Refusal> {
        let (bytes, signature) = (bytes.as_ref(), signature.as_ref());
        let (areas, _) = self.lent_mut(0);
        let told = sys::seal(areas.log, areas.held, areas.head, bytes, signature);
        Refusal::check(told)?;
        self.note_fate(Some(&stamp_of(bytes)?), Some(Fate::Applied))
    }
}

/// The answer, once all of it is known to fit; then the clock moves on.
fn prepared(
    clock: &mut HybridClock,
    told: &sys::PreparedTold,
    output: &[u8],
) -> Result<Prepared, Refusal> {
    Refusal::check(told.told)?;
    let pairs = told.dep_authors.iter().zip(told.dep_numbers);
    let deps = pairs.map(|(author, number)| (ActorId(*author), number));
    let prepared = Prepared {
        timestamp: Timestamp::new(
            told.wall_time,
            small(told.logical_counter)?,
            ActorId(told.actor_id),
        ),
        actor: clock.to_parts().actor,
        seq: told.sequence,
        deps: deps.take(within(told.deps, MAX_DEPS)?).collect(),
        bytes: part(output, 0, told.len as u64)?.to_vec(),
    };
    clock.moved(told.last_wall, told.last_counter)?;
    Ok(prepared)
}

/// The stamp of a row's bytes, as it stands in a slot.
fn stamp_of(bytes: &[u8]) -> Result<[u8; STAMP_BYTES], Refusal> {
    let mut reader = Reader::new(bytes);
    let mut stamp = [0; STAMP_BYTES];
    for at in [0, 8, 16] {
        set_word(&mut stamp, at, reader.varint()?);
    }
    Ok(stamp)
}

#[cfg(test)]
mod tests {
    use super::*;
    use crate::{Batch, HybridParts, Request, Row, Slot, VectorClock};

    const OWN: ActorId = ActorId(40);

    /// A store with room for so many rows above a clock of so many authors.
    fn store(rows: usize, authors: u64) -> Result<Store, Refusal> {
        let mut compacted = VectorClock::new();
        for author in 1..=authors {
            compacted.observe(ActorId(author), author)?;
        }
        let mut store = Store::with_capacity(rows)?;
        store.rebuild(&[], &compacted)?;
        Ok(store)
    }

    /// A store without a free slot: 32 authors have a watermark and no number in the clock.
    fn full(rows: usize) -> Result<Store, Refusal> {
        let mut store = Store::with_capacity(rows)?;
        for author in 1..=32 {
            let row = Row::new(Timestamp::new(author, 0, ActorId(author)), 0, "");
            store.insert(&Slot::logged(&row)?)?;
        }
        Ok(store)
    }

    /// The store with a byte of its head changed, or the head cut.
    fn with_head(store: &Store, change: impl FnOnce(&mut Vec<u8>)) -> Store {
        let (log, held, mut head) = store.clone().into_areas();
        change(&mut head);
        Store::from_areas(log, held, head)
    }

    #[test]
    fn a_prepared_row_is_the_one_that_is_sealed() -> Result<(), Refusal> {
        let mut store = store(2, 16)?;
        let mut clock = HybridClock::resume(OWN, 10, 3);
        let prepared = store.prepare(&mut clock, 10, 6, [5; 256])?;
        assert_eq!(prepared.timestamp, Timestamp::new(10, 4, OWN));
        assert_eq!((prepared.actor, prepared.seq), (OWN, 7));
        assert_eq!(prepared.deps, store.clock()?.entries()?);
        assert_eq!(clock.last(), (10, 4));
        store.seal(&prepared.bytes, [9; 64])?;
        let row = store.logged()?.remove(0);
        let wanted = Row {
            deps: prepared.deps,
            ..Row::new(prepared.timestamp, 7, [5; 256]).signed([9; 64])
        };
        assert_eq!(row, wanted);
        assert_eq!(row.signing_bytes()?, prepared.bytes);
        assert_eq!(store.clock()?.get(OWN), Ok(7));
        // Its author is the 17th.
        let told = store.prepare(&mut clock, 11, 7, "");
        assert_eq!(told, Err(Refusal::OperationTooLarge));
        Ok(())
    }

    #[test]
    fn the_sequence_is_above_both_numbers() -> Result<(), Refusal> {
        let store = store(1, 5)?;
        for (issued, seq) in [(0, 6), (4, 6), (5, 6), (6, 7), (u64::MAX - 1, u64::MAX)] {
            let mut clock = HybridClock::new(ActorId(5));
            let prepared = store.prepare(&mut clock, 1, issued, "")?;
            assert_eq!(prepared.seq, seq, "{issued}");
        }
        Ok(())
    }

    /// Each entry heals the first fault of the one before it.
    #[test]
    fn preparing_tells_the_first_fault() -> Result<(), Refusal> {
        let spent = HybridClock::resume(OWN, 10, u32::MAX);
        let (wide, narrow) = (store(1, 17)?, store(1, 16)?);
        let short = with_head(&wide, |head| head.truncate(2_119));
        let unsound = with_head(&wide, |head| head[7] = 1);
        let cases = [
            (&short, spent, u64::MAX, 257, Err(Refusal::ShortArea)),
            (&unsound, spent, u64::MAX, 257, Err(Refusal::UnsoundStore)),
            (&wide, spent, u64::MAX, 257, Err(Refusal::OperationTooLarge)),
            (&wide, spent, u64::MAX, 256, Err(Refusal::OperationTooLarge)),
            (
                &narrow,
                spent,
                u64::MAX,
                257,
                Err(Refusal::OperationTooLarge),
            ),
            (&narrow, spent, u64::MAX, 256, Err(Refusal::CounterOverflow)),
            (
                &narrow,
                HybridClock::new(OWN),
                u64::MAX,
                256,
                Err(Refusal::SequenceExhausted),
            ),
            (
                &narrow,
                HybridClock::new(OWN),
                u64::MAX - 1,
                256,
                Ok(u64::MAX),
            ),
        ];
        for (store, before, issued, payload, wanted) in cases {
            let mut clock = before;
            let told = store.prepare(&mut clock, 10, issued, vec![0; payload]);
            assert_eq!(told.map(|prepared| prepared.seq), wanted);
            // A refusal moves no clock.
            assert_eq!(clock == before, wanted.is_err());
        }
        Ok(())
    }

    /// Each entry heals the first fault of the one before it.
    #[test]
    fn sealing_tells_the_first_fault() -> Result<(), Refusal> {
        let bytes = |stamper, seq, deps: u64| {
            let mut row = Row::new(Timestamp::new(50, 0, ActorId(stamper)), seq, "Kette");
            row.actor = OWN;
            row.deps = (0..deps).map(|author| (ActorId(author), 1)).collect();
            row.signing_bytes()
        };
        let more =
            |stamper, seq, deps| Ok::<_, Refusal>([bytes(stamper, seq, deps)?, vec![0]].concat());
        // The count of dependencies stands behind five numbers of one byte each.
        let over = |bytes: Vec<u8>| [&bytes[..5], &[17], &bytes[6..]].concat();
        let actor = OWN;
        let zero = Refusal::ZeroSequence { actor, seq: 0 };
        let foreign = Refusal::ForeignStamp { actor, seq: 1 };
        let (no_slot, no_place, room) = (full(32)?, full(33)?, store(1, 0)?);
        let short = with_head(&no_slot, |head| head.truncate(2_119));
        let unsound = with_head(&no_slot, |head| head[7] = 31);
        let cases = [
            (&short, over(more(7, 0, 1)?), 65, Err(Refusal::ShortArea)),
            (
                &unsound,
                over(more(7, 0, 1)?),
                65,
                Err(Refusal::UnsoundStore),
            ),
            (
                &no_slot,
                over(more(7, 0, 1)?),
                65,
                Err(Refusal::OverCapacity),
            ),
            (&no_slot, more(7, 0, 1)?, 65, Err(Refusal::Unreadable)),
            (&no_slot, bytes(7, 0, 1)?, 65, Err(Refusal::OverCapacity)),
            (&no_slot, bytes(7, 0, 1)?, 64, Err(zero)),
            (&no_slot, bytes(7, 1, 1)?, 64, Err(foreign)),
            (&no_slot, bytes(40, 1, 1)?, 64, Err(Refusal::OtherCauses)),
            (&no_slot, bytes(40, 1, 0)?, 64, Err(Refusal::LogFull)),
            (&no_place, bytes(40, 1, 0)?, 64, Err(Refusal::AuthorsFull)),
            (&room, bytes(40, 1, 0)?, 64, Ok(())),
        ];
        for (before, bytes, signature, wanted) in cases {
            let mut store = before.clone();
            assert_eq!(store.seal(bytes, vec![3; signature]), wanted);
            assert_eq!(store == *before, wanted.is_err());
        }
        Ok(())
    }

    #[test]
    fn a_clock_that_moves_on_keeps_its_drift() -> Result<(), Refusal> {
        let store = store(1, 0)?;
        let parts = HybridParts {
            actor: OWN,
            last_wall: 5,
            last_counter: 0,
            max_drift_ms: 9,
        };
        let mut clock = HybridClock::from_parts(parts);
        store.prepare(&mut clock, 6, 0, "")?;
        let wanted = HybridParts {
            last_wall: 6,
            ..parts
        };
        assert_eq!(clock.to_parts(), wanted);
        Ok(())
    }

    /// The row stands before its equals, and its fate with it, also where fates behind it are not known.
    #[test]
    fn a_sealed_row_is_applied() -> Result<(), Refusal> {
        let row = |wall, seq| Row::new(Timestamp::new(wall, 0, OWN), seq, "");
        let mut store = Store::with_capacity(6)?;
        for (wall, seq) in [(10, 1), (20, 2), (30, 3)] {
            store.insert(&Slot::logged(&row(wall, seq))?)?;
        }
        let sealed = |store: &mut Store, wall, seq| {
            let mut row = row(wall, seq);
            row.deps = store.clock()?.entries()?;
            store.seal(row.signing_bytes()?, [])
        };
        sealed(&mut store, 20, 4)?;
        assert_eq!(store.logged()?[1].seq, 4);
        let applied = Some(Fate::Applied);
        assert_eq!(store.fates()?, [None, applied, None, None]);
        sealed(&mut store, 40, 5)?;
        assert_eq!(store.fates()?, [None, applied, None, None, applied]);
        // A floor above it makes nothing stale.
        store.set_floor(&Timestamp::new(90, 0, OWN))?;
        sealed(&mut store, 5, 6)?;
        let fates = [applied, None, applied, None, None, applied];
        assert_eq!(store.fates()?, fates);
        assert_eq!(sealed(&mut store, 5, 7), Err(Refusal::LogFull));
        assert_eq!(store.fates()?, fates);
        let mut clock = HybridClock::new(OWN);
        let report = store.apply_delta(&mut clock, &Request::at(100), Batch::new())?;
        assert_eq!((report.applied, store.fates()?), (0, fates.to_vec()));
        Ok(())
    }

    /// A store that has author 2's row and a floor, at a time before both; an own row is held where it is given.
    fn seen(held: Option<Row>) -> Result<(Store, Request), Refusal> {
        let request = Request::at(1_000);
        let mut store = Store::with_capacity(4)?;
        store.set_floor(&Timestamp::new(40_000, 0, ActorId(3)))?;
        let mut batch = Batch::new();
        let row = Row::new(Timestamp::new(50_000, 0, ActorId(2)), 1, "");
        batch.push(&row, true, Ok(()))?;
        if let Some(row) = held {
            batch.push(&row, true, Ok(()))?;
        }
        store.apply_delta(&mut HybridClock::new(OWN), &request, &batch)?;
        Ok((store, request))
    }

    /// As docs/GUIDE.md has it: the floor, every watermark and every held stamp.
    fn new_clock(store: &Store, time_ms: u64) -> Result<HybridClock, Refusal> {
        let latest = store.watermarks()?.into_iter().map(|(_, stamp)| stamp);
        let held = store.held()?.into_iter().map(|held| held.row.timestamp);
        let mut clock = HybridClock::new(OWN);
        if let Some(greatest) = store.floor()?.into_iter().chain(latest).chain(held).max() {
            clock.update(&greatest, time_ms)?;
        }
        Ok(clock)
    }

    #[test]
    fn a_new_clock_is_above_all_that_the_store_knows() -> Result<(), Refusal> {
        let held = Row::new(Timestamp::new(60_000, 5, OWN), 2, "");
        for (held, wanted) in [(None, (50_000, 2)), (Some(held), (60_000, 7))] {
            let (store, request) = seen(held)?;
            let mut clock = new_clock(&store, request.time_ms)?;
            store.prepare(&mut clock, request.time_ms, 0, "")?;
            assert_eq!(clock.last(), wanted);
            // The author's own watermark says nothing of its causes: the row would stand before them, and below the floor.
            assert_eq!(store.watermark(OWN), Ok(None));
            let mut clock = HybridClock::new(OWN);
            store.prepare(&mut clock, request.time_ms, 0, "")?;
            assert_eq!(clock.last(), (1_000, 0));
        }
        // An empty store says nothing.
        assert_eq!(new_clock(&store(1, 0)?, 1)?, HybridClock::new(OWN));
        Ok(())
    }

    #[test]
    fn a_held_row_of_a_number_that_is_given_again_is_dropped() -> Result<(), Refusal> {
        let held = Row::new(Timestamp::new(60_000, 0, OWN), 2, "later own");
        let (mut store, request) = seen(Some(held))?;
        let mut clock = new_clock(&store, request.time_ms)?;
        for (issued, payload) in [(0, "first"), (1, "second")] {
            let prepared = store.prepare(&mut clock, request.time_ms, issued, payload)?;
            store.seal(&prepared.bytes, [])?;
        }
        let report = store.apply_delta(&mut clock, &request, Batch::new())?;
        assert_eq!((report.applied, report.dropped, report.held), (0, 1, 0));
        let found = store.lookup(OWN, 2)?.map(|found| found.payload);
        assert_eq!(found, Some(&b"second"[..]));
        Ok(())
    }

    /// What was not saved before the row went out.
    #[test]
    fn an_older_store_gives_the_number_again() -> Result<(), Refusal> {
        let saved = (store(2, 0)?, HybridClock::new(OWN), 0);
        let rows = ["sent", "after the crash"].map(|payload| {
            let (mut store, mut clock, issued) = saved.clone();
            let prepared = store.prepare(&mut clock, 10, issued, payload)?;
            store.seal(&prepared.bytes, [])?;
            Ok::<_, Refusal>(store.logged()?.remove(0))
        });
        let [sent, after] = rows;
        let (sent, after) = (sent?, after?);
        assert_eq!((sent.actor, sent.seq), (after.actor, after.seq));
        assert_ne!(sent.payload, after.payload);
        Ok(())
    }

    #[test]
    fn what_is_sealed_is_what_was_signed() -> Result<(), Refusal> {
        let mut store = store(1, 0)?;
        let prepared = store.prepare(&mut HybridClock::new(OWN), 5, 0, "")?;
        assert_eq!(prepared.bytes[0], 0x05);
        // The wall time in two bytes.
        let spelled = [&[0x85, 0x00], &prepared.bytes[1..]].concat();
        assert_eq!(store.seal(&spelled, []), Err(Refusal::Unreadable));
        assert_eq!(store.logged_len(), Ok(0));
        store.seal(&prepared.bytes, [])?;
        let row = store.logged()?.remove(0);
        assert_eq!(row.signing_bytes()?, prepared.bytes);
        Ok(())
    }

    /// Counters of 33 bits, 17 dependencies, more bytes than were lent.
    #[test]
    fn an_answer_that_does_not_fit_moves_no_clock() {
        let before = HybridClock::resume(OWN, 10, 3);
        let fits = sys::PreparedTold {
            wall_time: 11,
            deps: 16,
            len: 4,
            last_wall: 11,
            ..sys::PreparedTold::default()
        };
        let misfits = [
            sys::PreparedTold {
                logical_counter: 1 << 32,
                ..fits
            },
            sys::PreparedTold { deps: 17, ..fits },
            sys::PreparedTold { len: 5, ..fits },
            sys::PreparedTold {
                last_counter: 1 << 32,
                ..fits
            },
        ];
        for told in misfits {
            let mut clock = before;
            let answer = prepared(&mut clock, &told, &[1; 4]);
            assert_eq!(answer, Err(Refusal::MisfitAnswer));
            assert_eq!(clock, before);
        }
        let mut clock = before;
        let row = prepared(&mut clock, &fits, &[1; 4]);
        assert_eq!(
            row.map(|row| (row.deps.len(), row.bytes)),
            Ok((16, vec![1; 4]))
        );
        assert_eq!(clock.last(), (11, 0));
        // Where a library moved the clock in a refusal all the same, this one stays.
        let told = sys::PreparedTold {
            told: Refusal::SequenceExhausted.told(),
            last_wall: 12,
            ..sys::PreparedTold::default()
        };
        let answer = prepared(&mut clock, &told, &[]);
        assert_eq!(answer, Err(Refusal::SequenceExhausted));
        assert_eq!(clock.last(), (11, 0));
    }
}
