//! What a peer lacks.

use cuwelfra_sys as sys;

use crate::clock::number;
use crate::words::{small, within, word};
use crate::{ActorId, Refusal, Row, Store, VectorClock};

/// The logged rows that a peer lacks, in log order, as [`Store::delta`] finds them.
///
/// ```
/// use cuwelfra::{ActorId, Refusal, Row, Slot, Store, Timestamp, VectorClock};
///
/// let mut store = Store::with_capacity(16)?;
/// for seq in 1..=3 {
///     let row = Row::new(Timestamp::new(10 * seq, 0, ActorId(1)), seq, "Kette = chain");
///     store.insert(&Slot::logged(&row)?)?;
/// }
/// // A peer that has author 1's first row lacks the other two.
/// let mut peer = VectorClock::new();
/// peer.observe(ActorId(1), 1)?;
/// let delta = store.delta(&peer)?;
/// assert_eq!(delta.positions(), [1, 2]);
///
/// // It goes out in messages of one row.
/// for rows in delta.chunks(1, 65_536)? {
///     assert_eq!(rows.len(), 1);
/// }
/// # Ok::<(), Refusal>(())
/// ```
#[derive(Clone, Debug)]
pub struct Delta<'a> {
    store: &'a Store,
    peer: VectorClock,
    positions: Vec<usize>,
}

/// What a chunk takes, as [`Delta::sizes`] tells it.
#[derive(Clone, Copy, Debug, PartialEq, Eq, Hash)]
pub struct ChunkSize {
    /// How many rows it has.
    pub rows: usize,
    /// How many bytes its message has, with its envelope.
    pub bytes: usize,
}

impl Store {
    /// What a peer with this clock lacks; 2, 1.
    pub fn delta(&self, peer: &VectorClock) -> Result<Delta<'_>, Refusal> {
        let list = |output: &mut [u8]| sys::calculate_delta(self.lent(), peer.area(), output);
        let positions = self.listed(1, list)?;
        Ok(Delta {
            store: self,
            peer: *peer,
            positions,
        })
    }

    /// The numbers that a call lists: so many of each entry, of which there is at most one for each slot of the log.
    fn listed(
        &self,
        numbers: usize,
        call: impl FnOnce(&mut [u8]) -> sys::ClockNumber,
    ) -> Result<Vec<usize>, Refusal> {
        let mut output = vec![0; 8 * numbers * self.capacity()];
        let count = within(number(call(&mut output))?, self.capacity())?;
        let (words, _) = output.as_chunks::<8>();
        let words = words.iter().take(numbers * count);
        words.map(|bytes| small(word(bytes, 0))).collect()
    }
}

impl Delta<'_> {
    /// How many rows it has.
    pub fn len(&self) -> usize {
        self.positions.len()
    }

    /// Whether the peer lacks nothing.
    pub fn is_empty(&self) -> bool {
        self.positions.is_empty()
    }

    /// Where the rows stand in the log, from 0.
    pub fn positions(&self) -> &[usize] {
        &self.positions
    }

    /// The rows.
    pub fn rows(&self) -> Result<Vec<Row>, Refusal> {
        self.rows_at(&self.positions)
    }

    /// How many rows each chunk has: at most so many rows and so many bytes, but at least one row.
    ///
    /// A row counts with its signed bytes, its signature and 16 more; 0 rows means 1.
    pub fn chunk_lens(&self, max_rows: u64, max_bytes: u64) -> Result<Vec<usize>, Refusal> {
        let (store, peer) = (self.store.lent(), self.peer.area());
        self.store.listed(1, |output| {
            sys::chunk_ops(store, peer, max_rows, max_bytes, output)
        })
    }

    /// What each chunk of [`Delta::chunks`] takes as a message: its rows, and the bytes of the
    /// [`Envelope`](crate::Envelope) with its [`Message::Delta`](crate::Message::Delta), from this sender and with a
    /// signature of so many bytes; 4 where these are above [`MAX_BODY_SIGNATURE`](crate::MAX_BODY_SIGNATURE).
    ///
    /// A chunk above 64 rows, which [`Message::encode`](crate::Message::encode) refuses, has the bytes that the layout
    /// gives it.
    ///
    /// ```
    /// use cuwelfra::{ActorId, Envelope, Message, Refusal, Row, Slot, Store, Timestamp, VectorClock};
    ///
    /// let mut store = Store::with_capacity(16)?;
    /// for seq in 1..=3 {
    ///     let row = Row::new(Timestamp::new(10 * seq, 0, ActorId(1)), seq, "Kette = chain");
    ///     store.insert(&Slot::logged(&row)?)?;
    /// }
    /// let delta = store.delta(&VectorClock::new())?;
    ///
    /// // In messages of at most two rows, from author 7 and with signatures of 64 bytes.
    /// let sizes = delta.sizes(2, 65_536, ActorId(7), 64)?;
    /// assert_eq!(sizes.iter().map(|chunk| chunk.rows).collect::<Vec<_>>(), [2, 1]);
    /// assert_eq!(sizes.iter().map(|chunk| chunk.bytes).sum::<usize>(), 201);
    ///
    /// // These are the bytes that are sent.
    /// for (size, rows) in sizes.iter().zip(delta.chunks(2, 65_536)?) {
    ///     let body = Message::Delta(rows).encode()?;
    ///     let envelope = Envelope { sender: ActorId(7), body: &body, sig: &[9; 64] };
    ///     let mut frame = vec![0; size.bytes];
    ///     assert_eq!(envelope.encode(&mut frame), Ok(size.bytes));
    /// }
    /// # Ok::<(), Refusal>(())
    /// ```
    pub fn sizes(
        &self,
        max_rows: u64,
        max_bytes: u64,
        sender: ActorId,
        sig_len: usize,
    ) -> Result<Vec<ChunkSize>, Refusal> {
        let (store, peer, sig_len) = (self.store.lent(), self.peer.area(), sig_len as u64);
        let numbers = self.store.listed(2, |output| {
            sys::delta_sizes(store, peer, max_rows, max_bytes, sender.0, sig_len, output)
        })?;
        let (chunks, _) = numbers.as_chunks();
        let sizes = chunks.iter().map(|[rows, bytes]| ChunkSize {
            rows: *rows,
            bytes: *bytes,
        });
        Ok(sizes.collect())
    }

    /// The rows chunk by chunk, with the counts of [`Delta::chunk_lens`].
    pub fn chunks(&self, max_rows: u64, max_bytes: u64) -> Result<Vec<Vec<Row>>, Refusal> {
        let mut left = &self.positions[..];
        let mut chunks = Vec::new();
        for len in self.chunk_lens(max_rows, max_bytes)? {
            let (chunk, rest) = left.split_at_checked(len).ok_or(Refusal::MisfitAnswer)?;
            chunks.push(self.rows_at(chunk)?);
            left = rest;
        }
        Ok(chunks)
    }

    fn rows_at(&self, positions: &[usize]) -> Result<Vec<Row>, Refusal> {
        let rows = positions
            .iter()
            .map(|position| self.store.row_at(*position));
        rows.collect()
    }
}

#[cfg(test)]
mod tests {
    use super::*;
    use crate::{varint_len, Envelope, Message, Slot, Timestamp, MAX_BODY_SIGNATURE};

    /// Two rows of author 1 and two of author 2, in turns, the last of them large.
    fn store() -> Result<Store, Refusal> {
        let mut store = Store::with_capacity(5)?;
        for (i, len) in (0..).zip([1, 1, 1, 200]) {
            let stamp = Timestamp::new(i, 0, ActorId(1 + i % 2));
            let row = Row::new(stamp, 1 + i / 2, vec![7; len]);
            store.insert(&Slot::logged(&row)?)?;
        }
        Ok(store)
    }

    #[test]
    fn rows_stand_at_their_positions() -> Result<(), Refusal> {
        let store = store()?;
        let mut peer = VectorClock::new();
        peer.observe(ActorId(1), 1)?;
        let delta = store.delta(&peer)?;
        assert_eq!(delta.positions(), [1, 2, 3]);
        assert_eq!(delta.rows()?, store.logged()?[1..]);
        assert_eq!(delta.len(), 3);
        assert!(store.delta(&store.clock()?)?.is_empty());
        Ok(())
    }

    #[test]
    fn chunks_in_order_are_the_delta() -> Result<(), Refusal> {
        let store = store()?;
        let delta = store.delta(&VectorClock::new())?;
        // A small row counts for 24 bytes.
        let cases = [
            (0, 1_000, vec![1, 1, 1, 1]),
            (2, 1_000, vec![2, 2]),
            (9, 48, vec![2, 1, 1]),
            (9, 1_000, vec![4]),
        ];
        for (max_rows, max_bytes, lens) in cases {
            let chunks = delta.chunks(max_rows, max_bytes)?;
            let found: Vec<usize> = chunks.iter().map(Vec::len).collect();
            assert_eq!(found, lens, "{max_rows} rows, {max_bytes} bytes");
            assert_eq!(delta.chunk_lens(max_rows, max_bytes), Ok(lens));
            assert_eq!(chunks.concat(), delta.rows()?);
        }
        Ok(())
    }

    #[test]
    fn more_than_the_log_has_slots_is_no_answer() -> Result<(), Refusal> {
        let store = store()?;
        let listed = |numbers, number| {
            store.listed(numbers, |output| {
                assert_eq!(output.len(), 5 * numbers * 8);
                output.fill(0);
                let told = sys::Told::default();
                sys::ClockNumber { told, number }
            })
        };
        for numbers in [1, 2] {
            assert_eq!(listed(numbers, 5), Ok(vec![0; 5 * numbers]));
            assert_eq!(listed(numbers, 6), Err(Refusal::MisfitAnswer));
        }
        Ok(())
    }

    /// What is sent: the envelopes around the messages of the chunks.
    fn sent(delta: &Delta, limits: (u64, u64), sender: u64, sig_len: usize) -> Vec<ChunkSize> {
        let chunks = delta.chunks(limits.0, limits.1).expect("chunks");
        let sizes = chunks.into_iter().map(|chunk| {
            let rows = chunk.len();
            let body = Message::Delta(chunk).encode().expect("a message");
            let envelope = Envelope {
                sender: ActorId(sender),
                body: &body,
                sig: &vec![9; sig_len],
            };
            let mut frame = vec![0; 2_048];
            let bytes = envelope.encode(&mut frame).expect("an envelope");
            ChunkSize { rows, bytes }
        });
        sizes.collect()
    }

    #[test]
    fn sizes_are_those_of_what_is_sent() -> Result<(), Refusal> {
        let store = store()?;
        let delta = store.delta(&VectorClock::new())?;
        for limits in [
            (0, 1_000),
            (2, 1_000),
            (9, 0),
            (9, 48),
            (9, 1_000),
            (u64::MAX, u64::MAX),
        ] {
            for sender in [0, 127, 128, u64::MAX] {
                for sig_len in [0, 1, 127, 128, 1_023, 1_024] {
                    let sizes = delta.sizes(limits.0, limits.1, ActorId(sender), sig_len)?;
                    let sent = sent(&delta, limits, sender, sig_len);
                    assert_eq!(sizes, sent, "{limits:?}, {sender}, {sig_len}");
                }
            }
        }
        // The last row: stamp 3/0/2, author 2, sequence 2, 200 bytes of payload.
        let row = 3 + 2 + 1 + (2 + 200) + 1;
        let last = ChunkSize {
            rows: 1,
            bytes: 1 + (2 + 1 + 1 + row) + (1 + 64),
        };
        assert_eq!(delta.sizes(1, 0, ActorId(7), 64)?.last(), Some(&last));
        Ok(())
    }

    /// Above 64 rows no message is written, and from 128 on the count has two bytes.
    #[test]
    fn a_chunk_above_64_rows_has_the_bytes_of_the_layout() -> Result<(), Refusal> {
        let mut store = Store::with_capacity(200)?;
        let mut rows_bytes = 0;
        for seq in 1..=128 {
            let row = Row::new(Timestamp::new(seq, 0, ActorId(1)), seq, "Kette = chain");
            store.insert(&Slot::logged(&row)?)?;
            rows_bytes += Message::Delta(vec![row]).encode()?.len() - 2;
            if seq >= 64 {
                let delta = store.delta(&VectorClock::new())?;
                let body = 1 + varint_len(seq) + rows_bytes;
                let bytes = 1 + varint_len(body as u64) + body + (1 + 64);
                let whole = ChunkSize {
                    rows: seq as usize,
                    bytes,
                };
                assert_eq!(
                    delta.sizes(1_024, u64::MAX, ActorId(7), 64),
                    Ok(vec![whole])
                );
                let written = Message::Delta(delta.rows()?).encode();
                let refused = (seq > 64).then_some(Refusal::OverCapacity);
                assert_eq!(written.err(), refused);
            }
        }
        Ok(())
    }

    #[test]
    fn longer_signatures_are_refused() -> Result<(), Refusal> {
        let store = store()?;
        let delta = store.delta(&VectorClock::new())?;
        let sizes = |sig_len| {
            delta
                .sizes(9, 1_000, ActorId(7), sig_len)
                .map(|sizes| sizes.len())
        };
        assert_eq!(sizes(MAX_BODY_SIGNATURE), Ok(1));
        for sig_len in [MAX_BODY_SIGNATURE + 1, usize::MAX] {
            assert_eq!(sizes(sig_len), Err(Refusal::OverCapacity));
        }
        Ok(())
    }

    #[test]
    fn nothing_is_sent_of_an_empty_delta() -> Result<(), Refusal> {
        let store = store()?;
        let delta = store.delta(&store.clock()?)?;
        assert_eq!(delta.sizes(1, 0, ActorId(7), 64), Ok(vec![]));
        Ok(())
    }

    #[test]
    fn a_damaged_clock_is_refused() -> Result<(), Refusal> {
        let mut area = *VectorClock::new().area();
        area[7] = 33;
        let delta = store()?
            .delta(&VectorClock::from_area(area))
            .map(|delta| delta.len());
        assert_eq!(delta, Err(Refusal::UnsoundStore));
        Ok(())
    }
}
