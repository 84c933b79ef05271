//! Messages between peers, and the frames that carry them.

use cuwelfra_sys as sys;

use crate::codec::next;
use crate::words::{part, within};
use crate::{ActorId, Refusal, Row, Slot, VectorClock};
use crate::{CLOCK_BYTES, MAX_BATCH, SLOT_BYTES};

/// Bytes of a Hello's or Ack's body at most.
pub const MAX_CLOCK_BODY: usize = 642;
/// Bytes of a Delta's body at most.
pub const MAX_DELTA_BODY: usize = 44_098;
/// Bytes of a Ping's or Pong's body at most.
const MAX_NONCE_BODY: usize = 11;

const HELLO: u64 = 0;
const DELTA: u64 = 1;
const ACK: u64 = 2;
const PING: u64 = 3;
const PONG: u64 = 4;

/// What peers say to each other.
///
/// What [`Message::encode`] makes of a message, [`Message::decode`] turns into that message again.
///
/// ```
/// use cuwelfra::{ActorId, Envelope, Frame, Message, Refusal, VectorClock};
///
/// // The server's own: the signature over a body.
/// fn sign(body: &[u8]) -> Vec<u8> {
///     vec![body.len() as u8]
/// }
///
/// let mut clock = VectorClock::new();
/// clock.observe(ActorId(1), 300)?;
/// let hello = Message::Hello(clock);
///
/// // Author 7 sends it: the body, signed, in an envelope.
/// let body = hello.encode()?;
/// assert_eq!(body, [0, 1, 1, 0xac, 0x02]);
/// let envelope = Envelope { sender: ActorId(7), body: &body, sig: &sign(&body) };
/// let mut frame = vec![0; envelope.encoded_len()];
/// envelope.encode(&mut frame)?;
///
/// // The other side looks at the signature before it uses the message.
/// let read = Frame::decode(&frame)?;
/// assert_eq!((read.sender, read.sig), (ActorId(7), &sign(read.body)[..]));
/// assert_eq!(read.message, hello);
/// # Ok::<(), Refusal>(())
/// ```
///
/// The rows of a Delta go into a batch as they are:
///
/// ```
/// use cuwelfra::{ActorId, Batch, HybridClock, Message, Refusal, Request, Row, Store, Timestamp};
///
/// let row = Row::new(Timestamp::new(10, 0, ActorId(1)), 1, "Kette = chain").signed([7]);
/// let body = Message::Delta(vec![row]).encode()?;
///
/// let mut store = Store::with_capacity(16)?;
/// let mut clock = HybridClock::new(ActorId(2));
/// match Message::decode(&body)? {
///     Message::Delta(rows) => {
///         let mut batch = Batch::new();
///         for row in &rows {
///             // The server's verifier, and its policy and state.
///             batch.push(row, row.signature == [7], Ok(()))?;
///         }
///         assert_eq!(store.apply_delta(&mut clock, &Request::at(1_000), &batch)?.applied, 1);
///     }
///     other => panic!("{other:?} is no Delta"),
/// }
/// # Ok::<(), Refusal>(())
/// ```
#[derive(Clone, Debug, PartialEq, Eq, Hash)]
// A clock stands in its area of 520 bytes, here as elsewhere.
#[allow(clippy::large_enum_variant)]
pub enum Message {
    /// The sender's clock. The receiver answers with what the sender lacks, then with an Ack.
    Hello(VectorClock),
    /// Rows, at most [`MAX_BATCH`].
    Delta(Vec<Row>),
    /// The sender's clock after it has sent its delta.
    Ack(VectorClock),
    /// Asks whether the peer is there, with a nonce.
    Ping(u64),
    /// Answers a Ping with its nonce.
    Pong(u64),
}

impl Message {
    /// Its body; 1 for a clock that breaks its rules, 4 for a 65th row or a size above capacity, 3 for dependencies that
    /// do not rise.
    ///
    /// [`Delta::chunks`](crate::Delta::chunks) gives rows that fit, [`MAX_BATCH`] at a time.
    pub fn encode(&self) -> Result<Vec<u8>, Refusal> {
        match self {
            Self::Hello(clock) => {
                written(MAX_CLOCK_BODY, |out| sys::encode_hello(out, clock.area()))
            }
            Self::Delta(rows) => {
                let slots = slots(rows)?;
                written(MAX_DELTA_BODY, |out| {
                    sys::encode_delta(out, &slots, rows.len())
                })
            }
            Self::Ack(clock) => written(MAX_CLOCK_BODY, |out| sys::encode_ack(out, clock.area())),
            Self::Ping(nonce) => written(MAX_NONCE_BODY, |out| sys::encode_ping(out, *nonce)),
            Self::Pong(nonce) => written(MAX_NONCE_BODY, |out| sys::encode_pong(out, *nonce)),
        }
    }

    /// Reads the message that fills all of `body`; 4, 22 to 25, 29, 30.
    ///
    /// An entry of 0 is kept, in a clock and among dependencies. Authors need not rise: they come back sorted, and of one
    /// that comes twice the greatest number counts. Such a body is not what [`Message::encode`] makes of the message, and a
    /// row's signature covers the sorted dependencies of [`Row::signing_bytes`]. Every number is in its shortest form.
    pub fn decode(body: &[u8]) -> Result<Self, Refusal> {
        let mut areas = Areas::of(body.len());
        let told = sys::decode_message(body, &mut areas.clock, &mut areas.rows);
        Refusal::check(told.told)?;
        areas.message(told.tag, told.number)
    }
}

/// A message with its sender, and the signature over its body. [`Envelope::encode`](crate::Envelope::encode) writes one.
#[derive(Clone, Debug, PartialEq, Eq, Hash)]
#[non_exhaustive]
pub struct Frame<'a> {
    /// Who sent it, by its own word.
    pub sender: ActorId,
    /// The body, which the signature covers.
    pub body: &'a [u8],
    /// The signature over the body, which is not verified here.
    pub sig: &'a [u8],
    /// The message of the body.
    pub message: Message,
}

impl<'a> Frame<'a> {
    /// Reads the envelope that fills all of `frame` and the message that fills all of its body; 22 to 25 and 30 of the
    /// envelope, then as [`Message::decode`]. Body and signature are parts of it.
    ///
    /// Whether the sender signed the body is the server's to find out, before it uses the message.
    ///
    /// ```
    /// use cuwelfra::{ActorId, Envelope, Frame, Message, Refusal};
    ///
    /// let body = Message::Ping(300).encode()?;
    /// let envelope = Envelope { sender: ActorId(7), body: &body, sig: &[9; 64] };
    /// let mut bytes = vec![0; envelope.encoded_len()];
    /// envelope.encode(&mut bytes)?;
    /// let frame = Frame::decode(&bytes)?;
    /// assert_eq!((frame.sender, &frame.message), (ActorId(7), &Message::Ping(300)));
    ///
    /// // A snapshot's message is the server's to read: its envelope still decodes.
    /// let bytes = [7, 1, 6, 0];
    /// assert_eq!(Frame::decode(&bytes), Err(Refusal::InvalidTag { tag: 6 }));
    /// assert_eq!(Envelope::decode(&bytes)?.body, [6]);
    /// # Ok::<(), Refusal>(())
    /// ```
    pub fn decode(frame: &'a [u8]) -> Result<Self, Refusal> {
        let mut areas = Areas::of(frame.len());
        let told = sys::decode_frame(frame, &mut areas.clock, &mut areas.rows);
        framed(frame, &told, &areas)
    }
}

/// The frame that was read, once all of the answer is known to fit.
fn framed<'a>(frame: &'a [u8], told: &sys::FrameTold, areas: &Areas) -> Result<Frame<'a>, Refusal> {
    Refusal::check(told.told)?;
    Ok(Frame {
        sender: ActorId(told.sender),
        body: part(frame, told.body_at, told.body_len)?,
        sig: part(frame, told.sig_at, told.sig_len)?,
        message: areas.message(told.tag, told.number)?,
    })
}

/// What a reading writes into.
struct Areas {
    clock: [u8; CLOCK_BYTES],
    rows: Vec<u8>,
}

impl Areas {
    /// Enough for a body or frame of so many bytes: the shortest row has 8.
    fn of(len: usize) -> Self {
        let rows = (len / 8).min(MAX_BATCH);
        Self {
            clock: [0; CLOCK_BYTES],
            rows: vec![0; rows * SLOT_BYTES],
        }
    }

    /// The message that an answer tells of, strictly read.
    fn message(&self, tag: u64, number: u64) -> Result<Message, Refusal> {
        Ok(match (tag, number) {
            (HELLO, 0) => Message::Hello(self.clock()?),
            (DELTA, count) => Message::Delta(self.rows(count)?),
            (ACK, 0) => Message::Ack(self.clock()?),
            (PING, nonce) => Message::Ping(nonce),
            (PONG, nonce) => Message::Pong(nonce),
            _ => return Err(Refusal::MisfitAnswer),
        })
    }

    fn clock(&self) -> Result<VectorClock, Refusal> {
        let clock = VectorClock::from_area(self.clock);
        match clock.entries() {
            Ok(_) => Ok(clock),
            Err(_) => Err(Refusal::MisfitAnswer),
        }
    }

    /// The rows of so many slots, each a logged row's.
    fn rows(&self, count: u64) -> Result<Vec<Row>, Refusal> {
        let (slots, _) = self.rows.as_chunks::<SLOT_BYTES>();
        let count = within(count, slots.len())?;
        let rows = slots.iter().take(count).map(|area| {
            let slot = Slot::from_area(*area);
            let held = slot.row().map_err(|_| Refusal::MisfitAnswer)?;
            match (held.arrived_ms, held.outcome) {
                (0, Ok(())) => Ok(held.row),
                _ => Err(Refusal::MisfitAnswer),
            }
        });
        rows.collect()
    }
}

/// The slots of rows, at most 64; 4 and 3 by the first row that has no slot.
fn slots(rows: &[Row]) -> Result<Vec<u8>, Refusal> {
    if rows.len() > MAX_BATCH {
        return Err(Refusal::OverCapacity);
    }
    let mut slots = Vec::with_capacity(rows.len() * SLOT_BYTES);
    for row in rows {
        slots.extend_from_slice(Slot::logged(row)?.area());
    }
    Ok(slots)
}

/// What a call writes into so much room.
fn written(room: usize, call: impl FnOnce(&mut [u8]) -> sys::Written) -> Result<Vec<u8>, Refusal> {
    let mut out = vec![0; room];
    let len = next(call(&mut out), room)?;
    out.truncate(len);
    Ok(out)
}

#[cfg(test)]
mod tests {
    use super::*;
    use crate::words::set_word;
    use crate::{Batch, Envelope, Timestamp};

    const MISFIT: Refusal = Refusal::MisfitAnswer;

    /// A clock of these entries.
    fn clock(entries: &[(u64, u64)]) -> VectorClock {
        let mut area = [0; CLOCK_BYTES];
        set_word(&mut area, 0, entries.len() as u64);
        for (i, (author, number)) in entries.iter().enumerate() {
            set_word(&mut area, 8 + 16 * i, *author);
            set_word(&mut area, 16 + 16 * i, *number);
        }
        VectorClock::from_area(area)
    }

    /// A row of the largest sizes, and one of the smallest.
    fn rows() -> [Row; 2] {
        let stamp = Timestamp::new(u64::MAX, u32::MAX, ActorId(u64::MAX));
        let needs = |row: Row, i| row.needs(ActorId(u64::MAX - 16 + i), u64::MAX);
        let largest = Row::new(stamp, u64::MAX, [1; 256]).signed([2; 64]);
        let smallest = Row::new(Timestamp::new(0, 0, ActorId(0)), 0, "");
        [(0..16).fold(largest, needs), smallest]
    }

    /// The frame of a body, from author 7.
    fn frame(body: &[u8], sig: &[u8]) -> Result<Vec<u8>, Refusal> {
        let envelope = Envelope {
            sender: ActorId(7),
            body,
            sig,
        };
        let mut frame = vec![0; envelope.encoded_len()];
        envelope.encode(&mut frame)?;
        Ok(frame)
    }

    #[test]
    fn every_message_comes_back() -> Result<(), Refusal> {
        let [largest, smallest] = rows();
        let full = (1..=32).map(|i| (u64::MAX - 32 + i, u64::MAX));
        let full = clock(&full.collect::<Vec<_>>());
        let messages = [
            (Message::Hello(VectorClock::new()), 2),
            (Message::Hello(clock(&[(1, 0)])), 4),
            (Message::Hello(full), MAX_CLOCK_BODY),
            (Message::Ack(clock(&[(0, 0), (1, 300)])), 7),
            (Message::Ack(full), MAX_CLOCK_BODY),
            (Message::Delta(vec![]), 2),
            (Message::Delta(vec![smallest.clone(); 2]), 18),
            (Message::Delta(vec![smallest.needs(ActorId(1), 0)]), 12),
            (Message::Delta(vec![largest; 64]), MAX_DELTA_BODY),
            (Message::Ping(0), 2),
            (Message::Ping(u64::MAX), MAX_NONCE_BODY),
            (Message::Pong(127), 2),
            (Message::Pong(128), 3),
        ];
        for (message, len) in messages {
            let body = message.encode()?;
            assert_eq!(body.len(), len);
            assert_eq!(Message::decode(&body).as_ref(), Ok(&message));
            let sig = [9; 3];
            let bytes = frame(&body, &sig)?;
            let read = Frame::decode(&bytes)?;
            let wanted = Frame {
                sender: ActorId(7),
                body: &body,
                sig: &sig,
                message,
            };
            assert_eq!(read, wanted);
        }
        Ok(())
    }

    #[test]
    fn bytes_are_those_of_the_layout() -> Result<(), Refusal> {
        assert_eq!(Message::Hello(clock(&[(1, 0)])).encode()?, [0, 1, 1, 0]);
        assert_eq!(Message::Delta(vec![]).encode()?, [1, 0]);
        let [_, smallest] = rows();
        let body = Message::Delta(vec![smallest]).encode()?;
        assert_eq!(body, [1, 1, 0, 0, 0, 0, 0, 0, 0, 0]);
        assert_eq!(Message::Ack(VectorClock::new()).encode()?, [2, 0]);
        assert_eq!(Message::Ping(300).encode()?, [3, 0xac, 2]);
        assert_eq!(Message::Pong(300).encode()?, [4, 0xac, 2]);
        Ok(())
    }

    #[test]
    fn authors_in_any_order_and_twice_are_read() {
        let bodies: [(&[u8], Message); 2] = [
            (
                &[0, 2, 5, 1, 3, 2],
                Message::Hello(clock(&[(3, 2), (5, 1)])),
            ),
            (&[2, 3, 5, 1, 5, 9, 5, 2], Message::Ack(clock(&[(5, 9)]))),
        ];
        for (body, message) in bodies {
            assert_eq!(Message::decode(body), Ok(message), "{body:?}");
        }
    }

    #[test]
    fn every_refusal_of_reading() -> Result<(), Refusal> {
        use Refusal::{OverCapacity, Overlong, TooLarge, TrailingBytes, Truncated, VarintOverflow};
        let tag = |tag| Refusal::InvalidTag { tag };
        let pairs = |count: u8, left: usize| [&[0, count][..], &vec![1; left]].concat();
        // The start of a row, up to its dependencies.
        let row = |rest: &[u8]| [&[1, 1, 0, 0, 0, 0, 1][..], rest].concat();
        let sized = |at: &[u8], left: usize| row(&[at, &vec![0; left]].concat());
        let bodies = [
            (vec![], Truncated),
            (vec![5], tag(5)),
            (vec![6, 0], tag(6)),
            (vec![0x80, 0], tag(0x80)),
            (vec![255; 20], tag(255)),
            (vec![3], Truncated),
            (vec![4, 0x80], Truncated),
            (vec![3; 1], Truncated),
            ([&[3][..], &[0xff; 11]].concat(), VarintOverflow),
            (vec![0, 1], TooLarge),
            (pairs(33, 32), TooLarge),
            (pairs(33, 33), OverCapacity),
            (pairs(32, 32), Truncated),
            (vec![0, 0, 0], TrailingBytes),
            ([&[1, 65][..], &[0; 64]].concat(), TooLarge),
            ([&[1, 65][..], &[0; 65]].concat(), OverCapacity),
            // A counter of 33 bits.
            (
                [&[1, 1, 0][..], &[0x80, 0x80, 0x80, 0x80, 0x10]].concat(),
                VarintOverflow,
            ),
            (sized(&[17], 17), OverCapacity),
            (sized(&[17], 16), TooLarge),
            (sized(&[0, 0x81, 0x02], 256), TooLarge),
            (sized(&[0, 0x81, 0x02], 257), OverCapacity),
            (sized(&[0, 0, 65], 64), TooLarge),
            (sized(&[0, 0, 65], 65), OverCapacity),
            // Overlong, before 24 and 4; a counter of 33 bits is 23 in any form.
            (vec![3, 0x80, 0], Overlong),
            (vec![1, 0x80, 0x80, 0], Overlong),
            (vec![0, 0x81, 0], Overlong),
            ([&[1, 0xc1, 0][..], &[0; 65]].concat(), Overlong),
            (sized(&[0, 0x81, 0x82, 0], 257), Overlong),
            (sized(&[0, 0, 0x80, 0], 0), Overlong),
            (
                [&[1, 1, 0][..], &[0x80, 0x80, 0x80, 0x80, 0x90, 0]].concat(),
                VarintOverflow,
            ),
        ];
        for (body, refusal) in bodies {
            assert_eq!(Message::decode(&body), Err(refusal), "{body:?}");
            // The bytes of the signature are not left of the body.
            let framed = frame(&body, &[0; 300])?;
            assert_eq!(Frame::decode(&framed), Err(refusal), "{body:?}");
        }
        let whole = frame(&[3, 7], &[9; 2])?;
        for len in 0..whole.len() {
            let refusal = Envelope::decode(&whole[..len]).expect_err("cut short");
            assert_eq!(Frame::decode(&whole[..len]), Err(refusal));
        }
        let longer = [&whole[..], &[0]].concat();
        assert_eq!(Frame::decode(&longer), Err(TrailingBytes));
        Ok(())
    }

    #[test]
    fn every_refusal_of_writing() {
        let unsound = clock(&[(2, 1), (1, 1)]);
        for message in [Message::Hello(unsound), Message::Ack(unsound)] {
            assert_eq!(message.encode(), Err(Refusal::UnsoundStore));
        }
        let [largest, smallest] = rows();
        let many = Message::Delta(vec![smallest.clone(); 65]);
        assert_eq!(many.encode(), Err(Refusal::OverCapacity));
        let mut long = largest;
        long.payload.push(0);
        let long = Message::Delta(vec![smallest.clone(), long]);
        assert_eq!(long.encode(), Err(Refusal::OverCapacity));
        let falling = smallest.needs(ActorId(2), 1).needs(ActorId(1), 1);
        let falling = Message::Delta(vec![falling]);
        assert_eq!(falling.encode(), Err(Refusal::Unreadable));
    }

    /// Rows of a Delta are what a batch takes.
    #[test]
    fn rows_go_into_a_batch() -> Result<(), Refusal> {
        let sent = rows().to_vec();
        let body = Message::Delta(sent.clone()).encode()?;
        let Message::Delta(read) = Message::decode(&body)? else {
            panic!("no Delta");
        };
        let mut batch = Batch::new();
        for row in &read {
            batch.push(row, true, Ok(()))?;
        }
        let rows = Batch::read(batch.bytes())?;
        assert_eq!(
            rows.into_iter().map(|one| one.row).collect::<Vec<_>>(),
            sent
        );
        Ok(())
    }

    /// The areas that reading would leave.
    fn areas(slots: &[Slot]) -> Areas {
        Areas {
            clock: *clock(&[(1, 2)]).area(),
            rows: slots.iter().flat_map(|slot| *slot.area()).collect(),
        }
    }

    #[test]
    fn answers_are_read_strictly() -> Result<(), Refusal> {
        let [_, row] = rows();
        let slot = Slot::logged(&row)?;
        let read = areas(std::slice::from_ref(&slot));
        assert_eq!(read.message(0, 0), Ok(Message::Hello(clock(&[(1, 2)]))));
        assert_eq!(read.message(1, 1), Ok(Message::Delta(vec![row.clone()])));
        assert_eq!(read.message(4, 9), Ok(Message::Pong(9)));
        for (tag, number) in [(0, 1), (2, 1), (1, 2), (1, u64::MAX), (5, 0), (u64::MAX, 0)] {
            assert_eq!(read.message(tag, number), Err(MISFIT), "{tag} {number}");
        }
        // A clock that breaks its rules, a slot that does not read, a held row's slot.
        let mut unsound = areas(&[]);
        unsound.clock[7] = 33;
        assert_eq!(unsound.message(2, 0), Err(MISFIT));
        let held = crate::HeldRow::new(row, 1, Ok(()));
        let slots = [Slot::from_area([1; SLOT_BYTES]), Slot::held(&held)?];
        for slot in slots {
            assert_eq!(areas(&[slot]).message(1, 1), Err(MISFIT));
        }
        Ok(())
    }

    #[test]
    fn parts_of_a_frame_lie_in_it() {
        let told = |body_at, sig_len| sys::FrameTold {
            body_at,
            body_len: 2,
            sig_len,
            tag: PING,
            ..sys::FrameTold::default()
        };
        let read = |told| framed(&[3; 5], &told, &Areas::of(0)).map(|frame| frame.body.len());
        assert_eq!(read(told(3, 5)), Ok(2));
        assert_eq!(read(told(4, 5)), Err(MISFIT));
        assert_eq!(read(told(3, 6)), Err(MISFIT));
    }
}
