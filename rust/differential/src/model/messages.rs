//! Message bodies and frames by document 02's tickets 3 and 4, field by field: what a reading answers, by the first fault,
//! and what a message is written as.

use cuwelfra_sys::{EnvelopeRead, FrameTold, MessageTold, Told};

use crate::leb128::{self, put};
use crate::port::area::{self, Area};
use crate::port::rows::{read_logged, Row, SLOT};
use crate::support::{refused, Refusing};

pub type Pairs = Vec<(u64, u64)>;

#[derive(Clone, Debug, PartialEq, Eq)]
pub enum Message {
    Hello(Pairs),
    Delta(Vec<Row>),
    Ack(Pairs),
    Ping(u64),
    Pong(u64),
}

/// Where a reading can be refused, in reading order.
#[derive(Clone, Copy, Debug, PartialEq, Eq)]
pub enum Field {
    ClockArea,
    Sender,
    BodyLength,
    BodySignature,
    FrameEnd,
    Tag,
    EntryCount,
    EntryAuthor,
    EntryNumber,
    Nonce,
    RowCount,
    Wall,
    Counter,
    StampAuthor,
    Author,
    Sequence,
    CauseCount,
    CauseAuthor,
    CauseNumber,
    Payload,
    Signature,
    BodyEnd,
    RowsArea,
}

/// The fields of an envelope.
pub const ENVELOPE: [Field; 4] = [
    Field::Sender,
    Field::BodyLength,
    Field::BodySignature,
    Field::FrameEnd,
];
/// The fields of a body.
pub static BODY: [Field; 17] = [
    Field::Tag,
    Field::EntryCount,
    Field::EntryAuthor,
    Field::EntryNumber,
    Field::Nonce,
    Field::RowCount,
    Field::Wall,
    Field::Counter,
    Field::StampAuthor,
    Field::Author,
    Field::Sequence,
    Field::CauseCount,
    Field::CauseAuthor,
    Field::CauseNumber,
    Field::Payload,
    Field::Signature,
    Field::BodyEnd,
];
/// The lent areas, of which the first is tested before all else and the second after it.
pub const AREAS: [Field; 2] = [Field::ClockArea, Field::RowsArea];

/// The fields of a message that are numbers, by its tag.
pub fn numbered(tag: usize) -> &'static [Field] {
    match tag {
        0 | 2 => &BODY[1..4],
        1 => &BODY[5..16],
        _ => &BODY[4..5],
    }
}

impl Field {
    /// The numbers that refuse at the field, in their order.
    pub fn numbers(self) -> &'static [u64] {
        match self {
            Self::ClockArea | Self::RowsArea => &[2],
            Self::Tag => &[22, 29],
            Self::FrameEnd | Self::BodyEnd => &[25],
            Self::BodyLength | Self::BodySignature => &[22, 23, 30, 24],
            _ => match self.limits() {
                Some(_) => &[22, 23, 30, 24, 4],
                None => &[22, 23, 30],
            },
        }
    }

    /// Of a count or a length: the original's limit, 24 above it, and our capacity, 4 above it.
    pub fn limits(self) -> Option<(u64, u64)> {
        Some(match self {
            Self::BodyLength => (1 << 24, 1 << 24),
            Self::BodySignature => (1_024, 1_024),
            Self::EntryCount => (4_096, 32),
            Self::RowCount => (4_096, 64),
            Self::CauseCount => (4_096, 16),
            Self::Payload => (1 << 20, 256),
            Self::Signature => (1_024, 64),
            _ => return None,
        })
    }
}

/// A refusal, where it stands, the count or length there, and the tag of the body.
#[derive(Clone, Copy, Debug, PartialEq, Eq)]
pub struct Fault {
    pub told: Told,
    pub field: Field,
    pub size: Option<Size>,
    pub tag: Option<u8>,
}

/// A count or a length, and how many bytes are left before it and behind it.
#[derive(Clone, Copy, Debug, PartialEq, Eq)]
pub struct Size {
    pub value: u64,
    pub before: usize,
    pub left: usize,
}

type Read<T> = Result<T, Fault>;

impl Fault {
    fn at(told: Told, field: Field) -> Self {
        Self {
            told,
            field,
            size: None,
            tag: None,
        }
    }

    /// Whether a number is in more bytes than it needs.
    pub fn is_overlong(&self) -> bool {
        self.told.number == leb128::OVERLONG
    }
}

/// What readings met in clocks and dependencies.
#[derive(Clone, Copy, Debug, Default, PartialEq, Eq)]
pub struct Met {
    /// An author that is below the one before it.
    pub fell: bool,
    /// An author that came before.
    pub repeated: bool,
    /// An entry of 0 in what was read.
    pub zero: bool,
}

impl Met {
    /// Whether the authors of every clock and of all dependencies rise, so that the message is written as it was read.
    pub fn rose(&self) -> bool {
        !self.fell && !self.repeated
    }
}

/// The message that fills all of the body, and what was met up to its end or its first fault.
pub fn read_message(body: &[u8]) -> (Read<Message>, Met) {
    let mut walk = Walk {
        left: body,
        met: Met::default(),
    };
    let tag = body.first().copied();
    let read = walk.message().map_err(|fault| Fault { tag, ..fault });
    (read, walk.met)
}

/// The envelope that fills all of the frame.
pub fn read_envelope(frame: &[u8]) -> Read<EnvelopeRead> {
    let mut walk = Walk {
        left: frame,
        met: Met::default(),
    };
    let sender = walk.number(Field::Sender)?;
    let body_len = walk.part(Field::BodyLength)?.len();
    let body_at = frame.len() - walk.left.len() - body_len;
    let sig_len = walk.part(Field::BodySignature)?.len();
    let sig_at = frame.len() - walk.left.len() - sig_len;
    walk.end(Field::FrameEnd)?;
    Ok(EnvelopeRead {
        told: Told::default(),
        sender,
        body_at: body_at as u64,
        body_len: body_len as u64,
        sig_at: sig_at as u64,
        sig_len: sig_len as u64,
    })
}

/// What is left of the bytes.
struct Walk<'a> {
    left: &'a [u8],
    met: Met,
}

impl<'a> Walk<'a> {
    fn message(&mut self) -> Read<Message> {
        let Some((tag, rest)) = self.left.split_first() else {
            return fault(refused(22), Field::Tag);
        };
        self.left = rest;
        let message = match tag {
            0 => Message::Hello(self.entries()?),
            1 => {
                let count = self.size(Field::RowCount)?;
                Message::Delta((0..count).map(|_| self.row()).collect::<Read<_>>()?)
            }
            2 => Message::Ack(self.entries()?),
            3 => Message::Ping(self.number(Field::Nonce)?),
            4 => Message::Pong(self.number(Field::Nonce)?),
            other => {
                let told = Told {
                    first: u64::from(*other),
                    ..refused(29)
                };
                return fault(told, Field::Tag);
            }
        };
        self.end(Field::BodyEnd)?;
        Ok(message)
    }

    fn entries(&mut self) -> Read<Pairs> {
        self.pairs(Field::EntryCount, Field::EntryAuthor, Field::EntryNumber)
    }

    fn row(&mut self) -> Read<Row> {
        let wall = self.number(Field::Wall)?;
        let counter = self.read(Field::Counter, leb128::read_u32)?;
        Ok(Row {
            stamp: (wall, counter as u32, self.number(Field::StampAuthor)?),
            author: self.number(Field::Author)?,
            seq: self.number(Field::Sequence)?,
            deps: self.pairs(Field::CauseCount, Field::CauseAuthor, Field::CauseNumber)?,
            payload: self.part(Field::Payload)?.to_vec(),
            signature: self.part(Field::Signature)?.to_vec(),
        })
    }

    /// Pairs in any order. Each author once, by rising author, with the greatest of its numbers.
    fn pairs(&mut self, count: Field, author: Field, number: Field) -> Read<Pairs> {
        let mut pairs = Pairs::new();
        for _ in 0..self.size(count)? {
            let pair = (self.number(author)?, self.number(number)?);
            self.met.fell |= pairs.last().is_some_and(|before| pair.0 < before.0);
            self.met.repeated |= pairs.iter().any(|before| before.0 == pair.0);
            pairs.push(pair);
        }
        // The greatest number of an author comes first, and alone stays.
        pairs.sort_by(|one, other| one.0.cmp(&other.0).then(other.1.cmp(&one.1)));
        pairs.dedup_by_key(|pair| pair.0);
        self.met.zero |= pairs.iter().any(|pair| pair.1 == 0);
        Ok(pairs)
    }

    fn part(&mut self, field: Field) -> Read<&'a [u8]> {
        let size = self.size(field)?;
        let (part, rest) = self.left.split_at(size);
        self.left = rest;
        Ok(part)
    }

    /// A count or a length: 24, then 4.
    fn size(&mut self, field: Field) -> Read<usize> {
        let before = self.left.len();
        let size = self.number(field)?;
        let (limit, capacity) = field.limits().expect("a field with limits");
        let left = self.left.len();
        let number = match size {
            _ if size > limit || size > left as u64 => 24,
            _ if size > capacity => 4,
            _ => return Ok(size as usize),
        };
        Err(Fault {
            size: Some(Size {
                value: size,
                before,
                left,
            }),
            ..Fault::at(refused(number), field)
        })
    }

    fn number(&mut self, field: Field) -> Read<u64> {
        self.read(field, leb128::read)
    }

    fn read(&mut self, field: Field, read: fn(&[u8]) -> leb128::Read) -> Read<u64> {
        match read(self.left) {
            Ok((number, len)) => {
                self.left = &self.left[len..];
                Ok(number)
            }
            Err(number) => fault(refused(number), field),
        }
    }

    fn end(&mut self, field: Field) -> Read<()> {
        match self.left.is_empty() {
            true => Ok(()),
            false => fault(refused(25), field),
        }
    }
}

fn fault<T>(told: Told, field: Field) -> Read<T> {
    Err(Fault::at(told, field))
}

/// What a reading call answers, what it writes, and where it was refused.
#[derive(Clone, Debug, PartialEq, Eq)]
pub struct Answer<T> {
    pub told: T,
    pub written: Written,
    pub fault: Option<Fault>,
    pub met: Met,
}

/// What a reading call writes into the areas.
#[derive(Clone, Debug, PartialEq, Eq)]
pub enum Written {
    Nothing,
    Clock(Box<Area>),
    Slots(Vec<Row>),
}

/// The answer to a body with areas of these lengths.
pub fn message_call(body: &[u8], clock: usize, rows: usize) -> Answer<MessageTold> {
    if clock < area::BYTES {
        return turned_down(short(Field::ClockArea), Met::default());
    }
    let (read, met) = read_message(body);
    match read.and_then(|message| fits(message, rows)) {
        Ok(message) => {
            let (tag, number) = numbers(&message);
            Answer {
                told: MessageTold {
                    told: Told::default(),
                    tag,
                    number,
                },
                written: written(message),
                fault: None,
                met,
            }
        }
        Err(fault) => turned_down(fault, met),
    }
}

/// The answer to a frame with areas of these lengths.
pub fn frame_call(frame: &[u8], clock: usize, rows: usize) -> Answer<FrameTold> {
    if clock < area::BYTES {
        return turned_down(short(Field::ClockArea), Met::default());
    }
    let envelope = match read_envelope(frame) {
        Ok(envelope) => envelope,
        Err(fault) => return turned_down(fault, Met::default()),
    };
    let body = &frame[envelope.body_at as usize..][..envelope.body_len as usize];
    let Answer {
        told,
        written,
        fault,
        met,
    } = message_call(body, clock, rows);
    if let Some(fault) = fault {
        return turned_down(fault, met);
    }
    Answer {
        told: FrameTold {
            told: Told::default(),
            sender: envelope.sender,
            body_at: envelope.body_at,
            body_len: envelope.body_len,
            sig_at: envelope.sig_at,
            sig_len: envelope.sig_len,
            tag: told.tag,
            number: told.number,
        },
        written,
        fault,
        met,
    }
}

fn turned_down<T: Refusing>(fault: Fault, met: Met) -> Answer<T> {
    Answer {
        told: T::refusing(fault.told),
        written: Written::Nothing,
        fault: Some(fault),
        met,
    }
}

fn short(field: Field) -> Fault {
    Fault::at(refused(2), field)
}

fn fits(message: Message, rows: usize) -> Read<Message> {
    match &message {
        Message::Delta(read) if rows < SLOT * read.len() => Err(short(Field::RowsArea)),
        _ => Ok(message),
    }
}

/// Tag and number, as the call tells them.
pub fn numbers(message: &Message) -> (u64, u64) {
    match message {
        Message::Hello(_) => (0, 0),
        Message::Delta(rows) => (1, rows.len() as u64),
        Message::Ack(_) => (2, 0),
        Message::Ping(nonce) => (3, *nonce),
        Message::Pong(nonce) => (4, *nonce),
    }
}

fn written(message: Message) -> Written {
    match message {
        Message::Hello(pairs) | Message::Ack(pairs) => {
            Written::Clock(Box::new(area::encode(pairs)))
        }
        Message::Delta(rows) => Written::Slots(rows),
        Message::Ping(_) | Message::Pong(_) => Written::Nothing,
    }
}

/// What is written of a clock area behind a tag: 2, then 1.
pub fn clock_body(tag: u8, clock: &[u8]) -> Result<Vec<u8>, Told> {
    if clock.len() < area::BYTES {
        return Err(refused(2));
    }
    if !area::is_sound(&clock[..area::BYTES]) {
        return Err(refused(1));
    }
    let mut out = vec![tag];
    put_pairs(&mut out, &area::entries(clock).collect::<Pairs>());
    Ok(out)
}

/// What is written of so many slots: 2, then 1, then 4.
pub fn delta_body(slots: &[u8], count: usize) -> Result<Vec<u8>, Told> {
    if slots.len() / SLOT < count {
        return Err(refused(2));
    }
    let rows = slots.chunks(SLOT).take(count).map(read_logged);
    let rows: Vec<Row> = rows.collect::<Option<_>>().ok_or(refused(1))?;
    if count > 64 {
        return Err(refused(4));
    }
    Ok(bytes(&Message::Delta(rows)))
}

/// The body of a message.
pub fn bytes(message: &Message) -> Vec<u8> {
    let mut out = vec![numbers(message).0 as u8];
    match message {
        Message::Hello(pairs) | Message::Ack(pairs) => put_pairs(&mut out, pairs),
        Message::Delta(rows) => {
            put(&mut out, rows.len() as u64);
            for row in rows {
                put_row(&mut out, row);
            }
        }
        Message::Ping(nonce) | Message::Pong(nonce) => put(&mut out, *nonce),
    }
    out
}

fn put_row(out: &mut Vec<u8>, row: &Row) {
    let (wall, counter, stamp_author) = row.stamp;
    for number in [wall, counter.into(), stamp_author, row.author, row.seq] {
        put(out, number);
    }
    put_pairs(out, &row.deps);
    for part in [&row.payload, &row.signature] {
        put(out, part.len() as u64);
        out.extend(part);
    }
}

fn put_pairs(out: &mut Vec<u8>, pairs: &[(u64, u64)]) {
    put(out, pairs.len() as u64);
    for (author, number) in pairs {
        put(out, *author);
        put(out, *number);
    }
}

#[cfg(test)]
mod tests {
    use super::*;
    use crate::leb128::longer;

    fn read(body: &[u8]) -> Result<Message, (u64, Field)> {
        let (read, _) = read_message(body);
        read.map_err(|fault| (fault.told.number, fault.field))
    }

    /// The traps of the ticket.
    #[test]
    fn small_bodies() {
        use Field::*;
        use Message::*;
        assert_eq!(read(&[0, 1, 1, 0]), Ok(Hello(vec![(1, 0)])));
        let sorted = Ok(Ack(vec![(3, 2), (5, 1)]));
        assert_eq!(read(&[2, 2, 5, 1, 3, 2]), sorted);
        assert_eq!(read(&[0, 2, 5, 9, 5, 2]), Ok(Hello(vec![(5, 9)])));
        assert_eq!(read(&[1, 0]), Ok(Delta(vec![])));
        assert_eq!(read(&[3, 0xac, 2]), Ok(Ping(300)));
        assert_eq!(read(&[]), Err((22, Tag)));
        assert_eq!(read(&[5]), Err((29, Tag)));
        assert_eq!(read(&[0x80, 0]), Err((29, Tag)));
        assert_eq!(read(&[0, 1]), Err((24, EntryCount)));
        assert_eq!(read(&[0, 1, 1]), Err((22, EntryNumber)));
        assert_eq!(read(&[0, 0, 0]), Err((25, BodyEnd)));
        let many = |count: u8, left: usize| [&[0, count][..], &vec![1; left]].concat();
        assert_eq!(read(&many(33, 32)), Err((24, EntryCount)));
        assert_eq!(read(&many(33, 33)), Err((4, EntryCount)));
        assert_eq!(read(&many(32, 63)), Err((22, EntryNumber)));
    }

    /// 30 comes before 24 and 4, and behind 23; the tag is no number.
    #[test]
    fn overlong_numbers() {
        use Field::*;
        assert_eq!(read(&[4, 0x80, 0]), Err((30, Nonce)));
        assert_eq!(read(&[0, 0x81, 0]), Err((30, EntryCount)));
        let rows = |count: &[u8]| [&[1], count, &[0; 65]].concat();
        assert_eq!(read(&rows(&[65])), Err((4, RowCount)));
        assert_eq!(read(&rows(&[0xc1, 0])), Err((30, RowCount)));
        let counter = |number, more| [&[1, 1, 0][..], &longer(number, more)].concat();
        assert_eq!(read(&counter(7, 1)), Err((30, Counter)));
        assert_eq!(read(&counter(1 << 32, 1)), Err((23, Counter)));
    }
}
