//! Varints, readers, writers and envelopes.

use cuwelfra_sys as sys;

use crate::words::{part, size, small, within};
use crate::{ActorId, Refusal};

/// Bytes of an envelope's body at most.
pub const MAX_BODY: usize = 16_777_216;
/// Bytes of an envelope's signature at most.
pub const MAX_BODY_SIGNATURE: usize = 1_024;

/// How many bytes the shortest varint of `v` has: 1 to 10.
pub fn varint_len(v: u64) -> usize {
    sys::varint_len(v)
}

/// Reads from a slice. A refused read leaves the position. A varint is read in its shortest form alone.
///
/// ```
/// use cuwelfra::{Reader, Refusal};
///
/// let mut reader = Reader::new(&[0xac, 0x02, 3, b'a', b'b', b'c', 0x80]);
/// assert_eq!(reader.varint(), Ok(300));
/// assert_eq!(reader.bytes(256), Ok(&b"abc"[..]));
/// assert_eq!(reader.varint(), Err(Refusal::Truncated));
/// assert_eq!((reader.position(), reader.remaining()), (6, 1));
/// assert_eq!(reader.finish(), Err(Refusal::TrailingBytes));
///
/// // 300 in a byte more than it needs.
/// assert_eq!(Reader::new(&[0xac, 0x82, 0]).varint(), Err(Refusal::Overlong));
/// ```
#[derive(Clone, Copy, Debug)]
pub struct Reader<'a> {
    bytes: &'a [u8],
    at: usize,
}

impl<'a> Reader<'a> {
    /// A reader at the start of `bytes`.
    pub fn new(bytes: &'a [u8]) -> Self {
        Self { bytes, at: 0 }
    }

    /// Where the next read starts.
    pub fn position(&self) -> usize {
        self.at
    }

    /// How many bytes are left.
    pub fn remaining(&self) -> usize {
        size(sys::remaining(self.bytes, self.at))
    }

    /// Reads one byte; 22.
    pub fn u8(&mut self) -> Result<u8, Refusal> {
        let read = sys::get_u8(self.bytes, self.at);
        self.number(read)
    }

    /// Reads a varint; 22, 23, 30.
    pub fn varint(&mut self) -> Result<u64, Refusal> {
        let read = sys::get_varint(self.bytes, self.at);
        self.number(read)
    }

    /// Reads a varint of at most 32 bits; 22, 23, 30.
    pub fn u32(&mut self) -> Result<u32, Refusal> {
        let read = sys::get_u32(self.bytes, self.at);
        self.number(read)
    }

    /// Reads a count of at most `max` and at most the bytes left after it; 22, 23, 30, 24.
    pub fn count(&mut self, max: u64) -> Result<usize, Refusal> {
        let read = sys::get_count(self.bytes, self.at, max);
        self.number(read)
    }

    /// Reads bytes, length first, at most `max`; 22, 23, 30, 24.
    pub fn bytes(&mut self, max: u64) -> Result<&'a [u8], Refusal> {
        let read = sys::get_bytes(self.bytes, self.at, max);
        Refusal::check(read.told)?;
        let part = part(self.bytes, read.start, read.len)?;
        self.at = within(read.next, self.bytes.len())?;
        Ok(part)
    }

    /// Nothing may be left; 25.
    pub fn finish(&self) -> Result<(), Refusal> {
        Refusal::check(sys::finish(self.bytes, self.at))
    }

    fn number<T: TryFrom<u64>>(&mut self, read: sys::NumberRead) -> Result<T, Refusal> {
        Refusal::check(read.told)?;
        let value = small(read.value)?;
        self.at = within(read.next, self.bytes.len())?;
        Ok(value)
    }
}

/// Writes into a lent slice. A refused write leaves slice and position.
///
/// ```
/// use cuwelfra::{Refusal, Writer};
///
/// let mut out = [0; 6];
/// let mut writer = Writer::new(&mut out);
/// writer.varint(300)?;
/// writer.bytes(b"ab")?;
/// assert_eq!(writer.position(), 5);
/// assert_eq!(writer.varint(300), Err(Refusal::ShortArea));
/// writer.u8(7)?;
/// assert_eq!(out, [0xac, 0x02, 2, b'a', b'b', 7]);
/// # Ok::<(), Refusal>(())
/// ```
#[derive(Debug)]
pub struct Writer<'a> {
    out: &'a mut [u8],
    at: usize,
}

impl<'a> Writer<'a> {
    /// A writer at the start of `out`.
    pub fn new(out: &'a mut [u8]) -> Self {
        Self { out, at: 0 }
    }

    /// How many bytes were written.
    pub fn position(&self) -> usize {
        self.at
    }

    /// Writes one byte; 2.
    pub fn u8(&mut self, value: u8) -> Result<(), Refusal> {
        let written = sys::put_u8(self.out, self.at, value);
        self.moved(written)
    }

    /// Writes the shortest varint; 2.
    pub fn varint(&mut self, value: u64) -> Result<(), Refusal> {
        let written = sys::put_varint(self.out, self.at, value);
        self.moved(written)
    }

    /// Writes bytes, length first; 2.
    pub fn bytes(&mut self, bytes: &[u8]) -> Result<(), Refusal> {
        let written = sys::put_bytes(self.out, self.at, bytes);
        self.moved(written)
    }

    fn moved(&mut self, written: sys::Written) -> Result<(), Refusal> {
        self.at = next(written, self.out.len())?;
        Ok(())
    }
}

/// A message body with its sender and a signature over the body.
///
/// ```
/// use cuwelfra::{ActorId, Envelope, Refusal};
///
/// let envelope = Envelope { sender: ActorId(1), body: b"hello", sig: &[9; 64] };
/// let mut frame = vec![0; envelope.encoded_len()];
/// assert_eq!(envelope.encode(&mut frame), Ok(1 + 1 + 5 + 1 + 64));
/// assert_eq!(Envelope::decode(&frame), Ok(envelope));
/// frame.push(0);
/// assert_eq!(Envelope::decode(&frame), Err(Refusal::TrailingBytes));
/// ```
#[derive(Clone, Copy, Debug, PartialEq, Eq)]
pub struct Envelope<'a> {
    /// Who sent the body.
    pub sender: ActorId,
    /// The body, of at most [`MAX_BODY`] bytes where it is read.
    pub body: &'a [u8],
    /// The signature over the body, of at most [`MAX_BODY_SIGNATURE`] bytes where it is read.
    pub sig: &'a [u8],
}

impl<'a> Envelope<'a> {
    /// How many bytes [`Envelope::encode`] writes.
    pub fn encoded_len(&self) -> usize {
        let sized = |bytes: &[u8]| varint_len(bytes.len() as u64) + bytes.len();
        varint_len(self.sender.0) + sized(self.body) + sized(self.sig)
    }

    /// Writes the envelope at the start of `out` and gives its length; 2.
    pub fn encode(&self, out: &mut [u8]) -> Result<usize, Refusal> {
        let written = sys::encode_envelope(out, self.sender.0, self.body, self.sig);
        next(written, out.len())
    }

    /// Reads the envelope that fills all of `frame`; 22 to 25 and 30. Body and signature are parts of it.
    pub fn decode(frame: &'a [u8]) -> Result<Self, Refusal> {
        let read = sys::decode_envelope(frame);
        Refusal::check(read.told)?;
        Ok(Self {
            sender: ActorId(read.sender),
            body: part(frame, read.body_at, read.body_len)?,
            sig: part(frame, read.sig_at, read.sig_len)?,
        })
    }
}

/// The position past what was written into so many bytes.
pub(crate) fn next(written: sys::Written, room: usize) -> Result<usize, Refusal> {
    Refusal::check(written.told)?;
    within(written.next, room)
}

#[cfg(test)]
mod tests {
    use super::*;

    const MISFIT: Refusal = Refusal::MisfitAnswer;

    /// An answer as it would be read at the start of three bytes, and where the reader stands then.
    fn read<T: TryFrom<u64>>(value: u64, next: u64) -> (Result<T, Refusal>, usize) {
        let mut reader = Reader::new(b"abc");
        let told = sys::Told::default();
        let read = reader.number(sys::NumberRead { told, value, next });
        (read, reader.position())
    }

    #[test]
    fn numbers_that_are_too_large_are_no_answer_and_leave_the_reader() {
        assert_eq!(read(255, 1), (Ok(255_u8), 1));
        assert_eq!(read::<u8>(256, 1), (Err(MISFIT), 0));
        assert_eq!(read(0xffff_ffff, 3), (Ok(u32::MAX), 3));
        assert_eq!(read::<u32>(1 << 32, 3), (Err(MISFIT), 0));
        assert_eq!(read(u64::MAX, 3), (Ok(u64::MAX), 3));
        assert_eq!(read::<u64>(7, 4), (Err(MISFIT), 0));
    }

    /// A read that is refused, and where the reader stands then.
    fn refused<'a>(
        bytes: &'a [u8],
        read: impl FnOnce(&mut Reader<'a>) -> Option<Refusal>,
    ) -> (Option<u64>, usize) {
        let mut reader = Reader::new(bytes);
        assert_eq!(reader.u8(), Ok(9));
        let number = read(&mut reader).map(Refusal::number);
        assert_eq!(reader.remaining(), bytes.len() - reader.position());
        (number, reader.position())
    }

    #[test]
    fn a_refused_read_leaves_the_reader() {
        // Cut short, above 64 bits, overlong, above the limit: the number of each read's refusal.
        let wide = [&[9][..], &[0x80; 9], &[2]].concat();
        let numbers: [(&[u8], [u64; 4]); 5] = [
            (&[9, 0x81], [22; 4]),
            (&wide, [23; 4]),
            (&[9, 0x81, 0, 9], [30; 4]),
            (&[9, 0x80, 0x80, 0x80, 0x80, 0x90, 0], [30, 23, 30, 30]),
            (&[9, 0x85, 0], [30; 4]),
        ];
        for (bytes, [varint, u32, count, part]) in numbers {
            let at_one = |number| (Some(number), 1);
            assert_eq!(refused(bytes, |r| r.varint().err()), at_one(varint));
            assert_eq!(refused(bytes, |r| r.u32().err()), at_one(u32));
            assert_eq!(refused(bytes, |r| r.count(4).err()), at_one(count));
            assert_eq!(refused(bytes, |r| r.bytes(4).err()), at_one(part));
        }
        assert_eq!(refused(&[9, 5], |r| r.count(4).err()), (Some(24), 1));
        assert_eq!(refused(&[9, 5], |r| r.bytes(4).err()), (Some(24), 1));
    }

    #[test]
    fn what_was_written_lies_in_the_room() {
        let told = sys::Told::default();
        let written = |next| super::next(sys::Written { told, next }, 3);
        assert_eq!((written(3), written(4)), (Ok(3), Err(MISFIT)));
    }
}
