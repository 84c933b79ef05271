//! The original beside a store of the port, and its answers in the form of the exported calls'.

pub mod beside;
pub mod faults;
pub mod figure;
pub mod folding;
pub mod full;
pub mod joined;
pub mod judges;
pub mod listed;
pub mod merger;
pub mod messages;
pub mod numbers;
mod pending;
pub mod replica;
pub mod sent;
pub mod sized;

use cuwelfra_sys::{NumberRead, PartRead, Told};
use oracle::error::{ClockError, CodecError};
use oracle::open::{Reader, Writer};

use crate::support::refused;

/// The documents' number and value of a codec error.
pub fn codec_told(error: &CodecError) -> Told {
    refused(match error {
        CodecError::Truncated => 22,
        CodecError::VarintOverflow => 23,
        CodecError::TooLarge => 24,
        CodecError::TrailingBytes => 25,
        CodecError::InvalidTag(tag) => {
            return Told {
                first: u64::from(*tag),
                ..refused(29)
            }
        }
    })
}

/// Document 01's number and values of a clock error.
pub fn clock_told(error: &ClockError) -> Told {
    match error {
        ClockError::CounterOverflow => refused(19),
        ClockError::RemoteTooFarAhead {
            remote_wall,
            local_wall,
        } => Told {
            number: 20,
            first: *remote_wall,
            second: *local_wall,
        },
    }
}

/// A reader at `at`; past the end nothing is left.
fn reader(s: &[u8], at: usize) -> Reader<'_> {
    Reader::new(s.get(at..).unwrap_or(&[]))
}

/// What reading a number at `at` answers.
pub fn number_read(
    s: &[u8],
    at: usize,
    read: impl FnOnce(&mut Reader) -> Result<u64, CodecError>,
) -> NumberRead {
    let mut reader = reader(s, at);
    match read(&mut reader) {
        Ok(value) => NumberRead {
            told: Told::default(),
            value,
            next: (s.len() - reader.remaining()) as u64,
        },
        Err(error) => NumberRead {
            told: codec_told(&error),
            ..NumberRead::default()
        },
    }
}

pub fn get_varint(s: &[u8], at: usize) -> NumberRead {
    number_read(s, at, |r| r.varint())
}

/// The original's `u32` is private: a stamp reads wall time, then it, then the author.
pub fn get_u32(s: &[u8], at: usize) -> NumberRead {
    let varint = get_varint(s, at);
    if varint.told.number != 0 {
        let mut stamp = vec![0];
        stamp.extend_from_slice(s.get(at..).unwrap_or(&[]));
        let error = Reader::new(&stamp).timestamp();
        return NumberRead {
            told: codec_told(&error.expect_err("its counter does not read")),
            ..NumberRead::default()
        };
    }
    let mut stamp = vec![0];
    stamp.extend_from_slice(&s[at..varint.next as usize]);
    stamp.push(0);
    match Reader::new(&stamp).timestamp() {
        Ok(stamp) => NumberRead {
            value: u64::from(stamp.logical_counter),
            ..varint
        },
        Err(error) => NumberRead {
            told: codec_told(&error),
            ..NumberRead::default()
        },
    }
}

pub fn get_count(s: &[u8], at: usize, max: u64) -> NumberRead {
    number_read(s, at, |r| r.count(max as usize).map(|n| n as u64))
}

/// The part that reading bytes at `at` gives.
pub fn get_bytes(s: &[u8], at: usize, max: u64) -> PartRead {
    let mut reader = reader(s, at);
    match reader.bytes(max as usize) {
        Ok(bytes) => {
            let next = s.len() - reader.remaining();
            let start = next - bytes.len();
            assert_eq!(&s[start..next], bytes, "the bytes are a part of the slice");
            PartRead {
                told: Told::default(),
                start: start as u64,
                len: bytes.len() as u64,
                next: next as u64,
            }
        }
        Err(error) => PartRead {
            told: codec_told(&error),
            ..PartRead::default()
        },
    }
}

pub fn remaining(s: &[u8], at: usize) -> u64 {
    reader(s, at).remaining() as u64
}

pub fn finish(s: &[u8], at: usize) -> Told {
    match reader(s, at).finish() {
        Ok(()) => Told::default(),
        Err(error) => codec_told(&error),
    }
}

/// The bytes that the original's writer makes.
pub fn written(write: impl FnOnce(&mut Writer)) -> Vec<u8> {
    let mut writer = Writer::new();
    write(&mut writer);
    writer.finish()
}
