//! Reads a batch by document 01's layout, each number in its shortest form: its rows, or 3 or 4 by the first fault.

use crate::leb128;
use crate::port::batches::BatchRow;
use crate::port::rows::{outcome_fits, Row};

/// What is left of the bytes.
struct Rest<'a>(&'a [u8]);

type Read<T> = Result<T, Fault>;

/// Why bytes do not read.
#[derive(Clone, Copy, Debug, PartialEq, Eq)]
pub enum Fault {
    /// A number in more bytes than it needs.
    Overlong,
    Unreadable,
    OverCapacity,
}

impl Fault {
    /// 02: "in a batch the refusal is 3."
    pub fn number(self) -> u64 {
        match self {
            Self::Overlong | Self::Unreadable => 3,
            Self::OverCapacity => 4,
        }
    }
}

/// A varint count of at most 64, as many rows, then nothing.
pub fn read_batch(bytes: &[u8]) -> Read<Vec<BatchRow>> {
    let mut rest = Rest(bytes);
    let count = rest.size(64)?;
    let rows = (0..count).map(|_| rest.row()).collect::<Read<Vec<_>>>()?;
    if !rest.0.is_empty() {
        return Err(Fault::Unreadable);
    }
    Ok(rows)
}

/// The signed bytes of one row, then nothing.
pub fn read_unsigned(bytes: &[u8]) -> Read<Row> {
    let mut rest = Rest(bytes);
    let row = rest.unsigned()?;
    if !rest.0.is_empty() {
        return Err(Fault::Unreadable);
    }
    Ok(row)
}

impl Rest<'_> {
    fn byte(&mut self) -> Read<u64> {
        let (first, rest) = self.0.split_first().ok_or(Fault::Unreadable)?;
        self.0 = rest;
        Ok(u64::from(*first))
    }

    fn varint(&mut self) -> Read<u64> {
        self.number(leb128::read)
    }

    fn number(&mut self, read: fn(&[u8]) -> leb128::Read) -> Read<u64> {
        let (value, len) = read(self.0).map_err(|number| match number {
            leb128::OVERLONG => Fault::Overlong,
            _ => Fault::Unreadable,
        })?;
        self.0 = &self.0[len..];
        Ok(value)
    }

    /// A number of things, not above its capacity.
    fn size(&mut self, capacity: u64) -> Read<usize> {
        let size = self.varint()?;
        if size > capacity {
            return Err(Fault::OverCapacity);
        }
        Ok(size as usize)
    }

    fn bytes(&mut self, capacity: u64) -> Read<Vec<u8>> {
        let size = self.size(capacity)?;
        let (bytes, rest) = self.0.split_at_checked(size).ok_or(Fault::Unreadable)?;
        self.0 = rest;
        Ok(bytes.to_vec())
    }

    /// Pairs by strictly rising author.
    fn deps(&mut self) -> Read<Vec<(u64, u64)>> {
        let count = self.size(16)?;
        let mut deps: Vec<(u64, u64)> = Vec::new();
        for _ in 0..count {
            let pair = (self.varint()?, self.varint()?);
            if deps.last().is_some_and(|last| last.0 >= pair.0) {
                return Err(Fault::Unreadable);
            }
            deps.push(pair);
        }
        Ok(deps)
    }

    /// All of a row but its signature.
    fn unsigned(&mut self) -> Read<Row> {
        let wall = self.varint()?;
        let counter = self.number(leb128::read_u32)?;
        Ok(Row {
            stamp: (wall, counter as u32, self.varint()?),
            author: self.varint()?,
            seq: self.varint()?,
            deps: self.deps()?,
            payload: self.bytes(256)?,
            signature: Vec::new(),
        })
    }

    fn row(&mut self) -> Read<BatchRow> {
        let mut row = self.unsigned()?;
        row.signature = self.bytes(64)?;
        let (verdict, outcome, detail) = (self.byte()?, self.byte()?, self.byte()?);
        if verdict > 1 || !outcome_fits(outcome, detail) {
            return Err(Fault::Unreadable);
        }
        Ok(BatchRow {
            row,
            verdict,
            outcome,
            detail,
        })
    }
}
