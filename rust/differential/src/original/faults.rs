//! What a batch row comes to here and in the original, by one reading of its bytes: document 01's rules and those of
//! `Reader::signed_op`, side by side. Where only one of the two stops, the reading goes on for the other; but where an
//! overlong number is the first fault, the original is not asked.

use std::fmt;

use crate::leb128::{self, OVERLONG};
use crate::port::rows::{outcome_fits, Held, Row, DEPS, PAYLOAD, SIGNATURE};
use crate::port::store::{observe, Entries};

/// Why the documents refuse a batch row.
#[derive(Clone, Copy, Debug, PartialEq, Eq, PartialOrd, Ord)]
pub enum Fault {
    /// 3: the bytes end.
    CutShort,
    /// 3: a varint above 64 bits, or a counter above 32.
    TooWide,
    /// 3: a varint in more bytes than it needs.
    Overlong,
    /// 3: a count or length within its capacity, but above the bytes that are left.
    AboveRest,
    /// 3: authors that do not strictly rise.
    NotRising,
    /// 3: a verdict, outcome or detail that there is not.
    Closing,
    /// 4: a count or length above its capacity.
    OverCapacity,
}

impl Fault {
    pub fn number(self) -> u64 {
        match self {
            Fault::OverCapacity => 4,
            _ => 3,
        }
    }
}

#[derive(Clone, Debug, PartialEq, Eq)]
pub struct Judged {
    /// The row, the verdict and the position behind it, or the first fault.
    pub here: Result<(Held, u64, usize), Fault>,
    /// What the original makes of the bytes up to the signature, or the number of its error; `None` where it is not asked.
    pub there: Option<Result<Row, u64>>,
}

/// What stands for the original's answer where it is not asked.
pub const NOT_ASKED: &str = "not asked";

/// Both answers without their values: the fault, `None` where the row is read, and what the original says.
#[derive(Clone, Copy, Debug, PartialEq, Eq, PartialOrd, Ord)]
pub struct Kind {
    pub here: Option<Fault>,
    pub there: &'static str,
    /// Whether both read it, the original without dependencies of number 0.
    pub dropped: bool,
}

impl Judged {
    pub fn kind(&self) -> Kind {
        Kind {
            here: self.here.as_ref().err().copied(),
            there: match self.there {
                None => NOT_ASKED,
                Some(Ok(_)) => "read",
                Some(Err(22)) => "Truncated",
                Some(Err(23)) => "VarintOverflow",
                Some(Err(_)) => "TooLarge",
            },
            dropped: match (&self.here, &self.there) {
                (Ok((held, ..)), Some(Ok(row))) => held.row != *row,
                _ => false,
            },
        }
    }
}

impl fmt::Display for Kind {
    fn fmt(&self, f: &mut fmt::Formatter) -> fmt::Result {
        match self.here {
            None if self.dropped => write!(f, "read here, there without a zero"),
            None => write!(f, "read by both"),
            Some(fault) => {
                let (number, there) = (fault.number(), self.there);
                write!(f, "{number} for {fault:?} here, {there} there")
            }
        }
    }
}

/// Judges the row at the start of the bytes.
pub fn judged(bytes: &[u8]) -> Judged {
    let mut reading = Reading {
        rest: bytes,
        fault: None,
    };
    let row = match reading.row() {
        Ok(row) => row,
        Err(number) => {
            let stopped = match number {
                22 => Fault::CutShort,
                23 => Fault::TooWide,
                OVERLONG => Fault::Overlong,
                _ => Fault::AboveRest,
            };
            return Judged {
                here: Err(reading.fault.unwrap_or(stopped)),
                there: (number != OVERLONG).then_some(Err(number)),
            };
        }
    };
    let there = Some(Ok(observed(&row)));
    let here = match reading.fault {
        Some(fault) => Err(fault),
        None => reading.closed(row, bytes.len()),
    };
    Judged { here, there }
}

/// The row with its dependencies as `Reader::clock` makes them: each pair is observed.
fn observed(row: &Row) -> Row {
    let mut deps = Entries::new();
    for (author, number) in &row.deps {
        observe(&mut deps, *author, *number);
    }
    Row {
        deps: deps.into_iter().collect(),
        ..row.clone()
    }
}

struct Reading<'a> {
    rest: &'a [u8],
    /// The first fault that stops us and not the original.
    fault: Option<Fault>,
}

/// The number of what both stop at, or of an overlong number.
type Read<T> = Result<T, u64>;

impl Reading<'_> {
    /// Once a fault has stopped us, the original still takes any form.
    fn varint(&mut self) -> Read<u64> {
        self.number(match self.fault {
            None => leb128::read,
            Some(_) => leb128::read_any,
        })
    }

    fn number(&mut self, read: fn(&[u8]) -> leb128::Read) -> Read<u64> {
        let (value, len) = read(self.rest)?;
        self.rest = &self.rest[len..];
        Ok(value)
    }

    /// A count or length: at most `capacity` here, at most `limit` there, where it is also held against what is left.
    fn size(&mut self, capacity: usize, limit: u64) -> Read<usize> {
        let size = self.varint()?;
        if size > capacity as u64 {
            self.fault.get_or_insert(Fault::OverCapacity);
        }
        if size > limit || size > self.rest.len() as u64 {
            return Err(24);
        }
        Ok(size as usize)
    }

    fn part(&mut self, capacity: usize, limit: u64) -> Read<Vec<u8>> {
        let len = self.size(capacity, limit)?;
        let (part, rest) = self.rest.split_at(len);
        self.rest = rest;
        Ok(part.to_vec())
    }

    fn deps(&mut self) -> Read<Vec<(u64, u64)>> {
        let mut deps: Vec<(u64, u64)> = Vec::new();
        for _ in 0..self.size(DEPS, 4_096)? {
            let pair = (self.varint()?, self.varint()?);
            if deps.last().is_some_and(|last| last.0 >= pair.0) {
                self.fault.get_or_insert(Fault::NotRising);
            }
            deps.push(pair);
        }
        Ok(deps)
    }

    fn row(&mut self) -> Read<Row> {
        let wall = self.varint()?;
        let counter = self.number(leb128::read_u32)?;
        Ok(Row {
            stamp: (wall, counter as u32, self.varint()?),
            author: self.varint()?,
            seq: self.varint()?,
            deps: self.deps()?,
            payload: self.part(PAYLOAD, 1 << 20)?,
            signature: self.part(SIGNATURE, 1_024)?,
        })
    }

    /// The three closing bytes of a batch of `len` bytes.
    fn closed(&self, row: Row, len: usize) -> Result<(Held, u64, usize), Fault> {
        let [verdict, outcome, detail, left @ ..] = self.rest else {
            return Err(Fault::CutShort);
        };
        let [verdict, outcome, detail] = [verdict, outcome, detail].map(|byte| u64::from(*byte));
        if verdict > 1 || !outcome_fits(outcome, detail) {
            return Err(Fault::Closing);
        }
        let held = Held {
            row,
            arrival: 0,
            outcome,
            detail,
        };
        Ok((held, verdict, len - left.len()))
    }
}
