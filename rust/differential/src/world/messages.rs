//! Messages within capacity, and bodies and frames of our own writing, whole and with faults.

use crate::leb128::{lengthen, put};
use crate::model::messages::{Field, Message, Pairs};
use crate::port::messages::ROWS;
use crate::port::rows::{Row, DEPS, PAYLOAD, SIGNATURE};
use crate::rng::Rng;
use crate::support::Check;
use crate::world::{boundary, large_row};

/// A message within our capacities.
pub fn message(rng: &mut Rng) -> Message {
    match rng.below(6) {
        0 => Message::Hello(clock(rng)),
        1 => Message::Ack(clock(rng)),
        2 => Message::Ping(boundary(rng)),
        3 => Message::Pong(boundary(rng)),
        _ => {
            let most = rng.pick(&[0, 1, 1, 2, 3, 5]);
            delta(rng, most)
        }
    }
}

/// A Delta of so many rows, most of them small.
pub fn delta(rng: &mut Rng, rows: usize) -> Message {
    Message::Delta((0..rows).map(|_| row(rng)).collect())
}

/// A Hello of 32 authors and a Delta of 64 rows, of the largest numbers and parts.
pub fn largest() -> [Message; 2] {
    let rows = vec![largest_row(); ROWS];
    [Message::Hello(largest_pairs(32)), Message::Delta(rows)]
}

/// A row of the largest numbers and parts.
pub fn largest_row() -> Row {
    Row {
        stamp: (u64::MAX, u32::MAX, u64::MAX),
        author: u64::MAX,
        seq: u64::MAX,
        deps: largest_pairs(DEPS as u64),
        payload: vec![0xff; PAYLOAD],
        signature: vec![0xff; SIGNATURE],
    }
}

fn largest_pairs(count: u64) -> Pairs {
    let authors = (0..count).map(|i| u64::MAX - count + 1 + i);
    authors.map(|author| (author, u64::MAX)).collect()
}

/// A row of any sizes, most of them small.
pub fn row(rng: &mut Rng) -> Row {
    if rng.once_in(4) {
        return large_row(rng);
    }
    let [payload, signature] = [rng.below(4), rng.below(3)];
    let mut deps: Pairs = (0..rng.below(3))
        .map(|_| (rng.next() % 4, rng.next() % 3))
        .collect();
    deps.sort();
    deps.dedup_by_key(|pair| pair.0);
    Row {
        stamp: (boundary(rng), rng.edge32(), rng.next() % 9),
        author: rng.next() % 9,
        seq: boundary(rng),
        deps,
        payload: rng.bytes(payload),
        signature: rng.bytes(signature),
    }
}

/// Entries by rising author, some of them 0.
pub fn clock(rng: &mut Rng) -> Pairs {
    let count = rng.pick(&[0, 1, 1, 2, 3, 16, 31, 32]);
    let mut pairs: Pairs = (0..count).map(|_| (boundary(rng), number(rng))).collect();
    pairs.sort();
    pairs.dedup_by_key(|pair| pair.0);
    pairs
}

fn number(rng: &mut Rng) -> u64 {
    match rng.once_in(4) {
        true => 0,
        false => boundary(rng),
    }
}

/// A body of our own writing: overlong numbers in a few, authors in any order, sizes around every limit, counts that lie.
pub fn body(rng: &mut Rng) -> Vec<u8> {
    let lies = rng.pick(&[0, 0, 0, 60, 12]);
    let pads = rng.pick(&[0, 0, 0, 0, 8, 40]);
    let mut pen = Pen {
        rng,
        lies,
        pads,
        out: Vec::new(),
    };
    pen.body();
    let mut out = pen.out;
    match rng.below(16) {
        0 => out.truncate(rng.below(out.len() + 1)),
        1 => out.extend(rng.pick(&[&[0][..], &[1, 2], &[0x80]])),
        _ => {}
    }
    out
}

/// Bodies with counts and lengths around the limit and the capacity, each also in a byte more than it needs, and one byte
/// less behind them, as many, or one more.
pub fn sizes(rng: &mut Rng, mut each: impl FnMut(&[u8]) -> Check) -> Check {
    // A row that is whole, and the start of one.
    let row = [9, 9, 9, 9, 9, 0, 1, 7, 0];
    let head = [9, 9, 9, 9, 9];
    let starts: [(Field, Vec<u8>); 8] = [
        (Field::EntryCount, vec![0]),
        (Field::EntryCount, vec![2]),
        (Field::RowCount, vec![1]),
        (Field::CauseCount, [&[1, 1][..], &head].concat()),
        (Field::CauseCount, [&[1, 2][..], &row, &head].concat()),
        (Field::Payload, [&[1, 1][..], &head, &[0]].concat()),
        (Field::Signature, [&[1, 1][..], &head, &[0, 0]].concat()),
        (
            Field::Signature,
            [&[1, 2][..], &row, &head, &[0, 1, 7]].concat(),
        ),
    ];
    for (field, start) in starts {
        let (limit, capacity) = field.limits().expect("a count or a length");
        let around = |n: u64| [n - 1, n, n + 1];
        let sizes = [0, 1, 2, 1 << 32, u64::MAX].into_iter();
        for size in sizes.chain(around(capacity)).chain(around(limit)) {
            let near = [size.wrapping_sub(1), size, size.wrapping_add(1)];
            let lefts = near.into_iter().chain([0, limit + 1]);
            for left in lefts.filter(|left| *left <= limit + 2) {
                for (fill, more) in [(0, 0), (1, 0), (0x80, 0), (0xff, 0), (1, 1)] {
                    let mut body = start.clone();
                    put(&mut body, size);
                    lengthen(&mut body, more);
                    body.resize(body.len() + left as usize, fill);
                    if rng.once_in(4) {
                        let end = body.len() - (left as usize).min(40);
                        rng.fill(&mut body[end..]);
                    }
                    each(&body)?;
                }
            }
        }
    }
    Ok(())
}

/// A frame of our own writing around a body.
pub fn frame(rng: &mut Rng, body: &[u8]) -> Vec<u8> {
    let lies = rng.pick(&[0, 0, 0, 0, 6]);
    let pads = rng.pick(&[0, 0, 0, 0, 0, 4]);
    let sizes = [0, 1, 2, 63, 64, 65, 127, 128, 300, 1_023, 1_024, 1_025];
    let sig = rng.pick(&[0, 0, 1, 3, 8]).max(match rng.once_in(12) {
        true => rng.pick(&sizes),
        false => 0,
    });
    let sig = rng.bytes(sig);
    let sender = boundary(rng);
    let mut pen = Pen {
        rng,
        lies,
        pads,
        out: Vec::new(),
    };
    pen.number(sender);
    pen.part(body, &[1 << 24]);
    pen.part(&sig, &[1_024]);
    let mut out = pen.out;
    if rng.once_in(40) {
        out.truncate(rng.below(out.len() + 1));
    }
    out
}

/// Writes once in so many sizes another size than the true one, and once in so many numbers an overlong one; never where
/// that is 0.
struct Pen<'a> {
    rng: &'a mut Rng,
    lies: usize,
    pads: usize,
    out: Vec<u8>,
}

impl Pen<'_> {
    fn body(&mut self) {
        let tag = match self.rng.below(40) {
            0 => self.rng.pick(&[5, 6, 7, 0x80, 0x81, 0x84, 255]),
            1 => self.rng.byte(),
            2..=9 => 0,
            10..=17 => 2,
            18 | 19 => 3,
            20 | 21 => 4,
            _ => 1,
        };
        self.out.push(tag);
        match tag {
            0 | 2 => {
                let count = self.rng.pick(&[0, 1, 1, 2, 3, 5, 8]);
                let many = self.rng.pick(&[30, 31, 32, 33, 34, 40]);
                let count = if self.rng.once_in(8) { many } else { count };
                self.pairs(count, &[32, 4_096]);
            }
            1 => self.rows(),
            _ => {
                let nonce = boundary(self.rng);
                self.number(nonce);
            }
        }
    }

    fn rows(&mut self) {
        let count = match self.rng.below(300) {
            0 => self.rng.pick(&[62, 63, 64, 65, 66]),
            _ => self.rng.pick(&[0, 1, 1, 1, 2, 3]),
        };
        self.size(count, &[64, 4_096]);
        for _ in 0..count {
            self.row();
        }
    }

    fn row(&mut self) {
        let counter = match self.rng.once_in(40) {
            true => self.rng.near(1 << 32),
            false => u64::from(self.rng.edge32()),
        };
        let numbers = [boundary(self.rng), counter, boundary(self.rng)];
        for number in numbers {
            self.number(number);
        }
        for _ in 0..2 {
            let number = boundary(self.rng);
            self.number(number);
        }
        let count = self.rng.pick(&[0, 0, 1, 2, 3]);
        let many = self.rng.pick(&[14, 15, 16, 17, 18, 20]);
        let count = if self.rng.once_in(12) { many } else { count };
        self.pairs(count, &[16, 4_096]);
        let payload = self.rng.pick(&[0, 1, 3, 8]);
        let long = self.rng.pick(&[127, 128, 255, 256, 257, 300]);
        let payload = if self.rng.once_in(12) { long } else { payload };
        let payload = self.rng.bytes(payload);
        self.part(&payload, &[256, 1 << 20]);
        let signature = self.rng.pick(&[0, 0, 1, 4]);
        let long = self.rng.pick(&[63, 64, 65, 66, 100]);
        let signature = if self.rng.once_in(12) {
            long
        } else {
            signature
        };
        let signature = self.rng.bytes(signature);
        self.part(&signature, &[64, 1_024]);
    }

    /// Authors that rise, come from a few, or are any.
    fn pairs(&mut self, count: usize, limits: &[u64]) {
        self.size(count, limits);
        let kind = self.rng.below(3);
        let mut last = self.rng.next() % 4;
        for _ in 0..count {
            last = match kind {
                0 => last.wrapping_add(1 + self.rng.next() % 100),
                1 => self.rng.next() % 6,
                _ => boundary(self.rng),
            };
            self.number(last);
            let number = number(self.rng);
            self.number(number);
        }
    }

    fn part(&mut self, bytes: &[u8], limits: &[u64]) {
        self.size(bytes.len(), limits);
        self.out.extend(bytes);
    }

    /// A count or a length, or one near it, near a limit, or any.
    fn size(&mut self, size: usize, limits: &[u64]) {
        let mut size = size as u64;
        if self.lies > 0 && self.rng.once_in(self.lies) {
            let limit = self.rng.pick(limits);
            size = match self.rng.below(4) {
                0 => boundary(self.rng),
                1 => self.rng.near(limit),
                _ => self.rng.near(size),
            };
        }
        self.number(size);
    }

    /// In its shortest form, overlong, or, where sizes lie, in twelve bytes.
    fn number(&mut self, number: u64) {
        let at = self.out.len();
        put(&mut self.out, number);
        let len = self.out.len() - at;
        let more = match () {
            _ if self.lies > 0 && self.rng.once_in(288) => 12 - len,
            _ if self.pads > 0 && self.rng.once_in(self.pads) => self.rng.below(11 - len),
            _ => 0,
        };
        lengthen(&mut self.out, more);
    }
}
