//! Rows of two stores' own, over a small universe.

use crate::leb128::{lengthen_first, put};
use crate::port::batches::unsigned;
use crate::port::own::Sealing;
use crate::port::rows::Row;
use crate::rng::Rng;
use crate::world::lists::Universe;

/// The stores' own authors, and whether their sealings are fair.
#[derive(Clone, Copy)]
pub struct Own {
    pub authors: [u64; 2],
    pub fair: bool,
}

impl Own {
    /// Two authors who offer nothing else. One of them may be one that others depend on; where sealings are unfair, later
    /// rows of it may be offered.
    pub fn new(rng: &mut Rng, universe: &mut Universe, fair: bool) -> Self {
        let mut authors = [5, 6];
        let one = rng.pick(&universe.authors);
        let others = universe.rows.iter().any(|row| row.author != one);
        if others && (!fair || rng.once_in(2)) {
            let later = !fair && rng.once_in(2);
            let stays = |row: &Row| row.author != one || later && row.seq > 1;
            universe.rows.retain(stays);
            authors[if fair { rng.below(2) } else { 0 }] = one;
        }
        Self { authors, fair }
    }

    /// How far the number last issued is above the author's number in the log's clock.
    pub fn ahead(&self, rng: &mut Rng) -> u64 {
        match self.fair || !rng.once_in(6) {
            true => 0,
            false => 1 + rng.next() % 2,
        }
    }
}

/// How a row of its own comes about.
#[derive(Clone, Copy, Debug)]
pub struct Entry<'a> {
    pub author: u64,
    pub time: u64,
    pub payload: &'a [u8],
    /// How far the number last issued is above the author's number in the log's clock.
    pub ahead: u64,
}

pub fn payload(rng: &mut Rng) -> &'static [u8] {
    rng.pick(&[&[], &[1], &[3, 4]])
}

/// A sealing of prepared bytes; some are other bytes, and some signatures are too long.
pub fn sealing(rng: &mut Rng, universe: &Universe, bytes: Vec<u8>) -> Sealing {
    let signature: &[u8] = rng.pick(&[&[], &[9], &[7; 64], &[7; 65]]);
    let mut lent = Sealing {
        bytes,
        signature: signature.to_vec(),
    };
    match rng.below(8) {
        // Cut short, or longer.
        0 => drop(lent.bytes.pop()),
        1 => put(&mut lent.bytes, 0),
        // With an overlong number.
        2 => lengthen_first(&mut lent.bytes),
        // Made up by hand.
        3 => lent.bytes = unsigned(&universe.rows[rng.below(universe.rows.len())]),
        _ => {}
    }
    lent
}
