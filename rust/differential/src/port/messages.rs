//! Areas lent for reading a message, and what a call leaves in them.

use std::fmt::Debug;

use crate::model::messages::{Answer, Message, Written};
use crate::port::area::BYTES;
use crate::port::rows::SLOT;
use crate::port::wrapped::wrapped_row;
use crate::support::{agree, pattern, Check, Refusing};

/// Rows of a Delta at most.
pub const ROWS: usize = 64;
/// The longest areas that are lent.
pub const CLOCK_AREA: usize = BYTES + 128;
pub const ROWS_AREA: usize = (ROWS + 2) * SLOT;
/// Bytes behind the lent ones, which stay as well.
const BEHIND: usize = 64;

/// Areas of any bytes, the same before each call.
pub struct Lent {
    clock: Vec<u8>,
    rows: Vec<u8>,
    before: Vec<u8>,
}

impl Lent {
    pub fn new() -> Self {
        Self {
            clock: pattern(CLOCK_AREA + BEHIND),
            rows: pattern(ROWS_AREA + BEHIND),
            before: pattern(ROWS_AREA + BEHIND),
        }
    }

    /// Requires that the call answers so on areas of these lengths, and leaves every byte as it must.
    pub fn same<T: Refusing + PartialEq + Debug>(
        &mut self,
        (clock, rows): (usize, usize),
        wanted: &Answer<T>,
        call: impl FnOnce(&mut [u8], &mut [u8]) -> T,
        inputs: impl Fn() -> String,
    ) -> Check {
        let told = call(&mut self.clock[..clock], &mut self.rows[..rows]);
        agree(&told, &wanted.told, &inputs)?;
        let inputs = |what: &str| format!("{}, its {what}", inputs());
        match &wanted.written {
            Written::Nothing => {}
            Written::Clock(area) => {
                let written = &mut self.clock[..BYTES];
                agree(&&written[..], &&area[..], || inputs("clock"))?;
                written.copy_from_slice(&self.before[..BYTES]);
            }
            Written::Slots(slots) => {
                let written = self.rows.chunks_mut(SLOT);
                let before = self.before.chunks(SLOT);
                for ((written, before), row) in written.zip(before).zip(slots) {
                    agree(&&written[..], &&row.slot()[..], || inputs("rows"))?;
                    written.copy_from_slice(before);
                }
            }
        }
        let stays = |lent: &[u8]| lent == &self.before[..lent.len()];
        agree(&stays(&self.clock), &true, || inputs("clock area's rest"))?;
        let rows = &self.rows[..rows + BEHIND];
        agree(&stays(rows), &true, || inputs("rows area's rest"))
    }
}

/// How many slots a body asks for, by the first byte of a Delta's count, at most 64: so many are lent where it is refused,
/// so that a call that writes too early finds room.
pub fn slots_asked(body: &[u8]) -> usize {
    match body {
        [1, count, ..] => usize::from(*count).min(ROWS),
        _ => 0,
    }
}

/// The message in the wrapper's form.
pub fn wrapped_message(message: &Message) -> cuwelfra::Message {
    let clock = |pairs: &[(u64, u64)]| {
        let area = crate::port::area::encode(pairs.iter().copied());
        cuwelfra::VectorClock::from_area(area)
    };
    match message {
        Message::Hello(pairs) => cuwelfra::Message::Hello(clock(pairs)),
        Message::Delta(rows) => cuwelfra::Message::Delta(rows.iter().map(wrapped_row).collect()),
        Message::Ack(pairs) => cuwelfra::Message::Ack(clock(pairs)),
        Message::Ping(nonce) => cuwelfra::Message::Ping(*nonce),
        Message::Pong(nonce) => cuwelfra::Message::Pong(*nonce),
    }
}
