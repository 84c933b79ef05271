//! Outputs that list numbers, eight big-endian bytes each.

use cuwelfra_sys::{Areas, ClockNumber};

use crate::original::beside::{told_number, Pair};
use crate::port::area::set_word;
use crate::rng::Rng;
use crate::support::{agree, pattern, refused, Reach};

/// What a call lists.
pub struct List<'a> {
    /// The number that it gives.
    pub entries: usize,
    pub numbers: &'a [u64],
    /// The bytes of output that it asks for.
    pub size: usize,
}

/// Requires that a call lists these numbers in an output of at least 8 bytes for each logged row, and refuses a shorter
/// one, with 2. All other bytes stay. Gives how many there are.
pub fn listed(
    rng: &mut Rng,
    pair: &Pair,
    numbers: &[u64],
    inputs: impl Fn(&Pair) -> String,
    call: impl Fn(Areas, &mut [u8]) -> ClockNumber,
) -> Reach {
    let size = 8 * pair.original.len();
    let room = match rng.below(6) {
        0 => size + rng.below(20),
        1 => size.saturating_sub(1),
        2 => rng.below(size + 1),
        _ => size,
    };
    let list = List {
        entries: numbers.len(),
        numbers,
        size,
    };
    listed_in(pair, room, &list, inputs, call)
}

/// The same for an output of so many bytes, and for what the call asks for.
pub fn listed_in(
    pair: &Pair,
    room: usize,
    list: &List,
    inputs: impl Fn(&Pair) -> String,
    call: impl Fn(Areas, &mut [u8]) -> ClockNumber,
) -> Reach {
    let mut output = pattern(room);
    let mut after = output.clone();
    let mut answer = ClockNumber {
        told: refused(2),
        number: 0,
    };
    let enough = room >= list.size;
    if enough {
        for (i, number) in list.numbers.iter().enumerate() {
            set_word(&mut after, i, *number);
        }
        answer = told_number(list.entries as u64);
    }
    let inputs = || format!("{}, output of {room} bytes", inputs(pair));
    agree(&call(pair.areas.lent(), &mut output), &answer, inputs)?;
    agree(&output, &after, inputs)?;
    Ok(enough.then_some(list.entries))
}
