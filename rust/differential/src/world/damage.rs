//! Ways to break one store rule each.

use crate::port::area::{set_word, word, AUTHORS};
use crate::port::rows::SLOT;
use crate::port::store::{Areas, CLOCK, COMPACTED, FLOOR, HEAD, HELD, MARKS};

type Breaks = fn(&mut Areas) -> Option<()>;

/// Name and change; `None` where the store has no place for it.
pub const DAMAGES: [(&str, Breaks); 43] = [
    ("log count too large", |s| set(&mut s.head, 0, 1_025)),
    ("log count above the capacity", |s| {
        let above = s.capacity() as u64 + 1;
        set(&mut s.head, 0, above)
    }),
    ("log count one more", |s| {
        // A slot of zeros reads as a row, whose author has a watermark only by chance.
        let rows = word(&s.head, 0);
        set(&mut s.head, 0, rows + 1)
    }),
    ("log count one less", |s| {
        let rows = logged(s)?;
        set(&mut s.head, 0, rows as u64 - 1)
    }),
    ("held count too large", |s| set(&mut s.head, 1, 65)),
    ("held count 2^64 - 1", |s| set(&mut s.head, 1, u64::MAX)),
    ("held count one less", |s| {
        let rows = held(s)?;
        set(&mut s.head, 1, rows as u64 - 1)
    }),
    ("held count two more", |s| {
        // Two slots of zeros read as one row twice.
        let rows = word(&s.head, 1);
        set(&mut s.head, 1, rows + 2)
    }),
    ("floor flag 2", |s| set(&mut s.head, FLOOR, 2)),
    ("no floor, yet a wall", |s| {
        set(&mut s.head, FLOOR, 0)?;
        set(&mut s.head, FLOOR + 1, 1)
    }),
    ("no floor, yet an author", |s| {
        set(&mut s.head, FLOOR, 0)?;
        set(&mut s.head, FLOOR + 1, 0)?;
        set(&mut s.head, FLOOR + 2, 0)?;
        set(&mut s.head, FLOOR + 3, 1)
    }),
    ("floor counter 2^32", |s| {
        set(&mut s.head, FLOOR, 1)?;
        set(&mut s.head, FLOOR + 2, 1 << 32)
    }),
    ("clock count 33", |s| set(&mut s.head, CLOCK, 33)),
    ("clock number wrong", |s| {
        let count = word(&s.head, CLOCK);
        let last = CLOCK + 2 * count as usize;
        (count > 0).then_some(())?;
        let number = word(&s.head, last);
        set(&mut s.head, last, number.wrapping_add(1))
    }),
    ("clock without its last author", |s| {
        let count = word(&s.head, CLOCK) as usize;
        (count > 0).then_some(())?;
        set(&mut s.head, CLOCK, count as u64 - 1)?;
        set(&mut s.head, CLOCK + 2 * count - 1, 0)?;
        set(&mut s.head, CLOCK + 2 * count, 0)
    }),
    ("{last + 1: 0} added to the clock", |s| add_zero(s, CLOCK)),
    ("{last + 1: 0} added to the compacted clock", |s| {
        add_zero(s, COMPACTED)
    }),
    ("clock authors equal", |s| {
        let count = word(&s.head, CLOCK);
        (count > 1).then_some(())?;
        let first = word(&s.head, CLOCK + 1);
        set(&mut s.head, CLOCK + 3, first)
    }),
    ("compacted clock count 33", |s| {
        set(&mut s.head, COMPACTED, 33)
    }),
    ("unused place of the clock", |s| {
        (word(&s.head, CLOCK) < AUTHORS as u64).then_some(())?;
        set(&mut s.head, COMPACTED - 1, 1)
    }),
    ("unused place of the compacted clock", |s| {
        (word(&s.head, COMPACTED) < AUTHORS as u64).then_some(())?;
        set(&mut s.head, MARKS - 1, 1)
    }),
    ("watermark count 33", |s| set(&mut s.head, MARKS, 33)),
    ("watermarks missing", |s| {
        logged(s)?;
        s.head[8 * MARKS..HEAD].fill(0);
        Some(())
    }),
    ("watermark low", |s| {
        let (at, wall) = mark_of_last(s)?;
        set(&mut s.head, at + 1, wall.checked_sub(1)?)
    }),
    ("watermark counter 2^32", |s| {
        (word(&s.head, MARKS) > 0).then_some(())?;
        set(&mut s.head, MARKS + 3, 1 << 32)
    }),
    ("watermark authors fall", |s| {
        (word(&s.head, MARKS) > 1).then_some(())?;
        let (first, second) = s.head[8 * (MARKS + 1)..8 * (MARKS + 9)].split_at_mut(32);
        first.swap_with_slice(second);
        Some(())
    }),
    ("unused watermark", |s| {
        (word(&s.head, MARKS) < AUTHORS as u64).then_some(())?;
        set(&mut s.head, HEAD / 8 - 1, 1)
    }),
    ("falling stamps", |s| {
        let (first, last) = (0, logged(s)? - 1);
        (log_stamp(s, first) != log_stamp(s, last)).then_some(())?;
        swap(&mut s.log, first, last)
    }),
    ("unused log slot", |s| {
        let rows = word(&s.head, 0) as usize;
        let slots = s.capacity();
        (rows < slots).then_some(())?;
        s.log[slots * SLOT - 1] = 1;
        Some(())
    }),
    ("unused held slot", |s| {
        s.held[HELD - 1] = 1;
        Some(())
    }),
    ("logged counter 2^32", |s| last_logged(s, 1, 1 << 32)),
    ("17 dependencies", |s| last_logged(s, 5, 17)),
    ("payload length 257", |s| last_logged(s, 6, 257)),
    ("signature length 65", |s| last_logged(s, 7, 65)),
    ("logged row with an arrival", |s| last_logged(s, 8, 1)),
    ("logged row with an outcome", |s| last_logged(s, 9, 1)),
    ("reserved word of a logged row", |s| last_logged(s, 15, 1)),
    ("unused dependency", |s| last_logged(s, 47, 1)),
    ("unused payload byte", |s| last_logged(s, 79, 1)),
    ("unused signature byte", |s| last_logged(s, 87, 1)),
    ("dependency authors equal", |s| {
        last_logged(s, 5, 2)?;
        last_logged(s, 18, 5)?;
        last_logged(s, 16, 5)
    }),
    ("held rows swapped", |s| {
        let last = held(s)? - 1;
        (last > 0).then_some(())?;
        swap(&mut s.held, 0, last)
    }),
    ("held row twice by author and sequence", |s| {
        // A later stamp, so that the order holds.
        let last = held(s)? - 1;
        (last < 63).then_some(())?;
        let row = s.held[last * SLOT..][..SLOT].to_vec();
        let next = &mut s.held[(last + 1) * SLOT..][..SLOT];
        next.copy_from_slice(&row);
        set(next, 2, u64::MAX)?;
        set(next, 0, u64::MAX)?;
        (row != next[..]).then_some(())?;
        set(&mut s.head, 1, last as u64 + 2)
    }),
];

/// The same for held rows: their slots have other free words.
pub const HELD_DAMAGES: [(&str, usize, u64); 12] = [
    ("held counter 2^32", 1, 1 << 32),
    ("held row with 17 dependencies", 5, 17),
    ("held payload length 257", 6, 257),
    ("held signature length 65", 7, 65),
    ("held outcome 5", 9, 5),
    ("held outcome 2^32", 9, 1 << 32),
    ("held detail 256", 10, 256),
    ("reserved word of a held row", 11, 1),
    ("last reserved word of a held row", 15, 1),
    ("unused dependency of a held row", 47, 1),
    ("unused payload byte of a held row", 79, 1),
    ("unused signature byte of a held row", 87, 1),
];

/// Sets a word of the last held row.
pub fn last_held(s: &mut Areas, at: usize, value: u64) -> Option<()> {
    let last = held(s)? - 1;
    set(&mut s.held[last * SLOT..], at, value)
}

fn last_logged(s: &mut Areas, at: usize, value: u64) -> Option<()> {
    let last = logged(s)? - 1;
    set(&mut s.log[last * SLOT..], at, value)
}

fn set(area: &mut [u8], at: usize, value: u64) -> Option<()> {
    set_word(area, at, value);
    Some(())
}

/// How many rows are logged, `None` for none.
fn logged(s: &Areas) -> Option<usize> {
    Some(word(&s.head, 0) as usize).filter(|rows| *rows > 0)
}

fn held(s: &Areas) -> Option<usize> {
    Some(word(&s.head, 1) as usize).filter(|rows| *rows > 0)
}

fn log_stamp(s: &Areas, i: usize) -> &[u8] {
    &s.log[i * SLOT..][..24]
}

fn swap(area: &mut [u8], i: usize, j: usize) -> Option<()> {
    let (first, second) = area.split_at_mut(j * SLOT);
    first[i * SLOT..][..SLOT].swap_with_slice(&mut second[..SLOT]);
    Some(())
}

/// An entry with number 0 behind a clock's last.
fn add_zero(s: &mut Areas, at: usize) -> Option<()> {
    let count = word(&s.head, at) as usize;
    (count < AUTHORS).then_some(())?;
    let author = if count == 0 {
        1
    } else {
        word(&s.head, at + 2 * count - 1).checked_add(1)?
    };
    set(&mut s.head, at, count as u64 + 1)?;
    set(&mut s.head, at + 2 * count + 1, author)
}

/// The place of the last logged row's watermark, and that row's wall time.
fn mark_of_last(s: &Areas) -> Option<(usize, u64)> {
    let slot = &s.log[(logged(s)? - 1) * SLOT..];
    let count = word(&s.head, MARKS) as usize;
    let at = (0..count).map(|i| MARKS + 1 + 4 * i);
    let at = at
        .into_iter()
        .find(|at| word(&s.head, *at) == word(slot, 3))?;
    Some((at, word(slot, 0)))
}
