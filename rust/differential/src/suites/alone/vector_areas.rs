//! Clock areas that break the rules are refused with 1, short ones with 2, and no byte of them changes.

use std::collections::BTreeMap;

use cuwelfra_sys::{self as sys, ClockNumber, Told};

use crate::port::area::{self, Area, AUTHORS, BYTES};
use crate::rng::Rng;
use crate::support::{agree, pattern, refused, Check, Outcome};

const DAMAGED: usize = 60_000;
/// Clocks of which every single bit is flipped in turn.
const FLIPPED: usize = 20;

pub fn run(rng: &mut Rng) -> Outcome {
    let mut cases = fresh()?;
    for _ in 0..DAMAGED {
        let mut area = sound(rng);
        damage(rng, &mut area);
        judged(rng, &area)?;
        cases += 1;
    }
    for _ in 0..FLIPPED {
        let mut area = sound(rng);
        for bit in 0..8 * BYTES {
            area[bit / 8] ^= 1 << (bit % 8);
            judged(rng, &area)?;
            area[bit / 8] ^= 1 << (bit % 8);
            cases += 1;
        }
    }
    Ok(cases)
}

/// A new clock is all zero, whatever stood there; later bytes stay.
fn fresh() -> Outcome {
    for len in [0, 8, BYTES - 1, BYTES, BYTES + 1, BYTES + 64] {
        let mut lent = pattern(len);
        let mut wanted = lent.clone();
        let mut told = refused(2);
        if len >= BYTES {
            wanted[..BYTES].fill(0);
            told = Told::default();
        }
        let inputs = || format!("clock_new on {len} bytes");
        agree(&sys::clock_new(&mut lent), &told, inputs)?;
        agree(&lent, &wanted, inputs)?;
    }
    Ok(6)
}

fn sound(rng: &mut Rng) -> Area {
    let authors = rng.pick(&[0, 1, 2, 3, 16, 31, 32]);
    let mut entries = BTreeMap::new();
    while entries.len() < authors {
        let author = if rng.once_in(2) {
            rng.edge()
        } else {
            rng.next() % 64
        };
        entries.insert(author, rng.edge());
    }
    area::encode(entries)
}

fn damage(rng: &mut Rng, area: &mut Area) {
    let place = rng.below(AUTHORS);
    let value = rng.edge();
    match rng.below(7) {
        0 => area::set_word(area, 0, rng.pick(&[33, 34, 64, 1 << 32, 1 << 63, u64::MAX])),
        1 => {
            let count = area::word(area, 0);
            area::set_word(area, 0, rng.near(count));
        }
        2 => area::set_word(area, 1 + 2 * place, value),
        3 => area::set_word(area, 2 + 2 * place, value),
        4 => swap_or_repeat(rng, area, place),
        5 => {
            let i = rng.below(BYTES);
            area[i] = rng.byte();
        }
        _ => area[BYTES - 1] = rng.byte(),
    }
}

/// Two neighbouring authors that fall or are equal.
fn swap_or_repeat(rng: &mut Rng, area: &mut Area, place: usize) {
    let next = (place + 1) % AUTHORS;
    let (a, b) = (1 + 2 * place, 1 + 2 * next);
    let (first, second) = (area::word(area, a), area::word(area, b));
    area::set_word(area, b, first);
    if rng.once_in(2) {
        area::set_word(area, a, second);
    }
}

/// Every call takes the area where the rules hold and refuses it where not.
fn judged(rng: &mut Rng, area: &Area) -> Check {
    let author = match area::entries(area).nth(rng.below(AUTHORS)) {
        Some((author, _)) => author,
        None => rng.edge(),
    };
    if area::is_sound(area) {
        taken(area, author)
    } else {
        refused_by_all(area, author)
    }
}

fn taken(area: &Area, author: u64) -> Check {
    let inputs = || shown(area);
    let number = ClockNumber {
        told: Told::default(),
        number: area::get(area, author),
    };
    agree(&sys::clock_get(area, author), &number, inputs)?;
    let equal = ClockNumber {
        told: Told::default(),
        number: 2,
    };
    agree(&sys::clock_compare(area, area), &equal, inputs)?;
    let mut lent = *area;
    agree(&sys::clock_merge(&mut lent, area), &Told::default(), inputs)?;
    agree(&lent, area, inputs)
}

fn refused_by_all(area: &Area, author: u64) -> Check {
    let other = area::encode([(author, 1)]);
    let inputs = |what: &'static str| move || format!("{what}, {}", shown(area));
    let one = ClockNumber {
        told: refused(1),
        number: 0,
    };
    let two = ClockNumber {
        told: refused(2),
        number: 0,
    };
    agree(&sys::clock_get(area, author), &one, inputs("get"))?;
    let pairs = [(area, &other), (&other, area), (area, area)];
    for (a, b) in pairs {
        agree(&sys::clock_dominates(a, b), &one, inputs("dominates"))?;
        agree(&sys::clock_compare(a, b), &one, inputs("compare"))?;
        changes_nothing(a, 1, inputs("merge"), |lent| sys::clock_merge(lent, b))?;
        // Both are measured before either is judged.
        let short = &b[..BYTES - 1];
        agree(&sys::clock_dominates(a, short), &two, inputs("dominates"))?;
        agree(&sys::clock_dominates(short, a), &two, inputs("dominates"))?;
        agree(&sys::clock_compare(a, short), &two, inputs("compare"))?;
        agree(&sys::clock_compare(short, a), &two, inputs("compare"))?;
        changes_nothing(a, 2, inputs("merge, other short"), |lent| {
            sys::clock_merge(lent, short)
        })?;
        changes_nothing(&a[..BYTES - 1], 2, inputs("merge, short"), |lent| {
            sys::clock_merge(lent, b)
        })?;
    }
    changes_nothing(area, 1, inputs("observe"), |lent| {
        sys::clock_observe(lent, author, 9)
    })?;
    changes_nothing(area, 1, inputs("observe 0"), |lent| {
        sys::clock_observe(lent, author, 0)
    })?;
    changes_nothing(area, 1, inputs("increment"), |lent| {
        let answer = sys::clock_increment(lent, author);
        assert_eq!(answer.number, 0, "a refused call gives no number");
        answer.told
    })
}

fn changes_nothing(
    area: &[u8],
    number: u64,
    inputs: impl Fn() -> String,
    call: impl FnOnce(&mut [u8]) -> Told,
) -> Check {
    let mut lent = area.to_vec();
    agree(&call(&mut lent), &refused(number), &inputs)?;
    agree(&&lent[..], &area, &inputs)
}

fn shown(area: &Area) -> String {
    let words: Vec<u64> = (0..BYTES / 8).map(|i| area::word(area, i)).collect();
    format!("area {words:?}")
}
