//! Random preparings and sealings, of which most have a fault or two.

use cuwelfra_sys::Preparation;

use crate::census::Numbers;
use crate::model::own::{now, prepare_call, seal_call};
use crate::model::reading::{read_unsigned, Fault};
use crate::port::area::{self, BYTES};
use crate::port::batches::unsigned;
use crate::port::own::{same_prepare, same_seal, Preparing, Sealing};
use crate::port::rows::{Row, DEPS, PAYLOAD, SIGNATURE, SLOT};
use crate::port::store::{self, same_areas, Areas, Content, HEAD, HELD};
use crate::port::wrapped::refusal;
use crate::rng::Rng;
use crate::suites::alone::damaged_stores::sound;
use crate::support::{agree, note, refused, Check, Outcome};
use crate::world::strange::{damaged, unreadable};
use crate::world::World;

const PREPARINGS: u64 = 100_000;
const SEALINGS: u64 = 25_000;

pub fn run(rng: &mut Rng) -> Outcome {
    let (mut prepared, mut sealed) = (Numbers::default(), Numbers::default());
    for _ in 0..PREPARINGS {
        preparing(rng, &mut prepared)?;
    }
    let mut overlong = 0;
    for _ in 0..SEALINGS {
        overlong += u64::from(sealing(rng, &mut sealed)?);
    }
    note(&format!(
        "desk-faults, sealing: bytes with an overlong number, refused with 3: {overlong}"
    ));
    agree(&(overlong > 0), &true, || {
        "an overlong number to seal".into()
    })?;
    let preparings = prepared.finish("desk-faults, preparing", &[0, 1, 2, 19, 26, 27])?;
    let numbers = [0, 1, 2, 3, 4, 5, 6, 17, 18, 28];
    Ok(preparings + sealed.finish("desk-faults, sealing", &numbers)?)
}

fn preparing(rng: &mut Rng, numbers: &mut Numbers) -> Check {
    let of = Preparation {
        author: rng.edge(),
        last_wall: rng.edge(),
        last_counter: rng.edge32(),
        max_drift_ms: rng.edge(),
        time_ms: rng.edge(),
        issued: rng.edge(),
    };
    let payload = rng.pick(&[
        0,
        1,
        5,
        127,
        128,
        PAYLOAD - 1,
        PAYLOAD,
        PAYLOAD,
        PAYLOAD + 1,
    ]);
    let mut lent = Preparing {
        of,
        payload: rng.bytes(payload),
        clock: clock(rng, of.author),
        output: 624,
    };
    if rng.once_in(3) {
        lent.of.time_ms = rng.near(of.last_wall);
    }
    let len = prepare_call(&lent).0.len;
    lent.output = match rng.below(6) {
        0 => len.saturating_sub(1),
        1 => rng.below(len + 9),
        2 => len + rng.below(9),
        _ => len,
    };
    let (told, bytes) = prepare_call(&lent);
    numbers.note(&told.told);
    same_prepare(&lent, &told, &bytes)
}

/// A clock area, in which the author is common: some are short or longer, some break a rule.
fn clock(rng: &mut Rng, author: u64) -> Vec<u8> {
    let count = rng.pick(&[0, 1, 2, 3, DEPS - 1, DEPS, DEPS + 1, 32]);
    let mut entries = store::Entries::new();
    for i in 0..count as u64 {
        let near = if rng.once_in(2) {
            rng.near(author)
        } else {
            rng.edge()
        };
        entries.insert(near.wrapping_add(i), rng.edge());
    }
    let mut clock = area::encode(entries).to_vec();
    match rng.below(12) {
        0 => clock.truncate(rng.pick(&[0, 7, 8, 9, BYTES - 1])),
        1 => clock.extend(rng.bytes(9)),
        2 => {
            let at = rng.below(BYTES);
            clock[at] = rng.byte();
        }
        3 => area::set_word(&mut clock, 0, rng.edge()),
        _ => {}
    }
    clock
}

/// Gives whether 3 refuses the bytes for an overlong number.
fn sealing(rng: &mut Rng, numbers: &mut Numbers) -> Result<bool, String> {
    let (mut areas, author) = match rng.below(20) {
        0 => marked(rng),
        _ => {
            let (world, areas) = sound(rng);
            let author = world.author(rng);
            (areas, author)
        }
    };
    let content = store::read(&areas).ok_or("a sound store")?;
    let mut row = next(rng, &content, author);
    let mut signature = rng.pick(&[0, 1, SIGNATURE - 1, SIGNATURE]);
    for _ in 0..rng.below(3) {
        match rng.below(6) {
            0 => row.seq = 0,
            1 => row.stamp.2 = rng.near(author),
            2 => row.payload = rng.bytes(PAYLOAD + 1),
            3 => signature = rng.pick(&[SIGNATURE + 1, 200]),
            4 => other_causes(rng, &mut row),
            _ => row.seq = rng.edge(),
        }
    }
    let mut lent = Sealing {
        bytes: unsigned(&row),
        signature: rng.bytes(signature),
    };
    match rng.below(10) {
        0 => unreadable(rng, &mut lent.bytes),
        1 => lent.bytes = rng.bytes(12),
        2 => damaged(rng, &mut areas),
        3 => match rng.below(3) {
            0 => areas.log.truncate(SLOT - 1),
            1 => areas.held.truncate(HELD - 1),
            _ => areas.head.truncate(HEAD - 1),
        },
        _ => {}
    }
    let (told, wanted) = seal_call(&areas, &lent);
    numbers.note(&told);
    let inputs = || format!("{lent:02x?}, the store {content:02x?}");
    if rng.once_in(8) {
        let sealed = areas.wrapped(|store| store.seal(&lent.bytes, &lent.signature));
        agree(&refusal(sealed), &told, inputs)?;
        same_areas(&areas, &wanted, inputs)?;
    } else {
        same_seal(&mut areas, &lent, told, &wanted, inputs)?;
    }
    Ok(told == refused(3) && read_unsigned(&lent.bytes) == Err(Fault::Overlong))
}

/// 32 authors with a watermark, some with a row of sequence 0, and one more author or one of them.
fn marked(rng: &mut Rng) -> (Areas, u64) {
    let world = World::of(rng, 33);
    let mut rows = world.row_of_each(rng, 32);
    rows.sort_by_key(|row| row.stamp);
    let mut content = Content::default();
    for row in &mut rows {
        row.seq = 0;
        content.marks.insert(row.author, row.stamp);
    }
    content.rows = rows;
    let mut areas = Areas::new(32 + rng.below(2), 0);
    areas.write(&content);
    let author = match (rng.below(2), world.authors.last()) {
        (0, Some(last)) => *last,
        _ => rng.pick(&world.authors),
    };
    (areas, author)
}

/// A row that depends on all that is logged, or as much of it as it can.
fn next(rng: &mut Rng, content: &Content, author: u64) -> Row {
    let number = content.clock.get(&author).copied().unwrap_or(0);
    let last = content.marks.values().max().copied().unwrap_or_default();
    let (wall, counter) = now(last.0, last.1, rng.edge()).unwrap_or((last.0, u32::MAX));
    let payload = rng.below(5);
    Row {
        stamp: (wall, counter, author),
        author,
        seq: number.saturating_add(1),
        deps: content.clock.clone().into_iter().take(DEPS).collect(),
        payload: rng.bytes(payload),
        signature: Vec::new(),
    }
}

/// One dependency more, less or changed.
fn other_causes(rng: &mut Rng, row: &mut Row) {
    match row.deps.len() {
        0 => row.deps.push((rng.edge(), 0)),
        len => {
            let at = rng.below(len);
            match rng.below(3) {
                0 => row.deps[at].1 = rng.near(row.deps[at].1),
                1 => drop(row.deps.remove(at)),
                _ => row.deps[at].0 = rng.near(row.deps[at].0),
            }
        }
    }
}
