//! Places that document 02 fixes: sizes at their limits, areas a byte short, exact and longer, held rows beside a sealed one.

use cuwelfra_sys::{self as sys, Preparation, PreparedTold, Told};

use crate::model::own::{prepare_call, seal_call};
use crate::port::area::{self, word, BYTES};
use crate::port::batches::unsigned;
use crate::port::desk::{row, Desk};
use crate::port::own::{prepare, same_prepare, same_seal, seal, Preparing, Sealing};
use crate::port::rows::{Row, DEPS, PAYLOAD, SIGNATURE, SLOT};
use crate::port::store::{Areas, HEAD, HELD};
use crate::rng::Rng;
use crate::support::{accepted, agree, note, refused, Check, Outcome};
use crate::world::{large_row, pieces};

/// Rows of which each number alone is longer than it needs to be.
const LONGER: usize = 20;

pub fn run(rng: &mut Rng) -> Outcome {
    let cases = clock_areas()? + outputs(rng)? + stores(rng)? + signatures()? + longer(rng)?;
    full_places()?;
    beside_held_rows()?;
    twice()?;
    Ok(cases + 3)
}

fn authors(count: usize) -> Vec<(u64, u64)> {
    (1..=count as u64).map(|author| (author, author)).collect()
}

fn lent(payload: usize, clock: &[u8]) -> Preparing {
    Preparing {
        of: Preparation {
            author: 7,
            time_ms: 10,
            ..Preparation::default()
        },
        payload: vec![1; payload],
        clock: clock.to_vec(),
        output: 624,
    }
}

/// What preparing tells, which the model must tell too.
fn told(lent: &Preparing) -> Result<PreparedTold, String> {
    let (told, bytes) = prepare_call(lent);
    same_prepare(lent, &told, &bytes)?;
    Ok(told)
}

/// Clock areas of every length, with 16, 17 and 40 authors counted, and payloads of 256 and 257 bytes.
fn clock_areas() -> Outcome {
    let mut cases = 0;
    for count in [0, 16, 17, 32, 40, u64::MAX] {
        let mut clock = area::encode(authors(count.min(32) as usize)).to_vec();
        area::set_word(&mut clock, 0, count);
        clock.extend([9; 9]);
        for len in 0..=clock.len() {
            for payload in [PAYLOAD, PAYLOAD + 1] {
                let lent = lent(payload, &clock[..len]);
                let wanted = match len {
                    _ if payload > PAYLOAD => 26,
                    8.. if count > DEPS as u64 => 26,
                    0..BYTES => 2,
                    _ => 0,
                };
                agree(&told(&lent)?.told, &refused(wanted), || format!("{lent:?}"))?;
                cases += 1;
            }
        }
    }
    Ok(cases)
}

/// Outputs of every length, for rows of the least and of the most bytes.
fn outputs(rng: &mut Rng) -> Outcome {
    let most = area::encode((0..16).map(|i| (u64::MAX - 15 + i, u64::MAX)));
    let mut largest = lent(PAYLOAD, &most);
    largest.of = Preparation {
        author: u64::MAX - 20,
        last_wall: u64::MAX,
        last_counter: u32::MAX - 1,
        time_ms: rng.next(),
        issued: u64::MAX - 1,
        ..largest.of
    };
    let mut cases = 0;
    for (lent, len) in [(largest, 624), (lent(0, &[0; BYTES]), 7)] {
        agree(&told(&lent)?.len, &len, || format!("{lent:?}"))?;
        for output in (0..len + 20).chain([1_000]) {
            let lent = Preparing {
                output,
                ..lent.clone()
            };
            let wanted = if output < len { 2 } else { 0 };
            agree(&told(&lent)?.told, &refused(wanted), || format!("{lent:?}"))?;
            cases += 1;
        }
    }
    Ok(cases)
}

/// Stores with areas a byte short, exact and longer; clocks of 16 and 17 authors.
fn stores(rng: &mut Rng) -> Outcome {
    let mut cases = 0;
    for count in [0, 15, 16, 17, 32] {
        let mut exact = Areas::new(1, 0);
        let parts = [0u8; 0];
        let compacted = area::encode(authors(count));
        accepted(sys::from_parts(
            &mut exact.log,
            &mut exact.held,
            &mut exact.head,
            &parts,
            0,
            &compacted,
        ));
        let deps: Vec<(u64, u64)> = authors(count.min(DEPS));
        for (log, held, head) in [(0, 0, 0), (1, 1, 1), (SLOT - 1, 70, 9)] {
            for short in 0..4 {
                let mut areas = exact.clone();
                areas.log.extend(rng.bytes(log));
                areas.held.extend(rng.bytes(held));
                areas.head.extend(rng.bytes(head));
                match short {
                    0 => areas.log.truncate(SLOT - 1),
                    1 => areas.held.truncate(HELD - 1),
                    2 => areas.head.truncate(HEAD - 1),
                    _ => {}
                }
                let own = Row {
                    deps: deps.clone(),
                    ..row(40, 1).row
                };
                let number = if short < 3 {
                    2
                } else if count > DEPS {
                    28
                } else {
                    0
                };
                sealing(&mut areas, &own, 64, number)?;
                cases += 1;
            }
        }
    }
    Ok(cases)
}

/// Seals a row and requires this number, of the model too.
fn sealing(areas: &mut Areas, row: &Row, signature: usize, number: u64) -> Check {
    sealing_bytes(areas, &unsigned(row), signature, number)
}

fn sealing_bytes(areas: &mut Areas, bytes: &[u8], signature: usize, number: u64) -> Check {
    let lent = Sealing {
        bytes: bytes.to_vec(),
        signature: vec![7; signature],
    };
    let inputs = || format!("{lent:02x?}");
    let (told, wanted) = seal_call(areas, &lent);
    agree(&told.number, &number, || format!("the model, {}", inputs()))?;
    same_seal(areas, &lent, told, &wanted, inputs)
}

fn signatures() -> Outcome {
    for len in [0, 1, SIGNATURE - 1, SIGNATURE] {
        sealing(&mut Areas::new(1, 0), &row(7, 1).row, len, 0)?;
    }
    for len in [SIGNATURE + 1, 128, 1_024] {
        sealing(&mut Areas::new(1, 0), &row(7, 1).row, len, 4)?;
    }
    Ok(7)
}

/// Each number of the bytes to seal alone in more bytes than it needs: 3, whatever else a row has.
fn longer(rng: &mut Rng) -> Outcome {
    let mut cases = 0;
    for _ in 0..LONGER {
        let pieces = pieces::unsigned(&large_row(rng));
        pieces::each_longer(&pieces, |bytes, _, _| {
            cases += 1;
            sealing_bytes(&mut Areas::new(1, 0), bytes, 0, 3)
        })?;
    }
    note(&format!(
        "desk-faults: numbers of rows to seal that are longer, refused with 3: {cases}"
    ));
    Ok(cases)
}

/// 17 where the log is full, also where the watermarks are; 18 from the watermarks alone.
fn full_places() -> Check {
    let mut areas = Areas::new(33, 0);
    for author in 1..=32 {
        let slot = row(author, 0).row.slot();
        accepted(sys::insert(
            &mut areas.log,
            &areas.held,
            &mut areas.head,
            &slot,
        ));
    }
    sealing(&mut areas.clone(), &row(33, 1).row, 0, 18)?;
    let mut cut = areas.clone();
    cut.log.truncate(32 * SLOT);
    sealing(&mut cut, &row(33, 1).row, 0, 17)?;
    sealing(&mut cut, &row(1, 1).row, 0, 17)?;
    // An author that has a watermark finds its place.
    sealing(&mut areas, &row(1, 1).row, 0, 0)
}

/// Sealing drains nothing: a row that waits for the sealed one, and a held row of its number, stay until the next batch.
fn beside_held_rows() -> Check {
    let mut desk = Desk::new(4);
    desk.offer([row(2, 1).needs(1, 1), row(1, 1).needs(3, 1)]);
    sealing(&mut desk.areas, &row(1, 1).payload(&[9]).row, 1, 0)?;
    let shown = |desk: &Desk| (desk.log(), desk.held());
    let texts = |log: &str, held: &str| (log.to_owned(), held.to_owned());
    agree(&shown(&desk), &texts("1:1", "1:1 2:1"), || {
        "after sealing".into()
    })?;
    let told = desk.offer([]);
    agree(&told, &"logged 2:1; held 1".to_owned(), || {
        "an empty batch".into()
    })?;
    // The held row of that number is dropped once its cause is there.
    let told = desk.offer([row(3, 1)]);
    agree(&told, &"logged 3:1; dropped 1".to_owned(), || {
        "its cause".into()
    })?;
    agree(&shown(&desk), &texts("1:1 2:1 3:1", ""), || {
        "in the end".into()
    })
}

/// As prepared a row is sealed once; made up with an old number and today's causes it is logged again.
fn twice() -> Check {
    let mut areas = Areas::new(4, 0);
    let prepared = lent(2, &[0; BYTES]);
    let (answer, output) = prepare(&prepared);
    let lent = Sealing {
        bytes: output[..answer.len].to_vec(),
        signature: vec![1],
    };
    agree(&seal(&mut areas, &lent), &Told::default(), || "once".into())?;
    agree(&seal(&mut areas, &lent), &refused(28), || "twice".into())?;
    sealing(&mut areas, &row(7, 1).needs(7, 1).row, 1, 0)?;
    agree(&word(&areas.head, 0), &2, || "rows logged".into())?;
    agree(&area::get(&areas.head[48..], 7), &1, || "the clock".into())
}
