//! Every choice of faults in one call: the first of them in document 02's order is told. Of faults in one place, as two in the
//! dependencies, the first is made.

use cuwelfra_sys::{Preparation, Told};

use crate::leb128::longer;
use crate::model::messages::Field;
use crate::model::own::{prepare_call, seal_call};
use crate::port::area::{self, set_word, BYTES};
use crate::port::own::{same_prepare, same_seal, Preparing, Sealing};
use crate::port::rows::{Row, DEPS, PAYLOAD, SIGNATURE, SLOT};
use crate::port::store::{Areas, Content, FLOOR, HEAD, HELD};
use crate::support::{agree, note, Check, Outcome};
use crate::world::pieces::{self, Piece};

/// The refusal, and what brings it about.
type Fault<T> = (u64, fn(&mut T));

/// 02: "26 when the payload is above 256 bytes or the log's clock above 16 authors, first of all"
const PREPARING: [Fault<Preparing>; 7] = [
    (26, |lent| lent.payload = vec![1; PAYLOAD + 1]),
    (26, |lent| {
        let clock = area::encode((0..=DEPS as u64).map(|author| (author, 1)));
        let len = lent.clock.len();
        lent.clock[..len - 8].copy_from_slice(&clock[..len - 8]);
    }),
    (2, |lent| lent.clock.truncate(BYTES - 1)),
    (1, |lent| set_word(&mut lent.clock, 64, 1)),
    (19, |lent| {
        (lent.of.last_wall, lent.of.last_counter) = (lent.of.time_ms, u32::MAX);
    }),
    (27, |lent| lent.of.issued = u64::MAX),
    (2, |lent| lent.output = 0),
];

/// What a sealing is made of.
struct Making {
    row: Row,
    counter: u64,
    /// Whether the payload's length is in a byte more than it needs.
    overlong: bool,
    left_over: usize,
    signature: usize,
    content: Content,
    capacity: usize,
    floor_flag: u64,
    /// Which area is a byte short: log, held, head.
    short: Option<usize>,
}

/// 02: "In sealing, 5 and 6 come after 4; 28 when the row's dependencies are not the log's clock, pair for pair, after 6,
/// before 17."
const SEALING: [Fault<Making>; 16] = [
    (2, |of| of.short = Some(0)),
    (2, |of| of.short = Some(1)),
    (2, |of| of.short = Some(2)),
    (1, |of| of.floor_flag = 2),
    (3, |of| of.counter = 1 << 32),
    (4, |of| {
        of.row.deps = (0..=DEPS as u64).map(|author| (author, 1)).collect()
    }),
    (3, |of| of.row.deps = vec![(2, 1), (1, 1)]),
    (3, |of| of.overlong = true),
    (4, |of| of.row.payload = vec![1; PAYLOAD + 1]),
    (3, |of| of.left_over = 1),
    (4, |of| of.signature = SIGNATURE + 1),
    (5, |of| of.row.seq = 0),
    (6, |of| of.row.stamp.2 = 9),
    (28, |of| of.row.deps = vec![(1, 2)]),
    (17, |of| of.capacity = 1),
    (18, |of| {
        let more = (2..=32).map(|author| (author, (1, 0, author)));
        of.content.marks.extend(more);
    }),
];

pub fn run() -> Outcome {
    let mut cases = 0;
    for chosen in 0..1 << PREPARING.len() {
        preparing(chosen)?;
        cases += 1;
    }
    for chosen in 0..1 << SEALING.len() {
        sealing(chosen)?;
        cases += 1;
    }
    note(&format!(
        "desk-faults: choices of faults in one call {cases}"
    ));
    Ok(cases)
}

/// Makes the chosen faults, the last first, so that an earlier one is not undone; the number of the first.
fn make<T>(faults: &[Fault<T>], chosen: usize, of: &mut T) -> u64 {
    let mut first = 0;
    for (i, (number, fault)) in faults.iter().enumerate().rev() {
        if chosen >> i & 1 == 1 {
            fault(of);
            first = *number;
        }
    }
    first
}

fn preparing(chosen: usize) -> Check {
    let mut lent = Preparing {
        of: Preparation {
            author: 7,
            last_wall: 9,
            last_counter: 3,
            max_drift_ms: 60_000,
            time_ms: 10,
            issued: 4,
        },
        payload: vec![1; PAYLOAD],
        clock: area::encode((0..DEPS as u64).map(|author| (author, 1))).to_vec(),
        output: 624,
    };
    let number = make(&PREPARING, chosen, &mut lent);
    let (told, bytes) = prepare_call(&lent);
    agree(
        &told.told,
        &Told {
            number,
            ..Told::default()
        },
        || format!("the model, {lent:?}"),
    )?;
    same_prepare(&lent, &told, &bytes)
}

fn sealing(chosen: usize) -> Check {
    let mut of = sound();
    let number = make(&SEALING, chosen, &mut of);
    let mut areas = Areas::new(of.capacity, 3);
    areas.write(&of.content);
    set_word(&mut areas.head, FLOOR, of.floor_flag);
    match of.short {
        Some(0) => areas.log.truncate(SLOT - 1),
        Some(1) => areas.held.truncate(HELD - 1),
        Some(_) => areas.head.truncate(HEAD - 1),
        None => {}
    }
    let lent = Sealing {
        bytes: of.bytes(),
        signature: vec![2; of.signature],
    };
    let inputs = || format!("the faults {chosen:#b}, {lent:02x?}");
    let (told, wanted) = seal_call(&areas, &lent);
    agree(&told.number, &number, || format!("the model, {}", inputs()))?;
    same_seal(&mut areas, &lent, told, &wanted, inputs)
}

impl Making {
    /// What is to be sealed.
    fn bytes(&self) -> Vec<u8> {
        let mut row = pieces::unsigned(&self.row);
        for piece in &mut row {
            match piece {
                Piece::Number(Field::Counter, counter) => *counter = self.counter,
                Piece::Number(Field::Payload, len) if self.overlong => {
                    *piece = Piece::Bytes(longer(*len, 1));
                }
                _ => {}
            }
        }
        let mut bytes = pieces::whole(&row);
        bytes.extend(vec![0; self.left_over]);
        bytes
    }
}

/// Author 40's first row above a log of one row, with room for one more.
fn sound() -> Making {
    let row = |author, deps: &[(u64, u64)]| Row {
        stamp: (author, 0, author),
        author,
        seq: 1,
        deps: deps.to_vec(),
        payload: vec![1; PAYLOAD],
        signature: Vec::new(),
    };
    Making {
        row: row(40, &[(1, 1)]),
        counter: 0,
        overlong: false,
        left_over: 0,
        signature: SIGNATURE,
        content: Content {
            rows: vec![row(1, &[])],
            clock: [(1, 1)].into(),
            marks: [(1, (1, 0, 1))].into(),
            ..Content::default()
        },
        capacity: 2,
        floor_flag: 0,
        short: None,
    }
}
