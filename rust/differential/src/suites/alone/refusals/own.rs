//! 1 to 6, 17 to 19 and 26 to 28 by rows of the desk's own.

use cuwelfra_sys::{self as sys, Preparation, Told};

use super::Provocation;
use crate::leb128::lengthen_first;
use crate::port::area::{self, BYTES};
use crate::port::batches::unsigned;
use crate::port::desk::{row, Desk};
use crate::port::own::{self, Sealing};
use crate::port::rows::Row;
use crate::port::store::Areas;
use crate::support::accepted;

/// Author 7's next row at time 10.
const OF: Preparation = Preparation {
    author: 7,
    last_wall: 5,
    last_counter: 0,
    max_drift_ms: 60_000,
    time_ms: 10,
    issued: 0,
};

pub const PROVOCATIONS: &[Provocation] = &[
    ("257 bytes to prepare", [26, 0, 0], || {
        prepare(OF, 257, &[0; BYTES], 1_000)
    }),
    ("a clock of 17 authors to depend on", [26, 0, 0], || {
        prepare(OF, 0, &clock(17), 1_000)
    }),
    ("a clock of 519 bytes to depend on", [2, 0, 0], || {
        prepare(OF, 0, &clock(16)[..BYTES - 1], 1_000)
    }),
    ("a clock whose authors fall to depend on", [1, 0, 0], || {
        prepare(OF, 0, &area::encode([(2, 1), (1, 1)]), 1_000)
    }),
    ("a clock at its last counter", [19, 0, 0], || {
        let of = Preparation {
            last_wall: 10,
            last_counter: u32::MAX,
            ..OF
        };
        prepare(of, 0, &[0; BYTES], 1_000)
    }),
    ("2^64 - 1 issued", [27, 0, 0], || {
        let issued = u64::MAX;
        prepare(Preparation { issued, ..OF }, 0, &[0; BYTES], 1_000)
    }),
    ("2^64 - 1 in the log's clock", [27, 0, 0], || {
        prepare(OF, 0, &area::encode([(7, u64::MAX)]), 1_000)
    }),
    ("7 bytes to sign into 6", [2, 0, 0], || {
        // Stamp, author, sequence, no dependency, no payload.
        prepare(OF, 0, &[0; BYTES], 6)
    }),
    ("no byte to seal", [3, 0, 0], || {
        seal(&mut Desk::new(1).areas, Vec::new(), 0)
    }),
    ("a byte behind those to seal", [3, 0, 0], || {
        let bytes = [unsigned(&row(7, 1).row), vec![0]].concat();
        seal(&mut Desk::new(1).areas, bytes, 65)
    }),
    ("an overlong number to seal", [3, 0, 0], || {
        let mut bytes = unsigned(&row(7, 1).row);
        lengthen_first(&mut bytes);
        seal(&mut Desk::new(1).areas, bytes, 65)
    }),
    ("a sealed row of 257 bytes", [4, 0, 0], || {
        seal_row(&mut Desk::new(1).areas, &row(7, 1).payload(&[0; 257]).row)
    }),
    ("a signature of 65 bytes", [4, 0, 0], || {
        seal(&mut Desk::new(1).areas, unsigned(&row(7, 0).row), 65)
    }),
    ("a sealed row of sequence 0", [5, 7, 0], || {
        seal_row(&mut Desk::new(1).areas, &row(7, 0).row)
    }),
    ("a sealed row with another's stamp", [6, 7, 3], || {
        let mut row = row(7, 3).row;
        row.stamp.2 = 8;
        seal_row(&mut Desk::new(1).areas, &row)
    }),
    ("a row sealed twice", [28, 0, 0], || {
        let mut desk = Desk::new(2);
        accepted(seal_row(&mut desk.areas, &row(7, 1).row));
        seal_row(&mut desk.areas, &row(7, 1).row)
    }),
    ("a sealed row with a cause too many", [28, 0, 0], || {
        seal_row(&mut Desk::new(1).areas, &row(7, 1).needs(7, 0).row)
    }),
    ("a row sealed into a full log", [17, 0, 0], || {
        let mut desk = Desk::new(1);
        accepted(seal_row(&mut desk.areas, &row(7, 1).row));
        seal_row(&mut desk.areas, &row(7, 2).needs(7, 1).row)
    }),
    (
        "a sealed row of an author with the 33rd watermark",
        [18, 0, 0],
        || {
            let mut areas = Areas::new(33, 0);
            for author in 1..=32 {
                let slot = row(author, 0).row.slot();
                accepted(sys::insert(
                    &mut areas.log,
                    &areas.held,
                    &mut areas.head,
                    &slot,
                ));
            }
            seal_row(&mut areas, &row(33, 1).row)
        },
    ),
];

/// So many authors.
fn clock(authors: u64) -> area::Area {
    area::encode((1..=authors).map(|author| (author, 1)))
}

/// A refusal writes nothing, gives nothing, and leaves the clock.
fn prepare(of: Preparation, payload: usize, clock: &[u8], room: usize) -> Told {
    let mut output = vec![9; room];
    let answer = sys::prepare(of, &vec![0; payload], clock, &mut output);
    let told = answer.told;
    assert!(told.number > 0, "accepted");
    let nothing = sys::PreparedTold {
        told,
        last_wall: of.last_wall,
        last_counter: of.last_counter.into(),
        ..sys::PreparedTold::default()
    };
    assert_eq!(answer, nothing, "a refusal gives nothing");
    assert_eq!(output, vec![9; room], "a refusal writes nothing");
    told
}

fn seal_row(areas: &mut Areas, row: &Row) -> Told {
    seal(areas, unsigned(row), 64)
}

/// A refusal changes nothing.
fn seal(areas: &mut Areas, bytes: Vec<u8>, signature: usize) -> Told {
    let before = areas.clone();
    let lent = Sealing {
        bytes,
        signature: vec![1; signature],
    };
    let told = own::seal(areas, &lent);
    let kept = told.number == 0 || *areas == before;
    assert!(kept, "a refusal changed the store");
    told
}
