//! 1 and 2: areas that break a rule or are too short; 4 before 2 by a signature's length. 17 and 18 by calls that take a row
//! or a list of rows.

use cuwelfra_sys::{self as sys, Told};

use super::Provocation;
use crate::port::area::{self, set_word, BYTES};
use crate::port::desk::{row, Desk};
use crate::port::rows::SLOT;
use crate::port::store::{Areas, HEAD, HELD};
use crate::support::{accepted, pattern};

/// Bytes of a peer.
const PEER: usize = 704;

pub const PROVOCATIONS: &[Provocation] = &[
    (
        "a store that counts two rows in one slot",
        [1, 0, 0],
        || {
            let mut areas = Areas::new(1, 0);
            set_word(&mut areas.head, 0, 2);
            sys::store_check(areas.lent())
        },
    ),
    ("a logged row without a watermark", [1, 0, 0], || {
        let mut areas = Areas::new(1, 0);
        set_word(&mut areas.head, 0, 1);
        sys::log_len(areas.lent()).told
    }),
    ("a batch call on that store", [1, 0, 0], || {
        let mut desk = Desk::new(1);
        set_word(&mut desk.areas.head, 0, 1);
        desk.answer(&desk.lent(&[])).told.told
    }),
    ("a clock whose authors fall", [1, 0, 0], || {
        sys::clock_get(&area::encode([(2, 1), (1, 1)]), 1).told
    }),
    ("a peer with nine pings", [1, 0, 0], || {
        let mut peer = [0; PEER];
        set_word(&mut peer, 69, 9);
        sys::peer_record_ping(&mut peer, 1)
    }),
    ("a peer of state 4", [1, 0, 0], || {
        let mut peer = [0; PEER];
        set_word(&mut peer, 1, 4);
        sys::peer_connection_lost(&mut peer)
    }),
    ("a slot with 17 dependencies", [1, 0, 0], || {
        sys::signed_op(&spoiled_slot(), &mut [0; SLOT]).told
    }),
    ("an unreadable row, inserted", [1, 0, 0], || {
        insert(&mut Areas::new(1, 0), &spoiled_slot())
    }),
    ("an unreadable row among the parts", [1, 0, 0], || {
        from_parts(1, &spoiled_slot())
    }),
    ("a log area of 703 bytes", [2, 0, 0], || {
        store_check(SLOT - 1, HELD, HEAD)
    }),
    ("a held area of 45,055 bytes", [2, 0, 0], || {
        store_check(SLOT, 45_055, HEAD)
    }),
    ("a head area of 2,119 bytes", [2, 0, 0], || {
        store_check(SLOT, HELD, HEAD - 1)
    }),
    ("a clock of 519 bytes", [2, 0, 0], || {
        sys::clock_new(&mut [0; BYTES - 1])
    }),
    ("a peer of 703 bytes", [2, 0, 0], || {
        sys::peer_new(&mut [0; PEER - 1], 7)
    }),
    ("a slot of 703 bytes", [2, 0, 0], || {
        sys::unsigned_op(&[0; SLOT - 1], &mut [0; SLOT]).told
    }),
    ("300 into one byte", [2, 0, 0], || {
        sys::put_varint(&mut [0; 1], 0, 300).told
    }),
    ("a delta of one row into seven bytes", [2, 0, 0], || {
        let mut desk = Desk::new(1);
        desk.offer([row(1, 1)]);
        sys::calculate_delta(desk.areas.lent(), &[0; BYTES], &mut [0; 7]).told
    }),
    ("the sizes of one chunk into 15 bytes", [2, 0, 0], || {
        sizes(BYTES, 1_024, 15)
    }),
    ("those for a clock of 519 bytes", [2, 0, 0], || {
        sizes(BYTES - 1, 1_024, 16)
    }),
    ("those for a signature of 1,025 bytes", [4, 0, 0], || {
        sizes(BYTES, 1_025, 16)
    }),
    ("all three at once", [4, 0, 0], || {
        sizes(BYTES - 1, 1_025, 15)
    }),
    ("an output of 17 bytes for one row", [2, 0, 0], || {
        let mut desk = Desk::new(1);
        let mut lent = desk.lent(&[row(1, 1)]);
        lent.output = 17;
        desk.answer(&lent).told.told
    }),
    ("scratch of 703 bytes for one row", [2, 0, 0], || {
        let mut desk = Desk::new(1);
        let mut lent = desk.lent(&[row(1, 1)]);
        lent.scratch = 703;
        desk.answer(&lent).told.told
    }),
    ("a row inserted into a full log", [17, 0, 0], || {
        let mut areas = Areas::new(1, 0);
        accepted(insert(&mut areas, &row(1, 1).row.slot()));
        insert(&mut areas, &row(1, 2).row.slot())
    }),
    ("two parts for one slot", [17, 0, 0], || {
        from_parts(1, &[row(1, 1).row.slot(), row(1, 2).row.slot()].concat())
    }),
    ("parts of 33 authors", [18, 0, 0], || {
        let parts = (1..=33).map(|author| row(author, 1).row.slot());
        from_parts(33, &parts.collect::<Vec<_>>().concat())
    }),
    ("a row of a 33rd author, inserted", [18, 0, 0], || {
        let mut areas = Areas::new(33, 0);
        for author in 1..=32 {
            accepted(insert(&mut areas, &row(author, 1).row.slot()));
        }
        insert(&mut areas, &row(33, 1).row.slot())
    }),
];

/// The sizes of a delta of one row, for a clock area and an output of so many bytes.
fn sizes(clock: usize, sig_len: u64, output: usize) -> Told {
    let mut desk = Desk::new(1);
    desk.offer([row(1, 1)]);
    let (clock, mut output) = (vec![0; clock], pattern(output));
    let before = output.clone();
    let answer = sys::delta_sizes(desk.areas.lent(), &clock, 1, 0, 7, sig_len, &mut output);
    assert_eq!(answer.number, 0, "a refused call gives no number");
    assert_eq!(output, before, "a refusal changed the output");
    answer.told
}

fn spoiled_slot() -> Vec<u8> {
    let mut slot = row(1, 1).row.slot();
    set_word(&mut slot, 5, 17);
    slot.to_vec()
}

fn store_check(log: usize, held: usize, head: usize) -> Told {
    let areas = Areas {
        log: vec![0; log],
        held: vec![0; held],
        head: vec![0; head],
    };
    sys::store_check(areas.lent())
}

/// A refusal changes nothing.
fn insert(areas: &mut Areas, slot: &[u8]) -> Told {
    let before = areas.clone();
    let told = sys::insert(&mut areas.log, &areas.held, &mut areas.head, slot);
    assert!(
        told.number == 0 || *areas == before,
        "a refusal changed the store"
    );
    told
}

/// Into areas that hold other bytes, which a refusal leaves.
fn from_parts(capacity: usize, parts: &[u8]) -> Told {
    let [mut log, mut held, mut head] = [capacity * SLOT, HELD, HEAD].map(pattern);
    let before = (log.clone(), held.clone(), head.clone());
    let (count, clock) = (parts.len() / SLOT, [0; BYTES]);
    let told = sys::from_parts(&mut log, &mut held, &mut head, parts, count, &clock);
    let kept = (log, held, head) == before;
    assert!(told.number == 0 || kept, "a refusal changed the areas");
    told
}
