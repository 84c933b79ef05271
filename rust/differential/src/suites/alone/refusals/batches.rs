//! 3 to 18 by the batch call, on an empty store of four slots at 1,000 ms unless said otherwise.

use cuwelfra_sys::Told;

use super::Provocation;
use crate::port::batches::BatchRow;
use crate::port::desk::{row, Desk};

/// A row of author 7, sequence 3, as it stands in a batch: wall time 3, counter 0, stamp author, author, sequence, no
/// dependencies, no payload, no signature; verdict 1, outcome and detail 0.
const ROW: [u8; 11] = [3, 0, 7, 7, 3, 0, 0, 0, 1, 0, 0];

pub const PROVOCATIONS: &[Provocation] = &[
    ("no batch", [3, 0, 0], || bytes(&[])),
    ("one row of two", [3, 0, 0], || {
        bytes(&[&[2], &ROW[..]].concat())
    }),
    ("a row without its detail", [3, 0, 0], || {
        bytes(&[&[1], &ROW[..10]].concat())
    }),
    ("a wall time above 64 bits", [3, 0, 0], || {
        bytes(&[&[1], &[0xff; 9][..], &[2], &ROW[1..]].concat())
    }),
    ("a counter of 2^32", [3, 0, 0], || {
        bytes(&[&[1, 3, 0x80, 0x80, 0x80, 0x80, 0x10], &ROW[2..]].concat())
    }),
    ("an overlong number of rows", [3, 0, 0], || {
        bytes(&[&[0x81, 0], &ROW[..]].concat())
    }),
    ("65 rows, counted in two bytes", [3, 0, 0], || {
        bytes(&[&[0xc1, 0], &ROW.repeat(65)[..]].concat())
    }),
    ("an overlong wall time", [3, 0, 0], || {
        bytes(&[&[1, 0x83, 0], &ROW[1..]].concat())
    }),
    (
        "an overlong length of a payload of 257 bytes",
        [3, 0, 0],
        || {
            let start = [1, 3, 0, 7, 7, 3, 0, 0x81, 0x82, 0];
            bytes(&[&start[..], &[1; 257], &ROW[7..]].concat())
        },
    ),
    ("an author twice among the dependencies", [3, 0, 0], || {
        bytes(&[&[1, 3, 0, 7, 7, 3, 2, 1, 1, 1, 2], &ROW[6..]].concat())
    }),
    ("verdict 2", [3, 0, 0], || closing([2, 0, 0])),
    ("outcome 5", [3, 0, 0], || closing([1, 5, 0])),
    ("a detail with outcome 0", [3, 0, 0], || closing([1, 0, 1])),
    ("a byte left over", [3, 0, 0], || {
        bytes(&[&[1], &ROW[..], &[0]].concat())
    }),
    ("65 rows", [4, 0, 0], || {
        bytes(&[&[65], &ROW.repeat(65)[..]].concat())
    }),
    ("17 dependencies", [4, 0, 0], || {
        let deps: Vec<u8> = (1..=17).flat_map(|author| [author, 1]).collect();
        bytes(&[&[1, 3, 0, 7, 7, 3, 17], &deps[..], &ROW[6..]].concat())
    }),
    ("257 bytes of payload", [4, 0, 0], || {
        bytes(&[&[1, 3, 0, 7, 7, 3, 0, 0x81, 2], &[1; 257][..], &ROW[7..]].concat())
    }),
    ("65 bytes of signature", [4, 0, 0], || {
        bytes(&[&[1, 3, 0, 7, 7, 3, 0, 0, 65], &[1; 65][..], &ROW[8..]].concat())
    }),
    ("max_pending 65", [4, 0, 0], || {
        on(|desk| desk.limits.max_pending = 65, &[])
    }),
    ("max_deps 17", [4, 0, 0], || {
        on(|desk| desk.limits.max_deps = 17, &[])
    }),
    ("max_payload 257", [4, 0, 0], || {
        on(|desk| desk.limits.max_payload = 257, &[])
    }),
    ("sequence 0", [5, 7, 0], || offered(&[row(8, 1), row(7, 0)])),
    ("the stamp of author 8", [6, 7, 3], || {
        let mut foreign = row(7, 3);
        foreign.row.stamp.2 = 8;
        offered(&[foreign])
    }),
    ("counter 4,294,967,295", [7, 7, 3], || {
        let mut spent = row(7, 3);
        spent.row.stamp.1 = 4_294_967_295;
        offered(&[spent])
    }),
    ("two bytes above max_payload 1", [8, 7, 3], || {
        on(|desk| desk.limits.max_payload = 1, &[row(7, 3)])
    }),
    ("two causes above max_deps 1", [9, 7, 3], || {
        on(
            |desk| desk.limits.max_deps = 1,
            &[row(7, 3).needs(1, 1).needs(2, 1)],
        )
    }),
    ("a dependency on itself", [10, 7, 3], || {
        offered(&[row(7, 3).needs(7, 3)])
    }),
    ("61,001 at 1,000 with drift 60,000", [11, 7, 3], || {
        offered(&[row(7, 3).at(61_001)])
    }),
    ("verdict 0", [12, 7, 3], || {
        offered(&[row(7, 3).unverified()])
    }),
    ("another payload in the same batch", [13, 7, 3], || {
        offered(&[row(7, 3), row(7, 3).payload(&[1])])
    }),
    ("another payload than the held row's", [13, 7, 3], || {
        let mut desk = Desk::new(4);
        desk.offer([row(7, 3)]);
        told(&mut desk, &[row(7, 3).payload(&[1])])
    }),
    ("two rows wait, max_pending 1", [14, 1, 0], || {
        on(|desk| desk.limits.max_pending = 1, &[row(7, 3), row(7, 4)])
    }),
    ("four bytes wait, max_pending_bytes 3", [15, 3, 0], || {
        on(
            |desk| desk.limits.max_pending_bytes = 3,
            &[row(7, 3), row(7, 4)],
        )
    }),
    (
        "two authors with two rows each, one allowed",
        [16, 1, 8],
        || {
            let rows = [row(9, 2), row(9, 3), row(8, 5), row(8, 6)];
            on(|desk| desk.limits.max_pending_per_actor = 1, &rows)
        },
    ),
    ("five rows for four slots", [17, 0, 0], || {
        let rows: Vec<BatchRow> = (1..=5).map(|seq| row(7, seq)).collect();
        offered(&rows)
    }),
    ("33 authors", [18, 0, 0], || {
        let rows: Vec<BatchRow> = (1..=33).map(|author| row(author, 1)).collect();
        told(&mut Desk::new(33), &rows)
    }),
];

/// A call with these rows.
fn told(desk: &mut Desk, rows: &[BatchRow]) -> Told {
    desk.answer(&desk.lent(rows)).told.told
}

/// A call on the empty store.
fn offered(rows: &[BatchRow]) -> Told {
    told(&mut Desk::new(4), rows)
}

/// The same with another setting.
fn on(set: fn(&mut Desk), rows: &[BatchRow]) -> Told {
    let mut desk = Desk::new(4);
    set(&mut desk);
    told(&mut desk, rows)
}

/// The same with a batch in bytes.
fn bytes(batch: &[u8]) -> Told {
    let mut desk = Desk::new(4);
    let mut lent = desk.lent(&[]);
    lent.batch = batch.to_vec();
    desk.answer(&lent).told.told
}

/// One row with these closing bytes.
fn closing(three: [u8; 3]) -> Told {
    bytes(&[&[1], &ROW[..8], &three].concat())
}
