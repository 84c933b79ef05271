//! The largest calls, on a thread with as much stack as docs/GUIDE.md asks for. Where it is too little the process ends.

use std::thread;

use cuwelfra_sys::{apply_delta, decode_frame, delta_sizes, encode_ack, encode_delta};
use cuwelfra_sys::{encode_envelope, from_parts, prepare, read_op, seal};
use cuwelfra_sys::{Areas, AreasMut, HybridParts, Preparation, Settings};

const STACK_BYTES: usize = 32 * 1024;
const ROWS: usize = 1_024;
const SLOT_BYTES: usize = 704;

/// An empty store.
struct Store {
    log: Vec<u8>,
    held: Vec<u8>,
    head: Vec<u8>,
}

impl Store {
    fn new() -> Self {
        Self {
            log: vec![0; ROWS * SLOT_BYTES],
            held: vec![0; 45_056],
            head: vec![0; 2_120],
        }
    }
}

/// A batch of 64 rows of author 1, the last first, so that each waits for the one behind it.
fn batch() -> Vec<u8> {
    let rows = (1..=64).rev().flat_map(|seq| {
        // Wall time, counter, stamp author, author, sequence; no dependency, payload or signature; verified, fits.
        [10, 0, 1, 1, seq, 0, 0, 0, 1, 0, 0]
    });
    [64].into_iter().chain(rows).collect()
}

fn on_a_small_stack<T: Send>(call: impl FnOnce() -> T + Send) -> T {
    thread::scope(|scope| {
        let thread = thread::Builder::new().stack_size(STACK_BYTES);
        let running = thread.spawn_scoped(scope, call).expect("a thread");
        running.join().expect("an answer")
    })
}

#[test]
fn a_batch_of_64_rows() {
    let (mut store, batch) = (Store::new(), batch());
    let mut scratch = vec![0; 64 * SLOT_BYTES];
    let mut output = vec![0; 64 * 18];
    let settings = Settings {
        max_pending: 64,
        max_pending_per_actor: 64,
        max_pending_bytes: 64 * 256,
        max_pending_age_ms: 3_600_000,
        max_drift_ms: 60_000,
        max_deps: 16,
        max_payload: 256,
    };
    let hybrid = HybridParts {
        actor: 2,
        ..HybridParts::default()
    };
    let report = on_a_small_stack(|| {
        let areas = AreasMut {
            log: &mut store.log,
            held: &mut store.held,
            head: &mut store.head,
        };
        apply_delta(
            settings,
            1_000,
            hybrid,
            areas,
            &batch,
            &mut scratch,
            &mut output,
        )
    });
    assert_eq!((report.told.number, report.applied), (0, 64));
    let folded = (report.failed_folds, report.last_wall, report.last_counter);
    assert_eq!(folded, (0, 1_000, 63));
}

#[test]
fn a_store_of_1024_parts() {
    let (mut store, batch) = (Store::new(), batch());
    let mut slot = [0; SLOT_BYTES];
    assert_eq!(read_op(&batch, 1, &mut slot).told.number, 0);
    let (parts, compacted) = (slot.repeat(ROWS), [0; 520]);
    let told = on_a_small_stack(|| {
        let Store { log, held, head } = &mut store;
        from_parts(log, held, head, &parts, ROWS, &compacted)
    });
    assert_eq!(told.number, 0);
    assert_eq!(store.head[..8], 1_024u64.to_be_bytes());

    // All of them, each of 8 bytes, in one message from 7 with a signature of 64 bytes.
    let bytes: u64 = 1 + 2 + (1 + 2 + 1_024 * 8) + 1 + 64;
    let mut output = [0; 16];
    let sizes = on_a_small_stack(|| {
        let Store { log, held, head } = &store;
        let areas = Areas { log, held, head };
        delta_sizes(areas, &compacted, u64::MAX, u64::MAX, 7, 64, &mut output)
    });
    assert_eq!((sizes.told.number, sizes.number), (0, 1));
    assert_eq!(output[..8], 1_024u64.to_be_bytes());
    assert_eq!(output[8..], bytes.to_be_bytes());
}

/// A row of 624 bytes to sign, and one with the largest signature and payload that is sealed.
#[test]
fn a_row_of_its_own() {
    let of = Preparation {
        author: u64::MAX,
        time_ms: u64::MAX,
        issued: u64::MAX - 1,
        ..Preparation::default()
    };
    let mut clock = [0; 520];
    clock[7] = 16;
    for i in 0..16 {
        clock[8 + 16 * i..][..16].fill(0xff);
        clock[15 + 16 * i] = 0xe0 + i as u8;
    }
    let mut bytes = [0; 624];
    let told = on_a_small_stack(|| prepare(of, &[7; 256], &clock, &mut bytes));
    // A stamp's counter of 0 is four bytes less than the longest.
    assert_eq!((told.told.number, told.deps, told.len), (0, 16, 620));

    let mut store = Store::new();
    let told = on_a_small_stack(|| prepare(of, &[7; 256], &[0; 520], &mut bytes));
    assert_eq!(told.told.number, 0);
    let sealed = on_a_small_stack(|| {
        let Store { log, held, head } = &mut store;
        seal(log, held, head, &bytes[..told.len], &[9; 64])
    });
    assert_eq!(sealed.number, 0);
    assert_eq!(store.head[..8], 1u64.to_be_bytes());
}

/// A Delta of 64 rows of the largest sizes, and an Ack of 32 authors, written and read in a frame.
#[test]
fn messages_of_full_size() {
    let mut slot = [0xff; SLOT_BYTES];
    slot[8..12].fill(0);
    slot[40..128].fill(0);
    // 16 dependencies, 256 bytes of payload, 64 of signature.
    slot[47] = 16;
    slot[54] = 1;
    slot[63] = 64;
    for i in 0..16 {
        slot[135 + 16 * i] = i as u8;
    }
    let slots = slot.repeat(64);
    let mut body = vec![0; 44_098];
    let written = on_a_small_stack(|| encode_delta(&mut body, &slots, 64));
    assert_eq!((written.told.number, written.next), (0, 44_098));
    let frame = framed(&body);
    let (mut clock, mut rows) = ([0; 520], vec![0; slots.len()]);
    let read = on_a_small_stack(|| decode_frame(&frame, &mut clock, &mut rows));
    assert_eq!((read.told.number, read.tag, read.number), (0, 1, 64));
    assert_eq!(rows, slots);

    let mut area = [0xff; 520];
    area[..7].fill(0);
    area[7] = 32;
    for i in 0..32 {
        area[15 + 16 * i] = i as u8;
    }
    let mut body = [0; 642];
    let written = on_a_small_stack(|| encode_ack(&mut body, &area));
    assert_eq!((written.told.number, written.next), (0, 642));
    let frame = framed(&body);
    let read = on_a_small_stack(|| decode_frame(&frame, &mut clock, &mut rows));
    assert_eq!((read.told.number, read.tag), (0, 2));
    assert_eq!(clock, area);
}

fn framed(body: &[u8]) -> Vec<u8> {
    let mut frame = vec![0; body.len() + 1_100];
    let written = encode_envelope(&mut frame, 7, body, &[9; 1_024]);
    frame.truncate(written.next as usize);
    frame
}
