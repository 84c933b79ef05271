//! Calls beside the batch call: from_parts, delta, chunks and sizes of a full log, rows of the desk's own, stamps, messages,
//! and varints.

use cuwelfra::{ActorId, ChunkSize, Row, VectorClock};
use cuwelfra::{CLOCK_BYTES, HEAD_BYTES, HELD_BYTES, MAX_LOGGED, SLOT_BYTES};
use cuwelfra_sys as sys;
use oracle::codec::{BinaryCodec, Codec};
use oracle::log::{ReplicatedLog, StampedOperation};
use oracle::open::{Reader, Writer};
use oracle::stubs;
use oracle::sync::{calculate_delta, chunk_ops, Envelope, Message};

use crate::case::{same_log, slots, store_of};
use crate::messages;
use crate::own;
use crate::rows::{chained, operations};
use crate::stamps;
use crate::timing::{rounds, time, Subject};

const ROUNDS: usize = 100;
const VARINTS: usize = 1_000_000;
/// Varints that are timed together.
const PART: usize = 10_000;
/// The original's own default for a chunk.
const CHUNK_ROWS: usize = 64;
const CHUNK_BYTES: usize = 65_536;
/// Who sends messages that are sized, and how many bytes their signatures have.
const SENDER: u64 = 7;
const SIGNATURE: usize = 64;

type Done = Result<(), String>;

pub fn lists() -> Done {
    println!("| call | port | original | port ÷ original |");
    println!("|---|---|---|---|");
    let rows: Vec<Row> = (0..MAX_LOGGED as u64).map(chained).collect();
    from_parts("from_parts of 1,024 rows in order", &rows)?;
    let reversed: Vec<Row> = rows.iter().rev().cloned().collect();
    from_parts("from_parts of 1,024 rows in reverse order", &reversed)?;
    delta(&rows)?;
    chunks(&rows)?;
    sizes(&rows)?;
    own::own()?;
    stamps::stamps()?;
    messages::messages()?;
    varints()
}

pub fn line(name: &str, count: usize, port: Subject, original: Subject) {
    let [port, original] = rounds(count, [port, original]);
    println!(
        "| {name} | {port} | {original} | {:.1} |",
        port.over(&original)
    );
}

pub fn refused(error: impl std::fmt::Debug) -> String {
    format!("{error:?}")
}

pub fn log_of(rows: &[Row]) -> ReplicatedLog {
    ReplicatedLog::from_parts(operations(rows), Default::default())
}

fn from_parts(name: &str, rows: &[Row]) -> Done {
    let store = store_of(rows, MAX_LOGGED).map_err(refused)?;
    same_log(&store, &log_of(rows))?;
    let slots = slots(rows).map_err(refused)?;
    let parts: Vec<u8> = slots.iter().flat_map(|slot| *slot.area()).collect();
    let compacted = [0; CLOCK_BYTES];
    let operations = operations(rows);
    let mut areas = (
        vec![0; MAX_LOGGED * SLOT_BYTES],
        vec![0; HELD_BYTES],
        vec![0; HEAD_BYTES],
    );
    let port = || {
        let (log, held, head) = &mut areas;
        time(|| sys::from_parts(log, held, head, &parts, rows.len(), &compacted))
    };
    let original = || {
        let operations = operations.clone();
        time(|| ReplicatedLog::from_parts(operations, Default::default()))
    };
    line(name, ROUNDS, Box::new(port), Box::new(original));
    Ok(())
}

/// What a peer that has nothing lacks.
fn delta(rows: &[Row]) -> Done {
    let store = store_of(rows, MAX_LOGGED).map_err(refused)?;
    let log = log_of(rows);
    let peer = Default::default();
    let delta = store.delta(&VectorClock::new()).map_err(refused)?;
    let rows = delta.rows().map_err(refused)?;
    if operations(&rows) != calculate_delta(&log, &peer) {
        return Err("the deltas differ".into());
    }
    let (areas, clock) = (store.areas(), [0; CLOCK_BYTES]);
    let mut output = vec![0; 8 * rows.len()];
    line(
        "delta of 1,024 rows",
        ROUNDS,
        Box::new(|| time(|| sys::calculate_delta(lent(areas), &clock, &mut output))),
        Box::new(|| time(|| calculate_delta(&log, &peer))),
    );
    Ok(())
}

/// The chunks of that delta; the original's call takes the delta, so both are timed.
fn chunks(rows: &[Row]) -> Done {
    let store = store_of(rows, MAX_LOGGED).map_err(refused)?;
    let log = log_of(rows);
    let peer = Default::default();
    let both = || chunk_ops(&calculate_delta(&log, &peer), CHUNK_ROWS, CHUNK_BYTES);
    let (most, bytes) = (CHUNK_ROWS as u64, CHUNK_BYTES as u64);
    let delta = store.delta(&VectorClock::new()).map_err(refused)?;
    let counts = delta.chunk_lens(most, bytes).map_err(refused)?;
    if counts.into_iter().ne(both().iter().map(Vec::len)) {
        return Err("the chunks differ".into());
    }
    let (areas, clock) = (store.areas(), [0; CLOCK_BYTES]);
    let mut output = vec![0; 8 * rows.len()];
    line(
        "delta and chunks of 1,024 rows",
        ROUNDS,
        Box::new(|| time(|| sys::chunk_ops(lent(areas), &clock, most, bytes, &mut output))),
        Box::new(|| time(both)),
    );
    Ok(())
}

/// The sizes of those chunks as messages, which the original knows once it has written them.
fn sizes(rows: &[Row]) -> Done {
    let store = store_of(rows, MAX_LOGGED).map_err(refused)?;
    let log = log_of(rows);
    let peer = Default::default();
    let all = || {
        let chunks = chunk_ops(&calculate_delta(&log, &peer), CHUNK_ROWS, CHUNK_BYTES);
        chunks.into_iter().map(sent).collect::<Vec<_>>()
    };
    let (most, bytes) = (CHUNK_ROWS as u64, CHUNK_BYTES as u64);
    let delta = store.delta(&VectorClock::new()).map_err(refused)?;
    let sizes = delta.sizes(most, bytes, ActorId(SENDER), SIGNATURE);
    let sizes = sizes.map_err(refused)?;
    if sizes != all() {
        return Err("the sizes differ".into());
    }
    let (areas, clock) = (store.areas(), [0; CLOCK_BYTES]);
    let outputs = [
        (
            "delta and sizes of 1,024 rows, output for each row",
            rows.len(),
        ),
        (
            "delta and sizes of 1,024 rows, output for each chunk",
            sizes.len(),
        ),
    ];
    for (name, entries) in outputs {
        let mut output = vec![0; 16 * entries];
        let mut port = || {
            let sig_len = SIGNATURE as u64;
            sys::delta_sizes(
                lent(areas),
                &clock,
                most,
                bytes,
                SENDER,
                sig_len,
                &mut output,
            )
        };
        line(
            name,
            ROUNDS,
            Box::new(|| time(&mut port)),
            Box::new(|| time(all)),
        );
    }
    Ok(())
}

/// What the original sends of a chunk.
fn sent(chunk: Vec<StampedOperation>) -> ChunkSize {
    let rows = chunk.len();
    let envelope = Envelope {
        sender: stubs::ActorId(SENDER),
        body: BinaryCodec.encode(&Message::Delta(chunk)),
        sig: vec![0; SIGNATURE],
    };
    let bytes = envelope.encode().len();
    ChunkSize { rows, bytes }
}

fn lent<'a>((log, held, head): (&'a [u8], &'a [u8], &'a [u8])) -> sys::Areas<'a> {
    sys::Areas { log, held, head }
}

/// A million numbers of all lengths, in parts that are timed in turn.
fn varints() -> Done {
    let numbers: Vec<u64> = numbers().collect();
    let parts: Vec<&[u64]> = numbers.chunks(PART).collect();
    let texts: Vec<Vec<u8>> = parts.iter().map(|part| written(part)).collect();
    let mut out = vec![0; 10 * PART];
    for (part, text) in parts.iter().zip(&texts) {
        let sum = part.iter().fold(0, |sum: u64, n| sum.wrapping_add(*n));
        let len = put(part, &mut out);
        if out[..len] != text[..] || get(text) != sum || read(text) != sum {
            return Err("the varints differ".into());
        }
    }
    let (mut put_turn, mut written_turn) = (parts.iter().cycle(), parts.iter().cycle());
    line(
        "10,000 of a million varints written",
        ROUNDS,
        Box::new(move || {
            let part = put_turn.next();
            time(|| part.map(|part| put(part, &mut out)))
        }),
        Box::new(move || {
            let part = written_turn.next();
            time(|| part.map(|part| written(part)))
        }),
    );
    let (mut get_turn, mut read_turn) = (texts.iter().cycle(), texts.iter().cycle());
    line(
        "10,000 of a million varints read",
        ROUNDS,
        Box::new(move || {
            let text = get_turn.next();
            time(|| text.map(|text| get(text)))
        }),
        Box::new(move || {
            let text = read_turn.next();
            time(|| text.map(|text| read(text)))
        }),
    );
    Ok(())
}

/// Splitmix64, shifted so that all lengths occur.
fn numbers() -> impl Iterator<Item = u64> {
    let mut state = 0u64;
    (0..VARINTS).map(move |i| {
        state = state.wrapping_add(0x9e37_79b9_7f4a_7c15);
        let mut x = state;
        x = (x ^ (x >> 30)).wrapping_mul(0xbf58_476d_1ce4_e5b9);
        x = (x ^ (x >> 27)).wrapping_mul(0x94d0_49bb_1331_11eb);
        (x ^ (x >> 31)) >> (i % 10 * 7).min(63)
    })
}

fn put(numbers: &[u64], out: &mut [u8]) -> usize {
    let place = |at, number: &u64| sys::put_varint(out, at, *number).next as usize;
    numbers.iter().fold(0, place)
}

fn written(numbers: &[u64]) -> Vec<u8> {
    let mut writer = Writer::new();
    for number in numbers {
        writer.varint(*number);
    }
    writer.finish()
}

/// The sum of a part's varints.
fn get(bytes: &[u8]) -> u64 {
    let mut at = 0;
    let mut sum = 0u64;
    for _ in 0..PART {
        let read = sys::get_varint(bytes, at);
        at = read.next as usize;
        sum = sum.wrapping_add(read.value);
    }
    sum
}

fn read(bytes: &[u8]) -> u64 {
    let mut reader = Reader::new(bytes);
    let mut sum = 0u64;
    for _ in 0..PART {
        sum = sum.wrapping_add(reader.varint().unwrap_or(0));
    }
    sum
}
