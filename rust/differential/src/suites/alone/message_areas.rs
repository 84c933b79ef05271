//! The areas of the message calls, by the model alone: short, exact and longer ones, unsound clocks and slots, and every
//! lent byte after each call; which refusal comes first where several faults stand together; and messages of full size.

use cuwelfra_sys::{self as sys, Told, Written};

use crate::census::Numbers;
use crate::leb128::{lengthen_first, put};
use crate::model::messages::{bytes, clock_body, delta_body, frame_call, message_call, numbers};
use crate::model::messages::{read_message, Message, AREAS};
use crate::port::area::{self, Area, BYTES};
use crate::port::messages::{slots_asked, Lent, CLOCK_AREA, ROWS, ROWS_AREA};
use crate::port::rows::{Row, SLOT};
use crate::readings::Readings;
use crate::rng::Rng;
use crate::support::{agree, pattern, refused, same_write, Check, Outcome};
use crate::world::messages::{body, clock, delta, largest, message, row};

const BODIES: usize = 40_000;
const CLOCKS: usize = 60_000;
const SLOTS: usize = 40_000;
/// Clocks and slots of which each bit is flipped in turn.
const FLIPPED: usize = 6;

pub fn run(rng: &mut Rng) -> Outcome {
    let mut areas = Areas {
        lent: Lent::new(),
        readings: Readings::default(),
        hello: Numbers::default(),
        delta: Numbers::default(),
    };
    areas.reading(rng)?;
    areas.clocks(rng)?;
    areas.slots(rng)?;
    areas.faults_together(rng)?;
    let full = areas.full_size()? + nonces(rng)?;
    areas.readings.finish_areas("message-areas", &AREAS)?;
    let hello = areas
        .hello
        .finish("message-areas: encode_hello and encode_ack", &[0, 1, 2])?;
    let delta = areas
        .delta
        .finish("message-areas: encode_delta", &[0, 1, 2, 4])?;
    Ok(areas.readings.cases() + hello + delta + full)
}

struct Areas {
    lent: Lent,
    readings: Readings,
    hello: Numbers,
    delta: Numbers,
}

impl Areas {
    /// Both reading calls, on areas of any lengths.
    fn reading(&mut self, rng: &mut Rng) -> Check {
        for _ in 0..BODIES {
            let body = match rng.below(3) {
                0 => body(rng),
                _ => bytes(&message(rng)),
            };
            for _ in 0..4 {
                let lens = lens(rng, &body);
                self.read(rng, &body, lens)?;
            }
        }
        Ok(())
    }

    /// A body, alone and in a frame, on areas of these lengths.
    fn read(&mut self, rng: &mut Rng, body: &[u8], lens: (usize, usize)) -> Check {
        let (read, _) = read_message(body);
        let (tag, number) = read.as_ref().map_or((0, 0), numbers);
        let answer = message_call(body, lens.0, lens.1);
        let inputs = || format!("decode_message of {body:02x?} on areas of {lens:?} bytes");
        let call = |clock: &mut [u8], rows: &mut [u8]| sys::decode_message(body, clock, rows);
        self.lent.same(lens, &answer, call, inputs)?;
        self.readings.note(&answer, tag, number);

        let sig = rng.pick(&[0, 1, 7, 64]);
        let mut frame = framed(body, &rng.bytes(sig));
        if rng.once_in(8) {
            frame.truncate(rng.below(frame.len() + 1));
        }
        self.frame(&frame, lens, (tag, number))
    }

    fn frame(&mut self, frame: &[u8], lens: (usize, usize), of: (u64, u64)) -> Check {
        let answer = frame_call(frame, lens.0, lens.1);
        let inputs = || format!("decode_frame of {frame:02x?} on areas of {lens:?} bytes");
        let call = |clock: &mut [u8], rows: &mut [u8]| sys::decode_frame(frame, clock, rows);
        self.lent.same(lens, &answer, call, inputs)?;
        self.readings.note(&answer, of.0, of.1);
        Ok(())
    }

    /// Clock areas that are sound, damaged, short or longer.
    fn clocks(&mut self, rng: &mut Rng) -> Check {
        for _ in 0..CLOCKS {
            let mut area = area::encode(clock(rng)).to_vec();
            if rng.once_in(2) {
                damage_clock(rng, &mut area);
            }
            match rng.below(8) {
                0 => area.truncate(rng.pick(&[0, 8, BYTES - 8, BYTES - 1])),
                1 => area.extend(pattern(9)),
                _ => {}
            }
            let out = rng.pick(&[0, 1, 2, 10, 640, 641, 642, 643, 700]);
            self.clock(&area, out)?;
        }
        for _ in 0..FLIPPED {
            let mut area: Area = area::encode(clock(rng));
            for bit in 0..8 * BYTES {
                area[bit / 8] ^= 1 << (bit % 8);
                self.clock(&area, 700)?;
                area[bit / 8] ^= 1 << (bit % 8);
            }
        }
        Ok(())
    }

    /// Both calls on one clock area.
    fn clock(&mut self, area: &[u8], out: usize) -> Check {
        type Call = fn(&mut [u8], &[u8]) -> Written;
        let calls: [(&str, u8, Call); 2] = [
            ("encode_hello", 0, sys::encode_hello),
            ("encode_ack", 2, sys::encode_ack),
        ];
        for (what, tag, call) in calls {
            let inputs = || format!("{what} of {area:02x?} into {out} bytes");
            let told = same_body(clock_body(tag, area), out, |out| call(out, area), inputs)?;
            self.hello.note(&told);
        }
        Ok(())
    }

    /// Slots that are sound, damaged or held rows', areas that are short or longer, and counts that differ.
    fn slots(&mut self, rng: &mut Rng) -> Check {
        for _ in 0..SLOTS {
            let count = match rng.once_in(60) {
                true => rng.pick(&[63, 64, 65, 66]),
                false => rng.pick(&[0, 1, 1, 2, 3, 4]),
            };
            let mut area: Vec<u8> = (0..count).flat_map(|_| row(rng).slot()).collect();
            if count > 0 && rng.once_in(2) {
                let at = rng.below(count) * SLOT;
                damage_slot(rng, &mut area[at..at + SLOT]);
            }
            match rng.below(6) {
                0 => area.truncate(rng.below(area.len() + 1)),
                1 => area.extend(pattern(rng.pick(&[1, SLOT - 1, SLOT, SLOT + 1]))),
                _ => {}
            }
            let asked = match rng.below(6) {
                0 => rng.below(7),
                1 => rng.pick(&[
                    65,
                    66,
                    1 << 32,
                    usize::MAX / SLOT,
                    usize::MAX / SLOT + 1,
                    usize::MAX,
                ]),
                _ => count,
            };
            let room = rng.pick(&[0, 2, 20, 100, 700, 3_000, 45_000]);
            self.delta(&area, asked, room)?;
        }
        for _ in 0..FLIPPED {
            let mut area = row(rng).slot();
            for bit in 0..8 * SLOT {
                area[bit / 8] ^= 1 << (bit % 8);
                self.delta(&area, 1, 800)?;
                area[bit / 8] ^= 1 << (bit % 8);
            }
        }
        Ok(())
    }

    fn delta(&mut self, area: &[u8], count: usize, room: usize) -> Check {
        let call = |out: &mut [u8]| sys::encode_delta(out, area, count);
        let inputs = || format!("encode_delta of {count} of {area:02x?} into {room} bytes");
        let told = same_body(delta_body(area, count), room, call, inputs)?;
        self.delta.note(&told);
        Ok(())
    }

    /// Every set of faults at once, in every call: the first of them answers.
    fn faults_together(&mut self, rng: &mut Rng) -> Check {
        for faults in 0..32 {
            let has = |fault: u32| faults >> fault & 1 == 1;
            // Rows short, a slot that is no row's, more than 64, no room.
            let count = if has(2) { 65 } else { 3 };
            let mut slots: Vec<u8> = (0..count).flat_map(|_| row(rng).slot()).collect();
            if has(1) {
                let last = slots.len() - SLOT;
                slots[last + 90] = 1;
            }
            let wanted = first(&[(0, 2), (1, 1), (2, 4), (3, 2)], has);
            if has(0) {
                slots.pop();
            }
            let room = if has(3) { 1 } else { 45_000 };
            self.delta(&slots, count, room)?;
            let number = sys::encode_delta(&mut vec![0; room], &slots, count)
                .told
                .number;
            let inputs = || format!("encode_delta with faults {faults:05b}");
            agree(&number, &wanted, inputs)?;

            // A short clock area, a fault of the envelope, an overlong count, bytes behind the body, too few slots.
            let mut body = bytes(&delta(rng, 2));
            let wanted = first(&[(0, 2), (1, 24), (4, 30), (2, 25), (3, 2)], has);
            if has(4) {
                let mut behind = body.split_off(1);
                lengthen_first(&mut behind);
                body.extend(behind);
            }
            if has(2) {
                body.push(0);
            }
            let mut frame = framed(&body, &[9; 3]);
            if has(1) {
                frame.pop();
            }
            let lens = (
                if has(0) { BYTES - 1 } else { BYTES },
                if has(3) { 2 * SLOT - 1 } else { 2 * SLOT },
            );
            self.frame(&frame, lens, (1, 2))?;
            let [mut clock, mut rows] = [vec![0; lens.0], vec![0; lens.1]];
            let told = sys::decode_frame(&frame, &mut clock, &mut rows);
            let inputs = || format!("decode_frame with faults {faults:05b}");
            agree(&told.told.number, &wanted, inputs)?;
            if !has(1) {
                self.read(rng, &body, lens)?;
                let told = sys::decode_message(&body, &mut clock, &mut rows);
                let inputs = || format!("decode_message with faults {faults:05b}");
                agree(&told.told.number, &wanted, inputs)?;
            }
        }
        // A short area, a clock that breaks its rules, no room.
        for faults in 0..8 {
            let has = |fault: u32| faults >> fault & 1 == 1;
            let mut clock = area::encode([(1, 2), (3, 4)]).to_vec();
            if has(1) {
                clock[7] = 33;
            }
            if has(0) {
                clock.pop();
            }
            let room = if has(2) { 5 } else { 6 };
            self.clock(&clock, room)?;
            let wanted = first(&[(0, 2), (1, 1), (2, 2)], has);
            let number = sys::encode_ack(&mut vec![0; room], &clock).told.number;
            agree(&number, &wanted, || {
                format!("encode_ack with faults {faults:03b}")
            })?;
        }
        Ok(())
    }

    /// The largest messages, in every length of room near their own, and on areas around theirs; 65 rows.
    fn full_size(&mut self) -> Outcome {
        let [hello, full] = largest();
        let lengths = [bytes(&hello).len(), bytes(&full).len()];
        agree(&lengths, &[642, 44_098], || "the longest bodies".into())?;
        let (Message::Hello(pairs), Message::Delta(rows)) = (&hello, &full) else {
            return Err("  the largest messages".into());
        };
        let area = area::encode(pairs.clone());
        let mut cases = same_write(&bytes(&hello), 0, "32 authors", |out, _| {
            sys::encode_hello(out, &area)
        })?;
        let slots = slots_of(rows);
        cases += same_write(&bytes(&full), 0, "64 rows", |out, _| {
            sys::encode_delta(out, &slots, ROWS)
        })?;
        let more = [&slots[..], &slots[..SLOT]].concat();
        for room in [0, 44_098, 50_000] {
            self.delta(&more, ROWS + 1, room)?;
            self.delta(&more, ROWS, room)?;
        }
        for message in [&hello, &full] {
            let body = bytes(message);
            for clock in [0, BYTES - 1, BYTES, BYTES + 1, CLOCK_AREA] {
                for rows in [0, ROWS * SLOT - 1, ROWS * SLOT, ROWS * SLOT + 1, ROWS_AREA] {
                    let of = numbers(message);
                    let answer = message_call(&body, clock, rows);
                    let inputs =
                        || format!("the largest message on areas of {clock}, {rows} bytes");
                    let call = |c: &mut [u8], r: &mut [u8]| sys::decode_message(&body, c, r);
                    self.lent.same((clock, rows), &answer, call, inputs)?;
                    self.readings.note(&answer, of.0, of.1);
                    self.frame(&framed(&body, &[1; 1_024]), (clock, rows), of)?;
                }
            }
        }
        Ok(cases)
    }
}

/// The number of the first fault that there is, 0 for none.
fn first(order: &[(u32, u64)], has: impl Fn(u32) -> bool) -> u64 {
    let fault = order.iter().find(|(fault, _)| has(*fault));
    fault.map_or(0, |(_, number)| *number)
}

/// Every room around the bodies of Ping and Pong.
fn nonces(rng: &mut Rng) -> Outcome {
    let mut cases = 0;
    for nonce in (0..64).map(|i| 1 << i).chain([0, u64::MAX, rng.next()]) {
        let what = format!("nonce {nonce}");
        let body = bytes(&Message::Ping(nonce));
        cases += same_write(&body, 0, &what, |out, _| sys::encode_ping(out, nonce))?;
        let body = bytes(&Message::Pong(nonce));
        cases += same_write(&body, 0, &what, |out, _| sys::encode_pong(out, nonce))?;
    }
    Ok(cases)
}

/// Requires that a call writes this body into so much room, or nothing where it is refused; 2 comes last.
fn same_body(
    body: Result<Vec<u8>, Told>,
    room: usize,
    call: impl FnOnce(&mut [u8]) -> Written,
    inputs: impl Fn() -> String,
) -> Result<Told, String> {
    let mut out = pattern(room);
    let mut after = out.clone();
    let answer = match body {
        Ok(body) if body.len() <= room => {
            after[..body.len()].copy_from_slice(&body);
            Written {
                told: Told::default(),
                next: body.len() as u64,
            }
        }
        other => Written {
            told: other.err().unwrap_or(refused(2)),
            next: 0,
        },
    };
    agree(&call(&mut out), &answer, &inputs)?;
    agree(&out, &after, inputs)?;
    Ok(answer.told)
}

/// Lengths of both areas: short, exact or longer.
fn lens(rng: &mut Rng, body: &[u8]) -> (usize, usize) {
    let clock = match rng.below(4) {
        0 => rng.pick(&[0, 8, BYTES - 1]),
        1 => BYTES,
        _ => rng.pick(&[BYTES + 1, BYTES + 64, CLOCK_AREA]),
    };
    let need = match read_message(body).0 {
        Ok(Message::Delta(rows)) => rows.len() * SLOT,
        _ => slots_asked(body).max(rng.below(3)) * SLOT,
    };
    let rows = match rng.below(5) {
        0 => need.saturating_sub(1),
        1 => need,
        2 => need + 1,
        3 => need + SLOT,
        _ => rng.below(need + 1),
    };
    (clock, rows.min(ROWS_AREA))
}

fn framed(body: &[u8], sig: &[u8]) -> Vec<u8> {
    let mut frame = vec![7];
    for part in [body, sig] {
        put(&mut frame, part.len() as u64);
        frame.extend(part);
    }
    frame
}

fn slots_of(rows: &[Row]) -> Vec<u8> {
    rows.iter().flat_map(|row| row.slot()).collect()
}

/// Another count, another author or number, or another byte.
fn damage_clock(rng: &mut Rng, clock: &mut [u8]) {
    let (place, value) = (rng.below(32), rng.edge());
    match rng.below(4) {
        0 => {
            let count = area::word(clock, 0);
            let count = rng.pick(&[count + 1, count.wrapping_sub(1), 33, u64::MAX]);
            area::set_word(clock, 0, count);
        }
        1 => area::set_word(clock, 1 + 2 * place, value),
        2 => area::set_word(clock, 2 + 2 * place, value),
        _ => clock[rng.below(BYTES)] = rng.byte(),
    }
}

/// Another word of the head or of the dependencies, or another byte; arrival, outcome and detail among them.
fn damage_slot(rng: &mut Rng, slot: &mut [u8]) {
    let value = rng.edge();
    match rng.below(4) {
        0 => area::set_word(
            slot,
            rng.pick(&[5, 6, 7]),
            rng.pick(&[15, 16, 17, 64, 65, 256, 257, value]),
        ),
        1 => area::set_word(slot, rng.pick(&[8, 9, 10]), 1 + value % 4),
        2 => area::set_word(slot, rng.below(48), value),
        _ => slot[rng.below(SLOT)] = rng.byte(),
    }
}
