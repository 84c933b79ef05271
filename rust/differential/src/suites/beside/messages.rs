//! Message bodies beside the original's `BinaryCodec`: every one of up to three bytes, bodies of our own writing, damaged
//! ones, sizes around every limit, each number overlong; and messages that are written, and read back by both.

use cuwelfra_sys as sys;

use crate::model::messages::{bytes, message_call, numbers, read_message, Field, Message, BODY};
use crate::original::messages::{decoded, encoded, Alone};
use crate::port::area::{self, BYTES};
use crate::port::messages::{slots_asked, wrapped_message, Lent};
use crate::port::rows::SLOT;
use crate::readings::Readings;
use crate::rng::Rng;
use crate::support::{agree, each_replaced, note, same_write, Check, Outcome};
use crate::world::messages::{body, delta, largest, message, sizes};
use crate::world::pieces;

const STRUCTURED: usize = 2_000_000;
const WRITTEN: usize = 60_000;
/// Messages that are cut at every length and padded, and small ones of which each byte is replaced by every other.
const CUT: usize = 2_000;
const REPLACED: usize = 150;
/// Messages of which each number alone is longer than it needs to be.
const LONGER: usize = 600;

pub fn run(rng: &mut Rng) -> Outcome {
    let mut beside = Beside::new();
    zero_entry(&mut beside)?;
    small(&mut beside)?;
    beside.short()?;
    let short = 1 + 256 + (256 * 256) + (256 * 256 * 256);
    note(&format!(
        "messages: all {short} bodies of up to three bytes, the first a tag"
    ));
    for _ in 0..STRUCTURED {
        let wrapped = rng.once_in(8);
        beside.read(&body(rng), wrapped)?;
    }
    for _ in 0..CUT {
        let message = message(rng);
        beside.cut_and_padded(rng, &bytes(&message))?;
    }
    let small = |rng: &mut Rng| loop {
        let body = bytes(&message(rng));
        if body.len() <= 80 {
            return body;
        }
    };
    for _ in 0..REPLACED {
        let body = small(rng);
        each_replaced(body, |body| beside.read(body, false))?;
    }
    sizes(rng, |body| beside.read(body, false))?;
    for _ in 0..LONGER {
        let pieces = pieces::message(&message(rng));
        pieces::each_longer(&pieces, |body, field, refusal| {
            beside.refused(body, (refusal, field))
        })?;
    }
    for _ in 0..WRITTEN {
        let message = message(rng);
        beside.written(&message)?;
    }
    for rows in [63, 64] {
        let message = delta(rng, rows);
        beside.written(&message)?;
    }
    for message in largest() {
        beside.written(&message)?;
        beside.cut_at(&bytes(&message), 101)?;
    }
    beside.finish()
}

/// Hello {1: 0}: both write it alike; the original reads it back without the entry, the port with it.
fn zero_entry(beside: &mut Beside) -> Check {
    let hello = Message::Hello(vec![(1, 0)]);
    let inputs = || "Hello {1: 0}".to_owned();
    agree(&encoded(&hello), &vec![0, 1, 1, 0], inputs)?;
    let theirs = decoded(&[0, 1, 1, 0]);
    agree(&theirs, &Ok(Some(Message::Hello(vec![]))), inputs)?;
    agree(&read_message(&[0, 1, 1, 0]).0, &Ok(hello.clone()), inputs)?;
    beside.written(&hello)
}

/// The start of a small row: wall time 0, counter 0, stamp author, author and sequence 1.
const HEAD: [u8; 5] = [0, 0, 1, 1, 1];

/// Small bodies whose answers differ in kind, as docs/DIFFERENCES.md has them, or stand at an edge: the number here, 0 for
/// none, and the original's, 0 where it reads the body.
fn small(beside: &mut Beside) -> Check {
    let pairs = |authors: u8| -> Vec<u8> { (1..=authors).flat_map(|a| [a, 1]).collect() };
    let row = |rest: &[&[u8]]| [&[1, 1][..], &HEAD, &rest.concat()].concat();
    let bodies: [(Vec<u8>, u64, u64); 27] = [
        // An entry of 0, authors that fall, an author twice.
        (vec![0, 1, 1, 0], 0, 0),
        (vec![0, 2, 5, 1, 3, 2], 0, 0),
        (vec![2, 2, 5, 1, 5, 2], 0, 0),
        // 33 authors; 40 pairs of one; 32 are read.
        ([&[0, 33][..], &pairs(33)].concat(), 4, 0),
        ([&[0, 40][..], &[1; 80]].concat(), 4, 0),
        ([&[0, 32][..], &pairs(32)].concat(), 0, 0),
        // 65 rows, cut short; none.
        ([&[1, 65][..], &[0; 65]].concat(), 4, 22),
        ([&[1, 65][..], &[0; 65 * 8]].concat(), 4, 0),
        (vec![1, 0], 0, 0),
        // 17 dependencies; 257 bytes of payload; 65 of signature.
        (row(&[&[17], &pairs(17), &[0, 0]]), 4, 0),
        (row(&[&[0, 0x81, 2], &[7; 257], &[0]]), 4, 0),
        (row(&[&[0, 0x81, 2], &[7; 256]]), 24, 24),
        (row(&[&[0, 0, 65], &[7; 65]]), 4, 0),
        (row(&[&[0, 0, 65], &[7; 64]]), 24, 24),
        // One with no byte left, and with one.
        (vec![0, 1], 24, 24),
        (vec![0, 1, 1], 22, 22),
        // A snapshot's messages, whole and cut short; tags that neither has.
        (vec![5, 0, 0, 0, 0, 0], 29, 0),
        (vec![6, 0], 29, 0),
        (vec![6], 29, 22),
        (vec![7], 29, 29),
        (vec![0x80, 0], 29, 29),
        (vec![], 22, 22),
        // Overlong: a nonce, a count above the bytes left, 65 rows, a payload of 257 bytes, a counter of 2^32.
        (vec![4, 0x80, 0], 30, 0),
        (vec![0, 0x81, 0], 30, 24),
        ([&[1, 0xc1, 0][..], &[0; 65 * 8]].concat(), 30, 0),
        (row(&[&[0, 0x81, 0x82, 0], &[7; 257], &[0]]), 30, 0),
        (vec![1, 1, 0, 0x80, 0x80, 0x80, 0x80, 0x90, 0], 23, 23),
    ];
    for (body, here, there) in bodies {
        let (read, _) = read_message(&body);
        let ours = read.err().map_or(0, |fault| fault.told.number);
        let theirs = decoded(&body).err().map_or(0, |told| told.number);
        agree(&(ours, theirs), &(here, there), || format!("{body:02x?}"))?;
        beside.read(&body, true)?;
    }
    Ok(())
}

struct Beside {
    lent: Lent,
    readings: Readings,
    alone: Alone,
    writes: u64,
    /// Bodies that were read and are what the original writes of their message.
    spelled: u64,
}

impl Beside {
    fn new() -> Self {
        Self {
            lent: Lent::new(),
            readings: Readings::default(),
            alone: Alone::default(),
            writes: 0,
            spelled: 0,
        }
    }

    /// The model, the original and the port on one body; the wrapper too where it is wanted.
    fn read(&mut self, body: &[u8], wrapped: bool) -> Check {
        let (read, met) = read_message(body);
        self.alone.judge(body, &read)?;
        if let (Ok(message), true) = (&read, met.rose()) {
            agree(&&encoded(message)[..], &body, || {
                format!("{message:02x?}, its spelling")
            })?;
            self.spelled += 1;
        }
        let (tag, number) = read.as_ref().map_or((0, 0), numbers);
        let slots = match tag {
            1 => number as usize + 1,
            _ => slots_asked(body) + 1,
        };
        let lens = (BYTES + 8, slots * SLOT);
        let answer = message_call(body, lens.0, lens.1);
        let inputs = || format!("decode_message of {body:02x?}");
        let call = |clock: &mut [u8], rows: &mut [u8]| sys::decode_message(body, clock, rows);
        self.lent.same(lens, &answer, call, inputs)?;
        self.readings.note(&answer, tag, number);
        if wrapped {
            let wanted = read.map(|message| wrapped_message(&message));
            let read = cuwelfra::Message::decode(body).map_err(|refusal| refusal.told());
            let wanted = wanted.map_err(|fault| fault.told);
            agree(&read, &wanted, || format!("the wrapper's {}", inputs()))?;
        }
        Ok(())
    }

    /// The same, where this number refuses at this field.
    fn refused(&mut self, body: &[u8], wanted: (u64, Field)) -> Check {
        let (read, _) = read_message(body);
        let fault = read.map_err(|fault| (fault.told.number, fault.field));
        agree(&fault, &Err(wanted), || format!("{body:02x?}"))?;
        self.read(body, true)
    }

    /// No byte, every tag, and up to two bytes behind every tag.
    fn short(&mut self) -> Check {
        self.read(&[], true)?;
        for tag in 0..=255 {
            self.read(&[tag], true)?;
            for first in 0..=255 {
                self.read(&[tag, first], true)?;
                for second in 0..=255 {
                    self.read(&[tag, first, second], false)?;
                }
            }
        }
        Ok(())
    }

    fn cut_and_padded(&mut self, rng: &mut Rng, body: &[u8]) -> Check {
        self.cut_at(body, 1)?;
        let mut padded = body.to_vec();
        for _ in 0..3 {
            padded.push(rng.byte());
            self.read(&padded, true)?;
        }
        Ok(())
    }

    /// Cut at every length, or at one in so many.
    fn cut_at(&mut self, body: &[u8], step: usize) -> Check {
        for len in (0..body.len()).step_by(step).chain([body.len()]) {
            self.read(&body[..len], false)?;
        }
        Ok(())
    }

    /// A message is written as the original writes it, into enough room and no other, and read back by both.
    fn written(&mut self, message: &Message) -> Check {
        let body = encoded(message);
        let inputs = || format!("{message:02x?}");
        agree(&bytes(message), &body, || {
            format!("the model's {}", inputs())
        })?;
        let what = format!("the body of {}", inputs());
        self.writes += same_write(&body, 0, &what, |out, _| match message {
            Message::Hello(pairs) => sys::encode_hello(out, &area::encode(pairs.clone())),
            Message::Ack(pairs) => sys::encode_ack(out, &area::encode(pairs.clone())),
            Message::Ping(nonce) => sys::encode_ping(out, *nonce),
            Message::Pong(nonce) => sys::encode_pong(out, *nonce),
            Message::Delta(rows) => {
                let slots: Vec<u8> = rows.iter().flat_map(|row| row.slot()).collect();
                sys::encode_delta(out, &slots, rows.len())
            }
        })?;
        let wrapped = wrapped_message(message);
        agree(&wrapped.encode(), &Ok(body.clone()), || {
            format!("the wrapper's {}", inputs())
        })?;
        let (back, _) = read_message(&body);
        agree(&back.as_ref(), &Ok(message), inputs)?;
        self.read(&body, true)
    }

    fn finish(&self) -> Outcome {
        note(&format!("messages: {}", self.alone.finish()?));
        let spelled = self.spelled;
        note(&format!(
            "messages: {spelled} bodies that were read are what the original writes; in the others authors do not rise"
        ));
        agree(&(spelled > 0), &true, || {
            "bodies in their one spelling".into()
        })?;
        self.readings.finish("messages", &BODY)?;
        Ok(self.readings.cases() + self.writes)
    }
}
