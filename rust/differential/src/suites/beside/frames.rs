//! Messages inside envelopes, beside the original's `Envelope` and `BinaryCodec`: whole, cut at every length, padded, each
//! byte replaced, each number overlong, and bodies whose sizes reach into the signature behind them.

use cuwelfra::ActorId;
use cuwelfra_sys::{self as sys, FrameTold};
use oracle::stubs;
use oracle::sync::Envelope;

use crate::census::Forms;
use crate::leb128::{put, OVERLONG};
use crate::model::messages::{bytes, frame_call, numbers, read_envelope, read_message};
use crate::model::messages::{Answer, Field, Message, BODY, ENVELOPE};
use crate::original::codec_told;
use crate::original::messages::Alone;
use crate::port::area::BYTES;
use crate::port::messages::{slots_asked, wrapped_message, Lent};
use crate::port::rows::SLOT;
use crate::readings::Readings;
use crate::rng::Rng;
use crate::support::{agree, each_replaced, note, Check, Outcome};
use crate::world::messages::{body, delta, frame, largest, message, sizes};
use crate::world::pieces;

const STRUCTURED: usize = 1_500_000;
const REACHING: usize = 200_000;
const CUT: usize = 1_500;
const REPLACED: usize = 120;
/// Messages of which each number alone, or that of their envelope, is longer than it needs to be.
const LONGER: usize = 200;

pub fn run(rng: &mut Rng) -> Outcome {
    let mut beside = Beside::new();
    for _ in 0..STRUCTURED {
        let body = body(rng);
        let wrapped = rng.once_in(8);
        beside.read(&frame(rng, &body), wrapped)?;
    }
    for _ in 0..REACHING {
        beside.read(&reaching(rng), false)?;
    }
    for _ in 0..CUT {
        let body = bytes(&message(rng));
        let sig = rng.pick(&[0, 1, 8, 64]);
        beside.cut_and_padded(rng, &body, sig)?;
    }
    for _ in 0..REPLACED {
        let mut body = bytes(&message(rng));
        body.truncate(60);
        let sig = rng.below(6);
        let frame = whole(rng, &body, sig);
        each_replaced(frame, |frame| beside.read(frame, false))?;
    }
    for _ in 0..LONGER {
        let message = message(rng);
        beside.longer(rng, &message)?;
    }
    for sig in [1_023, 1_024, 1_025, 5_000] {
        for _ in 0..50 {
            let body = bytes(&message(rng));
            beside.read(&whole(rng, &body, sig), true)?;
        }
    }
    let full = [delta(rng, 64), delta(rng, 63)];
    for message in largest().into_iter().chain(full) {
        let frame = whole(rng, &bytes(&message), 1_024);
        for len in (0..frame.len()).step_by(331).chain([frame.len()]) {
            beside.read(&frame[..len], true)?;
        }
    }
    let mut bodies = Rng::for_suite(rng.next(), "sizes");
    sizes(&mut bodies, |body| {
        let sig = rng.pick(&[0, 1, 1_000]);
        beside.read(&whole(rng, body, sig), false)
    })?;
    beside.longest_bodies()?;
    beside.finish()
}

/// The original's envelope of any sender and signature.
fn whole(rng: &mut Rng, body: &[u8], sig: usize) -> Vec<u8> {
    let envelope = Envelope {
        sender: stubs::ActorId(rng.edge()),
        body: body.to_vec(),
        sig: rng.bytes(sig),
    };
    envelope.encode()
}

/// A body that ends behind a size, or a few bytes later, with a signature behind it: the size is above the body's bytes,
/// and mostly not above the frame's.
fn reaching(rng: &mut Rng) -> Vec<u8> {
    let starts: [&[u8]; 6] = [
        &[0],
        &[2],
        &[1],
        &[1, 1, 9, 9, 9, 9, 9],
        &[1, 1, 9, 9, 9, 9, 9, 0],
        &[1, 1, 9, 9, 9, 9, 9, 0, 0],
    ];
    let left = rng.pick(&[0, 0, 1, 2, 14, 15, 16, 30, 31, 32, 63, 64]);
    let more = 1 + rng.below(4);
    let mut body = rng.pick(&starts).to_vec();
    put(&mut body, (left + more) as u64);
    body.extend(rng.bytes(left));
    let sig = (more + rng.pick(&[0, 1, 8, 40])).saturating_sub(rng.pick(&[0, 0, 2]));
    whole(rng, &body, sig)
}

struct Beside {
    lent: Lent,
    readings: Readings,
    alone: Alone,
    /// Envelopes, whatever is in their bodies.
    envelopes: Forms,
    /// Frames whose body has a size above its bytes and not above the frame's.
    reached: u64,
}

impl Beside {
    fn new() -> Self {
        Self {
            lent: Lent::new(),
            readings: Readings::default(),
            alone: Alone::default(),
            envelopes: Forms::default(),
            reached: 0,
        }
    }

    /// The model, the original and the port on one frame; the wrapper too where it is wanted.
    fn read(&mut self, frame: &[u8], wrapped: bool) -> Check {
        let (tag, number) = self.judge(frame)?;
        let asked = read_envelope(frame).map_or(0, |read| {
            slots_asked(&frame[read.body_at as usize..][..read.body_len as usize])
        });
        let slots = match tag {
            1 => number as usize + 1,
            _ => asked + 1,
        };
        let lens = (BYTES + 8, slots * SLOT);
        let answer = frame_call(frame, lens.0, lens.1);
        let inputs = || format!("decode_frame of {frame:02x?}");
        let call = |clock: &mut [u8], rows: &mut [u8]| sys::decode_frame(frame, clock, rows);
        self.lent.same(lens, &answer, call, inputs)?;
        self.readings.note(&answer, tag, number);
        self.reached += u64::from(reaches(frame, &answer));
        if wrapped {
            same_wrapped(frame, &answer, inputs)?;
        }
        Ok(())
    }

    /// Requires that the original reads the envelope as the model does, unless a number of it is overlong, and then the
    /// body. Gives tag and number of a message that was read.
    fn judge(&mut self, frame: &[u8]) -> Result<(u64, u64), String> {
        let ours = read_envelope(frame);
        let overlong = ours.is_err_and(|fault| fault.is_overlong());
        self.envelopes.note(overlong);
        if overlong {
            return Ok((0, 0));
        }
        let theirs = Envelope::decode(frame);
        let inputs = || format!("the model's envelope beside the original's on {frame:02x?}");
        match (ours, theirs) {
            (Ok(read), Ok(envelope)) => {
                let part = |at: u64, len: u64| &frame[at as usize..][..len as usize];
                let ours = (
                    read.sender,
                    part(read.body_at, read.body_len),
                    part(read.sig_at, read.sig_len),
                );
                let theirs = (envelope.sender.0, &envelope.body[..], &envelope.sig[..]);
                agree(&ours, &theirs, inputs)?;
                let (read, _) = read_message(&envelope.body);
                self.alone.judge(&envelope.body, &read)?;
                Ok(read.as_ref().map_or((0, 0), numbers))
            }
            (ours, theirs) => {
                let theirs = theirs.map(|_| ()).map_err(|error| codec_told(&error));
                let ours = ours.map(|_| ()).map_err(|fault| fault.told);
                agree(&ours, &theirs, inputs)?;
                Ok((0, 0))
            }
        }
    }

    fn cut_and_padded(&mut self, rng: &mut Rng, body: &[u8], sig: usize) -> Check {
        let mut frame = whole(rng, body, sig);
        for len in 0..=frame.len() {
            self.read(&frame[..len], false)?;
        }
        for _ in 0..3 {
            frame.push(rng.byte());
            self.read(&frame, true)?;
        }
        // The body cut or padded inside a sound envelope.
        for len in 0..body.len() {
            self.read(&whole(rng, &body[..len], sig), false)?;
        }
        let mut body = body.to_vec();
        body.push(rng.byte());
        self.read(&whole(rng, &body, sig), true)
    }

    /// Each number of the envelope and of the message alone in more bytes than it needs.
    fn longer(&mut self, rng: &mut Rng, message: &Message) -> Check {
        let sig = rng.bytes(3);
        let envelope = pieces::envelope(rng.edge(), &bytes(message), &sig);
        pieces::each_longer(&envelope, |frame, field, refusal| {
            self.refused(frame, (refusal, field))
        })?;
        pieces::each_longer(&pieces::message(message), |body, field, refusal| {
            self.refused(&whole(rng, body, 3), (refusal, field))
        })
    }

    /// Requires that this number refuses at this field, and the rest as always.
    fn refused(&mut self, frame: &[u8], wanted: (u64, Field)) -> Check {
        let fault = frame_call(frame, BYTES, 0).fault;
        let fault = fault.map(|fault| (fault.told.number, fault.field));
        agree(&fault, &Some(wanted), || format!("{frame:02x?}"))?;
        self.read(frame, true)
    }

    /// Bodies around the longest that an envelope has; their tag is none.
    fn longest_bodies(&mut self) -> Check {
        for len in [(1 << 24) - 1, 1 << 24, (1 << 24) + 1] {
            let mut frame = vec![7];
            put(&mut frame, len as u64);
            frame.resize(frame.len() + len, 9);
            frame.push(0);
            let answer = frame_call(&frame, BYTES, 0);
            let told = sys::decode_frame(&frame, &mut [0; BYTES], &mut []);
            agree(&told, &answer.told, || format!("a body of {len} bytes"))?;
            self.readings.note(&answer, 0, 0);
        }
        Ok(())
    }

    fn finish(&self) -> Outcome {
        self.envelopes.finish("frames, the envelope", OVERLONG)?;
        note(&format!("frames, the message: {}", self.alone.finish()?));
        let reached = self.reached;
        note(&format!(
            "frames: {reached} bodies with a size above the body's bytes and not above the frame's"
        ));
        if reached == 0 {
            return Err("  frames: no size reached into the signature".into());
        }
        self.readings
            .finish("frames", &[&ENVELOPE[..], &BODY].concat())?;
        Ok(self.readings.cases())
    }
}

/// Whether a size of the body is within the original's limit, above the body's bytes, and not above the frame's.
fn reaches(frame: &[u8], answer: &Answer<FrameTold>) -> bool {
    let Some(fault) = answer.fault.filter(|fault| BODY.contains(&fault.field)) else {
        return false;
    };
    let (Some(size), Some((limit, _))) = (fault.size, fault.field.limits()) else {
        return false;
    };
    let Ok(envelope) = read_envelope(frame) else {
        return false;
    };
    let behind = frame.len() as u64 - envelope.body_at - envelope.body_len;
    let left = size.left as u64;
    size.value <= limit && size.value > left && size.value <= left + behind
}

fn same_wrapped(frame: &[u8], answer: &Answer<FrameTold>, inputs: impl Fn() -> String) -> Check {
    let inputs = || format!("the wrapper's {}", inputs());
    let read = cuwelfra::Frame::decode(frame);
    if answer.fault.is_some() {
        let told = read.map(|_| ()).map_err(|refusal| refusal.told());
        return agree(&told, &Err(answer.told.told), inputs);
    }
    let read = read.map_err(|refusal| format!("{}: {refusal}", inputs()))?;
    let told = &answer.told;
    let part = |at: u64, len: u64| &frame[at as usize..][..len as usize];
    let body = part(told.body_at, told.body_len);
    let (message, _) = read_message(body);
    let message = message.map(|message| wrapped_message(&message));
    let wanted = (
        ActorId(told.sender),
        body,
        part(told.sig_at, told.sig_len),
        message.map_err(|fault| fault.told),
    );
    agree(
        &(read.sender, read.body, read.sig, Ok(read.message)),
        &wanted,
        inputs,
    )
}
