//! Envelopes whole, cut at every length, padded, damaged, with each number overlong, and around their limits.

use cuwelfra::ActorId;
use cuwelfra_sys::{self as sys, EnvelopeRead, Told, Written};
use oracle::codec::{MAX_FRAME, MAX_SIGNATURE};
use oracle::open::Reader;
use oracle::stubs;
use oracle::sync::Envelope;

use crate::census::Forms;
use crate::leb128::OVERLONG;
use crate::model::messages;
use crate::original::codec_told;
use crate::rng::Rng;
use crate::support::{
    agree, each_replaced, pattern, refused, same_write, Check, Outcome, Refusing,
};
use crate::world::pieces;

const SMALL: usize = 2_000;
const DAMAGED: usize = 300;
const LONGER: usize = 300;
const ANY: usize = 300_000;

pub fn run(rng: &mut Rng) -> Outcome {
    let forms = &mut Forms::default();
    let mut cases = 0;
    for _ in 0..SMALL {
        let envelope = random(rng, 40, 20);
        cases += encoded(&envelope)?;
        cut_and_padded(rng, forms, &envelope.encode())?;
    }
    for _ in 0..DAMAGED {
        let frame = random(rng, 12, 8).encode();
        each_replaced(frame, |frame| decoded(forms, frame, "damaged"))?;
    }
    for _ in 0..LONGER {
        longer(forms, &random(rng, 40, 20))?;
    }
    for _ in 0..ANY {
        let len = rng.below(20);
        decoded(forms, &rng.bytes(len), "any bytes")?;
    }
    cases += lengths(rng, forms)?;
    cases += around_limits(rng, forms)?;
    forms.finish("envelope", OVERLONG)?;
    Ok(cases + forms.cases())
}

fn random(rng: &mut Rng, body: usize, sig: usize) -> Envelope {
    let (body, sig) = (rng.below(body), rng.below(sig));
    sized(rng, body, sig)
}

fn sized(rng: &mut Rng, body: usize, sig: usize) -> Envelope {
    Envelope {
        sender: stubs::ActorId(rng.edge()),
        body: rng.bytes(body),
        sig: rng.bytes(sig),
    }
}

/// Encodes with enough room and with every shorter one.
fn encoded(envelope: &Envelope) -> Outcome {
    let (sender, body, sig) = (envelope.sender.0, &envelope.body, &envelope.sig);
    let what = format!("encode_envelope of {sender}, {body:02x?}, {sig:02x?}");
    same_write(&envelope.encode(), 0, &what, |out, _| {
        sys::encode_envelope(out, sender, body, sig)
    })
}

fn cut_and_padded(rng: &mut Rng, forms: &mut Forms, frame: &[u8]) -> Check {
    for len in 0..=frame.len() {
        decoded(forms, &frame[..len], "cut")?;
    }
    let mut padded = frame.to_vec();
    for _ in 0..3 {
        padded.push(rng.byte());
        decoded(forms, &padded, "padded")?;
    }
    Ok(())
}

/// Sender, body length and signature length, each alone in more bytes than it needs: 30, or 23 above ten bytes.
fn longer(forms: &mut Forms, envelope: &Envelope) -> Check {
    let pieces = pieces::envelope(envelope.sender.0, &envelope.body, &envelope.sig);
    pieces::each_longer(&pieces, |frame, field, refusal| {
        let told = sys::decode_envelope(frame).told;
        agree(&told, &refused(refusal), || {
            format!("{field:?} in {frame:02x?}")
        })?;
        decoded(forms, frame, "longer")
    })
}

/// Body and signature lengths around the varint boundaries and the largest signature.
fn lengths(rng: &mut Rng, forms: &mut Forms) -> Outcome {
    let mut cases = 0;
    for body in [0, 1, 127, 128, 300] {
        for sig in [0, 1, 63, 64, 127, 128, 129]
            .into_iter()
            .chain(MAX_SIGNATURE - 3..=MAX_SIGNATURE + 3)
        {
            let envelope = sized(rng, body, sig);
            cases += encoded(&envelope)?;
            cut_and_padded(rng, forms, &envelope.encode())?;
        }
    }
    Ok(cases)
}

/// A few large ones around the largest frame.
fn around_limits(rng: &mut Rng, forms: &mut Forms) -> Outcome {
    let mut cases = 0;
    for body in [MAX_FRAME - 1, MAX_FRAME, MAX_FRAME + 1] {
        for sig in [0, MAX_SIGNATURE, MAX_SIGNATURE + 1] {
            let envelope = Envelope {
                sender: stubs::ActorId(rng.edge()),
                body: pattern(body),
                sig: pattern(sig),
            };
            large(forms, &envelope)?;
            cases += 2;
        }
    }
    Ok(cases)
}

fn large(forms: &mut Forms, envelope: &Envelope) -> Check {
    let (sender, body, sig) = (envelope.sender.0, &envelope.body, &envelope.sig);
    let what = format!("body of {} bytes, signature of {}", body.len(), sig.len());
    let mut frame = envelope.encode();
    let mut out = vec![0x5a; frame.len() - 1];
    let written = sys::encode_envelope(&mut out, sender, body, sig);
    agree(&written.told.number, &2, || format!("{what}, short"))?;
    let untouched = out.iter().all(|byte| *byte == 0x5a);
    agree(&untouched, &true, || format!("{what}, short, untouched"))?;
    out.push(0x5a);
    let written = sys::encode_envelope(&mut out, sender, body, sig);
    let wanted = Written {
        told: Told::default(),
        next: frame.len() as u64,
    };
    agree(&written, &wanted, || what.clone())?;
    agree(&(out == frame), &true, || format!("{what}, its bytes"))?;
    decoded_as(forms, &frame, || what.clone())?;
    decoded_as(forms, &frame[..frame.len() - 1], || format!("{what}, cut"))?;
    frame.push(0);
    decoded_as(forms, &frame, || format!("{what}, padded"))
}

fn decoded(forms: &mut Forms, frame: &[u8], what: &str) -> Check {
    decoded_as(forms, frame, || {
        format!("decode_envelope of {frame:02x?}, {what}")
    })
}

/// Requires that the port reads a frame as the original does, or refuses it with 30, of which the original is not asked;
/// and that an envelope that reads is the bytes that the original writes.
fn decoded_as(forms: &mut Forms, frame: &[u8], inputs: impl Fn() -> String) -> Check {
    let own = messages::read_envelope(frame);
    let overlong = own.is_err_and(|fault| fault.is_overlong());
    forms.note(overlong);
    let original = match overlong {
        true => Err(refused(OVERLONG)),
        false => Envelope::decode(frame).map_err(|error| codec_told(&error)),
    };
    let expected = match &original {
        Ok(envelope) => positions(frame, envelope),
        Err(told) => EnvelopeRead::refusing(*told),
    };
    agree(&sys::decode_envelope(frame), &expected, &inputs)?;
    agree(&sys::read_envelope(frame), &expected, || {
        format!("{}, by one reader", inputs())
    })?;
    let port = cuwelfra::Envelope::decode(frame);
    let same = match (&port, &original) {
        (Ok(port), Ok(original)) => same_parts(port, original) && original.encode() == frame,
        (Err(refusal), Err(told)) => refusal.told() == *told,
        _ => false,
    };
    agree(&same, &true, || format!("{}, its parts", inputs()))
}

fn same_parts(port: &cuwelfra::Envelope, original: &Envelope) -> bool {
    port.sender == ActorId(original.sender.0)
        && port.body == original.body
        && port.sig == original.sig
}

/// Where the parts of a frame that decodes stand, by the original's reader.
fn positions(frame: &[u8], envelope: &Envelope) -> EnvelopeRead {
    let mut r = Reader::new(frame);
    let sender = r.varint().expect("the sender reads");
    let body_len = r.count(MAX_FRAME).expect("the body's length reads");
    let body_at = frame.len() - r.remaining();
    EnvelopeRead {
        told: Told::default(),
        sender,
        body_at: body_at as u64,
        body_len: body_len as u64,
        sig_at: (frame.len() - envelope.sig.len()) as u64,
        sig_len: envelope.sig.len() as u64,
    }
}
