//! Batch calls of the port: what they are lent, and that they change only what they may.

use cuwelfra::Limits;
use cuwelfra_sys::{self as sys, DeltaTold, HybridParts};

use crate::port::batches::{batch, Answer, Offer, LINE};
use crate::port::rows::SLOT;
use crate::port::store::{is_zero, same_areas, Areas};
use crate::support::{agree, pattern, Check};

/// What a batch call is lent beside a store.
#[derive(Clone, Debug)]
pub struct Lent {
    pub limits: Limits,
    pub time: u64,
    pub clock: HybridParts,
    pub batch: Vec<u8>,
    /// Lengths of scratch and output.
    pub scratch: usize,
    pub output: usize,
}

impl Lent {
    /// An offer, with scratch and output for its rows and so many held ones.
    pub fn new(offer: &Offer, held: usize) -> Self {
        let room = held + offer.rows.len();
        Self {
            limits: offer.limits,
            time: offer.time,
            clock: offer.clock,
            batch: batch(&offer.rows),
            scratch: SLOT * room,
            output: LINE * room,
        }
    }
}

/// What a call told and left.
pub struct Answered {
    pub told: DeltaTold,
    pub scratch: Vec<u8>,
    pub output: Vec<u8>,
}

/// Makes the call; scratch and output hold other bytes before it.
pub fn call(areas: &mut Areas, lent: &Lent) -> Answered {
    let mut scratch = pattern(lent.scratch);
    let mut output = pattern(lent.output);
    let store = sys::AreasMut {
        log: &mut areas.log,
        held: &mut areas.held,
        head: &mut areas.head,
    };
    let told = sys::apply_delta(
        lent.limits.settings(),
        lent.time,
        lent.clock,
        store,
        &lent.batch,
        &mut scratch,
        &mut output,
    );
    Answered {
        told,
        scratch,
        output,
    }
}

/// Requires that the call answers so and leaves these areas and the answer's lines; that scratch is zero then, and the
/// output's other bytes stay.
pub fn same_call(
    areas: &mut Areas,
    lent: &Lent,
    answer: &Answer,
    wanted: &Areas,
    inputs: impl Fn() -> String,
) -> Check {
    let answered = call(areas, lent);
    agree(&answered.told, &answer.told, &inputs)?;
    let lines = answer.output();
    let mut output = pattern(lent.output);
    output[..lines.len()].copy_from_slice(&lines);
    agree(&answered.output, &output, &inputs)?;
    agree(&is_zero(&answered.scratch), &true, || {
        format!("scratch after {}", inputs())
    })?;
    same_areas(areas, wanted, inputs)
}
