//! Rows of the desk's own: what preparing and sealing are lent, and that they change only what they may.

use cuwelfra_sys::{self as sys, Preparation, PreparedTold, Told};

use crate::port::store::{same_areas, Areas};
use crate::support::{agree, pattern, Check};

/// What preparing is lent.
#[derive(Clone, Debug)]
pub struct Preparing {
    pub of: Preparation,
    pub payload: Vec<u8>,
    pub clock: Vec<u8>,
    /// The length of the output.
    pub output: usize,
}

/// What sealing is lent beside a store.
#[derive(Clone, Debug)]
pub struct Sealing {
    pub bytes: Vec<u8>,
    pub signature: Vec<u8>,
}

/// Makes the call; the output holds other bytes before it.
pub fn prepare(lent: &Preparing) -> (PreparedTold, Vec<u8>) {
    let mut output = pattern(lent.output);
    let told = sys::prepare(lent.of, &lent.payload, &lent.clock, &mut output);
    (told, output)
}

pub fn seal(areas: &mut Areas, lent: &Sealing) -> Told {
    sys::seal(
        &mut areas.log,
        &areas.held,
        &mut areas.head,
        &lent.bytes,
        &lent.signature,
    )
}

/// Requires that preparing answers so and writes these bytes, and no other.
pub fn same_prepare(lent: &Preparing, told: &PreparedTold, bytes: &[u8]) -> Check {
    let inputs = || format!("{lent:02x?}");
    let (answer, output) = prepare(lent);
    agree(&answer, told, inputs)?;
    let mut wanted = pattern(lent.output);
    wanted[..bytes.len()].copy_from_slice(bytes);
    agree(&output, &wanted, inputs)
}

/// Requires that sealing answers so and leaves these areas.
pub fn same_seal(
    areas: &mut Areas,
    lent: &Sealing,
    told: Told,
    wanted: &Areas,
    inputs: impl Fn() -> String,
) -> Check {
    agree(&seal(areas, lent), &told, &inputs)?;
    same_areas(areas, wanted, inputs)
}
