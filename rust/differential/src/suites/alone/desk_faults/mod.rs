//! Preparing and sealing beside the model: calls that are refused, and areas of all sizes. The original has no such calls,
//! nor sizes.

mod anything;
mod orders;
mod places;

use crate::rng::Rng;
use crate::support::Outcome;

pub fn run(rng: &mut Rng) -> Outcome {
    Ok(orders::run()? + places::run(rng)? + anything::run(rng)?)
}
