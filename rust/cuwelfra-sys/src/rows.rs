//! Rows in slots of 704 bytes and in batches.

use crate::{Told, Written};

/// The position past a batch row and the verifier's answer. Both are 0 when refused.
#[repr(C)]
#[derive(Clone, Copy, Debug, Default, PartialEq, Eq)]
#[must_use]
pub struct OpTold {
    /// Whether the row was refused.
    pub told: Told,
    /// The position past it.
    pub next: u64,
    /// The verifier's answer, 1 or 0.
    pub verdict: u64,
}

/// Writes the signed fields of a slot's row at the start of `out`.
pub fn unsigned_op(slot: &[u8], out: &mut [u8]) -> Written {
    lend!(cuwelfra_unsigned_op(read slot, write out))
}

/// Writes a slot's row with its signature at the start of `out`.
pub fn signed_op(slot: &[u8], out: &mut [u8]) -> Written {
    lend!(cuwelfra_signed_op(read slot, write out))
}

/// Reads the batch row at `at` into a slot.
pub fn read_op(batch: &[u8], at: usize, slot: &mut [u8]) -> OpTold {
    lend!(cuwelfra_read_op(read batch, at, write slot))
}
