//! Rows of the desk's own: prepared, signed by the server, sealed.

use crate::Told;

/// A row to sign, and the hybrid clock moved on. Refused: the row is 0, the clock as handed in.
#[repr(C)]
#[derive(Clone, Copy, Debug, Default, PartialEq, Eq)]
#[must_use]
pub struct PreparedTold {
    /// Whether the call was refused.
    pub told: Told,
    /// The stamp's wall time.
    pub wall_time: u64,
    /// The stamp's counter.
    pub logical_counter: u64,
    /// The stamp's author.
    pub actor_id: u64,
    /// The author's number for the row.
    pub sequence: u64,
    /// How many dependencies it has.
    pub deps: u64,
    /// Their authors; places behind the count are 0.
    pub dep_authors: [u64; 16],
    /// Their numbers, likewise.
    pub dep_numbers: [u64; 16],
    /// How many bytes of the output are to be signed.
    pub len: usize,
    /// The clock's wall afterwards.
    pub last_wall: u64,
    /// The clock's counter afterwards.
    pub last_counter: u64,
}

/// What a row of the desk's own is made of beside its payload and the log's clock.
#[derive(Clone, Copy, Debug, Default, PartialEq, Eq)]
pub struct Preparation {
    /// The author, whose hybrid clock this is.
    pub author: u64,
    /// The hybrid clock's wall.
    pub last_wall: u64,
    /// The hybrid clock's counter.
    pub last_counter: u32,
    /// The hybrid clock's drift, in ms. It plays no part in preparing.
    pub max_drift_ms: u64,
    /// The time, in ms.
    pub time_ms: u64,
    /// The number that the author issued last.
    pub issued: u64,
}

/// Prepares a row and writes the bytes to sign at the start of `output`, for which 624 always do. `clock` is the log's, as
/// an area of 520 bytes.
pub fn prepare(of: Preparation, payload: &[u8], clock: &[u8], output: &mut [u8]) -> PreparedTold {
    lend!(cuwelfra_prepare(
        of.author,
        of.last_wall,
        of.last_counter,
        of.max_drift_ms,
        of.time_ms,
        of.issued,
        read payload,
        read clock,
        write output
    ))
}

/// Logs the row of these bytes, exactly those of [`prepare`], with its signature. Save the store before the row goes out.
pub fn seal(log: &mut [u8], held: &[u8], head: &mut [u8], bytes: &[u8], signature: &[u8]) -> Told {
    lend!(cuwelfra_seal(write log, read held, write head, read bytes, read signature))
}
