//! What policy and state say of a row.

use std::error::Error;
use std::fmt;

/// Why policy or state refuse a row. It is logged all the same.
#[derive(Clone, Copy, Debug, PartialEq, Eq, Hash)]
#[non_exhaustive]
pub enum ApplyError {
    /// The payload does not decode.
    MalformedOp,
    /// The payload has a tag that the state does not know.
    UnknownOpTag(u8),
    /// The author may not do this.
    Denied,
    /// The application refuses it, for the reason of this number.
    Invalid(u8),
}

impl fmt::Display for ApplyError {
    fn fmt(&self, f: &mut fmt::Formatter<'_>) -> fmt::Result {
        match self {
            Self::MalformedOp => write!(f, "malformed operation"),
            Self::UnknownOpTag(tag) => write!(f, "unknown operation tag {tag}"),
            Self::Denied => write!(f, "denied by policy"),
            Self::Invalid(reason) => write!(f, "invalid operation, reason {reason}"),
        }
    }
}

impl Error for ApplyError {}

/// What policy and state say of a row.
pub type Outcome = Result<(), ApplyError>;

/// Document 01's outcome and detail.
pub(crate) fn parts_of(outcome: Outcome) -> (u8, u8) {
    match outcome {
        Ok(()) => (0, 0),
        Err(ApplyError::MalformedOp) => (1, 0),
        Err(ApplyError::UnknownOpTag(tag)) => (2, tag),
        Err(ApplyError::Denied) => (3, 0),
        Err(ApplyError::Invalid(reason)) => (4, reason),
    }
}

/// What stands behind an outcome and its detail, `None` where document 01 has no such two.
pub(crate) fn outcome_of(outcome: u8, detail: u8) -> Option<Outcome> {
    Some(match (outcome, detail) {
        (0, 0) => Ok(()),
        (1, 0) => Err(ApplyError::MalformedOp),
        (2, tag) => Err(ApplyError::UnknownOpTag(tag)),
        (3, 0) => Err(ApplyError::Denied),
        (4, reason) => Err(ApplyError::Invalid(reason)),
        _ => return None,
    })
}

#[cfg(test)]
mod tests {
    use super::*;

    /// Of all pairs of bytes those that are an outcome's: 3 without a detail, and 2 with any.
    #[test]
    fn two_bytes_are_one_outcome_or_none() {
        let all =
            (0..=u8::MAX).flat_map(|outcome| (0..=u8::MAX).map(move |detail| (outcome, detail)));
        let mut read = 0;
        for (outcome, detail) in all {
            if let Some(found) = outcome_of(outcome, detail) {
                assert_eq!(parts_of(found), (outcome, detail));
                read += 1;
            }
        }
        assert_eq!(read, 3 + 2 * 256);
    }
}
