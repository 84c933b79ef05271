//! Authors.

use std::fmt;

/// Identifies an author.
#[derive(Clone, Copy, Debug, Default, PartialEq, Eq, PartialOrd, Ord, Hash)]
pub struct ActorId(pub u64);

impl fmt::Display for ActorId {
    fn fmt(&self, f: &mut fmt::Formatter<'_>) -> fmt::Result {
        self.0.fmt(f)
    }
}

impl From<u64> for ActorId {
    fn from(number: u64) -> Self {
        Self(number)
    }
}

impl From<ActorId> for u64 {
    fn from(actor: ActorId) -> Self {
        actor.0
    }
}
