//! What later versions may add a variant to is matched with one case more. Without `#[non_exhaustive]` that case would be
//! unreachable, and this would not compile.

#![deny(unreachable_patterns)]

use cuwelfra::{ApplyError, Fate, FileError, PeerState, Refusal};

/// Since when it is there.
#[derive(Debug, PartialEq)]
enum Since {
    Now,
    Later,
}

trait Dated {
    fn since(&self) -> Since;
}

impl Dated for ApplyError {
    fn since(&self) -> Since {
        match self {
            Self::MalformedOp | Self::UnknownOpTag(_) | Self::Denied | Self::Invalid(_) => {
                Since::Now
            }
            _ => Since::Later,
        }
    }
}

impl Dated for Fate {
    fn since(&self) -> Since {
        match self {
            Self::Applied | Self::Stale | Self::Rejected(_) => Since::Now,
            _ => Since::Later,
        }
    }
}

impl Dated for PeerState {
    fn since(&self) -> Since {
        match self {
            Self::Connecting | Self::Syncing | Self::UpToDate | Self::Disconnected => Since::Now,
            _ => Since::Later,
        }
    }
}

impl Dated for FileError {
    fn since(&self) -> Since {
        match self {
            Self::Io { .. } | Self::TooShort { .. } | Self::TooLong { .. } => Since::Now,
            Self::Empty | Self::NotAStore | Self::Version(_) | Self::Header { .. } => Since::Now,
            Self::UnknownSection(_) | Self::RepeatedSection(_) => Since::Now,
            Self::MissingSection(_) | Self::MisplacedSection(_) => Since::Now,
            Self::Section { .. } | Self::Fate { .. } | Self::FateCount { .. } => Since::Now,
            Self::Checksum { .. } | Self::Counts | Self::Refused(_) => Since::Now,
            Self::Busy
            | Self::NotRegular(_)
            | Self::ReadOnly
            | Self::Exists
            | Self::NotSynced(_) => Since::Now,
            _ => Since::Later,
        }
    }
}

impl Dated for Refusal {
    fn since(&self) -> Since {
        match self {
            Self::UnsoundStore | Self::ShortArea | Self::Unreadable => Since::Now,
            Self::OverCapacity | Self::ZeroSequence { .. } | Self::ForeignStamp { .. } => {
                Since::Now
            }
            Self::SpentCounter { .. } | Self::PayloadTooLarge { .. } => Since::Now,
            Self::TooManyCauses { .. } | Self::OwnFuture { .. } | Self::AheadOfTime { .. } => {
                Since::Now
            }
            Self::BadSignature { .. } | Self::Conflict { .. } | Self::HeldOverflow { .. } => {
                Since::Now
            }
            Self::HeldBytes { .. } | Self::AuthorOverflow { .. } | Self::LogFull => Since::Now,
            Self::AuthorsFull | Self::CounterOverflow | Self::RemoteAhead { .. } => Since::Now,
            Self::UnaskedPong | Self::Truncated | Self::VarintOverflow => Since::Now,
            Self::TooLarge | Self::TrailingBytes => Since::Now,
            Self::OperationTooLarge | Self::SequenceExhausted | Self::OtherCauses => Since::Now,
            Self::InvalidTag { .. } | Self::Overlong => Since::Now,
            Self::UnknownAnswer(_) | Self::MisfitAnswer => Since::Now,
            _ => Since::Later,
        }
    }
}

#[test]
fn what_there_is_now_is_matched() {
    let variants: [&dyn Dated; 5] = [
        &ApplyError::Denied,
        &Fate::Stale,
        &PeerState::UpToDate,
        &FileError::NotAStore,
        &Refusal::LogFull,
    ];
    for variant in variants {
        assert_eq!(variant.since(), Since::Now);
    }
}
