//! The suites, in the order in which they run: `alone` those that need the port alone, `beside` those that need the Rust
//! original too.

use crate::rng::Rng;
use crate::support::Outcome;

pub type Run = fn(&mut Rng) -> Outcome;

pub struct Suite {
    module: &'static str,
    /// `None` where the suite needs the Rust original and it is absent.
    pub run: Option<Run>,
}

impl Suite {
    /// Its module's name with hyphens.
    pub fn name(&self) -> String {
        self.module.replace('_', "-")
    }
}

/// One list makes the modules of a folder and its table of suites; where what they need is absent, the table alone. It
/// is named and formed like the macro of the crate cfg-if, since rustfmt looks for modules in no other.
macro_rules! cfg_if {
    (if #[cfg($needs:meta)] { pub mod $folder:ident { $(pub mod $suite:ident;)* } }) => {
        #[cfg($needs)]
        pub mod $folder {
            $(pub mod $suite;)*

            pub const SUITES: &[super::Suite] = &[$(super::Suite {
                module: stringify!($suite),
                run: Some($suite::run),
            }),*];
        }
        #[cfg(not($needs))]
        pub mod $folder {
            pub const SUITES: &[super::Suite] = &[$(super::Suite {
                module: stringify!($suite),
                run: None,
            }),*];
        }
    };
}

cfg_if! {
    if #[cfg(all())] {
        pub mod alone {
            pub mod refusals;
            pub mod vector_areas;
            pub mod damaged_stores;
            pub mod merge_cases;
            pub mod batch_bytes;
            pub mod odd_stores;
            pub mod desk_faults;
            pub mod message_areas;
            pub mod convergence;
        }
    }
}

cfg_if! {
    if #[cfg(oracle_present)] {
        pub mod beside {
            pub mod varint_short;
            pub mod varint_long;
            pub mod varint_write;
            pub mod writers;
            pub mod readers;
            pub mod envelope;
            pub mod messages;
            pub mod frames;
            pub mod timestamp;
            pub mod hybrid;
            pub mod vector;
            pub mod row_bytes;
            pub mod row_faults;
            pub mod log_insert;
            pub mod from_parts;
            pub mod compact;
            pub mod cutoff;
            pub mod delta;
            pub mod chunks;
            pub mod delta_sizes;
            pub mod lookup;
            pub mod peers;
            pub mod peer_pending;
            pub mod full_size;
            pub mod call_lists;
            pub mod expiring;
            pub mod replica;
            pub mod desk;
            pub mod differences;
        }
    }
}

pub fn all() -> impl Iterator<Item = &'static Suite> {
    alone::SUITES.iter().chain(beside::SUITES)
}

/// The suites that run longest, in falling order.
pub const LONGEST: [&str; 13] = [
    "expiring",
    "delta-sizes",
    "call-lists",
    "full-size",
    "replica",
    "convergence",
    "desk",
    "compact",
    "from-parts",
    "chunks",
    "cutoff",
    "log-insert",
    "damaged-stores",
];
