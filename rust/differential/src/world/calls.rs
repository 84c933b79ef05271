//! Every exported call that takes a store, with its other areas.

use cuwelfra::Limits;
use cuwelfra_sys::{self as sys, ClockNumber, HybridParts, LookupTold, StampTold, Told};

use crate::model::folding::same_clock;
use crate::port::area::{self, BYTES};
use crate::port::batches::unsigned;
use crate::port::lending::{self, Lent};
use crate::port::own::{self, Sealing};
use crate::port::rows::{Row, DEPS, SLOT};
use crate::port::store::{is_zero, Areas, CLOCK, COMPACTED, HELD};
use crate::rng::Rng;
use crate::support::pattern;
use crate::world::World;

/// The areas that the calls take beside a store, and numbers.
#[derive(Clone, Debug, PartialEq, Eq)]
pub struct Others {
    pub slot: Vec<u8>,
    pub clock: Vec<u8>,
    pub peer: Vec<u8>,
    /// Room for a clock.
    pub room: Vec<u8>,
    pub output: Vec<u8>,
    pub author: u64,
    pub seq: u64,
}

impl Others {
    pub fn new(rng: &mut Rng, world: &World) -> Self {
        let mut peer = vec![0; 704];
        let clock = area::encode(world.clock(rng, world.authors.len().min(4)));
        peer[16..16 + BYTES].copy_from_slice(&clock);
        Self {
            slot: world.row(rng).slot().to_vec(),
            clock: clock.to_vec(),
            peer,
            room: pattern(BYTES),
            output: pattern(8 * 1_024),
            author: world.author(rng),
            seq: world.seq(rng),
        }
    }
}

type Call = fn(&mut Areas, &mut Others) -> Told;

/// Which other area of fixed size a call takes.
#[derive(Clone, Copy, Debug, PartialEq, Eq)]
pub enum Takes {
    Nothing,
    Slot,
    Clock,
    Peer,
    Room,
}

/// Name, other area, call.
pub const CALLS: [(&str, Takes, Call); 20] = [
    ("store_check", Takes::Nothing, |s, _| {
        sys::store_check(s.lent())
    }),
    ("log_len", Takes::Nothing, |s, _| {
        number(sys::log_len(s.lent()))
    }),
    ("pending_len", Takes::Nothing, |s, _| {
        number(sys::pending_len(s.lent()))
    }),
    ("floor", Takes::Nothing, |s, _| stamp(sys::floor(s.lent()))),
    ("watermark", Takes::Nothing, |s, o| {
        stamp(sys::watermark(s.lent(), o.author))
    }),
    ("log_clock", Takes::Room, |s, o| {
        sys::log_clock(s.lent(), &mut o.room)
    }),
    ("log_compacted", Takes::Room, |s, o| {
        sys::log_compacted(s.lent(), &mut o.room)
    }),
    ("derive_clock", Takes::Room, |s, o| {
        sys::derive_clock(s.lent(), &mut o.room)
    }),
    ("can_serve", Takes::Clock, |s, o| {
        number(sys::can_serve(s.lent(), &o.clock))
    }),
    ("lookup", Takes::Nothing, |s, o| {
        place(sys::lookup(s.lent(), o.author, o.seq))
    }),
    ("insert", Takes::Slot, |s, o| {
        sys::insert(&mut s.log, &s.held, &mut s.head, &o.slot)
    }),
    ("compact", Takes::Nothing, |s, o| {
        let cutoff = (u64::MAX, 0, o.author);
        number(sys::compact(&mut s.log, &s.held, &mut s.head, cutoff))
    }),
    ("cutoff", Takes::Clock, |s, o| {
        stamp(sys::cutoff(s.lent(), &o.clock))
    }),
    ("calculate_delta", Takes::Clock, |s, o| {
        number(sys::calculate_delta(s.lent(), &o.clock, &mut o.output))
    }),
    ("chunk_ops", Takes::Clock, |s, o| {
        number(sys::chunk_ops(
            s.lent(),
            &o.clock,
            o.seq,
            o.author,
            &mut o.output,
        ))
    }),
    ("delta_sizes", Takes::Clock, |s, o| {
        number(sys::delta_sizes(
            s.lent(),
            &o.clock,
            o.seq,
            o.author,
            o.author,
            o.seq % 1_025,
            &mut o.output,
        ))
    }),
    ("peer_pending_ops", Takes::Peer, |s, o| {
        number(sys::peer_pending_ops(&o.peer, s.lent()))
    }),
    ("set_floor", Takes::Nothing, |s, o| {
        let floor = (u64::MAX, 0, o.author);
        sys::set_floor(&s.log, &s.held, &mut s.head, floor)
    }),
    ("apply_delta", Takes::Nothing, |s, o| merged(s, o)),
    ("seal", Takes::Nothing, |s, o| sealed(s, o)),
];

/// Cuts the other area of a call by a byte; false where it takes none.
pub fn shorten(takes: Takes, others: &mut Others) -> bool {
    match takes {
        Takes::Nothing => return false,
        Takes::Slot => others.slot.truncate(SLOT - 1),
        Takes::Clock => others.clock.truncate(BYTES - 1),
        Takes::Peer => others.peer.truncate(703),
        Takes::Room => others.room.truncate(BYTES - 1),
    }
    true
}

/// Breaks a rule of the other area of a call; false where it has none.
pub fn spoil(takes: Takes, others: &mut Others) -> bool {
    match takes {
        Takes::Nothing | Takes::Room => return false,
        Takes::Slot => area::set_word(&mut others.slot, 15, 1),
        Takes::Clock => area::set_word(&mut others.clock, 0, 33),
        Takes::Peer => area::set_word(&mut others.peer, 1, 4),
    }
    true
}

/// A batch without rows. Scratch is zero afterwards, the hybrid clock as before, and a refusal gives no counts.
fn merged(s: &mut Areas, o: &mut Others) -> Told {
    let lent = Lent {
        limits: Limits::default(),
        time: 0,
        clock: HybridParts {
            actor: o.author,
            last_wall: o.seq,
            last_counter: o.seq as u32,
            max_drift_ms: o.author,
        },
        batch: vec![0],
        scratch: HELD,
        output: o.output.len(),
    };
    let answered = lending::call(s, &lent);
    assert!(is_zero(&answered.scratch), "scratch");
    if let Err(difference) = same_clock(&lent, &answered.told) {
        panic!("{difference}");
    }
    answered.told.told
}

/// A row that depends on the store's clock, or on as much of it as a row can.
fn sealed(s: &mut Areas, o: &Others) -> Told {
    let clock = s.head.get(8 * CLOCK..8 * COMPACTED).unwrap_or(&[0; BYTES]);
    let row = Row {
        stamp: (o.seq, 0, o.author),
        author: o.author,
        seq: o.seq.max(1),
        deps: area::entries(clock).take(DEPS).collect(),
        payload: Vec::new(),
        signature: Vec::new(),
    };
    let lent = Sealing {
        bytes: unsigned(&row),
        signature: Vec::new(),
    };
    own::seal(s, &lent)
}

fn number(answer: ClockNumber) -> Told {
    if answer.told != Told::default() {
        assert_eq!(answer.number, 0, "a refused call gives no number");
    }
    answer.told
}

fn stamp(answer: StampTold) -> Told {
    let told = answer.told;
    let nothing = StampTold {
        told,
        ..StampTold::default()
    };
    if told != Told::default() {
        assert_eq!(answer, nothing, "a refused call gives no stamp");
    }
    told
}

fn place(answer: LookupTold) -> Told {
    let told = answer.told;
    let nothing = LookupTold {
        told,
        ..LookupTold::default()
    };
    if told != Told::default() {
        assert_eq!(answer, nothing, "a refused call gives no place");
    }
    told
}
