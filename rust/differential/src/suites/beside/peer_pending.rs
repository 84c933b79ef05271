//! How many logged rows a peer has not acknowledged.

use cuwelfra_sys::{self as sys, ClockNumber};
use oracle::peer::Peer;
use oracle::stubs::ActorId;

use crate::original::beside::{entries, told_number, vector, Pair};
use crate::port::area::set_word;
use crate::port::store::Entries;
use crate::rng::Rng;
use crate::suites::beside::peers::{encode, ANSWERED, OUTSTANDING, PEER};
use crate::support::{agree, refused, Outcome, Reach};
use crate::world::World;

const QUESTIONS: u64 = 200_000;

pub fn run(rng: &mut Rng) -> Outcome {
    let mut questions = 0;
    while questions < QUESTIONS {
        let world = World::new(rng);
        let logged = rng.below(14);
        let mut pair = Pair::new(rng, &world, logged);
        for _ in 0..6 {
            let clock = entries(pair.original.clock());
            let peer = world.near_clock(rng, &clock);
            pending_ops(rng, &mut pair, &peer)?;
            questions += 1;
        }
        pair.same(|| format!("pending_ops of {}", pair.shown()))?;
    }
    Ok(questions)
}

/// Compares how many logged rows a peer with this clock lacks, and gives that; refused where its area is short or breaks
/// a rule.
pub fn pending_ops(rng: &mut Rng, pair: &mut Pair, clock: &Entries) -> Reach {
    let mut peer = Peer::new(ActorId(rng.edge()));
    peer.remote_clock = vector(clock);
    let mut area = encode(&peer, &[0; PEER]);
    let count = peer.pending_ops(&pair.original);
    let mut wanted = told_number(count as u64);
    let inputs = |pair: &Pair| format!("pending_ops of {clock:?} in {}", pair.shown());
    if rng.once_in(4) {
        let peer = cuwelfra::Peer::from_area(area);
        let answer = pair.wrapped(|store| peer.pending_ops(store));
        agree(&answer, &Ok(count), || inputs(pair))?;
        return Ok(Some(count));
    }
    let mut len = PEER;
    if rng.once_in(8) {
        let number = rng.pick(&[1, 2]);
        if number == 1 {
            let place = rng.pick(&[1, 2, OUTSTANDING, ANSWERED]);
            set_word(&mut area, place, 33);
        } else {
            len -= 1;
        }
        wanted = ClockNumber {
            told: refused(number),
            number: 0,
        };
    }
    let answer = sys::peer_pending_ops(&area[..len], pair.areas.lent());
    agree(&answer, &wanted, || inputs(pair))?;
    Ok((wanted.told.number == 0).then_some(count))
}
