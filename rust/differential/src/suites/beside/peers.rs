//! Lists of calls on one peer. The whole area is compared after each call.

use cuwelfra_sys::{self as sys, Told};
use oracle::peer::{Peer, PeerState};
use oracle::stubs::ActorId;

use crate::original::beside::{clock_area, entries, vector};
use crate::port::area::{set_word, word, AUTHORS, BYTES};
use crate::port::store::Entries;
use crate::port::wrapped::refusal;
use crate::rng::Rng;
use crate::support::{agree, pattern, refused, Check, Outcome};
use crate::world::World;

const STEPS: u64 = 600_000;
pub const PEER: usize = 704;
/// Words of the two lists of nonces.
pub const OUTSTANDING: usize = 69;
pub const ANSWERED: usize = 78;

type Area = [u8; PEER];

pub fn run(rng: &mut Rng) -> Outcome {
    let mut cases = fresh()? + small()?;
    let mut steps = 0;
    while steps < STEPS {
        let size = rng.pick(&[1, 3, 8, 31, 33, 40]);
        let world = World::of(rng, size);
        let mut peers = Peers::new(rng, &world);
        for _ in 0..50 {
            let call = peers.call(rng, &world);
            peers.step(rng, &call)?;
            peers.refused(rng, &call)?;
            peers.marked(rng)?;
            steps += 1;
        }
    }
    cases += steps;
    Ok(cases)
}

#[derive(Clone, Debug)]
enum Call {
    Started(u64),
    Lost,
    Absorb(Entries),
    Replace(Entries),
    Ping(u64),
    Pong(u64),
    Rebase(u64),
}

/// A new peer, whatever the area held; later bytes stay.
fn fresh() -> Outcome {
    for len in [0, 8, PEER - 1, PEER, PEER + 1, PEER + 64] {
        let mut lent = pattern(len);
        let mut wanted = lent.clone();
        let mut told = refused(2);
        if len >= PEER {
            let peer = Peer::new(ActorId(len as u64));
            wanted[..PEER].copy_from_slice(&encode(&peer, &[0; PEER]));
            told = Told::default();
        }
        let inputs = || format!("peer_new on {len} bytes");
        agree(&sys::peer_new(&mut lent, len as u64), &told, inputs)?;
        agree(&lent, &wanted, inputs)?;
    }
    let wrapped = cuwelfra::Peer::new(cuwelfra::ActorId(7));
    let wanted = encode(&Peer::new(ActorId(7)), &[0; PEER]);
    agree(wrapped.area(), &wanted, || "the wrapper's new peer".into())?;
    Ok(7)
}

/// All lists of seven pings and pongs with two nonces.
fn small() -> Outcome {
    let calls = [Call::Ping(0), Call::Ping(1), Call::Pong(0), Call::Pong(1)];
    let mut cases = 0;
    for list in 0..4usize.pow(7) {
        let mut peers = Peers::of(Peer::new(ActorId(9)), [0; PEER]);
        for i in 0..7 {
            let call = &calls[list >> (2 * i) & 3];
            peers.compared(call, |area, call| port(area, call, 0))?;
        }
        cases += 1;
    }
    Ok(cases)
}

/// The original's fields; unused places of the two lists are as in `unused`.
pub fn encode(peer: &Peer, unused: &Area) -> Area {
    let mut area = *unused;
    set_word(&mut area, 0, peer.id.0);
    let state = match peer.state {
        PeerState::Connecting => 0,
        PeerState::Syncing => 1,
        PeerState::UpToDate => 2,
        PeerState::Disconnected => 3,
    };
    set_word(&mut area, 1, state);
    area[16..16 + BYTES].copy_from_slice(&clock_area(&peer.remote_clock));
    set_word(&mut area, 67, peer.last_seen_ms);
    set_word(&mut area, 68, peer.last_ping_ms);
    let lists = [
        (OUTSTANDING, &peer.outstanding_pings),
        (ANSWERED, &peer.answered_pings),
    ];
    for (at, nonces) in lists {
        set_word(&mut area, at, nonces.len() as u64);
        for (i, nonce) in nonces.iter().enumerate() {
            set_word(&mut area, at + 1 + i, *nonce);
        }
    }
    set_word(&mut area, 87, peer.last_hello_ms);
    area
}

/// A peer of the original and its area.
struct Peers {
    peer: Peer,
    area: Area,
}

impl Peers {
    fn of(peer: Peer, unused: Area) -> Self {
        let area = encode(&peer, &unused);
        Self { peer, area }
    }

    fn new(rng: &mut Rng, world: &World) -> Self {
        let mut peer = Peer::new(ActorId(rng.edge()));
        if rng.once_in(3) {
            return Self::of(peer, [0; PEER]);
        }
        peer.state = rng.pick(&[
            PeerState::Connecting,
            PeerState::Syncing,
            PeerState::UpToDate,
            PeerState::Disconnected,
        ]);
        peer.remote_clock = vector(&world.clock(rng, world.authors.len().min(AUTHORS)));
        peer.last_seen_ms = rng.edge();
        peer.last_ping_ms = rng.edge();
        peer.last_hello_ms = rng.edge();
        let nonces = |rng: &mut Rng| (0..rng.below(9)).map(|_| rng.next() % 12).collect();
        peer.outstanding_pings = nonces(rng);
        peer.answered_pings = nonces(rng);
        // Unused places may hold anything.
        let mut unused = [0; PEER];
        if rng.once_in(3) {
            unused[8 * OUTSTANDING..8 * 87].fill(rng.byte());
        }
        Self::of(peer, unused)
    }

    fn call(&self, rng: &mut Rng, world: &World) -> Call {
        let peer = &self.peer;
        let timers = [peer.last_seen_ms, peer.last_ping_ms, peer.last_hello_ms];
        let time = match rng.below(4) {
            0 => rng.next() % 12,
            1 => rng.edge(),
            _ => {
                let timer = rng.pick(&timers);
                rng.near(timer)
            }
        };
        let clock = |rng: &mut Rng| {
            let clock = entries(&peer.remote_clock);
            if rng.once_in(2) {
                world.near_clock(rng, &clock)
            } else {
                world.clock(rng, world.authors.len().min(AUTHORS))
            }
        };
        match rng.below(12) {
            0 => Call::Started(time),
            1 => Call::Lost,
            2 => Call::Absorb(clock(rng)),
            3 => Call::Replace(clock(rng)),
            4..=6 => Call::Ping(if rng.once_in(2) {
                rng.next() % 12
            } else {
                time
            }),
            7..=9 => Call::Pong(nonce(rng, peer)),
            _ => Call::Rebase(time),
        }
    }

    /// The original's answer and the area afterwards.
    fn original(&self, call: &Call) -> (Told, (Peer, Area)) {
        let mut peer = self.peer.clone();
        let mut unused = self.area;
        let mut told = Told::default();
        match call {
            Call::Started(now) => peer.connection_started(*now),
            Call::Lost => peer.connection_lost(),
            Call::Absorb(clock) => peer.absorb_clock(&vector(clock)),
            Call::Replace(clock) => peer.replace_clock(&vector(clock)),
            Call::Ping(now) => peer.record_ping(*now),
            Call::Pong(nonce) => {
                if !peer.take_pong(*nonce) {
                    told = refused(21);
                }
            }
            Call::Rebase(now) => peer.rebase_timers(*now),
        }
        if peer.remote_clock.peers.len() > AUTHORS {
            return (refused(18), (self.peer.clone(), self.area));
        }
        let moved = peer.outstanding_pings != self.peer.outstanding_pings;
        if matches!(call, Call::Ping(_)) || moved {
            unused.fill(0);
        }
        let area = encode(&peer, &unused);
        (told, (peer, area))
    }

    fn step(&mut self, rng: &mut Rng, call: &Call) -> Check {
        if rng.once_in(4) {
            self.compared(call, wrapped)?;
            return self.same_fields();
        }
        let behind = rng.pick(&[0, 0, 1, 64]);
        self.compared(call, |area, call| port(area, call, behind))
    }

    fn compared(&mut self, call: &Call, run: impl FnOnce(&mut Area, &Call) -> Told) -> Check {
        let before = self.area;
        let (wanted, (peer, after)) = self.original(call);
        let told = run(&mut self.area, call);
        let inputs = || {
            let words: Vec<u64> = (0..PEER / 8).map(|i| word(&before, i)).collect();
            format!("{call:?} on {words:?}")
        };
        agree(&told, &wanted, inputs)?;
        agree(&self.area, &after, inputs)?;
        self.peer = peer;
        Ok(())
    }

    /// The wrapper gives the original's fields.
    fn same_fields(&self) -> Check {
        let peer = &self.peer;
        let port = cuwelfra::Peer::from_area(self.area);
        let inputs = || format!("the fields of {:02x?}", self.area);
        let times = (
            port.last_seen_ms(),
            port.last_ping_ms(),
            port.last_hello_ms(),
        );
        let wanted = (peer.last_seen_ms, peer.last_ping_ms, peer.last_hello_ms);
        agree(&(port.id().0, times), &(peer.id.0, wanted), inputs)?;
        let pings = (port.outstanding_pings(), port.answered_pings());
        let wanted = (
            Ok(peer.outstanding_pings.clone()),
            Ok(peer.answered_pings.clone()),
        );
        agree(&pings, &wanted, inputs)?;
        let state = port.state().map(|state| format!("{state:?}"));
        agree(&state, &Ok(format!("{:?}", peer.state)), inputs)?;
        let clock = clock_area(&peer.remote_clock);
        agree(port.remote_clock().area(), &clock, inputs)
    }

    /// The same call on a short area or one that breaks a rule is refused and changes nothing.
    fn refused(&self, rng: &mut Rng, call: &Call) -> Check {
        let mut area = self.area.to_vec();
        let mut clock = match call {
            Call::Absorb(clock) | Call::Replace(clock) => clock_area(&vector(clock)).to_vec(),
            _ => vec![0; BYTES],
        };
        let takes_clock = matches!(call, Call::Absorb(_) | Call::Replace(_));
        let mut number = 1;
        match rng.below(8) {
            0 => set_word(&mut area, 1, rng.pick(&[4, 5, 1 << 32, u64::MAX])),
            1 => set_word(
                &mut area,
                OUTSTANDING,
                rng.pick(&[9, 10, 1 << 32, u64::MAX]),
            ),
            2 => set_word(&mut area, ANSWERED, rng.pick(&[9, 1 << 61, u64::MAX])),
            3 => set_word(&mut area, 2, rng.pick(&[33, u64::MAX])),
            4 if word(&area, 2) < 32 => set_word(&mut area, 66, 1),
            5 if takes_clock => set_word(&mut clock, 0, 33),
            6 if takes_clock => {
                // Short comes before unsound.
                clock.truncate(BYTES - 1);
                set_word(&mut area, 1, rng.pick(&[0, 4]));
                number = 2;
            }
            _ => {
                area.truncate(rng.pick(&[0, 8, 560, PEER - 1]));
                number = 2;
            }
        }
        let before = area.clone();
        let inputs = || format!("{call:?} on {before:02x?}, clock {clock:02x?}");
        let told = lent(&mut area, call, &clock);
        agree(&told, &refused(number), inputs)?;
        agree(&area, &before, inputs)
    }
}

impl Peers {
    /// The wrapper's marks, beside the fields that the original's engine sets.
    fn marked(&self, rng: &mut Rng) -> Check {
        let (seen, hello) = (rng.edge(), rng.edge());
        let mut peer = self.peer.clone();
        peer.state = PeerState::UpToDate;
        peer.last_seen_ms = seen;
        peer.last_hello_ms = hello;
        let mut wrapped = cuwelfra::Peer::from_area(self.area);
        let told = [
            wrapped.mark_up_to_date(),
            wrapped.mark_seen(seen),
            wrapped.mark_hello(hello),
        ];
        let inputs = || format!("marks {seen} and {hello} of {:?}", self.peer);
        agree(&told, &[Ok(()); 3], inputs)?;
        agree(wrapped.area(), &encode(&peer, &self.area), inputs)
    }
}

/// An outstanding, answered or other nonce.
fn nonce(rng: &mut Rng, peer: &Peer) -> u64 {
    let lists = [&peer.outstanding_pings, &peer.answered_pings];
    let list = lists[rng.below(2)];
    if list.is_empty() || rng.once_in(4) {
        return rng.next() % 14;
    }
    rng.pick(list)
}

fn lent(area: &mut [u8], call: &Call, clock: &[u8]) -> Told {
    match call {
        Call::Started(now) => sys::peer_connection_started(area, *now),
        Call::Lost => sys::peer_connection_lost(area),
        Call::Absorb(_) => sys::peer_absorb_clock(area, clock),
        Call::Replace(_) => sys::peer_replace_clock(area, clock),
        Call::Ping(now) => sys::peer_record_ping(area, *now),
        Call::Pong(nonce) => sys::peer_take_pong(area, *nonce),
        Call::Rebase(now) => sys::peer_rebase_timers(area, *now),
    }
}

/// With bytes behind the area, which stay.
fn port(area: &mut Area, call: &Call, behind: usize) -> Told {
    let clock = match call {
        Call::Absorb(clock) | Call::Replace(clock) => clock_area(&vector(clock)),
        _ => [0; BYTES],
    };
    let mut longer = area.to_vec();
    longer.extend(pattern(behind));
    let told = lent(&mut longer, call, &clock);
    assert_eq!(longer[PEER..], pattern(behind), "later bytes stay");
    area.copy_from_slice(&longer[..PEER]);
    told
}

fn wrapped(area: &mut Area, call: &Call) -> Told {
    let mut peer = cuwelfra::Peer::from_area(*area);
    let clock = |clock: &Entries| {
        let area = clock_area(&vector(clock));
        cuwelfra::VectorClock::from_area(area)
    };
    let answer = match call {
        Call::Started(now) => peer.connection_started(*now),
        Call::Lost => peer.connection_lost(),
        Call::Absorb(other) => peer.absorb_clock(&clock(other)),
        Call::Replace(other) => peer.replace_clock(&clock(other)),
        Call::Ping(now) => peer.record_ping(*now),
        Call::Pong(nonce) => peer.take_pong(*nonce),
        Call::Rebase(now) => peer.rebase_timers(*now),
    };
    *area = *peer.area();
    refusal(answer)
}
