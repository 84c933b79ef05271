//! What is known about one peer.

use cuwelfra_sys as sys;

use crate::clock::number;
use crate::words::{set_word, size, small, word};
use crate::{ActorId, Refusal, Store, VectorClock};

/// Bytes of a peer area.
pub const PEER_BYTES: usize = 704;
/// Pings that are kept while they wait, and after they were answered.
pub const MAX_PINGS: usize = 8;

const STATE: usize = 8;
const CLOCK: usize = 16;
const LAST_SEEN: usize = 536;
const LAST_PING: usize = 544;
const OUTSTANDING: usize = 552;
const ANSWERED: usize = 624;
const LAST_HELLO: usize = 696;

/// Connection status of a peer.
#[derive(Clone, Copy, Debug, PartialEq, Eq, Hash)]
#[non_exhaustive]
pub enum PeerState {
    /// The transport is not up yet.
    Connecting,
    /// The handshake is in progress.
    Syncing,
    /// The peer has acknowledged our clock.
    UpToDate,
    /// The link failed or timed out.
    Disconnected,
}

/// A peer in its area. The calls refuse an area that breaks the rules, with 1; a refusal leaves the peer.
///
/// ```
/// use cuwelfra::{ActorId, Peer, PeerState, Refusal};
///
/// let mut peer = Peer::new(ActorId(2));
/// peer.connection_started(1_000)?;
/// assert_eq!(peer.state(), Ok(PeerState::Syncing));
///
/// // A ping's time is its nonce, which the pong brings back.
/// peer.record_ping(1_500)?;
/// assert_eq!(peer.outstanding_pings(), Ok(vec![1_500]));
/// peer.take_pong(1_500)?;
/// assert_eq!(peer.outstanding_pings(), Ok(vec![]));
///
/// // The same pong once more is a repeat; any other was not asked for.
/// assert_eq!(peer.take_pong(1_500), Ok(()));
/// assert_eq!(peer.take_pong(1_501), Err(Refusal::UnaskedPong));
///
/// // Its acknowledgement comes.
/// peer.mark_seen(1_600)?;
/// peer.mark_up_to_date()?;
/// assert_eq!((peer.state(), peer.last_seen_ms()), (Ok(PeerState::UpToDate), 1_600));
/// # Ok::<(), Refusal>(())
/// ```
#[derive(Clone, Debug, PartialEq, Eq)]
pub struct Peer([u8; PEER_BYTES]);

impl Peer {
    /// A peer that is connecting.
    pub fn new(id: ActorId) -> Self {
        let mut area = [0; PEER_BYTES];
        // Nothing is refused: the area has its size.
        let _ = sys::peer_new(&mut area, id.0);
        Self(area)
    }

    /// Takes over an area.
    pub fn from_area(area: [u8; PEER_BYTES]) -> Self {
        Self(area)
    }

    /// The area.
    pub fn area(&self) -> &[u8; PEER_BYTES] {
        &self.0
    }

    /// Who it is.
    pub fn id(&self) -> ActorId {
        ActorId(word(&self.0, 0))
    }

    /// Connection status; 1 where the area has none of the four.
    pub fn state(&self) -> Result<PeerState, Refusal> {
        Ok(match word(&self.0, STATE) {
            0 => PeerState::Connecting,
            1 => PeerState::Syncing,
            2 => PeerState::UpToDate,
            3 => PeerState::Disconnected,
            _ => return Err(Refusal::UnsoundStore),
        })
    }

    /// The latest clock received from the peer.
    pub fn remote_clock(&self) -> VectorClock {
        let area = self.0.get(CLOCK..).and_then(|rest| rest.first_chunk());
        area.map_or_else(VectorClock::new, |area| VectorClock::from_area(*area))
    }

    /// Physical time of the last frame received.
    pub fn last_seen_ms(&self) -> u64 {
        word(&self.0, LAST_SEEN)
    }

    /// Physical time of the last ping sent.
    pub fn last_ping_ms(&self) -> u64 {
        word(&self.0, LAST_PING)
    }

    /// Physical time of the last hello sent.
    pub fn last_hello_ms(&self) -> u64 {
        word(&self.0, LAST_HELLO)
    }

    /// Nonces of pings that wait; 1 where the area counts more than 8.
    pub fn outstanding_pings(&self) -> Result<Vec<u64>, Refusal> {
        self.pings(OUTSTANDING)
    }

    /// Nonces of pings answered lately; 1 where the area counts more than 8.
    pub fn answered_pings(&self) -> Result<Vec<u64>, Refusal> {
        self.pings(ANSWERED)
    }

    fn pings(&self, at: usize) -> Result<Vec<u64>, Refusal> {
        const MAX: u64 = MAX_PINGS as u64;
        match word(&self.0, at) {
            count @ 0..=MAX => Ok((1..=size(count))
                .map(|i| word(&self.0, at + 8 * i))
                .collect()),
            _ => Err(Refusal::UnsoundStore),
        }
    }

    /// Whether the area keeps the rules; 1.
    pub fn check(&self) -> Result<(), Refusal> {
        // Every call tests the rules; what this one changes is a copy.
        Refusal::check(sys::peer_connection_lost(&mut self.0.clone()))
    }

    /// Marks the start of a handshake; 1.
    pub fn connection_started(&mut self, now: u64) -> Result<(), Refusal> {
        Refusal::check(sys::peer_connection_started(&mut self.0, now))
    }

    /// Marks the link as lost; 1.
    pub fn connection_lost(&mut self) -> Result<(), Refusal> {
        Refusal::check(sys::peer_connection_lost(&mut self.0))
    }

    /// Marks the peer as up to date, which it is once it has acknowledged our clock; 1.
    ///
    /// This and the two calls below set one number of the area each, as the original's engine sets the public fields of
    /// its `Peer`: `state`, `last_seen_ms` and `last_hello_ms`. Any state may have gone before, and a time may be earlier
    /// than the one that stood there.
    pub fn mark_up_to_date(&mut self) -> Result<(), Refusal> {
        self.set(STATE, 2)
    }

    /// Notes that a frame of the peer came at `now`; 1.
    pub fn mark_seen(&mut self, now: u64) -> Result<(), Refusal> {
        self.set(LAST_SEEN, now)
    }

    /// Notes that a hello was sent at `now`; 1.
    pub fn mark_hello(&mut self, now: u64) -> Result<(), Refusal> {
        self.set(LAST_HELLO, now)
    }

    /// Sets a word that the rules leave free, or a state that they know: an area that keeps them keeps them.
    fn set(&mut self, at: usize, value: u64) -> Result<(), Refusal> {
        self.check()?;
        set_word(&mut self.0, at, value);
        Ok(())
    }

    /// Raises the remote clock to another; 1, 18.
    pub fn absorb_clock(&mut self, clock: &VectorClock) -> Result<(), Refusal> {
        Refusal::check(sys::peer_absorb_clock(&mut self.0, clock.area()))
    }

    /// Replaces the remote clock; 1.
    pub fn replace_clock(&mut self, clock: &VectorClock) -> Result<(), Refusal> {
        Refusal::check(sys::peer_replace_clock(&mut self.0, clock.area()))
    }

    /// Records a ping sent at `now`; 1.
    pub fn record_ping(&mut self, now: u64) -> Result<(), Refusal> {
        Refusal::check(sys::peer_record_ping(&mut self.0, now))
    }

    /// Takes the answer to a ping; 1, 21 where it answers none.
    pub fn take_pong(&mut self, nonce: u64) -> Result<(), Refusal> {
        Refusal::check(sys::peer_take_pong(&mut self.0, nonce))
    }

    /// Pulls timers back that are ahead of `now`; 1.
    pub fn rebase_timers(&mut self, now: u64) -> Result<(), Refusal> {
        Refusal::check(sys::peer_rebase_timers(&mut self.0, now))
    }

    /// How many logged rows the peer has not acknowledged; 2, 1.
    pub fn pending_ops(&self, store: &Store) -> Result<usize, Refusal> {
        number(sys::peer_pending_ops(&self.0, store.lent())).and_then(small)
    }
}

#[cfg(test)]
mod tests {
    use super::*;

    /// The area of a peer with pings and a clock, syncing since 70.
    fn area() -> Result<[u8; PEER_BYTES], Refusal> {
        let mut clock = VectorClock::new();
        clock.observe(ActorId(3), 4)?;
        let mut peer = Peer::new(ActorId(2));
        peer.connection_started(70)?;
        peer.replace_clock(&clock)?;
        peer.record_ping(80)?;
        Ok(*peer.area())
    }

    type Mark = fn(&mut Peer) -> Result<(), Refusal>;
    const MARKS: [(Mark, usize, u64); 3] = [
        (|peer| peer.mark_up_to_date(), 8, 2),
        (|peer| peer.mark_seen(60), 536, 60),
        (|peer| peer.mark_hello(u64::MAX), 696, u64::MAX),
    ];

    #[test]
    fn a_mark_sets_its_word_and_keeps_the_rules() -> Result<(), Refusal> {
        for (mark, at, value) in MARKS {
            let mut peer = Peer::from_area(area()?);
            mark(&mut peer)?;
            let mut wanted = area()?;
            wanted[at..at + 8].copy_from_slice(&value.to_be_bytes());
            assert_eq!(*peer.area(), wanted);
            assert_eq!(peer.check(), Ok(()));
        }
        let mut peer = Peer::from_area(area()?);
        peer.mark_up_to_date()?;
        peer.connection_lost()?;
        assert_eq!(peer.state(), Ok(PeerState::Disconnected));
        peer.mark_up_to_date()?;
        assert_eq!(peer.state(), Ok(PeerState::UpToDate));
        Ok(())
    }

    /// A state, a clock's count and two lists' counts that cannot be: also a mark that would overwrite the fault.
    #[test]
    fn a_damaged_peer_is_not_marked() -> Result<(), Refusal> {
        for (at, value) in [(8, 4), (16, 33), (552, 9), (624, 9)] {
            let mut damaged = area()?;
            set_word(&mut damaged, at, value);
            let mut peer = Peer::from_area(damaged);
            assert_eq!(peer.check(), Err(Refusal::UnsoundStore));
            for (mark, ..) in MARKS {
                assert_eq!(mark(&mut peer), Err(Refusal::UnsoundStore));
                assert_eq!(*peer.area(), damaged);
            }
        }
        Ok(())
    }
}
