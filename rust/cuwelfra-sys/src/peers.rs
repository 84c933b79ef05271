//! Peers, each in an area of 704 bytes.

use crate::{Areas, ClockNumber, Told};

/// Makes the area a new peer.
pub fn peer_new(peer: &mut [u8], id: u64) -> Told {
    lend!(cuwelfra_peer_new(write peer, id))
}

/// Marks the start of a handshake.
pub fn peer_connection_started(peer: &mut [u8], now: u64) -> Told {
    lend!(cuwelfra_peer_connection_started(write peer, now))
}

/// Marks the link as lost.
pub fn peer_connection_lost(peer: &mut [u8]) -> Told {
    lend!(cuwelfra_peer_connection_lost(write peer))
}

/// Raises the remote clock to another.
pub fn peer_absorb_clock(peer: &mut [u8], clock: &[u8]) -> Told {
    lend!(cuwelfra_peer_absorb_clock(write peer, read clock))
}

/// Replaces the remote clock.
pub fn peer_replace_clock(peer: &mut [u8], clock: &[u8]) -> Told {
    lend!(cuwelfra_peer_replace_clock(write peer, read clock))
}

/// Records a ping sent at `now`.
pub fn peer_record_ping(peer: &mut [u8], now: u64) -> Told {
    lend!(cuwelfra_peer_record_ping(write peer, now))
}

/// Takes the answer to a ping.
pub fn peer_take_pong(peer: &mut [u8], nonce: u64) -> Told {
    lend!(cuwelfra_peer_take_pong(write peer, nonce))
}

/// Pulls timers back that are ahead of `now`.
pub fn peer_rebase_timers(peer: &mut [u8], now: u64) -> Told {
    lend!(cuwelfra_peer_rebase_timers(write peer, now))
}

/// How many logged rows the peer has not acknowledged.
pub fn peer_pending_ops(peer: &[u8], s: Areas) -> ClockNumber {
    lend!(cuwelfra_peer_pending_ops(read peer, store s))
}
