//! The proved glossary log, for Rust programs: a store of rows that authors at many desks write, and the batch call
//! that merges what other desks send. Every function behind these calls is proved; this crate is thin over them and has
//! no `unsafe` of its own.
//!
//! - [`Store`] keeps the rows, logged and held; [`Batch`] brings rows to it, [`Request`] the time and the settings, its
//!   [`Limits`]; [`Report`] tells what became of them.
//! - [`Store::prepare`] and [`Store::seal`] add rows of the desk's own, with the server's signature between them.
//! - [`Store::save`], [`Store::load`] and [`Update`] keep a store in a file.
//! - [`Delta`] is what a peer lacks, and knows before it is sent how many bytes that takes; [`Peer`] is what is known about
//!   one.
//! - [`HybridClock`] stamps an author's rows, and takes in the stamps of each batch; [`VectorClock`] says how far each
//!   author's rows are known.
//! - [`Message`] is what peers say to each other, [`Frame`] a message with its sender and signature; [`Reader`],
//!   [`Writer`] and [`Envelope`] serve other frames.
//!
//! Every call answers with a `Result`. A [`Refusal`] has a number and values; it changes nothing, and nothing panics. The
//! numbers behind a call's description, as in "2, 1", are those that it may be refused with. "Document 01" in these pages
//! is the project's scope, which fixes them; "document 02" has those from 26 on.
//!
//! In the repository docs/GUIDE.md goes through all of this from the start, and docs/LAYOUT.md says what each byte of
//! an area is.
//!
//! # A server's loop
//!
//! ```
//! use cuwelfra::{ActorId, Batch, HybridClock, Outcome, Peer, Refusal, Report, Request, Row, Store, Timestamp};
//! use cuwelfra::{HEAD_BYTES, HELD_BYTES, MAX_BATCH, SLOT_BYTES};
//!
//! // The server's own: is this its author's signature, and does the glossary take the row?
//! fn verify(row: &Row) -> bool {
//!     row.signature == [7]
//! }
//! fn judge(_: &Row) -> Outcome {
//!     Ok(())
//! }
//!
//! /// Takes rows in, at most 64 of them, but for those with a bad signature.
//! fn take_in(
//!     store: &mut Store,
//!     clock: &mut HybridClock,
//!     mut rows: Vec<Row>,
//!     time_ms: u64,
//! ) -> Result<Report, Refusal> {
//!     loop {
//!         let mut batch = Batch::new();
//!         for row in &rows {
//!             batch.push(row, verify(row), judge(row))?;
//!         }
//!         match store.apply_delta(clock, &Request::at(time_ms), &batch) {
//!             // A batch is merged whole or not at all: offer the rest without this row.
//!             Err(Refusal::BadSignature { actor, seq }) => {
//!                 rows.retain(|row| (row.actor, row.seq) != (actor, seq));
//!             }
//!             told => return told,
//!         }
//!     }
//! }
//!
//! // Load the three areas. Zeros are the empty store, here with room for 100 rows.
//! let (log, held, head) = (vec![0; 100 * SLOT_BYTES], vec![0; HELD_BYTES], vec![0; HEAD_BYTES]);
//! let mut store = Store::from_areas(log, held, head);
//! store.check()?;
//! // The server writes rows of author 3. Its clock goes from call to call.
//! let mut clock = HybridClock::new(ActorId(3));
//!
//! // Rows come in; the second has a bad signature.
//! let rows = vec![
//!     Row::new(Timestamp::new(10, 0, ActorId(1)), 1, "Kette = chain").signed([7]),
//!     Row::new(Timestamp::new(20, 0, ActorId(2)), 1, "Rad = wheel").signed([8]),
//! ];
//! match take_in(&mut store, &mut clock, rows, 1_000) {
//!     Ok(report) => assert_eq!((report.applied, report.held), (1, 0)),
//!     Err(refusal) => eprintln!("{refusal}. {} {}", refusal.meaning(), refusal.advice()),
//! }
//!
//! // Rows of its own, whose numbers start at 1. They are stamped above all that came in.
//! let mut issued = store.clock()?.get(ActorId(3))?;
//! for _ in 1..=80 {
//!     let prepared = store.prepare(&mut clock, 1_000, issued, "Speiche = spoke")?;
//!     store.seal(&prepared.bytes, [7])?;
//!     issued = prepared.seq;
//! }
//!
//! // Save the areas.
//! let (log, held, head) = store.areas();
//! assert_eq!(log.len(), 100 * SLOT_BYTES);
//!
//! // Send a peer what it lacks, at most 64 rows and 65,536 bytes at a time: a batch takes no more rows. The peer makes a
//! // batch of each message, and has another store.
//! let mut peer = Peer::new(ActorId(9));
//! let (mut its_store, mut its_clock) = (Store::with_capacity(100)?, HybridClock::new(ActorId(9)));
//! let messages = store.delta(&peer.remote_clock())?.chunks(MAX_BATCH as u64, 65_536)?;
//! assert_eq!(messages.iter().map(Vec::len).collect::<Vec<_>>(), [64, 17]);
//! for rows in messages {
//!     let sent = rows.len();
//!     assert_eq!(take_in(&mut its_store, &mut its_clock, rows, 2_000)?.applied, sent);
//! }
//! // It acknowledges with its clock, and lacks nothing.
//! peer.absorb_clock(&its_store.clock()?)?;
//! peer.mark_up_to_date()?;
//! assert!(store.delta(&peer.remote_clock())?.is_empty());
//! assert_eq!(its_store.logged()?, store.logged()?);
//! # Ok::<(), Refusal>(())
//! ```

#![forbid(unsafe_code)]
#![cfg_attr(
    not(test),
    deny(
        clippy::unwrap_used,
        clippy::expect_used,
        clippy::panic,
        clippy::indexing_slicing
    )
)]

mod actor;
mod batch;
mod clock;
mod codec;
mod delta;
mod desk;
mod fates;
mod file;
mod merge;
mod message;
mod outcome;
mod peer;
mod refusal;
mod request;
mod row;
mod store;
mod words;

pub use actor::ActorId;
pub use batch::{Batch, BatchRow, MAX_BATCH};
pub use clock::{CausalOrder, HybridClock, HybridParts, ParseTimestampError};
pub use clock::{Timestamp, VectorClock, CLOCK_BYTES, MAX_AUTHORS};
pub use codec::{varint_len, Envelope, Reader, Writer, MAX_BODY, MAX_BODY_SIGNATURE};
pub use cuwelfra_sys::Told;
pub use delta::{ChunkSize, Delta};
pub use desk::Prepared;
pub use file::{write_new, FileError, Update};
pub use merge::{Fate, Logged, Report, LINE_BYTES};
pub use message::{Frame, Message, MAX_CLOCK_BODY, MAX_DELTA_BODY};
pub use outcome::{ApplyError, Outcome};
pub use peer::{Peer, PeerState, MAX_PINGS, PEER_BYTES};
pub use refusal::{Explained, Refusal};
pub use request::{Limits, Request};
pub use row::{HeldRow, Row, Slot, SlotRead};
pub use row::{MAX_DEPS, MAX_OP_BYTES, MAX_PAYLOAD, MAX_SIGNATURE, MAX_UNSIGNED_BYTES, SLOT_BYTES};
pub use store::{Found, Place, Store};
pub use store::{HEAD_BYTES, HELD_BYTES, MAX_HELD, MAX_LOGGED, SCRATCH_BYTES};

/// The guide's examples are compiled with those of this crate.
#[cfg(doctest)]
#[doc = include_str!("../../../docs/GUIDE.md")]
struct Guide;

/// What later versions may add a field to is made here only.
///
/// ```compile_fail,E0639
/// let limits = cuwelfra::Limits { max_deps: 1, ..cuwelfra::Limits::new() };
/// ```
///
/// ```compile_fail,E0639
/// let request = cuwelfra::Request { time_ms: 1, ..cuwelfra::Request::at(0) };
/// ```
///
/// ```compile_fail,E0639
/// let report = cuwelfra::Report { applied: 1, ..cuwelfra::Report::default() };
/// ```
///
/// ```compile_fail,E0638
/// fn row(held: cuwelfra::HeldRow) -> cuwelfra::Row {
///     let cuwelfra::HeldRow { row, arrived_ms: _, outcome: _ } = held;
///     row
/// }
/// ```
///
/// ```compile_fail,E0638
/// fn number(explained: &cuwelfra::Explained) -> u64 {
///     let cuwelfra::Explained { number, word: _, values: _, meaning: _, advice: _ } = explained;
///     *number
/// }
/// ```
#[cfg(doctest)]
struct LaterFields;

/// What is made and then forgotten is a mistake.
///
/// ```compile_fail
/// #![deny(unused_must_use)]
/// use cuwelfra::{ActorId, Row, Timestamp};
/// Row::new(Timestamp::new(1, 0, ActorId(1)), 1, "Kette").needs(ActorId(2), 1);
/// ```
///
/// ```compile_fail
/// #![deny(unused_must_use)]
/// use cuwelfra::{ActorId, Row, Timestamp};
/// Row::new(Timestamp::new(1, 0, ActorId(1)), 1, "Kette").signed([7]);
/// ```
///
/// ```compile_fail
/// #![deny(unused_must_use)]
/// cuwelfra::Limits::new().with_max_deps(1);
/// ```
///
/// ```compile_fail
/// #![deny(unused_must_use)]
/// cuwelfra::Request::at(0).with_limits(cuwelfra::Limits::new());
/// ```
///
/// ```compile_fail
/// #![deny(unused_must_use)]
/// fn begin() -> Result<(), cuwelfra::FileError> {
///     cuwelfra::Update::begin("desk.store")?;
///     Ok(())
/// }
/// ```
///
/// ```compile_fail
/// #![deny(unused_must_use)]
/// cuwelfra::Refusal::LogFull.told();
/// ```
#[cfg(doctest)]
struct NotForgotten;

#[cfg(test)]
mod tests {
    use super::*;

    /// Compiles only where all may be copied and go to other threads.
    #[test]
    fn all_may_go_to_other_threads() {
        fn natural<T: Clone + Send + Sync + 'static>() {}
        natural::<Store>();
        natural::<Batch>();
        natural::<Report>();
        natural::<Delta<'static>>();
        natural::<(Refusal, Limits, Request, HybridClock, VectorClock)>();
        natural::<(Peer, Slot, Row, Prepared)>();
        natural::<Reader<'static>>();
        natural::<(Message, Frame<'static>)>();
    }

    /// Compiles only where they may be keys.
    #[test]
    fn what_is_compared_may_be_a_key() {
        fn key<T: Eq + std::hash::Hash>() {}
        key::<(Refusal, ApplyError, Fate, PeerState)>();
        key::<(ActorId, Timestamp, VectorClock, HybridClock)>();
        key::<(Row, Limits, Request)>();
        key::<(Message, Frame)>();
        key::<ChunkSize>();
    }
}
