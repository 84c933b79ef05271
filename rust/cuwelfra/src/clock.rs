//! Stamps, the hybrid clock and vector clocks.

use std::cmp::Ordering;
use std::error::Error;
use std::fmt;
use std::str::FromStr;

use cuwelfra_sys as sys;

use crate::words::{flag, size, small, word};
use crate::{ActorId, Refusal};

/// Bytes of a clock area.
pub const CLOCK_BYTES: usize = 520;
/// Authors of a clock at most.
pub const MAX_AUTHORS: usize = 32;

/// A stamp, ordered by wall time, counter and author. As text it is `WALL/COUNTER/AUTHOR`.
///
/// ```
/// use cuwelfra::{ActorId, Timestamp};
///
/// let early = Timestamp::new(10, 3, ActorId(2));
/// assert!(early < Timestamp::new(10, 4, ActorId(1)));
/// assert!(early > Timestamp::new(10, 3, ActorId(1)));
///
/// assert_eq!(early.to_string(), "10/3/2");
/// assert_eq!("10/3/2".parse(), Ok(early));
/// ```
#[derive(Clone, Copy, Debug, PartialEq, Eq, Hash)]
pub struct Timestamp {
    /// Wall time in ms.
    pub wall_time: u64,
    /// Orders stamps of one wall time.
    pub logical_counter: u32,
    /// Who issued the stamp.
    pub actor_id: ActorId,
}

impl Timestamp {
    /// The stamp of these three.
    pub fn new(wall_time: u64, logical_counter: u32, actor_id: ActorId) -> Self {
        Self {
            wall_time,
            logical_counter,
            actor_id,
        }
    }

    pub(crate) fn parts(&self) -> (u64, u32, u64) {
        (self.wall_time, self.logical_counter, self.actor_id.0)
    }
}

impl Ord for Timestamp {
    fn cmp(&self, other: &Self) -> Ordering {
        // 0, 1 or 2; there is nowhere to tell another number.
        sys::timestamp_cmp(self.parts(), other.parts()).cmp(&1)
    }
}

impl PartialOrd for Timestamp {
    fn partial_cmp(&self, other: &Self) -> Option<Ordering> {
        Some(self.cmp(other))
    }
}

impl fmt::Display for Timestamp {
    fn fmt(&self, f: &mut fmt::Formatter<'_>) -> fmt::Result {
        let (wall, counter, author) = self.parts();
        write!(f, "{wall}/{counter}/{author}")
    }
}

impl FromStr for Timestamp {
    type Err = ParseTimestampError;

    /// Reads what is shown: three numbers of decimal digits, of at most 64, 32 and 64 bits.
    fn from_str(text: &str) -> Result<Self, Self::Err> {
        let mut words = text.split('/');
        let stamp = Self::new(
            next(&mut words)?,
            next(&mut words)?,
            ActorId(next(&mut words)?),
        );
        match words.next() {
            None => Ok(stamp),
            Some(_) => Err(ParseTimestampError),
        }
    }
}

/// The number that the next word is.
fn next<'a, T: FromStr>(
    words: &mut impl Iterator<Item = &'a str>,
) -> Result<T, ParseTimestampError> {
    let digits = |word: &&str| word.bytes().all(|byte| byte.is_ascii_digit());
    let number = words
        .next()
        .filter(digits)
        .and_then(|word| word.parse().ok());
    number.ok_or(ParseTimestampError)
}

/// A text that is no [`Timestamp`]'s.
#[derive(Clone, Copy, Debug, PartialEq, Eq, Hash)]
#[non_exhaustive]
pub struct ParseTimestampError;

impl fmt::Display for ParseTimestampError {
    fn fmt(&self, f: &mut fmt::Formatter<'_>) -> fmt::Result {
        f.write_str("no stamp, which is written WALL/COUNTER/AUTHOR")
    }
}

impl Error for ParseTimestampError {}

/// A hybrid logical clock of one author. The caller brings the physical time, in ms.
///
/// Each stamp that it issues is above all that it issued or took in before. A refusal leaves the clock.
///
/// ```
/// use cuwelfra::{ActorId, HybridClock, Refusal, Timestamp};
///
/// // A clock at wall time 10, counter 3, takes in the stamp 10/7 of author 2 at the physical time 10.
/// let mut clock = HybridClock::resume(ActorId(1), 10, 3);
/// clock.update(&Timestamp::new(10, 7, ActorId(2)), 10)?;
/// assert_eq!(clock.last(), (10, 8));
/// assert_eq!(clock.now(10), Ok(Timestamp::new(10, 9, ActorId(1))));
/// assert_eq!(clock.now(13), Ok(Timestamp::new(13, 0, ActorId(1))));
///
/// // A stamp more than the drift ahead of the physical time is refused.
/// clock.set_max_drift(1_000);
/// let far = Timestamp::new(1_014, 0, ActorId(2));
/// let ahead = Refusal::RemoteAhead { remote_wall: 1_014, local_wall: 13 };
/// assert_eq!(clock.update(&far, 13), Err(ahead));
/// assert_eq!(clock.last(), (13, 0));
/// # Ok::<(), Refusal>(())
/// ```
#[derive(Clone, Copy, Debug, PartialEq, Eq, Hash)]
pub struct HybridClock(HybridParts);

/// All that there is of a [`HybridClock`], to be kept beside the store.
///
/// ```
/// use cuwelfra::{ActorId, HybridClock, HybridParts, Refusal};
///
/// let mut clock = HybridClock::new(ActorId(1));
/// clock.set_max_drift(1_000);
/// let last = clock.now(10)?;
///
/// let HybridParts { actor, last_wall, last_counter, max_drift_ms } = clock.to_parts();
/// let kept = format!("{actor} {last_wall} {last_counter} {max_drift_ms}");
/// assert_eq!(kept, "1 10 0 1000");
///
/// let mut again = HybridClock::from_parts(HybridParts { actor, last_wall, last_counter, max_drift_ms });
/// assert!(again.now(10)? > last);
/// # Ok::<(), Refusal>(())
/// ```
#[derive(Clone, Copy, Debug, PartialEq, Eq, Hash)]
pub struct HybridParts {
    /// The author.
    pub actor: ActorId,
    /// The wall time of the last stamp issued or folded in.
    pub last_wall: u64,
    /// Its counter.
    pub last_counter: u32,
    /// The accepted lead of remote stamps, in ms.
    pub max_drift_ms: u64,
}

impl HybridClock {
    /// A clock that has issued nothing, with the default drift.
    pub fn new(actor: ActorId) -> Self {
        let made = sys::hybrid_new(actor.0);
        Self(HybridParts {
            actor,
            last_wall: made.last_wall,
            // A counter that does not fit cannot be told here: at the last one the clock issues nothing.
            last_counter: small(made.last_counter).unwrap_or(u32::MAX),
            max_drift_ms: made.max_drift_ms,
        })
    }

    /// A clock that goes on where another stopped, whose [`HybridClock::last`] was kept; with the default drift.
    pub fn resume(actor: ActorId, last_wall: u64, last_counter: u32) -> Self {
        Self(HybridParts {
            last_wall,
            last_counter,
            ..Self::new(actor).0
        })
    }

    /// A clock that goes on where another stopped, whose [`HybridClock::to_parts`] were kept.
    pub fn from_parts(parts: HybridParts) -> Self {
        Self(parts)
    }

    /// All that there is of it.
    pub fn to_parts(&self) -> HybridParts {
        self.0
    }

    /// The same as the batch call takes it.
    pub(crate) fn lent(&self) -> sys::HybridParts {
        let HybridParts {
            actor,
            last_wall,
            last_counter,
            max_drift_ms,
        } = self.0;
        sys::HybridParts {
            actor: actor.0,
            last_wall,
            last_counter,
            max_drift_ms,
        }
    }

    /// Sets the accepted lead of remote stamps over the physical time.
    pub fn set_max_drift(&mut self, max_drift_ms: u64) {
        let HybridParts {
            actor,
            last_wall,
            last_counter,
            max_drift_ms: old,
        } = self.0;
        let set = sys::hybrid_set_max_drift(actor.0, last_wall, last_counter, old, max_drift_ms);
        self.0.max_drift_ms = set.max_drift_ms;
    }

    /// The author.
    pub fn actor(&self) -> ActorId {
        self.0.actor
    }

    /// Wall time and counter of the last stamp issued or folded in.
    pub fn last(&self) -> (u64, u32) {
        (self.0.last_wall, self.0.last_counter)
    }

    /// The accepted lead of remote stamps, in ms.
    pub fn max_drift_ms(&self) -> u64 {
        self.0.max_drift_ms
    }

    /// Issues a stamp at the physical time; 19.
    pub fn now(&mut self, physical: u64) -> Result<Timestamp, Refusal> {
        let parts = self.0;
        self.issued(sys::hybrid_now(
            parts.actor.0,
            parts.last_wall,
            parts.last_counter,
            parts.max_drift_ms,
            physical,
        ))
    }

    fn issued(&mut self, issued: sys::IssuedStamp) -> Result<Timestamp, Refusal> {
        Refusal::check(issued.told)?;
        let counter = small(issued.logical_counter)?;
        self.moved(issued.last_wall, issued.last_counter)?;
        Ok(Timestamp::new(
            issued.wall_time,
            counter,
            ActorId(issued.actor_id),
        ))
    }

    /// Folds a remote stamp in at the physical time; 20, then 19. [`Store::apply_delta`](crate::Store::apply_delta) folds
    /// in those of a batch.
    pub fn update(&mut self, remote: &Timestamp, physical: u64) -> Result<(), Refusal> {
        let parts = self.0;
        self.updated(sys::hybrid_update(
            parts.actor.0,
            parts.last_wall,
            parts.last_counter,
            parts.max_drift_ms,
            remote.parts(),
            physical,
        ))
    }

    fn updated(&mut self, updated: sys::UpdatedClock) -> Result<(), Refusal> {
        Refusal::check(updated.told)?;
        self.moved(updated.last_wall, updated.last_counter)
    }

    /// Moves the clock on, once its answer is known to fit.
    pub(crate) fn moved(&mut self, wall: u64, counter: u64) -> Result<(), Refusal> {
        self.0.last_counter = small(counter)?;
        self.0.last_wall = wall;
        Ok(())
    }
}

/// How two vector clocks stand to each other.
#[derive(Clone, Copy, Debug, PartialEq, Eq)]
pub enum CausalOrder {
    /// The first is covered by the second.
    Before,
    /// The second is covered by the first.
    After,
    /// Each covers the other.
    Equal,
    /// Neither covers the other.
    Concurrent,
}

impl CausalOrder {
    fn of(number: u64) -> Result<Self, Refusal> {
        Ok(match number {
            0 => Self::Before,
            1 => Self::After,
            2 => Self::Equal,
            3 => Self::Concurrent,
            _ => return Err(Refusal::MisfitAnswer),
        })
    }
}

/// A vector clock in its area of 520 bytes: each author's highest sequence, an absent one counts as 0.
///
/// Equality is equality of content: a clock with an entry of 0 is not the empty clock, though the two compare as
/// [`CausalOrder::Equal`]. A refusal leaves the clock.
///
/// ```
/// use cuwelfra::{ActorId, CausalOrder, Refusal, VectorClock};
///
/// let (mut one, mut other) = (VectorClock::new(), VectorClock::new());
/// one.observe(ActorId(1), 2)?;
/// other.observe(ActorId(2), 1)?;
/// assert_eq!(one.compare(&other), Ok(CausalOrder::Concurrent));
///
/// other.merge(&one)?;
/// assert_eq!(one.compare(&other), Ok(CausalOrder::Before));
/// assert_eq!(other.entries(), Ok(vec![(ActorId(1), 2), (ActorId(2), 1)]));
/// assert_eq!(other.increment(ActorId(1)), Ok(3));
/// assert_eq!(other.get(ActorId(7)), Ok(0));
/// # Ok::<(), Refusal>(())
/// ```
#[derive(Clone, Copy, PartialEq, Eq, Hash)]
pub struct VectorClock([u8; CLOCK_BYTES]);

impl Default for VectorClock {
    fn default() -> Self {
        Self::new()
    }
}

impl VectorClock {
    /// An empty clock.
    pub fn new() -> Self {
        Self([0; CLOCK_BYTES])
    }

    /// A clock from its area. The calls refuse an area that breaks the rules, with 1.
    pub fn from_area(area: [u8; CLOCK_BYTES]) -> Self {
        Self(area)
    }

    /// The area.
    pub fn area(&self) -> &[u8; CLOCK_BYTES] {
        &self.0
    }

    /// The author's number, 0 if absent; 1.
    pub fn get(&self, actor: ActorId) -> Result<u64, Refusal> {
        number(sys::clock_get(&self.0, actor.0))
    }

    /// Authors and their numbers, by rising author; 1.
    pub fn entries(&self) -> Result<Vec<(ActorId, u64)>, Refusal> {
        // Any question to the clock tests its rules.
        self.get(ActorId(0))?;
        let count = size(word(&self.0, 0)).min(MAX_AUTHORS);
        Ok(pairs(&self.0, 8, count).collect())
    }

    /// Raises the author's number to at least `seq`; 1, 18.
    pub fn observe(&mut self, actor: ActorId, seq: u64) -> Result<(), Refusal> {
        Refusal::check(sys::clock_observe(&mut self.0, actor.0, seq))
    }

    /// Raises the author's number by one and gives it; 1, 18, 19.
    pub fn increment(&mut self, actor: ActorId) -> Result<u64, Refusal> {
        number(sys::clock_increment(&mut self.0, actor.0))
    }

    /// Raises each number to the other clock's; 1, 18.
    pub fn merge(&mut self, other: &VectorClock) -> Result<(), Refusal> {
        Refusal::check(sys::clock_merge(&mut self.0, &other.0))
    }

    /// Whether every number of `other` is covered; 1.
    pub fn dominates(&self, other: &VectorClock) -> Result<bool, Refusal> {
        number(sys::clock_dominates(&self.0, &other.0)).and_then(flag)
    }

    /// How this clock stands to `other`; 1.
    pub fn compare(&self, other: &VectorClock) -> Result<CausalOrder, Refusal> {
        number(sys::clock_compare(&self.0, &other.0)).and_then(CausalOrder::of)
    }
}

impl fmt::Debug for VectorClock {
    fn fmt(&self, f: &mut fmt::Formatter<'_>) -> fmt::Result {
        match self.entries() {
            Ok(entries) => {
                let entries = entries.iter().map(|(actor, number)| (actor.0, number));
                f.debug_map().entries(entries).finish()
            }
            Err(_) => f.debug_tuple("VectorClock").field(&self.0).finish(),
        }
    }
}

/// So many authors with their numbers, from `at` on.
pub(crate) fn pairs(
    area: &[u8],
    at: usize,
    count: usize,
) -> impl Iterator<Item = (ActorId, u64)> + '_ {
    let place = move |i| at + 16 * i;
    (0..count).map(move |i| (ActorId(word(area, place(i))), word(area, place(i) + 8)))
}

pub(crate) fn number(answer: sys::ClockNumber) -> Result<u64, Refusal> {
    Refusal::check(answer.told)?;
    Ok(answer.number)
}

#[cfg(test)]
mod tests {
    use super::*;
    use crate::words::set_word;

    /// A clock area whose first words are these.
    fn area(words: &[u64]) -> VectorClock {
        let mut area = [0; CLOCK_BYTES];
        for (i, value) in words.iter().enumerate() {
            set_word(&mut area, 8 * i, *value);
        }
        VectorClock::from_area(area)
    }

    #[test]
    fn entries_are_content() {
        let clock = area(&[2, 1, 0, 5, 7]);
        let entries = vec![(ActorId(1), 0), (ActorId(5), 7)];
        assert_eq!(clock.entries(), Ok(entries));
        assert_eq!(format!("{clock:?}"), "{1: 0, 5: 7}");
        let zero = area(&[1, 1, 0]);
        assert_eq!(zero.compare(&VectorClock::new()), Ok(CausalOrder::Equal));
        assert_ne!(zero, VectorClock::new());
    }

    #[test]
    fn areas_that_break_the_rules_have_no_entries() {
        for words in [&[33][..], &[u64::MAX], &[0, 1], &[2, 5, 7, 5, 7]] {
            let clock = area(words);
            assert_eq!(clock.entries(), Err(Refusal::UnsoundStore));
            assert!(format!("{clock:?}").starts_with("VectorClock(["));
        }
    }

    #[test]
    fn a_resumed_clock_goes_on_above_what_it_issued() -> Result<(), Refusal> {
        let mut clock = HybridClock::new(ActorId(4));
        clock.now(10)?;
        let last = clock.now(10)?;
        let (wall, counter) = clock.last();
        let mut resumed = HybridClock::resume(ActorId(4), wall, counter);
        assert_eq!(resumed, clock);
        assert!(resumed.now(9)? > last);
        Ok(())
    }

    #[test]
    fn parts_are_all_of_a_clock() -> Result<(), Refusal> {
        let mut clock = HybridClock::new(ActorId(4));
        clock.set_max_drift(7);
        clock.now(10)?;
        clock.now(10)?;
        let parts = clock.to_parts();
        let wanted = HybridParts {
            actor: ActorId(4),
            last_wall: 10,
            last_counter: 1,
            max_drift_ms: 7,
        };
        assert_eq!(parts, wanted);
        let mut again = HybridClock::from_parts(parts);
        assert_eq!(again, clock);
        // The drift too goes on.
        let far = Timestamp::new(18, 0, ActorId(2));
        let ahead = Refusal::RemoteAhead {
            remote_wall: 18,
            local_wall: 10,
        };
        assert_eq!(again.update(&far, 10), Err(ahead));
        Ok(())
    }

    /// Counters of 33 bits, in the stamp or in the clock.
    #[test]
    fn an_answer_that_does_not_fit_moves_no_clock() {
        let before = HybridClock::resume(ActorId(4), 10, 3);
        let told = sys::Told::default();
        for (logical_counter, last_counter) in [(1 << 32, 0), (0, 1 << 32)] {
            let mut clock = before;
            let issued = sys::IssuedStamp {
                told,
                wall_time: 20,
                logical_counter,
                actor_id: 4,
                last_wall: 20,
                last_counter,
            };
            assert_eq!(clock.issued(issued), Err(Refusal::MisfitAnswer));
            assert_eq!(clock, before);
        }
        let mut clock = before;
        let updated = sys::UpdatedClock {
            told,
            last_wall: 20,
            last_counter: 1 << 32,
        };
        assert_eq!(clock.updated(updated), Err(Refusal::MisfitAnswer));
        assert_eq!(clock, before);
    }

    /// Where a library moved the clock in a refusal all the same, this one stays.
    #[test]
    fn a_refusal_moves_no_clock() {
        let before = HybridClock::resume(ActorId(4), 10, 3);
        let mut clock = before;
        let told = Refusal::CounterOverflow.told();
        let issued = sys::IssuedStamp {
            told,
            last_wall: 20,
            ..sys::IssuedStamp::default()
        };
        let updated = sys::UpdatedClock {
            told,
            last_wall: 20,
            last_counter: 0,
        };
        assert_eq!(clock.issued(issued), Err(Refusal::CounterOverflow));
        assert_eq!(clock.updated(updated), Err(Refusal::CounterOverflow));
        assert_eq!(clock, before);
    }

    #[test]
    fn an_order_is_one_of_four() {
        let orders = [
            CausalOrder::Before,
            CausalOrder::After,
            CausalOrder::Equal,
            CausalOrder::Concurrent,
        ];
        for (number, order) in (0..).zip(orders) {
            assert_eq!(CausalOrder::of(number), Ok(order));
        }
        for number in [4, u64::MAX] {
            assert_eq!(CausalOrder::of(number), Err(Refusal::MisfitAnswer));
        }
    }

    #[test]
    fn stamps_read_as_they_are_shown() {
        let stamps = [
            (Timestamp::new(0, 0, ActorId(0)), "0/0/0"),
            (Timestamp::new(10, 3, ActorId(2)), "10/3/2"),
            (
                Timestamp::new(u64::MAX, u32::MAX, ActorId(u64::MAX)),
                "18446744073709551615/4294967295/18446744073709551615",
            ),
        ];
        for (stamp, text) in stamps {
            assert_eq!(stamp.to_string(), text);
            assert_eq!(text.parse(), Ok(stamp));
        }
        let others = [
            "",
            "1",
            "1/2",
            "1/2/",
            "1//3",
            "1/2/3/",
            "1/2/3/4",
            "+1/2/3",
            "-1/2/3",
            " 1/2/3",
            "1/4294967296/3",
            "18446744073709551616/2/3",
            "1/2/18446744073709551616",
        ];
        for text in others {
            assert_eq!(
                text.parse::<Timestamp>(),
                Err(ParseTimestampError),
                "{text}"
            );
        }
    }
}
