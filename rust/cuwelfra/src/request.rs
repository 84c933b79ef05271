//! What a batch call is told beside the batch and the hybrid clock: its settings and the time.

use cuwelfra_sys as sys;

/// Makes the settings: a field for each, its value by default and its setter.
macro_rules! limits {
    ($($(#[$doc:meta])* $name:ident = $default:expr, $setter:ident;)+) => {
        /// Settings of a batch call. One above what its field says is refused, with 4; equality passes every limit.
        ///
        /// Settings are made from the default ones. Later versions may have more.
        ///
        /// ```
        /// use cuwelfra::{ActorId, Batch, HybridClock, Limits, Refusal, Request, Row, Store, Timestamp};
        ///
        /// // Two rows whose cause has not come: both would wait.
        /// let mut batch = Batch::new();
        /// for seq in 2..4 {
        ///     batch.push(&Row::new(Timestamp::new(10 * seq, 0, ActorId(1)), seq, "Kette"), true, Ok(()))?;
        /// }
        /// let mut store = Store::with_capacity(16)?;
        /// let mut clock = HybridClock::new(ActorId(2));
        /// let one = Request::at(1_000).with_limits(Limits::new().with_max_pending(1));
        /// let told = store.apply_delta(&mut clock, &one, &batch);
        /// assert_eq!(told, Err(Refusal::HeldOverflow { limit: 1 }));
        ///
        /// let two = Request::at(1_000).with_limits(Limits::new().with_max_pending(2));
        /// let report = store.apply_delta(&mut clock, &two, &batch)?;
        /// assert_eq!(report.held, 2);
        /// # Ok::<(), Refusal>(())
        /// ```
        #[derive(Clone, Copy, Debug, PartialEq, Eq, Hash)]
        #[non_exhaustive]
        pub struct Limits {
            $($(#[$doc])* pub $name: u64,)+
        }

        impl Limits {
            /// The largest sizes, and the original's age and drift: an hour and a minute.
            pub const fn new() -> Self {
                Self { $($name: $default,)+ }
            }

            $(
                #[doc = concat!("The same with another [`Limits::", stringify!($name), "`].")]
                #[must_use]
                pub const fn $setter(mut self, $name: u64) -> Self {
                    self.$name = $name;
                    self
                }
            )+

            /// The settings as the exported call takes them.
            pub const fn settings(&self) -> sys::Settings {
                sys::Settings { $($name: self.$name,)+ }
            }
        }
    };
}

limits! {
    /// Largest number of rows held, at most 64; beyond it 14.
    max_pending = 64, with_max_pending;
    /// Largest number of rows held of one author; beyond it 16.
    max_pending_per_actor = 64, with_max_pending_per_actor;
    /// Largest total of payload bytes held; beyond it 15.
    max_pending_bytes = 64 * 256, with_max_pending_bytes;
    /// How long a held row may wait, in ms; after that it expires.
    max_pending_age_ms = 3_600_000, with_max_pending_age_ms;
    /// How far ahead of the time a stamp may be, in ms; beyond it 11.
    max_drift_ms = 60_000, with_max_drift_ms;
    /// Largest number of dependencies of a row, at most 16; beyond it 9.
    max_deps = 16, with_max_deps;
    /// Largest payload of a row in bytes, at most 256; beyond it 8.
    max_payload = 256, with_max_payload;
}

impl Default for Limits {
    fn default() -> Self {
        Self::new()
    }
}

/// What a batch call is told beside the batch and the hybrid clock. Later versions may be told more.
///
/// ```
/// use cuwelfra::{ActorId, Batch, HybridClock, Limits, Refusal, Request, Store};
///
/// let strict = Limits::new().with_max_payload(100);
/// let request = Request::at(1_000).with_limits(strict);
/// assert_eq!((request.time_ms, request.limits), (1_000, strict));
///
/// // An empty batch lets rows expire that wait too long.
/// let mut store = Store::with_capacity(16)?;
/// let mut clock = HybridClock::new(ActorId(1));
/// let report = store.apply_delta(&mut clock, &request, Batch::new())?;
/// assert_eq!(report.expired, 0);
/// # Ok::<(), Refusal>(())
/// ```
#[derive(Clone, Copy, Debug, PartialEq, Eq, Hash)]
#[non_exhaustive]
pub struct Request {
    /// The settings.
    pub limits: Limits,
    /// The time of the call, in ms.
    pub time_ms: u64,
}

impl Request {
    /// A call at this time, in ms, with the default settings.
    pub const fn at(time_ms: u64) -> Self {
        Self {
            limits: Limits::new(),
            time_ms,
        }
    }

    /// The same with other settings.
    #[must_use]
    pub const fn with_limits(mut self, limits: Limits) -> Self {
        self.limits = limits;
        self
    }
}

#[cfg(test)]
mod tests {
    use super::*;
    use crate::{ActorId, Batch, HybridClock, Refusal, Row, Store, Timestamp};

    /// Each under its own name, and the others as they were.
    #[test]
    fn settings_go_by_name() {
        let limits = Limits::new()
            .with_max_pending(1)
            .with_max_pending_per_actor(2)
            .with_max_pending_bytes(3)
            .with_max_pending_age_ms(4)
            .with_max_drift_ms(5)
            .with_max_deps(6)
            .with_max_payload(7);
        let settings = sys::Settings {
            max_pending: 1,
            max_pending_per_actor: 2,
            max_pending_bytes: 3,
            max_pending_age_ms: 4,
            max_drift_ms: 5,
            max_deps: 6,
            max_payload: 7,
        };
        assert_eq!(limits.settings(), settings);
        let one = Limits::new().with_max_deps(0).settings();
        let max_deps = Limits::default().max_deps;
        assert_eq!(
            sys::Settings { max_deps, ..one },
            Limits::default().settings()
        );
        let defaults = sys::Settings {
            max_pending: 64,
            max_pending_per_actor: 64,
            max_pending_bytes: 16_384,
            max_pending_age_ms: 3_600_000,
            max_drift_ms: 60_000,
            max_deps: 16,
            max_payload: 256,
        };
        assert_eq!(Limits::default().settings(), defaults);
    }

    /// Time and settings reach the call: a row is ahead of one and not of the other.
    #[test]
    fn a_request_is_what_the_call_is_told() -> Result<(), Refusal> {
        let row = Row::new(Timestamp::new(100, 0, ActorId(1)), 1, "Kette");
        let mut batch = Batch::new();
        batch.push(&row, true, Ok(()))?;
        let drift = |ms| Limits::new().with_max_drift_ms(ms);
        let ahead = Refusal::AheadOfTime {
            actor: ActorId(1),
            seq: 1,
        };
        let cases = [
            (Request::at(99).with_limits(drift(0)), Err(ahead)),
            (Request::at(99).with_limits(drift(1)), Ok(1)),
            (Request::at(100).with_limits(drift(0)), Ok(1)),
            (Request::at(0), Ok(1)),
        ];
        for (request, wanted) in cases {
            let mut store = Store::with_capacity(1)?;
            let mut clock = HybridClock::new(ActorId(9));
            let told = store.apply_delta(&mut clock, &request, &batch);
            assert_eq!(told.map(|report| report.applied), wanted, "{request:?}");
        }
        Ok(())
    }
}
