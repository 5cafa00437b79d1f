//! The clock that this crate goes by, and moments of the engine.

use crate::engine::MAX_NUMBER;
use crate::system::MadeOnce;
use std::time::{Duration, Instant};
pub use time::Moment;

/// A clock: any function that returns an [`Instant`].
pub trait Clock {
    #[doc(hidden)]
    fn moment(&self) -> Moment;
}

/// The system's monotonic clock; with the feature `tokio` tokio's, which is the system's unless a test has stopped it.
#[derive(Clone, Copy, Debug, Default)]
pub struct SystemClock;

impl Clock for SystemClock {
    #[inline]
    fn moment(&self) -> Moment {
        Moment::now()
    }
}

impl<F: Fn() -> Instant> Clock for F {
    #[inline]
    fn moment(&self) -> Moment {
        Moment::of(self())
    }
}

/// A moment as one number, so that it is compared and subtracted in an instruction each. On Windows and macOS also with
/// tokio: an [`Instant`] before the machine's start may be none there.
#[cfg(not(all(feature = "tokio", target_os = "linux")))]
mod time {
    use crate::system;
    use std::time::{Duration, Instant};

    /// A moment.
    #[derive(Clone, Copy, Debug, PartialEq, Eq, PartialOrd, Ord)]
    pub struct Moment {
        /// Nanoseconds by the system's monotonic clock, which begins at 2^63: so there are 292 years on both sides.
        nanos: u64,
    }

    const BEGINNING: u64 = 1 << 63;
    const NANOS_A_MILLI: u64 = 1_000_000;

    impl Moment {
        /// The present moment, by [`SystemClock`](super::SystemClock).
        #[inline]
        #[cfg(not(feature = "tokio"))]
        pub(crate) fn now() -> Self {
            Self { nanos: BEGINNING + system::monotonic() }
        }

        /// The present moment, by [`SystemClock`](super::SystemClock).
        #[cfg(feature = "tokio")]
        pub(crate) fn now() -> Self {
            Self::of(::tokio::time::Instant::now().into_std())
        }

        /// The moment of this instant.
        pub(crate) fn of(instant: Instant) -> Self {
            let (known, nanos) = system::known_instant();
            let known_moment = Self { nanos: BEGINNING + nanos };
            match instant.checked_duration_since(known) {
                Some(later) => known_moment.after(later),
                None => known_moment.before(known.saturating_duration_since(instant)),
            }
        }

        /// The moment so long after this one, or the last one.
        pub(crate) fn after(self, wait: Duration) -> Self {
            Self { nanos: self.nanos.saturating_add(nanos_of(wait)) }
        }

        /// The moment so long before this one, or the first one.
        pub(crate) fn before(self, time: Duration) -> Self {
            Self { nanos: self.nanos.saturating_sub(nanos_of(time)) }
        }

        /// The time from an earlier moment to this one; none where that one is later.
        #[inline]
        pub(crate) fn since(self, earlier: Self) -> Duration {
            Duration::from_nanos(self.nanos_since(earlier))
        }

        /// The same in whole milliseconds, rounded down.
        #[inline]
        pub(crate) fn millis_since(self, earlier: Self) -> u64 {
            self.nanos_since(earlier) / NANOS_A_MILLI
        }

        /// The same, rounded up.
        #[inline]
        pub(crate) fn millis_begun_since(self, earlier: Self) -> u64 {
            self.nanos_since(earlier).saturating_add(NANOS_A_MILLI - 1) / NANOS_A_MILLI
        }

        #[inline]
        fn nanos_since(self, earlier: Self) -> u64 {
            self.nanos.saturating_sub(earlier.nanos)
        }
    }

    /// The nanoseconds of a duration, at most 2^64 - 1.
    fn nanos_of(time: Duration) -> u64 {
        u64::try_from(time.as_nanos()).unwrap_or(u64::MAX)
    }
}

/// A moment as tokio's clock tells it: that may stand still, so it is no number of the system's clock.
#[cfg(all(feature = "tokio", target_os = "linux"))]
mod time {
    use super::whole_millis;
    use crate::instants::nanos_between;
    use std::time::{Duration, Instant};

    /// A moment.
    #[derive(Clone, Copy, Debug, PartialEq, Eq, PartialOrd, Ord)]
    pub struct Moment {
        instant: Instant,
    }

    /// Later than any program runs.
    const A_CENTURY: Duration = Duration::from_secs(100 * 365 * 86_400);
    const NANOS_A_MILLI: u64 = 1_000_000;
    const NEARLY_A_MILLI: Duration = Duration::from_nanos(NANOS_A_MILLI - 1);

    impl Moment {
        /// The present moment, by [`SystemClock`](super::SystemClock).
        #[inline]
        pub(crate) fn now() -> Self {
            Self::of(::tokio::time::Instant::now().into_std())
        }

        /// The moment of this instant.
        #[inline]
        pub(crate) fn of(instant: Instant) -> Self {
            Self { instant }
        }

        /// The moment so long after this one; after a century where the system's clock can't tell it, or this one where it
        /// can't tell that either.
        pub(crate) fn after(self, wait: Duration) -> Self {
            let later = |wait| self.instant.checked_add(wait);
            Self::of(later(wait).or_else(|| later(A_CENTURY)).unwrap_or(self.instant))
        }

        /// The moment so long before this one, or this one where the system's clock can't tell it.
        pub(crate) fn before(self, time: Duration) -> Self {
            Self::of(self.instant.checked_sub(time).unwrap_or(self.instant))
        }

        /// The time from an earlier moment to this one; none where that one is later.
        #[inline]
        pub(crate) fn since(self, earlier: Self) -> Duration {
            self.instant.saturating_duration_since(earlier.instant)
        }

        /// The same in whole milliseconds, rounded down.
        #[inline]
        pub(crate) fn millis_since(self, earlier: Self) -> u64 {
            match nanos_between(earlier.instant, self.instant) {
                Some(nanos) => nanos / NANOS_A_MILLI,
                None => self.many_millis_since(earlier, Duration::ZERO),
            }
        }

        /// The same, rounded up.
        #[inline]
        pub(crate) fn millis_begun_since(self, earlier: Self) -> u64 {
            match nanos_between(earlier.instant, self.instant) {
                Some(nanos) => (nanos + (NANOS_A_MILLI - 1)) / NANOS_A_MILLI,
                None => self.many_millis_since(earlier, NEARLY_A_MILLI),
            }
        }

        /// The same of any two moments, and of this much more.
        #[cold]
        fn many_millis_since(self, earlier: Self, more: Duration) -> u64 {
            whole_millis(self.since(earlier).saturating_add(more))
        }
    }
}

/// Moment 0 of all limits that calls ask, so that two at once have one clock, and of all paces. It lies a day before the
/// first of them is made: a runtime of tokio's may have stopped its clock before that.
pub(crate) fn beginning() -> Moment {
    static BEGAN: MadeOnce<Moment> = MadeOnce::new();
    BEGAN.get(|| Moment::of(Instant::now()).before(A_DAY))
}

const A_DAY: Duration = Duration::from_secs(86_400);

/// Whole milliseconds of a moment, rounded down; past the engine's last moment it is that.
#[inline]
pub(crate) fn whole_millis(moment: Duration) -> u64 {
    match moment.as_secs() {
        seconds if seconds > MAX_NUMBER / 1000 => MAX_NUMBER,
        seconds => (seconds * 1000 + u64::from(moment.subsec_millis())).min(MAX_NUMBER),
    }
}

#[cfg(test)]
mod tests {
    use super::Moment;
    use std::time::{Duration, Instant};

    #[test]
    fn moments_lie_as_their_instants_do() {
        let (now, second) = (Instant::now(), Duration::from_nanos(1_000_000_001));
        let (moment, later, earlier) = (Moment::of(now), Moment::of(now + second), Moment::of(now - second));
        assert_eq!((later.since(moment), moment.since(earlier), moment.since(later)), (second, second, Duration::ZERO));
        assert_eq!((later.millis_since(moment), later.millis_begun_since(moment)), (1000, 1001));
        assert_eq!((moment.after(second), moment.before(second)), (later, earlier));
        assert_eq!(moment.millis_begun_since(moment), 0);
    }

    #[test]
    fn moments_end_where_the_number_does() {
        let moment = Moment::now();
        assert!(moment.after(Duration::MAX) > moment && moment.before(Duration::MAX) <= moment);
        // (to the second, the last instant that there is)
        let longer = (0..63).rev().map(|power| Duration::from_secs(1 << power));
        let last = longer.fold(Instant::now(), |last, wait| last.checked_add(wait).unwrap_or(last));
        assert!(Moment::of(last).after(Duration::MAX) >= Moment::of(last));
    }

    #[test]
    fn the_present_moment_is_that_of_the_present_instant() {
        let (first, instant, last) = (Moment::now(), Moment::of(Instant::now()), Moment::now());
        // (an instant and a number of the same clock can't be read at once)
        let slack = Duration::from_millis(100);
        assert!(first.before(slack) <= instant && instant <= last.after(slack));
    }
}
