//! The options that retries of all kinds have.

use crate::clock::{whole_millis, Moment};
use crate::limits::grants::Limit;
use std::time::Duration;

/// The options of a retry, with what they are unless a builder says otherwise.
#[derive(Clone, Copy, Debug)]
pub(crate) struct Options {
    /// How long after the first run began the last one may begin.
    pub(crate) deadline: Option<Duration>,
    /// After how long a success is a failure to a limit that is asked before the first run.
    pub(crate) slow: Option<Duration>,
    /// How long an error may ask to wait.
    pub(crate) max_retry_after: Duration,
    /// Whether a function is called before each retry, which may take its time.
    pub(crate) notifies: bool,
    /// The name by which the call is told.
    #[cfg(any(feature = "prometheus", feature = "tracing"))]
    pub(crate) call: &'static str,
}

impl Options {
    /// The deadline in whole milliseconds, by which runs begin.
    #[inline]
    pub(crate) fn whole_deadline(&self) -> Option<Duration> {
        self.deadline.map(|deadline| Duration::from_millis(whole_millis(deadline)))
    }

    /// A request is made, which this limit counts: the moment at which, where that or an option wants to know it.
    #[inline(always)]
    pub(crate) fn counted(&self, limit: &dyn Limit, clock: impl FnOnce() -> Moment) -> Option<Moment> {
        let is_timed = limit.count_request();
        if !is_timed && self.deadline.is_none() && self.slow.is_none() {
            return None;
        }
        let now = clock();
        if is_timed {
            limit.count_request_at(now);
        }
        Some(now)
    }

    /// Whether a run that began then and succeeded now was slow.
    #[inline]
    pub(crate) fn was_slow(&self, began: Option<Moment>, clock: impl FnOnce() -> Moment) -> bool {
        self.slow.zip(began).map_or(false, |(slow, began)| clock().since(began) > slow)
    }

    /// The wait that is granted to an error that asks for this one so long after the first run began; `None` where the
    /// next run would begin past the deadline then.
    #[cold]
    pub(crate) fn granted(&self, retry_after: Duration, passed: Duration) -> Option<Duration> {
        let wait = retry_after.min(self.max_retry_after);
        let is_late = |deadline| !wait.is_zero() && passed.saturating_add(wait) > deadline;
        if self.whole_deadline().map_or(false, is_late) {
            None
        } else {
            Some(wait)
        }
    }
}

impl Default for Options {
    /// No deadline, and waits of six hours at most.
    #[inline]
    fn default() -> Self {
        Self {
            deadline: None,
            slow: None,
            max_retry_after: Duration::from_secs(6 * 3600),
            notifies: false,
            #[cfg(any(feature = "prometheus", feature = "tracing"))]
            call: "a call",
        }
    }
}
