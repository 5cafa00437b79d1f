//! A retry as a machine that its host steps.

use crate::clock::whole_millis;
use crate::engine::NO_DEADLINE;
use crate::limits::error::LimitError;
use crate::limits::grants::{Grants, Source};
use crate::limits::ticket::StoreFailure;
use crate::policy::Policy;
use crate::random;
use crate::retry::stepped::Stepped;
use std::convert::Infallible;
use std::time::Duration;

/// A retry that you step yourself: it says when to run the call and when to wait, and you report how each run went.
///
/// [`retry`](crate::retry()) and [`Retrying`](crate::Retrying) drive one by the system's clock. Use it in a program
/// that has a clock of its own, such as an event loop or a test.
///
/// ```
/// use hikebox::{Budget, Ending, Machine, Policy, Report, Step};
/// use std::time::Duration;
///
/// let at = Duration::from_millis;
/// let policy: Policy = r#"{"meet":[{"recurs":1},{"spaced":100}]}"#.parse()?;
/// let mut machine = Machine::new(&policy, &Budget::new(10)?)?;
/// assert_eq!(machine.step(at(0), None), Step::Run);
/// assert_eq!(machine.step(at(5), Some(Report::Lost(7))), Step::Wait(at(105)));
/// assert_eq!(machine.step(at(105), None), Step::Run);
/// assert_eq!(machine.step(at(110), Some(Report::Lost(7))), Step::Over(Ending::ScheduleDone));
/// assert_eq!(machine.granted(), 1);
/// # Ok::<(), Box<dyn std::error::Error>>(())
/// ```
///
/// A moment is the time since one that you choose, in whole milliseconds, rounded down. On a [`Quota`](crate::Quota)
/// the machine draws at the moments at which you step it, so use one clock for everything on that quota, and count each
/// request by `quota.deposit_at(now)`. A machine that is dropped while it waits hands back the ticket of the run that
/// never began.
#[derive(Debug)]
pub struct Machine {
    retry: Stepped,
    source: Source,
}

/// How a run went, with a code up to 2^62 - 1 that the schedule can test; a greater one counts as that.
#[derive(Clone, Copy, Debug, PartialEq, Eq, Hash)]
pub enum Report {
    /// It succeeded.
    Won(u64),
    /// It failed.
    Lost(u64),
}

/// What to do next.
#[derive(Clone, Copy, Debug, PartialEq, Eq, Hash)]
#[must_use]
pub enum Step {
    /// Run the call, and report how it went at the next step.
    Run,
    /// Wait until this moment, and then step without a report.
    Wait(Duration),
    /// Nothing: the retry is over.
    Over(Ending),
}

/// How a retry ended.
#[derive(Clone, Copy, Debug, PartialEq, Eq, Hash)]
#[non_exhaustive]
pub enum Ending {
    /// The last run succeeded.
    Won,
    /// The last run failed, and the schedule was done.
    ScheduleDone,
    /// The last run failed, and the next one would have begun past the deadline.
    Deadline,
    /// The last run failed, and the limit had no ticket for a retry.
    LimitRefused,
    /// It was cancelled.
    Cancelled,
    /// It could not go on.
    Broken(Cause),
}

/// Why a retry could not go on.
#[derive(Clone, Copy, Debug, PartialEq, Eq, Hash)]
#[non_exhaustive]
pub enum Cause {
    /// Memory ran out.
    NoMemory,
    /// The clock went back.
    Backwards,
    /// The store of tickets failed; [`Machine::store_failure`] says why.
    StoreFailed,
}

impl Machine {
    /// A retry by this policy on this limit, which has not begun.
    ///
    /// # Errors
    ///
    /// [`LimitError::NoMemory`].
    pub fn new(policy: &Policy, limit: &impl Grants<Refusal = Infallible>) -> Result<Self, LimitError> {
        Self::on(policy, limit.source(), NO_DEADLINE)
    }

    /// [`Machine::new`] with a deadline: no run but the first begins past this moment. If the schedule plans one later,
    /// the retry is over as [`Ending::Deadline`] and draws no ticket. It is also over if it is stepped past the
    /// deadline while it waits; a quota then has the ticket back.
    ///
    /// ```
    /// use hikebox::{Ending, Machine, Policy, Report, Step, Unlimited};
    /// use std::time::Duration;
    ///
    /// let at = Duration::from_millis;
    /// let policy: Policy = r#"{"spaced":450}"#.parse()?;
    /// let mut machine = Machine::until(&policy, &Unlimited, at(600))?;
    /// assert_eq!(machine.step(at(0), None), Step::Run);
    /// assert_eq!(machine.step(at(0), Some(Report::Lost(7))), Step::Wait(at(450)));
    /// assert_eq!(machine.left(at(450)), Some(at(150)));
    /// assert_eq!(machine.step(at(450), None), Step::Run);
    /// assert_eq!(machine.step(at(450), Some(Report::Lost(7))), Step::Over(Ending::Deadline));
    /// # Ok::<(), Box<dyn std::error::Error>>(())
    /// ```
    ///
    /// # Errors
    ///
    /// [`LimitError::NoMemory`].
    pub fn until(
        policy: &Policy,
        limit: &impl Grants<Refusal = Infallible>,
        deadline: Duration,
    ) -> Result<Self, LimitError> {
        Self::on(policy, limit.source(), whole_millis(deadline))
    }

    fn on(policy: &Policy, source: Source, deadline: u64) -> Result<Self, LimitError> {
        let retry = Stepped::new(policy, source.get(), deadline).map_err(LimitError::of)?;
        Ok(Self { retry, source })
    }

    /// Steps the machine at the moment `now`, which is not before that of the last step, with the system's random
    /// words. A report is about the run under way; if there is none, it is ignored.
    pub fn step(&mut self, now: Duration, report: Option<Report>) -> Step {
        self.step_with(now, report, random::next())
    }

    /// [`Machine::step`] with your own random words. Each jitter takes the one of its lane: `u32::MAX / 2` picks the
    /// middle.
    pub fn step_with(&mut self, now: Duration, report: Option<Report>, words: [u32; 4]) -> Step {
        match self.retry.step(whole_millis(now), report, &words, self.source.get()) {
            Ok(()) => self.retry.due().map_or(Step::Run, |due| Step::Wait(Duration::from_millis(due))),
            Err(ended) => Step::Over(ended),
        }
    }

    /// The number of retries that were granted.
    #[must_use]
    pub fn granted(&self) -> u64 {
        self.retry.granted()
    }

    /// The number of runs that were reported.
    #[must_use]
    pub fn runs(&self) -> u64 {
        self.retry.runs()
    }

    /// The time from `now` to the deadline, which can serve as a run's timeout: zero if the deadline is past, and
    /// `None` if there is none.
    #[must_use]
    pub fn left(&self, now: Duration) -> Option<Duration> {
        match self.retry.left_at(whole_millis(now)) {
            NO_DEADLINE => None,
            left => Some(Duration::from_millis(left)),
        }
    }

    /// Why the store of tickets failed, if it did.
    #[must_use]
    pub fn store_failure(&self) -> Option<&StoreFailure> {
        self.retry.store_failure()
    }

    /// Ends the retry as cancelled, if it is not over. On a quota, the latest ticket goes back when the machine is
    /// dropped, if it was waiting.
    pub fn cancel(&mut self) {
        self.retry.cancel();
    }
}

impl Drop for Machine {
    fn drop(&mut self) {
        self.retry.give_back(self.source.get());
    }
}

#[cfg(any(feature = "prometheus", feature = "tracing"))]
impl Ending {
    /// The name by which the end of a call is told. (Its retry is cancelled where an error is not retried.)
    pub(crate) fn told(self) -> &'static str {
        match self {
            Self::Won => "won",
            Self::ScheduleDone => "schedule_done",
            Self::Deadline => "deadline",
            Self::LimitRefused => "limit_refused",
            Self::Cancelled => "not_retried",
            Self::Broken(Cause::NoMemory) => "no_memory",
            Self::Broken(Cause::Backwards) => "clock_went_back",
            Self::Broken(Cause::StoreFailed) => "store_failed",
        }
    }
}
