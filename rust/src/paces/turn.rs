//! The turn of a call that waits for its pace, and why a call gets none.

use super::pace::Pace;
use crate::clock::Moment;
use crate::engine::{Handle, PaceKind};
use crate::system::{generation, is_generation};
use std::error::Error;
use std::fmt;
use std::mem;
use std::thread;
use std::time::Duration;

/// The turn of a call, at which it may begin. It says [how long](Turn::left) that is yet, for a sleep of your own.
/// Dropped before [`begin`](Turn::begin), it is given back, unless another call was granted one since.
///
/// ```
/// use hikebox::{Pace, Policy, Rate, Retrying, Unlimited};
/// use std::time::Duration;
///
/// let pace = Pace::new(Rate::new(1, Duration::from_secs(60)))?;
/// pace.take()?.begin();
/// assert!(pace.take()?.left() > Duration::from_secs(50)); // and is given back
///
/// let policy: Policy = r#"{"recurs":3}"#.parse()?;
/// let retrying = Retrying::new(&policy, &Unlimited).deadline(Duration::from_secs(1));
/// let answer = retrying.when(|_| false).call_with(|attempt| {
///     pace.take()?.within(attempt.left())?.wait();
///     Ok::<_, hikebox::TooSoon>("fetched")
/// });
/// assert!(answer.is_err()); // its turn comes after the deadline
/// # Ok::<(), Box<dyn std::error::Error>>(())
/// ```
#[derive(Debug)]
#[must_use = "a turn that is dropped is given back"]
pub struct Turn {
    pace: Pace,
    /// `None` only while it is dropped.
    handle: Option<Handle<PaceKind>>,
    generation: u64,
    at: Moment,
}

impl Turn {
    pub(super) fn new(pace: Pace, handle: Handle<PaceKind>, at: Moment) -> Self {
        Self { pace, handle: Some(handle), generation: generation(), at }
    }

    /// How long it is until the call may begin.
    #[must_use]
    pub fn left(&self) -> Duration {
        self.at.since(Moment::now())
    }

    /// This turn, if the call may begin within this time, such as what is [left](crate::Attempt::left) to a deadline;
    /// else it is given back. `None` is no bound.
    ///
    /// # Errors
    ///
    /// [`TooSoon`] if that is later.
    pub fn within(self, time: impl Into<Option<Duration>>) -> Result<Self, TooSoon> {
        let left = self.left();
        match time.into() {
            Some(longest) if left > longest => Err(TooSoon::new(left - longest, longest)),
            _ => Ok(self),
        }
    }

    /// Waits until the call may begin, and returns for how long it slept. It blocks the thread.
    #[allow(clippy::must_use_candidate)]
    pub fn wait(self) -> Duration {
        let left = self.left();
        if !left.is_zero() {
            thread::sleep(left);
        }
        self.begin();
        left
    }

    /// [`Turn::wait`] by tokio's timer. If its future is dropped while it waits, the turn is given back.
    #[cfg(feature = "tokio")]
    pub async fn wait_async(self) -> Duration {
        let left = self.left();
        if !left.is_zero() {
            // (a timer is large, and most calls need none)
            Box::pin(::tokio::time::sleep(left)).await;
        }
        self.begin();
        left
    }

    /// The call begins, so its turn is used.
    pub fn begin(mut self) {
        self.leave(|_| ());
    }

    /// Gives its handle up, after a last call of it.
    fn leave(&mut self, last: impl FnOnce(&mut Handle<PaceKind>)) {
        match self.handle.take() {
            Some(mut handle) if is_generation(self.generation) => {
                last(&mut handle);
                self.pace.put_back(handle);
            }
            // (in a forked child it is the parent's)
            handle => mem::forget(handle),
        }
    }
}

impl Drop for Turn {
    fn drop(&mut self) {
        self.leave(Handle::give_back);
    }
}

/// A call would wait for its pace longer than it may.
#[derive(Clone, Copy, Debug, PartialEq, Eq, Hash)]
pub struct TooSoon {
    again: Duration,
    longest: Duration,
}

impl TooSoon {
    /// A call that would wait so long at most is granted after this time.
    pub(super) fn new(again: Duration, longest: Duration) -> Self {
        Self { again, longest }
    }

    /// How long it would wait.
    #[must_use]
    pub fn wait(&self) -> Duration {
        self.again.saturating_add(self.longest)
    }

    /// After how long it would be granted a turn, if no other call came before.
    #[must_use]
    pub fn retry_after(&self) -> Duration {
        self.again
    }
}

impl fmt::Display for TooSoon {
    fn fmt(&self, f: &mut fmt::Formatter<'_>) -> fmt::Result {
        write!(f, "expected a wait of at most {:?} for the pace, got one of {:?}", self.longest, self.wait())
    }
}

impl Error for TooSoon {}
