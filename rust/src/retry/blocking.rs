//! Retries of calls that block their thread.

use crate::clock::Clock;
use crate::limits::grants::{Grants, MayRefuse, Unlimited};
use crate::policy::Policy;
use crate::retry::attempts::Attempt;
use crate::retry::course::Course;
use crate::retry::error::RetryError;
use crate::retry::hooks::Hooked;
use crate::retry::host::{Host, Random, Sleep};
use crate::retry::progress::Progress;
use crate::retry::retrying::Retrying;
use std::fmt;

/// Runs the call until it succeeds: again after each failure, as the policy says, with a ticket of the limit for each
/// retry. The first run takes none, and counts as a request of a [`Quota`](crate::Quota).
///
/// ```
/// use hikebox::{retry, Budget, Policy, RetryError, Schedule};
/// use std::time::Duration;
///
/// let policy = Policy::new(&(Schedule::recurs(3) & Schedule::spaced(Duration::from_millis(1))))?;
/// let budget = Budget::new(100)?;
///
/// let mut calls = 0;
/// let value = retry(&policy, &budget, || {
///     calls += 1;
///     if calls < 3 { Err("not yet") } else { Ok(calls) }
/// });
/// assert_eq!(value.ok(), Some(3));
/// assert_eq!(budget.granted(), 2);
///
/// let value = retry(&policy, &budget, || Err::<(), _>("never"));
/// assert!(matches!(value, Err(RetryError::ScheduleDone("never"))));
/// # Ok::<(), Box<dyn std::error::Error>>(())
/// ```
///
/// # Errors
///
/// [`RetryError`] with the last error of the call.
#[inline]
pub fn retry<T, E, B: Grants>(
    policy: &Policy,
    limit: &B,
    call: impl FnMut() -> Result<T, E>,
) -> Result<T, RetryError<E, B::Refusal>> {
    Retrying::new(policy, limit).call(call)
}

/// Calls that block and can be retried: every function or closure that returns a `Result`.
///
/// ```
/// use hikebox::{BlockingRetryable, Budget, Policy};
/// use std::io::ErrorKind;
///
/// let policy: Policy = r#"{"meet":[{"recurs":3},{"spaced":1}]}"#.parse()?;
/// let budget = Budget::new(10)?;
/// let text = (|| std::fs::read_to_string("Cargo.toml"))
///     .retry(&policy)
///     .limit(&budget)
///     .when(|error| error.kind() == ErrorKind::Interrupted)
///     .run()?;
/// # assert!(text.contains("hikebox"));
/// # Ok::<(), Box<dyn std::error::Error>>(())
/// ```
pub trait BlockingRetryable<T, E>: FnMut() -> Result<T, E> + Sized {
    /// Retries the call by the policy; on no limit, unless you add one by [`Retrying::limit`].
    fn retry(self, policy: &Policy) -> Retrying<'_, E, Blocking<Self>> {
        Retrying::of(policy, &Unlimited, Blocking(self))
    }
}

impl<T, E, F: FnMut() -> Result<T, E>> BlockingRetryable<T, E> for F {}

/// A call that blocks.
#[derive(Clone, Copy)]
pub struct Blocking<F>(F);

impl<F> fmt::Debug for Blocking<F> {
    fn fmt(&self, f: &mut fmt::Formatter<'_>) -> fmt::Result {
        f.debug_struct("Blocking").finish_non_exhaustive()
    }
}

impl<E, H: Hooked<E>, K: Clock, S: Sleep, R: Random, L: MayRefuse> Retrying<'_, E, (), H, Host<K, S, R>, L> {
    /// Runs the call until it succeeds. Between runs the thread sleeps.
    ///
    /// # Errors
    ///
    /// [`RetryError`] with the last error of the call.
    #[inline]
    pub fn call<T>(&self, mut call: impl FnMut() -> Result<T, E>) -> Result<T, RetryError<E, L>> {
        self.call_with(|_| call())
    }

    /// [`Retrying::call`] for a call that takes the number of the run, and how long it has left until the
    /// [`Retrying::deadline`].
    ///
    /// ```
    /// use hikebox::{Policy, Retrying, Unlimited};
    /// use std::time::Duration;
    ///
    /// let policy: Policy = r#"{"recurs":3}"#.parse()?;
    /// let retrying = Retrying::new(&policy, &Unlimited).deadline(Duration::from_secs(2));
    /// let answer = retrying.call_with(|attempt| {
    ///     let timeout = attempt.left().unwrap_or(Duration::MAX);
    ///     if attempt.number() < 3 { Err(timeout) } else { Ok(attempt.number()) }
    /// });
    /// assert_eq!(answer, Ok(3));
    /// # Ok::<(), hikebox::PolicyError>(())
    /// ```
    ///
    /// # Errors
    ///
    /// [`RetryError`] with the last error of the call.
    #[inline]
    pub fn call_with<T>(&self, mut call: impl FnMut(Attempt) -> Result<T, E>) -> Result<T, RetryError<E, L>> {
        let mut course = self.course();
        let mut held = L::Held::default();
        let (began, first) = (self.begins(&mut held, &mut course)?, self.first());
        match course.run(|| call(first)) {
            Ok(value) => {
                self.succeeds_at_once(began, &mut held, &mut course);
                Ok(value)
            }
            Err(error) => self.calls_again(self.progress(began, held), course, error, call),
        }
    }

    /// The same after a first run that failed so.
    #[inline(never)]
    fn calls_again<T>(
        &self,
        mut progress: Progress<'_>,
        mut course: Course,
        mut error: E,
        mut call: impl FnMut(Attempt) -> Result<T, E>,
    ) -> Result<T, RetryError<E, L>> {
        let mut attempt = self.first();
        loop {
            let wait = match self.fails(&mut progress, &course, &error) {
                Ok(wait) => wait,
                Err(ended) => return Err(self.gives_up(&progress, &mut course, ended, error)),
            };
            if !wait.is_zero() {
                self.host.sleep.sleep(wait);
            }
            attempt = match self.next(&mut progress, attempt) {
                Ok(attempt) => attempt,
                Err(ended) => return Err(self.gives_up(&progress, &mut course, ended, error)),
            };
            error = match course.run(|| call(attempt)) {
                Ok(value) => {
                    self.succeeds(&mut progress, &mut course);
                    return Ok(value);
                }
                Err(error) => error,
            };
        }
    }
}

impl<E, F, H: Hooked<E>, K: Clock, S: Sleep, R: Random, L: MayRefuse>
    Retrying<'_, E, Blocking<F>, H, Host<K, S, R>, L>
{
    /// Runs the call until it succeeds. Between runs the thread sleeps.
    ///
    /// # Errors
    ///
    /// [`RetryError`] with the last error of the call.
    pub fn run<T>(self) -> Result<T, RetryError<E, L>>
    where
        F: FnMut() -> Result<T, E>,
    {
        let (retrying, Blocking(call)) = self.parted();
        retrying.call(call)
    }
}
