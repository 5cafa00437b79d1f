//! Retries of futures whose runs are timed: a run that takes too long is ended, or has another one begin beside it.

use crate::clock::Clock;
use crate::limits::grants::MayRefuse;
use crate::retry::asynchronous::{Async, AsyncSleep};
use crate::retry::attempts::Attempt;
use crate::retry::error::RetryError;
use crate::retry::hooks::Hooked;
use crate::retry::host::{Host, Random};
use crate::retry::machine::Ending;
use crate::retry::retrying::Retrying;
use crate::retry::runs::{Event, Loss, Runs};
use crate::retry::yields::{yields, InARow};
use std::error::Error;
use std::fmt;
use std::future::Future;
use std::io;
use std::time::Duration;

/// How long the runs of a retry may take: see [`Retrying::attempt_timeout`] and [`Retrying::hedge_after`]. A retry whose
/// runs are timed has `call_async`, `call_async_with` and `run`.
#[derive(Clone, Copy, Debug, Default)]
pub struct Timed {
    pub(super) attempt_timeout: Option<Duration>,
    pub(super) hedge_after: Option<Duration>,
}

impl From<()> for Timed {
    /// That of a retry whose runs are not timed.
    fn from((): ()) -> Self {
        Self::default()
    }
}

/// A run took longer than its [`Retrying::attempt_timeout`], and was dropped; or it is late by [`Retrying::hedge_after`].
/// The error of a call whose runs are timed is made of it, as by `?`: a `Box<dyn Error>`, an [`io::Error`] of the kind
/// [`TimedOut`](io::ErrorKind::TimedOut), an `anyhow::Error`, or a variant of yours.
#[derive(Clone, Copy, Debug, PartialEq, Eq, Hash)]
pub struct AttemptTimeout {
    pub(super) after: Duration,
}

impl AttemptTimeout {
    /// How long the run had.
    #[must_use]
    pub fn after(&self) -> Duration {
        self.after
    }
}

impl fmt::Display for AttemptTimeout {
    fn fmt(&self, f: &mut fmt::Formatter<'_>) -> fmt::Result {
        write!(f, "the attempt took longer than {} s", self.after.as_secs_f64())
    }
}

impl Error for AttemptTimeout {}

impl From<AttemptTimeout> for io::Error {
    fn from(timeout: AttemptTimeout) -> Self {
        Self::new(io::ErrorKind::TimedOut, timeout)
    }
}

impl<'a, E, F, H, K, S, R, T: Into<Timed>, L> Retrying<'a, E, F, H, Host<K, S, R, T>, L> {
    /// How long a run of a future may take. Then it is dropped, and has failed with an [`AttemptTimeout`], of which the
    /// call's error is made: `when` and `code` see it like any other. A run that blocks can't be ended, and isn't timed.
    ///
    /// ```
    /// # #[cfg(feature = "tokio")]
    /// # tokio::runtime::Builder::new_current_thread().enable_time().start_paused(true).build().unwrap().block_on(async {
    /// use hikebox::{AttemptTimeout, Policy, RetryError, Retrying, Unlimited};
    /// use std::{future::pending, time::Duration};
    ///
    /// #[derive(Debug, PartialEq)]
    /// enum FetchError {
    ///     NotFound,
    ///     TookTooLong,
    /// }
    ///
    /// impl From<AttemptTimeout> for FetchError {
    ///     fn from(_: AttemptTimeout) -> Self {
    ///         Self::TookTooLong
    ///     }
    /// }
    ///
    /// let policy: Policy = r#"{"recurs":2}"#.parse()?;
    /// let answer = Retrying::new(&policy, &Unlimited)
    ///     .when(|error| *error == FetchError::TookTooLong)
    ///     .attempt_timeout(Duration::from_secs(2))
    ///     .call_async(|| pending::<Result<(), FetchError>>())
    ///     .await;
    /// // three runs of two seconds each
    /// assert_eq!(answer, Err(RetryError::ScheduleDone(FetchError::TookTooLong)));
    /// # Ok::<(), hikebox::PolicyError>(())
    /// # }).unwrap();
    /// ```
    pub fn attempt_timeout(self, longest: Duration) -> Retrying<'a, E, F, H, Host<K, S, R, Timed>, L> {
        self.timed(|timed| Timed { attempt_timeout: Some(longest), ..timed })
    }

    /// **For calls that may be made twice**: a read, or a write with a key by which the peer knows it again. A run that
    /// takes longer than this is late. It goes on, but counts as a failure, with the code of an [`AttemptTimeout`]: the
    /// policy says when the next run begins beside it, and that draws a ticket as any retry does. So the limit bounds how
    /// much more the peer is asked, and one that hears of failures, as a breaker does, hears of late runs.
    ///
    /// The first success of any run is the answer, and the other runs are dropped; a ticket whose run had not begun comes
    /// back. If a run fails that was late, the policy is not asked again. The call fails when the policy is done and all
    /// runs have failed, with the error that came last; an error that `when` does not accept ends it at once. All runs are
    /// polled in the task of the call; they end with its future.
    ///
    /// One call in a hundred is slow here, and its second run answers:
    ///
    /// ```
    /// # #[cfg(feature = "tokio")]
    /// # tokio::runtime::Builder::new_current_thread().enable_time().start_paused(true).build().unwrap().block_on(async {
    /// use hikebox::{Policy, Quota, Retrying};
    /// use std::{io, time::Duration};
    /// use tokio::time::{sleep, Instant};
    ///
    /// async fn fetch(run: u64) -> io::Result<u64> {
    ///     sleep(Duration::from_millis(if run == 1 { 1_000 } else { 10 })).await;
    ///     Ok(run)
    /// }
    ///
    /// let policy: Policy = r#"{"recurs":1}"#.parse()?;
    /// let quota = Quota::new(5, 0.05, Duration::from_secs(10))?; // one more call for each twenty
    /// let began = Instant::now();
    /// let answer = Retrying::new(&policy, &quota)
    ///     .hedge_after(Duration::from_millis(50))
    ///     .call_async_with(|attempt| fetch(attempt.number()))
    ///     .await?;
    /// assert_eq!((answer, began.elapsed()), (2, Duration::from_millis(60)));
    /// # Ok::<(), Box<dyn std::error::Error>>(())
    /// # }).unwrap();
    /// ```
    ///
    /// Give it about the time in which 95 of a hundred calls are answered; "The tail at scale" of Dean and Barroso (2013)
    /// says why. A bound on what is in flight counts one retry of a call at a time.
    pub fn hedge_after(self, late: Duration) -> Retrying<'a, E, F, H, Host<K, S, R, Timed>, L> {
        self.timed(|timed| Timed { hedge_after: Some(late), ..timed })
    }

    fn timed(self, set: impl FnOnce(Timed) -> Timed) -> Retrying<'a, E, F, H, Host<K, S, R, Timed>, L> {
        self.with(|hooks| hooks, |host| host.with_timed(|timed| set(timed.into())))
    }
}

impl<E, H: Hooked<E>, K: Clock, S: AsyncSleep, R: Random, L: MayRefuse>
    Retrying<'_, E, (), H, Host<K, S, R, Timed>, L>
{
    /// [`Retrying::call_async`] with runs that are timed.
    ///
    /// # Errors
    ///
    /// [`RetryError`] with the last error of the call.
    pub async fn call_async<T, P>(&self, mut call: impl FnMut() -> P) -> Result<T, RetryError<E, L>>
    where
        P: Future<Output = Result<T, E>>,
        E: From<AttemptTimeout>,
    {
        self.call_async_with(|_| call()).await
    }

    /// [`Retrying::call_async_with`] with runs that are timed.
    ///
    /// # Errors
    ///
    /// [`RetryError`] with the last error of the call.
    pub async fn call_async_with<T, P>(&self, mut call: impl FnMut(Attempt) -> P) -> Result<T, RetryError<E, L>>
    where
        P: Future<Output = Result<T, E>>,
        E: From<AttemptTimeout>,
    {
        let mut course = self.course();
        let mut progress = self.begin(&mut course)?;
        let mut attempt = self.first();
        let mut runs = Runs::new(&self.host.sleep, self.host.timed);
        runs.begin(course.run_of(call(attempt)), progress.run_began());
        // how the retry ended, while runs are still under way, and the latest error
        let (mut ended, mut last, mut in_a_row) = (None, None, InARow::default());
        loop {
            let follows = match (&mut runs).await {
                Event::Won(value, began) => {
                    progress.withdraw();
                    progress.won_by(began);
                    self.succeeds(&mut progress, &mut course);
                    return Ok(value);
                }
                Event::Late(timeout) => self.loses(&mut progress, &course, &timeout.into(), Loss::Late).map(Some),
                Event::Lost { error, loss, was_late: false } => {
                    self.loses(&mut progress, &course, last.insert(error), loss).map(Some)
                }
                Event::Lost { error, was_late: true, .. } => match self.hooks.when(last.insert(error)) {
                    true => Ok(None),
                    false => Err(Ending::Cancelled),
                },
                Event::Due => self.next(&mut progress, attempt).map(|next| {
                    attempt = next;
                    runs.begin(course.run_of(call(attempt)), progress.run_began());
                    None
                }),
            };
            match follows {
                Ok(Some(wait)) => {
                    runs.wait(wait);
                    if wait.is_zero() && in_a_row.is_over() {
                        yields().await;
                    }
                }
                Ok(None) => {}
                Err(ending) => ended = Some(ending),
            }
            if let Some(ending) = ended.filter(|ending| runs.is_empty() || *ending == Ending::Cancelled) {
                if let Some(error) = last.take() {
                    return Err(self.gives_up(&progress, &mut course, ending, error));
                }
            }
        }
    }
}

impl<E, F, H: Hooked<E>, K: Clock, S: AsyncSleep, R: Random, L: MayRefuse>
    Retrying<'_, E, Async<F>, H, Host<K, S, R, Timed>, L>
{
    /// Runs the call until it succeeds, with runs that are timed. Between runs the task waits.
    ///
    /// # Errors
    ///
    /// [`RetryError`] with the last error of the call.
    pub async fn run<T, P>(self) -> Result<T, RetryError<E, L>>
    where
        F: FnMut() -> P,
        P: Future<Output = Result<T, E>>,
        E: From<AttemptTimeout>,
    {
        let (retrying, Async(call)) = self.parted();
        retrying.call_async(call).await
    }
}

/// You can `.await` a retry directly if everything in it is [`Send`].
#[cfg(hikebox_into_future)]
impl<'a, T, E, F, P, H, K, S, R, L> std::future::IntoFuture for Retrying<'a, E, Async<F>, H, Host<K, S, R, Timed>, L>
where
    T: Send + 'a,
    E: From<AttemptTimeout> + Send + 'a,
    F: FnMut() -> P + Send + 'a,
    P: Future<Output = Result<T, E>> + Send + 'a,
    H: Hooked<E> + Send + Sync + 'a,
    K: Clock + Send + Sync + 'a,
    S: AsyncSleep + Send + Sync + 'a,
    S::Sleeping: Send,
    R: Random + Send + Sync + 'a,
    L: MayRefuse,
{
    type Output = Result<T, RetryError<E, L>>;
    type IntoFuture = std::pin::Pin<Box<dyn Future<Output = Self::Output> + Send + 'a>>;

    fn into_future(self) -> Self::IntoFuture {
        Box::pin(self.run())
    }
}
