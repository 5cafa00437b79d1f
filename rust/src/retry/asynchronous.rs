//! Retries of futures, on any runtime.

use crate::clock::Clock;
#[cfg(feature = "tokio")]
use crate::limits::grants::Grants;
use crate::limits::grants::{MayRefuse, Unlimited};
use crate::policy::Policy;
use crate::retry::attempts::Attempt;
use crate::retry::error::RetryError;
use crate::retry::hooks::Hooked;
#[cfg(feature = "tokio")]
use crate::retry::host::SystemSleep;
use crate::retry::host::{Host, Random};
use crate::retry::retrying::Retrying;
use crate::retry::yields::{yields, InARow};
use std::fmt;
use std::future::Future;
use std::time::Duration;

/// A way to wait without blocking: any function of a [`Duration`] that returns a future.
pub trait AsyncSleep {
    /// The future that is awaited.
    type Sleeping: Future<Output = ()>;

    /// A future that is ready after this wait, or later.
    fn sleep(&self, wait: Duration) -> Self::Sleeping;
}

#[cfg(feature = "tokio")]
impl AsyncSleep for SystemSleep {
    type Sleeping = ::tokio::time::Sleep;

    fn sleep(&self, wait: Duration) -> Self::Sleeping {
        ::tokio::time::sleep(wait)
    }
}

impl<F: Fn(Duration) -> S, S: Future<Output = ()>> AsyncSleep for F {
    type Sleeping = S;

    fn sleep(&self, wait: Duration) -> S {
        self(wait)
    }
}

/// A call whose runs are futures.
#[derive(Clone, Copy)]
pub struct Async<F>(pub(super) F);

impl<F> fmt::Debug for Async<F> {
    fn fmt(&self, f: &mut fmt::Formatter<'_>) -> fmt::Result {
        f.debug_struct("Async").finish_non_exhaustive()
    }
}

/// Runs the call until it succeeds, in an async function: `FnMut` and `AsyncFnMut` have no bound in common that keeps
/// such a future `Send`.
macro_rules! until_it_succeeds {
    ($retrying:ident, $attempt:ident => $call:expr) => {{
        let mut course = $retrying.course();
        let mut progress = $retrying.begin(&mut course)?;
        let mut $attempt = $retrying.first();
        let mut in_a_row = InARow::default();
        loop {
            let error = match course.run_of($call).await {
                Ok(value) => {
                    $retrying.succeeds(&mut progress, &mut course);
                    return Ok(value);
                }
                Err(error) => error,
            };
            let wait = match $retrying.fails(&mut progress, &course, &error) {
                Ok(wait) => wait,
                Err(ended) => return Err($retrying.gives_up(&progress, &mut course, ended, error)),
            };
            if !wait.is_zero() {
                $retrying.host.sleep.sleep(wait).await;
            } else if in_a_row.is_over() {
                yields().await;
            }
            $attempt = match $retrying.next(&mut progress, $attempt) {
                Ok(attempt) => attempt,
                Err(ended) => return Err($retrying.gives_up(&progress, &mut course, ended, error)),
            };
        }
    }};
}

/// [`retry`](crate::retry()) for futures: `call` makes one for each run, and between runs the task waits by tokio's
/// timer. `call` can be an async function, or an async closure that changes nothing which it captures. For one that
/// does, use `Retrying::call_async_mut`, with Rust 1.85 or later.
///
/// Dropping the future cancels the retry. It draws no more tickets, and those that it drew stay counted, except that a
/// quota gets back the ticket of a retry that was waiting to begin. A wait of zero does not touch the timer; after 64 of
/// these the task lets others run.
///
/// ```
/// use hikebox::{retry_async, Budget, Policy};
///
/// # tokio::runtime::Builder::new_current_thread().enable_time().build().unwrap().block_on(async {
/// let policy: Policy = r#"{"meet":[{"recurs":3},{"spaced":1}]}"#.parse()?;
/// let budget = Budget::new(100)?;
/// let mut calls = 0;
/// let value = retry_async(&policy, &budget, || {
///     calls += 1;
///     let calls = calls;
///     async move { if calls < 3 { Err("not yet") } else { Ok(calls) } }
/// })
/// .await;
/// assert_eq!(value.ok(), Some(3));
/// # Ok::<(), Box<dyn std::error::Error>>(())
/// # }).unwrap();
/// ```
///
/// # Errors
///
/// [`RetryError`] with the last error of the call.
#[cfg(feature = "tokio")]
pub async fn retry_async<T, E, F, B: Grants>(
    policy: &Policy,
    limit: &B,
    call: impl FnMut() -> F,
) -> Result<T, RetryError<E, B::Refusal>>
where
    F: Future<Output = Result<T, E>>,
{
    Retrying::new(policy, limit).call_async(call).await
}

/// [`retry_async`] for an async closure that changes what it captures: see [`Retrying::call_async_mut`].
///
/// # Errors
///
/// [`RetryError`] with the last error of the call.
#[cfg(all(feature = "tokio", hikebox_async_closures))]
pub async fn retry_async_mut<T, E, B: Grants>(
    policy: &Policy,
    limit: &B,
    call: impl AsyncFnMut() -> Result<T, E>,
) -> Result<T, RetryError<E, B::Refusal>> {
    Retrying::new(policy, limit).call_async_mut(call).await
}

/// The trait, over what a compiler takes for a call of futures.
macro_rules! retryable {
    ($call:ident: [$($makes:tt)*] [$($and:tt)*] [$($where:tt)*]) => {
        /// Calls of futures that can be retried: async functions and closures, and functions that return a future of a
        /// `Result`.
        ///
        /// ```
        /// use hikebox::{Budget, Policy, Retryable};
        ///
        /// async fn fetch() -> Result<String, std::io::Error> {
        ///     Ok("fetched".to_owned())
        /// }
        ///
        /// # #[cfg(feature = "tokio")]
        /// # tokio::runtime::Builder::new_current_thread().enable_time().build().unwrap().block_on(async {
        /// let policy: Policy = r#"{"meet":[{"recurs":3},{"spaced":1}]}"#.parse()?;
        /// let budget = Budget::new(10)?;
        /// let text = fetch.retry(&policy).limit(&budget).when(|error| error.raw_os_error().is_none()).run().await?;
        /// assert_eq!(text, "fetched");
        /// # Ok::<(), Box<dyn std::error::Error>>(())
        /// # }).unwrap();
        /// ```
        pub trait Retryable<T, E $($and)*>: Sized
        where
            Self: $($makes)*,
            $($where)*
        {
            /// Retries the call by the policy; on no limit, unless you add one by [`Retrying::limit`].
            fn retry(self, policy: &Policy) -> Retrying<'_, E, Async<Self>> {
                Retrying::of(policy, &Unlimited, Async(self))
            }
        }

        impl<T, E, $call $($and)*> Retryable<T, E $($and)*> for $call
        where
            $call: $($makes)*,
            $($where)*
        {
        }
    };
}

#[cfg(hikebox_async_closures)]
retryable!(F: [AsyncFnMut() -> Result<T, E>] [] []);

#[cfg(not(hikebox_async_closures))]
retryable!(F: [FnMut() -> P] [, P] [P: Future<Output = Result<T, E>>]);

impl<E, H: Hooked<E>, K: Clock, S: AsyncSleep, R: Random, L: MayRefuse> Retrying<'_, E, (), H, Host<K, S, R>, L> {
    /// [`Retrying::call`] for futures. Without the feature `tokio` it needs a [`Retrying::sleep`] of your runtime.
    ///
    /// # Errors
    ///
    /// [`RetryError`] with the last error of the call.
    pub async fn call_async<T, P>(&self, mut call: impl FnMut() -> P) -> Result<T, RetryError<E, L>>
    where
        P: Future<Output = Result<T, E>>,
    {
        self.call_async_with(|_| call()).await
    }

    /// [`Retrying::call_async`] for a call that takes the number of the run, and how long it has left until the
    /// [`Retrying::deadline`], which can serve as the run's timeout:
    ///
    /// ```
    /// # #[cfg(feature = "tokio")]
    /// # tokio::runtime::Builder::new_current_thread().enable_time().start_paused(true).build().unwrap().block_on(async {
    /// use hikebox::{Policy, RetryError, Retrying, Unlimited};
    /// use std::{future::pending, time::Duration};
    /// use tokio::time::{timeout, Instant};
    ///
    /// let (policy, began): (Policy, _) = (r#"{"spaced":100}"#.parse()?, Instant::now());
    /// let retrying = Retrying::new(&policy, &Unlimited).deadline(Duration::from_secs(2));
    /// let answer = retrying
    ///     .call_async_with(|attempt| async move {
    ///         let left = attempt.left().unwrap_or(Duration::MAX);
    ///         timeout(left.min(Duration::from_millis(1500)), pending::<()>()).await
    ///     })
    ///     .await;
    /// assert!(matches!(answer, Err(RetryError::Deadline(_))));
    /// // a run of 1500 ms, a wait of 100 and a run of 400
    /// assert_eq!(began.elapsed(), Duration::from_secs(2));
    /// # Ok::<(), hikebox::PolicyError>(())
    /// # }).unwrap();
    /// ```
    ///
    /// # Errors
    ///
    /// [`RetryError`] with the last error of the call.
    pub async fn call_async_with<T, P>(&self, mut call: impl FnMut(Attempt) -> P) -> Result<T, RetryError<E, L>>
    where
        P: Future<Output = Result<T, E>>,
    {
        until_it_succeeds!(self, attempt => call(attempt))
    }

    /// [`Retrying::call_async`] for an async closure that changes what it captures (Rust 1.85 or later). Its future is
    /// not `Send` if the closure borrows. For a task that is spawned, use [`Retrying::call_async`], or a closure that
    /// owns what it changes.
    ///
    /// ```
    /// # #[cfg(feature = "tokio")]
    /// # tokio::runtime::Builder::new_current_thread().enable_time().build().unwrap().block_on(async {
    /// use hikebox::{Policy, Retrying, Unlimited};
    ///
    /// let policy: Policy = r#"{"recurs":3}"#.parse()?;
    /// let mut log = Vec::new();
    /// let value = Retrying::new(&policy, &Unlimited)
    ///     .call_async_mut(async || {
    ///         log.push("called");
    ///         if log.len() < 3 { Err("not yet") } else { Ok(log.len()) }
    ///     })
    ///     .await;
    /// assert_eq!(value, Ok(3));
    /// # Ok::<(), hikebox::PolicyError>(())
    /// # }).unwrap();
    /// ```
    ///
    /// # Errors
    ///
    /// [`RetryError`] with the last error of the call.
    #[cfg(hikebox_async_closures)]
    pub async fn call_async_mut<T>(&self, mut call: impl AsyncFnMut() -> Result<T, E>) -> Result<T, RetryError<E, L>> {
        until_it_succeeds!(self, _attempt => call())
    }
}

impl<E, F, H: Hooked<E>, K: Clock, S: AsyncSleep, R: Random, L: MayRefuse>
    Retrying<'_, E, Async<F>, H, Host<K, S, R>, L>
{
    /// Runs the call until it succeeds. Between runs the task waits.
    ///
    /// # Errors
    ///
    /// [`RetryError`] with the last error of the call.
    pub async fn run<T, P>(self) -> Result<T, RetryError<E, L>>
    where
        F: FnMut() -> P,
        P: Future<Output = Result<T, E>>,
    {
        let (retrying, Async(call)) = self.parted();
        retrying.call_async(call).await
    }

    /// [`Retrying::run`] for an async closure that changes what it captures: see [`Retrying::call_async_mut`].
    ///
    /// # Errors
    ///
    /// [`RetryError`] with the last error of the call.
    #[cfg(hikebox_async_closures)]
    pub async fn run_mut<T>(self) -> Result<T, RetryError<E, L>>
    where
        F: AsyncFnMut() -> Result<T, E>,
    {
        let (retrying, Async(call)) = self.parted();
        retrying.call_async_mut(call).await
    }
}

/// You can `.await` a retry directly if everything in it is [`Send`]. The future takes memory of its own; that of
/// [`Retrying::run`] does not.
///
/// ```
/// use hikebox::{Budget, Policy, Retryable};
///
/// async fn fetch() -> Result<u32, std::io::Error> {
///     Ok(200)
/// }
///
/// # #[cfg(feature = "tokio")]
/// # tokio::runtime::Builder::new_current_thread().enable_time().build().unwrap().block_on(async {
/// let (policy, budget): (Policy, _) = (r#"{"recurs":3}"#.parse()?, Budget::new(10)?);
/// assert_eq!(fetch.retry(&policy).limit(&budget).await?, 200);
/// # Ok::<(), Box<dyn std::error::Error>>(())
/// # }).unwrap();
/// ```
#[cfg(hikebox_into_future)]
impl<'a, T, E, F, P, H, K, S, R, L> std::future::IntoFuture for Retrying<'a, E, Async<F>, H, Host<K, S, R>, L>
where
    T: Send + 'a,
    E: Send + 'a,
    F: FnMut() -> P + Send + 'a,
    P: Future<Output = Result<T, E>> + Send + 'a,
    H: Hooked<E> + Send + Sync + 'a,
    K: Clock + Send + Sync + 'a,
    S: AsyncSleep + Send + Sync + 'a,
    S::Sleeping: Send,
    R: Random + Send + Sync + 'a,
    L: MayRefuse,
{
    type Output = Result<T, RetryError<E, L>>;
    type IntoFuture = std::pin::Pin<Box<dyn Future<Output = Self::Output> + Send + 'a>>;

    fn into_future(self) -> Self::IntoFuture {
        Box::pin(self.run())
    }
}
