//! Repeats of calls that succeed, and polls until an answer is there.

use crate::clock::Clock;
use crate::limits::grants::Unlimited;
use crate::policy::{Policy, PolicyError};
use crate::retry::asynchronous::AsyncSleep;
use crate::retry::host::{Host, Random, Sleep, SystemHost};
use crate::retry::machine::Ending;
use crate::retry::progress::{Lost, Progress};
use crate::retry::rules::{CowLimit, Rules};
use crate::retry::yields::{yields, InARow};
use std::error::Error;
use std::fmt;
use std::future::Future;
use std::marker::PhantomData;
use std::time::{Duration, Instant};

/// Why a repeat or a poll returned no value.
#[derive(Clone, Debug, PartialEq, Eq, Hash)]
#[non_exhaustive]
pub enum RepeatError<T, E> {
    /// A run failed. A repeat does not retry.
    Failed(E),
    /// The schedule was done before a value was accepted; this is the last one.
    ScheduleDone(T),
    /// The next run would have begun past the deadline; this is the last value.
    Deadline(T),
    /// The schedule could not go on.
    Broken(PolicyError),
}

/// Runs the call once, and again after each success as the policy says: `recurs(2)` makes three runs. Returns the last
/// value. A repeat needs no budget.
///
/// ```
/// use hikebox::{repeat, Policy};
///
/// let policy: Policy = r#"{"meet":[{"recurs":2},{"spaced":1}]}"#.parse()?;
/// let mut runs = 0;
/// let last = repeat(&policy, || {
///     runs += 1;
///     Ok::<_, std::io::Error>(runs)
/// })?;
/// assert_eq!(last, 3);
/// # Ok::<(), Box<dyn std::error::Error>>(())
/// ```
///
/// # Errors
///
/// [`RepeatError::Failed`] with the first error.
pub fn repeat<T, E>(policy: &Policy, call: impl FnMut() -> Result<T, E>) -> Result<T, RepeatError<T, E>> {
    Repeating::new(policy).call(call)
}

/// Runs the call until `wanted` returns true for its value, again as the policy says.
///
/// ```
/// use hikebox::{poll_until, Policy};
///
/// let policy: Policy = r#"{"meet":[{"recurs":20},{"spaced":1}]}"#.parse()?;
/// let mut statuses = [202, 202, 200].into_iter();
/// let status = poll_until(&policy, |status| *status != 202, || statuses.next().ok_or("no answer"))?;
/// assert_eq!(status, 200);
/// # Ok::<(), Box<dyn std::error::Error>>(())
/// ```
///
/// # Errors
///
/// [`RepeatError::Failed`] with the first error, and [`RepeatError::ScheduleDone`] with the last value.
pub fn poll_until<T, E>(
    policy: &Policy,
    wanted: impl FnMut(&T) -> bool,
    call: impl FnMut() -> Result<T, E>,
) -> Result<T, RepeatError<T, E>> {
    Repeating::new(policy).until(wanted, call)
}

/// [`repeat`] for futures, by tokio's timer.
///
/// # Errors
///
/// [`RepeatError::Failed`] with the first error.
#[cfg(feature = "tokio")]
pub async fn repeat_async<T, E, F>(policy: &Policy, call: impl FnMut() -> F) -> Result<T, RepeatError<T, E>>
where
    F: Future<Output = Result<T, E>>,
{
    Repeating::new(policy).call_async(call).await
}

/// [`poll_until`] for futures, by tokio's timer.
///
/// # Errors
///
/// [`RepeatError::Failed`] with the first error, and [`RepeatError::ScheduleDone`] with the last value.
#[cfg(feature = "tokio")]
pub async fn poll_until_async<T, E, F>(
    policy: &Policy,
    wanted: impl FnMut(&T) -> bool,
    call: impl FnMut() -> F,
) -> Result<T, RepeatError<T, E>>
where
    F: Future<Output = Result<T, E>>,
{
    Repeating::new(policy).until_async(wanted, call).await
}

/// How to repeat or to poll: the numbers that the schedule tests, how long it may take in all, and by which clock.
/// [`repeat`] and [`poll_until`] use the defaults.
///
/// ```
/// use hikebox::{Policy, Repeating, Schedule, Test};
/// use std::{cell::Cell, time::Duration};
///
/// // each second while the status is 202, and at most a minute
/// let schedule = Schedule::spaced(Duration::from_secs(1)).while_input(Test::Equal(202));
/// let policy = Policy::new(&schedule)?;
/// let mut statuses = [202, 202, 200].into_iter();
/// let slept = Cell::new(Duration::ZERO);
/// let status = Repeating::new(&policy)
///     .code(|status| *status)
///     .deadline(Duration::from_secs(60))
///     .sleep(|wait| slept.set(slept.get() + wait))
///     .call(|| statuses.next().ok_or("no answer"))?;
/// assert_eq!(status, 200);
/// assert_eq!(slept.get(), Duration::from_secs(2));
/// # Ok::<(), Box<dyn std::error::Error>>(())
/// ```
#[must_use = "nothing is called before `call` or `until`"]
pub struct Repeating<'a, T, C = fn(&T) -> u64, M = SystemHost> {
    rules: Rules<'a>,
    code: C,
    host: M,
    value: PhantomData<fn(&T)>,
}

impl<'a, T> Repeating<'a, T> {
    /// Each value has the code 0.
    pub fn new(policy: &'a Policy) -> Self {
        Self { rules: Rules::new(policy, &Unlimited), code: |_| 0, host: Host::system(), value: PhantomData }
    }
}

impl<'a, T, C, M> Repeating<'a, T, C, M> {
    /// No run but the first begins later than this (in whole milliseconds) after the start of the first, even if a wait
    /// took longer than it should.
    pub fn deadline(mut self, deadline: Duration) -> Self {
        self.rules.options.deadline = Some(deadline);
        self
    }

    /// The number of a value, up to 2^62 - 1, which the schedule can test: its input.
    pub fn code<X: Fn(&T) -> u64>(self, code: X) -> Repeating<'a, T, X, M> {
        let Self { rules, host, value, .. } = self;
        Repeating { rules, code, host, value }
    }

    /// Makes it own its policy, for a field of a type or for a spawned task.
    pub fn into_owned(self) -> Repeating<'static, T, C, M> {
        let Self { rules, code, host, value } = self;
        Repeating { rules: rules.into_owned(), code, host, value }
    }

    fn with<O>(self, host: impl FnOnce(M) -> O) -> Repeating<'a, T, C, O> {
        Repeating { rules: self.rules, code: self.code, host: host(self.host), value: PhantomData }
    }
}

impl<'a, T, C, K, S, R> Repeating<'a, T, C, Host<K, S, R>> {
    /// The clock to use instead of the system's.
    pub fn clock<X: Fn() -> Instant>(self, clock: X) -> Repeating<'a, T, C, Host<X, S, R>> {
        self.with(|host| host.with_clock(clock))
    }

    /// How to wait, as by [`Retrying::sleep`](crate::Retrying::sleep): a function that blocks, or one that returns a
    /// future of any runtime.
    pub fn sleep<X>(self, sleep: X) -> Repeating<'a, T, C, Host<K, X, R>> {
        self.with(|host| host.with_sleep(sleep))
    }

    /// The random words to use instead of the system's: four for each value, if the policy has a jitter. It
    /// takes the one of its lane.
    pub fn random<X: Fn() -> [u32; 4]>(self, random: X) -> Repeating<'a, T, C, Host<K, S, X>> {
        self.with(|host| host.with_random(random))
    }
}

impl<T, C: Fn(&T) -> u64, K: Clock, S: Sleep, R: Random> Repeating<'_, T, C, Host<K, S, R>> {
    /// Runs the call again after each success, and returns the last value. Between runs the thread sleeps.
    ///
    /// # Errors
    ///
    /// [`RepeatError::Failed`] with the first error.
    pub fn call<E>(&self, call: impl FnMut() -> Result<T, E>) -> Result<T, RepeatError<T, E>> {
        last(self.until(|_| false, call))
    }

    /// Runs the call until `wanted` returns true for its value. Between runs the thread sleeps.
    ///
    /// # Errors
    ///
    /// [`RepeatError::Failed`] with the first error; [`RepeatError::ScheduleDone`] and [`RepeatError::Deadline`] with
    /// the last value.
    pub fn until<E>(
        &self,
        mut wanted: impl FnMut(&T) -> bool,
        mut call: impl FnMut() -> Result<T, E>,
    ) -> Result<T, RepeatError<T, E>> {
        let mut progress = self.begin();
        loop {
            let value = call().map_err(RepeatError::Failed)?;
            if wanted(&value) {
                return Ok(value);
            }
            let (wait, value) = self.after(&mut progress, value)?;
            if !wait.is_zero() {
                self.host.sleep.sleep(wait);
            }
            self.resume(&mut progress, value)?;
        }
    }
}

impl<T, C: Fn(&T) -> u64, K: Clock, S: AsyncSleep, R: Random> Repeating<'_, T, C, Host<K, S, R>> {
    /// [`Repeating::call`] for futures. Without the feature `tokio` it needs a [`Repeating::sleep`] of your runtime.
    ///
    /// # Errors
    ///
    /// [`RepeatError::Failed`] with the first error.
    pub async fn call_async<E, F>(&self, call: impl FnMut() -> F) -> Result<T, RepeatError<T, E>>
    where
        F: Future<Output = Result<T, E>>,
    {
        last(self.until_async(|_| false, call).await)
    }

    /// [`Repeating::until`] for futures.
    ///
    /// # Errors
    ///
    /// [`RepeatError::Failed`] with the first error; [`RepeatError::ScheduleDone`] and [`RepeatError::Deadline`] with
    /// the last value.
    pub async fn until_async<E, F>(
        &self,
        mut wanted: impl FnMut(&T) -> bool,
        mut call: impl FnMut() -> F,
    ) -> Result<T, RepeatError<T, E>>
    where
        F: Future<Output = Result<T, E>>,
    {
        let mut progress = self.begin();
        let mut in_a_row = InARow::default();
        loop {
            let value = call().await.map_err(RepeatError::Failed)?;
            if wanted(&value) {
                return Ok(value);
            }
            let (wait, value) = self.after(&mut progress, value)?;
            if !wait.is_zero() {
                self.host.sleep.sleep(wait).await;
            } else if in_a_row.is_over() {
                yields().await;
            }
            self.resume(&mut progress, value)?;
        }
    }
}

impl<T, C: Fn(&T) -> u64, K: Clock, S, R: Random> Repeating<'_, T, C, Host<K, S, R>> {
    fn begin(&self) -> Progress<'_> {
        let limit = self.rules.limit();
        let began = self.rules.options.counted(limit, || self.host.clock.moment());
        Progress::new(CowLimit::Borrowed(limit), began, ())
    }

    /// How long it is waited after a run that gave this value now. To the engine each run whose value is not wanted is
    /// one that failed, on nothing that could refuse a retry.
    fn after<E>(&self, progress: &mut Progress<'_>, value: T) -> Result<(Duration, T), RepeatError<T, E>> {
        let (now, code) = (self.host.clock.moment(), (self.code)(&value));
        let words = self.rules.policy.words(|| self.host.random.draw());
        match progress.lost(&self.rules, now, &mut Lost::new(code, words, None)) {
            Ok(wait) => Ok((wait, value)),
            Err(ended) => Err(RepeatError::of(ended, value)),
        }
    }

    /// Begins the next run, which was waited for after this value.
    fn resume<E>(&self, progress: &mut Progress<'_>, value: T) -> Result<(), RepeatError<T, E>> {
        let resumed = progress.resume(&self.rules.options, || self.host.clock.moment());
        resumed.map(|_| ()).map_err(|ended| RepeatError::of(ended, value))
    }
}

impl<T, E> RepeatError<T, E> {
    /// That of a repetition which ended so, with this value.
    fn of(ended: Ending, value: T) -> Self {
        match ended {
            Ending::Broken(_) => Self::Broken(PolicyError::no_memory()),
            Ending::Deadline => Self::Deadline(value),
            _ => Self::ScheduleDone(value),
        }
    }
}

/// The last value of a repetition, which ends with its schedule, or by its deadline.
fn last<T, E>(ended: Result<T, RepeatError<T, E>>) -> Result<T, RepeatError<T, E>> {
    match ended {
        Err(RepeatError::ScheduleDone(value) | RepeatError::Deadline(value)) => Ok(value),
        ended => ended,
    }
}

impl<T, C, M> fmt::Debug for Repeating<'_, T, C, M> {
    fn fmt(&self, f: &mut fmt::Formatter<'_>) -> fmt::Result {
        f.debug_struct("Repeating")
            .field("policy", &self.rules.policy)
            .field("deadline", &self.rules.options.deadline)
            .finish_non_exhaustive()
    }
}

impl<T, E: fmt::Display> fmt::Display for RepeatError<T, E> {
    fn fmt(&self, f: &mut fmt::Formatter<'_>) -> fmt::Result {
        match self {
            Self::Failed(error) => write!(f, "{error:#}"),
            Self::ScheduleDone(_) => f.write_str("the schedule was done before the answer was there"),
            Self::Deadline(_) => f.write_str("the deadline came before the answer was there"),
            Self::Broken(error) => write!(f, "the repeat could not go on: {error}"),
        }
    }
}

impl<T: fmt::Debug, E: fmt::Debug + fmt::Display> Error for RepeatError<T, E> {}
