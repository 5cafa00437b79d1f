//! Retries of calls: their settings.

use crate::limits::grants::Grants;
use crate::limits::refused::Refused;
use crate::policy::Policy;
use crate::retry::hooks::{Hooked, Hooks, PlainHooks, SharedHooks};
use crate::retry::host::{Host, SystemHost};
use crate::retry::rules::{CowLimit, Rules};
use std::convert::Infallible;
use std::fmt;
use std::marker::PhantomData;
use std::time::{Duration, Instant};

/// How to retry: which errors, by which numbers the schedule tests them, how long an error asks to wait, how long the
/// call may take in all, what is called before each retry, and by which clock. Make one by [`Retrying::new`], or from a
/// call by [`BlockingRetryable`](crate::BlockingRetryable) or [`Retryable`](crate::Retryable), and call it as often as
/// you like.
///
/// ```
/// use hikebox::{Budget, Policy, RetryError, Retrying};
/// use std::io::{Error, ErrorKind};
///
/// let policy: Policy = r#"{"recurs":2}"#.parse()?;
/// let budget = Budget::new(10)?;
/// let retrying = Retrying::new(&policy, &budget)
///     .when(|error: &Error| error.kind() == ErrorKind::TimedOut)
///     .notify(|error, wait| eprintln!("{error}; again in {wait:?}"));
/// let value = retrying.call(|| Err::<(), _>(Error::from(ErrorKind::NotFound)));
/// assert!(matches!(value, Err(RetryError::NotRetried(error)) if error.kind() == ErrorKind::NotFound));
/// let value = retrying.call(|| Err::<(), _>(Error::from(ErrorKind::TimedOut)));
/// assert!(matches!(value, Err(RetryError::ScheduleDone(_))));
/// # Ok::<(), Box<dyn std::error::Error>>(())
/// ```
///
/// Calls take `&self`, so its closures are `Fn`: one that counts uses a `Cell` or an atomic. A clone has the same
/// settings and draws on the same limit; it is `Send` and `Sync` if its closures are. A call that succeeds at once
/// takes no memory and no lock, except on a limit that hears of each call: a [`Quota`](crate::Quota) counts it by a
/// pass that few threads share, and a [`CallLimit`](crate::CallLimit) lends it a handle.
///
/// It borrows its policy and its limit. To keep one, make it own them ([`Retrying::into_owned`]), and give it a type
/// that you can name ([`Retrying::shared`]):
///
/// ```
/// use hikebox::{Policy, Quota, Retrying, SharedRetrying};
/// use std::{io, time::Duration};
///
/// struct Client {
///     retrying: SharedRetrying<io::Error>,
/// }
///
/// impl Client {
///     fn new() -> Result<Self, Box<dyn std::error::Error>> {
///         let policy: Policy = r#"{"meet":[{"recurs":3},{"spaced":1}]}"#.parse()?;
///         let quota = Quota::new(10, 0.2, Duration::from_secs(10))?;
///         let retrying = Retrying::new(&policy, &quota).when(|error: &io::Error| error.raw_os_error().is_none());
///         Ok(Self { retrying: retrying.shared() })
///     }
///
///     fn fetch(&self) -> io::Result<String> {
///         Ok(self.retrying.call(|| Ok("fetched".to_owned())).map_err(hikebox::RetryError::into_last)?)
///     }
/// }
/// # assert_eq!(Client::new().unwrap().fetch().unwrap(), "fetched");
/// ```
#[must_use = "nothing is called before `call` or `run`"]
pub struct Retrying<'a, E, F = (), H = PlainHooks<E>, M = SystemHost, L = Infallible> {
    pub(super) rules: Rules<'a>,
    call: F,
    pub(super) hooks: H,
    pub(super) host: M,
    error: PhantomData<fn(&E) -> L>,
}

/// A [`Retrying`] to keep: it owns its policy and its limit, and its hooks have one type. On a
/// [`CallLimit`](crate::CallLimit) it is a `SharedRetrying<E, Refused>`. One whose runs are timed is a
/// `SharedRetrying<E, L, Timed>`.
pub type SharedRetrying<E, L = Infallible, T = ()> = Retrying<'static, E, (), SharedHooks<E>, SystemHost<T>, L>;

impl<'a, E> Retrying<'a, E> {
    /// Retries every error; each has the code 0.
    #[inline]
    pub fn new<B: Grants>(
        policy: &'a Policy,
        limit: &'a B,
    ) -> Retrying<'a, E, (), PlainHooks<E>, SystemHost, B::Refusal> {
        Retrying::of(policy, limit, ())
    }
}

impl<'a, E, F, L> Retrying<'a, E, F, PlainHooks<E>, SystemHost, L> {
    #[inline]
    pub(super) fn of(policy: &'a Policy, limit: &'a impl Grants<Refusal = L>, call: F) -> Self {
        Self { rules: Rules::new(policy, limit), call, hooks: Hooks::plain(), host: Host::system(), error: PhantomData }
    }
}

impl<'a, E, F, H, M, L> Retrying<'a, E, F, H, M, L> {
    /// The limit on which each retry draws a ticket.
    pub fn limit<B: Grants>(self, limit: &'a B) -> Retrying<'a, E, F, H, M, B::Refusal> {
        Retrying {
            rules: Rules { limit: CowLimit::Borrowed(limit), ..self.rules },
            call: self.call,
            hooks: self.hooks,
            host: self.host,
            error: PhantomData,
        }
    }

    /// The longest wait that an error can ask for by [`Retrying::retry_after`]: six hours by default.
    pub fn max_retry_after(mut self, longest: Duration) -> Self {
        self.rules.options.max_retry_after = longest;
        self
    }

    /// The name by which the call is told, with the features `tracing` and `prometheus`. Without one it is `a call`.
    #[cfg(any(feature = "prometheus", feature = "tracing"))]
    pub fn named(mut self, call: &'static str) -> Self {
        self.rules.options.call = call;
        self
    }

    /// No run but the first begins later than this (in whole milliseconds) after the start of the first. If the policy
    /// or an error would have the next run begin later, the retry ends as [`RetryError::Deadline`] and draws no ticket.
    /// It also ends so if a wait took longer than it should; a quota then has the ticket back. A run that is under way
    /// is not stopped: [`Retrying::call_with`] tells it how long it has left.
    ///
    /// [`RetryError::Deadline`]: crate::RetryError::Deadline
    ///
    /// ```
    /// use hikebox::{Policy, RetryError, Retrying, Unlimited};
    /// use std::time::Duration;
    ///
    /// let policy: Policy = r#"{"spaced":20}"#.parse()?;
    /// let mut runs = 0;
    /// let value = Retrying::new(&policy, &Unlimited).deadline(Duration::from_millis(50)).call(|| {
    ///     runs += 1;
    ///     Err::<(), _>("busy")
    /// });
    /// assert_eq!(value, Err(RetryError::Deadline("busy")));
    /// assert!(runs <= 3); // at 0, 20 and 40 ms
    /// # Ok::<(), hikebox::PolicyError>(())
    /// ```
    pub fn deadline(mut self, deadline: Duration) -> Self {
        self.rules.options.deadline = Some(deadline);
        self
    }

    /// Makes it own its policy and its limit, for a field of a type or for a spawned task.
    ///
    /// ```
    /// # #[cfg(feature = "tokio")]
    /// # tokio::runtime::Builder::new_current_thread().enable_time().build().unwrap().block_on(async {
    /// use hikebox::{Budget, Policy, Retryable};
    ///
    /// async fn fetch() -> Result<u32, std::io::Error> {
    ///     Ok(200)
    /// }
    ///
    /// let call = {
    ///     let (policy, budget): (Policy, _) = (r#"{"recurs":3}"#.parse()?, Budget::new(10)?);
    ///     fetch.retry(&policy).limit(&budget).into_owned().run()
    /// };
    /// assert_eq!(tokio::spawn(call).await??, 200);
    /// # Ok::<(), Box<dyn std::error::Error>>(())
    /// # }).unwrap();
    /// ```
    pub fn into_owned(self) -> Retrying<'static, E, F, H, M, L> {
        Retrying {
            rules: self.rules.into_owned(),
            call: self.call,
            hooks: self.hooks,
            host: self.host,
            error: PhantomData,
        }
    }

    /// Makes it own its policy and its limit, and puts its hooks behind one pointer, so that you can name its type:
    /// [`SharedRetrying`]. Hooks cannot be changed after that.
    pub fn shared(self) -> Retrying<'static, E, F, SharedHooks<E>, M, L>
    where
        H: Hooked<E> + Send + Sync + 'static,
    {
        self.into_owned().with(SharedHooks::new, |host| host)
    }

    pub(super) fn with<I, O>(
        self,
        hooks: impl FnOnce(H) -> I,
        host: impl FnOnce(M) -> O,
    ) -> Retrying<'a, E, F, I, O, L> {
        Retrying {
            rules: self.rules,
            call: self.call,
            hooks: hooks(self.hooks),
            host: host(self.host),
            error: PhantomData,
        }
    }

    /// The settings, and the call.
    pub(super) fn parted(self) -> (Retrying<'a, E, (), H, M, L>, F) {
        let Self { rules, call, hooks, host, error } = self;
        (Retrying { rules, call: (), hooks, host, error }, call)
    }
}

impl<E, F, H, M> Retrying<'_, E, F, H, M, Refused> {
    /// How long a run may take: to the [`CallLimit`](crate::CallLimit) a success that took longer is a failure. The call
    /// answers it all the same.
    ///
    /// ```
    /// use hikebox::{Breaker, CallLimit, LimitState, Policy, Retrying};
    /// use std::{thread::sleep, time::Duration};
    ///
    /// let policy: Policy = r#"{"recurs":3}"#.parse()?;
    /// let breaker = CallLimit::new(Breaker::consecutive(2, r#"{"spaced":30000}"#.parse()?))?;
    /// let retrying = Retrying::new(&policy, &breaker).slow(Duration::from_millis(1));
    /// let answer = retrying.call(|| Ok::<_, String>(sleep(Duration::from_millis(2))));
    /// assert_eq!(answer, Ok(()));
    /// assert_eq!(breaker.seen(), [LimitState::Closed { failures: 1 }]);
    /// # Ok::<(), Box<dyn std::error::Error>>(())
    /// ```
    pub fn slow(mut self, time: Duration) -> Self {
        self.rules.options.slow = Some(time);
        self
    }
}

impl<'a, E, F, W, C, A, N, M, L> Retrying<'a, E, F, Hooks<W, C, A, N>, M, L> {
    /// Retries only the errors for which this returns true. Any other ends the retry as [`RetryError::NotRetried`].
    ///
    /// [`RetryError::NotRetried`]: crate::RetryError::NotRetried
    pub fn when<X: Fn(&E) -> bool>(self, when: X) -> Retrying<'a, E, F, Hooks<X, C, A, N>, M, L> {
        self.with(|Hooks { code, retry_after, notify, .. }| Hooks { when, code, retry_after, notify }, |host| host)
    }

    /// The number of an error, up to 2^62 - 1, which the schedule can test: its input.
    pub fn code<X: Fn(&E) -> u64>(self, code: X) -> Retrying<'a, E, F, Hooks<W, X, A, N>, M, L> {
        self.with(|Hooks { when, retry_after, notify, .. }| Hooks { when, code, retry_after, notify }, |host| host)
    }

    /// How long an error asks to wait, as HTTP's `Retry-After` does. If the schedule would wait for less, the retry
    /// waits that long, up to [`Retrying::max_retry_after`].
    pub fn retry_after<X: Fn(&E) -> Option<Duration>>(
        self,
        retry_after: X,
    ) -> Retrying<'a, E, F, Hooks<W, C, X, N>, M, L> {
        self.with(|Hooks { when, code, notify, .. }| Hooks { when, code, retry_after, notify }, |host| host)
    }

    /// Called before each retry with the error and the wait.
    pub fn notify<X: Fn(&E, Duration)>(mut self, notify: X) -> Retrying<'a, E, F, Hooks<W, C, A, X>, M, L> {
        self.rules.options.notifies = true;
        self.with(|Hooks { when, code, retry_after, .. }| Hooks { when, code, retry_after, notify }, |host| host)
    }
}

impl<'a, E, F, H, K, S, R, T, L> Retrying<'a, E, F, H, Host<K, S, R, T>, L> {
    /// The clock to use instead of the system's.
    pub fn clock<X: Fn() -> Instant>(self, clock: X) -> Retrying<'a, E, F, H, Host<X, S, R, T>, L> {
        self.with(|hooks| hooks, |host| host.with_clock(clock))
    }

    /// How to wait: a function that blocks for that long, or for futures one that returns a future of any runtime, such
    /// as `async_std::task::sleep`. It is not called for a wait of zero. After a wait the retry goes on even if the
    /// clock did not move.
    pub fn sleep<X>(self, sleep: X) -> Retrying<'a, E, F, H, Host<K, X, R, T>, L> {
        self.with(|hooks| hooks, |host| host.with_sleep(sleep))
    }

    /// The random words to use instead of the system's: four for each failure, if the policy has a jitter. It
    /// takes the one of its lane.
    pub fn random<X: Fn() -> [u32; 4]>(self, random: X) -> Retrying<'a, E, F, H, Host<K, S, X, T>, L> {
        self.with(|hooks| hooks, |host| host.with_random(random))
    }
}

impl<E, F: Clone, H: Clone, M: Clone, L> Clone for Retrying<'_, E, F, H, M, L> {
    fn clone(&self) -> Self {
        Self {
            rules: self.rules.clone(),
            call: self.call.clone(),
            hooks: self.hooks.clone(),
            host: self.host.clone(),
            error: PhantomData,
        }
    }
}

impl<E, F, H, M, L> fmt::Debug for Retrying<'_, E, F, H, M, L> {
    fn fmt(&self, f: &mut fmt::Formatter<'_>) -> fmt::Result {
        f.debug_struct("Retrying")
            .field("policy", &self.rules.policy)
            .field("limit", &self.rules.limit)
            .field("max_retry_after", &self.rules.options.max_retry_after)
            .field("deadline", &self.rules.options.deadline)
            .finish_non_exhaustive()
    }
}
