//! What retries draw on.

use crate::clock::Moment;
use crate::engine::Status;
#[cfg(feature = "leased")]
use crate::leased::{Leased, LeasedQuota};
use crate::limits::budget::Budget;
use crate::limits::call_limit::{Admitted, CallLimit};
use crate::limits::holding::{Holding, Quiet};
use crate::limits::lender::{Begun, Lender};
use crate::limits::per_key::{Counted, Keyed};
use crate::limits::quota::Quota;
use crate::limits::refused::Refused;
use crate::limits::ticket::{NoTicket, Ticket};
use crate::policy::Policy;
use std::convert::Infallible;
use std::fmt;
use std::sync::Arc;

/// What retries can draw their tickets on: a [`Budget`], a [`Quota`], a [`CallLimit`], an `Arc` of your own store of
/// [`Tickets`], or [`Unlimited`] for no limit; with the feature `leased` also `Leased` and `LeasedQuota`. Everything
/// that retries takes any of them. A [`Machine`](crate::Machine) asks nobody before the first run, so it takes those that
/// never refuse it: all but a [`CallLimit`].
///
/// ```
/// use hikebox::{retry, Bucket, Budget, CallLimit, Grants, Policy, Quota, Unlimited};
/// use std::time::Duration;
///
/// fn runs(limit: &impl Grants) -> Result<u32, hikebox::PolicyError> {
///     let policy: Policy = r#"{"recurs":5}"#.parse()?;
///     let mut runs = 0;
///     let _ = retry(&policy, limit, || { runs += 1; Err::<(), _>("busy") });
///     Ok(runs)
/// }
///
/// assert_eq!(runs(&Budget::new(2)?)?, 3);
/// assert_eq!(runs(&Quota::new(1, 2.0, Duration::from_secs(60))?)?, 4); // one, and two for the one request
/// assert_eq!(runs(&CallLimit::new(Bucket::grpc(6, 0.1)?)?)?, 3); // the third failure leaves half of the tokens
/// assert_eq!(runs(&Unlimited)?, 6);
/// # Ok::<(), Box<dyn std::error::Error>>(())
/// ```
///
/// The trait is sealed. A store of your own implements [`Tickets`].
pub trait Grants: Limit {
    /// What tells that the first run was refused: [`Refused`] of a [`CallLimit`], and [`Infallible`] of all others,
    /// which never refuse it.
    type Refusal: MayRefuse;
}

/// Whether a limit may refuse the first run of a call: [`Refused`] if it may, and [`Infallible`] if it never does. The
/// trait is sealed.
pub trait MayRefuse: Admission {}

impl MayRefuse for Infallible {}
impl MayRefuse for Refused {}

impl Grants for CallLimit {
    type Refusal = Refused;
}

impl<S: Tickets + 'static> Grants for Arc<S> {
    type Refusal = Infallible;
}

/// For a store that is chosen when the program runs.
impl Grants for Arc<dyn Tickets> {
    type Refusal = Infallible;
}

impl Grants for Unlimited {
    type Refusal = Infallible;
}

impl Grants for AnyLimit {
    type Refusal = Infallible;
}

/// The limits that never refuse the first run, of which an [`AnyLimit`] may be any.
macro_rules! any_limit {
    ($($(#[$gate:meta])? $kind:ident),+) => {$(
        $(#[$gate])?
        impl Grants for $kind {
            type Refusal = Infallible;
        }

        $(#[$gate])?
        impl Keyed for $kind {}

        $(#[$gate])?
        impl From<$kind> for AnyLimit {
            fn from(limit: $kind) -> Self {
                Self::$kind(limit)
            }
        }
    )+};
}

any_limit!(
    Budget,
    Quota,
    #[cfg(feature = "leased")]
    Leased,
    #[cfg(feature = "leased")]
    LeasedQuota
);

/// Any of these limits but a [`CallLimit`], for one that is chosen when the program runs.
///
/// ```
/// use hikebox::{retry, AnyLimit, Budget, Policy, Quota, RetryError};
/// use std::time::Duration;
///
/// fn configured(kind: &str) -> Result<AnyLimit, hikebox::LimitError> {
///     Ok(match kind {
///         "batch" => Budget::new(0)?.into(),
///         "service" => Quota::new(1, 0.0, Duration::from_secs(60))?.into(),
///         _ => AnyLimit::Unlimited,
///     })
/// }
///
/// let policy: Policy = r#"{"recurs":2}"#.parse()?;
/// for (kind, runs) in [("batch", 1), ("service", 2), ("none", 3)] {
///     let mut ran = 0;
///     let _: Result<(), RetryError<()>> = retry(&policy, &configured(kind)?, || { ran += 1; Err(()) });
///     assert_eq!(ran, runs);
/// }
/// # Ok::<(), Box<dyn std::error::Error>>(())
/// ```
#[derive(Clone, Debug, Default)]
#[non_exhaustive]
pub enum AnyLimit {
    /// No limit.
    #[default]
    Unlimited,
    /// A budget.
    Budget(Budget),
    /// A quota.
    Quota(Quota),
    /// A budget that all processes of a machine share.
    #[cfg(feature = "leased")]
    Leased(Leased),
    /// A quota that all processes of a machine share.
    #[cfg(feature = "leased")]
    LeasedQuota(LeasedQuota),
}

/// No limit: every retry that the schedule allows is granted.
#[derive(Clone, Copy, Debug, Default, PartialEq, Eq, Hash)]
pub struct Unlimited;

/// A store of tickets outside the engine, such as a table of a database. (With the feature `leased`, `Leased` and
/// `LeasedQuota` are stores in a folder.) Pass an `Arc` of it, or an `Arc<dyn Tickets>`, to whatever retries:
///
/// ```
/// use hikebox::{retry, NoTicket, Policy, RetryError, Ticket, Tickets};
/// use std::sync::atomic::{AtomicU64, Ordering};
/// use std::sync::Arc;
///
/// struct Counter(AtomicU64);
///
/// impl Tickets for Counter {
///     fn draw(&self) -> Result<Ticket, NoTicket> {
///         match self.0.fetch_add(1, Ordering::Relaxed) {
///             number @ 0..=1 => Ok(Ticket::new(number)),
///             _ => Err(NoTicket::used_up()),
///         }
///     }
/// }
///
/// let policy: Policy = r#"{"recurs":5}"#.parse()?;
/// let store = Arc::new(Counter(AtomicU64::new(0)));
/// let mut runs = 0;
/// let answer = retry(&policy, &store, || { runs += 1; Err::<(), _>("busy") });
/// assert_eq!(answer, Err(RetryError::LimitRefused("busy")));
/// assert_eq!(runs, 3);
/// # Ok::<(), hikebox::PolicyError>(())
/// ```
///
/// The store itself has to see that it gives out no more tickets than it should. A retry of a future draws on the
/// thread that polls it, so that thread waits for whatever the draw waits for, such as a disk.
pub trait Tickets: Send + Sync {
    /// Counts a request, before its first run. By default nothing is counted.
    fn deposit(&self) {}

    /// Draws a ticket for one retry.
    ///
    /// # Errors
    ///
    /// [`NoTicket::UsedUp`] if there is none: the retry ends as
    /// [`RetryError::LimitRefused`](crate::RetryError::LimitRefused). [`NoTicket::failed`] if the store cannot know:
    /// the retry ends as [`RetryError::StoreFailed`](crate::RetryError::StoreFailed).
    fn draw(&self) -> Result<Ticket, NoTicket>;

    /// Takes a ticket back, because its retry was cancelled, dropped, or past its deadline before its run began. By
    /// default the ticket stays drawn.
    fn hand_back(&self, _ticket: Ticket) {}

    /// Learns that a call succeeded, with the ticket of its last retry if it was retried; the store can take that back.
    /// By default nothing happens.
    fn succeeded(&self, _last: Option<Ticket>) {}
}

mod sealed {
    use super::{
        Admitted, Arc, Begun, CallLimit, Counted, Holding, Infallible, Lender, Moment, Policy, Quiet, Refused,
    };
    use super::{Source, Status, Ticket, Tickets};
    use std::error::Error;

    /// What a retry draws on, and by which clock.
    pub trait Limit: Counted + Send + Sync + 'static {
        /// What a retry that has begun holds of it.
        fn source(&self) -> Source;

        /// The limit that is asked before the first run, if it is one.
        fn call_limit(&self) -> Option<&CallLimit> {
            None
        }

        /// The store that is asked for each retry, if it is one.
        #[inline]
        fn store(&self) -> Option<&dyn Tickets> {
            None
        }

        /// A request is made, which a store counts. Whether it is counted at its moment, as by a quota.
        #[inline]
        fn count_request(&self) -> bool {
            if let Some(store) = self.store() {
                store.deposit();
            }
            false
        }

        /// A request is made at this moment.
        fn count_request_at(&self, _now: Moment) {}

        /// Whether it is told of successes.
        #[inline]
        fn hears_of_successes(&self) -> bool {
            self.store().is_some()
        }

        /// A request has succeeded, of a store with the ticket of its last retry: one that counts successes counts it.
        fn count_success(&self, last: Option<Ticket>, _clock: &dyn Fn() -> Moment) {
            if let Some(store) = self.store() {
                store.succeeded(last);
            }
        }

        /// Moment 0 of a retry that began then, in milliseconds: of a quota it is the one on the quota's clock.
        fn origin(&self, _began: Moment) -> u64 {
            0
        }

        /// A retry by this policy is put here, where none is, with a deadline or `NO_DEADLINE`.
        fn begin(&self, policy: &Policy, deadline: u64, retry: &mut Begun) -> Result<(), Status> {
            Lender::begin_on_nothing(policy, deadline, retry)
        }

        /// Takes back what a retry has, which is over or dropped, and was granted so many tickets: whether it waits for a
        /// run that never began, or has succeeded.
        fn end(&self, retry: &mut Begun, _granted: u64, _waits: bool, _won: bool) {
            Lender::end_on_nothing(retry);
        }
    }

    /// How a limit is asked before the first run, where it may refuse that.
    pub trait Admission: Error + Sized + Send + Sync + 'static {
        /// What a call that is admitted holds.
        type Held: Held;

        /// Whether it holds anything.
        const HOLDS: bool;

        /// Asks, where the limit is one that is asked; what the call then holds is put here.
        fn admit(limit: &dyn Limit, held: &mut Self::Held) -> Result<(), Self>;

        /// Why it refused, by the name that is told.
        fn why(&self) -> &'static str;
    }

    /// What a call holds from its first run on.
    pub trait Held: Default {
        /// Tells that its first run succeeded, and answers whether there is a limit that hears it.
        fn succeeded(&mut self, limit: &(impl Limit + ?Sized)) -> bool;

        /// Tells this limit, or the one that was asked, that the first run succeeded.
        #[inline]
        fn succeeded_at_once(&mut self, limit: &(impl Limit + ?Sized), clock: &dyn Fn() -> Moment) {
            if !self.succeeded(limit) && limit.hears_of_successes() {
                limit.count_success(None, clock);
            }
        }

        /// What a look admitted, or the request, for a retry to draw by.
        fn parted(self) -> (Option<Quiet>, Option<Arc<Admitted>>);
    }

    impl Admission for Infallible {
        type Held = ();

        const HOLDS: bool = false;

        #[inline]
        fn admit(_: &dyn Limit, _: &mut ()) -> Result<(), Self> {
            Ok(())
        }

        fn why(&self) -> &'static str {
            match *self {}
        }
    }

    impl Held for () {
        #[inline]
        fn succeeded(&mut self, _limit: &(impl Limit + ?Sized)) -> bool {
            false
        }

        #[inline]
        fn parted(self) -> (Option<Quiet>, Option<Arc<Admitted>>) {
            (None, None)
        }
    }

    impl Admission for Refused {
        type Held = Holding;

        const HOLDS: bool = true;

        #[inline]
        fn admit(limit: &dyn Limit, held: &mut Holding) -> Result<(), Self> {
            match limit.call_limit() {
                Some(limit) => held.ask(limit),
                None => Ok(()),
            }
        }

        fn why(&self) -> &'static str {
            self.reason().told()
        }
    }
}

pub(crate) use sealed::{Admission, Held, Limit};

/// What a retry that has begun holds of what it draws on.
#[derive(Clone)]
pub enum Source {
    Budget(Budget),
    Quota(Quota),
    /// Each request of it draws by a store of its own, once it is admitted.
    CallLimit(CallLimit),
    Store(Arc<dyn Tickets>),
    Unlimited,
}

impl Source {
    /// The limit, behind a pointer that several have.
    pub(crate) fn shared(self) -> Arc<dyn Limit> {
        match self {
            Self::Budget(budget) => Arc::new(budget),
            Self::Quota(quota) => Arc::new(quota),
            Self::CallLimit(limit) => Arc::new(limit),
            Self::Store(store) => Arc::new(store),
            Self::Unlimited => Arc::new(Unlimited),
        }
    }

    pub(crate) fn get(&self) -> &dyn Limit {
        match self {
            Self::Budget(budget) => budget,
            Self::Quota(quota) => quota,
            Self::CallLimit(limit) => limit,
            Self::Store(store) => store,
            Self::Unlimited => &Unlimited,
        }
    }
}

impl Limit for Budget {
    fn source(&self) -> Source {
        Source::Budget(self.clone())
    }

    fn begin(&self, policy: &Policy, deadline: u64, retry: &mut Begun) -> Result<(), Status> {
        self.lend(retry, |lender, retry| lender.begin(policy, deadline, retry))
    }

    fn end(&self, retry: &mut Begun, granted: u64, _waits: bool, _won: bool) {
        let ended = self.lend(retry, |lender, retry| {
            lender.end(retry, granted);
            Ok(())
        });
        debug_assert_eq!(ended, Ok(()));
    }
}

impl Limit for Quota {
    fn source(&self) -> Source {
        Source::Quota(self.clone())
    }

    fn count_request(&self) -> bool {
        true
    }

    fn count_request_at(&self, now: Moment) {
        if !self.counts_successes {
            self.deposit_by_clock(now);
        }
    }

    fn hears_of_successes(&self) -> bool {
        self.counts_successes || self.returns_tickets
    }

    fn count_success(&self, _last: Option<Ticket>, clock: &dyn Fn() -> Moment) {
        if self.counts_successes {
            self.deposit_by_clock(clock());
        }
    }

    fn origin(&self, began: Moment) -> u64 {
        self.millis_at(began)
    }

    fn begin(&self, policy: &Policy, deadline: u64, retry: &mut Begun) -> Result<(), Status> {
        self.lock().begin(policy, deadline, retry)
    }

    fn end(&self, retry: &mut Begun, granted: u64, waits: bool, won: bool) {
        match granted > 0 && (waits || (won && self.returns_tickets)) {
            true => self.lock().end_returning(retry, granted),
            false => self.lock().end(retry, granted),
        }
    }
}

impl Limit for CallLimit {
    fn source(&self) -> Source {
        Source::CallLimit(self.clone())
    }

    #[inline]
    fn call_limit(&self) -> Option<&CallLimit> {
        Some(self)
    }
}

impl<S: Tickets + 'static> Limit for Arc<S> {
    fn source(&self) -> Source {
        Source::Store(self.clone())
    }

    fn store(&self) -> Option<&dyn Tickets> {
        Some(&**self)
    }
}

impl Limit for Arc<dyn Tickets> {
    fn source(&self) -> Source {
        Source::Store(self.clone())
    }

    fn store(&self) -> Option<&dyn Tickets> {
        Some(&**self)
    }
}

impl AnyLimit {
    pub(super) fn get(&self) -> &dyn Limit {
        match self {
            Self::Unlimited => &Unlimited,
            Self::Budget(budget) => budget,
            Self::Quota(quota) => quota,
            #[cfg(feature = "leased")]
            Self::Leased(budget) => budget,
            #[cfg(feature = "leased")]
            Self::LeasedQuota(quota) => quota,
        }
    }
}

impl Limit for AnyLimit {
    fn source(&self) -> Source {
        self.get().source()
    }

    fn store(&self) -> Option<&dyn Tickets> {
        self.get().store()
    }

    fn count_request(&self) -> bool {
        self.get().count_request()
    }

    fn count_request_at(&self, now: Moment) {
        self.get().count_request_at(now);
    }

    fn hears_of_successes(&self) -> bool {
        self.get().hears_of_successes()
    }

    fn count_success(&self, last: Option<Ticket>, clock: &dyn Fn() -> Moment) {
        self.get().count_success(last, clock);
    }

    fn origin(&self, began: Moment) -> u64 {
        self.get().origin(began)
    }

    fn begin(&self, policy: &Policy, deadline: u64, retry: &mut Begun) -> Result<(), Status> {
        self.get().begin(policy, deadline, retry)
    }

    fn end(&self, retry: &mut Begun, granted: u64, waits: bool, won: bool) {
        self.get().end(retry, granted, waits, won);
    }
}

impl From<Unlimited> for AnyLimit {
    fn from(_: Unlimited) -> Self {
        Self::Unlimited
    }
}

impl<B: Into<AnyLimit>> From<Option<B>> for AnyLimit {
    fn from(limit: Option<B>) -> Self {
        limit.map_or(Self::Unlimited, Into::into)
    }
}

impl Limit for Unlimited {
    fn source(&self) -> Source {
        Source::Unlimited
    }
}

impl fmt::Debug for Source {
    fn fmt(&self, f: &mut fmt::Formatter<'_>) -> fmt::Result {
        match self {
            Self::Budget(budget) => budget.fmt(f),
            Self::Quota(quota) => quota.fmt(f),
            Self::CallLimit(limit) => limit.fmt(f),
            Self::Store(_) => f.write_str("a store of tickets"),
            Self::Unlimited => Unlimited.fmt(f),
        }
    }
}
