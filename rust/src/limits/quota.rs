//! Quotas of retries, in windows of time.

use crate::clock::{whole_millis, Moment};
#[cfg(feature = "leased")]
use crate::engine::quota_allows;
use crate::engine::{Handle, PassKind, Status, Used};
use crate::limits::error::LimitError;
use crate::limits::lender::Lender;
use crate::limits::part::{Part, Passes, Root};
use crate::limits::per_key::Counted;
use crate::limits::terms::thousandths;
use crate::limits::ticket::{NoTicket, Ticket};
use crate::system::PerProcess;
use std::fmt;
use std::sync::atomic::{AtomicU64, Ordering};
use std::sync::{Arc, MutexGuard};
use std::time::{Duration, Instant};

/// A limit for a service, shared by all threads of a program. In each window of time it grants at most a reserve of
/// retries, and a share of the requests made in that window. Nothing is carried to the next window, except by
/// [`Quota::carrying`]. It is cheap to clone; all clones are the same quota.
///
/// A retry draws its ticket when a run fails, and begins after its delay, perhaps in a later window. So more retries
/// can begin in a window than it granted. Each call that is retried counts as one request, before its first run:
///
/// ```
/// use hikebox::{retry, Policy, Quota};
/// use std::time::Duration;
///
/// let quota = Quota::new(10, 0.2, Duration::from_secs(10))?; // ten retries, and one for every five requests
/// let policy: Policy = r#"{"recurs":3}"#.parse()?;
/// for _ in 0..5 {
///     retry(&policy, &quota, || Ok::<_, ()>("fetched")).unwrap();
/// }
/// let usage = quota.seen();
/// assert_eq!((usage.asked, usage.given, usage.left), (5, 0, 11));
/// # Ok::<(), Box<dyn std::error::Error>>(())
/// ```
///
/// Windows are counted from the moment at which the quota was made, by the system's monotonic clock; with the feature
/// `tokio` by tokio's clock, which `tokio::time::pause` stops. A quota belongs to its process: a forked child has its
/// own, with nothing counted, in the same windows.
#[derive(Clone)]
pub struct Quota {
    shared: Arc<Shared>,
    pub(super) counts_successes: bool,
    pub(super) returns_tickets: bool,
}

struct Shared {
    made: Made,
    passes: PerProcess<Passes<Counter>>,
}

/// What a quota is made with, and so is another one in each forked child.
struct Made {
    /// The reserve and the share.
    terms: AtomicTerms,
    carries: bool,
    /// How many milliseconds a window is long.
    period: u64,
    /// Moment 0.
    began: Moment,
    /// The moment from whose window on windows are counted, in milliseconds.
    from: u64,
}

/// A reserve and a share, in the lower 20 bits, that are changed as one.
#[derive(Debug)]
pub(crate) struct AtomicTerms(AtomicU64);

/// A pass by which threads count requests, and the window of the one counted last, by the system's clock: so a request
/// is counted without reckoning its moment. One before the window is counted in the quota's latest, as one in it is.
struct Counter {
    pass: Handle<PassKind>,
    /// The first moment of the window, in milliseconds.
    first: u64,
    ends: Moment,
}

/// The right to count requests and to draw tickets of a [`Quota`], for one thread at a time. Its calls take no lock and
/// no memory and never wait, except a deposit of more than a million requests at once. A pass that is dropped adds its
/// tickets to the quota's count.
///
/// ```
/// use hikebox::Quota;
/// use std::time::Duration;
///
/// let quota = Quota::new(1, 0.5, Duration::from_secs(60))?;
/// let mut pass = quota.pass()?;
/// assert!(pass.draw().is_ok());
/// assert!(pass.draw().is_err());
/// pass.deposit();
/// pass.deposit();
/// assert!(pass.draw().is_ok());
/// drop(pass);
/// assert_eq!(quota.close().ok(), Some(2));
/// # Ok::<(), hikebox::LimitError>(())
/// ```
#[derive(Debug)]
pub struct QuotaPass {
    part: Part<Quota>,
    /// The window and the number of the latest ticket, where that did not come back.
    latest: Option<(u64, u64)>,
}

/// The counts of a quota's latest window.
#[derive(Clone, Copy, Debug, PartialEq, Eq, Hash)]
#[non_exhaustive]
pub struct Usage {
    /// The number of the window. A quota's first window is 0; a `LeasedQuota` counts from the machine's start.
    pub window: u64,
    /// The requests counted in it.
    pub asked: u64,
    /// The tickets drawn in it. If the quota carries, these are the window's own only.
    pub given: u64,
    /// The tickets that it can still give for the requests counted so far, and those carried to it that are left.
    pub left: u64,
    /// When the next window begins: a moment of the quota's, or of the machine's uptime for a `LeasedQuota`. If that is
    /// further off than the window's length, a call whose clock was ahead opened this window, or the requests past the
    /// 4,294,967,296 of the window before did.
    pub next: Duration,
}

/// What a quota is made with, in the engine's units: tickets, thousandths of a ticket, milliseconds.
#[derive(Clone, Copy, Debug)]
pub(crate) struct QuotaTerms {
    pub(crate) reserve: u64,
    pub(crate) share: u64,
    pub(crate) period: u64,
}

impl Quota {
    /// A quota of `reserve` retries in each window of length `per` (whole milliseconds, at least 100), and of `share`
    /// retries for each request of the window: 0.2 is one for every five. The share is counted in thousandths and is at
    /// most 1000.
    ///
    /// # Errors
    ///
    /// [`LimitError`] says which argument is out of its range.
    pub fn new(reserve: u64, share: f64, per: Duration) -> Result<Self, LimitError> {
        Self::made(Duration::ZERO, Moment::now(), QuotaTerms::new(reserve, share, per)?, false)
    }

    /// [`Quota::new`] with windows that are counted from `began`, for instance a moment of a clock that a test has
    /// stopped. Moments before it count as moment 0.
    ///
    /// # Errors
    ///
    /// [`LimitError`] says which argument is out of its range.
    pub fn new_at(began: Instant, reserve: u64, share: f64, per: Duration) -> Result<Self, LimitError> {
        Self::made(Duration::ZERO, Moment::of(began), QuotaTerms::new(reserve, share, per)?, false)
    }

    /// [`Quota::new`] for a host with a clock of its own that now reads `moment`. Windows are counted from the one in
    /// which that moment lies. The host passes its moments to [`Quota::deposit_at`], [`QuotaPass::draw_at`] and
    /// [`Machine::step`]; they may be times since 1970.
    ///
    /// [`Machine::step`]: crate::Machine::step
    ///
    /// # Errors
    ///
    /// [`LimitError`] says which argument is out of its range.
    pub fn new_of_host(moment: Duration, reserve: u64, share: f64, per: Duration) -> Result<Self, LimitError> {
        Self::made(moment, Moment::now().before(moment), QuotaTerms::new(reserve, share, per)?, false)
    }

    /// [`Quota::new`], but the quota carries: each window can also draw, once, what the window before left of its
    /// share, but nothing of its reserve. So a run that fails just after a window ends is retried on the requests
    /// before. A window gives at most 2,147,483,648 tickets of its own, and leaves at most as many.
    ///
    /// ```
    /// use hikebox::Quota;
    /// use std::time::Duration;
    ///
    /// let (quota, at) = (Quota::carrying(0, 0.5, Duration::from_secs(60))?, Duration::from_secs);
    /// let mut pass = quota.pass()?;
    /// pass.deposit_of_at(at(55), 4);
    /// assert!(pass.draw_at(at(58)).is_ok());
    /// assert!(pass.draw_at(at(61)).is_ok());
    /// assert!(pass.draw_at(at(61)).is_err());
    /// # Ok::<(), hikebox::LimitError>(())
    /// ```
    ///
    /// # Errors
    ///
    /// [`LimitError`] says which argument is out of its range.
    pub fn carrying(reserve: u64, share: f64, per: Duration) -> Result<Self, LimitError> {
        Self::made(Duration::ZERO, Moment::now(), QuotaTerms::new(reserve, share, per)?, true)
    }

    /// [`Quota::carrying`] with windows that are counted from `began`, as by [`Quota::new_at`].
    ///
    /// # Errors
    ///
    /// [`LimitError`] says which argument is out of its range.
    pub fn carrying_at(began: Instant, reserve: u64, share: f64, per: Duration) -> Result<Self, LimitError> {
        Self::made(Duration::ZERO, Moment::of(began), QuotaTerms::new(reserve, share, per)?, true)
    }

    /// [`Quota::carrying`] for a host with a clock of its own that now reads `moment`, as by [`Quota::new_of_host`].
    ///
    /// # Errors
    ///
    /// [`LimitError`] says which argument is out of its range.
    pub fn carrying_of_host(moment: Duration, reserve: u64, share: f64, per: Duration) -> Result<Self, LimitError> {
        Self::made(moment, Moment::now().before(moment), QuotaTerms::new(reserve, share, per)?, true)
    }

    fn made(moment: Duration, began: Moment, terms: QuotaTerms, carries: bool) -> Result<Self, LimitError> {
        let QuotaTerms { reserve, share, period } = terms;
        let terms = AtomicTerms::new(reserve, share);
        let made = Made { terms, carries, period, began, from: whole_millis(moment) };
        let root = made.root(reserve, share).map_err(LimitError::of)?;
        Ok(Self::of(root, made))
    }

    fn of(root: Handle<PassKind>, made: Made) -> Self {
        Self {
            shared: Arc::new(Shared { made, passes: PerProcess::new(Passes::of(root)) }),
            counts_successes: false,
            returns_tickets: false,
        }
    }

    /// Makes a call count as a request when it succeeds, and not before its first run. A service that keeps failing
    /// then drains the quota down to its reserve. Requests that you count by hand are counted in any case.
    ///
    /// ```
    /// use hikebox::{retry, Policy, Quota, RetryError};
    /// use std::time::Duration;
    ///
    /// let quota = Quota::new(0, 0.5, Duration::from_secs(3600))?.counting_successes();
    /// let policy: Policy = r#"{"recurs":3}"#.parse()?;
    /// assert_eq!(retry(&policy, &quota, || Err::<(), _>("gone")), Err(RetryError::LimitRefused("gone")));
    /// assert_eq!(quota.seen().asked, 0);
    /// for _ in 0..2 {
    ///     assert_eq!(retry(&policy, &quota, || Ok::<_, ()>(5)), Ok(5));
    /// }
    /// assert_eq!(quota.seen().left, 1);
    /// # Ok::<(), Box<dyn std::error::Error>>(())
    /// ```
    #[must_use]
    pub fn counting_successes(mut self) -> Self {
        self.counts_successes = true;
        self
    }

    /// Makes a call that succeeds after retries hand the ticket of its last retry back, as AWS's SDKs do. Failures
    /// that a retry repairs then take less of the quota than failures that last.
    ///
    /// ```
    /// use hikebox::{retry, Policy, Quota};
    /// use std::time::Duration;
    ///
    /// let quota = Quota::new(2, 0.0, Duration::from_secs(3600))?.returning_tickets();
    /// let policy: Policy = r#"{"recurs":3}"#.parse()?;
    /// let mut runs = 0;
    /// let answer = retry(&policy, &quota, || {
    ///     runs += 1;
    ///     if runs < 3 { Err("not yet") } else { Ok(runs) }
    /// });
    /// assert_eq!(answer, Ok(3));
    /// assert_eq!((quota.granted(), quota.seen().left), (1, 1));
    /// # Ok::<(), Box<dyn std::error::Error>>(())
    /// ```
    #[must_use]
    pub fn returning_tickets(mut self) -> Self {
        self.returns_tickets = true;
        self
    }

    /// Sets the reserve and the share, as [`Quota::new`] takes them, while the quota is used: for instance when a
    /// service reads its configuration again. Each draw follows them from now on, also in the current window. Tickets
    /// that were drawn stay drawn.
    ///
    /// # Errors
    ///
    /// [`LimitError`] says which argument is out of its range; then nothing changes.
    pub fn set_terms(&self, reserve: u64, share: f64) -> Result<(), LimitError> {
        let share = share_of(share)?;
        let mut root = self.lock();
        root.pass.set_terms(reserve, share).map_err(LimitError::of)?;
        self.shared.made.terms.set(reserve, share);
        Ok(())
    }

    /// A pass of the quota, for a thread that counts requests and draws tickets by itself.
    ///
    /// # Errors
    ///
    /// [`LimitError::NoMemory`].
    pub fn pass(&self) -> Result<QuotaPass, LimitError> {
        Ok(QuotaPass { part: Part::new(self.clone())?, latest: None })
    }

    /// Counts a request. Calls that are retried on the quota are counted by themselves.
    pub fn deposit(&self) {
        self.deposit_by_clock(Moment::now());
    }

    /// Counts several requests at once: an expensive one, or those of a while.
    pub fn deposit_of(&self, requests: u32) {
        self.count(Moment::now(), requests);
    }

    /// [`Quota::deposit`] at a moment of a host with a clock of its own: the time since one that it chooses.
    pub fn deposit_at(&self, now: Duration) {
        self.deposit_of_at(now, 1);
    }

    /// [`Quota::deposit_of`] at such a moment.
    pub fn deposit_of_at(&self, now: Duration, requests: u32) {
        let counted = self.lock().pass.deposit(whole_millis(now), requests);
        debug_assert!(counted);
    }

    /// Counts a request at this instant.
    #[inline]
    pub(crate) fn deposit_by_clock(&self, now: Moment) {
        let count = |own: &mut Option<Counter>| match own {
            Some(counter) => counter.count(now, 1),
            None => false,
        };
        if self.passes().own.own(count) != Some(true) {
            self.count(now, 1);
        }
    }

    /// Counts requests at this instant, by this thread's counter, which comes to the instant's window; or by the
    /// quota's first pass, where another thread uses the counter, or they are more than it counts at once.
    #[cold]
    fn count(&self, now: Moment, requests: u32) {
        let Made { began, period, .. } = self.shared.made;
        let first = self.millis_at(now) / period * period;
        let counted = self.passes().own.own(|counter| {
            let ends = began.after(Duration::from_millis(first.saturating_add(period)));
            *counter = match counter.take() {
                Some(counter) => Some(Counter { first, ends, ..counter }),
                None => self.lock().pass.split().ok().map(|pass| Counter { pass, first, ends }),
            };
            counter.as_mut().map_or(false, |counter| counter.count(now, requests))
        });
        if counted != Some(true) {
            self.deposit_of_at(self.shared.made.time_at(now), requests);
        }
    }

    /// The counts of the current window, and when the next begins.
    #[must_use]
    pub fn seen(&self) -> Usage {
        self.seen_at(self.shared.made.time_at(Moment::now()))
    }

    /// [`Quota::seen`] at a moment of a host with a clock of its own.
    #[must_use]
    pub fn seen_at(&self, now: Duration) -> Usage {
        usage(self.lock().pass.seen(whole_millis(now)))
    }

    /// The number of tickets that were drawn, in all windows, by retries that have ended and by passes that were
    /// dropped, less those that came back.
    #[must_use]
    pub fn granted(&self) -> u64 {
        self.lock().granted()
    }

    /// The quota's moment at `now`: the time since it was made.
    #[must_use]
    pub fn moment(&self, now: Instant) -> Duration {
        self.shared.made.time_at(Moment::of(now))
    }

    /// The same in whole milliseconds.
    pub(crate) fn millis_at(&self, now: Moment) -> u64 {
        now.millis_since(self.shared.made.began)
    }

    /// Closes the quota if no other clone, no pass and no retry of it is alive, and returns the exact number of tickets
    /// drawn, less those that came back.
    ///
    /// # Errors
    ///
    /// The quota itself, if something of it is alive.
    pub fn close(self) -> Result<u64, Self> {
        let Self { shared, counts_successes, returns_tickets } = self;
        let again = |shared| Self { shared, counts_successes, returns_tickets };
        let Shared { made, passes } = Arc::try_unwrap(shared).map_err(again)?;
        let mut root = match passes.into_inner() {
            Some(passes) => passes.joined(|counter| counter.pass),
            // (in a forked child that drew none)
            None => return Ok(0),
        };
        root.close().map_err(|_| again(Self::of(root, made).shared))
    }

    pub(crate) fn lock(&self) -> MutexGuard<'_, Lender> {
        self.passes().root()
    }

    #[inline]
    fn passes(&self) -> &Passes<Counter> {
        self.shared.passes.get(|| self.shared.made.anew())
    }
}

impl Root for Quota {
    fn with<T>(&self, call: impl FnOnce(&mut Handle<PassKind>) -> T) -> T {
        call(&mut self.lock().pass)
    }
}

impl Made {
    /// The time since moment 0.
    fn time_at(&self, now: Moment) -> Duration {
        now.since(self.began)
    }

    /// A first pass of these terms.
    fn root(&self, reserve: u64, share: u64) -> Result<Handle<PassKind>, Status> {
        Handle::quota(self.from, reserve, share, self.period, self.carries)
    }

    /// The passes of a forked child.
    fn anew(&self) -> Passes<Counter> {
        let (reserve, share) = self.terms.get();
        Passes::of(self.root(reserve, share).expect("memory for a quota"))
    }
}

impl Counter {
    /// Counts so many requests at this instant, where its window is not over and its pass counts so many at once, and
    /// says whether it did.
    #[inline]
    fn count(&mut self, now: Moment, requests: u32) -> bool {
        now < self.ends && self.pass.deposit(self.first, requests)
    }
}

impl AtomicTerms {
    pub(crate) fn new(reserve: u64, share: u64) -> Self {
        Self(AtomicU64::new(reserve << 20 | share))
    }

    pub(crate) fn get(&self) -> (u64, u64) {
        let both = self.0.load(Ordering::Relaxed);
        (both >> 20, both & 0xf_ffff)
    }

    pub(crate) fn set(&self, reserve: u64, share: u64) {
        self.0.store(reserve << 20 | share, Ordering::Relaxed);
    }
}

impl Counted for Quota {
    fn clones(&self) -> usize {
        self.shared.clones()
    }
}

impl fmt::Debug for Quota {
    fn fmt(&self, f: &mut fmt::Formatter<'_>) -> fmt::Result {
        f.debug_struct("Quota").field("granted", &self.granted()).finish_non_exhaustive()
    }
}

impl QuotaPass {
    /// Counts a request in the current window.
    pub fn deposit(&mut self) {
        self.deposit_at(self.now());
    }

    /// Draws a ticket that no other draw got. Tickets that were carried to a window are drawn first, and have the last
    /// numbers of the window before.
    ///
    /// # Errors
    ///
    /// [`NoTicket::UsedUp`] if the current window has none left, with the time until the next one. More requests may
    /// add some before that.
    pub fn draw(&mut self) -> Result<Ticket, NoTicket> {
        self.draw_at(self.now())
    }

    /// The counts of the current window, and when the next begins.
    pub fn seen(&mut self) -> Usage {
        self.seen_at(self.now())
    }

    /// Counts several requests at once, as [`Quota::deposit_of`].
    pub fn deposit_of(&mut self, requests: u32) {
        self.deposit_of_at(self.now(), requests);
    }

    /// Hands back the ticket that the pass drew last. Any pass can then draw another one in the ticket's window; if
    /// that window is over, or the ticket was carried from it, nothing is added.
    ///
    /// # Errors
    ///
    /// The ticket itself, if it is not the one that this pass drew last.
    pub fn hand_back(&mut self, ticket: Ticket) -> Result<(), Ticket> {
        let is_latest = ticket.is_of(self.part.drawer) && self.latest == Some((ticket.window(), ticket.number()));
        if !is_latest || !self.part.is_of_this_process() || !self.part.handle().hand_back() {
            return Err(ticket);
        }
        self.latest = None;
        self.part.tickets -= 1;
        Ok(())
    }

    /// [`QuotaPass::deposit`] at a moment of a host with a clock of its own. A moment in an earlier window than the
    /// latest counts in the latest.
    pub fn deposit_at(&mut self, now: Duration) {
        self.deposit_of_at(now, 1);
    }

    /// [`QuotaPass::deposit_of`] at such a moment.
    pub fn deposit_of_at(&mut self, now: Duration, requests: u32) {
        // (a pass counts a million at once; more are counted by the quota's own)
        if !self.part.handle().deposit(whole_millis(now), requests) {
            self.part.limit.deposit_of_at(now, requests);
        }
    }

    /// [`QuotaPass::draw`] at such a moment.
    ///
    /// # Errors
    ///
    /// As of [`QuotaPass::draw`].
    pub fn draw_at(&mut self, now: Duration) -> Result<Ticket, NoTicket> {
        loop {
            match self.part.handle().draw(whole_millis(now)) {
                Ok(ticket) => {
                    self.part.tickets += 1;
                    let (window, number) = (ticket >> 32, ticket % (1 << 32));
                    self.latest = Some((window, number));
                    return Ok(Ticket::drawn(self.part.drawer, window, number));
                }
                // As many other draws got a ticket meanwhile.
                Err(Status::RacesLost) => {}
                Err(status) => {
                    debug_assert_eq!(status, Status::NoTicket);
                    let next = self.seen_at(now).next;
                    return Err(NoTicket::UsedUp { next_in: Some(next.saturating_sub(now)) });
                }
            }
        }
    }

    /// [`QuotaPass::seen`] at such a moment.
    pub fn seen_at(&mut self, now: Duration) -> Usage {
        usage(self.part.handle().seen(whole_millis(now)))
    }

    /// The number of tickets that it drew and did not hand back.
    #[must_use]
    pub fn count(&self) -> u64 {
        self.part.tickets
    }

    /// The present moment of the quota.
    fn now(&self) -> Duration {
        self.part.limit.shared.made.time_at(Moment::now())
    }
}

fn usage(used: Used) -> Usage {
    let Used { window, asked, given, left, next, .. } = used;
    Usage { window, asked, given, left, next: Duration::from_millis(next) }
}

impl QuotaTerms {
    /// The terms in the engine's units, where they have such.
    pub(crate) fn new(reserve: u64, share: f64, per: Duration) -> Result<Self, LimitError> {
        let period = u64::try_from(per.as_millis()).unwrap_or(u64::MAX);
        Ok(Self { reserve, share: share_of(share)?, period })
    }

    /// The same, where the engine takes them.
    pub(crate) fn checked(self) -> Result<Self, LimitError> {
        let made = Handle::quota(0, self.reserve, self.share, self.period, false);
        made.map(|_| self).map_err(LimitError::of)
    }

    /// How many tickets a window of so many requests gives.
    #[cfg(feature = "leased")]
    pub(crate) fn allowed(self, requests: u64) -> u64 {
        quota_allows(self.reserve, self.share, requests)
    }
}

/// Thousandths of a ticket, of a share that is such a number.
pub(crate) fn share_of(share: f64) -> Result<u64, LimitError> {
    thousandths(share).ok_or(LimitError::ShareOutOfRange)
}
