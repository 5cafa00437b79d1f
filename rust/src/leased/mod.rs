//! Budgets and quotas that the processes of a machine share: tickets in ranges from a folder that counts.

mod folder;
mod share;
mod slot;
mod uptime;

pub use folder::StoreError;

use crate::engine::{lease_of_budget, lease_of_quota, Asking, Range, Stored, MAX_TICKETS};
use crate::leased::folder::{Folder, Key, Known};
use crate::leased::share::{Answer, Share, Tell, AGAIN_AFTER};
use crate::leased::uptime::Window;
use crate::limits::error::LimitError;
use crate::limits::grants::{Limit, Source, Tickets};
use crate::limits::per_key::Counted;
use crate::limits::quota::{share_of, AtomicTerms, QuotaTerms, Usage};
use crate::limits::ticket::{NoTicket, Ticket};
use std::path::Path;
use std::sync::Arc;
use std::time::Duration;

/// A budget that all processes with the same folder and name share, including those of the Python package
/// (`hikebox.Leased`). Threads can share it; it is cheap to clone, and all clones draw from one lease.
///
/// A process leases a range of tickets by one change of a file of the folder, under the file's lock. The change is on
/// the disk before the lease is granted, and the process then draws from the range. So each ticket is in one lease and
/// is drawn once. What is left of a lease when its process ends is lost.
///
/// Folders are kept on Linux and macOS. On other systems each draw fails, with a sentence that says so.
///
/// ```
/// use hikebox::Leased;
///
/// # let folder = std::env::temp_dir().join(format!("hikebox-doc-{}", std::process::id()));
/// # let _ = std::fs::remove_dir_all(&folder);
/// let first = Leased::new(&folder, "nightly", 100)?.lease(10);
/// let second = Leased::new(&folder, "nightly", 100)?.lease(10);
/// assert_eq!(first.draw()?.number(), 0);
/// assert_eq!(second.draw()?.number(), 10);
/// assert_eq!(first.draw()?.number(), 1);
/// # std::fs::remove_dir_all(&folder)?;
/// # Ok::<(), Box<dyn std::error::Error>>(())
/// ```
#[derive(Clone, Debug)]
pub struct Leased {
    folder: Folder,
    name: String,
    key: Key,
    limit: u64,
    lease: u64,
    again_after: Duration,
    share: Arc<Share>,
}

/// A quota that all processes with the same folder and name share, including those of the Python package
/// (`hikebox.LeasedQuota`). Threads can share it; it is cheap to clone, and all clones are the same quota.
///
/// It is a [`Quota`](crate::Quota) over all processes: in each window of the machine's uptime they draw no more tickets
/// than the reserve, and the share of the requests that they told the store in it. A process counts its requests
/// itself. It tells the store those of the current window when it asks for a lease, or by [`LeasedQuota::seen`].
///
/// ```
/// use hikebox::LeasedQuota;
/// use std::time::Duration;
///
/// # let folder = std::env::temp_dir().join(format!("hikebox-doc-quota-{}", std::process::id()));
/// # let _ = std::fs::remove_dir_all(&folder);
/// let quota = LeasedQuota::new(&folder, "payments", 1, 0.2, Duration::from_secs(100_000))?;
/// assert!(quota.draw().is_ok());
/// assert!(quota.draw().is_err());
/// for _ in 0..5 {
///     quota.deposit();
/// }
/// assert_eq!(quota.draw()?.number(), 1);
/// # std::fs::remove_dir_all(&folder)?;
/// # Ok::<(), Box<dyn std::error::Error>>(())
/// ```
#[derive(Clone, Debug)]
pub struct LeasedQuota {
    folder: Folder,
    key: Key,
    period: u64,
    lease: Option<u64>,
    again_after: Duration,
    counts_successes: bool,
    returns_tickets: bool,
    shared: Arc<Shared>,
}

/// What the clones of a quota have in common.
#[derive(Debug)]
struct Shared {
    terms: AtomicTerms,
    share: Share,
}

/// What the store has of the present window of a quota, and the range of it that was granted.
struct Found {
    window: Window,
    stored: Stored,
    range: Range,
}

/// The greatest limit: one below 2^52.
const MAX_LIMIT: u64 = (1 << 52) - 1;

impl Leased {
    /// A budget of `limit` tickets over all processes that name it so in this folder. The limit is at most 2^52 - 1,
    /// and a greater number counts as that. The folder has to be on a local disk, and is made if it is missing.
    ///
    /// # Errors
    ///
    /// [`LimitError::NameLength`].
    pub fn new(path: impl AsRef<Path>, name: impl Into<String>, limit: u64) -> Result<Self, LimitError> {
        let (limit, name) = (limit.min(MAX_LIMIT), checked(name.into())?);
        Ok(Self {
            folder: Folder::new(path),
            key: Key::of_budget(&name),
            name,
            limit,
            lease: (limit / 64).clamp(1, 1000),
            again_after: AGAIN_AFTER,
            share: Arc::new(Share::new(None)),
        })
    }

    /// Gives that many tickets in each window of this length, and not in all. The length is in whole milliseconds, at
    /// least one; windows are counted by the machine's uptime.
    #[must_use]
    pub fn in_each(mut self, period: Duration) -> Self {
        let millis = u64::try_from(period.as_millis()).unwrap_or(u64::MAX).max(1);
        self.key = Key::of_windows(&self.name, millis);
        self.share = Arc::new(Share::new(Some(millis)));
        self
    }

    /// How many tickets are leased at a time, from 1 to 2^32. A process that ends loses at most that many. By default
    /// it is a sixty-fourth of the limit, from 1 to 1000.
    #[must_use]
    pub fn lease(mut self, tickets: u64) -> Self {
        self.lease = tickets.clamp(1, MAX_TICKETS);
        self
    }

    /// How long the store is not asked again after it failed, or had nothing left: a second by default. A budget with
    /// windows asks again in the next one.
    #[must_use]
    pub fn again_after(mut self, wait: Duration) -> Self {
        self.again_after = wait;
        self
    }

    /// Draws a ticket, whose number is below the limit: from the lease, or from a new one if that is used up.
    ///
    /// # Errors
    ///
    /// [`NoTicket`] if a new lease is needed and the store has nothing left, or fails with a [`StoreError`].
    pub fn draw(&self) -> Result<Ticket, NoTicket> {
        self.share.draw(self.again_after, |known, _| self.ask(known))
    }

    /// A new lease, which is empty where the limit is reached.
    fn ask(&self, known: &mut Known) -> Result<Answer, StoreError> {
        let slot = self.folder.lock(&self.key)?;
        let window = self.key.window(&mut known.boot).map_err(|error| slot.failed(error))?;
        let mut stored = slot.stored(window.as_ref(), known)?;
        let number = window.map_or(0, |window| window.number);
        let asking = Asking { window: number, told: 0, wanted: self.lease };
        let leased = lease_of_budget(self.limit, asking, &mut stored);
        let Range { first, tickets } = leased.ok_or_else(|| slot.lost())?;
        if tickets > 0 {
            slot.set(window.as_ref(), stored, known)?;
        }
        let again_after = if window.is_some() { Duration::MAX } else { self.again_after };
        Ok(Answer { window, first, tickets, again_after, worth_asking: None })
    }
}

impl LeasedQuota {
    /// A quota of these terms, as of [`Quota::new`](crate::Quota::new), over all processes that name it so in this
    /// folder. The folder has to be on a local disk, and is made if it is missing.
    ///
    /// # Errors
    ///
    /// [`LimitError`] says which argument is out of its range.
    pub fn new(
        path: impl AsRef<Path>,
        name: impl Into<String>,
        reserve: u64,
        share: f64,
        per: Duration,
    ) -> Result<Self, LimitError> {
        let terms = QuotaTerms::new(reserve, share, per)?.checked()?;
        let share = Share::new(Some(terms.period));
        Ok(Self {
            folder: Folder::new(path),
            key: Key::of_quota(&checked(name.into())?, terms.period),
            period: terms.period,
            lease: None,
            again_after: AGAIN_AFTER,
            counts_successes: false,
            returns_tickets: false,
            shared: Arc::new(Shared { terms: AtomicTerms::new(terms.reserve, terms.share), share }),
        })
    }

    /// How many tickets are leased at a time, from 1 to 2^32. A process that ends loses at most that many. By default
    /// it is a sixty-fourth of what the window allows, from 1 to 1000.
    #[must_use]
    pub fn lease(mut self, tickets: u64) -> Self {
        self.lease = Some(tickets.clamp(1, MAX_TICKETS));
        self
    }

    /// How long the store is not asked again after it failed, or had nothing left and the requests since are not worth
    /// a lease: a second by default, and at most until the next window.
    #[must_use]
    pub fn again_after(mut self, wait: Duration) -> Self {
        self.again_after = wait;
        self
    }

    /// Makes a call count as a request when it succeeds, as
    /// [`Quota::counting_successes`](crate::Quota::counting_successes).
    #[must_use]
    pub fn counting_successes(mut self) -> Self {
        self.counts_successes = true;
        self
    }

    /// Makes a call that succeeds after retries hand the ticket of its last retry back, as
    /// [`Quota::returning_tickets`](crate::Quota::returning_tickets). Only this process draws a ticket again that came
    /// back, while its window lasts.
    #[must_use]
    pub fn returning_tickets(mut self) -> Self {
        self.returns_tickets = true;
        self
    }

    /// Sets the reserve and the share that this process names to the store, from its next lease on.
    ///
    /// # Errors
    ///
    /// [`LimitError`] says which argument is out of its range; then nothing changes.
    pub fn set_terms(&self, reserve: u64, share: f64) -> Result<(), LimitError> {
        let terms = QuotaTerms { reserve, share: share_of(share)?, period: self.period }.checked()?;
        self.shared.terms.set(terms.reserve, terms.share);
        self.shared.share.may_ask();
        Ok(())
    }

    fn terms(&self) -> QuotaTerms {
        let (reserve, share) = self.shared.terms.get();
        QuotaTerms { reserve, share, period: self.period }
    }

    /// Counts a request. The store is not asked.
    pub fn deposit(&self) {
        self.deposit_of(1);
    }

    /// Counts several requests at once.
    pub fn deposit_of(&self, requests: u32) {
        self.shared.share.deposit(requests);
    }

    /// Draws a ticket of the current window: from the lease, or from a new one if that is used up.
    ///
    /// # Errors
    ///
    /// [`NoTicket`] if a new lease is needed and the store has nothing left, or fails with a [`StoreError`].
    pub fn draw(&self) -> Result<Ticket, NoTicket> {
        self.shared.share.draw(self.again_after, |known, tell| {
            let terms = self.terms();
            let Found { window, stored, range: Range { first, tickets } } = self.ask(terms, true, known, tell)?;
            let worth = self.lease_of(terms.allowed(stored.asked)).saturating_mul(1000);
            let worth_asking =
                worth.checked_add(terms.share.saturating_sub(1)).and_then(|worth| worth.checked_div(terms.share));
            let again_after = if terms.share == 0 { Duration::MAX } else { self.again_after };
            Ok(Answer { window: Some(window), first, tickets, again_after, worth_asking })
        })
    }

    /// Hands back a ticket that was not used. This process can draw it again while its window lasts. The store is not
    /// asked.
    ///
    /// # Errors
    ///
    /// The ticket itself, if this quota did not draw it, or its window is over.
    pub fn hand_back(&self, ticket: Ticket) -> Result<(), Ticket> {
        self.shared.share.hand_back(ticket)
    }

    /// Tells the store the requests that were counted since, and returns its counts of the current window.
    ///
    /// # Errors
    ///
    /// [`StoreError`] if the store cannot be read or written, or has lost its count of the current window.
    pub fn seen(&self) -> Result<Usage, StoreError> {
        let terms = self.terms();
        let ask = |known: &mut Known, tell: Tell<'_>| {
            self.ask(terms, false, known, tell).map(|found| (found.window, found.stored))
        };
        let (window, Stored { given, asked, .. }) = self.shared.share.ask(ask)?;
        let left = terms.allowed(asked).saturating_sub(given);
        Ok(Usage { window: window.number, asked, given, left, next: Duration::from_millis(window.ends()) })
    }

    /// Tells the store the requests of the present window, and takes a range of its tickets where that is wanted.
    /// Requests that were told are not told again, also where that failed.
    fn ask(
        &self,
        terms: QuotaTerms,
        wants_tickets: bool,
        known: &mut Known,
        tell: Tell<'_>,
    ) -> Result<Found, StoreError> {
        let slot = self.folder.lock(&self.key)?;
        let window = Window::present(self.period, &mut known.boot).map_err(|error| slot.failed(error))?;
        let mut stored = slot.stored(Some(&window), known)?;
        // comes to the window before any request is told, as none is where the store has a later one
        terms.lease(window.number, 0, 0, &mut stored).ok_or_else(|| slot.lost())?;
        let told = tell(&window);
        let allowed = terms.allowed(stored.asked.saturating_add(told));
        let wanted = if wants_tickets { self.lease_of(allowed) } else { 0 };
        let range = terms.lease(window.number, told, wanted, &mut stored).ok_or_else(|| slot.lost())?;
        if told + range.tickets > 0 {
            slot.set(Some(&window), stored, known)?;
        }
        Ok(Found { window, stored, range })
    }

    /// How many tickets are leased at a time in a window that allows so many.
    fn lease_of(&self, allowed: u64) -> u64 {
        self.lease.unwrap_or((allowed / 64).clamp(1, 1000))
    }
}

impl QuotaTerms {
    /// Takes a range of a window, and tells requests of it. `None` where the store counts a later one.
    fn lease(self, window: u64, told: u64, wanted: u64, stored: &mut Stored) -> Option<Range> {
        let asking = Asking { window, told, wanted };
        lease_of_quota(self.reserve, self.share, asking, stored)
    }
}

impl Limit for Leased {
    fn source(&self) -> Source {
        Source::Store(Arc::new(self.clone()))
    }

    fn store(&self) -> Option<&dyn Tickets> {
        Some(self)
    }
}

impl Tickets for Leased {
    fn draw(&self) -> Result<Ticket, NoTicket> {
        Self::draw(self)
    }
}

impl Limit for LeasedQuota {
    fn source(&self) -> Source {
        Source::Store(Arc::new(self.clone()))
    }

    fn store(&self) -> Option<&dyn Tickets> {
        Some(self)
    }
}

/// Each call that is retried counts as one request.
impl Tickets for LeasedQuota {
    fn deposit(&self) {
        if !self.counts_successes {
            Self::deposit(self);
        }
    }

    fn draw(&self) -> Result<Ticket, NoTicket> {
        Self::draw(self)
    }

    fn hand_back(&self, ticket: Ticket) {
        // (that of a window that is over stays drawn)
        let _ = Self::hand_back(self, ticket);
    }

    fn succeeded(&self, last: Option<Ticket>) {
        if self.counts_successes {
            Self::deposit(self);
        }
        if let (true, Some(ticket)) = (self.returns_tickets, last) {
            Tickets::hand_back(self, ticket);
        }
    }
}

impl Counted for Leased {
    fn clones(&self) -> usize {
        self.share.clones()
    }
}

impl Counted for LeasedQuota {
    fn clones(&self) -> usize {
        self.shared.clones()
    }
}

/// A name that may be in a key.
fn checked(name: String) -> Result<String, LimitError> {
    match name.len() {
        1..=255 => Ok(name),
        bytes => Err(LimitError::NameLength { bytes }),
    }
}
