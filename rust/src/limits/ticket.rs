//! Tickets, and why a draw got none.

use std::error::Error;
use std::fmt;
use std::sync::atomic::{AtomicU64, Ordering};
use std::sync::Arc;
use std::time::Duration;

/// The right to one retry. A ticket cannot be copied, so whoever drew it can hand it back once. A ticket that is
/// dropped stays drawn.
///
/// ```
/// use hikebox::Quota;
/// use std::time::Duration;
///
/// let (one, other) = (Quota::new(1, 0.0, Duration::from_secs(60))?, Quota::new(1, 0.0, Duration::from_secs(60))?);
/// let (mut pass, mut others) = (one.pass()?, other.pass()?);
/// let ticket = pass.draw()?;
/// assert_eq!((ticket.window(), ticket.number()), (0, 0));
/// let ticket = others.hand_back(ticket).unwrap_err(); // it is of another quota
/// assert!(pass.hand_back(ticket).is_ok());
/// assert!(pass.draw().is_ok());
/// # Ok::<(), Box<dyn std::error::Error>>(())
/// ```
#[derive(Debug)]
pub struct Ticket {
    window: u64,
    number: u64,
    /// Who drew it.
    drawer: Drawer,
}

/// Who draws tickets: each pass of a quota, each process's share of a leased quota, and all stores of a program's own.
#[derive(Clone, Copy, Debug, PartialEq, Eq)]
pub(crate) struct Drawer(u64);

/// Why a draw got no ticket, and how long it is until there may be one.
#[derive(Clone, Debug, PartialEq, Eq)]
#[non_exhaustive]
pub enum NoTicket {
    /// All tickets are drawn.
    UsedUp {
        /// The time until there may be one without more requests, or `None` if that is never, or unknown.
        next_in: Option<Duration>,
    },
    /// The store of tickets failed.
    StoreFailed {
        /// The store's error.
        failure: StoreFailure,
        /// The time until the store is asked again, or `None` if that is at once.
        next_in: Option<Duration>,
    },
}

/// The error of a store of [`Tickets`](crate::Tickets). Clones are equal, since they are the same failure.
#[derive(Clone, Debug)]
pub struct StoreFailure(Arc<dyn Error + Send + Sync>);

impl Ticket {
    /// The ticket with this number, for a store of your own. No [`Quota`](crate::Quota) and no `LeasedQuota` takes it
    /// back.
    #[must_use]
    pub fn new(number: u64) -> Self {
        Self { window: 0, number, drawer: Drawer::STORE }
    }

    /// The ticket, in this window.
    #[must_use]
    pub fn in_window(self, window: u64) -> Self {
        Self { window, ..self }
    }

    pub(crate) fn drawn(drawer: Drawer, window: u64, number: u64) -> Self {
        Self { window, number, drawer }
    }

    pub(crate) fn is_of(&self, drawer: Drawer) -> bool {
        self.drawer == drawer
    }

    /// Its number, from 0, which no other ticket of its window has.
    #[must_use]
    pub fn number(&self) -> u64 {
        self.number
    }

    /// The window in which it was drawn, or 0 if there are no windows.
    #[must_use]
    pub fn window(&self) -> u64 {
        self.window
    }
}

impl Drawer {
    const STORE: Self = Self(0);

    /// Another one than all before.
    pub(crate) fn new() -> Self {
        static NEXT: AtomicU64 = AtomicU64::new(1);
        Self(NEXT.fetch_add(1, Ordering::Relaxed))
    }
}

impl NoTicket {
    /// All tickets are drawn, and it is not known when there will be more.
    #[must_use]
    pub fn used_up() -> Self {
        Self::UsedUp { next_in: None }
    }

    /// The store failed with this error.
    pub fn failed(error: impl Into<Box<dyn Error + Send + Sync>>) -> Self {
        Self::StoreFailed { failure: StoreFailure::new(error), next_in: None }
    }

    /// The time until there may be one, if that is known.
    #[must_use]
    pub fn next_in(&self) -> Option<Duration> {
        match self {
            Self::UsedUp { next_in } | Self::StoreFailed { next_in, .. } => *next_in,
        }
    }

    /// The store's failure, if that is the reason.
    #[must_use]
    pub fn failure(&self) -> Option<&StoreFailure> {
        match self {
            Self::StoreFailed { failure, .. } => Some(failure),
            Self::UsedUp { .. } => None,
        }
    }
}

impl fmt::Display for NoTicket {
    fn fmt(&self, f: &mut fmt::Formatter<'_>) -> fmt::Result {
        match self {
            Self::UsedUp { .. } => f.write_str("no ticket is left")?,
            Self::StoreFailed { failure, .. } => write!(f, "the store of tickets failed: {failure}")?,
        }
        match self.next_in() {
            Some(next_in) if !next_in.is_zero() => write!(f, " (again in {next_in:?})"),
            _ => Ok(()),
        }
    }
}

impl Error for NoTicket {}

impl StoreFailure {
    pub(crate) fn new(error: impl Into<Box<dyn Error + Send + Sync>>) -> Self {
        Self(error.into().into())
    }

    /// The error that the store returned.
    #[must_use]
    pub fn get(&self) -> &(dyn Error + Send + Sync + 'static) {
        &*self.0
    }

    fn address(&self) -> *const () {
        Arc::as_ptr(&self.0).cast()
    }
}

impl PartialEq for StoreFailure {
    fn eq(&self, other: &Self) -> bool {
        self.address() == other.address()
    }
}

impl Eq for StoreFailure {}

impl std::hash::Hash for StoreFailure {
    fn hash<H: std::hash::Hasher>(&self, state: &mut H) {
        self.address().hash(state);
    }
}

impl fmt::Display for StoreFailure {
    fn fmt(&self, f: &mut fmt::Formatter<'_>) -> fmt::Result {
        self.0.fmt(f)
    }
}
