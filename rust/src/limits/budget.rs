//! Budgets of retries.

use crate::engine::{Handle, PassKind, Status};
use crate::limits::error::LimitError;
use crate::limits::lender::{Begun, Lender};
use crate::limits::part::{Part, Passes, Root};
use crate::limits::per_key::Counted;
use crate::limits::ticket::{NoTicket, Ticket};
use crate::system::PerProcess;
use std::fmt;
use std::sync::atomic::{AtomicU64, Ordering};
use std::sync::{Arc, MutexGuard};

/// A fixed number of tickets that all threads of a program share. Each retry takes one, and no ticket is drawn twice.
/// It is cheap to clone; all clones are the same budget.
///
/// ```
/// use hikebox::Budget;
///
/// let budget = Budget::new(2)?;
/// let mut pass = budget.pass()?;
/// assert_eq!(pass.draw()?.number(), 0);
/// assert_eq!(pass.draw()?.number(), 1);
/// assert!(pass.draw().is_err());
/// drop(pass);
/// assert_eq!(budget.close().ok(), Some(2));
/// # Ok::<(), Box<dyn std::error::Error>>(())
/// ```
///
/// You can make as many passes and retries as you like; one that is dropped returns its part of the budget. A budget
/// belongs to its process: a forked child has its own, with nothing drawn.
#[derive(Clone)]
pub struct Budget {
    shared: Arc<Shared>,
}

struct Shared {
    limit: AtomicU64,
    rises: bool,
    /// Threads split the passes of their retries off those that they have.
    passes: PerProcess<Passes<Lender>>,
}

/// The right to draw tickets of a [`Budget`], for one thread at a time. A pass that is dropped adds its tickets to the
/// budget's count.
#[derive(Debug)]
pub struct Pass {
    part: Part<Budget>,
}

impl Budget {
    /// A budget of `limit` tickets, at most 4,294,967,296.
    ///
    /// # Errors
    ///
    /// [`LimitError::LimitTooLarge`], or [`LimitError::NoMemory`].
    pub fn new(limit: u64) -> Result<Self, LimitError> {
        Self::made(limit, false)
    }

    /// A budget of `limit` tickets that [`Budget::raise`] can raise. A draw that is refused uses no ticket, so raising
    /// the limit by a number of tickets allows that many more.
    ///
    /// ```
    /// use hikebox::Budget;
    ///
    /// let budget = Budget::rising(0)?;
    /// let mut pass = budget.pass()?;
    /// assert!(pass.draw().is_err());
    /// assert_eq!(budget.raise(5)?, 5);
    /// assert!(pass.draw().is_ok());
    /// # Ok::<(), Box<dyn std::error::Error>>(())
    /// ```
    ///
    /// # Errors
    ///
    /// [`LimitError::LimitTooLarge`], or [`LimitError::NoMemory`].
    pub fn rising(limit: u64) -> Result<Self, LimitError> {
        Self::made(limit, true)
    }

    /// Raises the limit to `to` if it is below that, and returns the limit.
    ///
    /// # Errors
    ///
    /// [`LimitError::Fixed`] if the budget was made by [`Budget::new`], or [`LimitError::LimitTooLarge`].
    pub fn raise(&self, to: u64) -> Result<u64, LimitError> {
        let mut root = self.lock();
        let limit = root.pass.raise(to).map_err(LimitError::of)?;
        self.shared.limit.store(limit, Ordering::Relaxed);
        Ok(limit)
    }

    /// A pass of the budget, for a thread that draws tickets by itself.
    ///
    /// # Errors
    ///
    /// [`LimitError::TooManyPasses`], or [`LimitError::NoMemory`].
    pub fn pass(&self) -> Result<Pass, LimitError> {
        Ok(Pass { part: Part::new(self.clone())? })
    }

    /// The number of tickets that were drawn by retries that have ended and by passes that were dropped.
    #[must_use]
    pub fn granted(&self) -> u64 {
        let root = self.lock().granted();
        root + self.passes().own.sum(Lender::granted)
    }

    /// Closes the budget if no other clone, no pass and no retry of it is alive, and returns the exact number of
    /// tickets drawn.
    ///
    /// # Errors
    ///
    /// The budget itself, if something of it is alive.
    pub fn close(self) -> Result<u64, Self> {
        let Shared { limit, rises, passes } = Arc::try_unwrap(self.shared).map_err(|shared| Self { shared })?;
        let mut root = match passes.into_inner() {
            Some(passes) => passes.joined(Lender::into_pass),
            // (in a forked child that drew none)
            None => return Ok(0),
        };
        root.close().map_err(|_| Self::of(limit.into_inner(), rises, root))
    }

    /// Lends a pass to a call that begins or ends a retry: that of this thread, or the first one where another thread uses
    /// that, or it has no part to give.
    #[inline(always)]
    pub(crate) fn lend<C>(&self, retry: &mut Begun, call: C) -> Result<(), Status>
    where
        C: Fn(&mut Lender, &mut Begun) -> Result<(), Status> + Copy,
    {
        let own = |shard: &mut Option<Lender>| match shard {
            Some(lender) => call(lender, retry),
            None => self.lend_another(shard, retry, call),
        };
        match self.passes().own.own(own) {
            Some(Err(Status::TooManyPasses)) | None => self.lend_first(retry, call),
            Some(given) => given,
        }
    }

    /// The same of one for this thread, which has none yet.
    #[cold]
    fn lend_another<C>(&self, shard: &mut Option<Lender>, retry: &mut Begun, call: C) -> Result<(), Status>
    where
        C: Fn(&mut Lender, &mut Begun) -> Result<(), Status>,
    {
        call(shard.insert(Lender::of(self.lock().pass.split()?)), retry)
    }

    #[cold]
    fn lend_first<C>(&self, retry: &mut Begun, call: C) -> Result<(), Status>
    where
        C: Fn(&mut Lender, &mut Begun) -> Result<(), Status>,
    {
        call(&mut self.lock(), retry)
    }

    fn lock(&self) -> MutexGuard<'_, Lender> {
        self.passes().root()
    }

    #[inline]
    fn passes(&self) -> &Passes<Lender> {
        self.shared.passes.get(|| self.anew())
    }

    /// The passes of a forked child.
    fn anew(&self) -> Passes<Lender> {
        let Shared { limit, rises, .. } = &*self.shared;
        Passes::of(root_of(limit.load(Ordering::Relaxed), *rises).expect("memory for a budget"))
    }

    fn made(limit: u64, rises: bool) -> Result<Self, LimitError> {
        let root = root_of(limit, rises).map_err(LimitError::of)?;
        Ok(Self::of(limit, rises, root))
    }

    fn of(limit: u64, rises: bool, root: Handle<PassKind>) -> Self {
        let passes = PerProcess::new(Passes::of(root));
        Self { shared: Arc::new(Shared { limit: AtomicU64::new(limit), rises, passes }) }
    }
}

impl Root for Budget {
    fn with<T>(&self, call: impl FnOnce(&mut Handle<PassKind>) -> T) -> T {
        call(&mut self.lock().pass)
    }
}

/// The first pass of a budget.
fn root_of(limit: u64, rises: bool) -> Result<Handle<PassKind>, Status> {
    if rises {
        Handle::rising(limit)
    } else {
        Handle::fixed(limit)
    }
}

impl Counted for Budget {
    fn clones(&self) -> usize {
        self.shared.clones()
    }
}

impl fmt::Debug for Budget {
    fn fmt(&self, f: &mut fmt::Formatter<'_>) -> fmt::Result {
        f.debug_struct("Budget").field("granted", &self.granted()).finish_non_exhaustive()
    }
}

impl Pass {
    /// Draws a ticket that no other draw got. It takes no lock and no memory, and never waits.
    ///
    /// # Errors
    ///
    /// [`NoTicket::UsedUp`]: for good if the limit is fixed, and otherwise until it is raised.
    pub fn draw(&mut self) -> Result<Ticket, NoTicket> {
        match self.part.handle().draw(0) {
            Ok(number) => {
                self.part.tickets += 1;
                Ok(Ticket::drawn(self.part.drawer, 0, number))
            }
            Err(status) => {
                debug_assert_eq!(status, Status::NoTicket);
                Err(NoTicket::used_up())
            }
        }
    }

    /// The number of tickets that it drew.
    #[must_use]
    pub fn count(&self) -> u64 {
        self.part.tickets
    }
}
