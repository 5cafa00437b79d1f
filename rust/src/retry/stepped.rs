//! A retry that its host steps, and what it drew of a store.

use crate::engine::{self, Next, Run, Status, MAX_NUMBER, NO_DEADLINE};
use crate::limits::grants::{Limit, Tickets};
use crate::limits::lender::Begun;
use crate::limits::ticket::{NoTicket, StoreFailure, Ticket};
use crate::policy::Policy;
use crate::retry::machine::{Cause, Ending, Report};
use crate::system::{generation, is_generation};

/// A retry that its host steps. Who has it says each time on which limit it is, and gives it back when it is dropped.
#[derive(Debug)]
pub(crate) struct Stepped {
    /// Empty only once it was given back.
    retry: Begun,
    /// What was drawn of the limit, where that is a store.
    drawn: Option<Box<Drawn>>,
    /// The process in which it began.
    generation: u64,
    deadline: u64,
    /// What its last step told.
    told: Next,
    /// Whether its latest ticket is for a run that has not begun: then that goes back.
    waits: bool,
    /// Whether its last run succeeded.
    won: bool,
}

/// What was drawn of a store: the engine's retry draws on nothing then, and the store is asked for each retry to which
/// that goes on.
#[derive(Debug, Default)]
struct Drawn {
    granted: u64,
    /// The latest ticket, which is used up once its run succeeded.
    ticket: Option<Ticket>,
    failure: Option<StoreFailure>,
    ended: Option<Ending>,
}

impl Stepped {
    /// A retry by this policy on this limit, which has not begun.
    #[inline(always)]
    pub(crate) fn new(policy: &Policy, limit: &dyn Limit, deadline: u64) -> Result<Self, Status> {
        let mut retry = Begun::EMPTY;
        limit.begin(policy, deadline, &mut retry)?;
        let drawn = limit.store().map(|_| Box::default());
        Ok(Self { retry, drawn, generation: generation(), deadline, told: Next::NOTHING, waits: false, won: false })
    }

    /// A run ends that began as soon as the one before had failed, or that begins with this where it was waited for. Its
    /// host says when the next one begins: [`Stepped::begins`].
    #[inline(always)]
    pub(crate) fn ran<'l>(&mut self, run: &Run, limit: impl FnOnce() -> &'l dyn Limit) -> Result<(), Ending> {
        let told = match self.told.what {
            engine::RUN => self.retry.handle.poll(run.ended, &run.words, run.report, run.code, &mut self.told),
            _ => self.retry.handle.ran(run, &mut self.told),
        };
        debug_assert!(!told || self.told.left == self.left_at(run.ended));
        self.next(limit)?;
        self.waits = true;
        Ok(())
    }

    /// Steps it at this moment; or how it ended.
    pub(crate) fn step(
        &mut self,
        now: u64,
        report: Option<Report>,
        words: &[u32; 4],
        limit: &dyn Limit,
    ) -> Result<(), Ending> {
        let (report, code) = match report {
            None => (engine::NO_REPORT, 0),
            Some(Report::Won(code)) => (engine::WON, code.min(MAX_NUMBER)),
            Some(Report::Lost(code)) => (engine::LOST, code.min(MAX_NUMBER)),
        };
        let told = self.retry.handle.poll(now, words, report, code, &mut self.told);
        debug_assert!(!told || self.told.left == self.left_at(now));
        self.next(|| limit)
    }

    /// The moment to wait for, or `None` where a run is under way, or it is over.
    #[inline]
    pub(crate) fn due(&self) -> Option<u64> {
        if self.told.what == engine::WAIT {
            Some(self.told.until)
        } else {
            None
        }
    }

    /// What follows from what its last step told; or how it ended.
    #[inline]
    fn next<'l>(&mut self, limit: impl FnOnce() -> &'l dyn Limit) -> Result<(), Ending> {
        if self.drawn.is_some() {
            self.draw_of_store(limit())?;
        }
        if self.told.what == engine::OVER {
            return Err(self.over());
        }
        self.waits = self.told.what == engine::WAIT;
        Ok(())
    }

    /// How it ended, as its last step told.
    #[cold]
    fn over(&mut self) -> Ending {
        self.won = self.told.how == engine::ENDED_WON;
        ended_of(self.told.how)
    }

    /// Draws a ticket of the store for the retry to which it goes on; it is over where there is none.
    #[cold]
    fn draw_of_store(&mut self, limit: &dyn Limit) -> Result<(), Ending> {
        if let (Some(store), Some(drawn)) = (limit.store(), &mut self.drawn) {
            if let Some(ended) = drawn.refuses(store, self.told.granted) {
                self.cancel();
                return Err(ended);
            }
        }
        Ok(())
    }

    /// The run after one that was told by [`Stepped::ran`] begins.
    #[inline]
    pub(crate) fn begins(&mut self) {
        self.waits = false;
    }

    /// Its run succeeded, and it is not stepped any more: the ticket of its last retry, of a store.
    pub(crate) fn succeeded(&mut self) -> Option<Ticket> {
        self.won = true;
        self.drawn.as_mut().and_then(|drawn| drawn.ticket.take())
    }

    /// The run that is waited for is not made: a store has its ticket back. (A quota has, once it is given back.)
    #[cold]
    pub(crate) fn withdraw(&mut self, limit: &dyn Limit) {
        if let (true, Some(store), Some(drawn)) = (self.waits, limit.store(), &mut self.drawn) {
            match is_generation(self.generation) {
                true => drawn.hand_back(store),
                false => drawn.ticket = None,
            }
        }
    }

    /// The number of retries that were granted.
    pub(crate) fn granted(&self) -> u64 {
        match &self.drawn {
            Some(drawn) => drawn.granted,
            None => self.told.granted,
        }
    }

    /// The number of runs that were reported.
    pub(crate) fn runs(&self) -> u64 {
        self.told.runs
    }

    /// The milliseconds from `now` to the deadline, as the engine tells them at each step.
    pub(crate) fn left_at(&self, now: u64) -> u64 {
        if self.deadline == NO_DEADLINE {
            NO_DEADLINE
        } else {
            self.deadline.saturating_sub(now)
        }
    }

    /// Why the store of tickets failed, if it did.
    pub(crate) fn store_failure(&self) -> Option<&StoreFailure> {
        self.drawn.as_ref().and_then(|drawn| drawn.failure.as_ref())
    }

    /// Ends the retry as cancelled, if it is not over.
    pub(crate) fn cancel(&mut self) {
        if !self.retry.handle.is_empty() {
            self.retry.handle.cancel(&mut self.told);
        }
    }

    /// Gives its tickets to be counted, and back the one of a run that never began, or that the quota wants back.
    #[inline]
    pub(crate) fn give_back(&mut self, limit: &dyn Limit) {
        // (in a forked child its tickets are the parent's)
        if self.retry.handle.is_empty() || !is_generation(self.generation) {
            return;
        }
        if self.drawn.is_some() {
            self.withdraw(limit);
        }
        limit.end(&mut self.retry, self.told.granted, self.waits, self.won);
    }
}

impl Drawn {
    /// Hands the latest ticket back.
    fn hand_back(&mut self, store: &dyn Tickets) {
        if let Some(ticket) = self.ticket.take() {
            store.hand_back(ticket);
        }
    }

    /// How the retry ended, where it did: the store is asked where the schedule went on to one retry more than were
    /// granted, and may have no ticket, or fail.
    fn refuses(&mut self, store: &dyn Tickets, wanted: u64) -> Option<Ending> {
        if wanted > self.granted && self.ended.is_none() {
            match store.draw() {
                Ok(ticket) => {
                    self.granted += 1;
                    self.ticket = Some(ticket);
                }
                Err(NoTicket::UsedUp { .. }) => self.ended = Some(Ending::LimitRefused),
                Err(NoTicket::StoreFailed { failure, .. }) => {
                    self.failure = Some(failure);
                    self.ended = Some(Ending::Broken(Cause::StoreFailed));
                }
            }
        }
        self.ended
    }
}

fn ended_of(how: u32) -> Ending {
    match how {
        engine::ENDED_WON => Ending::Won,
        engine::ENDED_DONE => Ending::ScheduleDone,
        engine::ENDED_DEADLINE => Ending::Deadline,
        engine::ENDED_LIMIT_REFUSED => Ending::LimitRefused,
        engine::ENDED_CANCELLED => Ending::Cancelled,
        engine::ENDED_NO_MEMORY => Ending::Broken(Cause::NoMemory),
        _ => Ending::Broken(Cause::Backwards),
    }
}
