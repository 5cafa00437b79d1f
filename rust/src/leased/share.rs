//! What a process holds of a limit that a store keeps: leases of its tickets, and when the store is asked for the next.

use crate::clock::whole_millis;
use crate::engine::{Grant, Handle, LeasedDraw, LeasedKind, Taken, Ticket as Named, MAX_NUMBER};
use crate::leased::folder::{Known, StoreError};
use crate::leased::uptime::{now, Window};
use crate::limits::error::LimitError;
use crate::limits::ticket::{Drawer, NoTicket, StoreFailure, Ticket};
use crate::system::{lock, PerProcess};
use std::fmt;
use std::path::PathBuf;
use std::sync::Mutex;
use std::time::Duration;

/// How long a store that failed, or that had nothing left, is left alone unless it is said.
pub(crate) const AGAIN_AFTER: Duration = Duration::from_secs(1);
/// How many leases in a row may be over when they come.
const TRIES: usize = 3;

/// A process's share of a limit. A forked child begins with none.
pub(crate) struct Share {
    /// How many milliseconds a window is long, where there are windows.
    period: Option<u64>,
    leases: PerProcess<Leases>,
}

/// What this process holds. Nobody who has a ticket at hand waits for one who asks the store.
struct Leases {
    held: Mutex<Held>,
    /// Locked by the one thread that asks the store; those that need its answer wait here. What it knows of the store.
    asking: Mutex<Known>,
}

struct Held {
    period: Option<u64>,
    pass: Handle<LeasedKind>,
    drawer: Drawer,
    /// Why the store is left alone, where it failed.
    failure: Option<StoreFailure>,
    /// Whether it had nothing left, and then for how many requests it is asked all the same.
    worth_asking: Option<u64>,
}

/// What a store answers.
pub(crate) struct Answer {
    pub(crate) window: Option<Window>,
    pub(crate) first: u64,
    pub(crate) tickets: u64,
    /// How long it is left alone at most, where it has no ticket.
    pub(crate) again_after: Duration,
    /// For how many requests more it may have one.
    pub(crate) worth_asking: Option<u64>,
}

/// Tells the requests that were counted since a window of the store began: none is told again.
pub(crate) type Tell<'a> = &'a dyn Fn(&Window) -> u64;

impl Share {
    pub(crate) fn new(period: Option<u64>) -> Self {
        Self { period, leases: PerProcess::new(Leases::new(period)) }
    }

    /// A ticket at hand, or of the lease for which `ask` asks the store.
    pub(crate) fn draw(
        &self,
        again_after: Duration,
        ask: impl Fn(&mut Known, Tell<'_>) -> Result<Answer, StoreError>,
    ) -> Result<Ticket, NoTicket> {
        let leases = self.leases();
        if let Some(drawn) = lock(&leases.held).draw() {
            return drawn;
        }
        let known = &mut *lock(&leases.asking);
        // (another thread may have had an answer meanwhile)
        if let Some(drawn) = lock(&leases.held).draw() {
            return drawn;
        }
        // (a lease that is over when it comes is one of a window that is over: the next one is of a later window)
        for _ in 0..TRIES {
            let answer = match ask(known, &|window| leases.tell(window)) {
                Ok(answer) => answer,
                Err(error) => return Err(lock(&leases.held).failed(StoreFailure::new(error), again_after)),
            };
            // (before another thread can draw of it)
            if let Some(drawn) = lock(&leases.held).granted(&answer) {
                return drawn;
            }
            if answer.tickets == 0 {
                break;
            }
        }
        Err(lock(&leases.held).used_up(again_after))
    }

    /// Asks the store, and takes no ticket of the window that it answers.
    pub(crate) fn ask<T>(
        &self,
        ask: impl FnOnce(&mut Known, Tell<'_>) -> Result<(Window, T), StoreError>,
    ) -> Result<(Window, T), StoreError> {
        let leases = self.leases();
        let known = &mut *lock(&leases.asking);
        let answer = ask(known, &|window| leases.tell(window))?;
        let held = &mut *lock(&leases.held);
        held.pass.granted(&grant_of(Some(answer.0), 0, 0));
        held.may_ask();
        Ok(answer)
    }

    /// The store may be asked at the next draw.
    pub(crate) fn may_ask(&self) {
        lock(&self.leases().held).may_ask();
    }

    /// Takes a ticket back, where it is this process's, of the present window, and not back yet.
    pub(crate) fn hand_back(&self, ticket: Ticket) -> Result<(), Ticket> {
        let held = &mut *lock(&self.leases().held);
        let named = Named { window: ticket.window(), number: ticket.number() };
        if ticket.is_of(held.drawer) && held.pass.hand_back(named) {
            Ok(())
        } else {
            Err(ticket)
        }
    }

    /// Counts so many requests.
    pub(crate) fn deposit(&self, requests: u32) {
        // (where the uptime can't be told, none is counted)
        if let Ok(now) = now() {
            lock(&self.leases().held).pass.deposit(now, requests.into());
        }
    }

    #[inline]
    fn leases(&self) -> &Leases {
        self.leases.get(|| Leases::new(self.period))
    }
}

impl Leases {
    fn new(period: Option<u64>) -> Self {
        Self { held: Mutex::new(Held::new(period)), asking: Mutex::default() }
    }

    /// The requests that were counted since the window began, and not told before.
    fn tell(&self, window: &Window) -> u64 {
        lock(&self.held).pass.tell(window.begins())
    }
}

impl Held {
    fn new(period: Option<u64>) -> Self {
        let pass = Handle::leased(period).expect("memory for a leased pass");
        Self { period, pass, drawer: Drawer::new(), failure: None, worth_asking: None }
    }

    /// Takes a store's answer, and draws of it.
    fn granted(&mut self, answer: &Answer) -> Option<Result<Ticket, NoTicket>> {
        let grant = grant_of(answer.window, answer.first, answer.tickets);
        if self.pass.granted(&grant) == Taken::HeldAlready {
            // (the store was taken away, and has begun anew: so does this process)
            *self = Self::new(self.period);
            self.pass.granted(&grant);
        }
        self.failure = None;
        self.worth_asking = None;
        if answer.tickets == 0 {
            self.pass.leave_alone(later(answer.again_after).min(grant.until));
            self.worth_asking = answer.worth_asking;
        }
        self.draw()
    }

    /// Leaves a store alone of which no lease lasted until a ticket was drawn, or that had nothing left.
    fn used_up(&mut self, again_after: Duration) -> NoTicket {
        self.pass.leave_alone(later(again_after));
        NoTicket::UsedUp { next_in: self.period.map(|_| again_after) }
    }

    /// The store failed, and is left alone for so long.
    fn failed(&mut self, failure: StoreFailure, again_after: Duration) -> NoTicket {
        self.pass.leave_alone(later(again_after));
        self.failure = Some(failure.clone());
        self.worth_asking = None;
        NoTicket::StoreFailed { failure, next_in: Some(again_after) }
    }

    /// A ticket at hand, or why there is none. `None` where the store may be asked.
    fn draw(&mut self) -> Option<Result<Ticket, NoTicket>> {
        let now = match now() {
            Ok(now) => now,
            Err(error) => return Some(Err(NoTicket::failed(StoreError::Io(PathBuf::new(), error)))),
        };
        match self.pass.draw(now) {
            LeasedDraw::Ticket(Named { window, number }) => Some(Ok(Ticket::drawn(self.drawer, window, number))),
            LeasedDraw::LeaseWanted => None,
            LeasedDraw::NoMemory => Some(Err(NoTicket::failed(LimitError::NoMemory))),
            LeasedDraw::NotBefore(_) if self.is_worth_asking() => {
                self.may_ask();
                None
            }
            LeasedDraw::NotBefore(again) => {
                let next_in = Duration::from_millis(again.saturating_sub(now));
                Some(Err(match self.failure.clone() {
                    Some(failure) => NoTicket::StoreFailed { failure, next_in: Some(next_in) },
                    None => NoTicket::UsedUp { next_in: self.period.map(|_| next_in) },
                }))
            }
        }
    }

    fn may_ask(&mut self) {
        self.pass.leave_alone(0);
        self.failure = None;
        self.worth_asking = None;
    }

    /// Whether the requests that were counted meanwhile may give a ticket.
    fn is_worth_asking(&mut self) -> bool {
        match self.worth_asking {
            Some(requests) => self.pass.untold() >= requests,
            None => false,
        }
    }
}

/// So many tickets of a window, or of a store without any.
fn grant_of(window: Option<Window>, first: u64, tickets: u64) -> Grant {
    let (window, until) = window.map_or((0, MAX_NUMBER), |window| (window.number, window.ends().min(MAX_NUMBER)));
    Grant { window, first, tickets, until }
}

/// The moment after so long.
fn later(wait: Duration) -> u64 {
    now().unwrap_or(0).saturating_add(whole_millis(wait)).min(MAX_NUMBER)
}

impl fmt::Debug for Share {
    fn fmt(&self, f: &mut fmt::Formatter<'_>) -> fmt::Result {
        f.debug_struct("Share").finish_non_exhaustive()
    }
}

#[cfg(all(test, unix))]
mod tests {
    use super::{Answer, Share, TRIES};
    use crate::leased::folder::StoreError;
    use crate::leased::uptime::{now, Window};
    use crate::limits::ticket::NoTicket;
    use std::cell::Cell;
    use std::sync::atomic::{AtomicU64, Ordering};
    use std::thread;
    use std::time::Duration;

    const HOUR: Duration = Duration::from_secs(3600);

    fn one_ticket(window: Option<Window>, first: u64) -> Result<Answer, StoreError> {
        Ok(Answer { window, first, tickets: 1, again_after: HOUR, worth_asking: None })
    }

    /// A window of a millisecond that has just ended.
    fn over() -> Window {
        Window::of_number(now().unwrap() - 1, 1)
    }

    #[test]
    fn a_lease_that_is_over_when_it_comes_is_followed_by_one_of_the_next_window() {
        let (share, asked) = (Share::new(Some(1)), Cell::new(0));
        let next = Window::of_number(now().unwrap() + 3_600_000, 1);
        let ask = || {
            asked.set(asked.get() + 1);
            one_ticket(Some(if asked.get() < TRIES { over() } else { next }), 7)
        };
        assert_eq!(share.draw(HOUR, |_, _| ask()).unwrap().number(), 7);
        assert_eq!(asked.get(), TRIES);
    }

    #[test]
    fn a_store_that_is_slower_than_its_windows_is_left_alone() {
        let (share, asked) = (Share::new(Some(1)), Cell::new(0));
        for _ in 0..9 {
            let drawn = share.draw(HOUR, |_, _| {
                asked.set(asked.get() + 1);
                one_ticket(Some(over()), 7)
            });
            assert!(matches!(drawn, Err(NoTicket::UsedUp { next_in: Some(wait) }) if wait <= HOUR), "{drawn:?}");
        }
        assert_eq!(asked.get(), TRIES);
    }

    /// Each thread draws of the lease that it asked for, and none of the others takes that ticket first.
    #[test]
    fn eight_threads_draw_leases_of_one_ticket_and_none_is_refused() {
        let (share, given) = (Share::new(None), AtomicU64::new(0));
        let ask = || one_ticket(None, given.fetch_add(1, Ordering::Relaxed));
        let draws = || (0..2000).find_map(|_| share.draw(HOUR, |_, _| ask()).err());
        let refused: Vec<_> = thread::scope(|scope| {
            let threads: Vec<_> = (0..8).map(|_| scope.spawn(draws)).collect();
            threads.into_iter().filter_map(|thread| thread.join().unwrap()).collect()
        });
        assert!(refused.is_empty(), "{refused:?}");
        assert_eq!(given.load(Ordering::Relaxed), 16_000);
    }
}
