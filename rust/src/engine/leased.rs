//! Passes that draw from leases, and the leases that a store grants.

use super::sys::*;
use super::{Handle, Kind, Status};

/// The kind of a pass that draws from leases.
#[derive(Debug)]
pub(crate) enum LeasedKind {}

impl Kind for LeasedKind {
    const FREE: unsafe extern "C" fn(*mut Raw) -> u32 = hikebox_leased_free;
}

/// What a draw of a leased pass answers.
pub(crate) enum LeasedDraw {
    Ticket(Ticket),
    /// None is at hand, and the store may be asked.
    LeaseWanted,
    /// None is at hand, and the store is left alone until this moment.
    NotBefore(u64),
    NoMemory,
}

/// What becomes of a range that a store granted.
#[derive(Debug, PartialEq, Eq)]
pub(crate) enum Taken {
    Yes,
    /// It is of a window that is over, or there is no memory for it: its tickets are lost.
    Lost,
    /// The pass has, or had, some of its numbers.
    HeldAlready,
}

impl Handle<LeasedKind> {
    /// A leased pass that holds nothing, of a store whose windows are so many milliseconds long, or which has none.
    pub(crate) fn leased(period: Option<u64>) -> Result<Self, Status> {
        Self::filled(|leased| unsafe { hikebox_leased_new(period.unwrap_or(0).min(MAX_NUMBER), leased) })
    }

    pub(crate) fn draw(&mut self, now: u64) -> LeasedDraw {
        let (mut ticket, mut again) = (Ticket::default(), 0);
        match unsafe { hikebox_leased_draw(self.raw(), now, &mut ticket, &mut again) } {
            OK => LeasedDraw::Ticket(ticket),
            LEASE_WANTED => LeasedDraw::LeaseWanted,
            NO_TICKET => LeasedDraw::NotBefore(again),
            status => {
                debug_assert_eq!(status, NO_MEMORY);
                LeasedDraw::NoMemory
            }
        }
    }

    pub(crate) fn granted(&mut self, grant: &Grant) -> Taken {
        match unsafe { hikebox_leased_granted(self.raw(), grant) } {
            OK => Taken::Yes,
            HELD_ALREADY => Taken::HeldAlready,
            status => {
                debug_assert!([BACKWARDS, NO_MEMORY].contains(&status));
                Taken::Lost
            }
        }
    }

    /// Leaves the store alone until this moment; 0 where it may be asked.
    pub(crate) fn leave_alone(&mut self, until: u64) {
        let status = unsafe { hikebox_leased_leave_alone(self.raw(), until.min(MAX_NUMBER)) };
        debug_assert_eq!(status, OK);
    }

    /// Takes a ticket back, where it is out, and says whether it was.
    pub(crate) fn hand_back(&mut self, ticket: Ticket) -> bool {
        let status = unsafe { hikebox_leased_hand_back(self.raw(), &ticket) };
        debug_assert!([OK, NOT_OUT, NO_MEMORY].contains(&status));
        status == OK
    }

    /// Counts so many requests. (Where there is no memory for that, none is counted.)
    pub(crate) fn deposit(&mut self, now: u64, requests: u64) {
        let status = unsafe { hikebox_leased_deposit(self.raw(), now, requests) };
        debug_assert!([OK, NO_MEMORY].contains(&status));
    }

    /// The requests since this moment that are to be told the store: none is answered again.
    pub(crate) fn tell(&mut self, since: u64) -> u64 {
        let mut requests = 0;
        let status = unsafe { hikebox_leased_tell(self.raw(), since.min(MAX_NUMBER), &mut requests) };
        debug_assert_eq!(status, OK);
        requests
    }

    /// The requests that were not told.
    pub(crate) fn untold(&mut self) -> u64 {
        let (mut drawn, mut at_hand, mut untold) = (0, 0, 0);
        let status = unsafe { hikebox_leased_seen(self.raw(), &mut drawn, &mut at_hand, &mut untold) };
        debug_assert_eq!(status, OK);
        untold
    }
}

/// Leases tickets of a budget that has so many. `None` where the store counts a later window.
pub(crate) fn lease_of_budget(limit: u64, asking: Asking, stored: &mut Stored) -> Option<Range> {
    let mut range = Range::default();
    // SAFETY: the call reads and writes these three alone, which are its own.
    let status = unsafe { hikebox_lease_of_budget(limit, &asking, stored, &mut range) };
    (status == OK).then_some(range)
}

/// The same of a window of a quota that has this reserve and this share.
pub(crate) fn lease_of_quota(reserve: u64, share: u64, asking: Asking, stored: &mut Stored) -> Option<Range> {
    let mut range = Range::default();
    // SAFETY: as of a budget.
    let status = unsafe { hikebox_lease_of_quota(reserve, share, &asking, stored, &mut range) };
    (status == OK).then_some(range)
}

/// How many tickets a window of so many requests gives.
pub(crate) fn quota_allows(reserve: u64, share: u64, asked: u64) -> u64 {
    let mut tickets = 0;
    // SAFETY: the call writes this number alone.
    let status = unsafe { hikebox_quota_allows(reserve, share, asked, &mut tickets) };
    debug_assert_eq!(status, OK);
    tickets
}
