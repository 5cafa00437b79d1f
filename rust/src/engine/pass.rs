//! Passes of budgets and quotas.

use super::sys::*;
use super::{Handle, Kind, Status};
use std::mem;

/// The kind of a pass.
#[derive(Debug)]
pub(crate) enum PassKind {}

impl Kind for PassKind {
    const FREE: unsafe extern "C" fn(*mut Raw) -> u32 = hikebox_pass_free;
}

impl Handle<PassKind> {
    pub(crate) fn fixed(limit: u64) -> Result<Self, Status> {
        Self::filled(|pass| unsafe { hikebox_budget_fixed(limit, pass) })
    }

    pub(crate) fn rising(limit: u64) -> Result<Self, Status> {
        Self::filled(|pass| unsafe { hikebox_budget_rising(limit, pass) })
    }

    /// The first pass of a quota, whose windows are counted from the one of this moment, up to [`MAX_NUMBER`].
    pub(crate) fn quota(now: u64, reserve: u64, share: u64, period: u64, carries: bool) -> Result<Self, Status> {
        Self::filled(|pass| unsafe { hikebox_quota_new(now, reserve, share, period, carries, pass) })
    }

    /// A pass that draws on nothing.
    pub(crate) fn unlimited() -> Result<Self, Status> {
        Self::filled(|pass| unsafe { hikebox_pass_unlimited(pass) })
    }

    /// A ticket at this moment, which a quota alone heeds.
    pub(crate) fn draw(&mut self, now: u64) -> Result<u64, Status> {
        let mut ticket = 0;
        Status::of(unsafe { hikebox_pass_draw(self.raw(), now, &mut ticket) })?;
        Ok(ticket)
    }

    /// Counts so many requests of a quota, where they are no more than the pass has parts, and says whether they are.
    pub(crate) fn deposit(&mut self, now: u64, requests: u32) -> bool {
        let status = unsafe { hikebox_pass_deposit(self.raw(), now, requests.into()) };
        debug_assert!([OK, TOO_MANY_REQUESTS].contains(&status));
        status == OK
    }

    /// Hands the latest ticket of a quota back, and says whether there was one.
    pub(crate) fn hand_back(&mut self) -> bool {
        loop {
            match Status::of(unsafe { hikebox_pass_hand_back(self.raw()) }) {
                Ok(()) => return true,
                // As many other tickets came back meanwhile.
                Err(Status::RacesLost) => {}
                Err(status) => {
                    debug_assert_eq!(status, Status::NothingToHandBack);
                    return false;
                }
            }
        }
    }

    pub(crate) fn set_terms(&mut self, reserve: u64, share: u64) -> Result<(), Status> {
        Status::of(unsafe { hikebox_pass_set_terms(self.raw(), reserve, share) })
    }

    pub(crate) fn split(&mut self) -> Result<Self, Status> {
        Self::filled(|part| unsafe { hikebox_pass_split(self.raw(), part) })
    }

    /// Takes the tickets and parts of another pass of the same, which is then empty.
    pub(crate) fn join(&mut self, mut other: Self) {
        let status = unsafe { hikebox_pass_join(self.raw(), other.raw()) };
        debug_assert_eq!(status, OK);
    }

    pub(crate) fn raise(&mut self, to: u64) -> Result<u64, Status> {
        let mut limit = 0;
        Status::of(unsafe { hikebox_pass_raise(self.raw(), to, &mut limit) })?;
        Ok(limit)
    }

    /// What is known of the latest window of a quota.
    pub(crate) fn seen(&mut self, now: u64) -> Used {
        let mut used = Used { size: mem::size_of::<Used>(), ..Used::default() };
        let status = unsafe { hikebox_pass_seen(self.raw(), now, &mut used) };
        debug_assert_eq!(status, OK);
        used
    }

    pub(crate) fn count(&mut self) -> u64 {
        let mut tickets = 0;
        let status = unsafe { hikebox_pass_count(self.raw(), &mut tickets) };
        debug_assert_eq!(status, OK);
        tickets
    }

    pub(crate) fn close(&mut self) -> Result<u64, Status> {
        let mut tickets = 0;
        Status::of(unsafe { hikebox_pass_close(self.raw(), &mut tickets) })?;
        Ok(tickets)
    }
}
