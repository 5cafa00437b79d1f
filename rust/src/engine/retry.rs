//! Retries of the engine.

use super::pass::PassKind;
use super::policy::PolicyKind;
use super::sys::*;
use super::{Handle, Kind, Status};
use std::mem;

impl Next {
    /// What is told before the first step.
    pub(crate) const NOTHING: Self =
        Self { size: mem::size_of::<Self>(), what: 0, how: 0, until: 0, granted: 0, runs: 0, left: 0 };
}

/// The kind of a retry.
#[derive(Debug)]
pub(crate) enum RetryKind {}

impl Kind for RetryKind {
    const FREE: unsafe extern "C" fn(*mut Raw) -> u32 = hikebox_retry_free;
}

impl Handle<RetryKind> {
    /// Fills the handle with a retry that has a pass of its own, and a deadline up to [`MAX_NUMBER`], or
    /// [`NO_DEADLINE`].
    #[inline]
    pub(crate) fn begin(
        &mut self,
        policy: &mut Handle<PolicyKind>,
        pass: &mut Handle<PassKind>,
        deadline: u64,
    ) -> Result<(), Status> {
        Status::of(unsafe { hikebox_retry_new(policy.raw(), pass.raw(), deadline, self.raw()) })
    }

    /// Begins this run, where one may begin, and ends it as it is reported; tells what it is at then, or says that it is
    /// refused.
    #[inline]
    pub(crate) fn ran(&mut self, run: &Run, told: &mut Next) -> bool {
        let status = unsafe { hikebox_retry_ran(self.raw(), run, told) };
        status == OK || self.begins_late(run, told)
    }

    /// Past its deadline it is over at the beginning of the run.
    #[cold]
    fn begins_late(&mut self, run: &Run, told: &mut Next) -> bool {
        self.poll(run.began, &run.words, NO_REPORT, 0, told)
    }

    /// Steps it, and tells what it is at; or says that it is refused, as a report of no run is, and what was told
    /// before stays.
    #[inline]
    pub(crate) fn poll(&mut self, now: u64, words: &[u32; 4], report: u32, code: u64, told: &mut Next) -> bool {
        let status = unsafe { hikebox_retry_poll(self.raw(), now, words, report, code, told) };
        status == OK
    }

    /// Ends it as cancelled where it is not over, and tells how it ended: a poll of what is over changes nothing.
    pub(crate) fn cancel(&mut self, told: &mut Next) {
        let status = unsafe { hikebox_retry_cancel(self.raw()) };
        debug_assert_eq!(status, OK);
        let told = self.poll(0, &[0; 4], NO_REPORT, 0, told);
        debug_assert!(told);
    }

    /// Begins again with its pass, which keeps the tickets that it has, and with a deadline as of [`Self::begin`].
    #[inline]
    pub(crate) fn again(&mut self, deadline: u64) {
        let status = unsafe { hikebox_retry_again(self.raw(), deadline) };
        debug_assert_eq!(status, OK);
    }

    /// Gives its pass back to one of the same: it holds nothing then.
    #[inline]
    pub(crate) fn end(&mut self, pass: &mut Handle<PassKind>) {
        let status = unsafe { hikebox_retry_end(self.raw(), pass.raw()) };
        debug_assert_eq!(status, OK);
    }
}
