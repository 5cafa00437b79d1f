//! Limits that calls ask before their first run.

use super::sys::*;
use super::{Handle, Kind, Status};
use std::mem::{self, MaybeUninit};

/// The kind of a limit.
#[derive(Debug)]
pub(crate) enum LimitKind {}

impl Kind for LimitKind {
    const FREE: unsafe extern "C" fn(*mut Raw) -> u32 = hikebox_limit_free;
}

/// Why a limit refuses: the status, and the number that it tells.
#[derive(Clone, Copy, Debug)]
pub(crate) struct Refusal {
    pub(crate) status: u32,
    pub(crate) number: u64,
}

impl Handle<LimitKind> {
    /// A bucket with these terms, in thousandths of a token.
    pub(crate) fn bucket(terms: BucketTerms) -> Result<Self, Status> {
        let terms = BucketTerms { size: mem::size_of::<BucketTerms>(), ..terms };
        Self::filled(|limit| unsafe { hikebox_bucket_new(&terms, limit) })
    }

    /// A bound on what is in flight.
    pub(crate) fn in_flight(least: u32, share: u32, most: u32) -> Result<Self, Status> {
        Self::filled(|limit| unsafe { hikebox_in_flight_new(least, share, most, limit) })
    }

    /// An adaptive limit.
    pub(crate) fn adaptive(terms: AdaptiveTerms) -> Result<Self, Status> {
        let terms = AdaptiveTerms { size: mem::size_of::<AdaptiveTerms>(), ..terms };
        Self::filled(|limit| unsafe { hikebox_adaptive_new(&terms, limit) })
    }

    /// A breaker with these terms and open times, in milliseconds.
    pub(crate) fn breaker(now: u64, terms: BreakerTerms, times: &[u64]) -> Result<Self, Status> {
        let terms = BreakerTerms { size: mem::size_of::<BreakerTerms>(), ..terms };
        Self::filled(|limit| unsafe { hikebox_breaker_new(now, &terms, times.as_ptr(), times.len(), limit) })
    }

    /// A throttle whose first window begins at this moment.
    pub(crate) fn throttle(now: u64, ratio: u32, period: u64) -> Result<Self, Status> {
        Self::filled(|limit| unsafe { hikebox_throttle_new(now, ratio, period, limit) })
    }

    /// Takes in another limit, which is asked after this one.
    pub(crate) fn both(&mut self, mut second: Self) -> Result<(), Status> {
        Status::of(unsafe { hikebox_limit_both(self.raw(), second.raw()) })
    }

    /// The same limit for another request.
    pub(crate) fn split(&mut self) -> Result<Self, Status> {
        Self::filled(|part| unsafe { hikebox_limit_split(self.raw(), part) })
    }

    /// Asks before the first run of a request.
    pub(crate) fn admit(&mut self, now: u64, random: u32) -> Result<(), Refusal> {
        answered(|number| unsafe { hikebox_limit_admit(self.raw(), now, random, number) })
    }

    /// Asks for a retry.
    pub(crate) fn draw(&mut self, now: u64, cost: u64, random: u32) -> Result<(), Refusal> {
        answered(|number| unsafe { hikebox_limit_draw(self.raw(), now, cost, random, number) })
    }

    /// Tells that a run failed.
    pub(crate) fn failed(&mut self, now: u64) {
        let status = unsafe { hikebox_limit_failed(self.raw(), now) };
        debug_assert_eq!(status, OK);
    }

    /// Tells that a run succeeded.
    pub(crate) fn succeeded(&mut self, now: u64) {
        let status = unsafe { hikebox_limit_succeeded(self.raw(), now) };
        debug_assert_eq!(status, OK);
    }

    /// Tells that the latest retry is cancelled while it waits.
    pub(crate) fn cancelled(&mut self) {
        let status = unsafe { hikebox_limit_cancelled(self.raw()) };
        debug_assert_eq!(status, OK);
    }

    /// Looks whether its limits are quiet, where it has no request; what it sees of them is put here.
    #[inline]
    pub(crate) fn look(&mut self, seen: &mut Seen) -> bool {
        self.looks(seen)
    }

    /// Whether its limits are quiet, where it has no request.
    #[inline]
    pub(crate) fn is_quiet(&mut self) -> bool {
        self.looks(MaybeUninit::uninit().as_mut_ptr())
    }

    #[inline]
    fn looks(&mut self, seen: *mut Seen) -> bool {
        let mut quiet = false;
        let status = unsafe { hikebox_limit_look(self.raw(), seen, &mut quiet) };
        debug_assert_eq!(status, OK);
        quiet
    }

    /// A request begins that was admitted when a quiet look saw this; whether it does.
    pub(crate) fn begin(&mut self, seen: &Seen) -> bool {
        let mut begun = false;
        let status = unsafe { hikebox_limit_begin(self.raw(), seen, &mut begun) };
        debug_assert_eq!(status, OK);
        begun
    }

    /// The state of the first of its limits.
    pub(crate) fn state(&mut self, now: u64) -> State {
        let mut state = State { size: mem::size_of::<State>(), ..State::default() };
        let status = unsafe { hikebox_limit_state(self.raw(), 0, now, &mut state) };
        debug_assert_eq!(status, OK);
        state
    }

    /// Opens its breakers until a moment: whether there is one.
    pub(crate) fn open(&mut self, now: u64, until: u64) -> bool {
        unsafe { hikebox_breaker_open(self.raw(), now, until) == OK }
    }

    /// Closes its breakers: whether there is one.
    pub(crate) fn close(&mut self, now: u64) -> bool {
        unsafe { hikebox_breaker_close(self.raw(), now) == OK }
    }

    /// Tells that the request is over.
    pub(crate) fn ended(&mut self) {
        let status = unsafe { hikebox_limit_ended(self.raw()) };
        debug_assert_eq!(status, OK);
    }
}

/// What a limit answers: asked again where 64 calls of others came first.
fn answered(mut ask: impl FnMut(&mut u64) -> u32) -> Result<(), Refusal> {
    let mut number = 0;
    loop {
        match ask(&mut number) {
            OK => return Ok(()),
            RACES_LOST => {}
            status => return Err(Refusal { status, number }),
        }
    }
}
