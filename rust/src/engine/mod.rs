//! The engine: its calls as safe ones, on handles that own what they hold. All `unsafe` code that calls the engine is
//! in this folder.
#![allow(unsafe_code)]

#[cfg(feature = "leased")]
mod leased;
mod limit;
mod pace;
mod pass;
mod policy;
mod retry;
mod sys;

use std::marker::PhantomData;
use sys::*;

#[cfg(feature = "leased")]
pub(crate) use leased::{lease_of_budget, lease_of_quota, quota_allows, LeasedDraw, LeasedKind, Taken};
pub(crate) use limit::{LimitKind, Refusal};
pub(crate) use pace::PaceKind;
pub(crate) use pass::PassKind;
pub(crate) use policy::{fault, PolicyKind, Size};
pub(crate) use retry::RetryKind;
pub(crate) use sys::{AdaptiveTerms, BreakerTerms, BucketTerms, Seen, State};
#[cfg(feature = "leased")]
pub(crate) use sys::{Asking, Grant, Range, Stored, Ticket};
pub(crate) use sys::{Course, Event, Line, Next, Phase, Place, Population, Run, Storm, Totals, Used, Window};
pub(crate) use sys::{BREAKER_OPEN, LEVEL_LOW, PROBING, REQUESTS_FULL, RETRIES_FULL, THROTTLED};
pub(crate) use sys::{ENDED_CANCELLED, ENDED_DEADLINE, ENDED_DONE, ENDED_LIMIT_REFUSED, ENDED_NO_MEMORY, ENDED_WON};
pub(crate) use sys::{LOST, MAX_NUMBER, MAX_STEPS, MAX_TICKETS, NO_DEADLINE, NO_REPORT, OVER, RUN, WAIT, WON};
pub(crate) use sys::{
    NO_MOST, ON_ADAPTIVE, ON_BREAKER, ON_BUCKET, ON_BUDGET, ON_IN_FLIGHT, ON_NOTHING, ON_QUOTA, ON_THROTTLE,
};
pub(crate) use sys::{STATE_BUCKET, STATE_CLOSED, STATE_HALF_OPEN, STATE_IN_FLIGHT, STATE_OPEN, STATE_THROTTLE};

// SAFETY of the calls in this folder: a pointer is to a handle of the kind that the call wants, or to an empty one that
// it fills; a text or a room is valid for the length that is told; each result has a place of its own; and a handle
// that is lent by `&mut` is used by no other thread. Passes that are joined, and a retry and the pass that it ends
// into, are of one budget or quota: `Pass`, `QuotaPass` and `Machine` keep the one that theirs was split off.

/// Why a call is refused.
#[derive(Clone, Copy, Debug, PartialEq, Eq)]
pub enum Status {
    NoMemory,
    TooLarge,
    NoRoom,
    NotJson,
    NotAPolicy,
    OutOfRange,
    TooDeep,
    TooMany,
    LimitTooLarge,
    Fixed,
    NoTicket,
    TooManyPasses,
    ReserveTooLarge,
    ShareTooLarge,
    PeriodTooShort,
    RacesLost,
    NothingToHandBack,
    /// What no call of this crate is answered, unless the caller is at fault.
    Other(u32),
}

impl Status {
    /// What a call answers.
    #[inline]
    fn of(status: u32) -> Result<(), Self> {
        if status == OK {
            Ok(())
        } else {
            Err(Self::refused(status))
        }
    }

    /// That of a call which is refused.
    #[cold]
    fn refused(status: u32) -> Self {
        match status {
            NO_MEMORY => Self::NoMemory,
            TOO_LARGE => Self::TooLarge,
            NO_ROOM => Self::NoRoom,
            NOT_JSON => Self::NotJson,
            NOT_A_POLICY => Self::NotAPolicy,
            OUT_OF_RANGE => Self::OutOfRange,
            TOO_DEEP => Self::TooDeep,
            TOO_MANY => Self::TooMany,
            LIMIT_TOO_LARGE => Self::LimitTooLarge,
            FIXED => Self::Fixed,
            NO_TICKET => Self::NoTicket,
            TOO_MANY_PASSES => Self::TooManyPasses,
            RESERVE_TOO_LARGE => Self::ReserveTooLarge,
            SHARE_TOO_LARGE => Self::ShareTooLarge,
            PERIOD_TOO_SHORT => Self::PeriodTooShort,
            RACES_LOST => Self::RacesLost,
            NOTHING_TO_HAND_BACK => Self::NothingToHandBack,
            other => Self::Other(other),
        }
    }
}

/// The text that a call writes into the room that it is given: first this, then what it needs.
fn text(room: usize, mut call: impl FnMut(*mut u8, usize, &mut usize) -> u32) -> Result<String, Status> {
    let mut text = vec![0; room];
    loop {
        let mut length = 0;
        match Status::of(call(text.as_mut_ptr(), text.len(), &mut length)) {
            Ok(()) => {
                text.truncate(length);
                return Ok(String::from_utf8_lossy(&text).into_owned());
            }
            Err(Status::NoRoom) => text.resize(length, 0),
            Err(status) => return Err(status),
        }
    }
}

/// What a handle holds.
pub(crate) trait Kind {
    /// Frees it.
    const FREE: unsafe extern "C" fn(*mut Raw) -> u32;
}

/// A handle of one kind, which frees what it holds when it is dropped.
#[derive(Debug)]
pub(crate) struct Handle<K: Kind> {
    raw: Raw,
    kind: PhantomData<K>,
}

// SAFETY: what a handle holds may go to another thread, and is used by one at a time: each call wants `&mut`.
unsafe impl<K: Kind> Send for Handle<K> {}

impl<K: Kind> Handle<K> {
    /// A handle that holds nothing: a call refuses it, or fills it.
    pub(crate) const EMPTY: Self = Self { raw: Raw::EMPTY, kind: PhantomData };

    /// The handle that `call` fills.
    fn filled(call: impl FnOnce(*mut Raw) -> u32) -> Result<Self, Status> {
        let mut handle = Self::EMPTY;
        Status::of(call(&mut handle.raw))?;
        Ok(handle)
    }

    #[inline]
    pub(crate) fn is_empty(&self) -> bool {
        self.raw.held.is_null()
    }

    /// What a call of the engine takes. It holds what its kind says, or nothing, which a call refuses.
    fn raw(&mut self) -> *mut Raw {
        &mut self.raw
    }
}

impl<K: Kind> Drop for Handle<K> {
    #[inline]
    fn drop(&mut self) {
        if !self.is_empty() {
            // SAFETY: the handle was filled by a call that makes this kind. A handle that was emptied is refused.
            unsafe { K::FREE(&mut self.raw) };
        }
    }
}
