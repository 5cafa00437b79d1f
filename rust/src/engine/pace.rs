//! Paces: when each call may begin.

use super::sys::*;
use super::{Handle, Kind, Status};

/// The kind of a pace.
#[derive(Debug)]
pub(crate) enum PaceKind {}

impl Kind for PaceKind {
    const FREE: unsafe extern "C" fn(*mut Raw) -> u32 = hikebox_pace_free;
}

impl Handle<PaceKind> {
    /// A pace with these terms: microseconds a call, calls at once, and milliseconds of a wait.
    pub(crate) fn pace(each: u64, burst: u64, longest: u64) -> Result<Self, Status> {
        Self::filled(|pace| unsafe { hikebox_pace_new(each, burst, longest, pace) })
    }

    /// The same pace for another call.
    pub(crate) fn split_pace(&mut self) -> Result<Self, Status> {
        Self::filled(|part| unsafe { hikebox_pace_split(self.raw(), part) })
    }

    /// When a call of this cost may begin; or when it would be granted.
    pub(crate) fn take(&mut self, now: u64, cost: u64) -> Result<u64, u64> {
        let mut at = 0;
        loop {
            match unsafe { hikebox_pace_take(self.raw(), now, cost, &mut at) } {
                RACES_LOST => {}
                TOO_SOON => return Err(at),
                status => {
                    debug_assert_eq!(status, OK);
                    return Ok(at);
                }
            }
        }
    }

    /// Gives the last take back, where no other was granted since.
    pub(crate) fn give_back(&mut self) {
        let mut given = false;
        let status = unsafe { hikebox_pace_give_back(self.raw(), &mut given) };
        debug_assert_eq!(status, OK);
    }

    /// When a call would begin now.
    pub(crate) fn next(&mut self, now: u64) -> u64 {
        let mut at = 0;
        let status = unsafe { hikebox_pace_seen(self.raw(), now, &mut at) };
        debug_assert_eq!(status, OK);
        at
    }
}
