//! Why a limit refuses a call or a retry.

use crate::engine::{self, Refusal};
use std::error::Error;
use std::fmt;
use std::time::Duration;

/// Why a limit refuses a first run or a retry.
#[derive(Clone, Copy, Debug, PartialEq, Eq, Hash)]
pub struct Refused {
    reason: RefusalReason,
    retry_after: Option<Duration>,
}

/// The reasons of a [`Refused`].
#[derive(Clone, Copy, Debug, PartialEq, Eq, Hash)]
#[non_exhaustive]
pub enum RefusalReason {
    /// The bucket's level is too low.
    LevelLow,
    /// Too many calls are in flight.
    RequestsFull,
    /// Too many retries are in flight.
    RetriesFull,
    /// The breaker is open.
    BreakerOpen,
    /// The breaker is half open, and its probes are out.
    Probing,
    /// The throttle refuses.
    Throttled,
    /// A request asks to be admitted once before it draws.
    OutOfTurn,
    /// Memory ran out.
    NoMemory,
}

impl RefusalReason {
    /// The name by which it is told.
    pub(crate) fn told(self) -> &'static str {
        match self {
            Self::LevelLow => "level_low",
            Self::RequestsFull => "requests_full",
            Self::RetriesFull => "retries_full",
            Self::BreakerOpen => "breaker_open",
            Self::Probing => "probing",
            Self::Throttled => "throttled",
            Self::OutOfTurn => "out_of_turn",
            Self::NoMemory => "no_memory",
        }
    }
}

impl Refused {
    pub(crate) fn of(refusal: Refusal, now: u64) -> Self {
        let reason = match refusal.status {
            engine::LEVEL_LOW => RefusalReason::LevelLow,
            engine::REQUESTS_FULL => RefusalReason::RequestsFull,
            engine::RETRIES_FULL => RefusalReason::RetriesFull,
            engine::BREAKER_OPEN => RefusalReason::BreakerOpen,
            engine::PROBING => RefusalReason::Probing,
            engine::THROTTLED => RefusalReason::Throttled,
            _ => RefusalReason::OutOfTurn,
        };
        let is_open = reason == RefusalReason::BreakerOpen;
        let retry_after = is_open.then(|| Duration::from_millis(refusal.number.saturating_sub(now)));
        Self { reason, retry_after }
    }

    pub(crate) fn of_memory() -> Self {
        Self { reason: RefusalReason::NoMemory, retry_after: None }
    }

    /// Why.
    #[must_use]
    pub fn reason(&self) -> RefusalReason {
        self.reason
    }

    /// How long the breaker is open yet, if that is why.
    #[must_use]
    pub fn retry_after(&self) -> Option<Duration> {
        self.retry_after
    }
}

impl fmt::Display for Refused {
    fn fmt(&self, f: &mut fmt::Formatter<'_>) -> fmt::Result {
        f.write_str(match self.reason {
            RefusalReason::LevelLow => "the bucket's level is too low",
            RefusalReason::RequestsFull => "too many calls are in flight",
            RefusalReason::RetriesFull => "too many retries are in flight",
            RefusalReason::BreakerOpen => "the breaker is open",
            RefusalReason::Probing => "the breaker's probes are out",
            RefusalReason::Throttled => "the throttle refuses",
            RefusalReason::OutOfTurn => "the call is out of turn",
            RefusalReason::NoMemory => "no memory",
        })
    }
}

impl Error for Refused {}
