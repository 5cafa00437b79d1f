//! Why a limit rejects a call.

use crate::engine::Status;
use std::error::Error;
use std::fmt;

/// Why a limit rejects a call.
#[derive(Clone, Copy, Debug, PartialEq, Eq, Hash)]
#[non_exhaustive]
pub enum LimitError {
    /// The limit is above 4,294,967,296.
    LimitTooLarge,
    /// The budget was made by [`Budget::new`](crate::Budget::new), so its limit is fixed.
    Fixed,
    /// The reserve is above 4,294,967,296 retries a window.
    ReserveTooLarge,
    /// The share is below 0, above 1000 retries for each request, not a number, or above 0 and below half a thousandth.
    ShareOutOfRange,
    /// The window is shorter than 100 milliseconds.
    PeriodTooShort,
    /// The window is longer than 2^62 - 1 milliseconds.
    PeriodTooLong,
    /// The name of a `Leased` or a `LeasedQuota` is empty, or longer than 255 bytes.
    NameLength {
        /// Its length, in bytes.
        bytes: usize,
    },
    /// A number of a [`CallLimit`](crate::CallLimit) or a [`Rate`](crate::Rate) is out of its range.
    OutOfRange {
        /// The field, or the argument, that has it.
        parameter: &'static str,
        /// What it may be.
        expected: &'static str,
    },
    /// More than four limits are joined by [`both`](crate::both()).
    TooManyLimits,
    /// A limit is joined with itself by [`both`](crate::both()).
    SameLimit,
    /// Buckets are joined by [`both`](crate::both()) of which a retry takes different amounts.
    CostsDiffer,
    /// No limit is a breaker, of which one is to be opened or closed.
    NoBreaker,
    /// More than 2^42 passes are alive.
    TooManyPasses,
    /// Memory ran out.
    NoMemory,
}

impl LimitError {
    pub(crate) fn of(status: Status) -> Self {
        match status {
            Status::LimitTooLarge => Self::LimitTooLarge,
            Status::Fixed => Self::Fixed,
            Status::ReserveTooLarge => Self::ReserveTooLarge,
            Status::ShareTooLarge => Self::ShareOutOfRange,
            Status::PeriodTooShort => Self::PeriodTooShort,
            Status::TooLarge => Self::PeriodTooLong,
            Status::TooManyPasses => Self::TooManyPasses,
            Status::NoMemory => Self::NoMemory,
            status => unreachable!("the engine's status {status:?}"),
        }
    }
}

impl fmt::Display for LimitError {
    fn fmt(&self, f: &mut fmt::Formatter<'_>) -> fmt::Result {
        f.write_str(match self {
            Self::NameLength { bytes } => return write!(f, "expected a name of 1 to 255 bytes, got {bytes}"),
            Self::OutOfRange { parameter, expected } => {
                return write!(f, "{parameter}: expected {expected}, got another")
            }
            Self::LimitTooLarge => "expected a limit of at most 4294967296, got more",
            Self::Fixed => "expected a budget that can rise, got one with a fixed limit",
            Self::ReserveTooLarge => "expected a reserve of at most 4294967296 retries a window, got more",
            Self::ShareOutOfRange => {
                "expected a share of 0, or from 0.001 to 1000 retries a request (0.2 is one for every five), got another"
            }
            Self::PeriodTooShort => "expected a window of at least 100 milliseconds, got a shorter one",
            Self::PeriodTooLong => "expected a window of at most 2^62 - 1 milliseconds, got a longer one",
            Self::TooManyLimits => "expected at most four limits at once, got more",
            Self::SameLimit => "expected limits that differ, got one of them twice",
            Self::CostsDiffer => "expected buckets of which a retry takes the same amount, got different ones",
            Self::NoBreaker => "expected a breaker to open or close, got none",
            Self::TooManyPasses => "expected at most 2^42 passes at once, got one more",
            Self::NoMemory => "no memory",
        })
    }
}

impl Error for LimitError {}
