//! How a retry ends without a value.

use crate::limits::ticket::StoreFailure;
use crate::retry::machine::Cause;
use std::convert::Infallible;
use std::error::Error;
use std::fmt;

/// Why a retry returned no value, with the last error of the call.
///
/// Under a [`CallLimit`](crate::CallLimit) it is a `RetryError<E, Refused>`: the limit may refuse the first run, and
/// then there is no error of the call. All others admit each call, so that `RetryError<E>` always has one.
///
/// Its text contains that of the last error, so it has no [`source`](Error::source); [`RetryError::last`] returns the
/// error itself. It is an [`Error`] for every `E` that can be displayed, including `&str`, `Box<dyn Error>` and
/// `anyhow::Error`, so `?` converts it.
#[derive(Clone, Debug, PartialEq, Eq, Hash)]
#[non_exhaustive]
pub enum RetryError<E, L = Infallible> {
    /// The call failed, and the schedule was done.
    ScheduleDone(E),
    /// The call failed, and the next run would have begun past the deadline.
    Deadline(E),
    /// The call failed, and the limit granted no retry.
    LimitRefused(E),
    /// The call failed with an error that is not retried.
    NotRetried(E),
    /// The call failed, and the store of tickets failed.
    StoreFailed(StoreFailure, E),
    /// The call failed, and the retry could not go on.
    Broken(Cause, E),
    /// The limit refused the first run, so the call was not made.
    NotAdmitted(L),
}

/// The last error of a retry, by reference or by value as the retry's is.
macro_rules! last_of {
    ($error:expr $(, $by:tt)?) => {
        match $error {
            Self::ScheduleDone(error)
            | Self::Deadline(error)
            | Self::LimitRefused(error)
            | Self::NotRetried(error)
            | Self::StoreFailed(_, error)
            | Self::Broken(_, error) => error,
            Self::NotAdmitted(never) => match $($by)? never {},
        }
    };
}

impl<E> RetryError<E> {
    /// The last error of the call.
    pub fn last(&self) -> &E {
        last_of!(self, *)
    }

    /// The last error of the call, by value.
    pub fn into_last(self) -> E {
        last_of!(self)
    }
}

impl<E: fmt::Display, L: fmt::Display> fmt::Display for RetryError<E, L> {
    // `{:#}` of an `anyhow::Error` has its causes; of most errors it is their text.
    fn fmt(&self, f: &mut fmt::Formatter<'_>) -> fmt::Result {
        match self {
            Self::ScheduleDone(error) => write!(f, "{error:#} (the schedule was done)"),
            Self::Deadline(error) => write!(f, "{error:#} (the deadline leaves no time for a retry)"),
            Self::LimitRefused(error) => write!(f, "{error:#} (the limit refused a retry)"),
            Self::NotRetried(error) => write!(f, "{error:#} (not an error to be retried)"),
            Self::StoreFailed(store, error) => write!(f, "{error:#} (the store of retry tickets failed: {store})"),
            Self::Broken(cause, error) => write!(f, "{error:#} (the retry could not go on: {cause})"),
            Self::NotAdmitted(refused) => write!(f, "the call was not admitted: {refused}"),
        }
    }
}

impl<E: fmt::Debug + fmt::Display, L: fmt::Debug + fmt::Display> Error for RetryError<E, L> {}

impl fmt::Display for Cause {
    fn fmt(&self, f: &mut fmt::Formatter<'_>) -> fmt::Result {
        f.write_str(match self {
            Self::NoMemory => "no memory",
            Self::Backwards => "the clock went back",
            Self::StoreFailed => "the store of tickets failed",
        })
    }
}
