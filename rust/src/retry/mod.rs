//! Retries and repeats: their settings, the loops that run a call, and the machine that decides.

mod asynchronous;
mod attempts;
mod blocking;
#[cfg(any(feature = "prometheus", feature = "tracing"))]
mod course;
#[cfg(not(any(feature = "prometheus", feature = "tracing")))]
#[path = "no_course.rs"]
mod course;
mod error;
mod hooks;
mod host;
#[cfg(feature = "tower")]
mod layer;
pub(crate) mod machine;
mod options;
mod progress;
mod repeating;
mod retrying;
mod rules;
mod runs;
#[cfg(feature = "tower")]
mod service;
mod stepped;
mod timed;
mod yields;

pub use crate::clock::{Clock, SystemClock};
#[cfg(feature = "tokio")]
pub use asynchronous::retry_async;
#[cfg(all(feature = "tokio", hikebox_async_closures))]
pub use asynchronous::retry_async_mut;
pub use asynchronous::{Async, AsyncSleep, Retryable};
pub use attempts::Attempt;
pub use blocking::{retry, Blocking, BlockingRetryable};
pub use error::RetryError;
pub use hooks::{Hooked, Hooks, NoHook, PlainHooks, SharedHooks};
pub use host::{Host, Random, Sleep, SystemHost, SystemRandom, SystemSleep};
#[cfg(feature = "tower")]
pub use layer::{LayerError, RetryLayer};
pub use machine::{Cause, Ending, Machine, Report, Step};
pub use repeating::{poll_until, repeat, RepeatError, Repeating};
#[cfg(feature = "tokio")]
pub use repeating::{poll_until_async, repeat_async};
pub use retrying::{Retrying, SharedRetrying};
#[cfg(feature = "tower")]
pub use service::{RetryCall, RetryService};
pub use timed::{AttemptTimeout, Timed};
