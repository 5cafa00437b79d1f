#![doc = include_str!("../README.md")]
//!
//! ## Where to look
//!
//! - [`retry()`], or [`Retrying`] with options: which errors are retried, the numbers by which the schedule tests them,
//!   a deadline for the call with all its runs, and a function that is called before each retry.
//! - [`BlockingRetryable`] and [`Retryable`] retry a call by a method on it.
//! - [`repeat`] runs a call again after each success, and [`poll_until`] until you accept its value. [`Repeating`] adds
//!   a deadline, and a clock and a sleep of your own.
//! - [`Retrying::attempt_timeout`] ends a run of a future that takes too long, and [`Retrying::hedge_after`] has another
//!   one begin beside it. [`Retrying::sleep`] takes the sleep of any runtime.
//! - [`Machine`] is a retry that you step yourself, by a clock of your own. A store of your own implements [`Tickets`].
//! - [`Storm`] shows what a policy does to a peer that fails for a while, when thousands of calls fail together, also
//!   beside another [`Population`] of clients; a [`Sweep`] plays storms along a parameter.
//!
//! ## Features
//!
//! None is on by default.
//!
//! - `tokio`: `retry_async` retries futures, by tokio's timer.
//! - `tower`: `RetryLayer` is a layer that retries a service's requests, under any limit, and `PaceLayer` one by which
//!   they wait for a [`Pace`].
//! - `leased`: all processes of a machine can share a `Leased` or a `LeasedQuota`, which count in a folder.
//! - `serde`: a configuration can contain a policy and a quota.
//! - `tracing`: each call is a span, with events for its retries and its end. `prometheus`: `register_metrics` counts
//!   calls. [`Retrying`] then has `named`.

#![deny(unsafe_code)]

mod clock;
mod engine;
#[cfg(all(feature = "tokio", target_os = "linux"))]
mod instants;
#[cfg(feature = "leased")]
mod leased;
mod limits;
#[cfg(feature = "prometheus")]
mod metrics;
mod paces;
mod policy;
mod random;
mod retry;
#[cfg(feature = "serde")]
mod serial;
mod storms;
mod system;

#[cfg(feature = "leased")]
pub use leased::{Leased, LeasedQuota, StoreError};
pub use limits::*;
#[cfg(feature = "prometheus")]
pub use metrics::register_metrics;
pub use paces::*;
pub use policy::{Fold, Line, Policy, PolicyError, PolicyFault, Schedule, Test, Waits};
pub use retry::*;
pub use storms::*;

#[cfg(doctest)]
mod pages {
    #[cfg(all(hikebox_pages, feature = "leased", feature = "prometheus", feature = "tokio", hikebox_async_closures))]
    #[doc = include_str!("../../docs/RUST.md")]
    struct Guide;

    #[cfg(all(hikebox_pages, feature = "tower"))]
    #[doc = include_str!("../../docs/FROM-TOWER.md")]
    struct FromTower;

    #[cfg(hikebox_pages)]
    #[doc = include_str!("../../docs/FROM-BACKOFF.md")]
    struct FromBackoff;

    /// A match on what may grow has an arm for the rest:
    ///
    /// ```compile_fail,E0004
    /// use hikebox::RetryError::{self, *};
    /// fn last(error: RetryError<u8>) -> u8 {
    ///     match error {
    ///         ScheduleDone(last) | Deadline(last) | LimitRefused(last) | NotRetried(last) => last,
    ///         StoreFailed(_, last) | Broken(_, last) => last,
    ///         NotAdmitted(never) => match never {},
    ///     }
    /// }
    /// ```
    ///
    /// ```compile_fail,E0004
    /// use hikebox::Ending::{self, *};
    /// fn won(ended: Ending) -> bool {
    ///     match ended {
    ///         Won => true,
    ///         ScheduleDone | Deadline | LimitRefused | Cancelled | Broken(_) => false,
    ///     }
    /// }
    /// ```
    ///
    /// ```compile_fail,E0004
    /// use hikebox::PolicyFault::{self, *};
    /// fn is_json(fault: PolicyFault) -> bool {
    ///     match fault {
    ///         NotJson { .. } => false,
    ///         NotAPolicy | OutOfRange | TooMany | TooDeep | NoMemory => true,
    ///     }
    /// }
    /// ```
    ///
    /// What only this crate makes can't be made elsewhere:
    ///
    /// ```compile_fail,E0639
    /// hikebox::Usage { window: 0, asked: 0, given: 0, left: 0, next: Default::default() };
    /// ```
    ///
    /// ```compile_fail,E0639
    /// hikebox::Line { moment: 0, output: String::new(), next: None };
    /// ```
    struct Grows;

    /// The compiler warns if a value that does nothing by itself, or a ticket, is dropped:
    ///
    /// ```compile_fail
    /// #![deny(unused_must_use)]
    /// hikebox::Retrying::<u8>::new(&"{\"recurs\":3}".parse().unwrap(), &hikebox::Unlimited).max_retry_after(Default::default());
    /// ```
    ///
    /// ```compile_fail
    /// #![deny(unused_must_use)]
    /// hikebox::Schedule::recurs(3).nothing();
    /// ```
    ///
    /// ```compile_fail
    /// #![deny(unused_must_use)]
    /// fn goes_on(machine: &mut hikebox::Machine) {
    ///     machine.step(Default::default(), None);
    /// }
    /// ```
    ///
    /// ```compile_fail
    /// #![deny(unused_must_use)]
    /// fn draws(pass: &mut hikebox::Pass) {
    ///     pass.draw();
    /// }
    /// ```
    struct IsUsed;
}
