//! What a limit's state is at one moment.

use crate::engine::{self, State};
use std::time::Duration;

/// The state of a limit, as [`CallLimit::seen`](crate::CallLimit::seen) tells it.
#[derive(Clone, Copy, Debug, PartialEq)]
#[non_exhaustive]
pub enum LimitState {
    /// A bucket's tokens, and those of a full one.
    Bucket {
        /// Its tokens.
        level: f64,
        /// Those of a full bucket.
        capacity: f64,
    },
    /// What is in flight.
    InFlight {
        /// The calls.
        requests: u64,
        /// The retries.
        retries: u64,
        /// The calls that there may be; `None` for no bound.
        most: Option<u64>,
    },
    /// A breaker is closed.
    Closed {
        /// The failures that it counts: in a row, or among its last results.
        failures: u64,
    },
    /// A breaker is open. One whose time is over stays open until a call asks.
    Open {
        /// For how long it is open yet.
        left: Duration,
        /// Which time in a row it is open, from 1 on.
        trip: u64,
    },
    /// A breaker is half open.
    HalfOpen {
        /// The probes that it admitted.
        admitted: u64,
        /// Those that succeeded.
        won: u64,
    },
    /// What a throttle counts over its two windows.
    Throttle {
        /// The calls and retries that asked.
        requests: u64,
        /// Those that succeeded.
        accepts: u64,
    },
    /// An adaptive limit.
    Adaptive {
        /// The calls that are under way.
        inside: u64,
        /// How many there may be at once, of which the whole part counts.
        level: f64,
    },
}

impl LimitState {
    pub(crate) fn of(state: &State, now: u64) -> Self {
        let thousandths = |number: u64| number as f64 / 1000.0;
        let (first, second) = (state.first, state.second);
        match state.kind {
            engine::STATE_BUCKET => Self::Bucket { level: thousandths(first), capacity: thousandths(second) },
            engine::STATE_IN_FLIGHT => {
                let most = Some(state.third).filter(|most| *most != u64::from(engine::NO_MOST));
                Self::InFlight { requests: first, retries: second, most }
            }
            engine::STATE_CLOSED => Self::Closed { failures: first },
            engine::STATE_OPEN => {
                Self::Open { left: Duration::from_millis(state.until.saturating_sub(now)), trip: first }
            }
            engine::STATE_HALF_OPEN => Self::HalfOpen { admitted: first, won: second },
            engine::STATE_THROTTLE => Self::Throttle { requests: first, accepts: second },
            _ => Self::Adaptive { inside: first, level: thousandths(second) },
        }
    }
}
