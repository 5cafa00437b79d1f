//! The clock of limits where several runtimes have stopped theirs. A test of its own process: the first limit of a
//! process says when their clock began.
#![cfg(feature = "tokio")]

use hikebox::{retry_async, Breaker, CallLimit, Policy, RefusalReason};
use std::time::Duration;
use tokio::runtime::Builder;
use tokio::time::{advance, sleep};

/// Runs this in a runtime whose clock is stopped at the system's present moment.
fn at_a_stopped_clock(steps: impl std::future::Future<Output = ()>) {
    Builder::new_current_thread().enable_time().start_paused(true).build().unwrap().block_on(steps);
}

fn breaker() -> CallLimit {
    CallLimit::new(Breaker::consecutive(1, r#"{"spaced":30000}"#.parse().unwrap())).unwrap()
}

#[test]
fn a_breaker_opens_and_closes_though_the_first_one_was_made_at_a_later_moment() {
    at_a_stopped_clock(async {
        advance(Duration::from_secs(3600)).await;
        breaker();
    });
    at_a_stopped_clock(async {
        let (limit, once): (_, Policy) = (breaker(), r#"{"recurs":0}"#.parse().unwrap());
        assert!(retry_async(&once, &limit, || async { Err::<(), _>("down") }).await.is_err());
        let refused = limit.request().unwrap().admit().unwrap_err();
        assert_eq!(refused.reason(), RefusalReason::BreakerOpen);
        sleep(refused.retry_after().unwrap()).await;
        assert_eq!(limit.request().unwrap().admit(), Ok(()));
    });
}

#[test]
fn a_breaker_is_open_for_its_time_though_the_first_one_was_made_after_its_clock_had_stopped() {
    at_a_stopped_clock(async {
        std::thread::sleep(Duration::from_millis(50));
        let (limit, once): (_, Policy) = (breaker(), r#"{"recurs":0}"#.parse().unwrap());
        assert!(retry_async(&once, &limit, || async { Err::<(), _>("down") }).await.is_err());
        sleep(Duration::from_secs(30)).await;
        assert_eq!(limit.request().unwrap().admit(), Ok(()));
    });
}
