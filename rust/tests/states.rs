//! Bulkheads, breakers by their last results and adaptive limits: rows worked by hand; and what a limit lets see.

mod common;

use common::{admitted, policy};
use hikebox::RefusalReason::{BreakerOpen, RequestsFull};
use hikebox::{
    both, Adaptive, Breaker, BreakerState, Bucket, CallLimit, InFlight, LimitError, LimitState, Request, RetryError,
    Retrying, Throttle,
};
use std::cell::Cell;
use std::panic::{catch_unwind, AssertUnwindSafe};
use std::sync::{Arc, Mutex};
use std::thread;
use std::time::{Duration, Instant};

fn one(limit: &CallLimit) -> LimitState {
    let [state]: [LimitState; 1] = limit.seen().try_into().expect("one limit");
    state
}

#[test]
fn of_three_calls_two_are_in_flight() {
    let limit = CallLimit::new(InFlight { least: 3, share: 0.2, most: Some(2) }).unwrap();
    let (first, _second) = (admitted(&limit), admitted(&limit));
    let mut third = limit.request().unwrap();
    assert_eq!(third.admit().unwrap_err().reason(), RequestsFull);
    assert_eq!(one(&limit), LimitState::InFlight { requests: 2, retries: 0, most: Some(2) });
    drop(first);
    third.admit().unwrap();
}

#[test]
fn a_bulkhead_grants_each_of_its_calls_a_retry() {
    let limit = CallLimit::new(InFlight::bulkhead(2)).unwrap();
    let mut calls = [admitted(&limit), admitted(&limit)];
    for call in &mut calls {
        call.failed();
        call.draw().unwrap();
    }
    assert_eq!(one(&limit), LimitState::InFlight { requests: 2, retries: 2, most: Some(2) });
    assert!(limit.request().unwrap().admit().is_err());
}

#[test]
fn two_of_the_last_three_open_it() {
    let breaker = CallLimit::new(Breaker::of_last(2, 3, policy(r#"{"spaced":30000}"#))).unwrap();
    let mut calls: Vec<Request> = (0..5).map(|_| admitted(&breaker)).collect();
    calls[0].failed();
    assert_eq!(one(&breaker), LimitState::Closed { failures: 1 });
    calls[1].succeeded();
    calls[2].succeeded();
    calls[3].failed();
    assert_eq!(one(&breaker), LimitState::Closed { failures: 1 });
    calls[4].failed();
    assert!(matches!(one(&breaker), LimitState::Open { trip: 1, left } if left > Duration::from_secs(20)));
    assert_eq!(breaker.request().unwrap().admit().unwrap_err().reason(), BreakerOpen);
}

#[test]
fn what_succeeds_raises_it_and_what_fails_lowers_it() {
    let limit = CallLimit::new(Adaptive { least: 1, most: 10, first: 2, backoff: 0.9 }).unwrap();
    let (mut first, mut second) = (admitted(&limit), admitted(&limit));
    assert_eq!(limit.request().unwrap().admit().unwrap_err().reason(), RequestsFull);
    first.succeeded();
    drop(first);
    assert_eq!(one(&limit), LimitState::Adaptive { inside: 1, level: 2.5 });
    second.failed();
    drop(second);
    assert_eq!(one(&limit), LimitState::Adaptive { inside: 0, level: 2.25 });
}

#[test]
fn threads_under_an_adaptive_limit_leave_nothing_inside() {
    let limit = CallLimit::new(Adaptive { least: 2, most: 8, first: 4, backoff: 0.9 }).unwrap();
    let calls = || {
        for number in 0..300 {
            let mut request = limit.request().unwrap();
            if request.admit().is_ok() {
                match number % 7 {
                    0 => request.failed(),
                    _ => request.succeeded(),
                }
            }
        }
    };
    thread::scope(|scope| (0..8).for_each(|_| drop(scope.spawn(calls))));
    assert!(matches!(one(&limit), LimitState::Adaptive { inside: 0, level } if (2.0..=8.0).contains(&level)));
}

#[test]
fn states_of_several_limits() {
    let bucket = CallLimit::new(Bucket::grpc(4, 0.5).unwrap()).unwrap();
    let throttle = CallLimit::new(Throttle { ratio: 2.0, period: Duration::from_secs(60) }).unwrap();
    let limit = both(&bucket, &throttle).unwrap();
    admitted(&limit).failed();
    let bucket_state = LimitState::Bucket { level: 3.0, capacity: 4.0 };
    assert_eq!(limit.seen(), [bucket_state, LimitState::Throttle { requests: 1, accepts: 0 }]);
    assert_eq!(limit.close(), Err(LimitError::NoBreaker));
    assert_eq!(bucket.open(Duration::from_secs(1)), Err(LimitError::NoBreaker));
}

#[test]
fn a_breaker_is_opened_and_closed_by_hand() {
    let breaker = CallLimit::new(Breaker::consecutive(2, policy(r#"{"spaced":30000}"#))).unwrap();
    let limit = both(&CallLimit::new(Bucket::aws()).unwrap(), &breaker).unwrap();
    let mut before = admitted(&breaker);
    limit.open(Duration::from_secs(3600)).unwrap();
    assert!(matches!(one(&breaker), LimitState::Open { trip: 1, left } if left > Duration::from_secs(3000)));
    before.succeeded();
    assert!(limit.request().unwrap().admit().is_err());
    breaker.close().unwrap();
    before.failed();
    before.failed();
    assert_eq!(one(&breaker), LimitState::Closed { failures: 0 });
    assert!(limit.request().unwrap().admit().is_ok());
}

use BreakerState::{Closed, HalfOpen, Open};

type Heard = Arc<Mutex<Vec<(BreakerState, BreakerState)>>>;

/// A breaker of two failures that is open for a millisecond, and the changes that it tells.
fn heard_breaker() -> (CallLimit, Heard) {
    let heard = Heard::default();
    let hears = heard.clone();
    let terms = Breaker::consecutive(2, policy(r#"{"spaced":1}"#));
    let breaker = CallLimit::with_on_change(terms, move |before, after| hears.lock().unwrap().push((before, after)));
    (breaker.unwrap(), heard)
}

fn taken(heard: &Heard) -> Vec<(BreakerState, BreakerState)> {
    std::mem::take(&mut heard.lock().unwrap())
}

/// A request that is admitted as soon as the limit does.
fn admitted_in_time(limit: &CallLimit) -> Request {
    let mut request = limit.request().unwrap();
    while request.admit().is_err() {
        thread::sleep(Duration::from_millis(1));
    }
    request
}

#[test]
fn each_change_is_told_once() {
    let (breaker, heard) = heard_breaker();
    let mut first = admitted(&breaker);
    first.failed();
    assert_eq!(taken(&heard), []);
    first.failed();
    assert_eq!(taken(&heard), [(Closed, Open)]);
    let mut probe = admitted_in_time(&breaker);
    assert_eq!(taken(&heard), [(Open, HalfOpen)]);
    probe.failed();
    assert_eq!(taken(&heard), [(HalfOpen, Open)]);
    admitted_in_time(&breaker).succeeded();
    assert_eq!(taken(&heard), [(Open, HalfOpen), (HalfOpen, Closed)]);
    breaker.open(Duration::from_secs(60)).unwrap();
    breaker.open(Duration::from_secs(90)).unwrap();
    breaker.close().unwrap();
    assert_eq!(taken(&heard), [(Closed, Open), (Open, Closed)]);
}

#[test]
fn a_retry_tells_the_change_that_it_makes() {
    let (breaker, heard) = heard_breaker();
    let limit = both(&CallLimit::new(Bucket::aws()).unwrap(), &breaker).unwrap();
    let answer = hikebox::retry(&policy(r#"{"recurs":9}"#), &limit, || Err::<(), _>("down"));
    assert_eq!(answer, Err(hikebox::RetryError::LimitRefused("down")));
    assert_eq!(taken(&heard), [(Closed, Open)]);
    limit.close().unwrap();
    assert_eq!(taken(&heard), [(Open, Closed)]);
}

#[test]
fn threads_tell_changes_in_their_order() {
    let (breaker, heard) = heard_breaker();
    let calls = |thread: usize| {
        for number in 0..300 {
            let mut request = breaker.request().unwrap();
            match (request.admit(), (thread + number) % 3) {
                (Ok(()), 0) => request.succeeded(),
                (Ok(()), _) => request.failed(),
                (Err(_), 0) => breaker.close().unwrap(),
                (Err(_), _) => thread::yield_now(),
            }
        }
    };
    let calls = &calls;
    thread::scope(|scope| (0..8).for_each(|number| drop(scope.spawn(move || calls(number)))));
    breaker.close().unwrap();
    let heard = taken(&heard);
    assert!(heard.len() > 2, "{heard:?}");
    assert_eq!((heard[0].0, heard[heard.len() - 1].1), (Closed, Closed));
    assert!(heard.iter().all(|(before, after)| before != after));
    assert!(heard.windows(2).all(|two| two[0].1 == two[1].0), "{heard:?}");
}

#[test]
fn what_hears_of_a_change_may_change_it_again_or_panic() {
    let heard = Heard::default();
    let hears = heard.clone();
    let made = Arc::new(Mutex::new(None::<CallLimit>));
    let limit = made.clone();
    let on_change = move |before, after| {
        let mut all = hears.lock().unwrap();
        all.push((before, after));
        let count = all.len();
        drop(all);
        assert!(count != 3, "heard enough");
        if count == 1 {
            let breaker = limit.lock().unwrap().clone();
            breaker.unwrap().close().unwrap();
        }
    };
    let terms = Breaker::consecutive(2, policy(r#"{"spaced":30000}"#));
    let breaker = CallLimit::with_on_change(terms, on_change).unwrap();
    *made.lock().unwrap() = Some(breaker.clone());
    breaker.open(Duration::from_secs(60)).unwrap();
    assert_eq!(*heard.lock().unwrap(), [(Closed, Open), (Open, Closed)]);
    assert!(catch_unwind(AssertUnwindSafe(|| breaker.open(Duration::from_secs(60)))).is_err());
    breaker.close().unwrap();
    assert_eq!(taken(&heard)[2..], [(Closed, Open), (Open, Closed)]);
}

#[test]
fn terms_out_of_range() {
    let out_of_range = |terms: hikebox::Terms, name| match CallLimit::new(terms) {
        Err(LimitError::OutOfRange { parameter, .. }) => assert_eq!(parameter, name),
        other => panic!("{other:?}"),
    };
    out_of_range(InFlight { least: 1, share: 0.2, most: Some(0) }.into(), "most");
    for (failures, results) in [(4, 3), (4, 33), (1, 0)] {
        out_of_range(Breaker::of_last(failures, results, policy(r#"{"spaced":1000}"#)).into(), "results");
    }
    let adaptive = Adaptive::default();
    out_of_range(Adaptive { least: 0, ..adaptive }.into(), "first");
    out_of_range(Adaptive { first: 300, ..adaptive }.into(), "first");
    for backoff in [0.0, 1.0, 1.5, f64::NAN] {
        out_of_range(Adaptive { backoff, ..adaptive }.into(), "backoff");
    }
}

/// A clock that stands still but for what it is told, and a breaker that two failures open.
fn slow_world() -> (Cell<Duration>, CallLimit) {
    let breaker = CallLimit::new(Breaker::consecutive(2, policy(r#"{"spaced":30000}"#))).unwrap();
    (Cell::new(Duration::ZERO), breaker)
}

#[test]
fn a_success_that_takes_longer_is_a_failure_to_its_limit() {
    let (passed, breaker) = slow_world();
    let began = Instant::now();
    let plan = policy(r#"{"recurs":3}"#);
    let retrying = Retrying::new(&plan, &breaker).slow(Duration::from_secs(2)).clock(|| began + passed.get());
    let answers_after = |millis: u64| {
        let answer = retrying.call(|| {
            passed.set(passed.get() + Duration::from_millis(millis));
            Ok::<_, String>(millis)
        });
        assert_eq!(answer, Ok(millis));
        one(&breaker)
    };
    assert_eq!(answers_after(2000), LimitState::Closed { failures: 0 });
    assert_eq!(answers_after(2001), LimitState::Closed { failures: 1 });
    assert_eq!(answers_after(2000), LimitState::Closed { failures: 0 });
    assert_eq!(answers_after(2001), LimitState::Closed { failures: 1 });
    assert!(matches!(answers_after(9000), LimitState::Open { trip: 1, .. }));
    let answer = retrying.call(|| Ok::<(), String>(()));
    assert!(matches!(answer, Err(RetryError::NotAdmitted(refused)) if refused.reason() == BreakerOpen));
}

#[test]
fn each_run_is_slow_from_its_own_beginning() {
    let (passed, breaker) = slow_world();
    let began = Instant::now();
    let plan = policy(r#"{"meet":[{"recurs":1},{"spaced":9000}]}"#);
    let sleeps = |time: Duration| passed.set(passed.get() + time);
    let retrying = Retrying::new(&plan, &breaker).slow(Duration::from_secs(2)).clock(|| began + passed.get());
    let retrying = retrying.sleep(sleeps);
    for (second, failures) in [(1500, 0), (2500, 2)] {
        let answer = retrying.call_with(|attempt| {
            sleeps(Duration::from_millis([1500, second][attempt.number() as usize - 1]));
            match attempt.number() {
                1 => Err("down"),
                _ => Ok(5),
            }
        });
        assert_eq!(answer, Ok(5));
        match failures {
            0 => assert_eq!(one(&breaker), LimitState::Closed { failures }),
            _ => assert!(matches!(one(&breaker), LimitState::Open { trip: 1, .. })),
        }
    }
}

#[cfg(feature = "tokio")]
#[tokio::test(start_paused = true)]
async fn of_hedged_runs_the_one_that_wins_is_looked_at() {
    use hikebox::AttemptTimeout;
    use tokio::time::{sleep, Instant};

    #[derive(Debug, PartialEq)]
    struct Late;

    impl From<AttemptTimeout> for Late {
        fn from(_: AttemptTimeout) -> Self {
            Self
        }
    }

    // The first run is late at 100 ms, and then the second begins, which is over at 150, or else the first at 300.
    for (second, failures) in [(50, 0), (900, 2)] {
        let breaker = CallLimit::new(Breaker::consecutive(2, policy(r#"{"spaced":30000}"#))).unwrap();
        let plan = policy(r#"{"meet":[{"recurs":1},{"spaced":0}]}"#);
        let retrying = Retrying::new(&plan, &breaker).slow(Duration::from_millis(200));
        let retrying = retrying.hedge_after(Duration::from_millis(100));
        let began = Instant::now();
        let answer = retrying.call_async_with(|attempt| async move {
            sleep(Duration::from_millis([300, second][attempt.number() as usize - 1])).await;
            Ok::<_, Late>(attempt.number())
        });
        assert_eq!(answer.await, Ok(if failures == 0 { 2 } else { 1 }), "{:?}", began.elapsed());
        match failures {
            0 => assert_eq!(one(&breaker), LimitState::Closed { failures }),
            _ => assert!(matches!(one(&breaker), LimitState::Open { trip: 1, .. })),
        }
    }
}

#[cfg(feature = "tower")]
#[tokio::test(start_paused = true)]
async fn a_slow_response_of_a_service_is_a_failure_to_its_limit() {
    use tower::{Layer, Service, ServiceExt};

    let (_, breaker) = slow_world();
    let slow = hikebox::RetryLayer::new(policy(r#"{"recurs":1}"#), breaker.clone()).slow(Duration::from_millis(200));
    let mut service = slow.layer(tower::service_fn(|millis: u64| async move {
        tokio::time::sleep(Duration::from_millis(millis)).await;
        Ok::<_, std::io::Error>(millis)
    }));
    for (millis, failures) in [(200, 0), (201, 1), (50, 0), (300, 1)] {
        assert_eq!(service.ready().await.unwrap().call(millis).await.unwrap(), millis);
        assert_eq!(one(&breaker), LimitState::Closed { failures });
    }
}
