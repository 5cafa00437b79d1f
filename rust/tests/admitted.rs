//! Calls that ask a limit before their first run: by everything that retries, with threads, panics and futures that are
//! dropped.

mod common;

use common::{fails, policy};
use hikebox::RefusalReason::{BreakerOpen, LevelLow, Probing, RetriesFull};
use hikebox::{
    repeat, retry, BlockingRetryable, Breaker, Bucket, CallLimit, InFlight, RefusalReason, Refused, RepeatError,
    RetryError, Retrying, SharedRetrying,
};
use std::cell::Cell;
use std::panic::catch_unwind;
use std::sync::atomic::{AtomicU64, Ordering};
use std::thread;
use std::time::{Duration, Instant};

type Answer<T> = Result<T, RetryError<&'static str, Refused>>;

/// A breaker that opens after this many failures, for as long as the policy says.
fn breaker(failures: u32, open_for: &str) -> CallLimit {
    CallLimit::new(Breaker::consecutive(failures, policy(open_for))).unwrap()
}

/// A bucket of this many tokens, of which a retry takes one.
fn tokens(capacity: f64) -> CallLimit {
    CallLimit::new(Bucket { capacity, cost: 1.0, ..Bucket::default() }).unwrap()
}

/// One retry for every two calls in flight.
fn halves() -> CallLimit {
    CallLimit::new(InFlight { least: 0, share: 0.5, most: None }).unwrap()
}

/// Why the first run was refused.
fn not_admitted<T>(answer: Answer<T>) -> Option<RefusalReason> {
    match answer {
        Err(RetryError::NotAdmitted(refused)) => Some(refused.reason()),
        _ => None,
    }
}

/// Why a retry by hand is refused.
fn refused(limit: &CallLimit) -> Option<RefusalReason> {
    let mut request = limit.request().unwrap();
    request.admit().unwrap();
    request.draw().err().map(|refused| refused.reason())
}

// Each of six ways makes two retries, so a bucket of twelve has none left.
#[test]
fn all_that_retries_draws_on_a_limit() {
    let (five, bucket) = (policy(r#"{"recurs":5}"#), tokens(12.0));
    assert_eq!(retry(&five, &bucket, fails(2)), Ok(2));
    let retrying = Retrying::new(&five, &bucket).when(|error: &&str| *error == "busy");
    assert_eq!(retrying.call(fails(2)), Ok(2));
    assert_eq!(retrying.clone().into_owned().call(fails(2)), Ok(2));
    let shared: SharedRetrying<&str, Refused> = retrying.shared();
    assert_eq!(shared.call(fails(2)), Ok(2));
    assert_eq!(fails(2).retry(&five).limit(&bucket).run(), Ok(2));
    let mut runs = vec![];
    let answer = shared.call_with(|attempt| {
        runs.push(attempt.number());
        if attempt.number() < 3 {
            Err("busy")
        } else {
            Ok(())
        }
    });
    assert_eq!((answer, runs), (Ok(()), vec![1, 2, 3]));
    assert_eq!(refused(&bucket), Some(LevelLow));
    assert_eq!(retry(&five, &bucket, fails(1)), Err(RetryError::LimitRefused("busy")));
}

// A failure counts though it is not retried, and though the schedule is done.
#[test]
fn each_failure_is_told() {
    let (never, once) = (policy(r#"{"recurs":0}"#), policy(r#"{"recurs":1}"#));
    let (one, other) = (breaker(1, r#"{"spaced":30000}"#), breaker(1, r#"{"spaced":30000}"#));
    let answer = Retrying::new(&once, &one).when(|_: &&str| false).call(fails(9));
    assert_eq!(answer, Err(RetryError::NotRetried("busy")));
    assert_eq!(not_admitted(retry(&once, &one, fails(0))), Some(BreakerOpen));
    assert_eq!(retry(&never, &other, fails(9)), Err(RetryError::ScheduleDone("busy")));
    assert_eq!(not_admitted(retry(&never, &other, fails(0))), Some(BreakerOpen));
}

// A breaker that is open for no time is half open at once: while its probe is out nobody else is admitted.
#[test]
fn a_call_is_the_probe() {
    let (limit, once) = (breaker(1, r#"{"spaced":1}"#), policy(r#"{"recurs":0}"#));
    let is_half_open = || thread::sleep(Duration::from_millis(2));
    assert_eq!(retry(&once, &limit, fails(1)), Err(RetryError::ScheduleDone("busy")));
    is_half_open();
    let inner = || not_admitted(retry(&once, &limit, fails(0)));
    assert_eq!(retry(&once, &limit, || Ok::<_, &str>(inner())), Ok(Some(Probing)));
    assert_eq!(retry(&once, &limit, || Ok::<_, &str>(inner())), Ok(None));
    // a probe that fails opens it again
    assert_eq!(retry(&once, &limit, fails(1)), Err(RetryError::ScheduleDone("busy")));
    is_half_open();
    assert_eq!(retry(&once, &limit, || Err::<(), _>(inner())), Err(RetryError::ScheduleDone(Some(Probing))));
    is_half_open();
    assert_eq!(retry(&once, &limit, || Ok::<_, &str>(inner())), Ok(Some(Probing)));
}

// The error is one of the standard library, and says what was refused.
#[test]
fn what_is_not_admitted_is_an_error() {
    let (limit, once) = (breaker(1, r#"{"spaced":30000}"#), policy(r#"{"recurs":0}"#));
    let _ = retry(&once, &limit, fails(1));
    let answer: Result<u32, Box<dyn std::error::Error>> = retry(&once, &limit, fails(0)).map_err(Into::into);
    assert_eq!(answer.unwrap_err().to_string(), "the call was not admitted: the breaker is open");
}

// No run begins past the deadline, and what the retry of that run cost comes back.
#[test]
fn a_deadline_gives_the_token_back() {
    let (limit, waits) = (tokens(1.0), policy(r#"{"spaced":5}"#));
    let (now, sleeps) = (Cell::new(Instant::now()), Cell::new(0));
    let sleeps_long = |_: Duration| {
        sleeps.set(sleeps.get() + 1);
        now.set(now.get() + Duration::from_millis(60));
    };
    let retrying =
        Retrying::new(&waits, &limit).deadline(Duration::from_millis(50)).clock(|| now.get()).sleep(sleeps_long);
    assert_eq!((retrying.call(fails(9)), sleeps.get()), (Err(RetryError::Deadline("busy")), 1));
    assert_eq!(refused(&limit), None);
    assert_eq!(refused(&limit), Some(LevelLow));
}

#[test]
fn a_call_that_panics_is_over() {
    let (limit, five) = (halves(), policy(r#"{"recurs":5}"#));
    let answer = catch_unwind(|| retry(&five, &limit, || -> Result<(), ()> { panic!("no answer") }));
    assert!(answer.is_err());
    let mut alone = limit.request().unwrap();
    alone.admit().unwrap();
    assert_eq!(alone.draw().unwrap_err().reason(), RetriesFull);
}

// Eight threads make 200 calls each that always fail; a bucket of 300 allows that many retries in all.
#[test]
fn eight_threads_draw_each_token_once() {
    let (limit, nine) = (tokens(300.0), policy(r#"{"recurs":9}"#));
    let runs = AtomicU64::new(0);
    thread::scope(|scope| {
        for _ in 0..8 {
            scope.spawn(|| {
                for _ in 0..200 {
                    let answer = retry(&nine, &limit, || {
                        runs.fetch_add(1, Ordering::SeqCst);
                        Err::<(), _>("busy")
                    });
                    assert!(answer.is_err());
                }
            });
        }
    });
    assert_eq!(runs.load(Ordering::SeqCst), 1600 + 300);
}

// Eight threads make calls that fail once, on one retry for two calls in flight: at the end nothing is in flight.
#[test]
fn eight_threads_give_each_slot_back() {
    let (limit, nine) = (halves(), policy(r#"{"recurs":9}"#));
    thread::scope(|scope| {
        for _ in 0..8 {
            scope.spawn(|| {
                for _ in 0..1000 {
                    let _ = retry(&nine, &limit, fails(1));
                }
            });
        }
    });
    let mut alone = limit.request().unwrap();
    alone.admit().unwrap();
    assert_eq!(alone.draw().unwrap_err().reason(), RetriesFull);
    let mut beside = limit.request().unwrap();
    beside.admit().unwrap();
    assert!(alone.draw().is_ok());
}

// Each run of a repeat is a call under the limit: two successes, then two failures, of which the second opens it.
#[test]
fn each_run_of_a_repeat_is_a_call() {
    let (limit, twice) = (breaker(2, r#"{"spaced":30000}"#), policy(r#"{"recurs":2}"#));
    let mut runs = 0;
    let answer = repeat(&policy(r#"{"recurs":9}"#), || {
        retry(&twice, &limit, || {
            runs += 1;
            if runs < 3 {
                Ok(runs)
            } else {
                Err("down")
            }
        })
    });
    assert_eq!(answer, Err(RepeatError::Failed(RetryError::LimitRefused("down"))));
    assert_eq!(runs, 4);
    let answer = repeat(&twice, || retry(&twice, &limit, || Ok::<_, &str>(())));
    assert!(matches!(answer, Err(RepeatError::Failed(RetryError::NotAdmitted(_)))));
}

// While a call runs that found the limit quiet, another one fails: the success of the first one counts then as that of a
// call which was asked.
#[test]
fn a_success_counts_where_another_call_failed_meanwhile() {
    let (once, never) = (policy(r#"{"recurs":0}"#), r#"{"spaced":30000}"#);
    let limit = breaker(2, never);
    let fails_beside = || -> Answer<u32> { retry(&once, &limit, fails(1)) };
    for _ in 0..3 {
        let answer: Answer<()> = retry(&once, &limit, || {
            assert_eq!(fails_beside(), Err(RetryError::ScheduleDone("busy")));
            Ok(())
        });
        assert_eq!(answer, Ok(()));
    }
    let bucket = CallLimit::new(Bucket { capacity: 3.0, debit: 2.0, credit: 1.0, floor: 1.0, ..Bucket::default() });
    let bucket = bucket.unwrap();
    let answer: Answer<()> = retry(&once, &bucket, || {
        let _: Answer<u32> = retry(&once, &bucket, fails(1));
        assert_eq!(refused(&bucket), Some(LevelLow));
        Ok(())
    });
    assert_eq!((answer, refused(&bucket)), (Ok(()), None));
}

// A call found the breaker closed, and succeeds when it is half open: it neither closes it nor takes its probe.
#[test]
fn a_late_success_takes_no_probe() {
    let (limit, once) = (breaker(1, r#"{"spaced":1}"#), policy(r#"{"recurs":0}"#));
    let answer: Answer<()> = retry(&once, &limit, || {
        let _: Answer<u32> = retry(&once, &limit, fails(1));
        thread::sleep(Duration::from_millis(20));
        Ok(())
    });
    assert_eq!(answer, Ok(()));
    let (mut probe, mut other) = (limit.request().unwrap(), limit.request().unwrap());
    probe.admit().unwrap();
    assert_eq!(other.admit().unwrap_err().reason(), Probing);
}

// Calls of four threads, in each of which another one runs.
#[test]
fn calls_in_calls_and_in_threads_count() {
    let (limit, once) = (breaker(2, r#"{"spaced":30000}"#), policy(r#"{"recurs":0}"#));
    let nested = || -> Answer<u32> { retry(&once, &limit, || retry(&once, &limit, fails(0)).map_err(|_| "inner")) };
    thread::scope(|scope| {
        for _ in 0..4 {
            scope.spawn(|| (0..1000).for_each(|_| assert_eq!(nested(), Ok(0))));
        }
    });
    let _: Answer<u32> = retry(&once, &limit, fails(1));
    let _: Answer<u32> = retry(&once, &limit, fails(1));
    assert_eq!(not_admitted(retry(&once, &limit, fails(0))), Some(BreakerOpen));
}

#[cfg(feature = "tokio")]
mod futures {
    use super::*;
    use hikebox::{both, retry_async, Retryable};
    use tokio::time::{sleep, timeout};

    /// A call that never ends.
    async fn hangs() -> Result<(), &'static str> {
        std::future::pending().await
    }

    // A future that is dropped while it waits gives its token and its slot back; one that is dropped in a run its slot.
    #[tokio::test(start_paused = true)]
    async fn a_dropped_future_gives_back() {
        let (bucket, flights) = (tokens(1.0), halves());
        let (limit, waits) = (both(&bucket, &flights).unwrap(), policy(r#"{"spaced":60000}"#));
        let mut others = [limit.request().unwrap(), limit.request().unwrap()];
        others.iter_mut().for_each(|other| other.admit().unwrap());
        let call = retry_async(&waits, &limit, || async { Err::<(), _>("busy") });
        assert!(timeout(Duration::from_secs(1), call).await.is_err());
        let retrying = Retrying::new(&waits, &limit);
        assert!(timeout(Duration::from_secs(1), retrying.call_async(hangs)).await.is_err());
        assert!(timeout(Duration::from_secs(1), hangs.retry(&waits).limit(&limit).run()).await.is_err());
        // two calls are in flight, so one retry is, and the token is there
        assert!(others[0].draw().is_ok());
        assert_eq!(others[1].draw().unwrap_err().reason(), LevelLow);
    }

    // Open for 30 seconds; then the first call is the probe.
    #[tokio::test(start_paused = true)]
    async fn a_breaker_opens_and_closes() {
        let (limit, nine) = (breaker(2, r#"{"spaced":30000}"#), policy(r#"{"recurs":9}"#));
        let fails = || async { Err::<(), _>("down") };
        assert_eq!(retry_async(&nine, &limit, fails).await, Err(RetryError::LimitRefused("down")));
        sleep(Duration::from_secs(29)).await;
        assert_eq!(not_admitted(retry_async(&nine, &limit, fails).await), Some(BreakerOpen));
        sleep(Duration::from_secs(2)).await;
        let inner = || async { Ok::<_, &str>(not_admitted(retry_async(&nine, &limit, hangs).await)) };
        assert_eq!(retry_async(&nine, &limit, inner).await, Ok(Some(Probing)));
        assert_eq!(retry_async(&nine, &limit, || async { Ok::<_, &str>(5) }).await, Ok(5));
    }

    #[tokio::test]
    async fn a_task_owns_its_limit() {
        let (limit, five) = (tokens(9.0), policy(r#"{"recurs":5}"#));
        let call = || async { Err::<(), _>("busy") };
        let task = tokio::spawn(call.retry(&five).limit(&limit).into_owned().run());
        assert_eq!(task.await.unwrap(), Err(RetryError::ScheduleDone("busy")));
        assert_eq!((0..5).filter(|_| refused(&limit).is_none()).count(), 4);
    }
}

#[cfg(feature = "tower")]
mod layers {
    use super::*;
    use hikebox::{both, Budget, Quota, RetryLayer};
    use std::future::{pending, ready, Ready};
    use std::sync::Arc;
    use std::task::{Context, Poll};
    use tokio::time::{sleep, timeout, Instant};
    use tower::{service_fn, BoxError, Service, ServiceBuilder, ServiceExt};

    fn reason(answer: Result<u32, BoxError>) -> Option<RefusalReason> {
        answer.unwrap_err().downcast_ref().map(Refused::reason)
    }

    // Two failures open it, for 30 seconds. A failure is an error, or a response that is said to be one.
    #[tokio::test(start_paused = true)]
    async fn a_breaker_opens_and_closes() {
        let answers = Arc::new(AtomicU64::new(0));
        let calls = answers.clone();
        let retries = RetryLayer::new(policy(r#"{"recurs":9}"#), breaker(2, r#"{"spaced":30000}"#))
            .failed(|response: &u32| *response == 503);
        let mut service = ServiceBuilder::new().layer(retries).service(service_fn(move |_: u8| {
            let call = calls.fetch_add(1, Ordering::SeqCst);
            ready([Err("down"), Ok(503), Ok(200)].get(call as usize).copied().unwrap_or(Ok(201)))
        }));
        assert_eq!(service.ready().await.unwrap().call(1).await.unwrap(), 503);
        assert_eq!(reason(service.ready().await.unwrap().call(1).await), Some(BreakerOpen));
        sleep(Duration::from_secs(29)).await;
        assert_eq!(reason(service.ready().await.unwrap().call(1).await), Some(BreakerOpen));
        assert_eq!(answers.load(Ordering::SeqCst), 2);
        sleep(Duration::from_secs(2)).await;
        let probe = service.ready().await.unwrap().call(1);
        assert_eq!(reason(service.ready().await.unwrap().call(1).await), Some(Probing));
        assert_eq!(probe.await.unwrap(), 200);
        assert_eq!(service.ready().await.unwrap().call(1).await.unwrap(), 201);
    }

    // A call that is dropped while it waits, in a run, or before it was polled gives back what it held.
    #[tokio::test(start_paused = true)]
    async fn a_dropped_call_gives_back() {
        let (bucket, flights) = (tokens(1.0), halves());
        let limit = both(&bucket, &flights).unwrap();
        let retries = RetryLayer::new(policy(r#"{"spaced":60000}"#), limit.clone());
        let service = service_fn(|hangs: bool| async move {
            if hangs {
                pending::<()>().await;
            }
            Err::<(), _>("busy")
        });
        let mut service = ServiceBuilder::new().layer(retries).service(service);
        let mut others = [limit.request().unwrap(), limit.request().unwrap()];
        others.iter_mut().for_each(|other| other.admit().unwrap());
        for hangs in [false, true] {
            let call = service.ready().await.unwrap().call(hangs);
            assert!(timeout(Duration::from_secs(1), call).await.is_err());
        }
        drop(service.ready().await.unwrap().call(true));
        assert!(others[0].draw().is_ok());
        assert_eq!(others[1].draw().unwrap_err().reason(), LevelLow);
    }

    // What it held comes back when it has ended, though its future is kept: of the limit, and its copies of the service and
    // the request.
    #[tokio::test(start_paused = true)]
    async fn a_call_that_ended_holds_nothing() {
        let (flights, held, request) = (halves(), Arc::new(()), Arc::new(()));
        let retries = RetryLayer::new(policy(r#"{"recurs":0}"#), flights.clone());
        let of_service = held.clone();
        let mut service = ServiceBuilder::new().layer(retries).service(service_fn(move |_: Arc<()>| {
            let _ = &of_service;
            ready(Ok::<_, BoxError>(5))
        }));
        let mut call = service.ready().await.unwrap().call(request.clone());
        assert_eq!((Arc::strong_count(&held), Arc::strong_count(&request)), (3, 2));
        assert_eq!((&mut call).await.unwrap(), 5);
        assert_eq!((refused(&flights), Arc::strong_count(&held)), (Some(RetriesFull), 2));
        assert_eq!(Arc::strong_count(&request), 1);
        drop(call);
    }

    // One that is not admitted holds no copy of the service, and so no permit of it.
    #[tokio::test(start_paused = true)]
    async fn a_call_that_is_not_admitted_holds_nothing() {
        let (limit, held) = (breaker(1, r#"{"spaced":30000}"#), Arc::new(()));
        let mut request = limit.request().unwrap();
        request.admit().unwrap();
        request.failed();
        let of_service = held.clone();
        let retries = RetryLayer::new(policy(r#"{"recurs":0}"#), limit);
        let mut service = ServiceBuilder::new().layer(retries).service(service_fn(move |_: u8| {
            let _ = &of_service;
            ready(Ok::<_, BoxError>(5))
        }));
        let call = service.ready().await.unwrap().call(1);
        assert_eq!(Arc::strong_count(&held), 2);
        assert_eq!(reason(call.await), Some(BreakerOpen));
    }

    // Runs at 0, 100 and 200; the bucket has two tokens. A request that can't be copied is made once, and is told.
    #[tokio::test(start_paused = true)]
    async fn retries_draw_and_failures_are_told() {
        let (bucket, waits) = (tokens(2.0), policy(r#"{"spaced":100}"#));
        let busy = || service_fn(|_: u8| ready(Err::<u32, _>("busy")));
        let mut service = ServiceBuilder::new().layer(RetryLayer::new(waits.clone(), bucket)).service(busy());
        let began = Instant::now();
        assert_eq!(service.ready().await.unwrap().call(1).await.unwrap_err().to_string(), "busy");
        assert_eq!(began.elapsed().as_millis(), 200);
        let once = RetryLayer::copying(waits.clone(), breaker(1, r#"{"spaced":30000}"#), |_: &u8| None);
        let excluded = RetryLayer::new(waits, breaker(1, r#"{"spaced":30000}"#)).when(|_: &&str| false);
        for retries in [once, excluded] {
            let mut service = ServiceBuilder::new().layer(retries).service(busy());
            assert_eq!(service.ready().await.unwrap().call(1).await.unwrap_err().to_string(), "busy");
            assert_eq!(reason(service.ready().await.unwrap().call(1).await), Some(BreakerOpen));
        }
    }

    /// A service that is to be asked whether it is ready before each call, and says at first that it is not. A clone of
    /// it is not ready either.
    #[derive(Default)]
    struct GetsReady {
        asked: u32,
    }

    impl Clone for GetsReady {
        fn clone(&self) -> Self {
            Self::default()
        }
    }

    impl Service<u8> for GetsReady {
        type Response = u32;
        type Error = &'static str;
        type Future = Ready<Result<u32, &'static str>>;

        fn poll_ready(&mut self, cx: &mut Context<'_>) -> Poll<Result<(), Self::Error>> {
            self.asked += 1;
            cx.waker().wake_by_ref();
            if self.asked % 2 == 0 {
                Poll::Ready(Ok(()))
            } else {
                Poll::Pending
            }
        }

        fn call(&mut self, _: u8) -> Self::Future {
            assert!(self.asked > 0 && self.asked % 2 == 0, "it is ready");
            let calls = self.asked / 2;
            ready(if calls < 3 { Err("busy") } else { Ok(calls) })
        }
    }

    #[tokio::test(start_paused = true)]
    async fn a_service_is_ready_before_each_run() {
        let retries = RetryLayer::new(policy(r#"{"recurs":5}"#), tokens(9.0));
        let mut service = ServiceBuilder::new().layer(retries).service(GetsReady::default());
        for _ in 0..2 {
            assert_eq!(service.ready().await.unwrap().call(1).await.unwrap(), 3);
        }
    }

    /// A service that fails, and is ready for so many calls.
    #[derive(Clone)]
    struct ReadyFor(u64);

    impl Service<u8> for ReadyFor {
        type Response = u32;
        type Error = &'static str;
        type Future = Ready<Result<u32, &'static str>>;

        fn poll_ready(&mut self, _: &mut Context<'_>) -> Poll<Result<(), Self::Error>> {
            if self.0 > 0 {
                Poll::Ready(Ok(()))
            } else {
                Poll::Pending
            }
        }

        fn call(&mut self, _: u8) -> Self::Future {
            self.0 -= 1;
            ready(Err("busy"))
        }
    }

    // Two runs are made, and the third, which has its ticket, never begins: with a delay before it, and with none.
    #[tokio::test(start_paused = true)]
    async fn a_call_that_is_dropped_before_its_service_is_ready_gives_its_ticket_back() {
        for json in [r#"{"spaced":100}"#, r#"{"recurs":5}"#] {
            let quota = Quota::new_at(Instant::now().into_std(), 9, 0.0, Duration::from_secs(3600)).unwrap();
            let retries = RetryLayer::new(policy(json), quota.clone());
            let mut service = ServiceBuilder::new().layer(retries).service(ReadyFor(2));
            let call = service.ready().await.unwrap().call(1);
            assert!(timeout(Duration::from_secs(1), call).await.is_err());
            assert_eq!((quota.granted(), quota.seen().left), (1, 8), "{json}");
            // of two tokens one is used
            let bucket = tokens(2.0);
            let retries = RetryLayer::new(policy(json), bucket.clone());
            let mut service = ServiceBuilder::new().layer(retries).service(ReadyFor(2));
            let call = service.ready().await.unwrap().call(1);
            assert!(timeout(Duration::from_secs(1), call).await.is_err());
            assert_eq!([refused(&bucket), refused(&bucket)], [None, Some(LevelLow)], "{json}");
        }
    }

    // Its error is a box only of a limit that may refuse a call. A retry that would begin past the deadline does not.
    #[tokio::test(start_paused = true)]
    async fn it_takes_every_limit() {
        let (budget, quota) = (Budget::new(3).unwrap(), Quota::new(1, 1.0, Duration::from_secs(3600)).unwrap());
        let waits = policy(r#"{"spaced":100}"#);
        let busy = || service_fn(|_: u8| ready(Err::<u32, _>("busy")));
        let by = RetryLayer::new(waits.clone(), budget.clone());
        let began = Instant::now();
        let mut service = ServiceBuilder::new().layer(by).service(busy());
        assert_eq!(service.ready().await.unwrap().call(1).await, Err("busy"));
        assert_eq!((began.elapsed().as_millis(), budget.granted()), (300, 3));
        let by = RetryLayer::new(waits, quota.clone()).deadline(Duration::from_millis(150));
        let mut service = ServiceBuilder::new().layer(by).service(busy());
        for request in 1..=2 {
            sleep(Duration::from_secs(1)).await;
            let began = Instant::now();
            assert_eq!(service.ready().await.unwrap().call(1).await, Err("busy"));
            assert_eq!((began.elapsed().as_millis(), quota.seen().asked), (100, request));
        }
        assert_eq!(quota.granted(), 2);
    }
}
