//! Retries of futures and of tower's requests.
#![cfg(all(feature = "tokio", feature = "tower"))]

mod common;

use common::{at_once, policy, polled, told};
use hikebox::{
    repeat_async, retry_async, BlockingRetryable, Budget, Quota, RetryError, RetryLayer, Retryable, Retrying, Unlimited,
};
use std::cell::{Cell, RefCell};
use std::future::{ready, Future};
use std::pin::Pin;
use std::rc::Rc;
use std::sync::atomic::{AtomicU32, Ordering};
use std::sync::Arc;
use std::time::Duration;
use tokio::time::{timeout, Instant};
use tower::{service_fn, BoxError, Layer, Service, ServiceBuilder, ServiceExt};

#[tokio::test(start_paused = true)]
async fn a_future_waits_as_planned() {
    let budget = Budget::new(10).unwrap();
    let began = Instant::now();
    let mut calls = Vec::new();
    let result = retry_async(&policy(r#"{"meet":[{"recurs":3},{"exponential":[100,2]}]}"#), &budget, || {
        calls.push(began.elapsed().as_millis());
        async { Err::<(), _>("no") }
    })
    .await;
    assert_eq!(result, Err(RetryError::ScheduleDone("no")));
    assert_eq!(calls, [0, 100, 300, 700]);
    assert_eq!(budget.granted(), 3);
}

#[tokio::test(start_paused = true)]
async fn a_dropped_future_keeps_its_tickets_counted() {
    let budget = Budget::new(10).unwrap();
    let forever = policy(r#"{"spaced":60}"#);
    let retry = retry_async(&forever, &budget, || async { Err::<(), _>(()) });
    assert!(timeout(Duration::from_millis(150), retry).await.is_err());
    assert_eq!(budget.close().unwrap(), 3);
}

#[tokio::test(start_paused = true)]
async fn only_the_errors_that_are_named_are_retried() {
    let budget = Budget::new(100).unwrap();
    let by = RetryLayer::new(policy(r#"{"gate":["input",true,"equal",503,{"recurs":9}]}"#), budget.clone())
        .when(|code: &u64| *code >= 500)
        .code(|code| *code);
    let answers = |codes: &'static [u64]| {
        let mut left = codes.iter();
        service_fn(move |(): ()| {
            let code = left.next().copied().unwrap_or(200);
            async move {
                if code == 200 {
                    Ok(())
                } else {
                    Err(code)
                }
            }
        })
    };
    for (codes, answer) in [(&[503, 503][..], Ok(())), (&[404], Err(404)), (&[503, 500], Err(500))] {
        let mut service = ServiceBuilder::new().layer(by.clone()).service(answers(codes));
        assert_eq!(service.ready().await.unwrap().call(()).await, answer);
    }
    assert_eq!(budget.granted(), 3);
}

#[tokio::test(start_paused = true)]
async fn a_future_draws_on_a_quota_by_tokios_clock() {
    let quota = Quota::new_at(Instant::now().into_std(), 2, 0.5, Duration::from_secs(1)).unwrap();
    let fails = || async { Err::<(), _>("no") };
    let spaced = policy(r#"{"meet":[{"recurs":3},{"spaced":400}]}"#);
    // failures at 0, 400, 800 and 1,200: the first window has its reserve alone
    assert_eq!(retry_async(&spaced, &quota, fails).await, Err(RetryError::LimitRefused("no")));
    assert_eq!(told(quota.seen_at(Duration::from_millis(800))), [0, 1, 2, 0]);
    assert_eq!(retry_async(&spaced, &quota, fails).await, Err(RetryError::ScheduleDone("no")));
    assert_eq!(quota.granted(), 5);
    assert_eq!(retry_async(&spaced, &Unlimited, fails).await, Err(RetryError::ScheduleDone("no")));
}

#[tokio::test(start_paused = true)]
async fn a_service_is_retried_on_a_quota_and_each_request_counts() {
    let quota = Quota::new_at(Instant::now().into_std(), 1, 0.5, Duration::from_secs(60)).unwrap();
    let layer = RetryLayer::new(policy(r#"{"recurs":9}"#), quota.clone());
    let answers = service_fn(|code: u64| async move {
        if code == 200 {
            Ok(())
        } else {
            Err(code)
        }
    });
    let mut service = ServiceBuilder::new().layer(layer).service(answers);
    for _ in 0..3 {
        assert_eq!(service.ready().await.unwrap().call(200).await, Ok(()));
    }
    assert_eq!(told(quota.seen_at(Duration::from_millis(0))), [0, 3, 0, 2]);
    // the fourth request gives the third ticket, and its retries are no requests
    assert_eq!(service.ready().await.unwrap().call(503).await, Err(503));
    assert_eq!(told(quota.seen_at(Duration::from_millis(0))), [0, 4, 3, 0]);
    let mut others = ServiceBuilder::new()
        .layer(RetryLayer::new(policy(r#"{"recurs":9}"#), Unlimited))
        .service(service_fn(|code: u64| async move { Err::<(), _>(code) }));
    assert_eq!(others.ready().await.unwrap().call(7).await, Err(7));
    drop(service);
    assert_eq!(quota.granted(), 3);
}

#[test]
fn a_wait_of_nothing_needs_no_timer_and_no_runtime() {
    let mut left = 3;
    let value = at_once(retry_async(&policy(r#"{"recurs":5}"#), &Unlimited, || {
        left -= 1;
        ready(if left == 0 { Ok("got") } else { Err(()) })
    }));
    assert_eq!(value, Ok("got"));

    let spaced = policy(r#"{"meet":[{"recurs":2},{"spaced":100}]}"#);
    let waits = RefCell::new(Vec::new());
    let stopped = std::time::Instant::now();
    let retrying = Retrying::new(&spaced, &Unlimited).clock(|| stopped).sleep(|wait: Duration| {
        waits.borrow_mut().push(wait.as_millis());
        ready(())
    });
    assert_eq!(at_once(retrying.call_async(|| ready(Err::<(), _>(4)))), Err(RetryError::ScheduleDone(4)));
    assert_eq!(*waits.borrow(), [100, 100]);
}

#[test]
fn towers_requests_need_no_timer_where_they_wait_for_nothing() {
    let layer = RetryLayer::new(policy(r#"{"recurs":2}"#), Unlimited);
    let mut service = ServiceBuilder::new().layer(layer).service(service_fn(|code: u64| ready(Err::<(), _>(code))));
    assert_eq!(at_once(async { service.ready().await?.call(8).await }), Err(8));
}

// What is polled once lets others run after 64 runs without a wait, and goes on at the next poll.
#[test]
fn what_never_waits_lets_others_run() {
    let (forever, calls) = (policy(r#""forever""#), Cell::new(0));
    let made = |mut future: Pin<Box<dyn Future<Output = ()> + '_>>| {
        calls.set(0);
        [(); 3].map(|()| {
            assert!(polled(&mut future).is_pending());
            calls.replace(0)
        })
    };
    let fails = || {
        calls.set(calls.get() + 1);
        async { Err::<(), _>("no") }
    };
    assert_eq!(made(Box::pin(async { retry_async(&forever, &Unlimited, fails).await.unwrap() })), [64; 3]);
    let timed = Retrying::new(&forever, &Unlimited).attempt_timeout(Duration::from_secs(1));
    let fails_timed = || {
        calls.set(calls.get() + 1);
        async { Err::<(), BoxError>("no".into()) }
    };
    let runtime = tokio::runtime::Builder::new_current_thread().enable_time().build().unwrap();
    let in_time = runtime.enter();
    assert_eq!(made(Box::pin(async { timed.call_async(fails_timed).await.unwrap() })), [64; 3]);
    drop(in_time);
    let succeeds = || {
        calls.set(calls.get() + 1);
        async { Ok::<_, ()>(()) }
    };
    assert_eq!(made(Box::pin(async { repeat_async(&forever, succeeds).await.unwrap() })), [64; 3]);
    let service = RetryLayer::new(forever.clone(), Unlimited).layer(service_fn(|_: ()| fails()));
    assert_eq!(made(Box::pin(async { service.oneshot(()).await.unwrap() })), [64, 63, 63]);
}

#[tokio::test(start_paused = true)]
async fn an_async_function_is_retried_by_a_method_of_its_own() {
    async fn busy() -> Result<(), &'static str> {
        Err("busy")
    }
    let (spaced, budget) = (policy(r#"{"meet":[{"recurs":2},{"spaced":100}]}"#), Budget::new(10).unwrap());
    let began = Instant::now();
    let heard = Rc::new(RefCell::new(Vec::new()));
    let ears = heard.clone();
    let result = busy
        .retry(&spaced)
        .limit(&budget)
        .when(|error| error.len() == 4)
        .notify(move |error, wait| ears.borrow_mut().push((error.len(), wait.as_millis())))
        .run()
        .await;
    assert_eq!(result, Err(RetryError::ScheduleDone("busy")));
    assert_eq!(*heard.borrow(), [(4, 100), (4, 100)]);
    assert_eq!((began.elapsed().as_millis(), budget.granted()), (200, 2));
    // the other trait's method is not taken for it
    assert_eq!((|| Err::<(), _>("no")).retry(&policy(r#"{"recurs":0}"#)).run(), Err(RetryError::ScheduleDone("no")));
}

#[tokio::test(start_paused = true)]
async fn a_retry_of_futures_is_sent_where_its_closures_are() {
    fn sends<T: Send>(value: T) -> T {
        value
    }
    let (spaced, counted) = (policy(r#"{"meet":[{"recurs":2},{"spaced":100}]}"#), Arc::new(AtomicU32::new(0)));
    let counter = counted.clone();
    let retry = sends(async move {
        let retrying = Retrying::new(&spaced, &Unlimited).notify(|_: &u8, _| ());
        retrying
            .call_async(|| {
                counter.fetch_add(1, Ordering::SeqCst);
                async { Err::<(), u8>(3) }
            })
            .await
    });
    assert_eq!(retry.await, Err(RetryError::ScheduleDone(3)));
    assert_eq!(counted.load(Ordering::SeqCst), 3);
}

#[tokio::test(start_paused = true)]
async fn a_stopped_clock_moves_a_quotas_windows() {
    let quota = Quota::new(1, 0.0, Duration::from_secs(60)).unwrap();
    let mut pass = quota.pass().unwrap();
    assert_eq!((pass.draw().is_ok(), pass.draw().is_ok()), (true, false));
    tokio::time::advance(Duration::from_secs(60)).await;
    quota.deposit();
    assert_eq!(told(quota.seen()), [1, 1, 0, 1]);
    assert!(pass.draw().is_ok());
}

/// A response with a status, and how long it asks to wait.
#[derive(Debug, PartialEq)]
struct Response(u64, Option<Duration>);

/// A request that is no `Clone`.
#[derive(Debug)]
struct Once(u64);

#[tokio::test(start_paused = true)]
async fn a_response_is_a_failure_and_asks_for_a_wait() {
    let limit = r#"{"gate":["input",true,"at_least",500,{"meet":[{"recurs":2},{"spaced":100}]}]}"#;
    let by = RetryLayer::copying(policy(limit), Budget::new(9).unwrap(), |request: &Once| Some(Once(request.0)))
        .failed(|response: &Response| response.0 >= 400)
        .response_code(|response| response.0)
        .retry_after(|result: Result<&Response, &String>| result.ok()?.1)
        .max_retry_after(Duration::from_secs(2));
    let cases = [
        (vec![(503, None), (503, Some(50)), (200, None)], 200, 200),
        (vec![(503, Some(1500)), (503, Some(9_999_999)), (503, None)], 503, 3500),
        (vec![(404, Some(70))], 404, 0),
        (vec![(200, None)], 200, 0),
    ];
    for (answers, status, waited) in cases {
        let (began, mut answers) = (Instant::now(), answers.into_iter());
        let service = service_fn(move |_: Once| {
            let (status, wait) = answers.next().unwrap();
            ready(Ok::<_, String>(Response(status, wait.map(Duration::from_millis))))
        });
        let mut service = ServiceBuilder::new().layer(by.clone()).service(service);
        assert_eq!(service.ready().await.unwrap().call(Once(1)).await.unwrap().0, status);
        assert_eq!(began.elapsed().as_millis(), waited);
    }
}

#[tokio::test(start_paused = true)]
async fn a_request_that_can_not_be_copied_is_made_once() {
    let by = RetryLayer::copying(policy(r#"{"recurs":9}"#), Unlimited, |_: &Once| None);
    let calls = AtomicU32::new(0);
    let service = service_fn(|_: Once| ready(Err::<(), _>(calls.fetch_add(1, Ordering::SeqCst) + 1)));
    let mut service = ServiceBuilder::new().layer(by).service(service);
    assert_eq!(service.ready().await.unwrap().call(Once(1)).await, Err(1));
}

#[tokio::test(start_paused = true)]
async fn the_success_of_a_request_without_a_copy_counts() {
    let quota = Quota::new(0, 0.5, Duration::from_secs(60)).unwrap().counting_successes();
    let by = RetryLayer::copying(policy(r#"{"recurs":9}"#), quota.clone(), |_: &Once| None);
    let mut service = ServiceBuilder::new().layer(by).service(service_fn(|_: Once| ready(Ok::<_, BoxError>(5))));
    assert_eq!(service.ready().await.unwrap().call(Once(1)).await.unwrap(), 5);
    assert_eq!(quota.seen().asked, 1);
}

/// A call whose types have lifetimes, of which the compiler shows little in an async block.
async fn fails_by_a_box(_: u32) -> Result<&'static str, BoxError> {
    Err("busy".into())
}

#[tokio::test(start_paused = true)]
async fn a_call_of_a_layer_is_spawned() {
    let budget = Budget::new(100).unwrap();
    let retries = RetryLayer::new(policy(r#"{"meet":[{"recurs":3},{"spaced":100}]}"#), budget.clone());
    let mut layered = retries.layer(service_fn(fails_by_a_box));
    let call = layered.ready().await.unwrap().call(7);
    assert_eq!(tokio::spawn(call).await.unwrap().unwrap_err().to_string(), "busy");
    let task = tokio::spawn(async move { layered.ready().await?.call(7).await });
    assert_eq!(task.await.unwrap().unwrap_err().to_string(), "busy");
    assert_eq!(budget.granted(), 6);
}

/// A policy of tower's own: so many retries, and waits of 100 ms that double.
#[derive(Clone)]
struct Doubling {
    left: u32,
    wait: Duration,
}

impl tower::retry::Policy<u32, u32, u32> for Doubling {
    type Future = Pin<Box<dyn Future<Output = Self> + Send>>;

    fn retry(&self, _: &u32, result: Result<&u32, &u32>) -> Option<Self::Future> {
        if result.is_ok() || self.left == 0 {
            return None;
        }
        let (wait, next) = (self.wait, Self { left: self.left - 1, wait: self.wait * 2 });
        Some(Box::pin(async move {
            tokio::time::sleep(wait).await;
            next
        }))
    }

    fn clone_request(&self, request: &u32) -> Option<u32> {
        Some(*request)
    }
}

/// What three calls of a service in this layer answer, whose run with an odd bit in `script` fails, and when each ends.
async fn played<L>(layer: L, script: u32) -> Vec<(Result<u32, u32>, u128)>
where
    L: Layer<tower::util::BoxCloneService<u32, u32, u32>>,
    L::Service: Service<u32, Response = u32, Error = u32>,
{
    let runs = Arc::new(AtomicU32::new(0));
    let service = service_fn(move |request: u32| {
        let run = runs.fetch_add(1, Ordering::SeqCst);
        ready(if script >> run & 1 == 1 { Err(run) } else { Ok(request + run) })
    });
    let mut service = layer.layer(tower::util::BoxCloneService::new(service));
    let (began, mut told) = (Instant::now(), Vec::new());
    for request in [100, 200, 300] {
        let answer = service.ready().await.unwrap().call(request).await;
        told.push((answer, began.elapsed().as_millis()));
    }
    told
}

#[tokio::test(start_paused = true)]
async fn without_a_limit_it_retries_as_towers_own_layer_does() {
    for script in 0..1 << 9 {
        for retries in 0..4 {
            let own = tower::retry::RetryLayer::new(Doubling { left: retries, wait: Duration::from_millis(100) });
            let schedule = format!(r#"{{"meet":[{{"recurs":{retries}}},{{"exponential":[100,2]}}]}}"#);
            let ours = RetryLayer::new(policy(&schedule), Unlimited);
            assert_eq!(played(ours, script).await, played(own, script).await, "{script:b} {retries}");
        }
    }
}
