//! `counted CASE FAILURES COUNT` makes so many calls, each of which fails so often and then succeeds, by the crate that the
//! case names, for bench/crates.sh, which counts the instructions. No run waits.

use hikebox::{
    both, Breaker, Bucket, Budget, CallLimit, InFlight, Pace, Policy, Quota, Rate, RetryLayer, Retrying, Schedule,
    Terms,
};
use std::convert::Infallible;
use std::future::{ready, Future, Ready};
use std::sync::atomic::{AtomicU64, Ordering};
use std::sync::{Arc, Mutex};
use std::time::{Duration, Instant};
use tower::retry::budget;
use tower::{service_fn, Layer, Service, ServiceExt};

const WINDOW: Duration = Duration::from_secs(10);

fn main() {
    let words: Vec<String> = std::env::args().collect();
    let numbers: Vec<u32> = words[2..].iter().map(|word| word.parse().expect("a number")).collect();
    let (failures, count) = (numbers[0], numbers[1]);
    match words[1].as_str() {
        "hikebox" => hikebox_calls(&policy(), failures, count),
        "hikebox-six" => hikebox_calls(&six_nodes(), failures, count),
        "hikebox-refused" => refused_calls(&six_nodes(), count),
        "hikebox-quota" => {
            let quota = Quota::new(10_000_000, 1.0, WINDOW).expect("a quota");
            let (policy, mut call) = (policy(), call(failures));
            for _ in 0..count {
                black_box(hikebox::retry(&policy, &quota, &mut call).expect("a success"));
            }
        }
        "hikebox-bucket" => limited_calls(&bucket(), failures, count),
        "hikebox-breaker" => limited_calls(&breaker(), failures, count),
        "hikebox-four" => {
            let two = || both(&bucket(), &breaker()).expect("two limits");
            limited_calls(&both(&two(), &two()).expect("four limits"), failures, count);
        }
        "hikebox-in-flight" => limited_calls(&limit(InFlight::envoy(20.0, 3).expect("a share")), failures, count),
        "hikebox-pace" => {
            let pace = Pace::new(Rate::new(1_000_000, Duration::from_secs(1)).burst(1 << 20)).expect("a pace");
            for _ in 0..count {
                black_box(pace.wait().expect("a turn"));
            }
        }
        "plain-pace" => {
            let pace = PlainPace { began: Instant::now(), due: AtomicU64::new(0), each: 1000, burst: 1000 << 20 };
            for _ in 0..count {
                black_box(pace.wait());
            }
        }
        "backoff" => backoff_calls(failures, count),
        "tower" => {
            let budget = Arc::new(budget::Budget::new(WINDOW, 1_000_000, 1.0));
            let retries = tower::retry::RetryLayer::new(Attempts { left: 20, budget });
            tower_calls(retries.layer(service(failures)), count);
        }
        "hikebox-in-tower" => {
            let quota = Quota::new(10_000_000, 1.0, WINDOW).expect("a quota");
            tower_calls(RetryLayer::new(policy(), quota).layer(service(failures)), count);
        }
        other => panic!("there is no case {other}"),
    }
}

/// The value, of which the compiler knows nothing then. (That of the standard library came after Debian's compiler.)
fn black_box<T>(value: T) -> T {
    let value = std::mem::ManuallyDrop::new(value);
    // SAFETY: the value is there, and is not dropped a second time.
    unsafe { std::mem::ManuallyDrop::into_inner(std::ptr::read_volatile(&value)) }
}

fn policy() -> Policy {
    r#"{"recurs":20}"#.parse().expect("a policy")
}

/// A call that fails so many times and then succeeds, again and again.
fn call(failures: u32) -> impl FnMut() -> Result<u32, u32> {
    let mut left = failures;
    move || match left {
        0 => {
            left = failures;
            Ok(black_box(1))
        }
        _ => {
            left -= 1;
            Err(black_box(2))
        }
    }
}

/// The policy of README.md, within a minute, with more retries.
fn six_nodes() -> Policy {
    let delays = Schedule::exponential(Duration::from_millis(100), 2).cap(Duration::from_secs(1)).jittered(0.8..1.2);
    let schedule = (Schedule::recurs(50) & delays).up_to(Duration::from_secs(60));
    Policy::new(&schedule).expect("a policy")
}

/// Calls by this policy, which are not waited for.
fn hikebox_calls(policy: &Policy, failures: u32, count: u32) {
    let (budget, mut call) = (Budget::new(1 << 32).expect("a budget"), call(failures));
    let retrying = Retrying::new(policy, &budget).sleep(|_: Duration| ());
    for _ in 0..count {
        black_box(retrying.call(&mut call).expect("a success"));
    }
}

fn limit(terms: impl Into<Terms>) -> CallLimit {
    CallLimit::new(terms).expect("a limit")
}

fn bucket() -> CallLimit {
    limit(Bucket::aws())
}

fn breaker() -> CallLimit {
    limit(Breaker::consecutive(5, six_nodes()))
}

/// Calls under a limit, which are not waited for.
fn limited_calls(limit: &CallLimit, failures: u32, count: u32) {
    let (policy, mut call) = (policy(), call(failures));
    for _ in 0..count {
        black_box(hikebox::retry(&policy, limit, &mut call).expect("a success"));
    }
}

/// Calls that fail, and are refused a retry.
fn refused_calls(policy: &Policy, count: u32) {
    let budget = Budget::new(0).expect("a budget");
    for _ in 0..count {
        black_box(hikebox::retry(policy, &budget, || Err::<(), u32>(black_box(2))).expect_err("no ticket"));
    }
}

/// A pace by hand: the formula of the crate governor, in nanoseconds.
struct PlainPace {
    began: Instant,
    /// Up to when the calls so far use the rate up.
    due: AtomicU64,
    each: u64,
    burst: u64,
}

impl PlainPace {
    fn wait(&self) -> Duration {
        let now = self.began.elapsed().as_nanos() as u64;
        let mut due = self.due.load(Ordering::Acquire);
        loop {
            let next = due.max(now) + self.each;
            match self.due.compare_exchange_weak(due, next, Ordering::AcqRel, Ordering::Acquire) {
                Ok(_) => {
                    let left = Duration::from_nanos(next.saturating_sub(now + self.burst));
                    if !left.is_zero() {
                        std::thread::sleep(left);
                    }
                    return left;
                }
                Err(other) => due = other,
            }
        }
    }
}

fn backoff_calls(failures: u32, count: u32) {
    let mut call = call(failures);
    for _ in 0..count {
        let waits = backoff::backoff::Zero {};
        black_box(backoff::retry(waits, || call().map_err(backoff::Error::transient)).expect("a success"));
    }
}

/// A policy of tower's own, which counts its attempts.
#[derive(Clone)]
struct Attempts {
    left: u32,
    budget: Arc<budget::Budget>,
}

impl tower::retry::Policy<u32, u32, u32> for Attempts {
    type Future = Ready<Self>;

    fn retry(&self, _: &u32, result: Result<&u32, &u32>) -> Option<Self::Future> {
        if result.is_ok() {
            self.budget.deposit();
            return None;
        }
        if self.left == 0 || self.budget.withdraw().is_err() {
            return None;
        }
        Some(ready(Self { left: self.left - 1, budget: self.budget.clone() }))
    }

    fn clone_request(&self, request: &u32) -> Option<u32> {
        Some(*request)
    }
}

/// A service whose calls fail so many times and then succeed, again and again.
fn service(failures: u32) -> impl Service<u32, Response = u32, Error = u32> + Clone {
    let call = Arc::new(Mutex::new(call(failures)));
    service_fn(move |_: u32| ready((call.lock().expect("no panic"))()))
}

fn tower_calls(mut service: impl Service<u32, Response = u32, Error = u32>, count: u32) {
    run(async {
        for request in 0..count {
            let service = service.ready().await.expect("it is ready");
            black_box(service.call(request).await.expect("a success"));
        }
        Ok::<_, Infallible>(())
    });
}

fn run<T>(calls: impl Future<Output = Result<T, Infallible>>) {
    let runtime = tokio::runtime::Builder::new_current_thread().enable_time().build().expect("a runtime");
    let _ = runtime.block_on(calls);
}
