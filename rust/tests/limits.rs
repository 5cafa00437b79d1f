//! Limits of other systems: rows worked by hand, calls under each limit, two at once, and eight threads that count.

mod common;

use common::{admitted, fails, policy};
use hikebox::RefusalReason::{BreakerOpen, LevelLow, OutOfTurn, Probing, RetriesFull, Throttled};
use hikebox::{
    both, retry, Breaker, Bucket, CallLimit, InFlight, LimitError, RefusalReason, Request, RetryError, Terms, Throttle,
};
use std::sync::atomic::{AtomicU64, Ordering};
use std::thread;
use std::time::Duration;

fn refused(request: &mut Request) -> Option<RefusalReason> {
    request.draw().err().map(|refused| refused.reason())
}

// Of four tokens two are left after two failures, which is not more than half; a success gives half a token.
#[test]
fn grpc() {
    let bucket = CallLimit::new(Bucket::grpc(4, 0.5).unwrap()).unwrap();
    let (mut request, mut other) = (admitted(&bucket), admitted(&bucket));
    request.failed();
    assert_eq!(refused(&mut request), None);
    request.failed();
    assert_eq!(refused(&mut request), Some(LevelLow));
    other.succeeded();
    assert_eq!(refused(&mut request), None);
    request.failed();
    assert_eq!(refused(&mut request), Some(LevelLow));
}

// 500 tokens: a retry takes 5, or 10. A success gives back what the last retry took, or else 1.
#[test]
fn aws() {
    let bucket = CallLimit::new(Bucket::aws()).unwrap();
    let mut request = admitted(&bucket);
    for _ in 0..50 {
        request.draw_at(10).unwrap();
    }
    assert_eq!(refused(&mut request), Some(LevelLow));
    request.succeeded();
    drop(request);
    let mut request = admitted(&bucket);
    assert_eq!(refused(&mut request), None);
    assert_eq!(refused(&mut request), None);
    assert_eq!(refused(&mut request), Some(LevelLow));
    request.cancelled();
    request.cancelled();
    assert_eq!(refused(&mut request), None);
    assert_eq!(refused(&mut request), Some(LevelLow));
}

// A fifth of ten calls is two retries.
#[test]
fn envoy() {
    let limit = CallLimit::new(InFlight::envoy(20.0, 1).unwrap()).unwrap();
    let mut requests: Vec<Request> = (0..10).map(|_| admitted(&limit)).collect();
    assert_eq!(refused(&mut requests[0]), None);
    assert_eq!(refused(&mut requests[1]), None);
    assert_eq!(refused(&mut requests[2]), Some(RetriesFull));
    drop(requests.remove(0));
    assert_eq!(refused(&mut requests[1]), Some(RetriesFull));
    drop(requests.remove(0));
    assert_eq!(refused(&mut requests[0]), None);
}

// The breaker is open for 30 seconds, of which less than 20 pass here.
#[test]
fn an_open_breaker_admits_no_call() {
    let breaker = CallLimit::new(Breaker::consecutive(2, policy(r#"{"spaced":30000}"#))).unwrap();
    let mut runs = 0;
    let answer = retry(&policy(r#"{"recurs":9}"#), &breaker, || {
        runs += 1;
        Err::<(), _>("down")
    });
    assert_eq!(answer, Err(RetryError::LimitRefused("down")));
    assert_eq!(runs, 2);
    let answer = retry(&policy(r#"{"recurs":9}"#), &breaker, || Ok::<_, &str>(5));
    let refused = match answer {
        Err(RetryError::NotAdmitted(refused)) => refused,
        other => panic!("{other:?}"),
    };
    assert_eq!(refused.reason(), BreakerOpen);
    let left = refused.retry_after().unwrap();
    assert!(left > Duration::from_secs(10) && left <= Duration::from_secs(30));
    assert_eq!(refused.to_string(), "the breaker is open");
}

/// A breaker that one failure opens for a millisecond, which is over.
fn half_open() -> CallLimit {
    let for_a_moment = Breaker::consecutive(1, policy(r#"{"spaced":1}"#));
    let breaker = CallLimit::new(Breaker { probe_deadline: Duration::from_secs(600), ..for_a_moment }).unwrap();
    admitted(&breaker).failed();
    thread::sleep(Duration::from_millis(2));
    breaker
}

// One probe is admitted, and when that succeeds it is closed.
#[test]
fn a_probe_closes_the_breaker() {
    let breaker = half_open();
    let mut probe = admitted(&breaker);
    let mut other = breaker.request().unwrap();
    assert_eq!(other.admit().unwrap_err().reason(), Probing);
    probe.succeeded();
    other.admit().unwrap();
}

// None of many calls is accepted: of the first one nothing is asked, and of 10,000 more almost all are refused.
#[test]
fn a_throttle_refuses_first_runs() {
    let throttle = CallLimit::new(Throttle::google()).unwrap();
    drop(admitted(&throttle));
    let mut count = 0;
    for _ in 0..10_000 {
        match throttle.request().unwrap().admit() {
            Ok(()) => count += 1,
            Err(refused) => assert_eq!(refused.reason(), Throttled),
        }
    }
    // (1/2 + 1/3 + .. + 1/10,001 is 8.8)
    assert!(count < 60, "{count}");
}

#[test]
fn both_or_neither() {
    let flights = CallLimit::new(InFlight { least: 0, share: 0.5, most: None }).unwrap();
    let breaker = CallLimit::new(Breaker::consecutive(1, policy(r#"{"spaced":30000}"#))).unwrap();
    let limit = both(&flights, &breaker).unwrap();
    let mut request = admitted(&limit);
    request.failed();
    drop(request);
    assert_eq!(limit.request().unwrap().admit().unwrap_err().reason(), BreakerOpen);
    let mut alone = admitted(&flights);
    assert_eq!(refused(&mut alone), Some(RetriesFull));
    let beside = admitted(&flights);
    assert_eq!(refused(&mut alone), None);
    drop(beside);
}

// The last of four refuses a retry, and what the others granted comes back.
#[test]
fn four_or_none() {
    let token = || CallLimit::new(Bucket { capacity: 1.0, cost: 1.0, ..Bucket::default() }).unwrap();
    let (first, second) = (token(), token());
    let flights = CallLimit::new(InFlight { least: 1, share: 0.0, most: None }).unwrap();
    let breaker = CallLimit::new(Breaker::consecutive(1, policy(r#"{"spaced":30000}"#))).unwrap();
    let limit = both(&both(&first, &flights).unwrap(), &both(&second, &breaker).unwrap()).unwrap();
    let mut request = admitted(&limit);
    admitted(&breaker).failed();
    assert_eq!(refused(&mut request), Some(BreakerOpen));
    drop(request);
    for each in [&first, &second, &flights] {
        assert_eq!(refused(&mut admitted(each)), None);
    }
    assert_eq!(limit.request().unwrap().admit().unwrap_err().reason(), BreakerOpen);
    assert_eq!(both(&limit, &token()).unwrap_err(), LimitError::TooManyLimits);
}

// The engine draws of all at one cost. gRPC's costs nothing, so each retry would take five of its tokens.
#[test]
fn several_buckets_have_one_cost() {
    let limit = |bucket: Bucket| CallLimit::new(bucket).unwrap();
    let (grpc, aws) = (limit(Bucket::grpc(10, 0.1).unwrap()), limit(Bucket::aws()));
    let flights = InFlight::envoy(20.0, 3).unwrap();
    assert_eq!(both(&grpc, &aws).unwrap_err(), LimitError::CostsDiffer);
    let joined = both(&CallLimit::new(flights).unwrap(), &aws).unwrap();
    assert_eq!(both(&joined, &grpc).unwrap_err(), LimitError::CostsDiffer);
    assert!(both(&joined, &limit(Bucket::aws())).is_ok());
    let other = limit(Bucket { timeout_cost: None, ..Bucket::aws() });
    assert_eq!(both(&aws, &other).unwrap_err(), LimitError::CostsDiffer);
}

// gRPC's proposal A6: "Decimal places beyond 3 are ignored. (eg. .5466 is treated as .546.)"
#[test]
fn the_ratio_of_grpc_has_three_decimals() {
    for (ratio, credit) in [(0.5466, 0.546), (0.546, 0.546), (0.57, 0.57), (0.1, 0.1), (0.0019, 0.001), (1.0, 1.0)] {
        assert_eq!(Bucket::grpc(10, ratio).unwrap().credit, credit);
    }
}

// An error names the argument that was given, and what it may be.
#[test]
fn arguments_of_grpc_and_envoy_out_of_range() {
    for ratio in [-0.5, 0.0004, 11.0, f64::NAN, f64::INFINITY] {
        let error = Bucket::grpc(10, ratio).unwrap_err().to_string();
        assert_eq!(error, "token_ratio: expected 0, or from 0.001 to max_tokens, got another", "{ratio}");
    }
    assert!([0.0, 0.001, 10.0].iter().all(|ratio| CallLimit::new(Bucket::grpc(10, *ratio).unwrap()).is_ok()));
    for tokens in [0, 1_099_511_628] {
        let error = Bucket::grpc(tokens, 0.1).unwrap_err().to_string();
        assert_eq!(error, "max_tokens: expected 1 to 1099511627 tokens, got another", "{tokens}");
    }
    assert!([1, 1_099_511_627].iter().all(|tokens| CallLimit::new(Bucket::grpc(*tokens, 0.1).unwrap()).is_ok()));
    // 20 per cent are a share of 0.2
    for percent in [0.2, 0.99, -1.0, 100.1, f64::NAN] {
        let error = InFlight::envoy(percent, 3).unwrap_err().to_string();
        assert_eq!(error, "budget_percent: expected per cent, 0 or from 1 to 100, got another", "{percent}");
    }
    assert!([0.0, 1.0, 100.0].iter().all(|percent| CallLimit::new(InFlight::envoy(*percent, 3).unwrap()).is_ok()));
}

#[test]
fn a_limit_is_not_joined_with_itself() {
    let limits: Vec<CallLimit> = (0..3).map(|_| CallLimit::new(Bucket::aws()).unwrap()).collect();
    let joined = both(&limits[0], &limits[1]).unwrap();
    for (first, second) in
        [(&limits[0], &limits[0]), (&joined, &limits[1].clone()), (&limits[0], &joined), (&joined, &joined)]
    {
        let error = both(first, second).unwrap_err();
        assert_eq!(error, LimitError::SameLimit);
        assert_eq!(error.to_string(), "expected limits that differ, got one of them twice");
    }
    // others of the same terms are other limits
    assert!(both(&joined, &limits[2]).is_ok());
}

// Open times are the waits for random words 0, of which full jitter makes none.
#[test]
fn a_breaker_that_would_never_open_is_refused() {
    let expected =
        "open_for: expected a policy with an open time above 0: open times are its waits for the least random \
                    numbers, and full jitter makes these 0; write no jitter, or jittered(0.5..1.0)";
    for never in [r#"{"jitter":[0,0,1000,{"spaced":30000}]}"#, "\"forever\"", r#"{"recurs":3}"#] {
        is_refused(Breaker::consecutive(5, policy(never)), expected);
    }
    // one that opens at some time is taken
    for opens in [r#"{"jitter":[0,500,1000,{"spaced":30000}]}"#, r#"{"follow":[{"recurs":2},{"spaced":1}]}"#] {
        assert!(CallLimit::new(Breaker::consecutive(5, policy(opens))).is_ok(), "{opens}");
    }
}

#[test]
fn a_retry_that_succeeds_gives_back() {
    let bucket =
        CallLimit::new(Bucket { capacity: 2.0, debit: 1.0, credit: 1.0, cost: 0.0, ..Bucket::default() }).unwrap();
    assert_eq!(retry(&policy(r#"{"recurs":9}"#), &bucket, fails(2)), Ok(2));
    assert_eq!(admitted(&bucket).draw_at(1).err(), None);
    assert_eq!(admitted(&bucket).draw_at(1).unwrap_err().reason(), LevelLow);
}

/// How many draws are granted, where each of eight threads makes so many calls, and each draws once.
fn race(limit: &CallLimit, times: u64) -> u64 {
    let granted = AtomicU64::new(0);
    thread::scope(|scope| {
        for _ in 0..8 {
            scope.spawn(|| {
                for _ in 0..times {
                    let mut request = limit.request().unwrap();
                    if request.admit().is_ok() && request.draw().is_ok() {
                        granted.fetch_add(1, Ordering::SeqCst);
                    }
                }
            });
        }
    });
    granted.load(Ordering::SeqCst)
}

#[test]
fn eight_threads_draw_each_token_once() {
    let bucket = CallLimit::new(Bucket { capacity: 50_000.0, cost: 1.0, ..Bucket::default() }).unwrap();
    assert_eq!(race(&bucket, 10_000), 50_000);
}

#[test]
fn eight_threads_draw_each_token_of_three_limits_once() {
    let bucket = CallLimit::new(Bucket { capacity: 50_000.0, cost: 1.0, ..Bucket::default() }).unwrap();
    let flights = CallLimit::new(InFlight { least: 8, share: 1.0, most: None }).unwrap();
    let breaker = CallLimit::new(Breaker::consecutive(1, policy(r#"{"spaced":1}"#))).unwrap();
    assert_eq!(race(&both(&both(&bucket, &flights).unwrap(), &breaker).unwrap(), 10_000), 50_000);
}

#[test]
fn eight_threads_give_each_slot_back() {
    let limit = CallLimit::new(InFlight { least: 0, share: 0.5, most: None }).unwrap();
    assert!(race(&limit, 10_000) <= 80_000);
    let mut alone = admitted(&limit);
    assert_eq!(refused(&mut alone), Some(RetriesFull));
    let _beside = admitted(&limit);
    assert_eq!(refused(&mut alone), None);
}

#[test]
fn eight_threads_get_no_probe_more() {
    let breaker = half_open();
    let _probe = admitted(&breaker);
    assert_eq!(race(&breaker, 1000), 0);
}

#[test]
fn calls_out_of_turn() {
    let limit = CallLimit::new(Bucket::aws()).unwrap();
    let mut request = limit.request().unwrap();
    assert_eq!(refused(&mut request), Some(OutOfTurn));
    request.admit().unwrap();
    assert_eq!(request.admit().unwrap_err().reason(), OutOfTurn);
}

/// A limit is refused with this error: which number is out of range, and what it may be.
fn is_refused(terms: impl Into<Terms>, error: &str) {
    assert_eq!(CallLimit::new(terms).unwrap_err().to_string(), format!("{error}, got another"));
}

#[test]
fn terms_out_of_range() {
    let capacity = "capacity: expected 0, or from 0.001 to 1099511627.776 tokens";
    let of_capacity = |name: &str| format!("{name}: expected 0, or from 0.001 to the capacity");
    is_refused(Bucket { capacity: 1.0, floor: 2.0, ..Bucket::default() }, &of_capacity("floor"));
    is_refused(Bucket { capacity: -1.0, ..Bucket::default() }, capacity);
    is_refused(Bucket { capacity: 1_099_511_627.777, ..Bucket::default() }, capacity);
    for cost in [f64::NAN, 0.0004] {
        is_refused(Bucket { cost, ..Bucket::aws() }, &of_capacity("cost"));
    }
    is_refused(Bucket { debit: 500.001, ..Bucket::aws() }, &of_capacity("debit"));
    is_refused(Bucket { credit: 501.0, ..Bucket::aws() }, &of_capacity("credit"));
    is_refused(Bucket { timeout_cost: Some(501.0), ..Bucket::aws() }, &of_capacity("timeout_cost"));
    is_refused(Bucket { capacity: 4.0, ..Bucket::aws() }, &of_capacity("cost")); // a retry takes five tokens
                                                                                 // a retry takes a token, and there is none
    is_refused(Bucket::default(), &of_capacity("cost"));
    for share in [1.5, 1.0001, 0.0004] {
        is_refused(InFlight { least: 0, share, most: None }, "share: expected 0, or from 0.001 to 1");
    }
    is_refused(Breaker::consecutive(0, policy("\"forever\"")), "failures: expected 1 to 4294967295");
    let never = policy(r#"{"recurs":0}"#);
    is_refused(Breaker::consecutive(1, never), "open_for: expected a policy that goes on at least once");
    for probes in [0, 16] {
        let breaker = Breaker { probes, ..Breaker::consecutive(1, policy("\"forever\"")) };
        is_refused(breaker, "probes: expected 1 to 15");
    }
    is_refused(Throttle { ratio: 0.9, ..Throttle::google() }, "ratio: expected 1 to 4294967.295");
    is_refused(Throttle { ratio: 4_294_967.296, ..Throttle::google() }, "ratio: expected 1 to 4294967.295");
    let still = Throttle { period: Duration::from_micros(999), ..Throttle::google() };
    is_refused(still, "period: expected at least a millisecond");
    assert!(CallLimit::new(Bucket { capacity: 1_099_511_627.776, ..Bucket::default() }).is_ok());
    assert!(CallLimit::new(Bucket { cost: 0.001, ..Bucket::aws() }).is_ok());
    assert!(CallLimit::new(InFlight { least: 0, share: 0.001, most: None }).is_ok());
    assert!(CallLimit::new(Throttle { ratio: 4_294_967.295, period: Duration::MAX }).is_ok());
    let breaker = Breaker { probes: 15, ..Breaker::consecutive(u32::MAX, policy(r#"{"spaced":1}"#)) };
    assert!(CallLimit::new(Breaker { probe_deadline: Duration::MAX, ..breaker }).is_ok());
}
