//! Paces: rows worked by hand, threads, and waits that end early.

use hikebox::{LimitError, Pace, Rate, TooSoon, Turn};
use std::panic::{self, AssertUnwindSafe};
use std::sync::atomic::{AtomicU32, Ordering};
use std::sync::Mutex;
use std::time::{Duration, Instant};
use std::{mem, thread};

const SECOND: Duration = Duration::from_secs(1);
const HOUR: Duration = Duration::from_secs(3600);

/// How long a call waits that takes its turn now, in whole milliseconds; or after how long it would be granted. (A wait
/// is shorter by the part of a millisecond that the present moment is past its own.)
fn takes(pace: &Pace) -> Result<u64, u64> {
    let millis = |time: Duration| u64::try_from((time + Duration::from_nanos(999_999)).as_millis()).unwrap();
    match pace.take() {
        Ok(turn) => {
            let left = turn.left();
            turn.begin();
            Ok(millis(left))
        }
        Err(too_soon) => Err(millis(too_soon.retry_after())),
    }
}

#[test]
fn threads_begin_no_two_calls_in_one_place() {
    let pace = Pace::new(Rate::new(1, HOUR)).unwrap();
    let lefts = Mutex::new(Vec::new());
    let calls = || {
        for _ in 0..500 {
            let turn = pace.take().unwrap();
            lefts.lock().unwrap().push(turn.left());
            turn.begin();
        }
    };
    thread::scope(|scope| (0..8).for_each(|_| drop(scope.spawn(calls))));
    let mut lefts = lefts.into_inner().unwrap();
    lefts.sort();
    assert_eq!(lefts.len(), 4000);
    // (an hour lies between two, less what passed between the readings of the clock)
    assert!(lefts.windows(2).all(|two| two[1] - two[0] > Duration::from_secs(3000)));
}

#[test]
fn a_turn_that_is_dropped_comes_back() {
    let pace = Pace::new(Rate::new(1, HOUR)).unwrap();
    assert!(pace.seen().is_zero());
    pace.take().unwrap().begin();
    for _ in 0..3 {
        let turn = pace.take().unwrap();
        assert!(turn.left() < Duration::from_secs(3601) && turn.left() > Duration::from_secs(3000));
    }
    let (first, second) = (pace.take().unwrap(), pace.take().unwrap());
    drop(first); // which is not the last one any more
    assert!(pace.seen() > Duration::from_secs(10_000));
    drop(second);
    assert!(pace.seen() < Duration::from_secs(7201));
}

/// A call that panics while it waits.
fn panics_with(turn: Turn) {
    let panicked = panic::catch_unwind(AssertUnwindSafe(move || panic!("before {:?}", turn.left())));
    assert!(panicked.is_err());
}

// Moved to other threads, leaked, dropped, and dropped by a panic: only what is dropped is given back.
#[test]
fn a_turn_goes_to_other_threads() {
    let pace = Pace::new(Rate::new(1, HOUR)).unwrap();
    let lefts = Mutex::new(Vec::new());
    for number in 0..4 {
        let (turn, lefts) = (pace.take().unwrap(), &lefts);
        thread::scope(|scope| {
            let ends = move || {
                lefts.lock().unwrap().push(turn.left());
                match number {
                    0 => turn.begin(),
                    1 => mem::forget(turn),
                    2 => drop(turn),
                    _ => panics_with(turn),
                }
            };
            scope.spawn(ends);
        });
    }
    let hours: Vec<u64> = lefts.into_inner().unwrap().into_iter().map(|left| (left.as_secs() + 600) / 3600).collect();
    assert_eq!(hours, [0, 1, 2, 2]);
    let seen = pace.seen();
    assert!(seen > HOUR && seen <= 2 * HOUR, "{seen:?}");
}

// A turn that is dropped may come back, and one that began never does.
#[test]
fn threads_that_give_back_leave_room_for_what_was_begun() {
    let pace = Pace::new(Rate::new(1, Duration::from_secs(10_000))).unwrap();
    let begun = AtomicU32::new(0);
    let calls = || {
        for number in 0..300 {
            let turn = pace.take().unwrap();
            match number % 3 {
                0 => {
                    turn.begin();
                    begun.fetch_add(1, Ordering::Relaxed);
                }
                _ => drop(turn),
            }
        }
    };
    thread::scope(|scope| (0..6).for_each(|_| drop(scope.spawn(calls))));
    let (begun, taken) = (begun.into_inner(), (pace.seen().as_secs() + 5000) / 10_000);
    assert_eq!(begun, 600);
    assert!((600..=1800).contains(&taken), "{taken}");
}

#[test]
fn a_turn_after_a_deadline_is_refused_and_given_back() {
    let pace = Pace::new(Rate::new(1, HOUR)).unwrap();
    let turn = pace.take().unwrap().within(Duration::ZERO).unwrap().within(None).unwrap();
    assert_eq!(turn.wait(), Duration::ZERO);
    for _ in 0..3 {
        let too_soon = pace.take().unwrap().within(Some(HOUR / 2)).unwrap_err();
        assert!(too_soon.wait() <= HOUR && too_soon.wait() > HOUR * 5 / 6);
        assert!(too_soon.retry_after() <= HOUR / 2 && too_soon.retry_after() > HOUR / 3);
        assert!(too_soon.to_string().starts_with("expected a wait of at most 1800s for the pace, got one of "));
    }
    assert!(pace.take().unwrap().within(HOUR).is_ok());
}

#[test]
fn a_wait_ends_at_its_moment() {
    let pace = Pace::new(Rate::new(1, Duration::from_millis(30))).unwrap();
    let began = Instant::now();
    let slept: Duration = (0..3).map(|_| pace.wait().unwrap()).sum();
    assert!(slept <= Duration::from_millis(60) && began.elapsed() >= Duration::from_millis(59), "{slept:?}");
}

#[test]
#[should_panic(expected = "expected a cost from 1 to the burst, 3, got 4")]
fn a_cost_above_the_burst_is_refused() {
    let _ = Pace::new(Rate::new(1, SECOND).burst(3)).unwrap().take_of(4);
}

#[test]
fn a_pace_is_shown_as_its_rate() {
    let pace = Pace::new(Rate::new(10, SECOND).burst(20)).unwrap();
    assert_eq!(format!("{pace:?}"), "Pace(Rate { calls: 10, per: 1s, burst: 20, longest: None })");
}

#[test]
fn too_soon_says_when() {
    let pace = Pace::new(Rate::new(1, 10 * SECOND).longest(4 * SECOND)).unwrap();
    pace.wait().unwrap();
    let too_soon: TooSoon = pace.take().unwrap_err();
    assert!(too_soon.wait() > 9 * SECOND && too_soon.retry_after() <= 6 * SECOND);
    assert!(too_soon.to_string().starts_with("expected a wait of at most 4s for the pace, got one of "));
}

#[test]
fn a_dear_call_takes_the_place_of_several() {
    let pace = Pace::new(Rate::new(1, HOUR).burst(4)).unwrap();
    pace.take_of(3).unwrap().begin();
    assert_eq!(takes(&pace), Ok(0));
    let turn = pace.take_of(4).unwrap();
    assert!(turn.left() > Duration::from_secs(4 * 3600 - 600));
}

#[test]
fn rates_out_of_range() {
    let out_of_range = |rate: Rate, name| match Pace::new(rate) {
        Err(LimitError::OutOfRange { parameter, .. }) => assert_eq!(parameter, name),
        other => panic!("{other:?}"),
    };
    out_of_range(Rate::new(0, SECOND), "calls");
    out_of_range(Rate::new(1, Duration::ZERO), "per");
    out_of_range(Rate::new(1, Duration::from_secs(2_000_000)), "per");
    out_of_range(Rate::new(1, SECOND).burst(0), "burst");
    out_of_range(Rate::new(1, SECOND).burst((1 << 20) + 1), "burst");
    out_of_range(Rate::new(1, SECOND).longest(Duration::from_secs(1_000_000_000)), "longest");
}

#[cfg(feature = "tokio")]
mod of_tokio {
    use super::{takes, SECOND};
    use hikebox::{Pace, Rate};
    use std::time::Duration;
    use tokio::time::{advance, timeout, Instant};

    #[tokio::test(start_paused = true)]
    async fn a_burst_of_three_and_then_ten_a_second() {
        let pace = Pace::new(Rate::new(10, SECOND).burst(3).longest(Duration::from_millis(250))).unwrap();
        let five: Vec<_> = (0..5).map(|_| takes(&pace)).collect();
        assert_eq!(five, [Ok(0), Ok(0), Ok(0), Ok(100), Ok(200)]);
        assert_eq!(takes(&pace), Err(50));
        advance(Duration::from_millis(50)).await;
        assert_eq!(takes(&pace), Ok(250));
        assert_eq!(takes(&pace), Err(100));
        advance(Duration::from_millis(100)).await;
        drop(pace.take().unwrap());
        assert_eq!(takes(&pace), Ok(250));
        advance(Duration::from_millis(4850)).await;
        assert_eq!(takes(&pace), Ok(0));
    }

    // The time from one call to the next is whole microseconds: three in 10 microseconds are one in 4.
    #[tokio::test(start_paused = true)]
    async fn a_rate_is_rounded_up_to_microseconds() {
        let pace = Pace::new(Rate::new(3, Duration::from_micros(10)).burst(1 << 20)).unwrap();
        pace.take_of(1 << 20).unwrap().begin();
        assert_eq!(takes(&pace), Ok(1));
        pace.take_of((1 << 20) - 1).unwrap().begin();
        assert_eq!(takes(&pace), Ok(4195)); // 4 << 20 microseconds, rounded up
        assert!(Pace::new(Rate::new(u64::MAX, Duration::from_nanos(1))).is_ok());
    }

    // By a clock that stands still calls wait longer and longer, and begin when it has gone on.
    #[tokio::test(start_paused = true)]
    async fn by_a_clock_that_stands_still_each_call_has_a_turn_of_its_own() {
        let pace = Pace::new(Rate::new(1, SECOND).longest(100 * SECOND)).unwrap();
        let lefts: Vec<_> = (0..102).map(|_| takes(&pace)).collect();
        assert_eq!(lefts[..101], (0..101).map(|second| Ok(1000 * second)).collect::<Vec<_>>());
        assert_eq!((lefts[101], pace.seen()), (Err(1000), 101 * SECOND));
        advance(Duration::from_secs(101)).await;
        assert_eq!((pace.seen(), takes(&pace)), (Duration::ZERO, Ok(0)));
    }

    #[tokio::test(start_paused = true)]
    async fn a_call_sleeps_until_its_moment_and_one_that_is_dropped_gives_its_place_back() {
        let pace = Pace::new(Rate::new(1, 10 * SECOND)).unwrap();
        let began = Instant::now();
        pace.wait_async().await.unwrap();
        assert!(timeout(SECOND, pace.wait_async()).await.is_err());
        pace.wait_async().await.unwrap();
        let took = began.elapsed();
        assert!(took > 9 * SECOND && took < 11 * SECOND, "{took:?}");
    }
}

#[cfg(feature = "tower")]
mod of_tower {
    use super::{HOUR, SECOND};
    use hikebox::{Pace, PaceLayer, Policy, Quota, Rate, RetryLayer, TooSoon, Unlimited};
    use std::future::{pending, ready, Future, Ready};
    use std::sync::{Arc, Mutex};
    use std::task::{Context, Poll};
    use std::time::Duration;
    use tokio::time::{timeout, Instant};
    use tower::{service_fn, BoxError, Layer, Service, ServiceBuilder, ServiceExt};

    /// A service that is asked whether it is ready before each call, and its clones for themselves. It fails so many
    /// times, and notes when it is called, in milliseconds.
    struct Asked {
        is_ready: bool,
        fails: usize,
        began: Instant,
        calls: Arc<Mutex<Vec<u128>>>,
    }

    impl Asked {
        fn new(fails: usize) -> (Self, Arc<Mutex<Vec<u128>>>) {
            let calls = Arc::new(Mutex::new(Vec::new()));
            (Self { is_ready: false, fails, began: Instant::now(), calls: calls.clone() }, calls)
        }
    }

    impl Clone for Asked {
        fn clone(&self) -> Self {
            Self { is_ready: false, fails: self.fails, began: self.began, calls: self.calls.clone() }
        }
    }

    impl Service<u32> for Asked {
        type Response = u32;
        type Error = BoxError;
        type Future = Ready<Result<u32, BoxError>>;

        fn poll_ready(&mut self, _: &mut Context<'_>) -> Poll<Result<(), BoxError>> {
            self.is_ready = true;
            Poll::Ready(Ok(()))
        }

        fn call(&mut self, request: u32) -> Self::Future {
            assert!(std::mem::take(&mut self.is_ready), "it is called when it is ready");
            let mut calls = self.calls.lock().unwrap();
            calls.push(self.began.elapsed().as_millis());
            ready(if calls.len() > self.fails { Ok(request) } else { Err("down".into()) })
        }
    }

    fn layer(rate: Rate) -> PaceLayer {
        PaceLayer::new(Pace::new(rate).unwrap())
    }

    #[tokio::test(start_paused = true)]
    async fn requests_begin_at_their_turns_and_one_that_is_too_soon_is_not_called() {
        let (asked, called) = Asked::new(0);
        let rate = Rate::new(10, SECOND).burst(3).longest(Duration::from_millis(250));
        let mut service = ServiceBuilder::new().layer(layer(rate)).service(asked);
        let mut calls = Vec::new();
        for request in 0..5 {
            calls.push(tokio::spawn(service.ready().await.unwrap().call(request)));
        }
        let too_soon = service.ready().await.unwrap().call(5).await.unwrap_err();
        assert_eq!(too_soon.downcast_ref().map(TooSoon::retry_after), Some(Duration::from_millis(50)));
        for (request, call) in (0..).zip(calls) {
            assert_eq!(call.await.unwrap().unwrap(), request);
        }
        assert_eq!(*called.lock().unwrap(), [0, 0, 0, 100, 200]);
    }

    // Under the layer that retries each attempt waits; a wait that is longer counts once.
    #[tokio::test(start_paused = true)]
    async fn each_attempt_waits() {
        for (json, times) in [
            (r#"{"recurs":5}"#, [0, 100, 200, 300]),
            (r#"{"meet":[{"recurs":5},{"spaced":30}]}"#, [0, 100, 200, 300]),
            (r#"{"meet":[{"recurs":5},{"spaced":150}]}"#, [0, 150, 300, 450]),
        ] {
            let (asked, called) = Asked::new(3);
            let quota = Quota::new(9, 0.0, HOUR).unwrap();
            let retries = RetryLayer::new(json.parse::<Policy>().unwrap(), quota.clone());
            let mut service = ServiceBuilder::new().layer(retries).layer(layer(Rate::new(10, SECOND))).service(asked);
            assert_eq!(service.ready().await.unwrap().call(7).await.unwrap(), 7);
            assert_eq!((&called.lock().unwrap()[..], quota.seen().given), (&times[..], 3));
        }
    }

    // It is asked again after as long as it says.
    #[tokio::test(start_paused = true)]
    async fn one_that_is_too_soon_is_retried_when_it_says() {
        let (asked, called) = Asked::new(0);
        let pace = Pace::new(Rate::new(10, SECOND).longest(Duration::ZERO)).unwrap();
        pace.take().unwrap().begin();
        let retries = RetryLayer::new(r#"{"recurs":1}"#.parse::<Policy>().unwrap(), Unlimited)
            .retry_after(|outcome: Result<&u32, &BoxError>| outcome.err()?.downcast_ref().map(TooSoon::retry_after));
        let mut service = ServiceBuilder::new().layer(retries).layer(PaceLayer::new(pace)).service(asked);
        assert_eq!(service.ready().await.unwrap().call(7).await.unwrap(), 7);
        assert_eq!(*called.lock().unwrap(), [100]);
    }

    // A call that is dropped while it waits, also before it was polled, gives its turn back; one that began does not.
    #[tokio::test(start_paused = true)]
    async fn a_dropped_call_gives_its_turn_back() {
        let pace = Pace::new(Rate::new(1, HOUR)).unwrap();
        let mut service = PaceLayer::new(pace.clone()).layer(service_fn(|(): ()| pending::<Result<(), BoxError>>()));
        assert!(timeout(SECOND, service.ready().await.unwrap().call(())).await.is_err());
        let seen = pace.seen();
        assert!(seen > HOUR - 2 * SECOND && seen < HOUR, "{seen:?}");
        assert!(timeout(SECOND, service.ready().await.unwrap().call(())).await.is_err());
        drop(service.ready().await.unwrap().call(()));
        assert!(pace.seen() < HOUR);
    }

    // What it held comes back when it has ended, though its future is kept.
    #[tokio::test(start_paused = true)]
    async fn a_call_that_ended_holds_nothing() {
        let (held, request) = (Arc::new(()), Arc::new(()));
        let of_service = held.clone();
        let mut service = layer(Rate::new(10, SECOND)).layer(service_fn(move |_: Arc<()>| {
            let _ = &of_service;
            ready(Ok::<_, BoxError>(5))
        }));
        for waits in [false, true] {
            let mut call = service.ready().await.unwrap().call(request.clone());
            assert_eq!(
                (Arc::strong_count(&held), Arc::strong_count(&request)),
                (2 + usize::from(waits), 1 + usize::from(waits))
            );
            assert_eq!((&mut call).await.unwrap(), 5);
            assert_eq!((Arc::strong_count(&held), Arc::strong_count(&request)), (2, 1));
        }
    }

    // The first call waits for nothing; the second one's timer is made where it is polled.
    #[test]
    fn a_call_needs_no_runtime_where_it_is_made() {
        let mut service =
            layer(Rate::new(1, Duration::from_millis(20))).layer(service_fn(|(): ()| ready(Ok::<_, BoxError>(5))));
        let calls = [service.call(()), service.call(())];
        let runtime = tokio::runtime::Builder::new_current_thread().enable_time().build().unwrap();
        for call in calls {
            assert_eq!(runtime.block_on(call).unwrap(), 5);
        }
    }

    #[test]
    fn a_call_may_go_to_another_thread_and_is_small() {
        fn size_of_sent<T: Future + Send>(call: T) -> usize {
            std::mem::size_of_val(&call)
        }
        let pace = Pace::new(Rate::new(1, SECOND)).unwrap();
        let mut service = PaceLayer::new(pace.clone()).layer(service_fn(|(): ()| ready(Ok::<_, BoxError>(()))));
        assert!(size_of_sent(service.call(())) <= 80);
        assert!(size_of_sent(pace.wait_async()) <= 200);
    }
}
