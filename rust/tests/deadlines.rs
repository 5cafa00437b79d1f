//! Deadlines: worked by hand, on a clock that the sleeps and the calls move.

use hikebox::{Attempt, Budget, Ending, Machine, Policy, Quota, Report, RetryError, Retrying, Step, Unlimited};
use std::cell::Cell;
use std::time::{Duration, Instant};

fn policy(json: &str) -> Policy {
    json.parse().unwrap()
}

const fn micros(micros: u64) -> Duration {
    Duration::from_micros(micros)
}

/// When each run began and how long it had left, in microseconds, of runs that take so long and fail; and the tickets.
fn runs(json: &str, deadline: u64, took: u64) -> (Vec<(u128, u128)>, u64) {
    let (policy, budget, now) = (policy(json), Budget::new(100).unwrap(), Cell::new(Instant::now()));
    let (origin, mut seen) = (now.get(), Vec::new());
    let retrying = Retrying::new(&policy, &budget)
        .deadline(micros(deadline))
        .clock(|| now.get())
        .sleep(|wait| now.set(now.get() + wait));
    let ended = retrying.call_with(|attempt: Attempt| {
        assert_eq!(attempt.number(), seen.len() as u64 + 1);
        seen.push(((now.get() - origin).as_micros(), attempt.left().unwrap().as_micros()));
        now.set(now.get() + micros(took));
        Err::<(), _>("busy")
    });
    let by_policy = json.contains("ends_by");
    assert_eq!(ended, Err(if by_policy { RetryError::ScheduleDone("busy") } else { RetryError::Deadline("busy") }));
    drop(retrying);
    (seen, budget.close().unwrap())
}

#[test]
fn no_run_is_planned_past_the_deadline_and_no_ticket_is_drawn_for_it() {
    let spaced = r#"{"spaced":100}"#;
    // runs of 30 ms fail at 30, 160 and 290, and the next ones would begin at 130, 260 and 390
    assert_eq!(runs(spaced, 259_000, 30_000), (vec![(0, 259_000), (130_000, 129_000)], 1));
    assert_eq!(runs(spaced, 260_000, 30_000), (vec![(0, 260_000), (130_000, 130_000), (260_000, 0)], 2));
    assert_eq!(runs(spaced, 129_000, 30_000), (vec![(0, 129_000)], 0));
}

/// When each run of a retry began, in milliseconds, of runs that take as long as these numbers say, a millisecond at
/// least.
fn starts(json: &str, deadline: Option<u64>, mut numbers: u64) -> Vec<u64> {
    let (policy, now) = (policy(json), Cell::new(Instant::now()));
    let (origin, mut seen) = (now.get(), Vec::new());
    let retrying = Retrying::new(&policy, &Unlimited)
        .clock(|| now.get())
        .sleep(|wait| now.set(now.get() + wait))
        .random(|| [7, 1 << 30, 1 << 31, 9]);
    let retrying = match deadline {
        Some(deadline) => retrying.deadline(Duration::from_millis(deadline)),
        None => retrying,
    };
    let _ = retrying.call(|| {
        seen.push((now.get() - origin).as_millis() as u64);
        numbers = numbers.wrapping_mul(6_364_136_223_846_793_005).wrapping_add(1_442_695_040_888_963_407);
        now.set(now.get() + Duration::from_millis((numbers >> 33) % 50 + 1));
        Err::<(), _>(())
    });
    drop(retrying);
    seen
}

#[test]
fn up_to_the_deadline_a_retry_runs_as_without_one_and_then_no_more() {
    let policies = [
        r#"{"meet":[{"recurs":30},{"spaced":70}]}"#,
        r#"{"meet":[{"recurs":30},{"cap":[400,{"exponential":[10,2]}]}]}"#,
        r#"{"meet":[{"recurs":30},{"jitter":[1,500,1500,{"fibonacci":20}]}]}"#,
        r#"{"meet":[{"recurs":30},{"fixed":90}]}"#,
        r#"{"follow":[{"meet":[{"recurs":3},{"spaced":5}]},{"meet":[{"recurs":20},{"windowed":130}]}]}"#,
        r#"{"renew":[300,{"meet":[{"recurs":30},{"linear":40}]}]}"#,
        r#"{"within":[900,{"decorrelated":[2,10,3000,200]}]}"#,
    ];
    for (index, json) in policies.iter().enumerate() {
        for deadline in (0..2000).step_by(37) {
            let numbers = index as u64 * 1000 + deadline;
            let mut expected: Vec<u64> = starts(&format!(r#"{{"within":[4000,{json}]}}"#), None, numbers);
            expected.retain(|start| *start <= deadline);
            assert_eq!(starts(json, Some(deadline), numbers), expected, "{json} by {deadline}");
        }
    }
}

#[test]
fn it_counts_from_the_start_of_the_first_run() {
    // 5 ms after 240 is 245; by `ends_by`, from the first failure, there would be runs up to 490
    let ends_by = r#"{"ends_by":[250,{"spaced":5}]}"#;
    assert_eq!(runs(r#"{"spaced":5}"#, 250_000, 240_000), (vec![(0, 250_000), (245_000, 5_000)], 1));
    assert_eq!(runs(ends_by, 9_000_000, 240_000).0.len(), 3);
    assert_eq!(runs(r#"{"spaced":0}"#, 250_000, 251_000), (vec![(0, 250_000)], 0));
}

#[test]
fn parts_of_a_millisecond_come_before_it() {
    // a failure at 0.9 ms leaves 99 ms, and a run after 100 would begin at 100.9
    assert_eq!(runs(r#"{"spaced":100}"#, 100_000, 900), (vec![(0, 100_000)], 0));
    assert_eq!(runs(r#"{"spaced":99}"#, 100_000, 900), (vec![(0, 100_000), (99_900, 100)], 1));
    assert_eq!(runs("\"forever\"", 100_999, 40_000).0, [(0, 100_999), (40_000, 60_999), (80_000, 20_999)]);
}

#[test]
fn an_error_that_asks_for_more_than_is_left_ends_it() {
    let (policy, budget, now) = (policy(r#"{"recurs":9}"#), Budget::new(9).unwrap(), Cell::new(Instant::now()));
    let mut asks = [10, 20, 71].into_iter();
    let ended = Retrying::new(&policy, &budget)
        .deadline(micros(100_000))
        .clock(|| now.get())
        .sleep(|wait| now.set(now.get() + wait))
        .retry_after(|asked: &u64| Some(Duration::from_millis(*asked)))
        .call(|| Err::<(), _>(asks.next().unwrap()));
    // it waited for 10 and 20, and 71 more would be 101
    assert_eq!(ended, Err(RetryError::Deadline(71)));
    assert_eq!(budget.close().unwrap(), 2);
}

#[test]
fn an_error_that_asks_for_a_part_of_a_millisecond_more_is_not_waited_for() {
    let (policy, budget, waits) = (policy(r#"{"recurs":9}"#), Budget::new(9).unwrap(), Cell::new(0));
    let ended = Retrying::new(&policy, &budget)
        .deadline(micros(50_900))
        .sleep(|_| waits.set(waits.get() + 1))
        .notify(|_: &u64, _| waits.set(waits.get() + 1))
        .retry_after(|asked| Some(micros(*asked)))
        .call(|| Err::<(), _>(50_500));
    // it is of 50 whole milliseconds
    assert_eq!((ended, waits.get()), (Err(RetryError::Deadline(50_500)), 0));
    assert_eq!(budget.close().unwrap(), 0);
}

#[test]
fn a_retry_on_a_quota_ends_by_it_in_the_quotas_windows() {
    let began = Instant::now();
    let now = Cell::new(began + Duration::from_millis(3_600_250));
    let quota = Quota::new_at(began, 1, 0.0, Duration::from_millis(300)).unwrap();
    let (policy, mut runs) = (policy(r#"{"spaced":300}"#), 0);
    let ended = Retrying::new(&policy, &quota)
        .deadline(micros(1_200_000))
        .clock(|| now.get())
        .sleep(|wait| now.set(now.get() + wait))
        .call(|| {
            runs += 1;
            now.set(now.get() + Duration::from_millis(10));
            Err::<(), _>("busy")
        });
    // failures at 3600.26, .57, .88 and 3601.19 s, each in a window of its own, and the next run would begin at 1.24 s
    assert_eq!((ended, runs), (Err(RetryError::Deadline("busy")), 4));
    assert_eq!(quota.close().unwrap(), 3);
}

#[test]
fn without_one_nothing_is_left_to_tell() {
    let policy = policy(r#"{"recurs":2}"#);
    let mut seen = Vec::new();
    let _ = Retrying::new(&policy, &Unlimited).call_with(|attempt| {
        seen.push((attempt.number(), attempt.left()));
        Err::<(), _>(())
    });
    assert_eq!(seen, [(1, None), (2, None), (3, None)]);
}

#[test]
fn a_policy_of_any_size_has_one() {
    // 32 deep: as deep as a policy may be
    let leaves = (0..31).map(|_| r#"{"recurs":9}"#.to_owned());
    let deep = leaves.fold(r#"{"spaced":100}"#.to_owned(), |both, leaf| format!(r#"{{"meet":[{leaf},{both}]}}"#));
    assert_eq!(policy(&deep).depth(), 32);
    assert_eq!(runs(&deep, 259_000, 30_000), (vec![(0, 259_000), (130_000, 129_000)], 1));
}

#[test]
fn each_failure_counts_by_the_part_of_a_millisecond_at_which_it_was() {
    // failures at 0.9, 101.8 and 202.7 ms; the engine is told 1, 102 and 203, and plans 101, 202 and 303
    let starts = vec![(0, 203_000), (100_900, 102_100), (201_800, 1_200)];
    assert_eq!(runs(r#"{"spaced":100}"#, 203_000, 900), (starts.clone(), 2));
    // a run at 201.8 is not past 202, and one at 201.8 is past 201.7
    assert_eq!(runs(r#"{"spaced":100}"#, 202_000, 900).0.len(), 3);
    assert_eq!(runs(r#"{"spaced":100}"#, 201_700, 900).0.len(), 2);
}

#[test]
fn a_machine_ends_by_it_at_the_moments_of_its_host() {
    let (at, policy) = (Duration::from_millis, policy(r#"{"spaced":450}"#));
    let (budget, quota) = (Budget::new(9).unwrap(), Quota::new_at(Instant::now(), 9, 0.0, at(60_000)).unwrap());
    let machines = [
        Machine::until(&policy, &budget, at(1000)),
        Machine::until(&policy, &quota, at(1000)),
        Machine::until(&policy, &Unlimited, at(1000)),
    ];
    for machine in machines {
        let mut machine = machine.unwrap();
        assert_eq!(machine.left(at(0)), Some(at(1000)));
        for start in [0, 450] {
            assert_eq!(machine.step(at(start), None), Step::Run);
            assert_eq!(machine.step(at(start), Some(Report::Lost(5))), Step::Wait(at(start + 450)));
        }
        assert_eq!(machine.step(at(900), None), Step::Run);
        assert_eq!(machine.step(at(900), Some(Report::Lost(5))), Step::Over(Ending::Deadline));
        assert_eq!((machine.granted(), machine.runs()), (2, 3));
        assert_eq!((machine.left(at(999)), machine.left(at(1001))), (Some(at(1)), Some(at(0))));
    }
    assert_eq!((budget.close().unwrap(), quota.close().unwrap()), (2, 2));
    assert_eq!(Machine::new(&policy, &Unlimited).unwrap().left(at(7)), None);
}

#[cfg(feature = "tower")]
#[tokio::test(start_paused = true)]
async fn a_request_of_towers_has_a_deadline_of_its_own() {
    use hikebox::RetryLayer;
    use tokio::time::{sleep, Instant};
    use tower::{service_fn, Service, ServiceBuilder, ServiceExt};

    let quota = Quota::new(100, 0.0, Duration::from_secs(3600)).unwrap();
    let by = RetryLayer::new(policy(r#"{"spaced":100}"#), quota.clone()).deadline(Duration::from_millis(259));
    let busy = service_fn(|_: u32| async {
        sleep(Duration::from_millis(30)).await;
        Err::<(), _>("busy")
    });
    let mut service = ServiceBuilder::new().layer(by).service(busy);
    for request in 1..=2 {
        sleep(Duration::from_secs(1)).await;
        let began = Instant::now();
        assert_eq!(service.ready().await.unwrap().call(request).await, Err("busy"));
        // runs begin at 0 and 130, and the next one would at 260
        assert_eq!(began.elapsed().as_millis(), 160);
        assert_eq!((quota.seen().asked, quota.granted()), (u64::from(request), u64::from(request)));
    }
}

/// A request of tower's whose timer is due at 10 ms and rings at 200, past the deadline of 50: how many of its runs were
/// made, of which the first so many fail.
#[cfg(feature = "tower")]
async fn runs_of_a_late_timer(quota: &Quota, fails: usize) -> usize {
    use hikebox::RetryLayer;
    use std::{future::ready, sync::atomic::AtomicUsize, sync::atomic::Ordering, sync::Arc};
    use tower::{service_fn, Service, ServiceBuilder, ServiceExt};

    let runs = Arc::new(AtomicUsize::new(0));
    let counted = runs.clone();
    let by = RetryLayer::new(policy(r#"{"spaced":10}"#), quota.clone()).deadline(Duration::from_millis(50));
    let service = service_fn(move |_: u32| {
        ready(if counted.fetch_add(1, Ordering::Relaxed) < fails { Err("busy") } else { Ok("there") })
    });
    let mut service = ServiceBuilder::new().layer(by).service(service);
    let late = tokio::time::advance(Duration::from_millis(200));
    let (answer, ()) = tokio::join!(service.ready().await.unwrap().call(7), late);
    let runs = runs.load(Ordering::Relaxed);
    assert_eq!(answer, if runs > fails { Ok("there") } else { Err("busy") });
    runs
}

#[cfg(feature = "tower")]
#[tokio::test(start_paused = true)]
async fn no_run_of_towers_begins_past_it_and_its_ticket_comes_back() {
    let quota = Quota::new(2, 0.0, Duration::from_secs(3600)).unwrap();
    for fails in [9, 1] {
        assert_eq!(runs_of_a_late_timer(&quota, fails).await, 1);
        assert_eq!((quota.granted(), quota.seen().left), (0, 2));
    }
}

/// A clock that a sleep moves by so much more than it should.
fn late_by(late: u64) -> (Cell<Instant>, impl Fn(&Cell<Instant>, Duration)) {
    (Cell::new(Instant::now()), move |now, wait| now.set(now.get() + wait + Duration::from_millis(late)))
}

#[test]
fn no_run_begins_past_it_where_a_sleep_took_too_long() {
    let (now, sleep) = late_by(200);
    let (policy, quota, origin) =
        (policy(r#"{"spaced":10}"#), Quota::new(9, 0.0, Duration::from_secs(60)).unwrap(), now.get());
    let mut starts = vec![];
    let ended = Retrying::new(&policy, &quota)
        .deadline(Duration::from_millis(50))
        .clock(|| now.get())
        .sleep(|wait| sleep(&now, wait))
        .call(|| {
            starts.push((now.get() - origin).as_millis());
            Err::<(), _>("busy")
        });
    assert_eq!((ended, starts), (Err(RetryError::Deadline("busy")), vec![0]));
    // the ticket of the run that was not made came back
    assert_eq!((quota.granted(), quota.seen().left), (0, 9));
    assert_eq!(quota.close().unwrap(), 0);
}

#[test]
fn a_run_that_begins_just_by_it_is_made() {
    let (now, sleep) = late_by(1);
    let (policy, budget) = (policy(r#"{"spaced":9}"#), Budget::new(9).unwrap());
    let mut runs = vec![];
    let ended = Retrying::new(&policy, &budget)
        .deadline(Duration::from_millis(30))
        .clock(|| now.get())
        .sleep(|wait| sleep(&now, wait))
        .call_with(|attempt| {
            runs.push(attempt.left().unwrap().as_millis());
            Err::<(), _>("busy")
        });
    // at 0, 10, 20 and 30 ms; and at 30 the next is planned for 39
    assert_eq!((ended, runs), (Err(RetryError::Deadline("busy")), vec![30, 20, 10, 0]));
    assert_eq!(budget.close().unwrap(), 3);
}

#[test]
fn no_run_begins_past_it_where_the_notice_of_a_retry_took_too_long() {
    for json in [r#"{"spaced":10}"#, r#"{"recurs":9}"#] {
        let (now, quota) = (Cell::new(Instant::now()), Quota::new(9, 0.0, Duration::from_secs(60)).unwrap());
        let mut runs = 0;
        let ended = Retrying::new(&policy(json), &quota)
            .deadline(Duration::from_millis(50))
            .clock(|| now.get())
            .sleep(|wait| now.set(now.get() + wait))
            .notify(|_, _| now.set(now.get() + Duration::from_millis(51)))
            .call(|| {
                runs += 1;
                Err::<(), _>("busy")
            });
        assert_eq!((ended, runs), (Err(RetryError::Deadline("busy")), 1), "{json}");
        assert_eq!(quota.close().unwrap(), 0, "{json}");
    }
}

#[test]
fn a_policy_that_is_done_is_told_from_a_deadline() {
    let (policy, now) = (policy(r#"{"meet":[{"recurs":2},{"spaced":20}]}"#), Cell::new(Instant::now()));
    let ended = |deadline| {
        Retrying::new(&policy, &Unlimited)
            .deadline(Duration::from_millis(deadline))
            .clock(|| now.get())
            .sleep(|wait| now.set(now.get() + wait))
            .call(|| Err::<(), _>("busy"))
    };
    assert_eq!(ended(40), Err(RetryError::ScheduleDone("busy")));
    assert_eq!(ended(39), Err(RetryError::Deadline("busy")));
    assert_eq!(ended(39).unwrap_err().to_string(), "busy (the deadline leaves no time for a retry)");
}

#[test]
fn no_repeat_begins_past_it() {
    use hikebox::{RepeatError, Repeating};

    let (now, sleep) = late_by(200);
    let (policy, mut runs) = (policy(r#"{"spaced":10}"#), 0);
    let repeating =
        Repeating::new(&policy).deadline(Duration::from_millis(50)).clock(|| now.get()).sleep(|wait| sleep(&now, wait));
    let polled = repeating.until(
        |_| false,
        || {
            runs += 1;
            Ok::<_, ()>(runs)
        },
    );
    assert_eq!(polled, Err(RepeatError::Deadline(1)));
    // a repeat gives its last value
    assert_eq!(repeating.call(|| Ok::<_, ()>(7)), Ok(7));
    let on_time = Repeating::new(&policy).deadline(Duration::from_millis(50)).sleep(|_| ());
    let polled = on_time.clock(|| now.get()).until(
        |value| *value == 3,
        || {
            runs += 1;
            Ok::<_, ()>(runs)
        },
    );
    assert_eq!(polled, Ok(3));
}

#[test]
fn a_machine_that_is_stepped_past_it_is_over_and_hands_its_ticket_back() {
    let (at, policy) = (Duration::from_millis, policy(r#"{"spaced":450}"#));
    let (budget, quota) = (Budget::new(9).unwrap(), Quota::new_at(Instant::now(), 9, 0.0, at(60_000)).unwrap());
    for machine in [Machine::until(&policy, &budget, at(1000)), Machine::until(&policy, &quota, at(1000))] {
        let mut machine = machine.unwrap();
        assert_eq!(machine.step(at(0), None), Step::Run);
        assert_eq!(machine.step(at(0), Some(Report::Lost(5))), Step::Wait(at(450)));
        assert_eq!(machine.step(at(1001), None), Step::Over(Ending::Deadline));
    }
    // a budget's ticket stays drawn
    assert_eq!((budget.close().unwrap(), quota.close().unwrap()), (1, 0));
    // the first run is made in any case, and one at the deadline is
    let mut machine = Machine::until(&policy, &Unlimited, at(1000)).unwrap();
    assert_eq!(machine.step(at(2000), None), Step::Run);
    let mut machine = Machine::until(&policy, &Unlimited, at(1000)).unwrap();
    assert_eq!(machine.step(at(0), None), Step::Run);
    assert_eq!(machine.step(at(0), Some(Report::Lost(5))), Step::Wait(at(450)));
    assert_eq!(machine.step(at(1000), None), Step::Run);
}

#[cfg(feature = "tokio")]
mod of_futures {
    use super::*;
    use hikebox::{RepeatError, Repeating};
    use std::future::ready;

    async fn too_long(wait: Duration) {
        tokio::time::sleep(wait + Duration::from_millis(200)).await;
    }

    #[tokio::test(start_paused = true)]
    async fn no_run_of_a_future_begins_past_it() {
        let (policy, mut runs) = (policy(r#"{"spaced":10}"#), 0);
        let quota = Quota::new_at(tokio::time::Instant::now().into_std(), 9, 0.0, Duration::from_secs(60)).unwrap();
        let retrying = Retrying::new(&policy, &quota).deadline(Duration::from_millis(50)).sleep(too_long);
        let ended = retrying.call_async(|| {
            runs += 1;
            ready(Err::<(), _>("busy"))
        });
        assert_eq!((ended.await, runs), (Err(RetryError::Deadline("busy")), 1));
        assert_eq!(quota.granted(), 0);
        let repeating = Repeating::new(&policy).deadline(Duration::from_millis(50)).sleep(too_long);
        let polled = repeating.until_async(|_| false, || ready(Ok::<_, ()>(5))).await;
        assert_eq!(polled, Err(RepeatError::Deadline(5)));
    }

    /// By the real clock and tokio's real timers: 2,000 retries of which each plans runs up to its deadline.
    #[tokio::test]
    async fn of_many_retries_none_begins_a_run_past_it() {
        let policy = policy(r#"{"jitter":[0,500,1500,{"spaced":7}]}"#);
        let deadline = Duration::from_millis(60);
        let retries = (0..2_000).map(|_| {
            let policy = policy.clone();
            tokio::spawn(async move {
                let retrying = Retrying::new(&policy, &Unlimited).deadline(deadline);
                let mut lefts = vec![];
                let ended = retrying.call_async_with(|attempt| {
                    lefts.push(attempt.left().unwrap());
                    ready(Err::<(), _>("busy"))
                });
                assert_eq!(ended.await, Err(RetryError::Deadline("busy")));
                lefts
            })
        });
        let mut begun = 0;
        for retry in retries.collect::<Vec<_>>() {
            let lefts = retry.await.unwrap();
            begun += lefts.len();
            // (a run that began late would have nothing left)
            assert!(lefts.iter().skip(1).all(|left| !left.is_zero()), "{lefts:?}");
        }
        assert!(begun >= 2_000);
    }
}
