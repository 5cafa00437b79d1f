//! Quotas: worked windows, retries on them, and threads that share one.

mod common;

use common::{at, policy, ticket, told};
use hikebox::{retry, Ending, LimitError, Machine, Quota, QuotaPass, Report, RetryError, Retrying, Step, Usage};
use std::cell::Cell;
use std::sync::Barrier;
use std::thread;
use std::time::{Duration, Instant};

const WINDOW: u64 = 1 << 32;

fn quota(reserve: u64, share: f64, millis: u64) -> Quota {
    Quota::new(reserve, share, Duration::from_millis(millis)).unwrap()
}

#[test]
fn worked_windows() {
    let quota = quota(2, 0.4, 100);
    let mut first = quota.pass().unwrap();
    let mut second = quota.pass().unwrap();
    assert_eq!(ticket(first.draw_at(at(300))), Some(3 * WINDOW));
    assert_eq!(ticket(second.draw_at(at(310))), Some(3 * WINDOW + 1));
    assert_eq!(ticket(first.draw_at(at(320))), None);
    for _ in 0..4 {
        second.deposit_at(at(330));
    }
    // 2 and 0.4 for each of four requests: 3.6
    assert_eq!(told(first.seen_at(at(340))), [3, 4, 2, 1]);
    assert_eq!(first.seen_at(at(340)).next, at(400));
    assert_eq!(ticket(first.draw_at(at(340))), Some(3 * WINDOW + 2));
    assert_eq!(ticket(first.draw_at(at(340))), None);
    quota.deposit_at(at(350));
    assert_eq!(ticket(second.draw_at(at(399))), Some(3 * WINDOW + 3));
    assert_eq!(ticket(second.draw_at(at(399))), None);
    assert_eq!(told(quota.seen_at(at(400))), [4, 0, 0, 2]);
    assert_eq!(ticket(first.draw_at(at(400))), Some(4 * WINDOW));
    // a clock that is behind is served in the latest window
    assert_eq!(ticket(second.draw_at(at(50))), Some(4 * WINDOW + 1));
    assert_eq!(ticket(second.draw_at(at(50))), None);
    // and one that is ahead opens its own
    assert_eq!(ticket(first.draw_at(at(3_600_000))), Some(36_000 * WINDOW));
    assert_eq!(quota.seen_at(at(50)).next, at(3_600_100));
    assert_eq!((first.count(), second.count()), (4, 3));
    assert_eq!(quota.granted(), 0);
    drop(first);
    assert_eq!(quota.granted(), 4);
    let quota = quota.close().unwrap_err();
    drop(second);
    assert_eq!(quota.close().unwrap(), 7);
}

#[test]
fn a_host_may_count_from_1970() {
    let millis = |millis: u64| at(1_700_000_000_000 + millis);
    let quota = Quota::new_of_host(millis(42), 1, 0.0, at(100)).unwrap();
    let mut pass = quota.pass().unwrap();
    assert_eq!(ticket(pass.draw_at(millis(99))), Some(0));
    assert_eq!(ticket(pass.draw_at(millis(99))), None);
    assert_eq!(ticket(pass.draw_at(millis(100))), Some(WINDOW));
    assert_eq!(ticket(pass.draw_at(millis(299_999_999_800))), Some(2_999_999_998 * WINDOW));
    assert!(quota.moment(Instant::now()) >= millis(42));
}

#[test]
#[cfg_attr(windows, ignore = "no instant lies before the start of the machine")]
fn windows_go_by_the_systems_clock() {
    let began = Instant::now() - Duration::from_secs(5000);
    let quota = Quota::new_at(began, 1, 1.0, Duration::from_secs(3600)).unwrap();
    quota.deposit();
    assert_eq!(told(quota.seen()), [1, 1, 0, 2]);
    let mut pass = quota.pass().unwrap();
    pass.deposit();
    assert_eq!(ticket(pass.draw()), Some(WINDOW));
    assert_eq!(told(pass.seen()), [1, 2, 1, 2]);
    assert_eq!(quota.moment(began), at(0));
    assert_eq!(quota.moment(began + Duration::from_millis(1500)), at(1500));
    assert_eq!(quota.moment(began - Duration::from_millis(1500)), at(0));
}

#[test]
fn terms_out_of_their_ranges_are_refused() {
    let refused = |reserve, share, per| Quota::new(reserve, share, per).unwrap_err();
    let second = Duration::from_secs(1);
    assert_eq!(refused(4_294_967_297, 0.0, second), LimitError::ReserveTooLarge);
    for share in [-0.1, 1000.1, 2000.0, f64::NAN, f64::INFINITY, f64::NEG_INFINITY, 0.0004, -0.0001] {
        assert_eq!(refused(0, share, second), LimitError::ShareOutOfRange, "{share}");
    }
    assert_eq!(refused(0, 0.0, Duration::ZERO), LimitError::PeriodTooShort);
    assert_eq!(refused(0, 0.0, Duration::from_micros(99_999)), LimitError::PeriodTooShort);
    assert_eq!(refused(0, 0.0, Duration::from_millis(1 << 62)), LimitError::PeriodTooLong);
    assert_eq!(refused(0, 0.0, Duration::MAX), LimitError::PeriodTooLong);
    assert_eq!(
        LimitError::PeriodTooShort.to_string(),
        "expected a window of at least 100 milliseconds, got a shorter one"
    );
    assert!(Quota::new(4_294_967_296, 1000.0, Duration::from_millis((1 << 62) - 1)).is_ok());
    assert!(Quota::new(0, 0.001, Duration::from_millis(100)).is_ok());
}

/// A retry by hand on the quota whose runs all fail, from this moment on: how it ended, and when it ran.
fn all_lost(json: &str, quota: &Quota, start: u64) -> (Ending, Vec<u64>, u64) {
    let mut machine = Machine::new(&policy(json), quota).unwrap();
    let (mut now, mut report, mut runs) = (start, None, Vec::new());
    loop {
        match machine.step(at(now), report.take()) {
            Step::Run => {
                runs.push(now);
                report = Some(Report::Lost(0));
            }
            Step::Wait(until) => now = until.as_millis() as u64,
            Step::Over(ended) => return (ended, runs, machine.granted()),
        }
    }
}

#[test]
fn a_retry_draws_at_the_moment_of_the_failure() {
    let quota = quota(2, 0.0, 1000);
    // failures at 5,500, 5,900, 6,700 and 8,300
    let json = r#"{"meet":[{"recurs":3},{"exponential":[400,2]}]}"#;
    assert_eq!(all_lost(json, &quota, 5500), (Ending::ScheduleDone, vec![5500, 5900, 6700, 8300], 3));
    assert_eq!(told(quota.seen_at(at(6999))), [6, 0, 1, 1]);
    assert_eq!(all_lost("\"forever\"", &quota, 6900), (Ending::LimitRefused, vec![6900, 6900], 1));
    assert_eq!(all_lost("\"forever\"", &quota, 8300), (Ending::LimitRefused, vec![8300; 3], 2));
    assert_eq!(quota.close().unwrap(), 6);
}

#[test]
fn each_call_is_a_request_and_its_retries_draw() {
    let (policy, quota) = (policy(r#"{"recurs":3}"#), quota(1, 0.5, 1_000_000));
    let fails = || retry(&policy, &quota, || Err::<(), _>("no"));
    // three calls are three requests: 1, 2 and 2 tickets in all
    for granted in [1, 2, 2] {
        assert_eq!(fails(), Err(RetryError::LimitRefused("no")));
        assert_eq!(quota.granted(), granted);
    }
    assert_eq!(Retrying::new(&policy, &quota).call(|| Ok::<_, ()>(5)), Ok(5));
    assert_eq!(told(quota.seen()), [0, 4, 2, 1]);
    assert_eq!(Retrying::new(&policy, &quota).when(|_| false).call(|| Err::<(), _>(1)), Err(RetryError::NotRetried(1)));
    assert_eq!(told(quota.seen()), [0, 5, 2, 1]);
    assert_eq!(quota.close().unwrap(), 2);
}

#[test]
fn a_refused_call_is_served_in_the_next_window() {
    let (policy, quota, began) = (policy(r#"{"recurs":1}"#), quota(1, 0.0, 100), Instant::now());
    let fails = || retry(&policy, &quota, || Err::<(), _>(()));
    let (mut granted, mut refused) = (0, 0);
    while granted < 4 || refused == 0 {
        assert!(began.elapsed() < Duration::from_secs(60), "{granted} granted, {refused} refused");
        match fails() {
            Err(RetryError::ScheduleDone(())) => granted += 1,
            Err(RetryError::LimitRefused(())) => refused += 1,
            other => panic!("{other:?}"),
        }
        thread::sleep(Duration::from_millis(5));
    }
    // each window has one ticket, and at most this many windows have begun
    assert!(granted <= began.elapsed().as_millis() / 100 + 2, "{granted}");
    assert_eq!(u128::from(quota.close().unwrap()), granted);
}

#[test]
fn a_quota_serves_any_number_of_retries() {
    let (policy, quota) = (policy(r#"{"recurs":1}"#), quota(1 << 32, 0.0, 1_000_000));
    for _ in 0..100_000 {
        assert_eq!(retry(&policy, &quota, || Err::<(), _>(())), Err(RetryError::ScheduleDone(())));
    }
    assert_eq!(quota.granted(), 100_000);
    assert_eq!(quota.close().unwrap(), 100_000);
}

#[test]
fn sixteen_threads_draw_all_of_a_window_each_ticket_once() {
    let quota = quota(10, 0.25, 1000);
    let ready = Barrier::new(16);
    let mut tickets: Vec<u64> = thread::scope(|scope| {
        let threads: Vec<_> = (0..16)
            .map(|_| {
                let mut pass = quota.pass().unwrap();
                let ready = &ready;
                scope.spawn(move || {
                    (0..10_000).for_each(|_| pass.deposit_at(at(0)));
                    ready.wait();
                    let mut drawn = Vec::new();
                    // where a draw lost 64 races there are tickets left
                    while pass.seen_at(at(0)).left > 0 {
                        drawn.extend(ticket(pass.draw_at(at(0))));
                    }
                    assert_eq!(pass.count(), drawn.len() as u64);
                    drawn
                })
            })
            .collect();
        threads.into_iter().flat_map(|thread| thread.join().unwrap()).collect()
    });
    // 16 * 10,000 requests give 40,000 tickets, beside the ten
    tickets.sort_unstable();
    assert_eq!(tickets, (0..40_010).collect::<Vec<_>>());
    assert_eq!(told(quota.seen_at(at(0))), [0, 160_000, 40_010, 0]);
    assert_eq!(quota.close().unwrap(), 40_010);
}

/// Eight threads whose clocks are windows apart draw at once, each until it is refused in each of its windows.
#[test]
fn threads_draw_in_different_windows_at_once() {
    let quota = quota(5, 0.0, 100);
    let ready = Barrier::new(8);
    let drawn: Vec<Vec<u64>> = thread::scope(|scope| {
        let threads: Vec<_> = (0..8)
            .map(|first: u64| {
                let mut pass = quota.pass().unwrap();
                let ready = &ready;
                scope.spawn(move || {
                    let mut drawn = Vec::new();
                    ready.wait();
                    for window in first..first + 2000 {
                        drawn.extend(std::iter::from_fn(|| ticket(pass.draw_at(at(window * 100)))));
                    }
                    drawn
                })
            })
            .collect();
        threads.into_iter().map(|thread| thread.join().unwrap()).collect()
    });
    // no thread comes back to an earlier window, and each window gives its first tickets, five at most, each once
    assert!(drawn.iter().all(|mine| mine.windows(2).all(|pair| pair[0] < pair[1])));
    let mut tickets: Vec<u64> = drawn.into_iter().flatten().collect();
    tickets.sort_unstable();
    let mut given = vec![0; 2007];
    for ticket in &tickets {
        let window = (ticket / WINDOW) as usize;
        assert_eq!(ticket % WINDOW, given[window]);
        given[window] += 1;
    }
    assert!(given.iter().all(|given| *given <= 5));
    assert_eq!(given[2006], 5);
    assert_eq!(quota.close().unwrap(), tickets.len() as u64);
}

#[test]
fn sixteen_threads_of_retries_never_pass_the_quota() {
    let (policy, quota) = (policy(r#"{"recurs":3}"#), quota(1000, 0.5, 10_000_000));
    let runs: u64 = thread::scope(|scope| {
        let threads: Vec<_> = (0..16)
            .map(|_| {
                scope.spawn(|| {
                    let mut runs = 0;
                    for _ in 0..500 {
                        let _: Result<(), _> = retry(&policy, &quota, || {
                            runs += 1;
                            Err(())
                        });
                    }
                    runs
                })
            })
            .collect();
        threads.into_iter().map(|thread| thread.join().unwrap()).sum()
    });
    // 8,000 calls are 8,000 requests, and each further run has a ticket: 1,000 and 4,000 at most
    assert_eq!(quota.seen().asked, 8000);
    let granted = quota.close().unwrap();
    assert_eq!(runs, 8000 + granted);
    assert!((4900..=5000).contains(&granted), "{granted}");
}

#[test]
fn a_clone_keeps_a_quota_open() {
    let quota = quota(1, 0.0, 100);
    let clone = quota.clone();
    let quota = quota.close().unwrap_err();
    drop(clone);
    assert_eq!(quota.close().unwrap(), 0);
}

#[test]
fn the_time_of_the_first_run_counts() {
    // by windows of a second: the first run begins 0.9 s after the quota and fails at 1.5, the second one fails at 2.1
    let now = Cell::new(Instant::now());
    let quota = Quota::new_at(now.get() - at(900), 1, 0.0, Duration::from_secs(1)).unwrap();
    let (policy, mut seen) = (policy(r#"{"recurs":1}"#), Vec::new());
    let ended = Retrying::new(&policy, &quota).clock(|| now.get()).call(|| {
        seen.push(told(quota.seen_at(at(0))));
        now.set(now.get() + at(600));
        Err::<(), _>("no")
    });
    assert_eq!(ended, Err(RetryError::ScheduleDone("no")));
    assert_eq!(seen, [[0, 1, 0, 1], [1, 0, 1, 0]]);
    assert_eq!(quota.close().unwrap(), 1);
}

#[test]
fn requests_of_many_threads_are_counted_each_once_and_by_their_windows() {
    let began = Instant::now() - Duration::from_millis(500);
    let quota = Quota::new_at(began, 0, 1.0, Duration::from_secs(3600)).unwrap();
    thread::scope(|scope| {
        for _ in 0..40 {
            scope.spawn(|| (0..500).for_each(|_| quota.deposit()));
        }
    });
    assert_eq!(told(quota.seen()), [0, 20_000, 0, 20_000]);
    assert_eq!(quota.close().unwrap(), 0);
}

#[test]
fn a_thread_counts_in_the_window_that_its_clock_tells() {
    // the same thread, in windows of 100 ms from 250 ms after the quota's beginning on
    let (origin, policy) = (Instant::now(), policy(r#"{"recurs":0}"#));
    let quota = Quota::new_at(origin, 5, 0.0, Duration::from_millis(100)).unwrap();
    let counted = |millis: u64| {
        let call = Retrying::new(&policy, &quota).clock(|| origin + at(millis)).call(|| Ok::<_, ()>(()));
        assert_eq!(call, Ok(()));
        let Usage { window, asked, .. } = quota.seen_at(at(0));
        (window, asked)
    };
    let moments = [250, 299, 300, 399, 399, 400, 600, 699, 700];
    let seen = [(2, 1), (2, 2), (3, 1), (3, 2), (3, 3), (4, 1), (6, 1), (6, 2), (7, 1)];
    assert_eq!(moments.map(counted), seen);
    // a clock that went back counts in the latest window
    assert_eq!(counted(50), (7, 2));
    assert_eq!(counted(710), (7, 3));
    assert_eq!(quota.close().unwrap(), 0);
}

/// A quota that carries, with no reserve and a ticket for each request, by windows of 100 ms.
fn carrying() -> Quota {
    Quota::carrying(0, 1.0, at(100)).unwrap()
}

/// The tickets that are drawn at this moment, until there is none.
fn all_drawn(pass: &mut QuotaPass, moment: u64) -> Vec<u64> {
    std::iter::from_fn(|| ticket(pass.draw_at(at(moment)))).collect()
}

#[test]
fn what_a_window_leaves_of_its_share_is_drawn_once_in_the_next() {
    let quota = carrying();
    let (mut first, mut second) = (quota.pass().unwrap(), quota.pass().unwrap());
    first.deposit_of_at(at(10), 5);
    assert_eq!([ticket(first.draw_at(at(50))), ticket(second.draw_at(at(99)))], [Some(0), Some(1)]);
    second.deposit_of_at(at(100), 2);
    // three of the five, which are drawn first, and the window's own two
    assert_eq!(told(quota.seen_at(at(100))), [1, 2, 0, 5]);
    assert_eq!([ticket(first.draw_at(at(100))), ticket(second.draw_at(at(110)))], [Some(WINDOW - 3), Some(WINDOW - 2)]);
    assert_eq!(all_drawn(&mut first, 199), [WINDOW - 1, WINDOW, WINDOW + 1]);
    assert_eq!(told(quota.seen_at(at(199))), [1, 2, 2, 0]);
    assert_eq!([ticket(first.draw_at(at(200))), ticket(second.draw_at(at(200)))], [None, None]);
    assert_eq!((first.count(), second.count()), (5, 2));
    drop((first, second));
    assert_eq!(quota.close().unwrap(), 7);
}

#[test]
fn nothing_is_carried_by_other_quotas_nor_past_an_idle_window() {
    let plain = Quota::new(0, 1.0, at(100)).unwrap();
    for (quota, moment, left) in [(plain, 100, 0), (carrying(), 199, 3), (carrying(), 200, 0)] {
        let mut pass = quota.pass().unwrap();
        pass.deposit_of_at(at(10), 5);
        assert_eq!([ticket(pass.draw_at(at(10))), ticket(pass.draw_at(at(10)))], [Some(0), Some(1)]);
        assert_eq!(all_drawn(&mut pass, moment).len(), left);
    }
}

#[test]
fn a_ticket_that_is_handed_back_is_not_carried() {
    let quota = Quota::carrying(0, 0.5, at(100)).unwrap();
    let mut pass = quota.pass().unwrap();
    pass.deposit_of_at(at(10), 10);
    assert_eq!([0; 2].map(|_| ticket(pass.draw_at(at(20)))), [Some(0), Some(1)]);
    let third = pass.draw_at(at(20)).unwrap();
    assert_eq!(third.number(), 2);
    pass.hand_back(third).unwrap();
    // two of the five are left, since three were given
    let carried = pass.draw_at(at(100)).unwrap();
    assert_eq!((carried.window(), carried.number()), (0, WINDOW - 2));
    // and one that was carried is given up
    pass.hand_back(carried).unwrap();
    assert_eq!(all_drawn(&mut pass, 100), [WINDOW - 1]);
    assert_eq!(pass.count(), 3);
}

#[test]
fn a_retry_draws_what_is_carried() {
    // two requests in the first window, the call and one by hand: the first failure draws there, the second in the next
    for (carries, granted) in [(false, 1), (true, 2)] {
        let now = Cell::new(Instant::now());
        let made = if carries { Quota::carrying_at } else { Quota::new_at };
        let quota = made(now.get(), 0, 1.0, Duration::from_secs(3600)).unwrap();
        quota.deposit_at(at(0));
        let policy = policy(r#"{"spaced":3600000}"#);
        let ended = Retrying::new(&policy, &quota)
            .clock(|| now.get())
            .sleep(|time| now.set(now.get() + time))
            .call(|| Err::<(), _>("no"));
        assert_eq!(ended, Err(RetryError::LimitRefused("no")));
        assert_eq!(quota.close().unwrap(), granted);
    }
}

#[test]
fn a_host_carries_by_its_own_clock() {
    let millis = |millis: u64| at(1_700_000_000_000 + millis);
    let quota = Quota::carrying_of_host(millis(42), 0, 0.5, at(100)).unwrap();
    quota.deposit_of_at(millis(99), 4);
    let mut pass = quota.pass().unwrap();
    assert_eq!([0; 3].map(|_| ticket(pass.draw_at(millis(100)))), [Some(WINDOW - 2), Some(WINDOW - 1), None]);
    assert_eq!(Quota::carrying(0, 2000.0, at(100)).unwrap_err(), LimitError::ShareOutOfRange);
    assert_eq!(Quota::carrying_of_host(millis(0), 0, 0.0, at(99)).unwrap_err(), LimitError::PeriodTooShort);
}
