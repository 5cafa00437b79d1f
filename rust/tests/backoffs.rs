//! What docs/FROM-BACKOFF.md says of the crate backoff, beside that crate.

use backoff::backoff::Backoff;
use backoff::exponential::ExponentialBackoff;
use backoff::{Clock, SystemClock};
use hikebox::{Policy, RetryError, Retrying, Schedule, Unlimited};
use std::cell::Cell;
use std::rc::Rc;
use std::time::{Duration, Instant};

const ONE: Duration = Duration::from_millis(1);
const HOUR: Duration = Duration::from_secs(3600);

/// `ExponentialBackoff::default()` as a schedule, but for its time in all.
fn default_schedule() -> Schedule {
    Schedule::exponential_milli(Duration::from_millis(500), 1500).cap(Duration::from_secs(60)).jittered(0.5..1.5)
}

/// The same with no jitter.
fn plain_schedule() -> Schedule {
    Schedule::exponential_milli(Duration::from_millis(500), 1500).cap(Duration::from_secs(60))
}

/// The first waits of backoff's.
fn waits(mut backoff: ExponentialBackoff<SystemClock>, count: usize) -> Vec<f64> {
    (0..count).map(|_| backoff.next_backoff().unwrap().as_secs_f64()).collect()
}

/// The first waits of a schedule.
fn planned(schedule: &Schedule, count: usize) -> Vec<f64> {
    Policy::new(schedule).unwrap().waits().take(count).map(|wait| wait.as_secs_f64()).collect()
}

#[test]
fn the_default_has_the_intervals_of_the_page() {
    let default = ExponentialBackoff::<SystemClock>::default();
    assert_eq!(default.initial_interval, Duration::from_millis(500));
    assert_eq!((default.multiplier, default.randomization_factor), (1.5, 0.5));
    assert_eq!(
        (default.max_interval, default.max_elapsed_time),
        (Duration::from_secs(60), Some(Duration::from_secs(900)))
    );
    // without jitter: 0.5, 0.75, 1.125 and so on up to 60 seconds, each within a thousandth
    let plain = ExponentialBackoff { randomization_factor: 0.0, max_elapsed_time: None, ..default };
    let (theirs, ours) = (waits(plain, 20), planned(&plain_schedule(), 20));
    assert_eq!((&ours[..3], ours[19]), (&[0.5, 0.75, 1.125][..], 60.0));
    for (theirs, ours) in theirs.iter().zip(&ours) {
        assert!((theirs - ours).abs() <= theirs / 1000.0, "{theirs} {ours}");
    }
}

#[test]
fn its_jitter_is_that_of_the_page() {
    let third = |waits: Vec<f64>| waits[2];
    let theirs: Vec<_> = (0..4000).map(|_| third(waits(ExponentialBackoff::default(), 3))).collect();
    let ours: Vec<_> = (0..4000).map(|_| third(planned(&default_schedule(), 3))).collect();
    for waits in [&theirs, &ours] {
        let mean = waits.iter().sum::<f64>() / 4000.0;
        let (least, most) =
            waits.iter().fold((f64::MAX, 0.0_f64), |(least, most), wait| (least.min(*wait), most.max(*wait)));
        // 1.125 seconds, from the half to one and a half of it
        assert!((1.1..1.15).contains(&mean), "{mean}");
        assert!((0.562..0.6).contains(&least) && (1.65..1.688).contains(&most), "{least} {most}");
    }
}

/// A clock that only a test moves.
#[derive(Clone)]
struct Moved(Rc<Cell<Instant>>);

impl Clock for Moved {
    fn now(&self) -> Instant {
        self.0.get()
    }
}

/// Without jitter 12 waits are below 60 seconds, 128.7 in all, and 12 of 60 more end by 900.
#[test]
fn the_deadline_of_the_page_ends_it_after_as_many_runs() {
    let clock = Moved(Rc::new(Cell::new(Instant::now())));
    let default = ExponentialBackoff::<SystemClock>::default();
    let mut theirs = ExponentialBackoff {
        current_interval: default.initial_interval,
        initial_interval: default.initial_interval,
        randomization_factor: 0.0,
        multiplier: default.multiplier,
        max_interval: default.max_interval,
        max_elapsed_time: default.max_elapsed_time,
        start_time: clock.now(),
        clock: clock.clone(),
    };
    let mut runs = 1;
    while let Some(wait) = theirs.next_backoff() {
        clock.0.set(clock.now() + wait);
        runs += 1;
    }
    assert_eq!(runs, 25);

    let policy = Policy::new(&plain_schedule()).unwrap();
    let mut runs = 0;
    let ended = Retrying::new(&policy, &Unlimited)
        .deadline(Duration::from_secs(15 * 60))
        .clock(|| clock.now())
        .sleep(|wait| clock.0.set(clock.now() + wait))
        .call(|| {
            runs += 1;
            Err::<(), _>("busy")
        });
    assert_eq!((ended, runs), (Err(RetryError::Deadline("busy")), 25));
}

/// An error that asks for a millisecond, where an hour is planned: backoff waits for the millisecond, also past its time,
/// and hikebox for the hour.
#[test]
fn a_wait_that_an_error_asks_for_is_what_the_page_says() {
    let mut waits = vec![];
    let mut errors = vec![backoff::Error::permanent("gone"), backoff::Error::retry_after("busy", ONE)];
    let over = ExponentialBackoff::<SystemClock> {
        initial_interval: HOUR,
        max_elapsed_time: Some(Duration::ZERO),
        ..ExponentialBackoff::default()
    };
    let answer = backoff::retry_notify(over, || Err::<(), _>(errors.pop().unwrap()), |_, wait| waits.push(wait));
    assert!(matches!(answer, Err(backoff::Error::Permanent("gone"))));
    assert_eq!(waits, [ONE]);

    let (policy, waits) = (Policy::new(&Schedule::spaced(HOUR)).unwrap(), Cell::new(vec![]));
    let mut errors = vec!["gone", "busy"];
    let ended = Retrying::new(&policy, &Unlimited)
        .when(|error| *error == "busy")
        .retry_after(|_| Some(ONE))
        .sleep(|wait| waits.set([waits.take(), vec![wait]].concat()))
        .call(|| Err::<(), _>(errors.pop().unwrap()));
    assert_eq!((ended, waits.take()), (Err(RetryError::NotRetried("gone")), vec![HOUR]));
}
