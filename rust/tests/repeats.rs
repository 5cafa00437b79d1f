//! Repeats, and polls until an answer is there.

mod common;

use common::{at_once, policy};
use hikebox::{poll_until, repeat, RepeatError, Repeating};
use std::cell::{Cell, RefCell};
use std::future::ready;
use std::time::{Duration, Instant};

#[test]
fn a_repeat_runs_again_after_each_success_and_not_after_a_failure() {
    let mut runs = 0;
    let last = repeat(&policy(r#"{"recurs":4}"#), || {
        runs += 1;
        Ok::<_, ()>(runs)
    });
    assert_eq!((last, runs), (Ok(5), 5));
    let mut answers = [Ok(1), Ok(2), Err("gone"), Ok(3)].into_iter();
    assert_eq!(repeat(&policy("\"forever\""), || answers.next().unwrap()), Err(RepeatError::Failed("gone")));
    assert_eq!(answers.next(), Some(Ok(3)));
}

#[test]
fn a_poll_ends_with_what_was_wanted_or_with_the_last_answer() {
    let spaced = policy(r#"{"meet":[{"recurs":2},{"spaced":20}]}"#);
    let began = Instant::now();
    let mut answers = 0..;
    assert_eq!(poll_until(&spaced, |answer| *answer == 2, || answers.next().ok_or("none")), Ok(2));
    assert!(began.elapsed() >= Duration::from_millis(40));
    let never = poll_until(&spaced, |answer| *answer == 9, || answers.next().ok_or("none"));
    assert_eq!(never, Err(RepeatError::ScheduleDone(5)));
    assert_eq!(never.unwrap_err().to_string(), "the schedule was done before the answer was there");
}

#[cfg(feature = "tokio")]
#[tokio::test(start_paused = true)]
async fn futures_are_repeated_at_the_planned_starts() {
    use hikebox::{poll_until_async, repeat_async};

    let began = tokio::time::Instant::now();
    let mut starts = Vec::new();
    let fixed = policy(r#"{"meet":[{"recurs":3},{"exponential":[100,2]}]}"#);
    let runs = repeat_async(&fixed, || {
        starts.push(began.elapsed().as_millis());
        ready(Ok::<_, ()>(starts.len()))
    })
    .await;
    assert_eq!((runs, starts), (Ok(4), vec![0, 100, 300, 700]));
    let mut answers = 0..;
    let polled = poll_until_async(&fixed, |answer| *answer == 1, || ready(answers.next().ok_or("none"))).await;
    assert_eq!(polled, Ok(1));
}

/// When each run of a repetition began whose runs take so long, in milliseconds, and its last value.
fn runs(json: &str, took: u64, deadline: Option<u64>) -> (Vec<u128>, Result<usize, RepeatError<usize, &'static str>>) {
    let (policy, now) = (policy(json), Cell::new(Instant::now()));
    let (origin, mut seen) = (now.get(), Vec::new());
    let repeating = Repeating::new(&policy).clock(|| now.get()).sleep(|wait| now.set(now.get() + wait));
    let repeating = match deadline {
        Some(deadline) => repeating.deadline(Duration::from_millis(deadline)),
        None => repeating,
    };
    let last = repeating.call(|| {
        seen.push((now.get() - origin).as_millis());
        now.set(now.get() + Duration::from_millis(took));
        Ok(seen.len())
    });
    drop(repeating);
    (seen, last)
}

#[test]
fn a_repetition_goes_by_a_clock_of_ones_own_and_ends_by_its_deadline() {
    let three = r#"{"meet":[{"recurs":2},{"spaced":1000}]}"#;
    assert_eq!(runs(three, 5, None), (vec![0, 1005, 2010], Ok(3)));
    // runs end at 30, 160 and 290, and the next ones would begin at 130, 260 and 390
    assert_eq!(runs(r#"{"spaced":100}"#, 30, Some(259)), (vec![0, 130], Ok(2)));
    assert_eq!(runs(r#"{"spaced":100}"#, 30, Some(260)), (vec![0, 130, 260], Ok(3)));
    assert_eq!(runs("\"forever\"", 30, Some(29)), (vec![0], Ok(1)));
    let mut deep = r#"{"spaced":4}"#.to_owned();
    (0..31).for_each(|_| deep = format!(r#"{{"nothing":{deep}}}"#));
    assert_eq!(runs(&deep, 1, Some(9)), (vec![0, 5], Ok(2)));
}

#[test]
fn a_poll_has_no_last_run() {
    let (policy, mut runs) = (policy(r#"{"spaced":1000}"#), 0);
    let polled = Repeating::new(&policy).sleep(|_| ()).until(
        |run| *run == 70_000,
        || {
            runs += 1;
            Ok::<_, ()>(runs)
        },
    );
    assert_eq!(polled, Ok(70_000));
}

#[test]
fn a_schedule_is_given_the_numbers_of_values_and_random_words() {
    let policy = policy(r#"{"gate":["input",true,"equal",202,{"jitter":[1,0,1000,{"spaced":1000}]}]}"#);
    let (mut statuses, waits) = ([202, 202, 200, 202].into_iter(), RefCell::new(Vec::new()));
    let repeating = Repeating::new(&policy)
        .code(|status: &u64| *status)
        .random(|| [9, 1 << 31, 9, 9])
        .sleep(|wait: Duration| waits.borrow_mut().push(wait.as_millis()));
    assert_eq!(repeating.call(|| statuses.next().ok_or(())), Ok(200));
    drop(repeating);
    assert_eq!((waits.into_inner(), statuses.next()), (vec![500, 500], Some(202)));
}

#[test]
fn a_poll_of_futures_runs_on_any_runtime() {
    let (policy, stopped, waits) = (policy(r#"{"spaced":100}"#), Instant::now(), RefCell::new(Vec::new()));
    let mut answers = 1..;
    let polling = Repeating::new(&policy).clock(|| stopped).sleep(|wait: Duration| {
        waits.borrow_mut().push(wait.as_millis());
        ready(())
    });
    let polled = polling.until_async(|answer| *answer == 4, || ready(answers.next().ok_or("none")));
    assert_eq!(at_once(polled), Ok(4));
    assert_eq!(*waits.borrow(), [100; 3]);
}
