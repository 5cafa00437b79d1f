//! Budgets: worked examples, and threads that share one.

mod common;

use common::ticket;
use hikebox::{retry, Budget, Ending, LimitError, Machine, Policy, Report, RetryError, Step};
use std::sync::atomic::{AtomicU64, Ordering};
use std::thread;
use std::time::Duration;

#[test]
fn two_passes_share_two_tickets() {
    let budget = Budget::new(2).unwrap();
    let mut first = budget.pass().unwrap();
    assert_eq!(ticket(first.draw()), Some(0));
    let mut second = budget.pass().unwrap();
    assert_eq!(ticket(second.draw()), Some(1));
    assert_eq!(second.count(), 1);
    assert_eq!(ticket(first.draw()), None);
    assert_eq!(ticket(first.draw()), None);
    drop(first);
    let budget = budget.close().unwrap_err();
    drop(second);
    assert_eq!(budget.granted(), 2);
    assert_eq!(budget.close().unwrap(), 2);
}

#[test]
fn limits_end_at_two_to_the_thirty_second() {
    assert!(Budget::new(4_294_967_296).is_ok());
    assert_eq!(Budget::new(4_294_967_297).unwrap_err(), LimitError::LimitTooLarge);
    assert_eq!(Budget::rising(4_294_967_297).unwrap_err(), LimitError::LimitTooLarge);
}

#[test]
fn a_rising_budget_rises_and_a_fixed_one_does_not() {
    let budget = Budget::rising(1).unwrap();
    let mut pass = budget.pass().unwrap();
    assert_eq!(ticket(pass.draw()), Some(0));
    assert_eq!(budget.raise(3), Ok(3));
    assert_eq!(budget.raise(2), Ok(3));
    assert_eq!(ticket(pass.draw()), Some(1));
    assert_eq!(budget.raise(4_294_967_297), Err(LimitError::LimitTooLarge));
    assert_eq!(Budget::new(1).unwrap().raise(2), Err(LimitError::Fixed));
}

#[test]
fn what_a_rising_budget_refused_it_gives_once_it_was_raised() {
    let policy: Policy = r#"{"recurs":3}"#.parse().unwrap();
    let budget = Budget::rising(1).unwrap();
    let fails = || retry(&policy, &budget, || Err::<(), _>(()));
    for granted in [1, 1, 1] {
        assert_eq!(fails(), Err(RetryError::LimitRefused(())));
        assert_eq!(budget.granted(), granted);
    }
    assert_eq!(budget.raise(5), Ok(5));
    assert_eq!(fails(), Err(RetryError::ScheduleDone(())));
    let mut pass = budget.pass().unwrap();
    assert_eq!((ticket(pass.draw()), ticket(pass.draw()), pass.count()), (Some(4), None, 1));
    assert_eq!(budget.raise(6), Ok(6));
    assert_eq!((ticket(pass.draw()), ticket(pass.draw()), pass.count()), (Some(5), None, 2));
    drop(pass);
    assert_eq!(budget.close().unwrap(), 6);
}

#[test]
fn a_budget_counts_no_passes() {
    let policy: Policy = r#"{"recurs":1}"#.parse().unwrap();
    for budget in [Budget::new(70_001).unwrap(), Budget::rising(70_001).unwrap()] {
        for _ in 0..70_000 {
            assert_eq!(retry(&policy, &budget, || Err::<(), _>(())), Err(RetryError::ScheduleDone(())));
        }
        assert_eq!(budget.granted(), 70_000);
        for _ in 0..70_000 {
            drop(budget.pass().unwrap());
        }
        assert_eq!(ticket(budget.pass().unwrap().draw()), Some(70_000));
        assert_eq!(budget.close().unwrap(), 70_001);
    }
}

#[test]
fn a_budget_raised_by_some_gives_as_many_more_whatever_was_refused() {
    let budget = Budget::rising(100).unwrap();
    for limit in [100, 150, 151] {
        assert_eq!(budget.raise(limit), Ok(limit));
        thread::scope(|scope| {
            for _ in 0..16 {
                let budget = &budget;
                scope.spawn(move || {
                    for _ in 0..1_000 {
                        let _ = budget.pass().unwrap().draw();
                    }
                });
            }
        });
        assert_eq!(budget.granted(), limit);
    }
    assert_eq!(budget.close().unwrap(), 151);
}

#[test]
fn a_clone_keeps_a_budget_open() {
    let budget = Budget::new(1).unwrap();
    let clone = budget.clone();
    let budget = budget.close().unwrap_err();
    drop(clone);
    assert_eq!(budget.close().unwrap(), 0);
}

#[test]
fn sixteen_threads_draw_ten_million_tickets_each_once() {
    const TICKETS: u64 = 10_000_000;
    let budget = Budget::new(TICKETS).unwrap();
    let drawn: Vec<AtomicU64> = (0..(TICKETS + 63) / 64).map(|_| AtomicU64::new(0)).collect();
    thread::scope(|scope| {
        for _ in 0..16 {
            let mut pass = budget.pass().unwrap();
            let drawn = &drawn;
            scope.spawn(move || {
                while let Some(ticket) = ticket(pass.draw()) {
                    let bit = 1 << (ticket % 64);
                    let before = drawn[usize::try_from(ticket / 64).unwrap()].fetch_or(bit, Ordering::Relaxed);
                    assert_eq!(before & bit, 0, "ticket {ticket} was drawn twice");
                }
            });
        }
    });
    let all: u64 = drawn.iter().map(|word| u64::from(word.load(Ordering::Relaxed).count_ones())).sum();
    assert_eq!(all, TICKETS);
    assert_eq!(budget.close().unwrap(), TICKETS);
}

#[test]
fn retries_that_are_over_give_their_place_to_later_ones_and_are_counted() {
    let [once, thrice]: [Policy; 2] = [r#"{"recurs":1}"#, r#"{"recurs":3}"#].map(|json| json.parse().unwrap());
    let budget = Budget::new(100).unwrap();
    let (mut runs, mut granted) = (0, 0);
    for (policy, retries) in [(&once, 1), (&thrice, 3), (&thrice, 3), (&once, 1), (&once, 1)].repeat(11) {
        let ended = retry(policy, &budget, || {
            runs += 1;
            Err::<(), _>(())
        });
        assert_eq!(ended, Err(RetryError::ScheduleDone(())));
        granted += retries;
        assert_eq!(budget.granted(), granted);
    }
    assert_eq!((runs, granted), (154, 99));
    assert_eq!(retry(&once, &budget, || Err::<(), _>(())), Err(RetryError::ScheduleDone(())));
    assert_eq!(retry(&once, &budget, || Err::<(), _>(())), Err(RetryError::LimitRefused(())));
    assert_eq!(retry(&thrice, &budget, || Err::<(), _>(())), Err(RetryError::LimitRefused(())));
    assert_eq!(budget.close().unwrap(), 100);
}

#[test]
fn machines_take_turns_whatever_their_deadline_and_thread() {
    let at = Duration::from_millis;
    let policy: Policy = r#"{"spaced":100}"#.parse().unwrap();
    let budget = Budget::new(1000).unwrap();
    let (lost, late) = (Some(Report::Lost(0)), Step::Over(Ending::Deadline));
    for turn in 1..=20 {
        let mut timed = Machine::until(&policy, &budget, at(150)).unwrap();
        let mut free = Machine::new(&policy, &budget).unwrap();
        for machine in [&mut timed, &mut free] {
            assert_eq!(machine.step(at(0), None), Step::Run);
            assert_eq!(machine.step(at(0), lost), Step::Wait(at(100)));
            assert_eq!(machine.step(at(100), None), Step::Run);
        }
        assert_eq!((timed.step(at(100), lost), timed.granted()), (late, 1));
        assert_eq!((free.step(at(100), lost), free.granted()), (Step::Wait(at(200)), 2));
        drop(timed);
        assert_eq!(budget.granted(), 3 * turn - 2);
        thread::spawn(move || drop(free)).join().unwrap();
        assert_eq!(budget.granted(), 3 * turn);
    }
    assert_eq!(budget.close().unwrap(), 60);
}
