//! Forked children: random words, budgets and quotas of their own, and no lock that another thread held at the fork.
#![cfg(all(unix, feature = "leased"))]

use hikebox::{
    both, retry, Breaker, Bucket, Budget, CallLimit, LimitError, LimitState, Pace, Pass, PerKey, Policy, Quota,
    QuotaPass, Rate, RetryError, Retrying,
};
use std::cell::RefCell;
use std::io::{Read, Write};
use std::os::unix::net::UnixStream;
use std::panic::{catch_unwind, AssertUnwindSafe};
use std::sync::atomic::{AtomicBool, Ordering};
use std::thread;
use std::time::Duration;

/// What a forked child makes of this, as text; it has a minute.
fn in_child(makes: impl FnOnce() -> String) -> String {
    let (mut reader, mut writer) = UnixStream::pair().unwrap();
    // SAFETY: the child allocates, which the system's allocator allows, and uses what is tested.
    match unsafe { libc::fork() } {
        0 => {
            // SAFETY: the child ends here, with no destructor of the parent's run.
            unsafe { libc::alarm(60) };
            let said = catch_unwind(AssertUnwindSafe(makes)).unwrap_or_else(|_| "it panicked".to_owned());
            writer.write_all(said.as_bytes()).unwrap();
            unsafe { libc::_exit(0) }
        }
        child => {
            drop(writer);
            let mut said = String::new();
            reader.read_to_string(&mut said).unwrap();
            // SAFETY: it is a child of this process that was not waited for.
            unsafe { libc::waitpid(child, std::ptr::null_mut(), 0) };
            said
        }
    }
}

/// The waits of a policy with jitter.
fn waits() -> String {
    let policy: Policy = r#"{"meet":[{"recurs":5},{"jitter":[0,0,10000,{"spaced":1000}]}]}"#.parse().unwrap();
    let (waits, budget) = (RefCell::new(vec![]), Budget::new(5).unwrap());
    let ended = Retrying::new(&policy, &budget)
        .notify(|_, wait| waits.borrow_mut().push(wait))
        .sleep(|_| ())
        .call(|| Err::<(), _>(()));
    assert_eq!(ended, Err(RetryError::ScheduleDone(())));
    format!("{:?}", waits.into_inner())
}

fn drawn(pass: &mut Pass) -> usize {
    std::iter::from_fn(|| pass.draw().ok()).count()
}

fn drawn_of(pass: &mut QuotaPass) -> usize {
    std::iter::from_fn(|| pass.draw().ok()).count()
}

#[test]
fn each_child_has_a_jitter_of_its_own() {
    waits();
    let mut all = vec![in_child(waits), in_child(waits), in_child(|| in_child(waits)), waits()];
    all.sort();
    all.dedup();
    assert_eq!(all.len(), 4, "{all:?}");
}

/// Draws of a budget of five, of which the parent drew three.
#[test]
fn a_budget_begins_anew_in_a_child() {
    let budget = Budget::rising(3).unwrap();
    assert_eq!(budget.raise(5).unwrap(), 5);
    let mut pass = budget.pass().unwrap();
    assert!((0..3).all(|_| pass.draw().is_ok()));
    let child = in_child(|| {
        let drew = (drawn(&mut pass), drawn(&mut budget.pass().unwrap()), pass.count());
        let grandchild = in_child(|| drawn(&mut budget.pass().unwrap()).to_string());
        format!("{drew:?} {grandchild}")
    });
    assert_eq!(child, "(5, 0, 5) 5");
    assert_eq!((drawn(&mut pass), pass.count()), (2, 5));
    drop(pass);
    assert_eq!(budget.close().ok(), Some(5));
}

#[test]
fn a_child_closes_its_own() {
    let (budget, quota) = (Budget::new(5).unwrap(), Quota::new(5, 0.0, Duration::from_secs(3600)).unwrap());
    assert_eq!(drawn(&mut budget.pass().unwrap()), 5);
    assert_eq!(drawn_of(&mut quota.pass().unwrap()), 5);
    let (of_child, of_childs_quota) = (budget, quota);
    let child = in_child(move || {
        let drew = drawn(&mut of_child.pass().unwrap());
        format!("{drew} {:?} {:?}", of_child.close().ok(), of_childs_quota.close().ok())
    });
    assert_eq!(child, "5 Some(5) Some(0)");
}

#[test]
fn a_quota_begins_anew_in_a_child_by_the_terms_in_force() {
    let quota = Quota::carrying(9, 0.5, Duration::from_secs(3600)).unwrap();
    quota.set_terms(3, 0.25).unwrap();
    let mut pass = quota.pass().unwrap();
    (0..8).for_each(|_| quota.deposit());
    assert_eq!(drawn_of(&mut pass), 5);
    let child = in_child(|| {
        let before = quota.seen();
        let first = drawn_of(&mut pass);
        (0..4).for_each(|_| quota.deposit());
        let more = drawn_of(&mut quota.pass().unwrap());
        format!("{} {} {first} {more} {}", before.asked, before.given, quota.seen().asked)
    });
    assert_eq!(child, "0 0 3 1 4");
    drop(pass);
    assert_eq!((quota.seen().asked, quota.close().ok()), (8, Some(5)));
}

/// A call that forks: both go on with the retry, and the child's tickets are not the parent's.
#[test]
fn a_retry_under_way_goes_on_in_the_child_and_in_the_parent() {
    let policy: Policy = r#"{"recurs":4}"#.parse().unwrap();
    let budget = Budget::new(100).unwrap();
    let (mut runs, mut child) = (0, None);
    let ended = retry(&policy, &budget, || {
        runs += 1;
        if runs == 2 {
            // SAFETY: the child goes on with the retry, and ends below.
            child = Some(unsafe { libc::fork() });
        }
        Err::<(), _>("busy")
    });
    let counted = (ended == Err(RetryError::ScheduleDone("busy")), runs, budget.granted());
    if child == Some(0) {
        let is_right = counted == (true, 5, 0);
        // SAFETY: the child ends here.
        unsafe { libc::_exit(i32::from(!is_right)) }
    }
    let mut status = 1;
    // SAFETY: it is a child of this process that was not waited for.
    unsafe { libc::waitpid(child.unwrap(), &mut status, 0) };
    assert_eq!((status, counted), (0, (true, 5, 4)));
    assert_eq!(budget.close().ok(), Some(4));
}

/// As above, of calls that a limit admitted: the child goes on by a limit of its own, of which nothing was drawn.
#[test]
fn an_admitted_call_goes_on_in_the_child_and_in_the_parent() {
    let policy: Policy = r#"{"recurs":4}"#.parse().unwrap();
    let bucket = || CallLimit::new(Bucket { capacity: 6.0, cost: 2.0, ..Bucket::default() }).unwrap();
    let breaker = || CallLimit::new(Breaker::consecutive(4, r#"{"spaced":30000}"#.parse().unwrap())).unwrap();
    for limit in [bucket(), breaker(), both(&bucket(), &breaker()).unwrap()] {
        let (mut runs, mut child) = (0, None);
        let ended = retry(&policy, &limit, || {
            runs += 1;
            if runs == 2 {
                // SAFETY: the child goes on with the retry, and ends below.
                child = Some(unsafe { libc::fork() });
            }
            Err::<(), _>("busy")
        });
        let told = (runs, ended == Err(RetryError::ScheduleDone("busy")));
        if child == Some(0) {
            // SAFETY: the child ends here.
            unsafe { libc::_exit(i32::from(told != (5, true))) }
        }
        let mut status = 1;
        // SAFETY: it is a child of this process that was not waited for.
        unsafe { libc::waitpid(child.unwrap(), &mut status, 0) };
        assert_eq!((status, told), (0, (4, false)));
    }
}

/// A call that found the breaker closed forks in its run. The child's own breaker hears of the failure there, and the
/// parent's of that of the parent alone.
#[test]
fn a_call_that_was_admitted_by_a_look_fails_in_the_child_and_in_the_parent() {
    let once: Policy = r#"{"recurs":0}"#.parse().unwrap();
    let limit = CallLimit::new(Breaker::consecutive(2, r#"{"spaced":30000}"#.parse().unwrap())).unwrap();
    let fails = || retry(&once, &limit, || Err::<(), _>("busy")) == Err(RetryError::ScheduleDone("busy"));
    let mut child = None;
    let ended = retry(&once, &limit, || {
        // SAFETY: the child goes on with the call, and ends below.
        child = Some(unsafe { libc::fork() });
        Err::<(), _>("busy")
    });
    let told = (ended == Err(RetryError::ScheduleDone("busy")), fails(), fails());
    if child == Some(0) {
        // SAFETY: the child ends here.
        unsafe { libc::_exit(i32::from(told != (true, true, false))) }
    }
    let mut status = 1;
    // SAFETY: it is a child of this process that was not waited for.
    unsafe { libc::waitpid(child.unwrap(), &mut status, 0) };
    assert_eq!((status, told), (0, (true, true, false)));
}

/// One that no limit admitted asks in the child as it does in the parent.
#[test]
fn a_request_begins_anew_in_a_child() {
    let limit = CallLimit::new(Bucket { capacity: 1.0, cost: 1.0, ..Bucket::default() }).unwrap();
    let mut request = limit.request().unwrap();
    let child = in_child(|| format!("{} {}", request.draw().is_ok(), request.admit().is_ok()));
    assert_eq!(child, "false true");
    request.admit().unwrap();
    request.failed();
    request.draw().unwrap();
    let child = in_child(|| {
        request.failed();
        format!("{} {}", request.draw().is_ok(), request.draw().is_ok())
    });
    assert_eq!(child, "true false");
}

/// Hours until a call would begin, to the nearest one.
fn hours(pace: &Pace) -> u64 {
    (pace.seen().as_secs() + 1800) / 3600
}

/// The child's pace is a fresh one, and turns of the parent's are nothing there.
#[test]
fn a_pace_begins_anew_in_a_child() {
    let pace = Pace::new(Rate::new(1, Duration::from_secs(3600))).unwrap();
    pace.take().unwrap().begin();
    let (used, dropped) = (pace.take().unwrap(), pace.take().unwrap());
    let child = in_child(move || {
        let fresh = hours(&pace);
        pace.take().unwrap().begin();
        let own = pace.take().unwrap();
        used.begin();
        drop(dropped);
        let taken = hours(&pace);
        drop(own);
        let grandchild = in_child(|| hours(&pace).to_string());
        format!("{fresh} {taken} {} {grandchild}", hours(&pace))
    });
    assert_eq!(child, "0 2 1 0");
}

#[test]
fn a_turn_stays_the_parents_whatever_its_child_does() {
    let pace = Pace::new(Rate::new(1, Duration::from_secs(3600))).unwrap();
    let turn = pace.take().unwrap();
    assert_eq!(in_child(|| format!("{:?}", pace.take().map(|turn| turn.left().is_zero()))), "Ok(true)");
    assert_eq!(hours(&pace), 1);
    drop(turn);
    assert_eq!(hours(&pace), 0);
}

/// A breaker that its parent opened by hand is closed in the child, which opens its own alone.
#[test]
fn a_child_opens_its_own_breaker() {
    let breaker = || CallLimit::new(Breaker::consecutive(4, r#"{"spaced":30000}"#.parse().unwrap()));
    let limits = PerKey::new(move |_: &u8| breaker());
    let limit = limits.of(&1).unwrap();
    limit.open(Duration::from_secs(3600)).unwrap();
    let is_closed = |limit: &CallLimit| matches!(limit.seen()[..], [LimitState::Closed { failures: 0 }]);
    let child = in_child(|| {
        let fresh = (is_closed(&limit), limits.len(), is_closed(&limits.of(&1).unwrap()));
        limit.open(Duration::from_secs(3600)).unwrap();
        let opened = is_closed(&limit);
        limit.close().unwrap();
        format!("{fresh:?} {opened} {}", is_closed(&limit))
    });
    assert_eq!(child, "(true, 0, true) false true");
    assert!(!is_closed(&limit));
}

#[test]
fn a_child_takes_turns_and_limits_by_key_whatever_other_threads_did_at_the_fork() {
    let pace = Pace::new(Rate::new(1, Duration::from_secs(3600))).unwrap();
    let budgets = PerKey::new(|_: &u64| Budget::new(1)).keeping(2);
    let takes = |key: u64| -> Result<bool, LimitError> {
        drop(pace.take());
        Ok(budgets.of(&(key % 5))?.pass()?.draw().is_ok())
    };
    let is_over = AtomicBool::new(false);
    thread::scope(|scope| {
        for _ in 0..3 {
            scope.spawn(|| {
                (0..).take_while(|_| !is_over.load(Ordering::Relaxed)).for_each(|key| assert!(takes(key).is_ok()))
            });
        }
        let in_child = |_: &u64| in_child(|| format!("{:?} {}", takes(9), hours(&pace))) == "Ok(true) 0";
        let children = (0..200).take_while(in_child).count();
        is_over.store(true, Ordering::Relaxed);
        assert_eq!(children, 200);
    });
}

#[test]
fn a_child_waits_for_no_lock_that_another_thread_held_at_the_fork() {
    let policy: Policy = r#"{"recurs":2}"#.parse().unwrap();
    let (budget, quota) = (Budget::new(1 << 32).unwrap(), Quota::new(1 << 32, 0.5, Duration::from_secs(3600)).unwrap());
    let fails = || {
        let of_budget = retry(&policy, &budget, || Err::<(), _>("busy"));
        let of_quota = retry(&policy, &quota, || Err::<(), _>("busy"));
        assert_eq!((&of_budget, &of_quota), (&Err(RetryError::ScheduleDone("busy")), &of_budget));
    };
    let is_over = AtomicBool::new(false);
    thread::scope(|scope| {
        for _ in 0..3 {
            scope.spawn(|| {
                while !is_over.load(Ordering::Relaxed) {
                    fails();
                }
            });
        }
        for _ in 0..150 {
            let child = in_child(|| {
                fails();
                format!("{} {}", budget.granted(), quota.granted())
            });
            assert_eq!(child, "2 2");
        }
        is_over.store(true, Ordering::Relaxed);
    });
}

#[test]
fn a_child_makes_a_limit_whatever_other_threads_made_at_the_fork() {
    let makes = || CallLimit::new(Bucket::aws()).unwrap();
    let is_over = AtomicBool::new(false);
    thread::scope(|scope| {
        for _ in 0..3 {
            scope.spawn(|| {
                while !is_over.load(Ordering::Relaxed) {
                    makes();
                }
            });
        }
        let in_child = |_: &u32| in_child(|| makes().request().unwrap().admit().is_ok().to_string()) == "true";
        let children = (0..300).take_while(in_child).count();
        is_over.store(true, Ordering::Relaxed);
        assert_eq!(children, 300);
    });
}
