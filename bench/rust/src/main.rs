//! Retries by the crate `hikebox` beside the crates `retry` and `backoff`, draws of a budget and of a quota beside tower's
//! budget, and a draw that leases in a folder: the least nanoseconds of many rounds, which take turns. No run waits.

use hikebox::{Breaker, Budget, CallLimit, Leased, Policy, Quota};
use std::hint::black_box;
use std::sync::Barrier;
use std::thread;
use std::time::{Duration, Instant};

const ROUNDS: u32 = 200;
const CALLS: u32 = 200;
const MAX_TICKETS: u64 = 1 << 32;
const WINDOW: Duration = Duration::from_secs(10);

fn main() {
    for failures in [0, 3] {
        retries(failures);
    }
    draws();
    leases();
    for threads in [1, 2, 4] {
        successes(threads);
    }
}

/// Calls that succeed at once, by so many threads that share a policy and what they draw on.
fn successes(threads: u32) {
    let policy: Policy = r#"{"recurs":5}"#.parse().expect("a policy");
    let budget = Budget::new(MAX_TICKETS).expect("a budget");
    let quota = Quota::new(1_000_000, 1.0, WINDOW).expect("a quota");
    let on_budget = at_once(threads, || hikebox::retry(&policy, &budget, call(0)).is_ok());
    let on_quota = at_once(threads, || hikebox::retry(&policy, &quota, call(0)).is_ok());
    let open_for = r#"{"spaced":30000}"#.parse().expect("a policy");
    let breaker = CallLimit::new(Breaker::consecutive(5, open_for)).expect("a breaker");
    let on_breaker = at_once(threads, || hikebox::retry(&policy, &breaker, call(0)).is_ok());
    println!(
        "a success on {threads} threads at once: {on_budget:.0} ns on a budget, {on_quota:.0} ns on a quota, \
         {on_breaker:.0} ns on a breaker"
    );
}

/// The least nanoseconds that one call takes where so many threads make calls.
fn at_once(threads: u32, run: impl Fn() -> bool + Sync) -> f64 {
    const MANY: u32 = 20_000;
    let took = || {
        let barrier = Barrier::new(threads as usize);
        let slowest = thread::scope(|scope| {
            let threads: Vec<_> = (0..threads)
                .map(|_| {
                    scope.spawn(|| {
                        barrier.wait();
                        let began = Instant::now();
                        assert!((0..MANY).all(|_| run()));
                        began.elapsed()
                    })
                })
                .collect();
            threads.into_iter().map(|thread| thread.join().expect("no panic")).max()
        });
        slowest.expect("a thread").as_secs_f64() * 1e9 / f64::from(MANY)
    };
    (0..50).map(|_| took()).fold(f64::INFINITY, f64::min)
}

fn retries(failures: u32) {
    let policy: Policy = r#"{"recurs":5}"#.parse().expect("a policy");
    let budget = Budget::new(MAX_TICKETS).expect("a budget");
    let [ours, retry, backoff] = least([
        &mut || hikebox::retry(&policy, &budget, call(failures)).is_ok(),
        &mut || retry::retry(retry::delay::NoDelay.take(5), call(failures)).is_ok(),
        &mut || {
            let mut call = call(failures);
            backoff::retry(backoff::backoff::Zero {}, || call().map_err(backoff::Error::transient)).is_ok()
        },
    ]);
    println!("{failures} failures and a success: hikebox {ours:.0} ns, retry {retry:.0} ns, backoff {backoff:.0} ns");
}

fn draws() {
    let mut pass = Budget::new(MAX_TICKETS).and_then(|budget| budget.pass()).expect("a pass");
    let mut share = Quota::new(1_000_000, 1.0, WINDOW).and_then(|quota| quota.pass()).expect("a pass");
    let tower = tower::retry::budget::Budget::new(WINDOW, 1_000_000, 1.0);
    let [draw, deposit_and_draw, deposit_and_withdraw] = least([
        &mut || pass.draw().is_ok(),
        &mut || {
            share.deposit();
            share.draw().is_ok()
        },
        &mut || {
            tower.deposit();
            tower.withdraw().is_ok()
        },
    ]);
    println!("a draw of a budget: hikebox {draw:.1} ns");
    println!(
        "a request counted and a retry drawn for it: hikebox's quota {deposit_and_draw:.1} ns, tower's budget \
         {deposit_and_withdraw:.1} ns"
    );
}

/// Draws of a budget in a folder, each of which leases one ticket.
fn leases() {
    let folder = std::env::temp_dir().join(format!("hikebox-bench-{}", std::process::id()));
    let leased = Leased::new(&folder, "bench", MAX_TICKETS).expect("a limit").in_each(WINDOW).lease(1);
    let [draw] = least([&mut || leased.draw().is_ok()]);
    println!("a draw that leases one ticket in a folder: {draw:.0} ns");
    std::fs::remove_dir_all(&folder).expect("the folder");
}

/// A call that fails so many times and then succeeds.
fn call(failures: u32) -> impl FnMut() -> Result<u32, ()> {
    let mut left = failures;
    move || match left {
        0 => Ok(black_box(1)),
        _ => {
            left -= 1;
            Err(())
        }
    }
}

/// The least nanoseconds that one call of each takes. Each call has to succeed.
fn least<const N: usize>(mut runs: [&mut dyn FnMut() -> bool; N]) -> [f64; N] {
    let mut best = [f64::INFINITY; N];
    for _ in 0..ROUNDS {
        for (run, best) in runs.iter_mut().zip(&mut best) {
            let began = Instant::now();
            let succeeded = (0..CALLS).all(|_| run());
            *best = best.min(began.elapsed().as_secs_f64() * 1e9 / f64::from(CALLS));
            assert!(succeeded);
        }
    }
    best
}
