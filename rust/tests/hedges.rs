//! Runs of futures that are timed: one that takes too long is ended, and beside one that is late another one begins. The
//! clock is tokio's, which stands still but for sleeps.
#![cfg(feature = "tokio")]

mod common;

use common::{at_once, policy, polled};
use hikebox::{
    AttemptTimeout, Breaker, Bucket, Budget, CallLimit, Grants, InFlight, LimitState, NoTicket, Policy, Quota,
    RefusalReason, Refused, RetryError, Retryable, Retrying, SharedRetrying, Ticket, Tickets, Timed, Unlimited,
};
use std::cell::{Cell, RefCell};
use std::future::{pending, ready, Future};
use std::io;
use std::pin::Pin;
use std::sync::atomic::{AtomicU32, AtomicU64, Ordering};
use std::sync::{Arc, Mutex};
use std::task::{Context, Poll};
use std::time::Duration;
use tokio::time::{sleep, timeout, Instant};

/// How a run failed.
#[derive(Clone, Debug, PartialEq)]
enum Failure {
    /// The run of this number.
    Run(u64),
    TookTooLong(AttemptTimeout),
    /// An answer that no other run would better.
    NotFound,
}

use Failure::{NotFound, Run, TookTooLong};

impl From<AttemptTimeout> for Failure {
    fn from(timeout: AttemptTimeout) -> Self {
        TookTooLong(timeout)
    }
}

/// What a run does after so many milliseconds.
#[derive(Clone, Copy)]
enum Then {
    Succeeds,
    Fails,
    IsNotFound,
    Panics,
}

use Then::{Fails, IsNotFound, Panics, Succeeds};

/// A peer whose runs go by a script; those past it never end.
struct Peer {
    script: Vec<(u64, Then)>,
    began: Instant,
    /// When each run began.
    runs: Mutex<Vec<u64>>,
    under_way: AtomicU32,
}

/// A run that is under way until this is dropped.
struct UnderWay<'a>(&'a Peer);

impl Drop for UnderWay<'_> {
    fn drop(&mut self) {
        self.0.under_way.fetch_sub(1, Ordering::SeqCst);
    }
}

impl Peer {
    fn new(script: &[(u64, Then)]) -> Arc<Self> {
        let (began, runs, under_way) = (Instant::now(), Mutex::default(), AtomicU32::new(0));
        Arc::new(Self { script: script.to_vec(), began, runs, under_way })
    }

    async fn answer(self: Arc<Self>, run: u64) -> Result<u64, Failure> {
        self.runs.lock().unwrap().push(self.moment());
        self.under_way.fetch_add(1, Ordering::SeqCst);
        let _until_dropped = UnderWay(&self);
        match self.script.get(run as usize - 1) {
            None => pending().await,
            Some((millis, then)) => {
                sleep(Duration::from_millis(*millis)).await;
                match then {
                    Succeeds => Ok(run),
                    Fails => Err(Run(run)),
                    IsNotFound => Err(NotFound),
                    Panics => panic!("run {run}"),
                }
            }
        }
    }

    /// The milliseconds since it was made.
    fn moment(&self) -> u64 {
        self.began.elapsed().as_millis() as u64
    }

    /// How many runs are under way.
    fn under_way(&self) -> u32 {
        self.under_way.load(Ordering::SeqCst)
    }

    fn runs(&self) -> Vec<u64> {
        self.runs.lock().unwrap().clone()
    }
}

/// Two retries, each after this wait.
fn twice(wait: u64) -> Policy {
    policy(&format!(r#"{{"meet":[{{"recurs":2}},{{"spaced":{wait}}}]}}"#))
}

/// So many retries in an hour.
fn quota(reserve: u64) -> Quota {
    Quota::new_at(Instant::now().into_std(), reserve, 0.0, Duration::from_secs(3600)).unwrap()
}

const LATE: Duration = Duration::from_millis(100);

fn millis(millis: u64) -> Duration {
    Duration::from_millis(millis)
}

/// What a call answers whose runs are late after 100 ms.
async fn hedged<B: Grants>(
    policy: &Policy,
    limit: &B,
    peer: &Arc<Peer>,
) -> Result<u64, RetryError<Failure, B::Refusal>> {
    let retrying = Retrying::new(policy, limit).when(|error| *error != NotFound).hedge_after(LATE);
    let answer = retrying.call_async_with(|attempt| peer.clone().answer(attempt.number())).await;
    assert_eq!(peer.under_way(), 0, "the others are dropped");
    answer
}

// The rows of the specification: what the call answers and when, when its runs began, and the tickets that it used.
#[tokio::test(start_paused = true)]
async fn a_late_run_goes_on_beside_the_next() {
    type Row<'a> = (u64, &'a [(u64, Then)], Result<u64, RetryError<Failure>>, u64, &'a [u64], u64);
    let rows: [Row<'_>; 6] = [
        (0, &[(150, Succeeds)], Ok(1), 150, &[0, 100], 1),
        (50, &[(120, Succeeds)], Ok(1), 120, &[0], 0),
        (0, &[(130, Fails), (80, Fails), (220, Succeeds)], Ok(3), 400, &[0, 100, 180], 2),
        (0, &[(130, Fails), (80, Fails), (220, Fails)], Err(RetryError::ScheduleDone(Run(3))), 400, &[0, 100, 180], 2),
        // the first run fails last, at 500
        (0, &[(500, Fails), (80, Fails), (220, Fails)], Err(RetryError::ScheduleDone(Run(1))), 500, &[0, 100, 180], 2),
        // none is late
        (50, &[(90, Fails), (100, Fails), (30, Succeeds)], Ok(3), 320, &[0, 140, 290], 2),
    ];
    for (wait, script, answer, ends, began, tickets) in rows {
        let (peer, quota) = (Peer::new(script), quota(9));
        assert_eq!(hedged(&twice(wait), &quota, &peer).await, answer, "{began:?}");
        assert_eq!((peer.moment(), peer.runs(), quota.close().unwrap()), (ends, began.to_vec(), tickets));
    }
}

// A budget takes no ticket back, as of a retry that is dropped while it waits.
#[tokio::test(start_paused = true)]
async fn a_budget_keeps_the_ticket_of_a_run_that_was_not_made() {
    for (wait, script) in [(0, (150, Succeeds)), (50, (120, Succeeds))] {
        let (peer, budget) = (Peer::new(&[script]), Budget::new(9).unwrap());
        assert_eq!(hedged(&twice(wait), &budget, &peer).await, Ok(1));
        assert_eq!(budget.close().unwrap(), 1);
    }
}

// Each of the five runs of a call is late when it begins, so all begin at once, and the fastest answers.
#[tokio::test(start_paused = true)]
async fn all_runs_begin_at_once_where_they_are_late_at_once() {
    let script = [(500, Succeeds), (400, Fails), (300, Succeeds), (200, Succeeds), (100, Fails)];
    let (peer, four) = (Peer::new(&script), policy(r#"{"recurs":4}"#));
    let retrying = Retrying::new(&four, &Unlimited).hedge_after(Duration::ZERO);
    assert_eq!(retrying.call_async_with(|attempt| peer.clone().answer(attempt.number())).await, Ok(4));
    assert_eq!((peer.moment(), peer.runs(), peer.under_way()), (200, vec![0; 5], 0));
}

// The policy tests the code of a late run, which is that of the error made of it, and of no other.
#[tokio::test(start_paused = true)]
async fn the_policy_hears_the_code_of_a_late_run() {
    let gate = |code| policy(&format!(r#"{{"gate":["input",true,"equal",{code},{{"recurs":9}}]}}"#));
    for (code, runs) in [(504, vec![0, 100, 200]), (500, vec![0])] {
        let (gate, heard) = (gate(code), RefCell::new(Vec::new()));
        let peer = Peer::new(&[(250, Succeeds)]);
        let retrying = Retrying::new(&gate, &Unlimited)
            .when(|error| matches!(error, Run(_)))
            .code(|error: &Failure| if matches!(error, TookTooLong(_)) { 504 } else { 500 })
            .notify(|error, wait| heard.borrow_mut().push((error.clone(), wait.as_millis())))
            .hedge_after(LATE);
        assert_eq!(retrying.call_async_with(|attempt| peer.clone().answer(attempt.number())).await, Ok(1));
        assert_eq!((peer.moment(), peer.runs()), (250, runs.clone()));
        assert_eq!(heard.into_inner(), vec![(TookTooLong(late(100)), 0); runs.len() - 1]);
    }
}

/// A run that took longer than this.
fn late(after: u64) -> AttemptTimeout {
    struct Told(AttemptTimeout);
    impl From<AttemptTimeout> for Told {
        fn from(timeout: AttemptTimeout) -> Self {
            Self(timeout)
        }
    }
    let (never, after) = (policy(r#"{"recurs":0}"#), millis(after));
    let retrying = Retrying::new(&never, &Unlimited).attempt_timeout(after).sleep(|_| ready(()));
    match at_once(retrying.call_async(pending::<Result<(), Told>>)) {
        Err(RetryError::ScheduleDone(Told(timeout))) => timeout,
        _ => panic!("it is over"),
    }
}

// An error that is not retried is an answer: it ends the call at once, also of a run that was late before.
#[tokio::test(start_paused = true)]
async fn an_error_that_is_not_retried_ends_all_runs() {
    for (script, ends, runs) in [
        (&[(130, IsNotFound), (500, Succeeds)][..], 130, vec![0, 100]),
        (&[(500, Succeeds), (40, IsNotFound)], 140, vec![0, 100]),
        // the schedule is done at 300
        (&[(350, IsNotFound)], 350, vec![0, 100, 200]),
    ] {
        let peer = Peer::new(script);
        assert_eq!(hedged(&twice(0), &Unlimited, &peer).await, Err(RetryError::NotRetried(NotFound)));
        assert_eq!((peer.moment(), peer.runs()), (ends, runs));
    }
}

// The older of two runs that succeed in one poll answers; a failure beside a success counts for nothing; of two failures
// the later run's is the last.
#[tokio::test(start_paused = true)]
async fn several_runs_end_in_one_poll() {
    let done = |run| Err(RetryError::ScheduleDone(Run(run)));
    for (first, second, third, answer, ends) in [
        (Succeeds, Succeeds, Fails, Ok(1), 150),
        (IsNotFound, Succeeds, Fails, Ok(2), 150),
        (Succeeds, IsNotFound, Fails, Ok(1), 150),
        (Fails, Fails, Fails, done(3), 200),
        (Fails, Fails, Succeeds, Ok(3), 200),
    ] {
        let peer = Peer::new(&[(150, first), (50, second), (50, third)]);
        assert_eq!(hedged(&twice(0), &Unlimited, &peer).await, answer);
        assert_eq!(peer.moment(), ends);
    }
    let once = policy(r#"{"recurs":1}"#);
    assert_eq!(hedged(&once, &Unlimited, &Peer::new(&[(150, Fails), (50, Fails)])).await, done(2));
}

// A run that succeeds as it gets late has succeeded, and one that fails then was not late.
#[tokio::test(start_paused = true)]
async fn a_run_that_ends_as_it_gets_late_is_not_late() {
    let (peer, quota) = (Peer::new(&[(100, Succeeds)]), quota(9));
    assert_eq!(hedged(&twice(0), &quota, &peer).await, Ok(1));
    assert_eq!((peer.moment(), peer.runs(), quota.granted()), (100, vec![0], 0));
    let (peer, heard) = (Peer::new(&[(100, Fails), (10, Succeeds)]), RefCell::new(Vec::new()));
    let waits = twice(50);
    let retrying = Retrying::new(&waits, &quota).notify(|error: &Failure, _| heard.borrow_mut().push(error.clone()));
    let retrying = retrying.hedge_after(LATE);
    assert_eq!(retrying.call_async_with(|attempt| peer.clone().answer(attempt.number())).await, Ok(2));
    assert_eq!((peer.runs(), heard.into_inner(), quota.granted()), (vec![0, 150], vec![Run(1)], 1));
}

// The call is dropped at these moments: in its first run, beside a late run while the next one is waited for and while it
// is under way, and when the policy is done. The ticket of a run that had not begun comes back.
#[tokio::test(start_paused = true)]
async fn a_call_is_dropped_in_each_state() {
    for (moment, under_way, runs, tickets) in
        [(50, 1, 1, 0), (120, 1, 1, 0), (170, 2, 2, 1), (270, 2, 2, 1), (320, 3, 3, 2), (900, 3, 3, 2)]
    {
        let (waits, quota, peer) = (twice(50), quota(9), Peer::new(&[]));
        let retrying = Retrying::new(&waits, &quota).hedge_after(LATE);
        let mut call = Box::pin(retrying.call_async_with(|attempt| peer.clone().answer(attempt.number())));
        assert!(timeout(millis(moment), &mut call).await.is_err());
        assert_eq!((peer.under_way(), peer.runs().len()), (under_way, runs), "{moment}");
        drop(call);
        drop(retrying);
        assert_eq!((peer.under_way(), quota.close().unwrap()), (0, tickets), "{moment}");
    }
}

// The limit refuses the second run, and the first one goes on to its end.
#[tokio::test(start_paused = true)]
async fn a_limit_refuses_a_hedge() {
    let empty = CallLimit::new(Bucket { capacity: 1.0, cost: 1.0, ..Bucket::default() }).unwrap();
    let mut by_hand = empty.request().unwrap();
    assert!(by_hand.admit().is_ok() && by_hand.draw().is_ok());
    let flights = CallLimit::new(InFlight { least: 0, share: 0.5, most: None }).unwrap();
    let opens = CallLimit::new(Breaker::consecutive(1, policy(r#"{"spaced":30000}"#))).unwrap();
    refuses(&Budget::new(0).unwrap()).await;
    refuses(&quota(0)).await;
    refuses(&Arc::new(Store::default())).await;
    refuses(&empty).await;
    refuses(&flights).await;
    // a late run is a failure to a breaker
    refuses(&opens).await;
    assert_eq!(not_admitted(&opens).await, Some(RefusalReason::BreakerOpen));
    // with two calls in flight one retry is, and with the first run's end its slot is free
    let mut others = [flights.request().unwrap(), flights.request().unwrap()];
    others.iter_mut().for_each(|other| other.admit().unwrap());
    let peer = Peer::new(&[(150, Succeeds)]);
    assert_eq!(hedged(&twice(0), &flights, &peer).await, Ok(1));
    assert_eq!(peer.runs(), [0, 100]);
    assert!(others[0].draw().is_ok() && others[1].draw().is_err());
}

/// A limit refuses each hedge of a call that succeeds, and of one that fails.
async fn refuses<B: Grants + Clone>(limit: &B) {
    let limit = limit.clone();
    let peer = Peer::new(&[(150, Succeeds)]);
    let answer = hedged(&twice(0), &limit, &peer).await;
    assert!(matches!(answer, Ok(1)), "{:?}", answer.err());
    assert_eq!((peer.moment(), peer.runs()), (150, vec![0]));
    let peer = Peer::new(&[(150, Fails)]);
    match hedged(&twice(0), &limit, &peer).await {
        Err(RetryError::LimitRefused(Run(1))) => assert_eq!((peer.moment(), peer.runs()), (150, vec![0])),
        // (a breaker that the call before has opened)
        Err(RetryError::NotAdmitted(_)) => assert_eq!((peer.moment(), peer.runs()), (0, vec![])),
        other => panic!("{:?}", other.err()),
    }
}

/// Why a call is refused.
async fn not_admitted(limit: &CallLimit) -> Option<RefusalReason> {
    match hedged(&twice(0), limit, &Peer::new(&[(0, Succeeds)])).await {
        Err(RetryError::NotAdmitted(refused)) => Some(refused.reason()),
        _ => None,
    }
}

// A run that is waited for beside a late one draws its token and its slot, and they come back when that one succeeds. A
// success counts as one of a call that was not retried.
#[tokio::test(start_paused = true)]
async fn what_a_run_cost_that_was_not_made_comes_back() {
    let limit = CallLimit::new(Bucket { capacity: 1.0, cost: 1.0, ..Bucket::default() }).unwrap();
    for _ in 0..3 {
        let peer = Peer::new(&[(120, Succeeds)]);
        assert_eq!(hedged(&twice(50), &limit, &peer).await, Ok(1));
    }
    // run 2 begins at 150 and takes the token, and at 250 there is none for run 3
    let peer = Peer::new(&[(400, Fails), (400, Fails)]);
    assert_eq!(hedged(&twice(50), &limit, &peer).await, Err(RetryError::LimitRefused(Run(2))));
    assert_eq!((peer.runs(), peer.moment()), (vec![0, 150], 550));

    let aws = Bucket { capacity: 10.0, cost: 5.0, credit: 1.0, refund: true, ..Bucket::default() };
    let limit = CallLimit::new(aws).unwrap();
    let mut by_hand = limit.request().unwrap();
    by_hand.admit().unwrap();
    assert!(by_hand.draw_at(10).is_ok());
    for (level, wait, script) in [(1, 50, (120, Succeeds)), (2, 50, (120, Succeeds))] {
        // (there is no token for a retry, so each success gives one)
        assert_eq!(hedged(&twice(wait), &limit, &Peer::new(&[script])).await, Ok(1));
        assert_eq!((by_hand.draw_at(level + 1).is_ok(), by_hand.draw_at(level).is_ok()), (false, true));
        by_hand.cancelled();
    }
}

/// A store that tells what it hears.
#[derive(Default)]
struct Store {
    left: u32,
    drawn: AtomicU32,
    told: Mutex<Vec<String>>,
}

impl Store {
    fn new(left: u32) -> Arc<Self> {
        Arc::new(Self { left, ..Self::default() })
    }

    fn hears(&self, what: &str, ticket: Option<Ticket>) {
        self.told.lock().unwrap().push(format!("{what} {:?}", ticket.map(|ticket| ticket.number())));
    }
}

impl Tickets for Store {
    fn draw(&self) -> Result<Ticket, NoTicket> {
        match self.drawn.fetch_add(1, Ordering::SeqCst) {
            number if number < self.left => Ok(Ticket::new(number.into())),
            _ => Err(NoTicket::used_up()),
        }
    }

    fn hand_back(&self, ticket: Ticket) {
        self.hears("back", Some(ticket));
    }

    fn succeeded(&self, last: Option<Ticket>) {
        self.hears("succeeded", last);
    }
}

#[tokio::test(start_paused = true)]
async fn a_store_hears_of_each_ticket_once() {
    let cases: [(u64, &[(u64, Then)], &[&str]); 5] = [
        (50, &[(90, Succeeds)], &["succeeded None"]),
        (50, &[(120, Succeeds)], &["back Some(0)", "succeeded None"]),
        (50, &[(160, Succeeds)], &["succeeded Some(0)"]),
        (50, &[(260, Succeeds)], &["back Some(1)", "succeeded None"]),
        (50, &[(120, IsNotFound)], &["back Some(0)"]),
    ];
    for (wait, script, told) in cases {
        let store = Store::new(9);
        let _ = hedged(&twice(wait), &store, &Peer::new(script)).await;
        assert_eq!(*store.told.lock().unwrap(), told, "{told:?}");
    }
}

// With a deadline of 120 ms no run begins at 150. What is under way goes on.
#[tokio::test(start_paused = true)]
async fn no_hedge_begins_past_the_deadline() {
    for (deadline, then, answer, runs) in [
        (120, Succeeds, Ok(1), vec![0]),
        (120, Fails, Err(RetryError::Deadline(Run(1))), vec![0]),
        (200, Fails, Err(RetryError::Deadline(Run(1))), vec![0, 150]),
    ] {
        let (waits, peer) = (twice(50), Peer::new(&[(300, then), (20, Fails)]));
        let (quota, left) = (quota(9), RefCell::new(Vec::new()));
        let retrying = Retrying::new(&waits, &quota).hedge_after(LATE).deadline(millis(deadline));
        let told = retrying.call_async_with(|attempt| {
            left.borrow_mut().push(attempt.left().map(|left| deadline - left.as_millis() as u64));
            peer.clone().answer(attempt.number())
        });
        assert_eq!(told.await, answer);
        assert_eq!((peer.moment(), peer.runs(), quota.granted()), (300, runs.clone(), runs.len() as u64 - 1));
        assert_eq!(left.into_inner(), runs.into_iter().map(Some).collect::<Vec<_>>());
    }
}

// A sleep takes twice as long: the first run is late at 200, and the next one, due at 250, would begin at 300.
#[tokio::test(start_paused = true)]
async fn a_hedge_that_was_waited_for_too_long_is_not_made() {
    for (then, answer) in [(Succeeds, Ok(1)), (Fails, Err(RetryError::Deadline(Run(1))))] {
        let (waits, quota, peer) = (twice(50), quota(9), Peer::new(&[(400, then)]));
        let retrying = Retrying::new(&waits, &quota).hedge_after(LATE).deadline(millis(260));
        let retrying = retrying.sleep(|wait: Duration| sleep(wait * 2));
        assert_eq!(retrying.call_async_with(|attempt| peer.clone().answer(attempt.number())).await, answer);
        drop(retrying);
        assert_eq!((peer.moment(), peer.runs(), quota.close().unwrap()), (400, vec![0], 0));
    }
}

// A panic of a run is the task's, and drops the others. The first run panics while the second is waited for, and while it
// is under way; and the second one does.
#[tokio::test(start_paused = true)]
async fn a_run_that_panics_ends_all() {
    for (script, tickets, panics) in [
        (&[(120, Panics)][..], 0, "run 1"),
        (&[(170, Panics)], 1, "run 1"),
        (&[(900, Succeeds), (20, Panics)], 1, "run 2"),
    ] {
        let (quota, peer) = (quota(9), Peer::new(script));
        let (retrying, waits) = (Retrying::new, twice(50));
        let retrying = retrying(&waits, &quota).hedge_after(LATE).into_owned();
        let answers = peer.clone();
        let call = async move { retrying.call_async_with(|attempt| answers.clone().answer(attempt.number())).await };
        let panicked = tokio::spawn(call).await.unwrap_err().into_panic();
        assert_eq!(panicked.downcast_ref::<String>().unwrap(), panics);
        assert_eq!((peer.under_way(), quota.close().unwrap()), (0, tickets));
    }
}

// Runs of two seconds each; the second one fails by itself.
#[tokio::test(start_paused = true)]
async fn a_run_that_takes_too_long_is_dropped_and_has_failed() {
    let (waits, peer) = (twice(500), Peer::new(&[(9_000, Succeeds), (100, Fails), (9_000, Fails)]));
    let heard = RefCell::new(Vec::new());
    let retrying = Retrying::new(&waits, &Unlimited)
        .notify(|error: &Failure, wait| heard.borrow_mut().push((error.clone(), wait.as_millis(), peer.under_way())))
        .attempt_timeout(Duration::from_secs(2));
    let answer = retrying.call_async_with(|attempt| peer.clone().answer(attempt.number())).await;
    assert_eq!(answer, Err(RetryError::ScheduleDone(TookTooLong(late(2_000)))));
    assert_eq!((peer.moment(), peer.runs(), peer.under_way()), (5_100, vec![0, 2_500, 3_100], 0));
    assert_eq!(heard.into_inner(), [(TookTooLong(late(2_000)), 500, 0), (Run(2), 500, 0)]);
}

// Of 500 tokens a retry takes ten after a timeout, and beside a run that is late, and five after another failure.
#[tokio::test(start_paused = true)]
async fn a_retry_after_a_timeout_costs_more() {
    let (waits, limit) = (twice(50), CallLimit::new(Bucket::aws()).unwrap());
    let retrying = Retrying::new(&waits, &limit);
    for (retrying, level) in [(retrying.clone().attempt_timeout(LATE), 485.0), (retrying.hedge_after(LATE), 470.0)] {
        let peer = Peer::new(&[(400, Fails), (10, Fails), (10, Fails)]);
        assert!(retrying.call_async_with(|attempt| peer.clone().answer(attempt.number())).await.is_err());
        assert_eq!(limit.seen(), [LimitState::Bucket { level, capacity: 500.0 }]);
    }
}

// One that is ready as its time is over has succeeded.
#[tokio::test(start_paused = true)]
async fn a_run_in_time_succeeds() {
    for (longest, answer) in [(101, Ok(1)), (100, Ok(1)), (99, Err(RetryError::NotRetried(TookTooLong(late(99)))))] {
        let (never, peer) = (policy(r#"{"recurs":0}"#), Peer::new(&[(100, Succeeds)]));
        let retrying = Retrying::new(&never, &Unlimited).when(|error| matches!(error, Run(_)));
        let retrying = retrying.attempt_timeout(millis(longest));
        assert_eq!(retrying.call_async_with(|attempt| peer.clone().answer(attempt.number())).await, answer);
    }
}

// Late at 100 and over at 150, in either order of the settings: the policy is asked at 100 alone.
#[tokio::test(start_paused = true)]
async fn a_run_is_late_and_then_takes_too_long() {
    let (waits, quota) = (twice(0), quota(9));
    let retrying = Retrying::new(&waits, &quota);
    for retrying in [
        retrying.clone().hedge_after(LATE).attempt_timeout(millis(150)),
        retrying.attempt_timeout(millis(150)).hedge_after(LATE),
    ] {
        let peer = Peer::new(&[(900, Succeeds), (900, Succeeds), (120, Succeeds)]);
        assert_eq!(retrying.call_async_with(|attempt| peer.clone().answer(attempt.number())).await, Ok(3));
        assert_eq!((peer.moment(), peer.runs()), (320, vec![0, 100, 200]));
        let peer = Peer::new(&[]);
        let answer = retrying.call_async_with(|attempt| peer.clone().answer(attempt.number())).await;
        assert_eq!(answer, Err(RetryError::ScheduleDone(TookTooLong(late(150)))));
        assert_eq!((peer.moment(), peer.runs(), peer.under_way()), (350, vec![0, 100, 200], 0));
    }
    assert_eq!(quota.granted(), 8);
}

#[test]
fn a_time_out_is_an_error_of_the_standard_library() {
    let timeout = late(1_500);
    assert_eq!(
        (timeout.after(), timeout.to_string()),
        (millis(1_500), "the attempt took longer than 1.5 s".to_owned())
    );
    let error = io::Error::from(timeout);
    assert_eq!((error.kind(), error.to_string()), (io::ErrorKind::TimedOut, timeout.to_string()));
    assert_eq!(anyhow::Error::from(timeout).downcast_ref(), Some(&timeout));
    assert_eq!(late(2_000).to_string(), "the attempt took longer than 2 s");
}

// Neither a timer nor a runtime is there where nothing is waited for; the sleep of another runtime will do.
#[test]
fn runs_are_timed_on_any_runtime() {
    let runs = Cell::new(0);
    let fails_twice = || {
        runs.set(runs.get() + 1);
        ready(if runs.get() < 3 { Err(Run(runs.get())) } else { Ok(runs.get()) })
    };
    let nine = policy(r#"{"recurs":9}"#);
    let stopped = std::time::Instant::now();
    let sleeps = Cell::new(0);
    let retrying = Retrying::new(&nine, &Unlimited).clock(|| stopped).hedge_after(LATE).sleep(|_| {
        sleeps.set(sleeps.get() + 1);
        pending()
    });
    assert_eq!(at_once(retrying.call_async(fails_twice)), Ok(3));
    assert_eq!(sleeps.get(), 3);
}

// A run that was woken is polled with the others of its task, and a sleep that is over is not polled again.
#[test]
fn a_sleep_is_polled_until_it_is_over() {
    struct Once(bool);
    impl Future for Once {
        type Output = ();
        fn poll(mut self: Pin<&mut Self>, _: &mut Context<'_>) -> Poll<()> {
            assert!(!std::mem::replace(&mut self.0, true), "it is over");
            Poll::Ready(())
        }
    }
    let (once, stopped) = (twice(50), std::time::Instant::now());
    let retrying = Retrying::new(&once, &Unlimited).clock(|| stopped).hedge_after(LATE).sleep(|_| Once(false));
    let runs = Cell::new(0);
    let mut call = Box::pin(retrying.call_async(|| {
        runs.set(runs.get() + 1);
        pending::<Result<(), Failure>>()
    }));
    for _ in 0..3 {
        assert!(polled(&mut call).is_pending());
        assert_eq!(runs.get(), 3);
    }
}

/// A call of a client that is kept and spawned.
async fn fetch() -> io::Result<u32> {
    Ok(200)
}

#[tokio::test(start_paused = true)]
async fn a_timed_retry_is_kept_sent_and_awaited() {
    fn sends<T: Send>(value: T) -> T {
        value
    }
    let (waits, quota) = (twice(50), quota(9));
    let retrying = Retrying::new(&waits, &quota).hedge_after(LATE).attempt_timeout(millis(800));
    let kept: SharedRetrying<io::Error, std::convert::Infallible, Timed> = retrying.shared();
    let hanging = Arc::new(AtomicU32::new(0));
    let (other, hangs) = (kept.clone(), hanging.clone());
    let task = tokio::spawn(sends(async move {
        other
            .call_async(|| {
                hangs.fetch_add(1, Ordering::SeqCst);
                pending::<io::Result<u32>>()
            })
            .await
    }));
    assert_eq!(kept.call_async(fetch).await.unwrap(), 200);
    assert_eq!(task.await.unwrap().unwrap_err().last().kind(), io::ErrorKind::TimedOut);
    assert_eq!(hanging.load(Ordering::SeqCst), 3);
    assert_eq!(fetch.retry(&waits).limit(&quota).hedge_after(LATE).run().await.unwrap(), 200);
    let by: Retrying<'_, _, _, _, _, Refused> =
        fetch.retry(&waits).limit(&CallLimit::new(Bucket::aws()).unwrap()).hedge_after(LATE).into_owned();
    assert_eq!(sends(by.run()).await.unwrap(), 200);
}

#[cfg(hikebox_into_future)]
#[tokio::test(start_paused = true)]
async fn a_timed_retry_is_awaited() {
    let waits = twice(50);
    assert_eq!(fetch.retry(&waits).hedge_after(LATE).when(|error| error.raw_os_error().is_none()).await.unwrap(), 200);
}

/// The milliseconds within which 50, 90, 99 and 99.9 of a hundred of 1,000 calls are answered, one after another, and
/// how many runs they took. Every hundredth run takes a second, and the others 10 ms.
async fn answered(hedge_after: Option<Duration>) -> ([u64; 4], u64) {
    let (once, quota) = (policy(r#"{"recurs":1}"#), Quota::new(5, 0.05, Duration::from_secs(10)).unwrap());
    let runs = AtomicU64::new(0);
    let retrying = Retrying::new(&once, &quota);
    let call = || async {
        let is_slow = (runs.fetch_add(1, Ordering::SeqCst) + 1) % 100 == 0;
        sleep(millis(if is_slow { 1_000 } else { 10 })).await;
        Ok::<_, io::Error>(())
    };
    let mut times = Vec::new();
    for _ in 0..1_000 {
        let began = Instant::now();
        match hedge_after {
            Some(late) => retrying.clone().hedge_after(late).call_async(call).await.unwrap(),
            None => retrying.call_async(call).await.unwrap(),
        }
        times.push(began.elapsed().as_millis() as u64);
    }
    times.sort_unstable();
    ([500, 900, 990, 999].map(|place: usize| times[place]), runs.into_inner())
}

// tower's `hedge` makes the same second run, for a service, after a percentile of the latencies that it measures. Debian's
// tower lacks that feature, so it is not run beside.
#[tokio::test(start_paused = true)]
async fn the_slowest_hundredth_of_calls_is_cut_for_a_hundredth_more_runs() {
    assert_eq!(answered(None).await, ([10, 10, 1_000, 1_000], 1_000));
    assert_eq!(answered(Some(millis(50))).await, ([10, 10, 60, 60], 1_010));
}
