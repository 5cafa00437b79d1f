//! Quotas whose terms are set, requests counted at once or where calls succeed, and tickets that come back.

mod common;

use common::{at, fails, policy, ticket};
use hikebox::{
    retry, Budget, Ending, LimitError, Machine, NoTicket, Quota, Report, RetryError, Retrying, Step, Ticket, Tickets,
    Unlimited, Usage,
};
use std::cell::Cell;
use std::panic::{catch_unwind, AssertUnwindSafe};
use std::sync::{Arc, Mutex};
use std::thread;
use std::time::{Duration, Instant};

const WINDOW: u64 = 1 << 32;

/// A quota with a window that no test sees the end of.
fn quota(reserve: u64, share: f64) -> Quota {
    Quota::new(reserve, share, Duration::from_secs(1_000_000)).unwrap()
}

/// What was asked, what was given and what is left.
fn told(usage: Usage) -> [u64; 3] {
    [usage.asked, usage.given, usage.left]
}

#[test]
fn several_requests_are_counted_at_once() {
    let quota = quota(0, 0.5);
    let mut pass = quota.pass().unwrap();
    quota.deposit_of(5);
    quota.deposit_of(0);
    assert_eq!(told(quota.seen()), [5, 0, 2]);
    pass.deposit_of(4);
    // more than a pass counts at once, and than a thread's own does
    pass.deposit_of(2_000_000);
    quota.deposit_of(3_000_000);
    quota.deposit();
    assert_eq!(told(quota.seen()), [5_000_010, 0, 2_500_005]);
}

#[test]
fn several_requests_are_counted_in_the_window_of_their_moment() {
    let quota = Quota::new(1, 0.1, at(100)).unwrap();
    let mut pass = quota.pass().unwrap();
    pass.deposit_of_at(at(10), 40);
    quota.deposit_of_at(at(99), 7);
    assert_eq!(told(pass.seen_at(at(99))), [47, 0, 5]);
    quota.deposit_of_at(at(100), 20);
    assert_eq!(told(quota.seen_at(at(150))), [20, 0, 3]);
}

#[test]
fn terms_are_set_while_a_quota_is_used() {
    let quota = quota(2, 0.0);
    let (mut first, mut second) = (quota.pass().unwrap(), quota.pass().unwrap());
    assert_eq!([ticket(first.draw()), ticket(first.draw()), ticket(first.draw())], [Some(0), Some(1), None]);
    assert_eq!(quota.set_terms(3, 0.0), Ok(()));
    assert_eq!([ticket(second.draw()), ticket(second.draw())], [Some(2), None]);
    quota.deposit_of(10);
    assert_eq!(quota.clone().set_terms(1, 0.5), Ok(()));
    // one, and a half of ten, of which three were given
    assert_eq!(told(quota.seen()), [10, 3, 3]);
    assert_eq!(quota.set_terms(4_294_967_297, 0.0), Err(LimitError::ReserveTooLarge));
    assert_eq!(quota.set_terms(9, 2000.0), Err(LimitError::ShareOutOfRange));
    assert_eq!(told(quota.seen()), [10, 3, 3]);
    // what was given stays given
    assert_eq!(quota.set_terms(0, 0.0), Ok(()));
    assert_eq!(told(quota.seen()), [10, 3, 0]);
    assert_eq!((ticket(first.draw()), second.count()), (None, 1));
}

#[test]
fn a_pass_hands_its_latest_ticket_back_once() {
    let quota = Quota::new(2, 0.0, at(100)).unwrap();
    let (mut pass, mut other) = (quota.pass().unwrap(), quota.pass().unwrap());
    let (first, second) = (pass.draw_at(at(0)).unwrap(), pass.draw_at(at(0)).unwrap());
    assert_eq!([(first.window(), first.number()), (second.window(), second.number())], [(0, 0), (0, 1)]);
    assert_eq!(ticket(pass.draw_at(at(0))), None);
    // not by another pass, and not the one before
    let second = other.hand_back(second).unwrap_err();
    let first = pass.hand_back(first).unwrap_err();
    pass.hand_back(second).unwrap();
    assert!(pass.hand_back(first).is_err());
    assert_eq!(pass.count(), 1);
    assert_eq!(quota.seen_at(at(0)).left, 1);
    // another number is dealt for it, to whoever draws
    assert_eq!([ticket(other.draw_at(at(0))), ticket(other.draw_at(at(0)))], [Some(2), None]);
    // a ticket of a window that is over gives the next one none
    assert_eq!(ticket(other.draw_at(at(100))), Some(WINDOW));
    let late = pass.draw_at(at(150)).unwrap();
    assert_eq!((late.window(), late.number()), (1, 1));
    assert_eq!(ticket(other.draw_at(at(200))), Some(2 * WINDOW));
    pass.hand_back(late).unwrap();
    assert_eq!([ticket(other.draw_at(at(200))), ticket(other.draw_at(at(200)))], [Some(2 * WINDOW + 1), None]);
    drop((pass, other));
    assert_eq!(quota.close().unwrap(), 5);
}

#[test]
fn a_ticket_of_a_store_or_of_another_quota_does_not_come_back() {
    let (one, another) = (quota(3, 0.0), quota(3, 0.0));
    let (mut pass, mut others) = (one.pass().unwrap(), another.pass().unwrap());
    let (own, foreign) = (pass.draw().unwrap(), others.draw().unwrap());
    assert_eq!((own.window(), own.number()), (foreign.window(), foreign.number()));
    assert!(pass.hand_back(foreign).is_err());
    assert!(pass.hand_back(Ticket::new(0)).is_err());
    assert!(pass.hand_back(own).is_ok());
    drop((pass, others));
    assert_eq!((one.close().unwrap(), another.close().unwrap()), (0, 1));
}

#[test]
fn a_draw_says_how_long_it_is_until_there_may_be_a_ticket() {
    let quota = Quota::new(1, 0.0, at(100)).unwrap();
    let mut pass = quota.pass().unwrap();
    assert!(pass.draw_at(at(30)).is_ok());
    let refused = pass.draw_at(at(30)).unwrap_err();
    assert_eq!(refused, NoTicket::UsedUp { next_in: Some(at(70)) });
    assert_eq!(refused.to_string(), "no ticket is left (again in 70ms)");
    assert!(pass.draw_at(at(100)).is_ok());
    let budget = Budget::new(0).unwrap();
    assert_eq!(budget.pass().unwrap().draw().unwrap_err(), NoTicket::UsedUp { next_in: None });
}

#[test]
fn calls_count_where_they_succeed() {
    let (policy, quota) = (policy(r#"{"recurs":3}"#), quota(1, 1.0).counting_successes());
    // a dead callee has the reserve alone
    assert_eq!(retry(&policy, &quota, || Err::<(), _>("gone")), Err(RetryError::LimitRefused("gone")));
    assert_eq!(retry(&policy, &quota, || Err::<(), _>("gone")), Err(RetryError::LimitRefused("gone")));
    assert_eq!(told(quota.seen()), [0, 1, 0]);
    let never = Retrying::new(&policy, &quota).when(|_| false).call(|| Err::<(), _>("no"));
    assert_eq!((never, quota.seen().asked), (Err(RetryError::NotRetried("no")), 0));
    assert_eq!(retry(&policy, &quota, fails(0)), Ok(0));
    assert_eq!(told(quota.seen()), [1, 1, 1]);
    assert_eq!(retry(&policy, &quota, fails(1)), Ok(1));
    assert_eq!(told(quota.seen()), [2, 2, 1]);
    // by hand each request counts
    quota.deposit();
    assert_eq!(told(quota.seen()), [3, 2, 2]);
}

#[test]
fn a_success_counts_in_the_window_in_which_it_came() {
    let (origin, now) = (Instant::now(), Cell::new(at(250)));
    let quota = Quota::new_at(origin, 1, 0.0, at(100)).unwrap().counting_successes();
    let policy = policy(r#"{"recurs":3}"#);
    let answer = Retrying::new(&policy, &quota).clock(|| origin + now.get()).call(|| {
        now.set(now.get() + at(60));
        Ok::<_, ()>(5)
    });
    assert_eq!(answer, Ok(5));
    assert_eq!((quota.seen_at(at(0)).window, quota.seen_at(at(0)).asked), (3, 1));
}

#[test]
fn a_success_after_retries_hands_the_last_ticket_back() {
    let (policy, plain) = (policy(r#"{"recurs":2}"#), quota(3, 0.0));
    let quota = plain.clone().returning_tickets();
    for _ in 0..50 {
        assert_eq!(retry(&policy, &quota, fails(1)), Ok(1));
    }
    assert_eq!((quota.granted(), quota.seen().left), (0, 3));
    assert_eq!(retry(&policy, &quota, fails(2)), Ok(2));
    assert_eq!((quota.granted(), quota.seen().left), (1, 2));
    // a call that fails for good keeps what it took, and so does one by a clone without the option
    assert_eq!(retry(&policy, &plain, fails(1)), Ok(1));
    assert_eq!((quota.granted(), quota.seen().left), (2, 1));
    assert_eq!(retry(&policy, &quota, fails(9)), Err(RetryError::LimitRefused("busy")));
    assert_eq!((quota.granted(), quota.seen().left), (3, 0));
    drop(plain);
    assert_eq!(quota.close().unwrap(), 3);
}

/// How many tickets a retry by hand leaves drawn, which is stepped so often, is cancelled or not, and dropped.
fn left_by(quota: &Quota, json: &str, steps: &[Option<Report>], cancels: bool) -> u64 {
    let before = quota.granted();
    let mut machine = Machine::new(&policy(json), quota).unwrap();
    for (moment, report) in (0..).zip(steps) {
        let _ = machine.step(at(100 * moment), *report);
    }
    if cancels {
        machine.cancel();
    }
    drop(machine);
    quota.granted() - before
}

#[test]
fn the_ticket_of_a_run_that_never_began_comes_back() {
    let (quota, lost, won) = (quota(100, 0.0), Some(Report::Lost(7)), Some(Report::Won(0)));
    let (spaced, once) = (r#"{"spaced":100}"#, r#"{"meet":[{"recurs":1},{"spaced":100}]}"#);
    let left = |json, steps: &[Option<Report>]| [false, true].map(|cancels| left_by(&quota, json, steps, cancels));
    assert_eq!(left(spaced, &[None]), [0, 0]);
    // waiting for the first retry, in it, and waiting for the second
    assert_eq!(left(spaced, &[None, lost]), [0, 0]);
    assert_eq!(left(spaced, &[None, lost, None]), [1, 1]);
    assert_eq!(left(spaced, &[None, lost, None, lost]), [1, 1]);
    // a retry that goes on at once, one that is done, and one that succeeded
    assert_eq!(left(r#"{"recurs":3}"#, &[None, lost]), [1, 1]);
    assert_eq!(left(once, &[None, lost, None, lost]), [1, 1]);
    assert_eq!(left(spaced, &[None, lost, None, won]), [1, 1]);
    assert_eq!(left_by(&quota.clone().returning_tickets(), spaced, &[None, lost, None, won], false), 0);
    assert_eq!(left_by(&quota.clone().returning_tickets(), spaced, &[None, lost, None, lost, None], false), 2);
    let granted = quota.granted();
    assert_eq!(quota.close().unwrap(), granted);
}

#[test]
fn the_ticket_that_comes_back_is_none_of_a_retry_before_by_the_same_policy() {
    let (quota, policy, lost) = (quota(5, 0.0), policy(r#"{"spaced":100}"#), Some(Report::Lost(7)));
    let by_hand = |steps: &[Option<Report>]| {
        let mut machine = Machine::new(&policy, &quota).unwrap();
        for (moment, report) in (0..).zip(steps) {
            let _ = machine.step(at(100 * moment), *report);
        }
    };
    by_hand(&[None, lost, None]);
    by_hand(&[None, lost]);
    assert_eq!((quota.granted(), quota.seen().left), (1, 4));
    // and where nobody asks between
    by_hand(&[None, lost, None, lost, None]);
    by_hand(&[None, lost]);
    assert_eq!(quota.seen().left, 2);
    // one that succeeds at once drew none
    let returning = quota.clone().returning_tickets();
    let mut machine = Machine::new(&policy, &returning).unwrap();
    assert_eq!(machine.step(at(0), None), Step::Run);
    assert_eq!(machine.step(at(0), Some(Report::Won(0))), Step::Over(Ending::Won));
    drop((machine, returning));
    assert_eq!(quota.close().unwrap(), 3);
}

#[test]
fn a_sleep_that_panics_leaves_its_ticket_to_others() {
    let (policy, quota) = (policy(r#"{"spaced":60000}"#), quota(1, 0.0));
    let interrupted = catch_unwind(AssertUnwindSafe(|| {
        Retrying::new(&policy, &quota).sleep(|_| panic!("interrupted")).call(fails(1))
    }));
    assert!(interrupted.is_err());
    assert_eq!((quota.granted(), quota.seen().left), (0, 1));
}

#[test]
fn a_notice_that_panics_leaves_its_ticket_to_others_though_nothing_is_waited() {
    let (policy, quota, runs) = (policy(r#"{"recurs":9}"#), quota(9, 0.0), Cell::new(0));
    let retrying = Retrying::new(&policy, &quota).notify(|_, _| assert!(runs.get() < 3));
    let noticed = catch_unwind(AssertUnwindSafe(|| {
        retrying.call(|| {
            runs.set(runs.get() + 1);
            Err::<(), _>("busy")
        })
    }));
    // of three tickets two are used, by the second run and the third
    assert!(noticed.is_err());
    assert_eq!((runs.get(), quota.granted(), quota.seen().left), (3, 2, 7));
}

#[test]
fn tickets_of_a_budget_do_not_come_back() {
    let budget = Budget::new(5).unwrap();
    let mut machine = Machine::new(&policy(r#"{"spaced":100}"#), &budget).unwrap();
    assert_eq!(machine.step(at(0), None), Step::Run);
    assert_eq!(machine.step(at(0), Some(Report::Lost(0))), Step::Wait(at(100)));
    drop(machine);
    assert_eq!(budget.close().unwrap(), 1);
}

/// Sixteen threads whose calls succeed at their first retry, on four tickets.
#[test]
fn tickets_that_come_back_serve_all_threads() {
    let (policy, quota) = (policy(r#"{"recurs":1}"#), quota(4, 0.0).returning_tickets());
    let refused: usize = thread::scope(|scope| {
        let threads: Vec<_> = (0..16)
            .map(|_| scope.spawn(|| (0..1000).filter(|_| retry(&policy, &quota, fails(1)) != Ok(1)).count()))
            .collect();
        threads.into_iter().map(|thread| thread.join().unwrap()).sum()
    });
    assert!(refused < 16_000);
    assert_eq!(told(quota.seen()), [16_000, 0, 4]);
    assert_eq!(quota.close().unwrap(), 0);
}

/// A store that has so many tickets, and writes down what it hears.
struct Heard {
    left: Mutex<u64>,
    heard: Mutex<Vec<String>>,
}

impl Heard {
    fn of(tickets: u64) -> Arc<Self> {
        Arc::new(Self { left: Mutex::new(tickets), heard: Mutex::default() })
    }

    fn hears(&self, what: String) {
        self.heard.lock().unwrap().push(what);
    }

    /// What it heard since it was last asked.
    fn told(&self) -> Vec<String> {
        std::mem::take(&mut *self.heard.lock().unwrap())
    }
}

impl Tickets for Heard {
    fn deposit(&self) {
        self.hears("asked".to_owned());
    }

    fn draw(&self) -> Result<Ticket, NoTicket> {
        let mut left = self.left.lock().unwrap();
        let ticket = left.checked_sub(1);
        *left = ticket.unwrap_or(0);
        self.hears(format!("draws {ticket:?}"));
        ticket.map(Ticket::new).ok_or_else(NoTicket::used_up)
    }

    fn hand_back(&self, ticket: Ticket) {
        self.hears(format!("back {}", ticket.number()));
    }

    fn succeeded(&self, last: Option<Ticket>) {
        self.hears(format!("succeeded {:?}", last.map(|ticket| ticket.number())));
    }
}

#[test]
fn a_store_hears_of_successes_and_of_tickets_that_come_back() {
    let (policy, store) = (policy(r#"{"spaced":1}"#), Heard::of(5));
    assert_eq!(retry(&policy, &store, fails(0)), Ok(0));
    assert_eq!(store.told(), ["asked", "succeeded None"]);
    assert_eq!(retry(&policy, &store, fails(2)), Ok(2));
    assert_eq!(store.told(), ["asked", "draws Some(4)", "draws Some(3)", "succeeded Some(3)"]);
    let mut machine = Machine::new(&policy, &store).unwrap();
    assert_eq!(machine.step(at(0), None), Step::Run);
    assert_eq!(machine.step(at(0), Some(Report::Lost(0))), Step::Wait(at(1)));
    drop(machine);
    assert_eq!(store.told(), ["draws Some(2)", "back 2"]);
    assert_eq!(retry(&policy, &store, || Err::<(), _>("gone")), Err(RetryError::LimitRefused("gone")));
    assert_eq!(store.told(), ["asked", "draws Some(1)", "draws Some(0)", "draws None"]);
    let mut machine = Machine::new(&policy, &store).unwrap();
    assert_eq!(machine.step(at(0), None), Step::Run);
    assert_eq!(machine.step(at(0), Some(Report::Lost(0))), Step::Over(Ending::LimitRefused));
    drop(machine);
    assert_eq!(store.told(), ["draws None"]);
}

/// What a call that fails twice is granted, whatever it draws on.
#[test]
fn whatever_retries_takes_whatever_grants() {
    use hikebox::Grants;

    fn granted(grants: &(impl Grants<Refusal = std::convert::Infallible> + Clone)) -> u64 {
        let policy = policy(r#"{"recurs":5}"#);
        assert_eq!(retry(&policy, grants, fails(2)), Ok(2));
        assert_eq!(Retrying::new(&policy, &Unlimited).limit(grants).call(fails(2)), Ok(2));
        #[cfg(feature = "tower")]
        let _: hikebox::RetryLayer<(), (), ()> = hikebox::RetryLayer::new(policy.clone(), grants.clone());
        let mut machine = Machine::new(&policy, grants).unwrap();
        let _ = [None, Some(Report::Lost(0)), Some(Report::Lost(0))].map(|report| machine.step(at(0), report));
        machine.granted()
    }

    assert_eq!(granted(&Budget::new(9).unwrap()), 2);
    assert_eq!(granted(&quota(9, 0.0)), 2);
    assert_eq!(granted(&Heard::of(9)), 2);
    assert_eq!(granted(&Unlimited), 2);
    #[cfg(all(unix, feature = "leased"))]
    {
        use hikebox::{Leased, LeasedQuota};
        let folder = std::env::temp_dir().join(format!("hikebox-whatever-{}", std::process::id()));
        let _ = std::fs::remove_dir_all(&folder);
        let quota = |name: &str| LeasedQuota::new(&folder, name, 9, 0.0, Duration::from_secs(1_000_000)).unwrap();
        assert_eq!(granted(&Leased::new(&folder, "b", 9).unwrap()), 2);
        assert_eq!(granted(&Arc::new(Leased::new(&folder, "c", 9).unwrap())), 2);
        assert_eq!(granted(&quota("q")), 2);
        assert_eq!(granted(&Arc::new(quota("r"))), 2);
        std::fs::remove_dir_all(&folder).unwrap();
    }
}

#[cfg(feature = "tower")]
mod of_futures {
    use super::{fails, policy, told};
    use hikebox::{retry_async, Quota, RetryLayer, Retrying};
    use std::future::ready;
    use std::sync::{Arc, Mutex};
    use std::time::Duration;
    use tokio::time::{timeout, Instant};
    use tower::{service_fn, Service, ServiceBuilder, ServiceExt};

    fn quota(reserve: u64, share: f64) -> Quota {
        Quota::new_at(Instant::now().into_std(), reserve, share, Duration::from_secs(3600)).unwrap()
    }

    #[tokio::test(start_paused = true)]
    async fn a_future_that_is_dropped_while_its_error_waits_hands_its_ticket_back() {
        // the schedule goes on at once, and the error asks to wait
        let (policy, quota) = (policy(r#"{"recurs":5}"#), quota(9, 0.0));
        let retrying = Retrying::new(&policy, &quota).retry_after(|_| Some(Duration::from_millis(100)));
        let call = retrying.call_async(|| ready(Err::<(), _>("busy")));
        assert!(timeout(Duration::from_millis(250), call).await.is_err());
        // failures at 0, 100 and 200, and the last one's retry never began
        assert_eq!(quota.granted(), 2);
        // one that is dropped in a run keeps its ticket drawn
        let mut first = true;
        let call = retry_async(&policy, &quota, || {
            let fails = std::mem::take(&mut first);
            async move {
                if !fails {
                    std::future::pending::<()>().await;
                }
                Err::<(), _>("busy")
            }
        });
        assert!(timeout(Duration::from_millis(50), call).await.is_err());
        assert_eq!(quota.close().unwrap(), 3);
    }

    #[tokio::test(start_paused = true)]
    async fn requests_of_tower_count_where_they_succeed_and_hand_tickets_back() {
        let quota = quota(2, 1.0).counting_successes().returning_tickets();
        let layer = RetryLayer::new(policy(r#"{"meet":[{"recurs":3},{"spaced":10}]}"#), quota.clone())
            .failed(|answer: &u32| *answer == 503);
        let call = Arc::new(Mutex::new(fails(0)));
        let answers = call.clone();
        let mut service = ServiceBuilder::new().layer(layer).service(service_fn(move |request: u32| {
            let answer = (answers.lock().unwrap())();
            ready(if request == 503 { Ok(503) } else { answer })
        }));
        assert_eq!(service.ready().await.unwrap().call(1).await, Ok(0));
        assert_eq!(told(quota.seen()), [1, 0, 3]);
        *call.lock().unwrap() = fails(2);
        assert_eq!(service.ready().await.unwrap().call(1).await, Ok(2));
        // of its two tickets the last one came back, and it is a request more
        assert_eq!(told(quota.seen()), [2, 1, 3]);
        // a response that is a failure is no success
        assert_eq!(service.ready().await.unwrap().call(503).await, Ok(503));
        assert_eq!(told(quota.seen()), [2, 4, 0]);
        *call.lock().unwrap() = fails(9);
        assert_eq!(service.ready().await.unwrap().call(1).await, Err("busy"));
        assert_eq!(told(quota.seen()), [2, 4, 0]);
    }

    #[tokio::test(start_paused = true)]
    async fn a_request_of_tower_that_is_dropped_while_it_waits_hands_its_ticket_back() {
        let quota = quota(9, 0.0);
        let layer = RetryLayer::new(policy(r#"{"spaced":100}"#), quota.clone());
        let mut service = ServiceBuilder::new().layer(layer).service(service_fn(|()| ready(Err::<(), _>("busy"))));
        let call = service.ready().await.unwrap().call(());
        assert!(timeout(Duration::from_millis(250), call).await.is_err());
        assert_eq!(quota.granted(), 2);
        drop(service);
        assert_eq!(quota.close().unwrap(), 2);
    }
}
