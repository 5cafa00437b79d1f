//! A limit for each key: who gets which, and which go.

use hikebox::{
    retry, AnyLimit, Breaker, Bucket, Budget, CallLimit, LimitError, LimitState, NoTicket, Pace, PerKey, Policy, Quota,
    Rate, RetryError, Ticket, Tickets,
};
use std::collections::HashSet;
use std::sync::atomic::{AtomicUsize, Ordering};
use std::sync::{Arc, Barrier, Mutex};
use std::thread;
use std::time::Duration;

const HOUR: Duration = Duration::from_secs(3600);

/// Quotas, and how many were made.
fn quotas(most: usize) -> (PerKey<u32, Quota>, Arc<AtomicUsize>) {
    let made = Arc::new(AtomicUsize::new(0));
    let count = made.clone();
    let make = move |_: &u32| {
        count.fetch_add(1, Ordering::SeqCst);
        Quota::new(1, 0.0, HOUR)
    };
    (PerKey::new(make).keeping(most), made)
}

fn keys(quotas: &PerKey<u32, Quota>) -> Vec<u32> {
    let mut keys: Vec<u32> = quotas.to_vec().into_iter().map(|(key, _)| key).collect();
    keys.sort_unstable();
    keys
}

#[test]
fn a_key_has_one_limit_and_others_have_others() {
    let breakers = PerKey::new(|failures: &u32| {
        CallLimit::new(Breaker::consecutive(*failures, r#"{"spaced":30000}"#.parse().unwrap()))
    });
    let once: Policy = r#"{"recurs":0}"#.parse().unwrap();
    for _ in 0..2 {
        assert!(retry(&once, &breakers.of(&2).unwrap(), || Err::<(), _>("down")).is_err());
        assert!(retry(&once, &breakers.of(&9).unwrap(), || Err::<(), _>("down")).is_err());
    }
    assert!(matches!(breakers.of(&2).unwrap().seen()[..], [LimitState::Open { trip: 1, .. }]));
    assert_eq!(breakers.of(&9).unwrap().seen(), [LimitState::Closed { failures: 2 }]);
    assert_eq!((breakers.len(), breakers.is_empty()), (2, false));
}

#[test]
fn a_key_is_asked_for_by_what_it_borrows() {
    let budgets = PerKey::new(|key: &String| Budget::new(key.len() as u64));
    assert!(budgets.of("three").unwrap().pass().unwrap().draw().is_ok());
    assert_eq!(budgets.of(&"three".to_owned()).unwrap().granted(), 1);
    assert!(budgets.of("").unwrap().pass().unwrap().draw().is_err());
}

#[test]
fn an_error_is_told_and_the_next_one_asks_again() {
    let asked = AtomicUsize::new(0);
    let paces = PerKey::new(move |calls: &u64| match asked.fetch_add(1, Ordering::SeqCst) {
        0 => Pace::new(Rate::new(0, HOUR)),
        _ => Pace::new(Rate::new(*calls, HOUR)),
    });
    assert!(matches!(paces.of(&5), Err(LimitError::OutOfRange { parameter: "calls", .. })));
    assert!(paces.is_empty());
    paces.of(&5).unwrap().take().unwrap().begin();
    assert!(!paces.of(&5).unwrap().seen().is_zero());
}

#[test]
fn the_one_goes_that_was_asked_for_least_recently() {
    let (quotas, made) = quotas(3);
    for key in [1, 2, 3, 1, 4, 1, 5] {
        quotas.of(&key).unwrap();
    }
    assert_eq!((keys(&quotas), made.load(Ordering::SeqCst)), (vec![1, 4, 5], 5));
    quotas.of(&2).unwrap();
    assert_eq!((keys(&quotas), made.load(Ordering::SeqCst)), (vec![1, 2, 5], 6));
}

#[test]
fn one_that_is_in_use_stays() {
    let (quotas, made) = quotas(2);
    let held = quotas.of(&0).unwrap();
    let pass = quotas.of(&1).unwrap().pass().unwrap();
    assert!(held.pass().unwrap().draw().is_ok());
    (2..100).for_each(|key| drop(quotas.of(&key).unwrap()));
    assert!(quotas.of(&0).unwrap().pass().unwrap().draw().is_err());
    assert_eq!((keys(&quotas)[..2].to_vec(), made.load(Ordering::SeqCst)), (vec![0, 1], 100));
    drop((held, pass));
    (200..202).for_each(|key| drop(quotas.of(&key).unwrap()));
    assert_eq!(keys(&quotas), [200, 201]);
}

#[test]
fn requests_and_turns_and_calls_under_way_keep_theirs() {
    let limits = PerKey::new(|_: &u8| CallLimit::new(Bucket::aws())).keeping(1);
    let paces = PerKey::new(|_: &u8| Pace::new(Rate::new(1, HOUR))).keeping(1);
    let (mut request, turn) = (limits.of(&0).unwrap().request().unwrap(), paces.of(&0).unwrap().take().unwrap());
    (1..50).for_each(|key| drop((limits.of(&key).unwrap(), paces.of(&key).unwrap())));
    request.admit().unwrap();
    request.failed();
    request.draw().unwrap();
    turn.begin();
    assert_eq!(limits.of(&0).unwrap().seen(), [LimitState::Bucket { level: 495.0, capacity: 500.0 }]);
    assert!(!paces.of(&0).unwrap().seen().is_zero());
}

/// A store that gives one ticket.
struct One(AtomicUsize);

impl Tickets for One {
    fn draw(&self) -> Result<Ticket, NoTicket> {
        match self.0.fetch_add(1, Ordering::SeqCst) {
            0 => Ok(Ticket::new(0)),
            _ => Err(NoTicket::used_up()),
        }
    }
}

#[test]
fn any_limit_and_stores_have_keys_too() {
    let once: Policy = r#"{"recurs":1}"#.parse().unwrap();
    let any = PerKey::new(|key: &u8| match key {
        0 => Ok(AnyLimit::Unlimited),
        1 => Budget::new(1).map(AnyLimit::from),
        _ => Quota::new(1, 0.0, HOUR).map(AnyLimit::from),
    });
    let stores = PerKey::new(|_: &u8| Ok(Arc::new(One(AtomicUsize::new(0)))));
    let (any, stores) = (any.keeping(1), stores.keeping(1));
    let fails = || Err::<(), _>("busy");
    for key in 0..3 {
        let (limit, store) = (any.of(&key).unwrap(), stores.of(&key).unwrap());
        assert_eq!(retry(&once, &limit, fails), Err(RetryError::ScheduleDone("busy")));
        assert_eq!(retry(&once, &store, fails), Err(RetryError::ScheduleDone("busy")));
        // (asked for again while others are asked for, since they are in use)
        drop((any.of(&9).unwrap(), stores.of(&9).unwrap()));
        let used_up = Err(RetryError::LimitRefused("busy"));
        let again = retry(&once, &any.of(&key).unwrap(), fails);
        assert_eq!((retry(&once, &stores.of(&key).unwrap(), fails), key == 0 || again == used_up), (used_up, true));
    }
}

// At most as many as there may be stay of those that nobody uses, and an eighth at once goes.
#[test]
fn of_many_keys_the_latest_stay() {
    let (quotas, made) = quotas(80);
    (0..1000).for_each(|key| drop(quotas.of(&key).unwrap()));
    let kept = keys(&quotas);
    assert!((70..=80).contains(&kept.len()) && kept.ends_with(&(930..1000).collect::<Vec<_>>()), "{kept:?}");
    let held: Vec<Quota> = (2000..2500).map(|key| quotas.of(&key).unwrap()).collect();
    assert!(quotas.len() >= 500 && made.load(Ordering::SeqCst) == 1500);
    assert!((2000..2500).all(|key| quotas.of(&key).is_ok()) && made.load(Ordering::SeqCst) == 1500);
    drop(held);
    (3000..3200).for_each(|key| drop(quotas.of(&key).unwrap()));
    assert!(quotas.len() <= 80, "{}", quotas.len());
}

#[test]
fn threads_that_ask_for_one_key_get_one_limit() {
    for _ in 0..50 {
        let ((quotas, _), barrier, drawn) = (quotas(1), Barrier::new(8), AtomicUsize::new(0));
        thread::scope(|scope| {
            for _ in 0..8 {
                scope.spawn(|| {
                    barrier.wait();
                    let quota = quotas.of(&7).unwrap();
                    barrier.wait();
                    drawn.fetch_add(usize::from(quota.pass().unwrap().draw().is_ok()), Ordering::SeqCst);
                });
            }
        });
        assert_eq!(drawn.load(Ordering::SeqCst), 1);
    }
}

// Each budget has one ticket, and whoever draws it keeps its budget, so no key gives two.
#[test]
fn threads_that_ask_for_many_keys_never_get_another_limit_of_one_in_use() {
    let budgets = PerKey::new(|_: &u64| Budget::new(1)).keeping(4);
    let held: Mutex<Vec<(u64, Budget)>> = Mutex::default();
    let asks = |thread: u64| {
        for number in 0..2000 {
            let key = (number * 7 + thread * 3) % 61;
            let budget = budgets.of(&key).unwrap();
            if budget.pass().unwrap().draw().is_ok() {
                held.lock().unwrap().push((key, budget));
            }
        }
    };
    thread::scope(|scope| (0..6).for_each(|thread| drop(scope.spawn(move || asks(thread)))));
    let held = held.into_inner().unwrap();
    let keys: HashSet<u64> = held.iter().map(|(key, _)| *key).collect();
    assert_eq!((held.len(), keys.len()), (61, 61));
}

/// One that asks for another key while it makes a limit waits for nobody.
#[test]
fn what_makes_a_limit_may_ask_for_another() {
    static KEYS: Mutex<Option<Arc<PerKey<u32, Quota>>>> = Mutex::new(None);
    let quotas = Arc::new(PerKey::new(|key: &u32| match key {
        0 => Quota::new(1, 0.0, HOUR),
        key => {
            let quotas = KEYS.lock().unwrap().clone();
            quotas.unwrap().of(&(key - 1))
        }
    }));
    *KEYS.lock().unwrap() = Some(quotas.clone());
    assert!(quotas.of(&3).unwrap().pass().unwrap().draw().is_ok());
    assert!(quotas.of(&0).unwrap().pass().unwrap().draw().is_err());
    assert_eq!(keys(&quotas), [0, 1, 2, 3]);
}

#[test]
fn it_may_be_shared_and_shown() {
    fn is_shared<T: Send + Sync + 'static>(_: &T) {}
    let (quotas, _) = quotas(0);
    quotas.of(&1).unwrap();
    quotas.of(&2).unwrap();
    is_shared(&quotas);
    assert_eq!((format!("{quotas:?}"), keys(&quotas)), ("PerKey { limits: 1, most: 1, .. }".to_owned(), vec![2]));
}
