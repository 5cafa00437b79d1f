//! Retries: how they end, what they are granted, and what threads share.

use hikebox::{
    retry, BlockingRetryable, Budget, Cause, Ending, Machine, NoTicket, Policy, Report, RetryError, Retrying, Step,
    Ticket, Tickets, Unlimited,
};
use std::cell::{Cell, RefCell};
use std::error::Error;
use std::io;
use std::rc::Rc;
use std::sync::atomic::{AtomicI64, AtomicU64, Ordering};
use std::sync::{mpsc, Arc};
use std::thread;
use std::time::{Duration, Instant};

fn policy(json: &str) -> Policy {
    json.parse().unwrap()
}

/// A retry by hand whose runs end as listed, the last one repeated: how it ended, its runs and its grants.
fn scripted(json: &str, limit: u64, script: &[Report]) -> (Ending, u64, u64) {
    let mut machine = Machine::new(&policy(json), &Budget::new(limit).unwrap()).unwrap();
    let mut runs = script.iter().copied().chain(std::iter::repeat(script[script.len() - 1]));
    let (mut now, mut report) = (Duration::ZERO, None);
    loop {
        match machine.step(now, report.take()) {
            Step::Run => report = runs.next(),
            Step::Wait(until) => now = until,
            Step::Over(ended) => return (ended, machine.runs(), machine.granted()),
        }
    }
}

#[test]
fn scripted_retries_end_as_a_pool_of_jobs_says() {
    use Report::{Lost, Won};
    assert_eq!(scripted(r#"{"recurs":5}"#, 100, &[Lost(7), Lost(7), Won(1)]), (Ending::Won, 3, 2));
    assert_eq!(scripted(r#"{"recurs":1}"#, 100, &[Lost(7), Lost(8)]), (Ending::ScheduleDone, 2, 1));
    assert_eq!(scripted(r#"{"recurs":5}"#, 1, &[Lost(7), Lost(8)]), (Ending::LimitRefused, 2, 1));
    assert_eq!(scripted(r#"{"recurs":3}"#, 0, &[Lost(7)]), (Ending::LimitRefused, 1, 0));
    assert_eq!(scripted(r#""forever""#, 10_000, &[Lost(7)]), (Ending::LimitRefused, 10_001, 10_000));
}

#[test]
fn a_retry_goes_on_after_65_536_failures() {
    let mut outcomes = vec![Report::Lost(7); 70_000];
    outcomes.push(Report::Won(1));
    assert_eq!(scripted(r#""forever""#, 100_000, &outcomes), (Ending::Won, 70_001, 70_000));
}

#[test]
fn a_code_is_the_schedules_input() {
    let json = r#"{"gate":["input",true,"below",500,{"recurs":5}]}"#;
    let seen = RefCell::new(0);
    let result = Retrying::new(&policy(json), &Budget::new(10).unwrap()).code(|code: &u64| *code).call(|| {
        *seen.borrow_mut() += 250;
        Err::<(), u64>(*seen.borrow())
    });
    assert_eq!(result, Err(RetryError::ScheduleDone(500)));
}

#[test]
fn waits_are_as_long_as_planned() {
    let json = r#"{"meet":[{"recurs":2},{"spaced":20}]}"#;
    let began = Instant::now();
    let waits = RefCell::new(Vec::new());
    let result = Retrying::new(&policy(json), &Budget::new(10).unwrap())
        .notify(|_, wait| waits.borrow_mut().push(wait))
        .call(|| Err::<(), _>(()));
    assert_eq!(result, Err(RetryError::ScheduleDone(())));
    assert!(began.elapsed() >= Duration::from_millis(40));
    assert_eq!(waits.into_inner(), [Duration::from_millis(20); 2]);
}

#[test]
fn a_wait_is_whole_whatever_part_of_a_millisecond_the_call_took() {
    // by hand: the runs end 0.84 ms and 3.68 ms after the retry began, and each wait is 2 ms from there on
    let (now, began) = (Cell::new(Instant::now()), Instant::now());
    let origin = now.get();
    let waits = RefCell::new(Vec::new());
    let mut starts = Vec::new();
    let result = Retrying::new(&policy(r#"{"meet":[{"recurs":2},{"spaced":2}]}"#), &Unlimited)
        .clock(|| now.get())
        .sleep(|wait| {
            waits.borrow_mut().push(wait);
            now.set(now.get() + wait);
        })
        .call(|| {
            starts.push(now.get() - origin);
            now.set(now.get() + Duration::from_micros(840));
            Err::<(), _>("no")
        });
    assert_eq!(result, Err(RetryError::ScheduleDone("no")));
    assert_eq!(waits.into_inner(), [Duration::from_millis(2); 2]);
    assert_eq!(starts, [0, 2840, 5680].map(Duration::from_micros));
    assert!(began.elapsed() < Duration::from_secs(20));
}

#[test]
fn a_sleep_need_not_move_the_clock_and_is_not_asked_for_nothing() {
    let stopped = Instant::now();
    let slept = Cell::new(Duration::ZERO);
    let policy = policy(r#"{"follow":[{"recurs":2},{"meet":[{"recurs":2},{"spaced":3600000}]}]}"#);
    let retrying = Retrying::new(&policy, &Unlimited).clock(|| stopped).sleep(|wait: Duration| {
        assert!(!wait.is_zero());
        slept.set(slept.get() + wait);
    });
    let mut runs = 0;
    let result = retrying.call(|| {
        runs += 1;
        if runs < 100 {
            Err(7)
        } else {
            Ok("a run that no one planned")
        }
    });
    assert_eq!((result, runs), (Err(RetryError::ScheduleDone(7)), 5));
    assert_eq!(slept.get(), Duration::from_secs(2 * 3600));
}

#[test]
fn an_error_asks_for_a_longer_wait_up_to_the_longest() {
    let json = r#"{"meet":[{"recurs":4},{"spaced":1000}]}"#;
    let waits = |longest: Option<u64>| {
        let mut asked = [None, Some(400), Some(5000), Some(999_999_999_999_000)].into_iter();
        let (policy, waits, slept) = (policy(json), RefCell::new(Vec::new()), RefCell::new(Vec::new()));
        let retrying = Retrying::new(&policy, &Unlimited)
            .retry_after(|wait: &Option<u64>| wait.map(Duration::from_millis))
            .notify(|_, wait| waits.borrow_mut().push(wait.as_millis()))
            .sleep(|wait: Duration| slept.borrow_mut().push(wait));
        let retrying = match longest {
            Some(millis) => retrying.max_retry_after(Duration::from_millis(millis)),
            None => retrying,
        };
        let result = retrying.call(|| match asked.next() {
            Some(wait) => Err(wait),
            None => Ok(()),
        });
        assert_eq!(result, Ok(()));
        drop(retrying);
        assert_eq!(slept.borrow().len(), 4);
        waits.into_inner()
    };
    assert_eq!(waits(None), [1000, 1000, 5000, 6 * 3_600_000]);
    assert_eq!(waits(Some(3000)), [1000, 1000, 3000, 3000]);
}

#[test]
fn words_pick_the_delays() {
    let json = r#"{"meet":[{"recurs":3},{"jitter":[2,0,1000,{"spaced":1000}]}]}"#;
    for (word, wait) in [(0, 0), (1 << 31, 500)] {
        let waits = RefCell::new(Vec::new());
        let _ = Retrying::new(&policy(json), &Unlimited)
            .random(|| [9, 9, word, 9])
            .sleep(|_: Duration| ())
            .notify(|_, wait| waits.borrow_mut().push(wait.as_millis()))
            .call(|| Err::<(), _>(()));
        assert_eq!(waits.into_inner(), [wait; 3]);
    }
}

#[test]
fn words_that_no_node_reads_are_not_drawn() {
    let drawn = Cell::new(0);
    for (json, words) in [(r#"{"recurs":2}"#, 0), (r#"{"jitter":[2,0,1000,{"recurs":2}]}"#, 3)] {
        let _ = Retrying::new(&policy(json), &Unlimited)
            .random(|| {
                drawn.set(drawn.get() + 1);
                [0; 4]
            })
            .sleep(|_: Duration| ())
            .call(|| Err::<(), _>(()));
        assert_eq!(drawn.take(), words, "{json}");
    }
}

#[test]
fn settings_are_cloned_shown_and_called_as_often_as_one_likes() {
    let (policy, budget) = (policy(r#"{"recurs":1}"#), Budget::new(100).unwrap());
    let heard = Rc::new(Cell::new(0));
    let counter = heard.clone();
    // an `Rc` is not `Send`, and nothing is sent
    let retrying = Retrying::new(&policy, &budget)
        .when(|error: &&str| *error != "fatal")
        .notify(move |_, _| counter.set(counter.get() + 1));
    let other = retrying.clone();
    for _ in 0..3 {
        assert_eq!(retrying.call(|| Err::<(), _>("busy")), Err(RetryError::ScheduleDone("busy")));
        assert_eq!(other.call(|| Err::<u8, _>("fatal")), Err(RetryError::NotRetried("fatal")));
    }
    assert_eq!((heard.get(), budget.granted()), (3, 3));
    drop(other);
    let shown =
        r#"Retrying { policy: Policy({"recurs":1}), limit: Budget { granted: 3, .. }, max_retry_after: 21600s, "#;
    assert!(format!("{retrying:?}").starts_with(shown));
}

#[test]
fn a_call_is_retried_by_a_method_of_its_own() {
    let (policy, budget) = (policy(r#"{"recurs":5}"#), Budget::new(3).unwrap());
    let mut tries = 0;
    let kinds = [io::ErrorKind::TimedOut, io::ErrorKind::TimedOut, io::ErrorKind::NotFound];
    let mut call = || {
        tries += 1;
        Err::<(), _>(io::Error::from(kinds[tries - 1]))
    };
    // no type is named in `when`
    let result = (&mut call).retry(&policy).limit(&budget).when(|error| error.kind() == io::ErrorKind::TimedOut).run();
    assert!(matches!(result, Err(RetryError::NotRetried(error)) if error.kind() == io::ErrorKind::NotFound));
    assert_eq!((tries, budget.granted()), (3, 2));

    fn answer() -> Result<u8, &'static str> {
        Ok(7)
    }
    assert_eq!(answer.retry(&policy).run(), Ok(7));
}

#[test]
fn errors_of_all_kinds_go_on_by_a_question_mark_and_are_told_once() {
    let never = policy(r#"{"recurs":0}"#);
    let away = || io::Error::new(io::ErrorKind::Other, "away");
    let of_text = || -> anyhow::Result<()> { Ok(retry(&never, &Unlimited, || Err::<(), _>("busy"))?) };
    let of_io = || -> anyhow::Result<()> { Ok(retry(&never, &Unlimited, || Err::<(), _>(away()))?) };
    let of_anyhow = || -> anyhow::Result<()> {
        Ok(retry(&never, &Unlimited, || Err::<(), _>(anyhow::Error::from(away()).context("no answer")))?)
    };
    let of_box = || -> Result<(), Box<dyn Error>> {
        Ok(retry(&never, &Unlimited, || Err::<(), Box<dyn Error>>("gone".into()))?)
    };
    assert_eq!(format!("{:#}", of_text().unwrap_err()), "busy (the schedule was done)");
    assert_eq!(format!("{:#}", of_io().unwrap_err()), "away (the schedule was done)");
    assert_eq!(format!("{:#}", of_anyhow().unwrap_err()), "no answer: away (the schedule was done)");
    assert_eq!(of_box().unwrap_err().to_string(), "gone (the schedule was done)");
}

/// A store with so many tickets, which counts requests, and fails where it has none and is told to.
struct Store {
    left: AtomicI64,
    asked: AtomicU64,
    fails: bool,
}

impl Store {
    fn of(tickets: i64, fails: bool) -> Arc<Self> {
        Arc::new(Self { left: AtomicI64::new(tickets), asked: AtomicU64::new(0), fails })
    }
}

impl Tickets for Store {
    fn deposit(&self) {
        self.asked.fetch_add(1, Ordering::SeqCst);
    }

    fn draw(&self) -> Result<Ticket, NoTicket> {
        match self.left.fetch_sub(1, Ordering::SeqCst) {
            left if left > 0 => Ok(Ticket::new(left.unsigned_abs())),
            _ if self.fails => Err(NoTicket::failed("the table is locked")),
            _ => Err(NoTicket::used_up()),
        }
    }
}

#[test]
fn a_store_of_ones_own_grants_each_retry() {
    let (two, store) = (policy(r#"{"recurs":2}"#), Store::of(3, false));
    assert_eq!(retry(&two, &store, || Err::<(), _>("no")), Err(RetryError::ScheduleDone("no")));
    assert_eq!(retry(&two, &store, || Err::<(), _>("no")), Err(RetryError::LimitRefused("no")));
    assert_eq!(retry(&two, &store, || Ok::<_, ()>(5)), Ok(5));
    assert_eq!((store.asked.load(Ordering::SeqCst), store.left.load(Ordering::SeqCst)), (3, -1));

    let broken = retry(&two, &Store::of(0, true), || Err::<(), _>("no")).unwrap_err();
    assert!(matches!(&broken, RetryError::StoreFailed(failure, "no") if failure.to_string() == "the table is locked"));
    assert_eq!(broken.to_string(), "no (the store of retry tickets failed: the table is locked)");
}

/// One that is chosen when the program runs grants what it grants by its own type.
#[test]
fn a_store_behind_a_trait_object_grants_each_retry() {
    let (two, store) = (policy(r#"{"recurs":2}"#), Store::of(5, false));
    let chosen: Arc<dyn Tickets> = store.clone();
    assert_eq!(retry(&two, &chosen, || Err::<(), _>("no")), Err(RetryError::ScheduleDone("no")));
    let kept = Retrying::new(&two, &chosen).shared();
    assert_eq!(kept.call(|| Err::<(), _>("no")), Err(RetryError::ScheduleDone("no")));
    let mut machine = Machine::new(&two, &chosen).unwrap();
    assert_eq!(machine.step(Duration::ZERO, None), Step::Run);
    assert_eq!(machine.step(Duration::ZERO, Some(Report::Lost(0))), Step::Run);
    assert_eq!(machine.step(Duration::ZERO, Some(Report::Lost(0))), Step::Over(Ending::LimitRefused));
    assert_eq!((store.asked.load(Ordering::SeqCst), store.left.load(Ordering::SeqCst)), (2, -1));
}

#[test]
fn a_machine_counts_the_tickets_of_a_store_and_not_the_retries_that_were_refused() {
    let mut machine = Machine::new(&policy(r#"{"spaced":10}"#), &Store::of(2, false)).unwrap();
    let at = Duration::from_millis;
    assert_eq!(machine.step(at(0), None), Step::Run);
    assert_eq!(machine.step(at(0), Some(Report::Lost(1))), Step::Wait(at(10)));
    // a second report, where no run is under way, draws nothing
    assert_eq!(machine.step(at(1), Some(Report::Lost(1))), Step::Wait(at(10)));
    assert_eq!(machine.step(at(10), None), Step::Run);
    assert_eq!(machine.step(at(10), Some(Report::Lost(1))), Step::Wait(at(20)));
    assert_eq!(machine.step(at(20), None), Step::Run);
    for _ in 0..2 {
        assert_eq!(machine.step(at(20), Some(Report::Lost(1))), Step::Over(Ending::LimitRefused));
        assert_eq!((machine.granted(), machine.runs()), (2, 3));
    }
    assert!(machine.store_failure().is_none());
}

#[test]
fn a_machine_takes_its_random_words() {
    let jitter = policy(r#"{"jitter":[1,0,2000,{"spaced":1000}]}"#);
    let at = Duration::from_millis;
    let wait = |word: u32| {
        let mut machine = Machine::new(&jitter, &Unlimited).unwrap();
        assert_eq!(machine.step_with(at(0), None, [0; 4]), Step::Run);
        machine.step_with(at(0), Some(Report::Lost(0)), [5, word, 6, 7])
    };
    assert_eq!(wait(0), Step::Run);
    assert_eq!(wait(1 << 31), Step::Wait(at(1000)));
}

#[test]
fn the_last_error_is_kept() {
    let budget = Budget::new(0).unwrap();
    let away = || Err::<(), _>(io::Error::new(io::ErrorKind::Other, "away"));
    let error = retry(&policy(r#"{"recurs":5}"#), &budget, away).unwrap_err();
    assert_eq!(error.to_string(), "away (the limit refused a retry)");
    assert!(error.source().is_none());
    assert_eq!(error.into_last().kind(), io::ErrorKind::Other);
}

#[test]
fn a_clock_that_goes_back_breaks_a_retry() {
    let mut machine = Machine::new(&policy("\"forever\""), &Budget::new(9).unwrap()).unwrap();
    let at = Duration::from_millis;
    assert_eq!(machine.step(at(10), None), Step::Run);
    assert_eq!(machine.step(at(10), Some(Report::Lost(1))), Step::Run);
    assert_eq!(machine.step(at(9), Some(Report::Lost(1))), Step::Over(Ending::Broken(Cause::Backwards)));
}

/// How a retry ends whose runs end so, and how often it looked at its clock.
fn looks(script: &[Result<u8, u8>], budget: &Budget) -> (Result<u8, RetryError<u8>>, u64) {
    let (policy, now, looks) = (policy(r#"{"recurs":9}"#), Instant::now(), Cell::new(0));
    let mut runs = script.iter().copied();
    let result = Retrying::new(&policy, budget)
        .when(|error: &u8| *error < 9)
        .clock(|| {
            looks.set(looks.get() + 1);
            now + Duration::from_millis(looks.get())
        })
        .call(|| runs.next().unwrap());
    (result, looks.get())
}

#[test]
fn a_call_that_succeeds_at_once_takes_no_look_at_the_clock() {
    let budget = Budget::new(10).unwrap();
    assert_eq!(looks(&[Ok(5)], &budget), (Ok(5), 0));
    // and one at each failure
    assert_eq!(looks(&[Err(9)], &budget), (Err(RetryError::NotRetried(9)), 1));
    assert_eq!(looks(&[Err(1), Err(2), Ok(5)], &budget), (Ok(5), 2));
    assert_eq!(budget.close().unwrap(), 2);
}

#[test]
fn a_call_that_succeeds_or_is_not_retried_leaves_nothing_in_the_budget() {
    let (policy, budget) = (policy(r#"{"recurs":2}"#), Budget::new(100).unwrap());
    let drawn = |run: &dyn Fn() -> Result<(), u8>| {
        let before = budget.granted();
        let _ = Retrying::new(&policy, &budget).when(|error| *error < 9).call(run);
        budget.granted() - before
    };
    let second = Cell::new(0);
    let then = |failure: Result<(), u8>| {
        second.set(second.get() + 1);
        if second.get() % 2 == 1 {
            Err(1)
        } else {
            failure
        }
    };
    assert_eq!(drawn(&|| Ok(())), 0);
    assert_eq!(drawn(&|| Err(9)), 0);
    assert_eq!(drawn(&|| then(Ok(()))), 1);
    assert_eq!(drawn(&|| then(Err(9))), 1);
    assert_eq!(drawn(&|| Err(1)), 2);
    let panics = || then(Ok(())).map(|()| panic!("in the second run"));
    assert!(std::panic::catch_unwind(std::panic::AssertUnwindSafe(|| drawn(&panics))).is_err());
    assert_eq!(budget.close().unwrap(), 5);
}

#[test]
fn sixteen_threads_never_pass_the_budget() {
    let (policy, budget) = (policy("\"forever\""), Budget::new(10_000).unwrap());
    thread::scope(|scope| {
        for _ in 0..16 {
            let (policy, budget) = (policy.clone(), budget.clone());
            scope.spawn(move || loop {
                let mut left = 3;
                let result = retry(&policy, &budget, || {
                    left -= 1;
                    if left == 0 {
                        Ok(())
                    } else {
                        Err(())
                    }
                });
                if result.is_err() {
                    assert_eq!(result, Err(RetryError::LimitRefused(())));
                    break;
                }
            });
        }
    });
    assert_eq!(budget.close().unwrap(), 10_000);
}

/// Retries once more when its thread ends, and sends how often.
struct AtTheEnd(mpsc::Sender<Result<(), RetryError<u32>>>);

impl Drop for AtTheEnd {
    fn drop(&mut self) {
        let mut runs = 0;
        // (tokio's clock ends before its thread does)
        let ended = Retrying::new(&policy(r#"{"recurs":2}"#), &Unlimited).clock(Instant::now).call(|| {
            runs += 1;
            Err(runs)
        });
        self.0.send(ended).unwrap();
    }
}

#[test]
fn a_thread_retries_on_no_limit_until_it_has_ended() {
    thread_local! {
        static BEFORE: RefCell<Option<AtTheEnd>> = const { RefCell::new(None) };
        static AFTER: RefCell<Option<AtTheEnd>> = const { RefCell::new(None) };
    }
    let (sends, sent) = mpsc::channel();
    thread::spawn(move || {
        // a value of the thread's is dropped before or after the crate's own
        BEFORE.with(|own| *own.borrow_mut() = Some(AtTheEnd(sends.clone())));
        drop(AtTheEnd(sends.clone()));
        AFTER.with(|own| *own.borrow_mut() = Some(AtTheEnd(sends)));
    })
    .join()
    .unwrap();
    assert_eq!(sent.iter().collect::<Vec<_>>(), vec![Err(RetryError::ScheduleDone(3)); 3]);
}

#[test]
fn values_go_to_other_threads() {
    fn sends<T: Send>() {}
    fn shares<T: Sync>() {}
    sends::<Policy>();
    shares::<Policy>();
    sends::<Budget>();
    shares::<Budget>();
    sends::<hikebox::Quota>();
    shares::<hikebox::Quota>();
    sends::<hikebox::QuotaPass>();
    shares::<hikebox::Usage>();
    shares::<Unlimited>();
    sends::<Machine>();
    sends::<hikebox::Pass>();
    sends::<Retrying<'_, io::Error>>();
}

#[test]
fn values_are_compared_and_are_keys() {
    fn keys<T: std::hash::Hash + Eq + Clone + std::fmt::Debug>() {}
    keys::<RetryError<u8>>();
    keys::<hikebox::RepeatError<u8, u8>>();
    keys::<Ending>();
    keys::<Cause>();
    keys::<Report>();
    keys::<Step>();
    keys::<Unlimited>();
    keys::<hikebox::Attempt>();
    keys::<hikebox::LimitError>();
    keys::<hikebox::Fold>();
    keys::<hikebox::Line>();
    keys::<hikebox::PolicyError>();
    keys::<hikebox::PolicyFault>();
    keys::<hikebox::Schedule>();
    keys::<hikebox::Test>();
    keys::<hikebox::Usage>();
    keys::<hikebox::Breaker>();
    fn compared<T: PartialEq + Clone + std::fmt::Debug>() {}
    compared::<hikebox::Terms>();
}

/// Parts that can be shown, though nothing in them can.
#[test]
fn a_retry_and_its_parts_are_shown_whatever_is_in_them() {
    fn shown<T: std::fmt::Debug>() {}
    struct Hidden;
    shown::<Retrying<'_, Hidden, Hidden, Hidden, Hidden, Hidden>>();
    shown::<hikebox::Hooks<Hidden, Hidden, Hidden, Hidden>>();
    shown::<hikebox::NoHook<Hidden>>();
    shown::<hikebox::SharedHooks<Hidden>>();
    shown::<hikebox::Host<Hidden, Hidden, Hidden>>();
    shown::<hikebox::Async<Hidden>>();
    shown::<hikebox::Blocking<Hidden>>();
}
