//! Retries that are kept: as fields, by several threads, in tasks that are spawned, on a budget of any kind.

use hikebox::{
    AnyLimit, BlockingRetryable, Budget, Policy, Quota, Repeating, RetryError, Retrying, SharedRetrying, Unlimited,
};
use std::io::{Error, ErrorKind};
use std::sync::atomic::{AtomicU64, Ordering};
use std::sync::Arc;
use std::thread;
use std::time::Duration;

fn policy(json: &str) -> Policy {
    json.parse().unwrap()
}

fn quota(reserve: u64) -> Quota {
    Quota::new(reserve, 0.0, Duration::from_secs(3600)).unwrap()
}

fn fails(kind: ErrorKind) -> Result<(), Error> {
    Err(Error::from(kind))
}

/// As a program keeps one: its type has no lifetime and no closure.
#[derive(Clone)]
struct Client {
    retrying: SharedRetrying<Error>,
    plain: Retrying<'static, Error>,
    heard: Arc<AtomicU64>,
}

impl Client {
    fn new(budget: AnyLimit) -> Self {
        let (policy, heard) = (policy(r#"{"recurs":2}"#), Arc::new(AtomicU64::new(0)));
        let counter = heard.clone();
        let retrying = Retrying::new(&policy, &budget)
            .when(|error: &Error| error.kind() != ErrorKind::NotFound)
            .notify(move |_, _| {
                counter.fetch_add(1, Ordering::Relaxed);
            })
            .shared()
            .deadline(Duration::from_secs(60));
        Self { retrying, plain: Retrying::new(&policy, &budget).into_owned(), heard }
    }
}

#[test]
fn eight_threads_call_one_retry_by_reference() {
    let client = Client::new(quota(100).into());
    thread::scope(|scope| {
        for _ in 0..8 {
            scope.spawn(|| {
                let ended = client.retrying.call(|| fails(ErrorKind::TimedOut));
                assert!(matches!(ended, Err(RetryError::ScheduleDone(_))));
                assert!(matches!(client.retrying.call(|| fails(ErrorKind::NotFound)), Err(RetryError::NotRetried(_))));
                assert!(matches!(client.plain.call(|| fails(ErrorKind::NotFound)), Err(RetryError::ScheduleDone(_))));
            });
        }
    });
    assert_eq!(client.heard.load(Ordering::Relaxed), 16);
}

#[test]
fn a_kept_retry_counts_each_call_on_what_it_draws_on() {
    let (one, two) = (quota(3), quota(1).counting_successes().returning_tickets());
    // the other one has a ticket for the second call, and none for the third
    for (quota, expected) in [(&one, (Some(2), 3)), (&two, (None, 1))] {
        let client = Client::new(quota.clone().into());
        assert!(client.retrying.call(|| Ok(())).is_ok());
        assert!(client.plain.clone().call(|| fails(ErrorKind::TimedOut)).is_err());
        let mut runs = 0;
        let answer = client.retrying.call(|| {
            runs += 1;
            if runs == 2 {
                Ok(runs)
            } else {
                Err(Error::from(ErrorKind::TimedOut))
            }
        });
        assert_eq!((answer.ok(), quota.seen().asked), expected);
    }
    assert_eq!((one.granted(), two.granted()), (3, 1));
}

#[test]
fn a_budget_of_any_kind_is_chosen_when_the_program_runs() {
    let retries = |budget: AnyLimit| {
        let mut runs = 0;
        let count = || {
            runs += 1;
            Err::<(), _>(())
        };
        let _ = count.retry(&policy(r#"{"recurs":5}"#)).limit(&budget).into_owned().run();
        runs - 1
    };
    assert_eq!(retries(AnyLimit::default()), 5);
    assert_eq!(retries(Unlimited.into()), 5);
    assert_eq!(retries(None::<Budget>.into()), 5);
    assert_eq!(retries(Budget::new(3).unwrap().into()), 3);
    assert_eq!(retries(Some(quota(2)).into()), 2);
    #[cfg(all(unix, feature = "leased"))]
    {
        let folder = std::env::temp_dir().join(format!("hikebox-any-{}", std::process::id()));
        let _ = std::fs::remove_dir_all(&folder);
        assert_eq!(retries(hikebox::Leased::new(&folder, "b", 4).unwrap().into()), 4);
        let quota = hikebox::LeasedQuota::new(&folder, "q", 1, 0.0, Duration::from_secs(1_000_000)).unwrap();
        assert_eq!(retries(quota.into()), 1);
        std::fs::remove_dir_all(&folder).unwrap();
    }
}

#[test]
fn a_repeat_is_kept_too() {
    struct Poller {
        repeating: Repeating<'static, u64>,
    }
    let policy = policy(r#"{"recurs":2}"#);
    let poller = Poller { repeating: Repeating::new(&policy).into_owned() };
    drop(policy);
    assert_eq!(poller.repeating.call(|| Ok::<_, ()>(5)), Ok(5));
}

#[cfg(feature = "tokio")]
mod of_futures {
    use super::*;
    use hikebox::Retryable;

    async fn times_out() -> Result<u32, Error> {
        tokio::task::yield_now().await;
        Err(Error::from(ErrorKind::TimedOut))
    }

    #[tokio::test]
    async fn a_future_that_owns_all_is_spawned() {
        let budget = Budget::new(100).unwrap();
        let task = {
            let policy = policy(r#"{"recurs":2}"#);
            times_out.retry(&policy).limit(&budget).notify(|_, _| ()).into_owned().run()
        };
        let ended = tokio::spawn(task).await.unwrap();
        assert!(matches!(ended, Err(RetryError::ScheduleDone(_))));
        let client = Client::new(budget.clone().into());
        let tasks: Vec<_> = (0..4)
            .map(|_| {
                let client = client.clone();
                tokio::spawn(async move { client.retrying.call_async(times_out).await })
            })
            .collect();
        for task in tasks {
            assert!(matches!(task.await.unwrap(), Err(RetryError::ScheduleDone(_))));
        }
        assert_eq!((client.heard.load(Ordering::Relaxed), budget.granted()), (8, 10));
    }

    #[cfg(hikebox_into_future)]
    #[tokio::test]
    async fn a_retry_of_a_future_is_awaited() {
        let (policy, budget) = (policy(r#"{"recurs":2}"#), Budget::new(100).unwrap());
        let ended = times_out.retry(&policy).limit(&budget).await;
        assert!(matches!(ended, Err(RetryError::ScheduleDone(_))));
        let ended = times_out.retry(&policy).when(|error| error.kind() == ErrorKind::NotFound).await;
        assert!(matches!(ended, Err(RetryError::NotRetried(_))));
        assert_eq!(budget.granted(), 2);
    }
}
