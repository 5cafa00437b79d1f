//! Retries of async closures.

use hikebox::{retry_async, retry_async_mut, Policy, RetryError, Retryable, Retrying, Unlimited};
use std::time::Duration;

fn policy() -> Policy {
    r#"{"meet":[{"recurs":3},{"spaced":100}]}"#.parse().unwrap()
}

#[tokio::test(start_paused = true)]
async fn an_async_closure_changes_what_it_borrows_across_a_wait() {
    let (mut log, mut client) = (Vec::new(), String::from("client"));
    let value = retry_async_mut(&policy(), &Unlimited, async || {
        client.push('!');
        tokio::time::sleep(Duration::from_millis(1)).await;
        log.push(client.len());
        if log.len() < 3 {
            Err("not yet")
        } else {
            Ok(client.clone())
        }
    })
    .await;
    assert_eq!(value.as_deref(), Ok("client!!!"));
    assert_eq!(log, [7, 8, 9]);
}

#[tokio::test(start_paused = true)]
async fn an_async_closure_is_retried_by_a_method_of_its_own_and_as_often_as_one_likes() {
    let mut calls = 0;
    let policy = policy();
    let result = (async || {
        calls += 1;
        Err::<(), _>(calls)
    })
    .retry(&policy)
    .when(|calls| *calls < 3)
    .run_mut()
    .await;
    assert_eq!(result, Err(RetryError::NotRetried(3)));

    let retrying = Retrying::new(&policy, &Unlimited);
    for _ in 0..2 {
        assert_eq!(retrying.call_async(async || Err::<(), _>("no")).await, Err(RetryError::ScheduleDone("no")));
    }
}

#[test]
fn a_retry_of_async_closures_is_sent_to_another_thread() {
    fn sends<T: Send + 'static>(_: T) {}
    sends(async {
        let (policy, client) = (policy(), String::from("client"));
        // one that changes nothing may borrow
        let _ = retry_async(&policy, &Unlimited, async || Err::<(), _>(client.len())).await;
        let mut owned = Vec::new();
        let _ = retry_async_mut(&policy, &Unlimited, async move || {
            owned.push(1);
            tokio::time::sleep(Duration::from_millis(1)).await;
            Err::<(), _>(owned.len())
        })
        .await;
    });
}
