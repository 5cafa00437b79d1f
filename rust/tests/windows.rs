//! Folders are refused on Windows, at each draw, and nothing is made there.
#![cfg(all(windows, feature = "leased"))]

#[macro_use]
mod common;

use common::Scratch;
use hikebox::{retry, Leased, LeasedQuota, Policy, RetryError, StoreError};
use std::io::ErrorKind;
use std::time::Duration;

const WHY: &str = "a folder of counts needs the file locks (flock) of Linux or macOS, which this system lacks";

fn is_refused(error: &StoreError) -> bool {
    let told = error.to_string();
    matches!(error, StoreError::Io(_, error) if error.kind() == ErrorKind::Unsupported) && told.ends_with(WHY)
}

#[test]
fn each_draw_on_a_folder_is_refused() {
    let folder = Scratch::new("refused");
    let budget = Leased::new(&folder.0, "b", 9).unwrap();
    let by_windows = Leased::new(&folder.0, "b", 9).unwrap().in_each(Duration::from_secs(60));
    let quota = LeasedQuota::new(&folder.0, "q", 9, 0.5, Duration::from_secs(60)).unwrap();
    for _ in 0..3 {
        for drawn in [budget.draw(), by_windows.draw(), quota.draw()] {
            assert_store_fails!(drawn, error if is_refused(error));
        }
        assert!(is_refused(&quota.seen().unwrap_err()));
    }
    assert!(!folder.0.exists());
}

#[test]
fn a_retry_on_a_folder_ends_with_the_first_failure() {
    let (folder, mut runs) = (Scratch::new("retried"), 0);
    let budget = Leased::new(&folder.0, "b", 9).unwrap();
    let policy: Policy = r#"{"recurs":5}"#.parse().unwrap();
    let ended = retry(&policy, &budget, || {
        runs += 1;
        Err::<(), _>(runs)
    });
    match ended.unwrap_err() {
        RetryError::StoreFailed(failure, 1) => assert!(failure.get().downcast_ref().map_or(false, is_refused)),
        other => panic!("{other}"),
    }
}
