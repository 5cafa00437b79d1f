//! What docs/FROM-TOWER.md says of the budget of tower 0.4, beside a quota.

use hikebox::Quota;
use std::time::Duration;
use tower::retry::budget::Budget;

const TTL: Duration = Duration::from_secs(10);

/// A share of 0.4 counts as 0.5 for tower, and as 0.4 here.
#[test]
fn a_share_counts_as_it_is() {
    let budget = Budget::new(TTL, 0, 0.4);
    let mut pass = Quota::new(0, 0.4, TTL).unwrap().pass().unwrap();
    for _ in 0..10 {
        budget.deposit();
        pass.deposit();
    }
    assert_eq!((0..10).filter(|_| budget.withdraw().is_ok()).count(), 5);
    assert_eq!((0..10).filter(|_| pass.draw().is_ok()).count(), 4);
}

/// A request counts for a time with tower, to the end of its window in a quota, and to that of the next if it carries.
#[cfg(feature = "tokio")]
#[tokio::test(start_paused = true)]
async fn a_request_counts_so_long() {
    let budget = Budget::new(TTL, 0, 0.5);
    let mut plain = Quota::new(0, 0.5, TTL).unwrap().pass().unwrap();
    let mut carrying = Quota::carrying(0, 0.5, TTL).unwrap().pass().unwrap();
    tokio::time::advance(Duration::from_secs(9)).await;
    for _ in 0..4 {
        budget.deposit();
        plain.deposit();
        carrying.deposit();
    }
    // Two retries. At 14 s one of them is made, and at 21 s nothing is left of the other.
    tokio::time::advance(Duration::from_secs(5)).await;
    assert!(budget.withdraw().is_ok() && carrying.draw().is_ok() && plain.draw().is_err());
    tokio::time::advance(Duration::from_secs(7)).await;
    assert!(budget.withdraw().is_err() && carrying.draw().is_err() && plain.draw().is_err());
}
