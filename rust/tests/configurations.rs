//! Policies and quotas in the files that serde reads.
#![cfg(feature = "serde")]

mod common;

use common::fails;
use hikebox::{retry, Policy, Quota};
use serde_json::{from_str, json, to_string};
use std::time::Duration;

#[test]
fn a_policy_is_the_tree_that_its_json_spells() {
    let text = r#"[{"meet": [ {"recurs": 3}, {"spaced": 4611686018427387903} ]}, 7]"#;
    let (policy, at): (Policy, u8) = from_str(text).unwrap();
    assert_eq!(policy.as_json(), r#"{"meet":[{"recurs":3},{"spaced":4611686018427387903}]}"#);
    assert_eq!((policy.nodes(), at), (3, 7));
    assert_eq!(to_string(&policy).unwrap(), policy.as_json());
    assert_eq!(serde_json::from_value::<Policy>(json!("forever")).unwrap().as_json(), r#""forever""#);
}

#[test]
fn a_tree_that_is_no_policy_is_refused_with_its_fault() {
    let refused = |text: &str| from_str::<Policy>(text).unwrap_err().to_string();
    assert!(refused(r#"{"cap":[5,{"recur":3}]}"#)
        .starts_with(r#"not a policy: cap[1]: no node is called "recur"; did you mean "recurs"?"#));
    assert!(refused(r#"{"fixed":0}"#).starts_with(r#"number out of range: expected {"fixed""#));
}

#[test]
fn a_quota_is_read_of_a_configuration() {
    let text = r#"{"reserve":3,"share":0.5,"per":3600,"counts_successes":true,"returns_tickets":true}"#;
    let quota: Quota = serde_json::from_str(text).unwrap();
    quota.deposit_of(4);
    assert_eq!((quota.seen().left, quota.seen().next), (5, Duration::from_secs(3600)));
    let policy: Policy = r#"{"recurs":3}"#.parse().unwrap();
    let answer = retry(&policy, &quota, fails(1));
    // the call counted where it succeeded, and its ticket came back
    assert_eq!((answer, quota.seen().asked, quota.granted()), (Ok(1), 5, 0));
    let carrying: Quota = serde_json::from_str(r#"{"reserve":0,"share":1,"per":0.1,"carries":true}"#).unwrap();
    carrying.deposit_of_at(Duration::from_millis(50), 4);
    assert_eq!(carrying.seen_at(Duration::from_millis(150)).left, 4);
}

#[test]
fn what_is_no_quota_is_told() {
    let refused = |text: &str| serde_json::from_str::<Quota>(text).unwrap_err().to_string();
    let tells = |text: &str, told: &str| assert!(refused(text).starts_with(told), "{}", refused(text));
    tells(r#"{"reserve":3,"share":0.5}"#, "missing field `per`");
    tells(r#"{"reserv":3,"share":0.5,"per":10}"#, "unknown field `reserv`, expected one of `reserve`, `share`, `per`");
    tells(r#"{"reserve":-3,"share":0.5,"per":10}"#, "reserve: expected a whole number from 0 on, got -3");
    tells(r#"{"reserve":3,"share":"a","per":10}"#, "share: expected a number, got \"a\"");
    tells(r#"{"reserve":3,"share":0.5,"per":-1}"#, "per: expected a number of seconds, got -1");
    tells(r#"{"reserve":3,"share":0.5,"per":10,"carries":1}"#, "carries: expected true or false, got 1");
    tells(r#"{"reserve":3,"share":2000.0,"per":10}"#, "expected a share of 0, or from 0.001 to 1000");
    tells(
        r#"{"reserve":3,"share":0.5,"per":0.05}"#,
        "expected a window of at least 100 milliseconds, got a shorter one",
    );
    tells("[3]", "invalid type: sequence, expected a map");
}
