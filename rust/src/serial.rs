//! Policies in what serde reads and writes, and quotas in what it reads.

use crate::limits::quota::Quota;
use crate::policy::Policy;
use serde::de::{Deserialize, Deserializer, Error};
use serde::ser::{Error as _, Serialize, Serializer};
use serde_json::{Map, Value};
use std::time::Duration;

/// A policy is written as the tree that its JSON spells: a configuration in JSON, TOML or YAML can contain it.
impl Serialize for Policy {
    fn serialize<S: Serializer>(&self, serializer: S) -> Result<S::Ok, S::Error> {
        let tree: Value = serde_json::from_str(self.as_json()).map_err(S::Error::custom)?;
        tree.serialize(serializer)
    }
}

/// A policy is read from the tree that its JSON spells, in a format that describes itself. A tree that is not a policy
/// is rejected with its first error, where that is, and a hint.
impl<'de> Deserialize<'de> for Policy {
    fn deserialize<D: Deserializer<'de>>(deserializer: D) -> Result<Self, D::Error> {
        Self::from_json(&Value::deserialize(deserializer)?.to_string()).map_err(D::Error::custom)
    }
}

/// The members of a quota in a configuration.
const MEMBERS: &[&str] = &["reserve", "share", "per", "carries", "counts_successes", "returns_tickets"];

/// A quota is read from an object with `reserve`, `share`, and `per` in seconds. `carries`, `counts_successes` and
/// `returns_tickets` are false if they are missing. Windows are counted from the moment at which the object is read.
impl<'de> Deserialize<'de> for Quota {
    fn deserialize<D: Deserializer<'de>>(deserializer: D) -> Result<Self, D::Error> {
        let members = Map::<String, Value>::deserialize(deserializer)?;
        if let Some(name) = members.keys().find(|name| !MEMBERS.contains(&name.as_str())) {
            return Err(D::Error::unknown_field(name, MEMBERS));
        }
        let reserve = number(&members, "reserve", "a whole number from 0 on", Value::as_u64)?;
        let share = number(&members, "share", "a number", Value::as_f64)?;
        let per = number(&members, "per", "a number of seconds", |value| {
            value.as_f64().filter(|per| (0.0..1e15).contains(per))
        })?;
        let per = Duration::from_millis((per * 1000.0).round() as u64);
        let made = if flag(&members, "carries")? { Self::carrying } else { Self::new };
        let mut quota = made(reserve, share, per).map_err(D::Error::custom)?;
        if flag(&members, "counts_successes")? {
            quota = quota.counting_successes();
        }
        if flag(&members, "returns_tickets")? {
            quota = quota.returning_tickets();
        }
        Ok(quota)
    }
}

/// The number that a member has.
fn number<T, E: Error>(
    members: &Map<String, Value>,
    name: &'static str,
    expected: &str,
    read: impl FnOnce(&Value) -> Option<T>,
) -> Result<T, E> {
    let value = members.get(name).ok_or_else(|| E::missing_field(name))?;
    read(value).ok_or_else(|| E::custom(format_args!("{name}: expected {expected}, got {value}")))
}

/// Whether a member that may be missing is true.
fn flag<E: Error>(members: &Map<String, Value>, name: &str) -> Result<bool, E> {
    match members.get(name) {
        None => Ok(false),
        Some(Value::Bool(flag)) => Ok(*flag),
        Some(value) => Err(E::custom(format_args!("{name}: expected true or false, got {value}"))),
    }
}
