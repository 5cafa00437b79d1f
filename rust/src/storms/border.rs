//! The border at which a storm stops recovering.

use crate::engine::ON_QUOTA;
use crate::policy::{Policy, PolicyFault};
use crate::storms::report::StormReport;
use crate::storms::storm::{Storm, StormError};

/// What [`Storm::find`] looks for.
#[derive(Clone, Copy, Debug, PartialEq, Eq, Hash)]
#[non_exhaustive]
pub enum Goal {
    /// The greatest share of a quota, from 0 to 10,000 thousandths of a retry for each request. The quota has the
    /// reserve and the window of the storm's, or 10 and a second where it has none.
    Quota,
    /// The most retries of a request of the first population, from 0 to 64.
    Retries,
    /// The least patience of the clients without a patience of their own, from 1 to 60,000 milliseconds.
    Patience,
}

/// A border that was looked for: with `value` the peer recovers, and with the next one it does not, unless `value` is
/// the end of the range.
#[derive(Clone, Debug, PartialEq, Eq)]
#[non_exhaustive]
pub struct Found {
    /// What was looked for.
    pub goal: Goal,
    /// The last value with which the peer recovers, in the unit of the goal: the end of the range if it recovers at
    /// both ends, so that no border was found. `None` if it does not even recover with the mildest value.
    pub value: Option<u64>,
    /// The values that were tried, in their order, and what the storm was with each.
    pub tried: Vec<(u64, StormReport)>,
}

impl Storm {
    /// The border up to which the peer of this storm recovers before its requests end, by bisection. So it depends on
    /// the storm's seconds.
    ///
    /// ```
    /// use hikebox::{Goal, Policy, Schedule, Storm};
    /// use std::time::Duration;
    ///
    /// let policy = Policy::new(&(Schedule::recurs(8) & Schedule::spaced(Duration::from_millis(100))))?;
    /// assert_eq!(Storm::new(&policy).find(Goal::Retries)?.value, Some(6));
    /// # Ok::<(), Box<dyn std::error::Error>>(())
    /// ```
    ///
    /// # Errors
    ///
    /// [`StormError::NothingToRecoverFrom`] of a storm with no outage, no brown-out and no surge,
    /// [`StormError::PolicyTooLarge`], or the first parameter that is out of its range.
    pub fn find(&self, goal: Goal) -> Result<Found, StormError> {
        if self.well_from().is_none() {
            return Err(StormError::NothingToRecoverFrom);
        }
        let mut tried = Vec::new();
        let mut recovers = |value: u64| {
            let report = goal.put(self, value)?.play()?;
            let has_recovered = report.totals.recovered.is_some() && !report.totals.cut;
            tried.push((value, report));
            Ok(has_recovered)
        };
        let value = border(goal, &mut recovers)?;
        Ok(Found { goal, value, tried })
    }
}

/// The last value from the good end on with which the peer recovers.
fn border(goal: Goal, recovers: &mut impl FnMut(u64) -> Result<bool, StormError>) -> Result<Option<u64>, StormError> {
    let (mut good, mut bad) = goal.ends();
    if !recovers(good)? {
        return Ok(None);
    }
    if recovers(bad)? {
        return Ok(Some(bad));
    }
    while good.abs_diff(bad) > 1 {
        let middle = (good + bad) / 2;
        if recovers(middle)? {
            good = middle;
        } else {
            bad = middle;
        }
    }
    Ok(Some(good))
}

impl Goal {
    /// The value with which the peer recovers best, and the one at the other end.
    fn ends(self) -> (u64, u64) {
        match self {
            Self::Quota => (0, 10_000),
            Self::Retries => (0, 64),
            Self::Patience => (60_000, 1),
        }
    }

    /// The storm with this value.
    fn put(self, storm: &Storm, value: u64) -> Result<Storm, StormError> {
        let mut storm = storm.clone();
        match self {
            Self::Quota => {
                if storm.parameters.draws_on != ON_QUOTA {
                    (storm.parameters.draws_on, storm.parameters.reserve, storm.parameters.period) =
                        (ON_QUOTA, 10, 1000);
                }
                storm.parameters.share = value;
            }
            Self::Retries => {
                let json = format!("{{\"meet\":[{},{{\"recurs\":{value}}}]}}", storm.policy.as_json());
                storm.policy = Policy::from_json(&json).map_err(|error| match error.fault() {
                    PolicyFault::NoMemory => StormError::NoMemory,
                    _ => StormError::PolicyTooLarge,
                })?;
            }
            Self::Patience => storm.parameters.patience = value,
        }
        Ok(storm)
    }
}
