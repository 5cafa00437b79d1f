//! The parameters along which storms are played, and what is measured of each.

use crate::clock::whole_millis;
use crate::engine::{self, MAX_TICKETS, ON_BUDGET, ON_QUOTA};
use crate::limits::error::LimitError;
use crate::limits::quota::QuotaTerms;
use crate::storms::population::MAX_SHARES;
use crate::storms::report::StormReport;
use crate::storms::storm::{within, Storm, StormError};
use std::time::Duration;

/// The most values of a sweep.
const MAX_VALUES: u64 = 64;

/// A parameter of a [`Storm`] and its values, at most 64, for a [`Sweep`](crate::Sweep).
#[derive(Clone, Debug)]
#[must_use]
pub struct Axis {
    pub(super) name: &'static str,
    /// The values in the engine's units.
    pub(super) values: Vec<u64>,
    place: Place,
    fault: Option<LimitError>,
}

/// Puts a value among the parameters of a storm.
type Put = fn(engine::Storm, u64) -> engine::Storm;

/// Where a storm has the parameter.
#[derive(Clone, Copy, Debug)]
enum Place {
    /// Among those of each storm.
    Each(Put),
    /// Among those of the limit, if the engine's retries draw on this.
    Limit(u64, Put),
    /// In the population that was added first, if there is any: its share.
    Beside,
}

impl Axis {
    /// Requests a second, as by [`Storm::rate`].
    pub fn rate(values: impl IntoIterator<Item = u64>) -> Self {
        Self::of("rate", values, |storm, value| engine::Storm { rate: value, ..storm })
    }

    /// Clients that come together: so many requests a second, all at one moment.
    pub fn clients(values: impl IntoIterator<Item = u64>) -> Self {
        Self::of("clients", values, |storm, value| engine::Storm { rate: value, together: value, ..storm })
    }

    /// Requests that come at one moment, as by [`Storm::together`].
    pub fn together(values: impl IntoIterator<Item = u64>) -> Self {
        Self::of("together", values, |storm, value| engine::Storm { together: value, ..storm })
    }

    /// Seconds for which requests come, as by [`Storm::seconds`].
    pub fn seconds(values: impl IntoIterator<Item = u64>) -> Self {
        Self::of("seconds", values, |storm, value| engine::Storm { seconds: value, ..storm })
    }

    /// Calls that the peer can do in a second, as by [`Storm::capacity`].
    pub fn capacity(values: impl IntoIterator<Item = u64>) -> Self {
        Self::of("capacity", values, |storm, value| engine::Storm { capacity: value, ..storm })
    }

    /// Calls that may stand at the peer, as by [`Storm::queue`].
    pub fn queue(values: impl IntoIterator<Item = u64>) -> Self {
        Self::of("queue", values, |storm, value| engine::Storm { queue: value, ..storm })
    }

    /// After how long a client gives a call up, in whole milliseconds, as by [`Storm::patience`].
    pub fn patience(values: impl IntoIterator<Item = Duration>) -> Self {
        Self::of("patience", values.into_iter().map(whole_millis), |storm, value| engine::Storm {
            patience: value,
            ..storm
        })
    }

    /// How long the outage is, in whole milliseconds. It begins where the storm's does ([`Storm::outage`]).
    pub fn outage(values: impl IntoIterator<Item = Duration>) -> Self {
        let put = |storm: engine::Storm, value| {
            let outage_to = storm.outage_from.saturating_add(value);
            engine::Storm { outage_to, ..storm }
        };
        Self::of("outage", values.into_iter().map(whole_millis), put)
    }

    /// The share of the quota, for the storms that have one: 0.2 is a retry for every five requests. It is counted in
    /// thousandths.
    pub fn share(values: impl IntoIterator<Item = f64>) -> Self {
        let share_of = |share| Ok(QuotaTerms::new(0, share, Duration::from_secs(1))?.checked()?.share);
        let shares: Vec<Result<u64, LimitError>> = values.into_iter().map(share_of).collect();
        let fault = shares.iter().find_map(|share| share.err());
        let put = |storm, share| engine::Storm { share, ..storm };
        Self { fault, ..Self::of_limit("share", ON_QUOTA, shares.into_iter().flatten(), put) }
    }

    /// The reserve of the quota, for the storms that have one.
    pub fn reserve(values: impl IntoIterator<Item = u64>) -> Self {
        Self::of_limit("reserve", ON_QUOTA, values, |storm, value| engine::Storm { reserve: value, ..storm })
    }

    /// The tickets of the budget, for the storms that have one.
    pub fn budget(values: impl IntoIterator<Item = u64>) -> Self {
        Self::of_limit("budget", ON_BUDGET, values, |storm, value| engine::Storm { limit: value, ..storm })
    }

    /// The share of the requests, 1 to 99 per cent, of the [`Population`](crate::Population) that was added first by
    /// [`Storm::beside`], for the storms that have one. Those that were added later keep their shares, and the storm's
    /// first population has the requests that all of them leave.
    ///
    /// Beside a quota, 20 per cent of the requests may come from clients without one; with 21 the peer never recovers:
    ///
    /// ```
    /// use hikebox::{Axis, Measure, Policy, Population, Schedule, Storm, Sweep};
    /// use std::time::Duration;
    ///
    /// let back_off = Schedule::exponential(Duration::from_millis(100), 2).cap(Duration::from_secs(10));
    /// let policy = Policy::new(&(Schedule::recurs(8) & back_off.jittered(0.0..1.0)))?;
    /// let storm = Storm::new(&policy).quota(10, 0.1, Duration::from_secs(1)).beside(Population::new(10, &policy));
    /// let sweep = Sweep::along(Axis::beside([10, 20, 21])).line("a quota for the others", storm).play()?;
    /// assert_eq!(sweep.numbers(Measure::Recovery), [[Some(0.0), Some(0.0), Some(f64::INFINITY)]]);
    /// # Ok::<(), Box<dyn std::error::Error>>(())
    /// ```
    pub fn beside(values: impl IntoIterator<Item = u64>) -> Self {
        Self::at("beside", Place::Beside, values)
    }

    fn of(name: &'static str, values: impl IntoIterator<Item = u64>, put: Put) -> Self {
        Self::at(name, Place::Each(put), values)
    }

    fn of_limit(name: &'static str, limit: u64, values: impl IntoIterator<Item = u64>, put: Put) -> Self {
        Self::at(name, Place::Limit(limit, put), values)
    }

    fn at(name: &'static str, place: Place, values: impl IntoIterator<Item = u64>) -> Self {
        Self { name, values: values.into_iter().collect(), place, fault: None }
    }

    /// The axis, where its values are such as a sweep takes them.
    pub(super) fn checked(&self) -> Result<(), StormError> {
        if let Some(fault) = self.fault {
            return Err(StormError::Tickets(fault));
        }
        within("values", self.values.len() as u64, 1, MAX_VALUES)?;
        let all_within = |min, max| self.values.iter().try_for_each(|value| within(self.name, *value, min, max));
        match self.place {
            Place::Each(_) => Ok(()),
            Place::Limit(..) => all_within(0, MAX_TICKETS),
            Place::Beside => all_within(1, MAX_SHARES),
        }
    }

    /// Whether the parameter is one of this storm.
    pub(super) fn is_of(&self, storm: &Storm) -> bool {
        match self.place {
            Place::Each(_) => true,
            Place::Limit(limit, _) => storm.parameters.draws_on == limit,
            Place::Beside => !storm.others.is_empty(),
        }
    }

    /// Whether these storms may have the values: a rate is of those whose requests come by one.
    pub(super) fn fits<'a>(&self, mut storms: impl Iterator<Item = &'a Storm>) -> Result<(), StormError> {
        let is_of_rate = matches!(self.name, "rate" | "clients" | "together" | "seconds");
        if is_of_rate && storms.any(|storm| storm.arrivals.is_some()) {
            return Err(StormError::ByMoments { parameter: self.name });
        }
        Ok(())
    }

    /// The error of a sweep of which no storm has the parameter.
    pub(super) fn is_of_none(&self) -> StormError {
        match self.place {
            Place::Beside => StormError::NoPopulation { parameter: self.name },
            Place::Each(_) | Place::Limit(..) => StormError::NoLimit { parameter: self.name },
        }
    }

    /// The storm with this value.
    pub(super) fn put(&self, storm: &Storm, value: u64) -> Storm {
        let mut storm = storm.clone();
        if self.is_of(&storm) {
            match self.place {
                Place::Each(put) | Place::Limit(_, put) => storm.parameters = put(storm.parameters, value),
                Place::Beside => storm.others[0].share = value,
            }
        }
        storm
    }

    /// A value as the command line takes it: milliseconds for a time, and per cent for a share.
    pub(super) fn shown(&self, value: u64) -> String {
        match self.name {
            "share" => (value as f64 / 10.0).to_string(),
            _ => value.to_string(),
        }
    }
}

/// A number of a storm that a [`Sweep`](crate::Sweep) compares, of all its requests, whichever population's they are.
#[derive(Clone, Copy, Debug, PartialEq, Eq, Hash)]
#[non_exhaustive]
pub enum Measure {
    /// The requests that succeeded, in per cent.
    Succeeded,
    /// The calls for each request.
    Calls,
    /// The seconds from the end of outage and brown-out until the peer recovered; infinite where it did not, and none
    /// where no window begins after that end.
    Recovery,
    /// The time of the slowest success, in seconds.
    Slowest,
}

impl Measure {
    /// What it measures, with its unit.
    #[must_use]
    pub fn title(self) -> &'static str {
        match self {
            Self::Succeeded => "requests that succeeded, in %",
            Self::Calls => "calls for each request",
            Self::Recovery => "seconds to recovery",
            Self::Slowest => "slowest success, in seconds",
        }
    }

    /// The number in a table. A share is 0 or 100 only where it is that, and not by rounding.
    pub(super) fn shown(self, number: f64) -> String {
        match self {
            Self::Succeeded if number > 0.0 && number < 100.0 => format!("{:.2}", number.clamp(0.01, 99.99)),
            Self::Slowest => format!("{number:.3}"),
            _ => format!("{number:.2}"),
        }
    }

    /// The number, where the storm has one.
    pub(super) fn of(self, storm: &Storm, report: &StormReport) -> Option<f64> {
        let totals = &report.totals;
        match self {
            Self::Succeeded => (totals.requests > 0).then_some(100.0 * totals.won as f64 / totals.requests as f64),
            Self::Calls => Some(totals.calls_per_request()),
            Self::Recovery => storm.well_from().and_then(|over| match totals.recovered {
                // (where a surge does no harm, no window is bad from the first on)
                Some(recovered) => Some(whole_millis(recovered).saturating_sub(over) as f64 / 1000.0),
                // (if no window begins after the outage, a recovery would not show)
                None => (whole_millis(report.windows.last()?.from) >= over).then_some(f64::INFINITY),
            }),
            Self::Slowest => totals.slowest.map(|slowest| whole_millis(slowest) as f64 / 1000.0),
        }
    }
}
