//! What a storm was.

use crate::clock::whole_millis;
use crate::engine::{self, ON_BREAKER, ON_BUCKET, ON_IN_FLIGHT, ON_THROTTLE};
use std::fmt;
use std::time::Duration;

/// What a storm was, window by window and in all.
#[derive(Clone, Debug, PartialEq, Eq)]
#[non_exhaustive]
pub struct StormReport {
    /// The windows, from the first moment to that of the last event.
    pub windows: Vec<StormWindow>,
    /// The totals.
    pub totals: StormTotals,
    /// The reports on the requests of each population, first population first; empty where there is only one.
    pub populations: Vec<PopulationReport>,
    /// What the storm draws on.
    pub(super) draws_on: u64,
    /// How many moments were given for its requests; 0 where they come by a rate.
    pub(super) arrivals: usize,
}

/// What a storm was to the clients of one [`Population`](crate::Population): their requests and calls alone.
#[derive(Clone, Debug, PartialEq, Eq)]
#[non_exhaustive]
pub struct PopulationReport {
    /// Its share of the requests, in per cent.
    pub share: u64,
    /// The windows, from the first moment to that of its own last event. None tells of calls that wait, since these are
    /// of all clients.
    pub windows: Vec<StormWindow>,
    /// The totals.
    pub totals: StormTotals,
}

/// A window of a storm. Calls count in the window in which they begin, or end.
#[derive(Clone, Copy, Debug, PartialEq, Eq, Hash)]
#[non_exhaustive]
pub struct StormWindow {
    /// Its first moment, since the first request.
    pub from: Duration,
    /// The requests that began in it.
    pub requests: u64,
    /// The number of these that succeeded in the end.
    pub won: u64,
    /// The retries that began in it.
    pub retries: u64,
    /// The calls that succeeded in it.
    pub succeeded: u64,
    /// The calls that the peer refused, in its outage.
    pub refused: u64,
    /// The calls that the peer shed, since its queue was full.
    pub shed: u64,
    /// The calls that their clients gave up.
    pub late: u64,
    /// The calls of work that wait at the peer at its end.
    pub waiting: u64,
}

/// The totals of a storm. `requests` is the sum of `won`, `lost`, `denied` and `open`.
#[derive(Clone, Copy, Debug, PartialEq, Eq, Hash)]
#[non_exhaustive]
pub struct StormTotals {
    /// The requests that began.
    pub requests: u64,
    /// Those whose last call succeeded.
    pub won: u64,
    /// Those whose last call failed, and whose policy was done.
    pub lost: u64,
    /// Those for which the policy went on, but there was no ticket; and those that a limit refused before their first
    /// call.
    pub denied: u64,
    /// Those that had not ended when the storm did.
    pub open: u64,
    /// The first calls and retries that began. A request that a limit refused before its first call makes none.
    pub calls: u64,
    /// Calls for each request, in hundredths, to the nearest.
    pub hundredths: u64,
    /// The most calls that began in a window; requests that were denied their first call count as calls here.
    pub most_calls: u64,
    /// The first moment of the first such window.
    pub most_from: Duration,
    /// The tickets that were given.
    pub tickets: u64,
    /// The time within which half of the requests that succeeded did so; `None` if none succeeded.
    pub p50: Option<Duration>,
    /// The time within which 99 in 100 of them did so.
    pub p99: Option<Duration>,
    /// The time that the slowest of them took.
    pub slowest: Option<Duration>,
    /// The first moment of the first window after outage and brown-out from which on 99 in 100 of the requests of each
    /// window succeeded, if there is one.
    pub recovered: Option<Duration>,
    /// Whether the storm stopped because one more call was to begin than [`Storm::calls`](crate::Storm::calls) allows.
    pub cut: bool,
}

impl StormWindow {
    pub(super) fn of(found: engine::Window) -> Self {
        let engine::Window { from, requests, won, retries, succeeded, refused, shed, late, waiting } = found;
        let from = Duration::from_millis(from);
        Self { from, requests, won, retries, succeeded, refused, shed, late, waiting }
    }

    /// The numbers of a line of `zsched storm --csv`.
    fn numbers(&self) -> [u64; 9] {
        let Self { requests, won, retries, succeeded, refused, shed, late, waiting, .. } = *self;
        [whole_millis(self.from), requests, won, retries, succeeded, refused, shed, late, waiting]
    }
}

impl StormTotals {
    pub(super) fn of(found: &engine::Totals) -> Self {
        let took = |millis| (found.won > 0).then_some(Duration::from_millis(millis));
        Self {
            requests: found.requests,
            won: found.won,
            lost: found.lost,
            denied: found.denied,
            open: found.open,
            calls: found.calls,
            hundredths: found.hundredths,
            most_calls: found.most_calls,
            most_from: Duration::from_millis(found.most_from),
            tickets: found.tickets,
            p50: took(found.p50),
            p99: took(found.p99),
            slowest: took(found.slowest),
            recovered: found.recovers.then_some(Duration::from_millis(found.recovered)),
            cut: found.cut,
        }
    }

    /// Each total by its name in JSON, as JSON writes it.
    pub(super) fn in_json(&self) -> [(&'static str, String); 15] {
        let time = |time: Option<Duration>| time.map_or("null".to_owned(), |time| whole_millis(time).to_string());
        [
            ("requests", self.requests.to_string()),
            ("won", self.won.to_string()),
            ("lost", self.lost.to_string()),
            ("denied", self.denied.to_string()),
            ("open", self.open.to_string()),
            ("calls", self.calls.to_string()),
            ("hundredths", self.hundredths.to_string()),
            ("most_calls", self.most_calls.to_string()),
            ("most_from", whole_millis(self.most_from).to_string()),
            ("tickets", self.tickets.to_string()),
            ("p50", time(self.p50)),
            ("p99", time(self.p99)),
            ("slowest", time(self.slowest)),
            ("recovered", time(self.recovered)),
            ("cut", self.cut.to_string()),
        ]
    }

    /// The same as an object.
    pub(super) fn to_json(self) -> String {
        let members: Vec<String> = self.in_json().iter().map(|(name, value)| format!("\"{name}\":{value}")).collect();
        format!("{{{}}}", members.join(","))
    }

    /// How the requests ended, in words.
    fn endings(&self, draws_on: u64) -> String {
        let Self { requests, won, lost, denied, open, .. } = self;
        let is_limit = matches!(draws_on, ON_BUCKET | ON_IN_FLIGHT | ON_BREAKER | ON_THROTTLE);
        let denied = format!("{denied} denied{}", if is_limit { "" } else { " a retry" });
        format!("{requests} requests: {won} won, {lost} lost, {denied}, {open} left open")
    }

    /// Calls for each request, to the nearest hundredth.
    #[must_use]
    pub fn calls_per_request(&self) -> f64 {
        self.hundredths as f64 / 100.0
    }
}

impl StormReport {
    /// The windows as CSV with a line of names, as `zsched storm --csv` prints them.
    #[must_use]
    pub fn to_csv(&self) -> String {
        csv(&self.windows)
    }

    /// The windows and the totals as JSON on one line, as `zsched storm --json` prints it, and where there are several
    /// populations those of each.
    #[must_use]
    pub fn to_json(&self) -> String {
        let mut members = members(&self.windows, self.totals);
        let populations: Vec<String> = self.populations.iter().map(PopulationReport::to_json).collect();
        if !populations.is_empty() {
            members += &format!(",\"populations\":[{}]", populations.join(","));
        }
        if self.arrivals > 0 {
            members += &format!(",\"arrivals\":{}", self.arrivals);
        }
        format!("{{{members}}}")
    }
}

impl PopulationReport {
    /// The windows as CSV with a line of names, as [`StormReport::to_csv`] has those of all requests.
    #[must_use]
    pub fn to_csv(&self) -> String {
        csv(&self.windows)
    }

    /// The share, the windows and the totals as JSON on one line, as [`StormReport::to_json`] has them.
    #[must_use]
    pub fn to_json(&self) -> String {
        format!("{{\"share\":{},{}}}", self.share, members(&self.windows, self.totals))
    }
}

/// Windows as CSV with a line of names.
fn csv(windows: &[StormWindow]) -> String {
    let mut text = "from,requests,won,retries,succeeded,refused,shed,late,waiting\n".to_owned();
    for window in windows {
        text += &listed(&window.numbers());
        text.push('\n');
    }
    text
}

/// Windows and totals as members of an object.
fn members(windows: &[StormWindow], totals: StormTotals) -> String {
    let window = |window: &StormWindow| format!("[{}]", listed(&window.numbers()));
    let windows: Vec<String> = windows.iter().map(window).collect();
    format!("\"windows\":[{}],\"totals\":{}", windows.join(","), totals.to_json())
}

fn listed(numbers: &[u64]) -> String {
    let texts: Vec<String> = numbers.iter().map(ToString::to_string).collect();
    texts.join(",")
}

/// The totals, in words, and how the requests of each population ended.
impl fmt::Display for StormReport {
    fn fmt(&self, f: &mut fmt::Formatter<'_>) -> fmt::Result {
        let (from, most_calls) = (self.totals.most_from, self.totals.most_calls);
        let denies_first_calls = matches!(self.draws_on, ON_BREAKER | ON_THROTTLE);
        let most = if denies_first_calls { "the most requests and retries" } else { "the most" };
        writeln!(f, "{}", self.totals.endings(self.draws_on))?;
        write!(f, "{} calls, {:.2} for each request; ", self.totals.calls, self.totals.calls_per_request())?;
        writeln!(f, "{most} in a window {most_calls}, from {from:?} on")?;
        match self.totals.recovered {
            Some(moment) => write!(f, "recovered from {moment:?} on")?,
            None => f.write_str("never recovered")?,
        }
        if self.totals.cut {
            f.write_str("\ncut before one call more")?;
        }
        let endings = |own: &PopulationReport| own.totals.endings(self.draws_on);
        self.populations.iter().try_for_each(|own| write!(f, "\n{} %: {}", own.share, endings(own)))
    }
}
