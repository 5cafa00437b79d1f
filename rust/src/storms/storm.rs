//! Storms: many requests under one policy, on a peer that fails for a while.

use crate::clock::whole_millis;
use crate::engine::{self, Handle, PassKind, Phase, Status, ON_BUDGET, ON_NOTHING, ON_QUOTA};
use crate::limits::error::LimitError;
use crate::limits::quota::QuotaTerms;
use crate::limits::terms::Terms;
use crate::policy::Policy;
use crate::storms::population::{self, Population};
use crate::storms::report::{PopulationReport, StormReport, StormTotals, StormWindow};
use std::error::Error;
use std::fmt;
use std::mem;
use std::ops::Range;
use std::sync::Arc;
use std::time::Duration;

pub(super) const HOUR: u64 = 3_600_000;
const MAX_REQUESTS: u64 = 1_048_576;
const MAX_WINDOWS: u64 = 65_536;
/// The most spans with a rate of their own; each may have a phase before it.
const MAX_SPANS: u64 = 8;

/// A simulation of many requests under one policy, on a peer that fails for a while: what a policy does to a service
/// when thousands of calls fail together. No call is made and no time passes. Two storms with the same parameters are
/// equal.
///
/// By default, 800 requests a second come for a minute, to a peer that does 1,000 calls a second and is down from 10 to
/// 20 s. Under eight retries with full jitter that peer never recovers. Under a quota of a tenth it recovers at once:
///
/// ```
/// use hikebox::{Policy, Schedule, Storm};
/// use std::time::Duration;
///
/// let back_off = Schedule::exponential(Duration::from_millis(100), 2).cap(Duration::from_secs(10));
/// let policy = Policy::new(&(Schedule::recurs(8) & back_off.jittered(0.0..1.0)))?;
/// let totals = Storm::new(&policy).play()?.totals;
/// assert_eq!((totals.calls_per_request(), totals.recovered), (7.62, None));
/// let totals = Storm::new(&policy).quota(10, 0.1, Duration::from_secs(1)).play()?.totals;
/// assert_eq!((totals.calls_per_request(), totals.recovered), (1.02, Some(Duration::from_secs(20))));
/// # Ok::<(), Box<dyn std::error::Error>>(())
/// ```
///
/// Times are whole milliseconds; a duration is rounded down.
#[derive(Clone, Debug)]
#[must_use]
pub struct Storm {
    pub(super) policy: Policy,
    pub(super) parameters: engine::Storm,
    until: Option<u64>,
    /// How many replicas are down in the outage; `None` for all.
    down: Option<u64>,
    /// The spans with a rate of their own.
    rates: Vec<(Range<u64>, u64)>,
    /// The moments of the requests, where these come by none of the rates.
    pub(super) arrivals: Option<Arc<[u64]>>,
    /// The populations beside the first one.
    pub(super) others: Vec<Population>,
    /// Whether there is a brown-out.
    is_slow: bool,
    /// Why what the retries draw on is no budget, or no quota.
    fault: Option<LimitError>,
}

/// Why a storm, a sweep or a border is not played. Its text is that of the error in it, so it has no source.
#[derive(Clone, Copy, Debug, PartialEq, Eq, Hash)]
#[non_exhaustive]
pub enum StormError {
    /// A parameter is outside its range; times are in milliseconds.
    OutOfRange {
        /// The builder that was called with it.
        parameter: &'static str,
        /// The least that it may be.
        min: u64,
        /// The most that it may be.
        max: u64,
        /// What it is.
        got: u64,
    },
    /// More than 1,048,576 requests come.
    TooManyRequests,
    /// An outage or a brown-out ends before it begins, or a span with a rate of its own has no length.
    EndsEarly {
        /// The builder that was called with it.
        parameter: &'static str,
    },
    /// A span with a rate of its own begins before the one before it ends.
    Overlap {
        /// The builder that was called with it.
        parameter: &'static str,
    },
    /// The report would have more than 65,537 windows.
    TooManyWindows,
    /// The populations beside the first one leave it none of a hundred requests.
    SharesTooLarge {
        /// Their shares together, in per cent.
        got: u64,
    },
    /// The limit of the budget, or a term of the quota, is out of range.
    Tickets(LimitError),
    /// A sweep has no line.
    NoLine,
    /// A sweep is along a limit that none of its storms has.
    NoLimit {
        /// The parameter of the sweep.
        parameter: &'static str,
    },
    /// A sweep is along the share of a population beside the first one, which none of its storms has.
    NoPopulation {
        /// The parameter of the sweep.
        parameter: &'static str,
    },
    /// A border is looked for in a storm with no outage, no brown-out and no surge.
    NothingToRecoverFrom,
    /// A sweep is along a parameter of the rate, and the requests of a storm come at moments of their own.
    ByMoments {
        /// The parameter of the sweep.
        parameter: &'static str,
    },
    /// The policy with a bound on its retries has more than 256 nodes, or is deeper than 32.
    PolicyTooLarge,
    /// Memory ran out.
    NoMemory,
}

impl Storm {
    /// A storm with an outage: 800 requests a second for a minute, to a peer that does 1,000 calls a second and refuses
    /// all of them from 10 to 20 s.
    pub fn new(policy: &Policy) -> Self {
        let parameters = engine::Storm {
            size: mem::size_of::<engine::Storm>(),
            rate: 800,
            together: 1,
            seconds: 60,
            capacity: 1000,
            patience: 500,
            queue: 5000,
            outage_from: 10_000,
            outage_to: 20_000,
            window: 1000,
            calls: 16_777_216,
            draws_on: ON_NOTHING,
            period: 1,
            most: engine::NO_MOST.into(),
            replicas: 1,
            ..engine::Storm::zeroed()
        };
        Self {
            policy: policy.clone(),
            parameters,
            until: None,
            down: None,
            rates: Vec::new(),
            arrivals: None,
            others: Vec::new(),
            is_slow: false,
            fault: None,
        }
    }

    /// A herd: 10,000 clients lose one connection at one moment, and the peer takes 500 at a time.
    pub fn herd(policy: &Policy) -> Self {
        let herd = Self::new(policy).rate(10_000).together(10_000).seconds(1).queue(500).no_outage();
        herd.patience(Duration::from_secs(1))
    }

    /// A storm with a brown-out: as [`Storm::new`], but from 10 to 20 s the peer works at half its capacity, and
    /// refuses nothing.
    pub fn brown_out(policy: &Policy) -> Self {
        Self::new(policy).no_outage().slow(Duration::from_secs(10)..Duration::from_secs(20), 50)
    }

    /// The number of requests that come in a second: 1 to 1,000,000.
    pub fn rate(mut self, requests: u64) -> Self {
        self.parameters.rate = requests;
        self
    }

    /// Spans in which requests come at a rate of their own, 0 to 1,000,000 a second: at most 8, in their order, within
    /// the first hour. Before, between and after them the storm's [`rate`](Self::rate) holds. A surge to three times
    /// the default rate, for five seconds:
    ///
    /// ```
    /// use hikebox::{Policy, Schedule, Storm};
    /// use std::time::Duration;
    ///
    /// let policy = Policy::new(&Schedule::recurs(0))?;
    /// let surge = Duration::from_secs(10)..Duration::from_secs(15);
    /// let totals = Storm::new(&policy).no_outage().rates([(surge, 2400)]).play()?.totals;
    /// assert_eq!(totals.requests, 800 * 55 + 2400 * 5);
    /// # Ok::<(), Box<dyn std::error::Error>>(())
    /// ```
    pub fn rates(mut self, spans: impl IntoIterator<Item = (Range<Duration>, u64)>) -> Self {
        let in_millis = |(when, rate): (Range<Duration>, u64)| (whole_millis(when.start)..whole_millis(when.end), rate);
        self.rates = spans.into_iter().map(in_millis).collect();
        self
    }

    /// The number of requests that come at one moment: 1 to 1,000,000.
    pub fn together(mut self, requests: u64) -> Self {
        self.parameters.together = requests;
        self
    }

    /// The number of seconds for which requests come: 1 to 3,600. There are at most 1,048,576 requests in all.
    pub fn seconds(mut self, seconds: u64) -> Self {
        self.parameters.seconds = seconds;
        self
    }

    /// The moments at which requests come, one for each, in the place of the rate and its spans, of
    /// [`together`](Self::together) and of [`seconds`](Self::seconds): 1 to 1,048,576, none before the one in front of
    /// it, within the first two hours.
    ///
    /// ```
    /// use hikebox::{Policy, Schedule, Storm};
    /// use std::time::Duration;
    ///
    /// let policy = Policy::new(&Schedule::recurs(0))?;
    /// let moments = [0, 0, 5, 5, 100].map(Duration::from_millis);
    /// let totals = Storm::new(&policy).no_outage().arrivals(moments).play()?.totals;
    /// assert_eq!((totals.won, totals.slowest), (5, Some(Duration::from_millis(2))));
    /// # Ok::<(), Box<dyn std::error::Error>>(())
    /// ```
    pub fn arrivals(mut self, moments: impl IntoIterator<Item = Duration>) -> Self {
        self.arrivals = Some(moments.into_iter().map(whole_millis).collect());
        self
    }

    /// The number of calls that the peer, or each of its replicas, can do in a second: 1 to 1,000,000.
    pub fn capacity(mut self, calls: u64) -> Self {
        self.parameters.capacity = calls;
        self
    }

    /// How long a client waits for an answer: a millisecond to an hour. The peer does the work of a call that was given
    /// up all the same. The clients of a [`Population`] may have [another patience](Population::patience).
    pub fn patience(mut self, patience: Duration) -> Self {
        self.parameters.patience = whole_millis(patience);
        self
    }

    /// The number of calls that can wait at the peer, or at each of its replicas: 0 to 1,048,576. It sheds further
    /// ones.
    pub fn queue(mut self, calls: u64) -> Self {
        self.parameters.queue = calls;
        self
    }

    /// The number of replicas that the peer is: 1 to 4. Each has the capacity and the queue, and calls go to them in
    /// turn.
    pub fn replicas(mut self, replicas: u64) -> Self {
        self.parameters.replicas = replicas;
        self
    }

    /// The number of replicas that refuse calls in the outage: 1 to the number of replicas, and by default all.
    pub fn down(mut self, replicas: u64) -> Self {
        self.down = Some(replicas);
        self
    }

    /// The outage: the peer refuses all calls from the range's start to before its end, within the first hour.
    pub fn outage(mut self, when: Range<Duration>) -> Self {
        (self.parameters.outage_from, self.parameters.outage_to) = (whole_millis(when.start), whole_millis(when.end));
        self
    }

    /// No outage: the peer refuses nothing.
    pub fn no_outage(self) -> Self {
        self.outage(Duration::ZERO..Duration::ZERO)
    }

    /// The brown-out: in this range, within the first hour, the peer works at `percent` of its capacity, 1 to 100.
    pub fn slow(mut self, when: Range<Duration>, percent: u64) -> Self {
        (self.parameters.slow_from, self.parameters.slow_to) = (whole_millis(when.start), whole_millis(when.end));
        (self.is_slow, self.parameters.slow_percent) = (true, percent);
        self
    }

    /// The length of a window of the report: a millisecond to an hour.
    pub fn window(mut self, window: Duration) -> Self {
        self.parameters.window = whole_millis(window);
        self
    }

    /// The moment at which the storm ends, at most two hours: by default a minute after [`Storm::seconds`], or after the
    /// last of [`Storm::arrivals`].
    pub fn until(mut self, until: Duration) -> Self {
        self.until = Some(whole_millis(until));
        self
    }

    /// The number of calls after which the storm stops: 1 to 4,294,967,296, and by default 16,777,216.
    pub fn calls(mut self, calls: u64) -> Self {
        self.parameters.calls = calls;
        self
    }

    /// The seed of the random words that pick each jitter.
    pub fn seed(mut self, seed: u64) -> Self {
        self.parameters.words = seed;
        self
    }

    /// The storm with a population of clients more, beside those that it has: up to three times. The first population
    /// has the policy and the patience of the storm, draws on what the storm has, and has the requests that the others
    /// leave: at least one in a hundred.
    pub fn beside(mut self, population: Population) -> Self {
        self.others.push(population);
        self
    }

    /// The retries draw on a budget of this many tickets, at most 4,294,967,296.
    pub fn budget(mut self, limit: u64) -> Self {
        (self.parameters.draws_on, self.parameters.limit) = (ON_BUDGET, limit);
        self.fault = Handle::<PassKind>::fixed(limit).err().map(LimitError::of);
        self
    }

    /// The retries draw on a quota with these terms, as [`Quota::new`](crate::Quota::new) takes them.
    pub fn quota(mut self, reserve: u64, share: f64, per: Duration) -> Self {
        self.fault = match QuotaTerms::new(reserve, share, per) {
            Ok(terms) => {
                let QuotaTerms { reserve, share, period } = terms;
                self.parameters = engine::Storm { draws_on: ON_QUOTA, reserve, share, period, ..self.parameters };
                terms.checked().err()
            }
            Err(fault) => Some(fault),
        };
        self
    }

    /// Requests ask a limit of another system, with these terms, before their first call and for each retry.
    pub fn limit(mut self, terms: impl Into<Terms>) -> Self {
        self.fault = terms.into().on_storm(&mut self.parameters).err();
        self
    }

    /// Plays the storm. Some millions of calls take a second. It takes much memory only if a million requests are under
    /// way at once. A storm of several populations is played once for the report on all requests, and once for that on
    /// each population.
    ///
    /// # Errors
    ///
    /// [`StormError`] is the first parameter that is out of its range.
    pub fn play(&self) -> Result<StormReport, StormError> {
        let storm = self.checked()?;
        let mut policy = self.policy.share().map_err(StormError::of)?;
        let others = self.others.iter().map(|population| population.policy.share()).collect::<Result<Vec<_>, _>>();
        let mut others = others.map_err(StormError::of)?;
        let room = usize::try_from(storm.until / storm.window + 1).map_err(|_| StormError::NoMemory)?;
        let mut play = |of| {
            let played = policy.play(&mut others, &engine::Storm { of, ..storm }, self.moments(), room);
            let played = played.map_err(StormError::of);
            let windows = |found: Vec<_>| found.into_iter().map(StormWindow::of).collect();
            played.map(|(found, totals)| (windows(found), StormTotals::of(&totals)))
        };
        let (windows, totals) = play(0)?;
        let report = |(share, of)| play(of).map(|(windows, totals)| PopulationReport { share, windows, totals });
        let populations =
            population::shares(&self.others).into_iter().zip(1..).map(report).collect::<Result<_, _>>()?;
        Ok(StormReport { windows, totals, populations, draws_on: storm.draws_on, arrivals: self.moments().len() })
    }

    /// The moments of its requests; none where they come by a rate.
    pub(super) fn moments(&self) -> &[u64] {
        self.arrivals.as_deref().unwrap_or(&[])
    }

    /// When it ends where nothing is said of that, or why its requests can't come at their moments.
    fn ends(&self) -> Result<u64, StormError> {
        let moments = match &self.arrivals {
            Some(moments) => moments,
            None => return Ok(self.parameters.seconds.saturating_mul(1000).saturating_add(60_000)),
        };
        let (parameter, mut last) = ("arrivals", 0);
        within(parameter, moments.len() as u64, 1, MAX_REQUESTS)?;
        for moment in moments.iter() {
            within(parameter, *moment, last, 2 * HOUR)?;
            last = *moment;
        }
        Ok((last + 60_000).min(2 * HOUR))
    }

    /// The JSON of its policies, that of the first population first.
    pub(super) fn policies(&self) -> Vec<&str> {
        let others = self.others.iter().map(|population| population.policy.as_json());
        std::iter::once(self.policy.as_json()).chain(others).collect()
    }

    /// From when on the peer is well again and no surge comes, in milliseconds; `None` where there is no outage, no
    /// brown-out and no surge.
    pub(super) fn well_from(&self) -> Option<u64> {
        let engine::Storm { outage_from, outage_to, slow_from, slow_to, .. } = self.parameters;
        let surges = self.rates.iter().filter(|(_, rate)| *rate > self.parameters.rate);
        let surge_to = surges.map(|(when, _)| when.end).max();
        if outage_from < outage_to || slow_from < slow_to || surge_to.is_some() {
            Some(outage_to.max(slow_to).max(surge_to.unwrap_or(0)))
        } else {
            None
        }
    }

    /// The phases of the spans with a rate of their own, and of the storm's rate between them.
    fn phases(&self) -> Result<(u64, [Phase; 16]), StormError> {
        let parameter = "rates";
        within(parameter, self.rates.len() as u64, 0, MAX_SPANS)?;
        let mut found = Vec::new();
        let mut end = 0;
        for (when, rate) in &self.rates {
            span(parameter, when.start, when.end)?;
            within(parameter, *rate, 0, 1_000_000)?;
            if when.is_empty() {
                return Err(StormError::EndsEarly { parameter });
            }
            if when.start < end {
                return Err(StormError::Overlap { parameter });
            }
            if end < when.start {
                found.push(Phase { until: when.start, rate: self.parameters.rate });
            }
            found.push(Phase { until: when.end, rate: *rate });
            end = when.end;
        }
        let mut phases = [Phase::default(); 16];
        phases[..found.len()].copy_from_slice(&found);
        Ok((found.len() as u64, phases))
    }

    /// The parameters, where all are within their ranges.
    pub(super) fn checked(&self) -> Result<engine::Storm, StormError> {
        let ends = self.ends()?;
        let until = self.until.unwrap_or(ends);
        let down = self.down.unwrap_or(self.parameters.replicas);
        let (phase_count, phases) = self.phases()?;
        let [second, third, fourth] = population::told(&self.others, self.parameters.patience)?;
        let storm = engine::Storm { until, down, phase_count, phases, second, third, fourth, ..self.parameters };
        within("rate", storm.rate, 1, 1_000_000)?;
        within("together", storm.together, 1, 1_000_000)?;
        within("seconds", storm.seconds, 1, 3600)?;
        within("capacity", storm.capacity, 1, 1_000_000)?;
        within("patience", storm.patience, 1, HOUR)?;
        within("queue", storm.queue, 0, 1_048_576)?;
        within("replicas", storm.replicas, 1, 4)?;
        within("down", storm.down, 1, storm.replicas)?;
        within("window", storm.window, 1, HOUR)?;
        within("until", storm.until, 0, 2 * HOUR)?;
        within("calls", storm.calls, 1, 1 << 32)?;
        if thousandths_of(&storm) > MAX_REQUESTS * 1000 {
            return Err(StormError::TooManyRequests);
        }
        span("outage", storm.outage_from, storm.outage_to)?;
        span("slow", storm.slow_from, storm.slow_to)?;
        if self.is_slow {
            within("slow", storm.slow_percent, 1, 100)?;
        }
        if storm.until / storm.window > MAX_WINDOWS {
            return Err(StormError::TooManyWindows);
        }
        match self.fault {
            Some(fault) => Err(StormError::Tickets(fault)),
            None => Ok(storm),
        }
    }
}

/// How many thousandths of a request come.
fn thousandths_of(storm: &engine::Storm) -> u64 {
    let end = storm.seconds * 1000;
    let (mut begins, mut sum) = (0, 0);
    for phase in &storm.phases[..storm.phase_count as usize] {
        sum += phase.rate * phase.until.min(end).saturating_sub(begins);
        begins = phase.until;
    }
    sum + storm.rate * end.saturating_sub(begins)
}

pub(super) fn within(parameter: &'static str, got: u64, min: u64, max: u64) -> Result<(), StormError> {
    if (min..=max).contains(&got) {
        Ok(())
    } else {
        Err(StormError::OutOfRange { parameter, min, max, got })
    }
}

fn span(parameter: &'static str, from: u64, to: u64) -> Result<(), StormError> {
    within(parameter, from, 0, HOUR)?;
    within(parameter, to, 0, HOUR)?;
    if from > to {
        Err(StormError::EndsEarly { parameter })
    } else {
        Ok(())
    }
}

impl StormError {
    pub(super) fn of(status: Status) -> Self {
        match status {
            Status::NoMemory => Self::NoMemory,
            status => unreachable!("the engine's status {status:?}"),
        }
    }
}

impl fmt::Display for StormError {
    fn fmt(&self, f: &mut fmt::Formatter<'_>) -> fmt::Result {
        match self {
            Self::OutOfRange { parameter, min, max, got } => {
                write!(f, "{parameter}: expected {min} to {max}, got {got}")
            }
            Self::TooManyRequests => f.write_str("expected at most 1048576 requests, got more: rate times seconds"),
            Self::EndsEarly { parameter } => {
                write!(f, "{parameter}: expected an end after the beginning, got one before")
            }
            Self::Overlap { parameter } => {
                write!(f, "{parameter}: expected spans in their order, got one that begins before another ends")
            }
            Self::TooManyWindows => f.write_str("expected at most 65537 windows, got more: until divided by window"),
            Self::SharesTooLarge { got } => {
                write!(f, "expected populations beside the first one of at most 99 per cent in all, got {got}")
            }
            Self::Tickets(error) => error.fmt(f),
            Self::NoLine => f.write_str("expected a line of the sweep, got none"),
            Self::NoLimit { parameter } => {
                write!(f, "{parameter}: expected a storm with a limit that has it, got none")
            }
            Self::NoPopulation { parameter } => {
                write!(f, "{parameter}: expected a storm with a population beside the first one, got none")
            }
            Self::NothingToRecoverFrom => {
                f.write_str("expected a storm with an outage, a brown-out or a surge, got none")
            }
            Self::ByMoments { parameter } => {
                write!(f, "{parameter}: expected requests that come by a rate, got moments of their own")
            }
            Self::PolicyTooLarge => {
                f.write_str("expected a policy of at most 254 nodes and depth at most 31, got more")
            }
            Self::NoMemory => f.write_str("no memory"),
        }
    }
}

impl Error for StormError {}
