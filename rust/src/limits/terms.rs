//! What limits of other systems are made with.

use crate::clock::whole_millis;
use crate::engine::{
    self, AdaptiveTerms, BreakerTerms, BucketTerms, Course, Event, Handle, LimitKind, Status, NO_MOST,
};
use crate::engine::{ON_ADAPTIVE, ON_BREAKER, ON_BUCKET, ON_IN_FLIGHT, ON_THROTTLE};
use crate::limits::error::LimitError;
use crate::policy::Policy;
use std::mem;
use std::time::Duration;

/// What a [`CallLimit`](crate::CallLimit) is made with.
#[derive(Clone, Debug, PartialEq)]
#[non_exhaustive]
pub enum Terms {
    /// A bucket.
    Bucket(Bucket),
    /// A bound on what is in flight.
    InFlight(InFlight),
    /// A breaker.
    Breaker(Breaker),
    /// A throttle.
    Throttle(Throttle),
    /// An adaptive limit.
    Adaptive(Adaptive),
}

/// A bucket of tokens, which are counted in thousandths: a number above 0 is at least one of them. It is full at first.
///
/// ```
/// use hikebox::{Bucket, CallLimit};
///
/// // A retry takes one of ten tokens, and a success gives a tenth of one.
/// let limit = CallLimit::new(Bucket { capacity: 10.0, credit: 0.1, ..Bucket::default() })?;
/// # Ok::<(), hikebox::LimitError>(())
/// ```
#[derive(Clone, Copy, Debug, PartialEq)]
pub struct Bucket {
    /// The tokens of a full bucket.
    pub capacity: f64,
    /// The tokens that a retry must leave.
    pub floor: f64,
    /// The tokens that a failed run takes.
    pub debit: f64,
    /// The tokens that a success gives.
    pub credit: f64,
    /// The tokens that a retry takes: at most the capacity, and 1 by default.
    pub cost: f64,
    /// What it takes after a timeout, if that differs: one that [`attempt_timeout`](crate::Retrying::attempt_timeout)
    /// or [`hedge_after`](crate::Retrying::hedge_after) made, since other errors may have any type. In a storm it is a
    /// call that its client gave up.
    pub timeout_cost: Option<f64>,
    /// Whether a success gives back what the call's last retry took, in the place of the credit.
    pub refund: bool,
}

/// A bound on the retries in flight: the greater of a least number and a share of the calls in flight. It may bound the
/// calls too. A call is in flight from its first run to its end, and a retry from its draw to the call's next draw or
/// its end, or until it is cancelled in its wait.
#[derive(Clone, Copy, Debug, PartialEq)]
pub struct InFlight {
    /// The retries that there may be, however few calls there are.
    pub least: u32,
    /// The retries that each call in flight allows, from 0 to 1: 0.2 is one for every five. It is counted in
    /// thousandths.
    pub share: f64,
    /// The calls that there may be; `None` for no bound. One more is refused at once.
    pub most: Option<u32>,
}

/// A circuit breaker: after failures in a row, or among its last results, it is open, then it is half open and admits
/// probes, and when these succeed it is closed.
#[derive(Clone, Debug, PartialEq, Eq, Hash)]
pub struct Breaker {
    /// How many failures open it: in a row, or among its last results.
    pub failures: u32,
    /// Among how many of its last results the failures count, at most 32. `None`: they count in a row.
    pub results: Option<u8>,
    /// The policy whose waits are the times for which it is open: the first one, and the next each time that a probe
    /// fails. The last of them is used again.
    pub open_for: Policy,
    /// How many probes it admits, and how many successes close it: 1 to 15.
    pub probes: u8,
    /// How long after its last probe it admits others, if the probes told nothing.
    pub probe_deadline: Duration,
}

/// Google's client throttling: a first run or a retry is refused with the probability
/// (requests - ratio * accepts) / (requests + 1), over the present window and the one before.
#[derive(Clone, Copy, Debug, PartialEq)]
pub struct Throttle {
    /// The requests that each accepted one allows, 1 or more. It is counted in thousandths.
    pub ratio: f64,
    /// The length of a window. Of each window 1,048,575 requests are counted at most.
    pub period: Duration,
}

/// A bound on the calls under way at once, which finds by itself how many its peer bears: each success while at least
/// half of it is in use raises it, by about one for each round of calls, and each failure lowers it to a share of what
/// it was. It grants each retry, which is a part of its call.
#[derive(Clone, Copy, Debug, PartialEq)]
pub struct Adaptive {
    /// The bound is never lower: 1 or more.
    pub least: u16,
    /// The bound is never higher.
    pub most: u16,
    /// What it is at first.
    pub first: u16,
    /// What a failure leaves of it, from 0.001 to 0.999. It is counted in thousandths.
    pub backoff: f64,
}

impl Default for Bucket {
    /// A retry takes one token, and all else is 0: give it a capacity.
    fn default() -> Self {
        Self { capacity: 0.0, floor: 0.0, debit: 0.0, credit: 0.0, cost: 1.0, timeout_cost: None, refund: false }
    }
}

impl Bucket {
    /// gRPC's `retryThrottling`: a failure takes one token, a success gives `token_ratio` of one, and a retry is
    /// granted while more than half of `max_tokens` are left. As in gRPC, what follows the third decimal of the ratio
    /// is ignored.
    ///
    /// # Errors
    ///
    /// [`LimitError::OutOfRange`] if there is no token, or the ratio is out of its range.
    pub fn grpc(max_tokens: u32, token_ratio: f64) -> Result<Self, LimitError> {
        let capacity = f64::from(max_tokens);
        let most = thousandths(capacity).filter(|most| *most > 0);
        let most = within(most, MAX_CAPACITY, "max_tokens", "1 to 1099511627 tokens")?;
        within(thousandths(token_ratio), most, "token_ratio", "0, or from 0.001 to max_tokens")?;
        // (a float may be short of its last decimal; a ratio below the third one is left for `thousandths` to judge)
        let whole = (token_ratio * 1000.0 + 1e-6).floor();
        let credit = if whole >= 1.0 { whole / 1000.0 } else { token_ratio };
        Ok(Self { capacity, floor: capacity / 2.0 + 0.001, debit: 1.0, credit, cost: 0.0, ..Self::default() })
    }

    /// The AWS SDKs' standard mode: 500 tokens, of which a retry takes 5, and 10 after a timeout. A success gives back
    /// what the call's last retry took, or else 1.
    #[must_use]
    pub fn aws() -> Self {
        Self { capacity: 500.0, credit: 1.0, cost: 5.0, timeout_cost: Some(10.0), refund: true, ..Self::default() }
    }

    /// The tokens that a retry takes, after a timeout or another failure.
    pub(crate) fn cost(&self, timed_out: bool) -> f64 {
        self.timeout_cost.filter(|_| timed_out).unwrap_or(self.cost)
    }

    /// Its numbers in thousandths, and what a retry takes, and takes after a timeout.
    fn checked(&self) -> Result<(BucketTerms, u64, u64), LimitError> {
        let capacity = within(thousandths(self.capacity), MAX_CAPACITY, "capacity", CAPACITY)?;
        let terms = BucketTerms {
            size: 0,
            capacity,
            floor: tokens(self.floor, capacity, "floor")?,
            debit: tokens(self.debit, capacity, "debit")?,
            credit: tokens(self.credit, capacity, "credit")?,
            refund: self.refund,
        };
        Ok((terms, tokens(self.cost, capacity, "cost")?, tokens(self.cost(true), capacity, "timeout_cost")?))
    }
}

impl InFlight {
    /// Envoy's `retry_budget`: 20 per cent and 3 are its defaults.
    ///
    /// # Errors
    ///
    /// [`LimitError::OutOfRange`] for what is no number of per cent, such as a share of 0.2.
    pub fn envoy(budget_percent: f64, min_retry_concurrency: u32) -> Result<Self, LimitError> {
        if budget_percent != 0.0 && !(1.0..=100.0).contains(&budget_percent) {
            return Err(out_of_range("budget_percent", "per cent, 0 or from 1 to 100"));
        }
        Ok(Self { least: min_retry_concurrency, share: budget_percent / 100.0, most: None })
    }

    /// At most so many calls at once, and no other bound on their retries.
    #[must_use]
    pub fn bulkhead(most: u32) -> Self {
        Self { least: most, share: 0.0, most: Some(most) }
    }

    /// Its share in thousandths, and the most calls, as the engine has them.
    fn checked(&self) -> Result<(u64, u32), LimitError> {
        let share = thousandths(self.share).filter(|_| self.share <= 1.0);
        let share = within(share, 1000, "share", "0, or from 0.001 to 1")?;
        match self.most {
            Some(0) => Err(out_of_range("most", "1 to 4294967295")),
            most => Ok((share, most.unwrap_or(NO_MOST))),
        }
    }
}

impl Breaker {
    /// One that opens after so many failures in a row, with one probe and 30 seconds for it.
    #[must_use]
    pub fn consecutive(failures: u32, open_for: Policy) -> Self {
        Self { failures, results: None, open_for, probes: 1, probe_deadline: Duration::from_secs(30) }
    }

    /// One that opens after so many failures among so many of its last results, with one probe and 30 seconds for it.
    #[must_use]
    pub fn of_last(failures: u32, results: u8, open_for: Policy) -> Self {
        Self { results: Some(results), ..Self::consecutive(failures, open_for) }
    }

    /// The open times: the waits of the policy on a course whose events have the input 0 and the random words 0.
    fn times(&self) -> Result<Vec<u64>, LimitError> {
        let course = Course { size: mem::size_of::<Course>(), steps: 64, from: 0, took: 0 };
        let mut policy = self.open_for.share().map_err(fault)?;
        let lines = policy.course(&course, &[Event { input: 0, words: [0; 4] }]).map_err(fault)?;
        let times: Vec<u64> = lines.iter().filter(|line| line.goes_on).map(|line| line.start - line.moment).collect();
        match times.iter().max() {
            None => Err(out_of_range("open_for", "a policy that goes on at least once")),
            Some(0) => Err(out_of_range("open_for", NEVER_OPEN)),
            Some(_) => Ok(times),
        }
    }

    /// Its numbers, and its open times.
    fn checked(&self) -> Result<(BreakerTerms, Vec<u64>), LimitError> {
        if self.failures == 0 {
            return Err(out_of_range("failures", "1 to 4294967295"));
        }
        if !(1..=MAX_PROBES).contains(&self.probes) {
            return Err(out_of_range("probes", "1 to 15"));
        }
        let results = match self.results {
            None => 0,
            Some(results) if results <= MAX_RESULTS && self.failures <= results.into() => results.into(),
            Some(_) => return Err(out_of_range("results", "from the failures to 32")),
        };
        let (failures, probes) = (self.failures.into(), self.probes.into());
        let terms = BreakerTerms { size: 0, failures, probes, deadline: whole_millis(self.probe_deadline), results };
        Ok((terms, self.times()?))
    }
}

impl Throttle {
    /// The SRE book's: two requests for each accepted one, over two minutes.
    #[must_use]
    pub fn google() -> Self {
        Self { ratio: 2.0, period: Duration::from_secs(60) }
    }

    /// Its ratio in thousandths, and its period in milliseconds.
    fn checked(&self) -> Result<(u64, u64), LimitError> {
        let ratio = thousandths(self.ratio).filter(|ratio| *ratio >= 1000);
        let ratio = within(ratio, u32::MAX.into(), "ratio", "1 to 4294967.295")?;
        match whole_millis(self.period) {
            0 => Err(out_of_range("period", "at least a millisecond")),
            period => Ok((ratio, period)),
        }
    }
}

impl Default for Adaptive {
    /// From 1 to 200 calls, at first 20; a failure leaves nine tenths.
    fn default() -> Self {
        Self { least: 1, most: 200, first: 20, backoff: 0.9 }
    }
}

impl Adaptive {
    /// Its numbers.
    fn checked(&self) -> Result<AdaptiveTerms, LimitError> {
        if self.least == 0 || self.first < self.least || self.most < self.first {
            return Err(out_of_range("first", "1 <= least <= first <= most"));
        }
        let backoff =
            within(thousandths(self.backoff).filter(|backoff| *backoff > 0), 999, "backoff", "0.001 to 0.999")?;
        let (least, most, first) = (self.least.into(), self.most.into(), self.first.into());
        Ok(AdaptiveTerms { size: 0, least, most, first, backoff })
    }
}

impl Terms {
    /// The limit in the engine, made at this moment.
    pub(crate) fn made(&self, now: u64) -> Result<Handle<LimitKind>, LimitError> {
        let made = match self {
            Self::Bucket(bucket) => Handle::bucket(bucket.checked()?.0),
            Self::InFlight(in_flight) => {
                let (share, most) = in_flight.checked()?;
                Handle::in_flight(in_flight.least, share as u32, most)
            }
            Self::Breaker(breaker) => {
                let (terms, times) = breaker.checked()?;
                Handle::breaker(now, terms, &times)
            }
            Self::Throttle(throttle) => {
                let (ratio, period) = throttle.checked()?;
                Handle::throttle(now, ratio as u32, period)
            }
            Self::Adaptive(adaptive) => Handle::adaptive(adaptive.checked()?),
        };
        made.map_err(fault)
    }

    /// Puts them into the parameters of a storm.
    pub(crate) fn on_storm(&self, storm: &mut engine::Storm) -> Result<(), LimitError> {
        match self {
            Self::Bucket(bucket) => {
                let (terms, cost, late_cost) = bucket.checked()?;
                (storm.draws_on, storm.cost, storm.late_cost) = (ON_BUCKET, cost, late_cost);
                (storm.bucket_capacity, storm.bucket_floor) = (terms.capacity, terms.floor);
                (storm.bucket_debit, storm.bucket_credit) = (terms.debit, terms.credit);
                storm.bucket_refund = terms.refund.into();
            }
            Self::InFlight(in_flight) => {
                let (share, most) = in_flight.checked()?;
                (storm.draws_on, storm.least) = (ON_IN_FLIGHT, in_flight.least.into());
                (storm.share, storm.most) = (share, most.into());
            }
            Self::Breaker(breaker) => {
                let (terms, times) = breaker.checked()?;
                (storm.draws_on, storm.open_count) = (ON_BREAKER, times.len() as u64);
                storm.open_times[..times.len()].copy_from_slice(&times);
                (storm.failures, storm.probes) = (terms.failures, terms.probes);
                (storm.deadline, storm.results) = (terms.deadline, terms.results);
            }
            Self::Throttle(throttle) => {
                storm.draws_on = ON_THROTTLE;
                (storm.ratio, storm.period) = throttle.checked()?;
            }
            Self::Adaptive(adaptive) => {
                let terms = adaptive.checked()?;
                (storm.draws_on, storm.least, storm.most) = (ON_ADAPTIVE, terms.least, terms.most);
                (storm.first, storm.backoff) = (terms.first, terms.backoff);
            }
        }
        Ok(())
    }
}

/// The greatest capacity, in thousandths of a token.
const MAX_CAPACITY: u64 = 1 << 40;

/// What a policy by which a breaker would never open should be.
const NEVER_OPEN: &str =
    "a policy with an open time above 0: open times are its waits for the least random numbers, and \
full jitter makes these 0; write no jitter, or jittered(0.5..1.0)";

/// The most probes of a breaker, and the most results that it keeps.
const MAX_PROBES: u8 = 15;
const MAX_RESULTS: u8 = 32;

const CAPACITY: &str = "0, or from 0.001 to 1099511627.776 tokens";

/// What the other numbers of a bucket may be.
const TOKENS: &str = "0, or from 0.001 to the capacity";

/// A number in thousandths; `None` if it is out of range, or not 0 and less than half a thousandth.
pub(crate) fn thousandths(number: f64) -> Option<u64> {
    let thousandths = (number * 1000.0).round();
    let is_in_range = (0.0..=1.1e9).contains(&number) && (number == 0.0 || thousandths > 0.0);
    is_in_range.then_some(thousandths as u64)
}

/// Tokens in thousandths, at most as many as the capacity.
fn tokens(number: f64, capacity: u64, parameter: &'static str) -> Result<u64, LimitError> {
    within(thousandths(number), capacity, parameter, TOKENS)
}

/// The number, if there is one and it is at most `most`.
fn within(number: Option<u64>, most: u64, parameter: &'static str, expected: &'static str) -> Result<u64, LimitError> {
    number.filter(|number| *number <= most).ok_or_else(|| out_of_range(parameter, expected))
}

pub(crate) fn out_of_range(parameter: &'static str, expected: &'static str) -> LimitError {
    LimitError::OutOfRange { parameter, expected }
}

pub(crate) fn fault(status: Status) -> LimitError {
    match status {
        Status::NoMemory | Status::TooManyPasses => LimitError::NoMemory,
        // (numbers are checked before, so these are limits that are joined)
        _ => LimitError::TooManyLimits,
    }
}

/// The variant of each kind.
macro_rules! terms {
    ($($kind:ident),+) => {$(
        impl From<$kind> for Terms {
            fn from(terms: $kind) -> Self {
                Self::$kind(terms)
            }
        }
    )+};
}

terms!(Bucket, InFlight, Breaker, Throttle, Adaptive);
