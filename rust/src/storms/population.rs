//! Populations of clients beside the first one of a storm.

use crate::clock::whole_millis;
use crate::engine;
use crate::policy::Policy;
use crate::storms::storm::{within, StormError, HOUR};
use std::time::Duration;

/// The most populations beside the first one.
const MAX_OTHERS: u64 = 3;
/// The most per cent of the requests that are theirs together.
pub(super) const MAX_SHARES: u64 = 99;

/// Clients of one kind beside the first ones of a [`Storm`](crate::Storm): so many of a hundred requests are theirs,
/// under a policy of their own. They wait for an answer as long as the first ones, and their retries draw on nothing.
///
/// What a quota is worth beside clients who retry without one. If these send a fifth of the requests, the peer recovers
/// at once; if they send three tenths, it never does:
///
/// ```
/// use hikebox::{Policy, Population, Schedule, Storm};
/// use std::time::Duration;
///
/// let back_off = Schedule::exponential(Duration::from_millis(100), 2).cap(Duration::from_secs(10));
/// let policy = Policy::new(&(Schedule::recurs(8) & back_off.jittered(0.0..1.0)))?;
/// let storm = Storm::new(&policy).quota(10, 0.1, Duration::from_secs(1));
/// let fifth = storm.clone().beside(Population::new(20, &policy)).play()?;
/// assert_eq!(fifth.totals.recovered, Some(Duration::from_secs(20)));
/// let report = storm.beside(Population::new(30, &policy)).play()?;
/// assert_eq!(report.totals.recovered, None);
/// let [first, second] = [&report.populations[0], &report.populations[1]];
/// assert_eq!((first.share, first.totals.won, first.totals.requests), (70, 5970, 33_600));
/// assert_eq!((second.share, second.totals.won, second.totals.requests), (30, 3997, 14_400));
/// # Ok::<(), Box<dyn std::error::Error>>(())
/// ```
#[derive(Clone, Debug)]
#[must_use]
pub struct Population {
    pub(super) policy: Policy,
    pub(super) share: u64,
    /// `None` for that of the storm.
    patience: Option<u64>,
    is_limited: bool,
}

impl Population {
    /// Clients who send this share of the requests, 1 to 99 per cent, under this policy.
    pub fn new(share: u64, policy: &Policy) -> Self {
        Self { policy: policy.clone(), share, patience: None, is_limited: false }
    }

    /// How long they wait for an answer: a millisecond to an hour, and by default as long as
    /// [the storm's](crate::Storm::patience).
    pub fn patience(mut self, patience: Duration) -> Self {
        self.patience = Some(whole_millis(patience));
        self
    }

    /// Whether their retries draw on the storm's budget or quota, which then counts their requests, or they ask its
    /// limit. Those of clients who are not limited draw on nothing, and no limit refuses their calls.
    pub fn limited(mut self, is_limited: bool) -> Self {
        self.is_limited = is_limited;
        self
    }

    fn told(&self, patience: u64) -> Result<engine::Population, StormError> {
        let patience = self.patience.unwrap_or(patience);
        within("share", self.share, 1, MAX_SHARES)?;
        within("patience", patience, 1, HOUR)?;
        Ok(engine::Population { share: self.share, patience, limited: self.is_limited.into() })
    }
}

/// The populations beside the first one of a storm, as the engine is told of them.
pub(super) fn told(others: &[Population], patience: u64) -> Result<[engine::Population; 3], StormError> {
    within("beside", others.len() as u64, 0, MAX_OTHERS)?;
    let mut told = [engine::Population::default(); MAX_OTHERS as usize];
    for (place, population) in told.iter_mut().zip(others) {
        *place = population.told(patience)?;
    }
    match told.iter().map(|population| population.share).sum() {
        0..=MAX_SHARES => Ok(told),
        got => Err(StormError::SharesTooLarge { got }),
    }
}

/// The share of each population, that of the first one first; none where there is only one.
pub(super) fn shares(others: &[Population]) -> Vec<u64> {
    let mut shares: Vec<u64> = others.iter().map(|population| population.share).collect();
    if !shares.is_empty() {
        shares.insert(0, 100 - shares.iter().sum::<u64>());
    }
    shares
}
