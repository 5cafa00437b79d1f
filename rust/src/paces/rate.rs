//! How many calls may begin in how long.

use crate::clock::whole_millis;
use crate::limits::terms::out_of_range;
use crate::limits::LimitError;
use std::time::Duration;

/// How many calls may begin in how long, and how many at once.
///
/// ```
/// use hikebox::Rate;
/// use std::time::Duration;
///
/// let rate = Rate::new(10, Duration::from_secs(1)).burst(20).longest(Duration::from_secs(2));
/// ```
#[derive(Clone, Copy, Debug, PartialEq, Eq, Hash)]
pub struct Rate {
    calls: u64,
    per: Duration,
    burst: u32,
    longest: Option<Duration>,
}

/// The numbers of a rate, as the engine has them.
#[derive(Clone, Copy, Debug)]
pub(super) struct Numbers {
    /// The microseconds from one call to the next.
    pub(super) each: u64,
    /// How many calls may begin at once.
    pub(super) burst: u32,
    /// The milliseconds that a call waits at most.
    pub(super) longest: u64,
}

/// The most of each.
const MOST: Numbers = Numbers { each: 1 << 40, burst: 1 << 20, longest: 1 << 37 };

impl Rate {
    /// So many calls in each `per`, one after another. The time from one to the next is a whole number of microseconds,
    /// rounded up.
    #[must_use]
    pub fn new(calls: u64, per: Duration) -> Self {
        Self { calls, per, burst: 1, longest: None }
    }

    /// So many may begin at once after a pause: 1 to 1,048,576.
    #[must_use]
    pub fn burst(mut self, burst: u32) -> Self {
        self.burst = burst;
        self
    }

    /// How long a call waits at most, in whole milliseconds; one that would wait longer is refused at once. Without it
    /// there is no bound.
    #[must_use]
    pub fn longest(mut self, longest: Duration) -> Self {
        self.longest = Some(longest);
        self
    }

    /// Its numbers, where they are in their ranges.
    pub(super) fn numbers(&self) -> Result<Numbers, LimitError> {
        if self.calls == 0 {
            return Err(out_of_range("calls", "1 or more"));
        }
        let micros = divided_up(divided_up(self.per.as_nanos(), 1000), self.calls.into());
        let each = u64::try_from(micros).ok().filter(|each| (1..=MOST.each).contains(each));
        let each = each.ok_or_else(|| out_of_range("per", "from a microsecond to 1099511 seconds a call"))?;
        if !(1..=MOST.burst).contains(&self.burst) {
            return Err(out_of_range("burst", "1 to 1048576"));
        }
        let longest = self.longest.map_or(MOST.longest, whole_millis);
        if longest > MOST.longest {
            return Err(out_of_range("longest", "at most 137438953 seconds"));
        }
        Ok(Numbers { each, burst: self.burst, longest })
    }
}

/// The quotient, rounded up.
fn divided_up(number: u128, divisor: u128) -> u128 {
    number / divisor + u128::from(number % divisor != 0)
}
