//! The waits of a policy, one after another.

use crate::engine::MAX_NUMBER;
use crate::limits::grants::Unlimited;
use crate::policy::Policy;
use crate::retry::machine::{Machine, Report, Step};
use std::fmt;
use std::iter::FusedIterator;
use std::time::Duration;

/// The waits that a policy plans, where each call fails at once: see [`Policy::waits`].
#[must_use = "iterators do nothing unless they are asked"]
pub struct Waits {
    /// `None` where the policy is done.
    machine: Option<Machine>,
    now: Duration,
}

/// The engine's last moment: from it on a planned start tells no wait.
const LAST_MOMENT: Duration = Duration::from_millis(MAX_NUMBER);

impl Policy {
    /// The waits that the policy plans, one after another, if each call fails at once with the code 0. The iterator has
    /// no end if the policy has none, but ends where the waits together reach 2^62 - 1 milliseconds, the engine's last
    /// moment. Each use draws new random words for jitter. It serves libraries that take their delays from an iterator.
    ///
    /// ```
    /// use hikebox::{Policy, Schedule};
    /// use std::time::Duration;
    ///
    /// let back_off = Schedule::exponential(Duration::from_millis(100), 2).cap(Duration::from_millis(300));
    /// let policy = Policy::new(&(Schedule::recurs(4) & back_off))?;
    /// let waits: Vec<_> = policy.waits().map(|wait| wait.as_millis()).collect();
    /// assert_eq!(waits, [100, 200, 300, 300]);
    /// # Ok::<(), hikebox::PolicyError>(())
    /// ```
    ///
    /// # Panics
    ///
    /// If memory runs out.
    pub fn waits(&self) -> Waits {
        let mut machine = Machine::new(self, &Unlimited).expect("memory for a machine");
        let step = machine.step(Duration::ZERO, None);
        debug_assert_eq!(step, Step::Run);
        Waits { machine: Some(machine), now: Duration::ZERO }
    }
}

impl Iterator for Waits {
    type Item = Duration;

    fn next(&mut self) -> Option<Duration> {
        let began = self.now;
        let machine = self.machine.as_mut().filter(|_| began < LAST_MOMENT)?;
        match machine.step(began, Some(Report::Lost(0))) {
            Step::Run => return Some(Duration::ZERO),
            Step::Wait(until) => self.now = until,
            Step::Over(_) => {
                self.machine = None;
                return None;
            }
        }
        let step = machine.step(self.now, None);
        debug_assert_eq!(step, Step::Run);
        Some(self.now.saturating_sub(began))
    }
}

impl FusedIterator for Waits {}

impl fmt::Debug for Waits {
    fn fmt(&self, f: &mut fmt::Formatter<'_>) -> fmt::Result {
        f.debug_struct("Waits").field("now", &self.now).finish_non_exhaustive()
    }
}
