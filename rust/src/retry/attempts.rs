//! What the loops of a retry have in common: each attempt, and what follows it.

use crate::clock::{Clock, Moment};
use crate::limits::grants::{Held, MayRefuse};
use crate::retry::course::Course;
use crate::retry::error::RetryError;
use crate::retry::hooks::Hooked;
use crate::retry::host::{Host, Random};
use crate::retry::machine::Ending;
use crate::retry::progress::{Lost, Progress};
use crate::retry::retrying::Retrying;
use crate::retry::rules::CowLimit;
use crate::retry::runs::Loss;
use std::mem;
use std::time::Duration;

/// A run of a call, as [`Retrying::call_with`] passes it.
#[derive(Clone, Copy, Debug, PartialEq, Eq, Hash)]
pub struct Attempt {
    number: u64,
    left: Option<Duration>,
}

impl Attempt {
    /// The number of the run, from 1.
    #[must_use]
    pub fn number(&self) -> u64 {
        self.number
    }

    /// The time from the run's start to the deadline, or `None` if there is no deadline.
    #[must_use]
    pub fn left(&self) -> Option<Duration> {
        self.left
    }
}

impl<E, H: Hooked<E>, K: Clock, S, R: Random, T, L: MayRefuse> Retrying<'_, E, (), H, Host<K, S, R, T>, L> {
    /// A call that begins, for those who hear of it.
    #[inline]
    pub(crate) fn course(&self) -> Course {
        Course::begun(&self.rules.options)
    }

    /// A request, and its retry, whose first run begins.
    #[inline]
    pub(crate) fn begin(&self, course: &mut Course) -> Result<Progress<'_>, RetryError<E, L>> {
        let mut held = L::Held::default();
        let began = self.begins(&mut held, course)?;
        Ok(self.progress(began, held))
    }

    /// The retry whose first run began then, holding this.
    #[inline]
    pub(crate) fn progress(&self, began: Option<Moment>, held: L::Held) -> Progress<'_> {
        Progress::new(CowLimit::Borrowed(self.rules.limit()), began, held)
    }

    /// A request begins, which is counted; what it holds of a limit that is asked is put here. The moment at which, where
    /// somebody wants to know that: to its policy moments count from the first failure.
    #[inline]
    pub(crate) fn begins(&self, held: &mut L::Held, course: &mut Course) -> Result<Option<Moment>, RetryError<E, L>> {
        if let Err(refused) = L::admit(self.rules.limit(), held) {
            course.not_admitted(refused.why(), self.rules.limit());
            return Err(RetryError::NotAdmitted(refused));
        }
        Ok(self.rules.options.counted(self.rules.limit(), || self.host.clock.moment()))
    }

    /// A request whose first run succeeded.
    #[inline]
    pub(crate) fn succeeds_at_once(&self, began: Option<Moment>, held: &mut L::Held, course: &mut Course) {
        match self.rules.options.slow {
            None => {
                course.won();
                held.succeeded_at_once(self.rules.limit(), &|| self.host.clock.moment());
            }
            Some(_) => self.succeeds(&mut self.progress(began, mem::take(held)), course),
        }
    }

    /// The first run, which begins with the retry.
    #[inline]
    pub(crate) fn first(&self) -> Attempt {
        Attempt { number: 1, left: self.rules.options.deadline }
    }

    /// A run succeeded, which ends the retry.
    #[inline]
    pub(crate) fn succeeds(&self, progress: &mut Progress<'_>, course: &mut Course) {
        course.won();
        if (L::HOLDS && progress.has_request()) || self.rules.limit().hears_of_successes() {
            self.succeeded(progress);
        }
    }

    /// How long it is until the next run after one that failed with this error, or how the retry ended.
    #[inline]
    pub(crate) fn fails(&self, progress: &mut Progress<'_>, course: &Course, error: &E) -> Result<Duration, Ending> {
        self.loses(progress, course, error, Loss::Failed)
    }

    /// The same of a run that was lost so.
    #[inline(always)]
    pub(crate) fn loses(
        &self,
        progress: &mut Progress<'_>,
        course: &Course,
        error: &E,
        loss: Loss,
    ) -> Result<Duration, Ending> {
        let now = self.host.clock.moment();
        if L::HOLDS {
            progress.failed(loss != Loss::Failed);
        }
        if loss != Loss::Late && !self.hooks.when(error) {
            return Err(Ending::Cancelled);
        }
        let (retry_after, code) = (self.hooks.retry_after(error), self.hooks.code(error));
        let words = self.rules.policy.words(|| self.host.random.draw());
        let wait = progress.lost(&self.rules, now, &mut Lost::new(code, words, retry_after))?;
        match loss {
            Loss::Late => course.is_late(wait),
            Loss::Failed | Loss::TimedOut => course.waits(wait),
        }
        self.hooks.notify(error, wait);
        if wait.is_zero() || !self.rules.options.notifies {
            return Ok(wait);
        }
        Ok(now.after(wait).since(self.host.clock.moment()))
    }

    /// The error of a retry that ended so.
    pub(crate) fn gives_up(
        &self,
        progress: &Progress<'_>,
        course: &mut Course,
        ended: Ending,
        error: E,
    ) -> RetryError<E, L> {
        course.gave_up(ended, progress, self.rules.limit());
        progress.error(ended, error)
    }

    #[cold]
    fn succeeded(&self, progress: &mut Progress) {
        progress.succeeded(&self.rules.options, &|| self.host.clock.moment());
    }

    /// The next run, which begins after the wait for it, or how the retry ended.
    #[inline]
    pub(crate) fn next(&self, progress: &mut Progress<'_>, last: Attempt) -> Result<Attempt, Ending> {
        let began = progress.resume(&self.rules.options, || self.host.clock.moment())?;
        let left = |(deadline, now): (Duration, Moment)| deadline.saturating_sub(progress.passed(now));
        Ok(Attempt { number: last.number + 1, left: self.rules.options.deadline.zip(began).map(left) })
    }
}
