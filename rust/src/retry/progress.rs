//! A retry under way, whoever drives it.

use crate::clock::{whole_millis, Moment};
use crate::engine::{Run, Status, LOST, MAX_NUMBER, NO_DEADLINE};
use crate::limits::call_limit::Admitted;
use crate::limits::grants::{Held, Limit};
use crate::limits::holding::Quiet;
#[cfg(any(feature = "prometheus", feature = "tracing"))]
use crate::limits::refused::RefusalReason;
use crate::retry::error::RetryError;
use crate::retry::machine::{Cause, Ending};
use crate::retry::options::Options;
use crate::retry::rules::{CowLimit, Rules};
use crate::retry::stepped::Stepped;
use std::sync::Arc;
use std::time::Duration;

/// A run that failed.
pub(crate) struct Lost {
    /// As the engine is told of it, but for its moments.
    run: Run,
    /// How long the error asks to wait.
    retry_after: Option<Duration>,
}

/// A retry from its first run on. The engine hears of each run when it has failed, in one call: with the moments at which
/// it began and ended. Until the first failure there is nothing to decide, and nothing is drawn, locked or allocated. Of
/// a success it hears nothing: the retry is dropped then, and gives its tickets to be counted.
#[derive(Debug)]
pub(crate) struct Progress<'a> {
    /// When the first run began, where somebody looked at the clock then: policies count from the first failure.
    began: Option<Moment>,
    /// When the run began that is under way, where somebody wants to know whether it is slow.
    run_began: Option<Moment>,
    running: Option<Running>,
    on: On<'a>,
}

/// The limit of a retry, and what it has of that.
#[derive(Debug)]
struct On<'a> {
    limit: CowLimit<'a>,
    /// What admitted it, of a limit that was looked at before the first run, until that fails.
    quiet: Option<Quiet>,
    /// The request, of a limit that was asked before the first run: the retry draws by it.
    request: Option<Arc<Admitted>>,
}

/// A retry that the engine has begun. Its moments are whole milliseconds.
#[derive(Debug)]
struct Running {
    retry: Stepped,
    /// When the first run began, or else when it failed: at the origin.
    began: Moment,
    origin: u64,
    /// The latest moment that the engine was told, or that the run under way began at.
    latest: u64,
    /// How long after the first run began the last one may begin. Where it has one, moments are rounded up, so that a
    /// run which is due by it in whole milliseconds is so by the clock.
    deadline: Option<Duration>,
}

impl<'a> Progress<'a> {
    /// One on this limit whose first run begins now, holding this.
    #[inline]
    pub(crate) fn new(limit: CowLimit<'a>, began: Option<Moment>, held: impl Held) -> Self {
        let (quiet, request) = held.parted();
        Self { began, run_began: began, running: None, on: On { limit, quiet, request } }
    }

    /// How long ago the first run began, where somebody looked at the clock then.
    #[inline]
    pub(crate) fn passed(&self, now: Moment) -> Duration {
        self.began.map_or(Duration::ZERO, |began| now.since(began))
    }

    /// The run under way failed now: how long it is to be waited from then on, or how the retry ended. The wait is the
    /// planned one in full, whatever part of a millisecond the run ended at, or what the error asks for.
    #[inline(always)]
    pub(crate) fn lost(&mut self, rules: &Rules<'_>, now: Moment, lost: &mut Lost) -> Result<Duration, Ending> {
        match lost.retry_after {
            None => Ok(match self.planned(rules, now, lost)? {
                0 => Duration::ZERO,
                wait => Duration::from_millis(wait),
            }),
            Some(retry_after) => self.planned_no_earlier(rules, now, lost, retry_after),
        }
    }

    /// The same where the error asks for a wait.
    #[cold]
    fn planned_no_earlier(
        &mut self,
        rules: &Rules<'_>,
        now: Moment,
        lost: &mut Lost,
        retry_after: Duration,
    ) -> Result<Duration, Ending> {
        let least = rules.options.granted(retry_after, self.passed(now)).ok_or(Ending::Deadline)?;
        Ok(least.max(Duration::from_millis(self.planned(rules, now, lost)?)))
    }

    /// The milliseconds until the start that is planned.
    #[inline(always)]
    fn planned(&mut self, rules: &Rules<'_>, now: Moment, lost: &mut Lost) -> Result<u64, Ending> {
        let on = &self.on;
        match &mut self.running {
            Some(running) => running.lost(running.told_at(now), lost, on),
            None => self.begin(rules, now, lost),
        }
    }

    /// The first run failed: the engine's retry begins. It is put into its place, also where that ends it.
    #[cold]
    fn begin(&mut self, rules: &Rules<'_>, now: Moment, lost: &mut Lost) -> Result<u64, Ending> {
        let Self { began, running, on, .. } = self;
        // (for want of passes 2^42 of them would have to be alive)
        let begun =
            Running::new(rules, on.limit(), began.unwrap_or(now)).map_err(|_| Ending::Broken(Cause::NoMemory))?;
        let running = running.insert(begun);
        let ended = began.map_or(running.origin, |_| running.told_at(now));
        running.lost(ended, lost, on)
    }

    /// Tells a limit that was asked that the run under way failed, by a timeout or otherwise, whether it is retried or
    /// not.
    #[inline]
    pub(crate) fn failed(&mut self, timed_out: bool) {
        let On { limit, quiet, request } = &mut self.on;
        if let Some(quiet) = quiet.take() {
            *request = limit.get().call_limit().map(|limit| Admitted::of(limit.begun(&quiet)));
        }
        if let Some(request) = request {
            request.failed(timed_out);
        }
    }

    /// When the run under way began, where somebody wants to know, or that of these that succeeded.
    pub(crate) fn run_began(&self) -> Option<Moment> {
        self.run_began
    }

    /// The run that succeeded is the one that began then.
    pub(crate) fn won_by(&mut self, run_began: Option<Moment>) {
        self.run_began = run_began;
    }

    /// The run under way succeeded, and ends the retry: the limit counts it, or the one that was asked, to which a slow
    /// one is a failure.
    pub(crate) fn succeeded(&mut self, options: &Options, clock: &dyn Fn() -> Moment) {
        let last = self.running.as_mut().and_then(|running| running.retry.succeeded());
        let was_slow = self.has_request() && options.was_slow(self.run_began, clock);
        if was_slow {
            self.failed(false);
        }
        let On { limit, quiet, request } = &mut self.on;
        let limit = limit.get();
        match (request, quiet.take().zip(limit.call_limit())) {
            (Some(_), _) if was_slow => {}
            (Some(request), _) => request.succeeded(),
            (None, Some((quiet, limit))) => limit.settle(&quiet),
            (None, None) => limit.count_success(last, clock),
        }
    }

    /// The run that is waited for is not made, since an earlier one succeeded: its ticket comes back.
    pub(crate) fn withdraw(&mut self) {
        if let Some(running) = &mut self.running {
            running.retry.withdraw(self.on.limit());
        }
    }

    /// Whether a limit was asked before the first run.
    #[inline]
    pub(crate) fn has_request(&self) -> bool {
        self.on.quiet.is_some() || self.on.request.is_some()
    }

    /// Begins the run that was waited for. Past the deadline the retry is over. `None` is answered where nobody had to
    /// look at the clock: a retry without a deadline takes the run to begin when it is due.
    #[inline]
    pub(crate) fn resume(&mut self, options: &Options, clock: impl Fn() -> Moment) -> Result<Option<Moment>, Ending> {
        if options.slow.is_some() {
            self.run_began = Some(clock());
        }
        let running = match &mut self.running {
            Some(running) => running,
            None => return Ok(None),
        };
        if running.deadline.is_none() {
            running.begins_at(running.latest);
            return Ok(None);
        }
        let now = clock();
        running.resume(now).map(|()| Some(now))
    }

    /// Why a limit refused a retry, by the name that is told, if the retry ended so.
    #[cfg(any(feature = "prometheus", feature = "tracing"))]
    pub(crate) fn refusal(&self, ended: Ending) -> Option<&'static str> {
        let of_request = || self.on.request.as_ref().and_then(|request| request.refusal());
        (ended == Ending::LimitRefused).then(|| of_request().map_or("used_up", RefusalReason::told))
    }

    /// The error of a retry that ended so.
    pub(crate) fn error<E, L>(&self, ended: Ending, error: E) -> RetryError<E, L> {
        let failure = || self.running.as_ref().and_then(|running| running.retry.store_failure());
        match ended {
            Ending::LimitRefused => RetryError::LimitRefused(error),
            Ending::Broken(cause) => match failure() {
                Some(failure) => RetryError::StoreFailed(failure.clone(), error),
                None => RetryError::Broken(cause, error),
            },
            Ending::ScheduleDone => RetryError::ScheduleDone(error),
            Ending::Deadline => RetryError::Deadline(error),
            Ending::Won | Ending::Cancelled => RetryError::NotRetried(error),
        }
    }
}

impl Drop for Progress<'_> {
    #[inline]
    fn drop(&mut self) {
        if let Some(running) = &mut self.running {
            running.retry.give_back(self.on.limit());
        }
    }
}

impl On<'_> {
    /// What the retry draws on.
    #[inline]
    fn limit(&self) -> &dyn Limit {
        match &self.request {
            Some(request) => request,
            None => self.limit.get(),
        }
    }
}

impl Lost {
    #[inline]
    pub(crate) fn new(code: u64, words: [u32; 4], retry_after: Option<Duration>) -> Self {
        let run = Run { began: 0, ended: 0, code: code.min(MAX_NUMBER), report: LOST, words };
        Self { run, retry_after }
    }

    /// The run, which began and ended at these moments.
    #[inline]
    fn between(&mut self, began: u64, ended: u64) -> &Run {
        (self.run.began, self.run.ended) = (began, ended);
        &self.run
    }
}

impl Running {
    /// A retry on this limit, whose first run began then.
    #[inline(always)]
    fn new(rules: &Rules<'_>, limit: &dyn Limit, began: Moment) -> Result<Self, Status> {
        let origin = limit.origin(began);
        let deadline = rules.options.whole_deadline();
        let until =
            deadline.map_or(NO_DEADLINE, |deadline| origin.saturating_add(whole_millis(deadline)).min(MAX_NUMBER));
        let retry = Stepped::new(&rules.policy, limit, until)?;
        Ok(Self { retry, began, origin, latest: origin, deadline })
    }

    /// The run under way failed at this moment: the milliseconds until the start that is planned.
    #[inline(always)]
    fn lost(&mut self, ended: u64, lost: &mut Lost, on: &On<'_>) -> Result<u64, Ending> {
        let began = self.latest;
        self.latest = began.max(ended);
        self.retry.ran(lost.between(began, self.latest), || on.limit())?;
        Ok(self.retry.due().map_or(0, |due| due.saturating_sub(self.latest)))
    }

    /// Begins the run that is due, or that an error had wait, where that is not past the deadline.
    fn resume(&mut self, now: Moment) -> Result<(), Ending> {
        if self.deadline.map_or(false, |deadline| now.since(self.began) > deadline) {
            self.retry.cancel();
            return Err(Ending::Deadline);
        }
        self.begins_at(self.told_at(now));
        Ok(())
    }

    /// The next run begins at this moment, or when it is due where that is later: a clock that did not move while it was
    /// waited is taken to have moved.
    #[inline]
    fn begins_at(&mut self, now: u64) {
        self.latest = self.latest.max(now).max(self.retry.due().unwrap_or(0));
        self.retry.begins();
    }

    /// What the engine is told of a moment.
    #[inline]
    fn told_at(&self, now: Moment) -> u64 {
        let passed = match self.deadline {
            Some(_) => now.millis_begun_since(self.began),
            None => now.millis_since(self.began),
        };
        (self.origin + passed).min(MAX_NUMBER)
    }
}

#[cfg(test)]
mod tests {
    use crate::limits::part::Root;
    use crate::{retry, Budget, Policy};
    use std::sync::mpsc;
    use std::thread;
    use std::time::Duration;

    #[test]
    fn a_call_that_succeeds_at_once_waits_for_no_lock() {
        let (policy, budget): (Policy, _) = (r#"{"recurs":3}"#.parse().unwrap(), Budget::new(1).unwrap());
        let (tells, told) = mpsc::channel();
        let ended = policy.with(|_| {
            budget.with(|_| {
                let (policy, budget) = (policy.clone(), budget.clone());
                thread::spawn(move || tells.send(retry(&policy, &budget, || Ok::<_, ()>(5))));
                told.recv_timeout(Duration::from_secs(20))
            })
        });
        assert_eq!(ended, Ok(Ok(5)));
    }
}
