//! What a call tells of its course: to `tracing`, and to the metrics of Prometheus.

use crate::limits::grants::{Limit, Source};
#[cfg(feature = "prometheus")]
use crate::metrics;
use crate::retry::machine::Ending;
use crate::retry::options::Options;
use crate::retry::progress::Progress;
use std::future::Future;
use std::time::Duration;
#[cfg(feature = "tracing")]
use tracing::Instrument;

/// A call with all its runs, from before its first one on. One that is dropped before it was over was cancelled.
pub(crate) struct Course {
    #[cfg(feature = "prometheus")]
    call: &'static str,
    runs: u64,
    is_over: bool,
    #[cfg(feature = "tracing")]
    span: tracing::Span,
}

impl Course {
    /// One that begins now.
    pub(crate) fn begun(options: &Options) -> Self {
        let call = options.call;
        Self {
            #[cfg(feature = "prometheus")]
            call,
            runs: 0,
            is_over: false,
            #[cfg(feature = "tracing")]
            span: tracing::debug_span!(target: "hikebox", "retry", call),
        }
    }

    /// What this does is a part of the call.
    pub(crate) fn within<T>(&self, part: impl FnOnce() -> T) -> T {
        #[cfg(feature = "tracing")]
        let _entered = self.span.enter();
        part()
    }

    /// A run begins, which this does.
    pub(crate) fn run<T>(&mut self, run: impl FnOnce() -> T) -> T {
        self.runs += 1;
        self.within(run)
    }

    /// A run begins, which is this future.
    pub(crate) fn run_of<P: Future>(&mut self, run: P) -> impl Future<Output = P::Output> {
        self.runs += 1;
        #[cfg(feature = "tracing")]
        let run = run.instrument(self.span.clone());
        run
    }

    /// The latest run failed, and another one follows after this wait.
    pub(crate) fn waits(&self, wait: Duration) {
        #[cfg(feature = "tracing")]
        self.within(|| {
            tracing::debug!(target: "hikebox", run = self.runs, wait = wait.as_secs_f64(), "a run failed, and another follows");
        });
        #[cfg(feature = "prometheus")]
        metrics::waits(self.call, wait);
    }

    /// The latest run is late and goes on, and another one follows after this wait.
    pub(crate) fn is_late(&self, wait: Duration) {
        #[cfg(feature = "tracing")]
        self.within(|| {
            tracing::debug!(target: "hikebox", run = self.runs, wait = wait.as_secs_f64(), "a run is late, and another follows");
        });
        #[cfg(feature = "prometheus")]
        metrics::waits(self.call, wait);
    }

    /// A run succeeded.
    pub(crate) fn won(&mut self) {
        #[cfg(feature = "tracing")]
        if self.runs > 1 {
            self.within(|| tracing::debug!(target: "hikebox", runs = self.runs, ending = "won", "the call succeeded"));
        }
        self.over("won");
    }

    /// It gave up, since its retry ended so.
    pub(crate) fn gave_up(&mut self, ended: Ending, progress: &Progress<'_>, limit: &dyn Limit) {
        self.ended(ended.told(), limit, progress.refusal(ended));
    }

    /// Its first run was refused, for a reason of this name.
    pub(crate) fn not_admitted(&mut self, why: &'static str, limit: &dyn Limit) {
        self.ended("not_admitted", limit, Some(why));
    }

    fn ended(&mut self, ending: &'static str, limit: &dyn Limit, refusal: Option<&'static str>) {
        let limit = refusal.map(|_| kind_of(&limit.source()));
        #[cfg(feature = "tracing")]
        self.within(|| {
            tracing::warn!(target: "hikebox", runs = self.runs, ending, limit, reason = refusal, "the call gave up");
        });
        #[cfg(feature = "prometheus")]
        if let (Some(limit), Some(reason)) = (limit, refusal) {
            metrics::refused(self.call, limit, reason);
        }
        self.over(ending);
    }

    fn over(&mut self, _ending: &'static str) {
        self.is_over = true;
        #[cfg(feature = "prometheus")]
        metrics::ended(self.call, self.runs, _ending);
    }
}

impl Drop for Course {
    fn drop(&mut self) {
        if !self.is_over {
            #[cfg(feature = "tracing")]
            self.within(
                || tracing::debug!(target: "hikebox", runs = self.runs, ending = "cancelled", "the call was left"),
            );
            self.over("cancelled");
        }
    }
}

/// The kind of a limit, by the name of its type.
fn kind_of(source: &Source) -> &'static str {
    match source {
        Source::Budget(_) => "Budget",
        Source::Quota(_) => "Quota",
        Source::CallLimit(_) => "CallLimit",
        Source::Store(_) => "Tickets",
        Source::Unlimited => "Unlimited",
    }
}
