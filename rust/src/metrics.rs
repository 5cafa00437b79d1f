//! Metrics of all retries of the process, for Prometheus.

use crate::system::MadeOnce;
use ::prometheus::core::Collector;
use ::prometheus::{HistogramOpts, HistogramVec, IntCounterVec, Opts, Registry, Result};
use std::time::Duration;

/// The bounds of the histogram of waits, in seconds.
const BOUNDS: [f64; 13] = [0.01, 0.025, 0.05, 0.1, 0.25, 0.5, 1.0, 2.5, 5.0, 10.0, 30.0, 60.0, 300.0];

/// What is counted.
struct Metrics {
    calls: IntCounterVec,
    attempts: IntCounterVec,
    retries: IntCounterVec,
    refusals: IntCounterVec,
    waits: HistogramVec,
}

static METRICS: MadeOnce<&'static Metrics> = MadeOnce::new();

/// Counts all retries of the process, and registers the counts in this registry. Counting begins with the first
/// registry. Before it, a call that ends reads one atomic number. Counting takes locks of the crate `prometheus`: a child
/// that was forked while another thread counted may wait for one for ever.
///
/// | Metric | What it counts | Labels |
/// |---|---|---|
/// | `hikebox_calls_total` | calls that are over, each with all its attempts | `call`, `ending` |
/// | `hikebox_attempts_total` | attempts of calls that are over | `call` |
/// | `hikebox_retries_total` | the same without the first of each | `call` |
/// | `hikebox_refusals_total` | first attempts and retries that a limit refused | `call`, `limit`, `reason` |
/// | `hikebox_wait_seconds` | waits before a retry, as a histogram | `call` |
///
/// The names are those of the Python package. `call` is what [`Retrying::named`](crate::Retrying::named) says, and
/// `ending` an [`Ending`](crate::Ending) such as `won` or `schedule_done`; also `not_retried`, `not_admitted`,
/// `store_failed` and `broken`.
///
/// ```
/// use hikebox::{register_metrics, Budget, Policy, Retrying};
///
/// let registry = prometheus::Registry::new();
/// register_metrics(&registry)?;
/// let (policy, budget): (Policy, _) = (r#"{"recurs":3}"#.parse()?, Budget::new(2)?);
/// let _ = Retrying::new(&policy, &budget).named("fetch").call(|| Err::<(), _>("busy"));
///
/// let text = prometheus::TextEncoder::new().encode_to_string(&registry.gather())?;
/// assert!(text.contains(r#"hikebox_calls_total{call="fetch",ending="limit_refused"} 1"#));
/// assert!(text.contains(r#"hikebox_retries_total{call="fetch"} 2"#));
/// # Ok::<(), Box<dyn std::error::Error>>(())
/// ```
///
/// # Errors
///
/// That of the registry, if it has metrics of these names: it is as it was then.
pub fn register_metrics(registry: &Registry) -> Result<()> {
    let metrics = match METRICS.made() {
        Some(metrics) => metrics,
        None => {
            let made = Metrics::new()?;
            METRICS.get(|| Box::leak(Box::new(made)))
        }
    };
    let all = metrics.collectors();
    for (at, collector) in metrics.collectors().into_iter().enumerate() {
        if let Err(error) = registry.register(collector) {
            // (what was registered just now can be taken out again)
            all.into_iter().take(at).for_each(|earlier| drop(registry.unregister(earlier)));
            return Err(error);
        }
    }
    Ok(())
}

impl Metrics {
    fn new() -> Result<Self> {
        let counter = |name, about, labels: &[&str]| IntCounterVec::new(Opts::new(name, about), labels);
        let waits = HistogramOpts::new("hikebox_wait_seconds", "Seconds that calls wait before a retry.");
        Ok(Self {
            calls: counter(
                "hikebox_calls_total",
                "Calls that are over, each with all its attempts.",
                &["call", "ending"],
            )?,
            attempts: counter("hikebox_attempts_total", "Attempts of calls that are over.", &["call"])?,
            retries: counter(
                "hikebox_retries_total",
                "Attempts of calls that are over, without the first of each.",
                &["call"],
            )?,
            refusals: counter(
                "hikebox_refusals_total",
                "First attempts and retries that a limit refused.",
                &["call", "limit", "reason"],
            )?,
            waits: HistogramVec::new(waits.buckets(BOUNDS.to_vec()), &["call"])?,
        })
    }

    fn collectors(&self) -> [Box<dyn Collector>; 5] {
        let Self { calls, attempts, retries, refusals, waits } = self;
        [
            Box::new(calls.clone()),
            Box::new(attempts.clone()),
            Box::new(retries.clone()),
            Box::new(refusals.clone()),
            Box::new(waits.clone()),
        ]
    }
}

/// A call is over, after so many attempts.
pub(crate) fn ended(call: &str, attempts: u64, ending: &str) {
    if let Some(metrics) = METRICS.made() {
        metrics.calls.with_label_values(&[call, ending]).inc();
        if attempts > 0 {
            metrics.attempts.with_label_values(&[call]).inc_by(attempts);
        }
        if attempts > 1 {
            metrics.retries.with_label_values(&[call]).inc_by(attempts - 1);
        }
    }
}

/// A limit refused the call its first attempt, or a retry.
pub(crate) fn refused(call: &str, limit: &str, reason: &str) {
    if let Some(metrics) = METRICS.made() {
        metrics.refusals.with_label_values(&[call, limit, reason]).inc();
    }
}

/// A call begins to wait for its next attempt.
pub(crate) fn waits(call: &str, wait: Duration) {
    if let Some(metrics) = METRICS.made() {
        metrics.waits.with_label_values(&[call]).observe(wait.as_secs_f64());
    }
}
