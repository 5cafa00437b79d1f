//! What a call tells of its course: spans and events for `tracing`, by a subscriber that collects them, and metrics for
//! Prometheus.
#![cfg(all(feature = "tower", feature = "tracing"))]

use hikebox::{
    Breaker, Bucket, Budget, CallLimit, Grants, NoTicket, Policy, Quota, RetryLayer, Retrying, Ticket, Tickets,
    Unlimited,
};
use std::cell::RefCell;
use std::fmt::{Debug, Write};
use std::future::{pending, ready};
use std::panic::{catch_unwind, AssertUnwindSafe};
use std::sync::atomic::{AtomicU64, Ordering};
use std::sync::{Arc, Once};
use std::time::Duration;
use tower::{service_fn, Layer, Service, ServiceExt};
use tracing::field::{Field, Visit};
use tracing::span::{Attributes, Id, Record};
use tracing::{Event, Metadata, Subscriber};

thread_local! {
    /// What was told on this thread, line by line.
    static TOLD: RefCell<Vec<String>> = RefCell::default();
    /// The spans that this thread is in.
    static WITHIN: RefCell<Vec<u64>> = RefCell::default();
}

/// Collects what each thread tells.
struct Collects;

/// Fields as text.
struct Text(String);

impl Visit for Text {
    fn record_debug(&mut self, field: &Field, value: &dyn Debug) {
        match field.name() {
            "message" => write!(self.0, " \"{value:?}\""),
            name => write!(self.0, " {name}={value:?}"),
        }
        .unwrap();
    }
}

fn line(begins: String, record: impl FnOnce(&mut Text)) {
    let mut text = Text(begins);
    record(&mut text);
    TOLD.with(|told| told.borrow_mut().push(text.0));
}

impl Subscriber for Collects {
    fn enabled(&self, metadata: &Metadata<'_>) -> bool {
        ["hikebox", "told"].contains(&metadata.target())
    }

    fn new_span(&self, span: &Attributes<'_>) -> Id {
        static NEXT: AtomicU64 = AtomicU64::new(1);
        line(format!("{} span {}", span.metadata().level(), span.metadata().name()), |text| span.record(text));
        Id::from_u64(NEXT.fetch_add(1, Ordering::Relaxed))
    }

    fn event(&self, event: &Event<'_>) {
        let depth = WITHIN.with(|within| within.borrow().len());
        line(format!("{} at depth {depth}", event.metadata().level()), |text| event.record(text));
    }

    fn enter(&self, span: &Id) {
        WITHIN.with(|within| within.borrow_mut().push(span.into_u64()));
    }

    fn exit(&self, span: &Id) {
        assert_eq!(WITHIN.with(|within| within.borrow_mut().pop()), Some(span.into_u64()));
    }

    fn record(&self, _: &Id, _: &Record<'_>) {}

    fn record_follows_from(&self, _: &Id, _: &Id) {}
}

/// What this thread tells meanwhile.
fn told(calls: impl FnOnce()) -> Vec<String> {
    static COLLECTS: Once = Once::new();
    COLLECTS.call_once(|| tracing::subscriber::set_global_default(Collects).unwrap());
    TOLD.with(|told| told.borrow_mut().clear());
    calls();
    assert!(WITHIN.with(|within| within.borrow().is_empty()));
    TOLD.with(|told| told.take())
}

fn policy(json: &str) -> Policy {
    json.parse().unwrap()
}

/// Two retries, a tenth of a second after each failure.
fn twice() -> Policy {
    policy(r#"{"meet":[{"recurs":2},{"spaced":100}]}"#)
}

/// A call that fails so often and then succeeds, and tells of each run.
fn fails(times: u32) -> impl FnMut() -> Result<u32, &'static str> + Clone {
    let mut runs = 0;
    move || {
        runs += 1;
        tracing::info!(target: "told", "called");
        if runs > times {
            Ok(runs)
        } else {
            Err("busy")
        }
    }
}

/// A breaker that is open, from the one call that failed on.
fn open() -> CallLimit {
    let breaker = CallLimit::new(Breaker::consecutive(1, policy(r#"{"spaced":30000}"#))).unwrap();
    let mut request = breaker.request().unwrap();
    request.admit().unwrap();
    request.failed();
    drop(request);
    breaker
}

const CALLED: &str = r#"INFO at depth 1 "called""#;
const FIRST: &str = r#"DEBUG at depth 1 "a run failed, and another follows" run=1 wait=0.1"#;
const SECOND: &str = r#"DEBUG at depth 1 "a run failed, and another follows" run=2 wait=0.1"#;
const DONE: &str = r#"WARN at depth 1 "the call gave up" runs=3 ending="schedule_done""#;
const WON: &str = r#"DEBUG at depth 1 "the call succeeded" runs=2 ending="won""#;

#[test]
fn a_call_is_a_span_with_an_event_for_each_retry_and_its_end() {
    let policy = twice();
    let retrying = Retrying::new(&policy, &Unlimited).named("fetch").sleep(|_| ());
    let span = r#"DEBUG span retry call="fetch""#;
    assert_eq!(told(|| drop(retrying.call(fails(9)))), [span, CALLED, FIRST, CALLED, SECOND, CALLED, DONE]);
    assert_eq!(told(|| drop(retrying.call(fails(1)))), [span, CALLED, FIRST, CALLED, WON]);
    assert_eq!(told(|| drop(retrying.call(fails(0)))), [span, CALLED]);
    let nameless = told(|| drop(hikebox::retry(&policy, &Unlimited, fails(0))));
    assert_eq!(nameless, [r#"DEBUG span retry call="a call""#, CALLED]);
}

#[test]
fn futures_run_within_the_span_and_wait_outside() {
    let policy = twice();
    let one = |name| {
        let retrying = Retrying::new(&policy, &Unlimited).named(name);
        async move {
            let mut runs = 0;
            let run = || {
                runs += 1;
                let is_won = runs > 1;
                async move {
                    tokio::task::yield_now().await;
                    tracing::info!(target: "told", "called");
                    if is_won {
                        Ok(())
                    } else {
                        Err("busy")
                    }
                }
            };
            retrying.call_async(run).await.unwrap();
        }
    };
    let runtime = tokio::runtime::Builder::new_current_thread().enable_time().start_paused(true).build().unwrap();
    let of_both = told(|| {
        runtime.block_on(async { tokio::join!(one("a"), one("b")) });
    });
    let spans = [r#"DEBUG span retry call="a""#, r#"DEBUG span retry call="b""#];
    assert_eq!(of_both, [spans[0], spans[1], CALLED, FIRST, CALLED, FIRST, CALLED, WON, CALLED, WON]);
}

#[test]
fn a_service_tells_the_same() {
    let runtime = tokio::runtime::Builder::new_current_thread().enable_time().start_paused(true).build().unwrap();
    let call = |times| {
        let mut call = fails(times);
        let service = service_fn(move |()| {
            let answer = call();
            async move {
                tracing::info!(target: "told", "polled");
                answer
            }
        });
        let layer = RetryLayer::new(twice(), Unlimited).named("asked");
        told(|| {
            let _ = runtime.block_on(layer.layer(service).oneshot(()));
        })
    };
    let span = r#"DEBUG span retry call="asked""#;
    let polled = r#"INFO at depth 1 "polled""#;
    let thrice = [span, CALLED, polled, FIRST, CALLED, polled, SECOND, CALLED, polled, DONE];
    assert_eq!(call(9), thrice);
    assert_eq!(call(1), [span, CALLED, polled, FIRST, CALLED, polled, WON]);
    assert_eq!(call(0), [span, CALLED, polled]);

    let refused = told(|| {
        let mut service = RetryLayer::new(twice(), open()).layer(service_fn(|()| ready(Err::<(), _>("busy"))));
        assert!(runtime.block_on(service.call(())).is_err());
    });
    let why = r#"runs=0 ending="not_admitted" limit="CallLimit" reason="breaker_open""#;
    let gave_up = format!(r#"WARN at depth 1 "the call gave up" {why}"#);
    assert_eq!(refused, [r#"DEBUG span retry call="a call""#.to_owned(), gave_up]);
}

/// A store that fails.
struct Fails;

impl Tickets for Fails {
    fn draw(&self) -> Result<Ticket, NoTicket> {
        Err(NoTicket::failed("no disk"))
    }
}

/// How a call under this limit ends that always fails: what it tells in the end.
fn end_under<B: Grants>(limit: &B) -> String {
    let policy = twice();
    told(|| drop(Retrying::new(&policy, limit).sleep(|_| ()).call(|| Err::<(), _>("busy")))).pop().unwrap()
}

#[test]
fn each_ending_has_its_name_and_a_refusal_its_limit_and_reason() {
    let gave_up = |why: &str| format!(r#"WARN at depth 1 "the call gave up" {why}"#);
    assert_eq!(end_under(&Unlimited), gave_up(r#"runs=3 ending="schedule_done""#));
    let refused = |limit: &str, reason: &str, runs: u32| {
        gave_up(&format!(r#"runs={runs} ending="limit_refused" limit="{limit}" reason="{reason}""#))
    };
    assert_eq!(end_under(&Budget::new(1).unwrap()), refused("Budget", "used_up", 2));
    let quota = Quota::new(0, 0.0, Duration::from_secs(3600)).unwrap();
    assert_eq!(end_under(&quota), refused("Quota", "used_up", 1));
    // a token is lost by each failure, and there is none at half of two or below
    assert_eq!(
        end_under(&CallLimit::new(Bucket::grpc(2, 0.1).unwrap()).unwrap()),
        refused("CallLimit", "level_low", 1)
    );
    assert_eq!(end_under(&Arc::new(Fails)), gave_up(r#"runs=1 ending="store_failed""#));
    let why = r#"runs=0 ending="not_admitted" limit="CallLimit" reason="breaker_open""#;
    assert_eq!(end_under(&open()), gave_up(why));

    let policy = twice();
    let retrying = Retrying::new(&policy, &Unlimited).sleep(|_| ());
    let late = told(|| drop(retrying.clone().deadline(Duration::from_millis(50)).call(|| Err::<(), _>("busy"))));
    assert_eq!(late.last(), Some(&gave_up(r#"runs=1 ending="deadline""#)));
    let other = told(|| drop(retrying.clone().when(|_| false).call(|| Err::<(), _>("gone"))));
    assert_eq!(other.last(), Some(&gave_up(r#"runs=1 ending="not_retried""#)));

    let was_left = |runs| Some(format!(r#"DEBUG at depth 1 "the call was left" runs={runs} ending="cancelled""#));
    let panicked = told(|| {
        let call = || -> Result<(), &str> { panic!("a call that panics") };
        assert!(catch_unwind(AssertUnwindSafe(|| retrying.call(call))).is_err());
    });
    assert_eq!(panicked.last().cloned(), was_left(1));
    let runtime = tokio::runtime::Builder::new_current_thread().enable_time().start_paused(true).build().unwrap();
    let dropped = told(|| {
        let retrying = Retrying::new(&policy, &Unlimited);
        let call = retrying.call_async(pending::<Result<(), &str>>);
        runtime.block_on(async { assert!(tokio::time::timeout(Duration::from_secs(1), call).await.is_err()) });
    });
    assert_eq!(dropped.last().cloned(), was_left(1));
    let unpolled = told(|| drop(Retrying::<&str>::new(&policy, &Unlimited).call_async(|| ready(Ok(())))));
    assert_eq!(unpolled, [] as [String; 0]);
}

// The first run is late after 50 ms, and the second one, which begins 100 ms after that, succeeds at once.
#[test]
fn a_late_run_is_told_as_late() {
    let policy = twice();
    let retrying = Retrying::new(&policy, &Unlimited).hedge_after(Duration::from_millis(50));
    let fetch = |run| async move {
        tracing::info!(target: "told", "called");
        if run == 1 {
            pending().await
        }
        Ok::<_, std::io::Error>(run)
    };
    let runtime = tokio::runtime::Builder::new_current_thread().enable_time().start_paused(true).build().unwrap();
    let lines = told(|| {
        let answer = runtime.block_on(retrying.call_async_with(|attempt| fetch(attempt.number())));
        assert_eq!(answer.unwrap(), 2);
    });
    let late = r#"DEBUG at depth 1 "a run is late, and another follows" run=1 wait=0.1"#;
    assert_eq!(lines, [r#"DEBUG span retry call="a call""#, CALLED, late, CALLED, WON]);
}

#[cfg(feature = "prometheus")]
mod metrics {
    use super::*;
    use hikebox::register_metrics;
    use prometheus::{IntCounterVec, Opts, Registry, TextEncoder};
    use std::path::Path;
    use std::{fs, thread};

    /// A registry of the metrics. The first one of the process has nothing of the call before it.
    fn registered() -> Registry {
        static FIRST: Once = Once::new();
        let registry = Registry::new();
        FIRST.call_once(|| {
            drop(Retrying::new(&twice(), &Unlimited).named("before").sleep(|_| ()).call(fails(9)));
            register_metrics(&registry).unwrap();
            assert_eq!(counts(&registry, "before"), [] as [String; 0]);
        });
        let registry = Registry::new();
        register_metrics(&registry).unwrap();
        registry
    }

    /// The lines of this registry that are of this call, without the buckets.
    fn counts(registry: &Registry, call: &str) -> Vec<String> {
        let text = TextEncoder::new().encode_to_string(&registry.gather()).unwrap();
        let of_call = |line: &&str| line.contains(&format!(r#"call="{call}""#)) && !line.contains("_bucket");
        text.lines().filter(of_call).map(|line| line.replace(&format!(r#"call="{call}""#), "")).collect()
    }

    #[test]
    fn all_calls_of_the_process_are_counted_from_the_first_registry_on() {
        let (registry, policy, budget) = (registered(), twice(), Budget::new(1).unwrap());
        let retrying = |name| Retrying::new(&policy, &budget).named(name).sleep(|_| ());
        for times in [0, 1, 9] {
            drop(retrying("after").call(fails(times)));
        }
        // one run, two with the one ticket, and one whose retry is refused
        let wanted = [
            "hikebox_attempts_total{} 4",
            r#"hikebox_calls_total{,ending="limit_refused"} 1"#,
            r#"hikebox_calls_total{,ending="won"} 2"#,
            r#"hikebox_refusals_total{,limit="Budget",reason="used_up"} 1"#,
            "hikebox_retries_total{} 1",
            "hikebox_wait_seconds_sum{} 0.1",
            "hikebox_wait_seconds_count{} 1",
        ];
        assert_eq!(counts(&registry, "after"), wanted);
        drop(Retrying::new(&policy, &open()).named("refused").call(fails(0)));
        let refused = [
            r#"hikebox_calls_total{,ending="not_admitted"} 1"#,
            r#"hikebox_refusals_total{,limit="CallLimit",reason="breaker_open"} 1"#,
        ];
        assert_eq!(counts(&registry, "refused"), refused);

        // each registry has the same counts, and has them once
        let other = Registry::new();
        register_metrics(&other).unwrap();
        assert_eq!(counts(&other, "after"), wanted);
        assert!(register_metrics(&other).is_err());
        assert_eq!(counts(&other, "after"), wanted);
        // one that has a metric of this name is left as it is
        let taken = Registry::new();
        let theirs = IntCounterVec::new(Opts::new("hikebox_refusals_total", "Another one."), &["call"]).unwrap();
        theirs.with_label_values(&["theirs"]).inc();
        taken.register(Box::new(theirs)).unwrap();
        assert!(register_metrics(&taken).is_err());
        let names: Vec<_> = taken.gather().iter().map(|family| family.get_name().to_owned()).collect();
        assert_eq!(names, ["hikebox_refusals_total"]);
    }

    #[test]
    fn threads_count_each_call_once() {
        let registry = registered();
        let (policy, limit) = (twice(), Quota::new(1000, 0.0, Duration::from_secs(3600)).unwrap());
        let call = || {
            let retrying = Retrying::new(&policy, &limit).named("at once").sleep(|_| ());
            (0..500).for_each(|_| drop(retrying.call(fails(1))));
        };
        thread::scope(|scope| (0..8).for_each(|_| drop(scope.spawn(call))));
        // each of the thousand tickets makes a second run, which succeeds
        let counted = counts(&registry, "at once");
        let wanted = [
            "hikebox_attempts_total{} 5000",
            r#"hikebox_calls_total{,ending="limit_refused"} 3000"#,
            r#"hikebox_calls_total{,ending="won"} 1000"#,
            r#"hikebox_refusals_total{,limit="Quota",reason="used_up"} 3000"#,
            "hikebox_retries_total{} 1000",
        ];
        assert_eq!(counted[..5], wanted);
        assert_eq!(counted.last().unwrap(), "hikebox_wait_seconds_count{} 1000");
    }

    /// One dashboard serves both: the metrics of the Python package, if they are beside this crate.
    #[test]
    fn names_labels_and_bounds_are_those_of_python() {
        let above = Path::new(env!("CARGO_MANIFEST_DIR")).ancestors();
        let python = match above.map(|folder| folder.join("python/src/hikebox/metrics.py")).find(|file| file.is_file())
        {
            Some(file) => fs::read_to_string(file).unwrap(),
            None => return eprintln!("skipped: no metrics of Python beside the crate"),
        };
        for (name, labels) in [
            ("calls", r#"("call", "ending")"#),
            ("attempts", r#"("call",)"#),
            ("retries", r#"("call",)"#),
            ("refusals", r#"("call", "limit", "reason")"#),
        ] {
            let line = python.lines().find(|line| line.trim().starts_with(&format!("\"{name}\": (")));
            assert!(line.unwrap().ends_with(&format!(", {labels}),")), "{line:?}");
        }
        assert!(python.contains(r#""hikebox_wait_seconds", _WAITS, ("call",)"#));
        let registry = registered();
        drop(Retrying::new(&twice(), &Unlimited).named("bounds").sleep(|_| ()).call(fails(1)));
        let text = TextEncoder::new().encode_to_string(&registry.gather()).unwrap();
        let of_call = text.lines().filter(|line| line.starts_with(r#"hikebox_wait_seconds_bucket{call="bounds""#));
        let bounds: Vec<_> = of_call.filter_map(|line| line.split("le=\"").nth(1)?.split('"').next()).collect();
        let floats = |bound: &&str| bound.parse::<f64>().ok().filter(|bound| bound.is_finite());
        let bounds: Vec<_> = bounds.iter().filter_map(floats).map(|bound| format!("{bound:?}")).collect();
        assert!(python.contains(&format!("_BOUNDS = ({})", bounds.join(", "))), "{bounds:?}");
    }
}
