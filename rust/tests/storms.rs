//! Storms: that they are those of `zsched storm`, their numbers, and what is refused.

mod common;

use hikebox::{Axis, Breaker, Bucket, InFlight, Measure, Sweep, Terms, Throttle};
use hikebox::{LimitError, Policy, Population, PopulationReport, Schedule, Storm, StormError, StormReport};
use std::error::Error;
use std::path::Path;
use std::sync::atomic::{AtomicU64, Ordering};
use std::time::Duration;

const SECOND: Duration = Duration::from_secs(1);

fn seconds(count: u64) -> Duration {
    Duration::from_secs(count)
}

fn millis(count: u64) -> Duration {
    Duration::from_millis(count)
}

fn policy(schedule: Schedule) -> Policy {
    Policy::new(&schedule).unwrap()
}

fn back_off() -> Schedule {
    Schedule::exponential(millis(100), 2).cap(seconds(10))
}

fn full() -> Policy {
    policy(Schedule::recurs(8) & back_off().jittered(0.0..1.0))
}

/// What `zsched storm` prints.
fn zsched(form: &str, options: &str, policy: &Policy) -> String {
    zsched_beside(form, options, policy, &[])
}

/// The same with populations beside the first one: the words of `--beside` before the file, and the policy.
fn zsched_beside(form: &str, options: &str, policy: &Policy, others: &[(&str, &Policy)]) -> String {
    // (tests run side by side)
    static FILES: AtomicU64 = AtomicU64::new(0);
    let beside = |(words, policy): &(&str, &Policy)| {
        let name = format!("beside-{}.json", FILES.fetch_add(1, Ordering::Relaxed));
        let path = Path::new(env!("CARGO_TARGET_TMPDIR")).join(name);
        std::fs::write(&path, policy.as_json()).unwrap();
        ["--beside".to_owned(), format!("{words}={}", path.to_str().unwrap())]
    };
    let arguments = ["storm", form].into_iter().chain(options.split_whitespace()).map(str::to_owned);
    let arguments = arguments.chain(others.iter().flat_map(beside)).chain(["-".to_owned()]);
    let (status, text) = common::zsched(arguments, policy.as_json());
    assert!(matches!(status, Some(0 | 6)), "{options}");
    text
}

#[test]
#[cfg_attr(windows, ignore = "zsched is a program of Linux")]
fn a_storm_is_what_the_program_prints() {
    let three = policy(Schedule::recurs(3));
    let spaced = policy(Schedule::recurs(2) & Schedule::spaced(millis(10)));
    let cases: [(Storm, &Policy, &str); 12] = [
        (Storm::new(&three).seconds(15), &three, "--seconds 15"),
        (Storm::brown_out(&three).seconds(12), &three, "--seconds 12 --outage 0..0 --slow 10000..20000@50"),
        (Storm::new(&full()).rate(90).seconds(12).seed(7), &full(), "--rate 90 --seconds 12 --words 7"),
        (
            Storm::new(&three).seconds(1).budget(5).outage(SECOND / 10..SECOND),
            &three,
            "--seconds 1 --budget 5 --outage 100..1000",
        ),
        (
            Storm::new(&spaced).rate(40).together(2).seconds(2).no_outage().quota(1, 0.1, millis(100)).capacity(20),
            &spaced,
            "--rate 40 --together 2 --seconds 2 --outage 0..0 --quota 1/100/100 --capacity 20",
        ),
        (
            Storm::new(&three).rate(100).seconds(3).slow(SECOND..seconds(2), 29).window(millis(250)).capacity(110),
            &three,
            "--rate 100 --seconds 3 --slow 1000..2000@29 --window 250 --capacity 110",
        ),
        (
            Storm::new(&three).rate(50).seconds(4).no_outage().rates([
                (SECOND..seconds(2), 300),
                (seconds(2)..millis(2345), 0),
                (seconds(3)..seconds(9), 7),
            ]),
            &three,
            "--rate 50 --seconds 4 --outage 0..0 --rates 1000..2000@300,2000..2345@0,3000..9000@7",
        ),
        (Storm::new(&three).seconds(20).until(millis(10_500)), &three, "--seconds 20 --until 10500"),
        (Storm::new(&three).seconds(20).calls(9000), &three, "--seconds 20 --calls 9000"),
        (
            Storm::new(&three).seconds(1).rate(1).queue(0).patience(millis(1)),
            &three,
            "--seconds 1 --rate 1 --queue 0 --patience 1",
        ),
        (
            Storm::new(&three).rate(100).seconds(12).capacity(60).replicas(2).down(1),
            &three,
            "--rate 100 --seconds 12 --capacity 60 --replicas 2 --down 1",
        ),
        (Storm::new(&three).rate(100).seconds(12).replicas(3), &three, "--rate 100 --seconds 12 --replicas 3"),
    ];
    for (storm, policy, options) in cases {
        let report = storm.play().unwrap();
        assert_eq!(report.to_json() + "\n", zsched("--json", options, policy), "{options}");
        assert_eq!(report.to_csv(), zsched("--csv", options, policy), "{options}");
    }
}

#[test]
#[cfg_attr(windows, ignore = "zsched is a program of Linux")]
fn a_storm_of_several_populations_is_what_the_program_prints() {
    let (three, full) = (policy(Schedule::recurs(3)), full());
    let storm = || Storm::new(&full).rate(90).seconds(12).capacity(100);
    let options = "--rate 90 --seconds 12 --capacity 100";
    let limited = || Population::new(20, &three).limited(true);
    type Case<'a> = (Storm, &'a str, Vec<(&'a str, &'a Policy)>);
    let cases: [Case; 5] = [
        (storm().beside(Population::new(30, &three)), "", vec![("30", &three)]),
        (storm().quota(1, 0.1, SECOND).beside(limited()), "--quota 1/100/1000", vec![("20+limited", &three)]),
        (
            storm().budget(9).beside(Population::new(99, &three).patience(2 * SECOND)),
            "--budget 9",
            vec![("99@2000", &three)],
        ),
        (
            storm().limit(InFlight::envoy(20.0, 3).unwrap()).beside(limited()).beside(Population::new(1, &full)),
            "--limit inflight:3/200",
            vec![("20+limited", &three), ("1", &full)],
        ),
        (
            storm()
                .calls(900)
                .beside(Population::new(10, &full))
                .beside(Population::new(33, &three).patience(millis(5)).limited(true))
                .beside(Population::new(7, &full).patience(millis(50)).limited(true).limited(false)),
            "--calls 900",
            vec![("10", &full), ("33@5+limited", &three), ("7@50", &full)],
        ),
    ];
    for (storm, more, others) in cases {
        let (report, options) = (storm.play().unwrap(), format!("{options} {more}"));
        assert_eq!(report.populations.len(), others.len() + 1);
        assert_eq!(report.to_json() + "\n", zsched_beside("--json", &options, &full, &others), "{options} {others:?}");
        assert_eq!(report.to_csv(), zsched_beside("--csv", &options, &full, &others), "{options} {others:?}");
    }
}

#[test]
#[cfg_attr(windows, ignore = "zsched is a program of Linux")]
fn a_storm_under_each_limit() {
    let breaker = Breaker { probe_deadline: SECOND, ..Breaker::consecutive(5, policy(Schedule::spaced(30 * SECOND))) };
    let cases: [(Terms, &str); 5] = [
        (Bucket::grpc(100, 0.1).unwrap().into(), "grpc:100/100"),
        (Bucket::aws().into(), "aws"),
        (InFlight::envoy(20.0, 3).unwrap().into(), "inflight:3/200"),
        (breaker.into(), "breaker:5/1/1000"),
        (Throttle::google().into(), "throttle:2000/60000"),
    ];
    for (terms, word) in cases {
        let storm = Storm::new(&full()).rate(80).capacity(100).queue(500).limit(terms);
        let options = format!("--rate 80 --capacity 100 --queue 500 --limit {word}");
        let report = storm.play().unwrap();
        assert_eq!(report.to_json() + "\n", zsched("--json", &options, &full()), "{word}");
        // (a limit may deny first calls, too, and such a request makes no call)
        let said = report.to_string();
        assert!(said.contains(&format!(" lost, {} denied, ", report.totals.denied)), "{said}");
        let denies_first_calls = word.starts_with("breaker") || word.starts_with("throttle");
        assert_eq!(said.contains("; the most requests and retries in a window "), denies_first_calls, "{said}");
    }
    let dear = Bucket { capacity: 1.0, cost: 2.0, ..Bucket::default() };
    for (bucket, number) in [(dear, "cost"), (Bucket { timeout_cost: Some(501.0), ..Bucket::aws() }, "timeout_cost")] {
        let error = Storm::new(&full()).limit(bucket).play().unwrap_err();
        assert!(matches!(error, StormError::Tickets(LimitError::OutOfRange { parameter, .. }) if parameter == number));
        assert_eq!(error.to_string(), format!("{number}: expected 0, or from 0.001 to the capacity, got another"));
    }
}

#[test]
fn the_herd_is_won_by_jitter() {
    let won = |schedule: Schedule| Storm::herd(&policy(schedule)).play().unwrap().totals.won;
    assert_eq!(won(Schedule::recurs(8) & back_off()), 3700);
    assert_eq!(won(Schedule::recurs(8) & back_off().jittered(0.0..1.0)), 9885);
    assert_eq!(won(Schedule::recurs(8) & back_off().jittered(0.5..1.0)), 10_000);
}

#[test]
fn one_request_by_hand() {
    let report = Storm::new(&policy(Schedule::recurs(3))).rate(1).seconds(1).no_outage().play().unwrap();
    assert_eq!(report.windows.len(), 1);
    let window = report.windows[0];
    assert_eq!((window.from, window.requests, window.won, window.succeeded), (Duration::ZERO, 1, 1, 1));
    assert_eq!((window.retries, window.refused, window.shed, window.late, window.waiting), (0, 0, 0, 0, 0));
    let totals = report.totals;
    assert_eq!((totals.p50, totals.p99, totals.slowest), (Some(millis(1)), Some(millis(1)), Some(millis(1))));
    assert_eq!((totals.most_calls, totals.most_from), (1, Duration::ZERO));
    assert_eq!(
        report.to_string(),
        "1 requests: 1 won, 0 lost, 0 denied a retry, 0 left open\n\
         1 calls, 1.00 for each request; the most in a window 1, from 0ns on\nrecovered from 0ns on"
    );
}

/// Calls go to two replicas in turn, so that a retry at once comes to the one that is not down.
#[test]
fn one_of_two_replicas_is_down_by_hand() {
    let four = |retries| {
        let policy = policy(Schedule::recurs(retries));
        let storm = Storm::new(&policy).rate(4).together(4).seconds(1).outage(Duration::ZERO..SECOND).replicas(2);
        (storm.clone().play().unwrap().totals.won, storm.down(1).play().unwrap().totals.won)
    };
    assert_eq!((four(0), four(1)), ((0, 2), (0, 4)));
}

/// Of two requests that come together the first is the second population's.
#[test]
fn a_budget_of_none_beside_clients_who_do_not_draw_on_it_by_hand() {
    let once = policy(Schedule::recurs(1) & Schedule::spaced(millis(10)));
    let storm = || Storm::new(&once).rate(2).together(2).seconds(1).outage(Duration::ZERO..millis(10)).budget(0);
    let counted = |own: &PopulationReport| (own.share, own.totals.won, own.totals.denied, own.totals.calls);
    let report = storm().beside(Population::new(30, &once)).play().unwrap();
    assert_eq!(report.populations.iter().map(counted).collect::<Vec<_>>(), [(70, 0, 1, 1), (30, 1, 0, 2)]);
    assert_eq!(report.populations[1].totals.slowest, Some(millis(11)));
    let csv = report.populations[1].to_csv();
    assert_eq!(csv, "from,requests,won,retries,succeeded,refused,shed,late,waiting\n0,1,1,1,1,1,0,0,0\n");
    assert!(
        report.to_string().ends_with(
            "never recovered\n\
             70 %: 1 requests: 0 won, 0 lost, 1 denied a retry, 0 left open\n\
             30 %: 1 requests: 1 won, 0 lost, 0 denied a retry, 0 left open"
        ),
        "{report}"
    );
    let limited = storm().beside(Population::new(30, &once).limited(true)).play().unwrap();
    assert_eq!(limited.populations.iter().map(counted).collect::<Vec<_>>(), [(70, 0, 1, 1), (30, 0, 1, 1)]);
    assert!(storm().play().unwrap().populations.is_empty());
}

#[test]
fn the_reports_on_populations_add_up() {
    let (full, three) = (full(), policy(Schedule::recurs(3)));
    let storm = Storm::new(&full).rate(100).capacity(120).quota(3, 0.1, SECOND).beside(Population::new(20, &three));
    let report = storm.beside(Population::new(5, &full).limited(true)).play().unwrap();
    let shares: Vec<_> = report.populations.iter().map(|own| (own.share, own.totals.requests)).collect();
    assert_eq!(shares, [(75, 4500), (20, 1200), (5, 300)]);
    // (as tests/storms.py plays it)
    let tickets: Vec<_> = report.populations.iter().map(|own| own.totals.tickets).collect();
    assert_eq!(tickets, [89, 0, 21]);
    let sum = |number: fn(&PopulationReport) -> u64| report.populations.iter().map(number).sum::<u64>();
    assert_eq!(sum(|own| own.totals.won), report.totals.won);
    assert_eq!(sum(|own| own.totals.calls), report.totals.calls);
    assert_eq!(sum(|own| own.totals.tickets), report.totals.tickets);
    for (place, window) in report.windows.iter().enumerate() {
        let own = || report.populations.iter().filter_map(|own| own.windows.get(place));
        assert_eq!(own().map(|own| own.succeeded).sum::<u64>(), window.succeeded);
        assert_eq!(own().map(|own| own.refused).sum::<u64>(), window.refused);
        assert!(own().all(|own| own.waiting == 0));
    }
}

#[test]
fn none_is_won_and_the_storm_is_cut() {
    let forever = policy(Schedule::forever());
    let storm = Storm::new(&forever).rate(2).together(2).seconds(1).calls(5).outage(Duration::ZERO..SECOND);
    let report = storm.play().unwrap();
    assert_eq!((report.totals.requests, report.totals.calls, report.totals.open, report.totals.cut), (1, 5, 1, true));
    assert_eq!((report.totals.p50, report.totals.p99, report.totals.slowest), (None, None, None));
    assert!(report.to_string().ends_with("never recovered\ncut before one call more"));
    assert!(report.to_json().contains("\"p50\":null,\"p99\":null,\"slowest\":null,\"recovered\":null,\"cut\":true"));
}

#[test]
#[cfg_attr(windows, ignore = "zsched is a program of Linux")]
fn a_storm_by_moments_is_what_the_program_prints() {
    let moments = [0, 0, 5, 5, 100, 20_500, 20_500, 31_000];
    let path = Path::new(env!("CARGO_TARGET_TMPDIR")).join("moments.txt");
    std::fs::write(&path, moments.map(|moment| format!("{moment}\n")).concat()).unwrap();
    let name = path.to_str().unwrap();
    let (full, once) = (full(), policy(Schedule::recurs(1)));
    let storm = Storm::new(&full).arrivals(moments.map(millis)).capacity(100);
    let report = storm.play().unwrap();
    let options = format!("--arrivals {name} --capacity 100");
    assert_eq!(report.to_json() + "\n", zsched("--json", &options, &full));
    assert_eq!(report.to_csv(), zsched("--csv", &options, &full));
    let report = storm.beside(Population::new(30, &once)).play().unwrap();
    assert_eq!(report.to_json() + "\n", zsched_beside("--json", &options, &full, &[("30", &once)]));
}

#[test]
fn requests_at_given_moments_by_hand() {
    // the peer does a call a millisecond: the second of two waits for the first, and those in the outage are lost
    let never = policy(Schedule::recurs(0));
    let moments = || [0, 0, 5, 5, 100].map(millis);
    let totals = Storm::new(&never).no_outage().arrivals(moments()).play().unwrap().totals;
    assert_eq!((totals.requests, totals.won, totals.p50, totals.slowest), (5, 5, Some(millis(1)), Some(millis(2))));
    let report = Storm::new(&never).outage(millis(5)..millis(100)).arrivals(moments()).play().unwrap();
    assert_eq!((report.totals.won, report.totals.lost), (3, 2));
    assert_eq!(report.totals.recovered, None); // (the one window begins in the outage)
    let until = Storm::new(&never).no_outage().arrivals(moments()).until(millis(99)).play().unwrap();
    assert_eq!(until.totals.requests, 4);
    let sweep = Sweep::along(Axis::rate([1, 2])).line("by moments", Storm::new(&never).arrivals(moments()));
    assert_eq!(sweep.play().unwrap_err(), StormError::ByMoments { parameter: "rate" });
    let sweep = Sweep::along(Axis::capacity([1, 1000]))
        .line("five", Storm::new(&never).no_outage().arrivals(moments()))
        .line("one", Storm::new(&never).no_outage().arrivals([Duration::ZERO]));
    assert_eq!(sweep.play().unwrap().numbers(Measure::Succeeded), [[Some(0.0), Some(100.0)], [Some(0.0), Some(100.0)]]);
}

#[test]
fn what_is_out_of_range_is_named() {
    let once = policy(Schedule::recurs(1));
    let told = |storm: Storm| storm.play().map(|report: StormReport| report.totals.requests).unwrap_err().to_string();
    let storm = || Storm::new(&once);
    let beside = |share| Population::new(share, &once);
    let cases = [
        (told(storm().beside(beside(0))), "share: expected 1 to 99, got 0"),
        (told(storm().beside(beside(100))), "share: expected 1 to 99, got 100"),
        (
            told(storm().beside(beside(50)).beside(beside(50))),
            "expected populations beside the first one of at most 99 per cent in all, got 100",
        ),
        (
            told(storm().beside(beside(1)).beside(beside(1)).beside(beside(1)).beside(beside(1))),
            "beside: expected 0 to 3, got 4",
        ),
        (told(storm().beside(beside(1).patience(Duration::ZERO))), "patience: expected 1 to 3600000, got 0"),
        (told(storm().beside(beside(1).patience(seconds(3601)))), "patience: expected 1 to 3600000, got 3601000"),
        (told(storm().rate(0)), "rate: expected 1 to 1000000, got 0"),
        (told(storm().together(1_000_001)), "together: expected 1 to 1000000, got 1000001"),
        (told(storm().seconds(3601)), "seconds: expected 1 to 3600, got 3601"),
        (told(storm().capacity(0)), "capacity: expected 1 to 1000000, got 0"),
        (told(storm().patience(Duration::from_micros(999))), "patience: expected 1 to 3600000, got 0"),
        (told(storm().queue(1_048_577)), "queue: expected 0 to 1048576, got 1048577"),
        (told(storm().replicas(5)), "replicas: expected 1 to 4, got 5"),
        (told(storm().replicas(2).down(3)), "down: expected 1 to 2, got 3"),
        (told(storm().down(0)), "down: expected 1 to 1, got 0"),
        (told(storm().window(Duration::ZERO)), "window: expected 1 to 3600000, got 0"),
        (told(storm().until(Duration::MAX)), "until: expected 0 to 7200000, got 4611686018427387903"),
        (told(storm().calls(0)), "calls: expected 1 to 4294967296, got 0"),
        (told(storm().budget(u64::MAX)), "expected a limit of at most 4294967296, got more"),
        (told(storm().outage(SECOND..Duration::MAX)), "outage: expected 0 to 3600000, got 4611686018427387903"),
        (told(storm().outage(seconds(2)..SECOND)), "outage: expected an end after the beginning, got one before"),
        (told(storm().slow(seconds(2)..SECOND, 50)), "slow: expected an end after the beginning, got one before"),
        (told(storm().slow(SECOND..seconds(2), 0)), "slow: expected 1 to 100, got 0"),
        (told(storm().slow(SECOND..seconds(2), 101)), "slow: expected 1 to 100, got 101"),
        (told(storm().rates([(SECOND..SECOND, 1)])), "rates: expected an end after the beginning, got one before"),
        (told(storm().rates([(SECOND..seconds(3601), 1)])), "rates: expected 0 to 3600000, got 3601000"),
        (told(storm().rates([(SECOND..seconds(2), 1_000_001)])), "rates: expected 0 to 1000000, got 1000001"),
        (told(storm().rates(vec![(SECOND..seconds(2), 1); 9])), "rates: expected 0 to 8, got 9"),
        (
            told(storm().rates([(SECOND..seconds(3), 1), (seconds(2)..seconds(4), 1)])),
            "rates: expected spans in their order, got one that begins before another ends",
        ),
        (
            told(storm().rates([(Duration::ZERO..seconds(60), 17_477)])),
            "expected at most 1048576 requests, got more: rate times seconds",
        ),
        (told(storm().arrivals([])), "arrivals: expected 1 to 1048576, got 0"),
        (told(storm().arrivals([seconds(2), SECOND])), "arrivals: expected 2000 to 7200000, got 1000"),
        (told(storm().arrivals([seconds(7201)])), "arrivals: expected 0 to 7200000, got 7201000"),
        (told(storm().arrivals(vec![SECOND; 1_048_577])), "arrivals: expected 1 to 1048576, got 1048577"),
        (told(storm().rate(20_000)), "expected at most 1048576 requests, got more: rate times seconds"),
        (told(storm().window(millis(1))), "expected at most 65537 windows, got more: until divided by window"),
        (
            told(storm().quota(1, 2000.0, SECOND)),
            "expected a share of 0, or from 0.001 to 1000 retries a request (0.2 is one for every five), got another",
        ),
        (
            told(storm().quota(1, 0.1, Duration::ZERO)),
            "expected a window of at least 100 milliseconds, got a shorter one",
        ),
    ];
    for (told, wanted) in cases {
        assert_eq!(told, wanted);
    }
    let error = storm().quota(u64::MAX, 0.1, SECOND).play().unwrap_err();
    assert_eq!(error, StormError::Tickets(LimitError::ReserveTooLarge));
    assert_eq!(error.to_string(), LimitError::ReserveTooLarge.to_string());
    assert!(error.source().is_none()); // (its text is that of the cause)
    assert!(storm().quota(1, 2000.0, SECOND).quota(1, 0.1, SECOND).play().is_ok());
    assert!(storm().quota(1, 2000.0, SECOND).budget(1).play().is_ok());
}

#[test]
fn threads_play_storms_of_one_policy_at_once() {
    let policy = full();
    let alone = Storm::new(&policy).seconds(15).play().unwrap();
    std::thread::scope(|scope| {
        let others: Vec<_> = (0..4).map(|_| scope.spawn(|| Storm::new(&policy).seconds(15).play().unwrap())).collect();
        for other in others {
            assert_eq!(other.join().unwrap(), alone);
        }
    });
}

// As in a program: its open times are waits for random words 0, of which full jitter makes none.
#[test]
fn a_breaker_that_would_never_open_is_no_limit_of_a_storm() {
    let once: Policy = r#"{"recurs":1}"#.parse().unwrap();
    for (open_for, plays) in
        [(r#"{"jitter":[0,0,1000,{"spaced":30000}]}"#, false), (r#"{"jitter":[0,1,1000,{"spaced":30000}]}"#, true)]
    {
        let played = Storm::new(&once).limit(Breaker::consecutive(5, open_for.parse().unwrap())).seconds(1).play();
        match played {
            Err(StormError::Tickets(LimitError::OutOfRange { parameter: "open_for", .. })) => assert!(!plays),
            other => assert!(plays && other.is_ok()),
        }
    }
}
