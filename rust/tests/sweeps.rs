//! Storms along a parameter: that each is the single storm, and Python's; tables; and the borders of recovery.

mod common;

use common::{printed, python};
use hikebox::{Axis, Goal, LimitError, Measure, Policy, Population, Schedule, Storm, StormError, StormReport, Sweep};
use std::time::Duration;

const SECOND: Duration = Duration::from_secs(1);

fn millis(count: u64) -> Duration {
    Duration::from_millis(count)
}

fn policy(schedule: Schedule) -> Policy {
    Policy::new(&schedule).unwrap()
}

fn full() -> Policy {
    let back_off = Schedule::exponential(millis(100), 2).cap(10 * SECOND);
    policy(Schedule::recurs(8) & back_off.jittered(0.0..1.0))
}

/// Three retries in a storm of five seconds, with an outage of one.
fn brief() -> Storm {
    Storm::new(&policy(Schedule::recurs(3))).seconds(5).outage(SECOND..2 * SECOND).rate(100).capacity(120)
}

/// Eight retries with jitter in a storm of twenty seconds, with an outage of three.
fn twenty() -> Storm {
    Storm::new(&full()).seconds(20).rate(200).capacity(250).outage(3 * SECOND..6 * SECOND)
}

/// The storm with no limit, and under a quota of a tenth.
fn along(axis: Axis) -> Sweep {
    Sweep::along(axis).line("no limit", brief()).line("a tenth", brief().quota(10, 0.1, SECOND))
}

fn lines(sweep: Sweep) -> Vec<Vec<StormReport>> {
    sweep.play().unwrap().lines().map(|(_, reports)| reports.to_vec()).collect()
}

/// Checks that a sweep has, for each value, what each of the two storms is that the call makes of it.
fn has_single_storms<V: Copy>(axis: fn(Vec<V>) -> Axis, values: Vec<V>, put: impl Fn(Storm, V) -> Storm) {
    let played = lines(along(axis(values.clone())));
    assert_eq!(played.len(), 2);
    for (line, base) in played.iter().zip([brief(), brief().quota(10, 0.1, SECOND)]) {
        let single: Vec<_> = values.iter().map(|value| put(base.clone(), *value).play().unwrap()).collect();
        assert_eq!(*line, single);
    }
}

#[test]
fn each_storm_of_a_sweep_is_the_single_storm() {
    has_single_storms(Axis::rate, vec![50, 110, 300], Storm::rate);
    has_single_storms(Axis::clients, vec![10, 200, 900], |storm, count| storm.rate(count).together(count));
    has_single_storms(Axis::together, vec![1, 10, 50], Storm::together);
    has_single_storms(Axis::seconds, vec![3, 4], Storm::seconds);
    has_single_storms(Axis::capacity, vec![90, 150], Storm::capacity);
    has_single_storms(Axis::queue, vec![0, 30], Storm::queue);
    has_single_storms(Axis::patience, vec![millis(50), millis(500)], Storm::patience);
    has_single_storms(Axis::outage, vec![millis(500), 2 * SECOND], |storm, long| storm.outage(SECOND..SECOND + long));
}

#[test]
fn populations_are_swept_with_their_storm() {
    let (three, once) = (policy(Schedule::recurs(3)), policy(Schedule::recurs(1)));
    let storms = [
        brief().beside(Population::new(30, &three)),
        brief().beside(Population::new(30, &once)),
        brief().beside(Population::new(30, &once).patience(millis(8))),
    ];
    let sweep = Sweep::along(Axis::patience([millis(8), millis(500)]));
    let played = lines(storms.iter().fold(sweep, |sweep, storm| sweep.line("", storm.clone())));
    for (line, storm) in played.iter().zip(storms) {
        let single = |long| storm.clone().patience(long).play().unwrap();
        assert_eq!(*line, [single(millis(8)), single(millis(500))]);
        assert_eq!(line[0].populations.len(), 2);
    }
    // a call takes 9 ms; clients with no patience of their own have the storm's
    let won = |line: usize, at: usize| played[line][at].populations[1].totals.won;
    assert_eq!((won(1, 0), won(2, 0), won(2, 1)), (0, 0, 0));
    assert_eq!((won(0, 1), won(1, 1)), (120, 120));
    assert_eq!(played[0][1].populations[1].totals.calls, 120 + 4 * 30);
    assert_eq!(played[1][1].populations[1].totals.calls, 120 + 2 * 30);
}

/// Of 48,000 requests at 800 a second two come while the peer is away for 2 ms. At 1,600 a second, the storm is cut
/// after 48,000 calls of 96,000, and four fail before it is.
#[test]
fn a_table_rounds_no_share_to_all_and_marks_what_was_cut() {
    let storm =
        Storm::new(&policy(Schedule::recurs(0))).capacity(2000).outage(10 * SECOND..millis(10_002)).calls(48_000);
    let played = Sweep::along(Axis::rate([800, 1600])).line("none", storm).play().unwrap();
    assert_eq!(played.lines().next().unwrap().1[0].totals.won, 47_998);
    assert!(played.to_string().ends_with("\n800       99.99\n1600  99.99 cut"), "{played}");
    assert!(played.table(Measure::Slowest).ends_with("\n800       0.001\n1600  0.001 cut"));
}

/// Requests come for five seconds. No window begins after an outage that goes on for a minute, so a recovery would not
/// show.
#[test]
fn a_storm_that_ends_in_its_outage_tells_of_no_recovery() {
    let storm = Storm::new(&policy(Schedule::recurs(0))).rate(10).seconds(5).outage(SECOND..2 * SECOND);
    let played = Sweep::along(Axis::outage([SECOND, 60 * SECOND])).line("none", storm).play().unwrap();
    assert_eq!(played.numbers(Measure::Recovery), [[Some(0.0), None]]);
}

/// Eight retries under a quota of a tenth, beside clients with the same retries and no quota.
fn beside(share: u64) -> Storm {
    Storm::new(&full()).quota(10, 0.1, SECOND).beside(Population::new(share, &full()))
}

/// If 20 per cent of the requests come from clients without the quota, the peer recovers at once; if 21 do, never.
#[test]
fn the_share_beside_is_swept_over_the_border_of_recovery() {
    let alone = Storm::new(&full()).quota(10, 0.1, SECOND);
    let sweep = Sweep::along(Axis::beside([20, 21])).line("beside", beside(99)).line("alone", alone.clone());
    let played = sweep.play().unwrap();
    assert_eq!((played.parameter(), played.values()), ("beside", &[20, 21][..]));
    assert_eq!(played.numbers(Measure::Recovery), [[Some(0.0), Some(f64::INFINITY)], [Some(0.0), Some(0.0)]]);
    assert!(played.table(Measure::Recovery).ends_with("\n20        0.00   0.00\n21       never   0.00"));
    assert!(played.to_csv().contains("\n21,beside,48000,"));
    assert!(played.to_json().starts_with("{\"parameter\":\"beside\",\"values\":[20,21],"));
    let lines: Vec<_> = played.lines().map(|(_, reports)| reports.to_vec()).collect();
    assert_eq!(lines[0], [beside(20).play().unwrap(), beside(21).play().unwrap()]);
    let alone = alone.play().unwrap();
    assert_eq!(lines[1], [alone.clone(), alone]);
}

#[test]
fn of_several_populations_beside_the_share_of_the_first_is_swept() {
    let (three, once) = (policy(Schedule::recurs(3)), policy(Schedule::recurs(1)));
    let storm = |share| {
        let second = Population::new(share, &three).patience(millis(8));
        brief().beside(second).beside(Population::new(20, &once).limited(true)).quota(1, 0.1, SECOND)
    };
    let played = lines(Sweep::along(Axis::beside([1, 79])).line("", storm(5)));
    assert_eq!(played[0], [storm(1).play().unwrap(), storm(79).play().unwrap()]);
    let shares = |at: usize| played[0][at].populations.iter().map(|own| own.share).collect::<Vec<_>>();
    assert_eq!((shares(0), shares(1)), (vec![79, 1, 20], vec![1, 79, 20]));
    let error = Sweep::along(Axis::beside([79, 80])).line("", storm(5)).play().unwrap_err();
    assert_eq!(error, StormError::SharesTooLarge { got: 100 });
}

#[test]
fn between_spans_it_is_the_rate_that_a_sweep_changes() {
    let surge = brief().no_outage().rates([(millis(500)..millis(800), 300), (millis(800)..millis(900), 0)]);
    let played = lines(Sweep::along(Axis::rate([50, 200])).line("", surge));
    // 4.6 s at each rate, and 90 requests in the first span.
    assert_eq!(played[0].iter().map(|report| report.totals.requests).collect::<Vec<_>>(), [320, 1010]);
}

#[test]
fn a_limit_is_swept_where_a_storm_has_it() {
    let shares = lines(along(Axis::share([0.0, 0.05, 0.5])));
    assert!(shares[0].iter().all(|report| *report == brief().play().unwrap()));
    let single = |share: f64| brief().quota(10, share, SECOND).play().unwrap();
    assert_eq!(shares[1], [single(0.0), single(0.05), single(0.5)]);
    let reserves = lines(along(Axis::reserve([0, 100])));
    let single = |reserve: u64| brief().quota(reserve, 0.1, SECOND).play().unwrap();
    assert_eq!(reserves[1], [single(0), single(100)]);
    let budgets = lines(Sweep::along(Axis::budget([0, 20])).line("", brief().budget(5)));
    assert_eq!(budgets[0].iter().map(|report| report.totals.tickets).collect::<Vec<_>>(), [0, 20]);
}

#[test]
fn measures_are_those_of_the_totals() {
    let sweep = Sweep::along(Axis::outage([Duration::ZERO, 10 * SECOND]))
        .line("full", Storm::new(&full()))
        .line("three", Storm::new(&policy(Schedule::recurs(3))));
    let played = sweep.play().unwrap();
    assert_eq!((played.parameter(), played.values()), ("outage", &[0, 10_000][..]));
    let shares = played.numbers(Measure::Succeeded);
    for ((_, reports), shares) in played.lines().zip(shares) {
        let own = |report: &StormReport| Some(100.0 * report.totals.won as f64 / report.totals.requests as f64);
        assert_eq!(shares, reports.iter().map(own).collect::<Vec<_>>());
    }
    assert_eq!(played.numbers(Measure::Calls)[0][1], Some(7.62));
    // there is nothing to recover from without an outage, and no recovery from one of 10 s
    let recovery = played.numbers(Measure::Recovery);
    assert_eq!(recovery, [[None, Some(f64::INFINITY)], [None, Some(0.0)]]);
    assert_eq!(played.numbers(Measure::Slowest)[0], [Some(0.001), Some(22.283)]);
    assert!(played.table(Measure::Recovery).ends_with("\n0           -      -\n10000   never   0.00"));
}

#[test]
fn a_sweep_is_a_table_csv_and_json() {
    let played = along(Axis::rate([50, 100])).play().unwrap();
    // 50 or 100 of 250 or 500 requests come in the outage, and fail; of 15 and 20 tickets none saves one
    let table = "requests that succeeded, in %\n\
                 rate  no limit  a tenth\n\
                 50       80.00    80.00\n\
                 100      80.00    80.00";
    assert_eq!(played.to_string(), table);
    let csv = played.to_csv();
    let rows: Vec<&str> = csv.lines().collect();
    assert!(rows[0].starts_with("rate,line,requests,won,lost,denied,open,calls,hundredths,"));
    assert!(rows[1].starts_with("50,no limit,250,200,50,0,0,400,160,"), "{}", rows[1]);
    assert!(rows[4].starts_with("100,a tenth,500,400,"), "{}", rows[4]);
    let json = played.to_json();
    let begins = "{\"parameter\":\"rate\",\"values\":[50,100],\"lines\":\
                  [{\"name\":\"no limit\",\"policy\":{\"recurs\":3},\"totals\":[{\"requests\":250,\"won\":200,";
    assert!(json.starts_with(begins), "{json}");
    for (_, reports) in played.lines() {
        for report in reports {
            let whole = report.to_json();
            let (_, totals) = whole.split_once("\"totals\":").unwrap();
            assert!(json.contains(totals.strip_suffix('}').unwrap()));
        }
    }
    let odd = Sweep::along(Axis::share([0.05])).line("a \"b\", c\\\n", brief().quota(1, 0.1, SECOND)).play().unwrap();
    assert!(odd.to_csv().contains("\n5,\"a \"\"b\"\", c\\\n\",500,"));
    assert!(odd.to_json().contains("\"values\":[5],\"lines\":[{\"name\":\"a \\\"b\\\", c\\\\\\u000a\","));
    let none = Sweep::along(Axis::queue([0])).line("x", Storm::new(&policy(Schedule::forever())).until(millis(0)));
    assert!(none.play().unwrap().to_csv().ends_with(",0,,,,,false\n"), "the storm that wins none");
}

#[test]
fn what_is_no_sweep_is_refused() {
    let told = |sweep: Sweep| sweep.play().unwrap_err();
    let cases = [
        (Axis::rate([]), "values: expected 1 to 64, got 0"),
        (Axis::rate(1..=65), "values: expected 1 to 64, got 65"),
        (Axis::rate([1, 0]), "rate: expected 1 to 1000000, got 0"),
        (Axis::outage([Duration::MAX]), "outage: expected 0 to 3600000, got 4611686018427388903"),
        (Axis::reserve([1 << 33]), "reserve: expected 0 to 4294967296, got 8589934592"),
        (Axis::budget([1]), "budget: expected a storm with a limit that has it, got none"),
        (Axis::beside([1, 0]), "beside: expected 1 to 99, got 0"),
        (Axis::beside([100]), "beside: expected 1 to 99, got 100"),
        (Axis::beside([1]), "beside: expected a storm with a population beside the first one, got none"),
    ];
    for (axis, wanted) in cases {
        assert_eq!(told(along(axis)).to_string(), wanted);
    }
    for share in [f64::NAN, 1000.5] {
        assert_eq!(told(along(Axis::share([0.1, share]))), StormError::Tickets(LimitError::ShareOutOfRange));
    }
    assert_eq!(told(Sweep::along(Axis::rate([1]))).to_string(), "expected a line of the sweep, got none");
}

#[test]
fn a_border_is_where_the_peer_stops_recovering() {
    let spaced = policy(Schedule::recurs(8) & Schedule::spaced(millis(100)));
    let storm = Storm::new(&spaced);
    let found = storm.find(Goal::Retries).unwrap();
    assert_eq!(found.value, Some(6));
    // 0 and 64, and then halves: 32, 16, 8, 4, 6 and 7
    let tried: Vec<u64> = found.tried.iter().map(|(value, _)| *value).collect();
    assert_eq!(tried, [0, 64, 32, 16, 8, 4, 6, 7]);
    for (value, report) in &found.tried {
        let single =
            Storm::new(&policy(Schedule::recurs(8) & Schedule::spaced(millis(100)) & Schedule::recurs(*value)));
        assert_eq!(*report, single.play().unwrap());
        assert_eq!(report.totals.recovered.is_some(), *value <= 6);
    }
    let recovers = |storm: Storm| storm.play().unwrap().totals.recovered.is_some();
    let share = twenty().find(Goal::Quota).unwrap().value.unwrap();
    let quota = |share: u64| twenty().quota(10, share as f64 / 1000.0, SECOND);
    assert!(recovers(quota(share)) && !recovers(quota(share + 1)), "{share}");
    let patience = twenty().find(Goal::Patience).unwrap().value.unwrap();
    assert!(recovers(twenty().patience(millis(patience))), "{patience}");
    assert!(!recovers(twenty().patience(millis(patience - 1))), "{patience}");
}

/// Beside clients who don't retry the first ones may retry once more than alone.
#[test]
fn the_most_retries_are_those_of_the_first_population() {
    let spaced = policy(Schedule::recurs(8) & Schedule::spaced(millis(100)));
    let others = Population::new(10, &policy(Schedule::recurs(0)));
    let found = Storm::new(&spaced).beside(others.clone()).find(Goal::Retries).unwrap();
    assert_eq!(found.value, Some(7));
    for (value, report) in &found.tried {
        let bounded = policy(Schedule::recurs(8) & Schedule::spaced(millis(100)) & Schedule::recurs(*value));
        assert_eq!(*report, Storm::new(&bounded).beside(others.clone()).play().unwrap());
    }
}

#[test]
fn a_border_is_looked_for_where_there_is_one() {
    let never = brief().capacity(1);
    assert_eq!(never.find(Goal::Retries).unwrap().value, None);
    let always = brief().capacity(100_000);
    assert_eq!(always.find(Goal::Quota).unwrap().value, Some(10_000));
    let error = brief().no_outage().find(Goal::Quota).unwrap_err();
    assert_eq!(error.to_string(), "expected a storm with an outage, a brown-out or a surge, got none");
    let deep = (0..31).fold(Schedule::recurs(1), |under, _| under.nothing());
    assert_eq!(Storm::new(&policy(deep)).find(Goal::Retries).unwrap_err(), StormError::PolicyTooLarge);
    assert_eq!(brief().rate(0).find(Goal::Patience).unwrap_err().to_string(), "rate: expected 1 to 1000000, got 0");
}

const NUMBERS_OF_PYTHON: &str = "
import struct
from hikebox import Quota, exponential, recurs, storm
from hikebox.sweeps import find, sweep
def bits(number):
    return struct.unpack('<Q', struct.pack('<d', number))[0]
policy = recurs(8) & exponential(0.1, 2).cap(10).jittered(0, 1)
given = dict(seconds=20, rate=200, capacity=250, outage=(3, 6))
storms = [storm(policy, **given), storm(policy, limit=Quota(10, 0.1, 1), **given)]
for name, values in [('rate', [100, 200, 400]), ('clients', [10, 300]), ('patience', [0.05, 2]), ('share', [0.05, 3])]:
    swept = sweep(storms, **{name: values})
    for measure in ('succeeded', 'calls', 'recovery', 'slowest'):
        for line in swept.numbers(measure):
            print(*('-' if number is None else bits(number) for number in line))
    print(swept.to_json().count('won'))
for what in ('quota', 'retries', 'patience'):
    found = find(storms[0], what)
    print(found.value, *(value for value, _ in found.tried))
";

/// The bits of a number.
fn bits(number: Option<f64>) -> String {
    number.map_or("-".to_owned(), |number| number.to_bits().to_string())
}

#[test]
#[cfg_attr(windows, ignore = "the Python beside it is one of Linux")]
fn the_numbers_are_those_of_python() {
    let mut command = match python(NUMBERS_OF_PYTHON) {
        Some(command) => command,
        None => return eprintln!("skipped: no Python package beside the crate"),
    };
    let mut wanted = Vec::new();
    for axis in [
        Axis::rate([100, 200, 400]),
        Axis::clients([10, 300]),
        Axis::patience([millis(50), 2 * SECOND]),
        Axis::share([0.05, 3.0]),
    ] {
        let sweep = Sweep::along(axis).line("no limit", twenty()).line("a tenth", twenty().quota(10, 0.1, SECOND));
        let played = sweep.play().unwrap();
        for measure in [Measure::Succeeded, Measure::Calls, Measure::Recovery, Measure::Slowest] {
            for line in played.numbers(measure) {
                wanted.push(line.into_iter().map(bits).collect::<Vec<_>>().join(" "));
            }
        }
        wanted.push(played.to_json().matches("won").count().to_string());
    }
    for goal in [Goal::Quota, Goal::Retries, Goal::Patience] {
        let found = twenty().find(goal).unwrap();
        let value = found.value.map_or("None".to_owned(), |value| value.to_string());
        let tried = found.tried.iter().map(|(value, _)| value.to_string());
        wanted.push(std::iter::once(value).chain(tried).collect::<Vec<_>>().join(" "));
    }
    assert_eq!(printed(&mut command), wanted);
}
