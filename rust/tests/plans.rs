//! Policies step as `zsched plan` says, on random ones and at the limits.

mod common;

use common::zsched;
use hikebox::{Fold, Policy, PolicyFault, Schedule, Test};
use std::collections::HashSet;
use std::time::Duration;

/// Numbers by a linear congruence, the same in each run.
struct Numbers(u64);

impl Numbers {
    fn below(&mut self, bound: u64) -> u64 {
        self.0 = self.0.wrapping_mul(6_364_136_223_846_793_005).wrapping_add(1_442_695_040_888_963_407);
        (self.0 >> 33) % bound
    }

    fn millis(&mut self) -> Duration {
        Duration::from_millis(self.below(500) + 1)
    }

    fn test(&mut self) -> Test {
        let number = self.below(300);
        match self.below(3) {
            0 => Test::Below(number),
            1 => Test::AtLeast(number),
            _ => Test::Equal(number),
        }
    }

    fn leaf(&mut self) -> Schedule {
        match self.below(15) {
            0 => Schedule::forever(),
            1 => Schedule::recurs(self.below(9)),
            2 => Schedule::spaced(self.millis()),
            3 => Schedule::fixed(self.millis()),
            4 => Schedule::windowed(self.millis()),
            5 => Schedule::linear(self.millis()),
            6 => Schedule::exponential(self.millis(), self.below(4) + 1),
            7 => Schedule::exponential_milli(self.millis(), self.below(3000) + 1),
            8 => Schedule::fibonacci(self.millis()),
            9 => Schedule::elapsed(),
            10 => Schedule::identity(),
            11 => Schedule::decorrelated(self.millis(), self.below(4) + 1, Duration::from_secs(9)),
            12 => Schedule::decorrelated_milli(
                self.below(4) as u8,
                self.millis(),
                self.below(3000) + 1000,
                Duration::from_secs(9),
            ),
            13 => Schedule::unfold(self.below(5), self.below(5), self.below(5)),
            _ => Schedule::from_duration(self.millis()),
        }
    }

    fn schedule(&mut self, depth: u64) -> Schedule {
        if depth == 0 || self.below(5) == 0 {
            return self.leaf();
        }
        let under = self.schedule(depth - 1);
        match self.below(25) {
            0 | 21 => under & self.schedule(depth - 1),
            1 | 22 => under | self.schedule(depth - 1),
            2 | 23 => under.and_then(self.schedule(depth - 1)),
            3 | 24 => under >> self.schedule(depth - 1),
            4 => under.while_input(self.test()),
            5 => under.until_input(self.test()),
            6 => under.while_output(self.test()),
            7 => under.until_output(self.test()),
            8 => under.gather([Fold::Sum, Fold::Count, Fold::Max, Fold::List][self.below(4) as usize]),
            9 => under.add_delay(self.millis()),
            10 => under.set_delay(self.millis()),
            11 => under.cap(self.millis()),
            12 => under.add_output(),
            13 => under.jittered(0.5..1.5),
            14 => under.up_to(self.millis()),
            15 => under.renew(self.millis()),
            16 => under.renew_idle(self.millis()),
            17 => under.first(),
            18 => under.second(),
            19 => under.ends_by(self.millis()),
            _ => under.nothing(),
        }
    }
}

#[test]
#[cfg_attr(windows, ignore = "zsched is a program of Linux")]
fn three_hundred_random_policies_step_as_zsched_says() {
    let mut numbers = Numbers(2026);
    for _ in 0..300 {
        let schedule = numbers.schedule(5);
        let policy = Policy::new(&schedule).unwrap();
        let lines: String = policy.preview(12).unwrap().iter().map(|line| format!("{line}\n")).collect();
        assert_eq!((Some(0), lines), zsched(["plan", "--steps", "12"], schedule.as_json()), "{schedule}");
        // built by its nodes it is what its text spells, and the engine writes that text
        assert_eq!(policy.as_json(), schedule.as_json());
        assert_eq!(schedule.as_json().parse(), Ok(policy));
    }
}

#[test]
fn policies_are_equal_however_they_were_spelt() {
    let schedule = Schedule::recurs(3) & Schedule::spaced(Duration::from_millis(100)).until_input(Test::AtLeast(500));
    let built = Policy::new(&schedule).unwrap();
    let text = "{ \"meet\": [ {\"recurs\":3},\n {\"gate\":[\"input\", false, \"at_least\", 500, {\"spaced\":100}]} ] }";
    let read: Policy = text.parse().unwrap();
    assert_eq!((&read, read.to_string()), (&built, schedule.to_string()));
    assert_eq!((read.nodes(), read.depth(), read.most_retries()), (4, 3, Some(3)));
    let more = Policy::new(&Schedule::recurs(4)).unwrap();
    assert_ne!(read, more);
    assert_eq!(HashSet::from([read, built, more.clone(), more]).len(), 2);
}

#[test]
fn a_policy_tells_how_often_it_goes_on_at_most() {
    let most = |schedule: Schedule| Policy::new(&schedule).unwrap().most_retries();
    let (two, five, second) = (Schedule::recurs(2), Schedule::recurs(5), Duration::from_secs(1));
    assert_eq!(most(two.clone() & five.clone()), Some(2));
    assert_eq!(most(two.clone() | five.clone()), Some(5));
    assert_eq!(most(two.clone().and_then(five.clone()).and_then(Schedule::from_duration(second))), Some(8));
    assert_eq!(most(Schedule::forever() >> five.clone().jittered(0.5..1.5).gather(Fold::List)), Some(5));
    assert_eq!(most(Schedule::forever() | five.clone()), None);
    assert_eq!(most(five.renew(second)), None);
    assert_eq!(most(Schedule::spaced(second).up_to(second)), None);
}

#[test]
fn a_preview_has_as_many_lines_as_there_are_and_their_outputs() {
    let numbers = |count: u64| (0..count).map(|number| number.to_string()).collect::<Vec<_>>().join(", ");
    let lists = Policy::new(&Schedule::forever().gather(Fold::List)).unwrap().preview(300).unwrap();
    assert_eq!(lists.len(), 300);
    assert!((0..).zip(&lists).all(|(count, line)| line.output == format!("[{}]", numbers(count))));
    let lone = Policy::new(&Schedule::from_duration(Duration::from_millis(7))).unwrap().preview(9).unwrap();
    assert_eq!(lone.iter().map(|line| (line.moment, line.next)).collect::<Vec<_>>(), [(0, Some(7)), (7, None)]);
    let forever = Policy::new(&Schedule::forever()).unwrap();
    assert_eq!([0, 4096, 4097, usize::MAX].map(|steps| forever.preview(steps).unwrap().len()), [0, 4096, 4096, 4096]);
}

#[test]
fn faults_are_those_of_the_text() {
    let fault = |json: &str| Policy::from_json(json).unwrap_err().fault();
    assert_eq!(fault(r#"{"recurs":-1}"#), PolicyFault::NotAPolicy);
    assert!(matches!(fault(r#"{"recurs":3"#), PolicyFault::NotJson { .. }));
    assert!(matches!(fault(""), PolicyFault::NotJson { .. }));
    assert_eq!(fault(r#"{"fixed":0}"#), PolicyFault::OutOfRange);
    assert_eq!(fault(r#"{"exponential":[1,1001]}"#), PolicyFault::OutOfRange);
    assert_eq!(fault(r#"{"decorrelated":[0,10,3000,9]}"#), PolicyFault::OutOfRange);
    assert_eq!(fault(r#"{"ends_by":[4611686018427387904,"forever"]}"#), PolicyFault::OutOfRange);

    let mut deep = Schedule::forever();
    for _ in 0..31 {
        deep = deep.nothing();
    }
    assert_eq!(Policy::new(&deep).unwrap().depth(), 32);
    let deeper = deep.nothing();
    let refused = Policy::new(&deeper).unwrap_err();
    assert_eq!((refused.fault(), refused.hint()), (PolicyFault::TooDeep, "expected a plan at most 32 deep"));
    assert_eq!(Policy::from_json(deeper.as_json()), Err(refused));

    let mut wide = Schedule::forever();
    for _ in 0..7 {
        wide = wide.clone() & wide;
    }
    assert_eq!(Policy::new(&wide).unwrap().nodes(), 255);
    assert_eq!(Policy::new(&wide.clone().nothing()).unwrap().nodes(), 256);
    assert_eq!(Policy::new(&wide.nothing().nothing()).unwrap_err().fault(), PolicyFault::TooMany);
}

#[test]
fn a_fault_has_its_place_and_what_is_wanted_there() {
    let deep = format!("{}\"forever\"{}", r#"{"nothing":"#.repeat(33), "}".repeat(33));
    for (json, place, hint) in [
        ("", "line 1, column 1", "the text is empty"),
        ("[\n{\"plan\":]", "line 2, column 9", "what stands here is not JSON, or is nested more than 127 deep"),
        ("7", "", "expected a plan, a string or an object with one member, got 7"),
        (r#"{"fixed":0}"#, "", r#"expected {"fixed":D}, D from 1 to 4611686018427387903, got {"fixed":0}"#),
        (
            r#"{"meet":["forever",{"cap":[5,{"exponental":[1,2]}]}]}"#,
            "meet[1].cap[1]",
            r#"no node is called "exponental"; did you mean "exponential"?"#,
        ),
        (r#"{"gather":["sum",{"second":"für immer"}]}"#, "gather[1].second", r#"no node is called "für immer""#),
        (&deep, "nothing", "expected a plan at most 32 deep"),
    ] {
        let error = Policy::from_json(json).unwrap_err();
        assert_eq!((error.place(), error.hint()), (place, hint), "{json}");
    }
    let shown = |json: &str| Policy::from_json(json).unwrap_err().to_string();
    assert_eq!(shown("7"), "not a policy: expected a plan, a string or an object with one member, got 7");
    assert_eq!(shown(r#"{"recurs":3"#), "not JSON: line 1, column 11: the text ends too soon");
}

#[test]
fn a_fault_of_a_schedule_is_told_in_the_words_of_the_call() {
    let [small, one, second] = [400, 1000, 1_000_000].map(Duration::from_micros);
    let far = Duration::from_millis(1 << 62);
    for (schedule, told) in [
        (Schedule::forever() | Schedule::fixed(Duration::ZERO), "fixed(0ns): expected an interval above 0"),
        (Schedule::windowed(Duration::ZERO), "windowed(0ns): expected an interval above 0"),
        (Schedule::forever().renew(Duration::ZERO), "renew(0ns): expected an interval above 0"),
        (Schedule::forever().renew_idle(Duration::ZERO), "renew_idle(0ns): expected an interval above 0"),
        (Schedule::spaced(small) & Schedule::fixed(small), "spaced(400µs): expected 0 or at least a millisecond"),
        (Schedule::forever().cap(small).nothing(), "cap(400µs): expected 0 or at least a millisecond"),
        (Schedule::forever().up_to(small).first(), "up_to(400µs): expected 0 or at least a millisecond"),
        (Schedule::forever().jittered(1.2..0.8), "jittered(1.2..0.8): the range is empty"),
        (Schedule::forever().jittered(0.0001..0.0004), "jittered(0.0001..0.0004): expected 0 or at least a thousandth"),
        (
            Schedule::forever().jittered(0.0..10.5) & Schedule::forever(),
            "jittered(0.0..10.5): expected a ratio from 0 to 10",
        ),
        (Schedule::forever().jitter(4, 1, 2), "jitter(4, 1, 2): expected a lane from 0 to 3"),
        (Schedule::forever().jitter(0, 3, 2), "jitter(0, 3, 2): the range is empty"),
        (Schedule::exponential(second, 0), "exponential(1s, 0): expected a factor from 1 to 1000"),
        (
            Schedule::exponential_milli(one, 1_000_001),
            "exponential_milli(1ms, 1000001): expected a factor from 1 to 1,000,000 thousandths",
        ),
        (
            Schedule::decorrelated(second, 3, one),
            "decorrelated(1s, 3, 1ms): expected a longest delay of at least the base",
        ),
        (Schedule::recurs(1 << 62), "recurs(4611686018427387904): expected a number of at most 2^62 - 1"),
        (Schedule::unfold(1, 1 << 62, 2), "unfold(1, 4611686018427387904, 2): expected a number of at most 2^62 - 1"),
        (
            Schedule::forever().until_input(Test::Equal(1 << 62)),
            "until_input(Equal(4611686018427387904)): expected a number of at most 2^62 - 1",
        ),
        (Schedule::linear(far), "linear(4611686018427387.904s): expected at most 2^62 - 1 milliseconds"),
    ] {
        let error = Policy::new(&schedule).unwrap_err();
        assert_eq!(error.to_string(), format!("number out of range: {told}"), "{schedule}");
        // what the crate refuses for its range, and not for its grain, the engine refuses in the text
        if !told.contains("0 or at least a") && !told.contains("decorrelated") {
            assert!(Policy::from_json(schedule.as_json()).is_err(), "{schedule}");
        }
    }
    assert!(Policy::new(&Schedule::spaced(Duration::ZERO).jittered(0.0..0.001)).is_ok());
}

#[test]
fn a_schedule_is_too_deep_however_deep_its_text_is() {
    for depth in [33, 50, 3000] {
        let schedule = (1..depth).fold(Schedule::forever(), |under, _| under & Schedule::recurs(1));
        let error = Policy::new(&schedule).unwrap_err();
        assert_eq!(error.fault(), PolicyFault::TooDeep, "{error}");
        assert!(error.hint().starts_with("expected a "), "{error}");
    }
}

#[test]
fn delays_that_are_picked_by_the_one_before_and_end_in_time() {
    let [base, end, longest] = [100, 1000, 10_000].map(Duration::from_millis);
    let delays = Schedule::decorrelated(base, 3, longest);
    assert_eq!(delays.as_json(), r#"{"decorrelated":[0,100,3000,10000]}"#);
    let in_lane = Schedule::decorrelated_milli(3, base, 1500, longest);
    assert_eq!(in_lane.as_json(), r#"{"decorrelated":[3,100,1500,10000]}"#);
    let ending = delays.ends_by(end);
    assert_eq!(ending.as_json(), r#"{"ends_by":[1000,{"decorrelated":[0,100,3000,10000]}]}"#);

    let preview = Policy::new(&ending).unwrap().preview(10).unwrap();
    let lines: Vec<String> = preview.iter().map(ToString::to_string).collect();
    assert_eq!(lines, ["0: 200 next 200", "200: 350 next 550", "550: 575 done"]);
    for factor in [0, 1001, u64::MAX] {
        let schedule = Schedule::decorrelated(base, factor, longest);
        assert_eq!(Policy::new(&schedule).unwrap_err().fault(), PolicyFault::OutOfRange);
    }
}

#[test]
fn durations_are_rounded_up_and_ratios_to_thousandths() {
    assert_eq!(Schedule::spaced(Duration::from_micros(1001)).as_json(), r#"{"spaced":2}"#);
    assert_eq!(Schedule::spaced(Duration::from_millis(7)).as_json(), r#"{"spaced":7}"#);
    assert_eq!(Schedule::forever().jittered(0.1234..10.0).as_json(), r#"{"jitter":[0,123,10000,"forever"]}"#);
    for ratios in [-0.1..1.0, 0.0..10.1, 0.0..f64::NAN] {
        let schedule = Schedule::forever().jittered(ratios);
        assert_eq!(Policy::new(&schedule).unwrap_err().fault(), PolicyFault::OutOfRange);
    }
    let longest = Schedule::spaced(Duration::from_millis(4_611_686_018_427_387_903));
    assert!(Policy::new(&longest).is_ok());
    assert_eq!(Policy::new(&Schedule::spaced(Duration::MAX)).unwrap_err().fault(), PolicyFault::OutOfRange);
}

/// The waits of a policy, up to so many.
fn waits(json: &str, most: usize) -> Vec<u128> {
    json.parse::<Policy>().unwrap().waits().take(most).map(|wait| wait.as_millis()).collect()
}

#[test]
fn the_waits_of_a_policy_come_one_after_another() {
    assert_eq!(waits(r#"{"meet":[{"recurs":4},{"fibonacci":10}]}"#, 9), [10, 10, 20, 30]);
    assert_eq!(waits(r#"{"follow":[{"recurs":2},{"meet":[{"recurs":2},{"spaced":7}]}]}"#, 9), [0, 0, 7, 7]);
    assert_eq!(waits(r#"{"recurs":0}"#, 9), [0; 0]);
    assert_eq!(waits(r#"{"ends_by":[25,{"spaced":10}]}"#, 9), [10, 10]);
    assert_eq!(waits("\"forever\"", 5000), [0; 5000]);
    // they end with the engine's last moment, since no wait can be told from it on
    let ended = waits(r#"{"exponential":[100,10]}"#, 99);
    assert_eq!((ended.len(), ended[16], ended.iter().sum::<u128>()), (18, 10_u128.pow(18), (1 << 62) - 1));
    assert_eq!(waits(r#"{"spaced":4611686018427387903}"#, 99), [(1 << 62) - 1]);
    let policy: Policy = r#"{"recurs":1}"#.parse().unwrap();
    let mut waits = policy.waits();
    assert_eq!([waits.next(), waits.next(), waits.next()], [Some(Duration::ZERO), None, None]);
}

#[test]
fn waits_are_jittered_each_time_anew() {
    let json = r#"{"jitter":[0,500,1500,{"spaced":100000}]}"#;
    let (first, second) = (waits(json, 20), waits(json, 20));
    assert_ne!(first, second);
    assert!(first.iter().chain(&second).all(|wait| (50_000..=150_000).contains(wait)), "{first:?} {second:?}");
}
