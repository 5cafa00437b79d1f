//! Made by python/tests/test_rust_spelling.py: policies as the page of `hikebox lab` writes them in Rust, each beside its JSON,
//! its programs of storms, and the lines that `hikebox advise` prints.

#![cfg_attr(rustfmt, rustfmt_skip)]

use hikebox::{Fold, Policy, Schedule, Test};
use std::time::Duration;

#[test]
fn each_expression_builds_its_policy() {
    let pairs: Vec<(Schedule, &str)> = vec![
        (Schedule::forever(), r#""forever""#),
        (Schedule::recurs(3), r#"{"recurs":3}"#),
        (Schedule::spaced(Duration::from_millis(1500)), r#"{"spaced":1500}"#),
        (Schedule::fixed(Duration::from_secs(1)), r#"{"fixed":1000}"#),
        (Schedule::windowed(Duration::from_millis(1)), r#"{"windowed":1}"#),
        (Schedule::linear(Duration::from_millis(0)), r#"{"linear":0}"#),
        (Schedule::exponential(Duration::from_millis(100), 2), r#"{"exponential":[100,2]}"#),
        (Schedule::exponential_milli(Duration::from_millis(100), 1500), r#"{"exponential_milli":[100,1500]}"#),
        (Schedule::fibonacci(Duration::from_millis(20)), r#"{"fibonacci":20}"#),
        (Schedule::decorrelated(Duration::from_millis(100), 3, Duration::from_secs(10)), r#"{"decorrelated":[0,100,3000,10000]}"#),
        (Schedule::decorrelated_milli(2, Duration::from_millis(100), 2500, Duration::from_secs(10)), r#"{"decorrelated":[2,100,2500,10000]}"#),
        (Schedule::elapsed(), r#""elapsed""#),
        (Schedule::identity(), r#""identity""#),
        (Schedule::unfold(1, 2, 3), r#"{"unfold":[1,2,3]}"#),
        (Schedule::from_duration(Duration::from_secs(30)), r#"{"lone":30000}"#),
        (Schedule::recurs(1).and_then(Schedule::forever() & Schedule::elapsed()), r#"{"follow":[{"recurs":1},{"meet":["forever","elapsed"]}]}"#),
        (Schedule::recurs(1) >> (Schedule::forever() & Schedule::elapsed()), r#"{"feed":[{"recurs":1},{"meet":["forever","elapsed"]}]}"#),
        ((Schedule::forever() | Schedule::recurs(1)) & (Schedule::recurs(2) | (Schedule::forever() & Schedule::forever())), r#"{"meet":[{"join":["forever",{"recurs":1}]},{"join":[{"recurs":2},{"meet":["forever","forever"]}]}]}"#),
        (Schedule::forever() | Schedule::recurs(1) | (Schedule::recurs(2) >> Schedule::identity()), r#"{"join":[{"join":["forever",{"recurs":1}]},{"feed":[{"recurs":2},"identity"]}]}"#),
        ((Schedule::forever() & Schedule::recurs(1)).while_input(Test::Below(7)), r#"{"gate":["input",true,"below",7,{"meet":["forever",{"recurs":1}]}]}"#),
        (Schedule::elapsed().until_output(Test::AtLeast(7)), r#"{"gate":["output",false,"at_least",7,"elapsed"]}"#),
        (Schedule::forever().until_input(Test::Equal(4611686018427387903)), r#"{"gate":["input",false,"equal",4611686018427387903,"forever"]}"#),
        (Schedule::recurs(1).gather(Fold::Sum), r#"{"gather":["sum",{"recurs":1}]}"#),
        (Schedule::forever().gather(Fold::Count), r#"{"gather":["count","forever"]}"#),
        (Schedule::forever().gather(Fold::Max), r#"{"gather":["max","forever"]}"#),
        (Schedule::forever().gather(Fold::List), r#"{"gather":["list","forever"]}"#),
        (Schedule::recurs(1).add_delay(Duration::from_millis(5)), r#"{"add":[5,{"recurs":1}]}"#),
        (Schedule::forever().set_delay(Duration::from_millis(5)), r#"{"set":[5,"forever"]}"#),
        (Schedule::forever().cap(Duration::from_secs(1)), r#"{"cap":[1000,"forever"]}"#),
        (Schedule::forever().add_output(), r#"{"add_out":"forever"}"#),
        (Schedule::forever().jittered(0.8..1.2), r#"{"jitter":[0,800,1200,"forever"]}"#),
        (Schedule::forever().jitter(3, 1, 10000), r#"{"jitter":[3,1,10000,"forever"]}"#),
        (Schedule::forever().up_to(Duration::from_secs(60)), r#"{"within":[60000,"forever"]}"#),
        (Schedule::forever().ends_by(Duration::from_millis(1)), r#"{"ends_by":[1,"forever"]}"#),
        (Schedule::forever().renew(Duration::from_secs(60)), r#"{"renew":[60000,"forever"]}"#),
        (Schedule::forever().renew_idle(Duration::from_secs(60)), r#"{"renew_idle":[60000,"forever"]}"#),
        (Schedule::forever().first(), r#"{"first":"forever"}"#),
        ((Schedule::forever() & Schedule::elapsed()).second(), r#"{"second":{"meet":["forever","elapsed"]}}"#),
        (Schedule::recurs(0).nothing(), r#"{"nothing":{"recurs":0}}"#),
        (Schedule::recurs(0), r#"{"recurs":0}"#),
        (Schedule::spaced(Duration::from_millis(5)), r#"{"spaced":5}"#),
        (Schedule::fixed(Duration::from_millis(3)), r#"{"fixed":3}"#),
        (Schedule::windowed(Duration::from_millis(65616)), r#"{"windowed":65616}"#),
        (Schedule::linear(Duration::from_millis(10)), r#"{"linear":10}"#),
        (Schedule::exponential(Duration::from_millis(999), 10), r#"{"exponential":[999,10]}"#),
        (Schedule::exponential_milli(Duration::from_millis(3), 1100), r#"{"exponential_milli":[3,1100]}"#),
        (Schedule::fibonacci(Duration::from_millis(1)), r#"{"fibonacci":1}"#),
        (Schedule::decorrelated_milli(1, Duration::from_millis(1), 3000, Duration::from_secs(1)), r#"{"decorrelated":[1,1,3000,1000]}"#),
        (Schedule::unfold(7, 0, 7), r#"{"unfold":[7,0,7]}"#),
        (Schedule::from_duration(Duration::from_secs(60)), r#"{"lone":60000}"#),
        (Schedule::forever().until_output(Test::Below(60)), r#"{"gate":["output",false,"below",60,"forever"]}"#),
        (Schedule::forever().add_delay(Duration::from_millis(0)), r#"{"add":[0,"forever"]}"#),
        (Schedule::forever().set_delay(Duration::from_millis(60)), r#"{"set":[60,"forever"]}"#),
        (Schedule::forever().jitter(1, 500, 1000), r#"{"jitter":[1,500,1000,"forever"]}"#),
        (Schedule::forever().up_to(Duration::from_millis(10)), r#"{"within":[10,"forever"]}"#),
        (Schedule::forever().ends_by(Duration::from_secs(60)), r#"{"ends_by":[60000,"forever"]}"#),
        (Schedule::forever().renew(Duration::from_millis(60)), r#"{"renew":[60,"forever"]}"#),
        (Schedule::forever().renew_idle(Duration::from_millis(5)), r#"{"renew_idle":[5,"forever"]}"#),
        (Schedule::forever().second(), r#"{"second":"forever"}"#),
        (Schedule::forever().nothing(), r#"{"nothing":"forever"}"#),
        (Schedule::forever() & Schedule::forever(), r#"{"meet":["forever","forever"]}"#),
        (Schedule::forever() | Schedule::forever(), r#"{"join":["forever","forever"]}"#),
        (Schedule::forever().and_then(Schedule::forever()), r#"{"follow":["forever","forever"]}"#),
        (Schedule::forever() >> Schedule::forever(), r#"{"feed":["forever","forever"]}"#),
        (Schedule::recurs(8) & Schedule::exponential(Duration::from_millis(100), 2).cap(Duration::from_secs(10)), r#"{"meet":[{"recurs":8},{"cap":[10000,{"exponential":[100,2]}]}]}"#),
        (Schedule::recurs(8) & Schedule::exponential(Duration::from_millis(100), 2).cap(Duration::from_secs(10)).jittered(0.0..1.0), r#"{"meet":[{"recurs":8},{"jitter":[0,0,1000,{"cap":[10000,{"exponential":[100,2]}]}]}]}"#),
        (Schedule::recurs(8) & Schedule::exponential(Duration::from_millis(100), 2).cap(Duration::from_secs(10)).jittered(0.5..1.0), r#"{"meet":[{"recurs":8},{"jitter":[0,500,1000,{"cap":[10000,{"exponential":[100,2]}]}]}]}"#),
        (Schedule::recurs(2), r#"{"recurs":2}"#),
        (Schedule::recurs(3) & Schedule::spaced(Duration::from_millis(100)), r#"{"meet":[{"recurs":3},{"spaced":100}]}"#),
        (Schedule::recurs(5) & Schedule::exponential(Duration::from_millis(100), 2).cap(Duration::from_secs(1)), r#"{"meet":[{"recurs":5},{"cap":[1000,{"exponential":[100,2]}]}]}"#),
        ((Schedule::recurs(3) & Schedule::exponential(Duration::from_millis(250), 2).cap(Duration::from_secs(1))).and_then(Schedule::from_duration(Duration::from_secs(30))), r#"{"follow":[{"meet":[{"recurs":3},{"cap":[1000,{"exponential":[250,2]}]}]},{"lone":30000}]}"#),
        (Schedule::recurs(5) & Schedule::exponential(Duration::from_millis(100), 2).cap(Duration::from_secs(1)).jittered(0.8..1.2), r#"{"meet":[{"recurs":5},{"jitter":[0,800,1200,{"cap":[1000,{"exponential":[100,2]}]}]}]}"#),
        (Schedule::recurs(5) & Schedule::decorrelated(Duration::from_millis(100), 3, Duration::from_secs(10)), r#"{"meet":[{"recurs":5},{"decorrelated":[0,100,3000,10000]}]}"#),
        (Schedule::exponential(Duration::from_secs(1), 3).cap(Duration::from_secs(20)).up_to(Duration::from_secs(60)), r#"{"within":[60000,{"cap":[20000,{"exponential":[1000,3]}]}]}"#),
        (Schedule::exponential(Duration::from_secs(1), 3).cap(Duration::from_secs(20)).ends_by(Duration::from_secs(60)), r#"{"ends_by":[60000,{"cap":[20000,{"exponential":[1000,3]}]}]}"#),
        (Schedule::windowed(Duration::from_secs(1)), r#"{"windowed":1000}"#),
        (Schedule::spaced(Duration::from_millis(500)).while_input(Test::Equal(202)), r#"{"gate":["input",true,"equal",202,{"spaced":500}]}"#),
        ((Schedule::recurs(4) & Schedule::exponential(Duration::from_secs(1), 2)).renew_idle(Duration::from_secs(60)), r#"{"renew_idle":[60000,{"meet":[{"recurs":4},{"exponential":[1000,2]}]}]}"#),
        ((Schedule::recurs(3) & Schedule::spaced(Duration::from_millis(10))).and_then(Schedule::recurs(3) & Schedule::spaced(Duration::from_secs(1))), r#"{"follow":[{"meet":[{"recurs":3},{"spaced":10}]},{"meet":[{"recurs":3},{"spaced":1000}]}]}"#),
        ((Schedule::recurs(3) & Schedule::exponential(Duration::from_millis(100), 2).gather(Fold::Sum)).second(), r#"{"second":{"meet":[{"recurs":3},{"gather":["sum",{"exponential":[100,2]}]}]}}"#),
        ((Schedule::forever() | Schedule::exponential(Duration::from_millis(1), 2).gather(Fold::Sum)).gather(Fold::List).gather(Fold::Sum).jittered(0.0..10.0), r#"{"jitter":[0,0,10000,{"gather":["sum",{"gather":["list",{"join":["forever",{"gather":["sum",{"exponential":[1,2]}]}]}]}]}]}"#),
        (Schedule::forever().set_delay(Duration::from_millis(3)), r#"{"set":[3,"forever"]}"#),
        (Schedule::fibonacci(Duration::from_millis(5)).and_then(Schedule::recurs(5).and_then(Schedule::recurs(5).first())), r#"{"follow":[{"fibonacci":5},{"follow":[{"recurs":5},{"first":{"recurs":5}}]}]}"#),
        (Schedule::fixed(Duration::from_secs(1)).renew(Duration::from_millis(10)), r#"{"renew":[10,{"fixed":1000}]}"#),
        ((Schedule::recurs(5) | Schedule::fibonacci(Duration::from_millis(999)).cap(Duration::from_millis(4611686018427387903))).and_then(Schedule::decorrelated_milli(0, Duration::from_millis(999), 1500, Duration::from_millis(4611686018427387902)).cap(Duration::from_millis(19920))), r#"{"follow":[{"join":[{"recurs":5},{"cap":[4611686018427387903,{"fibonacci":999}]}]},{"cap":[19920,{"decorrelated":[0,999,1500,4611686018427387902]}]}]}"#),
        ((Schedule::unfold(1, 0, 1).renew(Duration::from_secs(60)) >> Schedule::elapsed()).nothing().renew(Duration::from_millis(1)) & Schedule::identity(), r#"{"meet":[{"renew":[1,{"nothing":{"feed":[{"renew":[60000,{"unfold":[1,0,1]}]},"elapsed"]}}]},"identity"]}"#),
        (Schedule::spaced(Duration::from_millis(2)).and_then(Schedule::exponential_milli(Duration::from_millis(7), 1500)).renew_idle(Duration::from_secs(60)).cap(Duration::from_secs(60)).renew_idle(Duration::from_millis(51243)), r#"{"renew_idle":[51243,{"cap":[60000,{"renew_idle":[60000,{"follow":[{"spaced":2},{"exponential_milli":[7,1500]}]}]}]}]}"#),
        (Schedule::windowed(Duration::from_millis(10)).ends_by(Duration::from_secs(60)).nothing().add_delay(Duration::from_millis(3)) >> (Schedule::elapsed() | Schedule::forever().set_delay(Duration::from_millis(5))), r#"{"feed":[{"add":[3,{"nothing":{"ends_by":[60000,{"windowed":10}]}}]},{"join":["elapsed",{"set":[5,"forever"]}]}]}"#),
        (Schedule::linear(Duration::from_millis(999)).ends_by(Duration::from_millis(0)) >> (Schedule::exponential(Duration::from_millis(2), 10) >> Schedule::elapsed()), r#"{"feed":[{"ends_by":[0,{"linear":999}]},{"feed":[{"exponential":[2,10]},"elapsed"]}]}"#),
        (Schedule::exponential_milli(Duration::from_millis(2), 2000) | (Schedule::linear(Duration::from_millis(0)) & (Schedule::spaced(Duration::from_millis(60)) >> Schedule::linear(Duration::from_secs(1)))).gather(Fold::List), r#"{"join":[{"exponential_milli":[2,2000]},{"gather":["list",{"meet":[{"linear":0},{"feed":[{"spaced":60},{"linear":1000}]}]}]}]}"#),
        (Schedule::exponential_milli(Duration::from_millis(100), 500) >> Schedule::spaced(Duration::from_millis(999)), r#"{"feed":[{"exponential_milli":[100,500]},{"spaced":999}]}"#),
        (Schedule::fibonacci(Duration::from_millis(3)).set_delay(Duration::from_millis(0)) & Schedule::from_duration(Duration::from_millis(60)).renew_idle(Duration::from_millis(7)).cap(Duration::from_secs(1)), r#"{"meet":[{"set":[0,{"fibonacci":3}]},{"cap":[1000,{"renew_idle":[7,{"lone":60}]}]}]}"#),
        ((Schedule::from_duration(Duration::from_millis(10)) | Schedule::fixed(Duration::from_millis(60))).renew_idle(Duration::from_secs(60)).second(), r#"{"second":{"renew_idle":[60000,{"join":[{"lone":10},{"fixed":60}]}]}}"#),
        (Schedule::unfold(36623, 2, 0).while_output(Test::Equal(1000)), r#"{"gate":["output",true,"equal",1000,{"unfold":[36623,2,0]}]}"#),
        (Schedule::fixed(Duration::from_millis(3)) >> Schedule::exponential_milli(Duration::from_millis(0), 1000000), r#"{"feed":[{"fixed":3},{"exponential_milli":[0,1000000]}]}"#),
        ((Schedule::unfold(999, 0, 7) >> Schedule::exponential(Duration::from_secs(60), 1)).set_delay(Duration::from_millis(5)).second().gather(Fold::Count).gather(Fold::Count), r#"{"gather":["count",{"gather":["count",{"second":{"set":[5,{"feed":[{"unfold":[999,0,7]},{"exponential":[60000,1]}]}]}}]}]}"#),
        (Schedule::decorrelated_milli(3, Duration::from_millis(3), 3000, Duration::from_millis(19159)).add_delay(Duration::from_millis(0)), r#"{"add":[0,{"decorrelated":[3,3,3000,19159]}]}"#),
        (Schedule::from_duration(Duration::from_millis(7)).jitter(1, 500, 2000).add_delay(Duration::from_millis(10)), r#"{"add":[10,{"jitter":[1,500,2000,{"lone":7}]}]}"#),
        ((Schedule::forever().ends_by(Duration::from_millis(5)).ends_by(Duration::from_millis(0)) | Schedule::unfold(5, 1, 1)).ends_by(Duration::from_millis(2)).renew_idle(Duration::from_millis(1)).add_output().until_output(Test::Equal(72802)) >> Schedule::unfold(0, 1, 0), r#"{"feed":[{"gate":["output",false,"equal",72802,{"add_out":{"renew_idle":[1,{"ends_by":[2,{"join":[{"ends_by":[0,{"ends_by":[5,"forever"]}]},{"unfold":[5,1,1]}]}]}]}}]},{"unfold":[0,1,0]}]}"#),
        (Schedule::fibonacci(Duration::from_millis(1)) >> Schedule::exponential_milli(Duration::from_millis(66605), 1100).and_then(Schedule::fibonacci(Duration::from_millis(7)).first()), r#"{"feed":[{"fibonacci":1},{"follow":[{"exponential_milli":[66605,1100]},{"first":{"fibonacci":7}}]}]}"#),
        (Schedule::exponential_milli(Duration::from_millis(1), 1100) >> Schedule::recurs(20).second().and_then(Schedule::spaced(Duration::from_millis(10)).cap(Duration::from_millis(2)) | Schedule::exponential(Duration::from_millis(5), 2)), r#"{"feed":[{"exponential_milli":[1,1100]},{"follow":[{"second":{"recurs":20}},{"join":[{"cap":[2,{"spaced":10}]},{"exponential":[5,2]}]}]}]}"#),
        ((Schedule::linear(Duration::from_millis(1)) | Schedule::identity()).ends_by(Duration::from_millis(0)), r#"{"ends_by":[0,{"join":[{"linear":1},"identity"]}]}"#),
        (Schedule::unfold(2, 0, 1).gather(Fold::Max).gather(Fold::Sum).and_then(Schedule::unfold(60, 1, 1)).jitter(2, 500, 10000).up_to(Duration::from_millis(999)), r#"{"within":[999,{"jitter":[2,500,10000,{"follow":[{"gather":["sum",{"gather":["max",{"unfold":[2,0,1]}]}]},{"unfold":[60,1,1]}]}]}]}"#),
        (Schedule::recurs(2) >> Schedule::forever(), r#"{"feed":[{"recurs":2},"forever"]}"#),
        (Schedule::from_duration(Duration::from_millis(1)).renew(Duration::from_millis(4611686018427387903)).gather(Fold::Sum), r#"{"gather":["sum",{"renew":[4611686018427387903,{"lone":1}]}]}"#),
        (Schedule::spaced(Duration::from_millis(0)).gather(Fold::Count).set_delay(Duration::from_millis(100)).until_output(Test::Below(4611686018427387903)).cap(Duration::from_millis(5)) >> Schedule::forever().and_then(Schedule::forever()), r#"{"feed":[{"cap":[5,{"gate":["output",false,"below",4611686018427387903,{"set":[100,{"gather":["count",{"spaced":0}]}]}]}]},{"follow":["forever","forever"]}]}"#),
        (Schedule::fibonacci(Duration::from_millis(7)).first(), r#"{"first":{"fibonacci":7}}"#),
        ((Schedule::fixed(Duration::from_secs(60)).add_output().set_delay(Duration::from_millis(3)).cap(Duration::from_secs(1)) >> Schedule::from_duration(Duration::from_millis(0)).until_input(Test::AtLeast(5))).renew_idle(Duration::from_millis(1)) & Schedule::elapsed(), r#"{"meet":[{"renew_idle":[1,{"feed":[{"cap":[1000,{"set":[3,{"add_out":{"fixed":60000}}]}]},{"gate":["input",false,"at_least",5,{"lone":0}]}]}]},"elapsed"]}"#),
        ((Schedule::exponential_milli(Duration::from_millis(60), 2000).and_then(Schedule::linear(Duration::from_millis(999))) & Schedule::forever().set_delay(Duration::from_millis(7))).renew(Duration::from_millis(2)).renew_idle(Duration::from_millis(7)), r#"{"renew_idle":[7,{"renew":[2,{"meet":[{"follow":[{"exponential_milli":[60,2000]},{"linear":999}]},{"set":[7,"forever"]}]}]}]}"#),
        ((Schedule::windowed(Duration::from_millis(2)) & Schedule::exponential(Duration::from_millis(0), 10)) | (Schedule::decorrelated_milli(1, Duration::from_secs(60), 3000, Duration::from_millis(94460)).gather(Fold::Count) | Schedule::windowed(Duration::from_millis(999))), r#"{"join":[{"meet":[{"windowed":2},{"exponential":[0,10]}]},{"join":[{"gather":["count",{"decorrelated":[1,60000,3000,94460]}]},{"windowed":999}]}]}"#),
        (Schedule::unfold(0, 1, 0).ends_by(Duration::from_millis(0)) | Schedule::spaced(Duration::from_secs(1)), r#"{"join":[{"ends_by":[0,{"unfold":[0,1,0]}]},{"spaced":1000}]}"#),
        (Schedule::elapsed() & Schedule::forever(), r#"{"meet":["elapsed","forever"]}"#),
        ((Schedule::fibonacci(Duration::from_millis(8657)).renew_idle(Duration::from_millis(4611686018427387902)).gather(Fold::Sum).ends_by(Duration::from_millis(10)) & (Schedule::from_duration(Duration::from_millis(1)) >> Schedule::exponential_milli(Duration::from_millis(100), 1)).set_delay(Duration::from_millis(7))).up_to(Duration::from_millis(3)), r#"{"within":[3,{"meet":[{"ends_by":[10,{"gather":["sum",{"renew_idle":[4611686018427387902,{"fibonacci":8657}]}]}]},{"set":[7,{"feed":[{"lone":1},{"exponential_milli":[100,1]}]}]}]}]}"#),
        ((Schedule::windowed(Duration::from_millis(1)) >> Schedule::identity()) | Schedule::identity().and_then(Schedule::fibonacci(Duration::from_millis(4611686018427387903))), r#"{"join":[{"feed":[{"windowed":1},"identity"]},{"follow":["identity",{"fibonacci":4611686018427387903}]}]}"#),
        (Schedule::windowed(Duration::from_millis(11254)) | (Schedule::exponential(Duration::from_millis(7), 1).and_then(Schedule::decorrelated(Duration::from_millis(60), 3, Duration::from_millis(60))) >> Schedule::fixed(Duration::from_millis(65260)).add_output().first()), r#"{"join":[{"windowed":11254},{"feed":[{"follow":[{"exponential":[7,1]},{"decorrelated":[0,60,3000,60]}]},{"first":{"add_out":{"fixed":65260}}}]}]}"#),
        (Schedule::elapsed().up_to(Duration::from_secs(60)) & (Schedule::exponential(Duration::from_millis(2), 3).add_output() >> (Schedule::recurs(1) >> Schedule::identity())), r#"{"meet":[{"within":[60000,"elapsed"]},{"feed":[{"add_out":{"exponential":[2,3]}},{"feed":[{"recurs":1},"identity"]}]}]}"#),
        (Schedule::windowed(Duration::from_millis(7)).first(), r#"{"first":{"windowed":7}}"#),
        (Schedule::exponential(Duration::from_millis(60), 1).and_then(Schedule::windowed(Duration::from_millis(1))), r#"{"follow":[{"exponential":[60,1]},{"windowed":1}]}"#),
        ((Schedule::linear(Duration::from_secs(1)).ends_by(Duration::from_millis(0)) >> Schedule::unfold(60000, 1, 7).second()).add_delay(Duration::from_millis(0)), r#"{"add":[0,{"feed":[{"ends_by":[0,{"linear":1000}]},{"second":{"unfold":[60000,1,7]}}]}]}"#),
        (Schedule::forever().up_to(Duration::from_millis(3)).and_then(Schedule::windowed(Duration::from_secs(60)).cap(Duration::from_millis(60)).and_then(Schedule::elapsed().jitter(1, 1000, 10000))), r#"{"follow":[{"within":[3,"forever"]},{"follow":[{"cap":[60,{"windowed":60000}]},{"jitter":[1,1000,10000,"elapsed"]}]}]}"#),
    ];
    for (schedule, json) in pairs {
        assert_eq!(schedule.as_json(), json);
        assert!(Policy::new(&schedule).is_ok(), "{json}");
    }
}

#[test]
fn each_program_plays_its_storm() {
    storm_0::main().unwrap();
    storm_1::main().unwrap();
    storm_2::main().unwrap();
    storm_3::main().unwrap();
    storm_4::main().unwrap();
}

#[test]
fn the_lines_of_each_limit_run() -> Result<(), Box<dyn std::error::Error>> {
    {
        use hikebox::{Policy, Schedule, Unlimited};
        use std::time::Duration;
        let policy = Policy::new(&(Schedule::recurs(8) & Schedule::exponential(Duration::from_millis(100), 2).cap(Duration::from_secs(10)).jittered(0.0..1.0)))?;
        let limit = Unlimited;
        assert_eq!(hikebox::retry(&policy, &limit, || Ok::<_, std::io::Error>(7))?, 7);
    }
    {
        use hikebox::{Policy, Quota, Schedule};
        use std::time::Duration;
        let policy = Policy::new(&(Schedule::recurs(8) & Schedule::exponential(Duration::from_millis(100), 2).cap(Duration::from_secs(10)).jittered(0.0..1.0)))?;
        let limit = Quota::new(1, 0.01, Duration::from_secs(1))?;
        assert_eq!(hikebox::retry(&policy, &limit, || Ok::<_, std::io::Error>(7))?, 7);
    }
    {
        use hikebox::{Policy, Quota, Schedule};
        use std::time::Duration;
        let policy = Policy::new(&(Schedule::recurs(8) & Schedule::exponential(Duration::from_millis(100), 2).cap(Duration::from_secs(10)).jittered(0.0..1.0)))?;
        let limit = Quota::new(100, 0.2, Duration::from_secs(10))?;
        assert_eq!(hikebox::retry(&policy, &limit, || Ok::<_, std::io::Error>(7))?, 7);
    }
    {
        use hikebox::{Bucket, CallLimit, Policy, Schedule};
        use std::time::Duration;
        let policy = Policy::new(&(Schedule::recurs(8) & Schedule::exponential(Duration::from_millis(100), 2).cap(Duration::from_secs(10)).jittered(0.0..1.0)))?;
        let limit = CallLimit::new(Bucket::aws())?;
        assert_eq!(hikebox::retry(&policy, &limit, || Ok::<_, std::io::Error>(7))?, 7);
    }
    {
        use hikebox::{Bucket, CallLimit, Policy, Schedule};
        use std::time::Duration;
        let policy = Policy::new(&(Schedule::recurs(8) & Schedule::exponential(Duration::from_millis(100), 2).cap(Duration::from_secs(10)).jittered(0.0..1.0)))?;
        let limit = CallLimit::new(Bucket::grpc(1000, 0.1)?)?;
        assert_eq!(hikebox::retry(&policy, &limit, || Ok::<_, std::io::Error>(7))?, 7);
    }
    {
        use hikebox::{CallLimit, InFlight, Policy, Schedule};
        use std::time::Duration;
        let policy = Policy::new(&(Schedule::recurs(8) & Schedule::exponential(Duration::from_millis(100), 2).cap(Duration::from_secs(10)).jittered(0.0..1.0)))?;
        let limit = CallLimit::new(InFlight { least: 1, share: 0.05, most: None })?;
        assert_eq!(hikebox::retry(&policy, &limit, || Ok::<_, std::io::Error>(7))?, 7);
    }
    {
        use hikebox::{CallLimit, InFlight, Policy, Schedule};
        use std::time::Duration;
        let policy = Policy::new(&(Schedule::recurs(8) & Schedule::exponential(Duration::from_millis(100), 2).cap(Duration::from_secs(10)).jittered(0.0..1.0)))?;
        let limit = CallLimit::new(InFlight::bulkhead(1000))?;
        assert_eq!(hikebox::retry(&policy, &limit, || Ok::<_, std::io::Error>(7))?, 7);
    }
    {
        use hikebox::{Breaker, CallLimit, Policy, Schedule};
        use std::time::Duration;
        let policy = Policy::new(&(Schedule::recurs(8) & Schedule::exponential(Duration::from_millis(100), 2).cap(Duration::from_secs(10)).jittered(0.0..1.0)))?;
        let limit = CallLimit::new(Breaker { failures: 5, results: None, open_for: Policy::new(&Schedule::spaced(Duration::from_secs(1)))?, probes: 1, probe_deadline: Duration::from_secs(1) })?;
        assert_eq!(hikebox::retry(&policy, &limit, || Ok::<_, std::io::Error>(7))?, 7);
    }
    {
        use hikebox::{Breaker, CallLimit, Policy, Schedule};
        use std::time::Duration;
        let policy = Policy::new(&(Schedule::recurs(8) & Schedule::exponential(Duration::from_millis(100), 2).cap(Duration::from_secs(10)).jittered(0.0..1.0)))?;
        let limit = CallLimit::new(Breaker { failures: 16, results: Some(32), open_for: Policy::new(&Schedule::spaced(Duration::from_secs(30)))?, probes: 1, probe_deadline: Duration::from_secs(1) })?;
        assert_eq!(hikebox::retry(&policy, &limit, || Ok::<_, std::io::Error>(7))?, 7);
    }
    {
        use hikebox::{CallLimit, Policy, Schedule, Throttle};
        use std::time::Duration;
        let policy = Policy::new(&(Schedule::recurs(8) & Schedule::exponential(Duration::from_millis(100), 2).cap(Duration::from_secs(10)).jittered(0.0..1.0)))?;
        let limit = CallLimit::new(Throttle { ratio: 1.1, period: Duration::from_secs(5) })?;
        assert_eq!(hikebox::retry(&policy, &limit, || Ok::<_, std::io::Error>(7))?, 7);
    }
    {
        use hikebox::{CallLimit, Policy, Schedule, Throttle};
        use std::time::Duration;
        let policy = Policy::new(&(Schedule::recurs(8) & Schedule::exponential(Duration::from_millis(100), 2).cap(Duration::from_secs(10)).jittered(0.0..1.0)))?;
        let limit = CallLimit::new(Throttle { ratio: 2.0, period: Duration::from_secs(60) })?;
        assert_eq!(hikebox::retry(&policy, &limit, || Ok::<_, std::io::Error>(7))?, 7);
    }
    {
        use hikebox::{Adaptive, CallLimit, Policy, Schedule};
        use std::time::Duration;
        let policy = Policy::new(&(Schedule::recurs(8) & Schedule::exponential(Duration::from_millis(100), 2).cap(Duration::from_secs(10)).jittered(0.0..1.0)))?;
        let limit = CallLimit::new(Adaptive { least: 1, most: 200, first: 20, backoff: 0.5 })?;
        assert_eq!(hikebox::retry(&policy, &limit, || Ok::<_, std::io::Error>(7))?, 7);
    }
    {
        use hikebox::{Adaptive, CallLimit, Policy, Schedule};
        use std::time::Duration;
        let policy = Policy::new(&(Schedule::recurs(8) & Schedule::exponential(Duration::from_millis(100), 2).cap(Duration::from_secs(10)).jittered(0.0..1.0)))?;
        let limit = CallLimit::new(Adaptive { least: 1, most: 10000, first: 20, backoff: 0.9 })?;
        assert_eq!(hikebox::retry(&policy, &limit, || Ok::<_, std::io::Error>(7))?, 7);
    }
    Ok(())
}

mod storm_0 {
    use hikebox::{Policy, Schedule, Storm};
    use std::time::Duration;

    pub fn main() -> Result<(), Box<dyn std::error::Error>> {
        let schedule = Schedule::recurs(8) & Schedule::exponential(Duration::from_millis(100), 2).cap(Duration::from_secs(10)).jittered(0.0..1.0);
        let policy = Policy::new(&schedule)?;
        let report = Storm::new(&policy)
            .play()?;
        println!("{report}");
        Ok(())
    }
}

mod storm_1 {
    use hikebox::{Policy, Schedule, Storm};
    use std::time::Duration;

    pub fn main() -> Result<(), Box<dyn std::error::Error>> {
        let schedule = Schedule::recurs(8) & Schedule::exponential(Duration::from_millis(100), 2).cap(Duration::from_secs(10)).jittered(0.0..1.0);
        let policy = Policy::new(&schedule)?;
        let report = Storm::new(&policy)
            .rate(10000)
            .together(10000)
            .seconds(1)
            .queue(500)
            .patience(Duration::from_secs(1))
            .no_outage()
            .budget(100)
            .play()?;
        println!("{report}");
        Ok(())
    }
}

mod storm_2 {
    use hikebox::{Policy, Schedule, Storm};
    use std::time::Duration;

    pub fn main() -> Result<(), Box<dyn std::error::Error>> {
        let schedule = Schedule::recurs(8) & Schedule::exponential(Duration::from_millis(100), 2).cap(Duration::from_secs(10)).jittered(0.0..1.0);
        let policy = Policy::new(&schedule)?;
        let report = Storm::new(&policy)
            .rate(400)
            .patience(Duration::from_millis(250))
            .window(Duration::from_millis(500))
            .no_outage()
            .slow(Duration::from_secs(10)..Duration::from_secs(20), 50)
            .quota(10, 0.1, Duration::from_secs(1))
            .play()?;
        println!("{report}");
        Ok(())
    }
}

mod storm_3 {
    use hikebox::{Policy, Schedule, Storm};
    use std::time::Duration;

    pub fn main() -> Result<(), Box<dyn std::error::Error>> {
        let schedule = Schedule::recurs(8) & Schedule::exponential(Duration::from_millis(100), 2).cap(Duration::from_secs(10)).jittered(0.0..1.0);
        let policy = Policy::new(&schedule)?;
        let report = Storm::new(&policy)
            .together(3)
            .seconds(1)
            .capacity(9)
            .queue(7)
            .calls(500)
            .until(Duration::from_millis(1500))
            .outage(Duration::from_millis(5)..Duration::from_millis(700))
            .rates([(Duration::from_millis(10)..Duration::from_millis(20), 900), (Duration::from_millis(100)..Duration::from_millis(1500), 0)])
            .slow(Duration::from_millis(1)..Duration::from_millis(2), 29)
            .seed(7)
            .play()?;
        println!("{report}");
        Ok(())
    }
}

mod storm_4 {
    use hikebox::{Fold, Policy, Population, Schedule, Storm};
    use std::time::Duration;

    pub fn main() -> Result<(), Box<dyn std::error::Error>> {
        let schedule = Schedule::recurs(8) & Schedule::exponential(Duration::from_millis(100), 2).cap(Duration::from_secs(10)).jittered(0.0..1.0);
        let policy = Policy::new(&schedule)?;
        let third = Policy::new(&Schedule::spaced(Duration::from_secs(1)).gather(Fold::Max))?;
        let fourth = Policy::new(&Schedule::recurs(2))?;
        let report = Storm::new(&policy)
            .seconds(1)
            .outage(Duration::from_millis(0)..Duration::from_millis(500))
            .budget(20)
            .beside(Population::new(30, &policy))
            .beside(Population::new(9, &third).patience(Duration::from_secs(2)).limited(true))
            .beside(Population::new(20, &fourth).limited(true))
            .play()?;
        println!("{report}");
        Ok(())
    }
}
