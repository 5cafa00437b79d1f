//! Schedules as expressions.

use crate::engine::{Handle, PolicyKind, Status, MAX_NUMBER};
use std::fmt;
use std::ops::{BitAnd, BitOr, Range, RangeInclusive, Shr};
use std::time::Duration;

/// A recurrence schedule as an expression: when to call again, and when to stop.
///
/// Leaves are functions of this type, and nodes over schedules are methods. The operators `&`, `|` and `>>` are
/// [`meet`](Schedule::meet), [`join`](Schedule::join) and [`feed`](Schedule::feed), like `&&`, `||` and `>>>` of ZIO's
/// `Schedule`. The engine builds the nodes when you make a [`Policy`](crate::Policy).
///
/// Times are whole milliseconds; a duration is rounded up. [`Policy::new`](crate::Policy::new) rejects a duration above
/// 0 and below a millisecond, a ratio above 0 and below half a thousandth, and every other argument that is out of
/// range:
///
/// ```
/// use hikebox::{Policy, Schedule};
/// use std::time::Duration;
///
/// let error = Policy::new(&Schedule::spaced(Duration::from_secs(1)).jittered(1.2..0.8)).unwrap_err();
/// assert_eq!(error.to_string(), "number out of range: jittered(1.2..0.8): the range is empty");
/// let error = Policy::new(&Schedule::spaced(Duration::from_micros(400))).unwrap_err();
/// assert_eq!(error.to_string(), "number out of range: spaced(400µs): expected 0 or at least a millisecond");
/// ```
///
/// ```
/// use hikebox::Schedule;
/// use std::time::Duration;
///
/// let back_off = Schedule::exponential(Duration::from_millis(100), 2).cap(Duration::from_secs(1));
/// let schedule = Schedule::recurs(5) & back_off.jittered(0.8..1.2);
/// assert_eq!(
///     schedule.to_string(),
///     r#"{"meet":[{"recurs":5},{"jitter":[0,800,1200,{"cap":[1000,{"exponential":[100,2]}]}]}]}"#
/// );
/// ```
#[derive(Clone, Debug, PartialEq, Eq, Hash)]
#[must_use]
pub struct Schedule {
    json: String,
    /// Its nodes, each after those that it is over.
    nodes: Vec<Node>,
    /// The first builder that was called with an argument out of range.
    fault: Option<Refused>,
}

/// A node, over none of the schedules before it or over the last one or two.
#[derive(Clone, Debug, PartialEq, Eq, Hash)]
struct Node {
    name: &'static str,
    given: Given,
    over: usize,
}

/// The parameters of a node.
#[derive(Clone, Debug, PartialEq, Eq, Hash)]
enum Given {
    Numbers(Vec<u64>),
    /// With texts among them, as JSON has them.
    Texts(String),
}

/// A call of a builder, as it is written, and what is wrong with it.
#[derive(Clone, Debug, PartialEq, Eq, Hash)]
pub(crate) struct Refused {
    pub(crate) call: String,
    pub(crate) why: &'static str,
}

/// A test of a number, for [`Schedule::while_input`] and its kin. It is false for a value that is not a number.
#[derive(Clone, Copy, Debug, PartialEq, Eq, Hash)]
#[non_exhaustive]
pub enum Test {
    /// The number is below this one.
    Below(u64),
    /// The number is this one or above.
    AtLeast(u64),
    /// The number is this one.
    Equal(u64),
}

/// What [`Schedule::gather`] makes of the outputs so far.
#[derive(Clone, Copy, Debug, PartialEq, Eq, Hash)]
#[non_exhaustive]
pub enum Fold {
    /// Their sum.
    Sum,
    /// How many there were.
    Count,
    /// The greatest.
    Max,
    /// All of them.
    List,
}

impl Schedule {
    /// Goes on at once, for ever; the output counts from 0.
    pub fn forever() -> Self {
        Self::leaf("forever", [])
    }

    /// Goes on at once, `times` times: so `times + 1` calls in all.
    pub fn recurs(times: u64) -> Self {
        Self::leaf("recurs", [times]).checked(number(times), format_args!("recurs({times})"))
    }

    /// Goes on `delay` after each event, for ever.
    pub fn spaced(delay: Duration) -> Self {
        Self::leaf("spaced", [millis(delay)]).checked(span(delay), format_args!("spaced({delay:?})"))
    }

    /// Goes on at fixed intervals, counted from the first event. If a call took longer than an interval, it goes on at
    /// once.
    pub fn fixed(interval: Duration) -> Self {
        Self::leaf("fixed", [millis(interval)]).checked(interval_of(interval), format_args!("fixed({interval:?})"))
    }

    /// Goes on at the next boundary between windows of this length, counted from the first event.
    pub fn windowed(interval: Duration) -> Self {
        Self::leaf("windowed", [millis(interval)])
            .checked(interval_of(interval), format_args!("windowed({interval:?})"))
    }

    /// Delays of `base`, twice `base`, three times `base` and so on.
    pub fn linear(base: Duration) -> Self {
        Self::leaf("linear", [millis(base)]).checked(span(base), format_args!("linear({base:?})"))
    }

    /// Delays that begin with `base`, each `factor` (1 to 1000) times the one before.
    pub fn exponential(base: Duration, factor: u64) -> Self {
        let why = span(base).or(factor_of(factor, 1..=1000, FACTOR));
        Self::leaf("exponential", [millis(base), factor]).checked(why, format_args!("exponential({base:?}, {factor})"))
    }

    /// Delays that begin with `base`, each `thousandths` (1 to 1,000,000) thousandths of the one before: with 1500 each
    /// is half as long again.
    pub fn exponential_milli(base: Duration, thousandths: u64) -> Self {
        let why = span(base).or(factor_of(thousandths, 1..=1_000_000, THOUSANDTHS));
        Self::leaf("exponential_milli", [millis(base), thousandths])
            .checked(why, format_args!("exponential_milli({base:?}, {thousandths})"))
    }

    /// Delays of `first` times 1, 1, 2, 3, 5 and so on.
    pub fn fibonacci(first: Duration) -> Self {
        Self::leaf("fibonacci", [millis(first)]).checked(span(first), format_args!("fibonacci({first:?})"))
    }

    /// Random delays, each from `base` up to `factor` (1 to 1000) times the one before, and none longer than `longest`.
    /// `base` stands in for the delay before the first. AWS calls this decorrelated jitter and uses the factor 3.
    pub fn decorrelated(base: Duration, factor: u64, longest: Duration) -> Self {
        let why = delays_of(base, longest).or(factor_of(factor, 1..=1000, FACTOR));
        Self::delays(0, base, factor.saturating_mul(1000), longest)
            .checked(why, format_args!("decorrelated({base:?}, {factor}, {longest:?})"))
    }

    /// [`Schedule::decorrelated`] with a factor of `thousandths` (1000 to 1,000,000). The random word of `lane` (0 to
    /// 3) picks each delay.
    pub fn decorrelated_milli(lane: u8, base: Duration, thousandths: u64, longest: Duration) -> Self {
        let least = "expected a factor from 1000 to 1,000,000 thousandths";
        let why = delays_of(base, longest).or(lane_of(lane)).or(factor_of(thousandths, 1000..=1_000_000, least));
        Self::delays(lane, base, thousandths, longest)
            .checked(why, format_args!("decorrelated_milli({lane}, {base:?}, {thousandths}, {longest:?})"))
    }

    fn delays(lane: u8, base: Duration, thousandths: u64, longest: Duration) -> Self {
        Self::leaf("decorrelated", [lane.into(), millis(base), thousandths, millis(longest)])
    }

    /// Goes on at once; the output is the time since the first event.
    pub fn elapsed() -> Self {
        Self::leaf("elapsed", [])
    }

    /// Goes on at once; the output is the input, which in a retry is the failure's code.
    pub fn identity() -> Self {
        Self::leaf("identity", [])
    }

    /// Goes on at once; the first output is `start`, and each further one is `times * x + plus` of the output `x`
    /// before.
    pub fn unfold(start: u64, times: u64, plus: u64) -> Self {
        Self::leaf("unfold", [start, times, plus])
            .checked(number(start.max(times).max(plus)), format_args!("unfold({start}, {times}, {plus})"))
    }

    /// Goes on once, after `delay`.
    pub fn from_duration(delay: Duration) -> Self {
        Self::leaf("lone", [millis(delay)]).checked(span(delay), format_args!("from_duration({delay:?})"))
    }

    /// Goes on while both do, at the later of the two starts.
    pub fn meet(self, other: Self) -> Self {
        Self::over("meet", [self, other])
    }

    /// Goes on while either does, at the earlier of the two starts.
    pub fn join(self, other: Self) -> Self {
        Self::over("join", [self, other])
    }

    /// This schedule until it is done, then the other one, beginning with that event.
    pub fn and_then(self, other: Self) -> Self {
        Self::over("follow", [self, other])
    }

    /// The other schedule with this one's outputs as its inputs. It goes on while both do, at the later start.
    pub fn feed(self, other: Self) -> Self {
        Self::over("feed", [self, other])
    }

    /// Done at the first input for which the test is false. In a retry, the input is the failure's code.
    pub fn while_input(self, test: Test) -> Self {
        self.gate("input", true, test)
    }

    /// Done at the first input for which the test is true.
    pub fn until_input(self, test: Test) -> Self {
        self.gate("input", false, test)
    }

    /// Done at the first output for which the test is false.
    pub fn while_output(self, test: Test) -> Self {
        self.gate("output", true, test)
    }

    /// Done at the first output for which the test is true.
    pub fn until_output(self, test: Test) -> Self {
        self.gate("output", false, test)
    }

    /// The output is `fold` of the outputs at the earlier events.
    pub fn gather(self, fold: Fold) -> Self {
        let kind = match fold {
            Fold::Sum => "sum",
            Fold::Count => "count",
            Fold::Max => "max",
            Fold::List => "list",
        };
        Self::node("gather", Given::Texts(format!("\"{kind}\"")), [self])
    }

    /// Each delay is longer by `delay`.
    pub fn add_delay(self, delay: Duration) -> Self {
        self.under("add", "add_delay", delay)
    }

    /// Each delay is `delay`.
    pub fn set_delay(self, delay: Duration) -> Self {
        self.under("set", "set_delay", delay)
    }

    /// No delay is longer than `longest`.
    pub fn cap(self, longest: Duration) -> Self {
        self.under("cap", "cap", longest)
    }

    /// Each delay is longer by the output, in milliseconds.
    pub fn add_output(self) -> Self {
        Self::over("add_out", [self])
    }

    /// Multiplies each delay by a random ratio in `ratios`, from 0 to 10 and in thousandths, so that callers that
    /// failed together do not retry together. `0.8..1.2` is what `jittered` of ZIO does.
    ///
    /// [`Policy::new`](crate::Policy::new) rejects a ratio that is negative, above 10, or not a number.
    pub fn jittered(self, ratios: Range<f64>) -> Self {
        self.ratios(0, thousandths(ratios.start), thousandths(ratios.end))
            .checked(range_of(&ratios), format_args!("jittered({ratios:?})"))
    }

    /// Multiplies each delay by a ratio from `least` to `most` thousandths (at most 10,000). The random word of `lane`
    /// (0 to 3) picks it.
    pub fn jitter(self, lane: u8, least: u64, most: u64) -> Self {
        self.ratios(lane, least, most)
            .checked(lane_of(lane).or(jitter_of(least, most)), format_args!("jitter({lane}, {least}, {most})"))
    }

    /// Done at the first event that is `time` or more after the first one.
    pub fn up_to(self, time: Duration) -> Self {
        self.under("within", "up_to", time)
    }

    /// Done if it would go on later than `time` after the first event: it plans no call for later.
    pub fn ends_by(self, time: Duration) -> Self {
        self.under("ends_by", "ends_by", time)
    }

    /// Begins anew at the first event that comes `time` or more after the first event of the current round.
    pub fn renew(self, time: Duration) -> Self {
        self.under("renew", "renew", time).checked(interval_of(time), format_args!("renew({time:?})"))
    }

    /// Begins anew at each event that comes `time` or more after the one before it.
    pub fn renew_idle(self, time: Duration) -> Self {
        self.under("renew_idle", "renew_idle", time).checked(interval_of(time), format_args!("renew_idle({time:?})"))
    }

    /// The output is the first part of a pair.
    pub fn first(self) -> Self {
        Self::over("first", [self])
    }

    /// The output is the second part of a pair.
    pub fn second(self) -> Self {
        Self::over("second", [self])
    }

    /// The output is nothing.
    pub fn nothing(self) -> Self {
        Self::over("nothing", [self])
    }

    /// The schedule's JSON text, as `zsched plan` and every other entry to Hikebox reads it.
    #[must_use]
    pub fn as_json(&self) -> &str {
        &self.json
    }

    /// The first builder that was called with an argument out of range.
    pub(crate) fn fault(&self) -> Option<&Refused> {
        self.fault.as_ref()
    }

    /// The policy, which the engine builds node by node.
    pub(crate) fn build(&self) -> Result<Handle<PolicyKind>, Status> {
        let mut built: Vec<Handle<PolicyKind>> = Vec::new();
        for Node { name, given, over } in &self.nodes {
            let mut under = built.split_off(built.len() - over);
            built.push(match given {
                Given::Numbers(numbers) => Handle::node(name, numbers, &mut under)?,
                Given::Texts(members) => read(name, members, &mut under)?,
            });
        }
        built.pop().ok_or(Status::NotAPolicy)
    }

    fn leaf<const N: usize>(name: &'static str, numbers: [u64; N]) -> Self {
        Self::node(name, Given::Numbers(numbers.into()), [])
    }

    /// A node over these schedules that has no parameter.
    fn over<const N: usize>(name: &'static str, under: [Self; N]) -> Self {
        Self::node(name, Given::Numbers(Vec::new()), under)
    }

    /// A node over these schedules, of which it keeps the first fault.
    fn node<const N: usize>(name: &'static str, given: Given, under: [Self; N]) -> Self {
        let (mut members, mut nodes, mut fault) = (given.spelt(), Vec::new(), None);
        for schedule in under {
            members.push(schedule.json);
            nodes.extend(schedule.nodes);
            fault = fault.or(schedule.fault);
        }
        let json = match members.as_slice() {
            [] => format!("\"{name}\""),
            [member] => format!("{{\"{name}\":{member}}}"),
            members => format!("{{\"{name}\":[{}]}}", members.join(",")),
        };
        nodes.push(Node { name, given, over: N });
        Self { json, nodes, fault }
    }

    fn under(self, name: &'static str, builder: &str, time: Duration) -> Self {
        Self::node(name, Given::Numbers(vec![millis(time)]), [self])
            .checked(span(time), format_args!("{builder}({time:?})"))
    }

    fn ratios(self, lane: u8, least: u64, most: u64) -> Self {
        Self::node("jitter", Given::Numbers(vec![lane.into(), least, most]), [self])
    }

    fn gate(self, side: &str, want: bool, test: Test) -> Self {
        let (name, than) = match test {
            Test::Below(number) => ("below", number),
            Test::AtLeast(number) => ("at_least", number),
            Test::Equal(number) => ("equal", number),
        };
        let builder = format!("{}_{side}", if want { "while" } else { "until" });
        Self::node("gate", Given::Texts(format!("\"{side}\",{want},\"{name}\",{than}")), [self])
            .checked(number(than), format_args!("{builder}({test:?})"))
    }

    /// The same with what is wrong with the builder's call, unless something was before.
    fn checked(mut self, why: Option<&'static str>, call: fmt::Arguments<'_>) -> Self {
        if let (None, Some(why)) = (&self.fault, why) {
            self.fault = Some(Refused { call: call.to_string(), why });
        }
        self
    }
}

/// A node with texts among its parameters, which the engine reads from JSON alone.
fn read(name: &str, members: &str, under: &mut [Handle<PolicyKind>]) -> Result<Handle<PolicyKind>, Status> {
    let mut json = format!("{{\"{name}\":[{members}");
    for policy in under {
        json += ",";
        json += &policy.json()?;
    }
    Handle::read(&(json + "]}")).map_err(|(status, _)| status)
}

impl Given {
    /// As the first members of the node's JSON.
    fn spelt(&self) -> Vec<String> {
        match self {
            Self::Numbers(numbers) => numbers.iter().map(ToString::to_string).collect(),
            Self::Texts(members) => vec![members.clone()],
        }
    }
}

const FACTOR: &str = "expected a factor from 1 to 1000";
const THOUSANDTHS: &str = "expected a factor from 1 to 1,000,000 thousandths";

/// What is wrong with a duration, where something is.
fn span(time: Duration) -> Option<&'static str> {
    match millis(time) {
        1 if time < Duration::from_millis(1) => Some("expected 0 or at least a millisecond"),
        millis if millis > MAX_NUMBER => Some("expected at most 2^62 - 1 milliseconds"),
        _ => None,
    }
}

/// The same with one that is not 0.
fn interval_of(time: Duration) -> Option<&'static str> {
    time.is_zero().then_some("expected an interval above 0").or(span(time))
}

fn number(number: u64) -> Option<&'static str> {
    (number > MAX_NUMBER).then_some("expected a number of at most 2^62 - 1")
}

fn factor_of(factor: u64, range: RangeInclusive<u64>, why: &'static str) -> Option<&'static str> {
    (!range.contains(&factor)).then_some(why)
}

fn delays_of(base: Duration, longest: Duration) -> Option<&'static str> {
    let is_short = (longest < base).then_some("expected a longest delay of at least the base");
    span(base).or(span(longest)).or(is_short)
}

fn lane_of(lane: u8) -> Option<&'static str> {
    (lane > 3).then_some("expected a lane from 0 to 3")
}

fn jitter_of(least: u64, most: u64) -> Option<&'static str> {
    let is_high = (most > 10_000).then_some("expected a ratio from 0 to 10,000 thousandths");
    is_high.or((least > most).then_some("the range is empty"))
}

/// What is wrong with ratios, where something is.
fn range_of(ratios: &Range<f64>) -> Option<&'static str> {
    let ends = [ratios.start, ratios.end];
    let is_beyond = !ends.iter().all(|ratio| (0.0..=10.0).contains(ratio));
    let is_small = ends.iter().any(|ratio| *ratio > 0.0 && thousandths(*ratio) == 0);
    let why = is_beyond.then_some("expected a ratio from 0 to 10");
    let why = why.or((ratios.start > ratios.end).then_some("the range is empty"));
    why.or(is_small.then_some("expected 0 or at least a thousandth"))
}

impl BitAnd for Schedule {
    type Output = Self;

    fn bitand(self, other: Self) -> Self {
        self.meet(other)
    }
}

impl BitOr for Schedule {
    type Output = Self;

    fn bitor(self, other: Self) -> Self {
        self.join(other)
    }
}

impl Shr for Schedule {
    type Output = Self;

    fn shr(self, other: Self) -> Self {
        self.feed(other)
    }
}

impl fmt::Display for Schedule {
    fn fmt(&self, f: &mut fmt::Formatter<'_>) -> fmt::Result {
        f.write_str(&self.json)
    }
}

/// Whole milliseconds, rounded up.
fn millis(duration: Duration) -> u64 {
    u64::try_from((duration.as_nanos() + 999_999) / 1_000_000).unwrap_or(u64::MAX)
}

/// Thousandths of a ratio; what is no ratio is a number that no policy takes.
fn thousandths(ratio: f64) -> u64 {
    if (0.0..=10.0).contains(&ratio) {
        (ratio * 1000.0).round() as u64
    } else {
        u64::MAX
    }
}
