//! Policies: schedules that the engine has accepted.

pub(crate) mod schedule;
mod waits;

pub use schedule::{Fold, Schedule, Test};
pub use waits::Waits;

use crate::engine::{self, Event, Handle, Place, PolicyKind, Size, Status, MAX_STEPS};
use crate::system::{lock, PerProcess};
use std::error::Error;
use std::fmt;
use std::mem;
use std::str::FromStr;
use std::sync::{Arc, Mutex};

/// A schedule that the engine has accepted: at most 256 nodes, and at most 32 deep. It is cheap to clone, threads can
/// share it, and all retries by it share one plan.
///
/// ```
/// use hikebox::{Policy, Schedule};
/// use std::time::Duration;
///
/// let schedule = Schedule::recurs(3) & Schedule::spaced(Duration::from_millis(100));
/// let policy = Policy::new(&schedule)?;
/// assert_eq!(policy, r#"{"meet":[{"recurs":3},{"spaced":100}]}"#.parse()?);
/// assert_eq!(policy.nodes(), 3);
/// # Ok::<(), hikebox::PolicyError>(())
/// ```
#[derive(Clone)]
pub struct Policy {
    shared: Arc<Shared>,
}

struct Shared {
    json: String,
    size: Size,
    /// Whether a node reads a random word.
    reads_words: bool,
    /// Locked for as long as a share of the plan is taken: at the first failure of a call, and not at a success.
    handle: PerProcess<Mutex<Handle<PolicyKind>>>,
}

/// Why a text or a [`Schedule`] is not a policy: its first error, where that is, and what was expected there.
///
/// ```
/// use hikebox::{Policy, PolicyFault};
///
/// let error = Policy::from_json(r#"{"meet":["forever",{"recur":3}]}"#).unwrap_err();
/// assert_eq!(error.fault(), PolicyFault::NotAPolicy);
/// assert_eq!(error.place(), "meet[1]");
/// assert_eq!(error.hint(), r#"no node is called "recur"; did you mean "recurs"?"#);
/// ```
#[derive(Clone, Debug, PartialEq, Eq, Hash)]
pub struct PolicyError {
    fault: PolicyFault,
    place: String,
    hint: String,
}

/// What is wrong with a policy.
#[derive(Clone, Copy, Debug, PartialEq, Eq, Hash)]
#[non_exhaustive]
pub enum PolicyFault {
    /// The text is not JSON. It stops being JSON at this place, counted from 1, or 0 if that is not known.
    NotJson {
        /// The line.
        line: u64,
        /// The column.
        column: u64,
    },
    /// The JSON value, or one inside it, does not have the form of a policy.
    NotAPolicy,
    /// A parameter is outside its range.
    OutOfRange,
    /// It is deeper than 32.
    TooDeep,
    /// It has more than 256 nodes.
    TooMany,
    /// Memory ran out.
    NoMemory,
}

/// One event of what a policy would do: see [`Policy::preview`].
#[derive(Clone, Debug, PartialEq, Eq, Hash)]
#[non_exhaustive]
pub struct Line {
    /// The moment of the event, in milliseconds.
    pub moment: u64,
    /// The output, as text.
    pub output: String,
    /// The planned start, in milliseconds, or `None` if the policy is done.
    pub next: Option<u64>,
}

impl Policy {
    /// Builds the policy of a schedule, node by node. No text is read.
    ///
    /// # Errors
    ///
    /// [`PolicyError`] is the schedule's first error.
    pub fn new(schedule: &Schedule) -> Result<Self, PolicyError> {
        if let Some(refused) = schedule.fault() {
            let (place, hint) = (refused.call.clone(), refused.why.to_owned());
            return Err(PolicyError { fault: PolicyFault::OutOfRange, place, hint });
        }
        match schedule.build() {
            Ok(handle) => Self::of(handle).map_err(PolicyError::of),
            Err(Status::NoMemory) => Err(PolicyError::no_memory()),
            // (of the text it is known where, but the engine reads none that is nested more than 127 deep)
            Err(status) => Self::from_json(schedule.as_json()).map_err(|error| match error.fault {
                PolicyFault::NotJson { .. } => {
                    let hint = "expected a schedule of at most 256 nodes, at most 32 deep".to_owned();
                    PolicyError { hint, ..PolicyError::of(status) }
                }
                _ => error,
            }),
        }
    }

    /// Reads the policy that a JSON text spells.
    ///
    /// # Errors
    ///
    /// [`PolicyError`] is the text's first error.
    pub fn from_json(json: &str) -> Result<Self, PolicyError> {
        let handle = Handle::read(json).map_err(|(status, place)| PolicyError::of_text(json, status, place))?;
        Self::of(handle).map_err(PolicyError::of)
    }

    fn of(mut handle: Handle<PolicyKind>) -> Result<Self, Status> {
        let (json, size, reads_words) = (handle.json()?, handle.size(), handle.reads_words());
        let handle = PerProcess::new(Mutex::new(handle));
        Ok(Self { shared: Arc::new(Shared { json, size, reads_words, handle }) })
    }

    /// The policy's JSON text, without spaces, as the engine writes it.
    #[must_use]
    pub fn as_json(&self) -> &str {
        &self.shared.json
    }

    /// How many nodes it has.
    #[must_use]
    pub fn nodes(&self) -> u64 {
        self.shared.size.nodes
    }

    /// How deep it is.
    #[must_use]
    pub fn depth(&self) -> u64 {
        self.shared.size.depth
    }

    /// The maximum number of retries, whatever happens, or `None` if the nodes alone do not bound it.
    ///
    /// ```
    /// use hikebox::Policy;
    ///
    /// let policy: Policy = r#"{ "follow": [{ "recurs": 2 }, { "recurs": 3 }] }"#.parse()?;
    /// assert_eq!(policy.most_retries(), Some(5));
    /// assert_eq!(policy.as_json(), r#"{"follow":[{"recurs":2},{"recurs":3}]}"#);
    /// assert_eq!(Policy::from_json("\"forever\"")?.most_retries(), None);
    /// # Ok::<(), hikebox::PolicyError>(())
    /// ```
    #[must_use]
    pub fn most_retries(&self) -> Option<u64> {
        self.shared.size.most
    }

    /// What the policy would do, event by event, as `zsched plan` prints it. The first event is at 0 and each further
    /// one at the start planned before it, with the input 0 and with random words that pick the middle of each jitter.
    /// The preview ends after `steps` events (at most 4,096), or when the policy is done.
    ///
    /// ```
    /// use hikebox::Policy;
    ///
    /// let policy: Policy = r#"{"meet":[{"recurs":1},{"spaced":100}]}"#.parse()?;
    /// let lines: Vec<String> = policy.preview(10)?.iter().map(ToString::to_string).collect();
    /// assert_eq!(lines, ["0: (0, 0) next 100", "100: (1, 1) done"]);
    /// # Ok::<(), hikebox::PolicyError>(())
    /// ```
    ///
    /// # Errors
    ///
    /// [`PolicyFault::NoMemory`] if memory runs out.
    pub fn preview(&self, steps: usize) -> Result<Vec<Line>, PolicyError> {
        let steps = u64::try_from(steps).unwrap_or(MAX_STEPS).min(MAX_STEPS);
        let course = engine::Course { size: mem::size_of::<engine::Course>(), steps, from: 0, took: 0 };
        let events = [Event { input: 0, words: [1 << 31; 4] }];
        let mut policy = self.share().map_err(PolicyError::of)?;
        let lines = policy.course(&course, &events).map_err(PolicyError::of)?;
        let text = policy.outputs(&course, &events, &lines).map_err(PolicyError::of)?;
        let ends = lines.iter().map(|line| line.text_to as usize);
        let begins = std::iter::once(0).chain(ends);
        Ok(lines.iter().zip(begins).map(|(line, begin)| Line::of(line, begin, &text)).collect())
    }

    /// A handle of its own, so that nobody waits for the policy's while it is used.
    pub(crate) fn share(&self) -> Result<Handle<PolicyKind>, Status> {
        self.with(Handle::<PolicyKind>::share)
    }

    /// Random words for an event, which are drawn only if a node reads one.
    #[inline]
    pub(crate) fn words(&self, draw: impl FnOnce() -> [u32; 4]) -> [u32; 4] {
        if self.shared.reads_words {
            draw()
        } else {
            [0; 4]
        }
    }

    /// Whether it is a clone of the other, or that of it.
    #[inline]
    pub(crate) fn is(&self, other: &Self) -> bool {
        Arc::ptr_eq(&self.shared, &other.shared)
    }

    /// Whether it is the last of its clones.
    pub(crate) fn is_last(&self) -> bool {
        Arc::strong_count(&self.shared) == 1
    }

    /// Lends the handle to one call.
    #[inline]
    pub(crate) fn with<T>(&self, call: impl FnOnce(&mut Handle<PolicyKind>) -> T) -> T {
        let Shared { json, handle, .. } = &*self.shared;
        call(&mut lock(handle.get(|| Mutex::new(Handle::read(json).expect("memory for a policy")))))
    }
}

impl Line {
    /// A line whose output begins there among the outputs of all.
    fn of(line: &engine::Line, begin: usize, text: &str) -> Self {
        let output = text.get(begin..line.text_to as usize).unwrap_or_default().to_owned();
        Self { moment: line.moment, output, next: line.goes_on.then_some(line.start) }
    }
}

impl PolicyError {
    /// What is wrong.
    #[must_use]
    pub fn fault(&self) -> PolicyFault {
        self.fault
    }

    /// Where it is: the builder's call of a [`Schedule`], such as `jittered(1.2..0.8)`; for a text the path to the
    /// node, such as `meet[1].cap[1]`, or `line 2, column 7` if it is not JSON. Empty if it is the whole policy, or
    /// unknown.
    #[must_use]
    pub fn place(&self) -> &str {
        &self.place
    }

    /// What was expected there and what was found, or why it is not JSON, as `zsched check` says it; or nothing.
    #[must_use]
    pub fn hint(&self) -> &str {
        &self.hint
    }

    /// That memory is wanting.
    pub(crate) fn no_memory() -> Self {
        Self::of(Status::NoMemory)
    }

    /// The error of a call on what is a policy.
    fn of(status: Status) -> Self {
        Self { fault: PolicyFault::of(status, Place::default()), place: String::new(), hint: String::new() }
    }

    /// The error of this text, which was refused with this status.
    fn of_text(json: &str, status: Status, at: Place) -> Self {
        let fault = PolicyFault::of(status, at);
        let (place, hint) = match fault {
            PolicyFault::NoMemory | PolicyFault::NotJson { line: 0, .. } => Default::default(),
            PolicyFault::NotJson { line, column } => {
                // (it is told as `not JSON: PLACE: REASON`)
                let reason = told(json).1.split_once(": ").map(|(_, reason)| reason.to_string());
                (format!("line {line}, column {column}"), reason.unwrap_or_default())
            }
            _ => told(json),
        };
        Self { fault, place, hint }
    }
}

/// The place of a text's first fault, and what is wanted there, as the engine says; nothing where memory is refused.
fn told(json: &str) -> (String, String) {
    let told = engine::fault(json).unwrap_or_default();
    let (place, hint) = told.split_once(": ").unwrap_or_default();
    let place = if place == "top" { "" } else { place };
    (place.into(), hint.into())
}

impl PolicyFault {
    fn of(status: Status, place: Place) -> Self {
        match status {
            Status::NotJson => Self::NotJson { line: place.line, column: place.column },
            Status::NotAPolicy => Self::NotAPolicy,
            Status::OutOfRange => Self::OutOfRange,
            Status::TooDeep => Self::TooDeep,
            Status::TooMany => Self::TooMany,
            Status::NoMemory => Self::NoMemory,
            status => unreachable!("the engine's status {status:?}"),
        }
    }
}

impl fmt::Display for PolicyFault {
    fn fmt(&self, f: &mut fmt::Formatter<'_>) -> fmt::Result {
        f.write_str(match self {
            Self::NotJson { .. } => "not JSON",
            Self::NotAPolicy => "not a policy",
            Self::OutOfRange => "number out of range",
            Self::TooDeep => "too deep",
            Self::TooMany => "too many nodes",
            Self::NoMemory => "no memory",
        })
    }
}

/// What is wrong, where, and what is wanted there.
impl fmt::Display for PolicyError {
    fn fmt(&self, f: &mut fmt::Formatter<'_>) -> fmt::Result {
        self.fault.fmt(f)?;
        for part in [&self.place, &self.hint].into_iter().filter(|part| !part.is_empty()) {
            write!(f, ": {part}")?;
        }
        Ok(())
    }
}

impl Error for PolicyError {}

impl FromStr for Policy {
    type Err = PolicyError;

    fn from_str(json: &str) -> Result<Self, PolicyError> {
        Self::from_json(json)
    }
}

/// As its text.
impl std::hash::Hash for Policy {
    fn hash<H: std::hash::Hasher>(&self, state: &mut H) {
        self.as_json().hash(state);
    }
}

/// Policies are equal if they have the same nodes with the same parameters, however they were spelt.
impl PartialEq for Policy {
    fn eq(&self, other: &Self) -> bool {
        self.as_json() == other.as_json()
    }
}

impl Eq for Policy {}

impl fmt::Debug for Policy {
    fn fmt(&self, f: &mut fmt::Formatter<'_>) -> fmt::Result {
        write!(f, "Policy({})", self.as_json())
    }
}

impl fmt::Display for Policy {
    fn fmt(&self, f: &mut fmt::Formatter<'_>) -> fmt::Result {
        f.write_str(self.as_json())
    }
}

/// As a line of `zsched plan`.
impl fmt::Display for Line {
    fn fmt(&self, f: &mut fmt::Formatter<'_>) -> fmt::Result {
        match self.next {
            Some(start) => write!(f, "{}: {} next {start}", self.moment, self.output),
            None => write!(f, "{}: {} done", self.moment, self.output),
        }
    }
}
