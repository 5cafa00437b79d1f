//! Limits of other systems, which a call asks before its first run too.

use crate::clock::{beginning, whole_millis, Moment};
use crate::engine::{Handle, LimitKind, Seen, MAX_NUMBER};
use crate::limits::changes::{self, BreakerState, Changes, OnChange};
use crate::limits::error::LimitError;
use crate::limits::grants::Tickets;
use crate::limits::holding::Quiet;
use crate::limits::per_key::Counted;
use crate::limits::refused::{RefusalReason, Refused};
use crate::limits::seen::LimitState;
use crate::limits::shards::Shards;
use crate::limits::terms::{fault, thousandths, Breaker, Terms};
use crate::limits::ticket::{NoTicket, Ticket};
use crate::random;
use crate::system::{generation, is_generation, lock, PerProcess};
use std::fmt;
use std::mem;
use std::panic::{RefUnwindSafe, UnwindSafe};
use std::sync::{Arc, Mutex};
use std::time::Duration;

/// A limit of another system: a [`Bucket`](crate::Bucket), a bound on what is [`InFlight`](crate::InFlight), a
/// [`Breaker`](crate::Breaker), a [`Throttle`](crate::Throttle) or an [`Adaptive`](crate::Adaptive) limit. A call asks it
/// before its first run and before each retry, and it learns how each run ended. All threads of a program share it, and
/// what they do acts as one sequence. It is cheap to clone; all clones are the same limit.
///
/// ```
/// use hikebox::{retry, Breaker, CallLimit, Policy, RefusalReason, RetryError};
///
/// let policy: Policy = r#"{"recurs":9}"#.parse()?;
/// let breaker = CallLimit::new(Breaker::consecutive(2, r#"{"spaced":30000}"#.parse()?))?;
/// let mut runs = 0;
/// let answer = retry(&policy, &breaker, || { runs += 1; Err::<(), _>("down") });
/// assert_eq!(answer, Err(RetryError::LimitRefused("down")));
/// assert_eq!(runs, 2);
/// match retry(&policy, &breaker, || Ok::<_, &str>(5)) {
///     Err(RetryError::NotAdmitted(refused)) => assert_eq!(refused.reason(), RefusalReason::BreakerOpen),
///     other => panic!("{other:?}"),
/// }
/// # Ok::<(), Box<dyn std::error::Error>>(())
/// ```
///
/// Everything that runs calls for you takes one in the place of a [`Quota`](crate::Quota); [`Grants`](crate::Grants)
/// says what does not. When a call ends, or its future or its [`Request`] is dropped, what it still holds is given
/// back, once. It reads the system's clock and random words, with the feature `tokio` tokio's clock;
/// [`Retrying::clock`](crate::Retrying::clock) and [`Retrying::random`](crate::Retrying::random) do not change that. A
/// limit belongs to its process: a forked child has its own, with nothing counted.
#[derive(Clone)]
pub struct CallLimit {
    shared: Arc<Shared>,
}

// (a panic in `on_change` leaves the limit as it is)
impl UnwindSafe for CallLimit {}
impl RefUnwindSafe for CallLimit {}

struct Shared {
    made: Made,
    /// Moment 0.
    began: Moment,
    reads: Reads,
    /// Whether it can be quiet.
    rests: bool,
    tells: Tells,
    handles: PerProcess<Handles>,
}

/// Who hears of a breaker's changes.
enum Tells {
    Nobody,
    This(Box<OnChange>),
    /// Some of several limits tell theirs.
    Parts,
}

/// What a limit reads of a call: one that does not read the clock, or a random word, is asked with 0 in its place.
#[derive(Clone, Copy, Debug, Default)]
struct Reads {
    clock: bool,
    words: bool,
}

/// What a limit is made with, and so is another one in each forked child.
#[derive(Debug)]
enum Made {
    Of(Terms),
    /// Several at once, each of terms of its own.
    All(Vec<CallLimit>),
}

/// The first handle of a limit, those that no request uses now, and those that look; and what is told of a breaker.
struct Handles {
    root: Mutex<Handle<LimitKind>>,
    idle: Mutex<Vec<Handle<LimitKind>>>,
    looks: Shards<Handle<LimitKind>>,
    changes: Mutex<Changes>,
}

impl CallLimit {
    /// A limit with these terms.
    ///
    /// # Errors
    ///
    /// [`LimitError::OutOfRange`] if a number is out of its range, and [`LimitError::NoMemory`].
    pub fn new(terms: impl Into<Terms>) -> Result<Self, LimitError> {
        Self::of(Made::Of(terms.into()), Tells::Nobody)
    }

    /// A breaker that tells each change that a call of this process makes or finds: what it was, and what it is. Each is
    /// told once, in their order, by one thread at a time.
    ///
    /// ```
    /// use hikebox::{Breaker, CallLimit};
    /// use std::time::Duration;
    ///
    /// let terms = Breaker::consecutive(5, r#"{"spaced":30000}"#.parse()?);
    /// let breaker = CallLimit::with_on_change(terms, |before, after| println!("{before:?} to {after:?}"))?;
    /// breaker.open(Duration::from_secs(60))?; // prints: Closed to Open
    /// # Ok::<(), Box<dyn std::error::Error>>(())
    /// ```
    ///
    /// A panic of the function is one of the call that told it; the changes after it are told later.
    ///
    /// # Errors
    ///
    /// As of [`new`](Self::new).
    pub fn with_on_change(
        breaker: Breaker,
        on_change: impl Fn(BreakerState, BreakerState) + Send + Sync + 'static,
    ) -> Result<Self, LimitError> {
        Self::of(Made::Of(breaker.into()), Tells::This(Box::new(on_change)))
    }

    fn of(made: Made, tells: Tells) -> Result<Self, LimitError> {
        let began = beginning();
        let handles = PerProcess::new(Handles::of(made.handle(moment_of(began))?));
        let (reads, rests) = (made.reads(), made.rests());
        Ok(Self { shared: Arc::new(Shared { made, began, reads, rests, tells, handles }) })
    }

    /// Tells what has changed, where somebody hears of it.
    #[inline]
    fn tell_changes(&self) {
        if !matches!(self.shared.tells, Tells::Nobody) {
            self.tell_of_each();
        }
    }

    #[cold]
    fn tell_of_each(&self) {
        if let Tells::This(on_change) = &self.shared.tells {
            let see = || self.seen().first().and_then(BreakerState::of);
            changes::tell(&self.handles().changes, see, on_change);
        }
        if let (Tells::Parts, Made::All(limits)) = (&self.shared.tells, &self.shared.made) {
            limits.iter().for_each(Self::tell_changes);
        }
    }

    #[inline]
    fn handles(&self) -> &Handles {
        let make = || self.shared.made.handle(moment_of(self.shared.began)).expect("memory for a limit");
        self.shared.handles.get(|| Handles::of(make()))
    }

    /// A request of the limit, for a call that you retry by hand.
    ///
    /// # Errors
    ///
    /// [`LimitError::NoMemory`].
    pub fn request(&self) -> Result<Request, LimitError> {
        let idle = lock(&self.handles().idle).pop();
        let handle = match idle {
            Some(handle) => handle,
            None => lock(&self.handles().root).split().map_err(fault)?,
        };
        let (limit, handle, generation) = (self.clone(), Some(handle), generation());
        Ok(Request { limit, handle, generation, is_admitted: false, timed_out: false })
    }

    /// The state of each of its limits now, in the order in which they are asked. It changes nothing.
    ///
    /// ```
    /// use hikebox::{Bucket, CallLimit, LimitState};
    ///
    /// let bucket = CallLimit::new(Bucket::aws())?;
    /// assert_eq!(bucket.seen(), [LimitState::Bucket { level: 500.0, capacity: 500.0 }]);
    /// # Ok::<(), hikebox::LimitError>(())
    /// ```
    #[must_use]
    pub fn seen(&self) -> Vec<LimitState> {
        match &self.shared.made {
            Made::All(limits) => limits.iter().flat_map(Self::seen).collect(),
            Made::Of(_) => {
                let now = moment_of(self.shared.began);
                vec![LimitState::of(&lock(&self.handles().root).state(now), now)]
            }
        }
    }

    /// Opens a breaker by hand for so long, or each of several limits that is one. Runs that are under way change
    /// nothing when they end.
    ///
    /// # Errors
    ///
    /// [`LimitError::NoBreaker`] if none is a breaker.
    pub fn open(&self, time: Duration) -> Result<(), LimitError> {
        let now = moment_of(self.shared.began);
        let until = now.saturating_add(whole_millis(time)).min(MAX_NUMBER);
        self.by_hand(|handle| handle.open(now, until))
    }

    /// Closes a breaker by hand, or each of several limits that is one: with no failure counted. Runs that are under way
    /// change nothing when they end.
    ///
    /// # Errors
    ///
    /// As of [`open`](Self::open).
    pub fn close(&self) -> Result<(), LimitError> {
        let now = moment_of(self.shared.began);
        self.by_hand(|handle| handle.close(now))
    }

    fn by_hand(&self, change: impl FnOnce(&mut Handle<LimitKind>) -> bool) -> Result<(), LimitError> {
        let is_changed = change(&mut lock(&self.handles().root));
        self.tell_changes();
        match is_changed {
            true => Ok(()),
            false => Err(LimitError::NoBreaker),
        }
    }

    /// What a look of this thread's handle sees, where the limit is quiet.
    #[inline]
    pub(crate) fn look(&self) -> Option<Quiet> {
        let mut seen = Seen::default();
        (self.shared.rests && self.by_looks(|handle| handle.look(&mut seen))).then(|| Quiet::of(seen))
    }

    /// The first run of a call succeeded that a look admitted. Where the limit is quiet again, all calls of its request
    /// are made at this look.
    #[inline]
    pub(crate) fn settle(&self, quiet: &Quiet) {
        if !(quiet.is_of_this_process() && self.by_looks(Handle::is_quiet)) {
            self.begun(quiet).succeeded();
        }
    }

    /// The request of a call that a look admitted; in a forked child one that is admitted there.
    #[cold]
    pub(crate) fn begun(&self, quiet: &Quiet) -> Request {
        let mut request = self.request().expect("memory for a request");
        match quiet.is_of_this_process() {
            true => request.is_admitted = request.handle().begin(&quiet.seen),
            false => drop(request.admit()),
        }
        request
    }

    /// Whether the handle of this thread that looks finds it so; not where another thread uses that.
    #[inline(always)]
    fn by_looks(&self, look: impl FnOnce(&mut Handle<LimitKind>) -> bool) -> bool {
        let handles = self.handles();
        let of = |own: &mut Option<Handle<LimitKind>>| match own {
            Some(handle) => look(handle),
            None => handles.looker(own).map_or(false, look),
        };
        handles.looks.own(of).unwrap_or(false)
    }

    /// A request that is admitted.
    pub(crate) fn admitted(&self) -> Result<Request, Refused> {
        let mut request = self.request().map_err(|_| Refused::of_memory())?;
        request.admit()?;
        Ok(request)
    }

    /// What a retry takes, after a timeout or another failure.
    fn cost(&self, timed_out: bool) -> u64 {
        match &self.shared.made {
            Made::Of(Terms::Bucket(bucket)) => thousandths(bucket.cost(timed_out)).unwrap_or(0),
            Made::Of(_) => 0,
            Made::All(limits) => limits.iter().map(|limit| limit.cost(timed_out)).max().unwrap_or(0),
        }
    }

    /// The limits that it asks, each of terms of its own.
    fn parts(&self) -> Vec<CallLimit> {
        match &self.shared.made {
            Made::Of(_) => vec![self.clone()],
            Made::All(limits) => limits.clone(),
        }
    }

    /// The present moment, where it reads that.
    #[inline]
    fn moment(&self) -> u64 {
        match self.shared.reads.clock {
            true => moment_of(self.shared.began),
            false => 0,
        }
    }

    /// A random word, where it reads one.
    #[inline]
    fn word(&self) -> u32 {
        match self.shared.reads.words {
            true => random::next()[0],
            false => 0,
        }
    }
}

/// The present moment of limits, which began then.
fn moment_of(began: Moment) -> u64 {
    Moment::now().millis_since(began)
}

/// Both limits at once, `first` asked first: either both admit a call or grant a retry, or what `first` gave comes back
/// at once. Put breakers and throttles last: a probe that a breaker admitted does not come back, nor does what a
/// throttle counted. Either may be several limits already, up to four in all. A retry takes the same of each bucket.
///
/// ```
/// use hikebox::{both, Breaker, Bucket, CallLimit, InFlight};
///
/// let flights = CallLimit::new(InFlight::envoy(20.0, 3)?)?;
/// let bucket = CallLimit::new(Bucket::aws())?;
/// let breaker = CallLimit::new(Breaker::consecutive(5, r#"{"spaced":30000}"#.parse()?))?;
/// let limit = both(&both(&flights, &bucket)?, &breaker)?;
/// assert!(limit.request()?.admit().is_ok());
/// # Ok::<(), Box<dyn std::error::Error>>(())
/// ```
///
/// # Errors
///
/// [`LimitError::TooManyLimits`] if they are more than four, [`LimitError::SameLimit`] if one of them comes twice,
/// [`LimitError::CostsDiffer`] if a retry takes more of one bucket than of another, and [`LimitError::NoMemory`].
pub fn both(first: &CallLimit, second: &CallLimit) -> Result<CallLimit, LimitError> {
    let limits = [first.parts(), second.parts()].concat();
    let is_one = |one: &CallLimit, other: &CallLimit| Arc::ptr_eq(&one.shared, &other.shared);
    if (1..limits.len()).any(|place| limits[..place].iter().any(|one| is_one(one, &limits[place]))) {
        return Err(LimitError::SameLimit);
    }
    let buckets = limits.iter().filter(|limit| matches!(limit.shared.made, Made::Of(Terms::Bucket(_))));
    let mut costs = buckets.map(|bucket| [bucket.cost(false), bucket.cost(true)]);
    let first = costs.next();
    // (the engine has one cost for all of them)
    if costs.any(|other| Some(other) != first) {
        return Err(LimitError::CostsDiffer);
    }
    let tells = match limits.iter().all(|limit| matches!(limit.shared.tells, Tells::Nobody)) {
        true => Tells::Nobody,
        false => Tells::Parts,
    };
    CallLimit::of(Made::All(limits), tells)
}

impl Made {
    fn reads(&self) -> Reads {
        match self {
            Self::Of(Terms::Bucket(_) | Terms::InFlight(_) | Terms::Adaptive(_)) => Reads::default(),
            Self::Of(Terms::Breaker(_)) => Reads { clock: true, words: false },
            Self::Of(Terms::Throttle(_)) => Reads { clock: true, words: true },
            Self::All(limits) => limits.iter().fold(Reads::default(), |read, limit| {
                let reads = limit.shared.reads;
                Reads { clock: read.clock || reads.clock, words: read.words || reads.words }
            }),
        }
    }

    /// Whether it can be quiet, as buckets and breakers can.
    fn rests(&self) -> bool {
        match self {
            Self::Of(terms) => matches!(terms, Terms::Bucket(_) | Terms::Breaker(_)),
            Self::All(limits) => limits.iter().all(|limit| limit.shared.rests),
        }
    }

    /// The limit in the engine, made at this moment.
    fn handle(&self, now: u64) -> Result<Handle<LimitKind>, LimitError> {
        match self {
            Self::Of(terms) => terms.made(now),
            // (a handle that was split off is hardly split again, so each limit gives one of its first)
            Self::All(limits) => {
                let mut parts = limits.iter().map(|limit| lock(&limit.handles().root).split().map_err(fault));
                let mut all = parts.next().unwrap_or(Err(LimitError::NoMemory))?;
                for part in parts {
                    all.both(part?).map_err(fault)?;
                }
                Ok(all)
            }
        }
    }
}

impl Handles {
    fn of(root: Handle<LimitKind>) -> Self {
        Self { root: Mutex::new(root), idle: Mutex::default(), looks: Shards::default(), changes: Mutex::default() }
    }

    /// A handle that looks, put here, unless there is no memory for one.
    #[cold]
    fn looker<'a>(&self, own: &'a mut Option<Handle<LimitKind>>) -> Option<&'a mut Handle<LimitKind>> {
        *own = lock(&self.root).split().ok();
        own.as_mut()
    }
}

/// One call under a [`CallLimit`], from its first run to its end, for one that you retry by hand. Dropped, it gives
/// back what it holds.
///
/// ```
/// use hikebox::{Bucket, CallLimit};
///
/// let limit = CallLimit::new(Bucket::grpc(10, 0.1)?)?;
/// let mut request = limit.request()?;
/// request.admit()?;
/// let mut answers = [Err("busy"), Ok("fetched")].into_iter();
/// let answer = loop {
///     match answers.next().expect("a run") {
///         Ok(text) => {
///             request.succeeded();
///             break Ok(text);
///         }
///         Err(error) => {
///             request.failed();
///             if request.draw().is_err() {
///                 break Err(error);
///             }
///         }
///     }
/// };
/// assert_eq!(answer, Ok("fetched"));
/// # Ok::<(), Box<dyn std::error::Error>>(())
/// ```
#[derive(Debug)]
pub struct Request {
    limit: CallLimit,
    /// `None` only while it is dropped.
    handle: Option<Handle<LimitKind>>,
    generation: u64,
    /// Whether the limit admitted it.
    is_admitted: bool,
    /// Whether its last run failed by a timeout.
    timed_out: bool,
}

impl Request {
    #[inline]
    fn handle(&mut self) -> &mut Handle<LimitKind> {
        if !is_generation(self.generation) {
            self.begin_anew();
        }
        self.handle.as_mut().expect("a request has its handle until it is dropped")
    }

    /// In a forked child: its handle there is the parent's. A call under way asks the child's own limit, which refuses
    /// its retries if it does not admit it.
    #[cold]
    fn begin_anew(&mut self) {
        mem::forget(self.handle.take());
        let part = lock(&self.limit.handles().root).split();
        let mut part = part.expect("memory for a request");
        if self.is_admitted {
            let _ = part.admit(self.limit.moment(), self.limit.word());
        }
        (self.handle, self.generation) = (Some(part), generation());
    }

    /// Asks before the first run.
    ///
    /// # Errors
    ///
    /// [`Refused`] says why the limit does not admit it.
    pub fn admit(&mut self) -> Result<(), Refused> {
        let (now, word) = (self.limit.moment(), self.limit.word());
        let answer = self.handle().admit(now, word);
        self.is_admitted |= answer.is_ok();
        self.limit.tell_changes();
        answer.map_err(|refusal| Refused::of(refusal, now))
    }

    /// Asks for a retry after a run failed, before its wait.
    ///
    /// # Errors
    ///
    /// [`Refused`] says why the limit does not grant it.
    pub fn draw(&mut self) -> Result<(), Refused> {
        let cost = self.limit.cost(self.timed_out);
        self.draw_of(cost)
    }

    /// [`Request::draw`] at so many tokens of a bucket.
    ///
    /// # Errors
    ///
    /// As of [`Request::draw`].
    pub fn draw_at(&mut self, tokens: u32) -> Result<(), Refused> {
        self.draw_of(1000 * u64::from(tokens))
    }

    fn draw_of(&mut self, cost: u64) -> Result<(), Refused> {
        let (now, word) = (self.limit.moment(), self.limit.word());
        let answer = self.handle().draw(now, cost, word);
        self.limit.tell_changes();
        answer.map_err(|refusal| Refused::of(refusal, now))
    }

    /// Tells that a run failed, whether you retry it or not.
    pub fn failed(&mut self) {
        let now = self.limit.moment();
        self.handle().failed(now);
        self.limit.tell_changes();
    }

    /// Tells that a run succeeded.
    pub fn succeeded(&mut self) {
        // (a throttle alone heeds the moment of a success, as it alone reads random words)
        let now = if self.limit.shared.reads.words { self.limit.moment() } else { 0 };
        self.handle().succeeded(now);
        self.limit.tell_changes();
    }

    /// Tells that the latest retry is cancelled while it waits. What it cost and its slot come back, once.
    pub fn cancelled(&mut self) {
        self.handle().cancelled();
    }
}

impl Drop for Request {
    fn drop(&mut self) {
        match self.handle.take() {
            Some(mut handle) if is_generation(self.generation) => {
                handle.ended();
                lock(&self.limit.handles().idle).push(handle);
            }
            handle => mem::forget(handle),
        }
    }
}

/// A request that was admitted, as a store of tickets. It is told how each run ended.
#[derive(Debug)]
pub struct Admitted {
    request: Mutex<Request>,
    /// Why the limit refused a retry, once it did.
    refusal: Mutex<Option<RefusalReason>>,
}

impl Admitted {
    pub(crate) fn of(request: Request) -> Arc<Self> {
        Arc::new(Self { request: Mutex::new(request), refusal: Mutex::new(None) })
    }

    pub(crate) fn succeeded(&self) {
        lock(&self.request).succeeded();
    }

    /// The run under way failed, by a timeout or otherwise.
    pub(crate) fn failed(&self, timed_out: bool) {
        let mut request = lock(&self.request);
        request.timed_out = timed_out;
        request.failed();
    }

    #[cfg(any(feature = "prometheus", feature = "tracing"))]
    pub(crate) fn refusal(&self) -> Option<RefusalReason> {
        *lock(&self.refusal)
    }
}

impl Tickets for Admitted {
    fn draw(&self) -> Result<Ticket, NoTicket> {
        let drawn = lock(&self.request).draw();
        drawn.map(|()| Ticket::new(0)).map_err(|refused| {
            *lock(&self.refusal) = Some(refused.reason());
            NoTicket::used_up()
        })
    }

    fn hand_back(&self, _ticket: Ticket) {
        lock(&self.request).cancelled();
    }
}

impl Counted for CallLimit {
    fn clones(&self) -> usize {
        self.shared.clones()
    }
}

impl fmt::Debug for CallLimit {
    fn fmt(&self, f: &mut fmt::Formatter<'_>) -> fmt::Result {
        match &self.shared.made {
            Made::Of(Terms::Bucket(terms)) => terms.fmt(f),
            Made::Of(Terms::InFlight(terms)) => terms.fmt(f),
            Made::Of(Terms::Breaker(terms)) => terms.fmt(f),
            Made::Of(Terms::Throttle(terms)) => terms.fmt(f),
            Made::Of(Terms::Adaptive(terms)) => terms.fmt(f),
            Made::All(limits) => f.debug_list().entries(limits).finish(),
        }
    }
}
