//! A pace that the threads of a process share.

use super::rate::{Numbers, Rate};
use super::turn::{TooSoon, Turn};
use crate::clock::{beginning, Moment};
use crate::engine::{Handle, PaceKind, Status};
use crate::limits::per_key::Counted;
use crate::limits::LimitError;
use crate::system::{lock, PerProcess};
use std::fmt;
use std::sync::{Arc, Mutex};
use std::time::Duration;

/// Spaces calls out: so many begin in a time, evenly, or a burst at once. A call is told at once when it may begin, and
/// waits until then; there is no queue and no thread. It is the generic cell rate algorithm. All threads of a
/// program share a pace. It is cheap to clone; all clones are the same pace.
///
/// ```
/// use hikebox::{retry, Pace, Policy, Rate, Unlimited};
/// use std::time::Duration;
///
/// let pace = Pace::new(Rate::new(1000, Duration::from_secs(1)).burst(20))?;
/// let policy: Policy = r#"{"recurs":3}"#.parse()?;
/// let answer = retry(&policy, &Unlimited, || {
///     pace.wait().map_err(|too_soon| too_soon.to_string())?;
///     Ok::<_, String>("fetched")
/// });
/// assert_eq!(answer.unwrap(), "fetched");
/// # Ok::<(), Box<dyn std::error::Error>>(())
/// ```
///
/// Of the calls that were granted a turn and did not give it back, those whose turns lie in any span of time cost at
/// most the burst and what the span has room for, whatever threads call. It reads the system's clock, with the feature
/// `tokio` tokio's. A pace belongs to its process: a forked child begins with a fresh one.
///
/// With the feature `tower`, `PaceLayer` is a layer by which each request waits for its turn.
#[derive(Clone)]
pub struct Pace {
    shared: Arc<Shared>,
}

struct Shared {
    rate: Rate,
    numbers: Numbers,
    /// Moment 0.
    began: Moment,
    handles: PerProcess<Handles>,
}

/// The first handle of a pace, and those that no call uses now.
struct Handles {
    root: Mutex<Handle<PaceKind>>,
    idle: Mutex<Vec<Handle<PaceKind>>>,
}

impl Pace {
    /// A pace of this rate.
    ///
    /// # Errors
    ///
    /// [`LimitError::OutOfRange`] if a number is out of its range, and [`LimitError::NoMemory`].
    pub fn new(rate: Rate) -> Result<Self, LimitError> {
        let numbers = rate.numbers()?;
        let handles = PerProcess::new(Handles::of(numbers).map_err(LimitError::of)?);
        Ok(Self { shared: Arc::new(Shared { rate, numbers, began: beginning(), handles }) })
    }

    /// Takes the next turn: the moment at which a call may begin.
    ///
    /// # Errors
    ///
    /// [`TooSoon`] if the call would wait longer than it may.
    pub fn take(&self) -> Result<Turn, TooSoon> {
        self.take_of(1)
    }

    /// [`Pace::take`] for a call that costs as much as so many: at least one, and at most the burst.
    ///
    /// # Errors
    ///
    /// As of [`Pace::take`].
    ///
    /// # Panics
    ///
    /// If the cost is 0, or above the burst.
    pub fn take_of(&self, cost: u32) -> Result<Turn, TooSoon> {
        let burst = self.shared.numbers.burst;
        assert!((1..=burst).contains(&cost), "expected a cost from 1 to the burst, {burst}, got {cost}");
        let (handle, _, at) = self.taken(cost)?;
        Ok(self.turn(handle, at))
    }

    /// A handle that took a turn, the present moment, and that of the turn.
    #[inline]
    fn taken(&self, cost: u32) -> Result<(Handle<PaceKind>, u64, u64), TooSoon> {
        let mut handle = self.handles().lent();
        let now = self.moment();
        match handle.take(now, cost.into()) {
            Ok(at) => Ok((handle, now, at)),
            Err(again) => {
                self.put_back(handle);
                let again = Duration::from_millis(again.saturating_sub(now));
                Err(TooSoon::new(again, Duration::from_millis(self.shared.numbers.longest)))
            }
        }
    }

    fn turn(&self, handle: Handle<PaceKind>, at: u64) -> Turn {
        Turn::new(self.clone(), handle, self.shared.began.after(Duration::from_millis(at)))
    }

    /// Takes a turn; `None` where it is now, and so is used.
    #[inline]
    fn later(&self) -> Result<Option<Turn>, TooSoon> {
        let (handle, now, at) = self.taken(1)?;
        if at > now {
            return Ok(Some(self.turn(handle, at)));
        }
        self.put_back(handle);
        Ok(None)
    }

    /// Waits until a call may begin, and returns for how long it slept. It blocks the thread. (By [`Turn::within`] the
    /// deadline of a retry bounds the wait.)
    ///
    /// # Errors
    ///
    /// [`TooSoon`], at once, if that would be longer than it may.
    pub fn wait(&self) -> Result<Duration, TooSoon> {
        Ok(self.later()?.map_or(Duration::ZERO, Turn::wait))
    }

    /// [`Pace::wait`] by tokio's timer. If its future is dropped while it waits, the turn is given back.
    ///
    /// # Errors
    ///
    /// As of [`Pace::wait`].
    #[cfg(feature = "tokio")]
    pub async fn wait_async(&self) -> Result<Duration, TooSoon> {
        let turn = match self.later()? {
            None => return Ok(Duration::ZERO),
            Some(turn) => turn,
        };
        Ok(turn.wait_async().await)
    }

    /// For how long a call would wait now. It takes nothing.
    #[must_use]
    pub fn seen(&self) -> Duration {
        let now = self.moment();
        let at = lock(&self.handles().root).next(now);
        Duration::from_millis(at.saturating_sub(now))
    }

    fn moment(&self) -> u64 {
        Moment::now().millis_since(self.shared.began)
    }

    fn handles(&self) -> &Handles {
        self.shared.handles.get(|| Handles::of(self.shared.numbers).expect("memory for a pace"))
    }

    /// Keeps a handle of this process for another call.
    pub(super) fn put_back(&self, handle: Handle<PaceKind>) {
        lock(&self.handles().idle).push(handle);
    }
}

impl Handles {
    fn of(Numbers { each, burst, longest }: Numbers) -> Result<Self, Status> {
        let root = Handle::pace(each, burst.into(), longest)?;
        Ok(Self { root: Mutex::new(root), idle: Mutex::new(Vec::new()) })
    }

    /// One for a call.
    fn lent(&self) -> Handle<PaceKind> {
        let idle = lock(&self.idle).pop();
        idle.unwrap_or_else(|| lock(&self.root).split_pace().expect("memory for a turn"))
    }
}

impl Counted for Pace {
    fn clones(&self) -> usize {
        self.shared.clones()
    }
}

impl fmt::Debug for Pace {
    fn fmt(&self, f: &mut fmt::Formatter<'_>) -> fmt::Result {
        f.debug_tuple("Pace").field(&self.shared.rate).finish()
    }
}
