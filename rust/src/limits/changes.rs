//! What a breaker was and what it is, told at each change.

use crate::limits::seen::LimitState;
use crate::system::lock;
use std::collections::VecDeque;
use std::mem;
use std::sync::Mutex;

/// Whether a breaker is closed, open or half open.
#[derive(Clone, Copy, Debug, Default, PartialEq, Eq, Hash)]
pub enum BreakerState {
    /// Each call is made.
    #[default]
    Closed,
    /// No call is made.
    Open,
    /// A few calls probe whether the peer is back.
    HalfOpen,
}

impl BreakerState {
    /// That of a breaker; `None` of another limit.
    pub(crate) fn of(state: &LimitState) -> Option<Self> {
        match state {
            LimitState::Closed { .. } => Some(Self::Closed),
            LimitState::Open { .. } => Some(Self::Open),
            LimitState::HalfOpen { .. } => Some(Self::HalfOpen),
            _ => None,
        }
    }
}

/// What hears of changes: what the breaker was, and what it is.
pub(crate) type OnChange = dyn Fn(BreakerState, BreakerState) + Send + Sync;

/// The state that was seen last, and the changes that are to be told.
#[derive(Debug, Default)]
pub(crate) struct Changes {
    known: BreakerState,
    waiting: VecDeque<(BreakerState, BreakerState)>,
    /// Whether a thread tells them.
    are_told: bool,
}

/// Sees the state now, and tells what has changed: each change once, in their order, from one thread at a time.
pub(crate) fn tell(changes: &Mutex<Changes>, see: impl FnOnce() -> Option<BreakerState>, on_change: &OnChange) {
    let mut held = lock(changes);
    let before = held.known;
    held.known = see().unwrap_or(before);
    if held.known != before {
        let after = held.known;
        held.waiting.push_back((before, after));
    }
    if held.are_told || held.waiting.is_empty() {
        return;
    }
    held.are_told = true;
    drop(held);
    let panics = Panics(changes);
    while let Some((before, after)) = next(changes) {
        on_change(before, after);
    }
    mem::forget(panics);
}

/// The next change that is to be told. Where there is none, another thread tells those that come.
fn next(changes: &Mutex<Changes>) -> Option<(BreakerState, BreakerState)> {
    let mut held = lock(changes);
    let next = held.waiting.pop_front();
    held.are_told = next.is_some();
    next
}

/// Dropped where what hears of changes panics: the next one to look tells those that are left.
struct Panics<'a>(&'a Mutex<Changes>);

impl Drop for Panics<'_> {
    fn drop(&mut self) {
        lock(self.0).are_told = false;
    }
}
