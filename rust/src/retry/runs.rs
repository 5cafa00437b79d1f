//! The runs of a call that are under way at once.

use crate::clock::Moment;
use crate::retry::asynchronous::AsyncSleep;
use crate::retry::timed::{AttemptTimeout, Timed};
use std::future::Future;
use std::pin::Pin;
use std::task::{Context, Poll};
use std::time::Duration;

/// The runs of a call that are under way, in the order in which they began, and what is waited for beside them. They are
/// polled together, in the task of the call. As a future it is ready when something happens, as often as it is awaited.
pub(super) struct Runs<'h, P, E, S: AsyncSleep> {
    sleep: &'h S,
    timed: Timed,
    under_way: Vec<Run<P, E, S::Sleeping>>,
    /// Until the latest run is late, or else until the next one begins.
    timer: Timer<S::Sleeping>,
}

/// How a run was lost.
#[derive(Clone, Copy, PartialEq)]
pub(crate) enum Loss {
    /// Its call failed.
    Failed,
    /// It took too long, and was dropped.
    TimedOut,
    /// It is late, and goes on. The error that says so is none of the call, so nothing asks whether it is retried.
    Late,
}

/// What happened.
pub(super) enum Event<T, E> {
    /// A run succeeded, which began then, if somebody wants to know.
    Won(T, Option<Moment>),
    /// A run failed, or took too long.
    Lost { error: E, loss: Loss, was_late: bool },
    /// The latest run is late, and goes on.
    Late(AttemptTimeout),
    /// The next run is due.
    Due,
}

struct Run<P, E, Z> {
    call: Pin<Box<P>>,
    began: Option<Moment>,
    /// Until it takes too long.
    ends: Timer<Z>,
    is_late: bool,
    /// Its error, once it failed.
    lost: Option<(E, Loss)>,
}

/// A sleep, if there is one.
struct Timer<Z> {
    sleep: Option<Pin<Box<Z>>>,
    is_over: bool,
}

impl<'h, P, E, S: AsyncSleep> Runs<'h, P, E, S> {
    pub(super) fn new(sleep: &'h S, timed: Timed) -> Self {
        Self { sleep, timed, under_way: Vec::new(), timer: Timer::NONE }
    }

    /// Whether none is under way.
    pub(super) fn is_empty(&self) -> bool {
        self.under_way.is_empty()
    }

    /// This one begins.
    pub(super) fn begin(&mut self, call: P, began: Option<Moment>) {
        let Self { sleep, timed, .. } = self;
        let ends = Timer::after(*sleep, timed.attempt_timeout);
        self.timer = Timer::after(*sleep, timed.hedge_after);
        self.under_way.push(Run { call: Box::pin(call), began, ends, is_late: false, lost: None });
    }

    /// The next one is due after this wait.
    pub(super) fn wait(&mut self, wait: Duration) {
        self.timer = Timer::after(self.sleep, Some(wait));
    }

    /// The run under way that is not late, which is the latest if there is one.
    fn latest_in_time(&mut self) -> Option<&mut Run<P, E, S::Sleeping>> {
        self.under_way.last_mut().filter(|run| !run.is_late)
    }
}

// (runs and sleeps have places of their own, and an error is never pinned)
impl<P, E, S: AsyncSleep> Unpin for Runs<'_, P, E, S> {}

impl<P, T, E, S> Future for Runs<'_, P, E, S>
where
    P: Future<Output = Result<T, E>>,
    E: From<AttemptTimeout>,
    S: AsyncSleep,
{
    type Output = Event<T, E>;

    fn poll(mut self: Pin<&mut Self>, cx: &mut Context<'_>) -> Poll<Event<T, E>> {
        let runs = &mut *self;
        // (timers are asked first: a run may use up what its task may do before others have their turn)
        let is_due = runs.timer.is_over(cx);
        for run in &mut runs.under_way {
            if let Some(value) = run.won(runs.timed, cx) {
                return Poll::Ready(Event::Won(value, run.began));
            }
        }
        for place in 0..runs.under_way.len() {
            if let Some((error, loss)) = runs.under_way[place].lost.take() {
                let was_late = runs.under_way.remove(place).is_late;
                if !was_late {
                    runs.timer = Timer::NONE;
                }
                return Poll::Ready(Event::Lost { error, loss, was_late });
            }
        }
        if !is_due {
            return Poll::Pending;
        }
        runs.timer = Timer::NONE;
        let hedge_after = runs.timed.hedge_after;
        Poll::Ready(match runs.latest_in_time().zip(hedge_after) {
            Some((run, after)) => {
                run.is_late = true;
                Event::Late(AttemptTimeout { after })
            }
            None => Event::Due,
        })
    }
}

impl<P, E, Z: Future<Output = ()>> Run<P, E, Z> {
    /// Its value, if it has succeeded now.
    fn won<T>(&mut self, timed: Timed, cx: &mut Context<'_>) -> Option<T>
    where
        P: Future<Output = Result<T, E>>,
        E: From<AttemptTimeout>,
    {
        if self.lost.is_some() {
            return None;
        }
        let is_over = self.ends.is_over(cx);
        match (self.call.as_mut().poll(cx), timed.attempt_timeout) {
            (Poll::Ready(Ok(value)), _) => return Some(value),
            (Poll::Ready(Err(error)), _) => self.lost = Some((error, Loss::Failed)),
            (Poll::Pending, Some(after)) if is_over => {
                self.lost = Some((AttemptTimeout { after }.into(), Loss::TimedOut));
            }
            (Poll::Pending, _) => {}
        }
        None
    }
}

impl<Z> Timer<Z> {
    const NONE: Self = Self { sleep: None, is_over: false };

    /// One that is over after this time; no sleep is made for a time of zero.
    fn after<S: AsyncSleep<Sleeping = Z>>(sleep: &S, time: Option<Duration>) -> Self {
        match time {
            None => Self::NONE,
            Some(time) if time.is_zero() => Self { sleep: None, is_over: true },
            Some(time) => Self { sleep: Some(Box::pin(sleep.sleep(time))), is_over: false },
        }
    }
}

impl<Z: Future<Output = ()>> Timer<Z> {
    /// Whether it is over; if not, the task is woken when it is.
    fn is_over(&mut self, cx: &mut Context<'_>) -> bool {
        if let Some(sleep) = &mut self.sleep {
            if sleep.as_mut().poll(cx).is_ready() {
                *self = Self { sleep: None, is_over: true };
            }
        }
        self.is_over
    }
}
