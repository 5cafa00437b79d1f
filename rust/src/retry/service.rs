//! A service with its retries, and a call of it.

use crate::clock::Moment;
use crate::limits::grants::{Held, MayRefuse};
use crate::retry::course::Course;
use crate::retry::layer::{LayerError, RetryLayer, Settings};
use crate::retry::machine::Ending;
use crate::retry::progress::Progress;
use crate::retry::rules::{CowLimit, Rules};
use crate::retry::yields::InARow;
use ::tokio::time::{sleep, Sleep};
use pin_project_lite::pin_project;
use std::fmt;
use std::future::Future;
use std::mem;
use std::pin::Pin;
use std::sync::Arc;
use std::task::{Context, Poll};
use std::time::Duration;
use tower_service::Service;

/// A service whose requests are retried: see [`RetryLayer`].
#[derive(Clone, Debug)]
pub struct RetryService<S, R> {
    inner: S,
    retries: R,
}

impl<S, R> RetryService<S, R> {
    pub(super) fn new(inner: S, retries: R) -> Self {
        Self { inner, retries }
    }
}

impl<Request, S, L> Service<Request> for RetryService<S, RetryLayer<Request, S::Response, S::Error, L>>
where
    S: Service<Request> + Clone,
    L: LayerError<S::Error>,
{
    type Response = S::Response;
    type Error = L::Error;
    type Future = RetryCall<S, Request, L>;

    fn poll_ready(&mut self, cx: &mut Context<'_>) -> Poll<Result<(), L::Error>> {
        self.inner.poll_ready(cx).map_err(L::of)
    }

    #[inline]
    fn call(&mut self, request: Request) -> Self::Future {
        RetryCall { stage: Stage::begun(&mut self.inner, &self.retries.settings, request) }
    }
}

type Answer<S, Request> = Result<<S as Service<Request>>::Response, <S as Service<Request>>::Error>;

pin_project! {
    /// A call of a [`RetryService`], with its retries.
    #[must_use = "futures do nothing unless they are polled"]
    pub struct RetryCall<S, Request, L>
    where
        S: Service<Request>,
        L: MayRefuse,
    {
        #[pin]
        stage: Stage<S, Request, L>,
    }
}

pin_project! {
    // What a call has. Once it is over, the limit has back what it held, and a permit of the service is free.
    #[project = Has]
    #[project_replace = Had]
    enum Stage<S, Request, L>
    where
        S: Service<Request>,
        L: MayRefuse,
    {
        NotAdmitted { refused: L },
        Admitted { #[pin] at: At<S::Future, Answer<S, Request>>, retries: Retries<S, Request, L> },
        Over,
    }
}

pin_project! {
    // Where a call is.
    #[project = Where]
    enum At<Run, Answer> {
        Run { #[pin] run: Run },
        // Before the next run, after one that ended so; how it ended is kept if the deadline may come.
        Waits { sleep: Option<Pin<Box<Sleep>>>, kept: Option<Answer> },
    }
}

/// What makes the runs of a call.
struct Retries<S: Service<Request>, Request, L: MayRefuse> {
    service: S,
    settings: Arc<Settings<Request, S::Response, S::Error>>,
    began: Option<Moment>,
    /// What it holds of its limit, until its first run fails.
    held: L::Held,
    /// From then on. Most calls succeed at once, and need no more than the above.
    progress: Option<Box<Progress<'static>>>,
    /// The request of the next run, if it could be copied.
    next: Option<Request>,
    course: Course,
}

impl<S: Service<Request> + Clone, Request, L: MayRefuse> Stage<S, Request, L> {
    /// The service, which is ready, makes the first run, and a clone of it the others.
    #[inline]
    fn begun(service: &mut S, settings: &Arc<Settings<Request, S::Response, S::Error>>, request: Request) -> Self {
        let mut course = Course::begun(&settings.rules.options);
        let mut held = L::Held::default();
        let limit = settings.rules.limit();
        if let Err(refused) = L::admit(limit, &mut held) {
            course.not_admitted(refused.why(), limit);
            return Self::NotAdmitted { refused };
        }
        let began = settings.rules.options.counted(limit, Moment::now);
        let next = (settings.copy)(&request);
        let run = course.run(|| service.call(request));
        let (service, settings) = (service.clone(), settings.clone());
        let retries = Retries { service, settings, began, held, progress: None, next, course };
        Self::Admitted { at: At::Run { run }, retries }
    }
}

impl<S: Service<Request>, Request, L: MayRefuse> Retries<S, Request, L> {
    /// The wait after a run that ended so, or `None` if it was the last one.
    #[inline]
    fn after(&mut self, result: Result<&S::Response, &S::Error>) -> Option<Duration> {
        let code = self.settings.code_of_failure(result);
        if code.is_none() && result.is_ok() {
            self.succeeded();
            return None;
        }
        match self.failed(code, result) {
            Ok(wait) => {
                self.course.waits(wait);
                Some(wait)
            }
            Err(ended) => {
                self.gave_up(ended);
                None
            }
        }
    }

    /// The call ended so, and not by a success.
    #[cold]
    fn gave_up(&mut self, ended: Ending) {
        if let Some(progress) = &self.progress {
            self.course.gave_up(ended, progress, self.settings.rules.limit());
        }
    }

    #[inline]
    fn succeeded(&mut self) {
        self.course.won();
        let Rules { limit, options, .. } = &self.settings.rules;
        if self.progress.is_none() && options.slow.is_none() {
            return self.held.succeeded_at_once(limit.get(), &Moment::now);
        }
        begun(&mut self.progress, limit, self.began, &mut self.held).succeeded(options, &Moment::now);
    }

    #[inline(never)]
    fn failed(&mut self, code: Option<u64>, result: Result<&S::Response, &S::Error>) -> Result<Duration, Ending> {
        let Self { settings, began, held, progress, next, .. } = self;
        let progress = begun(progress, &settings.rules.limit, *began, held);
        progress.failed(false);
        match (next, code) {
            (Some(_), Some(code)) => settings.wait(progress, code, result),
            _ => Err(Ending::Cancelled),
        }
    }

    /// How the call ends.
    #[inline]
    fn poll(
        &mut self,
        mut at: Pin<&mut At<S::Future, Answer<S, Request>>>,
        cx: &mut Context<'_>,
    ) -> Poll<Answer<S, Request>> {
        let mut in_a_row = InARow::default();
        loop {
            match at.as_mut().project() {
                Where::Run { run } => {
                    let result = match self.course.within(|| run.poll(cx)) {
                        Poll::Ready(result) => result,
                        Poll::Pending => return Poll::Pending,
                    };
                    match self.after(result.as_ref()) {
                        Some(wait) => {
                            let kept = self.settings.rules.options.deadline.map(|_| result);
                            at.set(At::Waits { sleep: sleeping(wait), kept });
                        }
                        None => return Poll::Ready(result),
                    }
                }
                Where::Waits { sleep, kept } => {
                    if sleep.as_mut().map_or(false, |sleep| sleep.as_mut().poll(cx).is_pending()) {
                        return Poll::Pending;
                    }
                    *sleep = None;
                    if in_a_row.is_over() {
                        cx.waker().wake_by_ref();
                        return Poll::Pending;
                    }
                    match self.next_run(kept, cx) {
                        Poll::Ready(Ok(run)) => at.set(At::Run { run }),
                        Poll::Ready(Err(ended)) => return Poll::Ready(ended),
                        Poll::Pending => return Poll::Pending,
                    }
                }
            }
        }
    }

    /// The next run, once the service is ready; or how the call ends, where the deadline has come, or the service failed.
    fn next_run(
        &mut self,
        kept: &mut Option<Answer<S, Request>>,
        cx: &mut Context<'_>,
    ) -> Poll<Result<S::Future, Answer<S, Request>>> {
        match self.service.poll_ready(cx) {
            Poll::Ready(Ok(())) => {}
            Poll::Ready(Err(error)) => {
                self.gave_up(Ending::Cancelled);
                return Poll::Ready(Err(Err(error)));
            }
            Poll::Pending => return Poll::Pending,
        }
        let begun = self.begin();
        Poll::Ready(begun.ok_or_else(|| kept.take().expect("a call with a deadline keeps how its run ended")))
    }

    /// Begins the next run, unless the deadline has come.
    fn begin(&mut self) -> Option<S::Future> {
        if let Err(ended) = self.progress.as_mut()?.resume(&self.settings.rules.options, Moment::now) {
            self.gave_up(ended);
            return None;
        }
        let request = self.next.take()?;
        self.next = (self.settings.copy)(&request);
        let Self { course, service, .. } = self;
        Some(course.run(|| service.call(request)))
    }
}

impl<S: Service<Request>, Request, L: LayerError<S::Error>> Future for RetryCall<S, Request, L> {
    type Output = Result<S::Response, L::Error>;

    #[inline]
    fn poll(self: Pin<&mut Self>, cx: &mut Context<'_>) -> Poll<Self::Output> {
        let mut stage = self.project().stage;
        match stage.as_mut().project() {
            Has::Admitted { at, retries } => {
                let ended = match retries.poll(at, cx) {
                    Poll::Ready(ended) => ended,
                    Poll::Pending => return Poll::Pending,
                };
                stage.set(Stage::Over);
                Poll::Ready(ended.map_err(L::of))
            }
            Has::NotAdmitted { .. } | Has::Over => match stage.project_replace(Stage::Over) {
                Had::NotAdmitted { refused } => Poll::Ready(Err(refused.refused())),
                _ => panic!("it is not polled after its end"),
            },
        }
    }
}

/// The progress of a call on this limit whose first run began then, holding this.
fn begun<'p>(
    progress: &'p mut Option<Box<Progress<'static>>>,
    limit: &CowLimit<'static>,
    began: Option<Moment>,
    held: &mut impl Held,
) -> &'p mut Progress<'static> {
    progress.get_or_insert_with(|| Box::new(Progress::new(limit.clone(), began, mem::take(held))))
}

/// A timer, where there is something to wait for: a timer's tick is a millisecond.
fn sleeping(wait: Duration) -> Option<Pin<Box<Sleep>>> {
    (!wait.is_zero()).then(|| Box::pin(sleep(wait)))
}

impl<S: Service<Request>, Request, L: MayRefuse> fmt::Debug for RetryCall<S, Request, L> {
    fn fmt(&self, f: &mut fmt::Formatter<'_>) -> fmt::Result {
        let progress = match &self.stage {
            Stage::Admitted { retries, .. } => retries.progress.as_ref(),
            Stage::NotAdmitted { .. } | Stage::Over => None,
        };
        f.debug_struct("RetryCall").field("progress", &progress).finish_non_exhaustive()
    }
}
