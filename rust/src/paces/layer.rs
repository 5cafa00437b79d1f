//! A `tower` layer by which each request waits for its turn.

use super::pace::Pace;
use super::turn::{TooSoon, Turn};
use ::tokio::time::{sleep, Sleep};
use pin_project_lite::pin_project;
use std::error::Error;
use std::fmt;
use std::future::Future;
use std::mem;
use std::pin::Pin;
use std::task::{Context, Poll};
use tower_layer::Layer;
use tower_service::Service;

/// A `tower` layer by which each request waits for its turn of a [`Pace`]. One that would wait too long fails at once:
/// the error is a [`TooSoon`], in a box, as of tower's own layers that have an error to add.
///
/// Under a [`RetryLayer`](crate::RetryLayer) each attempt waits, the first one and each retry:
///
/// ```
/// use hikebox::{Pace, PaceLayer, Policy, Rate, RetryLayer, TooSoon, Unlimited};
/// use std::time::Duration;
/// use tower::{service_fn, BoxError, Service, ServiceBuilder, ServiceExt};
///
/// # tokio::runtime::Builder::new_current_thread().enable_time().build().unwrap().block_on(async {
/// let policy: Policy = r#"{"recurs":3}"#.parse()?;
/// let pace = Pace::new(Rate::new(1000, Duration::from_secs(1)).longest(Duration::from_secs(5)))?;
/// let mut service = ServiceBuilder::new()
///     .layer(RetryLayer::new(policy, Unlimited).when(|error: &BoxError| !error.is::<TooSoon>()))
///     .layer(PaceLayer::new(pace))
///     .service(service_fn(|request: u32| async move { Ok::<_, BoxError>(request + 1) }));
/// assert_eq!(service.ready().await?.call(10).await?, 11);
/// # Ok::<(), BoxError>(())
/// # }).unwrap();
/// ```
///
/// A request takes its turn when it is made. A call whose future is dropped while it waits gives its turn back. The
/// layer does not know of a deadline above it: bound its waits by [`Rate::longest`](crate::Rate::longest).
#[derive(Clone, Debug)]
#[must_use]
pub struct PaceLayer {
    pace: Pace,
}

impl PaceLayer {
    /// Requests wait for their turns of this pace.
    pub fn new(pace: Pace) -> Self {
        Self { pace }
    }
}

impl<S> Layer<S> for PaceLayer {
    type Service = PaceService<S>;

    fn layer(&self, inner: S) -> Self::Service {
        PaceService { inner, pace: self.pace.clone() }
    }
}

/// A service whose requests wait for their turns: see [`PaceLayer`].
#[derive(Clone, Debug)]
pub struct PaceService<S> {
    inner: S,
    pace: Pace,
}

impl<S, Request> Service<Request> for PaceService<S>
where
    S: Service<Request> + Clone,
    S::Error: Into<Box<dyn Error + Send + Sync>>,
{
    type Response = S::Response;
    type Error = Box<dyn Error + Send + Sync>;
    type Future = PaceCall<S, Request>;

    fn poll_ready(&mut self, cx: &mut Context<'_>) -> Poll<Result<(), Self::Error>> {
        self.inner.poll_ready(cx).map_err(Into::into)
    }

    fn call(&mut self, request: Request) -> Self::Future {
        PaceCall { at: At::begun(&mut self.inner, &self.pace, request) }
    }
}

pin_project! {
    /// A call of a [`PaceService`], which waits for its turn.
    #[must_use = "futures do nothing unless they are polled"]
    pub struct PaceCall<S, Request>
    where
        S: Service<Request>,
    {
        #[pin]
        at: At<S, Request>,
    }
}

pin_project! {
    // Where a call is. Once it is over, it holds nothing.
    #[project = Where]
    #[project_replace = Left]
    enum At<S, Request>
    where
        S: Service<Request>,
    {
        TooSoon { too_soon: TooSoon },
        Waits { timer: Option<Pin<Box<Sleep>>>, turn: Turn, service: S, request: Request },
        Runs { #[pin] run: S::Future },
        Over,
    }
}

impl<S: Service<Request> + Clone, Request> At<S, Request> {
    /// The service, which is ready, makes the call. Where that waits, a clone takes the service's place.
    fn begun(service: &mut S, pace: &Pace, request: Request) -> Self {
        let turn = match pace.take() {
            Ok(turn) => turn,
            Err(too_soon) => return Self::TooSoon { too_soon },
        };
        if turn.left().is_zero() {
            turn.begin();
            return Self::Runs { run: service.call(request) };
        }
        let next = service.clone();
        Self::Waits { timer: None, turn, service: mem::replace(service, next), request }
    }
}

impl<S: Service<Request>, Request> At<S, Request> {
    /// The turn has come.
    fn begin(mut self: Pin<&mut Self>) {
        if let Left::Waits { turn, mut service, request, .. } = self.as_mut().project_replace(Self::Over) {
            turn.begin();
            self.set(Self::Runs { run: service.call(request) });
        }
    }
}

impl<S, Request> Future for PaceCall<S, Request>
where
    S: Service<Request>,
    S::Error: Into<Box<dyn Error + Send + Sync>>,
{
    type Output = Result<S::Response, Box<dyn Error + Send + Sync>>;

    fn poll(self: Pin<&mut Self>, cx: &mut Context<'_>) -> Poll<Self::Output> {
        let mut at = self.project().at;
        loop {
            match at.as_mut().project() {
                Where::Waits { timer, turn, .. } => {
                    // (the runtime that has the timer may be there only where the call is polled)
                    let timer = timer.get_or_insert_with(|| Box::pin(sleep(turn.left())));
                    if timer.as_mut().poll(cx).is_pending() {
                        return Poll::Pending;
                    }
                    at.as_mut().begin();
                }
                Where::Runs { run } => match run.poll(cx) {
                    Poll::Ready(result) => {
                        at.set(At::Over);
                        return Poll::Ready(result.map_err(Into::into));
                    }
                    Poll::Pending => return Poll::Pending,
                },
                Where::TooSoon { .. } | Where::Over => match at.project_replace(At::Over) {
                    Left::TooSoon { too_soon } => return Poll::Ready(Err(too_soon.into())),
                    _ => panic!("it is not polled after its end"),
                },
            }
        }
    }
}

impl<S: Service<Request>, Request> fmt::Debug for PaceCall<S, Request> {
    fn fmt(&self, f: &mut fmt::Formatter<'_>) -> fmt::Result {
        let turn = match &self.at {
            At::Waits { turn, .. } => Some(turn),
            At::TooSoon { .. } | At::Runs { .. } | At::Over => None,
        };
        f.debug_struct("PaceCall").field("turn", &turn).finish_non_exhaustive()
    }
}
