//! A `tower` layer that retries.

use crate::clock::Moment;
use crate::limits::grants::{Grants, MayRefuse};
use crate::limits::refused::Refused;
use crate::policy::Policy;
use crate::random;
use crate::retry::machine::Ending;
use crate::retry::progress::{Lost, Progress};
use crate::retry::rules::Rules;
use crate::retry::service::RetryService;
use std::convert::Infallible;
use std::error::Error;
use std::fmt;
use std::marker::PhantomData;
use std::sync::Arc;
use std::time::Duration;
use tower_layer::Layer;

/// A `tower` layer that retries requests by a policy, under any limit. It takes the place of `tower::retry::RetryLayer`,
/// its policy and its budget. An error is a failure, and so is a response for which [`RetryLayer::failed`] returns
/// true.
///
/// ```
/// use hikebox::{Budget, Policy, RetryLayer};
/// use tower::{service_fn, Service, ServiceBuilder, ServiceExt};
///
/// # tokio::runtime::Builder::new_current_thread().enable_time().build().unwrap().block_on(async {
/// let policy: Policy = r#"{"meet":[{"recurs":3},{"spaced":1}]}"#.parse()?;
/// let budget = Budget::new(100)?;
/// let mut calls = 0;
/// let mut service = ServiceBuilder::new()
///     .layer(RetryLayer::new(policy, budget.clone()))
///     .service(service_fn(move |request: u32| {
///         calls += 1;
///         let calls = calls;
///         async move { if calls < 3 { Err("not yet") } else { Ok(request + calls) } }
///     }));
/// assert_eq!(service.ready().await?.call(10).await, Ok(13));
/// assert_eq!(budget.granted(), 2);
/// # Ok::<(), Box<dyn std::error::Error>>(())
/// # }).unwrap();
/// ```
///
/// A quota counts each request when it is made. A [`CallLimit`](crate::CallLimit) is also asked before the first run,
/// and hears how each run ended. What it does not admit is not called: the error is a [`Refused`], in a box, as of
/// tower's own layers that have an error to add. Under any other limit the error is that of the service.
///
/// ```
/// use hikebox::{Breaker, CallLimit, Policy, RefusalReason, Refused, RetryLayer};
/// use tower::{service_fn, Service, ServiceBuilder, ServiceExt};
///
/// # tokio::runtime::Builder::new_current_thread().enable_time().build().unwrap().block_on(async {
/// let policy: Policy = r#"{"recurs":9}"#.parse()?;
/// let breaker = CallLimit::new(Breaker::consecutive(2, r#"{"spaced":30000}"#.parse()?))?;
/// let mut service = ServiceBuilder::new()
///     .layer(RetryLayer::new(policy, breaker))
///     .service(service_fn(|_: u32| async { Err::<(), _>("down") }));
/// assert_eq!(service.ready().await?.call(10).await.unwrap_err().to_string(), "down");
/// let error = service.ready().await?.call(10).await.unwrap_err();
/// assert_eq!(error.downcast_ref().map(Refused::reason), Some(RefusalReason::BreakerOpen));
/// # Ok::<(), Box<dyn std::error::Error + Send + Sync>>(())
/// # }).unwrap();
/// ```
///
/// A call whose future is dropped gives back what it holds of the limit.
#[must_use]
pub struct RetryLayer<Request, Response, E, L = Infallible> {
    pub(super) settings: Arc<Settings<Request, Response, E>>,
    refuses: PhantomData<fn() -> L>,
}

/// What the calls of a service with an error `E` fail with under a limit: with that error, or with a box if the limit
/// may refuse a call, for which [`Refused`] stands. The trait is sealed.
pub trait LayerError<E>: MayRefuse {
    /// The error of the service with its layer.
    type Error;

    /// It, for an error of the service.
    fn of(error: E) -> Self::Error;

    /// It, for a call that was refused.
    fn refused(self) -> Self::Error;
}

impl<E> LayerError<E> for Infallible {
    type Error = E;

    #[inline]
    fn of(error: E) -> E {
        error
    }

    fn refused(self) -> E {
        match self {}
    }
}

impl<E: Into<Box<dyn Error + Send + Sync>>> LayerError<E> for Refused {
    type Error = Box<dyn Error + Send + Sync>;

    fn of(error: E) -> Self::Error {
        error.into()
    }

    fn refused(self) -> Self::Error {
        self.into()
    }
}

type Copying<Request> = Arc<dyn Fn(&Request) -> Option<Request> + Send + Sync>;
type Asks<T, A> = Option<Arc<dyn Fn(&T) -> A + Send + Sync>>;
type AsksOutcome<A, Response, E> = Option<Arc<dyn Fn(Result<&Response, &E>) -> A + Send + Sync>>;

/// What all requests of a layer have in common.
pub(super) struct Settings<Request, Response, E> {
    pub(super) rules: Rules<'static>,
    pub(super) copy: Copying<Request>,
    when: Asks<E, bool>,
    failed: Asks<Response, bool>,
    code: Asks<E, u64>,
    response_code: Asks<Response, u64>,
    retry_after: AsksOutcome<Option<Duration>, Response, E>,
}

impl<Request: Clone, Response, E> RetryLayer<Request, Response, E> {
    /// Retries every error; each has the code 0.
    pub fn new<G: Grants>(policy: Policy, limit: G) -> RetryLayer<Request, Response, E, G::Refusal> {
        Self::copying(policy, limit, |request: &Request| Some(request.clone()))
    }
}

impl<Request, Response, E> RetryLayer<Request, Response, E> {
    /// [`RetryLayer::new`] for requests that are not `Clone`. Like the `clone_request` of tower's policies, `copy`
    /// copies a request, or returns `None` if it cannot be made again.
    pub fn copying<G: Grants>(
        policy: Policy,
        limit: G,
        copy: impl Fn(&Request) -> Option<Request> + Send + Sync + 'static,
    ) -> RetryLayer<Request, Response, E, G::Refusal> {
        let settings = Settings {
            rules: Rules::new(&policy, &limit).into_owned(),
            copy: Arc::new(copy),
            when: None,
            failed: None,
            code: None,
            response_code: None,
            retry_after: None,
        };
        RetryLayer { settings: Arc::new(settings), refuses: PhantomData }
    }
}

impl<Request, Response, E> RetryLayer<Request, Response, E, Refused> {
    /// How long a run may take: to the [`CallLimit`](crate::CallLimit) a response that took longer is a failure. The
    /// service answers it all the same.
    pub fn slow(mut self, time: Duration) -> Self {
        self.set().rules.options.slow = Some(time);
        self
    }
}

impl<Request, Response, E, L> RetryLayer<Request, Response, E, L> {
    /// Retries only the errors for which this returns true.
    pub fn when(mut self, when: impl Fn(&E) -> bool + Send + Sync + 'static) -> Self {
        self.set().when = Some(Arc::new(when));
        self
    }

    /// Makes a response a failure if this returns true for it, for instance one with the status 503. If it is not
    /// retried, it is the answer.
    pub fn failed(mut self, failed: impl Fn(&Response) -> bool + Send + Sync + 'static) -> Self {
        self.set().failed = Some(Arc::new(failed));
        self
    }

    /// The number of an error, up to 2^62 - 1, which the schedule can test: its input.
    pub fn code(mut self, code: impl Fn(&E) -> u64 + Send + Sync + 'static) -> Self {
        self.set().code = Some(Arc::new(code));
        self
    }

    /// The number of a response that is a failure, which the schedule can test.
    pub fn response_code(mut self, code: impl Fn(&Response) -> u64 + Send + Sync + 'static) -> Self {
        self.set().response_code = Some(Arc::new(code));
        self
    }

    /// How long a failure asks to wait, as the `Retry-After` of a response does. If the schedule would wait for less,
    /// the retry waits that long, up to [`RetryLayer::max_retry_after`].
    pub fn retry_after(
        mut self,
        retry_after: impl Fn(Result<&Response, &E>) -> Option<Duration> + Send + Sync + 'static,
    ) -> Self {
        self.set().retry_after = Some(Arc::new(retry_after));
        self
    }

    /// The longest wait that a failure can ask for by [`RetryLayer::retry_after`]: six hours by default.
    pub fn max_retry_after(mut self, longest: Duration) -> Self {
        self.set().rules.options.max_retry_after = longest;
        self
    }

    /// The name by which the call is told, with the features `tracing` and `prometheus`. Without one it is `a call`.
    #[cfg(any(feature = "prometheus", feature = "tracing"))]
    pub fn named(mut self, call: &'static str) -> Self {
        self.set().rules.options.call = call;
        self
    }

    /// No retry begins later than this (in whole milliseconds) after the request was made, also if a timer is late. The
    /// wait of a `PaceLayer` below is part of a run. To end a run that is under way, add a layer of `tower::timeout`.
    pub fn deadline(mut self, deadline: Duration) -> Self {
        self.set().rules.options.deadline = Some(deadline);
        self
    }

    /// The settings, which other clones of the layer keep as they are.
    fn set(&mut self) -> &mut Settings<Request, Response, E> {
        Arc::make_mut(&mut self.settings)
    }
}

impl<Request, Response, E> Settings<Request, Response, E> {
    /// The wait before a request that failed so now is made again, or how the retry ended.
    #[inline]
    pub(super) fn wait(
        &self,
        progress: &mut Progress<'_>,
        code: u64,
        result: Result<&Response, &E>,
    ) -> Result<Duration, Ending> {
        let retry_after = self.retry_after.as_ref().and_then(|retry_after| retry_after(result));
        let words = self.rules.policy.words(random::next);
        progress.lost(&self.rules, Moment::now(), &mut Lost::new(code, words, retry_after))
    }

    /// The number by which the schedule knows what is a failure.
    #[inline]
    pub(super) fn code_of_failure(&self, result: Result<&Response, &E>) -> Option<u64> {
        match result {
            Ok(response) => {
                let is_failure = self.failed.as_ref().map_or(false, |failed| failed(response));
                is_failure.then(|| self.response_code.as_ref().map_or(0, |code| code(response)))
            }
            Err(error) => {
                let is_retried = self.when.as_ref().map_or(true, |when| when(error));
                is_retried.then(|| self.code.as_ref().map_or(0, |code| code(error)))
            }
        }
    }
}

impl<S, Request, Response, E, L> Layer<S> for RetryLayer<Request, Response, E, L> {
    type Service = RetryService<S, Self>;

    fn layer(&self, inner: S) -> Self::Service {
        RetryService::new(inner, self.clone())
    }
}

impl<Request, Response, E, L> Clone for RetryLayer<Request, Response, E, L> {
    #[inline]
    fn clone(&self) -> Self {
        Self { settings: self.settings.clone(), refuses: PhantomData }
    }
}

impl<Request, Response, E> Clone for Settings<Request, Response, E> {
    fn clone(&self) -> Self {
        Self {
            rules: self.rules.clone(),
            copy: self.copy.clone(),
            when: self.when.clone(),
            failed: self.failed.clone(),
            code: self.code.clone(),
            response_code: self.response_code.clone(),
            retry_after: self.retry_after.clone(),
        }
    }
}

impl<Request, Response, E, L> fmt::Debug for RetryLayer<Request, Response, E, L> {
    fn fmt(&self, f: &mut fmt::Formatter<'_>) -> fmt::Result {
        f.debug_struct("RetryLayer")
            .field("policy", &self.settings.rules.policy)
            .field("limit", &self.settings.rules.limit)
            .field("deadline", &self.settings.rules.options.deadline)
            .finish_non_exhaustive()
    }
}
