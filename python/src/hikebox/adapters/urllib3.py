"""Retries for urllib3, and for everything that takes its `Retry`.

>>> import urllib3
>>> from hikebox import exponential, recurs
>>> pool = urllib3.PoolManager(retries=PolicyRetry(recurs(4) & exponential(0.2).jittered()))
"""

from __future__ import annotations

import inspect
from typing import Any, Collection, Dict, Optional, Union

from urllib3.exceptions import MaxRetryError, ResponseError
from urllib3.util.retry import Retry

from ..budgets.limit import Limit
from ..http import METHODS, STATUSES, is_bad, parse_retry_after, statuses_of
from ..limits import look_at_no_keys, look_at_no_limit
from ..policy import Policy
from ..retry.drivers import settle, slept
from ..retry.progress import HeldProgress, Progress
from ..retry.state import Ending, Outcome, Statistics
from ..retry.steps import RUN, Steps, steps
from ..retrying import Retrying, Tickets, look_at_names
from ._http import TOO_LATE, is_kept

__all__ = ["PolicyRetry"]

#: What of `Retrying` a `PolicyRetry` takes: the rest is the request's own.
_HOW = ("max_retry_after", "deadline", "stop", "after", "before_sleep", "on_success", "sleep", "clock", "random")
#: The parameters of urllib3's `Retry`, and those of them in whose place the policy is.
_RETRYS = frozenset(inspect.signature(Retry.__init__).parameters) - {"self"}
_BACKOFFS = ("backoff_factor", "backoff_max", "backoff_jitter")
#: How many redirects are followed where nothing is said: as many as by urllib3's `Retry`.
_REDIRECTS = 10
#: Why a redirect is not followed.
_USED_UP = "the body can't be sent again to where the redirect leads"
_REDIRECT_STATUSES = frozenset({301, 302, 303, 307, 308})


class _BadStatus(Exception):
    """A response whose status is retried."""

    def __init__(self, status: int, retry_after: Optional[float]) -> None:
        super().__init__(status)
        self.status = status
        self.retry_after = retry_after


class _Call:
    """One call of a pool, from its first answer on: its first request, and those to which redirects lead."""

    __slots__ = ("start", "retries")

    def __init__(self, start: float) -> None:
        self.start = start
        #: Retries that its requests had so far.
        self.retries = 0


class PolicyRetry(Retry):
    """Retries requests by a policy, under a limit.

    It retries a connection that was not made. For the methods of `allowed_methods` it also retries a connection that
    broke, a response with a status of `on_status` (urllib3's name is `status_forcelist`), and a 413, 429 or 503 with a
    `Retry-After`, unless the body of the request can't be sent again, such as a generator. Each wait is the policy's,
    or the `Retry-After` of the response where that is longer, up to `max_retry_after` seconds. The policy's input is
    the status of the response, and 0 for a connection.

    When the retry ends, a `MaxRetryError` is raised, for a status too; with `raise_on_status=False` you get the last
    response. Redirects are followed as by `Retry`: 10 of them, or as many as `redirect` and `total` allow, but none
    that would send a body that is used up. The requests of a redirect share the deadline and the number of retries, and
    count as one request of a quota, which counts it at its first response or failure.

    It takes the hooks `after`, `before_sleep` and `on_success`, and `deadline`, `stop`, `sleep`, `clock` and `random`,
    as `Retrying` does. urllib3 doesn't tell a `Retry` when a request begins, and a `Retry` can't set a timeout. So a
    deadline counts from the first response or failure, and does not end an attempt; `PolicyAdapter`, for requests, does
    both. Any number of requests and threads can share one object; `statistics` counts them.
    """

    def __init__(
        self,
        policy: Union[Policy, str, bytes, Dict[str, Any], None] = None,
        *,
        limit: Union[Limit, Tickets, None] = None,
        on_status: Optional[Collection[int]] = None,
        **kw: Any,
    ) -> None:
        how = {name: kw.pop(name) for name in _HOW if name in kw}
        if policy is not None:
            look_at_no_limit(f"{type(self).__name__}()", limit, "urllib3")
            look_at_no_keys(f"{type(self).__name__}()", limit, "urllib3")
            kw = _retrys(type(self).__name__, on_status, kw)
        super().__init__(**kw)
        #: How it retries, or None where it is a `Retry` without a policy.
        self.retrying: Optional[Retrying] = None
        if policy is not None:
            self.retrying = Retrying(policy, limit=limit, code=_code, retry_after=_asked_for, **how)
        #: The call that is under way, once that is known, and the retry of its present request.
        self._call: Optional[_Call] = None
        self._progress: Optional[Progress] = None
        self._driven: Optional[Steps] = None
        #: The seconds that its next attempt is waited for.
        self._wait: Optional[float] = None
        #: What is raised where the deadline has passed before the next attempt could begin.
        self._late: Exception = MaxRetryError(None, "", None)

    @property
    def statistics(self) -> Statistics:
        """Counts over all requests that are over. A request to which a redirect leads may be one of its own."""
        return Statistics() if self.retrying is None else self.retrying.statistics

    def new(self, **kw: Any) -> PolicyRetry:
        """A copy with other counts, for the next attempt of the same request."""
        made: PolicyRetry = super().new(**kw)
        made.retrying = self.retrying
        made._call = self._call
        made._progress, made._driven, made._wait = self._progress, self._driven, self._wait
        return made

    def is_retry(self, method: str, status_code: int, has_retry_after: bool = False) -> bool:
        """Whether a response is to be retried, if the policy goes on."""
        self._deposit()
        has_asked = self.respect_retry_after_header and has_retry_after
        is_refused = is_bad(status_code, self.status_forcelist, has_asked)
        if is_refused and self._is_method_retryable(method):
            return True
        self._gives(status_code, is_refused)
        return False

    def _is_method_retryable(self, method: str) -> bool:
        """Whether the request may be made twice: its method allows that, and its body is still there."""
        allowed: Any = getattr(self, "allowed_methods", METHODS)
        return (not allowed or method.upper() in allowed) and (self.retrying is None or _is_body_kept())

    def _gives(self, status: int, is_refused: bool) -> None:
        """The request is over, with a response of this status, which may be one that is retried."""
        if self.retrying is None:
            return
        progress = self._progress or self._begun()
        self._progress = None
        try:
            if status in _REDIRECT_STATUSES:
                # (neither a success nor a failure: what it leads to is)
                progress.state.ending = Ending.WON
            elif is_refused:
                progress.state.ending = Ending.NOT_RETRIED
            else:
                driven = steps(progress, is_counted=True)
                settle(driven, driven.send(None))
                settle(driven, driven.send(Outcome(status)))
        finally:
            progress.close()

    def increment(
        self,
        method: Any = None,
        url: Any = None,
        response: Any = None,
        error: Any = None,
        _pool: Any = None,
        _stacktrace: Any = None,
    ) -> Any:
        """The `Retry` for one more attempt; raises `MaxRetryError` where the policy is done or the limit refuses."""
        redirected = error is None and response is not None and bool(response.get_redirect_location())
        try:
            made: Any = super().increment(method, url, response, error, _pool, _stacktrace)
        except Exception:
            if self._progress is not None:
                self._progress.close()
            raise
        if self.retrying is None:
            return made
        if redirected:
            made._call = self._follows(response, _pool, url)
            return made
        failure = _failure_of(response, error, self.respect_retry_after_header)
        if error is not None:
            self._deposit()
        progress, driven = self._progress, self._driven
        if progress is None or driven is None:
            progress = self._begun()
            driven = steps(progress, is_counted=True, is_judged=True)
            settle(driven, driven.send(None))
        made._call = self._call or _Call(progress.state.start_time)
        made._wait = self._wait_after(progress, driven, made._call, failure)
        if made._wait is None:
            progress.close()
            raise MaxRetryError(_pool, url, _reason_of(response, error))
        made._call.retries += 1
        made._progress, made._driven = progress, driven
        made._late = MaxRetryError(_pool, url, _reason_of(response, error))
        return made

    def _begun(self) -> Progress:
        """The retry of a request that has its first answer now."""
        assert self.retrying is not None
        return HeldProgress(self.retrying, start=None if self._call is None else self._call.start)

    def _wait_after(self, progress: Progress, driven: Steps, call: _Call, failure: BaseException) -> Optional[float]:
        """How many seconds the next attempt is waited for that follows this failure, or None if none follows."""
        assert self.retrying is not None
        most = self.retrying.policy.most_retries
        progress.ends_now = most is not None and call.retries >= most
        outcome = Outcome(error=failure, attempt_number=progress.state.attempt_number)
        want = settle(driven, driven.send(outcome))
        return want if isinstance(want, float) else None

    def _follows(self, response: Any, pool: Any, url: Any) -> _Call:
        """The call of a request whose redirect is followed, where its deadline has not passed and its body is still
        there. (After a 303 it has none.)"""
        assert self.retrying is not None
        settings = self.retrying.settings
        call: Optional[_Call] = self._call or getattr(response.retries, "_call", None)
        call = _Call(settings.clock()) if call is None else call
        deadline = settings.deadline_from(call.start)
        is_late = deadline is not None and deadline.left() <= 0
        if is_late or (response.status != 303 and not _is_body_kept()):
            if self._progress is not None:
                self._progress.close()
            raise MaxRetryError(pool, url, ResponseError(TOO_LATE if is_late else _USED_UP))
        return call

    def sleep(self, response: Any = None) -> None:
        """Waits for the next attempt."""
        progress, driven = self._progress, self._driven
        if progress is None or driven is None:
            super().sleep(response)
        elif slept(progress, driven, self._wait or 0.0) is not RUN:
            progress.close()
            raise self._late

    def _deposit(self) -> None:
        """Counts a request, if this was its first attempt."""
        if self._call is None and self.retrying is not None and self.retrying.settings.deposit is not None:
            self.retrying.settings.deposit()


def _retrys(owner: str, on_status: Optional[Collection[int]], kw: Dict[str, Any]) -> Dict[str, Any]:
    """The parameters of urllib3's `Retry`, of those that were given with a policy."""
    for name in kw:
        if name in _BACKOFFS:
            raise TypeError(f"{owner}() takes no {name}: the policy says how long to wait, as exponential(0.2)")
    look_at_names(owner, kw, {*_RETRYS, *_HOW} - {*_BACKOFFS})
    if on_status is not None and "status_forcelist" in kw:
        raise TypeError(f"{owner}() takes on_status or status_forcelist, which mean the same, and got both")
    made: Dict[str, Any] = {
        "total": None,
        "status_forcelist": STATUSES if on_status is None else statuses_of(on_status),
        **kw,
    }
    if made["total"] is None and made.get("redirect") is None:
        made["redirect"] = _REDIRECTS
    return made


def _is_body_kept() -> bool:
    """Whether the request that urllib3 is at can be sent again. It tells a `Retry` all but the body, which its
    `urlopen` has, and the position to which it sets a file back."""
    frame = inspect.currentframe()
    while frame is not None:
        told = frame.f_locals if frame.f_code.co_name == "urlopen" else {}
        if "body_pos" in told:
            return is_kept(told["body"], told["body_pos"])
        if "kw" in told:  # (of a PoolManager, which sets no file back)
            return is_kept(told["kw"].get("body"), None)
        frame = frame.f_back
    return True


def _failure_of(response: Any, error: Any, heeds_retry_after: bool) -> BaseException:
    """What failed, as the policy is given it."""
    if error is not None:
        failure: BaseException = error
        return failure
    status = 0 if response is None else response.status
    asked = None if response is None else parse_retry_after(response.headers.get("Retry-After"))
    return _BadStatus(status, asked if heeds_retry_after else None)


def _reason_of(response: Any, error: Any) -> Exception:
    """What urllib3 gives as the reason of a `MaxRetryError`."""
    if error is not None:
        reason: Exception = error
    else:
        status = 0 if response is None else response.status
        reason = ResponseError(ResponseError.SPECIFIC_ERROR.format(status_code=status))
    return reason


def _asked_for(error: BaseException) -> Optional[float]:
    return error.retry_after if isinstance(error, _BadStatus) else None


def _code(failure: Any) -> int:
    return failure.status if isinstance(failure, _BadStatus) else 0
