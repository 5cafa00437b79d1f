"""A policy as tenacity's `stop` and `wait`, where its `@retry` is to stay.

>>> import tenacity
>>> from hikebox import exponential, recurs
>>> stop, wait = stop_and_wait(recurs(2) & exponential(0.001))
>>> @tenacity.retry(stop=stop, wait=wait, reraise=True)
... def fetch():
...     raise ConnectionError("nobody there")
>>> try:
...     fetch()
... except ConnectionError as error:
...     print(error, fetch.retry.statistics["attempt_number"])
nobody there 3
"""

from __future__ import annotations

import time
from typing import Any, Callable, Dict, Optional, Tuple, Union

from tenacity.stop import stop_base
from tenacity.wait import wait_base

from ..leased import LeasedQuota
from ..limits import look_at_no_keys, look_at_no_limit
from ..policy import Policy
from ..quota import Quota
from ..retry.progress import HeldProgress
from ..retry.state import Outcome
from ..retrying import Retrying
from ._waits import Waits

__all__ = ["before_deposit", "stop_and_wait"]


def stop_and_wait(policy: Union[Policy, str, bytes, Dict[str, Any]], **how: Any) -> Tuple[stop_base, wait_base]:
    """Returns the `stop` and the `wait` of a policy. Pass both to one `tenacity.retry` or `Retrying`.

    `how` is what `hikebox.Retrying` takes: `limit`, `code`, `retry_after`, `deadline`, `clock`, `random`. The policy
    is asked once for each failed attempt, whichever of the two tenacity calls first. You may join other stops and
    waits by tenacity's `|` and `+`. tenacity calls neither for a call that succeeds or a wait that ends early. So with
    a quota, `before_deposit` counts each request at its first attempt, and no ticket comes back.
    """
    look_at_no_limit("stop_and_wait()", how.get("limit"), "tenacity")
    look_at_no_keys("stop_and_wait()", how.get("limit"), "tenacity")
    shared = _Shared(Retrying(policy, **how))
    return _Stop(shared), _Wait(shared)


def before_deposit(quota: Union[Quota, LeasedQuota]) -> Callable[[Any], None]:
    """A hook for tenacity's `before`, which counts each call as a request of the quota.

    >>> import tenacity
    >>> from hikebox import Quota, recurs
    >>> quota = Quota(reserve=0, share=0.5, per=3600)
    >>> stop, wait = stop_and_wait(recurs(2), limit=quota)
    >>> @tenacity.retry(before=before_deposit(quota), stop=stop, wait=wait)
    ... def fetch():
    ...     return "fetched"
    >>> fetch(), fetch(), quota.seen().left
    ('fetched', 'fetched', 1)
    """

    def deposit(retry_state: Any) -> None:
        if retry_state.attempt_number == 1:
            quota.deposit()

    return deposit


class _Answer:
    """What the policy said of one attempt."""

    __slots__ = ("waits", "attempt", "wait")

    def __init__(self, progress: HeldProgress) -> None:
        self.waits = Waits(progress)
        self.attempt = 0
        #: The seconds until the next attempt, or None where none follows.
        self.wait: Optional[float] = 0.0


class _Shared:
    """What a stop and a wait know together."""

    def __init__(self, retrying: Retrying) -> None:
        self.retrying = retrying

    def answer(self, state: Any) -> _Answer:
        """What the policy says of the attempt that this state of tenacity's is at."""
        answers: Dict[_Shared, _Answer] = state.__dict__.setdefault("_hikebox", {})
        answer = answers.get(self)
        if answer is None:
            # tenacity's moments are those of this clock
            start = state.start_time if self.retrying.clock is time.monotonic else None
            answer = answers[self] = _Answer(HeldProgress(self.retrying, start=start))
        if answer.attempt != state.attempt_number and answer.wait is not None:
            answer.attempt = state.attempt_number
            answer.wait = answer.waits.after(_outcome(state.outcome), answer.attempt)
        return answer


def _outcome(future: Any) -> Outcome:
    error = future.exception()
    return Outcome(future.result()) if error is None else Outcome(error=error)


class _Stop(stop_base):
    def __init__(self, shared: _Shared) -> None:
        self.shared = shared

    def __call__(self, retry_state: Any) -> bool:
        return self.shared.answer(retry_state).wait is None


class _Wait(wait_base):
    def __init__(self, shared: _Shared) -> None:
        self.shared = shared

    def __call__(self, retry_state: Any) -> float:
        return self.shared.answer(retry_state).wait or 0.0
