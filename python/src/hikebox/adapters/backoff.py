"""A policy as the `wait_gen` of backoff, where its decorators are to stay.

>>> import backoff
>>> from hikebox import exponential, recurs
>>> @backoff.on_exception(wait_gen(recurs(2) & exponential(0.001)), ConnectionError, jitter=None)
... def fetch():
...     attempts.append(1)
...     raise ConnectionError("nobody there")
>>> attempts = []
>>> try:
...     fetch()
... except ConnectionError as error:
...     print(error, len(attempts))
nobody there 3
"""

from __future__ import annotations

from typing import Any, Callable, Dict, Generator, Optional, Union

from ..limits import CallLimit, look_at_no_keys
from ..policy import Policy
from ..retry.progress import Progress
from ..retry.state import Outcome
from ..retrying import Retrying
from ._waits import Waits

__all__ = ["wait_gen"]

#: What backoff sends after an attempt: the exception that it raised, or the result that it gave.
Told = Generator[float, Any, None]


def wait_gen(policy: Union[Policy, str, bytes, Dict[str, Any]], **how: Any) -> Callable[[], Told]:
    """Returns what `backoff.on_exception` and `backoff.on_predicate` take as their `wait_gen`. Pass `jitter=None` too:
    backoff's default would replace each wait by a random part of it.

    `how` is what `hikebox.Retrying` takes: `limit`, `code`, `retry_after`, `deadline`, `clock`, `random`. backoff gives
    up once the policy is done, or the limit refuses a retry. A quota counts a call when it begins. backoff does not say
    how a call ended, so no ticket comes back.
    """
    if isinstance(how.get("limit"), CallLimit):
        kind = type(how["limit"]).__name__
        raise TypeError(f"wait_gen() takes no {kind}: it is told of each success, and backoff tells of failures alone")
    look_at_no_keys("wait_gen()", how.get("limit"), "backoff")
    retrying = Retrying(policy, **how)

    def waits() -> Told:
        progress = Progress(retrying)
        try:
            if retrying.settings.deposit is not None:
                retrying.settings.deposit()
            wait: Optional[float] = 0.0  # (which backoff drops)
            attempt, own = 0, Waits(progress)
            while wait is not None:
                attempt += 1
                wait = own.after(_outcome((yield wait)), attempt)
        finally:
            progress.close()

    return waits


def _outcome(failure: Any) -> Outcome:
    return Outcome(error=failure) if isinstance(failure, BaseException) else Outcome(failure)
