"""How long a storm takes to play. The engine plays one in one call, so that is an estimate: a storm of a sixteenth of
the size is played first, and the processor time that it takes tells what the whole one will."""

from __future__ import annotations

import threading
import time
from functools import partial
from typing import Callable, Optional

from ..budgets.terms import Terms
from ..policy import Policy
from .parameters import Parameters
from .storm import play

__all__ = ["Estimate", "seconds_of", "time_of_this_thread"]

#: A storm with fewer requests is played at once.
_MANY_REQUESTS = 200_000
#: The part of a storm that is played first, and the calls after which that is cut, and tells nothing.
_PART, _MOST_CALLS = 16, 1_000_000


def seconds_of(policy: Policy, parameters: Parameters) -> Optional[float]:
    """How much processor time a storm takes, about: 0 for a small one; None where that can't be told."""
    if parameters.requests < _MANY_REQUESTS:
        return 0.0
    begins = time.thread_time()
    part = play(policy, _part_of(parameters))
    return None if part.totals.cut else _PART * (time.thread_time() - begins)


def _part_of(parameters: Parameters) -> Parameters:
    """A storm of a part of the requests on a part of the peer."""
    numbers = {name: max(1, getattr(parameters, name) // _PART) for name in ("rate", "together", "capacity")}
    rates = tuple(span._replace(rate=span.rate // _PART) for span in parameters.rates)
    tickets = parameters.tickets
    if isinstance(tickets, Terms):
        tickets = tickets._replace(reserve=tickets.reserve // _PART)
    elif isinstance(tickets, int):
        tickets //= _PART
    queue, calls = parameters.queue // _PART, min(parameters.calls, _MOST_CALLS)
    arrivals = parameters.arrivals[::_PART]
    return parameters._replace(queue=queue, calls=calls, rates=rates, tickets=tickets, arrivals=arrivals, **numbers)


def time_of_this_thread() -> Callable[[], float]:
    """What tells any thread how much processor time this one has used; or the time that passes, where no system does
    that."""
    if not hasattr(time, "pthread_getcpuclockid"):
        return time.perf_counter
    return partial(time.clock_gettime, time.pthread_getcpuclockid(threading.get_ident()))


class Estimate:
    """How much of a storm is played that this thread plays `times` times over, from here on."""

    def __init__(self, policy: Policy, parameters: Parameters, times: int) -> None:
        seconds = seconds_of(policy, parameters)
        self._seconds = times * seconds if seconds else None
        self._used = time_of_this_thread()
        self._begins = self._used()

    def share(self) -> Optional[float]:
        """About the share that is played; None where that can't be told, as of a storm that takes longer than its part
        let expect."""
        used = self._used() - self._begins
        return used / self._seconds if self._seconds is not None and used < self._seconds else None
