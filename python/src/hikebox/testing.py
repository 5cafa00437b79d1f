"""For tests of code that retries: a clock whose sleeps take no time, and a switch that skips all waits."""

from __future__ import annotations

import contextlib
from typing import Iterator, List

from .retry.waits import switch

__all__ = ["VirtualClock", "no_waits"]


@contextlib.contextmanager
def no_waits() -> Iterator[None]:
    """Skips the waits of all retries of the process, including those of functions decorated before. Each retry goes on
    at once, as if the time had passed. Nothing else changes: policies, limits and hooks work as before.

    >>> from hikebox import recurs, retry, spaced
    >>> @retry(recurs(3) & spaced(3600))
    ... def fetch(answers=["fetched", "", ""]):
    ...     return answers.pop() or 1 / 0
    >>> with no_waits():
    ...     fetch()
    'fetched'
    """
    switch.no_waits += 1
    try:
        yield
    finally:
        switch.no_waits -= 1


class VirtualClock:
    """A simulated clock. Only its own sleeps move it; they take no time, and it lists them in `slept`.

    >>> from hikebox import Retrying, exponential, recurs
    >>> clock = VirtualClock()
    >>> retrying = Retrying(recurs(3) & exponential(10), clock=clock, sleep=clock.sleep)
    >>> try:
    ...     retrying(int, "no number")
    ... except ValueError:
    ...     print(clock.slept, clock())
    [10.0, 20.0, 40.0] 70.0
    """

    def __init__(self, start: float = 0.0) -> None:
        #: The seconds of each sleep.
        self.slept: List[float] = []
        self._start = start
        #: The seconds since then. (Added to a great start one by one, each would lose its last digits.)
        self._passed = 0.0

    def __call__(self) -> float:
        """The moment, in seconds."""
        return self._start + self._passed

    def sleep(self, seconds: float) -> None:
        """Moves the clock on by this many seconds, and lists the sleep."""
        self.slept.append(seconds)
        self._passed += seconds

    async def sleep_async(self, seconds: float) -> None:
        """The same, for `AsyncRetrying`."""
        self.sleep(seconds)

    def advance(self, seconds: float) -> None:
        """Moves the clock on by this many seconds, as while a call runs."""
        self._passed += seconds
