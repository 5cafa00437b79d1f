"""Deadlines: how much time a retried call has left."""

from __future__ import annotations

from contextvars import ContextVar, Token
from typing import Callable, Optional

__all__ = ["Deadline", "enter", "leave", "seconds_left"]


class Deadline:
    """A moment by a retry's clock, past which no attempt but the first begins."""

    __slots__ = ("clock", "at", "ahead", "outer", "is_over")

    def __init__(self, clock: Callable[[], float], at: float) -> None:
        self.clock = clock
        self.at = at
        #: Seconds by which sleeps came back before the moments that they were to wait for.
        self.ahead = 0.0
        #: That of the retry in which this one is made.
        self.outer: Optional[Deadline] = None
        #: Whether calls go by it no more. A generator that was left may leave it in a context that is not its own.
        self.is_over = False

    def left(self) -> float:
        """The seconds until then, and 0 afterwards."""
        return max(0.0, self.at - self.clock() - self.ahead)


_deadline: ContextVar[Optional[Deadline]] = ContextVar("hikebox_deadline", default=None)


def enter(deadline: Deadline) -> Token[Optional[Deadline]]:
    """Has calls from here on go by this deadline, and by those that they went by."""
    outer = _deadline.get()
    while outer is not None and (outer.is_over or outer is deadline):
        outer = outer.outer
    deadline.outer, deadline.is_over = outer, False
    return _deadline.set(deadline)


def leave(deadline: Deadline, token: Token[Optional[Deadline]]) -> None:
    """Goes back to what was before."""
    deadline.is_over = True
    try:
        _deadline.reset(token)
    except ValueError:
        pass  # a coroutine that nobody awaits any more is closed in another context


def seconds_left() -> Optional[float]:
    """Returns the seconds until the deadline of the retry that makes this call, or None if it has no deadline.

    Use it as the timeout of an attempt: `urlopen(url, timeout=seconds_left())`, or
    `asyncio.wait_for(fetch(), seconds_left())`. Inside two retries, it is the lesser of both.

    >>> from hikebox import recurs, retry
    >>> @retry(recurs(3), deadline=30)
    ... def fetch():
    ...     return seconds_left()
    >>> 0 < fetch() <= 30, seconds_left()
    (True, None)
    """
    deadline = _deadline.get()
    least: Optional[float] = None
    while deadline is not None:
        if not deadline.is_over:
            left = deadline.left()
            least = left if least is None or left < least else least
        deadline = deadline.outer
    return least
