"""Paces: when each call may begin, so that a peer gets so many in a time, and so many at once."""

from __future__ import annotations

import threading
import time
from functools import wraps
from math import floor
from typing import Any, Callable, List, Optional, Tuple, TypeVar

from ._engine.paces import PaceHandle
from ._forks import OfOneProcess, begins_anew_in_a_child
from ._functions import is_async, is_generator
from ._time import FLOAT_ERROR, GRAIN, MAX_NUMBER, Duration, Milliseconds, seconds, seconds_text
from ._values import NamedTuple
from .budgets.terms import count_of, duration_of
from .errors import TermsError, TooSoon, shown
from .retry.deadline import seconds_left
from .retry.waits import sleep_here, sleep_now

__all__ = ["Pace", "Pacing"]

Function = TypeVar("Function", bound=Callable[..., Any])

#: The most microseconds from one call to the next, calls at once, and milliseconds of a wait.
_MAX_EACH = 2**40
_MAX_BURST = 2**20
_MAX_WAIT = 2**37
#: A pace's moment 0 is so many milliseconds before that of its clock, which may tell less than 0.
_BEFORE = 2**50


class PaceTerms(NamedTuple):
    """The terms of a pace, in the engine's units."""

    #: The microseconds from one call to the next.
    each: int
    #: How many calls may begin at once.
    burst: int
    #: How many milliseconds a call waits at most.
    longest: int


class Wait(NamedTuple):
    """When a call may begin that was granted one: at this moment, in seconds by the pace's clock.

    It is a context manager around the wait; one that is ended by an exception gives the place back, where that is the
    latest one that was taken.
    """

    at: float
    #: Takes it back where the call does not begin.
    give_back: Callable[[], None]
    #: Lets it go, once the wait is over.
    begins: Callable[[], None]

    def __enter__(self) -> None:
        """The wait begins."""

    def __exit__(self, kind: Any, error: Any, trace: Any) -> None:
        try:
            if kind is not None:
                self.give_back()
        finally:
            self.begins()


class Pacing(OfOneProcess):
    """What calls wait for before they begin: a `Pace`, or one that processes share.

    Use it as a context manager, plain or async, as a decorator, or by `wait()` and `wait_async()`.
    """

    __slots__ = ("terms", "calls", "per", "clock", "sleep", "__weakref__")

    def __init__(
        self,
        calls: int,
        per: Duration,
        burst: int,
        longest: Optional[Duration],
        clock: Callable[[], float],
        sleep: Optional[Callable[[float], Any]],
    ) -> None:
        for name, function in (("clock", clock), ("sleep", sleep)):
            if not callable(function) and (name, function) != ("sleep", None):
                raise TypeError(f"{name}: expected a function, got {function!r}")
        self.terms = _terms_of(calls, per, burst, longest)
        self.calls = calls
        self.per = per
        #: What returns the time in seconds, and what sleeps; None for the real one.
        self.clock = clock
        self.sleep = sleep

    @property
    def burst(self) -> int:
        """How many calls may begin at once."""
        return self.terms.burst

    def take(self, cost: int) -> Wait:
        """Takes the next moment at which a call of this cost may begin, or raises `TooSoon`."""
        raise NotImplementedError

    def wait(self, cost: int = 1) -> float:
        """Waits until a call of this cost may begin, and returns for how many seconds it slept. Raises `TooSoon` at
        once if that would be longer than `longest`, or past the deadline of the retry that makes this call. If the wait
        is ended by an exception, such as a `KeyboardInterrupt`, the call's place goes to the next one, unless another
        call took a later place meanwhile."""
        wait, left = self._taken(cost)
        if left > 0.0:
            with wait:
                (self.sleep or sleep_now)(left)
        return left

    async def wait_async(self, cost: int = 1) -> float:
        """The same for a coroutine of asyncio or trio; one that is cancelled while it waits gives its place back,
        unless another call took a later one meanwhile."""
        wait, left = self._taken(cost)
        if left > 0.0:
            with wait:
                slept = (self.sleep or sleep_here)(left)
                if hasattr(type(slept), "__await__"):
                    await slept
        return left

    def _taken(self, cost: int) -> Tuple[Wait, float]:
        """What was taken, and the seconds until then. Where there are none, the call begins."""
        wait = self.take(count_of("cost", cost, 1, self.terms.burst))
        left = wait.at - self.clock()
        if left <= 0.0:
            wait.begins()
            return wait, 0.0
        most = seconds_left()
        if most is None or left <= most:
            return wait, left
        wait.give_back()
        wait.begins()
        raise TooSoon(left, most)

    def __enter__(self: Any) -> Any:
        self.wait()
        return self

    def __exit__(self, kind: Any, error: Any, trace: Any) -> None:
        """Nothing ends: a pace says when a call begins."""

    async def __aenter__(self: Any) -> Any:
        await self.wait_async()
        return self

    async def __aexit__(self, kind: Any, error: Any, trace: Any) -> None:
        """Nothing ends: a pace says when a call begins."""

    def __call__(self, function: Function) -> Function:
        """Returns a function that waits before each call. Put it under `retry`, so that each attempt waits."""
        if not callable(function) or isinstance(function, type):
            raise TypeError(f"a pace is put on a function, got {function!r}")
        if is_generator(function):
            raise TypeError(f"expected a function that returns, got a generator: {function!r}; use the pace inside it")
        paced: Any = self._paced_async(function) if is_async(function) else self._paced(function)
        wrapped: Function = wraps(function)(paced)
        return wrapped

    def _paced(self, function: Callable[..., Any]) -> Callable[..., Any]:
        def paced(*args: Any, **kwargs: Any) -> Any:
            self.wait()
            return function(*args, **kwargs)

        return paced

    def _paced_async(self, function: Callable[..., Any]) -> Callable[..., Any]:
        async def paced(*args: Any, **kwargs: Any) -> Any:
            await self.wait_async()
            return await function(*args, **kwargs)

        return paced

    def spelt(self) -> str:
        """Its terms, as its parameters are written."""
        each, burst, longest = self.terms
        per = self.per if isinstance(self.per, (int, float)) and not isinstance(self.per, Milliseconds) else None
        text = f"{self.calls}, {seconds_text(seconds(self.per, 'per')) if per is None else f'{per:g}'}"
        text += "" if burst == 1 else f", burst={burst}"
        return text + ("" if longest == _MAX_WAIT else f", longest={seconds_text(longest)}")


class Pace(Pacing):
    """Spaces calls out: at most `burst` begin at once, and in any `per` at most `burst` + `calls` - 1.

    A call is told at once when it may begin, and waits until then; there is no queue and no thread. It is the generic
    cell rate algorithm.

    `calls`, `per`
        How many calls may begin in how long: seconds, or a `timedelta`. The time from one call to the next is a whole
        number of microseconds, rounded up.
    `burst`
        How many may begin at once after a pause.
    `longest`
        How long a call waits at most; one that would wait longer raises a `TooSoon` at once. None for no bound.
    `clock`, `sleep`
        What returns the time in seconds, and what sleeps, to be replaced in tests.

    >>> from hikebox import recurs, retry
    >>> pace = Pace(1000, 1, burst=20)
    >>> @retry(recurs(3))
    ... @pace
    ... def fetch(path):
    ...     return path
    >>> [fetch(path) for path in ("/a", "/b")]
    ['/a', '/b']
    >>> with pace:
    ...     answer = fetch("/c")

    Of the calls that were granted and did not give their place back, those that begin in any span of so many seconds
    cost at most `burst` and what the span has room for, whatever threads call, also if their clocks differ. Threads may
    share a pace. It belongs to its process: a forked child begins with a fresh one, and `hikebox.leased` has one that
    processes share.
    """

    __slots__ = ("_root", "_idle", "_split", "_lock")

    def __init__(
        self,
        calls: int,
        per: Duration,
        *,
        burst: int = 1,
        longest: Optional[Duration] = None,
        clock: Callable[[], float] = time.monotonic,
        sleep: Optional[Callable[[float], Any]] = None,
    ) -> None:
        super().__init__(calls, per, burst, longest, clock, sleep)
        self.begin_anew()
        begins_anew_in_a_child(self)

    def begin_anew(self) -> None:
        """Begins with no call counted."""
        self._lock = threading.RLock()
        #: The handle that others are split off.
        self._root = PaceHandle.of(*self.terms)
        #: Those that no call uses now, of this process. `pop` and `append` are each one step.
        self._idle: List[PaceHandle] = []
        #: All of them, so that the collector frees none before its pace.
        self._split: List[PaceHandle] = []

    def _lend(self) -> PaceHandle:
        """A handle for one call, which goes back to its home."""
        try:
            return self._idle.pop()
        except IndexError:
            with self._lock:
                idle, split = self._idle, self._split
                made = self._root.part()
                made.home = idle
                split.append(made)
                return made

    def take(self, cost: int) -> Wait:
        handle = self._lend()
        is_granted = False
        try:
            now = self.clock()
            is_granted, millis = handle.take(_moment(now), cost)
            at = (millis - _BEFORE) / 1000
            if not is_granted:
                longest = self.terms.longest / 1000
                raise TooSoon(at - now + longest, longest, at)
        finally:
            if not is_granted:
                handle.home.append(handle)
        return Wait(at, handle.give_back, lambda: handle.home.append(handle))

    def seen(self) -> float:
        """Returns when a call would begin now, in seconds by the pace's clock. It takes nothing.

        >>> from hikebox.testing import VirtualClock
        >>> clock = VirtualClock()
        >>> pace = Pace(10, 1, clock=clock, sleep=clock.sleep)
        >>> pace.seen(), pace.wait(), pace.seen()
        (0.0, 0.0, 0.1)
        """
        handle = self._lend()
        try:
            return (handle.seen(_moment(self.clock())) - _BEFORE) / 1000
        finally:
            handle.home.append(handle)

    def __repr__(self) -> str:
        return f"<Pace({self.spelt()})>"


def _moment(told: float) -> int:
    """The moment of a pace at which its clock tells this: whole milliseconds."""
    count = floor(told * 1000 + FLOAT_ERROR + abs(told) * GRAIN) + _BEFORE
    return count if 0 <= count <= MAX_NUMBER else max(0, min(count, MAX_NUMBER))


def _terms_of(calls: int, per: Duration, burst: int, longest: Optional[Duration]) -> PaceTerms:
    """The terms of a pace, or a `TermsError`."""
    number = count_of("calls", calls, 1, 2**40)
    period = duration_of("per", per)
    wait = _MAX_WAIT if longest is None else duration_of("longest", longest)
    each = -(-period * 1000 // number)
    if number > period * 1000 or each > _MAX_EACH:
        raise TermsError(f"expected from a microsecond to {_MAX_EACH // 10**6} seconds a call, got {calls} in {per!r}")
    if wait > _MAX_WAIT:
        raise TermsError(f"longest: expected at most {_MAX_WAIT // 1000} seconds, got {shown(longest)}")
    return PaceTerms(each, count_of("burst", burst, 1, _MAX_BURST), wait)
