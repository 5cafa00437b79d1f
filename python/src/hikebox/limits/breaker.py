"""Circuit breakers."""

from __future__ import annotations

import time
from collections import deque
from datetime import timedelta
from typing import Any, Callable, Deque, List, Optional, Tuple, Type

from .._engine.limits import STATE_CLOSED, STATE_OPEN, LimitHandle
from .._functions import look_at_function
from .._time import MAX_NUMBER, Duration, moment, seconds_text
from ..budgets.terms import count_of, duration_of
from ..errors import PolicyError, TermsError, shown
from ..policy import Policy
from .kinds import MAX_COUNT
from .limit import CallLimit, Request, WatchedRequest
from .seen import BreakerSeen, BreakerState
from .terms import LimitTerms, breaker

__all__ = ["Breaker", "times_of"]

#: The most open times of a breaker, and the most results that it keeps.
_MAX_TIMES = 64
_MAX_RESULTS = 32

OnChange = Callable[[BreakerState, BreakerState], object]


class Breaker(CallLimit):
    """A circuit breaker. After `failures` in a row, or among its last `results`, it is open: no attempt is made for a
    while. After that it is half open and admits a few probes. When these succeed it is closed; when one fails it is
    open again.

    `open_for`
        A policy, whose waits are the times for which it is open: the first one, and the next each time that a probe
        fails. The last one is used again.
    `results`
        Among how many of its last results the failures count, from `failures` to 32. None: they count in a row.
    `probes`
        How many probes it admits, and how many successes close it: 1 to 15.
    `probe_deadline`
        How long after its last probe it admits others, if the probes have no result by then: seconds, or a `timedelta`.
    `on_change`
        A function of the states before and after a change, two `BreakerState`. It is called once for each change that a
        call of this process makes or finds, in their order, from one thread at a time. What it raises is logged.
    `clock`
        What returns the time in seconds, to be replaced in tests. A time before 0 counts as 0.

    An attempt that began before the breaker changed changes nothing when it ends.

    >>> from hikebox import exponential
    >>> from hikebox.testing import VirtualClock
    >>> clock = VirtualClock()
    >>> breaker = Breaker(2, exponential(30, 2).cap(300), clock=clock)
    >>> with breaker.request() as request:
    ...     request.admit()
    ...     request.failed()
    ...     request.failed()
    >>> breaker.request().admit(), breaker.state.value
    (<Refusal: the breaker is open until 30.000>, 'open')
    """

    __slots__ = (
        "_failures",
        "_results",
        "_policy",
        "_probes",
        "_deadline",
        "_times",
        "_on_change",
        "_known",
        "_changes",
        "_tells",
    )

    reads_clock = True
    rests = True

    def __init__(
        self,
        failures: int,
        open_for: Any,
        *,
        results: Optional[int] = None,
        probes: int = 1,
        probe_deadline: Duration = 30,
        on_change: Optional[OnChange] = None,
        clock: Callable[[], float] = time.monotonic,
    ) -> None:
        self._results = 0 if results is None else count_of("results", results, 1, _MAX_RESULTS)
        self._failures = count_of("failures", failures, 1, self._results or MAX_COUNT)
        look_at_function("on_change", on_change, awaits=False)
        self._policy = _policy_of(open_for)
        self._probes = count_of("probes", probes, 1, 15)
        self._deadline = duration_of("probe_deadline", probe_deadline)
        self._times = times_of(self._policy)
        self._on_change = on_change
        super().__init__(clock)

    def _begin(self) -> None:
        super()._begin()
        #: The state that was seen last, and the changes that are to be told.
        self._known = BreakerState.CLOSED
        self._changes: Deque[Tuple[BreakerState, BreakerState]] = deque()
        #: Whether a thread tells them.
        self._tells = False

    @property
    def terms(self) -> Tuple[int, int, int, int, List[int]]:
        """The failures, the results that count or 0, the probes, the deadline of a probe and the open times, in
        milliseconds."""
        return self._failures, self._results, self._probes, self._deadline, self._times

    @property
    def tells_changes(self) -> bool:
        """Whether somebody hears of its changes."""
        return self._on_change is not None

    @property
    def REQUEST(self) -> Type[Request]:  # type: ignore[override]
        """What its requests are."""
        return WatchedRequest if self.tells_changes else Request

    def make(self) -> LimitHandle:
        return LimitHandle.of_breaker(moment(self.clock()), *self.terms)

    def on_storm(self) -> LimitTerms:
        return breaker(self._failures, self._results, self._probes, self._deadline, tuple(self._times))

    def seen(self) -> BreakerSeen:
        """Returns its state now. One whose time is over stays open until a call asks.

        >>> from hikebox import spaced
        >>> Breaker(5, spaced(30)).seen()
        BreakerSeen(state=<BreakerState.CLOSED: 'closed'>, failures=0, until=None, trip=0, admitted=0, won=0)
        """
        state = self.state_of_root()
        if state.kind == STATE_CLOSED:
            return BreakerSeen(BreakerState.CLOSED, failures=state.first)
        if state.kind == STATE_OPEN:
            return BreakerSeen(BreakerState.OPEN, until=state.until / 1000, trip=state.first)
        return BreakerSeen(BreakerState.HALF_OPEN, admitted=state.first, won=state.second)

    @property
    def state(self) -> BreakerState:
        """Whether it is closed, open or half open now."""
        return self.seen().state

    def open(self, seconds: Duration) -> None:
        """Opens it by hand for so many seconds. Attempts that are under way change nothing when they end."""
        now = moment(self.clock())
        with self.lock:
            self.root.open(now, min(now + duration_of("seconds", seconds), MAX_NUMBER))
        self.look()

    def close(self) -> None:
        """Closes it by hand, with no failure counted. Attempts that are under way change nothing when they end."""
        with self.lock:
            self.root.close(moment(self.clock()))
        self.look()

    def look(self) -> None:
        if self._on_change is None:
            return
        tells = False
        try:
            with self.lock:
                before, self._known = self._known, self.state
                if before is not self._known:
                    self._changes.append((before, self._known))
                if self._tells or not self._changes:
                    return
                self._tells = tells = True
            while self._tells_next(self._on_change):
                pass
        except BaseException:
            if tells:  # (the handler of a signal may raise an exception at any step)
                self._tells = False
            raise

    def _tells_next(self, on_change: OnChange) -> bool:
        """Tells the next change: False where there is none, and another thread tells those that come."""
        with self.lock:
            if not self._changes:
                self._tells = False
                return False
            change = self._changes.popleft()
        try:
            on_change(*change)
        except Exception:
            import logging  # which others need not load

            logging.getLogger("hikebox").exception("on_change of %r", self)
        return True

    def expression(self) -> str:
        results = f", results={self._results}" if self._results else ""
        probes = "" if self._probes == 1 else f", probes={self._probes}"
        deadline = "" if self._deadline == 30_000 else f", probe_deadline={seconds_text(self._deadline)}"
        return f"Breaker({self._failures}, {self._policy!r}{results}{probes}{deadline})"


def _policy_of(open_for: Any) -> Policy:
    """The policy whose waits are the open times."""
    if isinstance(open_for, (int, float, timedelta)):
        number = f"{open_for.total_seconds():g}" if isinstance(open_for, timedelta) else shown(open_for)
        raise TypeError(f"open_for: expected a policy, as spaced({number}), got {shown(open_for)}")
    try:
        return Policy.of(open_for)
    except PolicyError as error:
        raise TermsError(f"open_for: {error}") from None
    except TypeError as error:
        raise TypeError(f"open_for: {error}") from None


def times_of(policy: Policy, name: str = "open_for") -> List[int]:
    """The open times of a breaker: the first waits of a policy, in milliseconds, on a course whose events have the
    input 0 and the random words 0."""
    lines = policy.plan.course(_MAX_TIMES, 0, 0, [(0, 0, 0, 0, 0)], tells=False)
    times = [line.start - line.moment for line in lines if line.start is not None]
    if not times:
        raise TermsError(f"{name}: expected a policy that goes on, got {policy!r}")
    if not any(times):
        why = "open times are its waits for the least random numbers, and full jitter makes these 0"
        raise TermsError(
            f"{name}: expected a policy with an open time above 0, got {policy!r}: {why}; "
            "write spaced(30), or jittered(0.5, 1)"
        )
    return times
