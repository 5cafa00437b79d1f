"""Buckets, bounds on what is in flight, and throttles."""

from __future__ import annotations

import random as _random
import sys
import time
from typing import Any, Callable, Optional, Tuple, Type

from .._engine.limits import LimitHandle
from .._time import FLOAT_ERROR, Duration, moment, seconds_text
from ..budgets.terms import count_of, duration_of, thousandths_of, thousandths_text
from ..errors import TermsError
from .limit import CallLimit
from .seen import BucketSeen, InFlightSeen, ThrottleSeen
from .terms import LimitTerms, bucket, in_flight, throttle

__all__ = ["MAX_COUNT", "Bucket", "InFlight", "Throttle"]

#: The most thousandths of a token that a bucket holds.
_MAX_CAPACITY = 2**40
#: The greatest number of failures, retries, or thousandths of a share; and no bound on the calls in flight.
MAX_COUNT = 2**32 - 1
#: Timeouts that are no `TimeoutError`, each by its module. That of asyncio is one from Python 3.11 on.
_TIMEOUTS = (
    ("asyncio", "TimeoutError"),
    ("httpx", "TimeoutException"),
    ("requests", "Timeout"),
    ("urllib3.exceptions", "TimeoutError"),
)
#: What is no timeout, though of one of these types: urllib3 1.26 raises it where a connection is refused.
_NO_TIMEOUTS = (("urllib3.exceptions", "NewConnectionError"),)


class Bucket(CallLimit):
    """A bucket of tokens. Failures take tokens, successes give some back, and a retry takes its cost.

    `capacity`
        The tokens of a full bucket. It is full at first.
    `floor`
        The tokens that a retry must leave.
    `debit`, `credit`
        The tokens that a failed attempt takes, and that a success gives.
    `cost`, `timeout_cost`
        The tokens that a retry takes; and after a timeout, if that differs: a `TimeoutError`, or the timeouts of
        asyncio, httpx, requests and urllib3.
    `refund`
        A success gives back what the call's last retry took, instead of the credit.

    Tokens are counted in thousandths.

    >>> from hikebox import recurs, retry
    >>> @retry(recurs(3), limit=Bucket.grpc(max_tokens=10, token_ratio=0.1))
    ... def fetch():
    ...     return "fetched"
    >>> fetch()
    'fetched'
    """

    __slots__ = ("_terms", "_cost", "_timeout_cost")

    has_costs = True
    rests = admits_all = True

    def __init__(
        self,
        capacity: float,
        *,
        floor: float = 0,
        debit: float = 0,
        credit: float = 0,
        cost: float = 1,
        timeout_cost: Optional[float] = None,
        refund: bool = False,
    ) -> None:
        most = thousandths_of("capacity", capacity, _MAX_CAPACITY)
        if not isinstance(refund, bool):
            raise TypeError(f"refund: expected True or False, got {refund!r}")
        late = cost if timeout_cost is None else timeout_cost
        parts = {"floor": floor, "debit": debit, "credit": credit, "cost": cost, "timeout_cost": late}
        counts = [thousandths_of(name, value, _MAX_CAPACITY) for name, value in parts.items()]
        for (name, value), count in zip(parts.items(), counts):
            if count > most:
                raise TermsError(f"expected a capacity of at least the {name}, {value!r}, got {capacity!r}")
        self._begin_with(most, *counts[:3], refund=refund)
        self._cost, self._timeout_cost = counts[3:]

    def _begin_with(self, capacity: int, floor: int, debit: int, credit: int, *, refund: bool) -> None:
        self._terms = (capacity, floor, debit, credit, refund)
        self._cost = self._timeout_cost = 0
        CallLimit.__init__(self, time.monotonic)

    @classmethod
    def grpc(cls, max_tokens: int, token_ratio: float) -> Bucket:
        """gRPC's `retryThrottling`: a failure takes one token, a success gives `token_ratio` of one, and a retry is
        granted while more than half of `max_tokens` are left. As in gRPC, what follows the third decimal of the ratio
        is ignored."""
        most = thousandths_of("max_tokens", max_tokens, _MAX_CAPACITY, least=1000)
        made = cls.__new__(cls)
        credit = thousandths_of("token_ratio", token_ratio, most)
        if credit > 1 and credit > token_ratio * 1000 + FLOAT_ERROR:
            credit -= 1  # which was rounded up
        made._begin_with(most, most // 2 + 1, 1000, credit, refund=False)
        return made

    @classmethod
    def aws(cls) -> Bucket:
        """The AWS SDKs' standard mode: 500 tokens. A retry takes 5, and 10 after a timeout. A success gives back what
        the call's last retry took, or else 1."""
        return cls(500, credit=1, cost=5, timeout_cost=10, refund=True)

    @property
    def terms(self) -> Tuple[int, int, int, int, bool]:
        """The capacity, the floor, the debit and the credit in thousandths, and whether a success refunds."""
        return self._terms

    @property
    def costs(self) -> Tuple[int, int]:
        """What a retry takes, and what it takes after a timeout, in thousandths."""
        return self._cost, self._timeout_cost

    def make(self) -> LimitHandle:
        return LimitHandle.of_bucket(*self._terms)

    def on_storm(self) -> LimitTerms:
        capacity, floor, debit, credit, refund = self._terms
        return bucket(capacity, floor, self._cost, self._timeout_cost, debit, credit, refund)

    def seen(self) -> BucketSeen:
        """Returns its level and its capacity now."""
        state = self.state_of_root()
        return BucketSeen(state.first / 1000, state.second / 1000)

    def cost_of(self, error: Optional[BaseException]) -> int:
        return self._cost if self._cost == self._timeout_cost or not _is_timeout(error) else self._timeout_cost

    def expression(self) -> str:
        *levels, refund = self._terms
        capacity, floor, debit, credit, cost, late = map(thousandths_text, (*levels, self._cost, self._timeout_cost))
        timeout = "" if late == cost else f", timeout_cost={late}"
        told = ", refund=True" if refund else ""
        return f"Bucket({capacity}, floor={floor}, debit={debit}, credit={credit}, cost={cost}{timeout}{told})"


def _is_timeout(error: Optional[BaseException]) -> bool:
    """Whether an error is a timeout, of Python or of a client that is loaded."""
    if isinstance(error, TimeoutError):
        return True
    return isinstance(error, _loaded(_TIMEOUTS)) and not isinstance(error, _loaded(_NO_TIMEOUTS))


def _loaded(names: Tuple[Tuple[str, str], ...]) -> Tuple[Type[Any], ...]:
    """The types of these names, each by its module, as far as they are loaded."""
    found = [getattr(sys.modules.get(module), name, None) for module, name in names]
    return tuple([each for each in found if isinstance(each, type)])


class InFlight(CallLimit):
    """Bounds the retries in flight: the greater of a least number and a share of the calls in flight. With `most` it
    bounds the calls too.

    A call is in flight from its first attempt to its end. A retry is from its draw to the call's next draw or its end,
    or until it is cancelled in its wait.

    `least`
        The retries that there may be, however few calls there are.
    `share`
        The retries that each call in flight allows, from 0 to 1: 0.2 is one for every five. It is counted in
        thousandths.
    `most`
        The calls that there may be. One more raises a `NotAdmitted` at once.

    >>> InFlight.envoy(), InFlight.bulkhead(25)
    (<InFlight(3, 0.2)>, <InFlight(25, 0, most=25)>)
    """

    __slots__ = ("_terms",)

    def __init__(self, least: int, share: float, *, most: Optional[int] = None) -> None:
        bound = MAX_COUNT if most is None else count_of("most", most, 1, MAX_COUNT)
        self._terms = (count_of("least", least, 0, MAX_COUNT), thousandths_of("share", share, 1000), bound)
        super().__init__(time.monotonic)

    @classmethod
    def bulkhead(cls, most: int) -> InFlight:
        """At most so many calls at once, and no other bound on their retries."""
        return cls(count_of("most", most, 1, MAX_COUNT), 0, most=most)

    @classmethod
    def envoy(cls, budget_percent: float = 20, min_retry_concurrency: int = 3) -> InFlight:
        """Envoy's `retry_budget`, with its defaults."""
        least = count_of("min_retry_concurrency", min_retry_concurrency, 0, MAX_COUNT)
        percent = thousandths_of("budget_percent", budget_percent, 100_000)
        if 0 < percent < 1000:
            wanted = "expected per cent, 0 or from 1 to 100"
            told = f"write {budget_percent * 100:g} for a share of {budget_percent!r}"
            raise TermsError(f"budget_percent: {wanted}, got {budget_percent!r}: {told}")
        return cls(least, percent / 100_000)

    def make(self) -> LimitHandle:
        return LimitHandle.of_flight(*self._terms)

    def on_storm(self) -> LimitTerms:
        return in_flight(*self._terms)

    def seen(self) -> InFlightSeen:
        """Returns the calls and the retries that are in flight now."""
        state, most = self.state_of_root(), self._terms[2]
        return InFlightSeen(state.first, state.second, None if most == MAX_COUNT else most)

    def expression(self) -> str:
        least, share, most = self._terms
        bound = "" if most == MAX_COUNT else f", most={most}"
        return f"InFlight({least}, {thousandths_text(share)}{bound})"


class Throttle(CallLimit):
    """Google's client throttling. It counts calls and those that were accepted over two windows, and refuses a first
    attempt or a retry with the probability (requests - ratio * accepts) / (requests + 1).

    `ratio`
        The requests that each accepted one allows, 1 or more. It is counted in thousandths.
    `period`
        The length of a window: seconds, or a `timedelta`. The present window and the one before count. Of each window
        1,048,575 requests are counted at most.
    `clock`, `random`
        What returns the time in seconds, and numbers from 0 up to 1, to be replaced in tests. A time before 0 counts
        as 0.

    >>> Throttle.google()
    <Throttle(2, 60)>
    """

    __slots__ = ("_ratio", "_period")

    reads_clock = True
    times_successes = True
    reads_random = True

    def __init__(
        self,
        ratio: float,
        period: Duration,
        *,
        clock: Callable[[], float] = time.monotonic,
        random: Callable[[], float] = _random.random,
    ) -> None:
        self._ratio = thousandths_of("ratio", ratio, MAX_COUNT, least=1000)
        self._period = duration_of("period", period)
        if self._period == 0:
            raise TermsError(f"expected a period of at least a millisecond, got {period!r}")
        super().__init__(clock, random)

    @classmethod
    def google(cls, ratio: float = 2.0) -> Throttle:
        """The SRE book's: two requests for each accepted one, over two minutes."""
        return cls(ratio, 60)

    def make(self) -> LimitHandle:
        return LimitHandle.of_throttle(moment(self.clock()), self._ratio, self._period)

    def on_storm(self) -> LimitTerms:
        return throttle(self._ratio, self._period)

    def seen(self) -> ThrottleSeen:
        """Returns what it counts now."""
        state = self.state_of_root()
        return ThrottleSeen(state.first, state.second)

    def expression(self) -> str:
        return f"Throttle({thousandths_text(self._ratio)}, {seconds_text(self._period)})"
