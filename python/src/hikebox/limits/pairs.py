"""Several limits at once."""

from __future__ import annotations

from typing import Iterable, List, Optional, Tuple, Type

from .._engine.limits import LimitHandle
from ..budgets.limit import Limit
from ..errors import TermsError
from .kinds import Bucket, Throttle
from .limit import CallLimit, Request, of_pace
from .seen import Seen

__all__ = ["both"]

#: How many limits the engine asks at once.
_MOST = 4


class Both(CallLimit):
    """Several limits at once, as `both` makes it."""

    __slots__ = ("_limits",)

    def __init__(self, limits: List[CallLimit]) -> None:
        self._limits = limits
        timed = [limit for limit in limits if limit.reads_clock] or limits[:1]
        if any(limit.clock != timed[0].clock for limit in timed):
            raise TypeError(f"both: expected limits with one clock, got {_told(timed)}")
        buckets = [limit for limit in limits if isinstance(limit, Bucket)]
        if len({bucket.costs for bucket in buckets}) > 1:  # (the engine has one cost for all of them)
            raise TermsError(f"both: expected buckets with the same cost and timeout_cost, got {_told(buckets)}")
        throttles = [limit for limit in limits if isinstance(limit, Throttle)] or limits
        super().__init__(timed[0].clock, throttles[0].random)

    @property
    def reads_clock(self) -> bool:  # type: ignore[override]
        """Whether one of them looks at its clock."""
        return any(limit.reads_clock for limit in self._limits)

    @property
    def times_successes(self) -> bool:  # type: ignore[override]
        """Whether one of them looks at its clock at a success."""
        return any(limit.times_successes for limit in self._limits)

    @property
    def reads_random(self) -> bool:  # type: ignore[override]
        """Whether one of them draws random numbers."""
        return any(limit.reads_random for limit in self._limits)

    @property
    def has_costs(self) -> bool:  # type: ignore[override]
        """Whether a retry may cost something of one of them."""
        return any(limit.has_costs for limit in self._limits)

    @property
    def rests(self) -> bool:  # type: ignore[override]
        """Whether all of them are quiet at times."""
        return all(limit.rests for limit in self._limits)

    @property
    def REQUEST(self) -> Type[Request]:  # type: ignore[override]
        """What its requests are: watched where those of one of them are."""
        return next((limit.REQUEST for limit in self._limits if limit.REQUEST is not Request), Request)

    def parts(self) -> List[CallLimit]:
        return self._limits

    def seen(self) -> Tuple[Seen, ...]:
        """Returns the state of each of them now."""
        return tuple(limit.seen() for limit in self._limits)

    def look(self) -> None:
        for limit in self._limits:
            limit.look()

    def make(self) -> LimitHandle:
        parts = [LimitHandle() for _ in self._limits]
        for limit, part in zip(self._limits, parts):
            limit.root.split(part)
        for part in parts[1:]:
            parts[0].both(part)
        return parts[0]

    def cost_of(self, error: Optional[BaseException]) -> int:
        return max(limit.cost_of(error) for limit in self._limits)

    def expression(self) -> str:
        return f"both({', '.join(limit.expression() for limit in self._limits)})"


def _told(limits: Iterable[CallLimit]) -> str:
    return ", ".join(map(repr, limits))


def _of_quota(limit: object) -> str:
    """What an error says besides, where a quota or a budget is given."""
    if isinstance(limit, CallLimit) or not isinstance(limit, Limit):
        return ""
    kind = "quota" if hasattr(limit, "deposit") else "budget"
    return f"; a {kind} can't be joined" if hasattr(limit, "draw") else ""


def both(first: CallLimit, second: CallLimit, *others: CallLimit) -> CallLimit:
    """Returns a limit that asks all of these, at most four: either all admit a call or grant a retry, or what those
    before gave comes back at once. They are asked in their order. Put breakers and throttles last: a probe that a
    breaker admitted does not come back, nor does what a throttle counted. Buckets need the same `cost` and
    `timeout_cost`.

    >>> from hikebox import Breaker, InFlight, Throttle, spaced
    >>> both(InFlight.envoy(), Breaker(5, spaced(30)), Throttle.google())
    <both(InFlight(3, 0.2), Breaker(5, spaced(30)), Throttle(2, 60))>
    """
    limits: List[CallLimit] = []
    for limit in (first, second, *others):
        if not isinstance(limit, CallLimit) or not limit.parts():
            wanted = "a Bucket, an InFlight, a Breaker, a Throttle or an Adaptive"
            raise TypeError(f"both: expected {wanted}, got {limit!r}{_of_quota(limit) or of_pace(limit)}")
        limits += limit.parts()
    twice = [limit for index, limit in enumerate(limits) if any(limit is other for other in limits[:index])]
    if twice:
        raise TermsError(f"both: expected limits that differ, got {twice[0]!r} twice")
    if len(limits) > _MOST:
        raise TermsError(f"both: expected at most {_MOST} limits, got {len(limits)}")
    return Both(limits)
