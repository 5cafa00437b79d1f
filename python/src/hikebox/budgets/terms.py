"""The terms of quotas, and what `Quota` and `LeasedQuota` have in common."""

from __future__ import annotations

from typing import Optional

from .._engine.calls import MAX_SHARE, MAX_TICKETS, MIN_PERIOD
from .._time import Duration, seconds, seconds_text
from .._values import NamedTuple
from ..errors import PolicyError, TermsError, shown

__all__ = [
    "CountsRequests",
    "Terms",
    "count_of",
    "duration_of",
    "requests_of",
    "terms_of",
    "thousandths_of",
    "thousandths_text",
    "tickets_of",
]


class Terms(NamedTuple):
    """The terms of a quota, in the engine's units."""

    #: The tickets of each window regardless of traffic.
    reserve: int
    #: The thousandths of a ticket that each request adds to its window.
    share: int
    #: The length of a window in milliseconds.
    period: int

    def allowed(self, asked: int) -> int:
        """How many tickets a window of this many requests gives.

        >>> Terms(10, 200, 1000).allowed(4), Terms(10, 200, 1000).allowed(5)
        (10, 11)
        """
        from .._engine.leasing import quota_allows  # which leases alone need

        return quota_allows(self.reserve, self.share, asked)

    def changed(self, reserve: Optional[int], share: Optional[float]) -> Terms:
        """Returns the same with another reserve and share, if these are not None."""
        return Terms(
            self.reserve if reserve is None else _reserve_of(reserve),
            self.share if share is None else _share_of(share),
            self.period,
        )

    def __str__(self) -> str:
        return f"{self.reserve}, {thousandths_text(self.share)}, per={seconds_text(self.period)}"


class CountsRequests:
    """How a quota counts requests, and whether tickets come back to it."""

    __slots__ = ()

    _counts_successes: bool
    _returns_tickets: bool

    @property
    def counts_successes(self) -> bool:
        """Whether a call counts as a request when it succeeds, and not at its first attempt."""
        return self._counts_successes

    @property
    def returns_tickets(self) -> bool:
        """Whether a call that succeeds after retries hands the ticket of the last one back."""
        return self._returns_tickets

    def switches(self) -> str:
        """Those of the two that are on, as arguments."""
        return "".join(f", {name}=True" for name in ("counts_successes", "returns_tickets") if getattr(self, name))


def terms_of(reserve: int, share: float, per: Duration) -> Terms:
    """Returns the terms of a quota, or raises a `TermsError`.

    >>> from datetime import timedelta
    >>> terms_of(10, 0.25, timedelta(minutes=1))
    Terms(reserve=10, share=250, period=60000)
    """
    return Terms(_reserve_of(reserve), _share_of(share), _period_of(per))


def count_of(name: str, value: int, least: int, most: int) -> int:
    """Returns a whole number in this range, or raises a `TermsError`."""
    if isinstance(value, bool) or not isinstance(value, int):
        raise TypeError(f"{name}: expected a whole number, got {value!r}")
    if not least <= value <= most:
        raise TermsError(f"{name}: expected {least} to {most}, got {shown(value)}")
    return value


def requests_of(requests: int) -> int:
    """Returns a number of requests that can be counted at once, or raises a `TermsError`."""
    return tickets_of(requests, "requests", f"0 to {MAX_TICKETS} requests at once")


def _reserve_of(reserve: int) -> int:
    return tickets_of(reserve, "retries as the reserve", f"a reserve from 0 to {MAX_TICKETS} retries a window")


def tickets_of(number: int, of: str, bounds: str) -> int:
    """Returns a number of tickets, or raises an error that says of what, and from where to where."""
    if isinstance(number, bool) or not isinstance(number, int):
        raise TypeError(f"expected a whole number of {of}, got {number!r}")
    if not 0 <= number <= MAX_TICKETS:
        raise TermsError(f"expected {bounds}, got {shown(number)}")
    return number


def _share_of(share: float) -> int:
    told = "expected {} of {} retries a request (0.2 is one for every five)"
    return thousandths_of("a share", share, MAX_SHARE, told=told)


def thousandths_of(name: str, value: float, most: int, least: int = 0, told: str = "{}: expected {}") -> int:
    """Returns a number in thousandths, from `least` to `most` of them, or raises a `TermsError` that tells this.

    >>> thousandths_of("ratio", 0.1, 1000)
    100
    """
    if isinstance(value, bool) or not isinstance(value, (int, float)):
        raise TypeError(f"expected a number as {name}, got {value!r}")
    thousandths = round(value * 1000) if 0 <= value <= most else -1
    if not least <= thousandths <= most or (thousandths == 0 and value > 0):
        bounds = f"{least / 1000:g} to {most / 1000:.13g}" if least else f"0, or from 0.001 to {most / 1000:.13g}"
        raise TermsError(f"{told.format(name, bounds)}, got {shown(value)}")
    return thousandths


def thousandths_text(count: int) -> str:
    """What a person writes for so many thousandths.

    >>> thousandths_text(500_000), thousandths_text(2**40)
    ('500', '1099511627.776')
    """
    return repr(count // 1000 if count % 1000 == 0 else count / 1000)


def duration_of(name: str, duration: Duration) -> int:
    """Returns a duration in whole milliseconds, or raises a `TermsError`.

    >>> duration_of("the window", 0.1)
    100
    """
    try:
        return seconds(duration, name)
    except PolicyError as error:
        raise TermsError(error.hint) from None


def _period_of(per: Duration) -> int:
    period = duration_of("the window of a quota", per)
    if period < MIN_PERIOD:
        raise TermsError(f"expected a window of at least {MIN_PERIOD / 1000} s, got {per!r}")
    return period
