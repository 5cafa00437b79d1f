"""The terms of limits, as the engine takes them for a storm."""

from __future__ import annotations

from typing import Any, Optional, Tuple

from .._engine.calls import ON_ADAPTIVE, ON_BREAKER, ON_BUCKET, ON_IN_FLIGHT, ON_THROTTLE
from .._engine.limits import NO_MOST
from .._values import NamedTuple

__all__ = ["NO_MOST", "LimitTerms", "adaptive", "breaker", "bucket", "in_flight", "throttle"]


class LimitTerms(NamedTuple):
    """A limit that requests ask before their first call and for each retry."""

    #: As a command line spells it.
    text: str
    #: What the engine calls it, and its numbers by their names in the engine.
    draws_on: int
    numbers: Tuple[Tuple[str, int], ...]
    #: The open times of a breaker, in milliseconds.
    times: Tuple[int, ...] = ()

    @property
    def denies_first_calls(self) -> bool:
        """Whether it may refuse a request its first call."""
        is_bulkhead = self.draws_on == ON_IN_FLIGHT and dict(self.numbers)["most"] < NO_MOST
        return is_bulkhead or self.draws_on in (ON_ADAPTIVE, ON_BREAKER, ON_THROTTLE)

    def put_in(self, storm: Any) -> None:
        """Puts it into the engine's parameters of a storm."""
        storm.draws_on = self.draws_on
        for name, number in self.numbers:
            setattr(storm, name, number)
        if self.times:
            storm.open_count = len(self.times)
            storm.open_times[: len(self.times)] = self.times


def _made(text: str, draws_on: int, times: Tuple[int, ...] = (), **numbers: int) -> LimitTerms:
    return LimitTerms(text, draws_on, tuple(numbers.items()), times)


def bucket(
    capacity: int, floor: int, cost: int, late: int, debit: int, credit: int, refund: bool, text: Optional[str] = None
) -> LimitTerms:
    """A bucket, in thousandths of a token."""
    spelt = "/".join(map(str, (capacity, floor, cost, late, debit, credit)))
    return _made(
        text or f"bucket:{spelt}{'+refund' if refund else ''}",
        ON_BUCKET,
        bucket_capacity=capacity,
        bucket_floor=floor,
        bucket_debit=debit,
        bucket_credit=credit,
        bucket_refund=int(refund),
        cost=cost,
        late_cost=late,
    )


def in_flight(least: int, share: int, most: int = NO_MOST) -> LimitTerms:
    """A bound on the retries in flight, and on the requests; the share in thousandths."""
    text = f"inflight:{least}/{share}" + ("" if most == NO_MOST else f"/{most}")
    return _made(text, ON_IN_FLIGHT, least=least, share=share, most=most)


def breaker(failures: int, results: int, probes: int, deadline: int, times: Tuple[int, ...]) -> LimitTerms:
    """A breaker, in milliseconds; `results` is 0 for failures in a row."""
    text = f"breaker:{failures}{f'/{results}' if results else ''}/{probes}/{deadline}"
    return _made(text, ON_BREAKER, times, failures=failures, results=results, probes=probes, deadline=deadline)


def adaptive(least: int, most: int, first: int, backoff: int) -> LimitTerms:
    """An adaptive limit, the back-off in thousandths."""
    text = f"adaptive:{least}/{most}/{first}/{backoff}"
    return _made(text, ON_ADAPTIVE, least=least, most=most, first=first, backoff=backoff)


def throttle(ratio: int, period: int) -> LimitTerms:
    """A throttle, the ratio in thousandths and the period in milliseconds."""
    return _made(f"throttle:{ratio}/{period}", ON_THROTTLE, ratio=ratio, period=period)
