"""What a storm is played with, in the engine's units: whole numbers and milliseconds."""

from __future__ import annotations

from typing import Any, Dict, List, NamedTuple, Optional, Tuple, Union

from .._engine.calls import ON_BUDGET, ON_QUOTA
from .._engine.storms import Phase, Population, Storm
from ..budgets.terms import Terms
from ..errors import StormError, shown
from ..policy import Policy
from ..limits.terms import LimitTerms
from .populations import MAX_PATIENCE, Clients, look_at_shares

__all__ = [
    "MAX_SEED",
    "RANGES",
    "SCENARIOS",
    "TIMES",
    "Limited",
    "Parameters",
    "RateSpan",
    "Slow",
    "Span",
    "limit_text",
    "look_at_picture",
    "plural",
    "tickets_text",
]

#: The most requests of a storm, and the most windows after the first.
MAX_REQUESTS, MAX_WINDOWS = 1_048_576, 65_536
#: The most spans with a rate of their own.
MAX_SPANS = 8
MAX_SEED = 2**64 - 1
_HOUR = 3_600_000

#: From where to where each number is.
RANGES: Dict[str, Tuple[int, int]] = {
    "rate": (1, 1_000_000),
    "together": (1, 1_000_000),
    "seconds": (1, 3600),
    "capacity": (1, 1_000_000),
    "patience": (1, _HOUR),
    "queue": (0, 1_048_576),
    "replicas": (1, 4),
    "down": (1, 4),
    "window": (1, _HOUR),
    "until": (0, 2 * _HOUR),
    "calls": (1, 2**32),
    "words": (0, MAX_SEED),
}
#: Those of them that are milliseconds.
TIMES = ("patience", "window", "until")


#: What retries draw on: None, the limit of a budget, the terms of a quota, or a limit of another system.
Limited = Union[None, int, Terms, LimitTerms]


class Span(NamedTuple):
    """From a moment to before another, in milliseconds."""

    begins: int
    ends: int


class RateSpan(NamedTuple):
    """A span in which so many requests a second come, in milliseconds."""

    begins: int
    ends: int
    rate: int


class Slow(NamedTuple):
    """A brown-out: when, and at how many hundredths of its capacity the peer works then."""

    begins: int
    ends: int
    percent: int


class Parameters(NamedTuple):
    """The parameters of a storm, as `zsched storm` has them."""

    rate: int = 800
    together: int = 1
    seconds: int = 60
    capacity: int = 1000
    patience: int = 500
    #: Calls that may wait at a replica; `capacity` is what a replica does, too.
    queue: int = 5000
    replicas: int = 1
    outage: Span = Span(10_000, 20_000)
    #: How many replicas refuse calls in the outage; None for all.
    down: Optional[int] = None
    slow: Optional[Slow] = None
    window: int = 1000
    until: Optional[int] = None
    calls: int = 16_777_216
    words: int = 0
    #: What retries draw on.
    tickets: Limited = None
    #: The spans with a rate of their own, in their order.
    rates: Tuple[RateSpan, ...] = ()
    #: The populations of clients beside the first one.
    beside: Tuple[Clients, ...] = ()
    #: The moment of each request, in the place of the rate and its spans, of `together` and of `seconds`.
    arrivals: Tuple[int, ...] = ()

    @property
    def last(self) -> int:
        """The moment after which nothing is played."""
        if self.until is not None:
            return self.until
        if self.arrivals:
            return min(self.arrivals[-1] + 60_000, RANGES["until"][1])
        return self.seconds * 1000 + 60_000

    @property
    def over(self) -> int:
        """The moment from which on the peer is well again, and no surge comes."""
        return max(self.outage.ends, self.slow.ends if self.slow else 0, *(surge.ends for surge in self.surges))

    @property
    def surges(self) -> List[RateSpan]:
        """The spans with a greater rate than the storm's."""
        return [span for span in self.rates if span.rate > self.rate]

    @property
    def away(self) -> int:
        """How many replicas refuse calls in the outage."""
        return self.replicas if self.down is None else self.down

    @property
    def whole_capacity(self) -> int:
        """The calls a second that all replicas can do."""
        return self.capacity * self.replicas

    def capacity_at(self, moment: int) -> float:
        """The same at a moment."""
        slow, whole = self.slow, self.whole_capacity
        return whole * slow.percent / 100 if slow and slow.begins <= moment < slow.ends else whole

    @property
    def denies_first_calls(self) -> bool:
        """Whether requests may be denied their first call."""
        return isinstance(self.tickets, LimitTerms) and self.tickets.denies_first_calls

    def populations(self, policy: Policy) -> List[Clients]:
        """All populations, the first one with this policy; none where there is only that one."""
        if not self.beside:
            return []
        first = Clients(100 - sum(each.share for each in self.beside), policy, None, True)
        return [each._replace(patience=self.patience_of(each)) for each in (first, *self.beside)]

    def patience_of(self, clients: Clients) -> int:
        """How long these clients wait."""
        return self.patience if clients.patience is None else clients.patience

    def weather(self) -> List[Tuple[int, int, str, str]]:
        """The brown-out, the outage and the surges, where there are such: from when to when, in words, and their
        paint."""
        down = "peer down" if self.away == self.replicas else f"{self.away} of {self.replicas} replicas down"
        spans = [(self.outage.begins, self.outage.ends, down, "away")]
        spans += [(begins, ends, f"{rate:,} requests/s", "shade") for begins, ends, rate in self.surges]
        if self.slow is not None:
            spans.insert(0, (self.slow.begins, self.slow.ends, f"peer at {self.slow.percent} %", "shade"))
        return [span for span in spans if span[0] < span[1]]

    def checked(self) -> Parameters:
        """The same, where all are within their ranges; otherwise a `StormError` names the first that is not."""
        for name in RANGES:
            number = getattr(self, name)
            if number is not None:
                _look_at(name, number, *RANGES[name])
        _look_at("down", self.away, 1, self.replicas)
        self._look_at_rates()
        self._look_at_arrivals()
        look_at_shares([each.share for each in self.beside])
        for index, each in enumerate(self.beside):
            _look_at(f"beside[{index}].patience", self.patience_of(each), 1, MAX_PATIENCE)
        for name, span in (("outage", self.outage), ("slow", self.slow or Span(0, 0))):
            for end in span[:2]:
                _look_at(name, end, 0, _HOUR)
            if span[0] > span[1]:
                raise StormError(name, f"it ends at {span[1]} ms, before it begins at {span[0]} ms")
        if self.slow is not None and not 1 <= self.slow.percent <= 100:
            raise StormError("slow", f"expected 1 to 100 % of the capacity, got {self.slow.percent}")
        if self.last // self.window > MAX_WINDOWS:
            asked = f"{self.last} ms by windows of {self.window} ms are {self.last // self.window + 1} lines"
            raise StormError("window", f"{asked}, and a report has at most {MAX_WINDOWS + 1}")
        return self

    def _look_at_rates(self) -> None:
        """Looks at the spans with a rate of their own, and at how many requests come in all."""
        if len(self.rates) > MAX_SPANS:
            raise StormError("rates", f"expected at most {MAX_SPANS} spans, got {len(self.rates)}")
        last = 0
        for begins, ends, rate in self.rates:
            for end in (begins, ends):
                _look_at("rates", end, 0, _HOUR)
            if begins >= ends:
                raise StormError("rates", f"expected a span that ends after it begins, got {begins}..{ends}")
            if begins < last:
                raise StormError("rates", f"expected spans in their order, got {begins}..{ends} after one until {last}")
            if not 0 <= rate <= RANGES["rate"][1]:
                raise StormError("rates", f"expected 0 to {RANGES['rate'][1]} requests a second, got {shown(rate)}")
            last = ends
        if self.requests_by_rate > MAX_REQUESTS:
            spans = " and the spans" if self.rates else ""
            asked = f"{self.rate} a second{spans} for {self.seconds} s are {self.requests_by_rate} requests"
            raise StormError("rates" if spans else "rate", f"{asked}, and a storm has at most {MAX_REQUESTS}")

    def _look_at_arrivals(self) -> None:
        """Looks at the moments of requests."""
        if len(self.arrivals) > MAX_REQUESTS:
            raise StormError("arrivals", f"expected at most {MAX_REQUESTS} moments, got {len(self.arrivals)}")
        last, most = 0, RANGES["until"][1]
        for index, moment in enumerate(self.arrivals):
            if not last <= moment <= most:
                raise StormError(f"arrivals[{index}]", f"expected {last} to {most} ms, got {shown(moment)}")
            last = moment

    @property
    def requests(self) -> int:
        """How many requests come in all, where the storm doesn't end before."""
        return len(self.arrivals) or self.requests_by_rate

    @property
    def requests_by_rate(self) -> int:
        """The same of those that come by the rate."""
        end = self.seconds * 1000
        begins = thousandths = 0
        for until, rate in [*self.phases(), (end, self.rate)]:
            thousandths += rate * max(0, min(until, end) - begins)
            begins = until
        return -(-thousandths // 1000)

    def phases(self) -> List[Tuple[int, int]]:
        """The phases of the rate: until which moment, and so many requests a second. The storm's rate has one before
        each span that does not begin where another ends."""
        found: List[Tuple[int, int]] = []
        last = 0
        for begins, ends, rate in self.rates:
            found += [(begins, self.rate)] * (last < begins)
            found.append((ends, rate))
            last = ends
        return found

    def for_engine(self, of: int = 0) -> Storm:
        """The same as the engine takes them. `of` is the population that the report is on, from 1; 0 is all."""
        numbers: Dict[str, Any] = {name: getattr(self, name) for name in RANGES if name not in ("until", "down")}
        made = Storm(until=self.last, down=self.away, period=1, **numbers)
        made.outage_from, made.outage_to = self.outage
        if self.slow is not None:
            made.slow_from, made.slow_to, made.slow_percent = self.slow
        phases = self.phases()
        made.phase_count = len(phases)
        made.phases[: len(phases)] = [Phase(*phase) for phase in phases]
        for place, each in zip(("second", "third", "fourth"), self.beside):
            setattr(made, place, Population(each.share, self.patience_of(each), each.is_limited))
        made.of = of
        if isinstance(self.tickets, LimitTerms):
            self.tickets.put_in(made)
        elif isinstance(self.tickets, Terms):
            made.draws_on = ON_QUOTA
            made.reserve, made.share, made.period = self.tickets
        elif self.tickets is not None:
            made.draws_on, made.limit = ON_BUDGET, self.tickets
        return made


#: What the three scenarios change.
SCENARIOS: Dict[str, Parameters] = {
    "outage": Parameters(),
    "herd": Parameters(10_000, 10_000, 1, 1000, 1000, 500, outage=Span(0, 0)),
    "brown-out": Parameters(outage=Span(0, 0), slow=Slow(10_000, 20_000, 50)),
}


def plural(count: int, noun: str) -> str:
    """What so many are called.

    >>> plural(1, "request"), plural(2, "request")
    ('request', 'requests')
    """
    return noun if count == 1 else f"{noun}s"


def tickets_text(tickets: Limited) -> str:
    """What the retries of a storm draw on, in words.

    >>> tickets_text(None), tickets_text(100), tickets_text(Terms(10, 100, 1000))
    ('no limit', 'a budget of 100', 'a quota: 10 and 10 % of the requests in each 1 s')
    """
    if tickets is None:
        return "no limit"
    if isinstance(tickets, LimitTerms):
        return tickets.text
    if isinstance(tickets, Terms):
        period = f"{tickets.period / 1000:.12g} s"
        return f"a quota: {tickets.reserve:,} and {tickets.share / 10:.12g} % of the requests in each {period}"
    return f"a budget of {tickets:,}"


def limit_text(tickets: Limited, swept: str = "") -> str:
    """The same as a title has it. The number that is swept is not said.

    >>> limit_text(None), limit_text(5000), limit_text(Terms(10, 100, 1000))
    ('no limit', 'budget of 5,000', 'quota 10/10%/1s')
    >>> limit_text(5000, "budget"), limit_text(Terms(10, 100, 1000), "share")
    ('a budget', 'quota 10/a share/1s')
    """
    if tickets is None:
        return "no limit"
    if isinstance(tickets, LimitTerms):
        return tickets.text
    if isinstance(tickets, Terms):
        reserve = "a reserve" if swept == "reserve" else tickets.reserve
        share = "a share" if swept == "share" else f"{tickets.share / 10:.12g}%"
        return f"quota {reserve}/{share}/{tickets.period / 1000:.12g}s"
    return "a budget" if swept == "budget" else f"budget of {tickets:,}"


def look_at_picture(width: object, title: object) -> None:
    """Raises a `TypeError` where a picture can't have this width or title."""
    if isinstance(width, bool) or not isinstance(width, int):
        raise TypeError(f"width: expected a whole number, got {width!r}")
    if title is not None and not isinstance(title, str):
        raise TypeError(f"title: expected a text, got {shown(title)}")


def _look_at(name: str, number: int, least: int, most: int) -> None:
    if not least <= number <= most:
        is_time = name in (*TIMES, "outage", "slow", "rates") or name.endswith(".patience")
        unit = " ms" if is_time else ""
        raise StormError(name, f"expected {least} to {most}{unit}, got {shown(number)}")
