"""Storms: what a policy does to a peer that fails for a while, when thousands of calls fail together."""

from __future__ import annotations

import json
from dataclasses import dataclass
from typing import Any, Dict, Iterable, Iterator, List, NamedTuple, Optional, Sequence, Tuple, Union

from .._engine.calls import MAX_TICKETS
from .._engine.storms import Totals, play_storm
from .._time import Duration, seconds as in_milliseconds
from ..budget import Budget
from ..errors import PolicyError, StormError, shown
from ..limits.limit import CallLimit
from ..limits.spellings import limit_of
from ..policy import Policy
from ..quota import Quota
from .parameters import MAX_REQUESTS, MAX_SEED, Limited, Parameters, RateSpan, Slow, Span, look_at_picture, plural
from .populations import MAX_PATIENCE, Clients, Population, percent_of

__all__ = ["Population", "PopulationReport", "Storm", "StormRow", "StormTotals", "storm"]

#: What a storm is played with where nothing is said, and the times of that in seconds.
_PLAIN = Parameters()
_PATIENCE, _WINDOW = _PLAIN.patience / 1000, _PLAIN.window / 1000
_OUTAGE = _PLAIN.outage.begins / 1000, _PLAIN.outage.ends / 1000


class StormRow(NamedTuple):
    """A window of a storm."""

    #: When it begins, in milliseconds since the first request.
    from_ms: int
    #: The requests that began in it.
    requests: int
    #: How many of these succeeded in the end.
    won: int
    #: The retries that began in it.
    retries: int
    #: The calls that ended in it with success.
    succeeded: int
    #: The calls that the peer refused in its outage.
    refused: int
    #: The calls that the peer shed because its queue was full.
    shed: int
    #: The calls that their clients gave up.
    late: int
    #: The calls in the queues of the peer at the end of the window.
    waiting: int


@dataclass(frozen=True)
class StormTotals:
    """The totals of a storm. `requests` is `won + lost + denied + open`."""

    requests: int
    #: Requests whose last call succeeded.
    won: int
    #: Requests whose last call failed because the policy was done.
    lost: int
    #: Requests whose policy went on, but for which there was no ticket; and those that a limit refused before their
    #: first call.
    denied: int
    #: Requests that were still under way when the storm ended.
    open: int
    #: Calls: requests and retries that began. A request that a limit refused makes none.
    calls: int
    #: Calls per request, in hundredths.
    hundredths: int
    #: The most calls that began in one window, with the requests that were denied their first call; and when that
    #: window begins.
    most_calls: int
    most_from_ms: int
    #: The tickets drawn.
    tickets: int
    #: How long successful requests took: the median, the 99th percentile and the slowest; None if none succeeded.
    p50_ms: Optional[int]
    p99_ms: Optional[int]
    slowest_ms: Optional[int]
    #: When the storm recovered: the start of the first window after the outage and the brown-out from which on 99 in
    #: 100 requests of every window succeed. None if it did not.
    recovered_ms: Optional[int]
    #: Whether the simulation stopped after `calls` calls.
    cut: bool

    @property
    def calls_per_request(self) -> float:
        """Calls per request, to the nearest hundredth."""
        return self.hundredths / 100


class _Report:
    """Rows and totals as texts."""

    rows: Tuple[StormRow, ...]
    totals: StormTotals

    def to_csv(self) -> str:
        """The rows as CSV with a line of names, as `zsched storm --csv` prints them."""
        names = ",".join(("from", *StormRow._fields[1:]))
        return "".join(f"{line}\n" for line in [names, *(",".join(map(str, row)) for row in self.rows)])

    def _told(self) -> List[str]:
        totals = self.totals
        requests, calls = plural(totals.requests, "request"), plural(totals.calls, "call")
        return [f"{totals.requests} {requests}", f"{totals.won} succeeded", f"{totals.calls} {calls}"]

    def totals_dict(self) -> Dict[str, Any]:
        """The totals by their names in JSON."""
        return {name.replace("_ms", ""): value for name, value in vars(self.totals).items()}


@dataclass(frozen=True, repr=False)
class PopulationReport(_Report):
    """What became of the requests of one population. `waiting` is 0 in its rows, since the queues are everyone's."""

    #: Its share of the requests, such as 0.3.
    share: float
    policy: Policy
    #: How long its clients wait for a call, in milliseconds.
    patience_ms: int
    #: Whether they draw on the storm's limit. The first population, of the storm's own policy, always
    #: does: it is True of that one also where nothing limits the storm.
    limited: bool
    rows: Tuple[StormRow, ...]
    totals: StormTotals

    def __repr__(self) -> str:
        said = ", ".join(self._told())
        return f"<PopulationReport of {self.share:.2g} of the requests, {said}: {self.policy!r}>"


@dataclass(frozen=True, repr=False)
class Storm(_Report):
    """A storm that was played. `str` prints it as a table, and a notebook shows it as a picture."""

    policy: Policy
    #: What it was played with, in whole milliseconds.
    parameters: Parameters
    rows: Tuple[StormRow, ...]
    totals: StormTotals

    @property
    def populations(self) -> Tuple[PopulationReport, ...]:
        """The reports on each population, the first one first; none where all requests are of one. The storm is played
        again for each of them when they are first asked for."""
        kept: Optional[Tuple[PopulationReport, ...]] = vars(self).get("_populations")
        if kept is None:
            # (not by functools, whose lock would have several storms wait for one another)
            kept = vars(self)["_populations"] = tuple(self._play_populations())
        return kept

    def _play_populations(self) -> Iterator[PopulationReport]:
        parameters = self.parameters
        for of, each in enumerate(parameters.populations(self.policy), start=1):
            patience = parameters.patience_of(each)
            played = _played(self.policy, parameters, of)
            yield PopulationReport(each.share / 100, each.policy, patience, each.is_limited, *played)

    def to_json(self) -> str:
        """Returns the rows and the totals of all requests as JSON on one line, as `zsched storm --json` prints it. If
        there are several populations, it has those of each too."""
        told: Dict[str, Any] = {"windows": self.rows, "totals": self.totals_dict()}
        if self.populations:
            told["populations"] = [
                {"share": round(100 * each.share), "windows": each.rows, "totals": each.totals_dict()}
                for each in self.populations
            ]
        if self.parameters.arrivals:
            told["arrivals"] = len(self.parameters.arrivals)
        return json.dumps(told, separators=(",", ":"))

    def svg(self, *others: Storm, width: int = 760, detail: bool = False, title: Optional[str] = None) -> str:
        """Returns the picture as SVG of this width. Other storms are drawn beside it on the same scales. `detail` shows
        why calls failed. `title` replaces the policy that the storms share."""
        from .picture import storm_picture

        for other in others:
            if not isinstance(other, Storm):
                raise TypeError(f"svg: expected storms, got {shown(other)}")
        look_at_picture(width, title)
        return storm_picture([self, *others], width=width, detail=detail, title=title)

    def _repr_svg_(self) -> str:
        return self.svg()

    def plot(self, ax: Any = None) -> Any:
        """Draws the calls over time with matplotlib (the extra `plot` of the package), on these axes or on those of a
        new figure with a legend. Returns the axes."""
        from .plot import plot

        return plot(self, ax)

    def __str__(self) -> str:
        from .texts import table

        return table(self)

    def __repr__(self) -> str:
        said = self._told()
        if self.parameters.weather():
            from .texts import recovery_mark

            recovered = self.totals.recovered_ms
            said.append(recovery_mark(self)[1] if recovered is None else f"back at {recovered} ms")
        return f"<Storm of {', '.join(said)}: {self.policy!r}>"


def storm(
    policy: Union[Policy, str, bytes, Dict[str, Any]],
    *,
    rate: int = _PLAIN.rate,
    rates: Sequence[Tuple[Duration, Duration, int]] = (),
    together: int = _PLAIN.together,
    seconds: int = _PLAIN.seconds,
    capacity: int = _PLAIN.capacity,
    patience: Duration = _PATIENCE,
    queue: int = _PLAIN.queue,
    replicas: int = _PLAIN.replicas,
    outage: Optional[Tuple[Duration, Duration]] = _OUTAGE,
    down: Optional[int] = None,
    slow: Optional[Tuple[Duration, Duration, float]] = None,
    window: Duration = _WINDOW,
    until: Optional[Duration] = None,
    calls: int = _PLAIN.calls,
    seed: int = _PLAIN.words,
    limit: Union[None, int, str, Budget, Quota, CallLimit] = None,
    beside: Sequence[Population] = (),
    arrivals: Optional[Iterable[Duration]] = None,
) -> Storm:
    """Simulates many requests under one policy, on a peer that fails for a while. It makes no call and does not wait.

    `rate`, `together`, `seconds`
        How many requests come in a second, how many of them at once, and for how many seconds: at most 1,048,576
        requests in all.
    `rates`
        Spans in which requests come at a rate of their own: at most 8, in their order, such as `[(10, 15, 2400)]` for a
        surge from 10 to 15 s. In between `rate` holds.
    `capacity`, `queue`
        How many calls the peer does in a second, one after another, and how many may wait in its queue. It sheds the
        others.
    `replicas`
        How many replicas the peer is, from 1 to 4. Each has the capacity and the queue; calls go to them in turn.
    `patience`
        How long a client waits for a call before it gives up. The peer does the call all the same.
    `outage`
        When the peer refuses all calls: from when to when, or None for no outage.
    `down`
        How many replicas refuse calls in the outage. None is all of them.
    `slow`
        A brown-out: from when to when the peer works at a share of its capacity, such as `(10, 20, 0.5)`.
    `window`
        The length of a row of the result.
    `until`
        When the storm ends even if requests are under way. None is a minute after `seconds`.
    `calls`
        The simulation stops after this many calls.
    `seed`
        The seed of the random numbers that pick jitter.
    `limit`
        What limits the retries: None, a number of tickets, or the terms of a `Budget` or a `Quota`, from which no
        ticket is drawn. Requests count when they come, and no ticket comes back, whatever the quota's options are.
        Or the terms of a `Bucket`, an `InFlight`, a `Breaker`, a `Throttle` or an `Adaptive`, which requests also ask
        before their first call; a call that its client gave up costs what a `TimeoutError` does. The limit itself stays
        as it is. A text such as `"grpc:100/100"` spells one as the command line does.
    `beside`
        Up to three populations of clients beside those of `policy`, each with a share of the requests and a policy of
        its own. The storm's `populations` has a report on each.
    `arrivals`
        The moments at which requests come, one for each, in the place of `rate`, `rates`, `together` and `seconds`: at
        most 1,048,576, none before the one in front of it and none after two hours. `until` is then a minute after the
        last of them.

    Times are seconds, or a `timedelta`. A value out of range raises a `StormError`.

    >>> from hikebox import Quota, exponential, recurs
    >>> policy = recurs(8) & exponential(0.1, 2).cap(10).jittered(0, 1)
    >>> totals = storm(policy).totals
    >>> totals.calls_per_request, totals.recovered_ms
    (7.62, None)
    >>> totals = storm(policy, limit=Quota(reserve=10, share=0.1, per=1)).totals
    >>> totals.calls_per_request, totals.recovered_ms
    (1.02, 20000)
    >>> beside = storm(policy, limit=Quota(reserve=10, share=0.1, per=1), beside=[Population(0.3, policy)])
    >>> [(each.share, each.limited, each.totals.requests) for each in beside.populations]
    [(0.7, True, 33600), (0.3, False, 14400)]
    """
    parameters = Parameters(
        rate=_whole("rate", rate),
        together=_whole("together", together),
        seconds=_whole("seconds", seconds),
        capacity=_whole("capacity", capacity),
        patience=_time("patience", patience),
        queue=_whole("queue", queue),
        replicas=_whole("replicas", replicas),
        outage=Span(0, 0) if outage is None else Span(*(_time("outage", end) for end in _parts("outage", outage, 2))),
        down=None if down is None else _whole("down", down),
        slow=None if slow is None else _slow(slow),
        window=_time("window", window),
        until=None if until is None else _time("until", until),
        calls=_whole("calls", calls),
        words=_whole("seed", seed, MAX_SEED),
        tickets=_tickets(limit),
        rates=_rate_spans(rates),
        beside=_beside(beside),
    )
    if arrivals is not None:
        parameters = parameters._replace(arrivals=_arrivals(arrivals, parameters))
    return play(Policy.of(policy), parameters.checked())


def play(policy: Policy, parameters: Parameters) -> Storm:
    """Plays a storm whose parameters were checked."""
    return Storm(policy, parameters, *_played(policy, parameters))


def _played(policy: Policy, parameters: Parameters, of: int = 0) -> Tuple[Tuple[StormRow, ...], StormTotals]:
    """The rows and the totals of a population, from 1, or those of all requests."""
    # (with handles of their own, since other threads go on meanwhile)
    policies = [each.plan.share() for each in (policy, *(clients.policy for clients in parameters.beside))]
    windows, totals = play_storm(policies, parameters.for_engine(of), parameters.arrivals)
    return tuple(StormRow(*window) for window in windows), _totals(totals)


def _totals(found: Totals) -> StormTotals:
    has_won = bool(found.won)
    return StormTotals(
        requests=found.requests,
        won=found.won,
        lost=found.lost,
        denied=found.denied,
        open=found.open,
        calls=found.calls,
        hundredths=found.hundredths,
        most_calls=found.most_calls,
        most_from_ms=found.most_from,
        tickets=found.tickets,
        p50_ms=found.p50 if has_won else None,
        p99_ms=found.p99 if has_won else None,
        slowest_ms=found.slowest if has_won else None,
        recovered_ms=found.recovered if found.recovers else None,
        cut=found.cut,
    )


def _whole(name: str, number: Any, most: Optional[int] = None) -> int:
    if isinstance(number, bool) or not isinstance(number, int):
        raise TypeError(f"{name}: expected a whole number, got {number!r}")
    if most is not None and not 0 <= number <= most:
        raise StormError(name, f"expected 0 to {most}, got {shown(number)}")
    return number


def _time(name: str, duration: Duration) -> int:
    try:
        return in_milliseconds(duration)
    except PolicyError as error:
        raise StormError(name, error.hint) from None
    except TypeError as error:
        raise TypeError(f"{name}: {error}") from None


def _parts(name: str, given: Any, count: int) -> List[Any]:
    if not isinstance(given, (tuple, list)) or len(given) != count:
        third = "requests a second" if name == "rates" else "share of the capacity"
        wanted = "(from, to)" if count == 2 else f"(from, to, {third})"
        raise TypeError(f"{name}: expected {wanted}, got {given!r}")
    return list(given)


def _arrivals(arrivals: Any, parameters: Parameters) -> Tuple[int, ...]:
    if isinstance(arrivals, (str, bytes)) or not isinstance(arrivals, Iterable):
        raise TypeError(f"arrivals: expected a list of moments, got {shown(arrivals)}")
    for name in ("rate", "rates", "together", "seconds"):
        if getattr(parameters, name) != getattr(_PLAIN, name):
            raise StormError("arrivals", f"expected no {name} beside it, got {shown(getattr(parameters, name))}")
    moments = tuple(_time(f"arrivals[{index}]", moment) for index, moment in enumerate(arrivals))
    if not moments:
        raise StormError("arrivals", f"expected 1 to {MAX_REQUESTS} moments, got none")
    return moments


def _rate_spans(rates: Any) -> Tuple[RateSpan, ...]:
    if not isinstance(rates, Iterable):
        raise TypeError(f"rates: expected a list of (from, to, requests a second), got {rates!r}")
    return tuple(map(_rate_span, rates))


def _rate_span(span: Any) -> RateSpan:
    begins, ends, rate = _parts("rates", span, 3)
    return RateSpan(_time("rates", begins), _time("rates", ends), _whole("rates", rate))


def _slow(slow: Any) -> Slow:
    begins, ends, share = _parts("slow", slow, 3)
    if isinstance(share, bool) or not isinstance(share, (int, float)):
        raise TypeError(f"slow: expected a share of the capacity, got {share!r}")
    if not 0.01 <= share <= 1:
        raise StormError("slow", f"expected a share of the capacity from 0.01 to 1, got {shown(share)}")
    percent = round(share * 100)
    if abs(share * 100 - percent) > 1e-9:
        raise StormError("slow", f"expected a share in whole hundredths, got {share!r}")
    return Slow(_time("slow", begins), _time("slow", ends), percent)


def _beside(populations: Any) -> Tuple[Clients, ...]:
    if not isinstance(populations, (tuple, list)) or not all(isinstance(each, Population) for each in populations):
        raise TypeError(f"beside: expected a list of Population, got {populations!r}")
    return tuple(_clients(f"beside[{index}]", each) for index, each in enumerate(populations))


def _clients(place: str, population: Population) -> Clients:
    if not isinstance(population.limited, bool):
        raise TypeError(f"{place}.limited: expected True or False, got {population.limited!r}")
    share = percent_of(f"{place}.share", population.share)
    patience = None if population.patience is None else _waits(f"{place}.patience", population.patience)
    try:
        policy = Policy.of(population.policy)
    except PolicyError as error:
        raise StormError(f"{place}.policy", str(error)) from None
    except TypeError as error:
        raise TypeError(f"{place}.policy: {error}") from None
    return Clients(share, policy, patience, population.limited)


def _waits(place: str, patience: Duration) -> int:
    try:
        waits = in_milliseconds(patience)
    except PolicyError:
        waits = 0
    except TypeError as error:
        raise TypeError(f"{place}: {error}") from None
    if not 1 <= waits <= MAX_PATIENCE:
        raise StormError(place, f"expected 0.001 to {MAX_PATIENCE // 1000} seconds, got {shown(patience)}")
    return waits


def _tickets(limit: Any) -> Limited:
    """The terms by which tickets are given."""
    if isinstance(limit, CallLimit):
        return limit.on_storm()
    if isinstance(limit, str):
        return limit_of(limit)
    if isinstance(limit, Quota):
        return limit.terms
    if isinstance(limit, Budget):
        return limit.limit
    if limit is None:
        return None
    if not isinstance(limit, (int, float)):
        wanted = "a number, a Budget, a Quota, another limit but no pace"
        raise TypeError(f'limit: expected {wanted}, or a text as "grpc:100/100", got {shown(limit)}')
    return _whole("limit", limit, MAX_TICKETS)
