"""The stories of a peer: what it may live through, each as the parameters of a storm."""

from __future__ import annotations

from typing import List, NamedTuple, Optional, Tuple

from ..storms.parameters import Parameters, RateSpan, Slow, Span

__all__ = ["Story", "Weather", "stories_of", "weather_of"]

#: How many times as many requests come in a surge as usual, and at what per cent of its capacity a slow peer works.
_TIMES, _PERCENT = 3, 50


class Weather(NamedTuple):
    """When the peer, or a replica, is down; when it is slow; and when more requests come."""

    outage: Span
    slow: Slow
    surge: RateSpan


class Story(NamedTuple):
    """A storm, without a limit, and what happens in it."""

    name: str
    about: str
    parameters: Parameters


def weather_of(
    base: Parameters,
    outage: Optional[Span] = None,
    slow: Optional[Slow] = None,
    surge: Optional[RateSpan] = None,
) -> Weather:
    """What is given, and else a sixth of the time: from 10 to 20 s of a minute, and a surge of half as long.

    >>> weather_of(Parameters()).surge
    RateSpan(begins=10000, ends=15000, rate=2400)
    """
    begins, ends = base.seconds * 1000 // 6, base.seconds * 1000 // 3
    if surge is None:
        middle = (begins + ends) // 2
        surge = RateSpan(begins, middle, _TIMES * _usual_rate(base, begins, middle))
    return Weather(outage or Span(begins, ends), slow or Slow(begins, ends, _PERCENT), surge)


def _usual_rate(base: Parameters, begins: int, ends: int) -> int:
    """The requests a second of a span, rounded up."""
    thousandths = sum(rate * max(0, min(until, ends) - max(since, begins)) for since, until, rate in _paces(base))
    return -(-thousandths // (ends - begins))


def _paces(base: Parameters) -> List[Tuple[int, int, int]]:
    """From when to when requests come at which rate."""
    phases = [*base.phases(), (base.seconds * 1000, base.rate)]
    return [(since, until, rate) for (until, rate), since in zip(phases, [0, *(until for until, _ in phases)])]


def stories_of(base: Parameters, weather: Weather) -> List[Story]:
    """The four stories of a peer: an outage, a brown-out, a replica that is down, and a surge."""
    well = base._replace(outage=Span(0, 0), slow=None, down=None, tickets=None)
    outage, slow, surge = weather
    two = base.replicas == 1
    pair = well._replace(replicas=2, capacity=-(-base.capacity // 2)) if two else well
    halves = "the peer is two of half the capacity, and one" if two else f"one of the {base.replicas} replicas"
    return [
        Story("outage", f"the peer is down {_when(outage)}", well._replace(outage=outage).checked()),
        Story(
            "brown-out",
            f"it works at {slow.percent} % of its capacity {_when(Span(*slow[:2]))}",
            well._replace(slow=slow).checked(),
        ),
        Story("replica", f"{halves} is down {_when(outage)}", pair._replace(outage=outage, down=1).checked()),
        Story(
            "surge",
            f"{surge.rate:,} requests/s come {_when(Span(*surge[:2]))}",
            well._replace(rates=_with_surge(base.rates, surge)).checked(),
        ),
    ]


def _when(span: Span) -> str:
    return f"from {span.begins / 1000:.12g} to {span.ends / 1000:.12g} s"


def _with_surge(rates: Tuple[RateSpan, ...], surge: RateSpan) -> Tuple[RateSpan, ...]:
    """The spans with a rate of their own, where the surge stands in the place of what it covers.

    >>> _with_surge((RateSpan(0, 20, 5), RateSpan(30, 40, 6)), RateSpan(10, 12, 9))[:2]
    (RateSpan(begins=0, ends=10, rate=5), RateSpan(begins=10, ends=12, rate=9))
    """
    before = [RateSpan(begins, min(ends, surge.begins), rate) for begins, ends, rate in rates if begins < surge.begins]
    after = [RateSpan(max(begins, surge.ends), ends, rate) for begins, ends, rate in rates if ends > surge.ends]
    return (*before, surge, *after)
