"""What `hikebox advise` does: it plays the stories of a peer under many limits, and says which one to take."""

from __future__ import annotations

import argparse
import sys
import time
from contextlib import contextmanager
from typing import Any, Callable, Iterator, List, Optional

from ..advice.candidates import KINDS, candidates
from ..advice.picture import advice_picture
from ..advice.stories import weather_of
from ..advice.texts import advice_json, advice_text
from ..advice.trials import advise
from ..errors import StormError
from ..lab.cookbook import COOKBOOK
from ..policy import Policy
from ..storms.cores import Told, silent
from ..storms.parameters import Parameters, RateSpan, plural
from .status_line import StatusLine
from .log_options import with_log
from .storm_options import add_log, add_numbers, rates_of, slow_of, span_of

__all__ = ["add_advise_options", "advice_of"]

#: The numbers of a storm that are of the traffic and the peer.
_NUMBERS = ("rate", "together", "seconds", "capacity", "patience", "queue", "replicas", "words")
#: As so many spans a log is played, which leaves some for a surge.
_SPANS = 6
#: How long the bar is.
_BAR = 24


def add_advise_options(advise: argparse.ArgumentParser) -> None:
    """Adds the options that say how requests come, what the peer is, and what is tried."""
    add_numbers(advise, _NUMBERS)
    add_log(advise)
    outage = "when the peer, or a replica, is down (10000..20000 of a minute)"
    advise.add_argument("--outage", type=span_of, metavar="FROM..TO", help=outage)
    slow = "when the peer works at PERCENT of its capacity (10000..20000@50 of a minute)"
    advise.add_argument("--slow", type=slow_of, metavar="FROM..TO@PERCENT", help=slow)
    surge = "when more requests come, and how many a second (10000..15000 of a minute, three times as many)"
    advise.add_argument("--surge", type=_surge, metavar="FROM..TO@N", help=surge)
    kind = "try limits of this kind alone; you can give it again"
    advise.add_argument("--kind", choices=list(KINDS), action="append", default=[], help=kind)
    cookbook = "try the policies of the cookbook that make a bounded number of retries"
    advise.add_argument("--cookbook", action="store_true", help=cookbook)


def _surge(text: str) -> RateSpan:
    spans = rates_of(text)
    if len(spans) != 1:
        raise argparse.ArgumentTypeError(f"expected one span, as 10000..15000@2400, got {text!r}")
    return spans[0]


def advice_of(given: Any, policy_of: Callable[[str], Policy]) -> str:
    """Plays what the options ask for, and tells or draws the advice."""
    base = _base(given)
    weather = weather_of(base, given.outage, given.slow, given.surge)
    policies = _policies(given, policy_of)
    limits = candidates(base.patience, given.kind or KINDS)
    tried = [(policy, limit) for policy in policies for limit in limits]
    with _bars() as (told, searches):
        found = advise(tried, base, weather, told, searches)
    if given.svg is not None:
        return advice_picture(found, base, policies, given.width, given.title)
    return f"{advice_json(found, policies)}\n" if given.json else advice_text(found, base, policies, given.all)


def _base(given: Any) -> Parameters:
    told = {name: getattr(given, name) for name in (*_NUMBERS, "rates")}
    return (
        with_log(given, Parameters(), _SPANS)
        ._replace(**{name: value for name, value in told.items() if value is not None})
        .checked()
    )


def _policies(given: Any, policy_of: Callable[[str], Policy]) -> List[Policy]:
    """The policies that are named, and else the one of standard input."""
    if given.title is not None and given.svg is None:
        raise StormError("title", "needs --svg")
    if not given.cookbook:
        return list(dict.fromkeys(policy_of(word) for word in given.file or ["-"]))
    if given.file:
        raise StormError("cookbook", f"expected no policy beside it, got {given.file[0]!r}")
    known = [Policy.parse(spelt) for _, spelt in COOKBOOK]
    return list(dict.fromkeys(policy for policy in known if policy.most_retries))


@contextmanager
def _bars() -> Iterator[Any]:
    """What tells on a terminal how many storms are played, and how many values are tried after that."""
    line = StatusLine(sys.stderr, True)
    try:
        yield (_bar(line, "storm"), _bar(line, "value")) if line.is_on else (silent, silent)
    finally:
        line.clear()


def _bar(line: StatusLine, what: str) -> Told:
    begun: List[float] = []

    def told(done: int, all: int, share: Optional[float]) -> None:
        if not begun:
            begun.append(time.monotonic())
        part = done / all if share is None else share
        line.show(bar_text(part, time.monotonic() - begun[0], f"{done} of {all} {plural(all, what)}"))

    return told


def bar_text(part: float, seconds: float, said: str) -> str:
    """A bar of what is done, and about the time that is left after so many seconds.

    >>> bar_text(0.25, 4, "2 of 8 storms")
    '[######------------------] 2 of 8 storms, about 12 s left'
    """
    full = int(_BAR * part)
    left = f", about {seconds * (1 - part) / part:.0f} s left" if part and seconds >= 1 else ""
    return f"[{'#' * full}{'-' * (_BAR - full)}] {said}{left}"
