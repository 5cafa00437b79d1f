"""The options of `hikebox storm`: the parameters of a storm as words of the command line."""

from __future__ import annotations

import argparse
import re
from typing import Any, List, NamedTuple, Optional, Sequence, Tuple

from .._engine.calls import MAX_TICKETS
from .._svg import fitted
from ..budgets.terms import Terms, terms_of
from ..errors import LimitError, TermsError
from ..limits.spellings import KINDS, limit_of
from ..limits.terms import LimitTerms
from ..storms.axes import MEASURES
from ..storms.parameters import RANGES, TIMES, Limited, Parameters, RateSpan, Slow, Span
from ..storms.populations import MAX_PATIENCE, MAX_SHARE, look_at_shares
from . import values
from .arguments import Once

__all__ = [
    "Beside",
    "add_log",
    "add_numbers",
    "add_storm_options",
    "limits_of",
    "parameters_of",
    "rates_of",
    "slow_of",
    "span_of",
    "tickets_of",
]

#: So long is the longest text of a budget or a quota.
_MAX_TEXT = 100

_HELP = {
    "rate": "requests a second",
    "together": "requests that come at one moment",
    "seconds": "how long requests come, in seconds",
    "capacity": "calls a second that each replica of the peer can serve",
    "patience": "how long a client waits for a call, in milliseconds",
    "queue": "calls that each replica of the peer queues at most",
    "replicas": "how many replicas the peer is, to which calls go in turn",
    "down": "how many replicas refuse calls in the outage (all)",
    "window": "the length of a window of the report, in milliseconds",
    "until": "when the storm ends, in milliseconds (60 s after --seconds, or after the last moment of --arrivals)",
    "calls": "cut the storm after this many calls",
    "words": "the seed of the random numbers",
}
_PLAIN = Parameters()


class Beside(NamedTuple):
    """A population as the command line has it: `word` names its policy."""

    share: int
    word: str
    patience: Optional[int]
    is_limited: bool


def add_numbers(storm: argparse.ArgumentParser, names: Sequence[str]) -> None:
    """Adds the options that are numbers, of these names, and the spans of the rate."""
    for name in names:
        metavar = "SEED" if name == "words" else "M" if name in TIMES else "N"
        default = getattr(_PLAIN, name)
        about = _HELP[name] if default is None else f"{_HELP[name]} ({default})"
        number = values.number(RANGES[name][1], RANGES[name][0])
        storm.add_argument(f"--{name}", type=number, metavar=metavar, help=about)
    rates = "spans with a rate of their own, up to 8, such as 10000..15000@2400,20000..21000@0"
    storm.add_argument("--rates", type=rates_of, metavar="FROM..TO@N,..", help=rates)


def add_log(storm: argparse.ArgumentParser) -> None:
    """Adds the options of an access log."""
    log = (
        "take how requests come from an access log, or - for standard input: nginx's or Apache's, JSON lines or CSV, "
        "also compressed by gzip; with --seconds N only its busiest stretch of N seconds is played (all)"
    )
    storm.add_argument("--log", metavar="FILE", action=Once, help=log)
    fields = "where JSON or CSV has the moment, how long a request took (in s, ms, us or ns) and the status"
    storm.add_argument("--fields", metavar="time=NAME,latency=NAME:UNIT,status=NAME", action=Once, help=fields)


def add_arrivals(storm: argparse.ArgumentParser) -> None:
    """Adds the option of a file of moments."""
    arrivals = (
        "when requests come, in the place of --rate, --rates, --together and --seconds: a file with a moment on each "
        "line, in milliseconds, none before that of the line before it, or - for standard input"
    )
    storm.add_argument("--arrivals", metavar="FILE", action=Once, help=arrivals)


def add_storm_options(storm: argparse.ArgumentParser) -> None:
    """Adds the options that say how a storm is played."""
    story = "start from the parameters of outage (the default), herd or brown-out, or from a JSON file"
    storm.add_argument("--scenario", metavar="NAME|FILE", default="outage", help=story)
    add_numbers(storm, list(_HELP))
    add_log(storm)
    add_arrivals(storm)
    outage = f"when the peer refuses all calls, in milliseconds ({'..'.join(map(str, _PLAIN.outage))})"
    storm.add_argument("--outage", type=span_of, metavar="FROM..TO", help=outage)
    slow = "when the peer works at PERCENT of its capacity, in milliseconds (never)"
    storm.add_argument("--slow", type=slow_of, metavar="FROM..TO@PERCENT", help=slow)
    beside = (
        "clients who send PERCENT of the requests and retry by another POLICY, such as 30=recurs(3) or "
        "30@2000+limited=recurs(3); they wait PATIENCE milliseconds for a call, or as long as the others; with "
        "+limited they draw on the same limit, if there is one; you can give it three times"
    )
    storm.add_argument("--beside", type=_beside, metavar=_BESIDE_FORM, action="append", default=[], help=beside)
    limits: Any = {"dest": "limits", "action": "append", "default": []}
    budget = "limit all retries to N; each limit that you give is a storm of its own"
    storm.add_argument("--budget", type=values.number(MAX_TICKETS), metavar="N", help=budget, **limits)
    quota = "limit the retries in each PERIOD to RESERVE and a SHARE of its requests, such as 10/10%/1s"
    shown = quota.replace("%", "%%")
    storm.add_argument("--quota", type=_quota, metavar="RESERVE/SHARE%/PERIOD", help=shown, **limits)
    limit = "a limit that requests also ask before their first call, such as grpc:100/100 or aws (see below)"
    storm.add_argument("--limit", type=_limit, metavar="LIMIT", help=limit, **limits)
    open_for = "how long a breaker is open, each time that it opens (30 s); spelt as POLICY"
    storm.add_argument("--open", action=Once, metavar="POLICY", help=open_for)
    storm.add_argument("--without", action="store_true", help="also play each policy without a limit")
    along = "play the storms for each value of a parameter, such as rate=200..1600/8 (see below)"
    storm.add_argument("--sweep", action=Once, metavar="NAME=VALUES", help=along)
    drawn = "what a sweep shows (succeeded); you can give it again"
    storm.add_argument("--measure", choices=list(MEASURES), action="append", default=[], help=drawn)
    border = (
        "find the greatest share of a quota, the most retries, the least patience or the greatest share of the first "
        "population beside with which the peer recovers before requests end"
    )
    storm.add_argument("--find", choices=["quota", "retries", "patience", "beside"], help=border)


def limits_of(given: Any, times: Optional[Tuple[int, ...]] = None) -> List[Limited]:
    """What retries draw on, in a storm each; `times` are the open times of breakers, if they are given."""
    limits: List[Limited] = list(given.limits)
    if times is not None:
        limits = [
            limit._replace(times=times) if isinstance(limit, LimitTerms) and limit.times else limit for limit in limits
        ]
    return [None, *limits] if given.without or not limits else limits


def parameters_of(given: Any, base: Parameters) -> Parameters:
    """The parameters that were given over those of a scenario, or a `StormError`."""
    told = {name: getattr(given, name) for name in (*RANGES, "rates", "outage", "slow")}
    changed = {name: value for name, value in told.items() if value is not None}
    look_at_shares([each.share for each in given.beside])
    return base._replace(**changed).checked()


def tickets_of(text: str) -> Limited:
    """A budget as `N`, a quota as `RESERVE/SHARE%/PERIOD`, a limit as `--limit` has it, or none if the text is empty.

    >>> tickets_of("100"), tickets_of("10/10%/1s"), tickets_of(" ")
    (100, Terms(reserve=10, share=100, period=1000), None)
    """
    spelt = text.strip()
    if not spelt:
        return None
    if spelt.partition(":")[0] in KINDS and len(spelt) <= _MAX_TEXT:
        return limit_of(spelt)
    if spelt.isascii() and spelt.isdigit() and len(spelt) <= _MAX_TEXT:
        if int(spelt) > MAX_TICKETS:
            raise LimitError(f"expected a budget from 0 to {MAX_TICKETS}, got {spelt}")
        return int(spelt)
    if "/" not in spelt or len(spelt) > _MAX_TEXT:
        wanted = "expected N, RESERVE/SHARE%/PERIOD or a limit, such as 10/10%/1s or grpc:100/100"
        raise LimitError(f"{wanted}, got {fitted(spelt, 300)!r}")
    return terms_of(*values.terms(spelt))


def _ends(text: str) -> Optional[Tuple[int, int]]:
    found = re.fullmatch(r"([0-9]+)\.\.([0-9]+)", text)
    return (int(found[1]), int(found[2])) if found else None


def span_of(text: str) -> Span:
    ends = _ends(text)
    if ends is None:
        raise argparse.ArgumentTypeError(f"expected FROM..TO in milliseconds, as 10000..20000, got {text!r}")
    return Span(*ends)


def slow_of(text: str) -> Slow:
    span, _, percent = text.partition("@")
    ends = _ends(span)
    if ends is None or not (percent.isascii() and percent.isdigit()):
        raise argparse.ArgumentTypeError(f"expected FROM..TO@PERCENT, as 10000..20000@50, got {text!r}")
    return Slow(*ends, int(percent))


def rates_of(text: str) -> Tuple[RateSpan, ...]:
    found = [re.fullmatch(r"([0-9]{1,19})\.\.([0-9]{1,19})@([0-9]{1,19})", word) for word in text.split(",")]
    if not all(found):
        raise argparse.ArgumentTypeError(f"expected FROM..TO@N,.., as 10000..15000@2400, got {fitted(text, 300)!r}")
    return tuple(RateSpan(*map(int, each.groups())) for each in found if each)


_BESIDE_FORM = "PERCENT[@PATIENCE][+limited]=POLICY"
_BESIDE = re.compile(r"([0-9]{1,19})(?:@([0-9]{1,19}))?(\+limited)?=(.+)", re.DOTALL | re.ASCII)


def _beside(text: str) -> Beside:
    found = _BESIDE.fullmatch(text)
    if found is None:
        part = re.match(r"[0-9]{0,19}\.[0-9]{1,19}(?=[@+=])", text, re.ASCII)
        if part is not None:
            raise argparse.ArgumentTypeError(f"expected whole per cent, such as 30, got {part[0]!r}")
        wanted = f"expected {_BESIDE_FORM}, as 30@2000+limited=recurs(3)"
        raise argparse.ArgumentTypeError(f"{wanted}, got {fitted(text, 300)!r}")
    share = values.number(MAX_SHARE, 1)(found[1])
    patience = None if found[2] is None else values.number(MAX_PATIENCE, 1)(found[2])
    return Beside(share, found[4], patience, found[3] is not None)


def _limit(text: str) -> LimitTerms:
    try:
        return limit_of(text)
    except TermsError as error:
        raise argparse.ArgumentTypeError(str(error)) from None


def _quota(text: str) -> Terms:
    try:
        return terms_of(*values.terms(text))
    except LimitError as error:
        raise argparse.ArgumentTypeError(str(error)) from None
