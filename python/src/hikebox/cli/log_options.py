"""`--log`: how requests come, and what patience and capacity to assume, from an access log."""

from __future__ import annotations

import sys
from typing import Any

from ..errors import StormError
from ..storms.parameters import MAX_REQUESTS, MAX_SPANS, Parameters
from ..traffic.formats import Fields, fields_of
from ..traffic.paces import moments_of, paces_of, stretch_of
from ..traffic.seen import Traffic, traffic_of
from ..traffic.texts import assumed_of, at_moments_text, lines_of, played_text
from .status_line import StatusLine
from .streams import named, tell

__all__ = ["with_log"]

#: The options whose place a log takes.
_REPLACED = ("rate", "rates", "together")


def with_log(given: Any, base: Parameters, spans: int = MAX_SPANS + 1, by_moments: bool = False) -> Parameters:
    """The parameters with the traffic of the log that was given, if one was: at its own moments, where that is wanted
    and a storm may have as many requests, and otherwise in at most so many spans. What it tells goes to standard
    error."""
    if given.log is None:
        if given.fields is not None:
            raise StormError("fields", "needs --log")
        return base
    for name in _REPLACED:
        if getattr(given, name) is not None:
            raise StormError("storm", f"--log can't be used with --{name}")
    traffic = _read(given.log, fields_of(given.fields) if given.fields is not None else Fields())
    first, seconds = stretch_of(traffic.requests, given.seconds)
    counts = [traffic.requests[second] for second in range(first, first + seconds)]
    is_exact = by_moments and sum(counts) <= MAX_REQUESTS
    paces = paces_of(counts, spans)
    if is_exact:
        # (the rate is none of the storm's then, and in its range whatever --seconds is)
        paced = base._replace(rate=1, rates=(), seconds=seconds, together=1, arrivals=moments_of(counts))
    else:
        paced = base._replace(rate=paces.rate, rates=paces.rates, seconds=seconds, together=1)
    assumed, reasons = assumed_of(traffic, paced)
    played = at_moments_text(first, counts) if is_exact else played_text(traffic, first, paces, assumed.requests)
    taken, *rest = lines_of(traffic)
    why = [
        f"assumed --{name} {getattr(assumed, name)} ({reason or 'the log does not say'})"
        for name, reason in reasons.items()
        if getattr(given, name) is None
    ]
    for line in [f"{given.log}: {taken}", *rest, *why, played]:
        tell(f"hikebox: {line}\n")
    return assumed


def _read(name: str, fields: Fields) -> Traffic:
    line = StatusLine(sys.stderr, True)
    try:
        with named(f"read failed: {'standard input' if name == '-' else name}"):
            return traffic_of(name, fields, lambda count: line.show(f"{count:,} lines read"))
    finally:
        line.clear()
