"""Limits of other systems, as words of a command line spell them: of a run, and of a storm."""

from __future__ import annotations

from typing import Dict, List, Optional, Tuple, Union

from ..errors import TermsError
from .terms import LimitTerms, adaptive, breaker, bucket, in_flight, throttle

__all__ = ["KINDS", "LIMIT_FORMS", "LIMIT_WANTED", "has_form", "limit_of"]

#: The greatest capacity of a bucket, in thousandths, and the greatest number of 32 bits and of the engine.
_MAX_CAPACITY, _MAX_COUNT, _MAX_NUMBER = 2**40, 2**32 - 1, 2**62 - 1
#: For how long a breaker is open where nothing is said, in milliseconds.
_OPEN = (30_000,)

#: With how many numbers each kind of limit is spelt, each of these ways.
KINDS: Dict[str, Tuple[int, ...]] = {
    "aws": (0,),
    "bucket": (6,),
    "grpc": (2,),
    "inflight": (2, 3),
    "breaker": (3, 4),
    "throttle": (2,),
    "adaptive": (4,),
}

#: How each of them is spelt.
LIMIT_FORMS = (
    "aws",
    "grpc:TOKENS/RATIO",
    "bucket:CAPACITY/FLOOR/COST/LATE/DEBIT/CREDIT[+refund]",
    "inflight:LEAST/SHARE[/MOST]",
    "breaker:FAILURES[/RESULTS]/PROBES/DEADLINE",
    "throttle:RATIO/PERIOD",
    "adaptive:LEAST/MOST/FIRST/BACKOFF",
)

#: Where a number begins or ends: a number, or another one of the text by its name, also times so many.
Bound = Union[int, str]
#: The numbers of each kind, in the order of its spelling, and from where to where each may be.
_RANGES: Dict[str, Tuple[Tuple[str, Bound, Bound], ...]] = {
    "bucket": (
        ("CAPACITY", 0, _MAX_CAPACITY),
        *((name, 0, "CAPACITY") for name in ("FLOOR", "COST", "LATE", "DEBIT", "CREDIT")),
    ),
    "grpc": (("TOKENS", 1, _MAX_CAPACITY // 1000), ("RATIO", 0, "1000*TOKENS")),
    "inflight": (("LEAST", 0, _MAX_COUNT), ("SHARE", 0, _MAX_COUNT), ("MOST", 1, _MAX_COUNT)),
    "breaker": (("FAILURES", 1, 32), ("RESULTS", "FAILURES", 32), ("PROBES", 1, 15), ("DEADLINE", 0, _MAX_NUMBER)),
    "throttle": (("RATIO", 1000, _MAX_COUNT), ("PERIOD", 1, _MAX_NUMBER)),
    "adaptive": (("LEAST", 1, 65_535), ("MOST", "LEAST", 65_535), ("FIRST", "LEAST", "MOST"), ("BACKOFF", 1, 999)),
}
#: Those of a breaker whose failures count in a row.
_IN_A_ROW = (("FAILURES", 1, _MAX_COUNT), *_RANGES["breaker"][2:])

LIMIT_WANTED = (
    "expected bucket:CAPACITY/FLOOR/COST/LATE/DEBIT/CREDIT (in thousandths of a token, with +refund or without), "
    "grpc:TOKENS/RATIO, aws, inflight:LEAST/SHARE[/MOST], breaker:FAILURES[/RESULTS]/PROBES/DEADLINE, "
    "throttle:RATIO/PERIOD or adaptive:LEAST/MOST/FIRST/BACKOFF, such as grpc:100/100"
)


def limit_of(text: str, times: Tuple[int, ...] = _OPEN) -> LimitTerms:
    """The limit that a text spells; `times` are the open times of a breaker.

    >>> limit_of("grpc:100/100").text, limit_of("breaker:5/1/1000").times
    ('grpc:100/100', (30000,))
    """
    if text == "aws":
        return bucket(500_000, 0, 5000, 10_000, 0, 1000, True, "aws")
    if not has_form(text):
        raise TermsError(f"{LIMIT_WANTED}, got {text[:300]!r}")
    kind, _, spelt = text.partition(":")
    spelt, plus, _ = spelt.partition("+")
    numbers = _numbers(spelt) or []
    _look_at_ranges(text, kind, numbers)
    if kind == "bucket":
        capacity, floor, cost, late, debit, credit = numbers
        return bucket(capacity, floor, cost, late, debit, credit, bool(plus))
    if kind == "grpc":
        tokens, ratio = numbers
        return bucket(1000 * tokens, 500 * tokens + 1, 0, 0, 1000, ratio, False, text)
    if kind == "inflight":
        return in_flight(*numbers)
    if kind == "breaker":
        failures, results, probes, deadline = _breaker_of(numbers)
        return breaker(failures, results, probes, deadline, times)
    return throttle(*numbers) if kind == "throttle" else adaptive(*numbers)


def _numbers(spelt: str) -> Optional[List[int]]:
    words = spelt.split("/")
    if not all(word.isascii() and word.isdigit() and len(word) <= 20 for word in words):
        return None
    return [int(word) for word in words]


def _breaker_of(numbers: List[int]) -> List[int]:
    """The numbers of a breaker, with a 0 for the results that count where it has failures in a row."""
    return numbers if len(numbers) == 4 else [numbers[0], 0, *numbers[1:]]


def has_form(text: str) -> bool:
    """Whether a text is spelt as a limit, with as many numbers as its kind has.

    >>> has_form("breaker:5/1/1000"), has_form("breaker:99/99/99/0"), has_form("breaker:5")
    (True, True, False)
    """
    kind, colon, spelt = text.partition(":")
    spelt, plus, refund = spelt.partition("+")
    numbers = _numbers(spelt) if colon else None
    if numbers is None or (plus and (kind, refund) != ("bucket", "refund")):
        return text == "aws"
    return len(numbers) in KINDS.get(kind, ())


def _look_at_ranges(text: str, kind: str, numbers: List[int]) -> None:
    """Raises a `TermsError` that names the first number that is out of its range."""
    ranges = _IN_A_ROW if (kind, len(numbers)) == ("breaker", 3) else _RANGES[kind]
    known = {name: number for (name, _, _), number in zip(ranges, numbers)}

    def value(bound: Bound) -> int:
        if isinstance(bound, int):
            return bound
        factor, _, name = bound.rpartition("*")
        return int(factor or 1) * known[name]

    for name, least, most in ranges[: len(numbers)]:
        if not value(least) <= known[name] <= value(most):
            raise TermsError(f"{text}: {name}: expected {least} to {most}, got {known[name]}")
