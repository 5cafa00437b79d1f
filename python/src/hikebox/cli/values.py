"""Words of the command line: numbers, durations, exit statuses and the terms of quotas."""

from __future__ import annotations

import argparse
import re
from typing import Callable, FrozenSet, List, Optional, Tuple

from ..errors import LimitError

__all__ = [
    "duration",
    "inputs",
    "number",
    "pace",
    "size",
    "size_text",
    "span",
    "statuses",
    "terms",
]


def number(most: int, least: int = 0) -> Callable[[str], int]:
    """A reader of whole numbers in this range."""

    def read(text: str) -> int:
        if not (text.isascii() and text.isdigit()) or not least <= int(text) <= most:
            raise argparse.ArgumentTypeError(f"expected a number from {least} to {most}, got {text!r}")
        return int(text)

    return read


def inputs(most: int) -> Callable[[str], List[int]]:
    """A reader of such numbers with commas between them."""
    read = number(most)
    return lambda text: [read(word) for word in text.split(",")]


def duration(text: str) -> float:
    """Seconds, more than 0."""
    try:
        count = float(text)
    except ValueError:
        count = -1.0
    if 0 < count < 1e9:
        return count
    raise argparse.ArgumentTypeError(f"expected seconds, more than 0 and less than 1000000000, got {text!r}")


_SIZES = {"K": 1 << 10, "M": 1 << 20, "G": 1 << 30}


def size(text: str) -> int:
    """A number of bytes, also as `10K`, `10M` or `10G`, by units of 1,024.

    >>> size("10M"), size("7")
    (10485760, 7)
    """
    found = re.fullmatch(r"([1-9][0-9]{0,14})([KMG]?)", text, re.ASCII)
    if not found:
        raise argparse.ArgumentTypeError(f"expected a number of bytes, as 500, 10K, 10M or 10G, got {text!r}")
    return int(found[1]) * _SIZES.get(found[2], 1)


def size_text(size: int) -> str:
    """The shortest spelling of a number of bytes.

    >>> size_text(3 << 20), size_text(1025)
    ('3M', '1025')
    """
    for unit, bytes_of in reversed(list(_SIZES.items())):
        if size % bytes_of == 0:
            return f"{size // bytes_of}{unit}"
    return str(size)


def statuses(text: str) -> FrozenSet[int]:
    """Exit statuses, as numbers and ranges: `1,3-5`.

    >>> sorted(statuses("1,3-5"))
    [1, 3, 4, 5]
    """
    found: List[int] = []
    for part in text.split(","):
        least, dash, most = part.strip().partition("-")
        if not least.isdigit() or (dash and not most.isdigit()):
            raise argparse.ArgumentTypeError(f"expected an exit status, as 1 or 3-5, got {part!r}")
        first, last = int(least), int(most if dash else least)
        if not 1 <= first <= last <= 255:
            raise argparse.ArgumentTypeError(f"expected exit statuses from 1 to 255, got {part!r}")
        found.extend(range(first, last + 1))
    return frozenset(found)


def span(text: str) -> Optional[float]:
    """The seconds of a time that is spelt with its unit, or None for another text.

    >>> span("1.5s"), span("30m"), span("30")
    (1.5, 1800.0, None)
    """
    found = re.fullmatch(_SPAN, text, re.ASCII)
    return _exact(float(found[1]) * _UNITS[found[2]]) if found else None


_UNITS = {"ms": 0.001, "s": 1.0, "m": 60.0, "h": 3600.0, "d": 86400.0}
#: How times and quotas are spelt. (What is compiled is kept by `re`; most runs need none of them.)
_SPAN = r"(\d+(?:\.\d+)?)(ms|s|m|h|d)"
_SPELT = r"(\d+)/(\d+(?:\.\d+)?)%/(\d+(?:\.\d+)?)(ms|s|m|h|d)"
_BARE = r"(\d+)/(\d+(?:\.\d+)?)/(\d+(?:\.\d+)?)"


def terms(text: str) -> Tuple[int, float, float]:
    """The reserve, the share of a request and the seconds of a window, which are spelt with their units.

    >>> terms("10/20%/60s"), terms("1/0.5%/100ms")
    ((10, 0.2, 60.0), (1, 0.005, 0.1))
    >>> terms("1/500/100")
    Traceback (most recent call last):
    ...
    hikebox.errors.LimitError: '1/500/100' has no units: write 1/50000%/100s (retries a request, and seconds) or \
1/50%/100ms (thousandths and milliseconds, as zsched reads it)
    """
    found = re.fullmatch(_SPELT, text)
    if found:
        reserve, share, count, unit = found.groups()
        return int(reserve), _exact(float(share) / 100), _exact(float(count) * _UNITS[unit])
    bare = re.fullmatch(_BARE, text)
    if bare:
        reserve, share, count = bare.groups()
        ours = f"{reserve}/{_plain(float(share) * 100)}%/{count}s"
        theirs = f"{reserve}/{_plain(float(share) / 10)}%/{count}ms"
        raise LimitError(
            f"{text!r} has no units: write {ours} (retries a request, and seconds) or {theirs} (thousandths and "
            "milliseconds, as zsched reads it)"
        )
    raise LimitError(f"expected RESERVE/SHARE%/PERIOD, such as 10/20%/60s (units: ms, s, m, h, d), got {text!r}")


_PACE = r"(\d{1,13})/(\d+(?:\.\d+)?(?:ms|s|m|h|d))(?:/(\d{1,7}))?"


def pace(text: str) -> Tuple[int, float, int]:
    """The calls, the seconds in which they may begin, and how many at once.

    >>> pace("10/1s"), pace("100/1m/20")
    ((10, 1.0, 1), (100, 60.0, 20))
    """
    found = re.fullmatch(_PACE, text, re.ASCII)
    if found is None:
        wanted = "expected RUNS/PERIOD or RUNS/PERIOD/BURST, such as 10/1s or 100/1m/20 (units: ms, s, m, h, d)"
        raise LimitError(f"{wanted}, got {text[:100]!r}")
    return int(found[1]), span(found[2]) or 0.0, int(found[3] or 1)


def _exact(value: float) -> float:
    return round(value, 9)


def _plain(value: float) -> str:
    return f"{round(value, 6):.6f}".rstrip("0").rstrip(".")
