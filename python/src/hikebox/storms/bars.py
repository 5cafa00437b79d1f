"""Storms in a terminal: a line for each window, with the share that succeeded first and a bar of its calls."""

from __future__ import annotations

import os
import sys
from typing import TYPE_CHECKING, List, Sequence, Tuple

from ..errors import StormError
from .texts import share_of

if TYPE_CHECKING:
    from .storm import Storm, StormRow

__all__ = ["bars", "has_colour"]

#: The widths of lines.
_MIN_WIDTH, _MAX_WIDTH = 72, 1000
_NAMES = ("won %", "from ms", "requests", "retries", "failed", "waiting")
_KEY = "# request, + retry"
_GREEN, _RED, _YELLOW, _PLAIN = "\033[32m", "\033[31m", "\033[33m", "\033[0m"


def has_colour() -> bool:
    """Whether standard output is a terminal that has colours, and they are wanted."""
    return sys.stdout.isatty() and not os.environ.get("NO_COLOR") and os.environ.get("TERM", "dumb") != "dumb"


def bars(storms: Sequence[Storm], names: Sequence[str], width: int = 80, colour: bool = False) -> str:
    """The windows of storms, each with a bar of its calls, in lines of this width. All bars have one scale, which is
    written at the end."""
    if not _MIN_WIDTH <= width <= _MAX_WIDTH:
        raise StormError("width", f"expected {_MIN_WIDTH} to {_MAX_WIDTH}, got {width}")
    most = max(storm.totals.most_calls for storm in storms)
    cells = [_cells(row) for storm in storms for row in storm.rows]
    widths = [max(len(name), *(len(row[at]) for row in cells)) for at, name in enumerate(_NAMES)]
    room = max(1, width - sum(widths) - 2 * len(widths) - 2)
    lines: List[str] = []
    for storm, name in zip(storms, names):
        lines += [name] if len(storms) > 1 else []
        lines.append(f"{_in_columns(_NAMES, widths)}  {_KEY}")
        lines += [_line(row, widths, room, most, colour) for row in storm.rows]
    scale = f"{most} calls"
    lines.append(f"{' ' * (width - room)}0{scale.rjust(room - 1)}")
    return "\n".join(lines) + "\n"


def _cells(row: StormRow) -> Tuple[str, ...]:
    share = str(share_of(100, row.won, row.requests)) if row.requests else "-"
    failed = row.refused + row.shed + row.late
    return (share, *map(str, (row.from_ms, row.requests, row.retries, failed, row.waiting)))


def _in_columns(words: Sequence[str], widths: Sequence[int]) -> str:
    return "".join(f"  {word.rjust(width)}" for word, width in zip(words, widths))


def _line(row: StormRow, widths: Sequence[int], room: int, most: int, colour: bool) -> str:
    requests, calls = (-(-count * room // most) if most else 0 for count in (row.requests, row.requests + row.retries))
    first, *rest = _cells(row)
    share = f"  {first.rjust(widths[0])}"
    more = "+" * (calls - requests)
    if colour and row.requests:
        share = f"{_GREEN if row.won * 100 >= 99 * row.requests else _RED}{share}{_PLAIN}"
    if colour and more:
        more = f"{_YELLOW}{more}{_PLAIN}"
    bar = f"  {'#' * requests}{more}" if calls else ""
    return f"{share}{_in_columns(rest, widths[1:])}{bar}"
