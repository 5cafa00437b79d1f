"""`--arrivals`: the moments of requests, from the lines of a file."""

from __future__ import annotations

from typing import Any, List

from ..errors import StormError, shown
from ..storms.parameters import MAX_REQUESTS, RANGES, Parameters
from .streams import named

__all__ = ["with_arrivals"]

#: The options whose place moments take.
_REPLACED = ("rate", "rates", "together", "seconds", "log")
#: A line with so many bytes is too long.
_LONG = 32


def with_arrivals(given: Any, base: Parameters) -> Parameters:
    """The parameters with the moments of the file that was given."""
    for name in _REPLACED:
        if getattr(given, name) is not None:
            raise StormError("storm", f"--arrivals can't be used with --{name}")
    with named(f"read failed: {'standard input' if given.arrivals == '-' else given.arrivals}"):
        return base._replace(arrivals=tuple(_moments(given.arrivals)))


def _moments(name: str) -> List[int]:
    """The moments that the lines spell, in milliseconds."""
    moments: List[int] = []
    last, most = 0, RANGES["until"][1]
    with open(0 if name == "-" else name, "rb", closefd=name != "-") as file:
        while True:
            line = file.readline(_LONG)
            if not line:
                break
            place, text = f"line {len(moments) + 1}", line[:-1] if line.endswith(b"\n") else line
            if len(moments) == MAX_REQUESTS:
                raise StormError("arrivals", f"{place}: expected at most {MAX_REQUESTS} lines, got one more")
            if len(text) == _LONG or not text.isdigit() or not last <= int(text) <= most:
                got = shown(text.decode("ascii", "replace"))
                raise StormError("arrivals", f"{place}: expected milliseconds from {last} to {most}, got {got}")
            last = int(text)
            moments.append(last)
    if not moments:
        raise StormError("arrivals", f"expected 1 to {MAX_REQUESTS} lines, got none")
    return moments
