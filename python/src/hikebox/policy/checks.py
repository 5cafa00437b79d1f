"""What the builders look at before the engine does, so that their errors speak of the builder that was called."""

from __future__ import annotations

from typing import Any

from .._time import MAX_NUMBER, Duration, seconds
from ..errors import Fault, PolicyError, shown

__all__ = ["factor_of", "interval", "ratio", "thousandths", "whole"]


def whole(number: Any, what: str, least: int = 0, most: int = MAX_NUMBER) -> int:
    """A whole number within these bounds; `what` it is stands in the error."""
    if type(number) is int and least <= number <= most:
        return number
    if isinstance(number, bool) or not isinstance(number, int):
        raise TypeError(f"{what}: expected a whole number, got {number!r}")
    if not least <= number <= most:
        raise PolicyError(Fault.OUT_OF_RANGE, hint=f"{what}: expected {least} to {most}, got {shown(number)}")
    return int(number)


def interval(duration: Duration, what: str) -> int:
    """A duration of at least a millisecond, in milliseconds."""
    count = seconds(duration, what)
    if count == 0:
        raise PolicyError(
            Fault.OUT_OF_RANGE, hint=f"{what}: expected an interval of at least 0.001 s, got {duration!r}"
        )
    return count


def thousandths(number: Any, what: str, least: float, most: float) -> int:
    """A number in thousandths, rounded."""
    if isinstance(number, bool) or not isinstance(number, (int, float)):
        raise TypeError(f"{what}: expected a number, got {number!r}")
    if not least <= number <= most:
        raise PolicyError(Fault.OUT_OF_RANGE, hint=f"{what}: expected {least:g} to {most:g}, got {shown(number)}")
    return round(number * 1000)


def factor_of(number: Any, what: str, least: float) -> int:
    """A factor up to 1000 in thousandths: none that is not whole becomes it."""
    milli = thousandths(number, f"{what}: a factor", least, 1000)
    if milli % 1000 == 0 and number != milli // 1000:
        hint = f"{what}: the factor {number!r} is less than a thousandth from {milli // 1000}"
        raise PolicyError(Fault.OUT_OF_RANGE, hint=hint)
    return milli


def ratio(number: Any, what: str) -> int:
    """A ratio from 0 to 10 in thousandths: none that is not 0 becomes it."""
    if type(number) is float and 0.001 <= number <= 10.0:
        return round(number * 1000)
    count = thousandths(number, what, 0, 10)
    if count == 0 and number:
        raise PolicyError(Fault.OUT_OF_RANGE, hint=f"{what}: a ratio of {number!r} is less than a thousandth")
    return count
