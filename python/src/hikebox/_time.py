"""Durations: seconds as people write them, whole milliseconds as the engine counts them."""

from __future__ import annotations

import math
import time
from typing import TYPE_CHECKING, Any, Callable, Union

from .errors import Fault, PolicyError, shown

if TYPE_CHECKING:
    from datetime import timedelta
else:
    try:
        from _datetime import timedelta  # the same class: all of `datetime` takes a twenty-fifth of `import hikebox`
    except ImportError:
        from datetime import timedelta

__all__ = [
    "FLOAT_ERROR",
    "GRAIN",
    "MAX_NUMBER",
    "Duration",
    "Milliseconds",
    "milliseconds",
    "moment",
    "moments_of",
    "seconds",
    "seconds_asked",
    "seconds_text",
]

#: The longest duration, in milliseconds; also the last moment and the greatest number of a policy.
MAX_NUMBER = 2**62 - 1

#: The most whole seconds of a duration.
_MAX_SECONDS = MAX_NUMBER // 1000
#: The longest duration, as an error tells it.
_MOST_SECONDS = f"{_MAX_SECONDS}.{MAX_NUMBER % 1000} seconds"

#: A float within so many milliseconds of a whole one counts as that: its last digits may be off.
FLOAT_ERROR = 1e-6

#: By how many milliseconds the last digits of a moment are off, for each second that its clock tells: the more digits
#: of a float stand before the point, the fewer stand after it.
GRAIN = 1000 * 2.0**-51

#: So many seconds a millisecond of floating point may be short of one.
_GRAIN_OFF = 1e-12


class Milliseconds(int):
    """A whole number of milliseconds, where a number alone would be taken for seconds."""

    __slots__ = ()

    def __repr__(self) -> str:
        return f"milliseconds({int(self)})"


#: What a builder takes for a duration: seconds as a number, a `timedelta`, or `milliseconds(..)`.
Duration = Union[int, float, timedelta, Milliseconds]


def milliseconds(count: int) -> Milliseconds:
    """A duration of exactly so many milliseconds.

    >>> from hikebox import spaced
    >>> spaced(milliseconds(250)) == spaced(0.25)
    True
    """
    if isinstance(count, bool) or not isinstance(count, int):
        raise TypeError(f"expected a whole number of milliseconds, got {count!r}")
    return Milliseconds(count)


def seconds(duration: Duration, what: str = "") -> int:
    """The duration in whole milliseconds, rounded; refused below 0, past the range, and where it is less than one but
    not 0. `what` it is for stands in the error.

    >>> seconds(0.1), seconds(2), seconds(timedelta(minutes=1))
    (100, 2000, 60000)
    >>> seconds(0.0004, "spaced")
    Traceback (most recent call last):
    ...
    hikebox.errors.PolicyError: number out of range: spaced: 0.0004 s is less than a millisecond
    """
    if type(duration) is int and 0 <= duration <= _MAX_SECONDS:
        return duration * 1000
    place = f"{what}: " if what else ""
    if isinstance(duration, Milliseconds):
        count, is_less = int(duration), False
    elif isinstance(duration, timedelta):
        micros = (duration.days * 86400 + duration.seconds) * 1000000 + duration.microseconds
        count, is_less = _rounded(micros, 1000), 0 < micros < 1000
    elif isinstance(duration, bool) or not isinstance(duration, (int, float)):
        raise TypeError(f"{place}expected seconds or a timedelta, got {duration!r}")
    elif isinstance(duration, int):
        count, is_less = duration * 1000, False
    elif not math.isfinite(duration):
        raise PolicyError(Fault.OUT_OF_RANGE, hint=f"{place}a duration of {duration!r} seconds")
    else:
        # (a thousand times the greatest floats is infinite)
        is_within = 0 <= duration <= _MAX_SECONDS + 1
        count, is_less = round(duration * 1000) if is_within else -1, 0 < duration < 0.001 - _GRAIN_OFF
    if not 0 <= count <= MAX_NUMBER:
        most = f"{MAX_NUMBER} milliseconds" if isinstance(duration, Milliseconds) else _MOST_SECONDS
        raise PolicyError(Fault.OUT_OF_RANGE, hint=f"{place}expected 0 to {most}, got {shown(duration)}")
    if is_less:
        text = duration if isinstance(duration, timedelta) else f"{duration!r} s"
        raise PolicyError(Fault.OUT_OF_RANGE, hint=f"{place}{text} is less than a millisecond")
    return count


def seconds_asked(what: str, asked: Any) -> float:
    """The seconds that a function of the user's asks to wait: 0 where it returns None.

    >>> seconds_asked("wait", timedelta(seconds=2)), seconds_asked("wait", 1), seconds_asked("wait", None)
    (2.0, 1.0, 0.0)
    >>> seconds_asked("wait", "soon")
    Traceback (most recent call last):
    ...
    TypeError: wait: expected seconds, a timedelta or None, got 'soon'
    """
    if type(asked) is float:
        return asked
    if asked is None:
        return 0.0
    if isinstance(asked, timedelta):
        return asked.total_seconds()
    if isinstance(asked, Milliseconds) or not hasattr(asked, "__float__"):
        raise TypeError(f"{what}: expected seconds, a timedelta or None, got {shown(asked)}")
    return float(asked)


def _rounded(count: int, unit: int) -> int:
    """The quotient of whole numbers, rounded to the nearest, and to the even one of two."""
    if count < 0:
        return -1
    whole, rest = divmod(count, unit)
    return whole + (1 if 2 * rest > unit or (2 * rest == unit and whole % 2) else 0)


def moment(clock: float) -> int:
    """The whole milliseconds of what a clock tells, from 0 to the last moment that there is.

    >>> moment(0.1 + 0.2), moment(-1), moment(1e30) == MAX_NUMBER
    (300, 0, True)
    >>> moment(1.7e9 + 0.4), moment(2**40 + 0.1)
    (1700000000400, 1099511627776100)
    """
    count = int(clock * 1000 + FLOAT_ERROR + abs(clock) * GRAIN)
    if 0 <= count <= MAX_NUMBER:
        return count
    return 0 if count < 0 else MAX_NUMBER


def moments_of(clock: Callable[[], float]) -> Callable[[], int]:
    """A function that returns the `moment` that a clock tells."""
    if clock is time.monotonic:
        return _monotonic

    def now() -> int:
        told = clock()
        count = int(told * 1000 + FLOAT_ERROR + abs(told) * GRAIN)
        return count if 0 <= count <= MAX_NUMBER else moment(told)

    return now


def _monotonic() -> int:
    return time.monotonic_ns() // 1_000_000


def seconds_text(count: int) -> str:
    """What a person writes for so many milliseconds: seconds, where that is read back as the same number.

    >>> seconds_text(100), seconds_text(2000), seconds_text(MAX_NUMBER)
    ('0.1', '2', 'milliseconds(4611686018427387903)')
    """
    if count % 1000 == 0:
        return repr(count // 1000)
    text = repr(count / 1000)
    if "e" not in text and round(float(text) * 1000) == count:
        return text
    return f"milliseconds({count})"
