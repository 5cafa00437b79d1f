"""Builders of policies: the leaves. Operators and methods of `Policy` combine them."""

from __future__ import annotations

from .._time import Duration, seconds
from ..errors import Fault, PolicyError
from .checks import factor_of, interval, whole
from .policy import Policy

__all__ = [
    "decorrelated",
    "elapsed",
    "exponential",
    "exponential_milli",
    "fibonacci",
    "fixed",
    "forever",
    "from_duration",
    "identity",
    "linear",
    "once",
    "recurs",
    "spaced",
    "stop",
    "unfold",
    "windowed",
]


def forever() -> Policy:
    """Goes on at once, without end. Combine it with something that waits."""
    return Policy.of_node("forever", ())


def recurs(times: int) -> Policy:
    """Goes on at once, this many times.

    >>> [str(step) for step in recurs(1).preview()]
    ['0: 0 next 0', '0: 1 done']
    """
    return Policy.of_node("recurs", (whole(times, "recurs"),))


def once() -> Policy:
    """Goes on at once, one time, with nothing as output."""
    return recurs(1).nothing()


def stop() -> Policy:
    """Never goes on."""
    return recurs(0).nothing()


def spaced(delay: Duration) -> Policy:
    """Goes on this long after each failure."""
    return Policy.of_node("spaced", (seconds(delay, "spaced"),))


def fixed(every: Duration) -> Policy:
    """Goes on at boundaries of intervals from the first failure on; at once if it is more than one interval behind."""
    return Policy.of_node("fixed", (interval(every, "fixed"),))


def windowed(every: Duration) -> Policy:
    """Goes on at the next boundary of intervals from the first failure on."""
    return Policy.of_node("windowed", (interval(every, "windowed"),))


def linear(base: Duration) -> Policy:
    """Waits the base, twice the base, three times the base, and so on."""
    return Policy.of_node("linear", (seconds(base, "linear"),))


def exponential(base: Duration, factor: float = 2) -> Policy:
    """Waits the base, and then each time `factor` times as long. A factor that is not whole is rounded to thousandths.

    >>> exponential(0.1, 1.5).to_json()
    '{"exponential_milli":[100,1500]}'
    """
    if isinstance(factor, float) and not factor.is_integer():
        milli = factor_of(factor, "exponential", 0.001)
        return Policy.of_node("exponential_milli", (seconds(base, "exponential"), milli))
    times = int(factor) if isinstance(factor, float) else factor
    return Policy.of_node("exponential", (seconds(base, "exponential"), whole(times, "exponential: a factor", 1, 1000)))


def exponential_milli(base: Duration, factor: int) -> Policy:
    """The same with a factor in thousandths. Each wait is rounded down."""
    milli = whole(factor, "exponential_milli: a factor", 1, 1_000_000)
    return Policy.of_node("exponential_milli", (seconds(base, "exponential_milli"), milli))


def decorrelated(base: Duration, longest: Duration, factor: float = 3, *, lane: int = 0) -> Policy:
    """Waits at random, each time from the base up to `factor` times the wait before, and at most `longest`.

    AWS calls this decorrelated jitter. The first wait is picked as if the wait before had been the base. The factor is
    from 1 to 1000 and rounded to thousandths. `lane` chooses the random number, as for `Policy.jittered`.

    >>> [step.next_ms for step in decorrelated(0.1, 10).preview(3)]
    [200, 550, 1125]
    """
    milli = factor_of(factor, "decorrelated", 1)
    least, most = seconds(base, "decorrelated"), seconds(longest, "decorrelated")
    if least > most:
        raise PolicyError(Fault.OUT_OF_RANGE, hint=f"decorrelated({base!r}, {longest!r}): the range is empty")
    return Policy.of_node("decorrelated", (whole(lane, "decorrelated: a lane", 0, 3), least, milli, most))


def fibonacci(one: Duration) -> Policy:
    """Waits 1, 1, 2, 3, 5 and so on times this long."""
    return Policy.of_node("fibonacci", (seconds(one, "fibonacci"),))


def elapsed() -> Policy:
    """Goes on at once. Its output is the time since the first failure, in milliseconds."""
    return Policy.of_node("elapsed", ())


def identity() -> Policy:
    """Goes on at once. Its output is the code of the failure."""
    return Policy.of_node("identity", ())


def unfold(start: int, times: int, plus: int) -> Policy:
    """Goes on at once. Its output is `start`, and then each time the output before times `times`, plus `plus`."""
    return Policy.of_node("unfold", tuple([whole(number, "unfold") for number in (start, times, plus)]))


def from_duration(delay: Duration) -> Policy:
    """Goes on once, after this delay. JSON's `lone`."""
    return Policy.of_node("lone", (seconds(delay, "from_duration"),))
