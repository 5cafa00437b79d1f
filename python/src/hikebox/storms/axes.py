"""The parameters along which storms are played, and the numbers that are drawn of them."""

from __future__ import annotations

import difflib
import re
from typing import TYPE_CHECKING, Any, Callable, Dict, List, NamedTuple, Optional, Tuple

from ..budgets.terms import Terms
from ..errors import StormError
from .parameters import RANGES, Parameters, Span
from .populations import MAX_SHARE
from .texts import is_judged

if TYPE_CHECKING:
    from .storm import Storm

__all__ = ["AXES", "MAX_VALUES", "MEASURES", "NEVER", "Axis", "Measure", "axes_text", "values_of"]

#: So many values has a sweep at most.
MAX_VALUES = 64
#: What a measure gives where the storm has no such moment.
NEVER = float("inf")


def _plain(name: str) -> Callable[[Parameters, int], Parameters]:
    def put(parameters: Parameters, value: int) -> Parameters:
        changed: Dict[str, Any] = {name: value}
        return parameters._replace(**changed)

    return put


def _clients(parameters: Parameters, value: int) -> Parameters:
    return parameters._replace(rate=value, together=value)


def _outage(parameters: Parameters, value: int) -> Parameters:
    begins = parameters.outage.begins
    return parameters._replace(outage=Span(begins, begins + value))


def _share(parameters: Parameters, value: int) -> Parameters:
    tickets = parameters.tickets
    return parameters._replace(tickets=tickets._replace(share=value)) if isinstance(tickets, Terms) else parameters


def _reserve(parameters: Parameters, value: int) -> Parameters:
    tickets = parameters.tickets
    return parameters._replace(tickets=tickets._replace(reserve=value)) if isinstance(tickets, Terms) else parameters


def _budget(parameters: Parameters, value: int) -> Parameters:
    return parameters._replace(tickets=value) if isinstance(parameters.tickets, int) else parameters


def _beside(parameters: Parameters, value: int) -> Parameters:
    """(where several stand beside, the first of them)"""
    first, rest = parameters.beside[:1], parameters.beside[1:]
    return parameters._replace(beside=(*(each._replace(share=value) for each in first), *rest))


class Axis(NamedTuple):
    """A parameter. Its values are whole numbers of the engine's units, of which `unit` are one as it is told."""

    title: str
    most: int
    put: Callable[[Parameters, int], Parameters]
    #: Values as `--sweep` takes them.
    example: str
    unit: int = 1

    def shown(self, value: int) -> str:
        """The value as a person reads it."""
        return f"{value / self.unit:,.12g}"


#: The parameters by the names that the command line gives them.
AXES: Dict[str, Axis] = {
    "rate": Axis("requests a second", RANGES["rate"][1], _plain("rate"), "200..1600/8"),
    "clients": Axis("clients at once", RANGES["rate"][1], _clients, "100,1000,10000"),
    "together": Axis("requests that come at one moment", RANGES["together"][1], _plain("together"), "1,10,100"),
    "seconds": Axis("seconds for which requests come", RANGES["seconds"][1], _plain("seconds"), "30,60,120"),
    "capacity": Axis(
        "the peer's capacity, in calls a second", RANGES["capacity"][1], _plain("capacity"), "500..2000/4"
    ),
    "queue": Axis("the peer's queue, in calls", RANGES["queue"][1], _plain("queue"), "0,500,5000"),
    "patience": Axis(
        "the clients' patience, in seconds", RANGES["patience"][1], _plain("patience"), "100..1000/10", 1000
    ),
    "outage": Axis("length of the outage, in seconds", 3_600_000, _outage, "1000,5000,20000", 1000),
    "share": Axis("share of the quota, in % of the requests", 1_000_000, _share, "0..20/5", 10),
    "reserve": Axis("reserve of the quota", 2**32, _reserve, "0,10,100"),
    "budget": Axis("budget", 2**32, _budget, "0,1000,5000"),
    "beside": Axis("share of the first population beside, in %", MAX_SHARE, _beside, "5..40/8"),
}
#: Other names of these.
_TITLES = {axis.title: name for name, axis in AXES.items()}
#: The values that are spelt in milliseconds.
_IN_MILLISECONDS = ("patience", "outage")


class Measure(NamedTuple):
    """A number of a storm."""

    title: str
    #: The number; `NEVER` where the storm never came to it, and None where it has none.
    of: Callable[["Storm"], Optional[float]]
    #: The greatest that it can be, if any.
    most: Optional[float] = None
    #: How many decimals a table has.
    decimals: int = 2

    def shown(self, number: float) -> str:
        """The number in a table. It is 0 or the greatest only where it is that, and not by rounding.

        >>> [MEASURES["succeeded"].shown(number) for number in (0, 0.002, 99.998, 100)]
        ['0.00', '0.01', '99.99', '100.00']
        """
        if self.most is not None and 0 < number < self.most:
            number = max(0.01, min(self.most - 0.01, number))
        return f"{number:.{self.decimals}f}"


def _succeeded(storm: Storm) -> Optional[float]:
    return 100 * storm.totals.won / storm.totals.requests if storm.totals.requests else None


def _recovery(storm: Storm) -> Optional[float]:
    if not (storm.parameters.weather() and is_judged(storm)):
        return None
    recovered = storm.totals.recovered_ms
    # (where a surge does no harm, no window is bad from the first on)
    return NEVER if recovered is None else max(0, recovered - storm.parameters.over) / 1000


def _slowest(storm: Storm) -> Optional[float]:
    slowest = storm.totals.slowest_ms
    return None if slowest is None else slowest / 1000


#: The measures by the names that the command line gives them.
MEASURES: Dict[str, Measure] = {
    "succeeded": Measure("requests that succeeded, in %", _succeeded, 100.0),
    "calls": Measure("calls for each request", lambda storm: storm.totals.calls_per_request),
    "recovery": Measure("seconds to recovery", _recovery),
    "slowest": Measure("slowest success, in seconds", _slowest, decimals=3),
}


def axes_text() -> str:
    """What can be swept, a line for each parameter, with an example of its values."""
    lines = [(f"{name}={axis.example}", _meaning(name)) for name, axis in AXES.items()]
    return "\n".join(f"  {spelt:<24}{meaning}" for spelt, meaning in lines)


def _meaning(name: str) -> str:
    title = AXES[name].title
    return title.replace("in seconds", "in milliseconds") if name in _IN_MILLISECONDS else title


def values_of(text: str) -> Tuple[str, List[int]]:
    """The name and the values of a sweep, as `NAME=FROM..TO/COUNT` or `NAME=A,B,C` spell them, in the units of the
    command line: milliseconds for times, and per cent for a share.

    >>> values_of("rate=200..1600/8")
    ('rate', [200, 400, 600, 800, 1000, 1200, 1400, 1600])
    >>> values_of("rate=90..101/3")
    ('rate', [90, 96, 101])
    >>> values_of("clients at once=10,100")
    ('clients', [10, 100])
    >>> values_of("share=0,2.5,10")
    ('share', [0, 25, 100])
    """
    spelt_name, _, spelt = text.partition("=")
    name = _name_of(spelt_name.strip())
    if not spelt:
        raise StormError("sweep", f"expected values, as {name}={AXES[name].example}, got none")
    grain = 10 if name == "share" else 1
    begins_spelt, dots, rest = spelt.partition("..")
    if not dots:
        return name, _checked(name, [_number(name, word, grain) for word in spelt.split(",")])
    ends_spelt, slash, count = rest.partition("/")
    if not slash:
        raise StormError("sweep", f"expected a count of values after {spelt!r}, as {name}={spelt}/8, got none")
    begins, ends = _number(name, begins_spelt, grain), _number(name, ends_spelt, grain)
    steps = int(count) - 1 if re.fullmatch("[0-9]{1,4}", count) else 0
    if not 1 <= steps < MAX_VALUES or begins >= ends:
        expected = f"expected FROM below TO and a COUNT from 2 to {MAX_VALUES}"
        raise StormError("sweep", f"{expected}, as {name}={AXES[name].example}, got {spelt!r}")
    twice = [2 * (ends - begins) * index + steps for index in range(steps + 1)]  # (to the nearest, halves up)
    return name, _checked(name, [begins + each // (2 * steps) for each in twice])


def _name_of(spelt: str) -> str:
    """The parameter that a name means. Where there is none, the error names the nearest one."""
    known = {**_TITLES, **{name: name for name in AXES}}
    if spelt in known:
        return known[spelt]
    near = difflib.get_close_matches(spelt, known, 1)
    names = "" if near else f" (one of {', '.join(AXES)})"
    name = known[near[0]] if near else "rate"
    raise StormError("sweep", f"expected a parameter{names}, as {name}={AXES[name].example}, got {spelt!r}")


def _number(name: str, word: str, grain: int) -> int:
    pattern = r"[0-9]{1,12}" if grain == 1 else r"[0-9]{1,12}(\.[0-9])?"
    if not re.fullmatch(pattern, word):
        kind = "whole numbers" if grain == 1 else "numbers with at most one decimal"
        raise StormError("sweep", f"expected {kind}, as {name}={AXES[name].example}, got {word!r}")
    return round(float(word) * grain)


def _checked(name: str, values: List[int]) -> List[int]:
    """The values, where each is greater than the one before."""
    if not 1 <= len(values) <= MAX_VALUES or any(high <= low for low, high in zip(values, values[1:])):
        expected = f"expected 1 to {MAX_VALUES} values, each greater than the one before"
        raise StormError("sweep", f"{expected}, as {name}={AXES[name].example}, got {values}")
    return values
