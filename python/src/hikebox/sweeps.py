"""Storms along a parameter: the same storms for each of its values, and the value at which a storm stops recovering."""

from __future__ import annotations

import csv
import io
import json
from dataclasses import dataclass, replace
from typing import Any, Callable, Dict, Iterable, List, Optional, Sequence, Tuple, Union

from ._time import seconds as in_milliseconds
from .budgets.terms import Terms
from .errors import PolicyError, StormError, shown
from .policy import Policy
from .policy.builders import recurs
from .policy.checks import whole
from .storms.storm import Storm, play
from .storms.axes import AXES, MAX_VALUES, MEASURES, NEVER
from .storms.code import beside_objects
from .storms.cores import Told, play_all, silent
from .storms.heads import names_of, shared_text
from .storms.parameters import Parameters, limit_text, look_at_picture, plural
from .storms.populations import MAX_SHARE, percent_of
from .storms.texts import columns, recovery_mark, share_text

__all__ = ["Found", "Sweep", "find", "sweep"]

#: The parameters whose values are seconds in Python.
_TIMES = ("patience", "outage")
#: So many columns has a terminal at least.
_COLUMNS = 80


@dataclass(frozen=True, repr=False)
class Sweep:
    """Storms along a parameter. `str` prints a table of the shares that succeeded, and a notebook shows a picture."""

    #: The name of the parameter, and its values in the engine's units: milliseconds, thousandths for the share of a
    #: quota, and per cent for that of a population.
    parameter: str
    values: Tuple[int, ...]
    #: What tells each line from the others.
    names: Tuple[str, ...]
    #: A line for each storm that was given, with a storm for each value.
    lines: Tuple[Tuple[Storm, ...], ...]

    def numbers(self, measure: str) -> List[List[Optional[float]]]:
        """Returns a measure as a list for each line: `succeeded` in per cent, `calls` per request, seconds to
        `recovery` (infinite if a storm does not recover), or the `slowest` success in seconds."""
        if not isinstance(measure, str) or measure not in MEASURES:
            raise StormError("measure", f"expected one of {', '.join(MEASURES)}, got {shown(measure)}")
        return [[MEASURES[measure].of(storm) for storm in line] for line in self.lines]

    def svg(self, *measures: str, width: int = 760, title: Optional[str] = None) -> str:
        """Returns the picture as SVG of this width, with a panel for each measure: `succeeded` if you name none."""
        from .storms.sweep_picture import sweep_picture

        look_at_picture(width, title)
        return sweep_picture(self, measures or ("succeeded",), width=width, title=title)

    def _repr_svg_(self) -> str:
        return self.svg()

    def to_csv(self) -> str:
        """Returns CSV with a line for each storm: the value, the policy, the limit and the totals."""
        text = io.StringIO()
        writer = csv.writer(text, lineterminator="\n")
        totals = [name.replace("_ms", "") for name in vars(self.lines[0][0].totals)]
        writer.writerow([self.parameter, "policy", "limit", *totals])
        for line in self.lines:
            for value, storm in zip(self.values, line):
                limit = limit_text(storm.parameters.tickets)
                writer.writerow([self._shown(value), repr(storm.policy), limit, *vars(storm.totals).values()])
        return text.getvalue()

    def to_json(self) -> str:
        """Returns the same as JSON on one line."""
        lines = [
            {
                "policy": json.loads(line[0].policy.to_json()),
                "limit": limit_text(line[0].parameters.tickets, self.parameter),
                **self._beside(line[0].parameters),
                "totals": [storm.totals_dict() for storm in line],
            }
            for line in self.lines
        ]
        told = {"parameter": self.parameter, "values": [self._number(value) for value in self.values], "lines": lines}
        return json.dumps(told, separators=(",", ":"))

    def _beside(self, parameters: Parameters) -> Dict[str, Any]:
        """The populations beside, where there are such; the share that is swept is none of one line."""
        told = beside_objects(parameters.beside)
        if told and self.parameter == "beside":
            del told[0]["share"]
        return {"beside": told} if told else {}

    def table(self, *measures: str) -> str:
        """Returns a table for each measure, with a row for each value and a column for each line. A column is headed by
        its line's name, or by its number if 80 columns have no room for the names. A storm that was cut is marked."""
        rows_of = [(measure, self._rows(measure)) for measure in measures or ("succeeded",)]
        tables = [(MEASURES[measure].title, rows) for measure, rows in rows_of]
        names = [name.replace("\u00a0", " ") for name in self.names]
        numbers = [str(number) for number in range(1, len(names) + 1)]
        has_room = all(len(columns([(self.parameter, *names), *rows])[0]) <= _COLUMNS for _, rows in tables)
        shared = shared_text([line[0] for line in self.lines], self.parameter).replace("\u00a0", " ")
        above = [shared] if shared else []
        above += [] if has_room else [f"{number}: {name}" for number, name in zip(numbers, names)]
        heads = (self.parameter, *(names if has_room else numbers))
        parts = ["\n".join([title, *columns([heads, *rows])]) for title, rows in tables]
        return "\n\n".join(["\n".join(above), *parts] if above else parts)

    def _rows(self, measure: str) -> List[Tuple[str, ...]]:
        """A row for each value: the value, and the measure of each line."""
        lines = list(zip(self.numbers(measure), self.lines))
        return [
            (self._shown(value), *(_cell(measure, numbers[index], storms[index]) for numbers, storms in lines))
            for index, value in enumerate(self.values)
        ]

    def __str__(self) -> str:
        return self.table()

    def __repr__(self) -> str:
        count = len(self.lines) * len(self.values)
        return f"<Sweep of {count} {plural(count, 'storm')} along {self.parameter}>"

    def _number(self, value: int) -> float:
        """The value in the units of the command line."""
        return value / 10 if self.parameter == "share" else value

    def _shown(self, value: int) -> str:
        return f"{self._number(value):.12g}"


def _cell(measure: str, number: Optional[float], storm: Storm) -> str:
    shown = "-" if number is None else "never" if number == NEVER else MEASURES[measure].shown(number)
    return f"{shown} cut" if storm.totals.cut else shown


def sweep(storms: Union[Storm, Iterable[Storm]], **values: Iterable[Any]) -> Sweep:
    """Plays these storms again for each value of one parameter, on all cores. Each storm is a line.

    The parameter is one of `storm`'s (`rate`, `together`, `seconds`, `capacity`, `patience`, `queue`); `outage`, the
    length of the outage; `clients`, the number of requests that come at one moment; `share`, `reserve` or `budget` of
    the limits that have it; or `beside`, the share of the first population beside, such as 0.3. Where there are several
    populations, the numbers are those of all requests.

    >>> from hikebox import Quota, exponential, recurs, storm
    >>> policy = recurs(8) & exponential(0.1, 2).cap(10).jittered(0, 1)
    >>> swept = sweep([storm(policy), storm(policy, limit=Quota(10, 0.1, 1))], rate=[400, 800])
    >>> [[round(share, 1) for share in line] for line in swept.numbers("succeeded")]
    [[22.7, 18.4], [83.3, 83.3]]
    """
    given = [storms] if isinstance(storms, Storm) else _list_of("storms", storms)
    for each in given:
        if not isinstance(each, Storm):
            raise TypeError(f"sweep: expected storms, got {each!r}")
    if len(values) != 1 or not given:
        raise TypeError(f"expected storms and one parameter with its values, got {len(given)} and {sorted(values)}")
    ((name, asked),) = values.items()
    if name not in AXES:
        raise TypeError(f"expected one of {', '.join(AXES)}, got {name!r}")
    bases = [(each.policy, each.parameters) for each in given]
    names = names_of(given, name)
    told = _list_of(f"values of {name}", asked)
    found = [_whole(name, value) for value in told]
    if any(high <= low for low, high in zip(found, found[1:])):
        raise StormError("sweep", f"{name}: expected values, each greater than the one before, got {told}")
    return swept(bases, name, found, names)


def _list_of(what: str, given: Any) -> List[Any]:
    if not isinstance(given, Iterable):
        raise TypeError(f"sweep: expected {what}, got {given!r}")
    return list(given)


def _whole(name: str, value: Any) -> int:
    """A value in the engine's units."""
    if name == "beside":
        return percent_of("sweep: beside", value)
    if name not in (*_TIMES, "share"):
        return whole(value, f"sweep: {name}", 0, AXES[name].most)
    try:
        return in_milliseconds(value, name)
    except PolicyError as error:
        raise StormError("sweep", error.hint) from None


def swept(
    storms: Sequence[Tuple[Policy, Parameters]],
    name: str,
    values: Sequence[int],
    names: Sequence[str] = (),
    told: Told = silent,
) -> Sweep:
    """Plays storms along values in the engine's units. `told` is called after each storm, with how many are done."""
    if not 1 <= len(values) <= MAX_VALUES:
        raise StormError("sweep", f"expected 1 to {MAX_VALUES} values, got {len(values)}")
    if all(AXES[name].put(how, value) == how for _, how in storms for value in (0, 1)):
        missing = "a population beside" if name == "beside" else "a limit that has it"
        raise StormError("sweep", f"{name}: expected a storm with {missing}, got none")
    if name in ("rate", "clients", "together", "seconds") and any(how.arrivals for _, how in storms):
        raise StormError("sweep", f"{name}: expected requests that come by a rate, got moments of their own")
    wanted = [(policy, AXES[name].put(how, value).checked()) for policy, how in storms for value in values]
    played = play_all(wanted, told)
    lines = [played[at : at + len(values)] for at in range(0, len(played), len(values))]
    return Sweep(
        name, tuple(values), tuple(names or names_of([line[0] for line in lines], name)), tuple(map(tuple, lines))
    )


# The value at which a storm stops recovering


@dataclass(frozen=True)
class Found:
    """A border: with `value` the peer recovers, and with the next value it does not.

    `value` is None if the peer does not even recover with the mildest value, such as no retry. If it recovers at both
    ends of the range, no border was found, and `value` is the end of the range: 10,000 thousandths, 64 retries, 1 ms,
    or 99 % less the shares of the other populations.
    """

    #: `quota`, `retries`, `patience` or `beside`.
    what: str
    #: The last value with which the peer recovers: a quota's share in thousandths, retries, milliseconds, or the share
    #: of a population in per cent.
    value: Optional[int]
    #: The storms that were tried, by their values.
    tried: Tuple[Tuple[int, Storm], ...]

    def to_json(self) -> str:
        """Returns the border and the storms that were tried, as JSON on one line."""
        tried = [{"value": value, "totals": storm.totals_dict()} for value, storm in self.tried]
        return json.dumps({"find": self.what, "value": self.value, "tried": tried}, separators=(",", ":"))

    def __str__(self) -> str:
        goal = _GOALS[self.what]
        answer = "none" if self.value is None else goal.shown(self.value)
        if self.value is not None and all(_recovers(storm) for _, storm in self.tried):
            answer += " (the end of the range: no border found)"
        rows = [(goal.column, "succeeded", "for each", "recovery")]
        for value, storm in sorted(self.tried, key=lambda each: each[0]):
            totals = storm.totals
            said = "cut" if totals.cut else recovery_mark(storm)[1] or "-"
            rows.append((goal.shown(value), share_text(totals), f"{totals.calls_per_request:.2f}", said))
        return "\n".join([f"{goal.title}: {answer}", "", *columns(rows)])


def _recovers(storm: Storm) -> bool:
    """Whether the peer recovers in a storm that was played to its end."""
    return storm.totals.recovered_ms is not None and not storm.totals.cut


@dataclass(frozen=True)
class _Goal:
    """What is looked for: between which values, and on which side storms recover."""

    title: str
    column: str
    least: int
    most: int
    #: Whether small values recover and great ones don't.
    wants_most: bool
    put: Callable[[Policy, Parameters, int], Tuple[Policy, Parameters]]
    shown: Callable[[int], str]


def _with_share(policy: Policy, parameters: Parameters, value: int) -> Tuple[Policy, Parameters]:
    tickets = parameters.tickets
    terms = tickets if isinstance(tickets, Terms) else Terms(10, 0, 1000)
    return policy, parameters._replace(tickets=terms._replace(share=value))


def _with_retries(policy: Policy, parameters: Parameters, value: int) -> Tuple[Policy, Parameters]:
    return policy & recurs(value), parameters


def _with_patience(policy: Policy, parameters: Parameters, value: int) -> Tuple[Policy, Parameters]:
    return policy, parameters._replace(patience=value)


def _with_beside(policy: Policy, parameters: Parameters, value: int) -> Tuple[Policy, Parameters]:
    return policy, AXES["beside"].put(parameters, value)


_GOALS: Dict[str, _Goal] = {
    "quota": _Goal(
        "greatest share of a quota with which the peer recovers",
        "share",
        0,
        10_000,
        True,
        _with_share,
        lambda value: f"{value / 10:.12g} %",
    ),
    "retries": _Goal(
        "most retries of a request with which the peer recovers", "retries", 0, 64, True, _with_retries, str
    ),
    "patience": _Goal(
        "least patience with which the peer recovers", "patience", 1, 60_000, False, _with_patience, "{} ms".format
    ),
    "beside": _Goal(
        "greatest share of the first population beside with which the peer recovers",
        "beside",
        1,
        MAX_SHARE,
        True,
        _with_beside,
        "{} %".format,
    ),
}


def find(storm: Storm, what: str) -> Found:
    """Finds the greatest share of a quota (`what` is `"quota"`), the most retries (`"retries"`), the least patience
    (`"patience"`) or the greatest share of the first population beside (`"beside"`) with which the peer of this storm
    still recovers before its requests end, by bisection. So the border depends on the storm's `seconds`. `find` plays
    the storm with that value and with the next one. The quota has the reserve and the window of the storm's quota, or
    else 10 and a second. If there are several populations, the retries are those of the first one, and the patience is
    that of all who have no other.

    >>> from hikebox import recurs, spaced, storm
    >>> find(storm(recurs(8) & spaced(0.1)), "retries").value
    6
    """
    if not isinstance(storm, Storm):
        raise TypeError(f"find: expected a storm, got {storm!r}")
    return find_from(storm.policy, storm.parameters, what)


def find_from(policy: Policy, parameters: Parameters, what: str, told: Told = silent) -> Found:
    """The same of a storm that was not played. `told` is called after each that is."""
    if not isinstance(what, str) or what not in _GOALS:
        raise StormError("find", f"expected one of {', '.join(_GOALS)}, got {shown(what)}")
    if not parameters.weather():
        raise StormError("find", "expected a storm with an outage, a brown-out or a surge, got one without")
    goal = _GOALS[what]
    if what == "beside":
        if not parameters.beside:
            raise StormError("find", "expected a storm with a population beside, got one without")
        goal = replace(goal, most=MAX_SHARE - sum(each.share for each in parameters.beside[1:]))
    tried: Dict[int, Storm] = {}

    def recovers(value: int) -> bool:
        tried[value] = play(*goal.put(policy, parameters, value))
        told(len(tried), (goal.most - goal.least).bit_length() + 2, None)
        return _recovers(tried[value])

    good, bad = (goal.least, goal.most) if goal.wants_most else (goal.most, goal.least)
    if not recovers(good):
        return Found(what, None, tuple(tried.items()))
    if recovers(bad):
        return Found(what, bad, tuple(tried.items()))
    while abs(good - bad) > 1:
        middle = (good + bad) // 2
        if recovers(middle):
            good = middle
        else:
            bad = middle
    return Found(what, good, tuple(tried.items()))
