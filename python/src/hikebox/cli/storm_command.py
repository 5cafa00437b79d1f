"""What `hikebox storm` does: it plays storms, along a parameter or to a border, and tells or draws them."""

from __future__ import annotations

import sys
import time
from contextlib import contextmanager
from textwrap import wrap
from typing import Any, Callable, Iterator, List, NamedTuple, Optional, Sequence, Tuple

from ..errors import StormError
from ..limits.breaker import times_of
from ..policy import Policy
from ..storms.storm import Storm
from ..storms.axes import values_of
from ..storms.bars import bars, has_colour
from ..storms.cores import Told, play_all, silent
from ..limits.terms import LimitTerms
from ..storms.parameters import Parameters, limit_text, plural
from ..storms.populations import Clients
from ..storms.picture import storm_picture
from ..storms.texts import populations_table, sentences, side_by_side
from ..sweeps import Sweep, find_from, swept
from .arrivals import with_arrivals
from .scenario import Line, Scenario, scenario_of
from .log_options import with_log
from .status_line import StatusLine
from .storm_options import limits_of, parameters_of

__all__ = ["Result", "result_of", "telling", "wanted_of"]

#: The parameters that storms have whose requests come by a rate.
_BY_RATE = ("rate", "clients", "together", "seconds")
#: How wide a picture is where nothing is said.
_WIDTH = 760

PolicyOf = Callable[[str], Policy]


class Result(NamedTuple):
    """What is printed or written, and whether a storm of it was cut."""

    text: str
    is_cut: bool


class Wanted(NamedTuple):
    """The storms that are wanted, and what the picture calls them."""

    storms: List[Tuple[Policy, Parameters]]
    names: Sequence[str]
    title: str


def wanted_of(given: Any, policy_of: PolicyOf) -> Wanted:
    """The storms that the options ask for. The options are judged before a policy is read."""
    scenario = scenario_of(given.scenario)
    parameters = parameters_of(given, _with_traffic(given, scenario.parameters))
    words = _words(given, scenario)
    limits = limits_of(given, _open_times(given, policy_of))
    has_limits = bool(given.limits or given.without)
    _look_at(given, len(words) * len(limits) if words else len(scenario.lines) * (len(limits) if has_limits else 1))
    _look_at_input(given, words)
    title = given.title or scenario.title or ""
    beside = tuple(Clients(each.share, policy_of(each.word), *each[2:]) for each in given.beside)
    parameters = parameters._replace(beside=beside or parameters.beside)
    if words:
        policies = [policy_of(word) for word in words]
        storms = [(policy, parameters._replace(tickets=tickets)) for policy in policies for tickets in limits]
        return Wanted(storms, given.name or (), title)
    storms = [
        (line.policy, _on_line(line, parameters, bool(beside))._replace(tickets=tickets))
        for line in scenario.lines
        for tickets in (limits if has_limits else [line.tickets])
    ]
    names = [line.name or "" for line in scenario.lines]
    return Wanted(storms, given.name or (names if all(names) and not has_limits else ()), title)


def _with_traffic(given: Any, base: Parameters) -> Parameters:
    """The parameters with the moments or the log that were given, if one of them was."""
    if given.arrivals is not None:
        return with_arrivals(given, base)
    is_by_rate = bool(given.sweep) and values_of(given.sweep)[0] in _BY_RATE
    return with_log(given, base, by_moments=not is_by_rate)


def _on_line(line: Line, parameters: Parameters, is_given: bool) -> Parameters:
    """The parameters with the populations of a line of the scenario, where it has such and no others were given."""
    if is_given or line.beside is None:
        return parameters
    return parameters._replace(beside=line.beside).checked()


def _open_times(given: Any, policy_of: PolicyOf) -> Optional[Tuple[int, ...]]:
    """The open times of breakers, where a file has their policy."""
    if given.open is None:
        return None
    if not any(isinstance(limit, LimitTerms) and limit.times for limit in given.limits):
        raise StormError("open", "needs --limit breaker:..")
    return tuple(times_of(policy_of(given.open), "open"))


def _words(given: Any, scenario: Scenario) -> List[str]:
    """The words that name policies: standard input, where neither words nor the scenario name some."""
    words = [*given.file, *given.compare] if given.file or scenario.lines else ["-", *given.compare]
    return [str(word) for word in words]


def _look_at_input(given: Any, words: Sequence[str]) -> None:
    """Refuses standard input as the policy of several populations."""
    count = [*words, *(each.word for each in given.beside)].count("-")
    if given.beside and count > 1:
        raise StormError("beside", f"expected one policy from standard input, got {count}")


def _look_at(given: Any, count: int) -> None:
    """Refuses options that do not go together, where so many storms are wanted."""
    if (given.csv or given.json) and count > 1 and not given.sweep and not given.find:
        raise StormError("storm", f"expected one storm, or a sweep, for --csv and --json, got {count} storms")
    if given.find and (given.csv or given.svg is not None or given.sweep):
        raise StormError("storm", "--find can't be used with --csv, --svg or --sweep")
    if given.find and count > 1:
        raise StormError("storm", f"expected one storm for --find, got {count}")
    if given.width is not None and given.svg is None and not given.bars:
        raise StormError("width", "needs --bars or --svg")
    if given.measure and not given.sweep:
        raise StormError("measure", "needs --sweep")
    if given.bars and (given.sweep or given.find):
        raise StormError("storm", "--bars can't be used with --sweep or --find")
    if given.title is not None and given.svg is None:
        raise StormError("title", "needs --svg")
    if given.detail and (given.svg is None or given.sweep):
        raise StormError("detail", "needs --svg, without --sweep")
    if given.name and len(given.name) != count:
        raise StormError("name", f"expected as many names as storms, {count}, got {len(given.name)}")
    if given.sweep:
        values_of(given.sweep)


def result_of(given: Any, policy_of: PolicyOf) -> Result:
    """Plays the storms that the options ask for, and tells them."""
    wanted = wanted_of(given, policy_of)
    with telling() as told:
        if given.find:
            return _found(given, wanted, told)
        return _swept(given, wanted, told) if given.sweep else _played(given, wanted, told)


@contextmanager
def telling() -> Iterator[Told]:
    """What tells on a terminal how many storms are played."""
    line = StatusLine(sys.stderr, True)
    begun = time.monotonic()

    def told(done: int, all: int, share: Optional[float]) -> None:
        about = "" if share is None else f", about {100 * share:.0f} %"
        line.show(f"{done} of {all} {plural(all, 'storm')} played{about}, {time.monotonic() - begun:.0f} s")

    try:
        if line.is_on:
            yield told
        else:
            yield silent
    finally:
        line.clear()


def _found(given: Any, wanted: Wanted, told: Told) -> Result:
    found = find_from(*wanted.storms[0], given.find, told)
    return Result(f"{found.to_json() if given.json else found}\n", False)


def _swept(given: Any, wanted: Wanted, told: Told) -> Result:
    name, values = values_of(given.sweep)
    sweep = swept(wanted.storms, name, values, wanted.names, told)
    is_cut = any(storm.totals.cut for line in sweep.lines for storm in line)
    return Result(_sweep_text(given, sweep, wanted), is_cut)


def _sweep_text(given: Any, sweep: Sweep, wanted: Wanted) -> str:
    if given.svg is not None:
        return sweep.svg(*given.measure, width=given.width or _WIDTH, title=wanted.title or None)
    if given.csv:
        return sweep.to_csv()
    return (sweep.to_json() if given.json else sweep.table(*given.measure)) + "\n"


def _played(given: Any, wanted: Wanted, told: Told) -> Result:
    storms = play_all(wanted.storms, told, not given.csv)
    return Result(_storm_text(given, storms, wanted), any(storm.totals.cut for storm in storms))


def _storm_text(given: Any, storms: List[Storm], wanted: Wanted) -> str:
    if given.svg is not None:
        how: Any = {"width": given.width or _WIDTH, "detail": given.detail, "title": wanted.title or None}
        return storm_picture(storms, names=wanted.names, **how)
    if given.csv:
        return storms[0].to_csv()
    if given.json:
        return storms[0].to_json() + "\n"
    names = list(wanted.names) or [f"{storm.policy!r}, {limit_text(storm.parameters.tickets)}" for storm in storms]
    several = f"{side_by_side(storms, names)}\n" if len(storms) > 1 else ""
    if given.bars:
        width = given.width or 80
        told = bars(storms, names, width, has_colour())
        return f"{told}\n{several}" if several else told + _below_bars(storms[0], width)
    return several or f"{storms[0]}\n"


def _below_bars(storm: Storm, width: int) -> str:
    """What the bars of one storm come to, in lines of this width."""
    said = [line for sentence in sentences(storm) for line in wrap(sentence, width, subsequent_indent="  ")]
    populations = ["", populations_table(storm)] if storm.populations else []
    return "".join(f"{line}\n" for line in [*said, *populations])
