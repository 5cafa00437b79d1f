"""Scenarios: the storms of a file, or one of the three that have a name."""

from __future__ import annotations

import json
from typing import Any, Dict, List, NamedTuple, Optional, Tuple

from .._engine.calls import MAX_TICKETS
from ..budgets.terms import terms_of
from ..errors import LimitError, PolicyError, StormError
from ..limits.spellings import KINDS, limit_of
from ..policy import Policy
from ..storms.parameters import RANGES, SCENARIOS, Limited, Parameters, RateSpan, Slow, Span
from ..storms.populations import Clients
from .values import terms

__all__ = ["Line", "Scenario", "scenario_of"]

#: What a scenario has, what its storm has, and what a line of it has.
_MEMBERS = {"$schema", "title", "about", "sources", "left_out", "storm", "lines"}
_LINE = {"name", "policy", "limit", "beside"}
_POPULATION = {"share", "policy", "patience", "limited"}
_MAX_BYTES = 1 << 20
#: So long is what is said of a file at most.
_MAX_SAID = 500


class Line(NamedTuple):
    """A storm of a scenario."""

    name: Optional[str]
    policy: Policy
    tickets: Limited
    #: The populations beside, where it has others than the scenario.
    beside: Optional[Tuple[Clients, ...]] = None


class Scenario(NamedTuple):
    """What is played."""

    parameters: Parameters
    title: Optional[str] = None
    lines: Tuple[Line, ...] = ()


def scenario_of(word: str) -> Scenario:
    """The scenario of this name, or of the file that it names."""
    if word in SCENARIOS:
        return Scenario(SCENARIOS[word])
    try:
        with open(word, "rb") as file:
            text = file.read(_MAX_BYTES + 1)
    except OSError as error:
        known = ", ".join(sorted(SCENARIOS))
        raise StormError("scenario", f"expected {known} or a file, got {word!r}: {error.strerror}") from None
    if len(text) > _MAX_BYTES:
        raise StormError("scenario", f"{word}: expected at most {_MAX_BYTES} bytes")
    try:
        told = json.loads(text)
    except (ValueError, RecursionError) as error:
        raise StormError("scenario", f"{word}: expected JSON: {error}") from None
    try:
        return _scenario(told)
    except StormError as error:
        raise StormError("scenario", f"{word}: {_short(str(error), _MAX_SAID)}") from None


def _scenario(told: Any) -> Scenario:
    _has("the file", told, _MEMBERS)
    lines = told.get("lines", [])
    if not isinstance(lines, list) or len(lines) > 64:
        raise StormError("lines", f"expected a list of at most 64 lines, got {_brief(lines)}")
    parameters = _parameters(told.get("storm", {}))
    found = tuple(_line(index, line) for index, line in enumerate(lines))
    for index, line in enumerate(found):
        try:
            parameters._replace(beside=line.beside or ()).checked()
        except StormError as error:
            raise StormError(f"lines[{index}].{error.name}", error.hint) from None
    return Scenario(parameters, _text("title", told.get("title")), found)


def _parameters(told: Any) -> Parameters:
    _has("storm", told, {*RANGES, "rates", "outage", "slow", "beside"})
    found: Dict[str, Any] = {name: _whole(name, told[name]) for name in RANGES if name in told}
    spans: List[Tuple[str, int]] = [("outage", 2), ("slow", 3)]
    ends = {
        name: [_whole(name, end) for end in _list(name, told[name], count)]
        for name, count in spans
        if told.get(name) is not None
    }
    outage = Span(*ends["outage"]) if "outage" in ends else Span(0, 0)
    slow = Slow(*ends["slow"]) if "slow" in ends else None
    found["beside"] = _beside("beside", told.get("beside", []))
    return Parameters(outage=outage, slow=slow, rates=_rates(told.get("rates", [])), **found).checked()


def _rates(told: Any) -> Tuple[RateSpan, ...]:
    if not isinstance(told, list):
        raise StormError("rates", f"expected a list of spans, got {_brief(told)}")
    return tuple(RateSpan(*(_whole("rates", number) for number in _list("rates", span, 3))) for span in told)


def _line(index: int, told: Any) -> Line:
    place = f"lines[{index}]"
    _has(place, told, _LINE)
    if "policy" not in told:
        raise StormError(place, "expected a policy, got none")
    name = _text(f"{place}.name", told.get("name"))
    beside = _beside(f"{place}.beside", told["beside"]) if "beside" in told else None
    return Line(name, _policy(f"{place}.policy", told["policy"]), _limit(f"{place}.limit", told.get("limit")), beside)


def _policy(place: str, told: Any) -> Policy:
    """A policy as JSON, or as an expression."""
    is_expression = isinstance(told, str) and "(" in told
    try:
        return Policy.parse(told) if is_expression else Policy.from_json(json.dumps(told))
    except PolicyError as error:
        raise StormError(place, str(error)) from None


def _beside(place: str, told: Any) -> Tuple[Clients, ...]:
    if not isinstance(told, list):
        raise StormError(place, f"expected a list of populations, got {_brief(told)}")
    return tuple(_clients(f"{place}[{index}]", each) for index, each in enumerate(told))


def _clients(place: str, told: Any) -> Clients:
    _has(place, told, _POPULATION)
    for name in ("share", "policy"):
        if name not in told:
            raise StormError(place, f"expected a {name}, got none")
    is_limited = told.get("limited", False)
    if not isinstance(is_limited, bool):
        raise StormError(f"{place}.limited", f"expected true or false, got {_brief(is_limited)}")
    patience = told.get("patience")
    waits = None if patience is None else _whole(f"{place}.patience", patience)
    share = _whole(f"{place}.share", told["share"])
    return Clients(share, _policy(f"{place}.policy", told["policy"]), waits, is_limited)


def _text(place: str, value: Any) -> Optional[str]:
    """A text that is printed as it is."""
    if value is not None and not (isinstance(value, str) and value.isprintable()):
        raise StormError(place, f"expected a text of printable signs, got {_brief(value)}")
    return value


def _limit(place: str, limit: Any) -> Limited:
    if isinstance(limit, str):
        try:
            return limit_of(limit) if limit.partition(":")[0] in KINDS else terms_of(*terms(limit))
        except LimitError as error:
            raise StormError(place, str(error)) from None
    if limit is None:
        return None
    if not 0 <= _whole(place, limit) <= MAX_TICKETS:
        raise StormError(place, f"expected 0 to {MAX_TICKETS}, got {_brief(limit)}")
    return int(limit)


def _has(place: str, told: Any, members: Any) -> None:
    if not isinstance(told, dict):
        raise StormError(place, f"expected an object, got {_brief(told)}")
    for name in told:
        if name not in members:
            raise StormError(place, f"expected {', '.join(sorted(members))}, got {name!r}")


def _list(name: str, value: Any, count: int) -> List[Any]:
    if not isinstance(value, list) or len(value) != count:
        raise StormError(name, f"expected a list of {count} numbers, got {_brief(value)}")
    return value


def _whole(name: str, value: Any) -> int:
    if isinstance(value, bool) or not isinstance(value, int):
        raise StormError(name, f"expected a whole number, got {_brief(value)}")
    return value


def _brief(value: Any) -> str:
    return _short(json.dumps(value), 60)


def _short(text: str, most: int) -> str:
    return text if len(text) <= most else text[: most - 1] + "…"
