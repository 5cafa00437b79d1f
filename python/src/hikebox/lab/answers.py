"""What the page of `hikebox lab` is answered: a policy and its plan, and the storms of policies."""

from __future__ import annotations

from functools import partial
from typing import Any, Callable, Dict, List, NamedTuple, Optional, Sequence, Tuple

from .._svg import MIN_WIDTH, MAX_WIDTH
from ..cli.storm_options import tickets_of
from ..errors import LimitError, StormError
from ..policy import Policy
from ..policy.picture import plan_picture
from ..storms.axes import AXES
from ..storms.code import in_command, in_python, in_rust, in_scenario
from ..storms.heads import names_of
from ..storms.parameters import RANGES, Limited, Parameters, RateSpan, Slow, Span, plural
from ..storms.picture import storm_picture
from ..storms.populations import Clients
from ..storms.storm import Storm
from ..storms.sweep_picture import sweep_picture
from ..storms.texts import recovery_mark, share_text
from ..sweeps import swept
from .cookbook import COOKBOOK
from .faults import Marked, policy_in
from .logs import MAX_LOG
from .shares import Told, play_telling, silent
from .stories import STORIES, Story
from .totals import totals_table

__all__ = ["BadRequest", "log_asked", "plan_answer", "start_answer", "storm_answer", "sweep_answer"]

_MAX_SIDES = 4
#: The values of a sweep, as parts of the number that the page has, and for a share in thousandths.
_PARTS = (0.25, 0.5, 0.75, 1.0, 1.25, 1.5, 1.75, 2.0)
_SHARES = (0, 25, 50, 100, 150, 200, 300, 400)
#: The parameters along which the page plays storms.
_ALONG = ("rate", "capacity", "outage", "patience", "queue", "share")

Json = Dict[str, Any]


class _Side(NamedTuple):
    """A side of the page: its policy, its limit, and whether the clients beside draw on that, too."""

    policy: Policy
    tickets: Limited
    is_shared: bool


class BadRequest(Exception):
    """What was asked has not the form that the page gives it."""


def start_answer() -> Json:
    """What the page begins with."""
    stories = {
        name: {
            "title": story.title,
            "storm": _told_parameters(story),
            "sides": [
                {"text": text, "limit": limit, "limited": limited}
                for (text, limit), limited in zip(story.sides, story.limited)
            ],
        }
        for name, story in STORIES.items()
    }
    return {
        "cookbook": [list(entry) for entry in COOKBOOK],
        "stories": stories,
        "ranges": {name: list(RANGES[name]) for name in RANGES},
        "along": {name: AXES[name].title for name in _ALONG},
        "most_log": MAX_LOG,
    }


def _told_parameters(story: Story) -> Json:
    parameters = story.parameters
    told = parameters._asdict()
    del told["until"], told["tickets"]
    told["rates"] = parameters.rates[0] if parameters.rates else None  # (the page has one span at most)
    told["beside"] = story.beside
    return told


def plan_answer(asked: Json) -> Json:
    """The policy of a text with the picture of its plan, or the fault, and what is wrong with its limit."""
    found = policy_in(_text(asked, "text"))
    answer: Json = {"limit_fault": None}
    try:
        tickets_of(_text(asked, "limit"))
    except LimitError as error:
        answer["limit_fault"] = str(error)
    if isinstance(found, Marked):
        answer["fault"] = found._asdict()
    else:
        answer["picture"] = plan_picture(found, width=_width(asked), styled=False)
    return answer


def log_asked(asked: Json) -> Json:
    """What is asked of a log: how many seconds of it are played, or None for all, of how many replicas the peer is, and
    how wide the picture is."""
    seconds, replicas = asked.get("seconds"), _whole("replicas", asked.get("replicas", 1))
    for name, value in (("seconds", seconds), ("replicas", replicas)):
        least, most = RANGES[name]
        if value is not None and not least <= _whole(name, value) <= most:
            raise BadRequest(f"{name}: expected {least} to {most}")
    return {"seconds": seconds, "replicas": replicas, "width": _width(asked)}


def storm_answer(asked: Json, told: Told = silent) -> Json:
    """The storms of policies in one picture and their totals in one table, each with its programs; None for what is
    none."""
    sides = _sides(asked)
    try:
        wanted = _wanted(asked, sides)
        bounds = _bounds(_parameters(asked["storm"]))
    except StormError as error:
        return _fault(error)
    played = play_telling([each for each in wanted if each is not None], told)
    rest = iter(played)
    storms = [None if each is None else next(rest) for each in wanted]
    if not played:
        return {"sides": storms, "totals": [], "picture": "", "scenario": "", "bounds": bounds}
    names = [f"{letter}: {name}" for letter, name in zip(_letters(storms), names_of(played))]
    how: Any = {"width": _width(asked), "styled": False, "is_brief": asked.get("is_brief") is True}
    return {
        "sides": [None if storm is None else _shown(storm) for storm in storms],
        "totals": totals_table(storms),
        "picture": storm_picture(played, names=names, title="", **how),
        "scenario": in_scenario(played),
        "bounds": bounds,
    }


def sweep_answer(asked: Json) -> Json:
    """The shares that succeed along a parameter, as a picture; or why there are none."""
    name = _text(asked, "along")
    if name not in _ALONG:
        raise BadRequest(f"along: expected one of {', '.join(_ALONG)}, got {name!r}")
    sides = _sides(asked)
    try:
        storms = [each for each in _wanted(asked, sides) if each is not None]
        values = _values(name, _parameters(asked.get("storm")))
        if not storms or len(values) < 2:
            return {"picture": "", "said": f"There is nothing to play along {AXES[name].title}."}
        played = swept(storms, name, values, _letters(sides))
    except StormError as error:
        return _fault(error)
    # (a side keeps its colour where the other one has no policy)
    paints = [index for index, side in enumerate(sides) if side is not None]
    how: Any = {"width": _width(asked), "title": "", "styled": False, "paints": paints}
    return {"picture": sweep_picture(played, ("succeeded",), **how), "said": ""}


def _values(name: str, parameters: Parameters) -> List[int]:
    """About the number that the page has, or the shares of a quota; none where it has no such number."""
    if name == "share":
        return list(_SHARES)
    outage = parameters.outage
    now = outage.ends - outage.begins if name == "outage" else int(getattr(parameters, name))
    return [value for value in sorted({round(part * now) for part in _PARTS}) if _is_right(name, parameters, value)]


def _is_right(name: str, parameters: Parameters, value: int) -> bool:
    """Whether there is a storm with this value."""
    return bool(value) and _is_played(AXES[name].put(parameters, value))


def _bounds(parameters: Parameters) -> Dict[str, Tuple[int, int]]:
    """From where to where a slider may go, by the numbers that the storm has beside it. The rate of the surge, if there
    is one, is a part of `rates`."""
    found = {}
    for name in RANGES:
        if getattr(parameters, name) is not None:
            found[name] = _bounds_of(RANGES[name], getattr(parameters, name), partial(_put, parameters, name))
    for surge in parameters.rates if len(parameters.rates) == 1 else ():
        put = partial(_put_surge, parameters, surge)
        found["rates2"] = _bounds_of((0, RANGES["rate"][1]), surge.rate, put)
    return found


def _put(parameters: Parameters, name: str, value: int) -> Parameters:
    changed: Json = {name: value}
    return parameters._replace(**changed)


def _put_surge(parameters: Parameters, surge: RateSpan, rate: int) -> Parameters:
    return parameters._replace(rates=(surge._replace(rate=rate),))


def _bounds_of(within: Tuple[int, int], now: int, put: Callable[[int], Parameters]) -> Tuple[int, int]:
    """The least and the greatest number of a storm that it still plays, where it plays the one that it has now."""
    ends = []
    for end in within:
        right, wrong = (end, end) if _is_played(put(end)) else (now, end)
        while abs(wrong - right) > 1:
            between = (right + wrong) // 2
            right, wrong = (between, wrong) if _is_played(put(between)) else (right, between)
        ends.append(right)
    return ends[0], ends[1]


def _is_played(parameters: Parameters) -> bool:
    try:
        return bool(parameters.checked())
    except StormError:
        return False


def _letters(sides: Sequence[Optional[Any]]) -> List[str]:
    """The letters of the sides that have something."""
    return [chr(ord("A") + index) for index, side in enumerate(sides) if side is not None]


def _fault(error: StormError) -> Json:
    # (the clients beside have one place on the page)
    return {"fault": {"name": error.name.partition("[")[0], "said": error.hint}}


def _wanted(asked: Json, sides: Sequence[Optional[_Side]]) -> List[Optional[Tuple[Policy, Parameters]]]:
    """The storms of the sides; None for a side that has none."""
    parameters = _parameters(asked.get("storm"))
    share, policy = _beside(asked["storm"].get("beside", [0, ""]))
    found: List[Optional[Tuple[Policy, Parameters]]] = []
    for side in sides:
        if side is None:
            found.append(None)
            continue
        own = side.policy if policy is None else policy
        clients = Clients(share, own, None, side.is_shared)
        changed = parameters._replace(tickets=side.tickets, beside=(clients,) if share else ())
        found.append((side.policy, changed.checked()))
    return found


def _beside(given: Any) -> Tuple[int, Optional[Policy]]:
    """The share of the clients beside, in per cent, and their policy; None where it is that of the side."""
    if not isinstance(given, list) or len(given) != 2 or not isinstance(given[1], str):
        raise BadRequest("beside: expected a share and a text")
    share, text = _whole("beside", given[0]), given[1]
    found = policy_in(text) if text else None
    if isinstance(found, Marked):
        raise StormError("beside", f"{found.said}: {found.hint}")
    return share, found


def _sides(asked: Json) -> List[Optional[_Side]]:
    sides = asked.get("sides")
    if not isinstance(sides, list) or len(sides) > _MAX_SIDES or not all(map(_is_object, sides)):
        raise BadRequest("sides: expected a list of objects")
    return [_side(side) for side in sides]


def _is_object(value: Any) -> bool:
    return isinstance(value, dict)


def _side(side: Json) -> Optional[_Side]:
    found = policy_in(_text(side, "text"))
    try:
        tickets = tickets_of(_text(side, "limit"))
    except LimitError:
        return None
    return None if isinstance(found, Marked) else _Side(found, tickets, side.get("limited") is True)


def _shown(storm: Storm) -> Json:
    totals = storm.totals
    back = recovery_mark(storm)[1]
    until = " until the storm was cut" if totals.cut else ""
    requests = f"{totals.requests:,} {plural(totals.requests, 'request')}"
    brief = f"{share_text(totals)} of {requests} succeeded{until}{back and ', ' + back}"
    return {
        "brief": f"{brief}; {totals.calls_per_request:.2f} calls for each",
        "json": storm.policy.to_json(),
        "command": in_command(storm.policy, storm.parameters),
        "python": in_python(storm.policy, storm.parameters),
        "rust": in_rust(storm.policy, storm.parameters),
    }


def _parameters(asked: Any) -> Parameters:
    if not isinstance(asked, dict):
        raise BadRequest("storm: expected an object")
    told: Json = {name: _whole(name, asked[name]) for name in RANGES if asked.get(name) is not None}
    if asked.get("outage") is not None:
        told["outage"] = Span(*_wholes("outage", asked["outage"], 2))
    if asked.get("slow") is not None:
        told["slow"] = Slow(*_wholes("slow", asked["slow"], 3))
    if asked.get("rates") is not None:
        told["rates"] = _rates(asked["rates"])
    return Parameters(**told).checked()


def _rates(given: Any) -> Tuple[RateSpan, ...]:
    """One span, or a list of them."""
    is_list = isinstance(given, list) and all(isinstance(each, list) for each in given)
    return tuple(RateSpan(*_wholes("rates", each, 3)) for each in (given if is_list else [given]))


def _whole(name: str, value: Any) -> int:
    if isinstance(value, bool) or not isinstance(value, int):
        raise BadRequest(f"{name}: expected a whole number")
    return value


def _wholes(name: str, value: Any, count: int) -> List[int]:
    if not isinstance(value, list) or len(value) != count:
        raise BadRequest(f"{name}: expected {count} whole numbers")
    return [_whole(name, each) for each in value]


def _text(asked: Json, name: str) -> str:
    value = asked.get(name, "")
    if not isinstance(value, str):
        raise BadRequest(f"{name}: expected a text")
    return value


def _width(asked: Json) -> int:
    return min(MAX_WIDTH, max(MIN_WIDTH, _whole("width", asked.get("width", 560))))
