"""The first fault of a bad policy, its place and what is wanted there: a second finder beside the engine's.

The tests compare the two. It shares nothing with the engine or the package but the names of the faults.
"""

from __future__ import annotations

import json
from typing import Any, Dict, List, NamedTuple, Optional, Tuple

from hikebox import MAX_NUMBER, Fault

MAX_NODES = 256
MAX_DEPTH = 32
U64 = 2**64 - 1

#: The leaves that are spelt as a string alone.
NAMES = ("forever", "elapsed", "identity")

SIDES = ("input", "output")
TESTS = ("below", "at_least", "equal")
FOLDS = ("sum", "count", "max", "list")


class Form(NamedTuple):
    """How a node is spelt: the kinds of its items in order, and the letters and ranges of those that are numbers."""

    kinds: Tuple[str, ...]
    letters: Tuple[str, ...] = ()
    ranges: Tuple[Tuple[int, int], ...] = ()


def _numbers(**ranges: Tuple[int, int]) -> Form:
    return Form(("number",) * len(ranges), tuple(ranges), tuple(ranges.values()))


def _delay(least: int) -> Form:
    return Form(("number", "plan"), ("D",), ((least, MAX_NUMBER),))


_ANY = (0, MAX_NUMBER)
_SOME = (1, MAX_NUMBER)
_ONE = Form(("plan",))
_BOTH = Form(("plan", "plan"))

#: The nodes that are spelt as an object with one member. An item is the member's value where it is the only one.
FORMS: Dict[str, Form] = {
    "recurs": _numbers(N=_ANY),
    "spaced": _numbers(D=_ANY),
    "fixed": _numbers(D=_SOME),
    "windowed": _numbers(D=_SOME),
    "linear": _numbers(D=_ANY),
    "exponential": _numbers(D=_ANY, F=(1, 1000)),
    "exponential_milli": _numbers(D=_ANY, F=(1, 1000000)),
    "fibonacci": _numbers(D=_ANY),
    "decorrelated": _numbers(LANE=(0, 3), D=_ANY, F=(1000, 1000000), MAX=_ANY),
    "unfold": _numbers(S=_ANY, M=_ANY, A=_ANY),
    "lone": _numbers(D=_ANY),
    "meet": _BOTH,
    "join": _BOTH,
    "follow": _BOTH,
    "feed": _BOTH,
    "gate": Form(("side", "truth", "test", "number", "plan"), ("N",), (_ANY,)),
    "gather": Form(("fold", "plan")),
    "add": _delay(0),
    "set": _delay(0),
    "cap": _delay(0),
    "add_out": _ONE,
    "jitter": Form(("number", "number", "number", "plan"), ("LANE", "MIN", "MAX"), ((0, 3), (0, 10000), (0, 10000))),
    "within": _delay(0),
    "ends_by": _delay(0),
    "renew": _delay(1),
    "renew_idle": _delay(1),
    "first": _ONE,
    "second": _ONE,
    "nothing": _ONE,
}

#: All names, in the order in which the nearest to another is looked for.
_ALL = ("forever", *tuple(FORMS)[:9], "elapsed", "identity", *tuple(FORMS)[9:])

#: The words for the items that are no numbers, and what they may be.
_WORDS = {"plan": "PLAN", "side": "SIDE", "truth": "WANT", "test": "TEST", "fold": "KIND"}
_CHOICES = {
    "side": 'SIDE "input" or "output"',
    "truth": "WANT true or false",
    "test": 'TEST "below", "at_least" or "equal"',
    "fold": 'KIND "sum", "count", "max" or "list"',
}
_OWN_RANGES = {
    "unfold": f"each from 0 to {MAX_NUMBER}",
    "decorrelated": f"LANE from 0 to 3, D from 0 to MAX, F from 1000 to 1000000, MAX from D to {MAX_NUMBER}",
    "jitter": "LANE from 0 to 3, MIN at most MAX, MAX at most 10000",
}

#: The two numbers of a node of which the first is at most the second.
_AT_MOST = {"decorrelated": (1, 3), "jitter": (1, 2)}

_WANTED = "expected a plan, a string or an object with one member"


class Found(NamedTuple):
    fault: Fault
    place: str
    hint: str


class Wrong(Exception):
    """A policy has a fault."""

    def __init__(self, fault: Fault, place: str, hint: str) -> None:
        super().__init__()
        self.found = Found(fault, place, hint)


def fault_of(value: Any) -> Optional[Found]:
    """The first fault of a JSON value that should be a policy, in the order in which the engine looks, or None.

    Of each node its own form comes first, then its policies from left to right, then the ranges of its numbers, the
    depth and the number of nodes.
    """
    try:
        _size(value, "")
    except Wrong as wrong:
        return wrong.found
    return None


def _size(value: Any, place: str) -> Tuple[int, int]:
    """How many nodes the policy has, and how deep it is; raises its first fault."""
    name, items = _spelt(value, place)
    form = FORMS.get(name, Form(()))
    nodes, depth = 1, 1
    for index, (kind, item) in enumerate(zip(form.kinds, items)):
        if kind == "plan":
            step = name if len(form.kinds) == 1 else f"{name}[{index}]"
            under, deep = _size(item, f"{place}.{step}" if place else step)
            nodes += under
            depth = max(depth, deep + 1)
    numbers = [item for kind, item in zip(form.kinds, items) if kind == "number"]
    in_range = all(least <= number <= most for number, (least, most) in zip(numbers, form.ranges))
    if name in _AT_MOST:
        lesser, greater = _AT_MOST[name]
        in_range = in_range and numbers[lesser] <= numbers[greater]
    if not in_range:
        raise Wrong(Fault.OUT_OF_RANGE, place, f"{_spelling(name)}, got {_shown(value)}")
    if depth > MAX_DEPTH:
        raise Wrong(Fault.TOO_DEEP, place, f"expected a plan at most {MAX_DEPTH} deep")
    if nodes > MAX_NODES:
        raise Wrong(Fault.TOO_MANY, place, f"expected a plan of at most {MAX_NODES} nodes")
    return nodes, depth


def _spelt(value: Any, place: str) -> Tuple[str, List[Any]]:
    """The name of a node and its items, where it has the form of one."""
    if isinstance(value, str):
        if value in NAMES:
            return value, []
        raise _named(value, value, place)
    if not isinstance(value, dict):
        raise Wrong(Fault.NOT_A_PLAN, place, f"{_WANTED}, got {_shown(value)}")
    if len(value) != 1:
        raise Wrong(Fault.NOT_A_PLAN, place, f"{_WANTED}, got one with {len(value)}")
    ((name, inner),) = value.items()
    if name not in FORMS:
        raise _named(name, value, place)
    kinds = FORMS[name].kinds
    items = [inner] if len(kinds) == 1 else inner
    if not isinstance(items, list) or len(items) != len(kinds):
        raise _named(name, value, place)
    if not all(_has_kind(kind, item) for kind, item in zip(kinds, items)):
        wrong = _named(name, value, place)
        if name == "exponential" and _is_number(items[1]) and not _has_kind("number", items[1]):
            found = wrong.found
            wrong = Wrong(found.fault, place, f'{found.hint}; a factor of 1.5 is 1500 in "exponential_milli"')
        raise wrong
    return name, items


def _is_number(item: Any) -> bool:
    return isinstance(item, (int, float)) and not isinstance(item, bool)


def _has_kind(kind: str, item: Any) -> bool:
    if kind == "number":
        return isinstance(item, int) and not isinstance(item, bool) and 0 <= item <= U64
    if kind == "truth":
        return isinstance(item, bool)
    words = {"side": SIDES, "test": TESTS, "fold": FOLDS}.get(kind)
    return words is None or (isinstance(item, str) and item in words)


#: Words of other libraries.
_FOREIGN = {
    **dict.fromkeys(("and", "both", "intersect"), "meet"),
    **dict.fromkeys(("or", "either", "union"), "join"),
    **dict.fromkeys(("andThen", "and_then", "then"), "follow"),
    **dict.fromkeys(("retry", "times", "attempts", "max_retries"), "recurs"),
    **dict.fromkeys(("constant", "delay", "wait"), "spaced"),
    **{"backoff": "exponential", "always": "forever", "upTo": "within", "max_delay": "cap"},
}


def _named(name: str, value: Any, place: str) -> Wrong:
    """The fault of a node of this name that has not its form, or that there is not."""
    if name in NAMES or name in FORMS:
        return Wrong(Fault.NOT_A_PLAN, place, f"{_spelling(name)}, got {_shown(value)}")
    if name in _FOREIGN:
        return Wrong(Fault.NOT_A_PLAN, place, f'no node is called "{name}"; did you mean "{_FOREIGN[name]}"?')
    near = [(distance, known) for known in _ALL for distance in [_edits(name, known)] if distance <= 2]
    hint = f'no node is called "{name}"'
    if near:
        hint += f'; did you mean "{min(near, key=lambda one: one[0])[1]}"?'
    return Wrong(Fault.NOT_A_PLAN, place, hint)


def _spelling(name: str) -> str:
    """How the node of this name is spelt."""
    if name in NAMES:
        return f'expected "{name}"'
    form = FORMS[name]
    letters = iter(form.letters)
    items = ",".join(next(letters) if kind == "number" else _WORDS[kind] for kind in form.kinds)
    said = [_CHOICES[kind] for kind in form.kinds if kind in _CHOICES]
    said += [f"{letter} from {least} to {most}" for letter, (least, most) in zip(form.letters, form.ranges)]
    if name in _OWN_RANGES:
        said = [_OWN_RANGES[name]]
    inner = items if len(form.kinds) == 1 else f"[{items}]"
    return ", ".join([f'expected {{"{name}":{inner}}}', *said])


def _shown(value: Any) -> str:
    """What was found, as the engine writes JSON: members in order of their names, at most 60 letters."""
    text = json.dumps(_as_read(value), ensure_ascii=False, sort_keys=True, separators=(",", ":"))
    return text if len(text) <= 60 else f"{text[:60]}.."


def _as_read(value: Any) -> Any:
    """The value with each whole number that has no place in 64 bits as a float, as the engine reads it."""
    if isinstance(value, dict):
        return {name: _as_read(item) for name, item in value.items()}
    if isinstance(value, list):
        return [_as_read(item) for item in value]
    if isinstance(value, int) and not isinstance(value, bool) and not -(2**63) <= value <= U64:
        return float(value)
    return value


def _edits(one: str, other: str) -> int:
    """How many letters have to be put in, left out or changed to make one word the other."""
    row = list(range(len(other) + 1))
    for count, letter in enumerate(one, start=1):
        before, row[0] = row[0], count
        for index, wanted in enumerate(other, start=1):
            before, row[index] = row[index], min(row[index] + 1, row[index - 1] + 1, before + (letter != wanted))
    return row[-1]
