"""How a policy is written in Python and in Rust: the expression that builds it, by the table of nodes."""

from __future__ import annotations

import re
from typing import Any, Callable, Dict, NamedTuple, Optional, Tuple

from .._time import seconds_text
from .nodes import NODES, parts_of

__all__ = ["duration", "spelt", "spelt_in_rust"]

#: An item in an expression of the table: its letter, and how it is written if not as its unit is.
_PLACE = re.compile(r"\{(\w+)(?::(\w+))?\}")


def duration(milliseconds: int) -> str:
    """A `Duration` of Rust.

    >>> duration(100), duration(2000)
    ('Duration::from_millis(100)', 'Duration::from_secs(2)')
    """
    if milliseconds and milliseconds % 1000 == 0:
        return f"Duration::from_secs({milliseconds // 1000})"
    return f"Duration::from_millis({milliseconds})"


class _Language(NamedTuple):
    """How a language writes items."""

    expressions: Callable[[str], Tuple[str, ...]]
    duration: Callable[[int], str]
    ratio: Callable[[int], str]


_PYTHON = _Language(lambda name: NODES[name].python, seconds_text, lambda count: f"{count / 1000:g}")
_RUST = _Language(lambda name: NODES[name].rust, duration, lambda count: repr(count / 1000))

#: How an item is written that the table names so; None where it can't be.
_WAYS: Dict[str, Callable[[Any], Optional[str]]] = {
    "part": lambda count: repr(count / 1000) if count % 1000 else None,
    "whole": lambda count: None if count % 1000 else str(count // 1000),
    "option": lambda lane: f", lane={lane}" if lane else "",
    "none": lambda lane: None if lane else "",
    "way": lambda want: "while" if want else "until",
    "camel": lambda word: "".join(part.capitalize() for part in word.split("_")),
}


def spelt(tree: Any) -> str:
    """The expression of Python that builds a policy."""
    return _spelt(tree, _PYTHON)


def spelt_in_rust(tree: Any) -> str:
    """The expression of Rust that builds the schedule of a policy.

    >>> spelt_in_rust({"meet": [{"recurs": 5}, {"jitter": [0, 800, 1200, {"spaced": 100}]}]})
    'Schedule::recurs(5) & Schedule::spaced(Duration::from_millis(100)).jittered(0.8..1.2)'
    """
    return _spelt(tree, _RUST)


def _spelt(tree: Any, language: _Language) -> str:
    name, own, plans = parts_of(tree)
    values = iter(own), iter(plans)
    items = {item.letter: (item.unit, next(values[item.unit == "plan"])) for item in NODES[name].items}
    for expression in language.expressions(name):
        found = [_written(items, place, language, name) for place in _PLACE.finditer(expression)]
        if None not in found:
            rest = iter(found)
            return _PLACE.sub(lambda _: str(next(rest)), expression)
    raise AssertionError(f"no expression of the table can spell {tree!r}")


def _written(items: Dict[str, Tuple[str, Any]], place: re.Match[str], language: _Language, name: str) -> Optional[str]:
    """An item in its place, or None where that can't spell it."""
    letter, way = place.groups()
    unit, value = items[letter]
    if unit == "plan":
        if way == "inner":
            return _spelt(value, language)
        return _operand(value, language, name if letter == "A" and _is_operator(name) else None)
    if way == "ratio":
        return language.ratio(value)
    if way is not None:
        return _WAYS[way](value)
    return language.duration(value) if unit == "ms" else str(value)


def _is_operator(name: str) -> bool:
    return NODES[name].python[0].startswith("{A} ")


def _operand(tree: Any, language: _Language, before: Optional[str]) -> str:
    """The expression in the place of an operand: in parentheses if it has an operator that is not `before`."""
    name = tree if isinstance(tree, str) else next(iter(tree))
    text = _spelt(tree, language)
    return f"({text})" if name != before and _is_operator(name) else text
