"""Where in a text the fault of a policy is."""

from __future__ import annotations

import json
import re
from typing import NamedTuple, Tuple, Union

from ..errors import Fault, PolicyError
from ..policy import Policy
from ..policy.parsing import read

__all__ = ["Marked", "is_json", "policy_in"]

_SPACE = re.compile(r"[ \t\n\r]*")
_STEP = re.compile(r"(\w+)(?:\[(\d+)\])?")


class Marked(NamedTuple):
    """A fault of a text: from where to where, what it is, and what is wanted there."""

    begins: int
    ends: int
    said: str
    hint: str


def is_json(text: str) -> bool:
    """Whether the text is meant as JSON, and not as an expression."""
    return text.lstrip()[:1] in ("{", "[", '"')


def policy_in(text: str) -> Union[Policy, Marked]:
    """The policy that a text spells, as an expression or as JSON, or its first fault.

    >>> policy_in("recurs(3) & spaced(1)")
    recurs(3) & spaced(1)
    >>> found = policy_in("recurs(3) & spced(1)")
    >>> "recurs(3) & spced(1)"[found.begins : found.ends], found.hint
    ('spced(1)', "no builder is called 'spced'; did you mean 'spaced'?")
    """
    if not text.strip():
        return Marked(0, 0, "no policy", "expected an expression, as recurs(3) & exponential(0.1, 2), or JSON")
    if not is_json(text):
        found = read(text)
        if isinstance(found, Policy):
            return found
        return Marked(found.begins, found.ends, found.error.fault.value, found.error.hint or found.error.place)
    try:
        return Policy.from_json(text)
    except PolicyError as error:
        if error.fault is Fault.NOT_JSON:
            return _no_json(text, error)
        begins, ends = _span(text, error.place)
        return Marked(begins, ends, error.fault.value, error.hint or error.place)


def _no_json(text: str, error: PolicyError) -> Marked:
    """Where a text stops being JSON, as Python's own reader finds it where it refuses the text, too."""
    begins, ends, hint = 0, len(text.rstrip()), error.hint or error.place
    try:
        json.loads(text)
    except json.JSONDecodeError as found:
        if found.pos < ends:
            # (in Python's words, which say more of a place within the text)
            hint = f"{found.msg.removesuffix(' at')} at line {found.lineno}, column {found.colno}"
        begins = min(found.pos, max(0, ends - 1))
        ends = min(begins + 1, len(text))
    except (RecursionError, ValueError):
        # (too deep for Python's reader, or a number too long for it)
        pass
    return Marked(begins, ends, error.fault.value, hint)


def _span(text: str, place: str) -> Tuple[int, int]:
    """From where to where the place is that `zsched check` tells."""
    at = _after_space(text, 0)
    try:
        for step in filter(None, place.split(".")):
            at = _step(text, at, step)
        return at, _end(text, at)
    except (ValueError, IndexError):
        return at, len(text.rstrip())


def _step(text: str, at: int, step: str) -> int:
    """Where the value begins to which a step such as `meet[1]` goes from the object that begins here."""
    named = _STEP.fullmatch(step)
    if named is None or text[at] != "{":
        raise ValueError(step)
    key, at = json.JSONDecoder().raw_decode(text, _after_space(text, at + 1))
    if key != named[1]:
        raise ValueError(step)
    at = _after_space(text, _after_space(text, at) + 1)
    if named[2] is None:
        return at
    at = _after_space(text, at + 1)
    for _ in range(int(named[2])):
        at = _after_space(text, _after_space(text, _end(text, at)) + 1)
    return at


def _end(text: str, at: int) -> int:
    """Where the value ends that begins here."""
    end: int = json.JSONDecoder().raw_decode(text, at)[1]
    return end


def _after_space(text: str, at: int) -> int:
    space = _SPACE.match(text, at)
    return at if space is None else space.end()
