"""Reads a policy as it is written in Python, without running Python."""

from __future__ import annotations

import ast
import operator
import re
from typing import Any, Callable, Dict, Iterable, List, NoReturn, Type, Union

from .._time import milliseconds
from .._values import NamedTuple
from ..errors import Fault, PolicyError
from . import builders
from .nodes import MAX_DEPTH, NODES
from .policy import HOW_TO_JOIN, Policy

__all__ = ["Refused", "parse", "read"]

_BUILDERS = {name: getattr(builders, name) for name in builders.__all__}
_GATES = tuple(f"{way}_{side}" for way in ("while", "until") for side in NODES["gate"].items[0].words)
#: The methods of policies that the table of nodes has; `while_input` and its kin are one node.
_METHODS = tuple(
    name
    for node in NODES.values()
    for expression in node.python
    for found in re.findall(r"^\{A\}\.([^(]+)\(", expression)
    for name in (_GATES if "{" in found else (found,))
)

#: What joins two policies.
_JOINS: Dict[Type[ast.AST], Callable[[Policy, Policy], Policy]] = {
    ast.BitAnd: operator.and_,
    ast.BitOr: operator.or_,
    ast.RShift: operator.rshift,
}

#: How often an expression is parsed at most.
_MOST_PARSES = 100
#: How many characters of what was found an error quotes at most.
_MAX_QUOTED = 60


class Refused(NamedTuple):
    """What is no policy: why, and from where to where in the text."""

    error: PolicyError
    begins: int
    ends: int


class _Misplaced(Exception):
    """What a part of an expression is refused for."""

    def __init__(self, node: ast.expr, error: Exception) -> None:
        super().__init__(error)
        self.node = node
        self.error = error


def parse(text: str) -> Policy:
    """The policy that an expression of builders, methods and operators builds."""
    found = read(text)
    if isinstance(found, Refused):
        raise found.error
    return found


def read(text: str) -> Union[Policy, Refused]:
    """The same, or why there is none, and where. It may have several lines."""
    flat = "".join(" " if sign.isspace() else sign for sign in text)
    begins = len(flat) - len(flat.lstrip())
    spelt = flat.strip()
    try:
        built = _value(_tree(spelt))
    except SyntaxError as error:
        # (the place of an expression that ends too soon is 0, of Python 3.9 its last sign)
        is_short = not error.offset or "EOF" in error.msg
        offset = (len(spelt) if is_short else int(error.offset or 1)) - 1
        ends = max(offset + 1, (getattr(error, "end_offset", None) or 0) - 1)
        if is_short:
            hint = f"the expression ends too soon in {_quoted(text)}"
        else:
            hint = f"expected an expression, as recurs(3) & exponential(0.1, 2), got {_quoted(text)}: {error.msg}"
        refused = PolicyError(Fault.NOT_A_PLAN, hint=hint)
        return Refused(refused, begins + min(offset, len(spelt)), begins + min(ends, len(spelt)))
    except (RecursionError, MemoryError):
        hint = f"expected a plan at most {MAX_DEPTH} deep"
        return Refused(PolicyError(Fault.TOO_DEEP, hint=hint), begins, begins + len(spelt))
    except UnicodeEncodeError:
        refused = PolicyError(Fault.NOT_A_PLAN, hint=f"expected an expression in UTF-8, got {_quoted(text)}")
        return Refused(refused, begins, begins + len(spelt))
    except ValueError as error:
        return Refused(PolicyError(Fault.NOT_A_PLAN, hint=str(error)), begins, begins + len(spelt))
    except _Misplaced as found:
        why = found.error
        refused = why if isinstance(why, PolicyError) else PolicyError(Fault.NOT_A_PLAN, hint=str(why))
        first, last = (_signs(spelt, at or 0) for at in (found.node.col_offset, found.node.end_col_offset))
        return Refused(refused, begins + first, begins + last)
    if not isinstance(built, Policy):
        refused = PolicyError(Fault.NOT_A_PLAN, hint=f"expected a policy, got {_quoted(text)}")
        return Refused(refused, begins, begins + len(spelt))
    return built


def _tree(spelt: str) -> ast.expr:
    """The tree of an expression. Some Pythons, 3.11.2 and 3.11.7 among them, raise a SystemError now and then if
    another thread parses too (CPython's issue 106905). The text is not at fault, so it is parsed again."""
    for _ in range(_MOST_PARSES - 1):
        try:
            return ast.parse(spelt, mode="eval").body
        except SystemError:
            pass
    return ast.parse(spelt, mode="eval").body


def _signs(line: str, count: int) -> int:
    """How many characters so many bytes of a line are."""
    return len(line.encode("utf-8", "surrogatepass")[:count].decode("utf-8", "ignore"))


def _value(node: ast.expr) -> Any:
    """The value of a part of an expression."""
    try:
        return _evaluated(node)
    except (PolicyError, TypeError) as error:
        raise _Misplaced(node, error) from None


def _evaluated(node: ast.expr) -> Any:
    if isinstance(node, ast.Constant) and type(node.value) in (int, float, str):
        return node.value
    if isinstance(node, ast.UnaryOp) and isinstance(node.op, ast.USub):
        inner = _value(node.operand)
        return -inner if isinstance(inner, (int, float)) else _refuse(node)
    if isinstance(node, (ast.BinOp, ast.BoolOp)):
        parts = [_value(part) for part in (node.values if isinstance(node, ast.BoolOp) else (node.left, node.right))]
        if all(isinstance(part, Policy) for part in parts):
            joins = _JOINS.get(type(node.op))
            return _misjoined(node) if joins is None else joins(*parts)
    if isinstance(node, ast.Call):
        return _called(node)
    return _refuse(node)


def _called(node: ast.Call) -> Any:
    arguments: List[Any] = [_value(argument) for argument in node.args]
    named: Dict[str, Any] = {}
    for keyword in node.keywords:
        if keyword.arg is None:
            return _refuse(node)
        named[keyword.arg] = _value(keyword.value)
    called = node.func
    if isinstance(called, ast.Name):
        if called.id == "milliseconds":
            return milliseconds(*arguments, **named)
        if called.id in _BUILDERS:
            return _BUILDERS[called.id](*arguments, **named)
        raise _unknown("builder", called.id, _BUILDERS)
    if isinstance(called, ast.Attribute):
        under = _value(called.value)
        if isinstance(under, Policy):
            if called.attr not in _METHODS:
                raise _unknown("method", called.attr, _METHODS)
            return getattr(under, called.attr)(*arguments, **named)
    return _refuse(node)


def _quoted(text: str) -> str:
    """What was found, cut as the engine cuts it.

    >>> _quoted(" recurs "), _quoted("a" * 61) == repr("a" * 60 + "..")
    ("'recurs'", True)
    """
    found = text.strip()
    return repr(found if len(found) <= _MAX_QUOTED else found[:_MAX_QUOTED] + "..")


def _unknown(kind: str, name: str, known: Iterable[str]) -> PolicyError:
    import difflib

    close = difflib.get_close_matches(name, known, 1)
    hint = f"; did you mean {close[0]!r}?" if close else ""
    return PolicyError(Fault.NOT_A_PLAN, hint=f"no {kind} is called {_quoted(name)}{hint}")


def _misjoined(node: ast.expr) -> NoReturn:
    raise PolicyError(Fault.NOT_A_PLAN, hint=f"{HOW_TO_JOIN}, got {_quoted(ast.unparse(node))}")


def _refuse(node: ast.expr) -> Any:
    text = ast.unparse(node)
    expected = f"{text}(..)" if text in _BUILDERS else "a policy"
    raise PolicyError(Fault.NOT_A_PLAN, hint=f"expected {expected}, got {_quoted(text)}")
