"""Functions that are given: whether one is of a coroutine or of a generator, and what is refused in its place."""

from __future__ import annotations

from types import BuiltinFunctionType, FunctionType
from typing import Any

__all__ = ["GENERATORS", "is_async", "is_generator", "look_at_function", "look_at_generator", "unwrapped"]

#: The flags of code by which `inspect` knows generators and coroutines.
_COROUTINE, GENERATORS = 0x80, 0x20 | 0x200


def is_async(fn: Any) -> bool:
    """Whether it is a coroutine function, or an object whose calls are coroutines."""
    if type(fn) is FunctionType and not fn.__dict__:
        return fn.__code__.co_flags & _COROUTINE != 0
    if isinstance(fn, BuiltinFunctionType):
        return False
    import inspect

    return inspect.iscoroutinefunction(fn) or inspect.iscoroutinefunction(getattr(fn, "__call__", None))


def is_generator(fn: Any) -> bool:
    """Whether it is a generator function, of coroutines or not."""
    if type(fn) is FunctionType:
        return fn.__code__.co_flags & GENERATORS != 0
    import inspect

    return inspect.isgeneratorfunction(fn) or inspect.isasyncgenfunction(fn)


def look_at_generator(fn: Any) -> None:
    """Refuses a generator function, whose calls return before it runs."""
    if is_generator(fn):
        raise TypeError("a generator runs after its call has returned: retry what it calls")


def unwrapped(fn: Any) -> Any:
    """The function that decorators have wrapped."""
    if not hasattr(fn, "__wrapped__"):
        return fn
    import inspect

    return inspect.unwrap(fn)


def look_at_function(name: str, fn: Any, awaits: bool) -> None:
    """Refuses what is given, and no function, or a coroutine function where none is awaited."""
    if fn is None:
        return
    if not callable(fn):
        raise TypeError(f"{name}: expected a function, got {fn!r}")
    if not awaits and is_async(fn):
        raise TypeError(f"{name}: expected a plain function, got {fn!r}, which is a coroutine function")
