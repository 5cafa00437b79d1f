"""What options of a retry are given: hooks, what is retried, and what stops it."""

from __future__ import annotations

from typing import Any, Callable, Optional, Tuple, Type

from .._functions import is_async, look_at_function

__all__ = ["hooks_of", "parts_of_on", "stop_of"]


def hooks_of(name: str, given: Any, awaits: bool) -> Tuple[Any, ...]:
    """The hooks that were given: none, one, or a list."""
    if given is None:
        return ()
    hooks = tuple(given) if isinstance(given, (list, tuple)) else (given,)
    for hook in hooks:
        if not callable(hook):
            raise TypeError(f"{name}: expected a function of the RetryState, or a list of such, got {hook!r}")
        look_at_function(name, hook, awaits)
    return hooks


def parts_of_on(on: Any, awaits: bool) -> Tuple[Tuple[Type[BaseException], ...], Tuple[Callable[[Any], Any], ...]]:
    """The types and the functions among what says which exceptions are retried."""
    parts = on if isinstance(on, tuple) else (on,)
    for part in parts:
        if isinstance(part, type):
            if not issubclass(part, BaseException):
                raise TypeError(f"on: expected exception types or functions, got {part!r}")
        elif isinstance(part, BaseException):
            raise TypeError(f"on: expected the type {type(part).__name__}, got an exception of it, {part!r}")
        elif not callable(part):
            raise TypeError(f"on: expected exception types or functions, got {part!r}")
        else:
            look_at_function("on", part, awaits)
    types = tuple(part for part in parts if isinstance(part, type))
    return types, tuple(part for part in parts if not isinstance(part, type))


def stop_of(stop: Any, awaits: bool) -> Optional[Callable[[Any], Any]]:
    """A function of the state that says whether a retry is stopped."""
    if stop is None:
        return None
    is_set = getattr(stop, "is_set", None)
    if callable(is_set):
        if not awaits and is_async(getattr(stop, "wait", None)):
            kind = f"{type(stop).__module__.partition('.')[0]}.{type(stop).__name__}"
            raise TypeError(f"stop: {kind} is for coroutines; expected an event of threading or multiprocessing")
        asked: Callable[[], Any] = is_set
        return lambda state: asked()
    if not callable(stop) or isinstance(stop, type):
        raise TypeError(f"stop: expected an event, or a function of the RetryState, got {stop!r}")
    look_at_function("stop", stop, awaits=False)
    function: Callable[[Any], Any] = stop
    return function
