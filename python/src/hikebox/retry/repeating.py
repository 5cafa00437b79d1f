"""Repeating calls that succeed: `@repeat`, `@poll_until`, `Repeating` and `AsyncRepeating`."""

from __future__ import annotations

from typing import Any, Callable, Dict, cast

from .._functions import is_async, look_at_function
from ..retrying import AsyncRetrying, BaseRetrying, Retrying, decorator, look_at_names
from .drivers import not_awaitable
from .options import DEFAULTS, PolicyLike
from .retried import Decorator

__all__ = ["AsyncRepeating", "Repeating", "poll_until", "repeat"]


class Repeating(Retrying):
    """Calls a function again as long as its policy goes on, and returns the last result.

    Each call that returns is an event of the policy, which sees the result's number (`code_of`). The first exception
    but `TryAgain` ends the repeat and is raised. It takes the options of `Retrying`, except `on` and `hedge_after`.

    >>> from hikebox import recurs, spaced
    >>> answers = iter([202, 202, 200, 404])
    >>> Repeating(spaced(0.001).while_input(equal=202))(next, answers)
    200
    """

    __slots__ = ()

    _REPEATS = True

    def __init__(self, policy: PolicyLike, **how: Any) -> None:
        super().__init__(policy, **_without_on(type(self).__name__, how))


class AsyncRepeating(AsyncRetrying):
    """Calls a coroutine function again as long as its policy goes on, as `Repeating` does with a function."""

    __slots__ = ()

    _REPEATS = True

    def __init__(self, policy: PolicyLike, **how: Any) -> None:
        super().__init__(policy, **_without_on(type(self).__name__, how))


def _without_on(called: str, how: Dict[str, Any]) -> Dict[str, Any]:
    look_at_names(called, how, DEFAULTS)
    if how.pop("on", ()) != ():
        raise TypeError(f"{called}() takes no `on`: it ends with the first exception; retry what it calls")
    return {**how, "on": ()}


def repeat(policy: PolicyLike, **how: Any) -> Decorator:
    """Repeats each call of a function or a coroutine function as long as a policy goes on, as `Repeating` does.

    >>> from hikebox import recurs
    >>> seen = []
    >>> @repeat(recurs(3))
    ... def tick():
    ...     seen.append(len(seen))
    ...     return len(seen)
    >>> tick(), seen
    (4, [0, 1, 2, 3])
    """
    return decorator(Repeating, AsyncRepeating, "repeat", policy, how)


def poll_until(policy: PolicyLike, accepts: Callable[[Any], Any], **how: Any) -> Decorator:
    """Calls a function or a coroutine function again until `accepts` is true of its result, and returns that.

    If the policy is done before that, it raises a `ResultRefused` with the last result, or returns what `fallback`
    returns. An exception is raised at once, unless `on` names it: then it calls again. It takes the options of
    `Retrying`, except `on_result`.

    >>> from hikebox import recurs, spaced
    >>> states = iter(["queued", "running", "done"])
    >>> @poll_until(recurs(9) & spaced(0.001), lambda state: state == "done")
    ... def state_of_job():
    ...     return next(states)
    >>> state_of_job()
    'done'
    """
    look_at_function("accepts", accepts, awaits=True)
    look_at_names("poll_until", how, [name for name in DEFAULTS if name != "on_result"])

    def refuses(result: Any) -> Any:
        return not not_awaitable(accepts(result))

    async def refuses_later(result: Any) -> Any:
        accepted = accepts(result)
        return not (await accepted if hasattr(type(accepted), "__await__") else accepted)

    def decorate(fn: Any) -> Any:
        given: Dict[str, Any] = {"on": (), **how}
        inner = fn.__func__ if isinstance(fn, (classmethod, staticmethod)) else fn
        kind, test = (AsyncRetrying, refuses_later) if is_async(inner) else (Retrying, refuses)
        look_at_function("accepts", accepts, awaits=kind is AsyncRetrying)
        made: BaseRetrying = kind(policy, on_result=test, **given)
        return made.wraps(fn)

    return cast(Decorator, decorate)
