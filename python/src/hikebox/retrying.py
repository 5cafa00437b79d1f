"""Retries of calls: `@retry`, `Retrying` and `AsyncRetrying`."""

from __future__ import annotations

import functools
from types import FunctionType
from typing import (
    TYPE_CHECKING,
    Any,
    AsyncIterator,
    Awaitable,
    Callable,
    ClassVar,
    Coroutine,
    Dict,
    Iterable,
    Iterator,
    Type,
    TypeVar,
    overload,
)

from ._functions import GENERATORS, is_async, look_at_generator, unwrapped
from .policy import Policy
from .retry.attempts import AsyncAttempts, Attempt, Attempts
from .retry.drivers import run, run_async
from .retry.options import ABOUT, DEFAULTS, Options, PolicyLike, Tickets
from .retry.retried import Decorator, Retried
from .retry.settings import Settings
from .retry.state import Counts, Statistics

__all__ = ["AsyncRetrying", "Attempt", "BaseRetrying", "Retried", "Retrying", "Tickets", "retry"]

Result = TypeVar("Result")
First = TypeVar("First")
Self = TypeVar("Self", bound="BaseRetrying")


def _named_after(kind: type, init: Any) -> Any:
    """Returns the same `__init__` under the name of this class, which errors show."""
    own = FunctionType(init.__code__, init.__globals__, "__init__", init.__defaults__, init.__closure__)
    own.__kwdefaults__, own.__annotations__, own.__doc__ = init.__kwdefaults__, init.__annotations__, init.__doc__
    own.__module__, own.__qualname__ = kind.__module__, f"{kind.__qualname__}.__init__"
    own.__dict__.update(init.__dict__)
    return own


def _takes(first: str, **annotations: Any) -> Any:
    """A function with the parameters of a `Retrying`. As what another one wraps, it gives it its signature."""
    made: Dict[str, Any] = {}
    exec(f"def takes({first}policy, *, {', '.join(DEFAULTS)}): ...", made)
    takes = made["takes"]
    takes.__kwdefaults__, takes.__annotations__ = dict(DEFAULTS), annotations
    return takes


def look_at_names(called: str, given: Iterable[str], known: Iterable[str]) -> None:
    """Raises a `TypeError` for a keyword argument that is not known, with the nearest one."""
    for name in given:
        if name not in known:
            import difflib

            near = difflib.get_close_matches(name, known, 1, 0.65)
            hint = f"; did you mean {near[0]!r}?" if near else ""
            raise TypeError(f"{called}() got an unexpected keyword argument {name!r}{hint}")


if TYPE_CHECKING:
    from typing_extensions import Concatenate, ParamSpec

    from .retry.retried import RetriedFunction, TakesAny

    Parameters = ParamSpec("Parameters")


class BaseRetrying(Options):
    """What `Retrying` and `AsyncRetrying` have in common: a policy and options. Threads may share it."""

    __slots__ = ("settings", "counts", "__weakref__")

    #: Whether calls are awaited, and whether it repeats successes.
    _AWAITS: ClassVar[bool] = False
    _REPEATS: ClassVar[bool] = False

    if TYPE_CHECKING:

        @property
        def policy(self) -> Policy:
            """When to call again."""

    else:

        def __init__(self, policy, **given):
            if given:
                look_at_names(type(self).__name__, given, DEFAULTS)
            self.settings = Settings(policy, given, self._AWAITS, self._REPEATS)
            self.counts = Counts()

        __init__.__wrapped__ = _takes("self, ")
        __doc__ = f"{__doc__ or str()}\n\n    {ABOUT}"

    #: The policy and the options, and what follows from them.
    settings: Settings
    #: Counts of its calls.
    counts: Counts

    def __init_subclass__(cls, **how: Any) -> None:
        super().__init_subclass__(**how)
        if "__init__" not in cls.__dict__:
            setattr(cls, "__init__", _named_after(cls, getattr(cls, "__init__")))

    @property
    def given(self) -> Dict[str, Any]:
        """The policy, and the options that differ from their defaults."""
        return {"policy": self.settings.policy, **self.settings.given}

    def copy(self: Self, **changes: Any) -> Self:
        """Returns another one with these options changed, and counts of its own."""
        look_at_names("copy", changes, ("policy", *DEFAULTS))
        return type(self)(**{**self.given, **changes})

    def __copy__(self: Self) -> Self:
        return self.copy()

    def __reduce__(self) -> Any:
        return _made, (type(self), self.given)

    @property
    def statistics(self) -> Statistics:
        """Counts over all finished calls, of all threads."""
        return self.counts.seen()

    @overload
    def wraps(self, fn: TakesAny[Result]) -> Retried[..., Result]:
        ...

    @overload
    def wraps(  # type: ignore[misc]
        self, fn: Callable[Concatenate[First, Parameters], Result]
    ) -> RetriedFunction[First, Parameters, Result]:
        ...

    @overload
    def wraps(self, fn: Callable[Parameters, Result]) -> Retried[Parameters, Result]:
        ...

    def wraps(self, fn: Any) -> Any:
        """Returns the function with retries. Its `retry` is this object, and its `retry_with(..)` returns a copy of the
        function with other options."""
        if isinstance(fn, (classmethod, staticmethod)):
            return type(fn)(self.wraps(fn.__func__))
        if not callable(fn):
            raise TypeError(f"expected a function, got {fn!r}")
        look_at_generator(fn)

        def retry_with(**changes: Any) -> Any:
            look_at_names("retry_with", changes, ("policy", *DEFAULTS))
            return self.copy(**changes).wraps(fn)

        wrapped = functools.update_wrapper(self._wrapped(fn), fn)
        wrapped.retry, wrapped.retry_with = self, retry_with
        return wrapped

    def _wrapped(self, fn: Any) -> Any:
        raise NotImplementedError

    def __repr__(self) -> str:
        limit = f", limit={self.limit!r}" if self.limit is not None else ""
        return f"{type(self).__name__}({self.policy!r}{limit})"


def _made(kind: Type[BaseRetrying], given: Dict[str, Any]) -> BaseRetrying:
    return kind(**given)


class Retrying(BaseRetrying):
    """Retries calls of functions, and `with` blocks.

    >>> from hikebox import recurs
    >>> answers = iter([ConnectionError(), ConnectionError(), "here"])
    >>> def ask():
    ...     answer = next(answers)
    ...     if isinstance(answer, Exception):
    ...         raise answer
    ...     return answer
    >>> Retrying(recurs(5), on=ConnectionError)(ask)
    'here'

    Iterate over it to retry a block:

    >>> answers = iter([ConnectionError(), "here"])
    >>> for attempt in Retrying(recurs(5)):
    ...     with attempt:
    ...         answer = ask()
    >>> answer
    'here'
    """

    __slots__ = ()

    def __call__(self, fn: Callable[..., Result], /, *args: Any, **kwargs: Any) -> Result:
        """Calls the function until it succeeds or the retry gives up, which raises its last exception."""
        code = getattr(fn, "__code__", None)  # (each call pays for this look, and for no function)
        if code is not None and code.co_flags & GENERATORS:
            look_at_generator(fn)
        result: Result = run(self, fn, args, kwargs)
        return result

    #: The same by its name.
    call = __call__

    def __iter__(self) -> Iterator[Attempt]:
        return Attempts(self)

    def _wrapped(self, fn: Any) -> Any:
        if is_async(fn):
            raise TypeError(f"{fn!r} is a coroutine function: AsyncRetrying is for those")

        def wrapped(*args: Any, **kwargs: Any) -> Any:
            return run(self, fn, args, kwargs)

        return wrapped


#: One empty dict for all of the many coroutines that may wait at once.
_NO_KEYWORDS: Dict[str, Any] = {}


class AsyncRetrying(BaseRetrying):
    """Retries calls of coroutine functions, and `with` blocks in `async for`.

    >>> import asyncio
    >>> from hikebox import recurs
    >>> async def main():
    ...     async for attempt in AsyncRetrying(recurs(2)):
    ...         with attempt:
    ...             if attempt.number < 3:
    ...                 raise ConnectionError()
    ...     return attempt.number
    >>> asyncio.run(main())
    3

    It waits by asyncio or trio, whichever runs it. Hooks and the functions given as `on`, `on_result` and `fallback`
    may be coroutine functions.

    With `hedge_after`, the next attempt begins beside one that takes longer, and the first success is the result:

    >>> from hikebox import spaced
    >>> seconds = iter([3600, 0])
    >>> async def ask():
    ...     taken = next(seconds)
    ...     await asyncio.sleep(taken)
    ...     return taken
    >>> asyncio.run(AsyncRetrying(recurs(1) & spaced(0), hedge_after=0.01)(ask))
    0
    """

    __slots__ = ()

    _AWAITS = True

    def __call__(
        self, fn: Callable[..., Awaitable[Result]], /, *args: Any, **kwargs: Any
    ) -> Coroutine[Any, Any, Result]:
        """Awaits calls of the coroutine function until one succeeds or the retry gives up, which raises the last
        exception."""
        code = getattr(fn, "__code__", None)
        if code is not None and code.co_flags & GENERATORS:
            look_at_generator(fn)
        return run_async(self, fn, args, kwargs or _NO_KEYWORDS)

    #: The same by its name.
    call = __call__

    def __aiter__(self) -> AsyncIterator[Attempt]:
        return AsyncAttempts(self)

    def _wrapped(self, fn: Any) -> Any:
        if not is_async(unwrapped(fn)):
            raise TypeError(f"{fn!r} is not a coroutine function: Retrying is for functions")

        async def wrapped(*args: Any, **kwargs: Any) -> Any:
            return await run_async(self, fn, args, kwargs)

        return wrapped


def _takes_what(
    init: Callable[Concatenate[Any, Parameters], None],
) -> Callable[[Callable[..., Result]], Callable[Parameters, Result]]:
    """Gives a function the parameters and the help text of a `Retrying`; a type checker reads them off `init`."""

    def give(fn: Any) -> Any:
        fn.__wrapped__ = _takes("", **{"return": fn.__annotations__["return"]})
        fn.__doc__ = f"{(fn.__doc__ or str()).rstrip()}\n\n    {ABOUT}"
        return fn

    return give


@_takes_what(BaseRetrying.__init__)
def retry(policy: PolicyLike, **how: Any) -> Decorator:
    """Decorates a function or a coroutine function so that its calls are retried by a policy.

    >>> from hikebox import exponential, recurs
    >>> @retry(recurs(3) & exponential(0.001), on=(TimeoutError, ConnectionError))
    ... def fetch():
    ...     raise ConnectionError("nobody there")
    >>> try:
    ...     fetch()
    ... except ConnectionError as error:
    ...     print(error, error.retry_state.attempt_number, error.retry_state.ending.name)
    nobody there 4 SCHEDULE_DONE

    The function's `retry` is its `Retrying`, with `retry.statistics`. Its `retry_with(..)` returns the function with
    other options. The options are those of `Retrying`:
    """
    return decorator(Retrying, AsyncRetrying, "retry", policy, how)


def decorator(plain: Type[BaseRetrying], awaits: Type[BaseRetrying], name: str, policy: Any, how: Any) -> Decorator:
    """Returns a decorator that takes one of the two classes, as the function is awaited or not."""
    if not isinstance(policy, Policy):
        if callable(policy) or isinstance(policy, (classmethod, staticmethod)):
            raise TypeError(f"{name}() expected a policy, got {policy!r}: write @{name}(recurs(3) & spaced(1))")
        policy = Policy.of(policy)
    if how:
        look_at_names(name, how, DEFAULTS)

    def decorate(fn: Any) -> Any:
        inner = fn.__func__ if isinstance(fn, (classmethod, staticmethod)) else fn
        return (awaits if is_async(inner) else plain)(policy, **how).wraps(fn)

    return decorate
