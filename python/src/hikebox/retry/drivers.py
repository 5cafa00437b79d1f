"""The two drivers of a retry's steps: one that blocks, and one for coroutines.

What a call goes through that succeeds at once stands in both, since each function more would show there:
`tests/test_costs.py` names those that it may enter.
"""

from __future__ import annotations

from types import CoroutineType
from typing import TYPE_CHECKING, Any, Callable, Tuple

from .._functions import is_async, unwrapped
from .deadline import enter, leave
from .progress import Progress
from .state import Outcome
from .steps import RAISE, RUN, Settled, Steps, steps
from .waits import in_time
from .watch import watch

if TYPE_CHECKING:
    from ..retrying import BaseRetrying

__all__ = [
    "NOT_AWAITABLE",
    "advance",
    "answer_of",
    "look_at_function",
    "not_awaitable",
    "refuse_awaitable",
    "refuse_result",
    "run",
    "run_async",
    "settle",
    "settle_async",
    "slept",
    "waits",
]


def advance(driven: Steps, want: Any) -> Tuple[Settled, Any]:
    """Makes the calls that a retry wants, up to a wait or a signal, or up to something that has to be awaited, which is
    then the second."""
    while type(want) is tuple:
        function, argument = want
        answer = function(argument)
        if answer is not None and hasattr(type(answer), "__await__"):
            return RUN, answer
        want = driven.send(answer)
    return want, None


def settle(driven: Steps, want: Any) -> Settled:
    """Makes the calls that a retry wants, of which nothing is awaited, up to a wait or a signal."""
    settled, awaitable = advance(driven, want)
    not_awaitable(awaitable)
    return settled


def slept(progress: Progress, driven: Steps, seconds: float) -> Settled:
    """Waits so many seconds, and goes on up to the next attempt, or the end."""
    if seconds > 0.0 and (answer := progress.settings.sleeps(seconds)) is not None:
        not_awaitable(answer)
    want = driven.send(None)
    return settle(driven, want) if type(want) is tuple else want  # type: ignore[return-value]


async def settle_async(driven: Steps, want: Any) -> Settled:
    """Makes the calls that a retry wants, and awaits what they give, up to a wait or a signal."""
    settled, awaitable = advance(driven, want)
    while awaitable is not None:
        settled, awaitable = advance(driven, driven.send(await awaitable))
    return settled


def waits(progress: Progress, seconds: float) -> Any:
    """Begins to wait so many seconds, or lets other coroutines go on: what is to be awaited for that, or None."""
    settings = progress.settings
    awaitable = settings.sleeps(seconds) if seconds > 0.0 else settings.pause and settings.pause(0.0)
    return awaitable if hasattr(type(awaitable), "__await__") else None


def run(owner: BaseRetrying, fn: Callable[..., Any], args: Any, kwargs: Any) -> Any:
    """Calls the function until its retry is over."""
    settings = owner.settings
    if settings.per_key is not None:
        owner = settings.per_key.retrying_of(owner, args, kwargs)
        settings = owner.settings
    start = settings.clock()
    deadline = _NONE if settings.deadline_millis is None else settings.deadline_from(start)
    token = None if deadline is None else enter(deadline)
    # until something is to be done for it, a retry is only its start, and what it holds of its limit
    progress = holding = place = refusal = _NONE
    tells_success = settings.deposit_won
    want: Any = RUN
    try:
        if settings.is_quiet:
            if settings.deposit is not None:
                settings.deposit()
            elif (ask := settings.asks_first) is not None:
                holding = place, request, refusal, tells_success = ask()
        if refusal is not None or not settings.is_quiet:
            progress = Progress(owner, fn, args, kwargs, start, deadline, holding)
            driven = steps(progress)
            want = settle(driven, driven.send(None))
        while want is RUN:
            try:
                result = fn(*args, **kwargs)
            except BaseException as error:
                if progress is None:
                    place = None  # (which is the request's now)
                    progress = Progress(owner, fn, args, kwargs, start, deadline, holding)
                    driven = steps(progress, True)
                    driven.send(None)
                want = driven.send(Outcome(None, error))
                if type(want) is tuple:
                    want = settle(driven, want)
                if want is RAISE:
                    raise
            else:
                if type(result) is CoroutineType:
                    refuse_awaitable(repr(fn), result, settings.repeats)
                if progress is None:
                    owner.counts.add_success()
                    if watch.watchers:
                        watch.succeeded(fn)
                    if tells_success is not None:
                        tells_success()
                        if place is not None and not place.told[0]:
                            found, place = place, None
                            with settings.drawing(found) as told:
                                told.succeeded()
                    return result
                if settings.is_quiet:
                    progress.wins(result)
                    return result
                want = settle(driven, driven.send(Outcome(result)))
            if type(want) is float:  # (as `slept` does, with one function less for each retry)
                if want > 0.0 and (answer := settings.sleeps(want)) is not None:
                    not_awaitable(answer)
                want = driven.send(None)
                if type(want) is tuple:
                    want = settle(driven, want)
        return answer_of(progress)
    finally:
        if token is not None:
            leave(deadline, token)
        if progress is not None:
            progress.close()
        elif place is not None:
            place.home.append(place)
        elif holding is not None and request is not None:
            request.ended()


async def run_async(owner: BaseRetrying, fn: Callable[..., Any], args: Any, kwargs: Any) -> Any:
    """Awaits the function's calls until its retry is over."""
    settings = owner.settings
    if settings.per_key is not None:
        owner = settings.per_key.retrying_of(owner, args, kwargs)
        settings = owner.settings
    if settings.hedge_millis is not None:
        from .hedging import run_hedged  # which others need not load

        return await run_hedged(owner, fn, args, kwargs)
    start = settings.clock()
    deadline = _NONE if settings.deadline_millis is None else settings.deadline_from(start)
    token = None if deadline is None else enter(deadline)
    progress = holding = place = refusal = awaitable = _NONE
    tells_success = settings.deposit_won
    want: Any = RUN
    try:
        if settings.is_quiet:
            if settings.deposit is not None:
                settings.deposit()
            elif (ask := settings.asks_first) is not None:
                holding = place, request, refusal, tells_success = ask()
        if refusal is not None or not settings.is_quiet:
            progress = Progress(owner, fn, args, kwargs, start, deadline, holding)
            driven = steps(progress)
            want = await settle_async(driven, driven.send(None))
        while want is RUN:
            try:
                awaitable = fn(*args, **kwargs)
                if settings.attempt_millis is not None and hasattr(type(awaitable), "__await__"):
                    awaitable = in_time(awaitable, settings.attempt_millis)
                result = await awaitable if hasattr(type(awaitable), "__await__") else NOT_AWAITABLE
            except BaseException as error:
                if progress is None:
                    place = None  # (which is the request's now)
                    progress = Progress(owner, fn, args, kwargs, start, deadline, holding)
                    driven = steps(progress, True)
                    driven.send(None)
                if awaitable is None:
                    look_at_function(progress, error)
                want = driven.send(Outcome(None, error))
                if type(want) is tuple:
                    want = await settle_async(driven, want)
                if want is RAISE:
                    raise
            else:
                if result is NOT_AWAITABLE:
                    refuse_result(fn, settings.repeats)
                if progress is None:
                    owner.counts.add_success()
                    if watch.watchers:
                        watch.succeeded(fn)
                    if tells_success is not None:
                        tells_success()
                        if place is not None and not place.told[0]:
                            found, place = place, None
                            with settings.drawing(found) as told:
                                told.succeeded()
                    return result
                if settings.is_quiet:
                    progress.wins(result)
                    return result
                want = await settle_async(driven, driven.send(Outcome(result)))
            awaitable = None  # (the call's coroutine is let go before the wait)
            if type(want) is float:
                # (with no coroutine of its own, since many may wait at once)
                awaitable = waits(progress, want)
                if awaitable is not None:
                    await awaitable
                awaitable, want = None, driven.send(None)
                if type(want) is tuple:
                    want = await settle_async(driven, want)
        return answer_of(progress)
    finally:
        if token is not None:
            leave(deadline, token)
        if progress is not None:
            progress.close()
        elif place is not None:
            place.home.append(place)
        elif holding is not None and request is not None:
            request.ended()


_NONE: Any = None
#: In the place of the result of a call that returned nothing to await.
NOT_AWAITABLE = object()


def answer_of(progress: Progress) -> Any:
    """Returns the result of a retry that is over, or raises its exception."""
    outcome, progress.answer = progress.answer, None
    try:
        return None if outcome is None else outcome.result()
    finally:
        del outcome


def not_awaitable(answer: Any) -> Any:
    """What something gave that is called by a `Retrying`: nothing there is awaited."""
    if answer is not None and hasattr(type(answer), "__await__"):
        refuse_awaitable("a hook, a test or a sleep of a Retrying", answer)
    return answer


def refuse_awaitable(what: str, awaitable: Any, repeats: bool = False) -> None:
    """Refuses something that a call gave, and only a coroutine could await."""
    if type(awaitable) is CoroutineType:
        awaitable.close()
    awaits = "AsyncRepeating" if repeats else "AsyncRetrying"
    raise TypeError(f"{what} returned a {type(awaitable).__name__}, which is not awaited here: use {awaits}")


def look_at_function(progress: Progress, error: BaseException) -> None:
    """Refuses a function that raised before it returned anything to await, and is not a coroutine function."""
    fn: Any = progress.state.fn
    if progress.state.attempt_number == 1 and isinstance(error, Exception) and not is_async(unwrapped(fn)):
        plain = _plain(progress.settings.repeats)
        raise TypeError(f"{fn!r} raised before it returned anything to await: {plain} is for functions") from error


def refuse_result(fn: Any, repeats: bool) -> None:
    """Refuses a function that returned nothing to await."""
    raise TypeError(f"{fn!r} returned nothing to await: {_plain(repeats)} is for functions")


def _plain(repeats: bool) -> str:
    return "a Repeating" if repeats else "a Retrying"
