"""What a retry is given: what is refused at once, what may be awaited, and what each thing does."""

from __future__ import annotations

import asyncio
import copy
import functools
import gc
import inspect
import logging
import multiprocessing
import pickle
import re
import subprocess
import sys
import threading
import time
import weakref
from types import SimpleNamespace
from typing import Any, Callable, Dict, Iterator, List

import pytest

from conftest import python_environment
from hikebox import (
    MAX_NUMBER,
    AsyncRepeating,
    AsyncRetrying,
    Budget,
    Ending,
    Repeating,
    ResultRefused,
    Retrying,
    TryAgain,
    after_log,
    before_log,
    before_sleep_log,
    code_of,
    forever,
    poll_until,
    recurs,
    repeat,
    retry,
    spaced,
    state_of,
)
from hikebox.retry import waits
from hikebox.retry.options import DEFAULTS
from hikebox.testing import VirtualClock, no_waits


def fails() -> Any:
    raise OSError(7, "scripted")


async def fails_later() -> Any:
    raise OSError(7, "scripted")


async def later(*_: Any) -> Any:
    return None


def wins() -> str:
    return "won"


async def wins_later() -> str:
    return "won"


# Refused when it is given


#: As one without a type checker has them.
plain: Any = Retrying
awaiting: Any = AsyncRetrying
decorated: Any = retry
repeating: Any = Repeating

REFUSED: List[Any] = [
    (lambda: plain(recurs(1)).wraps(wins_later), "AsyncRetrying is for those"),
    (lambda: awaiting(recurs(1)).wraps(wins), "Retrying is for functions"),
    (lambda: plain(recurs(1), sleep=asyncio.sleep), "sleep: .* is a coroutine function"),
    (
        lambda: awaiting(recurs(1), sleep=time.sleep),
        "sleep: time.sleep blocks all coroutines; expected one that is awaited",
    ),
    (lambda: plain(recurs(1), before=later), "before: .* is a coroutine function"),
    (lambda: plain(recurs(1), after=[print, later]), "after: .* is a coroutine function"),
    (lambda: plain(recurs(1), on=later), "on: .* is a coroutine function"),
    (lambda: plain(recurs(1), fallback=later), "fallback: .* is a coroutine function"),
    (lambda: awaiting(recurs(1), retry_after=later), "retry_after: .* is a coroutine function"),
    (lambda: plain(recurs(1), on=ValueError()), "on: expected the type ValueError, got an exception of it"),
    (lambda: plain(recurs(1), on=str), "on: expected exception types or functions, got <class 'str'>"),
    (lambda: plain(recurs(1), on=(OSError, 3)), "on: expected exception types or functions, got 3"),
    (lambda: plain(recurs(1), before=3), "before: expected a function of the RetryState, or a list of such, got 3"),
    (lambda: plain(recurs(1), on_success=[3]), "on_success: expected a function of the RetryState"),
    (lambda: plain(recurs(1), fallback="none"), "fallback: expected a function, got 'none'"),
    (lambda: plain(recurs(1), stop=3), "stop: expected an event, or a function"),
    (lambda: plain(recurs(1), max_retry_after=-1), "max_retry_after: expected a number of seconds"),
    (lambda: poll_until(recurs(1), later)(wins), "accepts: .* is a coroutine function"),
    (lambda: decorated(wins), r"retry\(\) expected a policy, got <function wins at .*>: write @retry\(recurs"),
    (lambda: decorated(recurs(1))(3), "expected a function, got 3"),
]


@pytest.mark.parametrize("make, text", REFUSED, ids=[text for _, text in REFUSED])
def test_it_is_refused_when_it_is_given(make: Callable[[], Any], text: str) -> None:
    with pytest.raises(TypeError, match=text):
        make()


def test_a_coroutine_from_a_function_is_refused_and_not_retried() -> None:
    runs = []

    def ask() -> Any:
        runs.append(1)
        return wins_later()

    with pytest.raises(TypeError, match="use AsyncRetrying"):
        Retrying(recurs(3))(ask)
    with pytest.raises(TypeError, match="use AsyncRetrying"):
        plain(recurs(3))(wins_later)
    with pytest.raises(TypeError, match="use AsyncRetrying"):
        plain(recurs(3), before=lambda state: wins_later())(wins)
    with pytest.raises(TypeError, match="use AsyncRetrying"):
        poll_until(recurs(3), lambda result: wins_later())(wins)()
    assert runs == [1]


def test_a_function_that_gives_nothing_to_await_is_called_once() -> None:
    runs = []

    def ask() -> Any:
        runs.append(1)
        return 3

    with pytest.raises(TypeError, match="a Retrying is for functions"):
        asyncio.run(AsyncRetrying(recurs(3))(ask))
    assert runs == [1]
    assert asyncio.run(AsyncRetrying(recurs(3))(lambda: wins_later())) == "won"


def test_a_function_that_raises_before_it_gives_anything_to_await_is_called_once() -> None:
    runs = []

    def ask() -> Any:
        runs.append(1)
        return fails()

    with pytest.raises(TypeError, match="raised before it returned anything to await: a Retrying is") as caught:
        asyncio.run(AsyncRetrying(recurs(3))(ask))
    assert runs == [1] and isinstance(caught.value.__cause__, OSError)

    # one that gave a coroutine before is retried, whatever it raises then
    def asks_later() -> Any:
        runs.append(2)
        return fails_later() if len(runs) == 2 else fails()

    with pytest.raises(OSError):
        asyncio.run(AsyncRetrying(recurs(3))(asks_later))
    assert runs == [1] + [2] * 4


def test_what_repeats_is_named() -> None:
    with pytest.raises(TypeError, match="returned a coroutine, which is not awaited here: use AsyncRepeating"):
        repeating(recurs(3))(wins_later)
    with pytest.raises(TypeError, match="returned nothing to await: a Repeating is for functions"):
        asyncio.run(AsyncRepeating(recurs(3))(wins))  # type: ignore[arg-type]


# What is awaited in coroutines


def test_hooks_and_tests_may_be_coroutine_functions() -> None:
    seen: List[Any] = []

    def hook(name: str) -> Any:
        async def note(state: Any) -> None:
            await asyncio.sleep(0)
            seen.append((name, state.attempt_number))

        return note

    answers: List[Any] = [OSError(), KeyError(), "no", "yes"]

    async def ask() -> Any:
        answer = answers.pop(0)
        if isinstance(answer, Exception):
            raise answer
        return answer

    async def on(error: Any) -> bool:
        await asyncio.sleep(0)
        return isinstance(error, (OSError, KeyError))

    async def on_result(result: Any) -> bool:
        await asyncio.sleep(0)
        return bool(result == "no")

    how = {name: hook(name) for name in ("before", "after", "before_sleep", "on_success")}
    retrying = AsyncRetrying(recurs(9), on=on, on_result=on_result, **how)
    assert asyncio.run(retrying(ask)) == "yes"
    attempts = [(name, number) for number in (1, 2, 3) for name in ("before", "after", "before_sleep")]
    assert seen == [*attempts, ("before", 4), ("on_success", 4)]

    async def fallback(state: Any) -> Any:
        await asyncio.sleep(0)
        return state.ending

    assert asyncio.run(AsyncRetrying(recurs(1), fallback=fallback)(fails_later)) is Ending.SCHEDULE_DONE


def test_what_is_awaited_in_a_loop_is_awaited_at_its_next_turn() -> None:
    async def on(error: BaseException) -> bool:
        await asyncio.sleep(0)
        return isinstance(error, OSError)

    async def main(error: Exception, runs: List[int]) -> None:
        async for attempt in AsyncRetrying(recurs(2), on=on):
            with attempt:
                runs.append(attempt.number)
                raise error

    for error, wanted in ((OSError(), [1, 2, 3]), (KeyError(), [1])):
        runs: List[int] = []
        with pytest.raises(type(error)) as caught:
            asyncio.run(main(error, runs))
        assert caught.value is error and runs == wanted


# on


@pytest.mark.parametrize("leaves", [SystemExit, KeyboardInterrupt, GeneratorExit, asyncio.CancelledError])
def test_a_function_is_asked_of_no_exception_that_leaves(leaves: Any) -> None:
    runs = []

    def ask() -> None:
        runs.append(1)
        raise leaves()

    with pytest.raises(leaves):
        Retrying(recurs(3), on=lambda error: True)(ask)
    assert runs == [1]
    with pytest.raises(leaves):
        Retrying(recurs(1), on=leaves)(ask)
    assert runs == [1] * 3


def test_a_task_that_is_cancelled_in_its_call_ends() -> None:
    runs = []

    async def waits() -> None:
        runs.append(1)
        await asyncio.sleep(60)

    async def main() -> None:
        task = asyncio.ensure_future(AsyncRetrying(recurs(3), on=lambda error: True)(waits))
        await asyncio.sleep(0.01)
        task.cancel()
        with pytest.raises(asyncio.CancelledError):
            await task

    asyncio.run(main())
    assert runs == [1]


def test_types_and_functions_together() -> None:
    answers: List[Any] = [KeyError(), OSError(5, ""), TryAgain(), OSError(6, "")]

    def ask() -> None:
        raise answers.pop(0)

    with pytest.raises(OSError) as caught:
        Retrying(recurs(9), on=(KeyError, lambda error: getattr(error, "errno", 0) == 5))(ask)
    assert caught.value.errno == 6 and answers == []


# What is set on a Retrying


@pytest.mark.parametrize("name", ["policy", *DEFAULTS])
def test_a_parameter_is_not_set_and_the_error_says_what_to_do(name: str) -> None:
    @retry(recurs(3) & spaced(60), fallback=lambda state: state.attempt_number)
    def fetch() -> int:
        raise OSError(7, "")

    before = fetch.retry.given
    with pytest.raises(AttributeError) as caught:
        setattr(fetch.retry, name, None)
    assert str(caught.value) == (
        f"a Retrying does not change: make another one by retrying.copy({name}=..), "
        f"or a function by fn.retry_with({name}=..)"
    )
    assert fetch.retry.given == before
    with pytest.raises(AttributeError):
        setattr(fetch.retry, "attempts", 3)


def test_a_function_with_other_parameters_is_another_one(clock: VirtualClock) -> None:
    runs: List[int] = []

    @retry(recurs(3) & spaced(60), clock=clock, sleep=clock.sleep)
    def fetch() -> None:
        runs.append(1)
        raise OSError(7, "")

    slept: List[float] = []
    changes: List[Dict[str, Any]] = [
        {"policy": recurs(1) & spaced(1).jittered(0, 1), "random": lambda: 0.25},
        {"on": KeyError},
        {"stop": lambda state: state.attempt_number == 2},
        {"sleep": slept.append, "wait": lambda state: 90.0, "policy": recurs(1)},
        {},
    ]
    for each in changes:
        with pytest.raises(OSError):
            fetch.retry_with(**each)()
    assert len(runs) == 2 + 1 + 2 + 2 + 4
    assert clock.slept == [0.25, 60.0, 60.0, 60.0, 60.0] and slept == [90.0]
    assert fetch.retry.statistics.calls == 0


NAMES: List[Any] = [
    (lambda: plain(recurs(1), attempts=3), "Retrying()", "attempts", ""),
    (lambda: awaiting(recurs(1), attempts=3), "AsyncRetrying()", "attempts", ""),
    (lambda: repeating(recurs(1), max_wait=3), "Repeating()", "max_wait", "; did you mean 'wait'?"),
    (lambda: decorated(recurs(1), retry_afer=3), "retry()", "retry_afer", "; did you mean 'retry_after'?"),
    (lambda: repeat(recurs(1), deadlin=3), "repeat()", "deadlin", "; did you mean 'deadline'?"),
    (lambda: poll_until(recurs(1), bool, on_result=bool), "poll_until()", "on_result", ""),
    (lambda: plain(recurs(1)).copy(limt=3), "copy()", "limt", "; did you mean 'limit'?"),
    (lambda: decorated(recurs(1))(wins).retry_with(attempts=3), "retry_with()", "attempts", ""),
]


@pytest.mark.parametrize("call, called, name, hint", NAMES, ids=[called for _, called, _, _ in NAMES])
def test_an_error_names_what_was_called(call: Callable[[], Any], called: str, name: str, hint: str) -> None:
    with pytest.raises(TypeError) as caught:
        call()
    told = str(caught.value)
    assert told.startswith(f"{called} got an unexpected keyword argument '{name}'") and told.endswith(hint or "'")


def test_a_class_of_ones_own_is_named_too() -> None:
    class Mine(Retrying):
        pass

    wrong: Any = Mine
    with pytest.raises(TypeError, match=r"^Mine\(\) got an unexpected keyword argument 'attempts'$"):
        wrong(recurs(1), attempts=3)
    with pytest.raises(TypeError, match="missing 1 required positional argument: 'policy'") as caught:
        wrong()
    assert "BaseRetrying" not in str(caught.value)
    with pytest.raises(TypeError, match="takes 2 positional arguments but 3 were given") as caught:
        wrong(recurs(1), Budget(1))
    assert "BaseRetrying" not in str(caught.value)
    assert inspect.signature(Mine).parameters == inspect.signature(Retrying).parameters
    assert Mine(recurs(1), on=OSError).on is OSError


def test_it_is_copied_and_pickled() -> None:
    retrying = Retrying(recurs(3), on=OSError, code=code_of, max_retry_after=5)
    for other in (copy.copy(retrying), copy.deepcopy(retrying), pickle.loads(pickle.dumps(retrying))):
        assert other.given == retrying.given and other.counts is not retrying.counts
    budget = Budget(1)
    assert copy.deepcopy(Retrying(recurs(1), limit=budget)).limit is budget


# Functions


def test_class_methods_and_static_methods() -> None:
    class Client:
        runs = 0

        @retry(recurs(3))
        @classmethod
        def made(cls, name: str) -> str:
            cls.runs += 1
            if cls.runs < 3:
                raise KeyError()
            return f"{cls.__name__} {name}"

        @retry(recurs(3))
        @staticmethod
        def number(text: str) -> int:
            return int(text)

        @classmethod
        @retry(recurs(3))
        async def later(cls) -> str:
            return cls.__name__

    client: Any = Client
    assert client.made("a") == "Client a" and client.runs == 3
    assert client().number("3") == 3
    assert asyncio.run(client.later()) == "Client"
    with pytest.raises(TypeError, match="expected a policy"):
        retry(classmethod(lambda cls: None))  # type: ignore[arg-type]


def test_a_partial_of_a_coroutine_function_is_one() -> None:
    assert asyncio.run(retry(recurs(1))(functools.partial(wins_later))()) == "won"


def test_a_function_that_raises_stop_iteration() -> None:
    empty: Iterator[int] = iter(())
    with pytest.raises(StopIteration):
        Retrying(recurs(2))(next, empty)
    with pytest.raises(StopIteration):
        Retrying(recurs(2), on=KeyError)(next, empty)
    event = threading.Event()
    with pytest.raises(StopIteration):
        Retrying(recurs(2), before_sleep=lambda state: event.set(), stop=event)(next, empty)


def test_help_explains_each_parameter() -> None:
    text = inspect.getdoc(retry) or ""
    for name in DEFAULTS:
        assert f"`{name}`" in text, name
    assert "retry_after" in str(inspect.signature(retry))


# Hooks, waits, stops


def test_the_signature_has_each_option_with_its_default() -> None:
    for what in (Retrying, AsyncRetrying, retry):
        found = list(inspect.signature(what).parameters.values())
        assert [each.name for each in found] == ["policy", *DEFAULTS]
        assert [each.default for each in found[1:]] == list(DEFAULTS.values())
        assert {each.kind for each in found[1:]} == {inspect.Parameter.KEYWORD_ONLY}
    retrying = Retrying(recurs(1))
    assert {name: getattr(retrying, name) for name in DEFAULTS} == DEFAULTS


def test_hooks_may_be_lists(clock: VirtualClock) -> None:
    seen: List[str] = []
    hooks: List[Any] = [lambda state: seen.append("a"), lambda state: seen.append("b")]
    answers = iter([KeyError()])

    def ask() -> str:
        for error in answers:
            raise error
        return "won"

    retrying = Retrying(recurs(1), before=hooks, after=hooks, before_sleep=tuple(hooks), on_success=hooks)
    assert retrying(ask) == "won"
    assert seen == ["a", "b"] * 5


def test_on_success_sees_the_result() -> None:
    seen: List[Any] = []
    retrying = plain(recurs(3), on_success=lambda state: seen.append((state.attempt_number, state.outcome.result())))
    assert retrying(wins) == "won"
    with pytest.raises(OSError):
        retrying(fails)
    for attempt in retrying:
        with attempt:
            if attempt.number < 2:
                raise KeyError()
        if attempt.number == 2:
            attempt.retry_state.set_result("told")
    assert seen == [(1, "won"), (2, "told")]


def test_a_wait_may_be_a_function(clock: VirtualClock) -> None:
    retrying = plain(
        recurs(3),
        wait=lambda state: state.attempt_number * 1.5,
        clock=clock,
        sleep=clock.sleep,
        fallback=lambda _: None,
    )
    retrying(fails)
    assert clock.slept == pytest.approx([1.5, 3.0, 4.5])
    # beside the policy's own wait the longer one counts
    clock.slept.clear()
    retrying.copy(policy=recurs(2) & spaced(2))(fails)
    assert clock.slept == pytest.approx([2.0, 3.0])


def test_a_function_is_asked_once_for_each_wait(clock: VirtualClock) -> None:
    asked: List[int] = []

    def wait(state: Any) -> float:
        asked.append(state.attempt_number)
        return 1.0

    with pytest.raises(OSError) as caught:
        Retrying(recurs(3), wait=wait, clock=clock, sleep=clock.sleep)(fails)
    state = state_of(caught.value)
    assert state is not None and asked == [1, 2, 3] and state.idle_for == 3.0


@pytest.mark.parametrize("name", ["retry_after", "wait"])
def test_what_is_asked_for_has_a_bound(name: str, clock: VirtualClock) -> None:
    how: Any = {name: lambda _: 999999999999.0, "clock": clock, "sleep": clock.sleep, "fallback": lambda _: None}
    Retrying(recurs(1), **how)(fails)
    Retrying(recurs(1), max_retry_after=90, **how)(fails)
    Retrying(recurs(1), max_retry_after=None, **how)(fails)
    assert clock.slept == pytest.approx([21600.0, 90.0, 999999999999.0])
    clock.slept.clear()
    for endless in (1e306, float("inf")):
        assert plain(recurs(1), max_retry_after=None, **{**how, name: lambda _: endless})(fails) is None
    assert len(clock.slept) == 2 and min(clock.slept) >= MAX_NUMBER / 1000
    clock.slept.clear()
    plain(recurs(1), **{**how, name: lambda _: float("nan")})(fails)
    assert clock.slept == []


def test_a_function_stops_a_retry() -> None:
    with pytest.raises(OSError) as caught:
        Retrying(recurs(9), stop=lambda state: state.attempt_number >= 3)(fails)
    state = state_of(caught.value)
    assert state is not None and (state.attempt_number, state.ending) == (3, Ending.STOPPED)
    retrying = plain(recurs(9), stop=lambda state: True, fallback=lambda state: state.ending.value)
    assert retrying(fails) == "it was stopped"
    assert (retrying.statistics.stopped, retrying.statistics.by_ending["stopped"]) == (1, 1)


@pytest.mark.parametrize("kind", [threading.Event, multiprocessing.Event])
def test_an_event_ends_a_wait(kind: Any) -> None:
    try:
        event = kind()
    except OSError:
        pytest.skip("processes can share no memory on this machine")
    timer = threading.Timer(0.05, event.set)
    timer.start()
    began = time.monotonic()
    with pytest.raises(OSError) as caught:
        Retrying(spaced(60), stop=event)(fails)
    assert time.monotonic() - began < 20
    state = state_of(caught.value)
    assert state is not None and (state.attempt_number, state.ending) == (1, Ending.STOPPED)
    assert caught.traceback[-1].name == "fails"
    with pytest.raises(OSError):
        Retrying(spaced(60), stop=event)(fails)


@pytest.mark.parametrize("sleep", [time.sleep, lambda seconds: time.sleep(seconds)], ids=["time.sleep", "own"])
def test_an_event_ends_a_wait_by_a_sleep_that_was_given(sleep: Any) -> None:
    event = threading.Event()
    began = time.monotonic()
    threading.Timer(0.1, event.set).start()
    retrying = Retrying(spaced(60), stop=event, sleep=sleep, fallback=lambda state: state.ending)
    assert retrying(fails) is Ending.STOPPED
    assert 0.09 < time.monotonic() - began < 20


def test_a_sleep_beside_an_event_waits_as_long_as_the_policy_says(monkeypatch: pytest.MonkeyPatch) -> None:
    clock = VirtualClock(5.0)
    # (which is the clock by which time passes while a thread sleeps)
    monkeypatch.setattr(waits, "time", SimpleNamespace(monotonic=clock, sleep=time.sleep))
    monkeypatch.setattr(waits, "_REAL_CLOCKS", (clock,))
    how: Any = {"stop": threading.Event(), "sleep": clock.sleep, "clock": clock, "fallback": lambda state: None}
    Retrying(recurs(2) & spaced(0.125), **how)(fails)
    # two parts of 0.05 s, and what is left
    assert clock.slept == pytest.approx([0.05, 0.05, 0.025] * 2) and clock() == pytest.approx(5.25)


def test_a_sleep_that_takes_no_time_beside_an_event_is_told_the_whole_wait(clock: VirtualClock) -> None:
    how: Any = {"stop": threading.Event(), "fallback": lambda state: None}
    Retrying(recurs(2) & spaced(60), clock=clock, sleep=clock.sleep, **how)(fails)
    assert clock.slept == [60.0, 60.0]
    slept: List[float] = []
    Retrying(recurs(1) & spaced(60), sleep=slept.append, **how)(fails)
    # (a wait is shorter by what has passed since its failure, which is much on a machine that is busy)
    assert 30 < sum(slept) <= 60.001 and len(slept) == 2


def test_an_event_of_coroutines_is_refused_by_a_retrying() -> None:
    async def main() -> None:
        with pytest.raises(TypeError, match="stop: asyncio.Event is for coroutines; expected an event of threading"):
            Retrying(recurs(1), stop=asyncio.Event())

    asyncio.run(main())
    trio = pytest.importorskip("trio")
    with pytest.raises(TypeError, match="stop: trio.Event is for coroutines; expected an event of threading"):
        Retrying(recurs(1), stop=trio.Event())


class Flag:
    """An event that can be asked, and not waited for."""

    def __init__(self) -> None:
        self.began = time.monotonic()

    def is_set(self) -> bool:
        return time.monotonic() - self.began > 0.1


async def own_sleep(seconds: float) -> None:
    await asyncio.sleep(seconds)


@pytest.mark.parametrize("sleep", [None, asyncio.sleep, own_sleep], ids=["none", "asyncio.sleep", "own"])
@pytest.mark.parametrize("kind", [asyncio.Event, threading.Event, multiprocessing.Event, Flag])
def test_an_event_ends_a_wait_of_a_coroutine(kind: Any, sleep: Any) -> None:
    async def main() -> Any:
        began = time.monotonic()
        try:
            event = kind()
        except OSError:
            pytest.skip("processes can share no memory on this machine")
        if kind is not Flag:
            asyncio.get_running_loop().call_later(0.1, event.set)
        retrying = AsyncRetrying(spaced(60), stop=event, sleep=sleep, fallback=lambda state: state.ending)
        endings = await asyncio.wait_for(asyncio.gather(*(retrying(fails_later) for _ in range(20))), 30)
        assert 0.09 < time.monotonic() - began < 20
        for later in range(2):
            # and again, now that it is set
            assert await retrying(fails_later) is Ending.STOPPED
        return endings

    assert asyncio.run(main()) == [Ending.STOPPED] * 20


@pytest.mark.parametrize("kind", [asyncio.Event, threading.Event])
def test_a_wait_beside_an_event_that_is_not_set_ends_by_itself(kind: Any) -> None:
    async def main() -> Any:
        began = time.monotonic()
        retrying = AsyncRetrying(recurs(2) & spaced(0.05), stop=kind(), fallback=lambda state: state.ending)
        assert await retrying(fails_later) is Ending.SCHEDULE_DONE
        assert 0.1 <= time.monotonic() - began < 20
        task = asyncio.ensure_future(retrying.copy(policy=spaced(60))(fails_later))
        await asyncio.sleep(0.05)
        task.cancel()
        with pytest.raises(asyncio.CancelledError):
            await task
        return [task for task in asyncio.all_tasks() if task is not asyncio.current_task()]

    assert asyncio.run(main()) == []


class Pulsed(threading.Event):
    """An event that is set and cleared again at once, so that no thread finds it set: those that wait are woken."""

    def pulse(self) -> None:
        with self._cond:  # type: ignore[attr-defined]
            self._cond.notify_all()  # type: ignore[attr-defined]


@pytest.mark.parametrize("kind", ["blocking", "threading", "asyncio"])
def test_an_event_that_is_set_and_cleared_again_lets_no_attempt_begin_early(kind: str) -> None:
    began: List[float] = []

    def ask() -> None:
        began.append(time.monotonic())
        raise OSError

    async def ask_later() -> None:
        ask()

    async def main(event: Any) -> None:
        for later in (0.05, 0.1):
            asyncio.get_running_loop().call_later(later, lambda: (event.set(), event.clear()))
        await AsyncRetrying(recurs(1) & spaced(0.4), stop=event, fallback=lambda state: None)(ask_later)

    event: Any = {"blocking": Pulsed, "threading": threading.Event, "asyncio": asyncio.Event}[kind]()
    if kind == "blocking":
        for later in (0.05, 0.1):
            threading.Timer(later, event.pulse).start()
        Retrying(recurs(1) & spaced(0.4), stop=event, fallback=lambda state: None)(ask)
    else:
        asyncio.run(main(event))
    assert len(began) == 2 and began[1] - began[0] >= 0.399


def test_an_error_of_a_sleep_beside_an_event_is_raised() -> None:
    async def sleep(seconds: float) -> None:
        await asyncio.sleep(0.01)
        raise ZeroDivisionError

    kinds: List[Any] = [asyncio.Event, threading.Event]
    for event in kinds:
        with pytest.raises(ZeroDivisionError):
            asyncio.run(AsyncRetrying(spaced(60), sleep=sleep, stop=event())(fails_later))


def test_a_program_ends_though_an_event_that_nobody_sets_is_waited_for() -> None:
    text = """
import asyncio, threading
from hikebox import AsyncRetrying, spaced

async def fails():
    raise OSError

async def main():
    await asyncio.wait_for(AsyncRetrying(spaced(60), stop=threading.Event())(fails), 0.2)

try:
    asyncio.run(main())
except asyncio.TimeoutError:
    print("over")
"""
    began = time.monotonic()
    ran = subprocess.run(
        [sys.executable, "-c", text], env=python_environment(), capture_output=True, text=True, timeout=60
    )
    assert (ran.stdout, ran.stderr) == ("over\n", "") and time.monotonic() - began < 30


@pytest.mark.parametrize("kind", ["trio", "threading", "flag"])
def test_an_event_ends_a_wait_by_trio(kind: str) -> None:
    trio = pytest.importorskip("trio")

    async def own(seconds: float) -> None:
        await trio.sleep(seconds)

    async def main() -> Any:
        endings: List[Any] = []
        for sleep in (trio.sleep, own):
            event = {"trio": trio.Event, "threading": threading.Event, "flag": Flag}[kind]()
            retrying = AsyncRetrying(spaced(60), sleep=sleep, stop=event, fallback=lambda state: state.ending)
            with trio.fail_after(20):
                async with trio.open_nursery() as nursery:

                    async def sets() -> None:
                        await trio.sleep(0.1)
                        if kind != "flag":
                            event.set()

                    nursery.start_soon(sets)
                    endings.append(await retrying(fails_later))
        return endings

    assert trio.run(main) == [Ending.STOPPED] * 2


def test_an_error_of_a_sleep_beside_an_event_of_trio_is_raised_itself() -> None:
    trio = pytest.importorskip("trio")

    async def sleep(seconds: float) -> None:
        await trio.sleep(0.01)
        raise ZeroDivisionError

    async def main() -> None:
        await AsyncRetrying(spaced(60), sleep=sleep, stop=trio.Event())(fails_later)

    with pytest.raises(ZeroDivisionError):
        trio.run(main, strict_exception_groups=True)


def test_loops_of_several_threads_wait_for_one_event() -> None:
    event = threading.Event()
    retrying = AsyncRetrying(spaced(60), stop=event, fallback=lambda state: state.ending)
    endings: List[Any] = []

    async def main() -> None:
        endings.extend(await asyncio.gather(*(retrying(fails_later) for _ in range(50))))

    threads = [threading.Thread(target=lambda: asyncio.run(main())) for _ in range(8)]
    for thread in threads:
        thread.start()
    time.sleep(0.3)
    event.set()
    for thread in threads:
        thread.join(30)
    assert endings == [Ending.STOPPED] * 400


def test_a_wait_for_an_event_that_the_collector_ends_waits_for_no_lock() -> None:
    # (the collector may close a coroutine at any step of the thread that watches its event)
    event, watch = threading.Event(), waits._Watch()

    async def main() -> None:
        left = watch.is_set(event)
        left.send(None)

        def closes() -> None:
            with watch._lock:
                left.close()

        thread = threading.Thread(target=closes, daemon=True)
        thread.start()
        thread.join(20)
        assert not thread.is_alive()

    asyncio.run(main())
    event.set()


def test_a_timeout_of_trio_ends_a_retry_without_waits() -> None:
    trio = pytest.importorskip("trio")

    async def main() -> bool:
        for retrying in (
            AsyncRetrying(forever(), sleep=trio.sleep),
            AsyncRetrying(forever(), sleep=VirtualClock().sleep),
        ):
            with trio.move_on_after(0.1) as scope:
                await retrying(fails_later)
            assert scope.cancelled_caught
            with trio.move_on_after(0.1) as scope:
                async for attempt in retrying:
                    with attempt:
                        raise OSError
            assert scope.cancelled_caught
        return True

    assert trio.run(main)


def test_an_event_of_asyncio_ends_a_wait() -> None:
    async def main() -> Any:
        event = asyncio.Event()
        asyncio.get_running_loop().call_later(0.05, event.set)
        retrying = AsyncRetrying(spaced(60), stop=event, fallback=lambda state: state.ending)
        found = await asyncio.wait_for(retrying(fails_later), 20)
        quick = AsyncRetrying(recurs(2) & spaced(0.001), stop=asyncio.Event(), fallback=lambda state: state.ending)
        return found, await quick(fails_later)

    assert asyncio.run(main()) == (Ending.STOPPED, Ending.SCHEDULE_DONE)


# Results


@pytest.mark.parametrize("status", [202, 503])
def test_the_policy_reads_the_number_of_a_result(status: int, clock: VirtualClock) -> None:
    class Response:
        def __init__(self, status: int) -> None:
            self.status_code = status

    answers = iter([Response(202), Response(202), Response(status), Response(200)])
    policy = spaced(0.5).while_input(equal=202)
    retrying = plain(policy, on_result=lambda r: r.status_code != 200, clock=clock, sleep=clock.sleep)
    if status == 202:
        assert retrying(next, answers).status_code == 200
    else:
        with pytest.raises(ResultRefused) as caught:
            retrying(next, answers)
        assert getattr(caught.value.result, "status_code") == 503
    assert clock.slept == [0.5] * (3 if status == 202 else 2)


def test_a_result_may_be_told_after_the_block() -> None:
    seen = []
    for attempt in Retrying(recurs(5), on_result=lambda result: bool(result < 3)):
        with attempt:
            pass
        outcome = attempt.retry_state.outcome
        assert outcome is not None
        if not outcome.failed:
            attempt.retry_state.set_result(attempt.number)
            seen.append(attempt.number)
    assert seen == [1, 2, 3]

    async def main() -> List[int]:
        seen = []
        async for attempt in AsyncRetrying(recurs(5), on_result=lambda result: bool(result < 3)):
            with attempt:
                await asyncio.sleep(0)
            attempt.retry_state.set_result(attempt.number)
            seen.append(attempt.number)
        return seen

    assert asyncio.run(main()) == [1, 2, 3]


def test_a_block_that_is_left_by_return_is_won() -> None:
    retrying = Retrying(recurs(3))

    def ask() -> int:
        for attempt in retrying:
            with attempt:
                return attempt.number
        raise AssertionError

    assert ask() == 1 and retrying.statistics.won == 1


# The state


def test_the_members_of_a_state_are_those_of_tenacitys() -> None:
    tenacity = pytest.importorskip("tenacity")
    seen: List[Any] = []

    def note(state: Any) -> None:
        outcome, action = state.outcome, state.next_action
        assert state.start_time <= state.outcome_timestamp
        assert state.outcome_timestamp - state.start_time == pytest.approx(state.seconds_since_start)
        seen.append((outcome.attempt_number, outcome.done(), outcome.failed, action.sleep, state.idle_for))

    with pytest.raises(tenacity.RetryError):
        tenacity.Retrying(
            stop=tenacity.stop_after_attempt(3), wait=tenacity.wait_fixed(0.02), sleep=lambda _: None, before_sleep=note
        )(fails)
    theirs, seen = seen, []
    clock = VirtualClock()
    with pytest.raises(OSError):
        Retrying(recurs(2) & spaced(0.02), before_sleep=note, clock=clock, sleep=clock.sleep)(fails)
    assert [entry[:3] for entry in seen] == [entry[:3] for entry in theirs]
    for ours, other in zip(seen, theirs):
        assert ours[3:] == pytest.approx(other[3:])


def test_log_records_have_fields(caplog: Any) -> None:
    log = logging.getLogger("own")
    caplog.set_level(logging.DEBUG)
    hooks: Any = {
        "before": before_log(log, logging.INFO),
        "after": [after_log(log, logging.INFO, sec_format="%.1f")],
        "before_sleep": before_sleep_log(log, logging.INFO),
    }
    clock = VirtualClock()
    with pytest.raises(OSError):
        Retrying(recurs(1) & spaced(2.5), clock=clock, sleep=clock.sleep, **hooks)(fails)
    own = [(r.hikebox_call, r.hikebox_attempt) for r in caplog.records if r.name == "own"]
    assert own == [("fails", number) for number in (1, 1, 1, 2, 2)]
    assert [r.hikebox_seconds for r in caplog.records if hasattr(r, "hikebox_seconds")] == [0.0, 2.5]
    assert "fails: attempt 2 failed after 2.5 s" in [r.getMessage() for r in caplog.records]
    ours = [r for r in caplog.records if r.name == "hikebox"]
    assert [getattr(r, "hikebox_delay", None) for r in ours] == [2.5, None]
    assert getattr(ours[1], "hikebox_ending") == "SCHEDULE_DONE" and getattr(ours[1], "hikebox_call") == "fails"


class Busy(Exception):
    pass


def busy() -> None:
    raise Busy("no")


ENDS: List[Any] = [
    (
        lambda: plain(recurs(1), clock=VirtualClock(100))(busy),
        "WARNING",
        "SCHEDULE_DONE",
        "gave up after 2 attempts in 0.000 s: the policy was done",
    ),
    (lambda: plain(recurs(1), limit=Budget(0))(busy), "WARNING", "LIMIT_REFUSED", "gave up after 1 attempt in "),
    (
        lambda: plain(recurs(1), fallback=lambda state: None)(busy),
        "WARNING",
        "SCHEDULE_DONE",
        "gave up after 2 attempts",
    ),
    (lambda: asyncio.run(awaiting(recurs(1))(busy_later)), "WARNING", "SCHEDULE_DONE", "gave up after 2 attempts"),
    (lambda: plain(recurs(1), stop=lambda state: True)(busy), "INFO", "STOPPED", "gave up after 1 attempt in "),
    (lambda: plain(recurs(1), on=OSError)(busy), None, "", ""),
    (lambda: plain(recurs(1))(wins), None, "", ""),
]


async def busy_later() -> None:
    raise Busy("no")


@pytest.mark.parametrize("call, level, ending, text", ENDS)
def test_a_retry_that_gives_up_is_logged(call: Any, level: Any, ending: str, text: str, caplog: Any) -> None:
    caplog.set_level(logging.INFO)
    try:
        call()
    except Busy:
        pass
    if level is None:
        assert caplog.records == []
        return
    (record,) = caplog.records
    assert (record.name, record.levelname, record.hikebox_ending) == ("hikebox", level, ending)
    told = record.getMessage()
    assert told.startswith(f"{record.hikebox_call}: {text}") and record.hikebox_call.startswith("busy")
    assert told.endswith("; the last attempt raised Busy('no')")


def test_a_retry_that_gives_up_is_logged_unless_its_logger_is_off(caplog: Any) -> None:
    caplog.set_level(logging.ERROR, logger="hikebox")
    with pytest.raises(OSError):
        Retrying(recurs(1))(fails)
    assert caplog.records == []


def test_an_error_that_can_not_be_shown_is_raised_as_it_is() -> None:
    class Odd(Exception):
        def __repr__(self) -> str:
            raise RuntimeError("no repr")

    def odd() -> None:
        raise Odd

    with pytest.raises(Odd):
        Retrying(recurs(1))(odd)


def test_a_program_without_logging_is_told_nothing() -> None:
    text = """
from hikebox import Retrying, recurs
Retrying(recurs(1), fallback=lambda state: print(state.ending.name))(int, "no number")
import logging
logging.basicConfig(format="%(levelname)s %(name)s %(message)s")
Retrying(recurs(1), fallback=lambda state: None)(int, "no")
"""
    ran = subprocess.run(
        [sys.executable, "-c", text], env=python_environment(), capture_output=True, text=True, timeout=60
    )
    assert ran.stdout == "SCHEDULE_DONE\n"
    told = r"WARNING hikebox int: gave up after 2 attempts in \d+\.\d{3} s: the policy was done; the last"
    assert re.match(told, ran.stderr)
    assert len(ran.stderr.splitlines()) == 1


# Time


@pytest.mark.parametrize("took", [0.00084, 0.0001, 0.00199, 0.5])
def test_a_wait_does_not_fall_short(took: float, clock: VirtualClock) -> None:
    def ask() -> None:
        clock.advance(took)
        raise KeyError()

    with pytest.raises(KeyError):
        Retrying(recurs(20) & spaced(0.002), clock=clock, sleep=clock.sleep)(ask)
    assert len(clock.slept) == 20
    assert all(0.002 - 1e-9 <= slept < 0.003 for slept in clock.slept)


def test_what_is_past_is_not_slept_for(clock: VirtualClock) -> None:
    asked: List[float] = []

    async def sleep(seconds: float) -> None:
        asked.append(seconds)

    retrying = AsyncRetrying(recurs(100), sleep=sleep, fallback=lambda state: state.attempt_number)
    assert asyncio.run(retrying(fails_later)) == 101 and asked == []


def test_a_retry_without_waits_lets_others_go_on() -> None:
    async def main() -> int:
        ticks = 0

        async def tick() -> None:
            nonlocal ticks
            while True:
                ticks += 1
                await asyncio.sleep(0)

        task = asyncio.ensure_future(tick())
        await AsyncRetrying(recurs(50), fallback=lambda state: None)(fails_later)
        task.cancel()
        return ticks

    assert asyncio.run(main()) >= 50


def test_a_switch_leaves_all_waits_out() -> None:
    @retry(recurs(3) & spaced(3600), fallback=lambda state: state.seconds_since_start)
    def fetch() -> float:
        raise OSError()

    @retry(recurs(3) & spaced(3600).up_to(5000), fallback=lambda state: state.attempt_number)
    async def fetch_later() -> int:
        raise OSError()

    began = time.monotonic()
    with no_waits():
        assert fetch() == pytest.approx(3 * 3600, abs=20)
        with no_waits():
            # the policy's time passes as ever
            assert asyncio.run(fetch_later()) == 3
        assert fetch() > 0
    assert time.monotonic() - began < 30
    clock = VirtualClock()
    fetch.retry_with(clock=clock, sleep=clock.sleep)()
    assert clock.slept == [3600] * 3


# Memory


def test_the_machines_of_many_retries_at_once_are_given_up() -> None:
    from hikebox._engine import machine as machines

    async def main() -> int:
        gate = asyncio.Event()
        runs = 0

        async def ask() -> None:
            nonlocal runs
            runs += 1
            if runs <= 2000:
                raise KeyError()
            await gate.wait()

        retrying = AsyncRetrying(recurs(1))
        tasks = [asyncio.ensure_future(retrying(ask)) for _ in range(2000)]
        while runs < 4000:
            await asyncio.sleep(0)
        gate.set()
        await asyncio.gather(*tasks)
        return runs

    assert asyncio.run(main()) == 4000
    assert len(machines.idle) <= 64


HEAP_OF_MANY = """
import asyncio, gc
from hikebox import AsyncRetrying, recurs, spaced

def heap():
    of_heap, pages = False, 0
    for line in open("/proc/self/smaps"):
        if line[0] in "0123456789abcdef":
            of_heap = line.rstrip().endswith("[heap]")
        elif of_heap and line.startswith("Rss:"):
            pages += int(line.split()[1])
    return pages

async def main(count):
    async def ask():
        raise KeyError

    retrying = AsyncRetrying(recurs(1) & spaced(0.3), fallback=lambda state: None)
    await asyncio.gather(*(retrying(ask) for _ in range(count)))
    gc.collect()

asyncio.run(main(10))
before = heap()
asyncio.run(main(20_000))
print(heap() - before)
"""


def test_the_memory_of_many_retries_at_once_is_given_back() -> None:
    ran = subprocess.run(
        [sys.executable, "-c", HEAP_OF_MANY], env=python_environment(), capture_output=True, text=True, check=True
    )
    # a kilobyte of each is the engine's
    assert int(ran.stdout) < 12_000


CANCELLED = """
import asyncio, gc, resource
from hikebox import AsyncRetrying, recurs, spaced

async def fails():
    raise KeyError

async def main(count):
    retrying = AsyncRetrying(recurs(9) & spaced(60))
    for _ in range(count):
        tasks = [asyncio.ensure_future(retrying(fails)) for _ in range(500)]
        await asyncio.sleep(0)
        await asyncio.sleep(0)
        for task in tasks:
            task.cancel()
        await asyncio.gather(*tasks, return_exceptions=True)
    assert retrying.statistics.cancelled == 500 * count
    gc.collect()
    return resource.getrusage(resource.RUSAGE_SELF).ru_maxrss

print(asyncio.run(main(10)), asyncio.run(main(40)))
"""


def test_the_engines_retry_of_a_coroutine_that_is_cancelled_while_it_waits_is_freed() -> None:
    ran = subprocess.run(
        [sys.executable, "-c", CANCELLED], env=python_environment(), capture_output=True, text=True, check=True
    )
    before, after = (int(word) for word in ran.stdout.split())
    # in kilobytes; 15,000 retries that were lost would be 10,000
    assert after - before < 2000, ran.stdout


def test_a_coroutine_that_waits_leaves_nothing_to_collect() -> None:
    async def main() -> int:
        retrying = AsyncRetrying(recurs(3) & spaced(0.001), fallback=lambda state: None)
        await retrying(fails_later)
        gc.collect()
        for _ in range(20):
            await retrying.copy(fallback=None, on_result=None)(fails_twice())
        return gc.collect()

    def fails_twice() -> Any:
        left = [3]

        async def call() -> str:
            left[0] -= 1
            if left[0]:
                raise OSError(7, "scripted")
            return "won"

        return call

    gc.disable()
    try:
        assert asyncio.run(main()) < 20
    finally:
        gc.enable()


def test_a_cancelled_wait_leaves_no_timer() -> None:
    async def main() -> List[Any]:
        loop = asyncio.get_running_loop()
        handles: List[Any] = []
        later = loop.call_later

        def notes(*how: Any, **named: Any) -> Any:
            handles.append(later(*how, **named))
            return handles[-1]

        setattr(loop, "call_later", notes)
        task = asyncio.ensure_future(AsyncRetrying(spaced(60))(fails_later))
        while not handles:
            await asyncio.sleep(0)
        task.cancel()
        with pytest.raises(asyncio.CancelledError):
            await task
        return [handle.cancelled() for handle in handles]

    assert asyncio.run(main()) == [True]


def test_nothing_is_kept_of_a_retry_that_was_stopped_in_its_wait() -> None:
    class Big:
        pass

    big = Big()
    gone = weakref.ref(big)
    event = threading.Event()

    def ask(value: Big) -> None:
        raise ValueError()

    try:
        Retrying(spaced(60), stop=event, before_sleep=lambda state: event.set())(ask, big)
    except ValueError:
        pass
    del big
    assert gone() is None


def test_threads_that_poll_at_once_have_a_slate_each() -> None:
    def work(jitter: float) -> None:
        retrying = Retrying(
            recurs(20) & spaced(1).jittered(0, 1),
            random=lambda: jitter,
            sleep=slept[jitter].append,
            clock=lambda: 0.0,
            fallback=lambda state: None,
        )
        for _ in range(100):
            retrying(fails)

    before = sys.getswitchinterval()
    slept: Dict[float, List[float]] = {number / 8: [] for number in range(1, 8)}
    threads = [threading.Thread(target=work, args=(jitter,)) for jitter in slept]
    sys.setswitchinterval(1e-6)
    try:
        for thread in threads:
            thread.start()
        for thread in threads:
            thread.join()
    finally:
        sys.setswitchinterval(before)
    for jitter, waited in slept.items():
        assert len(waited) == 2000 and all(wait == pytest.approx(jitter) for wait in waited)
