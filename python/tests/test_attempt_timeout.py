"""Attempts that take too long, which asyncio and trio cancel."""

from __future__ import annotations

import asyncio
import importlib
import re
import sys
from datetime import timedelta
from typing import Any, Callable, List

import pytest

from hikebox import (
    AsyncRepeating,
    AsyncRetrying,
    AttemptTimeout,
    Breaker,
    Bucket,
    Ending,
    Retrying,
    TermsError,
    recurs,
    retry,
    spaced,
    state_of,
)

#: As asyncio is, as it is before Python 3.11, and trio.
KINDS = ["asyncio", "asyncio before 3.11", "trio"]


class Runner:
    """What runs coroutines, and what waits and checks there."""

    def __init__(self, kind: str, monkeypatch: Any) -> None:
        self.is_trio = kind == "trio"
        if self.is_trio:
            self.trio: Any = pytest.importorskip("trio")
        elif kind == "asyncio before 3.11":
            monkeypatch.delattr(asyncio, "timeout", raising=False)

    def run(self, made: Callable[[], Any]) -> Any:
        return self.trio.run(made) if self.is_trio else asyncio.run(made())

    async def for_ever(self) -> None:
        await (self.trio.sleep_forever() if self.is_trio else asyncio.get_running_loop().create_future())

    def retrying(self, policy: Any = recurs(3), **how: Any) -> AsyncRetrying:
        return AsyncRetrying(policy, sleep=self.trio.sleep if self.is_trio else None, **how)

    @property
    def cancelled(self) -> Any:
        return self.trio.Cancelled if self.is_trio else asyncio.CancelledError


@pytest.fixture(params=KINDS)
def runner(request: Any, monkeypatch: Any) -> Runner:
    return Runner(request.param, monkeypatch)


def hangs(runner: Runner, times: int, notes: List[Any]) -> Any:
    """A coroutine function whose first calls wait for ever."""

    async def call() -> str:
        notes.append("begins")
        try:
            if notes.count("begins") <= times:
                await runner.for_ever()
        except BaseException as error:
            notes.append(type(error) is runner.cancelled)
            raise
        return "here"

    return call


def test_an_attempt_is_cancelled_and_another_follows(runner: Runner) -> None:
    notes: List[Any] = []
    retrying = runner.retrying(attempt_timeout=0.01)
    assert runner.run(lambda: retrying(hangs(runner, 2, notes))) == "here"
    assert notes == ["begins", True, "begins", True, "begins"]
    assert (retrying.statistics.attempts, retrying.statistics.won) == (3, 1)


def test_the_last_one_raises(runner: Runner) -> None:
    notes: List[Any] = []
    retrying = runner.retrying(recurs(1), attempt_timeout=timedelta(milliseconds=10))
    with pytest.raises(AttemptTimeout, match=r"^the attempt took longer than 0\.01 s$") as raised:
        runner.run(lambda: retrying(hangs(runner, 5, notes)))
    state = state_of(raised.value)
    assert state is not None and (state.ending, state.attempt_number) == (Ending.SCHEDULE_DONE, 2)
    assert isinstance(raised.value, TimeoutError) and notes == ["begins", True] * 2


@pytest.mark.parametrize("limit", [Breaker(1, spaced(60)), Bucket(2, floor=1, debit=1)], ids=["breaker", "bucket"])
def test_it_is_a_failure_to_a_limit(limit: Any) -> None:
    # Either has no room for a retry after one failure.
    notes: List[Any] = []
    runner = Runner("asyncio", None)
    retrying = runner.retrying(limit=limit, attempt_timeout=0.01, fallback=lambda state: state.ending)
    assert runner.run(lambda: retrying(hangs(runner, 5, notes))) is Ending.LIMIT_REFUSED


def test_it_is_retried_whatever_on_says(runner: Runner) -> None:
    notes: List[Any] = []
    retrying = runner.retrying(on=KeyError, attempt_timeout=0.01)
    assert runner.run(lambda: retrying(hangs(runner, 1, notes))) == "here"


def test_a_timeout_of_the_call_itself_is_another_one(runner: Runner) -> None:
    async def call() -> None:
        raise TimeoutError("of a client")

    retrying = runner.retrying(on=KeyError, attempt_timeout=60)
    with pytest.raises(TimeoutError, match="^of a client$") as raised:
        runner.run(lambda: retrying(call))
    assert type(raised.value) is TimeoutError and retrying.statistics.not_retried == 1


def test_an_attempt_in_time_is_left_alone(runner: Runner) -> None:
    async def call() -> str:
        await (runner.trio.sleep(0.001) if runner.is_trio else asyncio.sleep(0.001))
        return "here"

    @retry(recurs(3), attempt_timeout=60, sleep=runner.retrying().sleep)
    async def decorated() -> str:
        return await call()

    assert [runner.run(lambda: runner.retrying(attempt_timeout=60)(call)), runner.run(decorated)] == ["here"] * 2


def test_one_that_goes_on_when_it_is_cancelled_gives_its_result() -> None:
    calls = [0]

    async def call() -> str:
        calls[0] += 1
        try:
            await asyncio.get_running_loop().create_future()
        except asyncio.CancelledError:
            pass
        return "here all the same"

    assert asyncio.run(AsyncRetrying(recurs(3), attempt_timeout=0.01)(call)) == "here all the same" and calls == [1]


def test_who_cancels_the_call_ends_it(runner: Runner) -> None:
    notes: List[Any] = []
    retrying = runner.retrying(attempt_timeout=60)

    async def in_asyncio() -> None:
        task = asyncio.ensure_future(retrying(hangs(runner, 9, notes)))
        while not notes:
            await asyncio.sleep(0)
        task.cancel()
        with pytest.raises(asyncio.CancelledError):
            await task

    async def in_trio() -> None:
        async with runner.trio.open_nursery() as nursery:
            nursery.start_soon(retrying, hangs(runner, 9, notes))
            await runner.trio.testing.wait_all_tasks_blocked()
            nursery.cancel_scope.cancel()

    if runner.is_trio:
        importlib.import_module("trio.testing")
    runner.run(in_trio if runner.is_trio else in_asyncio)
    assert notes == ["begins", True] and retrying.statistics.attempts == 1


def test_one_timeout_in_another(runner: Runner) -> None:
    # The outer attempt ends while the inner one has a minute.
    notes: List[Any] = []
    inner, outer = runner.retrying(attempt_timeout=60), runner.retrying(recurs(1), attempt_timeout=0.01)

    async def call() -> Any:
        return await inner(hangs(runner, 1, notes))

    assert runner.run(lambda: outer(call)) == "here"
    assert (notes, inner.statistics.attempts, outer.statistics.attempts) == (["begins", True, "begins"], 2, 2)


def test_it_ends_a_repeat() -> None:
    notes: List[Any] = []
    runner = Runner("asyncio", None)
    with pytest.raises(AttemptTimeout):
        asyncio.run(AsyncRepeating(recurs(3), attempt_timeout=0.01)(hangs(runner, 1, notes)))
    assert notes == ["begins", True]


def test_threads_loops_and_adapters_take_none() -> None:
    told = "^attempt_timeout: expected a coroutine function: an attempt of a thread can't be ended; bound what it waits"
    with pytest.raises(TypeError, match=told):
        Retrying(recurs(3), attempt_timeout=1)
    with pytest.raises(TypeError, match=told):
        retry(recurs(3), attempt_timeout=1)(lambda: None)

    async def loop() -> None:
        async for attempt in AsyncRetrying(recurs(3), attempt_timeout=1):
            with attempt:
                pass

    with pytest.raises(TypeError, match="^attempt_timeout: expected a coroutine function; in the block of a loop"):
        asyncio.run(loop())
    pytest.importorskip("httpx")
    from hikebox.adapters.httpx import AsyncPolicyTransport

    told = r"^AsyncPolicyTransport\(\) takes no attempt_timeout: the client's own timeout is for each attempt$"
    with pytest.raises(TypeError, match=told):
        AsyncPolicyTransport(recurs(3), attempt_timeout=1)


def test_wrong_times() -> None:
    anything: Any = "soon"
    with pytest.raises(TermsError, match=f"^{re.escape('attempt_timeout: expected a time above 0, got 0')}$"):
        AsyncRetrying(recurs(3), attempt_timeout=0)
    told = "attempt_timeout: expected 0 to 4611686018427387.903 seconds, got -1"
    with pytest.raises(TermsError, match=f"^{re.escape(told)}$"):
        AsyncRetrying(recurs(3), attempt_timeout=-1)
    with pytest.raises(TypeError, match="^attempt_timeout: expected seconds or a timedelta, got 'soon'$"):
        AsyncRetrying(recurs(3), attempt_timeout=anything)


def test_only_asyncio_and_trio_can_cancel() -> None:
    async def call() -> None:
        ...

    with pytest.raises(RuntimeError, match="^attempt_timeout: expected a coroutine that asyncio or trio runs$"):
        AsyncRetrying(recurs(3), on=KeyError, attempt_timeout=1)(call).send(None)


def test_python_has_a_timeout_of_its_own() -> None:
    assert hasattr(asyncio, "timeout") is (sys.version_info >= (3, 11))
