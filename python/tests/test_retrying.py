"""Retries of functions, coroutines and blocks."""

from __future__ import annotations

import asyncio
import copy
import functools
import gc
import inspect
import logging
import pickle
import sys
import threading
import weakref
from datetime import timedelta
from fractions import Fraction
from typing import Any, AsyncIterator, Iterator, List

import pytest

from hikebox import (
    MAX_NUMBER,
    AsyncRetrying,
    Breaker,
    Budget,
    LimitInUse,
    Ending,
    NotAdmitted,
    Policy,
    PolicyError,
    ResultRefused,
    RetryState,
    Retrying,
    TryAgain,
    after_log,
    before_log,
    before_sleep_log,
    elapsed,
    exponential,
    fixed,
    forever,
    identity,
    milliseconds,
    recurs,
    retry,
    spaced,
    state_of,
    stop,
)
from hikebox.testing import VirtualClock


def granted_of(error: Any) -> int:
    state = state_of(error)
    assert state is not None
    return state.granted


def notes_of(error: BaseException) -> List[str]:
    return list(getattr(error, "__notes__", []))


class Scripted:
    """A call whose outcomes are listed; the last one repeats. A number is the code of a failure, a string a result."""

    def __init__(self, *outcomes: Any) -> None:
        self.outcomes = outcomes
        self.runs = 0

    def __call__(self) -> Any:
        outcome = self.outcomes[min(self.runs, len(self.outcomes) - 1)]
        self.runs += 1
        if isinstance(outcome, BaseException):
            raise outcome
        if isinstance(outcome, int):
            raise OSError(outcome, "scripted")
        return outcome

    async def later(self) -> Any:
        await asyncio.sleep(0)
        return self()


def made(kind: Any, policy: Any, clock: VirtualClock, **how: Any) -> Any:
    """A Retrying, or an AsyncRetrying whose calls are run to their end, on a virtual clock."""
    if kind == "sync":
        retrying = Retrying(policy, clock=clock, sleep=clock.sleep, **how)
        return lambda call: retrying(call)
    waits = AsyncRetrying(policy, clock=clock, sleep=clock.sleep_async, **how)
    return lambda call: asyncio.run(in_main(waits, call))


async def in_main(waits: AsyncRetrying, call: Scripted) -> Any:
    return await waits(call.later)


KINDS = pytest.mark.parametrize("kind", ["sync", "async"])


@KINDS
def test_it_calls_until_the_first_success(kind: str, clock: VirtualClock) -> None:
    call = Scripted(7, 7, "won")
    assert made(kind, recurs(5) & exponential(0.1), clock)(call) == "won"
    assert call.runs == 3
    assert clock.slept == pytest.approx([0.1, 0.2])


@KINDS
def test_a_first_success_waits_for_nothing(kind: str, clock: VirtualClock) -> None:
    call = Scripted("won")
    assert made(kind, spaced(1), clock)(call) == "won"
    assert call.runs == 1 and clock.slept == []


@KINDS
def test_the_last_exception_itself_is_raised(kind: str, clock: VirtualClock) -> None:
    errors = [OSError(1, "a"), OSError(2, "b"), OSError(3, "c")]
    call = Scripted(*errors)
    with pytest.raises(OSError) as caught:
        made(kind, recurs(2) & spaced(0.5), clock)(call)
    error = caught.value
    assert error is errors[2]
    state = state_of(error)
    assert state is not None and state is error.retry_state  # type: ignore[attr-defined]
    assert state.ending is Ending.SCHEDULE_DONE
    assert (state.attempt_number, state.granted) == (3, 2)
    assert state.idle_for == pytest.approx(1.0) == state.seconds_since_start
    assert notes_of(error) == ["hikebox: gave up after 3 attempts in 1.000 s: the policy was done"]
    assert call.runs == 3
    assert state_of(ValueError()) is None


@KINDS
def test_the_traceback_leads_to_the_call(kind: str, clock: VirtualClock) -> None:
    def fails() -> None:
        raise ValueError("here")

    async def fails_later() -> None:
        fails()

    with pytest.raises(ValueError) as caught:
        if kind == "sync":
            Retrying(recurs(1))(fails)
        else:
            asyncio.run(AsyncRetrying(recurs(1))(fails_later))
    assert caught.traceback[-1].name == "fails"
    assert caught.value.__context__ is None and caught.value.__cause__ is None


@KINDS
def test_other_errors_are_raised_at_once(kind: str, clock: VirtualClock) -> None:
    call = Scripted(ValueError("no"))
    with pytest.raises(ValueError) as caught:
        made(kind, recurs(5), clock, on=(TimeoutError, ConnectionError))(call)
    assert call.runs == 1
    assert not hasattr(caught.value, "retry_state")
    call = Scripted(KeyboardInterrupt())
    with pytest.raises(KeyboardInterrupt):
        made(kind, recurs(5), clock)(call)
    assert call.runs == 1
    call = Scripted(ConnectionResetError(), ValueError("then"))
    with pytest.raises(ValueError):
        made(kind, recurs(5), clock, on=ConnectionError)(call)
    assert call.runs == 2


@KINDS
def test_which_errors_are_retried_may_be_a_function(kind: str, clock: VirtualClock) -> None:
    call = Scripted(5, 5, 6)
    with pytest.raises(OSError) as caught:
        made(kind, recurs(9), clock, on=lambda error: error.errno == 5)(call)
    assert caught.value.errno == 6 and call.runs == 3


@KINDS
def test_try_again_is_always_retried(kind: str, clock: VirtualClock) -> None:
    call = Scripted(TryAgain(), "won")
    assert made(kind, recurs(1), clock, on=ConnectionError)(call) == "won"
    with pytest.raises(TryAgain):
        made(kind, recurs(1), clock, on=lambda error: False)(Scripted(TryAgain()))


@KINDS
def test_results_may_be_refused(kind: str, clock: VirtualClock) -> None:
    call = Scripted("busy", "busy", "done")
    assert made(kind, recurs(5) & spaced(1), clock, on_result=lambda result: result == "busy")(call) == "done"
    assert clock.slept == [1, 1]
    with pytest.raises(ResultRefused) as caught:
        made(kind, recurs(1), clock, on_result=lambda result: True)(Scripted("busy"))
    assert caught.value.result == "busy"
    state = state_of(caught.value)
    assert state is not None and state.ending is Ending.SCHEDULE_DONE


@KINDS
def test_a_fallback_answers_in_the_end(kind: str, clock: VirtualClock) -> None:
    def fallback(state: RetryState) -> Any:
        assert state.outcome is not None
        return (state.attempt_number, state.ending, type(state.outcome.exception()))

    call = Scripted(7)
    assert made(kind, recurs(2), clock, fallback=fallback)(call) == (3, Ending.SCHEDULE_DONE, OSError)
    with pytest.raises(KeyboardInterrupt):
        made(kind, recurs(2), clock, fallback=fallback)(Scripted(KeyboardInterrupt()))
    refused = made(kind, recurs(1), clock, fallback=lambda state: state.outcome.result(), on_result=lambda _: True)
    assert refused(Scripted("busy")) == "busy"


@KINDS
def test_the_policy_is_given_the_code_of_the_failure(kind: str, clock: VirtualClock) -> None:
    policy = (forever() & spaced(1)).while_input(equal=503)
    call = Scripted(503, 503, 404)
    with pytest.raises(OSError) as caught:
        made(kind, policy, clock)(call)
    assert caught.value.errno == 404 and call.runs == 3
    call = Scripted(1, 2, "won")
    assert made(kind, identity().until_output(at_least=20), clock, code=lambda error: error.errno * 7)(call) == "won"
    with pytest.raises(ValueError, match="code: expected a whole number from 0 to"):
        made(kind, policy, clock, code=lambda error: -1)(Scripted(503))


@KINDS
def test_the_wait_may_have_a_lower_bound(kind: str, clock: VirtualClock) -> None:
    bounds = iter([5.0, None, 0.1])
    call = Scripted(7, 7, 7, "won")
    assert made(kind, spaced(1), clock, retry_after=lambda error: next(bounds))(call) == "won"
    assert clock.slept == [5.0, 1.0, 1.0]


@KINDS
def test_hooks_see_each_attempt(kind: str, clock: VirtualClock) -> None:
    seen: List[Any] = []

    def hook(name: str) -> Any:
        def note(state: RetryState) -> None:
            outcome = state.outcome
            seen.append((name, state.attempt_number, outcome and outcome.failed, state.upcoming_sleep))

        return note

    call = Scripted(7, "won")
    how = {"before": hook("before"), "after": hook("after"), "before_sleep": hook("before_sleep")}
    made(kind, spaced(2), clock, **how)(call)
    assert seen == [
        ("before", 1, None, 0),
        ("after", 1, True, 0),
        ("before_sleep", 1, True, 2),
        ("before", 2, None, 0),
    ]


@KINDS
def test_the_time_that_calls_take_counts(kind: str, clock: VirtualClock) -> None:
    class Slow(Scripted):
        def __call__(self) -> Any:
            clock.advance(0.3)
            return super().__call__()

    assert made(kind, fixed(1), clock)(Slow(7, 7, 7, "won")) == "won"
    assert clock.slept == pytest.approx([1.0, 0.7, 0.7])


@KINDS
def test_a_sleep_that_takes_no_time_moves_the_retrys_clock(kind: str) -> None:
    waits: List[float] = []

    async def note(seconds: float) -> None:
        waits.append(seconds)

    policy = spaced(1).up_to(3)
    call = Scripted(7)
    with pytest.raises(OSError):
        if kind == "sync":
            Retrying(policy, clock=lambda: 5.0, sleep=waits.append)(call)
        else:
            asyncio.run(AsyncRetrying(policy, clock=lambda: 5.0, sleep=note)(call.later))
    assert waits == pytest.approx([1, 1, 1]) and call.runs == 4


@KINDS
def test_a_clock_that_goes_back_stands_still(kind: str, clock: VirtualClock) -> None:
    class Back(Scripted):
        def __call__(self) -> Any:
            clock.advance(-10)
            return super().__call__()

    assert made(kind, recurs(3) & spaced(1), clock)(Back(7, 7, "won")) == "won"


@KINDS
def test_jitter_is_picked_by_random(kind: str, clock: VirtualClock) -> None:
    numbers = iter([0.75, 0.5, 0.25])
    policy = spaced(1).jittered(0, 1)
    assert made(kind, policy, clock, random=lambda: next(numbers))(Scripted(7, 7, 7, "won")) == "won"
    assert clock.slept == pytest.approx([0.75, 0.5, 0.25])
    assert list(numbers) == []


@KINDS
def test_real_time(kind: str) -> None:
    import time

    start = time.monotonic()
    call = Scripted(7, 7, "won")
    policy = spaced(0.03)
    result = Retrying(policy)(call) if kind == "sync" else asyncio.run(AsyncRetrying(policy)(call.later))
    took = time.monotonic() - start
    assert result == "won" and 0.058 <= took < 20


def test_a_retry_goes_on_after_65536_failures(clock: VirtualClock) -> None:
    call = Scripted(*[7] * 70000, "won")
    retrying = Retrying(forever(), clock=clock, sleep=clock.sleep)
    assert retrying(call) == "won" and call.runs == 70001 and retrying.statistics.retries == 70000


def test_a_decorated_function() -> None:
    calls: List[Any] = []

    @retry(recurs(3), on=KeyError)
    def fetch(key: str, *, default: int = 0) -> int:
        """Fetches."""
        calls.append((key, default))
        if len(calls) < 3:
            raise KeyError(key)
        return default

    assert fetch("a", default=5) == 5
    assert calls == [("a", 5)] * 3
    assert fetch.__name__ == "fetch" and fetch.__doc__ == "Fetches."
    retrying = fetch.retry
    assert isinstance(retrying, Retrying) and retrying.policy == recurs(3)
    statistics = retrying.statistics
    assert (statistics.calls, statistics.attempts, statistics.retries, statistics.won) == (1, 3, 2, 1)
    calls.clear()
    once = fetch.retry_with(policy=stop())
    with pytest.raises(KeyError):
        once("b")
    assert len(calls) == 1
    assert once.retry.statistics.schedule_done == 1 and retrying.statistics.calls == 1


def test_a_decorated_coroutine_function() -> None:
    runs = []

    @retry('{"recurs":3}', on=KeyError)
    async def fetch(key: str) -> str:
        runs.append(key)
        await asyncio.sleep(0)
        if len(runs) < 3:
            raise KeyError(key)
        return key

    assert isinstance(fetch.retry, AsyncRetrying)
    assert asyncio.iscoroutinefunction(fetch)
    assert asyncio.run(fetch("a")) == "a" and runs == ["a"] * 3


def test_methods_and_callable_objects() -> None:
    class Client:
        def __init__(self) -> None:
            self.runs = 0

        @retry(recurs(3))
        def ask(self) -> int:
            self.runs += 1
            if self.runs % 2:
                raise KeyError()
            return self.runs

        async def __call__(self) -> int:
            return self.ask()

    client = Client()
    assert client.ask() == 2
    assert asyncio.run(retry(recurs(1))(client)()) == 4
    assert retry(recurs(3))(functools.partial(int, "3"))() == 3


def test_what_can_not_be_decorated() -> None:
    def numbers() -> Iterator[int]:
        yield 1

    async def later() -> Any:
        yield 1

    for generator in (numbers, later):
        with pytest.raises(TypeError, match="generator"):
            retry(recurs(3))(generator)
    with pytest.raises(TypeError, match="policy"):
        retry(numbers)  # type: ignore[arg-type]
    with pytest.raises(TypeError):
        Retrying(recurs(1), on=3)  # type: ignore[arg-type]
    with pytest.raises(TypeError):
        Retrying(recurs(1), limit=3)  # type: ignore[arg-type]
    with pytest.raises(TypeError):
        retry(recurs(1), nonsense=3)(len)  # type: ignore[call-arg]


def test_attempts_in_a_loop(clock: VirtualClock) -> None:
    call = Scripted(7, 7, "won")
    retrying = Retrying(recurs(5) & spaced(1), clock=clock, sleep=clock.sleep)
    numbers = []
    for attempt in retrying:
        with attempt:
            numbers.append(attempt.number)
            result = call()
    assert result == "won" and numbers == [1, 2, 3] and clock.slept == [1, 1]
    assert retrying.statistics.won == 1

    call = Scripted(OSError(9, "last"))
    with pytest.raises(OSError) as caught:
        for attempt in Retrying(recurs(2)):
            with attempt:
                call()
    assert state_of(caught.value).attempt_number == 3  # type: ignore[union-attr]

    for attempt in Retrying(recurs(2), fallback=lambda state: None):
        with attempt:
            call()
    assert call.runs == 6

    with pytest.raises(ZeroDivisionError):
        for attempt in Retrying(recurs(2), on=OSError):
            with attempt:
                1 / 0
    with pytest.raises(RuntimeError, match="with attempt"):
        for attempt in Retrying(recurs(2)):
            pass


def test_attempts_with_results_in_a_loop() -> None:
    seen = []
    for attempt in Retrying(recurs(5), on_result=lambda result: bool(result != 3)):
        with attempt:
            seen.append(attempt.number)
            attempt.retry_state.set_result(attempt.number)
    assert seen == [1, 2, 3]
    with pytest.raises(ResultRefused):
        for attempt in Retrying(recurs(1), on_result=lambda result: True):
            with attempt:
                pass


def test_attempts_in_a_loop_of_a_coroutine(clock: VirtualClock) -> None:
    async def main() -> Any:
        call = Scripted(7, 7, "won")
        async for attempt in AsyncRetrying(recurs(5) & spaced(1), clock=clock, sleep=clock.sleep_async):
            with attempt:
                result = await call.later()
        assert clock.slept == [1, 1]
        failing = Scripted(7)
        with pytest.raises(OSError) as caught:
            async for attempt in AsyncRetrying(recurs(2)):
                with attempt:
                    await failing.later()
        assert state_of(caught.value).attempt_number == 3  # type: ignore[union-attr]
        async for attempt in AsyncRetrying(recurs(2), fallback=lambda state: None):
            with attempt:
                await failing.later()
        assert failing.runs == 6
        return result

    assert asyncio.run(main()) == "won"


def test_a_loop_that_is_left_gives_its_pass_back() -> None:
    budget = Budget(10)
    for attempt in Retrying(recurs(5), limit=budget):
        with attempt:
            if attempt.number < 3:
                raise KeyError()
            break
    with pytest.raises(KeyError):
        for attempt in Retrying(recurs(5), limit=budget):
            with attempt:
                if attempt.number < 3:
                    raise KeyError()
            raise KeyError("outside")
    for attempt in Retrying(recurs(5), limit=budget):
        with attempt:
            raise KeyError()
        break
    del attempt
    gc.collect()
    assert budget.close() == 4


@KINDS
def test_a_budget_bounds_the_retries(kind: str, clock: VirtualClock) -> None:
    budget = Budget(5)
    calls = made(kind, recurs(3), clock, limit=budget)
    endings = []
    for _ in range(3):
        with pytest.raises(OSError) as caught:
            calls(Scripted(7))
        state = state_of(caught.value)
        assert state is not None
        endings.append((state.ending, state.attempt_number, state.granted))
    assert endings == [
        (Ending.SCHEDULE_DONE, 4, 3),
        (Ending.LIMIT_REFUSED, 3, 2),
        (Ending.LIMIT_REFUSED, 1, 0),
    ]
    assert "the limit refused a retry" in notes_of(caught.value)[0]
    assert budget.close() == 5


@KINDS
def test_a_retry_may_draw_on_something_else(kind: str, clock: VirtualClock) -> None:
    class Three:
        drawn = 0

        def draw(self) -> Any:
            self.drawn += 1
            return self.drawn if self.drawn <= 3 else None

    three = Three()
    with pytest.raises(OSError) as caught:
        made(kind, recurs(9), clock, limit=three)(Scripted(7))
    state = state_of(caught.value)
    assert state is not None and (state.ending, state.granted) == (Ending.LIMIT_REFUSED, 3)
    with pytest.raises(OSError):
        made(kind, recurs(0), clock, limit=three)(Scripted(7))
    assert three.drawn == 4


def test_a_coroutine_that_is_cancelled_while_it_waits() -> None:
    budget = Budget(10)
    call = Scripted(7)

    async def main() -> None:
        retrying = AsyncRetrying(spaced(0.01).and_then(spaced(60)) & recurs(9), limit=budget)
        slow = AsyncRetrying(recurs(2).and_then(spaced(60)), limit=budget)
        task = asyncio.ensure_future(slow(call.later))
        while call.runs < 3:
            await asyncio.sleep(0.001)
        await asyncio.sleep(0.01)
        with pytest.raises(LimitInUse):
            budget.close()
        task.cancel()
        with pytest.raises(asyncio.CancelledError):
            await task
        assert slow.statistics.not_retried == 0 and slow.statistics.cancelled == 1
        assert retrying.statistics.calls == 0

    asyncio.run(main())
    assert budget.close() == 3


def test_many_coroutines_at_once_share_a_budget() -> None:
    async def main() -> int:
        with Budget(1000) as budget:
            retrying = AsyncRetrying(recurs(3), limit=budget)
            calls = [Scripted(7) for _ in range(500)]
            ended = await asyncio.gather(*(retrying(call.later) for call in calls), return_exceptions=True)
        assert sum(granted_of(error) for error in ended) == 1000
        assert sum(call.runs for call in calls) == 1500
        return budget.granted

    assert asyncio.run(main()) == 1000


def test_threads_share_a_retrying_and_a_budget() -> None:
    with Budget(3000) as budget:
        retrying = Retrying(recurs(100), limit=budget)
        granted: List[int] = []

        def work() -> None:
            for _ in range(10):
                with pytest.raises(OSError) as caught:
                    retrying(Scripted(7))
                granted.append(state_of(caught.value).granted)  # type: ignore[union-attr]

        threads = [threading.Thread(target=work) for _ in range(8)]
        for thread in threads:
            thread.start()
        for thread in threads:
            thread.join()
    assert sum(granted) == 3000 == budget.granted
    statistics = retrying.statistics
    assert statistics.calls == 80 and statistics.retries == 3000
    assert statistics.schedule_done + statistics.limit_refused == 80


def test_one_budget_serves_more_than_65536_retries() -> None:
    with Budget(100000) as budget:
        retrying = Retrying(recurs(1), limit=budget, fallback=lambda state: None)
        call = Scripted(7)
        for _ in range(70000):
            retrying(call)
    assert budget.granted == 70000 and call.runs == 140000


def test_retries_without_a_budget_have_no_bound_but_the_policy() -> None:
    retrying = Retrying(recurs(1), fallback=lambda state: state.ending)
    call = Scripted(7)
    assert {retrying(call) for _ in range(70000)} == {Ending.SCHEDULE_DONE}


def test_statistics() -> None:
    budget = Budget(3)
    retrying = Retrying(recurs(2), on=OSError, limit=budget, fallback=lambda state: None)
    for call in (Scripted(7, "won"), Scripted(7), Scripted(7), Scripted(KeyError())):
        try:
            retrying(call)
        except KeyError:
            pass
    seen = retrying.statistics
    assert (seen.calls, seen.attempts, seen.won, seen.schedule_done) == (4, 7, 1, 1)
    assert (seen.limit_refused, seen.not_retried, seen.cancelled, seen.broken) == (1, 1, 0, 0)
    assert retrying.copy().statistics.calls == 0
    budget.close()


def test_it_logs(caplog: Any, clock: VirtualClock) -> None:
    def fetch() -> None:
        raise OSError(7, "scripted")

    caplog.set_level(logging.DEBUG, logger="hikebox")
    with pytest.raises(OSError):
        Retrying(recurs(1) & spaced(1), clock=clock, sleep=clock.sleep)(fetch)
    texts = [record.getMessage() for record in caplog.records]
    assert len(texts) == 2
    assert "fetch: attempt 1 raised OSError(7, 'scripted'); next in 1.000 s" in texts[0]
    assert "gave up after 2 attempts" in texts[1]

    caplog.clear()
    caplog.set_level(logging.INFO, logger="own")
    log = logging.getLogger("own")
    hooks = {
        "before": before_log(log, logging.INFO),
        "after": after_log(log, logging.INFO),
        "before_sleep": before_sleep_log(log, logging.WARNING, exc_info=True),
    }
    with pytest.raises(OSError):
        Retrying(recurs(1), **hooks)(fetch)  # type: ignore[arg-type]
    own = [record for record in caplog.records if record.name == "own"]
    assert [record.levelno for record in own] == [20, 20, 30, 20, 20]
    assert own[2].exc_info is not None


def test_an_exception_that_takes_no_attributes_is_raised_as_it_is() -> None:
    class Closed(Exception):
        __slots__ = ()

        def __setattr__(self, name: str, value: Any) -> None:
            raise AttributeError(name)

    class Frozen(Closed):
        def __setattr__(self, name: str, value: Any) -> None:
            raise RuntimeError(f"{name} can't be set")

    for kind in (Closed, Frozen):
        with pytest.raises(kind):
            Retrying(recurs(1))(Scripted(kind()))


def test_an_exception_that_a_retry_raised_can_be_pickled() -> None:
    with pytest.raises(OSError) as caught:
        Retrying(recurs(2), before=lambda state: None)(Scripted(7))
    again = pickle.loads(pickle.dumps(caught.value))
    state = state_of(again)
    assert state is not None and (state.attempt_number, state.ending) == (3, Ending.SCHEDULE_DONE)
    assert state.retry_object is None and state.code == 0
    assert notes_of(again) == notes_of(caught.value)


def test_errors_of_the_package_keep_the_state_of_their_retry_as_copies() -> None:
    breaker = Breaker(1, spaced(60))
    with pytest.raises(OSError):
        Retrying(recurs(0), limit=breaker)(Scripted(7))
    with pytest.raises(NotAdmitted) as refused:
        Retrying(recurs(1), limit=breaker)(int, "3")
    with pytest.raises(ResultRefused) as not_accepted:
        Retrying(recurs(1), on_result=bool)(int, "3")
    with pytest.raises(PolicyError) as wrong:
        Retrying(recurs(1))(Policy.from_json, "{")
    for error in (refused.value, not_accepted.value, wrong.value):
        for again in (pickle.loads(pickle.dumps(error)), copy.copy(error)):
            own, state = state_of(error), state_of(again)
            assert own is not None and state is not None
            assert (state.ending, state.attempt_number) == (own.ending, own.attempt_number)
            assert (str(again), notes_of(again)) == (str(error), notes_of(error))
            assert (state.refusal is None) == (own.refusal is None)


def test_an_attempt_has_one_block() -> None:
    budget = Budget(9)
    attempt = None
    with pytest.raises(RuntimeError, match="^an attempt is over once its `with` block was left"):
        for attempt in Retrying(recurs(2), limit=budget):
            with attempt:
                pass
            with attempt:
                raise ConnectionError()
    assert attempt is not None and budget.close() == 0


def test_an_exception_that_is_raised_again_and_again_keeps_few_notes() -> None:
    error = OSError(7, "always this one")
    setattr(error, "__notes__", ["of its own"])
    for _ in range(100):
        with pytest.raises(OSError):
            Retrying(stop())(Scripted(error))
    notes = notes_of(error)
    assert notes[0] == "of its own" and 2 <= len(notes) <= 9


@KINDS
def test_waits_to_the_end_of_time(kind: str, clock: VirtualClock) -> None:
    call = Scripted(7, 7, 7, "won")
    assert made(kind, spaced(milliseconds(MAX_NUMBER)), clock)(call) == "won"
    assert clock.slept == pytest.approx([MAX_NUMBER / 1000])


def test_parameters_of_any_name_are_passed_on() -> None:
    assert Retrying(stop())(dict, fn=1, self=2) == {"fn": 1, "self": 2}


def test_nothing_is_kept_of_a_retry_that_is_over() -> None:
    class Big:
        pass

    big = Big()
    gone = weakref.ref(big)

    def fails(value: Big) -> None:
        raise ValueError()

    gc.disable()
    try:
        try:
            Retrying(recurs(2))(fails, big)
        except ValueError as error:
            assert state_of(error).args == (big,)  # type: ignore[union-attr]
        del big
        assert gone() is None
    finally:
        gc.enable()


def test_a_retrying_is_shown() -> None:
    assert repr(Retrying(recurs(3))) == "Retrying(recurs(3))"
    assert "Budget(5)" in repr(AsyncRetrying(recurs(3), limit=Budget(5)))


@pytest.mark.parametrize("delay", [0, 0.001])
@pytest.mark.parametrize("is_said", [True, False])
def test_trio(delay: float, is_said: bool) -> None:
    trio = pytest.importorskip("trio")
    runs = []

    @retry(recurs(5) & spaced(delay), sleep=trio.sleep if is_said else None)
    async def fetch() -> str:
        runs.append(1)
        await trio.sleep(0)
        if len(runs) < 3:
            raise KeyError()
        return "won"

    assert trio.run(fetch) == "won"
    assert len(runs) == 3


def test_a_generator_is_refused_where_it_is_called_at_once() -> None:
    def plain() -> Iterator[int]:
        yield 1

    async def later() -> AsyncIterator[int]:
        yield 1

    both: Any = (Retrying(recurs(1)), AsyncRetrying(recurs(1)))
    for retrying in both:
        for fn in (plain, later, ByMethod().plain):
            with pytest.raises(TypeError, match="^a generator runs after its call has returned"):
                retrying(fn)


class ByMethod:
    def plain(self) -> Iterator[int]:
        yield 1


@pytest.mark.parametrize("asks", [timedelta(seconds=2), 2, 2.0, Fraction(2), None])
def test_a_function_asks_for_a_wait_in_seconds_or_as_a_timedelta(clock: VirtualClock, asks: Any) -> None:
    for option in ("wait", "retry_after"):
        began = clock()
        how: Any = {option: lambda _: asks}
        with pytest.raises(OSError):
            Retrying(recurs(1), clock=clock, sleep=clock.sleep, **how)(Scripted(2))
        assert clock() - began == (0 if asks is None else 2)


@pytest.mark.parametrize("asks", ["2", "soon", [2], b"2"])
def test_a_function_that_asks_for_no_time_is_named(asks: Any) -> None:
    by_wait: Any = {"wait": lambda _: asks}
    by_retry_after: Any = {"retry_after": lambda _: asks}
    with pytest.raises(TypeError, match="^wait: expected seconds, a timedelta or None, got") as raised:
        Retrying(recurs(1), **by_wait)(Scripted(2))
    assert isinstance(raised.value.__context__, OSError)
    with pytest.raises(TypeError, match="^retry_after: expected seconds"):
        Retrying(recurs(1), **by_retry_after)(Scripted(2))


def test_elapsed_counts_from_the_first_failure(clock: VirtualClock) -> None:
    outputs = [step.output for step in elapsed().preview(3)]
    assert outputs == [0, 0, 0]
    policy: Policy = spaced(1) & elapsed().while_output(below=2500)
    call = Scripted(7)
    with pytest.raises(OSError):
        Retrying(policy, clock=clock, sleep=clock.sleep)(call)
    assert call.runs == 4


@pytest.mark.skipif(sys.version_info < (3, 11), reason="exceptions have notes from 3.11 on")
def test_the_note_is_printed() -> None:
    import traceback

    try:
        Retrying(recurs(0))(Scripted(7))
    except OSError as error:
        assert "hikebox: gave up after 1 attempt" in "".join(traceback.format_exception(error))


def test_retry_takes_what_retrying_takes() -> None:
    assert inspect.signature(retry).parameters == inspect.signature(Retrying).parameters
    with pytest.raises(TypeError, match="attempts"):
        retry(recurs(1), attempts=3)(print)  # type: ignore[call-arg]
