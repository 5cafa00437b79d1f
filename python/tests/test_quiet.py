"""Calls on a limit that is quiet: two looks in the place of a request, and what happens between them."""

from __future__ import annotations

import asyncio
import contextlib
import os
import threading
from typing import Any, Callable, List

import pytest

from limited import admitted
from hikebox import AsyncRetrying, Breaker, BreakerState, Bucket, InFlight, Retrying, Throttle, both, recurs, spaced
from hikebox.limits.limit import CallLimit
from hikebox.testing import VirtualClock


def blocking(limit: CallLimit, fn: Callable[[], Any]) -> Any:
    return Retrying(recurs(1), limit=limit, sleep=lambda seconds: None)(fn)


def awaited(limit: CallLimit, fn: Callable[[], Any]) -> Any:
    async def later() -> Any:
        return fn()

    return asyncio.run(AsyncRetrying(recurs(1), limit=limit)(later))


CALLS = pytest.mark.parametrize("call", [blocking, awaited])


def fails() -> None:
    raise KeyError("fails")


def another_fails(limit: CallLimit, times: int = 1) -> None:
    with limit.request() as request:
        assert request.admit() is None
        for _ in range(times):
            request.failed()


def places(limit: CallLimit) -> List[int]:
    """How many handles the limit has of which nobody uses one, and how many at all."""
    return [len(limit.idle), len(limit._split)]


@CALLS
def test_a_success_leaves_a_quiet_limit_as_it_was(call: Any) -> None:
    for limit in (Bucket(10, credit=1, refund=True), Breaker(1, spaced(30))):
        before = limit.seen()
        assert [call(limit, lambda: 7) for _ in range(3)] == [7, 7, 7]
        assert limit.seen() == before and places(limit) == [1, 1]


@CALLS
def test_a_success_fills_a_bucket_that_another_call_drained_meanwhile(call: Any) -> None:
    # 10 tokens, of which the other failure takes 4; the success gives 1.
    bucket = Bucket(10, debit=4, credit=1)
    call(bucket, lambda: another_fails(bucket))
    assert bucket.seen().level == 7 and places(bucket) == [2, 2]


@CALLS
def test_a_success_resets_the_failures_that_another_call_counted_meanwhile(call: Any) -> None:
    breaker = Breaker(3, spaced(30))
    seen: List[int] = []

    def fn() -> None:
        another_fails(breaker, 2)
        seen.append(breaker.seen().failures)

    call(breaker, fn)
    assert (seen, breaker.seen().failures) == ([2], 0)


@CALLS
def test_a_success_from_before_the_breaker_opened_takes_no_probe(call: Any, clock: VirtualClock) -> None:
    breaker = Breaker(1, spaced(30), clock=clock)

    def fn() -> None:
        another_fails(breaker)
        clock.advance(31)

    call(breaker, fn)
    assert breaker.state is BreakerState.OPEN
    assert admitted(breaker) and breaker.seen()[:1] == (BreakerState.HALF_OPEN,)


@CALLS
def test_a_success_from_before_the_breaker_opened_is_not_that_of_a_probe(call: Any, clock: VirtualClock) -> None:
    breaker = Breaker(1, spaced(30), clock=clock)
    probes: List[Any] = []

    def fn() -> None:
        another_fails(breaker)
        clock.advance(31)
        probes.append(admitted(breaker))

    call(breaker, fn)
    assert (breaker.state, breaker.seen().admitted, breaker.seen().won) == (BreakerState.HALF_OPEN, 1, 0)
    probes[0].succeeded()
    assert breaker.state is BreakerState.CLOSED


@CALLS
def test_a_half_open_breaker_is_asked(call: Any, clock: VirtualClock) -> None:
    breaker = Breaker(1, spaced(30), probes=2, clock=clock)
    another_fails(breaker)
    clock.advance(31)
    call(breaker, lambda: None)
    assert (breaker.state, breaker.seen().admitted, breaker.seen().won) == (BreakerState.HALF_OPEN, 1, 1)
    call(breaker, lambda: None)
    assert breaker.state is BreakerState.CLOSED


@CALLS
def test_failures_after_a_quiet_look_are_counted(call: Any) -> None:
    breaker = Breaker(3, spaced(30))
    with pytest.raises(KeyError):
        call(breaker, fails)
    assert breaker.seen().failures == 2  # (the attempt, and its retry)
    with pytest.raises(KeyError):
        call(breaker, fails)
    assert breaker.state is BreakerState.OPEN and places(breaker) == [1, 1]


@CALLS
def test_a_failure_from_before_the_breaker_opened_changes_nothing(call: Any) -> None:
    # One failure opens it. It is opened and closed again by hand while the attempt is under way.
    breaker = Breaker(1, spaced(30))

    def fn() -> None:
        breaker.open(30)
        breaker.close()
        fails()

    with pytest.raises(KeyError):
        call(breaker, fn)
    assert breaker.seen() == (BreakerState.CLOSED, 0, None, 0, 0, 0)


@CALLS
def test_a_retry_after_a_quiet_look_is_drawn(call: Any) -> None:
    # 10 tokens: the failure takes 3, the retry 2, and the success gives 1.
    bucket = Bucket(10, debit=3, cost=2, credit=1)
    answers = [KeyError(), 7]

    def fn() -> Any:
        answer = answers.pop(0)
        if isinstance(answer, Exception):
            raise answer
        return answer

    assert call(bucket, fn) == 7
    assert bucket.seen().level == 6 and places(bucket) == [1, 1]


@CALLS
def test_several_limits_are_quiet_together(call: Any) -> None:
    # The breaker is closed all the time, and the bucket, of 10 tokens, has 6 and then 7.
    bucket, breaker = Bucket(10, debit=4, credit=1), Breaker(9, spaced(30))
    limit = both(breaker, bucket)
    call(limit, lambda: None)
    assert bucket.seen().level == 10 and places(limit) == [1, 1]
    another_fails(bucket)
    call(limit, lambda: None)
    assert bucket.seen().level == 7
    assert not both(bucket, InFlight.envoy()).rests


def test_a_change_after_a_quiet_look_is_told() -> None:
    told: List[Any] = []
    breaker = Breaker(2, spaced(30), on_change=lambda *states: told.append(states))
    with pytest.raises(KeyError):
        blocking(breaker, fails)
    assert told == [(BreakerState.CLOSED, BreakerState.OPEN)]


@CALLS
@pytest.mark.parametrize("ends, levels", [(int, (100, 91)), (fails, (80, 70))])
def test_a_forked_child_tells_its_own_limit(call: Any, ends: Any, levels: Any) -> None:
    # Of 100 tokens a failure takes 10, and a success gives 1. In the child another attempt fails first. Where this one
    # fails, so does its retry.
    bucket = Bucket(100, debit=10, credit=1, cost=0)
    child = -1

    def fn() -> Any:
        nonlocal child
        if child == -1:
            child = os.fork()
            if child == 0:
                another_fails(bucket)
        return ends()

    try:
        with contextlib.suppress(KeyError):
            call(bucket, fn)
        level = bucket.seen().level
    finally:
        if child == 0:
            os._exit(int(level))
    assert (level, os.waitstatus_to_exitcode(os.waitpid(child, 0)[1])) == levels
    assert places(bucket) == [1, 1]


@CALLS
def test_a_request_ends_at_once_where_its_limit_can_not_be_asked(call: Any, clock: VirtualClock) -> None:
    broken = False

    def now() -> float:
        if broken:
            raise KeyError("no clock")
        return clock()

    throttle = Throttle(2, 60, clock=now)
    broken = True
    with pytest.raises(KeyError) as caught:
        call(throttle, int)
    assert caught.tb is not None and places(throttle) == [1, 1]  # (though the exception keeps the frames)


def test_threads_count_each_failure_once() -> None:
    # 4 threads make 500 calls each, of which every fifth fails and takes a token. The others give none.
    bucket = Bucket(10_000, debit=1, cost=0)
    retrying = Retrying(recurs(0), limit=bucket)

    def calls() -> None:
        for turn in range(500):
            if turn % 5:
                retrying(int)
            else:
                with pytest.raises(KeyError):
                    retrying(fails)

    threads = [threading.Thread(target=calls) for _ in range(4)]
    for thread in threads:
        thread.start()
    for thread in threads:
        thread.join()
    assert bucket.seen().level == 10_000 - 4 * 100
    idle, split = places(bucket)
    assert idle == split <= 4


def test_a_place_comes_back_whatever_ends_the_call() -> None:
    async def never() -> None:
        await asyncio.sleep(3600)

    breaker = Breaker(5, spaced(30))
    awaited_nowhere: Any = never
    with pytest.raises(TypeError, match="which is not awaited here"):
        Retrying(recurs(1), limit=breaker)(awaited_nowhere)
    coroutine = AsyncRetrying(recurs(1), limit=breaker)(never)

    async def drop() -> None:
        task = asyncio.ensure_future(coroutine)
        await asyncio.sleep(0)
        task.cancel()
        with pytest.raises(asyncio.CancelledError):
            await task

    asyncio.run(drop())
    assert breaker.seen().failures == 0 and places(breaker) == [1, 1]
