"""What a call that succeeds at once costs: the functions of the package that it calls."""

from __future__ import annotations

import asyncio
import gc
import sys
import threading
from pathlib import Path
from typing import Any, Callable, List, Set

import pytest

import hikebox
from hikebox import (
    AsyncRetrying,
    Breaker,
    Bucket,
    Budget,
    Ending,
    InFlight,
    Quota,
    Retrying,
    Statistics,
    Throttle,
    recurs,
    spaced,
)
from hikebox.retry.state import Counts
from hikebox.testing import VirtualClock

PACKAGE = str(Path(hikebox.__file__).parent)


def codes(call: Callable[[], Any]) -> List[Any]:
    """The code of the functions of the package that this calls, one after another."""
    seen: List[Any] = []

    def notes(frame: Any, event: str, _: Any) -> None:
        if event == "call" and frame.f_code.co_filename.startswith(PACKAGE):
            seen.append(frame.f_code)

    gc.collect()
    gc.disable()  # (what other tests left is freed at no other time)
    before = sys.getprofile()
    sys.setprofile(notes)
    try:
        call()
    finally:
        sys.setprofile(before)
        gc.enable()
    return seen


def functions(call: Callable[[], Any]) -> List[str]:
    """Their names."""
    return [code.co_name for code in codes(call)]


def succeeds() -> int:
    return 7


async def succeeds_later() -> int:
    return 7


@pytest.mark.parametrize("budget", [None, Budget(5)])
def test_a_success_asks_nothing_of_the_engine(budget: Any) -> None:
    retrying, awaiting = Retrying(recurs(3), limit=budget), AsyncRetrying(recurs(3), limit=budget)
    assert functions(lambda: retrying(succeeds)) == ["__call__", "run"]
    assert functions(retrying.wraps(succeeds)) == ["wrapped", "run"]
    assert functions(lambda: asyncio.run(awaiting(succeeds_later))) == ["__call__", "run_async"]
    assert (retrying.statistics.won, awaiting.statistics.attempts) == (2, 1)


def test_successes_of_many_threads_are_counted_while_others_look() -> None:
    retrying = Retrying(recurs(3))
    seen: List[int] = []

    def calls() -> None:
        for turn in range(5000):
            retrying(succeeds)
            if turn % 500 == 0:
                seen.append(retrying.statistics.calls)

    threads = [threading.Thread(target=calls) for _ in range(8)]
    for thread in threads:
        thread.start()
    for thread in threads:
        thread.join()
    counted = retrying.statistics
    assert (counted.calls, counted.attempts, counted.won, counted.retries) == (40_000, 40_000, 40_000, 0)
    assert len(seen) == 80 and all(1 <= calls <= 40_000 for calls in seen)


def test_successes_at_once_are_counted_with_those_that_waited() -> None:
    counts = Counts()
    for waited in (0.0, 0.5):  # (as a hedged call does whose first attempt succeeds late)
        counts.add(1, waited, Ending.WON)
    counts.add(3, 1.5, Ending.WON)
    counts.add_success()
    assert counts.seen() == Statistics(calls=4, attempts=6, idle_for=2.0, won=4)


def test_a_success_on_a_quota_is_counted_and_no_more() -> None:
    quota = Quota(0, 1, 10**6)
    retrying = Retrying(recurs(3), limit=quota)
    counted = ["deposit", "moment"]
    retrying(succeeds)
    assert functions(lambda: retrying(succeeds)) == ["__call__", "run", *counted]
    awaiting = AsyncRetrying(recurs(3), limit=quota)
    assert functions(lambda: asyncio.run(awaiting(succeeds_later))) == ["__call__", "run_async", *counted]
    assert quota.seen().asked == 3


def test_a_success_that_is_counted_as_such_costs_no_more() -> None:
    quota = Quota(0, 1, 10**6, counts_successes=True)
    retrying = Retrying(recurs(3), limit=quota)
    retrying(succeeds)
    assert functions(lambda: retrying(succeeds))[1:] == [
        "run",
        "_deposit_won",
        "deposit",
        "moment",
    ]
    assert quota.seen().asked == 2


def test_a_request_is_counted_once_whatever_follows(clock: VirtualClock) -> None:
    quota = Quota(reserve=10, share=0, per=3600, clock=clock)
    answers: List[Any] = [7, ValueError(), 7, ValueError(), ValueError(), ValueError()]

    def call() -> Any:
        answer = answers.pop(0)
        if isinstance(answer, Exception):
            raise answer
        return answer

    retrying = Retrying(recurs(2), limit=quota, clock=clock)
    for asked, given in ((1, 0), (2, 1)):
        assert retrying(call) == 7
        assert (quota.seen().asked, quota.seen().given) == (asked, given)
    with pytest.raises(ValueError):
        retrying(call)
    assert (quota.seen().asked, quota.seen().given) == (3, 3)
    assert (retrying.statistics.calls, retrying.statistics.attempts, retrying.statistics.won) == (3, 6, 2)


def test_the_policy_counts_from_the_first_attempt_also_where_that_is_slow(clock: VirtualClock) -> None:
    # windows of a second: the first attempt begins in the first one, and fails in the second
    quota = Quota(reserve=1, share=0, per=1, clock=clock)
    clock.advance(0.9)

    def slow() -> None:
        clock.advance(0.2)
        raise ValueError

    with pytest.raises(ValueError):
        Retrying(recurs(2), limit=quota, clock=clock)(slow)
    # failures at 1.1 and 1.3, of which the first has the ticket of its window
    assert (quota.seen().window, quota.seen().given, quota.granted) == (1, 1, 1)


@pytest.mark.parametrize("limit, looks", [(Bucket(10**6), 1), (Breaker(5, spaced(30)), 2)], ids=["Bucket", "Breaker"])
def test_a_success_on_a_quiet_limit_is_a_look_and_one_before_where_it_may_refuse(limit: Any, looks: int) -> None:
    retrying, awaiting = Retrying(recurs(3), limit=limit), AsyncRetrying(recurs(3), limit=limit)
    retrying(succeeds)
    assert functions(lambda: retrying(succeeds)) == ["__call__", "run", "look_or_ask"]
    assert functions(lambda: asyncio.run(awaiting(succeeds_later))) == ["__call__", "run_async", "look_or_ask"]
    assert retrying.statistics.won == 2 and awaiting.statistics.won == 1
    (place,), made = limit.idle, []
    look = place.look
    place.look = lambda: made.append(look())
    assert (retrying(succeeds), len(made)) == (7, looks)


@pytest.mark.parametrize("limit", [InFlight.envoy(), Throttle.google()], ids=lambda limit: type(limit).__name__)
def test_a_success_on_another_limit_makes_its_three_calls(limit: Any) -> None:
    retrying, awaiting = Retrying(recurs(3), limit=limit), AsyncRetrying(recurs(3), limit=limit)
    retrying(succeeds)
    moment = ["_monotonic"] if limit.reads_clock else []
    word = ["<lambda>", "word_of"] if limit.reads_random else []
    begins = ["ask", "__init__", "admit", *moment, *word]
    ends = ["succeeded", *moment * limit.times_successes, "ended", "__del__"]
    assert sorted(functions(lambda: retrying(succeeds))) == sorted(["__call__", "run", *begins, *ends])
    assert len(functions(lambda: asyncio.run(awaiting(succeeds_later)))) == len([*begins, *ends]) + 2
    assert retrying.statistics.won == 2 and awaiting.statistics.won == 1


def test_a_failure_that_is_retried_on_a_quota_goes_through_few_functions() -> None:
    left = [1]
    how: Any = {"policy": recurs(3) & spaced(0.001), "limit": Quota(99, 0, 3600), "sleep": lambda seconds: None}
    retrying, awaiting = Retrying(**how), AsyncRetrying(**how)

    def call() -> None:
        left[0] -= 1
        if left[0] >= 0:
            raise ValueError

    async def call_later() -> None:
        call()

    def loop() -> None:
        for attempt in retrying:
            with attempt:
                call()

    async def loop_later() -> None:
        async for attempt in awaiting:
            with attempt:
                call()

    runs: List[Any] = [
        (lambda: retrying(call), 20, 9),
        (lambda: asyncio.run(awaiting(call_later)), 22, 9),
        (loop, 30, 10),
        (lambda: asyncio.run(loop_later()), 31, 10),
    ]
    for run, functions_at_most, files_at_most in runs:
        for _ in range(3):
            left[0] = 1
            seen: Set[Any] = set(codes(run))
        assert len(seen) <= functions_at_most and len({code.co_filename for code in seen}) <= files_at_most
