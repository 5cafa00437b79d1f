"""Limits: rows worked by hand, calls under each limit, several at once, and eight threads that count."""

from __future__ import annotations

import asyncio
import copy
import gc
import os
import pickle
import random
import re
import sys
import threading
from datetime import timedelta
from types import SimpleNamespace
from typing import Any, Callable, List, Optional

import pytest

from limited import NEVER_OPEN, admitted, draws_as_grpc_says, reason
from processes import in_a_forked_child
from hikebox import (
    AsyncRetrying,
    Breaker,
    Bucket,
    Budget,
    CallLimit,
    Ending,
    InFlight,
    NotAdmitted,
    Pace,
    PerKey,
    Quota,
    RefusalReason,
    Retrying,
    TermsError,
    Throttle,
    both,
    exponential,
    forever,
    recurs,
    repeat,
    retry,
    spaced,
    state_of,
    stop,
)
from hikebox.testing import VirtualClock, no_waits

THREADS = 8
#: What the types would refuse.
ANY_FIVE: Any = 5
ANY_NONE: Any = None
ANY_PACE: Any = Pace(10, 1)
ANY_QUOTA: Any = Quota(1, 0.1, 60)
ANY_BUDGET: Any = Budget(5)
ANY_CLASS: Any = Bucket
ANY_NO: Any = "no"
ANY_ONE: Any = 1
ANY_LIST: Any = [Bucket.aws(), InFlight.envoy()]


def fails() -> Any:
    raise KeyError()


def interrupts() -> Any:
    raise KeyboardInterrupt()


# Rows


def test_grpc() -> None:
    bucket = Bucket.grpc(4, 0.5)
    draws_as_grpc_says(admitted(bucket), admitted(bucket))


def test_the_ratio_of_grpc_has_three_decimals() -> None:
    # Its proposal A6: "Decimal places beyond 3 are ignored. (eg. .5466 is treated as .546.)"
    ratios = [0.5466, 0.546, 0.57, 0.1, 0.0019, 0.001, 1]
    assert [Bucket.grpc(10, ratio).terms[3] for ratio in ratios] == [546, 546, 570, 100, 1, 1, 1000]


def test_aws() -> None:
    # 500 tokens: a retry takes 5, and 10 after a timeout. A success gives back what the last retry took, or else 1.
    bucket = Bucket.aws()
    request = admitted(bucket)
    for _ in range(50):
        assert request.draw(TimeoutError()) is None
    assert reason(request.draw()) is RefusalReason.LEVEL_LOW
    request.succeeded()
    request.ended()
    request = admitted(bucket)
    assert request.draw() is None
    assert request.draw() is None
    assert reason(request.draw()) is RefusalReason.LEVEL_LOW
    request.cancelled()
    request.cancelled()
    assert request.draw() is None
    request.ended()
    plain = admitted(bucket)
    for _ in range(5):
        plain.succeeded()
    assert plain.draw() is None
    assert reason(plain.draw()) is RefusalReason.LEVEL_LOW


def test_aws_is_the_standard_mode_of_botocore() -> None:
    standard: Any = pytest.importorskip("botocore.retries.standard")
    errors: Any = pytest.importorskip("botocore.exceptions")
    quota, bucket, seed = standard.quota.RetryQuota(), Bucket.aws(), random.Random(20261130)
    checker = standard.RetryQuotaChecker(quota)
    kinds = (errors.ReadTimeoutError, errors.ConnectTimeoutError, errors.EndpointConnectionError)
    refused = 0
    for _ in range(300):
        request, context = admitted(bucket), standard.RetryContext(1, request_context={})
        is_granted = True
        for _ in range(seed.randrange(4)):
            if is_granted:
                context.caught_exception = seed.choice(kinds)(endpoint_url="")
                is_granted = checker.acquire_retry_quota(context)
                assert (request.draw(context.caught_exception) is None) is is_granted
        refused += not is_granted
        if is_granted and seed.random() < 0.5:
            checker.release_retry_quota(context.request_context, SimpleNamespace(status_code=200))
            request.succeeded()
        request.ended()
        assert bucket.seen().level == quota.available_capacity
    assert 0 < refused < 300


def test_the_timeouts_of_clients_cost_what_a_timeout_does() -> None:
    httpx, requests = pytest.importorskip("httpx"), pytest.importorskip("requests")
    urllib3 = pytest.importorskip("urllib3")
    late: List[Optional[BaseException]] = [
        TimeoutError(),
        asyncio.TimeoutError(),
        httpx.ReadTimeout("late"),
        httpx.PoolTimeout("late"),
        requests.ReadTimeout("late"),
        requests.ConnectTimeout("late"),
        urllib3.exceptions.ReadTimeoutError(None, "", "late"),
    ]
    others: List[Optional[BaseException]] = [
        KeyError(),
        asyncio.CancelledError(),
        httpx.ConnectError("none"),
        requests.ConnectionError("none"),
        urllib3.exceptions.NewConnectionError(None, "refused"),
        None,
    ]
    for errors, cost in ((late, 3), (others, 2)):
        for error in errors:
            request = admitted(Bucket(6, cost=2, timeout_cost=3))
            assert [reason(request.draw(error)) for _ in range(6 // cost)] == [None] * (6 // cost)
            assert reason(request.draw(error)) is RefusalReason.LEVEL_LOW


def test_envoy() -> None:
    # A fifth of ten calls is two retries.
    limit = InFlight(1, 0.2)
    requests = [admitted(limit) for _ in range(10)]
    assert [reason(request.draw()) for request in requests[:3]] == [None, None, RefusalReason.RETRIES_FULL]
    requests[0].ended()
    assert reason(requests[2].draw()) is RefusalReason.RETRIES_FULL
    requests[1].ended()
    requests[1].ended()
    assert requests[2].draw() is None


def test_breaker() -> None:
    clock = VirtualClock()
    breaker = Breaker(2, exponential(0.1, 2), probe_deadline=1, clock=clock)
    request, late, probe = admitted(breaker), admitted(breaker), breaker.request()
    request.failed()
    clock.sleep(0.01)
    request.failed()
    clock.sleep(0.099)
    refusal = probe.admit()
    assert refusal is not None and refusal.reason is RefusalReason.BREAKER_OPEN
    assert refusal.again_at == pytest.approx(0.11)
    clock.sleep(0.001)
    assert probe.admit() is None
    assert reason(request.draw()) is RefusalReason.PROBING
    clock.sleep(0.01)
    probe.failed()
    late.failed()
    clock.sleep(0.199)
    assert reason(probe.draw()) is RefusalReason.BREAKER_OPEN
    clock.sleep(0.001)
    assert probe.draw() is None
    probe.succeeded()
    late.failed()
    assert request.draw() is None


def test_throttle() -> None:
    # By a random number of a half: of 0 calls, and 1 of 2, one more is admitted, and 2 of 3 is more than a half. The
    # next window has what the one before counted, and the one after that has not.
    clock = VirtualClock()
    throttle = Throttle(2, 0.1, clock=clock, random=lambda: 0.5)
    answers = []
    for _ in range(4):
        with throttle.request() as request:
            answers.append(reason(request.admit()))
    assert answers == [None, None, RefusalReason.THROTTLED, RefusalReason.THROTTLED]
    clock.sleep(0.1)
    assert reason(throttle.request().admit()) is RefusalReason.THROTTLED
    clock.sleep(0.1)
    request = admitted(throttle)
    request.succeeded()
    assert request.draw() is None


def test_the_windows_of_a_throttle_begin_when_it_is_made() -> None:
    # Made at 50 ms, its windows of 100 ms end at 150 and at 250: what was counted at 50 counts at 249, and not at 250.
    for at, refused in ((0.249, RefusalReason.THROTTLED), (0.25, None)):
        clock = VirtualClock(0.05)
        throttle = Throttle(2, 0.1, clock=clock, random=lambda: 0.5)
        for _ in range(2):
            admitted(throttle).ended()
        clock.sleep(at - 0.05)
        assert reason(throttle.request().admit()) is refused


def test_both_or_neither() -> None:
    clock = VirtualClock()
    flights = InFlight(0, 0.5)
    limit = both(flights, Breaker(1, spaced(0.1), clock=clock))
    request = admitted(limit)
    request.failed()
    request.ended()
    assert reason(limit.request().admit()) is RefusalReason.BREAKER_OPEN
    alone = admitted(flights)
    assert reason(alone.draw()) is RefusalReason.RETRIES_FULL
    clock.sleep(0.1)
    probe = admitted(limit)
    assert alone.draw() is None
    probe.ended()


def test_a_bucket_gets_back_what_the_second_limit_refuses() -> None:
    bucket = Bucket(1, cost=1)
    limit = both(bucket, InFlight(0, 0))
    assert reason(admitted(limit).draw()) is RefusalReason.RETRIES_FULL
    assert admitted(bucket).draw() is None


def test_what_the_last_of_four_refuses_comes_back_to_all() -> None:
    bucket, flights, second = Bucket(1, cost=1), InFlight(1, 0), Bucket(1, cost=1)
    breaker = Breaker(1, spaced(30))
    limit = both(both(bucket, flights), both(second, breaker))
    request = admitted(limit)
    admitted(breaker).failed()
    assert reason(request.draw()) is RefusalReason.BREAKER_OPEN
    beside = admitted(flights)
    assert beside.draw() is None
    request.ended()
    # (the slot came back as the breaker refused, and comes back once)
    assert reason(admitted(flights).draw()) is RefusalReason.RETRIES_FULL
    beside.ended()
    assert admitted(bucket).draw() is None and admitted(second).draw() is None
    assert reason(limit.request().admit()) is RefusalReason.BREAKER_OPEN


def test_limits_join_up_to_four() -> None:
    one, two, three = InFlight(1, 0), Bucket.aws(), Throttle(2, 60)
    assert repr(both(both(one, two), three)) == repr(both(one, both(two, three))) == repr(both(one, two, three))
    four, five = InFlight(2, 0), InFlight(3, 0)
    assert both(both(one, two), both(three, four)).request().admit() is None
    with pytest.raises(TermsError, match="at most 4 limits, got 5"):
        both(one, two, three, both(four, five))


def test_a_limit_joins_once() -> None:
    # It would count each call twice: two of three in flight, and both tokens of a bucket of two for one retry.
    one, two = Bucket(2), InFlight(3, 0)
    for joined in ((one, one), (one, two, one), (both(one, two), two)):
        with pytest.raises(TermsError, match="both: expected limits that differ, got <.*> twice"):
            both(*joined)
    assert both(Bucket(2), Bucket(2)).request().admit() is None


def test_several_buckets_have_one_cost() -> None:
    # The engine draws of all at one cost. gRPC's costs nothing, so each retry would take five of its tokens.
    with pytest.raises(TermsError, match="buckets with the same cost and timeout_cost, got <Bucket.*, <Bucket"):
        both(Bucket.grpc(10, 0.1), Bucket.aws())
    with pytest.raises(TermsError, match="the same cost"):
        both(Bucket(10, cost=2), InFlight.envoy(), Bucket(10, cost=2, timeout_cost=3))
    request = admitted(both(Bucket(10, cost=2), Bucket(5, cost=2)))
    assert [reason(request.draw()) for _ in range(3)] == [None, None, RefusalReason.LEVEL_LOW]


# Calls


def test_a_retry_tells_its_bucket() -> None:
    bucket = Bucket.grpc(4, 1)
    retrying = Retrying(recurs(9), limit=bucket)
    with no_waits(), pytest.raises(KeyError) as raised:
        retrying(fails)
    state = state_of(raised.value)
    assert state is not None and state.ending is Ending.LIMIT_REFUSED
    assert (state.attempt_number, state.granted) == (2, 1)
    assert reason(state.refusal) is RefusalReason.LEVEL_LOW
    assert retrying(lambda: 5) == 5  # which gives one token back, so that three are left
    assert admitted(bucket).draw() is None


def test_an_error_that_is_not_retried_is_a_failure() -> None:
    bucket = Bucket.grpc(2, 0)
    with pytest.raises(KeyError):
        Retrying(recurs(9), limit=bucket, on=ValueError)(fails)
    assert reason(admitted(bucket).draw()) is RefusalReason.LEVEL_LOW


@pytest.mark.parametrize("kind", ["call", "await", "loop"])
def test_an_error_that_is_no_exception_is_a_failure_where_it_is_retried(kind: str) -> None:
    # Five failures in a row open the breaker, which refuses the fifth retry.
    breaker = Breaker(5, spaced(30))
    calls: List[int] = []

    def call() -> None:
        calls.append(1)
        raise asyncio.CancelledError()

    async def call_later() -> None:
        call()

    def run() -> None:
        if kind == "call":
            Retrying(recurs(9), limit=breaker, on=asyncio.CancelledError)(call)
        elif kind == "await":
            asyncio.run(AsyncRetrying(recurs(9), limit=breaker, on=asyncio.CancelledError)(call_later))
        else:
            for attempt in Retrying(recurs(9), limit=breaker, on=asyncio.CancelledError):
                with attempt:
                    call()

    with no_waits(), pytest.raises(asyncio.CancelledError):
        run()
    assert len(calls) == 5
    assert reason(breaker.request().admit()) is RefusalReason.BREAKER_OPEN


def test_an_attempt_that_is_cancelled_is_no_failure() -> None:
    breaker = Breaker(1, spaced(30))
    with pytest.raises(KeyboardInterrupt):
        Retrying(recurs(9), limit=breaker)(interrupts)
    assert breaker.request().admit() is None


def test_a_refused_result_is_a_failure() -> None:
    breaker = Breaker(2, spaced(30))
    with no_waits(), pytest.raises(Exception, match="not accepted"):
        Retrying(recurs(1), limit=breaker, on_result=lambda result: result is None)(lambda: None)
    assert reason(breaker.request().admit()) is RefusalReason.BREAKER_OPEN


@pytest.mark.parametrize("kind", ["call", "await"])
def test_an_open_breaker_admits_no_call(kind: str) -> None:
    clock = VirtualClock()
    breaker = Breaker(3, spaced(30), clock=clock)
    calls: List[int] = []

    def call() -> Any:
        calls.append(1)
        raise KeyError()

    async def call_later() -> Any:
        return call()

    def run(**options: Any) -> Any:
        if kind == "call":
            return Retrying(recurs(9), limit=breaker, **options)(call)
        return asyncio.run(AsyncRetrying(recurs(9), limit=breaker, **options)(call_later))

    with no_waits(), pytest.raises(KeyError) as failed:
        run()
    state = state_of(failed.value)
    assert state is not None and state.ending is Ending.LIMIT_REFUSED
    assert len(calls) == 3
    with pytest.raises(NotAdmitted) as raised:
        run()
    assert len(calls) == 3
    assert raised.value.refusal.reason is RefusalReason.BREAKER_OPEN and raised.value.refusal.again_at == 30
    state = state_of(raised.value)
    assert state is not None and state.ending is Ending.NOT_ADMITTED and state.attempt_number == 0
    assert run(fallback=lambda state: "cached") == "cached"
    clock.sleep(30)
    with no_waits(), pytest.raises(KeyError):
        run()
    assert len(calls) == 4


def test_a_call_that_is_not_admitted_makes_no_retry() -> None:
    breaker = Breaker(1, spaced(30))
    retrying = Retrying(recurs(3), limit=breaker)
    for raised in (KeyError, *[NotAdmitted] * 100):
        with pytest.raises(raised):
            retrying({}.__getitem__, "a")
    seen = retrying.statistics
    assert (seen.calls, seen.attempts, seen.not_admitted, seen.retries) == (101, 1, 100, 0)


def test_a_loop_is_not_admitted() -> None:
    breaker = Breaker(1, spaced(30))
    admitted(breaker).failed()
    with pytest.raises(NotAdmitted):
        for attempt in Retrying(recurs(3), limit=breaker):
            with attempt:
                raise AssertionError("no attempt is made")


def test_a_retry_that_is_cancelled_gives_all_back() -> None:
    limit = both(Bucket(1, cost=1), InFlight(1, 0))

    async def fails_later() -> Any:
        raise KeyError()

    async def leave() -> None:
        task = asyncio.ensure_future(AsyncRetrying(spaced(60), limit=limit)(fails_later))
        await asyncio.sleep(0.05)
        task.cancel()
        with pytest.raises(asyncio.CancelledError):
            await task

    asyncio.run(leave())
    assert admitted(limit).draw() is None


def test_a_retried_function() -> None:
    answers = iter([KeyError(), 5])

    @retry(recurs(3), limit=InFlight.envoy())
    def fetch() -> Any:
        answer = next(answers)
        if isinstance(answer, Exception):
            raise answer
        return answer

    assert fetch() == 5


def test_each_run_of_a_repeat_is_a_call() -> None:
    # Two runs succeed. The third fails, and so does its retry, which opens the breaker.
    breaker = Breaker(2, spaced(30))
    calls: list[int] = []

    @repeat(recurs(9))
    @retry(recurs(2), limit=breaker)
    def look() -> int:
        calls.append(len(calls))
        if len(calls) > 2:
            raise KeyError(len(calls))
        return len(calls)

    with no_waits(), pytest.raises(KeyError, match="4"):
        look()
    with pytest.raises(NotAdmitted):
        look()
    assert len(calls) == 4


def test_a_repeat_is_a_request_that_draws_for_each_further_run() -> None:
    # Of 10 tokens: 10 after the first success, 8 and 9 after the next run, 7 and 8 after the last.
    bucket = Bucket(capacity=10, cost=2, credit=1)
    with no_waits():
        assert repeat(recurs(2), limit=bucket)(lambda: 5)() == 5
    request = admitted(bucket)
    assert [reason(request.draw()) for _ in range(5)] == [None] * 4 + [RefusalReason.LEVEL_LOW]


# Threads


def race(limit: CallLimit, times: int) -> int:
    """How many draws are granted, where each of eight threads makes so many calls, and each draws once."""
    counts = [0] * THREADS

    def calls(place: int) -> None:
        for _ in range(times):
            with limit.request() as request:
                if request.admit() is None and request.draw() is None:
                    counts[place] += 1

    threads = [threading.Thread(target=calls, args=(place,)) for place in range(THREADS)]
    for thread in threads:
        thread.start()
    for thread in threads:
        thread.join()
    return sum(counts)


def test_each_token_is_drawn_once() -> None:
    assert race(Bucket(5000, cost=1), 1000) == 5000


def test_three_at_once_draw_each_token_once() -> None:
    flights = InFlight(0, 1)
    assert race(both(flights, Bucket(5000, cost=1), InFlight(2**32 - 1, 0)), 1000) == 5000
    # no retry is in flight any more
    assert admitted(flights).draw() is None


def test_each_slot_comes_back() -> None:
    limit = InFlight(0, 0.5)
    assert race(limit, 1000) <= THREADS * 1000
    request = admitted(limit)
    assert reason(request.draw()) is RefusalReason.RETRIES_FULL
    beside = admitted(limit)
    assert request.draw() is None
    beside.ended()


def test_a_breaker_has_one_probe() -> None:
    clock = VirtualClock()
    breaker = Breaker(1, spaced(1), clock=clock)
    admitted(breaker).failed()
    assert race(breaker, 100) == 0
    clock.sleep(1)
    probe = admitted(breaker)
    assert race(breaker, 100) == 0
    probe.succeeded()
    assert race(breaker, 100) == THREADS * 100


def test_a_throttle_counts_each_call() -> None:
    # 16,000 requests: one more is refused by a word below 2**32 * 16,000 / 16,001, which is 4,294,698,877.3; and after
    # that below 2**32 * 16,001 / 16,002, which is 4,294,698,894.1.
    clock = VirtualClock()
    drawn = [1 - 2**-32]
    throttle = Throttle(2, 60, clock=clock, random=lambda: drawn[0])
    assert race(throttle, 1000) == THREADS * 1000
    drawn[0] = 4294698878 / 2**32
    request = admitted(throttle)
    drawn[0] = 4294698894 / 2**32
    assert reason(request.draw()) is RefusalReason.THROTTLED


# Terms


@pytest.mark.parametrize(
    "make",
    [
        lambda: Bucket(1, floor=2),
        lambda: Bucket(-1),
        lambda: Bucket(1, cost=2),
        lambda: Bucket.grpc(0, 0),
        lambda: Bucket.grpc(1, 2),
        lambda: Bucket(float("nan")),
        lambda: InFlight(-1, 0),
        lambda: InFlight(2**32, 0),
        lambda: InFlight(3, 20),
        lambda: InFlight.envoy(-5),
        lambda: InFlight.envoy(101),
        lambda: Breaker(0, spaced(1)),
        lambda: Breaker(1, spaced(1), probes=16),
        lambda: Breaker(1, stop()),
        lambda: Breaker(1, recurs(3)),
        lambda: Breaker(1, forever()),
        lambda: Breaker(1, spaced(30).jittered(0, 1)),
        lambda: Breaker(1, exponential(0.1).jittered(0, 0.5)),
        lambda: Breaker(1, spaced(30).cap(0)),
        lambda: Breaker(10**5000, spaced(1)),
        lambda: Breaker(1, spaced(1), probe_deadline=-1),
        lambda: Throttle(0.9, 60),
        lambda: Throttle(2, 0),
        lambda: Throttle(2, 0.0001),
    ],
)
def test_terms_out_of_range(make: Callable[[], Any]) -> None:
    with pytest.raises(TermsError):
        make()


@pytest.mark.parametrize(
    "make, told",
    [
        (lambda: InFlight.envoy(-5), "budget_percent: expected 0, or from 0.001 to 100, got -5"),
        (lambda: InFlight.envoy(0.05), "budget_percent: expected per cent, 0 or from 1 to 100, got 0.05"),
        (lambda: InFlight.envoy(0.2), "got 0.2: write 20 for a share of 0.2"),
        (lambda: Bucket(500, refund=ANY_NO), "refund: expected True or False, got 'no'"),
        (lambda: Bucket(500, refund=ANY_ONE), "refund: expected True or False, got 1"),
        (lambda: Bucket(0), "expected a capacity of at least the cost, 1, got 0"),
        (lambda: Bucket(5, timeout_cost=10), "expected a capacity of at least the timeout_cost, 10, got 5"),
        (lambda: Bucket(5, floor=6), "expected a capacity of at least the floor, 6, got 5"),
        (lambda: Bucket.grpc(0, 0.1), "max_tokens: expected 1 to 1099511627.776, got 0"),
        (lambda: Bucket.grpc(10, 11), "token_ratio: expected 0, or from 0.001 to 10, got 11"),
        (lambda: InFlight.envoy(20, -1), "min_retry_concurrency: expected 0 to 4294967295, got -1"),
        (lambda: InFlight(3, 20), "share: expected 0, or from 0.001 to 1, got 20"),
        (lambda: Breaker(1, spaced(1), probe_deadline=-1), "probe_deadline: expected 0 to 4611686018427387.903 sec"),
        (lambda: Breaker(5, 30), "open_for: expected a policy, as spaced(30), got 30"),
        (lambda: Breaker(5, timedelta(minutes=1)), "open_for: expected a policy, as spaced(60), got datetime."),
        (lambda: Breaker(5, "30s"), "open_for: not JSON: line 1, column "),
        (lambda: Breaker(5, "spaced(30)"), "open_for: not JSON: line 1, column 1: 'spaced(30)' is an expression, w"),
        (lambda: Breaker(5, None), "open_for: expected a policy, its JSON text or a dict, got None"),
        (lambda: InFlight.bulkhead(ANY_NONE), "most: expected a whole number, got None"),
        (lambda: InFlight.bulkhead(0), "most: expected 1 to 4294967295, got 0"),
        (lambda: Breaker(5, spaced(30).jittered(0, 1)), f"open_for: {NEVER_OPEN.format('spaced(30).jittered(0, 1)')}"),
        (lambda: Breaker(5, spaced(30), clock=ANY_FIVE), "clock: expected a function, got 5"),
        (lambda: Throttle(2, 60, random=ANY_FIVE), "random: expected a function, got 5"),
        (lambda: Retrying(recurs(1), limit=ANY_CLASS), "limit: expected an object, got the class Bucket"),
        (lambda: Retrying(recurs(1), limit=ANY_LIST), "both(..) makes one of several limits"),
        (lambda: Retrying(recurs(1), limit=ANY_PACE), "<Pace(10, 1)>; a pace goes under retry, as a decorator"),
        (lambda: both(Bucket.aws(), ANY_PACE), "Adaptive, got <Pace(10, 1)>; a pace goes under retry, as a decorator"),
        (lambda: both(Bucket.aws(), ANY_QUOTA), "Adaptive, got <Quota(1, 0.1, per=60)>; a quota can't be joined"),
        (lambda: both(Bucket.aws(), ANY_BUDGET), "Adaptive, got <Budget(5)>; a budget can't be joined"),
    ],
)
def test_what_is_told_of_wrong_terms(make: Callable[[], Any], told: str) -> None:
    with pytest.raises((TermsError, TypeError), match=re.escape(told)):
        make()


def test_a_breaker_is_open_where_one_of_its_times_is_not_0() -> None:
    assert Breaker(1, spaced(30).jittered(0.5, 1)).terms[4] == [15_000] * 64
    assert Breaker(1, (recurs(1) & spaced(1)).and_then(recurs(2))).terms[4] == [1000, 0, 0]


def test_open_times_are_the_waits_of_the_policy() -> None:
    # 1, 2 and then 3 seconds, the bound of its cap
    clock = VirtualClock()
    breaker = Breaker(1, exponential(1, 2).cap(3), clock=clock)
    request = admitted(breaker)
    until = []
    for _ in range(4):
        request.failed()
        refusal = request.draw()
        assert refusal is not None and refusal.again_at is not None
        until.append(refusal.again_at)
        clock.sleep(refusal.again_at - clock())
        assert request.draw() is None
    assert until == [1, 3, 6, 9]


@pytest.mark.parametrize("way", ["new", "refused", "ended"])
def test_a_request_that_is_not_under_way_tells_nothing(way: str) -> None:
    breaker = Breaker(1, spaced(1))
    request = breaker.request()
    if way == "refused":
        breaker.open(60)
        assert reason(request.admit()) is RefusalReason.BREAKER_OPEN
        breaker.close()
    elif way == "ended":
        assert request.admit() is None
        request.ended()
    for tells in (request.failed, request.succeeded):
        with pytest.raises(RuntimeError, match="^expected a request that was admitted, got none under way$"):
            tells()
    assert breaker.seen().failures == 0 and breaker.state.value == "closed"
    assert request.admit() is None
    request.failed()
    assert breaker.state.value == "open"


def test_misuse() -> None:
    breaker = Breaker(1, spaced(1))
    request = admitted(breaker)
    with pytest.raises(RuntimeError, match="has ended"):
        request.admit()
    request.ended()
    with pytest.raises(RuntimeError, match="was admitted"):
        request.draw()
    with pytest.raises(TypeError, match="request"):
        breaker.draw()
    with pytest.raises(
        TypeError, match="expected a Bucket, an InFlight, a Breaker, a Throttle or an Adaptive, got 'aws'"
    ):
        both(breaker, "aws")  # type: ignore[arg-type]
    with pytest.raises(TypeError, match="^a Breaker belongs to its process"):
        pickle.dumps(breaker)
    with pytest.raises(TypeError, match="^an InFlight belongs to its process"):
        pickle.dumps(InFlight.envoy())


@pytest.mark.parametrize(
    "make",
    [
        lambda: PerKey(Budget, most=-(10**5000)),
        lambda: Breaker(1, 10**5000),
        lambda: Retrying(recurs(1), max_retry_after=-(10**5000)),
    ],
)
def test_a_number_of_too_many_digits_is_told_as_that(make: Callable[[], Any]) -> None:
    with pytest.raises((TypeError, TermsError), match=", got a number of too many digits$"):
        make()


def test_a_request_is_copied_as_itself() -> None:
    # Were it another one, both would give its handle back, and two requests would have it.
    limit = InFlight(0, 0.5)
    request = admitted(limit)
    assert copy.copy(request) is copy.deepcopy(request) is request
    copy.copy(request).ended()
    request.ended()
    assert [reason(one.admit()) for one in (limit.request(), limit.request())] == [None, None]
    with pytest.raises(TypeError, match="a Request belongs to its process"):
        pickle.dumps(request)


def test_a_request_that_is_dropped_gives_its_handle_back() -> None:
    # A limit of several has a million handles. Two of them serve all of these.
    flights = InFlight(0, 1)
    limit = both(flights, Bucket(5))
    handles = [request._handle for request in (admitted(limit) for _ in range(100))]
    assert len(set(map(id, handles))) <= 2
    assert reason(admitted(flights).draw()) is None


@pytest.mark.parametrize("kind", ["request", "loop"])
def test_what_the_collector_finds_gives_its_handle_back(kind: str, monkeypatch: Any) -> None:
    def drops(limit: CallLimit) -> None:
        attempts = iter(Retrying(recurs(3), limit=limit))
        cycle: List[Any] = [admitted(limit) if kind == "request" else (next(attempts), attempts)]
        cycle.append(cycle)

    told: List[Any] = []
    monkeypatch.setattr(sys, "unraisablehook", told.append)
    flights = InFlight(0, 0.5)
    limit = both(flights, Bucket(5))
    for _ in range(20):
        drops(limit)
    gc.collect()
    # one is under way, of which half a retry may be; and each handle serves another request
    assert reason(admitted(flights).draw()) is RefusalReason.RETRIES_FULL
    assert len([admitted(limit) for _ in range(25)]) == 25
    drops(both(InFlight(0, 0.5), Bucket(5)))
    gc.collect()
    assert told == []


def test_names() -> None:
    assert repr(Bucket.grpc(10, 0.1)) == "<Bucket(10, floor=5.001, debit=1, credit=0.1, cost=0)>"
    aws = "<Bucket(500, floor=0, debit=0, credit=1, cost=5, timeout_cost=10, refund=True)>"
    assert repr(Bucket.aws()) == aws
    assert repr(InFlight.envoy(25, 5)) == "<InFlight(5, 0.25)>"
    assert repr(Breaker(5, spaced(30))) == "<Breaker(5, spaced(30))>"
    assert repr(Throttle.google()) == "<Throttle(2, 60)>"


@pytest.mark.parametrize(
    "limit",
    [
        Bucket.grpc(10, 0.1),
        Bucket.aws(),
        Bucket(1_234_567.891, cost=0.125),
        Breaker(5, spaced(30), probes=3, probe_deadline=0.5),
        Throttle(2_000_000.5, 1234.567),
        both(InFlight(3, 0.125), Breaker(1, exponential(0.1, 2))),
    ],
    ids=repr,
)
def test_a_name_makes_one_like_it(limit: Any) -> None:
    made = eval(repr(limit)[1:-1])
    assert repr(made) == repr(limit)
    for one, other in zip(limit.parts(), made.parts()):
        assert one.on_storm() == other.on_storm()


def test_a_forked_child_begins_anew() -> None:
    breaker = Breaker(1, spaced(30))
    admitted(breaker).failed()
    assert reason(breaker.request().admit()) is RefusalReason.BREAKER_OPEN
    in_a_forked_child(lambda: None if breaker.request().admit() is None else 1 / 0)
    assert reason(breaker.request().admit()) is RefusalReason.BREAKER_OPEN


def test_several_limits_begin_anew_in_a_forked_child_after_each_of_them() -> None:
    # (many, since one of them may begin anew last in any order)
    made = []
    for _ in range(50):
        bucket, breaker = Bucket(1, cost=1), Breaker(1, spaced(30))
        limit = both(bucket, breaker)
        request = admitted(limit)
        assert request.draw() is None
        request.failed()
        assert reason(limit.request().admit()) is RefusalReason.BREAKER_OPEN
        made.append((bucket, breaker, limit))

    def in_the_child() -> None:
        for bucket, breaker, limit in made:
            child = admitted(limit)
            assert child.draw() is None
            assert reason(admitted(bucket).draw()) is RefusalReason.LEVEL_LOW
            child.failed()
            assert reason(breaker.request().admit()) is RefusalReason.BREAKER_OPEN

    in_a_forked_child(in_the_child)


@pytest.mark.parametrize("limit", [Bucket.aws(), Breaker(50, spaced(30)), InFlight.envoy(20, 3)], ids=repr)
def test_a_call_that_is_forked_goes_on_by_the_child_s_limit(limit: Any) -> None:
    runs, ended, child = 0, 0, -1

    @retry(recurs(2), on=OSError, limit=limit)
    def call() -> None:
        nonlocal runs, child
        runs += 1
        if child == -1:
            child = os.fork()
        raise OSError("fails")

    try:
        with pytest.raises(OSError, match="fails"):
            call()
        ended = runs
    finally:
        if child == 0:
            os._exit(0 if ended == 3 else 1)
    assert ended == 3 and os.waitstatus_to_exitcode(os.waitpid(child, 0)[1]) == 0
