"""Bulkheads, breakers by their last results and adaptive limits: rows by hand; and what a limit lets a user see."""

from __future__ import annotations

import asyncio
import sys
import threading
from typing import Any, Callable, List, Tuple

import pytest
from limited import admitted, reason
from processes import in_a_forked_child

from hikebox import (
    Adaptive,
    Breaker,
    BreakerState,
    Bucket,
    InFlight,
    NotAdmitted,
    RefusalReason,
    Retrying,
    Throttle,
    both,
    exponential,
    recurs,
    retry,
    spaced,
)
from hikebox.errors import TermsError
from hikebox.limits import AdaptiveSeen, BreakerSeen, BucketSeen, InFlightSeen, ThrottleSeen
from hikebox.testing import VirtualClock

CLOSED, OPEN, HALF_OPEN = BreakerState.CLOSED, BreakerState.OPEN, BreakerState.HALF_OPEN


# Bulkheads


def test_of_three_calls_two_are_in_flight() -> None:
    limit = InFlight(3, 0.2, most=2)
    first, second, third = (limit.request() for _ in range(3))
    assert (first.admit(), second.admit()) == (None, None)
    assert reason(third.admit()) is RefusalReason.REQUESTS_FULL
    assert limit.seen() == InFlightSeen(2, 0, 2)
    first.ended()
    assert third.admit() is None


def test_a_bulkhead_grants_each_of_its_calls_a_retry() -> None:
    limit = InFlight.bulkhead(2)
    one, other = admitted(limit), admitted(limit)
    for request in (one, other):
        request.failed()
        assert request.draw() is None
    assert limit.seen() == InFlightSeen(2, 2, 2)
    with pytest.raises(NotAdmitted, match="^the call was not admitted: too many calls are in flight$"):
        Retrying(recurs(1), limit=limit)(int)
    one.ended()
    assert Retrying(recurs(1), limit=limit)(int) == 0


def test_coroutines_under_a_bulkhead() -> None:
    limit, most, inside = InFlight.bulkhead(3), 0, 0

    @retry(recurs(1), limit=limit)
    async def fetch() -> None:
        nonlocal most, inside
        inside += 1
        most = max(most, inside)
        await asyncio.sleep(0)
        inside -= 1

    async def main() -> List[Any]:
        return await asyncio.gather(*(fetch() for _ in range(10)), return_exceptions=True)

    answers = asyncio.run(main())
    assert most == 3 and sum(isinstance(answer, NotAdmitted) for answer in answers) == 7
    assert limit.seen().requests == 0


# Breakers by their last results


def test_two_of_the_last_three_open_it(clock: Any) -> None:
    breaker = Breaker(2, exponential(0.1, 2), results=3, probe_deadline=1, clock=clock)
    requests = [admitted(breaker) for _ in range(5)]
    requests[0].failed()
    assert breaker.seen() == BreakerSeen(CLOSED, failures=1)
    requests[1].succeeded()
    requests[2].succeeded()
    clock.advance(0.004)
    requests[3].failed()
    assert breaker.seen() == BreakerSeen(CLOSED, failures=1)  # of S S F
    clock.advance(0.001)
    requests[4].failed()
    assert breaker.seen() == BreakerSeen(OPEN, until=0.105, trip=1)


def test_n_of_n_is_n_in_a_row() -> None:
    clock = VirtualClock()
    for told in ("FFSFF", "FSFSF", "FFF", "SFFF", "FFSSFFF"):
        by_results, in_a_row = (Breaker(3, spaced(1), results=results, clock=clock) for results in (3, None))
        for result in told:
            for breaker in (by_results, in_a_row):
                request = breaker.request()
                if request.admit() is None:
                    request.failed() if result == "F" else request.succeeded()
                request.ended()
            assert by_results.state is in_a_row.state


def test_terms_of_more_limits() -> None:
    wrong: List[Tuple[Callable[[], object], str]] = [
        (lambda: Breaker(4, spaced(1), results=3), "failures: expected 1 to 3, got 4"),
        (lambda: Breaker(4, spaced(1), results=33), "results: expected 1 to 32, got 33"),
        (lambda: InFlight(1, 0.2, most=0), "most: expected 1 to 4294967295, got 0"),
        (lambda: Adaptive(least=5, first=4), "expected least <= first <= most, got 5, 4 and 200"),
        (lambda: Adaptive(most=65_536), "most: expected 1 to 65535, got 65536"),
        (lambda: Adaptive(most=10), "expected least <= first <= most, got 1, 20 and 10 (first is 20 by default)"),
        (lambda: Adaptive(backoff=1), "backoff: expected 0.001 to 0.999, got 1"),
        (lambda: Adaptive(backoff=0.0001), "backoff: expected 0.001 to 0.999, got 0.0001"),
    ]
    for make, told in wrong:
        with pytest.raises(TermsError) as raised:
            make()
        assert str(raised.value) == told
    for backoff in (0, 1.0, 1.5):
        with pytest.raises(TermsError):
            Adaptive(backoff=backoff)
    told = "<Adaptive(least=1, most=200, first=20, backoff=0.9)> <Breaker(2, spaced(30), results=3)>"
    assert f"{Adaptive()} {Breaker(2, spaced(30), results=3)}" == told


# Adaptive


def test_what_succeeds_raises_it_and_what_fails_lowers_it() -> None:
    limit = Adaptive(least=1, most=10, first=2, backoff=0.9)
    first, second, third = (limit.request() for _ in range(3))
    assert (first.admit(), second.admit()) == (None, None)
    assert reason(third.admit()) is RefusalReason.REQUESTS_FULL
    first.succeeded()
    assert limit.seen() == AdaptiveSeen(2, 2.5)
    first.ended()
    second.failed()
    assert limit.seen() == AdaptiveSeen(1, 2.25)
    second.ended()
    assert limit.seen() == AdaptiveSeen(0, 2.25)


def test_an_idle_client_learns_nothing_and_the_bound_stays_within() -> None:
    limit = Adaptive(least=2, most=4, first=4, backoff=0.5)
    request = admitted(limit)
    request.succeeded()
    assert limit.seen() == AdaptiveSeen(1, 4.0)  # one of four is less than half
    for _ in range(3):
        request.failed()
    assert limit.seen() == AdaptiveSeen(1, 2.0)
    for _ in range(50):
        request.succeeded()
    assert limit.seen() == AdaptiveSeen(1, 2.5)  # from there on one is less than half
    request.ended()


def test_threads_under_an_adaptive_limit_leave_nothing_inside() -> None:
    limit = Adaptive(least=2, most=8, first=4)

    def calls() -> None:
        for number in range(300):
            request = limit.request()
            if request.admit() is None:
                request.failed() if number % 7 == 0 else request.succeeded()
            request.ended()

    threads = [threading.Thread(target=calls) for _ in range(8)]
    for thread in threads:
        thread.start()
    for thread in threads:
        thread.join()
    seen = limit.seen()
    assert seen.inside == 0 and 2.0 <= seen.level <= 8.0


# What is seen


def test_what_a_bucket_and_a_throttle_let_see(clock: Any) -> None:
    bucket = Bucket.grpc(4, 0.5)
    request = admitted(bucket)
    request.failed()
    assert bucket.seen() == BucketSeen(3.0, 4.0)
    throttle = Throttle(2, 60, clock=clock)
    for wins in (True, False):
        request = admitted(throttle)
        if wins:
            request.succeeded()
        request.ended()
    assert throttle.seen() == ThrottleSeen(2, 1)
    assert both(bucket, throttle).seen() == (BucketSeen(3.0, 4.0), ThrottleSeen(2, 1))


def test_what_a_breaker_lets_see(clock: Any) -> None:
    breaker = Breaker(1, exponential(1, 2), probes=2, clock=clock)
    admitted(breaker).failed()
    assert (breaker.seen(), breaker.state) == (BreakerSeen(OPEN, until=1.0, trip=1), OPEN)
    clock.advance(1)
    assert breaker.state is OPEN  # until a call asks
    one, other = admitted(breaker), admitted(breaker)
    assert breaker.seen() == BreakerSeen(HALF_OPEN, admitted=2)
    one.succeeded()
    assert breaker.seen() == BreakerSeen(HALF_OPEN, admitted=2, won=1)
    other.failed()
    assert breaker.seen() == BreakerSeen(OPEN, until=3.0, trip=2)


def test_a_breaker_is_opened_and_closed_by_hand(clock: Any) -> None:
    breaker = Breaker(2, spaced(30), clock=clock)
    before = admitted(breaker)
    breaker.open(60)
    assert breaker.seen() == BreakerSeen(OPEN, until=60.0, trip=1)
    assert reason(breaker.request().admit()) is RefusalReason.BREAKER_OPEN
    before.succeeded()  # which was admitted before, and changes nothing
    assert breaker.state is OPEN
    breaker.close()
    before.failed()
    before.failed()
    assert breaker.seen() == BreakerSeen(CLOSED)
    clock.advance(59)
    breaker.open(60)
    clock.advance(60)
    assert breaker.request().admit() is None
    assert breaker.state is HALF_OPEN


# What is told


def changes_of(**how: Any) -> Tuple[Breaker, List[Tuple[str, str]]]:
    told: List[Tuple[str, str]] = []
    breaker = Breaker(2, spaced(10), on_change=lambda *two: told.append((two[0].value, two[1].value)), **how)
    return breaker, told


def test_a_breaker_is_opened_until_the_last_moment() -> None:
    breaker = Breaker(1, spaced(1), clock=lambda: 1e18)
    breaker.open(60)
    assert breaker.state is BreakerState.OPEN


def test_each_change_is_told_once(clock: Any) -> None:
    breaker, told = changes_of(clock=clock)
    fetch = Retrying(recurs(1), limit=breaker, clock=clock, sleep=clock.sleep)
    for _ in range(3):
        with pytest.raises((ZeroDivisionError, NotAdmitted)):
            fetch(lambda: 1 / 0)
    assert told == [("closed", "open")]
    clock.advance(10)
    assert fetch(int) == 0
    assert told == [("closed", "open"), ("open", "half open"), ("half open", "closed")]
    breaker.open(5)
    breaker.close()
    assert told[3:] == [("closed", "open"), ("open", "closed")]


def test_changes_of_one_of_several_limits_are_told(clock: Any) -> None:
    breaker, told = changes_of(clock=clock)
    limit = both(Bucket.aws(), breaker)
    request = admitted(limit)
    request.failed()
    request.failed()
    assert told == [("closed", "open")]


def test_threads_tell_each_change_in_order() -> None:
    breaker, told = changes_of()

    def turns() -> None:
        for _ in range(200):
            breaker.open(60)
            breaker.close()

    threads = [threading.Thread(target=turns) for _ in range(8)]
    for thread in threads:
        thread.start()
    for thread in threads:
        thread.join()
    assert told and told[0] == ("closed", "open")
    assert all(one[1] == other[0] and one != other for one, other in zip(told, told[1:]))
    assert told[-1][1] == breaker.state.value


def test_what_hears_of_a_change_may_call_the_breaker_and_raise(clock: Any, caplog: Any) -> None:
    def hears(before: BreakerState, after: BreakerState) -> None:
        told.append((before, after))
        if after is OPEN:
            breaker.close()
        raise ValueError("heard")

    told: List[Any] = []
    breaker = Breaker(1, spaced(10), on_change=hears, clock=clock)
    admitted(breaker).failed()
    assert told == [(CLOSED, OPEN), (OPEN, CLOSED)]
    assert [record.getMessage().partition(" of ")[0] for record in caplog.records] == ["on_change", "on_change"]


def test_after_an_exception_at_any_step_changes_are_told_again() -> None:
    class Interrupt(BaseException):
        pass

    step, left = 0, [0]

    def trace(frame: Any, event: str, _: Any) -> Any:
        if not frame.f_code.co_filename.endswith("breaker.py"):
            return None
        if event == "line":
            left[0] -= 1
            if left[0] < 0:
                sys.settrace(None)
                raise Interrupt()
        return trace

    while left[0] <= 0:
        breaker, told = changes_of()
        step, left[0] = step + 1, step
        sys.settrace(trace)
        try:
            breaker.open(60)
        except Interrupt:
            pass
        finally:
            sys.settrace(None)
        breaker.close()
        told.clear()
        breaker.open(60)
        assert told[-1:] == [("closed", "open")], step
    assert step > 20


def test_a_forked_child_tells_of_its_own(clock: Any) -> None:
    breaker, told = changes_of(clock=clock)
    breaker.open(60)

    def in_the_child() -> None:
        assert breaker.state is CLOSED
        breaker.open(60)
        assert told == [("closed", "open")] * 2

    in_a_forked_child(in_the_child)
    assert told == [("closed", "open")]
    with pytest.raises(TypeError, match="^on_change: expected a function, got 5$"):
        Breaker(1, spaced(1), on_change=5)  # type: ignore[arg-type]


def test_a_coroutine_function_hears_of_no_change() -> None:
    async def hears(*two: BreakerState) -> None:
        raise AssertionError("nobody awaits it")

    said = "^on_change: expected a plain function, got <function .*>, which is a coroutine function$"
    with pytest.raises(TypeError, match=said):
        Breaker(1, spaced(1), on_change=hears)
