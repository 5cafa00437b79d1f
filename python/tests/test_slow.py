"""Successes that took too long, which are failures to a limit."""

from __future__ import annotations

import asyncio
import re
from datetime import timedelta
from typing import Any, Callable, Dict, List, Tuple

import pytest

from limited import reason
from hikebox import (
    AsyncRetrying,
    Breaker,
    Bucket,
    Budget,
    CallLimit,
    Ending,
    InFlight,
    Pace,
    RefusalReason,
    Repeating,
    Retrying,
    TermsError,
    both,
    milliseconds,
    recurs,
    retry,
    spaced,
    stop,
)
from hikebox.testing import VirtualClock

KINDS = ["calls", "a loop", "coroutines", "an async loop"]
OPEN, LOW = RefusalReason.BREAKER_OPEN, RefusalReason.LEVEL_LOW


class Peer:
    """What is called: each call takes its seconds, and fails where these are below 0."""

    def __init__(self, clock: VirtualClock) -> None:
        self.clock = clock
        self.takes: List[float] = []

    def call(self) -> str:
        seconds = self.takes.pop(0)
        self.clock.advance(abs(seconds))
        if seconds < 0:
            raise OSError("scripted")
        return "here"

    async def call_later(self) -> str:
        return self.call()


def comes(kind: str, peer: Peer, takes: List[float], **how: Any) -> Any:
    """What comes of one call whose attempts take so many seconds."""
    peer.takes = list(takes)
    clock = peer.clock
    if kind in ("calls", "a loop"):
        retrying = Retrying(recurs(3) & spaced(10), clock=clock, sleep=clock.sleep, **how)
        return retrying(peer.call) if kind == "calls" else of_loop(peer, retrying)
    awaiting = AsyncRetrying(recurs(3) & spaced(10), clock=clock, sleep=clock.sleep_async, **how)
    if kind == "coroutines":
        return asyncio.run(awaiting(peer.call_later))
    return asyncio.run(of_async_loop(peer, awaiting))


def of_loop(peer: Peer, retrying: Retrying) -> str:
    came = "nothing"
    for attempt in retrying:
        with attempt:
            came = peer.call()
    return came


async def of_async_loop(peer: Peer, retrying: AsyncRetrying) -> str:
    came = "nothing"
    async for attempt in retrying:
        with attempt:
            came = await peer.call_later()
    return came


@pytest.mark.parametrize("kind", KINDS)
def test_a_breaker_opens_after_slow_successes(kind: str, clock: VirtualClock) -> None:
    # Of the successes only the last two in a row took longer than half a second.
    breaker, peer = Breaker(2, spaced(60), clock=clock), Peer(clock)
    for seconds in (0.6, 0.5, 0.501, 0.501):
        assert breaker.request().admit() is None
        assert comes(kind, peer, [seconds], limit=breaker, slow=0.5) == "here"
    assert reason(breaker.request().admit()) is OPEN


@pytest.mark.parametrize("kind", KINDS)
def test_without_it_no_success_is_slow(kind: str, clock: VirtualClock) -> None:
    breaker, peer = Breaker(1, spaced(60), clock=clock), Peer(clock)
    assert comes(kind, peer, [3600], limit=breaker) == "here"
    assert breaker.request().admit() is None


@pytest.mark.parametrize("kind", KINDS)
def test_each_attempt_has_its_own_time(kind: str, clock: VirtualClock) -> None:
    # The attempt before took longer, and so did the wait and the call.
    breaker, peer = Breaker(2, spaced(60), clock=clock), Peer(clock)
    assert comes(kind, peer, [-5, 1], limit=breaker, slow=1) == "here"
    assert breaker.request().admit() is None
    # Two in a row: the failure, and the success that took longer than a second.
    assert comes(kind, peer, [-0.1, 1.1], limit=breaker, slow=1) == "here"
    assert reason(breaker.request().admit()) is OPEN


@pytest.mark.parametrize("kind", KINDS)
def test_a_bucket_takes_what_a_failure_takes(kind: str, clock: VirtualClock) -> None:
    # Of four tokens a slow success takes one, and gives none back: two are left, which is not more than half.
    bucket, peer = Bucket.grpc(4, 0.5), Peer(clock)
    for _ in range(2):
        assert comes(kind, peer, [2], limit=bucket, slow=timedelta(seconds=1)) == "here"
    request = bucket.request()
    assert request.admit() is None
    assert reason(request.draw()) is LOW
    # A success in time gives half a token.
    assert comes(kind, peer, [1], limit=bucket, slow=milliseconds(1000)) == "here"
    assert request.draw() is None


def test_a_slow_success_refunds_nothing(clock: VirtualClock) -> None:
    # Of three tokens each call's retry takes one, which a success in time gives back.
    bucket, peer = Bucket(3, cost=1, credit=1, refund=True), Peer(clock)
    assert [comes("calls", peer, [-1, seconds], limit=bucket, slow=1) for seconds in (1, 1, 2, 2)] == ["here"] * 4
    request = bucket.request()
    assert request.admit() is None
    assert [reason(request.draw()) for _ in range(2)] == [None, LOW]


def test_all_of_several_limits_hear_of_it(clock: VirtualClock) -> None:
    bucket, breaker, peer = Bucket(2, floor=1, debit=1), Breaker(1, spaced(60), clock=clock), Peer(clock)
    assert comes("calls", peer, [2], limit=both(bucket, breaker), slow=1) == "here"
    assert reason(breaker.request().admit()) is OPEN
    request = bucket.request()
    assert request.admit() is None
    assert reason(request.draw()) is LOW


def test_the_caller_and_the_hooks_hear_of_a_success(clock: VirtualClock) -> None:
    told: List[Any] = []
    breaker, peer = Breaker(1, spaced(60), clock=clock), Peer(clock)
    retrying = Retrying(recurs(3), limit=breaker, slow=1, clock=clock, on_success=lambda state: told.append(state))
    peer.takes = [2]
    assert retrying(peer.call) == "here"
    assert [state.ending for state in told] == [Ending.WON]
    assert (retrying.statistics.won, retrying.statistics.attempts) == (1, 1)


@pytest.mark.parametrize("how", [{}, {"before": lambda state: None}, {"on_result": lambda result: False}])
@pytest.mark.parametrize("kind", KINDS)
def test_hooks_and_tests_take_no_time_of_the_attempt(kind: str, how: Dict[str, Any], clock: VirtualClock) -> None:
    def takes_long(answer: Any) -> Callable[[Any], Any]:
        def hook(_: Any) -> Any:
            clock.advance(10)
            return answer

        return hook

    given = {name: takes_long(each(None)) for name, each in how.items()}
    breaker, peer = Breaker(1, spaced(3600), clock=clock), Peer(clock)
    assert comes(kind, peer, [1], limit=breaker, slow=1, **given) == "here"
    assert breaker.request().admit() is None


def test_what_follows_the_block_takes_no_time_of_the_attempt(clock: VirtualClock) -> None:
    breaker = Breaker(1, spaced(3600), clock=clock)
    for attempt in Retrying(recurs(3), limit=breaker, slow=1, on_result=lambda result: False, clock=clock):
        with attempt:
            clock.advance(1)
        attempt.retry_state.set_result("here")
        clock.advance(10)
    assert breaker.request().admit() is None


def test_each_run_of_a_repeat_may_be_slow(clock: VirtualClock) -> None:
    breaker, peer = Breaker(2, spaced(60), clock=clock), Peer(clock)
    peer.takes = [1, 2, 2, 1]
    repeating = Repeating(recurs(3) & spaced(1), limit=breaker, slow=1, clock=clock, sleep=clock.sleep)
    # After the second one in a row no further run is granted.
    assert repeating(peer.call) == "here"
    assert (peer.takes, repeating.statistics.limit_refused) == ([1], 1)


@pytest.mark.parametrize("start", [0.0, 1.7e9, 2.0**40])
def test_the_last_digits_of_a_clock_make_no_success_slow(start: float) -> None:
    clock = VirtualClock(start)
    breaker, peer = Breaker(1, spaced(60), clock=clock), Peer(clock)
    for _ in range(10):
        assert comes("calls", peer, [0.1], limit=breaker, slow=0.1) == "here"
        assert breaker.request().admit() is None
    assert comes("calls", peer, [0.102], limit=breaker, slow=0.1) == "here"
    assert reason(breaker.request().admit()) is OPEN


def test_a_clock_that_goes_back_makes_no_success_slow(clock: VirtualClock) -> None:
    breaker = Breaker(1, spaced(60))
    assert Retrying(stop(), limit=breaker, slow=1, clock=clock)(clock.advance, -100) is None
    assert breaker.request().admit() is None


def test_a_response_that_comes_late_is_a_failure(clock: VirtualClock) -> None:
    httpx = pytest.importorskip("httpx")
    from hikebox.adapters.httpx import AsyncPolicyTransport, PolicyTransport

    breaker = Breaker(1, spaced(60), clock=clock)

    def answers(request: Any) -> Any:
        clock.advance(float(request.url.path[1:]))
        return httpx.Response(302 if "redirect" in request.headers else 200, headers={"Location": "/0"})

    def asks(seconds: float, awaits: bool, **headers: str) -> int:
        how: Any = {"limit": breaker, "slow": 1, "clock": clock, "transport": httpx.MockTransport(answers)}
        request = httpx.Request("GET", f"http://one.example/{seconds}", headers=headers)
        if awaits:
            later = AsyncPolicyTransport(recurs(2), **how)
            return int(asyncio.run(later.handle_async_request(request)).status_code)
        return int(PolicyTransport(recurs(2), **how).handle_request(request).status_code)

    cases: List[Tuple[Dict[str, str], int]] = [({}, 200), ({"redirect": "yes"}, 302)]
    for headers, status in cases:
        for awaits in (False, True):
            assert asks(1, awaits, **headers) == status
            assert breaker.request().admit() is None
            assert asks(1.5, awaits, **headers) == status
            assert reason(breaker.request().admit()) is OPEN
            clock.advance(60)
            assert asks(0, awaits) == 200


@pytest.mark.parametrize("awaits", [False, True])
def test_a_wait_for_a_pace_takes_no_time_of_the_attempt(awaits: bool, clock: VirtualClock) -> None:
    httpx = pytest.importorskip("httpx")
    from hikebox.adapters.httpx import AsyncPolicyTransport, PolicyTransport

    breaker = Breaker(1, spaced(60), clock=clock)
    pace = Pace(1, 10, clock=clock, sleep=clock.sleep_async if awaits else clock.sleep)
    begun: List[float] = []

    def answers(request: Any) -> Any:
        begun.append(clock())
        clock.advance(float(request.url.path[1:]))
        return httpx.Response(200)

    how: Any = {"limit": breaker, "slow": 1, "pace": pace, "clock": clock, "transport": httpx.MockTransport(answers)}
    client: Any = AsyncPolicyTransport(recurs(2), **how) if awaits else PolicyTransport(recurs(2), **how)

    def asks(seconds: float) -> int:
        request = httpx.Request("GET", f"http://one.example/{seconds}")
        if awaits:
            return int(asyncio.run(client.handle_async_request(request)).status_code)
        return int(client.handle_request(request).status_code)

    # The second one waits for 9 seconds, and its answer comes in time.
    assert [asks(1), asks(1)] == [200, 200] and begun == [0.0, 10.0]
    assert breaker.request().admit() is None
    assert asks(1.5) == 200 and begun[2] == 20.0
    assert reason(breaker.request().admit()) is OPEN


@pytest.mark.parametrize("limit", [None, Budget(5)])
def test_only_a_limit_that_hears_of_it_may_stand_beside_it(limit: Any) -> None:
    told = (
        "slow: expected a limit that hears how calls end, such as a Breaker or a Bucket, beside it, got "
        f"limit={limit!r}"
    )
    with pytest.raises(TypeError, match=f"^{re.escape(told)}$"):
        Retrying(recurs(3), limit=limit, slow=1)
    with pytest.raises(TypeError, match=f"^{re.escape(told)}$"):
        retry(recurs(3), limit=limit, slow=1)(lambda: None)
    retrying = Retrying(recurs(3), limit=InFlight.envoy(), slow=1)
    with pytest.raises(TypeError, match=f"^{re.escape(told)}$"):
        retrying.copy(limit=limit)
    assert retrying.copy(limit=limit, slow=None).slow is None


def test_wrong_times() -> None:
    limit: CallLimit = InFlight.envoy()
    with pytest.raises(TermsError, match="^slow: expected a time above 0, got 0$"):
        Retrying(recurs(3), limit=limit, slow=0)
    with pytest.raises(TermsError, match=r"^slow: expected 0 to 4611686018427387\.903 seconds, got -1$"):
        Retrying(recurs(3), limit=limit, slow=-1)
    anything: Any = "soon"
    with pytest.raises(TypeError, match="^slow: expected seconds or a timedelta, got 'soon'$"):
        Retrying(recurs(3), limit=limit, slow=anything)
