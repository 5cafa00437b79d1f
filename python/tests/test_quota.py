"""Quotas: windows, threads, retries, closing."""

from __future__ import annotations

import asyncio
import gc
import pickle
import threading
import time
from datetime import timedelta
from typing import Any, List, Tuple

import pytest

from draws import drawn_by, engines_number as number, repeated
from processes import in_a_forked_child
from hikebox import (
    AsyncRetrying,
    LimitClosed,
    LimitError,
    LimitInUse,
    Ending,
    Quota,
    Retrying,
    RetryState,
    TermsError,
    Usage,
    exponential,
    forever,
    milliseconds,
    recurs,
    retry,
    spaced,
    state_of,
)
from hikebox.testing import VirtualClock

WINDOW = 2**32


def granted_and_ending(state: RetryState) -> Tuple[int, str]:
    assert state.ending is not None
    return state.granted, state.ending.name


def fails() -> Any:
    raise KeyError()


async def fails_later() -> Any:
    raise KeyError()


def call(kind: str, retrying: Any) -> Any:
    """What comes of a call that always fails, by the way of this name."""
    if kind == "call":
        return retrying(fails)
    return asyncio.run(retrying(fails_later))


def retrying_of(kind: str, policy: Any, clock: VirtualClock, **how: Any) -> Any:
    how = {"fallback": granted_and_ending, **how}
    if kind == "call":
        return Retrying(policy, clock=clock, sleep=clock.sleep, **how)
    return AsyncRetrying(policy, clock=clock, sleep=clock.sleep_async, **how)


KINDS = pytest.mark.parametrize("kind", ["call", "coroutine"])


def test_worked_windows(clock: VirtualClock) -> None:
    quota = Quota(2, 0.4, 10, clock=clock)
    clock.advance(30)
    assert [number(quota.draw()) for _ in range(3)] == [3 * WINDOW, 3 * WINDOW + 1, None]
    for _ in range(4):
        quota.deposit()
    # 2 and 0.4 for each of four requests: 3.6
    assert quota.seen() == Usage(window=3, asked=4, given=2, left=1)
    assert [number(quota.draw()) for _ in range(2)] == [3 * WINDOW + 2, None]
    quota.deposit()
    assert [number(quota.draw()) for _ in range(2)] == [3 * WINDOW + 3, None]
    clock.advance(9.999)
    assert not quota.draw() and quota.seen().next == 40
    clock.advance(0.001)
    assert quota.seen() == Usage(window=4, asked=0, given=0, left=2)
    assert [number(quota.draw()) for _ in range(3)] == [4 * WINDOW, 4 * WINDOW + 1, None]
    assert quota.granted == 6 == quota.close() == quota.granted


def test_a_clock_is_a_function() -> None:
    with pytest.raises(TypeError, match="^clock: expected a function, got 3"):
        Quota(1, 0, 1, clock=3)  # type: ignore[arg-type]


def test_a_quota_without_a_share_or_a_reserve(clock: VirtualClock) -> None:
    quota = Quota(1, 0, 1, clock=clock)
    quota.deposit()
    assert [number(quota.draw()) for _ in range(2)] == [0, None]
    quota = Quota(0, 1000, 1, clock=clock)
    assert not quota.draw()
    quota.deposit()
    assert [bool(quota.draw()) for _ in range(1001)] == [True] * 1000 + [False]
    quota = Quota(0, 0.001, 1, clock=clock)
    for _ in range(999):
        quota.deposit()
    assert not quota.draw()
    quota.deposit()
    assert number(quota.draw()) == 0


def test_a_clock_that_goes_back_or_far_ahead(clock: VirtualClock) -> None:
    now = [100.0]
    quota = Quota(2, 0, 1, clock=lambda: now[0])
    assert number(quota.draw()) == 0
    now[0] = 5.0
    assert [number(quota.draw()) for _ in range(2)] == [1, None]
    # an hour ahead, for one call
    now[0] = 3701.0
    assert number(quota.draw()) == 3601 * WINDOW
    now[0] = 200.0
    assert [number(quota.draw()) for _ in range(2)] == [3601 * WINDOW + 1, None]
    assert quota.seen() == Usage(window=3601, asked=0, given=2, left=0) and quota.seen().next == 3702
    now[0] = 3702.0
    assert number(quota.draw()) == 3602 * WINDOW
    now[0] = -1.0
    assert number(quota.draw()) == 3602 * WINDOW + 1


def test_an_idle_week_gives_one_reserve(clock: VirtualClock) -> None:
    quota = Quota(10, 0, 1, clock=clock)
    clock.advance(7 * 86_400)
    assert [number(quota.draw()) for _ in range(200)] == [604_800 * WINDOW + n for n in range(10)] + [None] * 190


def test_moments_since_1970_by_the_shortest_windows() -> None:
    clock = VirtualClock(1_700_000_000)
    quota = Quota(1, 0, 0.1, clock=clock)
    assert [number(quota.draw()) for _ in range(2)] == [0, None]
    clock.advance(0.125)
    assert [number(quota.draw()) for _ in range(2)] == [WINDOW, None]
    # some nine years later
    clock.advance(299_999_999.75)
    assert number(quota.draw()) == 2_999_999_998 * WINDOW


def test_terms() -> None:
    quota = Quota(10, 0.25, timedelta(minutes=1))
    assert (quota.reserve, quota.share, quota.per) == (10, 0.25, 60.0)
    assert repr(quota) == "<Quota(10, 0.25, per=60)>"
    assert repr(Quota(2**32, 1000, milliseconds(100))) == "<Quota(4294967296, 1000, per=0.1)>"
    assert Quota(0, 0.0006, 1).share == 0.001
    assert Quota(0, 1 / 3, 1).share == 0.333
    longest = Quota(1, 0, milliseconds(2**62 - 1))
    assert number(longest.draw()) == 0
    quota.close()
    assert repr(quota) == "<Quota(10, 0.25, per=60), closed at 0>"


SHARE_WANTED = "expected a share of 0, or from 0.001 to 1000 retries a request (0.2 is one for every five)"
BAD_TERMS: List[Any] = [
    ((-1, 0, 1), "expected a reserve from 0 to 4294967296 retries a window, got -1"),
    ((2**32 + 1, 0, 1), "expected a reserve from 0 to 4294967296 retries a window, got 4294967297"),
    ((0, -0.1, 1), f"{SHARE_WANTED}, got -0.1"),
    ((0, 1000.1, 1), f"{SHARE_WANTED}, got 1000.1"),
    ((0, float("nan"), 1), f"{SHARE_WANTED}, got nan"),
    ((0, 0.0004, 1), f"{SHARE_WANTED}, got 0.0004"),
    ((0, 0, 0), "expected a window of at least 0.1 s, got 0"),
    ((0, 0, 0.099), "expected a window of at least 0.1 s, got 0.099"),
    ((0, 0, 0.0001), "the window of a quota: 0.0001 s is less than a millisecond"),
    ((0, 0, timedelta(0)), "expected a window of at least 0.1 s, got datetime.timedelta(0)"),
    ((0, 0, -1), "the window of a quota: expected 0 to 4611686018427387.903 seconds, got -1"),
    ((0, 0, float("inf")), "the window of a quota: a duration of inf seconds"),
]


@pytest.mark.parametrize("terms, text", BAD_TERMS)
def test_terms_that_are_refused(terms: Any, text: str) -> None:
    with pytest.raises(ValueError) as caught:
        Quota(*terms)
    assert str(caught.value) == text
    assert isinstance(caught.value, (TermsError, LimitError))


def test_terms_of_wrong_types() -> None:
    wrongs: List[Any] = [(1.0, 0, 1), (True, 0, 1), ("1", 0, 1), (0, "0.2", 1), (0, True, 1), (0, None, 1), (0, 0, "1")]
    for wrong in wrongs:
        with pytest.raises(TypeError):
            Quota(*wrong)


# Retries


@KINDS
def test_a_call_is_a_request_and_its_retries_draw(kind: str, clock: VirtualClock) -> None:
    quota = Quota(1, 0.5, 10, clock=clock)
    retrying = retrying_of(kind, recurs(3), clock, limit=quota)
    # three calls are three requests: 1, 2 and 2 tickets in all
    assert [call(kind, retrying) for _ in range(3)] == [
        (1, "LIMIT_REFUSED"),
        (1, "LIMIT_REFUSED"),
        (0, "LIMIT_REFUSED"),
    ]
    assert quota.seen() == Usage(window=0, asked=3, given=2, left=0)
    clock.advance(10)
    assert call(kind, retrying) == (1, "LIMIT_REFUSED")
    assert retrying.statistics.limit_refused == 4
    assert quota.close() == 3


@KINDS
def test_retries_draw_at_the_moment_of_the_failure(kind: str, clock: VirtualClock) -> None:
    # failures at 5.5, 5.9, 6.7 and 8.3 s: windows 0, 0, 1 and 3 of a second, each with two tickets
    clock.advance(5.5)
    quota = Quota(2, 0, 1, clock=clock)
    retrying = retrying_of(kind, recurs(3) & exponential(0.4), clock, limit=quota)
    assert call(kind, retrying) == (3, "SCHEDULE_DONE")
    assert clock.slept == pytest.approx([0.4, 0.8, 1.6])
    assert quota.granted == 3
    assert quota.seen() == Usage(window=3, asked=0, given=0, left=2)


@KINDS
def test_a_quota_by_another_clock_than_the_retrys(kind: str, clock: VirtualClock) -> None:
    other = VirtualClock(1000)
    quota = Quota(2, 1, 1, clock=other)
    retrying = retrying_of(kind, recurs(9) & spaced(5), clock, limit=quota)
    assert call(kind, retrying) == (3, "LIMIT_REFUSED")
    assert clock.slept == [5, 5, 5]
    assert quota.seen() == Usage(window=0, asked=1, given=3, left=0)
    assert quota.close() == 3


def test_a_call_that_succeeds_is_a_request(clock: VirtualClock) -> None:
    quota = Quota(0, 0.5, 10, clock=clock)

    @retry(recurs(2), limit=quota, clock=clock)
    def fine() -> int:
        return 1

    assert [fine() for _ in range(7)] == [1] * 7
    assert quota.seen() == Usage(window=0, asked=7, given=0, left=3)


def test_a_loop_of_attempts_is_a_request(clock: VirtualClock) -> None:
    quota = Quota(2, 1, 10, clock=clock)
    for attempt in Retrying(recurs(5), limit=quota, clock=clock):
        with attempt:
            if attempt.number < 3:
                raise KeyError()
    assert quota.seen() == Usage(window=0, asked=1, given=2, left=1)

    async def main() -> None:
        async for attempt in AsyncRetrying(recurs(5), limit=quota, clock=clock):
            with attempt:
                raise KeyError()

    with pytest.raises(KeyError) as caught:
        asyncio.run(main())
    state = state_of(caught.value)
    assert state is not None and (state.granted, state.ending) == (2, Ending.LIMIT_REFUSED)
    assert quota.seen() == Usage(window=0, asked=2, given=4, left=0)


def test_a_quota_of_the_real_clock() -> None:
    quota = Quota(3, 0, 10**6)
    with pytest.raises(KeyError) as caught:
        Retrying(forever(), limit=quota)(fails)
    state = state_of(caught.value)
    assert state is not None and (state.granted, state.ending) == (3, Ending.LIMIT_REFUSED)
    with pytest.raises(KeyError):
        Retrying(recurs(1) & spaced(0.001), limit=Quota(9, 0, 0.1))(fails)
    # windows are of the machine's monotonic clock
    before = int(time.monotonic())
    quota = Quota(1, 0, 1)
    assert quota.seen().window <= int(time.monotonic()) - before
    ends = quota.seen().next
    assert ends is not None and before < ends <= time.monotonic() + 1


def test_a_sleep_that_takes_no_time_moves_the_retrys_draws() -> None:
    clock = VirtualClock()
    quota = Quota(1, 0, 1, clock=clock)
    how: Any = {"clock": clock, "sleep": lambda _: None, "fallback": granted_and_ending}
    retrying = Retrying(recurs(4) & spaced(1), limit=quota, **how)
    assert retrying(fails) == (4, "SCHEDULE_DONE")
    # the fourth failure that is retried is at 3 s by the retry
    assert clock() == 0 and quota.seen() == Usage(window=3, asked=0, given=1, left=0)


def test_a_quota_serves_any_number_of_retries(clock: VirtualClock) -> None:
    quota = Quota(2**32, 0, 3600, clock=clock)
    retrying = Retrying(recurs(1), limit=quota, clock=clock, fallback=lambda state: state.granted)
    for _ in range(70_000):
        assert retrying(fails) == 1
    assert quota.close() == 70_000


def test_retries_that_end_elsewhere_than_they_began_use_no_pass_up(clock: VirtualClock) -> None:
    quota = Quota(2**32, 0, 3600, clock=clock)
    retrying = Retrying(recurs(1), limit=quota, clock=clock)
    for _ in range(300):
        begun = [iter(retrying) for _ in range(40)]
        for attempts in begun:
            with next(attempts):
                raise KeyError()
        with pytest.raises(LimitInUse):
            quota.close()
        ends = threading.Thread(target=begun.clear)
        ends.start()
        ends.join()
        del attempts
    assert quota.draw() and quota.close() == 1


# Threads


def test_16_threads_draw_all_of_a_window_each_ticket_once(clock: VirtualClock) -> None:
    quota = Quota(10, 0.25, 60, clock=clock)
    # 16 * 2,000 requests give 8,000 tickets, beside the ten
    drawn = drawn_by(16, quota.draw, first=repeated(quota.deposit, 2000))
    assert sorted(ticket for mine in drawn for ticket in mine) == list(range(8010))
    assert all(mine == sorted(mine) for mine in drawn)
    assert quota.seen() == Usage(window=0, asked=32_000, given=8010, left=0)
    assert quota.close() == 8010


def test_8_threads_over_200_windows_with_deposits_beside() -> None:
    clock = VirtualClock()
    quota = Quota(3, 0.5, 1, clock=clock)
    drawn: List[List[int]] = [[] for _ in range(8)]
    ready = threading.Barrier(9)

    def work(mine: List[int]) -> None:
        for _ in range(200):
            ready.wait()
            for _ in range(5):
                quota.deposit()
                ticket = number(quota.draw())
                if ticket is not None:
                    mine.append(ticket)
            ready.wait()
            while True:
                ticket = number(quota.draw())
                if ticket is None:
                    break
                mine.append(ticket)
            ready.wait()

    threads = [threading.Thread(target=work, args=(mine,)) for mine in drawn]
    for thread in threads:
        thread.start()
    for window in range(200):
        ready.wait()
        ready.wait()
        ready.wait()
        # 3, and half of forty requests
        assert quota.seen() == Usage(window=window, asked=40, given=23, left=0)
        clock.advance(1)
    for thread in threads:
        thread.join()
    tickets = sorted(ticket for mine in drawn for ticket in mine)
    assert tickets == [window * WINDOW + ticket for window in range(200) for ticket in range(23)]
    assert quota.close() == 200 * 23


def test_8_threads_draw_in_different_windows_at_once() -> None:
    # the clock of each thread is windows ahead of the others'
    mine = threading.local()
    mine.now = 0.0
    quota = Quota(5, 0, 1, clock=lambda: float(mine.now))
    drawn: List[List[int]] = [[] for _ in range(8)]
    ready = threading.Barrier(8)

    def work(first: int) -> None:
        ready.wait()
        for window in range(first, first + 300):
            mine.now = window + 0.5
            ticket = number(quota.draw())
            while ticket is not None:
                drawn[first].append(ticket)
                ticket = number(quota.draw())

    threads = [threading.Thread(target=work, args=(first,)) for first in range(8)]
    for thread in threads:
        thread.start()
    for thread in threads:
        thread.join()
    # no thread comes back to an earlier window, and each window gives its first tickets, five at most, each once
    assert all(tickets == sorted(tickets) for tickets in drawn)
    given = dict.fromkeys(range(307), 0)
    for ticket in sorted(ticket for tickets in drawn for ticket in tickets):
        assert ticket % WINDOW == given[ticket // WINDOW]
        given[ticket // WINDOW] += 1
    assert max(given.values()) == given[306] == 5
    assert quota.close() == sum(given.values())


def test_threads_share_a_retrying_and_a_quota(clock: VirtualClock) -> None:
    quota = Quota(100, 1, 60, clock=clock)
    runs: List[int] = []
    retrying = Retrying(recurs(30), limit=quota, clock=clock, fallback=lambda state: state.granted)

    def counted() -> Any:
        runs.append(1)
        raise KeyError()

    def work() -> None:
        for _ in range(5):
            retrying(counted)

    threads = [threading.Thread(target=work) for _ in range(8)]
    for thread in threads:
        thread.start()
    for thread in threads:
        thread.join()
    # forty calls are forty requests, and each run but the first of a call had a ticket
    assert quota.seen().asked == 40
    assert quota.close() == len(runs) - 40 <= 140
    assert retrying.statistics.retries == quota.granted


def test_coroutines_share_a_quota_and_one_that_is_cancelled_gives_its_tickets_right() -> None:
    quota = Quota(100, 0, 10**6)

    async def main() -> Any:
        retrying = AsyncRetrying(recurs(3) & spaced(0.001), limit=quota, fallback=lambda state: state.granted)
        ended = await asyncio.gather(*(retrying(fails_later) for _ in range(10)))
        waiting = asyncio.ensure_future(AsyncRetrying(forever() & spaced(60), limit=quota)(fails_later))
        await asyncio.sleep(0.01)
        waiting.cancel()
        with pytest.raises(asyncio.CancelledError):
            await waiting
        return ended

    assert asyncio.run(main()) == [3] * 10
    gc.collect()
    # the ticket of the one that was cancelled while it waited came back
    assert quota.close() == 30


# Its end


def test_as_a_context(clock: VirtualClock) -> None:
    with Quota(3, 0, 60, clock=clock) as quota:
        assert number(quota.draw()) == 0
    assert quota.closed and quota.granted == 1 == quota.close()
    with pytest.raises(LimitClosed):
        quota.draw()
    with pytest.raises(LimitClosed):
        quota.deposit()
    with pytest.raises(LimitClosed):
        quota.seen()
    with pytest.raises(LimitClosed):
        Retrying(recurs(1), limit=quota)(fails)

    with pytest.raises(LimitInUse):
        with Quota(3, 0, 60, clock=clock) as quota:
            attempts = iter(Retrying(recurs(3), limit=quota, clock=clock))
            with next(attempts):
                raise KeyError()
    assert not quota.closed
    del attempts
    gc.collect()
    # the loop was left before its second turn, so the ticket for that came back
    assert quota.close() == 0


def test_counts_while_others_draw(clock: VirtualClock) -> None:
    quota = Quota(20_000, 0, 60, clock=clock)

    def work() -> None:
        while quota.draw():
            pass

    threads = [threading.Thread(target=work) for _ in range(4)]
    for thread in threads:
        thread.start()
    while any(thread.is_alive() for thread in threads):
        assert quota.granted <= 20_000
    for thread in threads:
        thread.join()
    assert quota.close() == 20_000


def test_a_forked_child_begins_anew() -> None:
    quota = Quota(2, 0.5, 10**6)
    quota.deposit()
    assert bool(quota.draw())

    def begins_anew() -> None:
        retrying = Retrying(recurs(3), limit=quota, fallback=lambda state: state.granted)
        assert (retrying(int, "3"), retrying(int, "x"), quota.seen().asked, quota.close()) == (3, 3, 2, 3)

    in_a_forked_child(begins_anew)
    assert quota.granted == 1
    with pytest.raises(TypeError, match="quotas that processes share"):
        pickle.dumps(quota)
