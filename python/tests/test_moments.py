"""Moments: the same retries whatever a clock counts from, exact sleeps, and parts of milliseconds."""

from __future__ import annotations

import asyncio
import random
import threading
import time
from typing import Any, Callable, List, Optional, Tuple

import pytest
import reference

from hikebox import (
    MAX_NUMBER,
    AsyncRetrying,
    Breaker,
    Budget,
    Ending,
    NotAdmitted,
    Policy,
    Quota,
    RetryState,
    Retrying,
    Throttle,
    exponential,
    fixed,
    forever,
    recurs,
    spaced,
)
from hikebox.testing import VirtualClock

#: What clocks count from: their own start, a machine's that runs for a day or for months, 1970, and far more.
STARTS = (0.0, 1e5, 1e7, 1.7e9, 2.0**40)
from_each_start = pytest.mark.parametrize("start", STARTS)


class Adding(VirtualClock):
    """A clock as programs write one for their tests: each sleep is added to the moment, and rounded."""

    def __init__(self, start: float) -> None:
        super().__init__(start)
        self.now = start

    def __call__(self) -> float:
        return self.now

    def sleep(self, seconds: float) -> None:
        self.slept.append(seconds)
        self.now += seconds

    def advance(self, seconds: float) -> None:
        self.now += seconds


Clock = Callable[[float], VirtualClock]
of_each_clock = pytest.mark.parametrize("made", [VirtualClock, Adding])


def fails() -> None:
    raise ConnectionError()


def slept(clock: VirtualClock, policy: Policy, took: List[int], **how: Any) -> List[float]:
    """The sleeps of a retry whose attempts take so many milliseconds, in turn, and then none."""
    left = list(took)

    def call() -> None:
        clock.advance((left.pop(0) if left else 0) / 1000)
        raise ConnectionError()

    how = {"clock": clock, "sleep": clock.sleep, "random": lambda: 0.5, "fallback": lambda state: None, **how}
    Retrying(policy, **how)(call)
    return clock.slept


@from_each_start
@of_each_clock
def test_policies_worked_by_hand_sleep_the_same_from_each_start(start: float, made: Clock) -> None:
    # failures at 0, 0.1, 0.3 and 0.7, which is the last one that is within
    assert slept(made(start), recurs(6) & exponential(0.1, 2).up_to(0.7), []) == [0.1, 0.2, 0.4]
    # at 0, 197 and 394, where they fail at 0, 247 and 594; then at once, since 591 is over, and at 788 and 985
    assert slept(made(start), recurs(5) & fixed(0.197), [0, 50, 200]) == [0.197, 0.147, 0.194, 0.197]


@from_each_start
@of_each_clock
def test_an_attempt_of_fixed_begins_at_its_millisecond(start: float, made: Clock) -> None:
    clock, began = made(start), []

    def call() -> None:
        began.append(round((clock() - start) * 1000))
        raise ConnectionError()

    Retrying(recurs(6) & fixed(0.197), clock=clock, sleep=clock.sleep, fallback=lambda state: None)(call)
    assert began == pytest.approx([197 * turn for turn in range(7)], abs=1 if start > 1e12 else 0)


@of_each_clock
def test_3000_policies_sleep_the_same_from_each_start(made: Clock) -> None:
    rng = random.Random(57)
    waits = 0
    for _ in range(3000):
        tree = {"meet": [{"recurs": rng.randrange(1, 8)}, reference.some_plan(rng, rng.randrange(1, 9))]}
        took = [rng.choice([0, 0, 1, 7, 50, 333, 1999]) for _ in range(8)]
        policy = Policy.from_dict(tree)
        expected = slept(VirtualClock(), policy, took)
        for start in STARTS:
            # (far from 0, a wait of years is added to the clock as a number of whole seconds)
            if start == 0 or sum(expected) < 1e6:
                assert slept(made(start), policy, took) == expected, (tree, took, start)
        waits += len(expected)
    assert waits > 3000


def drawn(start: float, seed: int) -> Tuple[List[float], Ending, int, Tuple[int, int, int]]:
    """What a retry does on a quota of the same clock: its sleeps, its end, its tickets, and the quota's last window."""
    rng, clock = random.Random(seed), VirtualClock(start)
    quota = Quota(rng.randrange(3), rng.choice([0, 1, 2]), rng.choice([0.1, 0.2, 0.5, 1]), clock=clock)
    clock.advance(rng.randrange(300) / 1000)
    ended: List[RetryState] = []
    policy = recurs(rng.randrange(1, 8)) & Policy.from_dict(reference.some_plan(rng, 4))
    took = [rng.choice([0, 1, 50, 100, 101, 333]) for _ in range(8)]
    slept(clock, policy, took, limit=quota, fallback=ended.append)
    usage = quota.seen()
    ending = ended[0].ending
    assert ending is not None
    return clock.slept, ending, quota.close(), (usage.window, usage.asked, usage.given)


def test_retries_on_quotas_are_the_same_from_each_start() -> None:
    endings = set()
    for seed in range(500):
        expected = drawn(0.0, seed)
        if sum(expected[0]) < 1e6:
            assert [drawn(start, seed) for start in STARTS] == [expected] * len(STARTS), seed
        endings.add(expected[1])
    assert endings == {Ending.SCHEDULE_DONE, Ending.LIMIT_REFUSED}


@from_each_start
def test_a_window_begins_at_its_millisecond(start: float) -> None:
    clock = VirtualClock(start)
    quota = Quota(1, 0, 0.5, clock=clock)
    for window in range(1, 99):
        clock.advance(0.499)
        assert quota.seen().window == window - 1
        # an attempt that begins in that window and fails as the next one begins draws there
        assert slept(clock, recurs(2), [1], limit=quota) == []
        assert (quota.granted, quota.seen().window, quota.seen().given) == (window, window, 1)


@from_each_start
def test_limits_go_by_whole_milliseconds(start: float) -> None:
    clock = VirtualClock(start)
    breaker = Breaker(1, spaced(0.7), clock=clock)
    assert slept(clock, recurs(0), [], limit=breaker) == []
    clock.advance(0.699)
    with pytest.raises(NotAdmitted) as refused:
        Retrying(recurs(0), limit=breaker, clock=clock)(fails)
    assert refused.value.refusal.again_at == pytest.approx(start + 0.7, abs=0.001)
    clock.advance(0.001)
    assert Retrying(recurs(0), limit=breaker, clock=clock)(int, "3") == 3
    # of the windows of 0.7 s, the first one counts until the third one begins
    for passed, admits in ((0.699, False), (1.399, False), (1.4, True)):
        clock = VirtualClock(start)
        throttle = Throttle(1, 0.7, clock=clock, random=lambda: 0.0)
        assert throttle.request().admit() is None
        clock.advance(passed)
        assert (throttle.request().admit() is None) is admits


# Exact sleeps


def test_where_nothing_else_takes_time_the_sleeps_are_those_of_the_policy() -> None:
    waits: List[float] = []
    seen: List[float] = []

    async def note(seconds: float) -> None:
        waits.append(seconds)

    async def fails_later() -> None:
        fails()

    def before_sleep(state: RetryState) -> None:
        assert state.next_action is not None
        seen.append(state.upcoming_sleep)

    policy = recurs(4) & spaced(2)
    given: List[Any] = [{}, {"limit": Budget(99)}, {"limit": Quota(99, 0, 60)}, {"deadline": 60}]
    for how in given:
        options: Any = {"fallback": lambda state: state.idle_for, **how}
        assert Retrying(policy, sleep=waits.append, **options)(fails) == 8.0
        assert asyncio.run(AsyncRetrying(policy, sleep=note, **options)(fails_later)) == 8.0
        assert Retrying(policy, sleep=waits.append, before_sleep=before_sleep, **options)(fails) == 8.0
        for attempt in Retrying(policy, sleep=waits.append, **options):
            with attempt:
                fails()
    assert waits == [2.0] * 64 and seen == [2.0] * 16


def test_sleeps_are_whole_milliseconds_and_never_less_than_the_policy_says() -> None:
    for seed in range(50):
        rng = random.Random(seed)
        clock = VirtualClock(rng.uniform(0, 1e5))
        began: List[float] = []
        failed: List[float] = []

        def call() -> None:
            began.append(clock())
            clock.advance(rng.uniform(0, 0.05))
            failed.append(clock())
            raise ConnectionError()

        def sleep(seconds: float) -> None:
            assert seconds == round(seconds * 1000) / 1000
            clock.sleep(seconds)

        how: Any = {"clock": clock, "sleep": sleep, "fallback": lambda state: None}
        Retrying(recurs(20) & spaced(0.1), **how)(call)
        assert clock.slept == [0.1] * 20
        for end, start in zip(failed, began[1:]):
            assert start - end == pytest.approx(0.1, abs=1e-9)
        began.clear()
        failed.clear()
        Retrying(recurs(20) & fixed(0.1), **how)(call)
        # each 0.1 s from the first failure on, or up to a millisecond later
        for turn, start in enumerate(began[1:], start=1):
            assert 0.1 * turn - 1e-9 <= start - failed[0] < 0.1 * turn + 0.001


def test_what_hooks_and_draws_take_is_no_longer_waited_for(clock: VirtualClock) -> None:
    class Store:
        def draw(self) -> bool:
            clock.advance(0.0304)
            return True

    after: Any = lambda state: clock.advance(0.02)  # noqa: E731
    assert slept(clock, recurs(2) & spaced(1), [], after=after) == [0.98, 0.98]
    assert slept(VirtualClock(), recurs(2) & spaced(1), [], after=lambda state: clock.advance(9)) == [1, 1]
    clock.slept.clear()
    assert slept(clock, recurs(2) & spaced(1), [], limit=Store()) == [0.97, 0.97]
    clock.slept.clear()
    # a whole wait, and more
    assert slept(clock, recurs(2) & spaced(1), [], after=lambda state: clock.advance(7)) == []


def test_a_clock_that_is_set_back_is_not_waited_for(clock: VirtualClock) -> None:
    clock.advance(7200)

    def call() -> None:
        clock.advance(-3600)
        raise ConnectionError()

    Retrying(recurs(2) & spaced(1), clock=clock, sleep=clock.sleep, fallback=lambda state: None)(call)
    assert clock.slept == [1.0, 1.0]


@pytest.mark.parametrize("start", [MAX_NUMBER / 1000 - 2, MAX_NUMBER / 1000 + 1, 1e18])
@pytest.mark.parametrize("is_limited", [False, True])
@pytest.mark.parametrize("leaps", [False, True])
def test_a_clock_past_the_last_moment_ends_no_retry(start: float, is_limited: bool, leaps: bool) -> None:
    """Such as one that counts nanoseconds, or that leaps there during a call."""
    clock = VirtualClock(0.0 if leaps else start)
    quota = Quota(9, 0, 60, clock=clock)

    def call() -> None:
        clock.advance(max(0.0, start - clock()))
        raise ConnectionError()

    retrying = Retrying(
        recurs(2) & spaced(1),
        limit=quota if is_limited else None,
        clock=clock,
        sleep=clock.sleep,
        fallback=lambda state: state.ending,
    )
    assert retrying(call) is Ending.SCHEDULE_DONE
    assert clock.slept == [1.0, 1.0] and quota.close() == (2 if is_limited else 0)


# Deadlines


@pytest.mark.parametrize("took, deadline, attempts", [(0.0, 0, 4), (0.0004, 0, 1), (0.0004, 0.001, 1)])
def test_a_deadline_that_is_nearly_over_draws_no_ticket_in_vain(took: float, deadline: float, attempts: int) -> None:
    # attempts that fail at once may begin at a deadline of 0; those that take 0.4 ms may not
    def call() -> None:
        clock.advance(took)
        fails()

    policy = recurs(3) if deadline == 0 else recurs(3) & spaced(0.001)
    for start in (0.0, 0.0004, 1e5):
        for is_quota in (False, True):
            clock = VirtualClock(start)
            budget: Any = Quota(9, 0, 60, clock=clock) if is_quota else Budget(9)
            ended: List[RetryState] = []
            how: Any = {"clock": clock, "sleep": clock.sleep, "fallback": ended.append}
            Retrying(policy, limit=budget, deadline=deadline, **how)(call)
            assert ended[0].attempt_number == attempts
            assert budget.close() == attempts - 1


def test_no_attempt_begins_past_the_deadline_by_parts_of_milliseconds() -> None:
    for seed in range(300):
        rng = random.Random(seed)
        clock = VirtualClock(rng.uniform(0, 1e5))
        began: List[float] = []

        def call() -> None:
            began.append(clock())
            clock.advance(rng.uniform(0, 0.02))
            raise ConnectionError()

        budget = Budget(999)
        ended: List[RetryState] = []
        policy = spaced(rng.randrange(5) / 1000) | fixed(rng.randrange(1, 20) / 1000)
        how: Any = {"clock": clock, "sleep": clock.sleep, "fallback": ended.append, "limit": budget}
        first = clock()
        Retrying(recurs(500) & policy, deadline=0.2, **how)(call)
        assert all(start - first <= 0.2 + 1e-9 for start in began), seed
        # and none was waited for in vain
        assert ended[0].ending is Ending.DEADLINE and budget.close() == len(began) - 1, seed


def test_a_wait_on_the_machines_clock_is_no_shorter() -> None:
    moments: List[float] = []

    def call() -> None:
        moments.append(time.monotonic())
        raise ConnectionError()

    Retrying(recurs(3) & spaced(0.02), fallback=lambda state: None)(call)
    assert all(later - earlier >= 0.02 for earlier, later in zip(moments, moments[1:]))
    event: Optional[threading.Event] = threading.Event()
    moments.clear()
    Retrying(recurs(2) & spaced(0.02), stop=event, fallback=lambda state: None)(call)
    assert all(later - earlier >= 0.02 for earlier, later in zip(moments, moments[1:]))


def test_forever_begins_at_once(clock: VirtualClock) -> None:
    left = iter([1, 1, 0])
    assert Retrying(forever(), clock=clock, sleep=clock.sleep)(lambda: 1 / 0 if next(left) else 7) == 7
    assert clock.slept == []
