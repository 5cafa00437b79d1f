"""Deadlines: worked by hand, on a clock that sleeps and calls move."""

from __future__ import annotations

import asyncio
import random
import threading
import time
from datetime import timedelta
from types import SimpleNamespace
from typing import Any, AsyncIterator, Iterator, List, Optional, Tuple

import pytest
import reference

from hikebox import (
    AsyncRepeating,
    AsyncRetrying,
    Budget,
    Ending,
    Policy,
    PolicyError,
    Quota,
    Repeating,
    ResultRefused,
    Retrying,
    exponential,
    forever,
    linear,
    poll_until,
    recurs,
    repeat,
    retry,
    seconds_left,
    spaced,
    state_of,
)
from hikebox.testing import VirtualClock, no_waits

Seen = List[Tuple[float, Optional[float]]]


class Failing:
    """A call that takes so many seconds of the clock, and fails; it notes when it begins and what it has left."""

    def __init__(self, clock: VirtualClock, took: float) -> None:
        self.clock = clock
        self.took = took
        self.seen: Seen = []

    def __call__(self) -> None:
        left = seconds_left()
        self.seen.append((round(self.clock(), 6), None if left is None else round(left, 6)))
        self.clock.advance(self.took)
        raise ConnectionError()

    async def later(self) -> None:
        self()


def runs(kind: str, clock: VirtualClock, policy: Policy, took: float, **how: Any) -> Tuple[Seen, int, Any]:
    """When each attempt began and what it had left; the tickets; and how the retry ended."""
    failing, budget = Failing(clock, took), Budget(100)
    how = {"limit": budget, "clock": clock, "fallback": lambda state: state.ending, **how}
    if kind == "blocking":
        ending = Retrying(policy, sleep=clock.sleep, **how)(failing)
    else:
        ending = asyncio.run(AsyncRetrying(policy, sleep=clock.sleep_async, **how)(failing.later))
    return failing.seen, budget.close(), ending


kinds = pytest.mark.parametrize("kind", ["blocking", "async"])


@kinds
def test_no_attempt_is_planned_past_the_deadline_and_no_ticket_is_drawn_for_it(kind: str, clock: VirtualClock) -> None:
    # attempts of 0.03 s fail at 0.03, 0.16 and 0.29, and the next ones would begin at 0.13, 0.26 and 0.39
    done = Ending.DEADLINE
    assert runs(kind, clock, spaced(0.1), 0.03, deadline=0.259) == ([(0, 0.259), (0.13, 0.129)], 1, done)
    clock = VirtualClock(7.0)
    seen = [(7.0, 0.26), (7.13, 0.13), (7.26, 0.0)]
    assert runs(kind, clock, spaced(0.1), 0.03, deadline=timedelta(milliseconds=260)) == (seen, 2, done)
    assert runs(kind, VirtualClock(), spaced(0.1), 0.03, deadline=0.129) == ([(0, 0.129)], 0, done)


def starts(policy: Policy, seed: int, deadline: Optional[float]) -> List[float]:
    """When each attempt of a retry began whose attempts take as long as a random number of this seed says."""
    clock, rng = VirtualClock(), random.Random(seed)
    seen: List[float] = []

    def call() -> None:
        seen.append(round(clock(), 3))
        clock.advance(rng.randrange(1, 50) / 1000)
        raise OSError(503, "busy")

    how: Any = {"clock": clock, "sleep": clock.sleep, "random": random.Random(seed).random}
    Retrying(policy, deadline=deadline, fallback=lambda state: None, **how)(call)
    return seen


def test_up_to_the_deadline_a_retry_runs_as_without_one_and_then_no_more() -> None:
    rng = random.Random(5)
    later = 0
    for seed in range(300):
        policy = Policy.from_dict(reference.some_plan(rng, rng.randrange(1, 9)))
        deadline = rng.randrange(0, 2000) / 1000
        without = starts(policy.up_to(4) & recurs(60), seed, None)
        expected = [start for start in without if start <= deadline]
        assert starts(policy & recurs(60), seed, deadline) == expected, (policy, deadline)
        later += len(without) > len(expected) > 1
    assert later > 30


@kinds
def test_it_counts_from_the_start_of_the_first_attempt(kind: str, clock: VirtualClock) -> None:
    # 0.005 s after 0.24 is 0.245; by `ends_by`, from the first failure, there are attempts up to 0.49
    assert runs(kind, clock, spaced(0.005), 0.24, deadline=0.25)[0] == [(0, 0.25), (0.245, 0.005)]
    assert len(runs(kind, VirtualClock(), spaced(0.005).ends_by(0.25), 0.24)[0]) == 3
    assert runs(kind, VirtualClock(), forever(), 0.251, deadline=0.25)[1:] == (0, Ending.DEADLINE)


# Not only the plan: the moment at which an attempt begins


class Late:
    """A clock whose sleeps take longer than they were asked to, by so many seconds, and a call that fails at once."""

    def __init__(self, late: float, clock: VirtualClock) -> None:
        self.late = late
        self.clock = clock
        self.began: List[float] = []

    def sleep(self, seconds: float) -> None:
        self.clock.advance(seconds + self.late)

    async def sleep_async(self, seconds: float) -> None:
        self.sleep(seconds)

    def fails(self, *_: Any) -> None:
        self.began.append(round(self.clock(), 6))
        raise ConnectionError(len(self.began))

    async def fails_later(self) -> None:
        self.fails()

    def hook(self, _: Any) -> None:
        self.clock.advance(self.late)


def ended(kind: str, late: Late, policy: Policy, deadline: float, **how: Any) -> Any:
    """The exception that a retry raises in the end."""
    blocks = kind in ("blocking", "loop")
    how = {"deadline": deadline, "clock": late.clock, "sleep": late.sleep if blocks else late.sleep_async, **how}
    with pytest.raises(ConnectionError) as caught:
        if kind == "blocking":
            Retrying(policy, **how)(late.fails)
        elif kind == "loop":
            for attempt in Retrying(policy, **how):
                with attempt:
                    late.fails()
        else:
            asyncio.run(in_coroutine(kind, late, AsyncRetrying(policy, **how)))
    return caught.value


async def in_coroutine(kind: str, late: Late, retrying: AsyncRetrying) -> None:
    if kind == "async":
        await retrying(late.fails_later)
        return
    async for attempt in retrying:
        with attempt:
            late.fails()


every_kind = pytest.mark.parametrize("kind", ["blocking", "async", "loop", "async loop"])


@every_kind
def test_a_sleep_that_takes_too_long_is_followed_by_no_attempt(kind: str, clock: VirtualClock) -> None:
    late, quota = Late(0.2, clock), Quota(9, 0, 3600, clock=clock)
    error = ended(kind, late, spaced(0.01), 0.05, limit=quota)
    assert late.began == [0] and error.args == (1,)
    state = state_of(error)
    assert state is not None and state is error.retry_state
    assert (state.ending, state.attempt_number, state.granted) == (Ending.DEADLINE, 1, 1)
    assert error.__notes__ == [
        "hikebox: gave up after 1 attempt in 0.000 s: the deadline left no time for another attempt"
    ]
    # the ticket of the attempt that was not made came back
    assert (quota.seen().given, quota.seen().left, quota.close()) == (0, 9, 0)


@every_kind
@pytest.mark.parametrize("late, began", [(0.039, [0, 0.049]), (0.04, [0, 0.05]), (0.041, [0])])
def test_an_attempt_at_the_deadline_is_in_time(kind: str, late: float, began: List[float], clock: VirtualClock) -> None:
    lates = Late(late, clock)
    ended(kind, lates, spaced(0.01), 0.05)
    assert lates.began == began


@every_kind
@pytest.mark.parametrize("hook", ["before_sleep", "before", "after"])
@pytest.mark.parametrize("policy", [forever(), spaced(0.01)], ids=["no wait", "a wait"])
def test_a_hook_that_takes_too_long_is_followed_by_no_attempt(
    kind: str, hook: str, policy: Policy, clock: VirtualClock
) -> None:
    late, quota = Late(0.03, clock), Quota(9, 0, 3600, clock=clock)
    sleep = clock.sleep if kind in ("blocking", "loop") else clock.sleep_async
    error = ended(kind, late, policy, 0.05, limit=quota, sleep=sleep, **{hook: late.hook})
    state = state_of(error)
    assert state is not None and state.ending is Ending.DEADLINE
    assert late.began and all(moment <= 0.05 for moment in late.began[1:])
    assert state.attempt_number == len(late.began) == error.args[0]
    assert quota.close() == len(late.began) - 1


def test_a_repetition_that_wakes_too_late_gives_its_last_result(clock: VirtualClock) -> None:
    late = Late(0.2, clock)
    runs: List[float] = []

    def ticks() -> str:
        runs.append(clock())
        return f"tick {len(runs)}"

    async def ticks_later() -> str:
        return ticks()

    won: List[Any] = []
    how: Any = {"deadline": 0.05, "clock": clock, "on_success": lambda state: won.append(state.ending)}
    repeating = Repeating(spaced(0.01), sleep=late.sleep, **how)
    assert repeating(ticks) == "tick 1"
    runs.clear()
    assert repeating.copy(on_success=None)(ticks) == "tick 1"
    assert asyncio.run(AsyncRepeating(spaced(0.01), sleep=late.sleep_async, **how)(ticks_later)) == "tick 2"
    assert won == [Ending.DEADLINE] * 2 and repeating.statistics.deadline == 1
    assert repeating.statistics.by_ending["deadline"] == 1


def test_a_repetition_that_is_stopped_while_it_waits_gives_its_last_result() -> None:
    event = threading.Event()
    repeating = Repeating(spaced(60), stop=event, before_sleep=lambda state: event.set())
    assert repeating(lambda: "tick") == "tick" and repeating.statistics.stopped == 1


def test_a_fallback_and_a_refused_result_come_of_a_retry_that_wakes_too_late(clock: VirtualClock) -> None:
    late = Late(0.2, clock)
    how: Any = {"deadline": 0.05, "clock": clock, "sleep": late.sleep}
    assert Retrying(spaced(0.01), fallback=lambda state: state.ending, **how)(late.fails) is Ending.DEADLINE
    with pytest.raises(ResultRefused) as caught:
        Retrying(spaced(0.01), on_result=lambda result: True, **how)(lambda: "busy")
    assert caught.value.result == "busy"
    state = state_of(caught.value)
    assert state is not None and state.ending is Ending.DEADLINE


def test_a_real_sleep_that_takes_too_long_is_followed_by_no_attempt(caplog: Any) -> None:
    runs: List[float] = []

    def fails() -> None:
        runs.append(time.monotonic())
        raise ConnectionError

    with pytest.raises(ConnectionError):
        Retrying(spaced(0.01), deadline=0.05, sleep=lambda seconds: time.sleep(seconds + 0.2))(fails)
    assert len(runs) == 1
    (record,) = [record for record in caplog.records if record.levelname == "WARNING"]
    assert record.hikebox_ending == "DEADLINE" and "the deadline left no time" in record.getMessage()


def test_a_loop_that_is_blocked_too_long_is_followed_by_no_attempt() -> None:
    runs: List[float] = []

    async def fails() -> None:
        runs.append(time.monotonic())
        raise ConnectionError

    async def blocks() -> None:
        await asyncio.sleep(0)
        time.sleep(0.3)

    async def main() -> None:
        await asyncio.gather(AsyncRetrying(spaced(0.02), deadline=0.1)(fails), blocks())

    with pytest.raises(ConnectionError):
        asyncio.run(main())
    assert len(runs) == 1


def test_of_a_thousand_coroutines_none_begins_an_attempt_late() -> None:
    read, seen = [0.0], [time.monotonic()]
    lates: List[float] = []

    def clock() -> float:
        # (where the machine holds it up, no more than a twentieth of a second is counted)
        before, seen[0] = seen[0], time.monotonic()
        read[0] += min(0.05, seen[0] - before)
        return read[0]

    async def fails(began: List[float]) -> None:
        # (by the clock as the retry read it last, so that nothing counts that comes between)
        began.append(read[0])
        lates.append(read[0] - began[0])
        raise ConnectionError

    async def main() -> int:
        retrying = AsyncRetrying(spaced(0.004), deadline=2, clock=clock)
        ended = await asyncio.gather(*(retrying(fails, []) for _ in range(1000)), return_exceptions=True)
        assert {type(error) for error in ended} == {ConnectionError}
        return retrying.statistics.deadline

    assert asyncio.run(main()) == 1000
    assert len(lates) > 1000 and max(lates) <= 2 + 1e-6


@kinds
def test_parts_of_a_millisecond_come_before_it(kind: str, clock: VirtualClock) -> None:
    # a failure at 0.9 ms leaves 99 ms
    assert len(runs(kind, clock, spaced(0.1), 0.0009, deadline=0.1)[0]) == 1
    assert len(runs(kind, VirtualClock(), spaced(0.099), 0.0009, deadline=0.1)[0]) == 2


@pytest.mark.parametrize("name", ["retry_after", "wait"])
@kinds
def test_who_asks_for_more_than_is_left_ends_it(name: str, kind: str, clock: VirtualClock) -> None:
    asked: List[float] = []

    def asks(_: Any) -> float:
        asked.append(0.01 * 10 ** len(asked))
        return asked[-1]

    # waits of 0.01 and 0.1, and one of 1 s would end at 1.11
    seen, tickets, ending = runs(kind, clock, recurs(9), 0.0, deadline=1.1, **{name: asks})
    assert [round(moment, 6) for moment, _ in seen] == [0, 0.01, 0.11]
    assert (tickets, ending, len(asked)) == (2, Ending.DEADLINE, 3)
    asked.clear()
    assert len(runs(kind, VirtualClock(), recurs(3), 0.0, deadline=9999, **{name: asks})[0]) == 4
    # once at each failure
    assert len(asked) == 4


@kinds
def test_a_retry_in_a_retry_has_the_least_of_both(kind: str, clock: VirtualClock) -> None:
    seen: List[Optional[float]] = []

    def inner() -> None:
        seen.append(seconds_left())

    async def inner_later() -> None:
        inner()

    def both() -> None:
        for deadline in (5, 50, None):
            Retrying(recurs(0), deadline=deadline, clock=clock)(inner)
        seen.append(seconds_left())

    async def both_later() -> None:
        for deadline in (5, 50, None):
            await AsyncRetrying(recurs(0), deadline=deadline, clock=clock)(inner_later)
        seen.append(seconds_left())

    if kind == "blocking":
        Retrying(recurs(0), deadline=10, clock=clock)(both)
    else:
        asyncio.run(AsyncRetrying(recurs(0), deadline=10, clock=clock)(both_later))
    assert seen == [5, 10, 10, 10]
    assert seconds_left() is None


def test_hooks_loops_and_states_tell_it(clock: VirtualClock) -> None:
    seen: List[Optional[float]] = []
    retrying = Retrying(
        spaced(1),
        deadline=2.25,
        clock=clock,
        sleep=clock.sleep,
        before_sleep=lambda state: seen.append(state.seconds_left),
        fallback=lambda state: state.seconds_left,
    )
    # failures at 0.25 and 1.5
    assert retrying(Failing(clock, 0.25)) == 0.75
    assert seen == [2.0]
    seen.clear()
    for attempt in retrying:
        with attempt:
            seen.append(attempt.seconds_left)
            assert seconds_left() == attempt.seconds_left
            clock.advance(0.25)
            raise ConnectionError()
    assert seen == [2.25, 2.0, 1.0] and seconds_left() is None
    for attempt in retrying.copy(deadline=None):
        with attempt:
            assert attempt.seconds_left is None


def test_it_is_the_timeout_of_an_attempt() -> None:
    seen: List[Tuple[float, float]] = []

    async def hangs() -> None:
        left = seconds_left()
        assert left is not None
        seen.append((left, time.monotonic() - began))
        await asyncio.wait_for(asyncio.sleep(60), left)

    @retry(spaced(0.01), deadline=0.2)
    async def ask() -> None:
        await hangs()

    began = time.monotonic()
    with pytest.raises(asyncio.TimeoutError):
        asyncio.run(ask())
    ((left, passed),) = seen
    assert 0.2 - passed - 1e-6 <= left <= 0.2
    assert 0.2 <= time.monotonic() - began < 20


def test_tasks_and_threads_have_deadlines_of_their_own() -> None:
    seen: List[Tuple[int, bool]] = []

    async def asks(deadline: int) -> None:
        await asyncio.sleep(0)
        left = seconds_left()
        assert left is not None
        seen.append((deadline, deadline - 60 < left <= deadline))

    async def many() -> None:
        await asyncio.gather(*(AsyncRetrying(recurs(0), deadline=each)(asks, each) for each in (100, 200, 300)))

    asyncio.run(many())
    assert sorted(seen) == [(100, True), (200, True), (300, True)]

    def starts_a_thread() -> None:
        thread = threading.Thread(target=lambda: seen.append((0, seconds_left() is None)))
        thread.start()
        thread.join()

    Retrying(recurs(0), deadline=10)(starts_a_thread)
    assert seen[-1] == (0, True)


def test_generators_leave_no_deadline_behind() -> None:
    def rows(deadline: int) -> Iterator[Optional[float]]:
        for attempt in Retrying(recurs(1), deadline=deadline):
            with attempt:
                yield seconds_left()

    for _ in zip(rows(500), rows(300)):
        assert seconds_left() is not None
    assert seconds_left() is None

    async def rows_later() -> AsyncIterator[int]:
        async for attempt in AsyncRetrying(recurs(3), deadline=500):
            with attempt:
                yield attempt.number
                raise ConnectionError()

    async def leaves() -> Optional[float]:
        async for _ in rows_later():
            break
        await asyncio.sleep(0.01)  # (the loop closes what was left, in a task of its own)
        return seconds_left()

    async def goes_on_in_tasks() -> Tuple[int, bool]:
        row = rows_later()
        await row.__anext__()
        await asyncio.wait_for(row.__anext__(), 60)
        number = await row.__anext__()
        return number, 0 < (seconds_left() or 0) <= 500

    assert asyncio.run(leaves()) is None
    assert asyncio.run(goes_on_in_tasks()) == (3, True)


def test_a_sleep_that_takes_no_time_uses_it_up(clock: VirtualClock) -> None:
    failing = Failing(clock, 0.0)
    with no_waits(), pytest.raises(ConnectionError):
        Retrying(spaced(1), deadline=2.5, clock=clock)(failing)
    assert [left for _, left in failing.seen] == [2.5, 1.5, 0.5]


def test_a_quota_and_other_stores_draw_by_it(clock: VirtualClock) -> None:
    clock.advance(3600.25)
    quota = Quota(reserve=1, share=0, per=0.3, clock=clock)
    # failures at 3600.26, .57, .88 and 3601.19, and one more attempt would begin at 3601.49
    seen, _, ending = runs("blocking", clock, spaced(0.3), 0.01, deadline=1.2, limit=quota)
    assert (len(seen), quota.close(), ending) == (4, 3, Ending.DEADLINE)

    class Store:
        drawn = 0

        def draw(self) -> int:
            self.drawn += 1
            return self.drawn

    store = Store()
    assert len(runs("blocking", clock, spaced(0.3), 0.0, deadline=1.0, limit=store)[0]) == 4
    assert store.drawn == 3


def test_a_repetition_and_a_poll_end_by_it(clock: VirtualClock) -> None:
    moments: List[float] = []

    def tick() -> float:
        moments.append(clock())
        return clock()

    assert repeat(spaced(1), deadline=2.5, clock=clock, sleep=clock.sleep)(tick)() == 2
    how: Any = {"clock": clock, "sleep": clock.sleep, "fallback": lambda state: "not there"}
    answer: Any = poll_until(linear(1), lambda moment: moment > 99, deadline=6, **how)(tick)()
    assert answer == "not there"
    assert moments == [0, 1, 2, 2, 3, 5, 8]


def test_what_is_given_is_looked_at(clock: VirtualClock) -> None:
    with pytest.raises(PolicyError, match="deadline: 0.0004 s is less than a millisecond"):
        Retrying(recurs(1), deadline=0.0004)
    with pytest.raises(TypeError, match="deadline: expected seconds or a timedelta, got 'soon'"):
        Retrying(recurs(1), deadline="soon")  # type: ignore[arg-type]
    retrying = Retrying(exponential(1), deadline=3, clock=clock, sleep=clock.sleep, fallback=lambda state: clock())
    assert retrying.deadline == 3 and retrying.copy().deadline == 3
    assert retrying(Failing(clock, 0.0)) == 3
    assert retrying.copy(deadline=1)(Failing(clock, 0.0)) == 4


def test_a_policy_of_any_size_has_one(clock: VirtualClock) -> None:
    deep = spaced(0.1)
    for _ in range(31):
        deep = deep.nothing()
    assert deep.depth == 32
    assert len(runs("blocking", clock, deep, 0.03, deadline=0.259)[0]) == 2


def test_a_quota_by_the_machines_clock_ends_by_it_too() -> None:
    # the engine's moments are then those of the clock, far from 0
    quota = Quota(reserve=9, share=0, per=10**6)
    failing: List[float] = []

    def fails() -> None:
        failing.append(time.monotonic())
        raise ConnectionError()

    with pytest.raises(ConnectionError):
        Retrying(spaced(0.05), limit=quota, deadline=0.12)(fails)
    # at 0, 0.05 and 0.1 s, or once less where the machine is slow
    assert 1 <= len(failing) <= 3 and quota.close() == len(failing) - 1


@pytest.fixture
def tenacitys_time(monkeypatch: pytest.MonkeyPatch) -> VirtualClock:
    """The clock of tenacity, and of what it is given as its stop."""
    tenacity = pytest.importorskip("tenacity")
    from hikebox.adapters import tenacity as adapter

    clock = VirtualClock(1000.0)
    for module in (tenacity, adapter):
        monkeypatch.setattr(module, "time", SimpleNamespace(monotonic=clock, sleep=clock.sleep))
    return clock


def test_tenacitys_retries_end_by_it(tenacitys_time: VirtualClock) -> None:
    import tenacity
    from hikebox.adapters.tenacity import stop_and_wait

    stop, wait = stop_and_wait(forever(), deadline=3, clock=tenacitys_time)
    attempts: List[float] = []

    def fails() -> None:
        attempts.append(tenacitys_time())
        tenacitys_time.advance(1.6)
        raise ConnectionError()

    with pytest.raises(ConnectionError):
        tenacity.retry(stop=stop, wait=wait, sleep=tenacitys_time.sleep, reraise=True)(fails)()
    # the first attempt ends at 1.6, and the second after 3
    assert attempts == [1000.0, 1001.6]


def test_an_attempt_that_tenacity_begins_late_is_the_last(tenacitys_time: VirtualClock) -> None:
    import tenacity
    from hikebox.adapters.tenacity import stop_and_wait

    with Budget(9) as budget:
        stop, wait = stop_and_wait(spaced(0.01), deadline=2, limit=budget, clock=tenacitys_time)
        attempts: List[float] = []

        def fails() -> None:
            attempts.append(tenacitys_time())
            raise ConnectionError()

        def sleep(seconds: float) -> None:
            tenacitys_time.sleep(seconds + 2)

        for number in range(3):
            with pytest.raises(ConnectionError):
                tenacity.retry(stop=stop, wait=wait, sleep=sleep, reraise=True)(fails)()
            assert len(attempts) == 2 * (number + 1)
    assert budget.granted == 3


@pytest.mark.parametrize("most", [10**400, 1e308])
def test_the_greatest_numbers_bound_no_retry_after(most: Any) -> None:
    assert Retrying(recurs(1), max_retry_after=most).max_retry_after == most


@pytest.mark.parametrize("deadline", [1e308, 4.7e15, -1e308, 10**400])
def test_a_deadline_out_of_range_is_refused_by_name(deadline: Any) -> None:
    with pytest.raises(PolicyError, match=r"deadline: expected 0 to 4611686018427387\.903 seconds, got "):
        Retrying(recurs(1), deadline=deadline)
