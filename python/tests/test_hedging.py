"""Attempts that are late and go on, beside the next ones: `hedge_after`."""

from __future__ import annotations

import asyncio
import gc
import random
import re
import warnings
import weakref
from datetime import timedelta
from typing import Any, Awaitable, Callable, List, Optional

import pytest

from hedged import KINDS, Peer, Script, ScriptedLoop, World, world
from hikebox import (
    AsyncRepeating,
    AsyncRetrying,
    AttemptTimeout,
    Breaker,
    Budget,
    Ending,
    NotAdmitted,
    PerKey,
    Quota,
    ResultRefused,
    Retrying,
    TermsError,
    poll_until,
    recurs,
    retry,
    seconds_left,
    spaced,
    state_of,
)
from hikebox.retry.watch import watch

__all__ = ["world"]


def quota_of(world: World) -> Quota:
    """Tickets that come back if they are not used."""
    return Quota(reserve=10, share=0, per=3600, clock=world.clock)


def told(error: BaseException) -> Any:
    state = state_of(error)
    return None if state is None else (state.ending, state.attempt_number)


# The specification, row by row


def test_a_late_attempt_that_succeeds_after_the_next_one_began_is_the_answer(world: World) -> None:
    quota, peer = quota_of(world), Peer(world, (150, "first"), (1000, "second"))
    retrying = world.retrying(recurs(2) & spaced(0), limit=quota)
    assert (world.run(lambda: retrying(peer)), world.millis) == ("first", 150)
    assert (peer.began, peer.cancelled, quota.granted) == ([0, 100], [(2, 150)], 1)


def test_a_late_attempt_that_succeeds_during_the_wait_gives_the_ticket_back(world: World) -> None:
    quota, peer = quota_of(world), Peer(world, (120, "first"), (0, "second"))
    retrying = world.retrying(recurs(2) & spaced(0.05), limit=quota)

    async def main() -> Any:
        result = await retrying(peer), world.millis
        await world.sleep(100)
        return result

    assert world.run(main) == ("first", 120)
    assert (peer.began, quota.granted) == ([0], 0)


def test_the_third_attempt_is_late_too_and_succeeds_after_the_policy_was_done(world: World) -> None:
    peer = Peer(world, (130, OSError("first")), (80, OSError("second")), (220, "third"))
    retrying = world.retrying(recurs(2) & spaced(0))
    assert (world.run(lambda: retrying(peer)), world.millis) == ("third", 400)
    assert peer.began == [0, 100, 180]


def test_where_all_fail_the_last_failure_is_the_answer(world: World) -> None:
    peer = Peer(world, (130, OSError("first")), (80, OSError("second")), (220, OSError("third")))
    retrying = world.retrying(recurs(2) & spaced(0))
    with pytest.raises(OSError, match="^third$") as raised:
        world.run(lambda: retrying(peer))
    assert (world.millis, peer.began) == (400, [0, 100, 180])
    assert told(raised.value) == (Ending.SCHEDULE_DONE, 3)
    assert getattr(raised.value, "__notes__") == ["hikebox: gave up after 3 attempts in 0.400 s: the policy was done"]


def test_one_slow_call_in_a_hundred(world: World) -> None:
    # Each hundredth call takes a second, the others 10 ms. With a hedge after 50 ms that second is 60 ms, for 1 % more
    # calls.
    def middle_p99_and_calls(there: World, hedge_after: float) -> Any:
        peer = Peer(there, *([(10, "here")] * 99 + [(1000, "here")]) * 3)
        retrying = there.retrying(recurs(1) & spaced(0), hedge_after=hedge_after)

        async def main() -> List[int]:
            took = []
            for _ in range(200):
                began = there.millis
                await retrying(peer)
                took.append(there.millis - began)
            return sorted(took)

        took = there.run(main)
        return took[100], took[198], len(peer.began)

    assert middle_p99_and_calls(world, hedge_after=60) == (10, 1000, 200)
    assert middle_p99_and_calls(World(KINDS[world.is_trio]), hedge_after=0.05) == (10, 60, 202)


# Random calls, beside a plain program by the rules


def by_the_rules(retries: int, wait: int, late: int, scripts: List[Any]) -> Any:
    """What comes of a call and when, when its attempts began, and how many tickets it kept; None where two things come
    at the same moment."""
    began, running = [0], {0: scripts[0]}
    told, last = 0, None
    begins: Optional[int] = None
    rings: Optional[int] = late
    while running or begins is not None:
        ends = {began[number] + script[0]: number for number, script in running.items()}
        coming = [*(began[number] + script[0] for number, script in running.items())]
        coming += [moment for moment in (begins, rings) if moment is not None]
        now = min(coming)
        if coming.count(now) > 1:
            return None
        if now in ends:
            number = ends[now]
            _, succeeds = running.pop(number)
            if succeeds:
                return number, now, began, told - (begins is not None)
            last = (f"fails {number}", now)
            is_heard = rings is not None and number == len(began) - 1
        else:
            is_heard = now == rings
        if is_heard:
            rings = None
            if told < retries:
                told, begins = told + 1, now + wait
        if begins is not None and (now == begins or (is_heard and wait == 0)):
            running[len(began)] = scripts[len(began)]
            began.append(begins)
            begins, rings = None, now + late
    assert last is not None
    return (*last, began, told)


def test_random_calls_are_those_of_the_rules(world: World) -> None:
    rng, seen = random.Random(7), [0, 0]
    for _ in range(150):
        retries, wait = rng.randrange(4), rng.choice([0, 0, 37, 250])
        scripts = [(rng.randrange(1, 500), rng.random() < 0.3) for _ in range(retries + 1)]
        right = by_the_rules(retries, wait, 100, scripts)
        if right is None:
            continue
        there = World(KINDS[world.is_trio])
        quota = quota_of(there)
        told: List[Script] = [
            (millis, str(number) if succeeds else OSError(f"fails {number}"))
            for number, (millis, succeeds) in enumerate(scripts)
        ]
        peer = Peer(there, *told)
        try:
            comes: Any = int(
                there.run(lambda: there.retrying(recurs(retries) & spaced(wait / 1000), limit=quota)(peer))
            )
        except OSError as error:
            comes = str(error)
        assert (comes, there.millis, peer.began, quota.granted) == right, (retries, wait, scripts)
        seen[isinstance(comes, str)] += 1
    assert min(seen) > 20, seen


# What is told


def test_what_hooks_and_the_state_tell(world: World) -> None:
    notes: List[Any] = []

    def note(name: str) -> Callable[[Any], None]:
        return lambda state: notes.append((name, world.millis, state.attempt_number, repr(state.outcome)))

    late = "raised AttemptTimeout('the attempt took longer than 0.1 s')"
    peer = Peer(world, (130, OSError("first")), (80, OSError("second")), (20, "third"), (0, "fourth"))
    hooks = {name: note(name) for name in ("before", "after", "before_sleep", "on_success")}
    retrying = world.retrying(recurs(2) & spaced(0.01), **hooks)
    assert world.run(lambda: retrying(peer)) == "third"
    # The second attempt begins at 110; the failure of the first one at 130 is told to nobody.
    assert notes == [
        ("before", 0, 1, "None"),
        ("after", 100, 1, late),
        ("before_sleep", 100, 1, late),
        ("before", 110, 2, "None"),
        ("after", 190, 2, "raised OSError('second')"),
        ("before_sleep", 190, 2, "raised OSError('second')"),
        ("before", 200, 3, "None"),
        ("on_success", 220, 3, "returned 'third'"),
    ]
    seen = retrying.statistics
    assert (seen.calls, seen.attempts, seen.retries, seen.won) == (1, 3, 2, 1)
    assert seen.idle_for == pytest.approx(0.02)


def test_the_state_tells_which_attempt_won(world: World) -> None:
    won: List[Any] = []
    retrying = world.retrying(on_success=lambda state: won.append((state.attempt_number, state.outcome.attempt_number)))
    assert world.run(lambda: retrying(Peer(world, (250, "first"), (1000, "others")))) == "first"
    assert won == [(3, 1)]


def test_the_policy_hears_the_code_of_a_late_attempt(world: World) -> None:
    def code(failure: Any) -> int:
        return 7 if isinstance(failure, AttemptTimeout) else 5

    peer = Peer(world, (150, OSError()), (20, OSError()))
    retrying = world.retrying((recurs(9) & spaced(0)).while_input(equal=7), code=code)
    with pytest.raises(OSError):
        world.run(lambda: retrying(peer))
    # The second failure ends the policy at 120; the first attempt is still under way.
    assert (peer.began, world.millis) == ([0, 100], 150)


def test_metrics_count_each_attempt_and_one_call(world: World, monkeypatch: Any) -> None:
    heard: List[Any] = []

    class Hears:
        def ended(self, *told: Any) -> None:
            heard.append(("ended", *told[1:]))

        def refused(self, *told: Any) -> None:
            heard.append(("refused", *told[1:]))

        def waits(self, *told: Any) -> None:
            heard.append(("waits", *told[1:]))

    monkeypatch.setattr(watch, "watchers", (Hears(),))
    retrying = world.retrying(recurs(9) & spaced(0.01), limit=Budget(1), fallback=lambda state: state.ending)
    assert world.run(lambda: retrying(Peer(world, (300, OSError())))) is Ending.LIMIT_REFUSED
    assert heard == [("waits", 0.01), ("ended", 2, "limit_refused"), ("refused", "Budget", "used_up")]


# How it ends


def test_an_attempt_in_time_is_retried_as_ever(world: World) -> None:
    peer = Peer(world, (20, OSError()), (20, OSError()), (20, "third"))
    retrying = world.retrying(recurs(2) & spaced(0.05))
    assert (world.run(lambda: retrying(peer)), world.millis, peer.began) == ("third", 160, [0, 70, 140])


def test_a_limit_that_refuses_the_next_attempt_leaves_the_late_one(world: World) -> None:
    budget = Budget(0)
    retrying = world.retrying(limit=budget)
    assert world.run(lambda: retrying(Peer(world, (300, "first")))) == "first"
    assert (world.millis, retrying.statistics.won) == (300, 1)
    there = World(KINDS[world.is_trio])
    with pytest.raises(OSError) as raised:
        there.run(lambda: there.retrying(limit=budget)(Peer(there, (300, OSError()))))
    assert (told(raised.value), there.millis) == ((Ending.LIMIT_REFUSED, 1), 300)


def test_a_late_attempt_is_a_failure_to_a_breaker_and_its_success_a_success(world: World) -> None:
    breaker = Breaker(2, spaced(60), clock=world.clock)
    notes: List[Any] = []
    retrying = world.retrying(
        recurs(1) & spaced(0), limit=breaker, on_success=lambda state: notes.append(state.granted)
    )
    # Two late attempts open it, which refuses the next call.
    peer = Peer(world, (500, OSError("first")), (500, OSError("second")))

    async def main() -> None:
        with pytest.raises(OSError, match="^second$"):
            await retrying(peer)
        with pytest.raises(NotAdmitted):
            await retrying(peer)

    world.run(main)
    assert (peer.began, world.millis, notes) == ([0, 100], 600, [])


def test_a_limit_hears_once_of_what_is_not_retried(world: World) -> None:
    def admits_next(there: World, failures: int, scripts: List[Script]) -> Any:
        breaker = Breaker(failures, spaced(60), clock=there.clock)
        retrying = there.retrying(recurs(1) & spaced(0.05), on=OSError, limit=breaker)

        async def main() -> bool:
            with pytest.raises(KeyError):
                await retrying(Peer(there, *scripts))
            return breaker.request().admit() is None

        return there.run(main)

    # In time, it is one failure; late at 100, it was one already.
    assert not admits_next(world, 1, [(20, KeyError())])
    assert admits_next(World(KINDS[world.is_trio]), 2, [(20, KeyError())])
    assert admits_next(World(KINDS[world.is_trio]), 2, [(120, KeyError())])
    assert not admits_next(World(KINDS[world.is_trio]), 1, [(120, KeyError())])


def test_a_slow_success_is_measured_from_its_own_beginning(world: World) -> None:
    # The first attempt takes 350 ms, the second would take long: past 300 ms it is a third failure to the breaker.
    def ends(slow: float, there: World) -> Any:
        breaker = Breaker(3, spaced(60), clock=there.clock)
        retrying = there.retrying(recurs(1) & spaced(0), limit=breaker, slow=slow)

        async def main() -> Any:
            assert await retrying(Peer(there, (350, "first"), (999, "second"))) == "first"
            return breaker.request().admit() is None

        return there.run(main)

    assert [ends(0.3, world), ends(0.4, World(KINDS[world.is_trio]))] == [False, True]


def test_the_deadline_ends_what_begins_and_not_what_goes_on(world: World) -> None:
    left: List[Any] = []

    async def call() -> str:
        left.append(seconds_left())
        return await peer()

    peer = Peer(world, (300, OSError("first")))
    retrying = world.retrying(recurs(9) & spaced(0.15), deadline=0.24)
    with pytest.raises(OSError, match="^first$") as raised:
        world.run(lambda: retrying(call))
    # Late at 100, so the next one would begin at 250, past the deadline.
    assert (told(raised.value), world.millis, left) == ((Ending.DEADLINE, 1), 300, [pytest.approx(0.24)])
    assert seconds_left() is None


def test_an_attempt_knows_its_deadline(world: World) -> None:
    left: List[Any] = []

    async def call() -> None:
        left.append(round(seconds_left() or 0, 3))
        await world.sleep(1000)

    async def main() -> None:
        await world.retrying(recurs(1) & spaced(0.05), deadline=5)(call)
        left.append(seconds_left())

    world.run(main)
    assert left == [5, 4.85, None]


def test_what_is_not_retried_ends_the_call_at_once(world: World) -> None:
    first: List[Script] = [(120, KeyError("k")), (500, "")]
    second: List[Script] = [(500, ""), (20, KeyError("k"))]
    for number, scripts in enumerate((first, second)):
        there = World(KINDS[world.is_trio])
        peer = Peer(there, *scripts)
        retrying = there.retrying(on=OSError)
        with pytest.raises(KeyError):
            there.run(lambda: retrying(peer))
        assert (there.millis, peer.began, peer.cancelled) == (120, [0, 100], [(2 - number, 120)])
        assert retrying.statistics.not_retried == 1


def test_functions_as_on_and_on_result_are_asked_once_for_each_attempt(world: World) -> None:
    asked: List[Any] = []

    async def on(error: BaseException) -> bool:
        asked.append((world.millis, str(error)))
        return isinstance(error, OSError)

    async def refuses(result: Any) -> bool:
        asked.append((world.millis, result))
        return str(result) != "third"

    peer = Peer(world, (130, OSError("first")), (60, "second"), (20, "third"))
    retrying = world.retrying(on=on, on_result=refuses)
    assert world.run(lambda: retrying(peer)) == "third"
    assert asked == [(130, "first"), (160, "second"), (180, "third")] and peer.began == [0, 100, 160]


def test_a_refused_result_that_is_last_is_told(world: World) -> None:
    retrying = world.retrying(recurs(1) & spaced(0), on_result=lambda result: True)
    with pytest.raises(ResultRefused) as raised:
        world.run(lambda: retrying(Peer(world, (300, "first"), (50, "second"))))
    assert (raised.value.result, told(raised.value), world.millis) == ("first", (Ending.SCHEDULE_DONE, 2), 300)


def test_a_poll_is_hedged(world: World) -> None:
    peer = Peer(world, (150, "busy"), (100, "done"))

    async def ask() -> str:
        return await peer()

    sleep = world.trio.sleep if world.is_trio else None
    polls = poll_until(
        recurs(9) & spaced(0), lambda answer: answer == "done", hedge_after=0.12, clock=world.clock, sleep=sleep
    )(ask)
    assert (world.run(polls), world.millis) == ("done", 220)


def test_a_fallback_hears_the_last_failure(world: World) -> None:
    retrying = world.retrying(recurs(1) & spaced(0), fallback=lambda state: (repr(state.outcome), world.millis))
    peer = Peer(world, (300, OSError("first")), (50, OSError("second")))
    assert world.run(lambda: retrying(peer)) == ("raised OSError('first')", 300)


def test_an_attempt_that_is_late_may_end_by_its_timeout(world: World) -> None:
    peer = Peer(world, (9999, "first"), (50, OSError("second")))
    retrying = world.retrying(recurs(1) & spaced(0), attempt_timeout=0.3)
    with pytest.raises(AttemptTimeout, match=r"^the attempt took longer than 0\.3 s$"):
        world.run(lambda: retrying(peer))
    assert (peer.began, peer.cancelled, world.millis) == ([0, 100], [(1, 300)], 300)


def test_a_stop_ends_what_begins(world: World) -> None:
    retrying = world.retrying(stop=lambda state: True)
    assert world.run(lambda: retrying(Peer(world, (300, "first")))) == "first"


def test_each_key_has_a_limit(world: World) -> None:
    limits = PerKey(lambda key: Budget(1), key=lambda key: key)
    retrying = world.retrying(recurs(9) & spaced(0), limit=limits)
    peer = Peer(world, (350, "first"))

    async def call(key: str) -> str:
        return await peer()

    assert world.run(lambda: retrying(call, "ours")) == "first"
    assert (peer.began, limits["ours"].granted) == ([0, 100], 1)


def test_a_ticket_comes_back_after_a_success_where_the_quota_says_so(world: World) -> None:
    quota = Quota(reserve=10, share=0, per=3600, clock=world.clock, returns_tickets=True)
    retrying = world.retrying(recurs(1) & spaced(0), limit=quota)
    assert world.run(lambda: retrying(Peer(world, (150, "first"), (999, "second")))) == "first"
    assert quota.granted == 0


def test_a_method_is_decorated() -> None:
    class Client:
        @retry(recurs(2), hedge_after=timedelta(seconds=60))
        async def fetch(self, name: str) -> str:
            return name

    assert asyncio.run(Client().fetch("here")) == "here"


# Attacks


@pytest.mark.parametrize(
    "after, began, cancelled, granted",
    [
        (50, [0], [(1, 50)], 0),  # the first attempt is in time
        (120, [0], [(1, 120)], 0),  # it is late, and the wait has a ticket
        (180, [0, 150], [(1, 180), (2, 180)], 1),  # two are under way
        (420, [0, 150, 300], [(1, 420), (2, 420), (3, 420)], 2),  # the policy is done
    ],
)
def test_who_cancels_the_call_cancels_all(
    world: World, after: float, began: List[int], cancelled: List[Any], granted: int
) -> None:
    quota, peer = quota_of(world), Peer(world, (9999, ""))
    retrying = world.retrying(recurs(2) & spaced(0.05), limit=quota)
    assert world.run(lambda: world.cancels(lambda: retrying(peer), after)) == ("cancelled", after)
    assert (peer.began, sorted(peer.cancelled), quota.granted) == (began, cancelled, granted)
    assert retrying.statistics.cancelled == 1


class Stubborn(Peer):
    """One whose first call takes half a second more to end once it is cancelled, and then has a result."""

    async def __call__(self) -> str:
        try:
            return await super().__call__()
        except self.world.cancelled:
            if self.cancelled[-1][0] > 1:
                raise
        if self.world.is_trio:
            with self.world.trio.CancelScope(shield=True):
                await self.world.sleep(500)
        else:
            await asyncio.sleep(0.5)
        return "too late"


def test_an_attempt_that_ignores_its_cancellation_is_awaited(world: World) -> None:
    peer = Stubborn(world, (9999, ""), (20, "second"))
    retrying = world.retrying()
    assert (world.run(lambda: retrying(peer)), world.millis) == ("second", 620)
    assert peer.cancelled == [(1, 120)] and retrying.statistics.won == 1


def test_who_cancels_the_call_meanwhile_is_heard(world: World) -> None:
    # The second attempt succeeds at 120; asyncio cancels the first one again, which then ends.
    peer = Stubborn(world, (9999, ""), (20, "second"))
    retrying = world.retrying()
    assert world.run(lambda: world.cancels(lambda: retrying(peer), 300)) == ("cancelled", 620 if world.is_trio else 300)
    assert retrying.statistics.cancelled == 1


@pytest.mark.parametrize("name", ["before", "after", "before_sleep", "on_success", "code", "wait", "on", "on_result"])
def test_what_a_hook_raises_ends_the_call(world: World, name: str) -> None:
    peer = Peer(world, (150, OSError("first")), (80, "second"), (9999, ""))

    def fails(given: Any) -> Any:
        if world.millis >= 100:
            raise ZeroDivisionError(name)

    how: Any = {name: (KeyError, fails) if name == "on" else fails}
    retrying = world.retrying((recurs(2) & spaced(0)).while_input(below=9), **how)
    with pytest.raises(ZeroDivisionError, match=f"^{name}$"):
        world.run(lambda: retrying(peer))
    assert retrying.statistics.calls == 1
    assert world.millis == {"on": 150, "on_result": 180, "on_success": 180}.get(name, 100)


def test_a_sleep_that_raises_ends_the_call(world: World) -> None:
    async def sleep(seconds: float) -> None:
        await world.sleep(10)
        raise ZeroDivisionError

    peer = Peer(world, (9999, ""))
    retrying = world.retrying(recurs(2) & spaced(0.05)).copy(sleep=sleep)
    with pytest.raises(ZeroDivisionError):
        world.run(lambda: retrying(peer))
    assert (peer.cancelled, world.millis) == ([(1, 110)], 110)


def test_a_sleep_that_returns_nothing_to_await(world: World) -> None:
    slept: List[float] = []
    peer = Peer(world, (9999, ""), (20, "second"))
    retrying = world.retrying(recurs(2) & spaced(5)).copy(sleep=slept.append)
    assert (world.run(lambda: retrying(peer)), world.millis, slept) == ("second", 120, [5])


def test_two_successes_at_once(world: World) -> None:
    async def main() -> Any:
        numbers, here = iter(range(1, 9)), world.event()

        async def call() -> int:
            number = next(numbers)
            await here.wait()
            return number

        async def later() -> None:
            await world.sleep(150)
            here.set()

        if world.is_trio:
            async with world.trio.open_nursery() as nursery:
                nursery.start_soon(later)
                return await retrying(call)
        task = asyncio.ensure_future(later())
        result = await retrying(call)
        await task
        return result

    retrying = world.retrying(recurs(1) & spaced(0))
    assert world.run(main) in ((1, 2) if world.is_trio else (1,))
    assert (retrying.statistics.calls, retrying.statistics.won, world.millis) == (1, 1, 150)


def test_a_success_at_the_moment_at_which_it_is_late(world: World) -> None:
    quota, peer = quota_of(world), Peer(world, (100, "first"), (9999, ""))
    assert (world.run(lambda: world.retrying(limit=quota)(peer)), world.millis) == ("first", 100)
    assert (peer.began, quota.granted) == ([0], 0)


def test_exceptions_come_as_they_are(world: World) -> None:
    class Own(BaseException):
        pass

    for error in (Own("own"), KeyboardInterrupt("of the call"), world.cancelled if not world.is_trio else Own()):
        there = World(KINDS[world.is_trio])
        raised = error() if isinstance(error, type) else error
        with pytest.raises(type(raised)) as seen:
            there.run(lambda: there.retrying()(Peer(there, (9999, ""), (20, raised))))
        assert seen.value is raised and there.millis == 120


def test_a_success_while_a_hook_is_awaited_leaves_the_next_attempt_uncalled(world: World) -> None:
    async def before(state: Any) -> None:
        await world.sleep(100 if state.attempt_number == 2 else 0)

    peer = Peer(world, (150, "first"), (9999, ""))
    assert (world.run(lambda: world.retrying(before=before)(peer)), world.millis) == ("first", 200)
    assert peer.began == [0]


def test_a_function_that_returns_a_coroutine(world: World) -> None:
    peer = Peer(world, (20, OSError()), (20, "second"))
    assert world.run(lambda: world.retrying()(lambda: peer())) == "second"


def test_functions_that_are_no_coroutine_functions(world: World) -> None:
    made: Any = int
    with pytest.raises(TypeError, match="^<class 'int'> returned nothing to await: a Retrying is for functions$"):
        world.run(lambda: world.retrying()(made, "3"))
    there = World(KINDS[world.is_trio])
    with pytest.raises(TypeError, match="^<class 'int'> raised before it returned anything to await: a Retrying is"):
        there.run(lambda: there.retrying()(made, "no number"))


def test_a_coroutine_that_nobody_runs_any_more_ends_its_retry() -> None:
    loop, quota = ScriptedLoop(), Quota(reserve=10, share=0, per=3600)
    retrying = AsyncRetrying(recurs(2) & spaced(60), hedge_after=0.1, limit=quota)

    async def call() -> None:
        await asyncio.sleep(9999)

    made: List[Any] = [retrying(call)]
    loop.call_later(1, loop.stop)
    loop.create_task(made[0])
    loop.run_forever()
    assert quota.granted == 1
    loop.close()
    messages: List[Any] = []
    loop.set_exception_handler(lambda _, context: messages.append(context["message"]))
    made[0].close()
    assert (quota.granted, retrying.statistics.cancelled) == (0, 1)
    made.clear()
    with warnings.catch_warnings():
        warnings.simplefilter("ignore")
        gc.collect()
    assert set(messages) <= {"Task was destroyed but it is pending!"}


def test_a_task_that_somebody_else_cancels_before_it_begins() -> None:
    world, peer = World("asyncio"), Peer(World("asyncio"), (0, ""))

    async def main() -> Any:
        call = asyncio.ensure_future(world.retrying()(peer))
        await asyncio.sleep(0)
        for task in asyncio.all_tasks() - {call, asyncio.current_task()}:
            task.cancel()
        with pytest.raises(asyncio.CancelledError):
            await call
        return call.cancelled()

    assert world.run(main) and peer.began == []


@pytest.mark.parametrize("on", [Exception, KeyError], ids=["the last failure", "not retried"])
def test_what_it_raises_is_freed_at_once(on: Any) -> None:
    class Own(Exception):
        pass

    world, left = World("asyncio"), [20, 150]

    async def call() -> None:
        await world.sleep(left.pop())
        raise Own

    async def main() -> Any:
        try:
            await world.retrying(recurs(1) & spaced(0), on=on)(call)
        except Own as error:
            return weakref.ref(error)

    gc.collect()
    gc.disable()
    try:
        freed = world.run(main)
        assert freed() is None
    finally:
        gc.enable()


# What is refused


def test_threads_loops_repeats_and_adapters_take_none() -> None:
    threads = "^hedge_after: expected a coroutine function: the call of a thread can't be cancelled$"
    with pytest.raises(TypeError, match=threads):
        Retrying(recurs(3), hedge_after=1)
    with pytest.raises(TypeError, match=threads):
        retry(recurs(3), hedge_after=1)(lambda: None)
    with pytest.raises(TypeError, match="^hedge_after: a repeat makes one call after the other"):
        AsyncRepeating(recurs(3), hedge_after=1)

    async def loop() -> None:
        async for attempt in AsyncRetrying(recurs(3), hedge_after=1):
            with attempt:
                pass

    with pytest.raises(TypeError, match="^hedge_after: expected a coroutine function; the block of a loop can't run"):
        asyncio.run(loop())
    pytest.importorskip("httpx")
    from hikebox.adapters.httpx import AsyncPolicyTransport

    with pytest.raises(TypeError, match=r"^AsyncPolicyTransport\(\) takes no hedge_after: decorate the coroutine"):
        AsyncPolicyTransport(recurs(3), hedge_after=1)


def test_wrong_times() -> None:
    anything: Any = "soon"
    with pytest.raises(TermsError, match=f"^{re.escape('hedge_after: expected a time above 0, got 0')}$"):
        AsyncRetrying(recurs(3), hedge_after=0)
    awaiting = AsyncRetrying(recurs(3), hedge_after=1.5, attempt_timeout=1.5)
    makes: List[Callable[[], Any]] = [
        lambda: AsyncRetrying(recurs(3), hedge_after=2, attempt_timeout=1.5),
        lambda: AsyncRetrying(recurs(3), attempt_timeout=1.5, hedge_after=2),
        lambda: awaiting.copy(hedge_after=2),
    ]
    for make in makes:
        with pytest.raises(TermsError, match="^hedge_after: expected at most attempt_timeout, 1.5, got 2$"):
            make()
    with pytest.raises(TermsError, match="^hedge_after: expected at most attempt_timeout, 1, got 1.5$"):
        awaiting.copy(attempt_timeout=1)
    assert awaiting.copy(hedge_after=2, attempt_timeout=None).hedge_after == 2
    with pytest.raises(TypeError, match="^hedge_after: expected seconds or a timedelta, got 'soon'$"):
        AsyncRetrying(recurs(3), hedge_after=anything)


def test_only_asyncio_and_trio_can_cancel() -> None:
    async def call() -> None:
        ...

    coroutine: Awaitable[Any] = AsyncRetrying(recurs(3), hedge_after=1)(call)
    with pytest.raises(RuntimeError, match="^hedge_after: expected a coroutine that asyncio or trio runs$"):
        getattr(coroutine, "send")(None)
