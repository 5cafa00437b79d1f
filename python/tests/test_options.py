"""Each option of a retry has an effect, whoever makes the calls: one that is added without a case here fails."""

from __future__ import annotations

import asyncio
from typing import Any, Dict, List, NamedTuple

import pytest

from hedged import World
from hikebox import AsyncRetrying, Breaker, Budget, Policy, ResultRefused, Retrying, recurs, spaced, state_of
from hikebox.retry.options import OPTIONS
from hikebox.testing import VirtualClock

#: A retry each second, whose policy reads codes; and one with jitter.
POLICY = (recurs(3) & spaced(1)).while_input(below=600)
JITTERED = spaced(1).jittered(0, 1)
#: A call that fails with this code, one that succeeds after so many seconds, and one that waits as a coroutine.
FAILS, TAKES, HANGS = 503, 2.5, "hangs"


class Seen(NamedTuple):
    """What a retry did: what came of it, its calls, its sleeps, and what hooks noted."""

    comes: Any
    calls: int
    slept: List[float]
    notes: List[Any]


class Case(NamedTuple):
    """An option, with the options beside it, the outcomes of the calls, of which the last repeats, and what is seen
    without the option and with it."""

    given: Dict[str, Any]
    outcomes: List[Any]
    without: Seen
    with_it: Seen
    beside: Dict[str, Any] = {}
    policy: Policy = POLICY


class Watched:
    """A retry's clock, its calls, and what is noted."""

    def __init__(self, outcomes: List[Any]) -> None:
        self.clock = VirtualClock()
        self.outcomes = outcomes
        self.calls = 0
        self.notes: List[Any] = []

    def call(self) -> Any:
        outcome = self.outcomes[min(self.calls, len(self.outcomes) - 1)]
        self.calls += 1
        if isinstance(outcome, float):
            self.clock.advance(outcome)
            return WON
        if isinstance(outcome, int):
            raise OSError(outcome, "scripted")
        return outcome

    async def call_later(self) -> Any:
        outcome = self.call()
        if outcome == HANGS:
            await asyncio.sleep(0.05)
            return WON
        return outcome


#: Values of options that are made anew for each retry, with what it is watched by.
MADE: Dict[str, Any] = {
    "a hook": lambda watched: lambda state: watched.notes.append((state.attempt_number, watched.clock())),
    "a sleep": lambda watched: lambda seconds: watched.notes.append(seconds),
    "a budget of 1": lambda watched: Budget(1),
    "a budget of 0": lambda watched: Budget(0),
    "a later clock": lambda watched: lambda: 100 + watched.clock(),
    "outcomes": lambda watched: lambda state: watched.notes.append(
        (state.outcome.attempt_number, state.outcome.failed)
    ),
    "a breaker": lambda watched: Breaker(1, spaced(60), clock=watched.clock),
    "its breaker": lambda watched: lambda state: watched.notes.append(
        state.retry_object.limit.request().admit() is None
    ),
    "its start": lambda watched: lambda state: watched.notes.append(state.start_time),
}
WON, HOOK = "won", "a hook"
TWICE = Seen(WON, 3, [1, 1], [])
AT_ONCE = Seen(WON, 1, [], [])

CASES: Dict[str, Case] = {
    "limit": Case(
        {"limit": "a budget of 1"}, [FAILS], Seen("SCHEDULE_DONE", 4, [1] * 3, []), Seen("LIMIT_REFUSED", 2, [1], [])
    ),
    "slow": Case(
        {"slow": 2},
        [TAKES],
        Seen(WON, 1, [], [True]),
        Seen(WON, 1, [], [False]),
        {"limit": "a breaker", "on_success": "its breaker"},
    ),
    "on": Case({"on": KeyError}, [FAILS, FAILS, WON], TWICE, Seen("OSError", 1, [], [])),
    "on_result": Case({"on_result": lambda result: True}, [WON], AT_ONCE, Seen("ResultRefused", 4, [1] * 3, [])),
    "code": Case({"code": lambda failure: 600}, [FAILS, FAILS, WON], TWICE, Seen("SCHEDULE_DONE", 1, [], [])),
    "retry_after": Case({"retry_after": lambda error: 5}, [FAILS, FAILS, WON], TWICE, Seen(WON, 3, [5, 5], [])),
    "wait": Case({"wait": lambda state: 4}, [FAILS, FAILS, WON], TWICE, Seen(WON, 3, [4, 4], [])),
    "max_retry_after": Case(
        {"max_retry_after": 3},
        [FAILS, FAILS, WON],
        Seen(WON, 3, [9, 9], []),
        Seen(WON, 3, [3, 3], []),
        {"wait": lambda state: 9},
    ),
    "deadline": Case({"deadline": 1.5}, [FAILS, FAILS, WON], TWICE, Seen("DEADLINE", 2, [1], [])),
    "attempt_timeout": Case({"attempt_timeout": 0.01}, [HANGS, WON], AT_ONCE, Seen(WON, 2, [1], [])),
    "hedge_after": Case({"hedge_after": 0.01}, [HANGS, WON], AT_ONCE, Seen(WON, 2, [1], [])),
    "stop": Case(
        {"stop": lambda state: state.attempt_number == 2}, [FAILS, FAILS, WON], TWICE, Seen("STOPPED", 2, [1], [])
    ),
    "before": Case({"before": HOOK}, [FAILS, WON], Seen(WON, 2, [1], []), Seen(WON, 2, [1], [(1, 0), (2, 1)])),
    "after": Case({"after": HOOK}, [FAILS, FAILS, WON], TWICE, Seen(WON, 3, [1, 1], [(1, 0), (2, 1)])),
    "before_sleep": Case({"before_sleep": HOOK}, [FAILS, FAILS, WON], TWICE, Seen(WON, 3, [1, 1], [(1, 0), (2, 1)])),
    "on_success": Case({"on_success": HOOK}, [FAILS, WON], Seen(WON, 2, [1], []), Seen(WON, 2, [1], [(2, 1)])),
    "fallback": Case(
        {"fallback": lambda state: "fell back"},
        [FAILS],
        Seen("LIMIT_REFUSED", 1, [], []),
        Seen("fell back", 1, [], []),
        {"limit": "a budget of 0"},
    ),
    "sleep": Case({"sleep": "a sleep"}, [FAILS, FAILS, WON], TWICE, Seen(WON, 3, [], [1, 1])),
    "clock": Case(
        {"clock": "a later clock"}, [WON], Seen(WON, 1, [], [0]), Seen(WON, 1, [], [100]), {"before": "its start"}
    ),
    "random": Case(
        {"random": lambda: 0.25}, [FAILS, WON], Seen(WON, 2, [0.5], []), Seen(WON, 2, [0.25], []), policy=JITTERED
    ),
}
#: The same where the first attempt succeeds, of those that are of use there.
AT_FIRST: Dict[str, Seen] = {
    "before": Seen(WON, 1, [], [(1, 0)]),
    "on_success": Seen(WON, 1, [], [(1, 0)]),
}


def seen(kind: str, policy: Policy, outcomes: List[Any], given: Dict[str, Any]) -> Seen:
    """What a retry of this kind does."""
    watched = Watched(outcomes)
    blocks = kind in ("calls", "a loop")
    sleep = watched.clock.sleep if blocks else watched.clock.sleep_async
    how: Dict[str, Any] = {"clock": watched.clock, "sleep": sleep, "random": lambda: 0.5, **given}
    for name, value in how.items():
        how[name] = MADE[value](watched) if isinstance(value, str) else value
    try:
        if blocks:
            comes = blocking(kind, Retrying(policy, **how), watched)
        else:
            comes = World("asyncio").run(lambda: awaiting(kind, AsyncRetrying(policy, **how), watched))
    except Exception as error:
        state = state_of(error)
        ending = None if state is None or isinstance(error, ResultRefused) else state.ending
        comes = type(error).__name__ if ending is None else ending.name
    return Seen(comes, watched.calls, watched.clock.slept, watched.notes)


def blocking(kind: str, retrying: Retrying, watched: Watched) -> Any:
    if kind == "calls":
        return retrying(watched.call)
    result = "fell back"
    for attempt in retrying:
        with attempt:
            result = watched.call()
            attempt.retry_state.set_result(result)
    return result


async def awaiting(kind: str, retrying: AsyncRetrying, watched: Watched) -> Any:
    if kind == "coroutines":
        return await retrying(watched.call_later)
    result = "fell back"
    async for attempt in retrying:
        with attempt:
            result = await watched.call_later()
            attempt.retry_state.set_result(result)
    return result


#: The kinds of calls that take an option, where not all do.
TAKEN_BY = {"attempt_timeout": ["coroutines"], "hedge_after": ["coroutines"]}


@pytest.mark.parametrize("kind", ["calls", "a loop", "coroutines", "an async loop"])
@pytest.mark.parametrize("name", OPTIONS)
def test_an_option_has_its_effect(name: str, kind: str) -> None:
    if kind not in TAKEN_BY.get(name, [kind]):
        assert seen(kind, POLICY, [WON], CASES[name].given) == Seen("TypeError", 0, [], [])
        return
    case = CASES[name]
    assert seen(kind, case.policy, case.outcomes, case.beside) == case.without
    assert seen(kind, case.policy, case.outcomes, {**case.beside, **case.given}) == case.with_it
    if name in AT_FIRST:
        assert seen(kind, case.policy, [WON], case.given) == AT_FIRST[name]


@pytest.mark.parametrize("kind", ["calls", "a loop", "coroutines", "an async loop"])
def test_each_outcome_has_the_number_of_its_attempt(kind: str) -> None:
    told: Dict[str, Any] = {"after": "outcomes", "on_success": "outcomes"}
    assert seen(kind, POLICY, [FAILS, FAILS, WON], told).notes == [(1, True), (2, True), (3, False)]
    told = {"before_sleep": "outcomes", "fallback": "outcomes", "limit": "a budget of 1"}
    assert seen(kind, POLICY, [FAILS], told).notes == [(1, True), (2, True)]
    told = {"after": "outcomes", "on_result": lambda result: result == "busy"}
    assert seen(kind, POLICY, ["busy", "busy", WON], told).notes == [(1, False), (2, False)]
