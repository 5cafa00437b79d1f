"""Retries of calls with scripted outcomes: by the definitions alone, and beside `zsched pool`."""

from __future__ import annotations

import json
import os
import random
import subprocess
import sys
from typing import Any, Callable, Dict, List, Optional, Set, Tuple, Union

import pytest
import reference
from conftest import python_environment

from hikebox import MAX_NUMBER, Budget, Ending, Policy, Quota, Retrying, milliseconds, state_of
from hikebox.testing import VirtualClock


class Lost(Exception):
    def __init__(self, code: int) -> None:
        super().__init__(code)
        self.code = code


Run = Tuple[str, int]
#: How a retry ended, and the milliseconds at which its runs began.
Timed = Tuple[Ending, List[int]]


def some_job(rng: random.Random) -> Tuple[Any, List[Run]]:
    """A random policy that goes on at most six times, and the outcomes of its runs."""
    tree = {"meet": [{"recurs": rng.randrange(7)}, reference.some_plan(rng, rng.randrange(1, 8))]}
    kinds = ["won", "lost", "lost", "lost"]
    runs = [(rng.choice(kinds), rng.choice([0, 1, 7, 503])) for _ in range(rng.randrange(1, 8))]
    return tree, runs


def a_budget(tickets: int) -> Callable[[int], bool]:
    """Whether a budget of so many tickets grants one, at any moment."""
    left = [tickets]

    def grants(now: int) -> bool:
        left[0] -= 1
        return left[0] >= 0

    return grants


def a_quota(reserve: int, share: int, period: int, windows: Set[int]) -> Callable[[int], bool]:
    """Whether a quota grants a ticket at a moment, where its one request came at the moment 0. The windows of tickets
    are noted."""
    latest, given = [0], [0]

    def grants(now: int) -> bool:
        window = max(latest[0], now // period)
        if window != latest[0]:
            latest[0], given[0] = window, 0
        allowed = reserve + (share // 1000 if window == 0 else 0)
        if given[0] == allowed:
            return False
        given[0] += 1
        windows.add(window)
        return True

    return grants


def wanted(tree: Any, runs: List[Run], grants: Callable[[int], bool]) -> str:
    """How the job ends, by the definitions of a retry."""
    now, granted = 0, 0
    history: List[reference.Event] = []
    for number in range(100):
        outcome, code = runs[min(number, len(runs) - 1)]
        if outcome == "won":
            return f"won {code}, granted {granted}"
        history.append(reference.Event(now, (2**31,) * 4, code))
        start = reference.answer(tree, history).start
        if start is None:
            return f"schedule done, failure {code}, granted {granted}"
        if not grants(now):
            return f"budget refused, failure {code}, granted {granted}"
        granted += 1
        now = start
    raise AssertionError("the policy goes on at most six times")


def ended(tree: Any, runs: List[Run], budget: Union[Budget, Quota], clock: VirtualClock) -> str:
    """How the job ends here."""
    left = list(runs)

    def call() -> int:
        outcome, code = left.pop(0) if len(left) > 1 else left[0]
        if outcome == "lost":
            raise Lost(code)
        return code

    with budget:
        retrying = Retrying(Policy.from_dict(tree), limit=budget, clock=clock, sleep=clock.sleep, random=lambda: 0.5)
        try:
            code = retrying(call)
        except Lost as error:
            state = state_of(error)
            assert state is not None and state.ending is not None
            names = {Ending.SCHEDULE_DONE: "schedule done", Ending.LIMIT_REFUSED: "budget refused"}
            line = f"{names[state.ending]}, failure {error.code}, granted {state.granted}"
        else:
            line = f"won {code}, granted "
    granted = budget.close()
    if line.endswith(" "):
        return f"{line}{granted}"
    assert line.endswith(f" {granted}")
    return line


def test_300_retries_end_as_the_definitions_say() -> None:
    rng = random.Random(20)
    endings = set()
    for _ in range(300):
        tree, runs = some_job(rng)
        tickets = rng.choice([0, 1, 2, 5, 100])
        line = ended(tree, runs, Budget(tickets), VirtualClock())
        assert line == wanted(tree, runs, a_budget(tickets)), (tree, runs, tickets)
        endings.add(line.split(",")[0].split()[0])
    assert endings == {"won", "schedule", "budget"}


def test_300_retries_end_as_zsched_pool_says() -> None:
    program = os.environ.get("HIKEBOX_ZSCHED")
    if program is None:
        pytest.skip("HIKEBOX_ZSCHED names no zsched")
    rng = random.Random(23)
    for _ in range(5):
        # no more than a worker drives at once, so that all begin at the moment 0
        compare_with_pool(program, [some_job(rng) for _ in range(60)])


def compare_with_pool(program: str, jobs: List[Tuple[Any, List[Run]]]) -> None:
    text = json.dumps([{"plan": tree, "runs": [{kind: code} for kind, code in runs]} for tree, runs in jobs])
    words = [program, "pool", "--budget", "1000000"]
    printed = subprocess.run(words, input=text, capture_output=True, text=True, check=True).stdout.splitlines()
    lines = [ended(tree, runs, Budget(2**32), VirtualClock()) for tree, runs in jobs]
    assert printed[:-1] == [f"job {number}: {line}" for number, line in enumerate(lines)]
    total = sum(int(line.split()[-1]) for line in lines)
    assert printed[-1] == f"granted {total} of 1000000"


def test_200_retries_on_a_quota_end_as_the_definitions_and_zsched_pool_say() -> None:
    program = os.environ.get("HIKEBOX_ZSCHED")
    if program is None:
        pytest.skip("HIKEBOX_ZSCHED names no zsched")
    rng = random.Random(27)
    endings = set()
    for _ in range(200):
        tree, runs = some_job(rng)
        reserve, share = rng.randrange(4), rng.choice([0, 999, 1000, 2500])
        period = rng.choice([100, 150, 200, 1000, 10**6])
        clock = VirtualClock()
        line = ended(tree, runs, Quota(reserve, share / 1000, milliseconds(period), clock=clock), clock)
        windows: Set[int] = set()
        grants = a_quota(reserve, share, period, windows)
        assert line == wanted(tree, runs, grants), (tree, runs, reserve, share, period)
        text = json.dumps([{"plan": tree, "runs": [{kind: code} for kind, code in runs]}])
        words = [program, "pool", "--quota", f"{reserve}/{share}/{period}"]
        printed = subprocess.run(words, input=text, capture_output=True, text=True, check=True).stdout.splitlines()
        assert printed == [f"job 0: {line}", f"granted {line.split()[-1]} in {len(windows)} windows"]
        endings.add(line.split()[0])
    assert endings == {"won", "schedule", "budget"}


class SlowClock:
    """Tells whole milliseconds. Each sleep takes longer than it was asked to: by these, in turn."""

    def __init__(self, late: List[int]) -> None:
        self.now = 0
        self.late = iter(late)

    def __call__(self) -> float:
        return self.now / 1000

    def sleep(self, seconds: float) -> None:
        self.now += round(seconds * 1000) + next(self.late)


def timed(tree: Any, runs: List[Run], took: List[int], late: List[int], deadline: int) -> Optional[Timed]:
    """How a retry ends whose runs take so long and whose waits end so late, and when its runs began, by the
    definitions; None where it waits longer than a float tells milliseconds."""
    now, too_late = 0, iter(late)
    began: List[int] = []
    history: List[reference.Event] = []
    for number, length in enumerate(took):
        outcome, code = runs[min(number, len(runs) - 1)]
        began.append(now)
        now += length
        if outcome == "won":
            return Ending.WON, began
        history.append(reference.Event(now, (2**31,) * 4, code))
        start = reference.answer(tree, history).start
        if start is None:
            return Ending.SCHEDULE_DONE, began
        if start > deadline:
            return Ending.DEADLINE, began
        if start > 10**9:
            return None
        now = start + next(too_late) if start > now else now
        if now > deadline:
            return Ending.DEADLINE, began
    raise AssertionError("the policy goes on at most six times")


def test_retries_that_take_time_and_wake_late_are_those_of_the_definitions() -> None:
    rng = random.Random(31)
    endings: Dict[Ending, int] = {}
    for _ in range(500):
        tree, runs = some_job(rng)
        took, late = ([rng.choice([0, 0, 1, 20, 500]) for _ in range(7)] for _ in range(2))
        deadline = rng.choice([50, 300, 2000, MAX_NUMBER])
        right = timed(tree, runs, took, late, deadline)
        if right is None:
            continue
        clock, began, left = SlowClock(late), [], list(zip(took, runs + runs[-1:] * 7))

        def call() -> None:
            began.append(clock.now)
            length, (outcome, code) = left.pop(0)
            clock.now += length
            if outcome == "lost":
                raise Lost(code)

        bound = None if deadline == MAX_NUMBER else milliseconds(deadline)
        policy = Policy.from_dict(tree)
        retrying = Retrying(policy, clock=clock, sleep=clock.sleep, random=lambda: 0.5, deadline=bound)
        ending = Ending.WON
        try:
            retrying(call)
        except Lost as error:
            state = state_of(error)
            assert state is not None and state.ending is not None
            ending = state.ending
        assert (ending, began) == right, (tree, runs, took, late, deadline)
        endings[ending] = endings.get(ending, 0) + 1
    assert set(endings) == {Ending.WON, Ending.SCHEDULE_DONE, Ending.DEADLINE} and min(endings.values()) > 30, endings


GROWS = """
import gc, resource
from hikebox import Budget, Policy, Quota, Retrying, recurs, spaced

def fails():
    raise KeyError

def work(count):
    for number in range(count):
        policy = Policy.from_json('{"meet":[{"recurs":3},{"gather":["list",{"spaced":%d}]}]}' % number)
        policy.preview(3)
        budget = Budget(2)
        retrying = Retrying(policy, limit=budget, sleep=lambda seconds: None, fallback=lambda state: None)
        retrying(fails)
        Retrying(policy, sleep=lambda seconds: None, fallback=lambda state: None)(fails)
        quota = Quota(2, 1, 60)
        Retrying(policy, limit=quota, sleep=lambda seconds: None, fallback=lambda state: None)(fails)
        if number % 2:
            budget.close()
            quota.close()
            continue
        attempts = iter(retrying)
        try:
            with next(attempts):
                raise KeyError
        except KeyError:
            pass
    gc.collect()
    return resource.getrusage(resource.RUSAGE_SELF).ru_maxrss

print(work(1500), work(6000))
"""


def test_nothing_is_leaked() -> None:
    done = subprocess.run(
        [sys.executable, "-c", GROWS], env=python_environment(), capture_output=True, text=True, timeout=300, check=True
    )
    before, after = (int(word) for word in done.stdout.split())
    # in kilobytes; one handle that is lost each time would be more
    assert after - before < 1500, done.stdout
