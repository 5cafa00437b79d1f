"""A policy as tenacity's stop and wait, with the tenacity that is installed; and hooks that were written for it."""

from __future__ import annotations

import asyncio
import random
import re
import threading
import time
from typing import Any, List

import pytest
from pages import rows, runs_of

import hikebox.testing
from hikebox import Breaker, Budget, Quota, Usage, exponential, forever, recurs, spaced
from hikebox.testing import VirtualClock

tenacity = pytest.importorskip("tenacity")

from hikebox.adapters.tenacity import before_deposit, stop_and_wait  # noqa: E402


PAGE = "FROM-TENACITY.md"


def made(policy: Any, slept: List[float], **how: Any) -> Any:
    """One that notes its waits and makes none, by a clock that stands still where no other is named."""
    stop, wait = stop_and_wait(policy, **{"clock": lambda: 0.0, **how})
    return tenacity.Retrying(stop=stop, wait=wait, sleep=slept.append, reraise=True)


def fails() -> None:
    raise KeyError("no")


def test_it_stops_and_waits_as_the_policy_says() -> None:
    slept: List[float] = []
    with pytest.raises(KeyError):
        made(recurs(3) & exponential(0.1), slept)(fails)
    assert slept == pytest.approx([0.1, 0.2, 0.4])


def test_it_goes_by_tenacitys_clock() -> None:
    slept: List[float] = []
    with pytest.raises(KeyError):
        made(recurs(3) & exponential(0.1), slept, clock=time.monotonic)(fails)
    assert slept == [0.1, 0.2, 0.4]


def test_one_stop_and_wait_serves_many_calls() -> None:
    slept: List[float] = []
    retrying = made(recurs(2) & spaced(1), slept)
    for _ in range(3):
        with pytest.raises(KeyError):
            retrying(fails)
    assert slept == pytest.approx([1] * 6)


def test_a_budget_over_all_calls() -> None:
    runs = []

    def counted() -> None:
        runs.append(1)
        raise KeyError()

    with Budget(100) as budget:
        retrying = made(recurs(30), [], limit=budget)

        def work() -> None:
            with pytest.raises(KeyError):
                retrying(counted)

        threads = [threading.Thread(target=work) for _ in range(8)]
        for thread in threads:
            thread.start()
        for thread in threads:
            thread.join()
    assert budget.granted == 100 and len(runs) == 108


def test_a_quota_over_all_calls() -> None:
    clock = hikebox.testing.VirtualClock(100)
    quota = Quota(1, 0.5, 60, clock=clock)
    stop, wait = stop_and_wait(recurs(2), limit=quota, clock=clock)
    retrying = tenacity.Retrying(before=before_deposit(quota), stop=stop, wait=wait, reraise=True)
    for _ in range(4):
        assert retrying(lambda: 1) == 1
    assert quota.seen() == Usage(window=0, asked=4, given=0, left=3)
    for _ in range(2):
        with pytest.raises(KeyError):
            retrying(fails)
    assert quota.seen() == Usage(window=0, asked=6, given=4, left=0)


def test_with_tenacitys_own_stops_waits_and_results() -> None:
    slept: List[float] = []
    stop, wait = stop_and_wait(recurs(9) & spaced(1), clock=lambda: 0.0)
    retrying = tenacity.Retrying(
        stop=tenacity.stop_after_attempt(3) | stop,
        wait=wait + tenacity.wait_fixed(2),
        sleep=slept.append,
        retry=tenacity.retry_if_result(lambda result: result is None),
        retry_error_callback=lambda state: state.attempt_number,
    )
    assert retrying(lambda: None) == 3
    assert slept == pytest.approx([3, 3])


def test_the_policy_is_given_the_code() -> None:
    errors = iter([OSError(5, ""), OSError(5, ""), OSError(6, "")])

    def ask() -> None:
        raise next(errors)

    with pytest.raises(OSError) as caught:
        made(recurs(9).while_input(equal=5), [])(ask)
    assert caught.value.errno == 6


def test_coroutines() -> None:
    stop, wait = stop_and_wait(recurs(2))
    runs = []

    async def ask() -> None:
        runs.append(1)
        raise KeyError()

    with pytest.raises(KeyError):
        asyncio.run(tenacity.retry(stop=stop, wait=wait, reraise=True)(ask)())
    assert len(runs) == 3


def test_hooks_written_for_tenacity_work() -> None:
    seen: List[Any] = []

    def hook(state: Any) -> None:
        failed = state.outcome is not None and state.outcome.failed
        seen.append((state.attempt_number, failed, state.fn is ask, state.args, state.idle_for >= 0))

    def last(state: Any) -> Any:
        return type(state.outcome.exception())

    def ask(word: str) -> None:
        raise KeyError(word)

    tenacity.Retrying(
        stop=tenacity.stop_after_attempt(2), before=hook, after=hook, before_sleep=hook, retry_error_callback=last
    )(ask, "a")
    theirs, seen = seen, []
    hikebox.Retrying(recurs(1), before=hook, after=hook, before_sleep=hook, fallback=last)(ask, "a")
    assert seen == theirs


def is_bad(told: Any) -> bool:
    return "bad" in str(told)


class Caused(Exception):
    __cause__ = KeyError("a cause")


OUTCOMES = ["good", "bad", KeyError("good"), KeyError("bad"), OSError("good"), OSError("bad"), Caused("good")]


@pytest.mark.parametrize("theirs, ours", rows(PAGE, "retry_", "on"), ids=str)
@pytest.mark.parametrize("outcome", OUTCOMES, ids=repr)
def test_a_row_of_the_page_retries_what_tenacity_does(theirs: str, ours: str, outcome: Any) -> None:
    names = {**vars(tenacity), "T": KeyError, "f": is_bad, "r": ".?bad", "re": re}
    runs: List[int] = []

    def call() -> Any:
        runs.append(1)
        if isinstance(outcome, Exception):
            raise outcome
        return outcome

    errors = (tenacity.RetryError, hikebox.ResultRefused, KeyError, OSError, Caused)
    retrying = tenacity.Retrying(stop=tenacity.stop_after_attempt(3), retry=eval(theirs, names))
    made = hikebox.Retrying(recurs(2), **eval(f"dict({ours})", names))
    assert runs_of(lambda: made(call), runs, errors) == runs_of(lambda: retrying(call), runs, errors)


@pytest.mark.parametrize("theirs, ours", rows(PAGE, "wait_", r"[^`]*\("), ids=str)
def test_a_row_of_the_page_waits_as_tenacity_does(theirs: str, ours: str) -> None:
    names = {**vars(hikebox), **vars(tenacity), "n": 9}
    wait, policy = eval(theirs, names), eval(ours, names)
    if "jitter" in ours or "jitter" in theirs:
        return  # (of random waits the page says what differs)
    states = [tenacity.RetryCallState(tenacity.Retrying(), None, (), {}) for _ in range(7)]
    for number, state in enumerate(states, 1):
        state.attempt_number = number
    assert [step.delay for step in policy.preview(7)] == pytest.approx([wait(state) for state in states])


def test_the_page_has_these_rows() -> None:
    assert len(rows(PAGE, "retry_", "on")) == 11 and len(rows(PAGE, "wait_", r"[^`]*\(")) >= 11


def exponential_and_random(state: Any) -> float:
    return float(min(60, 2 ** (state.attempt_number - 1))) + random.random()


def raises(state: Any) -> None:
    raise RuntimeError("gave up") from state.outcome.exception()


def third(state: Any) -> bool:
    return bool(state.attempt_number >= 3)


def number(state: Any) -> int:
    return int(state.attempt_number)


EVENT = threading.Event()
EVENT.set()
FOUR = tenacity.stop_after_attempt(4)


@pytest.mark.parametrize(
    "theirs, ours, waits, error",
    [
        (
            {"stop": FOUR, "wait": tenacity.wait_exponential_jitter(max=60)},
            {"policy": recurs(3), "wait": exponential_and_random},
            [1.134, 2.847, 4.764],
            tenacity.RetryError,
        ),
        ({"stop": FOUR, "retry_error_cls": RuntimeError}, {"policy": recurs(3), "fallback": raises}, [], RuntimeError),
        (
            {"stop": third, "wait": number},
            {"policy": forever(), "stop": third, "wait": number},
            [1.0, 2.0],
            tenacity.RetryError,
        ),
        (
            {"stop": tenacity.stop_when_event_set(EVENT)},
            {"policy": forever(), "stop": EVENT},
            [],
            tenacity.RetryError,
        ),
    ],
    ids=["a random sum", "an error of one's own", "functions of the state", "an event"],
)
def test_a_row_that_no_policy_expresses(theirs: Any, ours: Any, waits: List[float], error: Any) -> None:
    slept: List[float] = []
    random.seed(1)
    with pytest.raises(error):
        tenacity.Retrying(sleep=slept.append, **theirs)(fails)
    assert [round(wait, 3) for wait in slept if wait] == waits

    slept.clear()
    clock = VirtualClock()

    def sleep(seconds: float) -> None:
        slept.append(seconds)
        clock.advance(seconds)

    random.seed(1)
    with pytest.raises(RuntimeError if error is RuntimeError else KeyError):
        hikebox.Retrying(**ours, clock=clock, sleep=sleep)(fails)
    assert [round(wait, 3) for wait in slept] == waits


def test_an_exhausted_try_again() -> None:
    def again(kind: Any) -> Any:
        raise kind()

    with pytest.raises(tenacity.RetryError):
        tenacity.Retrying(stop=tenacity.stop_after_attempt(2))(again, tenacity.TryAgain)
    with pytest.raises(hikebox.TryAgain):
        hikebox.Retrying(recurs(1))(again, hikebox.TryAgain)


def test_a_limit_is_not_for_tenacity() -> None:
    with pytest.raises(
        TypeError, match=r"^stop_and_wait\(\) takes no Breaker: .* tenacity doesn't say when that begins$"
    ):
        stop_and_wait(recurs(1), limit=Breaker(1, spaced(60)))
