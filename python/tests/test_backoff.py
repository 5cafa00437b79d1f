"""A policy as backoff's `wait_gen`, with the backoff that is installed, and the rows of docs/FROM-BACKOFF-PYTHON.md."""

from __future__ import annotations

import asyncio
import operator
import threading
from typing import Any, Callable, Iterator, List

import pytest
from pages import rows, runs_of

import hikebox
from hikebox import Breaker, Budget, Quota, Usage, exponential, forever, recurs, spaced
from hikebox.testing import VirtualClock

backoff = pytest.importorskip("backoff")

from hikebox.adapters.backoff import wait_gen  # noqa: E402


@pytest.fixture
def clock(monkeypatch: pytest.MonkeyPatch) -> VirtualClock:
    """The clock of the retries, by which backoff sleeps too."""
    clock = VirtualClock(1000)
    monkeypatch.setattr("backoff._sync.time.sleep", clock.sleep)
    return clock


def fails() -> int:
    raise KeyError("no")


def on_key_error(waits: Any, **how: Any) -> Callable[[Callable[[], Any]], Callable[[], Any]]:
    """backoff's decorator for a `KeyError`."""
    decorator: Callable[..., Any] = backoff.on_exception(waits, KeyError, jitter=None, logger=None, **how)
    return decorator


def test_it_waits_as_the_policy_says_until_that_is_done(clock: VirtualClock) -> None:
    attempts: List[float] = []

    @on_key_error(wait_gen(recurs(3) & exponential(0.1), clock=clock))
    def fetch() -> None:
        attempts.append(clock())
        fails()

    for _ in range(2):
        with pytest.raises(KeyError):
            fetch()
    assert clock.slept == pytest.approx([0.1, 0.2, 0.4] * 2)
    assert len(attempts) == 8


def test_results(clock: VirtualClock) -> None:
    results = iter([202, 202, 200, 202, 404])

    waits = wait_gen(spaced(1).while_input(equal=202), clock=clock)
    poll = backoff.on_predicate(waits, lambda status: status != 200, jitter=None)(lambda: next(results))
    assert [poll(), poll()] == [200, 404]  # (backoff gives the last result where it gives up)
    assert clock.slept == pytest.approx([1, 1, 1])


def test_coroutines() -> None:
    runs: List[int] = []

    @on_key_error(wait_gen(recurs(2)))
    async def fetch() -> None:
        runs.append(1)
        fails()

    with pytest.raises(KeyError):
        asyncio.run(fetch())
    assert len(runs) == 3


def test_a_budget_over_all_calls() -> None:
    runs: List[int] = []
    with Budget(100) as budget:

        @on_key_error(wait_gen(recurs(30), limit=budget))
        def fetch() -> None:
            runs.append(1)
            fails()

        def work() -> None:
            with pytest.raises(KeyError):
                fetch()

        threads = [threading.Thread(target=work) for _ in range(8)]
        for thread in threads:
            thread.start()
        for thread in threads:
            thread.join()
    assert budget.granted == 100 and len(runs) == 108


def test_a_quota_counts_each_call_once(clock: VirtualClock) -> None:
    quota = Quota(1, 0.5, 60, clock=clock)
    works: List[bool] = [True] * 4

    @on_key_error(wait_gen(recurs(2), limit=quota, clock=clock))
    def fetch() -> int:
        return 1 if works and works.pop() else fails()

    assert [fetch() for _ in range(4)] == [1] * 4
    assert quota.seen() == Usage(window=0, asked=4, given=0, left=3)
    for _ in range(2):
        with pytest.raises(KeyError):
            fetch()
    assert quota.seen() == Usage(window=0, asked=6, given=4, left=0)
    assert quota.close() == 4


def test_a_deadline_counts_from_the_start_of_the_call(clock: VirtualClock) -> None:
    attempts: List[float] = []

    @on_key_error(wait_gen(spaced(1), deadline=3, clock=clock))
    def fetch() -> None:
        attempts.append(clock())
        clock.advance(0.75)
        fails()

    with pytest.raises(KeyError):
        fetch()
    # at 0 and 1.75; the next one would begin at 3.5
    assert attempts == [1000, 1001.75]


def test_a_call_that_ends_otherwise_leaves_nothing_behind(clock: VirtualClock) -> None:
    # it succeeds, it raises another exception, or backoff's own bound ends it
    outcomes: Iterator[Any] = iter([KeyError, "fetched", KeyError, OSError, KeyError, KeyError])
    with Budget(10) as budget:

        @on_key_error(wait_gen(forever(), limit=budget, clock=clock), max_tries=2)
        def fetch() -> Any:
            outcome = next(outcomes)
            if isinstance(outcome, type):
                raise outcome
            return outcome

        assert fetch() == "fetched"
        with pytest.raises(OSError):
            fetch()
        with pytest.raises(KeyError):
            fetch()
    # (a budget that has a retry under way can't be closed)
    assert budget.granted == 3


def test_a_limit_is_not_for_backoff() -> None:
    limit: Any = Breaker(1, spaced(60))
    with pytest.raises(TypeError, match=r"^wait_gen\(\) takes no Breaker: .* backoff tells of failures alone$"):
        wait_gen(recurs(1), limit=limit)


# The rows of the page

PAGE = "FROM-BACKOFF-PYTHON.md"


@pytest.mark.parametrize("theirs, ours", rows(PAGE, "expo|fibo|constant", ""), ids=str)
def test_a_row_of_the_page_waits_as_backoff_does(theirs: str, ours: str) -> None:
    waits = eval(theirs, vars(backoff))
    waits = waits() if callable(waits) else waits
    next(waits)
    policy = eval(ours, vars(hikebox))
    told = [step.delay for step in policy.preview(12) if step.delay is not None]
    assert told == [waits.send(None) for _ in told]
    assert len(told) == 12 or next(waits, None) is None


@pytest.mark.parametrize("theirs, ours", rows(PAGE, "on_exception|on_predicate", "on="), ids=str)
@pytest.mark.parametrize("outcome", ["good", "bad", "", 0, KeyError("good"), KeyError("bad"), OSError("bad")], ids=repr)
def test_a_row_of_the_page_retries_what_backoff_does(theirs: str, ours: str, outcome: Any) -> None:
    names = {**vars(backoff), "T": KeyError, "f": lambda told: "bad" in str(told), "operator": operator}
    runs: List[int] = []

    def call() -> Any:
        runs.append(1)
        if isinstance(outcome, Exception):
            raise outcome
        return outcome

    errors = (hikebox.ResultRefused, KeyError, OSError)
    decorate = eval(theirs.replace("..", "constant").replace(")", ", max_tries=3, interval=0, jitter=None)"), names)
    retrying = hikebox.Retrying(recurs(2), **eval(f"dict({ours})", names))
    assert runs_of(lambda: retrying(call), runs, errors) == runs_of(decorate(call), runs, errors)


def test_the_page_has_these_rows() -> None:
    assert len(rows(PAGE, "expo|fibo|constant", "")) == 5
    assert len(rows(PAGE, "on_exception|on_predicate", "on=")) == 4
