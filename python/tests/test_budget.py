"""Budgets: tickets, threads, closing."""

from __future__ import annotations

import copy
import gc
import os
import pickle
import re
import signal
import threading
from decimal import Decimal
from typing import Any, List, Tuple

import pytest

from draws import drawn_by, number
from processes import in_a_forked_child
from hikebox import Budget, LimitClosed, LimitError, LimitInUse, Policy, RetryState, Retrying, recurs, spaced


def granted_and_ending(state: RetryState) -> Tuple[int, str]:
    assert state.ending is not None
    return state.granted, state.ending.name


def test_worked_budgets() -> None:
    budget = Budget(2)
    assert [number(budget.draw()) for _ in range(4)] == [0, 1, None, None]
    assert budget.granted == 2 and not budget.closed
    assert budget.close() == 2 == budget.close() == budget.granted
    assert budget.closed
    with pytest.raises(LimitClosed):
        budget.draw()
    empty = Budget(0)
    assert not empty.draw()
    assert empty.close() == 0
    for bad in (-1, 2**32 + 1):
        with pytest.raises(LimitError):
            Budget(bad)
    wrongs: List[Any] = [1.5, "3", None, True]
    for wrong in wrongs:
        with pytest.raises(TypeError):
            Budget(wrong)
    assert Budget(2**32).close() == 0


def test_a_rising_budget() -> None:
    budget = Budget.rising(1)
    assert [number(budget.draw()) for _ in range(3)] == [0, None, None]
    assert budget.raise_to(4) == 4 == budget.limit
    assert [number(budget.draw()) for _ in range(5)] == [1, 2, 3, None, None]
    assert budget.raise_to(2) == 4
    assert budget.raise_to(5) == 5
    assert number(budget.draw()) == 4
    assert budget.close() == 5
    with pytest.raises(LimitClosed):
        budget.raise_to(9)
    with pytest.raises(LimitClosed):
        budget.draw()
    with pytest.raises(LimitError):
        Budget(3).raise_to(5)
    for bad in (-1, 2**32 + 1):
        with pytest.raises(LimitError):
            Budget.rising(1).raise_to(bad)


def test_retries_go_on_after_a_raise() -> None:
    budget = Budget.rising(2)
    retrying = Retrying(recurs(5), limit=budget, fallback=granted_and_ending)

    def fails() -> Any:
        raise KeyError()

    assert retrying(fails) == (2, "LIMIT_REFUSED")
    assert retrying(fails) == (0, "LIMIT_REFUSED")
    budget.raise_to(11)
    assert retrying(fails) == (5, "SCHEDULE_DONE")
    assert retrying(fails) == (4, "LIMIT_REFUSED")
    assert budget.close() == 11


def test_a_budget_serves_any_number_of_retries() -> None:
    def fails() -> Any:
        raise KeyError()

    for budget in (Budget(70_001), Budget.rising(70_001)):
        retrying = Retrying(recurs(1), limit=budget, fallback=granted_and_ending)
        for _ in range(70_000):
            assert retrying(fails) == (1, "SCHEDULE_DONE")
        assert budget.granted == 70_000
        assert [number(budget.draw()), number(budget.draw())] == [70_000, None]
        assert retrying(fails) == (0, "LIMIT_REFUSED")
        assert budget.close() == 70_001


def test_a_limit_raised_by_some_gives_as_many_more_whatever_was_refused() -> None:
    budget = Budget.rising(0)
    for limit, more in ((100, 100), (150, 50), (151, 1)):
        assert budget.raise_to(limit) == limit
        drawn = drawn_by(16, budget.draw)
        assert sum(map(len, drawn)) == more
        assert [number(budget.draw()) for _ in range(1000)] == [None] * 1000
    assert budget.close() == 151


def test_as_a_context() -> None:
    with Budget(3) as budget:
        budget.draw()
    assert budget.closed and budget.granted == 1

    with pytest.raises(LimitInUse):
        with Budget(3) as budget:
            attempts = iter(Retrying(recurs(3), limit=budget))
            with next(attempts):
                raise KeyError()
    assert not budget.closed
    del attempts
    gc.collect()
    assert budget.close() == 1

    with pytest.raises(ZeroDivisionError):
        with Budget(3) as budget:
            attempts = iter(Retrying(recurs(3), limit=budget))
            with next(attempts):
                raise KeyError()
            1 / 0


def test_16_threads_draw_each_ticket_once() -> None:
    limit = 200_000
    budget = Budget(limit)
    drawn = drawn_by(16, budget.draw)
    assert sorted(ticket for mine in drawn for ticket in mine) == list(range(limit))
    assert budget.close() == limit
    for mine in drawn:
        assert mine == sorted(mine)


def test_a_budget_that_rises_while_threads_draw() -> None:
    budget = Budget.rising(0)
    stop = threading.Event()
    drawn: List[List[int]] = [[] for _ in range(4)]

    def work(mine: List[int]) -> None:
        while not stop.is_set():
            ticket = number(budget.draw())
            if ticket is not None:
                mine.append(ticket)

    threads = [threading.Thread(target=work, args=(mine,)) for mine in drawn]
    for thread in threads:
        thread.start()
    for limit in range(0, 2000, 10):
        budget.raise_to(limit)
        assert budget.granted <= limit
    stop.set()
    for thread in threads:
        thread.join()
    tickets = [ticket for mine in drawn for ticket in mine]
    assert sorted(tickets) == list(range(budget.close()))
    assert budget.granted <= 1990


def test_counts_while_others_draw() -> None:
    budget = Budget(50_000)

    def work() -> None:
        while budget.draw():
            pass

    threads = [threading.Thread(target=work) for _ in range(4)]
    for thread in threads:
        thread.start()
    before = 0
    while any(thread.is_alive() for thread in threads):
        now = budget.granted
        assert now <= 50_000
        before = now
    for thread in threads:
        thread.join()
    assert before <= budget.close() == 50_000


def test_a_forked_child_begins_anew() -> None:
    budget, rising = Budget(2), Budget.rising(1)
    budget.draw()
    rising.draw()

    def begins_anew() -> None:
        retrying = Retrying(recurs(9), limit=budget, fallback=lambda state: state.granted)
        assert [retrying(int, word) for word in "3xx"] == [3, 2, 0]
        assert (number(rising.draw()), budget.close()) == (0, 2)

    in_a_forked_child(begins_anew)
    assert number(budget.draw()) == 1


def test_a_child_that_is_forked_in_a_retry_goes_on_with_it() -> None:
    budget = Budget(10)
    child = runs = 0

    def forks() -> int:
        nonlocal child, runs
        runs += 1
        if runs == 2:
            child = os.fork() or -1
        if runs < 3:
            raise KeyError()
        return child

    retrying = Retrying(recurs(3), limit=budget)
    if retrying(forks) == -1:
        status = 1
        try:
            # the retry goes on with its copy of the parent's budget
            status = 0 if (retrying.statistics.won, budget.close()) == (1, 0) else 2
        finally:
            os._exit(status)
    assert os.waitstatus_to_exitcode(os.waitpid(child, 0)[1]) == 0
    assert budget.close() == 2


def test_a_fork_while_another_thread_holds_a_lock() -> None:
    budget = Budget(10)
    with budget.passes.root():
        child = os.fork()
        if child == 0:
            signal.alarm(60)
            drawn: List[Any] = []
            thread = threading.Thread(target=lambda: drawn.append(budget.close()))
            thread.start()
            thread.join()
            os._exit(0 if drawn == [0] else 1)
    assert os.waitstatus_to_exitcode(os.waitpid(child, 0)[1]) == 0


def test_it_belongs_to_its_process() -> None:
    budget = Budget(5)
    assert copy.copy(budget) is budget is copy.deepcopy(budget)


def test_a_closed_budget_says_so_alone() -> None:
    budget = Budget(5)
    budget.close()
    with pytest.raises(LimitClosed) as caught:
        budget.draw()
    assert caught.value.__context__ is None


def test_it_can_not_be_pickled() -> None:
    with pytest.raises(TypeError, match="belongs to its process"):
        pickle.dumps(Budget(5))


def test_a_child_that_is_forked_while_a_thread_reads_a_policy_waits_for_no_lock(monkeypatch: Any) -> None:
    reads, is_read, is_forked = vars(Policy)["reads"], threading.Event(), threading.Event()

    def slowly(policy: Policy) -> Any:
        is_read.set()
        assert is_forked.wait(60)
        return reads.fget(policy)

    def fails() -> None:
        Retrying(recurs(2) & spaced(0.001).jittered(), fallback=lambda state: None)(int, "no number")

    def fails_in_the_child() -> None:
        monkeypatch.undo()
        signal.alarm(60)
        fails()

    monkeypatch.setattr(Policy, "reads", property(slowly))
    thread = threading.Thread(target=fails)
    thread.start()
    try:
        assert is_read.wait(60)
        in_a_forked_child(fails_in_the_child)
    finally:
        is_forked.set()
        thread.join()


def test_policies_and_retries_go_on_in_a_forked_child() -> None:
    retrying = Retrying(recurs(2))

    def fails() -> Any:
        raise KeyError()

    with pytest.raises(KeyError):
        retrying(fails)
    child = os.fork()
    if child == 0:
        status = 1
        try:
            retrying(fails)
        except KeyError as error:
            status = 0 if error.retry_state.attempt_number == 3 else 2  # type: ignore[attr-defined]
        finally:
            os._exit(status)
    assert os.waitstatus_to_exitcode(os.waitpid(child, 0)[1]) == 0


@pytest.mark.parametrize("limit", [True, 1.5, "7", None, Decimal(7)])
def test_a_limit_that_is_no_whole_number_is_refused(limit: Any) -> None:
    rising = Budget.rising(5)
    for takes in (Budget, Budget.rising, rising.raise_to):
        with pytest.raises(TypeError, match=re.escape(f"expected a whole number of tickets, got {limit!r}")):
            takes(limit)
    assert rising.limit == 5


def test_it_is_shown() -> None:
    budget = Budget(5)
    assert repr(budget) == "<Budget(5)>"
    budget.close()
    assert repr(budget) == "<Budget(5), closed at 0>"
    assert repr(Budget.rising(7)) == "<Budget.rising(7)>"
