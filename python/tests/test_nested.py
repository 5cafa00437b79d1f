"""What runs between two steps of the package: finalizers, the handlers of signals, other threads, and forks there."""

from __future__ import annotations

import contextlib
import gc
import json
import logging
import os
import signal
import sys
import time
from typing import Any, Callable, Dict, Iterator, List, Tuple

import pytest

import hikebox
from hikebox import (
    AsyncRetrying,
    Budget,
    LimitClosed,
    LimitInUse,
    InFlight,
    NotAdmitted,
    Quota,
    Retrying,
    TicketError,
    both,
    recurs,
    spaced,
)
from hikebox.retry import state

PACKAGE = os.path.dirname(hikebox.__file__)
#: The files of budgets, quotas and limits, and of what they call.
FILES = tuple(os.path.join(PACKAGE, *path) for path in (["budget"], ["quota"], ["limits", ""], ["_engine", ""]))
#: The files of counts.
READERS = (os.path.join(PACKAGE, "retry", "state.py"),)
LIMIT = 5


class Fails(Exception):
    """What a call raises."""


class Interrupt(BaseException):
    """What the handler of a signal raises."""


@pytest.fixture(autouse=True)
def nothing_is_logged() -> Iterator[None]:
    logging.disable()
    yield
    logging.disable(logging.NOTSET)


def fails() -> Any:
    raise Fails()


async def fails_later() -> Any:
    raise Fails()


class Waits:
    """Something to await that waits for ever."""

    def __await__(self) -> Any:
        yield


def does_at(step: int, run: Callable[[], Any], nested: Callable[[], Any], files: Tuple[str, ...] = FILES) -> bool:
    """Runs this, and the other call at so many steps inside these files: whether there were as many. Meanwhile the
    collector frees nothing, so that all runs have the same steps."""
    left = [step]

    def trace(frame: Any, event: str, _: Any) -> Any:
        if not frame.f_code.co_filename.startswith(PACKAGE):
            return None
        if event == "line" and frame.f_code.co_filename.startswith(files):
            left[0] -= 1
            if left[0] == 0:
                nested()
        return trace

    before = sys.gettrace()
    gc.disable()
    sys.settrace(trace)
    try:
        run()
    finally:
        sys.settrace(before)
        gc.enable()
    return left[0] <= 0


BUDGETS: Dict[str, Callable[[], Any]] = {
    "budget": lambda: Budget(LIMIT),
    "quota": lambda: Quota(LIMIT, 0, 10**6),
}


# A close


@pytest.mark.parametrize("kind", BUDGETS)
def test_a_close_at_any_step_of_which_a_retry_begins_closes_or_changes_nothing(kind: str) -> None:
    closed: List[bool] = []
    for step in range(1, 1000):
        budget = BUDGETS[kind]()
        drawn = [budget.draw(), budget.draw()]
        retrying = AsyncRetrying(recurs(3) & spaced(1), limit=budget, sleep=lambda seconds: Waits())
        retries: List[Any] = []

        def begins() -> None:
            coroutine = retrying(fails_later)
            try:
                coroutine.send(None)
            except LimitClosed:
                return
            retries.append(coroutine)

        def closes() -> None:
            try:
                closed.append(budget.close() == 2 + (0 if not retries else 100))
            except LimitInUse:
                closed.append(False)

        if not does_at(step, closes, begins):
            break
        if closed[-1]:
            assert not retries or budget.granted == 2
            with pytest.raises(LimitClosed):
                budget.draw()
        else:
            assert len(retries) == 1
            assert [bool(budget.draw()) for _ in range(3)] == [True, True, False], step
            if kind == "quota":
                budget.deposit()
            retries[0].close()
            # (a quota has the ticket of the retry back)
            assert budget.close() == (5 if kind == "budget" else 4), step
        drawn.clear()
    assert step > 20 and True in closed and False in closed


@pytest.mark.parametrize("kind", BUDGETS)
def test_after_a_close_that_was_interrupted_all_goes_on(kind: str) -> None:
    for step in range(1, 1000):
        budget = BUDGETS[kind]()
        drawn = [budget.draw(), budget.draw()]

        def interrupts() -> None:
            raise Interrupt()

        try:
            reached = does_at(step, budget.close, interrupts)
        except Interrupt:
            reached = True
        if not reached:
            break
        if not budget.closed:
            assert [bool(budget.draw()) for _ in range(4)] == [True, True, True, False], step
            assert budget.close() == 5, step
        assert budget.close() == budget.granted
        drawn.clear()
    assert step > 20


def test_calls_under_a_closed_budget_leave_nothing_behind() -> None:
    budget = Budget(5)
    budget.close()
    retrying = Retrying(recurs(1), limit=budget)
    for _ in range(10):
        with pytest.raises(LimitClosed):
            retrying(fails)
    assert not budget.passes._retries


# The collector


def unraisable_of(call: Callable[[], Any]) -> List[Any]:
    """What could not be raised while this was made and collected."""
    seen: List[Any] = []
    hook, sys.unraisablehook = sys.unraisablehook, lambda unraisable: seen.append(unraisable.exc_value)
    try:
        gc.collect()
        seen.clear()  # (of what other tests left)
        call()
        gc.collect()
    finally:
        sys.unraisablehook = hook
    return seen


@pytest.mark.parametrize("kind", ["budget", "quota", "by another clock"])
def test_a_coroutine_that_is_collected_with_its_budget_ends_quietly(kind: str) -> None:
    how: Dict[str, Any] = {"clock": lambda: time.monotonic()} if kind == "by another clock" else {}
    ended: List[Any] = []
    given: List[Any] = []

    async def job(retrying: Any, own: List[Any]) -> None:
        try:
            await retrying(fails_later)
        except BaseException as error:
            ended.append(type(error))
            raise

    def makes() -> None:
        # (the budget is older than the coroutine, so the collector ends it first)
        budget: Any = Budget(5) if kind == "budget" else Quota(5, 0, 60)
        retrying = AsyncRetrying(recurs(3) & spaced(10), limit=budget, sleep=lambda seconds: Waits(), **how)
        given.append(retrying.counts)
        own: List[Any] = []
        coroutine = job(retrying, own)
        own.append(coroutine)
        coroutine.send(None)

    assert unraisable_of(makes) == []
    assert ended == [GeneratorExit]
    assert (given[0].seen().calls, given[0].seen().cancelled) == (1, 1)


# Forks


def drawn_to_the_end(budget: Any) -> List[int]:
    """How many tickets were drawn, how many were left, and how many it grants in all."""
    before = budget.granted
    kept: List[Any] = []
    while len(kept) <= LIMIT:
        ticket = budget.draw()
        if not ticket:
            break
        kept.append(ticket)
    return [before + len(kept), budget.granted, budget.close()]


def retries(budget: Any, **how: Any) -> None:
    Retrying(recurs(1), limit=budget, fallback=lambda state: None, **how)(fails)


def hands_back(quota: Any) -> None:
    ticket = quota.draw()
    with contextlib.suppress(TicketError):  # (of the child: it is the parent's)
        ticket.hand_back()


def stops(quota: Any) -> None:
    retries(quota, stop=lambda state: state.granted > 0)


CALLS: Dict[str, Any] = {
    "a draw": (lambda budget: budget.draw(), "budget quota"),
    "retries": (retries, "budget quota"),
    "retries by another clock": (lambda quota: retries(quota, clock=lambda: time.monotonic()), "quota"),
    "a retry that is stopped": (stops, "quota"),
    "a ticket that comes back": (hands_back, "quota"),
    "a request": (lambda quota: quota.deposit(), "quota"),
}


def said_by_child(step: int, run: Callable[[], Any], says: Callable[[], Any]) -> Any:
    """What the child says that is forked at so many steps of this, once it has come to the end of it: None where there
    are fewer."""
    child: List[int] = []
    read, write = os.pipe()

    def forks() -> None:
        child.append(os.fork())
        if child == [0]:
            signal.alarm(60)  # (one that waits for ever says nothing)

    try:
        does_at(step, run, forks)
    finally:
        if child == [0]:
            said: Any = None
            try:
                said = says() if sys.exc_info()[1] is None else repr(sys.exc_info()[1])
            except BaseException as error:
                said = repr(error)
            finally:
                os.write(write, json.dumps(said).encode())
                os._exit(0)
    os.close(write)
    with open(read) as file:
        text = file.read()
    if not child:
        return None
    assert os.waitstatus_to_exitcode(os.waitpid(child[0], 0)[1]) == 0
    return json.loads(text)


each_call = pytest.mark.parametrize("call, kind", [(call, kind) for call in CALLS for kind in CALLS[call][1].split()])


@each_call
def test_a_call_at_any_step_of_which_its_budget_is_closed_succeeds_or_finds_it_closed(call: str, kind: str) -> None:
    found: List[bool] = []
    for step in range(1, 1000):
        budget = BUDGETS[kind]()

        def closes() -> None:
            with contextlib.suppress(LimitInUse):
                budget.close()

        try:
            if not does_at(step, lambda: CALLS[call][0](budget), closes):
                break
            found.append(False)
        except LimitClosed:
            found.append(True)
        budget.close()
        assert not budget.passes._retries, step
    assert True in found and False in found


def test_a_retry_at_any_step_of_whose_end_its_quota_is_closed_hands_its_ticket_back() -> None:
    tried: List[bool] = []
    for step in range(1, 1000):
        quota = Quota(LIMIT, 0, 10**6)
        drawing = quota.retry_drawing(False)
        assert drawing.draw() is None

        def closes() -> None:
            try:
                tried.append(quota.close() == 0)
            except LimitInUse:
                tried.append(False)

        if not does_at(step, lambda: drawing.end(True), closes):
            break
        assert quota.close() == 0, step
    assert True in tried and False in tried


@each_call
def test_a_child_that_is_forked_at_any_step_draws_on_a_budget_of_its_own(call: str, kind: str) -> None:
    run = CALLS[call][0]
    # (a pass more is lent where one is idle already)
    for warm in (False, True):
        step, said = 0, [LIMIT] * 3
        while said is not None:
            assert said == [LIMIT] * 3, step
            step += 1
            budget = BUDGETS[kind]()
            if warm:
                budget.draw()
            said = said_by_child(step, lambda: run(budget), lambda: drawn_to_the_end(budget))
        assert step > 15


def test_a_clock_that_fails_in_a_child_keeps_no_other_budget_from_beginning_anew() -> None:
    parent = os.getpid()

    def clock() -> float:
        if os.getpid() != parent:
            raise RuntimeError("no clock in a child")
        return 0.0

    quota = Quota(5, 0, 60, clock=clock)
    budget = Budget(LIMIT)
    budget.draw()
    says = said_by_child(1, lambda: budget.granted, lambda: drawn_to_the_end(budget))
    assert says == [LIMIT] * 3 and quota.draw()


def admits(limit: Any) -> None:
    try:
        Retrying(recurs(1), limit=limit)(fails)
    except (Fails, NotAdmitted):
        pass


def wins(limit: Any) -> None:
    assert Retrying(recurs(1), limit=limit)(lambda: 7) == 7


def by_hand(limit: Any) -> None:
    with limit.request() as request:
        request.admit()
        request.failed()
        request.draw()
        request.succeeded()


def at_once(limit: Any) -> List[bool]:
    """Of four requests at once, which retries are granted."""
    requests = [limit.request() for _ in range(4)]
    granted = []
    for request in requests:
        assert request.admit() is None
        request.failed()
        granted.append(request.draw() is None)
    return granted


@pytest.mark.parametrize("call, steps", [(admits, 50), (wins, 25), (by_hand, 50)])
def test_a_child_that_is_forked_at_any_step_has_a_limit_of_its_own(call: Any, steps: int) -> None:
    step, said = 0, [True, True, False, False]
    while said is not None:
        assert said == [True, True, False, False], step
        step += 1
        limit = InFlight(2, 0)
        said = said_by_child(step, lambda: call(limit), lambda: at_once(limit))
    assert step > steps


def test_a_request_that_is_ended_at_any_step_of_its_end_leaves_its_handle_once() -> None:
    for step in range(1, 1000):
        limit = InFlight(2, 0)
        request = limit.request()
        request.admit()
        if not does_at(step, request.ended, request.ended):
            break
        # (two requests with one handle would be one)
        assert at_once(limit) == [True, True, False, False], step
    assert step > 5


# Exceptions at any step


@pytest.mark.parametrize("call, steps", [(admits, 50), (wins, 25), (by_hand, 50)])
@pytest.mark.parametrize("several", [False, True])
def test_no_slot_is_lost_where_an_exception_ends_a_request_at_any_step(call: Any, steps: int, several: bool) -> None:
    def interrupts() -> None:
        raise Interrupt()

    hook, sys.unraisablehook = sys.unraisablehook, lambda unraisable: None
    try:
        for step in range(1, 10_000):
            limit = both(InFlight(1, 0), InFlight(1, 0)) if several else InFlight(1, 0)
            try:
                reached = does_at(step, lambda: call(limit), interrupts)
            except Interrupt:
                reached = True
            if not reached:
                break
            gc.collect()
            assert at_once(limit) == [True, False, False, False], step
    finally:
        sys.unraisablehook = hook
    assert step > steps


# Counts


@pytest.mark.parametrize("raises", [False, True])
def test_counts_that_are_read_at_any_step_of_a_reading_are_the_same(
    raises: bool, monkeypatch: pytest.MonkeyPatch
) -> None:
    # (the lock of all counts would stay taken where a trace function raises as it is given up, which no signal does)
    monkeypatch.setattr(state._lock, "held", contextlib.nullcontext())
    for step in range(1, 1000):
        retrying = Retrying(recurs(1), fallback=lambda state: None)
        retrying(fails)
        retrying(lambda: None)
        seen: List[int] = []

        def reads() -> None:
            if raises:
                raise Interrupt()
            seen.append(retrying.statistics.calls)

        try:
            reached = does_at(step, lambda: seen.append(retrying.statistics.calls), reads, READERS)
        except Interrupt:
            reached = True
        if not reached:
            break
        assert {*seen, retrying.statistics.calls} == {2}, step
    assert step > 5


def test_calls_that_are_counted_in_the_middle_of_the_count_of_another_are_all_counted() -> None:
    for nth in range(1, 20):
        retrying = Retrying(recurs(1), fallback=lambda state: None)
        retrying(fails)
        left, nested = [nth], [0]

        def trace(frame: Any, event: str, _: Any) -> Any:
            # (as where Python runs the handler of a signal, or from 3.12 on a finalizer: as a function begins)
            if event == "call" and frame.f_code.co_name == "__hash__":
                left[0] -= 1
                if left[0] == 0:
                    nested[0] += 1
                    sys.settrace(None)
                    retrying(fails)

        sys.settrace(trace)
        try:
            retrying(fails)
        finally:
            sys.settrace(None)
        counted = retrying.statistics
        calls = 2 + nested[0]
        assert (counted.calls, counted.attempts, counted.schedule_done) == (calls, 2 * calls, calls), nth
