"""An exception that a signal handler raises, at any step inside the package: no pass and no ticket is lost for good."""

from __future__ import annotations

import contextlib
import gc
import linecache
import os
import re
import signal
import sys
import time
import traceback
from pathlib import Path
from typing import Any, Callable, Dict, Iterator, List, Optional, Set, Tuple

import pytest

import hikebox
from hikebox import AsyncRetrying, Bucket, Budget, Quota, Retrying, recurs, spaced
from hikebox._engine import machine as machines
from hikebox.leased import FileStore, Leased, LeasedQuota
from hikebox.retry import state, steps


@pytest.fixture(autouse=True)
def no_lock_is_left() -> Iterator[None]:
    """Renews the lock of all counts: a trace, unlike a signal, may interrupt the end of a `with`."""
    yield
    state._lock.begin_anew()


#: More tickets than are drawn before the test draws the rest.
MANY = 1_000_000


class Interrupt(BaseException):
    """What the handler raises."""


class Fails(Exception):
    """What a call raises."""


def fails() -> Any:
    raise Fails()


#: How many exceptions come through, or in how many seconds at most.
OFTEN, SECONDS = 1000, 30


def is_of_os_stat(error: BaseException) -> bool:
    """Whether Python itself made this of an `Interrupt`, in os.stat or os.fstat.

    These look for signals several times as they make the numbers of their result, and go on after a handler has raised.
    If a second signal comes meanwhile, its handler finds the exception of the first, and the first thing that it calls
    is a SystemError. No other call of the package does this.
    """
    *callers, handler = traceback.extract_tb(error.__traceback__)
    while callers[-1].name == "handler":  # (whose first step a third signal has interrupted)
        callers.pop()
    cause: Optional[BaseException] = error
    while isinstance(cause, SystemError):
        cause = cause.__cause__
    is_stat = re.search(r"\bos\.f?stat\(", callers[-1].line or "") is not None
    return isinstance(cause, Interrupt) and handler.name == "handler" and is_stat


@contextlib.contextmanager
def finalizers_are_interrupted_too() -> Iterator[None]:
    """One that is raised in a finalizer goes no further; pytest would keep it, with its frames, and tell of it."""
    hook, sys.unraisablehook = sys.unraisablehook, lambda unraisable: None
    try:
        yield
    finally:
        sys.unraisablehook = hook


def took(call: Callable[[], Any]) -> float:
    """How many seconds a call takes."""
    began = time.perf_counter()
    call()
    return time.perf_counter() - began


def interrupted(call: Callable[[], Any]) -> None:
    """Calls this again and again, while a timer raises exceptions inside the package: each 0.1 ms, or on a slow machine
    once in the time that a call takes there, so that calls come to their end."""
    interval = max(0.0001, min(took(call) for _ in range(9)))
    package = os.path.dirname(hikebox.__file__)

    def handler(number: int, frame: Any) -> None:
        if frame.f_code.co_filename.startswith(package):
            raise Interrupt()

    came_through, until = 0, time.monotonic() + SECONDS
    before = signal.signal(signal.SIGALRM, handler)
    with finalizers_are_interrupted_too():
        signal.setitimer(signal.ITIMER_REAL, interval, interval)
        try:
            while came_through < OFTEN and time.monotonic() < until:
                try:
                    call()
                except Interrupt:
                    came_through += 1
                except SystemError as error:
                    assert is_of_os_stat(error)
                    came_through += 1
        finally:
            signal.setitimer(signal.ITIMER_REAL, 0)
            signal.signal(signal.SIGALRM, before)
    assert came_through > OFTEN / 10


def retries(budget: Any, **how: Any) -> Callable[[], Any]:
    retrying = Retrying(recurs(2), limit=budget, **how)

    def call() -> None:
        try:
            retrying(fails)
        except Fails:
            pass

    return call


def loops(budget: Any) -> Callable[[], Any]:
    def call() -> None:
        for attempt in Retrying(recurs(2), limit=budget, fallback=lambda state: None):
            with attempt:
                fails()

    return call


def draws(budget: Any) -> Callable[[], Any]:
    def call() -> None:
        kept = [budget.draw() for _ in range(3)]
        kept.clear()

    return call


def hands_back(quota: Any) -> Callable[[], Any]:
    def call() -> None:
        tickets = [quota.draw() for _ in range(3)]
        quota.deposit()
        tickets[1].hand_back()

    return call


def by_another_clock(quota: Any) -> Callable[[], Any]:
    return retries(quota, clock=lambda: time.monotonic())


BUDGETS: Dict[str, Callable[[], Any]] = {
    "budget": lambda: Budget(MANY),
    "rising": lambda: Budget.rising(MANY),
    "quota": lambda: Quota(MANY, 0, 10**6),
}
CALLS: Dict[str, Tuple[Callable[[Any], Callable[[], Any]], str]] = {
    "retries": (retries, "budget rising quota"),
    "loops": (loops, "budget quota"),
    "draws": (draws, "budget rising quota"),
    "tickets that come back": (hands_back, "quota"),
    "another clock": (by_another_clock, "quota"),
}


@pytest.mark.parametrize("call, kind", [(call, kind) for call, (_, kinds) in CALLS.items() for kind in kinds.split()])
def test_nothing_is_lost(call: str, kind: str) -> None:
    budget: Any = BUDGETS[kind]()
    interrupted(CALLS[call][0](budget))
    gc.collect()
    granted = budget.granted
    # what is left is drawn; each ticket was drawn once then, and the number of all is exact
    rest = 0
    while budget.draw():
        rest += 1
    assert granted + rest == MANY == budget.granted == budget.close()


class Waits:
    """Something to await that waits once."""

    def __await__(self) -> Any:
        yield


async def fails_later() -> Any:
    raise Fails()


def interrupted_at(step: int, run: Callable[[], Any]) -> bool:
    """Runs this, and raises an exception at so many steps inside the package: whether there were as many."""
    package = os.path.dirname(hikebox.__file__)
    left = [step]

    def trace(frame: Any, event: str, _: Any) -> Any:
        if not frame.f_code.co_filename.startswith(package):
            return None
        if event == "line":
            left[0] -= 1
            if left[0] == 0:
                raise Interrupt()
        return trace

    before = sys.gettrace()
    with finalizers_are_interrupted_too():
        sys.settrace(trace)
        try:
            run()
        except Interrupt:
            pass
        finally:
            sys.settrace(before)
    return left[0] <= 0


def test_a_machine_serves_one_retry_at_a_time_whatever_step_is_interrupted(monkeypatch: Any) -> None:
    monkeypatch.setattr(steps, "is_crowded", lambda: True)
    retrying = AsyncRetrying(recurs(2) & spaced(0.001), sleep=lambda seconds: Waits())

    def run() -> None:
        coroutine = retrying(fails_later)
        try:
            while True:
                coroutine.send(None)
        except Fails:
            pass

    for step in range(1, 10_000):
        reached = interrupted_at(step, run)
        gc.collect()
        pool = machines.idle
        assert len({id(machine) for machine in pool}) == len(pool), step
        assert not any(machine.handle.held for machine in pool), step
        if not reached:
            break
    assert step > 200
    run()


def test_a_handle_of_a_limit_serves_one_call_at_a_time_whatever_step_is_interrupted() -> None:
    # Of 10 tokens the failure takes one, and the success after it gives one back.
    bucket = Bucket(10, debit=1, credit=1)
    retrying = Retrying(recurs(0), limit=bucket)

    def run() -> None:
        retrying(int)
        with contextlib.suppress(Fails):
            retrying(fails)
        retrying(int)

    for step in range(1, 10_000):
        reached = interrupted_at(step, run)
        assert len(set(map(id, bucket.idle))) == len(bucket.idle), step
        if not reached:
            break
    assert step > 100
    bucket.begin_anew()
    run()
    assert len(bucket.idle) == 1 and bucket.seen().level == 10


def test_the_engines_retry_of_a_machine_that_is_lost_is_freed() -> None:
    freed: List[Any] = []

    class Watched(machines.Machine):
        def __del__(self, *how: Any) -> None:
            super().__del__(*how)
            freed.append(self.handle.held)

    machine = Watched()
    machine.begin_unlimited(recurs(1).plan)
    assert machine.handle.held
    del machine
    assert freed == [None]


def test_a_machine_that_was_interrupted_as_it_was_made_goes_without_a_word() -> None:
    made = machines.Machine.__new__(machines.Machine)
    made.__del__()
    made.handle = machines.Machine().handle
    made.__del__()


@pytest.mark.parametrize("kind", ["budget", "quota"])
def test_a_close_that_is_interrupted_can_be_made_again(kind: str) -> None:
    closed: List[int] = []

    def call() -> None:
        budget: Any = BUDGETS[kind]()
        tickets = [budget.draw() for _ in range(5)]
        closed.append(-1)
        while closed[-1] < 0:
            try:
                closed[-1] = budget.close()
            except Interrupt:
                pass
        tickets.clear()

    interrupted(call)
    assert set(closed) <= {-1, 5} and closed.count(5) > 100


def open_files() -> int:
    return len(os.listdir("/proc/self/fd"))


#: (a `with` of an earlier Python may leave its lock held where a signal handler raises)
RELEASES = pytest.mark.skipif(
    sys.version_info < (3, 11), reason="with statements release their lock from Python 3.11 on"
)


@RELEASES
@pytest.mark.parametrize("lease", [1, 20])
def test_leases_go_on_and_no_ticket_is_drawn_twice(lease: int, tmp_path: Path) -> None:
    budget = Leased(FileStore(tmp_path / "counts"), "a", MANY, lease=lease, per=10**6)
    drawn: List[int] = []

    def call() -> None:
        ticket = budget.draw()
        assert ticket
        drawn.append(ticket.number)

    before = open_files()
    interrupted(call)
    gc.collect()
    assert open_files() <= before
    call()
    assert len(drawn) == len(set(drawn)) <= budget.granted
    # and for others: no lock is left behind
    other = Leased(FileStore(tmp_path / "counts", patience=20), "a", MANY, lease=lease, per=10**6)
    ticket = other.draw()
    assert ticket and ticket.number not in drawn


def test_a_system_error_is_told_from_that_of_os_stat() -> None:
    def handler(*_: Any) -> None:
        try:
            raise Interrupt
        except Interrupt as error:
            raise SystemError("a call returned a result with an exception set") from error

    def raised(call: Callable[[], Any]) -> bool:
        with pytest.raises(SystemError) as caught:
            call()
        return is_of_os_stat(caught.value)

    os_stat = {"os": type("os", (), {"stat": staticmethod(handler)})}
    linecache.cache["<of os.stat>"] = (16, None, ["os.stat('/')\n"], "<of os.stat>")
    assert raised(lambda: exec(compile("os.stat('/')", "<of os.stat>", "exec"), os_stat))
    assert not raised(lambda: handler())


@RELEASES
def test_leased_tickets_come_back_once(tmp_path: Path) -> None:
    quota = LeasedQuota(FileStore(tmp_path / "counts"), "a", MANY, 1, 10**6, lease=5)
    out: Set[int] = set()

    def call() -> None:
        for keeps in (True, False, False):
            ticket = quota.draw()
            quota.deposit()
            assert ticket and ticket.number not in out
            if keeps:
                out.add(ticket.number)
            else:
                ticket.hand_back()

    interrupted(call)
    interrupted(retries(quota))
    gc.collect()
    for _ in range(100):
        call()
    assert len(out) <= quota.granted
