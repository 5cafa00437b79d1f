"""Leases: why there is no ticket, tickets that come back, threads that don't wait, forks, and requests by windows."""

from __future__ import annotations

import asyncio
import itertools
import json
import logging
import os
import shutil
import signal
import sys
import threading
import time
from pathlib import Path
from typing import Any, Callable, List, Optional

import pytest

from draws import number
from processes import in_a_forked_child
import hikebox
from hikebox import (
    AsyncRetrying,
    Ending,
    Refusal,
    RefusalReason,
    Retrying,
    StoreError,
    StoreLost,
    Ticket,
    TicketError,
    recurs,
    state_of,
)
from hikebox.leased import FileStore, Leased, LeasedQuota, QuotaRange, Range
from hikebox.leased.stores import present_window
from hikebox.budgets.terms import Terms

#: A window that no test sees the end of.
LONG = 1_000_000.0


def refusal(drawn: Any) -> Any:
    assert isinstance(drawn, Refusal) and not drawn
    return drawn.reason, drawn.again_at


class Counting:
    """A store in memory, with windows of its own clock, that can fail, and can be slow."""

    def __init__(self, clock: Callable[[], float]) -> None:
        self.clock = clock
        self.given = 0
        self.asked = 0
        self.window = 0
        self.calls = 0
        self.error: Optional[StoreError] = None
        self.lost = False
        #: What a call waits for, and what it sets before.
        self.may_answer: Any = None
        self.was_asked = threading.Event()

    def _comes(self, period: Optional[int]) -> float:
        self.calls += 1
        if self.may_answer is not None:
            self.was_asked.set()
            assert self.may_answer.wait(60)
        if self.error is not None:
            raise self.error
        if period is None:
            return 0.0
        window = int(self.clock() * 1000) // period
        if window != self.window:
            self.window, self.given, self.asked = window, 0, 0
        return (window + 1) * period / 1000

    def take(self, name: str, count: int, limit: int, period: Optional[int], clock: Any) -> Range:
        until = self._comes(period)
        first, tickets = self.given, max(0, min(count, limit - self.given))
        self.given += tickets
        return Range(first, tickets, None if period is None else until, self.window)

    def take_of_quota(self, name: str, terms: Terms, count: int, asked: Any, clock: Any) -> QuotaRange:
        until = self._comes(terms.period)
        if self.lost:
            return QuotaRange(0, 0, until, self.window, 0, lost=True)
        self.asked += asked(until - terms.period / 1000)
        first, tickets = self.given, max(0, min(count, terms.allowed(self.asked) - self.given))
        self.given += tickets
        return QuotaRange(first, tickets, until, self.window, self.asked)


class Clock:
    def __init__(self) -> None:
        self.now = 0.0

    def __call__(self) -> float:
        return self.now


@pytest.fixture
def now() -> Clock:
    return Clock()


# Why there is none


def test_why_a_budget_has_none(now: Clock) -> None:
    store = Counting(now)
    budget = Leased(store, "a", 1, clock=now)
    assert budget.draw()
    assert refusal(budget.draw()) == (RefusalReason.USED_UP, None)
    by_windows = Leased(store, "b", 1, per=10, clock=now)
    store.given = 0
    now.now = 12.0
    assert repr(by_windows.draw()) == "<Ticket 0 of window 1>"
    assert refusal(by_windows.draw()) == (RefusalReason.USED_UP, 20.0)
    now.now = 19.999
    assert not by_windows.draw() and store.calls == 4
    now.now = 20.0
    assert number(by_windows.draw()) == 0


def test_why_a_quota_has_none(now: Clock) -> None:
    store = Counting(now)
    quota = LeasedQuota(store, "a", 1, 0, 10, clock=now)
    assert quota.draw()
    assert refusal(quota.draw()) == (RefusalReason.USED_UP, 10.0)
    # with a share others may tell the store of requests
    quota = LeasedQuota(store, "a", 1, 0.5, 10, clock=now, again_after=2)
    assert refusal(quota.draw()) == (RefusalReason.USED_UP, 2.0)
    now.now = 9.0
    assert refusal(quota.draw()) == (RefusalReason.USED_UP, 10.0)
    usage = quota.seen()
    assert (usage.window, usage.next) == (0, 10.0)
    store.lost = True
    assert refusal(quota.draw()) == (RefusalReason.LOST, 10.0)
    store.lost, now.now = False, 10.0
    assert quota.draw() and quota.seen().next == 20.0


def test_why_there_is_none_where_the_store_fails(now: Clock) -> None:
    store = Counting(now)
    store.error = StoreError("gone")
    budget, quota = Leased(store, "a", 9, clock=now), LeasedQuota(store, "a", 9, 1, 10, clock=now, again_after=3)
    for leased, again_at in ((budget, 1.0), (quota, 3.0)):
        drawn: Any = leased.draw()
        assert refusal(drawn) == (RefusalReason.UNREACHABLE, again_at) and drawn.error is store.error
        assert repr(drawn) == f"<Refusal: the store can't be reached until {again_at:.3f}>"
    now.now = 4.0
    store.error = StoreLost("no count")
    drawn = budget.draw()
    assert refusal(drawn) == (RefusalReason.LOST, 5.0) and drawn.error is store.error
    now.now = 5.0
    store.error = None
    assert budget.draw() and quota.draw()
    quota.set_terms(reserve=0)
    store.given = 9
    drawn = LeasedQuota(store, "a", 9, 1, 10, clock=now).draw()
    assert refusal(drawn) == (RefusalReason.USED_UP, 6.0) and drawn.error is None


def test_a_damaged_file_is_told(tmp_path: Path) -> None:
    store = FileStore(tmp_path / "counts")
    quota = LeasedQuota(store, "a", 9, 1, LONG, lease=1)
    assert quota.draw()
    (slot,) = (tmp_path / "counts").glob("*/*")
    slot.write_bytes(b"")
    drawn: Any = quota.draw()
    assert drawn.reason is RefusalReason.LOST and "expected the slot of" in str(drawn.error)


@pytest.mark.parametrize("awaits", [False, True])
def test_a_retry_says_why_it_got_no_ticket(awaits: bool, now: Clock, caplog: Any) -> None:
    def fails() -> Any:
        raise KeyError()

    async def fails_later() -> Any:
        raise KeyError()

    store = Counting(now)
    quota = LeasedQuota(store, "a", 1, 0, 10, clock=now)
    for reason, error, retries in (("used up", None, 1), ("the store can't be reached", StoreError("gone"), 0)):
        store.error = error
        with pytest.raises(KeyError) as caught:
            if awaits:
                asyncio.run(AsyncRetrying(recurs(9), limit=quota)(fails_later))
            else:
                Retrying(recurs(9), limit=quota)(fails)
        state = state_of(caught.value)
        assert state is not None and state.refusal is not None
        assert (state.ending, state.granted) == (Ending.LIMIT_REFUSED, retries)
        assert (state.refusal.reason.value, state.refusal.error) == (reason, error)
        assert f"the limit refused a retry ({reason})" in caplog.records[-1].getMessage()
        now.now += 10


def test_a_budget_that_is_used_up_is_asked_for_again_since_it_may_begin_anew(now: Clock) -> None:
    store = Counting(now)
    budget = Leased(store, "a", 2, lease=2, again_after=3, clock=now)
    for night in range(3):
        assert [number(budget.draw()) for _ in range(3)] == [0, 1, None]
        asked = store.calls
        # once every three seconds, however often it is drawn
        for _ in range(40):
            now.now += 0.25
            assert refusal(budget.draw()) == (RefusalReason.USED_UP, None)
        assert store.calls - asked == 3
        store.given = 0
        now.now += 3
    assert budget.granted == 6


def test_a_budget_whose_slot_was_deleted_begins_anew_in_a_process_that_used_it_up(tmp_path: Path, now: Clock) -> None:
    budget = Leased(FileStore(tmp_path / "counts"), "nightly", 2, clock=now)
    assert [number(budget.draw()) for _ in range(3)] == [0, 1, None]
    (slot,) = (tmp_path / "counts").glob("*/*")
    slot.unlink()
    assert not budget.draw()
    now.now = 1.0
    assert [number(budget.draw()) for _ in range(3)] == [0, 1, None]


# Tickets that come back


def test_a_leased_ticket_comes_back_once_and_in_its_window(now: Clock) -> None:
    quota = LeasedQuota(Counting(now), "a", 3, 0, 10, lease=3, clock=now)
    first, second, third = [quota.draw() for _ in range(3)]
    assert first and second and third and not quota.draw()
    second.hand_back()
    with pytest.raises(TicketError, match="which was handed back"):
        second.hand_back()
    assert quota.granted == 2
    again = quota.draw()
    assert number(again) == 1 and not quota.draw()
    # the ticket that was handed back is not the one that was drawn again
    with pytest.raises(TicketError):
        second.hand_back()
    assert quota.granted == 3 and not quota.draw()
    now.now = 10.0
    # its window is over, so nobody draws it again
    first.hand_back()
    assert quota.granted == 2
    later = [quota.draw() for _ in range(4)]
    assert [(number(ticket), ticket.window) for ticket in later if ticket] == [(0, 1), (1, 1), (2, 1)]
    # one of the window before does not give the same number of this one back
    third.hand_back()
    assert quota.granted == 5 and not quota.draw()


def test_a_budgets_leased_tickets_do_not_come_back(now: Clock) -> None:
    budget = Leased(Counting(now), "a", 3, clock=now)
    ticket = budget.draw()
    assert ticket
    with pytest.raises(TicketError, match="expected a ticket of a quota"):
        ticket.hand_back()
    assert budget.granted == 1


def test_tickets_without_the_store_come_back_to_what_is_spared(now: Clock) -> None:
    store = Counting(now)
    store.error = StoreError("gone")
    quota = LeasedQuota(store, "a", 9, 1, 10, spare=2, clock=now)
    first, second = quota.draw(), quota.draw()
    assert first and second and (first.number, first.window, second.number) == (-1, None, -2) and not quota.draw()
    first.hand_back()
    assert [number(quota.draw()) for _ in range(2)] == [-1, None]
    now.now = 10.0
    second.hand_back()
    assert [number(quota.draw()) for _ in range(3)] == [-1, -2, None]
    assert quota.granted == 3


def test_a_ticket_of_the_process_before_a_fork_does_not_come_back(tmp_path: Path) -> None:
    quota = LeasedQuota(FileStore(tmp_path / "counts"), "a", 2, 0, LONG, lease=2)
    ticket: Any = quota.draw()

    def begins_anew() -> None:
        with pytest.raises(TicketError, match="before the fork"):
            ticket.hand_back()
        assert quota.granted == 0 and not quota.draw()

    in_a_forked_child(begins_anew)
    ticket.hand_back()
    assert [number(quota.draw()) for _ in range(3)] == [0, 1, None]


class Forks:
    """Forks at one step of the package, as the handler of a signal may."""

    def __init__(self, step: int) -> None:
        self.step = step
        self.child: Optional[int] = None

    def __call__(self, frame: Any, event: str, _: Any) -> Any:
        if not frame.f_code.co_filename.startswith(os.path.dirname(hikebox.__file__)):
            return None
        if event == "line":
            self.step -= 1
            if self.step == 0:
                self.child = os.fork()
        return self


def drawn_by_parent_and_child(quota: LeasedQuota, step: int, draws: int) -> Optional[List[List[Optional[int]]]]:
    """The tickets that both draw, of which the first is that of the draw in which the process forks: None where that
    draw has fewer steps."""
    forks = Forks(step)
    read, write = os.pipe()
    sys.settrace(forks)
    try:
        first = quota.draw()
    finally:
        sys.settrace(None)
        if forks.child == 0:
            drawn = [number(each) for each in [first, *(quota.draw() for _ in range(draws))]]
            os.write(write, json.dumps(drawn).encode())
            os._exit(0)
    os.close(write)
    with open(read) as file:
        said = file.read()
    if forks.child is None:
        return None
    assert os.waitstatus_to_exitcode(os.waitpid(forks.child, 0)[1]) == 0
    return [[number(first), *(number(quota.draw()) for _ in range(draws))], json.loads(said)]


def test_a_child_that_is_forked_at_any_step_of_a_draw_has_no_lease_of_its_parents(tmp_path: Path) -> None:
    ticks = itertools.count()
    for step in range(1, 10_000):
        # (by a clock that goes on at each look, as where the machine is busy)
        store = FileStore(tmp_path / str(step), patience=60)
        quota = LeasedQuota(store, "a", 100, 0, LONG, lease=8, clock=lambda: next(ticks) / 1000)
        both = drawn_by_parent_and_child(quota, step, 9)
        if both is None:
            break
        parents, childs = both
        if parents[0] == childs[0]:  # it was drawn, and the call was returning it
            childs = childs[1:]
        assert None not in parents + childs
        assert len({*parents, *childs}) == len(parents + childs), (step, both)
    assert step > 100


# Threads


def test_nobody_waits_for_the_store_who_has_a_ticket_at_hand(now: Clock) -> None:
    store = Counting(now)
    quota = LeasedQuota(store, "a", 4, 1, 10, lease=2, clock=now)
    first, second = quota.draw(), quota.draw()
    assert first and second
    store.may_answer = threading.Event()
    drawn: List[Any] = []
    asking = threading.Thread(target=lambda: drawn.append(quota.draw()))
    asking.start()
    assert store.was_asked.wait(60)
    # the other thread waits for the store, and none of this does
    first.hand_back()
    assert number(quota.draw()) == 0
    second.hand_back()

    async def draw() -> Any:
        return await quota.draw_async()

    assert number(asyncio.run(draw())) == 1
    quota.deposit(3)
    quota.set_terms(reserve=5)
    assert quota.granted == 2
    assert asking.is_alive()
    store.may_answer.set()
    asking.join()
    assert number(drawn[0]) == 2 and quota.granted == 3
    # the requests that were counted meanwhile, and the terms that were set, count from the next lease on
    assert [number(quota.draw()) for _ in range(6)] == [3, 4, 5, 6, 7, None]


@pytest.mark.parametrize("is_drawn", [False, True], ids=["while it asks", "once it has drawn"])
def test_a_coroutine_that_is_cancelled_in_a_draw_gives_its_ticket_back(is_drawn: bool, now: Clock) -> None:
    store = Counting(now)
    quota = LeasedQuota(store, "a", 3, 0, LONG, lease=3, clock=now)
    retrying = AsyncRetrying(recurs(3), limit=quota)
    store.may_answer = threading.Event()

    async def fails() -> None:
        raise KeyError()

    async def main() -> None:
        task = asyncio.ensure_future(retrying(fails))
        while not store.was_asked.is_set():
            await asyncio.sleep(0.001)
        if is_drawn:
            store.may_answer.set()
            while quota.granted == 0:
                time.sleep(0.001)  # so that the coroutine does not hear of it
        task.cancel()
        with pytest.raises(asyncio.CancelledError):
            await task
        store.may_answer.set()

    asyncio.run(main())  # which waits for its threads
    assert quota.granted == 0
    assert [number(quota.draw()) for _ in range(4)] == [0, 1, 2, None]


@pytest.mark.parametrize("asks", ["draw", "seen"])
def test_a_signals_handler_that_draws_while_its_thread_asks_the_store(asks: str, now: Clock) -> None:
    store = Counting(now)
    quota = LeasedQuota(store, "a", 4, 0, 10, lease=2, clock=now)
    found: List[Any] = []

    turns = itertools.count()

    def handler(number: int, frame: Any) -> None:
        if next(turns) == 0:
            drawn = refusal(quota.draw())
            with pytest.raises(StoreError, match="is being asked"):
                quota.seen()
            found.append(drawn)

    def signals() -> None:
        # again and again: one that comes just before the thread waits does not interrupt it
        while store.was_asked.wait(60) and not found:
            os.kill(os.getpid(), signal.SIGUSR1)
            time.sleep(0.01)
        # (not by the handler, which may have interrupted the thread where it holds the event's own lock)
        store.may_answer.set()

    before = signal.signal(signal.SIGUSR1, handler)
    signalling = threading.Thread(target=signals)
    try:
        store.may_answer = threading.Event()
        signalling.start()
        getattr(quota, asks)()
    finally:
        store.may_answer.set()
        signalling.join()
        signal.signal(signal.SIGUSR1, before)
    assert found == [(RefusalReason.UNREACHABLE, None)]
    assert [number(quota.draw()) for _ in range(4)] == ([1, 2, 3, None] if asks == "draw" else [0, 1, 2, 3])
    assert not quota.is_asking


@pytest.mark.parametrize("fails", ["with an error", "by a loss"])
def test_a_handler_of_the_log_that_draws(fails: str, now: Clock) -> None:
    store = Counting(now)
    store.lost, store.error = fails == "by a loss", None if fails == "by a loss" else StoreError("away")
    quota = LeasedQuota(store, "a", 4, 0, 10, clock=now)
    found: List[Any] = []

    class Handler(logging.Handler):
        def emit(self, record: Any) -> None:
            found.append(quota.draw())

    handler = Handler()
    logging.getLogger("hikebox").addHandler(handler)
    try:
        assert not quota.draw()
    finally:
        logging.getLogger("hikebox").removeHandler(handler)
    assert [number(each) for each in found] == [None] and store.calls == 1


def test_a_thread_that_waits_for_the_log_keeps_no_other_from_drawing(now: Clock) -> None:
    store = Counting(now)
    store.error = StoreError("away")
    quota = LeasedQuota(store, "a", 4, 0, 10, clock=now)

    class Handler(logging.Handler):
        def emit(self, record: Any) -> None:
            pass

    handler = Handler()
    logging.getLogger("hikebox").addHandler(handler)
    threads = [threading.Thread(target=quota.draw) for _ in range(2)]
    try:
        handler.acquire()  # (as where it handles something on this thread)
        try:
            threads[0].start()
            until = time.monotonic() + 60
            while store.calls == 0:
                assert time.monotonic() < until
                time.sleep(0.001)
            threads[1].start()
            threads[1].join(60)
            assert not threads[1].is_alive()
        finally:
            handler.release()
            for thread in threads:
                if thread.ident is not None:
                    thread.join()
    finally:
        logging.getLogger("hikebox").removeHandler(handler)


def test_terms_that_are_set_while_the_store_says_that_there_is_none(now: Clock) -> None:
    store = Counting(now)
    quota = LeasedQuota(store, "a", 0, 0, 10, lease=1, clock=now)
    store.may_answer = threading.Event()
    drawn: List[Any] = []
    asking = threading.Thread(target=lambda: drawn.append(quota.draw()))
    asking.start()
    assert store.was_asked.wait(60)
    quota.set_terms(reserve=1)
    store.may_answer.set()
    asking.join()
    assert drawn[0] or quota.draw()


@pytest.mark.parametrize("lease", [1, 7])
def test_8_threads_that_draw_and_hand_back(lease: int, tmp_path: Path) -> None:
    quota = LeasedQuota(FileStore(tmp_path / "counts"), "a", 2000, 0, LONG, lease=lease)
    kept: List[Ticket] = []

    def work() -> None:
        for turn in range(400):
            ticket = quota.draw()
            assert ticket
            if turn % 2:
                ticket.hand_back()
            else:
                kept.append(ticket)

    threads = [threading.Thread(target=work) for _ in range(8)]
    for thread in threads:
        thread.start()
    for thread in threads:
        thread.join()
    numbers = [ticket.number for ticket in kept]
    assert len(numbers) == 1600 == len(set(numbers)) == quota.granted
    rest = []
    while True:
        ticket = quota.draw()
        if not ticket:
            break
        rest.append(ticket.number)
    assert sorted(numbers + rest) == list(range(2000))


# Windows, and leases that are over


class Distant(Counting):
    """A store that tells its time so many seconds after it was asked, and answers as many later."""

    trip = 0.0002

    def _goes(self) -> None:
        assert isinstance(self.clock, Clock)
        self.clock.now += self.trip

    def _comes(self, period: Optional[int]) -> float:
        before = self.clock()
        self._goes()
        super()._comes(period)
        present = present_window(period or 1, before, round(self.clock() * 1e9), self.clock())
        self._goes()
        return present.until


@pytest.mark.parametrize("trip", [0.0, 0.00011, 0.00042])
@pytest.mark.parametrize("origin", [0.0, 0.0003, 0.0009])
@pytest.mark.parametrize("kind", ["budget", "quota"])
def test_a_draw_just_before_a_window_ends_waits_for_the_next(
    kind: str, origin: float, trip: float, now: Clock, monkeypatch: Any
) -> None:
    def sleep(seconds: float) -> None:
        assert 0 <= seconds <= 2 * trip + 1e-6
        now.now += seconds

    monkeypatch.setattr(time, "sleep", sleep)
    now.now = origin
    store = Distant(now)
    store.trip = trip
    drawn = Leased(store, "a", 10**9, per=1, lease=1, clock=now)
    if kind == "quota":
        drawn = LeasedQuota(store, "a", 2**32, 0, 1, lease=1, clock=now)  # type: ignore[assignment]
    for window in range(1, 41):
        # 50 microseconds to 2 milliseconds before its end
        before_end = window * 50e-6
        now.now = window + 1 - before_end
        asked = store.calls
        ticket: Any = drawn.draw()
        assert ticket, (before_end, ticket)
        # (it can't tell the end closer than within the time that the question took to the store)
        assert ticket.window == (window if before_end > 3 * trip else window + 1)
        assert store.calls - asked <= (1 if ticket.window == window else 2)
        assert window < now() < window + 1 + 4 * trip + 1e-5


@pytest.mark.parametrize("origin", [0.0, 0.0005, 0.00099])
def test_windows_of_a_millisecond(origin: float, now: Clock, monkeypatch: Any) -> None:
    def sleep(seconds: float) -> None:
        now.now += seconds

    monkeypatch.setattr(time, "sleep", sleep)
    now.now = origin
    budget = Leased(Distant(now), "a", 10**9, per=0.001, lease=1, clock=now)
    assert all(budget.draw() for _ in range(200))


def test_a_store_slower_than_its_windows_is_left_alone(now: Clock, monkeypatch: Any) -> None:
    slept: List[float] = []
    monkeypatch.setattr(time, "sleep", slept.append)
    store = Distant(now)
    store.trip = 2.5
    budget = Leased(store, "a", 9, per=1, clock=now)
    assert refusal(budget.draw()) == (RefusalReason.USED_UP, now() + 1) and store.calls == 3
    assert all(0 <= each <= 5 for each in slept)
    assert not budget.draw() and store.calls == 3


def test_a_store_whose_clock_was_set_back_is_left_alone(now: Clock, monkeypatch: Any) -> None:
    slept: List[float] = []
    monkeypatch.setattr(time, "sleep", slept.append)
    ago = [0.0]
    store = Counting(lambda: now() - ago[0])
    budget = Leased(store, "a", 9, per=10, lease=1, clock=now)
    now.now = 100.0
    assert number(budget.draw()) == 0
    ago[0] = 50.0
    assert refusal(budget.draw()) == (RefusalReason.USED_UP, 101.0) and store.calls == 4
    assert not budget.draw() and store.calls == 4 and set(slept) == {0.0}
    # once its windows are later ones again, it goes on
    ago[0], now.now = 0.0, 110.0
    assert repr(budget.draw()) == "<Ticket 0 of window 11>"


def test_another_thread_may_draw_what_this_one_leased_again_and_again(now: Clock, monkeypatch: Any) -> None:
    store = Counting(now)
    budget = Leased(store, "a", 10**9, lease=1, clock=now)
    leases_one, others = budget._lease, iter(range(5))

    def leases_one_for_another() -> bool:
        answer = leases_one()
        if next(others, None) is not None:
            assert not isinstance(budget.leased.draw(budget.moments.now()), int)
        return answer

    monkeypatch.setattr(budget, "_lease", leases_one_for_another)
    assert number(budget.draw()) == 5 and store.calls == 6


def test_leases_and_windows_that_are_over_take_no_memory(now: Clock) -> None:
    import resource

    def used() -> int:
        return int(Path("/proc/self/statm").read_text().split()[1]) * resource.getpagesize()

    store = Counting(now)
    quota = LeasedQuota(store, "a", 10**6, 1, 1, lease=1, clock=now)
    budget = Leased(Counting(now), "a", 10**9, lease=1, clock=now)

    def turns() -> None:
        for _ in range(5000):
            now.now += 0.25
            quota.deposit()
            assert quota.draw() and budget.draw()

    turns()
    before = used()
    for _ in range(3):
        turns()
    assert used() - before < 2**20
    assert quota.granted == 20_000 == budget.granted


def test_requests_count_in_the_window_in_which_they_were_made(now: Clock) -> None:
    store = Counting(now)
    quota = LeasedQuota(store, "a", 0, 1, 16, clock=now, again_after=0.001)
    assert quota.seen().asked == 0
    now.now = 15.9
    quota.deposit(5)
    now.now = 16.0
    quota.deposit(2)
    # the five were told to no window: theirs is over
    assert quota.seen().asked == 2
    now.now = 31.5
    quota.deposit(3)
    assert quota.seen().asked == 5
    quota.deposit(4)
    now.now = 32.0
    assert quota.seen().asked == 0


def test_a_deleted_folder_begins_anew_and_what_was_leased_goes_on(tmp_path: Path, caplog: Any) -> None:
    quota = LeasedQuota(FileStore(tmp_path / "counts"), "a", 6, 0, LONG, lease=3)
    held = [quota.draw(), quota.draw()]
    shutil.rmtree(tmp_path / "counts")
    assert [number(quota.draw()) for _ in range(8)] == [2, 0, 1, 2, 3, 4, 5, None]
    assert [record.getMessage() for record in caplog.records] == ["a: the store began anew"]
    assert quota.granted == 9
    for ticket in held:
        assert ticket
        ticket.hand_back()
    assert not quota.draw() and quota.granted == 7


def test_a_clock_that_goes_back_and_leaps(now: Clock) -> None:
    store = Counting(lambda: 5.0)
    quota = LeasedQuota(store, "a", 6, 0, 10, lease=2, clock=now)
    for leap in (0.0, -1e6, 3.0, -5.0, 1.0, 2.0):
        now.now = leap
        assert number(quota.draw()) is not None
    now.now = 1e9
    assert not quota.draw()


def test_a_thread_that_waited_takes_what_another_one_leased(now: Clock) -> None:
    store = Counting(now)
    quota = LeasedQuota(store, "a", 100, 0, 10, lease=50, clock=now)
    store.may_answer = threading.Event()
    drawn: List[Any] = []
    threads = [threading.Thread(target=lambda: drawn.append(quota.draw())) for _ in range(8)]
    for thread in threads:
        thread.start()
    assert store.was_asked.wait(60)
    time.sleep(0.1)
    store.may_answer.set()
    for thread in threads:
        thread.join()
    assert sorted(ticket.number for ticket in drawn) == list(range(8)) and store.calls == 1
