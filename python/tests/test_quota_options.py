"""Quotas: several requests at once, terms that are changed, tickets that come back, requests counted at success, and
shares that are carried."""

from __future__ import annotations

import asyncio
import gc
import threading
from pathlib import Path
from typing import Any, Callable, List

import pytest

from draws import engines_number
from processes import in_a_forked_child
from hikebox import (
    AsyncRetrying,
    Budget,
    LimitClosed,
    LimitInUse,
    Ending,
    Quota,
    RefusalReason,
    Repeating,
    Retrying,
    TermsError,
    TicketError,
    Usage,
    recurs,
    spaced,
)
from hikebox.leased import FileStore, LeasedQuota
from hikebox.testing import VirtualClock

WINDOW = 2**32

#: A window that no test sees the end of.
LONG = 1_000_000.0


def number(drawn: Any) -> Any:
    """The number of a ticket as the engine has it; of a leased one as it is in its window."""
    return drawn.number if drawn and drawn.window is None else engines_number(drawn)


def answers_of(*answers: Any) -> Callable[[], Any]:
    """A call that gives these answers one after another, and raises those that are exceptions."""
    left = list(answers)

    def call() -> Any:
        answer = left.pop(0)
        if isinstance(answer, BaseException):
            raise answer
        return answer

    return call


def later(call: Callable[[], Any]) -> Any:
    """The same as a coroutine function."""

    async def call_later() -> Any:
        return call()

    return call_later


def fails() -> Any:
    raise KeyError()


def made(kind: str, folder: Path, reserve: int, share: float, clock: VirtualClock, **how: Any) -> Any:
    """A quota of a clock: of the process, by another clock than the retry's, or leased."""
    if kind == "leased":
        return LeasedQuota(FileStore(folder / "counts"), "a", reserve, share, LONG, lease=2, **how)
    return Quota(reserve, share, LONG, clock=VirtualClock(7) if kind == "other clock" else clock, **how)


KINDS = pytest.mark.parametrize("kind", ["quota", "other clock", "leased"])


# Several requests at once


@KINDS
def test_several_requests_are_counted_at_once(kind: str, tmp_path: Path, clock: VirtualClock) -> None:
    quota = made(kind, tmp_path, 0, 0.5, clock)
    quota.deposit(5)
    quota.deposit()
    quota.deposit(0)
    usage = quota.seen()
    assert (usage.asked, usage.left) == (6, 3)
    assert [number(quota.draw()) for _ in range(4)] == [0, 1, 2, None]
    for wrong in (-1, 2**32 + 1):
        with pytest.raises(TermsError, match=f"expected 0 to 4294967296 requests at once, got {wrong}"):
            quota.deposit(wrong)
    for other in (1.5, "2", None):
        with pytest.raises(TypeError, match="expected a whole number of requests"):
            quota.deposit(other)
    assert quota.seen().asked == 6


def test_requests_past_what_a_window_counts_open_the_next_one(clock: VirtualClock) -> None:
    quota = Quota(1, 1, 10, clock=clock)
    assert number(quota.draw()) == 0
    quota.deposit(2**32)
    quota.deposit(2)
    assert quota.seen() == Usage(window=1, asked=2, given=0, left=3) and quota.seen().next == 20


# Terms


def test_terms_that_are_changed_count_for_the_next_draw(clock: VirtualClock) -> None:
    quota = Quota(2, 0, 10, clock=clock)
    quota.deposit(10)
    assert [number(quota.draw()) for _ in range(3)] == [0, 1, None]
    quota.set_terms(share=0.25)
    assert quota.seen() == Usage(window=0, asked=10, given=2, left=2)
    assert [number(quota.draw()) for _ in range(3)] == [2, 3, None]
    quota.set_terms(1, 0)
    # what was given stays given, and there is no more
    assert quota.seen() == Usage(window=0, asked=10, given=4, left=0)
    assert not quota.draw()
    clock.advance(10)
    assert [number(quota.draw()) for _ in range(2)] == [WINDOW, None]
    quota.set_terms(reserve=3)
    assert (quota.terms, quota.reserve, quota.share, quota.per) == ((3, 0, 10_000), 3, 0.0, 10.0)
    assert repr(quota) == "<Quota(3, 0, per=10)>"
    assert quota.close() == 5
    with pytest.raises(LimitClosed):
        quota.set_terms(reserve=4)


SHARE_WANTED = "expected a share of 0, or from 0.001 to 1000 retries a request (0.2 is one for every five)"


def test_terms_that_are_refused_change_nothing(clock: VirtualClock) -> None:
    quota = Quota(2, 0.5, 10, clock=clock)
    for reserve, share, text in (
        (2**32 + 1, None, "expected a reserve from 0 to 4294967296 retries a window, got 4294967297"),
        (9, 1000.5, f"{SHARE_WANTED}, got 1000.5"),
        (9, 0.0001, f"{SHARE_WANTED}, got 0.0001"),
    ):
        with pytest.raises(TermsError) as caught:
            quota.set_terms(reserve, share)
        assert str(caught.value) == text
    with pytest.raises(TypeError):
        quota.set_terms(reserve=1.0)  # type: ignore[arg-type]
    assert quota.terms == (2, 500, 10_000)
    assert [number(quota.draw()) for _ in range(3)] == [0, 1, None]


def test_terms_are_changed_under_threads_that_draw(clock: VirtualClock) -> None:
    quota = Quota(100, 0, 60, clock=clock)
    drawn: List[int] = []

    def work() -> None:
        for _ in range(2000):
            if quota.draw():
                drawn.append(1)

    threads = [threading.Thread(target=work) for _ in range(4)]
    for thread in threads:
        thread.start()
    for reserve in range(100, 1001, 100):
        quota.set_terms(reserve=reserve)
    for thread in threads:
        thread.join()
    while quota.draw():
        drawn.append(0)
    assert len(drawn) == 1000 == quota.close()


def test_a_forked_child_has_the_terms_in_force() -> None:
    quota = Quota(1, 0, LONG)
    quota.set_terms(reserve=3)

    def has_them() -> None:
        assert (quota.seen().left, quota.terms.reserve) == (3, 3)

    in_a_forked_child(has_them)


@KINDS
def test_a_forked_child_hands_none_of_its_parents_tickets_back(kind: str, tmp_path: Path, clock: VirtualClock) -> None:
    quota = made(kind, tmp_path, 1, 0, clock)
    attempts = iter(Retrying(recurs(3), limit=quota, clock=clock))
    with next(attempts):
        raise KeyError()

    def begins_anew() -> None:
        nonlocal attempts
        attempts = iter(())
        gc.collect()
        # of a quota of the process the child has its own, and a lease is of the store's
        found: Any = ([number(quota.draw()), number(quota.draw())], quota.granted)
        own: Any = ([0, None], 1)
        assert found == (([None, None], 0) if kind == "leased" else own)

    in_a_forked_child(begins_anew)
    attempts = iter(())
    gc.collect()
    assert quota.granted == 0 and bool(quota.draw())


def test_terms_of_leases(tmp_path: Path) -> None:
    store = FileStore(tmp_path / "counts")
    first, second = (LeasedQuota(store, "a", 2, 0, LONG, lease=1) for _ in range(2))
    assert [number(each.draw()) for each in (first, second, first, second)] == [0, 1, None, None]
    first.set_terms(reserve=3)
    # a window gives what the most generous terms that were named in it allow
    assert (number(second.draw()), number(first.draw()), number(first.draw())) == (None, 2, None)
    first.deposit(4)
    first.set_terms(share=0.5)
    assert [number(first.draw()) for _ in range(3)] == [3, 4, None]
    with pytest.raises(TermsError):
        first.set_terms(reserve=-1)
    assert first.terms == (3, 500, 1_000_000_000)


# Tickets that come back


@KINDS
def test_a_ticket_that_is_handed_back_is_drawn_again(kind: str, tmp_path: Path, clock: VirtualClock) -> None:
    quota = made(kind, tmp_path, 2, 0, clock)
    first, second, none = [quota.draw() for _ in range(3)]
    assert (bool(first), bool(second), bool(none)) == (True, True, False)
    second.hand_back()
    assert quota.granted == 1
    again = quota.draw()
    assert again and not quota.draw()
    assert quota.granted == 2
    # in any order, by the ticket or by the quota
    quota.hand_back(first)
    again.hand_back()
    assert quota.granted == 0
    assert [bool(quota.draw()) for _ in range(3)] == [True, True, False]


@KINDS
def test_a_ticket_is_handed_back_once_and_by_its_quota_alone(kind: str, tmp_path: Path, clock: VirtualClock) -> None:
    quota, other = made(kind, tmp_path, 3, 0, clock), made(kind, tmp_path / "other", 3, 0, clock)
    ticket = quota.draw()
    with pytest.raises(TicketError, match="expected a ticket of .*, got one of .*"):
        other.hand_back(ticket)
    ticket.hand_back()
    for again in (ticket.hand_back, lambda: quota.hand_back(ticket)):
        with pytest.raises(TicketError, match="expected a ticket that is out, got <Ticket 0.*>, which was handed back"):
            again()
    # a later one with the same number is not its own
    later = quota.draw()
    with pytest.raises(ValueError):
        ticket.hand_back()
    assert quota.granted == 1
    later.hand_back()
    assert [bool(quota.draw()) for _ in range(4)] == [True, True, True, False]
    with pytest.raises(AttributeError):
        quota.draw().hand_back()
    for wrong in (0, None, quota.draw()):
        with pytest.raises(TypeError, match="expected a Ticket, got "):
            quota.hand_back(wrong)


@KINDS
def test_a_ticket_that_a_retry_used_does_not_come_back(kind: str, tmp_path: Path, clock: VirtualClock) -> None:
    quota = made(kind, tmp_path, 2, 0, clock)
    ticket = quota.draw()
    with pytest.raises(KeyError):
        Retrying(recurs(1), limit=quota, clock=clock)(fails)
    assert quota.granted == 2
    ticket.hand_back()
    assert quota.granted == 1
    with pytest.raises(TicketError):
        ticket.hand_back()
    assert [bool(quota.draw()) for _ in range(2)] == [True, False]


@KINDS
def test_threads_hand_one_ticket_back_once(kind: str, tmp_path: Path, clock: VirtualClock) -> None:
    quota = made(kind, tmp_path, 8, 0, clock)
    for _ in range(200):
        tickets = [quota.draw() for _ in range(3)]
        refused: List[int] = []
        ready = threading.Barrier(4)

        def work() -> None:
            ready.wait()
            for ticket in tickets:
                try:
                    ticket.hand_back()
                except TicketError:
                    refused.append(1)

        threads = [threading.Thread(target=work) for _ in range(4)]
        for thread in threads:
            thread.start()
        for thread in threads:
            thread.join()
        assert len(refused) == 9 and quota.granted == 0


def test_a_ticket_of_the_process_before_a_fork_does_not_come_back(clock: VirtualClock) -> None:
    quota = Quota(2, 0, LONG, clock=clock)
    ticket: Any = quota.draw()

    def begins_anew() -> None:
        with pytest.raises(TicketError, match="before the fork"):
            ticket.hand_back()
        assert quota.granted == 0

    in_a_forked_child(begins_anew)
    ticket.hand_back()
    assert quota.close() == 0


def test_tickets_of_a_quota_that_was_closed(clock: VirtualClock) -> None:
    quota = Quota(5, 0, LONG, clock=clock)
    ticket = quota.draw()
    assert ticket and quota.close() == 1
    with pytest.raises(LimitClosed):
        ticket.hand_back()
    with pytest.raises(LimitClosed):
        quota.draw()


def test_tickets(clock: VirtualClock) -> None:
    budget, quota = Budget(1), Quota(1, 0, 10, clock=clock)
    clock.advance(30)
    drawn: Any = budget.draw()
    assert bool(drawn) and (drawn.number, drawn.window, repr(drawn)) == (0, None, "<Ticket 0>")
    with pytest.raises(TicketError, match="expected a ticket of a quota, got <Ticket 0> of a budget"):
        drawn.hand_back()
    with pytest.raises(TicketError):
        budget.hand_back(drawn)
    drawn = quota.draw()
    assert bool(drawn) and (drawn.number, drawn.window, repr(drawn)) == (0, 3, "<Ticket 0 of window 3>")
    refused: Any = budget.draw()
    assert not refused and (refused.reason, refused.again_at) == (RefusalReason.USED_UP, None)
    assert repr(refused) == "<Refusal: used up>"
    refused = quota.draw()
    assert not refused and (refused.reason, refused.again_at, refused.error) == (RefusalReason.USED_UP, 40.0, None)
    assert repr(refused) == "<Refusal: used up until 40.000>"


def test_many_tickets_at_once(clock: VirtualClock) -> None:
    quota = Quota(20_000, 0, LONG, clock=clock)
    tickets = [quota.draw() for _ in range(20_000)]
    assert not quota.draw() and quota.granted == 20_000
    for ticket in tickets[::2]:
        assert ticket
        ticket.hand_back()
    assert quota.granted == 10_000
    del tickets, ticket
    again = [quota.draw() for _ in range(10_001)]
    assert sum(map(bool, again)) == 10_000
    assert quota.close() == 20_000


def test_a_ticket_of_a_window_that_is_over_comes_back_for_nothing(clock: VirtualClock) -> None:
    quota = Quota(1, 0, 10, clock=clock)
    ticket = quota.draw()
    assert ticket and number(ticket) == 0
    clock.advance(10)
    ticket.hand_back()
    assert quota.granted == 0
    assert [number(quota.draw()) for _ in range(2)] == [WINDOW, None]
    assert quota.close() == 1


def test_a_leased_ticket_of_a_window_that_is_over_is_not_drawn_again(tmp_path: Path) -> None:
    clock = VirtualClock()
    quota = LeasedQuota(FileStore(tmp_path / "counts"), "a", 2, 0, LONG, lease=2, clock=clock)
    first, second = quota.draw(), quota.draw()
    assert first and second and (first.number, second.number) == (0, 1)
    second.hand_back()
    clock.advance(2 * LONG)
    # (the store goes by the machine's clock, and has none left in its window)
    assert not quota.draw() and quota.granted == 1


def waits_are_broken_off(_: float) -> None:
    raise KeyboardInterrupt


def broken_off(quota: Any, clock: VirtualClock) -> Any:
    """A call that is interrupted while it waits for its second retry."""
    slept: List[float] = []

    def sleep(seconds: float) -> None:
        slept.append(seconds)
        if len(slept) == 2:
            raise KeyboardInterrupt

    with pytest.raises(KeyboardInterrupt):
        Retrying(recurs(9) & spaced(1), limit=quota, clock=clock, sleep=sleep)(fails)


def stopped(quota: Any, clock: VirtualClock) -> None:
    """A call that is stopped while it waits for its second retry."""
    stop = threading.Event()

    def hook(state: Any) -> None:
        if state.attempt_number == 2:
            stop.set()

    how: Any = {"clock": clock, "sleep": clock.sleep, "stop": stop, "fallback": lambda state: state.ending}
    assert Retrying(recurs(9) & spaced(1), limit=quota, before_sleep=hook, **how)(fails) is Ending.STOPPED


def left(quota: Any, clock: VirtualClock) -> None:
    """A loop that is left after its second attempt."""
    for attempt in Retrying(recurs(9) & spaced(1), limit=quota, clock=clock, sleep=clock.sleep):
        with attempt:
            raise KeyError()
        if attempt.number == 2:
            break


def cancelled(quota: Any, clock: VirtualClock) -> None:
    """A coroutine that is cancelled while it waits for its second retry."""
    slept: List[float] = []

    async def sleep(seconds: float) -> None:
        slept.append(seconds)
        await asyncio.sleep(60 if len(slept) == 2 else 0)

    async def main() -> None:
        retrying = AsyncRetrying(recurs(9) & spaced(1), limit=quota, clock=clock, sleep=sleep)
        waiting = asyncio.ensure_future(retrying(later(fails)))
        while len(slept) < 2:
            await asyncio.sleep(0.001)
        waiting.cancel()
        with pytest.raises(asyncio.CancelledError):
            await waiting

    asyncio.run(main())


@KINDS
@pytest.mark.parametrize("ends", [broken_off, stopped, left, cancelled])
def test_a_retry_that_ends_while_it_waits_hands_its_ticket_back(
    ends: Any, kind: str, tmp_path: Path, clock: VirtualClock
) -> None:
    quota = made(kind, tmp_path, 2, 0, clock)
    ends(quota, clock)
    gc.collect()
    # its first retry was made, and its second was not
    assert quota.granted == 1
    assert [bool(quota.draw()) for _ in range(2)] == [True, False]


@KINDS
def test_a_retry_that_ends_in_its_attempt_has_used_its_ticket(kind: str, tmp_path: Path, clock: VirtualClock) -> None:
    quota = made(kind, tmp_path, 5, 0, clock)
    call = answers_of(KeyError(), KeyError(), KeyboardInterrupt())
    with pytest.raises(KeyboardInterrupt):
        Retrying(recurs(9) & spaced(1), limit=quota, clock=clock, sleep=clock.sleep)(call)
    assert quota.granted == 2
    # where the policy is done the tickets were used, and where a ticket was refused there is none to come back
    for retries in (1, 9):
        with pytest.raises(KeyError):
            Retrying(recurs(retries), limit=quota, clock=clock)(fails)
    assert quota.granted == 5 and not quota.draw()


def test_a_retry_that_ends_at_once_where_it_waits_for_nothing(clock: VirtualClock) -> None:
    # the engine has begun its next attempt already, and nobody made it
    quota = Quota(1, 0, LONG, clock=clock)
    with pytest.raises(KeyboardInterrupt):
        broken_off: Any = waits_are_broken_off
        Retrying(recurs(9), limit=quota, clock=clock, before_sleep=broken_off)(fails)
    assert quota.granted == 0 and bool(quota.draw())


def test_a_budgets_tickets_do_not_come_back(clock: VirtualClock) -> None:
    budget = Budget(5)
    for ends in (broken_off, stopped, left, cancelled):
        before = budget.granted
        if before < 4:
            ends(budget, clock)
            gc.collect()
            assert budget.granted == before + 2
    assert budget.close() == 4


# Calls that succeed after retries


def call_by(way: str, policy: Any, call: Callable[[], Any], **how: Any) -> Any:
    if way == "call":
        return Retrying(policy, **how)(call)
    if way == "hooks":
        return Retrying(policy, on_success=lambda state: None, before=lambda state: None, **how)(call)
    if way == "coroutine":
        return asyncio.run(AsyncRetrying(policy, **how)(later(call)))
    for attempt in Retrying(policy, **how):
        with attempt:
            result = call()
    return result


WAYS = pytest.mark.parametrize("way", ["call", "hooks", "coroutine", "loop"])


@WAYS
@KINDS
def test_a_call_that_succeeds_hands_its_last_ticket_back(
    kind: str, way: str, tmp_path: Path, clock: VirtualClock
) -> None:
    quota = made(kind, tmp_path, 3, 0, clock, returns_tickets=True)
    # one retry: it hands its ticket back, again and again
    for _ in range(5):
        assert call_by(way, recurs(5), answers_of(KeyError(), 7), limit=quota, clock=clock) == 7
    assert quota.granted == 0
    # two retries: the last one's ticket comes back, the first one's not
    assert call_by(way, recurs(5), answers_of(KeyError(), KeyError(), 7), limit=quota, clock=clock) == 7
    assert quota.granted == 1
    # one that fails in the end has used its tickets, and one that needs no retry has none
    with pytest.raises(KeyError):
        call_by(way, recurs(1), answers_of(KeyError(), KeyError()), limit=quota, clock=clock)
    assert call_by(way, recurs(1), answers_of(7), limit=quota, clock=clock) == 7
    assert quota.granted == 2
    assert [bool(quota.draw()) for _ in range(2)] == [True, False]


@KINDS
def test_a_call_that_succeeds_keeps_its_tickets_otherwise(kind: str, tmp_path: Path, clock: VirtualClock) -> None:
    quota = made(kind, tmp_path, 3, 0, clock)
    for granted in (1, 2, 3):
        assert call_by("call", recurs(5), answers_of(KeyError(), 7), limit=quota, clock=clock) == 7
        assert quota.granted == granted
    with pytest.raises(KeyError):
        call_by("call", recurs(5), answers_of(KeyError(), 7), limit=quota, clock=clock)


def test_a_repetition_keeps_its_tickets(clock: VirtualClock) -> None:
    quota = Quota(3, 0, LONG, clock=clock, returns_tickets=True)
    assert Repeating(recurs(2), limit=quota, clock=clock)(answers_of(1, 2, 3)) == 3
    assert quota.granted == 2


# Requests counted at success


@WAYS
@KINDS
def test_a_dead_callee_dries_the_quota_out(kind: str, way: str, tmp_path: Path, clock: VirtualClock) -> None:
    quota = made(kind, tmp_path, 1, 1, clock, counts_successes=True)
    for retries in (1, 0, 0):
        call = answers_of(*[KeyError()] * 9)
        with pytest.raises(KeyError) as caught:
            call_by(way, recurs(5), call, limit=quota, clock=clock)
        assert caught.value.retry_state.granted == retries  # type: ignore[attr-defined]
    assert (quota.seen().asked, quota.seen().left) == (0, 0)
    # a call that succeeds gives its share, at once or after a retry
    assert call_by(way, recurs(5), answers_of(7), limit=quota, clock=clock) == 7
    assert (quota.seen().asked, quota.seen().left) == (1, 1)
    assert call_by(way, recurs(5), answers_of(KeyError(), 7), limit=quota, clock=clock) == 7
    assert (quota.seen().asked, quota.seen().left) == (2, 1)


def test_a_result_that_is_refused_is_no_success(clock: VirtualClock) -> None:
    quota = Quota(1, 0.5, LONG, clock=clock, counts_successes=True)
    how: Any = {"on_result": lambda answer: answer != 7, "fallback": lambda state: None, "clock": clock}
    assert Retrying(recurs(0), limit=quota, **how)(answers_of(1)) is None
    assert quota.seen().asked == 0
    assert Retrying(recurs(5), limit=quota, **how)(answers_of(1, 7)) == 7
    assert quota.seen().asked == 1
    # a repetition is one where its last call gave a result
    assert Repeating(recurs(0), limit=quota, clock=clock)(answers_of(1)) == 1
    assert quota.seen().asked == 2
    with pytest.raises(KeyError):
        Repeating(recurs(5), limit=quota, clock=clock)(fails)
    assert quota.seen().asked == 2


def test_a_success_is_given_though_its_quota_was_closed_meanwhile(clock: VirtualClock) -> None:
    quota = Quota(1, 0.5, LONG, clock=clock, counts_successes=True)
    assert Retrying(recurs(5), limit=quota, clock=clock)(quota.close) == 0
    with pytest.raises(LimitClosed):
        Retrying(recurs(5), limit=quota, clock=clock)(fails)


def test_options_are_told_and_stay(tmp_path: Path) -> None:
    quota = Quota(1, 0.5, 10, counts_successes=True, returns_tickets=True, carries=True)
    assert (quota.counts_successes, quota.returns_tickets, quota.carries) == (True, True, True)
    assert repr(quota) == "<Quota(1, 0.5, per=10, counts_successes=True, returns_tickets=True, carries=True)>"
    assert not Quota(1, 0.5, 10).carries
    leased = LeasedQuota(FileStore(tmp_path / "counts"), "a", 1, 0.5, 10, returns_tickets=True)
    assert (leased.counts_successes, leased.returns_tickets) == (False, True)
    assert repr(leased).endswith("'a', 1, 0.5, per=10, returns_tickets=True)")
    for each in (quota, leased):
        for name in ("counts_successes", "returns_tickets"):
            with pytest.raises(AttributeError):
                setattr(each, name, False)
    with pytest.raises(AttributeError):
        quota.carries = False  # type: ignore[misc]
    # a lease does not carry
    wrong: Any = {"carries": True}
    with pytest.raises(TypeError, match="carries"):
        LeasedQuota(FileStore(tmp_path / "counts"), "a", 1, 0.5, 10, **wrong)


def test_retries_of_a_quota_by_another_clock_are_under_way_until_they_end(clock: VirtualClock) -> None:
    quota = Quota(5, 0, LONG, clock=VirtualClock(7))
    attempts = iter(Retrying(recurs(3), limit=quota, clock=clock))
    with next(attempts):
        raise KeyError()
    with pytest.raises(LimitInUse):
        quota.close()
    with next(attempts):
        pass
    assert quota.close() == 1


@pytest.mark.parametrize("kind", ["quota", "leased"])
def test_threads_whose_retries_hand_back_and_draw(kind: str, tmp_path: Path) -> None:
    # each call fails once and succeeds: however many calls there are, a ticket or two for each thread are enough
    quota: Any = Quota(8, 0, LONG, returns_tickets=True)
    if kind == "leased":
        quota = LeasedQuota(FileStore(tmp_path / "counts"), "a", 16, 0, LONG, lease=3, returns_tickets=True)
    won: List[int] = []

    def work() -> None:
        won.append(sum(Retrying(recurs(1), limit=quota)(answers_of(KeyError(), 1)) for _ in range(300)))

    threads = [threading.Thread(target=work) for _ in range(8)]
    for thread in threads:
        thread.start()
    for thread in threads:
        thread.join()
    assert won == [300] * 8 and quota.granted == 0


# Shares that are carried to the next window


def test_what_a_window_leaves_of_its_share_is_drawn_once_in_the_next(clock: VirtualClock) -> None:
    quota = Quota(0, 1, 10, clock=clock, carries=True)
    quota.deposit(5)
    assert [number(quota.draw()) for _ in range(2)] == [0, 1]
    clock.advance(10)
    quota.deposit(2)
    # three of the five, which are drawn first, and the window's own two
    assert quota.seen() == Usage(window=1, asked=2, given=0, left=5)
    assert [number(quota.draw()) for _ in range(3)] == [WINDOW - 3, WINDOW - 2, WINDOW - 1]
    assert quota.seen() == Usage(window=1, asked=2, given=0, left=2)
    assert [number(quota.draw()) for _ in range(3)] == [WINDOW, WINDOW + 1, None]
    clock.advance(10)
    assert quota.seen() == Usage(window=2, asked=0, given=0, left=0)
    assert not quota.draw() and quota.close() == 7


def test_what_was_carried_is_not_carried_on(clock: VirtualClock) -> None:
    quota = Quota(0, 1, 10, clock=clock, carries=True)
    quota.deposit(5)
    clock.advance(10)
    assert number(quota.draw()) == WINDOW - 5
    quota.deposit(2)
    # window 2 has the two requests of window 1, and nothing of the four tickets that were left there of window 0
    clock.advance(10)
    assert [number(quota.draw()) for _ in range(3)] == [2 * WINDOW - 2, 2 * WINDOW - 1, None]
    assert quota.close() == 3


def test_nothing_is_carried_without_the_option_or_past_an_idle_window(clock: VirtualClock) -> None:
    for carries, idle, drawn in ((False, 10, 0), (True, 10, 3), (True, 20, 0)):
        quota = Quota(0, 1, 10, clock=clock, carries=carries)
        quota.deposit(5)
        assert [bool(quota.draw()) for _ in range(2)] == [True, True]
        clock.advance(idle)
        assert sum(bool(quota.draw()) for _ in range(9)) == drawn
        assert quota.close() == 2 + drawn


def test_a_reserve_is_not_carried(clock: VirtualClock) -> None:
    quota = Quota(3, 0.5, 10, clock=clock, carries=True)
    quota.deposit(4)
    assert quota.seen().left == 5
    clock.advance(10)
    assert quota.seen() == Usage(window=1, asked=0, given=0, left=5)
    assert [number(quota.draw()) for _ in range(3)] == [WINDOW - 2, WINDOW - 1, WINDOW]
    # the two of window 1 that are left are of its reserve
    clock.advance(10)
    assert [number(quota.draw()) for _ in range(4)] == [2 * WINDOW, 2 * WINDOW + 1, 2 * WINDOW + 2, None]
    # a window has half of its numbers for its own tickets
    assert Quota(2**32, 0, 10, clock=clock, carries=True).seen().left == 2**31


def test_a_ticket_that_is_handed_back_counts_as_given_for_the_next_window(clock: VirtualClock) -> None:
    quota = Quota(0, 0.5, 10, clock=clock, carries=True)
    quota.deposit(10)
    tickets = [quota.draw() for _ in range(3)]
    assert [number(ticket) for ticket in tickets] == [0, 1, 2] and tickets[0]
    tickets[0].hand_back()
    clock.advance(10)
    ticket = quota.draw()
    assert ticket and number(ticket) == WINDOW - 2
    # one that was carried is given up
    ticket.hand_back()
    assert [number(quota.draw()) for _ in range(2)] == [WINDOW - 1, None]
    assert quota.close() == 3


def test_terms_that_are_changed_before_the_first_draw_of_a_window(clock: VirtualClock) -> None:
    quota = Quota(0, 0.5, 10, clock=clock, carries=True)
    quota.deposit(10)
    clock.advance(10)
    assert quota.seen().left == 5
    quota.set_terms(share=0.2)
    assert (number(quota.draw()), quota.seen().left) == (WINDOW - 2, 1)
    quota.set_terms(share=1)
    assert [number(quota.draw()) for _ in range(2)] == [WINDOW - 1, None]


def test_a_refused_draw_leaves_open_what_is_carried(clock: VirtualClock) -> None:
    quota = Quota(0, 0, 10, clock=clock, carries=True)
    quota.deposit(10)
    clock.advance(10)
    assert not quota.draw()
    quota.set_terms(share=0.3)
    # three of ten: the first draw that gets one has fixed their number
    assert number(quota.draw()) == WINDOW - 3
    quota.set_terms(share=1)
    assert [number(quota.draw()) for _ in range(3)] == [WINDOW - 2, WINDOW - 1, None]
    assert quota.close() == 3


@pytest.mark.parametrize("carries, granted", [(False, 1), (True, 2)])
@pytest.mark.parametrize("by", ["the quota's clock", "another clock"])
def test_a_retry_draws_what_is_carried(by: str, carries: bool, granted: int, clock: VirtualClock) -> None:
    # two requests in window 0, the call and one by hand: its first failure draws there, its second one in window 1
    told_by: Any = clock if by == "the quota's clock" else lambda: clock()
    quota = Quota(0, 1, 10, clock=told_by, carries=carries)
    quota.deposit()
    with pytest.raises(KeyError) as caught:
        Retrying(recurs(9) & spaced(10), limit=quota, clock=clock, sleep=clock.sleep)(fails)
    state: Any = caught.value.retry_state  # type: ignore[attr-defined]
    assert (state.granted, state.ending) == (granted, Ending.LIMIT_REFUSED)
    assert clock.slept == [10.0] * granted and quota.close() == granted


def test_a_forked_child_carries_what_is_its_own(clock: VirtualClock) -> None:
    quota = Quota(0, 1, 10, clock=clock, carries=True)
    quota.deposit(5)

    def begins_anew() -> None:
        quota.deposit(2)
        clock.advance(10)
        assert [bool(quota.draw()) for _ in range(3)] == [True, True, False]

    in_a_forked_child(begins_anew)
    clock.advance(10)
    assert sum(bool(quota.draw()) for _ in range(9)) == 5
