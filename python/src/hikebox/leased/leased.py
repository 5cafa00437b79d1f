"""Budgets and quotas that draw from leases of a store."""

from __future__ import annotations

import threading
from typing import Callable, Optional

from .._engine.leasing import Grant
from .._time import Duration, seconds_text
from ..budgets.terms import CountsRequests, Terms, count_of, duration_of, requests_of, terms_of, tickets_of
from ..errors import StoreError, TermsError
from ..quota import Usage
from .leases import Leases
from .machine import uptime
from .stores import QuotaRange, QuotaStore, Range, Store, checked_store

__all__ = ["Leased", "LeasedQuota"]


class Leased(Leases):
    """A budget that all processes with the same store and name share. Threads may share it too.

    `limit`
        The most tickets over all processes: in all, or with `per` in each window.
    `per`
        The length of a window: seconds, or a `timedelta`.
    `lease`
        How many tickets a process leases at a time. It asks the store once for that many draws, and loses at most that
        many when it ends. The default is a sixty-fourth of the limit, from 1 to 1000.
    `spare`
        How many tickets this process may draw beyond the limit while the store can't be reached: in all, or with `per`
        in each window.
    `again_after`
        How many seconds to wait before asking a store again that could not be reached; and without `per` also one that
        had no ticket left, since the budget may begin anew.
    """

    def __init__(
        self,
        store: Store,
        name: str,
        limit: int,
        *,
        per: Optional[Duration] = None,
        lease: Optional[int] = None,
        spare: int = 0,
        again_after: float = 1.0,
        clock: Callable[[], float] = uptime,
    ) -> None:
        millis = None if per is None else duration_of("per", per)
        if millis == 0:
            raise TermsError(f"expected a window of at least a millisecond, got {per!r}")
        self.store = checked_store(store, "take")
        self.limit = count_of("limit", limit, 0, 2**52 - 1)
        self.lease = _checked_lease(lease) or max(1, min(1000, limit // 64))
        super().__init__(name, millis, spare, again_after, clock)

    def _take(self) -> Range:
        return self.store.take(self.name, self.lease, self.limit, self.millis, self.clock)

    def __repr__(self) -> str:
        per = "" if self.millis is None else f", per={seconds_text(self.millis)}"
        return f"Leased({self.store!r}, {self.name!r}, limit={self.limit}{per}, lease={self.lease})"


class LeasedQuota(Leases, CountsRequests):
    """A quota that all processes with the same store and name share. Threads may share it too.

    `reserve`, `share`, `per`
        The same as for a `Quota`, over all processes: in each window of the store's clock they draw at most the reserve
        and the share of the requests that they reported in it.
    `lease`
        The most tickets that a process leases at a time. It asks the store once for that many draws, and loses at most
        that many when it ends. The default is a sixty-fourth of what the window allows, from 1 to 1000.
    `counts_successes`, `returns_tickets`
        The same as for a `Quota`. A ticket that comes back, also from a retry that ended while it waited, is drawn
        again by this process while its window lasts. The store does not learn of it.
    `spare`
        How many tickets this process may draw beyond the quota in each window, while the store can't be reached.
    `again_after`
        How many seconds to wait before asking a store again that could not be reached, or that had no ticket left,
        unless the requests since then are worth a lease.

    A process counts its requests, and reports those of the present window when it asks for a lease or calls `seen`. So
    a process whose calls all succeed never asks the store.
    """

    def __init__(
        self,
        store: QuotaStore,
        name: str,
        reserve: int,
        share: float,
        per: Duration,
        *,
        lease: Optional[int] = None,
        spare: int = 0,
        again_after: float = 1.0,
        counts_successes: bool = False,
        returns_tickets: bool = False,
        clock: Callable[[], float] = uptime,
    ) -> None:
        self.terms: Terms = terms_of(reserve, share, per)
        self.store = checked_store(store, "take_of_quota")
        self.lease = _checked_lease(lease)
        self._counts_successes = counts_successes
        self._returns_tickets = returns_tickets
        super().__init__(name, self.terms.period, spare, again_after, clock)

    TAKES_BACK = True

    def begin_anew(self) -> None:
        super().begin_anew()
        self._terms_lock = threading.RLock()
        #: How many tickets are leased next.
        self._next = self._lease_of(self.terms.reserve)
        #: Whether the store had no ticket left when it was asked last, and by which terms it was asked.
        self._spent = False
        self._asked_by = self.terms

    def set_terms(self, reserve: Optional[int] = None, share: Optional[float] = None) -> None:
        """Sets the reserve and the share that this process sends to the store, from its next lease on. Each process
        sets its own. A window gives at most what the most generous terms sent in it allow."""
        with self._terms_lock:
            self.terms = self.terms.changed(reserve, share)
        self._may_ask_again()

    def deposit(self, requests: int = 1) -> None:
        """Counts a request, or several at once for an expensive one. Calls that are retried under the quota count
        themselves. This does not ask the store."""
        self.leased.deposit(self.moments.now(), requests_of(requests))

    def seen(self) -> Usage:
        """Reports the requests counted since the store was asked last, and returns the store's use of the present
        window. If the store can't be reached, it raises a `StoreError`. `lost` says that the store may have lost its
        count of the window, and grants nothing until the next one.

        A process whose calls seldom fail can call this now and then, so that others draw on the share of its requests.
        """
        with self.lock:
            if self.is_asking:
                raise StoreError("the store is being asked by the code that a signal interrupted")
            try:
                self.is_asking = True
                found = self._asked(self.terms, 0)
            finally:
                self.is_asking = False
            # (requests are counted apart before and after the end of the window)
            self.leased.granted(Grant(found.window, 0, 0, self.moments.of(found.until)))
        self._may_ask_again()
        given = found.first + found.tickets
        left = 0 if found.lost else max(0, self.terms.allowed(found.asked) - given)
        return Usage(found.window, found.asked, given, left, found.lost, found.until)

    def _may_ask_again(self) -> None:
        self._spent = False
        self.leased.leave_alone(0)

    def _take(self) -> Range:
        self._spent, terms = False, self.terms
        found = self._asked(terms, self._next)
        self._next = self._lease_of(terms.allowed(found.asked))
        self._asked_by = terms
        return Range(found.first, found.tickets, found.until, found.window, found.lost)

    def _granted_none(self, found: Range) -> None:
        if self._asked_by is not self.terms:  # they were set meanwhile
            self._may_ask_again()
            return
        self._spent = True
        if self.terms.share:  # others may tell their requests
            self.leave_alone(found.until)

    def _asked(self, terms: Terms, count: int) -> QuotaRange:
        return self.store.take_of_quota(self.name, terms, count, self._told, self.clock)

    def _told(self, began: float) -> int:
        """The requests that were counted since the window began."""
        return self.leased.tell(self.moments.after(began))

    def _is_worth_asking(self) -> bool:
        return self._spent and self.leased.seen().untold * self.terms.share >= self._next * 1000

    def _lease_of(self, allowed: int) -> int:
        return self.lease or max(1, min(1000, allowed // 64))

    def __repr__(self) -> str:
        lease = "" if self.lease is None else f", lease={self.lease}"
        return f"LeasedQuota({self.store!r}, {self.name!r}, {self.terms}{lease}{self.switches()})"


def _checked_lease(lease: Optional[int]) -> Optional[int]:
    """How many tickets are leased at a time, where that is said: or a `TermsError`."""
    if lease == 0:
        raise TermsError("expected a lease of 1 to 2**32 tickets, got 0")
    return None if lease is None else tickets_of(lease, "tickets as the lease", "a lease of 1 to 2**32 tickets")
