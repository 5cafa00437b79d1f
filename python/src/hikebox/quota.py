"""Quotas: the most retries that all threads of a process are granted in each window of time."""

from __future__ import annotations

import time
from ctypes import c_uint64
from functools import partial
from typing import Callable, Optional, Union

from ._engine.calls import OK, refused
from ._engine.handles import ONE, Pass, pass_deposit
from ._time import MAX_NUMBER, Duration, moment
from ._values import dataclass, field
from .budgets.drawing import ByPass, Drawing
from .budgets.granting import Granting
from .budgets.passes import Passes
from .budgets.terms import CountsRequests, Terms, requests_of, terms_of
from .budgets.tickets import Refusal, RefusalReason, Ticket, checked_ticket
from .errors import EngineError

__all__ = ["Quota", "Usage"]

#: The engine's number of a ticket is its window times this, and its number there.
WINDOW = 2**32


@dataclass(frozen=True)
class Usage:
    """The use of a window of a quota."""

    #: The number of the window. Window 0 is the one in which the quota was made; a `LeasedQuota` counts windows by its
    #: store's clock.
    window: int
    #: The requests counted in it.
    asked: int
    #: The tickets drawn from it, without those handed back. For a `LeasedQuota` those count too. For a quota that
    #: carries, its own tickets alone.
    given: int
    #: The tickets that can still be drawn for the requests counted so far, with what is left of those carried to it.
    left: int
    #: For a `LeasedQuota`: whether the store may have lost its count of the window, so that it grants nothing of it.
    lost: bool = False
    #: When the next window begins, in seconds by the quota's clock. If that is more than `per` away, this window was
    #: opened by a call whose clock was ahead, or by the requests past the 4,294,967,296 of the window before.
    #: Comparisons leave it out.
    next: Optional[float] = field(default=None, compare=False)


class Quota(Granting, CountsRequests):
    """Limits the retries of a service: each window of time grants a reserve, and a share of the requests made in it.

    `reserve`
        The retries per window regardless of traffic.
    `share`
        The retries that each request adds to its window: 0.2 is one for every five requests. It is counted in
        thousandths.
    `per`
        The length of a window: seconds, or a `timedelta`. Without `carries`, nothing carries over to the next window.
    `counts_successes`
        Counts a call as a request when it succeeds, and not at its first attempt, as gRPC's throttling does. A peer
        that is down then adds no share, so the quota shrinks to its reserve.
    `returns_tickets`
        A call that succeeds after retries hands back the ticket of the last one, as in AWS's SDKs. A repeat hands back
        none.
    `carries`
        Each window may also draw, once, what the window before left of its share, but none of its reserve. This is for
        attempts that fail just after a border. A window then has at most 2**31 tickets of its own, and leaves at most
        as many.
    `clock`
        What returns the time in seconds, to be replaced in tests. Windows begin at multiples of `per` by it, and a time
        before 0 counts as 0.

    A retry that is cancelled or stopped while it waits hands its ticket back: one more can be drawn in that ticket's
    window, and `granted` is one less. A retry draws its ticket when its attempt fails and begins after its delay, maybe
    in a later window, so more retries can begin in a window than it granted. Each call that is retried counts as one
    request, at its first attempt:

    >>> from hikebox import recurs, retry
    >>> quota = Quota(reserve=10, share=0.2, per=3600)
    >>> @retry(recurs(3), limit=quota)
    ... def fetch():
    ...     return "fetched"
    >>> [fetch() for _ in range(5)][-1], quota.seen().left
    ('fetched', 11)

    Threads may share it and draw at once. `close()` returns the exact number of tickets drawn and not handed back, and
    leaving its `with` block closes it too; a service that runs until it is stopped need not close it. A quota belongs
    to its process: a forked child begins with a quota of its own and nothing counted. `hikebox.leased` has quotas that
    processes share.
    """

    __slots__ = ("_in_force", "_clock", "_counts_successes", "_returns_tickets", "_carries")

    reads_clock = True

    def __init__(
        self,
        reserve: int,
        share: float,
        per: Duration,
        *,
        counts_successes: bool = False,
        returns_tickets: bool = False,
        carries: bool = False,
        clock: Callable[[], float] = time.monotonic,
    ) -> None:
        if not callable(clock):
            raise TypeError(f"clock: expected a function, got {clock!r}")
        self._in_force = _InForce(terms_of(reserve, share, per))
        self._counts_successes = counts_successes
        self._returns_tickets = returns_tickets
        self._carries = carries
        self._clock = clock
        self.begin_with("quota", partial(_first_pass, clock, self._in_force, carries))

    @property
    def terms(self) -> Terms:
        """Its terms as of now, in the engine's units: retries, thousandths and milliseconds."""
        return self._in_force.terms

    @property
    def reserve(self) -> int:
        """The retries per window regardless of traffic."""
        return self.terms.reserve

    @property
    def share(self) -> float:
        """The retries that each request adds to its window."""
        return self.terms.share / 1000

    @property
    def per(self) -> float:
        """The length of a window in seconds."""
        return self.terms.period / 1000

    @property
    def carries(self) -> bool:
        """Whether each window may draw, once, what the one before left of its share."""
        return self._carries

    @property
    def clock(self) -> Callable[[], float]:
        """What returns the time in seconds."""
        return self._clock

    def set_terms(self, reserve: Optional[int] = None, share: Optional[float] = None) -> None:
        """Sets the reserve and the share, as when a service reloads its configuration. Each draw follows them from now
        on, in the present window too. What you leave out stays, and so do windows and the tickets they have given.

        >>> quota = Quota(reserve=1, share=0, per=3600)
        >>> bool(quota.draw()), bool(quota.draw())
        (True, False)
        >>> quota.set_terms(reserve=2)
        >>> bool(quota.draw()), quota.seen().left, quota
        (True, 0, <Quota(2, 0, per=3600)>)
        """
        with self.passes.root() as root:
            terms = self.terms.changed(reserve, share)
            root.set_terms(terms.reserve, terms.share)
            self._in_force.terms = terms

    def deposit(self, requests: int = 1) -> None:
        """Counts a request in the present window, or several at once for an expensive one. Calls that are retried under
        the quota count themselves."""
        if requests != 1:
            self._deposit_all(requests_of(requests))
            return
        passes = self.passes
        try:
            lent = passes.idle.pop()
        except IndexError:
            lent = passes.lend()
        try:
            lent.now.value = moment(self._clock())
            status = pass_deposit(lent.at, lent.now, ONE)
        finally:
            lent.home.append(lent)
        if status != OK:
            if not passes.look_again(lent):
                raise refused("hikebox_pass_deposit", status)
            self.deposit()

    def _deposit_all(self, requests: int) -> None:
        """Counts so many requests, by the pass that counts any number."""
        now = moment(self._clock())
        with self.passes.root() as root:
            root.deposit(now, c_uint64(requests))

    def draw(self) -> Union[Ticket, Refusal]:
        """Returns a `Ticket`, or a `Refusal`, which is false, if the present window has none left. The next window may
        have one, and so may this one after more requests. A window's tickets are numbered from 0. Tickets carried to it
        are drawn first, and are the last ones of the window before.

        >>> quota = Quota(reserve=1, share=0.5, per=3600)
        >>> ticket = quota.draw()
        >>> ticket
        <Ticket 0 of window 0>
        >>> if not quota.draw():
        ...     quota.deposit(2)
        >>> quota.draw()
        <Ticket 1 of window 0>
        """
        passes = self.passes
        drawn = self._drawn_with(passes, moment(self._clock()))
        # (the clock, or the handler of a signal, may have forked meanwhile: in the child it is the parent's)
        return self.draw() if drawn is None or passes is not self.passes else drawn

    def _drawn_with(self, passes: Passes, now: int) -> Union[Ticket, Refusal, None]:
        """What a draw returns, or None where it is made again."""
        number = None
        lent = passes.lend()
        try:
            number = lent.draw(now)
            if number is None:
                return _refusal(lent.seen(now)[-1])
            ticket = Ticket(number % WINDOW, number // WINDOW, self)
            ticket.may_come_back_to(passes.keep(lent, ticket))
            return ticket
        except EngineError:
            if not passes.look_again(lent):
                raise
            return None
        finally:
            if number is None:
                passes.give_back(lent)

    def hand_back(self, ticket: Ticket) -> None:
        """Hands back a ticket that you drew and did not use: one more can be drawn in its window, unless it was carried
        from the one before, and `granted` is one less. A second time it raises a `TicketError`. `ticket.hand_back()` is
        the same. Retries under the quota do it by themselves.

        >>> quota = Quota(reserve=1, share=0, per=3600)
        >>> ticket = quota.draw()
        >>> quota.hand_back(ticket)
        >>> bool(quota.draw()), quota.granted
        (True, 1)
        >>> ticket.hand_back()
        Traceback (most recent call last):
        ...
        hikebox.errors.TicketError: expected a ticket that is out, got <Ticket 0 of window 0>, which was handed back
        """
        self.passes.look_open()
        self.passes.drop(checked_ticket(ticket).comes_back(self))

    def seen(self) -> Usage:
        """Returns the use of the present window: its requests, its tickets given and left, and when the next begins."""
        now = moment(self._clock())
        with self.passes.root() as root:
            window, asked, given, left, after = root.seen(now)
        return Usage(window, asked, given, left, next=after / 1000)

    def expression(self) -> str:
        return f"Quota({self.terms}{self.switches()}{', carries=True' * self._carries})"

    def retry_drawing(self, awaits: bool) -> Drawing:
        """Returns what draws for a retry with another clock."""
        return ByPass(self, lambda: moment(self._clock()))


class _InForce:
    """The terms of a quota as of now."""

    __slots__ = ("terms",)

    def __init__(self, terms: Terms) -> None:
        self.terms = terms


def _refusal(next_window: int) -> Refusal:
    return Refusal(RefusalReason.USED_UP, None if next_window == MAX_NUMBER else next_window / 1000)


def _first_pass(clock: Callable[[], float], in_force: _InForce, carries: bool) -> Pass:
    return Pass.of_quota(moment(clock()), *in_force.terms, carries)
