"""Tickets that a process leases from a store, and draws."""

from __future__ import annotations

import contextlib
import logging
import math
import threading
import time
from typing import Any, Awaitable, Callable, ClassVar, List, Optional, Tuple, Union

from .._engine.calls import MAX_TICKETS
from .._engine.leasing import BACKWARDS, HELD_ALREADY, Grant, LeasedPass, LeasedTicket
from .._forks import begins_anew_in_a_child
from .._time import MAX_NUMBER
from ..budgets.drawing import Drawing
from ..budgets.limit import Limit
from ..budgets.terms import tickets_of
from ..budgets.tickets import Refusal, RefusalReason, Ticket, checked_ticket
from ..errors import StoreError, StoreLost, TicketError
from .stores import Range, checked_name, checked_seconds

__all__ = ["Leases", "Moments"]

logger = logging.getLogger("hikebox")

#: How many leases in a row may be over when they come.
_TRIES = 3

#: The engine's moment at which a process begins. Its clock may go back by as many microseconds, 35 years.
_BEGINS = 2**50

#: So many moments a float of seconds may be off: a nanosecond.
_FLOAT_ERROR = 1e-3


class Moments:
    """The engine's moments, which are microseconds here, beside the seconds of a clock."""

    __slots__ = ("_clock", "_origin")

    def __init__(self, clock: Callable[[], float]) -> None:
        self._clock = clock
        self._origin = clock()

    def now(self) -> int:
        """The last whole microsecond that has begun."""
        return self.of(self._clock())

    def of(self, seconds: Optional[float]) -> int:
        """The microsecond that these seconds of the clock are in; the last one for None."""
        if seconds is None:
            return MAX_NUMBER
        return max(0, min(MAX_NUMBER, math.floor((seconds - self._origin) * 1e6 + _FLOAT_ERROR) + _BEGINS))

    def after(self, seconds: Optional[float]) -> int:
        """The first whole microsecond that does not begin before these seconds; the last one for None."""
        if seconds is None:
            return MAX_NUMBER
        return max(0, min(MAX_NUMBER, math.ceil((seconds - self._origin) * 1e6 - _FLOAT_ERROR) + _BEGINS))

    def seconds(self, moment: int) -> Optional[float]:
        """The seconds of the clock at which a moment begins, or None for the last one."""
        return None if moment >= MAX_NUMBER else (moment - _BEGINS) / 1e6 + self._origin


class Leases(Limit):
    """Tickets that all processes with the same store and name share. Threads may share it too."""

    #: Whether a ticket that was not used comes back.
    TAKES_BACK: ClassVar[bool] = False

    def __init__(
        self, name: str, period: Optional[int], spare: int, again_after: float, clock: Callable[[], float]
    ) -> None:
        self.name = checked_name(name)
        #: How many tickets this process may draw while the store can't be reached, in all or in each window.
        self.spare = tickets_of(spare, "tickets to spare", f"0 to {MAX_TICKETS} tickets to spare")
        self.again_after = checked_seconds("again_after", again_after)
        self.clock = clock
        #: The length of a window in milliseconds, or None.
        self.millis = period
        #: How often it began anew, and how often it did so or drew anew.
        self.generation = self._turns = -1
        self.begin_anew()
        begins_anew_in_a_child(self)

    @property
    def per(self) -> Optional[float]:
        """How many seconds a window is long, or None where there are none."""
        return None if self.millis is None else self.millis / 1000

    def begin_anew(self) -> None:
        """Begins with no lease, as in a forked child."""
        self.generation += 1
        self._turns += 1
        #: Who has it asks the store. A signal's handler that draws may interrupt that, on the same thread.
        self.lock = threading.RLock()
        self.is_asking = False
        self.moments = Moments(self.clock)
        #: What was leased, and what is drawn while the store can't be reached, in windows of the process's own.
        self.leased = self._holds_nothing()
        self._spared = self._holds_nothing()
        self._spares = 0
        #: How many seconds later the window of the latest lease is over, where that lease came too late.
        self._waits: Optional[float] = None
        #: What was leased before the store began anew.
        self._past: List[LeasedPass] = []
        #: Why the store grants nothing, where that is not since all is used up; and what it raised.
        self._reason = RefusalReason.USED_UP
        self._error: Optional[StoreError] = None
        #: What is to be logged once the lock is given up: what handles the log may draw too, on any thread.
        self._notes: List[Tuple[Any, ...]] = []

    def _holds_nothing(self) -> LeasedPass:
        return LeasedPass(min(MAX_NUMBER, (self.millis or 0) * 1000))

    def _take(self) -> Range:
        """A range from the store."""
        raise NotImplementedError

    def _granted_none(self, found: Range) -> None:
        """The store has no ticket left. It is left alone until the window ends, or without windows for `again_after`
        seconds, where this does nothing else."""

    def _is_worth_asking(self) -> bool:
        """Whether the store is asked though it was to be left alone."""
        return False

    # Draws

    def draw(self) -> Union[Ticket, Refusal]:
        """A `Ticket` of what was leased, or of a new lease where that is used up: or a `Refusal`, which is false and
        says why there is none. It waits for the store where that is asked.

        The numbers begin at 0, in each window anew; those that are drawn while the store can't be reached are -1, -2
        and so on, and are of no window.
        """
        turns, found = self._turns, self._at_hand()
        if isinstance(found, Ticket):
            return found
        with self.lock:
            drawn = self._drawn_anew(found, turns)
            self._turns += 1
            notes, self._notes = self._notes, []
        for text, *told in notes:
            logger.warning(text, *told, extra={"hikebox_limit": self.name})
        return drawn

    async def draw_async(self) -> Union[Ticket, Refusal]:
        """The same for a coroutine: under asyncio it waits for the store on another thread."""
        found = self._at_hand()
        if isinstance(found, Ticket):
            return found
        if not self.is_asking and not self._may_ask(found):
            return self.draw()
        import asyncio

        try:
            loop = asyncio.get_running_loop()
        except RuntimeError:  # a coroutine of another library
            return self.draw()
        return await _Elsewhere(self).drawn(loop)

    def hand_back(self, ticket: Ticket) -> None:
        """Hands a ticket back that was drawn by hand, and not used: this process may draw it again while its window
        lasts, and `granted` is one less then. That can be done once, else it is a `TicketError`. `ticket.hand_back()`
        does the same."""
        if not self.TAKES_BACK:
            raise TicketError(f"expected a ticket of a quota, got {ticket!r} of a budget, which does not come back")
        generation, drawn_of, drawn = checked_ticket(ticket).comes_back(self)
        if generation != self.generation:
            raise TicketError("expected a ticket of this process, got one of the quota before the fork")
        drawn_of.hand_back(drawn)

    def retry_drawing(self, awaits: bool) -> Drawing:
        """What draws for a retry."""
        return ByLease(self, awaits)

    @property
    def granted(self) -> int:
        """How many tickets this process drew, and not handed back."""
        return sum(each.seen().drawn for each in (*self._past, self.leased, self._spared))

    def __reduce__(self) -> Any:
        raise TypeError(f"each process makes its own {type(self).__name__}, of the same store and name")

    def _at_hand(self) -> Union[Ticket, int]:
        """A ticket of what was leased, or the moment from which on the store may be asked."""
        generation, leased = self.generation, self.leased
        found = self._ticket(leased, leased.draw(self.moments.now()))
        # (a signal's handler may have forked meanwhile: in the child it is the parent's)
        return found if generation == self.generation else self._at_hand()

    def _ticket(self, drawn_of: LeasedPass, found: Union[LeasedTicket, int]) -> Union[Ticket, int]:
        if isinstance(found, int):
            return found
        if drawn_of is self._spared:
            ticket = Ticket(-1 - found.number, None, self)
        else:
            ticket = Ticket(found.number, None if self.millis is None else found.window, self)
        ticket.may_come_back_to((self.generation, drawn_of, found))
        return ticket

    def _may_ask(self, moment: int) -> bool:
        """Whether the store may be asked now, which is to be left alone until this moment."""
        return moment <= self.moments.now() or self._is_worth_asking()

    def _drawn_anew(self, found: Union[Ticket, int], turns: Optional[int]) -> Union[Ticket, Refusal]:
        """A ticket: what another thread leased meanwhile, or of a new lease, or one without the store. `found` is what
        was at hand after so many turns."""
        late = 0
        while late < _TRIES:
            generation = self.generation
            if turns != self._turns:
                found = self._at_hand()
            if isinstance(found, Ticket):
                return found
            if self.is_asking:  # this thread is, and was interrupted
                return Refusal(RefusalReason.UNREACHABLE)
            may_ask, turns = self._may_ask(found), None
            if generation != self.generation:  # a signal's handler forked meanwhile: in the child it is the parent's
                continue
            if not may_ask or not self._lease():
                break
            if self._waits is not None:
                late += 1
                time.sleep(self._waits)
        else:
            self.leave_alone()
        found = self._at_hand()
        if isinstance(found, Ticket):
            return found
        # (a budget without windows is asked again too, since it may begin anew, but promises nothing)
        is_over = self.millis is None and self._reason is RefusalReason.USED_UP
        again_at = None if is_over else self.moments.seconds(found)
        return self._spare_one() or Refusal(self._reason, again_at, self._error)

    def leave_alone(self, until: Optional[float] = None) -> None:
        """The store is not asked for `again_after` seconds, or until this moment where that is before."""
        again = self.moments.of(self.clock() + self.again_after)
        self.leased.leave_alone(min(again, self.moments.after(until)))

    def _lease(self) -> bool:
        """Asks the store for a range: whether to draw again. Where it granted none it is left alone for a while."""
        generation, leased, began = self.generation, self.leased, self.clock()
        try:
            self.is_asking = True
            found = self._take()
        except StoreError as error:
            return generation != self.generation or self._failed(error)
        finally:
            self.is_asking = False
        if generation != self.generation:  # a signal's handler forked meanwhile: in the child it is the parent's
            return True
        grant = Grant(found.window, found.first, found.tickets, self.moments.of(found.until))
        status = leased.granted(grant)
        if status == HELD_ALREADY:
            self._begin_leases_anew(grant, generation)
        self._waits = None
        if status == BACKWARDS:  # the store's clock was set back
            self._waits = 0.0
        elif found.until is not None and grant.until <= self.moments.now():
            # the store told its time after `began`, so that its window is over by then
            self._waits = max(0.0, found.until - began)
        self._answered(found)
        return found.tickets > 0

    def _answered(self, found: Range) -> None:
        """The store answered: it is left alone for a while, where it has no ticket."""
        was_lost = self._reason is RefusalReason.LOST
        self._reason = RefusalReason.LOST if found.lost else RefusalReason.USED_UP
        self._error = None
        if not found.tickets:
            if found.until is None:  # it may begin anew
                self.leave_alone()
            else:  # (tickets end with the microsecond before the window's end, and others may be had in the one after)
                self.leased.leave_alone(self.moments.after(found.until))
            self._granted_none(found)
        if found.lost and not was_lost:
            self._notes.append(
                ("%s: the store may have lost its count of this window, and grants nothing of it", self.name)
            )

    def _failed(self, error: StoreError) -> bool:
        """The store failed: there is no reason to draw again."""
        is_told = self._error is not None
        self._reason = RefusalReason.LOST if isinstance(error, StoreLost) else RefusalReason.UNREACHABLE
        self._error = error.with_traceback(None)
        self.leave_alone()
        if not is_told:
            self._notes.append(("%s: %s; it grants nothing until it can be reached", self.name, error))
        return False

    def _begin_leases_anew(self, grant: Grant, generation: int) -> None:
        """The store granted what it had granted before, so it began anew, as where its folder was deleted."""
        leased = self._holds_nothing()
        leased.granted(grant)
        if generation == self.generation:
            self._past.append(self.leased)
            self.leased = leased
            self._notes.append(("%s: the store began anew", self.name))

    def _spare_one(self) -> Optional[Ticket]:
        """A ticket of those that are drawn while the store can't be reached."""
        if self.spare == 0 or self._error is None:
            return None
        found = self._spared.draw(self.moments.now())
        if isinstance(found, int) and found <= self.moments.now():
            until = self.moments.of(None if self.millis is None else self.clock() + self.millis / 1000)
            self._spared.granted(Grant(self._spares, 0, self.spare, until))
            self._spared.leave_alone(until)
            self._spares += 1
            found = self._spared.draw(self.moments.now())
        drawn = self._ticket(self._spared, found)
        return drawn if isinstance(drawn, Ticket) else None


class _Elsewhere:
    """A draw on another thread, for a coroutine: if that is cancelled meanwhile, the ticket comes back."""

    __slots__ = ("_leases", "_lock", "_drawn", "_is_wanted")

    def __init__(self, leases: Leases) -> None:
        self._leases = leases
        self._lock = threading.Lock()
        self._drawn: Union[Ticket, Refusal, None] = None
        self._is_wanted = True

    async def drawn(self, loop: Any) -> Union[Ticket, Refusal]:
        """What the thread drew."""
        try:
            drawn: Union[Ticket, Refusal] = await loop.run_in_executor(None, self._draw)
        except BaseException:
            with self._lock:
                self._is_wanted = False
            self._lets_go()
            raise
        return drawn

    def _draw(self) -> Union[Ticket, Refusal]:
        drawn = self._leases.draw()
        with self._lock:
            self._drawn, is_wanted = drawn, self._is_wanted
        if not is_wanted:
            self._lets_go()
        return drawn

    def _lets_go(self) -> None:
        """Nobody waits any more: what was drawn comes back, where it can."""
        if isinstance(self._drawn, Ticket) and self._leases.TAKES_BACK:
            with contextlib.suppress(TicketError):  # of a forked child, it is the parent's
                self._drawn.hand_back()


class ByLease:
    """Draws of leases for one retry, which keeps its latest ticket."""

    __slots__ = ("_leases", "_awaits", "_latest", "_generation")

    def __init__(self, leases: Leases, awaits: bool) -> None:
        self._leases = leases
        self._awaits = awaits
        self._latest: Optional[Ticket] = None
        self._generation = leases.generation

    def draw(self) -> Union[Optional[Refusal], Awaitable[Optional[Refusal]]]:
        """Draws a ticket: why there is none."""
        generation = self._leases.generation
        return self._draw_async(generation) if self._awaits else self._drawn(self._leases.draw(), generation)

    async def _draw_async(self, generation: int) -> Optional[Refusal]:
        return self._drawn(await self._leases.draw_async(), generation)

    def _drawn(self, drawn: Union[Ticket, Refusal], generation: int) -> Optional[Refusal]:
        if isinstance(drawn, Refusal):
            return drawn
        self._latest, self._generation = drawn, generation
        return None

    def end(self, hands_back: bool) -> None:
        """The latest ticket comes back, where that is so. (In a forked child it is the parent's.)"""
        leases, ticket = self._leases, self._latest
        if hands_back and ticket is not None and leases.TAKES_BACK and self._generation == leases.generation:
            ticket.hand_back()
