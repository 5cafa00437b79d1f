"""Budgets: the most retries that all threads of a process make together."""

from __future__ import annotations

from functools import partial
from typing import Union

from ._engine.calls import MAX_TICKETS
from ._engine.handles import Pass
from .budgets.granting import Granting
from .budgets.terms import tickets_of
from .budgets.tickets import Refusal, RefusalReason, Ticket
from .errors import EngineError, LimitError, TicketError

__all__ = ["Budget"]


class Budget(Granting):
    """A fixed number of tickets. Each retry draws one, so there are never more retries than tickets.

    Threads may share it and draw at once, for any number of calls. `Budget(limit)` keeps its limit;
    `Budget.rising(limit)` makes one that you can raise. `close()` returns the exact number of tickets drawn, and
    leaving its `with` block closes it too.

    >>> with Budget(2) as budget:
    ...     budget.draw(), budget.draw(), budget.draw()
    (<Ticket 0>, <Ticket 1>, <Refusal: used up>)
    >>> budget.granted
    2

    A budget belongs to its process: a forked child begins with a budget of its own and nothing drawn.
    `hikebox.leased` has budgets that processes share.
    """

    __slots__ = ("_limit", "_rising")

    def __init__(self, limit: int) -> None:
        self._begin(limit, False)

    @classmethod
    def rising(cls, limit: int) -> Budget:
        """Makes a budget whose limit `raise_to` can raise. A draw that finds no ticket uses none up, so a limit raised
        by N gives N more tickets.

        >>> budget = Budget.rising(0)
        >>> budget.draw(), budget.raise_to(5), budget.draw()
        (<Refusal: used up>, 5, <Ticket 0>)
        """
        made = cls.__new__(cls)
        made._begin(limit, True)
        return made

    def _begin(self, limit: int, rising: bool) -> None:
        self._limit = _checked(limit)
        self._rising = rising
        self.begin_with("budget", partial(Pass.of_budget, limit, rising))

    @property
    def limit(self) -> int:
        """The most tickets that can be drawn; for a rising budget, as of now."""
        return self._limit

    def draw(self) -> Union[Ticket, Refusal]:
        """Returns a `Ticket`, or a `Refusal`, which is false, if none is left."""
        passes = self.passes
        lent = passes.lend()
        try:
            number = lent.draw()
        except EngineError:
            if not passes.look_again(lent):
                raise
            return self.draw()
        finally:
            passes.give_back(lent)
        if passes is not self.passes:  # (the handler of a signal forked meanwhile: in the child it is the parent's)
            return self.draw()
        return Refusal(RefusalReason.USED_UP) if number is None else Ticket(number, None, self)

    def hand_back(self, ticket: Ticket) -> None:
        """Raises a `TicketError`: tickets of a budget do not come back."""
        raise TicketError(f"expected a ticket of a quota, got {ticket!r} of a budget, which does not come back")

    def raise_to(self, limit: int) -> int:
        """Raises the limit of a rising budget to this one, unless it is higher already, and returns it."""
        if not self._rising:
            raise LimitError("this budget keeps its limit: Budget.rising makes one that can be raised")
        _checked(limit)
        with self.passes.root() as root:
            now = root.raise_to(limit)
            assert now is not None, "the budget is a rising one"
            self._limit = now
            return now

    def expression(self) -> str:
        return f"Budget.rising({self._limit})" if self._rising else f"Budget({self._limit})"


def _checked(limit: int) -> int:
    return tickets_of(limit, "tickets", f"a limit from 0 to {MAX_TICKETS}")
