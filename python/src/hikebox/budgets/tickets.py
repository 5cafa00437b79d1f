"""What a draw returns: a ticket, or why there is none."""

from __future__ import annotations

import enum
from typing import Any, List, Literal, Optional, Protocol

from ..errors import StoreError, TicketError

__all__ = ["Refusal", "RefusalReason", "Ticket", "checked_ticket"]


class Owner(Protocol):
    """What tickets are drawn of."""

    def hand_back(self, ticket: Ticket) -> None:
        """Takes a ticket of its own back."""


class Ticket:
    """A ticket that you drew. It is true, and a `Refusal` is false.

    `number`
        Its number, from 0: over all tickets of a budget, or within its window of a quota. Tickets drawn while a store
        can't be reached are -1, -2 and so on.
    `window`
        The window in which it was drawn or from which it was carried; None for a budget without windows.
    """

    __slots__ = ("number", "window", "_owner", "_use", "__weakref__")

    def __init__(self, number: int, window: Optional[int], owner: Owner) -> None:
        self.number = number
        self.window = window
        self._owner = owner
        #: What takes it back, until it came back.
        self._use: List[Any] = []

    def __bool__(self) -> Literal[True]:
        return True

    def __repr__(self) -> str:
        return f"<Ticket {self.number}>" if self.window is None else f"<Ticket {self.number} of window {self.window}>"

    def hand_back(self) -> None:
        """Hands the ticket back if you did not use it: one more may be drawn while its window lasts. You can do this
        once. A second time, or for a ticket of a `Budget`, it raises a `TicketError`."""
        self._owner.hand_back(self)

    def may_come_back_to(self, use: Any) -> None:
        """Notes what takes the ticket back."""
        self._use.append(use)

    def comes_back(self, owner: Owner) -> Any:
        """Returns what takes it back for this owner: once, and then raises a `TicketError`."""
        if self._owner is not owner:
            raise TicketError(f"expected a ticket of {owner!r}, got one of {self._owner!r}")
        try:
            return self._use.pop()
        except IndexError:
            raise TicketError(f"expected a ticket that is out, got {self!r}, which was handed back") from None


def checked_ticket(ticket: Ticket) -> Ticket:
    """Returns the ticket that is to be handed back, or raises a `TypeError` if it is none."""
    if not isinstance(ticket, Ticket):
        raise TypeError(f"expected a Ticket, got {ticket!r}")
    return ticket


class RefusalReason(enum.Enum):
    """Why there is no ticket."""

    USED_UP = "used up"
    UNREACHABLE = "the store can't be reached"
    LOST = "the store lost its count"
    LEVEL_LOW = "the bucket's level is too low"
    REQUESTS_FULL = "too many calls are in flight"
    RETRIES_FULL = "too many retries are in flight"
    BREAKER_OPEN = "the breaker is open"
    PROBING = "the breaker's probes are out"
    THROTTLED = "the throttle refuses"


class Refusal:
    """Why there is no ticket. It is false, and a `Ticket` is true.

    `reason`
        A `RefusalReason`.
    `again_at`
        When to draw again, in seconds by `limit.clock()`: when the next window begins, or when the store is
        asked again. None if that is not known. More requests, or a raised limit, may give a ticket before.
    `error`
        What the store raised, or None.
    """

    __slots__ = ("reason", "again_at", "error")

    def __init__(
        self, reason: RefusalReason, again_at: Optional[float] = None, error: Optional[StoreError] = None
    ) -> None:
        self.reason = reason
        self.again_at = again_at
        self.error = error

    def __bool__(self) -> Literal[False]:
        return False

    def __repr__(self) -> str:
        until = "" if self.again_at is None else f" until {self.again_at:.3f}"
        return f"<Refusal: {self.reason.value}{until}>"
