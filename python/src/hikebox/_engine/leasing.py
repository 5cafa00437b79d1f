"""The engine's step of a lease, what a window of a quota allows, and passes that draw of leases."""

from __future__ import annotations

from ctypes import POINTER, Structure, byref, c_uint32, c_uint64
from functools import lru_cache
from typing import Any, Dict, NamedTuple, Optional, Tuple, Union

from .calls import (
    BACKWARDS,
    HELD_ALREADY,
    LEASE_WANTED,
    MAX_UINT64,
    NO_TICKET,
    NOT_OUT,
    OK,
    library,
    refused,
    unchecked,
)
from .structs import Handle, numbers

__all__ = [
    "BACKWARDS",
    "Grant",
    "HELD_ALREADY",
    "LeasedPass",
    "LeasedTicket",
    "SIGNATURES",
    "Seen",
    "Stored",
    "lease_of_budget",
    "lease_of_quota",
    "quota_allows",
]


class Stored(Structure):
    """What a store keeps of a budget or a quota: which window it counted last, the tickets of it that were leased, and
    its requests."""

    window: int
    given: int
    asked: int

    _fields_ = numbers("window given asked")


class Asking(Structure):
    _fields_ = numbers("window told wanted")


class Range(Structure):
    first: int
    tickets: int

    _fields_ = numbers("first tickets")


class LeasedTicket(Structure):
    window: int
    number: int

    _fields_ = numbers("window number")


class Grant(Structure):
    """What a store granted: so many tickets of a window, from `first` on, and the moment at which the window ends."""

    window: int
    first: int
    tickets: int
    until: int

    _fields_ = numbers("window first tickets until")


_HANDLE = POINTER(Handle)
_NUMBER = POINTER(c_uint64)

#: Each call on leases and on leased passes, with the types of its parameters.
SIGNATURES: Dict[str, Tuple[Any, ...]] = {
    "hikebox_leased_new": (c_uint64, _HANDLE),
    "hikebox_leased_draw": (_HANDLE, c_uint64, POINTER(LeasedTicket), _NUMBER),
    "hikebox_leased_granted": (_HANDLE, POINTER(Grant)),
    "hikebox_leased_leave_alone": (_HANDLE, c_uint64),
    "hikebox_leased_hand_back": (_HANDLE, POINTER(LeasedTicket)),
    "hikebox_leased_deposit": (_HANDLE, c_uint64, c_uint64),
    "hikebox_leased_tell": (_HANDLE, c_uint64, _NUMBER),
    "hikebox_leased_seen": (_HANDLE, _NUMBER, _NUMBER, _NUMBER),
    "hikebox_leased_free": (_HANDLE,),
    "hikebox_quota_allows": (c_uint64, c_uint64, c_uint64, _NUMBER),
    "hikebox_lease_of_budget": (c_uint64, POINTER(Asking), POINTER(Stored), POINTER(Range)),
    "hikebox_lease_of_quota": (c_uint64, c_uint64, POINTER(Asking), POINTER(Stored), POINTER(Range)),
}


@lru_cache(maxsize=None)
def _call(name: str) -> Any:
    """This call of the library, which is looked up where the first lease is made."""
    function = getattr(library, name)
    function.argtypes, function.restype = SIGNATURES[name], c_uint32
    return function


#: The call that is made at each draw.
_draw = unchecked("hikebox_leased_draw")


def quota_allows(reserve: int, share: int, asked: int) -> int:
    """How many tickets a window of so many requests may give, by a quota of these terms."""
    tickets = c_uint64()
    status = _call("hikebox_quota_allows")(reserve, share, min(asked, MAX_UINT64), byref(tickets))
    if status != OK:
        raise refused("hikebox_quota_allows", status)
    return tickets.value


def lease_of_budget(limit: int, window: int, wanted: int, stored: Stored) -> Optional[Range]:
    """A range of the tickets of a budget, of which the store keeps `stored`: that is changed to what it keeps from
    then on. None where the store counts a later window."""
    range_ = Range()
    asking = Asking(window, 0, wanted)
    status = _call("hikebox_lease_of_budget")(limit, byref(asking), byref(stored), byref(range_))
    return _range("hikebox_lease_of_budget", status, range_)


def lease_of_quota(terms: Tuple[int, int, int], window: int, told: int, wanted: int, stored: Stored) -> Optional[Range]:
    """The same of a window of a quota with these terms, in which so many requests more are told."""
    reserve, share, _ = terms
    range_ = Range()
    asking = Asking(window, min(told, MAX_UINT64), wanted)
    status = _call("hikebox_lease_of_quota")(reserve, share, byref(asking), byref(stored), byref(range_))
    return _range("hikebox_lease_of_quota", status, range_)


def _range(call: str, status: int, granted: Range) -> Optional[Range]:
    """The range that was granted, or None where the window is before the store's."""
    if status == OK:
        return granted
    if status == BACKWARDS:
        return None
    raise refused(call, status)


class Seen(NamedTuple):
    """What a leased pass has: the tickets drawn with it and not handed back, those at hand, and requests not told."""

    drawn: int
    at_hand: int
    untold: int


class LeasedPass:
    """A pass that draws of what a store granted. Moments are whole milliseconds from 0 to MAX_NUMBER."""

    __slots__ = ("handle", "at", "_free")

    def __init__(self, period: int) -> None:
        """Begins one that holds nothing, of a store with windows of so many milliseconds, or 0 for none."""
        self.handle = Handle()
        self.at = byref(self.handle)
        self._free = _call("hikebox_leased_free")
        _does("hikebox_leased_new", period, self.at)

    def draw(self, now: int) -> Union[LeasedTicket, int]:
        """A ticket; or where there is none at hand, the moment from which on the store may be asked."""
        ticket, again = LeasedTicket(), c_uint64()
        status = _draw(self.at, c_uint64(now), byref(ticket), byref(again))
        if status == OK:
            return ticket
        if status not in (LEASE_WANTED, NO_TICKET):
            raise refused("hikebox_leased_draw", status)
        return now if status == LEASE_WANTED else again.value

    def granted(self, grant: Grant) -> int:
        """Takes what the store granted: BACKWARDS where that is of an earlier window, HELD_ALREADY where it was granted
        before, and else OK."""
        return _does("hikebox_leased_granted", self.at, byref(grant), unless=(BACKWARDS, HELD_ALREADY))

    def leave_alone(self, until: int) -> None:
        """The store is not asked before this moment, while there is no ticket at hand."""
        _does("hikebox_leased_leave_alone", self.at, until)

    def hand_back(self, ticket: LeasedTicket) -> bool:
        """Takes a ticket back that was drawn: False where it is not out, as where its window is over."""
        return _does("hikebox_leased_hand_back", self.at, byref(ticket), unless=(NOT_OUT,)) == OK

    def deposit(self, now: int, requests: int) -> None:
        """Counts so many requests."""
        _does("hikebox_leased_deposit", self.at, now, requests)

    def tell(self, since: int) -> int:
        """The requests that were counted from this moment on. None is told again, and none from before."""
        requests = c_uint64()
        _does("hikebox_leased_tell", self.at, since, byref(requests))
        return requests.value

    def seen(self) -> Seen:
        """What it has."""
        drawn, at_hand, untold = c_uint64(), c_uint64(), c_uint64()
        _does("hikebox_leased_seen", self.at, byref(drawn), byref(at_hand), byref(untold))
        return Seen(drawn.value, at_hand.value, untold.value)

    def __del__(self) -> None:
        handle = getattr(self, "handle", None)  # (which an exception of a signal handler may have left out)
        if handle is not None and handle.held:
            self._free(self.at)


def _does(call: str, *given: Any, unless: Tuple[int, ...] = ()) -> int:
    """Makes this call: its status, which is OK or one of these."""
    status: int = _call(call)(*given)
    if status == OK or status in unless:
        return status
    raise refused(call, status)
