"""The paces of the engine: a handle for one call at a time, and the steps of a pace that a store keeps."""

from __future__ import annotations

from ctypes import POINTER, byref, c_bool, c_uint32, c_uint64
from typing import Any, Dict, List, Tuple

from .calls import OK, RACES_LOST, TOO_MANY_PASSES, library, refused, unchecked
from .structs import Handle, Kept, Mark, Rate

__all__ = ["SIGNATURES", "PaceHandle", "pace_returned", "pace_taken"]

TOO_SOON = 70

_HANDLE = POINTER(Handle)
_NUMBER = POINTER(c_uint64)

#: Each call on paces, with the types of its parameters.
SIGNATURES: Dict[str, Tuple[Any, ...]] = {
    "hikebox_pace_new": (c_uint64, c_uint64, c_uint64, _HANDLE),
    "hikebox_pace_split": (_HANDLE, _HANDLE),
    "hikebox_pace_take": (_HANDLE, c_uint64, c_uint64, _NUMBER),
    "hikebox_pace_give_back": (_HANDLE, POINTER(c_bool)),
    "hikebox_pace_seen": (_HANDLE, c_uint64, _NUMBER),
    "hikebox_pace_free": (_HANDLE,),
    "hikebox_pace_step": (POINTER(Rate), c_uint64, c_uint64, POINTER(Kept), POINTER(Mark), _NUMBER),
    "hikebox_pace_step_back": (POINTER(Rate), POINTER(Kept), POINTER(Mark), POINTER(c_bool)),
}

#: Moments are whole milliseconds from 0 to MAX_NUMBER, and costs from 1 to the burst.
_take, _give_back, _free = (unchecked(f"hikebox_pace_{name}") for name in "take give_back free".split())


def _done(call: str, *arguments: Any) -> int:
    """Makes a call, with a check of its arguments' types, and returns its status."""
    function = getattr(library, call)
    function.argtypes, function.restype = SIGNATURES[call], c_uint32
    status: int = function(*arguments)
    return status


def _succeeds(call: str, *arguments: Any) -> None:
    status = _done(call, *arguments)
    if status == TOO_MANY_PASSES:
        raise OverflowError("more calls wait at once than a pace has handles")
    if status != OK:
        raise refused(call, status)


class PaceHandle:
    """A handle of a pace, for one call at a time."""

    __slots__ = ("handle", "at", "home", "_number", "_at_number", "__weakref__")

    #: Where its pace keeps it while no call has it.
    home: List[PaceHandle]

    def __init__(self) -> None:
        self.handle = Handle()
        self.at = byref(self.handle)
        self._number = c_uint64()
        self._at_number = byref(self._number)

    @classmethod
    def of(cls, each: int, burst: int, longest: int) -> PaceHandle:
        """A pace with these terms."""
        made = cls()
        _succeeds("hikebox_pace_new", each, burst, longest, made.at)
        return made

    def part(self) -> PaceHandle:
        """Another handle of the same."""
        made = PaceHandle()
        _succeeds("hikebox_pace_split", self.at, made.at)
        return made

    def take(self, now: int, cost: int) -> Tuple[bool, int]:
        """Whether a call may begin, and when; or when it would be granted."""
        status = RACES_LOST
        while status == RACES_LOST:  # to as many calls of others
            status = _take(self.at, c_uint64(now), c_uint64(cost), self._at_number)
        if status != OK and status != TOO_SOON:
            raise refused("hikebox_pace_take", status)
        return status == OK, self._number.value

    def give_back(self) -> None:
        """Gives the last take back, where no other was granted since."""
        if self.handle.held:  # (the collector frees it before a call of the same cycle)
            _give_back(self.at, byref(c_bool()))

    def seen(self, now: int) -> int:
        """When a call would begin now."""
        _succeeds("hikebox_pace_seen", self.at, now, self._at_number)
        return self._number.value

    def __del__(self, free: Any = _free) -> None:
        handle = getattr(self, "handle", None)  # (which an exception of a signal handler may have left out)
        if handle is not None and handle.held:
            free(self.at)


def pace_taken(rate: Tuple[int, int, int], now: int, cost: int, kept: Kept) -> Tuple[bool, int, int]:
    """One step of a pace that a store keeps: whether a call may begin, and when, or when it would be granted; and what
    is due then. What is kept is changed."""
    mark, at = Mark(), c_uint64()
    status = _done("hikebox_pace_step", byref(Rate(*rate)), now, cost, byref(kept), byref(mark), byref(at))
    if status != OK and status != TOO_SOON:
        raise refused("hikebox_pace_step", status)
    return status == OK, at.value, mark.due


def pace_returned(rate: Tuple[int, int, int], due: int, cost: int, kept: Kept) -> None:
    """Gives a take back, after which this was due, where no other was granted since. What is kept is changed."""
    _succeeds("hikebox_pace_step_back", byref(Rate(*rate)), byref(kept), byref(Mark(True, cost, due)), byref(c_bool()))
