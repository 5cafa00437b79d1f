"""Small classes that keep one handle of the engine each, and the calls that are made with them.

Every handle is used by one thread at a time. A pass is handed out to one user, and taken back, by the classes above
this one.
"""

from __future__ import annotations

import ctypes
import struct
from ctypes import byref, c_size_t, c_uint8, c_uint64
from typing import Any, Callable, List, Optional, Sequence, Tuple

from .._values import NamedTuple
from .calls import (
    FIXED,
    LANES,
    NO_BOUND,
    NO_ROOM,
    NO_TICKET,
    NOT_A_POLICY,
    NOT_JSON,
    NOTHING_TO_HAND_BACK,
    OK,
    PASSES_OUT,
    RACES_LOST,
    TOO_MANY,
    TOO_MANY_PASSES,
    library,
    refused,
    unchecked,
)
from .structs import Course, Event, Handle, Line, Place, Usage

__all__ = [
    "ONE",
    "Decided",
    "Handle",
    "Pass",
    "PolicyHandle",
    "pass_deposit",
]

_policy_node = unchecked("hikebox_policy_node")
_policy_free = unchecked("hikebox_policy_free")
_pass_draw = unchecked("hikebox_pass_draw")
pass_deposit = unchecked("hikebox_pass_deposit")
_pass_hand_back = unchecked("hikebox_pass_hand_back")
_pass_free = unchecked("hikebox_pass_free")


class Refusal(NamedTuple):
    """Why a text is no policy: the status, the place of the fault, and what is wanted there."""

    status: int
    place: str
    hint: str


def _text(call: str, fill: Callable[[Any, int, Any], int], room: int = 256) -> bytes:
    """The bytes that a call writes into the room that it is given: first this, then what it needs."""
    while True:
        text = (c_uint8 * room)()
        length = c_size_t()
        status = fill(text, room, byref(length))
        if status == OK:
            return ctypes.string_at(text, length.value)
        if status != NO_ROOM:
            raise refused(call, status)
        room = length.value


def _refusal(status: int, text: bytes, place: Place) -> Refusal:
    """Why this text is no policy, which was refused with this status."""
    fault = _text("hikebox_policy_fault", lambda *room: library.hikebox_policy_fault(text, len(text), *room))
    where, _, wanted = fault.decode().partition(": ")
    if status == NOT_JSON:
        # (it is told as `not JSON: PLACE: REASON`)
        where, _, wanted = wanted.partition(": ")
        return Refusal(status, where if place.line else "", wanted)
    return Refusal(status, "" if where == "top" else where, wanted)


class Decided(NamedTuple):
    """What a policy does at an event of a course."""

    #: The moment of the event.
    moment: int
    #: The start that is planned, or None where the policy does not go on.
    start: Optional[int]
    #: Its output, as `zsched plan` prints it.
    output: str


#: An event of a course: its input, and its random words.
Given = Tuple[int, int, int, int, int]
_pack_event = struct.Struct("=Q4I").pack
_unpack_lines = struct.Struct("=QQQ?7x").iter_unpack

#: Arrays of so many numbers, and counts, for the calls with no check of types.
_ARRAYS = tuple(c_uint64 * count for count in range(5))
_COUNTS = tuple(c_size_t(count) for count in range(5))
_NO_NUMBERS = _ARRAYS[1]()
#: One request.
ONE = c_uint64.from_param(1)

#: The name of a node, and its length.
Spelt = Tuple[bytes, c_size_t]


class PolicyHandle:
    """A policy that the engine has, or none yet. Threads may share it."""

    __slots__ = ("handle", "at")

    def __init__(self) -> None:
        handle = self.handle = Handle()
        self.at = byref(handle)

    def read(self, text: bytes) -> Optional[Refusal]:
        """Reads the text, or says why not."""
        place = Place()
        status = library.hikebox_policy_read(text, len(text), self.at, byref(place))
        if status == OK:
            return None
        if NOT_JSON <= status <= TOO_MANY:
            return _refusal(status, text, place)
        raise refused("hikebox_policy_read", status)

    def make(self, name: Spelt, numbers: Tuple[int, ...], first: PolicyHandle, second: PolicyHandle) -> bool:
        """Makes the node of this name with these numbers over these policies; an empty handle is no policy. False where
        it is refused. Both are in handles of their own, also where they are the same policy."""
        count = len(numbers)
        given = _ARRAYS[count](*numbers) if count else _NO_NUMBERS
        status = _policy_node(*name, given, _COUNTS[count], first.at, second.at, self.at)
        if status == OK:
            return True
        if NOT_A_POLICY <= status <= TOO_MANY:
            return False
        raise refused("hikebox_policy_node", status)

    def share(self) -> PolicyHandle:
        """A second handle to the same policy, which is not copied."""
        other = PolicyHandle()
        status = library.hikebox_policy_share(self.at, other.at)
        if status != OK:
            raise refused("hikebox_policy_share", status)
        return other

    def size(self) -> Tuple[int, int, Optional[int]]:
        """How many nodes the policy has, how deep it is, and at how many events it goes on at most, or None where its
        nodes give no such number."""
        nodes, depth, most = c_uint64(), c_uint64(), c_uint64()
        status = library.hikebox_policy_size(self.at, byref(nodes), byref(depth), byref(most))
        if status != OK:
            raise refused("hikebox_policy_size", status)
        return nodes.value, depth.value, None if most.value == NO_BOUND else most.value

    def reads(self) -> Tuple[Tuple[int, ...], bool]:
        """The lanes whose random words a node of the policy reads, and whether a node reads the code of a failure."""
        told = c_uint64()
        status = library.hikebox_policy_reads(self.at, byref(told))
        if status != OK:
            raise refused("hikebox_policy_reads", status)
        return tuple(lane for lane in range(LANES) if told.value >> lane & 1), bool(told.value >> LANES)

    def json(self) -> str:
        """The policy as JSON, without spaces."""
        return _text("hikebox_policy_json", lambda *room: library.hikebox_policy_json(self.at, *room)).decode()

    def course(self, steps: int, start: int, took: int, events: Sequence[Given], tells: bool = True) -> List[Decided]:
        """What the policy does at its first events, at most so many: up to the one at which it does not go on. The
        first event is at the moment `start`, and each other one `took` after the start planned at the one before.
        Events past those given are as the last of them. Their outputs are empty unless it `tells` them, for which the
        engine computes the course again."""
        course = Course(steps, start, took)
        given = (Event * len(events)).from_buffer_copy(b"".join([_pack_event(*event) for event in events]))
        along, lines, count = (self.at, byref(course), given, len(events)), (Line * steps)(), c_size_t()
        status = library.hikebox_policy_course(*along, lines, steps, byref(count))
        if status != OK:
            raise refused("hikebox_policy_course", status)
        told = b""
        if tells and count.value:
            outputs = library.hikebox_policy_outputs
            told = _text("hikebox_policy_outputs", lambda *room: outputs(*along, *room), lines[count.value - 1].text_to)
        return _decided(ctypes.string_at(lines, count.value * ctypes.sizeof(Line)), told.decode())

    def __del__(self, free: Any = _policy_free) -> None:
        handle = getattr(self, "handle", None)  # (which an exception of a signal handler may have left out)
        if handle is not None and handle.held:
            free(self.at)


def _decided(lines: bytes, text: str) -> List[Decided]:
    """The lines of a course, and the text of all outputs, one after another."""
    told, begins = [], 0
    for moment, start, ends, goes_on in _unpack_lines(lines):
        told.append(Decided(moment, start if goes_on else None, text[begins:ends]))
        begins = ends
    return told


class Pass:
    """A pass of a budget, of a quota or of nothing. Who holds it joins it into another, closes what it is of with it,
    or frees it. Moments are whole milliseconds from 0 to MAX_NUMBER."""

    __slots__ = ("handle", "at", "home", "now", "_ticket", "_at_ticket")

    #: Where who lends it keeps it while nobody uses it.
    home: List[Pass]

    def __init__(self) -> None:
        self.handle = Handle()
        self.at = byref(self.handle)
        self.now = c_uint64()
        self._ticket = c_uint64()
        self._at_ticket = byref(self._ticket)

    @classmethod
    def of_budget(cls, limit: int, rising: bool) -> Pass:
        """The first pass of a new budget."""
        return cls._made("hikebox_budget_rising" if rising else "hikebox_budget_fixed", limit)

    @classmethod
    def of_quota(cls, now: int, reserve: int, share: int, period: int, carries: bool = False) -> Pass:
        """The first pass of a new quota, whose windows are counted from the one of this moment."""
        return cls._made("hikebox_quota_new", now, reserve, share, period, carries)

    @classmethod
    def of_nothing(cls) -> Pass:
        """A pass that draws on nothing."""
        return cls._made("hikebox_pass_unlimited")

    @classmethod
    def _made(cls, call: str, *terms: int) -> Pass:
        made = cls()
        status = getattr(library, call)(*terms, made.at)
        if status != OK:
            raise refused(call, status)
        return made

    def draw(self, now: int = 0) -> Optional[int]:
        """A ticket, or None where the budget or the window has none left. Only a quota reads the moment."""
        self.now.value = now
        status = _pass_draw(self.at, self.now, self._at_ticket)
        while status == RACES_LOST:  # to as many draws that got a ticket
            status = _pass_draw(self.at, self.now, self._at_ticket)
        if status == OK:
            return self._ticket.value
        if status == NO_TICKET:
            return None
        raise refused("hikebox_pass_draw", status)

    def deposit(self, now: int, requests: Any = ONE) -> None:
        """Counts a request of a quota, or so many. The first pass alone counts any number; another one at least one."""
        self.now.value = now
        status = pass_deposit(self.at, self.now, requests)
        if status != OK:
            raise refused("hikebox_pass_deposit", status)

    def hand_back(self) -> bool:
        """Hands the latest ticket of a quota back that was drawn with it: False where none was since one was handed
        back."""
        status = _pass_hand_back(self.at)
        while status == RACES_LOST:  # to as many tickets that came back
            status = _pass_hand_back(self.at)
        if status == OK:
            return True
        if status == NOTHING_TO_HAND_BACK:
            return False
        raise refused("hikebox_pass_hand_back", status)

    def set_terms(self, reserve: int, share: int) -> None:
        """Sets the reserve and the share of a quota."""
        self._does("set_terms", reserve, share)

    def seen(self, now: int) -> Tuple[int, int, int, int, int]:
        """Of a quota: the window, the requests counted in it, the tickets given, those that are left, and when the next
        begins."""
        usage = Usage()
        self._does("seen", now, byref(usage))
        return usage.window, usage.asked, usage.given, usage.left, usage.next

    def raise_to(self, limit: int) -> Optional[int]:
        """The limit after it was raised to this one at least, or None where the budget keeps its limit."""
        return self._ticket.value if self._does("raise", limit, self._at_ticket, unless=FIXED) else None

    def split(self, into: Optional[Pass] = None) -> Optional[Pass]:
        """A new pass of the same, with no ticket, in `into` where that is given; None where this one has a single part,
        which it keeps."""
        part = Pass() if into is None else into
        return part if self._does("split", part.at, unless=TOO_MANY_PASSES) else None

    def join(self, other: Pass) -> None:
        """Takes in another pass of the same."""
        self._does("join", other.at)

    def count(self) -> int:
        """How many tickets were drawn with it and with those joined into it. (Another thread may draw with it.)"""
        tickets = c_uint64()
        self._does("count", byref(tickets))
        return tickets.value

    def close(self) -> Optional[int]:
        """Closes what it is of: how many tickets were drawn of it, or None where another pass is out."""
        return self.total if self._does("close", self._at_ticket, unless=PASSES_OUT) else None

    @property
    def total(self) -> int:
        """How many tickets were drawn of what it closed."""
        return self._ticket.value

    def free(self, free: Any = _pass_free) -> None:
        """Frees it with its tickets, where it holds a pass: what it is of can't be closed then."""
        if self.handle.held:
            free(self.at)

    def _does(self, verb: str, *given: Any, unless: Optional[int] = None) -> bool:
        """Makes this call: False where it answers the one status that is no error."""
        call = f"hikebox_pass_{verb}"
        status = getattr(library, call)(self.at, *given)
        if status == OK:
            return True
        if status == unless:
            return False
        raise refused(call, status)
