"""A retry of the engine, step by step."""

from __future__ import annotations

from ctypes import byref, c_uint64
from typing import Any, List, Optional, Tuple

from .calls import LOST, NO_DEADLINE, OK, OVER, TOO_MANY_PASSES, WAIT, give_memory_back, library, refused, unchecked
from .handles import Handle, Pass, PolicyHandle
from .structs import Next, Run, Words

__all__ = [
    "Loan",
    "MAX_IDLE",
    "Machine",
    "end_retry",
    "free_retry",
    "idle",
    "is_crowded",
    "new_machine",
    "park",
    "resumed",
    "take_machine_back",
]

#: The calls that are made for each retry, with no check of the arguments' types.
_retry_new = unchecked("hikebox_retry_new")
_retry_ran = unchecked("hikebox_retry_ran")
_retry_end = unchecked("hikebox_retry_end")
_retry_free = unchecked("hikebox_retry_free")

#: The deadline of a retry that has none, as a call is handed it.
_NEVER = c_uint64.from_param(NO_DEADLINE)

#: The pass of retries that draw on nothing. It has no parts, and each call on it is over before another thread runs.
_NOTHING = Pass.of_nothing()

#: What is to be done; the moment to wait for, or how it ended; and the tickets granted so far, as of a report.
Polled = Tuple[int, int, int]

#: The random words where a policy reads none.
_MIDDLE = (1 << 31,) * 4


class Loan:
    """A retry under way, for what it draws on: gone as soon as nobody steps it any more."""

    __slots__ = ("granted", "noted", "__weakref__")

    #: How many tickets it drew.
    granted: int
    #: Where what it draws on has noted it.
    noted: Any


class Machine:
    """A retry that is stepped. One object serves many retries, one after the other."""

    __slots__ = ("handle", "at", "loan", "run", "words", "next", "_at_run", "_at_next")

    def __init__(self) -> None:
        self.handle = Handle()
        self.at = byref(self.handle)
        #: What a budget or a quota knows of its retry, where it draws on one.
        self.loan: Optional[Loan] = None
        #: What a report is handed, its random words, and what it is told: what is to be done.
        self.run = Run(0, 0, 0, LOST, Words(*_MIDDLE))
        self.words = self.run.words
        self.next = Next()
        self._at_run = byref(self.run)
        self._at_next = byref(self.next)

    def begin(self, policy: PolicyHandle, drawn: Pass, deadline: int = NO_DEADLINE) -> bool:
        """Begins a retry with a pass split off this one, and a moment past which no attempt but its first begins; False
        where the pass has a single part. On a quota it draws at the moments of its reports."""
        last = _NEVER if deadline == NO_DEADLINE else c_uint64(deadline)
        status = _retry_new(policy.at, drawn.at, last, self.at)
        if status == OK:
            return True
        if status == TOO_MANY_PASSES:
            return False
        raise refused("hikebox_retry_new", status)

    def begin_unlimited(self, policy: PolicyHandle, deadline: int = NO_DEADLINE) -> None:
        """Begins a retry that draws on nothing. `free` ends it."""
        last = _NEVER if deadline == NO_DEADLINE else c_uint64(deadline)
        status = _retry_new(policy.at, _NOTHING.at, last, self.at)
        if status != OK:
            raise refused("hikebox_retry_new", status)

    def ran(self, began: int, ended: int) -> int:
        """Reports a run that began and failed at these moments, with the code and the random words that were set: what
        is to be done, as `next` tells."""
        run = self.run
        run.began = began
        run.ended = ended
        status = _retry_ran(self.at, self._at_run, self._at_next)
        if status != OK:
            raise refused("hikebox_retry_ran", status)
        told = self.next
        if self.loan is not None:
            self.loan.granted = told.granted
        return told.what  # type: ignore[no-any-return]

    def poll(self, now: int, report: int, code: int) -> Polled:
        """One step: what is to be done."""
        told = self.next
        status = library.hikebox_retry_poll(self.at, now, self.words, report, code, self._at_next)
        if status != OK:
            raise refused("hikebox_retry_poll", status)
        if report and self.loan is not None:
            self.loan.granted = told.granted
        detail = told.until if told.what == WAIT else told.how if told.what == OVER else 0
        return told.what, detail, told.granted if report else 0

    def cancel(self) -> None:
        """Ends the retry as cancelled, where it is not over."""
        status = library.hikebox_retry_cancel(self.at)
        if status != OK:
            raise refused("hikebox_retry_cancel", status)

    def end(self, drawn: Pass) -> None:
        """Frees the retry, over or not, and joins its pass into this one, which is of the same budget or quota."""
        status = _retry_end(self.at, drawn.at)
        if status != OK:
            raise refused("hikebox_retry_end", status)
        self.handle = Handle()
        self.at = byref(self.handle)
        self.loan = None

    def leave(self) -> None:
        """Leaves its retry to the budget or the quota that it draws on, which knows its handle."""
        self.handle = Handle()
        self.at = byref(self.handle)
        self.loan = None

    def free(self) -> None:
        """Frees the retry, where there is one. One that draws on a budget or a quota is left to that, which takes its
        pass back."""
        if self.loan is not None:
            self.leave()
        elif self.handle.held:
            _retry_free(self.at)

    def __del__(self, free: Any = _retry_free) -> None:
        # (an exception of a signal handler may have ended `__init__`)
        if getattr(self, "loan", self) is None and self.handle.held:
            free(self.at)


def end_retry(handle: Handle, drawn: Pass) -> None:
    """Frees the retry in this handle, over or not, and joins its pass into this one."""
    status = _retry_end(byref(handle), drawn.at)
    if status != OK:
        raise refused("hikebox_retry_end", status)


def free_retry(handle: Handle, free: Any = _retry_free) -> None:
    """Frees the retry in this handle with its pass, where it holds one."""
    if handle.held:
        free(byref(handle))


#: Machines that hold no retry, for the next ones; those of many concurrent retries are given up.
idle: List[Machine] = []
MAX_IDLE = 64


class _Crowd:
    """Many retries at once. The C library keeps the memory that they leave below what is still in use: the system has
    it back after so many of them."""

    __slots__ = ("machines", "parked", "over")

    AFTER = 4096

    def __init__(self) -> None:
        #: About how many machines there are, how many retries are parked (threads may miscount), and how many are over.
        self.machines = 0
        self.parked = 0
        self.over = 0

    def leaves(self) -> None:
        """One of many is over."""
        self.over += 1
        if self.over % self.AFTER == 0:
            give_memory_back()


_crowd = _Crowd()


def new_machine() -> Machine:
    """A machine more, since none is idle."""
    _crowd.machines += 1
    return Machine()


def take_machine_back(machine: Machine, serves_others: bool = True) -> None:
    """Takes a machine back, and frees its retry where it holds one."""
    machine.free()
    if serves_others and len(idle) < MAX_IDLE:
        idle.append(machine)
    else:
        _crowd.machines -= 1
        _crowd.leaves()


def is_crowded() -> bool:
    """Whether so many retries are under way that those which wait should be parked."""
    return not idle and _crowd.machines > MAX_IDLE


def park(machine: Machine) -> int:
    """Takes a machine back, but not its retry, which draws on nothing: `resumed` goes on with that."""
    held: int = machine.handle.held
    machine.handle.held = None
    _crowd.parked += 1
    take_machine_back(machine)
    return held


def resumed(held: int) -> Machine:
    """A machine with a retry that was parked."""
    try:
        machine = idle.pop()
    except IndexError:
        machine = new_machine()
    machine.handle.held = held
    _crowd.parked -= 1
    if _crowd.parked >= MAX_IDLE:
        _crowd.leaves()
    return machine
