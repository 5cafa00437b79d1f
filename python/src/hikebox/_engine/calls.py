"""The library of `hikebox.h`, by ctypes: its constants, its calls with their types, and how it is loaded.

The library is loaded so that a call keeps the interpreter's lock, since no call waits and each takes at most a
microsecond or two: so threads may share a policy, whose calls change nothing.
"""

from __future__ import annotations

import ctypes
import os
import sys
from ctypes import POINTER, c_bool, c_char_p, c_size_t, c_uint8, c_uint32, c_uint64
from typing import Any, Dict, Tuple

from ..errors import EngineError
from ..version import VERSION
from .structs import Course, Event, Handle, Line, Next, Place, Run, Usage

__all__ = ["SIGNATURES", "give_memory_back", "library", "library_path", "refused", "unchecked"]

OK = 0
NO_MEMORY = 4
TOO_LARGE = 5
NO_ROOM = 6
NOT_JSON = 10
NOT_A_POLICY = 11
OUT_OF_RANGE = 12
TOO_DEEP = 13
TOO_MANY = 14
BACKWARDS = 20
LIMIT_TOO_LARGE = 30
FIXED = 31
NO_TICKET = 32
TOO_MANY_PASSES = 33
PASSES_OUT = 34
RACES_LOST = 38
NOTHING_TO_HAND_BACK = 43
LEASE_WANTED = 50
NOT_OUT = 51
HELD_ALREADY = 52

#: The most tickets of a budget, and of a window of a quota.
MAX_TICKETS = 2**32
#: The most thousandths of a ticket that a request gives.
MAX_SHARE = 1_000_000
#: The fewest milliseconds of a quota's window.
MIN_PERIOD = 100

#: The greatest number that the engine takes.
MAX_UINT64 = 2**64 - 1

#: The deadline of a retry that has none.
NO_DEADLINE = 2**64 - 1
#: The bound of a policy whose nodes give none.
NO_BOUND = 2**64 - 1
#: The most events of a course.
MAX_STEPS = 4096
#: The random words of an event.
LANES = 4

NO_REPORT, WON, LOST = 0, 1, 2
POLL, RUN, WAIT, OVER = 0, 1, 2, 3
ON_NOTHING, ON_BUDGET, ON_QUOTA = 0, 1, 2
ON_BUCKET, ON_IN_FLIGHT, ON_BREAKER, ON_THROTTLE, ON_ADAPTIVE = 3, 4, 5, 6, 7


_HANDLE = POINTER(Handle)
_NUMBER = POINTER(c_uint64)
_WORDS = POINTER(c_uint32)

#: Each function of the header that a retry may need, with the types of its parameters.
SIGNATURES: Dict[str, Tuple[Any, ...]] = {
    "hikebox_policy_read": (c_char_p, c_size_t, _HANDLE, POINTER(Place)),
    "hikebox_policy_fault": (c_char_p, c_size_t, POINTER(c_uint8), c_size_t, POINTER(c_size_t)),
    "hikebox_policy_share": (_HANDLE, _HANDLE),
    "hikebox_policy_node": (c_char_p, c_size_t, _NUMBER, c_size_t, _HANDLE, _HANDLE, _HANDLE),
    "hikebox_policy_json": (_HANDLE, POINTER(c_uint8), c_size_t, POINTER(c_size_t)),
    "hikebox_policy_size": (_HANDLE, _NUMBER, _NUMBER, _NUMBER),
    "hikebox_policy_reads": (_HANDLE, _NUMBER),
    "hikebox_policy_course": (
        _HANDLE,
        POINTER(Course),
        POINTER(Event),
        c_size_t,
        POINTER(Line),
        c_size_t,
        POINTER(c_size_t),
    ),
    "hikebox_policy_outputs": (
        _HANDLE,
        POINTER(Course),
        POINTER(Event),
        c_size_t,
        POINTER(c_uint8),
        c_size_t,
        POINTER(c_size_t),
    ),
    "hikebox_policy_free": (_HANDLE,),
    "hikebox_budget_fixed": (c_uint64, _HANDLE),
    "hikebox_budget_rising": (c_uint64, _HANDLE),
    "hikebox_quota_new": (c_uint64, c_uint64, c_uint64, c_uint64, c_bool, _HANDLE),
    "hikebox_pass_unlimited": (_HANDLE,),
    "hikebox_pass_draw": (_HANDLE, c_uint64, _NUMBER),
    "hikebox_pass_deposit": (_HANDLE, c_uint64, c_uint64),
    "hikebox_pass_hand_back": (_HANDLE,),
    "hikebox_pass_set_terms": (_HANDLE, c_uint64, c_uint64),
    "hikebox_pass_split": (_HANDLE, _HANDLE),
    "hikebox_pass_join": (_HANDLE, _HANDLE),
    "hikebox_pass_raise": (_HANDLE, c_uint64, _NUMBER),
    "hikebox_pass_count": (_HANDLE, _NUMBER),
    "hikebox_pass_seen": (_HANDLE, c_uint64, POINTER(Usage)),
    "hikebox_pass_close": (_HANDLE, _NUMBER),
    "hikebox_pass_free": (_HANDLE,),
    "hikebox_retry_new": (_HANDLE, _HANDLE, c_uint64, _HANDLE),
    "hikebox_retry_poll": (_HANDLE, c_uint64, _WORDS, c_uint32, c_uint64, POINTER(Next)),
    "hikebox_retry_ran": (_HANDLE, POINTER(Run), POINTER(Next)),
    "hikebox_retry_cancel": (_HANDLE,),
    "hikebox_retry_end": (_HANDLE, _HANDLE),
    "hikebox_retry_free": (_HANDLE,),
}


def library_path() -> str:
    """Where the engine is: the file that HIKEBOX_LIBRARY names, or the one beside these modules, which has one name on
    each system."""
    named = os.environ.get("HIKEBOX_LIBRARY")
    return named if named else os.path.join(os.path.dirname(os.path.dirname(__file__)), "libhikebox.so")


def _load() -> Any:
    if not hasattr(ctypes, "PyDLL"):
        name = sys.implementation.name
        raise ImportError(f"hikebox runs on CPython: {name} has no ctypes.PyDLL, by which hikebox calls its engine")
    try:
        library = ctypes.PyDLL(library_path())
    except OSError as error:
        import platform

        machine = f"{platform.system()} on {platform.machine()}"
        raise ImportError(
            f"the engine of hikebox can't be loaded: {error}; each system and processor has a wheel of its own, and "
            f"this is {machine}; HIKEBOX_LIBRARY names another engine"
        ) from None
    for name, parameters in SIGNATURES.items():
        try:
            function = getattr(library, name)
        except AttributeError as error:
            raise ImportError(
                f"the engine of hikebox can't be loaded: expected that of {VERSION}, got {error}"
            ) from None
        function.argtypes = parameters
        function.restype = c_uint32
    return library


def unchecked(call: str) -> Any:
    """A call with no check of the arguments' types, which would double its time: for those that are made at each step
    of a retry, at each request and at each draw. They are only made below, with an argument of the right size in each
    place."""
    function = library[call]
    function.restype = c_uint32
    return function


library = _load()
#: The call of the C library, where it is one that has it. (Windows names no library by None.)
_trim = None if sys.platform == "win32" else getattr(ctypes.PyDLL(None), "malloc_trim", None)


def give_memory_back() -> None:
    """Gives the system back what the C library keeps of what was freed."""
    if _trim is not None:
        _trim(c_size_t(0))


def refused(call: str, status: int) -> Exception:
    """The exception for a status of a call that has no better one."""
    if status == NO_MEMORY:
        return MemoryError(f"{call}: the engine found no memory")
    return EngineError(call, status)
