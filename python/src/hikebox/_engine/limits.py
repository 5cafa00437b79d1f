"""The limits of the engine: a handle for one request at a time, and the calls that are made with it."""

from __future__ import annotations

from ctypes import POINTER, byref, c_bool, c_size_t, c_uint32, c_uint64
from functools import partial
from typing import Any, Callable, Dict, List, Sequence, Tuple

from .calls import OK, TOO_MANY_PASSES, library, refused, unchecked
from .structs import AdaptiveTerms, BreakerTerms, BucketTerms, Handle, Seen, State

__all__ = [
    "LEVEL_LOW",
    "LimitHandle",
    "State",
    "NO_MOST",
    "NO_NUMBER",
    "NO_WORD",
    "OUT_OF_TURN",
    "Place",
    "REFUSALS",
    "SIGNATURES",
    "admit",
    "cancelled",
    "draw",
    "ended",
    "failed",
    "succeeded",
]

LEVEL_LOW = 60
REQUESTS_FULL = 61
RETRIES_FULL = 62
BREAKER_OPEN = 63
PROBING = 64
THROTTLED = 65
OUT_OF_TURN = 66

#: The most requests in flight of a bound that sets none.
NO_MOST = 0xFFFFFFFF

#: The statuses by which a limit refuses a request or a retry.
REFUSALS = frozenset((LEVEL_LOW, REQUESTS_FULL, RETRIES_FULL, BREAKER_OPEN, PROBING, THROTTLED))

#: The kinds of states.
STATE_BUCKET, STATE_IN_FLIGHT, STATE_CLOSED, STATE_OPEN, STATE_HALF_OPEN, STATE_THROTTLE, STATE_ADAPTIVE = range(1, 8)

#: A status, and the number that it was told with.
Refused = Tuple[int, int]

_HANDLE = POINTER(Handle)
_NUMBER = POINTER(c_uint64)

#: Each call on limits, with the types of its parameters.
SIGNATURES: Dict[str, Tuple[Any, ...]] = {
    "hikebox_bucket_new": (POINTER(BucketTerms), _HANDLE),
    "hikebox_in_flight_new": (c_uint32, c_uint32, c_uint32, _HANDLE),
    "hikebox_adaptive_new": (POINTER(AdaptiveTerms), _HANDLE),
    "hikebox_breaker_new": (c_uint64, POINTER(BreakerTerms), _NUMBER, c_size_t, _HANDLE),
    "hikebox_throttle_new": (c_uint64, c_uint32, c_uint64, _HANDLE),
    "hikebox_limit_state": (_HANDLE, c_uint32, c_uint64, POINTER(State)),
    "hikebox_breaker_open": (_HANDLE, c_uint64, c_uint64),
    "hikebox_breaker_close": (_HANDLE, c_uint64),
    "hikebox_limit_both": (_HANDLE, _HANDLE),
    "hikebox_limit_split": (_HANDLE, _HANDLE),
    "hikebox_limit_admit": (_HANDLE, c_uint64, c_uint32, _NUMBER),
    "hikebox_limit_draw": (_HANDLE, c_uint64, c_uint64, c_uint32, _NUMBER),
    "hikebox_limit_failed": (_HANDLE, c_uint64),
    "hikebox_limit_succeeded": (_HANDLE, c_uint64),
    "hikebox_limit_cancelled": (_HANDLE,),
    "hikebox_limit_ended": (_HANDLE,),
    "hikebox_limit_free": (_HANDLE,),
    "hikebox_limit_look": (_HANDLE, POINTER(Seen), POINTER(c_bool)),
    "hikebox_limit_begin": (_HANDLE, POINTER(Seen), POINTER(c_bool)),
}


#: The calls that are made at each attempt, with no check of the arguments' types. Moments are whole milliseconds from 0
#: to MAX_NUMBER, costs are thousandths, and random words have 32 bits.
admit, draw, failed, succeeded, cancelled, ended, free, _look, _begin = (
    unchecked(f"hikebox_limit_{name}") for name in "admit draw failed succeeded cancelled ended free look begin".split()
)
_look.restype = None  # (what it found is in `told`)


def _checked(call: str) -> Callable[..., int]:
    function = getattr(library, call)
    function.argtypes, function.restype = SIGNATURES[call], c_uint32
    return function  # type: ignore[no-any-return]


class LimitHandle:
    """A handle of a limit, or of several at once, for one request at a time."""

    __slots__ = ("handle", "at", "__weakref__")

    def __init__(self) -> None:
        self.handle = Handle()
        self.at = byref(self.handle)

    @classmethod
    def of_bucket(cls, capacity: int, floor: int, debit: int, credit: int, refund: bool) -> LimitHandle:
        """A bucket, full."""
        return cls._made("hikebox_bucket_new", byref(BucketTerms(capacity, floor, debit, credit, refund)))

    @classmethod
    def of_flight(cls, least: int, share: int, most: int) -> LimitHandle:
        """A bound on what is in flight."""
        return cls._made("hikebox_in_flight_new", least, share, most)

    @classmethod
    def of_adaptive(cls, least: int, most: int, first: int, backoff: int) -> LimitHandle:
        """An adaptive limit."""
        return cls._made("hikebox_adaptive_new", byref(AdaptiveTerms(least, most, first, backoff)))

    @classmethod
    def of_breaker(
        cls, now: int, failures: int, results: int, probes: int, deadline: int, times: Sequence[int]
    ) -> LimitHandle:
        """A breaker, closed, with these open times, whose failures count among so many results; 0: in a row."""
        terms = BreakerTerms(failures, probes, deadline, results)
        kept = (c_uint64 * len(times))(*times)
        return cls._made("hikebox_breaker_new", now, byref(terms), kept, len(times))

    @classmethod
    def of_throttle(cls, now: int, ratio: int, period: int) -> LimitHandle:
        """A throttle, whose first window begins now."""
        return cls._made("hikebox_throttle_new", now, ratio, period)

    @classmethod
    def _made(cls, call: str, *terms: Any) -> LimitHandle:
        made = cls()
        _done(call, _checked(call)(*terms, made.at))
        return made

    def both(self, second: LimitHandle) -> None:
        """Takes in another limit, which is asked after this one."""
        _done("hikebox_limit_both", _checked("hikebox_limit_both")(self.at, second.at))

    def split(self, part: LimitHandle) -> None:
        """Puts another handle of the same, with no request, into an empty one."""
        status = _checked("hikebox_limit_split")(self.at, part.at)
        if status == TOO_MANY_PASSES:
            raise OverflowError("more requests are under way at once than a limit has handles")
        _done("hikebox_limit_split", status)

    def state(self, now: int) -> State:
        """The state of the one limit that it is of."""
        state = State()
        _done("hikebox_limit_state", _checked("hikebox_limit_state")(self.at, 0, now, byref(state)))
        return state

    def open(self, now: int, until: int) -> None:
        """Opens its breaker until a moment."""
        _done("hikebox_breaker_open", _checked("hikebox_breaker_open")(self.at, now, until))

    def close(self, now: int) -> None:
        """Closes its breaker."""
        _done("hikebox_breaker_close", _checked("hikebox_breaker_close")(self.at, now))

    def __del__(self, free: Any = free) -> None:
        handle = getattr(self, "handle", None)  # (which an exception of a signal handler may have left out)
        if handle is not None and handle.held:
            free(self.at)


class Place(LimitHandle):
    """A handle that serves one request after another, with what its calls read and write. Without a request it looks
    whether the limit is quiet."""

    __slots__ = ("home", "now", "won_at", "cost", "word", "number", "at_number", "look", "begin", "told")

    #: Where its limit keeps it while nobody uses it.
    home: List[Place]

    def __init__(self, reads_clock: bool, times_successes: bool, has_costs: bool, reads_random: bool) -> None:
        LimitHandle.__init__(self)
        # (what is not read never changes, and is made once)
        self.now: Any = c_uint64() if reads_clock else NO_NUMBER
        self.won_at: Any = self.now if times_successes else NO_NUMBER
        self.cost: Any = c_uint64() if has_costs else NO_NUMBER
        self.word: Any = c_uint32() if reads_random else NO_WORD
        self.number = c_uint64()
        self.at_number = byref(self.number)
        #: Whether the latest look found the limit quiet.
        told = bytearray(1)
        self.told: Sequence[int] = told
        looks = (self.at, byref(Seen()), byref(c_bool.from_buffer(told)))
        self.look, self.begin = partial(_look, *looks), partial(_begin, *looks)


#: A number and a random word that are not read.
NO_NUMBER: Any = c_uint64.from_param(0)
NO_WORD: Any = c_uint32.from_param(0)


def _done(call: str, status: int) -> None:
    if status != OK:
        raise refused(call, status)
