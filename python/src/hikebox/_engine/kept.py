"""Limits whose word a store keeps: each call of a request is one step of the store."""

from __future__ import annotations

from ctypes import POINTER, Structure, byref, c_bool, c_size_t, c_uint32, c_uint64
from typing import Any, Callable, Dict, Optional, Sequence, Tuple

from .calls import OK, library, refused
from .limits import OUT_OF_TURN, REFUSALS, Refused
from .structs import BreakerTerms, BucketTerms, Kept, numbers

__all__ = [
    "ADMIT",
    "CANCELLED",
    "DRAW",
    "FAILED",
    "SIGNATURES",
    "SUCCEEDED",
    "HeldRequest",
    "Kept",
    "Step",
    "breaker_steps",
    "bucket_steps",
]

#: The calls of a request.
ADMIT, DRAW, FAILED, SUCCEEDED, CANCELLED = range(5)


class HeldRequest(Structure):
    """What a request holds of such a limit."""

    counted: bool

    _fields_ = [("counted", c_bool), ("drew", c_bool), *numbers("slots cost generation")]


class Told(Structure):
    _fields_ = [("call", c_uint32), *numbers("at cost")]


#: A step of a limit: the call, the moment and the cost of a draw; what the store keeps and what the request holds,
#: which are changed; and None, or why the limit refuses.
Step = Callable[[int, int, int, Kept, HeldRequest], Optional[Refused]]

_LEFT = (POINTER(Told), POINTER(Kept), POINTER(HeldRequest), POINTER(c_uint64))
#: Each step, with the types of its parameters.
SIGNATURES: Dict[str, Tuple[Any, ...]] = {
    "hikebox_bucket_step": (POINTER(BucketTerms), *_LEFT),
    "hikebox_breaker_step": (POINTER(BreakerTerms), POINTER(c_uint64), c_size_t, *_LEFT),
}


def bucket_steps(capacity: int, floor: int, debit: int, credit: int, refund: bool) -> Step:
    """The steps of a bucket."""
    return _steps("hikebox_bucket_step", byref(BucketTerms(capacity, floor, debit, credit, refund)))


def breaker_steps(failures: int, results: int, probes: int, deadline: int, times: Sequence[int]) -> Step:
    """The steps of a breaker with these open times."""
    kept = (c_uint64 * len(times))(*times)
    return _steps("hikebox_breaker_step", byref(BreakerTerms(failures, probes, deadline, results)), kept, len(times))


def _steps(name: str, *terms: Any) -> Step:
    function = getattr(library, name)
    function.argtypes, function.restype = SIGNATURES[name], c_uint32

    def step(call: int, now: int, cost: int, kept: Kept, request: HeldRequest) -> Optional[Refused]:
        number = c_uint64()
        told = Told(call, now, cost)
        status = function(*terms, byref(told), byref(kept), byref(request), byref(number))
        if status in REFUSALS or status == OUT_OF_TURN:
            return status, number.value
        if status != OK:
            raise refused(name, status)
        return None

    return step
