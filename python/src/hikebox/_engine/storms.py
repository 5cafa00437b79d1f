"""The storms of the engine."""

from __future__ import annotations

import ctypes
from ctypes import POINTER, Structure, byref, c_bool, c_size_t, c_uint32, c_uint64
from functools import lru_cache
from typing import Any, Dict, List, Sequence, Tuple

from .calls import OK, library_path, refused
from .handles import PolicyHandle
from .structs import SIZE, Handle, Sized, numbers

__all__ = ["Phase", "Population", "SIGNATURES", "Storm", "Totals", "Window", "play_storm"]


class Phase(Structure):
    _fields_ = numbers("until rate")


class Population(Structure):
    """A population of clients beside the first one; of no share where there is none."""

    _fields_ = numbers("share patience limited")


class Storm(Sized):
    _fields_ = [
        SIZE,
        *numbers(
            "rate together seconds capacity patience queue outage_from outage_to slow_from slow_to slow_percent window "
            "until calls words draws_on limit reserve share period bucket_capacity bucket_floor bucket_debit "
            "bucket_credit bucket_refund cost late_cost least most first backoff failures "
            "results probes deadline ratio open_count"
        ),
        ("open_times", c_uint64 * 64),
        *numbers("replicas down phase_count"),
        ("phases", Phase * 16),
        ("second", Population),
        ("third", Population),
        ("fourth", Population),
        *numbers("of"),
    ]


class Window(Structure):
    _fields_ = numbers("from requests won retries succeeded refused shed late waiting")


class Totals(Sized):
    _fields_ = [
        SIZE,
        *numbers(
            "windows requests won lost denied open calls hundredths most_calls most_from tickets p50 p99 slowest "
            "recovered"
        ),
        ("recovers", c_bool),
        ("cut", c_bool),
    ]


#: The policies of the populations, in their order.
Policies = Handle * 4

#: Each call on storms, with the types of its parameters.
SIGNATURES: Dict[str, Tuple[Any, ...]] = {
    "hikebox_storm_play_populations": (
        POINTER(Policies),
        POINTER(Storm),
        POINTER(c_uint64),
        c_size_t,
        POINTER(Window),
        c_size_t,
        POINTER(Totals),
    ),
}


@lru_cache(maxsize=None)
def _patient(call: str) -> Any:
    """A call that takes long: it lets go of the interpreter's lock."""
    function = ctypes.CDLL(library_path())[call]
    function.argtypes, function.restype = SIGNATURES[call], c_uint32
    return function


def play_storm(
    policies: Sequence[PolicyHandle], storm: Storm, arrivals: Sequence[int] = ()
) -> Tuple[List[Tuple[int, ...]], Totals]:
    """Plays a storm whose parameters are within their ranges, with the policy of each of its populations, up to four,
    and the moments of its requests, where they have such: the fields of each window, and the totals."""
    room = storm.until // storm.window + 1
    windows, totals, held = (Window * room)(), Totals(), Policies(*(policy.handle for policy in policies))
    moments = (c_uint64 * max(len(arrivals), 1))(*arrivals)
    call = "hikebox_storm_play_populations"
    status = _patient(call)(byref(held), byref(storm), moments, len(arrivals), windows, room, byref(totals))
    for policy, handle in zip(policies, held):  # (which only the call used meanwhile)
        policy.handle.held = handle.held
    if status != OK:
        raise refused(call, status)
    wide = ctypes.sizeof(Window) // ctypes.sizeof(c_uint64)
    fields = (c_uint64 * (wide * totals.windows)).from_buffer(windows)[:]
    return [tuple(fields[at : at + wide]) for at in range(0, len(fields), wide)], totals
