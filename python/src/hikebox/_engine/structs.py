"""The structs of `hikebox.h` that a retry may need. The others stand beside their calls."""

from __future__ import annotations

from ctypes import Structure, c_bool, c_size_t, c_uint32, c_uint64, c_void_p, sizeof
from typing import Any, List, Tuple

__all__ = [
    "AdaptiveTerms",
    "BreakerTerms",
    "BucketTerms",
    "Course",
    "Event",
    "Handle",
    "Kept",
    "Line",
    "Mark",
    "Next",
    "Place",
    "Rate",
    "Run",
    "SIZE",
    "Seen",
    "Sized",
    "State",
    "Usage",
    "Words",
    "numbers",
]


class Handle(Structure):
    """What the library keeps: one pointer, none where it holds nothing."""

    _fields_ = [("held", c_void_p)]


class Place(Structure):
    _fields_ = [("line", c_uint64), ("column", c_uint64)]


def numbers(names: str) -> List[Tuple[str, Any]]:
    """Fields of these names, each a number."""
    return [(name, c_uint64) for name in names.split()]


Words = c_uint32 * 4

SIZE: Tuple[str, Any] = ("size", c_size_t)


class Sized(Structure):
    """A struct that begins with its size, which is set when one is made."""

    def __init__(self, *fields: Any, **named: Any) -> None:
        super().__init__(sizeof(self), *fields, **named)


class Course(Sized):
    _fields_ = [SIZE, *numbers("steps from took")]


class Event(Structure):
    _fields_ = [("input", c_uint64), ("words", Words)]


class Line(Structure):
    _fields_ = [*numbers("moment start text_to"), ("goes_on", c_bool)]


class Next(Sized):
    _fields_ = [SIZE, ("what", c_uint32), ("how", c_uint32), *numbers("until granted runs left")]


class Run(Structure):
    """A run of a retry, from its beginning to its report."""

    _fields_ = [*numbers("began ended code"), ("report", c_uint32), ("words", Words)]


class Usage(Sized):
    _fields_ = [SIZE, *numbers("window asked given left next")]


class BucketTerms(Sized):
    _fields_ = [SIZE, *numbers("capacity floor debit credit"), ("refund", c_bool)]


class State(Sized):
    """A limit's state."""

    kind: int
    first: int
    second: int
    third: int
    until: int

    _fields_ = [SIZE, *numbers("kind first second third until")]


class Seen(Structure):
    """The words that a look saw."""

    _fields_ = numbers("first second third fourth")


class AdaptiveTerms(Sized):
    _fields_ = [SIZE, *numbers("least most first backoff")]


class BreakerTerms(Sized):
    _fields_ = [SIZE, *numbers("failures probes deadline results")]


class Kept(Structure):
    """What a store keeps of a limit: its word, if it knows the limit."""

    known: bool
    word: int

    _fields_ = [("known", c_bool), *numbers("word")]


class Rate(Structure):
    """The terms of a pace."""

    each: int
    burst: int
    longest: int

    _fields_ = numbers("each burst longest")


class Mark(Structure):
    """What gives the last take back of a pace that a store keeps."""

    granted: bool
    cost: int
    due: int

    _fields_ = [("granted", c_bool), *numbers("cost due")]
