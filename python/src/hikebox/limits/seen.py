"""What a limit's state is at one moment, as `seen()` returns it."""

from __future__ import annotations

import enum
from typing import Optional, Union

from .._values import NamedTuple

__all__ = ["AdaptiveSeen", "BreakerSeen", "BreakerState", "BucketSeen", "InFlightSeen", "Seen", "ThrottleSeen"]


class BreakerState(enum.Enum):
    """What a breaker is."""

    CLOSED = "closed"
    OPEN = "open"
    HALF_OPEN = "half open"


class BucketSeen(NamedTuple):
    """The state of a bucket, in tokens."""

    level: float
    capacity: float


class InFlightSeen(NamedTuple):
    """What is in flight."""

    requests: int
    retries: int
    #: How many requests there may be, or None for no bound.
    most: Optional[int]


class BreakerSeen(NamedTuple):
    """The state of a breaker."""

    state: BreakerState
    #: While it is closed: the failures that it counts now, in a row or among its last results.
    failures: int = 0
    #: While it is open: until when, in seconds by its clock, and which time in a row it is open, from 1 on.
    until: Optional[float] = None
    trip: int = 0
    #: While it is half open: the probes that it admitted, and those that succeeded.
    admitted: int = 0
    won: int = 0


class ThrottleSeen(NamedTuple):
    """What a throttle counts over its two windows."""

    requests: int
    accepts: int


class AdaptiveSeen(NamedTuple):
    """The state of an adaptive limit."""

    #: The calls that are under way.
    inside: int
    #: How many there may be at once, of which the whole part counts.
    level: float


#: What `seen()` returns.
Seen = Union[BucketSeen, InFlightSeen, BreakerSeen, ThrottleSeen, AdaptiveSeen]
