"""Limits that a call asks before its first attempt too: of retries in flight, of other systems, and several at once;
and a limit for each key."""

from .adaptive import Adaptive
from .breaker import Breaker
from .kinds import Bucket, InFlight, Throttle
from .limit import CallLimit, Request, look_at_no_limit
from .pairs import both
from .per_key import PerHost, PerKey, look_at_no_keys
from .seen import AdaptiveSeen, BreakerSeen, BreakerState, BucketSeen, InFlightSeen, Seen, ThrottleSeen

__all__ = [
    "Adaptive",
    "AdaptiveSeen",
    "Breaker",
    "BreakerSeen",
    "BreakerState",
    "Bucket",
    "BucketSeen",
    "CallLimit",
    "InFlight",
    "InFlightSeen",
    "PerHost",
    "PerKey",
    "Request",
    "Seen",
    "Throttle",
    "ThrottleSeen",
    "both",
    "look_at_no_keys",
    "look_at_no_limit",
]
