"""The stories and the limits that are played: what the peer, the clients and the storm are all told."""

from __future__ import annotations

import time
from dataclasses import dataclass, replace
from typing import Callable, Dict, Iterator, Optional, Tuple, Union

from hikebox import Adaptive, Breaker, Bucket, CallLimit, InFlight, Quota, Throttle, spaced

Clock = Callable[[], float]
Limit = Union[None, Quota, CallLimit]


@dataclass(frozen=True)
class Story:
    """How requests come, and what the peer does: seconds, and calls a second."""

    name: str
    rate: int = 80
    #: From when to when requests come at another rate.
    surge: Optional[Tuple[float, float, int]] = None
    seconds: int = 60
    #: What each replica serves a second, and how many calls may wait there.
    capacity: int = 100
    queue: int = 500
    replicas: int = 1
    #: When the peer refuses all calls, or only the first so many replicas do.
    outage: Optional[Tuple[float, float]] = None
    down: Optional[int] = None
    #: From when to when the peer works at a share of its capacity.
    slow: Optional[Tuple[float, float, float]] = None
    patience: float = 0.5
    policy: str = "recurs(8) & exponential(0.1, 2).cap(10).jittered(0, 1)"
    #: The share of the requests that come from clients without the limit.
    unlimited: float = 0.0
    #: Whether the peer is nginx, and for how many seconds it asks clients to wait where it sheds a request.
    is_nginx: bool = False
    retry_after: Optional[int] = None

    @property
    def over(self) -> float:
        """The moment from which on the peer is well."""
        return max(self.outage[1] if self.outage else 0, self.slow[1] if self.slow else 0)

    @property
    def until(self) -> float:
        """The moment after which nothing is counted."""
        return self.seconds + 60

    def capacity_at(self, moment: float) -> float:
        """What a replica serves a second at a moment."""
        begins, ends, share = self.slow or (0, 0, 1)
        return self.capacity * (share if begins <= moment < ends else 1)

    def refuses_at(self, moment: float, replica: int) -> bool:
        """Whether a replica refuses calls at a moment."""
        begins, ends = self.outage or (0, 0)
        return begins <= moment < ends and (self.down is None or replica < self.down)

    def moments(self, share: float) -> Iterator[float]:
        """When each request of clients with this share of all comes: at an even pace."""
        begins, ends, surge = self.surge or (0, 0, 0)
        moment = 0.0
        while moment < self.seconds - 1e-9:
            yield moment
            moment += 1 / (share * (surge if begins <= moment < ends else self.rate))


STORIES: Dict[str, Story] = {
    story.name: story
    for story in (
        Story("outage", outage=(10, 20)),
        Story("brown-out", slow=(10, 20, 0.5)),
        Story("dead replica", capacity=50, queue=250, replicas=2, outage=(10, 20), down=1),
        Story("surge", surge=(10, 15, 240)),
        Story("outage, 30 % without", outage=(10, 20), unlimited=0.3),
    )
}

_NGINX = Story("nginx, outage", rate=20, capacity=25, queue=125, outage=(10, 20), is_nginx=True)

#: The same of nginx, which is killed and started again.
NGINX: Dict[str, Story] = {
    story.name: story
    for story in (
        _NGINX,
        replace(_NGINX, name="nginx, surge", outage=None, surge=(10, 15, 60)),
        replace(_NGINX, name="nginx, outage, Retry-After: 5", retry_after=5),
    )
}

#: What makes each limit, by a clock that begins with the play.
LIMITS: Dict[str, Callable[[Clock], Limit]] = {
    "none": lambda clock: None,
    "quota": lambda clock: Quota(reserve=1, share=0.1, per=1, clock=clock),
    "bucket": lambda clock: Bucket.aws(),
    "breaker": lambda clock: Breaker(5, spaced(30), probe_deadline=1, clock=clock),
    "throttle": lambda clock: Throttle(2.0, 60, clock=clock),
    "in flight": lambda clock: InFlight.envoy(),
    "adaptive": lambda clock: Adaptive(),
}


class PlayClock:
    """Seconds since a play began, by a clock that all processes of the machine share."""

    def __init__(self, start: float) -> None:
        self.start = start

    def __call__(self) -> float:
        return time.monotonic() - self.start
