"""Plays storms on all cores."""

from __future__ import annotations

import os
from concurrent.futures import ThreadPoolExecutor, wait
from typing import Callable, Dict, Hashable, List, Optional, Sequence, Tuple

from ..policy import Policy
from .estimates import Estimate
from .parameters import Parameters
from .storm import Storm, play

__all__ = ["Told", "play_all", "silent"]

#: Is told how many storms are played, of how many, and about the share of all that is played, where that says more.
Told = Callable[[int, int, Optional[float]], None]
#: How often that is told, in seconds.
_TICK = 0.25


def silent(done: int, all: int, share: Optional[float] = None) -> None:
    """Tells nothing."""


def play_all(
    wanted: Sequence[Tuple[Policy, Parameters]], told: Told = silent, has_populations: bool = False
) -> List[Storm]:
    """The storms, of which as many are played at once as there are processors. Equal ones are played once. With
    `has_populations` each has the reports on its populations already."""
    distinct = {(repr(policy), how): (policy, how) for policy, how in wanted}
    pool = ThreadPoolExecutor(max_workers=_processors())
    try:
        player = _Player(told is not silent, has_populations)
        futures = {key: pool.submit(player.play, key, *each) for key, each in distinct.items()}
        waiting = set(futures.values())
        while waiting:
            done, waiting = wait(waiting, timeout=_TICK)
            for future in done:
                future.result()
            count = len(futures) - len(waiting)
            told(count, len(futures), player.share(count, len(futures)))
    finally:
        pool.shutdown(wait=False, cancel_futures=True)
    return [futures[repr(policy), how].result() for policy, how in wanted]


def _processors() -> int:
    """How many processors this process may use, where the system says that."""
    return len(os.sched_getaffinity(0)) if hasattr(os, "sched_getaffinity") else os.cpu_count() or 1


class _Player:
    """Plays storms in threads, and estimates how much of those that are under way is played, where that is wanted."""

    def __init__(self, estimates: bool, has_populations: bool) -> None:
        self._estimates = estimates
        self._has_populations = has_populations
        self._under_way: Dict[Hashable, Estimate] = {}

    def play(self, key: Hashable, policy: Policy, parameters: Parameters) -> Storm:
        """The storm."""
        if self._estimates:
            times = 1 + len(parameters.populations(policy)) * self._has_populations
            self._under_way[key] = Estimate(policy, parameters, times)
        try:
            played = play(policy, parameters)
            if self._has_populations:
                played.populations  # (which are played once they are asked for)
            return played
        finally:
            self._under_way.pop(key, None)

    def share(self, done: int, all: int) -> Optional[float]:
        """About the share of all storms that is played; None where nothing is known of those under way."""
        known = [share for share in (each.share() for each in [*self._under_way.values()]) if share is not None]
        return (done + sum(known)) / all if known else None
