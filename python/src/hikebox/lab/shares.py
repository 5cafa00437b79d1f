"""How much of a page's storms is played, about."""

from __future__ import annotations

import threading
from typing import Callable, List, Sequence, Tuple

from ..policy import Policy
from ..storms.estimates import seconds_of, time_of_this_thread
from ..storms.storm import Storm, play
from ..storms.parameters import Parameters

__all__ = ["Told", "play_telling", "silent"]

#: Is told the share of what is played, from 0 to 1.
Told = Callable[[float], None]
#: How often that is told, in seconds.
_TICK = 0.25


def silent(share: float) -> None:
    """Tells nothing."""


def play_telling(wanted: Sequence[Tuple[Policy, Parameters]], told: Told) -> List[Storm]:
    """The storms, one after another."""
    seconds = [seconds_of(*each) for each in wanted]
    known = [each for each in seconds if each is not None]
    if len(known) < len(seconds) or not sum(known):
        return [play(*each) for each in wanted]
    played: List[Storm] = []
    for index, each in enumerate(wanted):
        begins, ends = (sum(known[:to]) / sum(known) for to in (index, index + 1))
        with _Ticks(lambda used: told(begins + (ends - begins) * min(0.99, used / known[index]))):
            played.append(play(*each))
    return played


class _Ticks:
    """Tells again and again how much processor time this thread has used since it was entered."""

    def __init__(self, told: Callable[[float], None]) -> None:
        self.told = told
        self.used = time_of_this_thread()
        # (an event would make a lock for each wait, and a storm may take all the memory that there is)
        self.under_way = threading.Lock()
        self.thread = threading.Thread(target=self._tick, args=(self.used(),), daemon=True)

    def __enter__(self) -> None:
        self.under_way.acquire()
        self.thread.start()

    def __exit__(self, *_: object) -> None:
        self.under_way.release()
        self.thread.join()

    def _tick(self, begins: float) -> None:
        try:
            while not self.under_way.acquire(timeout=_TICK):
                self.told(self.used() - begins)
        except MemoryError:
            pass  # the storm meets the same, and says so
