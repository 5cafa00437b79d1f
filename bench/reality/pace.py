"""How far a process falls behind, and waits for moments that are reckoned and not slept."""

from __future__ import annotations

import asyncio
from typing import NamedTuple

from stories import PlayClock

#: A tick is due every so many seconds.
TICK = 0.01


class Behind(NamedTuple):
    """The most seconds by which a process fell behind, and when; and the share of its ticks that came late."""

    most: float
    at: float
    share: float


class Pace:
    """Looks every 10 ms how late the loop comes."""

    #: A tick is late past so many seconds.
    LATE = 0.02

    def __init__(self, clock: PlayClock) -> None:
        self._clock = clock
        self._most = self._at = 0.0
        self._ticks = self._late = 0

    async def keep(self) -> None:
        """Ticks from the beginning of the play until it is cancelled."""
        due = 0.0
        while True:
            due += TICK
            await until(self._clock, due)
            behind = self._clock() - due
            self._ticks += 1
            self._late += behind > self.LATE
            if behind > self._most:
                self._most, self._at = behind, due

    @property
    def behind(self) -> Behind:
        """What was seen so far."""
        return Behind(self._most, self._at, self._late / max(1, self._ticks))


async def until(clock: PlayClock, moment: float) -> None:
    """Waits until a moment; other coroutines go on meanwhile also where it is past."""
    await asyncio.sleep(max(0.0, moment - clock()))
