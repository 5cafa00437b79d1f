"""One retry for a library that makes the attempts and the waits itself, and asks only how long to wait."""

from __future__ import annotations

from typing import Optional

from ..retry.drivers import settle
from ..retry.progress import Progress
from ..retry.state import Outcome
from ..retry.steps import RUN, steps

__all__ = ["Waits"]


class Waits:
    """The waits of one retry, whose attempts fail."""

    __slots__ = ("progress", "_driven", "_want")

    def __init__(self, progress: Progress) -> None:
        self.progress = progress
        self._driven = steps(progress, is_counted=True, is_judged=True)
        self._want = settle(self._driven, self._driven.send(None))

    def after(self, outcome: Outcome, attempt: int) -> Optional[float]:
        """The seconds to wait after this attempt, which failed so; None where no other follows, and then the retry is
        over."""
        progress, driven = self.progress, self._driven
        if self._want is not RUN:  # (the library has made the attempt, which may have begun past the deadline)
            self._want = settle(driven, driven.send(None))
        progress.state.attempt_number = attempt
        if self._want is RUN:
            self._want = settle(driven, driven.send(outcome))
        if not isinstance(self._want, float):
            progress.close()
            return None
        progress.holds_ticket = False  # (the library does not say whether the next attempt begins)
        progress.state.outcome = None  # (an exception would keep the frames of the call, and they this retry)
        return self._want
