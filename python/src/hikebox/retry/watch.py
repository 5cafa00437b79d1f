"""What counts the retries of the process for others: nothing, until `hikebox.metrics` adds a watcher."""

from __future__ import annotations

import sys
import threading
from collections import deque
from typing import TYPE_CHECKING, Any, Deque, Protocol, Tuple

from .state import Ending

if TYPE_CHECKING:
    from .progress import Progress

__all__ = ["Watcher", "name_of", "watch"]


class Watcher(Protocol):
    """What hears of each call that is over, and of each wait."""

    def ended(self, call: str, attempts: int, ending: str) -> None:
        """A call is over, after so many attempts."""

    def refused(self, call: str, limit: str, reason: str) -> None:
        """A limit of this type refused a call its first attempt, or a retry."""

    def waits(self, call: str, seconds: float) -> None:
        """A call begins to wait for its next attempt."""


class _Watch:
    """The watchers, and what they have not been told yet.

    A finalizer, or the handler of a signal, may end a call in the middle of a watcher's work, whose locks the same
    thread then holds. So what a finalizer's call is told by waits for the next one, and what a handler's is for the end
    of that work.
    """

    __slots__ = ("watchers", "_untold", "_here")

    def __init__(self) -> None:
        self.watchers: Tuple[Watcher, ...] = ()
        self._untold: Deque[Tuple[Any, ...]] = deque()
        #: Whether this thread tells watchers.
        self._here = threading.local()

    def succeeded(self, fn: Any) -> None:
        """A call succeeded at its first attempt."""
        self._untold.append(("ended", name_of(fn), 1, "won"))
        self._tell()

    def ended(self, progress: Progress, is_finalized: bool) -> None:
        """A retry is over."""
        state = progress.state
        ending, call = state.ending or Ending.CANCELLED, name_of(state.fn)
        self._untold.append(("ended", call, state.attempt_number, ending.name.lower()))
        if ending in (Ending.LIMIT_REFUSED, Ending.NOT_ADMITTED):
            reason = "used_up" if state.refusal is None else state.refusal.reason.name.lower()
            self._untold.append(("refused", call, type(progress.settings.limit).__name__, reason))
        if not is_finalized and not isinstance(sys.exc_info()[1], GeneratorExit):
            self._tell()

    def waits(self, progress: Progress, seconds: float) -> None:
        """A retry begins to wait."""
        self._untold.append(("waits", name_of(progress.state.fn), seconds))
        self._tell()

    def _tell(self) -> None:
        """Tells the watchers what they have not been told yet, one call after the other."""
        here = self._here
        if getattr(here, "tells", False):
            return
        try:
            here.tells = True
            while self._untold:
                self._tell_next()
        finally:
            here.tells = False

    def _tell_next(self) -> None:
        """Tells them of the next call, where no other thread does. What they raise is logged, and ends no call."""
        try:
            event, *told = self._untold.popleft()
        except IndexError:
            return
        for watcher in self.watchers:
            try:
                getattr(watcher, event)(*told)
            except Exception:
                import logging  # which others need not load

                logging.getLogger("hikebox").exception("%r could not count a call", watcher)


watch = _Watch()


def name_of(fn: Any) -> str:
    """What is called, with its module: a name that is the same for each call."""
    if fn is None:
        return "a block"
    function = getattr(fn, "func", fn)  # (of a partial)
    named: Any = function if hasattr(function, "__qualname__") else type(function)
    name = f"{named.__module__}.{named.__qualname__}"
    return name[: -len(_ATTEMPT)] if name.endswith(_ATTEMPT) else name


#: What an adapter calls, which is named by the adapter.
_ATTEMPT = "._attempt"
