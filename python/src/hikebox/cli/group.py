"""The process group of one attempt of `hikebox run`."""

from __future__ import annotations

import os
import signal
import time
from typing import Optional

from .terminal import processes

__all__ = ["Group"]


class Group:
    """A command and all that it starts, but for what makes a group or a session of its own.

    `command` is the id of the command, and `number` that of the group. `grace` is how many seconds it has after a
    SIGTERM.
    """

    def __init__(self, command: int, number: int, timeout: Optional[float], grace: float) -> None:
        self.command = command
        self.number = number
        self.grace = grace
        #: The moment at which it is signalled, and with what.
        self.until = None if timeout is None else time.monotonic() + timeout
        self._next = signal.SIGTERM

    @property
    def is_told(self) -> bool:
        """Whether it was told to end."""
        return self._next is not signal.SIGTERM

    def send(self, number: int) -> None:
        """Sends a signal to all of it."""
        try:
            os.killpg(self.number, number)
        except (ProcessLookupError, PermissionError):
            pass  # it is over, or it is no longer hikebox's to end

    def end(self) -> None:
        """Tells it to end: by SIGTERM, and the next time by SIGKILL."""
        self.send(self._next)
        self.send(signal.SIGCONT)
        if self.is_told:
            self.until = None
        else:
            self.expect_end()

    def expect_end(self) -> None:
        """It was told to end: what is left of it after its time gets a SIGKILL."""
        self._next = signal.SIGKILL
        self.until = time.monotonic() + self.grace

    def is_living(self) -> bool:
        """Whether any of it runs. It may have no process that hikebox may signal, but those of other users."""
        self._reap()
        try:
            os.killpg(self.number, 0)
        except (ProcessLookupError, PermissionError):
            return False
        try:
            if any(own.group == self.number and own.state not in "ZX" for own in processes().values()):
                return True
        except OSError:
            return True  # there is no /proc
        self._reap()  # what has died since
        return False

    def _reap(self) -> None:
        """Reaps what is left to hikebox of it, as the first process of a container."""
        try:
            while os.waitpid(-self.number, os.WNOHANG) != (0, 0):
                pass
        except ChildProcessError:
            pass
