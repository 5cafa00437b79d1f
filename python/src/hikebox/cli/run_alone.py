"""How `hikebox run` runs a command on macOS and Windows, which tell no signals to who waits for them.

An attempt is the command alone: where it takes too long it is ended, and what it has started itself goes on.
"""

from __future__ import annotations

import errno
import math
import os
import shutil
import signal
import subprocess
import time
from typing import Any, Dict, List, Optional

from .run import TIMED_OUT, Ended, OutputTooLong, Runner
from .terminal import signals_of

__all__ = ["LoneRunner"]

#: Signals that end the run. A terminal sends the first ones to the command too.
_FROM_TERMINAL = signals_of("SIGINT SIGQUIT SIGBREAK")
_ENDING = (*_FROM_TERMINAL, *signals_of("SIGTERM SIGHUP"))

#: How many seconds pass at most until something is looked at.
_LOOKS = 0.05


class LoneRunner(Runner):
    """The attempts of one run, each the command alone."""

    def __enter__(self) -> LoneRunner:
        super().__enter__()
        self._before: Dict[int, Any] = {}
        self._process: Optional[subprocess.Popen[bytes]] = None
        for number in _ENDING:
            if signal.getsignal(number) is not signal.SIG_IGN:
                self._before[number] = signal.signal(number, self._heed)
        return self

    def __exit__(self, *_: Any) -> None:
        for number, before in self._before.items():
            signal.signal(number, before)
        super().__exit__()

    def attempt(self) -> None:
        if self.ended_by is not None:
            raise Ended(128 + self.ended_by)
        self.begins()
        self.is_late = False
        try:
            self._process = self._started(self.command)
        except OSError as error:
            raise self.not_started(error) from None
        try:
            status = self._await(self._process)
        finally:
            self._process = None
        self.judged(TIMED_OUT if self.is_late else status)

    def wait(self, seconds: float) -> None:
        until = time.monotonic() + seconds
        try:
            while self.ended_by is None:
                left = until - time.monotonic()
                if left <= 0:
                    return
                self.line.show(f"hikebox: {self.waits_for} in {max(1, math.ceil(left - 0.01))} s")
                time.sleep(min(left, _LOOKS))
        finally:
            self.line.clear()
        raise Ended(128 + self.ended_by)

    def _started(self, command: List[str]) -> subprocess.Popen[bytes]:
        # (Windows looks for the endings of programs, such as .cmd, by `which` alone)
        program = shutil.which(command[0]) or command[0]
        how: Any = {"stdin": self.input, "stdout": self.output, "env": self.environment.of_attempt(self.number)}
        try:
            return subprocess.Popen([program, *command[1:]], **how)
        except OSError as error:
            if error.errno != errno.ENOEXEC or os.name != "posix":
                raise
        return subprocess.Popen(["/bin/sh", program, *command[1:]], **how)

    def _await(self, process: subprocess.Popen[bytes]) -> int:
        """Waits for the command, and ends it where it takes too long: its status."""
        timeout, told = self.options.timeout, 0
        until = None if timeout is None else time.monotonic() + timeout
        while True:
            left = _LOOKS if until is None else min(_LOOKS, max(0.0, until - time.monotonic()))
            try:
                status = process.wait(left)
                return status if status >= 0 else 128 - status
            except subprocess.TimeoutExpired:
                pass
            if until is None and self.ended_by is not None:
                until = time.monotonic() + self.options.grace
            elif until is not None and time.monotonic() >= until:
                self.is_late = self.is_late or self.ended_by is None
                process.terminate() if told == 0 else process.kill()
                told, until = told + 1, time.monotonic() + self.options.grace
            if self.has_too_long_output():
                process.kill()
                process.wait()
                raise OutputTooLong()

    def _heed(self, number: int, _: Any) -> None:
        """Notes a signal that ends the run, and passes it on where no terminal has done that."""
        self.ended_by = number
        process = self._process
        if process is not None and number not in _FROM_TERMINAL:
            try:
                process.terminate()
            except OSError:
                pass  # it is over
