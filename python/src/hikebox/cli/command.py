"""How `hikebox run` starts a command: its environment, and scripts that don't name their shell."""

from __future__ import annotations

import errno
import math
import os
import shutil
import time
from typing import Any, Dict, List, Optional

from ..retry.deadline import seconds_left

__all__ = ["Environment", "spawned"]

#: What tell a command how many seconds it is until the deadline, and the number of its attempt.
_LEFT, _ATTEMPT = "HIKEBOX_SECONDS_LEFT", "HIKEBOX_ATTEMPT"

#: What runs a script that doesn't name its shell, as by execvp(3).
_SHELL = "/bin/sh"


class Environment:
    """The environment of the commands of a run, which began just now."""

    def __init__(self) -> None:
        self._given = _given()
        left = _seconds(self._given.get(_LEFT))
        #: The deadline of a run that this one is a command of.
        self._outer = None if left is None else time.monotonic() + left

    def of_attempt(self, number: int) -> Dict[str, str]:
        """That of this attempt, which begins now."""
        told = {**self._given, _ATTEMPT: str(number)}
        lefts = [] if self._outer is None else [max(0.0, self._outer - time.monotonic())]
        own = seconds_left()
        if own is not None:
            lefts.append(own)
        if lefts:
            told[_LEFT] = f"{min(lefts):.3f}"
        return told


def _given() -> Dict[str, str]:
    """The environment that hikebox was started with. In the locale "C" Python adds an LC_CTYPE to its own."""
    given = dict(os.environ)
    if "LC_CTYPE" in given:
        try:
            with open("/proc/self/environ", "rb") as file:
                began = file.read().split(b"\0")
        except OSError:
            return given
        if not any(word.startswith(b"LC_CTYPE=") for word in began):
            del given["LC_CTYPE"]
    return given


def _seconds(text: Optional[str]) -> Optional[float]:
    """The seconds in a text, or None if there are none."""
    try:
        found = math.nan if text is None else float(text)
    except ValueError:
        return None
    return found if 0.0 <= found < math.inf else None


def spawned(command: List[str], environment: Dict[str, str], how: Dict[str, Any]) -> int:
    """Starts a command, and gives its id."""
    try:
        return os.posix_spawnp(command[0], command, environment, **how)
    except OSError as error:
        script = shutil.which(command[0]) if error.errno == errno.ENOEXEC else None
        if script is None or not _is_text(script):
            raise
    return os.posix_spawn(_SHELL, [_SHELL, script, *command[1:]], environment, **how)


def _is_text(path: str) -> bool:
    """Whether a file may be a script: shells look for a null byte, as a program for another machine has."""
    with open(path, "rb") as file:
        return b"\0" not in file.read(256)
