"""A line of standard error that is rewritten while something waits."""

from __future__ import annotations

import os
from typing import TextIO

__all__ = ["StatusLine"]


class StatusLine:
    """A line at the bottom of a terminal. Where the stream is no terminal, or it is not wanted, it does nothing."""

    def __init__(self, stream: TextIO, wanted: bool) -> None:
        self.stream = stream
        #: Whether there is anything to rewrite.
        self.is_on = wanted and stream.isatty()
        self._shown = ""

    def show(self, text: str) -> None:
        """Has the line say this, as much of it as the terminal has room for: a longer one could not be rewritten."""
        if self.is_on and text != self._shown:
            self._write(f"\r{text[: self._room()]}\033[K")
            self._shown = text

    def clear(self) -> None:
        """Takes the line away."""
        if self._shown:
            self._write("\r\033[K")
            self._shown = ""

    def _room(self) -> int:
        try:
            columns = os.get_terminal_size(self.stream.fileno()).columns
        except OSError:
            columns = 0
        return columns - 1 if columns > 1 else 80

    def _write(self, text: str) -> None:
        try:
            self.stream.write(text)
            self.stream.flush()
        except OSError:
            self.is_on = False
