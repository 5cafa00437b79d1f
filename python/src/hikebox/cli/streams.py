"""Standard streams: those that hikebox was started without, and those that fail."""

from __future__ import annotations

import io
import os
import sys
from contextlib import contextmanager
from typing import Iterator

__all__ = ["named", "settle", "tell", "writes_utf_8"]


@contextmanager
def named(what: str) -> Iterator[None]:
    """Has an error of the system say what failed, such as `write failed: standard output`."""
    try:
        yield
    except OSError as error:
        raise OSError(error.errno, f"{what}: {error.strerror}") from error


def settle() -> None:
    """Takes the numbers of standard streams that are closed.

    So no file gets one of these numbers, and a command that is run has the same streams closed. Reading such a stream
    fails, and so does writing to it; what is written to standard error is dropped. A character that standard output
    has no bytes for is written as an escape.
    """
    for number, flags in ((0, os.O_WRONLY), (1, os.O_RDONLY), (2, os.O_WRONLY)):
        try:
            os.fstat(number)
        except OSError:
            taken = os.open(os.devnull, flags)
            if taken != number:
                os.dup2(taken, number, inheritable=False)
                os.close(taken)
    if sys.stdout is None:
        sys.stdout = open(1, "w", encoding="utf-8", closefd=False)
    if sys.stderr is None:
        sys.stderr = open(2, "w", encoding="utf-8", closefd=False)
    if isinstance(sys.stdout, io.TextIOWrapper):
        # (lines end as on Linux also on Windows, so that all systems print the same)
        errors = "backslashreplace" if sys.stdout.errors == "strict" else sys.stdout.errors
        sys.stdout.reconfigure(errors=errors, newline="\n")


def writes_utf_8() -> None:
    """Writes to standard output as UTF-8 from here on, whatever the locale."""
    if isinstance(sys.stdout, io.TextIOWrapper):
        sys.stdout.reconfigure(encoding="utf-8")


def tell(text: str) -> None:
    """Writes a text to standard error. What can't be written is dropped, since no run and no status depends on it."""
    try:
        sys.stderr.write(text)
        sys.stderr.flush()
    except OSError:
        # (the stream keeps what it could not write, and would try again)
        sys.stderr = open(2, "w", encoding=sys.stderr.encoding, errors="backslashreplace", closefd=False)
