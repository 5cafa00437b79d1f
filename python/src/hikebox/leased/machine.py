"""What the processes of a machine have in common: its uptime, the name of its present start, and the locks of files."""

from __future__ import annotations

import contextlib
import os
import sys
import time
from typing import Any, Optional

from .._forks import begins_anew_in_a_child
from ..errors import StoreError

fcntl: Any
try:
    import fcntl
except ImportError:  # Windows
    fcntl = None

__all__ = ["has_locks", "shared_uptime", "sync", "this_boot", "try_lock", "unlock", "uptime"]

#: The clock that counts from the machine's start, also while it sleeps, and that nobody can set: that of Linux, and
#: that of macOS. (Linux has the second one too, and stops it while the machine sleeps.)
_UPTIME = getattr(time, "CLOCK_BOOTTIME", getattr(time, "CLOCK_MONOTONIC_RAW", None))

#: Linux's name of this start of the machine. A chroot without /proc has none.
_BOOT_ID = "/proc/sys/kernel/random/boot_id"


def uptime() -> float:
    """Seconds since the machine started, including those in which it slept. Nobody can set this clock."""
    return time.monotonic() if _UPTIME is None else time.clock_gettime(_UPTIME)


def shared_uptime() -> int:
    """Nanoseconds since the machine started, by the clock that all its processes share. That of a process in a time
    namespace is shifted."""
    return (time.monotonic_ns() if _UPTIME is None else time.clock_gettime_ns(_UPTIME)) - _present.shift()


def this_boot() -> bytes:
    """A name of this start of the machine, of 36 bytes."""
    return _present.boot()


class _Present:
    """What a process reads once: it stays in its time namespace, and sees one start of its machine. A child that is
    forked may be in another container."""

    __slots__ = ("_boot", "_shift", "__weakref__")

    def __init__(self) -> None:
        self.begin_anew()
        begins_anew_in_a_child(self)

    def begin_anew(self) -> None:
        self._boot: Optional[bytes] = None
        self._shift: Optional[int] = None

    def boot(self) -> bytes:
        boot = self._boot
        if boot is None:
            self._boot = boot = _boot_session() if sys.platform == "darwin" else _boot_id()
        return boot

    def shift(self) -> int:
        """By how many nanoseconds this process's clock is ahead of the machine's."""
        shift = self._shift
        if shift is None:
            self._shift = shift = _time_offset()
        return shift


_present = _Present()


def _boot_id() -> bytes:
    try:
        return _content(_BOOT_ID)[:36]
    except OSError as error:
        raise StoreError(f"{_BOOT_ID}: {error.strerror}") from error


def _boot_session() -> bytes:
    """macOS's name of this start of the machine."""
    import ctypes

    name, text, size = "kern.bootsessionuuid", ctypes.create_string_buffer(64), ctypes.c_size_t(64)
    failed = ctypes.CDLL(None).sysctlbyname(name.encode(), text, ctypes.byref(size), None, ctypes.c_size_t(0))
    if failed or len(text.value) != 36:
        raise StoreError(f"{name}: expected a name of 36 bytes, got {text.value!r}")
    return text.value


def _time_offset() -> int:
    """The offset of a time namespace of Linux, in nanoseconds."""
    try:
        offsets = _content("/proc/self/timens_offsets")
    except FileNotFoundError:  # a kernel without time namespaces, or no Linux
        return 0
    for line in offsets.splitlines():
        clock, seconds, nanos = line.split()
        if clock in (b"boottime", b"7"):  # (the first kernels with time namespaces wrote the clock's number)
            return int(seconds) * 10**9 + int(nanos)
    return 0


def _content(path: str) -> bytes:
    """What a small file has."""
    with open(path, "rb", buffering=0) as file:
        # (by its place: a child that a signal's handler forks in here reads the same open file)
        return os.pread(file.fileno(), 4096, 0)


def has_locks() -> bool:
    """Whether this system locks files so that the lock ends with its process, however that ends."""
    return fcntl is not None


def try_lock(file: int) -> bool:
    """Locks an open file, where nobody else has its lock."""
    try:
        fcntl.flock(file, fcntl.LOCK_EX | fcntl.LOCK_NB)
        return True
    except BlockingIOError:
        return False


def unlock(file: int) -> None:
    """Gives the lock up, also where a child that was forked has the file open."""
    fcntl.flock(file, fcntl.LOCK_UN)


def sync(file: int) -> None:
    """Writes an open file, or folder, to the disk."""
    if hasattr(fcntl, "F_FULLFSYNC"):  # macOS, whose `fsync` stops at the disk's own cache
        with contextlib.suppress(OSError):  # of a file system that has no such call
            fcntl.fcntl(file, fcntl.F_FULLFSYNC)
            return
    os.fsync(file)
