"""A slot: the file of one count, which survives a kill, a full disk and the loss of either half.

A slot is 1024 bytes, two copies of 512. A copy has a turn, the counts, their key, the number of the file, and a
checksum. A write raises the turn and overwrites both copies in place, so a full disk can't stop or damage it. A
read takes the valid copy of the greater turn.
"""

from __future__ import annotations

import contextlib
import errno
import io
import os
import secrets
import struct
import time
import zlib
from typing import NamedTuple, Optional

from .._engine.leasing import Stored
from .._forks import begins_anew_in_a_child, no_fork
from ..errors import StoreError, StoreLost
from .machine import sync, try_lock, unlock

__all__ = ["NO_BOOT", "SIZE", "Copy", "Slot", "make_slot", "slot_path", "unpack"]

_MAGIC = b"hikebox slot 1\n\0"
_COPY = 512
SIZE = 2 * _COPY
#: A copy up to its checksum: the magic, the turn, the window, the tickets given, the requests asked, the boot, the
#: length of the key, the key, and the number of the file.
_BODY = struct.Struct("<16s4Q36sH2x416sL")
_CHECK = struct.Struct("<I")
#: The boot of a count that goes on after the machine is restarted.
NO_BOOT = bytes(36)

#: The turn after which there is none: it is only ever met in a file that something else wrote.
_LAST_TURN = 2**64 - 1

#: How many seconds pass between two tries to lock a file.
_PAUSE = 0.001


class Copy(NamedTuple):
    """What one copy of a slot says."""

    key: bytes
    turn: int
    window: int
    given: int
    asked: int
    boot: bytes
    #: A random number that the file is made with: one that is made anew has another.
    file: int = 0

    def pack(self) -> bytes:
        """Its 512 bytes."""
        body = _BODY.pack(_MAGIC, *self[1:6], len(self.key), self.key, self.file)
        return body + _CHECK.pack(zlib.crc32(body))

    def stored(self, boot: bytes) -> Stored:
        """The counts of this start of the machine: nothing where they are of another."""
        return Stored(self.window, self.given, self.asked) if self.boot == boot else Stored()


def _unpack_copy(data: bytes) -> Optional[Copy]:
    body = data[: _BODY.size]
    if _CHECK.unpack(data[_BODY.size :]) != (zlib.crc32(body),):
        return None
    magic, turn, window, given, asked, boot, length, key, file = _BODY.unpack(body)
    return Copy(key[:length], turn, window, given, asked, boot, file) if magic == _MAGIC else None


def unpack(data: bytes, key: Optional[bytes] = None) -> Optional[Copy]:
    """The valid copy of the greater turn, of this key or of any: None where no copy is valid."""
    if len(data) != SIZE:
        return None
    found: Optional[Copy] = None
    for copy in (_unpack_copy(data[:_COPY]), _unpack_copy(data[_COPY:])):
        if copy is not None and key in (None, copy.key) and (found is None or copy.turn > found.turn):
            found = copy
    return found


class _File(io.FileIO):
    """An open file of this process: a forked child closes it, since its lock is the parent's."""

    @classmethod
    def opened(cls, path: str, mode: str) -> _File:
        """The file at this path, open."""
        # a child has to know of each file that is open, also of one that a signal's handler forks in here
        with no_fork:
            file = cls.__new__(cls)
            begins_anew_in_a_child(file)
            file.__init__(path, mode)  # type: ignore[misc]
            return file

    def begin_anew(self) -> None:
        """In a forked child: closes the file."""
        self.close()

    def fileno(self) -> int:
        """Its number, where no fork has closed it."""
        try:
            return super().fileno()
        except ValueError:
            raise StoreError(f"{self.name!r}: the process was forked in the middle of a lease") from None


def slot_path(folder: str, key: bytes) -> str:
    """Where the slot of a key is: the key's FNV-1a hash, in a subfolder of its first two digits."""
    number = 0xCBF29CE484222325
    for byte in key:
        number = (number ^ byte) * 0x100000001B3 & 0xFFFFFFFFFFFFFFFF
    digits = f"{number:016x}"
    return os.path.join(folder, digits[:2], digits[2:])


def make_slot(path: str, first: Copy, to_disk: bool) -> None:
    """Makes a slot, whole beside its name and then linked to that, unless another process was first."""
    folder = os.path.dirname(path)
    beside = os.path.join(folder, f".new-{os.getpid()}-{secrets.token_hex(8)}")
    with contextlib.closing(_File.opened(beside, "x+")) as file:
        try:
            _write(file.fileno(), 2 * first.pack())
            if to_disk:
                sync(file.fileno())
            with contextlib.suppress(FileExistsError):
                os.link(beside, path)
        finally:
            with contextlib.suppress(FileNotFoundError):
                os.unlink(beside)
    if to_disk:
        sync_folder(folder)


def sync_folder(path: str) -> None:
    """Writes the names in a folder to the disk."""
    # (no child has it open)
    with no_fork:
        folder = os.open(path, os.O_RDONLY | os.O_DIRECTORY | os.O_CLOEXEC)
        try:
            sync(folder)
        finally:
            os.close(folder)


class Slot:
    """The file of a key, or of any, for one user at a time: open, and locked by `lock`."""

    __slots__ = ("path", "key", "_to_disk", "_read", "_file")

    def __init__(self, path: str, key: bytes = b"", to_disk: bool = False) -> None:
        self.path = path
        self.key = key
        self._to_disk = to_disk
        #: What was read of it.
        self._read = Copy(key, 0, 0, 0, 0, NO_BOOT)
        self._file = _File.opened(path, "r+")

    def lock(self, patience: float) -> bool:
        """Locks the file, within so many seconds: False where its name is another file's by then, or nobody's."""
        given_up_at = time.monotonic() + patience
        while True:
            # (a process that was held up for as long tries once more)
            is_last = time.monotonic() >= given_up_at
            if try_lock(self._file.fileno()):
                return self._is_named()
            if is_last:
                raise StoreError(f"{self.path}: could not acquire its lock in {patience:g} s")
            time.sleep(_PAUSE)

    def read(self) -> Copy:
        """Its counts, where it is the slot of its key."""
        data = self.content()
        copy = unpack(data, self.key)
        if copy is None:
            other = unpack(data)
            found = "something else" if other is None else f"the slot of {other.key.decode(errors='replace')!r}"
            raise StoreLost(f"{self.path}: expected the slot of {self.key.decode()!r}, got {found}")
        if copy.turn == _LAST_TURN:
            raise StoreLost(f"{self.path}: expected a turn before the last one, got {copy.turn}")
        self._read = copy
        return copy

    def write(self, boot: bytes, stored: Stored) -> None:
        """Writes these counts in the place of those that were read."""
        turn, file = self._read.turn + 1, self._read.file
        copy = Copy(self.key, turn, stored.window, stored.given, stored.asked, boot, file)
        _write(self._file.fileno(), 2 * copy.pack())
        if self._to_disk:
            sync(self._file.fileno())

    @property
    def file(self) -> int:
        """The number of the file, once it was read."""
        return self._read.file

    def content(self) -> bytes:
        """What the file has, up to one byte more than a slot."""
        return os.pread(self._file.fileno(), SIZE + 1, 0)

    def age(self) -> float:
        """How many seconds ago the file was changed."""
        return time.time() - os.fstat(self._file.fileno()).st_mtime

    def close(self) -> None:
        """Unlocks and closes the file. (To close it is not enough, where a child was forked that has it open too.)"""
        if not self._file.closed:
            unlock(self._file.fileno())
            self._file.close()

    def _is_named(self) -> bool:
        try:
            return os.path.samestat(os.fstat(self._file.fileno()), os.stat(self.path))
        except FileNotFoundError:
            return False


def _write(file: int, data: bytes) -> None:
    if os.pwrite(file, data, 0) != len(data):
        raise OSError(errno.ENOSPC, os.strerror(errno.ENOSPC))
