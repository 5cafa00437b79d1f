"""A store of leases in a folder."""

from __future__ import annotations

import contextlib
import os
import re
import secrets
import time
from collections import OrderedDict
from typing import Callable, Iterator, Optional, Tuple, TypeVar, Union

from .._engine.leasing import Stored, lease_of_budget, lease_of_quota
from .._engine.paces import pace_returned, pace_taken
from .._engine.structs import Kept
from .._forks import no_fork
from ..budgets.terms import Terms
from ..errors import StoreError, StoreLost
from ..pace import PaceTerms
from .machine import has_locks, shared_uptime, this_boot
from .slots import NO_BOOT, Copy, Slot, make_slot, slot_path, sync_folder, unpack
from .stores import Present, QuotaRange, Range, Taken, checked_name, checked_seconds, present_window

__all__ = ["FileStore"]

T = TypeVar("T")

#: How often a slot or its folder may be deleted while it is opened, however long that takes. A folder that can't be
#: made so often in a row can't be there at all.
_TRIES = 100
#: Of how many names a store keeps what it has seen.
_MOST_SEEN = 10_000


class FileStore:
    """Counts in a folder, for the processes of one machine.

    Each budget and each quota has a file of its own in the folder, which is made if it is missing. A lease is one
    change of that file under its lock (`flock`). For a budget without windows the change is on the disk before the
    lease is granted. Windows follow the machine's uptime, so a clock that is set or wrong changes nothing, nor does the
    time namespace of a container. The folder must be on a local disk. If you delete it, all its budgets and quotas
    begin anew. A damaged file grants nothing (`StoreLost`), nor does one that counts less than this store has seen.

    `patience` is how many seconds a lease waits for the lock. A relative path becomes absolute when the store is made.
    """

    def __init__(self, path: Union[str, os.PathLike[str]], *, patience: float = 5.0) -> None:
        if not has_locks():
            raise StoreError("a FileStore needs the file locks of Linux or macOS; on this system share by a RedisStore")
        self.path = _checked_path(path)
        self.patience = checked_seconds("patience", patience)
        #: The highest count seen by the key of each file: the number of the file, the window, and its count.
        self._seen: OrderedDict[bytes, Tuple[int, int, int]] = OrderedDict()
        self._look_at_path()

    def __repr__(self) -> str:
        return f"FileStore({self.path!r})"

    def take(self, name: str, count: int, limit: int, period: Optional[int], clock: Callable[[], float]) -> Range:
        """A range of this name's tickets, or of its present window's."""
        checked_name(name)
        if period is None:
            return self._take_of_all(name, count, limit)
        with self._locked(f"windows of {period} ms of {name}") as slot:
            present, boot = _present(period, clock), this_boot()
            stored = self._stored(slot, present.number, boot)
            granted = lease_of_budget(limit, present.number, count, stored)
            if granted is None:
                return Range(0, 0, present.until, present.number, lost=True)
            if granted.tickets:
                self._keep(slot, boot, stored)
            return Range(granted.first, granted.tickets, present.until, present.number)

    def take_of_quota(
        self, name: str, terms: Terms, count: int, asked: Callable[[float], int], clock: Callable[[], float]
    ) -> QuotaRange:
        """Adds requests to the present window of this name's quota, and takes a range of its tickets."""
        checked_name(name)
        with self._locked(f"quota of {terms.period} ms of {name}") as slot:
            present, boot = _present(terms.period, clock), this_boot()
            number, stored = present.number, self._stored(slot, present.number, boot)
            # comes to the window before any request is told, as none is where the file has a later one
            if lease_of_quota(terms, number, 0, 0, stored) is None:
                return QuotaRange(0, 0, present.until, number, 0, lost=True)
            told = asked(present.began_by)
            granted = lease_of_quota(terms, number, told, count, stored)
            assert granted is not None
            if told or granted.tickets:
                self._keep(slot, boot, stored)
            return QuotaRange(granted.first, granted.tickets, present.until, number, stored.asked)

    def _take_of_all(self, name: str, count: int, limit: int) -> Range:
        """A range of a budget without windows."""
        with self._locked(f"budget {name}", to_disk=True) as slot:
            stored = self._stored(slot, 0, None)
            granted = lease_of_budget(limit, 0, count, stored)
            assert granted is not None
            if granted.tickets:
                self._keep(slot, NO_BOOT, stored)
            return Range(granted.first, granted.tickets, None)

    def _stored(self, slot: Slot, window: int, boot: Optional[bytes]) -> Stored:
        """What a slot keeps, of this start of the machine where that is said. A `StoreLost` where this store has seen a
        higher count of the window in the same file: then an older copy was put in its place."""
        copy = slot.read()
        stored = Stored(given=copy.given) if boot is None else copy.stored(boot)
        if stored.window > window:  # the present one's count is lost
            return stored
        counted = stored.given if stored.window == window else 0
        file, seen_window, seen = self._seen.get(slot.key, (copy.file, window, 0))
        if (file, seen_window) == (copy.file, window) and counted < seen:
            found = f"got {counted} of an older copy; to begin anew, delete the file"
            raise StoreLost(f"{slot.path}: expected a count of {seen} or more, {found}")
        self._sees(slot, copy.file, window, counted)
        return stored

    def _keep(self, slot: Slot, boot: bytes, stored: Stored) -> None:
        slot.write(boot, stored)
        self._sees(slot, slot.file, stored.window, stored.given)

    def _sees(self, slot: Slot, file: int, window: int, given: int) -> None:
        self._seen[slot.key] = (file, window, given)
        if len(self._seen) > _MOST_SEEN:
            self._seen.popitem(last=False)

    def take_of_pace(self, name: str, terms: PaceTerms, cost: int) -> Taken:
        """Takes the next moment at which a call under this name's pace may begin."""

        def take(kept: Kept) -> Taken:
            now = shared_uptime() // 10**6
            is_granted, millis, mark = pace_taken(terms, now, cost, kept)
            return Taken(is_granted, millis - now, mark)

        return self.step(_pace_key(name, terms), True, take)

    def give_back_of_pace(self, name: str, terms: PaceTerms, cost: int, mark: int) -> None:
        """Takes it back from a call that does not begin."""
        self.step(_pace_key(name, terms), True, lambda kept: pace_returned(terms, mark, cost, kept))

    def step(self, key: str, of_this_boot: bool, step: Callable[[Kept], T]) -> T:
        """One step of the limit of this key, which changes what is kept of it. What is kept is of this start of the
        machine alone where that is said, and else on the disk before this returns."""
        with self._locked(key, to_disk=not of_this_boot) as slot:
            boot = this_boot() if of_this_boot else NO_BOOT
            stored = slot.read().stored(boot)
            kept = Kept(stored.asked > 0, stored.given)
            answer = step(kept)
            if (kept.known, kept.word) != (stored.asked > 0, stored.given):
                slot.write(boot, Stored(given=kept.word, asked=1))
            return answer

    @contextlib.contextmanager
    def _locked(self, key: str, to_disk: bool = False) -> Iterator[Slot]:
        """The slot of this key, open and locked. It is made where it is missing."""
        spelt = key.encode()
        path = slot_path(self.path, spelt)
        try:
            slot = self._open(path, spelt, to_disk)
            try:
                yield slot
            finally:
                slot.close()
        except OSError as error:
            self._look_at_path()
            raise StoreError(f"{path}: {error.strerror}") from error

    def _open(self, path: str, key: bytes, to_disk: bool) -> Slot:
        turns, unmade, given_up_at = 0, 0, time.monotonic() + self.patience
        while turns < _TRIES or time.monotonic() < given_up_at:
            turns += 1
            try:
                slot = Slot(path, key, to_disk)
            except FileNotFoundError:
                if os.path.islink(path):
                    raise StoreLost(f"{path}: expected a slot, got a link to nothing") from None
                unmade = 0 if _has_folder(path, is_last=unmade + 1 == _TRIES) else unmade + 1
                if not unmade:
                    self._make(path, key, to_disk)
                continue
            try:
                if slot.lock(self.patience):
                    return slot
            except BaseException:
                slot.close()
                raise
            # it was deleted, or its folder was, while this process waited for the lock
            slot.close()
        raise StoreError(f"{path}: it was deleted again and again")

    def _make(self, path: str, key: bytes, to_disk: bool) -> None:
        # (the folder was deleted just now; or a child, which a signal's handler forked, writes beside it by this name)
        with contextlib.suppress(FileNotFoundError, FileExistsError):
            make_slot(path, _nothing_counted(key), to_disk)
            if to_disk:
                sync_folder(self.path)
            _prune(os.path.dirname(path), os.path.basename(path))

    def _look_at_path(self) -> None:
        if os.path.isfile(self.path):
            raise StoreError(
                f"{self.path}: expected a folder, got a file. Counts are kept in a folder now; name another path."
            )


def _pace_key(name: str, terms: PaceTerms) -> str:
    return f"pace {terms.each}/{terms.burst}/{terms.longest} of {checked_name(name)}"


def _has_folder(path: str, is_last: bool) -> bool:
    """Makes a slot's folder: False where it was deleted meanwhile, or can't be made. The last time raises the error."""
    try:
        os.makedirs(os.path.dirname(path), exist_ok=True)
    except (FileNotFoundError, FileExistsError):
        if is_last:
            raise
        return False
    return True


def _checked_path(path: Union[str, os.PathLike[str]]) -> str:
    """The absolute path of a folder, or a `StoreError`: a process that changes its directory keeps the folder."""
    decoded = os.fsdecode(path)
    if not decoded:
        raise StoreError("expected the path of a folder, got an empty one")
    try:
        has_null = b"\0" in os.fsencode(decoded)
    except UnicodeEncodeError:
        raise StoreError(f"expected a path that the file system can encode, got {decoded!r}") from None
    if has_null:
        raise StoreError(f"expected a path without a null byte, got {decoded!r}")
    if os.path.isabs(decoded):
        return decoded
    try:
        return os.path.join(os.getcwd(), decoded)
    except OSError as error:
        raise StoreError(f"{decoded}: the current directory can't be read: {error.strerror}") from error


def _present(period: int, clock: Callable[[], float]) -> Present:
    return present_window(period, clock(), shared_uptime(), clock())


#: How the key of counts by windows begins, with their milliseconds.
_WINDOWS = re.compile(rb"(?:windows|quota) of (\d+) ms of ")


def _nothing_counted(key: bytes) -> Copy:
    """The first counts of this key: of the present window, where it has windows."""
    found, file = _WINDOWS.match(key), secrets.randbits(32)
    if found is None:
        return Copy(key, 0, 0, 0, 0, NO_BOOT, file)
    return Copy(key, 0, shared_uptime() // (int(found[1]) * 10**6), 0, 0, this_boot(), file)


#: At how many other files a lease looks that makes a new one.
_LOOKS = 16
#: How many seconds a file beside its name is left alone, which a process that was killed left behind.
_LEFT_ALONE = 60.0


def _prune(folder: str, own: str) -> None:
    """Deletes some files of this folder that no lease needs any more."""
    # (no child keeps the folder open)
    with no_fork:
        names = os.listdir(folder)
    begin = secrets.randbelow(len(names) or 1)
    for name in (names[begin:] + names[:begin])[:_LOOKS]:
        if name != own:
            # one that another process has locked, or has deleted, or that is no file, is left alone
            with contextlib.suppress(OSError, StoreError):
                _delete_if_over(os.path.join(folder, name))


def _delete_if_over(path: str) -> None:
    slot = Slot(path)
    try:
        if slot.lock(patience=0) and _is_over(slot):
            os.unlink(path)
    finally:
        slot.close()


def _is_over(slot: Slot) -> bool:
    """Whether no lease needs this file: its window is over for good, or it is a leftover."""
    if os.path.basename(slot.path).startswith(".new-"):
        return slot.age() > _LEFT_ALONE
    copy = unpack(slot.content())
    found = None if copy is None else _WINDOWS.match(copy.key)
    if copy is None or found is None:
        return False
    period = int(found[1])
    return copy.boot != this_boot() or (copy.window + 2) * period * 10**6 <= shared_uptime()
