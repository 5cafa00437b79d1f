"""The folder of counts, under attack: kills, damage, full disks, forks, many names, and clocks of their own."""

from __future__ import annotations

import contextlib
import errno
import math
import os
import re
import shutil
import signal
import struct
import subprocess
import sys
import tempfile
import threading
import time
import zlib
from pathlib import Path
from types import SimpleNamespace
from typing import Any, Callable, Dict, Iterator, List, Optional

import pytest
from conftest import python_environment

from draws import number
from processes import in_a_forked_child
from hikebox import RefusalReason, StoreError, StoreLost, TermsError, Usage, _forks
from hikebox.budgets.terms import Terms
from hikebox.leased import FileStore, Leased, LeasedQuota, Range, file_store, machine, slots

#: A window that no test sees the end of, in seconds and in milliseconds.
LONG = 1_000_000.0
LONG_MS = 1_000_000_000


def boot_id() -> bytes:
    return Path("/proc/sys/kernel/random/boot_id").read_bytes().strip()


def copy_of(
    key: bytes, turn: int, window: int, given: int, asked: int, boot: bytes = bytes(36), number: bytes = bytes(4)
) -> bytes:
    """A copy by the format's own words, and not by the package's code."""
    body = b"hikebox slot 1\n\0" + struct.pack("<4Q", turn, window, given, asked) + boot
    body += struct.pack("<H", len(key)) + bytes(2) + key
    body += bytes(504 - len(body)) + number
    return body + struct.pack("<I", zlib.crc32(body))


def number_of(path: Path) -> bytes:
    """The number of the file."""
    return path.read_bytes()[504:508]


def is_slot(path: Path, key: bytes, turn: int, window: int, given: int, asked: int, boot: bytes = bytes(36)) -> bool:
    """Whether the file has both copies of this, with a number of its own."""
    return path.read_bytes() == 2 * copy_of(key, turn, window, given, asked, boot, number_of(path))


def path_of(folder: Path, key: bytes) -> Path:
    digest = 0xCBF29CE484222325
    for byte in key:
        digest = ((digest ^ byte) * 0x100000001B3) % 2**64
    return folder / f"{digest:016x}"[:2] / f"{digest:016x}"[2:]


def wait_for_another(path: Path) -> None:
    """Waits until two threads have this slot open: this one, and one that waits for its lock."""
    until = time.monotonic() + 60
    while sum(os.path.realpath(link.path) == str(path) for link in os.scandir("/proc/self/fd")) < 2:
        assert time.monotonic() < until
        time.sleep(0.001)


def take(store: FileStore, count: int = 1, name: str = "a") -> Range:
    """A lease of a budget without windows that has enough tickets."""
    return store.take(name, count, 10**9, None, time.monotonic)


def take_of_window(store: FileStore, name: str, period: int = LONG_MS) -> Range:
    return store.take(name, 1, 10**9, period, time.monotonic)


# The format


def test_the_slot_of_a_budget(tmp_path: Path) -> None:
    store = FileStore(tmp_path / "counts")
    assert take(store, 5) == Range(0, 5, None)
    assert take(store, 7) == Range(5, 7, None)
    assert is_slot(path_of(tmp_path / "counts", b"budget a"), b"budget a", 2, 0, 12, 0)
    # each file has a number of its own
    others = [path_of(tmp_path / "counts", b"budget %d" % each) for each in range(4)]
    for each in range(4):
        take(store, name=str(each))
    assert len({number_of(path) for path in others}) > 1


def test_fnv_1a_of_known_texts(tmp_path: Path) -> None:
    from hikebox.leased.slots import slot_path

    # test vectors of the hash's authors

    assert slot_path("f", b"") == "f/cb/f29ce484222325"
    assert slot_path("f", b"a") == "f/af/63dc4c8601ec8c"
    assert slot_path("f", b"foobar") == "f/85/944171f73967e8"


def test_the_slots_of_windows_and_of_a_quota(tmp_path: Path) -> None:
    store = FileStore(tmp_path / "counts")
    window = int(time.clock_gettime(time.CLOCK_BOOTTIME) // LONG)
    assert take_of_window(store, "a").tickets == 1
    key = b"windows of 1000000000 ms of a"
    assert is_slot(path_of(tmp_path / "counts", key), key, 1, window, 1, 0, boot_id())
    quota = LeasedQuota(store, "ä", 4, 1, LONG, lease=3)
    for _ in range(5):
        quota.deposit()
    assert number(quota.draw()) == 0
    key = "quota of 1000000000 ms of ä".encode()
    assert is_slot(path_of(tmp_path / "counts", key), key, 1, window, 3, 5, boot_id())


def test_a_refusal_writes_nothing(tmp_path: Path) -> None:
    store = FileStore(tmp_path / "counts")
    assert store.take("a", 5, 0, None, time.monotonic) == Range(0, 0, None)
    assert is_slot(path_of(tmp_path / "counts", b"budget a"), b"budget a", 0, 0, 0, 0)


@pytest.mark.parametrize("umask, mode", [(0o022, 0o644), (0o077, 0o600), (0o000, 0o666)])
def test_modes(umask: int, mode: int, tmp_path: Path) -> None:
    before = os.umask(umask)
    try:
        take(FileStore(tmp_path / "counts"))
    finally:
        os.umask(before)
    path = path_of(tmp_path / "counts", b"budget a")
    assert path.stat().st_mode & 0o777 == mode
    assert path.parent.stat().st_mode & 0o777 == 0o777 & ~umask == path.parent.parent.stat().st_mode & 0o777
    assert os.listdir(path.parent) == [path.name]


def test_names(tmp_path: Path) -> None:
    store = FileStore(tmp_path / "counts")
    for name in ("a" * 255, "ä" * 127, "..", "a/b", "\n", "\0", " "):
        assert number(Leased(store, name, 1).draw()) == 0
        assert number(LeasedQuota(store, name, 1, 0, LONG).draw()) == 0
    for name, length in (("", 0), ("a" * 256, 256), ("ä" * 128, 256)):
        says = f"^expected a name of 1 to 255 bytes, got {length}$"
        with pytest.raises(TermsError, match=says):
            Leased(store, name, 1)
        with pytest.raises(TermsError, match=says):
            LeasedQuota(store, name, 1, 0, LONG)
        with pytest.raises(TermsError):
            take(store, name=name)
    with pytest.raises(TermsError, match="UTF-8"):
        Leased(store, "\ud800", 1)
    wrong: Any = 7
    with pytest.raises(TypeError, match="expected a name, got 7"):
        Leased(store, wrong, 1)


# Damage

WHOLE = 2 * copy_of(b"budget a", 3, 0, 40, 0)
DAMAGES: Dict[str, Callable[[bytes], bytes]] = {
    "nothing": lambda whole: b"",
    "half": lambda whole: whole[:512],
    "one byte less": lambda whole: whole[:-1],
    "one byte more": lambda whole: whole + b"\0",
    "zeros": lambda whole: bytes(1024),
    "garbage": lambda whole: bytes(range(256)) * 4,
    "another program's": lambda whole: b"#!/bin/sh\nexit 0\n",
    "a bit in each copy": lambda whole: whole[:40] + b"\xff" + whole[41:552] + b"\xff" + whole[553:],
    "another magic": lambda whole: 2 * (b"X" + whole[1:508] + struct.pack("<I", zlib.crc32(b"X" + whole[1:508]))),
    "the old format": lambda whole: b'hikebox counts 1 18 0\n{"budget a":["",5]}',
}


@pytest.mark.parametrize("how", DAMAGES)
def test_a_damaged_slot_grants_nothing_and_is_not_touched(how: str, tmp_path: Path) -> None:
    store = FileStore(tmp_path / "counts")
    take(store)
    path = path_of(tmp_path / "counts", b"budget a")
    path.write_bytes(WHOLE)
    assert take(store) == Range(40, 1, None)
    damaged = DAMAGES[how](WHOLE)
    path.write_bytes(damaged)
    for _ in range(3):
        with pytest.raises(StoreLost, match="expected the slot of 'budget a', got"):
            take(store)
    leased = Leased(store, "a", 100)
    assert not leased.draw()
    assert path.read_bytes() == damaged
    # others are not harmed
    assert take(store, name="b").tickets == 1
    # (whoever has not seen the 41st ticket leased goes on)
    path.write_bytes(WHOLE)
    assert take(FileStore(tmp_path / "counts")) == Range(40, 1, None)


@pytest.mark.parametrize("lost", [0, 512])
def test_one_copy_is_enough_and_the_other_is_written_again(lost: int, tmp_path: Path) -> None:
    store = FileStore(tmp_path / "counts")
    take(store, 5)
    path = path_of(tmp_path / "counts", b"budget a")
    for first in (5, 6, 7):
        whole = bytearray(path.read_bytes())
        whole[lost : lost + 512] = bytes(512)
        path.write_bytes(whole)
        assert take(store) == Range(first, 1, None)
        assert path.read_bytes()[:512] == path.read_bytes()[512:]


def test_the_greater_turn_counts(tmp_path: Path) -> None:
    store = FileStore(tmp_path / "counts")
    take(store)
    path = path_of(tmp_path / "counts", b"budget a")
    path.write_bytes(copy_of(b"budget a", 8, 0, 90, 0) + copy_of(b"budget a", 7, 0, 80, 0))
    assert take(store) == Range(90, 1, None)
    path.write_bytes(copy_of(b"budget a", 8, 0, 80, 0) + copy_of(b"budget a", 9, 0, 92, 0))
    assert take(store) == Range(92, 1, None)


def test_the_slot_of_another_key_is_refused(tmp_path: Path) -> None:
    store = FileStore(tmp_path / "counts")
    take(store)
    path = path_of(tmp_path / "counts", b"budget a")
    path.write_bytes(2 * copy_of(b"budget b", 1, 0, 0, 0))
    with pytest.raises(StoreLost, match="expected the slot of 'budget a', got the slot of 'budget b'"):
        take(store)
    # a copy of each: its own counts
    path.write_bytes(copy_of(b"budget b", 9, 0, 0, 0) + copy_of(b"budget a", 1, 0, 30, 0))
    assert take(store) == Range(30, 1, None)


def test_a_folder_or_a_pipe_in_its_place(tmp_path: Path) -> None:
    store = FileStore(tmp_path / "counts")
    take(store)
    path = path_of(tmp_path / "counts", b"budget a")
    path.unlink()
    path.mkdir()
    with pytest.raises(StoreError, match="Is a directory"):
        take(store)
    assert not Leased(store, "a", 10).draw()
    path.rmdir()
    os.mkfifo(path)
    with pytest.raises(StoreError):
        take(store)
    path.unlink()
    path.symlink_to(tmp_path / "nowhere")
    with pytest.raises(StoreLost, match="expected a slot, got a link to nothing"):
        take(store)


def test_counts_near_the_end_of_their_range(tmp_path: Path) -> None:
    store = FileStore(tmp_path / "counts")
    take(store)
    path = path_of(tmp_path / "counts", b"budget a")
    path.write_bytes(2 * copy_of(b"budget a", 2**64 - 2, 0, 2**64 - 1, 0))
    assert take(store).tickets == 0
    key = b"quota of 1000000000 ms of a"
    quota = LeasedQuota(store, "a", 9, 1, LONG)
    assert number(quota.draw()) == 0
    window = quota.seen().window
    path_of(tmp_path / "counts", key).write_bytes(2 * copy_of(key, 1, window, 2**64 - 1, 2**64 - 1, boot_id()))
    quota.deposit(5)
    assert quota.seen().left == 0


def test_a_turn_that_is_the_last_one_grants_nothing(tmp_path: Path) -> None:
    store = FileStore(tmp_path / "counts")
    take(store)
    path = path_of(tmp_path / "counts", b"budget a")
    path.write_bytes(2 * copy_of(b"budget a", 2**64 - 1, 0, 3, 0))
    with pytest.raises(StoreLost, match="turn"):
        take(store)


# A copy of the folder that is put back


def put_back(copy: Path, folder: Path) -> None:
    shutil.rmtree(folder)
    shutil.copytree(copy, folder)


def test_a_copy_of_the_folder_that_is_put_back_grants_nothing_to_who_has_seen_more(tmp_path: Path) -> None:
    folder, copy = tmp_path / "counts", tmp_path / "copy"
    store, other = FileStore(folder), FileStore(folder)
    assert take(store, 3) == Range(0, 3, None)
    shutil.copytree(folder, copy)
    assert take(other, 4) == Range(3, 4, None) and take(store, 2) == Range(7, 2, None)
    put_back(copy, folder)
    path = path_of(folder, b"budget a")
    for _ in range(2):
        says = f"^{re.escape(str(path))}: expected a count of 9 or more, got 3 of an older copy"
        with pytest.raises(StoreLost, match=says):
            take(store)
        assert path.read_bytes() == path_of(copy, b"budget a").read_bytes()
    leased = Leased(store, "a", 100)
    refused: Any = leased.draw()
    assert refused.reason is RefusalReason.LOST and "older copy" in str(refused.error)
    # whoever has seen no more than 3 can't tell, and a name that the store has not leased goes on
    assert take(FileStore(folder), 7) == Range(3, 7, None) and take(store, name="b") == Range(0, 1, None)
    # it never leases a number again below those that it has seen leased
    assert take(store) == Range(10, 1, None)
    put_back(copy, folder)
    # who wants it begun anew deletes it
    path.unlink()
    assert take(store) == Range(0, 1, None) and take(other) == Range(1, 1, None)


@pytest.mark.parametrize("kind", ["windows", "quota"])
def test_a_copy_of_windows_grants_nothing_of_a_window_of_which_more_was_seen(
    kind: str, tmp_path: Path, monkeypatch: Any
) -> None:
    now = [7.0]
    monkeypatch.setattr("hikebox.leased.file_store.shared_uptime", lambda: round(now[0] * 10**9))
    folder, copy = tmp_path / "counts", tmp_path / "copy"
    store = FileStore(folder)

    def takes(store: FileStore) -> Any:
        if kind == "windows":
            return store.take("a", 2, 9, 10_000, lambda: now[0])[:2]
        return store.take_of_quota("a", Terms(9, 0, 10_000), 2, lambda began: 0, lambda: now[0])[:2]

    assert takes(store) == (0, 2)
    shutil.copytree(folder, copy)
    now[0] = 12.0
    assert takes(store) == (0, 2) == (takes(store)[0] - 2, 2)
    # a copy of the window before, and then one of this window
    put_back(copy, folder)
    with pytest.raises(StoreLost, match="expected a count of 4 or more, got 0 of an older copy"):
        takes(store)
    assert takes(FileStore(folder)) == (0, 2)
    with pytest.raises(StoreLost, match="expected a count of 4 or more, got 2 of an older copy"):
        takes(store)
    # the next window goes on
    now[0] = 20.0
    assert takes(store) == (0, 2)


def test_a_store_keeps_what_it_has_seen_of_few_names(tmp_path: Path, monkeypatch: Any) -> None:
    monkeypatch.setattr("hikebox.leased.file_store._MOST_SEEN", 3)
    store = FileStore(tmp_path / "counts")
    for each in range(9):
        assert take(store, name=str(each)) == Range(0, 1, None)
    assert list(store._seen) == [b"budget 6", b"budget 7", b"budget 8"]


# The windows of a slot


def test_counts_of_another_start_of_the_machine_and_of_a_later_window(tmp_path: Path) -> None:
    store = FileStore(tmp_path / "counts")
    quota = LeasedQuota(store, "a", 9, 0, LONG)
    number = quota.seen().window
    key = b"quota of 1000000000 ms of a"
    path = path_of(tmp_path / "counts", key)
    path.write_bytes(2 * copy_of(key, 1, number + 1, 1, 5, boot_id()))
    assert not LeasedQuota(store, "a", 9, 0, LONG).draw()
    assert LeasedQuota(store, "a", 9, 0, LONG).seen() == Usage(number, 0, 0, 0, lost=True)
    path.write_bytes(2 * copy_of(key, 1, number + 1, 9, 5, b"another-" + boot_id()[8:]))
    assert LeasedQuota(store, "a", 9, 0, LONG).seen() == Usage(number, 0, 0, 9)


def test_a_machine_that_does_not_tell_its_start_has_no_windows(tmp_path: Path, monkeypatch: Any) -> None:
    store = FileStore(tmp_path / "counts")
    monkeypatch.setattr(machine, "_BOOT_ID", "/proc/no/boot")
    monkeypatch.setattr(machine._present, "_boot", None)
    with pytest.raises(StoreError, match="^/proc/no/boot: No such file or directory$"):
        take_of_window(store, "a")
    assert take(store).tickets == 1


def test_the_start_of_the_machine_is_read_once_in_each_process(monkeypatch: Any) -> None:
    boot, now = machine.this_boot(), machine.shared_uptime()
    assert (boot, abs(now / 1e9 - machine.uptime()) < 1) == (boot_id(), True)
    read: List[str] = []
    content = machine._content

    def reads(path: str) -> bytes:
        read.append(path)
        return content(path)

    monkeypatch.setattr(machine, "_content", reads)
    assert machine.this_boot() == boot and machine.shared_uptime() >= now and read == []

    def reads_anew() -> None:
        assert machine.this_boot() == boot and machine.shared_uptime() >= now and len(read) == 2

    in_a_forked_child(reads_anew)


def test_the_count_of_a_budget_without_windows_goes_on_after_a_start(tmp_path: Path) -> None:
    store = FileStore(tmp_path / "counts")
    take(store)
    path_of(tmp_path / "counts", b"budget a").write_bytes(2 * copy_of(b"budget a", 1, 0, 40, 0, boot_id()))
    assert take(store) == Range(40, 1, None)


NAMESPACE = ["unshare", "-T", "--boottime"]


def has_time_namespaces() -> Optional[str]:
    if shutil.which("unshare") is None:
        return "there is no unshare"
    tried = subprocess.run([*NAMESPACE, "3600", "true"], stderr=subprocess.PIPE, text=True)
    return None if tried.returncode == 0 else f"no time namespace: {tried.stderr.strip()}"


@pytest.mark.parametrize("hours", [1, -1, 24])
def test_a_process_in_a_time_namespace_counts_in_the_windows_of_all(hours: int, tmp_path: Path) -> None:
    reason = has_time_namespaces()
    if reason is not None:
        pytest.skip(reason)
    # (no clock goes back to before the machine started)
    shift = str(max(3600 * hours, -int(time.clock_gettime(time.CLOCK_BOOTTIME) / 2)))
    code = (
        "import sys, time; from hikebox.leased import FileStore, LeasedQuota, Leased\n"
        "quota = LeasedQuota(FileStore(sys.argv[1]), 'a', 3, 0, float(sys.argv[2]), lease=1)\n"
        "ticket = quota.draw()\n"
        "print('drawn' if ticket else None, quota.seen().given, quota.seen().lost, time.clock_gettime(7))"
    )
    folder = str(tmp_path / "counts")
    # windows of about 200 seconds, of which the present one has just begun
    here = time.clock_gettime(time.CLOCK_BOOTTIME)
    per = round(here / (here // 200 + 0.25), 3)

    def drawn_inside() -> List[str]:
        words = [*NAMESPACE, shift, sys.executable, "-c", code, folder, str(per)]
        done = subprocess.run(words, env=python_environment(), stdout=subprocess.PIPE, text=True, check=True)
        return done.stdout.split()

    quota = LeasedQuota(FileStore(folder), "a", 3, 0, per, lease=1)
    assert quota.draw()
    kind, given, lost, there = drawn_inside()
    # its clock is shifted indeed, and it is the second of this window
    assert abs(float(there) - here - float(shift)) < 60
    assert (kind, given, lost) == ("drawn", "2", "False")
    assert bool(quota.draw()) and not quota.draw()
    assert drawn_inside()[:3] == ["None", "3", "False"]


# The folder


def test_a_file_in_the_place_of_the_folder_is_refused(tmp_path: Path) -> None:
    path = tmp_path / "counts"
    path.write_bytes(b'hikebox counts 1 18 0\n{"budget a":["",5]}')
    says = re.escape(f"{path}: expected a folder, got a file. Counts are kept in a folder now; name another path.")
    with pytest.raises(StoreError, match=f"^{says}$"):
        FileStore(path)
    for wrong, told in (("", "the path of a folder"), ("a\0b", "without a null byte"), ("a\ud800", "can encode")):
        with pytest.raises(StoreError, match=f"expected .*{told}.*, got"):
            FileStore(wrong)
    with pytest.raises(TypeError, match="patience: expected a number of seconds, got '1'"):
        FileStore(path.parent, patience="1")  # type: ignore[arg-type]
    with pytest.raises(TermsError, match="patience: expected 0 seconds or more, and not for ever, got nan"):
        FileStore(path.parent, patience=math.nan)
    path.unlink()
    store = FileStore(path)
    assert take(store) == Range(0, 1, None)
    shutil.rmtree(path)
    path.write_text("a file again")
    with pytest.raises(StoreError, match=f"^{says}$"):
        take(store)
    assert path.read_text() == "a file again"


def test_a_folder_that_can_not_be_made(tmp_path: Path) -> None:
    assert take(FileStore(tmp_path / "one" / "more" / "counts")).tickets == 1
    (tmp_path / "file").touch()
    with pytest.raises(StoreError, match="Not a directory"):
        take(FileStore(tmp_path / "file" / "counts"))
    os.symlink(tmp_path / "nowhere" / "at all", tmp_path / "dangling")
    for folder in (tmp_path / "dangling", Path("/proc/no/counts")):
        # (to wait would take for ever)
        with pytest.raises(StoreError, match="No such file or directory"):
            take(FileStore(folder, patience=1e9))


def test_a_process_that_changes_its_directory_keeps_the_folder(tmp_path: Path, monkeypatch: Any) -> None:
    (tmp_path / "elsewhere").mkdir()
    monkeypatch.chdir(tmp_path)
    leased = Leased(FileStore("counts"), "a", limit=3, lease=1)
    assert number(leased.draw()) == 0
    monkeypatch.chdir("elsewhere")
    assert [number(leased.draw()) for _ in range(3)] == [1, 2, None]
    assert os.listdir() == []


def test_a_relative_path_where_the_present_directory_is_gone(tmp_path: Path, monkeypatch: Any) -> None:
    (tmp_path / "gone").mkdir()
    monkeypatch.chdir(tmp_path / "gone")
    (tmp_path / "gone").rmdir()
    with pytest.raises(StoreError, match="^counts: the current directory can't be read: No such file or directory$"):
        FileStore("counts")
    assert take(FileStore(tmp_path / "counts")).tickets == 1


def test_a_removed_folder_is_made_again_and_leases_go_on(tmp_path: Path) -> None:
    store = FileStore(tmp_path / "counts", patience=60)
    leased = Leased(store, "a", limit=100, lease=4)
    assert number(leased.draw()) == 0
    shutil.rmtree(tmp_path / "counts")
    assert [number(leased.draw()) for _ in range(4)] == [1, 2, 3, 0]
    # the whole folder while another waits for a lock in it
    drawn: List[Range] = []
    with store._locked("budget a"):
        waiting = threading.Thread(target=lambda: drawn.append(take(store)))
        waiting.start()
        wait_for_another(path_of(tmp_path / "counts", b"budget a"))
        shutil.rmtree(tmp_path / "counts")
    waiting.join()
    assert drawn == [Range(0, 1, None)]


@pytest.mark.parametrize("patience, times", [(1e9, 300), (0, 98)])
@pytest.mark.parametrize("what", ["_has_folder", "make_slot"])
def test_a_folder_that_is_removed_again_and_again_stops_no_lease(
    what: str, patience: float, times: int, tmp_path: Path, monkeypatch: pytest.MonkeyPatch
) -> None:
    """It is removed after it was made, so that no slot can be made in it, or after the slot was."""
    store, turns = FileStore(tmp_path / "counts", patience=patience), 0
    make = getattr(file_store, what)

    def removed(*args: Any, **options: Any) -> Any:
        nonlocal turns
        made = make(*args, **options)
        turns += 1
        if turns <= times:
            shutil.rmtree(tmp_path / "counts")
        return made

    monkeypatch.setattr(file_store, what, removed)
    assert take_of_window(store, "a").first == 0 and turns == times + 1
    if not patience:
        shutil.rmtree(tmp_path / "counts")
        turns = -2
        with pytest.raises(StoreError, match="it was deleted again and again"):
            take_of_window(store, "a")


def test_a_folder_that_is_removed_while_it_is_made(tmp_path: Path, monkeypatch: pytest.MonkeyPatch) -> None:
    makedirs, errors = os.makedirs, 99 * [FileNotFoundError(errno.ENOENT, "removed")]

    def removed(*args: Any, **options: Any) -> None:
        if errors:
            raise errors.pop()
        makedirs(*args, **options)

    monkeypatch.setattr(os, "makedirs", removed)
    assert take(FileStore(tmp_path / "counts", patience=1e9)) == Range(0, 1, None)


def test_a_lock_that_is_not_given_up(tmp_path: Path) -> None:
    store = FileStore(tmp_path / "counts", patience=0.05)
    with store._locked("budget a"):
        assert take(store, name="b").tickets == 1
        with pytest.raises(StoreError, match="could not acquire its lock in 0.05 s"):
            take(store)
    assert take(store) == Range(0, 1, None)


@pytest.mark.parametrize("held_up_at", range(1, 5))
def test_a_process_that_is_held_up_for_longer_than_its_patience_tries_once_more(
    held_up_at: int, tmp_path: Path, monkeypatch: pytest.MonkeyPatch
) -> None:
    """It is held up at any of its looks at the clock, and meanwhile the lock is given up."""
    store = FileStore(tmp_path / "counts", patience=5)
    looks: List[float] = []
    holder = contextlib.ExitStack()

    def clock() -> float:
        looks.append(0.0)
        if len(looks) >= held_up_at:
            holder.close()
            return 60.0
        return 0.0

    with holder:
        holder.enter_context(store._locked("budget a"))
        monkeypatch.setattr(slots, "time", SimpleNamespace(monotonic=clock, sleep=lambda seconds: None))
        assert take(store) == Range(0, 1, None)


# Kills, full disks, forks

KILLED = """
import os, sys
from hikebox.leased import FileStore, Leased
folder, output = sys.argv[1:]
file = os.open(output, os.O_WRONLY | os.O_CREAT | os.O_APPEND)
leased = Leased(FileStore(folder, patience=100), "a", limit=10**9, lease=3)
while True:
    ticket = leased.draw()
    assert ticket
    os.write(file, b"%d\\n" % ticket.number)
"""


def test_30_processes_killed_at_any_moment(tmp_path: Path) -> None:
    running: List[Any] = []
    try:
        for number in range(30):
            words = [sys.executable, "-c", KILLED, str(tmp_path / "counts"), str(tmp_path / f"tickets-{number}")]
            running.append(subprocess.Popen(words, env=python_environment()))
            if len(running) >= 5:
                until = time.monotonic() + 100
                oldest = tmp_path / f"tickets-{number - 4}"
                while not (oldest.exists() and oldest.read_bytes().count(b"\n") > 12):
                    assert time.monotonic() < until
                    time.sleep(0.01)
                time.sleep(0.02 + 0.001 * number)
                os.kill(running[0].pid, signal.SIGKILL)
                assert running.pop(0).wait() == -signal.SIGKILL
    finally:
        for process in running:
            process.kill()
            process.wait()
    texts = [path.read_bytes() for path in tmp_path.glob("tickets-*")]
    # (a line that a kill cut off has no end)
    tickets = [int(line) for text in texts for line in text.splitlines(keepends=True) if line.endswith(b"\n")]
    assert len(tickets) == len(set(tickets)) > 300
    assert take(FileStore(tmp_path / "counts")).first > max(tickets)


@pytest.fixture
def small_disk(tmp_path: Path) -> Iterator[Path]:
    """A disk of 64 KB."""
    place = tmp_path / "disk"
    place.mkdir()
    words = ["mount", "-t", "tmpfs", "-o", "size=64k", "tmpfs", str(place)]
    if os.geteuid() != 0 or subprocess.run(words, stderr=subprocess.DEVNULL).returncode != 0:
        pytest.skip("no tmpfs can be mounted here")
    yield place
    subprocess.run(["umount", str(place)], check=True)


def fill(place: Path) -> Path:
    path = place / "fill"
    with open(path, "wb", buffering=0) as file, pytest.raises(OSError):
        while True:
            file.write(bytes(4096))
    return path


def test_a_full_disk_stops_no_slot_and_a_new_one_goes_on_when_there_is_room(small_disk: Path) -> None:
    store = FileStore(small_disk / "counts")
    assert take(store, 5) == Range(0, 5, None)
    quota = LeasedQuota(store, "a", 100, 0, LONG, lease=1)
    assert number(quota.draw()) == 0
    filled = fill(small_disk)
    for first in range(5, 55):
        assert take(store) == Range(first, 1, None)
    assert [number(quota.draw()) for _ in range(20)] == list(range(1, 21))
    for name in ("b", "c"):
        with pytest.raises(StoreError, match="No space left"):
            take(store, name=name)
    made = Leased(store, "b", 10, again_after=0)
    assert not made.draw()
    # what could not be made leaves nothing behind
    files = [name for _, _, names in os.walk(small_disk / "counts") for name in names]
    assert len(files) == 2
    filled.unlink()
    assert take(store, name="b") == Range(0, 1, None)
    assert number(made.draw()) == 1
    assert take(store) == Range(55, 1, None)


def test_a_fork_while_a_thread_leases_leaves_no_lock_behind(tmp_path: Path) -> None:
    store = FileStore(tmp_path / "counts", patience=20)
    stop = threading.Event()
    leases = [0]

    def work() -> None:
        while not stop.is_set():
            take(store)
            leases[0] += 1

    thread = threading.Thread(target=work)
    thread.start()
    children = []
    heard, tells = os.pipe()
    try:
        for _ in range(60):
            child = os.fork()
            if child == 0:
                # lives on, with whatever it inherited
                os.write(tells, b".")
                time.sleep(200)
                os._exit(0)
            children.append(child)
            before = leases[0]
            until = time.monotonic() + 30
            while leases[0] == before:
                assert thread.is_alive() and time.monotonic() < until
                time.sleep(0.001)
            # (the thread lets the lock go for a moment only, so another process may have to look for it often)
            code = "import sys; from hikebox.leased import *; store = FileStore(sys.argv[1], patience=40)"
            code += "; store.take('a', 1, 10**9, None, float)"
            if len(children) % 20 == 0:
                subprocess.run(
                    [sys.executable, "-c", code, store.path], env=python_environment(), check=True, timeout=60
                )
    finally:
        stop.set()
        thread.join()
        # (a child that the machine has not run yet is still in the middle of its fork)
        told = 0
        while told < len(children):
            told += len(os.read(heard, 100))
        open_in_children = [os.listdir(f"/proc/{child}/fd") for child in children]
        links = [
            os.readlink(f"/proc/{child}/fd/{number}")
            for child, numbers in zip(children, open_in_children)
            for number in numbers
        ]
        for child in children:
            os.kill(child, signal.SIGKILL)
            os.waitpid(child, 0)
        os.close(heard)
        os.close(tells)
    assert not [link for link in links if link.startswith(store.path)]


def test_a_child_that_is_forked_while_a_file_is_opened_does_not_keep_it(tmp_path: Path) -> None:
    """A signal's handler may fork between any two lines of what opens a file, in the thread that opens it."""
    store = FileStore(tmp_path / "counts")
    take(store)
    opens = slots._File.opened.__func__.__code__  # type: ignore[attr-defined]
    children = []

    def forks(frame: Any, event: str, _: Any) -> Any:
        if frame.f_code is not opens:
            return None
        if event == "line":
            child = os.fork()
            if child == 0:
                links = [os.readlink(link.path) for link in os.scandir("/proc/self/fd") if os.path.exists(link.path)]
                os._exit(any(link.startswith(store.path) for link in links))
            children.append(child)
        return forks

    sys.settrace(forks)
    try:
        assert take(store) == Range(1, 1, None)
    finally:
        sys.settrace(None)
    assert len(children) >= 4
    assert [os.waitstatus_to_exitcode(os.waitpid(child, 0)[1]) for child in children] == [0] * len(children)


def test_no_child_is_forked_while_a_folder_is_open(tmp_path: Path, monkeypatch: pytest.MonkeyPatch) -> None:
    """A lease that makes a slot looks at the files beside it, by an open folder that a child would keep."""
    may_fork: List[bool] = []

    def another_forks() -> None:
        may_fork.append(_forks.no_fork.acquire(blocking=False))
        if may_fork[-1]:
            _forks.no_fork.release()

    def listdir(path: str, lists: Callable[[str], List[str]] = os.listdir) -> List[str]:
        other = threading.Thread(target=another_forks)
        other.start()
        other.join()
        return lists(path)

    monkeypatch.setattr(os, "listdir", listdir)
    take(FileStore(tmp_path / "counts"))
    assert may_fork == [False]


def test_a_process_killed_in_a_lease_while_its_child_lives(tmp_path: Path) -> None:
    """The child was forked while the lock was held, and its copy of the file does not hold it."""
    code = (
        "import os, sys, time, signal; from hikebox.leased import FileStore\n"
        "store = FileStore(sys.argv[1])\n"
        "with store._locked('budget a'):\n"
        "    child = os.fork()\n"
        "    if child == 0:\n"
        "        time.sleep(200); os._exit(0)\n"
        "    print(child, flush=True)\n"
        "    os.kill(os.getpid(), signal.SIGKILL)\n"
    )
    words = [sys.executable, "-c", code, str(tmp_path / "counts")]
    with subprocess.Popen(words, env=python_environment(), stdout=subprocess.PIPE, text=True) as process:
        assert process.stdout is not None
        child = int(process.stdout.readline())
        assert process.wait() == -signal.SIGKILL
        os.kill(child, 0)
        try:
            assert take(FileStore(tmp_path / "counts", patience=20)) == Range(0, 1, None)
        finally:
            os.kill(child, signal.SIGKILL)


def test_a_child_that_is_forked_by_the_thread_that_leases_does_not_write(tmp_path: Path) -> None:
    store = FileStore(tmp_path / "counts")
    take(store)

    parent, child = os.getpid(), -1

    def forks(began: float) -> int:
        nonlocal child
        child = os.fork()
        return 0

    status = 1
    try:
        store.take_of_quota("a", LeasedQuota(store, "a", 9, 1, LONG).terms, 3, forks, time.monotonic)
    except StoreError as error:
        status = 0 if "forked in the middle of a lease" in str(error) else 2
    finally:
        if os.getpid() != parent:
            os._exit(status)
    assert os.waitstatus_to_exitcode(os.waitpid(child, 0)[1]) == 0
    assert LeasedQuota(store, "a", 9, 1, LONG).seen().given == 3


# Many names


def calls_of_a_lease(folder: Path, name: str) -> List[str]:
    """The system calls of one lease, as strace shows them."""
    code = (
        "import os, sys, time; from hikebox.leased import FileStore\n"
        "store = FileStore(sys.argv[1])\n"
        "store.take(sys.argv[2], 1, 10**9, 1000000000, time.monotonic)\n"
        "os.access('/begins', 0)\n"
        "store.take(sys.argv[2], 1, 10**9, 1000000000, time.monotonic)\n"
        "os.access('/ends', 0)\n"
    )
    output = folder.parent / "trace"
    words = ["strace", "-o", str(output), sys.executable, "-c", code, str(folder), name]
    subprocess.run(words, env=python_environment(), check=True)
    text = output.read_text()
    between = text[text.index('"/begins"') : text.index('"/ends"')]
    calls = [line.partition("(")[0] for line in between.splitlines()[1:-1]]
    # (Python may ask the system for memory at any time)
    return [call for call in calls if call not in ("brk", "mmap", "munmap", "mremap", "madvise")]


def fill_names(folder: Path, count: int) -> None:
    """Makes a slot of a window that goes on for each of so many names, by their bytes."""
    window = int(time.clock_gettime(time.CLOCK_BOOTTIME) // LONG)
    made = set()
    for number in range(count):
        key = b"windows of 1000000000 ms of host-%d" % number
        path = path_of(folder, key)
        if path.parent not in made:
            path.parent.mkdir(parents=True, exist_ok=True)
            made.add(path.parent)
        with open(path, "wb") as file:
            file.write(2 * copy_of(key, 1, window, 1, 0, boot_id()))


@pytest.fixture
def memory(tmp_path: Path) -> Iterator[Path]:
    """A folder in memory, where there is such, that is gone afterwards."""
    place = Path("/dev/shm")
    folder = Path(tempfile.mkdtemp(dir=place if os.access(place, os.W_OK) else tmp_path))
    yield folder
    shutil.rmtree(folder)


@pytest.mark.parametrize("names", [20_000, 100_000])
def test_a_lease_does_the_same_however_many_names_there_are(names: int, memory: Path) -> None:
    if shutil.which("strace") is None:
        pytest.skip("there is no strace")
    few, many = memory / "few" / "counts", memory / "many" / "counts"
    few.parent.mkdir()
    fill_names(many, names)
    take_of_window(FileStore(few), "host-7")
    assert take_of_window(FileStore(many), "host-7").first == 1
    alone = calls_of_a_lease(few, "host-7")
    assert calls_of_a_lease(many, "host-7") == alone
    assert alone.count("pwrite64") == 1 and alone.count("flock") == 2 and len(alone) < 40
    assert take_of_window(FileStore(many), "new").tickets == 1
    assert sum(len(files) for _, _, files in os.walk(many)) == names + 1


def test_windows_that_are_over_are_deleted(tmp_path: Path) -> None:
    """Names that come and go, one a lease, in windows of a second: their files do not pile up."""
    folder = tmp_path / "counts"
    now = time.clock_gettime(time.CLOCK_BOOTTIME)
    kept: List[Path] = []
    deleted: List[Path] = []

    def put(key: bytes, window: int, boot: bytes) -> Path:
        # all in one subfolder, as if their hashes said so
        path = folder / "ab" / f"{len(kept) + len(deleted):014x}"
        path.parent.mkdir(parents=True, exist_ok=True)
        path.write_bytes(2 * copy_of(key, 1, window, 1, 0, boot))
        return path

    other = b"another-" + boot_id()[8:]
    for period in (100, 1000):
        present = int(now * 1000) // period
        for kind in (b"quota", b"windows"):
            key = b"%b of %d ms of x" % (kind, period)
            deleted.append(put(key, present - 3, boot_id()))
            deleted.append(put(key, present + 10**6, other))
            kept.append(put(key, present + 10**6, boot_id()))
    kept.append(put(b"windows of 100000000 ms of x", int(now / 100_000), boot_id()))
    kept.append(put(b"budget x", 0, bytes(36)))
    kept.append(put(b"budget windows of 5 ms of x", 0, bytes(36)))
    damaged = folder / "ab" / "damaged"
    damaged.write_bytes(b"something else")
    fresh, stale = folder / "ab" / ".new-1-fresh", folder / "ab" / ".new-1-stale"
    for path in (fresh, stale):
        path.write_bytes(b"")
    os.utime(stale, (time.time() - 61, time.time() - 61))
    locked = deleted.pop()
    import fcntl

    from hikebox.leased.file_store import _prune

    with open(locked, "rb") as file:
        fcntl.flock(file, fcntl.LOCK_EX)
        for _ in range(60):
            _prune(str(folder / "ab"), "own")
    assert not [path for path in (*deleted, stale) if path.exists()]
    assert all(path.exists() for path in (*kept, damaged, fresh, locked))


def test_a_slot_that_is_deleted_while_a_lease_waits_for_it_is_made_again(tmp_path: Path) -> None:
    store = FileStore(tmp_path / "counts", patience=60)
    take_of_window(store, "a", 100)
    path = path_of(tmp_path / "counts", b"windows of 100 ms of a")
    drawn: List[Range] = []
    with store._locked("windows of 100 ms of a"):
        waiting = threading.Thread(target=lambda: drawn.append(take_of_window(store, "a", 100)))
        waiting.start()
        wait_for_another(path)
        path.unlink()
    waiting.join()
    assert [(granted.first, granted.tickets) for granted in drawn] == [(0, 1)]
    assert path.exists()


def test_8_threads_of_4_processes_make_one_slot(memory: Path) -> None:
    code = (
        "import os, sys, threading; from hikebox.leased import FileStore, Leased\n"
        "store = FileStore(sys.argv[1], patience=100)\n"
        "def work():\n"
        "    for name in range(40):\n"
        "        while True:\n"
        "            leased = Leased(store, str(name), 60, lease=1)\n"
        "            ticket = leased.draw()\n"
        "            if not ticket:\n"
        "                break\n"
        "            os.write(1, b'%d %d\\n' % (name, ticket.number))\n"
        "threads = [threading.Thread(target=work) for _ in range(8)]\n"
        "[thread.start() for thread in threads]; [thread.join() for thread in threads]\n"
    )
    words = [sys.executable, "-c", code, str(memory / "counts")]
    running = [subprocess.Popen(words, env=python_environment(), stdout=subprocess.PIPE, text=True) for _ in range(4)]
    drawn: Dict[int, List[int]] = {}
    for process in running:
        for line in process.communicate(timeout=120)[0].splitlines():
            name, ticket = map(int, line.split())
            drawn.setdefault(name, []).append(ticket)
    assert all(sorted(tickets) == list(range(60)) for tickets in drawn.values()) and len(drawn) == 40
