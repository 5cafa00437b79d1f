"""Leases on macOS and Windows: on Linux without what those systems lack, and with what macOS has in its place."""

from __future__ import annotations

import subprocess
import sys
from pathlib import Path
from typing import List

from conftest import python_environment

#: No /proc, and no clock of Linux. (The standard library's modules are imported before.)
NO_LINUX = """
import asyncio, builtins, ctypes, io, os, subprocess, sys, tempfile, threading, time
del time.CLOCK_BOOTTIME
opens = io.open
def open_but_not_proc(path, *words, **more):
    if str(path).startswith("/proc"):
        raise FileNotFoundError(2, "No such file or directory", path)
    return opens(path, *words, **more)
builtins.open = io.open = open_but_not_proc
"""

#: Nothing that Windows lacks.
WINDOWS = (
    NO_LINUX
    + """
sys.modules["fcntl"] = None
for name in ("fork", "forkpty", "register_at_fork", "pread", "pwrite", "O_DIRECTORY", "O_CLOEXEC", "getuid"):
    delattr(os, name)
for name in ("clock_gettime", "clock_gettime_ns", "CLOCK_MONOTONIC", "CLOCK_MONOTONIC_RAW"):
    delattr(time, name)
"""
)

#: macOS names its start by a call of its own.
MACOS = (
    NO_LINUX
    + """
sys.platform = "darwin"
SESSION = b"5B9D3F0E-6A37-4C43-9C5A-0F6A1D7C2E11"
class System:
    @staticmethod
    def sysctlbyname(name, text, size, new, new_size):
        assert (name, new, new_size.value) == (b"kern.bootsessionuuid", None, 0)
        text.value, size._obj.value = SESSION, len(SESSION) + 1
        return 0
libraries = ctypes.CDLL
ctypes.CDLL = lambda name, *words, **more: System if name is None else libraries(name, *words, **more)
"""
)

IMPORTS_ALL = """
import importlib, pkgutil
import hikebox.leased
for module in pkgutil.iter_modules(hikebox.leased.__path__, "hikebox.leased."):
    importlib.import_module(module.name)
from hikebox import recurs, retry
from hikebox.leased import *
from hikebox.leased.shared import SharedLimit
def number(drawn):
    return getattr(drawn, "number", None)
"""


def said(*programs: str, folder: Path) -> List[str]:
    """What these print, one after another in one process, with a folder."""
    words = [sys.executable, "-c", "".join(programs), str(folder)]
    done = subprocess.run(words, env=python_environment(), stdout=subprocess.PIPE, stderr=subprocess.PIPE, text=True)
    assert done.returncode == 0, done.stderr
    return done.stdout.splitlines()


def test_windows_has_no_folders_and_other_stores_go_on(tmp_path: Path) -> None:
    program = """
try:
    FileStore(sys.argv[1])
except hikebox.StoreError as error:
    print(error)
class InMemory:
    given = 0
    def take(self, name, count, limit, period, clock):
        self.given += count
        return Range(self.given - count, count, clock() + 60, 5)
budget = Leased(InMemory(), "a", limit=100, per=60, lease=2)
print(*(number(budget.draw()) for _ in range(5)))
async def draws():
    return number(await budget.draw_async())
print(asyncio.run(draws()))
"""
    assert said(WINDOWS, IMPORTS_ALL, program, folder=tmp_path) == [
        "a FileStore needs the file locks of Linux or macOS; on this system share by a RedisStore",
        "0 1 2 3 4",
        "5",
    ]
    assert list(tmp_path.iterdir()) == []


def test_macos_counts_in_a_folder(tmp_path: Path) -> None:
    program = """
from hikebox.limits import Breaker, Bucket
from hikebox import spaced
store = FileStore(sys.argv[1])
budget, windows = Leased(store, "a", 100, lease=1), Leased(store, "a", 100, per=1000000, lease=1)
quota = LeasedQuota(store, "a", 4, 0.5, 1000000, lease=1)
print(*(number(each.draw()) for _ in range(2) for each in (budget, windows, quota)))
pid = os.fork()
if pid == 0:
    drawn = [number(each.draw()) for each in (budget, windows, quota)]
    os._exit(0 if drawn == [2, 2, 2] else 1)
assert os.waitstatus_to_exitcode(os.waitpid(pid, 0)[1]) == 0
print(*(number(each.draw()) for each in (budget, windows, quota)))
uptime = time.clock_gettime(time.CLOCK_MONOTONIC_RAW)
print(quota.seen().window == int(uptime // 1000000), int(hikebox.leased.machine.uptime() - uptime))
for limit in (SharedLimit(store, "b", Bucket(5)), SharedLimit(store, "c", Breaker(2, spaced(30)))):
    request = limit.request()
    print(request.admit(), request.draw())
boots = set()
for path in sorted(os.scandir(sys.argv[1]), key=lambda entry: entry.name):
    for slot in os.scandir(path.path):
        boots.add(opens(slot.path, "rb").read()[48:84])
print(boots == {SESSION, bytes(36)})
"""
    assert said(MACOS, IMPORTS_ALL, program, folder=tmp_path / "counts") == [
        "0 0 0 1 1 1",
        "3 3 3",
        "True 0",
        "None None",
        "None None",
        "True",
    ]
