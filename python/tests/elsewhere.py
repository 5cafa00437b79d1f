"""macOS and Windows, on Linux without what those systems lack: for programs that are begun with one of these texts."""

from __future__ import annotations

#: What both lack. (The standard library, which is that of Linux, is imported before.)
_NO_LINUX = """
import argparse, asyncio, asyncio.subprocess, builtins, concurrent.futures, ctypes, gettext, http.server, io, os
import random, selectors, shutil, signal, subprocess, sys, tempfile, threading, time, webbrowser
def without(module, names):
    for name in names.split():
        if hasattr(module, name):
            delattr(module, name)
opens, lists = io.open, os.listdir
def is_proc(path):
    return isinstance(path, (str, bytes)) and os.fsdecode(path).startswith("/proc")
def open_but_not_proc(path, *words, **more):
    if is_proc(path):
        raise FileNotFoundError(2, "No such file or directory", path)
    return opens(path, *words, **more)
def list_but_not_proc(path="."):
    if is_proc(path):
        raise FileNotFoundError(2, "No such file or directory", path)
    return lists(path)
builtins.open, io.open, os.listdir = open_but_not_proc, open_but_not_proc, list_but_not_proc
without(time, "CLOCK_BOOTTIME pthread_getcpuclockid")
without(signal, "sigtimedwait sigwaitinfo SIGRTMIN SIGRTMAX SIGPWR SIGPOLL SIGSTKFLT")
without(os, "sched_getaffinity sched_setaffinity memfd_create pidfd_open POSIX_SPAWN_CLOSEFROM")
"""

MACOS = _NO_LINUX

WINDOWS = (
    _NO_LINUX
    + """
for name in ("fcntl", "resource", "termios", "tty", "pty", "pwd", "grp", "readline"):
    sys.modules[name] = None
without(time, "clock_gettime clock_gettime_ns clock_getres CLOCK_MONOTONIC CLOCK_MONOTONIC_RAW CLOCK_REALTIME")
without(signal, "pthread_sigmask pthread_kill sigwait sigpending SIGALRM SIGCHLD SIGCONT SIGHUP SIGPIPE SIGQUIT")
without(signal, "SIGTSTP SIGTTIN SIGTTOU SIGUSR1 SIGUSR2 SIGWINCH SIGXFSZ SIG_BLOCK SIG_SETMASK SIG_UNBLOCK")
without(signal, "setitimer alarm")
without(os, "fork forkpty register_at_fork posix_spawn posix_spawnp POSIX_SPAWN_DUP2 POSIX_SPAWN_OPEN pread pwrite")
without(os, "killpg getpgrp getpgid setpgid setsid getsid tcgetpgrp tcsetpgrp openpty mkfifo O_CLOEXEC O_DIRECTORY")
without(os, "O_NOCTTY WIFSTOPPED WSTOPSIG")
import select
without(select, "poll epoll")
"""
)

SYSTEMS = {"macOS": MACOS, "Windows": WINDOWS}

#: Runs files of tests. One that itself uses what its system lacks is left out, and fails where the package uses it.
RUNS_TESTS = """
import pytest
if sys.modules.get("resource", sys) is None:  # by which a test measures
    del sys.modules["resource"]
class LeftOut:
    @pytest.hookimpl(hookwrapper=True)
    def pytest_runtest_makereport(self, item, call):
        report = (yield).get_result()
        error = None if call.excinfo is None else call.excinfo.value
        lacks = ("module 'os'", "module 'signal'", "module 'time'", "module 'select'", "import of", "No module named")
        is_lacking = isinstance(error, (AttributeError, ImportError)) and str(error).startswith(lacks)
        if is_lacking or "in preexec_fn" in str(error):
            last = call.excinfo.traceback[-1].path
            if "/hikebox/" not in str(last):
                report.outcome, report.longrepr = "skipped", (str(last), 0, f"Skipped: {error}")
sys.exit(pytest.main(["-q", "-p", "no:cacheprovider", *sys.argv[1:]], plugins=[LeftOut()]))
"""
