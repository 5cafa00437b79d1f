"""Processes of tests: workers that draw tickets, and children that are forked."""

from __future__ import annotations

import json
import os
import subprocess
import sys
import time
import traceback
from pathlib import Path
from typing import Any, Callable, List

from conftest import HERE, python_environment


class Workers:
    """Processes that run a script of this folder, each by what it is told and with a file for what it notes."""

    def __init__(self, script: str, folder: Path) -> None:
        self.script = script
        self.folder = folder
        self.processes: List[Any] = []

    def notes_of(self, number: int) -> Path:
        """The file of a process."""
        return self.folder / f"notes-{number}"

    def start(self, how: Any) -> Any:
        notes = self.notes_of(len(self.processes))
        words = [sys.executable, str(HERE / self.script), json.dumps(how), str(notes)]
        pipes: Any = {"stdout": subprocess.PIPE, "stderr": subprocess.PIPE, "text": True}
        self.processes.append(subprocess.Popen(words, env=python_environment(), **pipes))
        return self.processes[-1]

    def wait(self) -> List[int]:
        """How they ended: by themselves, or killed."""
        for number, process in enumerate(self.processes):
            output, errors = process.communicate()
            assert process.returncode in (0, -9), errors
            if process.returncode == 0:
                self.look_at(number, output)
        return [process.returncode for process in self.processes]

    def look_at(self, number: int, output: str) -> None:
        """Looks at what a process printed that was not killed."""

    def count(self) -> int:
        """How many tickets were drawn so far."""
        raise NotImplementedError

    def await_that(self, holds: Callable[[], bool]) -> None:
        """Waits until this holds, as long as a process runs."""
        runs = True
        while not holds():
            assert runs
            runs = any(process.poll() is None for process in self.processes)
            time.sleep(0.05)

    def await_tickets(self, count: int) -> None:
        """Waits until so many tickets were drawn."""
        self.await_that(lambda: self.count() >= count)

    def end(self) -> None:
        """Ends those that still run."""
        for process in self.processes:
            if process.poll() is None:
                process.kill()
                process.communicate()


def in_a_forked_child(call: Callable[[], object]) -> None:
    """Makes this call in a forked child, where it has to raise nothing."""
    child = os.fork()
    if child == 0:
        status = 1
        try:
            call()
            status = 0
        except BaseException:
            traceback.print_exc()
        finally:
            os._exit(status)
    assert os.waitstatus_to_exitcode(os.waitpid(child, 0)[1]) == 0
