"""The processes that play the storms of `hikebox lab`, of which each storm is broken off by ending its process."""

from __future__ import annotations

import json
import queue
import subprocess
import sys
import threading
from pathlib import Path
from typing import Any, Callable, Dict, List

from .shares import Told, silent

__all__ = ["BrokenOff", "Players"]

#: What such a process runs, with the folder that the package is in, should it not find that by itself.
_PROGRAM = "import sys; sys.path.append(sys.argv[1]); from hikebox.lab.player import main; main()"
#: How often is looked whether a storm is still wanted, in seconds.
_TICK = 0.05


class BrokenOff(Exception):
    """Nobody wants the storm any more, or its process ended."""


class _Player:
    """A process, which plays one storm at a time."""

    def __init__(self) -> None:
        self.process = subprocess.Popen(
            [sys.executable, "-c", _PROGRAM, str(Path(__file__).resolve().parents[2])],
            stdin=subprocess.PIPE,
            stdout=subprocess.PIPE,
            cwd="/",
            start_new_session=True,
        )
        self._said: queue.SimpleQueue[bytes] = queue.SimpleQueue()
        self._reader = threading.Thread(target=self._read, daemon=True)
        self._reader.start()

    def ask(self, asked: Dict[str, Any], is_wanted: Callable[[], bool], told: Told) -> Dict[str, Any]:
        """The answer, as long as it is wanted. Meanwhile it is told the share of what is done."""
        assert self.process.stdin is not None
        try:
            self.process.stdin.write(json.dumps(asked).encode() + b"\n")
            self.process.stdin.flush()
        except OSError:
            raise BrokenOff from None
        while True:
            try:
                line = self._said.get(timeout=_TICK)
            except queue.Empty:
                if not is_wanted():
                    raise BrokenOff from None
                continue
            if not line:
                raise BrokenOff
            answer: Dict[str, Any] = json.loads(line)
            if "done" not in answer:
                return answer
            told(answer["done"])

    def _read(self) -> None:
        """Reads what it says, up to an end, which is no line. (Windows waits for no pipe beside something else.)"""
        stdout = self.process.stdout
        assert stdout is not None
        for line in stdout:
            self._said.put(line)
        self._said.put(b"")

    def end(self) -> None:
        self.process.kill()
        self._reader.join()
        self.process.communicate()


class Players:
    """So many processes at most, which are begun when they are wanted."""

    def __init__(self, most: int) -> None:
        self._lock = threading.Lock()
        self._places = threading.BoundedSemaphore(most)
        self._idle: List[_Player] = []
        self._busy: List[_Player] = []
        self._closed = False

    def play(self, asked: Dict[str, Any], is_wanted: Callable[[], bool], told: Told = silent) -> Dict[str, Any]:
        """The answer to a storm, or a `BrokenOff` once it is not wanted any more."""
        while not self._places.acquire(timeout=_TICK):
            if not is_wanted():
                raise BrokenOff
        try:
            return self._play(asked, is_wanted, told)
        finally:
            self._places.release()

    def _play(self, asked: Dict[str, Any], is_wanted: Callable[[], bool], told: Told) -> Dict[str, Any]:
        player = self._lend()
        done = False
        try:
            answer = player.ask(asked, is_wanted, told)
            done = True
            return answer
        finally:
            self._take_back(player, done)

    def _lend(self) -> _Player:
        with self._lock:
            if self._closed:
                raise BrokenOff
            while self._idle:
                player = self._idle.pop()
                if player.process.poll() is None:
                    break
                player.end()
            else:
                player = _Player()
            self._busy.append(player)
            return player

    def _take_back(self, player: _Player, is_well: bool) -> None:
        with self._lock:
            if is_well and not self._closed:
                self._busy.remove(player)
                self._idle.append(player)
                return
        player.end()
        with self._lock:
            self._busy.remove(player)

    def close(self) -> None:
        """Ends them all, and waits until they have ended."""
        with self._lock:
            self._closed = True
            idle, self._idle = self._idle, []
            busy = list(self._busy)
        for player in idle:
            player.end()
        # (who has asked one takes it back; a thread that is slow to do so leaves no process)
        for player in busy:
            player.process.kill()
            player.process.wait()
