"""How far storms are that take long: on a terminal, and as numbers."""

from __future__ import annotations

import os
import pty
import re
import subprocess
import sys
from typing import Any, List, Optional, Tuple

import pytest
from conftest import heed_signals, python_environment

from hikebox import Policy, recurs
from hikebox.storms import cores, estimates
from hikebox.storms.parameters import Parameters
from hikebox.storms.populations import Clients
from hikebox.storms.storm import play

FULL = "recurs(8) & exponential(0.1, 2).cap(10).jittered(0, 1)"
#: A storm with 240,000 requests, which takes about a second.
LONG = Parameters(rate=4000, capacity=2000)


class Told:
    """What is told, call by call."""

    def __init__(self) -> None:
        self.lines: List[Tuple[int, int, Optional[float]]] = []

    def __call__(self, done: int, all: int, share: Optional[float]) -> None:
        self.lines.append((done, all, share))

    def shares(self) -> List[float]:
        return [share for _, _, share in self.lines if share is not None]


def test_one_storm_tells_how_much_of_it_is_played(monkeypatch: Any) -> None:
    monkeypatch.setattr(cores, "_TICK", 0.001)
    told = Told()
    (played,) = cores.play_all([(Policy.parse(FULL), LONG)], told)
    assert played == play(Policy.parse(FULL), LONG)
    shares = told.shares()
    assert shares == sorted(shares) and 0 < shares[0] < shares[-1] < 1
    assert told.lines[-1] == (1, 1, None)


def test_of_several_storms_it_is_the_share_of_all(monkeypatch: Any) -> None:
    monkeypatch.setattr(cores, "_TICK", 0.001)
    monkeypatch.setattr(cores, "_processors", lambda: 1)
    told = Told()
    # (the small one is played first, so half of all is played before the other begins)
    cores.play_all([(recurs(0), Parameters(seconds=1)), (Policy.parse(FULL), LONG)], told)
    shares = told.shares()
    assert shares == sorted(shares) and 0.5 < shares[0] < shares[-1] < 1


def test_a_storm_of_populations_is_played_again_for_each(monkeypatch: Any) -> None:
    monkeypatch.setattr(estimates, "seconds_of", lambda *_: 2.0)
    now = [10.0]
    monkeypatch.setattr(estimates, "time_of_this_thread", lambda: lambda: now[0])
    own = Parameters(beside=(Clients(30, recurs(0)),))
    asked: List[int] = []
    made = estimates.Estimate

    def counted(policy: Policy, how: Parameters, times: int) -> Any:
        asked.append(times)
        return made(policy, how, times)

    monkeypatch.setattr(cores, "Estimate", counted)
    cores.play_all([(recurs(0), own)], Told(), has_populations=True)
    cores.play_all([(recurs(0), own)], Told())
    assert asked == [3, 1]
    # Three times two seconds: half of it after three, and longer than expected after six.
    estimate = made(recurs(0), own, 3)
    for moment, share in [(10.0, 0.0), (13.0, 0.5), (15.97, 0.995), (16.0, None), (99.0, None)]:
        now[0] = moment
        assert estimate.share() == (share if share is None else pytest.approx(share))


def test_nothing_is_told_of_a_storm_whose_part_tells_nothing() -> None:
    told = Told()
    for how in (Parameters(), Parameters(rate=17_000, calls=5000)):
        cores.play_all([(recurs(0), how)], told)
    assert not told.shares() and told.lines


def terminal(*words: str) -> str:
    """What the program writes to a terminal that is its standard error."""
    ours, theirs = pty.openpty()
    command = [sys.executable, "-m", "hikebox", *words]
    how: Any = {"stdout": subprocess.DEVNULL, "stdin": subprocess.DEVNULL, "env": python_environment()}
    process = subprocess.Popen(command, stderr=theirs, preexec_fn=heed_signals, **how)
    os.close(theirs)
    told = b""
    try:
        while True:
            told += os.read(ours, 4096)
    except OSError:  # (Linux ends a terminal that nobody has open by an error)
        pass
    os.close(ours)
    assert process.wait(timeout=600) == 0
    return told.decode()


def test_a_storm_of_a_million_requests_says_on_a_terminal_how_far_it_is() -> None:
    told = terminal("storm", "--rate", "17000", "--capacity", "20000", "--queue", "100000", FULL)
    percents = [int(found) for found in re.findall(r"\r0 of 1 storm played, about (\d+) %, \d+ s\x1b\[K", told)]
    assert percents == sorted(percents) and len(set(percents)) > 1
    assert told.endswith("\r\x1b[K")
