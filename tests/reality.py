#!/usr/bin/env python3
"""Plays a small storm against real sockets by bench/reality, without a limit and under a quota, and compares it with
the same storm: a peer in a process of its own, clients in another, ten seconds. docs/STORMS.md has what was measured.

It can't fail because the machine is busy. Peer and clients say how far they fell behind; a play in which one did so by
more than a fifth of the patience is void, and made again up to three times. If all were void it says so, and looks only
at what holds however late a process comes: that the quota was not exceeded.

    tests/reality.py
"""

from __future__ import annotations

import os
import select
import subprocess
import sys
from collections import Counter
from dataclasses import replace
from pathlib import Path
from typing import List

TOP = Path(__file__).resolve().parent.parent
sys.path[:0] = [str(TOP / "bench" / "reality"), str(TOP / "python" / "src")]
os.environ.setdefault("HIKEBOX_LIBRARY", str(TOP / "dist" / "libhikebox.so"))

import compare  # noqa: E402
from compare import Beside, Figures, Measured, beside, measured, read, recovered  # noqa: E402
from curves import picture  # noqa: E402
from plays import Row, played, told  # noqa: E402
from stories import NGINX, STORIES, Story  # noqa: E402
from table import matrix  # noqa: E402

#: Without a limit three in ten of its requests succeed, and under the quota three quarters.
SMALL = Story(
    "small",
    rate=40,
    seconds=6,
    capacity=50,
    queue=150,
    outage=(1, 2.5),
    patience=0.4,
    policy="recurs(6) & exponential(0.05, 2).cap(2).jittered(0, 1)",
)
#: How far a short play may lie from the spread of the storm: points of what succeeded, and a share of the calls.
POINTS, CALLS = 5.0, 0.1
#: How often a play is made until it is not void.
TRIES = 4
#: The quota of the play: a reserve and a share in each second.
RESERVE, SHARE = 1, 0.1


def looks_at_rules() -> List[str]:
    """What is wrong with the rules by which plays are judged, on examples worked by hand."""
    hundred = Counter({second: 100 for second in range(5)})
    wrong = []
    for name, won, wanted in [
        ("back at once", {0: 100, 1: 0, 2: 0, 3: 99, 4: 100}, 3),
        ("not by 98 in 100", {0: 100, 1: 0, 2: 0, 3: 98, 4: 100}, 4),
        ("never", {0: 100, 1: 100, 2: 100, 3: 100, 4: 98}, None),
        ("in the outage it is not back", {second: 100 for second in range(5)}, 3),
    ]:
        got = recovered(Story("", outage=(1, 2.5)), hundred, Counter(won))
        if got != wanted:
            wrong.append(f"{name}: recovered at {got}, expected {wanted}")
    storms = [Figures(18.0, 1000, 90, None), Figures(19.0, 1100, 95, 3)]
    for succeeded, calls, is_alike in [
        (16.0, 1000, True),
        (15.9, 1000, False),
        (21.0, 1100, True),
        (21.1, 1100, False),
        (18.5, 1134, True),
        (18.5, 1135, False),
        (18.5, 971, True),
        (18.5, 970, False),
    ]:
        play = Measured("", "", Figures(succeeded, calls, 90, None), [], 0)
        if Beside(play, storms).is_alike != is_alike:
            wrong.append(f"{succeeded} % and {calls} calls: expected {is_alike}")
    moments = list(Story("", rate=2, seconds=4, surge=(1, 2, 4)).moments(0.5))
    if moments != [0, 1, 1.5, 2, 3]:
        wrong.append(f"requests at {moments}")
    return wrong


def looks_at_pages() -> List[str]:
    """What docs/STORMS.md says otherwise than what was measured, or the storms."""
    _, plays = read(TOP / "bench" / "reality" / "measured.json")
    rows = [beside(play) for play in plays]
    wrong = []
    if matrix(rows) not in (TOP / "docs" / "STORMS.md").read_text():
        wrong.append("docs/STORMS.md: expected the table that bench/reality --shares prints of measured.json")
    if picture(plays) != (TOP / "docs" / "pictures" / "reality.svg").read_text():
        wrong.append("docs/pictures/reality.svg: expected what bench/reality --svg draws of measured.json")
    for row in rows:
        figures, name = row.play.figures, f"{row.play.story}, {row.play.limit}"
        story = {**STORIES, **NGINX}[row.play.story]
        if not row.is_alike and not beside(row.play, replace(story, patience=0.501)).is_alike:
            wrong.append(f"{name}: expected what a storm with a patience of 501 ms has")
        backs = [back for back in row.recoveries if back is not None]
        is_near = (
            any(abs(back - (figures.recovered or 0)) <= 1 for back in backs) or figures.recovered in row.recoveries
        )
        if row.is_alike and not (is_near and row.spread("calls").apart(figures.calls) <= 0.011 * figures.calls):
            wrong.append(f"{name}: expected calls within 1.1 % of the storm, and a recovery within a second")
    return wrong


def looks_at_leaving() -> List[str]:
    """Whether processes are left of a bench/reality that is killed in its plays: they hold its output."""
    program = [sys.executable, str(TOP / "bench" / "reality"), "--story", "outage", "--limit", "quota"]
    environment = {**os.environ, "PYTHONPATH": str(TOP / "python" / "src")}
    killed = subprocess.Popen(program, env=environment, stdout=subprocess.PIPE, stderr=subprocess.PIPE)
    assert killed.stdout is not None and killed.stderr is not None
    began = killed.stderr.readline()
    killed.kill()
    killed.wait()
    # (a play goes on for a minute)
    is_left = not select.select([killed.stdout], [], [], 45)[0]
    killed.stdout.close()
    killed.stderr.close()
    return [f"processes are left of a program that was killed after {began!r}"] if is_left or not began else []


def looks_at(play: Measured, is_void: bool) -> List[str]:
    """What is wrong with a play."""
    figures, wrong = play.figures, []
    requests = SMALL.rate * SMALL.seconds
    most = requests * (1 + SHARE) + RESERVE * len(play.begun)
    if play.limit == "quota" and figures.calls > most:
        wrong.append(f"{figures.calls} calls, where the quota allows {most:.0f}")
    row = beside(play, SMALL)
    if not is_void and not row.is_alike:
        wrong.append(f"{play.limit}: {figures}, expected about {row.spread('succeeded')} and {row.spread('calls')}")
    return wrong


def main() -> int:
    wrong = looks_at_rules() + looks_at_pages() + looks_at_leaving()
    compare.POINTS, compare.CALLS = POINTS, CALLS
    plays = played([Row(SMALL, "none"), Row(SMALL, "quota")], 2, lambda play: print(told(play), flush=True), TRIES)
    for play in plays:
        wrong += looks_at(measured(play), play.is_void)
    if wrong:
        raise SystemExit("\n".join(f"tests/reality.py: {each}" for each in wrong))
    void = [play.row.limit for play in plays if play.is_void]
    left_out = f"; the machine was too busy to compare {' and '.join(void)}" if void else ""
    shares = ", ".join(f"{play.row.limit} {measured(play).figures.succeeded:.1f} %" for play in plays)
    print(f"tests/reality.py: what succeeds on real sockets: {shares}{left_out}")
    return 0


if __name__ == "__main__":
    sys.exit(main())
