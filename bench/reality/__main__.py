"""Plays storms against real sockets, beside the same storms of `hikebox.storm`:

    nice -n -12 python3 bench/reality --out FILE
    python3 bench/reality --nginx --out FILE
    python3 bench/reality --read bench/reality/measured.json --svg docs/pictures/reality.svg

A peer in a process of its own serves calls over loopback TCP, and clients in another retry theirs by this package. A
play takes a minute and a half. One in which a process fell behind by more than a fifth of the clients' patience is void
and made again; `nice` keeps other work from that. With the package installed it needs nothing else.
"""

from __future__ import annotations

import argparse
import sys
import time
from pathlib import Path
from typing import List

from compare import Measured, beside, measured, read, written
from curves import picture
from plays import MOST_TRIES, Row, played, told
from stories import LIMITS, NGINX, STORIES
from table import matrix, table


def rows_of(stories: List[str], limits: List[str]) -> List[Row]:
    """Each story under each limit. Clients that all have no limit are of one population."""
    rows = [Row({**STORIES, **NGINX}[story], limit) for story in stories for limit in limits]
    return [row for row in rows if row.limit != "none" or not row.story.unlimited]


def play(given: argparse.Namespace) -> List[Measured]:
    """Plays what is asked for, and tells how far processes fell behind."""
    began = time.monotonic()
    rows = rows_of(given.story or list(NGINX if given.nginx else STORIES), given.limit or list(LIMITS))
    found = played(rows, given.at_once, lambda play: print(told(play), file=sys.stderr, flush=True), given.tries)
    print(f"{len(rows)} plays, {given.at_once} at once: {time.monotonic() - began:.0f} s", file=sys.stderr)
    return [measured(each) for each in found if not each.is_void]


def main() -> int:
    parser = argparse.ArgumentParser(
        prog="bench/reality", description=__doc__, formatter_class=argparse.RawTextHelpFormatter
    )
    parser.add_argument("--story", action="append", choices=[*STORIES, *NGINX], help="a story; all where none is named")
    parser.add_argument("--limit", action="append", choices=LIMITS, help="a limit; all where none is named")
    parser.add_argument("--nginx", action="store_true", help="the stories of nginx, which needs nginx and aiohttp")
    parser.add_argument("--at-once", type=int, default=8, metavar="N", help="plays at once: 8")
    parser.add_argument("--tries", type=int, default=MOST_TRIES, metavar="N", help="how often a void play is made")
    parser.add_argument("--about", default="", help="when and where, for the file")
    parser.add_argument("--out", type=Path, help="writes what was measured")
    parser.add_argument("--read", type=Path, help="plays nothing, and reads what was measured")
    parser.add_argument("--shares", action="store_true", help="prints only what succeeded, a column for each story")
    parser.add_argument("--svg", type=Path, help="draws four of the plays")
    given = parser.parse_args()
    plays = read(given.read)[1] if given.read else play(given)
    if given.out:
        given.out.write_text(written(plays, given.about))
    rows = [beside(each) for each in plays]
    print(matrix(rows) if given.shares else table(rows), end="")
    if given.svg:
        given.svg.write_text(picture(plays))
    return 0


if __name__ == "__main__":
    try:
        sys.exit(main())
    except KeyboardInterrupt:
        sys.exit(130)
    except EOFError:
        sys.exit("bench/reality: a process ended before its play was over")
