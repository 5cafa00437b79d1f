"""Plays stories by processes: a peer and its clients for each, as many plays at once as are asked for."""

from __future__ import annotations

import multiprocessing
import signal
import sys
import time
from dataclasses import dataclass
from multiprocessing.connection import Connection
from types import FrameType
from typing import Callable, Dict, Iterable, List, NamedTuple, Optional, Sequence

from clients import Clients, Tally, run_clients
from nginx import run_nginx
from pace import Behind
from peer import PeerTold, run_peer
from stories import Story

#: How many times a play is made again that fell behind.
MOST_TRIES = 5
_SPAWN = multiprocessing.get_context("spawn")
#: The seconds in which every process has come to its loop.
_SOON = 1.0


class Row(NamedTuple):
    """A story under a limit."""

    story: Story
    limit: str

    @property
    def clients(self) -> List[Clients]:
        """The populations: those under the limit, and those without one where the story has such."""
        limited = Clients(1 - self.story.unlimited, self.limit)
        return [limited, Clients(self.story.unlimited, "none")] if self.story.unlimited else [limited]


@dataclass(frozen=True)
class Played:
    """A play that is over."""

    row: Row
    tallies: List[Tally]
    peer: PeerTold

    @property
    def behind(self) -> Behind:
        """The farthest that one of its processes fell behind."""
        return max([self.peer.behind, *(tally.behind for tally in self.tallies)])

    @property
    def is_void(self) -> bool:
        """Whether a process fell behind so far that calls failed for it: by more than a fifth of the patience."""
        return self.behind.most > self.row.story.patience / 5


class _Process:
    """A process, and the pipe to it."""

    def __init__(self, target: Callable[..., None], *given: object) -> None:
        self.pipe, other = _SPAWN.Pipe()
        self._process = _SPAWN.Process(target=_run, args=(target, other, *given), daemon=True)
        self._process.start()
        other.close()

    def end(self) -> None:
        """Waits until it has ended."""
        self._process.join(10)
        self._process.kill()
        self.pipe.close()


def _run(target: Callable[..., None], *given: object) -> None:
    """Runs a process up to its end, or to that of the one that started it."""
    for number in (signal.SIGINT, signal.SIGTERM):
        signal.signal(number, _leave)
    try:
        target(*given)
    except (EOFError, BrokenPipeError):
        pass


def _leave(number: int, _: Optional[FrameType]) -> None:
    raise SystemExit(128 + number)


class _Play:
    """A play under way."""

    def __init__(self, row: Row) -> None:
        self.row = row
        self.peer = _Process(run_nginx if row.story.is_nginx else run_peer, row.story)
        self.clients: List[_Process] = []

    def begin_clients(self) -> None:
        ports = self.peer.pipe.recv()
        self.clients = [_Process(run_clients, self.row.story, each, ports) for each in self.row.clients]

    def wait_for_clients(self) -> None:
        for each in self.clients:
            each.pipe.recv()

    @property
    def pipes(self) -> List[Connection]:
        return [each.pipe for each in (self.peer, *self.clients)]

    def over(self) -> Played:
        """Waits for its end."""
        tallies: List[Tally] = [each.pipe.recv() for each in self.clients]
        self.peer.pipe.send(0.0)
        told: PeerTold = self.peer.pipe.recv()
        for each in (self.peer, *self.clients):
            each.end()
        return Played(self.row, tallies, told)


def round_of(rows: Iterable[Row]) -> List[Played]:
    """Plays these at once. All begin at one moment, once the last process is there."""
    plays = [_Play(row) for row in rows]
    for play in plays:
        play.begin_clients()
    for play in plays:
        play.wait_for_clients()
    start = time.monotonic() + _SOON
    for play in plays:
        for pipe in play.pipes:
            pipe.send(start)
    print(f"bench/reality: {len(plays)} plays begin", file=sys.stderr, flush=True)
    return [play.over() for play in plays]


def played(rows: Sequence[Row], at_once: int, tell: Callable[[Played], None], tries: int = MOST_TRIES) -> List[Played]:
    """Plays all, so many at once, and those again that are void, so many times at most; in the order of the rows."""
    found: Dict[Row, Played] = {}
    for _ in range(tries):
        left = [row for row in rows if row not in found or found[row].is_void]
        rounds = -(-len(left) // at_once)
        for first in range(rounds):
            for play in round_of(left[first::rounds]):
                tell(play)
                found[play.row] = _better(found.get(play.row), play)
    return [found[row] for row in rows]


def _better(one: Optional[Played], other: Played) -> Played:
    """The one of two that fell behind less."""
    return one if one is not None and one.behind < other.behind else other


def told(play: Played) -> str:
    """A play, and how far it fell behind."""
    who = "the peer" if play.behind == play.peer.behind else "clients"
    most, at, share = play.behind
    late = f"fell behind by {1000 * most:.0f} ms at {at:.1f} s, and by more than 20 ms {100 * share:.1f} % of the time"
    return f"{'VOID: ' * play.is_void}{play.row.story.name}, {play.row.limit}: {who} {late}"
