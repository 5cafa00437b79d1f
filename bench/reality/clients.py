"""Clients in a process of their own: requests at an even pace, each retried by this package."""

from __future__ import annotations

import asyncio
import socket
import struct
import sys
from dataclasses import dataclass, field
from itertools import cycle
from multiprocessing.connection import Connection
from typing import Counter, List, Set, Type

from hikebox import AsyncRetrying, NotAdmitted, Policy

from pace import Behind, Pace, until
from peer import DONE, told
from stories import LIMITS, PlayClock, Story


_FAILURES = (OSError, asyncio.TimeoutError)
#: (a connection is reset where it is closed)
_RESETS = struct.pack("ii", 1, 0)


@dataclass
class Tally:
    """What became of the requests, in windows of a second."""

    requests: Counter[int] = field(default_factory=Counter)
    won: Counter[int] = field(default_factory=Counter)
    #: The calls that began, and the requests that were denied their first.
    calls: Counter[int] = field(default_factory=Counter)
    not_admitted: Counter[int] = field(default_factory=Counter)
    behind: Behind = Behind(0, 0, 0)


@dataclass(frozen=True)
class Clients:
    """Whose requests they are: the share of all, and the name of the limit."""

    share: float
    limit: str


class Population:
    """Clients with one policy and one limit."""

    def __init__(self, story: Story, clients: Clients, clock: PlayClock, ports: List[int]) -> None:
        self.story, self.clients, self.clock = story, clients, clock
        #: Where each call goes, in turn.
        self.ports = cycle(ports)
        self.tally = Tally()

    async def play(self) -> None:
        """Makes all requests, and waits until they are over, or the play is."""
        under_way: Set[asyncio.Task[None]] = set()
        for due in self.story.moments(self.clients.share):
            await until(self.clock, due)
            task = asyncio.create_task(self._request(int(due + 1e-6)))
            under_way.add(task)
            task.add_done_callback(under_way.discard)
        while under_way and self.clock() < self.story.until:
            await asyncio.sleep(0.1)

    async def _request(self, second: int) -> None:
        self.tally.requests[second] += 1
        try:
            if await self.succeeds():
                self.tally.won[second] += 1
        except NotAdmitted:
            self.tally.not_admitted[second] += 1

    async def succeeds(self) -> bool:
        """Makes a request with all its calls. Its limit may not admit it."""
        raise NotImplementedError

    def count_call(self) -> None:
        """Counts a call that begins."""
        self.tally.calls[int(self.clock())] += 1


class LinePopulation(Population):
    """Clients of a peer that answers each connection by a line."""

    def __init__(self, story: Story, clients: Clients, clock: PlayClock, ports: List[int]) -> None:
        super().__init__(story, clients, clock, ports)
        limit = LIMITS[clients.limit](clock)
        self._retrying = AsyncRetrying(Policy.parse(story.policy), on=_FAILURES, limit=limit, clock=clock)

    async def succeeds(self) -> bool:
        try:
            await self._retrying(self._call)
        except _FAILURES:
            return False
        return True

    async def _call(self) -> None:
        self.count_call()
        await asyncio.wait_for(_ask(next(self.ports)), self.story.patience)


async def _ask(port: int) -> None:
    loop = asyncio.get_running_loop()
    # (streams cost twice as much; and a connection that is reset leaves no port that waits for a minute)
    with socket.socket() as line:
        line.setblocking(False)
        line.setsockopt(socket.SOL_SOCKET, socket.SO_LINGER, _RESETS)
        line.connect_ex(("127.0.0.1", port))
        answer = await loop.sock_recv(line, 16)
    if answer != DONE:
        raise ConnectionError("shed" if answer else "refused")


def _kind_of(story: Story) -> Type[Population]:
    if not story.is_nginx:
        return LinePopulation
    try:
        from web import WebPopulation
    except ImportError as error:
        raise SystemExit(f"bench/reality: expected aiohttp (on Debian python3-aiohttp): {error}") from None
    return WebPopulation


async def _play(pipe: Connection, story: Story, clients: Clients, ports: List[int]) -> Tally:
    kind = _kind_of(story)
    pipe.send("ready")
    clock = PlayClock(await told(pipe))
    # (nothing more is sent: it can be read once the one who would is gone)
    asyncio.get_running_loop().add_reader(pipe.fileno(), sys.exit)
    await until(clock, 0.0)
    pace = Pace(clock)
    ticking = asyncio.create_task(pace.keep())
    population = kind(story, clients, clock, ports)
    await population.play()
    ticking.cancel()
    population.tally.behind = pace.behind
    return population.tally


def run_clients(pipe: Connection, story: Story, clients: Clients, ports: List[int]) -> None:
    """The process: takes the moment at which the play begins, and at the end says what became of its requests."""
    pipe.send(asyncio.run(_play(pipe, story, clients, ports)))
