"""A peer in a process of its own: loopback TCP, a queue for each replica, served in order at so many calls a second."""

from __future__ import annotations

import asyncio
from collections import deque
from functools import partial
from multiprocessing.connection import Connection
from typing import Deque, List, NamedTuple, Optional, Tuple, cast

from pace import Behind, Pace, until
from stories import PlayClock, Story

DONE, SHED = b"done\n", b"shed\n"


class PeerTold(NamedTuple):
    """What a peer says at the end: the calls that it served, refused and shed, and how far it fell behind."""

    served: int
    refused: int
    shed: int
    behind: Behind


class Call(asyncio.Protocol):
    """A call, which is a connection: it is answered by a line, and refused without one."""

    def __init__(self, replica: Replica) -> None:
        self._replica = replica
        self._transport: Optional[asyncio.Transport] = None

    def connection_made(self, transport: asyncio.BaseTransport) -> None:
        self._transport = cast(asyncio.Transport, transport)
        self._replica.take(self)

    def answer(self, line: bytes) -> None:
        """Answers, unless the client has given up, and ends the connection."""
        assert self._transport is not None
        if line and not self._transport.is_closing():
            self._transport.write(line)
        self._transport.close()


class Replica:
    """One queue, first come first served. A call whose client has given up is served for nobody."""

    def __init__(self, story: Story, number: int, clock: PlayClock) -> None:
        self._story, self._number, self._clock = story, number, clock
        self._waiting: Deque[Tuple[float, Call]] = deque()
        self._wakes = asyncio.Event()
        self.served = self.refused = self.shed = 0

    def take(self, call: Call) -> None:
        """Refuses a call, sheds it, or puts it at the end of the queue."""
        now = self._clock()
        if self._story.refuses_at(now, self._number):
            self.refused += 1
            call.answer(b"")
        elif len(self._waiting) >= self._story.queue:
            self.shed += 1
            call.answer(SHED)
        else:
            self._waiting.append((now, call))
            self._wakes.set()

    @property
    def counts(self) -> Tuple[int, int, int]:
        """The calls that it served, refused and shed."""
        return self.served, self.refused, self.shed

    async def serve(self) -> None:
        """Serves calls until it is cancelled. The moment at which each is done is reckoned, so no delay adds up."""
        free = 0.0
        while True:
            await self._wakes.wait()
            came, call = self._waiting[0]
            begins = max(free, came)
            free = begins + 1 / self._story.capacity_at(begins)
            await until(self._clock, free)
            self._waiting.popleft()
            self.served += 1
            call.answer(DONE)
            if not self._waiting:
                self._wakes.clear()


async def _serve(pipe: Connection, story: Story) -> None:
    loop = asyncio.get_running_loop()
    clock = PlayClock(0.0)
    replicas = [Replica(story, number, clock) for number in range(story.replicas)]
    servers = [await loop.create_server(partial(Call, each), "127.0.0.1", 0, backlog=4096) for each in replicas]
    pipe.send([server.sockets[0].getsockname()[1] for server in servers])
    clock.start = await told(pipe)
    pace = Pace(clock)
    work: List[asyncio.Task[None]] = [loop.create_task(each.serve()) for each in replicas]
    work.append(loop.create_task(pace.keep()))
    await told(pipe)
    served, refused, shed = (sum(counts) for counts in zip(*(each.counts for each in replicas)))
    pipe.send(PeerTold(served, refused, shed, pace.behind))
    for each in work:
        each.cancel()


async def told(pipe: Connection) -> float:
    """The next moment that is sent through a pipe, which is waited for while the loop goes on."""
    loop = asyncio.get_running_loop()
    can_be_read = asyncio.Event()
    loop.add_reader(pipe.fileno(), can_be_read.set)
    await can_be_read.wait()
    loop.remove_reader(pipe.fileno())
    return cast(float, pipe.recv())


def run_peer(pipe: Connection, story: Story) -> None:
    """The process: sends its ports, takes the moment at which the play begins, and at the end says what it did."""
    asyncio.run(_serve(pipe, story))
