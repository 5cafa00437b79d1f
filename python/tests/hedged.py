"""What tests of hedged calls run on: asyncio and trio by scripted time, and a peer whose calls are scripted."""

from __future__ import annotations

import asyncio
import contextlib
import importlib
from typing import Any, Awaitable, Callable, Iterator, List, Optional, Tuple, Union

import pytest

from hikebox import AsyncRetrying, Policy, recurs, spaced

KINDS = ["asyncio", "trio"]


class ScriptedLoop(asyncio.SelectorEventLoop):
    """A loop of asyncio whose time passes where nothing else is to be done, and then at once."""

    def __init__(self) -> None:
        super().__init__()
        self.now = 0.0
        selector: Any = getattr(self, "_selector")
        looks = selector.select

        def select(timeout: Optional[float]) -> Any:
            assert timeout is not None, "everybody waits, and nothing comes"
            self.now += timeout
            return looks(0)

        selector.select = select

    def time(self) -> float:
        return self.now


class World:
    """A library of coroutines by scripted time."""

    def __init__(self, kind: str) -> None:
        self.is_trio = kind == "trio"
        self.clock: Callable[[], float]
        if self.is_trio:
            self.trio: Any = pytest.importorskip("trio")
            self.mock: Any = importlib.import_module("trio.testing").MockClock(autojump_threshold=0)
            self.clock = self.mock.current_time
        else:
            self.loop = ScriptedLoop()
            self.clock = self.loop.time

    def run(self, made: Callable[[], Awaitable[Any]]) -> Any:
        """What a coroutine function gives, which leaves no task behind."""
        if self.is_trio:
            # (so each exception that comes out of a nursery is in a group)
            return self.trio.run(self._run, made, clock=self.mock, strict_exception_groups=True)
        return self._run_in_asyncio(made)

    def _run_in_asyncio(self, made: Callable[[], Awaitable[Any]]) -> Any:
        asyncio.set_event_loop(self.loop)
        try:
            return self.loop.run_until_complete(self._run(made))
        finally:
            assert asyncio.all_tasks(self.loop) == set()
            self.loop.close()
            asyncio.set_event_loop(None)

    async def _run(self, made: Callable[[], Awaitable[Any]]) -> Any:
        before = self.tasks()
        try:
            return await made()
        finally:
            assert self.tasks() == before, "a task is left behind"

    def tasks(self) -> int:
        """How many tasks there are."""
        if self.is_trio:
            return int(self.trio.lowlevel.current_statistics().tasks_living)
        return len(asyncio.all_tasks())

    @property
    def millis(self) -> int:
        """The moment, in milliseconds."""
        return round(self.clock() * 1000)

    async def sleep(self, millis: float) -> None:
        await (self.trio.sleep(millis / 1000) if self.is_trio else asyncio.sleep(millis / 1000))

    @property
    def cancelled(self) -> Any:
        return self.trio.Cancelled if self.is_trio else asyncio.CancelledError

    def event(self) -> Any:
        return self.trio.Event() if self.is_trio else asyncio.Event()

    def retrying(self, policy: Policy = recurs(2) & spaced(0), hedge_after: Any = 0.1, **how: Any) -> AsyncRetrying:
        """A retry on the library's own clock and sleep, whose attempts are late after 100 ms."""
        sleep = self.trio.sleep if self.is_trio else None
        return AsyncRetrying(policy, clock=self.clock, sleep=sleep, hedge_after=hedge_after, **how)

    async def cancels(self, made: Callable[[], Awaitable[Any]], after: float) -> Tuple[str, Any]:
        """Cancels a call after so many milliseconds: what came of it then, and when it was over."""
        if self.is_trio:
            with self.trio.CancelScope() as scope:
                async with self.trio.open_nursery() as nursery:
                    nursery.start_soon(self._cancels_later, scope, after)
                    await made()
                    scope.cancel()
            return ("cancelled" if scope.cancelled_caught else "here"), self.millis
        task = asyncio.ensure_future(made())
        await self._cancels_later(task, after)
        with contextlib.suppress(asyncio.CancelledError):
            await task
        return ("cancelled" if task.cancelled() else "here"), self.millis

    async def _cancels_later(self, what: Any, after: float) -> None:
        await self.sleep(after)
        what.cancel()


@pytest.fixture(params=KINDS)
def world(request: Any) -> Iterator[World]:
    yield World(request.param)


#: How long a call takes, in milliseconds, and what comes of it.
Script = Tuple[float, Union[str, BaseException]]


class Peer:
    """What is called: the calls take so long, one after another, and come to this. The last one repeats."""

    def __init__(self, world: World, *scripts: Script) -> None:
        self.world = world
        self.scripts = scripts
        #: When each call began, and when each one that was cancelled was.
        self.began: List[int] = []
        self.cancelled: List[Tuple[int, int]] = []

    async def __call__(self) -> str:
        self.began.append(self.world.millis)
        number = len(self.began)
        millis, comes = self.scripts[min(number, len(self.scripts)) - 1]
        try:
            await self.world.sleep(millis)
        except self.world.cancelled:
            self.cancelled.append((number, self.world.millis))
            raise
        if isinstance(comes, BaseException):
            raise comes
        return comes
