"""Attempts that run beside each other, as tasks of asyncio and of trio, of which none is left behind."""

from __future__ import annotations

import sys
from collections import deque
from functools import partial
from typing import Any, Callable, Deque, List, Optional, Set

from .drivers import NOT_AWAITABLE, look_at_function, refuse_result
from .progress import Progress
from .state import Outcome
from .waits import in_time, library_here, sleep_of_asyncio

__all__ = ["HedgedAttempt", "Tasks", "tasks_here"]


class HedgedAttempt:
    """An attempt that others may run beside."""

    __slots__ = ("progress", "number", "began", "ended", "outcome", "is_called")

    def __init__(self, progress: Progress) -> None:
        self.progress = progress
        self.number = progress.state.attempt_number
        self.began = self.ended = progress.settings.clock()
        #: What came of it, once it is over, and whether the function returned before.
        self.outcome: Optional[Outcome] = None
        self.is_called = False

    async def make(self) -> None:
        """Makes the attempt. What it raises is kept, whatever that is: its task does not fail."""
        settings, state = self.progress.settings, self.progress.state
        fn: Any = state.fn
        try:
            awaitable = fn(*state.args, **state.kwargs)
            self.is_called, result = True, NOT_AWAITABLE
            if hasattr(type(awaitable), "__await__"):
                millis = settings.attempt_millis
                result = await (awaitable if millis is None else in_time(awaitable, millis))
        except BaseException as error:
            self.outcome = Outcome(None, error, self.number)
        else:
            self.outcome = Outcome(result, None, self.number)
        self.ended = settings.clock()

    def outcome_of(self, progress: Progress) -> Outcome:
        """What came of it, which it keeps no more. Refuses a function that is no coroutine function."""
        outcome, self.outcome = self.outcome, None
        assert outcome is not None, "it is over"
        if outcome.error is not None and not self.is_called:
            look_at_function(progress, outcome.error)
        if outcome.told() is NOT_AWAITABLE:
            refuse_result(progress.state.fn, repeats=False)
        progress.attempt_took(self.began, self.ended)
        return outcome


class Tasks:
    """The attempts that are under way, and a timer. The end of an `async with` cancels all, and waits for them."""

    def __init__(self) -> None:
        #: How many attempts `first` has not returned.
        self.left = 0
        #: Those of them that are over, in that order; the timer; and what came of that, once it rang.
        self.over: Deque[HedgedAttempt] = deque()
        self.timer: Any = None
        self.rang: Optional[Outcome] = None

    async def first(self) -> Optional[HedgedAttempt]:
        """The next attempt that is over, or None once the timer rang. An attempt comes first."""
        while not self.over and self.rang is None:
            await self.wait()
        if self.over:
            self.left -= 1
            return self.over.popleft()
        rang, self.rang = self.rang, None
        if rang is not None:
            rang.result()
        return None

    def begin(self, attempt: HedgedAttempt) -> None:
        """Begins an attempt."""
        self.left += 1
        self.start(attempt)

    def ends(self, attempt: HedgedAttempt) -> None:
        """An attempt is over."""
        self.over.append(attempt)
        self.wake()

    def ring(self, awaitable: Any) -> None:
        """Has the timer ring once something is awaited, or at once where that is None."""
        if awaitable is None:
            self.rang = Outcome()
        else:
            self.start_timer(awaitable)

    def rings(self, timer: Any, outcome: Outcome) -> None:
        """A timer is over, which may have been silenced."""
        if timer is self.timer:
            self.timer, self.rang = None, outcome
            self.wake()

    def silence(self) -> None:
        """Stops the timer."""
        timer, self.timer, self.rang = self.timer, None, None
        if timer is not None:
            timer.cancel()

    def sleep(self, seconds: float) -> Any:
        """Something to await that takes so long."""
        raise NotImplementedError

    def start(self, attempt: HedgedAttempt) -> None:
        """Begins a task that makes an attempt, and then calls `ends`."""
        raise NotImplementedError

    def start_timer(self, awaitable: Any) -> None:
        """Begins a task that awaits this, and then calls `rings`."""
        raise NotImplementedError

    def wake(self) -> None:
        """Ends `wait`."""
        raise NotImplementedError

    async def wait(self) -> None:
        """Waits for `wake`."""
        raise NotImplementedError

    async def __aenter__(self) -> Tasks:
        return self

    async def __aexit__(self, kind: Any, error: Any, trace: Any) -> None:
        raise NotImplementedError


class _InAsyncio(Tasks):
    """Those of asyncio."""

    def __init__(self) -> None:
        super().__init__()
        self.asyncio: Any = sys.modules["asyncio"]
        self.loop = self.asyncio.get_running_loop()
        self.tasks: Set[Any] = set()
        self.woken: Any = None

    def sleep(self, seconds: float) -> Any:
        return sleep_of_asyncio()(seconds)

    def start(self, attempt: HedgedAttempt) -> None:
        self._keep(self.loop.create_task(attempt.make()), partial(self._ended, attempt))

    def start_timer(self, awaitable: Any) -> None:
        self.timer = self.asyncio.ensure_future(awaitable)
        self._keep(self.timer, self._rang)

    def _keep(self, task: Any, then: Callable[[Any], None]) -> None:
        self.tasks.add(task)
        task.add_done_callback(self.tasks.discard)
        task.add_done_callback(then)

    def _ended(self, attempt: HedgedAttempt, task: Any) -> None:
        if attempt.outcome is None:  # (somebody else has cancelled the task before it began)
            attempt.outcome, attempt.is_called = Outcome(None, self._error_of(task), attempt.number), True
        self.ends(attempt)

    def _rang(self, timer: Any) -> None:
        self.rings(timer, Outcome(None, self._error_of(timer)))

    def _error_of(self, task: Any) -> Any:
        return self.asyncio.CancelledError() if task.cancelled() else task.exception()

    def wake(self) -> None:
        if self.woken is not None and not self.woken.done():
            self.woken.set_result(None)

    async def wait(self) -> None:
        self.woken = self.loop.create_future()
        await self.woken

    async def __aexit__(self, kind: Any, error: Any, trace: Any) -> None:
        again: Optional[BaseException] = None
        left = self._cancelled()
        while left and kind is not GeneratorExit:  # (which closes a coroutine that nobody runs any more)
            try:
                await self.asyncio.wait(left)
            except self.asyncio.CancelledError as cancelled:
                again = cancelled
            left = self._cancelled()
        if again is not None and kind is not self.asyncio.CancelledError:
            raise again

    def _cancelled(self) -> List[Any]:
        """Cancels all tasks: those that are left. One that goes on is cancelled again whenever this call is."""
        left = [task for task in self.tasks if not task.done()]
        for task in left if not self.loop.is_closed() else ():
            task.cancel()
        return left


class _InTrio(Tasks):
    """Those of trio, in a nursery."""

    def __init__(self) -> None:
        super().__init__()
        self.trio: Any = sys.modules["trio"]
        self.manager = self.trio.open_nursery()
        self.woken = self.trio.Event()

    def sleep(self, seconds: float) -> Any:
        return self.trio.sleep(seconds)

    def start(self, attempt: HedgedAttempt) -> None:
        self.nursery.start_soon(self._make, attempt)

    async def _make(self, attempt: HedgedAttempt) -> None:
        if not self.nursery.cancel_scope.cancel_called:
            await attempt.make()
            self.ends(attempt)

    def start_timer(self, awaitable: Any) -> None:
        self.timer = self.trio.CancelScope()
        self.nursery.start_soon(self._await, awaitable, self.timer)

    async def _await(self, awaitable: Any, timer: Any) -> None:
        outcome = Outcome()
        with timer:
            try:
                await awaitable
            except Exception as error:
                outcome = Outcome(None, error)
        self.rings(timer, outcome)

    def wake(self) -> None:
        self.woken.set()

    async def wait(self) -> None:
        self.woken = self.trio.Event()
        await self.woken.wait()

    async def __aenter__(self) -> Tasks:
        self.nursery = await self.manager.__aenter__()
        return self

    async def __aexit__(self, kind: Any, error: Any, trace: Any) -> None:
        if kind is not GeneratorExit:  # (which closes a coroutine that nobody runs any more)
            self.nursery.cancel_scope.cancel()
            # (the exception at hand goes past the nursery, which would put it into a group)
            await self.manager.__aexit__(None, None, None)


def tasks_here() -> Tasks:
    """None yet, of the library whose loop runs the coroutine that is here."""
    library = library_here()
    if library == "trio":
        return _InTrio()
    if library == "asyncio":
        return _InAsyncio()
    raise RuntimeError("hedge_after: expected a coroutine that asyncio or trio runs")
