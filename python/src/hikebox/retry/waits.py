"""How a retry waits: what sleeps, what an event as `stop` ends, and what lets other coroutines go on."""

from __future__ import annotations

import sys
import threading
import time
from functools import lru_cache, partial
from typing import Any, Callable, Dict, Optional

from .._functions import is_async, look_at_function
from .._forks import begins_anew_in_a_child
from .._time import seconds_text
from ..errors import AttemptTimeout

__all__ = [
    "in_time",
    "library_here",
    "pause_of",
    "sleep_here",
    "sleep_now",
    "sleep_of",
    "sleep_of_asyncio",
    "switch",
]

Sleep = Callable[[float], Any]

#: The most seconds that the system's sleep takes: centuries.
_MAX_SECONDS = 9e9

#: A `sleep` of the user's own, which nothing can end, sleeps at most so many seconds at a time beside an event.
_PART = 0.05

#: After so many seconds a thread that waits for an event looks whether a coroutine still does.
_LOOKS = 5.0

#: The clocks by which time passes while a thread sleeps.
_REAL_CLOCKS = (time.monotonic, time.time, time.perf_counter)


class _Switch:
    """Whether waits are left out: `hikebox.testing.no_waits` turns it."""

    __slots__ = ("no_waits",)

    def __init__(self) -> None:
        #: How many `with` blocks ask for that.
        self.no_waits = 0


switch = _Switch()


def sleep_of(sleep: Any, stop: Any, clock: Any, awaits: bool) -> Sleep:
    """What waits so many seconds, and less where `stop` is an event that is set meanwhile."""
    if sleep is not None:
        if awaits and sleep is time.sleep:
            raise TypeError("sleep: time.sleep blocks all coroutines; expected one that is awaited, as asyncio.sleep")
        look_at_function("sleep", sleep, awaits)
    event = stop if callable(getattr(stop, "is_set", None)) else None
    if awaits:
        return _async_sleep_of(sleep, event)
    if event is None:
        return _sleep if sleep is None else sleep  # type: ignore[no-any-return]
    wait = getattr(event, "wait", None)
    if callable(wait) and sleep in (None, time.sleep):
        return partial(_wait, event)
    if sleep is not None and clock not in _REAL_CLOCKS:
        return sleep  # type: ignore[no-any-return]
    return partial(_sleep_in_parts, _sleep if sleep is None else sleep, event.is_set)


def pause_of(sleep: Any, awaits: bool) -> Optional[Sleep]:
    """What lets other coroutines go on where a retry has nothing to wait for; None for one that blocks."""
    if not awaits:
        return None
    return partial(_pause, sleep_here if sleep is None else sleep)


@lru_cache(maxsize=None)
def sleep_of_asyncio() -> Sleep:
    """What sleeps as asyncio.sleep does, by a future alone: many coroutines may wait at once. Elsewhere it sleeps by
    the library that is there."""
    from asyncio import Future, get_running_loop

    class Wake(Future):  # type: ignore[type-arg]
        __slots__ = ("timer",)

        timer: Any

        def cancel(self, *how: Any, **named: Any) -> bool:
            if self.timer is not None:
                self.timer.cancel()
                self.timer = None
            return super().cancel(*how, **named)

    def wake(waits: Wake) -> None:
        waits.timer = None  # which has it, too
        if not waits.done():
            waits.set_result(None)

    def sleep(seconds: float) -> Any:
        try:
            loop = get_running_loop()
        except RuntimeError:
            return sleep_here(seconds)
        waits = Wake(loop=loop)
        waits.timer = loop.call_later(seconds, wake, waits)
        return waits

    return sleep


def _sleep(seconds: float) -> None:
    time.sleep(min(seconds, _MAX_SECONDS))


def sleep_now(seconds: float) -> None:
    """Sleeps, unless waits are left out."""
    if not switch.no_waits:
        _sleep(seconds)


async def sleep_here(seconds: float) -> None:
    """Sleeps by the library that runs this coroutine, unless waits are left out."""
    if switch.no_waits:
        return
    if library_here() == "trio":
        await sys.modules["trio"].sleep(seconds)
    else:
        import asyncio

        await asyncio.sleep(seconds)


def _wait(event: Any, seconds: float) -> None:
    """Waits for an event. One that was set and cleared again ends nothing."""
    until = time.monotonic() + seconds
    while seconds > 0 and event.wait(min(seconds, threading.TIMEOUT_MAX)) and not event.is_set():
        seconds = until - time.monotonic()


def _sleep_in_parts(sleep: Sleep, is_set: Callable[[], Any], seconds: float) -> None:
    """Sleeps in parts until the event is set. A sleep that takes no time is called twice at most."""
    while seconds > 0 and not is_set():
        began, part = time.monotonic(), min(seconds, _PART)
        sleep(part)
        took = time.monotonic() - began
        if took < part / 2 and seconds > part:
            sleep(seconds - part)
            return
        seconds -= max(part, took)


async def _sleep_in_parts_async(sleep: Sleep, is_set: Callable[[], Any], seconds: float) -> None:
    while seconds > 0 and not is_set():
        began, part = time.monotonic(), min(seconds, _PART)
        await _awaited(sleep(part))
        took = time.monotonic() - began
        if took < part / 2 and seconds > part:
            await _awaited(sleep(seconds - part))
            return
        seconds -= max(part, took)


async def _awaited(answer: Any) -> None:
    if hasattr(type(answer), "__await__"):
        await answer


def _async_sleep_of(sleep: Any, event: Any) -> Sleep:
    if sleep is None:
        sleep = sleep_of_asyncio()
    if event is None:
        return sleep  # type: ignore[no-any-return]
    wait = getattr(event, "wait", None)
    if not callable(wait):
        return partial(_sleep_in_parts_async, sleep, event.is_set)
    if is_async(wait):
        return partial(_sleep_or_event, sleep, event)
    return partial(_sleep_or_blocking_event, sleep, event, _Watch())


async def _sleep_or_event(sleep: Sleep, event: Any, seconds: float) -> None:
    """Sleeps until an event of coroutines is set."""
    library = library_here()
    if library == "asyncio":
        await _sleep_in_asyncio(sleep, event, event.wait, seconds)
    elif library == "trio":
        await _first_in_trio(sleep, event.wait, seconds)
    else:
        await _sleep_in_parts_async(sleep, event.is_set, seconds)


async def _sleep_or_blocking_event(sleep: Sleep, event: Any, watch: _Watch, seconds: float) -> None:
    """Sleeps until an event of threads or processes is set."""
    if library_here() == "asyncio":
        await _sleep_in_asyncio(sleep, event, partial(watch.is_set, event), seconds)
    else:
        await _sleep_in_parts_async(sleep, event.is_set, seconds)


def library_here() -> str:
    """Whose event loop runs the coroutine that is here: "asyncio", "trio", or "" where it is another one's."""
    trio = sys.modules.get("trio")
    if trio is not None:
        try:
            trio.lowlevel.current_task()
            return "trio"
        except RuntimeError:
            pass
    try:
        sys.modules["asyncio"].get_running_loop()
        return "asyncio"
    except (KeyError, RuntimeError):
        return ""


def _pause(sleep: Sleep, _: float) -> Any:
    """Something to await that lets other coroutines go on, by the library that runs this one."""
    library = library_here()
    if library == "asyncio":
        return sys.modules["asyncio"].sleep(0)
    return sys.modules["trio"].sleep(0) if library == "trio" else sleep(0)


async def in_time(awaitable: Any, millis: int) -> Any:
    """Awaits something for at most so many milliseconds; then it is cancelled, and an `AttemptTimeout` is raised."""
    library = library_here()
    if library == "trio":
        with sys.modules["trio"].move_on_after(millis / 1000):
            return await awaitable
    elif library == "asyncio":
        timeout = getattr(sys.modules["asyncio"], "timeout", _TimeoutByTask)(millis / 1000)
        try:
            async with timeout:
                return await awaitable
        except TimeoutError:
            if not timeout.expired():
                raise
    else:
        getattr(awaitable, "close", int)()
        raise RuntimeError("attempt_timeout: expected a coroutine that asyncio or trio runs")
    raise AttemptTimeout(f"the attempt took longer than {seconds_text(millis)} s")


class _TimeoutByTask:
    """What asyncio.timeout is, which Python 3.9 and 3.10 lack: it cancels the task, and knows that it did."""

    def __init__(self, seconds: float) -> None:
        self.seconds = seconds
        self._is_expired = False

    def expired(self) -> bool:
        """Whether it has cancelled the task."""
        return self._is_expired

    async def __aenter__(self) -> None:
        import asyncio

        self._task: Any = asyncio.current_task()
        self._timer = asyncio.get_running_loop().call_later(self.seconds, self._expire)

    def _expire(self) -> None:
        self._is_expired = True
        self._task.cancel()

    async def __aexit__(self, kind: Any, error: Any, trace: Any) -> None:
        self._timer.cancel()
        if self._is_expired and kind is sys.modules["asyncio"].CancelledError:
            raise TimeoutError from error


async def _sleep_in_asyncio(sleep: Sleep, event: Any, ends: Callable[[], Any], seconds: float) -> None:
    """Sleeps until the event is set, which `ends` awaits. One that was set and cleared again ends nothing."""
    until = time.monotonic() + seconds
    while seconds > 0 and not await _first_in_asyncio(sleep(seconds), ends()) and not event.is_set():
        seconds = until - time.monotonic()


async def _first_in_asyncio(sleeps: Any, ends: Any) -> bool:
    """Awaits the first of both, and cancels the other: whether it slept. What sleeps may raise; a function that slept
    returned nothing to await."""
    import asyncio

    waits = [asyncio.ensure_future(ends)]
    if hasattr(type(sleeps), "__await__"):
        waits.append(asyncio.ensure_future(sleeps))
        try:
            await asyncio.wait(waits, return_when=asyncio.FIRST_COMPLETED)
        finally:
            slept: bool = waits[1].done()
            await _cancelled(waits)
        if slept:
            waits[1].result()
        return slept
    await _cancelled(waits)
    return True


async def _cancelled(waits: Any) -> None:
    import asyncio

    for wait in waits:
        wait.cancel()
    await asyncio.gather(*waits, return_exceptions=True)


async def _first_in_trio(sleep: Sleep, ends: Callable[[], Any], seconds: float) -> None:
    """The same by trio."""
    trio: Any = sys.modules["trio"]
    failed: Optional[Exception] = None
    async with trio.open_nursery() as nursery:

        async def end() -> None:
            await ends()
            nursery.cancel_scope.cancel()

        nursery.start_soon(end)
        try:
            await _awaited(sleep(seconds))
        except Exception as error:
            failed = error  # which a nursery may put into a group
        nursery.cancel_scope.cancel()
    if failed is not None:
        raise failed


class _Watch:
    """A thread that waits for an event of threads, for all coroutines that wait for it. It ends once none does."""

    def __init__(self) -> None:
        self.begin_anew()
        begins_anew_in_a_child(self)

    def begin_anew(self) -> None:
        #: Taken again by the same thread where the collector closes a coroutine that waits.
        self._lock = threading.RLock()
        #: The futures of coroutines, each with its loop.
        self._waiting: Dict[Any, Any] = {}
        self._is_watched = False

    async def is_set(self, event: Any) -> None:
        """Returns when the event is set."""
        import asyncio

        loop = asyncio.get_running_loop()
        future = loop.create_future()
        with self._lock:
            self._waiting[future] = loop
            begins, self._is_watched = not self._is_watched, True
        if begins:
            threading.Thread(target=self._watch, args=(event,), name="hikebox-stop", daemon=True).start()
        try:
            await future
        finally:
            with self._lock:
                self._waiting.pop(future, None)

    def _watch(self, event: Any) -> None:
        while True:
            is_set = event.wait(_LOOKS)
            with self._lock:
                if is_set or not self._waiting:
                    self._is_watched = False
                    waiting, self._waiting = self._waiting, {}
                    break
        for future, loop in waiting.items() if is_set else ():
            try:
                loop.call_soon_threadsafe(_resolve, future)
            except RuntimeError:
                pass  # the loop was closed meanwhile


def _resolve(future: Any) -> None:
    if not future.done():
        future.set_result(None)
