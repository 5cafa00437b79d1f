#!/usr/bin/env python3
"""What an attempt costs by the Python package, beside tenacity's: processor time, the least of several runs each.

Started by hand at the top of the repository, with the engine's library and an interpreter that has tenacity and
prometheus_client:

    HIKEBOX_LIBRARY=dist/libhikebox.so PYTHONPATH=python/src /usr/bin/python3 bench/python.py

It wants a machine with nothing else to do. Ten attempts fail and the eleventh succeeds, within what policies and stops
allow; no wait is slept.
"""

from __future__ import annotations

import asyncio
import gc
import os
import resource
import subprocess
import sys
import threading
import time
from typing import Any, Callable, List

import prometheus_client
import tenacity

import hikebox
from hikebox import Adaptive, Breaker, Bucket, Budget, InFlight, Pace, Quota, Throttle
from hikebox import both, exponential, metrics, recurs, spaced
from hikebox.retry.watch import watch

ATTEMPTS = 11
RUNS = 100


class Fails:
    """A call that fails ten times and then succeeds, again and again."""

    def __init__(self) -> None:
        self.left = ATTEMPTS

    def __call__(self) -> None:
        self.left -= 1
        if self.left:
            raise ValueError
        self.left = ATTEMPTS

    async def later(self) -> None:
        self()


def least(count: int, *runs: Callable[[int], Any]) -> List[float]:
    """The least nanoseconds of processor time for each of so many calls, of runs that take turns."""
    best = [float("inf")] * len(runs)
    for turn in range(RUNS):
        for index, run in enumerate(runs):
            gc.collect()
            gc.disable()
            start = time.process_time_ns()
            run(count)
            took = (time.process_time_ns() - start) / count
            gc.enable()
            if turn:
                best[index] = min(best[index], took)
    return best


def nothing(*_: Any) -> None:
    pass


async def nothing_later(*_: Any) -> None:
    pass


def calls(wrapped: Callable[[], Any]) -> Callable[[int], None]:
    def run(count: int) -> None:
        for _ in range(count):
            wrapped()

    return run


def calls_later(wrapped: Callable[[], Any]) -> Callable[[int], None]:
    async def main(count: int) -> None:
        for _ in range(count):
            await wrapped()

    return lambda count: asyncio.run(main(count))


def loops(retrying: Any, fails: Fails) -> Callable[[int], None]:
    def run(count: int) -> None:
        for _ in range(count):
            for attempt in retrying:
                with attempt:
                    fails()

    return run


def tell(what: str, ours: Callable[[int], Any], theirs: Callable[[int], Any], attempts: int) -> None:
    own, other = (each / attempts for each in least(1000 // attempts, ours, theirs))
    print(f"{what}: an attempt {own / 1000:.2f} us, of tenacity {other / 1000:.2f} us, ratio {own / other:.2f}")


def counted(what: str, run: Callable[[int], Any], attempts: int) -> None:
    """Tells what an attempt takes while Prometheus counts it, and while nothing does."""
    counting = metrics.prometheus(prometheus_client.CollectorRegistry())
    watchers = watch.watchers

    def counts(count: int) -> None:
        watch.watchers = watchers
        run(count)
        watch.watchers = ()

    watch.watchers = ()
    own, bare = (each / attempts for each in least(1000 // attempts, counts, run))
    watch.watchers = watchers
    counting.stop()
    print(f"{what}: an attempt {own / 1000:.2f} us with metrics, {bare / 1000:.2f} us without, ratio {own / bare:.2f}")


def made(policy: Any) -> None:
    """Tells what policies, objects and functions that retry take to make."""
    stop, wait = tenacity.stop_after_attempt, tenacity.wait_exponential

    def five() -> Any:
        return recurs(20) & exponential(1, 2).cap(30).jittered()

    def in_a_loop() -> None:
        for attempt in hikebox.Retrying(five()):
            with attempt:
                pass

    def in_their_loop() -> None:
        for attempt in tenacity.Retrying(stop=stop(21), wait=wait(max=30)):
            with attempt:
                pass

    rows: List[Any] = [
        ("a policy of five nodes made", five, lambda: (stop(21), wait(max=30))),
        (
            "a Retrying made of a policy",
            lambda: hikebox.Retrying(policy),
            lambda: tenacity.Retrying(stop=stop(21), wait=wait(max=30)),
        ),
        (
            "a function decorated, with its policy",
            lambda: hikebox.retry(five())(nothing),
            lambda: tenacity.retry(stop=stop(21), wait=wait(max=30))(nothing),
        ),
        ("a loop of one attempt, with its policy", in_a_loop, in_their_loop),
    ]
    for what, ours, theirs in rows:
        own, other = least(100, calls(ours), calls(theirs))
        print(f"{what}: {own / 1000:.1f} us, of tenacity {other / 1000:.1f} us, ratio {own / other:.2f}")


class PlainPace:
    """A pace by hand: one number under a lock."""

    def __init__(self, each: float, burst: int) -> None:
        self.each = each
        self.room = burst * each
        self.due = 0.0
        self.lock = threading.Lock()

    def wait(self) -> float:
        with self.lock:
            now = time.monotonic()
            self.due = max(self.due, now) + self.each
            left = self.due - self.room - now
        if left <= 0.0:
            return 0.0
        time.sleep(left)
        return left


def paced() -> None:
    """Tells what a call takes that may begin at once."""
    own, other = least(1000, calls(Pace(10**6, 1, burst=2**20).wait), calls(PlainPace(1e-6, 2**20).wait))
    print(f"a turn of a pace that comes at once: {own / 1000:.2f} us, by hand {other / 1000:.2f} us")


def imports(name: str) -> int:
    """The least nanoseconds of processor time in which a new interpreter imports this."""
    text = f"import time; began = time.process_time_ns(); import {name}; print(time.process_time_ns() - began)"
    return min(int(subprocess.check_output([sys.executable, "-c", text])) for _ in range(20))


def started(*words: str) -> int:
    """The least nanoseconds of processor time that a new interpreter takes for this."""
    best = 2**63
    for _ in range(20):
        before = resource.getrusage(resource.RUSAGE_CHILDREN)
        subprocess.run([sys.executable, *words], stdout=subprocess.DEVNULL, check=True)
        after = resource.getrusage(resource.RUSAGE_CHILDREN)
        took = after.ru_utime + after.ru_stime - before.ru_utime - before.ru_stime
        best = min(best, int(took * 1e9))
    return best


def crowd(retrying: Any, count: int = 10_000) -> str:
    """What so many coroutines take that fail three times and wait 50 ms after each: in a process of their own."""

    async def call(left: List[int]) -> None:
        left[0] -= 1
        if left[0] >= 0:
            raise ValueError
        await asyncio.sleep(0)

    async def together() -> None:
        await asyncio.gather(*(retrying(call, [3]) for _ in range(count)))

    ends = os.pipe()
    if os.fork() == 0:
        before = resource.getrusage(resource.RUSAGE_SELF).ru_maxrss
        began = time.process_time()
        asyncio.run(together())
        took = time.process_time() - began
        more = resource.getrusage(resource.RUSAGE_SELF).ru_maxrss - before
        os.write(ends[1], f"{took:.2f} s and {more // 1024} MB".encode())
        os._exit(0)
    os.wait()
    os.close(ends[1])
    with open(ends[0]) as told:
        return told.read()


def main() -> None:
    with open("/proc/cpuinfo") as file:
        model = next(line.split(":")[1].strip() for line in file if line.startswith("model name"))
    print(f"{model}, Python {sys.version.split()[0]}, tenacity of {tenacity.__file__}")
    policy = recurs(20) & exponential(1, 2).cap(30)
    their = {"stop": tenacity.stop_after_attempt(21), "wait": tenacity.wait_exponential(max=30)}

    ours = hikebox.Retrying(policy).wraps(nothing)
    theirs = tenacity.Retrying(**their).wraps(nothing)
    tell("a call that succeeds", calls(ours), calls(theirs), 1)
    ours = hikebox.Retrying(policy, limit=Quota(reserve=10, share=0.1, per=60)).wraps(nothing)
    tell("a call that succeeds on a quota", calls(ours), calls(theirs), 1)

    limits = [Bucket(2**20), Breaker(5, spaced(30)), both(Bucket(2**20), Breaker(5, spaced(30)))]
    limits += [InFlight.envoy(), Adaptive(), Throttle.google()]
    for limit in limits:
        ours = hikebox.Retrying(policy, limit=limit).wraps(nothing)
        tell(f"a call that succeeds on a limit, {type(limit).__name__}", calls(ours), calls(theirs), 1)

    ours = hikebox.Retrying(policy, sleep=nothing).wraps(Fails())
    theirs = tenacity.Retrying(sleep=nothing, **their).wraps(Fails())
    tell("ten failures", calls(ours), calls(theirs), ATTEMPTS)

    counted("a call that succeeds", calls(hikebox.Retrying(policy).wraps(nothing)), 1)
    counted("ten failures", calls(hikebox.Retrying(policy, sleep=nothing).wraps(Fails())), ATTEMPTS)

    ours = hikebox.Retrying(policy, sleep=nothing, limit=Bucket(2**20)).wraps(Fails())
    tell("ten failures on a limit, Bucket", calls(ours), calls(theirs), ATTEMPTS)

    with Budget(2**32) as budget:
        ours = hikebox.Retrying(policy, sleep=nothing, limit=budget).wraps(Fails())
        tell("ten failures under a budget", calls(ours), calls(theirs), ATTEMPTS)

    ours = hikebox.Retrying(policy.jittered(), sleep=nothing).wraps(Fails())
    jittered = {**their, "wait": tenacity.wait_random_exponential(max=30)}
    theirs = tenacity.Retrying(sleep=nothing, **jittered).wraps(Fails())
    tell("ten failures with jitter", calls(ours), calls(theirs), ATTEMPTS)

    ours_loop = loops(hikebox.Retrying(policy, sleep=nothing), Fails())
    theirs_loop = loops(tenacity.Retrying(sleep=nothing, **their), Fails())
    tell("ten failures in a loop", ours_loop, theirs_loop, ATTEMPTS)

    ours = hikebox.AsyncRetrying(policy, sleep=nothing_later).wraps(Fails().later)
    theirs = tenacity.AsyncRetrying(sleep=nothing_later, **their).wraps(Fails().later)
    tell("ten failures of a coroutine", calls_later(ours), calls_later(theirs), ATTEMPTS)

    ours = hikebox.AsyncRetrying(recurs(20) & spaced(0.05))
    theirs = tenacity.AsyncRetrying(stop=tenacity.stop_after_attempt(21), wait=tenacity.wait_fixed(0.05))
    print(f"10,000 coroutines at once: {crowd(ours)}, of tenacity {crowd(theirs)}")

    with Budget(2**32) as budget:
        print(f"a draw: {least(1000, calls(budget.draw))[0] / 1000:.2f} us")
    paced()
    made(policy)
    own, other = imports("hikebox"), imports("tenacity")
    print(f"the import: {own / 1e6:.1f} ms, of tenacity {other / 1e6:.1f} ms")
    own, other = started("-m", "hikebox", "plan", "recurs(3)"), started("-c", "pass")
    print(f"`hikebox plan`: {own / 1e6:.0f} ms, of which Python's own start takes {other / 1e6:.0f} ms")


if __name__ == "__main__":
    main()
