"""A process that draws tickets of a leased budget and writes each down at once: leased_worker.py JSON OUTPUT.

`kill` names a point at which it ends itself by SIGKILL: "asked", before its store is asked for the lease of that
number; "granted", when the store has granted it and nobody drew of it; "drawn", after so many tickets.

Where the machine held it up for long between two draws it writes that down too: `paused BEGAN ENDED`.
"""

from __future__ import annotations

import json
import math
import os
import signal
import sys
import threading
import time
from typing import Any, Callable, Dict

from hikebox.leased import FileStore, Leased, RedisStore


class Dying:
    """A store that ends its process at a point of the lease of a number."""

    def __init__(self, store: Any, point: str, number: int) -> None:
        self.store = store
        self.point = point
        self.left = number

    def take(self, *words: Any) -> Any:
        return self._dying(self.store.take, words)

    def take_of_quota(self, *words: Any) -> Any:
        return self._dying(self.store.take_of_quota, words)

    def _dying(self, take: Any, words: Any) -> Any:
        self.left -= 1
        if self.left == 0 and self.point == "asked":
            os.kill(os.getpid(), signal.SIGKILL)
        granted = take(*words)
        if self.left == 0 and self.point == "granted":
            os.kill(os.getpid(), signal.SIGKILL)
        return granted


def store_of(how: Any) -> Any:
    if "file" in how:
        store: Any = FileStore(how["file"], patience=100)
    else:
        import redis

        client = redis.Redis(host="127.0.0.1", port=how["port"], socket_timeout=60, socket_connect_timeout=60)
        store = RedisStore(client, durable=how.get("durable", False))
    if how.get("kill", "drawn") != "drawn":
        return Dying(store, how["kill"], how["number"])
    return store


def uptime() -> int:
    """The machine's uptime in milliseconds."""
    return int(time.clock_gettime(time.CLOCK_BOOTTIME) * 1000)


class Pauses:
    """Notes where a loop did not come by for longer than a twentieth of a second."""

    def __init__(self, output: int) -> None:
        self.output = output
        self.seen = uptime()

    def look(self) -> None:
        began, self.seen = self.seen, uptime()
        if self.seen - began > 50:
            os.write(self.output, f"paused {began} {self.seen}\n".encode())


def options_of(how: Any, *names: str) -> Dict[str, Any]:
    """The options of what draws that are given, with a clock that is off where that is."""
    named = {name: how[name] for name in (*names, "lease", "spare", "again_after") if name in how}
    off = float(how.get("clock_off", 0))
    if off:
        named["clock"] = lambda: time.clock_gettime(time.CLOCK_BOOTTIME) + off
        wall = time.time
        time.time = lambda: float(wall() + off)
    return named


def goes_on(how: Any) -> Callable[[], bool]:
    """Whether a worker goes on: for so many `seconds`, until there is a file `stop`, and as long as its parent does."""
    until, stop, parent = time.monotonic() + how.get("seconds", math.inf), how.get("stop", ""), os.getppid()
    return lambda: time.monotonic() < until and not os.path.exists(stop) and os.getppid() == parent


def main() -> None:
    how = json.loads(sys.argv[1])
    output = os.open(sys.argv[2], os.O_WRONLY | os.O_CREAT | os.O_APPEND)
    leased = Leased(store_of(how), how["name"], **options_of(how, "limit", "per"))
    does = goes_on(how)
    most = how["number"] if how.get("kill") == "drawn" else -1

    def work() -> None:
        mine = 0
        pauses = Pauses(output)
        while does():
            pauses.look()
            before = uptime()
            ticket = leased.draw()
            if not ticket:
                if how.get("patient"):
                    time.sleep(0.002)
                    continue
                return
            os.write(output, f"{ticket.number} {before} {uptime()}\n".encode())
            mine += 1
            if mine == most:
                os.kill(os.getpid(), signal.SIGKILL)
        pauses.look()

    threads = [threading.Thread(target=work) for _ in range(how.get("threads", 1))]
    for thread in threads:
        thread.start()
    for thread in threads:
        thread.join()
    print(leased.granted)


if __name__ == "__main__":
    main()
