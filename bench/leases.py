#!/usr/bin/env python3
"""What a draw takes that leases one ticket in Redis, beside an INCR of the same client, and in a folder: the least time
of many rounds, which take turns.

Started by hand at the top of the repository, with the engine's library, redis-server, and an interpreter that has
redis:

    HIKEBOX_LIBRARY=dist/libhikebox.so PYTHONPATH=python/src /usr/bin/python3 bench/leases.py

It starts a server of its own on loopback, and wants a machine with nothing else to do.
"""

from __future__ import annotations

import subprocess
import tempfile
import time
from pathlib import Path
from typing import Any, Callable, Dict

import redis

from hikebox.leased import FileStore, Leased, LeasedQuota, RedisStore

ROUNDS = 400
TURN = 5
LIMIT = 2**40
#: The seconds of a window.
PER = 2
PORT = 7399


def least(runs: Dict[str, Callable[[], Any]]) -> Dict[str, float]:
    """The least microseconds that each takes, in turns of several."""
    best = {name: float("inf") for name in runs}
    for _ in range(ROUNDS):
        for name, run in runs.items():
            for _ in range(TURN):
                began = time.perf_counter_ns()
                assert run()
                best[name] = min(best[name], (time.perf_counter_ns() - began) / 1000)
    return best


def rows(client: Any, folder: Path) -> None:
    """Prints what the draws take."""
    store = RedisStore(client)
    store.begin("all")
    time.sleep(PER + 3)  # (a window that may have begun before the server grants nothing)
    script = client.register_script("return 1")
    found = least(
        {
            "an INCR": lambda: client.incr("count"),
            "a script of one line": lambda: script(keys=["count"], args=[1]),
            "a lease of one ticket of a budget": Leased(store, "all", LIMIT, lease=1).draw,
            "the same by windows": Leased(store, "windows", LIMIT, per=PER, lease=1).draw,
            "the same of a quota": LeasedQuota(store, "quota", 2**32, 0, PER, lease=1).draw,
            "the same by windows in a folder": Leased(FileStore(folder), "all", LIMIT, per=PER, lease=1).draw,
        }
    )
    for name, took in found.items():
        print(f"{name}: {took:.1f} us, ratio {took / found['an INCR']:.2f}")
    thousand = Leased(FileStore(folder), "thousand", LIMIT, per=PER, lease=1000).draw
    began = time.process_time()
    for _ in range(100_000):
        thousand()
    print(f"a draw where a lease in the folder is a thousand tickets: {(time.process_time() - began) * 10:.2f} us")


def main() -> None:
    with tempfile.TemporaryDirectory() as folder:
        words = ["redis-server", "--port", str(PORT), "--bind", "127.0.0.1", "--dir", folder, "--save", ""]
        server = subprocess.Popen(words, stdout=subprocess.DEVNULL)
        try:
            client = redis.Redis(host="127.0.0.1", port=PORT, socket_timeout=60)
            while True:
                try:
                    client.ping()
                    break
                except redis.ConnectionError:
                    time.sleep(0.05)
            rows(client, Path(folder) / "folder")
        finally:
            server.kill()
            server.wait()


if __name__ == "__main__":
    main()
