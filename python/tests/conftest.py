"""What several tests use."""

from __future__ import annotations

import os
import random
import shutil
import signal
import socket
import subprocess
import sys
import threading
import time
from pathlib import Path
from typing import Any, Iterator, List, Optional

import pytest

HERE = Path(__file__).parent
sys.path.insert(0, str(HERE))

#: The root of the repository.
TOP = HERE.parent.parent


def heed_signals() -> None:
    """Signals that whoever started the tests ignores or blocks, as a shell does of what it runs in the background, are
    heeded."""
    numbers = (signal.SIGHUP, signal.SIGINT, signal.SIGPIPE, signal.SIGQUIT, signal.SIGTERM)
    for number in numbers:
        signal.signal(number, signal.SIG_DFL)
    signal.pthread_sigmask(signal.SIG_UNBLOCK, numbers)


@pytest.fixture
def clock() -> Any:
    from hikebox.testing import VirtualClock

    return VirtualClock()


def free_port() -> int:
    """A port that nobody listens at, and that the system gives to no connection as its own: a server that is stopped
    finds it free when it is started again."""
    first, last = map(int, Path("/proc/sys/net/ipv4/ip_local_port_range").read_text().split())
    ports = [port for port in range(10_000, 65_000) if not first <= port <= last] or range(10_000, 65_000)
    while True:
        port = random.choice(ports)
        with socket.socket() as free:
            try:
                free.bind(("127.0.0.1", port))
                return port
            except OSError:
                continue


class RedisServer:
    """A redis-server of the test's own, on loopback, that can be stopped and started."""

    def __init__(self, folder: Path, *options: str) -> None:
        self.folder = folder
        self.options = options
        self.port = 0
        self.process: Optional[subprocess.Popen[bytes]] = None

    def start(self) -> None:
        """Starts it, again on the port that it had. Another process may take a free port before it does."""
        for _ in range(100):
            port = self.port or free_port()
            words = ["redis-server", "--port", str(port), "--bind", "127.0.0.1", "--dir", str(self.folder)]
            self.process = subprocess.Popen([*words, "--save", "", *self.options], stdout=subprocess.DEVNULL)
            if self._answers(port, self.process):
                self.port = port
                return
            self.stop()
            time.sleep(0.1)
        raise RuntimeError("redis-server did not start")

    def _answers(self, port: int, process: Any) -> bool:
        """Waits until it answers with all its data, and not another server on its port: False where it ended."""
        while process.poll() is None:
            try:
                told = self.client(port).info()
                if told["process_id"] != process.pid or not told["loading"]:
                    return bool(told["process_id"] == process.pid)
            except Exception:
                pass
            time.sleep(0.05)
        return False

    def await_uptime(self, seconds: int) -> None:
        """Waits until it tells that it was started so long ago: by that it grants of windows since then."""
        while self.client().info("server")["uptime_in_seconds"] < seconds:
            time.sleep(0.05)

    def stop(self) -> None:
        """Ends it at once, with no word to it."""
        if self.process is not None:
            self.process.kill()
            self.process.wait()
            self.process = None

    def client(self, port: Optional[int] = None) -> Any:
        import redis

        how: Any = {"socket_timeout": 60, "socket_connect_timeout": 60}
        return redis.Redis(host="127.0.0.1", port=port or self.port, **how)


@pytest.fixture
def redis_server(tmp_path: Path) -> Iterator[Any]:
    """A function that starts a redis-server with these options."""
    pytest.importorskip("redis")
    if shutil.which("redis-server") is None:
        pytest.skip("there is no redis-server")
    started: List[RedisServer] = []

    def start(*options: str) -> RedisServer:
        server = RedisServer(tmp_path, *options)
        started.append(server)
        server.start()
        return server

    yield start
    for server in started:
        server.stop()


def python_environment() -> Any:
    """The environment in which a child process finds the package."""
    import hikebox

    source = str(Path(hikebox.__file__).parent.parent)
    paths = [source, str(HERE), *filter(None, [os.environ.get("PYTHONPATH")])]
    return {**os.environ, "PYTHONPATH": os.pathsep.join(paths)}


def served(server: Any) -> Iterator[Any]:
    """Has a thread serve until the fixture is over."""
    thread = threading.Thread(target=server.serve_forever, kwargs={"poll_interval": 0.01})
    thread.start()
    yield server
    server.shutdown()
    server.server_close()
    thread.join()


@pytest.fixture
def server() -> Iterator[Any]:
    """A server on loopback that answers what the test says. It is the test's own: a request that a client of another
    test gave up may be read late."""
    from http_server import Server

    yield from served(Server())
