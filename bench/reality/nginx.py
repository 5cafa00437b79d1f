"""A peer that nobody here wrote: nginx with `limit_req`, which queues so many requests and answers others by 503."""

from __future__ import annotations

import random
import shutil
import socket
import subprocess
import tempfile
import time
from multiprocessing.connection import Connection
from pathlib import Path
from typing import cast

from pace import Behind
from peer import PeerTold
from stories import PlayClock, Story

CONFIGURATION = """daemon off;
worker_processes 1;
pid {folder}/pid;
error_log stderr crit;
events {{ worker_connections 8192; }}
http {{
  access_log off;
  keepalive_timeout 0;
  client_body_temp_path {folder}/body;
  proxy_temp_path {folder}/proxy;
  fastcgi_temp_path {folder}/fastcgi;
  uwsgi_temp_path {folder}/uwsgi;
  scgi_temp_path {folder}/scgi;
  limit_req_zone $server_addr zone=peer:1m rate={capacity}r/s;
  server {{
    listen 127.0.0.1:{port} backlog=4096;
    location / {{
      limit_req zone=peer burst={queue};
      limit_req_status 503;
      {header}
      empty_gif;
    }}
  }}
}}
"""


class _Nginx:
    """nginx, which is started and killed."""

    def __init__(self, story: Story, folder: str) -> None:
        self._story, self._folder = story, folder
        self._program = shutil.which("nginx", path="/usr/sbin:/usr/bin:/usr/local/sbin:/usr/local/bin")
        if self._program is None:
            raise SystemExit("bench/reality: expected nginx; on Debian: apt-get install nginx-light")
        #: (below those that the system gives to clients, which could take it in the outage)
        self.port = random.randrange(10_000, 30_000)
        while _listens(self.port):
            self.port = random.randrange(10_000, 30_000)

    def start(self) -> None:
        """Starts it, and waits until it listens."""
        file = Path(self._folder, "nginx.conf")
        file.write_text(_configuration(self._story, self._folder, self.port))
        self._process = subprocess.Popen([str(self._program), "-c", str(file)])
        while not _listens(self.port):
            if self._process.poll() is not None:
                raise SystemExit("bench/reality: nginx did not start")
            time.sleep(0.001)

    def kill(self) -> None:
        """Ends it at once."""
        self._process.terminate()
        self._process.wait()


def _configuration(story: Story, folder: str, port: int) -> str:
    asks = f"add_header Retry-After {story.retry_after} always;" if story.retry_after else ""
    return CONFIGURATION.format(folder=folder, capacity=story.capacity, queue=story.queue, port=port, header=asks)


def _listens(port: int) -> bool:
    with socket.socket() as one:
        return one.connect_ex(("127.0.0.1", port)) == 0


def run_nginx(pipe: Connection, story: Story) -> None:
    """The process: as that of a peer. It fell behind by as much as nginx came late after its outage."""
    with tempfile.TemporaryDirectory() as folder:
        nginx = _Nginx(story, folder)
        nginx.start()
        try:
            pipe.send([nginx.port])
            late = _has_outage(nginx, story, PlayClock(cast(float, pipe.recv())))
            pipe.recv()
        finally:
            nginx.kill()
    pipe.send(PeerTold(0, 0, 0, Behind(late, story.over, 0.0)))


def _has_outage(nginx: _Nginx, story: Story, clock: PlayClock) -> float:
    """Kills nginx for the time of the outage, and returns how late it was back."""
    if story.outage is None:
        return 0.0
    begins, ends = story.outage
    time.sleep(begins - clock())
    nginx.kill()
    time.sleep(ends - clock())
    nginx.start()
    return clock() - ends
