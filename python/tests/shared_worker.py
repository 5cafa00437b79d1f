"""A process that draws tokens of a shared bucket and writes each down at once: shared_worker.py JSON OUTPUT.

`kill` is after how many draws it ends itself by SIGKILL, between a draw and its end.
"""

from __future__ import annotations

import json
import os
import signal
import sys

from hikebox import Bucket
from hikebox.leased import FileStore
from hikebox.leased.shared import SharedLimit


def main() -> None:
    how = json.loads(sys.argv[1])
    output = os.open(sys.argv[2], os.O_WRONLY | os.O_CREAT | os.O_APPEND)
    limit = SharedLimit(FileStore(how["file"], patience=100), "tokens", Bucket(how["tokens"], cost=1, refund=True))
    drawn = 0
    while True:
        request = limit.request()
        assert request.admit() is None
        if request.draw() is not None:
            return
        os.write(output, b"drew\n")
        drawn += 1
        if drawn == how.get("kill"):
            os.kill(os.getpid(), signal.SIGKILL)
        if drawn % 4 == 0:
            # a success gives back what the draw cost, once
            request.succeeded()
            os.write(output, b"gave\n")
        request.ended()


if __name__ == "__main__":
    main()
