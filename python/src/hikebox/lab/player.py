"""A process that plays storms and reads logs for `hikebox lab`: a line of JSON in, a line of JSON out. Meanwhile it
also tells the share that is done, as `{"done":0.5}`. It ends when nobody is there to ask it, also in the midst of a
storm."""

from __future__ import annotations

import json
import os
import queue
import sys
import threading
from typing import Any, Dict

from .answers import BadRequest, storm_answer, sweep_answer
from .logs import log_answer

__all__ = ["main"]


def main() -> None:
    """Answers each line of standard input."""
    asked: queue.SimpleQueue[bytes] = queue.SimpleQueue()
    threading.Thread(target=_answer, args=(asked,), daemon=True).start()
    for line in sys.stdin.buffer:
        asked.put(line)
    os._exit(0)


def _answer(asked: queue.SimpleQueue[bytes]) -> None:
    while True:
        line = asked.get()
        try:
            given = json.loads(line)
            if "kept" in given:
                answer = log_answer(given, _tells)
            else:
                answer = sweep_answer(given) if "along" in given else storm_answer(given, _tells)
        except BadRequest as error:
            answer = {"bad": str(error)}
        except MemoryError:
            answer = {"fault": {"name": "", "said": "there is no memory for a storm of this size"}}
        except Exception as error:
            answer = {"bad": f"{type(error).__name__}: {error}"}
        _says(answer)


def _tells(share: float) -> None:
    _says({"done": share})


def _says(told: Dict[str, Any]) -> None:
    sys.stdout.buffer.write(json.dumps(told).encode() + b"\n")
    sys.stdout.buffer.flush()
