"""What the page of `hikebox lab` is told of an access log: how its requests are played, in words and as a picture."""

from __future__ import annotations

import io
import pickle
import time
from typing import Any, BinaryIO, Callable, Dict, Iterable, Iterator

from ..errors import StormError
from ..storms.parameters import Parameters
from ..traffic.lines import Blocks
from ..traffic.paces import paces_of, stretch_of
from ..traffic.picture import log_picture
from ..traffic.seen import Traffic, traffic_in
from ..traffic.texts import assumed_of, lines_of, played_text

__all__ = ["MAX_LOG", "log_answer"]

#: The most bytes of a log, and of what it expands to.
MAX_LOG, _MAX_EXPANDED = 256 << 20, 1 << 30
_ELSEWHERE = "hikebox storm --log takes larger ones"
#: How often the share that is read is told, in seconds.
_TICK = 0.25

Json = Dict[str, Any]


def log_answer(asked: Json, told: Callable[[float], None]) -> Json:
    """How a log is played, and what patience and capacity it lets assume; or why it is none. Its bytes are in the file
    `log`, and what they tell is kept in the file `kept`; without a `log` it is that of an earlier one."""
    try:
        if "log" in asked:
            with open(asked["log"], "rb", buffering=0) as file:
                traffic = traffic_in(_limited(Blocks(_Heard(file, asked["size"], told), "log")))
            with open(asked["kept"], "wb") as kept:
                pickle.dump(tuple(traffic), kept)
        else:
            with open(asked["kept"], "rb") as kept:
                traffic = Traffic(*pickle.load(kept))
        return _played(traffic, asked)
    except StormError as error:
        return _fault(error.hint.removeprefix("log: ") if error.name == "log" else str(error))
    except MemoryError:
        return _fault("there is no memory for so many seconds")
    except FileNotFoundError:
        return _fault("the lab has it no more: choose it again")


def _fault(said: str) -> Json:
    return {"fault": {"name": "log", "said": said}}


def _played(traffic: Traffic, asked: Json) -> Json:
    first, seconds = stretch_of(traffic.requests, asked["seconds"])
    paces = paces_of([traffic.requests[second] for second in range(first, first + seconds)])
    paced = Parameters(rate=paces.rate, rates=paces.rates, seconds=seconds, replicas=asked["replicas"])
    assumed, why = assumed_of(traffic, paced.checked())
    known = {name: reason for name, reason in why.items() if reason is not None}
    shown = {"patience": f"{assumed.patience:,} ms", "capacity": f"{assumed.capacity:,} calls a second"}
    lines = [*lines_of(traffic), played_text(traffic, first, paces, assumed.requests)]
    lines += [f"assumed: {name} {shown[name]} ({reason})" for name, reason in known.items()]
    names = ("rate", "rates", "together", "seconds", *known)
    return {
        "storm": {name: getattr(assumed.checked(), name) for name in names},
        "lines": [f"{line[0].upper()}{line[1:]}" for line in lines],
        "picture": log_picture(traffic.requests, first, paces, asked["width"]),
    }


def _limited(blocks: Iterable[bytes]) -> Iterator[bytes]:
    """The blocks, of which there may be no more than this: little of gzip expands to much."""
    left = _MAX_EXPANDED
    for block in blocks:
        left -= len(block)
        if left < 0:
            raise StormError("log", f"expected at most {_MAX_EXPANDED} bytes when it is expanded: {_ELSEWHERE}")
        yield block


class _Heard(io.RawIOBase):
    """A file of so many bytes; the share that is read of it is told now and then."""

    def __init__(self, file: BinaryIO, size: int, told: Callable[[float], None]) -> None:
        self._file = file
        self._size = max(1, size)
        self._told = told
        self._count = 0
        self._next = time.monotonic() + _TICK

    def read(self, size: int = -1) -> bytes:
        block = self._file.read(size)
        self._count += len(block)
        if time.monotonic() >= self._next:
            self._next = time.monotonic() + _TICK
            self._told(min(0.99, self._count / self._size))
        return block
