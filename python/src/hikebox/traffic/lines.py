"""The lines of a file, a pipe or standard input, compressed by gzip or plain, with little memory."""

from __future__ import annotations

import io
import zlib
from contextlib import contextmanager
from typing import Any, Iterator, List, Optional

from ..errors import StormError

__all__ = ["TOO_LONG", "Blocks", "batches", "opened"]

#: A longer line is none of a log, in bytes.
MAX_LINE = 1 << 16
#: How much is read at once.
_BLOCK = 1 << 20
_GZIP = b"\x1f\x8b"

#: Stands for a line that is too long.
TOO_LONG = None


@contextmanager
def opened(name: str) -> Iterator[Any]:
    """The file of this name, or standard input for `-`, as a stream of its bytes."""
    with open(0 if name == "-" else name, "rb", closefd=name != "-", buffering=0) as file:
        yield Blocks(file, name)


class Blocks:
    """The bytes of a file, block by block; those of gzip are expanded. Nothing is sought, so it may be a pipe."""

    def __init__(self, file: io.RawIOBase, name: str) -> None:
        self._file = file
        self._name = name

    def __iter__(self) -> Iterator[bytes]:
        begins = self._file.read(2) or b""
        if len(begins) == 1:
            begins += self._file.read(1) or b""
        if begins == _GZIP:
            yield from self._expanded(begins)
            return
        while begins:
            yield begins
            begins = self._file.read(_BLOCK) or b""

    def _expanded(self, block: bytes) -> Iterator[bytes]:
        """What gzip compressed: one part or several, one after another."""
        part: Any = zlib.decompressobj(31)
        is_begun = False
        while block:
            try:
                told = part.decompress(block, _BLOCK)
            except zlib.error as error:
                raise self._broken(str(error)) from None
            is_begun = True
            if told:
                yield told
            if part.eof:
                block = part.unused_data.lstrip(b"\0")
                part, is_begun = zlib.decompressobj(31), bool(block)
            else:
                block = part.unconsumed_tail
            block = block or self._file.read(_BLOCK) or b""
        if is_begun:
            raise self._broken("it ends too soon")

    def _broken(self, why: str) -> StormError:
        return StormError("log", f"{self._name}: expected whole gzip data: {why}")


def batches(blocks: Any) -> Iterator[List[Optional[bytes]]]:
    """The lines of blocks, some at a time, without their ends. The last one needs no end."""
    rest = b""
    is_skipping = False
    for block in blocks:
        first, *lines = (rest + block).split(b"\n")
        whole: List[Optional[bytes]] = []
        if lines:
            *lines, rest = lines
            whole = [TOO_LONG if is_skipping else first, *lines]
            is_skipping = False
        else:
            rest = first
        if len(rest) > MAX_LINE:
            rest, is_skipping = b"", True
        yield [TOO_LONG if line is not None and len(line) > MAX_LINE else line for line in whole]
    if rest or is_skipping:
        yield [TOO_LONG if is_skipping else rest]
