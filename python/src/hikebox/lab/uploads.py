"""The logs that pages of `hikebox lab` send. Of the latest one of a page is kept what it tells."""

from __future__ import annotations

import hashlib
import tempfile
from contextlib import contextmanager, suppress
from pathlib import Path
from typing import Any, BinaryIO, Iterator

__all__ = ["Uploads"]

#: Of so many pages is a log kept.
_MOST = 16
_BLOCK = 1 << 20


class Uploads:
    """A folder that nobody else can enter."""

    def __init__(self) -> None:
        self._folder = tempfile.TemporaryDirectory(prefix="hikebox-lab-")

    def kept(self, page: str) -> str:
        """Where it is kept what the latest log of a page tells."""
        folder = Path(self._folder.name)
        with suppress(FileNotFoundError):
            for other in sorted(folder.glob("*.kept"), key=lambda each: each.stat().st_mtime)[:-_MOST]:
                other.unlink()
        return str(folder / f"{hashlib.sha256(page.encode('utf-8', 'replace')).hexdigest()}.kept")

    @contextmanager
    def received(self, stream: Any, size: int) -> Iterator[str]:
        """The path of a file with so many bytes of the stream, which is removed afterwards."""
        with tempfile.TemporaryDirectory(dir=self._folder.name) as folder:
            path = Path(folder) / "log"
            with open(path, "wb") as file:
                _copy(stream, file, size)
            yield str(path)

    def close(self) -> None:
        """Removes them all."""
        self._folder.cleanup()


def _copy(stream: Any, file: BinaryIO, size: int) -> None:
    """Writes so many bytes of the stream. It is read to its end also where they can't be written, since the page hears
    no answer before that."""
    failure = None
    while size:
        block = stream.read(min(size, _BLOCK))
        if not block:
            raise ConnectionError("the log ends too soon")
        size -= len(block)
        try:
            if failure is None:
                file.write(block)
        except OSError as error:
            failure = error
    if failure is not None:
        raise failure
