"""What a log tells: the requests of each second, how long they took, and which lines were skipped."""

from __future__ import annotations

from collections import Counter
from itertools import compress
from typing import Any, Callable, Counter as Counts, List, NamedTuple, Optional, Tuple

from ..errors import StormError
from .formats import Fields, Format, format_of
from .lines import MAX_LINE, TOO_LONG, batches, opened

__all__ = ["Traffic", "traffic_in", "traffic_of"]

#: So many seconds may have requests at most: a month.
_MOST_SECONDS = 31 * 86_400
#: So many lines are looked at for one that has a format.
_MOST_TRIED = 1000
#: The status of nginx for a client that gave up, and how many of these tell how long clients wait.
_GAVE_UP, _ENOUGH = 499, 10
_SERVER_ERROR = 500


class Traffic(NamedTuple):
    """What a log told."""

    #: What the format is called.
    format: str
    #: The requests of each second since 1970, and those that were answered, and not by an error of the server.
    requests: Counts[int]
    answered: Counts[int]
    #: How many requests took so many milliseconds, and of how many the client gave up after so many.
    latencies: Counts[int]
    given_up: Counts[int]
    #: How many lines were skipped, by why.
    skipped: Counts[str]

    @property
    def taken(self) -> int:
        """How many lines are requests."""
        return sum(self.requests.values())

    @property
    def span(self) -> Tuple[int, int]:
        """The first second and the one after the last."""
        return min(self.requests), max(self.requests) + 1

    @property
    def busiest(self) -> int:
        """The second with the most requests: the first of equals."""
        most = max(self.requests.values())
        return min(second for second, count in self.requests.items() if count == most)

    def capacity(self) -> Optional[int]:
        """The most requests that were answered in a second, if the log has that."""
        return max(self.answered.values()) if self.answered else None

    def patience(self) -> Optional[Tuple[int, str]]:
        """How many milliseconds clients seem to wait, and by what: half of those that gave up had done so by then, or
        nobody gave up before the slowest answer."""
        if sum(self.given_up.values()) >= _ENOUGH:
            return max(1, part_of(self.given_up, 50)), "half of the clients who gave up did so by then"
        return (max(1, max(self.latencies)), "the slowest answer") if self.latencies else None


def part_of(counts: Counts[int], percent: int) -> int:
    """The least value that so many per cent of all do not exceed.

    >>> part_of(Counter({1: 98, 5: 1, 9: 1}), 99)
    5
    """
    left = -(-sum(counts.values()) * percent // 100)
    for value in sorted(counts):
        left -= counts[value]
        if left <= 0:
            return value
    raise ValueError("expected a count, got none")


class _Reader:
    """Reads the lines of a log."""

    def __init__(self, fields: Fields) -> None:
        self._fields = fields
        self._format: Optional[Format] = None
        self._requests: Counts[int] = Counter()
        self._answered: Counts[int] = Counter()
        self._latencies: Counts[int] = Counter()
        self._given_up: Counts[int] = Counter()
        self._skipped: Counts[str] = Counter()

    def take(self, lines: List[Optional[bytes]]) -> None:
        """Takes some lines."""
        empty = lines.count(b"")
        if empty:
            self._skipped["empty"] += empty
            lines = [line for line in lines if line != b""]
        plain = [line for line in lines if line is not None]
        columns = self._format.reads_all(plain) if self._format and plain and len(plain) == len(lines) else None
        if columns is not None and None not in columns[0]:
            self._add(*columns)
        else:
            for line in lines:
                self._take_one(line)
        if len(self._requests) > _MOST_SECONDS:
            raise StormError("log", f"expected requests in at most {_MOST_SECONDS} seconds, got more")

    def _take_one(self, line: Optional[bytes]) -> None:
        if line is TOO_LONG:
            self._skipped[f"longer than {MAX_LINE} bytes"] += 1
        elif line == b"\r":
            self._skipped["empty"] += 1
        elif self._format is None:
            self._find(line)
        else:
            found = self._format.reads(line)
            if isinstance(found, str):
                self._skipped[found] += 1
            else:
                self._add([found.second], [found.latency], [found.status])

    def _find(self, line: bytes) -> None:
        """Finds the format by a line."""
        self._format = format_of(line, self._fields)
        if self._format is None:
            self._skipped["of no known format"] += 1
            self._give_up()
        elif not self._format.is_head:
            self._take_one(line)

    def _give_up(self) -> None:
        if self._skipped["of no known format"] >= _MOST_TRIED:
            raise StormError("log", f"expected {WANTED}, got {_MOST_TRIED} lines of no known format")

    def _add(self, seconds: List[Optional[int]], latencies: List[Optional[int]], statuses: List[Optional[int]]) -> None:
        """Counts requests."""
        self._requests.update(seconds)  # type: ignore[arg-type]
        is_fine = [status is not None and status < _SERVER_ERROR and status != _GAVE_UP for status in statuses]
        self._answered.update(compress(seconds, is_fine))  # type: ignore[arg-type]
        answers = [fine or status is None for fine, status in zip(is_fine, statuses)]
        self._latencies.update(each for each in compress(latencies, answers) if each is not None)
        if _GAVE_UP in statuses:
            gave_up = [status == _GAVE_UP for status in statuses]
            self._given_up.update(each for each in compress(latencies, gave_up) if each is not None)

    def traffic(self) -> Traffic:
        """What was read."""
        if not self._requests:
            got = ", ".join(f"{count} {why}" for why, count in sorted(self._skipped.items()))
            raise StormError("log", f"expected {WANTED}, got {f'lines that are none: {got}' if got else 'no line'}")
        name = self._format.name if self._format else ""
        return Traffic(name, self._requests, self._answered, self._latencies, self._given_up, self._skipped)


#: What a log is.
WANTED = "lines of an access log (nginx's or Apache's, JSON lines, or CSV)"


#: Hears how many lines are read.
Told = Callable[[int], None]


def _silent(lines: int) -> None:
    """Tells nothing."""


def traffic_of(name: str, fields: Fields = Fields(), told: Told = _silent) -> Traffic:
    """The traffic of the log of this name, or on standard input for `-`."""
    with opened(name) as blocks:
        return traffic_in(blocks, fields, told)


def traffic_in(blocks: Any, fields: Fields = Fields(), told: Told = _silent) -> Traffic:
    """The traffic of a log, of which these are the bytes, block by block."""
    reader = _Reader(fields)
    count = 0
    for lines in batches(blocks):
        reader.take(lines)
        count += len(lines)
        told(count)
    return reader.traffic()
