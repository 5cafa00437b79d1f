"""The formats of access logs: nginx's and Apache's common and combined ones, JSON lines, and CSV."""

from __future__ import annotations

import csv
import json
import re
from functools import lru_cache
from typing import Any, Callable, Dict, List, NamedTuple, Optional, Tuple, Union

from ..errors import StormError
from .moments import Moments

__all__ = ["Columns", "Entry", "Fields", "Format", "fields_of", "format_of"]


class Entry(NamedTuple):
    """A request of a log."""

    second: int
    #: How long it took, in milliseconds.
    latency: Optional[int]
    #: None where the log has none.
    status: Optional[int]


class Field(NamedTuple):
    """A member of JSON, or a column of CSV by its name or its number, from 1."""

    name: str
    #: How many of its units are a millisecond.
    per_ms: float = 1.0


class Fields(NamedTuple):
    """What was said of where things stand; None where nothing was."""

    time: Optional[Field] = None
    latency: Optional[Field] = None
    status: Optional[Field] = None


#: A line as an entry, or why it is none.
Reads = Callable[[bytes], Union[Entry, str]]
#: Lines that are entries one and all, as the seconds, the latencies and the statuses of these; None for others.
Columns = Tuple[List[Optional[int]], List[Optional[int]], List[Optional[int]]]
ReadsAll = Callable[[List[bytes]], Optional[Columns]]


class Format(NamedTuple):
    """A format that was found."""

    name: str
    reads: Reads
    #: Reads many lines at once, faster.
    reads_all: ReadsAll
    #: Whether the line that it was found by is no request, but names columns.
    is_head: bool = False


#: Names of members and columns that mean something. (A bare `duration` has no unit, so it has to be said.)
_TIMES = ("time", "timestamp", "ts", "@timestamp", "time_local", "time_iso8601", "datetime", "date", "msec")
_LATENCIES: Dict[str, float] = {
    **dict.fromkeys(("request_time", "upstream_response_time", "duration_s", "latency_s", "elapsed_s"), 0.001),
    **dict.fromkeys(("duration_ms", "latency_ms", "elapsed_ms", "response_time_ms", "took_ms"), 1.0),
    **dict.fromkeys(("duration_us", "latency_us"), 1000.0),
    **dict.fromkeys(("duration_ns", "latency_ns"), 1e6),
}
_STATUSES = ("status", "status_code", "code", "response_code", "http_status")
_UNITS = {"s": 0.001, "ms": 1.0, "us": 1000.0, "ns": 1e6}
#: The longest time that a request took, in milliseconds.
_MOST = 3_600_000

_COMBINED = re.compile(
    rb'\S+ \S+ [^\[]{0,300}\[([^\]]{1,40})\] "[^"\\]*(?:\\.[^"\\]*)*" (\d{3}) (?:\d+|-)'
    rb'(?: "[^"\\]*(?:\\.[^"\\]*)*")*(?: (?:rt=)?(\d+(?:\.\d+)?|-))?\s*'
)


def fields_of(text: str) -> Fields:
    """Where things stand, as `--fields` spells it.

    >>> fields_of("time=at,latency=took:s").latency
    Field(name='took', per_ms=0.001)
    """
    told: Dict[str, Field] = {}
    for word in text.split(","):
        what, _, spelt = word.partition("=")
        name, colon, unit = spelt.rpartition(":") if what == "latency" else (spelt, "", "")
        if what not in Fields._fields or what in told or not name or (what == "latency" and unit not in _UNITS):
            wanted = "expected time=NAME,latency=NAME:UNIT,status=NAME, with s, ms, us or ns for the unit"
            raise StormError("fields", f"{wanted}, got {text[:300]!r}")
        told[what] = Field(name, _UNITS.get(unit, 1.0))
    return Fields(**told)


def format_of(line: bytes, fields: Fields) -> Optional[Format]:
    """The format that a line has."""
    moments = Moments()
    if line.lstrip()[:1] == b"{":
        objects = _Objects(fields, moments)
        found = Format("JSON lines", objects.reads, objects.reads_all)
        return found if isinstance(found.reads(line), Entry) else None
    if _COMBINED.fullmatch(line):
        combined = _Combined(moments)
        found = Format("the common or the combined format", combined.reads, combined.reads_all)
        return found if isinstance(found.reads(line), Entry) else None
    return _columns_of(line, fields, moments)


class _Combined:
    """Lines of nginx and Apache. A number at the end is how long a request took: with a point in seconds, as nginx's
    `$request_time`, and else in microseconds, as Apache's `%D`."""

    def __init__(self, moments: Moments) -> None:
        self._moment = moments.read

    def reads(self, line: bytes) -> Union[Entry, str]:
        found = _COMBINED.fullmatch(line)
        if not found:
            return "not of the format"
        spelt, status, took = found.groups()
        second = self._moment(spelt)
        if second is None:
            return "no time"
        return Entry(second, _latency_at_end(took), int(status))

    def reads_all(self, lines: List[bytes]) -> Optional[Columns]:
        matches = [*map(_COMBINED.fullmatch, lines)]
        rows = [match.groups() for match in matches if match is not None]
        if len(rows) < len(lines):
            return None
        spelt, statuses, took = zip(*rows)
        return [*map(self._moment, spelt)], [*map(_latency_at_end, took)], [*map(int, statuses)]


@lru_cache(maxsize=1 << 16)
def _latency_at_end(took: Optional[bytes]) -> Optional[int]:
    return None if took is None else _latency_of(took.decode(), 0.001 if b"." in took else 1000.0)


class _Objects:
    """Lines of JSON."""

    def __init__(self, fields: Fields, moments: Moments) -> None:
        self._fields = fields
        self._moment = moments.read

    def reads(self, line: bytes) -> Union[Entry, str]:
        try:
            told = json.loads(line)
        except (ValueError, RecursionError):
            return "no JSON"
        return _entry_of(told, self._fields, self._moment) if isinstance(told, dict) else "no JSON object"

    def reads_all(self, lines: List[bytes]) -> Optional[Columns]:
        try:
            told = json.loads(b"[" + b",".join(lines) + b"]")
        except (ValueError, RecursionError):
            return None
        if len(told) != len(lines) or not all(isinstance(each, dict) for each in told):
            return None
        return _columns_all(told, self._fields, self._moment)


def _entry_of(told: Dict[str, Any], fields: Fields, moment: Callable[[Any], Optional[int]]) -> Union[Entry, str]:
    time, took, code = _named(tuple(told), fields)
    second = moment(told.get(time, ""))
    if second is None:
        return "no time"
    latency = None if took is None else _latency_of(told.get(took.name), took.per_ms)
    return Entry(second, latency, _status_of(told.get(code)))


@lru_cache(maxsize=256)
def _named(names: Tuple[str, ...], fields: Fields) -> Tuple[str, Optional[Field], str]:
    """Which of these names are the time, the latency and the status."""
    time, latency, status = fields
    return (
        time.name if time else next((name for name in _TIMES if name in names), ""),
        latency or next((Field(name, unit) for name, unit in _LATENCIES.items() if name in names), None),
        status.name if status else next((name for name in _STATUSES if name in names), ""),
    )


def _columns_all(
    told: List[Dict[str, Any]], fields: Fields, moment: Callable[[Any], Optional[int]]
) -> Optional[Columns]:
    """The same of many."""
    found = [_entry_of(each, fields, moment) for each in told]
    entries = [each for each in found if isinstance(each, Entry)]
    if len(entries) < len(found):
        return None
    seconds, latencies, statuses = zip(*entries)
    return [*seconds], [*latencies], [*statuses]


def _latency_of(spelt: Any, per_ms: float) -> Optional[int]:
    """A time in milliseconds, rounded up; None where it is none."""
    try:
        took = float(spelt) / per_ms
    except (TypeError, ValueError, OverflowError):
        return None
    return int(-(-took // 1)) if 0 <= took <= _MOST else None


def _status_of(spelt: Any) -> Optional[int]:
    text = str(spelt)
    return int(text) if len(text) == 3 and text.isascii() and text.isdigit() else None


def _columns_of(line: bytes, fields: Fields, moments: Moments) -> Optional[Format]:
    """CSV: a line of names, or one whose first column, or the one that is named by its number, is a moment."""
    for comma in (",", ";", "\t"):
        words = _words_of(line, comma)
        columns = _Columns(comma, words, fields, moments)
        if columns.has_names:
            return Format("CSV with names", columns.reads, columns.reads_all, is_head=True)
        if isinstance(columns.reads(line), Entry):
            return Format("CSV without names", columns.reads, columns.reads_all)
    return None


def _words_of(line: bytes, comma: str) -> List[str]:
    try:
        return next(csv.reader([line.decode("utf-8", "replace")], delimiter=comma), [])
    except csv.Error:
        return []


class _Columns:
    """Lines of CSV."""

    def __init__(self, comma: str, words: List[str], fields: Fields, moments: Moments) -> None:
        self._comma = comma
        self._moment = moments.read
        self._places = [word.strip() for word in words]
        name = fields.time.name if fields.time else next((word for word in _TIMES if word in self._places), "")
        #: Whether the first line has the names of columns.
        self.has_names = name in self._places and self._moment(name) is None
        if not self.has_names:
            self._places = [str(place) for place in range(1, len(words) + 1)]
            fields = fields if fields.time else fields._replace(time=Field("1"))
        self._fields = fields

    def reads(self, line: bytes) -> Union[Entry, str]:
        told = dict(zip(self._places, _words_of(line, self._comma)))
        return _entry_of(told, self._fields, self._moment)

    def reads_all(self, lines: List[bytes]) -> Optional[Columns]:
        try:
            rows = [*csv.reader((line.decode("utf-8", "replace") for line in lines), delimiter=self._comma)]
        except csv.Error:
            return None
        if len(rows) != len(lines):
            return None
        return _columns_all([dict(zip(self._places, row)) for row in rows], self._fields, self._moment)
