"""Moments as logs spell them, in whole seconds since 1970."""

from __future__ import annotations

import re
from datetime import datetime, timedelta, timezone
from typing import Any, Dict, Optional

__all__ = ["Moments"]

_MONTHS = {name: at for at, name in enumerate("Jan Feb Mar Apr May Jun Jul Aug Sep Oct Nov Dec".split(), 1)}
_COMMON = re.compile(r"(\d{2})/([A-Z][a-z]{2})/(\d{4}):(\d{2}):(\d{2}):(\d{2}) ([+-]\d{4})", re.ASCII)
_ISO = re.compile(
    r"(\d{4})-(\d{2})-(\d{2})[T ](\d{2}):(\d{2}):(\d{2})(?:[.,]\d{1,12})? ?(Z|[+-]\d{2}(?::?\d{2})?)?", re.ASCII
)
_NUMBER = re.compile(r"(\d{1,19})(?:\.\d{1,12})?", re.ASCII)
#: So many spellings are kept. (The lines of a second have one.)
_KEPT = 10_000
#: Numbers from here on are milliseconds, microseconds or nanoseconds: as seconds they would be after the year 5138.
_IN_SECONDS = 10**11


class Moments:
    """Reads moments, and keeps those that it has read last."""

    def __init__(self) -> None:
        self._kept: Dict[Any, Optional[int]] = {}

    def read(self, spelt: Any) -> Optional[int]:
        """The second of a text or a number, or None where it is no moment. A moment without a time zone is UTC.

        >>> read = Moments().read
        >>> read("29/Nov/2026:19:30:00 +0200") == read("2026-11-29T17:30:00.25Z") == read(1795973400123)
        True
        >>> read("29/Foo/2026:19:30:00 +0200")
        """
        try:
            return self._kept[spelt]
        except KeyError:
            pass
        except TypeError:
            return None
        if len(self._kept) >= _KEPT:
            self._kept.clear()
        found = self._kept[spelt] = _second_of(spelt)
        return found


def _second_of(spelt: Any) -> Optional[int]:
    text = spelt.decode("ascii", "replace") if isinstance(spelt, bytes) else str(spelt).strip()
    number = _NUMBER.fullmatch(text)
    if number:
        second = int(number[1])
        while second >= _IN_SECONDS:
            second //= 1000
        return second
    common, iso = _COMMON.fullmatch(text), _ISO.fullmatch(text)
    if common:
        day, month, year, *clock, zone = common.groups()
        return _of(int(year), _MONTHS.get(month, 0), int(day), clock, zone)
    if iso:
        year, month, day, *clock, zone = iso.groups()
        return _of(int(year), int(month), int(day), clock, zone or "Z")
    return None


def _of(year: int, month: int, day: int, clock: Any, zone: str) -> Optional[int]:
    hours, minutes, seconds = map(int, clock)
    sign, digits = (-1 if zone[0] == "-" else 1), zone[1:].replace(":", "").ljust(4, "0")
    off = 0 if zone == "Z" else sign * (int(digits[:2]) * 60 + int(digits[2:]))
    if hours > 23 or minutes > 59 or seconds > 60:  # (a leap second is the sixtieth)
        return None
    try:
        midnight = datetime(year, month, day, tzinfo=timezone.utc)
    except ValueError:
        return None
    since = midnight - datetime(1970, 1, 1, tzinfo=timezone.utc) + timedelta(minutes=60 * hours + minutes - off)
    return int(since.total_seconds()) + seconds
