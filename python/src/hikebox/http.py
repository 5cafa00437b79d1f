"""When to call again, by the status and the headers of an HTTP response."""

from __future__ import annotations

import email.utils
import time
from datetime import timezone
from typing import Any, Callable, Collection, FrozenSet, Optional

__all__ = [
    "METHODS",
    "STATUSES",
    "is_bad",
    "methods_of",
    "parse_retry_after",
    "retry_after",
    "retry_after_of",
    "statuses_of",
]

#: The statuses that the adapters retry by default.
STATUSES = frozenset({429, 502, 503, 504})

#: The statuses that are always retried if the response has a `Retry-After`, as urllib3's `Retry` does.
_ASKING = frozenset({413, 429, 503})

#: The methods that may be repeated.
METHODS = frozenset({"DELETE", "GET", "HEAD", "OPTIONS", "PUT", "TRACE"})


def statuses_of(given: Any) -> FrozenSet[int]:
    """The statuses that were given as `on_status`; a `TypeError` for anything else."""
    return _all_of("on_status", given, int, "statuses, as {429, 503}")


def methods_of(given: Any) -> FrozenSet[str]:
    """The methods that were given as `methods`, in capitals; a `TypeError` for anything else."""
    return frozenset(method.upper() for method in _all_of("methods", given, str, "methods, as {'GET', 'PUT'}"))


def _all_of(name: str, given: Any, kind: type, such: str) -> FrozenSet[Any]:
    found = frozenset(given) if hasattr(given, "__iter__") and not isinstance(given, (str, bytes)) else (None,)
    if not all(isinstance(each, kind) for each in found):
        raise TypeError(f"{name}: expected {such}, got {given!r}")
    return frozenset(found)


def is_bad(status: int, statuses: Collection[int], asks: bool) -> bool:
    """Whether to retry a response: its status is one of these, or asks for a retry and it has a `Retry-After` (`asks`).

    >>> is_bad(503, {500}, False), is_bad(413, STATUSES, True), is_bad(404, STATUSES, True)
    (False, True, False)
    """
    return status in statuses or (asks and status in _ASKING)


def parse_retry_after(text: Optional[str], now: Callable[[], float] = time.time) -> Optional[float]:
    """Returns the seconds that a `Retry-After` header asks for, by a number or a date; None if it is neither.

    >>> parse_retry_after("120"), parse_retry_after("soon")
    (120.0, None)
    >>> parse_retry_after("Thu, 01 Jan 1970 00:01:40 GMT", now=lambda: 90.0)
    10.0
    """
    if text is None:
        return None
    text = text.strip()
    if text.isascii() and text.isdigit():
        return float(text[:12])
    try:
        moment = email.utils.parsedate_to_datetime(text)
    except (OverflowError, TypeError, ValueError):
        return None
    if moment.tzinfo is None:
        moment = moment.replace(tzinfo=timezone.utc)
    return max(0.0, moment.timestamp() - now())


def retry_after_of(response: object) -> Optional[float]:
    """Returns the seconds that the headers of a response ask to wait, or None."""
    headers: Any = getattr(response, "headers", None)
    return parse_retry_after(headers.get("Retry-After")) if hasattr(headers, "get") else None


def retry_after(error: BaseException) -> Optional[float]:
    """For the option `retry_after`: returns the seconds that the response of an HTTP error asks to wait, or None.

    It reads the headers of the exception (`urllib.error.HTTPError`), or those of its `response` (requests and httpx).
    """
    found = retry_after_of(error)
    return retry_after_of(getattr(error, "response", None)) if found is None else found
