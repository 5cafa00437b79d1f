"""What stores of leases answer, and which window is the present one."""

from __future__ import annotations

import math
from typing import Callable, NamedTuple, Optional, Protocol, TypeVar

from ..budgets.terms import Terms
from ..errors import TermsError

__all__ = [
    "Present",
    "QuotaRange",
    "QuotaStore",
    "Range",
    "Store",
    "Taken",
    "checked_name",
    "checked_seconds",
    "checked_store",
    "present_window",
]

T = TypeVar("T")


class Range(NamedTuple):
    """A range of tickets that a store granted: `tickets` of them from `first` on, or none."""

    first: int
    tickets: int
    #: The moment, by the clock that was handed in, at which the window ends, or None where there are no windows.
    until: Optional[float]
    #: Which window it is.
    window: int = 0
    #: Whether the store may have lost what it counted of the present window, and so grants nothing of it.
    lost: bool = False


class QuotaRange(NamedTuple):
    """A range of a quota's window that a store granted: `tickets` of its tickets from `first` on, or none."""

    first: int
    tickets: int
    #: The moment, by the clock that was handed in, at which the window ends.
    until: float
    #: Which window it is, and the requests that were counted in it.
    window: int
    asked: int
    #: Whether the store may have lost what it counted of the window, and so grants nothing of it.
    lost: bool = False


class Taken(NamedTuple):
    """What a store answers to a call that asks its pace when it may begin."""

    #: Whether it is granted.
    is_granted: bool
    #: In how many milliseconds it begins; or if it is refused, in how many it would be granted.
    millis: int
    #: What is due since then: it goes back where the call does not begin, if no other call came after it.
    mark: int


class Store(Protocol):
    """Where leases come from."""

    def take(self, name: str, count: int, limit: int, period: Optional[int], clock: Callable[[], float]) -> Range:
        """Adds `count` to the count of this name, or of its present window of `period` milliseconds, and returns those
        of the added numbers that are below the limit. Raises a `StoreError` if the store can't be reached, or has lost
        its count."""


class QuotaStore(Protocol):
    """Where leases of a quota come from."""

    def take_of_quota(
        self, name: str, terms: Terms, count: int, asked: Callable[[float], int], clock: Callable[[], float]
    ) -> QuotaRange:
        """Adds requests to the count of this name's present window, and grants `count` tickets of it, or as many as
        its requests allow. `asked` returns the requests; it gets the moment, by the clock, at which the window began,
        and is called at most once. Raises a `StoreError` if the store can't be reached."""


class Present(NamedTuple):
    """The present window of a store's clock, by the clock of the process: which it is, not before when it began, and
    not after when it ends."""

    number: int
    began_by: float
    until: float


def present_window(period: int, before: float, moment: int, after: float) -> Present:
    """The window of so many milliseconds that a moment of the store's clock is in, a number of nanoseconds, which was
    told between these two of the process's."""
    number, nanos = divmod(moment, period * 10**6)
    passed = nanos / 1e9
    return Present(number, after - passed, before + period / 1000 - passed)


def checked_name(name: str) -> str:
    """The name of a budget or a quota of a store, or a `TermsError`."""
    if not isinstance(name, str):
        raise TypeError(f"expected a name, got {name!r}")
    try:
        length = len(name.encode())
    except UnicodeEncodeError:
        raise TermsError(f"expected a name in UTF-8, got {name!r}") from None
    if not 1 <= length <= 255:
        raise TermsError(f"expected a name of 1 to 255 bytes, got {length}")
    return name


def checked_seconds(what: str, value: float) -> float:
    """A number of seconds that is waited at most, or a `TermsError`."""
    if isinstance(value, bool) or not isinstance(value, (int, float)):
        raise TypeError(f"{what}: expected a number of seconds, got {value!r}")
    if not 0 <= value < math.inf:
        raise TermsError(f"{what}: expected 0 seconds or more, and not for ever, got {value!r}")
    return value


def checked_store(store: T, method: str) -> T:
    """A store, which has this method, or a `TypeError`."""
    if not hasattr(store, method):
        raise TypeError(f"expected a store, such as FileStore(path), got {store!r}")
    return store
