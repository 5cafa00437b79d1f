"""A pace that processes share: what is due stands in a store, and each call takes its moment by one step there."""

from __future__ import annotations

import time
from typing import Any, Callable, Optional, Protocol, TypeVar

from .._time import Duration
from ..errors import StoreError, TooSoon
from ..pace import PaceTerms, Pacing, Wait
from .stores import Taken, checked_name, checked_store

__all__ = ["LeasedPace", "PaceStore"]

Answer = TypeVar("Answer")


class PaceStore(Protocol):
    """Where a pace is kept that processes share."""

    def take_of_pace(self, name: str, terms: PaceTerms, cost: int) -> Taken:
        """Takes the next moment at which a call may begin. Raises a `StoreError` if the store can't be reached."""

    def give_back_of_pace(self, name: str, terms: PaceTerms, cost: int, mark: int) -> None:
        """Takes it back from a call that does not begin."""


class LeasedPace(Pacing):
    """A pace that all processes with the same store, name and terms share. Threads may share it too.

    Its parameters are those of a `Pace`. Each call is one step of the store, by the store's clock: a `FileStore` for
    the processes of one machine, from the machine's start on, or a `RedisStore` for many machines. If the store can't
    be reached, a call raises a `StoreError` and does not begin; as of a `TooSoon`, the `limit` of a retry does not hear
    of it. A Redis server that is started without its data begins its paces anew.

    >>> import tempfile
    >>> from hikebox.leased import FileStore
    >>> folder = tempfile.TemporaryDirectory()
    >>> pace = LeasedPace(FileStore(folder.name), "peer", 1000, 1, burst=20)
    >>> with pace:
    ...     print("fetched")
    fetched
    >>> folder.cleanup()
    """

    __slots__ = ("store", "name")

    def __init__(
        self,
        store: PaceStore,
        name: str,
        calls: int,
        per: Duration,
        *,
        burst: int = 1,
        longest: Optional[Duration] = None,
        clock: Callable[[], float] = time.monotonic,
        sleep: Optional[Callable[[float], Any]] = None,
    ) -> None:
        super().__init__(calls, per, burst, longest, clock, sleep)
        self.store = checked_store(store, "take_of_pace")
        self.name = checked_name(name)

    def take(self, cost: int) -> Wait:
        taken = self._asked(self.store.take_of_pace, cost)
        # (the store answered before this moment, so the call begins no earlier than it was told)
        then = self.clock() + taken.millis / 1000
        if not taken.is_granted:
            longest = self.terms.longest / 1000
            raise TooSoon(taken.millis / 1000 + longest, longest, then)
        return Wait(then, lambda: self._asked(self.store.give_back_of_pace, cost, taken.mark), _nothing)

    def _asked(self, step: Callable[..., Answer], *numbers: int) -> Answer:
        """What the store answers. An error of it is the pace's: the call does not begin."""
        try:
            return step(self.name, self.terms, *numbers)
        except StoreError as error:
            error.is_of_pace = True
            raise

    def __repr__(self) -> str:
        return f"LeasedPace({self.store!r}, {self.name!r}, {self.spelt()})"


def _nothing() -> None:
    """A store keeps no handle of a call."""
