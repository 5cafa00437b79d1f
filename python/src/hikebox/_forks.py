"""What begins anew in a forked child: things of the engine, and locks that another thread may have held at the fork."""

from __future__ import annotations

import os
import threading
from typing import Any, Optional, Protocol, TypeVar
from weakref import WeakKeyDictionary

__all__ = ["BeginsAnew", "OfOneProcess", "begins_anew_in_a_child", "no_fork"]

Self = TypeVar("Self", bound="OfOneProcess")

#: While a thread has it, no other thread forks.
no_fork = threading.RLock()


class BeginsAnew(Protocol):
    """Something that belongs to its process."""

    def begin_anew(self) -> None:
        """Begins as in a process of its own."""


#: In the order in which they were made: what is made of others, as several limits at once are, begins after them.
_things: WeakKeyDictionary[BeginsAnew, None] = WeakKeyDictionary()


def begins_anew_in_a_child(thing: BeginsAnew) -> None:
    """Has this begin anew in each child that is forked from here on."""
    _things[thing] = None


def _begin_all() -> None:
    no_fork.release()
    failed: Optional[BaseException] = None
    # (a list of references, since a finalizer may make another thing meanwhile)
    for reference in _things.keyrefs():
        thing = reference()
        if thing is not None:
            try:
                thing.begin_anew()
            except BaseException as error:
                failed = error  # the others begin anew all the same
    if failed is not None:
        raise failed


if hasattr(os, "register_at_fork"):  # on Windows no process forks
    os.register_at_fork(before=no_fork.acquire, after_in_parent=no_fork.release, after_in_child=_begin_all)


class OfOneProcess:
    """What belongs to its process: a copy of it is the thing itself, and it is not pickled."""

    __slots__ = ()

    def not_pickled(self) -> str:
        """Returns why it is not pickled."""
        name = type(self).__name__
        return f"{'an' if name[0] in 'AEIOU' else 'a'} {name} belongs to its process"

    def __copy__(self: Self) -> Self:
        return self

    def __deepcopy__(self: Self, _: Any) -> Self:
        return self

    def __reduce__(self) -> Any:
        raise TypeError(self.not_pickled())
