"""What `Budget` and `Quota` have in common."""

from __future__ import annotations

from typing import Any, Callable, TypeVar

from .._engine.handles import Pass
from .._forks import OfOneProcess, begins_anew_in_a_child
from ..errors import LimitInUse
from .limit import Limit
from .passes import Passes

__all__ = ["Granting"]

Self = TypeVar("Self", bound="Granting")


class Granting(OfOneProcess, Limit):
    """A limit that grants tickets until you close it."""

    __slots__ = ("passes", "__weakref__")

    #: Whether it goes by a clock.
    reads_clock = False

    #: The engine's passes, which this package hands out to threads.
    passes: Passes

    def begin_with(self, kind: str, make: Callable[[], Pass]) -> None:
        """Begins with what makes the first pass."""
        self.passes = Passes(kind, make)
        begins_anew_in_a_child(self)

    def begin_anew(self) -> None:
        """Begins with nothing drawn, as in a forked child."""
        self.passes = self.passes.of_a_child()

    @property
    def granted(self) -> int:
        """How many tickets were drawn and not handed back, by retries under way too."""
        return self.passes.drawn()

    @property
    def closed(self) -> bool:
        """Whether it is closed."""
        return self.passes.closed is not None

    @property
    def generation(self) -> int:
        """How often it began anew. A forked child begins anew, so its number is one more than its parent's."""
        return self.passes.generation

    def close(self) -> int:
        """Closes it and returns the exact number of tickets drawn and not handed back. If a retry is under way, it
        raises a `LimitInUse` and changes nothing. Closing it again returns the same number."""
        return self.passes.close()

    def __enter__(self: Self) -> Self:
        return self

    def __exit__(self, kind: Any, error: Any, trace: Any) -> None:
        try:
            self.close()
        except LimitInUse:
            if kind is None:
                raise

    def __repr__(self) -> str:
        state = f", closed at {self.passes.closed}" if self.closed else ""
        return f"<{self.expression()}{state}>"

    def not_pickled(self) -> str:
        kind = self.passes.kind
        return f"a {kind} belongs to its process; hikebox.leased has {kind}s that processes share"

    def expression(self) -> str:
        """Returns the expression that makes one like it."""
        raise NotImplementedError
