"""What draws for one retry where the engine's does not: on a quota of another clock, on leases, on what users have."""

from __future__ import annotations

from typing import Any, Awaitable, Callable, Optional, Protocol

from ..errors import EngineError
from .passes import Keep, Passes
from .tickets import Refusal, RefusalReason

__all__ = ["ByCall", "ByPass", "Drawing"]


class Drawing(Protocol):
    """What draws for one retry."""

    def draw(self) -> Any:
        """Draws a ticket: None, or why there is none, a `Refusal`; or what gives that where it is awaited."""

    def end(self, hands_back: bool) -> None:
        """The retry is over: its latest ticket comes back, where that is so and what granted it takes it."""


class ByCall:
    """Draws by a function."""

    __slots__ = ("_draw",)

    def __init__(self, draw: Callable[[], Any]) -> None:
        self._draw = draw

    def draw(self) -> Any:
        """Draws a ticket: why there is none."""
        drawn = self._draw()
        return _awaited(drawn) if hasattr(drawn, "__await__") else _refusal(drawn)

    def end(self, hands_back: bool) -> None:
        """Nothing comes back."""


async def _awaited(drawn: Awaitable[Any]) -> Optional[Refusal]:
    return _refusal(await drawn)


def _refusal(drawn: Any) -> Optional[Refusal]:
    """Why there is no ticket, which any other answer is, such as the number 0."""
    if drawn is None or drawn is False:
        return Refusal(RefusalReason.USED_UP)
    return drawn if isinstance(drawn, Refusal) else None


class Lender(Protocol):
    """A quota, whose passes are others in a forked child."""

    passes: Passes


class ByPass:
    """Draws by a pass that is the retry's own until it is over."""

    __slots__ = ("_lender", "_now", "_passes", "_kept", "__weakref__")

    def __init__(self, lender: Lender, now: Callable[[], int]) -> None:
        self._lender = lender
        self._now = now
        self._passes = lender.passes
        self._kept: Optional[Keep] = None

    def draw(self) -> Optional[Refusal]:
        """Draws a ticket: why there is none."""
        passes = self._lender.passes
        kept = self._kept
        if kept is None or self._passes is not passes:  # (in a forked child it has a new one)
            kept = passes.keep_for_retry(self)
            self._passes, self._kept = passes, kept
        try:
            drawn = kept.part.draw(self._now())
        except EngineError:
            passes.look_again(kept.part)
            raise
        if passes is not self._lender.passes:  # (the clock, or the handler of a signal, forked meanwhile)
            return self.draw()
        return Refusal(RefusalReason.USED_UP) if drawn is None else None

    def end(self, hands_back: bool) -> None:
        """Takes the pass back."""
        kept, self._kept = self._kept, None
        if kept is not None:
            self._passes.end_kept(kept, hands_back)
