"""What a policy does, before any call is made."""

from __future__ import annotations

from typing import Any, Callable, List, Optional

from .._engine.calls import MAX_STEPS
from .._values import dataclass
from .checks import whole
from .plan import Plan

__all__ = ["Step", "played", "word_of"]

#: The random word in the middle.
_MIDDLE = 1 << 31


@dataclass(frozen=True)
class Step:
    """One event of a preview. The moments are whole milliseconds; `at`, `next` and `delay` are the same in seconds."""

    #: The moment of the event.
    at_ms: int
    #: What the policy gives at it: a number, a pair, a list, or `()`.
    output: Any
    #: The start of the next call, or None where the policy is done.
    next_ms: Optional[int]

    @property
    def at(self) -> float:
        """The moment of the event, in seconds."""
        return self.at_ms / 1000

    @property
    def next(self) -> Optional[float]:
        """The start of the next call in seconds, or None where the policy is done."""
        return None if self.next_ms is None else self.next_ms / 1000

    @property
    def delay(self) -> Optional[float]:
        """The wait before the next call in seconds, or None if the policy is done."""
        return None if self.next_ms is None else (self.next_ms - self.at_ms) / 1000

    def __str__(self) -> str:
        goes = "done" if self.next_ms is None else f"next {self.next_ms}"
        return f"{self.at_ms}: {self.output} {goes}"


def played(
    plan: Plan, steps: int, start: int, took: int, codes: List[int], random: Optional[Callable[[], float]]
) -> List[Step]:
    """At most so many first events of a plan, up to the one at which it is done, on a clock of its own: the first is at
    the moment `start`, and each other one `took` milliseconds after its planned start. Their inputs are these codes,
    the last one again and again; their words are picked by `random`, or in the middle."""
    most = plan.size()[2]
    count = whole(max(0, steps) if isinstance(steps, int) else steps, "preview: steps", 0, MAX_STEPS)
    if most is not None:
        count = min(count, most + 1)
    if count == 0:
        return []
    inputs = [whole(code, "preview: input") for code in codes[:count]] or [0]
    if random is None:
        events = [(code, _MIDDLE, _MIDDLE, _MIDDLE, _MIDDLE) for code in inputs]
    else:
        inputs += inputs[-1:] * (count - len(inputs))
        events = [(code, word_of(random()), word_of(random()), word_of(random()), word_of(random())) for code in inputs]
    return [Step(moment, _output_of(output), goes) for moment, goes, output in plan.course(count, start, took, events)]


def _output_of(text: str) -> Any:
    """The output that the engine prints as this text. Pairs are read as objects that hold a list."""
    if text.isdigit():
        return int(text)
    import json

    pairs = text.replace("(", '{"": [').replace(")", "]}")
    return json.loads(pairs, object_hook=lambda pair: tuple(pair[""]))


def word_of(number: float) -> int:
    """The random word of the engine for a number from 0 up to 1."""
    word = int(number * 4294967296.0)
    return word if 0 <= word < 2**32 else min(2**32 - 1, max(0, word))
