"""A limit that finds by itself how many calls at once its peer bears."""

from __future__ import annotations

import time

from .._engine.limits import LimitHandle
from ..budgets.terms import count_of, thousandths_of, thousandths_text
from ..errors import TermsError
from .limit import CallLimit
from .seen import AdaptiveSeen
from .terms import LimitTerms, adaptive

__all__ = ["Adaptive"]


class Adaptive(CallLimit):
    """Bounds the calls under way at once, by how they end: successes raise the bound, by about one for each round of
    calls, and each failure lowers it to a share of what it was.

    `least`, `most`
        The bound is never below `least`, nor above `most`, which is at most 65,535.
    `first`
        The bound at first.
    `backoff`
        The share of the bound that a failure leaves, from 0.001 to 0.999. It is counted in thousandths.

    A success raises the bound by its reciprocal, and only while the calls under way are at least half of its level: an
    idle client learns nothing. The limit grants each retry, which is a part of its call; to bound retries too, join
    a `Bucket` by `both`.

    >>> from hikebox import recurs, retry
    >>> @retry(recurs(3), limit=Adaptive())
    ... def fetch():
    ...     return "fetched"
    >>> fetch()
    'fetched'
    """

    __slots__ = ("_terms",)

    def __init__(self, *, least: int = 1, most: int = 200, first: int = 20, backoff: float = 0.9) -> None:
        count_of("most", most, 1, _MOST)
        if not count_of("least", least, 1, _MOST) <= count_of("first", first, 1, _MOST) <= most:
            default = " (first is 20 by default)" if first == 20 else ""
            raise TermsError(f"expected least <= first <= most, got {least}, {first} and {most}{default}")
        self._terms = (least, most, first, thousandths_of("backoff", backoff, 999, least=1))
        super().__init__(time.monotonic)

    def make(self) -> LimitHandle:
        return LimitHandle.of_adaptive(*self._terms)

    def on_storm(self) -> LimitTerms:
        return adaptive(*self._terms)

    def seen(self) -> AdaptiveSeen:
        """Returns the calls that are under way, and the bound on them, now."""
        state = self.state_of_root()
        return AdaptiveSeen(state.first, state.second / 1000)

    def expression(self) -> str:
        least, most, first, share = self._terms
        return f"Adaptive(least={least}, most={most}, first={first}, backoff={thousandths_text(share)})"


#: The most calls at once.
_MOST = 65_535
