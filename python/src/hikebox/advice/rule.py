"""The rule by which a limit is advised: take the limit with which the peer comes back in every story, and whose worst
story is the best."""

from __future__ import annotations

from fractions import Fraction
from typing import NamedTuple, Optional, Sequence, Tuple

__all__ = ["Advice", "Outcome", "Trial", "advised", "best_of_kinds"]


class Outcome(NamedTuple):
    """What became of a story under a limit."""

    requests: int
    #: How many of these succeeded.
    won: int
    #: The moment at which the peer was back, in milliseconds; None if it was not.
    recovered: Optional[int]
    calls: int = 0

    @property
    def share(self) -> Fraction:
        """The share of the requests that succeeded: the whole where there was none."""
        return Fraction(self.won, self.requests) if self.requests else Fraction(1)


class Trial(NamedTuple):
    """A limit of a kind, and its outcome in each story."""

    kind: str
    outcomes: Tuple[Outcome, ...]

    @property
    def recoveries(self) -> int:
        """In how many stories the peer comes back."""
        return sum(each.recovered is not None for each in self.outcomes)

    @property
    def recovers(self) -> bool:
        """Whether it comes back in every story."""
        return self.recoveries == len(self.outcomes)

    @property
    def worst(self) -> int:
        """The story in which the fewest of the requests succeed: the first of equals."""
        return min(range(len(self.outcomes)), key=lambda index: self.outcomes[index].share)


class Advice(NamedTuple):
    """Which of some trials to take, each by its place."""

    #: None where the peer comes back in every story under none.
    take: Optional[int]
    #: The best of another kind; None where none of another kind recovers in every story.
    runner_up: Optional[int]
    #: The best of all: the one to take, or else the one with which the peer comes back in the most stories.
    nearest: int


def advised(trials: Sequence[Trial]) -> Advice:
    """The advice that the rule gives. Of equals it is the one with the fewest calls, and of these the first.

    >>> never, soon = Outcome(10, 9, None), Outcome(10, 7, 2000)
    >>> advised([Trial("none", (never,)), Trial("quota", (soon,))])
    Advice(take=1, runner_up=None, nearest=1)
    """
    order = _ranked(trials)
    nearest = order[0]
    if not trials[nearest].recovers:
        return Advice(None, None, nearest)
    others = [at for at in order if trials[at].kind != trials[nearest].kind and trials[at].recovers]
    return Advice(nearest, others[0] if others else None, nearest)


def best_of_kinds(trials: Sequence[Trial]) -> Tuple[int, ...]:
    """The place of the best trial of each kind, the best first."""
    order = _ranked(trials)
    return tuple(
        at for place, at in enumerate(order) if trials[at].kind not in {trials[to].kind for to in order[:place]}
    )


def _ranked(trials: Sequence[Trial]) -> Tuple[int, ...]:
    """The places of the trials, the best first."""

    def badness(at: int) -> Tuple[int, Fraction, int]:
        trial = trials[at]
        worst = trial.outcomes[trial.worst].share
        return -trial.recoveries, -worst, sum(each.calls for each in trial.outcomes)

    return tuple(sorted(range(len(trials)), key=badness))
