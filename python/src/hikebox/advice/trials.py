"""Plays the stories of a peer under each limit, and looks for what would help where no limit does."""

from __future__ import annotations

import random
from typing import Any, Dict, List, NamedTuple, Optional, Sequence, Tuple

from ..policy import Policy
from ..storms.cores import Told, play_all, silent
from ..storms.parameters import RANGES, Parameters
from ..storms.storm import Storm
from .candidates import Candidate
from .rule import Advice, Outcome, Trial, advised
from .stories import Story, Weather, stories_of

__all__ = ["Advised", "Remedy", "advise"]

#: A greater capacity than so many times the peer's is not looked for, and no longer patience, in milliseconds.
_MOST_TIMES, _MOST_PATIENCE = 16, 60_000


class Remedy(NamedTuple):
    """A parameter of the peer or of its clients, and its nearest value with which a limit helps; None where there is
    none up to `end`."""

    name: str
    value: Optional[int]
    end: int


class Advised(NamedTuple):
    """What was tried, and the advice."""

    stories: List[Story]
    #: What each trial is of: its policy and its limit.
    tried: List[Tuple[Policy, Candidate]]
    trials: List[Trial]
    advice: Advice
    #: What would help, where no limit does.
    remedies: Tuple[Remedy, ...]


def advise(
    tried: Sequence[Tuple[Policy, Candidate]],
    base: Parameters,
    weather: Weather,
    told: Told = silent,
    searches: Told = silent,
) -> Advised:
    """The advice for policies under limits, in the stories of a peer. `told` hears of the storms that are played, and
    `searches` of the values that are tried where no limit helps."""
    stories = stories_of(base, weather)
    trials = _trials(tried, stories, told)
    advice = advised(trials)
    remedies: Tuple[Remedy, ...] = ()
    if advice.take is None:
        remedies = tuple(_Search(base, weather, tried[advice.nearest], searches).remedies())
    return Advised(stories, list(tried), trials, advice, remedies)


def _trials(tried: Sequence[Tuple[Policy, Candidate]], stories: Sequence[Story], told: Told) -> List[Trial]:
    wanted = [
        (policy, story.parameters._replace(tickets=limit.tickets)) for policy, limit in tried for story in stories
    ]
    # (in an order that is drawn, so that those that are left take about as long as those that are played)
    order = random.Random(0).sample(range(len(wanted)), len(wanted))
    played = dict(zip(order, play_all([wanted[at] for at in order], told)))
    outcomes = [_outcome(played[at]) for at in range(len(wanted))]
    count = len(stories)
    return [Trial(limit.kind, tuple(outcomes[at * count : (at + 1) * count])) for at, (_, limit) in enumerate(tried)]


def _outcome(storm: Storm) -> Outcome:
    totals = storm.totals
    return Outcome(totals.requests, totals.won, None if totals.cut else totals.recovered_ms, totals.calls)


class _Search:
    """Looks for what would help under one policy and limit."""

    def __init__(self, base: Parameters, weather: Weather, tried: Tuple[Policy, Candidate], told: Told) -> None:
        self._base = base
        self._weather = weather
        self._tried = [tried]
        self._told = told
        most = min(RANGES["capacity"][1], _MOST_TIMES * base.capacity)
        #: Up to which value each parameter is changed.
        self._ends = {"capacity": most, "patience": max(base.patience, _MOST_PATIENCE), "queue": 0}
        self._count = 0

    def remedies(self) -> List[Remedy]:
        """More capacity, more patience, or a smaller queue, each alone."""
        return [self._remedy(name, end) for name, end in self._ends.items()]

    def _remedy(self, name: str, end: int) -> Remedy:
        """The value nearest to that of now with which the peer comes back in every story, by bisection."""
        bad, good = getattr(self._base, name), end
        if bad == good or not self._helps(name, end):
            return Remedy(name, None, end)
        while abs(good - bad) > 1:
            middle = (good + bad) // 2
            bad, good = (bad, middle) if self._helps(name, middle) else (middle, good)
        return Remedy(name, good, end)

    def _helps(self, name: str, value: int) -> bool:
        changed: Dict[str, Any] = {name: value}
        (trial,) = _trials(self._tried, stories_of(self._base._replace(**changed), self._weather), silent)
        self._count += 1
        self._told(self._count, self._most(), None)
        return trial.recovers

    def _most(self) -> int:
        """How many values are tried at most."""
        return sum(abs(getattr(self._base, name) - end).bit_length() + 1 for name, end in self._ends.items())
