"""What was measured beside the same storm: the figures of a play, those of the storm by ten seeds, and the verdict."""

from __future__ import annotations

import json
from collections import Counter
from dataclasses import asdict, dataclass
from math import ceil
from operator import attrgetter
from pathlib import Path
from typing import List, NamedTuple, Optional, Sequence, Tuple

from hikebox import Policy, Population, Storm, storm

from plays import Played
from stories import LIMITS, NGINX, STORIES, Story

SEEDS = 10
#: How far what was measured may lie from the spread of the storm: points of what succeeded, and a share of the calls.
POINTS, CALLS = 2.0, 0.03


@dataclass(frozen=True)
class Figures:
    """What is compared: the requests that succeeded in per cent, the calls, the most requests and retries that began in
    a second, and the second in which the peer was back."""

    succeeded: float
    calls: int
    most: int
    recovered: Optional[int]


@dataclass(frozen=True)
class Measured:
    """A play, as a file has it."""

    story: str
    limit: str
    figures: Figures
    #: The requests and retries that began in each second.
    begun: List[int]
    #: The milliseconds by which a process fell behind at most.
    behind: int


class Spread(NamedTuple):
    """The least and the most of a figure over the seeds."""

    least: float
    most: float

    def apart(self, number: float) -> float:
        """How far a number lies outside."""
        return max(self.least - number, number - self.most, 0.0)


def measured(play: Played) -> Measured:
    """The figures of a play."""
    requests, won, calls, begun = (Counter[int]() for _ in range(4))
    for tally in play.tallies:
        requests.update(tally.requests)
        won.update(tally.won)
        calls.update(tally.calls)
        begun.update(tally.calls)
        begun.update(tally.not_admitted)
    total = sum(calls.values())
    succeeded = 100 * sum(won.values()) / sum(requests.values())
    back = recovered(play.row.story, requests, won)
    figures = Figures(round(succeeded, 2), total, max(begun.values()), back)
    story = play.row.story
    in_seconds = [begun[second] for second in range(max(begun) + 1)]
    return Measured(story.name, play.row.limit, figures, in_seconds, round(1000 * play.behind.most))


def recovered(story: Story, requests: Counter[int], won: Counter[int]) -> Optional[int]:
    """The first second after the outage and the brown-out such that in it, and in each later one, 99 in 100 requests
    succeed."""
    back = None
    for second in range(max(requests), ceil(story.over) - 1, -1):
        if won[second] * 100 < requests[second] * 99:
            break
        back = second
    return back


def storm_of(story: Story, limit: str, seed: int = 0) -> Storm:
    """The same as a storm."""
    policy = Policy.parse(story.policy)
    return storm(
        policy,
        rate=story.rate,
        rates=[story.surge] if story.surge else [],
        seconds=story.seconds,
        capacity=story.capacity,
        queue=story.queue,
        replicas=story.replicas,
        outage=story.outage,
        down=story.down,
        slow=story.slow,
        patience=story.patience,
        seed=seed,
        limit=LIMITS[limit](lambda: 0.0),
        beside=[Population(story.unlimited, policy)] if story.unlimited else [],
    )


def figures_of(played: Storm) -> Figures:
    """The figures of a storm."""
    totals = played.totals
    back = None if totals.recovered_ms is None else totals.recovered_ms // 1000
    return Figures(100 * totals.won / totals.requests, totals.calls, totals.most_calls, back)


@dataclass(frozen=True)
class Beside:
    """A play beside the storm by each seed."""

    play: Measured
    storms: Sequence[Figures]

    def spread(self, name: str) -> Spread:
        """The spread of a figure of the storm."""
        numbers = [attrgetter(name)(each) for each in self.storms]
        return Spread(min(numbers), max(numbers))

    @property
    def recoveries(self) -> List[Optional[int]]:
        """When the storms have recovered, each moment once."""
        return sorted({each.recovered for each in self.storms}, key=lambda back: float("inf") if back is None else back)

    @property
    def is_alike(self) -> bool:
        """Whether what counts is as near as is wanted."""
        succeeded, calls = self.spread("succeeded"), self.spread("calls")
        is_near = succeeded.apart(self.play.figures.succeeded) <= POINTS
        return is_near and calls.apart(self.play.figures.calls) <= CALLS * self.play.figures.calls


def beside(play: Measured, story: Optional[Story] = None) -> Beside:
    """A play beside its storms; of a story that has its name, where none is given."""
    story = story or {**STORIES, **NGINX}[play.story]
    return Beside(play, [figures_of(storm_of(story, play.limit, seed)) for seed in range(SEEDS)])


def written(plays: Sequence[Measured], about: str) -> str:
    """The plays as a file has them, a line for each."""
    lines = ",\n    ".join(json.dumps(asdict(each)) for each in plays)
    return f'{{\n  "about": {json.dumps(about)},\n  "plays": [\n    {lines}\n  ]\n}}\n'


def read(file: Path) -> Tuple[str, List[Measured]]:
    """What such a file says."""
    found = json.loads(file.read_text())
    return found["about"], [Measured(figures=Figures(**each.pop("figures")), **each) for each in found["plays"]]
