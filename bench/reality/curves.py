"""The picture of plays: the calls of each second as they were measured, over those of the storm."""

from __future__ import annotations

from typing import List, Sequence, Tuple

from hikebox import Storm
from hikebox._svg import Picture, number_text, ticks

from compare import Measured, storm_of
from stories import STORIES, Story

WIDTH, MARGIN, TALL = 760, 12, 120
#: The room left of a panel for its scale, and above it for its name.
LEFT, ABOVE, BELOW = 38, 44, 24
#: What it shows.
SHOWN = (("outage", "none"), ("outage", "quota"), ("surge", "none"), ("outage, 30 % without", "quota"))
#: How many seconds are drawn.
SECONDS = 90


def picture(measured: Sequence[Measured]) -> str:
    """Four of the plays as panels, two in a row."""
    plays = [each for key in SHOWN for each in measured if (each.story, each.limit) == key]
    wide = (WIDTH - MARGIN) / 2 - MARGIN - LEFT
    rows = -(-len(plays) // 2)
    told = " ".join(f"{_name(each)}: {_said(each, storm_of(STORIES[each.story], each.limit))}." for each in plays)
    title = "Calls a second, measured and in a storm"
    drawn = Picture(WIDTH, 40 + rows * (ABOVE + TALL + BELOW) + 20, title, told)
    drawn.text(MARGIN, 20, title, "head")
    _draw_legend(drawn)
    for index, play in enumerate(plays):
        left = MARGIN + LEFT + (index % 2) * (wide + MARGIN + LEFT)
        bottom = 40 + (index // 2) * (ABOVE + TALL + BELOW) + ABOVE + TALL
        _Panel(drawn, left, bottom, wide).draw(play)
    drawn.text(WIDTH / 2, drawn.height - 7, "seconds since the first request", "soft", "middle")
    return drawn.svg()


def _draw_legend(drawn: Picture) -> None:
    for x, kind, word in ((420, "line0", "in a storm"), (530, "line1", "measured")):
        drawn.path(f"M{x} 16h26", kind)
        drawn.text(x + 32, 20, word)


def _name(play: Measured) -> str:
    limit = {"none": "no limit", "in flight": "a bound on what is in flight"}.get(play.limit, f"a {play.limit}")
    return f"{play.story}, {limit}"


def _said(play: Measured, storm: Storm) -> str:
    succeeded = 100 * storm.totals.won / storm.totals.requests
    return f"{play.figures.succeeded:.1f} % succeeded, in the storm {succeeded:.1f} %"


class _Panel:
    """A play: its name, its scales and both curves."""

    def __init__(self, drawn: Picture, left: float, bottom: float, wide: float) -> None:
        self._drawn, self._left, self._bottom, self._wide = drawn, left, bottom, wide

    def draw(self, play: Measured) -> None:
        story = STORIES[play.story]
        storm = storm_of(story, play.limit)
        in_storm = [row.requests + row.retries for row in storm.rows]
        marks = ticks(max(*in_storm, *play.begun), 4)
        scale = TALL / marks[-1]
        self._draw_ground(story, [(mark * scale, number_text(mark)) for mark in marks])
        top = self._bottom - TALL
        self._drawn.text(self._left, top - 24, _name(play), "head")
        self._drawn.text(self._left, top - 8, _said(play, storm), "soft")
        for kind, counts in (("line0", in_storm), ("line1", play.begun)):
            self._drawn.path(self._curve(counts, scale), kind)

    def _x(self, second: float) -> float:
        return self._left + self._wide * min(second, SECONDS) / SECONDS

    def _draw_ground(self, story: Story, marks: List[Tuple[float, str]]) -> None:
        bottom = self._bottom
        slow, surge = (story.slow or (0, 0))[:2], (story.surge or (0, 0))[:2]
        for (begins, ends), kind in ((story.outage or (0, 0), "away"), (slow, "shade"), (surge, "shade")):
            if begins < ends:
                self._drawn.box(self._x(begins), bottom - TALL, self._x(ends) - self._x(begins), TALL, kind)
        for height, word in marks:
            kind = "line" if height else "axis"
            self._drawn.path(f"M{self._left:.1f} {bottom - height:.1f}H{self._left + self._wide:.1f}", kind)
            self._drawn.text(self._left - 6, bottom - height + 4, word, "soft", "end")
        for second in range(0, SECONDS + 1, 15):
            self._drawn.text(self._x(second), bottom + 14, str(second), "soft", "middle")

    def _curve(self, counts: Sequence[int], scale: float) -> str:
        points = [(self._x(at + 0.5), self._bottom - count * scale) for at, count in enumerate(counts[:SECONDS])]
        return "M" + "L".join(f"{x:.1f} {y:.1f}" for x, y in points)
