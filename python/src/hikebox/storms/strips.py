"""The strips of a storm in a picture: what stands where, on the scales that all of its storms share."""

from __future__ import annotations

from itertools import accumulate
from typing import TYPE_CHECKING, Callable, List, NamedTuple, Sequence, Tuple, Union

from .._svg import LINE, Picture, headed, number_text, plain_width_of, ticks, width_of
from .texts import population_names, recovery_mark, share_text

if TYPE_CHECKING:
    from .storm import PopulationReport, Storm, StormRow, StormTotals

__all__ = ["Axes", "Strips", "axes_of", "verdict_of"]

#: The heights of the strips, of the line of text above each, and of the numbers of the axis of time.
_VERDICT, _LOAD, _SAID, _TIMES = 72, 52, 20, 18
#: The heights of the verdict of each population, above a load and where there is none.
_OF_POPULATION, _OF_POPULATION_ALONE = 40, 22
#: The room above its name, and that for its share beside the name.
_ABOVE, _SHARE = 6, 64
_RIGHT = 6
#: The room between two texts of a line.
_BESIDE = 8
#: The scale of loads ends here where a higher load would flatten the others.
_CUT = 4.0

Count = Callable[["StormRow"], int]

#: The parts of the load, from the axis up, and those of the calls that failed.
_BEGUN: Tuple[Tuple[str, Count], ...] = (("requests", lambda row: row.requests), ("retries", lambda row: row.retries))
_FAILED: Tuple[Tuple[str, Count], ...] = (
    ("failed", lambda row: row.refused),
    ("shed", lambda row: row.shed),
    ("late", lambda row: row.late),
)


class Axes(NamedTuple):
    """The scales of all storms of a picture."""

    #: The width of a panel, and that of the numbers at its left.
    wide: float
    margin: float
    #: The marks on the axis of time, and where it ends, in seconds.
    times: List[float]
    last: float
    #: The most requests of a window, or in all where they are summed up, and the greatest load, in capacities.
    most: float
    load: float
    #: Whether the requests are summed up, since all come at the beginning.
    is_sum: bool
    #: How many windows are drawn as one, since there are more than points.
    grain: int
    #: How many strips are below the verdict: the load, and the calls that failed.
    below: int
    #: How many verdicts a storm has at most, their height, and the lines of the name above each.
    verdicts: int = 1
    verdict: int = _VERDICT
    lines: int = 0

    @property
    def tall(self) -> int:
        """The height of the strips of a panel."""
        return self.verdicts * self.verdict_tall + _TIMES + (_SAID + _LOAD) * self.below

    @property
    def verdict_tall(self) -> int:
        """The height of a verdict, with what stands above it."""
        return (_ABOVE + LINE * self.lines if self.lines else 0) + _SAID + self.verdict


def axes_of(storms: Sequence[Storm], wide: float, below: int, lines: int) -> Axes:
    """The scales on which all of these have room, in panels of this width with so many strips below the verdict. The
    name of a population has so many lines at most."""
    last = max(storm.rows[-1].from_ms + storm.parameters.window for storm in storms)
    grain = max(1, -(-3 * max(len(storm.rows) for storm in storms) // int(wide)))
    is_sum = all(storm.rows[0].requests == storm.totals.requests and len(storm.rows) > 2 for storm in storms)
    parts = [(storm, each.rows) for storm in storms for each in storm.populations or [storm]]
    most = max(max(_came(storm, rows, grain, is_sum)) for storm, rows in parts) or 1.0  # (where no request comes)
    load = _greatest_load(storms, grain)
    numbers = [number_text(most), *([_multiple(load)] if below else [])]
    margin = max(36.0, *(12 + width_of(number) for number in numbers))
    times = [mark for mark in ticks(last / 1000, max(2, int((wide - margin) // 45))) if mark * 1000 <= last]
    axes = Axes(wide, margin, times, last / 1000, most, load, is_sum, grain, below)
    named = [_name_lines(name, wide, lines) for storm in storms for name in population_names(storm)]
    if not named:
        return axes
    tall = _OF_POPULATION if below else _OF_POPULATION_ALONE
    verdicts = max(len(storm.populations) for storm in storms)
    return axes._replace(verdicts=verdicts, verdict=tall, lines=max(map(len, named)))


def _name_lines(name: str, wide: float, most: int) -> List[str]:
    """The name of a population in lines, so many at most: its policy is broken at its operators alone."""
    head, colon, policy = name.partition(": ")
    return headed(head + colon + policy.replace(", ", ",\u00a0"), wide - _SHARE, most)


def _greatest_load(storms: Sequence[Storm], grain: int) -> float:
    """Where the scale of loads ends: at the greatest one, or before it where that would flatten the others."""
    loads = [[load for load in _loads(storm, _BEGUN, grain) if load > 0] for storm in storms]
    peak = max([1.0, *(max(each, default=0.0) for each in loads)])
    least = min(sorted(each)[len(each) // 2] if each else 1.0 for each in loads)
    return ticks(peak, 4)[-1] if peak <= max(_CUT, 4 * least) else max(_CUT, ticks(2 * least, 4)[-1])


def _multiple(load: float) -> str:
    """A load as a multiple of the capacity."""
    return f"{number_text(load)}×"


def _grouped(counts: Sequence[int], grain: int) -> List[int]:
    return [sum(counts[at : at + grain]) for at in range(0, len(counts), grain)]


def _came(storm: Storm, rows: Sequence[StormRow], grain: int, is_sum: bool) -> List[float]:
    """The requests of these rows that came, a second; or those up to each window."""
    came = _grouped(_filled(storm, [row.requests for row in rows]), grain)
    return list(accumulate(map(float, came))) if is_sum else _rates(storm, came, grain)


def _won(storm: Storm, rows: Sequence[StormRow], grain: int, is_sum: bool) -> List[float]:
    """How many of these succeeded; or how many requests had succeeded by the end of each window."""
    if is_sum:
        succeeded = _filled(storm, [row.succeeded for row in rows])
        return list(accumulate(map(float, _grouped(succeeded, grain))))
    return _rates(storm, _grouped(_filled(storm, [row.won for row in rows]), grain), grain)


def _filled(storm: Storm, counts: List[int]) -> List[int]:
    """The counts of a population, which may be over before the storm is, up to the storm's last window."""
    return counts + [0] * (len(storm.rows) - len(counts))


def _rates(storm: Storm, counts: Sequence[int], grain: int) -> List[float]:
    return [count * 1000 / (storm.parameters.window * grain) for count in counts]


def _loads(storm: Storm, parts: Sequence[Tuple[str, Count]], grain: int) -> List[float]:
    """The calls of these parts a second, as multiples of the capacity."""
    sums = _grouped([sum(count(row) for _, count in parts) for row in storm.rows], grain)
    return [rate / storm.parameters.whole_capacity for rate in _rates(storm, sums, grain)]


class Verdict(NamedTuple):
    """The requests of each window, from the axis up: those that succeeded, those that failed, and all that came. What
    is left between may be open: a storm has no more such requests in all."""

    won: List[float]
    settled: List[float]
    came: List[float]

    @property
    def has_failed(self) -> bool:
        """Whether requests are drawn that failed."""
        return any(settled > won for won, settled in zip(self.won, self.settled))


def verdict_of(storm: Storm, told: Union[PopulationReport, Storm], axes: Axes) -> Verdict:
    """What became of the requests of a population, or of all."""
    came, won = (each(storm, told.rows, axes.grain, axes.is_sum) for each in (_came, _won))
    left = told.totals.open
    most = float(left) if axes.is_sum else _rates(storm, [left], axes.grain)[0]
    return Verdict(won, [max(low, all - most) for low, all in zip(won, came)], came)


class Strips:
    """The strips of one storm, drawn one below the other."""

    def __init__(self, picture: Picture, storm: Storm, axes: Axes, left: float) -> None:
        self.picture = picture
        self.storm = storm
        self.axes = axes
        self.left = left + axes.margin
        self.wide = axes.wide - axes.margin - _RIGHT

    def draw(self, top: float) -> None:
        bottom = top
        for name, report in zip(population_names(self.storm), self.storm.populations):
            bottom += self.axes.verdict_tall
            self._draw_name(bottom - self.axes.verdict - _SAID, name, report.totals)
            self._draw_verdict(bottom, report)
        if not self.storm.populations:
            bottom += _SAID + self.axes.verdict
            self._draw_verdict(bottom, self.storm)
        if self.axes.below:
            bottom += _SAID + _LOAD
            # (a request that is denied its first call is one of its window)
            is_asked = self.storm.parameters.denies_first_calls
            self._draw_load(bottom, "requests and retries" if is_asked else "calls begun", _BEGUN)
        if self.axes.below > 1:
            bottom += _SAID + _LOAD
            denied = f"{self.storm.totals.denied:,} denied" if self.storm.parameters.tickets is not None else ""
            self._draw_load(bottom, "calls failed", _FAILED, denied)
        for mark in self.axes.times:
            self.picture.text(self._x(mark * 1000), bottom + 14, number_text(mark), "soft", "middle")

    def _x(self, milliseconds: float) -> float:
        return self.left + self.wide * min(1.0, milliseconds / (1000 * self.axes.last))

    def _draw_verdict(self, bottom: float, told: Union[PopulationReport, Storm]) -> None:
        """The requests that came, and how many of them succeeded or are open: of a population, or of all."""
        axes, picture = self.axes, self.picture
        verdict = verdict_of(self.storm, told, axes)
        scale, top = axes.verdict / (1.2 * axes.most), bottom - axes.verdict
        self._draw_ground(bottom, axes.verdict, [0.0, axes.most * scale])
        said = self._scale_name(told.totals)
        picture.text(self.left, top - 5, said, "soft")
        picture.text(self.left - 6, bottom - axes.most * scale + 4, number_text(axes.most), "soft", "end")
        picture.text(self.left - 6, bottom + 4, "0", "soft", "end")
        floors = [0.0] * len(verdict.came)
        for kind, counts in zip(("won", "failed", "band"), verdict):
            tops = [value * scale for value in counts]
            picture.path(self._area(bottom, tops, floors), kind)
            floors = tops
        self._draw_mark(top, self.left + width_of(said) + _BESIDE, told.totals)

    def _scale_name(self, totals: StormTotals) -> str:
        """What the scale of a verdict counts, in brief if the moment of recovery has no room beside it."""
        if not self.axes.is_sum:
            return "requests/s"
        long = "requests so far"
        room = self.wide - width_of(recovery_mark(self.storm, totals)[1]) - _BESIDE
        return long if width_of(long) <= room else "so far"

    def _draw_name(self, bottom: float, name: str, totals: StormTotals) -> None:
        """The name of a population, and at its right the share of its requests that succeeded."""
        left, right = self.left - self.axes.margin, self.left + self.wide
        lines = _name_lines(name, self.axes.wide, self.axes.lines)
        self.picture.texts(left, bottom - LINE * len(lines) + 12, lines, "ink", name)
        self.picture.text(right, bottom - 4, share_text(totals), "number", "end")

    def _draw_mark(self, top: float, least: float, totals: StormTotals) -> None:
        """When these recovered, if they had something to recover from."""
        moment, said = recovery_mark(self.storm, totals)
        if not said:
            return
        wide = width_of(said)
        most = self.left + self.wide - wide
        over = self.storm.parameters.over if moment is None else moment
        self.picture.text(max(least, min(most, self._x(over) + 4)), top - 5, said, "head")
        if moment is not None:
            x = self._x(moment)
            self.picture.path(f"M{x:.1f} {top:.1f}V{top + self.axes.verdict:.1f}", "mark")
            self.picture.path(f"M{x - 5:.1f} {top - 2:.1f}h10l-5 8z", "dot")

    def _draw_load(self, bottom: float, said: str, parts: Sequence[Tuple[str, Count]], denied: str = "") -> None:
        axes, picture = self.axes, self.picture
        scale = _LOAD / axes.load
        marks = _load_marks(axes.load)
        self._draw_ground(bottom, _LOAD, [mark * scale for mark in marks])
        for mark in marks:
            picture.text(self.left - 6, bottom - mark * scale + 4, _multiple(mark) if mark else "0", "soft", "end")
        picture.text(self.left, bottom - _LOAD - 5, said, "soft")
        floors = [0.0] * -(-len(self.storm.rows) // axes.grain)
        for index, (kind, _) in enumerate(parts, start=1):
            tops = [min(_LOAD, load * scale) for load in _loads(self.storm, parts[:index], axes.grain)]
            picture.path(self._area(bottom, tops, floors), kind)
            floors = tops
        peak = max(_loads(self.storm, parts, axes.grain))
        is_cut = peak > axes.load * 1.001
        if is_cut:
            self._draw_cut(bottom - _LOAD, _loads(self.storm, parts, axes.grain))
        room = self.wide - plain_width_of(said) - _BESIDE
        beside = _beside_strip(denied, f"up to {peak:,.1f}×" if is_cut else "", room)
        if beside:
            picture.text(self.left + self.wide, bottom - _LOAD - 5, beside, "soft", "end")
        picture.path(self._capacity(bottom, scale), "bound")

    def _draw_ground(self, bottom: float, tall: float, marks: Sequence[float]) -> None:
        """The shades of the outage, the brown-out and the surges, and the lines of the scales."""
        for begins, ends, _, kind in self.storm.parameters.weather():
            self.picture.box(self._x(begins), bottom - tall, self._x(ends) - self._x(begins), tall, kind)
        times = "".join(f"M{self._x(mark * 1000):.1f} {bottom - tall:.1f}V{bottom:.1f}" for mark in self.axes.times)
        self.picture.path(times, "line")
        for mark in marks:
            kind = "line" if mark else "axis"
            self.picture.path(f"M{self.left:.1f} {bottom - mark:.1f}H{self.left + self.wide:.1f}", kind)

    def _draw_cut(self, top: float, loads: Sequence[float]) -> None:
        """A zigzag where the scale cuts a load off."""
        step = self.storm.parameters.window * self.axes.grain
        drawn = ""
        for begins, ends in _runs([load > self.axes.load for load in loads]):
            x, right, is_up = self._x(begins * step), self._x(ends * step), False
            drawn += f"M{x:.1f} {top + 8:.1f}"
            while x < right:
                x, is_up = min(right, x + 5), not is_up
                drawn += f"L{x:.1f} {top + (4 if is_up else 8):.1f}"
        self.picture.path(drawn, "cut")

    def _area(self, bottom: float, tops: Sequence[float], floors: Sequence[float]) -> str:
        """The outlines of the runs of windows in which there is something between the floor and the top."""
        step = self.storm.parameters.window * self.axes.grain
        drawn = ""
        for begins, ends in _runs([top > floor for top, floor in zip(tops, floors)]):
            forth = "".join(f"V{bottom - tops[i]:.1f}H{self._x((i + 1) * step):.1f}" for i in range(begins, ends))
            back = "".join(f"V{bottom - floors[i]:.1f}H{self._x(i * step):.1f}" for i in reversed(range(begins, ends)))
            drawn += f"M{self._x(begins * step):.1f} {bottom - floors[begins]:.1f}{forth}{back}Z"
        return drawn

    def _capacity(self, bottom: float, scale: float) -> str:
        """What the peer can do, from the first moment to the last."""
        parameters = self.storm.parameters
        slow = parameters.slow
        turns = [slow.begins, slow.ends] if slow is not None and slow.begins < slow.ends else []
        tall = scale / parameters.whole_capacity
        drawn = f"M{self.left:.1f} {bottom - tall * parameters.capacity_at(0):.1f}"
        for turn in turns:
            drawn += f"H{self._x(turn):.1f}V{bottom - tall * parameters.capacity_at(turn):.1f}"
        return f"{drawn}H{self.left + self.wide:.1f}"


def _beside_strip(denied: str, peak: str, room: float) -> str:
    """How many requests were denied, and the peak of a load that is cut off: as much as there is room for."""
    if not peak:
        return denied
    told = f"{denied}, " if denied else ""
    forms = [f"{told}cut: {peak}", f"{told}{peak}", denied]
    return next((form for form in forms if plain_width_of(form) <= room), denied)


def _runs(flags: Sequence[bool]) -> List[Tuple[int, int]]:
    """From where to before where each run of flags that are set is."""
    edges = [index for index, (left, right) in enumerate(zip([False, *flags], [*flags, False])) if left != right]
    return list(zip(edges[::2], edges[1::2]))


def _load_marks(most: float) -> List[float]:
    """The loads that the scale names: the capacity, the greatest, and others that have room beside these."""
    marks = [1.0]
    for mark in [most, *reversed(ticks(most, 4)[:-1])]:
        if all(abs(mark - other) * _LOAD / most >= 12 for other in marks):
            marks.append(mark)
    return sorted(marks)
