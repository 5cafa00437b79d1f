"""The picture of storms along a parameter: a panel for each measure, and a line for each policy or limit."""

from __future__ import annotations

import math
from typing import TYPE_CHECKING, Dict, List, NamedTuple, Optional, Sequence, Tuple

from .._svg import MIN_WIDTH, LINE, LINES, MAX_WIDTH, Picture, headed, number_text, plain_width_of, ticks, width_of
from ..errors import StormError, shown
from .axes import AXES, MEASURES, NEVER
from .heads import shared_text

if TYPE_CHECKING:
    from .storm import Storm
    from ..sweeps import Sweep

__all__ = ["sweep_picture"]

_MIN_PANEL, _GAP, _MARGIN = 330, 20, 12
#: The heights of a plot, of the title above it, and of the numbers and the name below it.
_TALL, _SAID, _BELOW, _FOOT = 150, 30, 22, 20
#: The room above a plot for lines that never come to the measure.
_NEVER = 22
#: From this ratio of the greatest to the least value on an axis goes by ratios.
_RATIO = 20

Numbers = List[List[Optional[float]]]


class _Scales(NamedTuple):
    """Where values and numbers stand in a panel."""

    left: float
    wide: float
    top: float
    bottom: float
    #: The marks of the two axes, with what is told at each.
    values: List[Tuple[float, str]]
    numbers: List[float]
    first: float
    last: float
    is_log: bool

    def x(self, value: float) -> float:
        if self.is_log:
            return self.left + self.wide * math.log(value / self.first) / math.log(self.last / self.first)
        return self.left + self.wide * (value - self.first) / max(1e-9, self.last - self.first)

    def y(self, number: float) -> float:
        """Where a number stands; one that is never reached stands above the plot."""
        if number == NEVER:
            return self.top - _NEVER / 2
        return self.bottom - (self.bottom - self.top) * min(1.0, number / self.numbers[-1])


def sweep_picture(
    swept: Sweep,
    measures: Sequence[str],
    *,
    width: int = 760,
    title: Optional[str] = None,
    styled: bool = True,
    paints: Sequence[int] = range(LINES),
) -> str:
    """The measures of a sweep side by side where they have room, as SVG so many units wide. `paints` has the number of
    the colour and the mark of each line."""
    if not MIN_WIDTH <= width <= MAX_WIDTH:
        raise StormError("width", f"expected {MIN_WIDTH} to {MAX_WIDTH}, got {shown(width)}")
    if len(swept.lines) > LINES:
        raise StormError("sweep", f"expected at most {LINES} lines in a picture, got {len(swept.lines)}")
    columns = min(len(measures), max(1, (width - 2 * _MARGIN + _GAP) // (_MIN_PANEL + _GAP)))
    wide = (width - 2 * _MARGIN + _GAP) / columns - _GAP
    whole = shared_text([line[0] for line in swept.lines], swept.parameter) if title is None else title
    shared = headed(whole, width - 2 * _MARGIN) if whole else []
    legend, rows = _legend(swept, width)
    top = 10 + LINE * (len(shared) + rows)
    numbers = {measure: swept.numbers(measure) for measure in measures}
    never = any(NEVER in line for lines in numbers.values() for line in lines)
    tall = _SAID + _NEVER * never + _TALL + _BELOW
    height = top + tall * -(-len(measures) // columns) + _FOOT
    picture = Picture(width, height, f"Storms along {AXES[swept.parameter].title}", _told(swept, numbers))
    picture.texts(_MARGIN, 20, shared, "head", whole)
    _draw_legend(picture, 20 + LINE * len(shared), legend, paints)
    for index, measure in enumerate(measures):
        left = _MARGIN + (wide + _GAP) * (index % columns)
        bottom = top + tall * (index // columns + 1) - _BELOW
        _Panel(picture, swept, measure, numbers[measure], paints).draw(left, wide, bottom, never)
    picture.text(width / 2, height - 7, AXES[swept.parameter].title, "soft", "middle")
    return picture.svg(styled)


def _told(swept: Sweep, numbers: Dict[str, Numbers]) -> str:
    """The picture in words."""
    shown = ", ".join(AXES[swept.parameter].shown(value) for value in swept.values)
    said = [f"Along {AXES[swept.parameter].title} of {shown}."]
    for measure, lines in numbers.items():
        said.append(f"{MEASURES[measure].title.capitalize()}:")
        for name, line, storms in zip(swept.names, lines, swept.lines):
            said.append(f"{name}: {', '.join(map(_spelt, line, storms))}.")
    return " ".join(said)


def _spelt(number: Optional[float], storm: Storm) -> str:
    spelt = "none" if number is None else "never" if number == NEVER else f"{number:.4g}"
    return f"{spelt} (cut)" if storm.totals.cut else spelt


class _Panel:
    """The lines of one measure."""

    def __init__(self, picture: Picture, swept: Sweep, measure: str, numbers: Numbers, paints: Sequence[int]) -> None:
        self.picture = picture
        self.swept = swept
        self.measure = MEASURES[measure]
        self.numbers = numbers
        self.paints = paints

    def draw(self, left: float, wide: float, bottom: float, never: bool) -> None:
        scales = self._scales(left, wide, bottom)
        picture = self.picture
        picture.text(left, scales.top - _NEVER * never - 13, self.measure.title, "head")
        for value, said in scales.values:
            x = scales.x(value)
            picture.path(f"M{x:.1f} {scales.top:.1f}V{bottom:.1f}", "line")
            picture.text(x, bottom + 15, said, "soft", "middle")
        for mark in scales.numbers:
            kind = "line" if mark else "axis"
            picture.path(f"M{scales.left:.1f} {scales.y(mark):.1f}H{scales.left + scales.wide:.1f}", kind)
            picture.text(scales.left - 6, scales.y(mark) + 4, number_text(mark), "soft", "end")
        if any(NEVER in line for line in self.numbers):
            picture.text(scales.left - 6, scales.y(NEVER) + 4, "never", "soft", "end")
        # (the first line is drawn last, above the others)
        for index in reversed(range(len(self.numbers))):
            self._draw_line(scales, index)

    def _scales(self, left: float, wide: float, bottom: float) -> _Scales:
        axis, values = AXES[self.swept.parameter], self.swept.values
        first, last = values[0] / axis.unit, values[-1] / axis.unit
        is_log = first > 0 and last / first >= _RATIO
        known = [number for line in self.numbers for number in line if number is not None and number != NEVER]
        numbers = ticks(self.measure.most or max([*known, 1.0]), 4)
        margin = max(44.0, 12 + width_of(number_text(numbers[-1])))
        plot = wide - margin - 16
        room = max(2, int(plot // (14 + width_of(number_text(last)))))
        marks = _by_ratios(first, last, room) if is_log else [m for m in ticks(last, room) if first <= m <= last]
        # (whole numbers have none between)
        named = [(mark, f"{mark:,.12g}") for mark in marks if axis.unit > 1 or mark == int(mark)]
        return _Scales(left + margin, plot, bottom - _TALL, bottom, named, numbers, first, last, is_log)

    def _draw_line(self, scales: _Scales, index: int) -> None:
        unit = AXES[self.swept.parameter].unit
        points = [
            (scales.x(value / unit), scales.y(number), storm.totals.cut)
            for value, number, storm in zip(self.swept.values, self.numbers[index], self.swept.lines[index])
            if number is not None
        ]
        drawn = "".join(f"{'L' if at else 'M'}{x:.1f} {y:.1f}" for at, (x, y, _) in enumerate(points))
        self.picture.path(drawn, f"line{self.paints[index]}")
        for x, y, is_cut in points:
            _draw_dot(self.picture, x, y, f"dot{self.paints[index]}", is_cut)


def _draw_dot(picture: Picture, x: float, y: float, kind: str, is_cut: bool) -> None:
    """The mark of a storm: a hollow one if it was cut."""
    picture.dot(x, y, kind, 5 if is_cut else 3)
    if is_cut:
        picture.dot(x, y, "ground", 3)


def _by_ratios(first: float, last: float, room: int) -> List[float]:
    """Round values from the first to the last, each some times the one before."""
    for steps in ((1, 2, 5), (1, 3), (1,)):
        decades = range(math.floor(math.log10(first)), math.ceil(math.log10(last)) + 1)
        marks = [step * 10.0**decade for decade in decades for step in steps]
        found = [mark for mark in marks if first <= mark * 1.0001 and mark <= last * 1.0001]
        if len(found) <= room:
            return found
    return [first, last]


# The legend


class _Entry(NamedTuple):
    """The name of a line of the chart, in lines of text; or what a hollow mark is."""

    x: float
    row: int
    line: Optional[int]
    name: str
    said: List[str]


def _legend(swept: Sweep, width: int) -> Tuple[List[_Entry], int]:
    """Where the name of each line stands, and how many lines of text there are."""
    entries: List[_Entry] = []
    x, row, rows = float(_MARGIN), 0, 0
    named: List[Tuple[Optional[int], str]] = list(enumerate(swept.names))
    if any(storm.totals.cut for line in swept.lines for storm in line):
        named.append((None, "the storm was cut"))
    for index, name in named:
        said = headed(name, width - 2 * _MARGIN - 44)
        wide = 44 + max(map(plain_width_of, said)) + 16
        if x > _MARGIN and x + wide - 16 > width - _MARGIN:
            x, row = float(_MARGIN), rows
        entries.append(_Entry(x, row, index, name, said))
        x += wide
        rows = max(rows, row + len(said))
    return entries, rows


def _draw_legend(picture: Picture, y: float, entries: List[_Entry], paints: Sequence[int]) -> None:
    for x, row, index, name, said in entries:
        at = y + LINE * row
        if index is not None:
            picture.path(f"M{x:.1f} {at - 4:.1f}h36", f"line{paints[index]}")
        _draw_dot(picture, x + 18, at - 4, "dot" if index is None else f"dot{paints[index]}", index is None)
        picture.texts(x + 42, at, said, "soft", name)
