"""The picture of a log: its requests a second, and the paces at which they are played."""

from __future__ import annotations

from typing import Counter as Counts, List, Sequence, Tuple

from .._svg import LINE, Picture, number_text, plain_width_of, ticks, width_of
from .paces import Paces
from .texts import moment_text

__all__ = ["log_picture"]

#: The height of the curve, of the line of text above it and of the numbers below it.
_TALL, _SAID, _TIMES = 48, 20, 20
#: The least room for the numbers at the left, and that at the right.
_LEFT, _RIGHT = 48, 18
#: An axis of so many seconds has another unit: its name, and how many seconds it is.
_UNITS = ((3 * 86_400, "days", 86_400), (2 * 3600, "hours", 3600), (0, "seconds", 1))
#: The kinds of paint, and what each stands for.
_LEGEND = (("requests", "requests of the log"), ("mark", "as they are played"))

#: From which second to which one a rate is.
_Step = Tuple[float, float, float]


def log_picture(requests: Counts[int], first: int, paces: Paces, width: int) -> str:
    """The requests of each second of a log, of which the part from the second `first` on is played, as SVG so many
    units wide, for a page that has the style."""
    return _Drawing(requests, first, paces, width).drawn()


class _Drawing:
    """What stands where."""

    def __init__(self, requests: Counts[int], first: int, paces: Paces, width: int) -> None:
        begins = min(requests)
        self.seconds = max(max(requests), first + paces.seconds - 1) - begins + 1
        self.part = (first - begins, first - begins + paces.seconds)
        self.curve = _means(requests, begins, self.seconds, max(1, (width - _LEFT - _RIGHT) // 2))
        self.played = _played(self.part[0], paces)
        self.most = max(rate for _, _, rate in [*self.curve, *self.played])
        self.left = max(float(_LEFT), 18 + width_of(number_text(self.most)))
        self.wide = width - _RIGHT - self.left
        unit, self.unit = next((name, size) for least, name, size in _UNITS if self.seconds >= least)
        self.legend = _legend_of(f"{unit} since {moment_text(begins)} UTC", width)
        self.bottom = 8 + LINE * len(self.legend) + _SAID + _TALL
        most = number_text(max(rate for _, _, rate in self.curve))
        told = f"At most {most} requests a second, played as {paces.rate:,}."
        self.picture = Picture(width, self.bottom + _TIMES, "Requests of the log", told)

    def drawn(self) -> str:
        picture, left, bottom = self.picture, self.left, self.bottom
        begins, ends = map(self._x, self.part)
        if ends - begins < self.wide:
            picture.box(begins, bottom - _TALL, ends - begins, _TALL, "shade")
        for number, line in enumerate(self.legend):
            self._draw_legend(8 + LINE * number, line)
        picture.text(left, bottom - _TALL - 5, "requests/s", "soft")
        for mark, kind in ((0.0, "axis"), (self.most, "line")):
            picture.path(f"M{left:.1f} {self._y(mark):.1f}H{left + self.wide:.1f}", kind)
            picture.text(left - 6, self._y(mark) + 4, number_text(mark), "soft", "end")
        picture.path(f"M{left:.1f} {bottom}{self._steps(self.curve)}V{bottom}Z", "requests")
        picture.path(f"M{begins:.1f} {self._y(self.played[0][2]):.1f}{self._steps(self.played)}", "mark")
        for mark in ticks(self.seconds / self.unit, max(2, int(self.wide // 60))):
            if mark * self.unit <= self.seconds:
                picture.text(self._x(mark * self.unit), bottom + 14, number_text(mark), "soft", "middle")
        return picture.svg(styled=False)

    def _x(self, second: float) -> float:
        return self.left + self.wide * second / self.seconds

    def _y(self, rate: float) -> float:
        return self.bottom - _TALL * rate / self.most

    def _steps(self, steps: Sequence[_Step]) -> str:
        return "".join(f"V{self._y(rate):.1f}H{self._x(ends):.1f}" for _, ends, rate in steps)

    def _draw_legend(self, top: float, line: List[Tuple[str, str]]) -> None:
        x = 12.0
        for kind, words in line:
            if kind == "requests":
                self.picture.box(x, top, 22, 10, kind)
            elif kind == "mark":
                self.picture.path(f"M{x:.1f} {top + 5:.1f}h22", kind)
            self.picture.text(x + 28 if kind else x, top + 9, words, "soft")
            x += _room_of(kind, words)


def _room_of(kind: str, words: str) -> float:
    """How wide a part of the legend is, with what lies between it and the next one."""
    return plain_width_of(words) + (28 if kind else 0) + 18


def _legend_of(since: str, width: int) -> List[List[Tuple[str, str]]]:
    """The parts of the legend in lines, each with its kind of paint; the last one says what the axis counts."""
    lines: List[List[Tuple[str, str]]] = [[]]
    for part in [*_LEGEND, ("", since)]:
        if lines[-1] and 12 + sum(_room_of(*each) for each in [*lines[-1], part]) > width:
            lines.append([])
        lines[-1].append(part)
    return lines


def _means(requests: Counts[int], begins: int, seconds: int, most: int) -> List[_Step]:
    """The mean rates of so many steps at most."""
    grain = -(-seconds // most)
    sums = [0] * -(-seconds // grain)
    for second, count in requests.items():
        sums[(second - begins) // grain] += count
    ends = [min(seconds, grain * (index + 1)) for index in range(len(sums))]
    return [(grain * index, end, sums[index] / (end - grain * index)) for index, end in enumerate(ends)]


def _played(begins: int, paces: Paces) -> List[_Step]:
    """The paces, one after another."""
    steps: List[_Step] = []
    last = 0
    for span in paces.rates:
        steps += [(begins + last / 1000, begins + span.begins / 1000, paces.rate)] * (last < span.begins)
        steps.append((begins + span.begins / 1000, begins + span.ends / 1000, span.rate))
        last = span.ends
    rest = (begins + last / 1000, float(begins + paces.seconds), float(paces.rate))
    return [*steps, rest] if last < 1000 * paces.seconds else steps
