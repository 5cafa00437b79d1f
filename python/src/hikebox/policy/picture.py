"""The picture of plans: the calls of policies on an axis of time, and what jitter may do to them."""

from __future__ import annotations

from typing import Any, Callable, Iterable, List, NamedTuple, Optional, Tuple, Union

from .._svg import LINE, Picture, headed, plain_width_of, ticks, width_of
from .._time import Duration
from .policy import Policy
from .preview import Step

__all__ = ["plan_picture"]

#: So many calls are drawn at most.
_MAX_STEPS = 60
_LEFT, _ROW, _FOOT = 64, 22, 44
#: The least room at the right for what is done after each call, and its distance from the axis and the edge.
_RIGHT, _APART, _MARGIN = 136, 16, 4
#: Above the rows of a policy, beside the lines of its text.
_ABOVE = 24
#: What the band is, in the legend.
_BAND = "where jitter can put it"


class _Call(NamedTuple):
    """A call, by whose failure the policy waits."""

    begins: int
    #: The moments at which it begins by the least and by the most word, or None where one of them makes no such call.
    least: Optional[int]
    most: Optional[int]
    #: The step at its failure.
    step: Step

    @property
    def took(self) -> int:
        """How long it takes."""
        return self.step.at_ms - self.begins

    @property
    def is_jittered(self) -> bool:
        """Whether jitter moves it."""
        return self.least is not None and self.most is not None and self.least != self.most

    @property
    def last(self) -> int:
        """The latest moment that is drawn of it."""
        return max(self.step.at_ms, self.begins, self.most or 0)


class _Axis(NamedTuple):
    """The axis of time."""

    #: The marks, and their unit in milliseconds.
    marks: List[float]
    unit: int
    #: How wide it is, and how wide a millisecond is.
    wide: float
    scale: float


def plan_picture(
    *policies: Policy,
    steps: int = 10,
    start: Duration = 0,
    took: Duration = 0,
    input: Union[int, Iterable[int]] = 0,
    random: Optional[Callable[[], Callable[[], float]]] = None,
    width: int = 760,
    styled: bool = True,
) -> str:
    """The calls of policies, one below the other, as `preview` plays each with the same options, as SVG so many units
    wide. `random` makes the random numbers of one policy."""
    how: Any = {"start": start, "took": took, "input": input if isinstance(input, int) else list(input)}
    drawn = [_played(policy, min(steps, _MAX_STEPS), random and random(), how) for policy in policies]
    axis = _axis(drawn, width)
    heads = [headed(repr(policy), width - 24) for policy in policies]
    legend = _legend_lines(drawn, width)
    above = LINE * len(legend)
    height = above + sum(_ABOVE + LINE * len(head) + _ROW * len(calls) for head, calls in zip(heads, drawn)) + _FOOT
    title = "Calls of " + "; ".join(map(repr, policies))
    picture = Picture(width, height, title, ". ".join(map(_told, drawn)))
    for index, line in enumerate(legend):
        _draw_legend(picture, 18 + LINE * index, line)
    top = float(above)
    for policy, head, calls in zip(policies, heads, drawn):
        picture.texts(12, top + 22, head, "head", repr(policy))
        top += _ABOVE + LINE * len(head)
        _draw(picture, calls, axis, top)
        top += _ROW * len(calls)
    _draw_times(picture, axis, top)
    return picture.svg(styled)


def _played(policy: Policy, steps: int, random: Optional[Callable[[], float]], how: Any) -> List[_Call]:
    """The calls of a policy, with the moments at which jitter may put them."""
    words = (random, lambda: 0.0, lambda: 1 - 2**-32)
    return _calls(*(policy.preview(steps, random=word, **how) for word in words))


def _calls(middle: List[Step], least: List[Step], most: List[Step]) -> List[_Call]:
    first, low, high = (_begins(play) for play in (middle, least, most))
    return [
        _Call(begins, low[index] if index < len(low) else None, high[index] if index < len(high) else None, step)
        for index, (begins, step) in enumerate(zip(first, middle))
    ]


def _begins(play: List[Step]) -> List[int]:
    """The moment at which each call of a play begins."""
    return [step.at_ms for step in play[:1]] + [step.next_ms for step in play[:-1] if step.next_ms is not None]


def _told(calls: List[_Call]) -> str:
    """The picture in words."""
    said = [f"call {number} at {_span(call)}, {_after(call)}" for number, call in enumerate(calls, start=1)]
    return "; ".join(said) if said else "No call is drawn."


def _span(call: _Call) -> str:
    if call.least is None or call.most is None or not call.is_jittered:
        return _time(call.begins)
    return f"{_time(call.begins)} ({_time(min(call.least, call.most))} to {_time(max(call.least, call.most))})"


def _after(call: _Call) -> str:
    step = call.step
    return "then done" if step.next_ms is None else f"then waits {_time(step.next_ms - step.at_ms)}"


def _time(milliseconds: int) -> str:
    """A time as a person reads it.

    >>> _time(80), _time(1500), _time(86_400_000)
    ('80 ms', '1.5 s', '86,400 s')
    """
    return f"{milliseconds} ms" if milliseconds < 1000 else f"{milliseconds / 1000:,.12g} s"


def _axis(drawn: List[List[_Call]], width: int) -> _Axis:
    """The axis that has room beside what is done after each call."""
    calls = [call for each in drawn for call in each]
    said = max([plain_width_of(_done(call)) for call in calls], default=0.0)
    wide = width - _LEFT - max(_RIGHT, _APART + said + _MARGIN)
    last = max(1, *(call.last for call in calls)) if calls else 1
    unit = 1000 if last >= 2000 else 1
    room = max(90, 14 + plain_width_of(f"{last / unit:,.12g}"))
    marks = ticks(last / unit, max(1 if room > 90 else 2, int(wide // room)))
    return _Axis(marks, unit, wide, wide / (marks[-1] * unit))


def _done(call: _Call) -> str:
    """What is done after a call, in words."""
    return _after(call)[5:].capitalize()


def _draw(picture: Picture, calls: List[_Call], axis: _Axis, top: float) -> None:
    """The rows of a policy: its calls, and what it does after each."""
    marks, unit, wide, scale = axis
    bottom = top + _ROW * len(calls)
    right = _LEFT + wide + _APART
    picture.text(right, top - 6, "after it fails", "soft")
    for mark in marks:
        picture.path(f"M{_LEFT + mark * unit * scale:.1f} {top:.1f}V{bottom:.1f}", "line")
    for number, call in enumerate(calls, start=1):
        y = top + _ROW * (number - 0.5)
        picture.text(_LEFT - 12, y + 4, f"call {number}", "soft", "end")
        if call.is_jittered:
            early, late = sorted((call.least or 0, call.most or 0))
            picture.box(_LEFT + early * scale, y - 6, (late - early) * scale, 12, "band")
        if call.took:
            picture.box(_LEFT + call.begins * scale, y - 4, call.took * scale, 8, "requests")
        picture.dot(_LEFT + call.begins * scale, y)
        picture.text(right, y + 4, _done(call))


def _draw_times(picture: Picture, axis: _Axis, bottom: float) -> None:
    marks, unit, wide, scale = axis
    least = 0.0
    for mark in marks:
        said = f"{mark:,.12g}"
        half = plain_width_of(said) / 2
        # (a great number in a narrow picture stands right of the one before)
        x = max(least + half, _LEFT + mark * unit * scale)
        picture.text(x, bottom + 16, said, "soft", "middle")
        least = x + half + _MARGIN
    named = "time in seconds" if unit > 1 else "time in milliseconds"
    picture.text(_LEFT + wide / 2, bottom + 34, named, "soft", "middle")


def _legend_lines(drawn: List[List[_Call]], width: int) -> List[List[Tuple[str, str]]]:
    """The parts of the legend that are in the picture, in lines."""
    calls = [call for each in drawn for call in each]
    shown = [("dot", "a call begins")]
    took = sorted({call.took for call in calls if call.took})
    if took:
        times = _time(took[0]) if len(took) == 1 else f"{_time(took[0])} to {_time(took[-1])}"
        shown.append(("requests", f"it takes {times}"))
    if any(call.is_jittered for call in calls):
        shown.append(("band", _BAND))
    lines: List[List[Tuple[str, str]]] = [[]]
    for part in shown:
        if lines[-1] and sum(40 + width_of(name) for _, name in [*lines[-1], part]) > width:
            lines.append([])
        lines[-1].append(part)
    return lines


def _draw_legend(picture: Picture, y: float, line: List[Tuple[str, str]]) -> None:
    x = 12.0
    for kind, name in line:
        if kind == "dot":
            picture.dot(x + 6, y - 4)
        else:
            picture.box(x, y - 9, 22, 10, kind)
        gap = 18 if kind == "dot" else 28
        picture.text(x + gap, y, name, "soft")
        x += gap + width_of(name) + 10
