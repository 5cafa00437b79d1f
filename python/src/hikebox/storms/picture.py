"""The picture of storms. Each has a strip with its verdict, the requests that succeeded of those that came, and one
with its load, the calls begun as multiples of the peer's capacity. All storms share their scales."""

from __future__ import annotations

from typing import TYPE_CHECKING, List, Optional, Sequence, Tuple

from .._svg import MIN_WIDTH, LINE, MAX_WIDTH, Picture, plain_width_of
from ..errors import StormError, shown
from .heads import Heads, heads_of
from .parameters import tickets_text
from .strips import Axes, Strips, axes_of, verdict_of
from .texts import population_sentences, sentences, setting

if TYPE_CHECKING:
    from .storm import Storm

__all__ = ["storm_picture"]

#: The least width of a panel, the room between two, and the margin of the picture.
_MIN_PANEL, _GAP, _MARGIN = 330, 20, 12
#: Below the last panels.
_FOOT = 22

#: The kinds of paint, and what each stands for.
_LEGEND = (
    ("won", "succeeded"),
    ("failed", "failed"),
    ("band", "open at the end"),
    ("requests", "first calls"),
    ("retries", "retries"),
    ("bound", "capacity"),
)
#: Those of the calls that failed, of which the first one is above, too.
_DETAIL = (("failed", "failed, refused"), ("shed", "shed"), ("late", "timed out"))

_Legend = List[List[Tuple[float, str, str]]]


def storm_picture(
    storms: Sequence[Storm],
    *,
    names: Sequence[str] = (),
    width: int = 760,
    styled: bool = True,
    detail: bool = False,
    is_brief: bool = False,
    title: Optional[str] = None,
) -> str:
    """The storms side by side where they have room, as SVG so many units wide.

    `detail` adds a strip of the calls that failed, by their reasons; a brief picture has verdicts alone. `title` stands
    in the place of the policy that the storms share, and `names` in the place of what differs.
    """
    if not MIN_WIDTH <= width <= MAX_WIDTH:
        raise StormError("width", f"expected {MIN_WIDTH} to {MAX_WIDTH}, got {shown(width)}")
    columns = min(len(storms), max(1, (width - 2 * _MARGIN + _GAP) // (_MIN_PANEL + _GAP)))
    wide = (width - 2 * _MARGIN + _GAP) / columns - _GAP
    heads = heads_of(storms, title, names, width - 2 * _MARGIN, wide)
    if is_brief:
        heads = heads._replace(setting=[])
    # (a page that has the policies in view needs no more than a line of their names)
    axes = axes_of(storms, wide, 0 if is_brief else 1 + detail, 3 if styled else 1)
    legend = _legend_lines(storms, width, axes)
    top = 8 + LINE * (len(heads.shared) + len(heads.setting) + len(legend))
    tall = heads.tall + axes.tall
    height = top + tall * -(-len(storms) // columns) + _FOOT
    picture = Picture(width, int(height), heads.title, " ".join(_told(storm) for storm in storms))
    _draw_shared(picture, heads, legend)
    for index, storm in enumerate(storms):
        left = _MARGIN + (wide + _GAP) * (index % columns)
        _draw_panel(picture, storm, (heads, index), axes, (left, top + tall * (index // columns)))
    picture.text(width / 2, height - 7, "seconds since the first request", "soft", "middle")
    return picture.svg(styled)


def _told(storm: Storm) -> str:
    """A storm in words, for who can't see it."""
    tickets = tickets_text(storm.parameters.tickets)
    told = [*sentences(storm), *population_sentences(storm)]
    return f"{storm.policy!r} under {tickets}: {setting(storm.parameters)}. {'. '.join(told)}."


def _draw_shared(picture: Picture, heads: Heads, legend: _Legend) -> None:
    """What holds for all panels."""
    picture.texts(_MARGIN, 20, heads.shared, "head", heads.whole)
    picture.texts(_MARGIN, 20 + LINE * len(heads.shared), heads.setting, "soft")
    above = 20 + LINE * (len(heads.shared) + len(heads.setting))
    for index, line in enumerate(legend):
        for x, kind, name in line:
            _draw_key(picture, x, above + LINE * index, kind)
            picture.text(x + 28, above + LINE * index, name, "soft")


def _draw_panel(
    picture: Picture, storm: Storm, head: Tuple[Heads, int], axes: Axes, corner: Tuple[float, float]
) -> None:
    """A storm: its title with the share that succeeded at the right, and its strips."""
    (heads, index), (left, top) = head, corner
    titles, share = heads.panels[index]
    picture.texts(left, top + 18, titles, "head", heads.names[index])
    picture.text(left + axes.wide, top + 18 + LINE * (heads.lines - 1), share, "number", "end")
    Strips(picture, storm, axes, left).draw(top + heads.tall)


# The legend


def _legend_lines(storms: Sequence[Storm], width: int, axes: Axes) -> _Legend:
    """Where each part of the legend stands in its line."""
    spans = sorted({span for storm in storms for span in storm.parameters.weather()})
    shades = [(kind, f"{name} {begins / 1000:.12g}–{ends / 1000:.12g} s") for begins, ends, name, kind in spans]
    lines: _Legend = [[]]
    x = float(_MARGIN)
    for kind, name in [*_present(storms, axes), *shades]:
        wide = 28 + plain_width_of(name) + 14
        if x + wide - 14 > width and lines[-1]:
            lines.append([])
            x = float(_MARGIN)
        lines[-1].append((x, kind, name))
        x += wide
    return lines


def _present(storms: Sequence[Storm], axes: Axes) -> List[Tuple[str, str]]:
    """The parts of the legend that are in a picture on these scales."""
    told = [(storm, each) for storm in storms for each in storm.populations or [storm]]
    absent = set() if axes.below else {"requests", "retries", "bound"}
    if not any(row.retries for storm in storms for row in storm.rows):
        absent.add("retries")
    has_failed = [
        each.totals.won < each.totals.requests and verdict_of(storm, each, axes).has_failed for storm, each in told
    ]
    if axes.below > 1 or not any(has_failed):
        absent.add("failed")
    left = [each.totals for _, each in told if each.totals.open]
    if not left:
        absent.add("band")
    legend = dict(_LEGEND)
    # (a window does not tell them apart)
    if not axes.is_sum and any(totals.lost or totals.denied for totals in left):
        legend["band"] = "failed or open at the end"
    if any(storm.parameters.denies_first_calls for storm in storms):
        legend["requests"] = "requests"
    found = [(kind, name) for kind, name in legend.items() if kind not in absent]
    return found + list(_DETAIL if axes.below > 1 else ())


def _draw_key(picture: Picture, x: float, y: float, kind: str) -> None:
    if kind == "bound":
        picture.path(f"M{x:.1f} {y - 4:.1f}h22", kind)
    else:
        picture.box(x, y - 9, 22, 10, kind)
