"""The picture of an advice: for the best limit of each kind a bar in each story, with the share of the requests that
succeed."""

from __future__ import annotations

from typing import Optional, Sequence

from .._svg import LINE, MAX_WIDTH, MIN_WIDTH, Picture, headed
from ..errors import StormError, shown
from ..policy import Policy
from ..storms.parameters import Parameters
from ..storms.texts import brief_setting
from .rule import Outcome, best_of_kinds
from .texts import back_text, name_of, sentences, share_text
from .trials import Advised

__all__ = ["advice_picture"]

_MARGIN, _GAP, _BAR = 12, 14, 12
#: The least room for a bar and what stands above it.
_MIN_CELL = 165
#: Between two limits.
_APART = 10
_KEY = "Each bar has the share of the requests that succeed, and above it when the peer is back."


def advice_picture(
    found: Advised, base: Parameters, policies: Sequence[Policy], width: int = 760, title: Optional[str] = None
) -> str:
    """The picture as SVG so many units wide."""
    if not MIN_WIDTH <= width <= MAX_WIDTH:
        raise StormError("width", f"expected {MIN_WIDTH} to {MAX_WIDTH}, got {shown(width)}")
    room = width - 2 * _MARGIN
    heads = headed(title or (repr(policies[0]) if len(policies) == 1 else f"{len(policies)} policies"), room)
    told = [brief_setting(base), *sentences(found, policies), _KEY]
    said = [line for sentence in told for line in headed(sentence, room, 6)]
    places = best_of_kinds(found.trials)
    columns = min(len(found.stories), max(1, (room + _GAP) // (_MIN_CELL + _GAP)))
    tall = LINE + -(-len(found.stories) // columns) * (LINE + _BAR + 4) + _APART
    top = 8 + LINE * (len(heads) + len(said)) + _APART
    told += [_told(found, policies, at) for at in places]
    picture = Picture(width, top + tall * len(places) + 4, heads[0], " ".join(told))
    picture.texts(_MARGIN, 20, heads, "head")
    picture.texts(_MARGIN, 20 + LINE * len(heads), said, "soft")
    for row, at in enumerate(places):
        _draw_row(picture, found, at, name_of(found, policies, at), top + tall * row, columns)
    return picture.svg()


def _told(found: Advised, policies: Sequence[Policy], at: int) -> str:
    """The bars of a limit in words."""
    cells = [_cell(story.name, each) for story, each in zip(found.stories, found.trials[at].outcomes)]
    return f"{name_of(found, policies, at)}: {'; '.join(cells)}."


def _cell(name: str, outcome: Outcome) -> str:
    return f"{name} {share_text(outcome)}, {back_text(outcome)}"


def _draw_row(picture: Picture, found: Advised, at: int, name: str, top: float, columns: int) -> None:
    """The bars of one limit."""
    room = picture.width - 2 * _MARGIN
    wide = (room + _GAP) / columns - _GAP
    picture.texts(_MARGIN, top + 12, headed(name, room, 1), "head", name)
    for index, (story, outcome) in enumerate(zip(found.stories, found.trials[at].outcomes)):
        x = _MARGIN + (wide + _GAP) * (index % columns)
        y = top + LINE + (LINE + _BAR + 4) * (index // columns)
        picture.texts(x, y + 12, headed(_cell(story.name, outcome), wide, 1), "soft")
        won = wide * float(outcome.share)
        picture.box(x, y + LINE, won, _BAR, "won")
        picture.box(x + won, y + LINE, wide - won, _BAR, "failed")
