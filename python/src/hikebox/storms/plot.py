"""A storm drawn by matplotlib, where that is installed."""

from __future__ import annotations

from typing import TYPE_CHECKING, Any, List

from .._svg import headed
from .parameters import Span

if TYPE_CHECKING:
    from .storm import Storm

__all__ = ["plot"]

#: (Colours by Okabe and Ito, as those of the pictures.)
_BEGUN = (("requests", "#0072b2", ""), ("retries", "#e69f00", "//"))


def plot(storm: Storm, ax: Any = None) -> Any:
    """The calls begun as areas, those that succeed as a line, and when the peer was down or slow. A figure of its own
    has a legend below it."""
    if ax is None:
        import matplotlib.pyplot as pyplot

        ax = pyplot.figure(figsize=(9, 4.5), constrained_layout=True).add_subplot()
        _draw(storm, ax)
        ax.legend(loc="upper center", bbox_to_anchor=(0.5, -0.14), ncol=3, frameon=False)
    else:
        _draw(storm, ax)
    return ax


def _draw(storm: Storm, ax: Any) -> None:
    window = storm.parameters.window
    edges = [row.from_ms / 1000 for row in storm.rows] + [(storm.rows[-1].from_ms + window) / 1000]
    floors = [0.0] * len(storm.rows)
    for name, colour, hatch in _BEGUN:
        tops = [low + more for low, more in zip(floors, _rates(storm, name))]
        style = {"facecolor": colour, "edgecolor": "#1a1a1a", "linewidth": 0.6, "hatch": hatch, "label": name}
        ax.fill_between(edges, _steps(floors), _steps(tops), step="post", **style)
        floors = tops
    succeeded = _steps(_rates(storm, "succeeded"))
    ax.step(edges, succeeded, where="post", color="#d55e00", linewidth=2, label="calls that succeed")
    _draw_peer(storm, ax, edges)
    ax.margins(x=0)
    ax.set_ylim(bottom=0)
    ax.set_xlabel("seconds since the first request")
    ax.set_ylabel("calls per second")
    ax.set_title("\n".join(headed(repr(storm.policy), 600)), fontsize="medium")


def _rates(storm: Storm, name: str) -> List[float]:
    return [getattr(row, name) * 1000 / storm.parameters.window for row in storm.rows]


def _steps(rates: List[float]) -> List[float]:
    """A rate for each edge: the last one holds up to the end."""
    return [*rates, *rates[-1:]]


def _draw_peer(storm: Storm, ax: Any, edges: List[float]) -> None:
    parameters = storm.parameters
    spans = [(parameters.outage, "0.8", "the peer is down")]
    turns = [0.0, edges[-1]]
    if parameters.slow is not None:
        spans.append((Span(*parameters.slow[:2]), "0.92", f"it works at {parameters.slow.percent} %"))
        turns = sorted({*turns, *(min(edges[-1], end / 1000) for end in parameters.slow[:2])})
    for span, shade, name in spans:
        if span[0] < span[1]:
            ax.axvspan(span[0] / 1000, span[1] / 1000, color=shade, zorder=0, label=name)
    can = [parameters.capacity_at(round(turn * 1000)) for turn in turns]
    ax.step(turns, can, where="post", color="#1a1a1a", linestyle="--", label="what the peer can do")
