"""What the storms of a page come to, side by side."""

from __future__ import annotations

from typing import Any, Callable, Dict, List, Optional, Sequence, Tuple

from ..limits.terms import LimitTerms
from ..storms.parameters import plural
from ..storms.storm import PopulationReport, Storm
from ..storms.texts import is_judged, recovery_mark, share_text, time_text

__all__ = ["totals_table"]

#: What stands in a row, by the storm or a population of it; None where there is no such thing.
_Cell = Callable[[Any], Optional[str]]
#: The name of a row, and its cells.
_Row = List[Optional[str]]
#: A storm with a population of it.
_Part = Tuple[Storm, PopulationReport]


def totals_table(storms: Sequence[Optional[Storm]]) -> List[Dict[str, Any]]:
    """The rows with a cell for each storm, in groups, of which the first has no head. A cell is None where the storm
    has no such thing, and a row that is so for all of them is left out."""
    groups = [("", _rows(_CELLS, storms))]
    for index in range(max([0, *(len(storm.populations) for storm in storms if storm is not None)])):
        parts = [_part(storm, index) for storm in storms]
        groups.append((_head(index, parts), _rows(_PARTS, parts)))
    return [{"head": head, "rows": rows} for head, rows in groups if rows]


def _rows(cells: Sequence[Tuple[str, _Cell]], whole: Sequence[Optional[Any]]) -> List[_Row]:
    rows: List[_Row] = [[name, *(None if each is None else cell(each) for each in whole)] for name, cell in cells]
    return [row for row in rows if any(cell is not None for cell in row[1:])]


def _part(storm: Optional[Storm], index: int) -> Optional[_Part]:
    return (storm, storm.populations[index]) if storm is not None and index < len(storm.populations) else None


def _head(index: int, parts: Sequence[Optional[_Part]]) -> str:
    share = next(report.share for _, report in filter(None, parts))
    return f"{'Clients beside' if index else 'Own clients'}, {round(100 * share)} % of the requests"


def _recovery(storm: Storm) -> Optional[str]:
    if storm.parameters.weather() and not is_judged(storm):
        return f"not shown: no window begins at {time_text(storm.parameters.over)} or later"
    return recovery_mark(storm)[1] or None


def _denied(is_first: bool) -> _Cell:
    """How many requests were denied: their first call by a limit of another system, too, and else a retry."""
    return lambda storm: (
        f"{storm.totals.denied:,}" if isinstance(storm.parameters.tickets, LimitTerms) == is_first else None
    )


def _most(storm: Storm) -> str:
    most = storm.totals.most_calls
    return f"{most:,} {'requests and retries' if storm.parameters.denies_first_calls else plural(most, 'call')}"


def _time(name: str) -> _Cell:
    def cell(storm: Storm) -> Optional[str]:
        moment = getattr(storm.totals, name)
        return None if moment is None else time_text(moment)

    return cell


def _tickets(storm: Storm) -> Optional[str]:
    return None if storm.parameters.tickets is None else f"{storm.totals.tickets:,}"


def _limited(part: _Part) -> Optional[str]:
    return None if part[0].parameters.tickets is None else "yes" if part[1].limited else "no"


_CELLS: Tuple[Tuple[str, _Cell], ...] = (
    ("succeeded", lambda storm: share_text(storm.totals)),
    ("recovery", _recovery),
    ("calls per request", lambda storm: f"{storm.totals.calls_per_request:.2f}"),
    ("calls", lambda storm: f"{storm.totals.calls:,}"),
    ("most in a window", _most),
    ("this window begins at", _time("most_from_ms")),
    ("requests", lambda storm: f"{storm.totals.requests:,}"),
    ("won", lambda storm: f"{storm.totals.won:,}"),
    ("lost", lambda storm: f"{storm.totals.lost:,}"),
    ("denied a retry", _denied(False)),
    ("denied", _denied(True)),
    ("left open", lambda storm: f"{storm.totals.open:,}"),
    ("tickets for retries", _tickets),
    ("half won within", _time("p50_ms")),
    ("99 in 100 won within", _time("p99_ms")),
    ("slowest won after", _time("slowest_ms")),
    ("cut before the call after", lambda storm: f"{storm.parameters.calls:,}" if storm.totals.cut else None),
)
_PARTS: Tuple[Tuple[str, _Cell], ...] = (
    ("limited", _limited),
    ("succeeded", lambda part: share_text(part[1].totals)),
    ("recovery", lambda part: recovery_mark(part[0], part[1].totals)[1] or None),
    ("calls per request", lambda part: f"{part[1].totals.calls_per_request:.2f}"),
    ("requests", lambda part: f"{part[1].totals.requests:,}"),
    ("won", lambda part: f"{part[1].totals.won:,}"),
)
