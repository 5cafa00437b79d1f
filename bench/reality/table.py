"""The table of what was measured beside the storms, as Markdown."""

from __future__ import annotations

from typing import List, Optional, Sequence

from compare import Beside

#: (the columns of storms say the least and the most of ten seeds)
HEAD = """| Story | Limit | Succeeded | storms | Calls | storms | Most a second | storms | Back | storms |
|---|---|---|---|---|---|---|---|---|---|
"""


def table(rows: Sequence[Beside]) -> str:
    """The rows; what is farther apart than it should be is in bold."""
    return HEAD + "".join(f"| {' | '.join(_cells(row))} |\n" for row in rows)


def matrix(rows: Sequence[Beside]) -> str:
    """What succeeded in per cent, and in brackets the least and the most of the storms: a column for each story."""
    stories = [story for story in dict.fromkeys(row.play.story for row in rows) if "Retry-After" not in story]
    cells = {(row.play.limit, row.play.story): _share(row) for row in rows}
    head = f"| {' | '.join(['Limit', *stories])} |\n{'|---' * (1 + len(stories))}|\n"
    limits = dict.fromkeys(row.play.limit for row in rows)
    lines = ([limit, *(cells.get((limit, story), "") for story in stories)] for limit in limits)
    return head + "".join(f"| {' | '.join(line)} |\n" for line in lines)


def _share(row: Beside) -> str:
    least, most = (f"{each:.1f}" for each in row.spread("succeeded"))
    said = f"{row.play.figures.succeeded:.1f} ({least if least == most else f'{least}–{most}'})"
    return said if row.is_alike else f"**{said}**"


def _cells(row: Beside) -> List[str]:
    play = row.play
    calls, most = row.spread("calls"), row.spread("most")
    real = [play.story, play.limit, f"{play.figures.succeeded:.1f} %", f"{play.figures.calls:,}"]
    cells = [
        *real[:3],
        _range(*(f"{each:.1f}" for each in row.spread("succeeded"))),
        real[3],
        _range(f"{calls.least:,.0f}", f"{calls.most:,.0f}"),
        f"{play.figures.most:,}",
        _range(f"{most.least:,.0f}", f"{most.most:,.0f}"),
        _back(play.figures.recovered),
        _range(_back(row.recoveries[0]), _back(row.recoveries[-1])),
    ]
    return cells if row.is_alike else [cells[0], cells[1], *(f"**{cell}**" for cell in cells[2:6]), *cells[6:]]


def _range(least: str, most: str) -> str:
    return least if least == most else f"{least} to {most}"


def _back(second: Optional[int]) -> str:
    return "never" if second is None else f"{second} s"
