"""Which limit recovers from what: the table of docs/LIMITS.md, and what docs/BUDGETS.md says of shares, as storms."""

from __future__ import annotations

import re
import shlex
from typing import Any, Dict, List

import pytest
from conftest import TOP
from hikebox import Breaker, Policy, Quota, Storm, exponential, recurs, spaced, storm

POLICY = recurs(8) & exponential(0.1, 2).cap(10).jittered(0, 1)
STORIES: Dict[str, Dict[str, Any]] = {
    "Outage": {},
    "Brown-out": {"outage": None, "slow": (10, 20, 0.5)},
    "Dead replica": {"capacity": 500, "replicas": 2, "down": 1},
    "Surge": {"outage": None, "rates": [(10, 15, 2400)]},
    "Herd": {"rate": 10_000, "together": 10_000, "seconds": 1, "patience": 1, "queue": 500, "outage": None},
}


def quota_of(text: str) -> Quota:
    """A quota as a command line spells it."""
    reserve, share, period = text.split("/")
    return Quota(reserve=int(reserve), share=float(share[:-1]) / 100, per=float(period[:-1]))


def limit_of(cell: str) -> Any:
    """The limit that a row names."""
    if cell == "none":
        return None
    if cell.startswith("`--quota "):
        return quota_of(cell[len("`--quota ") : -1])
    if cell.endswith("open for 5 s"):
        return Breaker(5, spaced(5))
    return cell.strip("`")


def told(played: Storm, story: str) -> str:
    """A storm as a cell has it."""
    totals = played.totals
    share = f"{(2000 * totals.won + totals.requests) // (2 * totals.requests) / 10:.1f}"
    if story == "Herd":
        return share
    return f"{share}, {'never' if totals.recovered_ms is None else totals.recovered_ms // 1000}"


def rows() -> List[List[str]]:
    """The table of limits and stories, cell by cell."""
    page = (TOP / "docs" / "LIMITS.md").read_text()
    (table,) = re.findall(r"^\| Limit \| Outage .*\n\|[-|]+\|\n((?:\|.*\n)+)", page, flags=re.M)
    return [[cell.strip() for cell in line.strip("|").split("|")] for line in table.splitlines()]


@pytest.mark.parametrize("row", rows(), ids=[row[0].strip("`") for row in rows()])
def test_the_page_on_limits_has_what_each_does_in_each_story(row: List[str]) -> None:
    played = {story: storm(POLICY, limit=limit_of(row[0]), **how) for story, how in STORIES.items()}
    assert row[1:] == [told(each, story) for story, each in played.items()]


def test_the_page_on_budgets_says_which_share_recovers() -> None:
    recovers = {row[0]: ["never" not in cell for cell in row[1:5]] for row in rows()}
    assert recovers["`--quota 10/5%/60s`"] == recovers["`--quota 10/10%/60s`"] == [True] * 4
    assert recovers["`--quota 100/20%/10s`"] == [True, False, True, False]
    page = (TOP / "docs" / "BUDGETS.md").read_text()
    (command,) = re.findall(r"`hikebox (storm --scenario brown-out --quota 100/20%/10s '[^`]*')`", page)
    assert Policy.parse(shlex.split(command)[-1]) == POLICY


if __name__ == "__main__":
    for row in rows():
        cells = [told(storm(POLICY, limit=limit_of(row[0]), **how), story) for story, how in STORIES.items()]
        print(f"| {' | '.join([row[0], *cells])} |")
