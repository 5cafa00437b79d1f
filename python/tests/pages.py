"""The tables of pages that say what replaces what, for tests that run both sides of a row."""

from __future__ import annotations

import re
from typing import List, Tuple, Type

from conftest import TOP


def rows(page: str, theirs: str, ours: str) -> List[Tuple[str, str]]:
    """The code at the beginning of both cells of each row of a page, where the cells match these patterns."""
    found = []
    for line in (TOP / "docs" / page).read_text().replace("\\|", "¦").splitlines():
        cells = [cell.strip().replace("¦", "|") for cell in line.strip("|").split(" | ")]
        if len(cells) == 2 and re.match(f"`({theirs})", cells[0]) and re.match(f"`({ours})", cells[1]):
            found.append((cells[0].split("`")[1], cells[1].split("`")[1]))
    return found


def runs_of(retried: object, runs: List[int], errors: Tuple[Type[BaseException], ...]) -> int:
    """How many attempts a call makes, each of which counts itself."""
    runs.clear()
    try:
        assert callable(retried)
        retried()
    except errors:
        pass
    return len(runs)
