#!/usr/bin/env python3
"""The promises that the wrong bodies break, as a list: those in crates/*/must-fail/, and those of the ledger, in
crates/*/edits/.

The first line of each edit says which promise it breaks, with the group that the promise is of, as in
`# limit: A plan is at most 32 nodes deep, and a deeper one is refused.`

    tests/edits.py          prints the list
    tests/edits.py --check  compares it with docs/reports/wrong-bodies.md, and checks that every edit has
                            such a line and can be applied, and that the ledger has a line for each of its own;
                            it fails with a line for each fault
    tests/edits.py --write  writes docs/reports/wrong-bodies.md
"""

import argparse
import difflib
import pathlib
import re
import sys
from dataclasses import dataclass

TOP = pathlib.Path(__file__).resolve().parent.parent
PAGE = TOP / "docs" / "reports" / "wrong-bodies.md"
LEDGER = TOP / "tests" / "edits.txt"
MAX_TRIED = 70

HEAD = """# Wrong bodies

Every wrong body that the prover must refuse, by the promise that it breaks. `rt ci` tries those in **bold** each time;
the others are in the ledger. `tests/edits.py --write` makes this page from the first lines of the edits;
[TESTING.md](../TESTING.md#wrong-bodies) says what they are for, and what the ledger is worth.
"""

# The groups of promises, and the heading of each in the list.
GROUPS = {
    "headline": "What the headline and each task promise",
    "limit": "Limits",
    "call": "Calls",
    "node": "Nodes",
    "storm": "Storms",
    "refusal": "Refusals",
    "border": "The border to C",
}


class BadEdit(Exception):
    """An edit that does not say which promise it breaks, or that cannot be applied."""


@dataclass(frozen=True)
class Edit:
    """A wrong body, the promise that it breaks, and the group of that promise."""

    crate: str
    name: str
    group: str
    promise: str
    is_tried: bool

    def row(self) -> str:
        """The line of the list that stands for it."""
        name = f"**`{self.name}`**" if self.is_tried else f"`{self.name}`"
        return f"- {self.promise} (`{self.crate}`, {name})"


def promise_of(text: str) -> tuple[str, str]:
    """The group and the promise that the first line of an edit names."""
    found = re.match(r"# (\w+): (\S.*\.)\n", text)
    if found is None or found[1] not in GROUPS:
        raise BadEdit(f"its first line is not '# GROUP: PROMISE.', with one of the groups {', '.join(GROUPS)}")
    return found[1], found[2]


def apply(text: str, crate: pathlib.Path) -> None:
    """Makes the replacements that an edit asks for, each once, on copies of the texts of its crate."""
    texts: dict[str, str] = {}
    file = old = None
    replaced = 0
    for line in text.splitlines():
        if line.startswith("file: "):
            file = line.removeprefix("file: ").strip()
            texts.setdefault(file, (crate / file).read_text(encoding="utf-8"))
        elif line.startswith("old: "):
            old = line.removeprefix("old: ")
        elif line.startswith("new:"):
            if file is None or old is None:
                raise BadEdit("a 'new:' line stands before any 'file:' or 'old:' line")
            count = texts[file].count(old)
            if count != 1:
                raise BadEdit(f"its text {old.strip()!r} stands {count} times in {file}, and not once")
            texts[file] = texts[file].replace(old, line.removeprefix("new:").removeprefix(" "))
            old = None
            replaced += 1
        elif not line.startswith("# "):
            raise BadEdit(f"it has a line that is not read: {line.strip()!r}")
    if replaced == 0:
        raise BadEdit("it replaces nothing")


def layers() -> dict[str, int]:
    """The place of each crate in crates.txt, where each stands on lines above its own."""
    lines = (TOP / "crates.txt").read_text(encoding="utf-8").splitlines()
    names = [re.split(r"[ :]", line)[0] for line in lines if line and not line.startswith("#")]
    return {name: place for place, name in enumerate(names)}


def read_edits() -> tuple[list[Edit], list[str]]:
    """All edits, those of the lowest crates first, and what is wrong with those that are bad."""
    edits: list[Edit] = []
    faults: list[str] = []
    places = layers()
    paths = [path for folder in ("must-fail", "edits") for path in TOP.glob(f"crates/*/{folder}/*.edit")]
    for path in sorted(paths, key=lambda path: (places.get(path.parent.parent.name, len(places)), path.name)):
        crate = path.parent.parent
        text = path.read_text(encoding="utf-8")
        try:
            group, promise = promise_of(text)
            apply(text, crate)
        except (BadEdit, OSError) as fault:
            faults.append(f"{path.relative_to(TOP)}: {fault}")
        else:
            edits.append(Edit(crate.name, path.stem, group, promise, path.parent.name == "must-fail"))
    return edits, faults


def listed(edits: list[Edit]) -> str:
    """The list, group by group."""
    lines: list[str] = []
    for group, heading in GROUPS.items():
        rows = [edit.row() for edit in edits if edit.group == group]
        lines += [f"## {heading}", "", *rows, ""]
    return "\n".join(lines).strip() + "\n"


def page_of(edits: list[Edit]) -> str:
    """The whole page."""
    return f"{HEAD}\n{listed(edits)}"


def faults_of(edits: list[Edit]) -> list[str]:
    """What is wrong with all edits together, and with the page."""
    faults: list[str] = []
    tried = sum(edit.is_tried for edit in edits)
    if tried > MAX_TRIED:
        faults.append(f"expected at most {MAX_TRIED} edits in must-fail/, got {tried}")
    has = {line.split()[0] for line in LEDGER.read_text(encoding="utf-8").splitlines() if line[0] != "#"}
    wants = {f"{edit.crate}/{edit.name}" for edit in edits if not edit.is_tried}
    faults += [f"the ledger lacks {name}: bin/edits tries it" for name in sorted(wants - has)]
    faults += [f"the ledger has {name}, which is no edit: bin/edits takes it out" for name in sorted(has - wants)]
    first: dict[str, Edit] = {}
    for edit in edits:
        other = first.setdefault(edit.promise, edit)
        if other is not edit:
            faults.append(f"{edit.crate}/{edit.name} breaks the promise of {other.crate}/{other.name}: one is enough")
    expected, found = page_of(edits).splitlines(), PAGE.read_text(encoding="utf-8").splitlines()
    faults += difflib.unified_diff(found, expected, str(PAGE.relative_to(TOP)), "tests/edits.py", lineterm="", n=0)
    return faults


def main() -> int:
    parser = argparse.ArgumentParser(description="Prints the promises that the wrong bodies break, as a list.")
    parser.add_argument("--check", action="store_true", help="compare the list with the page")
    parser.add_argument("--write", action="store_true", help="write the page")
    asked = parser.parse_args()
    edits, faults = read_edits()
    if asked.write:
        PAGE.write_text(page_of(edits), encoding="utf-8")
    elif asked.check:
        faults += faults_of(edits)
    else:
        print(listed(edits), end="")
    for fault in faults:
        print(f"tests/edits.py: {fault}", file=sys.stderr)
    if asked.check and not faults:
        print(f"tests/edits.py: {len(edits)} edits, each with its promise")
    return 1 if faults else 0


if __name__ == "__main__":
    sys.exit(main())
