#!/usr/bin/python3
"""Prints a picture of the layers, made from crates.txt: a box for each of its parts, from the top down, with the parts
that it stands on in its last line; in a box each crate stands on crates of the rows below it, or of other boxes. Tests,
examples, checks and benchmarks are left out. With --check it fails where docs/ARCHITECTURE.md has another picture, and
where a crate's line in crates.txt does not name the very crates that its files name."""

import re
import sys
from pathlib import Path
from textwrap import wrap

TOP = Path(__file__).resolve().parent.parent
WIDTH = 100
LEFT_OUT = ("example_", "check", "bench")

Crates = dict[str, list[str]]


def parts_of(text: str) -> dict[str, Crates]:
    """The parts of crates.txt, lowest first: the crates of each, with those that they stand on."""
    parts = {}
    for block in text.split("\n\n"):
        heading, *lines = block.strip().splitlines()
        crates = {}
        for line in lines:
            words, colon, lower = line.partition(":")
            name = words.split()[0]
            if colon and name != "#" and not name.endswith("_tests") and not name.startswith(LEFT_OUT):
                crates[name] = lower.split()
        if crates:
            parts[heading.removeprefix("# ").partition(":")[0]] = crates
    return parts


def named_by(crate: Path) -> set[str]:
    """The words of a crate's files that may name another: in Rattle the first of a path, and there and in definitions
    and proofs the first after `Rattle.`. What stands in a comment names none."""
    found: set[str] = set()
    for folder in ("src", "specs", "proofs"):
        for path in (crate / folder).rglob("*"):
            if path.suffix in (".rt", ".antt"):
                code = re.sub(r"//.*|--.*", "", path.read_text())
                found.update(re.findall(r"\bRattle\.(\w+)", code))
                if path.suffix == ".rt":
                    found.update(re.findall(r"(?<![\w:])(\w+)::", code))
    return found


def faults_of(text: str) -> list[str]:
    """What is wrong with crates.txt: a crate stands on one that its files don't name, or they name one that it
    lacks."""
    lines = [line.partition(":") for line in text.splitlines() if line and not line.startswith("#")]
    lower = {words.split()[0]: names.split() for words, _, names in lines}
    known = lower.keys() | {other for names in lower.values() for other in names}
    faults = []
    for name, names in lower.items():
        found = named_by(TOP / "crates" / name) & (known - {name})
        faults += [f"{name} stands on {other}, which its files don't name" for other in names if other not in found]
        faults += [f"the files of {name} name {other}, on which it does not stand" for other in found - set(names)]
    return faults


def rows_of(crates: Crates) -> list[list[str]]:
    """The crates of a part in rows, highest first: each right above the highest that it stands on."""
    heights: dict[str, int] = {}
    for name, lower in crates.items():
        heights[name] = 1 + max((heights[below] for below in lower if below in heights), default=-1)
    return [
        [name for name in crates if heights[name] == height] for height in reversed(range(max(heights.values()) + 1))
    ]


def edge(left: str, words: str, right: str) -> str:
    return f"{left}─ {words} ".ljust(WIDTH - 1, "─") + right if words else left + "─" * (WIDTH - 2) + right


def picture_of(parts: dict[str, Crates]) -> str:
    """The boxes of all parts, highest first."""
    lines = [edge("┌", "Packages and programs", "┐")]
    lines.append("│ python/  rust/  C programs, by include/hikebox.h".ljust(WIDTH - 1) + "│")
    lines.append(edge("└", f"stands on: {list(parts)[-1]}", "┘"))
    for heading, crates in reversed(parts.items()):
        below = {name for lower in crates.values() for name in lower}
        stands_on = [other for other, names in parts.items() if other != heading and below & names.keys()]
        lines.append(edge("┌", heading, "┐"))
        for row in rows_of(crates):
            lines += (f"│ {line}".ljust(WIDTH - 1) + "│" for line in wrap("  ".join(row), WIDTH - 4))
        lines.append(edge("└", "stands on: " + ", ".join(stands_on) if stands_on else "", "┘"))
    return "\n".join(lines)


def main() -> None:
    text = (TOP / "crates.txt").read_text()
    picture = picture_of(parts_of(text))
    if sys.argv[1:] != ["--check"]:
        print(picture)
    elif f"```text\n{picture}\n```" not in (TOP / "docs/ARCHITECTURE.md").read_text():
        sys.exit("tests/layers.py: docs/ARCHITECTURE.md has another picture: paste what tests/layers.py prints")
    elif faults := faults_of(text):
        sys.exit("\n".join(f"tests/layers.py: crates.txt: {fault}" for fault in faults))
    else:
        print("tests/layers.py: the picture in docs/ARCHITECTURE.md is that of crates.txt, which names what files do")


if __name__ == "__main__":
    main()
