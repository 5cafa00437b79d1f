#!/usr/bin/env python3
"""The lists that are made from the first lines of files.

tests/lists.py tests    prints each file of tests with what it tests
tests/lists.py crates   prints each crate of the engine, with what it says of itself and what its definitions are of
tests/lists.py --check  compares docs/reports/crates.md with that, and fails where a file has no first line
tests/lists.py --write  writes docs/reports/crates.md
"""

from __future__ import annotations

import ast
import pathlib
import re
import sys

TOP = pathlib.Path(__file__).resolve().parent.parent
PAGE = TOP / "docs/reports/crates.md"
NO_LIBRARY = re.compile(r"_tests$|^(example|check|bench)(s?_|s?$)")

TESTS_HEAD = """# Tests

Each file of tests, with what it tests: its first lines. `bin/test --list` prints this page.
"""

CRATES_HEAD = """# Crates

What each crate of the engine proves: the head of its library, its laws, and its definitions, which its contracts cite.
`tests/lists.py --write` makes this page from the sources; [PROOFS.md](../PROOFS.md) says what follows for those who use
Hikebox. Tests, examples and benchmarks are left out.
"""

# The folders of tests that are no crates, and the files in each.
FOLDERS = {
    "Programs, pages and packages": ["tests/*.sh", "tests/*.py"],
    "The library for C": ["tests/*.c", "tests/*.cc"],
    "The Python package": ["python/tests/test_*.py"],
    "The Rust crate": ["rust/tests/*.rs"],
}


class NoFirstLine(Exception):
    """A file that does not say what it is for."""


def joined(lines: list[str]) -> str:
    """The first paragraph of these lines, as one line; a line that stands further in ends it."""
    paragraph: list[str] = []
    for line in lines:
        if not line.strip() or (paragraph and line.startswith("   ")):
            break
        paragraph.append(line.strip())
    return " ".join(paragraph)


def comment(text: str, mark: str) -> str:
    """The first paragraph of the comment that a file begins with, after a line for the shell."""
    lines = [line for line in text.splitlines() if not line.startswith(("#!/", "# shellcheck"))]
    found: list[str] = []
    for line in lines:
        if not line.startswith(mark):
            break
        found.append(line.removeprefix(mark).removeprefix(" "))
    return joined(found)


def first_lines(path: pathlib.Path) -> str:
    """What a file says first of itself."""
    text = path.read_text(encoding="utf-8")
    if path.suffix == ".py":
        said = joined((ast.get_docstring(ast.parse(text)) or "").splitlines())
    elif path.suffix == ".sh":
        said = comment(text, "#")
    elif path.suffix in (".c", ".cc") and text.startswith("/*"):
        said = joined([line.removeprefix(" *").removeprefix(" ") for line in text.splitlines()[1:]])
    elif path.suffix in (".c", ".cc"):
        said = comment(text, "//")
    elif path.suffix == ".antt":
        said = comment(text, "--")
    else:
        said = comment(text, "//!")
    if not said:
        raise NoFirstLine(f"{path.relative_to(TOP)} has no first line that says what it is for")
    return said


def crates() -> list[tuple[str, list[str]]]:
    """The parts of crates.txt, with the crates of each, lowest first."""
    parts: list[tuple[str, list[str]]] = []
    for block in (TOP / "crates.txt").read_text().split("\n\n")[1:]:
        heading, *lines = block.strip().splitlines()
        names = [re.split(r"[ :]", line)[0] for line in lines if not line.startswith("#")]
        parts.append((heading.removeprefix("# ").partition(":")[0], names))
    return parts


def tests_of(crate: str) -> list[str]:
    """A row for each file of tests of a crate: its first line, or the names of its tests."""
    rows = []
    for path in sorted((TOP / "crates" / crate / "src").rglob("*.rt")):
        text = path.read_text(encoding="utf-8")
        names = re.findall(r"#\[test\]\s*(?:#\[.*\]\s*)*(?:pub )?fn (\w+)", text)
        if names:
            said = comment(text, "//!") if "tests" in path.parts or path.stem == "tests" else ""
            said = said or ", ".join(name.replace("_", " ") for name in names) + "."
            rows.append(f"- `{path.relative_to(TOP / 'crates' / crate / 'src')}`: {said}")
    return rows


def laws_of(crate: pathlib.Path) -> list[str]:
    """A row for each law of a crate: a function that does nothing, and what is said above it."""
    path = crate / "src/laws.rt"
    text = path.read_text(encoding="utf-8") if path.exists() else ""
    laws = re.findall(r"^((?:/// .*\n)+)pub fn (\w+)", text, re.M)
    return [f"- law `{name}`: {joined(re.sub('^/// ', '', said, flags=re.M).splitlines())}" for said, name in laws]


def list_of_tests() -> str:
    lines = [TESTS_HEAD]
    for heading, patterns in FOLDERS.items():
        paths = sorted(path for pattern in patterns for path in TOP.glob(pattern))
        lines += [f"## {heading}", "", *(f"- `{path.relative_to(TOP)}`: {first_lines(path)}" for path in paths), ""]
    lines += ["## The crates of the engine", ""]
    for _, names in crates():
        for crate in names:
            if rows := tests_of(crate):
                lines += [f"### {crate}", "", *rows, ""]
    return "\n".join(lines)


def list_of_crates() -> str:
    lines = [CRATES_HEAD]
    for heading, names in crates():
        told = [name for name in names if not NO_LIBRARY.search(name)]
        lines += [f"## {heading}", ""] if told else []
        for name in told:
            crate = TOP / "crates" / name
            (source,) = [path for path in (crate / "src/lib.rt", crate / "src/main.rt") if path.exists()]
            lines += [f"### {name}", "", first_lines(source), ""]
            rows = laws_of(crate)
            for path in sorted((crate / "specs").rglob("*.antt")):
                if path.name != "Lib.antt":
                    rows.append(f"- `{path.relative_to(crate / 'specs').with_suffix('')}`: {first_lines(path)}")
            lines += [*rows, ""] if rows else []
    return "\n".join(lines)


def main() -> None:
    try:
        made = {"tests": list_of_tests(), "crates": list_of_crates()}
    except NoFirstLine as fault:
        sys.exit(f"tests/lists.py: {fault}")
    word = sys.argv[1] if len(sys.argv) == 2 else ""
    if word in made:
        print(made[word], end="")
    elif word == "--write":
        PAGE.write_text(made["crates"], encoding="utf-8")
    elif word != "--check":
        sys.exit(__doc__)
    elif PAGE.read_text(encoding="utf-8") != made["crates"]:
        sys.exit("tests/lists.py: docs/reports/crates.md is not what the crates say: run tests/lists.py --write")
    else:
        print(
            "tests/lists.py: each file of tests says what it tests, and docs/reports/crates.md has what the crates say"
        )


if __name__ == "__main__":
    main()
