#!/usr/bin/env python3
"""The figures of README.md: its sizes are those of the files in dist/, its times those of docs/BENCHMARKS.md."""

import pathlib
import re
import sys

TOP = pathlib.Path(__file__).resolve().parent.parent
BENCHMARKS = (TOP / "docs/BENCHMARKS.md").read_text()


def cells(label):
    """The cells of the row of this name, after the name."""
    found = re.findall(rf"^\| {re.escape(label)} \| (.*) \|$", BENCHMARKS, re.M)
    if len(found) != 1:
        sys.exit(f"tests/figures.py: expected one row {label!r} in docs/BENCHMARKS.md, got {len(found)}")
    return [cell.strip(" |") for cell in found[0].split(" | ")]


def number(cell):
    return cell.split()[0]


def third(cell):
    """The nanoseconds of one of three failures."""
    return round(float(number(cell)) / 3)


def megabytes(pattern):
    (path,) = TOP.glob(f"dist/{pattern}")
    return f"{path.stat().st_size / 1e6:.1f} MB"


def figures():
    """What README.md has to say."""
    once, attempt = cells("a call that succeeds at once"), cells("an attempt of ten failures and a success")
    success, failures = cells("a call that succeeds"), cells("three failures and a success")
    yield f"{number(once[0])} and {attempt[0]} in Python, {number(success[0])} and {third(failures[0])} ns in Rust"
    yield f"| {number(once[1])} and {attempt[1]} | {number(success[2])} and {third(failures[2])} ns |"
    yield f"a wheel of {megabytes('*linux*.whl')} with no dependency, a static library of {megabytes('libhikebox.a')}"
    yield f"{cells('the import, with byte code at hand')[0]} for the import in Python"
    yield f"{cells('a draw of a `Budget`')[0]} for a draw of a budget"


def main():
    readme = (TOP / "README.md").read_text()
    wanted = list(figures())
    wrong = [f"README.md: expected {each!r}" for each in wanted if each not in readme]
    if wrong:
        sys.exit("\n".join(f"tests/figures.py: {each}" for each in wrong))
    print(f"tests/figures.py: {len(wanted)} figures of README.md are those measured")


if __name__ == "__main__":
    main()
