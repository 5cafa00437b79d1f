#!/usr/bin/env python3
"""Counts the files that have a node: those that you write to add one, and those that bin/nodes makes.

    tests/nodes.py NAME..   lists the files of these nodes
    tests/nodes.py --check  compares what bin/nodes makes and the table in docs/ARCHITECTURE.md, and fails where a node
                            takes more files than before
    tests/nodes.py --write  writes the table

A file of the engine has a node if it names its variant, its builder or its name in JSON, outside comments and imports.
Tests of the engine are left out: which of them get a row depends on the node.
"""

import json
import pathlib
import re
import subprocess
import sys

TOP = pathlib.Path(__file__).resolve().parent.parent
PAGE = TOP / "docs/ARCHITECTURE.md"
NODES = {node["name"]: node for node in json.loads((TOP / "schemas/nodes.json").read_text())["nodes"]}
BEGIN, END = "<!-- tests/nodes.py writes this table. -->\n", "<!-- end -->\n"

#: A node of each kind, what it is, and the most files that you may have to write for one more like it.
SAMPLES = {
    "linear": ("a leaf that keeps how many events there were", 22),
    "windowed": ("a leaf that keeps more than that", 24),
    "cap": ("a node over one plan that keeps nothing", 23),
    "renew_idle": ("a node over one plan that keeps a moment", 29),
    "feed": ("a node over two plans", 32),
}
#: The files outside the engine that you write for each node; the builder stands in one of two files.
BUILDERS = {
    "leaf": "python/src/hikebox/policy/builders.py",
    "one": "python/src/hikebox/policy/policy.py",
    "two": "python/src/hikebox/policy/policy.py",
}
OUTSIDE = [
    "schemas/nodes.json",
    "rust/src/policy/schedule.rs",
    "python/tests/faults.py",
    "python/tests/reference.py",
    "python/tests/test_policy.py",
    "CHANGELOG.md",
]
#: What names some leaves and nodes over one plan, to step these sooner: one that it does not name is stepped by what
#: stands there for all others, so you need not write it there.
SOONER = "crates/sched_step_flat/src/advance.rt"
#: What names the leaves whose steps divide, which are stepped by a call: one that it does not name is stepped in place.
DIVIDES = "crates/sched_step_flat/specs/FlatStep.antt"
#: What a node's expressions give in Rust's tests is made by another program.
SPELLINGS = "rust/tests/spellings.rs"
#: What names the builders that are functions: those of leaves.
EXPORTS = "python/src/hikebox/__init__.py"


def kind_of(node):
    plans = sum(item["unit"] == "plan" for item in node["items"])
    return ("leaf", "one", "two")[plans]


def code_of(path):
    """A file of the engine without its comments and imports."""
    lines = path.read_text().splitlines()
    return "\n".join(line for line in lines if not re.match(r"\s*(use |ghost use |//|--)", line))


def engine_files():
    """The files of the crates of schedules, tests left out."""
    is_crate = re.compile(r"sched_(plan|step)\w*(?<!_tests)").fullmatch
    crates = sorted(path for path in (TOP / "crates").iterdir() if is_crate(path.name))
    folders = [crate / name for crate in crates for name in ("src", "specs", "proofs")]
    files = [path for folder in folders for path in folder.rglob("*") if path.suffix in (".rt", ".antt")]
    return {str(path.relative_to(TOP)): code_of(path) for path in files}


def made_files():
    listed = subprocess.run([TOP / "bin/nodes", "--files"], capture_output=True, text=True, check=True).stdout
    return listed.split()


def files_of(node, engine, made):
    """The files of a node that are written by hand, and those that are made."""
    variant = "".join(word.capitalize() for word in node["name"].split("_"))
    names = re.compile(rf"\b{variant}\b|\"{node['name']}\"|\bPlan::{node['name']}\b|\bfn {node['name']}\(")
    found = [name for name, code in engine.items() if names.search(code)]
    if kind_of(node) != "two":
        found = [name for name in found if name != SOONER]
    if kind_of(node) == "leaf":
        found = [name for name in found if name != DIVIDES]
    written = [BUILDERS[kind_of(node)], *OUTSIDE, *(name for name in found if name not in made)]
    outside = [name for name in made if "crates/" not in name and (name != EXPORTS or kind_of(node) == "leaf")]
    return sorted(written), sorted([SPELLINGS, *outside, *(name for name in made if name in found)])


def table(engine, made):
    """The table of the page, and what is wrong with the counts."""
    rows = "| A node like | Files that you write | of these in the engine | Files that are made |\n|---|---|---|---|\n"
    wrong = []
    for name, (what, most) in SAMPLES.items():
        written, others = files_of(NODES[name], engine, made)
        own = sum(file.startswith("crates/") for file in written)
        rows += f"| `{name}`, {what} | {len(written)} | {own} | {len(others)} |\n"
        if len(written) > most:
            wrong.append(f"{name}: expected at most {most} files written by hand, got {len(written)}")
    return rows, wrong


def faults(made, text):
    """Files that the lists here name, and the page does not; and files outside the engine that lack a node."""
    for file in [*OUTSIDE, *BUILDERS.values(), SPELLINGS, *(name for name in made if "crates/" not in name)]:
        if f"`{file}`" not in text:
            yield f"docs/ARCHITECTURE.md: expected `{file}` among the files of a node"
    for name in SAMPLES:
        for file in [*OUTSIDE, BUILDERS[kind_of(NODES[name])], SPELLINGS]:
            if file != "CHANGELOG.md" and not re.search(rf"\b{name}\b", (TOP / file).read_text()):
                yield f"{file}: expected the node {name} there"


def main():
    engine, made = engine_files(), made_files()
    if sys.argv[1:] not in (["--check"], ["--write"]):
        if not sys.argv[1:] or set(sys.argv[1:]) - NODES.keys():
            sys.exit(__doc__)
        for name in sys.argv[1:]:
            for what, files in zip(("written", "made"), files_of(NODES[name], engine, made)):
                print(f"{name}, {what}: {len(files)}", *files, sep="\n  ")
        return
    page = PAGE.read_text()
    at = page.index(BEGIN) + len(BEGIN)
    end = page.index(END, at)
    checked = subprocess.run([TOP / "bin/nodes", "--check"], capture_output=True, text=True)
    rows, wrong = table(engine, made)
    wrong += checked.stderr.splitlines()
    wrong += faults(made, page.partition("## Adding a node")[2].partition("\n## ")[0])
    if sys.argv[1] == "--write":
        PAGE.write_text(page[:at] + rows + page[end:])
    elif page[at:end] != rows:
        wrong.append("docs/ARCHITECTURE.md: the counts of a node's files are others: run tests/nodes.py --write")
    if wrong:
        sys.exit("\n".join(wrong))
    print(f"tests/nodes.py: {len(SAMPLES)} nodes by their files")


if __name__ == "__main__":
    main()
