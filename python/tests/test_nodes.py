"""The table of nodes, schemas/nodes.json: what is made of it, and what is checked against it."""

from __future__ import annotations

import json
import random
import re
import runpy
import shutil
import subprocess
import sys
from pathlib import Path
from types import FunctionType
from typing import Any, Dict, Set

import pytest
from conftest import TOP, python_environment

import hikebox
from hikebox import Policy
from hikebox.policy import builders
from hikebox.policy.nodes import NODES

RANDOM = runpy.run_path(str(TOP / "tests" / "random_policies.py"))
#: The rows, as Python has them too.
TABLE = json.loads((TOP / "schemas" / "nodes.json").read_text())["nodes"]

#: Other nodes, which the engine does not know: a leaf, and a node over one policy.
LEAF = {
    "name": "brief_one",
    "items": [{"letter": "D", "field": "delay", "unit": "ms", "min": 7, "max": 9}],
    "python": "brief_one({D})",
    "rust": "Schedule::brief_one({D})",
    "zio": None,
    "does": "waits briefly",
    "defined": ["brief_one d", "n - 1", "go on at now + d"],
}
ANOTHER = {
    "name": "pause",
    "group": "delays",
    "items": [
        {"letter": "LANE", "field": "lane", "unit": "lane", "min": 0, "max": 3},
        {"letter": "D", "field": "delay", "unit": "ms", "min": 7, "max": 9},
        {"letter": "KIND", "field": "kind", "unit": "word", "words": ["long_one", "short_one"]},
        {"letter": "A", "unit": "plan"},
    ],
    "python": '{A}.paused({D}, "{KIND}"{LANE:option})',
    "rust": "{A}.pause({LANE}, {D}, Kind::{KIND:camel})",
    "zio": None,
    "does": "A, but later",
    "reads": "word",
    "defined": ["pause lane d kind A", "A's answer, but later"],
}
#: Rows that bin/nodes makes of both, by the definitions of the nodes that are like them.
ROWS = {
    "docs/DESIGN.md": ["| brief_one d | n - 1 | go on at now + d |", "| pause lane d kind A | A's answer, but later |"],
    "crates/sched_plan/specs/Schedule.antt": [
        "leaf_in_range (BriefOne delay) = nat_le 7 delay && nat_le delay 9",
        "one_in_range (Pause lane delay kind) = nat_le lane 3 && (nat_le 7 delay && nat_le delay 9)",
        "use Rattle.sched_plan.specs.declared.leaves.Leaf.TheVariants.{Elapsed, Identity, Unfold, Lone, BriefOne}",
    ],
    "crates/sched_plan/specs/ScheduleCode.antt": [
        "leaf_code (BriefOne delay) = tagged 14 delay 0 0 0",
        "one_code (Pause lane delay kind) = tagged 14 lane delay (kind_code kind) 0",
    ],
    "crates/sched_plan_json/specs/Nodes.antt": [
        '∷ (codes "brief_one", a_number BriefOne)',
        '∷ (codes "pause", parameters_and_a_plan pause_and_part)',
    ],
    "crates/sched_plan_json/specs/Node.antt": ["one_of (read.Pause lane delay kind) = plan.Pause lane delay kind"],
    "crates/sched_plan_json/src/leaves.rt": [
        "    BriefOne(u64),",
        "LeafNode::BriefOne(delay) => Plan::brief_one(delay),",
        '"brief_one" => Ok(LeafNode::BriefOne(number(value)?)),',
    ],
    "crates/sched_plan_json/src/nodes.rt": ["        kind: Kind,", "Plan::pause(alloc, lane, delay, kind, plan)"],
    "crates/sched_plan_json/src/spelling.rt": ["let (lane, delay, kind, plan) = pause_and_plan(value)?;"],
    "crates/sched_plan_json_write/specs/Written.antt": [
        'leaf_json (BriefOne delay) = with_number (codes "brief_one") delay',
        "(item (string (kind_word kind)) (item a no_items))",
    ],
    "crates/sched_plan_json_write/src/leaves.rt": [
        'Leaf::BriefOne(delay) => of_number(alloc, "brief_one", delay.get()),',
    ],
    "crates/sched_plan_node/specs/Names.antt": ['∷ (codes "brief_one", BriefOne)'],
    "crates/sched_plan_node/src/leaves.rt": ['"brief_one" => of_leaf(Plan::brief_one(n)),'],
    "crates/sched_plan_check/specs/PlanFaults.antt": ["item_in (Pause lane delay kind) = Some 3"],
    "crates/sched_plan_check/src/below.rt": ["OneNode::Pause { .. } => Some(3),"],
    "crates/sched_plan_check/proofs/Tables.antt": ["(number_has leaf.BriefOne, tt)", " pause_has,\n"],
    "crates/sched_plan_hint/src/nodes.rt": [
        "const NODES: [(&str, &str); 34] = [",
        '("brief_one", r#"{"brief_one":D}, D from 7 to 9"#),',
        'LANE from 0 to 3, D from 7 to 9, KIND "long_one" or "short_one"',
    ],
}
#: What these two leave as it is: no such node is plain, or stands over two policies; and builders are written by hand.
OTHERS = {
    "crates/sched_plan_json_write/src/nodes.rt",
    "crates/sched_plan_json_write/src/words.rt",
    "crates/sched_plan_node/src/over.rt",
    "python/src/hikebox/__init__.py",
}
SPELL_IT = """
from hikebox.policy.nodes import parts_of
from hikebox.policy.parsing import read
from hikebox.policy.spelling import spelt, spelt_in_rust

tree = {"cap": [1, {"pause": [2, 8, "short_one", {"meet": ["forever", {"recurs": 3}]}]}]}
print(spelt(tree), spelt_in_rust(tree), parts_of(tree["cap"][1])[:2], sep="\\n")
print(read("recurs(1).pausd()").error.hint)
"""


def copied(folder: Path) -> Path:
    """A copy of what bin/nodes reads and writes, with one node more."""
    for name in ("bin", "schemas", "docs"):
        shutil.copytree(TOP / name, folder / name, ignore=shutil.ignore_patterns("pictures"))
    for name in ("python/src", "tests"):
        shutil.copytree(TOP / name, folder / name, ignore=shutil.ignore_patterns("__pycache__"))
    shutil.copytree(TOP / "crates", folder / "crates", ignore=shutil.ignore_patterns("out", "must-fail"))
    (folder / "schemas" / "nodes.json").write_text(json.dumps({"nodes": [*TABLE, LEAF, ANOTHER]}))
    return folder


def files_of(folder: Path) -> Dict[str, bytes]:
    return {str(path.relative_to(folder)): path.read_bytes() for path in folder.rglob("*") if path.is_file()}


def nodes(folder: Path, *words: str) -> Any:
    return subprocess.run([sys.executable, str(folder / "bin" / "nodes"), *words], capture_output=True, text=True)


def test_what_is_made_of_the_table_is_as_it_is_made() -> None:
    ran = nodes(TOP, "--check")
    assert (ran.returncode, ran.stdout, ran.stderr) == (0, f"bin/nodes: {len(TABLE)} nodes\n", "")
    assert list(NODES) == [node["name"] for node in TABLE]


def test_another_node_is_a_row(tmp_path: Path) -> None:
    copy = copied(tmp_path / "copy")
    before = files_of(copy)
    made = set(nodes(copy, "--files").stdout.split()) - OTHERS
    ran = nodes(copy, "--check")
    assert (ran.returncode, set(re.findall(r"bin/nodes: (\S+) is not what", ran.stderr))) == (1, made)
    assert nodes(copy).returncode == 0 and nodes(copy, "--check").returncode == 0
    after = files_of(copy)
    assert {name for name in after if after[name] != before.get(name)} == made
    begins = '| `{"pause":[LANE,D,"KIND",A]}` | `A.paused(D, "long_one")` | none |'
    row = begins + ' A, but later; KIND is "long_one" or "short_one" |\n'
    assert row in (copy / "docs" / "COOKBOOK.md").read_text()
    for name, rows in ROWS.items():
        text = re.sub(r" \\\n +", " ", (copy / name).read_text().replace('\\"', '"'))
        for each in rows:
            assert each in text, (name, each)
    assert {name for name in made if "crates/" in name} == {name for name in ROWS if "crates/" in name}
    # all other rows are as they were, and no line of a definition is too long (`rt fmt` lays out code)
    definitions = [name for name in made if name.endswith(".antt")]
    assert [line for name in definitions for line in after[name].decode().splitlines() if len(line) > 120] == []
    (written,) = [name for name in definitions if name.endswith("Written.antt")]
    lines = [line for line in before[written].decode().splitlines() if not line.startswith("use ")]
    assert not set(lines) - set(after[written].decode().splitlines())

    # both spellings, and the parser's names
    environment = {**python_environment(), "PYTHONPATH": str(copy / "python" / "src")}
    ran = subprocess.run([sys.executable, "-c", SPELL_IT], env=environment, capture_output=True, text=True)
    assert ran.stdout.splitlines() == [
        '(forever() & recurs(3)).paused(0.008, "short_one", lane=2).cap(0.001)',
        "(Schedule::forever() & Schedule::recurs(3)).pause(2, Duration::from_millis(8), Kind::ShortOne)"
        ".cap(Duration::from_millis(1))",
        "('pause', [2, 8, 'short_one'])",
        "no method is called 'pausd'; did you mean 'paused'?",
    ], ran.stderr

    # random policies have it, and the schema takes it within its bounds
    words = [sys.executable, str(copy / "tests" / "random_policies.py"), "300", "5"]
    printed = subprocess.run(words, capture_output=True, text=True, check=True).stdout
    found = re.findall(r'\{"pause":\[(\d),(\d),"(\w+)"', printed)
    assert {lane for lane, _, _ in found} == set("0123") and {number for _, number, _ in found} == set("789")
    jsonschema = pytest.importorskip("jsonschema")
    valid = jsonschema.Draft7Validator(json.loads((copy / "schemas" / "policy.schema.json").read_text())).is_valid
    assert valid({"pause": [3, 9, "long_one", "forever"]}) and valid(json.loads(printed.split("\t")[1].splitlines()[0]))
    for wrong in ([4, 9, "long_one", "forever"], [3, 6, "long_one", "forever"], [3, 9, "longest", "forever"], [3, 9]):
        assert not valid({"pause": wrong})


def builders_of(language: str) -> Set[str]:
    """The functions and methods of the table's expressions."""
    given = [node[language] for node in TABLE]
    expressions = [each for one in given for each in ([one] if isinstance(one, str) else one)]
    found = {name for text in expressions for name in re.findall(r"^(?:Schedule::|\{A\}\.)?([\w{}:]+)\(", text)}
    gates = {f"{way}_{side}" for way in ("while", "until") for side in ("input", "output")}
    return {name for name in found if "{" not in name} | (gates if any("{" in name for name in found) else set())


def test_the_builders_of_python_are_those_of_the_table() -> None:
    methods = {
        name
        for name, method in vars(Policy).items()
        if isinstance(method, FunctionType) and name[0] != "_" and method.__annotations__["return"] == "Policy"
    }
    own = {"once", "stop"}  # which are recurs(1) and recurs(0)
    assert {*builders.__all__, *methods} - own == builders_of("python")


def test_each_builder_is_exported() -> None:
    defined = {name for name, each in vars(builders).items() if getattr(each, "__module__", None) == builders.__name__}
    assert set(builders.__all__) == defined and defined <= set(hikebox.__all__)
    assert all(getattr(hikebox, name) is getattr(builders, name) for name in defined)


def test_the_builders_of_rust_are_those_of_the_table() -> None:
    source = (TOP / "rust" / "src" / "policy" / "schedule.rs").read_text()
    declared = set(re.findall(r"^    pub fn (\w+)\([^)]*\) -> Self", source, flags=re.M))
    operators = {"meet", "join", "feed"}
    assert declared - operators == builders_of("rust")


def test_each_expression_of_the_table_builds_its_node() -> None:
    rng = random.Random(3)
    for node in TABLE:
        for _ in range(20):
            plans = [RANDOM["some_policy"](rng, 2) for item in node["items"] if item["unit"] == "plan"]
            tree = RANDOM["some_node"](rng, node, plans)
            policy = Policy.from_dict(tree)
            assert Policy.parse(repr(policy)).to_dict() == tree


def test_the_cookbook_has_each_builder() -> None:
    section = (TOP / "docs" / "COOKBOOK.md").read_text().partition("## All nodes\n")[2]
    assert {name for name in builders_of("python") if not re.search(rf"\b{name}\b", section)} == set()
