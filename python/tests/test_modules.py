"""How the package is laid out."""

from __future__ import annotations

import ast
import re
import subprocess
import sys
from pathlib import Path
from typing import Iterator, List, Set

import pytest
from conftest import TOP, python_environment

import hikebox

SOURCES = TOP / "python" / "src"
MODULES = sorted(SOURCES.rglob("*.py"))
NAMES = [path.relative_to(SOURCES).as_posix() for path in MODULES]


def is_private(name: str) -> bool:
    return name.startswith("_") and not name.startswith("__")


def declared(tree: ast.AST) -> Iterator[str]:
    """The names that a module gives to members of its own: methods, attributes of self and of a class, and slots."""
    for node in ast.walk(tree):
        if isinstance(node, (ast.FunctionDef, ast.AsyncFunctionDef, ast.ClassDef)):
            yield node.name
        elif isinstance(node, ast.Name) and isinstance(node.ctx, ast.Store):
            yield node.id
        elif isinstance(node, ast.Attribute) and isinstance(node.ctx, ast.Store):
            yield node.attr
        elif isinstance(node, ast.Constant) and isinstance(node.value, str):
            yield node.value


#: Members of libraries and of the language that have no other name: of argparse, of requests and of urllib3, too.
THEIRS = {"_replace", "_exit", "_asdict", "_fields", "_getframe"}
THEIRS |= {"_actions", "_body_position"}


@pytest.mark.parametrize("path", MODULES, ids=NAMES)
def test_no_module_reads_anothers_underscored_members(path: Path) -> None:
    tree = ast.parse(path.read_text())
    own: Set[str] = set(declared(tree))
    read = {node.attr for node in ast.walk(tree) if isinstance(node, ast.Attribute) and is_private(node.attr)}
    taken = {alias.name for node in ast.walk(tree) if isinstance(node, ast.ImportFrom) for alias in node.names} - {
        path.stem for path in MODULES
    }
    assert {name for name in read if name not in own} - THEIRS == set()
    assert {name for name in taken if is_private(name)} == set()


def users_of(module: Path) -> List[Path]:
    """The modules that import from this one."""
    taken = re.compile(rf"^ *from \.[\w.]*\b{module.stem} import |^ *from \.+[\w.]* import .*\b{module.stem}\b", re.M)
    return [path for path in MODULES if path != module and taken.search(path.read_text())]


def test_a_module_with_one_user_has_30_lines() -> None:
    small = [path for path in MODULES if len(path.read_text().splitlines()) < 30 and not path.stem.startswith("__")]
    outside = {"hikebox_program", "hikebox_pytest"}  # which the entry points of the wheel name
    assert [path.stem for path in small if path.stem not in outside and len(users_of(path)) < 2] == []


#: What plays storms, and what shows them: what retries calls needs none of it.
STORMS = re.compile(r"^hikebox/(advice/|storms/|traffic/|lab/|cli/|sweeps\.py|__init__\.py$)")


@pytest.mark.parametrize("name", [name for name in NAMES if not STORMS.search(name)])
def test_what_retries_calls_imports_nothing_of_storms(name: str) -> None:
    text = (SOURCES / name).read_text().replace("hikebox.cli.main", "")
    assert not re.search(r"^ *(from|import) .*\b(advice|storms|traffic|sweeps|lab|cli)\b", text, re.M)


def loaded_by(text: str) -> List[str]:
    """The modules of the package that a new interpreter loads for this."""
    words = [sys.executable, "-X", "importtime", "-c", text]
    ran = subprocess.run(words, env=python_environment(), capture_output=True, text=True, check=True)
    return re.findall(r"\| +(hikebox[\w.]*)$", ran.stderr, re.M)


def test_import_hikebox_loads_nothing_of_limits_of_storms_of_the_lab_or_of_adapters() -> None:
    loaded = loaded_by("import hikebox")
    assert "hikebox.retrying" in loaded
    parts = ["advice", "storms", "traffic", "lab", "adapters", "cli", "sweeps", "leased", "metrics"]
    parts += ["limits", "pace", "_engine.kept", "_engine.leasing", "_engine.limits", "_engine.paces", "_engine.storms"]
    assert [name for name in loaded if name.startswith(tuple(f"hikebox.{part}" for part in parts))] == []


def test_import_hikebox_loads_none_of_the_slow_modules_of_python() -> None:
    slow = {"dataclasses", "inspect", "json", "logging", "urllib.parse"}
    text = f"import sys; had = set(sys.modules); import hikebox; print(*{slow} & (set(sys.modules) - had))"
    ran = subprocess.run([sys.executable, "-c", text], env=python_environment(), capture_output=True, text=True)
    assert (ran.stdout, ran.stderr) == ("\n", "")


def test_the_plugin_of_pytest_loads_nothing_of_the_package() -> None:
    assert loaded_by("import hikebox_pytest") == ["hikebox_pytest"]


def test_hikebox_plan_loads_nothing_of_storms_or_of_the_lab() -> None:
    loaded = loaded_by("from hikebox.cli.main import main; main(['plan', 'recurs(3)'])")
    assert "hikebox.policy.parsing" in loaded
    parts = (
        "advice",
        "limits",
        "pace",
        "storms",
        "traffic",
        "lab",
        "adapters",
        "sweeps",
        "leased",
        "cli.run",
        "cli.storm",
        "cli.scenario",
    )
    assert [name for name in loaded if name.startswith(tuple(f"hikebox.{part}" for part in parts))] == []


def test_hikebox_run_loads_nothing_of_storms_or_of_the_lab() -> None:
    loaded = loaded_by("from hikebox.cli.main import main; main(['run', '--limit', '1', 'recurs(1)', '--', 'true'])")
    assert {"hikebox.cli.run", "hikebox.limits.spellings"} <= set(loaded)
    parts = ("advice", "storms", "traffic", "lab", "adapters", "sweeps", "cli.storm", "cli.scenario")
    assert [name for name in loaded if name.startswith(tuple(f"hikebox.{part}" for part in parts))] == []


def test_limits_and_storms_are_loaded_when_they_are_asked_for() -> None:
    asks = "import hikebox; assert 'Storm' in dir(hikebox); from hikebox import storm; assert hikebox.storm is storm"
    assert "hikebox.storms.storm" in loaded_by(asks)
    retries = "import hikebox; hikebox.Retrying(hikebox.recurs(1), limit=hikebox.Quota(1, 1, 1))(int)"
    assert "hikebox.limits" not in loaded_by(retries)
    asks = "import hikebox; assert hikebox.Breaker is hikebox.limits.Breaker and hikebox.Pace is hikebox.pace.Pace"
    assert {"hikebox.limits", "hikebox.pace"} <= set(loaded_by(asks))
    assert "hikebox.pace" in loaded_by("from hikebox import *; Pace(1, 1)")
    assert "hikebox.storms.storm" in loaded_by("from hikebox import *; storm(once())")
    with pytest.raises(AttributeError, match="^module 'hikebox' has no attribute 'nonsense'$"):
        getattr(hikebox, "nonsense")
