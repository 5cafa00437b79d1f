"""The fixture for pytest, in a run of its own: by its name, and by the entry point of an installed package."""

from __future__ import annotations

import importlib.util
import subprocess
import sys
from pathlib import Path
from typing import Any

import pytest
from conftest import TOP, python_environment

TESTS = """
import time

import pytest
from hikebox import recurs, retry, spaced
from hikebox.retry.waits import switch


@retry(recurs(3) & spaced(3600))
def flaky(left=[3]):
    left[0] -= 1
    if left[0] >= 0:
        raise OSError()
    return "here"


def test_without_waits(hikebox_no_waits):
    assert flaky() == "here" and switch.no_waits == 1


@pytest.mark.usefixtures("hikebox_no_waits")
class TestOfAClass:
    def test_without_waits(self):
        assert flaky([2]) == "here" and switch.no_waits == 1


def test_that_waits():
    assert switch.no_waits == 0
"""


def ran(folder: Path, *words: str, path: str = "") -> str:
    """What pytest says of these tests."""
    (folder / "test_it.py").write_text(TESTS)
    command = [sys.executable, "-m", "pytest", "-q", "-p", "no:cacheprovider", *words, "test_it.py"]
    environment = python_environment()
    environment["PYTHONPATH"] = f"{path}:{environment['PYTHONPATH']}" if path else environment["PYTHONPATH"]
    return subprocess.run(command, cwd=folder, env=environment, capture_output=True, text=True).stdout


def entry_points() -> str:
    """What a wheel says of its entry points."""
    spec: Any = importlib.util.spec_from_file_location("build_backend", TOP / "python" / "build_backend.py")
    backend: Any = importlib.util.module_from_spec(spec)
    spec.loader.exec_module(backend)
    return str(backend.ENTRY_POINTS)


@pytest.mark.parametrize("is_named", [True, False])
def test_the_fixture_skips_waits_and_no_others(is_named: bool, tmp_path: Path) -> None:
    if is_named:
        assert "3 passed" in ran(tmp_path, "-p", "hikebox_pytest")
        return
    about = tmp_path / "installed" / "hikebox-0.0.dist-info"
    about.mkdir(parents=True)
    (about / "METADATA").write_text("Metadata-Version: 2.1\nName: hikebox\nVersion: 0.0\n")
    (about / "entry_points.txt").write_text(entry_points())
    assert "3 passed" in ran(tmp_path, path=str(about.parent))


def test_without_the_plugin_there_is_no_such_fixture(tmp_path: Path) -> None:
    assert "fixture 'hikebox_no_waits' not found" in ran(tmp_path, "-p", "no:hikebox")
