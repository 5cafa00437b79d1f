"""The package on macOS and Windows: on Linux without what those systems lack, one system's set at a time."""

from __future__ import annotations

import json
import re
import signal
import subprocess
import sys
import time
import urllib.request
import zipfile
from pathlib import Path
from typing import Any, List

import pytest
from conftest import HERE, heed_signals, python_environment
from elsewhere import RUNS_TESTS, SYSTEMS

each_system = pytest.mark.parametrize("system", SYSTEMS)

PROGRAM = "import hikebox_program; sys.argv[0] = 'hikebox'; sys.exit(hikebox_program.main())\n"


def begun(system: str, text: str, *words: str, **how: Any) -> subprocess.Popen[str]:
    """A Python of this system that runs this text with these words."""
    words = (sys.executable, "-c", SYSTEMS[system] + text, *words)
    pipes: Any = {"stdin": subprocess.PIPE, "stdout": subprocess.PIPE, "stderr": subprocess.PIPE}
    env = python_environment()
    return subprocess.Popen(words, env=env, text=True, cwd=HERE.parent, preexec_fn=heed_signals, **{**pipes, **how})


def said(system: str, text: str, *words: str, given: str = "") -> List[Any]:
    """Its status, what it printed, and what it told on standard error."""
    process = begun(system, text, *words)
    out, told = process.communicate(given)
    return [process.returncode, out, told]


def program(system: str, *words: str, given: str = "") -> List[Any]:
    return said(system, PROGRAM, *words, given=given)


@each_system
def test_each_module_is_imported(system: str) -> None:
    text = (
        "import importlib, pkgutil, hikebox\n"
        "for module in pkgutil.walk_packages(hikebox.__path__, 'hikebox.'):\n"
        "    if module.name != 'hikebox.__main__':\n"
        "        importlib.import_module(module.name)\n"
        "print('hikebox.cli.run_alone' in sys.modules)\n"
    )
    assert said(system, text) == [0, "True\n", ""]


@pytest.mark.parametrize("platform, tag", [("darwin", "macosx_*"), ("win32", "win_*"), ("linux", "manylinux_*")])
def test_the_engine_is_looked_for_where_the_wheel_has_it(platform: str, tag: str) -> None:
    text = f"""
import os, sys, ctypes
engine = os.environ.pop("HIKEBOX_LIBRARY")
sys.platform, loads = {platform!r}, ctypes.PyDLL
seen = []
class Library(loads):
    def __init__(self, name, *words, **more):
        seen.append(name)
        super().__init__(engine if name is not None else name, *words, **more)
ctypes.PyDLL = Library
import hikebox
print(os.path.relpath(seen[0], os.path.dirname(os.path.dirname(hikebox.__file__))), None in seen)
"""
    done = subprocess.run([sys.executable, "-c", text], env=python_environment(), capture_output=True, text=True)
    assert done.returncode == 0, done.stderr
    file, is_own = done.stdout.split()
    assert is_own == str(platform != "win32")
    wheels = list(HERE.parents[1].glob(f"dist/hikebox-*-{tag}.whl"))
    assert wheels and all(file in zipfile.ZipFile(wheel).namelist() for wheel in wheels)


#: Files of tests that pass there, and how many of each at least.
FILES = {
    "test_retrying.py": 60,
    "test_loops.py": 9,
    "test_limits.py": 80,
    "test_deadline.py": 70,
    "test_storm.py": 40,
}


@each_system
@pytest.mark.parametrize("file", FILES)
def test_tests_pass(system: str, file: str, tmp_path: Path) -> None:
    status, out, told = said(system, RUNS_TESTS, "--basetemp", str(tmp_path / "tests"), str(HERE / file))
    assert status == 0, out + told
    passed = re.search(r"(\d+) passed", out)
    assert passed and int(passed[1]) >= FILES[file], out


# The program


@each_system
def test_plans_are_printed_as_on_linux(system: str, tmp_path: Path) -> None:
    assert program(system, "plan", "recurs(1)") == [0, "0: 0 next 0\n0: 1 done\n", ""]
    assert program(system, "check", given='{"recurs":3}') == [0, "plan: 1 node, depth 1, goes on at most 3 times\n", ""]
    assert program(system, "plan", "--svg", str(tmp_path / "a.svg"), "recurs(1) & spaced(1)") == [0, "", ""]
    assert b"\r" not in (tmp_path / "a.svg").read_bytes()
    assert program(system, "plan", "nonsense(")[0] == 3


@each_system
def test_storms_are_played_on_all_processors(system: str) -> None:
    words = ("storm", "--json", "--seconds", "5", "--rate", "20", "recurs(2) & spaced(0.1)")
    here = subprocess.run([sys.executable, "-m", "hikebox", *words], env=python_environment(), capture_output=True)
    assert program(system, *words) == [0, here.stdout.decode(), ""]
    swept = program(system, "storm", "--sweep", "rate=20,40", "--seconds", "5", "recurs(2) & spaced(0.1)")
    assert swept[0] == 0 and len(swept[1].splitlines()) >= 3


def fails_until(tmp_path: Path, attempt: int) -> List[str]:
    """A command that fails until this attempt, with its number as its status."""
    text = (
        f"import os, sys; n = int(os.environ['HIKEBOX_ATTEMPT']); print('at', n); sys.exit(n if n < {attempt} else 0)"
    )
    return [sys.executable, "-c", text]


@each_system
def test_a_command_is_run_until_it_succeeds(system: str, tmp_path: Path) -> None:
    run = ("run", "--policy", "recurs(3) & spaced(0.01)")
    assert program(system, *run, "--", *fails_until(tmp_path, 3)) == [0, "at 1\nat 2\nat 3\n", ""]
    assert program(system, *run, "--last-output", "--", *fails_until(tmp_path, 3)) == [0, "at 3\n", ""]
    assert program(system, *run, "--on", "1", "--", *fails_until(tmp_path, 3))[:2] == [2, "at 1\nat 2\n"]
    assert program(system, *run, "--", *fails_until(tmp_path, 9))[0] == 4
    assert program(system, *run, "--limit", "1", "--", *fails_until(tmp_path, 9))[0] == 2
    echo = "import os, sys; print(sys.stdin.read()); sys.exit(os.environ['HIKEBOX_ATTEMPT'] == '1')"
    again = program(system, *run, "--replay-input", "--", sys.executable, "-c", echo, given="word")
    assert again == [0, "word\nword\n", ""]


@each_system
def test_a_command_that_can_not_be_run_is_told(system: str, tmp_path: Path) -> None:
    assert program(system, "run", "--", "no-such-command") == [127, "", "hikebox: no-such-command: command not found\n"]
    (tmp_path / "folder").mkdir()
    assert program(system, "run", "--", str(tmp_path / "folder"))[0] == 126


@each_system
def test_a_command_that_takes_too_long_is_ended(system: str) -> None:
    began = time.monotonic()
    once = ("run", "--policy", "recurs(0)", "--timeout", "0.2", "--kill-after", "0.2")
    assert program(system, *once, "--", sys.executable, "-c", "import time; time.sleep(600)")[0] == 124
    stays = "import signal, time; signal.signal(signal.SIGTERM, signal.SIG_IGN); time.sleep(600)"
    assert program(system, *once, "--", sys.executable, "-c", stays)[0] == 124
    assert time.monotonic() - began < 300
    long = "import sys\nwhile True: sys.stdout.write('x' * 4096)"
    held = program(system, "run", "--last-output", "--output-limit", "10K", "--", sys.executable, "-c", long)
    assert held == [4, "", "hikebox: the output is longer than 10K (--output-limit)\n"]


@each_system
def test_a_signal_ends_the_run_and_its_command(system: str, tmp_path: Path) -> None:
    note = tmp_path / "note"
    text = f"import pathlib, time; pathlib.Path({str(note)!r}).write_text('begun'); time.sleep(600)"
    process = begun(system, PROGRAM, "run", "--", sys.executable, "-c", text)
    while not note.exists() or not note.read_text():
        assert process.poll() is None
        time.sleep(0.01)
    process.send_signal(signal.SIGTERM)
    assert process.wait(300) == 128 + signal.SIGTERM
    process.communicate()
    waits = begun(system, PROGRAM, "run", "-v", "--policy", "recurs(1) & spaced(600)", "--", *fails_until(tmp_path, 3))
    assert waits.stderr is not None and "next in 600" in waits.stderr.readline()
    waits.send_signal(signal.SIGINT)
    assert waits.wait(300) == 128 + signal.SIGINT
    waits.communicate()


def test_windows_shares_no_folder_and_says_what_does() -> None:
    status, out, told = program("Windows", "run", "--limit", "3@runs", "--", "true")
    assert (status, out) == (2, "") and "share by a RedisStore" in told


@each_system
def test_the_lab_answers(system: str) -> None:
    process = begun(system, PROGRAM, "lab", "--no-browser")
    assert process.stdout is not None
    address = process.stdout.readline().split()[2]
    try:
        with urllib.request.urlopen(address) as page:
            assert b"<title>" in page.read()
        asked = {"policy": "recurs(2) & spaced(0.1)", "steps": 3}
        request = urllib.request.Request(
            f"{address}plan", json.dumps(asked).encode(), {"Content-Type": "application/json"}
        )
        with urllib.request.urlopen(request) as answer:
            assert json.load(answer)
    finally:
        process.send_signal(signal.SIGINT)
        assert process.wait(300) == 0
        process.communicate()
