"""The pages on Python: each block is run, and the text after a block is what it prints."""

from __future__ import annotations

import codeop
import contextlib
import io
import os
import re
import subprocess
import sys
from importlib.util import find_spec
from pathlib import Path
from typing import Any, Dict, List, Optional, Tuple

import pytest
from conftest import TOP, python_environment
from hikebox import Policy
from hikebox.retry.watch import watch

#: Libraries that are no package of Debian 12: their blocks are run where they are installed, and else read.
NOT_DEBIANS = ["opentelemetry"]

PAGES = [
    "docs/PYTHON.md",
    "docs/LIMITS.md",
    "docs/FROM-TENACITY.md",
    "docs/FROM-BACKOFF-PYTHON.md",
    "docs/FROM-RESILIENCE4J.md",
    "docs/MACHINES.md",
    "python/README.md",
]


def blocks(page: str) -> List[Tuple[str, str, int]]:
    """The kind, the text and the line of each block."""
    text = (TOP / page).read_text()
    found = re.finditer(r"^```(\w*)\n(.*?)^```$", text, flags=re.M | re.S)
    return [(match[1], match[2], text.count("\n", 0, match.start()) + 2) for match in found]


def run_shell(text: str, folder: Path) -> str:
    """What a block of shell prints, with `hikebox` on the path."""
    program = folder / "hikebox"
    program.write_text(f'#!/bin/sh\nexec "{sys.executable}" -m hikebox "$@"\n')
    program.chmod(0o755)
    environment = {**python_environment(), "PATH": f"{folder}:{os.environ['PATH']}"}
    command = ["sh", "-c", text]
    return subprocess.run(command, cwd=TOP, env=environment, capture_output=True, text=True, check=True).stdout


@pytest.mark.parametrize("page", PAGES)
def test_each_block_does_what_the_page_says(page: str, tmp_path: Path, monkeypatch: Any, request: Any) -> None:
    monkeypatch.chdir(TOP)
    monkeypatch.setattr(watch, "watchers", ())  # (a page has the retries of this process counted)
    names: Dict[str, Any] = {"folder": str(tmp_path)}
    if "import redis" in (TOP / page).read_text():
        monkeypatch.setenv("REDIS_PORT", str(request.getfixturevalue("redis_server")().port))
    printed: Optional[str] = ""
    shell, ran = "", 0
    for kind, text, line in blocks(page):
        if kind == "text":
            # (an attempt of a second is cut off on a machine that is busy for as long, so the shell tries again)
            for _ in range(4 if shell else 0):
                if printed == text:
                    break
                printed = run_shell(shell, tmp_path)
            assert printed is None or printed == text, f"{page}:{line}"
        elif kind == "python":
            for library in ("tenacity", "requests", "httpx", "aiohttp"):
                if f"import {library}" in text:
                    pytest.importorskip(library)
            if any(f"from {library}" in text and find_spec(library) is None for library in NOT_DEBIANS):
                shell, printed = "", None
                compile(text, page, "exec")
                continue
            output = io.StringIO()
            # (on a busy machine a server may take longer than a second to answer)
            patient = text.replace("socket_timeout=1)", "socket_timeout=60)")
            with contextlib.redirect_stdout(output):
                exec(compile("\n" * (line - 1) + patient, page, "exec"), names)
            shell, printed = "", output.getvalue()
            ran += 1
        elif kind == "rust":
            pass  # of Rattle, which is no block of a program
        else:
            assert kind == "sh", f"{page}:{line}: a block of {kind}"
            shell, printed = text, run_shell(text, tmp_path)
            ran += 1
    assert ran


@pytest.mark.parametrize("page", [*PAGES, "README.md"])
def test_each_block_can_be_pasted_into_a_session(page: str) -> None:
    for kind, text, line in blocks(page):
        if kind != "python":
            continue
        begun: List[str] = []
        for number, typed in enumerate([*text.splitlines(), ""], line):
            begun.append(typed)
            try:
                if codeop.compile_command("\n".join(begun), symbol="single") is not None:
                    begun = []
            except SyntaxError as error:
                raise AssertionError(f"{page}:{number}: {typed!r} ends no statement in a session: {error}") from None
        assert not begun, f"{page}:{line}"


def test_the_first_lines_of_the_readme_work(tmp_path: Path, monkeypatch: Any) -> None:
    monkeypatch.chdir(TOP)
    (python,) = [text for kind, text, _ in blocks("README.md") if kind == "python"]
    output = io.StringIO()
    with contextlib.redirect_stdout(output):
        exec(compile(python, "README.md", "exec"), {})
    assert output.getvalue() == "# Hikebox\n\n"

    (shell,) = [text for kind, text, _ in blocks("README.md") if kind == "sh" and "hikebox run" in text]
    # (a busy machine may take long to write the file that is waited for)
    patient = shell.replace("recurs(9) &", "recurs(300) &").replace(" 10/10%", " 1000/10%")
    assert len(patient) == len(shell) + 4
    monkeypatch.setenv("TMPDIR", str(tmp_path))
    assert run_shell("set -e\n" + patient, tmp_path) == (
        "0: (0, 100) next 100\n100: (1, 200) next 300\n300: (2, 400) next 700\n700: (3, 800) next 1500\nhere at last\n"
        "it ended with 0\n"
    )
    (slot,) = tmp_path.glob("*/retries/*/*")
    assert b"quota of 60000 ms of run" in slot.read_bytes()


def test_the_line_for_one_test_selects_a_test() -> None:
    page = (TOP / "docs/TESTING.md").read_text()
    ((file, word),) = re.findall(r"pytest -q (tests/\S+) -k (\w+)", page)
    assert re.search(rf"^def test_\w*{word}", (TOP / "python" / file).read_text(), flags=re.M), f"{file} -k {word}"


def test_the_cookbook_begins_with_the_expressions_of_its_policies() -> None:
    page = (TOP / "docs/COOKBOOK.md").read_text()
    sections = re.split(r"^##+ (.*)$", page, flags=re.M)[1:]
    below = [
        (heading.lower().replace(" ", "-"), Policy.from_json(text))
        for heading, section in zip(sections[::2], sections[1::2])
        for text in re.findall(r"^```json\n(.*?)\n```$", section, flags=re.M)
    ]
    rows = re.findall(r"^\| \[.*\]\(#(.*)\) \| `(.*)` \|$", page, flags=re.M)
    assert [(anchor, Policy.parse(expression)) for anchor, expression in rows] == below and len(rows) == 13


def test_every_public_name_is_on_a_page() -> None:
    import hikebox

    pages = "".join((TOP / page).read_text() for page in [*PAGES, "docs/COOKBOOK.md"])
    left_out = {
        "Duration",
        "Milliseconds",
        "Outcome",
        "Statistics",
        "Step",
        "Tickets",
        "Attempt",
        "MAX_NUMBER",
        "Fault",
    }
    left_out |= {"EngineError", "HikeboxError", "Ending", "LimitClosed", "LimitInUse", "StoreError", "state_of"}
    left_out |= {"from_duration", "exponential_milli"}
    assert [name for name in hikebox.__all__ if name not in left_out and name not in pages] == []
