"""The manual page and the completions of `hikebox`, beside its parser."""

from __future__ import annotations

import argparse
import re
import shutil
import subprocess
from typing import Any, Dict, List

import pytest
from conftest import TOP

from hikebox.cli.main import _parser
from hikebox.storms.axes import AXES

SHARE = TOP / "python" / "share"
SCENARIOS = ["outage", "herd", "brown-out"]


(COMMANDS,) = [action.choices for action in _parser()._actions if isinstance(action, argparse._SubParsersAction)]
for command in COMMANDS.values():
    command.fill()
#: Of each command its options, and whether they take a value.
OPTIONS: Dict[str, Dict[str, bool]] = {
    name: {word: action.nargs != 0 for action in command._actions for word in action.option_strings}
    for name, command in COMMANDS.items()
}
#: The options that take one of some words: of which command they are, and the words.
CHOICES = [
    (name, action.option_strings[0], list(action.choices))
    for name, command in COMMANDS.items()
    for action in command._actions
    if action.choices
]


def run(*words: str, **how: Any) -> str:
    """What a program says that is installed, and ends well."""
    if shutil.which(words[0]) is None:
        pytest.skip(f"there is no {words[0]}")
    done = subprocess.run(words, capture_output=True, text=True, timeout=60, stdin=subprocess.DEVNULL, **how)
    assert (done.returncode, done.stderr) == (0, ""), done.stderr
    return str(done.stdout)


def test_the_manual_page_has_each_option() -> None:
    page = (SHARE / "hikebox.1").read_text().replace("\\-", "-")
    sections = dict(re.findall(r'(?s)\.SH "?([A-Z ]+?)"?\n(.*?)(?=\n\.SH|\Z)', page))
    for command, known in OPTIONS.items():
        # an option stands in the line after .TP, with what it takes
        lines = re.findall(r"(?m)^\.TP\n\.\w+ (.*)", sections[f"HIKEBOX {command.upper()}"])
        told = {word for line in lines for word in re.findall(r"(?<!\w)--?[a-z][a-z-]*", line)}
        assert told == set(known) - {"-h", "--help"}, f"python/share/hikebox.1: {command}"
    assert set(AXES) <= set(re.findall(r"\w+", sections["HIKEBOX STORM"].split("BI --sweep")[1].split(".TP")[0]))
    assert {"HIKEBOX_ATTEMPT", "HIKEBOX_SECONDS_LEFT"} <= set(re.findall(r"\w+", sections["ENVIRONMENT"]))


def test_the_manual_page_is_read_without_a_warning() -> None:
    text = run("man", "--warnings", "-l", str(SHARE / "hikebox.1"), env={"MANWIDTH": "100", "PATH": "/usr/bin:/bin"})
    assert text.startswith("HIKEBOX(1)")


BASH = """
source {file}
offers() {{ COMP_WORDS=("$@"); COMP_CWORD=$(($# - 1)); _hikebox; echo "${{COMPREPLY[*]}}"; }}
cd {folder}
{lines}
"""


def test_the_completions_of_bash() -> None:
    def offered(*lines: str) -> List[str]:
        calls = "\n".join(f"offers {line}" for line in lines)
        text = BASH.format(file=SHARE / "hikebox.bash", folder=SHARE, lines=calls)
        return run("bash", "--norc", "-c", text).split("\n")[:-1]

    assert offered("hikebox p", "hikebox ''") == ["plan", "run plan check storm advise lab --help --version"]
    for command, known in OPTIONS.items():
        [found] = offered(f"hikebox {command} -")
        assert set(found.split()) == set(known), f"python/share/hikebox.bash: {command}"
        # what takes a value is followed by no option
        after = offered(*(f"hikebox {command} {word} -" for word in known))
        assert ["--help" not in found.split() for found in after] == list(known.values()), command
    assert offered("hikebox storm --scenario = her", "hikebox storm --find ''") == [
        "herd",
        "quota retries patience beside",
    ]
    for command, word, choices in CHOICES:
        assert offered(f"hikebox {command} {word} ''") == [" ".join(choices)]
    [scenarios] = offered("hikebox storm --scenario ''")
    assert set(scenarios.split()) == {*SCENARIOS, *(path.name for path in SHARE.iterdir())}
    assert offered("hikebox run --policy hikebox.b", "hikebox plan hikebox.1") == ["hikebox.bash", "hikebox.1"]
    assert offered("hikebox run --on hike", "hikebox run --limit hike", "hikebox lab hike") == ["", "", ""]
    commands = ("hikebox run bas", "hikebox run -- bas", "hikebox run --timeout 3 -v bas", "hikebox run --on = 3 bas")
    assert all("bash" in found.split() for found in offered(*commands))
    assert offered("hikebox run -- bash hikebox.z", "hikebox run bash -") == ["hikebox.zsh", ""]


ZSH = """
_arguments() {{ if [[ $1 == -C ]]; then state=$fake; else print -rl -- "$@"; fi }}
_describe() {{ print -rl -- $commands }}
offers() {{ local fake=$1; local -a words=($2); source {file} }}
{line}
"""


def test_the_completions_of_zsh() -> None:
    def offered(line: str) -> List[str]:
        return run("zsh", "-f", "-c", ZSH.format(file=SHARE / "hikebox.zsh", line=line)).splitlines()

    assert [line.partition(":")[0] for line in offered("offers command")] == list(OPTIONS)
    for command, known in OPTIONS.items():
        found: Dict[str, bool] = {}
        for spec in offered(f"offers word {command}"):
            about = re.sub(r"^\([^)]*\)|^\*(?=-)", "", spec)
            if about.startswith("-") and spec != "-S":
                word, _, rest = about.partition("[")
                found[word] = rest.partition("]")[2].startswith(":")
        assert found == known, f"python/share/hikebox.zsh: {command}"
    for words in (SCENARIOS, *(choices for _, _, choices in CHOICES)):
        assert f"({' '.join(words)})" in (SHARE / "hikebox.zsh").read_text()
