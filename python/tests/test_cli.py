"""The program hikebox."""

from __future__ import annotations

import argparse
import contextlib
import json
import os
import random
import signal
import subprocess
import sys
import time
from pathlib import Path
from typing import Any, Iterator, List, Optional, Tuple

import pytest
import reference
from conftest import TOP, heed_signals, python_environment
from test_policy import spoilt

from hikebox.cli.values import statuses


def hikebox(*words: str, text: Optional[str] = None, **how: Any) -> Tuple[int, str, str]:
    """Its status, its output and its errors."""
    command = [sys.executable, "-m", "hikebox", *words]
    given: Any = {"input": text} if text is not None else {"stdin": subprocess.DEVNULL}
    done = subprocess.run(
        command, capture_output=True, text=True, env=python_environment(), timeout=120, **given, **how
    )
    return done.returncode, done.stdout, done.stderr


@pytest.fixture
def start() -> Iterator[Any]:
    """A function that starts the program with these words. In the end it is killed, with all that it started."""
    started: List[subprocess.Popen[str]] = []

    def start(*words: str) -> Any:
        process = subprocess.Popen(
            [sys.executable, "-m", "hikebox", *words],
            stdout=subprocess.PIPE,
            stderr=subprocess.PIPE,
            text=True,
            env=python_environment(),
            preexec_fn=heed_signals,
            start_new_session=True,
        )
        started.append(process)
        return process

    yield start
    for process in started:
        with contextlib.suppress(ProcessLookupError):
            os.killpg(process.pid, signal.SIGKILL)
        process.communicate()


def counting(tmp_path: Path, *ends: str) -> List[str]:
    """A command that counts its runs in a file and ends by these shell words in turn, the last one repeated."""
    cases = "".join(f"{number}) {end};; " for number, end in enumerate(ends[:-1], start=1))
    script = f'n=$(($(cat "{tmp_path}/n" 2>/dev/null || echo 0) + 1)); echo $n > "{tmp_path}/n"; '
    return ["sh", "-c", script + f"case $n in {cases}*) {ends[-1]};; esac"]


def runs(tmp_path: Path) -> int:
    return int((tmp_path / "n").read_text())


def test_it_runs_until_the_command_succeeds(tmp_path: Path) -> None:
    command = counting(tmp_path, "echo a; exit 7", "exit 8", "echo b; exit 0")
    assert hikebox("run", "--policy", "recurs(5)", "--", *command) == (0, "a\nb\n", "")
    assert runs(tmp_path) == 3


def test_it_ends_with_the_last_status(tmp_path: Path) -> None:
    command = counting(tmp_path, "exit 7", "exit 9")
    assert hikebox("run", "--policy", '{"recurs":2}', *command) == (9, "", "")
    assert runs(tmp_path) == 3
    assert hikebox("run", "--policy", "recurs(0)", "--", "sh", "-c", "kill -9 $$") == (128 + 9, "", "")


def test_what_it_does_is_told_on_request(tmp_path: Path) -> None:
    path = tmp_path / "policy.json"
    path.write_text('{"meet":[{"recurs":2},{"spaced":20}]}')
    status, output, errors = hikebox("run", "--verbose", "--policy", str(path), "--", "sh", "-c", "exit 3")
    lines = errors.splitlines()
    assert (status, output, len(lines)) == (3, "", 3)
    assert lines[0].startswith("hikebox: attempt 1: status 3; next in 0.0")
    assert lines[2] == "hikebox: attempt 3: status 3; the policy was done"


def test_which_statuses_are_retried(tmp_path: Path) -> None:
    command = counting(tmp_path, "exit 7", "exit 9")
    assert hikebox("run", "--policy", "recurs(5)", "--on", "1,5-8", "--", *command)[0] == 9
    assert runs(tmp_path) == 2
    status, _, errors = hikebox("run", "-v", "--on", "2", "--", "false")
    assert (status, errors) == (1, "hikebox: status 1, which is not retried\n")
    for bad in ("0", "256", "5-3", "a", "", "1-", "-1"):
        with pytest.raises(argparse.ArgumentTypeError):
            statuses(bad)


def test_the_policy_is_given_the_status(tmp_path: Path) -> None:
    command = counting(tmp_path, "exit 7", "exit 7", "exit 9")
    assert hikebox("run", "--policy", "recurs(9).while_input(equal=7)", "--", *command)[0] == 9
    assert runs(tmp_path) == 3


def test_an_attempt_that_takes_too_long(tmp_path: Path) -> None:
    command = ["sh", "-c", "[ $HIKEBOX_ATTEMPT -gt 1 ] || exec sleep 600"]
    began = time.monotonic()
    # (a busy machine may take long to start a further attempt, which ends at once)
    assert hikebox("run", "--timeout", "0.5", "--policy", "recurs(200)", "--", *command)[0] == 0
    assert hikebox("run", "--timeout", "0.2", "--policy", "recurs(1)", "--", "sleep", "600")[0] == 124
    stubborn = "trap '' TERM; for _ in $(seq 12000); do sleep 0.05; done"
    words = ["--timeout", "0.2", "--kill-after", "0.2", "--policy", "recurs(0)", "--", "sh", "-c", stubborn]
    assert hikebox("run", *words)[0] == 124
    assert time.monotonic() - began < 300


def test_an_attempt_that_takes_too_long_while_hikebox_is_stopped(start: Any) -> None:
    process = start("run", "--timeout", "2", "--policy", "recurs(0)", "--", "sh", "-c", "echo up; exec sleep 600")
    assert process.stdout.readline() == "up\n"
    process.send_signal(signal.SIGSTOP)
    time.sleep(2.5)
    process.send_signal(signal.SIGCONT)
    process.communicate(timeout=60)
    assert process.returncode == 124


def test_a_deadline_of_all_attempts() -> None:
    tells = ["--", "sh", "-c", 'echo "$HIKEBOX_SECONDS_LEFT"; exit 3']
    status, output, _ = hikebox("run", "--deadline", "3600", "--policy", "recurs(2)", *tells)
    left = [float(line) for line in output.splitlines()]
    assert status == 3 and len(left) == 3 and left == sorted(left, reverse=True)
    assert 3500 < left[2] < left[0] <= 3600
    # no attempt begins past it: the next one would a minute later
    began = time.monotonic()
    said = hikebox("run", "-v", "--deadline", "50", "--policy", "spaced(60)", "--", "sh", "-c", "exit 3")
    assert said == (3, "", "hikebox: attempt 1: status 3; the deadline left no time for another attempt\n")
    assert time.monotonic() - began < 50
    assert hikebox("run", *tells[:-1], "exit ${HIKEBOX_SECONDS_LEFT-7}")[0] == 7
    refused = hikebox("run", "--deadline", "0.0004", "--", "true")
    assert refused == (3, "", "hikebox: number out of range: deadline: 0.0004 s is less than a millisecond\n")


def test_a_command_that_can_not_be_run(tmp_path: Path, monkeypatch: pytest.MonkeyPatch) -> None:
    # (of a folder on the path that may not be read the system says that permission is denied)
    monkeypatch.setenv("PATH", "/usr/bin:/bin")
    assert hikebox("run", "--", "no-such-command")[::2] == (127, "hikebox: no-such-command: command not found\n")
    status, _, errors = hikebox("run", "--", str(tmp_path))
    assert status == 126 and "ermission denied" in errors
    status, _, errors = hikebox("run", "--on", "127", "--policy", "recurs(2)", "--", "no-such-command")
    assert status == 127 and errors.count("not found") == 3


def test_a_budget(tmp_path: Path) -> None:
    command = counting(tmp_path, "exit 7")
    assert hikebox("run", "--limit", "2", "--policy", "recurs(9)", "--", *command)[0] == 7
    assert runs(tmp_path) == 3
    shared = f"4@{tmp_path}/budget"
    for _ in range(3):
        assert hikebox("run", "--limit", shared, "--policy", "recurs(3)", "--", *command)[0] == 7
    assert runs(tmp_path) == 3 + 3 + 4
    assert "the limit refused a retry" in hikebox("run", "-v", "--limit", "0", "--", "false")[2]
    assert hikebox("run", "--limit", "x", "--", "false")[0] == 2


@pytest.mark.parametrize("limit", ["1", "1/0%/1000000s", "bucket:1/0/1/1/0/0"])
def test_a_folder_at_home(limit: str, tmp_path: Path, monkeypatch: pytest.MonkeyPatch) -> None:
    # (a shell expands no ~ behind an @)
    monkeypatch.setenv("HOME", str(tmp_path / "home"))
    command = counting(tmp_path, "exit 7")
    for name in ("here", "there"):
        (tmp_path / name).mkdir()
        words = ["run", "--limit", f"{limit}@~/limits", "--policy", "recurs(3)", "--", *command]
        assert hikebox(*words, cwd=tmp_path / name)[0] == 7
    # both runs have the one ticket, of the folder at home
    assert runs(tmp_path) == 3
    assert (tmp_path / "home" / "limits").is_dir() and not any((tmp_path / "here").iterdir())


def test_a_quota_over_all_runs(tmp_path: Path) -> None:
    command = counting(tmp_path, "exit 7")
    # one, and half of one for each run: a run that succeeds counts too
    quota = f"1/50%/1000000s@{tmp_path}/quota"
    words = ["run", "-v", "--limit", quota, "--policy", "recurs(9)", "--"]
    assert hikebox(*words, *command)[0] == 7
    assert runs(tmp_path) == 2
    for _ in range(2):
        assert hikebox(*words, "true")[0] == 0
    # four runs give two tickets beside the one that was drawn
    assert "the limit refused a retry" in hikebox(*words, *command)[2]
    assert runs(tmp_path) == 2 + 3
    damaged = tmp_path / "damaged"
    damaged.write_text("something else")
    status, _, errors = hikebox("run", "--limit", f"9/100%/60s@{damaged}", "--", *command)
    assert status == 2 and f"{damaged}: expected a folder, got a file. Counts are kept in a folder now;" in errors
    status, _, errors = hikebox("run", "--limit", "3@", "--", "true")
    assert (status, errors) == (
        2,
        "hikebox: --limit: expected N or LIMIT@FOLDER, such as 10/20%/60s@/run/lock/jobs, got '3@'\n",
    )
    for slot in (tmp_path / "quota").glob("*/*"):
        slot.write_text("something else")
    status, _, errors = hikebox(*words, *command)
    assert status == 7 and "expected the slot of 'quota of 1000000000 ms of run'" in errors
    assert runs(tmp_path) == 2 + 3 + 1
    for bad in (
        "x",
        "1/1%/60s",
        "1/1%@f",
        "1/x%/60s@f",
        "-1/1%/60s@f",
        "1/-1%/60s@f",
        "1/1%/0s@f",
        "1/1/60@f",
        "1/1%/60s@",
    ):
        assert hikebox("run", f"--limit={bad}", "--", "false")[0] == 2, bad
    assert hikebox("run", "--limit", quota, "--limit", "1", "--", "false")[0] == 2  # given twice


def test_input_and_output(tmp_path: Path) -> None:
    command = counting(tmp_path, "cat; exit 1", "cat; exit 0")
    assert hikebox("run", "--policy", "recurs(1)", "--", *command, text="a\nb\n")[1] == "a\nb\n"
    (tmp_path / "n").unlink()
    assert hikebox("run", "--replay-input", "--policy", "recurs(1)", "--", *command, text="a\n")[1] == "a\na\n"
    (tmp_path / "n").unlink()
    once = ["--last-output", "--policy", "recurs(1)", "--"]
    held = hikebox("run", "--replay-input", *once, *command, text="a\n" * 99999)
    assert held == (0, "a\n" * 99999, "")
    assert hikebox("run", *once, "sh", "-c", "echo x; exit 4")[:2] == (4, "x\n")


TOLD = "trap 'echo told; exit 5' {0}; echo up; for _ in $(seq 3000); do sleep 0.01; done"


@pytest.mark.parametrize("name", ["TERM", "INT", "HUP", "QUIT"])
def test_a_signal_goes_to_the_command_and_ends_the_run(start: Any, name: str) -> None:
    process = start("run", "--policy", "recurs(9)", "--kill-after", "50", "--", "sh", "-c", TOLD.format(name))
    assert process.stdout.readline() == "up\n"
    process.send_signal(getattr(signal, f"SIG{name}"))
    assert process.communicate(timeout=60)[0] == "told\n"
    assert process.returncode == 5


def test_a_signal_that_kills_the_command(start: Any) -> None:
    process = start("run", "--policy", "recurs(9)", "--", "sh", "-c", "echo up; exec sleep 60")
    assert process.stdout.readline() == "up\n"
    process.terminate()
    process.communicate(timeout=60)
    assert process.returncode == 128 + signal.SIGTERM


def test_a_signal_that_ends_nothing_is_passed_on_too(start: Any) -> None:
    process = start("run", "--policy", "recurs(9)", "--", "sh", "-c", TOLD.format("USR1").replace("exit 5", "exit 0"))
    assert process.stdout.readline() == "up\n"
    process.send_signal(signal.SIGUSR1)
    assert process.communicate(timeout=60)[0] == "told\n"
    assert process.returncode == 0


def test_a_signal_between_two_attempts_ends_the_run(start: Any) -> None:
    process = start("run", "-v", "--policy", "spaced(60)", "--", "sh", "-c", "exit 7")
    assert "next in" in process.stderr.readline()
    process.send_signal(signal.SIGUSR1)
    time.sleep(0.1)
    assert process.poll() is None
    process.terminate()
    process.communicate(timeout=60)
    assert process.returncode == 128 + signal.SIGTERM


def test_an_ignored_signal_stays_ignored() -> None:
    script = "trap '' HUP; exec \"$@\""
    ignores = "kill -HUP $PPID; kill -HUP $$; sleep 0.1; exit 0"
    words = [sys.executable, "-m", "hikebox", "run", "--", "sh", "-c", ignores]
    done = subprocess.run(["sh", "-c", script, "sh", *words], env=python_environment(), timeout=60)
    assert done.returncode == 0


def test_a_command_is_awaited_though_whoever_starts_hikebox_awaits_none() -> None:
    words = [sys.executable, "-m", "hikebox", "run", "--policy", "recurs(1)", "--", "sh", "-c", "echo run; exit 7"]
    ignores = "import os, signal, sys; signal.signal(signal.SIGCHLD, signal.SIG_IGN); "
    ignores += "os.execv(sys.argv[1], sys.argv[1:])"
    command = [sys.executable, "-c", ignores, *words]
    done = subprocess.run(command, capture_output=True, text=True, env=python_environment(), timeout=60)
    assert (done.returncode, done.stdout, done.stderr) == (7, "run\nrun\n", "")


def test_the_command_has_the_signals_that_it_would_have() -> None:
    masks = "awk '/^Sig(Blk|Ign)/ {print $2}' /proc/self/status"
    plain = subprocess.run(["sh", "-c", masks], capture_output=True, text=True).stdout
    own = hikebox("run", "--", "sh", "-c", masks)[1]
    # those from 32 on are the C library's own
    assert [int(mask, 16) % 2**31 for mask in own.split()] == [int(mask, 16) % 2**31 for mask in plain.split()]


def test_plan_prints_as_zsched_does(tmp_path: Path) -> None:
    lines = "0: (0, 0) next 100\n100: (1, 1) next 200\n200: (2, 2) next 300\n300: (3, 3) done\n"
    path = str(TOP / "plans" / "three-times.json")
    text = Path(path).read_text()
    assert hikebox("plan", path) == (0, lines, "")
    assert hikebox("plan", text=text) == (0, lines, "") == hikebox("plan", "-", text=text)
    assert hikebox("plan", "recurs(3) & spaced(0.1)") == (0, lines, "")
    assert hikebox("plan", "--steps", "0", path) == (0, "", "")
    how = ["--from", "20", "--took", "30", "--steps", "2", "--word", "0", "--input", "7"]
    policy = '{"feed":["identity",{"jitter":[0,500,1000,{"linear":100}]}]}'
    assert hikebox("plan", *how, policy) == (0, "20: 100 next 70\n100: 200 next 200\n", "")


def test_plan_beside_zsched() -> None:
    program = os.environ.get("HIKEBOX_ZSCHED")
    if program is None:
        pytest.skip("HIKEBOX_ZSCHED names no zsched")
    for path in sorted((TOP / "plans").glob("*.json")):
        hows: List[List[str]] = [[], ["--took", "2500", "--steps", "4"], ["--word", "0", "--input", "202"]]
        for how in hows:
            with open(path) as file:
                theirs = subprocess.run([program, "plan", *how], stdin=file, capture_output=True, text=True)
            assert hikebox("plan", *how, str(path)) == (theirs.returncode, theirs.stdout, theirs.stderr)


def test_faults(tmp_path: Path) -> None:
    recurs = 'expected {"recurs":N}, N from 0 to 4611686018427387903, got {"recurs":-1}'
    for text, fault, place, hint in (
        ('{"recurs":-1}', "not a plan", "top", recurs),
        ('{"first":{"recurs":-1}}', "not a plan", "first", recurs),
        ('{"nothing":' * 32 + '"forever"' + "}" * 32, "too deep", "top", "expected a plan at most 32 deep"),
    ):
        where = "" if place == "top" else f"{place}: "
        assert hikebox("plan", text=text) == (3, "", f"hikebox: {fault}: {where}{hint}\n")
        assert hikebox("check", text=text) == (3, f"{place}: {hint}\n", f"hikebox: {fault}\n")
    for text, column, why in (('{"recurs":3', 11, "the text ends too soon"), ("", 1, "the text is empty")):
        status, output, errors = hikebox("check", text=text)
        said = f"not JSON: line 1, column {column}: {why}\n"
        assert (status, output, errors) == (3, said, "hikebox: not JSON\n")
        assert hikebox("plan", text=text) == (3, "", f"hikebox: {said}")
    assert hikebox("plan", text=" " * (2**20 + 1))[::2] == (3, "hikebox: input too long\n")
    assert hikebox("plan", str(tmp_path))[0] == 4
    assert hikebox("plan", "/no/such/file")[0] == 4
    with open("/dev/full", "w") as full:
        command = [sys.executable, "-m", "hikebox", "plan", "recurs(1)"]
        done = subprocess.run(command, stdout=full, env=python_environment())
    assert done.returncode == 4
    lines: List[List[str]] = [["plan", "--steps", "4097"], ["plan", "--none"], ["run"], ["run", "--"], [], ["nope"]]
    for words in lines:
        assert hikebox(*words)[0] == 2
    assert hikebox("run", "--policy", "recurs(", "--", "true")[0] == 3
    for seconds in ("0", "-1", "1e9", "nan", "1 s"):
        status, _, errors = hikebox("run", "--timeout", seconds, "--", "true")
        assert status == 2
        assert errors.endswith(f"expected seconds, more than 0 and less than 1000000000, got {seconds!r}\n")


def test_words_that_are_empty() -> None:
    assert hikebox("run", "--", "") == (2, "", "hikebox: run: expected a command, got ''\n")
    for words in (["run", "--policy", "", "--", "true"], ["plan", ""], ["check", ""], ["storm", ""]):
        assert hikebox(*words) == (2, "", "hikebox: expected a policy, got ''\n")


def test_check_says_what_a_policy_is() -> None:
    line = "plan: 4 nodes, depth 3, goes on at most 5 times\n"
    assert hikebox("check", "recurs(5) & exponential(0.1).cap(1)") == (0, line, "")
    assert hikebox("check", text='"forever"') == (0, "plan: 1 node, depth 1\n", "")
    assert hikebox("check", "from_duration(1)")[1] == "plan: 1 node, depth 1, goes on at most 1 time\n"
    bad = json.dumps({"meet": [{"recurs": 1}, {"cap": [1, {"exponental": [100, 2]}]}]})
    said = 'meet[1].cap[1]: no node is called "exponental"; did you mean "exponential"?\n'
    assert hikebox("check", bad) == (3, said, "hikebox: not a plan\n")


def test_check_beside_zsched() -> None:
    program = os.environ.get("HIKEBOX_ZSCHED")
    if program is None or subprocess.run([program, "check", "--help"], capture_output=True).returncode != 0:
        pytest.skip("HIKEBOX_ZSCHED names no zsched with check")
    rng = random.Random(4)
    for number in range(100):
        tree = reference.some_plan(rng, rng.randrange(1, 8))
        text = json.dumps(tree if number % 4 == 0 else spoilt(rng, tree))
        if text.startswith("["):
            continue  # jobs, of which hikebox knows nothing
        theirs = subprocess.run([program, "check"], input=text, capture_output=True, text=True)
        wanted = (theirs.returncode, theirs.stdout, theirs.stderr.replace("zsched: ", "hikebox: "))
        assert hikebox("check", text=text) == wanted, text


def test_help_and_version() -> None:
    for words in (["--help"], ["run", "--help"], ["plan", "--help"], ["check", "--help"]):
        status, output, _ = hikebox(*words)
        assert status == 0 and "usage: hikebox" in output
    assert hikebox("--version")[1].startswith("hikebox ")


def test_streams_that_fail() -> None:
    words = ["run", "--last-output", "--policy", "recurs(0)", "--", "echo", "x"]
    command = [sys.executable, "-m", "hikebox", *words]
    with open("/dev/full", "w") as full:
        done = subprocess.run(command, stdout=full, stderr=subprocess.PIPE, text=True, env=python_environment())
    assert (done.returncode, done.stderr) == (4, "hikebox: write failed: standard output: No space left on device\n")
