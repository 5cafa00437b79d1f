"""`hikebox run`: the process group of an attempt, the terminal, and standard streams that are closed."""

from __future__ import annotations

import contextlib
import os
import pty
import re
import select
import signal
import subprocess
import sys
import time
from pathlib import Path
from typing import Any, Dict, Iterator, List

import pytest
from conftest import python_environment
from test_cli import hikebox, start  # noqa: F401

from hikebox.cli.terminal import processes

PROGRAM = [sys.executable, "-m", "hikebox"]
#: No wait between attempts.
AT_ONCE = ["--policy", "recurs(2)"]
#: How many seconds a test waits for what has to come, on a machine that is busy with other things.
PATIENCE = 150.0


def is_alive(process: int) -> bool:
    """Whether a process runs."""
    try:
        state = Path(f"/proc/{process}/stat").read_text().rpartition(")")[2].split()[0]
    except OSError:
        return False
    return state not in "ZX"


def wait_for(path: Path, seconds: float = PATIENCE) -> str:
    """What is in a file, once there is a line in it."""
    until = time.monotonic() + seconds
    while time.monotonic() < until:
        if path.exists() and path.read_text().endswith("\n"):
            return path.read_text()
        time.sleep(0.01)
    raise AssertionError(f"{path} is not written")


# The group of an attempt


def test_what_an_attempt_started_ends_with_it(tmp_path: Path) -> None:
    started = tmp_path / "started"
    command = f"sh -c 'echo $$ >> {started}; exec sleep 60'; true"
    assert hikebox("run", *AT_ONCE, "--timeout", "0.5", "--", "sh", "-c", command)[0] == 124
    # (an attempt that the machine holds up may end before it starts anything)
    processes = started.read_text().split() if started.exists() else []
    assert len(processes) <= 3 and not any(is_alive(int(process)) for process in processes)


def test_attempts_never_overlap(tmp_path: Path) -> None:
    log = tmp_path / "log"
    # a grandchild that ignores SIGTERM, and a command that ends at once at it
    script = f"""
        [ ! -e {log} ] || for group in $(cut -d ' ' -f 2 {log}); do
            cat /proc/[0-9]*/stat 2>/dev/null | sed -n "s/.*) [^ZX] [0-9]* $group .*/overlap/p" >> {tmp_path}/bad
        done
        echo "$HIKEBOX_ATTEMPT $$" >> {log}
        sh -c 'trap "" TERM; sleep 60; echo late >> {tmp_path}/bad' &
        wait
    """
    words = ["-v", "--timeout", "0.5", "--kill-after", "0.3", "--", "sh", "-c", script]
    status, _, errors = hikebox("run", *AT_ONCE, *words)
    assert (status, errors.count("status 124")) == (124, 3)
    # (an attempt that the machine holds up may end before it writes anything)
    wrote = [line.split()[0] for line in log.read_text().splitlines()] if log.exists() else []
    assert wrote == sorted(set(wrote) & {"1", "2", "3"})
    assert not (tmp_path / "bad").exists() or (tmp_path / "bad").read_text() == ""


def test_what_a_failed_attempt_leaves_is_ended(tmp_path: Path) -> None:
    left = tmp_path / "left"
    script = f"exec >/dev/null 2>&1; sleep 60 & echo $! >> {left}; [ $HIKEBOX_ATTEMPT = 3 ]"
    assert hikebox("run", *AT_ONCE, "--", "sh", "-c", script)[0] == 0
    first, second, third = [int(line) for line in left.read_text().split()]
    assert not is_alive(first) and not is_alive(second)
    # what succeeds may leave a server
    assert is_alive(third)
    os.kill(third, signal.SIGKILL)


def test_the_first_process_of_a_container_has_no_zombies(tmp_path: Path) -> None:
    # (a process to which orphans are left, as they are to that one)
    adopts = "import ctypes, os, sys; ctypes.CDLL(None).prctl(36, 1, 0, 0, 0); os.execv(sys.executable, sys.argv[1:])"
    script = f"cat /proc/$PPID/task/$PPID/children >> {tmp_path}/children; exec >/dev/null; sleep 60 & exit 1"
    words = [*PROGRAM, "run", *AT_ONCE, "--", "sh", "-c", script]
    done = subprocess.run([sys.executable, "-c", adopts, *words], env=python_environment(), timeout=60)
    assert done.returncode == 1
    # at each of three attempts hikebox has no child but the command
    assert len((tmp_path / "children").read_text().split()) == 3


@pytest.mark.parametrize("name", ["TERM", "INT", "HUP", "QUIT"])
def test_a_signal_to_hikebox_ends_the_group(start: Any, tmp_path: Path, name: str) -> None:  # noqa: F811
    # sh starts what runs in the background with INT and QUIT ignored
    left = tmp_path / "left"
    script = f"trap 'exit 3' {name}; sleep 60 & echo $! > {left}; wait"
    process = start("run", "--policy", "recurs(9)", "--kill-after", "50", "--", "sh", "-c", script)
    sleeper = int(wait_for(left))
    process.send_signal(getattr(signal, f"SIG{name}"))
    process.communicate(timeout=60)
    assert process.returncode == 3 and not is_alive(sleeper)


def test_a_command_that_ignores_sigterm_is_killed(start: Any, tmp_path: Path) -> None:  # noqa: F811
    script = f"trap '' TERM; echo $$ > {tmp_path}/pid; while :; do sleep 0.05; done"
    process = start("run", "--kill-after", "0.3", "--", "sh", "-c", script)
    child = int(wait_for(tmp_path / "pid"))
    process.terminate()
    process.communicate(timeout=60)
    assert process.returncode == 128 + 9 and not is_alive(child)


def test_the_command_is_told_its_attempt() -> None:
    script = 'echo "$HIKEBOX_ATTEMPT"; [ "$HIKEBOX_ATTEMPT" = 3 ]'
    assert hikebox("run", "--policy", "recurs(5)", "--", "sh", "-c", script) == (0, "1\n2\n3\n", "")


@pytest.mark.parametrize("own", [[], ["--deadline", "7200"]], ids=["none", "later"])
def test_a_command_is_told_what_a_run_around_it_has_left(own: List[str], tmp_path: Path) -> None:
    script = 'echo "$HIKEBOX_SECONDS_LEFT"; sleep 0.1; exit 3'
    inner = [*PROGRAM, "run", *own, "--policy", "recurs(2)", "--", "sh", "-c", script]
    status, output, _ = hikebox("run", "--deadline", "3600", "--policy", "recurs(0)", "--", *inner)
    left = [float(line) for line in output.splitlines()]
    assert status == 3 and len(left) == 3 and 3000 < left[2] <= left[1] - 0.1 <= left[0] - 0.2 <= 3600 - 0.2


def test_a_command_has_no_variable_of_pythons_own() -> None:
    # (without a locale, as under cron, Python adds an LC_CTYPE to its environment)
    given = {name: value for name, value in python_environment().items() if name[:3] not in ("LC_", "LAN")}
    owns: List[Dict[str, str]] = [{}, {"LC_CTYPE": "C.UTF-8"}]
    for own in owns:
        done = subprocess.run([*PROGRAM, "run", "--", "env"], env={**given, **own}, stdout=subprocess.PIPE, text=True)
        told = [line for line in done.stdout.splitlines() if line.startswith("LC_")]
        assert (done.returncode, told) == (0, [f"{name}={value}" for name, value in own.items()])


def test_a_script_that_names_no_shell_is_run_by_sh(tmp_path: Path, monkeypatch: pytest.MonkeyPatch) -> None:
    (tmp_path / "of-no-shell").write_text('echo "$0 $*"; exit 3\n')
    (tmp_path / "of-no-machine").write_bytes(b"\x7fELF of another machine\0\n")
    for file in tmp_path.iterdir():
        file.chmod(0o755)
    monkeypatch.setenv("PATH", f"/usr/bin:/bin:{tmp_path}")
    for name in ("of-no-shell", str(tmp_path / "of-no-shell")):
        said = hikebox("run", "--policy", "recurs(1)", "--", name, "a b", "c")
        assert said == (3, f"{tmp_path}/of-no-shell a b c\n" * 2, "")
    assert hikebox("run", "--", "of-no-machine") == (126, "", "hikebox: of-no-machine: Exec format error\n")


# Standard streams


def closed(words: List[str], closes: str, **how: Any) -> "subprocess.CompletedProcess[bytes]":
    """The program with some of its standard streams closed."""
    command = ["sh", "-c", f'exec "$@" {closes}', "sh", *PROGRAM, *words]
    return subprocess.run(command, env=python_environment(), capture_output=True, timeout=60, **how)


@pytest.mark.parametrize(
    "words", [["plan", "spaced(1)"], ["--help"], ["--version"], ["storm", "--seconds", "1", "recurs(1)"]]
)
def test_a_closed_output_is_told_in_a_line(words: List[str]) -> None:
    done = closed(words, ">&-")
    assert (done.returncode, done.stderr) == (4, b"hikebox: write failed: standard output: Bad file descriptor\n")
    with open("/dev/full", "wb") as full:
        how: Any = {"env": python_environment(), "stderr": subprocess.PIPE}
        done = subprocess.run([*PROGRAM, *words], stdout=full, **how)
    assert (done.returncode, done.stderr) == (4, b"hikebox: write failed: standard output: No space left on device\n")


def test_a_page_whose_address_nobody_reads() -> None:
    done = closed(["lab", "--no-browser"], ">&-")
    assert (done.returncode, done.stderr) == (4, b"hikebox: lab: write failed: standard output: Bad file descriptor\n")


def test_a_command_has_the_streams_that_hikebox_has(tmp_path: Path) -> None:
    # (of a closed stream there is no /proc/self/fd/1, and nothing else has its number)
    told = f"for n in 0 1 2; do [ ! -e /proc/self/fd/$n ] || echo $n >> {tmp_path}/there; done"
    for closes, there in (("", "012"), (">&-", "02"), ("<&-", "12"), ("2>&-", "01"), ("<&- >&- 2>&-", "")):
        (tmp_path / "there").write_text("")
        done = closed(["run", "--", "sh", "-c", told], closes, stdin=subprocess.DEVNULL)
        assert (done.returncode, done.stdout, done.stderr) == (0, b"", b"")
        assert (tmp_path / "there").read_text().replace("\n", "") == there, closes
    done = closed(["run", "--policy", "recurs(1)", "--", "sh", "-c", "echo hi"], ">&-")
    assert done.returncode != 0 and b"Traceback" not in done.stderr
    done = closed(["run", "--last-output", "--", "echo", "hi"], ">&-")
    assert (done.returncode, done.stderr) == (4, b"hikebox: write failed: standard output: Bad file descriptor\n")
    done = closed(["run", "--replay-input", "--", "cat"], "<&-")
    assert (done.returncode, done.stderr) == (4, b"hikebox: read failed: standard input: Bad file descriptor\n")
    done = closed(["plan"], "<&-")
    assert done.stderr == b"hikebox: read failed: standard input: Bad file descriptor\n"


def test_a_closed_error_stream_is_not_the_output() -> None:
    for words, status in ((["plan", "nothing()"], 3), (["run", "-v", *AT_ONCE, "--", "false"], 1), (["nope"], 2)):
        done = closed(words, "2>&-")
        assert (done.returncode, done.stdout, done.stderr) == (status, b"", b"")


def test_a_full_error_stream_changes_no_run_and_no_status(tmp_path: Path) -> None:
    script = f'echo "$HIKEBOX_ATTEMPT" >> {tmp_path}/runs; exit 7'
    lines = (
        (["run", "-v", *AT_ONCE, "--", "sh", "-c", script], 7),
        (["run", "--", "no-such-command"], 127),
        (["run", "--limit", "1/0%/1h@/dev/null/f", *AT_ONCE, "--", "sh", "-c", "exit 7"], 7),
        (["run", "--polcy", "recurs(1)"], 2),
        (["plan", "no-such-file"], 4),
        (["check", '{"recurs":-1}'], 3),
    )
    for words, status in lines:
        with open("/dev/full", "wb") as full:
            how: Any = {"env": python_environment(), "stdout": subprocess.DEVNULL}
            assert subprocess.run([*PROGRAM, *words], stderr=full, timeout=60, **how).returncode == status, words
    assert (tmp_path / "runs").read_text() == "1\n2\n3\n"


def test_output_is_held_back_up_to_a_limit(tmp_path: Path) -> None:
    words = ["run", "--last-output", "--output-limit", "3M", *AT_ONCE, "--", "sh", "-c"]
    command = [*PROGRAM, *words, "yes hikebox"]
    with open(tmp_path / "out", "wb") as out:
        process = subprocess.Popen(command, stdout=out, stderr=subprocess.PIPE, env=python_environment())
        _, errors = process.communicate(timeout=60)
    assert process.returncode == 4
    assert errors == b"hikebox: the output is longer than 3M (--output-limit)\n"
    assert (tmp_path / "out").stat().st_size == 0
    whole = hikebox(*words, "head -c 3000000 /dev/zero | tr '\\0' x")
    assert (whole[0], len(whole[1])) == (0, 3_000_000)
    for wrong in ("0", "1T", "x", "-1", "1.5M"):
        assert hikebox("run", "--output-limit", wrong, "--", "true")[0] == 2


def test_a_short_attempt_with_too_much_output_fails_too(tmp_path: Path) -> None:
    words = ["run", "--last-output", "--output-limit", "5", *AT_ONCE, "--"]
    assert hikebox(*words, "printf", "12345") == (0, "12345", "")
    too_long = "hikebox: the output is longer than 5 (--output-limit)\n"
    assert hikebox(*words, "printf", "123456") == (4, "", too_long)
    script = f'echo "$HIKEBOX_ATTEMPT" >> {tmp_path}/runs; printf 123456; exit 7'
    assert hikebox(*words, "sh", "-c", script) == (4, "", too_long)
    assert (tmp_path / "runs").read_text() == "1\n"


def test_output_is_not_held_back_in_memory() -> None:
    measure = "import resource, runpy, sys; sys.argv = sys.argv[1:]\n"
    measure += "try:\n    runpy.run_module('hikebox', run_name='__main__')\n"
    measure += "finally:\n    print(resource.getrusage(resource.RUSAGE_SELF).ru_maxrss, file=sys.stderr)"
    peaks = []
    for count in (1, 300_000_000):
        words = ["hikebox", "run", "--last-output", "--", "head", "-c", str(count), "/dev/zero"]
        done = subprocess.run(
            [sys.executable, "-c", measure, *words],
            stdout=subprocess.DEVNULL,
            stderr=subprocess.PIPE,
            env=python_environment(),
        )
        assert done.returncode == 0
        peaks.append(int(done.stderr.split()[-1]))
    assert peaks[1] < peaks[0] + 20_000


# A terminal with a shell on it


class Shell:
    """A shell with job control on a terminal of its own, to which a test types."""

    def __init__(self) -> None:
        try:
            self.process, self.file = pty.fork()
        except OSError:
            pytest.skip("there are no terminals on this machine")
        if self.process == 0:
            # (a script that runs the tests in its background has them ignore what a terminal sends)
            for number in (signal.SIGINT, signal.SIGQUIT, signal.SIGHUP):
                signal.signal(number, signal.SIG_DFL)
            environment = {**python_environment(), "PS1": "", "TERM": "dumb", "HISTFILE": ""}
            os.execvpe("bash", ["bash", "--norc", "--noediting", "-i"], environment)
        self.seen = ""
        self.types("stty -echo; bind 2>/dev/null; echo rea''dy\n")
        self.expects("ready")

    def types(self, text: str) -> None:
        os.write(self.file, text.encode())

    def expects(self, pattern: str, seconds: float = PATIENCE) -> "re.Match[str]":
        """Waits for what the pattern says, and takes all up to there."""
        until = time.monotonic() + seconds
        while True:
            found = re.search(pattern, self.seen)
            if found:
                self.seen = self.seen[found.end() :]
                return found
            left = until - time.monotonic()
            assert left > 0, f"expected {pattern!r}, got {self.seen!r}"
            if select.select([self.file], [], [], left)[0]:
                with contextlib.suppress(OSError):
                    self.seen += os.read(self.file, 4096).decode(errors="replace")

    def gives(self, process: int) -> None:
        """Waits until the group of a process has the terminal, and none of the group is stopped."""
        group, until = os.getpgid(process), time.monotonic() + PATIENCE
        while os.tcgetpgrp(self.file) != group or any(
            each.state == "T" for each in processes().values() if each.group == group
        ):
            assert time.monotonic() < until, f"expected the group {group}, got {os.tcgetpgrp(self.file)}"
            time.sleep(0.01)

    def begins(self) -> int:
        """Waits until a command says `up` and its id, and its group has the terminal."""
        process = int(self.expects(r"up (\d+)\.")[1])
        self.gives(process)
        return process

    def close(self) -> None:
        with contextlib.suppress(OSError):
            self.types("\x03\x03\nkill -9 %1 %2 2>/dev/null; exit\n")
        os.close(self.file)
        with contextlib.suppress(OSError):
            os.killpg(self.process, signal.SIGHUP)
        until = time.monotonic() + 10
        while os.waitpid(self.process, os.WNOHANG) == (0, 0):
            if time.monotonic() > until:
                os.kill(self.process, signal.SIGKILL)
                until += 1e9
            time.sleep(0.01)


@pytest.fixture
def shell() -> Iterator[Shell]:
    made = Shell()
    yield made
    made.close()


RUN = " ".join([*PROGRAM, "run", "--quiet"])
#: One that tells what it does.
TELLS = " ".join([*PROGRAM, "run", "--verbose"])


def test_a_command_reads_the_terminal(shell: Shell) -> None:
    shell.types(f"{RUN} --policy 'recurs(1)' -- sh -c 'echo asks; read x; echo got $x; [ $x = b ]'; echo over $?\n")
    shell.expects("asks")
    shell.types("a\n")
    shell.expects("got a")
    shell.expects("asks")
    shell.types("b\n")
    shell.expects("got b")
    shell.expects("over 0")
    # it is in the foreground, as programs look for that draw a bar, or write a log where they are not
    test = "import os; print('front' if os.tcgetpgrp(0) == os.getpgrp() else 'back')"
    shell.types(f'{RUN} -- {sys.executable} -c "{test}"\n')
    shell.expects("front")
    shell.types('stty -a | grep -o " echo "; echo still here\n')
    shell.expects("still here")


def test_control_c_reaches_the_command_and_ends_the_run(shell: Shell) -> None:
    # one that dies by it, one that ends as if it had failed, and one that has a grandchild
    for script, status in (
        ("echo up $$.; exec sleep 60", 130),
        ('trap "exit 2" INT; echo up $$.; while :; do sleep 0.05; done', 2),
        ('echo up $$.; sh -c "sleep 60; true"', 130),
    ):
        shell.types(f"{RUN} --policy 'recurs(9)' -- sh -c '{script}'; echo over $?\n")
        shell.begins()
        shell.types("\x03")
        shell.expects(f"over {status}\r")
        assert "up" not in shell.seen
    # a command that goes on, as a shell of its own would, may be interrupted again
    script = 'trap "echo heard" INT; echo up $$.; n=0; while [ $n -lt 2 ]; do read x && n=$((n+1)); done; exit 4'
    shell.types(f"{RUN} -- bash -c '{script}'; echo over $?\n")
    shell.begins()
    shell.types("\x03")
    shell.expects("heard")
    shell.types("a\nb\n")
    shell.expects("over 4\r")


def test_control_c_between_two_attempts_ends_the_run(shell: Shell) -> None:
    shell.types(f"{TELLS} --policy 'spaced(60)' -- sh -c 'exit 7'; echo over $?\n")
    shell.expects("next in")
    shell.types("\x03")
    shell.expects("over 130\r")


def stopped(shell: Shell) -> None:
    """Asks the shell for its jobs until one is stopped."""
    until = time.monotonic() + PATIENCE
    while True:
        shell.types("jobs; echo all''listed\n")
        if "Stopped" in shell.expects("(?s).*alllisted")[0]:
            return
        assert time.monotonic() < until
        time.sleep(0.05)


def test_control_z_stops_both_and_fg_continues_both(shell: Shell, tmp_path: Path) -> None:
    shell.types(f"{RUN} -- sh -c 'echo up $$.; read x; echo got $x'\n")
    command = shell.begins()
    for _ in range(2):
        shell.types("\x1a")
        shell.expects("Stopped")
        shell.types("echo the''shell; fg\n")
        shell.expects("theshell")
        shell.expects("run")
        shell.gives(command)
    shell.types("line\n")
    shell.expects("got line")
    # in the background it goes on, and is stopped where it reads the terminal
    # (it waits without a fork: while dash starts another program it can't stop, but that one can, and both hang)
    pipe = tmp_path / "pipe"
    os.mkfifo(pipe)
    shell.types(f"{RUN} -- sh -c 'echo up $$.; read w < {pipe}; echo slept; read x; echo got $x'\n")
    command = shell.begins()
    shell.types("\x1a")
    shell.expects("Stopped")
    shell.types("bg\n")
    pipe.write_text("\n")
    shell.expects("\nslept")
    stopped(shell)
    shell.types("fg\n")
    shell.gives(command)
    shell.types("more\n")
    shell.expects("got more")


def test_a_command_that_does_not_heed_control_z_goes_on(shell: Shell) -> None:
    shell.types(f"{RUN} -- sh -c 'trap \"\" TSTP; echo up $$.; read x; echo got $x'; echo over $?\n")
    shell.begins()
    shell.types("\x1a")
    time.sleep(0.5)  # (in which nothing happens)
    shell.types("word\n")
    shell.expects("got word")
    shell.expects("over 0")


def test_control_z_between_two_attempts(shell: Shell) -> None:
    shell.types(f"{TELLS} --policy 'recurs(1) & spaced(6)' -- sh -c 'echo up; exit 7'; echo over $?\n")
    shell.expects("next in")
    shell.types("\x1a")
    shell.expects("Stopped")
    shell.expects("over 148")
    shell.types("fg\n")
    shell.expects("up")


def test_control_z_while_the_rest_of_an_attempt_is_ended(shell: Shell) -> None:
    leaves = 'trap "" TERM; sleep 60 & trap - TERM; echo pids $PPID $!.; exit 7'
    words = f"--kill-after 100 --policy 'recurs(1) & spaced(6)' -- sh -c '{leaves}'"
    shell.types(f"{TELLS} {words}; echo over $?\n")
    found = shell.expects(r"pids (\d+) (\d+)\.")
    group, left = os.getpgid(int(found[1])), int(found[2])
    # (the command is over once hikebox has the terminal again)
    until = time.monotonic() + PATIENCE
    while os.tcgetpgrp(shell.file) != group:
        assert time.monotonic() < until
        time.sleep(0.01)
    shell.types("\x1a")
    time.sleep(0.2)
    os.kill(left, signal.SIGKILL)
    shell.expects("Stopped")
    shell.expects("over 148")
    shell.types("fg\n")
    os.kill(int(shell.expects(r"pids \d+ (\d+)\.")[1]), signal.SIGKILL)
    shell.expects("attempt 2: status 7; the policy was done")


def test_a_pager_beside_it_keeps_the_terminal(shell: Shell) -> None:
    pager = f"{sys.executable} -c \"import sys; print('asks', flush=True); print('key', open('/dev/tty').readline())\""
    shell.types(f"{RUN} --policy 'recurs(0)' -- sh -c 'echo begun >&2; sleep 2; echo out' | {pager}; echo over\n")
    shell.expects("(?s)begun.*asks|asks.*begun")
    shell.types("q\n")
    shell.expects("key q")
    shell.expects("over")
    # a command that reads in a pipe is put in the foreground once it does
    shell.types(f"{RUN} -- sh -c 'echo asks >&2; read x; echo got $x' | cat; echo over\n")
    shell.expects("asks")
    shell.types("b\n")
    shell.expects("got b")
    shell.expects("over")


def test_control_c_in_a_script_ends_the_script(shell: Shell, tmp_path: Path) -> None:
    script = tmp_path / "script"
    script.write_text(
        f"trap 'echo script heard; exit 9' INT\n{RUN} -- sh -c 'echo up $$.; exec sleep 60'\necho went on\n"
    )
    shell.types(f"bash {script}; echo over $?\n")
    shell.begins()
    shell.types("\x03")
    shell.expects("script heard")
    shell.expects("over 9\r")


def test_a_timeout_ends_what_has_the_terminal(shell: Shell) -> None:
    shell.types(f"{TELLS} --policy 'recurs(1)' --timeout 0.5 -- sh -c 'read x; echo got'; echo over $?\n")
    shell.expects("attempt 1: status 124; next in")
    shell.expects("attempt 2: status 124; the policy was done")
    shell.expects("over 124\r")
    shell.types("echo still''here\n")
    shell.expects("stillhere")


def children(process: int) -> List[int]:
    """The processes that a process started."""
    return [int(word) for word in Path(f"/proc/{process}/task/{process}/children").read_text().split()]


def test_a_hikebox_that_is_killed_leaves_the_terminal(shell: Shell) -> None:
    shell.types(f"{RUN} -- sh -c 'echo pid $PPID.; read x; echo got $x'; echo over $?\n")
    hikebox_id = int(shell.expects(r"pid (\d+)\.")[1])
    started = children(hikebox_id)
    # the command, and the witness that passes the terminal's signals on
    assert len(started) == 2
    os.kill(hikebox_id, signal.SIGKILL)
    shell.expects("over 137\r")
    until = time.monotonic() + PATIENCE
    while any(is_alive(process) for process in started) and time.monotonic() < until:
        time.sleep(0.02)
    assert not any(is_alive(process) for process in started)
    shell.types("echo still''here\n")
    shell.expects("stillhere")


def test_a_command_that_has_no_terminal_signals_reads_it(shell: Shell) -> None:
    # a shell starts what is in $(..) in its own group, with the signals ignored that stop it
    shell.types(f"x=$({RUN} -- sh -c 'echo up >&2; read y; echo $y'); echo it was $x.\n")
    shell.expects("up")
    shell.types("word\n")
    shell.expects("it was word")


def test_who_started_it_keeps_the_terminal_where_it_goes_on(shell: Shell, tmp_path: Path) -> None:
    script, file = tmp_path / "script", tmp_path / "file"
    waits = f"echo up; until [ -e {file} ]; do sleep 0.05; done"
    script.write_text(f"{RUN} -- sh -c '{waits}; echo slept' &\nread x\necho got $x\nwait\necho over\n")
    shell.types(f"bash {script}\n")
    shell.expects("up")
    shell.types("word\n")
    shell.expects("got word")
    file.touch()
    for line in ("slept", "over"):
        shell.expects(line)
    file.unlink()
    script.write_text(
        f"import subprocess\nstarted = subprocess.Popen({[*PROGRAM, 'run', '--', 'sh', '-c', waits]!r})\n"
        "print('got', input(), flush=True)\nprint('ended', started.wait())\n"
    )
    shell.types(f"{sys.executable} {script}\n")
    shell.expects("up")
    shell.types("word\n")
    shell.expects("got word")
    file.touch()
    shell.expects("ended 0")
    # one that waits does not
    shell.types(f"sh -c '{RUN} -- sh -c \"echo asks; read x; echo got \\$x\"; echo over'\n")
    shell.expects("asks")
    shell.types("line\n")
    shell.expects("got line")


def test_two_in_a_pipe_and_one_in_the_other(shell: Shell) -> None:
    shell.types(f"{RUN} -- sh -c 'echo asks >&2; read x; echo first $x' | {RUN} -- sed s/first/second/; echo over $?\n")
    shell.expects("asks")
    shell.types("word\n")
    shell.expects("second word")
    shell.types(f"{RUN} -- {RUN} -- sh -c 'echo up $$.; read x; echo got $x; exec sleep 60'; echo over $?\n")
    command = shell.begins()
    shell.types("word\n")
    shell.expects("got word")
    shell.gives(command)
    shell.types("\x03")
    shell.expects("over 130\r")
    shell.types(f"{RUN} -- {RUN} -- sh -c 'echo up $$.; read x; echo got $x'; echo over $?\n")
    command = shell.begins()
    shell.types("\x1a")
    shell.expects("Stopped")
    shell.types("fg\n")
    shell.expects("run")
    shell.gives(command)
    shell.types("more\n")
    shell.expects("got more")
