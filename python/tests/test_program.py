"""The program hikebox on a terminal, in a pipe, at its start, and where its store can't be reached."""

from __future__ import annotations

import _ctypes
import fcntl
import os
import pty
import random
import re
import select
import signal
import struct
import subprocess
import sys
import termios
import time
from pathlib import Path
from typing import Any, List, Tuple

import pytest
from conftest import TOP, heed_signals, python_environment
from test_cli import hikebox

from hikebox import LimitError, Policy, PolicyError
from hikebox.version import VERSION
from hikebox.cli.seeded import seeded
from hikebox.cli.limits import limit
from hikebox.cli.values import terms

PROGRAM = [sys.executable, "-m", "hikebox"]


def terminal() -> Tuple[int, int]:
    """Both ends of a terminal, where the machine has any: a bare `chroot` has none."""
    try:
        return pty.openpty()
    except OSError:
        pytest.skip("there are no terminals on this machine")


# Quotas with units


def test_terms_with_their_units() -> None:
    assert terms("10/20%/60s") == (10, 0.2, 60.0)
    assert terms("10/0.1%/1.5m") == (10, 0.001, 90.0)
    assert [terms(f"1/1%/2{unit}")[2] for unit in ("ms", "s", "m", "h", "d")] == [0.002, 2, 120, 7200, 172800]
    for bad in ("10/20%/60", "10/0.2/60s", "10/20%/60x", "10/20%", "/20%/60s", "1.5/20%/60s", "10/20 %/60s"):
        with pytest.raises(LimitError, match=r"^expected RESERVE/SHARE%/PERIOD, such as .* \(units: ms, s, m, h, d\)"):
            terms(bad)
    assert repr(limit("10/20%/60s@/nowhere/f", None)).endswith("'run', 10, 0.2, per=60, lease=1)")


def test_a_quota_without_units_is_refused_with_both_spellings() -> None:
    status, output, errors = hikebox("run", "--limit", "1/500/100@f", "--", "true")
    assert (status, output) == (2, "")
    assert errors == (
        "hikebox: --limit: '1/500/100' has no units: write 1/50000%/100s (retries a request, and seconds) or "
        "1/50%/100ms (thousandths and milliseconds, as zsched reads it)\n"
    )
    assert "1/20%/60s" in hikebox("run", "--limit", "1/0.2/60@f", "--", "true")[2]


# Plans


def test_inputs_in_turn_and_words_by_a_seed() -> None:
    lines = "0: 0 next 500\n500: 1 next 1000\n1000: 2 done\n"
    path = str(TOP / "plans" / "while-busy.json")
    assert hikebox("plan", "--inputs", "202,202,200", path) == (0, lines, "")
    assert hikebox("plan", "--inputs", "202,x", path)[0] == 2
    assert hikebox("plan", "--inputs", "202", "--input", "202", path)[0] == 2
    assert hikebox("plan", "--words", "7", "--word", "0", path)[0] == 2
    jittered = hikebox("plan", "--words", "7", "spaced(1).jittered(0, 1)")[1]
    assert len(set(jittered.splitlines())) == 10
    assert hikebox("plan", "--words", "7", "spaced(1).jittered(0, 1)")[1] == jittered


def test_the_words_of_a_seed() -> None:
    # of the authors' own program, xoshiro128plusplus.c, with the state 1, 2, 3, 4
    from hikebox.cli import seeded as seeds

    state = [1 | 2 << 32, 3 | 4 << 32]
    original, seeds._split_mix = seeds._split_mix, lambda seed: iter(state)
    try:
        words = seeded(0)
        assert [next(words) for _ in range(10)] == [
            641,
            1573767,
            3222811527,
            3517856514,
            836907274,
            4247214768,
            3867114732,
            1355841295,
            495546011,
            621204420,
        ]
    finally:
        seeds._split_mix = original
    # of SplitMix64, seeded with 1234567
    numbers = seeds._split_mix(1234567)
    assert [next(numbers) for _ in range(3)] == [6457827717110365317, 3203168211198807973, 9817491932198370423]


def test_words_beside_zsched() -> None:
    program = os.environ.get("HIKEBOX_ZSCHED")
    if program is None or b"--words" not in subprocess.run([program, "plan", "--help"], capture_output=True).stdout:
        pytest.skip("HIKEBOX_ZSCHED names no zsched with --words")
    rng = random.Random(6)
    for number in range(10):
        how = ["--words", str(rng.randrange(2**64)), "--inputs", "202,7,202"]
        for path in ("jittered-back-off.json", "while-busy.json"):
            file = str(TOP / "plans" / path)
            theirs = subprocess.run([program, "plan", *how, file], capture_output=True, text=True, check=True).stdout
            assert hikebox("plan", *how, file) == (0, theirs, ""), (number, path)


# Pipes, and the start


def test_a_closed_pipe_ends_quietly() -> None:
    for words in (["plan", "--steps", "4096", "spaced(1)"], ["--help"]):
        ends = os.pipe()
        os.close(ends[0])
        how: Any = {"stdout": ends[1], "stderr": subprocess.PIPE, "env": python_environment()}
        process = subprocess.Popen([*PROGRAM, *words], preexec_fn=heed_signals, **how)
        os.close(ends[1])
        assert process.communicate(timeout=120)[1] == b""
        assert process.returncode == -signal.SIGPIPE


def test_control_c_at_the_start_prints_no_traceback(tmp_path: Path) -> None:
    slow = tmp_path / "hikebox"
    slow.mkdir()
    (slow / "__init__.py").write_text(
        f"import time\nopen({str(tmp_path / 'loading')!r}, 'w').close()\ntime.sleep(60)\n"
    )
    environment = python_environment()
    environment["PYTHONPATH"] = f"{tmp_path}{os.pathsep}{environment['PYTHONPATH']}"
    program = "from hikebox_program import main; main()"
    process = subprocess.Popen(
        [sys.executable, "-c", program], stderr=subprocess.PIPE, env=environment, preexec_fn=heed_signals
    )
    until = time.monotonic() + 60
    while not (tmp_path / "loading").exists():
        assert time.monotonic() < until
        time.sleep(0.01)
    process.send_signal(signal.SIGINT)
    assert process.communicate(timeout=60)[1] == b""
    assert process.returncode == -signal.SIGINT


def test_control_c_ends_it_while_it_reads_what_it_replays() -> None:
    words = [*PROGRAM, "run", "--replay-input", "--", "true"]
    process = subprocess.Popen(
        words, stdin=subprocess.PIPE, stderr=subprocess.PIPE, env=python_environment(), preexec_fn=heed_signals
    )
    # (it reads once the pipe is empty)
    assert process.stdin is not None
    process.stdin.write(b"x")
    process.stdin.flush()
    until = time.monotonic() + 60
    while unread(process.stdin.fileno()):
        assert time.monotonic() < until
        time.sleep(0.01)
    process.send_signal(signal.SIGINT)
    assert process.wait(timeout=60) == -signal.SIGINT
    assert process.communicate()[1] == b""


def unread(pipe: int) -> int:
    """How many bytes of a pipe nobody has read."""
    return int(struct.unpack("i", fcntl.ioctl(pipe, termios.FIONREAD, bytes(4)))[0])


def test_control_c_that_is_ignored_stays_ignored() -> None:
    program = """
import atexit, signal, sys, hikebox_program
atexit.register(lambda: print(signal.getsignal(signal.SIGINT) == signal.SIG_IGN))
sys.argv = ["hikebox", "check", "recurs(1)"]
hikebox_program.main()
"""
    script = f"trap '' INT; exec {sys.executable} -c '{program}'"
    done = subprocess.run(["sh", "-c", script], env=python_environment(), capture_output=True, text=True, timeout=60)
    assert done.stdout.endswith("\nTrue\n")


def test_only_the_program_has_its_signals() -> None:
    program = (
        "import signal; before = signal.getsignal(13), signal.getsignal(2); import hikebox_program, hikebox.cli.main; "
    )
    program += "print(before == (signal.getsignal(13), signal.getsignal(2)))"
    done = subprocess.run([sys.executable, "-c", program], env=python_environment(), capture_output=True, timeout=60)
    assert done.stdout == b"True\n"


# Words that are wrong


def test_the_nearest_word_is_named() -> None:
    known = "expected a command (run, plan, check, storm, advise, lab)"
    wrong: List[Tuple[List[str], str, str]] = [
        (["rnu", "--", "true"], "", f"{known}, got 'rnu'; did you mean run?"),
        (["xyzzy"], "", f"{known}, got 'xyzzy'"),
        ([], "", f"{known}, got none"),
        (["run", "--polcy", "recurs(1)", "--", "true"], " run", "there is no option --polcy; did you mean --policy?"),
        (["run", "--polcy=recurs(1)", "--", "true"], " run", "there is no option --polcy; did you mean --policy?"),
        (["plan", "--xyzzy"], " plan", "there is no option --xyzzy"),
        (["check", "recurs(1)", "recurs(2)"], " check", "unexpected word 'recurs(2)'"),
        (["--versoin", "plan", "recurs(1)"], "", "there is no option --versoin; did you mean --version?"),
        (["--polcy", "x"], "", "there is no option --polcy"),
        (["--versoin=1", "x"], "", "there is no option --versoin; did you mean --version?"),
    ]
    for words, command, said in wrong:
        status, output, errors = hikebox(*words)
        assert (status, output) == (2, "") and errors.endswith(f"hikebox{command}: error: {said}\n"), (words, errors)


def test_a_builder_without_its_call_is_told_with_its_form() -> None:
    for word, said in (
        ("recurs", "expected recurs(..), got 'recurs'"),
        ("recurs(3) & spaced", "expected spaced(..), got 'spaced'"),
        ("recurs(3) + 1", "expected a policy, got 'recurs(3) + 1'"),
    ):
        assert hikebox("plan", word) == (3, "", f"hikebox: not a plan: {said}\n")


def test_an_array_is_json_and_no_file() -> None:
    said = "not a plan: expected a plan, a string or an object with one member, got"
    for text in ("[]", '["recurs",3]'):
        assert hikebox("plan", text) == (3, "", f"hikebox: {said} {text}\n")


def test_what_is_found_is_quoted_up_to_60_characters() -> None:
    form = "expected an expression, as recurs(3) & exponential(0.1, 2), got"
    wrong = {
        "recurs(3) spaced(1)": f"not a plan: {form} 'recurs(3) spaced(1)': invalid syntax",
        f"recurs(3) spaced({60 * '1'})": f"not a plan: {form} 'recurs(3) spaced({43 * '1'}..': invalid syntax",
        60 * "x" + "()": f"not a plan: no builder is called '{60 * 'x'}'",
        61 * "x" + "()": f"not a plan: no builder is called '{60 * 'x'}..'",
        "recurs(3) + " + 60 * "1": f"not a plan: expected a policy, got 'recurs(3) + {48 * '1'}..'",
        "&".join(3000 * ["recurs(1)"]): "too deep: expected a plan at most 32 deep",
        "recurs(\udcff)": "not a plan: expected an expression in UTF-8, got 'recurs(\\udcff)'",
    }
    for text, said in wrong.items():
        with pytest.raises(PolicyError, match=f"^{re.escape(said)}$"):
            Policy.parse(text)


@pytest.mark.parametrize(
    "engine, said",
    [
        ("/no/such.so", "/no/such.so: cannot open shared object file: No such file or directory; each system and "),
        ("/etc/passwd", "/etc/passwd: "),
        (_ctypes.__file__, f"expected that of {VERSION}, got {_ctypes.__file__}: undefined symbol: hikebox_"),
    ],
)
def test_an_engine_that_can_not_be_loaded_is_an_error_of_one_line(engine: str, said: str) -> None:
    environment = {**python_environment(), "HIKEBOX_LIBRARY": engine}
    # (`python -m hikebox` loads the package before its program)
    command = [
        sys.executable,
        "-c",
        "import sys, hikebox_program; sys.exit(hikebox_program.main())",
        "plan",
        "forever()",
    ]
    done = subprocess.run(command, capture_output=True, text=True, env=environment, timeout=60)
    assert (done.returncode, done.stdout, done.stderr.count("\n")) == (4, "", 1)
    assert done.stderr.startswith(f"hikebox: the engine of hikebox can't be loaded: {said}")


# The streams and the terminal


@pytest.mark.parametrize("encoding", ["ascii", "latin-1", "utf-8"])
def test_a_character_that_a_stream_has_no_bytes_for_is_escaped(encoding: str) -> None:
    environment = {**python_environment(), "PYTHONIOENCODING": encoding, "PYTHONUTF8": "0"}

    def prints(*words: str) -> bytes:
        command = [*PROGRAM, "storm", "--seconds", "1", *words, "recurs(1)"]
        return subprocess.run(command, stdout=subprocess.PIPE, check=True, env=environment, timeout=120).stdout

    is_whole = encoding == "utf-8"
    named = prints("--name", "\u20ac", "--name", "b", "recurs(0)").splitlines()[:2]
    assert named == ["1: \u20ac".encode() if is_whole else rb"1: \u20ac", b"2: b"]
    assert ">\u20ac</" in prints("--title", "\u20ac", "--svg", "-").decode()
    undecodable = prints("--name", os.fsdecode(b"\xff"), "--name", "b", "recurs(0)").splitlines()[0]
    assert undecodable == rb"1: \udcff"


@pytest.mark.parametrize("columns", [40, 80, 200])
def test_the_prose_of_a_help_is_wrapped_for_the_terminal(columns: int, monkeypatch: pytest.MonkeyPatch) -> None:
    monkeypatch.setenv("COLUMNS", str(columns))
    for command, said in (
        ("run", "The command has HIKEBOX_ATTEMPT, the number of the attempt from 1, and with a deadline, also of"),
        (
            "storm",
            "Each line of the report is a window of time, named by its first moment. A request or a retry counts",
        ),
    ):
        _, output, _ = hikebox(command, "--help")
        prose = [line for line in output.splitlines() if line[:1].strip() and not line.startswith("usage:")]
        assert said in " ".join(prose)
        assert max(map(len, prose)) <= min(columns, 120)
        assert "\n  hikebox storm --scenario brown-out --find quota 'recurs(3)'\n" in output or command == "run"


def test_a_policy_that_is_read_from_a_terminal_is_asked_for() -> None:
    ours, theirs = os.openpty()
    try:
        os.write(ours, b'{"recurs":1}\n\x04')
        command = [sys.executable, "-m", "hikebox", "plan", "--steps", "1"]
        done = subprocess.run(command, stdin=theirs, capture_output=True, env=python_environment(), timeout=60)
    finally:
        os.close(ours)
        os.close(theirs)
    asked = b"hikebox: reading a policy as JSON from the terminal; Ctrl-D ends it\n"
    assert (done.returncode, done.stdout, done.stderr) == (0, b"0: 0 next 0\n", asked)


def test_options_are_not_abbreviated(tmp_path: Path) -> None:
    for words in (["run", "--poli", "recurs(1)", "--"], ["run", "--verb", "--"], ["run", "--time=3", "--"]):
        status, _, errors = hikebox(*words, "touch", str(tmp_path / "ran"))
        assert status == 2 and "there is no option" in errors
    assert hikebox("plan", "--step", "1", "recurs(1)")[0] == 2 and not (tmp_path / "ran").exists()
    # what the command takes is its own
    assert hikebox("run", "--", "sh", "-c", 'echo "$@"', "sh", "--poli", "-q") == (0, "--poli -q\n", "")
    assert hikebox("run", "echo", "--verb", "-x") == (0, "--verb -x\n", "")


# A store that can't be reached


def test_a_store_that_can_not_be_reached_is_told_once() -> None:
    said = r"hikebox: run: /dev/null/f\S*: Not a directory; it grants nothing until it can be reached\n"
    for option in ("--limit=5@/dev/null/f", "--limit=5/10%/60s@/dev/null/f"):
        words = ["run", option, "--policy", "recurs(3)", "--", "sh", "-c", "exit 7"]
        status, output, errors = hikebox(*words)
        assert (status, output) == (7, "") and re.fullmatch(said, errors), errors


# A terminal


def on_a_terminal(*words: str) -> Tuple[int, str]:
    """How it ended, and what it wrote on its terminal."""
    ours, theirs = terminal()
    process = subprocess.Popen(
        [*PROGRAM, *words], stdin=subprocess.DEVNULL, stdout=subprocess.DEVNULL, stderr=theirs, env=python_environment()
    )
    os.close(theirs)
    written: List[bytes] = []
    while True:
        try:
            part = os.read(ours, 4096)
        except OSError:  # the other end is closed
            break
        if not part:
            break
        written.append(part)
    os.close(ours)
    return process.wait(timeout=60), b"".join(written).decode()


def read_up_to(terminal: int, pattern: bytes) -> bytes:
    """What was written on a terminal, up to something that this matches."""
    written = b""
    while not re.search(pattern, written):
        assert select.select([terminal], [], [], 60)[0], written
        written += os.read(terminal, 4096)
    return written


def test_a_line_on_a_terminal_tells_the_attempt_and_the_wait() -> None:
    words = ["--policy", "recurs(1) & spaced(1.9)", "--", "sh", "-c", "exit 7"]
    line = "\rhikebox: attempt 1: status 7; attempt 2 in {} s\033[K"
    lines = [line.format(2), line.format(1), "\r\033[K"]
    # (a machine that is busy for nearly a second may leave a line out)
    for _ in range(10):
        status, written = on_a_terminal("run", *words)
        assert status == 7
        if written == "".join(lines):
            break
    assert written == "".join(lines)
    assert on_a_terminal("run", "--quiet", *words) == (7, "")
    assert "\r\033[K" not in on_a_terminal("run", "--verbose", *words)[1]
    assert hikebox("run", *words) == (7, "", "")


def test_a_line_is_cut_where_the_terminal_has_no_room() -> None:
    ours, theirs = terminal()
    fcntl.ioctl(theirs, termios.TIOCSWINSZ, struct.pack("HHHH", 24, 19, 0, 0))
    words = [*PROGRAM, "run", "--policy", "spaced(60)", "--", "sh", "-c", "exit 7"]
    process: Any = subprocess.Popen(words, stderr=theirs, env=python_environment(), preexec_fn=heed_signals)
    written = read_up_to(ours, rb"\033\[K")
    process.terminate()
    assert process.wait(timeout=60) == 128 + signal.SIGTERM
    # (again for each second that passes)
    assert re.fullmatch(rb"(\rhikebox: attempt 1\033\[K)+\r\033\[K", written + os.read(ours, 4096))
    os.close(ours)
    os.close(theirs)


def test_a_signal_takes_the_line_away() -> None:
    ours, theirs = terminal()
    words = [*PROGRAM, "run", "--policy", "spaced(60)", "--", "sh", "-c", "exit 7"]
    process: Any = subprocess.Popen(words, stderr=theirs, env=python_environment(), preexec_fn=heed_signals)
    read_up_to(ours, rb"attempt 2 in \d+ s\033\[K")
    process.terminate()
    assert process.wait(timeout=60) == 128 + signal.SIGTERM
    assert os.read(ours, 4096).endswith(b"\r\033[K")
    os.close(ours)
    os.close(theirs)
