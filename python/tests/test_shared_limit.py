"""Limits that processes share by a folder: rows by hand, processes that are killed, and `hikebox run --limit`."""

from __future__ import annotations

import os
import random
import signal
import subprocess
import sys
import threading
import time
from pathlib import Path
from typing import Any, List

import pytest
from conftest import python_environment
from limited import NEVER_OPEN, admitted, draws_as_grpc_says, reason
from processes import Workers, in_a_forked_child
from test_cli import hikebox, start  # noqa: F401
from test_file_store import copy_of, fill, path_of, small_disk  # noqa: F401
from test_run import wait_for

from hikebox import (
    Breaker,
    Bucket,
    Budget,
    CallLimit,
    InFlight,
    Limit,
    Quota,
    RefusalReason,
    Retrying,
    Throttle,
    exponential,
    recurs,
    spaced,
)
from hikebox.errors import StoreError
from hikebox.leased import FileStore, Leased, LeasedQuota
from hikebox.leased.shared import SharedLimit
from hikebox.limits import both
from hikebox.testing import VirtualClock

TOKENS = 400


def files_of(folder: Path) -> List[Path]:
    return [path for path in folder.rglob("*") if path.is_file()]


def level_of(folder: Path) -> int:
    """The tokens that are left in the one bucket of a folder."""
    (path,) = files_of(folder)
    return int.from_bytes(path.read_bytes()[32:40], "little") // 1000


# Rows


def test_what_a_retry_draws_on_or_asks_is_a_limit(tmp_path: Path) -> None:
    store = FileStore(tmp_path)
    grant = [Budget(1), Budget.rising(1), Quota(1, 0, 60), Leased(store, "a", 1), LeasedQuota(store, "a", 1, 0, 60)]
    kinds = [Bucket.aws(), InFlight.envoy(), Breaker(1, spaced(1)), Throttle.google()]
    asked = [*kinds, both(kinds[0], kinds[1]), SharedLimit(store, "a", Bucket.aws())]
    assert all(isinstance(limit, Limit) and not isinstance(limit, CallLimit) for limit in grant)
    assert all(isinstance(limit, Limit) and isinstance(limit, CallLimit) for limit in asked)
    for limit in (*grant, *asked):
        assert Retrying(recurs(1), limit=limit)(lambda: 5) == 5


def test_grpc_over_two_processes(tmp_path: Path) -> None:
    one, other = (SharedLimit(FileStore(tmp_path), "a", Bucket.grpc(4, 0.5)) for _ in range(2))
    draws_as_grpc_says(admitted(one), admitted(other))


def test_aws_gives_the_cost_back_once(tmp_path: Path) -> None:
    limit = SharedLimit(FileStore(tmp_path), "a", Bucket.aws())
    request = admitted(limit)
    assert request.draw(TimeoutError()) is None
    assert level_of(tmp_path) == 490
    request.succeeded()
    request.ended()
    assert level_of(tmp_path) == 500
    request = admitted(limit)
    assert request.draw() is None
    request.cancelled()
    request.cancelled()
    request.end(hands_back=True)
    assert level_of(tmp_path) == 500


def test_a_breaker_over_two_processes(tmp_path: Path) -> None:
    one, other = (
        SharedLimit(FileStore(tmp_path), "a", Breaker(2, exponential(2, 2), probe_deadline=60)) for _ in range(2)
    )
    now = VirtualClock(1000.0)
    one.clock = other.clock = now
    late = admitted(other)
    for limit in (one, other):
        admitted(limit).failed()
    now.advance(1.999)
    refusal = one.request().admit()
    assert refusal is not None and (refusal.reason, refusal.again_at) == (RefusalReason.BREAKER_OPEN, 1002.0)
    now.advance(0.001)
    probe = admitted(other)
    assert reason(one.request().admit()) is RefusalReason.PROBING
    late.failed()  # one of before, which changes nothing
    assert reason(one.request().admit()) is RefusalReason.PROBING
    probe.succeeded()
    assert one.request().admit() is None


@pytest.mark.parametrize("turns", [1, 2, 999])
def test_a_breaker_on_a_machine_that_runs_for_years(turns: int, tmp_path: Path) -> None:
    # 2^37 ms are four years and four months
    limit = SharedLimit(FileStore(tmp_path), "a", Breaker(1, spaced(30), probe_deadline=60))
    limit.clock = now = VirtualClock(2.0**37 / 1000 * turns - 10)
    admitted(limit).failed()
    assert reason(limit.request().admit()) is RefusalReason.BREAKER_OPEN
    now.advance(10)
    admitted(limit).failed()  # (it began anew)
    refusal = limit.request().admit()
    assert refusal is not None and refusal.again_at == pytest.approx(now() + 30, abs=0.001)
    now.advance(30)
    probe = admitted(limit)
    assert reason(limit.request().admit()) is RefusalReason.PROBING
    probe.succeeded()
    waits = admitted(limit)
    waits.failed()
    waits.cancelled()
    assert reason(limit.request().admit()) is RefusalReason.BREAKER_OPEN


def test_other_terms_and_names_have_counts_of_their_own(tmp_path: Path) -> None:
    store = FileStore(tmp_path)
    first = SharedLimit(store, "a", Bucket(1, cost=1))
    assert admitted(first).draw() is None
    assert reason(admitted(first).draw()) is RefusalReason.LEVEL_LOW
    for name, bucket in (("a", Bucket(2, cost=1)), ("a", Bucket(1, cost=1, refund=True)), ("b", Bucket(1, cost=1))):
        assert admitted(SharedLimit(store, name, bucket)).draw() is None
    # the cost is not of the bucket
    assert reason(admitted(SharedLimit(store, "a", Bucket(1, cost=0.5))).draw()) is RefusalReason.LEVEL_LOW


def test_open_times_by_their_last_one_and_long_ones(tmp_path: Path) -> None:
    store = FileStore(tmp_path)
    assert SharedLimit(store, "a", Breaker(1, spaced(30))).key == "breaker 1/1/30000/30000 of a"
    long = SharedLimit(store, "n" * 255, Breaker(2**32 - 1, exponential(0.001, 1.5), probes=15))
    assert len(long.key.encode()) <= 416
    assert admitted(long).draw() is None


def test_a_request_that_is_not_under_way_tells_nothing(tmp_path: Path) -> None:
    limit = SharedLimit(FileStore(tmp_path), "a", Breaker(1, spaced(30)))
    request = limit.request()
    for tells in (request.failed, request.succeeded):
        with pytest.raises(RuntimeError, match="^expected a request that was admitted, got none under way$"):
            tells()
    assert request.admit() is None
    request.failed()
    assert reason(limit.request().admit()) is RefusalReason.BREAKER_OPEN


def test_only_buckets_and_breakers_that_tell_no_changes(tmp_path: Path) -> None:
    breaker = Breaker(1, spaced(30), on_change=print)
    with pytest.raises(TypeError, match="^on_change: processes share <Breaker.*, and what others change is not told"):
        SharedLimit(FileStore(tmp_path), "a", breaker)
    with pytest.raises(TypeError, match="expected a Bucket or a Breaker, got <InFlight"):
        SharedLimit(FileStore(tmp_path), "a", InFlight.envoy())
    with pytest.raises(TypeError, match="or an Adaptive, got <SharedLimit"):
        both(SharedLimit(FileStore(tmp_path), "a", Bucket.aws()), Bucket.aws())


# A store that can't be reached


def test_a_store_that_can_not_be_reached_admits_and_grants_nothing(tmp_path: Path, caplog: Any) -> None:
    folder = tmp_path / "counts"
    limit = SharedLimit(FileStore(folder), "a", Breaker(1, spaced(60)))
    folder.write_text("a file")
    request = limit.request()
    assert request.admit() is None
    request.failed()
    refusal = request.draw()
    assert refusal is not None and refusal.reason is RefusalReason.UNREACHABLE
    assert isinstance(refusal.error, StoreError) and "expected a folder" in str(refusal.error)
    assert caplog.text.count("grants no retry until it can be reached") == 1
    # it is reached again: the request is admitted then
    folder.unlink()
    assert request.draw() is None
    request.failed()
    assert reason(limit.request().admit()) is RefusalReason.BREAKER_OPEN


def test_a_damaged_file_grants_nothing_and_is_left_as_it_is(tmp_path: Path) -> None:
    limit = SharedLimit(FileStore(tmp_path), "a", Bucket(1, cost=1))
    assert admitted(limit).draw() is None
    (path,) = files_of(tmp_path)
    path.write_bytes(bytes(1024))
    request = limit.request()
    assert request.admit() is None
    assert reason(request.draw()) is RefusalReason.LOST
    assert path.read_bytes() == bytes(1024)


def test_one_half_of_a_file_is_enough(tmp_path: Path) -> None:
    limit = SharedLimit(FileStore(tmp_path), "a", Bucket(2, cost=1))
    assert admitted(limit).draw() is None
    (path,) = files_of(tmp_path)
    with open(path, "r+b") as file:
        file.write(bytes(512))
    assert admitted(limit).draw() is None
    assert reason(admitted(limit).draw()) is RefusalReason.LEVEL_LOW


def test_another_start_of_the_machine(tmp_path: Path) -> None:
    store = FileStore(tmp_path)
    # an open breaker of another boot is closed, and an empty bucket stays empty
    for of, boot, word in (
        (Breaker(1, spaced(9999)), b"another boot".ljust(36, b"-"), 2**63 + 1),
        (Bucket(1, cost=1), bytes(36), 0),
    ):
        limit = SharedLimit(store, "a", of)
        path = path_of(tmp_path, limit.key.encode())
        path.parent.mkdir(parents=True, exist_ok=True)
        path.write_bytes(copy_of(limit.key.encode(), 1, 0, word, 1, boot) * 2)
        assert reason(admitted(limit).draw()) is (None if word else RefusalReason.LEVEL_LOW)


def test_a_full_disk_stops_no_limit_and_a_new_one_goes_on_when_there_is_room(small_disk: Path) -> None:  # noqa: F811
    store = FileStore(small_disk / "counts")
    limit = SharedLimit(store, "a", Bucket(9, cost=1))
    assert admitted(limit).draw() is None
    filled = fill(small_disk)
    for left in range(7, -1, -1):
        assert admitted(limit).draw() is None
        assert level_of(small_disk / "counts") == left
    assert reason(admitted(limit).draw()) is RefusalReason.LEVEL_LOW
    request = SharedLimit(store, "b", Bucket(1, cost=1)).request()
    assert request.admit() is None
    refusal = request.draw()
    assert refusal is not None and refusal.reason is RefusalReason.UNREACHABLE
    assert "No space left" in str(refusal.error)
    filled.unlink()
    assert request.draw() is None
    assert reason(request.draw()) is RefusalReason.LEVEL_LOW


# Processes


class Drawers(Workers):
    def count(self) -> int:
        return self.lines().count("drew")

    def lines(self) -> List[str]:
        return [line for path in self.folder.glob("notes-*") for line in path.read_text().splitlines()]


def test_no_token_is_drawn_twice_by_processes_that_are_killed(tmp_path: Path) -> None:
    notes = tmp_path / "notes"
    notes.mkdir()
    folder = tmp_path / "counts"
    workers = Drawers("shared_worker.py", notes)
    try:
        for kill in (None, 1, 7, 20, None, 33):
            workers.start({"file": str(folder), "tokens": TOKENS, "kill": kill})
        victims = [workers.start({"file": str(folder), "tokens": TOKENS}) for _ in range(4)]
        pick = random.Random(5)
        for victim in victims:
            time.sleep(pick.random() * 0.3)
            victim.kill()
        workers.wait()
    finally:
        workers.end()
    lines = workers.lines()
    drawn, given = lines.count("drew"), lines.count("gave")
    # a token in no line was lost with a process between its draw and the line; one that gave back in no line came back
    killed = 4 + len(victims)
    assert TOKENS + given - killed <= drawn + level_of(folder) <= TOKENS + given + len(victims)
    assert level_of(folder) == 0


def test_eight_threads_draw_each_token_once(tmp_path: Path) -> None:
    limit = SharedLimit(FileStore(tmp_path, patience=100), "a", Bucket(100, cost=1))
    granted: List[None] = []

    def draws() -> None:
        for _ in range(20):
            with limit.request() as request:
                assert request.admit() is None
                if request.draw() is None:
                    granted.append(None)

    threads = [threading.Thread(target=draws) for _ in range(8)]
    for thread in threads:
        thread.start()
    for thread in threads:
        thread.join()
    assert (len(granted), level_of(tmp_path)) == (100, 0)


def test_a_forked_child_has_no_request_of_its_parents(tmp_path: Path) -> None:
    limit = SharedLimit(FileStore(tmp_path), "a", Bucket(2, cost=1, refund=True))
    request = admitted(limit)
    assert request.draw() is None

    def child() -> None:
        # it would give back the token that its parent drew
        request.cancelled()
        request.end(hands_back=True)
        assert admitted(limit).draw() is None

    in_a_forked_child(child)
    assert level_of(tmp_path) == 0
    request.end(hands_back=True)
    assert level_of(tmp_path) == 1


# The program


def test_runs_share_a_bucket(tmp_path: Path) -> None:
    words = ["--limit", f"bucket:2000/0/1000/1000/0/0@{tmp_path}", "--policy", "recurs(9)", "-v", "--", "false"]
    status, _, errors = hikebox("run", *words)
    assert status == 1 and errors.count("next in") == 2
    status, _, errors = hikebox("run", *words)
    assert (status, errors) == (1, "hikebox: attempt 1: status 1; the bucket's level is too low\n")


def test_a_timeout_costs_more(tmp_path: Path) -> None:
    limit = f"bucket:10000/0/1000/10000/0/0@{tmp_path}"
    words = ["--limit", limit, "--policy", "recurs(1)", "--timeout", "0.1", "--kill-after", "0.1", "--", "sleep", "99"]
    assert hikebox("run", *words)[0] == 124
    assert level_of(tmp_path) == 0


def test_an_open_breaker_runs_nothing(tmp_path: Path) -> None:
    limit = ["--limit", f"breaker:2/1/30000@{tmp_path / 'counts'}", "--open", "spaced(0.5)"]
    ran = tmp_path / "ran"
    fails = ["--policy", "recurs(9)", "--", "sh", "-c", f"echo ran >> {ran}; exit 7"]
    assert hikebox("run", *limit, *fails)[0] == 7
    assert ran.read_text() == "ran\n" * 2
    status, output, errors = hikebox("run", *limit, *fails)
    if status == 75:
        assert (output, ran.read_text()) == ("", "ran\n" * 2)
        assert errors.startswith("hikebox: not run: the breaker is open for 0.") and errors.endswith(" s more\n")
    time.sleep(0.5)
    assert hikebox("run", *limit, "--", "true")[0] == 0
    assert hikebox("run", *limit, "--", "true")[0] == 0


def test_a_probe_that_is_killed_is_over_at_its_deadline(tmp_path: Path, start: Any) -> None:  # noqa: F811
    limit = ["--limit", f"breaker:1/1/3000@{tmp_path / 'counts'}", "--open", "spaced(0.01)"]
    assert hikebox("run", *limit, "--", "false")[0] == 1
    time.sleep(0.02)
    began = tmp_path / "began"
    before = time.monotonic()
    probe = start("run", *limit, "--", "sh", "-c", f"echo $$ > {began}; exec sleep 60")
    command = int(wait_for(began))
    since = time.monotonic()
    probe.send_signal(signal.SIGKILL)
    os.kill(command, signal.SIGKILL)  # (which nobody else ends)
    status, _, errors = hikebox("run", *limit, "--", "true")
    if time.monotonic() - before < 3:
        assert status == 75 and errors == "hikebox: not run: the breaker's probes are out\n"
    time.sleep(max(0.0, since + 3.05 - time.monotonic()))
    assert hikebox("run", *limit, "--", "true")[0] == 0


def test_a_run_that_ends_while_it_waits_gives_its_token_back(tmp_path: Path, start: Any) -> None:  # noqa: F811
    folder = tmp_path / "counts"
    words = ["--limit", f"bucket:1000/0/1000/1000/0/0@{folder}", "--policy", "spaced(60)", "-v", "--", "false"]
    run = start("run", *words)
    assert "next in" in run.stderr.readline()
    assert level_of(folder) == 0
    run.send_signal(signal.SIGTERM)
    assert run.wait(timeout=60) == 128 + signal.SIGTERM
    assert level_of(folder) == 1


#: The program, whose leases wait as long as another process holds the lock.
PATIENT = """
import sys
from hikebox.cli.main import main
from hikebox.leased import FileStore
FileStore.__init__.__kwdefaults__["patience"] = 100.0
sys.exit(main())
"""


def test_eight_runs_at_once_are_retried_as_often_as_there_are_tokens(tmp_path: Path) -> None:
    ran = tmp_path / "ran"
    words = ["run", "--limit", f"bucket:12000/0/1000/1000/0/0@{tmp_path / 'counts'}", "--policy", "recurs(5)", "--"]
    command = [sys.executable, "-c", PATIENT, *words, "sh", "-c", f"echo ran >> {ran}; exit 1"]
    runs = [subprocess.Popen(command, env=python_environment(), stderr=subprocess.PIPE) for _ in range(8)]
    assert [run.wait(timeout=100) for run in runs] == [1] * 8
    for run in runs:
        run.communicate()
    assert ran.read_text().count("ran") == 8 + 12


@pytest.mark.parametrize(
    "words, told",
    [
        (["--limit", "aws"], "--limit: expected N or LIMIT@FOLDER, such as 10/20%/60s@/run/lock/jobs, got 'aws'"),
        (["--limit", "aws@"], "--limit: expected N or LIMIT@FOLDER"),
        *(
            (
                ["--limit", f"{spelt}@x"],
                f"the deadline in milliseconds), such as grpc:10/100, got '{spelt}'",
            )
            for spelt in (
                "aws:",
                "azure",
                "grpc:10",
                "grpc:-1/0",
                "grpc:10/0.1",
                "bucket:1000/0/1000/1000/0/0+free",
                "breaker:5/1",
                "breaker:5/1/30s",
            )
        ),
        (["--limit", "grpc:0/0@x"], "hikebox: --limit: grpc:0/0: TOKENS: expected 1 to 1099511627, got 0\n"),
        (
            ["--limit", "bucket:1000/2000/1000/1000/0/0@x"],
            "hikebox: --limit: bucket:1000/2000/1000/1000/0/0: FLOOR: expected 0 to CAPACITY, got 2000\n",
        ),
        (
            ["--limit", "breaker:5/16/30000@x"],
            "hikebox: --limit: breaker:5/16/30000: PROBES: expected 1 to 15, got 16\n",
        ),
        (
            ["--limit", "breaker:0/1/30000@x"],
            "hikebox: --limit: breaker:0/1/30000: FAILURES: expected 1 to 4294967295, got 0\n",
        ),
        (["--limit", "10/1s@x"], "hikebox: --limit: expected RESERVE/SHARE%/PERIOD, such as 10/20%/60s (units: "),
        (["--limit", "breaker:5/1/30000@x", "--open", "stop()"], "--open: expected a policy that goes on"),
        (["--limit", "breaker:5/1/30000@x", "--open", "recurs(3)"], f"--open: {NEVER_OPEN.format('recurs(3)')}"),
        (["--limit", "inflight:3/200@x"], "would keep its place among those in flight for ever"),
        (["--limit", "throttle:2000/60000@x"], "it has two words, and a folder keeps one word of a limit"),
        (["--limit", "aws@x", "--open", "spaced(1)"], "--open: expected --limit breaker:.., got --limit aws"),
        (["--open", "spaced(1)"], "--open: expected --limit breaker:.. too, got no --limit"),
        (["--limit", "aws@x", "--limit", "aws@y"], "argument --limit: expected it once, got 'aws@y' too"),
        (["--limit", "3@"], "--limit: expected N or LIMIT@FOLDER, such as 10/20%/60s@/run/lock/jobs, got '3@'"),
        (["--limit", "3", "--limit", "4"], "argument --limit: expected it once, got '4' too"),
        (["--limit", "4294967297"], "--limit: expected a limit from 0 to 4294967296, got 4294967297, in '4294967297'"),
        (["--limit", "3@x", "--open", "spaced(1)"], "--open: expected --limit breaker:.., got --limit 3"),
        (["--limit", "1/1%/1s@x", "--open", "spaced(1)"], "--open: expected --limit breaker:.., got --limit 1/1%/1s"),
        (["--limit", "1/1%/0s@x"], "--limit: expected a window of at least 0.1 s, got 0.0, in '1/1%/0s'"),
    ],
)
def test_a_limit_that_is_spelt_wrong(words: List[str], told: str, tmp_path: Path) -> None:
    status, output, errors = hikebox("run", *words, "--", "true", cwd=tmp_path)
    assert (status, output) == (2, "")
    assert told in errors and "Traceback" not in errors
    assert not list(tmp_path.iterdir())


@pytest.mark.parametrize("option, word", [("--open", "30"), ("--open", "30s"), ("--policy", "breaker:5/1/30000")])
def test_a_word_that_is_neither_a_file_nor_a_policy(option: str, word: str, tmp_path: Path) -> None:
    words = ["run", "--limit", "breaker:5/1/30000@x", option, word, "--", "true"]
    told = f"hikebox: read failed: {word}: No such file or directory; expected a file, JSON or an expression, as "
    assert hikebox(*words, cwd=tmp_path) == (4, "", f"{told}spaced(30)\n")


def test_a_file_in_the_place_of_the_folder(tmp_path: Path) -> None:
    file = tmp_path / "file"
    file.write_text("")
    status, _, errors = hikebox("run", "--limit", f"aws@{file}", "--", "true")
    assert status == 2 and "expected a folder, got a file" in errors


def test_a_folder_that_can_not_be_made(tmp_path: Path) -> None:
    if os.geteuid() == 0:
        folder = Path("/proc/counts")
    else:
        tmp_path.chmod(0o500)
        folder = tmp_path / "counts"
    status, _, errors = hikebox("run", "--limit", f"aws@{folder}", "--policy", "recurs(3)", "--", "false")
    assert status == 1
    assert errors.count("\n") == 1 and errors.endswith("it grants no retry until it can be reached\n")
