"""Paces: rows by hand, a second program, threads, cancelled waits, forks, and one that processes share."""

from __future__ import annotations

import asyncio
import copy
import pickle
import random
import re
import signal
import subprocess
import sys
import threading
import time
from pathlib import Path
from typing import Any, List, Optional, Tuple

import pytest
from conftest import python_environment
from processes import in_a_forked_child
from test_cli import hikebox, start  # noqa: F401

from hikebox import (
    Adaptive,
    AsyncRetrying,
    Breaker,
    Bucket,
    Pace,
    Retrying,
    TooSoon,
    recurs,
    retry,
    spaced,
)
from hikebox.errors import StoreError, TermsError
from hikebox.leased import FileStore, LeasedPace, RedisStore
from hikebox.pace import Pacing
from hikebox.testing import VirtualClock, no_waits


class Told:
    """A pace whose clock is set by hand, and that sleeps no time: the moments that it tells, in milliseconds."""

    def __init__(self, *terms: Any, **how: Any) -> None:
        self.clock = VirtualClock()
        self.slept: List[float] = []
        self.pace = Pace(*terms, clock=self.clock, sleep=self.slept.append, **how)

    def at(self, now: int, cost: int = 1) -> Any:
        """What a call is told at this moment: when it begins, or that it is too soon until then."""
        self.clock.advance(now / 1000 - self.clock())
        try:
            wait = self.pace.take(cost)
        except TooSoon as soon:
            assert soon.again_at is not None
            return "TooSoon", round(soon.again_at * 1000)
        self.last = wait
        wait.begins()
        return round(wait.at * 1000)


# Rows


def test_a_burst_of_three_and_then_ten_a_second() -> None:
    told = Told(10, 1, burst=3, longest=0.25)
    assert [told.at(0) for _ in range(5)] == [0, 0, 0, 100, 200]
    fifth = told.last
    assert told.at(0) == ("TooSoon", 50)
    assert told.at(50) == 300
    assert told.at(50) == ("TooSoon", 150)
    fifth.give_back()  # which is not the last one any more
    assert told.at(150) == 400
    told.last.give_back()
    assert told.at(150) == 400
    assert told.at(5000) == 5000


def test_starts_are_rounded_up() -> None:
    told = Told(3, 0.999999 + 0.000001, longest=1000)
    assert told.pace.terms.each == 333_334  # microseconds, rounded up
    told = Told(1, 1, burst=1, longest=1000)
    assert [told.at(0) for _ in range(3)] == [0, 1000, 2000]


def test_what_a_call_would_wait_now_takes_nothing() -> None:
    told = Told(10, 1)
    assert (told.pace.seen(), told.at(0), told.pace.seen(), told.pace.seen(), told.at(0)) == (0.0, 0, 0.1, 0.1, 100)


def test_a_dear_call_takes_the_place_of_several() -> None:
    told = Told(10, 1, burst=4)
    assert [told.at(0, cost=3), told.at(0), told.at(0), told.at(0, cost=4)] == [0, 0, 100, 500]


def gcra(each: int, burst: int, longest: int, due: int, now: int, cost: int) -> Tuple[Any, int]:
    """The generic cell rate algorithm, with the moments that the page has: what is told, and what is due then."""
    later = max(due, now * 1000) + cost * each
    at = -(-max(now * 1000, later - burst * each) // 1000)
    return (at, later) if at - now <= longest else (("TooSoon", at - longest), due)


def test_a_second_program_tells_the_same() -> None:
    seed = random.Random(20261129)
    for _ in range(100):
        calls, per, burst, longest = seed.randint(1, 50), seed.randint(1, 5), seed.randint(1, 20), seed.randint(0, 3000)
        told, due, now = Told(calls, per, burst=burst, longest=longest / 1000), 0, 0
        each = -(-per * 10**6 // calls)
        for _ in range(40):
            now, cost = now + seed.choice((0, 0, 1, 50, 900)), seed.randint(1, burst)
            before = due
            answer, due = gcra(each, burst, longest, due, now, cost)
            assert told.at(now, cost) == answer
            if isinstance(answer, int) and seed.random() < 0.2:
                told.last.give_back()
                due = due - cost * each if due != before else due


# Waiting


def test_a_call_sleeps_until_its_moment(clock: Any) -> None:
    pace = Pace(10, 1, clock=clock, sleep=clock.sleep)
    assert [pace.wait() for _ in range(3)] == [0.0, 0.1, pytest.approx(0.1)]
    with pace:
        assert clock() == pytest.approx(0.3)
    assert clock.slept == pytest.approx([0.1, 0.1, 0.1])


def test_a_clock_may_begin_below_0() -> None:
    # every two seconds from the first call on, as on a clock that begins at 0
    clock = VirtualClock(-3.0)
    pace = Pace(1, 2, longest=3, clock=clock, sleep=clock.sleep)
    assert [(pace.seen(), pace.wait(), clock()) for _ in range(3)] == [(-3, 0, -3), (-1, 2, -1), (1, 2, 1)]
    clock.advance(-3.5)
    with pytest.raises(TooSoon) as raised:
        pace.wait()
    # the next one is at 3, and waits three seconds at most
    assert (raised.value.wait, raised.value.longest, raised.value.again_at) == (5.5, 3, 0)
    clock.advance(2.5)
    assert (pace.wait(), clock()) == (3, 3)


def test_each_attempt_waits_and_a_deadline_bounds_the_wait(clock: Any) -> None:
    pace, begun = Pace(1, 10, clock=clock, sleep=clock.sleep), []

    @retry(recurs(9) & spaced(1), on=ValueError, clock=clock, sleep=clock.sleep, deadline=25)
    @pace
    def fetch() -> None:
        begun.append(clock())
        raise ValueError

    with pytest.raises(TooSoon) as raised:
        fetch()
    assert begun == [0.0, 10.0, 20.0]
    assert (raised.value.wait, raised.value.longest) == pytest.approx((9, 4)) and raised.value.again_at is None
    said = "the pace asks for a wait of 9.000 s, and the deadline leaves 4.000 s"
    assert str(raised.value) == str(pickle.loads(pickle.dumps(raised.value))) == said
    assert pace.seen() == 30.0  # the call that did not begin has given its place back


def test_too_soon_says_when(clock: Any) -> None:
    pace = Pace(1, 10, longest=4, clock=clock)
    pace.wait()
    with pytest.raises(
        TooSoon, match=r"^expected a wait of at most 4.000 s for the pace, got one of 10.000 s$"
    ) as raised:
        pace.wait()
    assert raised.value.again_at == 6.0
    again = pickle.loads(pickle.dumps(raised.value))
    assert (again.wait, again.longest, again.again_at, str(again)) == (10.0, 4.0, 6.0, str(raised.value))


def test_a_wait_that_is_ended_gives_its_place_back(clock: Any) -> None:
    def ends(_: float) -> None:
        raise KeyboardInterrupt

    pace = Pace(1, 10, clock=clock, sleep=ends)
    pace.wait()
    for _ in range(3):
        with pytest.raises(KeyboardInterrupt):
            pace.wait()
        assert pace.seen() == 10.0


def test_waits_may_be_left_out() -> None:
    pace = Pace(1, 3600)
    with no_waits():
        assert [pace.wait() > 0 for _ in range(3)] == [False, True, True]


def test_a_decorated_function_is_the_one_it_was() -> None:
    pace = Pace(1000, 1, burst=1000)

    @pace
    def fetch(path: str) -> str:
        """Fetches."""
        return path

    assert (fetch("/a"), fetch.__name__, fetch.__doc__) == ("/a", "fetch", "Fetches.")
    wrong: Any
    for wrong in (5, int):
        with pytest.raises(TypeError, match="^a pace is put on a function, got "):
            pace(wrong)
    with pytest.raises(TypeError, match="use the pace inside it$"):

        @pace
        def several() -> Any:
            yield 1


# A limit beside a pace

WAYS = ["calls", "a loop", "coroutines", "an async loop", "hedged"]


def calls_once(way: str, waits: Pacing, raises: Optional[Exception] = None, **how: Any) -> None:
    """One call that waits for this pace, and then raises this."""

    @waits
    def call() -> None:
        if raises is not None:
            raise raises

    @waits
    async def call_later() -> None:
        if raises is not None:
            raise raises

    async def in_an_async_loop() -> None:
        async for attempt in AsyncRetrying(recurs(1), **how):
            with attempt:
                await call_later()

    if way == "calls":
        Retrying(recurs(1), **how)(call)
    elif way == "a loop":
        for attempt in Retrying(recurs(1), **how):
            with attempt:
                call()
    elif way == "an async loop":
        asyncio.run(in_an_async_loop())
    else:
        hedge: Any = {"hedge_after": 60} if way == "hedged" else {}
        awaited: Any = AsyncRetrying(recurs(1), **how, **hedge)(call_later)
        asyncio.run(awaited)


@pytest.mark.parametrize("on", [OSError, TooSoon])
@pytest.mark.parametrize("way", WAYS)
def test_a_limit_hears_of_no_call_that_its_pace_does_not_let_begin(way: str, on: Any) -> None:
    breaker, spent = Breaker(1, spaced(60)), Pace(1, 3600, longest=1)
    spent.wait()
    with pytest.raises(TooSoon):
        calls_once(way, spent, limit=breaker, on=on)
    assert breaker.state.value == "closed"
    with pytest.raises(ValueError, match="^the peer's$"):
        calls_once(way, Pace(1000, 1, burst=1000), ValueError("the peer's"), limit=breaker, on=on)
    assert breaker.state.value == "open"


def test_a_call_that_does_not_begin_takes_nothing_of_a_limit() -> None:
    bucket, adaptive, spent = Bucket.grpc(4, 0.5), Adaptive(first=20), Pace(1, 3600, longest=1)
    spent.wait()
    for limit in (bucket, adaptive):
        for _ in range(3):
            with pytest.raises(TooSoon):
                calls_once("calls", spent, limit=limit, on=OSError)
    assert (bucket.seen().level, adaptive.seen()) == (4.0, (0, 20.0))


@pytest.mark.parametrize("way", WAYS)
def test_a_limit_hears_of_no_store_that_a_pace_cannot_reach(way: str, tmp_path: Path) -> None:
    breaker, pace = Breaker(1, spaced(60)), LeasedPace(FileStore(tmp_path / "paces"), "peer", 10, 1)
    (tmp_path / "paces").write_text("no folder")
    with pytest.raises(StoreError):
        calls_once(way, pace, limit=breaker)
    assert breaker.state.value == "closed"
    # (a store that the call itself asks is its peer)
    with pytest.raises(StoreError, match="^its own$"):
        calls_once(way, Pace(1000, 1, burst=1000), StoreError("its own"), limit=breaker)
    assert breaker.state.value == "open"


# Coroutines


@pytest.mark.parametrize("library", ["asyncio", "trio"])
def test_coroutines_wait_and_one_that_is_cancelled_gives_its_place_back(library: str) -> None:
    runs: Any = pytest.importorskip("trio") if library == "trio" else asyncio
    pace = Pace(1, 3600, burst=2)

    @pace
    async def fetch() -> str:
        return "fetched"

    async def main() -> None:
        assert await fetch() == "fetched"
        async with pace as entered:
            assert entered is pace
        before = pace.seen()
        if library == "trio":
            with runs.move_on_after(0.01) as scope:
                await pace.wait_async()
            assert scope.cancelled_caught
        else:
            with pytest.raises(asyncio.TimeoutError):
                await asyncio.wait_for(pace.wait_async(), 0.01)
        assert pace.seen() == before

    runs.run(main) if library == "trio" else runs.run(main())


def test_a_coroutine_sleeps_by_what_it_is_given(clock: Any) -> None:
    pace = Pace(10, 1, clock=clock, sleep=clock.sleep_async)

    async def main() -> List[float]:
        return [await pace.wait_async() for _ in range(2)]

    assert asyncio.run(main()) == [0.0, 0.1]


# Threads and processes


def test_threads_begin_no_two_calls_in_one_place() -> None:
    pace, moments, lock = Pace(1000, 1, clock=lambda: 0.0), [], threading.Lock()

    def takes() -> None:
        for _ in range(500):
            wait = pace.take(1)
            wait.begins()
            with lock:
                moments.append(round(wait.at * 1000))

    threads = [threading.Thread(target=takes) for _ in range(8)]
    for thread in threads:
        thread.start()
    for thread in threads:
        thread.join()
    assert sorted(moments) == list(range(4000))


def test_a_forked_child_begins_with_a_fresh_one() -> None:
    pace = Pace(1, 3600, clock=lambda: 5.0)
    pace.wait()
    assert pace.seen() == 3605.0

    def in_the_child() -> None:
        assert pace.seen() == 5.0
        pace.wait()
        assert pace.seen() == 3605.0

    in_a_forked_child(in_the_child)
    assert pace.seen() == 3605.0


def test_a_copy_is_the_pace_itself() -> None:
    pace = Pace(1, 1)
    assert copy.copy(pace) is pace and copy.deepcopy(pace) is pace
    with pytest.raises(TypeError, match="^a Pace belongs to its process$"):
        pickle.dumps(pace)


def test_an_exception_of_a_signal_at_any_moment_breaks_nothing() -> None:
    """A handler raises each 0.2 ms while calls are taken: afterwards no two begin in one place."""
    pace, moments = Pace(1000, 1, clock=lambda: 0.0), []

    class Rings(Exception):
        pass

    def ring(*_: Any) -> None:
        raise Rings

    before = signal.signal(signal.SIGALRM, ring)
    try:
        signal.setitimer(signal.ITIMER_REAL, 0.0002, 0.0002)
        rung, until = 0, time.monotonic() + 60
        while rung < 200 and time.monotonic() < until:
            try:
                wait = pace.take(1)
                wait.begins()
                moments.append(round(wait.at * 1000))
            except Rings:
                rung += 1
    except Rings:
        pass
    finally:
        signal.setitimer(signal.ITIMER_REAL, 0)
        signal.signal(signal.SIGALRM, before)
    assert len(set(moments)) == len(moments)
    last = pace.take(1)
    assert round(last.at * 1000) > max(moments, default=-1)


# Terms


@pytest.mark.parametrize(
    ("terms", "how", "told"),
    [
        ((0, 1), {}, "calls: expected 1 to 1099511627776, got 0"),
        ((1, 0), {}, "expected from a microsecond to 1099511 seconds a call, got 1 in 0"),
        ((1_000_001, 1), {}, "expected from a microsecond to 1099511 seconds a call, got 1000001 in 1"),
        ((10**7, 1), {"burst": 20}, "expected from a microsecond to 1099511 seconds a call, got 10000000 in 1"),
        ((1, 2_000_000), {}, "expected from a microsecond to 1099511 seconds a call, got 1 in 2000000"),
        ((1, 1), {"burst": 0}, "burst: expected 1 to 1048576, got 0"),
        ((1, 1), {"burst": 2**20 + 1}, "burst: expected 1 to 1048576, got 1048577"),
        ((1, 1), {"longest": 10**9}, "longest: expected at most 137438953 seconds, got 1000000000"),
        ((1, -1), {}, "per: expected 0 to 4611686018427387.903 seconds, got -1"),
    ],
)
def test_terms_out_of_range(terms: Any, how: Any, told: str) -> None:
    with pytest.raises(TermsError) as raised:
        Pace(*terms, **how)
    assert str(raised.value) == told


def test_terms_of_other_types() -> None:
    with pytest.raises(TypeError, match="^calls: expected a whole number, got 1.5$"):
        Pace(1.5, 1)  # type: ignore[arg-type]
    with pytest.raises(TypeError, match="^cost: expected a whole number, got True$"):
        Pace(1, 1).wait(True)
    with pytest.raises(TermsError, match="^cost: expected 1 to 3, got 4$"):
        Pace(1, 1, burst=3).wait(4)
    with pytest.raises(TypeError, match="^clock: expected a function, got 5$"):
        Pace(1, 1, clock=5)  # type: ignore[arg-type]
    with pytest.raises(TypeError, match="^sleep: expected a function, got 5$"):
        Pace(1, 1, sleep=5)  # type: ignore[arg-type]
    assert Pace(10**6, 1).terms.each == 1  # microsecond, the least
    assert repr(Pace(10, 1, burst=20, longest=2.5)) == "<Pace(10, 1, burst=20, longest=2.5)>"


# Over processes


def test_two_stores_of_one_folder_have_one_pace(tmp_path: Path) -> None:
    paces = [LeasedPace(FileStore(tmp_path), "peer", 1, 3600, burst=2, longest=60) for _ in range(2)]
    assert [pace.take(1).at <= time.monotonic() for pace in paces] == [True, True]
    for pace in paces:
        with pytest.raises(TooSoon) as raised:
            pace.take(1)
        assert raised.value.wait == pytest.approx(3600, abs=60)
    assert LeasedPace(FileStore(tmp_path), "other", 1, 3600).take(1).at <= time.monotonic()


def test_a_place_in_a_folder_comes_back(tmp_path: Path) -> None:
    pace = LeasedPace(FileStore(tmp_path), "peer", 1, 3600, burst=1, longest=36000)
    pace.take(1)
    second = pace.take(1)
    second.give_back()
    assert pace.take(1).at - time.monotonic() == pytest.approx(3600, abs=60)


def test_a_folder_that_cannot_be_reached(tmp_path: Path) -> None:
    pace = LeasedPace(FileStore(tmp_path / "paces"), "peer", 10, 1)
    (tmp_path / "paces").write_text("no folder")
    with pytest.raises(StoreError):
        pace.wait()


def test_processes_keep_one_pace(tmp_path: Path) -> None:
    """Eight processes take 50 calls each, in places of which each is of one."""
    code = (
        "import sys, time; from hikebox.leased import FileStore, LeasedPace\n"
        "store = FileStore(sys.argv[1], patience=100)\n"
        "pace = LeasedPace(store, 'peer', 1, 1, burst=1)\n"
        "for _ in range(50): print(store.take_of_pace('peer', pace.terms, 1).mark, flush=True)\n"
    )
    words = [sys.executable, "-c", code, str(tmp_path)]
    workers = [subprocess.Popen(words, stdout=subprocess.PIPE, env=python_environment()) for _ in range(8)]
    marks = [int(line) for worker in workers for line in worker.communicate(timeout=100)[0].split()]
    assert len(marks) == 400 and sorted(marks)[-1] - sorted(marks)[0] >= 399 * 10**6
    between = [later - mark for mark, later in zip(sorted(marks), sorted(marks)[1:])]
    assert min(between) == 10**6


def engine_taken(terms: Any, now: int, cost: int, before: int) -> Tuple[bool, int, int]:
    """What the engine answers where this is due."""
    from hikebox._engine.paces import pace_taken
    from hikebox._engine.structs import Kept

    return pace_taken(terms, now, cost, Kept(True, before))


def test_redis_answers_as_the_engine(redis_server: Any) -> None:
    from hikebox.leased.redis_store import PACE

    server = redis_server()
    client, seed = server.client(), random.Random(5)
    script = client.register_script(PACE)
    for number in range(40):
        terms = (seed.randint(1, 10**6), seed.randint(1, 50), seed.choice((0, 5, 100, 10**6)))
        for _ in range(25):
            cost = seed.randint(1, terms[1])
            found = script(keys=[f"pace {number}"], args=[*terms, cost, 60_000])
            now, before, granted, at, due = map(int, found)
            assert (granted == 1, at, due if granted else 0) == engine_taken(terms, now, cost, before)
            if seed.random() < 0.1:
                far = now * 1000 + seed.randint(-(10**6), 10**6)
                client.set(f"pace {number}", far)


def test_machines_keep_one_pace_by_redis(redis_server: Any) -> None:
    server = redis_server()
    paces = [LeasedPace(RedisStore(server.client()), "peer", 1, 3600, burst=2, longest=36000) for _ in range(2)]
    waits = [pace.take(1) for pace in (*paces, *paces)]
    offsets = [wait.at - time.monotonic() for wait in waits]
    assert offsets == pytest.approx([0, 0, 3600, 7200], abs=60)
    waits[3].give_back()
    waits[3].give_back()
    assert paces[0].take(1).at - time.monotonic() == pytest.approx(7200, abs=60)
    waits[2].give_back()  # which is not the last one any more
    assert paces[0].take(1).at - time.monotonic() == pytest.approx(10800, abs=60)
    server.stop()
    with pytest.raises(StoreError):
        paces[1].take(1)


def test_redis_counts_exactly_or_refuses(redis_server: Any) -> None:
    pace = LeasedPace(RedisStore(redis_server().client()), "peer", 1, 10**6, burst=2**20)
    with pytest.raises(
        TermsError, match="^expected calls in at most 4503599627 s in Redis, got 1048576 of 1000000000000 us$"
    ):
        pace.take(1)


# The command line


def test_runs_keep_a_pace(tmp_path: Path) -> None:
    words = ("run", "--pace", f"1/1h@{tmp_path}", "--deadline", "5", "--", "true")
    assert hikebox(*words) == (0, "", "")
    status, output, errors = hikebox(*words)
    assert (status, output) == (75, "")
    told = r"hikebox: not run: the pace asks for a wait of 3\d{3}\.\d{3} s, and the deadline leaves [45]\.\d{3} s\n"
    assert re.fullmatch(told, errors)


def test_a_run_that_has_failed_ends_with_that_status(tmp_path: Path) -> None:
    words = ["run", "--verbose", "--deadline", "5", "--policy", "recurs(3)", "--pace"]
    said = "hikebox: attempt 1: status 7; next in 0.000 s\nhikebox: attempt 1: status 7; "
    fails = [f"1/1h@{tmp_path / 'jobs'}", "--", "sh", "-c", "echo up; exit 7"]
    assert hikebox(*words, *fails) == (7, "up\n", f"{said}its pace leaves no time for another attempt\n")
    assert hikebox(*words, *fails)[0] == 75
    breaks = [f"2/1h/2@{tmp_path / 'other'}", "--", "sh", "-c", 'rm -r "$1"; : > "$1"; exit 7', "-", tmp_path / "other"]
    status, output, errors = hikebox(*words, *map(str, breaks))
    assert (status, output) == (7, "") and errors.startswith(f"{said}{tmp_path / 'other'}: ")


def test_runs_that_their_pace_does_not_let_begin_open_no_breaker(tmp_path: Path) -> None:
    limits = ["--limit", f"breaker:1/1/30000@{tmp_path}", "--pace", f"1/1h@{tmp_path}", "--deadline", "5"]
    assert hikebox("run", *limits, "--", "true") == (0, "", "")
    for _ in range(2):
        status, _, errors = hikebox("run", *limits, "--", "true")
        assert status == 75 and errors.startswith("hikebox: not run: the pace asks for a wait of 3")


def test_a_signal_ends_the_wait_for_a_pace(tmp_path: Path, start: Any) -> None:  # noqa: F811
    assert hikebox("run", "--pace", f"1/1h@{tmp_path}", "--", "true")[0] == 0
    process = start("run", "--verbose", "--pace", f"1/1h@{tmp_path}", "--", "true")
    line = process.stderr.readline()
    assert line.startswith("hikebox: attempt 1: begins in 3") and line.endswith(" s, by its pace\n")
    process.send_signal(signal.SIGTERM)
    assert process.wait(timeout=60) == 128 + signal.SIGTERM


@pytest.mark.parametrize(
    ("pace", "told"),
    [
        ("10/1s", "--pace: expected RUNS/PERIOD[/BURST]@FOLDER, such as 10/1s@/run/lock/jobs, got '10/1s'"),
        ("10/1@/tmp", "--pace: expected RUNS/PERIOD or RUNS/PERIOD/BURST, such as 10/1s or 100/1m/20"),
        ("0/1s@/tmp", "--pace: calls: expected 1 to 1099511627776, got 0"),
        ("10000000/1s@/tmp", "--pace: expected from a microsecond to 1099511 seconds a call, got 10000000 in 1.0"),
    ],
)
def test_paces_that_are_wrongly_spelt(pace: str, told: str) -> None:
    status, output, errors = hikebox("run", "--pace", pace, "--", "true")
    assert status == 2 and told in errors
