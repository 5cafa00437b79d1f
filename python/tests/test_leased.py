"""Budgets that processes share: by a file, and by a Redis server of the test's own."""

from __future__ import annotations

import asyncio
import math
import pickle
import random
import select
import socket
import threading
import time
from datetime import timedelta
from pathlib import Path
from typing import Any, Dict, List, Tuple

import pytest

from draws import SCRIPTED, drawn_by, number
from processes import Workers, in_a_forked_child
from hikebox import (
    AsyncRetrying,
    LimitError,
    Ending,
    Retrying,
    StoreError,
    StoreLost,
    TermsError,
    recurs,
    spaced,
    state_of,
)
from hikebox._engine.leasing import Stored, lease_of_budget
from hikebox.leased import FileStore, Leased, LeasedQuota, Range, RedisStore, redis_store


class Drawers(Workers):
    """Processes that draw tickets, and what they wrote down."""

    def look_at(self, number: int, output: str) -> None:
        # it says how many tickets it drew, and wrote as many down
        assert int(output) == len(self.lines(number))

    def count(self) -> int:
        return len(self.drawn())

    def lines(self, number: int, kind: str = "") -> List[str]:
        """The lines that a process has written to their end: those of its tickets, or of its pauses."""
        path = self.notes_of(number)
        lines = path.read_text().rpartition("\n")[0].splitlines() if path.exists() else []
        return [line for line in lines if line.startswith("paused") == (kind == "paused")]

    def pauses(self) -> List[Tuple[int, int]]:
        """The moments between which a process was held up by the machine."""
        lines = [line for number in range(len(self.processes)) for line in self.lines(number, "paused")]
        return [(int(began), int(ended)) for _, began, ended in map(str.split, lines)]

    def drawn(self) -> List[Tuple[int, int, int]]:
        """Each ticket with the moments before and after its draw, by the machine's uptime in milliseconds."""
        lines = [line for number in range(len(self.processes)) for line in self.lines(number) if " " in line]
        return [(int(ticket), int(before), int(after)) for ticket, before, after in map(str.split, lines)]

    def tickets(self) -> List[int]:
        return sorted(ticket for ticket, _, _ in self.drawn())


@pytest.fixture
def workers(tmp_path: Path) -> Any:
    made = Drawers("leased_worker.py", tmp_path)
    yield made
    made.end()


# One process


def test_a_budget_in_a_file(tmp_path: Path) -> None:
    store = FileStore(tmp_path / "counts")
    first = Leased(store, "a", limit=10, lease=4)
    second = Leased(FileStore(tmp_path / "counts"), "a", limit=10, lease=4)
    assert [number(first.draw()) for _ in range(5)] == [0, 1, 2, 3, 4]
    assert [number(second.draw()) for _ in range(4)] == [8, 9, None, None]
    assert [number(first.draw()) for _ in range(5)] == [5, 6, 7, None, None]
    assert (first.granted, second.granted) == (8, 2)
    assert number(Leased(store, "b", limit=1).draw()) == 0
    assert not Leased(store, "a", limit=10).draw()
    assert number(Leased(store, "a", limit=11).draw()) == 10
    assert not Leased(store, "none", limit=0).draw()


def test_parameters() -> None:
    store = FileStore("/nowhere/counts")
    assert [Leased(store, "a", limit).lease for limit in (0, 63, 640, 10**6)] == [1, 1, 10, 1000]
    for bad in ({"limit": -1}, {"limit": 2**52}, {"limit": 1, "lease": 0}, {"limit": 1, "per": 0}):
        with pytest.raises(LimitError):
            Leased(store, "a", **bad)  # type: ignore[arg-type]
    far: List[Dict[str, Any]] = [{"lease": 2**32 + 1}, {"spare": -1}, {"spare": 2**33}]
    for too_far in far + [{"again_after": -1}, {"again_after": math.nan}, {"again_after": math.inf}]:
        with pytest.raises(TermsError, match="expected .*, got"):
            Leased(store, "a", 5, **too_far)
        with pytest.raises(TermsError, match="expected .*, got"):
            LeasedQuota(store, "a", 5, 0.2, 1, **too_far)
    wrong: List[Dict[str, Any]] = [{"lease": "1"}, {"lease": 1.5}, {"lease": True}, {"spare": 1.5}, {"spare": True}]
    for of_a_type in wrong + [{"again_after": "1"}, {"again_after": timedelta(seconds=1)}, {"again_after": True}]:
        with pytest.raises(TypeError, match="expected a .*number of .*, got"):
            Leased(store, "a", 5, **of_a_type)
    no_store: Any = "/nowhere/counts"
    with pytest.raises(TypeError, match=r"expected a store, such as FileStore\(path\), got '/nowhere/counts'"):
        Leased(no_store, "a", 5)
    with pytest.raises(TypeError, match=r"expected a store, such as FileStore\(path\), got '/nowhere/counts'"):
        LeasedQuota(no_store, "a", 5, 0.2, 1)
    leased = Leased(store, "a", 5, per=60)
    assert repr(leased) == "Leased(FileStore('/nowhere/counts'), 'a', limit=5, per=60, lease=1)"
    with pytest.raises(TypeError):
        pickle.dumps(leased)


def test_windows_of_a_file(tmp_path: Path, monkeypatch: Any) -> None:
    now = [0.0]
    monkeypatch.setattr("hikebox.leased.file_store.shared_uptime", lambda: round(now[0] * 10**9))
    store = FileStore(tmp_path / "counts")
    first, second = (Leased(store, "a", limit=3, per=0.2, clock=lambda: now[0]) for _ in range(2))
    for window in (35, 36, 37, 39, 50):
        now[0] = window * 0.2 + 0.001
        assert [number(first.draw()), number(second.draw()), number(first.draw())] == [0, 1, 2]
        assert [number(second.draw()), number(first.draw())] == [None, None]
        now[0] = window * 0.2 + 0.199
        assert [number(second.draw()), number(first.draw())] == [None, None]


def test_windows_of_a_file_go_by_the_machines_uptime(tmp_path: Path) -> None:
    def window() -> int:
        return int(time.clock_gettime(time.CLOCK_BOOTTIME) * 5)

    store = FileStore(tmp_path / "counts")
    budgets = [Leased(store, "a", limit=3, per=0.2) for _ in range(2)]
    counted: Dict[int, List[int]] = {}
    until = time.monotonic() + 60
    while len(counted) < 6 and time.monotonic() < until:
        for budget in budgets:
            before, ticket = window(), number(budget.draw())
            # a ticket that was drawn while a window ended is left out
            if ticket is not None and before == window():
                counted.setdefault(before, []).append(ticket)
    assert len(counted) == 6
    assert all(len(set(tickets)) == len(tickets) and set(tickets) <= {0, 1, 2} for tickets in counted.values())


class Stub:
    """A store that answers what the test says."""

    def __init__(self, *answers: Any) -> None:
        self.answers = list(answers)
        self.asked = 0

    def take(self, name: str, count: int, limit: int, period: Any, clock: Any) -> Range:
        self.asked += 1
        answer = self.answers.pop(0) if len(self.answers) > 1 else self.answers[0]
        if isinstance(answer, Exception):
            raise answer
        return Range(*answer)


def test_a_lease_is_not_drawn_from_past_its_moment() -> None:
    now = [0.0]
    store = Stub((0, 5, 10.0, 0), (0, 5, 20.0, 1))
    leased = Leased(store, "a", 5, per=10, clock=lambda: now[0])
    assert [number(leased.draw()), number(leased.draw())] == [0, 1]
    now[0] = 10.0
    assert number(leased.draw()) == 0 and store.asked == 2
    assert leased.granted == 3


def test_a_store_that_has_nothing_is_not_asked_again_before_its_moment() -> None:
    now = [0.0]
    store = Stub((0, 0, 10.0, 0), (0, 5, 20.0, 1))
    leased = Leased(store, "a", 5, per=10, clock=lambda: now[0])
    assert [number(leased.draw()) for _ in range(5)] == [None] * 5 and store.asked == 1
    now[0] = 10.0
    assert number(leased.draw()) == 0
    spent = Stub((5, 0, None))
    leased = Leased(spent, "a", 5, clock=lambda: now[0])
    assert [number(leased.draw()) for _ in range(5)] == [None] * 5 and spent.asked == 1


def test_leases_that_are_over_when_they_come() -> None:
    store = Stub((0, 5, 1.0, 0), (0, 5, 1.1, 1), (0, 5, 1.2, 2))
    leased = Leased(store, "a", 5, per=1, clock=lambda: 2.0)
    assert not leased.draw() and store.asked == 3
    assert not leased.draw() and store.asked == 3


def test_a_store_that_can_not_be_reached_grants_nothing_or_the_reserve(caplog: Any) -> None:
    now = [0.0]
    store = Stub((0, 2, None), StoreError("gone"), StoreError("gone"), (2, 1, None), StoreError("gone"))
    leased = Leased(store, "a", 100, lease=2, spare=2, clock=lambda: now[0])
    assert [number(leased.draw()) for _ in range(6)] == [0, 1, -1, -2, None, None]
    assert store.asked == 2
    now[0] = 1.0
    assert not leased.draw() and store.asked == 3
    now[0] = 2.0
    assert [number(leased.draw()), number(leased.draw())] == [2, None]
    assert leased.granted == 5
    assert [record.getMessage() for record in caplog.records] == [
        "a: gone; it grants nothing until it can be reached"
    ] * 2
    nothing = Leased(Stub(StoreError("gone")), "a", 100)
    assert not nothing.draw() and nothing.granted == 0


def test_the_reserve_of_a_period() -> None:
    now = [0.0]
    leased = Leased(Stub(StoreError("gone")), "a", 9, per=10, spare=1, clock=lambda: now[0])
    assert [number(leased.draw()), number(leased.draw())] == [-1, None]
    now[0] = 10.0
    assert [number(leased.draw()), number(leased.draw())] == [-1, None]
    assert leased.granted == 2


def test_retries_draw_on_it(tmp_path: Path) -> None:
    leased = Leased(FileStore(tmp_path / "counts"), "a", limit=5, lease=2)
    retrying = Retrying(recurs(3), limit=leased)
    endings = []
    for _ in range(2):
        with pytest.raises(ValueError) as caught:
            retrying(int, "no number")
        state = state_of(caught.value)
        assert state is not None
        endings.append((state.ending, state.granted))
    assert endings == [(Ending.SCHEDULE_DONE, 3), (Ending.LIMIT_REFUSED, 2)]


def test_coroutines_draw_on_it_and_others_go_on_meanwhile(tmp_path: Path) -> None:
    beats: List[int] = []

    class Slow(FileStore):
        """Takes as long as a coroutine needs to go on."""

        def take(self, *words: Any) -> Range:
            goal, until = len(beats) + 2, time.monotonic() + 60
            while len(beats) < goal:
                assert time.monotonic() < until
                time.sleep(0.001)
            return super().take(*words)

    leased = Leased(Slow(tmp_path / "counts"), "a", limit=100, lease=4)

    async def beat() -> None:
        while True:
            beats.append(1)
            await asyncio.sleep(0.005)

    async def fails() -> None:
        raise KeyError()

    async def main() -> Any:
        beating = asyncio.ensure_future(beat())
        retrying = AsyncRetrying(recurs(3) & spaced(0.001), limit=leased)
        ended = await asyncio.gather(*(retrying(fails) for _ in range(10)), return_exceptions=True)
        with pytest.raises(KeyError) as caught:
            async for attempt in AsyncRetrying(recurs(1), limit=leased):
                with attempt:
                    await fails()
        assert state_of(caught.value).granted == 1  # type: ignore[union-attr]
        beating.cancel()
        return ended

    ended = asyncio.run(main())
    assert [state_of(error).granted for error in ended] == [3] * 10  # type: ignore[union-attr]
    assert leased.granted == 31
    # eight leases
    assert len(beats) >= 16


def test_threads_draw_each_ticket_once(tmp_path: Path) -> None:
    leased = Leased(FileStore(tmp_path / "counts"), "a", limit=20_000, lease=100)
    drawn = drawn_by(8, leased.draw)
    assert sorted(ticket for mine in drawn for ticket in mine) == list(range(20_000))
    assert leased.granted == 20_000


def test_a_forked_child_has_leases_of_its_own(tmp_path: Path) -> None:
    leased = Leased(FileStore(tmp_path / "counts"), "a", limit=100, lease=10)
    assert number(leased.draw()) == 0

    def goes_on() -> None:
        assert (number(leased.draw()), leased.granted) == (10, 1)

    in_a_forked_child(goes_on)
    assert number(leased.draw()) == 1


# Many processes, a file


def test_8_processes_draw_100000_tickets_of_a_file_each_once(workers: Drawers, tmp_path: Path) -> None:
    how = {"file": str(tmp_path / "counts"), "name": "a", "limit": 100_000, "lease": 500}
    for _ in range(8):
        workers.start(how)
    assert workers.wait() == [0] * 8
    assert workers.tickets() == list(range(100_000))


KILLS = [("asked", 1), ("asked", 4), ("granted", 1), ("granted", 4), ("drawn", 1), ("drawn", 20), ("drawn", 33)]


def kill_some(workers: Drawers, how: Any) -> None:
    """Processes that are killed at points of a lease, beside two that are not: each loses a range at most."""
    lost = 0
    for point, number in KILLS:
        workers.start({**how, "kill": point, "number": number})
        lost += how["lease"]
    for _ in range(2):
        workers.start(how)
    ends = workers.wait()
    assert ends[-2:] == [0, 0]
    tickets = workers.tickets()
    assert len(set(tickets)) == len(tickets)
    assert set(tickets) <= set(range(how["limit"]))
    assert len(tickets) >= how["limit"] - lost


def test_processes_killed_at_points_of_a_lease_of_a_file(workers: Drawers, tmp_path: Path) -> None:
    kill_some(workers, {"file": str(tmp_path / "counts"), "name": "a", "limit": 5000, "lease": 10})


def test_processes_killed_at_any_moment(workers: Drawers, tmp_path: Path) -> None:
    how = {"file": str(tmp_path / "counts"), "name": "a", "limit": 30_000, "lease": 20, "threads": 2}
    for _ in range(6):
        workers.start(how)
    time.sleep(0.4)
    for process in workers.processes[:4]:
        process.kill()
        time.sleep(0.05)
    ends = workers.wait()
    tickets = workers.tickets()
    assert len(set(tickets)) == len(tickets) and set(tickets) <= set(range(30_000))
    killed = sum(end != 0 for end in ends)
    # a range each, and of each thread a ticket that was drawn and not written down
    assert len(tickets) >= 30_000 - killed * (20 + 2)


def since_1970() -> int:
    """By how many milliseconds a server's clock is ahead of the uptime of its machine: the closest of many looks at
    both."""
    looks = []
    for _ in range(20):
        began = time.clock_gettime(time.CLOCK_BOOTTIME)
        now = time.time()
        took = time.clock_gettime(time.CLOCK_BOOTTIME) - began
        looks.append((took, round((now - began) * 1000)))
    return min(looks)[1]


#: By how many milliseconds the test's moments may differ from the store's.
DIFFER = 2


def in_windows(workers: Drawers, folder: Path, limit: int, period: int, offset: int = 0) -> None:
    """Lets processes that heed the file `stop` draw until three windows were drawn nearly whole. No window has more
    tickets
    than the limit of those that were drawn in it for sure; and of a whole window nearly all are drawn, where the
    machine held no process up."""

    def by_windows() -> Dict[int, List[bool]]:
        found: Dict[int, List[bool]] = {}
        for _, before, after in workers.drawn():
            first, last = ((moment + offset) // period for moment in (before - DIFFER, after + DIFFER))
            found.setdefault((after + offset) // period, []).append(first == last)
        return found

    workers.await_that(lambda: sum(len(draws) >= 0.9 * limit for draws in by_windows().values()) >= 3)
    (folder / "stop").touch()
    workers.wait()
    by_window = by_windows()
    assert all(sum(draws) <= limit for draws in by_window.values())
    held_up = [((began + offset) // period, (ended + offset) // period) for began, ended in workers.pauses()]
    whole = [
        window for window in sorted(by_window)[1:-1] if not any(began <= window <= ended for began, ended in held_up)
    ]
    assert sum(len(by_window[window]) for window in whole) >= 0.9 * limit * len(whole)


def test_windows_of_many_processes_one_with_a_clock_an_hour_off(workers: Drawers, tmp_path: Path) -> None:
    how = {"file": str(tmp_path / "counts"), "name": "a", "limit": 50, "lease": 5, "per": 0.5}
    for off in (0, 0, 3600, -3600):
        workers.start({**how, "clock_off": off, "patient": True, "stop": str(tmp_path / "stop")})
    in_windows(workers, tmp_path, 50, 500)


# Redis


def test_a_budget_in_redis(redis_server: Any) -> None:
    server = redis_server()
    store = RedisStore(server.client())
    leased = Leased(store, "a", limit=10, lease=4)
    assert not leased.draw()
    with pytest.raises(StoreLost, match="begin"):
        store.take("a", 4, 10, None, time.monotonic)
    store.begin("a")
    leased = Leased(store, "a", limit=10, lease=4)
    other = Leased(RedisStore(server.client()), "a", limit=10, lease=4)
    assert [number(leased.draw()) for _ in range(5)] == [0, 1, 2, 3, 4]
    assert [number(other.draw()) for _ in range(3)] == [8, 9, None]
    store.forget("a")
    with pytest.raises(StoreLost):
        store.take("a", 1, 100, None, time.monotonic)
    store.begin("a")
    assert number(Leased(store, "a", limit=10).draw()) == 0
    # a count that was evicted
    server.client().delete("hikebox:{a}")
    with pytest.raises(StoreLost):
        store.take("a", 1, 100, None, time.monotonic)


def test_a_budget_in_redis_that_is_begun_again_is_drawn_by_those_who_used_it_up(redis_server: Any) -> None:
    now = [0.0]
    store = RedisStore(redis_server().client())
    store.begin("a")
    leased = Leased(store, "a", limit=2, clock=lambda: now[0])
    for _ in range(3):
        assert [number(leased.draw()) for _ in range(3)] == [0, 1, None]
        store.begin("a")
        assert not leased.draw()
        now[0] += 1


@pytest.mark.parametrize("kind", ["asyncio", "a pool of asyncio"])
def test_a_client_of_asyncio_is_refused(kind: str) -> None:
    import redis.asyncio

    client = redis.asyncio.Redis() if kind == "asyncio" else redis.asyncio.Redis(max_connections=3)
    with pytest.raises(
        TypeError, match=r"^expected a client that waits for its answers, redis.Redis\(..\), got one of"
    ):
        RedisStore(client)


def test_what_is_no_client_is_refused() -> None:
    import redis

    for wrong in ("localhost", None, 6379, redis.Redis, redis):
        with pytest.raises(TypeError, match=r"^expected a client such as redis.Redis\(..\), got "):
            RedisStore(wrong)
    for right in (redis.Redis(), redis.Redis.from_url("redis://localhost"), redis.StrictRedis(port=1)):
        assert RedisStore(right).client is right


def test_a_lease_of_a_budget_is_one_question(redis_server: Any, monkeypatch: Any) -> None:
    import redis

    sent: List[Any] = []
    send = redis.connection.Connection.send_packed_command

    def sends(connection: Any, *words: Any, **more: Any) -> Any:
        sent.append(words)
        return send(connection, *words, **more)

    store = RedisStore(redis_server().client())
    store.begin("a")
    for _ in range(2):  # the first one sends the scripts
        sent.clear()
        monkeypatch.setattr(redis.connection.Connection, "send_packed_command", sends)
        assert store.take("a", 1, 9, None, time.monotonic).tickets == 1
        store.take("a", 1, 9, 1000, time.monotonic)
        monkeypatch.undo()
    assert len(sent) == 2


def test_the_script_of_a_budget_leases_what_the_step_does(redis_server: Any) -> None:
    """Leases one after another, by the script and by the engine: random ones, with numbers of each size."""
    store = RedisStore(redis_server().client())
    chance = random.Random(57)

    def number(most: int) -> int:
        return max(0, min(most, chance.choice((0, most, 1 << chance.randrange(52))) + chance.randrange(-2, 3)))

    leased = 0
    for _ in range(200):
        limit, stored = number(2**52 - 1), Stored(given=number(2**52 - 1))
        store.begin("a")
        store.client.incrby("hikebox:{a}", stored.given)
        for _ in range(6):
            count = max(1, number(2**32))
            found = store.take("a", count, limit, None, time.monotonic)
            granted = lease_of_budget(limit, 0, count, stored)
            assert granted is not None and found.tickets == granted.tickets
            assert not granted.tickets or found.first == granted.first
            assert int(store.client.get("hikebox:{a}")) == 2**52 + stored.given
            leased += found.tickets > 0
    assert leased > 200


def test_windows_of_redis_by_a_scripted_clock(redis_server: Any) -> None:
    client, server = redis_server().client(), "5e" * 20

    def leased(count: int, limit: int, now: Tuple[int, int], uptime: int, period: int = 1000) -> Any:
        """The count before, and the count of the window then."""
        script = SCRIPTED % (*now, server, uptime) + redis_store.TAKE_OF_WINDOW
        micros, given = client.eval(script, 1, "w", period * 1000, count, limit, 2 * period)
        assert micros == now[0] * 10**6 + now[1]
        return given, client.get(f"w:{micros // (period * 1000)}")

    def looked(now: Tuple[int, int], uptime: int, number: int = -1, start: str = "") -> Any:
        script = SCRIPTED % (*now, server, uptime) + redis_store.IN_WINDOW + "return 'in it'"
        return client.eval(script, 1, "w", *range(6), 1_000_000, number, start)

    # a window that began at 1000 s, of a server that was started at 997.25 s, or up to two seconds later
    assert looked((1000, 250_000), 3) == [1_000_250_000, server.encode()]
    assert looked((1000, 250_000), 2) == [1_000_250_000, None]
    assert looked((1000, 999_999), 2)[1] is None and looked((1001, 0), 3)[1] is not None
    # who names the window and the server's start goes on, and nobody else
    assert looked((1000, 999_999), 9, 1000, server) == b"in it" == looked((1000, 0), 9, 1000, server)
    for others in ((1001, server), (999, server), (1000, "5e" * 19 + "5f"), (-1, server)):
        assert looked((1000, 999_999), 9, *others) == [1_000_999_999, server.encode()]
    assert leased(3, 9, (1000, 250_000), 2) == (-1, None) and client.keys("*") == []
    assert leased(3, 9, (1000, 250_000), 3) == (0, b"3") and leased(4, 9, (1001, 0), 9) == (0, b"4")
    assert [leased(4, 9, (1000, 999_999), 9) for _ in range(3)] == [(3, b"7"), (7, b"9"), (9, b"9")]
    # a greater limit goes on where the lower one ended, and none at all counts nothing
    assert leased(4, 10, (1000, 0), 9) == (9, b"10") and leased(4, 0, (1002, 0), 9) == (0, b"0")
    assert client.get("w:1001") == b"4" and all(0 < client.pttl(key) <= 2000 for key in client.keys("w:*"))
    # a period of years: one window, which began before the server
    assert leased(1, 9, (1000, 0), 500, period=10**12) == (-1, None)


def test_a_redis_that_answers_something_else_leases_nothing(redis_server: Any) -> None:
    store = RedisStore(redis_server().client())
    store.begin("a")
    for answer in ("-3", "{0, 2}", "{8}", "'abc'", "'7'", "nil"):
        store._take = redis_store._Script(f"return {answer}")
        with pytest.raises(StoreError, match="^Redis: expected a count of tickets, got "):
            store.take("a", 2, 9, None, time.monotonic)
    for answer in ("3", "{1}", "{1000, -3}", "{1000, 'b'}", "{'b', 1}", "{1, 2, 3}", "'abc'", "nil"):
        store._take_of_window = redis_store._Script(f"return {answer}")
        with pytest.raises(StoreError, match="^Redis: "):
            store.take("a", 2, 9, 1000, time.monotonic)
    for given, tickets in ((7, 2), (8, 1), (9, 0), (12, 0)):
        store._take = redis_store._Script(f"return {given}")
        assert store.take("a", 2, 9, None, time.monotonic) == Range(given, tickets, None)


def test_a_client_that_decodes_answers(redis_server: Any) -> None:
    import redis

    server = redis_server()
    store = RedisStore(redis.Redis(host="127.0.0.1", port=server.port, decode_responses=True))
    store.begin("a")
    assert number(Leased(store, "a", limit=10).draw()) == 0


def test_a_redis_that_was_started_anew_grants_nothing(redis_server: Any) -> None:
    server = redis_server("--appendonly", "yes", "--appendfsync", "always")
    store = RedisStore(server.client())
    store.begin("a")
    assert store.take("a", 3, 10, None, time.monotonic) == Range(0, 3, None)
    server.stop()
    with pytest.raises(StoreError):
        store.take("a", 3, 10, None, time.monotonic)
    with pytest.raises(StoreError):
        store.begin("b")
    server.start()
    with pytest.raises(StoreLost, match="restarted"):
        store.take("a", 3, 10, None, time.monotonic)
    # (a lease that is refused counts nothing)
    durable = RedisStore(server.client(), durable=True)
    assert durable.take("a", 7, 20, None, time.monotonic)[:2] == (3, 7)


def led(listening: socket.socket, ports: List[int]) -> None:
    """Leads one client to the last of these ports, over one connection, as a proxy does."""
    client, at = listening.accept()[0], 0
    server: Any = None
    with client:
        while True:
            ready = select.select([client] if server is None else [client, server], [], [])[0]
            if server in ready:
                client.sendall(server.recv(65536))
            if client in ready:
                asked = client.recv(65536)
                if not asked:
                    break
                if at != ports[-1]:
                    at = ports[-1]
                    server = socket.create_connection(("127.0.0.1", at))
                server.sendall(asked)


def test_a_server_that_a_proxy_puts_in_the_place_of_another_grants_nothing(redis_server: Any) -> None:
    import redis

    first, second = redis_server(), redis_server()
    ports = [first.port]
    with socket.create_server(("127.0.0.1", 0)) as listening:
        threading.Thread(target=led, args=(listening, ports), daemon=True).start()
        client = redis.Redis(port=listening.getsockname()[1])
        store = RedisStore(client)
        store.begin("a")
        assert store.take("a", 3, 10, None, time.monotonic) == Range(0, 3, None)
        for key in first.client().keys("*"):
            second.client().set(key, first.client().get(key))
        ports.append(second.port)
        for _ in range(2):
            with pytest.raises(StoreLost, match="restarted"):
                store.take("a", 3, 10, None, time.monotonic)
        ports.append(first.port)
        assert store.take("a", 3, 10, None, time.monotonic) == Range(3, 3, None)
        client.connection_pool.disconnect()


def test_8_processes_draw_100000_tickets_of_redis_each_once(workers: Drawers, redis_server: Any) -> None:
    server = redis_server()
    RedisStore(server.client()).begin("a")
    for _ in range(8):
        workers.start({"port": server.port, "name": "a", "limit": 100_000, "lease": 500})
    assert workers.wait() == [0] * 8
    assert workers.tickets() == list(range(100_000))


def test_processes_killed_at_points_of_a_lease_of_redis(workers: Drawers, redis_server: Any) -> None:
    server = redis_server()
    RedisStore(server.client()).begin("a")
    kill_some(workers, {"port": server.port, "name": "a", "limit": 5000, "lease": 10})


@pytest.mark.parametrize("durable", [True, False])
def test_redis_stopped_and_started_under_load(durable: bool, workers: Drawers, redis_server: Any) -> None:
    options = ("--appendonly", "yes", "--appendfsync", "always") if durable else ()
    server = redis_server(*options)
    RedisStore(server.client()).begin("a")
    how = {"port": server.port, "name": "a", "limit": 1_000_000, "lease": 50, "again_after": 0.05}
    how.update({"durable": durable, "patient": True, "stop": str(workers.folder / "stop"), "spare": 3})
    for _ in range(8):
        workers.start(how)
    workers.await_tickets(3000)
    server.stop()
    time.sleep(0.3)
    server.start()
    time.sleep(0.3)
    if durable:
        workers.await_tickets(len(workers.tickets()) + 3000)
    server.stop()
    server.start()
    time.sleep(0.5)
    (workers.folder / "stop").touch()
    assert workers.wait() == [0] * 8
    drawn = workers.tickets()
    tickets = [ticket for ticket in drawn if ticket >= 0]
    assert len(set(tickets)) == len(tickets) > 1000
    assert len(drawn) - len(tickets) <= 8 * 3
    leased = 1_000_000 if not durable else int(server.client().get("hikebox:{a}")) - 2**52
    assert max(tickets) < leased
    if durable:
        # each process loses a lease at each stop, at most, and what it had at its end
        assert len(tickets) >= leased - 8 * 50 * 3


def test_windows_of_redis_one_process_with_a_clock_an_hour_off(
    workers: Drawers, redis_server: Any, tmp_path: Path
) -> None:
    server = redis_server()
    store = RedisStore(server.client())
    # no ticket of a window that may have begun before the server did
    assert store.take("a", 5, 50, 60_000, time.monotonic).tickets == 0
    time.sleep(3.2)
    for off in (0, 0, 3600, -3600):
        how = {"port": server.port, "name": "a", "limit": 50, "lease": 5, "per": 0.5, "clock_off": off}
        workers.start({**how, "patient": True, "stop": str(tmp_path / "stop")})
    in_windows(workers, tmp_path, 50, 500, since_1970())
    # -2 is a key that has just gone
    left = [server.client().pttl(key) for key in server.client().keys("hikebox:{a}:*")]
    assert all(millis == -2 or 0 < millis <= 1000 for millis in left)
    time.sleep(1.1)
    assert server.client().keys("hikebox:{a}:*") == []
