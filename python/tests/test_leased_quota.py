"""Quotas that processes share: by a file, and by a Redis server of the test's own."""

from __future__ import annotations

import asyncio
import itertools
import math
import pickle
import random
import time
from collections import Counter
from pathlib import Path
from typing import Any, Counter as Counts, Dict, List, Optional, Tuple

import pytest

from draws import SCRIPTED, drawn_by, number, repeated
from processes import Workers, in_a_forked_child
from hikebox import (
    AsyncRetrying,
    Ending,
    Refusal,
    RefusalReason,
    Retrying,
    StoreError,
    TermsError,
    Usage,
    recurs,
    spaced,
    state_of,
)
from hikebox._engine.calls import MAX_TICKETS
from hikebox._engine.leasing import Stored, lease_of_quota
from hikebox.leased import FileStore, Leased, LeasedQuota, QuotaRange, RedisStore
from hikebox.leased.stores import Present
from hikebox.budgets.terms import Terms

#: A window that no test sees the end of.
LONG = 1_000_000.0


class Drawers(Workers):
    """Processes that draw on a quota, and what they wrote down."""

    def count(self) -> int:
        return len(self.notes("ticket"))

    def notes(self, kind: str) -> List[Tuple[int, int]]:
        """What was noted of this kind: numbers, each with its window."""
        found = []
        for path in sorted(self.folder.glob("notes-*")):
            for line in path.read_text().splitlines(keepends=True):
                words = line.split()
                if line.endswith("\n") and words[0] == kind:
                    found.append((int(words[1]), int(words[2])))
        return found

    def tickets(self) -> Dict[int, List[int]]:
        """The tickets of each window; -1 has those that were drawn without the store."""
        by_window: Dict[int, List[int]] = {}
        for ticket, window in self.notes("ticket"):
            by_window.setdefault(window, []).append(ticket)
        return by_window

    def sums(self, kind: str) -> Counts[int]:
        """The sum of what was noted of each window."""
        sums: Counts[int] = Counter()
        for number, window in self.notes(kind):
            sums[window] += number
        return sums


@pytest.fixture
def workers(tmp_path: Path) -> Any:
    made = Drawers("quota_worker.py", tmp_path)
    yield made
    made.end()


def fails() -> Any:
    raise KeyError()


# One process


def test_a_quota_in_a_file(tmp_path: Path) -> None:
    store = FileStore(tmp_path / "counts")
    first = LeasedQuota(store, "a", 4, 0.5, LONG, lease=2)
    second = LeasedQuota(FileStore(tmp_path / "counts"), "a", 4, 0.5, LONG, lease=2)
    assert [number(first.draw()) for _ in range(3)] == [0, 1, 2]
    assert not second.draw()
    assert [number(first.draw()) for _ in range(2)] == [3, None]
    # two requests of each are worth a ticket of each; the first to ask is granted what both give
    for _ in range(3):
        first.deposit()
    assert not first.draw()
    first.deposit()
    assert [number(first.draw()) for _ in range(3)] == [4, 5, None]
    for _ in range(4):
        second.deposit()
    assert not first.draw()
    assert [number(second.draw()) for _ in range(3)] == [6, 7, None]
    assert (first.granted, second.granted) == (6, 2)
    # beside a budget of the same name
    assert number(Leased(store, "a", limit=10).draw()) == 0
    assert number(Leased(store, "a", limit=10, per=LONG).draw()) == 0
    assert number(LeasedQuota(store, "b", 1, 0, LONG).draw()) == 0
    assert number(LeasedQuota(store, "a", 4, 0.5, 10 * LONG).draw()) == 0


def test_what_was_seen_is_told_and_others_draw_on_it(tmp_path: Path) -> None:
    store = FileStore(tmp_path / "counts")
    busy, failing = LeasedQuota(store, "a", 0, 0.2, LONG), LeasedQuota(store, "a", 0, 0.2, LONG)
    assert not failing.draw()
    for _ in range(10):
        busy.deposit()
    usage = busy.seen()
    assert usage == Usage(window=usage.window, asked=10, given=0, left=2) == busy.seen()
    assert usage.window == int(time.clock_gettime(time.CLOCK_BOOTTIME) // LONG)
    assert failing.seen() == usage
    assert [number(failing.draw()) for _ in range(3)] == [0, 1, None]
    assert busy.seen() == Usage(usage.window, asked=10, given=2, left=0)


def test_a_lease_is_a_sixty_fourth_of_what_is_allowed(tmp_path: Path) -> None:
    store = FileStore(tmp_path / "counts")
    quota = LeasedQuota(store, "a", 640, 1, LONG)
    other = LeasedQuota(store, "a", 640, 1, LONG)
    for _ in range(1280):
        quota.deposit()
    assert number(quota.draw()) == 0 and number(other.draw()) == 10
    # of 1,920 that are allowed from here on
    assert [number(quota.draw()) for _ in range(10)] == [*range(1, 10), 20]
    assert other.seen().given == 50


def test_terms() -> None:
    store = FileStore("/nowhere/counts")
    quota = LeasedQuota(store, "a", 100, 0.2, 10)
    assert quota.terms == Terms(reserve=100, share=200, period=10_000)
    assert repr(quota) == "LeasedQuota(FileStore('/nowhere/counts'), 'a', 100, 0.2, per=10)"
    assert repr(LeasedQuota(store, "a", 1, 0, 1, lease=5)).endswith("'a', 1, 0, per=1, lease=5)")
    for bad in ((-1, 0, 1), (0, -1, 1), (0, 0, 0), (2**32 + 1, 0, 1), (0, 1001, 1)):
        with pytest.raises(TermsError):
            LeasedQuota(store, "a", *bad)
    with pytest.raises(TermsError):
        LeasedQuota(store, "a", 1, 1, 1, lease=0)
    with pytest.raises(TypeError, match="its own LeasedQuota"):
        pickle.dumps(quota)


class Stub:
    """A store that answers what the test says: first, tickets, until and asked; or raises it. Window 7 ends at 10. It
    asks for the requests since the moment that `since` names, where it does."""

    def __init__(self, *answers: Any, since: Optional[float] = None) -> None:
        self.answers = list(answers)
        self.since = since
        self.asked = 0
        self.counts: List[int] = []
        self.told: List[int] = []

    def take_of_quota(self, name: str, terms: Terms, count: int, asked: Any, clock: Any) -> QuotaRange:
        self.asked += 1
        self.counts.append(count)
        if self.since is not None:
            self.told.append(asked(self.since))
        answer = self.answers.pop(0) if len(self.answers) > 1 else self.answers[0]
        if isinstance(answer, Exception):
            raise answer
        first, tickets, until, requests = answer
        return QuotaRange(first, tickets, until, 6 + int(until // 10), requests)


def test_a_lease_is_not_drawn_from_past_its_window() -> None:
    now = [0.0]
    store = Stub((0, 5, 10.0, 0), (0, 5, 20.0, 0))
    quota = LeasedQuota(store, "a", 5, 0, 10, clock=lambda: now[0])
    assert [number(quota.draw()), number(quota.draw())] == [0, 1]
    now[0] = 10.0
    assert number(quota.draw()) == 0 and store.asked == 2
    assert quota.granted == 3


def test_when_a_store_that_had_none_left_is_asked_again() -> None:
    now = [0.0]
    store = Stub((5, 0, 10.0, 0))
    quota = LeasedQuota(store, "a", 5, 0.5, 10, lease=3, clock=lambda: now[0])
    assert [number(quota.draw()) for _ in range(5)] == [None] * 5 and store.asked == 1
    # once its requests are worth a lease
    for _ in range(5):
        quota.deposit()
    assert not quota.draw() and store.asked == 1
    quota.deposit()
    assert not quota.draw() and store.asked == 2
    # or after a second, since others may have told theirs
    store.since = 0.0
    now[0] = 0.99
    assert not quota.draw() and store.asked == 3
    assert not quota.draw() and store.asked == 3
    now[0] = 2.0
    assert not quota.draw() and store.asked == 4
    # or when the window ends
    now[0] = 9.5
    assert not quota.draw() and store.asked == 5
    now[0] = 9.9
    assert not quota.draw() and store.asked == 5
    now[0] = 10.0
    assert not quota.draw() and store.asked == 6
    assert store.told == [6, 0, 0, 0]
    # without a share the end of the window is all that there is to wait for
    spent = Stub((5, 0, 10.0, 0))
    quota = LeasedQuota(spent, "a", 5, 0, 10, clock=lambda: now[0])
    now[0] = 0.0
    for moment in range(10):
        now[0] = float(moment)
        quota.deposit()
        assert not quota.draw() and spent.asked == 1


def test_a_quota_goes_on_after_an_empty_answer(tmp_path: Path) -> None:
    now = [0.0]
    store = FileStore(tmp_path / "counts")
    quota = LeasedQuota(store, "a", 30, 0.2, LONG, lease=20, again_after=60, clock=lambda: now[0])
    granted = 0
    for _ in range(2595):
        now[0] += 0.01
        quota.deposit()
        granted += bool(quota.draw())
    # the reserve of 30, and a fifth of 2,595; the requests since it was asked last are worth less than a lease of 20
    assert 549 - 20 < granted <= 549


def test_a_store_that_lost_its_count_is_told_once(caplog: Any) -> None:
    class Lost(Stub):
        def take_of_quota(self, *how: Any) -> QuotaRange:
            return super().take_of_quota(*how)._replace(lost=self.asked <= 3)

    now = [0.0]
    store = Lost((0, 0, 10.0, 0), (0, 0, 10.0, 0), (0, 0, 10.0, 0), (0, 2, 20.0, 0))
    quota = LeasedQuota(store, "a", 5, 0.5, 10, spare=9, clock=lambda: now[0])
    for now[0] in (0.0, 5.0):
        assert not quota.draw()
    assert quota.seen() == Usage(7, 0, 0, 0, lost=True)
    now[0] = 10.0
    assert [number(quota.draw()) for _ in range(2)] == [0, 1]
    assert [record.getMessage() for record in caplog.records] == [
        "a: the store may have lost its count of this window, and grants nothing of it"
    ]


def test_a_store_that_can_not_be_reached_grants_nothing_or_what_is_spared(caplog: Any) -> None:
    now = [0.0]
    gone = StoreError("gone")
    store = Stub((0, 2, 10.0, 0), gone, gone, (2, 1, 10.0, 0), gone, since=0.0)
    quota = LeasedQuota(store, "a", 100, 1, 10, lease=2, spare=2, clock=lambda: now[0])
    assert [number(quota.draw()) for _ in range(6)] == [0, 1, -1, -2, None, None]
    assert store.asked == 2
    for _ in range(100):
        quota.deposit()
    assert not quota.draw() and store.asked == 2
    now[0] = 1.0
    assert not quota.draw() and store.asked == 3
    now[0] = 2.0
    assert [number(quota.draw()), number(quota.draw())] == [2, None]
    now[0] = 10.0
    assert number(quota.draw()) == -1
    assert quota.granted == 6
    # requests that were told to a store that did not answer are not told again
    assert store.told == [0, 0, 100, 0, 0, 0]
    assert [record.getMessage() for record in caplog.records] == [
        "a: gone; it grants nothing until it can be reached"
    ] * 2
    nothing = LeasedQuota(Stub(StoreError("gone")), "a", 100, 1, 10)
    assert not nothing.draw() and nothing.granted == 0
    with pytest.raises(StoreError):
        nothing.seen()


def test_requests_are_not_worth_asking_a_store_that_can_not_be_reached() -> None:
    store = Stub((0, 0, 10.0, 0), StoreError("gone"))
    quota = LeasedQuota(store, "a", 0, 1000, 10, clock=lambda: 0.0)
    assert not quota.draw() and store.asked == 1
    for asked in (2, 2, 2):
        quota.deposit()
        assert not quota.draw() and store.asked == asked


def test_retries_draw_on_it_and_calls_are_its_requests(tmp_path: Path) -> None:
    quota = LeasedQuota(FileStore(tmp_path / "counts"), "a", 4, 0.5, LONG, lease=1)
    retrying = Retrying(recurs(3), limit=quota)
    endings = []
    for _ in range(2):
        with pytest.raises(KeyError) as caught:
            retrying(fails)
        state = state_of(caught.value)
        assert state is not None
        endings.append((state.ending, state.granted))
    assert endings == [(Ending.SCHEDULE_DONE, 3), (Ending.LIMIT_REFUSED, 2)]
    assert quota.seen().asked == 2


def test_coroutines_draw_on_it_and_others_go_on_meanwhile(tmp_path: Path) -> None:
    quota = LeasedQuota(FileStore(tmp_path / "counts"), "a", 100, 0, LONG, lease=1)

    async def fails_later() -> None:
        raise KeyError()

    async def main() -> Any:
        retrying = AsyncRetrying(recurs(3) & spaced(0.001), limit=quota)
        return await asyncio.gather(*(retrying(fails_later) for _ in range(10)), return_exceptions=True)

    ended = asyncio.run(main())
    assert [state_of(error).granted for error in ended] == [3] * 10  # type: ignore[union-attr]
    assert quota.granted == 30 and quota.seen().asked == 10


def test_threads_draw_each_ticket_once(tmp_path: Path) -> None:
    quota = LeasedQuota(FileStore(tmp_path / "counts"), "a", 4000, 0.5, LONG, lease=100)
    drawn = drawn_by(8, quota.draw, first=repeated(quota.deposit, 1000))
    assert sorted(ticket for mine in drawn for ticket in mine) == list(range(8000))
    assert quota.granted == 8000


def test_a_forked_child_has_leases_and_requests_of_its_own(tmp_path: Path) -> None:
    quota = LeasedQuota(FileStore(tmp_path / "counts"), "a", 100, 1, LONG, lease=10)
    assert number(quota.draw()) == 0
    quota.deposit()

    def begins_anew() -> None:
        assert (number(quota.draw()), quota.granted, quota.seen().asked) == (10, 1, 0)

    in_a_forked_child(begins_anew)
    assert number(quota.draw()) == 1 and quota.seen().asked == 1


def test_windows_of_a_file(tmp_path: Path, monkeypatch: Any) -> None:
    now = [0.0]
    monkeypatch.setattr("hikebox.leased.file_store.shared_uptime", lambda: round(now[0] * 10**9))
    store = FileStore(tmp_path / "counts")
    quota = LeasedQuota(store, "a", 2, 0.5, 0.4, lease=1, again_after=0.01, clock=lambda: now[0])
    for window in (35, 36, 37, 39, 50):
        now[0] = window * 0.4 + 0.001
        for _ in range(6):
            quota.deposit()
        # two, and three for the six requests
        assert [number(quota.draw()) for _ in range(6)] == [0, 1, 2, 3, 4, None]
        now[0] = window * 0.4 + 0.399
        assert not quota.draw()


def test_windows_of_a_file_go_by_the_machines_uptime(tmp_path: Path) -> None:
    def present() -> int:
        return int(time.clock_gettime(time.CLOCK_BOOTTIME) * 1000) // 400

    store = FileStore(tmp_path / "counts")
    quota = LeasedQuota(store, "a", 2, 0.5, 0.4, lease=1, again_after=0.01)
    by_window: Dict[int, List[int]] = {}
    made: Counts[int] = Counter()
    until = time.monotonic() + 60
    while sum(len(tickets) == 5 for tickets in by_window.values()) < 4 and time.monotonic() < until:
        window = present()
        if made[window] < 6:
            quota.deposit()
            made[window] += 1
        ticket = number(quota.draw())
        if ticket is None:
            time.sleep(0.005)
        elif window == present():
            by_window.setdefault(window, []).append(ticket)
    # a ticket that was drawn while a window ended is left out
    assert all(tickets == sorted(set(tickets)) and tickets[-1] < 5 for tickets in by_window.values())
    assert sum(tickets == [0, 1, 2, 3, 4] for tickets in by_window.values()) == 4


# Many processes, a file


def test_8_processes_draw_all_tickets_of_a_file_each_once(workers: Drawers, tmp_path: Path) -> None:
    how = {"file": str(tmp_path / "counts"), "name": "a", "reserve": 20_000, "share": 0.5, "per": LONG}
    for _ in range(8):
        workers.start({**how, "lease": 200, "first": 2500})
    assert workers.wait() == [0] * 8
    # 20,000, and the half of 8 * 2,500 requests
    (tickets,) = workers.tickets().values()
    assert sorted(tickets) == list(range(30_000))
    assert sum(workers.sums("told").values()) == 20_000 == sum(workers.sums("asked").values())


KILLS = [("asked", 1), ("asked", 4), ("granted", 1), ("granted", 4), ("drawn", 1), ("drawn", 20), ("drawn", 33)]


def test_processes_killed_at_points_of_a_lease_of_a_file(workers: Drawers, tmp_path: Path) -> None:
    how = {"file": str(tmp_path / "counts"), "name": "a", "reserve": 1500, "share": 0.5, "per": LONG, "lease": 10}
    for point, number in KILLS:
        workers.start({**how, "first": 200, "kill": point, "number": number})
    for _ in range(2):
        workers.start({**how, "first": 200})
    ends = workers.wait()
    assert ends[-2:] == [0, 0] and set(ends[:-2]) <= {0, -9}
    # one more, for what was told after the two had drawn all that there was
    workers.start(how)
    assert workers.wait()[-1] == 0
    usage = LeasedQuota(FileStore(tmp_path / "counts"), "a", 1500, 0.5, LONG).seen()
    # those of the process that died before it asked at all were not told
    assert usage.asked == 8 * 200
    (tickets,) = workers.tickets().values()
    assert len(set(tickets)) == len(tickets)
    # 1,500, and the half of 1,600; each that was killed loses a range at most
    assert set(tickets) <= set(range(2300))
    assert len(tickets) >= 2300 - 10 * len(KILLS)


def check_windows(workers: Drawers, folder: Path, reserve: int, share: float, offset: int = 0) -> None:
    """Lets processes that heed the file `stop` draw until of three windows of half a second most of what they allow was
    drawn. In no window a ticket is drawn twice, or one past what the requests allow that were told; and of whole
    windows most of what they allow is drawn, where the machine held no process up."""

    def allowed(told: Counts[int], window: int) -> int:
        return reserve + int(share * 1000) * told[window] // 1000

    def full() -> int:
        told, drawn = workers.sums("told"), workers.tickets()
        return sum(len(drawn[window]) >= 0.8 * allowed(told, window) for window in drawn if window >= 0)

    workers.await_that(lambda: full() >= 3)
    (folder / "stop").touch()
    workers.wait()
    told, by_window = workers.sums("told"), workers.tickets()
    assert told[-1] == 0
    by_window.pop(-1, None)
    for window, tickets in by_window.items():
        assert len(set(tickets)) == len(tickets) and max(tickets) < allowed(told, window)
    held_up = [((began + offset) // 500, (ended + offset) // 500) for began, ended in workers.notes("paused")]
    whole = [
        window for window in sorted(by_window)[1:-1] if not any(began <= window <= ended for began, ended in held_up)
    ]
    assert sum(len(by_window[window]) for window in whole) >= 0.8 * sum(allowed(told, window) for window in whole)


def test_windows_of_many_processes_two_with_a_clock_an_hour_off(workers: Drawers, tmp_path: Path) -> None:
    how = {"file": str(tmp_path / "counts"), "name": "a", "reserve": 20, "share": 0.5, "per": 0.5, "lease": 2}
    for off in (0, 0, 3600, -3600):
        more = {"clock_off": off, "patient": True, "stop": str(tmp_path / "stop")}
        workers.start({**how, **more, "each": 1, "again_after": 0.05})
    check_windows(workers, tmp_path, 20, 0.5)
    # each request counts once at most, and in the window in which it was made
    told, asked = workers.sums("told"), workers.sums("asked")
    assert all(told[window] <= asked[window] + 4 for window in told)
    assert sum(told.values()) >= 0.5 * sum(asked.values())


# Redis


def test_a_quota_in_redis(redis_server: Any) -> None:
    import redis

    server = redis_server()
    store = RedisStore(server.client())
    # no ticket of a window that may have begun before the server did
    assert not LeasedQuota(store, "a", 9, 1, 60).draw()
    assert server.client().keys("*") == []
    server.await_uptime(5)
    decoding = redis.Redis(host="127.0.0.1", port=server.port, decode_responses=True)

    def in_one_window(name: str) -> Any:
        """The quota, what was drawn and seen in a window of it, and that window: none if some may be of another one."""
        first = LeasedQuota(store, name, 4, 0.5, 3, lease=2, again_after=0.01)
        second = LeasedQuota(RedisStore(decoding), name, 4, 0.5, 3, lease=2, again_after=0.01)
        while not 1 < time.time() % 3 < 1.3:
            time.sleep(0.01)
        began, window = time.monotonic(), int(time.time() // 3)
        drawn = [number(quota.draw()) for quota in (first, first, second, second, second)]
        for _ in range(3):
            first.deposit()
            second.deposit()
        seen = [second.seen(), first.seen()]
        # (what was refused is asked for again after `again_after`)
        time.sleep(0.05)
        drawn += [number(quota.draw()) for quota in (first, second, first)]
        key = "hikebox:{%s}:quota:3000:%d" % (name, window)
        kept = (server.client().pttl(key), server.client().hgetall(key))
        return first, drawn, seen, kept, window if time.monotonic() - began < 1 else None

    for name in map(str, itertools.count()):
        first, drawn, (of_second, of_first), (milliseconds, counts), window = in_one_window(name)
        if window is not None:
            break
    assert drawn == [0, 1, 2, 3, None, 4, 6, 5]
    assert of_second.left == 1
    assert of_first == Usage(window=window, asked=6, given=4, left=3)
    assert 3000 < milliseconds <= 6000
    assert counts == {b"asked": b"6", b"given": b"7"}
    ticket = first.draw()
    while time.time() // 3 == window:
        assert not ticket
        time.sleep(0.05)
        ticket = first.draw()
    # (the window may have ended since it was drawn, or just before)
    assert number(ticket or first.draw()) == 0


def test_the_script_rounds_as_a_quota_does(redis_server: Any) -> None:
    from hikebox.leased import redis_store

    client = redis_server().client()
    for reserve, share, asked, allowed in [
        (0, 333, 3, 0),
        (0, 333, 4, 1),
        (7, 999, 1000, 1006),
        (0, 1_000_000, 4_294_967, 4_294_967_000),
        (0, 1_000_000, 4_294_968, 2**32),
        (2**32, 1_000_000, 2**40, 2**32),
        (1, 1, 2**32 - 1, 4_294_968),
        (0, 999_999, 4_294_967_295, 2**32),
        (5, 0, 2**40, 5),
    ]:
        client.delete("k")
        given = client.eval(redis_store.GRANT, 1, "k", asked, 2**40, reserve, share, 2**32, 1000)
        assert given == [0, allowed, asked]
        assert Terms(reserve, share, 1).allowed(asked) == allowed
        assert client.eval(redis_store.GRANT, 1, "k", 0, 5, reserve, share, 2**32, 1000) == [allowed, 0, asked]


def test_the_script_grants_what_the_step_of_a_lease_does(redis_server: Any) -> None:
    """Leases of a window, one after another, by the script and by the engine: random ones, with numbers of each
    size."""
    from hikebox.leased import redis_store

    client = redis_server().client()
    chance = random.Random(11)

    def number(most: int) -> int:
        near = chance.choice((0, most, 1 << chance.randrange(42)))
        return max(0, min(most, near + chance.randrange(-1, 2)))

    granted_in_all = 0
    for _ in range(400):
        terms = Terms(number(2**32), number(1_000_000), 1)
        stored = Stored(0, number(2**33), number(2**40)) if chance.random() < 0.5 else Stored()
        client.delete("k")
        client.hset("k", mapping={"asked": stored.asked, "given": stored.given})
        for _ in range(8):
            told, wanted = number(2**40), number(2**32)
            found = client.eval(
                redis_store.GRANT, 1, "k", told, wanted, terms.reserve, terms.share, MAX_TICKETS, 60_000
            )
            granted = lease_of_quota(terms, 0, told, wanted, stored)
            assert granted is not None
            assert found == [granted.first, granted.tickets, stored.asked]
            assert client.hmget("k", "asked", "given") == [b"%d" % stored.asked, b"%d" % stored.given]
            granted_in_all += granted.tickets > 0
    assert granted_in_all > 400


def test_a_window_that_is_known_is_asked_once(redis_server: Any) -> None:
    """Requests that are told for a window which is over, or for another start of the server, count nowhere."""
    from hikebox.leased import redis_store

    store, start, told, sent = RedisStore(redis_server().client()), "5e" * 20, [], []

    class Script(redis_store._Script):
        def by(self, *words: Any) -> Any:
            sent.append(words)
            return super().by(*words)

    def asked(began: float) -> int:
        told.append(began)
        return 3

    def takes(number: int, of: str, now: int, uptime: int = 4000, until: float = math.inf) -> Any:
        """What two tickets are taken of where this window was the latest one, and how often it asked; what it counts
        then."""
        told.clear()
        sent.clear()
        store._windows["a", 3_000_000] = (Present(number, 0.0, until), time.monotonic, of)
        store._grant = Script(SCRIPTED % (now, 0, start, uptime) + redis_store.IN_WINDOW + redis_store.GRANT)
        found = store.take_of_quota("a", Terms(90, 0, 3_000_000), 2, asked, time.monotonic)
        counts = store.client.hgetall(f"hikebox:{{a}}:quota:3000000:{found.window}")
        return found[:2], found.window, found.lost, len(sent), len(told), {name: int(n) for name, n in counts.items()}

    # the window from 3000 s to 6000 s: the first lease of it looks at it first
    assert takes(-1, "", 3000, until=-math.inf) == ((0, 2), 1, False, 2, 1, {b"asked": 3, b"given": 2})
    assert takes(1, start, 3000) == ((2, 2), 1, False, 1, 1, {b"asked": 6, b"given": 4})
    assert takes(1, start, 5000) == ((4, 2), 1, False, 1, 1, {b"asked": 9, b"given": 6})
    # it is over by the server's clock, which may leap or go back, or by the process's
    assert takes(1, start, 6000) == ((0, 2), 2, False, 2, 1, {b"asked": 0, b"given": 2})
    assert takes(1, start, 600_000) == ((0, 2), 200, False, 2, 1, {b"asked": 0, b"given": 2})
    assert takes(2, start, 5000) == ((6, 2), 1, False, 2, 1, {b"asked": 9, b"given": 8})
    assert takes(1, start, 5000, until=-math.inf) == ((8, 2), 1, False, 2, 1, {b"asked": 12, b"given": 10})
    # it is known of another start of the server: the present one may have begun in the window, or did before it
    assert takes(1, "5f" * 20, 5000, uptime=2001) == ((0, 0), 1, True, 1, 1, {b"asked": 12, b"given": 10})
    assert takes(1, "5f" * 20, 5000, uptime=2002) == ((10, 2), 1, False, 2, 1, {b"asked": 12, b"given": 12})
    # it is known by another clock
    store._windows["a", 3_000_000] = (Present(1, 0.0, math.inf), time.monotonic, start)
    sent.clear()
    assert store.take_of_quota("a", Terms(90, 0, 3_000_000), 2, asked, lambda: time.monotonic())[:2] == (12, 2)
    assert len(sent) == 2
    # of names without end some are forgotten
    for each in range(1100):
        assert store.take_of_quota(f"n{each}", Terms(90, 0, 3_000_000), 2, asked, time.monotonic)[:2] == (0, 2)
    assert 0 < len(store._windows) <= 1024

    def knows_none() -> None:
        assert store._windows == {}

    in_a_forked_child(knows_none)


def test_a_redis_that_answers_something_else_grants_nothing(redis_server: Any) -> None:
    from hikebox.leased import redis_store

    server = redis_server()
    store = RedisStore(server.client())
    server.await_uptime(3)
    quota = LeasedQuota(store, "a", 9, 0, 0.5, lease=2, again_after=0)
    for answer in ("{0, -2, 0}", "{-5, 2, 0}", "{0, 2, -1}", "{0, 3, 0}", "{8, 2, 0}", "{0, 2}", "'abc'", "3", "nil"):
        store._grant = redis_store._Script(f"{redis_store.IN_WINDOW}return {answer}")
        refused = quota.draw()
        assert isinstance(refused, Refusal) and refused.reason is RefusalReason.UNREACHABLE
        expected = "expected the count of a window and at most 2 tickets of it, got"
        expected = "windows of 500 ms end before it answers" if answer == "{0, 2}" else expected
        assert expected in str(refused.error)
    store._grant = redis_store._Script(f"{redis_store.IN_WINDOW}return {{7, 2, 0}}")
    assert number(quota.draw()) == 7


@pytest.mark.parametrize("lost_at", ["the answer", "the question"])
def test_a_client_that_repeats_tells_requests_once(lost_at: str, redis_server: Any, monkeypatch: Any) -> None:
    """Clients of redis 6 send a command again to which they got no answer."""
    import redis
    from redis.backoff import NoBackoff
    from redis.retry import Retry

    connection_class = redis.connection.Connection
    sends, reads = connection_class.send_packed_command, connection_class.read_response
    sent: List[bool] = []
    lost: List[bool] = []

    def notes(connection: Any, command: Any, *more: Any, **options: Any) -> Any:
        is_lease = any(b"{%s}:quota:5000:%d" % (name.encode(), time.time() // 5) in bytes(part) for part in command)
        sent.append(is_lease)
        if is_lease and not lost and lost_at == "the question":
            lost.append(True)
            raise redis.TimeoutError("it was lost")
        return sends(connection, command, *more, **options)

    def loses_one(connection: Any, *words: Any, **options: Any) -> Any:
        answer = reads(connection, *words, **options)
        if sent and sent[-1] and not lost:
            lost.append(True)
            raise redis.TimeoutError("it was lost")
        return answer

    server = redis_server()
    client = redis.Redis(port=server.port, retry=Retry(NoBackoff(), 3), retry_on_error=[redis.TimeoutError])
    server.await_uptime(8)
    for name in map(str, itertools.count()):
        while not 1 < time.time() % 5 < 2:
            time.sleep(0.01)
        began = time.monotonic()
        lost.clear()
        sent.clear()
        quota = LeasedQuota(RedisStore(client), name, 2, 1, 5)
        quota.deposit(10)
        monkeypatch.setattr(connection_class, "send_packed_command", notes)
        monkeypatch.setattr(connection_class, "read_response", loses_one)
        with pytest.raises(StoreError, match="^Redis: it was lost$"):
            quota.seen()
        monkeypatch.undo()
        seen = quota.seen()
        if time.monotonic() - began < 1:  # (so it is sure that all of it was in one window)
            break
    assert lost and sum(sent) == 1
    asked = 10 if lost_at == "the answer" else 0
    assert (seen.asked, seen.left) == (asked, 2 + asked)
    assert client.ping()


def test_windows_of_redis_two_processes_with_a_clock_an_hour_off(
    workers: Drawers, redis_server: Any, tmp_path: Path
) -> None:
    server = redis_server()
    server.await_uptime(3)
    how = {"port": server.port, "name": "a", "reserve": 20, "share": 0.5, "per": 0.5, "lease": 2, "each": 1}
    for off in (0, 0, 3600, -3600):
        more = {"clock_off": off, "patient": True, "stop": str(tmp_path / "stop")}
        workers.start({**how, **more, "again_after": 0.05})
    offset = int(time.time() * 1000) - int(time.clock_gettime(time.CLOCK_BOOTTIME) * 1000)
    check_windows(workers, tmp_path, 20, 0.5, offset)
    assert sum(workers.sums("told").values()) >= 0.5 * sum(workers.sums("asked").values())
    time.sleep(1.1)
    assert server.client().keys("*") == []


def test_processes_killed_at_points_of_a_lease_of_redis(workers: Drawers, redis_server: Any) -> None:
    server = redis_server()
    server.await_uptime(3)
    how = {"port": server.port, "name": "a", "reserve": 100, "share": 0.5, "per": 0.5, "lease": 10, "each": 1}
    for point, number in KILLS:
        workers.start({**how, "patient": True, "kill": point, "number": number})
    for _ in range(2):
        workers.start({**how, "patient": True, "seconds": 2.5, "again_after": 0.05})
    ends = workers.wait()
    assert ends == [-9] * len(KILLS) + [0, 0]
    by_window = workers.tickets()
    told = workers.sums("told")
    # what a process told before it was killed may have been counted, so those are no more than are allowed
    unsure = told.pop(-1, 0)
    for window, tickets in by_window.items():
        assert len(set(tickets)) == len(tickets)
        assert max(tickets) < 100 + (told[window] + unsure) // 2


@pytest.mark.parametrize("durable", [True, False])
def test_redis_stopped_and_started_under_load(durable: bool, workers: Drawers, redis_server: Any) -> None:
    options = ("--appendonly", "yes", "--appendfsync", "always") if durable else ()
    server = redis_server(*options)
    server.await_uptime(3)
    how = {"port": server.port, "name": "a", "reserve": 1000, "share": 1, "per": 0.5, "lease": 20, "each": 1}
    how.update({"patient": True, "stop": str(workers.folder / "stop"), "spare": 3, "again_after": 0.05})
    for _ in range(4):
        workers.start(how)
    workers.await_tickets(2000)
    server.stop()
    workers.await_that(lambda: -1 in workers.tickets())
    stopped_at = time.time()
    server.start()
    drawn = len(workers.notes("ticket"))
    # the windows that may have begun before it was started give nothing; then it goes on
    workers.await_tickets(drawn + 2000)
    (workers.folder / "stop").touch()
    assert workers.wait() == [0] * 4
    by_window, told = workers.tickets(), workers.sums("told")
    unsure = told.pop(-1, 0)
    spared = by_window.pop(-1, [])
    assert set(spared) <= {-1, -2, -3} and spared
    for window, tickets in by_window.items():
        assert len(set(tickets)) == len(tickets)
        assert max(tickets) < 1000 + told[window] + unsure
    silent = range(int(stopped_at * 2) + 1, int(stopped_at * 2) + 4)
    assert not set(silent) & set(by_window)
