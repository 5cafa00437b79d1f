"""Policies for httpx and aiohttp, against a server on loopback."""

from __future__ import annotations

import asyncio
import socket
from typing import Any

import pytest
from http_server import Server

from hikebox import Budget, Quota, recurs, spaced
from hikebox.testing import VirtualClock

httpx = pytest.importorskip("httpx")
aiohttp = pytest.importorskip("aiohttp")

from hikebox.adapters.aiohttp import PolicySession  # noqa: E402
from hikebox.adapters.httpx import AsyncPolicyTransport, PolicyTransport  # noqa: E402


class Answer:
    """What a client got."""

    def __init__(self, status: int, text: str) -> None:
        self.status = status
        self.text = text


class Client:
    """One of the three clients, with the same words for all."""

    def __init__(self, kind: str, clock: VirtualClock, policy: Any, **how: Any) -> None:
        self.kind = kind
        self.policy = policy
        sleep = clock.sleep if kind == "httpx" else clock.sleep_async
        self.how: Any = {"clock": clock, "sleep": sleep, **how}
        self.retrying: Any = None

    def request(self, method: str, url: str, **how: Any) -> Answer:
        if self.kind == "httpx":
            with httpx.Client(transport=self._keeps(PolicyTransport(self.policy, **self.how))) as client:
                response = client.request(method, url, **how)
                return Answer(response.status_code, response.text)
        made = self._httpx(method, url, how) if self.kind == "httpx async" else self._aiohttp(method, url, how)
        return asyncio.run(made)

    async def _httpx(self, method: str, url: str, how: Any) -> Answer:
        transport = self._keeps(AsyncPolicyTransport(self.policy, **self.how))
        async with httpx.AsyncClient(transport=transport) as client:
            response = await client.request(method, url, **how)
            return Answer(response.status_code, response.text)

    async def _aiohttp(self, method: str, url: str, how: Any) -> Answer:
        if "content" in how:
            how["data"] = how.pop("content")
        async with aiohttp.ClientSession() as session:
            client = self._keeps(PolicySession(session, self.policy, **self.how))
            async with client.request(method, url, **how) as response:
                return Answer(response.status, await response.text())

    def _keeps(self, made: Any) -> Any:
        self.retrying = made.retrying
        return made


KINDS = pytest.mark.parametrize("kind", ["httpx", "httpx async", "aiohttp"])


@KINDS
def test_bad_statuses_are_retried(kind: str, server: Server, clock: VirtualClock) -> None:
    server.says(503, 502, 200)
    client = Client(kind, clock, recurs(5) & spaced(0.5))
    answer = client.request("GET", server.url)
    assert (answer.status, answer.text) == (200, "answer 3")
    assert clock.slept == pytest.approx([0.5, 0.5])
    assert (client.retrying.statistics.won, client.retrying.statistics.retries) == (1, 2)


@KINDS
def test_the_last_response_is_given_whole(kind: str, server: Server, clock: VirtualClock) -> None:
    server.says(503)
    client = Client(kind, clock, recurs(2))
    answer = client.request("GET", server.url)
    assert (answer.status, answer.text, len(server.requests)) == (503, "answer 3", 3)
    assert client.retrying.statistics.schedule_done == 1
    server.says(404)
    assert Client(kind, clock, recurs(2)).request("GET", server.url).status == 404
    assert len(server.requests) == 1
    server.says(500, 200)
    assert Client(kind, clock, recurs(2), on_status={500}).request("GET", server.url).status == 200


@KINDS
def test_retry_after_is_a_lower_bound(kind: str, server: Server, clock: VirtualClock) -> None:
    answers: Any = [(503, {"Retry-After": text}) for text in ("7", "1", "soon", "999999999999")]
    server.says(*answers, 200)
    client = Client(kind, clock, recurs(9) & spaced(2), max_retry_after=100)
    assert client.request("GET", server.url).status == 200
    assert clock.slept == pytest.approx([7, 2, 2, 100])


@KINDS
def test_the_last_response_is_there_though_the_deadline_passed_in_a_wait(
    kind: str, server: Server, clock: VirtualClock
) -> None:
    def sleeps_too_long(seconds: float) -> None:
        clock.sleep(seconds + 60)

    async def sleeps_too_long_later(seconds: float) -> None:
        sleeps_too_long(seconds)

    sleep: Any = sleeps_too_long if kind == "httpx" else sleeps_too_long_later
    for stop in (None, lambda state: state.upcoming_sleep > 0):
        server.says(503, 200)
        client = Client(kind, clock, spaced(1), deadline=None if stop else 10, sleep=sleep, stop=stop)
        answer = client.request("GET", server.url)
        assert (answer.status, answer.text, len(server.requests)) == (503, "answer 1", 1)
        counted = client.retrying.statistics
        assert (counted.deadline, counted.stopped) == ((0, 1) if stop else (1, 0))


@KINDS
def test_a_response_that_asks_for_too_much_time_is_given_at_once(
    kind: str, server: Server, clock: VirtualClock
) -> None:
    server.says((503, {"Retry-After": "2"}), (503, {"Retry-After": "2"}), 200)
    client = Client(kind, clock, recurs(9), deadline=3.5)
    # after a wait of 2 s, 2 more would be too late
    answer = client.request("GET", server.url)
    assert (answer.status, answer.text) == (503, "answer 2")
    assert clock.slept == pytest.approx([2])
    assert client.retrying.statistics.deadline == 1


@KINDS
def test_the_policy_is_given_the_status(kind: str, server: Server, clock: VirtualClock) -> None:
    server.says(503, 503, 502, 503)
    assert Client(kind, clock, recurs(9).while_input(equal=503)).request("GET", server.url).status == 502
    assert len(server.requests) == 3


@KINDS
def test_connections_that_break(kind: str, server: Server, clock: VirtualClock) -> None:
    server.says(0, 0, 200)
    assert Client(kind, clock, recurs(5)).request("GET", server.url).status == 200
    server.says(0)
    with pytest.raises((httpx.TransportError, aiohttp.ClientConnectionError)):
        Client(kind, clock, recurs(2)).request("GET", server.url)
    assert len(server.requests) == 3
    with socket.socket() as taken:
        taken.bind(("127.0.0.1", 0))
        url = f"http://127.0.0.1:{taken.getsockname()[1]}"
        with pytest.raises((httpx.ConnectError, aiohttp.ClientConnectorError)):
            Client(kind, clock, recurs(3) & spaced(1)).request("POST", url)
    assert clock.slept == pytest.approx([1, 1, 1])


@KINDS
def test_methods_and_bodies_that_must_not_be_repeated(kind: str, server: Server, clock: VirtualClock) -> None:
    server.says(503, 200)
    assert Client(kind, clock, recurs(5)).request("POST", server.url, content=b"a").status == 503
    server.says(0, 200)
    with pytest.raises((httpx.TransportError, aiohttp.ClientConnectionError)):
        Client(kind, clock, recurs(5)).request("POST", server.url, content=b"a")
    assert len(server.requests) == 1
    server.says(503, 200)
    client = Client(kind, clock, recurs(5), methods={"POST"})
    assert client.request("POST", server.url, content=b"a").status == 200
    assert [(method, body) for method, _, body in server.requests] == [("POST", b"a")] * 2


@KINDS
def test_a_quota_over_all_requests(kind: str, server: Server, clock: VirtualClock) -> None:
    quota = Quota(1, 0.5, 3600, clock=clock)
    client = Client(kind, clock, recurs(9), limit=quota)
    for _ in range(3):
        assert client.request("GET", server.url).status == 200
    server.says(503)
    assert client.request("GET", server.url).status == 503
    assert len(server.requests) == 1 + 3
    usage = quota.seen()
    assert (usage.asked, usage.given, usage.left) == (4, 3, 0)


@KINDS
def test_a_quota_of_successes_that_takes_tickets_back(kind: str, server: Server, clock: VirtualClock) -> None:
    quota = Quota(1, 0.5, 3600, clock=clock, counts_successes=True, returns_tickets=True)
    client = Client(kind, clock, recurs(9), limit=quota)
    server.says(503, 200)
    assert client.request("GET", server.url).status == 200
    assert (quota.seen().asked, quota.seen().given) == (1, 0)
    server.says(503)
    assert client.request("GET", server.url).status == 503
    assert (quota.seen().asked, quota.seen().given) == (1, 1)


def test_responses_that_are_followed_are_let_go(server: Server, clock: VirtualClock) -> None:
    async def main() -> int:
        server.says(503, 503, 200)
        connector = aiohttp.TCPConnector(limit=1)
        async with aiohttp.ClientSession(connector=connector) as session:
            client = PolicySession(session, recurs(5), clock=clock, sleep=clock.sleep_async)
            response = await client.get(server.url)
            response.release()
            for verb in (client.delete, client.head, client.options, client.patch, client.post, client.put):
                assert callable(verb)
            return int(response.status)

    assert asyncio.run(asyncio.wait_for(main(), 60)) == 200


def test_a_budget_of_a_client(server: Server, clock: VirtualClock) -> None:
    with Budget(2) as budget:
        server.says(503)
        client = Client("httpx", clock, recurs(9), limit=budget)
        assert client.request("GET", server.url).status == 503
        assert client.retrying.statistics.limit_refused == 1
    assert budget.granted == 2
