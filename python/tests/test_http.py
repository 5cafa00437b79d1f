"""Policies for urllib3 and requests, against a server on loopback, with the libraries that are installed."""

from __future__ import annotations

import copy
import email.utils
import pickle
import socket
import threading
import time
import urllib.error
from typing import Any, List

import pytest
from http_server import Server

from hikebox import Budget, Quota, Retrying, Usage, exponential, recurs, spaced, stop
from hikebox.http import parse_retry_after, retry_after
from hikebox.testing import VirtualClock

urllib3 = pytest.importorskip("urllib3")
requests = pytest.importorskip("requests")

from hikebox.adapters.requests import PolicyAdapter  # noqa: E402
from hikebox.adapters.urllib3 import PolicyRetry  # noqa: E402


def pool(clock: VirtualClock, policy: Any, **how: Any) -> Any:
    how = {"raise_on_status": False, **how}
    return urllib3.PoolManager(retries=PolicyRetry(policy, clock=clock, sleep=clock.sleep, **how))


def session(clock: VirtualClock, policy: Any, **how: Any) -> Any:
    made = requests.Session()
    made.trust_env = False
    made.mount("http://", PolicyAdapter(policy, clock=clock, sleep=clock.sleep, **how))
    return made


def test_bad_statuses_are_retried(server: Server, clock: VirtualClock) -> None:
    server.says(503, 502, 200)
    answer = pool(clock, recurs(5) & exponential(0.5)).request("GET", server.url)
    assert (answer.status, answer.data) == (200, b"answer 3")
    assert clock.slept == pytest.approx([0.5, 1.0], abs=0.01)
    server.says(429, 504, 200)
    reply = session(clock, recurs(5)).get(server.url)
    assert (reply.status_code, reply.text, len(server.requests)) == (200, "answer 3", 3)


def test_the_last_response_is_given(server: Server, clock: VirtualClock) -> None:
    server.says(503)
    assert pool(clock, recurs(2)).request("GET", server.url).status == 503
    assert len(server.requests) == 3
    reply = session(clock, recurs(2)).get(server.url)
    assert reply.status_code == 503 and reply.text == "answer 6"
    with pytest.raises(requests.exceptions.RetryError):
        session(clock, recurs(2), raise_on_status=True).get(server.url)
    with pytest.raises(urllib3.exceptions.MaxRetryError):
        pool(clock, stop(), raise_on_status=True).request("GET", server.url)


def test_other_statuses_are_not_retried(server: Server, clock: VirtualClock) -> None:
    for status in (404, 500, 200):
        server.says(status)
        assert session(clock, recurs(2)).get(server.url).status_code == status
        assert len(server.requests) == 1
    server.says(500, 200)
    assert session(clock, recurs(2), on_status={500}).get(server.url).status_code == 200


def test_the_policy_is_given_the_status(server: Server, clock: VirtualClock) -> None:
    server.says(503, 503, 502, 503)
    policy = recurs(9).while_input(equal=503)
    assert session(clock, policy).get(server.url).status_code == 502
    assert len(server.requests) == 3


def test_retry_after_is_a_lower_bound(server: Server, clock: VirtualClock) -> None:
    began = time.time()
    in_a_minute = email.utils.formatdate(began + 60, usegmt=True)
    server.says(
        (503, {"Retry-After": "7"}),
        (503, {"Retry-After": "1"}),
        (503, {"Retry-After": "soon"}),
        (503, {"Retry-After": in_a_minute}),
        (429, {"Retry-After": "999999999"}),
        200,
    )
    assert session(clock, recurs(9) & spaced(2), max_retry_after=100).get(server.url).status_code == 200
    assert clock.slept[:3] == pytest.approx([7, 2, 2], abs=0.01)
    # a date has whole seconds
    assert 59 - (time.time() - began) <= clock.slept[3] <= 60 and clock.slept[4] == 100
    server.says((413, {"Retry-After": "3"}), 200)
    assert session(clock, recurs(9)).get(server.url).status_code == 200


def test_connections_that_break(server: Server, clock: VirtualClock) -> None:
    server.says(0, 0, 200)
    assert session(clock, recurs(5) & spaced(1)).get(server.url).status_code == 200
    assert clock.slept == pytest.approx([1, 1], abs=0.01)
    server.says(0)
    with pytest.raises(requests.exceptions.ConnectionError):
        session(clock, recurs(2)).get(server.url)
    assert len(server.requests) == 3
    server.says(0)
    with pytest.raises(urllib3.exceptions.MaxRetryError):
        pool(clock, recurs(2)).request("GET", server.url)


def test_connections_that_are_not_made(clock: VirtualClock) -> None:
    with socket.socket() as taken:
        taken.bind(("127.0.0.1", 0))
        url = f"http://127.0.0.1:{taken.getsockname()[1]}"
        with pytest.raises(requests.exceptions.ConnectionError):
            session(clock, recurs(3) & spaced(1)).post(url)
    assert clock.slept == pytest.approx([1, 1, 1], abs=0.01)


def test_methods_that_must_not_be_repeated(server: Server, clock: VirtualClock) -> None:
    server.says(503, 200)
    assert session(clock, recurs(5)).post(server.url, data="a").status_code == 503
    server.says(0, 200)
    with pytest.raises(requests.exceptions.ConnectionError):
        session(clock, recurs(5)).post(server.url, data="a")
    assert len(server.requests) == 1
    server.says(503, 200)
    allowed = session(clock, recurs(5), methods={"post"})
    assert allowed.post(server.url, data="a").status_code == 200
    assert server.requests == [("POST", "/", b"a")] * 2


def test_redirects_draw_no_ticket(server: Server, clock: VirtualClock) -> None:
    with Budget(10) as budget:
        server.says((302, {"Location": "/b"}), 503, (302, {"Location": "/c"}), 200)
        answer = pool(clock, recurs(5), limit=budget).request("GET", server.url + "/a")
        assert answer.status == 200
        assert [path for _, path, _ in server.requests] == ["/a", "/b", "/b", "/c"]
        server.says((302, {"Location": "/b"}), 503, 200)
        assert session(clock, recurs(5), limit=budget).get(server.url + "/a").status_code == 200
    assert budget.granted == 2


def test_a_budget_over_all_requests(server: Server, clock: VirtualClock) -> None:
    with Budget(4) as budget:
        one = session(clock, recurs(3), limit=budget)
        server.says(503)
        assert [one.get(server.url).status_code for _ in range(3)] == [503] * 3
        assert len(server.requests) == 3 + 4
    assert budget.granted == 4


def test_a_quota_over_all_requests(server: Server, clock: VirtualClock) -> None:
    quota = Quota(1, 0.5, 3600, clock=clock)
    with session(clock, recurs(9), limit=quota) as made:
        for _ in range(3):
            assert made.get(server.url).status_code == 200
        assert quota.seen() == Usage(window=0, asked=3, given=0, left=2)
        server.says(503)
        assert made.get(server.url).status_code == 503
        assert len(server.requests) == 1 + 3
        assert quota.seen() == Usage(window=0, asked=4, given=3, left=0)
    # connections that break: the fifth request gives half a ticket, and with the sixth it is one
    server.says(0)
    with pytest.raises(urllib3.exceptions.MaxRetryError):
        pool(clock, recurs(9), limit=quota).request("GET", server.url)
    assert quota.seen() == Usage(window=0, asked=5, given=3, left=0)
    server.says(0, 200)
    assert pool(clock, recurs(9), limit=quota).request("GET", server.url).status == 200
    assert quota.seen() == Usage(window=0, asked=6, given=4, left=0)


def test_a_quota_of_successes_that_takes_tickets_back(server: Server, clock: VirtualClock) -> None:
    quota = Quota(1, 0.5, 3600, clock=clock, counts_successes=True, returns_tickets=True)
    with session(clock, recurs(9), limit=quota) as made:
        for asked in (1, 2):
            server.says(503, 200)
            assert made.get(server.url).status_code == 200
            assert quota.seen() == Usage(window=0, asked=asked, given=0, left=1 + asked // 2)
        server.says(503)
        assert made.get(server.url).status_code == 503
        assert quota.seen() == Usage(window=0, asked=2, given=2, left=0)
    quota.set_terms(reserve=2)
    server.says(503, 200)
    assert pool(clock, recurs(9), limit=quota).request("GET", server.url).status == 200
    assert quota.seen() == Usage(window=0, asked=3, given=2, left=1)


def test_threads_share_an_adapter(server: Server, clock: VirtualClock) -> None:
    with Budget(60) as budget:
        one = session(clock, recurs(10), limit=budget)
        server.says(503)
        threads = [threading.Thread(target=one.get, args=(server.url,)) for _ in range(8)]
        for thread in threads:
            thread.start()
        for thread in threads:
            thread.join()
        assert len(server.requests) == 8 + 60
    assert budget.granted == 60


def test_requests_that_are_over_are_counted(server: Server, clock: VirtualClock) -> None:
    seen: List[Any] = []
    hooks: Any = {
        "on_success": lambda state: seen.append(state.attempt_number),
        "after": lambda state: seen.append(state.outcome.result().status_code),
    }
    with Budget(10) as budget:
        one = session(clock, recurs(2), limit=budget, **hooks)
        adapter = one.get_adapter(server.url)
        server.says(503, 200)
        kept = one.get(server.url)
        assert seen == [503, 2]
        # its pass was given back, though the answer is still there
        assert budget.granted == 1 and kept.ok
        server.says(503)
        assert one.get(server.url).status_code == 503
        server.says(404)
        assert one.get(server.url).status_code == 404
        counted = adapter.statistics
        assert (counted.calls, counted.attempts, counted.won, counted.schedule_done) == (3, 2 + 3 + 1, 2, 1)
        assert counted == adapter.retrying.statistics
        one.mount("http://", PolicyAdapter(stop(), limit=budget))
        server.says(503, 200)
        assert one.get(server.url).status_code == 503
    assert budget.granted == 3


def test_no_request_is_made_past_the_deadline_of_a_sleep_that_takes_too_long(
    server: Server, clock: VirtualClock
) -> None:
    def sleeps_too_long(seconds: float) -> None:
        clock.sleep(seconds + 60)

    server.says(503, 200)
    with requests.Session() as one:
        one.trust_env = False
        adapter = PolicyAdapter(spaced(1), deadline=10, clock=clock, sleep=sleeps_too_long)
        one.mount("http://", adapter)
        answer = one.get(server.url)
    assert (answer.status_code, answer.text, len(server.requests)) == (503, "answer 1", 1)
    assert adapter.statistics.deadline == 1

    server.says(503, 200)
    retries = PolicyRetry(spaced(1), deadline=10, clock=clock, sleep=sleeps_too_long)
    with pytest.raises(urllib3.exceptions.MaxRetryError):
        urllib3.PoolManager(retries=retries).request("GET", server.url)
    assert len(server.requests) == 1 and retries.statistics.deadline == 1


def test_a_deadline_counts_from_the_requests_beginning(server: Server, clock: VirtualClock) -> None:
    with Budget(100) as budget:
        for deadline, attempts in ((None, 3), (2.75, 3), (2.4, 2)):
            made = session(clock, recurs(2) & spaced(1), limit=budget, deadline=deadline)
            for _ in range(2):
                server.says(503)
                server.took = lambda: clock.advance(0.25)
                # answers at 0.25, 1.5 and 2.75
                assert made.get(server.url).status_code == 503
                assert len(server.requests) == attempts
    assert budget.granted == 2 * (2 + 2 + 1)
    # by urllib3 alone it counts from the first answer, a quarter of a second later
    server.says(503)
    server.took = lambda: clock.advance(0.25)
    assert pool(clock, spaced(1), deadline=2.4).request("GET", server.url).status == 503
    assert len(server.requests) == 3


def test_a_session_is_copied_and_pickled(server: Server) -> None:
    one = requests.Session()
    one.trust_env = False
    one.mount("http://", PolicyAdapter(recurs(3), on_status={500}, max_retry_after=5))
    for other in (copy.copy(one), copy.deepcopy(one), pickle.loads(pickle.dumps(one))):
        server.says(500, 500, 200)
        assert other.get(server.url).status_code == 200
        assert other.get_adapter(server.url).retrying.max_retry_after == 5
    budget = Budget(1)
    with_budget = copy.deepcopy(PolicyAdapter(recurs(3), limit=budget))
    assert with_budget.retrying is not None and with_budget.retrying.limit is budget


def test_a_retry_without_a_policy_is_urllib3s_own(server: Server) -> None:
    retries = PolicyRetry(total=1, status_forcelist={503})
    server.says(503, 200)
    assert urllib3.PoolManager(retries=retries).request("GET", server.url).status == 200


def test_what_headers_ask_for() -> None:
    assert parse_retry_after(None) is None
    assert parse_retry_after(" 7 ") == 7
    assert parse_retry_after("-7") is None and parse_retry_after("1.5") is None and parse_retry_after("²") is None
    assert parse_retry_after("Thu, 01 Jan 1970 00:01:40 GMT", now=lambda: 200) == 0
    assert parse_retry_after("Thu, 01 Jan 1970 00:01:40", now=lambda: 40) == 60
    for year, hour, zone in (("9" * 20, "00", "GMT"), ("1970", "9" * 20, "GMT"), ("1970", "00", "-" + "9" * 20)):
        assert parse_retry_after(f"Thu, 01 Jan {year} {hour}:00:00 {zone}") is None
    error = urllib.error.HTTPError("http://x", 503, "busy", {"Retry-After": "7"}, None)  # type: ignore[arg-type]
    assert retry_after(error) == 7
    response = requests.Response()
    response.status_code = 503
    response.headers["Retry-After"] = "8"
    assert retry_after(requests.HTTPError(response=response)) == 8
    assert retry_after(ValueError()) is None


def test_retry_after_for_calls_of_ones_own(server: Server, clock: VirtualClock) -> None:
    def ask() -> Any:
        reply = requests.get(server.url)
        reply.raise_for_status()
        return reply

    server.says((503, {"Retry-After": "7"}), (404, {}), 200)
    policy = (recurs(5) & spaced(1)).while_input(at_least=500)
    retrying = Retrying(policy, on=requests.RequestException, retry_after=retry_after, clock=clock, sleep=clock.sleep)
    with pytest.raises(requests.HTTPError) as caught:
        retrying(ask)
    assert caught.value.response.status_code == 404
    assert clock.slept == pytest.approx([7], abs=0.01)
