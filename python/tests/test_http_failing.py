"""Every client against a server that fails, with urllib3's own `Retry` and a plain `@retry` beside the adapters."""

from __future__ import annotations

import asyncio
import email.utils
import io
import os
import pickle
import threading
import time
from typing import Any, AsyncIterator, Callable, Dict, Iterator, List, NamedTuple, Tuple

import pytest
from http_server import Answer, Server

from hikebox.http import is_bad
from hikebox import Breaker, Budget, InFlight, NotAdmitted, Quota, RefusalReason, forever, recurs, retry, spaced

urllib3 = pytest.importorskip("urllib3")
requests = pytest.importorskip("requests")
httpx = pytest.importorskip("httpx")
aiohttp = pytest.importorskip("aiohttp")

from hikebox.adapters.aiohttp import PolicySession  # noqa: E402
from hikebox.adapters.httpx import AsyncPolicyTransport, PolicyTransport  # noqa: E402
from hikebox.adapters.requests import PolicyAdapter  # noqa: E402
from hikebox.adapters.urllib3 import PolicyRetry  # noqa: E402
from hikebox.testing import VirtualClock  # noqa: E402

#: A status, and a body.
Got = Tuple[int, bytes]
STATUSES = {429, 502, 503, 504}
FAILED = (
    urllib3.exceptions.HTTPError,
    requests.RequestException,
    httpx.HTTPError,
    aiohttp.ClientError,
    asyncio.TimeoutError,
)


class Client:
    """One client with a policy, or without one. All its calls are of one session."""

    def __init__(self, kind: str, *policy: Any, **how: Any) -> None:
        self.kind = kind
        self.policy = policy
        self.how = how

    def get(self, url: str, times: int = 1) -> List[Got]:
        """What so many calls got."""
        made: Dict[str, Callable[[str, int], Any]] = {
            "urllib3": self._urllib3,
            "requests": self._requests,
            "httpx": self._httpx,
            "httpx async": lambda url, times: asyncio.run(self._httpx_async(url, times)),
            "aiohttp": lambda url, times: asyncio.run(self._aiohttp(url, times)),
        }
        got: List[Got] = made[self.kind](url, times)
        return got

    def _urllib3(self, url: str, times: int) -> List[Got]:
        how: Any = {"raise_on_status": False, **self.how}
        retries = PolicyRetry(*self.policy, **how) if self.policy else urllib3.Retry(connect=0, read=0, **how)
        with urllib3.PoolManager(retries=retries) as pool:
            # (a body without its end is an error by default from version 2 on)
            answers = [pool.request("GET", url, enforce_content_length=True) for _ in range(times)]
        return [(answer.status, answer.data) for answer in answers]

    def _requests(self, url: str, times: int) -> List[Got]:
        with requests.Session() as session:
            session.trust_env = False
            if self.policy:
                session.mount("http://", PolicyAdapter(*self.policy, **self.how))
            return [(reply.status_code, reply.content) for reply in (session.get(url) for _ in range(times))]

    def _httpx(self, url: str, times: int) -> List[Got]:
        transport = PolicyTransport(*self.policy, **self.how) if self.policy else None
        with httpx.Client(transport=transport, follow_redirects=True, trust_env=False) as client:
            return [(answer.status_code, answer.content) for answer in (client.get(url) for _ in range(times))]

    async def _httpx_async(self, url: str, times: int) -> List[Got]:
        transport = AsyncPolicyTransport(*self.policy, **self.how) if self.policy else None
        async with httpx.AsyncClient(transport=transport, follow_redirects=True, trust_env=False) as client:
            answers = [await client.get(url) for _ in range(times)]
            return [(answer.status_code, answer.content) for answer in answers]

    async def _aiohttp(self, url: str, times: int) -> List[Got]:
        got = []
        async with aiohttp.ClientSession() as session:
            client: Any = PolicySession(session, *self.policy, **self.how) if self.policy else session
            for _ in range(times):
                async with client.get(url) as answer:
                    got.append((answer.status, await answer.read()))
        return got


KINDS = ["urllib3", "requests", "httpx", "httpx async", "aiohttp"]
EACH = pytest.mark.parametrize("kind", KINDS)
#: Those whose adapters hand a deadline on.
TIMED = pytest.mark.parametrize("kind", KINDS[1:])

CUT = Answer(200, body=b"x" * 100, sends=40)
CUT_CHUNK = Answer(200, body=b"x" * 100, sends=40, is_chunked=True)
RESET = Answer(0, resets=True)
NO_HTTP = Answer(0, raw=b"SSH-2.0-OpenSSH_9.2\r\n\r\n")
TOO_LONG = Answer(0, raw=b"HTTP/1.1 200 OK\r\nX: " + b"x" * 200_000 + b"\r\n\r\n")
FAILURES = pytest.mark.parametrize(
    "failures",
    [
        [503, 502],
        [429, 504, 503],
        [0, 0],
        [RESET, RESET],
        [CUT],
        [CUT, 503, 0],
        [(503, {"Retry-After": "0"})],
        [NO_HTTP, TOO_LONG],
    ],
    ids=["statuses", "more statuses", "closed", "reset", "cut", "mixed", "retry-after", "no http"],
)


class Seen(NamedTuple):
    """What a call got, and what the server had of it."""

    got: List[Got]
    requests: int
    connections: int


def seen(server: Server, answers: List[Any], call: Callable[[], List[Got]]) -> Seen:
    server.says(*answers)
    got = call()
    return Seen(got, len(server.requests), server.connections)


def by_urllib3s_retry(url: str) -> List[Got]:
    retries = urllib3.Retry(total=5, status_forcelist=STATUSES, raise_on_status=False)
    with urllib3.PoolManager(retries=retries) as pool:
        answer = pool.request("GET", url, enforce_content_length=True)
    return [(answer.status, answer.data)]


def by_plain_retry(url: str) -> List[Got]:
    with requests.Session() as session:
        session.trust_env = False

        @retry(recurs(5), on=requests.RequestException)
        def fetch() -> List[Got]:
            reply = session.get(url)
            reply.raise_for_status()
            if reply.raw.length_remaining:
                raise requests.ConnectionError("cut short")
            return [(reply.status_code, reply.content)]

        return fetch()


@EACH
@FAILURES
def test_as_the_oracles_do(kind: str, failures: List[Any], server: Server) -> None:
    answers = [*failures, 200]
    adapters = seen(server, answers, lambda: Client(kind, recurs(5)).get(server.url))
    assert adapters.got == [(200, f"answer {len(answers)}".encode())]
    for oracle in (by_urllib3s_retry, by_plain_retry):
        assert adapters == seen(server, answers, lambda: oracle(server.url)), oracle


@EACH
def test_no_more_than_the_policy_has(kind: str, server: Server) -> None:
    assert seen(server, [503], lambda: Client(kind, recurs(3)).get(server.url)) == ([(503, b"answer 4")], 4, 1)
    for failure in (0, RESET, CUT):
        server.says(failure)
        with pytest.raises(FAILED):
            Client(kind, recurs(3)).get(server.url)
        assert len(server.requests) == 4


@EACH
def test_a_body_in_chunks_that_breaks(kind: str, server: Server) -> None:
    server.says(CUT_CHUNK, CUT_CHUNK, 200)
    # its length is not known, so httpx and aiohttp read it only where they are told to
    how = {} if kind in ("urllib3", "requests") else {"read_up_to": None}
    assert Client(kind, recurs(5), **how).get(server.url) == [(200, b"answer 3")]


@TIMED
def test_bodies_that_are_not_read(kind: str, server: Server) -> None:
    if kind == "requests":
        pytest.skip("it is told by stream=True")
    server.says(CUT, 200)
    with pytest.raises(FAILED):
        Client(kind, recurs(5), read_up_to=99).get(server.url)
    assert len(server.requests) == 1
    server.says(CUT, 200)
    assert Client(kind, recurs(5), read_up_to=100).get(server.url) == [(200, b"answer 2")]
    for wrong in (-1, 1.5, True):
        with pytest.raises(TypeError, match="read_up_to: expected a number of bytes or None, got"):
            Client(kind, recurs(5), read_up_to=wrong).get(server.url)


@EACH
def test_retry_after_in_seconds_and_as_a_date(kind: str, server: Server) -> None:
    for is_date in (False, True):
        began = time.monotonic()
        text = email.utils.formatdate(time.time() + 2, usegmt=True) if is_date else "1"
        assert seen(server, [(503, {"Retry-After": text}), 200], lambda: Client(kind, recurs(5)).get(server.url)) == (
            [(200, b"answer 2")],
            2,
            1,
        )
        # (a date has whole seconds)
        assert 0.9 < time.monotonic() - began < 30


@EACH
def test_bodies_that_nobody_wants(kind: str, server: Server) -> None:
    # a long one costs its connection, and one that comes slowly no time
    server.says(Answer(503, body=b"x" * 2_000_000), 200)
    assert Client(kind, recurs(5)).get(server.url) == [(200, b"answer 2")]
    if kind == "urllib3":
        return  # which reads it to its end before it asks its Retry
    server.says(Answer(503, body=b"x" * 200, drips=0.2), 200)
    began = time.monotonic()
    assert Client(kind, recurs(5)).get(server.url) == [(200, b"answer 2")]
    assert time.monotonic() - began < 20


@EACH
def test_a_response_is_looked_at_once(kind: str, server: Server, monkeypatch: Any) -> None:
    looks: List[int] = []

    def looked(status: int, *how: Any) -> bool:
        looks.append(status)
        return is_bad(status, *how)

    for module in ("_http", "urllib3"):
        monkeypatch.setattr(f"hikebox.adapters.{module}.is_bad", looked)
    server.says(503, 502, 200, 404, 503, 503, 503)
    got = Client(kind, recurs(2)).get(server.url, 3)
    assert [status for status, _ in got] == [200, 404, 503]
    assert looks == [503, 502, 200, 404, 503, 503, 503]


@pytest.mark.parametrize("kind", KINDS[1:])
def test_a_fallback_gives_what_it_likes(kind: str, server: Server) -> None:
    def fallback(state: Any) -> Any:
        return made[kind]()

    made: Dict[str, Callable[[], Any]] = {
        "requests": lambda: response_of_requests(),
        "httpx": lambda: httpx.Response(418, content=b"a teapot"),
        "httpx async": lambda: httpx.Response(418, content=b"a teapot"),
        "aiohttp": Teapot,
    }
    server.says(503)
    assert Client(kind, recurs(1), fallback=fallback).get(server.url) == [(418, b"a teapot")]
    assert len(server.requests) == 2


def response_of_requests() -> Any:
    made = requests.Response()
    made.status_code, made._content = 418, b"a teapot"
    return made


class Teapot:
    """What is no response of aiohttp, but can be read as one."""

    status = 418

    async def read(self) -> bytes:
        return b"a teapot"


# Redirects


def hops(count: int, after: float = 0.0) -> List[Any]:
    return [Answer(302, {"Location": f"/{hop}"}, after=after) for hop in range(count)]


@EACH
@pytest.mark.parametrize("policy", [recurs(2), forever()], ids=["two", "forever"])
def test_a_redirect_loop_ends(kind: str, policy: Any, server: Server) -> None:
    def loops(client: Client) -> int:
        server.says(*hops(1))
        with pytest.raises((*FAILED, requests.TooManyRedirects)):
            client.get(server.url)
        return len(server.requests)

    quota = Quota(1, 0, 10**6)
    most = loops(Client(kind))
    assert most == {"urllib3": 11, "requests": 31, "aiohttp": 10}.get(kind, 21)
    assert loops(Client(kind, policy, limit=quota, deadline=60)) == most
    assert (quota.seen().asked, quota.seen().given) == (1, 0)


def test_how_many_redirects_a_retry_follows(server: Server) -> None:
    def count(**how: Any) -> int:
        server.says(*hops(1))
        with pytest.raises(urllib3.exceptions.MaxRetryError, match="too many redirects"):
            urllib3.PoolManager(retries=PolicyRetry(recurs(2), **how)).request("GET", server.url)
        return len(server.requests)

    def original(**how: Any) -> int:
        server.says(*hops(1))
        with pytest.raises(urllib3.exceptions.MaxRetryError, match="too many redirects"):
            urllib3.PoolManager(retries=urllib3.Retry(**how)).request("GET", server.url)
        return len(server.requests)

    hows: List[Dict[str, Any]] = [{}, {"redirect": 3}, {"total": 4}, {"total": 20, "redirect": 12}, {"redirect": 0}]
    for how in hows:
        assert count(**how) == original(**how), how
    assert count(redirect=None, total=None) == 11
    server.says(*hops(1))
    refused = urllib3.PoolManager(retries=PolicyRetry(recurs(2), redirect=False)).request("GET", server.url)
    assert (refused.status, len(server.requests)) == (302, 1)


@EACH
def test_a_call_is_one_request_of_a_quota(kind: str, server: Server) -> None:
    quota = Quota(5, 1, 10**6)
    server.says(*hops(4), 200)
    client = Client(kind, recurs(2), limit=quota)
    assert client.get(server.url, times=3)[0] == (200, b"answer 5")
    assert (quota.seen().asked, quota.seen().given) == (3, 0)


@pytest.mark.parametrize("kind", ["requests", "httpx"])
def test_a_request_that_is_made_again_is_another_call(kind: str, server: Server) -> None:
    server.says((302, {"Location": "/"}))
    clock, quota = VirtualClock(), Quota(0, 1, 10**6)
    how: Any = {"deadline": 10, "clock": clock, "sleep": clock.sleep, "limit": quota}
    if kind == "requests":
        client: Any = requests.Session()
        client.trust_env, client.max_redirects = False, 5
        client.mount("http://", PolicyAdapter(recurs(2), **how))
        request = client.prepare_request(requests.Request("GET", server.url))
    else:
        transport = PolicyTransport(recurs(2), **how)
        client = httpx.Client(transport=transport, follow_redirects=True, max_redirects=5, trust_env=False)
        request = client.build_request("GET", server.url)
    with client:
        for _ in range(3):
            with pytest.raises((requests.TooManyRedirects, httpx.TooManyRedirects)):
                client.send(request)
            clock.advance(60)
    assert (len(server.requests), quota.seen().asked) == (18, 3)


def test_threads_may_make_one_request_at_once(server: Server) -> None:
    quota = Quota(0, 1, 10**6)
    server.says((302, {"Location": "/"}))
    with requests.Session() as session:
        session.trust_env = False
        session.max_redirects = 5
        session.mount("http://", PolicyAdapter(recurs(2), limit=quota, pool_maxsize=8))
        request = session.prepare_request(requests.Request("GET", server.url))

        def calls() -> None:
            for _ in range(10):
                with pytest.raises(requests.TooManyRedirects):
                    session.send(request)

        threads = [threading.Thread(target=calls) for _ in range(8)]
        for thread in threads:
            thread.start()
        for thread in threads:
            thread.join()
    assert quota.seen().asked == 80


@EACH
def test_a_success_counts_once_and_where_a_redirect_leads(kind: str, server: Server) -> None:
    quota = Quota(5, 1, 10**6, counts_successes=True)
    server.says(*hops(2), 200)
    Client(kind, recurs(0), limit=quota).get(server.url)
    assert quota.seen().asked == 1
    server.says(*hops(2), 503)
    Client(kind, recurs(0), limit=quota).get(server.url)
    assert quota.seen().asked == 1


@EACH
def test_redirects_share_the_retries(kind: str, server: Server) -> None:
    [first, second] = hops(2)
    with Budget(10) as budget:
        server.says(503, first, 503, second, 503, 200)
        # (aiohttp begins with the first request again, and has the same five)
        assert Client(kind, recurs(2), limit=budget).get(server.url) == [(503, b"answer 5")]
    assert budget.granted == 2
    server.says(503, first, 0, second, 200)
    assert Client(kind, recurs(2)).get(server.url) == [(200, b"answer 5")]


@EACH
def test_redirects_share_the_deadline(kind: str, server: Server) -> None:
    server.says(*hops(9, after=0.6), 200)
    began = time.monotonic()
    with pytest.raises(FAILED):
        Client(kind, recurs(2), deadline=1).get(server.url)
    assert time.monotonic() - began < 60
    # urllib3 tells a Retry of the first answer only, and a last request may begin before the deadline
    assert len(server.requests) <= 4


def test_a_redirect_that_is_not_followed(server: Server) -> None:
    with Budget(5) as budget:
        transport = PolicyTransport(recurs(2), limit=budget, deadline=60)
        with httpx.Client(transport=transport, trust_env=False) as client:
            request = client.build_request("GET", server.url)
            server.says(503, *hops(1), 200)
            answer = client.send(request)
            # its pass was given back, though the answer is still there
            assert (answer.status_code, budget.granted) == (302, 1)
            followed = client.send(answer.next_request)
            assert (followed.status_code, transport.statistics.won) == (200, 2)
            # the same request again is another call
            server.says(503, 503, 200)
            assert client.send(request).status_code == 200
        session = requests.Session()
        session.trust_env = False
        session.mount("http://", PolicyAdapter(recurs(2), limit=budget))
        prepared = session.prepare_request(requests.Request("GET", server.url))
        for _ in range(2):
            server.says(*hops(1), 503)
            assert session.send(prepared, allow_redirects=False).status_code == 302
            assert pickle.loads(pickle.dumps(prepared.copy())).url == prepared.url
        server.says(503, 200)
        reply = session.send(prepared)
        assert reply.status_code == 200 and list(reply.request.hooks) == ["response"]


# Deadlines


@TIMED
def test_what_a_deadline_has_left_is_the_clients_timeout(kind: str, server: Server) -> None:
    server.says(Answer(200, after=60))
    began = time.monotonic()
    with pytest.raises(FAILED):
        Client(kind, spaced(0.5), deadline=3).get(server.url)
    assert 2.9 < time.monotonic() - began < 40
    # (one that the machine holds up for three seconds has no time to send it)
    assert len(server.requests) <= 1


@TIMED
def test_what_an_outer_retry_has_left_is_too(kind: str, server: Server) -> None:
    server.says(Answer(200, after=60))
    began = time.monotonic()
    with pytest.raises(FAILED):
        retry(recurs(0), deadline=0.5)(Client(kind, recurs(0)).get)(server.url)
    assert time.monotonic() - began < 40


@pytest.mark.parametrize("kind", KINDS[2:])
def test_a_body_that_comes_too_slowly(kind: str, server: Server) -> None:
    server.says(Answer(200, body=b"x" * 600, drips=0.1))
    began = time.monotonic()
    with pytest.raises(FAILED):
        Client(kind, recurs(0), deadline=0.5).get(server.url)
    assert time.monotonic() - began < 40


def test_a_clients_own_timeout_is_kept_where_it_is_less(server: Server) -> None:
    session = requests.Session()
    session.trust_env = False
    session.mount("http://", PolicyAdapter(recurs(99), deadline=60))
    # (on a busy machine the second request may be late too)
    for timeout in (0.2, (5, 0.2), urllib3.Timeout(total=0.2), urllib3.Timeout(connect=5, read=0.2)):
        server.says(Answer(200, after=60), 200)
        began = time.monotonic()
        assert int(session.get(server.url, timeout=timeout).text[len("answer ") :]) >= 2
        assert time.monotonic() - began < 40
    with httpx.Client(transport=PolicyTransport(recurs(99), deadline=60), timeout=0.2, trust_env=False) as client:
        server.says(Answer(200, after=60), 200)
        assert int(client.get(server.url).text[len("answer ") :]) >= 2


# What a client reads for itself


def test_a_stream_is_given_as_it_comes(server: Server) -> None:
    is_given = threading.Event()
    server.says(Answer(200, body=b"x" * 40, holds=is_given, is_chunked=True))
    with httpx.Client(transport=PolicyTransport(recurs(1)), trust_env=False) as client:
        began = time.monotonic()
        with client.stream("GET", server.url) as answer:
            is_given.set()
            assert time.monotonic() - began < 50
            assert b"".join(answer.iter_raw()) == b"x" * 40
    session = requests.Session()
    session.trust_env = False
    session.mount("http://", PolicyAdapter(recurs(1)))
    is_given.clear()
    server.says(Answer(200, body=b"x" * 40, holds=is_given))
    began = time.monotonic()
    with session.get(server.url, stream=True) as reply:
        is_given.set()
        assert time.monotonic() - began < 50
        assert b"".join(reply.iter_content(7)) == b"x" * 40


def test_a_body_that_was_read_is_read_again(server: Server) -> None:
    server.says(Answer(200, body=b'{"a": 1}'))
    with httpx.Client(transport=PolicyTransport(recurs(1)), trust_env=False) as client:
        with client.stream("GET", server.url) as answer:
            assert b"".join(answer.iter_raw(3)) == b'{"a": 1}'

    async def by_aiohttp() -> None:
        async with aiohttp.ClientSession() as session:
            client = PolicySession(session, recurs(1))
            async with client.get(server.url) as answer:
                assert [part async for part in answer.content.iter_chunked(3)] == [b'{"a', b'": ', b"1}"]
            async with client.get(server.url) as answer:
                assert await answer.json(content_type=None) == {"a": 1}
            async with client.head(server.url) as answer:
                assert (answer.status, await answer.read()) == (200, b"")

    asyncio.run(by_aiohttp())


def test_a_file_is_sent_again_from_its_beginning(server: Server, tmp_path: Any) -> None:
    path = tmp_path / "body"
    path.write_bytes(b"xxbody")
    session = requests.Session()
    session.trust_env = False
    session.mount("http://", PolicyAdapter(recurs(2)))
    with open(path, "rb") as file:
        file.seek(2)
        server.says(503, 0, 200)
        assert session.put(server.url, data=file).status_code == 200
        assert [body for _, _, body in server.requests] == [b"body"] * 3


def puts(kind: str, url: str, policy: Any, **how: Any) -> Tuple[int, bytes]:
    """What a PUT gets whose body is a generator, which is used up once it is sent."""
    return asyncio.run(puts_async(kind, url, policy, how)) if "a" in kind else puts_plain(kind, url, policy, how)


def parts_of_a_body() -> Iterator[bytes]:
    yield b"a body"
    yield b" in parts"


async def later_parts_of_a_body() -> AsyncIterator[bytes]:
    for part in parts_of_a_body():
        yield part


def puts_plain(kind: str, url: str, policy: Any, how: Any) -> Tuple[int, bytes]:
    if kind == "urllib3":
        pool = urllib3.PoolManager(retries=PolicyRetry(policy, raise_on_status=False, **how))
        answer = pool.request("PUT", url, body=parts_of_a_body())
        return answer.status, answer.data
    if kind == "requests":
        with requests.Session() as session:
            session.trust_env = False
            session.mount("http://", PolicyAdapter(policy, **how))
            answer = session.put(url, data=parts_of_a_body())
            return answer.status_code, answer.content
    with httpx.Client(transport=PolicyTransport(policy, **how), trust_env=False) as client:
        answer = client.put(url, content=parts_of_a_body())
        return answer.status_code, answer.content


async def puts_async(kind: str, url: str, policy: Any, how: Any) -> Tuple[int, bytes]:
    if kind == "aiohttp":
        async with aiohttp.ClientSession() as session:
            async with PolicySession(session, policy, **how).put(url, data=later_parts_of_a_body()) as response:
                return response.status, await response.read()
    async with httpx.AsyncClient(transport=AsyncPolicyTransport(policy, **how), trust_env=False) as client:
        answer = await client.put(url, content=later_parts_of_a_body())
        return answer.status_code, answer.content


@EACH
def test_a_body_that_is_used_up_is_sent_once(kind: str, server: Server) -> None:
    whole = [("PUT", "/", b"a body in parts")]
    server.says(503, 200)
    assert puts(kind, server.url, recurs(3)) == (503, b"answer 1")
    assert server.requests == whole
    server.says((413, {"Retry-After": "0"}), 200)
    assert puts(kind, server.url, recurs(3)) == (413, b"answer 1")
    assert server.requests == whole
    server.says(0, 200)
    with pytest.raises(FAILED):
        puts(kind, server.url, recurs(3))
    assert server.requests == whole


class Parts:
    """A body that gives the same iterator each time."""

    def __init__(self) -> None:
        self.parts = iter([b"a body"])

    def __iter__(self) -> Iterator[bytes]:
        return self.parts


def test_a_body_that_urllib3_may_not_be_able_to_send_again_is_sent_once(server: Server, tmp_path: Any) -> None:
    read, write = os.pipe()
    os.write(write, b"a body")
    os.close(write)
    with open(read, "rb") as pipe:
        for body in (Parts(), map(bytes, [b"a body"]), pipe):
            server.says(503, 200)
            pool = urllib3.PoolManager(retries=PolicyRetry(recurs(3)))
            assert pool.request("PUT", server.url, body=body).status == 503
            assert [sent for _, _, sent in server.requests] == [b"a body"]


def test_a_redirect_that_would_send_an_empty_body_is_not_followed(server: Server) -> None:
    pool = urllib3.PoolManager(retries=PolicyRetry(recurs(3)))
    for status in (301, 307, 308):
        for body in (parts_of_a_body(), io.BytesIO(b"a file")):
            server.says((status, {"Location": "/there"}), 200)
            with pytest.raises(urllib3.exceptions.MaxRetryError, match="can't be sent again to where the redirect"):
                pool.request("PUT", server.url, body=body)
            assert len(server.requests) == 1
        server.says((status, {"Location": "/there"}), 200)
        assert pool.request("PUT", server.url, body=b"bytes").status == 200
        assert [sent for _, _, sent in server.requests] == [b"bytes"] * 2
    server.says((303, {"Location": "/there"}), 200)
    assert pool.request("PUT", server.url, body=parts_of_a_body()).status == 200
    # a pool of connections sets a file back
    with urllib3.HTTPConnectionPool("127.0.0.1", server.server_port, retries=PolicyRetry(recurs(3))) as one:
        server.says((307, {"Location": "/there"}), 200)
        assert one.request("PUT", "/", body=io.BytesIO(b"a file")).status == 200
        assert [sent for _, _, sent in server.requests] == [b"a file"] * 2


@EACH
def test_a_body_that_was_never_sent_is_sent_again(kind: str) -> None:
    with Server(listens=False) as server:

        def listens(_: Any) -> None:
            server.server_activate()
            threading.Thread(target=server.serve_forever, daemon=True).start()

        got = puts(kind, server.url, recurs(1), before_sleep=listens)
        server.shutdown()
    assert got == (200, b"answer 1") and server.requests == [("PUT", "/", b"a body in parts")]


@pytest.mark.parametrize("body", [b"bytes", "text", [b"a ", b"list"], io.BytesIO(b"a file")], ids=repr)
def test_a_body_that_urllib3_can_send_again_is_sent_again(body: Any, server: Server) -> None:
    server.says(503, 0, 200)
    pool = urllib3.PoolManager(retries=PolicyRetry(recurs(3)))
    assert pool.request("PUT", server.url, body=body).status == 200
    first, *others = [sent for _, _, sent in server.requests]
    assert first in (b"bytes", b"text", b"a list", b"a file") and others == [first] * 2


def test_a_form_is_sent_again_where_it_was_never_sent() -> None:
    async def posts(url: str, **how: Any) -> int:
        form = aiohttp.FormData()
        form.add_field("part", b"of a form", filename="part")
        async with aiohttp.ClientSession() as session:
            async with PolicySession(session, recurs(1), **how).post(url, data=form) as response:
                return int(response.status)

    with Server(listens=False) as server:

        def listens(_: Any) -> None:
            server.server_activate()
            threading.Thread(target=server.serve_forever, daemon=True).start()

        assert asyncio.run(posts(server.url, before_sleep=listens)) == 200
        server.shutdown()
    assert b"of a form" in server.requests[0][2]


def test_a_long_body_whose_end_comes_late_keeps_no_attempt_waiting(monkeypatch: Any) -> None:
    # The rest of the first answer comes when the adapter has read enough of it. aiohttp then pools the connection, from
    # which it reads no more while so much is unread.
    wait_for = asyncio.wait_for
    answers: List[Any] = []
    begun = b"HTTP/1.1 503 Busy\r\nContent-Length: 165537\r\n\r\n" + b"x" * 65_537
    whole = b"HTTP/1.1 200 OK\r\nContent-Length: 2\r\n\r\nok"

    async def serves(reader: Any, writer: Any) -> None:
        for answer in (begun, whole):
            await reader.readuntil(b"\r\n\r\n")
            writer.write(answer)

    async def the_rest_comes(reading: Any, seconds: Any) -> Any:
        connection = answers[0].connection
        body = await wait_for(reading, seconds)
        connection.protocol.data_received(b"x" * 100_000)
        assert answers[0].content.is_eof()
        return body

    async def gets() -> Got:
        server = await asyncio.start_server(serves, "127.0.0.1", 0)
        url = "http://127.0.0.1:%d" % server.sockets[0].getsockname()[1]
        how: Any = {"timeout": aiohttp.ClientTimeout(total=10), "read_bufsize": 2**14}
        async with server, aiohttp.ClientSession(**how) as session:
            client = PolicySession(session, recurs(1), after=lambda state: answers.append(state.outcome.result()))
            async with client.get(url) as response:
                return response.status, await response.read()

    monkeypatch.setattr(asyncio, "wait_for", the_rest_comes)
    assert asyncio.run(gets()) == (200, b"ok")


# raise_for_status, and words that are wrong


@pytest.mark.parametrize("form", [dict, list, tuple])
def test_a_form_with_a_file_is_sent_once(form: Any, server: Server, tmp_path: Any) -> None:
    (tmp_path / "file").write_bytes(b"a file")

    async def puts(part: Any) -> int:
        async with aiohttp.ClientSession() as session:
            client = PolicySession(session, recurs(2))
            async with client.put(server.url, data=form({"part": part}.items())) as response:
                return int(response.status)

    for part, sent in ("text", 3), (5, 3), (open(tmp_path / "file", "rb"), 1):
        server.says(503)
        assert asyncio.run(puts(part)) == 503
        assert len(server.requests) == sent


def test_a_session_that_raises_for_statuses(server: Server) -> None:
    async def get(of_session: bool, how: Dict[str, Any]) -> Any:
        async with aiohttp.ClientSession(raise_for_status=of_session) as session:
            client = PolicySession(session, recurs(3), limit=quota)
            async with client.get(server.url, **how) as answer:
                return answer.status, await answer.text()

    async def refuses(response: Any) -> None:
        if response.status != 200:
            raise ValueError(response.status)

    quota = Quota(100, 0, 10**6)
    for of_session, check in ((True, None), (False, True), (False, refuses)):
        how = {"raise_for_status": check}
        server.says(503, 502, 200)
        assert asyncio.run(get(of_session, how)) == (200, "answer 3")
        assert (server.connections, quota.seen().given) == (1, 2)
        quota = Quota(100, 0, 10**6)
        for status, count in ((503, 4), (404, 1)):
            server.says(status)
            with pytest.raises((aiohttp.ClientResponseError, ValueError), match=str(status)):
                asyncio.run(get(of_session, how))
            assert len(server.requests) == count
        quota = Quota(100, 0, 10**6)
    server.says(503)
    assert asyncio.run(get(True, {"raise_for_status": False})) == (503, "answer 4")


def test_which_errors_are_retried(server: Server) -> None:
    session = requests.Session()
    session.trust_env = False
    session.mount("http://", PolicyAdapter(recurs(3), on=requests.Timeout))
    server.says(0)
    with pytest.raises(requests.ConnectionError):
        session.get(server.url)
    assert len(server.requests) == 1
    session.mount("http://", PolicyAdapter(recurs(3), on=lambda error: "closed" in str(error)))
    server.says(0, 200)
    assert session.get(server.url).status_code == 200


def test_words_that_are_wrong_are_refused() -> None:
    async def session() -> None:
        async with aiohttp.ClientSession() as made:
            with pytest.raises(TypeError, match=r"^PolicySession\(\) got .* 'methds'; did you mean 'methods'"):
                PolicySession(made, recurs(1), methds={"GET"})

    asyncio.run(session())
    for kind in (PolicyAdapter, PolicyTransport, AsyncPolicyTransport, PolicyRetry):
        with pytest.raises(TypeError, match=rf"^{kind.__name__}\(\) got an unexpected keyword argument 'polcy'"):
            kind(recurs(1), polcy=1)
    for kind in (PolicyAdapter, PolicyTransport, AsyncPolicyTransport):
        with pytest.raises(TypeError, match=rf"^{kind.__name__}\(\) takes no on_result"):
            kind(recurs(1), on_result=bool)
    with pytest.raises(TypeError, match=r"^PolicyAdapter\(\) got an unexpected keyword argument 'max_retries'"):
        PolicyAdapter(recurs(1), max_retries=3)
    with pytest.raises(TypeError, match=r"^PolicyRetry\(\) got an unexpected keyword argument 'on'"):
        PolicyRetry(recurs(1), on=OSError)
    for word in ("backoff_factor", "backoff_max", "backoff_jitter"):
        with pytest.raises(TypeError, match=rf"^PolicyRetry\(\) takes no {word}: the policy says how long to wait"):
            PolicyRetry(recurs(1), **{word: 1})  # type: ignore[arg-type]
    wrong: Any
    for wrong in ("503", 503, {"503"}, [None]):
        for kind in (PolicyAdapter, PolicyTransport, AsyncPolicyTransport, PolicyRetry):
            with pytest.raises(TypeError, match=r"^on_status: expected statuses, as {429, 503}, got "):
                kind(recurs(1), on_status=wrong)
    for wrong in ("GET", None, {5}):
        with pytest.raises(TypeError, match=r"^methods: expected methods, as {'GET', 'PUT'}, got "):
            PolicyAdapter(recurs(1), methods=wrong)
    with pytest.raises(TypeError, match="takes on_status or status_forcelist, which mean the same, and got both"):
        PolicyRetry(recurs(1), on_status={500}, status_forcelist={503})


def test_a_retry_raises_as_urllib3s_does(server: Server) -> None:
    for retries in (PolicyRetry(spaced(0.001) & recurs(2)), urllib3.Retry(2, status_forcelist=STATUSES)):
        server.says(503)
        with pytest.raises(urllib3.exceptions.MaxRetryError, match="too many 503 error responses"):
            urllib3.PoolManager(retries=retries).request("GET", server.url)
        assert len(server.requests) == 3
    hows: List[Dict[str, Any]] = [{"status_forcelist": {500}}, {"on_status": {500}}]
    for how in hows:
        server.says(500, 200)
        assert urllib3.PoolManager(retries=PolicyRetry(recurs(2), **how)).request("GET", server.url).status == 200
        server.says(503, 200)
        assert urllib3.PoolManager(retries=PolicyRetry(recurs(2), **how)).request("GET", server.url).status == 503


# Limits that calls ask before their first attempt


@pytest.mark.parametrize("kind", ["requests", "httpx", "httpx async", "aiohttp"])
def test_a_breaker_is_asked_and_told(kind: str, server: Server) -> None:
    breaker = Breaker(3, spaced(60))
    client = Client(kind, recurs(1), limit=breaker)
    server.says(503, 200, (302, {"Location": "/there"}), 200, 503, 503, 503)
    assert [status for status, _ in client.get(server.url, 4)] == [200, 200, 503, 503]
    # (two failures of the third call, and one of the fourth, whose retry was refused)
    assert len(server.requests) == 7
    with pytest.raises(NotAdmitted):
        client.get(server.url)
    assert len(server.requests) == 7


@pytest.mark.parametrize("kind", ["requests", "httpx", "httpx async", "aiohttp"])
def test_each_request_gives_its_place_back(kind: str, server: Server) -> None:
    client = Client(kind, recurs(2), limit=InFlight(1, 0))
    server.says(503, 0, 200, (302, {"Location": "/there"}), 200, 503, 503, 503, 200)
    assert [status for status, _ in client.get(server.url, 4)] == [200, 200, 503, 200]


def test_a_method_that_is_not_repeated_fails_too(server: Server) -> None:
    quota = Quota(1, 1, 10**6, counts_successes=True)
    breaker = Breaker(1, spaced(60))
    for limit in (quota, breaker):
        seen: List[Any] = []
        transport = PolicyTransport(recurs(2), limit=limit, on_success=seen.append)
        with httpx.Client(transport=transport) as client:
            server.says(503)
            assert client.post(server.url).status_code == 503
        assert len(server.requests) == 1 and not seen
        assert (transport.statistics.not_retried, transport.statistics.won) == (1, 0)
    assert quota.seen().asked == 0
    refusal = breaker.request().admit()
    assert refusal is not None and refusal.reason is RefusalReason.BREAKER_OPEN
    quota = Quota(1, 1, 10**6, counts_successes=True)
    retries = PolicyRetry(recurs(2), limit=quota)
    assert urllib3.PoolManager(retries=retries).request("POST", server.url).status == 503
    assert quota.seen().asked == 0 and retries.statistics.not_retried == 1


def test_a_retry_of_urllib3_takes_no_limit() -> None:
    limit: Any = Breaker(1, spaced(60))
    with pytest.raises(TypeError, match=r"^PolicyRetry\(\) takes no Breaker: .* urllib3 doesn't say when that begins$"):
        PolicyRetry(recurs(1), limit=limit)


def test_a_retry_that_is_stopped_while_it_waits_makes_no_request(server: Server) -> None:
    server.says(503)
    event = threading.Event()
    quota = Quota(5, 0, 10**6)
    retries = PolicyRetry(recurs(5) & spaced(60), stop=event, limit=quota)
    threading.Timer(0.2, event.set).start()
    with pytest.raises(urllib3.exceptions.MaxRetryError, match="too many 503 error responses"):
        urllib3.PoolManager(retries=retries).request("GET", server.url)
    assert len(server.requests) == 1
    assert retries.statistics.stopped == 1 and quota.close() == 0
