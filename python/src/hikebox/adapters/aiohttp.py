"""Retries for the sessions of aiohttp, as a wrapper around one.

>>> import aiohttp
>>> from hikebox import exponential, recurs
>>> async def fetch(url):
...     async with aiohttp.ClientSession() as session:
...         client = PolicySession(session, recurs(4) & exponential(0.2).jittered())
...         async with client.get(url) as response:
...             return await response.text()
"""

from __future__ import annotations

import asyncio
from typing import Any, Collection, Dict, Generator, List, Optional, Union

import aiohttp
from aiohttp.base_protocol import BaseProtocol
from aiohttp.http_exceptions import HttpProcessingError
from yarl import URL

from ..http import METHODS, STATUSES
from ..policy import Policy
from ..retry.deadline import seconds_left
from ..retry.state import Ending
from ..retrying import AsyncRetrying
from ._http import DRAIN_BYTES, DRAIN_SECONDS, KEPT, Call, PolicyClient, drive_async

__all__ = ["PolicySession"]


def _is_no_http(error: Exception) -> bool:
    """Whether an answer was not HTTP. aiohttp raises a response's error for that, with a status of its own."""
    return isinstance(error, aiohttp.ClientResponseError) and isinstance(error.__cause__, HttpProcessingError)


#: Connections that broke or took too long.
_BROKEN = (aiohttp.ClientConnectionError, aiohttp.ClientPayloadError, asyncio.TimeoutError, _is_no_http)


class PolicySession(PolicyClient):
    """Makes the requests of a session, and retries them by a policy, under a limit.

    `read_up_to`
        A body with a `Content-Length` up to this many bytes is read within the attempt, so a body that breaks is
        retried. None reads every body, also an endless one, such as a stream of events.

    An attempt follows redirects, and a retry begins with the first request again.

    Statuses are retried before `raise_for_status`, of the session or the request, raises for the last one. You close
    the session yourself.
    """

    _KIND = AsyncRetrying
    _ON = _BROKEN
    _NOT_SENT = (aiohttp.ClientConnectorError,)

    def __init__(
        self,
        session: aiohttp.ClientSession,
        policy: Union[Policy, str, bytes, Dict[str, Any]],
        *,
        on_status: Collection[int] = STATUSES,
        methods: Collection[str] = METHODS,
        read_up_to: Optional[int] = 65536,
        **how: Any,
    ) -> None:
        super().__init__(policy, on_status, methods, read_up_to, how)
        self.session = session

    def request(self, method: str, url: Any, **how: Any) -> PolicyRequest:
        """A request, to be awaited or entered, as that of a session."""
        return PolicyRequest(self, method, url, how)

    def delete(self, url: Any, **how: Any) -> PolicyRequest:
        """A DELETE request."""
        return self.request("DELETE", url, **how)

    def get(self, url: Any, **how: Any) -> PolicyRequest:
        """A GET request."""
        return self.request("GET", url, **how)

    def head(self, url: Any, **how: Any) -> PolicyRequest:
        """A HEAD request, which follows no redirects where nothing else is said."""
        return self.request("HEAD", url, **{"allow_redirects": False, **how})

    def options(self, url: Any, **how: Any) -> PolicyRequest:
        """An OPTIONS request."""
        return self.request("OPTIONS", url, **how)

    def patch(self, url: Any, **how: Any) -> PolicyRequest:
        """A PATCH request."""
        return self.request("PATCH", url, **how)

    def post(self, url: Any, **how: Any) -> PolicyRequest:
        """A POST request."""
        return self.request("POST", url, **how)

    def put(self, url: Any, **how: Any) -> PolicyRequest:
        """A PUT request."""
        return self.request("PUT", url, **how)

    def whole(self, url: Any) -> Any:
        """A URL of a request, below that of the session if it has one."""
        base = getattr(self.session, "_base_url", None)
        return url if base is None else base.join(URL(url))

    async def _made(self, request: PolicyRequest) -> aiohttp.ClientResponse:
        """The response to a request, or to the last attempt of it."""
        call = Call(self.retrying)
        may_repeat = request.method in self.methods and _is_kept(request.how.get("data"))
        response: aiohttp.ClientResponse = await drive_async(self.attempts(call, request, may_repeat))
        return response

    def _attempt(self, request: PolicyRequest) -> Any:
        how = {**request.how, "raise_for_status": False}
        return _in_time(self.session.request(request.method, request.given, **how))

    async def _accepts(self, request: PolicyRequest, response: aiohttp.ClientResponse) -> None:
        try:
            await _in_time(self._reads(request, response))
        except BaseException:
            _release(response)
            raise

    async def _reads(self, request: PolicyRequest, response: aiohttp.ClientResponse) -> None:
        await request.checks(response)
        if self.is_read(response):
            response.content = _as_stream(await response.content.read())

    async def _refused(self, request: PolicyRequest, ending: Optional[Ending], response: Any) -> Any:
        await request.checks(response)
        return response

    async def _let_go(self, request: PolicyRequest, response: aiohttp.ClientResponse) -> None:
        body = None
        try:
            body = await asyncio.wait_for(_drained(response), DRAIN_SECONDS)
        except (aiohttp.ClientError, asyncio.TimeoutError):
            pass  # nobody wants it
        finally:
            _release(response)
        if body is not None:
            response.content = _as_stream(body)


class PolicyRequest:
    """A request that is made once it is awaited, or entered by `async with`, which lets its response go."""

    __slots__ = ("method", "url", "given", "how", "_client", "_response", "_check")

    def __init__(self, client: PolicySession, method: str, url: Any, how: Dict[str, Any]) -> None:
        self.method = method.upper()
        #: Where it goes, whole; and as the session is told it, which may have a `base_url`.
        self.url = client.whole(url)
        self.given = url
        form = how.get("data")
        #: What the session is given. A form makes its body once.
        self.how = {**how, "data": form()} if isinstance(form, aiohttp.FormData) else how
        self._client = client
        own = how.get("raise_for_status")
        self._check: Any = client.session.raise_for_status if own is None else own

    async def checks(self, response: aiohttp.ClientResponse) -> None:
        """Raises for the status of a response, where the session or the request asks for that."""
        if callable(self._check):
            await self._check(response)
        elif self._check:
            response.raise_for_status()

    def __await__(self) -> Generator[Any, Any, aiohttp.ClientResponse]:
        return self._client._made(self).__await__()

    async def __aenter__(self) -> aiohttp.ClientResponse:
        self._response = await self._client._made(self)
        return self._response

    async def __aexit__(self, *_: Any) -> None:
        if isinstance(self._response, aiohttp.ClientResponse):  # (else a fallback gave it)
            _release(self._response)


def _in_time(made: Any) -> Any:
    """What is awaited, for as long as the deadline has left."""
    left = seconds_left()
    return made if left is None else asyncio.wait_for(made, left)


def _is_kept(body: Any) -> bool:
    """Whether a body may be sent twice. A form with a file may not, since the file is closed once it is sent."""
    if isinstance(body, (dict, list, tuple)):
        return all(_is_kept(part) for part in (body.values() if isinstance(body, dict) else body))
    return isinstance(body, (*KEPT, int, float))


def _release(response: aiohttp.ClientResponse) -> None:
    """Lets a response go. aiohttp pools its connection once its body has come whole, read or not, and reads nothing
    more from it while too much of that is unread. A body that is still to come ends with its connection."""
    content = response.content
    if content.is_eof() and content.exception() is None:
        content.read_nowait()
    response.close()


async def _drained(response: aiohttp.ClientResponse) -> Optional[bytes]:
    """What is left of a body, where it is short: it can be read, should no other attempt follow after all."""
    parts: List[bytes] = []
    read = 0
    async for part in response.content.iter_any():
        parts.append(part)
        read += len(part)
        if read > DRAIN_BYTES:
            return None
    return b"".join(parts)


def _as_stream(body: bytes) -> aiohttp.StreamReader:
    """A body that was read, to be read again."""
    loop = asyncio.get_running_loop()
    stream = aiohttp.StreamReader(BaseProtocol(loop), len(body) + 1, loop=loop)
    stream.feed_data(body)
    stream.feed_eof()
    return stream
