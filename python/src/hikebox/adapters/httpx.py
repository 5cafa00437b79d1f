"""Retries for the clients of httpx, as a transport around their own.

>>> import httpx
>>> from hikebox import exponential, recurs
>>> policy = recurs(4) & exponential(0.2).jittered()
>>> client = httpx.Client(transport=PolicyTransport(policy))
>>> async_client = httpx.AsyncClient(transport=AsyncPolicyTransport(policy))
"""

from __future__ import annotations

import time
from typing import Any, Collection, Dict, List, Optional, Union

import httpx

from ..http import METHODS, STATUSES
from ..policy import Policy
from ..retry.deadline import seconds_left
from ..retrying import AsyncRetrying, Retrying
from ._http import DRAIN_BYTES, DRAIN_SECONDS, MIN_TIMEOUT, TOO_LATE, Call, PolicyClient, drive, drive_async

__all__ = ["AsyncPolicyTransport", "PolicyTransport"]

#: Connections that broke or took too long.
_BROKEN = (httpx.NetworkError, httpx.TimeoutException, httpx.RemoteProtocolError, httpx.ProxyError)


class _Timeouts(Dict[str, Optional[float]]):
    """The timeouts of a request, each of them at most what the attempt has left at the time, or what `most` says."""

    most: Optional[float] = None

    def get(self, name: str, default: Any = None) -> Any:
        own = super().get(name, default)
        bounds = [bound for bound in (own, seconds_left(), self.most) if bound is not None]
        return max(min(bounds), MIN_TIMEOUT) if bounds else None

    def __getitem__(self, name: str) -> Any:
        return self.get(name)


class _PolicyTransport(PolicyClient):
    """What both transports have in common."""

    _ON = _BROKEN
    _NOT_SENT = (httpx.ConnectError, httpx.ConnectTimeout, httpx.PoolTimeout)

    def __init__(
        self,
        policy: Union[Policy, str, bytes, Dict[str, Any]],
        *,
        transport: Any = None,
        on_status: Collection[int] = STATUSES,
        methods: Collection[str] = METHODS,
        read_up_to: Optional[int] = 65536,
        **how: Any,
    ) -> None:
        super().__init__(policy, on_status, methods, read_up_to, how)
        self.transport = self._own() if transport is None else transport

    def _own(self) -> Any:
        """The transport where none is named."""
        raise NotImplementedError

    def _steps(self, request: httpx.Request) -> Any:
        """The steps for a request of a client."""
        # (a request hands its extensions on to those to which redirects lead)
        extensions = request.extensions = {**request.extensions}
        extensions["timeout"] = _Timeouts(extensions.get("timeout") or {})
        call = Call.of(self.retrying, extensions, request)
        may_repeat = request.method.upper() in self.methods and isinstance(request.stream, httpx.ByteStream)
        return self.attempts(call, request, may_repeat)

    def _leads_on(self, response: httpx.Response) -> bool:
        return bool(response.has_redirect_location)

    def _too_late(self, request: httpx.Request) -> Exception:
        late: Exception = httpx.ReadTimeout(TOO_LATE, request=request)
        return late


class PolicyTransport(_PolicyTransport, httpx.BaseTransport):
    """Retries a client's requests by a policy, under a limit.

    `transport`
        Makes the requests; `httpx.HTTPTransport()` by default.
    `read_up_to`
        A body with a `Content-Length` up to this many bytes is read within the attempt, so a body that breaks is
        retried. None reads every body, also an endless one, such as a stream of events.

    The requests of a redirect share the deadline and the number of retries, and count as one request of a quota.
    """

    _KIND = Retrying

    def _own(self) -> httpx.BaseTransport:
        return httpx.HTTPTransport()

    def handle_request(self, request: httpx.Request) -> httpx.Response:
        """The response to a request, or to the last attempt of it."""
        response: httpx.Response = drive(self._steps(request))
        return response

    def _attempt(self, request: httpx.Request) -> Any:
        return self.transport.handle_request(request)

    def _accepts(self, request: httpx.Request, response: httpx.Response) -> None:
        if self.is_read(response):
            body = _Body(request)
            try:
                for part in response.stream:
                    body.add(part)
            finally:
                response.stream.close()
            response.stream = body.as_stream()

    def _let_go(self, request: httpx.Request, response: httpx.Response) -> None:
        with _Kept(request, response) as kept:
            try:
                for part in response.stream:
                    if kept.has_enough_of(part):
                        break
                else:
                    kept.is_whole = True
            finally:
                response.stream.close()

    def close(self) -> None:
        """Closes the transport that makes the requests."""
        self.transport.close()


class AsyncPolicyTransport(_PolicyTransport, httpx.AsyncBaseTransport):
    """The same for `httpx.AsyncClient`: `transport` is an `httpx.AsyncHTTPTransport()`."""

    _KIND = AsyncRetrying

    def _own(self) -> httpx.AsyncBaseTransport:
        return httpx.AsyncHTTPTransport()

    async def handle_async_request(self, request: httpx.Request) -> httpx.Response:
        """The response to a request, or to the last attempt of it."""
        response: httpx.Response = await drive_async(self._steps(request))
        return response

    def _attempt(self, request: httpx.Request) -> Any:
        return self.transport.handle_async_request(request)

    async def _accepts(self, request: httpx.Request, response: httpx.Response) -> None:
        if self.is_read(response):
            body = _Body(request)
            try:
                async for part in response.stream:
                    body.add(part)
            finally:
                await response.stream.aclose()
            response.stream = body.as_stream()

    async def _let_go(self, request: httpx.Request, response: httpx.Response) -> None:
        with _Kept(request, response) as kept:
            try:
                async for part in response.stream:
                    if kept.has_enough_of(part):
                        break
                else:
                    kept.is_whole = True
            finally:
                await response.stream.aclose()

    async def aclose(self) -> None:
        """Closes the transport that makes the requests."""
        await self.transport.aclose()


class _Kept:
    """A body that is let go: it can be read where it is short, should no other attempt follow after all."""

    def __init__(self, request: httpx.Request, response: httpx.Response) -> None:
        self.response = response
        self.timeouts: _Timeouts = request.extensions["timeout"]
        self.parts: List[bytes] = []
        self.size = 0
        self.is_whole = False

    def __enter__(self) -> _Kept:
        self.timeouts.most = DRAIN_SECONDS
        self.until = time.monotonic() + DRAIN_SECONDS
        return self

    def has_enough_of(self, part: bytes) -> bool:
        """Takes one more part: whether that is too much to keep, or took too long."""
        self.parts.append(part)
        self.size += len(part)
        return self.size > DRAIN_BYTES or time.monotonic() > self.until

    def __exit__(self, kind: Any, error: Optional[BaseException], trace: Any) -> bool:
        self.timeouts.most = None
        if self.is_whole:
            # (where it was not read to its end, the stream that was closed stays)
            self.response.stream = httpx.ByteStream(b"".join(self.parts))
        return isinstance(error, httpx.HTTPError)  # of a body that nobody wants


class _Body:
    """A body that is read as part of the attempt."""

    def __init__(self, request: httpx.Request) -> None:
        self.request = request
        self.parts: List[bytes] = []

    def add(self, part: bytes) -> None:
        """Takes one more part, where the deadline has not passed."""
        left = seconds_left()
        if left is not None and left <= 0:
            raise httpx.ReadTimeout("the deadline passed while the body was read", request=self.request)
        self.parts.append(part)

    def as_stream(self) -> httpx.ByteStream:
        """The body, to be read again."""
        return httpx.ByteStream(b"".join(self.parts))
