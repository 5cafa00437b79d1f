"""Retries for the sessions of requests.

>>> import requests
>>> from hikebox import exponential, recurs
>>> session = requests.Session()
>>> session.mount("https://", PolicyAdapter(recurs(4) & exponential(0.2).jittered()))
"""

from __future__ import annotations

import io
import time
from http.client import HTTPException
from typing import Any, Collection, Dict, Optional, Union

import requests
from requests.adapters import HTTPAdapter
from requests.utils import rewind_body
from urllib3.exceptions import (
    ConnectTimeoutError,
    HTTPError,
    MaxRetryError,
    NewConnectionError,
    ProxyError,
    ResponseError,
)
from urllib3.response import HTTPResponse
from urllib3.util.timeout import Timeout

from ..http import METHODS, STATUSES
from ..policy import Policy
from ..retry.deadline import seconds_left
from ..retry.state import Ending
from ..retrying import Retrying
from ._http import DRAIN_BYTES, DRAIN_SECONDS, MIN_TIMEOUT, TOO_LATE, Call, PolicyClient, drive, is_kept

__all__ = ["PolicyAdapter"]

#: The parameters of HTTPAdapter that a PolicyAdapter takes.
_POOLS = ("pool_connections", "pool_maxsize", "pool_block")
_BROKEN = (requests.ConnectionError, requests.Timeout, requests.exceptions.ChunkedEncodingError)


class _Hop:
    """A request of a session, and how it is sent."""

    def __init__(self, request: Any, stream: bool, how: Dict[str, Any]) -> None:
        self.request = request
        self.stream = stream
        self.how = how
        self.attempts = 0


class PolicyAdapter(PolicyClient, HTTPAdapter):
    """Retries a session's requests by a policy, under a limit.

    `raise_on_status`
        Whether to raise `requests.exceptions.RetryError` if the last response has such a status.

    The body is read within the attempt, so a body that breaks is retried, unless you asked for `stream=True`. The
    adapter takes `pool_connections`, `pool_maxsize` and `pool_block` of `HTTPAdapter`.

    The requests of a redirect share the deadline and the number of retries, and count as one request of a quota. You
    can copy a session with an adapter, and pickle it if its limit can be pickled.
    """

    _KIND = Retrying
    _ON = _BROKEN
    # (of a body in parts requests lets the errors of urllib3 through)
    _NOT_SENT = (requests.ConnectTimeout, ConnectTimeoutError, NewConnectionError)
    __attrs__ = [
        *HTTPAdapter.__attrs__,
        "on_status",
        "methods",
        "read_up_to",
        "raise_on_status",
        "retrying",
        "_careful",
        "_waits",
    ]

    def __init__(
        self,
        policy: Union[Policy, str, bytes, Dict[str, Any]],
        *,
        on_status: Collection[int] = STATUSES,
        methods: Collection[str] = METHODS,
        raise_on_status: bool = False,
        **how: Any,
    ) -> None:
        pools = {name: how.pop(name) for name in _POOLS if name in how}
        PolicyClient.__init__(self, policy, on_status, methods, None, how)
        self.raise_on_status = raise_on_status
        HTTPAdapter.__init__(self, **pools)

    def send(
        self,
        request: Any,
        stream: bool = False,
        timeout: Any = None,
        verify: Any = True,
        cert: Any = None,
        proxies: Any = None,
    ) -> Any:
        """The response to a request, or to the last attempt of it."""
        how = {"timeout": timeout, "verify": verify, "cert": cert, "proxies": proxies}
        # (a request and those to which redirects lead have one `hooks`)
        call = Call.of(self.retrying, request.hooks, request)
        try:
            return drive(self.attempts(call, _Hop(request, stream, how), self._may_repeat(request)))
        finally:
            call.leave(request.hooks)

    def _may_repeat(self, request: Any) -> bool:
        """Whether the request may be made twice: its method allows that, and its body is still there."""
        return str(request.method).upper() in self.methods and is_kept(request.body, request._body_position)

    def _told(self, hop: _Hop) -> Any:
        return hop.request

    def _attempt(self, hop: _Hop) -> Any:
        hop.attempts += 1
        if hop.attempts > 1 and isinstance(hop.request._body_position, int):
            rewind_body(hop.request)
        left = seconds_left()
        how = hop.how if left is None else {**hop.how, "timeout": _at_most(hop.how["timeout"], left)}
        return HTTPAdapter.send(self, hop.request, stream=hop.stream, **how)

    def _accepts(self, hop: _Hop, response: Any) -> None:
        if not hop.stream:
            _read(response)

    def _let_go(self, hop: _Hop, response: Any) -> None:
        raw = response.raw
        kept = _drain(raw)
        response.close()
        if kept is not None:
            # it can be read, should no other attempt follow after all
            response.raw = HTTPResponse(io.BytesIO(kept), raw.headers, raw.status, preload_content=False)

    def _leads_on(self, response: Any) -> bool:
        return bool(response.is_redirect)

    def _was_not_sent(self, error: BaseException) -> bool:
        reason = getattr(error.args[0], "reason", None) if error.args else None
        if isinstance(reason, ProxyError):
            reason = reason.original_error
        return isinstance(error, self._NOT_SENT) or isinstance(reason, self._NOT_SENT)

    def _too_late(self, hop: _Hop) -> Exception:
        late: Exception = requests.ReadTimeout(TOO_LATE, request=hop.request)
        return late

    def _refused(self, hop: _Hop, ending: Optional[Ending], response: Any) -> Any:
        if not self.raise_on_status or ending is Ending.NOT_RETRIED:
            return response
        _drain(response.raw)
        response.close()
        reason = ResponseError(ResponseError.SPECIFIC_ERROR.format(status_code=response.status_code))
        pool: Any = None
        raise requests.exceptions.RetryError(MaxRetryError(pool, hop.request.url, reason), request=hop.request)


def _at_most(timeout: Any, left: float) -> Timeout:
    """The timeout of an attempt that has so many seconds left."""
    left = max(left, MIN_TIMEOUT)
    if isinstance(timeout, Timeout):
        made = timeout.clone()
        if not isinstance(made.total, (int, float)) or made.total > left:
            made.total = left
        return made
    connect, read = timeout if isinstance(timeout, tuple) else (timeout, timeout)
    return Timeout(total=left, connect=connect, read=read)


def _read(response: Any) -> None:
    """Reads a body, which requests keeps. urllib3 before version 2 takes one that is cut short for a whole one."""
    response.content
    missing = getattr(response.raw, "length_remaining", None)
    if missing:
        response.close()
        raise requests.exceptions.ChunkedEncodingError(f"the body was cut short, {missing} bytes before its end")


def _drain(raw: Any) -> Optional[bytes]:
    """Reads what is left of a body, where it is short and comes fast, so that its connection can be used again."""
    body = getattr(raw, "_original_response", None)
    socket = getattr(getattr(raw, "connection", None), "sock", None)
    if body is None or socket is None:
        return None
    before = socket.gettimeout()
    try:
        socket.settimeout(DRAIN_SECONDS)
        kept = _read_to_end(body)
        if kept is not None:
            raw.read(decode_content=False)  # which gives the connection back
        return kept
    except (OSError, HTTPException, HTTPError):
        return None  # nobody wants it
    finally:
        socket.settimeout(before)


def _read_to_end(body: Any) -> Optional[bytes]:
    """What is left of a body whose end comes soon enough."""
    until = time.monotonic() + DRAIN_SECONDS
    kept = bytearray()
    while body.length != 0:
        part = body.read1(4096)
        kept += part
        if not part:
            break
        if len(kept) > DRAIN_BYTES or time.monotonic() > until:
            return None
    return bytes(kept)
