"""Requests of limits, as several files of tests make them."""

from __future__ import annotations

from typing import Any, Optional

from hikebox import CallLimit, RefusalReason, Request

#: Why a breaker is refused that would never open, by the policy of its open times.
NEVER_OPEN = (
    "expected a policy with an open time above 0, got {}: open times are its waits for the least random numbers, and "
    "full jitter makes these 0; write spaced(30), or jittered(0.5, 1)"
)


def admitted(limit: CallLimit) -> Request:
    """A request that the limit admits."""
    request = limit.request()
    assert request.admit() is None
    return request


def reason(refusal: Any) -> Optional[RefusalReason]:
    """Why a call was refused, or None where it was granted."""
    return None if refusal is None else refusal.reason


def draws_as_grpc_says(request: Request, beside: Request) -> None:
    """Two requests on `Bucket.grpc(4, 0.5)`: of four tokens two are left after two failures, which is not more than
    half, and a success gives half a token."""
    request.failed()
    assert request.draw() is None
    request.failed()
    assert reason(request.draw()) is RefusalReason.LEVEL_LOW
    beside.succeeded()
    assert request.draw() is None
    request.failed()
    assert reason(request.draw()) is RefusalReason.LEVEL_LOW
