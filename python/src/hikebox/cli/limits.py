"""Limits on the command line: of one run, and those that the runs of many processes share."""

from __future__ import annotations

import os
from typing import Dict, Optional, Tuple

from ..budget import Budget
from ..budgets.limit import Limit
from ..errors import LimitError, TermsError
from ..leased import FileStore, Leased, LeasedPace, LeasedQuota
from ..leased.shared import SharedLimit
from ..limits import Breaker, Bucket, CallLimit
from ..limits.breaker import times_of
from ..limits.spellings import has_form, limit_of
from ..policy import Policy
from ..policy.builders import spaced
from . import values

__all__ = ["SPELLINGS", "limit", "pace"]

#: How each bucket or breaker that runs can share is spelt, as on a storm.
SPELLINGS = (
    "aws, grpc:TOKENS/RATIO, bucket:CAPACITY/FLOOR/COST/LATE/DEBIT/CREDIT[+refund], "
    "breaker:FAILURES[/RESULTS]/PROBES/DEADLINE"
)

_FOR_EVER = "a run that is killed would keep its place among those in flight for ever"
#: Why runs can't share the others.
_NOT_SHARED = {
    "inflight": _FOR_EVER,
    "adaptive": _FOR_EVER,
    "throttle": "it has two words, and a folder keeps one word of a limit",
}


def limit(text: str, open_for: Optional[Policy]) -> Limit:
    """The limit of a run, `N`, or one that all runs share which name it and its folder: `N@FOLDER`, a quota as
    `10/20%/60s@FOLDER`, or `grpc:10/100@FOLDER`. A breaker is open for the waits of this policy, or each time for 30
    seconds.

    >>> limit("throttle:2000/60000@/tmp/jobs", None)
    Traceback (most recent call last):
    ...
    hikebox.errors.LimitError: --limit: expected a bucket or a breaker, got 'throttle:2000/60000': it has two words, \
and a folder keeps one word of a limit
    """
    spelt, at, path = text.partition("@")
    is_number = spelt.isascii() and spelt.isdigit()
    if not (path if at else is_number):
        raise LimitError(f"--limit: expected N or LIMIT@FOLDER, such as 10/20%/60s@/run/lock/jobs, got {text!r}")
    if open_for is not None:
        if not spelt.startswith("breaker:"):
            raise LimitError(f"--open: expected --limit breaker:.., got --limit {spelt}")
        times_of(open_for, "--open")  # (which says what is wrong with it)
    # (no shell expands a `~` behind the `@`)
    store = FileStore(os.path.expanduser(path)) if at else None
    try:
        if store is None:
            return Budget(int(spelt))
        if is_number:
            return Leased(store, "run", int(spelt), lease=1)
        if spelt[:1].isdigit():
            return LeasedQuota(store, "run", *_quota(spelt), lease=1)
        return SharedLimit(store, "run", _call_limit(spelt, open_for))
    except TermsError as error:
        raise LimitError(f"--limit: {error}, in {spelt!r}") from None


def pace(text: str) -> LeasedPace:
    """The pace that all runs keep which name it and its folder, as `10/1s@/run/lock/jobs`."""
    spelt, at, path = text.partition("@")
    if not (at and path):
        raise LimitError(f"--pace: expected RUNS/PERIOD[/BURST]@FOLDER, such as 10/1s@/run/lock/jobs, got {text!r}")
    try:
        calls, per, burst = values.pace(spelt)
        return LeasedPace(FileStore(os.path.expanduser(path)), "run", calls, per, burst=burst)
    except LimitError as error:
        raise LimitError(f"--pace: {error}") from None


def _quota(spelt: str) -> Tuple[int, float, float]:
    try:
        return values.terms(spelt)
    except LimitError as error:
        raise LimitError(f"--limit: {error}") from None


def _call_limit(spelt: str, open_for: Optional[Policy]) -> CallLimit:
    kind = spelt.partition(":")[0]
    if kind in _NOT_SHARED:
        raise LimitError(f"--limit: expected a bucket or a breaker, got {spelt!r}: {_NOT_SHARED[kind]}")
    if not has_form(spelt):
        raise LimitError(
            f"--limit: expected N, RESERVE/SHARE%/PERIOD, or one of {SPELLINGS} (ratios and a bucket's numbers in "
            f"thousandths, the deadline in milliseconds), such as grpc:10/100, got {spelt[:300]!r}"
        )
    try:
        numbers = dict(limit_of(spelt).numbers)
    except TermsError as error:
        raise LimitError(f"--limit: {error}") from None
    return _breaker(numbers, open_for) if kind == "breaker" else _bucket(numbers)


def _bucket(numbers: Dict[str, int]) -> CallLimit:
    tokens = {name: number / 1000 for name, number in numbers.items()}
    return Bucket(
        tokens["bucket_capacity"],
        floor=tokens["bucket_floor"],
        debit=tokens["bucket_debit"],
        credit=tokens["bucket_credit"],
        cost=tokens["cost"],
        timeout_cost=tokens["late_cost"],
        refund=bool(numbers["bucket_refund"]),
    )


def _breaker(numbers: Dict[str, int], open_for: Optional[Policy]) -> CallLimit:
    waits = spaced(30) if open_for is None else open_for
    deadline = numbers["deadline"] / 1000
    results, probes = numbers["results"] or None, numbers["probes"]
    return Breaker(numbers["failures"], waits, results=results, probes=probes, probe_deadline=deadline)
