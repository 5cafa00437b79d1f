"""The policies to choose from in `hikebox lab`: those of docs/COOKBOOK.md, and those of docs/STORMS.md."""

from __future__ import annotations

from typing import Tuple

__all__ = ["COOKBOOK"]

#: What each is called, and the expression that builds it.
COOKBOOK: Tuple[Tuple[str, str], ...] = (
    ("No retry", "recurs(0)"),
    ("Three retries at once", "recurs(3)"),
    ("Eight retries with back-off", "recurs(8) & exponential(0.1, 2).cap(10)"),
    ("Eight retries with full jitter", "recurs(8) & exponential(0.1, 2).cap(10).jittered(0, 1)"),
    ("Eight retries with half jitter", "recurs(8) & exponential(0.1, 2).cap(10).jittered(0.5, 1)"),
    ("Three tries at once", "recurs(2)"),
    ("Three retries, 100 ms apart", "recurs(3) & spaced(0.1)"),
    ("Exponential back-off with a cap", "recurs(5) & exponential(0.1, 2).cap(1)"),
    ("With a last try", "(recurs(3) & exponential(0.25, 2).cap(1)).and_then(from_duration(30))"),
    ("With jitter", "recurs(5) & exponential(0.1, 2).cap(1).jittered(0.8, 1.2)"),
    ("With decorrelated jitter", "recurs(5) & decorrelated(0.1, 10, 3)"),
    ("Within a minute", "exponential(1, 3).cap(20).up_to(60)"),
    ("No call after the minute", "exponential(1, 3).cap(20).ends_by(60)"),
    ("Polling at fixed boundaries", "fixed(1)"),
    ("Polling in windows", "windowed(1)"),
    ("While the answer is a given code", "spaced(0.5).while_input(equal=202)"),
    ("Back-off that starts anew after a quiet minute", "(recurs(4) & exponential(1, 2)).renew_idle(60)"),
    ("Fast tries and then slow ones", "(recurs(3) & spaced(0.01)).and_then(recurs(3) & spaced(1))"),
    ("The total time waited so far as output", '(recurs(3) & exponential(0.1, 2).gather("sum")).second()'),
)
