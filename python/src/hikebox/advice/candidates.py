"""The limits that are tried: each kind with usual terms and with others."""

from __future__ import annotations

from itertools import product
from typing import Dict, Iterator, List, NamedTuple, Sequence

from .._time import seconds_text
from ..budgets.terms import Terms, thousandths_text
from ..limits.spellings import limit_of
from ..policy.spelling import duration
from ..storms.parameters import Limited, limit_text

__all__ = ["KINDS", "Candidate", "candidates"]

#: The kinds of limits, in the order in which they are tried.
KINDS = ("none", "quota", "bucket", "inflight", "breaker", "throttle", "adaptive")

#: A quota's reserve, share in thousandths and period in milliseconds.
_QUOTAS = (*product((1, 10), (10, 20, 50, 100, 200, 500), (1000,)), *product((10, 100), (20, 50, 100, 200), (10_000,)))
#: gRPC's tokens, and the ratio in thousandths.
_BUCKETS = tuple(product((10, 100, 1000), (10, 100)))
#: The least retries in flight, and the share in thousandths.
_IN_FLIGHT = tuple(product((1, 3, 10), (50, 100, 200)))
#: The calls in flight.
_BULKHEADS = (10, 30, 100, 300, 1000)
#: The failures that open a breaker, among how many of its last results, or 0 for those in a row; and for how many
#: seconds.
_BREAKERS = (*product((5, 20), (0,), (1, 2, 5, 10, 30)), *product((5, 16), (32,), (1, 5, 30)))
#: The ratio in thousandths, and the period in milliseconds.
_THROTTLES = tuple(product((1100, 1500, 2000), (5000, 10_000, 60_000)))
#: The most calls of an adaptive limit, and what a failure leaves of its level, in thousandths.
_ADAPTIVE = tuple(product((200, 1000, 10_000), (500, 900)))


class Candidate(NamedTuple):
    """A limit, and how each language spells it."""

    kind: str
    tickets: Limited
    python: str
    rust: str
    #: As `hikebox run --limit` takes it; nothing where runs can't share it.
    shell: str
    #: For how many seconds a breaker is open; 0 for other limits.
    open_for: int = 0

    @property
    def name(self) -> str:
        """What a table calls it."""
        return limit_text(self.tickets) + (f", open {self.open_for} s" if self.open_for else "")


def candidates(patience: int, kinds: Sequence[str] = KINDS) -> List[Candidate]:
    """The limits of these kinds, for clients who wait so many milliseconds for a call."""
    made: Dict[str, Iterator[Candidate]] = {
        "none": iter([Candidate("none", None, "None", "Unlimited", "")]),
        "quota": (_quota(*terms) for terms in _QUOTAS),
        "bucket": iter([_aws(), *(_grpc(*terms) for terms in _BUCKETS)]),
        "inflight": iter([*(_in_flight(*terms) for terms in _IN_FLIGHT), *(_bulkhead(most) for most in _BULKHEADS)]),
        "breaker": (_breaker(*terms, deadline=max(1000, patience)) for terms in _BREAKERS),
        "throttle": (_throttle(*terms) for terms in _THROTTLES),
        "adaptive": (_adaptive(*terms) for terms in _ADAPTIVE),
    }
    return [candidate for kind in KINDS if kind in kinds for candidate in made[kind]]


def _quota(reserve: int, share: int, period: int) -> Candidate:
    spelt = f"{reserve}/{share / 10:.12g}%/{period // 1000}s"
    rust = f"Quota::new({reserve}, {share / 1000!r}, {duration(period)})?"
    return Candidate("quota", Terms(reserve, share, period), f"Quota({Terms(reserve, share, period)})", rust, spelt)


def _aws() -> Candidate:
    return Candidate("bucket", limit_of("aws"), "Bucket.aws()", "CallLimit::new(Bucket::aws())?", "aws")


def _grpc(tokens: int, ratio: int) -> Candidate:
    spelt = f"grpc:{tokens}/{ratio}"
    python = f"Bucket.grpc({tokens}, {thousandths_text(ratio)})"
    rust = f"CallLimit::new(Bucket::grpc({tokens}, {ratio / 1000!r})?)?"
    return Candidate("bucket", limit_of(spelt), python, rust, spelt)


def _in_flight(least: int, share: int) -> Candidate:
    python = f"InFlight({least}, {thousandths_text(share)})"
    rust = f"CallLimit::new(InFlight {{ least: {least}, share: {share / 1000!r}, most: None }})?"
    return Candidate("inflight", limit_of(f"inflight:{least}/{share}"), python, rust, "")


def _bulkhead(most: int) -> Candidate:
    rust = f"CallLimit::new(InFlight::bulkhead({most}))?"
    return Candidate("inflight", limit_of(f"inflight:{most}/0/{most}"), f"InFlight.bulkhead({most})", rust, "")


def _breaker(failures: int, results: int, open_for: int, deadline: int) -> Candidate:
    spelt = f"breaker:{failures}/{results}/1/{deadline}" if results else f"breaker:{failures}/1/{deadline}"
    among = f"results={results}, " if results else ""
    python = f"Breaker({failures}, spaced({open_for}), {among}probe_deadline={seconds_text(deadline)})"
    waits = f"Policy::new(&Schedule::spaced({duration(1000 * open_for)}))?"
    rust = (
        f"CallLimit::new(Breaker {{ failures: {failures}, results: {f'Some({results})' if results else 'None'}, "
        f"open_for: {waits}, probes: 1, probe_deadline: {duration(deadline)} }})?"
    )
    return Candidate("breaker", limit_of(spelt, (1000 * open_for,)), python, rust, spelt, open_for)


def _throttle(ratio: int, period: int) -> Candidate:
    python = f"Throttle({thousandths_text(ratio)}, {seconds_text(period)})"
    rust = f"CallLimit::new(Throttle {{ ratio: {ratio / 1000!r}, period: {duration(period)} }})?"
    return Candidate("throttle", limit_of(f"throttle:{ratio}/{period}"), python, rust, "")


def _adaptive(most: int, backoff: int) -> Candidate:
    python = f"Adaptive(most={most}, backoff={thousandths_text(backoff)})"
    rust = f"CallLimit::new(Adaptive {{ least: 1, most: {most}, first: 20, backoff: {backoff / 1000!r} }})?"
    return Candidate("adaptive", limit_of(f"adaptive:1/{most}/20/{backoff}"), python, rust, "")
