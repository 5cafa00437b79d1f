"""What a log tells, in words."""

from __future__ import annotations

from datetime import datetime, timezone
from typing import Dict, List, Optional, Sequence, Tuple

from ..storms.parameters import Parameters, plural
from .paces import Paces
from .seen import Traffic, part_of

__all__ = ["assumed_of", "at_moments_text", "lines_of", "moment_text", "played_text"]


def moment_text(second: int) -> str:
    """A moment as a person reads it."""
    try:
        return datetime.fromtimestamp(second, timezone.utc).strftime("%Y-%m-%d %H:%M:%S")
    except (ValueError, OverflowError, OSError):
        return f"second {second}"


def lines_of(traffic: Traffic) -> List[str]:
    """Which lines were taken, from when to when, and how long requests took."""
    skipped = sum(traffic.skipped.values())
    why = ", ".join(f"{count:,} {reason}" for reason, count in sorted(traffic.skipped.items()))
    begins, ends = traffic.span
    busiest = traffic.busiest
    lines = [
        f"{traffic.format}: took {traffic.taken:,} {plural(traffic.taken, 'line')}, skipped {skipped:,}"
        + (f" ({why})" if why else ""),
        f"from {moment_text(begins)} UTC on, {ends - begins:,} s; the busiest second is {moment_text(busiest)}, with "
        f"{traffic.requests[busiest]:,} {plural(traffic.requests[busiest], 'request')}",
    ]
    took = traffic.latencies
    if took:
        half, most = part_of(took, 50), part_of(took, 99)
        lines.append(f"half took at most {half:,} ms, 99 in 100 at most {most:,} ms, the slowest {max(took):,} ms")
    return lines


def assumed_of(traffic: Traffic, base: Parameters) -> Tuple[Parameters, Dict[str, Optional[str]]]:
    """The parameters with the patience and the capacity that a log lets assume, and why, by their names; None where the
    log does not say."""
    patience, capacity = traffic.patience(), traffic.capacity()
    why: Dict[str, Optional[str]] = {"patience": None, "capacity": None}
    if patience is not None:
        base, why["patience"] = base._replace(patience=patience[0]), patience[1]
    if capacity is not None:
        base = base._replace(capacity=-(-capacity // base.replicas))
        why["capacity"] = "the most that was answered in a second; the peer may be able to do more"
    return base, why


def played_text(traffic: Traffic, first: int, paces: Paces, requests: int) -> str:
    """What of a log is played, and how, where a storm has so many requests of it."""
    inside = sum(count for second, count in traffic.requests.items() if first <= second < first + paces.seconds)
    return (
        f"played: {paces.seconds:,} s from {moment_text(first)} UTC on, as {paces.spans} "
        f"{plural(paces.spans, 'span')} with an even pace in each: {requests:,} requests (the log has "
        f"{inside:,}), at most {paces.rate:,} in a second"
    )


def at_moments_text(first: int, counts: Sequence[int]) -> str:
    """What of a log is played at its own moments: so many requests in each second."""
    requests = sum(counts)
    return (
        f"played: {len(counts):,} s from {moment_text(first)} UTC on, at the log's own moments, evenly spread in "
        f"each second: {requests:,} {plural(requests, 'request')}, at most {max(counts):,} in a second"
    )
