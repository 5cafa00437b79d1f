"""Populations of clients: those beside the clients of a storm's policy, each with a share of the requests."""

from __future__ import annotations

from dataclasses import dataclass
from typing import Any, Dict, NamedTuple, Optional, Sequence, Union

from .._time import Duration
from ..errors import StormError, shown
from ..policy import Policy

__all__ = ["MAX_BESIDE", "MAX_PATIENCE", "MAX_SHARE", "Clients", "Population", "look_at_shares", "percent_of"]

#: The most populations beside the first one, and the most per cent of the requests that are theirs.
MAX_BESIDE, MAX_SHARE = 3, 99
#: The longest patience, in milliseconds.
MAX_PATIENCE = 3_600_000


@dataclass(frozen=True)
class Population:
    """Clients of one kind beside those of a storm's own policy: `storm(policy, beside=[Population(..)])`.

    `share`
        Their share of the requests, in whole hundredths from 0.01 to 0.99. The clients of the storm's own policy have
        what is left, a hundredth at least.
    `policy`
        The policy by which they retry.
    `patience`
        How long they wait for a call. None is the storm's patience.
    `limited`
        Whether they draw on the storm's limit, as the clients of its own policy do. If not, nothing limits them, and no
        quota counts their requests.

    >>> from hikebox import recurs
    >>> Population(0.3, recurs(3))
    Population(share=0.3, policy=recurs(3), patience=None, limited=False)
    """

    share: float
    policy: Union[Policy, str, bytes, Dict[str, Any]]
    patience: Optional[Duration] = None
    limited: bool = False


class Clients(NamedTuple):
    """A population in the engine's units: its share in per cent, and its patience in milliseconds."""

    share: int
    policy: Policy
    #: None is the storm's.
    patience: Optional[int] = None
    is_limited: bool = False


def percent_of(place: str, share: Any) -> int:
    """A share of the requests in per cent, or an error that names its place.

    >>> percent_of("share", 0.29)
    29
    """
    if isinstance(share, bool) or not isinstance(share, (int, float)):
        raise TypeError(f"{place}: expected a share of the requests, got {share!r}")
    if not 0.01 <= share <= 0.99:
        wanted = "expected a share of the requests from 0.01 to 0.99, such as 0.3 for 30 %"
        raise StormError(place, f"{wanted}, got {shown(share)}")
    percent = round(share * 100)
    if abs(share * 100 - percent) > 1e-9:
        raise StormError(place, f"expected a share in whole hundredths, got {share!r}")
    return percent


def look_at_shares(shares: Sequence[int]) -> None:
    """Raises a `StormError` where populations of these shares, in per cent, can't stand beside the first one."""
    if len(shares) > MAX_BESIDE:
        raise StormError("beside", f"expected at most {MAX_BESIDE} populations, got {len(shares)}")
    for index, share in enumerate(shares):
        if not 1 <= share <= MAX_SHARE:
            hint = f"expected a share from 1 to {MAX_SHARE} % of the requests, got {share}"
            raise StormError(f"beside[{index}].share", hint)
    if sum(shares) > MAX_SHARE:
        added = " + ".join(map(str, shares))
        raise StormError("beside", f"expected shares of at most {MAX_SHARE} % in all, got {added}")
