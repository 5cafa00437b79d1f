"""The stories of `hikebox lab`: a storm and the two sides of it, for each thing that one learns there first."""

from __future__ import annotations

from typing import Dict, NamedTuple, Tuple

from ..storms.parameters import SCENARIOS, Parameters

__all__ = ["STORIES", "Story"]

_BACK_OFF = "recurs(8) & exponential(0.1, 2).cap(10)"
_FULL = "recurs(8) & exponential(0.1, 2).cap(10).jittered(0, 1)"


class Story(NamedTuple):
    """A storm, and the policy and the limit of each of its sides."""

    title: str
    parameters: Parameters
    sides: Tuple[Tuple[str, str], Tuple[str, str]]
    #: The share of the clients beside, in per cent, their policy, or none where it is that of the side, and on which
    #: sides they draw on the limit.
    beside: Tuple[int, str] = (0, "")
    limited: Tuple[bool, bool] = (False, False)


STORIES: Dict[str, Story] = {
    "quota": Story("A quota brings the peer back", SCENARIOS["outage"], ((_FULL, ""), (_FULL, "10/10%/1s"))),
    "retries": Story("Retries multiply the load", SCENARIOS["brown-out"], (("recurs(0)", ""), ("recurs(3)", ""))),
    "jitter": Story(
        "Jitter spreads it",
        SCENARIOS["herd"]._replace(window=500),
        ((_BACK_OFF, ""), ("recurs(8) & exponential(0.1, 2).cap(10).jittered(0.5, 1)", "")),
    ),
    "back-off": Story("Back-off alone does not end a storm", SCENARIOS["outage"], (("recurs(3)", ""), (_FULL, ""))),
    "deadline": Story("A deadline helps", SCENARIOS["outage"], ((_FULL, ""), (f"({_FULL}).ends_by(1)", ""))),
    "beside": Story(
        "A quota beside clients without one",
        SCENARIOS["outage"],
        ((_FULL, "10/10%/1s"), (_FULL, "10/10%/1s")),
        (30, ""),
        (True, False),
    ),
}
