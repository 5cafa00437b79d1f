"""What stands above storms: what they share once, and what differs above each."""

from __future__ import annotations

from typing import TYPE_CHECKING, List, NamedTuple, Optional, Sequence, Tuple

from .._svg import LINE, headed, width_of, wrapped
from .parameters import Parameters, limit_text
from .texts import beside_text, brief_setting, share_text

if TYPE_CHECKING:
    from ..policy import Policy
    from .storm import Storm

__all__ = ["Heads", "heads_of", "names_of", "shared_text"]

#: The parameters that a title names where they differ, with their names there.
_NAMED = (
    *("rate", "rates", "together", "seconds", "capacity", "patience", "queue", "replicas", "outage", "away", "slow"),
    "words",
)


class Heads(NamedTuple):
    """The texts above storms."""

    #: The title of the picture, in words.
    title: str
    #: What all storms share: the policy, or a title; its lines, and those of the setting.
    whole: str
    shared: List[str]
    setting: List[str]
    #: The lines above each storm, and the share that succeeded.
    panels: List[Tuple[List[str], str]]
    #: What each storm is called, of which these are the lines.
    names: Sequence[str]
    #: The lines that each panel has room for.
    lines: int

    @property
    def tall(self) -> int:
        """The height of what stands above the strips of a panel."""
        return 7 + LINE * self.lines


def heads_of(storms: Sequence[Storm], title: Optional[str], names: Sequence[str], wide: float, panel: float) -> Heads:
    """The texts above these storms, of which each panel is `panel` wide and all together `wide`."""
    first = storms[0].parameters
    # (populations are named above their strips)
    shared = title if title is not None else "" if first.beside else shared_text(storms)
    is_equal = all(storm.parameters._replace(tickets=first.tickets, beside=first.beside) == first for storm in storms)
    under = "" if len({storm.parameters.tickets for storm in storms}) > 1 else f"; {limit_text(first.tickets)}"
    said = f"{brief_setting(first)}{under if len(storms) > 1 else ''}" if is_equal else ""
    called = names or names_of(storms)
    panels = [_panel(name, storm, panel) for name, storm in zip(called, storms)]
    return Heads(
        title="Storm: " + (title or "; ".join(repr(storm.policy) for storm in storms)),
        whole=shared,
        shared=headed(shared, wide) if shared else [],
        setting=wrapped(said, wide) if said else [],
        panels=panels,
        names=called,
        lines=max(len(lines) for lines, _ in panels),
    )


def shared_text(storms: Sequence[Storm], parameter: str = "") -> str:
    """The policy that all storms share, if they do, and the populations beside it that all of them share. The
    parameter is what is swept."""
    said = [] if len({storm.policy for storm in storms}) > 1 else [_in_one(storms[0].policy)]
    if storms[0].parameters.beside and len({storm.parameters.beside for storm in storms}) == 1:
        # (what has no limit does not say which populations draw on one)
        has_limit = [storm for storm in storms if storm.parameters.tickets is not None]
        said.append(beside_text((has_limit or storms)[0].parameters, is_swept=parameter == "beside"))
    return ", ".join(said)


def _panel(name: str, storm: Storm, wide: float) -> Tuple[List[str], str]:
    share = f"{share_text(storm.totals)} succeeded{' until cut' if storm.totals.cut else ''}"
    lines = headed(name, wide)
    if width_of(lines[-1]) + 9.2 * len(share) + 12 > wide:
        lines.append("")
    return lines, share


def names_of(storms: Sequence[Storm], parameter: str = "") -> List[str]:
    """What tells each of the storms from the others: its policy, its limit or its parameters, as these differ. The
    parameter is what is swept."""
    policies = [_in_one(storm.policy) for storm in storms]
    limits = [limit_text(storm.parameters.tickets, parameter) for storm in storms]
    parts = [
        [policy] * (len(set(policies)) > 1) + [limit] * (len(set(limits)) > 1) + _differing(storm.parameters, storms)
        for policy, limit, storm in zip(policies, limits, storms)
    ]
    names = [", ".join(part) for part in parts]
    plans = {tuple((each.policy, each.patience) for each in storm.parameters.beside) for storm in storms} - {()}
    besides = [beside_text(storm.parameters, len(plans) == 1, parameter == "beside") for storm in storms]
    if len(set(names)) < len({(name, storm.parameters.beside) for name, storm in zip(names, storms)}):
        names = [f"{name}, {text}" if name else text for name, text in zip(names, besides)]
    return [name or limit for name, limit in zip(names, limits)]


def _in_one(policy: Policy) -> str:
    """The policy, whose builders are broken over lines at their operators alone."""
    return repr(policy).replace(", ", ",\u00a0")


def _differing(parameters: Parameters, storms: Sequence[Storm]) -> List[str]:
    others = [storm.parameters for storm in storms]
    names = [name for name in _NAMED if len({getattr(other, name) for other in others}) > 1]
    return [f"{name} {_spelt(getattr(parameters, name))}" for name in names]


def _spelt(value: object) -> str:
    if isinstance(value, tuple):
        if not value or isinstance(value[0], tuple):
            return ",".join(map(_spelt, value)) or "none"
        return f"{value[0]}..{value[1]}" + "".join(f"@{percent}" for percent in value[2:])
    return "none" if value is None else f"{value:,}"
