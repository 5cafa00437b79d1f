"""An advice in words, and its trials as a table."""

from __future__ import annotations

import json
from typing import Any, Dict, List, Sequence, Tuple

from .._time import seconds_text
from ..policy import Policy
from ..storms.parameters import Parameters, plural
from ..storms.texts import brief_setting, columns, share_of
from .code import in_python, in_rust, in_shell
from .rule import Outcome, Trial, best_of_kinds
from .trials import Advised

__all__ = ["advice_json", "advice_text", "back_text", "sentences", "share_text"]


def share_text(outcome: Outcome) -> str:
    """The share of the requests that succeeded, in per cent.

    >>> share_text(Outcome(48_000, 40_003, 20_000)), share_text(Outcome(10, 10, 0))
    ('83.3 %', '100.0 %')
    """
    return f"{share_of(1000, outcome.won, outcome.requests) / 10:.1f} %" if outcome.requests else "-"


def back_text(outcome: Outcome) -> str:
    """When the peer was back.

    >>> back_text(Outcome(1, 1, 20_000)), back_text(Outcome(1, 0, None)), back_text(Outcome(1, 1, 0))
    ('20 s', 'never', 'unharmed')
    """
    if outcome.recovered is None:
        return "never"
    return f"{seconds_text(outcome.recovered)} s" if outcome.recovered else "unharmed"


def advice_text(found: Advised, base: Parameters, policies: Sequence[Policy], has_all: bool = False) -> str:
    """What is played, the trials, the advice, and lines to paste. The trials are the best of each kind, or all."""
    several = len(policies) > 1
    heads = [f"{number}: {policy!r}" for number, policy in enumerate(policies, 1)] if several else [repr(policies[0])]
    heads += [brief_setting(base), *(f"{story.name}: {story.about}" for story in found.stories)]
    told = ["\n".join(heads), "\n".join(_table(found, policies, has_all)), "\n".join(sentences(found, policies))]
    if found.advice.take is not None:
        told += [each.rstrip("\n") for each in _pasted(found)]
    return "\n\n".join(told) + "\n"


def _pasted(found: Advised) -> List[str]:
    assert found.advice.take is not None
    tried = found.tried[found.advice.take]
    return [f"Python:\n{in_python(*tried)}", f"Rust:\n{in_rust(*tried)}", f"Shell:\n{in_shell(*tried)}"]


def _table(found: Advised, policies: Sequence[Policy], has_all: bool) -> List[str]:
    places = range(len(found.trials)) if has_all else best_of_kinds(found.trials)
    rows: List[Tuple[str, ...]] = [("", *(word for story in found.stories for word in (story.name, "back")))]
    for at in places:
        cells = [word for each in found.trials[at].outcomes for word in (share_text(each), back_text(each))]
        rows.append((name_of(found, policies, at), *cells))
    of = _count(found) if len(policies) == 1 else f"{len(found.trials)} policies under limits"
    title = f"Of {of}" if has_all else f"The best of each kind, of {of}"
    return [f"{title}: the requests that succeed, and when the peer is back", *columns(rows)]


def _count(found: Advised) -> str:
    return f"{len(found.trials)} {plural(len(found.trials), 'limit')}"


def name_of(found: Advised, policies: Sequence[Policy], at: int) -> str:
    """What a trial is called: its limit, and the number of its policy where there are several."""
    policy, limit = found.tried[at]
    return f"{policies.index(policy) + 1}: {limit.name}" if len(policies) > 1 else limit.name


def sentences(found: Advised, policies: Sequence[Policy]) -> List[str]:
    """The advice."""
    advice = found.advice
    if advice.take is None:
        return _nothing_helps(found, policies)
    best = found.trials[advice.take]
    said = [
        f"Take {name_of(found, policies, advice.take)}: the peer comes back in every story, and "
        f"{_worst(found, best)} of the requests succeed."
    ]
    if advice.runner_up is None:
        has_others = len({limit.kind for _, limit in found.tried}) > 1
        return [*said, _NO_OTHER if has_others else "No limit of another kind was tried."]
    other = found.trials[advice.runner_up]
    return [
        *said,
        f"The best of another kind is {name_of(found, policies, advice.runner_up)}: {_worst(found, other)}. "
        f"Beside the first it {_costs(found, best, other)}.",
    ]


def _worst(found: Advised, trial: Trial) -> str:
    """The worst story of a trial."""
    return f"in the worst, the {found.stories[trial.worst].name}, {share_text(trial.outcomes[trial.worst])}"


def _costs(found: Advised, best: Trial, other: Trial) -> str:
    """What one trial costs beside another, in points of a per cent."""
    points = [
        (story.name, round(1000 * (ours.share - theirs.share)))
        for story, ours, theirs in zip(found.stories, best.outcomes, other.outcomes)
    ]
    less = [f"{lost / 10:.1f} points in the {name}" for name, lost in points if lost > 0]
    more = [f"{-lost / 10:.1f} points in the {name}" for name, lost in points if lost < 0]
    said = [*(["costs " + _and(less)] if less else []), *(["gains " + _and(more)] if more else [])]
    return ", and it ".join(said) or "costs nothing"


def _and(words: Sequence[str]) -> str:
    """
    >>> _and(["a", "b", "c"])
    'a, b and c'
    """
    return " and ".join([", ".join(words[:-1]), words[-1]] if len(words) > 1 else words)


def _nothing_helps(found: Advised, policies: Sequence[Policy]) -> List[str]:
    nearest = found.trials[found.advice.nearest]
    names = [f"the {story.name}" for story, each in zip(found.stories, nearest.outcomes) if each.recovered is None]
    helps = [_HELPS[each.name].format(f"{each.value:,}") for each in found.remedies if each.value is not None]
    vain = [f"{_VAIN[each.name]} {each.end:,}" for each in found.remedies if each.value is None]
    said = [
        f"Under none of the {_count(found)} does the peer come back in every story. The nearest is "
        f"{name_of(found, policies, found.advice.nearest)}, under which it does not come back in {_and(names)}."
    ]
    said += [f"Under that it would with {' or with '.join(helps)}."] if helps else []
    return said + ([f"It would not with {' or with '.join(vain)}."] if vain else [])


_NO_OTHER = "With no limit of another kind does it come back in every story."
#: What helps, and what does not.
_HELPS = {
    "capacity": "a capacity of at least {} calls/s",
    "patience": "a patience of at least {} ms",
    "queue": "a queue of at most {}",
}
_VAIN = {"capacity": "a capacity up to", "patience": "a patience up to", "queue": "a queue down to"}


def advice_json(found: Advised, policies: Sequence[Policy]) -> str:
    """All trials and the advice, as JSON on one line."""
    trials: List[Dict[str, Any]] = [
        {
            "policy": policies.index(policy),
            "kind": limit.kind,
            "limit": limit.name,
            "stories": [each._asdict() for each in trial.outcomes],
        }
        for (policy, limit), trial in zip(found.tried, found.trials)
    ]
    told = {
        "policies": [policy.to_dict() for policy in policies],
        "stories": [story.name for story in found.stories],
        "trials": trials,
        **found.advice._asdict(),
        "remedies": {remedy.name: remedy.value for remedy in found.remedies},
    }
    return json.dumps(told, separators=(",", ":"))
