"""Where the fault of a policy's text is marked."""

from __future__ import annotations

import random

import pytest
import reference

from hikebox import Policy
from hikebox.lab.faults import Marked, policy_in

MARKS = [
    # the text, with the mark in brackets; what is said, and the hint
    ("recurs(5) & ⟦exponental(0.1, 2)⟧.cap(1)", "no builder is called 'exponental'; did you mean 'exponential'?"),
    ("⟦recurs(5).capp(1)⟧ & spaced(1)", "no method is called 'capp'; did you mean 'cap'?"),
    ("  recurs(5) &\n  ⟦spaced(-1)⟧", "expected 0 to 4611686018427387.903 seconds, got -1"),
    ("recurs(5) & ⟦spaced()⟧", "spaced() missing 1 required positional argument: 'delay'"),
    ("recurs(5) & ⟦7⟧", None),
    ("recurs(5) + ⟦spaced(1)⟧", None),
    (
        '{"meet":[{"recurs":5},{"cap":[1000,⟦{"exponental":[100,2]}⟧]}]}',
        'no node is called "exponental"; did you mean "exponential"?',
    ),
    (' {"second": {"meet" : ["forever", ⟦{"recur": 1}⟧ ]}}', 'no node is called "recur"; did you mean "recurs"?'),
    (
        '{"gate":["input",true,"equal",3,⟦{"fixed":0}⟧]}',
        'expected {"fixed":D}, D from 1 to 4611686018427387903',
    ),
    (' ⟦{"meet":["forever"]}⟧ ', 'expected {"meet":[PLAN,PLAN]}'),
    ("⟦[1]⟧", "expected a plan, a string or an object with one member"),
    ('⟦{"a":1,"b":2}⟧', "expected a plan, a string or an object with one member, got one with 2"),
    ('{"meet":[{"recurs":1},\n {"spaced":1⟦]⟧}', "Expecting ',' delimiter at line 2, column 13"),
    ('{"gather":["süm",⟦"nöne"⟧]}', None),
    ("recurs(5) & (", None),
    ("recurs(5) ⟦&⟧ ", "the expression ends too soon in 'recurs(5) &'"),
    ("recurs(5) ⟦spaced⟧(1)", "invalid syntax"),
    ("", "expected an expression, as recurs(3) & exponential(0.1, 2), or JSON"),
    ('{"meet"⟦:⟧ ', "the text ends too soon"),
    ('{"recurs":⟦"3⟧', None),
    ('⟦{"recurs":1e400}⟧', "the number is too large"),
    ('{"recurs":"⟦\x01⟧"}', "Invalid control character at line 1, column 12"),
]


@pytest.mark.parametrize("marked, hint", MARKS)
def test_a_fault_is_marked_at_its_place(marked: str, hint: str) -> None:
    text = marked.replace("⟦", "").replace("⟧", "")
    found = policy_in(text)
    assert isinstance(found, Marked) and found.said
    assert 0 <= found.begins <= found.ends <= len(text)
    if hint is not None:
        assert hint in found.hint
    if "⟦" in marked and hint is not None:
        assert f"{text[:found.begins]}⟦{text[found.begins:found.ends]}⟧{text[found.ends:]}" == marked


def test_each_text_has_a_policy_or_a_mark_within_it() -> None:
    rng = random.Random(7)
    for number in range(400):
        policy = Policy.from_dict(reference.some_plan(rng, rng.randrange(1, 12)))
        text = policy.to_json() if number % 2 else repr(policy)
        assert policy_in(text) == policy
        at = rng.randrange(len(text))
        spoilt = (
            text[:at] + rng.choice(['"', "x", "", "}", ")", "é", " ", "9" * 30, "\n"]) + text[at + rng.randrange(3) :]
        )
        found = policy_in(spoilt)
        assert isinstance(found, Policy) or 0 <= found.begins <= found.ends <= len(spoilt), spoilt


STRANGE = ["(" * 5000, "recurs(" * 3000, "{" * 100_000, "[" * 5000, "-" * 9000 + "1", "recurs(1)\0", "\ud800"]
STRANGE += ["recurs(" + "9" * 9000 + ")", '{"recurs":' + "9" * 9000, '{"recurs":' + "9" * 9000 + "}"]


@pytest.mark.parametrize("text", STRANGE, ids=lambda text: ascii(text[:12]))
def test_no_text_is_too_strange(text: str) -> None:
    assert isinstance(policy_in(text), Marked)
