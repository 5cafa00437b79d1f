"""Policies: builders, JSON, expressions, faults, and what the engine answers."""

from __future__ import annotations

import copy
import json
import os
import pickle
import random
import subprocess
import threading
from concurrent.futures import ThreadPoolExecutor
from datetime import timedelta
from pathlib import Path
from typing import Any, Callable, Iterator, List, Tuple

import faults
import pytest
import reference
from conftest import TOP

import hikebox
from hikebox import (
    MAX_NUMBER,
    Fault,
    Policy,
    PolicyError,
    decorrelated,
    elapsed,
    exponential,
    exponential_milli,
    fibonacci,
    fixed,
    forever,
    from_duration,
    identity,
    linear,
    milliseconds,
    once,
    recurs,
    spaced,
    stop,
    unfold,
    windowed,
)
from hikebox.policy.nodes import NODES, parts_of

NAMESPACE = {name: getattr(hikebox, name) for name in hikebox.__all__}

BUILT = [
    (forever(), '"forever"', "forever()"),
    (elapsed(), '"elapsed"', "elapsed()"),
    (identity(), '"identity"', "identity()"),
    (recurs(5), '{"recurs":5}', "recurs(5)"),
    (spaced(0.25), '{"spaced":250}', "spaced(0.25)"),
    (fixed(1), '{"fixed":1000}', "fixed(1)"),
    (windowed(timedelta(seconds=90)), '{"windowed":90000}', "windowed(90)"),
    (linear(0.01), '{"linear":10}', "linear(0.01)"),
    (exponential(0.1), '{"exponential":[100,2]}', "exponential(0.1, 2)"),
    (exponential(0.1, 3.0), '{"exponential":[100,3]}', "exponential(0.1, 3)"),
    (exponential(0.1, 1.5), '{"exponential_milli":[100,1500]}', "exponential(0.1, 1.5)"),
    (exponential_milli(0.1, 2000), '{"exponential_milli":[100,2000]}', "exponential_milli(0.1, 2000)"),
    (fibonacci(0.01), '{"fibonacci":10}', "fibonacci(0.01)"),
    (decorrelated(0.1, 10), '{"decorrelated":[0,100,3000,10000]}', "decorrelated(0.1, 10, 3)"),
    (
        decorrelated(0.1, timedelta(minutes=1), 1.5, lane=2),
        '{"decorrelated":[2,100,1500,60000]}',
        "decorrelated(0.1, 60, 1.5, lane=2)",
    ),
    (unfold(1, 2, 3), '{"unfold":[1,2,3]}', "unfold(1, 2, 3)"),
    (from_duration(30), '{"lone":30000}', "from_duration(30)"),
    (once(), '{"nothing":{"recurs":1}}', "recurs(1).nothing()"),
    (stop(), '{"nothing":{"recurs":0}}', "recurs(0).nothing()"),
    (recurs(1) & spaced(1), '{"meet":[{"recurs":1},{"spaced":1000}]}', "recurs(1) & spaced(1)"),
    (recurs(1) | spaced(1), '{"join":[{"recurs":1},{"spaced":1000}]}', "recurs(1) | spaced(1)"),
    (recurs(1) >> spaced(1), '{"feed":[{"recurs":1},{"spaced":1000}]}', "recurs(1) >> spaced(1)"),
    (recurs(1).and_then(spaced(1)), '{"follow":[{"recurs":1},{"spaced":1000}]}', "recurs(1).and_then(spaced(1))"),
    (
        forever() & (elapsed() & identity()),
        '{"meet":["forever",{"meet":["elapsed","identity"]}]}',
        "forever() & (elapsed() & identity())",
    ),
    (
        (forever() & elapsed()) | identity(),
        '{"join":[{"meet":["forever","elapsed"]},"identity"]}',
        "(forever() & elapsed()) | identity()",
    ),
    (spaced(1).cap(0.5), '{"cap":[500,{"spaced":1000}]}', "spaced(1).cap(0.5)"),
    (spaced(1).add_delay(0.5), '{"add":[500,{"spaced":1000}]}', "spaced(1).add_delay(0.5)"),
    (spaced(1).set_delay(0.5), '{"set":[500,{"spaced":1000}]}', "spaced(1).set_delay(0.5)"),
    (linear(1).add_output(), '{"add_out":{"linear":1000}}', "linear(1).add_output()"),
    (spaced(1).jittered(), '{"jitter":[0,800,1200,{"spaced":1000}]}', "spaced(1).jittered(0.8, 1.2)"),
    (
        spaced(1).jittered(0, 1, lane=3),
        '{"jitter":[3,0,1000,{"spaced":1000}]}',
        "spaced(1).jittered(0, 1, lane=3)",
    ),
    (spaced(1).up_to(60), '{"within":[60000,{"spaced":1000}]}', "spaced(1).up_to(60)"),
    (spaced(1).ends_by(60), '{"ends_by":[60000,{"spaced":1000}]}', "spaced(1).ends_by(60)"),
    (spaced(1).renew(60), '{"renew":[60000,{"spaced":1000}]}', "spaced(1).renew(60)"),
    (spaced(1).renew_idle(60), '{"renew_idle":[60000,{"spaced":1000}]}', "spaced(1).renew_idle(60)"),
    (recurs(2).gather("list"), '{"gather":["list",{"recurs":2}]}', 'recurs(2).gather("list")'),
    (recurs(2).first(), '{"first":{"recurs":2}}', "recurs(2).first()"),
    (recurs(2).second(), '{"second":{"recurs":2}}', "recurs(2).second()"),
    (recurs(2).nothing(), '{"nothing":{"recurs":2}}', "recurs(2).nothing()"),
    (
        spaced(1).while_input(equal=503),
        '{"gate":["input",true,"equal",503,{"spaced":1000}]}',
        "spaced(1).while_input(equal=503)",
    ),
    (
        spaced(1).until_input(below=500),
        '{"gate":["input",false,"below",500,{"spaced":1000}]}',
        "spaced(1).until_input(below=500)",
    ),
    (
        spaced(1).while_output(at_least=0),
        '{"gate":["output",true,"at_least",0,{"spaced":1000}]}',
        "spaced(1).while_output(at_least=0)",
    ),
    (
        spaced(1).until_output(equal=3),
        '{"gate":["output",false,"equal",3,{"spaced":1000}]}',
        "spaced(1).until_output(equal=3)",
    ),
    (spaced(milliseconds(MAX_NUMBER)), '{"spaced":4611686018427387903}', "spaced(milliseconds(4611686018427387903))"),
]


@pytest.mark.parametrize("policy, text, written", BUILT, ids=[written for _, _, written in BUILT])
def test_a_builder_builds_the_node_of_its_name(policy: Policy, text: str, written: str) -> None:
    assert policy.to_json() == text
    assert repr(policy) == written
    assert eval(written, NAMESPACE) == policy
    assert Policy.parse(written) == policy
    assert Policy.from_json(text) == policy
    assert Policy.from_dict(json.loads(text)) == policy


def nodes_of(tree: Any) -> Iterator[Tuple[str, List[Any]]]:
    """Each node of a policy, with its own parameters."""
    name, own, plans = parts_of(tree)
    yield name, own
    for plan in plans:
        yield from nodes_of(plan)


#: What the table says that each node reads: the random word of its lane, the input, or that by its first item.
TABLE = json.loads((TOP / "schemas" / "nodes.json").read_text())["nodes"]
READS = {node["name"]: node.get("reads") for node in TABLE}


def test_every_node_has_a_builder() -> None:
    built = {name for _, text, _ in BUILT for name, _ in nodes_of(json.loads(text))}
    assert built == set(NODES)


def test_random_policies_are_written_and_read_as_they_are() -> None:
    rng = random.Random(18)
    for _ in range(300):
        tree = reference.some_plan(rng, rng.randrange(1, 12))
        policy = Policy.from_dict(tree)
        assert json.loads(policy.to_json()) == tree == policy.to_dict()
        assert eval(repr(policy), NAMESPACE) == policy
        built = Policy.parse(repr(policy))
        assert built == policy and (built.nodes, built.depth) == (policy.nodes, policy.depth)
        assert pickle.loads(pickle.dumps(policy)) == policy
        nodes = list(nodes_of(tree))
        reads = [(READS[name], own) for name, own in nodes]
        picks = {own[0] for read, own in reads if read == "word"}
        codes = any(read == "input" or (read == "SIDE" and own[0] == "input") for read, own in reads)
        assert policy.reads == built.reads == (tuple(sorted(picks)), codes)
        assert policy.nodes == len(nodes)


def test_what_a_builder_is_refused_is_told_as_of_the_text() -> None:
    under = spaced(1)
    for _ in range(31):
        under = under.cap(2)
    with pytest.raises(PolicyError) as built:
        under.nothing()
    with pytest.raises(PolicyError) as read:
        Policy.from_dict({"nothing": under.to_dict()})
    assert (built.value.fault, built.value.place, built.value.hint) == (
        Fault.TOO_DEEP,
        read.value.place,
        read.value.hint,
    )
    # what is over words is read, and refused as well
    with pytest.raises(PolicyError) as built:
        under.gather("sum")
    assert built.value.fault is Fault.TOO_DEEP


#: What stands at the borders of durations, of whole numbers and of ratios.
DURATIONS: List[Any] = [
    0,
    0.001,
    1,
    milliseconds(1),
    milliseconds(MAX_NUMBER),
    milliseconds(MAX_NUMBER - 1),
    MAX_NUMBER // 1000,
]
NUMBERS = [0, 1, 1000, 1001, 1_000_000, 2**31, 2**32 - 1, MAX_NUMBER]
RATIOS: List[Any] = [0, 0.001, 0.8, 1, 1.2, 9.999, 10]
FACTORS: List[Any] = [0.001, 0.5, 1, 1.001, 1.5, 2, 999.999, 1000]

BORDERS: List[Callable[[Callable[[List[Any]], Any]], Policy]] = [
    lambda of: recurs(of(NUMBERS)),
    lambda of: spaced(of(DURATIONS)),
    lambda of: fixed(of(DURATIONS)),
    lambda of: windowed(of(DURATIONS)),
    lambda of: linear(of(DURATIONS)),
    lambda of: fibonacci(of(DURATIONS)),
    lambda of: from_duration(of(DURATIONS)),
    lambda of: exponential(of(DURATIONS), of(FACTORS)),
    lambda of: exponential_milli(of(DURATIONS), of(NUMBERS)),
    lambda of: decorrelated(of(DURATIONS), of(DURATIONS), of(FACTORS), lane=of([0, 3])),
    lambda of: unfold(of(NUMBERS), of(NUMBERS), of(NUMBERS)),
    lambda of: spaced(1).cap(of(DURATIONS)).add_delay(of(DURATIONS)).set_delay(of(DURATIONS)),
    lambda of: spaced(1).jittered(of(RATIOS), of(RATIOS), lane=of([0, 3])),
    lambda of: spaced(1).up_to(of(DURATIONS)).ends_by(of(DURATIONS)),
    lambda of: spaced(1).renew(of(DURATIONS)).renew_idle(of(DURATIONS)),
    lambda of: spaced(1).while_input(below=of(NUMBERS)).until_output(at_least=of(NUMBERS)),
]


def test_the_engine_takes_each_policy_that_a_builder_gives() -> None:
    rng = random.Random(6)
    made = refused = 0
    for _ in range(200):
        for build in BORDERS:
            try:
                policy = build(rng.choice)
            except PolicyError:
                refused += 1
                continue
            # (the engine is told of it here at the earliest)
            assert Policy.from_json(policy.to_json()) == policy
            made += 1
    assert made > 2000 and refused > 50


def test_a_policy_is_refused_when_it_is_built_and_not_when_it_is_used() -> None:
    wide = recurs(1)
    for _ in range(7):
        wide = wide & wide
    assert (wide.nodes, wide.depth) == (255, 8)
    wide = wide.cap(1)
    builds: List[Callable[[], Policy]] = [
        lambda: wide.nothing(),
        lambda: wide & recurs(1),
        lambda: recurs(1).and_then(wide),
        lambda: wide.gather("sum"),
    ]
    for build in builds:
        with pytest.raises(PolicyError) as caught:
            build()
        assert caught.value.fault is Fault.TOO_MANY


def test_a_policy_may_stand_twice_in_another() -> None:
    policy = recurs(2) & spaced(1)
    both = policy | policy
    assert both == Policy.from_dict({"join": [policy.to_dict(), policy.to_dict()]})
    assert (both.nodes, both.depth, both.most_retries) == (7, 3, 2)
    assert policy.and_then(policy).most_retries == 4


def test_threads_build_on_one_policy_and_preview_it() -> None:
    policy = recurs(3) & exponential(0.1, 2)
    ready = threading.Barrier(6)

    def work(_: int) -> List[Any]:
        seen: List[Any] = []
        ready.wait()
        for count in range(100):
            built = policy.cap(1) & recurs(count)
            seen.append((count, built.to_json(), [step.next_ms for step in built.preview(5)], built.most_retries))
        return seen

    # (an exception of a thread is raised here)
    with ThreadPoolExecutor(6) as threads:
        seen = [each for found in threads.map(work, range(6)) for each in found]
    assert len(seen) == 600
    for count, text, starts, most in seen:
        assert text == '{"meet":[{"cap":[1000,{"meet":[{"recurs":3},{"exponential":[100,2]}]}]},{"recurs":%d}]}' % count
        assert (starts, most) == ([100, 300, 700][:count] + [None], min(count, 3))


def some_words(rng: random.Random) -> Any:
    return tuple(rng.choice([0, 2**31, 2**32 - 1, rng.randrange(2**32)]) for _ in range(4))


def test_300_random_policies_answer_as_their_definitions_say() -> None:
    rng = random.Random(2026)
    for _ in range(300):
        tree = reference.some_plan(rng, rng.randrange(1, 9))
        words = [some_words(rng) for _ in range(7)]
        codes = [rng.choice([0, 7, 503, MAX_NUMBER]) for _ in range(rng.randrange(1, 8))]
        took = rng.choice([0, 1, 40, 5000])
        numbers = iter([word / 2**32 for four in words for word in four])
        policy = Policy.from_dict(tree)
        steps = policy.preview(7, start=0.02, took=milliseconds(took), input=codes, random=numbers.__next__)
        history: List[reference.Event] = []
        now = 20
        for index, (step, four) in enumerate(zip(steps, words)):
            # (the last code comes again and again)
            history.append(reference.Event(now, four, codes[min(index, len(codes) - 1)]))
            wanted = reference.answer(tree, history)
            assert (step.at_ms, step.next_ms) == (now, wanted.start), tree
            assert step.output == wanted.output, tree
            if wanted.start is None:
                break
            now = min(MAX_NUMBER, wanted.start + took)
        assert len(steps) == len(history)


def test_300_random_policies_are_stepped_as_zsched_plan_does() -> None:
    program = os.environ.get("HIKEBOX_ZSCHED")
    if program is None:
        pytest.skip("HIKEBOX_ZSCHED names no zsched")
    rng = random.Random(300)
    for _ in range(300):
        tree = reference.some_plan(rng, rng.randrange(1, 14))
        word, took, code = rng.randrange(2**32), rng.choice([0, 3, 70]), rng.randrange(1000)
        words = [program, "plan", "--word", str(word), "--took", str(took), "--input", str(code)]
        printed = subprocess.run(words, input=json.dumps(tree), capture_output=True, text=True, check=True).stdout
        policy = Policy.from_dict(tree)
        steps = policy.preview(took=milliseconds(took), input=code, random=lambda: word / 2**32)
        assert "".join(f"{step.at_ms}: {reference.text(step.output)} " + goes(step) for step in steps) == printed


def goes(step: Any) -> str:
    return "done\n" if step.next_ms is None else f"next {step.next_ms}\n"


ROWS = [
    (
        '{"meet":[{"recurs":3},{"spaced":100}]}',
        {},
        "0: (0, 0) next 100/100: (1, 1) next 200/200: (2, 2) next 300/300: (3, 3) done",
    ),
    ('{"recurs":0}', {}, "0: 0 done"),
    ('{"fixed":100}', {"took": 0.03, "steps": 3}, "0: 0 next 100/130: 1 next 200/230: 2 next 300"),
    ('{"fixed":100}', {"took": 0.25, "steps": 3}, "0: 0 next 100/350: 1 next 350/600: 2 next 600"),
    ('{"windowed":100}', {"took": 0.25, "steps": 3}, "0: 0 next 100/350: 1 next 400/650: 2 next 700"),
    ('{"follow":[{"recurs":2},{"spaced":50}]}', {"steps": 4}, "0: 0 next 0/0: 1 next 0/0: 0 next 50/50: 1 next 100"),
    ('{"join":[{"recurs":1},{"lone":50}]}', {}, "0: (0, 50) next 0/0: (1, 0) done"),
    ('{"gather":["list",{"recurs":2}]}', {}, "0: [] next 0/0: [0] next 0/0: [0, 1] done"),
    ('{"within":[100,{"spaced":60}]}', {}, "0: 0 next 60/60: 1 next 120/120: 2 done"),
    ('{"ends_by":[1000,{"spaced":450}]}', {}, "0: 0 next 450/450: 1 next 900/900: 2 done"),
    ('{"ends_by":[100,{"fixed":100}]}', {}, "0: 0 next 100/100: 1 done"),
    ('{"ends_by":[100,{"recurs":5}]}', {"took": 0.06}, "0: 0 next 0/60: 1 next 60/120: 2 done"),
    (
        '{"decorrelated":[0,100,3000,10000]}',
        {"steps": 4},
        "0: 200 next 200/200: 350 next 550/550: 575 next 1125/1125: 912 next 2037",
    ),
    (
        '{"decorrelated":[0,100,3000,10000]}',
        {"steps": 2, "random": lambda: 1 - 2**-33},
        "0: 299 next 299/299: 896 next 1195",
    ),
    ('{"decorrelated":[0,100,3000,250]}', {"steps": 3}, "0: 200 next 200/200: 250 next 450/450: 250 next 700"),
    ('{"jitter":[0,800,1200,{"spaced":1000}]}', {"steps": 1, "random": lambda: 0.0}, "0: 0 next 800"),
    ('{"jitter":[0,800,1200,{"spaced":1000}]}', {"steps": 1}, "0: 0 next 1000"),
    ('{"jitter":[0,800,1200,{"spaced":1000}]}', {"steps": 1, "random": lambda: 1 - 2**-33}, "0: 0 next 1199"),
    (
        '{"feed":[{"spaced":10},{"gate":["input",false,"equal",2,"identity"]}]}',
        {},
        "0: 0 next 10/10: 1 next 20/20: 2 done",
    ),
    ('{"add_out":{"linear":5}}', {"steps": 3}, "0: 5 next 10/10: 10 next 30/30: 15 next 60"),
    ('{"nothing":"forever"}', {"steps": 1}, "0: () next 0"),
]


@pytest.mark.parametrize("text, how, lines", ROWS)
def test_worked_rows(text: str, how: Any, lines: str) -> None:
    assert "/".join(str(step) for step in Policy.from_json(text).preview(**how)) == lines


def test_the_files_of_plans_are_policies() -> None:
    for path in sorted((TOP / "plans").glob("*.json")):
        policy = Policy.from_file(path)
        assert policy == Policy.from_json(path.read_bytes())
        assert policy.preview()


REFUSED = [
    ('{"recurs":3', Fault.NOT_JSON, "line 1, column 11"),
    ("", Fault.NOT_JSON, "line 1, column 1"),
    ('[\n{"plan":]', Fault.NOT_JSON, "line 2, column 9"),
    ('{"recurs":-1}', Fault.NOT_A_PLAN, ""),
    ('{"recurs":1.0}', Fault.NOT_A_PLAN, ""),
    ('{"fixed":0}', Fault.OUT_OF_RANGE, ""),
    ('{"spaced":4611686018427387904}', Fault.OUT_OF_RANGE, ""),
    ('{"spaced":18446744073709551616}', Fault.NOT_A_PLAN, ""),
    ('"recurs"', Fault.NOT_A_PLAN, ""),
    ("[]", Fault.NOT_A_PLAN, ""),
    ("{}", Fault.NOT_A_PLAN, ""),
    ('{"recurs":1,"spaced":2}', Fault.NOT_A_PLAN, ""),
    ('{"meet":["forever"]}', Fault.NOT_A_PLAN, ""),
    ('{"meet":["forever",{"cap":[5,{"exponental":[1,2]}]}]}', Fault.NOT_A_PLAN, "meet[1].cap[1]"),
    ('{"meet":[{"fixed":0},"nope"]}', Fault.OUT_OF_RANGE, "meet[0]"),
    ('{"cap":[4611686018427387904,"nope"]}', Fault.NOT_A_PLAN, "cap[1]"),
    ('{"first":{"gate":["input",true,"above",3,"forever"]}}', Fault.NOT_A_PLAN, "first"),
    ('{"jitter":[0,1,2,{"gather":["sum",{"second":{"lone":true}}]}]}', Fault.NOT_A_PLAN, "jitter[3].gather[1].second"),
    ('{"gate":["input",true,"below",3,{"join":[{"recurs":1},{"unfold":[1,2]}]}]}', Fault.NOT_A_PLAN, "gate[4].join[1]"),
    ('{"gate":["input",1,"below",3,"forever"]}', Fault.NOT_A_PLAN, ""),
    ('{"gather":["mean","forever"]}', Fault.NOT_A_PLAN, ""),
    ('{"jitter":[4,0,1,"forever"]}', Fault.OUT_OF_RANGE, ""),
    ('{"jitter":[0,9,8,"forever"]}', Fault.OUT_OF_RANGE, ""),
    ('{"jitter":[0,9,10001,"forever"]}', Fault.OUT_OF_RANGE, ""),
    ('{"exponential":[1,0]}', Fault.OUT_OF_RANGE, ""),
    ('{"exponential":[1,1001]}', Fault.OUT_OF_RANGE, ""),
    ('{"exponential_milli":[1,1000001]}', Fault.OUT_OF_RANGE, ""),
    ('{"decorrelated":[4,1,3000,9]}', Fault.OUT_OF_RANGE, ""),
    ('{"decorrelated":[0,1,999,9]}', Fault.OUT_OF_RANGE, ""),
    ('{"decorrelated":[0,1,1000001,9]}', Fault.OUT_OF_RANGE, ""),
    ('{"decorrelated":[0,10,3000,9]}', Fault.OUT_OF_RANGE, ""),
    ('{"decorrelated":[0,1,3000]}', Fault.NOT_A_PLAN, ""),
    ('{"ends_by":[4611686018427387904,"forever"]}', Fault.OUT_OF_RANGE, ""),
    ('{"ends_by":[1,{"decorrelated":7}]}', Fault.NOT_A_PLAN, "ends_by[1]"),
    ('{"nothing":' * 32 + '"forever"' + "}" * 32, Fault.TOO_DEEP, ""),
    ('{"nothing":' * 33 + '"forever"' + "}" * 33, Fault.TOO_DEEP, "nothing"),
]


@pytest.mark.parametrize("text, fault, place", REFUSED)
def test_a_bad_policy_is_refused_with_its_first_fault_and_place(text: str, fault: Fault, place: str) -> None:
    with pytest.raises(PolicyError) as caught:
        Policy.from_json(text)
    assert caught.value.fault is fault
    assert caught.value.place == place
    assert caught.value.hint
    again = pickle.loads(pickle.dumps(caught.value))
    assert (again.fault, again.place, again.hint) == (fault, caught.value.place, caught.value.hint)
    assert isinstance(caught.value, ValueError)


HINTS = [
    ('"Forever"', 'no node is called "Forever"; did you mean "forever"?'),
    ('"never"', 'no node is called "never"'),
    ('"für immer"', 'no node is called "für immer"'),
    (json.dumps("ü" * 60), f'no node is called "{"ü" * 60}"'),
    (json.dumps("x" * 1000), f'no node is called "{"x" * 60}.."'),
    (r'"\u001b[1m\n\u009b\u202ex"', r'no node is called "\u001b[1m\u000a\u009b\u202ex"'),
    (
        r'["\u007f\u009b\u2028"]',
        r'expected a plan, a string or an object with one member, got ["\u007f\u009b\u2028"]',
    ),
    ('"recurs"', 'expected {"recurs":N}, N from 0 to 4611686018427387903, got "recurs"'),
    ('{"forever":1}', 'expected "forever", got {"forever":1}'),
    ('{"meet":[{"recurs":3}]}', 'expected {"meet":[PLAN,PLAN]}, got {"meet":[{"recurs":3}]}'),
    ("7", "expected a plan, a string or an object with one member, got 7"),
    ('["für immer"]', 'expected a plan, a string or an object with one member, got ["für immer"]'),
    (json.dumps(["x" * 58]), f'expected a plan, a string or an object with one member, got ["{"x" * 58}..'),
    (json.dumps(["ü" * 56]), f'expected a plan, a string or an object with one member, got ["{"ü" * 56}"]'),
    ("{}", "expected a plan, a string or an object with one member, got one with 0"),
    (
        '{"renew":[0,"forever"]}',
        'expected {"renew":[D,PLAN]}, D from 1 to 4611686018427387903, got {"renew":[0,"forever"]}',
    ),
    ('{"unfold":1}', 'expected {"unfold":[S,M,A]}, each from 0 to 4611686018427387903, got {"unfold":1}'),
    (
        '{"gate":1}',
        'expected {"gate":[SIDE,WANT,TEST,N,PLAN]}, SIDE "input" or "output", WANT true or false, '
        'TEST "below", "at_least" or "equal", N from 0 to 4611686018427387903, got {"gate":1}',
    ),
    (
        '{"gather":1}',
        'expected {"gather":[KIND,PLAN]}, KIND "sum", "count", "max" or "list", got {"gather":1}',
    ),
    ('{"ends_by":1}', 'expected {"ends_by":[D,PLAN]}, D from 0 to 4611686018427387903, got {"ends_by":1}'),
    (
        '{"decorrelated":1}',
        'expected {"decorrelated":[LANE,D,F,MAX]}, LANE from 0 to 3, D from 0 to MAX, '
        'F from 1000 to 1000000, MAX from D to 4611686018427387903, got {"decorrelated":1}',
    ),
    (
        '{"jitter":1}',
        'expected {"jitter":[LANE,MIN,MAX,PLAN]}, LANE from 0 to 3, MIN at most MAX, '
        'MAX at most 10000, got {"jitter":1}',
    ),
]


@pytest.mark.parametrize("text, hint", HINTS)
def test_a_hint_says_what_is_wanted(text: str, hint: str) -> None:
    with pytest.raises(PolicyError) as caught:
        Policy.from_json(text)
    assert caught.value.hint == hint


def test_the_limits_of_depth_and_nodes() -> None:
    deep: Any = "forever"
    for _ in range(31):
        deep = {"nothing": deep}
    assert Policy.from_dict(deep).depth == 32
    with pytest.raises(PolicyError) as caught:
        Policy.from_dict(deep).nothing()
    assert caught.value.fault is Fault.TOO_DEEP
    full: Any = "forever"
    wide = [full] * 128
    while len(wide) > 1:
        wide = [{"meet": [wide[index], wide[index + 1]]} for index in range(0, len(wide), 2)]
    policy = Policy.from_dict({"nothing": wide[0]})
    assert policy.nodes == 256
    with pytest.raises(PolicyError) as caught:
        policy & forever()
    assert caught.value.fault is Fault.TOO_MANY


AT_THEIR_LIMITS: List[Policy] = [
    *(build(milliseconds(MAX_NUMBER)) for build in (spaced, fixed, windowed, linear, fibonacci, from_duration)),
    *(build(milliseconds(1)) for build in (fixed, windowed)),
    recurs(MAX_NUMBER),
    exponential(milliseconds(MAX_NUMBER), 1000),
    exponential(0, 0.001),
    exponential_milli(milliseconds(MAX_NUMBER), 1_000_000),
    exponential_milli(0, 1),
    decorrelated(0, 0, 1, lane=3),
    decorrelated(milliseconds(MAX_NUMBER), milliseconds(MAX_NUMBER), 1000),
    unfold(MAX_NUMBER, MAX_NUMBER, MAX_NUMBER),
    *(
        getattr(forever(), name)(milliseconds(MAX_NUMBER))
        for name in ("cap", "add_delay", "set_delay", "up_to", "ends_by")
    ),
    *(getattr(forever(), name)(milliseconds(length)) for name in ("renew", "renew_idle") for length in (1, MAX_NUMBER)),
    forever().jittered(0, 10, lane=3),
    *(
        getattr(forever(), f"{when}_{side}")(equal=MAX_NUMBER)
        for when in ("while", "until")
        for side in ("input", "output")
    ),
    *(forever().gather(fold) for fold in ("sum", "count", "max", "list")),
    elapsed() >> identity().first() | forever().second().nothing().and_then(forever().add_output()),
]


@pytest.mark.parametrize("policy", AT_THEIR_LIMITS, ids=repr)
def test_what_a_builder_accepts_the_engine_reads(policy: Policy) -> None:
    read = Policy.from_json(policy.to_json())
    assert (policy.nodes, policy.depth, repr(policy)) == (read.nodes, read.depth, repr(read))
    assert [str(step) for step in policy.preview(2)] == [str(step) for step in read.preview(2)]


def test_the_faults_of_the_engine_are_those_of_a_second_finder() -> None:
    rng = random.Random(7)
    refused = 0
    for _ in range(2000):
        tree = spoilt(rng, reference.some_plan(rng, rng.randrange(1, 8)))
        found = faults.fault_of(tree)
        if found is None:
            Policy.from_dict(tree)
            continue
        refused += 1
        with pytest.raises(PolicyError) as caught:
            Policy.from_dict(tree)
        assert caught.value.fault is found.fault, tree
        assert caught.value.hint == found.hint and caught.value.place == found.place
    assert refused > 1000


def spoilt(rng: random.Random, tree: Any) -> Any:
    """A policy with a part of it changed for something else, perhaps more than once."""
    bad: List[Any] = [None, -1, 0, 1.5, MAX_NUMBER, MAX_NUMBER + 1, 2**64, True, "nope", "recurs", [], {}, [1, 2]]
    bad.append({"recurs": 1, "lone": 2})
    if rng.random() < 0.25 or isinstance(tree, (str, int)):
        return rng.choice(bad)
    if isinstance(tree, dict):
        ((name, value),) = tree.items()
        return {rng.choice([name, name, name, "recur", "cap"]): spoilt(rng, value)}
    items = list(tree)
    index = rng.randrange(len(items))
    items[index] = spoilt(rng, items[index])
    return items if rng.random() < 0.9 else items[1:]


def test_durations() -> None:
    assert spaced(0.0016) == spaced(milliseconds(2)) and spaced(0.001) == spaced(milliseconds(1))
    assert spaced(timedelta(microseconds=1500)) == spaced(milliseconds(2))
    assert spaced(timedelta(days=1)) == spaced(86400)
    assert spaced(MAX_NUMBER // 1000).to_json() == '{"spaced":%d}' % (MAX_NUMBER // 1000 * 1000)
    durations: List[Any] = [-1, -0.001, timedelta(seconds=-1), float("nan"), float("inf"), MAX_NUMBER // 1000 + 1]
    durations.append(milliseconds(-1))
    for bad in durations:
        with pytest.raises(PolicyError) as caught:
            spaced(bad)
        assert caught.value.fault is Fault.OUT_OF_RANGE
    for wrong in ("1", None, True):
        with pytest.raises(TypeError):
            spaced(wrong)  # type: ignore[arg-type]
    calls: List[Callable[[], Policy]] = [
        lambda: recurs(-1),
        lambda: recurs(MAX_NUMBER + 1),
        lambda: exponential(1, 1001),
        lambda: fixed(0),
    ]
    for call in calls:
        with pytest.raises(PolicyError):
            call()
    with pytest.raises(PolicyError):
        exponential(1, 0.0001)


BELOW_THE_GRAIN: List[Tuple[Callable[[], Policy], str]] = [
    (lambda: spaced(0.0004), "spaced: 0.0004 s is less than a millisecond"),
    (lambda: spaced(0.0006), "spaced: 0.0006 s is less than a millisecond"),
    (lambda: spaced(1).cap(timedelta(microseconds=700)), "cap: 0:00:00.000700 is less than a millisecond"),
    (lambda: exponential(0.1, 1.0005), "exponential: the factor 1.0005 is less than a thousandth from 1"),
    (lambda: exponential(0.1, 0.9996), "exponential: the factor 0.9996 is less than a thousandth from 1"),
    (lambda: decorrelated(1, 9, 1.0004), "decorrelated: the factor 1.0004 is less than a thousandth from 1"),
    (lambda: fixed(0.0004), "fixed: 0.0004 s is less than a millisecond"),
    (lambda: spaced(1).renew_idle(0.0004), "renew_idle: 0.0004 s is less than a millisecond"),
    (lambda: spaced(1).jittered(0.0001, 0.0004), "jittered: a ratio of 0.0001 is less than a thousandth"),
    (lambda: spaced(1).jittered(0.9998, 1.0002), "jittered(0.9998, 1.0002): the range is less than a thousandth"),
]


@pytest.mark.parametrize("build, hint", BELOW_THE_GRAIN, ids=[hint for _, hint in BELOW_THE_GRAIN])
def test_what_is_below_the_grain_is_refused(build: Callable[[], Policy], hint: str) -> None:
    with pytest.raises(PolicyError) as caught:
        build()
    assert (caught.value.fault, caught.value.hint) == (Fault.OUT_OF_RANGE, hint)


SPOKEN: List[Tuple[Callable[[], Policy], str]] = [
    (lambda: fixed(0), "fixed: expected an interval of at least 0.001 s, got 0"),
    (lambda: spaced(1).renew(0), "renew: expected an interval of at least 0.001 s, got 0"),
    (lambda: recurs(-1), f"recurs: expected 0 to {MAX_NUMBER}, got -1"),
    (lambda: exponential(1, 1001), "exponential: a factor: expected 1 to 1000, got 1001"),
    (lambda: spaced(1).jittered(1.2, 0.8), "jittered(1.2, 0.8): the range is empty"),
    (lambda: spaced(1).jittered(lane=4), "jittered: a lane: expected 0 to 3, got 4"),
    (lambda: spaced(1).gather("sums"), "gather: expected one of sum, count, max, list, got 'sums'"),
]


@pytest.mark.parametrize("build, hint", SPOKEN, ids=[hint for _, hint in SPOKEN])
def test_an_error_speaks_of_the_builder_that_was_called(build: Callable[[], Policy], hint: str) -> None:
    with pytest.raises(PolicyError) as caught:
        build()
    assert caught.value.hint == hint


def test_a_policy_is_neither_true_nor_false() -> None:
    joins: List[Callable[[], object]] = [
        lambda: recurs(3) and spaced(1),
        lambda: recurs(3) or spaced(1),
        lambda: not recurs(3),
        lambda: recurs(3) + spaced(1),  # type: ignore[operator]
    ]
    for joined in joins:
        with pytest.raises(TypeError, match=r"^join policies by & or \|"):
            joined()
    with pytest.raises(TypeError, match="unsupported operand"):
        recurs(3) + 1  # type: ignore[operator]


@pytest.mark.parametrize("text", ["recurs(3) and spaced(1)", "recurs(3) or spaced(1)", "recurs(3) + spaced(1)"])
def test_an_expression_that_joins_otherwise(text: str) -> None:
    with pytest.raises(PolicyError) as caught:
        Policy.parse(f"({text}).cap(1)")
    assert caught.value.hint == f"join policies by & or |, got {text!r}"


@pytest.mark.parametrize("wrong, said", [(5, "5"), (10**15, "1000000000000000"), (None, "None"), ([1], r"\[1\]")])
def test_what_is_no_text_is_no_policy(wrong: Any, said: str) -> None:
    with pytest.raises(TypeError, match=f"^from_json: expected a text of JSON, got {said}$"):
        Policy.from_json(wrong)
    with pytest.raises(TypeError, match=f"^parse: expected an expression, got {said}$"):
        Policy.parse(wrong)


def test_a_text_of_json_may_be_bytes_of_any_kind() -> None:
    for text in (b'{"recurs":3}', bytearray(b'{"recurs":3}'), memoryview(b'{"recurs":3}')):
        assert Policy.from_json(text) == recurs(3)


def test_an_expression_in_the_place_of_json_is_named() -> None:
    with pytest.raises(PolicyError, match="is an expression, which Policy.parse reads"):
        Policy.of("recurs(3)")


def test_a_preview_takes_inputs_in_turn() -> None:
    steps = spaced(0.5).while_input(equal=202).preview(input=[202, 202, 200])
    assert [str(step) for step in steps] == ["0: 0 next 500", "500: 1 next 1000", "1000: 2 done"]
    assert [step.next_ms for step in spaced(1).while_input(equal=7).preview(3, input=[7])] == [1000, 2000, 3000]
    assert [step.output for step in identity().preview(2, input=[1, 2, 3])] == [1, 2]
    assert [step.output for step in identity().preview(1, input=[])] == [0]
    for wrong in (-1, MAX_NUMBER + 1):
        with pytest.raises(PolicyError, match=f"preview: input: expected 0 to {MAX_NUMBER}, got {wrong}"):
            identity().preview(input=wrong)
    with pytest.raises(TypeError):
        spaced(1).while_input()
    with pytest.raises(TypeError):
        spaced(1) & 3  # type: ignore[operator]
    with pytest.raises(TypeError):
        spaced(1).and_then(3)  # type: ignore[arg-type]


def test_a_preview_has_so_many_steps_at_most() -> None:
    assert forever().preview(0) == forever().preview(-1) == []
    steps = spaced(1).preview(4096)
    assert (len(steps), steps[-1].next_ms) == (4096, 4_096_000)
    with pytest.raises(PolicyError, match="preview: steps: expected 0 to 4096, got 4097"):
        forever().preview(4097)
    assert len(recurs(2).preview(4096)) == 3
    listed = forever().gather("list").preview(300)
    assert listed[-1].output == list(range(299))


def test_the_engine_computes_a_course_once_for_its_moments_and_once_for_its_outputs(monkeypatch: Any) -> None:
    from hikebox._engine.calls import library

    made: List[str] = []

    def counted(name: str, call: Any) -> Any:
        def counts(*given: Any) -> Any:
            made.append(name)
            return call(*given)

        return counts

    for name in ("hikebox_policy_course", "hikebox_policy_outputs"):
        monkeypatch.setattr(library, name, counted(name, getattr(library, name)))
    # 10 outputs of one digit, 90 of two and 200 of three: 790 bytes
    assert [step.output for step in recurs(400).preview(300)] == list(range(300))
    assert made == ["hikebox_policy_course", "hikebox_policy_outputs"]
    hikebox.Breaker(1, spaced(1))
    assert made[2:] == ["hikebox_policy_course"]


def test_a_preview_asks_for_four_numbers_an_event() -> None:
    asked: List[float] = []

    def number() -> float:
        asked.append(0.25)
        return 0.25

    assert [step.delay for step in spaced(1).jittered(0, 1).preview(3, random=number)] == [0.25] * 3
    assert len(asked) == 12
    # no more than its nodes let it have
    assert len((recurs(1) & spaced(1)).preview(9, random=number)) == 2 and len(asked) == 20


def test_a_policy_is_a_value(tmp_path: Path) -> None:
    policy = recurs(5) & exponential(0.1).cap(1)
    same = Policy.from_dict(policy.to_dict())
    assert policy == same and hash(policy) == hash(same) and len({policy, same}) == 1
    assert policy != recurs(5) and policy != "recurs(5)"
    assert copy.copy(policy) is policy and copy.deepcopy([policy])[0] == policy
    assert Policy.of(policy) is policy
    assert Policy.of(policy.to_json()) == Policy.of(policy.to_dict()) == policy
    path = tmp_path / "policy.json"
    path.write_text(policy.to_json())
    assert Policy.from_file(path) == policy == Policy.from_file(str(path))
    with pytest.raises(TypeError):
        Policy.of(3)  # type: ignore[arg-type]
    with pytest.raises(TypeError):
        Policy()
    with pytest.raises(OSError):
        Policy.from_file(tmp_path / "none.json")
    with pytest.raises(PolicyError):
        Policy.from_dict({"spaced": float("nan")})


def test_at_how_many_events_a_policy_goes_on_at_most() -> None:
    rng = random.Random(5)
    for _ in range(300):
        tree = reference.some_plan(rng, rng.randrange(1, 9))
        most = Policy.from_dict(tree).most_retries
        if most is None or most > 15:
            continue
        steps = Policy.from_dict(tree).preview(most + 1, took=milliseconds(rng.randrange(50)))
        assert steps[-1].next_ms is None, tree
    assert recurs(2).and_then(recurs(3)).most_retries == 5
    assert (recurs(2) | recurs(3)).most_retries == 3
    assert (recurs(2) | forever()).most_retries is None


@pytest.mark.parametrize(
    "text",
    [
        "open('/etc/passwd')",
        "recurs(5).__class__",
        "recurs(5).to_json()",
        "recurs(*[1])",
        "recurs(**{})",
        "recurs",
        "3",
        "recurs(1) + recurs(2)",
        "recurs(1) & 2",
        "recurs('a')",
        "(lambda: recurs(1))()",
        "recurs(1)(",
        "nope(3)",
        "hikebox.recurs(1)",
    ],
)
def test_an_expression_builds_policies_alone(text: str) -> None:
    with pytest.raises(PolicyError):
        Policy.parse(text)


@pytest.mark.parametrize("steps", ["3", None, 2.5])
def test_a_number_of_steps_that_is_none_is_refused(steps: Any) -> None:
    with pytest.raises(TypeError, match="preview: steps"):
        recurs(3).preview(steps)
