#!/usr/bin/env python3
"""Compares the schemas of schemas/ with what `zsched check` says: over the files of plans/ and jobs/, 300 random
policies and
jobs of them, and 600 of these with a part changed. Where the schema takes what the program refuses it has to be one of
the bounds that a schema can't say: depth, the number of nodes, and of two numbers which is greater."""

import copy
import json
import os
import pathlib
import random
import subprocess
import sys

import jsonschema

TOP = pathlib.Path(__file__).resolve().parent.parent
ZSCHED = os.environ.get("HIKEBOX_ZSCHED", str(TOP / "dist/zsched"))
MAX_NUMBER = 4611686018427387903
STRANGE = [
    -1,
    MAX_NUMBER,
    MAX_NUMBER + 1,
    0,
    1.5,
    True,
    None,
    "forever",
    "none",
    [],
    {},
    {"fixed": 0},
    {"recurs": 1, "spaced": 1},
    [1, 2, 3],
]
#: The nodes with two bounds, and where these stand.
ORDERED = {"decorrelated": (1, 3), "jitter": (1, 2)}


def validator(name):
    schema = json.loads((TOP / "schemas" / f"{name}.schema.json").read_text())
    jsonschema.Draft7Validator.check_schema(schema)
    return jsonschema.Draft7Validator(schema)


def refusal(value):
    """The last line that the program says of a text that it refuses, or nothing."""
    done = subprocess.run([ZSCHED, "check"], input=json.dumps(value), capture_output=True, text=True)
    return done.stderr.strip().splitlines()[0] if done.returncode else ""


def places(value):
    """Where parts stand in a value: each by what holds it and its index or key."""
    pairs = (
        list(value.items()) if isinstance(value, dict) else list(enumerate(value)) if isinstance(value, list) else []
    )
    for at, part in pairs:
        yield value, at
        yield from places(part)


def changed(value, rng):
    """The value with one part that is another one, is gone, or comes twice."""
    whole = [copy.deepcopy(value)]
    held, at = rng.choice(list(places(whole)))
    kind = rng.random()
    if kind < 0.6:
        held[at] = copy.deepcopy(rng.choice(STRANGE))
    elif kind < 0.8 and held is not whole:
        del held[at]
    elif isinstance(held, list) and held is not whole:
        held.append(copy.deepcopy(held[at]))
    elif isinstance(held, dict):
        held[at + "s"] = held.pop(at)
    return whole[0]


def is_unordered(value):
    """Whether a node has two bounds of which the first is above the second."""
    if isinstance(value, dict):
        for name, (first, second) in ORDERED.items():
            numbers = value.get(name)
            if isinstance(numbers, list) and len(numbers) == 4 and numbers[first] > numbers[second]:
                return True
        return any(map(is_unordered, value.values()))
    return isinstance(value, list) and any(map(is_unordered, value))


def past_a_schema():
    """Policies that the schema takes and the program refuses."""
    deep, wide = "forever", "forever"
    for _ in range(32):
        deep = {"nothing": deep}
    for _ in range(8):
        wide = {"meet": [wide, wide]}
    return [{"jitter": [0, 1200, 800, "forever"]}, {"decorrelated": [0, 10, 1000, 5]}, deep, wide]


def main():
    rng = random.Random(7)
    printed = subprocess.run(
        [sys.executable, str(TOP / "tests/random_policies.py"), "300", "41"], capture_output=True, text=True, check=True
    )
    policies = [json.loads(line.split("\t")[1]) for line in printed.stdout.splitlines()]
    policies += [json.loads(file.read_text()) for file in sorted((TOP / "plans").glob("*.json"))]
    jobs = [json.loads(file.read_text()) for file in sorted((TOP / "jobs").glob("*.json"))]
    jobs += [[{"plan": policy, "runs": [{"lost": 7}, {"won": 1}]}] for policy in policies[:100]]
    jobs += [[], [{"plan": "forever", "runs": []}], [{"plan": "forever", "runs": [{"won": 1}] * 65}]]
    texts = policies + jobs + past_a_schema()
    texts += [changed(rng.choice(policies), rng) for _ in range(400)]
    texts += [changed(rng.choice(jobs[:-3]), rng) for _ in range(200)]
    validators = {name: validator(name) for name in ("policy", "jobs")}
    wrong, good, bad, beyond = [], 0, 0, 0
    for value in texts:
        # (the program takes an array as jobs and anything else as a policy)
        name = "jobs" if isinstance(value, list) else "policy"
        refused, valid = refusal(value), validators[name].is_valid(value)
        good, bad = good + (not refused), bad + bool(refused)
        if valid and refused:
            beyond += 1
            if refused in ("zsched: too deep", "zsched: too many nodes") or is_unordered(value):
                continue
        if valid == bool(refused):
            wrong.append(
                f"{json.dumps(value)}: the schema {'takes' if valid else 'refuses'} it, "
                f"the program says {refused or 'nothing'}"
            )
    for line in wrong[:10]:
        print(f"tests/schemas.py: {line}", file=sys.stderr)
    if wrong or good < 200 or bad < 200 or beyond < 4:
        sys.exit(f"tests/schemas.py: {len(wrong)} differ, {good} good, {bad} bad")
    print(f"tests/schemas.py: {good} good texts and {bad} bad ones, of which a schema can't refuse {beyond}")


if __name__ == "__main__":
    main()
