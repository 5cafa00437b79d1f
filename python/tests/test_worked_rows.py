"""Courses of policies worked out by hand, a row for each: `preview` and `zsched plan` give them."""

from __future__ import annotations

import os
import subprocess
from typing import Any, Dict, List, Tuple

import pytest

from hikebox import Policy, milliseconds

MAX = 2**62 - 1
HALF = 2**61
#: From the last delay that is not cut to the last moment, which holds each later one.
TO_THE_LAST_MOMENT = f"0: {HALF} next {HALF}/{HALF}: {MAX} next {MAX}/{MAX}: {MAX} next {MAX}"

ROWS = [
    # at the border of an interval a fixed schedule is not behind
    ('{"fixed":100}', {"took": 100, "steps": 2}, "0: 0 next 100/200: 1 next 300"),
    ('{"fixed":100}', {"from": MAX, "steps": 2}, f"{MAX}: 0 next {MAX}/{MAX}: 1 next {MAX}"),
    ('{"linear":5}', {"steps": 3}, "0: 5 next 5/5: 10 next 15/15: 15 next 30"),
    (
        '{"fibonacci":10}',
        {"steps": 5},
        "0: 10 next 10/10: 10 next 20/20: 20 next 40/40: 30 next 70/70: 50 next 120",
    ),
    (f'{{"exponential":[{HALF},2]}}', {"steps": 3}, TO_THE_LAST_MOMENT),
    (f'{{"exponential_milli":[{HALF},2000]}}', {"steps": 3}, TO_THE_LAST_MOMENT),
    # each wait is rounded down: 337.5 and 506.25 are cut
    (
        '{"exponential_milli":[100,1500]}',
        {"steps": 5},
        "0: 100 next 100/100: 150 next 250/250: 225 next 475/475: 337 next 812/812: 505 next 1317",
    ),
    ('{"exponential_milli":[3,500]}', {"steps": 4}, "0: 3 next 3/3: 1 next 4/4: 0 next 4/4: 0 next 4"),
    ('{"unfold":[1,3,2]}', {"steps": 4}, "0: 1 next 0/0: 5 next 0/0: 17 next 0/0: 53 next 0"),
    ('"elapsed"', {"from": 5, "took": 10, "steps": 3}, "5: 0 next 5/15: 10 next 15/25: 20 next 25"),
    ('"identity"', {"input": 9, "steps": 1}, "0: 9 next 0"),
    ('{"lone":50}', {}, "0: 50 next 50/50: 0 done"),
    # the side that is done goes on counting
    (
        '{"join":[{"recurs":1},{"spaced":50}]}',
        {"steps": 4},
        "0: (0, 0) next 0/0: (1, 1) next 50/50: (2, 2) next 100/100: (3, 3) next 150",
    ),
    # pairs stay pairs
    (
        '{"meet":[{"meet":["forever",{"nothing":"forever"}]},{"join":[{"recurs":0},{"spaced":7}]}]}',
        {"steps": 2},
        "0: ((0, ()), (0, 0)) next 7/7: ((1, ()), (1, 1)) next 14",
    ),
    ('{"second":{"meet":["forever",{"meet":["forever",{"lone":7}]}]}}', {}, "0: (0, 7) next 7/7: (1, 0) done"),
    ('{"first":"forever"}', {"steps": 1}, "0: () next 0"),
    ('{"follow":[{"recurs":0},{"recurs":0}]}', {}, "0: 0 done"),
    ('{"gather":["sum",{"recurs":3}]}', {}, "0: 0 next 0/0: 0 next 0/0: 1 next 0/0: 3 done"),
    ('{"gather":["count",{"recurs":3}]}', {}, "0: 0 next 0/0: 1 next 0/0: 2 next 0/0: 3 done"),
    ('{"gather":["max",{"recurs":3}]}', {}, "0: 0 next 0/0: 0 next 0/0: 1 next 0/0: 2 done"),
    # an event at which the policy is done is not gathered, and one at which `follow` crosses is
    (
        '{"join":[{"gather":["count",{"lone":0}]},{"gather":["list",{"follow":[{"recurs":1},{"recurs":1}]}]}]}',
        {},
        "0: (0, []) next 0/0: (1, [0]) next 0/0: (1, [0, 0]) done",
    ),
    ('{"gate":["output",true,"below",2,"forever"]}', {}, "0: 0 next 0/0: 1 next 0/0: 2 done"),
    # what is no number fails each test
    ('{"gate":["output",true,"at_least",0,{"meet":["forever","forever"]}]}', {}, "0: (0, 0) done"),
    ('{"gate":["output",false,"at_least",0,{"nothing":{"recurs":1}}]}', {}, "0: () next 0/0: () done"),
    ('{"cap":[30,{"linear":20}]}', {"steps": 3}, "0: 20 next 20/20: 40 next 50/50: 60 next 80"),
    ('{"set":[7,{"recurs":1}]}', {}, "0: 0 next 7/7: 1 done"),
    (f'{{"add":[{MAX},{{"spaced":10}}]}}', {"steps": 1}, f"0: 0 next {MAX}"),
    (f'{{"jitter":[0,0,1000,{{"spaced":{MAX}}}]}}', {"steps": 1}, f"0: 0 next {HALF - 1}"),
    ('{"within":[0,"forever"]}', {}, "0: 0 done"),
    ('{"ends_by":[0,"forever"]}', {"steps": 2}, "0: 0 next 0/0: 1 next 0"),
    # rounds are cut from the front, and one begins at its border
    (
        '{"renew":[100,{"recurs":2}]}',
        {"took": 60, "steps": 5},
        "0: 0 next 0/60: 1 next 60/120: 0 next 120/180: 1 next 180/240: 0 next 240",
    ),
    ('{"renew":[100,{"recurs":2}]}', {"took": 40}, "0: 0 next 0/40: 1 next 40/80: 2 done"),
    ('{"renew":[100,{"recurs":2}]}', {"took": 50, "steps": 3}, "0: 0 next 0/50: 1 next 50/100: 0 next 100"),
    ('{"renew_idle":[100,{"recurs":2}]}', {"took": 99}, "0: 0 next 0/99: 1 next 99/198: 2 done"),
    ('{"renew_idle":[100,{"recurs":2}]}', {"took": 100, "steps": 3}, "0: 0 next 0/100: 0 next 100/200: 0 next 200"),
    # what is late by less than an interval, and by more
    ('{"fixed":100}', {"took": 30, "steps": 3}, "0: 0 next 100/130: 1 next 200/230: 2 next 300"),
    ('{"fixed":100}', {"took": 250, "steps": 3}, "0: 0 next 100/350: 1 next 350/600: 2 next 600"),
    ('{"windowed":100}', {"took": 250, "steps": 3}, "0: 0 next 100/350: 1 next 400/650: 2 next 700"),
    ('{"follow":[{"recurs":2},{"spaced":50}]}', {"steps": 4}, "0: 0 next 0/0: 1 next 0/0: 0 next 50/50: 1 next 100"),
    ('{"join":[{"recurs":1},{"lone":50}]}', {}, "0: (0, 50) next 0/0: (1, 0) done"),
    (
        '{"feed":[{"spaced":10},{"gate":["input",false,"equal",2,"identity"]}]}',
        {},
        "0: 0 next 10/10: 1 next 20/20: 2 done",
    ),
    ('{"gather":["list",{"recurs":2}]}', {}, "0: [] next 0/0: [0] next 0/0: [0, 1] done"),
    ('{"first":{"meet":[{"recurs":1},{"spaced":10}]}}', {}, "0: 0 next 10/10: 1 done"),
    ('{"second":{"join":[{"recurs":1},{"lone":50}]}}', {}, "0: 50 next 0/0: 0 done"),
    ('{"nothing":{"recurs":1}}', {}, "0: () next 0/0: () done"),
    ('{"add_out":{"linear":5}}', {"steps": 3}, "0: 5 next 10/10: 10 next 30/30: 15 next 60"),
    ('{"ends_by":[1000,{"spaced":450}]}', {}, "0: 0 next 450/450: 1 next 900/900: 2 done"),
    ('{"ends_by":[1000,{"spaced":450}]}', {"from": 7}, "7: 0 next 457/457: 1 next 907/907: 2 done"),
    ('{"ends_by":[100,{"fixed":100}]}', {}, "0: 0 next 100/100: 1 done"),
    ('{"ends_by":[100,{"recurs":5}]}', {"took": 60}, "0: 0 next 0/60: 1 next 60/120: 2 done"),
    ('{"within":[100,{"spaced":60}]}', {}, "0: 0 next 60/60: 1 next 120/120: 2 done"),
    ('{"renew_idle":[100,{"recurs":2}]}', {"took": 60}, "0: 0 next 0/60: 1 next 60/120: 2 done"),
    # nodes within nodes
    (
        '{"gather":["list",{"renew":[100,{"follow":[{"recurs":1},{"spaced":60}]}]}]}',
        {"steps": 5},
        "0: [] next 0/0: [0] next 60/60: [0, 0] next 120/120: [0, 0, 1] next 120/120: [0, 0, 1, 0] next 180",
    ),
    (
        '{"feed":[{"join":[{"recurs":1},{"spaced":10}]},{"first":"identity"}]}',
        {"steps": 3},
        "0: 0 next 0/0: 1 next 10/10: 2 next 20",
    ),
    (
        '{"renew_idle":[100,{"exponential":[30,2]}]}',
        {"steps": 5},
        "0: 30 next 30/30: 60 next 90/90: 120 next 210/210: 30 next 240/240: 60 next 300",
    ),
    (
        '{"gather":["list",{"gather":["list",{"recurs":3}]}]}',
        {},
        "0: [] next 0/0: [[]] next 0/0: [[], [0]] next 0/0: [[], [0], [0, 1]] done",
    ),
    (
        '{"renew":[50,{"follow":[{"recurs":1},{"lone":30}]}]}',
        {},
        "0: 0 next 0/0: 30 next 30/30: 0 done",
    ),
    (
        '{"renew":[50,{"follow":[{"recurs":1},{"lone":30}]}]}',
        {"took": 25, "steps": 5},
        "0: 0 next 0/25: 30 next 55/80: 0 next 80/105: 30 next 135/160: 0 next 160",
    ),
]
EACH_ROW = pytest.mark.parametrize("text, how, lines", ROWS)

DECORRELATED = '{"decorrelated":[0,100,3000,10000]}'
#: What `zsched plan` prints where all four words of each event are this one.
BY_A_WORD: List[Tuple[str, Dict[str, int], str]] = [
    *(
        (f'{{"jitter":[{lane},800,1200,{{"spaced":1000}}]}}', {"steps": 1, "word": word}, f"0: 0 next {start}")
        for lane in range(4)
        for word, start in ((0, 800), (2**31, 1000), (2**32 - 1, 1199))
    ),
    (
        '{"add_out":{"cap":[15,{"jitter":[0,500,1500,{"linear":10}]}]}}',
        {"steps": 3},
        "0: 10 next 20/20: 20 next 55/55: 30 next 100",
    ),
    (DECORRELATED, {"steps": 4}, "0: 200 next 200/200: 350 next 550/550: 575 next 1125/1125: 912 next 2037"),
    (
        '{"decorrelated":[0,100,3000,250]}',
        {"steps": 3},
        "0: 200 next 200/200: 250 next 450/450: 250 next 700",
    ),
    (DECORRELATED, {"steps": 2, "word": 0}, "0: 100 next 100/100: 100 next 200"),
    (DECORRELATED, {"steps": 2, "word": 2**32 - 1}, "0: 299 next 299/299: 896 next 1195"),
]


@EACH_ROW
def test_a_preview(text: str, how: Dict[str, int], lines: str) -> None:
    options: Dict[str, Any] = {name: how[name] for name in ("steps", "input") if name in how}
    options.update(start=milliseconds(how.get("from", 0)), took=milliseconds(how.get("took", 0)))
    assert "/".join(str(step) for step in Policy.from_json(text).preview(**options)) == lines


@pytest.mark.parametrize("text, how, lines", [*ROWS, *BY_A_WORD])
def test_zsched_plan(text: str, how: Dict[str, int], lines: str) -> None:
    program = os.environ.get("HIKEBOX_ZSCHED")
    if program is None:
        pytest.skip("HIKEBOX_ZSCHED names no zsched")
    words = [program, "plan", *(f"--{name}={number}" for name, number in how.items())]
    assert printed(words, text) == (0, lines.split("/"))


def printed(words: List[str], text: str) -> Tuple[int, List[str]]:
    """The status of a program that is given this text, and the lines that it prints."""
    done = subprocess.run(words, input=text, capture_output=True, text=True, check=False)
    return done.returncode, done.stdout.splitlines()
