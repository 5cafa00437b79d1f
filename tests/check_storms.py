#!/usr/bin/env python3
"""Looks at `zsched storm`: storms that were worked out by hand, the numbers of docs/STORMS.md, and 500 random storms,
each byte for byte as tests/storms.py plays it by the rules alone; and 150 more under each of three kinds of limits. A
half of them have several populations.

    tests/check_storms.py [COUNT [SEED]]

HIKEBOX_ZSCHED names the program, that of dist/ where it does not. Where the program knows no storms, tests/storms.py is
looked at alone.
"""

from __future__ import annotations

import json
import os
import random
import subprocess
import sys
import tempfile
from multiprocessing import Pool
from pathlib import Path
from typing import Any, Dict, List, Optional, Tuple

import storms
from worked_storms import BESIDE, NONE, WORKED

TOP = Path(__file__).resolve().parent.parent
ZSCHED = os.environ.get("HIKEBOX_ZSCHED", str(TOP / "dist" / "zsched"))
SLOWLY = [sys.executable, str(TOP / "tests" / "storms.py")]

BACK_OFF = {"cap": [10_000, {"exponential": [100, 2]}]}
NO_RETRY, ONE, THREE = {"recurs": 0}, {"recurs": 1}, {"recurs": 3}
EIGHT = {"meet": [{"recurs": 8}, BACK_OFF]}
FULL = {"meet": [{"recurs": 8}, {"jitter": [0, 0, 1000, BACK_OFF]}]}
HALF = {"meet": [{"recurs": 8}, {"jitter": [0, 500, 1000, BACK_OFF]}]}
TENTH = {"quota": "10/100/1000"}
HERD = {
    "rate": 10_000,
    "together": 10_000,
    "seconds": 1,
    "capacity": 1000,
    "patience": 1000,
    "queue": 500,
    "outage": NONE,
}
BROWN_OUT = {"outage": NONE, "slow": "10000..20000@50"}
#: One of two replicas is down for ten seconds.
HALF_DOWN = {"capacity": 500, "replicas": 2, "down": 1}

#: A tenth of the first storm, under each limit: how many are won, denied and lost, the calls, the tickets and when it
#: has recovered.
SMALL = {"rate": 80, "capacity": 100, "queue": 500}
SMALL_TOTALS = ("won", "denied", "lost", "calls", "tickets", "recovered")
SMALL_NUMBERS: List[Tuple[Dict[str, Any], Tuple[Optional[int], ...]]] = [
    ({}, (884, 0, 3916, 36_518, 0, None)),
    ({"quota": "1/100/1000"}, (4001, 799, 0, 4890, 90, 20_000)),
    ({"limit": "grpc:100/100"}, (4000, 800, 0, 4849, 49, 20_000)),
    ({"limit": "aws"}, (4000, 800, 0, 4900, 100, 20_000)),
    ({"limit": "inflight:3/200"}, (4003, 797, 0, 4824, 24, 20_000)),
    ({"limit": "inflight:3/200/40"}, (4003, 797, 0, 4824, 24, 20_000)),
    ({"limit": "inflight:3/1000/40"}, (4036, 748, 16, 4462, 410, 21_000)),
    ({"limit": "adaptive:1/200/20/900"}, (3568, 1230, 2, 3626, 56, 26_000)),
    ({"limit": "adaptive:5/100/50/500"}, (3997, 800, 3, 4057, 57, 21_000)),
    ({"limit": "breaker:5/1/1000"}, (2397, 2403, 0, 2404, 4, 41_000)),
    ({"limit": "breaker:5/10/1/1000"}, (2397, 2403, 0, 2404, 4, 41_000)),
    ({"limit": "breaker:16/32/3/1000"}, (2391, 2409, 0, 2416, 15, 41_000)),
    ({"limit": "throttle:2000/60000"}, (2839, 1944, 17, 4926, 1586, None)),
]
#: The same in a brown-out in the place of the outage.
SLOW_NUMBERS: List[Tuple[Dict[str, Any], Tuple[Optional[int], ...]]] = [
    ({}, (888, 0, 3912, 36_280, 0, None)),
    ({"quota": "1/100/1000"}, (1915, 2885, 0, 5092, 292, 47_000)),
    ({"limit": "inflight:3/200/40"}, (3705, 1095, 0, 4639, 63, 25_000)),
    ({"limit": "inflight:3/1000/40"}, (4215, 585, 0, 4539, 324, 20_000)),
    ({"limit": "adaptive:1/200/20/900"}, (4492, 308, 0, 4522, 30, 20_000)),
    ({"limit": "adaptive:5/100/50/500"}, (4259, 541, 0, 4484, 225, 20_000)),
    ({"limit": "breaker:5/10/1/1000"}, (2356, 2444, 0, 2404, 4, 42_000)),
    ({"limit": "breaker:16/32/3/1000"}, (2345, 2455, 0, 2415, 15, 42_000)),
]

#: The numbers that another program by the same rules gave.
KNOWN: List[Tuple[Any, Dict[str, Any], Dict[str, Any]]] = [
    (NO_RETRY, {}, {"hundredths": 100, "recovered": 20_000}),
    (THREE, {}, {"hundredths": 150, "recovered": 20_000}),
    (EIGHT, {}, {"hundredths": 760, "recovered": None}),
    (FULL, {}, {"hundredths": 762, "recovered": None}),
    (FULL, TENTH, {"hundredths": 102, "recovered": 20_000}),
    (EIGHT, {"queue": 500}, {"hundredths": 412, "won": 48_000}),
    (EIGHT, HERD, {"won": 3700}),
    (FULL, HERD, {"won": 9885}),
    (HALF, HERD, {"won": 10_000}),
    (THREE, BROWN_OUT, {"recovered": None}),
    (NO_RETRY, {**HALF_DOWN, "rate": 400}, {"lost": 2000, "recovered": 20_000}),
    (ONE, {**HALF_DOWN, "rate": 400}, {"won": 24_000, "calls": 28_000, "recovered": 20_000}),
    (NO_RETRY, HALF_DOWN, {"lost": 4000, "recovered": 20_000}),
    (ONE, HALF_DOWN, {"won": 10_113, "calls": 87_200, "recovered": None}),
    (ONE, {**HALF_DOWN, **TENTH}, {"won": 44_450, "denied": 3550, "recovered": 20_000}),
    *((FULL, {**SMALL, **limit}, dict(zip(SMALL_TOTALS, numbers))) for limit, numbers in SMALL_NUMBERS),
    *((FULL, {**SMALL, **BROWN_OUT, **limit}, dict(zip(SMALL_TOTALS, numbers))) for limit, numbers in SLOW_NUMBERS),
]
#: Where no number is known: that it comes back.
COMES_BACK = [(NO_RETRY, BROWN_OUT), (THREE, {**BROWN_OUT, **TENTH})]


def played(program: List[str], plan: Any, options: Dict[str, Any], form: str = "--json") -> Tuple[int, str, str]:
    """The status, the output and the errors of a program that plays this storm."""
    with tempfile.TemporaryDirectory() as folder:

        def file_of(name: str, plan: Any) -> str:
            file = Path(folder) / name
            file.write_text(json.dumps(plan))
            return str(file)

        given = dict(options)
        others = [f"{words}={file_of(f'{at}.json', own)}" for at, (words, own) in enumerate(given.pop("beside", []))]
        if "open" in given:
            given["open"] = file_of("open.json", given["open"])
        if "arrivals" in given:
            lines = Path(folder) / "moments.txt"
            lines.write_text("".join(f"{moment}\n" for moment in given["arrivals"]))
            given["arrivals"] = lines
        words = [word for name, value in given.items() for word in (f"--{name}", str(value))]
        words += [word for other in others for word in ("--beside", other)]
        command = [*program, *words, form, file_of("plan.json", plan)]
        done = subprocess.run(command, capture_output=True, text=True)
    return done.returncode, done.stdout, done.stderr


def told(program: List[str], plan: Any, options: Dict[str, Any]) -> Any:
    status, output, errors = played(program, plan, options)
    if status not in (0, 6):
        raise SystemExit(f"tests/check_storms.py: {program[-1]}: status {status}: {errors}")
    return json.loads(output)


def looks_at(program: List[str]) -> List[str]:
    """What is wrong with the storms that are known."""
    wrong = []
    for name, plan, options, windows, totals in WORKED:
        got = told(program, plan, options)
        if got["windows"] != windows:
            wrong.append(f"{name}: windows {got['windows']}, wanted {windows}")
        wrong += [
            f"{name}: {key} {got['totals'][key]}, wanted {value}"
            for key, value in totals.items()
            if got["totals"][key] != value
        ]
    return wrong


def looks_at_populations(program: List[str]) -> List[str]:
    """What is wrong with the storms of several populations that are known."""
    wrong = []
    for name, plan, options, windows, parts in BESIDE:
        got = told(program, plan, options)
        wanted = {"windows": windows, "populations": [part._asdict() for part in parts]}
        found = {
            "windows": got["windows"],
            "populations": [
                {**own, "totals": {key: own["totals"][key] for key in part.totals}}
                for own, part in zip(got["populations"], parts)
            ],
        }
        if found != wanted or len(got["populations"]) != len(parts):
            wrong.append(f"{name}: {found}, wanted {wanted}")
    return wrong


def looks_at_numbers(program: List[str]) -> List[str]:
    wrong = []
    with Pool() as pool:
        given = pool.starmap(told, [(program, plan, options) for plan, options, _ in KNOWN])
        back = pool.starmap(told, [(program, plan, options) for plan, options in COMES_BACK])
    for (plan, options, totals), got in zip(KNOWN, given):
        wrong += [
            f"{plan} {options}: {key} {got['totals'][key]}, wanted {value}"
            for key, value in totals.items()
            if got["totals"][key] != value
        ]
    wrong += [
        f"{case}: it doesn't come back" for case, got in zip(COMES_BACK, back) if got["totals"]["recovered"] is None
    ]
    within = given[8]["totals"]["slowest"]
    if within > 12_000:
        wrong.append(f"the herd with half to whole of the delay: the last is won after {within} ms")
    return wrong


#: Command lines that are bad, each before its plan is read.
BAD = [
    "--outage 5..1",
    "--outage 5",
    "--outage 0..3600001",
    "--outage -1..5",
    "--slow 0..1",
    "--slow 0..1@0",
    "--slow 0..1@101",
    "--rate 0",
    "--rate 1000001",
    "--rate 17477",
    "--rates 0..1",
    "--rates 0..1@",
    "--rates 1..1@5",
    "--rates 2..1@5",
    "--rates 0..1@1000001",
    "--rates 0..3600001@1",
    "--rates 0..2@1,1..3@1",
    "--rates 2..3@1,0..1@1",
    "--rates 0..1@1,",
    "--rates 0..1@1,2..3@1,4..5@1,6..7@1,8..9@1,10..11@1,12..13@1,14..15@1,16..17@1",
    "--rates 0..60000@17477",
    "--together 0",
    "--seconds 3601 --rate 1",
    "--capacity 0",
    "--patience 0",
    "--queue 1048577",
    "--replicas 0",
    "--replicas 5",
    "--down 0",
    "--down 2",
    "--replicas 2 --down 3",
    "--window 0",
    "--window 1",
    "--until 7200001",
    "--calls 0",
    "--calls 4294967297",
    "--words 18446744073709551616",
    "--budget 4294967297",
    "--budget 1 --quota 1/1/100",
    "--budget 1 --limit aws",
    "--quota 1/1/100 --limit aws",
    "--limit aws:1",
    "--limit token:1/2",
    "--limit grpc:100",
    "--limit grpc:1099511628/1",
    "--limit grpc:1/1001",
    "--limit bucket:9/1/1/1/1",
    "--limit bucket:9/1/10/1/1/1",
    "--limit bucket:9/1/1/1/1/1+twice",
    "--limit inflight:4294967296/1",
    "--limit inflight:1/1/4294967296",
    "--limit inflight:1/1/1/1",
    "--limit inflight:1/1/",
    "--limit adaptive:1/10/2",
    "--limit adaptive:0/10/2/900",
    "--limit adaptive:3/10/2/900",
    "--limit adaptive:1/10/11/900",
    "--limit adaptive:1/65536/2/900",
    "--limit adaptive:1/10/2/0",
    "--limit adaptive:1/10/2/1000",
    "--limit breaker:0/1/1",
    "--limit breaker:1/16/1",
    "--limit breaker:0/1/1/1",
    "--limit breaker:3/2/1/1",
    "--limit breaker:1/33/1/1",
    "--limit breaker:1/1/16/1",
    "--limit throttle:999/1",
    "--limit throttle:1000/0",
    "--limit aws --open other.json",
    "--limit aws --limit aws",
    "--limit aws --limit aws --sweep rate=1,2",
    "--limit aws --limit grpc:1 --compare other.json",
    "--limit aws --limit inflight:1/1 --open other.json --compare other.json",
    "--limit aws --limit aws --csv --compare other.json",
    "--open other.json",
    "--quota 1/1",
    "--quota 1/1/99",
    "--scenario flood",
    "--csv --json",
    "--csv --compare other.json",
    "--sweep rate",
    "--sweep rate=",
    "--sweep rats=1,2",
    "--sweep rate=2,1",
    "--sweep rate=1,1",
    "--sweep rate=1,",
    "--sweep rate=1..5",
    "--sweep rate=5..1/3",
    "--sweep rate=1..5/1",
    "--sweep rate=1..99/65",
    "--sweep rate=1..3/5",
    "--sweep rate=0,1",
    "--sweep rate=1,1000001",
    "--sweep rate=1,2.5",
    "--sweep rate=18446744073709551616",
    "--sweep share=1,2",
    "--sweep share=0.25 --quota 1/1/100",
    "--sweep reserve=1,2 --budget 3",
    "--sweep budget=1,2 --quota 1/1/100",
    "--sweep beside=1,2",
    "--sweep beside=0,1 --beside 30=other.json",
    "--sweep beside=1,100 --beside 30=other.json",
    "--sweep beside=1,70 --beside 30=other.json --beside 30=other.json",
    "--sweep outage=1,3590001",
    f"--sweep rate={','.join(map(str, range(1, 66)))}",
    "--sweep rate=1,2 --plain",
    "--sweep rate=1,2 --compare other.json",
    "--rate 1 --rate 2",
    "--arrivals moments.txt --rate 5",
    "--arrivals moments.txt --rates 0..1@1",
    "--arrivals moments.txt --together 2",
    "--arrivals moments.txt --seconds 2",
    "--arrivals moments.txt --arrivals moments.txt",
    "--arrivals moments.txt --sweep rate=1,2",
    "--arrivals moments.txt --sweep clients=1,2",
    "--arrivals moments.txt --sweep together=1,2",
    "--arrivals moments.txt --until 65537 --window 1",
    "--beside 30",
    "--beside 30=",
    "--beside =other.json",
    "--beside 0=other.json",
    "--beside 100=other.json",
    "--beside 30%=other.json",
    "--beside 30@=other.json",
    "--beside 30@0=other.json",
    "--beside 30@3600001=other.json",
    "--beside 30+=other.json",
    "--beside 30+limit=other.json",
    "--beside 30+limited@5=other.json",
    "--beside 50=other.json --beside 50=other.json",
    f"{'--beside 10=other.json ' * 4}",
    "--beside 30=other.json --compare other.json",
]


def looks_at_words(program: List[str]) -> List[str]:
    """What is wrong with how bad command lines are refused."""
    wrong = []
    for line in BAD:
        done = subprocess.run([*program, *line.split(), "no-such-file"], capture_output=True, text=True)
        if done.returncode != 2 or done.stdout or not done.stderr.startswith("zsched: bad command line\n"):
            wrong.append(f"{line}: status {done.returncode}: {done.stdout}{done.stderr}")
    return wrong


#: Files of moments that are refused, and why.
UNFIT: List[Tuple[bytes, str]] = [
    (b"", "expected 1 to 1048576 lines, got none"),
    (b"\n", "line 1: expected milliseconds from 0 to 7200000, got ''"),
    (b"5\n4\n", "line 2: expected milliseconds from 5 to 7200000, got '4'"),
    (b"5\n\n6\n", "line 2: expected milliseconds from 5 to 7200000, got ''"),
    (b"0\n0\n-1", "line 3: expected milliseconds from 0 to 7200000, got '-1'"),
    (b"1.5\n", "line 1: expected milliseconds from 0 to 7200000, got '1.5'"),
    (b"12 \n", "line 1: expected milliseconds from 0 to 7200000, got '12 '"),
    (b"7200000\n7200001\n", "line 2: expected milliseconds from 7200000 to 7200000, got '7200001'"),
    (b"1\n" + b"9" * 100, f"line 2: expected milliseconds from 1 to 7200000, got '{'9' * 32}'"),
    (b"5\r\n6\r\n", r"line 1: expected milliseconds from 0 to 7200000, got '5\r'"),
    (b"\x1b[2J\n", r"line 1: expected milliseconds from 0 to 7200000, got '\u{1b}[2J'"),
    (b"\xc2\x9b\n", r"line 1: expected milliseconds from 0 to 7200000, got '\u{9b}'"),
    (b"1\n\xff\n", "line 2: expected milliseconds from 1 to 7200000, got no text"),
    (b"3\n" * 1_048_577, "line 1048577: expected at most 1048576 lines, got one more"),
]


def looks_at_files(program: List[str]) -> List[str]:
    """What is wrong with how files of moments are read: the most lines that may be are played, and others refused."""
    wrong = []
    with tempfile.TemporaryDirectory() as folder:
        (Path(folder) / "a.json").write_text('{"recurs":0}')
        moments = Path(folder) / "moments.txt"
        command = [*program, "--arrivals", "moments.txt"]

        def done(*words: str) -> Tuple[int, str, str]:
            run = subprocess.run([*command, *words, "a.json"], capture_output=True, text=True, cwd=folder)
            return run.returncode, run.stdout, run.stderr

        for text, reason in UNFIT:
            moments.write_bytes(text)
            if done() != (3, "", f"zsched: number out of range\nmoments.txt: {reason}\n"):
                wrong.append(f"{text[:20]!r}: {done()}, wanted {reason}")
        moments.write_bytes(b"0\n" * 1_048_576)
        status, output, _ = done("--capacity", "1000000", "--queue", "1048576", "--json", "--outage", "0..0")
        if status != 0 or json.loads(output)["totals"]["requests"] != 1_048_576:
            wrong.append(f"the most lines: status {status}: {output[:200]}")
        moments.write_bytes(b"6000000")
        if done("--window", "1") != (3, "", WIDE):
            wrong.append(f"a storm with too many windows: {done('--window', '1')}")
        moments.unlink()
        status, output, errors = done()
        if (status, output) != (4, "") or not errors.startswith("zsched: read failed\nmoments.txt: "):
            wrong.append(f"no file: {status} {output} {errors}")
    return wrong


WIDE = """\
zsched: number out of range
--until: 60 s after the last moment are more than 65536 times '--window <M>'
"""
#: The windows of a storm, without bars, and with bars in lines that are 80 and 72 columns wide.
PLAIN = """\
  from  requests  won  retries  succeeded  refused  shed  late  waiting
     0         1    1        1          1        1     0     0        0
"""
BARS = """\
  won %  from ms  requests  retries  failed  waiting  # request, + retry
    100        0         1        1       1        0  #############+++++++++++++
                                                      0                  2 calls
"""
NARROW = """\
  won %  from ms  requests  retries  failed  waiting  # request, + retry
    100        0         1        1       1        0  #########+++++++++
                                                      0          2 calls
"""
#: What the same storm comes to.
COMES_TO = """\
1 request: 1 won, 0 lost, 0 denied a retry, 0 left open
2 calls, 2.00 for each request
the most in a window are 2, from 0 ms
1 ticket of 9 given
won after 11 ms (50 in 100), 11 ms (99 in 100), 11 ms (all)
"""
#: Two plans side by side: no retry, and one after 10 ms, in an outage of 5 ms.
TABLE = """\
                    a.json        b.json
requests                 1             1
won                      0             1
lost                     1             0
denied                   0             0
open                     0             0
calls                    1             2
for each              1.00          2.00
most calls               1             2
tickets                  0             0
50 in 100 ms             -            11
99 in 100 ms             -            11
slowest ms               -            11
recovered ms         never             -
"""
#: The same under two limits: one that has tokens enough, and one that allows no retry.
CROSSED = """\
                    a.json        a.json        b.json        b.json
limit                  aws  inflight:0/0           aws  inflight:0/0
requests                 1             1             1             1
won                      0             0             1             0
lost                     1             1             0             0
denied                   0             0             0             1
open                     0             0             0             0
calls                    1             1             2             1
for each              1.00          1.00          2.00          1.00
most calls               1             1             2             1
tickets                  0             0             1             0
50 in 100 ms             -             -            11             -
99 in 100 ms             -             -            11             -
slowest ms               -             -            11             -
recovered ms         never         never             -         never
"""
#: Limits under each of which two plans are played, with a plan of open times: the breaker is open for 300 ms each time.
LIMITS = ["grpc:100/100", "breaker:5/1/1000", "inflight:3/200", "adaptive:1/200/20/900", "throttle:2000/60000"]
OPEN = '{"spaced":300}'


def looks_at_lines(program: List[str]) -> List[str]:
    """What is wrong with storms that are told in words."""
    wrong = []
    with tempfile.TemporaryDirectory() as folder:
        (Path(folder) / "a.json").write_text('{"recurs":0}')
        (Path(folder) / "b.json").write_text('{"meet":[{"recurs":1},{"spaced":10}]}')
        storm = [*program, "--rate", "1", "--seconds", "1", "--outage", "0..5"]
        for words, wanted in [
            (["--budget", "9", "--plain", "b.json"], PLAIN + COMES_TO),
            (["--budget", "9", "b.json"], BARS + COMES_TO),
            (["--budget", "9", "--width", "72", "b.json"], NARROW + COMES_TO),
            (["a.json", "--compare", "b.json"], TABLE),
            (["a.json", "--compare", "b.json", "--limit", "aws", "--limit", "inflight:0/0"], CROSSED),
        ]:
            done = subprocess.run([*storm, *words], capture_output=True, text=True, cwd=folder)
            if (done.returncode, done.stdout, done.stderr) != (0, wanted, ""):
                wrong.append(f"{words}: status {done.returncode}: {done.stdout}{done.stderr}")
    return wrong


def looks_at_limits(program: List[str]) -> List[str]:
    """What is wrong with plans under several limits: each column is that of the storm under its limit alone."""
    with tempfile.TemporaryDirectory() as folder:
        (Path(folder) / "a.json").write_text(json.dumps(BACK_OFF))
        (Path(folder) / "b.json").write_text('{"meet":[{"recurs":2},{"spaced":100}]}')
        (Path(folder) / "open.json").write_text(OPEN)

        def table(limits: List[str]) -> List[str]:
            words = ["--rate", "80", "--capacity", "100", "--queue", "500", "a.json", "--compare", "b.json"]
            words += [word for limit in limits for word in ("--limit", limit)]
            opens = ["--open", "open.json"] if "breaker" in "".join(limits) else []
            done = subprocess.run([*program, *words, *opens], capture_output=True, text=True, cwd=folder)
            return (done.stdout + done.stderr).splitlines()

        found, alone = table(LIMITS), [table([limit]) for limit in LIMITS]
    wanted = []
    for number, line in enumerate(alone[0]):
        cells = [lines[number][at : at + 14].strip() for at in (12, 26) for lines in alone]
        columns = [cell.rjust(max(12, len(limit))) for cell, limit in zip(cells, LIMITS * 2)]
        wanted.append("  ".join([line[:12], *columns]))
    wanted.insert(1, "  ".join(["limit".ljust(12), *(limit.rjust(12) for limit in LIMITS * 2)]))
    is_right = found == wanted and len(found) == 15
    return [] if is_right else ["\n".join(["several limits:", *found, "in place of", *wanted])]


#: A call takes 9 ms, and each request comes after the one before is done. One that comes in the outage makes four.
SWEPT = {"rate": 100, "capacity": 120, "seconds": 5, "outage": "1000..2000"}
#: Sweeps: what they are given beside that, their values, and the options that each value stands for.
SWEEPS: List[Tuple[str, Dict[str, Any], List[Tuple[str, Dict[str, Any]]]]] = [
    ("rate=50,100", {}, [("50", {"rate": 50}), ("100", {"rate": 100})]),
    ("rate=50,100", {"rates": "500..1500@130"}, [("50", {"rate": 50}), ("100", {"rate": 100})]),
    ("capacity=90,101", {"arrivals": list(range(0, 900, 9))}, [("90", {"capacity": 90}), ("101", {"capacity": 101})]),
    ("clients=10,200", {}, [("10", {"rate": 10, "together": 10}), ("200", {"rate": 200, "together": 200})]),
    ("together=1,50", {}, [("1", {"together": 1}), ("50", {"together": 50})]),
    ("capacity=90..101/3", {}, [("90", {"capacity": 90}), ("96", {"capacity": 96}), ("101", {"capacity": 101})]),
    ("queue=0,30", {}, [("0", {"queue": 0}), ("30", {"queue": 30})]),
    ("patience=8,500", {}, [("8", {"patience": 8}), ("500", {"patience": 500})]),
    ("outage=0..1000/2", {}, [("0", {"outage": "1000..1000"}), ("1000", {"outage": "1000..2000"})]),
    (
        "share=0,2.5,50",
        {"quota": "10/100/1000"},
        [("0", {"quota": "10/0/1000"}), ("2.5", {"quota": "10/25/1000"}), ("50", {"quota": "10/500/1000"})],
    ),
    (
        "reserve=0,100",
        {"quota": "10/100/1000"},
        [("0", {"quota": "0/100/1000"}), ("100", {"quota": "100/100/1000"})],
    ),
    ("budget=0,20", {"budget": 5}, [("0", {"budget": 0}), ("20", {"budget": 20})]),
    ("rate=50,100", {"budget": 5, "beside": [("30@8", ONE)]}, [("50", {"rate": 50}), ("100", {"rate": 100})]),
    ("patience=8,500", {"beside": [("30", ONE)]}, [("8", {"patience": 8}), ("500", {"patience": 500})]),
    (
        "beside=1,40,79",
        {"budget": 5, "beside": [("30@8+limited", ONE), ("20", ONE)]},
        [(share, {"beside": [(f"{share}@8+limited", ONE), ("20", ONE)]}) for share in ("1", "40", "79")],
    ),
]
#: Along the length of the outage: 0, 50 and 100 of 500 requests are lost, after 0, 200 and 400 calls that are refused.
ALONG = """\
  won %  outage  calls for each  slowest ms  recovered ms
  100.0       0            1.00           9          1000  #####################
   90.0     500            1.30           9          2000  ###################
   80.0    1000            1.60           9          2000  #################
                                                           0               100 %
"""


def looks_at_sweeps(program: List[str]) -> List[str]:
    """What is wrong with storms along a parameter, each of which the rules alone play too."""
    wrong = []
    for sweep, more, storms_of in SWEEPS:
        swept = {**SWEPT, **more}
        if "arrivals" in more:
            swept = {name: value for name, value in swept.items() if name not in ("rate", "seconds")}
        singles = [told(SLOWLY, THREE, {**swept, **options})["totals"] for _, options in storms_of]
        name, values = sweep.partition("=")[0], [value for value, _ in storms_of]
        numbers = ",".join(json.dumps(totals, separators=(",", ":")) for totals in singles)
        said = f',"arrivals":{len(more["arrivals"])}' if "arrivals" in more else ""
        as_json = f'{{"parameter":"{name}","values":[{",".join(values)}],"totals":[{numbers}]{said}}}\n'
        lines = [",".join([name, *singles[0]])]
        lines += [",".join([value, *map(_cell, totals.values())]) for value, totals in zip(values, singles)]
        as_csv = "".join(f"{line}\n" for line in lines)
        for form, wanted in (("--json", as_json), ("--csv", as_csv)):
            got = played(program, THREE, {**swept, "sweep": sweep}, form)
            if got != (0, wanted, ""):
                wrong.append(f"{sweep} {form}: {got}, wanted {wanted}")
    table = played(program, THREE, {**SWEPT, "sweep": "outage=0..1000/3"}, "--width=80")
    if table != (0, ALONG, ""):
        wrong.append(f"a sweep in lines: {table}, wanted {ALONG}")
    return wrong


def _cell(number: Any) -> str:
    return "" if number is None else str(number).lower()


def some_storm(rng: random.Random, kind: Optional[str] = None) -> Tuple[Any, Dict[str, Any]]:
    """A random policy with the options of a storm, under a limit of this kind where one is named. One that looks back
    far, which the definitions play slowly, is cut early."""
    if rng.random() < 0.6:
        delay = rng.choice(
            [{"spaced": rng.randrange(1, 400)}, {"exponential": [rng.randrange(1, 100), 2]}, BACK_OFF, {"linear": 30}]
        )
        delay = rng.choice(
            [delay, {"jitter": [rng.randrange(4), 0, 1000, delay]}, {"decorrelated": [0, 20, 3000, 2000]}]
        )
        plan: Any = {"meet": [{"recurs": rng.randrange(9)}, delay]}
        calls = rng.choice([1500, 1500, 4000])
    else:
        plan, calls = storms.reference.some_plan(rng, rng.randrange(1, 7)), rng.choice([1, 7, 40])
    together = rng.choice([1, 1, 1, 2, 7, 50])
    seconds = rng.choice([1, 2, 5])
    rate = rng.choice([1, 3, 40, 90, 150, 333, 800])
    capacity = max(1, rate * rng.choice([30, 80, 100, 125, 300]) // 100)
    options: Dict[str, Any] = {
        "rate": rate,
        "together": together,
        "seconds": seconds,
        "capacity": capacity,
        "calls": calls,
    }
    if rng.random() < 0.4:
        options["rates"] = some_rates(rng, rate, seconds)
    options["patience"] = rng.choice([1, 5, 60, 500, 3000])
    options["queue"] = rng.choice([0, 1, 2, 30, 5000])
    options["outage"] = _span(rng, seconds)
    if rng.random() < 0.4:
        options["replicas"] = rng.choice([1, 2, 3, 4])
        if rng.random() < 0.7:
            options["down"] = rng.randint(1, options["replicas"])
    options["window"] = rng.choice([1, 97, 250, 1000, 60_000])
    if rng.random() < 0.5:
        options["slow"] = f"{_span(rng, seconds)}@{rng.choice([1, 10, 50, 99, 100])}"
    if rng.random() < 0.5 or options["window"] == 1:
        options["until"] = rng.choice([0, 1, 400, 1000 * seconds, 5000])
    if rng.random() < 0.7:
        options["words"] = rng.choice([0, 1, rng.randrange(2**64)])
    limit = "limit" if kind else rng.choice(["budget", "quota", "limit", "limit", "limit", None])
    if limit == "budget":
        options[limit] = rng.choice([0, 1, 30, 2**32])
    if limit == "quota":
        options[limit] = f"{rng.choice([0, 1, 10])}/{rng.choice([0, 1, 100, 1500])}/{rng.choice([100, 101, 1000])}"
    if limit == "limit":
        options[limit] = some_limit(rng, kind)
        if options[limit].startswith("breaker") and rng.random() < 0.7:
            options["open"] = rng.choice(
                [{"spaced": 40}, {"exponential": [100, 2]}, {"meet": [{"recurs": 3}, {"linear": 30}]}]
            )
    return plan, options


def some_arrivals(rng: random.Random, options: Dict[str, Any]) -> Dict[str, Any]:
    """The same options, with random moments in the place of the rate."""
    moment = rng.choice([0, 0, 1, 1000])
    step = rng.choice([1, 3, 25, 300])
    moments = []
    for _ in range(rng.choice([1, 2, 30, 400])):
        moments.append(moment)
        moment += rng.choice([0, 0, 1, rng.randrange(step), step])
    kept = {name: value for name, value in options.items() if name not in ("rate", "rates", "together", "seconds")}
    return {"arrivals": moments, **kept}


def some_populations(rng: random.Random, is_brief: bool) -> List[Tuple[str, Any]]:
    """Random populations beside the first one. Where the storm is brief their plans may look back far."""
    populations = []
    left = 99
    for _ in range(rng.choice([1, 1, 2, 3])):
        if left == 0:
            break
        share = rng.choice([1, min(30, left), left, rng.randint(1, left)])
        left -= share
        patience = rng.choice(["", "", "@1", "@5", "@60", "@500", "@3000"])
        if is_brief and rng.random() < 0.5:
            plan: Any = storms.reference.some_plan(rng, rng.randrange(1, 7))
        else:
            delay = rng.choice([{"spaced": rng.randrange(400)}, BACK_OFF, {"jitter": [0, 0, 1000, BACK_OFF]}])
            plan = {"meet": [{"recurs": rng.randrange(9)}, delay]}
        populations.append((f"{share}{patience}{rng.choice(['', '+limited'])}", plan))
    return populations


def some_rates(rng: random.Random, rate: int, seconds: int) -> str:
    """Random spans with rates of their own."""
    words: List[str] = []
    begins = 0
    for _ in range(rng.choice([1, 1, 2, 3, 8])):
        begins += rng.choice([0, 0, 1, 77, rng.randrange(600 * seconds)])
        ends = begins + rng.choice([1, 13, 250, 333, 1000])
        words.append(f"{begins}..{ends}@{rng.choice([0, 1, 7, rate, 3 * rate, 1000])}")
        begins = ends
    return ",".join(words)


#: The kinds of limits, of which random storms have each, and some more those whose words have more numbers.
KINDS = ["bucket", "grpc", "aws", "inflight", "breaker", "throttle"]
MORE_KINDS = ["inflight with a most", "adaptive", "breaker by results"]


def some_limit(rng: random.Random, kind: Optional[str] = None) -> str:
    """A random limit."""
    kind = kind or rng.choice(KINDS)
    if kind == "aws":
        return kind
    if kind == "bucket":
        capacity = rng.choice([0, 1, 50, 1000, 10_000])
        numbers = [capacity, *(rng.randint(0, capacity) for _ in range(5))]
        return f"bucket:{'/'.join(map(str, numbers))}{rng.choice(['', '+refund'])}"
    least, first, most = sorted(rng.choice([1, 2, 5, 20, 100, 65_535]) for _ in range(3))
    results = rng.randint(1, 32)
    numbers = {
        "grpc": [rng.choice([1, 4, 10, 100]), rng.choice([0, 1, 100, 1000])],
        "inflight": [rng.choice([0, 1, 3, 30]), rng.choice([0, 20, 200, 1000, 5000])],
        "breaker": [rng.choice([1, 2, 5, 20]), rng.choice([1, 2, 15]), rng.choice([0, 1, 50, 1000])],
        "throttle": [rng.choice([1000, 1100, 2000, 5000]), rng.choice([1, 100, 1000, 60_000])],
        "inflight with a most": [rng.choice([0, 1, 3]), rng.choice([0, 200, 1000]), rng.choice([0, 1, 2, 10, 40, 300])],
        "adaptive": [least, most, first, rng.choice([1, 500, 900, 999])],
        "breaker by results": [rng.randint(1, results), results, rng.choice([1, 2, 15]), rng.choice([0, 50, 1000])],
    }[kind]
    return f"{kind.split()[0]}:{'/'.join(map(str, numbers))}"


def _span(rng: random.Random, seconds: int) -> str:
    begins = rng.choice([0, 0, 1, rng.randrange(1000 * seconds)])
    return f"{begins}..{begins + rng.choice([0, 1, 50, 700, 2000])}"


def differs(seed: str) -> Optional[str]:
    """How the two programs differ on the storm of this seed. Its requests come by moments where the seed says so."""
    rng = random.Random(seed)
    moments = seed.endswith("by moments")
    plan, options = some_storm(rng, "" if moments else seed.partition(":")[2])
    if moments:
        options = some_arrivals(rng, options)
    if rng.random() < 0.5:
        options["beside"] = some_populations(rng, options["calls"] <= 40)
    for form in ("--json", "--csv"):
        wanted, got = (played(program, plan, options, form) for program in (SLOWLY, [ZSCHED, "storm"]))
        if wanted != got:
            return f"storm {seed}: {json.dumps(plan)} {options} {form}: {got}, wanted {wanted}"
    return None


def main() -> int:
    count = int(sys.argv[1]) if len(sys.argv) > 1 else 500
    more = count * 3 // 10
    seed = sys.argv[2] if len(sys.argv) > 2 else "7"
    knows = subprocess.run([ZSCHED, "storm", "--help"], capture_output=True).returncode == 0
    programs = [SLOWLY, [ZSCHED, "storm"]] if knows else [SLOWLY]
    wrong = [line for program in programs for line in looks_at(program) + looks_at_populations(program)]
    wrong += looks_at_numbers(programs[-1])
    if knows:
        wrong += looks_at_words(programs[-1]) + looks_at_lines(programs[-1]) + looks_at_limits(programs[-1])
        wrong += looks_at_sweeps(programs[-1]) + looks_at_files(programs[-1])
        seeds = [f"{seed}.{number}" for number in range(count)]
        seeds += [f"{seed}.{number} by moments" for number in range(count * 3 // 5)]
        seeds += [f"{seed}.{number}:{kind}" for kind in MORE_KINDS for number in range(more)]
        with Pool() as pool:
            wrong += filter(None, pool.imap_unordered(differs, seeds))
    for line in wrong[:20]:
        print(f"tests/check_storms.py: {line[:2000]}", file=sys.stderr)
    if not wrong:
        compared = (
            f"{count + more * len(MORE_KINDS)} random storms and {count * 3 // 5} by moments are played alike"
            if knows
            else "zsched knows no storms, and was not looked at"
        )
        print(
            f"tests/check_storms.py: {len(WORKED) + len(BESIDE)} storms by hand and "
            f"{len(KNOWN) + len(COMES_BACK)} that are known are right, {len(SWEEPS)} sweeps are of single storms, "
            f"{compared}"
        )
    return 1 if wrong else 0


if __name__ == "__main__":
    sys.exit(main())
