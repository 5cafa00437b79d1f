"""The server of `hikebox lab`: whom it answers, and what; tests/lab_page.py looks at the page in a browser."""

from __future__ import annotations

import contextlib
import gzip
import http.client
import io
import json
import os
import pickle
import re
import resource
import shlex
import signal
import socket
import subprocess
import sys
import threading
import time
from collections import Counter
from pathlib import Path
from typing import Any, Callable, Dict, Iterator, List, Optional, Tuple
from urllib.parse import urlencode

import pytest
from conftest import TOP, heed_signals, python_environment, served

from hikebox import Policy, Population, Quota, recurs, storm
from hikebox.lab import logs, shares
from hikebox.lab.server import Lab
from hikebox.lab.cookbook import COOKBOOK
from hikebox.lab.players import BrokenOff, Players
from hikebox.storms.code import in_command, in_python, in_rust, in_scenario
from hikebox.storms.parameters import SCENARIOS, Parameters, RateSpan, Slow, Span
from hikebox.storms.texts import population_sentences
from hikebox.budgets.terms import Terms
from hikebox.storms.storm import play
from hikebox.traffic.seen import Traffic

#: How long is waited for what has to happen, in seconds: on a machine with much else to do it takes long.
_PATIENCE = 120
FULL = "recurs(8) & exponential(0.1, 2).cap(10).jittered(0, 1)"
#: A storm that is played for many seconds.
LONG: Dict[str, Any] = {"rate": 17_000, "capacity": 1, "queue": 0, "calls": 2**32}
LONG_SIDE = {"text": "recurs(10000) & spaced(0.01)", "limit": ""}


@pytest.fixture(scope="module")
def lab() -> Iterator[Lab]:
    yield from served(Lab())


class Answer:
    def __init__(self, found: http.client.HTTPResponse) -> None:
        self.status = found.status
        self.headers = found.headers
        self.text = found.read().decode()

    def json(self) -> Any:
        assert self.status == 200, self.text
        return json.loads(self.text)


def ask(lab: Lab, method: str, path: str, body: Optional[bytes] = None, **headers: str) -> Answer:
    """What is answered; a header that is empty is not sent."""
    connection = http.client.HTTPConnection("127.0.0.1", lab.port, timeout=_PATIENCE)
    given = {"Content-Type": "application/json", **{name.replace("_", "-"): value for name, value in headers.items()}}
    try:
        connection.request(method, path, body, {name: value for name, value in given.items() if value})
        return Answer(connection.getresponse())
    finally:
        connection.close()


def post(lab: Lab, name: str, asked: Any) -> Answer:
    return ask(lab, "POST", f"/{lab.token}/{name}", json.dumps(asked).encode())


def storm_of(*sides: Tuple[str, str], page: str = "p", **given: Any) -> Dict[str, Any]:
    return {
        "page": page,
        "sides": [{"text": text, "limit": limit} for text, limit in sides],
        "storm": given,
        "width": 500,
    }


# Whom it answers


def test_it_listens_on_this_machine_alone(lab: Lab) -> None:
    assert lab.server_address[0] == "127.0.0.1"
    assert re.fullmatch(r"http://127\.0\.0\.1:\d+/[\w-]{24}/", lab.address)


def test_each_run_has_another_token() -> None:
    labs = [Lab() for _ in range(3)]
    assert len({each.token for each in labs}) == 3
    for each in labs:
        each.server_close()


@pytest.mark.parametrize(
    "path", ["/", "/x/", "/{token}", "/{token}x/", "/{half}/", "/favicon.ico", "/%2e/{token}/", "/../{token}/"]
)
def test_a_wrong_token_is_forbidden(lab: Lab, path: str) -> None:
    path = path.format(token=lab.token, half=lab.token[:12])
    for method in ("GET", "POST"):
        answer = ask(lab, method, path, b"{}")
        assert answer.status == 403 and "each run has another one" in answer.text
        assert lab.token not in answer.text


@pytest.mark.parametrize(
    "host", ["evil.example", "127.0.0.1", "127.0.0.1:1", "localhost", "evil.example:{port}", "[::1]:{port}"]
)
def test_another_host_is_forbidden(lab: Lab, host: str) -> None:
    answer = ask(lab, "GET", f"/{lab.token}/", Host=host.format(port=lab.port))
    assert answer.status == 403 and "own machine" in answer.text


@pytest.mark.parametrize(
    "origin",
    ["https://evil.example", "null", "http://127.0.0.1", "https://127.0.0.1:{port}", "http://localhost.evil:{port}"],
)
def test_another_origin_is_forbidden(lab: Lab, origin: str) -> None:
    for method, name in (("GET", ""), ("POST", "start")):
        assert ask(lab, method, f"/{lab.token}/{name}", b"{}", Origin=origin.format(port=lab.port)).status == 403


def test_its_own_host_and_origin_are_answered(lab: Lab) -> None:
    for host in ("127.0.0.1", "localhost"):
        own = f"{host}:{lab.port}"
        assert ask(lab, "POST", f"/{lab.token}/start", b"{}", Host=own, Origin=f"http://{own}").status == 200


def test_other_names_and_methods_are_none(lab: Lab) -> None:
    for name in ("x", "page.html", "server.py", "../_svg.py", "%2e%2e/_svg.py", "lab.js/", "start"):
        assert ask(lab, "GET", f"/{lab.token}/{name}").status == 404
    assert post(lab, "x", {}).status == 404
    assert ask(lab, "PUT", f"/{lab.token}/start", b"{}").status == 501


def test_what_is_no_json_object_is_refused(lab: Lab) -> None:
    path = f"/{lab.token}/plan"
    for body in (b"", b"x", b"[]", b"1", b"[" * 100_000, b'"' + b"x" * (1 << 21) + b'"'):
        with contextlib.suppress(ConnectionError):
            assert ask(lab, "POST", path, body).status == 400
    assert ask(lab, "POST", path, b"{}", Content_Type="text/plain").status == 400
    assert ask(lab, "POST", path, b"{}", Content_Type="").status == 400
    assert ask(lab, "POST", path, b"{}", Content_Length="x").status == 400


@pytest.mark.parametrize(
    "name, asked",
    [
        ("plan", {"text": 1}),
        ("plan", {"text": "recurs(1)", "limit": 7}),
        ("plan", {"text": "recurs(1)", "width": "wide"}),
        ("storm", {}),
        ("storm", {"page": 1}),
        ("storm", {"page": "x" * 65}),
        ("storm", {"page": "p", "turn": "1"}),
        ("storm", {"page": "p", "turn": True}),
        ("storm", {"page": "p", "sides": {}, "storm": {}}),
        ("storm", {"page": "p", "sides": [1], "storm": {}}),
        ("storm", {"page": "p", "sides": [{}] * 5, "storm": {}}),
        ("storm", {"page": "p", "sides": [], "storm": []}),
        ("storm", {"page": "p", "sides": [], "storm": {"rate": "1"}}),
        ("storm", {"page": "p", "sides": [], "storm": {"rate": 1.5}}),
        ("storm", {"page": "p", "sides": [], "storm": {"rate": True}}),
        ("storm", {"page": "p", "sides": [], "storm": {"outage": [1]}}),
        ("storm", {"page": "p", "sides": [], "storm": {"slow": [1, 2, "3"]}}),
        ("storm", {"page": "p", "sides": [], "storm": {"rates": [1, 2]}}),
        ("storm", {"page": "p", "sides": [], "storm": {"rates": [[1, 2, 3], [1, 2]]}}),
        ("storm", {"page": "p", "sides": [], "storm": {}, "kept": "/etc/passwd"}),
        ("sweep", {"page": "p", "sides": [], "storm": {}, "along": "rate", "kept": "/etc/passwd"}),
        ("part", {"page": "p", "kept": "/etc/passwd"}),
        ("part", {"page": "p", "seconds": 0}),
        ("part", {"page": "p", "seconds": "5"}),
        ("part", {"page": "p", "replicas": 5}),
        ("part", {"page": 5}),
        ("storm", {"page": "p", "sides": [], "storm": {"beside": 30}}),
        ("storm", {"page": "p", "sides": [], "storm": {"beside": [30]}}),
        ("storm", {"page": "p", "sides": [], "storm": {"beside": ["30", ""]}}),
        ("storm", {"page": "p", "sides": [], "storm": {"beside": [30, 5]}}),
    ],
    ids=str,
)
def test_what_the_page_never_asks_is_refused(lab: Lab, name: str, asked: Any) -> None:
    assert post(lab, name, asked).status == 400


# What it answers


def test_the_page_has_its_parts_from_here_alone(lab: Lab) -> None:
    texts = [ask(lab, "GET", f"/{lab.token}/{name}") for name in ("", "lab.css", "lab.js")]
    kinds = [answer.headers["Content-Type"] for answer in texts]
    assert kinds == ["text/html; charset=utf-8", "text/css; charset=utf-8", "text/javascript; charset=utf-8"]
    for answer in texts:
        assert answer.status == 200 and not re.search(r"https?://|//\w+\.|@import|url\(", answer.text)
        policy = answer.headers["Content-Security-Policy"]
        assert policy.startswith("default-src 'none'; script-src 'self'; style-src 'self'; connect-src 'self'")
        assert "frame-ancestors 'none'" in policy and "unsafe" not in policy
        assert answer.headers["Cache-Control"] == "no-store" and answer.headers["X-Content-Type-Options"] == "nosniff"
        assert "Access-Control-Allow-Origin" not in answer.headers


def test_it_begins_with_the_stories_and_the_cookbook(lab: Lab) -> None:
    told = post(lab, "start", {}).json()
    assert told["cookbook"] == [list(entry) for entry in COOKBOOK]
    assert list(told["stories"]) == ["quota", "retries", "jitter", "back-off", "deadline", "beside"]
    assert told["stories"]["jitter"]["storm"]["outage"] == [0, 0]
    assert told["stories"]["retries"]["storm"]["slow"] == [10_000, 20_000, 50]
    quota: Dict[str, Any] = {"text": FULL, "limit": "10/10%/1s"}
    none = {"text": FULL, "limit": "", "limited": False}
    assert told["stories"]["quota"]["sides"] == [none, {**quota, "limited": False}]
    assert told["stories"]["beside"]["sides"] == [{**quota, "limited": True}, {**quota, "limited": False}]
    assert [told["stories"][name]["storm"]["beside"] for name in ("quota", "beside")] == [[0, ""], [30, ""]]
    assert told["ranges"]["rate"] == [1, 1_000_000]
    assert list(told["along"]) == ["rate", "capacity", "outage", "patience", "queue", "share"]


def test_the_cookbook_has_the_policies_of_the_pages() -> None:
    here = {Policy.parse(spelt) for _, spelt in COOKBOOK}
    page = (TOP / "docs" / "COOKBOOK.md").read_text()
    plans = {Policy.from_file(file) for file in (TOP / "plans").glob("*.json") if f"plans/{file.name}" in page}
    assert plans <= here
    titles = re.findall(r"^##+ (.*)$", page, flags=re.M)
    for title, spelt in COOKBOOK:
        assert repr(Policy.parse(spelt)) == spelt
    assert [title for title, _ in COOKBOOK if title in titles]


def test_a_plan_is_shown_or_its_fault_marked(lab: Lab) -> None:
    told = post(lab, "plan", {"text": FULL, "limit": "10/10%/1s", "width": 500}).json()
    assert "fault" not in told
    assert told["picture"].startswith("<svg ") and 'width="500"' in told["picture"] and "<style" not in told["picture"]
    assert told["limit_fault"] is None
    told = post(lab, "plan", {"text": "recurs(3) & spced(1)", "limit": "x"}).json()
    assert told["fault"] == {
        "begins": 12,
        "ends": 20,
        "said": "not a plan",
        "hint": "no builder is called 'spced'; did you mean 'spaced'?",
    }
    assert told["limit_fault"] == (
        "expected N, RESERVE/SHARE%/PERIOD or a limit, such as 10/10%/1s or grpc:100/100, got 'x'"
    )


def test_storms_are_shown_side_by_side(lab: Lab) -> None:
    told = post(lab, "storm", storm_of((FULL, ""), (FULL, "10/10%/1s"), ("recurs(", ""), ("recurs(0)", "x"))).json()
    first, second, *none = told["sides"]
    assert none == [None, None]
    (group,) = told["totals"]
    assert group["head"] == "" and group["rows"] == [
        ["succeeded", "18.4 %", "83.3 %", None, None],
        ["recovery", "not back by the end", "back at 20 s", None, None],
        ["calls per request", "7.62", "1.02", None, None],
        ["calls", "365,567", "48,900", None, None],
        ["most in a window", "8,476 calls", "892 calls", None, None],
        ["this window begins at", "22 s", "11 s", None, None],
        ["requests", "48,000", "48,000", None, None],
        ["won", "8,832", "40,003", None, None],
        ["lost", "39,168", "0", None, None],
        ["denied a retry", "0", "7,997", None, None],
        ["left open", "0", "0", None, None],
        ["tickets for retries", None, "900", None, None],
        ["half won within", "1 ms", "1 ms", None, None],
        ["99 in 100 won within", "18.628 s", "1 ms", None, None],
        ["slowest won after", "22.283 s", "97 ms", None, None],
    ]
    assert first["brief"] == "18.4 % of 48,000 requests succeeded, not back by the end; 7.62 calls for each"
    assert second["brief"] == "83.3 % of 48,000 requests succeeded, back at 20 s; 1.02 calls for each"
    assert all(f">{words}<" in told["picture"] for words in ("A: no limit", "B: quota 10/10%/1s", "18.4 % succeeded"))
    assert ">calls begun<" in told["picture"]
    assert first["json"] == Policy.parse(FULL).to_json()
    cut = post(lab, "storm", {**storm_of(("recurs(0)", "")), "storm": {"calls": 30_000, "outage": [0, 5000]}}).json()
    assert cut["sides"][0]["brief"] == (
        "86.7 % of 30,000 requests succeeded until the storm was cut, back at 5 s; 1.00 calls for each"
    )
    assert cut["totals"][0]["rows"][-1] == ["cut before the call after", "30,000"]
    brief = post(lab, "storm", {**storm_of((FULL, ""), (FULL, "5")), "is_brief": True}).json()
    assert ">calls begun<" not in brief["picture"] and ">B: budget of 5<" in brief["picture"]
    none = post(lab, "storm", storm_of(("", ""), ("", ""))).json()
    assert (none["sides"], none["picture"], none["scenario"]) == ([None, None], "", "")


@pytest.mark.parametrize(
    "storm, bounds",
    [
        # 2^20 requests at most, and 65,537 windows
        ({}, {"rate": [1, 17_476], "seconds": [1, 1310], "window": [2, 3_600_000], "capacity": [1, 1_000_000]}),
        ({"seconds": 600}, {"rate": [1, 1747], "window": [11, 3_600_000]}),
        ({"replicas": 3, "down": 2}, {"replicas": [2, 4], "down": [1, 3]}),
        # of 60 s, 50 have 800 a second, and 10 so many as are left of them
        ({"rates": [0, 10_000, 5000]}, {"rates2": [0, (2**20 - 40_000) // 10]}),
    ],
)
def test_sliders_are_told_how_far_the_storm_is_played(lab: Lab, storm: Any, bounds: Any) -> None:
    told = post(lab, "storm", {**storm_of(("recurs(0)", "")), "storm": storm}).json()["bounds"]
    assert {name: told[name] for name in bounds} == bounds
    for name, ends in bounds.items():
        for end in ends:
            changed: Any = {"rates": [0, 10_000, end]} if name == "rates2" else {name: end, "calls": 1}
            again = {**storm_of(("recurs(0)", "")), "storm": {**storm, **changed}}
            assert "fault" not in post(lab, "storm", again).json()


def test_what_is_told_of_a_storm_that_takes_long(monkeypatch: Any) -> None:
    monkeypatch.setattr(shares, "_TICK", 0.001)
    wanted = [(Policy.parse(FULL), Parameters(rate=4000, capacity=2000)), (recurs(0), Parameters(rate=17_000))]
    told: List[float] = []
    played = shares.play_telling(wanted, told.append)
    assert [each.totals for each in played] == [play(*each).totals for each in wanted]
    assert told == sorted(told) and 0 < told[0] < 0.5 < told[-1] < 1
    # nothing is told of a small one, which is played at once, and of one whose part is not over soon
    told.clear()
    for how in (Parameters(), Parameters(rate=17_000, calls=5000)):
        assert len(shares.play_telling([(recurs(0), how)], told.append)) == 1 and not told


def test_clients_beside_have_the_policy_of_their_side_or_one_of_their_own(lab: Lab) -> None:
    sides = [("recurs(3)", "5", True), ("recurs(2)", "5", False)]
    brief: Any = {"seconds": 5, "outage": [1000, 2000], "rate": 100, "capacity": 120}
    by_seconds: Any = {**brief, "outage": (1, 2)}
    asked: Any = {"page": "p", "width": 800, "sides": []}
    asked["sides"] = [{"text": text, "limit": limit, "limited": limited} for text, limit, limited in sides]
    told = post(lab, "storm", {**asked, "storm": {**brief, "beside": [30, ""]}}).json()
    known = [
        storm(
            Policy.parse(text),
            limit=int(limit),
            beside=[Population(0.3, Policy.parse(text), limited=limited)],
            **by_seconds,
        )
        for text, limit, limited in sides
    ]
    own, beside = told["totals"][1:]
    assert (own["head"], beside["head"]) == (
        "Own clients, 70 % of the requests",
        "Clients beside, 30 % of the requests",
    )
    for index, (group, limited) in enumerate(((own, ["yes", "yes"]), (beside, ["yes", "no"]))):
        assert group["rows"][0] == ["limited", *limited]
        for number, each in enumerate(known, 1):
            (succeeded, recovery, calls, requests, won) = (row[number] for row in group["rows"][1:])
            # (the sentence of the population, which a command prints, has the same)
            said = f"{won} of {requests} won ({succeeded}), {calls} calls for each, {recovery}"
            assert population_sentences(each)[index].endswith(f": {said}")
    for side, each in zip(told["sides"], known):
        assert side["command"] == in_command(each.policy, each.parameters)
        assert side["python"] == in_python(each.policy, each.parameters)
        assert side["rust"] == in_rust(each.policy, each.parameters)
    assert told["scenario"] == in_scenario(known)
    names = [
        "own, 70 %, limited: recurs(3)",
        "beside, 30 %, limited: recurs(3)",
        "beside, 30 %, not limited: recurs(2)",
    ]
    assert all(f">{words}<" in told["picture"] for words in names)
    same = [{**side, "text": "recurs(3)"} for side in asked["sides"]]
    picture = post(lab, "storm", {**asked, "sides": same, "storm": {**brief, "beside": [30, ""]}}).json()["picture"]
    assert ">A: beside 30 %, limited<" in picture and ">B: beside 30 %, not limited<" in picture
    told = post(lab, "storm", {**asked, "storm": {**brief, "beside": [30, "recurs(1)"]}}).json()
    assert all(
        "'30=recurs(1)'" in side["command"] or "'30+limited=recurs(1)'" in side["command"] for side in told["sides"]
    )
    assert json.loads(told["scenario"])["lines"][1]["beside"][0]["policy"] == {"recurs": 1}
    assert (
        "beside" not in post(lab, "storm", {**asked, "storm": {**brief, "beside": [0, "recurs(1)"]}}).json()["scenario"]
    )
    for beside, said in [
        ([100, ""], "expected a share from 1 to 99 % of the requests, got 100"),
        ([30, "recurs(1) & spced(1)"], "not a plan: no builder is called 'spced'; did you mean 'spaced'?"),
    ]:
        fault = post(lab, "storm", {**asked, "storm": {**brief, "beside": beside}}).json()["fault"]
        assert fault == {"name": "beside", "said": said}
    swept = post(lab, "sweep", {**asked, "along": "rate", "storm": {**brief, "beside": [30, ""]}}).json()
    assert swept["said"] == "" and ">A<" in swept["picture"]


def test_a_sweep_is_of_the_sides_that_are_there(lab: Lab) -> None:
    brief: Any = {"seconds": 1, "rate": 100, "capacity": 50}
    asked = storm_of(("recurs(", ""), ("recurs(1)", "5/10%/1s"), **brief)
    for name, ends in [("rate", (">50<", ">200<")), ("capacity", (">20<", ">100<")), ("share", (">0<", ">40<"))]:
        told = post(lab, "sweep", {**asked, "along": name}).json()
        assert told["said"] == "" and ">B<" in told["picture"] and ">A<" not in told["picture"]
        assert all(end in told["picture"] for end in ends), name
    told = post(lab, "sweep", {**storm_of(("recurs(1)", "5"), **brief), "along": "share"}).json()
    assert told == {"fault": {"name": "sweep", "said": "share: expected a storm with a limit that has it, got none"}}
    told = post(lab, "sweep", {**storm_of(("recurs(1)", ""), seconds=1, outage=[5, 5]), "along": "outage"}).json()
    assert told == {"picture": "", "said": "There is nothing to play along length of the outage, in seconds."}
    # 1,048,576 requests are the most of a storm, so no rate is played above 17,476.
    told = post(lab, "sweep", {**storm_of(("recurs(0)", ""), seconds=60, rate=12_000), "along": "rate"}).json()
    assert told["said"] == "" and ">5,000<" in told["picture"] and ">15,000<" in told["picture"]
    assert ">20,000<" not in told["picture"]
    told = post(lab, "sweep", {**storm_of(("recurs(0)", ""), seconds=60, rate=20_000), "along": "capacity"}).json()
    assert told["fault"]["name"] == "rate" and "1048576" in told["fault"]["said"]
    for wrong in ({**asked, "along": "words"}, {**asked, "along": 5}, asked):
        assert post(lab, "sweep", wrong).status == 400
    assert post(lab, "storm", {**asked, "along": "rate"}).status == 400


def test_a_parameter_out_of_range_is_named(lab: Lab) -> None:
    told = post(lab, "storm", storm_of((FULL, ""), rate=0)).json()
    assert told == {"fault": {"name": "rate", "said": "expected 1 to 1000000, got 0"}}
    told = post(lab, "storm", storm_of((FULL, ""), outage=[5, 3])).json()
    assert told["fault"] == {"name": "outage", "said": "it ends at 3 ms, before it begins at 5 ms"}


# A log


#: 29 November 2026, 17:30:00 UTC, by `date -u -d '2026-11-29 17:30:00' +%s`.
EVENING = 1_795_973_400


def post_log(lab: Lab, body: bytes, page: str = "p", **told: Any) -> Answer:
    said = urlencode({"page": page, "width": 400, **told})
    return ask(lab, "POST", f"/{lab.token}/log?{said}", body, Content_Type="application/octet-stream")


def uploads(lab: Lab) -> List[str]:
    """What the lab has of logs."""
    return sorted(os.listdir(lab.uploads._folder.name))


def rows_of(*counts: int) -> bytes:
    """A log with so many requests in each second."""
    return b"".join(b"%d,x\n" % (EVENING + second) * count for second, count in enumerate(counts))


def test_the_requests_of_a_log_are_played(lab: Lab) -> None:
    # 30 s of 10 a second, then 10 s of 40 and 20 s of 10 again; the fastest pace is the storm's rate
    body = rows_of(*[10] * 30, *[40] * 10, *[10] * 20) + b"spoilt\n\n"
    told = post_log(lab, body).json()
    assert told["storm"] == {
        "rate": 40,
        "rates": [[0, 30_000, 10], [40_000, 60_000, 10]],
        "together": 1,
        "seconds": 60,
    }
    assert told["lines"] == [
        "CSV without names: took 900 lines, skipped 2 (1 empty, 1 no time)",
        "From 2026-11-29 17:30:00 UTC on, 60 s; the busiest second is 2026-11-29 17:30:30, with 40 requests",
        "Played: 60 s from 2026-11-29 17:30:00 UTC on, as 3 spans with an even pace in each: 900 requests (the log has "
        "900), at most 40 in a second",
    ]
    assert 'width="400"' in told["picture"] and ">seconds since 2026-11-29 17:30:00 UTC<" in told["picture"]
    assert ">requests of the log<" in told["picture"] and ">40<" in told["picture"] and "<style" not in told["picture"]
    # the page asks for it with the spans of the log
    given: Any = {**told["storm"], "outage": [0, 0]}
    played = post(lab, "storm", storm_of(("recurs(0)", ""), **given)).json()
    assert ["requests", "900"] in played["totals"][0]["rows"]
    assert "--rates 0..30000@10,40000..60000@10" in played["sides"][0]["command"]
    assert "rates2" not in played["bounds"] and played["bounds"]["rate"][0] == 1
    # its busiest 10 s, by what was kept of it
    part = post(lab, "part", {"page": "p", "seconds": 10, "width": 400}).json()
    assert part["storm"] == {"rate": 40, "rates": [], "together": 1, "seconds": 10}
    assert part["lines"][:2] == told["lines"][:2]
    assert part["lines"][2].startswith("Played: 10 s from 2026-11-29 17:30:30 UTC on, as 1 span")
    assert post(lab, "part", {"page": "other", "seconds": 10}).json() == {
        "fault": {"name": "log", "said": "the lab has it no more: choose it again"}
    }


def test_what_a_log_lets_assume_is_shared_by_the_replicas(lab: Lab) -> None:
    lines = [f'{{"time":{EVENING + at // 9},"status":200,"latency_ms":{at}}}\n' for at in range(18)]
    told = post_log(lab, "".join(lines).encode(), replicas=2).json()
    assert (told["storm"]["capacity"], told["storm"]["patience"]) == (5, 17)
    assert told["lines"][2:3] + told["lines"][4:] == [
        "Half took at most 8 ms, 99 in 100 at most 17 ms, the slowest 17 ms",
        "Assumed: patience 17 ms (the slowest answer)",
        "Assumed: capacity 5 calls a second (the most that was answered in a second; the peer may be able to do more)",
    ]


WANTED = "expected lines of an access log (nginx's or Apache's, JSON lines, or CSV), got "


@pytest.mark.parametrize(
    "body, said",
    [
        (b"", f"{WANTED}no line"),
        (b"no log\n" * 5000, f"{WANTED}1000 lines of no known format"),
        (b"x" * 3_000_000, f"{WANTED}lines that are none: 1 longer than 65536 bytes"),
        (b"\n" * 300_000, f"{WANTED}lines that are none: 300000 empty"),
        (gzip.compress(b"5,x\n")[:-3], "expected whole gzip data: it ends too soon"),
    ],
    ids=["empty", "other", "endless", "newlines", "cut"],
)
def test_a_file_that_is_no_log_is_refused_and_the_one_before_is_kept(lab: Lab, body: bytes, said: str) -> None:
    assert post_log(lab, rows_of(3, 4), "kept").status == 200
    assert post_log(lab, body, "kept").json() == {"fault": {"name": "log", "said": said}}
    part = post(lab, "part", {"page": "kept", "seconds": None}).json()
    assert part["lines"][0] == "CSV without names: took 7 lines, skipped 0"
    assert all(name.endswith(".kept") for name in uploads(lab))


def answered(folder: Path, body: Optional[bytes] = None, **given: Any) -> Any:
    """What is answered to a log, or to one that was kept, by this process."""
    asked: Any = {"kept": str(folder / "kept"), "seconds": None, "replicas": 1, "width": 400, **given}
    if body is not None:
        (folder / "log").write_bytes(body)
        asked.update(log=str(folder / "log"), size=len(body))
    return logs.log_answer(asked, lambda share: None)


def test_little_that_expands_to_much_is_refused(tmp_path: Path, monkeypatch: Any) -> None:
    body = gzip.compress(rows_of(40_000))
    whole = len(gzip.decompress(body))
    assert len(body) < whole // 100
    monkeypatch.setattr(logs, "_MAX_EXPANDED", whole)
    assert answered(tmp_path, body)["storm"]["rate"] == 40_000
    monkeypatch.setattr(logs, "_MAX_EXPANDED", whole - 1)
    said = f"expected at most {whole - 1} bytes when it is expanded: hikebox storm --log takes larger ones"
    assert answered(tmp_path, body) == {"fault": {"name": "log", "said": said}}


def test_a_log_that_no_storm_plays_is_refused(tmp_path: Path) -> None:
    counts = {EVENING: 1_000_001}
    found = Traffic("", Counter(counts), Counter(counts), Counter(), Counter(), Counter())
    (tmp_path / "kept").write_bytes(pickle.dumps(tuple(found)))
    said = "rate: expected 1 to 1000000, got 1000001"
    assert answered(tmp_path) == {"fault": {"name": "log", "said": said}}


def test_the_share_of_a_log_that_is_read_is_told(tmp_path: Path, monkeypatch: Any) -> None:
    monkeypatch.setattr(logs, "_TICK", 0)
    (tmp_path / "log").write_bytes(rows_of(300_000))
    told: List[float] = []
    size = (tmp_path / "log").stat().st_size
    asked: Any = {"log": str(tmp_path / "log"), "size": size, "kept": str(tmp_path / "kept")}
    logs.log_answer({**asked, "seconds": None, "replicas": 1, "width": 400}, told.append)
    assert told == sorted(told) and 0 < told[0] < 0.5 and told[-1] == 0.99


def test_a_log_that_is_too_large_or_of_another_kind_is_refused(lab: Lab) -> None:
    path = f"/{lab.token}/log?page=p"
    kind: Any = {"Content_Type": "application/octet-stream"}
    with contextlib.suppress(ConnectionError):
        answer = ask(lab, "POST", path, b"x", Content_Length=str((256 << 20) + 1), **kind)
        assert (answer.status, answer.text) == (400, "expected a log of at most 268435456 bytes\n")
    assert ask(lab, "POST", path, b"{}").status == 400
    assert ask(lab, "POST", path, rows_of(1), Content_Length="9" * 5000, **kind).status == 400
    for wrong in (
        "",
        "?page=" + "x" * 65,
        "?page=p&seconds=0",
        "?page=p&seconds=x",
        "?page=p&width=wide",
        "?page=p&kept=x",
    ):
        assert ask(lab, "POST", f"/{lab.token}/log{wrong}", rows_of(1), **kind).status == 400, wrong


def test_a_log_that_ends_too_soon_leaves_nothing(lab: Lab) -> None:
    before = uploads(lab)
    with socket.create_connection(("127.0.0.1", lab.port)) as wire:
        head = f"POST /{lab.token}/log?page=short HTTP/1.1\r\nHost: 127.0.0.1:{lab.port}\r\n"
        wire.sendall(f"{head}Content-Type: application/octet-stream\r\nContent-Length: 999\r\n\r\nx".encode())
        comes_to(lambda: uploads(lab) != before)
    comes_to(lambda: uploads(lab) == before)
    assert post_log(lab, rows_of(1)).status == 200


def test_the_next_log_of_a_page_breaks_the_one_before_off(lab: Lab) -> None:
    long = gzip.compress(b"\n" * (64 << 20)) * 15

    def is_broken_off() -> bool:
        broken: List[Answer] = []
        thread = threading.Thread(target=lambda: broken.append(post_log(lab, long, "again")))
        thread.start()
        comes_to(lambda: bool(lab.players._busy) and bool(children()) or bool(broken))
        assert post_log(lab, rows_of(1, 2), "again").json()["storm"]["seconds"] == 2
        thread.join(_PATIENCE)
        return broken[0].status == 409

    # (a machine that holds the test up may have read the log before the next one comes)
    assert any(is_broken_off() for _ in range(5)), "a log is read to its end"


PROGRAMS: List[Tuple[str, Parameters]] = [
    (FULL, Parameters()),
    ("forever()", Parameters(seconds=1, calls=500, words=7, outage=Span(0, 0), until=1500)),
    ("recurs(3)", SCENARIOS["herd"]._replace(tickets=100)),
    (
        'unfold(1, 2, 3).gather("max").and_then(milliseconds_free) | fixed(1)'.replace(
            "milliseconds_free", "from_duration(0.25)"
        ),
        Parameters(seconds=2),
    ),
    ("recurs(3)", SCENARIOS["brown-out"]._replace(tickets=Terms(10, 100, 1000), patience=250, window=500, rate=400)),
    ("recurs(1) & spaced(milliseconds(4611686018427387903))", Parameters(seconds=1, slow=Slow(1, 2, 29))),
    ("recurs(2)", Parameters(seconds=2, rates=(RateSpan(500, 1000, 2400), RateSpan(1000, 1250, 0)))),
]


@pytest.mark.parametrize("spelt, parameters", PROGRAMS, ids=[spelt for spelt, _ in PROGRAMS])
def test_the_program_in_python_plays_the_storm_of_the_page(spelt: str, parameters: Parameters) -> None:
    from hikebox.storms.storm import play

    policy = Policy.parse(spelt)
    told = io.StringIO()
    with contextlib.redirect_stdout(told):
        exec(in_python(policy, parameters), {})
    assert told.getvalue() == f"{play(policy, parameters)}\n"


@pytest.mark.parametrize("spelt, parameters", PROGRAMS, ids=[spelt for spelt, _ in PROGRAMS])
def test_the_command_and_the_scenario_play_the_storm_of_the_page(
    spelt: str, parameters: Parameters, tmp_path: Path, capsys: pytest.CaptureFixture[str]
) -> None:
    from hikebox.cli.main import main
    from hikebox.storms.storm import play

    played = play(Policy.parse(spelt), parameters)
    words = shlex.split(in_command(played.policy, parameters))
    status = 6 if played.totals.cut else 0
    assert words[:2] == ["hikebox", "storm"] and main([*words[1:], "--json"]) == status
    assert capsys.readouterr().out == f"{played.to_json()}\n"
    file = tmp_path / "scenario.json"
    file.write_text(in_scenario([played]))
    assert main(["storm", "--scenario", str(file), "--json"]) == status
    assert capsys.readouterr().out == f"{played.to_json()}\n"


# How long it works


def test_ten_storms_of_a_million_requests_at_once_leave_it_answering(lab: Lab) -> None:
    asked = storm_of(("recurs(3) & spaced(1)", ""), rate=17_000, capacity=1)

    def answers_meanwhile() -> bool:
        answers: List[Answer] = []

        def wait(number: int) -> None:
            answers.append(post(lab, "storm", {**asked, "page": f"page {number}"}))

        threads = [threading.Thread(target=wait, args=(number,)) for number in range(10)]
        for thread in threads:
            thread.start()
        for _ in range(3):
            assert post(lab, "plan", {"text": "recurs(1)"}).status == 200
            assert ask(lab, "GET", f"/{lab.token}/").status == 200
        meanwhile = len(answers) < 10
        for thread in threads:
            thread.join()
        assert [answer.status for answer in answers] == [200] * 10
        requests = [row for row in answers[0].json()["totals"][0]["rows"] if row[0] == "requests"]
        assert requests == [["requests", "1,020,000"]]
        assert all(requests[0] in answer.json()["totals"][0]["rows"] for answer in answers)
        return meanwhile

    # (a machine that holds the test up may have played the storms before it asks)
    assert any(answers_meanwhile() for _ in range(5)), "it answers once the storms are played"


def test_the_next_storm_of_a_page_breaks_the_one_before_off(lab: Lab) -> None:
    broken: List[Answer] = []
    thread = threading.Thread(
        target=lambda: broken.append(post(lab, "storm", {"page": "q", "sides": [LONG_SIDE], "storm": LONG}))
    )
    thread.start()
    comes_to(lambda: "storm q" in lab._latest and bool(lab.players._busy))
    assert post(lab, "storm", storm_of(("recurs(0)", ""), page="q", seconds=1)).status == 200
    # (by itself it would be played for an hour)
    thread.join(_PATIENCE)
    assert (broken[0].status, broken[0].text) == (409, "the storm was broken off\n")


def test_a_storm_that_is_handled_late_breaks_no_later_one_off(lab: Lab) -> None:
    is_second, is_first = lab.newest("storm late", 2), lab.newest("storm late", 1)
    assert (is_first(), is_second()) == (False, True)
    brief = storm_of(("recurs(0)", ""), page="late", seconds=1)
    late = post(lab, "storm", {**brief, "turn": 1})
    assert (late.status, late.text) == (409, "the storm was broken off\n")
    assert is_second()
    # (a page that does not count its turns has them in the order in which they come)
    is_third = lab.newest("storm late")
    assert (is_second(), is_third()) == (False, True)
    assert post(lab, "storm", {**brief, "turn": 4}).status == 200
    assert not is_third()


def comes_to(happens: Callable[[], bool]) -> None:
    """Waits until something happens."""
    deadline = time.monotonic() + _PATIENCE
    while not happens() and time.monotonic() < deadline:
        time.sleep(0.05)
    assert happens()


def children() -> List[int]:
    """The processes that this one has started and of which a thread is at work."""
    found = []
    for told in processes_of(os.getpid()):
        number = int(told.split()[0])
        with contextlib.suppress(OSError):
            states = [
                (task / "stat").read_text().rpartition(")")[2].split()[0]
                for task in Path(f"/proc/{number}/task").iterdir()
            ]
            if "R" in states:
                found.append(number)
    return found


def processes_of(parent: int) -> List[str]:
    """What the system tells of each process that this one started."""
    found = []
    for folder in Path("/proc").glob("[0-9]*"):
        with contextlib.suppress(OSError):
            told = (folder / "stat").read_text()
            if int(told.rpartition(")")[2].split()[1]) == parent:
                found.append(told)
    return found


def test_a_closed_connection_ends_the_work(lab: Lab) -> None:
    body = json.dumps({"page": "gone", "sides": [LONG_SIDE], "storm": LONG}).encode()
    with socket.create_connection(("127.0.0.1", lab.port)) as wire:
        head = f"POST /{lab.token}/storm HTTP/1.1\r\nHost: 127.0.0.1:{lab.port}\r\nContent-Type: application/json\r\n"
        wire.sendall(f"{head}Content-Length: {len(body)}\r\n\r\n".encode() + body)
        comes_to(lambda: bool(lab.players._busy) and bool(children()))
    comes_to(lambda: not children())


def test_players_are_used_again_and_ended() -> None:
    players = Players(1)
    asked = storm_of(("recurs(0)", ""), seconds=1)
    before = {told.split()[0] for told in processes_of(os.getpid())}
    first = players.play(asked, lambda: True)
    begun = {told.split()[0] for told in processes_of(os.getpid())} - before
    assert players.play(asked, lambda: True) == first
    assert len(begun) == 1 and begun == {told.split()[0] for told in processes_of(os.getpid())} - before
    with pytest.raises(BrokenOff):
        players.play({"sides": [LONG_SIDE], "storm": LONG}, lambda: False)
    assert players.play(asked, lambda: True) == first
    players.close()
    with pytest.raises(BrokenOff):
        players.play(asked, lambda: True)


def test_players_are_over_once_they_are_closed_though_who_asked_is_held_up() -> None:
    players, is_asked, may_go_on = Players(1), threading.Event(), threading.Event()

    def is_wanted() -> bool:
        is_asked.set()
        return may_go_on.wait(_PATIENCE)

    def plays() -> None:
        with pytest.raises(BrokenOff):
            players.play({"sides": [LONG_SIDE], "storm": LONG}, is_wanted)

    thread = threading.Thread(target=plays)
    thread.start()
    try:
        assert is_asked.wait(_PATIENCE)
        (player,) = players._busy
        players.close()
        assert not Path(f"/proc/{player.process.pid}").exists()
    finally:
        may_go_on.set()
        thread.join()
    assert not players._busy


# The program


def start(*words: str, memory: int = resource.RLIM_INFINITY, **how: Any) -> "subprocess.Popen[str]":
    """The program, with so much memory for each of its processes."""

    def prepare() -> None:
        heed_signals()
        resource.setrlimit(resource.RLIMIT_AS, (memory, memory))

    command = [sys.executable, "-c", "import sys; from hikebox_program import main; sys.exit(main())", "lab", *words]
    given: Any = {"preexec_fn": prepare, "env": {**python_environment(), **how}}
    return subprocess.Popen(command, stdout=subprocess.PIPE, stderr=subprocess.PIPE, text=True, **given)


def connected(process: "subprocess.Popen[str]") -> Tuple[http.client.HTTPConnection, str]:
    """A connection to it, and the path of its page."""
    assert process.stdout is not None
    address = process.stdout.readline()[len("hikebox lab: ") :].split(" ")[0]
    found = re.fullmatch(r"http://127\.0\.0\.1:(\d+)(/[\w-]+/)", address)
    assert found is not None
    return http.client.HTTPConnection("127.0.0.1", int(found[1]), timeout=_PATIENCE), found[2]


@pytest.mark.parametrize("number", [signal.SIGINT, signal.SIGTERM])
def test_a_signal_ends_it_with_all_that_it_started(number: signal.Signals) -> None:
    process = start("--no-browser")
    connection, path = connected(process)
    body = json.dumps({"page": "p", "sides": [LONG_SIDE], "storm": LONG})
    connection.request("POST", f"{path}storm", body, {"Content-Type": "application/json"})
    comes_to(lambda: bool(processes_of(process.pid)))
    group = [int(found.split()[0]) for found in processes_of(process.pid)]
    process.send_signal(number)
    assert (*process.communicate(timeout=_PATIENCE), process.returncode) == ("", "", 0)
    assert not [each for each in group if Path(f"/proc/{each}").exists()]
    connection.close()


def test_a_storm_too_large_for_the_memory_is_told() -> None:
    process = start("--no-browser", memory=200 << 20)
    connection, path = connected(process)
    # (a million requests that wait for their second call)
    asked = storm_of(("recurs(3) & spaced(30).jittered()", ""), rate=17_000, capacity=1, queue=0)
    for given, wanted in [(asked, "there is no memory for a storm of this size"), (storm_of(("recurs(0)", "")), None)]:
        connection.request("POST", f"{path}storm", json.dumps(given), {"Content-Type": "application/json"})
        answer = json.load(connection.getresponse())
        assert answer.get("fault", {}).get("said") == wanted
    connection.close()
    process.send_signal(signal.SIGINT)
    assert (*process.communicate(timeout=_PATIENCE), process.returncode) == ("", "", 0)


def test_a_reader_that_goes_away_does_not_end_it() -> None:
    process = start("--no-browser")
    connection, path = connected(process)
    for _ in range(20):
        with socket.create_connection((connection.host, connection.port)) as wire:
            wire.sendall(f"GET {path}lab.js HTTP/1.1\r\nHost: 127.0.0.1:{connection.port}\r\n\r\n".encode())
            wire.setsockopt(socket.SOL_SOCKET, socket.SO_LINGER, b"\1\0\0\0\0\0\0\0")
    connection.request("GET", path)
    assert connection.getresponse().status == 200
    connection.close()
    process.send_signal(signal.SIGINT)
    assert (*process.communicate(timeout=_PATIENCE), process.returncode) == ("", "", 0)


def test_the_browser_is_opened_and_no_command_line_has_the_secret(tmp_path: Path) -> None:
    browser = tmp_path / "browser"
    seen = f"tr '\\0' ' ' < /proc/$$/cmdline > {tmp_path}/opened.new; mv {tmp_path}/opened.new {tmp_path}/opened"
    browser.write_text(f"#!/bin/sh\n{seen}\n")
    browser.chmod(0o755)
    process = start('http://127.0.0.1:9/old/#story=jitter&a=recurs%283%29 `x`"<', BROWSER=f"{browser} %s")
    assert process.stdout is not None
    address = process.stdout.readline()[len("hikebox lab: ") :].split(" (")[0]
    assert address.endswith("/#story=jitter&a=recurs%283%29%20%60x%60%22%3C")
    comes_to((tmp_path / "opened").exists)
    command = (tmp_path / "opened").read_text()
    token = address.split("/")[3]
    assert token not in command
    # It is led to the page by a file in a folder that nobody else can enter.
    found = re.search(r"file://(\S+)", command)
    assert found is not None
    door = Path(found[1])
    assert door.parent.stat().st_mode & 0o777 == 0o700
    assert f'content="0; url={address.replace("&", "&amp;")}"' in door.read_text()
    process.send_signal(signal.SIGINT)
    process.communicate(timeout=_PATIENCE)
    assert not door.parent.exists()


def test_a_port_that_is_taken_is_told() -> None:
    with socket.socket() as taken:
        taken.bind(("127.0.0.1", 0))
        taken.listen()
        port = taken.getsockname()[1]
        process = start("--no-browser", "--port", str(port))
        told = process.communicate(timeout=_PATIENCE)
    assert (process.returncode, *told) == (4, "", f"hikebox: lab: port {port}: Address already in use\n")
    process = start("--no-browser", "--port", "65536")
    assert process.communicate(timeout=_PATIENCE)[1].splitlines()[-1] == (
        "hikebox lab: error: argument --port: expected a number from 0 to 65535, got '65536'"
    )
    assert process.returncode == 2


def test_a_link_that_is_none_is_told() -> None:
    process = start("--no-browser", "story=jitter")
    assert process.communicate(timeout=_PATIENCE)[1].splitlines()[-1] == (
        "hikebox lab: error: argument LINK: expected a link, as http://127.0.0.1:8000/..#story=quota, got "
        "'story=jitter'"
    )
    assert process.returncode == 2


def test_a_quota_of_the_page_is_one_of_the_package() -> None:
    spelt = in_python(recurs(3), Parameters(tickets=Terms(10, 100, 1000)))
    assert "from hikebox import Quota, recurs, storm" in spelt and "limit=Quota(10, 0.1, per=1)" in spelt
    assert storm(recurs(3), limit=Quota(10, 0.1, per=1)).parameters.tickets == Terms(10, 100, 1000)
