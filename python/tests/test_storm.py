"""Storms: what is played, beside tests/storms.py of the repository, which plays them by their rules alone."""

from __future__ import annotations

import importlib
import json
import os
import pickle
import random
import re
import resource
import signal
import subprocess
import sys
import time
from datetime import timedelta
from pathlib import Path
from typing import Any, Dict, List, Tuple

import pytest
from conftest import TOP, heed_signals, python_environment
from limited import NEVER_OPEN

from hikebox import Breaker, Bucket, Budget, InFlight, Policy, Quota, Storm, StormError, Throttle, both, exponential
from hikebox import Pace, PerKey, PolicyError, Population, TermsError, milliseconds, recurs, spaced, storm
from hikebox.cli.storm_options import limits_of, parameters_of, tickets_of
from hikebox.limits.breaker import times_of
from hikebox.storms.code import in_command, in_python, in_rust, in_scenario
from hikebox.limits.spellings import KINDS, LIMIT_WANTED, limit_of
from hikebox.storms.parameters import SCENARIOS, Parameters, RateSpan, Slow, Span
from hikebox.storms.texts import setting, side_by_side
from hikebox.errors import LimitError
from hikebox.budgets.terms import Terms
from hikebox.storms.storm import play
from hikebox.sweeps import sweep

sys.path.insert(0, str(TOP / "tests"))
storms: Any = importlib.import_module("storms")
check_storms: Any = importlib.import_module("check_storms")

FULL = recurs(8) & exponential(0.1, 2).cap(10).jittered(0, 1)


def parsed(options: Dict[str, Any]) -> Dict[str, Any]:
    """The options of the program, as its twin in tests/ takes them."""
    readers: Dict[str, Any] = {
        "rates": storms._rates,
        "outage": storms._span,
        "slow": storms._slow,
        "quota": storms._quota,
        "limit": storms._limit,
    }
    read = {name: readers[name](value) if name in readers else value for name, value in options.items()}
    return {"open_plan" if name == "open" else name: value for name, value in read.items()}


def played(plan: Any, options: Dict[str, Any]) -> Storm:
    """The storm of a plan by the options of the program."""
    told = parsed(options)
    tickets: Any = told.pop("budget", None)
    if "quota" in told:
        tickets = Terms(*told.pop("quota"))
    if "limit" in told:
        del told["limit"]
        open_plan = told.pop("open_plan", {"spaced": 30_000})
        tickets = limit_of(options["limit"], tuple(times_of(Policy.from_dict(open_plan))))
    if "arrivals" in told:
        told["arrivals"] = tuple(told["arrivals"])
    if "rates" in told:
        told["rates"] = tuple(RateSpan(*span) for span in told["rates"])
    if "slow" in told:
        told["slow"] = Slow(*told["slow"])
    if "outage" in told:
        told["outage"] = Span(*told["outage"])
    parameters: Parameters = Parameters(tickets=tickets, **told).checked()
    return play(Policy.from_dict(plan), parameters)


@pytest.mark.parametrize("case", check_storms.WORKED, ids=[case.name for case in check_storms.WORKED])
def test_storms_that_were_worked_out_by_hand(case: Any) -> None:
    got = json.loads(played(case.plan, case.options).to_json())
    assert got["windows"] == case.windows
    assert {name: got["totals"][name] for name in case.totals} == case.totals


@pytest.mark.parametrize("seed", range(60))
def test_random_storms_are_those_of_the_rules(seed: int) -> None:
    plan, options = check_storms.some_storm(random.Random(f"python {seed}"))
    rows, totals = storms.report(storms.Storm(plan, **parsed(options)))
    got = played(plan, options)
    assert got.to_json() + "\n" == storms.json_text(rows, totals)
    assert got.to_csv() == storms.csv_text(rows)


@pytest.mark.parametrize("seed", range(30))
def test_random_storms_by_moments_are_those_of_the_rules(seed: int) -> None:
    rng = random.Random(f"python by moments {seed}")
    plan, options = check_storms.some_storm(rng)
    options = check_storms.some_arrivals(rng, options)
    rows, totals = storms.report(storms.Storm(plan, **parsed(options)))
    got = played(plan, options)
    assert got.to_json() + "\n" == storms.json_text(rows, totals, (), options["arrivals"])
    assert got.to_csv() == storms.csv_text(rows)


def test_requests_at_given_moments() -> None:
    moments: Any = [0, 0.0, timedelta(milliseconds=5), milliseconds(5), 0.1]
    given = storm(recurs(0), arrivals=iter(moments), outage=None)
    # the peer does a call a millisecond: the second of two waits for the first
    assert given.parameters.arrivals == (0, 0, 5, 5, 100)
    assert (given.totals.requests, given.totals.won, given.totals.p50_ms, given.totals.slowest_ms) == (5, 5, 1, 2)
    assert given.parameters.last == 60_100 and given.parameters.requests == 5
    assert setting(given.parameters).startswith("5 requests at given moments until 100 ms on a peer")
    assert json.loads(given.to_json())["arrivals"] == 5
    assert storm(recurs(0), arrivals=[7000]).parameters.last == 7_060_000
    assert storm(recurs(0), arrivals=[7190]).parameters.last == 7_200_000
    halves = storm(recurs(0), arrivals=[0] * 200, outage=None, beside=[Population(0.5, recurs(1))])
    assert [each.totals.requests for each in halves.populations] == [100, 100]


@pytest.mark.parametrize(
    "moments, more, wanted",
    [
        ([], {}, "arrivals: expected 1 to 1048576 moments, got none"),
        ([1, 2, 1], {}, "arrivals[2]: expected 2000 to 7200000 ms, got 1000"),
        ([7201], {}, "arrivals[0]: expected 0 to 7200000 ms, got 7201000"),
        ([0] * 1_048_577, {}, "arrivals: expected at most 1048576 moments, got 1048577"),
        ([1], {"rate": 5}, "arrivals: expected no rate beside it, got 5"),
        ([1], {"together": 2}, "arrivals: expected no together beside it, got 2"),
        ([1], {"seconds": 2}, "arrivals: expected no seconds beside it, got 2"),
    ],
)
def test_moments_that_are_refused(moments: List[Any], more: Dict[str, Any], wanted: str) -> None:
    with pytest.raises(StormError) as caught:
        storm(recurs(0), arrivals=moments, **more)
    assert str(caught.value) == wanted


def test_moments_are_of_their_type() -> None:
    for wrong in ("12", 3, [None]):
        given: Any = wrong
        with pytest.raises(TypeError, match="arrivals"):
            storm(recurs(0), arrivals=given)


def test_no_sweep_of_a_rate_has_moments() -> None:
    given = storm(recurs(0), arrivals=[0, 1], outage=None)
    with pytest.raises(StormError, match="rate: expected requests that come by a rate, got moments of their own"):
        sweep([given], rate=[1, 2])
    assert [each.totals.won for each in sweep([given], capacity=[1, 1000]).lines[0]] == [0, 2]


def test_the_storm_that_never_ends_and_the_one_that_a_quota_ends() -> None:
    quota = Quota(reserve=10, share=0.1, per=1)
    never, ends = storm(FULL), storm(FULL, limit=quota)
    assert (never.totals.calls_per_request, never.totals.recovered_ms) == (7.62, None)
    assert (ends.totals.calls_per_request, ends.totals.recovered_ms) == (1.02, 20_000)
    assert quota.granted == 0 and quota.seen().asked == 0
    totals = ends.totals
    assert totals.requests == 48_000 == totals.won + totals.lost + totals.denied + totals.open
    assert sum(row.retries for row in ends.rows) == totals.calls - totals.requests
    # each window of a second has 800 requests, and so at most 10 + 80 tickets
    assert max(row.retries for row in ends.rows) <= 2 * 90


def test_times_are_those_of_the_package() -> None:
    by_seconds = storm(recurs(1), patience=0.25, outage=(1, 2.5), slow=(2, 3, 0.29), window=0.5, until=4, seconds=3)
    spans: Any = {"outage": (milliseconds(1000), 2.5), "slow": (timedelta(seconds=2), 3, 0.29)}
    by_others = storm(
        recurs(1), patience=milliseconds(250), window=milliseconds(500), until=timedelta(seconds=4), seconds=3, **spans
    )
    assert by_seconds == by_others
    assert by_seconds.parameters == Parameters(
        seconds=3, patience=250, outage=Span(1000, 2500), slow=Slow(2000, 3000, 29), window=500, until=4000
    )
    assert storm(recurs(0), outage=None, seconds=1).totals.won == 800


def test_a_surge_that_never_ends_and_one_that_a_quota_ends() -> None:
    surge: Any = {"outage": None, "rates": [(10, milliseconds(15_000), 2400)]}
    never, ends = storm(FULL, **surge), storm(FULL, limit=Quota(reserve=10, share=0.1, per=1), **surge)
    # (as tests/storms.py plays them)
    assert (never.totals.requests, never.totals.won, never.totals.recovered_ms) == (56_000, 9061, None)
    assert (ends.totals.requests, ends.totals.won, ends.totals.recovered_ms) == (56_000, 12_405, 56_000)
    assert never.parameters.rates == (RateSpan(10_000, 15_000, 2400),)
    assert "Not back by the end" in str(never) and "Back at 56 s" in str(ends)
    assert ">2,400 requests/s 10–15 s<" in never.svg(ends)


def test_a_surge_that_does_no_harm() -> None:
    storms_of = [storm(recurs(0), seconds=3, outage=None, rates=[(1, 2, rate)]) for rate in (900, 700)]
    assert [storm.totals.requests for storm in storms_of] == [2500, 2300]
    assert "Never down" in str(storms_of[0])  # (fewer requests than usual are no surge)
    assert "Never" not in str(storms_of[1]) and "700 a second from 1 s to 2 s" in storms_of[1].svg()


@pytest.mark.parametrize("limit, numbers", check_storms.SMALL_NUMBERS, ids=str)
def test_a_storm_under_each_limit(limit: Dict[str, Any], numbers: Tuple[Any, ...]) -> None:
    totals = json.loads(played(json.loads(FULL.to_json()), {**check_storms.SMALL, **limit}).to_json())["totals"]
    assert tuple(totals[name] for name in check_storms.SMALL_TOTALS) == numbers


def test_a_limit_of_the_package_is_one_on_a_storm() -> None:
    small: Dict[str, Any] = {"rate": 80, "capacity": 100, "queue": 500}
    for limit, spelt in [
        (Bucket.aws(), "aws"),
        (Bucket.grpc(100, 0.1), "grpc:100/100"),
        (InFlight.envoy(), "inflight:3/200"),
        (Breaker(5, spaced(30), probe_deadline=1), "breaker:5/1/1000"),
        (Throttle.google(), "throttle:2000/60000"),
    ]:
        assert storm(FULL, limit=limit, **small).totals == storm(FULL, limit=spelt, **small).totals
    with pytest.raises(TypeError, match="expected one limit on a storm"):
        storm(FULL, limit=both(Bucket.aws(), InFlight.envoy()))
    with pytest.raises(LimitError, match="such as grpc:100/100, got 'grpc:1'"):
        storm(FULL, limit="grpc:1")


@pytest.mark.parametrize(
    "text, told",
    [
        ("bucket:1099511627777/0/0/0/0/0", "CAPACITY: expected 0 to 1099511627776, got 1099511627777"),
        ("bucket:9/0/0/0/0/10+refund", "CREDIT: expected 0 to CAPACITY, got 10"),
        ("grpc:1099511628/0", "TOKENS: expected 1 to 1099511627, got 1099511628"),
        ("grpc:2/2001", "RATIO: expected 0 to 1000*TOKENS, got 2001"),
        ("inflight:3/200/0", "MOST: expected 1 to 4294967295, got 0"),
        ("inflight:4294967296/200", "LEAST: expected 0 to 4294967295, got 4294967296"),
        ("breaker:10/40/1/30000", "RESULTS: expected FAILURES to 32, got 40"),
        ("breaker:10/9/1/30000", "RESULTS: expected FAILURES to 32, got 9"),
        ("breaker:33/40/1/30000", "FAILURES: expected 1 to 32, got 33"),
        ("breaker:33/1/4611686018427387904", "DEADLINE: expected 0 to 4611686018427387903, got 4611686018427387904"),
        ("throttle:999/60000", "RATIO: expected 1000 to 4294967295, got 999"),
        ("throttle:2000/0", "PERIOD: expected 1 to 4611686018427387903, got 0"),
        ("adaptive:1/10/20/900", "FIRST: expected LEAST to MOST, got 20"),
        ("adaptive:30/20/25/900", "MOST: expected LEAST to 65535, got 20"),
        ("adaptive:1/10/10/1000", "BACKOFF: expected 1 to 999, got 1000"),
    ],
)
def test_a_number_of_a_limit_that_is_out_of_range(text: str, told: str) -> None:
    with pytest.raises(TermsError) as caught:
        storm(FULL, limit=text)
    assert str(caught.value) == f"{text}: {told}"


@pytest.mark.parametrize(
    "text",
    [
        "bucket:1099511627776/0/1099511627776/0/0/0+refund",
        "grpc:1099511627/1099511627000",
        "inflight:4294967295/4294967295/1",
        "breaker:32/32/15/4611686018427387903",
        "breaker:4294967295/1/0",
        "throttle:1000/1",
        "adaptive:65535/65535/65535/999",
    ],
)
def test_the_ends_of_their_ranges(text: str) -> None:
    assert limit_of(text).text == text


def test_what_is_no_limit_on_a_storm() -> None:
    wrong: List[Any] = [Pace(10, 1), recurs(3), PerKey(lambda key: Bucket.aws()), Bucket]
    for limit in wrong:
        told = f'a number, a Budget, a Quota, another limit but no pace, or a text as "grpc:100/100", got {limit!r}'
        with pytest.raises(TypeError, match=f"^{re.escape('limit: expected ' + told)}$"):
            storm(FULL, limit=limit)
    wrong = [1.5, True]
    for number in wrong:
        with pytest.raises(TypeError, match=f"^limit: expected a whole number, got {number}$"):
            storm(FULL, limit=number)


@pytest.mark.parametrize("word", ["aws", "grpc:100/100", "inflight:3/200", "breaker:5/1/1000", "throttle:2000/60000"])
def test_a_storm_under_a_limit_is_spelt_as_a_command_in_python_and_in_rust(word: str) -> None:
    parameters = Parameters(tickets=limit_of(word))
    assert f"--limit {word} " in in_command(FULL, parameters)
    assert f'limit="{word}"' in in_python(FULL, parameters)
    assert ".limit(" in in_rust(FULL, parameters)
    shown = json.loads(in_scenario([play(FULL, parameters._replace(seconds=1))]))
    assert shown["lines"][0]["limit"] == word


def test_a_request_that_is_denied_its_first_call_is_not_told_as_one_denied_a_retry() -> None:
    # Of 800 requests a second from 10 s on, five calls fail. Then the breaker is open until 40 s: 800 requests in each
    # second are denied their first call, and make none.
    open_for_30 = str(storm(recurs(3), limit="breaker:5/1/1000"))
    assert "48,000 requests: 23,999 won, 1 lost, 24,000 denied, 0 left open\n24,004 calls, " in open_for_30
    assert "; the most requests and retries in a window 803, from 10 s on\n" in open_for_30
    retries = str(storm(recurs(3), limit=0, seconds=1, rate=1, outage=(0, 1)))
    assert "0 lost, 1 denied a retry, " in retries and "; the most in a window 1, from 0 ms on\n" in retries
    assert "0 lost, 1 denied, " in str(storm(recurs(3), limit="grpc:1/100", seconds=1, rate=1, outage=(0, 1)))


def test_one_of_two_replicas_is_down() -> None:
    half: Dict[str, Any] = {"capacity": 500, "replicas": 2, "down": 1}
    lost = [storm(recurs(retries), rate=rate, **half).totals.lost for rate in (400, 800) for retries in (0, 1)]
    assert lost == [2000, 0, 4000, 37_887]
    one = Parameters(capacity=500, replicas=2, down=1)
    assert "a peer of 2 replicas that each do 500 calls a second, 1 of them down from 10 s to 20 s;" in setting(one)
    assert one.weather() == [(10_000, 20_000, "1 of 2 replicas down", "away")]
    assert Parameters(replicas=2).weather() == [(10_000, 20_000, "peer down", "away")]
    assert Parameters(capacity=500, replicas=2, slow=Slow(0, 9, 50)).capacity_at(8) == 500


def test_replicas_are_spelt_as_a_command_in_python_in_rust_and_in_a_scenario() -> None:
    parameters = Parameters(replicas=3, down=2, seconds=1)
    assert "--replicas 3 --down 2 " in in_command(FULL, parameters)
    assert "replicas=3, down=2" in in_python(FULL, parameters)
    assert ".replicas(3)" in in_rust(FULL, parameters) and ".down(2)" in in_rust(FULL, parameters)
    told = json.loads(in_scenario([play(FULL, parameters)]))["storm"]
    assert (told["replicas"], told["down"]) == (3, 2)


def test_a_policy_is_as_for_the_other_calls() -> None:
    assert storm('{"recurs":1}', seconds=1) == storm({"recurs": 1}, seconds=1) == storm(recurs(1), seconds=1)


def test_the_budget_is_a_number_or_one_of_the_package() -> None:
    budget = Budget(100)
    by_number = storm(recurs(3), limit=100)
    assert by_number == storm(recurs(3), limit=budget)
    assert by_number.totals.tickets == 100 and budget.granted == 0
    assert storm(recurs(3), limit=0).totals.calls == 48_000


def test_a_storm_of_which_no_window_begins_after_the_outage_has_no_verdict() -> None:
    for how in ({"window": 60}, {"until": 15}, {"calls": 10_000}):
        options: Any = how
        played = storm(recurs(3), **options)
        assert "No window begins at 20 s or later, so a recovery would not show" in str(played).splitlines()
        assert "no window afterwards: recurs(3)" in repr(played)
        told = side_by_side([played], ["it"]) + played.svg() + sweep(played, queue=[5000]).table("recovery")
        assert "no window afterwards" in told and "never" not in told and "ot back by" not in f"{told}{played}"
    # A window that begins as the outage ends is one after it.
    assert storm(recurs(3), window=20).totals.recovered_ms == 20_000
    assert "Not back by the end" in str(storm(FULL, window=20))


def test_a_seed_gives_the_same_storm_and_another_one_another() -> None:
    assert storm(FULL, seconds=5, seed=7) == storm(FULL, seconds=5, seed=7)
    assert storm(FULL, seconds=15, seed=7).rows != storm(FULL, seconds=15, seed=8).rows


WRONG: List[Tuple[Dict[str, Any], str]] = [
    ({"rate": 0}, "rate: expected 1 to 1000000, got 0"),
    ({"together": 1_000_001}, "together: expected 1 to 1000000, got 1000001"),
    ({"seconds": 3601}, "seconds: expected 1 to 3600, got 3601"),
    ({"rate": 20_000}, "rate: 20000 a second for 60 s are 1200000 requests, and a storm has at most 1048576"),
    ({"capacity": 0}, "capacity: expected 1 to 1000000, got 0"),
    ({"patience": 0}, "patience: expected 1 to 3600000 ms, got 0"),
    ({"patience": -1}, "patience: expected 0 to 4611686018427387.903 seconds, got -1"),
    ({"queue": -1}, "queue: expected 0 to 1048576, got -1"),
    ({"replicas": 0}, "replicas: expected 1 to 4, got 0"),
    ({"replicas": 5}, "replicas: expected 1 to 4, got 5"),
    ({"down": 2}, "down: expected 1 to 1, got 2"),
    ({"down": 3, "replicas": 2}, "down: expected 1 to 2, got 3"),
    ({"down": 0}, "down: expected 1 to 4, got 0"),
    ({"outage": (2, 1)}, "outage: it ends at 1000 ms, before it begins at 2000 ms"),
    ({"outage": (0, 3601)}, "outage: expected 0 to 3600000 ms, got 3601000"),
    ({"rates": [(1, 1, 50)]}, "rates: expected a span that ends after it begins, got 1000..1000"),
    ({"rates": [(0, 3601, 50)]}, "rates: expected 0 to 3600000 ms, got 3601000"),
    ({"rates": [(0, 1, -1)]}, "rates: expected 0 to 1000000 requests a second, got -1"),
    ({"rates": [(0, 2, 1), (1, 3, 1)]}, "rates: expected spans in their order, got 1000..3000 after one until 2000"),
    ({"rates": [(0, 1, 1)] * 9}, "rates: expected at most 8 spans, got 9"),
    (
        {"rates": [(0, 60, 17_477)]},
        "rates: 800 a second and the spans for 60 s are 1048620 requests, and a storm has at most 1048576",
    ),
    ({"slow": (0, 1, 50)}, "slow: expected a share of the capacity from 0.01 to 1, got 50"),
    ({"slow": (0, 1, 0.999)}, "slow: expected a share in whole hundredths, got 0.999"),
    ({"slow": (2, 1, 0.5)}, "slow: it ends at 1000 ms, before it begins at 2000 ms"),
    ({"window": 0}, "window: expected 1 to 3600000 ms, got 0"),
    ({"window": 0.001}, "window: 120000 ms by windows of 1 ms are 120001 lines, and a report has at most 65537"),
    ({"until": 7201}, "until: expected 0 to 7200000 ms, got 7201000"),
    ({"calls": 0}, "calls: expected 1 to 4294967296, got 0"),
    ({"seed": 2**64}, "seed: expected 0 to 18446744073709551615, got 18446744073709551616"),
    ({"limit": 2**32 + 1}, "limit: expected 0 to 4294967296, got 4294967297"),
]


def test_one_is_told_as_one() -> None:
    one: Any = {"rate": 1, "seconds": 1, "capacity": 1, "patience": 2}
    alone = storm(recurs(3), outage=None, limit=1, **one)
    assert [line for line in str(alone).splitlines() if line.startswith("1 ")] == [
        "1 request: 1 won, 0 lost, 0 denied a retry, 0 left open",
        "1 call, 1.00 for each request; the most in a window 1, from 0 ms on",
    ]
    assert repr(alone) == "<Storm of 1 request, 1 succeeded, 1 call: recurs(3)>"
    assert setting(alone.parameters).startswith("1 request a second for 1 s on a peer that does 1 call a second;")
    assert "1 request/s for 1 s, capacity 1 call/s, queue 5,000" in alone.svg()
    assert "1 ticket given for retries" in str(storm(recurs(3), outage=(0, 1), limit=1, **one))
    assert repr(sweep(alone, rate=[1])) == "<Sweep of 1 storm along rate>"


@pytest.mark.parametrize("given, line", WRONG, ids=lambda value: str(value)[:40])
def test_what_is_out_of_range_is_named(given: Dict[str, Any], line: str) -> None:
    with pytest.raises(StormError) as caught:
        storm(recurs(1), **given)
    assert str(caught.value) == line
    assert caught.value.name == next(iter(given))
    assert str(pickle.loads(pickle.dumps(caught.value))) == line


def test_a_number_of_too_many_digits_is_out_of_range() -> None:
    huge = 10**5000
    wrong: List[Tuple[Dict[str, Any], str]] = [
        ({"rate": huge}, "rate: expected 1 to 1000000"),
        ({"seed": -huge}, "seed: expected 0 to 18446744073709551615"),
        ({"limit": huge}, "limit: expected 0 to 4294967296"),
        ({"outage": (0, huge)}, "outage: expected 0 to 4611686018427387.903 seconds"),
        ({"window": milliseconds(huge)}, "window: expected 0 to 4611686018427387903 milliseconds"),
        ({"rates": [(0, 1, huge)]}, "rates: expected 0 to 1000000 requests a second"),
        ({"slow": (0, 1, huge)}, "slow: expected a share of the capacity from 0.01 to 1"),
        ({"beside": [Population(0.1, recurs(1), huge)]}, "beside[0].patience: expected 0.001 to 3600 seconds"),
    ]
    for given, line in wrong:
        with pytest.raises(StormError) as caught:
            storm(recurs(1), **given)
        assert str(caught.value) == f"{line}, got a number of too many digits"
    terms: List[Tuple[Any, Tuple[Any, ...]]] = [(Quota, (huge, 0.1, 1)), (Quota, (1, huge, 1)), (Budget, (huge,))]
    for kind, numbers in terms:
        with pytest.raises(TermsError, match=", got a number of too many digits$"):
            kind(*numbers)
    for build in (recurs, spaced):
        with pytest.raises(PolicyError, match=", got a number of too many digits$"):
            build(huge)


@pytest.mark.parametrize(
    "given",
    [
        {"rate": 1.5},
        {"rate": True},
        {"patience": "1"},
        {"outage": 5},
        {"outage": (1, 2, 3)},
        {"rates": [(1, 2)]},
        {"rates": [(1, 2, 2.5)]},
        {"rates": [3]},
        {"rates": 3},
        {"slow": (1, 2)},
        {"slow": (1, 2, "x")},
    ]
    + [{"limit": 1.5}, {"window": None}],
    ids=str,
)
def test_what_has_the_wrong_type_is_a_type_error(given: Dict[str, Any]) -> None:
    with pytest.raises(TypeError) as caught:
        storm(recurs(1), **given)
    assert str(caught.value).startswith(f"{next(iter(given))}: ")


def test_the_bounds_themselves_are_taken() -> None:
    ends = storm(recurs(1), rate=1, together=1_000_000, seconds=1, capacity=1_000_000, queue=1_048_576, patience=3600)
    assert ends.totals.won == 1
    assert len(storm(spaced(1), rate=1, seconds=1, window=0.001, until=65.536, outage=(0, 3600)).rows) == 65_001
    assert storm(recurs(1), rate=1, seconds=1, until=0, calls=1, seed=2**64 - 1).totals.open == 1


def test_a_storm_is_cut() -> None:
    cut = storm(Policy.from_json('"forever"'), rate=2, together=2, seconds=1, calls=5, outage=(0, 1))
    assert cut.totals.cut and (cut.totals.requests, cut.totals.calls) == (1, 5)
    assert str(cut).endswith("Cut before the call after 5")


def test_it_is_told_as_a_table_and_in_words() -> None:
    told = str(storm(recurs(2), seconds=3, outage=(1, 2)))
    assert told == "\n".join(
        [
            "from  requests  won  retries  succeeded  refused  shed  late  waiting",
            "0          800  800        0        800        0     0     0        0",
            "1000       800    0     1600          0     2400     0     0        0",
            "2000       800  800        0        800        0     0     0        0",
            "",
            "2,400 requests: 1,600 won, 800 lost, 0 denied a retry, 0 left open",
            "4,000 calls, 1.67 for each request; the most in a window 2,400, from 1 s on",
            "Won half within 1 ms, 99 in 100 within 1 ms, the slowest after 1 ms",
            "Back at 2 s",
        ]
    )
    brief = repr(storm(recurs(2), seconds=3, outage=(1, 2)))
    assert brief == "<Storm of 2400 requests, 1600 succeeded, 4000 calls, back at 2000 ms: recurs(2)>"


def test_matplotlib_draws_it() -> None:
    matplotlib = pytest.importorskip("matplotlib")
    matplotlib.use("svg")
    drawn = storm(FULL, slow=(30, 40, 0.5))
    axes = drawn.plot()
    assert axes.get_xlabel() == "seconds since the first request" and axes.get_ylabel() == "calls per second"
    names = axes.get_legend_handles_labels()[1]
    assert {
        "requests",
        "retries",
        "calls that succeed",
        "the peer is down",
        "it works at 50 %",
        "what the peer can do",
    } == set(names)
    assert axes.get_legend() is not None and axes.get_xlim()[1] == len(drawn.rows)
    high, low = matplotlib.pyplot.figure().subplots(2, 1, sharex=True)
    assert drawn.plot(high) is high and storm(recurs(0)).plot(low) is low
    assert high.get_legend() is None and low.get_xlim() == high.get_xlim() == axes.get_xlim()


# The program


def hikebox(*words: str, text: str = "") -> Tuple[int, str, str]:
    command = [sys.executable, "-m", "hikebox", "storm", *words]
    done = subprocess.run(command, input=text, capture_output=True, text=True, env=python_environment(), timeout=60)
    return done.returncode, done.stdout, done.stderr


def test_the_program_prints_it() -> None:
    known = storm(recurs(2), seconds=3, outage=(1, 2))
    options = ["--seconds", "3", "--outage", "1000..2000"]
    assert hikebox(*options, "recurs(2)") == (0, f"{known}\n", "")
    assert hikebox(*options, "--csv", text='{"recurs":2}') == (0, known.to_csv(), "")
    assert hikebox(*options, "--json", "-", text='{"recurs":2}') == (0, f"{known.to_json()}\n", "")


def test_the_program_plays_the_three_stories() -> None:
    status, told, _ = hikebox("--scenario", "herd", "--json", "recurs(8) & exponential(0.1, 2).cap(10)")
    assert status == 0 and json.loads(told)["totals"]["won"] == 3700
    _, told, _ = hikebox("--scenario", "brown-out", "--json", "recurs(3)")
    assert json.loads(told)["totals"]["recovered"] is None
    assert hikebox("--scenario", "outage", "--json", "recurs(3)") == hikebox("--json", "recurs(3)")


def test_the_program_has_totals_side_by_side() -> None:
    status, told, errors = hikebox("--quota", "10/10%/1s", "--without", "recurs(0)", repr(FULL))
    assert (status, errors) == (0, "")
    lines = told.splitlines()
    assert lines[0] == "1: recurs(0), no limit"
    assert lines[3] == f"4: {FULL!r}, quota 10/10%/1s"
    assert [line.split() for line in lines if line.startswith(("for each", "recovered"))] == [
        ["for", "each", "1.00", "1.00", "7.62", "1.02"],
        ["recovered", "ms", "20000", "20000", "never", "20000"],
    ]


def test_a_policy_to_compare_is_one_more() -> None:
    options = ["--seconds", "3", "--outage", "1000..2000"]
    beside = hikebox(*options, "recurs(2)", "recurs(0)", "spaced(1)")
    assert (
        beside[0] == 0 and hikebox(*options, "recurs(2)", "--compare", "recurs(0)", "--compare", "spaced(1)") == beside
    )
    assert hikebox(*options, "--compare", "recurs(0)", "--compare", "spaced(1)", text='{"recurs":2}') == beside


def test_a_cut_storm_has_a_status_of_its_own() -> None:
    status, told, errors = hikebox("--calls", "100", "--json", "recurs(3)")
    assert (status, errors) == (6, "hikebox: not finished: a storm was cut by --calls\n")
    assert json.loads(told)["totals"]["cut"] is True


COUNTED = "expected FROM below TO and a COUNT from 2 to 64, as rate=200..1600/8"
NAMES = "rate, clients, together, seconds, capacity, queue, patience, outage, share, reserve, budget, beside"


@pytest.mark.parametrize(
    "words, line",
    [
        (["--rate", "0"], "argument --rate: expected a number from 1 to 1000000, got '0'"),
        (["--together", "x"], "argument --together: expected a number from 1 to 1000000, got 'x'"),
        (["--seconds", "3601"], "argument --seconds: expected a number from 1 to 3600, got '3601'"),
        (["--capacity", "-1"], "argument --capacity: expected a number from 1 to 1000000, got '-1'"),
        (["--patience", "0"], "argument --patience: expected a number from 1 to 3600000, got '0'"),
        (["--queue", "1048577"], "argument --queue: expected a number from 0 to 1048576, got '1048577'"),
        (["--window", "0"], "argument --window: expected a number from 1 to 3600000, got '0'"),
        (["--until", "7200001"], "argument --until: expected a number from 0 to 7200000, got '7200001'"),
        (["--calls", "0"], "argument --calls: expected a number from 1 to 4294967296, got '0'"),
        (["--words", str(2**64)], f"argument --words: expected a number from 0 to {2**64 - 1}, got '{2**64}'"),
        (["--outage", "5"], "argument --outage: expected FROM..TO in milliseconds, as 10000..20000, got '5'"),
        (["--outage", "5..3"], "outage: it ends at 3 ms, before it begins at 5 ms"),
        (["--outage", "0..3600001"], "outage: expected 0 to 3600000 ms, got 3600001"),
        (["--rates", "1..2"], "argument --rates: expected FROM..TO@N,.., as 10000..15000@2400, got '1..2'"),
        (["--rates", "1..2@3,"], "argument --rates: expected FROM..TO@N,.., as 10000..15000@2400, got '1..2@3,'"),
        (["--rates", "2..1@3"], "rates: expected a span that ends after it begins, got 2..1"),
        (["--slow", "1..2"], "argument --slow: expected FROM..TO@PERCENT, as 10000..20000@50, got '1..2'"),
        (["--slow", "1..2@0"], "slow: expected 1 to 100 % of the capacity, got 0"),
        (["--slow", "1..2@101"], "slow: expected 1 to 100 % of the capacity, got 101"),
        (["--rate", "20000"], "rate: 20000 a second for 60 s are 1200000 requests, and a storm has at most 1048576"),
        (["--window", "1"], "window: 120000 ms by windows of 1 ms are 120001 lines, and a report has at most 65537"),
        (["--budget", "4294967297"], "argument --budget: expected a number from 0 to 4294967296, got '4294967297'"),
        (["--quota", "1/1%/0s"], "argument --quota: expected a window of at least 0.1 s, got 0.0"),
        (["--limit", "aws:1"], f"argument --limit: {LIMIT_WANTED}, got 'aws:1'"),
        (["--limit", "aws", "--open", "spaced(1)"], "open: needs --limit breaker:.."),
        (["--open", "spaced(1)"], "open: needs --limit breaker:.."),
        (
            ["--limit", "breaker:5/1/30000", "--open", "stop()"],
            "open: expected a policy that goes on, got recurs(0).nothing()",
        ),
        (["--limit", "breaker:5/1/30000", "--open", "forever()"], f"open: {NEVER_OPEN.format('forever()')}"),
        (
            ["--csv", "--limit", "aws", "--budget", "1"],
            "storm: expected one storm, or a sweep, for --csv and --json, got 2 storms",
        ),
        (
            ["--csv", "--budget", "1", "--quota", "1/1%/1s"],
            "storm: expected one storm, or a sweep, for --csv and --json, got 2 storms",
        ),
        (["--csv", "--json"], "argument --json: not allowed with argument --csv"),
        (
            ["--csv", "recurs(1)", "recurs(2)"],
            "storm: expected one storm, or a sweep, for --csv and --json, got 2 storms",
        ),
        (
            ["--json", "--compare", "recurs(2)"],
            "storm: expected one storm, or a sweep, for --csv and --json, got 2 storms",
        ),
        (["--width", "4001"], "argument --width: expected a number from 72 to 4000, got '4001'"),
        (["--width", "100"], "width: needs --bars or --svg"),
        (["--measure", "calls"], "measure: needs --sweep"),
        (["--bars", "--sweep", "rate=1,2"], "storm: --bars can't be used with --sweep or --find"),
        (["--detail"], "detail: needs --svg, without --sweep"),
        (["--title", "x", "--json"], "title: needs --svg"),
        (["--find", "retries", "recurs(1)", "recurs(2)"], "storm: expected one storm for --find, got 2"),
        (["--find", "quota", "--csv"], "storm: --find can't be used with --csv, --svg or --sweep"),
        (["--sweep", "rats=1,2"], "sweep: expected a parameter, as rate=200..1600/8, got 'rats'"),
        (
            ["--sweep", "recurs(3)"],
            f"sweep: expected a parameter (one of {NAMES}), as rate=200..1600/8, got 'recurs(3)'",
        ),
        (["--sweep", "rate"], "sweep: expected values, as rate=200..1600/8, got none"),
        (["--sweep", "outage="], "sweep: expected values, as outage=1000,5000,20000, got none"),
        (
            ["--sweep", "outage=10000..20000"],
            "sweep: expected a count of values after '10000..20000', as outage=10000..20000/8, got none",
        ),
        (["--sweep", "rate=5..1/3"], f"sweep: {COUNTED}, got '5..1/3'"),
        (["--sweep", "rate=1..5/65"], f"sweep: {COUNTED}, got '1..5/65'"),
        (["--sweep", "rate=1..5/x"], f"sweep: {COUNTED}, got '1..5/x'"),
        (["--sweep", "rate=1,x"], "sweep: expected whole numbers, as rate=200..1600/8, got 'x'"),
        (
            ["--sweep", "clients at once=2,1"],
            "sweep: expected 1 to 64 values, each greater than the one before, as clients=100,1000,10000, got [2, 1]",
        ),
        (["--sweep", "share=0.25"], "sweep: expected numbers with at most one decimal, as share=0..20/5, got '0.25'"),
        (["--name", "a", "--name", "b"], "name: expected as many names as storms, 1, got 2"),
    ],
    ids=str,
)
def test_a_bad_command_line_is_told_before_the_policy_is_read(words: List[str], line: str) -> None:
    status, told, errors = hikebox(*words, text="no policy")
    assert (status, told) == (2, "")
    assert errors.splitlines()[-1] in (f"hikebox storm: error: {line}", f"hikebox: {line}")


def test_the_help_spells_each_limit() -> None:
    status, told, _ = hikebox("--help")
    forms = [line.strip() for line in told.splitlines() if line.strip().partition(":")[0] in KINDS]
    assert status == 0 and {form.partition(":")[0] for form in forms} == set(KINDS)
    assert [form for form in forms if form.count("/") != max(1, *KINDS[form.partition(":")[0]]) - 1] == []


#: Three windows of 100 requests, of which the ones in the midst are refused three times each. Bars are 26 columns long.
BARS = """\
  won %  from ms  requests  retries  failed  waiting  # request, + retry
    100        0       100        0       0        0  #########
      0     1000       100      200     300        0  #########+++++++++++++++++
    100     2000       100        0       0        0  #########
                                                      0                300 calls
"""


def test_bars_have_the_verdict_first_and_their_scale_last() -> None:
    options = ["--rate", "100", "--seconds", "3", "--outage", "1000..2000", "--bars"]
    status, told, errors = hikebox(*options, "recurs(2)")
    assert (status, errors) == (0, "")
    assert told.startswith(BARS) and max(map(len, told.splitlines())) == 80
    assert told[len(BARS) :].startswith("300 requests: 200 won, 100 lost")
    # All storms of a run have one scale: 300 of 600 calls are 13 of 26 columns.
    _, told, _ = hikebox(*options, "recurs(2)", "recurs(5)")
    bars = [line[54:] for line in told.splitlines() if line.startswith(" ") and "1000  " in line]
    assert bars == ["#####" + "+" * 8, "#####" + "+" * 21]
    assert [line.strip() for line in told.splitlines() if "600 calls" in line] == ["0" + "600 calls".rjust(25)]
    _, told, _ = hikebox(*options, "--width", "120", "recurs(2)")
    assert max(map(len, told.splitlines())) == 120
    # The sentences below the bars have lines of 80 columns too. The second one has 96 letters.
    _, told, _ = hikebox("--limit", "breaker:5/1/1000", "--bars", "recurs(3)")
    assert max(map(len, told.splitlines())) == 80
    assert "; the most requests and retries in a window 803," in " ".join(told.split())
    for width in ("71", "1001"):
        assert hikebox(*options, "--width", width, "recurs(2)")[0] == 2


def test_bars_are_those_of_zsched() -> None:
    program = os.environ.get("HIKEBOX_ZSCHED")
    if (
        not program
        or "--width" not in subprocess.run([program, "storm", "--help"], capture_output=True, text=True).stdout
    ):
        pytest.skip("HIKEBOX_ZSCHED names no zsched with --width")
    for words in (["--quota", "10/10%/1s"], ["--slow", "5000..9000@10"]):
        command = [program, "storm", *words, "--seconds", "20", "-"]
        done = subprocess.run(command, input=FULL.to_json(), capture_output=True, text=True, check=True)
        _, told, _ = hikebox(*words, "--seconds", "20", "--bars", repr(FULL))
        shared = told.split(" calls\n")[0]
        assert done.stdout.startswith(f"{shared} calls\n")


def test_a_terminal_has_colours_where_they_are_wanted() -> None:
    import pty

    def printed(**variables: str) -> str:
        above, below = pty.openpty()
        command = [
            sys.executable,
            "-m",
            "hikebox",
            "storm",
            "--bars",
            "--seconds",
            "3",
            "--outage",
            "1000..2000",
            "recurs(2)",
        ]
        environment = {**python_environment(), "TERM": "xterm", **variables}
        with subprocess.Popen(command, stdout=below, stderr=subprocess.DEVNULL, env=environment) as process:
            os.close(below)
            told = b""
            while True:
                try:
                    more = os.read(above, 1 << 16)
                except OSError:
                    break
                if not more:
                    break
                told += more
            process.wait(timeout=60)
        os.close(above)
        return told.decode()

    told = printed()
    assert "\033[32m    100\033[0m" in told and "\033[31m      0\033[0m" in told and "\033[33m+" in told
    assert "\033" not in printed(NO_COLOR="1") and "\033" not in printed(TERM="dumb")
    assert "\033" not in hikebox("--bars", "--seconds", "3", "--outage", "1000..2000", "recurs(2)")[1]


def test_want_of_memory_is_told(monkeypatch: pytest.MonkeyPatch, capsys: pytest.CaptureFixture[str]) -> None:
    from hikebox._engine import calls, storms
    from hikebox.cli.main import main

    monkeypatch.setattr(storms, "_patient", lambda call: lambda *_: calls.NO_MEMORY)
    with pytest.raises(MemoryError):
        storm(recurs(1))
    assert main(["storm", "recurs(1)"]) == 5
    assert capsys.readouterr() == ("", "hikebox: no memory\n")


def test_a_storm_too_large_for_the_memory_is_told() -> None:
    # (a million requests that wait for their second call)
    words = ["--rate", "17000", "--capacity", "1", "--queue", "0", "recurs(1) & spaced(30)"]
    command = [sys.executable, "-m", "hikebox", "storm", *words]
    how: Any = {"capture_output": True, "text": True, "env": python_environment()}
    done = subprocess.run(
        command, preexec_fn=lambda: resource.setrlimit(resource.RLIMIT_AS, (120 << 20, 120 << 20)), **how
    )
    assert (done.returncode, done.stdout, done.stderr) == (5, "", "hikebox: no memory\n")


def spent_by(process: int) -> float:
    """The seconds of the processor that a process took so far."""
    words = Path(f"/proc/{process}/stat").read_text().rpartition(")")[2].split()
    return (int(words[11]) + int(words[12])) / os.sysconf("SC_CLK_TCK")


def test_an_interrupt_ends_it_in_the_midst_of_a_storm() -> None:
    words = [
        "storm",
        "--rate",
        "17000",
        "--capacity",
        "1",
        "--queue",
        "0",
        "--calls",
        str(2**32),
        "recurs(10000) & spaced(0.01)",
    ]
    command = [sys.executable, "-m", "hikebox", *words]
    process = subprocess.Popen(command, stdout=subprocess.PIPE, env=python_environment(), preexec_fn=heed_signals)
    # (its start takes some tenths of a second of the processor, and the storm minutes)
    while spent_by(process.pid) < 2:
        time.sleep(0.05)
    assert process.poll() is None
    process.send_signal(signal.SIGINT)
    assert (process.wait(timeout=60), process.communicate()[0]) == (-signal.SIGINT, b"")


def test_a_bad_policy_is_told() -> None:
    assert hikebox(text="{}")[0] == 3
    assert hikebox("recurs(3")[0] == 3
    assert hikebox("no/such/file")[0] == 4
    assert hikebox("recurs(-1)") == (
        3,
        "",
        "hikebox: number out of range: recurs: expected 0 to 4611686018427387903, got -1\n",
    )


def test_a_quota_without_units_is_told_what_it_would_be() -> None:
    with pytest.raises(LimitError, match="has no units"):
        tickets_of("10/100/1000")
    for text in ("ten", "9" * 9000, "9" * 9000 + "/1%/1s"):
        with pytest.raises(LimitError, match="expected N, RESERVE/SHARE%/PERIOD or a limit"):
            tickets_of(text)
    with pytest.raises(LimitError, match="expected a budget from 0 to 4294967296"):
        tickets_of("4294967297")


def test_a_scenario_that_is_none_is_told() -> None:
    told = "hikebox: scenario: expected brown-out, herd, outage or a file, got 'x': No such file or directory\n"
    assert hikebox("--scenario", "x", text="no policy") == (3, "", told)


def test_the_options_begin_with_the_story() -> None:
    import argparse

    from hikebox.cli.storm_options import add_storm_options

    parser = argparse.ArgumentParser()
    add_storm_options(parser)
    given = parser.parse_args(["--scenario", "herd", "--queue", "7", "--budget", "5", "--quota", "1/0.5%/100ms"])
    herd = Parameters(10_000, 10_000, 1, 1000, 1000, queue=7, outage=Span(0, 0))
    assert parameters_of(given, SCENARIOS[given.scenario]) == herd
    assert limits_of(given) == [5, Terms(1, 5, 100)]
    brown = parser.parse_args(["--scenario", "brown-out", "--quota", "1/0.5%/100ms", "--without"])
    assert parameters_of(brown, SCENARIOS[brown.scenario]) == Parameters(
        outage=Span(0, 0), slow=Slow(10_000, 20_000, 50)
    )
    assert limits_of(brown) == [None, Terms(1, 5, 100)]
    assert limits_of(parser.parse_args([])) == [None]
