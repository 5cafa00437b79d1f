"""Storms of several populations of clients: what is played, beside tests/storms.py of the repository; how they are
spelt, told and drawn."""

from __future__ import annotations

import contextlib
import importlib
import io
import json
import os
import pickle
import random
import re
import shlex
import subprocess
import sys
from dataclasses import replace
from pathlib import Path
from typing import Any, Dict, List, Tuple

import pytest
from conftest import TOP
from test_pictures import looks_at_texts, painted, parsed, texts, zsched_prints

from hikebox import Policy, Population, Quota, Storm, StormError, exponential, milliseconds, recurs, spaced, storm
from hikebox._engine import calls, storms as engines_storms
from hikebox.budgets.terms import Terms
from hikebox.cli.main import main
from hikebox.cli.scenario import scenario_of
from hikebox.limits.breaker import times_of
from hikebox.storms.storm import play
from hikebox.storms import cores
from hikebox.storms.code import in_command, in_python, in_rust, in_scenario
from hikebox.storms.heads import names_of
from hikebox.limits.spellings import limit_of
from hikebox.storms.parameters import Parameters, RateSpan, Slow, Span
from hikebox.storms.picture import storm_picture
from hikebox.storms.populations import Clients
from hikebox.storms.texts import population_sentences, populations_table, setting
from hikebox.sweeps import find, sweep

sys.path.insert(0, str(TOP / "tests"))
storms: Any = importlib.import_module("storms")
check_storms: Any = importlib.import_module("check_storms")

FULL = recurs(8) & exponential(0.1, 2).cap(10).jittered(0, 1)
#: A small storm, in the words of `storm`, and in those of the command line.
BRIEF: Dict[str, Any] = {"seconds": 5, "outage": (1, 2), "rate": 100, "capacity": 120}
BRIEF_WORDS = ["--seconds", "5", "--outage", "1000..2000", "--rate", "100", "--capacity", "120"]
TENTH = Quota(10, 0.1, 1)


def clients_of(words: str, plan: Any) -> Clients:
    """A population by the words of `--beside` before its file."""
    found = re.fullmatch(r"(\d+)(?:@(\d+))?(\+limited)?", words)
    assert found is not None
    return Clients(int(found[1]), Policy.from_dict(plan), int(found[2]) if found[2] else None, found[3] is not None)


def twin_of(words: str, plan: Any) -> Any:
    """The same for tests/storms.py."""
    clients = clients_of(words, plan)
    return storms.Population(clients.share, plan, clients.patience, clients.is_limited)


READERS: Dict[str, Any] = {
    "rates": storms._rates,
    "outage": storms._span,
    "slow": storms._slow,
    "quota": storms._quota,
    "limit": storms._limit,
}


def twin(plan: Any, options: Dict[str, Any]) -> str:
    """What tests/storms.py says of a storm by the options of the program."""
    read = {name: READERS[name](value) if name in READERS else value for name, value in options.items()}
    told = {"open_plan" if name == "open" else name: value for name, value in read.items()}
    told["beside"] = [twin_of(*each) for each in options["beside"]]
    return str(storms.json_text(*storms.reports(storms.Storm(plan, **told))))


def played(plan: Any, options: Dict[str, Any]) -> Storm:
    """The storm of a plan by the options of the program."""
    told = {name: READERS[name](value) if name in READERS else value for name, value in options.items()}
    tickets: Any = told.pop("budget", None)
    open_plan = told.pop("open", {"spaced": 30_000})
    if "quota" in told:
        tickets = Terms(*told.pop("quota"))
    if "limit" in told:
        del told["limit"]
        tickets = limit_of(options["limit"], tuple(times_of(Policy.from_dict(open_plan))))
    spans: List[Tuple[str, Any]] = [("slow", Slow), ("outage", Span)]
    told.update({name: kind(*told[name]) for name, kind in spans if name in told})
    told["rates"] = tuple(RateSpan(*span) for span in told.get("rates", []))
    told["beside"] = tuple(clients_of(*each) for each in told["beside"])
    return play(Policy.from_dict(plan), Parameters(tickets=tickets, **told).checked())


@pytest.mark.parametrize("case", check_storms.BESIDE, ids=[case.name for case in check_storms.BESIDE])
def test_storms_that_were_worked_out_by_hand(case: Any) -> None:
    got = json.loads(played(case.plan, case.options).to_json())
    assert got["windows"] == case.windows
    for own, part in zip(got["populations"], case.parts):
        totals = {name: own["totals"][name] for name in part.totals}
        assert (own["share"], own["windows"], totals) == (part.share, part.windows, part.totals)
    assert len(got["populations"]) == len(case.parts)


@pytest.mark.parametrize("seed", range(40))
def test_random_storms_are_those_of_the_rules(seed: int) -> None:
    rng = random.Random(f"populations {seed}")
    plan, options = check_storms.some_storm(rng)
    options["beside"] = check_storms.some_populations(rng, options["calls"] <= 40)
    got = played(plan, options)
    assert got.to_json() + "\n" == twin(plan, options)
    # (one part of the calls of a storm that was cut may be missing in none of the reports)
    for name in ("requests", "won", "lost", "denied", "open", "calls", "tickets"):
        assert sum(getattr(each.totals, name) for each in got.populations) == getattr(got.totals, name), name


def test_a_quota_beside_clients_without_one() -> None:
    few, many = (storm(FULL, limit=TENTH, beside=[Population(share, FULL)]) for share in (0.2, 0.3))
    # (as tests/storms.py plays them)
    assert (few.totals.won, few.totals.recovered_ms) == (41_470, 20_000)
    assert (many.totals.won, many.totals.recovered_ms) == (9967, None)
    assert [(each.share, each.limited, each.totals.won) for each in many.populations] == [
        (0.7, True, 5970),
        (0.3, False, 3997),
    ]
    assert [each.patience_ms for each in many.populations] == [500, 500]
    assert {row.waiting for each in many.populations for row in each.rows} == {0}
    assert many.populations[0].policy is FULL and "beside: 30 %, not limited: recurs(8)" in str(many)


def test_populations_under_one_policy_that_are_limited_are_one() -> None:
    none: List[Population] = []
    beside = [Population(0.3, FULL, limited=True), Population(0.2, FULL, patience=0.5, limited=True)]
    one, three = (storm(FULL, limit=TENTH, beside=given, **BRIEF) for given in (none, beside))
    assert (three.rows, three.totals) == (one.rows, one.totals)
    assert one.populations == () and "populations" not in json.loads(one.to_json())
    assert [each.totals.requests for each in three.populations] == [250, 150, 100]


def test_a_population_is_as_it_is_given() -> None:
    given = [Population(0.29, '{"recurs":1}', patience=milliseconds(50)), Population(0.07, {"spaced": 5}, 2, True)]
    made = storm(recurs(0), beside=given, **BRIEF)
    assert made.parameters.beside == (Clients(29, recurs(1), 50), Clients(7, spaced(0.005), 2000, True))
    shares = [(each.share, each.patience_ms, each.limited) for each in made.populations]
    assert shares == [(0.64, 500, True), (0.29, 50, False), (0.07, 2000, True)]
    again = pickle.loads(pickle.dumps(made))
    assert again == made and again.populations == made.populations
    assert replace(made) == made and made.populations[1].to_csv().startswith("from,requests,won")
    assert storm(recurs(0), beside=tuple(given), **BRIEF) == made


def test_a_report_on_a_population_has_a_short_repr_and_says_that_the_first_would_be_limited() -> None:
    made = storm(recurs(1), beside=[Population(0.29, recurs(0))], **BRIEF)
    own, beside = made.populations
    assert (
        repr(beside) == "<PopulationReport of 0.29 of the requests, 145 requests, 116 succeeded, 145 calls: recurs(0)>"
    )
    assert repr(made.populations) == f"({own!r}, {beside!r})"
    # (nothing limits this storm)
    assert [each.limited for each in made.populations] == [True, False]


def test_all_whole_hundredths_are_shares() -> None:
    for percent in range(1, 100):
        made = storm(recurs(0), rate=1, seconds=1, beside=[Population(percent / 100, recurs(0))])
        assert made.parameters.beside[0].share == percent


SHARE_WANTED = "expected a share of the requests from 0.01 to 0.99, such as 0.3 for 30 %"
WRONG: List[Tuple[Any, str]] = [
    ([Population(0, recurs(1))], f"beside[0].share: {SHARE_WANTED}, got 0"),
    ([Population(0.1, recurs(1)), Population(30, recurs(1))], f"beside[1].share: {SHARE_WANTED}, got 30"),
    ([Population(float("nan"), recurs(1))], f"beside[0].share: {SHARE_WANTED}, got nan"),
    ([Population(0.305, recurs(1))], "beside[0].share: expected a share in whole hundredths, got 0.305"),
    ([Population(0.5, recurs(1))] * 2, "beside: expected shares of at most 99 % in all, got 50 + 50"),
    ([Population(0.1, recurs(1))] * 4, "beside: expected at most 3 populations, got 4"),
    ([Population(0.1, recurs(1), patience=0)], "beside[0].patience: expected 0.001 to 3600 seconds, got 0"),
    ([Population(0.1, recurs(1), patience=3601)], "beside[0].patience: expected 0.001 to 3600 seconds, got 3601"),
    ([Population(0.1, recurs(1), patience=-1)], "beside[0].patience: expected 0.001 to 3600 seconds, got -1"),
    (
        [Population(0.1, recurs(1), patience=milliseconds(3_600_001))],
        "beside[0].patience: expected 0.001 to 3600 seconds, got milliseconds(3600001)",
    ),
    (
        [Population(0.1, recurs(1)), Population(0.1, {"recur": 1})],
        'beside[1].policy: not a plan: no node is called "recur"; did you mean "recurs"?',
    ),
]


@pytest.mark.parametrize("beside, line", WRONG, ids=lambda value: str(value)[:40])
def test_what_is_out_of_range_is_named(beside: Any, line: str) -> None:
    with pytest.raises(StormError) as caught:
        storm(recurs(1), beside=beside)
    assert (str(caught.value), caught.value.name) == (line, line.partition(":")[0])


@pytest.mark.parametrize(
    "beside, place",
    [
        (Population(0.3, recurs(1)), "beside"),
        ([(0.3, recurs(1))], "beside"),
        (5, "beside"),
        ([Population("0.3", recurs(1))], "beside[0].share"),
        ([Population(True, recurs(1))], "beside[0].share"),
        ([Population(0.3, recurs(1), patience="1")], "beside[0].patience"),
        ([Population(0.3, recurs(1), limited=1)], "beside[0].limited"),
        ([Population(0.3, 5)], "beside[0].policy"),
    ],
    ids=str,
)
def test_what_has_the_wrong_type_is_a_type_error(beside: Any, place: str) -> None:
    with pytest.raises(TypeError, match=f"^{re.escape(place)}: "):
        storm(recurs(1), beside=beside)


def test_the_engine_has_each_policy_and_want_of_memory_is_told(monkeypatch: pytest.MonkeyPatch) -> None:
    asked: List[Any] = []

    def no_memory(policies: Any, *_: Any) -> int:
        asked.append([bool(handle.held) for handle in policies._obj])
        return calls.NO_MEMORY

    monkeypatch.setattr(engines_storms, "_patient", {"hikebox_storm_play_populations": no_memory}.__getitem__)
    for count in (0, 1, 3):
        with pytest.raises(MemoryError, match="^hikebox_storm_play_populations: "):
            storm(FULL, beside=[Population(0.1, FULL)] * count)
    assert asked == [[True, False, False, False], [True, True, False, False], [True] * 4]


# How they are spelt

SPELT: List[Tuple[Policy, Parameters]] = [
    (recurs(3), Parameters(seconds=2, tickets=Terms(10, 100, 1000), beside=(Clients(30, recurs(3)),))),
    (
        recurs(8) & spaced(0.1),
        Parameters(
            seconds=1,
            outage=Span(0, 500),
            tickets=20,
            beside=(Clients(9, spaced(1), 2000, True), Clients(20, spaced(1)), Clients(30, FULL, 75)),
        ),
    ),
]


@pytest.mark.parametrize("policy, parameters", SPELT, ids=["one beside", "three"])
def test_all_that_is_copied_plays_the_storm(
    policy: Policy, parameters: Parameters, tmp_path: Path, capsys: pytest.CaptureFixture[str]
) -> None:
    known = play(policy, parameters)
    told = io.StringIO()
    with contextlib.redirect_stdout(told):
        exec(in_python(policy, parameters), {})
    assert told.getvalue() == f"{known}\n"
    assert main([*shlex.split(in_command(policy, parameters))[1:], "--json"]) == 0
    assert capsys.readouterr().out == f"{known.to_json()}\n"
    file = tmp_path / "scenario.json"
    file.write_text(in_scenario([known]))
    assert main(["storm", "--scenario", str(file), "--json"]) == 0
    assert capsys.readouterr().out == f"{known.to_json()}\n"


def test_populations_are_spelt_as_a_command_in_python_and_in_rust() -> None:
    policy, parameters = SPELT[1]
    command, python, rust = (spell(policy, parameters) for spell in (in_command, in_python, in_rust))
    assert "--beside '9@2000+limited=spaced(1)' --beside '20=spaced(1)' --beside '30@75=recurs(8) & " in command
    assert "from hikebox import Population, exponential, recurs, spaced, storm\n" in python
    assert "beside=[Population(0.09, spaced(1), patience=2, limited=True), Population(0.2, spaced(1)), " in python
    assert "use hikebox::{Policy, Population, Schedule, Storm};\n" in rust
    assert "    let second = Policy::new(&Schedule::spaced(Duration::from_secs(1)))?;\n    let fourth = " in rust
    assert ".beside(Population::new(9, &second).patience(Duration::from_secs(2)).limited(true))\n" in rust
    assert ".beside(Population::new(20, &second))\n" in rust
    # the policy of the storm has its name already
    assert "beside=[Population(0.3, policy)]" in in_python(*SPELT[0])
    assert ".beside(Population::new(30, &policy))" in in_rust(*SPELT[0])


def test_storms_whose_populations_differ_have_them_in_their_lines(
    tmp_path: Path, capsys: pytest.CaptureFixture[str]
) -> None:
    beside = [(), (Population(0.3, recurs(3)),), (Population(0.3, recurs(3), limited=True),)]
    known = [storm(recurs(3), limit=5, beside=given, **BRIEF) for given in beside]
    told = json.loads(in_scenario(known))
    assert "beside" not in told["storm"]
    assert [line.get("beside") for line in told["lines"]] == [
        None,
        [{"share": 30, "policy": {"recurs": 3}, "limited": False}],
        [{"share": 30, "policy": {"recurs": 3}, "limited": True}],
    ]
    assert names_of(known) == ["none beside", "beside 30 %, not limited", "beside 30 %, limited"]
    others = [storm(recurs(3), beside=[Population(0.3, policy)], **BRIEF) for policy in (recurs(1), recurs(2))]
    assert names_of(others) == [f"beside 30 % of the requests under recurs({count})" for count in (1, 2)]
    file = tmp_path / "scenario.json"
    file.write_text(json.dumps(told))
    assert [line.beside for line in scenario_of(str(file)).lines] == [None] + [
        each.parameters.beside for each in known[1:]
    ]
    assert main(["storm", "--scenario", str(file)]) == 0
    calls = [line.split()[1:] for line in capsys.readouterr().out.splitlines() if line.startswith("calls")]
    assert calls[0] == [str(each.totals.calls) for each in known]
    assert calls[1:] == [[str(part.totals.calls) for part in (each, *each.populations)] for each in known[1:]]


def test_a_line_and_the_command_line_have_others_than_the_scenario(
    tmp_path: Path, capsys: pytest.CaptureFixture[str]
) -> None:
    told = {
        "storm": {"seconds": 1, "beside": [{"share": 10, "policy": "spaced(1)", "patience": 70}]},
        "lines": [{"policy": "recurs(1)"}, {"policy": "recurs(1)", "beside": []}],
    }
    file = tmp_path / "scenario.json"
    file.write_text(json.dumps(told))

    def shares(*words: str) -> List[str]:
        assert main(["storm", "--scenario", str(file), *words]) == 0
        return re.findall(r"^(?:own|beside): (\d+ %.*)$", capsys.readouterr().out, flags=re.M)

    assert shares() == ["90 %: recurs(1)", "10 %, patience 70 ms: spaced(1)"]
    assert shares("--beside", "20=recurs(2)") == ["80 %: recurs(1)", "20 %: recurs(2)"] * 2
    assert shares("recurs(0)") == ["90 %: recurs(0)", "10 %, patience 70 ms: spaced(1)"]


# The program


def test_the_program_prints_all_and_then_each(capsys: pytest.CaptureFixture[str]) -> None:
    known = storm(recurs(2), limit=TENTH, beside=[Population(0.3, recurs(1), patience=2)], **BRIEF)
    words = ["storm", *BRIEF_WORDS, "--quota", "10/10%/1s", "--beside", "30@2000=recurs(1)", "recurs(2)"]
    assert main(words) == 0
    told = capsys.readouterr().out
    assert told == f"{known}\n" and told.endswith(f"\n\n{populations_table(known)}\n")
    heads, table = populations_table(known).split("\n\n")
    assert heads.splitlines() == [
        "all: all requests",
        "own: 70 %, limited: recurs(2)",
        "beside: 30 %, patience 2 s, not limited: recurs(1)",
    ]
    assert [line.split() for line in table.splitlines()[:2]] == [
        ["all", "own", "beside"],
        ["requests", "500", "350", "150"],
    ]
    assert main([*words, "--bars"]) == 0
    assert capsys.readouterr().out.endswith(f"\n\n{populations_table(known)}\n")
    for form, text in (("--json", f"{known.to_json()}\n"), ("--csv", known.to_csv())):
        assert main([*words, form]) == 0
        assert capsys.readouterr().out == text
    assert main([*words, "--compare", "recurs(0)"]) == 0
    assert capsys.readouterr().out.count("all: all requests") == 2


FORM = "PERCENT[@PATIENCE][+limited]=POLICY"
WANTED = f"expected {FORM}, as 30@2000+limited=recurs(3)"


def test_the_help_the_manual_page_and_the_completions_spell_it_as_the_error_does(
    capsys: pytest.CaptureFixture[str],
) -> None:
    with pytest.raises(SystemExit):
        main(["storm", "--help"])
    told = " ".join(capsys.readouterr().out.split())
    assert f"--beside {FORM} clients who send PERCENT of the requests" in told
    assert "they wait PATIENCE milliseconds for a call, or as long as the others; " in told
    assert "with +limited they draw on the same limit, if there is one; " in told
    share = TOP / "python" / "share"
    assert f":{FORM}:" in (share / "hikebox.zsh").read_text()
    assert f'--beside " {FORM}"' in re.sub(r"\\f[RP]|\\", "", (share / "hikebox.1").read_text())


@pytest.mark.parametrize(
    "words, line",
    [
        (["0=x"], "argument --beside: expected a number from 1 to 99, got '0'"),
        (["100=x"], "argument --beside: expected a number from 1 to 99, got '100'"),
        (["30@0=x"], "argument --beside: expected a number from 1 to 3600000, got '0'"),
        (["30@5000000=x"], "argument --beside: expected a number from 1 to 3600000, got '5000000'"),
        *(
            ([word], f"argument --beside: {WANTED}, got {word!r}")
            for word in ("30", "30=", "=x", "30@=x", "30+=x", "30+limit=x", "30+limited@5=x", "30%=x", "-1=x")
        ),
        *(
            ([f"{share}{rest}"], f"argument --beside: expected whole per cent, such as 30, got {share!r}")
            for share, rest in (("0.3", "=recurs(1.5)"), (".5", "@20=x"), ("30.5", "+limited=x"))
        ),
        (["30=", "0.3=x"], f"argument --beside: {WANTED}, got '30='"),
        (["50=x", "50=x"], "beside: expected shares of at most 99 % in all, got 50 + 50"),
        (["1=x"] * 4, "beside: expected at most 3 populations, got 4"),
        (["1=-"], "beside: expected one policy from standard input, got 2"),
        (["1=-", "2=-"], "beside: expected one policy from standard input, got 3"),
    ],
    ids=str,
)
def test_a_bad_word_is_told_before_a_policy_is_read(
    words: List[str], line: str, capsys: pytest.CaptureFixture[str]
) -> None:
    try:
        status: Any = main(["storm", *(f"--beside={word}" for word in words)])
    except SystemExit as ended:
        status = ended.code
    printed, errors = capsys.readouterr()
    assert (status, printed) == (2, "")
    assert errors.splitlines()[-1] in (f"hikebox storm: error: {line}", f"hikebox: {line}")


def test_a_policy_beside_is_a_file_json_or_an_expression(tmp_path: Path, capsys: pytest.CaptureFixture[str]) -> None:
    file = tmp_path / "plan=1.json"
    file.write_text('{"recurs":3}')
    told = []
    for word in ("recurs(3)", '{"recurs":3}', str(file)):
        assert main(["storm", *BRIEF_WORDS, "--json", f"--beside=30={word}", "recurs(1)"]) == 0
        told.append(capsys.readouterr().out)
    assert told[0] == told[1] == told[2]
    assert main(["storm", "--beside=30={}", "recurs(1)"]) == 3
    with pytest.raises(SystemExit) as ended:
        main(["storm", "--beside=30=no/such/file", "recurs(1)"])
    assert ended.value.code == 4


BAD_SCENARIOS: List[Tuple[Any, str]] = [
    ({"storm": {"beside": 5}}, "beside: expected a list of populations, got 5"),
    ({"storm": {"beside": [5]}}, "beside[0]: expected an object, got 5"),
    ({"storm": {"beside": [{"policy": "forever"}]}}, "beside[0]: expected a share, got none"),
    ({"storm": {"beside": [{"share": 5}]}}, "beside[0]: expected a policy, got none"),
    ({"storm": {"beside": [{"share": 0.5, "policy": "forever"}]}}, "beside[0].share: expected a whole number, got 0.5"),
    (
        {"storm": {"beside": [{"share": 5, "policy": "forever", "limited": 1}]}},
        "beside[0].limited: expected true or false, got 1",
    ),
    (
        {"storm": {"beside": [{"share": 5, "policy": "forever", "wait": 1}]}},
        "beside[0]: expected limited, patience, policy, share, got 'wait'",
    ),
    (
        {"storm": {"beside": [{"share": 5, "policy": "forever", "patience": 0}]}},
        "beside[0].patience: expected 1 to 3600000 ms, got 0",
    ),
    (
        {"storm": {"beside": [{"share": 5, "policy": "forever"}, {"share": 0, "policy": "forever"}]}},
        "beside[1].share: expected a share from 1 to 99 % of the requests, got 0",
    ),
    (
        {"storm": {"beside": [{"share": 5, "policy": "recur(1)"}]}},
        "beside[0].policy: not a plan: no builder is called 'recur'; did you mean 'recurs'?",
    ),
    (
        {"lines": [{"policy": "forever", "beside": [{"share": 50, "policy": "forever"}] * 2}]},
        "lines[0].beside: expected shares of at most 99 % in all, got 50 + 50",
    ),
    ({"lines": [{"policy": "forever", "beside": None}]}, "lines[0].beside: expected a list of populations, got null"),
]


@pytest.mark.parametrize("told, said", BAD_SCENARIOS, ids=lambda value: str(value)[:40])
def test_a_bad_scenario_is_told_with_its_place(
    told: Any, said: str, tmp_path: Path, capsys: pytest.CaptureFixture[str]
) -> None:
    file = tmp_path / "scenario.json"
    file.write_text(json.dumps(told))
    assert main(["storm", "--scenario", str(file)]) == 3
    assert capsys.readouterr() == ("", f"hikebox: scenario: {file}: {said}\n")


def test_the_schema_takes_what_the_program_takes() -> None:
    jsonschema = pytest.importorskip("jsonschema")
    file = TOP / "schemas" / "scenario.schema.json"
    schema = json.loads(file.read_text())
    validator = jsonschema.Draft7Validator(schema, resolver=jsonschema.RefResolver(file.as_uri(), schema))
    for policy, parameters in SPELT:
        assert list(validator.iter_errors(json.loads(in_scenario([play(policy, parameters)])))) == []
    # (a schema can't read expressions, nor say what shares add up to)
    assert [said for told, said in BAD_SCENARIOS if validator.is_valid(told)] == [
        "beside[0].policy: not a plan: no builder is called 'recur'; did you mean 'recurs'?",
        "lines[0].beside: expected shares of at most 99 % in all, got 50 + 50",
    ]


@pytest.mark.parametrize("policy, parameters", SPELT, ids=["one beside", "three"])
def test_zsched_prints_the_same(policy: Policy, parameters: Parameters) -> None:
    program = os.environ.get("HIKEBOX_ZSCHED")
    if (
        not program
        or "--beside" not in subprocess.run([program, "storm", "--help"], capture_output=True, text=True).stdout
    ):
        pytest.skip("HIKEBOX_ZSCHED names no zsched with --beside")
    known = play(policy, parameters)
    assert zsched_prints(known) == f"{known.to_json()}\n"


# Sweeps, and borders


def test_a_sweep_and_a_border_are_of_all_requests(monkeypatch: pytest.MonkeyPatch) -> None:
    base = storm(recurs(3), limit=TENTH, beside=[Population(0.3, recurs(1), patience=0.25)], **BRIEF)
    swept = sweep(base, patience=[0.2, 1])
    for value, got in zip((0.2, 1), swept.lines[0]):
        wanted = storm(recurs(3), limit=TENTH, patience=value, beside=[Population(0.3, recurs(1), 0.25)], **BRIEF)
        assert got == wanted and got.populations == wanted.populations
    shared = "recurs(3), beside 30 % of the requests, not limited, under recurs(1) with patience 250 ms"
    assert swept.table().startswith(f"{shared}\n\nrequests that succeeded")
    assert shared in " ".join(texts(parsed(swept.svg(width=1000)))).replace("\u00a0", " ")
    found = find(base, "retries")
    assert {each.parameters.beside for _, each in found.tried} == {base.parameters.beside}
    asked: List[Any] = []

    def counted(*how: Any) -> Storm:
        asked.append(how)
        return play(*how)

    # (and each is played once, since nobody asks for the reports on its populations)
    monkeypatch.setattr(cores, "play", counted)
    assert "_populations" not in vars(sweep(base, rate=[50]).lines[0][0]) and len(asked) == 1


def test_a_sweep_says_which_populations_stand_beside(capsys: pytest.CaptureFixture[str]) -> None:
    words = ["storm", *BRIEF_WORDS, "--quota", "10/10%/1s", "--without", "--beside", "21=recurs(3)"]
    said = "beside 21 % of the requests, not limited, under recurs(3)"
    for policies, head in ((["recurs(3)"], f"recurs(3), {said}"), (["recurs(1)", "recurs(2)"], said)):

        def printed(*form: str) -> str:
            assert main([*words, "--sweep", "rate=50,100", *form, *policies]) == 0
            return capsys.readouterr().out

        assert printed().startswith(f"{head}\n")
        assert head in " ".join(texts(parsed(printed("--svg=-", "--width=1000")))).replace("\u00a0", " ")
        lines = json.loads(printed("--json"))["lines"]
        assert [line["beside"] for line in lines] == [[{"share": 21, "policy": {"recurs": 3}, "limited": False}]] * (
            2 * len(policies)
        )
    alone = sweep(storm(recurs(3), **BRIEF), rate=[50])
    assert "beside" not in alone.to_json() and str(alone).startswith("recurs(3)\n")
    # Those that are not the same for all are in the names.
    mixed = [
        storm(recurs(3), beside=[Population(0.3, recurs(3), limited=limited)], **BRIEF) for limited in (True, False)
    ]
    assert names_of(mixed) == ["beside 30 %"] * 2 and str(sweep(mixed, rate=[50])).startswith("recurs(3)\n")


def test_a_sweep_goes_along_the_share_of_the_first_population_beside(capsys: pytest.CaptureFixture[str]) -> None:
    beside = [Population(0.5, recurs(0)), Population(0.1, recurs(1))]
    swept = sweep(storm(FULL, limit=TENTH, beside=beside, **BRIEF), beside=[0.05, 0.4])
    assert swept.values == (5, 40)
    for share, got in zip((0.05, 0.4), swept.lines[0]):
        assert got == storm(FULL, limit=TENTH, beside=[replace(beside[0], share=share), beside[1]], **BRIEF)
    assert "beside a share of the requests, not limited, under recurs(0) and 10 % of the requests, " in swept.table()
    told = json.loads(swept.to_json())
    assert told["values"] == [5, 40]
    assert told["lines"][0]["beside"] == [
        {"policy": {"recurs": 0}, "limited": False},
        {"share": 10, "policy": {"recurs": 1}, "limited": False},
    ]
    words = ["storm", *BRIEF_WORDS, "--quota", "10/10%/1s", "--beside", "50=recurs(0)", "--beside", "10=recurs(1)"]
    assert main([*words, "--sweep", "beside=5..40/2", repr(FULL), "--json"]) == 0
    assert capsys.readouterr().out == f"{swept.to_json()}\n"
    # a storm without others is the same for each share
    both = [storm(recurs(1), **BRIEF), storm(recurs(1), beside=[Population(0.3, FULL)], **BRIEF)]
    mixed = sweep(both, beside=[0.1, 0.2])
    assert mixed.names == ("none beside", "beside a share") and len(set(mixed.lines[0])) == 1
    looks_at_texts(parsed(mixed.svg()))
    wrong: List[Tuple[List[float], str]] = [
        ([0], f"sweep: beside: {SHARE_WANTED}, got 0"),
        ([0.305], "sweep: beside: expected a share in whole hundredths, got 0.305"),
        ([0.9], "beside: expected shares of at most 99 % in all, got 90 + 10"),
    ]
    for shares, line in wrong:
        with pytest.raises(StormError, match=f"^{re.escape(line)}$"):
            sweep(swept.lines[0][0], beside=shares)
    with pytest.raises(StormError, match="^sweep: beside: expected a storm with a population beside, got none$"):
        sweep(both[0], beside=[0.1])


def test_the_border_of_a_share_beside() -> None:
    base = storm(FULL, limit=TENTH, beside=[Population(0.3, FULL)])
    found = find(base, "beside")
    assert found.value == 20
    for percent in (20, 21):
        assert dict(found.tried)[percent] == storm(FULL, limit=TENTH, beside=[Population(percent / 100, FULL)])
    assert str(found).startswith("greatest share of the first population beside with which the peer recovers: 20 %\n")
    # as many as the others leave
    some = storm(recurs(0), beside=[Population(0.3, recurs(0)), Population(0.25, recurs(0))], **BRIEF)
    assert find(some, "beside").value == 74
    with pytest.raises(StormError, match="^find: expected a storm with a population beside, got one without$"):
        find(storm(FULL, **BRIEF), "beside")


# The picture


@pytest.mark.parametrize("width", [320, 500, 760, 1400])
def test_each_population_has_its_verdict(width: int) -> None:
    beside = [Population(0.3, FULL), Population(0.1, recurs(0), patience=2, limited=True)]
    drawn = storm(FULL, limit=TENTH, beside=beside, **BRIEF)
    root = parsed(drawn.svg(width=width))
    looks_at_texts(root)
    words = texts(root)
    assert words.count("requests/s") == 3 and words.count("calls begun") == 1
    joined = " ".join(words).replace("\u00a0", " ")
    for name in (
        "own, 60 %, limited: recurs(8) &",
        "beside 1, 30 %, not limited: recurs(8) &",
        "beside 2, 10 %, patience 2 s, limited: recurs(0)",
    ):
        assert name in joined
    # The scale is that of all: 60 of 100 requests a second are the most.
    assert words.count("60") >= 3
    won, requests = painted(root, "won"), painted(root, "requests")
    assert (len(won), len(requests)) == (3, 2 - 1)
    described = [part.text or "" for part in root.iter() if part.tag.endswith("desc")]
    assert all(line in described[0] for line in population_sentences(drawn))
    told = setting(drawn.parameters)
    assert "beside 30 % of the requests, not limited, under recurs(8) & " in told
    assert (
        told.endswith(" and 10 % of the requests, limited, under recurs(0) with patience 2 s") and told in described[0]
    )


def test_a_storm_alone_stands_beside_one_with_populations() -> None:
    alone, beside = storm(FULL, **BRIEF), storm(FULL, **BRIEF, beside=[Population(0.3, recurs(1))])
    for width in (360, 760):
        root = parsed(alone.svg(beside, width=width))
        looks_at_texts(root)
        words = [word.replace("\u00a0", " ") for word in texts(root)]
        assert words.count("requests/s") == 3 and words.count("calls begun") == 2
        assert {"none beside", "beside 30 %"} <= set(words) and not [word for word in words if "), beside" in word]


def test_a_brief_picture_has_verdicts_alone_and_names_in_a_line() -> None:
    drawn = [storm(FULL, limit=TENTH, beside=[Population(0.3, FULL)], **BRIEF) for _ in range(2)]
    root = parsed(storm_picture(drawn, title="", width=340, styled=False, is_brief=True))
    looks_at_texts(root)
    words = texts(root)
    assert words.count("requests/s") == 4 and "calls begun" not in words
    own, beside = "own, 70 %, limited: ", "beside, 30 %, not limited: "
    assert [word.endswith("…") for word in words if word.startswith((own, beside))] == [True] * 4


def test_requests_that_all_come_at_once_are_summed_up_for_each() -> None:
    herd: Dict[str, Any] = {"rate": 1000, "together": 1000, "seconds": 1, "window": 0.5, "outage": None}
    drawn = storm(FULL, beside=[Population(0.3, recurs(0))], **herd)
    root = parsed(drawn.svg())
    assert texts(root).count("requests so far") == 2 and "700" in texts(root)
    # A population that is over before the other one keeps its sum to the end.
    first, second = drawn.populations
    assert len(first.rows) > len(second.rows)
    ends = [max(map(float, re.findall(r"H([\d.]+)", part.get("d")))) for part in painted(root, "won")]
    assert len(ends) == 2 and ends[0] == ends[1]
