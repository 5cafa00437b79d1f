"""Storms along a parameter, and the borders at which they stop recovering."""

from __future__ import annotations

import csv
import io
import json
import subprocess
import sys
from pathlib import Path
from typing import Any, Dict, List, Tuple

import pytest
from conftest import TOP, python_environment
from test_pictures import FULL, SVG, looks_at_texts, parsed, texts

from hikebox import Quota, StormError, recurs, storm
from hikebox.cli.main import main
from hikebox.cli.scenario import scenario_of
from hikebox.storms.axes import AXES, values_of
from hikebox.storms.parameters import Parameters, RateSpan, Slow, Span
from hikebox.budgets.terms import Terms
from hikebox.storms.populations import Clients
from hikebox.sweeps import Sweep, find, sweep

BRIEF: Dict[str, Any] = {"seconds": 5, "outage": (1, 2), "rate": 100, "capacity": 120}
TENTH = Quota(10, 0.1, 1)


def two() -> List[Any]:
    return [storm(recurs(3), **BRIEF), storm(recurs(3), limit=TENTH, **BRIEF)]


#: What each value of a sweep is in the words of `storm`.
ALONG: List[Tuple[str, List[Any], Any]] = [
    ("rate", [50, 110, 300], lambda value: {"rate": value}),
    ("together", [1, 10, 50], lambda value: {"together": value}),
    ("clients", [10, 200, 900], lambda value: {"rate": value, "together": value}),
    ("seconds", [3, 4], lambda value: {"seconds": value}),
    ("capacity", [90, 150], lambda value: {"capacity": value}),
    ("queue", [0, 30], lambda value: {"queue": value}),
    ("patience", [0.05, 0.5], lambda value: {"patience": value}),
    ("outage", [0.5, 2], lambda value: {"outage": (1, 1 + value)}),
]


@pytest.mark.parametrize("name, values, options", ALONG, ids=lambda value: value if isinstance(value, str) else "")
def test_a_sweep_has_the_numbers_of_single_storms(name: str, values: List[Any], options: Any) -> None:
    swept = sweep(two(), **{name: values})
    for line, budget in zip(swept.lines, (None, TENTH)):
        single = [storm(recurs(3), **{**BRIEF, **options(value)}, limit=budget) for value in values]
        assert list(line) == single


def test_a_limit_is_swept_where_a_storm_has_it() -> None:
    swept = sweep(two(), share=[0, 0.05, 0.5])
    assert [each.totals.tickets for each in swept.lines[0]] == [0, 0, 0]
    wanted = [storm(recurs(3), limit=Quota(10, share, 1), **BRIEF) for share in (0, 0.05, 0.5)]
    assert list(swept.lines[1]) == wanted
    reserves = sweep(two(), reserve=[0, 100]).lines[1]
    assert list(reserves) == [storm(recurs(3), limit=Quota(reserve, 0.1, 1), **BRIEF) for reserve in (0, 100)]
    budgets = sweep([storm(recurs(3), limit=5, **BRIEF)], budget=[0, 20]).lines[0]
    assert [each.totals.tickets for each in budgets] == [0, 20]


def test_measures_are_those_of_the_totals() -> None:
    swept = sweep([storm(FULL), storm(recurs(3))], outage=[0, 10])
    assert swept.numbers("succeeded")[0] == [100 * each.totals.won / each.totals.requests for each in swept.lines[0]]
    assert swept.numbers("calls")[0] == [each.totals.hundredths / 100 for each in swept.lines[0]]
    # There is nothing to recover from without an outage, and no recovery from one of 10 s.
    assert swept.numbers("recovery") == [[None, float("inf")], [None, 0.0]]
    assert swept.numbers("slowest")[0] == [0.001, 22.283]
    with pytest.raises(StormError, match="measure: expected one of succeeded, calls, recovery, slowest, got 'x'"):
        swept.numbers("x")


def test_what_is_no_sweep_is_refused() -> None:
    base = storm(recurs(0), **BRIEF)
    wrong: List[Tuple[Dict[str, List[int]], str]] = [
        ({}, "one parameter"),
        ({"rate": [1], "queue": [2]}, "one parameter"),
        ({"rats": [1]}, "'rats'"),
    ]
    for given, said in wrong:
        with pytest.raises(TypeError, match=said):
            sweep(base, **given)
    with pytest.raises(StormError, match="rate: expected 1 to 1000000, got 0"):
        sweep(base, rate=[0, 1])
    with pytest.raises(StormError, match="sweep: expected 1 to 64 values, got 65"):
        sweep(base, rate=range(1, 66))
    for values in ([2, 1], [1, 1]):
        with pytest.raises(StormError, match=f"rate: expected values, each greater .*, got .{values[0]}, 1.$"):
            sweep(base, rate=values)
    with pytest.raises(TypeError):
        sweep(base, rate=[1.5])
    with pytest.raises(StormError, match="sweep: outage: a duration of nan seconds"):
        sweep(base, outage=[float("nan")])
    anything: Any = recurs(0)
    for storms, given in [(anything, {"rate": [1]}), ([anything], {"rate": [1]}), (base, {"rate": anything})]:
        with pytest.raises(TypeError, match="sweep: expected .*, got recurs"):
            sweep(storms, **given)
    with pytest.raises(TypeError, match="find: expected a storm, got recurs"):
        find(anything, "quota")
    with pytest.raises(StormError, match="measure: expected one of succeeded, calls, recovery, slowest, got 'x'"):
        sweep(base, rate=[1]).table("x")


def test_it_is_told_as_a_table_csv_and_json() -> None:
    swept = sweep(two(), rate=[50, 100])
    lines = str(swept).splitlines()
    # 50 or 100 of 250 or 500 requests come in the outage, and fail; of 15 and 20 tickets none saves one.
    assert lines == [
        "recurs(3)",
        "",
        "requests that succeeded, in %",
        "rate  no limit  quota 10/10%/1s",
        "50       80.00            80.00",
        "100      80.00            80.00",
    ]
    rows = list(csv.DictReader(io.StringIO(swept.to_csv())))
    assert [(row["rate"], row["limit"]) for row in rows] == [
        ("50", "no limit"),
        ("100", "no limit"),
        ("50", "quota 10/10%/1s"),
        ("100", "quota 10/10%/1s"),
    ]
    told = json.loads(swept.to_json())
    assert told["values"] == [50, 100] and told["lines"][0]["policy"] == {"recurs": 3}
    for row, each in zip(rows, [each for line in swept.lines for each in line]):
        assert row["won"] == str(each.totals.won) and row["policy"] == "recurs(3)"
    totals = [each for line in told["lines"] for each in line["totals"]]
    assert totals == [json.loads(each.to_json())["totals"] for line in swept.lines for each in line]
    assert json.loads(sweep(two(), share=[0.05]).to_json())["values"] == [5]


@pytest.mark.parametrize("width", [280, 320, 760, 1400])
def test_its_picture_has_a_line_a_storm(width: int) -> None:
    storms = [storm(FULL), storm(FULL, limit=TENTH), storm(FULL, limit=5000)]
    root = parsed(sweep(storms, rate=range(200, 1601, 200)).svg("succeeded", "calls", "recovery", width=width))
    looks_at_texts(root)
    words = texts(root)
    assert {"no limit", "quota 10/10%/1s", "budget of 5,000", "requests a second", "calls for each request"} <= set(
        words
    )
    assert "never" in words
    for index in range(3):
        drawn = [part for part in root.iter(SVG + "path") if part.get("class") == f"line{index}"]
        # (one in the legend, and one in each panel, of eight values)
        assert [part.get("d").count("L") for part in drawn if "h36" not in part.get("d")] == [7, 7, 7]


@pytest.mark.parametrize("width", [280, 760])
def test_a_storm_of_a_sweep_that_is_cut_is_marked(width: int) -> None:
    swept = sweep(storm(recurs(0), calls=300, **BRIEF), rate=[50, 110])
    assert [each.totals.cut for each in swept.lines[0]] == [False, True]
    # Of the 300 requests before the cut 110 come in the outage, and fail.
    assert str(swept).splitlines()[-2:] == ["50        80.00", "110   63.33 cut"]
    picture = swept.svg(width=width)
    root = parsed(picture)
    looks_at_texts(root)
    assert "the storm was cut" in texts(root) and "63.33 (cut)." in picture
    hollow = [part for part in root.iter(SVG + "circle") if part.get("class") == "ground"]
    # (one in the legend)
    assert len(hollow) == 2
    assert "the storm was cut" not in texts(parsed(sweep(two(), rate=[50, 100]).svg()))


def test_a_table_rounds_no_share_to_all_or_none() -> None:
    # Of 48,000 requests two come while the peer is away for 2 ms; or all but one.
    for outage, won, shown in [((10, 10.002), 47_998, "99.99"), ((0, 59.998), 1, "0.01")]:
        swept = sweep(storm(recurs(0), outage=outage), rate=[800])
        assert swept.lines[0][0].totals.won == won
        assert str(swept).splitlines()[-1].split() == ["800", shown]
        assert swept.table("slowest").splitlines()[-1].split() == ["800", "0.001"]


def test_a_line_does_not_name_the_number_that_is_swept() -> None:
    for along, name in [("share", "quota 10/a share/1s"), ("reserve", "quota a reserve/10%/1s")]:
        swept = sweep([storm(recurs(3), limit=TENTH, **BRIEF)], **{along: [0, 1]})
        assert swept.names == (name,) and name in texts(parsed(swept.svg()))
        assert json.loads(swept.to_json())["lines"][0]["limit"] == name
    swept = sweep(two() + [storm(recurs(3), limit=7, **BRIEF)], budget=[5, 100])
    assert swept.names == ("no limit", "quota 10/10%/1s", "a budget")


def test_a_wide_range_of_values_goes_by_ratios() -> None:
    herd: Any = {"together": 100, "rate": 100, "seconds": 1, "outage": None, "queue": 5}
    root = parsed(sweep(storm(recurs(3), **herd), clients=[10, 100, 1000]).svg("calls"))
    (drawn,) = [
        part.get("d") for part in root.iter(SVG + "path") if part.get("class") == "line0" and "h36" not in part.get("d")
    ]
    x = [float(point.split(" ")[0]) for point in drawn[1:].split("L")]
    assert x[1] - x[0] == pytest.approx(x[2] - x[1], abs=0.2)


def test_an_axis_of_whole_numbers_has_marks_at_whole_numbers() -> None:
    herd: Any = {"together": 1, "rate": 1, "seconds": 1, "outage": None}
    for values, most in [([1, 10], "10"), ([1, 3], "3"), ([1, 1_000_000], "1,000,000")]:
        words = texts(parsed(sweep(storm(recurs(0), **herd), clients=values).svg("calls")))
        # (first come the marks below the panel, then the numbers at its left)
        marks = words[words.index("calls for each request") + 1 : words.index("0")]
        assert marks[0] == "1" and marks[-1] == most and not [mark for mark in marks if "." in mark or "e" in mark]
    patience = texts(parsed(sweep(storm(recurs(0), **herd), patience=[1, 2]).svg("calls")))
    assert "1.5" in patience


def test_values_are_spelt_in_the_units_of_the_command_line() -> None:
    assert values_of("outage=1000..30000/3") == ("outage", [1000, 15_500, 30_000])
    assert values_of("clients=5") == ("clients", [5])
    for name, axis in AXES.items():
        assert axis.put(Parameters(tickets=Terms(1, 1, 1000), beside=(Clients(5, recurs(1)),)), 7).checked()
        assert values_of(f"{name}=7")[0] == name


# Borders


def test_a_border_has_the_last_value_that_recovers_and_the_first_that_does_not() -> None:
    brown: Any = {"outage": None, "slow": (10, 20, 0.5)}
    found = find(storm(recurs(3), **brown), "quota")
    assert found.value is not None
    for share, recovers in ((found.value, True), (found.value + 1, False)):
        played = storm(recurs(3), limit=Quota(10, share / 1000, 1), **brown)
        assert (played.totals.recovered_ms is not None) == recovers
        assert dict(found.tried)[share] == played


def test_borders_of_retries_and_of_patience() -> None:
    retries = find(storm(FULL), "retries")
    assert retries.value is not None and retries.value < 8
    assert storm(FULL & recurs(retries.value)).totals.recovered_ms is not None
    assert storm(FULL & recurs(retries.value + 1)).totals.recovered_ms is None
    patience = find(storm(FULL), "patience")
    assert patience.value is not None
    assert storm(FULL, patience=patience.value / 1000).totals.recovered_ms is not None
    assert storm(FULL, patience=(patience.value - 1) / 1000).totals.recovered_ms is None


def test_a_storm_that_is_cut_did_not_recover() -> None:
    found = find(storm(recurs(0), calls=300, **BRIEF), "quota")
    assert found.value is None and str(found).splitlines()[-1].endswith("  cut")


def test_what_never_recovers_and_what_always_does() -> None:
    assert find(storm(FULL, rate=2000), "quota").value is None
    assert str(find(storm(FULL, rate=2000), "quota")).startswith(
        "greatest share of a quota with which the peer recovers: none\n"
    )
    always = find(storm(recurs(0), **BRIEF), "retries")
    assert always.value == 64 and [value for value, _ in always.tried] == [0, 64]
    assert str(always).startswith(
        "most retries of a request with which the peer recovers: 64 (the end of the range: no border found)\n"
    )
    with pytest.raises(StormError, match="find: expected a storm with an outage, a brown-out or a surge, got"):
        find(storm(recurs(0), outage=None, seconds=1), "quota")
    with pytest.raises(StormError, match="find: expected one of quota, retries, patience, beside, got 'x'"):
        find(storm(recurs(0), **BRIEF), "x")


# The program


def test_the_program_sweeps_and_finds(capsys: pytest.CaptureFixture[str], tmp_path: Path) -> None:
    base = ["storm", "--seconds", "5", "--outage", "1000..2000", "--rate", "100", "--capacity", "120", "recurs(3)"]
    swept = sweep(two(), rate=[50, 100])
    along = ["--quota", "10/10%/1s", "--without", "--sweep", "rate=50,100"]
    forms: List[Tuple[List[str], str]] = [
        ([], f"{swept}\n"),
        (["--measure", "calls", "--measure", "slowest"], swept.table("calls", "slowest") + "\n"),
        (["--csv"], swept.to_csv()),
        (["--json"], swept.to_json() + "\n"),
        (["--svg", "-", "--width", "400", "--measure", "calls"], swept.svg("calls", width=400)),
    ]
    for words, wanted in forms:
        assert main([*base, *along, *words]) == 0
        assert capsys.readouterr().out == wanted
    assert main([*base, "--find", "retries", "--json"]) == 0
    assert json.loads(capsys.readouterr().out)["find"] == "retries"
    assert main([*base, "--find", "retries"]) == 0
    assert capsys.readouterr().out == f"{find(two()[0], 'retries')}\n"


def test_names_stand_in_tables_and_pictures(capsys: pytest.CaptureFixture[str]) -> None:
    base = ["storm", "--seconds", "2", "--budget", "5", "--without", "recurs(1)", "--name", "wild", "--name", "tame"]
    assert main(base) == 0
    assert capsys.readouterr().out.startswith("1: wild\n2: tame\n")
    along: List[List[str]] = [[], ["--sweep", "rate=5,10"]]
    for more in along:
        assert main([*base, *more, "--svg", "-"]) == 0
        assert {"wild", "tame"} <= set(texts(parsed(capsys.readouterr().out)))


def test_names_that_have_no_room_stand_above_the_table() -> None:
    wide = sweep([storm(recurs(3), **BRIEF), storm(FULL & recurs(3), **BRIEF)], rate=[50])
    # Of 250 requests the 50 of the second without the peer fail, also after retries at once.
    assert str(wide).splitlines()[:2] == ["1: recurs(3)", f"2: {FULL & recurs(3)!r}"]
    assert [line.split()[:2] for line in str(wide).splitlines()[-2:]] == [["rate", "1"], ["50", "80.00"]]
    assert "\u00a0" not in str(wide)


def test_equal_storms_of_a_sweep_are_played_once(monkeypatch: pytest.MonkeyPatch) -> None:
    from hikebox.storms import cores
    from hikebox.storms.storm import play

    calls: List[Any] = []

    def counted(*how: Any) -> Any:
        calls.append(how)
        return play(*how)

    monkeypatch.setattr(cores, "play", counted)
    sweep(two(), share=[0.1, 0.2, 0.3])
    assert len(calls) == 4


# Scenarios


def written(folder: Path, told: Any) -> str:
    file = folder / "scenario.json"
    file.write_text(told if isinstance(told, str) else json.dumps(told))
    return str(file)


def test_a_scenario_is_a_file(tmp_path: Path, capsys: pytest.CaptureFixture[str]) -> None:
    told = {
        "title": "A story",
        "storm": {"rate": 100, "capacity": 120, "seconds": 5, "outage": [1000, 2000], "slow": [2000, 3000, 50]},
        "lines": [
            {"name": "wild", "policy": "recurs(3)"},
            {"name": "tame", "policy": {"recurs": 3}, "limit": "10/10%/1s"},
        ],
    }
    file = written(tmp_path, told)
    read = scenario_of(file)
    assert read.parameters == Parameters(
        rate=100, capacity=120, seconds=5, outage=Span(1000, 2000), slow=Slow(2000, 3000, 50)
    )
    assert [line.tickets for line in read.lines] == [None, Terms(10, 100, 1000)]
    assert main(["storm", "--scenario", file]) == 0
    out = capsys.readouterr().out
    wanted = [storm(recurs(3), **BRIEF, slow=(2, 3, 0.5), limit=budget).totals for budget in (None, TENTH)]
    assert out.startswith("1: wild\n2: tame\n")
    assert [line.split()[1:] for line in out.splitlines() if line.startswith("calls")] == [
        [str(each.calls) for each in wanted]
    ]
    assert main(["storm", "--scenario", file, "--svg", "-"]) == 0
    assert {"A story", "wild", "tame"} <= set(texts(parsed(capsys.readouterr().out)))
    # A policy, an option or a limit of the command line stands in the place of the file's.
    assert main(["storm", "--scenario", file, "--rate", "50", "--json", "recurs(0)"]) == 0
    assert json.loads(capsys.readouterr().out)["totals"]["requests"] == 250
    assert main(["storm", "--scenario", file, "--budget", "1", "--sweep", "rate=10,20"]) == 0
    assert capsys.readouterr().out.splitlines()[3] == "rate  budget of 1  budget of 1"


def test_a_scenario_has_rates_over_time(tmp_path: Path, capsys: pytest.CaptureFixture[str]) -> None:
    told = {
        "storm": {"rate": 100, "capacity": 120, "seconds": 5, "rates": [[500, 800, 300], [800, 900, 0]]},
        "lines": [{"policy": "recurs(3)"}],
    }
    file = written(tmp_path, told)
    assert scenario_of(file).parameters.rates == (RateSpan(500, 800, 300), RateSpan(800, 900, 0))
    assert main(["storm", "--scenario", file, "--json"]) == 0
    played = storm(recurs(3), rate=100, capacity=120, seconds=5, outage=None, rates=[(0.5, 0.8, 300), (0.8, 0.9, 0)])
    assert capsys.readouterr().out == f"{played.to_json()}\n"
    assert played.totals.requests == 550
    # Between the spans it is the rate that a sweep changes: 4.6 s at each, and 90 requests in the first span.
    swept = sweep([played], rate=[50, 200])
    assert [each.totals.requests for each in swept.lines[0]] == [320, 1010]


BAD_SCENARIOS: List[Tuple[Any, str]] = [
    ("{", "expected JSON: "),
    ("[" * 100_000, "expected JSON: "),
    ([], "the file: expected an object, got []"),
    ({"strom": {}}, "the file: expected $schema, about, left_out, lines, sources, storm, title, got 'strom'"),
    ({"storm": {"rates": 5}}, "rates: expected a list of spans, got 5"),
    ({"storm": {"rates": [[1, 2]]}}, "rates: expected a list of 3 numbers, got [1, 2]"),
    ({"storm": {"rates": [[1, 2, "x"]]}}, 'rates: expected a whole number, got "x"'),
    ({"storm": {"rates": [[2, 1, 3]]}}, "rates: expected a span that ends after it begins, got 2..1"),
    ({"title": 5}, "title: expected a text of printable signs, got 5"),
    ({"title": "\x1b[2J"}, 'title: expected a text of printable signs, got "\\u001b[2J"'),
    (
        {"lines": [{"policy": "recurs(1)", "name": "\ud800"}]},
        'lines[0].name: expected a text of printable signs, got "\\ud800"',
    ),
    ({"storm": {"rate": float("inf")}}, "rate: expected a whole number, got Infinity"),
    ({"storm": {"rate": "5"}}, 'rate: expected a whole number, got "5"'),
    ({"storm": {"rate": 0}}, "rate: expected 1 to 1000000, got 0"),
    ({"storm": {"outage": [1]}}, "outage: expected a list of 2 numbers, got [1]"),
    ({"storm": {"outage": [2, 1]}}, "outage: it ends at 1 ms, before it begins at 2 ms"),
    ({"lines": {}}, "lines: expected a list of at most 64 lines, got {}"),
    ({"lines": [5]}, "lines[0]: expected an object, got 5"),
    ({"lines": [{"name": "x"}]}, "lines[0]: expected a policy, got none"),
    ({"lines": [{"policy": {"recurs": -1}}]}, 'lines[0].policy: not a plan: expected {"recurs":N}'),
    (
        {"lines": [{"policy": "recurs(1)"}, {"policy": "recs(1)"}]},
        "lines[1].policy: not a plan: no builder is called 'recs'; did you mean 'recurs'?",
    ),
    (
        {"lines": [{"policy": "recurs(1)", "limit": "x"}]},
        "lines[0].limit: expected RESERVE/SHARE%/PERIOD, such as 10/20%/60s (units: ms, s, m, h, d), got 'x'",
    ),
    ({"lines": [{"policy": "recurs(1)", "limit": -1}]}, "lines[0].limit: expected 0 to 4294967296, got -1"),
    ({"lines": [{"policy": "recurs(1)", "limit": 1.5}]}, "lines[0].limit: expected a whole number, got 1.5"),
]


@pytest.mark.parametrize("told, said", BAD_SCENARIOS, ids=lambda value: str(value)[:30])
def test_a_bad_scenario_is_told_with_its_place(
    told: Any, said: str, tmp_path: Path, capsys: pytest.CaptureFixture[str]
) -> None:
    file = written(tmp_path, told)
    assert main(["storm", "--scenario", file]) == 3
    printed, errors = capsys.readouterr()
    assert printed == "" and errors.startswith(f"hikebox: scenario: {file}: {said}"), errors


LONG = "9" * 4000


@pytest.mark.parametrize(
    "told",
    [
        {LONG: 1},
        {"title": LONG, "lines": LONG},
        {"storm": {"rate": int(LONG)}},
        {"storm": {"words": -int(LONG)}},
        {"storm": {"outage": [0, int(LONG)]}},
        {"lines": [{"policy": "recurs(1)", "limit": int(LONG)}]},
        {"lines": [{"policy": "recurs(1)", "limit": f"{LONG}/1%/1s"}]},
        {"lines": [{"policy": "recurs(1)", "limit": f"grpc:{LONG}"}]},
        {"lines": [{"policy": f"{LONG}()"}]},
    ],
    ids=lambda told: str(told)[:30],
)
def test_what_is_said_of_a_bad_scenario_is_short(told: Any, tmp_path: Path, capsys: pytest.CaptureFixture[str]) -> None:
    assert main(["storm", "--scenario", written(tmp_path, told)]) == 3
    assert len(capsys.readouterr().err) < 1000


def test_the_schema_takes_what_the_program_takes() -> None:
    jsonschema = pytest.importorskip("jsonschema")
    file = TOP / "schemas" / "scenario.schema.json"
    schema = json.loads(file.read_text())
    jsonschema.Draft7Validator.check_schema(schema)
    validator = jsonschema.Draft7Validator(schema, resolver=jsonschema.RefResolver(file.as_uri(), schema))
    for example in EXAMPLES:
        assert list(validator.iter_errors(json.loads(example.read_text()))) == []
    # (that a span ends after it begins a schema can't say)
    taken = [
        said.split(":")[0] for told, said in BAD_SCENARIOS if not isinstance(told, str) and validator.is_valid(told)
    ]
    # (nor which signs are printable, nor what an expression says)
    assert taken == ["rates", "title", "lines[0].name", "outage", "lines[1].policy"]


EXAMPLES = sorted((TOP / "examples" / "storms").glob("*.json"))


@pytest.mark.parametrize("file", EXAMPLES, ids=[file.stem for file in EXAMPLES])
def test_the_examples_are_played(file: Path) -> None:
    told = json.loads(file.read_text())
    assert told["sources"] and told["left_out"] and scenario_of(str(file)).lines
    command = [sys.executable, "-m", "hikebox", "storm", "--scenario", str(file), "--svg", "-"]
    done = subprocess.run(command, capture_output=True, text=True, env=python_environment())
    assert (done.returncode, done.stderr) == (0, "")
    looks_at_texts(parsed(done.stdout))


def test_a_notebook_shows_the_picture() -> None:
    swept: Sweep = sweep(storm(recurs(0), **BRIEF), rate=[50, 60])
    assert swept._repr_svg_() == swept.svg("succeeded")
    assert repr(swept) == "<Sweep of 2 storms along rate>"


def test_a_sweep_along_one_parameter_that_some_storm_has() -> None:
    with pytest.raises(StormError, match="share: expected a storm with a limit that has it, got none"):
        sweep(storm(recurs(3)), share=[0.1, 0.2])
