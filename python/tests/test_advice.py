"""`hikebox advise`: the rule, the stories and the limits that it plays, and what it says."""

from __future__ import annotations

import json
import os
import pty
import re
import resource
import shlex
import subprocess
import sys
from pathlib import Path
from typing import Any, Dict, List, Tuple

import pytest
from conftest import TOP, heed_signals, python_environment
from test_pictures import looks_at_texts, parsed, texts

import hikebox
from hikebox import Bucket, CallLimit, Policy, recurs, storm
from hikebox.advice.candidates import KINDS, Candidate, candidates
from hikebox.advice.code import in_python, in_rust, in_shell
from hikebox.advice.rule import Advice, Outcome, Trial, advised, best_of_kinds
from hikebox.advice.stories import stories_of, weather_of
from hikebox.advice.trials import advise
from hikebox.cli.limits import limit as limit_of_a_run
from hikebox.cli.storm_options import tickets_of
from hikebox.limits.breaker import times_of
from hikebox.limits.terms import LimitTerms
from hikebox.limits.spellings import limit_of
from hikebox.storms.parameters import Parameters, RateSpan, Slow, Span
from hikebox.storms.storm import play
from hikebox.budgets.terms import Terms

FULL = "recurs(8) & exponential(0.1, 2).cap(10).jittered(0, 1)"
NEVER = None


def trial(kind: str, *outcomes: Tuple[int, Any], calls: int = 100) -> Trial:
    """A trial by what is won of 100 requests in each story, and when the peer is back."""
    return Trial(kind, tuple(Outcome(100, won, back, calls) for won, back in outcomes))


# The rule


def test_the_one_to_take_recovers_in_every_story_and_its_worst_is_the_best() -> None:
    trials = [
        trial("none", (99, NEVER), (99, 20)),  # the best of all shares, but not back in one story
        trial("quota", (83, 20), (35, 50)),  # its worst is 35
        trial("bucket", (83, 20), (63, 33)),  # its worst is 63
        trial("breaker", (70, 20), (81, 23)),  # its worst is 70, the best
    ]
    assert advised(trials) == Advice(take=3, runner_up=2, nearest=3)
    assert best_of_kinds(trials) == (3, 2, 1, 0)


def test_the_runner_up_is_of_another_kind_and_recovers() -> None:
    trials = [
        trial("breaker", (81, 20)),
        trial("breaker", (80, 20)),
        trial("throttle", (79, NEVER)),
        trial("quota", (30, 20)),
    ]
    assert advised(trials) == Advice(take=0, runner_up=3, nearest=0)
    assert advised(trials[:3]) == Advice(take=0, runner_up=None, nearest=0)
    assert best_of_kinds(trials) == (0, 3, 2)


def test_of_equals_the_one_with_the_fewest_calls_and_then_the_first() -> None:
    alike = [
        trial("quota", (80, 20), calls=300),
        trial("bucket", (80, 30), calls=200),
        trial("quota", (80, 20), calls=200),
    ]
    assert advised(alike) == Advice(take=1, runner_up=2, nearest=1)
    assert advised(alike[::2]).take == 1 and advised([alike[2], alike[1]]).take == 0


def test_where_none_recovers_the_nearest_is_the_one_that_does_so_most_often() -> None:
    trials = [
        trial("quota", (90, 20), (90, NEVER), (90, NEVER)),
        trial("bucket", (50, 20), (40, 30), (60, NEVER)),
        trial("breaker", (50, 20), (45, 30), (60, NEVER)),
    ]
    assert advised(trials) == Advice(take=None, runner_up=None, nearest=2)


def test_shares_are_compared_exactly_and_a_story_without_requests_is_no_worst() -> None:
    third = Trial("quota", (Outcome(3, 1, 0), Outcome(0, 0, 0)))
    more = Trial("bucket", (Outcome(3 * 10**17, 10**17 + 1, 0), Outcome(0, 0, 0)))
    assert advised([third, more]).take == 1 and third.worst == 0


# The stories


def test_the_stories_of_a_minute() -> None:
    base = Parameters()
    none = Span(0, 0)
    found = {story.name: story.parameters for story in stories_of(base, weather_of(base))}
    assert found == {
        "outage": Parameters(outage=Span(10_000, 20_000)),
        "brown-out": Parameters(outage=none, slow=Slow(10_000, 20_000, 50)),
        "replica": Parameters(capacity=500, replicas=2, down=1, outage=Span(10_000, 20_000)),
        "surge": Parameters(outage=none, rates=(RateSpan(10_000, 15_000, 2400),)),
    }


def test_the_stories_of_other_traffic_and_another_peer() -> None:
    base = Parameters(rate=90, seconds=120, capacity=101, replicas=3, rates=(RateSpan(0, 25_000, 60),))
    found = {story.name: story.parameters for story in stories_of(base, weather_of(base))}
    assert found["replica"] == base._replace(outage=Span(20_000, 40_000), down=1)
    # In the surge, from 20 to 30 s, 60 requests a second come for five seconds and 90 for five: 75 on average.
    assert found["surge"].rates == (RateSpan(0, 20_000, 60), RateSpan(20_000, 30_000, 225))
    odd = stories_of(Parameters(capacity=101), weather_of(Parameters()))[2].parameters
    assert (odd.capacity, odd.replicas) == (51, 2)
    given = weather_of(base, Span(1, 2), Slow(3, 4, 5), RateSpan(6, 7, 8))
    assert given == (Span(1, 2), Slow(3, 4, 5), RateSpan(6, 7, 8))
    overlaid = stories_of(base, weather_of(base, surge=RateSpan(1000, 2000, 8)))[3].parameters.rates
    assert overlaid == (RateSpan(0, 1000, 60), RateSpan(1000, 2000, 8), RateSpan(2000, 25_000, 60))


#: The share in per cent and the moment of recovery in seconds, in each story.
TABLE: List[Tuple[Any, List[Tuple[float, Any]]]] = [
    (None, [(18.4, NEVER), (18.6, NEVER), (19.0, NEVER), (16.2, NEVER)]),
    (Terms(10, 200, 1000), [(83.3, 20), (18.1, NEVER), (93.4, 20), (15.8, NEVER)]),
    (Terms(10, 100, 1000), [(83.3, 20), (35.2, 50), (92.6, 20), (22.2, 56)]),
    (Terms(1, 50, 1000), [(83.3, 20), (55.0, 38), (92.1, 20), (39.9, 44)]),
    (limit_of("aws"), [(83.3, 20), (63.5, 33), (93.6, 20), (48.0, 38)]),
    (limit_of("inflight:3/200"), [(83.3, 20), (50.4, 41), (91.8, 20), (38.1, 45)]),
    (limit_of("breaker:5/1/1000"), [(50.0, 40), (49.2, 42), (49.0, 42), (43.2, 41)]),
    (limit_of("breaker:5/1/1000", (5000,)), [(83.3, 20), (81.6, 23), (82.3, 22), (78.9, 16)]),
    (limit_of("throttle:2000/60000"), [(60.7, NEVER), (38.4, NEVER), (48.1, NEVER), (35.9, NEVER)]),
]


def test_the_advice_of_the_usual_limits_is_the_breaker_that_is_open_for_five_seconds() -> None:
    base = Parameters()
    tried = [(Policy.parse(FULL), Candidate(str(number), limit, "", "", "")) for number, (limit, _) in enumerate(TABLE)]
    found = advise(tried, base, weather_of(base))
    for trial, (_, row) in zip(found.trials, TABLE):
        assert [each.recovered and each.recovered // 1000 for each in trial.outcomes] == [back for _, back in row]
        shares = [100 * float(each.share) for each in trial.outcomes]
        assert shares == pytest.approx([share for share, _ in row], abs=0.0501)
    assert found.advice == Advice(take=7, runner_up=4, nearest=7)
    assert found.remedies == ()


def test_what_the_page_says_of_its_advice_is_so() -> None:
    page = (TOP / "docs" / "STORMS.md").read_text()
    found = json.loads(told("--json", FULL)[1])
    assert len(found["trials"]) == 73 and "under 73 limits" in page
    best, other = found["trials"][found["take"]], found["trials"][found["runner_up"]]
    assert (best["limit"], other["limit"]) == ("inflight:300/0/300", "breaker:5/32/1/1000, open 1 s")
    worst = [min(1000 * each["won"] // each["requests"] for each in trial["stories"]) for trial in (best, other)]
    assert worst == [839, 814]  # 83.95.. and 81.45..
    said = "A bulkhead of 300 calls brings the peer back in all four stories, with 84.0 % in the worst; "
    assert f"{said}a breaker that is open for a second has 81.5 % in its worst" in page
    rule = advised.__doc__ or ""
    assert "the one with the fewest calls" in rule and "the one with the fewest calls" in page


# The limits


def looks_the_same(terms: LimitTerms, limit: Candidate) -> None:
    """The terms are those of the limit, and a breaker is open for as long each time."""
    assert isinstance(limit.tickets, LimitTerms)
    assert (terms.draws_on, terms.numbers) == (limit.tickets.draws_on, limit.tickets.numbers), limit.name
    assert set(terms.times) == set(limit.tickets.times) == ({1000 * limit.open_for} - {0}), limit.name


def names() -> Dict[str, Any]:
    """What the package has, as a program that imports all of it sees it."""
    return {name: getattr(hikebox, name) for name in hikebox.__all__}


def test_each_limit_is_spelt_as_it_is_played(tmp_path: Path) -> None:
    tried = candidates(500)
    assert [kind for kind in KINDS if kind not in {each.kind for each in tried}] == []
    assert len(tried) == len({each.name for each in tried}) == 73
    for each in tried:
        made = eval(each.python, names())
        if isinstance(made, CallLimit):
            looks_the_same(made.on_storm(), each)
        else:
            assert (made.terms if made else made) == each.tickets, each.name
        if each.shell:
            waits = Policy.parse(f"spaced({each.open_for})") if each.open_for else None
            assert limit_of_a_run(f"{each.shell}@{tmp_path}", waits)
            read = tickets_of(each.shell)
            if isinstance(read, LimitTerms):
                times = () if waits is None else tuple(times_of(waits, "open"))
                looks_the_same(read._replace(times=times), each)
            else:
                assert read == each.tickets, each.name
    assert {each.kind for each in tried if not each.shell} == {"none", "inflight", "throttle", "adaptive"}


def test_a_probe_has_as_long_as_the_clients_wait() -> None:
    def deadlines(patience: int) -> List[int]:
        return [eval(each.python, names()).terms[3] for each in candidates(patience, ["breaker"])]

    assert set(deadlines(500)) == {1000} and set(deadlines(2345)) == {2345}


# What it says


def told(*words: str, text: str = "", **how: Any) -> Tuple[int, str, str]:
    """Its status, its output and its errors."""
    command = [sys.executable, "-m", "hikebox", "advise", *words]
    done = subprocess.run(command, input=text, capture_output=True, text=True, env=python_environment(), **how)
    return done.returncode, done.stdout, done.stderr


BRIEF = ["--seconds", "12", "--rate", "100", "--capacity", "125", "--queue", "600"]


def test_the_same_seed_has_the_same_answer() -> None:
    first = told(*BRIEF, FULL)
    assert first[0] == 0 and first[2] == "" and "\nTake " in first[1]
    assert told(*BRIEF, FULL, preexec_fn=lambda: os.sched_setaffinity(0, {min(os.sched_getaffinity(0))})) == first
    assert told(*BRIEF, "--json", FULL) != told(*BRIEF, "--json", "--words", "1", FULL)


def test_the_answer_as_json_is_that_of_single_storms() -> None:
    status, output, _ = told(*BRIEF, "--kind", "bucket", "--kind", "none", "--json", "recurs(3)")
    found = json.loads(output)
    assert status == 0 and output.count("\n") == 1
    assert [each["limit"] for each in found["trials"]][:2] == ["no limit", "aws"] and len(found["trials"]) == 8
    assert found["stories"] == ["outage", "brown-out", "replica", "surge"]
    how: Any = {"seconds": 12, "rate": 100, "capacity": 125, "queue": 600, "outage": None, "limit": Bucket.aws()}
    how["slow"] = (2, 4, 0.5)
    slow = storm(recurs(3), **how).totals
    assert found["trials"][1]["stories"][1] == {
        "requests": 1200,
        "won": slow.won,
        "recovered": slow.recovered_ms,
        "calls": slow.calls,
    }
    assert found["policies"] == [{"recurs": 3}] and found["remedies"] == {}


def test_where_no_limit_helps_it_says_what_would() -> None:
    words = [*BRIEF, "--kind", "none"]
    found = json.loads(told(*words, "--json", FULL)[1])
    assert (found["take"], found["runner_up"], found["nearest"]) == (None, None, 0)
    base = Parameters(seconds=12, rate=100, capacity=125, queue=600)

    def comes_back(**changed: int) -> bool:
        stories = stories_of(base._replace(**changed), weather_of(base))  # type: ignore[arg-type]
        played = [play(Policy.parse(FULL), each.parameters) for each in stories]
        return all(each.totals.recovered_ms is not None for each in played)

    capacity, patience, queue = (found["remedies"][name] for name in ("capacity", "patience", "queue"))
    assert comes_back(capacity=capacity) and not comes_back(capacity=capacity - 1)
    assert comes_back(patience=patience) and not comes_back(patience=patience - 1)
    assert comes_back(queue=queue) and not comes_back(queue=queue + 1)
    said = told(*words, FULL)[1]
    assert "Under none of the 1 limit does the peer come back in every story. The nearest is no limit, " in said
    assert said.endswith(
        f"Under that it would with a capacity of at least {capacity} calls/s or with a patience of at least "
        f"{patience:,} ms or with a queue of at most {queue}.\n"
    )


def test_what_would_not_help_is_said_too() -> None:
    # (a fifth more requests than the peer can do: it sheds or is late for good)
    words = ["--rate", "120", "--capacity", "100", "--seconds", "30", "--queue", "600", "--kind", "bucket"]
    output = told(*words, FULL)[1]
    assert re.search(r"\nUnder that it would with a capacity of at least \d+ calls/s\.\n", output)
    assert output.endswith("It would not with a patience up to 60,000 or with a queue down to 0.\n")
    assert "Python:" not in output


def test_several_policies_are_told_by_their_numbers() -> None:
    output = told(*BRIEF, "--kind", "quota", "--all", "recurs(3)", FULL, "recurs(3)")[1]
    assert output.startswith(f"1: recurs(3)\n2: {FULL}\n100 requests/s for 12 s")
    assert "Of 40 policies under limits" in output and len(re.findall(r"(?m)^[12]: quota \d", output)) == 40
    cookbook = json.loads(told(*BRIEF, "--kind", "none", "--cookbook", "--json")[1])["policies"]
    assert {"recurs": 3} in cookbook and {"recurs": 0} not in cookbook and {"fixed": 1000} not in cookbook


def test_a_limit_that_is_none_is_said_to_be_none() -> None:
    output = told(*BRIEF, "--kind", "none", "recurs(0)")[1]
    assert "\nTake no limit: " in output and output.count("\nNo limit of another kind was tried.\n") == 1
    others = told(*BRIEF, "--kind", "none", "--kind", "breaker", FULL)[1]
    assert "\nTake breaker:" in others
    assert "\nWith no limit of another kind does it come back in every story.\n" in others
    assert "retrying = Retrying(policy)\n" in output and "let limit = Unlimited;\n" in output
    assert output.endswith("hikebox run --policy 'recurs(0)' -- COMMAND\n")


@pytest.mark.parametrize(
    "words, text, status, said",
    [
        (["--kind", "nothing"], "", 2, "argument --kind: invalid choice: 'nothing'"),
        (["--surge", "1..2@3,4..5@6", FULL], "", 2, "--surge: expected one span, as 10000..15000@2400"),
        (["--capacity", "0", FULL], "", 2, "--capacity: expected a number from 1 to 1000000, got '0'"),
        (["--rate", "20000", FULL], "", 2, "rate: 20000 a second for 60 s are 1200000 requests"),
        (["--title", "x", FULL], "", 2, "title: needs --svg"),
        (["--cookbook", FULL], "", 2, "cookbook: expected no policy beside it, got 'recurs(8)"),
        (["--slow", "5..4@50", FULL], "", 2, "slow: it ends at 4 ms, before it begins at 5 ms"),
        (["recurs(3"], "", 3, "hikebox: "),
        ([], "{}", 3, "hikebox: "),
        (["no/such/file"], "", 4, "read failed: no/such/file: No such file or directory"),
        (
            [*BRIEF, "--kind", "none", "--svg", "/no/such/folder/x.svg", FULL],
            "",
            4,
            "write failed: /no/such/folder/x.svg",
        ),
        (["--nonsense"], "", 2, "there is no option --nonsense"),
    ],
)
def test_what_is_wrong_is_told(words: List[str], text: str, status: int, said: str) -> None:
    found = told(*words, text=text)
    assert (
        (found[0], found[1]) == (status, "") and said in found[2] and found[2].count("\n") == 1 + ("usage" in found[2])
    )


@pytest.mark.parametrize("width", [280, 500, 760])
@pytest.mark.parametrize("capacity", [100, 125])
def test_the_picture_has_a_bar_for_each_story_of_the_best_of_each_kind(width: int, capacity: int) -> None:
    words = [*BRIEF, "--capacity", str(capacity), "--kind", "quota", "--kind", "breaker", "--width", str(width)]
    status, output, _ = told(*words, "--svg", "-", FULL)
    root = parsed(output)
    looks_at_texts(root)
    found = json.loads(told(*words, "--json", FULL)[1])
    assert status == 0 and len([word for word in texts(root) if word.startswith(("brown-out", "surge"))]) == 4
    best = found["trials"][found["nearest"]]
    bars = [part for part in root.iter("{http://www.w3.org/2000/svg}rect") if part.get("class") == "won"]
    # (the first bar is that of the outage under the nearest limit)
    columns = {280: 1, 500: 2, 760: 4}[width]
    wide = (width - 24 + 14) / columns - 14
    assert len(bars) == 8
    assert float(bars[0].get("width")) == pytest.approx(wide * best["stories"][0]["won"] / 1200, abs=0.06)


def test_a_terminal_has_a_bar_and_about_the_time_that_is_left() -> None:
    ours, theirs = pty.openpty()
    command = [sys.executable, "-m", "hikebox", "advise", FULL]
    how: Any = {"stdout": subprocess.DEVNULL, "env": python_environment(), "preexec_fn": heed_signals}
    process = subprocess.Popen(command, stderr=theirs, **how)
    os.close(theirs)
    shown = b""
    try:
        while True:
            shown += os.read(ours, 4096)
    except OSError:  # (Linux ends a terminal that nobody has open by an error)
        pass
    os.close(ours)
    assert process.wait(timeout=600) == 0
    bars = re.findall(r"\r\[(#*)(-*)\] (\d+) of 292 storms, about \d+ s left", shown.decode())
    assert bars and all(len(full + rest) == 24 and len(full) == 24 * int(done) // 292 for full, rest, done in bars)
    assert shown.endswith(b"\r\x1b[K")


# The lines to paste


def one_of_each_shape() -> List[Candidate]:
    """A limit of each kind, and of each way to spell one."""
    found: Dict[str, Candidate] = {}
    for each in candidates(500):
        found.setdefault(re.sub(r"[\d./%]+", "", each.python), each)
    return list(found.values())


@pytest.mark.parametrize("limit", one_of_each_shape(), ids=[each.name for each in one_of_each_shape()])
def test_the_lines_to_paste_run(limit: Candidate, tmp_path: Path) -> None:
    names: Dict[str, Any] = {}
    policy = Policy.parse(FULL)
    exec(in_python(policy, limit), names)
    assert names["retrying"](lambda: 7) == 7 and names["policy"] == policy
    line = in_shell(policy, limit)
    if limit.kind in ("inflight", "throttle", "adaptive"):
        assert line == f"# hikebox run can't share {limit.name}\n"
        return
    assert line.startswith("hikebox run --policy ") and line.endswith(" -- COMMAND\n")
    folder = shlex.quote(str(tmp_path / "shared"))
    script = line.replace("/run/lock/peer", folder).replace("hikebox", f"{sys.executable} -m hikebox", 1)
    done = subprocess.run(
        ["sh", "-c", script.replace("COMMAND", "echo here")], env=python_environment(), stdout=subprocess.PIPE
    )
    assert (done.returncode, done.stdout) == (0, b"here\n")


def test_the_lines_in_rust_name_what_they_use() -> None:
    # (python/tests/test_rust_spelling.py puts them into rust/tests/spellings.rs, which runs them)
    breaker = next(each for each in candidates(500) if each.kind == "breaker")
    assert in_rust(recurs(3), breaker) == (
        "use hikebox::{Breaker, CallLimit, Policy, Schedule};\nuse std::time::Duration;\n"
        "let policy = Policy::new(&(Schedule::recurs(3)))?;\n"
        "let limit = CallLimit::new(Breaker { failures: 5, results: None, open_for: "
        "Policy::new(&Schedule::spaced(Duration::from_secs(1)))?, probes: 1, "
        "probe_deadline: Duration::from_secs(1) })?;\n"
    )


# How long it takes


def test_the_six_scenarios_of_the_page_take_less_than_a_minute_of_two_processors() -> None:
    scenarios = [
        [FULL],
        ["recurs(3)"],
        ["--queue", "500", "recurs(8) & exponential(0.1, 2).cap(10)"],
        ["--rate", "400", "--capacity", "500", "--replicas", "2", "recurs(1)"],
        [
            "--rate",
            "300",
            "--capacity",
            "400",
            "--patience",
            "2000",
            "--seconds",
            "120",
            "recurs(5) & exponential(0.2, 2).cap(5)",
        ],
        ["--rate", "1600", "--seconds", "30", FULL],
    ]
    before = resource.getrusage(resource.RUSAGE_CHILDREN)
    for words in scenarios:
        assert told(*words)[0] == 0
    after = resource.getrusage(resource.RUSAGE_CHILDREN)
    # (the time of the processors, which is the same on a machine that is busy)
    assert after.ru_utime + after.ru_stime - before.ru_utime - before.ru_stime < 120
