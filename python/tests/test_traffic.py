"""Traffic of access logs: `--log` of `hikebox storm` and `hikebox advise`."""

from __future__ import annotations

import gzip
import json
import os
import random
import re
import subprocess
import sys
import threading
from collections import Counter
from pathlib import Path
from typing import Any, List, Tuple

import pytest
from conftest import python_environment

from hikebox import StormError
from hikebox.storms.parameters import Parameters, RateSpan
from hikebox.traffic.formats import fields_of
from hikebox.traffic.moments import Moments
from hikebox.traffic.paces import Paces, paces_of, stretch_of
from hikebox.traffic.picture import log_picture
from hikebox.traffic.seen import Traffic, traffic_of

#: 29 November 2026, 17:30:00 UTC, by `date -u -d '2026-11-29 17:30:00' +%s`.
NOON = 1_795_973_400


def log_of(tmp_path: Path, *lines: str, end: str = "\n") -> str:
    """The name of a file with these lines."""
    path = tmp_path / "access.log"
    path.write_bytes("\n".join(lines).encode() + end.encode())
    return str(path)


def combined(time: str = "29/Nov/2026:19:30:00 +0200", status: int = 200, rest: str = "") -> str:
    return f'192.0.2.1 - frank [{time}] "GET /a\\"b HTTP/1.1" {status} 2326 "http://h/" "M/5.0 (X; \\"y\\") [z]"{rest}'


# Moments


@pytest.mark.parametrize(
    "spelt, second",
    [
        ("29/Nov/2026:17:30:00 +0000", NOON),
        ("29/Nov/2026:23:15:00 +0545", NOON),
        ("29/Nov/2026:07:30:00 -1000", NOON),
        ("30/Nov/2026:00:00:00 +0630", NOON),
        (b"29/Nov/2026:19:30:00 +0200", NOON),
        ("2026-11-29T17:30:00Z", NOON),
        ("2026-11-29T17:30:00.999999999Z", NOON),
        ("2026-11-29 17:30:00,123", NOON),
        ("2026-11-29T19:30:00+02:00", NOON),
        ("2026-11-29T19:30:00+0200", NOON),
        ("2026-11-29T19:30:00+02", NOON),
        ("2026-11-29T17:30:60Z", NOON + 60),
        (NOON, NOON),
        (f"{NOON}.75", NOON),
        (NOON + 0.75, NOON),
        (NOON * 1000 + 5, NOON),
        (f"{NOON}000000", NOON),
        (f"{NOON}000000000", NOON),
        ("29/Feb/2024:00:00:00 +0000", 1_709_164_800),
        ("29/Feb/2026:00:00:00 +0000", None),
        ("29/Foo/2026:00:00:00 +0000", None),
        ("29/Nov/2026:24:00:00 +0000", None),
        ("29/Nov/0000:00:00:00 +0000", None),
        ("yesterday", None),
        ("", None),
        (None, None),
        ([1], None),
        (-5, None),
        ("9" * 400, None),
    ],
)
def test_moments_in_any_time_zone(spelt: Any, second: Any) -> None:
    moments = Moments()
    assert moments.read(spelt) == second and moments.read(spelt) == second


# Formats


def test_the_combined_format_and_the_common_one(tmp_path: Path) -> None:
    common = '2001:db8::1 - - [29/Nov/2026:17:30:01 +0000] "GET / HTTP/1.0" 304 -'
    lines = [combined(), combined(rest=" 0.250"), combined(status=500, rest=" 9.000"), common, combined(rest=" -"), "x"]
    found = traffic_of(log_of(tmp_path, *lines, combined(rest=" rt=0.0301"), end=""))
    assert found.requests == {NOON: 5, NOON + 1: 1} and found.taken == 6
    # (an error of the server is no answer; times are rounded up to milliseconds)
    assert found.answered == {NOON: 4, NOON + 1: 1} and found.latencies == {250: 1, 31: 1}
    assert found.skipped == {"not of the format": 1}
    apache = traffic_of(log_of(tmp_path, combined(rest=" 1500")))  # (microseconds, as %D)
    assert apache.latencies == {2: 1}


def test_json_lines(tmp_path: Path) -> None:
    lines = [
        '{"time":"2026-11-29T17:30:00Z","status":200,"request_time":0.1}',
        '{"time":"2026-11-29T17:30:01Z","status":"404","duration":99}',
        '{"time":"later"}',
        "[1]",
        "{",
        '{"ts":%d}' % (NOON * 1000),
    ]
    found = traffic_of(log_of(tmp_path, *lines))
    assert found.requests == {NOON: 2, NOON + 1: 1} and found.latencies == {100: 1}
    assert found.answered == {NOON: 1, NOON + 1: 1}
    assert found.skipped == {"no time": 1, "no JSON": 1, "no JSON object": 1}
    said = fields_of("time=at,latency=took:us,status=http.code")
    named = log_of(tmp_path, *['{"at":%d,"took":1500,"http.code":200,"status":500}' % NOON] * 2)
    assert traffic_of(named, said).latencies == {2: 2} and traffic_of(named, said).answered == {NOON: 2}


@pytest.mark.parametrize("comma", [",", ";", "\t"])
def test_csv_with_names_and_without(tmp_path: Path, comma: str) -> None:
    rows = [["path", "timestamp", "status", "latency_ms"], ['"/a,b;c\td"', "2026-11-29 17:30:00", "200", "7"]]
    found = traffic_of(log_of(tmp_path, *(comma.join(row) for row in [*rows, rows[1], ["short"]])))
    assert found.format == "CSV with names" and found.requests == {NOON: 2} and found.latencies == {7: 2}
    assert found.skipped == {"no time": 1}
    bare = log_of(tmp_path, *[comma.join([str(NOON), "x", "0.5"])] * 3, end="\r\n")
    assert traffic_of(bare).requests == {NOON: 3}
    second = log_of(tmp_path, comma.join(["x", str(NOON), "0.5"]))
    assert traffic_of(second, fields_of("time=2,latency=3:s")).latencies == {500: 1}


@pytest.mark.parametrize("text", ["", "time", "time=", "latency=x", "latency=x:h", "when=x", "time=a,time=b", "x"])
def test_fields_that_are_none_are_refused(text: str) -> None:
    with pytest.raises(StormError, match="^fields: expected time=NAME,latency=NAME:UNIT,status=NAME, with s, ms"):
        fields_of(text)


def test_many_lines_at_once_are_what_they_are_one_by_one(tmp_path: Path) -> None:
    rng = random.Random(63)
    wanted: Any = Counter()
    lines: List[str] = []
    for _ in range(5000):
        second = NOON + rng.randrange(300)
        zone = rng.choice(["+0000", "+0200"])
        local = second - NOON + (7200 if zone == "+0200" else 0)
        time = f"29/Nov/2026:{17 + (1800 + local) // 3600:02}:{(1800 + local) // 60 % 60:02}:{local % 60:02} {zone}"
        lines.append(combined(time, rest=f" 0.{rng.randrange(1000):03}"))
        wanted[second] += 1
    assert traffic_of(log_of(tmp_path, *lines)).requests == wanted
    # one line that is none has a whole batch read one by one
    spoilt = traffic_of(log_of(tmp_path, *lines[:2500], "spoilt", *lines[2500:]))
    assert spoilt.requests == wanted and spoilt.skipped == {"not of the format": 1}


# Hostile logs


def refused(name: str) -> str:
    with pytest.raises(StormError) as caught:
        traffic_of(name)
    assert caught.value.name == "log"
    return caught.value.hint


def test_files_that_are_no_log(tmp_path: Path) -> None:
    wanted = "expected lines of an access log (nginx's or Apache's, JSON lines, or CSV), got "
    assert refused(log_of(tmp_path, end="")) == f"{wanted}no line"
    assert refused(log_of(tmp_path, "", "", "\r")) == f"{wanted}lines that are none: 3 empty"
    binary = tmp_path / "binary"
    binary.write_bytes(random.Random(1).randbytes(300_000))
    assert refused(str(binary)).startswith(wanted)
    binary.write_bytes(b"\0" * 3_000_000)
    assert refused(str(binary)) == f"{wanted}lines that are none: 1 longer than 65536 bytes"
    assert refused(log_of(tmp_path, *["no log"] * 5000)) == f"{wanted}1000 lines of no known format"
    with pytest.raises(IsADirectoryError):
        traffic_of(str(tmp_path))


def test_a_line_of_a_megabyte_and_times_that_go_back(tmp_path: Path) -> None:
    long = "x" * (1 << 20)
    lines = [combined(), long, combined("29/Nov/2026:17:29:58 +0000"), long + long, combined(), '{"a":' * 70_000]
    found = traffic_of(log_of(tmp_path, *lines, combined("29/Nov/2026:17:30:00 +0000")))
    assert found.requests == {NOON: 3, NOON - 2: 1} and found.span == (NOON - 2, NOON + 1)
    assert found.skipped == {"longer than 65536 bytes": 3}
    last = traffic_of(log_of(tmp_path, combined(), long, end=""))
    assert last.taken == 1 and last.skipped == {"longer than 65536 bytes": 1}
    deep = traffic_of(log_of(tmp_path, '{"time":%d}' % NOON, '{"a":' * 9000))
    assert deep.taken == 1 and deep.skipped == {"no JSON": 1}


def test_numbers_past_what_a_float_holds_are_no_latencies(tmp_path: Path) -> None:
    lines = ['{"time":%d,"latency_ms":%s}' % (NOON, took) for took in ("9" * 400, "1e400", "-1", "5")]
    assert traffic_of(log_of(tmp_path, *lines)).latencies == {5: 1}
    assert traffic_of(log_of(tmp_path, *lines)).requests == {NOON: 4}


def test_empty_lines_are_skipped_among_others(tmp_path: Path) -> None:
    found = traffic_of(log_of(tmp_path, "", combined(), "", "\r", combined(), "x", ""))
    assert found.taken == 2 and found.skipped == {"empty": 4, "not of the format": 1}


def test_logs_that_gzip_compressed(tmp_path: Path) -> None:
    text = "".join(f"{combined()}\n" for _ in range(2000)).encode()
    path = tmp_path / "access.log.1"
    whole = gzip.compress(text)
    path.write_bytes(whole + gzip.compress(text) + b"\0" * 512)
    assert traffic_of(str(path)).requests == {NOON: 4000}
    for broken, why in [
        (whole[:-9], "it ends too soon"),
        (whole[:2], "it ends too soon"),
        (whole[:40] + b"spoilt" + whole[46:], "Error -3 while decompressing data"),
        (whole[:-8] + b"\0" * 8, "Error -3 while decompressing data"),
        (whole + b"rest", "Error -3 while decompressing data"),
    ]:
        path.write_bytes(broken)
        assert refused(str(path)).startswith(f"{path}: expected whole gzip data: {why}"), why
    path.write_bytes(gzip.compress(b"\0" * (1 << 26)))
    assert "longer than 65536 bytes" in refused(str(path))


def test_a_pipe_is_read_once(tmp_path: Path) -> None:
    pipe = str(tmp_path / "pipe")
    os.mkfifo(pipe)
    text = gzip.compress(f"{combined()}\n{combined()}".encode())

    def write() -> None:
        with open(pipe, "wb", buffering=0) as file:
            for at in range(0, len(text), 7):
                file.write(text[at : at + 7])

    thread = threading.Thread(target=write)
    thread.start()
    assert traffic_of(pipe).requests == {NOON: 2}
    thread.join()


# What is assumed, and what is played


def seen(requests: Any, **more: Any) -> Traffic:
    counts: Any = {name: Counter(more.get(name, {})) for name in ("answered", "latencies", "given_up", "skipped")}
    return Traffic("", Counter(requests), **counts)


def test_what_patience_and_capacity_a_log_lets_assume() -> None:
    assert (seen({1: 5}).patience(), seen({1: 5}).capacity()) == (None, None)
    assert seen({1: 5, 2: 9}, answered={1: 5, 2: 4}).capacity() == 5
    slow = seen({1: 5}, latencies={3: 4, 800: 1}, given_up={500: 9})
    assert slow.patience() == (800, "the slowest answer")
    # of ten clients who gave up, five had done so by 500 ms
    gave_up = seen({1: 5}, latencies={800: 1}, given_up={400: 2, 500: 3, 9000: 5})
    assert gave_up.patience() == (500, "half of the clients who gave up did so by then")
    assert seen({7: 3, 5: 3, 6: 1}).busiest == 5


def test_the_part_of_a_log_that_is_played() -> None:
    assert stretch_of(Counter({10: 1, 14: 2})) == (10, 5)
    # more than an hour: its busiest hour
    assert stretch_of(Counter({0: 1, 5000: 9, 8599: 9, 9000: 1})) == (5000, 3600)
    assert stretch_of(Counter({0: 1, 50: 7, 59: 7, 99: 1}), 10) == (50, 10)
    # more requests than a storm has: 1,048,576 / 300,000 are three whole seconds
    assert stretch_of(Counter({second: 300_000 for second in range(9)})) == (0, 3)
    assert stretch_of(Counter({5: 2}), 60) == (5, 60)


def test_the_paces_of_a_log() -> None:
    assert paces_of([40]) == Paces(40, (), 1)
    assert paces_of([100] * 30 + [300] * 10 + [100] * 20) == Paces(
        300, (RateSpan(0, 30_000, 100), RateSpan(40_000, 60_000, 100)), 60
    )
    # chance alone makes no spans: by a rate of 100 a second, a second has from 70 to 130
    rng = random.Random(5)
    even = [sum(rng.random() < 0.1 for _ in range(1000)) for _ in range(200)]
    assert paces_of(even) == Paces(round(sum(even) / 200), (), 200)
    assert paces_of([0, 0, 0]) == Paces(1, (RateSpan(0, 3000, 0),), 3)
    many = [100 * (1 + second // 10 % 2) for second in range(600)]
    found = paces_of(many)
    assert (
        len(found.rates) <= 8
        and found.seconds == 600
        and Parameters(rate=found.rate, rates=found.rates, seconds=600).checked()
    )
    assert paces_of([7] * 3600).seconds == 3600


def test_the_picture_of_a_log() -> None:
    drawn = log_picture(Counter({NOON: 10, NOON + 1: 20}), NOON, Paces(20, (RateSpan(0, 1000, 10),), 2), 760)
    texts = re.findall(r">([^<>\n]+)</text>", drawn)
    assert texts[:4] == [
        "requests of the log",
        "as they are played",
        "seconds since 2026-11-29 17:30:00 UTC",
        "requests/s",
    ]
    # 48 for the numbers and 18 at the right leave 694, half for each second; 48 is the height of 20 requests a second,
    # above 92: 8, a line of 16, 20 and 48
    assert '<path d="M48.0 92V68.0H395.0V44.0H742.0V92Z" class="requests"' in drawn
    assert '<path d="M48.0 68.0V68.0H395.0V44.0H742.0" class="mark"' in drawn
    assert 'class="shade"' not in drawn and "<desc" in drawn and "At most 20 requests a second, played as 20." in drawn
    # five of ten seconds are played
    part = log_picture(Counter({NOON: 4, NOON + 9: 4}), NOON + 5, Paces(1, (), 5), 760)
    assert '<rect x="395.0" y="44.0" width="347.0" height="48.0" class="shade"' in part
    long = log_picture(Counter({0: 600, 35_999: 10}), 0, Paces(600, (RateSpan(1000, 2000, 0),), 2), 366)
    # where there are more seconds than points, means are shown: 150 steps of 240 s, and 600 / 240 is 2.5
    assert "hours since 1970-01-01 00:00:00 UTC" in long and "At most 2.5 requests a second" in long
    assert re.findall(r">(\d+)</text>", long) == ["0", "600", "0", "2", "4", "6", "8", "10"]


def told(command: str, *words: str, text: bytes = b"") -> Tuple[int, str, str]:
    """Its status, its output and its errors."""
    line = [sys.executable, "-m", "hikebox", command, *words]
    done = subprocess.run(line, input=text, capture_output=True, env=python_environment())
    return done.returncode, done.stdout.decode(), done.stderr.decode()


def test_the_program_says_what_it_took_and_plays_it(tmp_path: Path) -> None:
    lines = [combined(f"29/Nov/2026:17:30:{second:02} +0000", rest=" 0.020") for second in range(30) for _ in range(50)]
    lines += [combined("29/Nov/2026:17:30:12 +0000", rest=" 0.900") for _ in range(40)] + ["spoilt", ""]
    name = log_of(tmp_path, *lines)
    status, output, errors = told("storm", "--log", name, "--json", "recurs(3)")
    assert (status, errors.splitlines()) == (
        0,
        [
            f"hikebox: {name}: the common or the combined format: took 1,540 lines, skipped 2 (1 empty, 1 not of the "
            "format)",
            "hikebox: from 2026-11-29 17:30:00 UTC on, 30 s; the busiest second is 2026-11-29 17:30:12, with 90 "
            "requests",
            "hikebox: half took at most 20 ms, 99 in 100 at most 900 ms, the slowest 900 ms",
            "hikebox: assumed --patience 900 (the slowest answer)",
            "hikebox: assumed --capacity 90 (the most that was answered in a second; the peer may be able to do more)",
            "hikebox: played: 30 s from 2026-11-29 17:30:00 UTC on, at the log's own moments, evenly spread in "
            "each second: 1,540 requests, at most 90 in a second",
        ],
    )
    assert json.loads(output)["totals"]["requests"] == 1540
    # a moment each 20 ms, and in the thirteenth second 90 of them
    moments = [moment for moment in range(0, 30_000, 20) if moment // 1000 != 12]
    moments = sorted([*moments, *(12_000 + 1000 * place // 90 for place in range(90))])
    (tmp_path / "moments.txt").write_text("".join(f"{moment}\n" for moment in moments))
    alike = ["--patience", "900", "--capacity", "90", "--json", "recurs(3)"]
    same = told("storm", "--arrivals", str(tmp_path / "moments.txt"), *alike)
    assert same[1] == output
    given = told(
        "storm", "--log", "-", "--capacity", "70", "--patience", "5", "recurs(3)", text=Path(name).read_bytes()
    )
    assert given[0] == 0 and "assumed" not in given[2]


def test_a_log_is_played_in_spans_where_its_rate_is_swept(tmp_path: Path) -> None:
    rows = [f"{NOON + second}" for second in range(12) for _ in range(100 if second < 9 else 20)]
    words = ["--log", log_of(tmp_path, *rows), "--capacity", "125", "--sweep", "rate=100,120", "--csv", "recurs(0)"]
    status, _, errors = told("storm", *words)
    assert status == 0 and "as 2 spans with an even pace in each: 960 requests (the log has 960)" in errors


def test_advice_for_a_log(tmp_path: Path) -> None:
    rows = [f"{NOON + second}" for second in range(12) for _ in range(100 if second < 9 else 20)]
    words = ["--log", log_of(tmp_path, *rows), "--capacity", "125", "--queue", "600", "--kind", "none", "recurs(3)"]
    status, output, errors = told("advise", *words)
    assert status == 0 and "as 2 spans with an even pace in each: 960 requests (the log has 960)" in errors
    assert "surge: 300 requests/s come from 2 to 3 s" in output


@pytest.mark.parametrize(
    "words, status, said",
    [
        (["--log", "x", "--rate", "5"], 2, "--log can't be used with --rate"),
        (["--log", "x", "--log", "y"], 2, "expected it once, got 'y' too"),
        (["--fields", "time=x"], 2, "fields: needs --log"),
        (["--log", "x", "--arrivals", "y"], 2, "--arrivals can't be used with --log"),
        (["--log", "no/such/file"], 4, "read failed: no/such/file: No such file or directory"),
        (["--log", "."], 4, "read failed: .: Is a directory"),
        (["--log", "-"], 3, "log: expected lines of an access log"),
        (["--log", "-", "--fields", "x"], 2, "fields: expected time=NAME"),
    ],
)
def test_what_is_wrong_is_told(words: List[str], status: int, said: str) -> None:
    found = told("storm", *words, "recurs(0)")
    assert (found[0], found[1]) == (status, "") and said in found[2]
