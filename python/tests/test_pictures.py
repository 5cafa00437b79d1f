"""The pictures of plans."""

from __future__ import annotations

import os
import re
import shlex
import subprocess
import sys
import tempfile
import xml.etree.ElementTree as ElementTree
from dataclasses import replace
from pathlib import Path
from typing import Any, List, Tuple

import pytest
from conftest import TOP, python_environment

from hikebox import (
    Breaker,
    Bucket,
    Population,
    Quota,
    Storm,
    StormError,
    Throttle,
    decorrelated,
    exponential,
    fixed,
    recurs,
    spaced,
)
from hikebox import storm, windowed
from hikebox._svg import plain_width_of
from hikebox.cli.main import _parser, _policy, main
from hikebox.policy.picture import plan_picture
from hikebox.cli.storm_command import wanted_of
from hikebox.storms.cores import play_all
from hikebox.storms.picture import storm_picture
from hikebox.storms.parameters import RANGES
from hikebox.sweeps import sweep
from hikebox.budgets.terms import Terms
from hikebox.limits.terms import LimitTerms

SVG = "{http://www.w3.org/2000/svg}"
BACK_OFF = recurs(5) & exponential(0.1, 2).cap(1).jittered()


def parsed(text: str) -> Any:
    root = ElementTree.fromstring(text)
    assert root.tag == SVG + "svg" and root.get("role") == "img"
    names = {part.get("id"): part.text for part in root if part.tag in (SVG + "title", SVG + "desc")}
    assert [name for name in (root.get("aria-labelledby") or "").split() if not names.get(name)] == []
    assert not [part for part in root.iter() if part.tag in (SVG + "script", SVG + "image", SVG + "a")]
    return root


def texts(root: Any) -> List[str]:
    return [part.text or "" for part in root.iter(SVG + "text")]


def boxes(root: Any) -> List[Tuple[float, float, float, float]]:
    """About where each text stands: left, top, right, bottom."""
    found = []
    for part in root.iter(SVG + "text"):
        size = float(part.get("font-size", 12)) / 12
        x, y, wide = float(part.get("x")), float(part.get("y")), 6.0 * size * len(part.text or "")
        left = {"start": x, "middle": x - wide / 2, "end": x - wide}[part.get("text-anchor", "start")]
        found.append((left, y - 9 * size, left + wide, y + 2))
    return found


def looks_at_texts(root: Any) -> None:
    """No text lies upon another, and none leaves the picture."""
    width, height = float(root.get("width")), float(root.get("height"))
    placed = boxes(root)
    for index, (left, top, right, bottom) in enumerate(placed):
        assert left >= 0 and top >= 0 and right <= width + 8 and bottom <= height, texts(root)[index]
        for other in placed[index + 1 :]:
            apart = right <= other[0] or other[2] <= left or bottom <= other[1] or other[3] <= top
            assert apart, (texts(root)[index], texts(root)[placed.index(other)])


@pytest.mark.parametrize("width", [320, 360, 760])
def test_a_plan_has_a_row_a_call_its_band_and_the_wait_after_it(width: int) -> None:
    root = parsed(plan_picture(BACK_OFF, width=width))
    words = texts(root)
    # The waits of 100, 200, 400, 800 and 1000 ms by the middle word; the ratios are 0.8 and 1.2.
    assert [word for word in words if word.startswith(("Waits", "Done"))] == [
        "Waits 100 ms",
        "Waits 200 ms",
        "Waits 400 ms",
        "Waits 800 ms",
        "Waits 1 s",
        "Done",
    ]
    assert "time in seconds" in words
    description = next(part.text or "" for part in root if part.tag == SVG + "desc")
    assert "call 2 at 100 ms (80 ms to 119 ms), then waits 200 ms" in description
    looks_at_texts(root)


def test_the_legend_of_a_plan_names_what_is_in_the_picture() -> None:
    legends = ("a call begins", "where jitter can put it", "it takes 300 ms")
    for policy, took, wanted in [
        (recurs(2) & spaced(0.1), 0.0, legends[:1]),
        (BACK_OFF, 0.0, legends[:2]),
        (recurs(2) & spaced(0.1), 0.3, (legends[0], legends[2])),
    ]:
        words = texts(parsed(plan_picture(policy, took=took)))
        assert tuple(word for word in legends if word in words) == wanted
    assert "time in milliseconds" in texts(parsed(plan_picture(recurs(2) & spaced(0.1))))


@pytest.mark.parametrize("width", [320, 760])
def test_several_plans_stand_on_one_axis(width: int) -> None:
    root = parsed(plan_picture(fixed(1), windowed(1), took=1.3, steps=4, width=width))
    looks_at_texts(root)
    assert [word for word in texts(root) if word in ("fixed(1)", "windowed(1)")] == ["fixed(1)", "windowed(1)"]
    # Calls that take 1.3 s: `fixed` goes on at once, and `windowed` at the next full second.
    waits = [word for word in texts(root) if word.startswith("Waits")]
    assert waits == ["Waits 1 s"] + ["Waits 0 ms"] * 3 + ["Waits 1 s"] + ["Waits 700 ms"] * 3
    bars = painted(root, "requests")
    unit = float(bars[0].get("width")) / 1.3
    left = float(bars[0].get("x")) - unit
    begins = [round((float(bar.get("x")) - left) / unit, 1) for bar in bars]
    assert begins == [1.0, 2.3, 3.6, 1.0, 3.0, 5.0]


def test_days_of_a_plan_have_numbers_that_can_be_read() -> None:
    words = texts(parsed(plan_picture(recurs(20) & exponential(1, 10), steps=8)))
    assert {"0", "200,000", "1,000,000", "Waits 1,000,000 s"} <= set(words)


@pytest.mark.parametrize("seconds", [10**9, 10**11, 10**15])
@pytest.mark.parametrize("width", [280, 320, 760])
def test_waits_of_decades_have_room(width: int, seconds: int) -> None:
    root = parsed(plan_picture(recurs(3) & spaced(seconds), BACK_OFF, width=width))
    looks_at_texts(root)
    waits = [part for part in root.iter(SVG + "text") if (part.text or "").startswith("Waits 1")][0]
    assert float(waits.get("x")) + plain_width_of(waits.text) <= width


def test_the_program_plans_several_policies(capsys: pytest.CaptureFixture[str]) -> None:
    assert main(["plan", "--steps", "2", "--took", "1300", "fixed(1)", "windowed(1)"]) == 0
    wanted = "fixed(1)\n0: 0 next 1000\n2300: 1 next 2300\nwindowed(1)\n0: 0 next 1000\n2300: 1 next 3000\n"
    assert capsys.readouterr().out == wanted
    assert main(["plan", "--words", "7", "--steps", "3", repr(BACK_OFF), repr(BACK_OFF)]) == 0
    lines = capsys.readouterr().out.splitlines()
    assert lines[:4] == lines[4:]


def test_the_program_writes_the_picture_of_a_plan(tmp_path: Path) -> None:
    file = tmp_path / "plan.svg"
    words = [sys.executable, "-m", "hikebox", "plan", "--svg", str(file), str(TOP / "plans" / "jittered-back-off.json")]
    done = subprocess.run(words, capture_output=True, env=python_environment())
    assert (done.returncode, done.stdout, done.stderr) == (0, b"", b"")
    assert file.read_text() == plan_picture(BACK_OFF)


def commands_of(page: str, command: str) -> List[List[str]]:
    """The words of each line of a page that makes a picture."""
    lines = (TOP / "docs" / page).read_text().splitlines()
    return [shlex.split(line)[1:] for line in lines if line.startswith(f"hikebox {command} ") and "--svg docs/" in line]


def looks_at_picture(words: List[str], folder: Path, monkeypatch: pytest.MonkeyPatch) -> None:
    """The command makes the picture that is there, and the picture is shown by its page."""
    monkeypatch.chdir(TOP)
    at = words.index("--svg") + 1
    drawn = folder / "drawn.svg"
    assert main([*words[:at], str(drawn), *words[at + 1 :]]) == 0
    assert drawn.read_text() == Path(words[at]).read_text(), words
    root = parsed(drawn.read_text())
    looks_at_texts(root)


def test_the_cookbook_has_a_picture_of_each_policy(tmp_path: Path, monkeypatch: pytest.MonkeyPatch) -> None:
    commands = commands_of("COOKBOOK.md", "plan")
    page = (TOP / "docs" / "COOKBOOK.md").read_text()
    drawn = {words[words.index("--svg") + 1] for words in commands}
    for name in re.findall(r"\]\(pictures/([\w-]+)\.svg\)", page):
        if f"docs/pictures/{name}.svg" not in drawn:
            commands.append(["plan", "--svg", f"docs/pictures/{name}.svg", f"plans/{name}.json"])
    plans = [file for file in (TOP / "plans").glob("*.json") if f"plans/{file.name}" in page]
    assert {words[-1] for words in commands} == {f"plans/{file.name}" for file in plans}
    for words in commands:
        assert f"]({words[words.index('--svg') + 1][len('docs/'):]})" in page
        looks_at_picture(words, tmp_path, monkeypatch)


# Storms

FULL = recurs(8) & exponential(0.1, 2).cap(10).jittered(0, 1)
BACK = recurs(8) & exponential(0.1, 2).cap(10)
HERD: Any = {"rate": 10_000, "together": 10_000, "seconds": 1, "patience": 1, "queue": 500, "outage": None}


def painted(root: Any, kind: str) -> List[Any]:
    """The parts of a picture of this paint, without the legend's."""
    mark = root.find(f"{SVG}title").get("id")[:-1]
    wanted = f"url(#{mark}{kind})" if kind in ("retries", "failed") else None
    drawn = [part for part in root.iter() if part.tag in (SVG + "path", SVG + "rect", SVG + "circle")]
    found = [part for part in drawn if (part.get("fill") == wanted if wanted else part.get("class") == kind)]
    patterns = {part for pattern in root.iter(SVG + "pattern") for part in pattern}
    return [
        part
        for part in found
        if part not in patterns and part.get("width") != "22.0" and "h22" not in part.get("d", "")
    ]


def heights(path: str) -> List[float]:
    """How high the steps of the top of an area that stands on a straight line are, from left to right."""
    (run,) = path.split("M")[1:]
    bottom = float(run.split("V")[0].split(" ")[1])
    steps = [bottom - float(part.split("H")[0]) for part in run.split("Z")[0].split("V")[1:]]
    return steps[: len(steps) // 2]


@pytest.mark.parametrize("width", [320, 360, 760])
def test_a_storm_has_its_verdict_and_its_load(width: int) -> None:
    root = parsed(storm(recurs(3)).svg(width=width))
    looks_at_texts(root)
    words = texts(root)
    assert {"requests/s", "calls begun", "seconds since the first request"} <= set(words)
    assert {"succeeded", "failed", "first calls", "retries", "capacity", "peer down 10–20 s"} <= set(words)
    # 8,000 of 48,000 requests come in the outage, and fail; three retries at once are over before the peer is back.
    assert {"no limit", "83.3 % succeeded", "back at 20 s", "recurs(3)"} <= set(words)
    (won,), (failed,) = painted(root, "won"), painted(root, "failed")
    # The scale of 72 units ends at 1.2 times the 800 requests a second.
    assert won.get("d").count("M") == 2 and failed.get("d").count("M") == 1
    assert heights(failed.get("d")) == pytest.approx([60.0] * 10, abs=0.06)
    # 3,200 calls a second in the outage are 3.2 times the capacity, of 4 that have 52 units.
    (requests,), (retries,) = painted(root, "requests"), painted(root, "retries")
    assert heights(requests.get("d")) == pytest.approx([10.4] * 60, abs=0.06)
    assert heights(retries.get("d")) == pytest.approx([31.2] * 10, abs=0.06)
    description = next(part.text or "" for part in root if part.tag == SVG + "desc")
    assert "is down from 10 s to 20 s" in description and "1.50 for each request" in description


@pytest.mark.parametrize("width", [320, 360, 760, 1400])
def test_storms_stand_on_the_same_scales(width: int) -> None:
    root = parsed(storm(FULL).svg(storm(FULL, limit=Quota(10, 0.1, 1)), width=width))
    looks_at_texts(root)
    words = texts(root)
    # What is equal stands once, and a title says what differs.
    assert words.count("no limit") == 1 and words.count("quota 10/10%/1s") == 1
    assert {"18.4 % succeeded", "not back by the end", "83.3 % succeeded", "back at 20 s"} <= set(words)
    assert words.count("800") == 2 and words.count("4×") == 2
    # 8,476 calls in a second are cut off at four times the capacity.
    assert [word for word in words if word.startswith("cut")] == ["cut: up to 8.5×"]
    assert len(painted(root, "cut")) == 1
    bounds = [part.get("d") for part in painted(root, "bound")]
    assert len(bounds) == 2
    tops = [float(part.get("d").split("M")[1].split(" ")[1].split("V")[0]) for part in painted(root, "mark")]
    assert len(tops) == 1


def test_a_storm_that_is_cut_says_so_at_its_verdict() -> None:
    root = parsed(storm(recurs(0)).svg(storm(recurs(0), calls=30_000)))
    looks_at_texts(root)
    assert {"83.3 % succeeded", "73.3 % succeeded until cut"} <= set(texts(root))


def test_a_title_that_has_no_room_beside_its_verdict_stands_above_it() -> None:
    root = parsed(storm(recurs(0), limit=Quota(10, 0.1, 1)).svg(width=280))
    places = {part.text: part.get("y") for part in root.iter(SVG + "text")}
    assert places["quota 10/10%/1s"] != places["83.3 % succeeded"]


def test_a_storm_without_requests_is_drawn() -> None:
    root = parsed(storm(recurs(0), seconds=3, rates=[(0, 3, 0)]).svg())
    looks_at_texts(root)
    assert "0 % succeeded" in texts(root)


def test_a_high_load_alone_is_not_cut() -> None:
    words = texts(parsed(storm(FULL).svg()))
    assert "10×" in words and not [word for word in words if word.startswith("cut")]


def test_titles_say_what_differs() -> None:
    quota = storm(BACK, limit=Quota(10, 0.1, 1))
    for others, wanted in [
        ([storm(BACK), quota], ["no limit", "quota 10/10%/1s"]),
        (
            [storm(BACK, seconds=3, outage=(1, 2)), storm(recurs(1), seconds=3, outage=(1, 2))],
            [repr(BACK), "recurs(1)"],
        ),
        ([storm(BACK, rate=500), storm(BACK, rate=1000)], ["rate 500", "rate 1,000"]),
        ([storm(BACK, outage=(10, 12)), storm(BACK)], ["outage 10000..12000", "outage 10000..20000"]),
        ([storm(BACK), storm(recurs(1), limit=5)], [f"{BACK!r}, no limit", "recurs(1), budget of 5"]),
        ([storm(BACK)], ["no limit"]),
    ]:
        from hikebox.storms.heads import names_of

        assert [name.replace("\u00a0", " ") for name in names_of(others)] == wanted
    titled = texts(parsed(storm(BACK).svg(quota, title="Eight retries")))
    assert "Eight retries" in titled and repr(BACK).replace(", ", ",\u00a0") not in titled


def test_shares_are_whole_only_where_all_or_none_succeeded() -> None:
    from hikebox.storms.texts import share_text

    def share(won: int, requests: int) -> str:
        return share_text(replace(storm(recurs(0), seconds=1).totals, won=won, requests=requests))

    told = [share(*each) for each in [(0, 0), (0, 9), (9, 9), (1, 100_000), (99_999, 100_000), (9885, 10_000), (1, 3)]]
    assert told == ["0 %", "0 %", "100 %", "0.1 %", "99.9 %", "98.9 %", "33.3 %"]


@pytest.mark.parametrize("width", [320, 760])
def test_reasons_of_failures_are_told_apart_where_that_is_wanted(width: int) -> None:
    plain, quota = storm(FULL), storm(FULL, limit=Quota(10, 0.1, 1))
    root = parsed(plain.svg(quota, width=width, detail=True))
    looks_at_texts(root)
    words = texts(root)
    assert {"failed, refused", "shed", "timed out", "7,997 denied"} <= set(words)
    assert quota.totals.denied == 7997
    assert len(painted(root, "shed")) == 1 and len(painted(root, "late")) == 1
    without = texts(parsed(plain.svg(quota, width=width)))
    assert not {"shed", "timed out", "7,997 denied"} & set(without)


@pytest.mark.parametrize("width, cut", [(280, ""), (320, ", up to 4.4×"), (760, ", cut: up to 4.4×")])
def test_requests_that_were_denied_stand_beside_the_peak_of_a_load_that_is_cut(width: int, cut: str) -> None:
    throttled = storm(FULL, limit=Throttle(2, period=10))
    root = parsed(storm(FULL).svg(throttled, width=width, detail=True))
    looks_at_texts(root)
    assert f"{throttled.totals.denied:,} denied{cut}" in texts(root)


def test_a_narrow_picture_says_in_brief_what_its_scales_count() -> None:
    how: Any = {**HERD, "outage": (1, 2)}
    herd = storm(BACK, **how)
    for width, said in [(280, "so far"), (360, "requests so far")]:
        root = parsed(herd.svg(width=width))
        looks_at_texts(root)
        assert {said, "not back by the end"} <= set(texts(root))
    # (a throttle counts requests that it denies their first call)
    root = parsed(storm(FULL).svg(storm(FULL, limit=Throttle(2, period=10)), width=280))
    looks_at_texts(root)
    assert {"requests and retries", "up to 4.4×", "calls begun", "cut: up to 8.5×"} <= set(texts(root))


@pytest.mark.parametrize("width", [320, 360, 760])
def test_a_brown_out_bends_what_the_peer_can_do(width: int) -> None:
    root = parsed(storm(recurs(3), outage=(12, 15), slow=(10, 20, 0.5)).svg(width=width))
    looks_at_texts(root)
    assert {"peer down 12–15 s", "peer at 50 % 10–20 s"} <= set(texts(root))
    assert [part.get("d").count("V") for part in painted(root, "bound")] == [2]
    assert (len(painted(root, "away")), len(painted(root, "shade"))) == (2, 2)


@pytest.mark.parametrize("width", [320, 760])
def test_the_requests_of_a_herd_are_summed_up(width: int) -> None:
    drawn = [storm(policy, window=0.5, **HERD) for policy in (BACK, FULL)]
    root = parsed(drawn[0].svg(drawn[1], width=width))
    looks_at_texts(root)
    words = texts(root)
    assert "requests so far" in words and "requests/s" not in words
    assert {"37.0 % succeeded", "98.9 % succeeded"} <= set(words)
    # There was nothing to recover from.
    assert not [word for word in words if "back" in word] and not painted(root, "away") and not painted(root, "shade")
    won = painted(root, "won")[0].get("d")
    # 3,700 of 10,000 in the end, of which 12,000 have 72 units.
    assert heights(won)[-1] == pytest.approx(3700 * 72 / 12_000, abs=0.06)


def test_a_legend_names_what_is_in_the_picture() -> None:
    words = texts(parsed(storm(recurs(0), outage=None).svg()))
    assert {"succeeded", "first calls"} <= set(words) and not {"failed", "retries"} & set(words)
    assert "100 % succeeded" in words


@pytest.mark.parametrize("detail", [False, True])
def test_requests_that_are_open_at_the_end_did_not_fail(detail: bool) -> None:
    # 4,001 requests of the outage wait for their next call as the storm ends.
    left = storm(recurs(8) & spaced(1), until=15)
    assert (left.totals.open, left.totals.lost) == (4001, 0)
    root = parsed(left.svg(detail=detail))
    looks_at_texts(root)
    assert "open at the end" in texts(root) and "failed" not in texts(root)
    (area,) = painted(root, "band")
    assert heights(area.get("d"))[:5] == pytest.approx([60.0] * 5, abs=0.06)
    assert detail or not painted(root, "failed")


def test_a_window_does_not_tell_open_requests_from_failed_ones() -> None:
    # One request begins as the storm ends, and 8,000 of the outage failed.
    mixed = storm(recurs(0), until=30)
    assert (mixed.totals.open, mixed.totals.lost) == (1, 8000)
    root = parsed(mixed.svg())
    assert {"failed", "failed or open at the end"} <= set(texts(root))
    (failed,) = painted(root, "failed")
    assert heights(failed.get("d")) == pytest.approx([799 * 60 / 800] * 10, abs=0.06)
    # All came at the beginning, and 500 of them are open throughout.
    herd: Any = {**HERD, "rate": 1000, "together": 1000}
    summed = storm(recurs(1) & spaced(5), until=4, **herd)
    assert summed.totals.open == 500 and summed.totals.won == 500
    assert "open at the end" in texts(parsed(summed.svg()))


def test_a_request_that_is_denied_its_first_call_is_no_call_of_a_picture() -> None:
    policy = recurs(2) & spaced(0.1)
    for limit, strip, key in [
        (Breaker(5, spaced(30)), "requests and retries", "requests"),
        (Throttle.google(), "requests and retries", "requests"),
        (Bucket.aws(), "calls begun", "first calls"),
    ]:
        words = texts(parsed(storm(policy, limit=limit).svg()))
        assert {strip, key, "retries"} <= set(words)
        assert not {"calls begun", "first calls", "requests and retries", "requests"} - {strip, key} & set(words)


@pytest.mark.parametrize("width", [280, 320, 360, 760])
def test_large_numbers_and_many_windows_have_room(width: int) -> None:
    many = storm(recurs(60_000), rate=1000, seconds=2, outage=(0, 5), until=60, window=0.001, calls=1_000_000)
    picture = many.svg(width=width, detail=True)
    looks_at_texts(parsed(picture))
    long = storm(spaced(1), rate=1, seconds=1, window=0.001, until=65.536, outage=(0, 3600)).svg(width=width)
    looks_at_texts(parsed(long))
    assert len(long) < 60_000


@pytest.mark.parametrize("width, said", [(280, "up to"), (760, "cut: up to")])
def test_the_numbers_of_a_great_load_are_whole(width: int, said: str) -> None:
    # 17,000 requests a second with nine calls each, on a peer that does one.
    root = parsed(storm(recurs(8), rate=17_000, capacity=1).svg(width=width))
    looks_at_texts(root)
    assert "200,000×" in texts(root) and "e+" not in "".join(texts(root))
    high = storm(recurs(8), rate=17_000, capacity=1)
    cut = storm(recurs(0), rate=1, capacity=1).svg(high, width=width)
    looks_at_texts(parsed(cut))
    assert f"{said} 153,000.0×" in texts(parsed(cut))


@pytest.mark.parametrize("name", ["W" * 100, "\u98a8" * 100, "M" * 40 + " " + "@" * 200, "\U0001f32a" * 90])
def test_a_wide_name_is_shortened_and_can_be_read_as_a_whole(name: str) -> None:
    root = parsed(storm_picture([storm(recurs(3), seconds=2)], names=[name], title=name))
    short = [part for part in root.iter(SVG + "text") if part.findtext(SVG + "title") == name]
    # (the title and the name)
    assert len(short) == 2
    for part in short:
        said = part.text or ""
        # (a letter of these is a square of 12 units in most fonts, and more in some)
        assert said.endswith("…") and 12 + 12 * len(said) < 760
    assert not [part for part in parsed(storm(FULL).svg()).iter(SVG + "text") if len(part)]


def test_a_title_is_text_whatever_it_has() -> None:
    signs = "<script>&\x00\x1b\ud800\ufffe]]>"
    root = parsed(storm(recurs(0), seconds=1).svg(title=signs))
    assert "<script>&\ufffd\ufffd\ufffd\ufffd]]>" in texts(root)


def test_colours_stand_at_the_shapes() -> None:
    # Viewers outside of browsers know no variables, and paint black what has no colour.
    for picture in (storm(FULL).svg(detail=True), plan_picture(BACK_OFF, took=0.1)):
        assert "var(" not in picture
        root = parsed(picture)
        for part in root.iter():
            if part.tag in (SVG + "path", SVG + "rect", SVG + "circle", SVG + "text"):
                assert part.get("fill") or part.get("class") == "hatch", part.attrib
                assert part.get("fill") != "none" or part.get("stroke"), part.attrib


def test_a_width_out_of_range_is_refused(tmp_path: Path, capsys: pytest.CaptureFixture[str]) -> None:
    for width in (0, 279, 4001):
        with pytest.raises(StormError, match=f"width: expected 280 to 4000, got {width}"):
            storm(recurs(0)).svg(width=width)
    with pytest.raises(SystemExit) as caught:
        main(["plan", "--width", "279", "--svg", str(tmp_path / "x.svg"), "recurs(0)"])
    assert caught.value.code == 2
    assert capsys.readouterr().err.endswith("argument --width: expected a number from 280 to 4000, got '279'\n")
    assert main(["storm", "--width", "279", "--svg", str(tmp_path / "x.svg"), "recurs(0)"]) == 2
    assert capsys.readouterr().err == "hikebox: width: expected 280 to 4000, got 279\n"


def test_what_is_no_width_title_or_storm_of_a_picture_is_named() -> None:
    played = storm(recurs(0), seconds=1)
    anything: Any = played.svg
    along: Any = sweep(played, rate=[1]).svg
    for given, line in [
        ({"width": "5"}, "width: expected a whole number, got '5'"),
        ({"width": True}, "width: expected a whole number, got True"),
        ({"title": 5}, "title: expected a text, got 5"),
    ]:
        for draws in (anything, along):
            with pytest.raises(TypeError) as caught:
                draws(**given)
            assert str(caught.value) == line
    with pytest.raises(TypeError, match="^svg: expected storms, got 5$"):
        anything(5)
    with pytest.raises(StormError, match="^width: expected 280 to 4000, got a number of too many digits$"):
        anything(width=10**5000)
    with pytest.raises(StormError, match=r"^measure: expected one of succeeded, .*, got \[\]$"):
        along([])


def test_a_notebook_shows_the_picture() -> None:
    played = storm(recurs(3))
    assert played._repr_svg_() == played.svg()
    assert "<style>" in played.svg() and "style" not in storm_picture([played], styled=False)


def test_a_long_policy_keeps_to_three_lines() -> None:
    long = recurs(1)
    for times in range(2, 31):
        long = long | recurs(times)
    root = parsed(storm(long, seconds=1).svg(width=360))
    looks_at_texts(root)
    assert (
        len(
            [
                part
                for part in root.iter(SVG + "text")
                if part.get("class") == "head" and "retr" not in (part.text or "")
            ]
        )
        == 5
    )


def test_the_program_writes_the_picture_of_storms(tmp_path: Path) -> None:
    file = tmp_path / "storm.svg"
    words = ["storm", "--quota", "10/10%/1s", "--without", "--svg", str(file), "--width", "500", repr(FULL)]
    done = subprocess.run([sys.executable, "-m", "hikebox", *words], capture_output=True, env=python_environment())
    assert (done.returncode, done.stdout, done.stderr) == (0, b"", b"")
    assert file.read_text() == storm(FULL).svg(storm(FULL, limit=Quota(10, 0.1, 1)), width=500)


STORMS = "STORMS.md"


def test_the_page_on_storms_has_the_pictures_of_its_commands(tmp_path: Path, monkeypatch: pytest.MonkeyPatch) -> None:
    page = (TOP / "docs" / STORMS).read_text()
    # (what was measured is drawn by bench/reality, which tests/reality.py looks at)
    shown = set(re.findall(r"\]\((pictures/[\w-]+\.svg)\)", page)) - {"pictures/reality.svg"}
    looks_at_texts(parsed((TOP / "docs" / "pictures" / "reality.svg").read_text()))
    commands = [*commands_of(STORMS, "storm"), *commands_of(STORMS, "advise")]
    assert {words[words.index("--svg") + 1] for words in commands} == {f"docs/{name}" for name in shown}
    assert {file.name for file in (TOP / "docs" / "pictures").glob("storm*.svg")} == {
        name.split("/")[1] for name in shown
    }
    for words in commands:
        looks_at_picture(words, tmp_path, monkeypatch)


def test_the_page_on_storms_has_the_numbers_that_its_commands_print(capsys: pytest.CaptureFixture[str]) -> None:
    found = re.findall(
        r"^```sh\n(hikebox storm [^\n]*)\n```\n\n```text\n(.*?)^```$",
        (TOP / "docs" / STORMS).read_text(),
        flags=re.M | re.S,
    )
    assert len(found) == 2
    for command, printed in found:
        assert main(shlex.split(command)[1:]) == 0
        assert capsys.readouterr().out == printed


def zsched_prints(played: Storm) -> str:
    """What `zsched storm --json` prints of the same storm."""
    parameters = played.parameters
    words = [f"--{name}={getattr(parameters, name)}" for name in RANGES if getattr(parameters, name) is not None]
    words.append(f"--outage={parameters.outage.begins}..{parameters.outage.ends}")
    if parameters.rates:
        words.append("--rates=" + ",".join("{}..{}@{}".format(*span) for span in parameters.rates))
    if parameters.slow is not None:
        words.append("--slow={}..{}@{}".format(*parameters.slow))
    if isinstance(parameters.tickets, Terms):
        words.append("--quota={}/{}/{}".format(*parameters.tickets))
    elif isinstance(parameters.tickets, LimitTerms):
        words.append(f"--limit={parameters.tickets.text}")
    elif parameters.tickets is not None:
        words.append(f"--budget={parameters.tickets}")
    with tempfile.TemporaryDirectory() as folder:
        for number, (share, policy, patience, is_limited) in enumerate(parameters.beside):
            file = Path(folder) / f"{number}.json"
            file.write_text(policy.to_json())
            waits = "" if patience is None else f"@{patience}"
            words.append(f"--beside={share}{waits}{'+limited' if is_limited else ''}={file}")
        command = [os.environ["HIKEBOX_ZSCHED"], "storm", "--json", *words, "-"]
        how: Any = {"stdout": subprocess.PIPE, "check": True, "text": True}
        return str(subprocess.run(command, input=played.policy.to_json(), **how).stdout)


def test_the_storms_of_the_page_on_storms_are_those_that_zsched_prints(monkeypatch: pytest.MonkeyPatch) -> None:
    monkeypatch.chdir(TOP)
    program = os.environ.get("HIKEBOX_ZSCHED")
    if not program or subprocess.run([program, "storm", "--help"], capture_output=True).returncode:
        pytest.skip("HIKEBOX_ZSCHED names no zsched with storms")
    commands = re.findall(r"^hikebox (storm [^\n]*)$", (TOP / "docs" / STORMS).read_text(), flags=re.M)
    assert len(commands) == 17
    for command in commands:
        given = _parser().parse_args(shlex.split(command))
        for played in play_all(wanted_of(given, _policy).storms):
            assert zsched_prints(played) == f"{played.to_json()}\n", (command, played)


def test_what_the_page_on_storms_says_of_its_storms_is_so() -> None:
    page = (TOP / "docs" / STORMS).read_text()
    back_off = recurs(8) & exponential(0.1, 2).cap(10)
    won = [storm(policy, **HERD).totals for policy in (back_off, back_off.jittered(0, 1), back_off.jittered(0.5, 1))]
    assert [totals.won for totals in won] == [3700, 9885, 10_000] and "within 12 seconds" in page
    assert (won[2].slowest_ms or 0) <= 12_000
    brown: Any = {"outage": None, "slow": (10, 20, 0.5)}
    assert storm(recurs(0), **brown).totals.recovered_ms == 33_000 and "(from 33 s on)" in page
    assert (
        storm(recurs(3), limit=Quota(10, 0.1, 1), **brown).totals.recovered_ms == 50_000 and "recover at 50 s" in page
    )
    half = storm(recurs(3), limit=Quota(10, 0.06, 1), **brown).totals
    assert (half.recovered_ms, 1000 * half.won // half.requests) == (42_000, 495) and "at 42 s, and 49.5 %" in page
    borders = [storm(recurs(3), seconds=300, limit=Quota(10, share, 1), **brown).totals for share in (0.22, 0.221)]
    assert [each.recovered_ms is not None for each in borders] == [True, False]
    assert "With `--seconds 300` the border is 22 %" in page
    spent = storm(back_off.jittered(0, 1), limit=5000)
    assert spent.totals.tickets == 5000 and spent.totals.recovered_ms == 20_000 and "used up within the outage" in page
    assert sum(row.retries for row in spent.rows[:20]) == 5000
    short = storm(back_off, queue=500).totals
    assert (short.won, short.hundredths, short.recovered_ms) == (48_000, 412, 20_000)
    assert "all 48,000 requests are won, by 4.12 calls for each, and the peer is back at once" in page
    pair: Any = {"rate": 400, "capacity": 500, "replicas": 2, "down": 1}
    assert [storm(recurs(retries), **pair).totals.lost for retries in (0, 1)] == [2000, 0]
    assert "2,000 of the 24,000 requests are lost" in page and "With one all are won" in page
    busy = storm(back_off, rate=1500, limit=Quota(10, 0.1, 1))
    assert max(row.retries for row in busy.rows) == 257 and "257 begin in one" in page


def test_what_the_page_on_storms_says_of_clients_beside_is_so() -> None:
    page = (TOP / "docs" / STORMS).read_text()
    quota = Quota(10, 0.1, 1)
    back, never = (storm(FULL, limit=quota, beside=[Population(share, FULL)]) for share in (0.2, 0.21))
    assert (back.totals.recovered_ms, never.totals.recovered_ms) == (20_000, None)
    assert "With 20 % the peer is back at once, and with 21 % it never is" in page
    for seed, border in [*((seed, 20) for seed in range(8) if seed != 6), (6, 21)]:
        shares = [Population(percent / 100, FULL) for percent in (border, border + 1)]
        ends = [storm(FULL, limit=quota, seed=seed, beside=[each]).totals.recovered_ms for each in shares]
        assert ends == [20_000, None], seed
    assert "(Of the seeds 0 to 7 seven have this border; with `--words 6` it is 21 %.)" in page
    half = [Population(0.5, FULL)]
    with_quota, without = (storm(FULL, limit=each, queue=500, beside=half) for each in (quota, None))
    assert (with_quota.totals.recovered_ms, without.totals.recovered_ms) == (27_000, 29_000)
    assert "at 27 s if half of the requests have none, and at 29 s if all have none" in page
    won = [1000 * each.totals.won // each.totals.requests for each in with_quota.populations]
    assert won == [781, 980]  # 78.16.. and 98.01..
    assert "78.2 % of your requests succeed, and 98.0 % of the others" in page


def test_what_the_page_on_storms_says_of_its_sweeps_is_so() -> None:
    page = (TOP / "docs" / STORMS).read_text()
    base: Any = {**HERD, "window": 0.5}
    waits = [exponential(0.1, 2).cap(10), exponential(0.1, 2).cap(10).jittered(0, 1)]
    waits += [exponential(0.1, 2).cap(10).jittered(0.5, 1), decorrelated(0.1, 10, 3)]
    plain, *jittered = [storm(recurs(100) & wait, **base).totals for wait in waits]
    assert (plain.won, plain.hundredths) == (5200, 945) and "only 5,200 succeed" in page
    assert "by 9.45 calls for each" in page and "within 18 seconds, by 6.5 to 7.1 calls" in page
    assert all(each.won == 10_000 and (each.slowest_ms or 0) < 18_000 for each in jittered)
    assert [min(each.hundredths for each in jittered), max(each.hundredths for each in jittered)] == [654, 706]
    shares = [100 * storm(FULL, rate=rate).totals.won / (rate * 60) for rate in (300, 400)]
    assert [int(share) for share in shares] == [98, 22] and "from 98 to 22 % between 300 and 400" in page
