"""The page of `hikebox lab` in a headless Chromium, which tests/lab.sh runs with pytest."""

from __future__ import annotations

import base64
import contextlib
import gzip
import json
import os
import re
import signal
import subprocess
import sys
import time
from pathlib import Path
from typing import Dict, Iterator, List

import pytest

sys.path.insert(0, str(Path(__file__).parent))

from webdriver import COLOURS, CONTRAST, CONTROL, CROSSING, DELETE, DOWN, END, RIGHT, SHIFT, TAB, UP  # noqa: E402
from webdriver import Browser  # noqa: E402

TOP = Path(__file__).resolve().parent.parent
FULL = "recurs(8) & exponential(0.1, 2).cap(10).jittered(0, 1)"
#: Whether both pictures are drawn.
PLAYED = "return document.querySelector('#played svg') !== null && document.querySelector('#swept svg') !== null"
#: Whether the picture of the storm is drawn for the width that the page has now.
DRAWN = """
const width = Number(document.querySelector('#played svg').getAttribute('width'));
return width === widthOf(document.getElementById('played'));
"""
#: The sizes of a laptop, a tablet and a phone.
SIZES = [(1280, 720), (820, 1180), (390, 844)]
#: Keeps the browser's dialog of files shut.
INTERCEPTED = {"cmd": "Page.setInterceptFileChooserDialog", "params": {"enabled": True}}
#: Where screenshots are left, if anywhere.
SHOTS = os.environ.get("HIKEBOX_SHOTS")


class Lab:
    """The program, on a port of its own."""

    def __init__(self, *words: str) -> None:
        command = [sys.executable, "-m", "hikebox", "lab", "--no-browser", *words]
        self.process = subprocess.Popen(command, stdout=subprocess.PIPE, stderr=subprocess.PIPE, text=True)
        assert self.process.stdout is not None
        found = re.fullmatch(
            r"hikebox lab: (http://127\.0\.0\.1:\d+/[\w-]+/\S*) \(Ctrl-C ends it\)\n", self.process.stdout.readline()
        )
        assert found is not None
        self.address = found[1]

    def players(self) -> Dict[str, int]:
        """The processes that play its storms, and how many hundredths of a second of a processor each has used."""
        found = {}
        for folder in Path("/proc").glob("[0-9]*"):
            with contextlib.suppress(OSError):
                words = (folder / "stat").read_text().rpartition(")")[2].split()
                if int(words[1]) == self.process.pid:
                    found[folder.name] = int(words[11]) + int(words[12])
        return found

    def at_work(self) -> str:
        """The process that plays a storm for long: it has used a second of a processor since this was called."""
        before, ends = self.players(), time.monotonic() + 120
        while time.monotonic() < ends:
            for name, used in self.players().items():
                if used >= before.setdefault(name, used) + 100:
                    return name
            time.sleep(0.1)
        raise AssertionError("no process is at work")

    def close(self) -> None:
        self.process.send_signal(signal.SIGINT)
        told = self.process.communicate(timeout=120)
        assert (self.process.returncode, told) == (0, ("", ""))


@pytest.fixture(scope="module")
def lab() -> Iterator[Lab]:
    made = Lab()
    yield made
    made.close()


@pytest.fixture(scope="module")
def window() -> Iterator[Browser]:
    made = Browser()
    yield made
    made.close()


@pytest.fixture
def browser(window: Browser, lab: Lab) -> Browser:
    """The window with the page as it begins: two storms were played."""
    window.open("about:blank")
    window.resize(1280, 720)
    window.is_dark(False)
    window.requests()
    window.complaints()
    window.open(lab.address)
    window.wait(PLAYED)
    return window


def shot(browser: Browser, name: str) -> None:
    if SHOTS:
        Path(SHOTS).mkdir(parents=True, exist_ok=True)
        browser.screenshot(Path(SHOTS) / f"{name}.png")


def brief(browser: Browser, side: str = "a") -> str:
    """What is said of a side in brief."""
    return str(browser.run(f"return document.getElementById('{side}-brief').textContent")).replace("\u00a0", " ")


def comes_to(browser: Browser, said: str, side: str = "a") -> None:
    """Waits until this is said of a side."""
    ends = time.monotonic() + 120
    while said not in brief(browser, side):
        assert time.monotonic() < ends, (said, brief(browser, side))
        time.sleep(0.1)


def becomes_another(browser: Browser, figure: str, before: str) -> None:
    """Waits until this figure is another one."""
    ends = time.monotonic() + 120
    while browser.run("return document.getElementById(arguments[0]).innerHTML", figure) == before:
        assert time.monotonic() < ends, f"{figure} stays the same"
        time.sleep(0.1)


def text_of(browser: Browser, identity: str) -> str:
    return str(browser.run("return document.getElementById(arguments[0]).textContent", identity))


#: The rows of the totals, each with its texts.
ROWS = """
return [...document.querySelectorAll("#totals tbody tr")].map((row) =>
  [...row.cells].map((cell) => cell.textContent.replaceAll("\\u00a0", " ")));
"""


def comes_to_total(browser: Browser, name: str, cells: List[str]) -> None:
    """Waits until a row of the totals has these cells."""
    ends = time.monotonic() + 120
    while [name, *cells] not in browser.run(ROWS):
        assert time.monotonic() < ends, (name, cells, browser.run(ROWS))
        time.sleep(0.1)


#: Puts a text into a box, as if it was typed at once.
PUTS = """
const put = (identity, text) => {
  const box = document.getElementById(identity);
  box.value = text;
  box.dispatchEvent(new Event("input"));
};
"""
#: Puts a text into a box, and holds back the first answer that the page is given then to a call of this name.
PUTS_AND_HOLDS = f"""
{PUTS}
const [identity, text, name] = arguments, real = ask;
window.release = null;
ask = async (...given) => {{
  const answer = await real(...given);
  if (given[0] === name && !window.release) await new Promise((done) => {{ window.release = done; }});
  return answer;
}};
put(identity, text);
"""
#: Puts a text into a box, and gives the page at once the answer that was held back.
PUTS_AND_RELEASES = f"""
{PUTS}
put(arguments[0], arguments[1]);
window.release();
return (async () => {{
  for (let turn = 0; turn < 100; turn += 1) await null;
  return document.getElementById(arguments[2]).textContent;
}})();
"""


def types(browser: Browser, identity: str, text: str) -> None:
    """Types a text in the place of the one that stands in a box."""
    browser.run("document.getElementById(arguments[0]).focus()", identity)
    browser.keys("a", held=CONTROL)
    browser.keys(text or DELETE)


#: A storm that is not over before it is broken off.
LONG = {"rate": 17_000, "seconds": 60, "capacity": 1, "queue": 0, "calls": 2**32}
LONG_POLICY = "recurs(10000) & spaced(0.01)"

NEVER = "A: 18.4 % of 48,000 requests succeeded, not back by the end; 7.62 calls for each"
ENDS = "B: 83.3 % of 48,000 requests succeeded, back at 20 s; 1.02 calls for each"
STALE = "This picture shows the last valid input. "


def test_the_page_begins_with_the_storm_that_never_ends_and_the_one_that_a_quota_ends(
    browser: Browser, lab: Lab
) -> None:
    assert (brief(browser), brief(browser, "b")) == (NEVER, ENDS)
    panels = browser.run("return [...document.querySelectorAll('#played text')].map((text) => text.textContent)")
    assert {"A: no limit", "B: quota 10/10%/1s", "not back by the end", "back at 20 s"} <= set(panels)
    assert text_of(browser, "stale") == ""
    asked = browser.requests()
    assert asked and all(address.startswith((lab.address, "data:")) for address in asked), asked
    assert browser.complaints() == []
    shot(browser, "wide")


@pytest.mark.parametrize("width, height", SIZES)
def test_the_verdict_is_in_view_beside_all_controls(browser: Browser, width: int, height: int) -> None:
    browser.resize(width, height)
    browser.wait(f"return {width} === innerWidth")
    browser.wait(DRAWN)
    controls = "textarea, .limit, #numbers input, #copies button, #stories input, .beside input, .beside select"
    script = """
      const isWithin = (least, most, end) => least >= -1 && most <= end + 1;
      const seen = (box) => isWithin(box.top, box.bottom, innerHeight) && isWithin(box.left, box.right, innerWidth);
      const isSticky = getComputedStyle(document.querySelector(".picture")).position === "sticky";
      const hidden = [];
      for (const control of document.querySelectorAll(arguments[0])) {
        control.scrollIntoView({ block: "center" });
        const picture = document.getElementById("played").getBoundingClientRect();
        const box = control.getBoundingClientRect();
        const isCovered = isSticky && box.top < picture.bottom;
        if (!seen(picture) || !seen(box) || isCovered) hidden.push(control.id || control.textContent);
      }
      return hidden;
    """
    assert browser.run(script, controls) == []
    if width == 1280:
        assert browser.run(
            "return document.documentElement.scrollHeight <= innerHeight"
        ), "the page is longer than its window"
        assert browser.run("return document.getElementById('swept').getBoundingClientRect().bottom <= innerHeight")
    else:
        assert browser.run(
            "return document.querySelector('.picture').getBoundingClientRect().height <= innerHeight / 2"
        )
    shot(browser, f"scrolled-{width}")


@pytest.mark.parametrize("width, height", [(390, 844), (320, 640), (640, 320), (320, 256)])
def test_what_has_the_focus_is_not_behind_the_picture(browser: Browser, lab: Lab, width: int, height: int) -> None:
    browser.open("about:blank")
    browser.resize(width, height)
    browser.open(f"{lab.address}#story=beside")
    browser.wait(PLAYED)
    script = """
      const part = document.querySelector(".picture"), picture = part.getBoundingClientRect();
      const element = document.activeElement, box = element.getBoundingClientRect();
      const isBehind = element.closest(".controls") && box.top < picture.bottom - 1 && box.bottom > picture.top + 1;
      return [element.closest(".controls") !== null, isBehind ? element.id || element.textContent : ""];
    """
    # to the end of the controls, and back to their beginning
    browser.run("document.getElementById('along').focus()")
    went = []
    for held in (SHIFT, ""):
        for _ in range(60):
            browser.keys(TAB, held=held)
            went.append(browser.run(script))
    assert [is_control for is_control, _ in went].count(True) > 80
    assert [name for _, name in went if name] == []


def test_all_of_it_by_the_keyboard(browser: Browser, lab: Lab) -> None:
    # a story
    browser.run("document.activeElement.blur()")
    browser.keys(TAB, TAB)
    assert browser.run("return document.activeElement.value") == "quota"
    browser.keys(DOWN, DOWN)
    browser.wait("return document.getElementById('rate').value === '10000'")
    comes_to(browser, "37.0 % of 10,000 requests")
    browser.keys(UP, UP)
    browser.wait("return document.getElementById('rate').value === '800'")
    # a fault, as it is typed
    browser.tab_to("a-text")
    browser.keys("a", held=CONTROL)
    browser.keys("recurs(3) & spced(1)")
    browser.wait("return document.querySelector('#side-a mark')")
    assert browser.run("return document.querySelector('#side-a mark').textContent") == "spced(1)"
    said = browser.wait("return document.getElementById('a-fault').textContent")
    assert said == "not a plan: no builder is called 'spced'; did you mean 'spaced'?"
    assert browser.run("return document.getElementById('a-text').getAttribute('aria-invalid')") == "true"
    browser.wait("return document.getElementById('stale').textContent !== ''")
    assert text_of(browser, "stale") == f"{STALE}Policy A: {said}"
    shot(browser, "fault")
    # a policy
    browser.keys("a", held=CONTROL)
    browser.keys('{"recurs":3}')
    comes_to(browser, "1.50 calls for each")
    browser.wait(
        "return document.getElementById('a-fault').textContent + document.getElementById('stale').textContent === ''"
    )
    assert not browser.run("return document.querySelector('#side-a mark')")
    # a budget
    browser.tab_to("a-limit")
    browser.keys("x/y")
    browser.wait("return document.getElementById('a-limit-fault').textContent.includes('RESERVE/SHARE%/PERIOD')")
    browser.keys("a", held=CONTROL)
    browser.keys("100")
    comes_to_total(browser, "tickets for retries", ["100", "900"])
    # one call of it
    browser.run("document.querySelector('#side-a summary').focus()")
    browser.keys(" ")
    browser.wait("return document.querySelector('#side-a .plan svg')")
    # a slider
    before = browser.run("return document.getElementById('played').innerHTML")
    browser.tab_to("capacity-slider")
    browser.keys(RIGHT * 20)
    browser.wait("return Number(document.getElementById('capacity').value) > 1500")
    becomes_another(browser, "played", before)
    # along another parameter
    swept = browser.run("return document.getElementById('swept').innerHTML")
    browser.tab_to("along")
    browser.keys(DOWN)
    assert browser.run("return document.getElementById('along').value") == "capacity"
    becomes_another(browser, "swept", swept)
    # the link
    browser.wait("return location.hash.includes('along=capacity')")
    link, capacity = browser.address, browser.run("return document.getElementById('capacity').value")
    browser.open("about:blank")
    browser.open(link)
    browser.wait(PLAYED)
    kept = browser.run(
        "const ids = ['a-text', 'a-limit', 'b-text', 'b-limit', 'capacity', 'along'];"
        "return ids.map((id) => document.getElementById(id).value)"
    )
    assert kept == ['{"recurs":3}', "100", FULL, "10/10%/1s", capacity, "capacity"]
    # the programs
    for kind, wanted in [
        ("command line of A", f"hikebox storm --capacity {capacity} --budget 100 'recurs(3)'\n"),
        (
            "Python of A",
            "from hikebox import recurs, storm\n\npolicy = recurs(3)\n"
            f"print(storm(policy, capacity={capacity}, limit=100))\n",
        ),
        ("JSON of the policy of A", '{"recurs":3}'),
    ]:
        browser.run("document.querySelector(`[aria-label='The ${arguments[0]}']`).focus()", kind)
        browser.keys(" ")
        assert text_of(browser, "copied") == wanted
    browser.run("document.querySelector(\"[aria-label='The JSON of the scenario']\").click()")
    told = json.loads(text_of(browser, "copied"))
    assert told["storm"] == {"capacity": int(capacity), "outage": [10000, 20000]}
    assert [line["limit"] for line in told["lines"]] == [100, "10/10%/1000ms"]
    asked = browser.requests()
    assert all(address.startswith((lab.address, "data:", "about:")) for address in asked), asked
    assert browser.complaints() == []


STORIES = [
    ("quota", "18.4 % of 48,000 requests succeeded, not back", "83.3 % of 48,000 requests succeeded, back at 20 s"),
    (
        "retries",
        "63.9 % of 48,000 requests succeeded, back at 33 s; 1.00",
        "18.1 % of 48,000 requests succeeded, not back by the end; 3.46",
    ),
    ("jitter", "37.0 % of 10,000 requests", "100 % of 10,000 requests"),
    (
        "back-off",
        "83.3 % of 48,000 requests succeeded, back at 20 s; 1.50",
        "18.4 % of 48,000 requests succeeded, not back by the end; 7.62",
    ),
    (
        "deadline",
        "18.4 % of 48,000 requests succeeded, not back by the end; 7.62",
        "84.4 % of 48,000 requests succeeded, back at 20 s; 1.66",
    ),
    (
        "beside",
        "83.3 % of 48,000 requests succeeded, back at 20 s; 1.02",
        "20.8 % of 48,000 requests succeeded, not back by the end; 3.01",
    ),
]


@pytest.mark.parametrize("width, height", SIZES[1:])
def test_all_stories_and_a_slider_by_touch(browser: Browser, width: int, height: int) -> None:
    browser.resize(width, height)
    browser.wait(DRAWN)
    for element, (name, first, second) in zip(browser.elements("[name=story]"), STORIES):
        browser.run("document.querySelector(`[value=${arguments[0]}]`).scrollIntoView({ block: 'end' })", name)
        browser.tap_until(element, f"return document.querySelector('[name=story]:checked').value === '{name}'")
        comes_to(browser, first)
        comes_to(browser, second, "b")
    shot(browser, f"story-{width}")
    browser.run("document.getElementById('rate-slider').scrollIntoView({ block: 'end' })")
    # (half of the way from 1 to 20,000 by ratios is their root, 141)
    ends, rate = time.monotonic() + 120, 0
    while not (100 <= rate <= 200 and f"of {rate * 60:,} requests" in brief(browser)):
        assert time.monotonic() < ends, (rate, brief(browser))
        if not 100 <= rate <= 200:
            browser.drag("rate-slider", 0.5)
        rate = int(browser.run("return document.getElementById('rate').value"))
        time.sleep(0.1)
    assert browser.run("return scrollX") == 0


WRONG = [
    ("rate", "200.5", "expected a whole number from 1 to 1,000,000, got '200.5'"),
    ("rate", "", "expected a whole number from 1 to 1,000,000, got nothing"),
    ("rate", "abc", "expected a whole number from 1 to 1,000,000, got 'abc'"),
    ("queue", "-1", "expected a whole number from 0 to 1,048,576, got '-1'"),
    ("outage1", "3600001", "expected a whole number from 0 to 3,600,000, got '3600001'"),
    ("slow2", "0", "expected a whole number from 1 to 100, got '0'"),
    ("calls", "1e5", "expected a whole number from 1 to 4,294,967,296, got '1e5'"),
]


@pytest.mark.parametrize("identity, typed, said", WRONG, ids=[f"{name}={typed}" for name, typed, _ in WRONG])
def test_a_wrong_number_is_told_at_its_box(browser: Browser, identity: str, typed: str, said: str) -> None:
    right = browser.run("return document.getElementById(arguments[0]).value", identity)
    types(browser, identity, typed)
    assert text_of(browser, f"{identity}-fault") == said
    assert browser.run("return document.getElementById(arguments[0]).getAttribute('aria-invalid')", identity) == "true"
    # (the numbers that it was while it was typed were right, and may have been played)
    label = browser.run("return document.getElementById(arguments[0]).labels[0].textContent", identity)
    assert text_of(browser, "stale") == f"{STALE}{label}: {said}."
    types(browser, identity, right)
    assert text_of(browser, f"{identity}-fault") == ""
    browser.wait("return document.getElementById('stale').textContent === ''")
    comes_to(browser, NEVER)


def test_numbers_that_are_wrong_together_are_told(browser: Browser) -> None:
    types(browser, "outage0", "30000")
    browser.wait(
        "const said = 'it ends at 20000 ms, before it begins at 30000 ms';"
        "return document.getElementById('outage0-fault').textContent === said"
    )
    said = "Outage from, ms: it ends at 20000 ms, before it begins at 30000 ms."
    assert text_of(browser, "stale") == STALE + said
    types(browser, "outage1", "40000")
    browser.wait("return document.getElementById('outage0-fault').textContent === ''")
    comes_to(browser, "back at 40 s", "b")
    browser.wait("return document.getElementById('stale').textContent === ''")


def test_an_answer_to_what_was_typed_before_marks_nothing(browser: Browser) -> None:
    browser.run(PUTS_AND_HOLDS, "a-text", "recurs(3) & sp", "plan")
    browser.wait("return window.release !== null")
    assert browser.run(PUTS_AND_RELEASES, "a-text", "recurs(3) & spced(1)", "a-fault") == ""
    browser.wait("return document.querySelector('#side-a mark')")
    assert browser.run("return document.querySelector('#side-a mark').textContent") == "spced(1)"


def test_an_answer_to_a_number_of_before_leaves_the_fault_of_the_box(browser: Browser) -> None:
    browser.run(PUTS_AND_HOLDS, "outage1", "5", "storm")
    browser.wait("return window.release !== null")
    wanted = "expected a whole number from 0 to 3,600,000, got '5x'"
    assert browser.run(PUTS_AND_RELEASES, "outage1", "5x", "outage1-fault") == wanted
    assert text_of(browser, "outage0-fault") == "it ends at 5 ms, before it begins at 10000 ms"


def test_what_is_wrong_in_a_link_is_told(browser: Browser, lab: Lab) -> None:
    for carried, identity, fault, said in [
        ("story=quota&patience=abc", "patience", "expected a whole number from 1 to 3,600,000, got 'abc'", ""),
        ("rate=900&outage=5000", "outage1", "expected a whole number from 0 to 3,600,000, got nothing", ""),
        ("outage=5-6-7", "outage1", "expected a whole number from 0 to 3,600,000, got '6-7'", ""),
        ("story=flood&rats=5", "", "", "The link has what this page does not know: story=flood, rats."),
        (
            "story=constructor&along=toString&a-limited=yes",
            "",
            "",
            "The link has what this page does not know: story=constructor, along=toString, a-limited=yes.",
        ),
    ]:
        browser.open("about:blank")
        browser.open(f"{lab.address}#{carried}")
        browser.wait(PLAYED)
        assert text_of(browser, "said") == said
        if identity:
            assert text_of(browser, f"{identity}-fault") == fault
            assert text_of(browser, "stale").startswith(STALE) and text_of(browser, "stale").endswith(f"ms: {fault}.")
    browser.open("about:blank")
    # A link without a story is not dropped.
    browser.open(f"{lab.address}#rate=900&b=recurs%280%29")
    browser.wait(PLAYED)
    comes_to(browser, "of 54,000 requests", "b")
    assert browser.run("return ['rate', 'a-text', 'b-text'].map((id) => document.getElementById(id).value)") == [
        "900",
        "",
        "recurs(0)",
    ]
    # What a link leaves out is not that of the link before.
    browser.run("location.hash = 'story=jitter&along=capacity'")
    browser.wait("return document.getElementById('along').value === 'capacity'")
    browser.run("location.hash = 'story=quota'")
    browser.wait("return document.getElementById('rate').value === '800'")
    assert browser.run("return document.getElementById('along').value") == "rate"
    # A link without policies has those of its story.
    browser.open("about:blank")
    browser.open(f"{lab.address}#a-limit=100")
    browser.wait(PLAYED)
    assert browser.run("return ['a-text', 'a-limit', 'b-limit'].map((id) => document.getElementById(id).value)") == [
        FULL,
        "100",
        "10/10%/1s",
    ]


def test_a_link_is_opened_though_the_page_keeps_its_own_just_then(browser: Browser) -> None:
    browser.run("location.hash = 'story=jitter&along=capacity'; keepLink()")
    browser.wait("return document.getElementById('along').value === 'capacity'")
    assert browser.run("return document.getElementById('rate').value") == "10000"
    browser.wait("return location.hash.includes('story=jitter') && location.hash.includes('along=capacity')")


def test_a_page_without_a_picture_does_not_speak_of_one(browser: Browser, lab: Lab) -> None:
    browser.open("about:blank")
    browser.open(f"{lab.address}#down=2")
    browser.wait("return document.getElementById('down-fault').textContent === 'expected 1 to 1, got 2'")
    assert text_of(browser, "stale") == "Replicas down in the outage: expected 1 to 1, got 2."
    assert not browser.run("return document.querySelector('#played svg')")


def test_a_page_that_is_loaded_with_a_wrong_policy_says_what_is_wrong_where_the_picture_would_be(
    browser: Browser, lab: Lab
) -> None:
    browser.open("about:blank")
    browser.open(f"{lab.address}#a=recurs%283%29%20%26%20spced%281%29&b=")
    browser.wait("return document.getElementById('stale').textContent !== ''")
    said = "Policy A: not a plan: no builder is called 'spced'; did you mean 'spaced'?"
    assert text_of(browser, "stale") == said
    assert not browser.run("return document.querySelector('#played svg')")
    seen = browser.run(
        "const box = document.getElementById('stale').getBoundingClientRect();"
        "return box.height > 0 && box.top >= 0 && box.bottom <= innerHeight"
    )
    assert seen
    shot(browser, "wrong")


def test_a_side_keeps_its_colour_where_the_other_one_is_wrong(browser: Browser, lab: Lab) -> None:
    colours = (
        "return [...document.querySelectorAll('#swept path[stroke-width]')].map((path) => path.getAttribute('stroke'))"
    )
    both = set(browser.run(colours))
    browser.open("about:blank")
    browser.open(f"{lab.address}#a=recurs%280%29&b=")
    browser.wait(PLAYED)
    of_a = set(browser.run(colours))
    browser.open("about:blank")
    browser.open(f"{lab.address}#a=spced%281%29&b=recurs%280%29")
    browser.wait(PLAYED)
    of_b = set(browser.run(colours))
    assert of_a and of_b and not of_a & of_b and of_a | of_b <= both


@pytest.mark.parametrize("seconds, most", [(60, 17_476), (600, 1_747), (10, 20_000)])
def test_a_slider_goes_no_further_than_the_storm_is_played(browser: Browser, seconds: int, most: int) -> None:
    # (of 1,048,576 requests at most)
    types(browser, "seconds", str(seconds))
    comes_to(browser, f"of {800 * seconds:,} requests")
    browser.run("document.getElementById('rate-slider').focus()")
    browser.keys(END)
    rate = int(browser.run("return document.getElementById('rate').value"))
    assert 0.9 * most <= rate <= most
    comes_to(browser, f"of {rate * seconds:,} requests")
    assert text_of(browser, "rate-fault") == text_of(browser, "stale") == ""


def test_a_storm_of_a_million_requests_shows_the_share_that_is_played(browser: Browser) -> None:
    browser.run("state.storm = { rate: 17000, queue: 5000 }; showControls(); stormChanged()")
    share = browser.wait("return document.querySelector('#busy:not([hidden]) progress').value")
    assert 0 < share < 1 and re.fullmatch(r"about \d+ % done\.", text_of(browser, "done"))
    shot(browser, "share")
    browser.wait(f"return document.querySelector('#busy:not([hidden]) progress').value > {share}")
    comes_to(browser, "of 1,020,000 requests", "b")
    browser.wait("return document.getElementById('busy').hidden")


def test_a_browser_that_does_not_copy_shows_where_the_text_is(browser: Browser) -> None:
    browser.run("navigator.clipboard.writeText = () => Promise.reject(new Error('no'))")
    browser.run("document.getElementById('copy-link').click()")
    browser.wait("return document.getElementById('said').textContent.endsWith('The text is below “Copy as”.')")
    assert text_of(browser, "copied").startswith("http://127.0.0.1:")
    assert not browser.run("return document.getElementById('copied').hidden")


def test_what_is_not_played_is_not_copied(browser: Browser) -> None:
    types(browser, "a-text", "")
    browser.wait("return programs[0] === null")
    browser.run("document.querySelector(\"[aria-label='The command line of A']\").click()")
    assert text_of(browser, "said") == "There is nothing to copy: no such storm is played."
    assert browser.run("return document.getElementById('copied').hidden")


def test_a_page_whose_lab_ended_says_so_at_the_picture(window: Browser) -> None:
    other = Lab()
    window.open("about:blank")
    window.resize(1280, 720)
    window.open(other.address)
    window.wait(PLAYED)
    other.close()
    types(window, "rate", "900")
    said = "This picture shows the last valid input. hikebox lab does not answer. Is it still running?"
    window.wait(f"return document.getElementById('stale').textContent === '{said}'")
    assert window.run("return document.getElementById('played').classList.contains('stale')")
    window.open("about:blank")
    window.complaints()


def test_a_surge_goes_by_the_link_and_into_the_copies(browser: Browser, lab: Lab) -> None:
    browser.open("about:blank")
    browser.open(f"{lab.address}#seconds=20&outage=0-0&rates=1000-3000-1200&b=recurs%280%29")
    browser.wait(PLAYED)
    comes_to(browser, "of 16,800 requests", "b")
    kept = "return ['rates0', 'rates1', 'rates2'].map((id) => document.getElementById(id).value)"
    assert browser.run(kept) == ["1000", "3000", "1200"]
    assert "--rates 1000..3000@1200" in browser.run("return programs[1].command")
    assert json.loads(browser.run("return scenario"))["storm"]["rates"] == [[1000, 3000, 1200]]
    browser.run("take(CONTROLS.find((control) => idOf(control) === 'rates1'), '1000')")
    comes_to(browser, "of 16,000 requests", "b")
    assert "rates=1000-1000-1200" in browser.run("return location.hash")


@pytest.mark.parametrize("width, height", SIZES)
def test_a_quota_beside_clients_without_one_is_in_view(browser: Browser, lab: Lab, width: int, height: int) -> None:
    browser.open("about:blank")
    browser.resize(width, height)
    browser.open(f"{lab.address}#story=beside")
    browser.wait(PLAYED)
    comes_to(browser, "20.8 % of 48,000 requests succeeded, not back by the end; 3.01", "b")
    texts = browser.run("return [...document.querySelectorAll('#played text')].map((text) => text.textContent)")
    assert {"A: beside 30 %, limited", "B: beside 30 %, not limited", "17.8 %", "27.8 %"} <= set(texts)
    theirs = [text.partition(":")[0] for text in texts if text.startswith("beside, ")]
    assert theirs == ["beside, 30 %, limited", "beside, 30 %, not limited"]
    picture = browser.run("return document.querySelector('.picture').getBoundingClientRect().height")
    if width == 1280:
        assert browser.run("return document.documentElement.scrollHeight <= innerHeight")
        assert browser.run("return document.getElementById('swept').getBoundingClientRect().bottom <= innerHeight")
    else:
        assert picture <= height / 2
    assert browser.run(CROSSING) == []
    assert browser.run("return document.documentElement.scrollWidth <= innerWidth")
    shot(browser, f"beside-{width}")


def test_clients_beside_by_the_keyboard_the_link_and_the_copies(browser: Browser, lab: Lab) -> None:
    browser.open("about:blank")
    browser.open(f"{lab.address}#rate=80&capacity=100&queue=500")
    browser.wait(PLAYED)
    browser.tab_to("beside0-slider")
    browser.keys(RIGHT * 20)
    comes_to(browser, "B: 21.6 % of 4,800 requests succeeded, not back by the end; 2.43 calls for each", "b")
    browser.tab_to("b-limited")
    browser.keys(" ")
    comes_to(browser, "B: 83.4 % of 4,800 requests succeeded, back at 20 s; 1.04 calls for each", "b")
    browser.run("document.getElementById('beside-policy').focus()")
    browser.keys(DOWN)
    browser.wait("return programs[1] && programs[1].command.includes(\"--beside '20+limited=recurs(0)'\")")
    assert "beside=[Population(0.2, recurs(0), limited=True)]" in browser.run("return programs[1].python")
    assert ".beside(Population::new(20, &second).limited(true))" in browser.run("return programs[1].rust")
    lines = json.loads(browser.run("return scenario"))["lines"]
    assert [line["beside"][0]["limited"] for line in lines] == [False, True]
    link = browser.address
    assert "beside=20-recurs%280%29" in link and "b-limited=1" in link and "a-limited" not in link
    browser.open("about:blank")
    browser.open(link.replace("recurs%280%29", "recurs%2820%29", 1))
    browser.wait(PLAYED)
    kept = "return ['beside0', 'beside-policy'].map((id) => document.getElementById(id).value)"
    assert browser.run(kept) == ["20", "recurs(20)"]
    assert browser.run("return SIDES.map((name) => document.getElementById(name + '-limited').checked)") == [
        False,
        True,
    ]
    assert text_of(browser, "said") == ""
    types(browser, "beside0", "100")
    assert text_of(browser, "beside0-fault") == "expected a whole number from 0 to 99, got '100'"
    assert browser.complaints() == []


@pytest.mark.parametrize("dark", [False, True], ids=["light", "dark"])
@pytest.mark.parametrize("width, height", SIZES)
def test_totals_are_a_table_of_a_beside_b(browser: Browser, lab: Lab, width: int, height: int, dark: bool) -> None:
    browser.open("about:blank")
    browser.resize(width, height)
    browser.is_dark(dark)
    browser.open(f"{lab.address}#story=beside&b-limit=")
    browser.wait(PLAYED)
    rows = browser.run(ROWS)
    names = [row[0] for row in rows]
    assert names[:3] == ["succeeded", "recovery", "calls per request"] and names.count("succeeded") == 3
    heads = [row[0] for row in rows if len(row) == 1]
    assert heads == ["Own clients, 70 % of the requests", "Clients beside, 30 % of the requests"]
    assert rows[0] == ["succeeded", "83.3 %", "18.4 %"] and ["tickets for retries", "900", "–"] in rows
    # each fact stands once in a group
    groups = [names[: names.index(heads[0])], names[names.index(heads[0]) : names.index(heads[1])]]
    assert all(len(set(group)) == len(group) for group in groups)
    # who can't see it hears its name, and of each cell the row and the column
    (table,) = browser.elements("#totals")
    assert browser.label(table) == "Totals"
    assert browser.run("return [...document.querySelectorAll('#totals thead th')].map((head) => head.scope)") == [
        "col",
        "col",
    ]
    scopes = browser.run("return [...document.querySelectorAll('#totals tbody tr')].map((row) => row.cells[0].scope)")
    assert scopes == ["rowgroup" if len(row) == 1 else "row" for row in rows]
    # no cell lies upon another one, or is cut
    wrong = browser.run(
        """
        const cells = [...document.querySelectorAll("#totals th, #totals td")];
        const boxes = cells.map((cell) => {
          const inside = document.createRange();
          inside.selectNodeContents(cell);
          return [cell, cell.getBoundingClientRect(), inside.getBoundingClientRect()];
        });
        const crosses = (one, other) => one.left < other.right - 1 && other.left < one.right - 1
          && one.top < other.bottom - 1 && other.top < one.bottom - 1;
        const isCut = (cell, text) => cell.scrollWidth > cell.clientWidth + 1 || text.right > innerWidth;
        return boxes.filter(([cell, , text], at) => isCut(cell, text)
          || boxes.some(([, , other], index) => index !== at && crosses(text, other))).map(([cell]) => cell.innerText);
        """
    )
    assert wrong == []
    ratio, text = browser.run(CONTRAST)
    assert ratio >= 4.5, text
    browser.run("document.getElementById('totals').scrollIntoView({ block: 'end' })")
    shot(browser, f"totals-{'dark' if dark else 'light'}-{width}")


def logged(folder: Path, *counts: int) -> Path:
    """A log of the combined format with so many requests in each second, and three lines that are none."""
    lines = []
    for second, count in enumerate(counts):
        time = f"29/Nov/2026:17:{30 + second // 60}:{second % 60:02} +0000"
        lines += [f'192.0.2.1 - - [{time}] "GET / HTTP/1.1" 200 5 "-" "-" 0.250'] * count
    file = folder / "access.log"
    file.write_text("\n".join([*lines, "spoilt", "", "spoilt"]) + "\n")
    return file


#: 30 s of 100 requests a second, then 10 s of 400 and 20 s of 100 again.
COUNTS = [100] * 30 + [400] * 10 + [100] * 20
TAKEN = [
    "The common or the combined format: took 9,000 lines, skipped 3 (1 empty, 2 not of the format)",
    "From 2026-11-29 17:30:00 UTC on, 60 s; the busiest second is 2026-11-29 17:30:30, with 400 requests",
    "Half took at most 250 ms, 99 in 100 at most 250 ms, the slowest 250 ms",
    "Played: 60 s from 2026-11-29 17:30:00 UTC on, as 3 spans with an even pace in each: 9,000 requests (the log has "
    "9,000), at most 400 in a second",
    "Assumed: patience 250 ms (the slowest answer)",
    "Assumed: capacity 400 calls a second (the most that was answered in a second; the peer may be able to do more)",
]
#: What is told of the log.
LINES = """
return [...document.querySelectorAll("#log-lines li")].map((line) => line.textContent.replaceAll("\u00a0", " "));
"""


@pytest.mark.parametrize("dark", [False, True], ids=["light", "dark"])
@pytest.mark.parametrize("width, height", SIZES)
def test_a_log_that_is_dropped_is_played(
    browser: Browser, lab: Lab, tmp_path: Path, width: int, height: int, dark: bool
) -> None:
    browser.resize(width, height)
    browser.is_dark(dark)
    browser.wait(DRAWN)
    browser.drop(logged(tmp_path, *COUNTS))
    comes_to(browser, "of 9,000 requests")
    assert browser.run(LINES) == TAKEN
    texts = browser.run("return [...document.querySelectorAll('#logged text')].map((text) => text.textContent)")
    assert {"requests of the log", "as they are played", "requests/s", "400"} <= set(texts)
    values = "return ['seconds', 'patience', 'capacity'].map((id) => document.getElementById(id).value)"
    assert browser.run(values) == ["60", "250", "400"]
    # its curve is under the picture, and the sliders of the rates are away
    under = (
        "const [above, below] = ['played', 'logged'].map((id) => document.getElementById(id).getBoundingClientRect());"
        "return below.height > 0 && below.top >= above.bottom && below.right <= innerWidth"
    )
    assert browser.run(under)
    hidden = "return ['rate', 'rates0', 'rates1', 'rates2', 'together'].map((id) => byId(id).offsetParent)"
    assert browser.run(hidden) == [None] * 5
    ratio, text = browser.run(CONTRAST)
    assert ratio >= 4.5, text
    assert browser.run(CROSSING) == []
    assert browser.run("return document.documentElement.scrollWidth <= innerWidth")
    if width == 1280:
        assert browser.run("return document.documentElement.scrollHeight <= innerHeight")
    asked = browser.requests()
    assert all(address.startswith((lab.address, "data:", "about:")) for address in asked), asked
    assert browser.complaints() == []
    shot(browser, f"log-{'dark' if dark else 'light'}-{width}")


@pytest.mark.parametrize("width, height", SIZES)
def test_a_log_by_the_keyboard_and_back_to_the_rates(browser: Browser, tmp_path: Path, width: int, height: int) -> None:
    browser.resize(width, height)
    browser.wait(DRAWN)
    types(browser, "patience", "700")
    browser.tab_to("log-file")
    # (the dialog itself is the browser's)
    browser.run(
        "document.getElementById('log-file').addEventListener('click', (event) => { window.opened = event.isTrusted; })"
    )
    browser.call("POST", "/goog/cdp/execute", INTERCEPTED)
    browser.keys(" ")
    browser.wait("return window.opened")
    browser.choose("log-file", logged(tmp_path, *COUNTS))
    comes_to(browser, "of 9,000 requests")
    assert browser.run(LINES) == TAKEN
    assert text_of(browser, "log-told") == "The requests are those of access.log."
    # its busiest ten seconds
    browser.tab_to("seconds")
    browser.keys("a", held=CONTROL)
    browser.keys("10")
    comes_to(browser, "of 4,000 requests")
    assert browser.run(LINES)[3].startswith("Played: 10 s from 2026-11-29 17:30:30 UTC on, as 1 span")
    types(browser, "seconds", "60")
    comes_to(browser, "of 9,000 requests")
    # the link has the spans, and needs no log
    browser.wait("return location.hash.includes('rates=0-30000-100_40000-60000-100')")
    link = browser.address
    (back,) = browser.elements("#log-back")
    assert browser.label(back) == "Back to rates"
    browser.run("document.getElementById('log-back').focus()")
    browser.keys(" ")
    comes_to(browser, "of 48,000 requests")
    assert text_of(browser, "log-told") == "The requests come by rates."
    kept = (
        "return ['rate', 'seconds', 'patience', 'capacity', 'log-file'].map((id) => document.getElementById(id).value)"
    )
    assert browser.run(kept) == ["800", "60", "700", "1000", ""]
    assert browser.run(LINES) == [] and not browser.run("return document.querySelector('#logged svg')")
    assert browser.run("return document.getElementById('log-back').hidden")
    assert browser.run("return document.activeElement.id") == "log-file"
    browser.open("about:blank")
    browser.open(link)
    browser.wait(PLAYED)
    comes_to(browser, "of 9,000 requests")
    assert browser.run(LINES) == ["2 spans of requests come at a rate of their own."]
    assert "--rates 0..30000@100,40000..60000@100" in browser.run("return programs[0].command")
    browser.tab_to("log-back")
    browser.keys(" ")
    comes_to(browser, "of 48,000 requests")
    assert browser.complaints() == []


def test_a_file_that_is_no_log_is_told_at_the_picture(browser: Browser, tmp_path: Path) -> None:
    file, wanted = (
        tmp_path / "no.log",
        "expected lines of an access log (nginx's or Apache's, JSON lines, or CSV), got ",
    )
    for body, said in [
        (b"", f"{wanted}no line."),
        (b"no log\n" * 2000, f"{wanted}1000 lines of no known format."),
        (b"x" * (1 << 20), f"{wanted}lines that are none: 1 longer than 65536 bytes."),
        (gzip.compress(b"1795973400,x\n")[:-1], "expected whole gzip data: it ends too soon."),
    ]:
        file.write_bytes(body)
        browser.drop(file)
        browser.wait(f"return document.getElementById('log-said').textContent === {json.dumps(f'no.log: {said}')}")
    assert brief(browser) == NEVER and browser.run(LINES) == []
    # a file that is too large is not read at all
    browser.run("known.most_log = 5")
    file.write_bytes(b"1795973400,x\n")
    browser.drop(file)
    said = "no.log: expected at most 5 bytes, got 13: hikebox storm --log takes larger ones."
    browser.wait(f"return document.getElementById('log-said').textContent === '{said}'")
    browser.run("known.most_log = 500")
    browser.drop(file, logged(tmp_path, 5))
    browser.wait("return document.getElementById('log-said').textContent === 'Expected one access log, got 2 files.'")
    # a file that is gone, and a folder
    browser.run(
        "const real = ask; window.sent = false;"
        "ask = (name, ...rest) => { window.sent ||= name.startsWith('log?'); return real(name, ...rest); }"
    )
    browser.drop(tmp_path)
    browser.wait("return document.getElementById('log-said').textContent.includes(': the browser can\\'t read it')")
    assert not browser.run("return window.sent")
    browser.drop(file)
    comes_to(browser, "of 1 request succeeded")
    assert text_of(browser, "log-said") == ""
    # a story has its own requests
    browser.run("document.querySelector('[value=jitter]').click()")
    comes_to(browser, "of 10,000 requests")
    assert browser.run(LINES) == []


def test_a_log_that_is_read_for_long_shows_that_and_another_one_breaks_it_off(
    browser: Browser, lab: Lab, tmp_path: Path
) -> None:
    long = tmp_path / "long.gz"
    long.write_bytes(gzip.compress(b"\n" * (64 << 20)) * 15)
    browser.drop(long)
    browser.wait("return !document.getElementById('busy').hidden")
    assert text_of(browser, "busy-said") == "Reading long.gz; another log breaks it off."
    at_work = lab.at_work()
    browser.drop(logged(tmp_path, *COUNTS))
    comes_to(browser, "of 9,000 requests")
    browser.wait("return document.getElementById('busy').hidden")
    assert text_of(browser, "log-said") == ""
    ends = time.monotonic() + 120
    while at_work in lab.players():
        assert time.monotonic() < ends, "the process that read the long log is still there"
        time.sleep(0.1)


def test_a_text_that_is_dropped_is_no_log(browser: Browser) -> None:
    data = {"items": [{"mimeType": "text/plain", "data": "recurs(1)"}], "dragOperationsMask": 1}
    for kind in ("dragEnter", "dragOver", "drop"):
        params = {"type": kind, "x": 700, "y": 500, "data": data}
        browser.call("POST", "/goog/cdp/execute", {"cmd": "Input.dispatchDragEvent", "params": params})
    assert not browser.run("return document.body.classList.contains('dropping')")
    assert text_of(browser, "log-said") == "" and brief(browser) == NEVER


def test_a_link_of_another_run_opens_with_what_it_carries(window: Browser) -> None:
    other = Lab("http://127.0.0.1:1/another/#story=jitter&a=recurs%281%29&queue=7&b=%7B%22recurs%22%3A2%7D&b-limit=5")
    try:
        window.open(other.address)
        window.wait(PLAYED)
        kept = window.run(
            "return ['a-text', 'b-text', 'b-limit', 'queue', 'rate'].map((id) => document.getElementById(id).value)"
        )
        assert kept == ["recurs(1)", '{"recurs":2}', "5", "7", "10000"]
        assert window.run("return document.querySelector('[name=story]:checked').value") == "jitter"
    finally:
        window.open("about:blank")
        other.close()


def test_a_long_storm_shows_that_it_is_played_and_typing_breaks_it_off(browser: Browser, lab: Lab) -> None:
    browser.tab_to("a-text")
    browser.keys("a", held=CONTROL)
    # (a million requests, of which each is retried ten thousand times: it is played for an hour)
    browser.run("state.storm = arguments[0]; showControls()", LONG)
    browser.keys(LONG_POLICY)
    browser.wait("return !document.getElementById('busy').hidden")
    assert "breaks it off" in text_of(browser, "busy-said")
    shot(browser, "busy")
    at_work = lab.at_work()
    browser.run("state.storm = {seconds: 5}; showControls()")
    browser.keys("a", held=CONTROL)
    browser.keys("recurs(0)")
    comes_to(browser, "of 4,000 requests")
    browser.wait("return document.getElementById('busy').hidden")
    ends = time.monotonic() + 120
    while at_work in lab.players():
        assert time.monotonic() < ends, "the process of the long storm is still there"
        time.sleep(0.1)


def test_ten_storms_of_a_million_requests_at_once_leave_it_answering(browser: Browser) -> None:
    meanwhile, picture, ends = browser.run(
        """
        const [storm, text] = arguments;
        const asked = { page, sides: [{ text, limit: "" }], storm, width: 500 };
        const said = (answer) => answer.then(() => "played", (error) => error.message);
        const played = (asked) => said(ask("storm", { ...asked, turn: ++turns }));
        const many = Array.from({ length: 10 }, () => played(asked));
        let over = false;
        const all = Promise.all(many).then((ends) => { over = true; return ends; });
        return ask("plan", { text: "recurs(1)", limit: "", width: 500 }).then((plan) => {
          const meanwhile = !over, last = played({ ...asked, storm: { seconds: 1 } });
          return Promise.all([all, last]).then(([ends, end]) => [meanwhile, plan.picture, [...ends, end]]);
        });
        """,
        LONG,
        LONG_POLICY,
    )
    assert meanwhile and picture.startswith("<svg ")
    assert ends == ["the storm was broken off\n"] * 10 + ["played"]


@pytest.mark.parametrize("dark", [False, True], ids=["light", "dark"])
@pytest.mark.parametrize("width, height", SIZES)
def test_texts_can_be_read(browser: Browser, dark: bool, width: int, height: int) -> None:
    browser.resize(width, height)
    browser.is_dark(dark)
    browser.wait(
        f"return {width} === innerWidth && matchMedia('(prefers-color-scheme: dark)').matches === {str(dark).lower()}"
    )
    browser.run("document.querySelectorAll('details').forEach((part) => { part.open = true })")
    browser.wait("return document.querySelectorAll('.plan svg').length === 2")
    browser.wait(DRAWN)
    types(browser, "rate", "x")
    ratio, text = browser.run(CONTRAST)
    assert ratio >= 4.5, text
    assert browser.run(CROSSING) == []
    assert browser.run("return document.documentElement.scrollWidth <= innerWidth"), "the page is wider than its window"
    shot(browser, f"{'dark' if dark else 'light'}-{width}")


def test_each_control_has_a_name_of_its_own(browser: Browser) -> None:
    labels = [
        browser.label(element) for element in browser.elements("input, select, textarea, button:not([hidden]), summary")
    ]
    assert len(labels) > 40 and "" not in labels
    assert [label for label in labels if "Policy, as an expression" in label or "Limit" in label]
    regions = [browser.label(element) for element in browser.elements("main section")]
    assert regions == [
        "The storm",
        "Or play the requests of an access log",
        "Policy A",
        "Policy B",
        "Clients beside",
        "Parameters of the storm",
        "Copy as",
        "Totals",
        "Along a parameter",
    ]
    assert browser.run(
        "const drawn = [...document.querySelectorAll('svg')];"
        "return drawn.every((svg) => svg.querySelector('title') && svg.querySelector('desc'))"
    )
    live = browser.run(
        "return [...document.querySelectorAll('[role=status]')].map((part) => part.id || part.className)"
    )
    assert {"said", "stale", "busy", "storm-fault", "swept-said", "rate-fault"} <= set(live)
    assert browser.run("return document.getElementById('a-brief').parentElement.getAttribute('role')") == "status"


@pytest.mark.parametrize("dark", [False, True], ids=["light", "dark"])
@pytest.mark.parametrize("width", [320, 760])
def test_pictures_of_the_program_can_be_read(window: Browser, tmp_path: Path, dark: bool, width: int) -> None:
    brown = ["storm", "--slow", "12000..30000@50", "recurs(3)"]
    for number, words in enumerate(
        [
            ["storm", "--quota", "10/10%/1s", "--without", "--detail", FULL, "recurs(3)"],
            ["storm", "--scenario", "herd", "--window", "500", FULL, "recurs(3)"],
            brown,
            [
                "storm",
                "--quota",
                "10/10%/1s",
                "--without",
                "--beside",
                f"30={FULL}",
                "--beside",
                "10@50=recurs(3)",
                FULL,
            ],
            ["plan", "recurs(5) & exponential(0.1, 2).cap(1).jittered()"],
            ["plan", "--took", "1300", "fixed(1)", "windowed(1)"],
        ]
    ):
        file = tmp_path / f"{number}.svg"
        subprocess.run([sys.executable, "-m", "hikebox", *words, "--svg", str(file), "--width", str(width)], check=True)
        looks_at_picture(window, file, tmp_path, dark, f"picture-{number}-{width}")


@pytest.mark.parametrize("file", sorted((TOP / "docs" / "pictures").glob("*.svg")), ids=lambda file: file.stem)
def test_pictures_of_the_pages_can_be_read(window: Browser, tmp_path: Path, file: Path) -> None:
    for dark in (False, True):
        looks_at_picture(window, file, tmp_path, dark, file.stem)


def looks_at_picture(window: Browser, file: Path, folder: Path, dark: bool, name: str) -> None:
    """All of its texts can be read, none lies upon another one or is cut, and its ground is light or dark."""
    page = folder / "page.html"
    page.write_text(f"<!DOCTYPE html><meta charset=utf-8><title>a picture</title><body>{file.read_text()}</body>")
    window.is_dark(dark)
    window.resize(int(re.findall(r'width="(\d+)"', file.read_text())[0]) + 40, 1000)
    window.open(page.as_uri())
    ratio, text = window.run(CONTRAST)
    assert ratio >= 4.5, text
    assert window.run(CROSSING) == []
    ground = window.run("return getComputedStyle(document.querySelector('svg .ground')).fill")
    assert ground == ("rgb(21, 24, 28)" if dark else "rgb(255, 255, 255)")
    shot(window, f"{name}-{'dark' if dark else 'light'}")


@pytest.mark.parametrize("file", sorted((TOP / "docs" / "pictures").glob("*.svg")), ids=lambda file: file.stem)
def test_pictures_have_their_colours_outside_of_browsers(window: Browser, tmp_path: Path, file: Path) -> None:
    window.is_dark(False)
    window.open("about:blank")
    drawn = file.read_text()
    fills = set(re.findall(r'<(?:rect|path|circle)[^>]* fill="(#[0-9a-f]{6})"', drawn))
    colours = [[int(fill[at : at + 2], 16) for at in (1, 3, 5)] for fill in sorted(fills)]
    subprocess.run(["rsvg-convert", str(file), "-o", str(tmp_path / "drawn.png")], check=True)
    kinds = [("svg+xml", drawn.encode()), ("png", (tmp_path / "drawn.png").read_bytes())]
    addresses = [f"data:image/{kind};base64,{base64.b64encode(data).decode()}" for kind, data in kinds]
    browser, other = window.run(COLOURS, addresses, colours)
    for fill, here, there in zip(sorted(fills), browser, other):
        # (each mixes the edges of shapes and hatches in its way, and has other letters)
        assert here > 0 and abs(here - there) <= 0.25 * max(here, there) + 150, (fill, here, there)


def test_the_file_that_a_browser_is_given_leads_to_the_page(window: Browser, lab: Lab, tmp_path: Path) -> None:
    window.open("about:blank")
    sys.path.insert(0, str(TOP / "python" / "src"))
    from hikebox.lab.server import _door

    window.open(_door(tmp_path, f"{lab.address}#story=jitter&b=recurs%281%29").as_uri())
    window.wait(f"return location.origin !== 'null' && (() => {{ {PLAYED} }})()")
    assert window.run("return document.getElementById('b-text').value") == "recurs(1)"
    assert window.address.startswith(lab.address)


def test_another_token_is_refused_and_told_why(window: Browser, lab: Lab) -> None:
    token = lab.address.split("/")[3]
    window.open(lab.address.replace(token, token[:-1] + ("A" if token[-1] != "A" else "B")))
    assert "each run has another one" in window.run("return document.body.textContent")


def test_another_page_can_not_ask_it(window: Browser, lab: Lab, tmp_path: Path) -> None:
    page = tmp_path / "elsewhere.html"
    page.write_text("<!DOCTYPE html><title>elsewhere</title>")
    window.open(page.as_uri())
    script = "return fetch(arguments[0] + 'start', { method: 'POST', body: '{}' }).then(() => 'read', () => 'refused')"
    assert window.run(script, lab.address) == "refused"
