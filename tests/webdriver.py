"""A headless Chromium, by the protocol of WebDriver over plain HTTP: Debian's packages chromium and chromium-driver."""

from __future__ import annotations

import base64
import contextlib
import json
import re
import shutil
import subprocess
import tempfile
import time
import urllib.error
import urllib.request
from pathlib import Path
from typing import Any, Dict, List, Optional

ELEMENT = "element-6066-11e4-a52e-4f735466cecf"
#: Keys that have no sign of their own.
TAB, SHIFT, CONTROL, DELETE = "\ue004", "\ue008", "\ue009", "\ue017"
END, HOME, RIGHT, UP, DOWN = "\ue010", "\ue011", "\ue014", "\ue013", "\ue015"

_OPTIONS = ["--headless=new", "--no-sandbox", "--disable-gpu", "--disable-dev-shm-usage", "--no-first-run"]
_OPTIONS += ["--disable-background-networking", "--disable-component-update", "--disable-sync", "--hide-scrollbars"]


class Browser:
    """One window."""

    def __init__(self, width: int = 1280, height: int = 1600) -> None:
        self.folder = tempfile.mkdtemp()
        driver = shutil.which("chromedriver") or "/usr/bin/chromedriver"
        self.process = subprocess.Popen(
            [driver, "--port=0"], stdout=subprocess.PIPE, stderr=subprocess.DEVNULL, text=True
        )
        assert self.process.stdout is not None
        port = next(
            found[1]
            for line in self.process.stdout
            if (found := re.search(r"started successfully on port (\d+)", line))
        )
        self.base = f"http://127.0.0.1:{port}"
        options = [*_OPTIONS, f"--user-data-dir={self.folder}", f"--window-size={width},{height}"]
        wanted = {
            "browserName": "chrome",
            "goog:chromeOptions": {"args": options},
            "goog:loggingPrefs": {"performance": "ALL", "browser": "ALL"},
        }
        # (the protocol gives a script 30 seconds where none are named)
        wanted["timeouts"] = {"script": 240_000}
        self.session = ""
        self.session = "/session/" + self._begun({"capabilities": {"alwaysMatch": wanted}})["sessionId"]

    def _begun(self, wanted: Dict[str, Any]) -> Any:
        """A session. (Its driver gives Chromium a minute to start, which a busy machine may take up.)"""
        for _ in range(2):
            with contextlib.suppress(AssertionError):
                return self.call("POST", "/session", wanted)
        return self.call("POST", "/session", wanted)

    def call(self, method: str, path: str, given: Optional[Dict[str, Any]] = None) -> Any:
        body = json.dumps(given or {}).encode() if method == "POST" else None
        request = urllib.request.Request(
            self.base + self.session + path, body, {"Content-Type": "application/json"}, method=method
        )
        try:
            with urllib.request.urlopen(request, timeout=300) as answer:
                return json.load(answer)["value"]
        except urllib.error.HTTPError as error:
            raise AssertionError(json.load(error)["value"]["message"]) from None

    def open(self, address: str) -> None:
        self.call("POST", "/url", {"url": address})

    @property
    def address(self) -> str:
        return str(self.call("GET", "/url"))

    def run(self, script: str, *arguments: Any) -> Any:
        """What a body of a function in the page gives, also where that is a promise."""
        return self.call("POST", "/execute/sync", {"script": script, "args": list(arguments)})

    def wait(self, script: str, seconds: float = 120.0) -> Any:
        """What the script gives, once it gives something. It may fail while the page is not ready."""
        ends = time.monotonic() + seconds
        while True:
            found, failure = None, ""
            try:
                found = self.run(script)
            except AssertionError as error:
                failure = f": {error}"
            if found or time.monotonic() > ends:
                assert found, f"not within {seconds} s: {script}{failure}"
                return found
            time.sleep(0.05)

    def keys(self, *keys: str, held: str = "") -> None:
        """Presses keys one after another, with another one held."""
        pressed: List[Dict[str, str]] = [{"type": "keyDown", "value": key} for key in held]
        for key in "".join(keys):
            pressed += [{"type": "keyDown", "value": key}, {"type": "keyUp", "value": key}]
        pressed += [{"type": "keyUp", "value": key} for key in held]
        self.call("POST", "/actions", {"actions": [{"type": "key", "id": "keys", "actions": pressed}]})

    def drag(self, identity: str, share: float) -> None:
        """Drags the knob of a slider by a finger to this share of its length."""
        script = "const input = document.getElementById(arguments[0]), box = input.getBoundingClientRect();"
        script += "const at = (input.value - input.min) / (input.max - input.min);"
        script += "return [box.left, box.width, box.top + box.height / 2, at];"
        left, wide, y, begins = self.run(script, identity)
        # (the knob is 16 wide, and its middle goes from 8 to 8 before the end)
        places = [left + 8 + (wide - 16) * (begins + (share - begins) * part) for part in (0, 0.3, 0.6, 1)]
        moves: List[Dict[str, Any]] = [
            {"type": "pointerMove", "duration": 60, "x": round(x), "y": round(y)} for x in places
        ]
        pressed = [moves[0], {"type": "pointerDown", "button": 0}, *moves[1:], {"type": "pointerUp", "button": 0}]
        finger = {"type": "pointer", "id": "finger", "parameters": {"pointerType": "touch"}, "actions": pressed}
        self.call("POST", "/actions", {"actions": [finger]})

    def tap(self, element: str) -> None:
        """Taps on an element by a finger."""
        pressed: List[Dict[str, Any]] = [
            {"type": "pointerMove", "duration": 0, "x": 0, "y": 0, "origin": {ELEMENT: element}},
            {"type": "pointerDown", "button": 0},
            {"type": "pointerUp", "button": 0},
        ]
        finger = {"type": "pointer", "id": "finger", "parameters": {"pointerType": "touch"}, "actions": pressed}
        self.call("POST", "/actions", {"actions": [finger]})

    def drop(self, *files: Path) -> None:
        """Drops files on the middle of the page, as a person drags them there."""
        x, y = self.run("return [Math.floor(innerWidth / 2), Math.floor(innerHeight / 2)]")
        data = {"items": [], "files": [str(file) for file in files], "dragOperationsMask": 1}
        for kind in ("dragEnter", "dragOver", "drop"):
            params = {"type": kind, "x": x, "y": y, "data": data}
            self.call("POST", "/goog/cdp/execute", {"cmd": "Input.dispatchDragEvent", "params": params})

    def choose(self, identity: str, file: Path) -> None:
        """Chooses a file in the box of this name, as the browser's own dialog does."""
        (element,) = self.elements(f"#{identity}")
        self.call("POST", f"/element/{element}/value", {"text": str(file)})

    def tap_until(self, element: str, script: str) -> None:
        """Taps until the script gives something: if the machine is busy meanwhile, a tap becomes a long one."""
        ends = time.monotonic() + 120
        while True:
            self.tap(element)
            try:
                self.wait(script, 5)
                return
            except AssertionError:
                if time.monotonic() > ends:
                    raise

    def tab_to(self, identity: str) -> None:
        """Presses Tab until the element of this name has the focus."""
        for _ in range(80):
            if self.run("return document.activeElement.id") == identity:
                return
            self.keys(TAB)
        raise AssertionError(f"Tab does not come to {identity}")

    def elements(self, selector: str) -> List[str]:
        found = self.call("POST", "/elements", {"using": "css selector", "value": selector})
        return [each[ELEMENT] for each in found]

    def label(self, element: str) -> str:
        """The name by which who can't see it knows an element."""
        return str(self.call("GET", f"/element/{element}/computedlabel"))

    def is_dark(self, dark: bool) -> None:
        feature = {"name": "prefers-color-scheme", "value": "dark" if dark else "light"}
        self.call("POST", "/goog/cdp/execute", {"cmd": "Emulation.setEmulatedMedia", "params": {"features": [feature]}})

    def resize(self, width: int, height: int) -> None:
        params = {"width": width, "height": height, "deviceScaleFactor": 1, "mobile": False}
        self.call("POST", "/goog/cdp/execute", {"cmd": "Emulation.setDeviceMetricsOverride", "params": params})
        self.wait(f"return innerWidth === {width} && innerHeight === {height}")

    def requests(self) -> List[str]:
        """The addresses that the page asked for since the last time."""
        entries = self.call("POST", "/se/log", {"type": "performance"})
        messages = [json.loads(entry["message"])["message"] for entry in entries]
        return [each["params"]["request"]["url"] for each in messages if each["method"] == "Network.requestWillBeSent"]

    def complaints(self) -> List[str]:
        """What the browser complained of since the last time."""
        return [entry["message"] for entry in self.call("POST", "/se/log", {"type": "browser"})]

    def screenshot(self, file: Path) -> None:
        file.write_bytes(base64.b64decode(self.call("GET", "/screenshot")))

    def close(self) -> None:
        try:
            self.call("DELETE", "")
        finally:
            self.process.terminate()
            self.process.wait()
            shutil.rmtree(self.folder, ignore_errors=True)


#: The least contrast of a text of the page with what is below it, and that text.
CONTRAST = """
const channel = (value) => {
  value /= 255;
  return value <= 0.03928 ? value / 12.92 : Math.pow((value + 0.055) / 1.055, 2.4);
};
const light = ([r, g, b]) => 0.2126 * channel(r) + 0.7152 * channel(g) + 0.0722 * channel(b);
const parts = (color) => (color.match(/[\\d.]+/g) || []).map(Number);
const ground = (element) => {
  for (let at = element; at; at = at.parentElement) {
    const below = at.tagName === "svg" ? at.querySelector(".ground") : null;
    if (below) return parts(getComputedStyle(below).fill);
    const found = parts(getComputedStyle(at).backgroundColor);
    if (found.length === 3 || found[3] === 1) return found;
  }
  return [255, 255, 255];
};
let least = [99, ""];
for (const element of document.querySelectorAll("body *")) {
  const own = [...element.childNodes].filter((node) => node.nodeType === 3).map((node) => node.data.trim()).join("");
  const shown = element.value && element.tagName !== "PROGRESS" ? element.value : own;
  const style = getComputedStyle(element);
  if (!shown || ["STYLE", "SCRIPT", "TITLE", "DESC", "OPTION"].includes(element.tagName.toUpperCase())) continue;
  if (["title", "desc"].includes(element.tagName) || element.type === "radio" || element.type === "range") continue;
  if (!element.getClientRects().length || style.visibility === "hidden") continue;
  const paint = parts(element.tagName === "text" ? style.fill : style.color);
  if (paint.length === 4 && paint[3] === 0) continue;
  const [high, low] = [light(paint), light(ground(element))].sort((a, b) => b - a);
  const ratio = (high + 0.05) / (low + 0.05);
  if (ratio < least[0]) least = [ratio, element.tagName + ": " + String(shown).slice(0, 60)];
}
return least;
"""

#: Texts of a picture that lie upon each other, or leave it.
CROSSING = """
const wrong = [];
for (const svg of document.querySelectorAll("svg")) {
  const frame = svg.getBoundingClientRect();
  const texts = [...svg.querySelectorAll("text")].map((text) => [text.textContent, text.getBoundingClientRect()]);
  texts.forEach(([words, box], at) => {
    const isWide = box.left < frame.left - 1 || box.right > frame.right + 1;
    if (isWide || box.top < frame.top - 1 || box.bottom > frame.bottom + 1) wrong.push(["out", words]);
    for (const [other, place] of texts.slice(at + 1)) {
      const isBeside = box.right <= place.left || place.right <= box.left;
      if (!isBeside && box.bottom > place.top + 3 && place.bottom > box.top + 3) wrong.push([words, other]);
    }
  });
}
return wrong;
"""

#: How many points of each colour the pictures at these addresses have: a list for each, in the order of the colours.
COLOURS = """
const [addresses, colours] = arguments;
const loaded = (address) => new Promise((done, fails) => {
  const image = new Image();
  image.onload = () => done(image);
  image.onerror = () => fails(new Error("no picture: " + address.slice(0, 60)));
  image.src = address;
});
const counted = (image) => {
  const canvas = document.createElement("canvas");
  [canvas.width, canvas.height] = [image.naturalWidth, image.naturalHeight];
  const context = canvas.getContext("2d");
  context.drawImage(image, 0, 0);
  const points = context.getImageData(0, 0, canvas.width, canvas.height).data;
  const counts = colours.map(() => 0);
  for (let at = 0; at < points.length; at += 4) {
    colours.forEach((colour, index) => {
      if (colour.every((part, channel) => Math.abs(points[at + channel] - part) <= 6)) counts[index] += 1;
    });
  }
  return counts;
};
return Promise.all(addresses.map(loaded)).then((images) => images.map(counted));
"""
