"""Writes pictures as SVG: text stays text, each colour stands at its shape, and a dark ground has its own colours."""

from __future__ import annotations

import re
from typing import Dict, List, Tuple

from ._values import NamedTuple

__all__ = [
    "LINE",
    "LINES",
    "MAX_WIDTH",
    "MIN_WIDTH",
    "STYLE",
    "Picture",
    "fitted",
    "headed",
    "number_text",
    "plain_width_of",
    "ticks",
    "width_of",
    "wrapped",
]


class _Paint(NamedTuple):
    """The colours of a kind on a light and on a dark ground, and the attributes that are the same on both."""

    light: str
    dark: str
    rest: str = ""
    strokes: bool = False

    def attributes(self) -> str:
        return f'stroke="{self.light}" fill="none"{self.rest}' if self.strokes else f'fill="{self.light}"{self.rest}'


_INK, _SOFT, _GROUND = ("#1a1a1a", "#f2f2f2"), ("#595959", "#b8bcc2"), ("#ffffff", "#15181c")
_EDGE = ' stroke="#1a1a1a" stroke-width=".6"'

# The fills are colours by Okabe and Ito, which readers with any colour vision tell apart. In black and white the
# hatches do.
_PAINTS: Dict[str, _Paint] = {
    "ink": _Paint(*_INK),
    "soft": _Paint(*_SOFT),
    "head": _Paint(*_INK, ' font-weight="600"'),
    "number": _Paint(*_INK, ' font-weight="600" font-size="14"'),
    "ground": _Paint(*_GROUND),
    "dot": _Paint(*_INK),
    "line": _Paint("#d9d9d9", "#3a3f46", strokes=True),
    "axis": _Paint(*_SOFT, strokes=True),
    "bound": _Paint(*_INK, ' stroke-width="1.6" stroke-dasharray="6 4"', strokes=True),
    "mark": _Paint(*_INK, ' stroke-width="1.6"', strokes=True),
    "cut": _Paint(*_GROUND, ' stroke-width="2.4"', strokes=True),
    "shade": _Paint("#ebebeb", "#2b3038"),
    "away": _Paint("#d2d2d2", "#454c57"),
    "band": _Paint("#56b4e9", "#2a6f97", _EDGE),
    "requests": _Paint("#0072b2", "#4aa8e0", _EDGE),
    "won": _Paint("#009e73", "#1fa97f", _EDGE),
    "shed": _Paint("#cc79a7", "#d68fb6", _EDGE),
    "late": _Paint("#f0e442", "#b8ae22", _EDGE),
    "retries": _Paint("#e69f00", "#f0b43c"),
    "failed": _Paint("#d55e00", "#ef7d3c"),
}
#: The kinds that are hatched, and by how many degrees.
_HATCHES: Dict[str, int] = {"retries": 45, "failed": -45}
#: The lines of a chart: colour, dark colour, and dashes.
_LINES: Tuple[Tuple[str, str, str], ...] = (
    ("#0072b2", "#4aa8e0", ""),
    ("#d55e00", "#ef7d3c", "8 3"),
    ("#009e73", "#1fa97f", "2 3"),
    ("#a8558a", "#d68fb6", "8 3 2 3"),
    ("#8a6000", "#f0b43c", "14 4"),
    ("#1a1a1a", "#f2f2f2", "4 2"),
    ("#2f7fb0", "#7cc4f5", "1 2"),
    ("#595959", "#b8bcc2", "10 2 2 2 2 2"),
)
for _index, (_light, _dark, _dashes) in enumerate(_LINES):
    _dashed = f' stroke-dasharray="{_dashes}"' if _dashes else ""
    _PAINTS[f"line{_index}"] = _Paint(
        _light, _dark, f' stroke-width="2.2" stroke-linejoin="round"{_dashed}', strokes=True
    )
    _PAINTS[f"dot{_index}"] = _Paint(_light, _dark)


def _dark_rules() -> str:
    rules = [f".hb .{kind}{{{'stroke' if paint.strokes else 'fill'}:{paint.dark}}}" for kind, paint in _PAINTS.items()]
    return "".join(rules) + f".hb .hatch{{stroke:{_INK[0]}}}"


#: What a picture looks like on a dark ground. Without it, and in viewers that know no style, it is as on a light one.
STYLE = f"@media (prefers-color-scheme:dark){{{_dark_rules()}}}"

#: How wide the letters are that are narrow or wide.
_WIDTHS: Dict[str, float] = {
    **dict.fromkeys("ijlI|.,:;'! \u00a0", 4.0),
    **dict.fromkeys("frt()[]{}-/", 5.0),
    **dict.fromkeys("mwMW%@…", 12.0),
}
#: The same of letters in bold, beside the usual width of one, and of those that fill a square, such as Chinese ones.
_USUAL, _SQUARE = 6.8, 13.0
_BOLD: Dict[str, float] = {
    **dict.fromkeys("ijlI|.,:;'! \u00a0", 4.0),
    **dict.fromkeys("ABCDEFGHJKLNOPQRSTUVXYZ", 9.2),
    **dict.fromkeys("mwMW%@", 13.0),
}
#: How far lines of text are apart.
LINE = 16
#: How wide a picture is.
MIN_WIDTH, MAX_WIDTH = 280, 4000
#: How many lines of a chart have a look of their own.
LINES = len(_LINES)


class Picture:
    """A picture that grows by its parts."""

    def __init__(self, width: int, height: int, title: str, description: str) -> None:
        self.width = width
        self.height = height
        self.title = title
        self.description = description
        import zlib

        #: What its names begin with, so that several pictures can stand in one page.
        self.mark = f"p{zlib.crc32(f'{width} {title} {description}'.encode('utf-8', 'replace')):08x}"
        self._parts: List[str] = []
        self._hatched: List[str] = []

    def text(self, x: float, y: float, words: str, kind: str = "ink", anchor: str = "start", whole: str = "") -> None:
        """A line of text. Where it is shortened, a pointer that rests on it shows the whole."""
        anchored = "" if anchor == "start" else f' text-anchor="{anchor}"'
        told = f"<title>{_spelt(whole)}</title>" if whole else ""
        self._parts.append(f'<text x="{x:.1f}" y="{y:.1f}"{anchored} {self._paint(kind)}>{_spelt(words)}{told}</text>')

    def texts(self, x: float, y: float, lines: List[str], kind: str = "ink", whole: str = "") -> None:
        """Lines one below the other, of which some may be shortened from the whole."""
        for index, line in enumerate(lines):
            is_short = line.endswith("…") and line not in whole
            self.text(x, y + LINE * index, line, kind, whole=whole if is_short else "")

    def box(self, x: float, y: float, width: float, height: float, kind: str) -> None:
        size = f'width="{width:.1f}" height="{height:.1f}"'
        self._parts.append(f'<rect x="{x:.1f}" y="{y:.1f}" {size} {self._paint(kind)}/>')

    def path(self, drawn: str, kind: str) -> None:
        if drawn:
            self._parts.append(f'<path d="{drawn}" {self._paint(kind)}/>')

    def dot(self, x: float, y: float, kind: str = "dot", radius: float = 4) -> None:
        self._parts.append(f'<circle cx="{x:.1f}" cy="{y:.1f}" r="{radius:g}" {self._paint(kind)}/>')

    def _paint(self, kind: str) -> str:
        if kind in _HATCHES:
            if kind not in self._hatched:
                self._hatched.append(kind)
            return f'fill="url(#{self.mark}{kind})"{_EDGE}'
        return f'class="{kind}" {_PAINTS[kind].attributes()}'

    def _hatch(self, kind: str) -> str:
        return (
            f'<pattern id="{self.mark}{kind}" width="6" height="6" patternUnits="userSpaceOnUse" '
            f'patternTransform="rotate({_HATCHES[kind]})"><rect width="6" height="6" class="{kind}" '
            f'fill="{_PAINTS[kind].light}"/>'
            '<path d="M0 0V6" class="hatch" stroke="#1a1a1a" stroke-width="1.1"/></pattern>'
        )

    def svg(self, styled: bool = True) -> str:
        """The whole text; without its style where the page that it is put into has that."""
        size = f'width="{self.width}" height="{self.height}" viewBox="0 0 {self.width} {self.height}"'
        named = f'role="img" aria-labelledby="{self.mark}t {self.mark}s"'
        font = 'font-family="system-ui, sans-serif" font-size="12"'
        fits = ' style="max-width:100%;height:auto"' if styled else ""
        hatches = "".join(self._hatch(kind) for kind in self._hatched)
        head = (
            f'<svg xmlns="http://www.w3.org/2000/svg" {size} class="hb" {named} {font}{fits}>\n'
            f'<title id="{self.mark}t">{_spelt(self.title)}</title>\n'
            f'<desc id="{self.mark}s">{_spelt(self.description)}</desc>\n'
            f"{f'<style>{STYLE}</style>' if styled else ''}\n{f'<defs>{hatches}</defs>' if hatches else ''}\n"
            f'<rect width="{self.width}" height="{self.height}" {self._paint("ground")}/>\n'
        )
        return head + "\n".join(self._parts) + "\n</svg>\n"


def _spelt(words: str) -> str:
    """The text as XML has it: signs that XML does not allow are replaced."""
    from html import escape

    return escape(re.sub("[^\t\n\r\x20-\ud7ff\ue000-\ufffd\U00010000-\U0010ffff]", "\ufffd", words))


def width_of(words: str) -> float:
    """About how wide a line of text is, also in bold, rather more than less.

    >>> width_of("recurs(3)") < width_of("RECURS(3)") < width_of("WWWWWWWWW")
    True
    """
    return max(_USUAL * len(words), sum(map(_bold_width_of, words)))


def _bold_width_of(letter: str) -> float:
    if letter.isascii():
        return _BOLD.get(letter, _USUAL)
    import unicodedata

    # (pictograms stand past the first plane)
    is_square = letter > "\uffff" or unicodedata.east_asian_width(letter) in "WF"
    return _SQUARE if is_square else _BOLD.get(letter, _USUAL)


def plain_width_of(words: str) -> float:
    """About how wide a line of plain text is, by its letters.

    >>> plain_width_of("first calls") < plain_width_of("succeeded")
    True
    """
    return sum(_WIDTHS.get(letter, max(7.7, _bold_width_of(letter))) for letter in words)


def fitted(words: str, width: float) -> str:
    """The text, shortened where it is wider than this.

    >>> fitted("recurs(3)", 70), fitted("WWWWWWWWW", 70)
    ('recurs(3)', 'WWWW…')
    """
    if len(words) <= 4 or width_of(words) <= width:
        return words
    kept = 3
    while width_of(f"{words[:kept + 1]}…") <= width:
        kept += 1
    return f"{words[:kept]}…"


def wrapped(words: str, width: float) -> List[str]:
    """The text in lines, none wider than this where its words allow that. A word that is wider is broken at its
    methods.

    >>> wrapped("one two three", 60)
    ['one two', 'three']
    >>> wrapped("& spaced(1).cap(2).ends_by(3)", 100)
    ['& spaced(1)', '.cap(2)', '.ends_by(3)']
    """
    lines: List[str] = []
    for word in words.split(" "):
        parts = [word] if width_of(word) <= width else re.split(r"(?<=\))(?=\.)", word)
        for index, part in enumerate(parts):
            space = "" if index else " "
            if lines and width_of(f"{lines[-1]}{space}{part}") <= width:
                lines[-1] += f"{space}{part}"
            else:
                lines.append(part)
    return lines


def headed(words: str, width: float, most: int = 3) -> List[str]:
    """The text in lines of this width, so many at most: what is too long for them is shortened.

    >>> headed("recurs(3) & spaced(1)", 100, 1), headed("recurs(3) & spaced(1)", 100)
    (['recurs(3) & s…'], ['recurs(3) &', 'spaced(1)'])
    """
    lines = wrapped(words, width)
    if len(lines) > most:
        lines = [*lines[: most - 1], " ".join(lines[most - 1 :])]
    return [fitted(line, width) for line in lines]


def number_text(number: float) -> str:
    """A number as a scale has it, never with an exponent.

    >>> number_text(0.25), number_text(150_000)
    ('0.25', '150,000')
    """
    return f"{number:,.4g}" if number < 1000 else f"{number:,.0f}"


def ticks(most: float, count: int) -> List[float]:
    """Round numbers from 0 to at least this one, about so many.

    >>> ticks(100, 5), ticks(0.7, 4)
    ([0.0, 20.0, 40.0, 60.0, 80.0, 100.0], [0.0, 0.2, 0.4, 0.6, 0.8])
    """
    step = 10.0**-3
    while True:
        for times in (1, 2, 5):
            if step * times * count >= most:
                last = int(-(-most // (step * times)))
                return [round(index * step * times, 6) for index in range(last + 1)]
        step *= 10
