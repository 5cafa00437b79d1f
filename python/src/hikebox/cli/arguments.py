"""A parser of command lines that takes each word as it is spelt, and names the nearest one where it knows none."""

from __future__ import annotations

import argparse
import os
import sys
from itertools import groupby
from typing import Any, Callable, Iterable, List, NoReturn, Optional

from .streams import tell

__all__ = ["Layout", "Once", "Parser"]

#: How many columns a line of prose has at most.
_MAX_COLUMNS = 120


class Once(argparse.Action):
    """Keeps an option's word, which is given once."""

    def __call__(self, parser: Any, namespace: Any, values: Any, option_string: Any = None) -> None:
        if getattr(namespace, self.dest) is not None:
            raise argparse.ArgumentError(self, f"expected it once, got {values!r} too")
        setattr(namespace, self.dest, values)


def _columns() -> int:
    """How wide the terminal is. (argparse asks `shutil`, which takes long to load.)"""
    columns = os.environ.get("COLUMNS", "")
    try:
        return int(columns if columns.isdigit() and int(columns) else os.get_terminal_size(1).columns)
    except OSError:
        return 80


class _Plain(argparse.HelpFormatter):
    """A help as wide as the terminal."""

    def __init__(self, prog: str, **how: Any) -> None:
        how.setdefault("width", _columns() - 2)
        super().__init__(prog, **how)


class Layout(_Plain, argparse.RawDescriptionHelpFormatter):
    """A help whose prose is wrapped for the terminal. Lines that begin with a space stay as they are."""

    def _fill_text(self, text: str, width: int, indent: str) -> str:
        from textwrap import wrap  # which only a help needs

        lines: List[str] = []
        for is_prose, block in groupby(text.splitlines(), lambda line: line[:1].strip() != ""):
            columns = min(width, _MAX_COLUMNS)
            lines += wrap(" ".join(block), columns, break_on_hyphens=False) if is_prose else block
        return "".join(f"{indent}{line}\n" for line in lines)


class Parser(argparse.ArgumentParser):
    """A parser without abbreviations.

    `prints` writes a text on standard output and gives the program's status, as of a stream that can't be written.
    """

    prints: Callable[[str], int]
    #: What adds the options of a command, once its name was read: the others are not loaded for it.
    fills: Optional[Callable[[Any], None]] = None

    def __init__(self, **how: Any) -> None:
        how.setdefault("formatter_class", _Plain)
        super().__init__(allow_abbrev=False, **how)

    def fill(self) -> None:
        """Adds its options."""
        fills, self.fills = self.fills, None
        if fills is not None:
            fills(self)

    def parse_known_args(self, *given: Any) -> Any:
        self.fill()
        return super().parse_known_args(*given)

    def read(self, words: Optional[List[str]]) -> Any:
        """The parsed command line. A word that nobody takes ends the program."""
        words = sys.argv[1:] if words is None else words
        # (the first one: argparse looks for a command past an option that there is not)
        name = words[0].partition("=")[0] if words else ""
        if name.startswith("-") and name.strip("-") and name not in self._options():
            self.refuse(name)
        given, rest = self.parse_known_args(words)
        if given.parser is self:
            self.error(f"expected a command ({', '.join(self._commands())}), got none")
        if rest:
            given.parser.refuse(rest[0])
        return given

    def refuse(self, word: str) -> NoReturn:
        """Ends the program for a word that there is not."""
        if not word.startswith("-"):
            self.error(f"unexpected word {word!r}")
        name = word.partition("=")[0]
        self.error(f"there is no option {name}{_nearest(name, self._options())}")

    def _check_value(self, action: argparse.Action, value: Any) -> None:
        if isinstance(action.choices, dict) and value not in action.choices:
            names = ", ".join(action.choices)
            self.error(f"expected a command ({names}), got {value!r}{_nearest(value, action.choices)}")
        super()._check_value(action, value)

    def _options(self) -> List[str]:
        return [option for action in self._actions for option in action.option_strings]

    def _commands(self) -> List[str]:
        return [name for action in self._actions if isinstance(action.choices, dict) for name in action.choices]

    def _print_message(self, message: str, file: Any = None) -> None:
        if file is sys.stdout and message:
            status = type(self).prints(message)
            if status != 0:
                raise SystemExit(status)
        elif message:
            tell(message)


def _nearest(word: str, known: Iterable[str]) -> str:
    import difflib

    near = difflib.get_close_matches(word, list(known), 1)
    return f"; did you mean {near[0]}?" if near else ""
