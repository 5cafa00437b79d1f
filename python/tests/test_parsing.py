"""Previews and expressions while another thread uses Python's parser. In some Pythons, as 3.11.2, a parse raises a
SystemError if another thread parses in the middle of it, as it may when the garbage collector frees an object
(CPython's issue 106905)."""

from __future__ import annotations

import ast
import contextlib
import gc
import threading
from typing import Iterator, Optional

import pytest

from hikebox import Policy, exponential, recurs


class Freed:
    """An object in a cycle. Whenever one is freed, another thread parses, and there is a new one; so many times."""

    left = 0
    asked = threading.Event()
    parsed = threading.Event()
    parser: Optional[threading.Thread] = None

    def __init__(self) -> None:
        self.itself = self

    def __del__(self) -> None:
        if Freed.left:
            # (the collector may run in the thread that parses, which asks nobody)
            if threading.current_thread() is not Freed.parser:
                Freed.left -= 1
                Freed.parsed.clear()
                Freed.asked.set()
                Freed.parsed.wait(60)
            Freed()


def parse_when_asked(stop: threading.Event) -> None:
    while not stop.is_set():
        if Freed.asked.wait(0.1):
            Freed.asked.clear()
            # (which Python may refuse too, since the other thread is in the middle of it)
            with contextlib.suppress(SystemError):
                ast.parse("[1, 2]", mode="eval")
            Freed.parsed.set()


@contextlib.contextmanager
def freed_often(times: int) -> Iterator[None]:
    """Frees such an object at each allocation in this block, so many times."""
    stop = threading.Event()
    other = Freed.parser = threading.Thread(target=parse_when_asked, args=(stop,))
    other.start()
    threshold = gc.get_threshold()
    gc.collect()
    Freed.left = times
    Freed()
    gc.set_threshold(1)
    try:
        yield
    finally:
        gc.set_threshold(*threshold)
        Freed.left = 0
        stop.set()
        other.join()


def test_a_preview_while_another_thread_parses() -> None:
    policy = recurs(3) & exponential(0.1, 2)
    with freed_often(10_000):
        steps = policy.preview(5)
    assert [(step.output, step.next_ms) for step in steps] == [
        ((0, 100), 100),
        ((1, 200), 300),
        ((2, 400), 700),
        ((3, 800), None),
    ]


@pytest.mark.parametrize("times", [10, 40, 160])
def test_a_policy_is_read_while_another_thread_parses(times: int) -> None:
    with freed_often(times):
        policy = Policy.parse("recurs(3) & exponential(0.1, 2)")
    assert policy == recurs(3) & exponential(0.1, 2)
