"""What a policy answers, by the definitions of docs/DESIGN.md alone: a function of the whole list of events.

The tests compare the engine's steps with it. It is slow, and shares nothing with the engine or the package.
"""

from __future__ import annotations

import random
import runpy
from pathlib import Path
from typing import Any, Callable, Dict, List, NamedTuple, Optional, Tuple

MAX_NUMBER = 2**62 - 1


class Event(NamedTuple):
    now: int
    words: Tuple[int, int, int, int]
    input: Any


class Answer(NamedTuple):
    output: Any
    start: Optional[int]


def capped(number: int) -> int:
    return min(MAX_NUMBER, number)


def answer(plan: Any, history: List[Event]) -> Answer:
    """The answer to the last event of a history."""
    if isinstance(plan, str):
        name, value = plan, None
    else:
        ((name, value),) = plan.items()
    if name in LEAVES:
        return LEAVES[name](value, history)
    return NODES[name](value, history)


def is_number(value: Any) -> bool:
    return isinstance(value, int)


# Leaves


def fibonacci(count: int) -> int:
    first, second = 0, 1
    for _ in range(count):
        first, second = second, first + second
    return first


def fixed(d: int, history: List[Event]) -> Answer:
    first, now, n = history[0].now, history[-1].now, len(history)
    if n == 1:
        return Answer(0, capped(first + d))
    before = fixed(d, history[:-1]).start
    assert before is not None
    if now > capped(before + d):
        return Answer(n - 1, now)
    return Answer(n - 1, capped(now + (d - (now - first) % d)))


def iterated(first: int, step: Callable[[int], int], count: int) -> int:
    value = first
    for _ in range(count - 1):
        value = step(value)
    return value


def exponential_milli(b: int, k: int, history: List[Event]) -> Answer:
    x = iterated(b, lambda before: capped(before * k // 1000), len(history))
    return Answer(x, capped(history[-1].now + x))


def decorrelated(lane: int, b: int, k: int, m: int, history: List[Event]) -> Answer:
    x = b
    for event in history:
        y = max(b, capped(x * k // 1000))
        x = min(m, b + (y - b) * event.words[lane] // 2**32)
    return Answer(x, capped(history[-1].now + x))


def delayed(x: int, history: List[Event]) -> Answer:
    return Answer(capped(x), capped(history[-1].now + capped(x)))


def lone(d: int, history: List[Event]) -> Answer:
    return delayed(d, history) if len(history) == 1 else Answer(0, None)


LEAVES: Dict[str, Callable[[Any, List[Event]], Answer]] = {
    "forever": lambda _, h: Answer(len(h) - 1, h[-1].now),
    "recurs": lambda k, h: Answer(len(h) - 1, h[-1].now if len(h) - 1 < k else None),
    "spaced": lambda d, h: Answer(len(h) - 1, capped(h[-1].now + d)),
    "fixed": fixed,
    "windowed": lambda d, h: Answer(len(h) - 1, capped(h[-1].now + d - (h[-1].now - h[0].now) % d)),
    "linear": lambda b, h: delayed(b * len(h), h),
    "exponential": lambda v, h: delayed(v[0] * v[1] ** (len(h) - 1), h),
    "exponential_milli": lambda v, h: exponential_milli(v[0], v[1], h),
    "fibonacci": lambda a, h: delayed(a * fibonacci(len(h)), h),
    "decorrelated": lambda v, h: decorrelated(v[0], v[1], v[2], v[3], h),
    "elapsed": lambda _, h: Answer(h[-1].now - h[0].now, h[-1].now),
    "identity": lambda _, h: Answer(h[-1].input, h[-1].now),
    "unfold": lambda v, h: Answer(iterated(v[0], lambda x: capped(v[1] * x + v[2]), len(h)), h[-1].now),
    "lone": lone,
}


# Nodes over plans


def meet(value: Any, history: List[Event]) -> Answer:
    a, b = answer(value[0], history), answer(value[1], history)
    return Answer((a.output, b.output), later(a.start, b.start))


def later(a: Optional[int], b: Optional[int]) -> Optional[int]:
    return None if a is None or b is None else max(a, b)


def join(value: Any, history: List[Event]) -> Answer:
    a, b = answer(value[0], history), answer(value[1], history)
    starts = [start for start in (a.start, b.start) if start is not None]
    return Answer((a.output, b.output), min(starts) if starts else None)


def follow(value: Any, history: List[Event]) -> Answer:
    for length in range(1, len(history) + 1):
        if answer(value[0], history[:length]).start is None:
            return answer(value[1], history[length - 1 :])
    return answer(value[0], history)


def feed(value: Any, history: List[Event]) -> Answer:
    firsts = [answer(value[0], history[:length]) for length in range(1, len(history) + 1)]
    fed = [Event(event.now, event.words, first.output) for event, first in zip(history, firsts)]
    second = answer(value[1], fed)
    return Answer(second.output, later(firsts[-1].start, second.start))


def gate(value: Any, history: List[Event]) -> Answer:
    side, want, test, k, plan = value
    given = answer(plan, history)
    tested = history[-1].input if side == "input" else given.output
    holds = is_number(tested) and {"below": tested < k, "at_least": tested >= k, "equal": tested == k}[test]
    return given if holds == want else Answer(given.output, None)


def gather(value: Any, history: List[Event]) -> Answer:
    kind, plan = value
    earlier = [answer(plan, history[:length]) for length in range(1, len(history))]
    outputs = [given.output for given in earlier if given.start is not None]
    numbers = [output for output in outputs if is_number(output)]
    folded = {"sum": capped(sum(numbers)), "count": len(outputs), "max": max([0, *numbers]), "list": outputs}[kind]
    return Answer(folded, answer(plan, history).start)


def shifted(change: Any, plan: Any, history: List[Event]) -> Answer:
    given = answer(plan, history)
    now = history[-1].now
    start = None if given.start is None else capped(now + capped(change(given.start - now, given.output)))
    return Answer(given.output, start)


def jitter(value: Any, history: List[Event]) -> Answer:
    lane, least, most, plan = value
    r = history[-1].words[lane]
    return shifted(lambda y, _: y * (least * (2**32 - r) + most * r) // (1000 * 2**32), plan, history)


def within(value: Any, history: List[Event]) -> Answer:
    given = answer(value[1], history)
    return given if history[-1].now - history[0].now < value[0] else Answer(given.output, None)


def ends_by(value: Any, history: List[Event]) -> Answer:
    given = answer(value[1], history)
    late = given.start is not None and given.start > capped(history[0].now + value[0])
    return Answer(given.output, None) if late else given


def renew(value: Any, history: List[Event]) -> Answer:
    began = 0
    for index, event in enumerate(history):
        if event.now - history[began].now >= value[0]:
            began = index
    return answer(value[1], history[began:])


def renew_idle(value: Any, history: List[Event]) -> Answer:
    began = len(history) - 1
    while began > 0 and history[began].now - history[began - 1].now < value[0]:
        began -= 1
    return answer(value[1], history[began:])


def picked(pick: Any, plan: Any, history: List[Event]) -> Answer:
    given = answer(plan, history)
    return Answer(pick(given.output), given.start)


def part(index: int) -> Any:
    return lambda output: output[index] if isinstance(output, tuple) and output else ()


NODES: Dict[str, Callable[[Any, List[Event]], Answer]] = {
    "meet": meet,
    "join": join,
    "follow": follow,
    "feed": feed,
    "gate": gate,
    "gather": gather,
    "add": lambda v, h: shifted(lambda y, _: y + v[0], v[1], h),
    "set": lambda v, h: shifted(lambda y, _: v[0], v[1], h),
    "cap": lambda v, h: shifted(lambda y, _: min(y, v[0]), v[1], h),
    "add_out": lambda v, h: shifted(lambda y, x: y + x if is_number(x) else y, v, h),
    "jitter": jitter,
    "within": within,
    "ends_by": ends_by,
    "renew": renew,
    "renew_idle": renew_idle,
    "first": lambda v, h: picked(part(0), v, h),
    "second": lambda v, h: picked(part(1), v, h),
    "nothing": lambda v, h: picked(lambda _: (), v, h),
}


def text(value: Any) -> str:
    """A value as `zsched plan` prints it."""
    if isinstance(value, tuple):
        return f"({', '.join(map(text, value))})"
    return f"[{', '.join(map(text, value))}]" if isinstance(value, list) else str(value)


#: A random plan of about so many nodes, by the table of all nodes.
some_plan: Callable[[random.Random, int], Any] = runpy.run_path(
    str(Path(__file__).resolve().parents[2] / "tests" / "random_policies.py")
)["some_policy"]
