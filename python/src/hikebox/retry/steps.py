"""What one retry wants, one thing after another, for whoever drives it.

A retry is a generator, and calls nothing by itself that may have to be awaited. What it yields is one of these:

- `RUN`: an attempt. The answer is its `Outcome`.
- a number of seconds: a wait, of which 0 lets other coroutines go on. The exception of the attempt is let go.
- a function and its argument: a call, whose answer is sent back, once it is awaited where it can be.
- `RAISE`: the attempt failed, and its exception is raised.
- `OVER`: the retry is over, and its `answer` is what comes of it.
"""

from __future__ import annotations

import enum
from typing import Any, Callable, Generator, Tuple, Union

from .._engine.machine import is_crowded
from ..errors import NotAdmitted, ResultRefused
from .marks import log_end, mark
from .progress import Progress
from .state import Ending, Outcome
from .waits import switch

__all__ = [
    "OVER",
    "RAISE",
    "RUN",
    "Ask",
    "Part",
    "Settled",
    "Signal",
    "Steps",
    "Want",
    "begins",
    "ended",
    "judged",
    "relay",
    "steps",
]


class Signal(enum.Enum):
    """What a retry wants that is neither a call nor a wait."""

    RUN = "run"
    RAISE = "raise"
    OVER = "over"


RUN, RAISE, OVER = Signal.RUN, Signal.RAISE, Signal.OVER

#: What is to be called, with what.
Ask = Tuple[Callable[[Any], Any], Any]
#: What remains once calls are made.
Settled = Union[float, Signal]
Want = Union[Ask, float, Signal]
Steps = Generator[Want, Any, None]
#: A part of the steps, and what it comes to.
Part = Generator[Want, Any, Any]


def steps(progress: Progress, is_counted: bool = False, is_judged: bool = False) -> Steps:
    """The steps of a retry. Its request may be counted already. Where its attempts are judged by others, each outcome
    is one that is retried, and they say what comes of the last one."""
    settings, state = progress.settings, progress.state
    goes_on = (is_counted and (not settings.asks_limit or progress.drawing)) or begins(progress, is_counted)
    outcome = None
    is_at_hand = False
    while goes_on:
        if settings.hooks_before and not (yield from _before(progress)):
            break
        state.outcome = None
        if settings.slow_millis is not None:
            progress.attempt_begins()
        outcome = state.outcome = yield RUN
        outcome.attempt_number, is_at_hand = state.attempt_number, True
        if settings.slow_millis is not None:
            progress.attempt_ends()
        # (a GeneratorExit closes a coroutine or a generator, which then has to end, unless `on` names it)
        if is_judged or (isinstance(outcome.error, settings.types) and type(outcome.error) is not GeneratorExit):
            if settings.asks_limit:
                progress.fails(outcome.error)
        elif not (yield from _is_retried(progress, outcome)):
            break
        state.seconds_since_start = settings.clock() - state.start_time + progress.ahead
        for hook in settings.hooks_after:
            yield hook, state
        if not progress.goes_on() or (
            settings.draws_elsewhere and not progress.is_granted((yield progress.draw, None))
        ):
            break
        delay = progress.wait()
        for hook in settings.hooks_before_sleep:
            yield hook, state
        outcome, is_at_hand = None, False
        if settings.awaits and delay > 0.0 and is_crowded():
            progress.parks()
        yield 0.0 if switch.no_waits else delay
        goes_on = progress.wakes()
    outcome = None  # (which would hold the exception, and that the frames that drive these steps)
    yield OVER if is_judged else (yield from ended(progress, is_at_hand))


def begins(progress: Progress, is_counted: bool = False) -> bool:
    """Counts the request, or asks the limit: whether the first attempt is made."""
    settings, state = progress.settings, progress.state
    if settings.asks_limit:
        if progress.drawing is None:
            progress.drawing = settings.drawing()
            state.refusal = progress.drawing.admit()
        if state.refusal is not None:
            state.ending, state.attempt_number = Ending.NOT_ADMITTED, 0
            return False
    elif settings.deposit is not None and not is_counted:
        settings.deposit()
    return True


def _before(progress: Progress) -> Part:
    """Calls the hooks before an attempt: whether it is made. Where they took too long, one that is retried is not."""
    state = progress.state
    outcome, state.outcome = state.outcome, None
    for hook in progress.settings.hooks_before:
        yield hook, state
    if outcome is None or not progress.is_late(progress.seconds()):
        return True
    state.outcome, progress.holds_ticket = outcome, True
    state.attempt_number -= 1
    return False


def _is_retried(progress: Progress, outcome: Outcome) -> Part:
    """Whether an attempt is an event of the policy, which the limit is told. If not, the state has the ending."""
    is_retried = yield from judged(progress, outcome)
    if progress.settings.asks_limit:
        if outcome.error is None and progress.is_accepted:
            progress.succeeds()
        elif outcome.error is None or is_retried or isinstance(outcome.error, Exception):
            progress.fails(outcome.error)
    return is_retried


def judged(progress: Progress, outcome: Outcome) -> Part:
    """Whether an attempt is an event of the policy that gave a result, or whose exception is none of the types that are
    retried; if not, the state has the ending."""
    settings, error = progress.settings, outcome.error
    if error is None:
        refuses, is_refused = settings.on_result, outcome.is_refused
        if is_refused is None:
            is_refused = refuses is not None and (yield refuses, outcome.result())
        progress.is_accepted = not is_refused
        is_retried, ending = settings.repeats or not progress.is_accepted, Ending.WON
    else:
        is_retried, ending = type(error) is GeneratorExit and GeneratorExit in settings.types, Ending.NOT_RETRIED
        for test in settings.tests if isinstance(error, Exception) else ():
            is_retried = yield test, error
            if is_retried:
                break
    if not is_retried:
        progress.state.ending = ending
    return is_retried


def ended(progress: Progress, is_at_hand: bool = False) -> Part:
    """No attempt follows: how the retry ends, whose last exception may be at hand."""
    settings, state, outcome = progress.settings, progress.state, progress.state.outcome
    if state.ending is Ending.NOT_RETRIED:
        return RAISE
    error = None if outcome is None else outcome.error
    if outcome is not None and error is None and progress.is_accepted:
        progress.answer = outcome
        if settings.deposit_won is not None:
            settings.deposit_won()
        for hook in settings.hooks_on_success:
            yield hook, state
        return OVER
    note = log_end(state, outcome)
    if settings.fallback is not None:
        progress.answer = Outcome((yield settings.fallback, state))
        return OVER
    if error is None:
        refusal: Any = state.refusal
        error = NotAdmitted(refusal) if outcome is None else ResultRefused(outcome.result())
    elif is_at_hand:
        mark(error, state, note)
        return RAISE
    mark(error, state, note)
    progress.answer = Outcome(None, error, state.attempt_number)
    return OVER


def relay(driven: Steps, want: Any) -> Generator[Ask, Any, Settled]:
    """Relays the calls that a retry wants to who drives the steps that it is a part of, up to a wait or a signal."""
    while type(want) is tuple:
        function, argument = want
        want = driven.send((yield function, argument))
    return want  # type: ignore[no-any-return]
