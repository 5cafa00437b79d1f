"""Attempts beside each other: one that is late goes on, while the policy says when the next one begins."""

from __future__ import annotations

from typing import TYPE_CHECKING, Any, Callable, Optional

from .._time import seconds_text
from ..errors import AttemptTimeout
from .deadline import enter, leave
from .drivers import answer_of, settle_async, waits
from .progress import Progress
from .state import Ending, Outcome
from .steps import OVER, RAISE, RUN, Steps, ended, judged, steps
from .tasks import HedgedAttempt, Tasks, tasks_here

if TYPE_CHECKING:
    from ..retrying import BaseRetrying

__all__ = ["run_hedged"]


async def run_hedged(owner: BaseRetrying, fn: Callable[..., Any], args: Any, kwargs: Any) -> Any:
    """Awaits the function's calls, beside each other where they are late, until one succeeds or the retry is over."""
    under_way = tasks_here()
    progress = Progress(owner, fn, args, kwargs)
    deadline = progress.state.deadline
    token = None if deadline is None else enter(deadline)
    try:
        try:
            async with under_way as tasks:
                await _race(progress, tasks)
        except BaseException:
            progress.state.ending = None  # (it is left before it is over, also where the policy was done)
            raise
        if progress.state.ending is Ending.NOT_RETRIED:
            progress.answer, progress.state.outcome = progress.state.outcome, None
        else:
            ending = _ending(progress)
            await settle_async(ending, ending.send(None))
        return answer_of(progress)
    finally:
        if deadline is not None and token is not None:
            leave(deadline, token)
        progress.close()


async def _race(progress: Progress, tasks: Tasks) -> None:
    """Makes attempts until one succeeds or fails in a way that is not retried, or until all have failed and none
    follows. The state has the outcome."""
    settings, state = progress.settings, progress.state
    late = settings.hedge_millis or 0
    driven = steps(progress, is_judged=True)
    want = await settle_async(driven, driven.send(None))
    #: The attempt of which the policy has not heard, and the last one that failed.
    newest: Optional[HedgedAttempt] = None
    last: Optional[Outcome] = None
    is_new = True
    while want is not OVER or tasks.left:
        if is_new and want is RUN:
            newest = HedgedAttempt(progress)
            tasks.begin(newest)
            tasks.ring(tasks.sleep(late / 1000))
        elif is_new and isinstance(want, float):
            tasks.ring(waits(progress, want))
        attempt, told = await tasks.first(), None
        if attempt is not None:
            told = attempt.outcome_of(progress)
            verdict = _verdict(progress, told, attempt is newest)
            if await settle_async(verdict, verdict.send(None)) is not RUN:
                state.outcome = told
                return
            last = told
        elif newest is not None:
            told = Outcome(None, AttemptTimeout(f"the attempt took longer than {seconds_text(late)} s"))
        # (of an attempt that was late the policy has heard already)
        is_new = attempt is None or attempt is newest
        if is_new:
            tasks.silence()
            newest, want = None, await settle_async(driven, driven.send(told))
    if last is not None:
        state.outcome, state.seconds_since_start = last, progress.seconds()


def _verdict(progress: Progress, outcome: Outcome, is_new: bool) -> Steps:
    """Whether an attempt succeeded (`OVER`), failed and may be followed by others (`RUN`), or not (`RAISE`). The limit
    hears of a failure with the policy, or has heard of it as the attempt was late."""
    settings, error = progress.settings, outcome.error
    if isinstance(error, settings.types) and type(error) is not GeneratorExit:
        yield RUN
    elif (yield from judged(progress, outcome)):
        yield RUN
    elif error is None:
        if settings.asks_limit:
            progress.succeeds()
        yield OVER
    else:
        if settings.asks_limit and is_new and isinstance(error, Exception):
            progress.fails(error)
        yield RAISE


def _ending(progress: Progress) -> Steps:
    """The last steps of a retry."""
    yield (yield from ended(progress))
