"""Attempts in a loop: `for attempt in Retrying(..)`, and `async for`."""

from __future__ import annotations

from contextvars import Token
from types import TracebackType
from typing import TYPE_CHECKING, Any, Optional, Tuple, Type
from weakref import ref

from .deadline import Deadline, enter, leave
from .drivers import advance, answer_of, not_awaitable, settle, settle_async, slept, waits
from .progress import HeldProgress
from .state import Outcome, RetryState
from .steps import OVER, RAISE, RUN, Settled, begins, steps

if TYPE_CHECKING:
    from ..retrying import BaseRetrying

__all__ = ["AsyncAttempts", "Attempt", "Attempts"]


class Attempt:
    """One attempt of a loop, to be used in one `with` block, before the loop is left. The block of the last attempt
    raises its exception."""

    __slots__ = ("_loop", "_entered", "_state")

    def __init__(self, attempts: _BaseAttempts) -> None:
        # (outside its block, so that the retry ends where the loop is left early, though the loop's variable stays)
        self._loop = ref(attempts)
        self._entered: Optional[_BaseAttempts] = None
        self._state = attempts.progress.state

    @property
    def retry_state(self) -> RetryState:
        """The state of the retry."""
        return self._state

    @property
    def number(self) -> int:
        """The number of the attempt, from 1."""
        return self.retry_state.attempt_number

    @property
    def seconds_left(self) -> Optional[float]:
        """The seconds until the deadline of the retry, or None if it has none."""
        return self.retry_state.seconds_left

    def __enter__(self) -> Attempt:
        attempts = self._loop()
        if attempts is None:
            raise RuntimeError("an attempt is over once its loop was left: keep what iter() returned")
        if not attempts.under_way:
            raise RuntimeError("an attempt is over once its `with` block was left: take the next one of the loop")
        if self._entered is not None:
            raise RuntimeError("an attempt can't be entered again within its `with` block")
        self._entered = attempts
        if attempts.deadline is not None:
            attempts.token = enter(attempts.deadline)
        return self

    def __exit__(
        self,
        kind: Optional[Type[BaseException]],
        error: Optional[BaseException],
        trace: Optional[TracebackType],
    ) -> bool:
        attempts, self._entered = self._entered, None
        assert attempts is not None, "its block was entered"
        if attempts.deadline is not None and attempts.token is not None:
            leave(attempts.deadline, attempts.token)
            attempts.token = None
        return attempts.ended(error)


class _BaseAttempts:
    """The attempts of one loop.

    An attempt is judged as its block is left. Where its result is looked at, and was not told in the block, it may be
    told up to the next turn of the loop.
    """

    def __init__(self, owner: BaseRetrying) -> None:
        if owner.settings.attempt_millis is not None:
            raise TypeError(
                "attempt_timeout: expected a coroutine function; in the block of a loop use asyncio.timeout"
            )
        if owner.settings.hedge_millis is not None:
            raise TypeError("hedge_after: expected a coroutine function; the block of a loop can't run beside itself")
        per_key = owner.settings.per_key
        self.progress = HeldProgress(owner if per_key is None else per_key.retrying_of_block(owner))
        #: The steps of the retry, once something is to be done for it.
        self.steps: Any = None
        #: What the retry wants, once it began.
        self.want: Optional[Settled] = None
        self.deadline: Optional[Deadline] = self.progress.state.deadline
        #: What goes back to the time that calls had before the attempt.
        self.token: Optional[Token[Optional[Deadline]]] = None
        #: Whether an attempt is under way, and whether one is over that is not judged yet.
        self.under_way = False
        self.is_open = False

    def turn(self, ends: Type[Exception]) -> Attempt:
        """One more attempt, where the retry wants one; else it is over, and its last exception ends the loop, or this
        one does."""
        if self.want is RUN:
            self.under_way = True
            return Attempt(self)
        self.progress.close()
        if self.progress.answer is not None:
            answer_of(self.progress)
        raise ends

    def refuse(self) -> None:
        """Refuses a turn after an attempt that was not used."""
        self.progress.close()
        raise RuntimeError("each attempt of the loop needs a `with attempt:` block")

    def ended(self, error: Optional[BaseException]) -> bool:
        """The attempt's block was left: whether its exception stops there."""
        self.under_way = False
        if error is not None:
            return self.judge(Outcome(None, error))
        progress = self.progress
        settings, state = progress.settings, progress.state
        if settings.is_quiet:  # (nothing is asked of its result)
            progress.wins()
            self.want = OVER
            progress.close()
            return True
        if settings.slow_millis is not None:
            progress.attempt_ends()
        if state.outcome is None and (settings.on_result is not None or settings.repeats or settings.hooks_on_success):
            state.outcome = Outcome(attempt_number=state.attempt_number)
            self.is_open = True
            return True
        return self.judge(self.told())

    def told(self) -> Outcome:
        """The outcome of an attempt whose result was told, or that has none."""
        self.is_open = False
        return self.progress.state.outcome or Outcome()

    def judge(self, outcome: Outcome) -> bool:
        """Has the attempt judged: whether its exception stops in its block."""
        try:
            if self.steps is None:
                self.steps = steps(self.progress, is_counted=True)
                self.steps.send(None)
            want = self.steps.send(outcome)
            if type(want) is tuple:
                want, awaitable = advance(self.steps, want)
                if awaitable is not None:
                    self.pends(awaitable, outcome)
                    return True
        except BaseException:
            self.progress.close()
            raise
        self.want = want
        if want is OVER or want is RAISE:
            self.progress.close()
        return want is not RAISE

    def pends(self, awaitable: Any, outcome: Outcome) -> None:
        """Something is to be awaited to judge this attempt."""
        not_awaitable(awaitable)


class Attempts(_BaseAttempts):
    """Those of a `for` loop."""

    def __iter__(self) -> Attempts:
        return self

    def __next__(self) -> Attempt:
        if self.under_way:
            self.refuse()
        if self.is_open:
            self.judge(self.told())
        try:
            if self.want is None and self.progress.settings.is_quiet and begins(self.progress):
                self.want = RUN
            elif self.want is None:
                self.steps = steps(self.progress)
                self.want = settle(self.steps, self.steps.send(None))
            elif isinstance(self.want, float):
                self.want = slept(self.progress, self.steps, self.want)
        except BaseException:
            self.progress.close()
            raise
        return self.turn(StopIteration)


class AsyncAttempts(_BaseAttempts):
    """Those of an `async for` loop. Where something has to be awaited to judge an attempt, the next turn of the loop
    does that, and lets the last exception out."""

    #: What is to be awaited to judge an attempt, and that attempt.
    pending: Optional[Tuple[Any, Outcome]] = None

    def __aiter__(self) -> AsyncAttempts:
        return self

    def pends(self, awaitable: Any, outcome: Outcome) -> None:
        self.pending = awaitable, outcome

    async def _judge_pending(self) -> None:
        """Judges what the block of the attempt before left open."""
        if self.is_open:
            self.judge(self.told())
        if self.pending is None:
            return
        (awaitable, outcome), self.pending = self.pending, None
        try:
            self.want = await settle_async(self.steps, self.steps.send(await awaitable))
            if self.want is RAISE:
                self.progress.close()
                outcome.result()
        finally:
            del outcome

    async def __anext__(self) -> Attempt:
        if self.under_way:
            self.refuse()
        try:
            if self.is_open or self.pending is not None:
                await self._judge_pending()
            if isinstance(self.want, float):
                awaitable = waits(self.progress, self.want)
                if awaitable is not None:
                    await awaitable
            if self.want is None and self.progress.settings.is_quiet and begins(self.progress):
                self.want = RUN
            elif self.want is None or isinstance(self.want, float):
                self.steps = self.steps or steps(self.progress)
                want: Any = self.steps.send(None)
                self.want = await settle_async(self.steps, want) if type(want) is tuple else want
        except BaseException:
            self.progress.close()
            raise
        return self.turn(StopAsyncIteration)
