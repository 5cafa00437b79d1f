"""A limit that processes share: its word stands in a folder, and each call is one step there."""

from __future__ import annotations

import hashlib
import logging
from typing import List, Optional, Tuple

from .._engine.kept import ADMIT, CANCELLED, DRAW, FAILED, SUCCEEDED, HeldRequest, Kept, Step
from .._engine.kept import breaker_steps, bucket_steps
from .._engine.limits import OUT_OF_TURN, LimitHandle, Refused
from ..budgets.tickets import Refusal, RefusalReason
from ..errors import StoreError, StoreLost
from ..limits import Breaker, Bucket, CallLimit, Request
from ..limits.limit import NONE_UNDER_WAY
from .file_store import FileStore
from .machine import shared_uptime
from .stores import checked_name

__all__ = ["SharedLimit"]

logger = logging.getLogger("hikebox")

#: In the place of a status: the store could not be reached.
_UNREACHED = -1
#: After so many milliseconds of the machine's uptime a breaker begins anew: its word keeps no later moment.
_MOMENTS = 2**37
#: The longest open times that stand in a key as they are.
_MAX_TIMES_TEXT = 100


class SharedLimit(CallLimit):
    """A bucket or a breaker that all processes with the same folder, name and limit share.

    Each call of a request is one change of a file under its lock, so all calls of all processes act as one sequence. A
    process may be killed at any moment. What it drew of a bucket is then lost, and a probe of a breaker is over at its
    deadline. A bucket goes on after the machine is restarted, and a breaker is then closed.

    While the folder can't be reached, first attempts are admitted and no retry is granted.
    """

    __slots__ = ("store", "name", "of", "key", "_steps", "_of_this_boot", "_error", "_is_told")

    reads_clock = True

    def __init__(self, store: FileStore, name: str, of: CallLimit) -> None:
        self.store = store
        self.name = checked_name(name)
        self.of = of
        #: Whether what is kept is of one start of the machine, as moments are.
        self._of_this_boot = of.reads_clock
        self._error: Optional[StoreError] = None
        self._is_told = False
        terms, self._steps = _terms_and_steps(of)
        self.key = f"{terms} of {name}"
        super().__init__(lambda: shared_uptime() / 1e9)

    def make(self) -> LimitHandle:
        return self.of.make()

    def parts(self) -> List[CallLimit]:
        return []

    def cost_of(self, error: Optional[BaseException]) -> int:
        return self.of.cost_of(error)

    def refused(self, status: int, number: int) -> Refusal:
        if status != _UNREACHED:
            return super().refused(status, number)
        is_lost = isinstance(self._error, StoreLost)
        return Refusal(RefusalReason.LOST if is_lost else RefusalReason.UNREACHABLE, None, self._error)

    def step(self, call: int, now: int, cost: int, request: HeldRequest) -> Tuple[Optional[Refused], HeldRequest]:
        """One step of a request: None, or why it is refused; and what the request then holds. Where the store can't be
        reached, that is what it held."""
        held = HeldRequest.from_buffer_copy(request)
        turn, at = divmod(now, _MOMENTS) if self._of_this_boot else (0, now)

        def steps(kept: Kept) -> Optional[Refused]:
            refused = self._steps(call, at, cost, kept, held)
            return refused and (refused[0], refused[1] + turn * _MOMENTS)

        try:
            answer = self.store.step(f"{turn} {self.key}" if turn else self.key, self._of_this_boot, steps)
        except StoreError as error:
            self._tell(error)
            return (_UNREACHED, 0), request
        self._is_told = False
        return answer, held

    def _tell(self, error: StoreError) -> None:
        if not self._is_told:
            text = "%s: %s; it grants no retry until it can be reached"
            logger.warning(text, self.name, error, extra={"hikebox_limit": self.name})
        self._is_told = True
        self._error = error.with_traceback(None)

    def expression(self) -> str:
        return f"SharedLimit({self.store!r}, {self.name!r}, {self.of.expression()})"


class _SharedRequest(Request):
    """A request of a shared limit."""

    __slots__ = ("_of", "_held_there", "_is_missed", "_generation")

    def __init__(self, limit: SharedLimit) -> None:
        super().__init__(limit)
        self._of = limit
        self._held_there = HeldRequest()
        #: Whether it began while the store could not be reached, so that it is admitted later.
        self._is_missed = False
        self._generation = limit.generation

    def admit(self) -> Optional[Refusal]:
        answer = self._step(ADMIT)
        if answer is not None and answer[0] == OUT_OF_TURN:
            raise RuntimeError("expected a request that has ended, got one under way")
        self._is_missed = answer is not None and answer[0] == _UNREACHED
        self._is_admitted = answer is None or self._is_missed
        return None if answer is None or self._is_missed else self._of.refused(*answer)

    def draw(self, error: Optional[BaseException] = None) -> Optional[Refusal]:
        self._look_at_fork()
        if self._is_missed:
            refusal = self.admit()
            if self._is_missed or refusal is not None:
                return refusal or self._of.refused(_UNREACHED, 0)
        answer = self._step(DRAW, self._of.cost_of(error))
        if answer is None or answer[0] != OUT_OF_TURN:
            return None if answer is None else self._of.refused(*answer)
        if self._refusal is None:
            raise RuntimeError(NONE_UNDER_WAY)
        return self._refusal

    def failed(self) -> None:
        self._tells(FAILED)

    def succeeded(self) -> None:
        self._tells(SUCCEEDED)

    def cancelled(self) -> None:
        self._tells(CANCELLED)

    def ended(self) -> None:
        # (nothing changes in the store: neither a bucket nor a breaker counts who is under way)
        self._held_there = HeldRequest()
        self._is_admitted, self._refusal = False, None

    def end(self, hands_back: bool) -> None:
        if hands_back:
            self.cancelled()
        self.ended()

    def _tells(self, call: int) -> None:
        self._look_at_fork()
        if call != CANCELLED and not self._is_admitted and self._refusal is None:
            raise RuntimeError(NONE_UNDER_WAY)
        if not self._is_missed:
            self._step(call)

    def _look_at_fork(self) -> None:
        """In a forked child: begins a request of its own, where its parent's was admitted."""
        if self._generation != self._of.generation:
            self._generation, self._held_there = self._of.generation, HeldRequest()
            if self._is_admitted:
                self._refusal = self.admit()

    def _step(self, call: int, cost: int = 0) -> Optional[Refused]:
        answer, self._held_there = self._of.step(call, self._of.now(), cost, self._held_there)
        return answer


SharedLimit.REQUEST = _SharedRequest


def _terms_and_steps(of: CallLimit) -> Tuple[str, Step]:
    """The terms of a limit as its key spells them, and its steps."""
    if isinstance(of, Bucket):
        *levels, refund = of.terms
        return f"bucket {'/'.join(map(str, levels))}{'+refund' * refund}", bucket_steps(*of.terms)
    if isinstance(of, Breaker):
        if of.tells_changes:
            raise TypeError(f"on_change: processes share {of!r}, and what others change is not told here")
        failures, results, probes, deadline, times = of.terms
        while len(times) > 1 and times[-1] == times[-2]:
            times = times[:-1]  # the last one is used again
        spelt = ",".join(map(str, times))
        if len(spelt) > _MAX_TIMES_TEXT:
            spelt = hashlib.sha256(spelt.encode()).hexdigest()
        counts = f"{failures}/{results}" if results else str(failures)
        return f"breaker {counts}/{probes}/{deadline}/{spelt}", breaker_steps(
            failures, results, probes, deadline, times
        )
    raise TypeError(f"expected a Bucket or a Breaker, got {of!r}")
