"""The state of a retry, its ending, and counts over many retries."""

from __future__ import annotations

import enum
import itertools
import operator
import sys
import threading
from typing import TYPE_CHECKING, Any, Callable, Dict, Mapping, Optional, Tuple

from .._forks import begins_anew_in_a_child
from .._time import MAX_NUMBER
from .._values import NamedTuple, dataclass
from ..budgets.tickets import Refusal
from .deadline import Deadline

if TYPE_CHECKING:
    from ..retrying import BaseRetrying

__all__ = ["Ending", "NextAction", "Outcome", "RetryState", "Statistics", "code_of", "state_of"]


class Ending(enum.Enum):
    """How a retry ended."""

    #: The last call succeeded.
    WON = "won"
    #: The last call failed, or of a repeat succeeded, and the policy did not go on.
    SCHEDULE_DONE = "the policy was done"
    #: The last call failed, or of a repeat succeeded, and the next one would have begun past the deadline.
    DEADLINE = "the deadline left no time for another attempt"
    #: The last call failed, the policy went on, and the limit refused a retry.
    LIMIT_REFUSED = "the limit refused a retry"
    #: The limit did not admit the call, so no attempt was made.
    NOT_ADMITTED = "the limit did not admit the call"
    #: The last call failed in a way that `on` does not name.
    NOT_RETRIED = "the error is not one that is retried"
    #: What was given as `stop` said so.
    STOPPED = "it was stopped"
    #: It was left before it was over: a coroutine was cancelled, or a loop was left.
    CANCELLED = "it was cancelled"
    #: The engine found no memory.
    NO_MEMORY = "the engine found no memory"
    #: The clock went back. The clocks here are kept from it, so it does not come.
    CLOCK_WENT_BACK = "the clock went back"


#: The endings by their numbers in the engine's header, which has none for 0 and 6.
ENDINGS: Tuple[Optional[Ending], ...] = (
    None,
    Ending.WON,
    Ending.SCHEDULE_DONE,
    Ending.LIMIT_REFUSED,
    Ending.CANCELLED,
    Ending.NO_MEMORY,
    None,
    Ending.CLOCK_WENT_BACK,
    Ending.DEADLINE,
)


class Outcome:
    """The outcome of an attempt: its result, or the exception that it raised."""

    __slots__ = ("attempt_number", "error", "_result")

    #: Whether the result is refused, where that is known, so that `on_result` is not asked.
    is_refused: Optional[bool] = None

    def __init__(self, result: Any = None, error: Optional[BaseException] = None, attempt_number: int = 1) -> None:
        #: The number of the attempt.
        self.attempt_number = attempt_number
        #: The exception, or None if it returned a result.
        self.error = error
        self._result = result

    @property
    def failed(self) -> bool:
        """Whether it raised."""
        return self.error is not None

    def done(self) -> bool:
        """True, as of a future that has its result."""
        return True

    def exception(self) -> Optional[BaseException]:
        """The exception, or None if it returned a result."""
        return self.error

    def told(self) -> Any:
        """The exception, or the result if there is none."""
        return self._result if self.error is None else self.error

    def result(self) -> Any:
        """Returns the result, or raises the exception."""
        if self.error is None:
            return self._result
        try:
            raise self.error
        finally:
            del self  # which the exception's traceback would keep, and it the exception

    def __repr__(self) -> str:
        return f"raised {self.error!r}" if self.error is not None else f"returned {self._result!r}"


class NextAction(NamedTuple):
    """What a retry does next, while it waits."""

    #: Seconds until the next attempt.
    sleep: float


class RetryState:
    """The state of a retry. Hooks receive it, and the exception that a retry raises has it as `retry_state`.

    The names are those of tenacity's `RetryCallState`.
    """

    __slots__ = (
        "retry_object",
        "fn",
        "args",
        "kwargs",
        "start_time",
        "attempt_number",
        "outcome",
        "seconds_since_start",
        "idle_for",
        "upcoming_sleep",
        "granted",
        "refusal",
        "ending",
        "deadline",
    )

    def __init__(
        self,
        retry_object: Optional[BaseRetrying],
        fn: Optional[Callable[..., Any]],
        args: Tuple[Any, ...],
        kwargs: Mapping[str, Any],
        start_time: float = 0.0,
    ) -> None:
        #: The `Retrying` that made it. A pickled state has None here and for the call.
        self.retry_object = retry_object
        #: The function and its arguments; None in a loop of attempts.
        self.fn = fn
        self.args = args
        self.kwargs = kwargs
        #: When the first attempt began, by the clock of the retry.
        self.start_time = start_time
        #: The number of the present attempt, from 1.
        self.attempt_number = 1
        #: The outcome of the present attempt once it ended. None again after the last exception was raised.
        self.outcome: Optional[Outcome] = None
        #: Seconds from the start of the first attempt to the end of the latest one.
        self.seconds_since_start: Optional[float] = None
        #: Seconds waited between attempts, with the wait that comes next.
        self.idle_for = 0.0
        #: Seconds until the next attempt, if one follows.
        self.upcoming_sleep = 0.0
        #: The number of retries granted: tickets drawn.
        self.granted = 0
        #: Why there was no ticket, if the limit says so.
        self.refusal: Optional[Refusal] = None
        #: How it ended, or None while it is under way.
        self.ending: Optional[Ending] = None
        #: Its deadline, if it has one.
        self.deadline: Optional[Deadline] = None

    @property
    def next_action(self) -> Optional[NextAction]:
        """The wait before the next attempt, or None if none follows."""
        outcome = self.outcome
        return None if outcome is None or self.ending is not None else NextAction(self.upcoming_sleep)

    @property
    def seconds_left(self) -> Optional[float]:
        """Seconds until the deadline of the retry, or None if it has none."""
        return None if self.deadline is None else self.deadline.left()

    @property
    def outcome_timestamp(self) -> Optional[float]:
        """When the latest attempt ended, by the clock of the retry."""
        return None if self.seconds_since_start is None else self.start_time + self.seconds_since_start

    @property
    def code(self) -> int:
        """The code of the present outcome, as the policy sees it."""
        if self.retry_object is None or self.outcome is None:
            return 0
        return self.retry_object.settings.code_for(self.outcome.told())

    @property
    def name(self) -> str:
        """The name of the function, for texts."""
        fn = self.fn
        return getattr(fn, "__qualname__", None) or ("a block" if fn is None else repr(fn))

    def set_result(self, value: Any) -> None:
        """Sets the result of this attempt in a loop, for `on_result` and `on_success`."""
        self.outcome = Outcome(value, attempt_number=self.attempt_number)

    def __reduce__(self) -> Any:
        kept = (self.attempt_number, self.seconds_since_start, self.idle_for, self.granted, self.ending, self.refusal)
        return (_unpickled, kept)

    def __repr__(self) -> str:
        ending = f"; {self.ending.value}" if self.ending is not None else ""
        return (
            f"<RetryState: attempt {self.attempt_number}; waited {self.idle_for:.3f} s; granted {self.granted}; "
            f"last: {self.outcome}{ending}>"
        )


def _unpickled(
    attempt_number: int,
    seconds: Optional[float],
    idle_for: float,
    granted: int,
    ending: Optional[Ending],
    refusal: Optional[Refusal],
) -> RetryState:
    state = RetryState(None, None, (), {})
    state.attempt_number = attempt_number
    state.seconds_since_start = seconds
    state.idle_for = idle_for
    state.granted = granted
    state.ending = ending
    state.refusal = refusal
    return state


def state_of(error: BaseException) -> Optional[RetryState]:
    """Returns the state of the retry that raised this exception, or None if none did."""
    state = getattr(error, "retry_state", None)
    return state if isinstance(state, RetryState) else None


_CODES = ("status", "status_code", "code", "errno", "returncode")


def code_of(failure: object) -> int:
    """Returns the number by which a policy knows an exception, or a result that was refused, unless `code` is given.

    It is the first whole number among the attributes `status`, `status_code`, `code`, `errno` and `returncode`, and
    the `status_code` of its `response`. A result that is a whole number is its own code. Otherwise it is 0.

    >>> code_of(ConnectionRefusedError(111, "refused")), code_of(ValueError()), code_of(202)
    (111, 0, 202)
    """
    if type(failure) is int:
        return failure if 0 <= failure <= MAX_NUMBER else 0
    for name in _CODES:
        value = getattr(failure, name, None)
        if isinstance(value, int) and not isinstance(value, bool) and 0 <= value <= MAX_NUMBER:
            return int(value)
    value = getattr(getattr(failure, "response", None), "status_code", None)
    return int(value) if isinstance(value, int) and not isinstance(value, bool) and 0 <= value <= MAX_NUMBER else 0


@dataclass(frozen=True)
class Statistics:
    """Counts over all finished calls of one `Retrying`, of all threads."""

    #: Calls, each with all its attempts.
    calls: int = 0
    #: Attempts of these calls.
    attempts: int = 0
    #: Seconds that they waited between attempts.
    idle_for: float = 0.0
    #: Calls by their ending.
    won: int = 0
    schedule_done: int = 0
    deadline: int = 0
    limit_refused: int = 0
    not_retried: int = 0
    cancelled: int = 0
    broken: int = 0
    stopped: int = 0
    not_admitted: int = 0

    @property
    def retries(self) -> int:
        """Attempts after the first of each call. A call that was not admitted made none.

        >>> Statistics(calls=101, attempts=3, won=1, not_admitted=100).retries
        2
        """
        return self.attempts - self.calls + self.not_admitted

    @property
    def by_ending(self) -> Dict[str, int]:
        """The calls by their ending, for a counter with a label.

        >>> Statistics(calls=3, attempts=5, won=2, stopped=1).by_ending["stopped"]
        1
        """
        return {name: getattr(self, name) for name in (*_NAMED, "broken")}


_BROKEN = (Ending.NO_MEMORY, Ending.CLOCK_WENT_BACK)
_NAMED = tuple(ending.name.lower() for ending in Ending if ending not in _BROKEN)


class _Lock:
    """The lock of all counts, which is held for a few additions; a forked child has another one.

    The same thread takes it again where a retry that nobody holds any more is counted meanwhile.
    """

    def __init__(self) -> None:
        self.begin_anew()
        begins_anew_in_a_child(self)

    def begin_anew(self) -> None:
        self.held = threading.RLock()


_lock = _Lock()


class _Tally:
    """A count that goes up in one step, without a lock. Reading it changes nothing."""

    __slots__ = ("add", "_left")

    def __init__(self) -> None:
        #: What is still to be counted.
        self._left = itertools.repeat(None, sys.maxsize)
        self.add = self._left.__next__

    def seen(self) -> int:
        """The count as of now."""
        return sys.maxsize - operator.length_hint(self._left)


class Counts:
    """The counts behind `Statistics`, shared by threads.

    A finalizer, or the handler of a signal, may count a call in the middle of the count of another.
    """

    __slots__ = ("add_success", "_left", "_endings", "_attempts", "_idle_for")

    def __init__(self) -> None:
        #: What counts calls that succeeded at their first attempt, as a `_Tally` does, and counts one more.
        left = self._left = itertools.repeat(None, sys.maxsize)
        self.add_success = left.__next__
        #: All other calls, by how they ended, and their attempts.
        self._endings: Dict[Ending, _Tally] = {}
        self._attempts = 0
        self._idle_for = 0.0

    def add(self, attempts: int, idle_for: float, ending: Ending) -> None:
        """Counts a call that is over."""
        if attempts == 1 and idle_for == 0.0 and ending is Ending.WON:
            self.add_success()
            return
        tally = self._endings.get(ending)
        if tally is None:
            tally = self._endings.setdefault(ending, _Tally())
        with _lock.held:
            tally.add()
            self._attempts += attempts
            self._idle_for += idle_for

    def seen(self) -> Statistics:
        """The counts as of now."""
        with _lock.held:
            counts = {ending: tally.seen() for ending, tally in list(self._endings.items())}
            named = {ending.name.lower(): counts.get(ending, 0) for ending in Ending if ending not in _BROKEN}
            at_once = sys.maxsize - operator.length_hint(self._left)
            named["won"] += at_once
            broken = sum(counts.get(ending, 0) for ending in _BROKEN)
            calls, attempts = sum(counts.values()) + at_once, self._attempts + at_once
            return Statistics(calls, attempts, self._idle_for, broken=broken, **named)
