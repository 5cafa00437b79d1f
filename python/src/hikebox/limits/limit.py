"""What a call asks before its first attempt too, and a request of it."""

from __future__ import annotations

import random as _random
import threading
from typing import Any, Callable, ClassVar, List, Optional, Tuple, Type

from .._engine.calls import OK, RACES_LOST, refused
from .._engine.limits import (
    BREAKER_OPEN,
    LEVEL_LOW,
    NO_NUMBER,
    NO_WORD,
    OUT_OF_TURN,
    PROBING,
    REFUSALS,
    REQUESTS_FULL,
    RETRIES_FULL,
    THROTTLED,
    LimitHandle,
    Place,
    State,
    admit,
    cancelled,
    draw,
    ended,
    failed,
    succeeded,
)
from .._forks import OfOneProcess, begins_anew_in_a_child
from .._time import moments_of
from ..budgets.limit import Limit
from ..budgets.tickets import Refusal, RefusalReason
from ..policy.preview import word_of
from .terms import LimitTerms

__all__ = ["NONE_UNDER_WAY", "CallLimit", "Holding", "Request", "WatchedRequest", "look_at_no_limit", "of_pace"]

#: What is told of a call that is out of its turn.
NONE_UNDER_WAY = "expected a request that was admitted, got none under way"
_REASONS = {
    LEVEL_LOW: RefusalReason.LEVEL_LOW,
    REQUESTS_FULL: RefusalReason.REQUESTS_FULL,
    RETRIES_FULL: RefusalReason.RETRIES_FULL,
    BREAKER_OPEN: RefusalReason.BREAKER_OPEN,
    PROBING: RefusalReason.PROBING,
    THROTTLED: RefusalReason.THROTTLED,
}

#: What a call holds of a limit that it asked: a place that found it quiet, or a request; why that was refused;
#: and what tells of a success.
Holding = Tuple[Optional[Place], Optional["Request"], Optional[Refusal], Callable[[], Any]]


class CallLimit(OfOneProcess, Limit):
    """A limit that calls ask before their first attempt, and again before each retry.

    A call that is not admitted raises a `NotAdmitted` and makes no attempt. Threads may share a limit: its calls act as
    if made one after another. What a call holds is given back once, when it ends or is cancelled. A limit belongs to
    its process: a forked child begins with a fresh one.

    `request()` is for calls that you retry by hand.
    """

    __slots__ = ("_clock", "_random", "now", "word", "generation", "root", "idle", "_split", "lock", "__weakref__")

    #: Whether it looks at its clock, and that also at a success; whether it draws random numbers; whether a retry may
    #: cost something; whether it is quiet at times, so that a call which succeeds at once leaves it as it is; and
    #: whether it then admits each call, of which it need not hear before the first attempt.
    reads_clock = False
    times_successes = False
    reads_random = False
    has_costs = False
    rests = False
    admits_all = False

    IS_ASKED = True

    #: What its requests are.
    REQUEST: ClassVar[Type[Request]]

    def __init__(self, clock: Callable[[], float], random: Callable[[], float] = _random.random) -> None:
        for name, function in (("clock", clock), ("random", random)):
            if not callable(function):
                raise TypeError(f"{name}: expected a function, got {function!r}")
        self.clock = clock
        self.random = random
        #: How often it began anew, as in a forked child.
        self.generation = 0
        self._begin()
        begins_anew_in_a_child(self)

    @property
    def clock(self) -> Callable[[], float]:
        """What returns the time in seconds."""
        return self._clock

    @clock.setter
    def clock(self, clock: Callable[[], float]) -> None:
        self._clock = clock
        #: The moment of a call, where it is read, and 0 where not.
        self.now: Callable[[], int] = int
        if self.reads_clock:
            self.now = moments_of(clock)

    @property
    def random(self) -> Callable[[], float]:
        """What returns numbers from 0 up to 1."""
        return self._random

    @random.setter
    def random(self, random: Callable[[], float]) -> None:
        self._random = random
        #: The random word of a call, where one is drawn, and 0 where not.
        self.word: Callable[[], int] = int
        if self.reads_random:
            self.word = lambda: word_of(random())

    def _begin(self) -> None:
        self.lock = threading.RLock()
        #: The handle that others are split off.
        self.root = self.make()
        #: Those that nobody uses now, of this process. `pop` and `append` are each one step.
        self.idle: List[Place] = []
        #: All of them. The collector would free one that a request of the same cycle gives back.
        self._split: List[Place] = []

    def begin_anew(self) -> None:
        """Begins with nothing counted."""
        self.generation += 1
        for place in self._split:
            place.told = _NEVER  # (the places of calls that were forked look at the parent's limit)
        self._begin()

    def make(self) -> LimitHandle:
        """Makes the limit in the engine."""
        raise NotImplementedError

    def parts(self) -> List[CallLimit]:
        """Returns the limits that it asks, each a single one of this process."""
        return [self]

    def on_storm(self) -> LimitTerms:
        """Returns its terms, as a storm takes them."""
        raise TypeError(f"expected one limit on a storm, got {self!r}")

    def expression(self) -> str:
        """Returns the expression that makes one like it."""
        raise NotImplementedError

    def state_of_root(self) -> State:
        """Its state now, as the engine tells it."""
        with self.lock:
            return self.root.state(self.now())

    def seen(self) -> Any:
        """Returns its state now, from one look that changes nothing."""
        raise TypeError(f"{self!r} tells no state")

    def look(self) -> None:
        """Tells what changed since the last look, where somebody wants to know."""

    def lend(self) -> Place:
        """A place for one request, which goes back to its home."""
        try:
            return self.idle.pop()
        except IndexError:
            with self.lock:
                # (in this order: where the process is forked here, it comes back to those of the parent)
                idle, split = self.idle, self._split
                made = Place(self.reads_clock, self.times_successes, self.has_costs, self.reads_random)
                made.home = idle
                self.root.split(made)
                split.append(made)
                return made

    def ask(self) -> Holding:
        """Asks before a first attempt."""
        request = self.REQUEST(self)
        try:
            return None, request, request.admit(), request.succeeded
        except BaseException:
            request.ended()
            raise

    def look_or_ask(self) -> Holding:
        """The same, or a place that finds the limit quiet, so that a call is admitted which holds it. If that succeeds
        at once and finds it quiet again, the look stands for all calls of its request."""
        try:
            place = self.idle.pop()
        except IndexError:
            place = self.lend()
        look = place.look
        if not self.admits_all:
            look()
            if not place.told[0]:
                place.home.append(place)
                return self.ask()
        return place, None, None, look

    def cost_of(self, error: Optional[BaseException]) -> int:
        """What a retry after this error costs, in thousandths."""
        return 0

    def refused(self, status: int, number: int) -> Refusal:
        """Why a request or a retry was refused."""
        until = number / 1000 if status == BREAKER_OPEN else None
        return Refusal(_REASONS[status], until)

    def request(self) -> Request:
        """Returns a `Request`, for a call that you retry by hand.

        >>> from hikebox import Bucket
        >>> limit = Bucket.grpc(max_tokens=2, token_ratio=0.5)
        >>> with limit.request() as request:
        ...     request.admit()
        ...     request.failed()
        ...     request.draw()
        <Refusal: the bucket's level is too low>
        """
        return self.REQUEST(self)

    def draw(self) -> None:
        """Raises a `TypeError`: a retry is drawn by its `request()`."""
        raise TypeError("a limit is asked by a request: use limit.request()")

    def __repr__(self) -> str:
        return f"<{self.expression()}>"


class Request(OfOneProcess):
    """One call under a `CallLimit`, from its first attempt to its end. Use it as a context manager, or call `ended()`.

    The order is: `admit()`, then after each attempt `succeeded()`, or `failed()` and, if you retry, `draw()`. For a
    success that took too long call `failed()` too, in the place of `succeeded()`. Where it was not admitted, these
    raise a `RuntimeError`.
    """

    __slots__ = ("_limit", "_handle", "_is_admitted", "_refusal")

    def __init__(self, limit: CallLimit, found: Optional[Place] = None) -> None:
        """Begins none, or one that the limit admitted as it was found quiet, or admits now as it does each."""
        self._limit = limit
        self._handle = found
        self._is_admitted = found is not None and not limit.admits_all
        #: Why the limit of a forked child did not admit it.
        self._refusal: Optional[Refusal] = None
        if found is not None:
            self.admit() if limit.admits_all else found.begin()

    def _held(self) -> Place:
        """Its place, of this process."""
        handle, limit = self._handle, self._limit
        while handle is None or handle.home is not limit.idle:  # (again where the handler of a signal forks meanwhile)
            handle = self._handle = limit.lend()
            if self._is_admitted and handle.home is limit.idle:  # by the limit of the process that was forked
                self._refusal = self.admit()
        return handle

    def admit(self) -> Optional[Refusal]:
        """Asks before the first attempt. Returns None if the call is admitted, or the `Refusal`."""
        handle, limit = self._handle, self._limit
        if handle is None and limit.idle:
            try:
                handle = self._handle = limit.idle.pop()
            except IndexError:  # another thread took the last one just now
                handle = self._held()
        elif handle is None or handle.home is not limit.idle:
            handle = self._held()
        if handle.now is not NO_NUMBER:
            handle.now.value = limit.now()
        if handle.word is not NO_WORD:
            handle.word.value = limit.word()
        status = admit(handle.at, handle.now, handle.word, handle.at_number)
        while status == RACES_LOST:  # to as many calls of others
            status = admit(handle.at, handle.now, handle.word, handle.at_number)
        self._is_admitted = status == OK
        if status == OK:
            return None
        if status == OUT_OF_TURN:
            raise RuntimeError("expected a request that has ended, got one under way")
        return limit.refused(_refusal_of("admit", status), handle.number.value)

    def draw(self, error: Optional[BaseException] = None) -> Optional[Refusal]:
        """Asks for a retry, before the wait. Returns None if it is granted, or the `Refusal`. A bucket may charge more
        after some errors."""
        handle, limit = self._handle, self._limit
        if handle is None or handle.home is not limit.idle:
            handle = self._held()
        if handle.now is not NO_NUMBER:
            handle.now.value = limit.now()
        if handle.cost is not NO_NUMBER:
            handle.cost.value = limit.cost_of(error)
        if handle.word is not NO_WORD:
            handle.word.value = limit.word()
        status = draw(handle.at, handle.now, handle.cost, handle.word, handle.at_number)
        while status == RACES_LOST:
            status = draw(handle.at, handle.now, handle.cost, handle.word, handle.at_number)
        if status == OK:
            return None
        if status != OUT_OF_TURN:
            return limit.refused(_refusal_of("draw", status), handle.number.value)
        if self._refusal is None:
            raise RuntimeError(NONE_UNDER_WAY)
        return self._refusal

    def failed(self) -> None:
        """Tells that an attempt failed, whether you retry it or not."""
        handle, limit = self._handle, self._limit
        if handle is None or handle.home is not limit.idle:
            handle = self._held()
        if not self._is_admitted and self._refusal is None:
            raise RuntimeError(NONE_UNDER_WAY)
        if handle.now is not NO_NUMBER:
            handle.now.value = limit.now()
        status = failed(handle.at, handle.now)
        if status != OK:
            raise refused("hikebox_limit_failed", status)

    def succeeded(self) -> None:
        """Tells that an attempt succeeded."""
        handle, limit = self._handle, self._limit
        if handle is None or handle.home is not limit.idle:
            handle = self._held()
        if not self._is_admitted and self._refusal is None:
            raise RuntimeError(NONE_UNDER_WAY)
        if handle.won_at is not NO_NUMBER:
            handle.won_at.value = limit.now()
        status = succeeded(handle.at, handle.won_at)
        if status != OK:
            raise refused("hikebox_limit_succeeded", status)

    def cancelled(self) -> None:
        """Tells that the latest retry is cancelled while it waits. What it cost and its slot come back, once."""
        handle = self._held()
        if handle.handle.held:  # (the collector frees it before a request of the same cycle)
            status = cancelled(handle.at)
            if status != OK:
                raise refused("hikebox_limit_cancelled", status)

    def ended(self) -> None:
        """Tells that the call is over. What it holds comes back, once."""
        handle = self._handle
        if handle is not None and handle.home is self._limit.idle:
            status = ended(handle.at)
            if status != OK and handle.handle.held:  # (the collector frees it before a request of the same cycle)
                raise refused("hikebox_limit_ended", status)
        # (it is let go only then: an exception of a signal's handler may end this at any step, and `__del__` goes on;
        # such a handler, or another thread, may have let it go meanwhile)
        handle, self._handle = self._handle, None
        self._is_admitted, self._refusal = False, None
        if handle is not None:
            handle.home.append(handle)

    def end(self, hands_back: bool) -> None:
        """The retry is over, with a ticket that was not used where that is so."""
        if hands_back and self._handle is not None:
            self.cancelled()
        self.ended()

    def __enter__(self) -> Request:
        return self

    def __exit__(self, kind: Any, error: Any, trace: Any) -> None:
        self.ended()

    def __del__(self) -> None:
        try:
            if self._handle is None:
                return
        except AttributeError:
            return  # (an exception of a signal's handler ended `__init__`)
        self.ended()  # (a limit has only so many handles, so this one serves another request)


#: In a forked child, what the looks of its parent's places tell.
_NEVER = bytes(1)


class WatchedRequest(Request):
    """A request of a limit whose changes are told."""

    __slots__ = ()

    def admit(self) -> Optional[Refusal]:
        answer = super().admit()
        self._limit.look()
        return answer

    def draw(self, error: Optional[BaseException] = None) -> Optional[Refusal]:
        answer = super().draw(error)
        self._limit.look()
        return answer

    def failed(self) -> None:
        super().failed()
        self._limit.look()

    def succeeded(self) -> None:
        super().succeeded()
        self._limit.look()


def _refusal_of(call: str, status: int) -> int:
    """The status of a refusal, or its exception where it is none."""
    if status not in REFUSALS:
        raise refused(f"hikebox_limit_{call}", status)
    return status


CallLimit.REQUEST = Request


def of_pace(given: object) -> str:
    """What an error says besides, where a pace is given for a limit."""
    from ..pace import Pacing  # which others need not load

    return "; a pace goes under retry, as a decorator" if isinstance(given, Pacing) else ""


def look_at_no_limit(called: str, limit: object, client: str) -> None:
    """Refuses a limit where a client does not say when a call begins."""
    if isinstance(limit, CallLimit):
        kind = type(limit).__name__
        raise TypeError(
            f"{called} takes no {kind}: it is asked before the first attempt, and {client} doesn't say when that begins"
        )
