"""The core of the adapters for requests, httpx and aiohttp: a call, its attempts, and the requests of its redirects."""

from __future__ import annotations

import inspect
import weakref
from functools import partial
from threading import get_ident
from typing import Any, ClassVar, Collection, Dict, Generator, List, Optional, Tuple, Type, TypeVar, Union

from ..errors import ResultRefused
from ..http import is_bad, methods_of, retry_after, retry_after_of, statuses_of
from ..pace import Pacing
from ..policy import Policy
from ..retry.deadline import enter, leave
from ..retry.drivers import answer_of, not_awaitable
from ..retry.progress import Progress
from ..retry.state import Ending, Outcome, RetryState, Statistics
from ..retry.steps import OVER, RAISE, RUN, Ask, Settled, Steps, relay, steps
from ..retrying import BaseRetrying, look_at_names

__all__ = [
    "DRAIN_BYTES",
    "DRAIN_SECONDS",
    "KEPT",
    "MIN_TIMEOUT",
    "TOO_LATE",
    "Call",
    "PolicyClient",
    "drive",
    "drive_async",
    "is_kept",
]

#: A body that nobody wants is read to its end where it is that short and comes that fast, so that its connection serves
#: the next attempt too. Any other is cut off, with its connection.
DRAIN_BYTES = 65536
DRAIN_SECONDS = 0.5
#: The least timeout that a client takes.
MIN_TIMEOUT = 0.001
#: Bodies that can be sent twice.
KEPT = (type(None), str, bytes, bytearray, memoryview)
#: What the error says where the deadline has passed before a redirect could be followed.
TOO_LATE = "the deadline passed before a redirect was followed"

#: What `help()` says of each adapter, after its own text.
_COMMON = """
    `on`, `on_status`
        The errors and the statuses to retry: broken connections and timeouts, and 429, 502, 503, 504. A 413, 429 or 503
        with a `Retry-After` is retried whatever `on_status` says.
    `methods`
        The methods that may be repeated. A request with another method, or with a body that can't be sent again, such
        as a stream, is retried only if no connection was made.

    `pace`
        A `Pace`, or a `LeasedPace`, for which each attempt waits; `slow` does not count the wait. A request that it
        would let wait too long raises a `TooSoon`.

    It takes the options of `Retrying` too, except `on_result`, `attempt_timeout` and `hedge_after`. With a `PerHost` as
    the limit, each host has one of its own; the key of another `PerKey` is told the request. A request that a limit
    doesn't admit raises a `NotAdmitted`. Each wait is the policy's, or the `Retry-After` of the response if that is
    longer, up to `max_retry_after` seconds. The policy's input is the status of the response. When the retry ends, you
    get the last response, or the last error is raised. With a `deadline`, the time that is left is the timeout of each
    attempt, unless the client's own is shorter.
    """

Answer = TypeVar("Answer")
#: What is to be called, one after another, up to an answer.
Asks = Generator[Ask, Any, Answer]

#: The parameters of `Retrying`, without `self`.
_PARAMETERS = frozenset(inspect.signature(BaseRetrying.__init__).parameters) - {"self"}


class Call:
    """One call of a client: its first request, and those to which redirects lead.

    They are one request of a quota, have one deadline, and share the number of retries that the policy has.
    """

    __slots__ = ("owner", "start", "deadline", "retries", "hops", "requests", "leads_on", "may_repeat", "_counted_by")

    def __init__(self, owner: BaseRetrying) -> None:
        settings = owner.settings
        self.owner = owner
        self.start = settings.clock()
        self.deadline = settings.deadline_from(self.start)
        #: Retries that its requests had so far.
        self.retries = 0
        #: Requests that it had so far, each counted once.
        self.hops = 0
        #: They, as far as they are still there.
        self.requests: weakref.WeakSet[Any] = weakref.WeakSet()
        #: Whether the answer to the latest of them is a redirect, which may be followed.
        self.leads_on = False
        #: Whether the latest of them may be made twice.
        self.may_repeat = True
        #: The limits that have counted it.
        self._counted_by: List[Any] = []

    @classmethod
    def of(cls, owner: BaseRetrying, kept: Dict[str, Any], request: Any) -> Call:
        """The call that a request belongs to. `kept` is a dict that clients hand on from a request to its redirects. A
        request that is made again begins another call, also where its redirect was not followed."""
        key = _key()
        call: Optional[Call] = kept.get(key)
        if call is None or not call.leads_on or call.owner is not owner or request in call.requests:
            call = kept[key] = Call(owner)
        call.requests.add(request)
        call.leads_on = False
        return call

    def leave(self, kept: Dict[str, Any]) -> None:
        """Its request is over: it goes on only where that leads on."""
        if not self.leads_on:
            kept.pop(_key(), None)

    def __reduce__(self) -> Any:
        return type(None), ()  # a request that is copied or pickled begins another call

    def is_counted_by(self, limit: Any) -> bool:
        """Whether a limit has counted it; from now on it has."""
        is_counted = any(each is limit for each in self._counted_by)
        if not is_counted:
            self._counted_by.append(limit)
        return is_counted

    def is_late(self) -> bool:
        """Whether its deadline has passed before a redirect could be followed."""
        return self.hops > 0 and self.deadline is not None and self.deadline.left() <= 0

    def is_spent(self) -> bool:
        """Whether its requests before have had all the retries that the policy has."""
        most = self.owner.policy.most_retries
        return self.hops > 1 and most is not None and self.retries >= most


class PolicyClient:
    """Makes the requests of a client, and retries them."""

    #: What retries them, what it retries where nothing is said, and what is raised where a request was never sent.
    _KIND: ClassVar[Type[BaseRetrying]]
    _ON: ClassVar[Any]
    _NOT_SENT: ClassVar[Tuple[Type[BaseException], ...]]

    def __init_subclass__(cls, **how: Any) -> None:
        super().__init_subclass__(**how)
        cls.__doc__ = f"{(cls.__doc__ or str()).rstrip()}\n{_COMMON}"

    def __init__(
        self,
        policy: Union[Policy, str, bytes, Dict[str, Any]],
        on_status: Collection[int],
        methods: Collection[str],
        read_up_to: Optional[int],
        how: Dict[str, Any],
    ) -> None:
        name = type(self).__name__
        if "on_result" in how:
            raise TypeError(f"{name}() takes no on_result: on_status says which answers are retried")
        if how.get("attempt_timeout") is not None:
            raise TypeError(f"{name}() takes no attempt_timeout: the client's own timeout is for each attempt")
        if how.get("hedge_after") is not None:
            raise TypeError(f"{name}() takes no hedge_after: decorate the coroutine function that makes the request")
        pace = how.pop("pace", None)
        look_at_names(name, how, {*_PARAMETERS, "pace", *inspect.signature(type(self)).parameters})
        if read_up_to is not None and (type(read_up_to) is not int or read_up_to < 0):
            raise TypeError(f"read_up_to: expected a number of bytes or None, got {read_up_to!r}")
        self.on_status = statuses_of(on_status)
        self.methods = methods_of(methods)
        self.read_up_to = read_up_to
        given: Dict[str, Any] = {"on": self._ON, "wait": _asked_for, **how}
        #: What retries the requests.
        self.retrying = self._KIND(policy, **given)
        # (a request that must not be made twice is retried where it was never sent)
        self._careful = self.retrying.copy(on=self._was_not_sent)
        self._careful.counts = self.retrying.counts
        self._waits = _waits_of(pace, self.retrying.settings.awaits)

    @property
    def statistics(self) -> Statistics:
        """Counts over all requests that are over. A request to which a redirect leads is one of its own."""
        return self.retrying.statistics

    def attempts(self, call: Call, request: Any, may_repeat: bool) -> Asks[Any]:
        """The steps of one request of a call; their answer is its response."""
        if call.is_late():
            raise self._too_late(request)
        call.may_repeat = may_repeat
        owner = self.retrying if may_repeat else self._careful
        if owner.settings.per_key is not None:
            owner = owner.settings.per_key.retrying_of(owner, (self._told(request),), {})
        progress = Progress(owner, self._attempt, (request,), start=call.start, deadline=call.deadline)
        token = None if call.deadline is None else enter(call.deadline)
        call.hops += 1
        driven = steps(progress, is_counted=call.is_counted_by(owner.limit))
        try:
            want = yield from relay(driven, driven.send(None))
            while want is RUN:
                want = yield from self._one_attempt(call, progress, driven, request)
            ending = progress.state.ending
            try:
                answer = answer_of(progress)
            except ResultRefused as refused:
                answer = refused.result
            else:
                if ending is not Ending.NOT_RETRIED:
                    return answer
            return (yield partial(self._refused, request, ending), answer)
        finally:
            if call.deadline is not None and token is not None:
                leave(call.deadline, token)
            progress.close()

    def _one_attempt(self, call: Call, progress: Progress, driven: Steps, request: Any) -> Asks[Settled]:
        """Makes one attempt and has it judged, up to the next one or the end. The last one's error is raised."""
        progress.ends_now = call.is_spent()
        if self._waits is not None:
            yield self._waits, 1
            if progress.settings.slow_millis is not None:
                progress.attempt_begins()  # (the wait for its pace is no part of it)
        try:
            response = yield self._attempt, request
            is_refused = self.is_refused(response)
            if not is_refused:
                yield partial(self._accepts, request), response
        except BaseException as error:
            want = yield from relay(driven, driven.send(Outcome(None, error)))
            if want is RAISE:
                raise
        else:
            call.leads_on = not is_refused and self._leads_on(response)
            if call.leads_on or (is_refused and not call.may_repeat):
                return _gives(progress, response, Ending.WON if call.leads_on else Ending.NOT_RETRIED)
            want = yield from relay(driven, driven.send(_Answered(response, is_refused)))
            if isinstance(want, float):
                yield partial(self._let_go, request), response
        if isinstance(want, float):
            call.retries += 1
            settings = progress.settings
            if want > 0.0:
                yield settings.sleeps, want
            elif settings.pause is not None:
                yield settings.pause, want
            want = yield from relay(driven, driven.send(None))
        return want

    def is_refused(self, response: Any) -> bool:
        """Whether the status of a response is retried."""
        status = getattr(response, "status_code", None)
        return is_bad(response.status if status is None else status, self.on_status, "Retry-After" in response.headers)

    # What each client does in its own way

    def _told(self, request: Any) -> Any:
        """The request as the key of a `PerKey` is told it."""
        return request

    def _attempt(self, request: Any) -> Any:
        """Makes the request once, up to the head of its response."""
        raise NotImplementedError

    def _accepts(self, request: Any, response: Any) -> Any:
        """The rest of the attempt, where the status of the response is not one that is retried."""
        raise NotImplementedError

    def _let_go(self, request: Any, response: Any) -> Any:
        """Lets a response go that another attempt follows, and its connection serve that where it can."""
        raise NotImplementedError

    def _leads_on(self, response: Any) -> bool:
        """Whether the client may follow the response to another request, as a redirect."""
        return False

    def _was_not_sent(self, error: BaseException) -> bool:
        """Whether the request was never sent."""
        return isinstance(error, self._NOT_SENT)

    def _too_late(self, request: Any) -> Exception:
        """What is raised where the deadline has passed before a redirect could be followed."""
        raise NotImplementedError

    def _refused(self, request: Any, ending: Optional[Ending], response: Any) -> Any:
        """What comes of a last response whose status is retried, also where the request was not."""
        return response

    def is_read(self, response: Any) -> bool:
        """Whether the body of a response is read as part of the attempt."""
        if self.read_up_to is None:
            return True
        length = response.headers.get("Content-Length", "")
        return length.isascii() and length.isdigit() and int(length) <= self.read_up_to


def _waits_of(pace: Any, awaits: bool) -> Any:
    """What waits for a pace, where there is one."""
    if pace is None:
        return None
    if not isinstance(pace, Pacing):
        raise TypeError(f"pace: expected a Pace or a LeasedPace, got {pace!r}")
    return pace.wait_async if awaits else pace.wait


class _Answered(Outcome):
    """The outcome of an attempt that gave a response, at whose status was looked."""

    __slots__ = ("is_refused",)

    def __init__(self, response: Any, is_refused: bool) -> None:
        super().__init__(response)
        self.is_refused = is_refused


def is_kept(body: Any, position: Any) -> bool:
    """Whether a body can be sent twice. The first time uses up an iterator or a file, but for a file that the client
    sets back to its `position`; of another object nobody knows."""
    return isinstance(position, int) or isinstance(body, (*KEPT, list, tuple))


def _key() -> str:
    """Where a request keeps the call that it belongs to: threads may make the same request at once."""
    return f"hikebox {get_ident()}"


def _asked_for(state: RetryState) -> Optional[float]:
    """The seconds that a `Retry-After` asks for: that of a response, or of an error's."""
    outcome = state.outcome
    if outcome is None:
        return None
    error = outcome.exception()
    return retry_after_of(outcome.result()) if error is None else retry_after(error)


def _gives(progress: Progress, response: Any, ending: Ending) -> Settled:
    """The request is over, with a response that is neither retried nor a success of the call."""
    progress.answer = Outcome(response)
    progress.state.ending = ending
    if progress.settings.slow_millis is not None:
        progress.attempt_ends()
    if progress.settings.asks_limit:
        progress.succeeds() if ending is Ending.WON else progress.drawing.failed()
    return OVER


async def drive_async(steps: Generator[Ask, Any, Any], awaits: bool = True) -> Any:
    """Does what the steps ask for, and returns their answer. They hear of what is raised meanwhile."""
    answer: Any = None
    error: Optional[BaseException] = None
    try:
        while True:
            function, argument = steps.send(answer) if error is None else steps.throw(error)
            answer, error = None, None
            try:
                answer = function(argument)
                if not awaits:
                    not_awaitable(answer)
                elif hasattr(type(answer), "__await__"):
                    answer = await answer
            except BaseException as raised:
                error = raised
    except StopIteration as done:
        return done.value
    finally:
        del error
        steps.close()


def drive(steps: Generator[Ask, Any, Any]) -> Any:
    """The same where nothing is awaited, so that the coroutine ends at its first step."""
    try:
        drive_async(steps, awaits=False).send(None)
    except StopIteration as done:
        return done.value
