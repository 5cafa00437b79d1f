"""One retry under way: what the engine says of its failures, on the retry's own clock, and its end."""

from __future__ import annotations

from math import floor
from typing import TYPE_CHECKING, Any, Callable, Mapping, Optional, Tuple

from .._engine.calls import NO_DEADLINE, NO_REPORT, OVER, WAIT
from .._engine.machine import MAX_IDLE, Machine, idle, new_machine, park, resumed, take_machine_back
from .._time import FLOAT_ERROR, GRAIN, MAX_NUMBER, moment, seconds_asked
from ..budgets.passes import Ends
from ..budgets.tickets import Refusal
from ..errors import HikeboxError
from ..policy.preview import word_of
from .deadline import Deadline
from .marks import DEBUG, late, log_wait
from .state import ENDINGS, Ending, Outcome, RetryState
from .watch import watch

if TYPE_CHECKING:
    from ..limits.limit import Holding
    from ..retrying import BaseRetrying

__all__ = ["HeldProgress", "Progress"]


class Progress:
    """A retry from its first attempt to its end, which whoever made it closes. The engine hears of it at its first
    failure; until then there is nothing to decide. `hikebox.retry.steps` says what is done when."""

    __slots__ = (
        *("settings", "state", "answer", "ends_now", "is_accepted", "drawing", "holds_ticket", "ahead"),
        *("_began", "_took"),
        *("_float_error", "_rounds", "_origin", "_first", "_last", "_until", "_asked"),
        *("_machine", "_parked", "_ends_at", "_logs", "_closed"),
    )

    #: When the present attempt began, and how many milliseconds it took, where that is measured.
    _began: float
    _took: Optional[float]
    #: When the first attempt failed, which is the moment that policies count from: by the engine, and in seconds since
    #: the start. By how many milliseconds the clock may be off, and how many are added to a moment before its part of a
    #: millisecond is cut off.
    _origin: int
    _first: float
    _float_error: float
    _rounds: float

    def __init__(
        self,
        owner: BaseRetrying,
        fn: Optional[Callable[..., Any]] = None,
        args: Tuple[Any, ...] = (),
        kwargs: Mapping[str, Any] = {},
        start: Optional[float] = None,
        deadline: Optional[Deadline] = None,
        holding: Optional[Holding] = None,
    ) -> None:
        settings = self.settings = owner.settings
        state = self.state = RetryState(owner, fn, args, kwargs, settings.clock() if start is None else start)
        if settings.deadline_millis is not None:
            state.deadline = settings.deadline_from(state.start_time) if deadline is None else deadline
        #: What comes of the retry, once it is over.
        self.answer: Optional[Outcome] = None
        #: Whether the next failure ends it, whatever its policy says: of a part of a call that had all its retries.
        self.ends_now = False
        #: Whether the latest attempt gave a result that `on_result` does not refuse.
        self.is_accepted = False
        #: What draws where the engine's retry does not. It may have been asked before the first attempt.
        self.drawing: Any = None
        if holding is not None:
            place, self.drawing, state.refusal, _ = holding
            if place is not None:
                self.drawing = settings.drawing(place)
        #: Whether it has a ticket for an attempt that has not begun.
        self.holds_ticket = False
        #: Seconds by which a sleep came back before the moment that it was to wait for.
        self.ahead = 0.0
        #: The last moment that the engine was told, and the start that it planned: whole milliseconds since then.
        self._last = self._until = 0
        #: The seconds that `retry_after` and `wait` ask for, where they were asked already.
        self._asked: Optional[float] = None
        self._machine: Optional[Machine] = None
        #: The engine's retry, while its machine serves others.
        self._parked = 0
        #: What ends the engine's retry: in a forked child, what it began at in the parent.
        self._ends_at: Optional[Ends] = None
        #: Whether each attempt that failed is logged.
        self._logs = False
        self._closed = False

    def seconds(self) -> float:
        """Seconds since the start of the first attempt."""
        state = self.state
        return self.settings.clock() - state.start_time + self.ahead

    # An attempt whose time is measured

    def attempt_begins(self) -> None:
        """An attempt begins now."""
        self._began, self._took = self.settings.clock(), None

    def attempt_ends(self) -> None:
        """The attempt is over, now or already."""
        if self._took is None:
            self._took = (self.settings.clock() - self._began) * 1000

    def attempt_took(self, began: float, ended: float) -> None:
        """The attempt that is looked at began and ended at these moments."""
        self._began, self._took = began, (ended - began) * 1000

    def succeeds(self) -> None:
        """Tells the limit that an attempt succeeded, or failed where it took too long for a success."""
        slow = self.settings.slow_millis
        if slow is not None and (self._took or 0.0) > slow + FLOAT_ERROR + abs(self._began) * GRAIN:
            self.drawing.failed()
        else:
            self.drawing.succeeded()

    # A failure

    def fails(self, error: Optional[BaseException]) -> None:
        """Tells the limit that an attempt failed. One that its pace did not let begin says nothing of the peer."""
        if not (isinstance(error, HikeboxError) and error.is_of_pace):
            self.drawing.failed()

    def goes_on(self) -> bool:
        """Whether the policy goes on after the state's outcome, and a ticket was drawn for that where nothing has to be
        awaited."""
        settings, state = self.settings, self.state
        if (settings.stop is not None or settings.asks or self.ends_now) and self._ends_early():
            return False
        seconds = state.seconds_since_start or 0.0
        machine = self._machine
        if machine is None:
            machine = self._resumed() if self._parked else self._begin(seconds)
        if settings.reads_codes:
            machine.run.code = state.code
        for lane in settings.lanes:
            machine.words[lane] = word_of(settings.random())
        origin, last = self._origin, self._last
        now = int((seconds - self._first) * 1000 + self._rounds)
        if not last <= now < _MOST:
            now = self._whole(seconds)
        self._last = self._until = now
        what, told = machine.ran(origin + last, origin + now), machine.next
        if what == OVER:
            state.ending = ENDINGS[told.how]
            return False
        if what == WAIT:
            self._until = told.until - origin
        if settings.asks_limit:
            return self.is_granted(self.drawing.draw(state.outcome and state.outcome.error))
        if settings.drawing is None:
            state.granted = told.granted
            self.holds_ticket = True
        return True

    def draw(self, _: Any) -> Any:
        """Draws a ticket elsewhere: None, or why there is none; or what gives that where it is awaited."""
        if self.drawing is None:
            self.drawing = self.settings.drawing()
        return self.drawing.draw()

    def is_granted(self, refusal: Optional[Refusal]) -> bool:
        """Whether there is a ticket, drawn elsewhere than by the engine's retry."""
        state = self.state
        state.refusal = refusal
        if refusal is not None:
            state.ending = Ending.LIMIT_REFUSED
            return False
        state.granted += 1
        self.holds_ticket = True
        return True

    def _ends_early(self) -> bool:
        """Whether the retry ends here, whatever its policy says."""
        settings, state, deadline = self.settings, self.state, self.state.deadline
        if settings.is_stopped is not None and settings.is_stopped(state):
            state.ending = Ending.STOPPED
        elif settings.asks and deadline is not None and self._asks() > deadline.left() + FLOAT_ERROR / 1000:
            state.ending = Ending.DEADLINE
        elif self.ends_now:
            state.ending = Ending.SCHEDULE_DONE
        return state.ending is not None

    def _asks(self) -> float:
        """How many seconds `retry_after` and `wait` ask for, up to `max_retry_after`."""
        settings, state = self.settings, self.state
        error = None if state.outcome is None else state.outcome.error
        asked = [0.0]
        if settings.retry_after is not None and error is not None:
            asked.append(seconds_asked("retry_after", settings.retry_after(error)))
        if settings.wait is not None:
            asked.append(seconds_asked("wait", settings.wait(state)))
        self._asked = min(settings.most_wait, max(asked))
        return self._asked

    def _part(self, failed: float) -> float:
        """The seconds from a failure to the next millisecond, where it was told as that."""
        part = self._last / 1000 - (failed - self._first)
        return part if self._float_error < part * 1000 < 1.0 else 0.0

    # A wait

    def wait(self) -> float:
        """How many seconds the retry waits for the next attempt: as many milliseconds as the policy says, or longer
        where that is asked for."""
        settings, state = self.settings, self.state
        millis, failed = self._until - self._last, state.seconds_since_start or 0.0
        if settings.takes_time and millis > 0:
            millis = max(0, millis - max(0, int((self.seconds() - failed) * 1000)))
        delay = millis / 1000
        if self._last / 1000 > failed - self._first and millis > 0:
            delay += self._part(failed)
        if settings.asks:
            asked, self._asked = self._asks() if self._asked is None else self._asked, None
            if asked > delay:
                delay = asked
                self._until = max(self._until, self._whole(self.seconds() + delay))
        state.upcoming_sleep = delay
        state.idle_for += delay
        if watch.watchers:
            watch.waits(self, delay)
        if self._logs:
            log_wait(state, delay)
        elif settings.lets_go and state.fn is not None:
            # nobody looks at it while it waits, and it would hold the frames of the call
            state.outcome = _FAILED
        return delay

    def wakes(self) -> bool:
        """The wait is over, or a stop ended it: whether the next attempt begins now. Past the deadline it does not, and
        its ticket is not used."""
        settings, state = self.settings, self.state
        if settings.is_stopped is not None and settings.is_stopped(state):
            state.ending = Ending.STOPPED
            return False
        state.upcoming_sleep = 0.0
        seconds, until = settings.clock() - state.start_time + self.ahead, self._first + self._until / 1000
        now = int((seconds - self._first) * 1000 + self._rounds)
        if not self._last <= now < _MOST:
            now = self._whole(seconds)
        if now < self._until or abs(seconds - until) * 1000 <= self._float_error:
            # (also where it is late by no more than the clock may be off, so that this does not add up)
            now, self.ahead = self._until, self.ahead + until - seconds
            seconds = until
            if state.deadline is not None:
                state.deadline.ahead = self.ahead
        self._last = now
        if settings.deadline_millis is not None and (self._is_refused(now) or self.is_late(seconds)):
            return False
        state.attempt_number += 1
        self.holds_ticket = False
        return True

    def _is_refused(self, now: int) -> bool:
        """Whether the engine begins no attempt at this moment, which is past the deadline."""
        machine = self._resumed() if self._parked else self._machine
        assert machine is not None, "a retry that waits has begun"
        what, detail, _ = machine.poll(self._origin + now, NO_REPORT, 0)
        if what == OVER:
            self.state.ending = ENDINGS[detail]
        return what == OVER

    def is_late(self, seconds: float) -> bool:
        """Whether an attempt that begins so many seconds after the start begins past the deadline, which then ends the
        retry."""
        most = self.settings.deadline_millis
        if most is None or seconds * 1000 <= most + self._float_error:
            return False
        self.state.ending = Ending.DEADLINE
        return True

    def wins(self, result: Any = None) -> None:
        """An attempt gave a result, of which nothing is asked, where it was not told already."""
        settings, state = self.settings, self.state
        if state.outcome is None:
            state.outcome = Outcome(result, None, state.attempt_number)
        state.ending = Ending.WON
        if settings.asks_limit:
            self.drawing.succeeded()
        elif settings.deposit_won is not None:
            settings.deposit_won()

    def parks(self) -> None:
        """Lets its machine serve others while it waits, where many do, so that a retry that waits is small."""
        machine = self._machine
        if machine is not None and machine.loan is None:
            # (it is given up first: a signal handler may raise an exception at any step)
            self._machine = None
            self._parked = park(machine)

    # The end

    def close(self, serves_others: bool = True) -> None:
        """Gives the engine's retry back, and counts the call."""
        if self._closed:
            return
        self._closed = True
        state = self.state
        won = self.settings.returns_tickets and state.ending is Ending.WON and state.granted > 0
        machine = self._resumed() if self._parked else self._machine
        drawing, ends_at, hands_back = self.drawing, self._ends_at, self.holds_ticket or won
        self._machine = self.drawing = None
        try:
            if drawing is not None:
                drawing.end(hands_back)
            if machine is not None and ends_at is not None:
                ends_at.end(machine, hands_back)
        finally:
            if machine is not None:
                # (where `end` was interrupted, its loan is the last to go)
                if serves_others and machine.loan is None and not machine.handle.held and len(idle) < MAX_IDLE:
                    idle.append(machine)
                else:
                    take_machine_back(machine, serves_others)
        if state.ending is None:
            state.ending = Ending.CANCELLED
        assert state.retry_object is not None
        state.retry_object.counts.add(state.attempt_number, state.idle_for, state.ending)
        if watch.watchers:
            watch.ended(self, is_finalized=not serves_others)

    # The engine's retry, and its clock

    def _begin(self, seconds: float) -> Machine:
        """A retry of the engine, whose first attempt failed so many seconds after the start."""
        settings = self.settings
        grants, most, start = settings.grants, settings.deadline_millis, self.state.start_time
        self._float_error = self._rounds = FLOAT_ERROR + abs(start) * GRAIN
        origin = moment(start + seconds) if grants.reads_clock else 0
        self._origin = min(origin, MAX_NUMBER - _MOST)
        deadline = NO_DEADLINE if most is None else self._last_start(most - seconds * 1000 + self._float_error)
        try:
            machine = idle.pop()
        except IndexError:
            machine = new_machine()
        passes = self._ends_at = grants.passes
        passes.begin(machine, settings.plan, deadline)
        self._machine = machine
        self._logs = (late.logger or late.made()).isEnabledFor(DEBUG)
        self._first = seconds
        return machine

    def _last_start(self, left: float) -> int:
        """The last moment at which an attempt may begin, where so many milliseconds are left at the first failure.

        Their part of a millisecond is not told. A later failure that has a greater one is told as the next millisecond,
        so that no attempt is planned past the deadline.
        """
        whole = floor(left)
        self._rounds = max(self._float_error, 1.0 - (left - whole) - self._float_error)
        if self._origin + whole < 0:  # (before which there is no moment)
            self._origin = -whole
        return min(MAX_NUMBER, self._origin + whole)

    def _resumed(self) -> Machine:
        """The machine of a retry that was parked."""
        parked, self._parked = self._parked, 0
        machine = self._machine = resumed(parked)
        return machine

    def _whole(self, seconds: float) -> int:
        """The whole milliseconds from the first failure to so many seconds after the start: never fewer than the
        engine was told before, and at most as many as there are."""
        passed = int((seconds - self._first) * 1000 + self._rounds)
        return min(MAX_NUMBER - self._origin, max(self._last, passed))


class HeldProgress(Progress):
    """A retry that others hold between its attempts, as a loop does. It is closed once nobody holds it any more."""

    __slots__ = ()

    def __del__(self) -> None:
        try:
            if not self._closed:
                self.close(False)  # (the collector may free its machine after this, so it serves no other retry)
        except Exception:
            pass  # it was never begun, or its budget is being freed with it


#: A retry that takes no longer than this does not come to the last moment that there is.
_MOST = MAX_NUMBER // 4
#: In the place of an attempt that failed, and of which nobody asks how.
_FAILED = Outcome()
