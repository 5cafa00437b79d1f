"""What one `Retrying` has: its options as they were given, and what follows from them."""

from __future__ import annotations

from functools import lru_cache
from typing import TYPE_CHECKING, Any, Callable, Dict, Generic, Iterable, List, Optional, Tuple, Type, TypeVar

from .._time import MAX_NUMBER
from ..budgets.passes import Grants
from ..policy import Policy
from ..policy.plan import Plan
from .deadline import Deadline
from .options import DEFAULTS, OPTIONS, Hook, Options
from .state import RetryState, code_of

__all__ = ["Settings"]

if TYPE_CHECKING:
    from ..limits.limit import Holding

    HasOptions = Options  # whose attributes are those of a Retrying; here they are plain ones
else:
    HasOptions = object


T = TypeVar("T")


class _Once(Generic[T]):
    """An attribute that is computed when it is first read, without a lock. Before Python 3.12 functools has one, for
    which a forked child would wait for ever where another thread held it at the fork."""

    def __init__(self, work: Callable[[Any], T]) -> None:
        self._work = work

    def __get__(self, settings: Any, _: Any) -> T:
        found = settings.__dict__[self._work.__name__] = self._work(settings)
        return found


class Settings(HasOptions):
    """What one `Retrying` has: its options as they were given, and what follows from them. It never changes."""

    policy: Policy
    #: Whether calls are awaited, and with them hooks, tests and sleeps that are coroutines.
    awaits: bool
    #: Whether results are what the policy hears of, and failures end it.
    repeats: bool

    #: The hooks, one after another.
    hooks_before: Tuple[Hook, ...]
    hooks_after: Tuple[Hook, ...]
    hooks_before_sleep: Tuple[Hook, ...]
    hooks_on_success: Tuple[Hook, ...]
    #: The exceptions that are retried by their type, and functions that are asked of other `Exception`s.
    types: Tuple[Type[BaseException], ...]
    tests: Tuple[Callable[[BaseException], Any], ...]
    #: Whether what was given as `stop` says so.
    is_stopped: Optional[Callable[[RetryState], Any]]
    #: What waits, and what lets others go on where there is no wait.
    sleeps: Callable[[float], Any]
    pause: Optional[Callable[[float], Any]]
    #: What the engine's retry draws on by itself. On a quota it draws at moments of that quota's clock, so the retry
    #: goes by the same one.
    grants: Grants
    #: What makes a retry's drawing where the engine's retry does not draw itself, or None: a request of a limit, or a
    #: `Drawing`.
    drawing: Any
    #: Whether what it draws on is a limit that calls ask before their first attempt, and that hears how each ended.
    asks_limit: bool
    #: What has a limit for each call's key. A call is then retried by another one's settings, which have that limit.
    per_key: Any
    #: What counts a request at the first attempt, and what counts it at the success, where the limit counts any.
    deposit: Optional[Callable[[], Any]]
    deposit_won: Optional[Callable[[], Any]]
    #: Whether a call that succeeds after retries hands its last ticket back.
    returns_tickets: bool
    #: The milliseconds past which a success is a failure to the limit.
    slow_millis: Optional[int]
    #: Whether nothing is to be done before a first attempt but to count it or to ask the limit, nor where it succeeds
    #: but to tell that.
    is_quiet: bool
    #: What asks such a limit before such an attempt.
    asks_first: Optional[Callable[[], Holding]]
    #: Whether `retry_after` or `wait` may ask for a longer wait.
    asks: bool
    #: Whether something may take time between a failure and its wait.
    takes_time: bool
    #: Whether it draws on something that may have to be awaited.
    draws_elsewhere: bool
    #: Whether nobody asks for the failure while the retry waits.
    lets_go: bool
    #: How many seconds these may ask for at most.
    most_wait: float
    #: The milliseconds after which an attempt is cancelled.
    attempt_millis: Optional[int]
    #: The milliseconds after which an attempt is late, and another one may begin beside it.
    hedge_millis: Optional[int]
    #: The milliseconds of the deadline.
    deadline_millis: Optional[int]

    def __init__(self, policy: Any, given: Dict[str, Any], awaits: bool = False, repeats: bool = False) -> None:
        """Of these parameters, of which those that are left out have their defaults."""
        own = self.__dict__ = _plain_settings(awaits, repeats).copy()
        own["policy"] = policy if type(policy) is Policy else Policy.of(policy)
        if given:
            own.update(given)
            self._derive([name for name, value in given.items() if value is not DEFAULTS[name]])

    def _derive(self, names: Iterable[str]) -> None:
        """Checks the options of these names, and works out what follows from them."""
        follow: List[Callable[[Settings], None]] = []
        shapes = False
        for name in names:
            option = OPTIONS[name]
            if option.looks is not None:
                option.looks(name, self.__dict__[name], self.awaits)
            follow += option.follows
            shapes = shapes or option.shapes
        # (each once, whatever number of options it follows from)
        for derive in dict.fromkeys(follow):
            derive(self)
        if shapes:
            self._derive_shape()

    def _derive_shape(self) -> None:
        """Works out what a retry can leave out."""
        self.asks = self.retry_after is not None or self.wait is not None
        looks = self.on_result is not None or self.slow_millis is not None
        self.is_quiet = not (self.repeats or self.hooks_before or self.hooks_on_success or looks)
        limit: Any = self.limit
        self.asks_first = None
        if self.asks_limit:
            self.asks_first = limit.look_or_ask if limit.rests else limit.ask
        self.draws_elsewhere = self.drawing is not None and not self.asks_limit
        self.takes_time = bool(self.hooks_after or self.asks or self.draws_elsewhere or self.stop is not None)
        may_end = self.stop is not None or self.deadline_millis is not None
        self.lets_go = not (may_end or self.hooks_before_sleep)

    @_Once
    def plan(self) -> Plan:
        """What the engine has of the policy."""
        return self.policy.plan

    @_Once
    def lanes(self) -> Tuple[int, ...]:
        """The lanes of the policy's jitters."""
        return self.policy.reads[0]

    @_Once
    def reads_codes(self) -> bool:
        """Whether the policy reads codes."""
        return self.policy.reads[1]

    @property
    def given(self) -> Dict[str, Any]:
        """The parameters that are not their defaults, without the policy."""
        return {name: self.__dict__[name] for name, plain in DEFAULTS.items() if self.__dict__[name] is not plain}

    def deadline_from(self, start: float) -> Optional[Deadline]:
        """The deadline of a retry that began then."""
        return None if self.deadline_millis is None else Deadline(self.clock, start + self.deadline_millis / 1000)

    def code_for(self, failure: Any) -> int:
        """The number of an exception, or of a result that is not accepted, as the policy is given it."""
        if self.code is None:
            return code_of(failure)
        number = self.code(failure)
        if isinstance(number, bool) or not isinstance(number, int) or not 0 <= number <= MAX_NUMBER:
            raise ValueError(f"code: expected a whole number from 0 to {MAX_NUMBER}, got {number!r}")
        return number


@lru_cache(maxsize=None)
def _plain_settings(awaits: bool, repeats: bool) -> Dict[str, Any]:
    """What a `Settings` has whose parameters are all left out, but the policy."""
    settings = Settings.__new__(Settings)
    settings.__dict__.update(DEFAULTS, awaits=awaits, repeats=repeats)
    settings._derive(DEFAULTS.keys())
    return settings.__dict__
