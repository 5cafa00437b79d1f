"""The options of a `Retrying`: each declared once, with its type, its default, its text and what follows from it."""

from __future__ import annotations

import random as _random
import time
from functools import partial
from typing import (
    TYPE_CHECKING,
    Any,
    Callable,
    Dict,
    NoReturn,
    Optional,
    Protocol,
    Sequence,
    Tuple,
    Type,
    TypeVar,
    Union,
)

from .._functions import look_at_function
from .._time import MAX_NUMBER, Duration, seconds
from ..budget import Budget
from ..budgets.drawing import ByCall
from ..budgets.limit import Limit
from ..budgets.passes import UNLIMITED, Grants
from ..budgets.terms import duration_of
from ..errors import AttemptTimeout, LimitClosed, TermsError, TryAgain, shown
from ..policy import Policy
from ..quota import Quota
from .kinds import hooks_of, parts_of_on, stop_of
from .state import RetryState
from .waits import pause_of, sleep_of

if TYPE_CHECKING:
    from dataclasses import InitVar, dataclass, field
    from datetime import timedelta

    from .settings import Settings
else:
    # (a type checker reads these; nothing is made of them)
    def dataclass(**_):
        return lambda kind: kind

    def field(*, kw_only, metadata):
        return Option(None, metadata["about"])


__all__ = [
    "ABOUT",
    "DEFAULTS",
    "Hook",
    "Hooks",
    "MAX_RETRY_AFTER",
    "On",
    "OPTIONS",
    "Options",
    "PolicyLike",
    "Stop",
    "Tickets",
]

Value = TypeVar("Value")

#: How many seconds `retry_after` and `wait` may ask for by default: six hours.
MAX_RETRY_AFTER = 21600.0

#: A policy, its JSON as text, or its JSON as a dict.
PolicyLike = Union[Policy, str, bytes, Dict[str, Any]]
#: The exceptions to retry: a type, a function of the exception, or a tuple of these.
On = Union[Type[BaseException], Callable[[Any], Any], Tuple[Union[Type[BaseException], Callable[[Any], Any]], ...]]
Hook = Callable[[RetryState], Any]
#: A hook, or several, which are called in turn.
Hooks = Union[Hook, Sequence[Hook], None]


class Tickets(Protocol):
    """What serves as a limit beside the `Limit`s of this package: what has a `draw()`.

    If it has a `draw_async()`, coroutines await that instead of `draw()`. If it has a `deposit()`, each call calls it
    once: at its first attempt, or if `counts_successes` is true at its success.
    """

    def draw(self) -> Any:
        """Returns a ticket, which may be any object, the number 0 too; or None, False or a `Refusal` for none."""


class Event(Protocol):
    """An event of threading, multiprocessing, asyncio or trio."""

    def is_set(self) -> bool:
        """Whether it was set."""


#: What stops a retry: an event that is set, or a function that returns true.
Stop = Union[Event, Callable[[RetryState], bool]]


# What follows from options


def _on_follows(settings: Settings) -> None:
    types, settings.tests = parts_of_on(settings.on, settings.awaits)
    is_timed = settings.attempt_timeout is not None and not settings.repeats
    settings.types = (*types, TryAgain, AttemptTimeout) if is_timed else (*types, TryAgain)


def _attempt_timeout_follows(settings: Settings) -> None:
    settings.attempt_millis = _above_0("attempt_timeout", settings.attempt_timeout)
    if settings.attempt_timeout is not None and not settings.awaits:
        told = "expected a coroutine function: an attempt of a thread can't be ended; bound what it waits for"
        raise TypeError(f"attempt_timeout: {told}, as by a timeout of its client")


def _hedge_after_follows(settings: Settings) -> None:
    settings.hedge_millis = _above_0("hedge_after", settings.hedge_after)
    if settings.hedge_after is None:
        return
    if not settings.awaits:
        raise TypeError("hedge_after: expected a coroutine function: the call of a thread can't be cancelled")
    if settings.repeats:
        raise TypeError("hedge_after: a repeat makes one call after the other; expected an AsyncRetrying")
    if settings.attempt_millis is not None and (settings.hedge_millis or 0) > settings.attempt_millis:
        most = f"attempt_timeout, {shown(settings.attempt_timeout)}"
        raise TermsError(f"hedge_after: expected at most {most}, got {shown(settings.hedge_after)}")


def _above_0(name: str, duration: Optional[Duration]) -> Optional[int]:
    """The milliseconds of a time, which may not be 0, or a `TermsError`."""
    millis = None if duration is None else duration_of(name, duration)
    if millis == 0:
        raise TermsError(f"{name}: expected a time above 0, got {duration!r}")
    return millis


def _hooks_follow(settings: Settings) -> None:
    awaits = settings.awaits
    settings.hooks_before = hooks_of("before", settings.before, awaits)
    settings.hooks_after = hooks_of("after", settings.after, awaits)
    settings.hooks_before_sleep = hooks_of("before_sleep", settings.before_sleep, awaits)
    settings.hooks_on_success = hooks_of("on_success", settings.on_success, awaits)


def _most_wait_follows(settings: Settings) -> None:
    most = settings.max_retry_after
    if most is None:
        settings.most_wait = float(MAX_NUMBER)
    elif isinstance(most, bool) or not isinstance(most, (int, float)) or not most >= 0:
        raise TypeError(f"max_retry_after: expected a number of seconds, or None, got {shown(most)}")
    else:
        settings.most_wait = float(min(most, MAX_NUMBER))


def _deadline_follows(settings: Settings) -> None:
    settings.deadline_millis = None if settings.deadline is None else seconds(settings.deadline, "deadline")


def _slow_follows(settings: Settings) -> None:
    settings.slow_millis = _above_0("slow", settings.slow)
    limit = settings.limit
    if settings.slow is not None and not (isinstance(limit, Limit) and (limit.IS_ASKED or limit.HAS_KEYS)):
        wanted = "expected a limit that hears how calls end, such as a Breaker or a Bucket, beside it"
        raise TypeError(f"slow: {wanted}, got limit={limit!r}")


def _waits_follow(settings: Settings) -> None:
    settings.is_stopped = stop_of(settings.stop, settings.awaits)
    settings.sleeps = sleep_of(settings.sleep, settings.stop, settings.clock, settings.awaits)
    settings.pause = pause_of(settings.sleep, settings.awaits)


def _drawing_follows(settings: Settings) -> None:
    limit = settings.limit
    settings.per_key = limit if isinstance(limit, Limit) and limit.HAS_KEYS else None
    settings.asks_limit = isinstance(limit, Limit) and limit.IS_ASKED
    settings.grants, settings.drawing = _grants_of(settings, limit)
    settings.deposit, settings.deposit_won = _deposits(limit)
    settings.returns_tickets = bool(getattr(limit, "returns_tickets", False))


def _grants_of(settings: Settings, limit: Any) -> Tuple[Grants, Any]:
    """What grants the engine's retry its tickets, and what makes the drawing of a retry that draws elsewhere."""
    if limit is None:
        return UNLIMITED, None
    if settings.per_key is not None:
        if limit.key is None:
            raise TypeError("limit: expected a PerKey with key=.., or per_key[..], the limit of one key")
        return UNLIMITED, None
    draw = getattr(limit, "draw", None)
    if isinstance(limit, type):
        raise TypeError(f"limit: expected an object, got the class {limit.__name__}")
    if isinstance(limit, (list, tuple)):
        raise TypeError(f"limit: expected one object, got {limit!r}; both(..) makes one of several limits")
    if not callable(draw):
        from ..limits.limit import of_pace

        why = of_pace(limit)
        raise TypeError(f"limit: expected a limit such as a Budget, or something with draw(), got {limit!r}{why}")
    if isinstance(limit, Budget) or (isinstance(limit, Quota) and limit.clock == settings.clock):
        return limit, None
    if settings.asks_limit:
        return UNLIMITED, partial(limit.REQUEST, limit)
    if hasattr(limit, "retry_drawing"):
        return UNLIMITED, partial(limit.retry_drawing, settings.awaits)
    return UNLIMITED, partial(ByCall, getattr(limit, "draw_async", draw) if settings.awaits else draw)


def _deposits(limit: Any) -> Tuple[Optional[Callable[[], Any]], Optional[Callable[[], Any]]]:
    """What counts a request at its first attempt, and what counts it at its success."""
    deposit = getattr(limit, "deposit", None)
    if deposit is None or not getattr(limit, "counts_successes", False):
        return deposit, None
    return None, partial(_deposit_won, deposit)


def _deposit_won(deposit: Callable[[], Any]) -> None:
    """Counts a request that succeeded. Its result is returned even if the quota was closed meanwhile."""
    try:
        deposit()
    except LimitClosed:
        pass


class Option:
    """An option of a `Retrying`, which you can read and not set."""

    __slots__ = ("name", "default", "about", "follows", "looks", "shapes")

    name: str

    def __init__(
        self,
        default: Any,
        about: str,
        follows: Tuple[Callable[[Settings], None], ...] = (),
        looks: Optional[Callable[[str, Any, bool], None]] = None,
        shapes: bool = False,
    ) -> None:
        self.default = default
        self.about = about
        self.follows = follows
        self.looks = looks
        self.shapes = shapes

    def __set_name__(self, owner: Any, name: str) -> None:
        self.name = name

    def __get__(self, retrying: Any, owner: Any = None) -> Any:
        return self if retrying is None else getattr(retrying.settings, self.name)

    def __set__(self, retrying: Any, value: Any) -> NoReturn:
        raise AttributeError(
            f"a {type(retrying).__name__} does not change: make another one by retrying.copy({self.name}=..), "
            f"or a function by fn.retry_with({self.name}=..)"
        )


def option(
    default: Value,
    about: str,
    *follows: Callable[[Settings], None],
    looks: Optional[Callable[[str, Any, bool], None]] = None,
    shapes: bool = False,
) -> Value:
    """Declares an option: its default, its text for `help()`, what works out what follows from it, what checks its
    value (by its name, the value, and whether coroutine functions are awaited), and whether a retry that has it can
    leave out less."""
    declared: Any = Option(default, about, follows, looks, shapes)
    return declared  # type: ignore[no-any-return]


def _plain(name: str, value: Any, awaits: bool) -> None:
    """Refuses what is no function, or a coroutine function, which is not awaited there."""
    look_at_function(name, value, awaits=False)


@dataclass(frozen=True, kw_only=True)
class Options:
    """The options, as attributes of a `Retrying` and as keyword arguments of all that take them. A type checker reads
    the arguments off this class; the text of `help()` is made of it."""

    __slots__ = ()

    policy: InitVar[PolicyLike] = field(
        kw_only=False, metadata={"about": """When to call again: a `Policy`, or its JSON as text or a dict."""}
    )

    limit: Union[Limit, Tickets, None] = option(
        None,
        """What bounds the retries of all calls together: a `Budget`, a `Quota`, a `Breaker` or another `Limit`, or
        other `Tickets`; None for no limit. A quota counts each call as a request. A breaker may refuse a first attempt
        too, which raises a `NotAdmitted`. A `PerKey` bounds the calls of each key by a limit of their own.""",
        _drawing_follows,
        shapes=True,
    )
    slow: Optional[Duration] = option(
        None,
        """How long an attempt may take: seconds, or a `timedelta`. To the `limit`, which is then a breaker, a bucket or
        another `CallLimit`, a success that took longer is a failure. The call returns its result all the same.""",
        _slow_follows,
        shapes=True,
    )
    on: On = option(
        Exception,
        """The exceptions to retry: a type, a function of the exception, or a tuple of these; `Exception` by default.
        Any other exception is raised at once. A function is called for an `Exception`, and never for
        `KeyboardInterrupt`, `SystemExit` or the cancellation of a task: name their types to retry these.""",
        _on_follows,
    )
    on_result: Optional[Callable[[Any], Any]] = option(
        None,
        """A function of the result that returns true if the call is to be retried.""",
        looks=look_at_function,
        shapes=True,
    )
    code: Optional[Callable[[Any], int]] = option(
        None,
        """A function that returns the number by which the policy knows a failure: an exception, or a result that
        `on_result` refused. None stands for `code_of`.""",
        looks=_plain,
    )
    retry_after: Optional[Callable[[Any], Union[None, float, timedelta]]] = option(
        None,
        """A function of the exception that returns how long to wait at least, in seconds or as a `timedelta`, or None,
        as `hikebox.http.retry_after` does. The wait is the longest of this, of `wait` and of the policy's.""",
        looks=_plain,
        shapes=True,
    )
    wait: Optional[Callable[[Any], Union[None, float, timedelta]]] = option(
        None,
        """The same as a function of the `RetryState`.""",
        looks=_plain,
        shapes=True,
    )
    max_retry_after: Optional[float] = option(
        MAX_RETRY_AFTER,
        """The most seconds that `retry_after` and `wait` may ask for; None for any number.""",
        _most_wait_follows,
    )
    deadline: Optional[Duration] = option(
        None,
        """How long after the start of the first attempt another one may still begin: seconds, or a `timedelta`. If the
        next attempt would begin later, the retry ends at once and draws no ticket. If a wait ends too late, the retry
        ends and its ticket comes back. `seconds_left()` tells the call how long it has.""",
        _deadline_follows,
        shapes=True,
    )
    attempt_timeout: Optional[Duration] = option(
        None,
        """How long an attempt of a coroutine function may take, by the clock of asyncio or trio: seconds, or a
        `timedelta`. Then it is cancelled, and has failed with an `AttemptTimeout`, which is retried whatever `on` says.
        The attempt of a thread or of a loop can't be ended, so there it is a `TypeError`.""",
        _attempt_timeout_follows,
        _on_follows,
        _hedge_after_follows,
    )
    hedge_after: Optional[Duration] = option(
        None,
        """Only for calls that may be made twice at once: after how long, by the clock of asyncio or trio, an attempt of
        a coroutine function is late, in seconds or as a `timedelta`. To the policy and the `limit` it has failed then,
        with an `AttemptTimeout`, but it goes on. They say whether and when the next attempt begins beside it. The first
        success is the result; the other attempts are cancelled and awaited. No hook is called when a late attempt
        fails; if all fail, the call raises the last exception. For a function, a loop or a repeat this option is a
        `TypeError`. It may not be longer than `attempt_timeout`.""",
        _attempt_timeout_follows,
        _hedge_after_follows,
    )
    stop: Optional[Stop] = option(
        None,
        """What ends a retry although its policy goes on: an event of threading or multiprocessing, in coroutines also
        of asyncio or trio, which ends a wait too when it is set; or a function of the `RetryState` that returns true,
        called after each failed attempt and each wait.""",
        _waits_follow,
        shapes=True,
    )
    before: Hooks = option(
        None,
        "A function of the `RetryState`, or a list of functions, called before each attempt.",
        _hooks_follow,
        shapes=True,
    )
    after: Hooks = option(None, "The same, called after each attempt that failed.", _hooks_follow, shapes=True)
    before_sleep: Hooks = option(None, "The same, called before each wait.", _hooks_follow, shapes=True)
    on_success: Hooks = option(None, "The same, called when a call has succeeded.", _hooks_follow, shapes=True)
    fallback: Optional[Hook] = option(
        None,
        """A function of the `RetryState` that returns the result when the retry gives up. None raises the last
        exception.""",
        looks=look_at_function,
        shapes=True,
    )
    sleep: Optional[Callable[[float], Any]] = option(
        None,
        """What waits a number of seconds, to be replaced in tests. If it returns too early by `clock`, the retry goes
        on as if it had not. If `stop` is an event, a `sleep` of your own that blocks is called for at most 0.05 s at a
        time.""",
        _waits_follow,
    )
    clock: Callable[[], float] = option(
        time.monotonic,
        """What returns the time in seconds, to be replaced in tests.""",
        _waits_follow,
        _drawing_follows,
        looks=_plain,
        shapes=True,
    )
    random: Callable[[], float] = option(
        _random.random,
        """What returns numbers from 0 up to 1, to be replaced in tests.""",
        looks=_plain,
    )


_DECLARED = {name: each for name, each in vars(Options).items() if isinstance(each, Option)}
#: What `help()` says of each.
ABOUT = "".join(f"`{name}`\n        {each.about}\n    " for name, each in _DECLARED.items())
#: The options beside the policy, by their names in order, and their defaults.
OPTIONS: Dict[str, Option] = {name: each for name, each in _DECLARED.items() if name != "policy"}
DEFAULTS: Dict[str, Any] = {name: each.default for name, each in OPTIONS.items()}
