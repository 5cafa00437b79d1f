"""Retries that a service can trust: ZIO's schedules as plain policies, and budgets that can't be overdrawn.

>>> from hikebox import exponential, recurs, retry
>>> @retry(recurs(5) & exponential(0.1, 2).cap(1), on=(TimeoutError, ConnectionError))
... def fetch():
...     return "fetched"
>>> fetch()
'fetched'

This package calls an engine, `libhikebox.so`, of which these are proved: a policy decides as it is defined, a retry
follows its policy and its budget, and no budget is overdrawn.
"""

from typing import TYPE_CHECKING, Any, List

from ._time import MAX_NUMBER, Duration, Milliseconds, milliseconds
from .budget import Budget
from .budgets.limit import Limit
from .budgets.tickets import Refusal, RefusalReason, Ticket
from .errors import (
    AttemptTimeout,
    LimitClosed,
    LimitError,
    LimitInUse,
    EngineError,
    Fault,
    HikeboxError,
    NotAdmitted,
    PolicyError,
    ResultRefused,
    StoreError,
    StoreLost,
    StormError,
    TermsError,
    TicketError,
    TooSoon,
    TryAgain,
)
from .policy import Policy, Step
from .policy.builders import (
    decorrelated,
    elapsed,
    exponential,
    exponential_milli,
    fibonacci,
    fixed,
    forever,
    from_duration,
    identity,
    linear,
    once,
    recurs,
    spaced,
    stop,
    unfold,
    windowed,
)
from .quota import Quota, Usage
from .retry.deadline import seconds_left
from .retry.state import Ending, Outcome, RetryState, Statistics, code_of, state_of
from .retrying import AsyncRetrying, Attempt, Retrying, Tickets, retry
from .version import VERSION

if TYPE_CHECKING:
    from .built import BuildInfo, build_info
    from .limits import (
        Adaptive,
        Breaker,
        BreakerState,
        Bucket,
        CallLimit,
        InFlight,
        PerHost,
        PerKey,
        Request,
        Throttle,
        both,
    )
    from .log import after_log, before_log, before_sleep_log
    from .pace import Pace
    from .retry.repeating import AsyncRepeating, Repeating, poll_until, repeat
    from .storms.storm import Population, PopulationReport, Storm, StormRow, StormTotals, storm

__version__ = VERSION

#: What is loaded when it is first asked for, and of which module: a program that retries calls may need none of it.
_LATER = {
    "built": "BuildInfo build_info",
    "limits": "Adaptive Breaker BreakerState Bucket CallLimit InFlight PerHost PerKey Request Throttle both limits",
    "log": "after_log before_log before_sleep_log",
    "pace": "Pace pace",
    "retry.repeating": "AsyncRepeating Repeating poll_until repeat",
    "storms.storm": "Population PopulationReport Storm StormRow StormTotals storm",
}


def __getattr__(name: str) -> Any:
    for path, names in _LATER.items():
        if name in names.split():
            module = __import__(f"{__name__}.{path}", fromlist=["__name__"])
            found = globals()[name] = module if name == path else getattr(module, name)
            return found
    raise AttributeError(f"module {__name__!r} has no attribute {name!r}")


def __dir__() -> List[str]:
    return sorted({*globals(), *__all__})


__all__ = [
    "MAX_NUMBER",
    "Adaptive",
    "AsyncRepeating",
    "AsyncRetrying",
    "Attempt",
    "AttemptTimeout",
    "Breaker",
    "BreakerState",
    "Bucket",
    "Budget",
    "BuildInfo",
    "CallLimit",
    "Duration",
    "Ending",
    "EngineError",
    "Fault",
    "HikeboxError",
    "InFlight",
    "Limit",
    "LimitClosed",
    "LimitError",
    "LimitInUse",
    "Milliseconds",
    "NotAdmitted",
    "Outcome",
    "Pace",
    "PerHost",
    "PerKey",
    "Policy",
    "PolicyError",
    "Population",
    "PopulationReport",
    "Quota",
    "Refusal",
    "RefusalReason",
    "Repeating",
    "Request",
    "ResultRefused",
    "RetryState",
    "Retrying",
    "Statistics",
    "Step",
    "StoreError",
    "StoreLost",
    "Storm",
    "StormError",
    "StormRow",
    "StormTotals",
    "TermsError",
    "Throttle",
    "Ticket",
    "TicketError",
    "Tickets",
    "TooSoon",
    "TryAgain",
    "Usage",
    "after_log",
    "before_log",
    "before_sleep_log",
    "both",
    "build_info",
    "code_of",
    "decorrelated",
    "elapsed",
    "exponential",
    "exponential_milli",
    "fibonacci",
    "fixed",
    "forever",
    "from_duration",
    "identity",
    "linear",
    "milliseconds",
    "once",
    "poll_until",
    "recurs",
    "repeat",
    "retry",
    "seconds_left",
    "spaced",
    "state_of",
    "stop",
    "storm",
    "unfold",
    "windowed",
]
