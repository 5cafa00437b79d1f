"""The package's own exceptions. A retry that fails raises the call's last exception, or if it has none one of these."""

from __future__ import annotations

import enum
from typing import TYPE_CHECKING, Any, Optional

if TYPE_CHECKING:
    from .budgets.tickets import Refusal

__all__ = [
    "AttemptTimeout",
    "LimitClosed",
    "LimitError",
    "LimitInUse",
    "EngineError",
    "Fault",
    "HikeboxError",
    "NotAdmitted",
    "PolicyError",
    "ResultRefused",
    "StoreError",
    "StoreLost",
    "StormError",
    "TermsError",
    "TicketError",
    "TooSoon",
    "TryAgain",
]


def shown(value: object) -> str:
    """A value as an error shows it: Python spells no number of thousands of digits, from 3.11 and 3.9.14 on.

    >>> shown(5)
    '5'
    """
    try:
        return repr(value)
    except ValueError:
        return "a number of too many digits"


class HikeboxError(Exception):
    """The base of all errors of this package."""

    #: Whether a pace raised it in the place of a call that did not begin: a limit is not told of a failure then.
    is_of_pace = False


class Fault(enum.Enum):
    """What is wrong with a policy, in the words of `zsched plan`."""

    NOT_JSON = "not JSON"
    NOT_A_PLAN = "not a plan"
    OUT_OF_RANGE = "number out of range"
    TOO_DEEP = "too deep"
    TOO_MANY = "too many nodes"


class PolicyError(HikeboxError, ValueError):
    """A policy is invalid.

    `fault` says what is wrong. `place` says where: a node such as `meet[1].cap[1]`, `line 2, column 7` of a text that
    is not JSON, or nothing if it is the whole policy. `hint` says what was expected there and what was found, or why
    the text is not JSON, in the words of `zsched check`.

    >>> from hikebox import Policy
    >>> Policy.from_dict({"meet": ["forever", {"recur": 3}]})
    Traceback (most recent call last):
    ...
    hikebox.errors.PolicyError: not a plan: meet[1]: no node is called "recur"; did you mean "recurs"?
    """

    def __init__(self, fault: Fault, place: str = "", hint: str = "") -> None:
        super().__init__(": ".join(part for part in (fault.value, place, hint) if part))
        self.fault = fault
        self.place = place
        self.hint = hint

    def __reduce__(self) -> Any:
        return (type(self), (self.fault, self.place, self.hint), self.__dict__)


class LimitError(HikeboxError):
    """A call of a limit failed."""


class TermsError(LimitError, ValueError):
    """A parameter of a limit is out of range."""


class TicketError(LimitError, ValueError):
    """A ticket can't be handed back: it came back already, is of another quota, or is of a budget."""


class LimitClosed(LimitError):
    """The budget, or the quota, was closed."""


class LimitInUse(LimitError):
    """The budget, or the quota, can't be closed: a retry under it is still under way."""


class StoreError(HikeboxError):
    """A store of leases could not be reached, or could not answer."""


class StoreLost(StoreError):
    """A store of leases has lost its count, or may have: it grants nothing until its count begins again."""


class StormError(HikeboxError, ValueError):
    """A parameter of a storm is out of range. `name` is its name."""

    def __init__(self, name: str, hint: str) -> None:
        super().__init__(f"{name}: {hint}")
        self.name = name
        self.hint = hint

    def __reduce__(self) -> Any:
        return (type(self), (self.name, self.hint), self.__dict__)


class EngineError(HikeboxError, RuntimeError):
    """The engine returned a status that a correct call never gets. `status` is its number in `hikebox.h`."""

    def __init__(self, call: str, status: int) -> None:
        super().__init__(f"{call} answered status {status}")
        self.call = call
        self.status = status

    def __reduce__(self) -> Any:
        return (type(self), (self.call, self.status), self.__dict__)


class NotAdmitted(HikeboxError):
    """A limit did not admit a call, so its first attempt was not made. `refusal` says why, and when to try again: at
    its `again_at`, by `limit.clock()`, where that is known."""

    def __init__(self, refusal: Refusal) -> None:
        super().__init__(f"the call was not admitted: {refusal.reason.value}")
        self.refusal = refusal

    def __reduce__(self) -> Any:
        return (type(self), (self.refusal,), self.__dict__)


class TooSoon(LimitError):
    """A call would have to wait for its pace longer than it may, so it did not begin.

    `wait` is the number of seconds that it would have to wait, and `longest` the number that it may: the pace's
    `longest`, or what its retry's deadline leaves. `again_at` is the first moment, in seconds by the pace's clock, at
    which the pace grants it if no other call comes before; None if it would pass the deadline. This is no failure of
    the peer: the `limit` of a retry does not count it.
    """

    is_of_pace = True

    def __init__(self, wait: float, longest: float, again_at: Optional[float] = None) -> None:
        if again_at is None:
            text = f"the pace asks for a wait of {wait:.3f} s, and the deadline leaves {longest:.3f} s"
        else:
            text = f"expected a wait of at most {longest:.3f} s for the pace, got one of {wait:.3f} s"
        super().__init__(text)
        self.wait = wait
        self.longest = longest
        self.again_at = again_at

    def __reduce__(self) -> Any:
        return (type(self), (self.wait, self.longest, self.again_at), self.__dict__)


class TryAgain(HikeboxError):
    """Raise it in a call to have it retried, whatever `on` says."""


class AttemptTimeout(HikeboxError, TimeoutError):
    """An attempt took longer than `attempt_timeout`, and was cancelled; or longer than `hedge_after`, and goes on."""


class ResultRefused(HikeboxError):
    """The last call gave a result that `on_result` does not accept. `result` is that result."""

    def __init__(self, result: Optional[Any] = None) -> None:
        super().__init__(f"the last result was not accepted: {result!r}")
        self.result = result

    def __reduce__(self) -> Any:
        return (type(self), (self.result,), self.__dict__)
