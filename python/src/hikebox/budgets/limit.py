"""What all limits are."""

from typing import ClassVar

__all__ = ["Limit"]


class Limit:
    """What bounds the retries of all calls together. Pass one as `limit` wherever you make a retry.

    A `Budget` and a `Quota` grant a ticket for each retry, and so do the leased ones of `hikebox.leased`, which
    processes share. A `CallLimit`, such as a `Breaker`, is also asked before the first attempt.
    """

    __slots__ = ()

    # (whether it is a `CallLimit`, and whether it has a limit for each key)
    IS_ASKED: ClassVar[bool] = False
    HAS_KEYS: ClassVar[bool] = False
