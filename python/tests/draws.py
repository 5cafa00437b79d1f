"""Tickets that several threads draw side by side, and what scripts of a Redis server are told of its clock."""

from __future__ import annotations

import threading
from typing import Any, Callable, List, Optional

from hikebox import Refusal, Ticket

#: A server's time, the name of its start, and how long ago it says that that was, in the place of its own.
SCRIPTED = """
local asks = redis.call
local redis = {call = function(name, ...)
  if name == 'TIME' then return {'%d', '%d'} end
  if name == 'INFO' then return 'run_id:%s\\r\\nuptime_in_seconds:%d\\r\\n' end
  return asks(name, ...)
end}
"""


def number(drawn: Any) -> Optional[int]:
    """The number of a ticket in its window, or None of a refusal."""
    assert isinstance(drawn, (Ticket, Refusal)) and bool(drawn) == isinstance(drawn, Ticket)
    return drawn.number if isinstance(drawn, Ticket) else None


def engines_number(drawn: Any) -> Optional[int]:
    """The number of a ticket of a quota as the engine has it, with the window in its upper half."""
    return drawn.window * 2**32 + drawn.number if drawn else None


def repeated(call: Callable[[], object], times: int) -> Callable[[], None]:
    """What makes this call so many times."""

    def calls() -> None:
        for _ in range(times):
            call()

    return calls


def drawn_by(
    count: int,
    draw: Callable[[], Any],
    first: Callable[[], None] = lambda: None,
) -> List[List[int]]:
    """What each of so many threads drew until it was refused.

    Each does ``first`` before, and none draws until all have done it.
    """
    drawn: List[List[int]] = [[] for _ in range(count)]
    ready = threading.Barrier(count)

    def work(mine: List[int]) -> None:
        first()
        ready.wait()
        ticket = draw()
        while ticket:
            mine.append(ticket.number)
            ticket = draw()

    threads = [threading.Thread(target=work, args=(mine,)) for mine in drawn]
    for thread in threads:
        thread.start()
    for thread in threads:
        thread.join()
    return drawn
