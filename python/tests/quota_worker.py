"""A process that counts requests and draws tickets of a leased quota: quota_worker.py JSON OUTPUT.

It writes down at once each ticket with its window, `ticket NUMBER WINDOW`, and what it told the store,
`told REQUESTS WINDOW`; and in the end how many requests it made in each window of the machine's uptime,
`asked REQUESTS WINDOW`. `kill` and `paused` are as of leased_worker.py.
"""

from __future__ import annotations

import json
import os
import signal
import sys
import time
from collections import Counter
from typing import Any, Counter as Counts

from leased_worker import Pauses, goes_on, options_of, store_of

from hikebox.leased import LeasedQuota, QuotaRange


class Noting:
    """A store that notes what it was told, and of which window its last range is."""

    def __init__(self, store: Any, output: int) -> None:
        self.store = store
        self.output = output
        self.window = -1

    def take_of_quota(self, name: str, terms: Any, count: int, asked: Any, clock: Any) -> QuotaRange:
        told = []

        def noted(since: float) -> int:
            told.append(asked(since))
            # before the store hears of it, so that it is written down whatever happens then
            os.write(self.output, f"told {told[0]} -1\n".encode())
            return int(told[0])

        found: QuotaRange = self.store.take_of_quota(name, terms, count, noted, clock)
        if told:
            os.write(self.output, f"told {-told[0]} -1\ntold {told[0]} {found.window}\n".encode())
        if found.tickets:
            self.window = found.window
        return found


def main() -> None:
    how = json.loads(sys.argv[1])
    output = os.open(sys.argv[2], os.O_WRONLY | os.O_CREAT | os.O_APPEND)
    store = Noting(store_of(how), output)
    quota = LeasedQuota(store, how["name"], how["reserve"], how["share"], how["per"], **options_of(how))
    does = goes_on(how)
    most = how["number"] if how.get("kill") == "drawn" else -1
    made: Counts[int] = Counter()
    drawn = 0

    def request() -> None:
        made[int(time.clock_gettime(time.CLOCK_BOOTTIME) * 1000) // int(how["per"] * 1000)] += 1
        quota.deposit()

    for _ in range(how.get("first", 0)):
        request()
    pauses = Pauses(output)
    while does():
        pauses.look()
        for _ in range(how.get("each", 0)):
            request()
        ticket = quota.draw()
        if not ticket:
            if how.get("patient"):
                time.sleep(0.002)
                continue
            break
        os.write(output, f"ticket {ticket.number} {store.window if ticket.number >= 0 else -1}\n".encode())
        drawn += 1
        if drawn == most:
            os.kill(os.getpid(), signal.SIGKILL)
    pauses.look()
    os.write(output, "".join(f"asked {count} {window}\n" for window, count in made.items()).encode())
    assert quota.granted == drawn


if __name__ == "__main__":
    main()
