"""Budgets and quotas that processes and machines share: tickets in ranges from a store that counts.

>>> import tempfile
>>> from hikebox import recurs, retry
>>> folder = tempfile.TemporaryDirectory()
>>> store = FileStore(folder.name + "/budgets")
>>> budget = Leased(store, "nightly", limit=1000)
>>> @retry(recurs(3), limit=budget)
... def fetch():
...     return "fetched"
>>> fetch()
'fetched'
>>> budget.draw()
<Ticket 0>
>>> quota = LeasedQuota(store, "payments", reserve=100, share=0.2, per=10)
>>> @retry(recurs(3), limit=quota)
... def pay():
...     return "paid"
>>> pay()
'paid'
>>> folder.cleanup()

A store counts the tickets that were leased. A process leases a range, by one atomic step of the store, and only then
draws from it, by a leased pass of the engine. So each ticket is in one lease, and is drawn once. What is left of a
lease when its process ends is lost.
"""

from .file_store import FileStore
from .leased import Leased, LeasedQuota
from .paced import LeasedPace, PaceStore
from .redis_store import RedisStore
from .stores import QuotaRange, QuotaStore, Range, Store, Taken

__all__ = [
    "FileStore",
    "Leased",
    "LeasedPace",
    "LeasedQuota",
    "PaceStore",
    "QuotaRange",
    "QuotaStore",
    "Range",
    "RedisStore",
    "Store",
    "Taken",
]
