"""A limit for each key: for each host, tenant or item."""

from __future__ import annotations

import threading
from collections import OrderedDict
from typing import Any, Callable, Generic, Hashable, Iterator, List, Mapping, Optional, Set, Tuple, TypeVar
from weakref import WeakKeyDictionary, WeakValueDictionary

from .._forks import OfOneProcess, begins_anew_in_a_child
from ..budgets.limit import Limit
from ..errors import TermsError, shown

__all__ = ["PerHost", "PerKey", "look_at_no_keys"]

Made = TypeVar("Made")

#: The ports that a URL need not name.
_PORTS = {"http": 80, "https": 443}


class _Entry(Generic[Made]):
    """A limit that is kept, and what retries under it, for each that retries under its `PerKey`."""

    __slots__ = ("limit", "retrying")

    def __init__(self, limit: Made) -> None:
        self.limit = limit
        self.retrying: WeakKeyDictionary[Any, Any] = WeakKeyDictionary()


class _Making:
    """Who makes the limit of one key: those who wait for it have this, too."""

    __slots__ = ("lock", "__weakref__")

    def __init__(self) -> None:
        self.lock = threading.RLock()


class PerKey(OfOneProcess, Limit, Generic[Made]):
    """A limit for each key, such as a host, a tenant or an item. `per_key[key]` makes it at first, and is the same
    limit from then on, in all threads.

    `make`
        A function of the key that returns a limit. It is called once for each key. Until it returns, neither it nor the
        handler of a signal may need another new limit of this `PerKey`. If it raises, so does the call that needs the
        limit, and the next such call calls it again.
    `key`
        A function of the arguments of a call that returns its key. With it, the `PerKey` can be the `limit` of a retry.
    `most`
        How many limits are kept. Beyond that, the least recently used one is dropped. One that is in use stays the
        limit of its key: while a call under it is under way, a ticket of it is out, or you hold it.

    >>> from hikebox import Quota, recurs, retry
    >>> per_tenant = PerKey(lambda tenant: Quota(reserve=10, share=0.1, per=60), key=lambda tenant, item: tenant)
    >>> @retry(recurs(3), limit=per_tenant)
    ... def fetch(tenant, item):
    ...     return item
    >>> fetch("ours", 7), per_tenant["ours"].seen().asked, len(per_tenant)
    (7, 1, 1)

    A loop, or a retry whose arguments don't determine the key, takes `limit=per_tenant["ours"]`.
    """

    HAS_KEYS = True

    def __init__(
        self, make: Callable[[Any], Made], *, key: Optional[Callable[..., Any]] = None, most: int = 10_000
    ) -> None:
        for name, function in (("make", make), ("key", key)):
            if not callable(function) and (name, function) != ("key", None):
                raise TypeError(f"{name}: expected a function, got {function!r}")
        if isinstance(most, bool) or not isinstance(most, int):
            raise TypeError(f"most: expected a whole number, got {most!r}")
        if most < 1:
            raise TermsError(f"most: expected 1 or more, got {shown(most)}")
        self.make = make
        self.key = key
        self.most = most
        #: Those that are kept, the one that was asked for least recently first.
        self._kept: OrderedDict[Hashable, _Entry[Made]] = OrderedDict()
        #: These, and those that are in use.
        self._limits: WeakValueDictionary[Hashable, Made] = WeakValueDictionary()
        self.begin_anew()
        begins_anew_in_a_child(self)

    def begin_anew(self) -> None:
        """Begins with locks that nobody holds. In a forked child each limit begins anew by itself."""
        #: Taken again by the same thread where a finalizer or the handler of a signal asks for a limit.
        self._lock = threading.RLock()
        self._making: WeakValueDictionary[Hashable, _Making] = WeakValueDictionary()
        #: The threads that call `make` now.
        self._makers: Set[int] = set()

    def __getitem__(self, key: Hashable) -> Made:
        """The limit of this key."""
        return self._entry(key).limit

    def __len__(self) -> int:
        """How many limits there are."""
        return len(self._limits)

    def __iter__(self) -> Iterator[Any]:
        """The keys that have a limit now."""
        return iter([key for key, _ in self.items()])

    def items(self) -> List[Tuple[Any, Made]]:
        """Returns the keys that have a limit now, each with it."""
        with self._lock:
            return list(self._limits.items())

    def retrying_of(self, owner: Any, args: Tuple[Any, ...], kwargs: Mapping[str, Any]) -> Any:
        """What retries a call with these arguments: as this owner does, under the limit of the call's key."""
        assert self.key is not None, "a PerKey without a key is no limit of a retry"
        return self._retrying(owner, self.key(*args, **kwargs))

    def retrying_of_block(self, owner: Any) -> Any:
        """The same for the blocks of a loop, which has no arguments."""
        assert self.key is not None, "a PerKey without a key is no limit of a retry"
        try:
            key = self.key()
        except TypeError:
            if _takes_none(self.key):
                raise
            wanted = "expected the limit of one key, as per_key[..]"
            why = "a loop has no arguments of which its key is a function"
            raise TypeError(f"limit: {wanted}, got {self!r}: {why}") from None
        return self._retrying(owner, key)

    def _retrying(self, owner: Any, key: Hashable) -> Any:
        """What retries as this owner does, under the limit of a key."""
        entry = self._entry(key)
        found = entry.retrying.get(owner)
        if found is None:
            found = owner.copy(limit=entry.limit)
            found.counts = owner.counts
            entry.retrying[owner] = found
        return found

    def _entry(self, key: Hashable) -> _Entry[Made]:
        try:
            hash(key)
        except TypeError:
            raise TypeError(f"key: expected a key that can be hashed, got {key!r}") from None
        found = self._found(key)
        return self._made(key) if found is None else found

    def _found(self, key: Hashable) -> Optional[_Entry[Made]]:
        """What is kept for a key, from now on where its limit is in use."""
        with self._lock:
            entry = self._kept.get(key)
            if entry is not None:
                self._kept.move_to_end(key)
                return entry
            limit = self._limits.get(key)
        return None if limit is None else self._keep(key, limit)

    def _made(self, key: Hashable) -> _Entry[Made]:
        """Makes the limit of a key, where no other thread does meanwhile."""
        thread = threading.get_ident()
        if thread in self._makers:
            raise RuntimeError("make: expected a function that makes a limit, got one that asks for another one")
        with self._lock:
            making = self._making.setdefault(key, _Making())
        with making.lock:
            found = self._found(key)
            if found is not None:
                return found
            try:
                self._makers.add(thread)
                limit = self.make(key)
            finally:
                self._makers.discard(thread)
            if isinstance(limit, (type, PerKey)) or not callable(getattr(limit, "draw", None)):
                raise TypeError(f"make: expected a function that returns a limit, got {limit!r} for {key!r}")
            return self._keep(key, limit)

    def _keep(self, key: Hashable, limit: Made) -> _Entry[Made]:
        """Keeps the limit of a key, and lets go which was asked for least recently."""
        entry, gone = _Entry(limit), []
        with self._lock:
            self._limits[key] = limit
            entry = self._kept.setdefault(key, entry)
            while len(self._kept) > self.most:
                gone.append(self._kept.popitem(last=False))
        return entry

    def __repr__(self) -> str:
        return f"<{type(self).__name__}: {len(self)} limits, of which {self.most} are kept>"


class PerHost(PerKey[Made]):
    """A limit for each host: the `limit` of an adapter for requests, httpx or aiohttp. The key is the host of a
    request's URL, with its port if that is not the scheme's own.

    `make` and `most` are those of a `PerKey`.

    >>> from hikebox import Quota
    >>> per_host = PerHost(lambda host: Quota(reserve=10, share=0.1, per=60))
    >>> per_host.key("https://One.Example/path"), per_host.key("http://one.example:8080")
    ('one.example', 'one.example:8080')
    """

    def __init__(self, make: Callable[[str], Made], *, most: int = 10_000) -> None:
        super().__init__(make, key=_host_of, most=most)


def _host_of(request: Any, *_: Any, **__: Any) -> str:
    """The host that a request asks, or a URL."""
    from urllib.parse import urlsplit  # which others need not load

    url = urlsplit(str(getattr(request, "url", request)))
    host = url.hostname or ""
    if not host:
        raise ValueError(f"expected a URL with a host, got {url.geturl()!r}")
    host = f"[{host}]" if ":" in host else host
    return host if url.port in (None, _PORTS.get(url.scheme)) else f"{host}:{url.port}"


def _takes_none(function: Callable[..., Any]) -> bool:
    """Whether a function may be called without an argument, as far as Python knows."""
    import inspect

    try:
        parameters = inspect.signature(function).parameters.values()
    except (TypeError, ValueError):
        return True
    variable = (inspect.Parameter.VAR_POSITIONAL, inspect.Parameter.VAR_KEYWORD)
    return all(each.kind in variable or each.default is not inspect.Parameter.empty for each in parameters)


def look_at_no_keys(called: str, limit: object, client: str) -> None:
    """Refuses a limit for each key where a client does not say what it calls."""
    if isinstance(limit, PerKey):
        told = f"takes no {type(limit).__name__}: {client} doesn't say what is called; pass the limit of one key"
        raise TypeError(f"{called} {told}")
