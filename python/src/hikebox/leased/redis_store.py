"""A store of leases in a Redis server."""

from __future__ import annotations

import hashlib
import math
from typing import Any, Callable, Dict, Optional, Tuple

from .._engine.calls import MAX_TICKETS
from .._forks import begins_anew_in_a_child
from ..budgets.terms import Terms
from ..errors import StoreError, StoreLost, TermsError
from ..pace import PaceTerms
from .stores import Present, QuotaRange, Range, Taken, present_window

__all__ = ["GRANT", "RedisStore"]

#: What a count in Redis begins at, so that one that was lost, and began anew at 0, is seen.
_BASE = 2**52
#: The most microseconds of a burst: what is due stays below 2^53, which a script counts exactly.
_MOST_MICROS = 2**52

#: Begins a budget: KEYS[1] is its count, beside which stands the name of the server's start; ARGV[1] is the first
#: count.
BEGIN = """
local server = string.match(redis.call('INFO', 'server'), 'run_id:(%x+)')
return redis.call('MSET', KEYS[1], ARGV[1], KEYS[1] .. ':server', server)
"""

#: A lease of a budget without windows: KEYS[1] as above; ARGV are the tickets wanted and the limit. It answers the
#: count before, or a number of `_LOST`. On a server that keeps each write it is without its second part.
TAKE = (
    f"""
local counted, server = redis.call('GET', KEYS[1]), redis.call('GET', KEYS[1] .. ':server')
local given = (tonumber(counted) or 0) - {_BASE}
if given < 0 or not server then
  return -1
end
""",
    """
if not string.find(redis.call('INFO', 'server'), 'run_id:' .. server, 1, true) then
  return -2
end
""",
    """
local tickets = math.min(tonumber(ARGV[1]), ARGV[2] - given)
if tickets > 0 then
  redis.call('INCRBY', KEYS[1], string.format('%.0f', tickets))
end
return given
""",
)

#: The present window, whose length in microseconds is `period`: `micros`, the server's time; `number`, its number; and
#: `is_whole`, whether the server was started before it, and up to two seconds later than INFO says.
WINDOW = """
local now, info = redis.call('TIME'), redis.call('INFO', 'server')
local micros = now[1] * 1000000 + now[2]
local number = (micros - micros % period) / period
local is_whole = number * period >= micros - (string.match(info, 'uptime_in_seconds:(%d+)') - 2) * 1000000
"""

#: A lease of a budget by windows: KEYS[1] is its name; ARGV are the window's length, the tickets wanted, the limit, and
#: the milliseconds that the window's key is kept. It answers the server's time and the count before, -1 where the
#: window is not whole.
TAKE_OF_WINDOW = f"""
local period = ARGV[1]
{WINDOW}
if not is_whole then
  return {{micros, -1}}
end
local key = KEYS[1] .. ':' .. string.format('%.0f', number)
local given = redis.call('INCRBY', key, ARGV[2]) - ARGV[2]
local surplus = math.min(tonumber(ARGV[2]), given + ARGV[2] - ARGV[3])
if surplus > 0 then
  redis.call('DECRBY', key, string.format('%.0f', surplus))
end
if given == 0 then
  redis.call('PEXPIRE', key, ARGV[4])
end
return {{micros, given}}
"""

#: What a script begins with that goes on in one window and one start of the server: ARGV[7] to ARGV[9] are the window's
#: length, its number, and the start's name. Otherwise it answers the server's time, and the name of its start where the
#: present window is whole.
IN_WINDOW = f"""
local period = ARGV[7]
{WINDOW}
if number ~= tonumber(ARGV[8]) or not string.find(info, 'run_id:' .. ARGV[9], 1, true) then
  return {{micros, is_whole and string.match(info, 'run_id:(%x+)')}}
end
"""

#: Counts requests of a quota's window and grants tickets of it: KEYS[1] is the window; ARGV are the requests, the
#: tickets wanted, the reserve, the share, the most of both, and the milliseconds that the key is kept. Its numbers are
#: exact, as they stay below 2^53.
GRANT = """
local asked = redis.call('HINCRBY', KEYS[1], 'asked', ARGV[1])
local given = tonumber(redis.call('HGET', KEYS[1], 'given') or '0')
local most = tonumber(ARGV[5])
local shares = tonumber(ARGV[4]) * math.min(asked, most)
local allowed = math.min(tonumber(ARGV[3]) + (shares - shares % 1000) / 1000, most)
local tickets = math.max(0, math.min(tonumber(ARGV[2]), allowed - given))
redis.call('HINCRBY', KEYS[1], 'given', string.format('%d', tickets))
redis.call('PEXPIRE', KEYS[1], ARGV[6])
return {given, tickets, asked}
"""


#: A call asks a pace when it may begin: KEYS[1] is what is due, in microseconds of the server's clock; ARGV are the
#: microseconds a call, the burst, the longest wait, the cost, and the milliseconds that the key is kept. It answers the
#: milliseconds of the server's clock, what was due before, whether it is granted, the moment, and what is due then. Its
#: numbers are exact, as they stay below 2^53.
PACE = """
local time = redis.call('TIME')
local each, burst, longest, cost = tonumber(ARGV[1]), tonumber(ARGV[2]), tonumber(ARGV[3]), tonumber(ARGV[4])
local now = time[1] * 1000 + math.floor(time[2] / 1000)
local before = tonumber(redis.call('GET', KEYS[1]) or '0')
local due = math.max(before, now * 1000) + cost * each
local at = math.ceil(math.max(now * 1000, due - burst * each) / 1000)
local function text(number) return string.format('%.0f', number) end
if at - now > longest then
  return {text(now), text(before), 0, text(at - longest), text(before)}
end
redis.call('SET', KEYS[1], text(due), 'PX', ARGV[5])
return {text(now), text(before), 1, text(at), text(due)}
"""

#: A call that took a moment does not begin: ARGV are what was due then and what is due without it, and the milliseconds
#: that the key is kept.
GIVE_BACK = """
if redis.call('GET', KEYS[1]) == ARGV[1] then
  redis.call('SET', KEYS[1], ARGV[2], 'PX', ARGV[3])
end
"""

#: How many windows of a quota may end in a row while the store asks for them.
_TRIES = 3
#: How many quotas have a window that is known.
_MOST_WINDOWS = 1024


class _Script:
    """A script: its text, and the digest by which a server runs it that has it."""

    __slots__ = ("text", "digest")

    def __init__(self, text: str) -> None:
        self.text = text
        self.digest = hashlib.sha1(text.encode()).hexdigest().encode()

    def by(self, send: Callable[..., Any], *words: Any) -> Any:
        """What it answers to these keys and arguments, before which their number stands. A server that lacks it does
        nothing, and is sent its text."""
        try:
            return send("EVALSHA", self.digest, *words)
        except Exception as error:
            if type(error).__name__ != "NoScriptError":  # (of `redis`, or of a library that is like it)
                raise
        return send("EVAL", self.text, *words)


class RedisStore:
    """Counts in a Redis server, for the processes of many machines: each lease is one atomic step, a script.

    Pass a client of the `redis` library, with a `socket_timeout`. Only the server's clock counts, for windows too.

    Begin a budget without a period once, by `begin`. It grants nothing (`StoreLost`) if its count is missing, or if the
    server was restarted, since its last writes may be lost. With `durable` it goes on after a restart; say that only of
    a server with `appendonly yes` and `appendfsync always`. A window of a budget or a quota that began before the
    restart grants nothing. The store can't notice a failover to a replica that lags, a server's clock that is set back,
    or someone else who writes to its keys.
    """

    def __init__(self, client: Any, *, prefix: str = "hikebox", durable: bool = False) -> None:
        self.client = _checked_client(client)
        self.prefix = prefix
        self.durable = durable
        take = TAKE[0] + TAKE[2] if durable else "".join(TAKE)
        scripts = map(_Script, (BEGIN, take, TAKE_OF_WINDOW, IN_WINDOW + GRANT, PACE, GIVE_BACK))
        self._begin, self._take, self._take_of_window, self._grant, self._pace, self._give_back = scripts
        self.begin_anew()
        begins_anew_in_a_child(self)

    def begin_anew(self) -> None:
        """Knows no window yet, as in a forked child, which may have a clock of its own."""
        #: Of quotas, by name and period: the latest window, by which clock, and the name of the server's start.
        self._windows: Dict[Tuple[str, int], Tuple[Present, Any, Any]] = {}

    def __repr__(self) -> str:
        return f"RedisStore({self.client!r})"

    def begin(self, name: str) -> None:
        """Begins a budget of this name with no ticket leased. Call it once for each budget, in one process."""
        with _errors:
            self._begin.by(self.client.execute_command, 1, self._key(name), _BASE)

    def forget(self, name: str) -> None:
        """Takes a budget away: from then on it grants nothing."""
        with _errors:
            self.client.delete(self._key(name), self._key(name) + ":server")

    def take(self, name: str, count: int, limit: int, period: Optional[int], clock: Callable[[], float]) -> Range:
        """A range of this name's tickets, or of its present window's."""
        with _errors:
            send = self.client.execute_command
            if period is None:
                # (bytes, which a client packs as they are)
                given = self._take.by(send, b"1", self._key(name).encode(), b"%d" % count, b"%d" % limit)
                return Range(*_leased(given, name, count, limit), None)
            before, key = clock(), f"{self._key(name)}:{period}"
            found = self._take_of_window.by(send, 1, key, period * 1000, count, limit, 2 * period)
            if not isinstance(found, list) or len(found) != 2:
                raise StoreError(f"Redis: expected its time and a count of tickets, got {found!r}")
            micros, given = found
            present = _present(micros, period, before, clock())
            if given == -1:
                return Range(0, 0, present.until, present.number, lost=True)
            return Range(*_leased(given, name, count, limit), present.until, present.number)

    def take_of_quota(
        self, name: str, terms: Terms, count: int, asked: Callable[[float], int], clock: Callable[[], float]
    ) -> QuotaRange:
        """Adds requests to the present window of this name's quota, and takes a range of its tickets."""
        period, told = terms.period, None
        present, by, server = self._windows.get((name, period), (_NONE, clock, ""))
        with _errors:
            for _ in range(_TRIES):
                before = clock()
                if by != clock or before >= present.until:
                    present = _NONE
                elif told is None:
                    told = asked(present.began_by)
                key = f"{self._key(name)}:quota:{period}:{present.number}"
                wanted = (told or 0, count, terms.reserve, terms.share, MAX_TICKETS, 2 * period)
                found = self._grant.by(self._once, 1, key, *wanted, period * 1000, present.number, server)
                if not isinstance(found, list) or len(found) != 2:
                    given, tickets, requests = _granted(found, terms, count)
                    return QuotaRange(given, tickets, present.until, present.number, requests)
                micros, server = found
                present, by = _present(micros, period, before, clock()), clock
                if server is None:
                    return QuotaRange(0, 0, present.until, present.number, 0, lost=True)
                if len(self._windows) >= _MOST_WINDOWS:
                    self._windows.clear()
                self._windows[name, period] = present, by, server
                if told is not None:  # of a window that is over
                    told = 0
        raise StoreError(f"Redis: windows of {period} ms end before it answers")

    def take_of_pace(self, name: str, terms: PaceTerms, cost: int) -> Taken:
        """Takes the next moment at which a call under this name's pace may begin."""
        key, kept = self._of_pace(name, terms)
        with _errors:
            return _taken(self._pace.by(self._once, 1, key, *terms, cost, kept), terms)

    def give_back_of_pace(self, name: str, terms: PaceTerms, cost: int, mark: int) -> None:
        """Takes it back from a call that does not begin."""
        key, kept = self._of_pace(name, terms)
        with _errors:
            self._give_back.by(self.client.execute_command, 1, key, mark, mark - cost * terms.each, kept)

    def _of_pace(self, name: str, terms: PaceTerms) -> Tuple[str, int]:
        """The key of a pace, and how many milliseconds it is kept: as long as anything may be due."""
        each, burst, longest = terms
        if burst * each > _MOST_MICROS:
            raise TermsError(f"expected calls in at most {_MOST_MICROS // 10**6} s in Redis, got {burst} of {each} us")
        return f"{self._key(name)}:pace:{each}:{burst}:{longest}", burst * each // 1000 + longest + 1000

    def _once(self, *command: Any) -> Any:
        """What the server answers to a command. A client may repeat one to which it got no answer, and would count its
        requests twice. So this one is sent by a connection of the client's pool."""
        pool = self.client.connection_pool
        try:
            connection = pool.get_connection()
        except TypeError:  # before version 5.3 it wants the name of the command
            connection = pool.get_connection(command[0])
        try:
            connection.send_command(*command)
            return connection.read_response()
        except BaseException:
            connection.disconnect()
            raise
        finally:
            pool.release(connection)

    def _key(self, name: str) -> str:
        return f"{self.prefix}:{{{name}}}"


def _checked_client(client: Any) -> Any:
    """A client that answers when it is called, or a `TypeError`."""
    import inspect

    executes, registers = (getattr(client, call, None) for call in ("execute_command", "register_script"))
    if isinstance(client, type) or not (callable(executes) and callable(registers)):
        raise TypeError(f"expected a client such as redis.Redis(..), got {client!r}")
    if inspect.iscoroutinefunction(executes):
        raise TypeError(
            f"expected a client that waits for its answers, redis.Redis(..), got one of asyncio: {client!r}"
        )
    return client


def _present(micros: Any, period: int, before: float, after: float) -> Present:
    """The window of a server's time, which was told between these moments."""
    return present_window(period, before, int(micros) * 1000, after)


#: The window of a quota of which nothing is known: it is over, and no server has it.
_NONE = Present(-1, 0.0, -math.inf)

#: What a script answers in the place of a count that may be lost, and what that means.
_LOST = {
    -1: "Redis has no count of {!r}: begin() makes one",
    -2: "Redis was restarted since {!r} was begun, and may have lost some of its count",
}


def _leased(given: Any, name: str, count: int, limit: int) -> Tuple[int, int]:
    """The tickets given before and those leased, where the script can have answered this."""
    if isinstance(given, int) and given >= 0:
        return given, max(0, min(count, limit - given))
    if isinstance(given, int) and given in _LOST:
        raise StoreLost(_LOST[given].format(name))
    raise StoreError(f"Redis: expected a count of tickets, got {given!r}")


def _granted(found: Any, terms: Terms, count: int) -> Tuple[int, int, int]:
    """The tickets given before, those granted, and the requests, where the script can have answered this."""
    if isinstance(found, list) and len(found) == 3:
        before, tickets, requests = map(int, found)
        most = min(count, max(0, terms.allowed(max(0, requests)) - before))
        if before >= 0 and requests >= 0 and 0 <= tickets <= most:
            return before, tickets, requests
    raise StoreError(f"Redis: expected the count of a window and at most {count} tickets of it, got {found!r}")


def _taken(found: Any, terms: PaceTerms) -> Taken:
    """What a pace answered, where its script can have answered this."""
    if isinstance(found, list) and len(found) == 5:
        now, before, granted, at, due = map(int, found)
        if granted in (0, 1) and 0 <= at - now <= terms.longest * granted + 2**53 * (1 - granted) and before <= due:
            return Taken(granted == 1, at - now, due)
    raise StoreError(f"Redis: expected when a call may begin, got {found!r}")


class _Errors:
    """What the client raises in a block, as a `StoreError`."""

    __slots__ = ()

    def __enter__(self) -> None:
        pass

    def __exit__(self, kind: Any, error: Any, trace: Any) -> None:
        if isinstance(error, Exception) and not isinstance(error, StoreError):
            raise StoreError(f"Redis: {error}") from error


_errors = _Errors()
