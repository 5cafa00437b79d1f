#!/usr/bin/env python3
"""Plays a storm by its rules alone, slowly: `tests/storms.py [OPTION..] FILE` prints what `zsched storm` does with the
same words, with `--json` or `--csv` byte for byte.

It shares nothing with the engine: policies are asked by the definitions of python/tests/reference.py, a function of the
whole list of a request's failures, and the random words come from the generator of the Python package.
"""

from __future__ import annotations

import argparse
import heapq
import json
import runpy
import sys
from dataclasses import dataclass, field
from pathlib import Path
from typing import Any, Dict, Iterator, List, NamedTuple, Optional, Sequence, Set, Tuple

TOP = Path(__file__).resolve().parent.parent
sys.path.insert(0, str(TOP / "python" / "tests"))

import reference  # noqa: E402

seeded = runpy.run_path(str(TOP / "python" / "src" / "hikebox" / "cli" / "seeded.py"))["seeded"]

#: The units of work of a call.
CALL = 100_000
REFUSED, SHED, LATE, SUCCEEDED = 1, 2, 3, 0
MAX_TICKETS = 2**32
#: The last moment that may be played.
MAX_UNTIL = 7_200_000


class Population(NamedTuple):
    """Clients of one kind, who have so many of each hundred requests."""

    share: int
    plan: Any
    #: None for the storm's.
    patience: Optional[int] = None
    #: Whether they draw on what the storm has, and ask its limit.
    is_limited: bool = False


@dataclass
class Storm:
    """The parameters of a storm."""

    plan: Any
    rate: int = 800
    #: Spans with a rate of their own: from when to when, in milliseconds, and so many requests a second.
    rates: List[Tuple[int, int, int]] = field(default_factory=list)
    together: int = 1
    seconds: int = 60
    #: The moment of each request, in the place of the four before.
    arrivals: List[int] = field(default_factory=list)
    capacity: int = 1000
    patience: int = 500
    queue: int = 5000
    replicas: int = 1
    outage: Tuple[int, int] = (10_000, 20_000)
    #: How many replicas refuse calls in the outage; None for all.
    down: Optional[int] = None
    slow: Optional[Tuple[int, int, int]] = None
    window: int = 1000
    until: Optional[int] = None
    calls: int = 16_777_216
    words: int = 0
    budget: Optional[int] = None
    quota: Optional[Tuple[int, int, int]] = None
    limit: Optional[Tuple[str, List[int], bool]] = None
    #: The plan of a breaker's open times.
    open_plan: Any = field(default_factory=lambda: {"spaced": 30_000})
    #: The populations beside the first one, which has the plan and the patience of the storm.
    beside: List[Population] = field(default_factory=list)

    @property
    def populations(self) -> List[Population]:
        """All populations, the first one with the requests that the others leave."""
        left = 100 - sum(population.share for population in self.beside)
        others = [each._replace(patience=self.patience) if each.patience is None else each for each in self.beside]
        return [Population(left, self.plan, self.patience, True), *others]

    def population_of(self, request: int) -> int:
        """Whose request this is: the population's place among all."""
        place = request % 100 * 61 % 100
        for number, population in enumerate(self.beside, 1):
            if place < population.share:
                return number
            place -= population.share
        return 0

    @property
    def has_limit(self) -> bool:
        """Whether there is something to draw on."""
        return any(each is not None for each in (self.budget, self.quota, self.limit))

    @property
    def last(self) -> int:
        """The last moment that is played."""
        if self.until is not None:
            return self.until
        if self.arrivals:
            return min(self.arrivals[-1] + 60_000, MAX_UNTIL)
        return self.seconds * 1000 + 60_000

    def rate_at(self, moment: int) -> int:
        """The requests a second in the millisecond from a moment on."""
        return next((rate for begins, ends, rate in self.rates if begins <= moment < ends), self.rate)

    def moments(self) -> Iterator[int]:
        """The moment at which each request of the storm begins, millisecond by millisecond: a request comes in that in
        which its thousandths begin, and those that come together with the first of them. Moments that are given are
        those of the requests."""
        if self.arrivals:
            yield from self.arrivals
            return
        request = came = begins = 0
        for moment in range(self.seconds * 1000):
            comes = self.rate_at(moment)
            while request * 1000 < came + comes:
                if request % self.together == 0:
                    begins = moment
                yield begins
                request += 1
            came += comes

    def can_be_done(self, moment: int) -> int:
        """The units of work that a replica can have done by a moment."""
        begins, ends, percent = self.slow or (0, 0, 100)
        slowly = max(0, min(moment, ends) - begins)
        return self.capacity * 100 * (moment - slowly) + self.capacity * percent * slowly


class Replica:
    """One queue of the peer, first come first served."""

    def __init__(self, storm: Storm, number: int) -> None:
        self.storm = storm
        self.is_down = storm.down is None or number < storm.down
        #: The unit at which the work taken so far is done.
        self.busy = 0

    def ahead(self, moment: int) -> int:
        """The units of work that stand there."""
        return max(0, self.busy - self.storm.can_be_done(moment))

    def call(self, moment: int, patience: int) -> Tuple[int, int]:
        """When a call that comes at this moment ends, and how."""
        storm = self.storm
        begins, ends = storm.outage
        if self.is_down and begins <= moment < ends:
            return moment, REFUSED
        ahead = self.ahead(moment)
        if ahead > 0 if storm.queue == 0 else ahead >= storm.queue * CALL:
            return moment, SHED
        self.busy = max(self.busy, storm.can_be_done(moment)) + CALL
        gives_up = moment + patience
        if storm.can_be_done(gives_up) < self.busy:
            return gives_up, LATE
        return self._done_at(moment, gives_up), SUCCEEDED

    def _done_at(self, early: int, late: int) -> int:
        """The least moment at which the work is done, known to lie between two."""
        while early < late:
            middle = (early + late) // 2
            if self.storm.can_be_done(middle) >= self.busy:
                late = middle
            else:
                early = middle + 1
        return late


class Tickets:
    """What retries draw on: nothing, a budget or a quota."""

    def __init__(self, storm: Storm) -> None:
        self.budget = storm.budget
        self.quota = storm.quota
        self.given = 0
        self.window = -1
        self.asked_here = 0
        self.given_here = 0

    def _turn_to(self, moment: int) -> None:
        if self.quota is not None and moment // self.quota[2] != self.window:
            self.window = moment // self.quota[2]
            self.asked_here = self.given_here = 0

    def count(self, moment: int) -> None:
        """Counts a request."""
        self._turn_to(moment)
        self.asked_here += 1

    def draw(self, moment: int) -> bool:
        """Whether a retry may be made."""
        self._turn_to(moment)
        if self.budget is not None:
            has = self.given < self.budget
        elif self.quota is not None:
            reserve, share, _ = self.quota
            has = self.given_here < min(reserve + share * self.asked_here // 1000, MAX_TICKETS)
        else:
            return True
        self.given += has
        self.given_here += has
        return has


class Limit:
    """What asks are granted, by a request's number: a bucket, what is in flight, an adaptive limit, a breaker or a
    throttle. None admits and grants all."""

    def admit(self, moment: int, request: int) -> bool:
        return True

    def fail(self, moment: int, request: int) -> None:
        """A call failed."""

    def draw(self, moment: int, request: int, is_late: bool) -> bool:
        return True

    def succeed(self, moment: int, request: int) -> None:
        """A call succeeded."""

    def end(self, request: int) -> None:
        """The request is over."""


class Bucket(Limit):
    """Thousandths of tokens: a capacity, a floor, a retry's cost and that after a late call, a debit and a credit."""

    def __init__(self, numbers: List[int], refunds: bool) -> None:
        self.capacity, self.floor, self.cost, self.late, self.debit, self.credit = numbers
        self.refunds = refunds
        self.level = self.capacity
        self.drew: Dict[int, int] = {}

    def fail(self, moment: int, request: int) -> None:
        self.level = max(0, self.level - self.debit)

    def draw(self, moment: int, request: int, is_late: bool) -> bool:
        cost = self.late if is_late else self.cost
        if self.level < self.floor + cost:
            return False
        self.level -= cost
        self.drew[request] = cost
        return True

    def succeed(self, moment: int, request: int) -> None:
        worth = self.drew[request] if self.refunds and request in self.drew else self.credit
        self.level = min(self.capacity, self.level + worth)


class InFlight(Limit):
    """As many retries at once as a share of the requests at once, or a least number; and requests up to a most, where
    there is one."""

    def __init__(self, numbers: List[int], _refunds: bool) -> None:
        self.least, self.share, *most = numbers
        self.most = most[0] if most else None
        self.requests: Set[int] = set()
        self.slots: Set[int] = set()

    def admit(self, moment: int, request: int) -> bool:
        if len(self.requests) == self.most:
            return False
        self.requests.add(request)
        return True

    def draw(self, moment: int, request: int, is_late: bool) -> bool:
        self.slots.discard(request)
        if len(self.slots) + 1 > max(self.least, self.share * len(self.requests) // 1000):
            return False
        self.slots.add(request)
        return True

    def end(self, request: int) -> None:
        self.slots.discard(request)
        self.requests.discard(request)


class Adaptive(Limit):
    """As many requests at once as a level, in thousandths, which successes raise and failures lower."""

    def __init__(self, numbers: List[int], _refunds: bool) -> None:
        self.least, self.most, first, self.backoff = numbers
        self.level = 1000 * first
        self.inside: Set[int] = set()

    def admit(self, moment: int, request: int) -> bool:
        if 1000 * (len(self.inside) + 1) > self.level:
            return False
        self.inside.add(request)
        return True

    def fail(self, moment: int, request: int) -> None:
        self.level = max(1000 * self.least, self.level * self.backoff // 1000)

    def succeed(self, moment: int, request: int) -> None:
        if 2000 * len(self.inside) >= self.level:
            self.level = min(1000 * self.most, self.level + max(1, 1_000_000 // self.level))

    def end(self, request: int) -> None:
        self.inside.discard(request)


class Breaker(Limit):
    """Open after so many failures in a row, or among so many results, for the first of its open times, then half open
    for some probes."""

    def __init__(self, numbers: List[int], times: List[int]) -> None:
        self.failures, *of, self.probes, self.deadline = numbers
        #: How many results are kept: as many as the failures that open it, where no number is given.
        self.kept = of[0] if of else self.failures
        #: Of each result since it closed whether it is a failure, the latest ones.
        self.results: List[bool] = []
        self.times = times
        self.state, self.generation = "closed", 0
        self.until = self.trip = self.admitted = self.won = self.since = 0
        self.runs: Dict[int, int] = {}

    def _turn(self, state: str) -> None:
        self.state = state
        self.generation += 1
        self.results = []

    def _probe(self, moment: int) -> None:
        self._turn("half open")
        self.admitted, self.won, self.since = 1, 0, moment

    def _asks(self, moment: int) -> bool:
        if self.state == "closed":
            return True
        if self.state == "open":
            if moment < self.until:
                return False
            self._probe(moment)
            return True
        if self.admitted < self.probes:
            self.admitted += 1
            self.since = moment
            return True
        if moment >= self.since + self.deadline:
            self._probe(moment)
            return True
        return False

    def admit(self, moment: int, request: int) -> bool:
        if not self._asks(moment):
            return False
        self.runs[request] = self.generation
        return True

    def draw(self, moment: int, request: int, is_late: bool) -> bool:
        return self.admit(moment, request)

    def _open(self, moment: int, trip: int) -> None:
        self._turn("open")
        self.trip = trip
        self.until = moment + self.times[min(trip, len(self.times)) - 1]

    def fail(self, moment: int, request: int) -> None:
        if self.runs[request] != self.generation:
            return
        if self.state == "half open":
            self._open(moment, self.trip + 1)
        elif self.state == "closed":
            self._keep(True)
            if sum(self.results) == self.failures:
                self._open(moment, 1)

    def succeed(self, moment: int, request: int) -> None:
        if self.runs[request] != self.generation:
            return
        if self.state == "closed":
            self._keep(False)
        elif self.state == "half open":
            self.won += 1
            if self.won == self.probes:
                self._turn("closed")
                self.trip = 0

    def _keep(self, has_failed: bool) -> None:
        self.results = [*self.results, has_failed][-self.kept :]


class Throttle(Limit):
    """Refuses the more, the fewer of the requests of this window and the one before were accepted."""

    def __init__(self, numbers: List[int], words: Iterator[int]) -> None:
        self.ratio, self.period = numbers
        self.words = words
        #: The requests and the accepts of each window.
        self.counts: Dict[int, List[int]] = {}

    def _window(self, moment: int) -> List[int]:
        return self.counts.setdefault(moment // self.period, [0, 0])

    def admit(self, moment: int, request: int) -> bool:
        word, *_ = (next(self.words) for _ in range(4))
        here, before = self._window(moment), self.counts.get(moment // self.period - 1, [0, 0])
        asked, accepted = here[0] + before[0], here[1] + before[1]
        over = 1000 * asked - self.ratio * accepted
        here[0] += 1
        return not (over > 0 and word * (asked + 1) * 1000 < over * 2**32)

    def draw(self, moment: int, request: int, is_late: bool) -> bool:
        return self.admit(moment, request)

    def succeed(self, moment: int, request: int) -> None:
        self._window(moment)[1] += 1


def limit_of(storm: Storm) -> Limit:
    """The limit of a storm, which admits all where there is none."""
    if storm.limit is None:
        return Limit()
    kind, numbers, refunds = storm.limit
    if kind == "grpc":
        tokens, ratio = numbers
        return Bucket([1000 * tokens, 500 * tokens + 1, 0, 0, 1000, ratio], False)
    if kind == "aws":
        return Bucket([500_000, 0, 5000, 10_000, 0, 1000], True)
    if kind == "breaker":
        return Breaker(numbers, open_times(storm.open_plan))
    if kind == "throttle":
        return Throttle(numbers, seeded((storm.words + 1) % 2**64))
    return {"bucket": Bucket, "inflight": InFlight, "adaptive": Adaptive}[kind](numbers, refunds)


def open_times(plan: Any) -> List[int]:
    """For how long a breaker is open, for each trip: the waits of a plan's course."""
    moment = 0
    times: List[int] = []
    events: List[reference.Event] = []
    while len(times) < 64:
        events.append(reference.Event(moment, (0, 0, 0, 0), 0))
        start = reference.answer(plan, events).start
        if start is None:
            break
        times.append(start - moment)
        moment = start
    return times


@dataclass
class Request:
    began: int
    #: Whose it is, as a place among the populations.
    population: int
    failures: List[reference.Event] = field(default_factory=list)
    #: How it ended, or "open".
    ending: str = "open"
    #: From its first call's beginning to its success.
    took: int = 0
    #: The tickets that were given for its retries.
    tickets: int = 0
    #: The moment of the last of its events.
    last_moment: int = 0


class Call(NamedTuple):
    at: int
    is_retry: bool
    population: int


class End(NamedTuple):
    """The end of a call."""

    at: int
    how: int
    population: int


class Course:
    """The events of a storm, one after another."""

    def __init__(self, storm: Storm) -> None:
        self.storm = storm
        self.replicas = [Replica(storm, number) for number in range(storm.replicas)]
        self.populations = storm.populations
        #: What the clients of each population draw on and ask: one and the same for all that are limited.
        limited, free = (Tickets(storm), limit_of(storm)), (Tickets(Storm(storm.plan)), Limit())
        self.draws_on = [limited if population.is_limited else free for population in self.populations]
        self.words: Iterator[int] = seeded(storm.words)
        self.requests: Dict[int, Request] = {}
        self.calls: List[Call] = []
        self.ended: List[End] = []
        #: After each call that was taken: its moment, its replica, and the `busy` of that.
        self.taken: List[Tuple[int, int, int]] = []
        self.is_cut = False
        #: What is pending, by moment and request: a beginning (None), or how a call ends.
        self.pending: List[Tuple[int, int, Optional[int]]] = []

    def play(self) -> None:
        for request, moment in enumerate(self.storm.moments()):
            self._put(moment, request, None)
        while self.pending:
            moment, number, what = heapq.heappop(self.pending)
            if what is None and number not in self.requests and not self._admits(moment, number):
                self.requests[number] = self._request(moment, number, "denied")
                continue
            if what is None and len(self.calls) == self.storm.calls:
                self.is_cut = True
                return
            if what is None:
                self._begin(moment, number)
            else:
                self._end(moment, number, what)
            self.requests[number].last_moment = moment

    def _put(self, moment: int, request: int, what: Optional[int]) -> None:
        if moment <= self.storm.last:
            heapq.heappush(self.pending, (moment, request, what))

    def _admits(self, moment: int, number: int) -> bool:
        _, limit = self.draws_on[self.storm.population_of(number)]
        return limit.admit(moment, number)

    def _request(self, moment: int, number: int, ending: str) -> Request:
        return Request(moment, self.storm.population_of(number), ending=ending, last_moment=moment)

    def _begin(self, moment: int, number: int) -> None:
        is_retry = number in self.requests
        if not is_retry:
            self.requests[number] = self._request(moment, number, "open")
        population = self.requests[number].population
        if not is_retry:
            self.draws_on[population][0].count(moment)
        place = len(self.calls) % self.storm.replicas
        replica = self.replicas[place]
        self.calls.append(Call(moment, is_retry, population))
        before = replica.busy
        patience = self.populations[population].patience
        assert patience is not None
        ends, how = replica.call(moment, patience)
        if replica.busy != before:
            self.taken.append((moment, place, replica.busy))
        self._put(ends, number, how)

    def _end(self, moment: int, number: int, how: int) -> None:
        request = self.requests[number]
        population = self.populations[request.population]
        tickets, limit = self.draws_on[request.population]
        self.ended.append(End(moment, how, request.population))
        if how == SUCCEEDED:
            request.ending, request.took = "won", moment - request.began
            limit.succeed(moment, number)
            limit.end(number)
            return
        limit.fail(moment, number)
        a, b, c, d = (next(self.words) for _ in range(4))
        request.failures.append(reference.Event(moment, (a, b, c, d), how))
        start = reference.answer(population.plan, request.failures).start
        if start is None:
            request.ending = "lost"
        elif not (tickets.draw(moment) and limit.draw(moment, number, how == LATE)):
            request.ending = "denied"
        else:
            request.tickets += population.is_limited and self.storm.has_limit
            self._put(start, number, None)
            return
        limit.end(number)


ROW = ("from", "requests", "won", "retries", "succeeded", "refused", "shed", "late", "waiting")
_COLUMNS = {SUCCEEDED: "succeeded", REFUSED: "refused", SHED: "shed", LATE: "late"}


def rows_of(course: Course, of: Optional[int] = None) -> List[Dict[str, int]]:
    """The lines of the report on all requests, or on those of one population, from the whole course."""
    window = course.storm.window
    requests = requests_of(course, of)
    rows = [dict.fromkeys(ROW, 0) for _ in range(max((one.last_moment for one in requests), default=0) // window + 1)]
    for request in requests:
        rows[request.began // window]["requests"] += 1
        rows[request.began // window]["won"] += request.ending == "won"
    for call in course.calls:
        if of in (None, call.population):
            rows[call.at // window]["retries"] += call.is_retry
    for end in course.ended:
        if of in (None, end.population):
            rows[end.at // window][_COLUMNS[end.how]] += 1
    for index, row in enumerate(rows):
        row["from"] = index * window
    if of is None:
        _count_waiting(course, rows)
    return rows


def requests_of(course: Course, of: Optional[int]) -> List[Request]:
    """All requests, or those of one population."""
    return [request for request in course.requests.values() if of in (None, request.population)]


def _count_waiting(course: Course, rows: List[Dict[str, int]]) -> None:
    """Puts into each line how many calls wait at the peer when its window ends."""
    busy = [0] * course.storm.replicas
    taken = iter([*course.taken, (2**63, 0, 0)])
    at, replica, units = next(taken)
    for row in rows:
        end = row["from"] + course.storm.window
        while at < end:
            busy[replica] = units
            at, replica, units = next(taken)
        row["waiting"] = sum(max(0, unit - course.storm.can_be_done(end)) // CALL for unit in busy)


def totals_of(course: Course, rows: List[Dict[str, int]], of: Optional[int] = None) -> Dict[str, Any]:
    found = requests_of(course, of)
    endings = [request.ending for request in found]
    requests, calls = len(endings), sum(of in (None, call.population) for call in course.calls)
    begun = [row["requests"] + row["retries"] for row in rows]
    took = sorted(request.took for request in found if request.ending == "won")

    def at_percent(percent: int) -> Optional[int]:
        return took[-(-len(took) * percent // 100) - 1] if took else None

    return {
        "requests": requests,
        **{ending: endings.count(ending) for ending in ("won", "lost", "denied", "open")},
        "calls": calls,
        "hundredths": (2 * 100 * calls + requests) // (2 * requests) if requests else 0,
        "most_calls": max(begun),
        "most_from": rows[begun.index(max(begun))]["from"],
        "tickets": sum(request.tickets for request in found),
        "p50": at_percent(50),
        "p99": at_percent(99),
        "slowest": at_percent(100),
        "recovered": recovered(course.storm, rows),
        "cut": course.is_cut,
    }


def recovered(storm: Storm, rows: List[Dict[str, int]]) -> Optional[int]:
    """The first moment of the window from which on at least 99 in 100 of the requests of each window were won."""
    end = max(storm.outage[1], storm.slow[1] if storm.slow else 0)
    for index, row in enumerate(rows):
        later = rows[index:]
        if row["from"] < end or not any(each["requests"] for each in later):
            continue
        if all(each["won"] * 100 >= each["requests"] * 99 for each in later):
            return row["from"]
    return None


class Part(NamedTuple):
    """The report on the requests of one population."""

    share: int
    rows: List[Dict[str, int]]
    totals: Dict[str, Any]


def reports(storm: Storm) -> Tuple[List[Dict[str, int]], Dict[str, Any], List[Part]]:
    """The rows and the totals of a storm, and those of each population where there are several."""
    course = Course(storm)
    course.play()
    rows = rows_of(course)
    parts = []
    for number, population in enumerate(storm.populations if storm.beside else []):
        own = rows_of(course, number)
        parts.append(Part(population.share, own, totals_of(course, own, number)))
    return rows, totals_of(course, rows), parts


def report(storm: Storm) -> Tuple[List[Dict[str, int]], Dict[str, Any]]:
    """The rows and the totals of a storm."""
    rows, totals, _ = reports(storm)
    return rows, totals


def json_text(
    rows: List[Dict[str, int]], totals: Dict[str, Any], parts: Sequence[Part] = (), arrivals: Sequence[int] = ()
) -> str:
    value = _json_value(rows, totals)
    if parts:
        value["populations"] = [{"share": part.share, **_json_value(part.rows, part.totals)} for part in parts]
    if arrivals:
        value["arrivals"] = len(arrivals)
    return json.dumps(value, separators=(",", ":")) + "\n"


def _json_value(rows: List[Dict[str, int]], totals: Dict[str, Any]) -> Dict[str, Any]:
    return {"windows": [[row[name] for name in ROW] for row in rows], "totals": totals}


def csv_text(rows: List[Dict[str, int]]) -> str:
    lines = [",".join(ROW), *(",".join(str(row[name]) for name in ROW) for row in rows)]
    return "\n".join(lines) + "\n"


def _span(text: str) -> Tuple[int, int]:
    begins, ends = text.split("..")
    return int(begins), int(ends)


def _slow(text: str) -> Tuple[int, int, int]:
    span, percent = text.split("@")
    return (*_span(span), int(percent))


def _rates(text: str) -> List[Tuple[int, int, int]]:
    return [_slow(word) for word in text.split(",")]


def _quota(text: str) -> Tuple[int, int, int]:
    reserve, share, period = text.split("/")
    return int(reserve), int(share), int(period)


def _limit(text: str) -> Tuple[str, List[int], bool]:
    kind, _, numbers = text.partition(":")
    numbers, _, refund = numbers.partition("+")
    return kind, [int(number) for number in numbers.split("/") if number], refund == "refund"


def _plan(path: str) -> Any:
    return json.loads(Path(path).read_text())


def _arrivals(path: str) -> List[int]:
    return [int(line) for line in Path(path).read_text().splitlines()]


def _beside(text: str) -> Population:
    words, _, path = text.partition("=")
    words, _, limited = words.partition("+")
    share, _, patience = words.partition("@")
    return Population(int(share), _plan(path), int(patience) if patience else None, limited == "limited")


NUMBERS = (
    "rate",
    "together",
    "seconds",
    "capacity",
    "patience",
    "queue",
    "replicas",
    "down",
    "window",
    "until",
    "calls",
    "words",
    "budget",
)
READERS = {
    "rates": _rates,
    "arrivals": _arrivals,
    "outage": _span,
    "slow": _slow,
    "quota": _quota,
    "limit": _limit,
    "open": _plan,
}


def main() -> int:
    parser = argparse.ArgumentParser(description="Plays a storm by its rules alone; the ranges are not looked at.")
    for name in NUMBERS:
        parser.add_argument(f"--{name}", type=int)
    for name, reader in READERS.items():
        parser.add_argument(f"--{name}", type=reader)
    parser.add_argument("--beside", type=_beside, action="append")
    parser.add_argument("--csv", action="store_true")
    parser.add_argument("--json", action="store_true")
    parser.add_argument("file")
    given = parser.parse_args()
    plan = json.loads(sys.stdin.read() if given.file == "-" else Path(given.file).read_text())
    named = {name: getattr(given, name) for name in (*NUMBERS, *READERS, "beside")}
    named["open_plan"] = named.pop("open")
    storm = Storm(plan, **{name: value for name, value in named.items() if value is not None})
    rows, totals, parts = reports(storm)
    if given.csv:
        sys.stdout.write(csv_text(rows))
    elif given.json:
        sys.stdout.write(json_text(rows, totals, parts, storm.arrivals))
    else:
        for name, value in totals.items():
            print(f"{name} {value}")
    if totals["cut"]:
        print("zsched: not finished", file=sys.stderr)
        return 6
    return 0


if __name__ == "__main__":
    sys.exit(main())
