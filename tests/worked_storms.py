"""Storms that were worked out by hand."""

from __future__ import annotations

from typing import Any, Dict, List, NamedTuple

#: No outage.
NONE = "0..0"


class Case(NamedTuple):
    name: str
    plan: Any
    options: Dict[str, Any]
    #: What the program prints with --json: its windows, and of its totals those that are named.
    windows: List[List[int]]
    totals: Dict[str, Any]


# The peer does a call a millisecond where nothing else is said.
WORKED = [
    Case(
        "requests at moments that are given: two at each of two moments wait for each other",
        {"recurs": 0},
        {"arrivals": [0, 0, 5, 5, 100], "outage": NONE},
        [[0, 5, 5, 0, 5, 0, 0, 0, 0]],
        {"requests": 5, "won": 5, "calls": 5, "p50": 1, "p99": 2, "slowest": 2, "recovered": 0},
    ),
    Case(
        "of requests at moments that are given those in the outage are lost",
        {"recurs": 0},
        {"arrivals": [0, 0, 5, 5, 100], "outage": "5..100", "window": 50},
        [[0, 4, 2, 0, 2, 2, 0, 0, 0], [50, 0, 0, 0, 0, 0, 0, 0, 0], [100, 1, 1, 0, 1, 0, 0, 0, 0]],
        {"requests": 5, "won": 3, "lost": 2, "most_calls": 4, "most_from": 0, "recovered": 100},
    ),
    Case(
        "a request whose moment is after the end is none of the storm's",
        {"recurs": 0},
        {"arrivals": [0, 400, 401], "until": 400, "outage": NONE},
        [[0, 2, 1, 0, 1, 0, 0, 0, 0]],
        {"requests": 2, "won": 1, "open": 1, "calls": 2},
    ),
    Case(
        "a storm by moments is played until 60 s after the last of them: a retry at 60,001 ms is, one at 61,001 is not",
        {"meet": [{"recurs": 1}, {"spaced": 60_001}]},
        {"arrivals": [0, 1000], "outage": "0..3600000", "window": 3_600_000},
        [[0, 2, 0, 1, 0, 3, 0, 0, 0]],
        {"requests": 2, "lost": 1, "open": 1, "calls": 3},
    ),
    Case(
        "one request",
        {"recurs": 3},
        {"rate": 1, "seconds": 1, "outage": NONE},
        [[0, 1, 1, 0, 1, 0, 0, 0, 0]],
        {"requests": 1, "won": 1, "lost": 0, "denied": 0, "open": 0, "calls": 1, "hundredths": 100, "most_calls": 1}
        | {"most_from": 0, "tickets": 0, "p50": 1, "p99": 1, "slowest": 1, "recovered": 0, "cut": False},
    ),
    Case(
        "two at one moment: the second waits for the first",
        {"recurs": 3},
        {"rate": 2, "together": 2, "seconds": 1, "outage": NONE},
        [[0, 2, 2, 0, 2, 0, 0, 0, 0]],
        {"calls": 2, "p50": 1, "p99": 2, "slowest": 2, "recovered": 0},
    ),
    Case(
        "a queue of one: the call in service counts, and a retry at once finds it there still",
        {"recurs": 1},
        {"rate": 3, "together": 3, "seconds": 1, "queue": 1, "outage": NONE},
        [[0, 3, 1, 2, 1, 0, 4, 0, 0]],
        {"won": 1, "lost": 2, "calls": 5, "hundredths": 167, "p50": 1, "p99": 1, "recovered": None},
    ),
    Case(
        "a queue of none: taken where nothing is ahead",
        {"recurs": 0},
        {"rate": 2, "together": 2, "seconds": 1, "queue": 0, "outage": NONE},
        [[0, 2, 1, 0, 1, 0, 1, 0, 0]],
        {"won": 1, "lost": 1},
    ),
    Case(
        "a call that ends the very millisecond its client gives up succeeds, a millisecond later it is late",
        {"recurs": 0},
        {"rate": 3, "together": 3, "seconds": 1, "patience": 2, "outage": NONE},
        [[0, 3, 2, 0, 2, 0, 0, 1, 0]],
        {"won": 2, "lost": 1, "p50": 1, "p99": 2, "slowest": 2, "recovered": None},
    ),
    Case(
        "what its client gave up is done all the same: the retry waits behind it, and is late too",
        {"recurs": 1},
        {"rate": 1, "seconds": 1, "capacity": 10, "patience": 60, "window": 60, "outage": NONE},
        # Taken at 0 and at 60, each is 100 ms of work, done by 100 and by 200; at the windows' ends less than a call
        # is left.
        [[0, 1, 0, 0, 0, 0, 0, 0, 0], [60, 0, 0, 1, 0, 0, 0, 1, 0], [120, 0, 0, 0, 0, 0, 0, 1, 0]],
        {"lost": 1, "calls": 2, "hundredths": 200, "most_calls": 1, "most_from": 0, "p50": None, "recovered": None},
    ),
    Case(
        "calls go to two replicas in turn: of five the first does three",
        {"recurs": 0},
        {"rate": 5, "together": 5, "seconds": 1, "replicas": 2, "outage": NONE},
        [[0, 5, 5, 0, 5, 0, 0, 0, 0]],
        {"p50": 2, "p99": 3, "slowest": 3},
    ),
    Case(
        "each replica has its queue",
        {"recurs": 0},
        {"rate": 5, "together": 5, "seconds": 1, "queue": 1, "replicas": 2, "outage": NONE},
        [[0, 5, 2, 0, 2, 0, 3, 0, 0]],
        {"slowest": 1},
    ),
    Case(
        "what stands at each of two replicas is rounded down: one and a half call and half a one are one",
        {"recurs": 0},
        {"rate": 3, "together": 3, "seconds": 1, "capacity": 10, "window": 50, "replicas": 2, "outage": NONE},
        [
            [0, 3, 3, 0, 0, 0, 0, 0, 1],
            [50, 0, 0, 0, 0, 0, 0, 0, 1],
            [100, 0, 0, 0, 2, 0, 0, 0, 0],
            [150, 0, 0, 0, 0, 0, 0, 0, 0],
            [200, 0, 0, 0, 1, 0, 0, 0, 0],
        ],
        {"p50": 100, "p99": 200},
    ),
    Case(
        "one of two replicas is down: every second call is refused",
        {"recurs": 0},
        {"rate": 4, "seconds": 1, "replicas": 2, "outage": "0..1000", "down": 1},
        [[0, 4, 2, 0, 2, 2, 0, 0, 0]],
        {"won": 2, "lost": 2},
    ),
    Case(
        "two of three are down: the second retry comes to the third",
        {"recurs": 2},
        {"rate": 3, "together": 3, "seconds": 1, "replicas": 3, "outage": "0..1000", "down": 2},
        [[0, 3, 3, 6, 3, 6, 0, 0, 0]],
        {"won": 3, "calls": 9, "p50": 2, "p99": 3},
    ),
    Case(
        "where nothing is said all replicas are down",
        {"recurs": 0},
        {"rate": 4, "seconds": 1, "replicas": 2, "outage": "0..1000"},
        [[0, 4, 0, 0, 0, 4, 0, 0, 0]],
        {"lost": 4},
    ),
    Case(
        "an outage of no length refuses nothing, and has its end",
        {"recurs": 0},
        {"rate": 2, "seconds": 1, "window": 500, "outage": "500..500"},
        [[0, 1, 1, 0, 1, 0, 0, 0, 0], [500, 1, 1, 0, 1, 0, 0, 0, 0]],
        {"recovered": 500},
    ),
    Case(
        "an outage of a millisecond refuses what comes in it",
        {"meet": [{"recurs": 1}, {"spaced": 1}]},
        {"rate": 2, "seconds": 1, "window": 500, "outage": "500..501"},
        [[0, 1, 1, 0, 1, 0, 0, 0, 0], [500, 1, 1, 1, 1, 1, 0, 0, 0]],
        {
            "won": 2,
            "calls": 3,
            "hundredths": 150,
            "most_calls": 2,
            "most_from": 500,
            "p50": 1,
            "p99": 2,
            "recovered": None,
        },
    ),
    Case(
        "a brown-out that begins in the midst of a call",
        {"recurs": 0},
        {"rate": 2, "together": 2, "seconds": 1, "capacity": 10, "window": 100, "outage": NONE, "slow": "50..200@50"},
        # 1,000 units a millisecond until 50, then 500: 75,000 by 100, 100,000 by 150, 125,000 by 200; then 1,000 again.
        [[0, 2, 2, 0, 0, 0, 0, 0, 1], [100, 0, 0, 0, 1, 0, 0, 0, 0], [200, 0, 0, 0, 1, 0, 0, 0, 0]],
        {"p50": 150, "p99": 275, "slowest": 275, "recovered": None},
    ),
    Case(
        "a quota's window border: a ticket at 0, none more until 100, one at 100",
        {"meet": [{"recurs": 2}, {"spaced": 100}]},
        {"rate": 2, "together": 2, "seconds": 1, "outage": "0..101", "quota": "1/0/100"},
        [[0, 2, 1, 2, 1, 3, 0, 0, 0]],
        {"won": 1, "denied": 1, "calls": 4, "hundredths": 200, "tickets": 2, "p50": 201},
    ),
    Case(
        "a quota's share: the first request fails before the second is counted",
        {"meet": [{"recurs": 1}, {"spaced": 10}]},
        {"rate": 2, "together": 2, "seconds": 1, "outage": "0..10", "quota": "0/500/100"},
        [[0, 2, 1, 1, 1, 2, 0, 0, 0]],
        {"won": 1, "denied": 1, "tickets": 1, "p50": 11},
    ),
    Case(
        "a budget of one",
        {"recurs": 2},
        {"rate": 2, "together": 2, "seconds": 1, "outage": "0..1", "budget": 1},
        [[0, 2, 0, 1, 0, 3, 0, 0, 0]],
        {"lost": 0, "denied": 2, "tickets": 1, "calls": 3, "p50": None, "p99": None, "slowest": None},
    ),
    Case(
        "a plan that is done at once",
        {"recurs": 0},
        {"rate": 1, "seconds": 1, "outage": "0..1"},
        [[0, 1, 0, 0, 0, 1, 0, 0, 0]],
        {"lost": 1, "p50": None, "recovered": None},
    ),
    Case(
        "until in the midst: the third request is none of the storm's, and late retries' tickets stay given",
        {"spaced": 1000},
        {"rate": 1, "seconds": 3, "until": 1500, "outage": "0..2000", "budget": 10},
        [[0, 1, 0, 0, 0, 1, 0, 0, 0], [1000, 1, 0, 1, 0, 2, 0, 0, 0]],
        {"requests": 2, "open": 2, "calls": 3, "hundredths": 150, "most_calls": 2, "most_from": 1000, "tickets": 3},
    ),
    Case(
        "a cut: the first request makes five calls at one moment, and the second had not begun",
        "forever",
        {"rate": 2, "together": 2, "seconds": 1, "calls": 5, "outage": "0..10"},
        [[0, 1, 0, 4, 0, 5, 0, 0, 0]],
        {"requests": 1, "open": 1, "calls": 5, "hundredths": 500, "cut": True},
    ),
    Case(
        "no cut: the call that would be too many lies after until",
        {"spaced": 10},
        {"rate": 1, "seconds": 1, "calls": 2, "until": 15, "outage": "0..100"},
        [[0, 1, 0, 1, 0, 2, 0, 0, 0]],
        {"open": 1, "calls": 2, "cut": False},
    ),
    Case(
        "each failure has its input: shed is 2",
        {"gate": ["input", True, "equal", 2, {"meet": [{"recurs": 1}, {"spaced": 5}]}]},
        {"rate": 2, "together": 2, "seconds": 1, "queue": 0, "outage": NONE},
        [[0, 2, 2, 1, 2, 0, 1, 0, 0]],
        {"p50": 1, "p99": 6},
    ),
    Case(
        "words: the first failure takes the first four of the seed 7, the second the next four",
        # 408,380,677 and 257,245,457 of 2^32: 1,000 x (800 + 400 x 0.09508) / 1,000 = 838, and 823.
        {"jitter": [0, 800, 1200, {"meet": [{"recurs": 1}, {"spaced": 1000}]}]},
        {"rate": 2, "together": 2, "seconds": 1, "outage": "0..1", "words": 7},
        [[0, 2, 2, 2, 2, 2, 0, 0, 0]],
        {"p50": 824, "p99": 839},
    ),
]

WORKED += [
    Case(
        "rates: two a second until 1 s, ten until 1.5 s, none until 2 s, then four",
        {"recurs": 0},
        # 0 and 500; 1000, 1100, .. 1400; 2000, 2250, 2500 and 2750.
        {"rate": 4, "rates": "0..1000@2,1000..1500@10,1500..2000@0", "seconds": 3, "window": 500, "outage": NONE},
        [
            [0, 1, 1, 0, 1, 0, 0, 0, 0],
            [500, 1, 1, 0, 1, 0, 0, 0, 0],
            [1000, 5, 5, 0, 5, 0, 0, 0, 0],
            [1500, 0, 0, 0, 0, 0, 0, 0, 0],
            [2000, 2, 2, 0, 2, 0, 0, 0, 0],
            [2500, 2, 2, 0, 2, 0, 0, 0, 0],
        ],
        {"requests": 11, "won": 11, "most_calls": 5, "most_from": 1000, "recovered": 0},
    ),
    Case(
        "rates: a span between two at the storm's rate, which changes within a request",
        {"recurs": 0},
        # 0 and 500. By 625 1,250 thousandths came: the third is 750 more, which take 187 ms at four a second. By 875
        # 2,250 came: the fourth is 750 more, which take 375 ms at two a second, and the fifth comes at 1750.
        {"rate": 2, "rates": "625..875@4", "seconds": 2, "window": 250, "outage": "812..813"},
        [
            [0, 1, 1, 0, 1, 0, 0, 0, 0],
            [250, 0, 0, 0, 0, 0, 0, 0, 0],
            [500, 1, 1, 0, 1, 0, 0, 0, 0],
            [750, 1, 0, 0, 0, 1, 0, 0, 0],
            [1000, 0, 0, 0, 0, 0, 0, 0, 0],
            [1250, 1, 1, 0, 1, 0, 0, 0, 0],
            [1500, 0, 0, 0, 0, 0, 0, 0, 0],
            [1750, 1, 1, 0, 1, 0, 0, 0, 0],
        ],
        {"requests": 5, "won": 4, "lost": 1},
    ),
    Case(
        "rates: herds of three, the second where the fourth request would come alone",
        {"recurs": 0},
        # 2,000 thousandths by 1 s; 1,000 more take 166 ms at six a second, and 4,000 more 666.
        {"rate": 6, "rates": "0..1000@2", "together": 3, "seconds": 2, "window": 500, "outage": "1666..1667"},
        [
            [0, 3, 3, 0, 3, 0, 0, 0, 0],
            [500, 0, 0, 0, 0, 0, 0, 0, 0],
            [1000, 3, 3, 0, 3, 0, 0, 0, 0],
            [1500, 2, 0, 0, 0, 2, 0, 0, 0],
        ],
        {"requests": 8, "won": 6, "lost": 2},
    ),
    Case(
        "rates: silence until the end is one window with nothing in it",
        {"recurs": 0},
        {"rate": 4, "rates": "0..5000@0", "seconds": 5},
        [[0, 0, 0, 0, 0, 0, 0, 0, 0]],
        {"requests": 0, "calls": 0, "hundredths": 0, "most_calls": 0, "most_from": 0, "p50": None, "recovered": None},
    ),
]


class Part(NamedTuple):
    """What the program prints of a population with --json: its share, its windows, and of its totals those that are
    named."""

    share: int
    windows: List[List[int]]
    totals: Dict[str, Any]


class Beside(NamedTuple):
    """A storm of several populations. The places of its first requests are 0, 61, 22, 83, 44, 5, 66, 27, 88 and 49."""

    name: str
    plan: Any
    #: With the populations beside the first one: the words of --beside before the file, and the plan.
    options: Dict[str, Any]
    windows: List[List[int]]
    parts: List[Part]


RETRY = {"meet": [{"recurs": 1}, {"spaced": 10}]}
EMPTY = [0, 0, 0, 0, 0, 0, 0, 0, 0]

#: Four requests at one moment of an outage, under a breaker that opens at the first failure it hears of.
BREAKER: Dict[str, Any] = {"rate": 4, "together": 4, "seconds": 1, "outage": "0..1", "limit": "breaker:1/1/1000"}

BESIDE = [
    Beside(
        "the second has four of the first ten requests, and gives a call up after 3 ms",
        {"recurs": 0},
        {"rate": 10, "together": 10, "seconds": 1, "outage": NONE, "beside": [("30@3", {"recurs": 0})]},
        # Request r is done at r + 1: of 0, 2, 5 and 7 two are late.
        [[0, 10, 8, 0, 8, 0, 0, 2, 0]],
        [
            Part(70, [[0, 6, 6, 0, 6, 0, 0, 0, 0]], {"won": 6, "calls": 6, "p50": 5, "p99": 10, "recovered": 0}),
            Part(30, [[0, 4, 2, 0, 2, 0, 0, 2, 0]], {"won": 2, "lost": 2, "p50": 1, "p99": 3, "recovered": None}),
        ],
    ),
    Beside(
        "four populations: each has its share of a hundred requests",
        {"recurs": 0},
        {
            "rate": 100,
            "seconds": 1,
            "outage": NONE,
            "window": 100,
            "until": 199,
            "beside": [("10", {"recurs": 0}), ("20", {"recurs": 0}), ("30", {"recurs": 0})],
        },
        [[0, 10, 10, 0, 10, 0, 0, 0, 0], [100, 10, 10, 0, 10, 0, 0, 0, 0]],
        # The places of the next ten requests are 10, 71, 32, 93, 54, 15, 76, 37, 98 and 59.
        [
            Part(40, [[0, 4, 4, 0, 4, 0, 0, 0, 0], [100, 4, 4, 0, 4, 0, 0, 0, 0]], {"requests": 8}),
            Part(10, [[0, 2, 2, 0, 2, 0, 0, 0, 0]], {"requests": 2}),
            Part(20, [[0, 2, 2, 0, 2, 0, 0, 0, 0], [100, 2, 2, 0, 2, 0, 0, 0, 0]], {"requests": 4}),
            Part(30, [[0, 2, 2, 0, 2, 0, 0, 0, 0], [100, 4, 4, 0, 4, 0, 0, 0, 0]], {"requests": 6}),
        ],
    ),
    Beside(
        "a budget of none: the second has a retry all the same, which gives no ticket",
        RETRY,
        {"rate": 2, "together": 2, "seconds": 1, "outage": "0..10", "budget": 0, "beside": [("30", RETRY)]},
        [[0, 2, 1, 1, 1, 2, 0, 0, 0]],
        [
            Part(70, [[0, 1, 0, 0, 0, 1, 0, 0, 0]], {"denied": 1, "calls": 1, "tickets": 0, "p50": None}),
            Part(30, [[0, 1, 1, 1, 1, 1, 0, 0, 0]], {"won": 1, "calls": 2, "tickets": 0, "p50": 11}),
        ],
    ),
    Beside(
        "a budget of one: the second, which is limited too, has the ticket",
        RETRY,
        {"rate": 2, "together": 2, "seconds": 1, "outage": "0..10", "budget": 1, "beside": [("30+limited", RETRY)]},
        [[0, 2, 1, 1, 1, 2, 0, 0, 0]],
        [
            Part(70, [[0, 1, 0, 0, 0, 1, 0, 0, 0]], {"denied": 1, "tickets": 0}),
            Part(30, [[0, 1, 1, 1, 1, 1, 0, 0, 0]], {"won": 1, "tickets": 1}),
        ],
    ),
    Beside(
        "a quota does not count those who do not draw on it: a ticket for the second request of the first population",
        RETRY,
        {"rate": 4, "together": 4, "seconds": 1, "outage": "0..10", "quota": "0/500/1000", "beside": [("30", RETRY)]},
        [[0, 4, 3, 3, 3, 4, 0, 0, 0]],
        [
            Part(70, [[0, 2, 1, 1, 1, 2, 0, 0, 0]], {"won": 1, "denied": 1, "tickets": 1, "p50": 13}),
            Part(30, [[0, 2, 2, 2, 2, 2, 0, 0, 0]], {"won": 2, "tickets": 0, "p50": 11, "p99": 12}),
        ],
    ),
    Beside(
        "a quota counts those who draw on it: tickets for the second and the fourth of all requests",
        RETRY,
        {
            "rate": 4,
            "together": 4,
            "seconds": 1,
            "outage": "0..10",
            "quota": "0/500/1000",
            "beside": [("30+limited", RETRY)],
        },
        [[0, 4, 2, 2, 2, 4, 0, 0, 0]],
        [
            Part(70, [[0, 2, 2, 2, 2, 2, 0, 0, 0]], {"won": 2, "tickets": 2, "p50": 11, "p99": 12}),
            Part(30, [[0, 2, 0, 0, 0, 2, 0, 0, 0]], {"denied": 2, "tickets": 0, "p50": None}),
        ],
    ),
    Beside(
        "a breaker hears nothing of those who do not ask it, and refuses them nothing",
        {"recurs": 0},
        # It opens at the second request, and refuses the fourth.
        {**BREAKER, "beside": [("30", {"recurs": 0})]},
        [[0, 4, 0, 0, 0, 3, 0, 0, 0]],
        [
            Part(70, [[0, 2, 0, 0, 0, 1, 0, 0, 0]], {"lost": 1, "denied": 1, "calls": 1, "hundredths": 50}),
            Part(30, [[0, 2, 0, 0, 0, 2, 0, 0, 0]], {"lost": 2, "denied": 0, "calls": 2}),
        ],
    ),
    Beside(
        "a breaker is opened by those who ask it, whoever they are",
        {"recurs": 0},
        {**BREAKER, "beside": [("30+limited", {"recurs": 0})]},
        [[0, 4, 0, 0, 0, 1, 0, 0, 0]],
        [
            Part(70, [[0, 2, 0, 0, 0, 0, 0, 0, 0]], {"denied": 2, "calls": 0, "hundredths": 0, "most_calls": 2}),
            Part(30, [[0, 2, 0, 0, 0, 1, 0, 0, 0]], {"lost": 1, "denied": 1, "calls": 1}),
        ],
    ),
    Beside(
        "the last window of each is that of its last event, and what waits is told of all alone",
        {"recurs": 0},
        {
            "rate": 2,
            "together": 2,
            "seconds": 1,
            "capacity": 10,
            "window": 50,
            "outage": NONE,
            "beside": [("30", {"recurs": 0})],
        },
        [
            [0, 2, 2, 0, 0, 0, 0, 0, 1],
            [50, 0, 0, 0, 0, 0, 0, 0, 1],
            [100, 0, 0, 0, 1, 0, 0, 0, 0],
            [150, 0, 0, 0, 0, 0, 0, 0, 0],
            [200, 0, 0, 0, 1, 0, 0, 0, 0],
        ],
        [
            Part(
                70,
                [
                    [0, 1, 1, 0, 0, 0, 0, 0, 0],
                    *([at, 0, 0, 0, 0, 0, 0, 0, 0] for at in (50, 100, 150)),
                    [200, 0, 0, 0, 1, 0, 0, 0, 0],
                ],
                {"slowest": 200},
            ),
            Part(
                30,
                [[0, 1, 1, 0, 0, 0, 0, 0, 0], [50, 0, 0, 0, 0, 0, 0, 0, 0], [100, 0, 0, 0, 1, 0, 0, 0, 0]],
                {"slowest": 100},
            ),
        ],
    ),
    Beside(
        "words: each failure takes four, whoever's it is",
        {"jitter": [0, 800, 1200, {"meet": [{"recurs": 1}, {"spaced": 1000}]}]},
        {"rate": 2, "together": 2, "seconds": 1, "outage": "0..1", "words": 7, "beside": [("30", RETRY)]},
        [[0, 2, 2, 2, 2, 2, 0, 0, 0]],
        # 823 as in the storm of one population
        [
            Part(70, [[0, 1, 1, 1, 1, 1, 0, 0, 0]], {"slowest": 824}),
            Part(30, [[0, 1, 1, 1, 1, 1, 0, 0, 0]], {"slowest": 11}),
        ],
    ),
    Beside(
        "the only request is the second's: the first has a window with nothing in it",
        {"recurs": 0},
        {"rate": 1, "seconds": 1, "outage": NONE, "beside": [("1", {"recurs": 0})]},
        [[0, 1, 1, 0, 1, 0, 0, 0, 0]],
        [
            Part(99, [EMPTY], {"requests": 0, "hundredths": 0, "most_calls": 0, "p50": None, "recovered": None}),
            Part(1, [[0, 1, 1, 0, 1, 0, 0, 0, 0]], {"requests": 1, "recovered": 0}),
        ],
    ),
    Beside(
        "a cut is told of each",
        {"recurs": 0},
        {"rate": 2, "together": 2, "seconds": 1, "calls": 5, "outage": "0..10", "beside": [("30", "forever")]},
        [[0, 1, 0, 4, 0, 5, 0, 0, 0]],
        [
            Part(70, [EMPTY], {"requests": 0, "calls": 0, "cut": True}),
            Part(30, [[0, 1, 0, 4, 0, 5, 0, 0, 0]], {"requests": 1, "open": 1, "calls": 5, "cut": True}),
        ],
    ),
]
