"""The seconds of a log as moments of requests, or as spans in each of which requests come at an even pace."""

from __future__ import annotations

from typing import Counter as Counts, List, NamedTuple, Optional, Sequence, Tuple

from ..storms.parameters import MAX_REQUESTS, MAX_SPANS, RANGES, RateSpan

__all__ = ["Paces", "moments_of", "paces_of", "stretch_of"]

#: The seconds of a log are looked at in so many parts at most.
_PARTS = 240
#: More spans are taken only while they come nearer to the log by this part of what one span leaves, and while a second
#: differs from its span's pace by more than chance makes it: then the squares add up to about the number of requests.
_NEARER, _BY_CHANCE = 0.02, 1.1


class Paces(NamedTuple):
    """How requests come, as a storm has it."""

    rate: int
    rates: Tuple[RateSpan, ...]
    seconds: int

    @property
    def spans(self) -> int:
        """How many paces there are, one after another."""
        gaps = sum(left.ends < right.begins for left, right in zip(self.rates, self.rates[1:]))
        ends = [self.rates[0].begins > 0, self.rates[-1].ends < 1000 * self.seconds] if self.rates else [True]
        return len(self.rates) + gaps + sum(ends)


def stretch_of(requests: Counts[int], seconds: Optional[int] = None) -> Tuple[int, int]:
    """The part of a log that is played: its first second, and how many seconds it has. That is the whole log if a storm
    can be as long and have as many requests, or else its busiest part."""
    known = sorted(requests)
    whole = known[-1] - known[0] + 1
    most = min(whole, RANGES["seconds"][1]) if seconds is None else seconds
    if seconds is None and (whole > most or sum(requests.values()) > MAX_REQUESTS):
        least = 1
        while least < most:
            middle = (least + most + 1) // 2
            least, most = (
                (middle, most) if _busiest(requests, known, middle)[1] <= MAX_REQUESTS else (least, middle - 1)
            )
    return _busiest(requests, known, most)[0], most


def _busiest(requests: Counts[int], known: Sequence[int], seconds: int) -> Tuple[int, int]:
    """Where the so many seconds with the most requests begin, and how many these are: the first of equals. `known` are
    the seconds that have some, in their order."""
    best, most, count, begins = known[0], 0, 0, 0
    for second in known:
        count += requests[second]
        while known[begins] <= second - seconds:
            count -= requests[known[begins]]
            begins += 1
        if count > most:
            best, most = max(known[0], min(known[begins], known[-1] - seconds + 1)), count
    return best, most


def paces_of(counts: Sequence[int], most: int = MAX_SPANS + 1) -> Paces:
    """The paces for the requests of each second, in at most so many spans. The fastest of them is the storm's rate, and
    the others stand beside it.

    >>> paces_of([500, 510, 900, 920])
    Paces(rate=910, rates=(RateSpan(begins=0, ends=2000, rate=505),), seconds=4)
    """
    step = -(-len(counts) // _PARTS)
    parts = [counts[at : at + step] for at in range(0, len(counts), step)]
    spans: List[RateSpan] = []
    for begins, ends in _cuts(parts, most):
        inside = counts[begins * step : ends * step]
        rate = (2 * sum(inside) + len(inside)) // (2 * len(inside))
        spans.append(RateSpan(1000 * begins * step, 1000 * (begins * step + len(inside)), rate))
    fastest = max(1, *(span.rate for span in spans))
    return Paces(fastest, tuple(span for span in spans if span.rate != fastest), len(counts))


def moments_of(counts: Sequence[int]) -> Tuple[int, ...]:
    """The moments of the requests of each second, evenly spread in it, in milliseconds.

    >>> moments_of([2, 0, 3])
    (0, 500, 2000, 2333, 2666)
    """
    return tuple(1000 * second + 1000 * place // count for second, count in enumerate(counts) for place in range(count))


def _cuts(parts: Sequence[Sequence[int]], most: int) -> List[Tuple[int, int]]:
    """From which part to which each span goes, so that the squares of what each second differs from its span's pace
    have the least sum."""
    count = len(parts)
    sums, squares, lengths = [0], [0], [0]
    for part in parts:
        sums.append(sums[-1] + sum(part))
        squares.append(squares[-1] + sum(each * each for each in part))
        lengths.append(lengths[-1] + len(part))

    def off(begins: int, ends: int) -> float:
        total = sums[ends] - sums[begins]
        return squares[ends] - squares[begins] - total * total / (lengths[ends] - lengths[begins])

    # by how many spans: how far the first so many parts are off, and where the last of these spans begins
    far = [[off(0, ends) if ends else 0.0 for ends in range(count + 1)]]
    where = [[0] * (count + 1)]
    for spans in range(1, min(most, count)):
        before = far[-1]
        chosen = [(0.0, 0)] * (spans + 1) + [
            min((before[begins] + off(begins, ends), begins) for begins in range(spans, ends))
            for ends in range(spans + 1, count + 1)
        ]
        far.append([each for each, _ in chosen])
        where.append([begins for _, begins in chosen])
    enough = max(far[-1][count] + _NEARER * far[0][count], _BY_CHANCE * sums[count])
    spans = next(index for index, each in enumerate(far) if each[count] <= enough)
    cuts: List[Tuple[int, int]] = []
    ends = count
    for index in range(spans, -1, -1):
        cuts.insert(0, (where[index][ends], ends))
        ends = where[index][ends]
    return cuts
