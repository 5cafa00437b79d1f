"""A storm in words: what it comes to, and its rows as a table."""

from __future__ import annotations

from typing import TYPE_CHECKING, List, Optional, Sequence, Tuple

from ..limits.terms import LimitTerms
from .parameters import Parameters, RateSpan, plural
from .populations import Clients

if TYPE_CHECKING:
    from .storm import PopulationReport, Storm, StormTotals

__all__ = [
    "beside_text",
    "brief_setting",
    "columns",
    "is_judged",
    "population_names",
    "population_sentences",
    "populations_table",
    "recovery_mark",
    "sentences",
    "setting",
    "share_of",
    "share_text",
    "side_by_side",
    "table",
    "time_text",
]

#: What the totals are called that stand side by side, where that is not their name.
_LABELS = {
    "hundredths": "for each",
    "most_calls": "most calls",
    "most_from_ms": "from ms",
    "p50_ms": "50 in 100 ms",
    "p99_ms": "99 in 100 ms",
    "slowest_ms": "slowest ms",
    "recovered_ms": "recovered ms",
}
#: So many rows of a table are printed at most; of more, some of the midst are left out.
_MAX_ROWS = 200


def time_text(milliseconds: int) -> str:
    """A time as a person reads it.

    >>> time_text(80), time_text(1500)
    ('80 ms', '1.5 s')
    """
    return f"{milliseconds} ms" if milliseconds < 1000 else f"{milliseconds / 1000:,.12g} s"


def share_of(parts: int, won: int, requests: int) -> int:
    """The share of the requests that succeeded, in so many parts of the whole, to the nearest: all parts only where all
    did, and none only where none did.

    >>> share_of(1000, 10_113, 48_000), share_of(100, 999, 1000), share_of(100, 1, 1000)
    (211, 99, 1)
    """
    nearest = (2 * parts * won + requests) // (2 * requests)
    return nearest if won in (0, requests) else min(max(nearest, 1), parts - 1)


def share_text(totals: StormTotals) -> str:
    """The share of the requests that succeeded, as a person reads it."""
    if totals.won in (0, totals.requests):
        return "100 %" if totals.won else "0 %"
    return f"{share_of(1000, totals.won, totals.requests) / 10:.1f} %"


def is_judged(storm: Storm) -> bool:
    """Whether it is known if the storm recovered: a window begins when the peer is well again, or there was no harm."""
    return storm.totals.recovered_ms is not None or storm.rows[-1].from_ms >= storm.parameters.over


def recovery_mark(storm: Storm, totals: Optional[StormTotals] = None) -> Tuple[Optional[int], str]:
    """When the storm recovered, if it did, and that in words: none where there was nothing to recover from. The totals
    may be those of a population of it."""
    if not storm.parameters.weather():
        return None, ""
    recovered = (totals or storm.totals).recovered_ms
    if recovered is None:
        return None, "not back by the end" if is_judged(storm) else "no window afterwards"
    if recovered == 0:  # (a surge that does no harm)
        return None, "never down"
    return recovered, f"back at {time_text(recovered)}"


def _recovery(storm: Storm) -> str:
    """When the storm recovered, if that can be known, in a sentence."""
    if storm.parameters.weather() and not is_judged(storm):
        return f"no window begins at {time_text(storm.parameters.over)} or later, so a recovery would not show"
    return recovery_mark(storm)[1]


def sentences(storm: Storm) -> List[str]:
    """What a storm comes to, line by line."""
    totals, parameters = storm.totals, storm.parameters
    # (a limit of another system may deny first calls, too)
    denied = "denied" if isinstance(parameters.tickets, LimitTerms) else "denied a retry"
    most = "the most requests and retries" if parameters.denies_first_calls else "the most"
    ended = f"{totals.won:,} won, {totals.lost:,} lost, {totals.denied:,} {denied}, {totals.open:,} left open"
    lines = [
        f"{totals.requests:,} {plural(totals.requests, 'request')}: {ended}",
        f"{totals.calls:,} {plural(totals.calls, 'call')}, {totals.calls_per_request:.2f} for each request; "
        f"{most} in a window {totals.most_calls:,}, from {time_text(totals.most_from_ms)} on",
        _took(totals),
    ]
    lines += [f"{said[0].upper()}{said[1:]}" for said in [_recovery(storm)] if said]
    if storm.parameters.tickets is not None:
        lines.insert(2, f"{totals.tickets:,} {plural(totals.tickets, 'ticket')} given for retries")
    if totals.cut:
        lines.append(f"Cut before the call after {storm.parameters.calls:,}")
    return lines


def population_heads(storm: Storm) -> List[str]:
    """Whose each population of a storm is: the storm's own, or one beside, with its number if there are several."""
    count = len(storm.parameters.beside)
    beside = ["beside"] if count == 1 else [f"beside {number}" for number in range(1, count + 1)]
    return ["own", *beside] if count else []


def population_names(storm: Storm) -> List[str]:
    """What each population of a storm is called: whose it is, its share, what limits it, and its policy."""
    heads = population_heads(storm)
    return [f"{head}, {_population_text(storm, each)}" for head, each in zip(heads, storm.populations)]


def _population_text(storm: Storm, report: PopulationReport) -> str:
    said = [f"{round(100 * report.share)} %"]
    if report.patience_ms != storm.parameters.patience:
        said.append(f"patience {time_text(report.patience_ms)}")
    if storm.parameters.tickets is not None:
        said.append("limited" if report.limited else "not limited")
    return f"{', '.join(said)}: {report.policy!r}"


def population_sentences(storm: Storm) -> List[str]:
    """What became of each population of a storm, in a line each."""
    return [
        f"{name}: {each.totals.won:,} of {each.totals.requests:,} won "
        f"({share_text(each.totals)}), {each.totals.calls_per_request:.2f} calls for each"
        + "".join(f", {said}" for said in [recovery_mark(storm, each.totals)[1]] if said)
        for name, each in zip(population_names(storm), storm.populations)
    ]


def beside_text(parameters: Parameters, is_brief: bool = False, is_swept: bool = False) -> str:
    """The populations beside the first one, in brief without their policies. If the share of the first of them is
    swept, it is not said.

    >>> beside_text(Parameters())
    'none beside'
    """
    shares = [f"{each.share} %" for each in parameters.beside]
    shares[:1] = ["a share"] if is_swept and shares else shares[:1]
    told = [_clients_text(parameters, each, share, is_brief) for each, share in zip(parameters.beside, shares)]
    return f"beside {' and '.join(told)}" if told else "none beside"


def _clients_text(parameters: Parameters, clients: Clients, share: str, is_brief: bool) -> str:
    limited = "" if parameters.tickets is None else ", limited" if clients.is_limited else ", not limited"
    if is_brief:
        return f"{share}{limited}"
    under = f"{limited}, under" if limited else " under"
    said = f"{share} of the requests{under} {clients.policy!r}"
    return said if clients.patience is None else f"{said} with patience {time_text(clients.patience)}"


def _took(totals: StormTotals) -> str:
    if totals.p50_ms is None or totals.p99_ms is None or totals.slowest_ms is None:
        return "None was won"
    times = f"half within {time_text(totals.p50_ms)}, 99 in 100 within {time_text(totals.p99_ms)}"
    return f"Won {times}, the slowest after {time_text(totals.slowest_ms)}"


def setting(parameters: Parameters) -> str:
    """What a storm is played with, in a sentence."""
    if parameters.arrivals:
        come = _arrivals(parameters)
    else:
        come = f"{parameters.rate:,} {plural(parameters.rate, 'request')} a second for {parameters.seconds:,} s"
        come += "".join(f", {_rate_span(span)}" for span in parameters.rates)
        come += f", {parameters.together:,} at a time" if parameters.together > 1 else ""
    does = f"{parameters.capacity:,} {plural(parameters.capacity, 'call')} a second"
    peer = f"a peer that does {does}"
    if parameters.replicas > 1:
        peer = f"a peer of {parameters.replicas} replicas that each do {does}"
    outage, slow = parameters.outage, parameters.slow
    if outage.begins < outage.ends:
        which = f", {parameters.away} of them down" if parameters.away < parameters.replicas else ", is down"
        peer += f"{which} from {time_text(outage.begins)} to {time_text(outage.ends)}"
    if slow is not None and slow.begins < slow.ends:
        peer += f", works at {slow.percent} % from {time_text(slow.begins)} to {time_text(slow.ends)}"
    said = f"{come} on {peer}; each call is given up after {time_text(parameters.patience)}"
    return f"{said}; {beside_text(parameters)}" if parameters.beside else said


def _arrivals(parameters: Parameters) -> str:
    moments = parameters.arrivals
    return f"{len(moments):,} {plural(len(moments), 'request')} at given moments until {time_text(moments[-1])}"


def _rate_span(span: RateSpan) -> str:
    return f"{span.rate:,} a second from {time_text(span.begins)} to {time_text(span.ends)}"


def brief_setting(parameters: Parameters) -> str:
    """The same in a line, without the outage, the brown-out and the surges."""
    surges = parameters.surges
    times = "".join(f"{_rate_span(span)}, " for span in parameters.rates if span not in surges)
    times += f"{parameters.together:,} at a time, " if parameters.together > 1 else ""
    come = f"{parameters.rate:,} {plural(parameters.rate, 'request')}/s for {parameters.seconds:,} s, {times}"
    if parameters.arrivals:
        come = f"{_arrivals(parameters)}, "
    each = f"{parameters.replicas} replicas, each of " if parameters.replicas > 1 else ""
    does = f"{parameters.capacity:,} {plural(parameters.capacity, 'call')}/s"
    peer = f"{each}capacity {does}, queue {parameters.queue:,}"
    return f"{come}{peer}, patience {time_text(parameters.patience)}"


def table(storm: Storm) -> str:
    """The rows in columns, and then what they come to."""
    names = ("from", *storm.rows[0]._fields[1:]) if storm.rows else ()
    lines = [names, *(tuple(map(str, row)) for row in storm.rows)]
    if len(lines) > _MAX_ROWS + 1:
        half = _MAX_ROWS // 2
        lines = [*lines[: half + 1], ("..",) * len(names), *lines[-half:]]
    told = [*columns(lines), "", *sentences(storm)]
    if storm.populations:
        told += ["", populations_table(storm)]
    return "".join(f"{line}\n" for line in told).rstrip("\n")


def side_by_side(storms: Sequence[Storm], names: Sequence[str]) -> str:
    """The totals of several storms side by side, each under its name's number. Those of the populations of each
    follow."""
    numbers = [str(number) for number in range(1, len(storms) + 1)]
    told = _totals_table(numbers, names, [(storm, storm.totals) for storm in storms])
    tables = [
        f"{number}: {name}\n{populations_table(storm)}"
        for number, name, storm in zip(numbers, names, storms)
        if storm.populations
    ]
    return "\n\n".join([told, *tables])


def populations_table(storm: Storm) -> str:
    """The totals of all requests of a storm and those of each of its populations, side by side."""
    populations = storm.populations
    heads = ["all", *population_heads(storm)]
    names = ["all requests", *(_population_text(storm, each) for each in populations)]
    return _totals_table(heads, names, [(storm, storm.totals), *((storm, each.totals) for each in populations)])


def _totals_table(heads: Sequence[str], names: Sequence[str], told: Sequence[Tuple[Storm, StormTotals]]) -> str:
    """Totals side by side, each under the head that its name has."""
    lines = [("", *heads)]
    for field in told[0][1].__dataclass_fields__:
        lines.append((_LABELS.get(field, field), *(_value(field, storm, totals) for storm, totals in told)))
    return "\n".join([*(f"{head}: {name}" for head, name in zip(heads, names)), "", *columns(lines)])


def _value(field: str, storm: Storm, totals: StormTotals) -> str:
    value = getattr(totals, field)
    if field == "recovered_ms" and not (storm.parameters.weather() and is_judged(storm)):
        return "-"
    if field == "hundredths":
        return f"{value / 100:.2f}"
    if isinstance(value, bool):
        return "yes" if value else "no"
    if value is None:
        return "never" if field == "recovered_ms" else "-"
    return str(value)


def columns(lines: Sequence[Tuple[str, ...]]) -> List[str]:
    """The lines with their words in columns, the first one to the left and the others to the right."""
    first, *wide = [max(map(len, column)) for column in zip(*lines)]
    return [
        "  ".join([head.ljust(first), *(word.rjust(width) for word, width in zip(words, wide))]).rstrip()
        for head, *words in lines
    ]
