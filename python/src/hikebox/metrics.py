"""Metrics of all retries of the process, for Prometheus and for OpenTelemetry.

Call `prometheus()` or `opentelemetry()` once, as your program starts. From then on these are counted, of functions that
were decorated before, too:

- calls that are over, by how they ended, such as `won`, `schedule_done` or `limit_refused` (see `Ending`);
- their attempts, and those after the first, which are retries;
- what a limit refused, by the limit's type and the reason, such as `breaker_open` (see `RefusalReason`);
- the seconds of each wait before a retry, as a histogram.

`follow()` shows the state of a limit or of a `Pace` besides, whenever the metrics are read.

`call` is the function that is retried, with its module; of a loop it is `a block`, and of an adapter the adapter.
"""

from __future__ import annotations

import importlib
from typing import Any, Callable, Dict, Iterator, List, Optional, Sequence, Tuple, Union

from .limits import BreakerSeen, BreakerState, CallLimit
from .pace import Pace, Pacing
from .retry.watch import watch
from .version import VERSION

__all__ = ["Counting", "opentelemetry", "prometheus"]

#: The bounds of the histogram of waits, in seconds.
_BOUNDS = (0.01, 0.025, 0.05, 0.1, 0.25, 0.5, 1.0, 2.5, 5.0, 10.0, 30.0, 60.0, 300.0)
#: What is counted: its name, what it is, and its labels.
_COUNTERS = {
    "calls": ("Calls that are over, each with all its attempts.", ("call", "ending")),
    "attempts": ("Attempts of calls that are over.", ("call",)),
    "retries": ("Attempts of calls that are over, without the first of each.", ("call",)),
    "refusals": ("First attempts and retries that a limit refused.", ("call", "limit", "reason")),
}
_WAITS = "Seconds that calls wait before a retry."
_STATES = "The state of a limit, such as its level; of a breaker, 1 for what it is and 0 for what it is not."

#: Adds to a count, by the values of its labels.
Add = Callable[[float, Tuple[str, ...]], Any]


#: The limits and the paces whose states are shown, by their names.
States = Dict[str, Union[CallLimit, Pace]]


class Counting:
    """What counts all retries of the process, until `stop()`."""

    def __init__(self, sink: Any, states: States, adds: Dict[str, Add], waits: Add, forget: Callable[[], None]) -> None:
        self.sink = sink
        self._states = states
        self._adds = adds
        self._waits = waits
        self._forget = forget

    def follow(self, name: str, limit: Union[CallLimit, Pace]) -> None:
        """Shows the state of a limit under this name, what its `seen()` returns, whenever the metrics are read; of a
        `Pace` it is the `wait`, the seconds that a call would wait now.

        >>> from prometheus_client import CollectorRegistry
        >>> from hikebox import Bucket
        >>> registry = CollectorRegistry()
        >>> counting = prometheus(registry)
        >>> counting.follow("payments", Bucket.aws())
        >>> registry.get_sample_value("hikebox_limit_state", {"limit": "payments", "what": "level"})
        500.0
        >>> counting.stop()
        """
        if not isinstance(name, str):
            raise TypeError(f"expected a name, got {name!r}")
        if not isinstance(limit, Pace) and (not isinstance(limit, CallLimit) or len(limit.parts()) != 1):
            why = "; a LeasedPace has no seen()" if isinstance(limit, Pacing) else ""
            raise TypeError(f"expected one limit that tells its state, such as a Breaker, got {limit!r}{why}")
        self._states[name] = limit

    def ended(self, call: str, attempts: int, ending: str) -> None:
        """Counts a call that is over."""
        self._adds["calls"](1, (call, ending))
        if attempts > 0:
            self._adds["attempts"](attempts, (call,))
        if attempts > 1:
            self._adds["retries"](attempts - 1, (call,))

    def refused(self, call: str, limit: str, reason: str) -> None:
        """Counts what a limit refused."""
        self._adds["refusals"](1, (call, limit, reason))

    def waits(self, call: str, seconds: float) -> None:
        """Counts a wait."""
        self._waits(seconds, (call,))

    def stop(self) -> None:
        """Counts no more, and takes its metrics out of Prometheus' registry."""
        if self in watch.watchers:
            watch.watchers = tuple(each for each in watch.watchers if each is not self)
            self._forget()


def prometheus(registry: Any = None) -> Counting:
    """Counts all retries of the process in this registry of prometheus_client; None is the client's own. Of a registry
    that has the counts it returns what counts there.

    The names are `hikebox_calls_total`, `hikebox_attempts_total`, `hikebox_retries_total`, `hikebox_refusals_total`,
    `hikebox_wait_seconds` and `hikebox_limit_state`.

    >>> from prometheus_client import CollectorRegistry
    >>> from hikebox import Retrying, recurs
    >>> registry = CollectorRegistry()
    >>> counting = prometheus(registry)
    >>> Retrying(recurs(3))(len, "seven")
    5
    >>> registry.get_sample_value("hikebox_calls_total", {"call": "builtins.len", "ending": "won"})
    1.0
    >>> counting.stop()
    """
    client = _imported("prometheus_client", "prometheus", "prometheus-client")
    registry = client.REGISTRY if registry is None else registry
    if not callable(getattr(registry, "register", None)):
        raise TypeError(f"registry: expected a CollectorRegistry, got {registry!r}")
    return _counting_in(registry) or _begun(_in_prometheus(client, registry))


def opentelemetry(meter: Any = None) -> Counting:
    """Counts all retries of the process by this meter of OpenTelemetry; None is one of the global provider's, with the
    name `hikebox`. For a meter that counts already it returns what counts there.

    The names are `hikebox.calls`, `hikebox.attempts`, `hikebox.retries`, `hikebox.refusals`, `hikebox.wait.duration`
    and `hikebox.limit.state`, and those of the attributes `hikebox.call`, `hikebox.ending`, `hikebox.limit`,
    `hikebox.reason` and `hikebox.what`.
    """
    sink = "the global provider" if meter is None else meter
    found = _counting_in(sink)
    if found is None and meter is None:
        meter = _imported("opentelemetry.metrics", "opentelemetry", "opentelemetry-api").get_meter("hikebox", VERSION)
    return found or _begun(_in_opentelemetry(sink, meter))


def _imported(module: str, called: str, package: str) -> Any:
    try:
        return importlib.import_module(module)
    except ModuleNotFoundError as error:
        wanted = module.partition(".")[0]
        if error.name is None or error.name.partition(".")[0] != wanted:
            raise  # it is there, and what it needs is not
        told = f"hikebox.metrics.{called}() needs the library {wanted}: pip install {package}"
        raise ImportError(told, name=module) from None


def _counting_in(sink: Any) -> Optional[Counting]:
    """What counts there already."""
    return next((each for each in watch.watchers if isinstance(each, Counting) and each.sink is sink), None)


def _begun(counting: Counting) -> Counting:
    watch.watchers = (*watch.watchers, counting)
    return counting


def _numbers(states: States) -> Iterator[Tuple[str, str, float]]:
    """The state of each limit: its name, what is told, and the number."""
    for name, limit in list(states.items()):
        if isinstance(limit, Pace):
            yield name, "wait", max(0.0, limit.seen() - limit.clock())
            continue
        seen = limit.seen()
        if isinstance(seen, BreakerSeen):
            yield from ((name, state.value.replace(" ", "_"), float(state is seen.state)) for state in BreakerState)
        for what, value in zip(seen._fields, seen):
            if isinstance(value, (int, float)):
                yield name, what, float(value)


def _in_prometheus(client: Any, registry: Any) -> Counting:
    states: States = {}

    class Gauges:
        """Reads the states when the registry asks."""

        def collect(self) -> Iterator[Any]:
            family = client.metrics_core.GaugeMetricFamily("hikebox_limit_state", _STATES, labels=("limit", "what"))
            for name, what, number in _numbers(states):
                family.add_metric((name, what), number)
            yield family

    gauges = Gauges()
    registry.register(gauges)
    made = {
        name: client.Counter(f"hikebox_{name}", about, labels, registry=registry)
        for name, (about, labels) in _COUNTERS.items()
    }
    waits = client.Histogram("hikebox_wait_seconds", _WAITS, ("call",), registry=registry, buckets=_BOUNDS)

    def adds_to(counter: Any) -> Add:
        return lambda count, values: counter.labels(*values).inc(count)

    def forget() -> None:
        for metric in (*made.values(), waits, gauges):
            registry.unregister(metric)

    adds = {name: adds_to(counter) for name, counter in made.items()}
    return Counting(registry, states, adds, lambda seconds, values: waits.labels(*values).observe(seconds), forget)


def _in_opentelemetry(sink: Any, meter: Any) -> Counting:
    def adds_to(name: str) -> Add:
        about, labels = _COUNTERS[name]
        counter = meter.create_counter(f"hikebox.{name}", unit=f"{{{_ONE[name]}}}", description=about)
        return lambda count, values: counter.add(count, _attributes(labels, values))

    states: States = {}

    def observe(_: Any) -> List[Any]:
        observation = importlib.import_module("opentelemetry.metrics").Observation
        labels = ("limit", "what")
        return [observation(number, _attributes(labels, told)) for *told, number in _numbers(states)]

    waits = meter.create_histogram("hikebox.wait.duration", unit="s", description=_WAITS)
    meter.create_observable_gauge("hikebox.limit.state", callbacks=[observe], description=_STATES)
    adds = {name: adds_to(name) for name in _COUNTERS}
    add_wait: Add = lambda seconds, values: waits.record(seconds, _attributes(("call",), values))
    return Counting(sink, states, adds, add_wait, states.clear)


#: What is counted, one of each, as OpenTelemetry has it for a unit.
_ONE = {"calls": "call", "attempts": "attempt", "retries": "retry", "refusals": "refusal"}


def _attributes(labels: Sequence[str], values: Sequence[str]) -> Dict[str, str]:
    return {f"hikebox.{label}": value for label, value in zip(labels, values)}
