"""The metrics of all retries of the process, in Prometheus' own client and by a meter."""

from __future__ import annotations

import asyncio
import builtins
import gc
import logging
import signal
import sys
from functools import partial
from pathlib import Path
from types import SimpleNamespace
from typing import Any, Dict, Iterator, List, Tuple

import pytest

from hikebox import (
    AsyncRetrying,
    Breaker,
    Bucket,
    Budget,
    Pace,
    PerKey,
    Quota,
    Retrying,
    both,
    metrics,
    recurs,
    repeat,
    retry,
    spaced,
    stop,
)
from hikebox.adapters.tenacity import stop_and_wait
from hikebox.leased import FileStore, LeasedPace
from hikebox.retry.watch import name_of, watch
from hikebox.testing import VirtualClock

HERE = "test_metrics"


@retry(recurs(3) & spaced(2), sleep=lambda seconds: None)
def before_it_is_on() -> str:
    return "here"


def fails() -> Any:
    raise KeyError("scripted")


async def fails_later() -> Any:
    raise KeyError("scripted")


def succeeds() -> str:
    return "here"


async def succeeds_later() -> str:
    return "here"


class Meter:
    """A meter of OpenTelemetry's interface, which keeps what it is told."""

    def __init__(self) -> None:
        self.made: Dict[str, Tuple[str, str]] = {}
        self.counts: Dict[Any, float] = {}
        self.recorded: List[Any] = []
        self.reads: Any = None

    def create_observable_gauge(self, name: str, callbacks: Any, description: str = "") -> None:
        self.made[name], self.reads = ("", "gauge"), callbacks[0]

    def create_counter(self, name: str, unit: str = "", description: str = "") -> Any:
        return self._made(name, unit, "counter")

    def create_histogram(self, name: str, unit: str = "", description: str = "") -> Any:
        return self._made(name, unit, "histogram")

    def _made(self, name: str, unit: str, kind: str) -> Any:
        self.made[name] = (unit, kind)
        meter = self

        class Instrument:
            def add(self, count: float, attributes: Any) -> None:
                key = (name, *sorted(attributes.items()))
                meter.counts[key] = meter.counts.get(key, 0) + count

            def record(self, amount: float, attributes: Any) -> None:
                meter.recorded.append((name, amount, attributes))

        return Instrument()


class Counted:
    """A registry of prometheus_client that counts."""

    def __init__(self) -> None:
        self.client = pytest.importorskip("prometheus_client")
        self.registry = self.client.CollectorRegistry()
        self.counting = metrics.prometheus(self.registry)

    def value(self, name: str, **labels: str) -> Any:
        return self.registry.get_sample_value(f"hikebox_{name}", labels)

    def all(self, name: str) -> Dict[Tuple[str, ...], float]:
        """The values of a counter, by those of its labels in order, but 0."""
        samples = [each for metric in self.registry.collect() for each in metric.samples]
        return {tuple(each.labels.values()): each.value for each in samples if each.name == f"hikebox_{name}"}


@pytest.fixture
def counted() -> Iterator[Counted]:
    made = Counted()
    yield made
    made.counting.stop()


# What is counted


def test_calls_attempts_retries_and_waits(counted: Counted, clock: VirtualClock) -> None:
    how: Any = {"clock": clock, "sleep": clock.sleep, "fallback": lambda state: None}
    retrying = Retrying(recurs(2) & spaced(2), **how)
    retrying(fails)
    retrying(succeeds)
    retrying(succeeds)
    before_it_is_on()
    here = {name: f"{HERE}.{name}" for name in ("fails", "succeeds", "before_it_is_on")}
    assert counted.all("calls_total") == {
        (here["fails"], "schedule_done"): 1,
        (here["succeeds"], "won"): 2,
        (here["before_it_is_on"], "won"): 1,
    }
    assert counted.all("attempts_total") == {(here["fails"],): 3, (here["succeeds"],): 2, (here["before_it_is_on"],): 1}
    assert counted.all("retries_total") == {(here["fails"],): 2}
    assert counted.all("refusals_total") == {}
    assert counted.all("wait_seconds_count") == {(here["fails"],): 2}
    assert counted.value("wait_seconds_sum", call=here["fails"]) == 4
    assert counted.value("wait_seconds_bucket", call=here["fails"], le="1.0") == 0
    assert counted.value("wait_seconds_bucket", call=here["fails"], le="2.5") == 2


def test_coroutines_and_blocks(counted: Counted) -> None:
    async def nothing(_: float) -> None:
        pass

    async def main() -> None:
        awaiting = AsyncRetrying(recurs(1), sleep=nothing, fallback=lambda state: None)
        await awaiting(succeeds_later)
        await awaiting(fails_later)
        async for attempt in AsyncRetrying(recurs(3)):
            with attempt:
                if attempt.number < 2:
                    raise KeyError()

    asyncio.run(main())
    for attempt in Retrying(recurs(3)):
        break
    for attempt in Retrying(recurs(3)):
        with attempt:
            if attempt.number < 3:
                raise KeyError()
    assert counted.all("calls_total") == {
        (f"{HERE}.succeeds_later", "won"): 1,
        (f"{HERE}.fails_later", "schedule_done"): 1,
        ("a block", "won"): 2,
        ("a block", "cancelled"): 1,
    }
    assert counted.value("retries_total", call="a block") == 3


def test_endings_and_refusals(counted: Counted, clock: VirtualClock) -> None:
    breaker = Breaker(1, spaced(60), clock=clock)
    limits: List[Any] = [Budget(0), Quota(0, 0, 60), breaker, breaker]
    for limit in limits:
        Retrying(recurs(1), limit=limit, clock=clock, fallback=lambda state: None)(fails)
    Retrying(recurs(3), on=OSError, fallback=lambda state: None, deadline=1)(succeeds)
    with pytest.raises(KeyError):
        Retrying(recurs(3), on=OSError)(fails)
    Retrying(spaced(2), deadline=1, clock=clock, fallback=lambda state: None)(fails)
    Retrying(spaced(2), stop=lambda state: True, fallback=lambda state: None)(fails)
    at = f"{HERE}.fails"
    assert counted.all("calls_total") == {
        (at, "limit_refused"): 3,
        (at, "not_admitted"): 1,
        (f"{HERE}.succeeds", "won"): 1,
        (at, "not_retried"): 1,
        (at, "deadline"): 1,
        (at, "stopped"): 1,
    }
    assert counted.all("refusals_total") == {
        (at, "Budget", "used_up"): 1,
        (at, "Quota", "used_up"): 1,
        (at, "Breaker", "breaker_open"): 2,
    }
    # (a call that is not admitted makes no attempt)
    assert counted.value("attempts_total", call=at) == 6


def test_repeats_and_adapters(counted: Counted) -> None:
    tenacity, httpx = pytest.importorskip("tenacity"), pytest.importorskip("httpx")
    from hikebox.adapters.httpx import PolicyTransport

    repeat(recurs(2) & spaced(0.001))(succeeds)()
    stops, waits = stop_and_wait(recurs(1))
    with pytest.raises(tenacity.RetryError):
        tenacity.retry(stop=stops, wait=waits)(fails)()
    answers = iter([503, 200])
    transport = PolicyTransport(recurs(3), transport=httpx.MockTransport(lambda request: httpx.Response(next(answers))))
    assert httpx.Client(transport=transport).get("http://one.example").status_code == 200
    calls = counted.all("calls_total")
    assert calls[(f"{HERE}.succeeds", "schedule_done")] == 1
    assert calls[("a block", "schedule_done")] == 1
    assert calls[("hikebox.adapters.httpx.PolicyTransport", "won")] == 1
    assert counted.value("retries_total", call="hikebox.adapters.httpx.PolicyTransport") == 1


def test_names() -> None:
    class Callable:
        def __call__(self) -> None:
            ...

        def method(self) -> None:
            ...

    local = f"{HERE}.test_names.<locals>.Callable"
    assert name_of(None) == "a block"
    assert name_of(len) == "builtins.len"
    assert name_of(partial(partial(fails), 1)) == f"{HERE}.fails"
    assert name_of(Callable()) == local and name_of(Callable().method) == f"{local}.method"
    assert name_of(partial(Callable())) == local
    assert name_of("".join) == name_of("a".join)
    assert name_of(int) == "builtins.int"


# Where the counts go


def test_the_meter_of_opentelemetry(clock: VirtualClock) -> None:
    meter = Meter()
    counting = metrics.opentelemetry(meter)
    assert metrics.opentelemetry(meter) is counting
    try:
        Retrying(recurs(1) & spaced(2), clock=clock, sleep=clock.sleep, fallback=lambda state: None)(fails)
        Retrying(stop())(succeeds)
        Retrying(recurs(1), limit=Budget(0), fallback=lambda state: None)(fails)
    finally:
        counting.stop()
    Retrying(stop())(succeeds)
    assert meter.made == {
        "hikebox.calls": ("{call}", "counter"),
        "hikebox.attempts": ("{attempt}", "counter"),
        "hikebox.retries": ("{retry}", "counter"),
        "hikebox.refusals": ("{refusal}", "counter"),
        "hikebox.wait.duration": ("s", "histogram"),
        "hikebox.limit.state": ("", "gauge"),
    }
    call, won = ("hikebox.call", f"{HERE}.fails"), ("hikebox.call", f"{HERE}.succeeds")
    assert meter.counts == {
        ("hikebox.calls", call, ("hikebox.ending", "schedule_done")): 1,
        ("hikebox.calls", won, ("hikebox.ending", "won")): 1,
        ("hikebox.calls", call, ("hikebox.ending", "limit_refused")): 1,
        ("hikebox.attempts", call): 3,
        ("hikebox.attempts", won): 1,
        ("hikebox.retries", call): 1,
        ("hikebox.refusals", call, ("hikebox.limit", "Budget"), ("hikebox.reason", "used_up")): 1,
    }
    assert meter.recorded == [("hikebox.wait.duration", 2, dict([call]))]


def test_opentelemetry_itself() -> None:
    pytest.importorskip("opentelemetry")
    counting = metrics.opentelemetry()
    assert metrics.opentelemetry() is counting
    Retrying(stop())(succeeds)
    counting.stop()


def test_prometheus_own_registry() -> None:
    client = pytest.importorskip("prometheus_client")
    counting = metrics.prometheus()
    try:
        assert metrics.prometheus() is counting is metrics.prometheus(client.REGISTRY)
        Retrying(stop())(succeeds)
        text = client.generate_latest().decode()
        assert f'hikebox_calls_total{{call="{HERE}.succeeds",ending="won"}} 1.0' in text
        assert "# TYPE hikebox_wait_seconds histogram" in text
    finally:
        counting.stop()
    assert b"hikebox" not in client.generate_latest()
    counting.stop()


#: What is shown of a breaker that was opened by hand, without its name.
OPENED = {"closed": 0, "open": 1, "half_open": 0, "failures": 0, "until": 65, "trip": 1, "admitted": 0, "won": 0}


def test_states_of_limits(counted: Counted, monkeypatch: Any) -> None:
    breaker, bucket = Breaker(1, spaced(60), clock=lambda: 5.0), Bucket.grpc(10, 0.1)
    breaker.open(60)
    meter = Meter()
    for counting in (counted.counting, metrics.opentelemetry(meter)):
        counting.follow("peer", breaker)
        counting.follow("tokens", bucket)
    told = counted.all("limit_state")
    assert told == {
        **{("peer", what): number for what, number in OPENED.items()},
        ("tokens", "level"): 10,
        ("tokens", "capacity"): 10,
    }
    monkeypatch.setitem(sys.modules, "opentelemetry.metrics", SimpleNamespace(Observation=lambda *two: two))
    observed = {(each["hikebox.limit"], each["hikebox.what"]): number for number, each in meter.reads(None)}
    assert observed == told
    breaker.close()
    assert counted.value("limit_state", limit="peer", what="closed") == 1
    wrong: Any
    for wrong in (both(bucket, breaker), Budget(1), PerKey(lambda key: Bucket.aws())):
        with pytest.raises(TypeError, match="^expected one limit that tells its state, such as a Breaker, got "):
            counted.counting.follow("wrong", wrong)
    metrics.opentelemetry(meter).stop()


def test_what_is_no_registry() -> None:
    pytest.importorskip("prometheus_client")
    with pytest.raises(TypeError, match="^registry: expected a CollectorRegistry, got 9090$"):
        metrics.prometheus(9090)


def test_the_wait_of_a_pace(counted: Counted, tmp_path: Path, clock: VirtualClock) -> None:
    pace = Pace(1, 10, clock=clock, sleep=clock.sleep)
    counted.counting.follow("peer", pace)
    assert counted.value("limit_state", limit="peer", what="wait") == 0
    pace.wait()
    clock.advance(4)
    assert counted.all("limit_state") == {("peer", "wait"): 6}
    clock.advance(60)
    assert counted.all("limit_state") == {("peer", "wait"): 0}
    leased: Any = LeasedPace(FileStore(tmp_path), "peer", 1, 10)
    with pytest.raises(TypeError, match="^expected one limit that tells .*; a LeasedPace has no seen\\(\\)$"):
        counted.counting.follow("peer", leased)


def test_several_count_the_same(counted: Counted) -> None:
    other, meter = Counted(), Meter()
    counting = metrics.opentelemetry(meter)
    Retrying(stop())(succeeds)
    counting.stop()
    other.counting.stop()
    Retrying(stop())(succeeds)
    assert counted.value("calls_total", call=f"{HERE}.succeeds", ending="won") == 2
    assert sum(count for key, count in meter.counts.items() if key[0] == "hikebox.calls") == 1
    assert watch.watchers == (counted.counting,)


def test_nothing_is_counted_where_nobody_asked() -> None:
    assert watch.watchers == ()
    Retrying(stop())(succeeds)
    made = Counted()
    assert made.all("calls_total") == {}
    made.counting.stop()


@pytest.mark.parametrize("name, package", [("prometheus", "prometheus-client"), ("opentelemetry", "opentelemetry-api")])
def test_without_the_library(name: str, package: str, monkeypatch: Any) -> None:
    library = {"prometheus": "prometheus_client", "opentelemetry": "opentelemetry"}[name]
    for module in [each for each in sys.modules if each.partition(".")[0] == library]:
        monkeypatch.delitem(sys.modules, module)
    monkeypatch.setitem(sys.modules, library, None)
    told = rf"^hikebox.metrics.{name}\(\) needs the library {library}: pip install {package}$"
    with pytest.raises(ImportError, match=told):
        getattr(metrics, name)()
    assert watch.watchers == ()


# What is done to it


def test_a_call_that_the_collector_ends_is_counted_with_the_next_one(counted: Counted) -> None:
    # A finalizer may come while this thread holds a lock of the registry's.
    loop = iter(Retrying(recurs(3) & spaced(1)))
    attempt = next(loop)
    cycle: List[Any] = [loop, attempt]
    cycle.append(cycle)
    del loop, attempt, cycle
    metric = counted.registry._names_to_collectors["hikebox_calls_total"]
    with metric._lock:
        gc.collect()
    assert counted.all("calls_total") == {}
    Retrying(stop())(succeeds)
    assert counted.all("calls_total") == {("a block", "cancelled"): 1, (f"{HERE}.succeeds", "won"): 1}


def test_a_coroutine_that_the_collector_closes_is_counted_with_the_next_one(counted: Counted) -> None:
    class Waits:
        def __await__(self) -> Any:
            yield

    async def waits() -> None:
        await Waits()

    async def in_a_loop() -> None:
        async for attempt in AsyncRetrying(recurs(3), on_result=lambda result: False):
            with attempt:
                await Waits()

    metric = counted.registry._names_to_collectors["hikebox_calls_total"]
    retrying = AsyncRetrying(recurs(3), before=lambda state: None)
    makers: List[Any] = [lambda: retrying(waits), in_a_loop]
    for make in makers:
        begun = make()
        begun.send(None)
        with metric._lock:
            del begun
            gc.collect()
        assert counted.all("calls_total") == {}
        Retrying(stop())(succeeds)
        assert len(counted.all("calls_total")) == 2
        metric.clear()


def test_a_call_of_a_signals_handler_is_counted_after_the_one_that_it_interrupts(
    counted: Counted, monkeypatch: Any
) -> None:
    class Interrupted:
        """A lock that cannot be taken again, under which a signal comes once."""

        def __init__(self) -> None:
            self.is_held = self.was_held = False

        def __enter__(self) -> None:
            assert not self.is_held
            self.is_held = True
            if not self.was_held:
                self.was_held = True
                signal.raise_signal(signal.SIGINT)

        def __exit__(self, *_: Any) -> None:
            self.is_held = False

    metric = counted.registry._names_to_collectors["hikebox_calls_total"]
    monkeypatch.setattr(metric, "_lock", Interrupted())
    before = signal.signal(signal.SIGINT, lambda *_: Retrying(stop())(succeeds))
    try:
        Retrying(stop())(len, "seven")
    finally:
        signal.signal(signal.SIGINT, before)
    assert counted.all("calls_total") == {("builtins.len", "won"): 1, (f"{HERE}.succeeds", "won"): 1}


def test_what_a_watcher_raises_ends_no_call(caplog: Any) -> None:
    class Broken(Meter):
        def create_counter(self, name: str, unit: str = "", description: str = "") -> Any:
            return None

    counting = metrics.opentelemetry(Broken())
    try:
        with caplog.at_level(logging.ERROR, "hikebox"):
            assert Retrying(stop())(succeeds) == "here"
    finally:
        counting.stop()
    assert len(caplog.records) == 1 and caplog.records[0].exc_info is not None


def test_threads_lose_no_count(counted: Counted) -> None:
    import threading

    left = [0]

    def flaky() -> None:
        left[0] += 1
        if left[0] % 2:
            raise KeyError()

    retrying = Retrying(recurs(50), limit=Budget(10**6))

    def calls() -> None:
        for _ in range(500):
            retrying(flaky)

    threads = [threading.Thread(target=calls) for _ in range(8)]
    for thread in threads:
        thread.start()
    for thread in threads:
        thread.join()
    name = f"{HERE}.test_threads_lose_no_count.<locals>.flaky"
    statistics = retrying.statistics
    assert counted.value("calls_total", call=name, ending="won") == 4000 == statistics.won
    assert counted.value("retries_total", call=name) == statistics.retries
    assert counted.value("wait_seconds_count", call=name) == statistics.retries
    assert builtins.sum(counted.all("attempts_total").values()) == statistics.attempts
