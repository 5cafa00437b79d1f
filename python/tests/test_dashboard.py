"""The dashboard for Grafana: that its queries ask for metrics and labels that Python and Rust export, and that it has
the form that Grafana imports. Grafana itself is not run."""

from __future__ import annotations

import json
import re
from typing import Any, Callable, Dict, List, Set

import pytest
from conftest import TOP

from hikebox import Breaker, Budget, Ending, Retrying, metrics, recurs, spaced
from hikebox.testing import VirtualClock

DASHBOARD: Dict[str, Any] = json.loads((TOP / "python" / "share" / "grafana.json").read_text())
PANELS: List[Dict[str, Any]] = DASHBOARD["panels"]
VARIABLES: List[Dict[str, Any]] = DASHBOARD["templating"]["list"]
TARGETS: List[Dict[str, Any]] = [target for panel in PANELS for target in panel["targets"]]
QUERIES: List[str] = [target["expr"] for target in TARGETS]
SOURCE = {"type": "prometheus", "uid": "${datasource}"}

#: The labels of each exported series, by its name.
Exported = Dict[str, Set[str]]


def in_python() -> Exported:
    """What Python exports after a retry that waits, and calls that a limit refuses."""
    client = pytest.importorskip("prometheus_client")
    registry = client.CollectorRegistry()
    counting = metrics.prometheus(registry)
    clock = VirtualClock()
    how: Any = {"clock": clock, "sleep": clock.sleep, "fallback": lambda state: None}
    for limit in (None, Budget(0), Breaker(1, spaced(60), clock=clock)):
        Retrying(recurs(1) & spaced(1), limit=limit, **how)(int, "no number")
    found: Exported = {}
    for metric in registry.collect():
        for sample in metric.samples:
            found.setdefault(sample.name, set()).update(sample.labels)
    counting.stop()
    return found


def in_rust() -> Exported:
    """What Rust registers, by its source. (Its own tests read what is exported then.)"""
    text = (TOP / "rust" / "src" / "metrics.rs").read_text()
    found: Exported = {}
    for name, labels in re.findall(r'counter\(\s*"(\w+)",\s*"[^"]+",\s*&\[([^\]]*)\]', text):
        found[name] = set(re.findall(r'"(\w+)"', labels))
    (name,) = re.findall(r'HistogramOpts::new\("(\w+)"', text)
    (labels,) = re.findall(r"HistogramVec::new\([^&]*&\[([^\]]*)\]", text)
    own = set(re.findall(r'"(\w+)"', labels))
    return {**found, f"{name}_bucket": own | {"le"}, f"{name}_sum": own, f"{name}_count": own}


def asked(query: str) -> Exported:
    """The labels that a query asks of each of its metrics: where it selects, and by which it sums."""
    names = set(re.findall(r"\bhikebox_\w+", query))
    selected = {
        name: set(re.findall(r'(\w+)=~?"', "".join(re.findall(rf"\b{name}{{([^}}]*)}}", query)))) for name in names
    }
    summed = set(re.findall(r"\w+", ",".join(re.findall(r"\bby \(([^)]*)\)", query))))
    return {name: labels | summed for name, labels in selected.items()}


@pytest.mark.parametrize("exported", [in_python, in_rust])
def test_each_metric_and_label_of_its_queries_is_exported(exported: Callable[[], Exported]) -> None:
    known = exported()
    assert len(known) >= 7 and known["hikebox_refusals_total"] == {"call", "limit", "reason"}
    for target in TARGETS:
        wanted = asked(target["expr"])
        assert wanted, target
        for name, labels in wanted.items():
            assert labels <= known[name], (name, target)
        # (a legend is made of labels that the query keeps)
        kept = set(re.findall(r"\w+", ",".join(re.findall(r"\bby \(([^)]*)\)", target["expr"]))))
        assert set(re.findall(r"{{(\w+)}}", target["legendFormat"])) <= kept, target
    [(name, label)] = re.findall(r"^label_values\((\w+), (\w+)\)$", VARIABLES[1]["query"]["query"])
    assert label in known[name]


def test_what_is_asked_of_a_query() -> None:
    query = 'sum by (call, le) (rate(hikebox_a{x="1",y=~"$z"}[1m])) / sum(hikebox_b)'
    assert asked(query) == {"hikebox_a": {"x", "y", "call", "le"}, "hikebox_b": {"call", "le"}}


def test_all_that_is_counted_is_shown() -> None:
    shown = {name for query in QUERIES for name in asked(query)}
    counters = {f"hikebox_{name}_total" for name in ("calls", "attempts", "retries", "refusals")}
    assert shown == {*counters, "hikebox_wait_seconds_bucket"}
    endings = {ending for query in QUERIES for ending in re.findall(r'ending="(\w+)"', query)}
    assert endings == {"won"} and Ending.WON.name.lower() == "won"


def test_queries_are_whole() -> None:
    known = {"sum", "by", "rate", "increase", "topk", "histogram_quantile", "or", "vector"}
    for query in QUERIES:
        bare = re.sub(r'"[^"]*"|{[^}]*}|\[[^\]]*\]|\bby \([^)]*\)|\bhikebox_\w+', "", query)
        assert set(re.findall(r"[a-z_]+", bare)) <= known, query
        assert all(query.count(pair[0]) == query.count(pair[1]) for pair in ("()", "[]", "{}")), query
        # rates are those of counters, over an interval that Grafana chooses
        assert all(name.endswith(("_total", "_bucket")) for name in asked(query))
        assert set(re.findall(r"\[([^\]]*)\]", query)) <= {"$__rate_interval", "$__range"}


def test_it_has_what_grafana_wants() -> None:
    assert DASHBOARD["schemaVersion"] == 39 and DASHBOARD["title"] and re.fullmatch(r"[\w-]{1,40}", DASHBOARD["uid"])
    # it is imported by file: no id of another Grafana, and no source by a name of its own
    assert "id" not in DASHBOARD and "__inputs" not in DASHBOARD
    source, call = VARIABLES
    assert (source["name"], source["type"], source["query"]) == ("datasource", "datasource", "prometheus")
    assert (call["name"], call["type"], call["datasource"]) == ("call", "query", SOURCE)
    assert call["multi"] and call["includeAll"] and call["allValue"] == ".*"
    used = {name for query in QUERIES for name in re.findall(r"\$(\w+)", query)}
    assert used == {"call", "__rate_interval", "__range"}
    ids = [panel["id"] for panel in PANELS]
    assert len(set(ids)) == len(ids) and all(isinstance(each, int) and each > 0 for each in ids)
    assert len({panel["title"] for panel in PANELS}) == len(PANELS)
    for panel in PANELS:
        assert panel["type"] in ("stat", "timeseries", "table") and panel["title"] and panel["description"]
        assert panel["datasource"] == SOURCE and panel["fieldConfig"]["defaults"]["unit"]
        letters = [target["refId"] for target in panel["targets"]]
        assert letters == list("ABCDEF")[: len(letters)] and letters
        assert all(target["datasource"] == SOURCE for target in panel["targets"])


def test_panels_lie_beside_each_other() -> None:
    taken: Set[Any] = set()
    for panel in PANELS:
        place = panel["gridPos"]
        cells = {
            (x, y)
            for x in range(place["x"], place["x"] + place["w"])
            for y in range(place["y"], place["y"] + place["h"])
        }
        assert cells and all(0 <= x < 24 and y >= 0 for x, y in cells) and not cells & taken, panel["title"]
        taken |= cells
