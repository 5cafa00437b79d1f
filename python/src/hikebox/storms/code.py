"""The storm of a policy as a program: as a command, in Python and in Rust; and storms as a scenario."""

from __future__ import annotations

import json
import re
import shlex
from typing import TYPE_CHECKING, Any, Dict, List, Sequence, Set, Tuple

from .._engine.calls import ON_ADAPTIVE, ON_BUCKET, ON_IN_FLIGHT, ON_THROTTLE
from .._time import seconds_text
from ..budgets.terms import Terms
from ..policy import Policy
from ..policy import builders
from ..policy.spelling import duration, spelt_in_rust
from ..limits.terms import NO_MOST, LimitTerms
from .parameters import RANGES, TIMES, Parameters, Span
from .populations import Clients

if TYPE_CHECKING:
    from .storm import Storm

__all__ = ["imports_of", "in_command", "in_python", "in_rust", "in_scenario"]

_COUNTS = [name for name in RANGES if name not in TIMES and name != "words"]
_PLAIN = Parameters()


def in_command(policy: Policy, parameters: Parameters) -> str:
    """The command that plays the storm and prints it."""
    words = ["hikebox", "storm"]
    for name, value in _changed(parameters).items():
        if isinstance(value, Terms):
            words += ["--quota", _limit(value)]
        elif isinstance(value, LimitTerms):
            words += ["--limit", value.text]
        elif name == "tickets":
            words += ["--budget", str(value)]
        elif name == "beside":
            words += [word for each in value for word in ("--beside", _beside_word(each))]
        elif name == "rates":
            words += ["--rates", ",".join(f"{begins}..{ends}@{rate}" for begins, ends, rate in value)]
        elif isinstance(value, tuple):
            words += [f"--{name}", f"{value[0]}..{value[1]}" + "".join(f"@{percent}" for percent in value[2:])]
        else:
            words += [f"--{name}", str(value)]
    return f"{shlex.join([*words, repr(policy)])}\n"


def _beside_word(clients: Clients) -> str:
    """A population as the command line spells it."""
    patience = "" if clients.patience is None else f"@{clients.patience}"
    return f"{clients.share}{patience}{'+limited' if clients.is_limited else ''}={clients.policy!r}"


def in_scenario(storms: Sequence[Storm]) -> str:
    """Storms of the same parameters as the file of a scenario. Where the populations beside differ, each line has its
    own."""
    besides = {storm.parameters.beside for storm in storms}
    parameters = storms[0].parameters._replace(tickets=None, beside=besides.pop() if len(besides) == 1 else ())
    told = {name: _listed(value) for name, value in _changed(parameters).items() if name != "beside"}
    told.setdefault("outage", list(parameters.outage))
    if parameters.beside:
        told["beside"] = beside_objects(parameters.beside)
    lines = [
        {
            "policy": storm.policy.to_dict(),
            "limit": _limit(storm.parameters.tickets),
            **_only("beside", storm.parameters.beside != parameters.beside, beside_objects(storm.parameters.beside)),
        }
        for storm in storms
    ]
    return json.dumps({"storm": told, "lines": lines}, indent=2) + "\n"


def beside_objects(beside: Sequence[Clients]) -> List[Dict[str, Any]]:
    """Populations as a scenario has them."""
    return [
        {
            "share": each.share,
            "policy": each.policy.to_dict(),
            **_only("patience", each.patience is not None, each.patience),
            "limited": each.is_limited,
        }
        for each in beside
    ]


def _only(name: str, is_told: bool, value: Any) -> Dict[str, Any]:
    """A member that is there only where it says something."""
    return {name: value} if is_told else {}


def _listed(value: Any) -> Any:
    return list(map(_listed, value)) if isinstance(value, tuple) else value


def _changed(parameters: Parameters) -> Dict[str, Any]:
    """The parameters that are not the defaults."""
    return {name: value for name, value in parameters._asdict().items() if value != getattr(_PLAIN, name)}


def _limit(tickets: Any) -> Any:
    """A limit as the command line and a scenario spell it."""
    if isinstance(tickets, Terms):
        return f"{tickets.reserve}/{tickets.share / 10:.12g}%/{tickets.period}ms"
    return tickets.text if isinstance(tickets, LimitTerms) else tickets


def in_python(policy: Policy, parameters: Parameters) -> str:
    """A program that plays the storm and prints it."""
    spelt = repr(policy)
    all_spelt = " ".join([spelt, *(repr(each.policy) for each in parameters.beside)])
    names = {"storm"}
    arguments = ["policy", *(f"{name}={value}" for name, value in _python_arguments(policy, parameters))]
    if isinstance(parameters.tickets, Terms):
        names.add("Quota")
    if parameters.beside:
        names.add("Population")
    return f"{imports_of(all_spelt, names)}\n\npolicy = {spelt}\nprint(storm({', '.join(arguments)}))\n"


def imports_of(spelt: str, names: Set[str]) -> str:
    """The line that imports these names, and those of the policies that are spelt.

    >>> imports_of("recurs(3) & spaced(1).cap(2)", {"Quota"})
    'from hikebox import Quota, recurs, spaced'
    """
    known = {*builders.__all__, "milliseconds"}
    used = {name for name in re.findall(r"(?<![\w.])([a-z_]+)\(", spelt) if name in known}
    return f"from hikebox import {', '.join(sorted(names | used, key=lambda name: (name[0].islower(), name)))}"


def _python_arguments(policy: Policy, parameters: Parameters) -> List[Tuple[str, str]]:
    changed = _changed(parameters)
    found = [(name, str(changed[name])) for name in _COUNTS if name in changed]
    found += [(name, seconds_text(changed[name])) for name in TIMES if changed.get(name) is not None]
    if "outage" in changed:
        outage = parameters.outage
        found.append(("outage", "None" if outage == Span(0, 0) else f"({', '.join(map(seconds_text, outage))})"))
    if parameters.rates:
        spans = [f"({seconds_text(begins)}, {seconds_text(ends)}, {rate})" for begins, ends, rate in parameters.rates]
        found.append(("rates", f"[{', '.join(spans)}]"))
    if parameters.slow is not None:
        begins, ends, percent = parameters.slow
        found.append(("slow", f"({seconds_text(begins)}, {seconds_text(ends)}, {percent / 100!r})"))
    if "words" in changed:
        found.append(("seed", str(parameters.words)))
    if parameters.tickets is not None:
        tickets = parameters.tickets
        spelt = f"Quota({tickets})" if isinstance(tickets, Terms) else str(tickets)
        found.append(("limit", f'"{tickets.text}"' if isinstance(tickets, LimitTerms) else spelt))
    if parameters.beside:
        populations = [_python_population(policy, each) for each in parameters.beside]
        found.append(("beside", f"[{', '.join(populations)}]"))
    return found


def _python_population(policy: Policy, clients: Clients) -> str:
    """A population, whose policy is the variable of the program where it is the same."""
    words = [repr(clients.share / 100), "policy" if clients.policy == policy else repr(clients.policy)]
    words += [] if clients.patience is None else [f"patience={seconds_text(clients.patience)}"]
    words += ["limited=True"] if clients.is_limited else []
    return f"Population({', '.join(words)})"


def in_rust(policy: Policy, parameters: Parameters) -> str:
    """The same in Rust."""
    schedule = spelt_in_rust(policy.to_dict())
    others, beside = _rust_beside(policy, parameters)
    calls = [f".{call}" for call in [*_rust_calls(parameters), *beside]]
    played = "".join(f"\n        {call}" for call in [*calls, ".play()?;"])
    used = [name for name in ("Fold", "Test") if f"{name}::" in schedule + others]
    used += [name for name in ("Breaker", "Bucket", "InFlight", "Throttle") if f"limit({name} " in played]
    used += ["Population"] * bool(beside)
    names = ", ".join(sorted(["Policy", "Schedule", "Storm", *used]))
    timed = "use std::time::Duration;\n" if "Duration::" in schedule + others + played else ""
    return (
        f"use hikebox::{{{names}}};\n{timed}\n"
        "fn main() -> Result<(), Box<dyn std::error::Error>> {\n"
        f"    let schedule = {schedule};\n"
        "    let policy = Policy::new(&schedule)?;\n"
        f"{others}"
        f"    let report = Storm::new(&policy){played}\n"
        '    println!("{report}");\n    Ok(())\n}\n'
    )


def _rust_beside(policy: Policy, parameters: Parameters) -> Tuple[str, List[str]]:
    """The lines that make the policies of the populations beside, where these are others, and the calls that give a
    storm the populations."""
    names = {policy: "policy"}
    lines, calls = "", []
    for name, each in zip(("second", "third", "fourth"), parameters.beside):
        if each.policy not in names:
            names[each.policy] = name
            lines += f"    let {name} = Policy::new(&{spelt_in_rust(each.policy.to_dict())})?;\n"
        population = f"Population::new({each.share}, &{names[each.policy]})"
        population += "" if each.patience is None else f".patience({duration(each.patience)})"
        calls.append(f"beside({population}{'.limited(true)' if each.is_limited else ''})")
    return lines, calls


def _rust_calls(parameters: Parameters) -> List[str]:
    changed = _changed(parameters)
    found: List[Any] = [f"{name}({changed[name]})" for name in _COUNTS if name in changed]
    found += [f"{name}({duration(changed[name])})" for name in TIMES if changed.get(name) is not None]
    if "outage" in changed:
        begins, ends = parameters.outage
        found.append("no_outage()" if begins == ends == 0 else f"outage({duration(begins)}..{duration(ends)})")
    if parameters.rates:
        spans = [f"({duration(begins)}..{duration(ends)}, {rate})" for begins, ends, rate in parameters.rates]
        found.append(f"rates([{', '.join(spans)}])")
    if parameters.slow is not None:
        begins, ends, percent = parameters.slow
        found.append(f"slow({duration(begins)}..{duration(ends)}, {percent})")
    if "words" in changed:
        found.append(f"seed({parameters.words})")
    tickets = parameters.tickets
    if isinstance(tickets, Terms):
        found.append(f"quota({tickets.reserve}, {tickets.share / 1000!r}, {duration(tickets.period)})")
    elif isinstance(tickets, LimitTerms):
        found += _rust_limit(tickets)
    elif tickets is not None:
        found.append(f"budget({tickets})")
    return found


def _rust_limit(limit: LimitTerms) -> List[str]:
    """The calls that give a storm its limit."""
    numbers = dict(limit.numbers)

    def members(**names: str) -> str:
        return ", ".join(f"{name}: {numbers[of] / 1000!r}" for name, of in names.items())

    if limit.draws_on == ON_BUCKET:
        levels = {name: f"bucket_{name}" for name in ("capacity", "floor", "debit", "credit")}
        refund = str(bool(numbers["bucket_refund"])).lower()
        late = f"Some({numbers['late_cost'] / 1000!r})" if numbers["cost"] != numbers["late_cost"] else "None"
        return [f"limit(Bucket {{ {members(**levels, cost='cost')}, timeout_cost: {late}, refund: {refund} }})"]
    if limit.draws_on == ON_IN_FLIGHT:
        most = "None" if numbers["most"] == NO_MOST else f"Some({numbers['most']})"
        return [f"limit(InFlight {{ least: {numbers['least']}, {members(share='share')}, most: {most} }})"]
    if limit.draws_on == ON_ADAPTIVE:
        counts = ", ".join(f"{name}: {numbers[name]}" for name in ("least", "most", "first"))
        return [f"limit(Adaptive {{ {counts}, {members(backoff='backoff')} }})"]
    if limit.draws_on == ON_THROTTLE:
        return [f"limit(Throttle {{ {members(ratio='ratio')}, period: {duration(numbers['period'])} }})"]
    open_for = "open_for: Policy::new(&Schedule::spaced(Duration::from_secs(30)))?"
    deadline = f"probe_deadline: {duration(numbers['deadline'])}"
    probes = f"probes: {numbers['probes']}"
    last = f"results: Some({numbers['results']})" if numbers["results"] else "results: None"
    return [f"limit(Breaker {{ failures: {numbers['failures']}, {last}, {open_for}, {probes}, {deadline} }})"]
