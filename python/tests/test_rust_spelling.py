"""How policies and storms are written in Rust. tests/rust.sh compiles what this file makes of them and runs it.

    HIKEBOX_LIBRARY=dist/libhikebox.so python3 python/tests/test_rust_spelling.py --write
                                                makes rust/tests/spellings.rs anew
"""

from __future__ import annotations

import random
import runpy
import sys
from pathlib import Path
from typing import Any, List

TOP = Path(__file__).resolve().parent.parent.parent
if __name__ == "__main__":
    sys.path[:0] = [str(TOP / "python" / "src"), str(TOP / "python" / "tests")]

import reference

from hikebox import Policy
from hikebox.advice.candidates import KINDS, candidates
from hikebox.advice.code import in_rust as in_rust_under
from hikebox.lab.cookbook import COOKBOOK
from hikebox.policy.spelling import spelt_in_rust
from hikebox.storms.code import in_rust
from hikebox.storms.populations import Clients
from hikebox.storms.parameters import SCENARIOS, Parameters, RateSpan, Slow, Span
from hikebox.budgets.terms import Terms

FILE = TOP / "rust" / "tests" / "spellings.rs"
RANDOM = runpy.run_path(str(TOP / "tests" / "random_policies.py"))
TABLE = [*RANDOM["LEAVES"], *RANDOM["ONES"], *RANDOM["TWOS"]]

#: Nodes that are spelt in more than one way, and operators within operators.
NODES = [
    '"forever"', '{"recurs":3}', '{"spaced":1500}', '{"fixed":1000}', '{"windowed":1}', '{"linear":0}',
    '{"exponential":[100,2]}', '{"exponential_milli":[100,1500]}', '{"fibonacci":20}', '{"decorrelated":[0,100,3000,10000]}',
    '{"decorrelated":[2,100,2500,10000]}', '"elapsed"', '"identity"', '{"unfold":[1,2,3]}', '{"lone":30000}',
    '{"follow":[{"recurs":1},{"meet":["forever","elapsed"]}]}', '{"feed":[{"recurs":1},{"meet":["forever","elapsed"]}]}',
    '{"meet":[{"join":["forever",{"recurs":1}]},{"join":[{"recurs":2},{"meet":["forever","forever"]}]}]}',
    '{"join":[{"join":["forever",{"recurs":1}]},{"feed":[{"recurs":2},"identity"]}]}',
    '{"gate":["input",true,"below",7,{"meet":["forever",{"recurs":1}]}]}', '{"gate":["output",false,"at_least",7,"elapsed"]}',
    '{"gate":["input",false,"equal",4611686018427387903,"forever"]}', '{"gather":["sum",{"recurs":1}]}', '{"gather":["count","forever"]}',
    '{"gather":["max","forever"]}', '{"gather":["list","forever"]}', '{"add":[5,{"recurs":1}]}', '{"set":[5,"forever"]}',
    '{"cap":[1000,"forever"]}', '{"add_out":"forever"}', '{"jitter":[0,800,1200,"forever"]}', '{"jitter":[3,1,10000,"forever"]}',
    '{"within":[60000,"forever"]}', '{"ends_by":[1,"forever"]}', '{"renew":[60000,"forever"]}', '{"renew_idle":[60000,"forever"]}',
    '{"first":"forever"}', '{"second":{"meet":["forever","elapsed"]}}', '{"nothing":{"recurs":0}}',
]  # fmt: skip

STORMS = [
    Parameters(),
    SCENARIOS["herd"]._replace(tickets=100),
    SCENARIOS["brown-out"]._replace(tickets=Terms(10, 100, 1000), patience=250, window=500, rate=400),
    Parameters(
        seconds=1,
        calls=500,
        words=7,
        outage=Span(5, 700),
        slow=Slow(1, 2, 29),
        until=1500,
        capacity=9,
        queue=7,
        together=3,
        rates=(RateSpan(10, 20, 900), RateSpan(100, 1500, 0)),
    ),
    Parameters(
        seconds=1,
        outage=Span(0, 500),
        tickets=20,
        beside=(
            Clients(30, Policy.parse(COOKBOOK[3][1])),
            Clients(9, Policy.parse('spaced(1).gather("max")'), 2000, True),
            Clients(20, Policy.parse("recurs(2)"), None, True),
        ),
    ),
]

#: The first and the last limit of each kind.
LIMITS = list(dict.fromkeys(candidates(500, [kind])[end] for kind in KINDS for end in (0, -1)))


def policies() -> List[Policy]:
    rng = random.Random(7)
    some: List[Any] = [reference.some_plan(rng, rng.randrange(2, 12)) for _ in range(40)]
    each = [(node, sum(item["unit"] == "plan" for item in node["items"])) for node in TABLE]
    known = [
        *map(Policy.from_json, NODES),
        *(Policy.from_dict(RANDOM["some_node"](rng, node, ["forever"] * plans)) for node, plans in each),
        *(Policy.parse(spelt) for _, spelt in COOKBOOK),
        *map(Policy.from_dict, some),
    ]
    return list(dict.fromkeys(known))


def made() -> str:
    """The text of the file."""
    pairs = "".join(f'        ({spelt_in_rust(each.to_dict())}, r#"{each.to_json()}"#),\n' for each in policies())
    programs = "".join(
        f"\nmod storm_{number} {{\n{_set_in(in_rust(Policy.parse(COOKBOOK[3][1]), storm)).replace('fn main', 'pub fn main')}}}\n"
        for number, storm in enumerate(STORMS)
    )
    advised = "".join(
        f"    {{\n{_set_in(_set_in(in_rust_under(Policy.parse(COOKBOOK[3][1]), limit)))}"
        "        assert_eq!(hikebox::retry(&policy, &limit, || Ok::<_, std::io::Error>(7))?, 7);\n    }\n"
        for limit in LIMITS
    )
    runs = "".join(f"    storm_{number}::main().unwrap();\n" for number in range(len(STORMS)))
    return f"""\
//! Made by python/tests/test_rust_spelling.py: policies as the page of `hikebox lab` writes them in Rust, each beside its JSON,
//! its programs of storms, and the lines that `hikebox advise` prints.

#![cfg_attr(rustfmt, rustfmt_skip)]

use hikebox::{{Fold, Policy, Schedule, Test}};
use std::time::Duration;

#[test]
fn each_expression_builds_its_policy() {{
    let pairs: Vec<(Schedule, &str)> = vec![
{pairs}    ];
    for (schedule, json) in pairs {{
        assert_eq!(schedule.as_json(), json);
        assert!(Policy::new(&schedule).is_ok(), "{{json}}");
    }}
}}

#[test]
fn each_program_plays_its_storm() {{
{runs}}}

#[test]
fn the_lines_of_each_limit_run() -> Result<(), Box<dyn std::error::Error>> {{
{advised}    Ok(())
}}
{programs}"""


def _set_in(text: str) -> str:
    return "".join(f"    {line}\n" if line else "\n" for line in text.splitlines())


def test_the_file_of_rust_is_what_is_made_here() -> None:
    if (TOP / "rust").exists():
        assert FILE.read_text() == made()


def test_a_program_in_rust_has_what_was_changed_alone() -> None:
    assert in_rust(Policy.parse("recurs(3)"), Parameters(rate=90, tickets=5)) == (
        "use hikebox::{Policy, Schedule, Storm};\n\nfn main() -> Result<(), Box<dyn std::error::Error>> {\n"
        "    let schedule = Schedule::recurs(3);\n    let policy = Policy::new(&schedule)?;\n"
        "    let report = Storm::new(&policy)\n        .rate(90)\n        .budget(5)\n        .play()?;\n"
        '    println!("{report}");\n    Ok(())\n}\n'
    )


if __name__ == "__main__" and sys.argv[1:] == ["--write"]:
    FILE.write_text(made())
    print(f"{FILE} is made anew")
