"""The calls of the engine: that they are those of the header, and what they refuse."""

from __future__ import annotations

import ctypes
import re
import subprocess
import sys
import threading
from ctypes import byref, c_size_t, c_uint8, c_uint64
from typing import Any, Dict, List, Tuple

import pytest
from conftest import TOP, python_environment

from hikebox._engine import calls, kept, leasing, limits, paces, storms, structs
from hikebox._engine.handles import Handle, Pass, PolicyHandle
from hikebox._engine.machine import Machine
from hikebox.errors import EngineError

HEADER = TOP / "include" / "hikebox.h"

TYPES: Dict[str, Any] = {
    "const char *": (ctypes.c_char_p,),
    "char *": (ctypes.POINTER(c_uint8),),
    "size_t": (c_size_t,),
    "size_t *": (ctypes.POINTER(c_size_t),),
    "uint64_t": (c_uint64,),
    "uint64_t *": (ctypes.POINTER(c_uint64),),
    "uint32_t": (ctypes.c_uint32,),
    "const uint32_t [4]": (ctypes.POINTER(ctypes.c_uint32),),
    "bool": (ctypes.c_bool,),
    "bool *": (ctypes.POINTER(ctypes.c_bool),),
    "const uint64_t *": (ctypes.POINTER(c_uint64),),
    "hikebox_place *": (ctypes.POINTER(structs.Place),),
    "const hikebox_course *": (ctypes.POINTER(structs.Course),),
    "const hikebox_event *": (ctypes.POINTER(structs.Event),),
    "hikebox_line *": (ctypes.POINTER(structs.Line),),
    "const hikebox_bucket *": (ctypes.POINTER(structs.BucketTerms),),
    "const hikebox_adaptive *": (ctypes.POINTER(structs.AdaptiveTerms),),
    "const hikebox_breaker *": (ctypes.POINTER(structs.BreakerTerms),),
    "hikebox_next *": (ctypes.POINTER(structs.Next),),
    "const hikebox_run *": (ctypes.POINTER(structs.Run),),
    "hikebox_usage *": (ctypes.POINTER(structs.Usage),),
    "const hikebox_storm *": (ctypes.POINTER(storms.Storm),),
    "hikebox_policies *": (ctypes.POINTER(storms.Policies),),
    "hikebox_window *": (ctypes.POINTER(storms.Window),),
    "hikebox_totals *": (ctypes.POINTER(storms.Totals),),
    "hikebox_stored *": (ctypes.POINTER(leasing.Stored),),
    "const hikebox_asking *": (ctypes.POINTER(leasing.Asking),),
    "hikebox_range *": (ctypes.POINTER(leasing.Range),),
    **{f"{const}hikebox_ticket *": (ctypes.POINTER(leasing.LeasedTicket),) for const in ("", "const ")},
    "const hikebox_grant *": (ctypes.POINTER(leasing.Grant),),
    "const hikebox_told *": (ctypes.POINTER(kept.Told),),
    "hikebox_kept *": (ctypes.POINTER(structs.Kept),),
    "hikebox_request *": (ctypes.POINTER(kept.HeldRequest),),
    "const hikebox_rate *": (ctypes.POINTER(structs.Rate),),
    "hikebox_state *": (ctypes.POINTER(structs.State),),
    **{f"{const}hikebox_seen *": (ctypes.POINTER(structs.Seen),) for const in ("", "const ")},
    "hikebox_mark *": (ctypes.POINTER(structs.Mark),),
    **{f"hikebox_{kind} *": (ctypes.POINTER(Handle),) for kind in "policy pass leased limit pace retry".split()},
}

CTYPES: Dict[str, Any] = {
    "size_t": ctypes.c_size_t,
    "uint64_t": c_uint64,
    "uint32_t": ctypes.c_uint32,
    "uint32_t[4]": structs.Words,
    "uint64_t[64]": c_uint64 * 64,
    "bool": ctypes.c_bool,
    "hikebox_phase[16]": storms.Phase * 16,
    "hikebox_population": storms.Population,
}


def header() -> str:
    if not HEADER.exists():
        pytest.skip("the header is not there")
    return re.sub(r"/\*.*?\*/", "", HEADER.read_text(), flags=re.S)


def test_the_signatures_are_those_of_the_header() -> None:
    declared: Dict[str, Tuple[Any, ...]] = {}
    signatures = {**calls.SIGNATURES, **kept.SIGNATURES, **leasing.SIGNATURES, **limits.SIGNATURES}
    signatures.update({**paces.SIGNATURES, **storms.SIGNATURES})
    for name, parameters in re.findall(r"hikebox_status (hikebox_\w+)\((.*?)\);", header(), flags=re.S):
        if name not in signatures:
            continue
        found: List[Any] = []
        for parameter in parameters.split(","):
            words = " ".join(parameter.split())
            kind = re.sub(r"\w+(\[4\])?$", r"\1", words).replace("*", " *").replace("  ", " ").strip()
            found.append(TYPES[kind][0])
        declared[name] = tuple(found)
    assert declared
    for name, kinds in signatures.items():
        assert declared[name] == kinds, name


def fields(body: str) -> List[Tuple[str, str]]:
    """The type and the name of each field of a struct."""
    found = re.findall(r"(size_t|uint64_t|uint32_t|bool|hikebox_phase|hikebox_population) (\w+)(\[\d+\])?;", body)
    return [(word + count, name) for word, name, count in found]


def test_the_structures_are_those_of_the_header() -> None:
    found = dict(
        (name, fields(body))
        for body, name in re.findall(r"typedef struct \{(.*?)\} (hikebox_\w+);", header(), flags=re.S)
    )
    kinds: Dict[str, Any] = {"place": structs.Place, "course": structs.Course}
    kinds.update({"event": structs.Event, "line": structs.Line})
    kinds.update({"next": structs.Next, "run": structs.Run, "usage": structs.Usage, "storm": storms.Storm})
    kinds.update({"window": storms.Window, "totals": storms.Totals})
    kinds.update({"stored": leasing.Stored, "asking": leasing.Asking, "range": leasing.Range})
    kinds.update({"ticket": leasing.LeasedTicket, "grant": leasing.Grant, "phase": storms.Phase})
    kinds.update({"population": storms.Population, "seen": structs.Seen})
    kinds.update({"rate": structs.Rate, "mark": structs.Mark})
    kinds.update({"told": kept.Told, "kept": structs.Kept, "request": kept.HeldRequest})
    for name, kind in kinds.items():
        assert [(field, CTYPES[word]) for word, field in found[f"hikebox_{name}"]] == list(kind._fields_)


def test_the_numbers_are_those_of_the_header() -> None:
    text = header()
    numbers = dict(re.findall(r"HIKEBOX_(\w+) = (\d+)", text))
    most = dict(re.findall(r"#define HIKEBOX_MAX_(\w+) (?:UINT64_C\()?(\d+)", text))
    known = (calls.MAX_TICKETS, calls.MAX_SHARE, calls.MAX_STEPS)
    assert (int(most["TICKETS"]), int(most["SHARE"]), int(most["STEPS"])) == known
    for name in ("NO_DEADLINE", "NO_BOUND"):
        assert f"#define HIKEBOX_{name} UINT64_MAX" in text and getattr(calls, name) == 2**64 - 1
    for name in (
        ["OK", "NO_MEMORY", "TOO_LARGE", "NO_ROOM", "NOT_JSON", "NOT_A_POLICY", "OUT_OF_RANGE", "TOO_DEEP"]
        + [
            "TOO_MANY",
            "BACKWARDS",
            "LIMIT_TOO_LARGE",
            "FIXED",
            "NO_TICKET",
            "TOO_MANY_PASSES",
            "PASSES_OUT",
            "RACES_LOST",
        ]
        + ["NOTHING_TO_HAND_BACK", "LEASE_WANTED", "NOT_OUT", "HELD_ALREADY"]
        + ["NO_REPORT", "WON", "LOST", "POLL", "RUN", "WAIT", "OVER", "ON_NOTHING", "ON_BUDGET", "ON_QUOTA"]
    ):
        assert int(numbers[name]) == getattr(calls, name), name
    for name in ("ADMIT", "DRAW", "FAILED", "SUCCEEDED", "CANCELLED"):
        assert int(numbers[f"TELL_{name}"]) == getattr(kept, name), name
    from hikebox.retry.state import ENDINGS, Ending

    endings = {name: int(number) for name, number in numbers.items() if name.startswith("ENDED_")}
    assert {number: ENDINGS[number] for number in endings.values()} == {
        endings["ENDED_WON"]: Ending.WON,
        endings["ENDED_DONE"]: Ending.SCHEDULE_DONE,
        endings["ENDED_LIMIT_REFUSED"]: Ending.LIMIT_REFUSED,
        endings["ENDED_CANCELLED"]: Ending.CANCELLED,
        endings["ENDED_NO_MEMORY"]: Ending.NO_MEMORY,
        endings["ENDED_BACKWARDS"]: Ending.CLOCK_WENT_BACK,
        endings["ENDED_DEADLINE"]: Ending.DEADLINE,
    }


def test_an_interpreter_without_what_calls_the_engine_is_told_so() -> None:
    text = "import ctypes; del ctypes.PyDLL; import hikebox"
    ran = subprocess.run([sys.executable, "-c", text], env=python_environment(), capture_output=True, text=True)
    last = ran.stderr.splitlines()[-1]
    wanted = (
        f"hikebox runs on CPython: {sys.implementation.name} has no ctypes.PyDLL, by which hikebox calls its engine"
    )
    assert (ran.returncode, last) == (1, f"ImportError: {wanted}")


def read(text: bytes) -> PolicyHandle:
    handle = PolicyHandle()
    assert handle.read(text) is None
    return handle


NONE, NONE_EITHER = PolicyHandle(), PolicyHandle()


def node(name: bytes, *numbers: int, first: PolicyHandle = NONE, second: PolicyHandle = NONE_EITHER) -> PolicyHandle:
    made = PolicyHandle()
    assert made.make((name, c_size_t(len(name))), numbers, first, second)
    return made


def test_handles_of_one_policy() -> None:
    policy = read(b'{"meet":[{"recurs":2},{"spaced":100}]}')
    second = policy.share()
    third = second.share()
    del policy, second
    assert third.size() == (3, 2, 2)
    with pytest.raises(EngineError):
        PolicyHandle().share()


def test_a_policy_is_made_node_by_node() -> None:
    # {"NAME":[numbers, first, second]}
    capped = node(b"cap", 1000, first=node(b"exponential", 100, 2))
    both = node(b"meet", first=node(b"recurs", 5), second=capped)
    assert both.json() == '{"meet":[{"recurs":5},{"cap":[1000,{"exponential":[100,2]}]}]}'
    assert both.size() == (4, 3, 5) and capped.size() == (2, 2, None)
    again = capped.share()
    assert node(b"join", first=capped, second=again).size() == (5, 3, None)
    assert node(b"forever").json() == '"forever"'
    four = node(b"decorrelated", 3, 10, 3000, 2000)
    assert four.json() == '{"decorrelated":[3,10,3000,2000]}'


@pytest.mark.parametrize(
    "name, numbers, under",
    [
        (b"recur", (5,), 0),  # no such node
        (b"recurs", (), 0),  # not so many numbers
        (b"recurs", (5, 6), 0),
        (b"recurs", (5,), 1),  # not so many policies
        (b"meet", (), 1),
        (b"gate", (5,), 1),  # its words have to be read
        (b"gather", (), 1),
        (b"fixed", (0,), 0),  # out of range
        (b"exponential", (1, 1001), 0),
        (b"spaced", (2**62,), 0),
    ],
)
def test_a_node_is_refused(name: bytes, numbers: Tuple[int, ...], under: int) -> None:
    parts = [node(b"spaced", 7) if place < under else PolicyHandle() for place in range(2)]
    made = PolicyHandle()
    assert not made.make((name, c_size_t(len(name))), numbers, *parts)
    assert not made.handle.held and all(part.size() == (1, 1, None) for part in parts[:under])


def test_a_node_too_deep_or_too_many() -> None:
    policy = node(b"forever")
    for _ in range(31):
        policy = node(b"nothing", first=policy)
    assert policy.size() == (32, 32, None)
    assert not PolicyHandle().make((b"nothing", c_size_t(7)), (), policy, NONE_EITHER)
    policy = node(b"recurs", 1)
    for _ in range(7):
        policy = node(b"meet", first=policy, second=policy.share())
    assert policy.size() == (255, 8, 1)
    assert node(b"nothing", first=policy).size() == (256, 9, 1)
    assert not PolicyHandle().make((b"meet", c_size_t(4)), (), policy, node(b"forever"))


def test_a_course_has_a_line_for_each_event() -> None:
    policy = read(b'{"meet":[{"recurs":2},{"jitter":[1,0,2000,{"spaced":100}]}]}')
    middle = (0, 0, 2**31, 0, 0)
    # the words of the lane 1: none, half and most of twice the delay
    events = [(7, 9, 0, 9, 9), middle, (7, 0, 2**32 - 1, 0, 0)]
    assert policy.course(9, 50, 3, events) == [(50, 50, "(0, 0)"), (53, 153, "(1, 1)"), (156, None, "(2, 2)")]
    assert policy.course(2, 50, 0, [middle]) == [(50, 150, "(0, 0)"), (150, 250, "(1, 1)")]
    assert policy.course(0, 50, 0, [middle]) == []
    with pytest.raises(EngineError) as caught:
        policy.course(1, 2**62, 0, [middle])
    assert caught.value.status == calls.OUT_OF_RANGE


def test_a_course_with_long_outputs() -> None:
    listed = read(b'{"gather":["list",{"spaced":1}]}')
    told = listed.course(1000, 0, 0, [(0, 0, 0, 0, 0)])
    assert len(told) == 1000 and told[-1].start == 1000
    assert [each.output for each in told] == [str(list(range(length))) for length in range(1000)]
    assert len(read(b'{"spaced":1}').course(calls.MAX_STEPS, 0, 0, [(0, 0, 0, 0, 0)])) == 4096


def test_threads_share_a_policy() -> None:
    policy = node(b"meet", first=node(b"recurs", 3), second=node(b"spaced", 10))
    seen: List[Any] = []

    def uses() -> None:
        machine, drawn = Machine(), Pass.of_budget(10_000, False)
        for _ in range(300):
            above = node(b"cap", 5, first=policy)
            assert machine.begin(policy, drawn)
            polled = machine.poll(0, calls.NO_REPORT, 0), machine.poll(0, calls.LOST, 0)
            machine.end(drawn)
            seen.append(
                (above.size(), policy.json(), policy.course(2, 0, 0, [(0, 0, 0, 0, 0)])[1].start, polled[1][:2])
            )
        drawn.close()

    threads = [threading.Thread(target=uses) for _ in range(6)]
    for thread in threads:
        thread.start()
    for thread in threads:
        thread.join()
    text = '{"meet":[{"recurs":3},{"spaced":10}]}'
    assert seen == [((4, 3, 3), text, 20, (calls.WAIT, 10))] * 1800


def test_wrong_handles_are_refused_and_nothing_is_lost() -> None:
    policy = read(b'{"recurs":2}')
    drawn = Pass.of_budget(3, False)
    library = calls.library
    empty = Handle()
    number, words = c_uint64(), structs.Words()
    assert library.hikebox_pass_draw(byref(empty), 0, byref(number)) == 1
    assert library.hikebox_pass_draw(policy.at, 0, byref(number)) == 2
    assert library.hikebox_policy_free(byref(empty)) == 1
    assert library.hikebox_policy_free(drawn.at) == 2
    assert library.hikebox_budget_fixed(1, drawn.at) == 3
    assert library.hikebox_retry_poll(policy.at, 0, words, 0, 0, byref(structs.Next())) == 2
    assert policy.size() == (1, 1, 2) and drawn.draw() == 0
    machine = Machine()
    assert machine.begin(policy, drawn)
    with pytest.raises(EngineError) as caught:
        machine.begin(policy, drawn)
    assert caught.value.status == 3
    machine.end(drawn)
    assert drawn.close() == 1


def test_a_retry_as_a_machine() -> None:
    machine, policy, drawn = Machine(), read(b'{"meet":[{"recurs":5},{"spaced":100}]}'), Pass.of_budget(100, False)
    assert machine.begin(policy, drawn)
    assert machine.poll(0, calls.NO_REPORT, 0)[0] == calls.RUN
    assert machine.poll(10, calls.LOST, 7) == (calls.WAIT, 110, 1)
    assert machine.poll(109, calls.NO_REPORT, 0) == (calls.WAIT, 110, 0)
    with pytest.raises(EngineError) as caught:
        machine.poll(109, calls.LOST, 7)
    assert caught.value.status == 41
    assert machine.poll(110, calls.NO_REPORT, 0)[0] == calls.RUN
    assert machine.poll(120, calls.WON, 1) == (calls.OVER, 1, 1)
    assert drawn.close() is None
    machine.end(drawn)
    assert drawn.close() == 1


def test_a_retry_on_a_quota_as_a_machine() -> None:
    machine, policy, drawn = Machine(), read(b'{"spaced":100}'), Pass.of_quota(0, 1, 500, 1000)
    drawn.deposit(5_010)
    assert drawn.seen(5_010) == (5, 1, 0, 1, 6_000)
    assert machine.begin(policy, drawn)
    assert machine.poll(5_010, calls.NO_REPORT, 0)[0] == calls.RUN
    assert machine.poll(5_020, calls.LOST, 7) == (calls.WAIT, 5_120, 1)
    assert machine.poll(5_120, calls.NO_REPORT, 0)[0] == calls.RUN
    assert machine.poll(5_999, calls.LOST, 7) == (calls.OVER, 3, 1)
    assert drawn.close() is None
    machine.end(drawn)
    assert drawn.draw(5_999) is None and drawn.draw(6_000) == 6 * 2**32
    assert drawn.count() == 2 == drawn.close()


def test_tickets_of_passes_come_back_and_terms_change() -> None:
    quota = Pass.of_quota(0, 2, 0, 1000)
    part = quota.split()
    assert part is not None and not part.hand_back()
    assert (part.draw(0), quota.draw(0), quota.draw(0)) == (0, 1, None)
    # another number is dealt for the one that came back, and a pass hands its latest back once
    assert part.hand_back() and not part.hand_back()
    assert (part.count(), quota.seen(0)[1:4]) == (0, (0, 1, 1))
    assert (part.draw(0), quota.draw(0)) == (2, None)
    part.set_terms(3, 0)
    assert (quota.draw(0), part.draw(0)) == (3, None)
    quota.set_terms(0, 500)
    assert quota.seen(0)[1:4] == (0, 3, 0)
    part.deposit(0, c_uint64(8))
    assert (part.draw(0), quota.draw(0)) == (4, None)
    # the latest of two passes that are joined, and none once its window is over
    quota.join(part)
    assert quota.hand_back() and quota.seen(1000)[:4] == (1, 0, 0, 0)
    assert quota.close() == 3


def test_passes_that_take_no_ticket_back_and_have_no_terms() -> None:
    for drawn in (Pass.of_budget(5, False), Pass.of_budget(5, True), Pass.of_nothing()):
        assert drawn.draw() == 0 and not drawn.hand_back() and drawn.count() == 1
        drawn.deposit(0, c_uint64(2**40))
        with pytest.raises(EngineError) as caught:
            drawn.set_terms(1, 1)
        assert caught.value.status == 39
    part = Pass.of_quota(0, 1, 1000, 1000).split()
    assert part is not None
    for count, status in ((2**20 + 1, 44), (2**64 - 1, 44)):
        with pytest.raises(EngineError) as caught:
            part.deposit(0, c_uint64(count))
        assert caught.value.status == status
    part.deposit(0, c_uint64(2**20))
    assert part.seen(0)[1:4] == (2**20, 0, 2**20 + 1)
    for reserve, share, status in ((2**32 + 1, 0, 35), (0, 1_000_001, 36)):
        with pytest.raises(EngineError) as caught:
            part.set_terms(reserve, share)
        assert caught.value.status == status


def test_a_retry_with_a_deadline_as_a_machine() -> None:
    # starts at 450 and 900, and the one at 1350 is too late: it ends so, and draws nothing for it
    machine, policy = Machine(), read(b'{"spaced":450}')
    budget, quota = Pass.of_budget(9, False), Pass.of_quota(0, 9, 0, 60_000)
    for drawn in (budget, quota, None):
        if drawn is None:
            machine.begin_unlimited(policy, 1000)
        else:
            assert machine.begin(policy, drawn, 1000)
        for retries in (1, 2):
            start = 450 * (retries - 1)
            assert machine.poll(start, calls.NO_REPORT, 0)[0] == calls.RUN
            assert machine.poll(start, calls.LOST, 7) == (calls.WAIT, start + 450, retries)
        assert machine.poll(900, calls.NO_REPORT, 0)[0] == calls.RUN
        assert machine.poll(900, calls.LOST, 7) == (calls.OVER, 8, 2)
        if drawn is None:
            machine.free()
        else:
            machine.end(drawn)
    assert (budget.close(), quota.close()) == (2, 2)


def test_a_retry_on_nothing_as_a_machine() -> None:
    machine, policy = Machine(), read(b'"forever"')
    machine.begin_unlimited(policy)
    assert machine.poll(0, calls.NO_REPORT, 0)[0] == calls.RUN
    for retries in range(1, 1000):
        assert machine.poll(retries, calls.LOST, 0) == (calls.RUN, 0, retries)
    with pytest.raises(EngineError) as caught:
        machine.end(Pass.of_budget(1, False))
    assert caught.value.status == 42
    with pytest.raises(EngineError) as caught:
        machine.end(Pass.of_quota(0, 1, 0, 100))
    assert caught.value.status == 42
    machine.free()
    machine.free()


def test_a_retry_ends_on_what_it_draws_on_alone() -> None:
    policy, quota, budget = read(b'{"recurs":2}'), Pass.of_quota(0, 1, 0, 100), Pass.of_budget(3, False)
    machine = Machine()
    assert machine.begin(policy, quota)
    with pytest.raises(EngineError) as caught:
        machine.end(budget)
    assert caught.value.status == 42
    machine.end(quota)
    assert machine.begin(policy, budget)
    with pytest.raises(EngineError) as caught:
        machine.end(quota)
    assert caught.value.status == 42
    machine.end(budget)
    assert (quota.close(), budget.close()) == (0, 0)
    library = calls.library
    assert library.hikebox_pass_draw(policy.at, 0, byref(c_uint64())) == 2
    assert library.hikebox_pass_draw(quota.at, 0, byref(c_uint64())) == 1
    assert library.hikebox_pass_deposit(quota.at, 2**62, 1) == 5


def test_a_pass_that_was_freed_keeps_the_budget_open() -> None:
    drawn = Pass.of_budget(5, False)
    part = drawn.split()
    assert part is not None and part.draw() == 0
    part.free()
    part.free()
    assert drawn.draw() == 1
    assert drawn.close() is None
    drawn.free()


def test_many_handles_made_and_freed() -> None:
    for _ in range(20000):
        machine, policy, drawn = Machine(), read(b'"forever"'), Pass.of_budget(1, False)
        machine.begin(policy, drawn)
        machine.poll(0, 0, 0)
        machine.free()
        drawn.free()


def test_a_status_without_a_name_is_an_error() -> None:
    with pytest.raises(EngineError):
        Pass().draw()
    with pytest.raises(EngineError):
        PolicyHandle().size()
    error: Any = EngineError("hikebox_pass_draw", 1)
    assert "status 1" in str(error)
    assert isinstance(calls.refused("a call", calls.NO_MEMORY), MemoryError)
