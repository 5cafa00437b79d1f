"""Compares the calls that include/hikebox.h declares with those that crates/hikebox_c exports: their names, and of each
the types of its parameters in order. A handle's type is a struct of one pointer, whichever kind it is of. The export of
crates/sched_storm_call makes the call of its name there and nothing else, and has its parameters and clauses, word for
word. The header's comment and the pages name each struct that begins with its size."""

import pathlib
import re
import sys

TOP = pathlib.Path(__file__).resolve().parent.parent
RATTLE = {
    "&mut Handle": ["handle *"],
    "&[u8]": ["const char *", "size_t"],
    "&mut [u8]": ["char *", "size_t"],
    "&[u64]": ["const uint64_t *", "size_t"],
    "&[u32; 4]": ["const uint32_t *"],
    "&mut u64": ["uint64_t *"],
    "&mut usize": ["size_t *"],
    "&mut bool": ["bool *"],
    "&Words": ["const hikebox_seen *"],
    "&mut Words": ["hikebox_seen *"],
    "&mut Place": ["hikebox_place *"],
    "&SizedCourse": ["const hikebox_course *"],
    "&[EventGiven]": ["const hikebox_event *", "size_t"],
    "&mut [LineTold]": ["hikebox_line *", "size_t"],
    "&mut SizedReply": ["hikebox_next *"],
    "&Run": ["const hikebox_run *"],
    "&mut SizedUsage": ["hikebox_usage *"],
    "&mut Policies": ["hikebox_policies *"],
    "&SizedStorm": ["const hikebox_storm *"],
    "&mut [WindowTold]": ["hikebox_window *", "size_t"],
    "&mut SizedTotals": ["hikebox_totals *"],
    "&BucketGiven": ["const hikebox_bucket *"],
    "&AdaptiveGiven": ["const hikebox_adaptive *"],
    "&BreakerGiven": ["const hikebox_breaker *"],
    "&mut StateTold": ["hikebox_state *"],
    "&Asking": ["const hikebox_asking *"],
    "&mut Stored": ["hikebox_stored *"],
    "&mut Range": ["hikebox_range *"],
    "&Ticket": ["const hikebox_ticket *"],
    "&mut Ticket": ["hikebox_ticket *"],
    "&Granted": ["const hikebox_grant *"],
    "&mut Granted": ["hikebox_grant *"],
    "&ToldGiven": ["const hikebox_told *"],
    "&mut KeptGiven": ["hikebox_kept *"],
    "&mut HeldGiven": ["hikebox_request *"],
    "&RateGiven": ["const hikebox_rate *"],
    "&mut MarkGiven": ["hikebox_mark *"],
    "u64": ["uint64_t"],
    "u32": ["uint32_t"],
    "bool": ["bool"],
    "alloc: Global": [],
}
STRUCTS = {
    "Place": "hikebox_place",
    "SizedCourse": "hikebox_course",
    "EventGiven": "hikebox_event",
    "LineTold": "hikebox_line",
    "SizedReply": "hikebox_next",
    "Run": "hikebox_run",
    "SizedUsage": "hikebox_usage",
    "Phase": "hikebox_phase",
    "PopulationGiven": "hikebox_population",
    "Policies": "hikebox_policies",
    "SizedStorm": "hikebox_storm",
    "WindowTold": "hikebox_window",
    "SizedTotals": "hikebox_totals",
    "BucketGiven": "hikebox_bucket",
    "AdaptiveGiven": "hikebox_adaptive",
    "BreakerGiven": "hikebox_breaker",
    "StateTold": "hikebox_state",
    "Asking": "hikebox_asking",
    "Stored": "hikebox_stored",
    "Range": "hikebox_range",
    "Ticket": "hikebox_ticket",
    "Granted": "hikebox_grant",
    "ToldGiven": "hikebox_told",
    "KeptGiven": "hikebox_kept",
    "HeldGiven": "hikebox_request",
    "RateGiven": "hikebox_rate",
    "MarkGiven": "hikebox_mark",
    "Words": "hikebox_seen",
}
#: The crate whose calls are exported as they are.
CALLS = ("sched_storm_call",)
#: The crates whose structs have the layout of C.
LAID_OUT = ("sched_handle", "sched_limit_handle", "sched_storm", "sched_storm_call", "sched_ticket_lease", "hikebox_c")
FIELDS = {
    "u64": "uint64_t",
    "u32": "uint32_t",
    "usize": "size_t",
    "[u32; 4]": "uint32_t[4]",
    "[u64; 64]": "uint64_t[64]",
    "[Phase; 16]": "hikebox_phase[16]",
    "PopulationGiven": "hikebox_population",
    "Handle": "hikebox_policy",
}
#: The structs after a size: their members follow it.
AFTER_SIZE = ("CourseGiven", "Reply", "Usage", "StormGiven", "TotalsTold")


def without_comments(text):
    return re.sub(r"/\*.*?\*/|//[^\n]*", "", text, flags=re.S)


def declared():
    text = without_comments((TOP / "include/hikebox.h").read_text())
    calls = {}
    for name, parameters in re.findall(r"hikebox_status\s+(hikebox_\w+)\(([^)]*)\)\s*;", text):
        types = []
        for parameter in parameters.split(","):
            kind, _, array = re.fullmatch(r"\s*(.*?[\s*])(\w+)(\[\d+\])?\s*", parameter, re.S).groups()
            kind = " ".join((kind + ("*" if array else "")).replace("*", " * ").split())
            types.append(re.sub(r"hikebox_(policy|pass|retry|leased|limit|pace) \*", "handle *", kind))
        calls[name] = types
    return calls


def exported():
    calls = {}
    for file in sorted((TOP / "crates/hikebox_c/src").glob("*.rt")):
        for name, parameters in re.findall(
            r'pub extern "C" fn (\w+)\(([^)]*)\) -> u32', without_comments(file.read_text())
        ):
            types = []
            for parameter in re.split(r",\s*(?=\w+:)", parameters.strip().rstrip(",")):
                kind = parameter.partition(": ")[2]
                types += RATTLE[parameter] if parameter in RATTLE else RATTLE[kind]
            calls[name] = types
    return calls


def on_one_line(part):
    """The part with the white space of one line, however its parentheses are broken."""
    return " ".join(part.split()).rstrip(",").replace("( ", "(").replace(", )", ")")


def functions(crate, begins):
    """The functions that begin so: parameters, clauses and body of each, with the white space of one line."""
    pattern = begins + r"(\w+)\(([^)]*)\) -> u32\n(.*?)^\{\n(.*?)^\}$"
    for file in sorted((TOP / "crates" / crate / "src").glob("*.rt")):
        for name, *parts in re.findall(pattern, without_comments(file.read_text()), re.M | re.S):
            yield name, [on_one_line(part) for part in parts]


def passed_on():
    """Each export with what it should be by the call that it makes, where it is something else."""
    calls = {name: (crate, *parts) for crate in CALLS for name, parts in functions(crate, "^pub fn ")}
    exports = dict(functions("hikebox_c", r'^pub extern "C" fn hikebox_'))
    for name in sorted(calls):
        crate, parameters, clauses, _ = calls.get(name, ("", "", "", ""))
        words = ", ".join(re.findall(r"(\w+):", parameters))
        call = f"{crate}::{name}({words})"
        if exports.get(name) != [parameters, clauses, call]:
            yield name, exports.get(name), [parameters, clauses, call]


def members(rattle, replies):
    """The members of a struct that has the layout of C: types and names of C."""
    laid_out = r"#\[repr\(C\)\]\s*(?:#\[derive\([^)]*\)\]\s*)?pub struct "
    body = re.search(laid_out + rattle + r" \{([^}]*)\}", replies).group(1)
    for name, kind in re.findall(r"pub (\w+): (\[.*?\]|\w+)", body):
        if kind in AFTER_SIZE:
            yield from members(kind, replies)
        else:
            yield FIELDS.get(kind, kind), name


def structs():
    header = without_comments((TOP / "include/hikebox.h").read_text())
    files = [file for crate in LAID_OUT for file in sorted((TOP / "crates" / crate / "src").glob("*.rt"))]
    replies = "".join(without_comments(file.read_text()) for file in files)
    for rattle, c in STRUCTS.items():
        here = re.search(r"typedef struct \{([^}]*)\} " + c + ";", header).group(1)
        is_c = [(kind + array, name) for kind, name, array in re.findall(r"(\w+) (\w+)((?:\[\d+\])?);", here)]
        yield c, is_c, list(members(rattle, replies))


def sized():
    """Each text on the structs that begin with their size, with those that it names and those that there are."""
    header = (TOP / "include/hikebox.h").read_text()
    there = set(re.findall(r"size_t size;[^}]*\} (hikebox_\w+);", without_comments(header)))
    texts = {
        "include/hikebox.h": re.search(r"\* STRUCTS\.(.*?)\n \*\n", header, re.S),
        "docs/C.md": re.search(r"\*\*Structs that may grow\.\*\*(.*)", (TOP / "docs/C.md").read_text()),
    }
    for name, text in texts.items():
        yield name, set(re.findall(r"\bhikebox_\w+", text[1])), there


def main():
    is_c, is_rattle = declared(), exported()
    wrong = [
        f"{name}: declared {is_c.get(name)}, exported {is_rattle.get(name)}"
        for name in sorted({*is_c, *is_rattle})
        if is_c.get(name) != is_rattle.get(name)
    ]
    wrong += [f"{name}: declared {here}, written {there}" for name, here, there in structs() if here != there]
    wrong += [f"{name}: exported {here}, called {there}" for name, here, there in passed_on()]
    wrong += [
        f"{name}: expected the structs {sorted(there)}, got {sorted(here)}"
        for name, here, there in sized()
        if here != there
    ]
    for line in wrong:
        print(f"tests/exports.py: {line}", file=sys.stderr)
    print(f"tests/exports.py: {len(is_c)} calls compared")
    return bool(wrong) or not is_c


sys.exit(main())
