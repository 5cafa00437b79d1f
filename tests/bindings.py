#!/usr/bin/env python3
"""Compares the constants and structs of rust/src/engine/sys.rs with include/hikebox.h: each constant has the header's
number, and each struct that crosses the border the header's fields. Its functions are made from the header by
bin/bindings.
"""

import pathlib
import re
import sys

TOP = pathlib.Path(__file__).resolve().parent.parent
NUMBERS = {
    "uint64_t": "u64",
    "uint32_t": "u32",
    "uint8_t": "u8",
    "char": "u8",
    "size_t": "usize",
    "bool": "bool",
    "hikebox_status": "u32",
}
#: The structs of the header, and what Rust calls them.
STRUCTS = {
    "place": "Place",
    "course": "Course",
    "event": "Event",
    "line": "Line",
    "next": "Next",
    "run": "Run",
    "bucket": "BucketTerms",
    "adaptive": "AdaptiveTerms",
    "breaker": "BreakerTerms",
    "seen": "Seen",
    "state": "State",
    "usage": "Used",
    "phase": "Phase",
    "population": "Population",
    "storm": "Storm",
    "window": "Window",
    "totals": "Totals",
    "stored": "Stored",
    "asking": "Asking",
    "range": "Range",
    "ticket": "Ticket",
    "grant": "Grant",
}
#: Constants of Rust that are not named as the header's.
NAMES = {"MAX_NUMBER": "HIKEBOX_MAX_NUMBER", "MAX_TICKETS": "HIKEBOX_MAX_TICKETS"}


def without_comments(text):
    """The text with no comment of C or of Rust."""
    return re.sub(r"/\*.*?\*/|//[^\n]*", "", text, flags=re.S)


def rust_type(declared):
    """The type in Rust of a field that C declares so."""
    array = re.fullmatch(r"(\w+) \w+\[(\d+)\]", declared)
    if array:
        return f"[{NUMBERS.get(array[1]) or STRUCTS[array[1].removeprefix('hikebox_')]}; {array[2]}]"
    const, name, stars = re.fullmatch(r"(const )?(\w+) (\**)\w+", declared).groups()
    named = NUMBERS.get(name) or STRUCTS.get(name.removeprefix("hikebox_"), "Raw")
    return f"*{'const' if const else 'mut'} {named}" if stars else named


def constants_of_header(header):
    """The numbers of the enums and of the limits."""
    enums = re.findall(r"\b(HIKEBOX_\w+) = (\d+)", header)
    limits = re.findall(r"#define (HIKEBOX_\w+) (?:UINT(?:32|64)_C\()?(\d+)", header)
    most = [(name, 2**64 - 1) for name in re.findall(r"#define (HIKEBOX_\w+) UINT64_MAX", header)]
    return {name: int(number) for name, number in enums + limits + most}


def structs_of_header(header):
    """The fields of each struct that crosses the border: names, and types in Rust."""
    fields = {}
    for body, name in re.findall(r"typedef struct \{([^}]*)\} hikebox_(\w+);", header):
        declared = [" ".join(one.split()) for one in body.split(";") if one.strip()]
        if name in STRUCTS:
            fields[STRUCTS[name]] = [(one.split()[-1].split("[")[0], rust_type(one)) for one in declared]
    return fields


def constants_of_rust(source):
    """The constants, by the names of the header."""
    found = re.findall(r"const (\w+): u(?:32|64) = ([^;]+);", source)
    numbers = {"(1 << 62) - 1": (1 << 62) - 1, "1 << 32": 1 << 32, "u64::MAX": 2**64 - 1}
    return {NAMES.get(name, f"HIKEBOX_{name}"): numbers.get(value) or int(value) for name, value in found}


def structs_of_rust(source):
    """The fields of each struct."""
    found = re.findall(r"#\[repr\(C\)\]\n(?:#\[[^\n]*\]\n)*pub\(crate\) struct (\w+) \{([^}]*)\}", source)
    return {name: re.findall(r"(\w+): ([^,]+),", body) for name, body in found if name != "Raw"}


def main():
    header = without_comments((TOP / "include/hikebox.h").read_text())
    source = without_comments((TOP / "rust/src/engine/sys.rs").read_text())
    differences, compared = [], 0
    for what, wanted, found in [
        ("constant", constants_of_header(header), constants_of_rust(source)),
        ("struct", structs_of_header(header), structs_of_rust(source)),
    ]:
        if not found:
            differences.append(f"no {what} was found")
        compared += len(found)
        differences += [
            f"{what} {name}: the header has {wanted.get(name)}, Rust {found[name]}"
            for name in found
            if found[name] != wanted.get(name)
        ]
    if differences:
        sys.exit("rust/src/engine/sys.rs: " + "\nrust/src/engine/sys.rs: ".join(differences))
    print(f"tests/bindings.py: {compared} declarations of Rust are the header's")


if __name__ == "__main__":
    main()
