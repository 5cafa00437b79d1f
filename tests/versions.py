#!/usr/bin/env python3
"""Compares the version that VERSION has with those of the crate, the package, the header and the program, and with
the first heading of CHANGELOG.md that has one; and the fields of ABOUT with those of the crate and the package, where
an empty field has no line. `tests/versions.py --write` puts the number and the fields into all but CHANGELOG.md."""

import pathlib
import re
import sys

TOP = pathlib.Path(__file__).resolve().parent.parent
NUMBER = r"\d+\.\d+\.\d+"
#: Each place: its file, what stands before the number, and which part of the version it has; None is all of it.
PLACES = [
    ("rust/Cargo.toml", r'\A\[package\]\nname = "hikebox"\nversion = "', None),
    ("python/src/hikebox/version.py", r'^VERSION = "', None),
    ("python/PKG-INFO", r"^Version: ", None),
    ("python/share/hikebox.1", r'^\.TH HIKEBOX 1 "" "hikebox ', None),
    ("include/hikebox.h", r'^#define HIKEBOX_VERSION "', None),
    ("include/hikebox.h", r"^#define HIKEBOX_VERSION_MAJOR ", 0),
    ("include/hikebox.h", r"^#define HIKEBOX_VERSION_MINOR ", 1),
    ("include/hikebox.h", r"^#define HIKEBOX_VERSION_PATCH ", 2),
    ("crates/sched_cli_words/src/commands.rt", r'^const VERSION: &str = "', None),
]


def fault_of(version, file, before, part, writes):
    """What is wrong with a place, or None; where `writes` is true the number there is replaced."""
    text = (TOP / file).read_text()
    number, expected = (NUMBER, version) if part is None else (r"\d+", version.split(".")[part])
    found = re.findall(f"({before})({number})", text, re.M)
    if len(found) != 1:
        return f"{file} has {len(found)} places of {before}"
    if writes:
        (TOP / file).write_text(re.sub(f"({before}){number}", rf"\g<1>{expected}", text, flags=re.M))
    elif found[0][1] != expected:
        return f"{file} has {found[0][1]}"
    return None


def about():
    """The fields of ABOUT: who made this, where to ask, and where it is kept."""
    lines = (TOP / "ABOUT").read_text().splitlines()
    return {name: value.strip() for name, _, value in (line.partition(":") for line in lines)}


def lines_about(author, contact, url):
    """Each line that a package has of these: its file, the line before it, how it begins, and its value."""
    mail = contact if "@" in contact and "/" not in contact else ""
    quoted = f"{author} <{mail}>" if author and mail else author
    yield "rust/Cargo.toml", "edition = ", "repository = ", url and f'"{url}"'
    yield "rust/Cargo.toml", "edition = ", "authors = ", quoted and f'["{quoted}"]'
    yield "python/PKG-INFO", "Summary: ", "Project-URL: Contact, ", contact if "://" in contact else ""
    yield "python/PKG-INFO", "Summary: ", "Project-URL: Source, ", url
    yield "python/PKG-INFO", "Summary: ", "Author-email: ", mail
    yield "python/PKG-INFO", "Summary: ", "Author: ", author


def fault_about(file, before, begins, value, writes):
    """What is wrong with a line of a field, or None; where `writes` is true the line is put there, or away."""
    text = (TOP / file).read_text()
    expected = [begins + value] if value else []
    found = re.findall(f"^{re.escape(begins)}.*$", text, re.M)
    if writes:
        without = re.sub(f"^{re.escape(begins)}.*\n", "", text, flags=re.M)
        put = "".join(f"{line}\n" for line in expected)
        (TOP / file).write_text(re.sub(rf"(?m)\A((?:.*\n)*?{before}.*\n)", lambda match: match[1] + put, without))
    elif found != expected:
        return f"and of ABOUT {file} should have {expected or 'no ' + begins}"
    return None


def main():
    version = (TOP / "VERSION").read_text().strip()
    if not re.fullmatch(NUMBER, version):
        sys.exit(f"tests/versions.py: VERSION is no version: {version}")
    writes = sys.argv[1:] == ["--write"]
    fields = about()
    if sorted(fields) != ["Author", "Contact", "URL"]:
        sys.exit(f"tests/versions.py: expected the fields Author, Contact and URL in ABOUT, got {', '.join(fields)}")
    faults = [fault_of(version, *place, writes) for place in PLACES]
    faults += [fault_about(*line, writes) for line in lines_about(fields["Author"], fields["Contact"], fields["URL"])]
    wrong = [fault for fault in faults if fault]
    told = re.search(rf"^## ({NUMBER})", (TOP / "CHANGELOG.md").read_text(), re.M)
    if not told or told[1] != version:
        wrong.append(f"CHANGELOG.md's first version is {told and told[1]}")
    if wrong:
        sys.exit("\n".join(f"tests/versions.py: VERSION has {version}, {one}" for one in wrong))
    print(f"tests/versions.py: {len(PLACES) + 1} places have the version {version}")


if __name__ == "__main__":
    main()
