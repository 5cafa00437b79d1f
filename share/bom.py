"""Writes the bill of materials of a release, as CycloneDX 1.5 in JSON: `bom.py FOLDER`. It names each file in the
folder with its checksum, what the engine is compiled from besides this repository, and the crates that features use."""

import hashlib
import json
import pathlib
import re
import subprocess
import sys

TOP = pathlib.Path(__file__).resolve().parent.parent


def kit():
    """The identity of the Rattle kit that built dist/."""
    lines = (TOP / "dist" / "SOURCES").read_text().splitlines()
    return next(line.removeprefix("kit ") for line in lines if line.startswith("kit "))


def names_of_kit():
    """The libraries of the kit that the library and zsched stand on."""
    below = subprocess.run(
        [TOP / "bin/crates", "below", "hikebox_c", "zsched"], capture_output=True, text=True, check=True
    )
    own = set(below.stdout.split())
    lines = [
        line.split(":") for line in (TOP / "crates.txt").read_text().splitlines() if ":" in line and line[0] != "#"
    ]
    named = {word for name, words in lines if name.split()[0] in own for word in words.split()}
    return sorted(named - own)


def engine_parts():
    """What is compiled into the engine and zsched besides the crates of this repository."""
    for name in names_of_kit():
        yield {
            "type": "library",
            "name": name,
            "description": f"library of the Rattle kit: {kit()}",
            "scope": "required",
        }
    yield {
        "type": "library",
        "name": "libgcc",
        "description": "functions of the compiler in libhikebox.so",
        "licenses": [{"expression": "GPL-3.0-or-later WITH GCC-exception-3.1"}],
        "scope": "required",
    }


def crate_parts():
    """The crates that features of the Rust crate use."""
    text = (TOP / "rust" / "Cargo.toml").read_text()
    section = re.search(r"^\[dependencies\]\n(.*?)^\[", text, re.M | re.S)[1]
    for name, rest in re.findall(r"^([\w-]+) = (.*)$", section, re.M):
        version = re.search(r'"(\d[\d.]*)"', rest)[1]
        yield {
            "type": "library",
            "name": name,
            "version": version,
            "purl": f"pkg:cargo/{name}@{version}",
            "scope": "optional",
        }


def about():
    """What ABOUT says of the author, of where to ask and of where the sources are: its fields that are not empty."""
    lines = (line.partition(":") for line in (TOP / "ABOUT").read_text().splitlines())
    fields = {name: value.strip() for name, _, value in lines}
    contact = fields["Contact"]
    links = {"vcs": fields["URL"], "support": contact if "://" in contact or not contact else f"mailto:{contact}"}
    references = [{"type": kind, "url": url} for kind, url in links.items() if url]
    return {
        **({"author": fields["Author"]} if fields["Author"] else {}),
        **({"externalReferences": references} if references else {}),
    }


def files(folder):
    """Each file of the release."""
    for path in sorted(folder.iterdir()):
        digest = hashlib.sha256(path.read_bytes()).hexdigest()
        yield {"type": "file", "name": path.name, "hashes": [{"alg": "SHA-256", "content": digest}]}


def main():
    folder = pathlib.Path(sys.argv[1])
    version = (TOP / "VERSION").read_text().strip()
    licenses = [{"license": {"id": "Apache-2.0"}}]
    named = {"type": "library", "name": "hikebox", "version": version, "bom-ref": "hikebox"}
    hikebox = {**named, "licenses": licenses, **about()}
    bom = {
        "bomFormat": "CycloneDX",
        "specVersion": "1.5",
        "version": 1,
        "metadata": {"component": hikebox},
        "components": [*engine_parts(), *crate_parts(), *files(folder)],
    }
    print(json.dumps(bom, indent=2))


main()
