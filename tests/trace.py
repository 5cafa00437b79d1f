#!/usr/bin/env python3
"""The calls of the library that one retry makes, in Python, in Rust and in C, as docs/ARCHITECTURE.md prints them.

Each program fails twice and then succeeds, by `recurs(5) & exponential(10 ms, 2)` under a budget of 100 retries. It
runs on a library whose calls write down their names and then do what they do.

    tests/trace.py          prints the traces
    tests/trace.py --check  compares them with the page
    tests/trace.py --write  writes them into the page

HIKEBOX_LIB_DIR names the folder of the library, that of dist/ where it does not. It needs gcc, binutils and cargo.
"""

from __future__ import annotations

import os
import pathlib
import re
import subprocess
import sys
import tempfile
from typing import Any

TOP = pathlib.Path(__file__).resolve().parent.parent
DIST = pathlib.Path(os.environ.get("HIKEBOX_LIB_DIR", TOP / "dist")).resolve()
PAGE = TOP / "docs" / "ARCHITECTURE.md"
BEGIN, END = "<!-- tests/trace.py writes this block. -->\n```text\n", "```\n"

PYTHON = """
from hikebox import Budget, exponential, recurs, retry

failures = iter([OSError("busy"), OSError("busy"), None])

@retry(recurs(5) & exponential(0.01, 2), on=OSError, limit=Budget(100))
def call():
    failure = next(failures)
    if failure is not None:
        raise failure

call()
"""

RUST = """
use hikebox::{retry, Budget, Policy, Schedule};
use std::time::Duration;

fn main() -> Result<(), Box<dyn std::error::Error>> {
    let schedule = Schedule::recurs(5) & Schedule::exponential(Duration::from_millis(10), 2);
    let (policy, budget) = (Policy::new(&schedule)?, Budget::new(100)?);
    let mut runs = 0;
    retry(&policy, &budget, || {
        runs += 1;
        if runs < 3 { Err("busy") } else { Ok(()) }
    })?;
    Ok(())
}
"""

MANIFEST = """[package]
name = "traced"
version = "0.0.0"
edition = "2021"

[dependencies]
hikebox = {{ path = "{crate}" }}
"""

NOTE = """
#include <fcntl.h>
#include <stdlib.h>
#include <string.h>
#include <unistd.h>
#include <hikebox.h>

static void note(const char *name) {
    const char *path = getenv("HIKEBOX_TRACE");
    int file = path == NULL ? -1 : open(path, O_WRONLY | O_CREAT | O_APPEND, 0600);
    if (file < 0) return;
    if (write(file, name, strlen(name)) < 0 || write(file, "\\n", 1) < 0) abort();
    close(file);
}
"""


def declarations() -> list[tuple[str, str, str]]:
    """The result, the name and the parameters of each function of hikebox.h."""
    text = (DIST / "hikebox.h").read_text()
    text = re.sub(r"/\*.*?\*/", "", text, flags=re.S)
    text = re.sub(r"^#.*?(?<!\\)$", "", text, flags=re.M | re.S)
    text = text.replace("HIKEBOX_CHECKED", "")
    found = re.findall(r"^\s*((?:const )?\w+ \*?)\s*(hikebox_\w+)\(([^)]*)\);", text, flags=re.M)
    return [(result.strip(), name, " ".join(parameters.split())) for result, name, parameters in found]


def forwards(result: str, name: str, parameters: str) -> str:
    """A function in C that writes its name down and makes the call."""
    names = (
        []
        if parameters == "void"
        else [re.sub(r"\[\d*\]", "", word.split()[-1]).lstrip("*") for word in parameters.split(",")]
    )
    return (
        f"extern {result} real_{name}({parameters});\n"
        f"{result} {name}({parameters}) {{ note(\"{name}\"); return real_{name}({', '.join(names)}); }}\n"
    )


def run(*words: object, **more: Any) -> None:
    """Runs a command, which has to succeed."""
    done = subprocess.run([str(word) for word in words], capture_output=True, text=True, **more)
    if done.returncode != 0:
        sys.exit(f"tests/trace.py: {' '.join(map(str, words))}\n{done.stdout}{done.stderr}")


def build_library(work: pathlib.Path) -> None:
    """Makes libhikebox.a and libhikebox.so, whose calls write their names down."""
    calls = declarations()
    (work / "renamed").write_text("".join(f"{name} real_{name}\n" for _, name, _ in calls))
    (work / "note.c").write_text(NOTE + "".join(forwards(*call) for call in calls))
    run("objcopy", f"--redefine-syms={work / 'renamed'}", DIST / "libhikebox.a", work / "libhikebox.a")
    run("gcc", "-fPIC", "-O1", f"-I{DIST}", "-c", work / "note.c", "-o", work / "note.o")
    run("ar", "q", work / "libhikebox.a", work / "note.o")
    run(
        "gcc",
        "-shared",
        "-o",
        work / "libhikebox.so",
        "-Wl,--whole-archive",
        work / "libhikebox.a",
        "-Wl,--no-whole-archive",
    )


def run_python(work: pathlib.Path, environment: dict[str, str]) -> None:
    run(
        "python3",
        "-c",
        PYTHON,
        cwd=work,
        env={**environment, "PYTHONPATH": str(TOP / "python" / "src"), "HIKEBOX_LIBRARY": str(work / "libhikebox.so")},
    )


def run_rust(work: pathlib.Path, environment: dict[str, str]) -> None:
    program = work / "traced"
    (program / "src").mkdir(parents=True)
    (program / "Cargo.toml").write_text(MANIFEST.format(crate=TOP / "rust"))
    (program / "src" / "main.rs").write_text(RUST)
    run(
        "cargo",
        "build",
        "--quiet",
        "--offline",
        "--config",
        'source.crates-io.replace-with="debian"',
        "--config",
        'source.debian.directory="/usr/share/cargo/registry"',
        cwd=program,
        env={**environment, "HIKEBOX_LIB_DIR": str(work), "CARGO_TARGET_DIR": str(work / "target")},
    )
    run(work / "target" / "debug" / "traced", env=environment)


def run_c(work: pathlib.Path, environment: dict[str, str]) -> None:
    run("gcc", TOP / "examples" / "c" / "retry.c", f"-I{DIST}", work / "libhikebox.a", "-o", work / "retry")
    run(work / "retry", env=environment)


def trace(language: str, work: pathlib.Path) -> str:
    """The calls that a program of this language makes, in order, those that come several times in a row once."""
    path = work / f"{language}.trace"
    environment = {name: value for name, value in os.environ.items() if not name.startswith("HIKEBOX")}
    {"Python": run_python, "Rust": run_rust, "C": run_c}[language](work, {**environment, "HIKEBOX_TRACE": str(path)})
    lines: list[list[object]] = []
    for name in path.read_text().split():
        if lines and lines[-1][0] == name:
            lines[-1][1] = int(str(lines[-1][1])) + 1
        else:
            lines.append([name, 1])
    calls = "".join(f"  {name}{'' if times == 1 else f'  x {times}'}\n" for name, times in lines)
    return f"{language}\n{calls}"


def main() -> None:
    with tempfile.TemporaryDirectory() as folder:
        work = pathlib.Path(folder)
        build_library(work)
        found = "".join(trace(language, work) for language in ("Python", "Rust", "C"))
    before, begin, rest = PAGE.read_text().partition(BEGIN)
    printed, end, after = rest.partition(END)
    if sys.argv[1:] == ["--write"]:
        PAGE.write_text(before + begin + found + end + after)
    elif sys.argv[1:] != ["--check"]:
        print(found, end="")
    elif printed != found:
        sys.exit(
            f"tests/trace.py: {PAGE.relative_to(TOP)} has another trace; tests/trace.py --write writes it:\n{found}"
        )
    else:
        print("tests/trace.py: the traces of Python, Rust and C are those of docs/ARCHITECTURE.md")


if __name__ == "__main__":
    main()
